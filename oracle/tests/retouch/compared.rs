//! Lists of calls beside the desk and beside the model of the call.

use crate::buffers::Buffers;
use oracle::calls::Retouch;
use oracle::given::Given;
use oracle::model::{self, Desk};
use oracle::random::Xorshift;
use oracle::scenes::Scene;
use oracle::seen::Seen;
use std::collections::BTreeSet;

/// Where the answers of accepted calls begin.
const ACCEPTED: u32 = 256;

/// What lists of calls on valid chains are answered: every count, and both refusals.
pub const LISTED: [u32; 8] = [
    9,
    22,
    accepted(0),
    accepted(1),
    accepted(2),
    accepted(3),
    accepted(4),
    accepted(5),
];

/// The class of the accepted answers with this count.
pub const fn accepted(count: u32) -> u32 {
    ACCEPTED + 32 * count
}

/// What a test draws its inputs from, and what it saw.
pub struct Compared {
    pub random: Xorshift,
    test: &'static str,
    lists: u64,
    /// Refusals by their number, accepted calls by their count.
    classes: Seen,
    pub masks: BTreeSet<u32>,
}

impl Compared {
    pub fn new(test: &'static str, seed: u64) -> Self {
        Self {
            random: Xorshift::new(seed),
            test,
            lists: 0,
            classes: Seen::default(),
            masks: BTreeSet::new(),
        }
    }

    /// Says what was seen. A test that has not seen a class of answers that it is about fails.
    pub fn finish(self, expected: &[u32]) {
        let (test, all, lists) = (self.test, self.classes.all(), self.lists);
        let masks = self.masks.len();
        let said = format!("{test}: {all} calls in {lists} lists, {masks} masks");
        let name = |class| match class {
            ..ACCEPTED => class.to_string(),
            _ => format!("accepted, count {}", (class - ACCEPTED) / 32),
        };
        self.classes.finish(&said, name, expected);
    }

    /// From the scene's picture and its strip: the answers and the bytes are the desk's, and
    /// storing the picture afresh gives the strip.
    pub fn with_desk(&mut self, scene: &Scene) {
        let given = &scene.given;
        let mut desk = Desk::new(given.valid(), &scene.picture);
        let (beyond_picture, beyond_strip) = (self.beyond(), self.beyond());
        let mut buffers = Buffers::new(
            &mut self.random,
            given,
            &[desk.picture(), &beyond_picture].concat(),
            &[&desk.strip(), &beyond_strip[..]].concat(),
        );
        for &retouch in &scene.list {
            let answer = buffers.retouch(retouch);
            let expected = desk.answer(retouch);
            assert_eq!(answer, expected, "{retouch:?}, {}", given.shown());
            self.saw(answer);
        }
        let strip = desk.strip();
        buffers.check(
            &[desk.picture(), &beyond_picture].concat(),
            &[&strip, &beyond_strip[..]].concat(),
            "after the list",
        );
        buffers.check_kept();
        assert!(buffers.stored_afresh(strip.len()) == strip);
        self.lists += 1;
    }

    /// From any buffers, and any chain: answers and bytes are the model's. Returns what both buffers
    /// hold after the list.
    pub fn with_model(
        &mut self,
        given: &Given,
        picture: &[u8],
        strip: &[u8],
        list: &[Retouch],
    ) -> (Vec<u8>, Vec<u8>) {
        let Given {
            width,
            height,
            chain,
            data,
        } = given;
        let mut buffers = Buffers::new(&mut self.random, given, picture, strip);
        let (mut picture, mut strip) = (picture.to_vec(), strip.to_vec());
        for &retouch in list {
            let answer = buffers.retouch(retouch);
            let model = model::retouch(
                *width,
                *height,
                chain,
                data,
                &mut picture,
                &mut strip,
                retouch,
            );
            assert_eq!(answer, model, "{retouch:?}, {}", given.shown());
            buffers.check(&picture, &strip, &format!("{answer} to {retouch:?}"));
            self.saw(answer);
        }
        buffers.check_kept();
        self.lists += 1;
        (picture, strip)
    }

    fn saw(&mut self, answer: u32) {
        let class = match answer {
            ..ACCEPTED => answer,
            _ => {
                self.masks.insert(answer % 32);
                answer - answer % 32
            }
        };
        self.classes.saw(class);
    }

    pub fn beyond(&mut self) -> Vec<u8> {
        self.random.beyond(70)
    }
}

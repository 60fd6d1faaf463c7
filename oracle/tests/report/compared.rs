//! Lists of reports beside the model, and beside what their accepted maps have of each color.

use oracle::lent::Lent;
use oracle::random::Xorshift;
use oracle::seen::Seen;
use oracle::shipments::{Map, Shipment};
use oracle::{calls, model};
use std::collections::BTreeMap;

/// What a test draws its inputs from, and what it saw.
pub struct Compared {
    pub random: Xorshift,
    test: &'static str,
    lists: u64,
    answers: Seen,
}

/// What a list of calls returned, and the numbers that it left in the counters.
pub struct Reported {
    pub answers: Vec<u32>,
    pub numbers: Vec<u64>,
}

impl Compared {
    pub fn new(test: &'static str, seed: u64) -> Self {
        Self {
            random: Xorshift::new(seed),
            test,
            lists: 0,
            answers: Seen::default(),
        }
    }

    /// Says how many answers there were. A test that has not seen an answer that it is about fails.
    pub fn finish(self, expected: &[u32]) {
        let (test, all, lists) = (self.test, self.answers.all(), self.lists);
        let said = format!("{test}: {all} calls in {lists} lists");
        self.answers
            .finish(&said, |answer| answer.to_string(), expected);
    }

    /// Every answer is the model's, and so is every byte of the counters after it.
    pub fn list(&mut self, shipment: &Shipment) -> Reported {
        let Shipment {
            colors,
            counters,
            maps,
        } = shipment;
        let lent_colors = Lent::new(&mut self.random, colors);
        let mut lent = Lent::new(&mut self.random, counters);
        let mut expected = counters.clone();
        let mut answers = Vec::new();
        for (at, map) in maps.iter().enumerate() {
            let answer = self.report(map, lent_colors.slice(), &mut lent);
            let Map { width, height, .. } = *map;
            let shown = || format!("map {at}, {width} by {height}, {}", shipment.shown());
            let model = model::report(width, height, &map.picture, colors, &mut expected);
            assert_eq!(answer, model, "{}", shown());
            let wrong = (0..expected.len()).find(|&i| lent.slice()[i] != expected[i]);
            assert_eq!(wrong, None, "a byte after {answer} to {}", shown());
            answers.push(answer);
        }
        assert!(lent_colors.slice() == colors, "{}", shipment.shown());
        assert!(lent_colors.kept_around() && lent.kept_around());
        check_growth(shipment, &answers, lent.slice());
        self.lists += 1;
        Reported {
            answers,
            numbers: numbers(lent.slice()),
        }
    }

    fn report(&mut self, map: &Map, colors: &[u8], counters: &mut Lent) -> u32 {
        let Map {
            width,
            height,
            picture,
        } = map;
        let lent = Lent::new(&mut self.random, picture);
        let answer = calls::report(*width, *height, lent.slice(), colors, counters.slice_mut());
        assert!(lent.slice() == picture && lent.kept_around());
        self.answers.saw(answer);
        answer
    }
}

/// Without the model: each counter has grown by the pixels of its color in the accepted maps, and
/// all together by all of their pixels.
fn check_growth(shipment: &Shipment, answers: &[u32], after: &[u8]) {
    let mut pixels = BTreeMap::<[u8; 4], u64>::new();
    let mut all = 0;
    let maps = shipment.maps.iter().zip(answers);
    for (map, _) in maps.filter(|(_, &answer)| answer == 0) {
        let len = (map.width * map.height) as usize;
        for &pixel in &map.picture.as_chunks().0[..len] {
            *pixels.entry(pixel).or_default() += 1;
        }
        all += len as u64;
    }
    if all == 0 {
        assert!(after == shipment.counters, "written and refused");
        return;
    }
    let numbers = numbers(after).into_iter().zip(numbers(&shipment.counters));
    let growth = |(after, before): (u64, u64)| after.checked_sub(before);
    let mut growths = numbers.map(|pair| growth(pair).expect("no counter is less"));
    let mut together = 0;
    for color in shipment.colors.as_chunks().0 {
        let growth = growths.next().expect("each color has a counter");
        assert_eq!(growth, pixels.remove(color).unwrap_or(0), "{color:?}");
        together += growth;
    }
    let others = growths.next().expect("there is one for all others");
    assert_eq!(others, pixels.into_values().sum::<u64>(), "others");
    assert_eq!(together + others, all);
}

fn numbers(counters: &[u8]) -> Vec<u64> {
    let counters = counters.as_chunks().0.iter();
    counters.copied().map(u64::from_le_bytes).collect()
}

//! Both calls beside the model, on the same bytes.

use oracle::given::Given;
use oracle::lent::Lent;
use oracle::random::Xorshift;
use oracle::seen::Seen;
use oracle::{calls, model};

/// What a test draws its inputs from, and what it saw.
pub struct Compared {
    pub random: Xorshift,
    test: &'static str,
    answers: Seen,
}

/// What a call returned, and its written buffer.
pub struct Called {
    pub answer: u32,
    pub bytes: Vec<u8>,
}

impl Compared {
    pub fn new(test: &'static str, seed: u64) -> Self {
        Self {
            random: Xorshift::new(seed),
            test,
            answers: Seen::default(),
        }
    }

    /// Says how many answers there were. A test that has not seen an answer that it is about fails.
    pub fn finish(self, expected: &[u32]) {
        let said = format!("{}: {} comparisons", self.test, self.answers.all());
        self.answers
            .finish(&said, |answer| answer.to_string(), expected);
    }

    /// `image` is the whole buffer before the call.
    pub fn rebuild(&mut self, given: &Given, image: &[u8]) -> Called {
        let Given {
            width,
            height,
            chain,
            data,
        } = given;
        let mut expected = image.to_vec();
        let answer = model::rebuild(*width, *height, chain, data, &mut expected);

        let lent_chain = Lent::new(&mut self.random, chain);
        let lent_data = Lent::new(&mut self.random, data);
        let mut lent = Lent::new(&mut self.random, image);
        let called = Called {
            answer: calls::rebuild(
                *width,
                *height,
                lent_chain.slice(),
                lent_data.slice(),
                lent.slice_mut(),
            ),
            bytes: lent.slice().to_vec(),
        };
        self.check("rebuild", given, image, &called, (answer, &expected));
        check_kept(given, &[(&lent_chain, chain), (&lent_data, data)], &lent);
        called
    }

    /// `strip` is the whole buffer before the call.
    pub fn store(&mut self, given: &Given, picture: &[u8], strip: &[u8]) -> Called {
        let Given {
            width,
            height,
            chain,
            data,
        } = given;
        let mut expected = strip.to_vec();
        let answer = model::store(*width, *height, chain, data, picture, &mut expected);

        let lent_chain = Lent::new(&mut self.random, chain);
        let lent_data = Lent::new(&mut self.random, data);
        let lent_picture = Lent::new(&mut self.random, picture);
        let mut lent = Lent::new(&mut self.random, strip);
        let called = Called {
            answer: calls::store(
                *width,
                *height,
                lent_chain.slice(),
                lent_data.slice(),
                lent_picture.slice(),
                lent.slice_mut(),
            ),
            bytes: lent.slice().to_vec(),
        };
        self.check("store", given, strip, &called, (answer, &expected));
        let read = [
            (&lent_chain, chain.as_slice()),
            (&lent_data, data),
            (&lent_picture, picture),
        ];
        check_kept(given, &read, &lent);
        called
    }

    fn check(
        &mut self,
        call: &str,
        given: &Given,
        before: &[u8],
        called: &Called,
        (answer, expected): (u32, &[u8]),
    ) {
        assert_eq!(called.answer, answer, "{call} answers {}", given.shown());
        assert!(
            called.bytes == expected,
            "{call} answers {answer} to {}; of {} bytes the first wrong one is {:?}",
            given.shown(),
            expected.len(),
            (0..expected.len()).find(|&i| called.bytes[i] != expected[i]),
        );
        assert!(answer == 0 || called.bytes == before, "written and refused");
        self.answers.saw(answer);
    }
}

/// What is only read has to be unchanged, and so has everything around the slices.
fn check_kept(given: &Given, read: &[(&Lent, &[u8])], written: &Lent) {
    for (lent, bytes) in read {
        assert!(lent.slice() == *bytes, "input written, {}", given.shown());
        assert!(lent.kept_around(), "written near input, {}", given.shown());
    }
    assert!(written.kept_around(), "written outside, {}", given.shown());
}

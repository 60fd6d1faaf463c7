//! The exported color map calls, held against the Rust's `adjust_color_map` and its undoing.

#[cfg(not(rust_source))]
#[test]
#[ignore = "skipped: the Rust source of ../shared is absent"]
fn calls_are_compared_with_the_rust() {}

#[cfg(rust_source)]
mod compared {
    use oracle::calls::{adjust_color_map, unadjust_color_map};
    use oracle::lent::Lent;
    use oracle::random::Xorshift;

    struct Called {
        answer: u32,
        bytes: Vec<u8>,
    }

    const ACCEPTED: u32 = 0;
    const REFUSED: u32 = 10;

    #[test]
    fn every_length() {
        let mut random = Xorshift::new(0x5DEE_CE66_D1CE_CAFE);
        for len in 0..=1100 {
            for _ in 0..8 {
                let bytes = random.bytes(len);
                compare(&mut random, &bytes);
            }
        }
    }

    /// Lengths whose low 16 bits, or low 8 bits of entries, would be accepted.
    #[test]
    fn far_too_long() {
        let mut random = Xorshift::new(0x2545_F491_4F6C_DD1D);
        for len in [1280, 2048, 4096, 65_536, 65_540, 66_560, 1 << 20] {
            let bytes = random.bytes(len);
            compare(&mut random, &bytes);
        }
    }

    #[test]
    fn every_size_with_many_fills() {
        let mut random = Xorshift::new(0x9FB2_1C65_1E98_DF25);
        for entries in 1..=256 {
            for fill in [0, 1, 127, 128, 255] {
                compare(&mut random, &vec![fill; 4 * entries]);
            }
            for _ in 0..200 {
                let bytes = random.bytes(4 * entries);
                compare(&mut random, &bytes);
            }
        }
    }

    fn compare(random: &mut Xorshift, bytes: &[u8]) {
        let accepted = matches!(bytes.len(), 4..=1024) && bytes.len().is_multiple_of(4);
        if !accepted {
            expect(&adjusted(random, bytes), REFUSED, bytes);
            expect(&unadjusted(random, bytes), REFUSED, bytes);
            return;
        }
        let adjusted = adjusted(random, bytes);
        expect(&adjusted, ACCEPTED, &by_rust(bytes));
        expect(&unadjusted(random, &adjusted.bytes), ACCEPTED, bytes);

        // Any bytes undone are bytes of which the Rust makes them again.
        let mut undone = unadjusted(random, bytes);
        undone.bytes = by_rust(&undone.bytes);
        expect(&undone, ACCEPTED, bytes);
    }

    /// Without the bytes in its message, which may be very many.
    fn expect(called: &Called, answer: u32, bytes: &[u8]) {
        let len = bytes.len();
        assert_eq!(called.answer, answer, "the answer to {len} bytes");
        assert!(
            called.bytes == bytes,
            "of {len} bytes the first wrong one is {:?}",
            (0..len).find(|&i| called.bytes[i] != bytes[i]),
        );
    }

    fn by_rust(bytes: &[u8]) -> Vec<u8> {
        let mut bytes = bytes.to_vec();
        oracle::color_map(&mut bytes);
        bytes
    }

    fn adjusted(random: &mut Xorshift, bytes: &[u8]) -> Called {
        called(adjust_color_map, random, bytes)
    }

    fn unadjusted(random: &mut Xorshift, bytes: &[u8]) -> Called {
        called(unadjust_color_map, random, bytes)
    }

    /// Lends `bytes` to `call` from the middle of a buffer, and checks that nothing around them is
    /// written.
    fn called(call: fn(&mut [u8]) -> u32, random: &mut Xorshift, bytes: &[u8]) -> Called {
        let mut lent = Lent::new(random, bytes);
        let answer = call(lent.slice_mut());
        assert!(lent.kept_around(), "written outside the slice");
        Called {
            answer,
            bytes: lent.slice().to_vec(),
        }
    }
}

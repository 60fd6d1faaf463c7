//! The list in the repository: it is what the Rust answers today, and it can be replayed.

use std::collections::BTreeSet;
use std::fs;

fn list() -> Vec<u8> {
    let file = concat!(env!("CARGO_MANIFEST_DIR"), "/../crates/replay/stdin");
    fs::read(file).unwrap_or_else(|error| panic!("crates/replay/stdin: {error}"))
}

#[cfg(rust_source)]
#[test]
fn list_is_what_the_rust_answers() {
    let list = list();
    let answers = oracle::list::answers();
    let alike = list.iter().zip(&answers).take_while(|(a, b)| a == b);
    let alike = alike.count();
    assert!(
        list == answers,
        "crates/replay/stdin has {} bytes, the answers have {}; the first {alike} are alike",
        list.len(),
        answers.len(),
    );
}

#[cfg(not(rust_source))]
#[test]
#[ignore = "skipped: the Rust source of ../shared is absent"]
fn list_is_what_the_rust_answers() {}

/// Goes from header to header as a replayer does.
#[test]
fn list_can_be_replayed() {
    let list = list();
    let mut rest = list.as_slice();
    let mut cases = [0; 9];
    let mut answers = BTreeSet::new();
    let (mut retouched, mut reported) = (BTreeSet::new(), BTreeSet::new());
    while !rest.is_empty() {
        let header = part(&mut rest, 16);
        let call = header[0];
        cases[usize::from(call)] += 1;
        if call == 8 {
            reported.extend(reports(header, &mut rest));
            continue;
        }
        for (at, len) in part_lengths(header).into_iter().enumerate() {
            let part = part(&mut rest, len);
            if (call, at) == (7, CALLS) {
                retouched.extend(part.chunks_exact(16).map(class));
            }
        }
        if let 5 | 6 = call {
            answers.insert(header[1]);
        }
    }
    assert!(answers.into_iter().eq([0, 1, 2, 3, 4, 5, 6, 7, 8, 21]));
    let counts = (0..=5).map(|count| 256 + 32 * count);
    assert!(retouched.into_iter().eq((1..10).chain([22]).chain(counts)));
    assert!(reported.into_iter().eq([0, 1, 8, 23, 24]));
    assert!(cases.iter().all(|&count| count > 0), "{cases:?}");
}

/// Pictures are stored, and next a strip that storing does not make rebuilds to the same picture.
#[test]
fn list_keeps_strips_stored_earlier() {
    let list = list();
    let mut rest = list.as_slice();
    let mut stored: Vec<&[u8]> = Vec::new();
    let mut earlier = 0;
    while rest[0] < 7 {
        let header = part(&mut rest, 16);
        let lengths = part_lengths(header).into_iter();
        let parts: Vec<&[u8]> = lengths.map(|len| part(&mut rest, len)).collect();
        match (header[0], parts.as_slice(), stored.as_slice()) {
            (5, [chain, data, image, rebuilt], [store_chain, store_data, picture, strip]) => {
                let same = (chain, data, rebuilt) == (store_chain, store_data, picture);
                earlier += u32::from(same && !image.starts_with(strip));
            }
            (6, ..) => stored = parts,
            _ => {}
        }
    }
    assert!(earlier > 100, "{earlier}");
}

fn part<'a>(rest: &mut &'a [u8], len: usize) -> &'a [u8] {
    assert!(len <= 16384);
    rest.split_off(..len).expect("a whole part")
}

/// Which part of a list of retouches has the calls.
const CALLS: usize = 4;

/// The answer to a retouch without its mask.
fn class(call: &[u8]) -> u32 {
    let answer = answer(call);
    match answer {
        ..256 => answer,
        _ => answer - answer % 32,
    }
}

fn answer(call: &[u8]) -> u32 {
    u32::from_le_bytes(call[12..].try_into().unwrap())
}

/// The answers of a list of reports. Each call's picture follows it.
fn reports(header: &[u8], rest: &mut &[u8]) -> Vec<u32> {
    let (colors, counters) = (short(header, 2), short(header, 4));
    part(rest, colors);
    part(rest, counters);
    let report = |_| {
        let call = part(rest, 16);
        part(rest, long(call, 8));
        answer(call)
    };
    let answers = (0..header[1]).map(report).collect();
    part(rest, counters);
    answers
}

fn part_lengths(header: &[u8]) -> Vec<usize> {
    let (short, long) = (|at| short(header, at), |at| long(header, at));
    match header[0] {
        0..5 => vec![long(8), long(12), 4 * short(4) * short(6)],
        5..7 => vec![short(2), short(8), long(12), short(10)],
        _ => {
            let (picture, strip, calls) = (long(12), short(10), 16 * usize::from(header[1]));
            vec![short(2), short(8), picture, strip, calls, picture, strip]
        }
    }
}

fn short(bytes: &[u8], at: usize) -> usize {
    usize::from(u16::from_le_bytes([bytes[at], bytes[at + 1]]))
}

fn long(bytes: &[u8], at: usize) -> usize {
    short(bytes, at) + 65536 * short(bytes, at + 2)
}

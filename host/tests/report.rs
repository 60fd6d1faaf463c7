//! Reports, held against counts made here pixel by pixel.

mod common;

use common::Xorshift;
use letchwater::{report_into, Error, Picture, Pixel, Refusal, Report, Size};

const A: Pixel = Pixel::opaque(90, 95, 102);
const B: Pixel = Pixel::new(0, 110, 60, 8);
const OTHER: Pixel = Pixel::opaque(70, 160, 140);

fn row(pixels: &[Pixel]) -> Picture {
    let size = Size::new(pixels.len() as u32, 1);
    Picture::from_pixels(size, pixels.iter().copied()).unwrap()
}

/// A report on A and B with these counts.
fn report(counts: [u64; 3]) -> Report {
    Report::from_counters(&[A, B], counts.map(u64::to_le_bytes).concat()).unwrap()
}

/// What a picture adds: how many pixels of each color, then of all others.
fn plain_counts(colors: &[Pixel], picture: &Picture) -> Vec<u64> {
    let mut counts = vec![0; colors.len() + 1];
    for pixel in picture.pixels() {
        let listed = colors.iter().position(|&color| color == pixel);
        counts[listed.unwrap_or(colors.len())] += 1;
    }
    counts
}

/// No two alike, and most alike to another in three bytes.
fn near_colors(random: &mut Xorshift, count: usize) -> Vec<Pixel> {
    let mut colors = Vec::new();
    while colors.len() < count {
        let base = random.pixels(1)[0].to_bytes();
        for changed in 0..4 {
            let mut near = base;
            near[changed] ^= 1 << (random.byte() % 8);
            for color in [base, near].map(Pixel::from_bytes) {
                if !colors.contains(&color) {
                    colors.push(color);
                }
            }
        }
    }
    colors.truncate(count);
    colors
}

/// Of these colors; every fourth is a size that is refused.
fn random_picture(random: &mut Xorshift, i: u32, colors: &[Pixel]) -> Picture {
    let mut below =
        |end: usize| (usize::from(random.byte()) << 8 | usize::from(random.byte())) % end;
    let size = match i % 8 {
        3 => Size::new(16_385, 1),
        7 => Size::new(below(9) as u32, 0),
        _ => Size::new(1 + below(40) as u32, 1 + below(40) as u32),
    };
    let pixels = (0..size.pixel_count()).map(|_| colors[below(colors.len())]);
    Picture::from_pixels(size, pixels.collect::<Vec<_>>()).unwrap()
}

/// Document 02's claim over a list of calls, accepted or refused, from counters that are not zero.
#[test]
fn lists_of_reports() {
    let mut random = Xorshift::new(0x5DEE_CE66_D1CE_CAFE);
    for count in [1, 2, 3, 9, 40, 255, 256] {
        let painted = near_colors(&mut random, 2 * count + 1);
        let colors: Vec<Pixel> = painted.iter().copied().step_by(2).take(count).collect();
        let mut counts: Vec<u64> = (0..=count).map(|_| random.byte().into()).collect();
        let kept = counts.iter().flat_map(|count| count.to_le_bytes());
        let mut report = Report::from_counters(&colors, kept.collect()).unwrap();
        for i in 0..24 {
            let picture = random_picture(&mut random, i, &painted);
            let answer = report.add(&picture);
            if i % 4 == 3 {
                assert_eq!(answer, Err(Error::Refused(Refusal::SizeOutOfRange)));
            } else {
                assert_eq!(answer, Ok(()));
                for (count, added) in counts.iter_mut().zip(plain_counts(&colors, &picture)) {
                    *count += added;
                }
            }
            assert!(report.counts().eq(counts.iter().copied()));
        }
        assert!(report.colors().eq(colors.iter().copied()));
        let bytes = counts.iter().flat_map(|count| count.to_le_bytes());
        assert!(bytes.eq(report.counters().iter().copied()));
    }
}

#[test]
fn every_bit_of_a_color_counts() {
    let bits = u32::from_le_bytes(A.to_bytes());
    let near = (0..32).map(|bit| Pixel::from_bytes((bits ^ 1 << bit).to_le_bytes()));
    let near: Vec<Pixel> = near.collect();
    let mut report = Report::new(&[A, B]).unwrap();
    report.add(&row(&near)).unwrap();
    assert!(report.counts().eq([0, 0, 32]));

    let mut by_itself = Report::new(&near).unwrap();
    by_itself.add(&row(&near)).unwrap();
    assert!(by_itself.counts().eq([[1; 32].as_slice(), &[0]].concat()));
    assert_eq!(by_itself.count(near[31]), Some(1));
    assert_eq!(by_itself.count(A), None);
}

#[test]
fn widest_and_highest() {
    for size in [Size::new(16_384, 2), Size::new(2, 16_384)] {
        let picture = Picture::from_pixels(size, vec![B; size.pixel_count()]).unwrap();
        let mut report = Report::new(&[A, B]).unwrap();
        report.add(&picture).unwrap();
        assert!(report.counts().eq([0, 32_768, 0]));
    }
}

#[test]
fn counters_carry_into_every_byte() {
    for bits in (8..64).step_by(8) {
        let mut report = report([(1 << bits) - 1; 3]);
        report.add(&row(&[A, B, OTHER])).unwrap();
        assert!(report.counts().eq([1 << bits; 3]));
    }
}

/// A counter that is full refuses its color alone.
#[test]
fn a_full_counter_goes_on_without_its_color() {
    let mut report = report([u64::MAX, u64::MAX - 1, u64::MAX]);
    let refused = Err(Error::Refused(Refusal::CounterOverflow));
    assert_eq!(report.add(&row(&[B, A])), refused);
    assert_eq!(report.add(&row(&[B, OTHER])), refused);
    assert_eq!(report.add(&row(&[B])), Ok(()));
    assert_eq!(report.add(&row(&[B])), refused);
    assert!(report.counts().eq([u64::MAX; 3]));
    assert_eq!(report.total(), 3 * u128::from(u64::MAX));
    assert_eq!(report.shares(), [3334, 3333, 3333]);
}

/// Lent buffers that are longer than needed keep the bytes beyond, and these are not counted.
#[test]
fn bytes_beyond_stay() {
    let colors = [A, B].map(Pixel::to_bytes).concat();
    let picture = row(&[A, B, A, OTHER]);
    let long_picture = [picture.as_bytes(), &A.to_bytes().repeat(9)].concat();
    let beyond = [0xA5; 40];
    let mut counters = [&[0; 24], beyond.as_slice()].concat();
    report_into(picture.size(), &long_picture, &colors, &mut counters).unwrap();
    let mut report = Report::new(&[A, B]).unwrap();
    report.add(&picture).unwrap();
    assert_eq!(counters, [report.counters(), &beyond].concat());
}

#[test]
fn kept_counters() {
    let mut report = report([7, 8, 9]);
    let kept = report.counters().to_vec();
    let mut resumed = Report::from_counters(&[A, B], kept).unwrap();
    assert_eq!(resumed, report);
    report.add(&row(&[A, OTHER, OTHER])).unwrap();
    resumed.add(&row(&[A, OTHER, OTHER])).unwrap();
    assert_eq!(resumed, report);
    assert!(resumed.counts().eq([8, 8, 11]));
    assert_eq!(resumed.others(), 11);

    for given in [0, 8, 16, 23, 25, 32] {
        let answer = Report::from_counters(&[A, B], vec![0; given]);
        assert_eq!(answer, Err(Error::CounterBytes { colors: 2, given }));
        let twice = Report::from_counters(&[A, A], vec![0; given]);
        assert_eq!(twice, Err(Refusal::ColorList.into()));
    }
}

#[test]
fn tables() {
    let expected = "\
color      pixels     share
#5a5f66ff    1800   42.86 %
#006e3c08    1200   28.57 %
others       1200   28.57 %
all          4200  100.00 %";
    assert_eq!(report([1800, 1200, 1200]).to_string(), expected);

    let nothing = "\
color      pixels     share
#5a5f66ff       0    0.00 %
#006e3c08       0    0.00 %
others          0    0.00 %
all             0    0.00 %";
    assert_eq!(report([0; 3]).to_string(), nothing);

    let widest = "\
color                    pixels     share
#5a5f66ff  18446744073709551615   50.00 %
#006e3c08                     1    0.00 %
others     18446744073709551614   50.00 %
all        36893488147419103230  100.00 %";
    assert_eq!(report([u64::MAX, 1, u64::MAX - 1]).to_string(), widest);
}

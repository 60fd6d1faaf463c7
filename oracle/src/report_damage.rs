//! Ways to damage a report, each of which calls for one refusal.

use crate::given::no_entry;
use crate::random::Xorshift;
use crate::shipments::{distinct, Map, Shipment, MOST};
use std::iter::repeat_with;

/// The first map of a shipment is damaged, or what it shares with the others.
pub struct Damage {
    pub number: u32,
    edit: Box<dyn Fn(&mut Shipment)>,
}

impl Damage {
    fn new(number: u32, edit: impl Fn(&mut Shipment) + 'static) -> Self {
        Self {
            number,
            edit: Box::new(edit),
        }
    }

    pub fn apply(&self, shipment: &mut Shipment) {
        (self.edit)(shipment);
    }
}

/// A shipment of one map, which has a pixel of each color and one of none; all is exactly as long
/// as needed. The counters are low.
pub fn undamaged(random: &mut Xorshift, colors: &[[u8; 4]]) -> Shipment {
    let mut pixels = colors.to_vec();
    pixels.push(no_entry(random, colors));
    random.shuffle(&mut pixels);
    let count = pixels.len();
    let counter = |_| (random.number() >> 1).to_le_bytes();
    Shipment {
        colors: colors.as_flattened().to_vec(),
        counters: (0..count).flat_map(counter).collect(),
        maps: vec![Map::new(count as u32, 1, pixels)],
    }
}

/// In the order in which they are tested: of two the earlier one is answered.
pub fn damages(random: &mut Xorshift, shipment: &Shipment) -> Vec<Damage> {
    let mut damages = sides(&shipment.maps[0]);
    damages.extend(lists(random, &shipment.colors));
    damages.extend(buffers(shipment));
    damages.extend(full_counters(shipment.counters.len() / 8));
    damages
}

/// Refusal 1: just out of range, far out of range, and right in the low 16 bits.
fn sides(map: &Map) -> Vec<Damage> {
    let mut damages = Vec::new();
    for side in [0, 16385, 1 << 31, u32::MAX] {
        damages.push(Damage::new(1, move |it| it.maps[0].width = side));
        damages.push(Damage::new(1, move |it| it.maps[0].height = side));
    }
    let (width, height) = (map.width + 65536, map.height + 65536);
    damages.push(Damage::new(1, move |it| it.maps[0].width = width));
    damages.push(Damage::new(1, move |it| it.maps[0].height = height));
    damages
}

/// Refusal 23. The whole list is set, so that no other damage can undo this one.
fn lists(random: &mut Xorshift, colors: &[u8]) -> Vec<Damage> {
    let len = colors.len();
    let listed = colors.as_chunks::<4>().0;
    // No color twice: a longer list is wrong by its length alone.
    let mut more = listed.iter().copied().chain(repeat_with(|| random.pixel()));
    let longest = distinct(MOST + 1, || more.next().expect("it has no end")).into_flattened();
    let lengths = [0, 1, 2, 3, len - 1, len + 1, len + 2, len + 3, 1025, 1028];
    let mut wrong: Vec<Vec<u8>> = lengths.map(|len| longest[..len].to_vec()).into();
    let last = listed.len() - 1;
    if last > 0 {
        let places = [(0, last), (last, 0), (0, 1), (last, last - 1)];
        wrong.extend(places.map(|(from, to)| listed_twice(listed, from, to)));
    }
    let set = |list: Vec<u8>| Damage::new(23, move |it| it.colors.clone_from(&list));
    wrong.into_iter().map(set).collect()
}

/// The list with one of its colors in another one's place too.
pub fn listed_twice(colors: &[[u8; 4]], from: usize, to: usize) -> Vec<u8> {
    let mut twice = colors.to_vec();
    twice[to] = twice[from];
    twice.into_flattened()
}

/// Refusal 8: nothing, a counter or a pixel short, a byte short, and the longest sides there are.
fn buffers(shipment: &Shipment) -> Vec<Damage> {
    let mut damages = Vec::new();
    let (counters, picture) = (shipment.counters.len(), shipment.maps[0].picture.len());
    for len in [0, counters - 8, counters - 1] {
        damages.push(Damage::new(8, move |it| it.counters.truncate(len)));
    }
    damages.push(Damage::new(8, |it| it.maps[0].width = 16384));
    damages.push(Damage::new(8, |it| it.maps[0].height = 16384));
    for len in [0, picture - 4, picture - 1] {
        damages.push(Damage::new(8, move |it| it.maps[0].picture.truncate(len)));
    }
    damages
}

/// Refusal 24: the first counter, the last, and those next to them.
fn full_counters(count: usize) -> Vec<Damage> {
    let full = |at| Damage::new(24, move |it| it.set_counter(at, u64::MAX));
    [0, 1, count - 2, count - 1].map(full).into()
}

//! The reports of the list: lists of calls under one list of colors, answered by the model.

use crate::list::PART;
use crate::model::{self, counter_of};
use crate::random::Xorshift;
use crate::report_damage::{damages, listed_twice, undamaged, Damage};
use crate::shipments::{any_colors, any_pixels, distinct, of_one_slot, Map, Shipment, MOST};

/// How many calls a list of any maps has.
const CALLS: usize = 7;

/// A list of calls on the same counters.
pub(crate) struct ReportCase {
    shipment: Shipment,
    answers: Vec<u32>,
    /// The counters' whole buffer after the list.
    after: Vec<u8>,
}

impl ReportCase {
    fn by_model(shipment: Shipment) -> Self {
        let mut after = shipment.counters.clone();
        let answer = |map: &Map| {
            let (picture, colors) = (&map.picture, &shipment.colors);
            model::report(map.width, map.height, picture, colors, &mut after)
        };
        let answers = shipment.maps.iter().map(answer).collect();
        Self {
            shipment,
            answers,
            after,
        }
    }

    pub fn write(&self, list: &mut Vec<u8>) {
        let Shipment {
            colors,
            counters,
            maps,
        } = &self.shipment;
        assert!(colors.len().max(counters.len()) <= PART);
        list.extend([8, maps.len() as u8]);
        list.extend((colors.len() as u16).to_le_bytes());
        list.extend((counters.len() as u16).to_le_bytes());
        list.extend([0; 10]);
        list.extend(colors);
        list.extend(counters);
        for (map, answer) in maps.iter().zip(&self.answers) {
            assert!(map.picture.len() <= PART);
            list.extend(map.width.to_le_bytes());
            list.extend(map.height.to_le_bytes());
            list.extend((map.picture.len() as u32).to_le_bytes());
            list.extend(answer.to_le_bytes());
            list.extend(&map.picture);
        }
        list.extend(&self.after);
    }
}

/// Any maps, accepted and refused, under lists of every sort; then the largest part there may be.
pub(crate) fn shipment_cases(random: &mut Xorshift) -> Vec<ReportCase> {
    let mut shipments = Vec::new();
    for count in [1, 2, 3, 16, 17, 255, MOST] {
        for _ in 0..2 {
            let colors = any_colors(random, count);
            shipments.push(Shipment::any(random, &colors, CALLS));
        }
    }
    let colors = any_colors(random, MOST);
    let mut largest = undamaged(random, &colors);
    largest.maps = vec![Map::new(64, 64, any_pixels(random, PART / 4, &colors))];
    shipments.push(largest);
    shipments.into_iter().map(ReportCase::by_model).collect()
}

/// Lists that a look-up could get wrong: colors of one slot, of one bit and of none, and colors
/// that differ in one byte. Half of them are listed, and each is in the map.
pub(crate) fn list_cases(random: &mut Xorshift) -> Vec<ReportCase> {
    let mut lists = vec![of_one_slot(random, 2 * MOST), of_one_slot(random, 6)];
    let bits = (0..32).map(|bit| (1u32 << bit).to_le_bytes());
    lists.push(bits.chain([[0; 4]]).collect());
    for byte in 0..4 {
        let mut color = random.pixel();
        lists.push(distinct(12, || {
            color[byte] = color[byte].wrapping_add(21);
            color
        }));
    }
    let case = |mut seen: Vec<[u8; 4]>| {
        let listed = &seen[..seen.len() / 2];
        let mut shipment = undamaged(random, listed);
        random.shuffle(&mut seen);
        shipment.maps = vec![Map::new(seen.len() as u32, 1, seen)];
        ReportCase::by_model(shipment)
    };
    lists.into_iter().map(case).collect()
}

/// A color listed twice among 256 of one slot: far apart, and side by side.
pub(crate) fn twice_cases(random: &mut Xorshift) -> Vec<ReportCase> {
    let colors = of_one_slot(random, MOST);
    let mut shipment = undamaged(random, &colors);
    shipment.maps = vec![Map::new(1, 1, vec![colors[0]])];
    let last = MOST - 1;
    let case = |(from, to)| {
        let mut twice = shipment.clone();
        twice.colors = listed_twice(&colors, from, to);
        ReportCase::by_model(twice)
    };
    [(0, last), (last, 0), (127, 128)].map(case).into()
}

/// A counter with room for one map: the second is refused, and one without its color is accepted
/// after that. Then counters that carry into each byte.
pub(crate) fn full_cases(random: &mut Xorshift) -> Vec<ReportCase> {
    let colors = any_colors(random, 7);
    let mut cases = Vec::new();
    for full in [0, 3, 6, 7] {
        let mut shipment = undamaged(random, &colors);
        shipment.set_counter(full, u64::MAX - 1);
        let map = shipment.maps[0].clone();
        let mut pixels = map.picture.as_chunks().0.to_vec();
        pixels.retain(|pixel| counter_of(&colors, pixel) != full);
        let without = Map::new(pixels.len() as u32, 1, pixels);
        shipment.maps = vec![map.clone(), map, without];
        let case = ReportCase::by_model(shipment);
        assert_eq!(case.answers, [0, 24, 0]);
        cases.push(case);
    }
    let mut carrying = undamaged(random, &colors);
    for counter in 0..8 {
        carrying.set_counter(counter, (1 << (8 * counter)) - 1);
    }
    cases.push(ReportCase::by_model(carrying));
    cases
}

/// Every damage by itself, and every pair of numbers.
pub(crate) fn refused_reports(random: &mut Xorshift) -> Vec<ReportCase> {
    let colors = any_colors(random, 3);
    let shipment = undamaged(random, &colors);
    let damages = damages(random, &shipment);
    let mut cases: Vec<ReportCase> = damages
        .iter()
        .map(|damage| refused(&shipment, &[damage]))
        .collect();
    // Two for each number: a wrong length, for example, and a color listed twice.
    let numbers = damages.chunk_by(|a, b| a.number == b.number);
    let ends: Vec<&Damage> = numbers
        .flat_map(|ways| [&ways[0], &ways[ways.len() - 1]])
        .collect();
    for (at, first) in ends.iter().enumerate() {
        let others = |second: &&&Damage| second.number != first.number;
        for second in ends[at + 1..].iter().filter(others) {
            cases.push(refused(&shipment, &[second, first]));
        }
    }
    cases
}

/// The last damage is answered.
fn refused(shipment: &Shipment, damages: &[&Damage]) -> ReportCase {
    let mut damaged = shipment.clone();
    for damage in damages {
        damage.apply(&mut damaged);
    }
    let case = ReportCase::by_model(damaged);
    assert_eq!(case.answers.last(), damages.last().map(|last| &last.number));
    case
}

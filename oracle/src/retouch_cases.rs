//! The retouches of the list: lists of calls answered by the desk, and refusals of chains and
//! buffers answered by the model of the call.

use crate::calls::Retouch;
use crate::damage::{retouch_damages, Input};
use crate::given::{record, Given, Plan, COLOR, COLOR_TABLE, PREDICTOR, SIZES, SUBTRACT_GREEN};
use crate::list::PART;
use crate::model::{self, Desk};
use crate::random::Xorshift;
use crate::row_ends::listed_scenes;
use crate::scenes::Scene;

/// How many calls a list has.
const CALLS: usize = 6;

/// Every kind by itself, table and predictor in both orders with others around them, all four.
const CHAINS: [&[u8]; 22] = [
    &[],
    &[PREDICTOR],
    &[PREDICTOR],
    &[COLOR],
    &[SUBTRACT_GREEN],
    &[COLOR_TABLE],
    &[COLOR_TABLE],
    &[SUBTRACT_GREEN, PREDICTOR],
    &[SUBTRACT_GREEN, PREDICTOR, COLOR],
    &[COLOR_TABLE, PREDICTOR],
    &[COLOR_TABLE, PREDICTOR],
    &[COLOR_TABLE, PREDICTOR],
    &[PREDICTOR, COLOR_TABLE],
    &[PREDICTOR, COLOR_TABLE],
    &[PREDICTOR, COLOR_TABLE],
    &[COLOR, COLOR_TABLE],
    &[COLOR, COLOR_TABLE, PREDICTOR],
    &[PREDICTOR, COLOR, COLOR_TABLE],
    &[SUBTRACT_GREEN, COLOR_TABLE, COLOR, PREDICTOR],
    &[SUBTRACT_GREEN, PREDICTOR, COLOR_TABLE, COLOR],
    &[COLOR_TABLE, SUBTRACT_GREEN, PREDICTOR, COLOR],
    &[COLOR, SUBTRACT_GREEN, PREDICTOR, COLOR_TABLE],
];

/// A list of calls on the same buffers.
pub(crate) struct RetouchCase {
    given: Given,
    /// Both buffers before the list.
    before: [Vec<u8>; 2],
    list: Vec<(Retouch, u32)>,
    after: [Vec<u8>; 2],
}

impl RetouchCase {
    /// The buffers are longer than needed.
    fn by_desk(random: &mut Xorshift, scene: Scene) -> Self {
        let mut desk = Desk::new(scene.given.valid(), &scene.picture);
        let beyond = [random.bytes(3), random.bytes(5)];
        let buffers = |desk: &Desk| {
            let front = [desk.picture().to_vec(), desk.strip()];
            [0, 1].map(|i| [front[i].as_slice(), &beyond[i]].concat())
        };
        let before = buffers(&desk);
        let answered = |&retouch| (retouch, desk.answer(retouch));
        let list = scene.list.iter().map(answered).collect();
        let after = buffers(&desk);
        Self {
            given: scene.given,
            before,
            list,
            after,
        }
    }

    fn by_model(input: Input) -> Self {
        let given = input.given;
        let before = [input.picture, input.strip];
        let [mut picture, mut strip] = before.clone();
        let answer = model::retouch(
            given.width,
            given.height,
            &given.chain,
            &given.data,
            &mut picture,
            &mut strip,
            input.retouch,
        );
        Self {
            given,
            before,
            list: vec![(input.retouch, answer)],
            after: [picture, strip],
        }
    }

    pub fn write(&self, list: &mut Vec<u8>) {
        let (given, [picture, strip]) = (&self.given, &self.before);
        assert!(given.data.len().max(picture.len()).max(strip.len()) <= PART);
        list.extend([7, self.list.len() as u8]);
        list.extend((given.chain.len() as u16).to_le_bytes());
        list.extend((given.width as u16).to_le_bytes());
        list.extend((given.height as u16).to_le_bytes());
        list.extend((given.data.len() as u16).to_le_bytes());
        list.extend((strip.len() as u16).to_le_bytes());
        list.extend((picture.len() as u32).to_le_bytes());
        list.extend(&given.chain);
        list.extend(&given.data);
        list.extend(self.before.concat());
        for (Retouch { x, y, color }, answer) in &self.list {
            list.extend(x.to_le_bytes());
            list.extend(y.to_le_bytes());
            list.extend(color);
            list.extend(answer.to_le_bytes());
        }
        list.extend(self.after.concat());
    }
}

/// Document 01's known retouches, modes that name several neighbors, then varied chains and every
/// band of tables.
pub(crate) fn desk_cases(random: &mut Xorshift) -> Vec<RetouchCase> {
    let mut scenes = known_scenes();
    scenes.extend(mode_scenes(random));
    for (kinds, size) in CHAINS.into_iter().zip(SIZES.into_iter().cycle()) {
        let width = 1 + random.below(17) as u16;
        let height = 1 + random.below(5) as u16;
        let mut plan = Plan::any(random, width, height, kinds);
        plan.size = size;
        scenes.push(Scene::any(random, &plan, CALLS));
    }
    by_desk(random, scenes)
}

/// Calls in the last column, from the pictures that are stored in the cases of one call.
pub(crate) fn row_end_lists(random: &mut Xorshift) -> Vec<RetouchCase> {
    let scenes = listed_scenes(random);
    by_desk(random, scenes)
}

fn by_desk(random: &mut Xorshift, scenes: Vec<Scene>) -> Vec<RetouchCase> {
    let by_desk = |scene| RetouchCase::by_desk(random, scene);
    scenes.into_iter().map(by_desk).collect()
}

fn known_scenes() -> Vec<Scene> {
    let retouch = |x, red| Retouch {
        x,
        y: 0,
        color: [red, 0, 0, 255],
    };
    let scene = |width, height, mode, list| Scene {
        given: Given {
            width,
            height,
            chain: record(PREDICTOR, 2, 0, 0, 4),
            data: vec![0, mode, 0, 0],
        },
        picture: [0, 0, 0, 255].repeat((width * height) as usize),
        list,
    };
    vec![
        scene(3, 1, 0, vec![retouch(1, 9), retouch(1, 9)]),
        scene(4, 2, 10, vec![retouch(2, 128)]),
    ]
}

/// One mode in all blocks of the last record, so that a retouch reaches up to five records.
fn mode_scenes(random: &mut Xorshift) -> Vec<Scene> {
    let mut scenes = Vec::new();
    for (mode, kinds) in [
        (5, &[PREDICTOR][..]),
        (10, &[PREDICTOR]),
        (13, &[COLOR, PREDICTOR]),
        (10, &[COLOR_TABLE, PREDICTOR]),
        (12, &[COLOR_TABLE, PREDICTOR]),
    ] {
        let mut plan = Plan::any(random, 6, 4, kinds);
        (plan.size, plan.overlapping) = (17, false);
        let mut scene = Scene::any(random, &plan, CALLS);
        for block in scene.given.part_mut(kinds.len() - 1) {
            block[1] = mode;
        }
        scenes.push(scene);
    }
    scenes
}

/// Refusals 1 to 8, and 8 before 22.
pub(crate) fn refused_cases(random: &mut Xorshift) -> Vec<RetouchCase> {
    let kinds = [SUBTRACT_GREEN, PREDICTOR, COLOR_TABLE, COLOR];
    let mut cases = Vec::new();
    for numbers in [&[1][..], &[2], &[3], &[4], &[5], &[6], &[7], &[8], &[22, 8]] {
        let mut plan = Plan::any(random, 9, 3, &kinds);
        plan.size = 3;
        let mut input = Input::new(random, &plan);
        for number in numbers {
            let damages = retouch_damages(&input);
            let damage = damages.iter().find(|damage| damage.number == *number);
            damage.expect("there is one").apply(&mut input);
        }
        let case = RetouchCase::by_model(input);
        assert_eq!(Some(&case.list[0].1), numbers.last());
        cases.push(case);
    }
    cases
}

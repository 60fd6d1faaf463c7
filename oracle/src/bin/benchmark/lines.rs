//! What is measured: each transform by itself, and whole chains as encoders write them.

use crate::measure::{by_model, measure, Times, Way};
use crate::pictures::{palette, Content, Pictures, COLORS};
use oracle::given::{Given, Plan, COLOR, COLOR_TABLE, PREDICTOR, SUBTRACT_GREEN};
use oracle::random::Xorshift;

/// Blocks of 16 and of 512 pixels.
const BLOCK_BITS: [u8; 2] = [4, 9];

/// The class map's colors where there is no table.
const PLAIN_COLORS: u16 = 16;

pub struct Measured {
    pub name: String,
    pub content: Content,
    pub times: Times,
    /// Whether it is a chain as encoders write it. A table by itself is one too.
    pub chain: bool,
    pub single: bool,
    /// The size of the table, where it is the only record.
    pub table: Option<u16>,
    /// How many of the table's colors the picture has.
    pub materials: u16,
}

struct Line {
    name: String,
    kinds: &'static [u8],
    bits: u8,
    /// One mode in all blocks; otherwise any that predicts in each.
    mode: Option<u8>,
    colors: u16,
    materials: u16,
}

/// Measures all lines, or those whose names have a text, and prints each as it is done.
pub fn measured(pictures: &Pictures, way: &Way, only: Option<String>) -> Vec<Measured> {
    println!("| what | picture | Rust, ms | here, ms | ratio | storing, ms | storing/rebuilding |");
    println!("|---|---|---|---|---|---|---|");
    let mut measured = Vec::new();
    let text = only.unwrap_or_default();
    for line in lines().into_iter().filter(|line| line.name.contains(&text)) {
        for &content in line.contents() {
            let times = line.times(pictures, content, way);
            print_line(&line.name, content, &times);
            measured.push(Measured {
                name: line.name.clone(),
                content,
                times,
                chain: line.kinds.len() > 1 || line.kinds == [COLOR_TABLE],
                single: line.kinds.len() == 1,
                table: (line.kinds == [COLOR_TABLE]).then_some(line.colors),
                materials: line.materials,
            });
        }
    }
    measured
}

fn print_line(name: &str, content: Content, times: &Times) {
    let Times {
        rust,
        here,
        storing,
    } = times;
    println!(
        "| {name} | {} | {rust:.2} | {here:.2} | {:.2} | {storing:.2} | {:.2} |",
        content.name(),
        here / rust,
        storing / here,
    );
}

fn lines() -> Vec<Line> {
    let mut lines = Vec::new();
    for bits in BLOCK_BITS {
        let blocks = format!("blocks of {}", 1 << bits);
        for mode in 0..14 {
            let name = format!("predictor mode {mode}, {blocks}");
            let line = Line::new(name, &[PREDICTOR], bits);
            lines.push(Line {
                mode: Some(mode),
                ..line
            });
        }
        lines.push(Line::new(format!("color, {blocks}"), &[COLOR], bits));
    }
    lines.push(Line::new("subtract green".into(), &[SUBTRACT_GREEN], 0));
    for colors in COLORS {
        let line = Line::new(format!("table of {colors}"), &[COLOR_TABLE], 0);
        lines.push(line.of(colors));
    }
    let line = Line::new("table of 256, two in use".into(), &[COLOR_TABLE], 0);
    lines.push(Line {
        materials: 2,
        ..line.of(256)
    });
    for bits in BLOCK_BITS {
        let blocks = format!("blocks of {}", 1 << bits);
        let name = format!("subtract green + predictor + color, {blocks}");
        lines.push(Line::new(name, &[SUBTRACT_GREEN, PREDICTOR, COLOR], bits));
        for colors in COLORS {
            let name = format!("table of {colors} + predictor, {blocks}");
            let line = Line::new(name, &[COLOR_TABLE, PREDICTOR], bits);
            lines.push(line.of(colors));
        }
    }
    lines
}

impl Line {
    fn new(name: String, kinds: &'static [u8], bits: u8) -> Self {
        Self {
            name,
            kinds,
            bits,
            mode: None,
            colors: PLAIN_COLORS,
            materials: PLAIN_COLORS,
        }
    }

    /// The same with a table of so many colors, all in use.
    fn of(self, colors: u16) -> Self {
        Self {
            colors,
            materials: colors,
            ..self
        }
    }

    /// A map of few of the table's colors is a class map.
    fn contents(&self) -> &'static [Content] {
        if self.materials < self.colors {
            &[Content::ClassMap]
        } else {
            &[Content::Random, Content::ClassMap]
        }
    }

    fn times(&self, pictures: &Pictures, content: Content, way: &Way) -> Times {
        let mut random = Xorshift::new(0x3F84_D5B5_B547_0917);
        let given = self.given(&mut random, pictures.width, pictures.height);
        let strip = if content == Content::Random && !self.kinds.contains(&COLOR_TABLE) {
            random.bytes(given.valid().strip_len())
        } else {
            // The table's last colors: a scan would find them last.
            let mut palette = palette(self.colors);
            palette.reverse();
            let indices = pictures.indices(content, self.materials);
            let colors = indices.into_iter().map(|index| palette[index]);
            let picture = colors.collect::<Vec<[u8; 4]>>().into_flattened();
            by_model(&given, &picture)
        };
        measure(&given, &strip, way)
    }

    /// Modes and entries are set; the color transform's factors are any.
    fn given(&self, random: &mut Xorshift, width: u16, height: u16) -> Given {
        let plan = Plan {
            width,
            height,
            kinds: self.kinds.to_vec(),
            predictor_bits: self.bits,
            color_bits: self.bits,
            size: self.colors,
            overlapping: false,
        };
        let mut given = plan.given(random);
        for (at, &kind) in self.kinds.iter().enumerate() {
            let part = given.part_mut(at);
            if kind == PREDICTOR {
                for block in part {
                    block[1] = self.mode.unwrap_or_else(|| random.below(14) as u8);
                }
            } else if kind == COLOR_TABLE {
                part.copy_from_slice(&palette(self.colors));
            }
        }
        given
    }
}

//! One report, beside storing the same picture through a table of the same colors, which looks each
//! pixel up likewise, and beside the plain model.

use crate::measure::{median, more, store, timed};
use crate::pictures::{palette, Content, Pictures, COLORS};
use oracle::given::{record, Given, COLOR_TABLE};
use oracle::{calls, model};

/// How many colors there are that no list has.
const UNLISTED: u16 = 256;

/// Which of a picture's pixels are of no listed color: of a class map, whole regions.
#[derive(Clone, Copy, PartialEq, Eq)]
enum Others {
    None,
    OneInTen,
    All,
}

struct Line {
    colors: u16,
    /// How many of them the picture has.
    materials: u16,
    others: Others,
}

pub struct Reported {
    pub name: String,
    pub content: Content,
    pub colors: u16,
    pub materials: u16,
    /// Milliseconds.
    pub report: f64,
    /// The same; nothing where a pixel has no entry.
    pub storing: Option<f64>,
}

/// Measures all lines, and prints each as it is done.
pub fn measured(pictures: &Pictures, runs: usize) -> Vec<Reported> {
    println!(
        "| report by | picture | report, ms | storing, ms | report/storing | model, one run, ms |"
    );
    println!("|---|---|---|---|---|---|");
    let mut measured = Vec::new();
    for line in lines() {
        for content in [Content::Random, Content::ClassMap] {
            measured.push(line.measured(pictures, content, runs));
        }
    }
    measured
}

fn lines() -> Vec<Line> {
    let all_in_use = |others| {
        COLORS.map(|colors| Line {
            colors,
            materials: colors,
            others,
        })
    };
    let mut lines = Vec::from(all_in_use(Others::None));
    lines.push(Line {
        colors: 256,
        materials: 2,
        others: Others::None,
    });
    lines.extend(all_in_use(Others::OneInTen));
    lines.extend(all_in_use(Others::All));
    lines
}

impl Line {
    fn name(&self) -> String {
        let in_use = if self.materials < self.colors {
            ", two in use"
        } else {
            ""
        };
        let others = match self.others {
            Others::None => "",
            Others::OneInTen => ", one in ten is another",
            Others::All => ", all are others",
        };
        format!("{} colors{in_use}{others}", self.colors)
    }

    /// The answer and the counters have to be the model's.
    fn measured(&self, pictures: &Pictures, content: Content, runs: usize) -> Reported {
        let (given, picture) = (self.given(pictures), self.picture(pictures, content));
        let (colors, len) = (&given.data, 8 * usize::from(self.colors) + 8);
        let (mut counters, mut expected) = (vec![0; len], vec![0; len]);
        let (width, height) = (given.width, given.height);
        let model = timed(|| model::report(width, height, &picture, colors, &mut expected));
        let report = |counters: &mut [u8]| {
            timed(|| calls::report(width, height, &picture, colors, counters))
        };
        report(&mut counters);
        assert!(counters == expected, "not the model's counters");

        let mut strip = vec![165; given.valid().strip_len()];
        let (mut reports, mut stores) = (Vec::new(), Vec::new());
        // The first run fills caches and is not counted.
        while reports.len() <= runs || more(&reports, runs) {
            reports.push(report(&mut counters));
            if self.others == Others::None {
                stores.push(timed(|| store(&given, &picture, &mut strip)));
            }
        }
        let reported = Reported {
            name: self.name(),
            content,
            colors: self.colors,
            materials: self.materials,
            report: median(&reports[1..]),
            storing: stores.get(1..).map(median),
        };
        reported.print(model);
        reported
    }

    /// A table of the listed colors.
    fn given(&self, pictures: &Pictures) -> Given {
        let data = palette(self.colors).into_flattened();
        Given {
            width: pictures.width.into(),
            height: pictures.height.into(),
            chain: record(COLOR_TABLE, 0, self.colors, 0, data.len() as u32),
            data,
        }
    }

    fn picture(&self, pictures: &Pictures, content: Content) -> Vec<u8> {
        let palette = palette(self.colors + UNLISTED);
        let (listed, unlisted) = palette.split_at(self.colors.into());
        let indices = |count| pictures.indices(content, count).into_iter();
        let is_other = |tenth| match self.others {
            Others::None => false,
            Others::OneInTen => tenth == 0,
            Others::All => true,
        };
        // The list's last colors: a scan would find them last.
        let color = |((tenth, index), other): ((usize, usize), usize)| match is_other(tenth) {
            false => listed[listed.len() - 1 - index],
            true => unlisted[other],
        };
        let drawn = indices(10)
            .zip(indices(self.materials))
            .zip(indices(UNLISTED));
        drawn.map(color).collect::<Vec<[u8; 4]>>().into_flattened()
    }
}

impl Reported {
    fn print(&self, model: f64) {
        let (name, content, report) = (&self.name, self.content.name(), self.report);
        let storing = match self.storing {
            Some(storing) => format!("{storing:.2} | {:.2}", report / storing),
            None => "- | -".into(),
        };
        println!("| {name} | {content} | {report:.2} | {storing} | {model:.0} |");
    }
}

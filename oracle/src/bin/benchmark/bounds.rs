//! The bounds that were asked for, and which of them hold.

use crate::lines::Measured;
use crate::pictures::Content;
use crate::reports::Reported;

/// Says of each bound whether it holds, and where it does not.
pub fn judge(measured: &[Measured]) {
    let singles = measured.iter().filter(|line| line.single);
    let chains = || measured.iter().filter(|line| line.chain);
    let rebuilding = |line: &Measured| line.times.here / line.times.rust;
    judge_all(
        "each transform by itself takes at most 1.0 of the Rust's time",
        1.0,
        &ratios(singles, rebuilding),
    );
    judge_all(
        "rebuilding each whole chain takes at most 0.9 of the Rust's time",
        0.9,
        &ratios(chains(), rebuilding),
    );
    for content in [Content::ClassMap, Content::Random] {
        let stored = chains().filter(|line| line.content == content);
        let name = content.name();
        judge_all(
            &format!("storing by each whole chain takes at most 3 times its rebuilding ({name})"),
            3.0,
            &ratios(stored, |line| line.times.storing / line.times.here),
        );
    }
    let storing = |colors| {
        let table = |line: &&Measured| {
            line.table == Some(colors) && line.materials == 2 && line.content == Content::ClassMap
        };
        measured.iter().find(table).unwrap().times.storing
    };
    judge_all(
        "storing a class map through a table of 256 takes at most twice the time of one of 2",
        2.0,
        &[(
            "one map of two materials, tables of 256 and of 2".into(),
            storing(256) / storing(2),
        )],
    );
}

/// The same of reports, where all pixels are of listed colors: storing refuses the others.
pub fn judge_reports(reported: &[Reported]) {
    for content in [Content::ClassMap, Content::Random] {
        let judged = |line: &&Reported| line.content == content && line.storing.is_some();
        let lines = || reported.iter().filter(judged);
        let name = content.name();
        let ratio = |line: &Reported| Some((line.name.clone(), line.report / line.storing?));
        judge_all(
            &format!("a report takes at most twice the time of storing by as many colors ({name})"),
            2.0,
            &lines().filter_map(ratio).collect::<Vec<_>>(),
        );
        let report = |colors, materials| {
            let line = |line: &&Reported| (line.colors, line.materials) == (colors, materials);
            lines().find(line).unwrap().report
        };
        judge_all(
            &format!("a report by 256 colors takes at most twice the time of one by 2 ({name})"),
            2.0,
            &[
                (
                    "two colors in the picture".into(),
                    report(256, 2) / report(2, 2),
                ),
                (
                    "all listed colors in the picture".into(),
                    report(256, 256) / report(2, 2),
                ),
            ],
        );
    }
}

fn ratios<'a>(
    lines: impl Iterator<Item = &'a Measured>,
    ratio: impl Fn(&Measured) -> f64,
) -> Vec<(String, f64)> {
    lines
        .map(|line| {
            let name = format!("{}, {}", line.name, line.content.name());
            (name, ratio(line))
        })
        .collect()
}

fn judge_all(bound: &str, most: f64, ratios: &[(String, f64)]) {
    let missed: Vec<_> = ratios.iter().filter(|(_, ratio)| *ratio > most).collect();
    let all = ratios.len();
    if missed.is_empty() {
        let (name, ratio) = ratios.iter().max_by(|a, b| a.1.total_cmp(&b.1)).unwrap();
        println!("holds: {bound} ({all} of {all}; the most is {ratio:.2}, {name})");
        return;
    }
    println!("missed: {bound} ({} of {all} miss it)", missed.len());
    for (name, ratio) in missed {
        println!("    {ratio:.2}: {name}");
    }
}

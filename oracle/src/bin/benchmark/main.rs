//! Rebuilding through the exported calls beside the Rust's, and storing, on the same bytes and in
//! one run; then reports beside storing, and single retouches. With `--quick`, small pictures and
//! few runs: that all lines can be made and agree. With `--report`, reports alone; with
//! `--retouch`, retouches alone. With `--regions N`, a class map of so many regions: storing
//! through a table costs by its changes of color. With `--offset N`, the rebuilt buffer starts so
//! many bytes after a cache line does. With `--only TEXT`, the lines of rebuilding and storing
//! whose names have it; no bound is judged then.

#[cfg(rust_source)]
mod bounds;

#[cfg(rust_source)]
mod lines;

#[cfg(rust_source)]
mod measure;

#[cfg(rust_source)]
mod pictures;

#[cfg(rust_source)]
mod reports;

#[cfg(rust_source)]
mod retouches;

#[cfg(not(rust_source))]
fn main() {
    println!("{}", oracle::SKIPPED);
}

#[cfg(rust_source)]
fn main() {
    let option = |name: &str| std::env::args().any(|argument| argument == name);
    let quick = option("--quick");
    if cfg!(debug_assertions) {
        println!("this is not a release build: the figures say nothing");
    }
    let alone = option("--report") || option("--retouch");
    if !alone || option("--report") {
        measure_pictures(quick, alone);
    }
    if only().is_none() && (!alone || option("--retouch")) {
        let extent = if quick {
            retouches::Extent::quick()
        } else {
            retouches::Extent::full()
        };
        retouches::measure_all(&extent);
    }
}

/// What stands after an option.
#[cfg(rust_source)]
fn after(name: &str) -> Option<String> {
    std::env::args()
        .skip_while(|argument| argument != name)
        .nth(1)
}

#[cfg(rust_source)]
fn number_after(name: &str, otherwise: usize) -> usize {
    match after(name) {
        Some(number) => number.parse().expect("a number"),
        None => otherwise,
    }
}

#[cfg(rust_source)]
fn only() -> Option<String> {
    after("--only")
}

/// Rebuilding and storing, unless reports are wanted alone; then reports.
#[cfg(rust_source)]
fn measure_pictures(quick: bool, reports_alone: bool) {
    let regions = number_after("--regions", pictures::REGIONS);
    let (width, height, runs) = if quick {
        (256, 128, 3)
    } else {
        (2048, 1024, 11)
    };
    let pictures = pictures::Pictures::new(width, height, regions);
    println!("{width} by {height}, median of {runs} runs or more; both sides built for release");
    println!("class maps of {regions} regions");
    for colors in pictures::COLORS {
        let mean = pictures.mean_run(colors);
        println!("class map of {colors} colors: mean run of {mean:.1} pixels");
    }
    println!();
    if !reports_alone {
        measure_chains(&pictures, runs, quick);
        println!();
    }
    if only().is_none() {
        measure_reports(&pictures, runs, quick);
        println!();
    }
}

#[cfg(rust_source)]
fn measure_chains(pictures: &pictures::Pictures, runs: usize, quick: bool) {
    let offset = number_after("--offset", measure::OFFSET);
    println!("the rebuilt buffer starts {offset} bytes after a cache line");
    println!();
    let measured = lines::measured(pictures, &measure::Way { runs, offset }, only());
    println!();
    if only().is_some() {
        return;
    }
    if quick {
        let lines = measured.len();
        println!("{lines} lines agree; no bound is judged on so small a picture");
    } else {
        bounds::judge(&measured);
    }
}

#[cfg(rust_source)]
fn measure_reports(pictures: &pictures::Pictures, runs: usize, quick: bool) {
    let measured = reports::measured(pictures, runs);
    println!();
    if quick {
        let lines = measured.len();
        println!("{lines} lines of reports agree; no bound is judged on so small a picture");
    } else {
        bounds::judge_reports(&measured);
    }
}

//! Stores a class map, rebuilds it, writes the rebuilt map as a PNG, corrects a pixel of it, and reports
//! on a shipment of three maps.
//!
//!     class_map [MAP.ppm [PICTURE.png]]

mod correction;
mod encoder;
mod png;
mod ppm;
mod shipment;

use letchwater::{rebuild, store, Pixel};
use std::error::Error;
use std::path::{Path, PathBuf};
use std::process::ExitCode;
use std::{env, fs};

const SAMPLE: &str = concat!(env!("CARGO_MANIFEST_DIR"), "/examples/class_map.ppm");

fn main() -> ExitCode {
    match arguments().and_then(|(map, picture)| run(&map, &picture)) {
        Ok(()) => ExitCode::SUCCESS,
        Err(error) => {
            eprintln!("class_map: {error}");
            ExitCode::FAILURE
        }
    }
}

/// The map and the picture to write.
fn arguments() -> Result<(PathBuf, PathBuf), Box<dyn Error>> {
    let mut arguments = env::args_os().skip(1).map(PathBuf::from);
    let map = arguments.next().unwrap_or_else(|| SAMPLE.into());
    let in_temp = || env::temp_dir().join("letchwater_class_map.png");
    let picture = arguments.next().unwrap_or_else(in_temp);
    match arguments.next() {
        None => Ok((map, picture)),
        Some(_) => Err("usage: class_map [MAP.ppm [PICTURE.png]]".into()),
    }
}

fn run(map: &Path, picture: &Path) -> Result<(), Box<dyn Error>> {
    let file = fs::read(map).map_err(|error| format!("{}: {error}", map.display()))?;
    let class_map = ppm::read(&file).map_err(|error| format!("{}: {error}", map.display()))?;
    let bytes = class_map.as_bytes().len();
    println!("class map  {} pixels, {bytes} bytes", class_map.size());

    let (chain, description) = encoder::chain(&class_map)?;
    println!("chain      {description}");
    let strip = store(&chain, &class_map)?;
    let residuals = strip.records().filter(|&record| record != Pixel::default());
    println!(
        "strip      {} records, {} bytes; {} records are not zero",
        strip.size(),
        strip.as_bytes().len(),
        residuals.count()
    );

    let rebuilt = rebuild(&chain, &strip)?;
    if rebuilt != class_map {
        return Err("the rebuilt picture is not the class map".into());
    }
    println!("rebuilt    equal to the class map in all {bytes} bytes");
    fs::write(picture, png::write(&rebuilt))
        .map_err(|error| format!("{}: {error}", picture.display()))?;
    println!("written    {}\n", picture.display());

    let corrected = correction::show(chain, rebuilt)?;
    println!();
    shipment::show(&class_map, &corrected)
}

//! What a planner reads of a shipment: how many pixels of each color its maps have together.

use crate::encoder::colors;
use letchwater::{Picture, Report, Size};
use std::error::Error;

/// A column more than a picture may have.
const TOO_WIDE: Size = Size::new(16_385, 1);

/// Reports on a map, on one that is too wide, and on the first as it was corrected, by the colors of the
/// first. The second is refused and leaves the counts.
pub fn show(map: &Picture, corrected: &Picture) -> Result<(), Box<dyn Error>> {
    let colors = colors(map);
    let too_wide = Picture::from_pixels(TOO_WIDE, vec![colors[0]; TOO_WIDE.pixel_count()])?;
    let mut report = Report::new(&colors)?;
    for (number, map) in (1..).zip([map, &too_wide, corrected]) {
        let size = map.size();
        match report.add(map) {
            Ok(()) => println!("map {number}      {size} pixels, counted"),
            Err(error) => println!("map {number}      {size} pixels, left out\n           {error}"),
        }
    }
    println!("\n{report}\n");
    check(&report, [map, corrected])?;
    println!("checked    the counts are those of maps 1 and 3, counted pixel by pixel");
    Ok(())
}

/// Whether a plain count finds the same.
fn check(report: &Report, counted: [&Picture; 2]) -> Result<(), Box<dyn Error>> {
    let pixels = || counted.into_iter().flat_map(Picture::pixels);
    for color in report.colors() {
        let count = pixels().filter(|&pixel| pixel == color).count();
        if report.count(color) != Some(count as u64) {
            return Err(format!("{color} has {count} pixels, which the report has not").into());
        }
    }
    if report.total() != pixels().count() as u128 {
        return Err("the report has not as many pixels as its maps".into());
    }
    Ok(())
}

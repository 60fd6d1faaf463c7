//! What a planner's correction does: paint a pixel, and send the records that it changed.

use letchwater::{store, Chain, Picture, Pixel, Point, Refusal, Size, StoredPicture};
use std::error::Error;

/// The table has the map's colors alone, and no PPM picture has a clear one.
const NOT_IN_THE_TABLE: Pixel = Pixel::new(0, 0, 0, 0);

/// Corrects the pixel in the middle: first by a color that is refused, then by one that is not. Returns
/// the corrected map.
pub fn show(chain: Chain, picture: Picture) -> Result<Picture, Box<dyn Error>> {
    let Size { width, height } = picture.size();
    let point = Point::new(width / 2, height / 2);
    let color = other_color(&picture, point);
    let mut map = StoredPicture::new(chain, picture)?;

    match map.retouch(point, NOT_IN_THE_TABLE) {
        Err(error) if error.refusal() == Some(Refusal::NoEntryForRetouch) => {
            println!("grayed out {NOT_IN_THE_TABLE} at {point}\n           {error}");
        }
        answer => return Err(format!("{NOT_IN_THE_TABLE} was not refused: {answer:?}").into()),
    }

    let changed = map.retouch(point, color)?;
    println!("painted    {color} at {point}");
    println!("to send    {} records", changed.count());
    for &index in changed.indices() {
        let record = map.strip().record(index).ok_or("no such record")?;
        println!("           {index}: {:?}", record.to_bytes());
    }

    if store(map.chain(), map.picture())? != *map.strip() {
        return Err("the strip is not the corrected map stored afresh".into());
    }
    println!("checked    the strip is the corrected map stored afresh");
    Ok(map.into_parts().1)
}

/// A color of the map that the pixel has not; its own where there is no other.
fn other_color(picture: &Picture, point: Point) -> Pixel {
    let own = picture.pixel(point.x, point.y).unwrap_or_default();
    picture.pixels().find(|&color| color != own).unwrap_or(own)
}

#![doc = include_str!("../README.md")]
#![warn(missing_docs)]

pub mod calls;
mod chain;
mod changed_records;
mod error;
mod picture;
mod pixel;
mod refusal;
mod report;
mod spots;
mod stored_picture;

pub use chain::Chain;
pub use changed_records::ChangedRecords;
pub use error::Error;
pub use picture::{Picture, Point, Size, Strip};
pub use pixel::Pixel;
pub use refusal::Refusal;
pub use report::Report;
pub use stored_picture::StoredPicture;

use error::accepted;

/// Rebuilds the picture of which `strip` is the strip under `chain`. The unused bits of a row's last
/// packed record are ignored, so that strips stored earlier, with zeros there, rebuild too.
pub fn rebuild(chain: &Chain, strip: &Strip) -> Result<Picture, Error> {
    chain.check()?;
    require_size(chain.strip_size(), strip.size())?;
    let mut image = buffer(chain.size(), strip.as_bytes())?;
    rebuild_in_place(chain, &mut image)?;
    Picture::from_bytes(chain.size(), image)
}

/// Makes the strip of `picture` under `chain`. Rebuilding it gives the picture.
///
/// A color table that packs several indices may leave positions of a row's last record unused: they
/// hold the index of the row's last pixel.
pub fn store(chain: &Chain, picture: &Picture) -> Result<Strip, Error> {
    chain.check()?;
    require_size(chain.size(), picture.size())?;
    let mut strip = buffer(chain.strip_size(), &[])?;
    store_into(chain, picture.as_bytes(), &mut strip)?;
    Strip::from_bytes(chain.strip_size(), strip)
}

/// Rebuilds a picture in one buffer of picture size or longer, whose front holds the strip. Bytes
/// beyond the picture stay.
pub fn rebuild_in_place(chain: &Chain, image: &mut [u8]) -> Result<(), Error> {
    let Size { width, height } = chain.size();
    let (records, data) = (chain.records(), chain.data());
    // SAFETY: each pointer and length are those of a slice, and the slice that is written is lent to
    // nobody else.
    accepted(unsafe {
        calls::letchwater_rebuild(
            width,
            height,
            records.as_ptr(),
            records.len(),
            data.as_ptr(),
            data.len(),
            image.as_mut_ptr(),
            image.len(),
        )
    })
}

/// Stores the picture at the front of one buffer as the strip at the front of another. Either may be
/// longer; bytes beyond the strip stay.
pub fn store_into(chain: &Chain, picture: &[u8], strip: &mut [u8]) -> Result<(), Error> {
    let Size { width, height } = chain.size();
    let (records, data) = (chain.records(), chain.data());
    // SAFETY: each pointer and length are those of a slice, and the slice that is written is lent to
    // nobody else.
    accepted(unsafe {
        calls::letchwater_store(
            width,
            height,
            records.as_ptr(),
            records.len(),
            data.as_ptr(),
            data.len(),
            picture.as_ptr(),
            picture.len(),
            strip.as_mut_ptr(),
            strip.len(),
        )
    })
}

/// Paints a pixel of the picture at the front of one buffer, and makes the records of its spots in the
/// strip at the front of another afresh. Either buffer may be longer; bytes beyond stay.
///
/// Where the strip is the picture stored, it is so after the call too. Where it is not, records away
/// from the spots stay as they are: [`StoredPicture`] holds two that match. Retouching begins only from
/// a strip that [`store`] or [`store_into`] made; one that was stored earlier, with zero bits at the
/// ends of rows, is first rebuilt, and its picture stored.
pub fn retouch_in_place(
    chain: &Chain,
    picture: &mut [u8],
    strip: &mut [u8],
    point: Point,
    color: Pixel,
) -> Result<ChangedRecords, Error> {
    let Size { width, height } = chain.size();
    let (records, data) = (chain.records(), chain.data());
    // SAFETY: each pointer and length are those of a slice, and the slices that are written are lent
    // to nobody else.
    let answer = unsafe {
        calls::letchwater_retouch(
            width,
            height,
            records.as_ptr(),
            records.len(),
            data.as_ptr(),
            data.len(),
            picture.as_mut_ptr(),
            picture.len(),
            strip.as_mut_ptr(),
            strip.len(),
            point.x,
            point.y,
            color.red,
            color.green,
            color.blue,
            color.alpha,
        )
    };
    ChangedRecords::read(answer, chain, point)
}

/// Adds the pixels of the picture at the front of one buffer to the counters at the front of another:
/// 8 bytes for each of `colors`, which are 4 bytes each, then 8 for all other colors. Both buffers may
/// be longer; bytes beyond the counters stay.
pub fn report_into(
    size: Size,
    picture: &[u8],
    colors: &[u8],
    counters: &mut [u8],
) -> Result<(), Error> {
    let Size { width, height } = size;
    // SAFETY: each pointer and length are those of a slice, and the slice that is written is lent to
    // nobody else.
    accepted(unsafe {
        calls::letchwater_report(
            width,
            height,
            picture.as_ptr(),
            picture.len(),
            colors.as_ptr(),
            colors.len(),
            counters.as_mut_ptr(),
            counters.len(),
        )
    })
}

/// The finished entries of a color map as it stands in the file, where each but the first is given
/// as its difference from the one before.
pub fn adjust_color_map(color_map: &[Pixel]) -> Result<Vec<Pixel>, Error> {
    each_byte(color_map, adjust_color_map_in_place)
}

/// The color map, as it stands in the file, of finished entries.
pub fn unadjust_color_map(entries: &[Pixel]) -> Result<Vec<Pixel>, Error> {
    each_byte(entries, unadjust_color_map_in_place)
}

/// [`adjust_color_map`] on the bytes of a color map.
pub fn adjust_color_map_in_place(color_map: &mut [u8]) -> Result<(), Error> {
    // SAFETY: pointer and length are those of a slice that is lent to nobody else.
    accepted(unsafe { calls::letchwater_adjust_color_map(color_map.as_mut_ptr(), color_map.len()) })
}

/// [`unadjust_color_map`] on the bytes of entries.
pub fn unadjust_color_map_in_place(entries: &mut [u8]) -> Result<(), Error> {
    // SAFETY: pointer and length are those of a slice that is lent to nobody else.
    accepted(unsafe { calls::letchwater_unadjust_color_map(entries.as_mut_ptr(), entries.len()) })
}

fn each_byte(
    entries: &[Pixel],
    call: fn(&mut [u8]) -> Result<(), Error>,
) -> Result<Vec<Pixel>, Error> {
    let mut bytes: Vec<u8> = entries.iter().flat_map(|entry| entry.to_bytes()).collect();
    call(&mut bytes)?;
    Ok(pixel::pixels(&bytes).collect())
}

fn require_size(expected: Size, given: Size) -> Result<(), Error> {
    if given == expected {
        return Ok(());
    }
    Err(Error::OtherSize { expected, given })
}

/// A buffer of this size that begins with `front`. A large picture may find no memory, which must not
/// end the program.
fn buffer(size: Size, front: &[u8]) -> Result<Vec<u8>, Error> {
    let none = Error::OutOfMemory(size);
    let len = size.byte_count().ok_or(none)?;
    let mut buffer = Vec::new();
    buffer.try_reserve_exact(len).map_err(|_| none)?;
    buffer.extend_from_slice(front);
    buffer.resize(len, 0);
    Ok(buffer)
}

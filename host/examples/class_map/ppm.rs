//! Reads a PPM picture (P6, a byte for each channel).

use letchwater::{Picture, Pixel, Size};
use std::error::Error;

/// The picture, with alpha 255 throughout.
pub fn read(file: &[u8]) -> Result<Picture, Box<dyn Error>> {
    let mut rest = file.strip_prefix(b"P6").ok_or("not a PPM picture (P6)")?;
    let size = Size::new(number(&mut rest)?, number(&mut rest)?);
    if number(&mut rest)? != 255 {
        return Err("not a PPM picture of one byte for each channel".into());
    }
    // One space or line end, and then the pixels.
    let pixels = rest.get(1..).ok_or("the PPM picture has no pixels")?;
    let pixels = pixels.chunks(3).map(|pixel| match *pixel {
        [red, green, blue] => Ok(Pixel::opaque(red, green, blue)),
        _ => Err("the PPM picture ends within a pixel"),
    });
    Ok(Picture::from_pixels(
        size,
        pixels.collect::<Result<Vec<_>, _>>()?,
    )?)
}

/// The next number of the header, after spaces and comments.
fn number(rest: &mut &[u8]) -> Result<u32, Box<dyn Error>> {
    *rest = rest.trim_ascii_start();
    while let Some(b'#') = rest.first() {
        let end = rest.iter().position(|&byte| byte == b'\n');
        *rest = rest[end.unwrap_or(rest.len())..].trim_ascii_start();
    }
    let digits = rest.iter().take_while(|byte| byte.is_ascii_digit()).count();
    let (number, after) = rest.split_at(digits);
    *rest = after;
    let number = std::str::from_utf8(number)?;
    number
        .parse()
        .map_err(|_| "the PPM picture's header has no number where one belongs".into())
}

#[cfg(test)]
mod tests {
    use super::*;

    #[test]
    fn header_and_pixels() {
        let picture = read(b"P6\n# a comment\n2 1 # another\n255\n\x01\x02\x03 #\n").unwrap();
        assert_eq!(picture.size(), Size::new(2, 1));
        assert_eq!(picture.as_bytes(), [1, 2, 3, 255, b' ', b'#', b'\n', 255]);
    }

    #[test]
    fn damaged() {
        let damaged: [&[u8]; 9] = [
            b"",
            b"P5 1 1 255\n123",
            b"P6",
            b"P6 #",
            b"P6 1 1 65535\n123456",
            b"P6 1 1 255",
            b"P6 1 1 255\n12",
            b"P6 1 1 255\n123456",
            b"P6 4294967295 4294967295 255\n",
        ];
        for file in damaged {
            assert!(read(file).is_err(), "{:?}", String::from_utf8_lossy(file));
        }
    }

    #[test]
    fn sample() {
        let sample = read(include_bytes!("../class_map.ppm")).unwrap();
        assert_eq!(sample.size(), Size::new(96, 64));
    }
}

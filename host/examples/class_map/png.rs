//! Writes a PNG picture. Its data are not compressed.

use letchwater::{Picture, Size};

/// The longest stored block of deflate.
const BLOCK: usize = 65_535;

/// The file of a picture, four bytes for each pixel.
pub fn write(picture: &Picture) -> Vec<u8> {
    let Size { width, height } = picture.size();
    let mut header = [width.to_be_bytes(), height.to_be_bytes()].concat();
    // 8 bits a channel, with alpha, and each method the only one there is.
    header.extend([8, 6, 0, 0, 0]);

    let mut file = b"\x89PNG\r\n\x1a\n".to_vec();
    chunk(&mut file, b"IHDR", &header);
    chunk(&mut file, b"IDAT", &zlib(&rows(picture)));
    chunk(&mut file, b"IEND", &[]);
    file
}

/// Each row after a byte that says that it is not filtered.
fn rows(picture: &Picture) -> Vec<u8> {
    let stride = 4 * picture.size().width as usize;
    let rows = picture.as_bytes().chunks(stride);
    rows.flat_map(|row| [&[0], row].concat()).collect()
}

fn chunk(file: &mut Vec<u8>, kind: &[u8; 4], data: &[u8]) {
    let len = u32::try_from(data.len()).expect("the largest picture has 1 GiB");
    file.extend(len.to_be_bytes());
    let start = file.len();
    file.extend(kind);
    file.extend(data);
    let sum = crc_32(&file[start..]);
    file.extend(sum.to_be_bytes());
}

/// Stored blocks between zlib's header and its checksum.
fn zlib(data: &[u8]) -> Vec<u8> {
    let mut stream = vec![0x78, 0x01];
    let last = data.len().div_ceil(BLOCK) - 1;
    for (i, block) in data.chunks(BLOCK).enumerate() {
        let len = block.len() as u16;
        stream.push(u8::from(i == last));
        stream.extend(len.to_le_bytes());
        stream.extend((!len).to_le_bytes());
        stream.extend(block);
    }
    stream.extend(adler_32(data).to_be_bytes());
    stream
}

fn crc_32(data: &[u8]) -> u32 {
    !data.iter().fold(u32::MAX, |sum, &byte| {
        (0..8).fold(sum ^ u32::from(byte), |sum, _| {
            (sum >> 1) ^ (0xEDB8_8320 * (sum & 1))
        })
    })
}

fn adler_32(data: &[u8]) -> u32 {
    let (a, b) = data.iter().fold((1, 0), |(a, b), &byte| {
        let a = (a + u32::from(byte)) % 65_521;
        (a, (b + a) % 65_521)
    });
    b << 16 | a
}

#[cfg(test)]
mod tests {
    use super::*;

    /// The check values that are published with the two sums.
    #[test]
    fn sums() {
        assert_eq!(crc_32(b"123456789"), 0xCBF4_3926);
        assert_eq!(adler_32(b"Wikipedia"), 0x11E6_0398);
    }

    #[test]
    fn one_pixel() {
        let picture = Picture::from_bytes(Size::new(1, 1), vec![1, 2, 3, 4]).unwrap();
        let file = write(&picture);
        assert_eq!(file[..8], *b"\x89PNG\r\n\x1a\n");
        assert_eq!(file[8..16], *b"\0\0\0\x0dIHDR");
        assert_eq!(file[16..29], [0, 0, 0, 1, 0, 0, 0, 1, 8, 6, 0, 0, 0]);
        assert_eq!(file[33..41], *b"\0\0\0\x10IDAT");
        assert_eq!(file[41..53], [0x78, 1, 1, 5, 0, 250, 255, 0, 1, 2, 3, 4]);
        assert_eq!(file[file.len() - 12..], *b"\0\0\0\0IEND\xae\x42\x60\x82");
    }

    #[test]
    fn several_blocks() {
        let data = vec![7; 2 * BLOCK];
        let stream = zlib(&data);
        assert_eq!(stream.len(), 2 + 2 * (5 + BLOCK) + 4);
        assert_eq!(stream[2], 0);
        assert_eq!(stream[2 + 5 + BLOCK], 1);
    }
}

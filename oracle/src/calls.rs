//! Letchwater's exported calls on any slices and numbers, as it declares them. Its safe forms would
//! refuse some of these before the library sees them.

use letchwater::calls;

/// What the calls of a list of retouches differ in.
#[derive(Clone, Copy, Debug)]
pub struct Retouch {
    pub x: u32,
    pub y: u32,
    pub color: [u8; 4],
}

pub fn adjust_color_map(color_map: &mut [u8]) -> u32 {
    // SAFETY: pointer and length are those of a slice that nobody else holds.
    unsafe { calls::letchwater_adjust_color_map(color_map.as_mut_ptr(), color_map.len()) }
}

pub fn unadjust_color_map(color_map: &mut [u8]) -> u32 {
    // SAFETY: as above.
    unsafe { calls::letchwater_unadjust_color_map(color_map.as_mut_ptr(), color_map.len()) }
}

pub fn rebuild(width: u32, height: u32, chain: &[u8], data: &[u8], image: &mut [u8]) -> u32 {
    // SAFETY: each pointer goes with its slice's length, and nobody else holds `image`.
    unsafe {
        calls::letchwater_rebuild(
            width,
            height,
            chain.as_ptr(),
            chain.len(),
            data.as_ptr(),
            data.len(),
            image.as_mut_ptr(),
            image.len(),
        )
    }
}

pub fn store(
    width: u32,
    height: u32,
    chain: &[u8],
    data: &[u8],
    picture: &[u8],
    strip: &mut [u8],
) -> u32 {
    // SAFETY: each pointer goes with its slice's length, and nobody else holds `strip`.
    unsafe {
        calls::letchwater_store(
            width,
            height,
            chain.as_ptr(),
            chain.len(),
            data.as_ptr(),
            data.len(),
            picture.as_ptr(),
            picture.len(),
            strip.as_mut_ptr(),
            strip.len(),
        )
    }
}

pub fn report(width: u32, height: u32, picture: &[u8], colors: &[u8], counters: &mut [u8]) -> u32 {
    // SAFETY: each pointer goes with its slice's length, and nobody else holds `counters`.
    unsafe {
        calls::letchwater_report(
            width,
            height,
            picture.as_ptr(),
            picture.len(),
            colors.as_ptr(),
            colors.len(),
            counters.as_mut_ptr(),
            counters.len(),
        )
    }
}

pub fn retouch(
    width: u32,
    height: u32,
    chain: &[u8],
    data: &[u8],
    picture: &mut [u8],
    strip: &mut [u8],
    retouch: Retouch,
) -> u32 {
    let Retouch { x, y, color } = retouch;
    let [r, g, b, a] = color;
    // SAFETY: each pointer goes with its slice's length, and nobody else holds the written slices.
    unsafe {
        calls::letchwater_retouch(
            width,
            height,
            chain.as_ptr(),
            chain.len(),
            data.as_ptr(),
            data.len(),
            picture.as_mut_ptr(),
            picture.len(),
            strip.as_mut_ptr(),
            strip.len(),
            x,
            y,
            r,
            g,
            b,
            a,
        )
    }
}

//! The calls of the static library, as they are exported. [`crate::rebuild`] and its neighbors are
//! their safe forms.
//!
//! A byte slice passes as its pointer and its length. A pointer may not be null, even where its
//! length is 0. A buffer that is written may not overlap any other that is passed. Each call takes
//! every number and every byte. Where it accepts it answers 0, or what is said there; else it answers
//! the number of a [`crate::Refusal`], and no byte was changed.

extern "C" {
    /// Rebuilds a picture in `image`, whose front holds the strip. Passes the picture's width and
    /// height, the chain's records, the data that they name, and the image, which is written.
    pub fn letchwater_rebuild(
        width: u32,
        height: u32,
        chain: *const u8,
        chain_len: usize,
        data: *const u8,
        data_len: usize,
        image: *mut u8,
        image_len: usize,
    ) -> u32;

    /// Stores `picture` in `strip`. Passes the picture's width and height, the chain's records, the
    /// data that they name, the picture, and the strip, which is written.
    pub fn letchwater_store(
        width: u32,
        height: u32,
        chain: *const u8,
        chain_len: usize,
        data: *const u8,
        data_len: usize,
        picture: *const u8,
        picture_len: usize,
        strip: *mut u8,
        strip_len: usize,
    ) -> u32;

    /// Paints the pixel in column `x` of row `y` of `picture`, and makes the records of its spots in
    /// `strip` afresh. Passes the picture's width and height, the chain's records, the data that they
    /// name, the picture and the strip, which are written, the point, and the color. Where it
    /// accepts it answers `256 + 32 * count + mask`: mask bit k is 1 where spot k's record changed and no
    /// earlier spot has the same record, and count is the number of ones.
    pub fn letchwater_retouch(
        width: u32,
        height: u32,
        chain: *const u8,
        chain_len: usize,
        data: *const u8,
        data_len: usize,
        picture: *mut u8,
        picture_len: usize,
        strip: *mut u8,
        strip_len: usize,
        x: u32,
        y: u32,
        red: u8,
        green: u8,
        blue: u8,
        alpha: u8,
    ) -> u32;

    /// Adds the pixels of `picture` to `counters`, by color. Passes the picture's width and height, the
    /// picture, the colors, four bytes for each, and the counters, which are written: eight bytes for
    /// each color, lowest first, then eight for all other colors.
    pub fn letchwater_report(
        width: u32,
        height: u32,
        picture: *const u8,
        picture_len: usize,
        colors: *const u8,
        colors_len: usize,
        counters: *mut u8,
        counters_len: usize,
    ) -> u32;

    /// Adds to each entry the one before it, front to back. Passes the color map, which is written.
    pub fn letchwater_adjust_color_map(color_map: *mut u8, len: usize) -> u32;

    /// Undoes [`letchwater_adjust_color_map`]. Passes the color map, which is written.
    pub fn letchwater_unadjust_color_map(color_map: *mut u8, len: usize) -> u32;
}

//! What a VAT takes.

/// d of 01 for n entries, from its words.
pub fn data_sectors(n: usize) -> u32 {
    let f = 4 * n + 36;
    if 176 + f < 2048 {
        0
    } else {
        f.div_ceil(2048) as u32
    }
}

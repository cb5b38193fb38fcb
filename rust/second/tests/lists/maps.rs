//! What a rewritable disc's map list says.

/// The sectors of its tables, in map order.
pub fn table_sectors(maps: &[u8]) -> Vec<u32> {
    let sectors = maps[48..].chunks_exact(4).take(usize::from(maps[42]));
    sectors.map(|t| u32::from_le_bytes([t[0], t[1], t[2], t[3]])).collect()
}

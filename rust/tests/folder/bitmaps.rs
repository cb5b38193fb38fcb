//! Space bitmaps, and partition descriptors that name them.

use std::ops::Range;

const SECTOR: usize = 2048;
/// The sector of the partition descriptor that `make` writes.
const PARTITION: usize = 257;

fn put(bytes: &mut [u8], at: usize, field: &[u8]) {
    bytes[at..at + field.len()].copy_from_slice(field);
}

/// Renews a tag: a CRC over so many bytes, and the checksum.
pub fn sign(descriptor: &mut [u8], covered: usize) {
    let crc = tuormik::crc(&descriptor[16..16 + covered], 0);
    put(descriptor, 8, &crc.to_le_bytes());
    put(descriptor, 10, &(covered as u16).to_le_bytes());
    descriptor[4] = 0;
    descriptor[4] = descriptor[..16].iter().fold(0u8, |sum, &b| sum.wrapping_add(b));
}

/// The space bitmap of so many blocks, those of some rows free, filled up to whole sectors, with a CRC over so many bytes.
pub fn bitmap(length: usize, rows: &[Range<usize>], covered: usize) -> Vec<u8> {
    let count = length.div_ceil(8);
    let mut bytes = vec![0; (24 + count).next_multiple_of(SECTOR)];
    put(&mut bytes, 0, &264u16.to_le_bytes());
    put(&mut bytes, 16, &(length as u32).to_le_bytes());
    put(&mut bytes, 20, &(count as u32).to_le_bytes());
    for block in rows.iter().cloned().flatten() {
        bytes[24 + block / 8] |= 1 << (block % 8);
    }
    sign(&mut bytes, covered);
    bytes
}

/// Lets the partition descriptor of an image that `make` made name an extent, its length and its first block, as the space bitmap.
pub fn name_bitmap(image: &mut [u8], length: u32, block: u32) {
    let descriptor = &mut image[SECTOR * PARTITION..][..SECTOR];
    put(descriptor, 25, b"+NSR02");
    put(descriptor, 64, &length.to_le_bytes());
    put(descriptor, 68, &block.to_le_bytes());
    sign(descriptor, 496);
}

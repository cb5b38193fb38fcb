//! What the descriptors tell of a partition's free space: where its space bitmap is (ECMA-167, 4/14.3), and how many blocks are free by the
//! logical volume integrity descriptor (3/10.10).

use super::{describe, identifier, sector, u32_at, NoVolume, MOST_DESCRIPTORS, TERMINATOR};
use crate::SECTOR;

const INTEGRITY: u16 = 9;

/// of a partition descriptor: the identifier of its contents, and what is recorded by it, a partition header descriptor
const CONTENTS_AT: usize = 25;
const CONTENTS: [&[u8]; 2] = [b"+NSR02", b"+NSR03"];
const HEADER_AT: usize = 56;
/// of a partition header descriptor
const BITMAP_AT: usize = 8;
/// of a logical volume descriptor
const INTEGRITY_EXTENT_AT: usize = 432;
/// of an integrity descriptor
const NEXT_EXTENT_AT: usize = 32;
const PARTITIONS_AT: usize = 72;
const FREE_AT: usize = 80;

/// The free blocks of an integrity descriptor that does not tell them.
const NOT_TOLD: u32 = u32::MAX;

/// The extent of a partition that a short_ad names.
#[derive(Clone, Copy, Debug, PartialEq, Eq)]
pub struct Extent {
    /// Its bytes, with what kind of extent it is in the upper two bits: 0 is recorded.
    pub length: u32,
    /// Its first logical block.
    pub block: u32,
}

/// The free blocks of a partition by the integrity descriptor.
#[derive(Clone, Copy, Debug, PartialEq, Eq)]
pub struct Counted {
    /// The sector of the descriptor.
    pub sector: usize,
    /// The free blocks.
    pub free: u32,
}

/// What is told of a partition's free space.
#[derive(Clone, Copy, Debug, PartialEq, Eq)]
pub struct Space {
    /// The space bitmap of its unallocated blocks, if its descriptor names one.
    pub bitmap: Option<Extent>,
    /// How many are free by the integrity descriptor, if there is one that tells it.
    pub counted: Option<Counted>,
}

/// What an image's descriptors tell of its partition's free space; where they tell no volume, why.
pub fn find_space(image: &[u8]) -> Result<Space, NoVolume> {
    let described = describe(image)?;
    Ok(Space { bitmap: bitmap(described.partition), counted: counted(image, described.logical) })
}

/// The bitmap that a partition descriptor names.
fn bitmap(partition: &[u8]) -> Option<Extent> {
    let has_header = CONTENTS.iter().any(|name| partition[CONTENTS_AT..].starts_with(name));
    let [length, block] = [0, 4].map(|at| u32_at(partition, HEADER_AT + BITMAP_AT + at));
    Some(Extent { length, block }).filter(|extent| has_header && extent.length > 0)
}

/// The count of the last descriptor of the integrity sequence to which a logical volume descriptor leads, for its first map.
fn counted(image: &[u8], logical: &[u8]) -> Option<Counted> {
    let mut last: Option<(usize, &[u8])> = None;
    let mut extent = &logical[INTEGRITY_EXTENT_AT..];
    let mut left = MOST_DESCRIPTORS;
    loop {
        let (from, count) = (u32_at(extent, 4) as usize, u32_at(extent, 0) as usize / SECTOR);
        let mut next = None;
        for at in from..from.saturating_add(count.min(left)) {
            let Some(descriptor) = sector(image, at) else {
                break;
            };
            left -= 1;
            match identifier(descriptor, at) {
                Some(INTEGRITY) => {
                    last = Some((at, descriptor));
                    next = Some(&descriptor[NEXT_EXTENT_AT..]).filter(|extent| u32_at(extent, 0) > 0);
                }
                Some(TERMINATOR) | None => break,
                _ => {}
            }
        }
        match next {
            Some(another) => extent = another,
            None => break,
        }
    }
    let (sector, descriptor) = last.filter(|(_, descriptor)| u32_at(descriptor, PARTITIONS_AT) > 0)?;
    Some(Counted { sector, free: u32_at(descriptor, FREE_AT) }).filter(|counted| counted.free != NOT_TOLD)
}

#[cfg(test)]
mod tests {
    use super::super::{put, put_tag, write_volume, Volume, LOGICAL_VOLUME, PARTITION};
    use super::*;
    use crate::{write_maps, Maps};

    const PARTITION_PLACE: usize = 257;
    const LOGICAL_PLACE: usize = 258;

    /// An image with descriptors and nothing else.
    fn described() -> Vec<u8> {
        let maps = write_maps(&Maps::Rewritable { partition: 0, table_bytes: 2048, tables: vec![0] }).expect("a map list");
        let mut image = vec![0; 400 * SECTOR];
        for (at, bytes) in write_volume(&Volume { maps, start: 288, length: 96 }, 0).expect("descriptors") {
            put(&mut image, SECTOR * at, &bytes);
        }
        image
    }

    /// Puts fields into a sector, and the tag that it then should have.
    fn patch(image: &mut [u8], at: usize, identifier: u16, fields: &[(usize, &[u8])]) {
        let mut sector: [u8; SECTOR] = sector(image, at).expect("a sector").try_into().expect("its bytes");
        fields.iter().for_each(|(at, bytes)| put(&mut sector, *at, bytes));
        sector[4] = 0;
        put_tag(&mut sector, identifier, at);
        put(image, SECTOR * at, &sector);
    }

    fn words(numbers: [u32; 2]) -> [u8; 8] {
        let [a, b] = numbers.map(u32::to_le_bytes);
        [a, b].concat().try_into().expect("eight bytes")
    }

    #[test]
    fn the_bitmap_is_named_in_the_header_of_the_partition() {
        let mut image = described();
        assert_eq!(find_space(&image), Ok(Space { bitmap: None, counted: None }));
        // what is no header names none
        patch(&mut image, PARTITION_PLACE, PARTITION, &[(64, &words([4096, 7]))]);
        assert_eq!(find_space(&image).map(|space| space.bitmap), Ok(None));
        for name in CONTENTS {
            patch(&mut image, PARTITION_PLACE, PARTITION, &[(25, name)]);
            assert_eq!(find_space(&image).map(|space| space.bitmap), Ok(Some(Extent { length: 4096, block: 7 })));
        }
        patch(&mut image, PARTITION_PLACE, PARTITION, &[(64, &words([0, 7]))]);
        assert_eq!(find_space(&image).map(|space| space.bitmap), Ok(None));
        assert!(find_space(&image[..256 * SECTOR]).is_err());
    }

    /// The last integrity descriptor counts, over all extents; a sequence that leads back to itself comes to an end.
    #[test]
    fn the_free_blocks_of_the_last_integrity_descriptor() {
        let mut image = described();
        let counted = |image: &[u8]| find_space(image).expect("a volume").counted;
        let told = |sector: usize, free: u32| Some(Counted { sector, free });
        patch(&mut image, LOGICAL_PLACE, LOGICAL_VOLUME, &[(432, &words([3 * SECTOR as u32, 300]))]);
        assert_eq!(counted(&image), None);
        let descriptor = |free: u32, next: [u32; 2]| [(32, words(next)), (72, words([1, 0])), (80, words([free, 96]))];
        let put = |image: &mut [u8], at: usize, free: u32, next: [u32; 2]| {
            let fields = descriptor(free, next);
            patch(image, at, INTEGRITY, &fields.each_ref().map(|(at, bytes)| (*at, &bytes[..])));
        };
        put(&mut image, 300, 90, [0, 0]);
        assert_eq!(counted(&image), told(300, 90));
        put(&mut image, 301, 80, [2 * SECTOR as u32, 310]);
        assert_eq!(counted(&image), told(301, 80));
        put(&mut image, 310, 70, [0, 0]);
        assert_eq!(counted(&image), told(310, 70));
        // one whose CRC is wrong is none, and ends the sequence
        put(&mut image, 311, 60, [0, 0]);
        image[SECTOR * 311 + 80] ^= 1;
        assert_eq!(counted(&image), told(310, 70));
        put(&mut image, 310, NOT_TOLD, [0, 0]);
        assert_eq!(counted(&image), None);
        put(&mut image, 310, 70, [SECTOR as u32, 310]);
        assert_eq!(counted(&image), told(310, 70));
        put(&mut image, 310, 70, [SECTOR as u32, 4_000_000]);
        assert_eq!(counted(&image), told(310, 70));
    }
}

//! The volume descriptors of an image (ECMA-167, part 3), as far as they tell a volume's map list, S and L, and its free space. They are no
//! part of document 01: what they say is handed to its calls, which examine it. The CRC of their tags is the proved one.

mod recognized;
mod space;

use crate::numbers::{counted, grouped};
use crate::{crc, read_maps, Maps, SECTOR};
use std::fmt;

pub use recognized::recognized;
pub use space::{find_space, Counted, Extent, Space};

/// The map list, S and L of a volume.
#[derive(Clone, Debug, PartialEq, Eq)]
pub struct Volume {
    /// The map list.
    pub maps: Vec<u8>,
    /// S, the partition's first sector.
    pub start: u32,
    /// L, its number of sectors.
    pub length: u32,
}

const ANCHOR: u16 = 2;
const PARTITION: u16 = 5;
const LOGICAL_VOLUME: u16 = 6;
const TERMINATOR: u16 = 8;

const PRIMARY_EXTENT_AT: usize = 16;
const RESERVE_EXTENT_AT: usize = 24;
/// of the two descriptors below: which of several prevails
const SEQUENCE_AT: usize = 16;
const PARTITION_NUMBER_AT: usize = 22;
const PARTITION_START_AT: usize = 188;
const PARTITION_LENGTH_AT: usize = 192;
const BLOCK_SIZE_AT: usize = 212;
const MAP_LENGTH_AT: usize = 264;
const MAP_COUNT_AT: usize = 268;
const MAPS_AT: usize = 440;

/// Sectors of a volume descriptor sequence that are looked at.
const MOST_DESCRIPTORS: usize = 1024;

fn u16_at(b: &[u8], at: usize) -> u16 {
    u16::from_le_bytes([b[at], b[at + 1]])
}

fn u32_at(b: &[u8], at: usize) -> u32 {
    u32::from_le_bytes([b[at], b[at + 1], b[at + 2], b[at + 3]])
}

fn sector(image: &[u8], at: usize) -> Option<&[u8]> {
    image.get(SECTOR.checked_mul(at)?..)?.get(..SECTOR)
}

/// The identifier of a descriptor's tag, if checksum, CRC and location are right.
fn identifier(descriptor: &[u8], at: usize) -> Option<u16> {
    let sum = descriptor[..16].iter().fold(0u8, |sum, &b| sum.wrapping_add(b)).wrapping_sub(descriptor[4]);
    let covered = descriptor.get(16..16 + usize::from(u16_at(descriptor, 10)))?;
    let fits = sum == descriptor[4] && u32_at(descriptor, 12) as usize == at && crc(covered, 0) == u16_at(descriptor, 8);
    fits.then(|| u16_at(descriptor, 0))
}

/// Where an anchor may stand on a disc of n sectors.
pub fn anchor_places(sectors: usize) -> impl Iterator<Item = usize> {
    [Some(256), Some(512), sectors.checked_sub(256)].into_iter().flatten()
}

/// Why no volume is found in an image, in words.
#[derive(Clone, Debug, PartialEq, Eq)]
pub enum NoVolume {
    /// Nothing in it tells of a volume with sectors of 2,048 bytes.
    Other(String),
    /// Something tells of one, and the descriptors that lead to it are not all there.
    Lost(String),
}

impl fmt::Display for NoVolume {
    fn fmt(&self, f: &mut fmt::Formatter) -> fmt::Result {
        match self {
            NoVolume::Other(words) | NoVolume::Lost(words) => f.write_str(words),
        }
    }
}

impl std::error::Error for NoVolume {}

/// The descriptors of a volume: the logical volume descriptor with its map list, and that of the partition which the list names.
struct Described<'a> {
    logical: &'a [u8],
    maps: &'a [u8],
    partition: &'a [u8],
}

/// The volume that an image's descriptors tell; where they tell none, why.
pub fn find_volume(image: &[u8]) -> Result<Volume, NoVolume> {
    let Described { maps, partition, .. } = describe(image)?;
    Ok(Volume { maps: maps.to_vec(), start: u32_at(partition, PARTITION_START_AT), length: u32_at(partition, PARTITION_LENGTH_AT) })
}

/// The descriptors that tell it.
fn describe(image: &[u8]) -> Result<Described<'_>, NoVolume> {
    let mut why = no_anchor(image);
    for at in anchor_places(image.len() / SECTOR) {
        let Some(anchor) = sector(image, at).filter(|a| identifier(a, at) == Some(ANCHOR)) else {
            continue;
        };
        for extent in [PRIMARY_EXTENT_AT, RESERVE_EXTENT_AT] {
            let count = u32_at(anchor, extent) as usize / SECTOR;
            match read_sequence(image, u32_at(anchor, extent + 4) as usize, count) {
                Ok(described) => return Ok(described),
                Err(other) => why = other,
            }
        }
    }
    Err(why)
}

/// That an image has no anchor, and whether it should have one.
fn no_anchor(image: &[u8]) -> NoVolume {
    let words = "no anchor volume descriptor pointer stands at sector 256, 512 or n - 256";
    match recognized::udf_identifier(image) {
        Some(name) => NoVolume::Lost(format!(
            "{words}, though the volume recognition sequence tells of UDF ({name}): it was lost, or the image is not whole"
        )),
        None => match trace(image) {
            Some(trace) => NoVolume::Lost(format!("{words}, though {trace}")),
            None => NoVolume::Other(words.to_string()),
        },
    }
}

/// What tells of a volume beside an anchor, in words: an anchor that is damaged, or a logical volume descriptor.
fn trace(image: &[u8]) -> Option<String> {
    let is_anchor = |&at: &usize| sector(image, at).is_some_and(|s| u16_at(s, 0) == ANCHOR && u32_at(s, 12) as usize == at);
    if let Some(at) = anchor_places(image.len() / SECTOR).find(is_anchor) {
        return Some(format!("sector {} has one whose checksum or CRC is wrong", grouped(at)));
    }
    let is_logical = |&at: &usize| sector(image, at).is_some_and(|s| identifier(s, at) == Some(LOGICAL_VOLUME));
    let at = (0..MOST_DESCRIPTORS).find(is_logical)?;
    Some(format!("sector {} has the logical volume descriptor to which one leads", grouped(at)))
}

/// The descriptors of the volume that a volume descriptor sequence tells.
fn read_sequence(image: &[u8], from: usize, count: usize) -> Result<Described<'_>, NoVolume> {
    let mut logical: Option<&[u8]> = None;
    let mut partitions: Vec<&[u8]> = Vec::new();
    let prevails = |new: &[u8], old: &[u8]| u32_at(new, SEQUENCE_AT) >= u32_at(old, SEQUENCE_AT);
    for at in from..from.saturating_add(count.min(MOST_DESCRIPTORS)) {
        let Some(descriptor) = sector(image, at) else {
            break;
        };
        match identifier(descriptor, at) {
            Some(PARTITION) => {
                let number = u16_at(descriptor, PARTITION_NUMBER_AT);
                match partitions.iter_mut().find(|p| u16_at(p, PARTITION_NUMBER_AT) == number) {
                    Some(old) if prevails(descriptor, old) => *old = descriptor,
                    Some(_) => {}
                    None => partitions.push(descriptor),
                }
            }
            Some(LOGICAL_VOLUME) if logical.is_none_or(|old| prevails(descriptor, old)) => logical = Some(descriptor),
            Some(TERMINATOR) => break,
            _ => {}
        }
    }
    let lost = |words: &str| NoVolume::Lost(words.to_string());
    let logical = logical.ok_or_else(|| lost("the volume descriptor sequence has no logical volume descriptor"))?;
    let block_size = u32_at(logical, BLOCK_SIZE_AT) as usize;
    if block_size != SECTOR {
        return Err(NoVolume::Other(format!("the logical volume has blocks of {}, not 2,048", counted(block_size, "byte"))));
    }
    let length = u32_at(logical, MAP_LENGTH_AT) as usize;
    let maps = logical[MAPS_AT..].get(..length).ok_or_else(|| lost("the map list does not fit its logical volume descriptor"))?;
    // a list of neither kind still names a partition, for the calls to turn it down by
    let number = match read_maps(maps) {
        Ok(Maps::WriteOnce { partition } | Maps::Rewritable { partition, .. }) => Some(partition),
        Err(_) => None,
    };
    let named = partitions.iter().find(|p| number.is_none_or(|n| u16_at(p, PARTITION_NUMBER_AT) == n));
    let partition =
        named.ok_or_else(|| lost("the volume descriptor sequence has no descriptor of the partition that the map list names"))?;
    Ok(Described { logical, maps, partition })
}

/// Where [`write_volume`] puts the descriptors: an anchor, and a sequence of three.
const ANCHOR_PLACE: usize = 256;
const SEQUENCE_PLACE: usize = 257;
/// One past the last sector that [`write_volume`] writes.
pub const DESCRIPTORS_END: usize = 260;

/// Descriptors that tell a volume, in the sectors from 256 to 259: enough for [`find_volume`], not for a file system.
pub fn write_volume(volume: &Volume, partition: u16) -> Option<Vec<(usize, [u8; SECTOR])>> {
    let mut anchor = [0; SECTOR];
    for extent in [PRIMARY_EXTENT_AT, RESERVE_EXTENT_AT] {
        put(&mut anchor, extent, &(3 * SECTOR as u32).to_le_bytes());
        put(&mut anchor, extent + 4, &(SEQUENCE_PLACE as u32).to_le_bytes());
    }
    let mut part = [0; SECTOR];
    put(&mut part, PARTITION_NUMBER_AT, &partition.to_le_bytes());
    put(&mut part, PARTITION_START_AT, &volume.start.to_le_bytes());
    put(&mut part, PARTITION_LENGTH_AT, &volume.length.to_le_bytes());
    let mut logical = [0; SECTOR];
    put(&mut logical, BLOCK_SIZE_AT, &(SECTOR as u32).to_le_bytes());
    put(&mut logical, MAP_LENGTH_AT, &(volume.maps.len() as u32).to_le_bytes());
    let count = if volume.maps.len() > 64 { 2u32 } else { 1 };
    put(&mut logical, MAP_COUNT_AT, &count.to_le_bytes());
    logical[MAPS_AT..].get_mut(..volume.maps.len())?.copy_from_slice(&volume.maps);
    let sectors = [(ANCHOR, anchor), (PARTITION, part), (LOGICAL_VOLUME, logical), (TERMINATOR, [0; SECTOR])];
    Some(
        sectors
            .into_iter()
            .enumerate()
            .map(|(i, (identifier, mut sector))| {
                put_tag(&mut sector, identifier, ANCHOR_PLACE + i);
                (ANCHOR_PLACE + i, sector)
            })
            .collect(),
    )
}

fn put(b: &mut [u8], at: usize, bytes: &[u8]) {
    b[at..at + bytes.len()].copy_from_slice(bytes);
}

fn put_tag(sector: &mut [u8; SECTOR], identifier: u16, at: usize) {
    const COVERED: usize = 496;
    put(sector, 0, &identifier.to_le_bytes());
    sector[2] = 2;
    let crc = crc(&sector[16..16 + COVERED], 0);
    put(sector, 8, &crc.to_le_bytes());
    put(sector, 10, &(COVERED as u16).to_le_bytes());
    put(sector, 12, &(at as u32).to_le_bytes());
    sector[4] = sector[..16].iter().fold(0u8, |sum, &b| sum.wrapping_add(b));
}

#[cfg(test)]
mod tests {
    use super::*;
    use crate::write_maps;

    #[test]
    fn written_descriptors_are_found() {
        let maps = write_maps(&Maps::WriteOnce { partition: 7 }).expect("a map list");
        let volume = Volume { maps, start: 288, length: 100 };
        let mut image = vec![0; 400 * SECTOR];
        assert!(find_volume(&image).is_err());
        for (at, bytes) in write_volume(&volume, 7).expect("descriptors") {
            put(&mut image, SECTOR * at, &bytes);
        }
        assert_eq!(find_volume(&image), Ok(volume));
        // a damaged anchor is none, and tells that there was one; so does what it led to
        image[SECTOR * 256 + 20] ^= 1;
        let lost = |image: &[u8]| match find_volume(image) {
            Err(NoVolume::Lost(words)) => words,
            other => panic!("{other:?}"),
        };
        assert!(lost(&image).ends_with("though sector 256 has one whose checksum or CRC is wrong"));
        image[SECTOR * 256..SECTOR * 257].fill(0);
        assert!(lost(&image).ends_with("though sector 258 has the logical volume descriptor to which one leads"));
        image[SECTOR * 258 + 20] ^= 1;
        assert!(matches!(find_volume(&image), Err(NoVolume::Other(_))));
    }

    #[test]
    fn no_image_is_too_short() {
        for n in [0, 1, 2047, 2048, 256 * SECTOR, 256 * SECTOR + 1, 257 * SECTOR] {
            assert!(find_volume(&vec![0; n]).is_err());
        }
    }
}

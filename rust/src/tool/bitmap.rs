//! The space bitmap in words: its rows of free blocks, and for each line of documents 01 and 02 that a call on it can meet a sentence with
//! the case's own numbers.

use super::fields::number_at;
use super::words::{are, counted, from_to, grouped};
use std::ops::Range;
use tuormik::{crc, BitmapRef, Refusal};

const IDENTIFIER: u64 = 264;
const IDENTIFIER_AT: usize = 0;
const CHECKSUM_AT: usize = 4;
const CRC_AT: usize = 8;
const CRC_LENGTH_AT: usize = 10;
const LEAST_CRC_LENGTH: u64 = 8;
/// bytes of a tag
const TAG: usize = 16;
const BITS_AT: usize = 16;
const BYTES_AT: usize = 20;
/// where the bits begin
const HEAD: usize = 24;

/// What a command asks of a bitmap.
#[derive(Clone, Copy)]
pub enum Asked {
    Free,
    /// the free run of so many blocks that is nearest to a block
    Nearest {
        count: u32,
        near: u32,
    },
    /// a run taken, from its first block on
    Take {
        first: u32,
        count: u32,
    },
    /// a run given back
    GiveBack {
        first: u32,
        count: u32,
    },
}

impl Asked {
    /// The block that is named.
    pub fn number(self) -> u32 {
        match self {
            Asked::Free => 0,
            Asked::Nearest { near: block, .. } | Asked::Take { first: block, .. } | Asked::GiveBack { first: block, .. } => block,
        }
    }
}

/// Whether a block is free, by bytes that have its bit.
fn is_free(bytes: &[u8], block: u32) -> bool {
    let byte = bytes.get(HEAD + block as usize / 8).copied().unwrap_or(0);
    byte >> (block % 8) & 1 == 1
}

/// The rows of free blocks of a bitmap that the layer accepts, from the lowest on.
pub fn rows(bitmap: BitmapRef) -> Vec<Range<u32>> {
    let mut rows: Vec<Range<u32>> = Vec::new();
    for block in (0..bitmap.length).filter(|&block| is_free(bitmap.bytes, block)) {
        match rows.last_mut() {
            Some(row) if row.end == block => row.end += 1,
            _ => rows.push(block..block + 1),
        }
    }
    rows
}

/// The longest of some rows; of several the lowest.
pub fn longest(rows: &[Range<u32>]) -> Option<&Range<u32>> {
    rows.iter().rev().max_by_key(|row| row.len())
}

/// What is wrong with a call on a bitmap.
pub fn of_bitmap(bitmap: BitmapRef, asked: Asked, why: Refusal) -> String {
    match (why, asked) {
        (Refusal::BitmapMalformed, _) => {
            format!("the space bitmap is malformed: {}", malformed(bitmap).unwrap_or_else(|| "it was turned down".to_string()))
        }
        (Refusal::WrongRun, Asked::Take { first, count }) => wrong_run(bitmap, first, count, false),
        (Refusal::WrongRun, Asked::GiveBack { first, count }) => wrong_run(bitmap, first, count, true),
        (Refusal::WrongRun, _) => no_block(),
        (Refusal::NoRun, Asked::Nearest { count, .. }) => no_run(bitmap, count),
        _ => "the call on the space bitmap was turned down".to_string(),
    }
}

fn no_block() -> String {
    "a run has one block at least, not 0".to_string()
}

/// Line 31: the first condition that a bitmap does not meet.
fn malformed(BitmapRef { bytes, length }: BitmapRef) -> Option<String> {
    let field = |at: usize, count: usize| number_at(bytes, at, count);
    if bytes.len() < HEAD {
        return Some(format!("it has {}, and its head alone {HEAD}", counted(bytes.len(), "byte")));
    }
    let identifier = field(IDENTIFIER_AT, 2);
    if identifier != IDENTIFIER {
        return Some(format!("its tag has identifier {} and not {IDENTIFIER}", grouped(identifier)));
    }
    let sum = bytes[..TAG].iter().fold(0u8, |sum, &b| sum.wrapping_add(b)).wrapping_sub(bytes[CHECKSUM_AT]);
    if sum != bytes[CHECKSUM_AT] {
        return Some(format!("its tag's checksum is {} and should be {sum}", bytes[CHECKSUM_AT]));
    }
    let crc_length = field(CRC_LENGTH_AT, 2);
    if crc_length < LEAST_CRC_LENGTH {
        return Some(format!("its CRC length is {crc_length} and not {LEAST_CRC_LENGTH} or more"));
    }
    let Some(covered) = bytes[TAG..].get(..crc_length as usize) else {
        let there = counted(bytes.len() - TAG, "byte");
        return Some(format!("its CRC is of {}, and {there} stand behind its tag", counted(crc_length as usize, "byte")));
    };
    let (has, right) = (field(CRC_AT, 2), crc(covered, 0));
    if has != u64::from(right) {
        return Some(format!("its CRC is {has:#06x} and should be {right:#06x}"));
    }
    let [bits, bit_bytes] = [BITS_AT, BYTES_AT].map(|at| field(at, 4));
    if bits != u64::from(length) {
        return Some(format!("it is of {}, and the partition has {}", counted(bits as usize, "block"), grouped(length)));
    }
    if bits > 8 * bit_bytes {
        return Some(format!("its {} run past its {}", counted(bits as usize, "bit"), counted(bit_bytes as usize, "byte")));
    }
    let room = (bytes.len() - HEAD) as u64;
    (bit_bytes > room)
        .then(|| format!("its {} of bits run past the {} that stand behind its head", counted(bit_bytes as usize, "byte"), grouped(room)))
}

/// Line 32 of a run to be taken, or given back: its end, or its first block that is not in the state needed.
fn wrong_run(bitmap: BitmapRef, first: u32, count: u32, gives_back: bool) -> String {
    if count == 0 {
        return no_block();
    }
    let (end, length) = (u64::from(first) + u64::from(count), u64::from(bitmap.length));
    if end > length {
        return format!(
            "{} from {} on end with block {}, and the last of the disc is {}",
            counted(count as usize, "block"),
            grouped(first),
            grouped(end - 1),
            grouped(length.saturating_sub(1))
        );
    }
    let (what, state) = if gives_back { ("given back", "free") } else { ("taken", "allocated") };
    let wrong: Vec<u32> = (first..first + count).filter(|&block| is_free(bitmap.bytes, block) == gives_back).collect();
    let run = from_to(first as usize, end as usize - 1, "block");
    match wrong[..] {
        [] => format!("{run} cannot be {what}"),
        [_] if count == 1 => format!("{run} cannot be {what}: it is {state}"),
        [block] => format!("{run} cannot be {what}: block {} is {state}", grouped(block)),
        [block, ..] => format!("{run} cannot be {what}: {} {state}, the first of them block {}", are(wrong.len()), grouped(block)),
    }
}

/// Line 33: how long the longest row is.
fn no_run(bitmap: BitmapRef, count: u32) -> String {
    match longest(&rows(bitmap)) {
        None => "no block is free".to_string(),
        Some(row) => {
            format!(
                "no {} free blocks in a row: the longest row has {}, from {} on",
                grouped(count),
                grouped(row.len()),
                grouped(row.start)
            )
        }
    }
}

#[cfg(test)]
mod tests {
    use super::*;
    use tuormik::Error;

    /// A bitmap of 20 blocks in 3 bytes, of which 12 are free, with a CRC over head and bits, and bytes behind it.
    const MADE: [u8; 40] = [
        8, 1, 2, 0, 0, 0, 7, 0, 0, 0, 11, 0, 9, 0, 0, 0, 20, 0, 0, 0, 3, 0, 0, 0, 0x9c, 0x7d, 0x0c, 1, 2, 3, 4, 5, 6, 7, 8, 9, 10, 11, 12,
        13,
    ];

    /// With the CRC and the checksum that it should have.
    fn signed(mut bytes: Vec<u8>) -> Vec<u8> {
        let length = number_at(&bytes, CRC_LENGTH_AT, 2) as usize;
        if let Some(covered) = bytes[TAG..].get(..length) {
            let crc = crc(covered, 0);
            bytes[CRC_AT..CRC_AT + 2].copy_from_slice(&crc.to_le_bytes());
        }
        bytes[CHECKSUM_AT] = 0;
        bytes[CHECKSUM_AT] = bytes[..TAG].iter().fold(0u8, |sum, &b| sum.wrapping_add(b));
        bytes
    }

    fn of(bytes: &[u8]) -> BitmapRef<'_> {
        BitmapRef { bytes, length: 20 }
    }

    /// A bitmap is malformed in words exactly if the layer refuses it, and is not the worse for its tag's other fields.
    #[test]
    fn as_the_layer_takes_it() {
        let good = signed(MADE.to_vec());
        assert_eq!((malformed(of(&good)), of(&good).free()), (None, Ok(12)));
        let mut counts = [0; 2];
        for at in 0..good.len() {
            for byte in 0..=255 {
                for is_signed in [false, true] {
                    let mut bytes = good.clone();
                    bytes[at] = byte;
                    let bytes = if is_signed { signed(bytes) } else { bytes };
                    for length in [bytes.len(), 27, 26, 24, 23] {
                        let bitmap = of(&bytes[..length]);
                        let is_taken = bitmap.free() != Err(Error::Refused(Refusal::BitmapMalformed));
                        assert_eq!(malformed(bitmap).is_none(), is_taken, "byte {at} is {byte}, {length} lent: {:?}", malformed(bitmap));
                        counts[usize::from(is_taken)] += 1;
                    }
                }
            }
        }
        assert!(counts.iter().all(|&count| count > 10_000), "{counts:?}");
    }

    /// The words for a bitmap with other bytes, which is then signed.
    fn words_with(at: usize, other: &[u8]) -> String {
        let mut bytes = signed(MADE.to_vec());
        bytes[at..at + other.len()].copy_from_slice(other);
        malformed(of(&signed(bytes))).expect("a condition")
    }

    #[test]
    fn malformed_in_words() {
        assert_eq!(words_with(IDENTIFIER_AT, &[5]), "its tag has identifier 261 and not 264");
        assert_eq!(words_with(CRC_LENGTH_AT, &[7]), "its CRC length is 7 and not 8 or more");
        assert_eq!(words_with(CRC_LENGTH_AT, &[25]), "its CRC is of 25 bytes, and 24 bytes stand behind its tag");
        assert_eq!(words_with(BITS_AT, &[21]), "it is of 21 blocks, and the partition has 20");
        assert_eq!(words_with(BYTES_AT, &[2]), "its 20 bits run past its 2 bytes");
        assert_eq!(words_with(BYTES_AT, &[17]), "its 17 bytes of bits run past the 16 that stand behind its head");
        let good = signed(MADE.to_vec());
        assert_eq!(malformed(of(&good[..23])).as_deref(), Some("it has 23 bytes, and its head alone 24"));
        let mut bytes = good.clone();
        bytes[CHECKSUM_AT] ^= 1;
        let says = format!("its tag's checksum is {} and should be {}", good[CHECKSUM_AT] ^ 1, good[CHECKSUM_AT]);
        assert_eq!(malformed(of(&bytes)), Some(says));
        // a bit changed, and nothing else
        let mut bytes = good.clone();
        bytes[HEAD] ^= 1;
        let crcs = [&good, &bytes].map(|bytes| crc(&bytes[TAG..TAG + 11], 0));
        assert_eq!(malformed(of(&bytes)), Some(format!("its CRC is {:#06x} and should be {:#06x}", crcs[0], crcs[1])));
    }

    #[test]
    fn rows_are_those_of_the_bits() {
        let good = signed(MADE.to_vec());
        assert_eq!(rows(of(&good)), [2..5, 7..9, 10..15, 18..20]);
        assert_eq!(longest(&rows(of(&good))), Some(&(10..15)));
        assert_eq!(longest(&[3..5, 7..9]), Some(&(3..5)));
        assert_eq!(longest(&[]), None);
    }
}

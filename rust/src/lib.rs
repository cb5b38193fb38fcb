//! The proved block layer of CD UDF discs, from Rust.
//!
//! [`Disc`] is a lent disc, [`Open`] an open one ([`DiscRef`] and [`OpenRef`] where it is only read): its calls are those of document 01,
//! "The CD UDF block layer", with types for record, cut and refusal. [`calls`] has the same calls over plain slices and numbers, as they
//! stand in `include/tuormik.h`. [`Bitmap`] is the space bitmap of a rewritable disc ([`BitmapRef`] where it is only read). [`image`] has
//! discs in image files, with their marks. [`crc`] is the CRC of descriptor tags.
//!
//! ```
//! use tuormik::{write_maps, Disc, DiscRef, Maps};
//!
//! let maps = write_maps(&Maps::WriteOnce { partition: 0 })?;
//! let (mut bytes, mut marks) = (vec![0; 2048 * 100], vec![0; 100]);
//! let mut disc = Disc { bytes: &mut bytes, marks: &mut marks, maps: &maps, start: 0, length: 100 };
//! disc.make(&[])?;
//! let mut open = disc.open()?;
//! open.save_virtual(0, &[7; 2048])?;
//! open.commit()?;
//! assert_eq!(open.read(0)?, [7; 2048]);
//!
//! // who only reads lends nothing to be written
//! let open = DiscRef { bytes: &bytes, marks: &marks, maps: &maps, start: 0, length: 100 }.open()?;
//! assert_eq!(open.read(0)?, [7; 2048]);
//! # Ok::<(), tuormik::Error>(())
//! ```
#![deny(missing_docs)]

mod bitmap;
pub mod calls;
pub mod descriptors;
pub mod image;
mod marks;
pub mod numbers;
mod open;
mod passed;
mod refusal;

// the C functions of `calls`, where the proved library is not linked
#[cfg(feature = "stand-in")]
extern crate tuormik_plain as _;

pub use bitmap::{Bitmap, BitmapRef};
pub use calls::{crc, crc_by_bytes, crc_by_words};
pub use marks::marks_by_rule;
pub use open::{look_up, read_maps, write_maps, Call, Disc, DiscRef, Forecast, Maps, Open, OpenRef, Ran};
pub use passed::possible_icbs;
pub use refusal::{Error, Refusal};

/// Bytes of a sector, and of a block.
pub const SECTOR: usize = 2048;
/// Sectors of a packet.
pub const PACKET: usize = 32;
/// Bytes of a packet.
pub const PACKET_BYTES: usize = PACKET * SECTOR;
/// The most sectors a disc can have.
pub const MOST_SECTORS: usize = 1 << 20;
/// The most entries a VAT can have, and the places of a lent table.
pub const MOST_ENTRIES: usize = 4096;
/// An unused entry; no previous ICB; as an original of the sparing table, a free spare.
pub const NONE: u32 = u32::MAX;
/// As an original of the sparing table, a defective spare, which is not used again (document 02, slip 1).
pub const DEFECTIVE: u32 = 0xffff_fff0;

/// A commit, in a list that is to be forecast; any number above it is one too, and a number below it is a save of that virtual block.
pub const COMMIT: u32 = 0x8000_0000;

/// The mark of a blank sector.
pub const BLANK: u8 = 0;
/// The mark of a recorded sector.
pub const RECORDED: u8 = 1;
/// The mark of an unreadable sector.
pub const UNREADABLE: u8 = 2;

/// The word's step: from any CRC, what the steps of the four bytes give, one after the other.
///
/// ```
/// assert_eq!(tuormik::crc_word(0x1d0f, *b"1234"), tuormik::crc_by_bytes(b"1234", 0x1d0f));
/// ```
pub fn crc_word(crc: u16, word: [u8; 4]) -> u16 {
    let [a, b, c, d] = word;
    calls::crc_word(crc, a, b, c, d)
}

/// What an opening hands back, and each accepted call after it.
#[derive(Clone, Copy, Debug, PartialEq, Eq)]
pub struct Record {
    /// What it holds of the disc.
    pub held: Held,
    /// How many sectors the opening passed over above the VAT ICB that it found; on a rewritable disc always 0.
    ///
    /// On a write-once disc 0 says that the last sector of the partition that is not blank is a VAT ICB. Wherever the power failed in the
    /// calls before the opening, the number is at most that of the sector writes begun since the last whole VAT ICB: all writes of an
    /// accepted call that was not cut, and those of a cut call up to the one at which the power failed. They are counted from an earlier
    /// opening that passed over none; one that passed over some adds these until the next whole VAT ICB. The bound takes for granted that
    /// what was recorded stays readable, and that nobody else writes to the disc meanwhile.
    pub passed_over: u32,
}

/// What a record holds of a disc of each kind.
#[derive(Clone, Copy, Debug, PartialEq, Eq)]
pub enum Held {
    /// Of a write-once disc.
    WriteOnce {
        /// N, the number of entries of the VAT.
        entries: u32,
        /// NWA, the logical block that is written next.
        next: u32,
        /// The logical block of the last VAT ICB.
        last: u32,
    },
    /// Of a rewritable disc.
    Rewritable {
        /// R, the number of entries of the sparing table.
        entries: u32,
        /// The sequence of the sparing table.
        sequence: u32,
    },
    /// Numbers that no opening hands back, as they are: kind, N or R, NWA or sequence, last ICB. The calls refuse a kind above 1 as
    /// [`StaleRecord`](Refusal::StaleRecord), and do not look at a last ICB of a rewritable disc.
    Other([u32; 4]),
}

impl Record {
    /// The record as the five numbers of the C interface.
    pub fn numbers(self) -> [u32; 5] {
        match self.held {
            Held::WriteOnce { entries, next, last } => [0, entries, next, last, self.passed_over],
            Held::Rewritable { entries, sequence } => [1, entries, sequence, 0, self.passed_over],
            Held::Other([kind, entries, next, last]) => [kind, entries, next, last, self.passed_over],
        }
    }

    /// The record of five numbers, of which [`Record::numbers`] gives back the same.
    pub fn from_numbers(numbers: [u32; 5]) -> Record {
        let [kind, entries, next, last, passed_over] = numbers;
        let held = match (kind, last) {
            (0, _) => Held::WriteOnce { entries, next, last },
            (1, 0) => Held::Rewritable { entries, sequence: next },
            _ => Held::Other([kind, entries, next, last]),
        };
        Record { held, passed_over }
    }

    /// N or R.
    pub fn entries(self) -> u32 {
        match self.held {
            Held::WriteOnce { entries, .. } | Held::Rewritable { entries, .. } | Held::Other([_, entries, ..]) => entries,
        }
    }
}

/// What becomes of the sector write at which the power fails.
#[derive(Clone, Copy, Debug, PartialEq, Eq)]
pub enum Effect {
    /// The sector is as it was.
    Old,
    /// The sector is unreadable; its bytes are as they were.
    Unreadable,
    /// The sector is written.
    Whole,
}

/// The sector write at which the power fails in a call, counted from 1; 0, or a number past the last write, is no cut.
#[derive(Clone, Copy, Debug, PartialEq, Eq)]
pub struct Cut {
    /// The number of the sector write.
    pub at: u32,
    /// What becomes of it.
    pub effect: Effect,
}

impl Cut {
    /// The power stays on.
    pub const NONE: Cut = Cut { at: 0, effect: Effect::Old };

    /// The power fails at a write.
    pub const fn at(at: u32, effect: Effect) -> Cut {
        Cut { at, effect }
    }

    fn numbers(self) -> (u32, u32) {
        let effect = match self.effect {
            Effect::Old => 0,
            Effect::Unreadable => 1,
            Effect::Whole => 2,
        };
        (self.at, effect)
    }
}

//! Why a call is turned down: the lines of document 01, "Why a call is turned down", but for 18, which never occurs (document 02, slip
//! 1), and those that slips 5, 8 and 10 add, with their words.

use crate::numbers::grouped;
use crate::{PACKET_BYTES, SECTOR};
use std::fmt;

/// A line of document 01 or 02 by which a call is turned down.
///
/// The variants stand in checking order: of the lines that apply, a call is turned down by the first. That is not the order of the
/// numbers: of document 02, 31 (slip 10) stands directly after 3, then 30 (slip 8), 32 and 33 (slip 10) in turn after 12, and 25 (slip 5)
/// directly before 14.
#[derive(Clone, Copy, Debug, PartialEq, Eq)]
pub enum Refusal {
    /// The lent disc has no shape of a disc.
    DiscShape,
    /// The partition is empty or not on the disc.
    SpanOutside,
    /// Something lent has the wrong length.
    LentLength,
    /// The space bitmap is malformed, is not of L blocks, or runs past the bytes that it has or that are lent.
    BitmapMalformed,
    /// A map is cut short.
    MapCut,
    /// The map list is of neither kind of volume.
    NeitherKind,
    /// A rewritable disc's partition, tables or spares do not lie in packets of their own.
    Misaligned,
    /// The call is for the other kind of disc.
    OtherKind,
    /// The disc has no VAT, or no sparing table.
    NoTable,
    /// The VAT has too many entries.
    TooManyEntries,
    /// The newest copies of the sparing table differ.
    CopiesDiffer,
    /// The record does not go with the disc.
    StaleRecord,
    /// There is no such block or packet.
    NumberOutside,
    /// The packet, or the one of the block, is a spare inside the partition, whether used, defective or free. Reading, saving and sparing
    /// on a rewritable disc have this line; the blocks to which it applies are the same after every call but making.
    BelongsToSpare,
    /// The wanted run of blocks has length 0 or, in taking and giving back, ends past L or is not free, or not allocated, as a whole.
    WrongRun,
    /// No free run of the wanted length exists.
    NoRun,
    /// The block is unused.
    UnusedEntry,
    /// The first sector to be read that is not recorded is blank: it was never recorded. Reading and saving a logical block have this
    /// line.
    BlankSector,
    /// The first sector to be read that is not recorded is unreadable. The same calls have this line.
    UnreadableSector,
    /// The block would be taken for a VAT.
    PassesAsIcb,
    /// The disc is full.
    NoRoom,
    /// The disc has one sparing table only, which is not enough to spare.
    OneTable,
    /// No spare is free.
    NoSpare,
    /// The sparing table cannot be written again.
    LastSequence,
    /// The partition to be made is not blank.
    NotBlank,
}

use Refusal::*;

/// Each line with its number and its words, in the order of the variants, which is that of checking: a line does not stand at its number.
const LINES: [(Refusal, u32, &str); 25] = [
    (DiscShape, 1, "Disc bytes are not 2,048 times the marks, sectors exceed the limit or are none, or a mark exceeds 2."),
    (SpanOutside, 2, "L is 0 or S + L exceeds the sectors."),
    (LentLength, 3, "The lent table has under 4,096 entries, or block, packet or written map bytes have the wrong length."),
    (BitmapMalformed, 31, "The space bitmap is malformed, its bits are not L or run past its bytes, or CRC or bytes run past those lent."),
    (MapCut, 4, "A map is cut short, or of length 0."),
    (NeitherKind, 5, "The list, read or to be written, is neither kind."),
    (
        Misaligned,
        6,
        "Rewritable: S, L or a table sector is not a multiple of 32, a table's packet is off the disc, in the partition or named twice, \
         or spares to be made break the copy rule.",
    ),
    (OtherKind, 7, "The call is for the other kind."),
    (NoTable, 8, "No VAT ICB or counting copy exists."),
    (TooManyEntries, 9, "The found VAT has over 4,096 entries."),
    (CopiesDiffer, 10, "Current copies differ in entries."),
    (
        StaleRecord,
        11,
        "The handed record has NWA wrong, N over 4,096, a used entry or the last ICB at or above NWA, or (rewritable) differs from the \
         current table, sequence included.",
    ),
    (NumberOutside, 12, "v is N or more (save: above N, or 4,096), b is L or more, or a packet start is not a multiple of 32 below L."),
    (BelongsToSpare, 30, "The block or packet belongs to a spare."),
    (WrongRun, 32, "The wanted run has length 0 or, in taking or giving back, ends past L or is not in the state needed."),
    (NoRun, 33, "No free run of the wanted length exists."),
    (UnusedEntry, 13, "The entry to be read or freed is unused."),
    (
        BlankSector,
        25,
        "A sector was never recorded: of those to be read (save b: the others of its packet) the first that is not recorded is blank.",
    ),
    (
        UnreadableSector,
        14,
        "A sector cannot be read: of those to be read (save b: the others of its packet) the first that is not recorded is unreadable.",
    ),
    (PassesAsIcb, 15, "The block would pass as a VAT ICB at NWA."),
    (NoRoom, 16, "NWA + 1 + d + 1 exceeds L (save, d for the N after it), or NWA + d + 1 does (commit)."),
    (OneTable, 17, "Sparing with one table only."),
    (NoSpare, 19, "No entry is free."),
    (LastSequence, 20, "The sequence is 0xffffffff."),
    (NotBlank, 21, "A write-once partition to be made is not blank."),
];

impl Refusal {
    /// The number of the line. No refusal has 18, and from 22 on the numbers have gaps.
    pub fn number(self) -> u32 {
        LINES[self as usize].1
    }

    /// The refusal of a number.
    pub fn from_number(number: u32) -> Option<Refusal> {
        LINES.iter().find(|line| line.1 == number).map(|line| line.0)
    }

    /// The line in words: those of document 01 up to 21 and of document 02 from 22 on, but of 25 and 14, which its slip 5 tells apart.
    pub fn words(self) -> &'static str {
        LINES[self as usize].2
    }

    /// Where the line stands: the document, which is 01 up to 21 and 02 from 22 on, and the number.
    pub fn place(self) -> String {
        let document = if self.number() < 22 { "01" } else { "02" };
        format!("{document}, line {}", self.number())
    }
}

impl fmt::Display for Refusal {
    fn fmt(&self, f: &mut fmt::Formatter) -> fmt::Result {
        write!(f, "{} ({})", self.words(), self.place())
    }
}

/// Why a call did not come to its end.
#[derive(Clone, Copy, Debug, PartialEq, Eq)]
pub enum Error {
    /// It was turned down, and nothing lent has changed.
    Refused(Refusal),
    /// It was turned down as [`LentLength`](Refusal::LentLength), and nothing lent has changed.
    Length {
        /// Which of the lent slices it was: the block or the packet.
        what: &'static str,
        /// How many bytes it has.
        has: usize,
        /// How many it must have.
        needs: usize,
    },
    /// The power failed in it; the disc has to be opened again.
    Cut,
    /// The power has failed before it, and the disc was not opened since.
    PowerOff,
    /// A number that this wrapper does not know.
    Unknown(u32),
}

impl Error {
    /// The result that a call's number is.
    pub fn check(number: u32) -> Result<(), Error> {
        match number {
            0 => Ok(()),
            255 => Err(Error::Cut),
            _ => Err(Refusal::from_number(number).map_or(Error::Unknown(number), Error::Refused)),
        }
    }

    /// The refusal, if it is one.
    pub fn refusal(self) -> Option<Refusal> {
        match self {
            Error::Refused(why) => Some(why),
            Error::Length { .. } => Some(LentLength),
            Error::Cut | Error::PowerOff | Error::Unknown(_) => None,
        }
    }

    /// The error of a call to which this block was lent.
    pub(crate) fn of_block(self, block: &[u8]) -> Error {
        self.of_length("block", block.len(), SECTOR)
    }

    /// The error of a call to which this packet was lent.
    pub(crate) fn of_packet(self, packet: &[u8]) -> Error {
        self.of_length("packet", packet.len(), PACKET_BYTES)
    }

    /// A refusal of line 3 says which length is the wrong one.
    fn of_length(self, what: &'static str, has: usize, needs: usize) -> Error {
        match self {
            Error::Refused(LentLength) if has != needs => Error::Length { what, has, needs },
            other => other,
        }
    }
}

impl fmt::Display for Error {
    fn fmt(&self, f: &mut fmt::Formatter) -> fmt::Result {
        match self {
            Error::Refused(why) => why.fmt(f),
            Error::Length { what, has, needs } => {
                write!(f, "The lent {what} must have {} bytes, and has {}. ({})", grouped(*needs), grouped(*has), LentLength.place())
            }
            Error::Cut => f.write_str("The power failed in the call."),
            Error::PowerOff => f.write_str("The power failed; the disc has to be opened again."),
            Error::Unknown(number) => {
                write!(f, "The layer answered {number}, which is no line of 01 or 02.")
            }
        }
    }
}

impl std::error::Error for Error {}

#[cfg(test)]
mod tests {
    use super::*;

    /// The numbers in checking order, as documents 01 and 02 give it.
    const NUMBERS: [u32; 25] = [1, 2, 3, 31, 4, 5, 6, 7, 8, 9, 10, 11, 12, 30, 32, 33, 13, 25, 14, 15, 16, 17, 19, 20, 21];

    #[test]
    fn lines_have_their_numbers_in_checking_order() {
        for (i, (why, number, words)) in LINES.iter().enumerate() {
            assert_eq!((*why as usize, *number), (i, NUMBERS[i]));
            assert_eq!((why.number(), why.words()), (*number, *words));
        }
    }

    #[test]
    fn a_number_is_that_of_one_refusal_or_of_none() {
        for number in (0..=300).chain([u32::MAX]) {
            let why = Refusal::from_number(number);
            assert_eq!(why.map(Refusal::number), NUMBERS.contains(&number).then_some(number));
        }
        assert_eq!(Refusal::from_number(25), Some(BlankSector));
        assert_eq!(Refusal::from_number(14), Some(UnreadableSector));
        assert_eq!(Refusal::from_number(30), Some(BelongsToSpare));
        assert_eq!([31, 32, 33].map(Refusal::from_number), [BitmapMalformed, WrongRun, NoRun].map(Some));
        assert_eq!(Refusal::from_number(18), None);
    }

    #[test]
    fn a_spares_block_has_the_words_of_02() {
        assert_eq!(BelongsToSpare.to_string(), "The block or packet belongs to a spare. (02, line 30)");
    }

    #[test]
    fn the_lines_of_the_space_bitmap_are_of_02() {
        assert_eq!([BitmapMalformed, WrongRun, NoRun].map(|why| why.place()), [31, 32, 33].map(|n| format!("02, line {n}")));
        assert_eq!(NoRun.to_string(), "No free run of the wanted length exists. (02, line 33)");
    }

    /// Who is told that a sector was never recorded does not clean the disc.
    #[test]
    fn blank_and_unreadable_have_different_words() {
        let [blank, unreadable] = [BlankSector, UnreadableSector].map(|why| why.to_string());
        assert!(blank.starts_with("A sector was never recorded: ") && blank.ends_with(" is blank. (02, line 25)"), "{blank}");
        assert!(
            unreadable.starts_with("A sector cannot be read: ") && unreadable.ends_with(" is unreadable. (01, line 14)"),
            "{unreadable}"
        );
        assert!(!blank.contains("unreadable") && !blank.contains("cannot be read"), "{blank}");
        assert!(!unreadable.contains("blank") && !unreadable.contains("never"), "{unreadable}");
    }
}

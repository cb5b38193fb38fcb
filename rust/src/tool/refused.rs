//! Refusals in words: for each line of documents 01 and 02 that a command can meet, a sentence with the case's own numbers.

use super::bitmap;
use super::room::commit_sectors;
use super::states::{Block, Counts, SpareCounts, SpareState, View};
use super::words::{are, counted, from_to, grouped};
use super::{found, Failure};
use tuormik::{read_maps, BitmapRef, DiscRef, Error, Held, Maps, Refusal};
use tuormik::{BLANK, MOST_ENTRIES, MOST_SECTORS, PACKET, PACKET_BYTES, SECTOR};

/// What a command asks of an open disc.
#[derive(Clone, Copy)]
pub enum Asked {
    Read(u32),
    SaveVirtual(u32),
    Free(u32),
    Commit,
    SaveBlock(u32),
    SavePacket(u32),
    /// a packet's first block, and the bytes that are given for it
    SparePacket(u32, usize),
    Fullness,
    Forecast,
}

impl Asked {
    fn words(self) -> String {
        match self {
            Asked::Read(n) => format!("the reading of block {}", grouped(n)),
            Asked::SaveVirtual(n) | Asked::SaveBlock(n) => format!("the save of block {}", grouped(n)),
            Asked::Free(n) => format!("the freeing of block {}", grouped(n)),
            Asked::Commit => "the commit".to_string(),
            Asked::SavePacket(n) => format!("the save of the packet of block {}", grouped(n)),
            Asked::SparePacket(n, _) => format!("the sparing of the packet of block {}", grouped(n)),
            Asked::Fullness => "the question how full the disc is".to_string(),
            Asked::Forecast => "the forecast of saves and commits".to_string(),
        }
    }

    pub fn number(self) -> u32 {
        match self {
            Asked::Read(n) | Asked::SaveVirtual(n) | Asked::Free(n) => n,
            Asked::SaveBlock(n) | Asked::SavePacket(n) | Asked::SparePacket(n, _) => n,
            Asked::Commit | Asked::Fullness | Asked::Forecast => 0,
        }
    }
}

/// The failure that an answer is; of a refusal the sentence is asked for.
fn failure(error: Error, what: impl FnOnce() -> String, sentence: impl FnOnce(Refusal) -> String) -> Failure {
    match error {
        Error::Refused(why) => Failure::Refused(sentence(why), why),
        Error::Length { .. } => Failure::Refused(sentence(Refusal::LentLength), Refusal::LentLength),
        Error::Cut => Failure::Cut(what()),
        other => Failure::File(other.to_string()),
    }
}

/// An answer of a call on an open disc.
pub fn by_call<'a>(open: impl Into<View<'a>>, asked: Asked, error: Error) -> Failure {
    failure(error, || asked.words(), |why| of_call(open.into(), asked, why))
}

/// An answer of opening a disc.
pub fn by_opening(disc: DiscRef, error: Error) -> Failure {
    failure(error, || "the opening".to_string(), |why| of_disc(disc, &[], why))
}

/// An answer of making a disc with these spares.
pub fn by_making(disc: DiscRef, spares: &[u32], error: Error) -> Failure {
    failure(error, || "the making".to_string(), |why| of_disc(disc, spares, why))
}

/// An answer of writing a map list.
pub fn by_maps(maps: &Maps, error: Error) -> Failure {
    failure(error, || "the writing of a map list".to_string(), |_| found::unwritable(maps))
}

/// An answer of reading a map list that stands alone.
pub fn by_list(maps: &[u8], error: Error) -> Failure {
    failure(error, || "the reading of a map list".to_string(), |why| of_list(maps, why))
}

/// An answer of a call on a space bitmap.
pub fn by_bitmap(bitmap: BitmapRef, asked: bitmap::Asked, error: Error) -> Failure {
    let sentence = |why| match why {
        Refusal::NumberOutside => not_there(asked.number(), bitmap.length),
        other => bitmap::of_bitmap(bitmap, asked, other),
    };
    failure(error, || "a call on the space bitmap".to_string(), sentence)
}

/// A command that is not for the kind that a disc is.
pub fn other_kind(what: &str, is_write_once: bool) -> Failure {
    Failure::Refused(for_the_other_kind(what, is_write_once), Refusal::OtherKind)
}

fn for_the_other_kind(what: &str, is_write_once: bool) -> String {
    let (has, needs) = if is_write_once { ("write-once", "rewritable") } else { ("rewritable", "write-once") };
    format!("{what} is for a {needs} disc, and this one is {has}")
}

/// A number of sectors that no disc has.
pub fn sectors(count: usize) -> Failure {
    Failure::Refused(shape_words(count), Refusal::DiscShape)
}

fn shape_words(sectors: usize) -> String {
    format!("a disc has 1 to {} sectors, not {}", grouped(MOST_SECTORS), grouped(sectors))
}

fn of_list(maps: &[u8], why: Refusal) -> String {
    match why {
        Refusal::MapCut => found::cut_map(maps),
        Refusal::NeitherKind => found::neither_kind(maps),
        _ => match read_tables(maps) {
            Some((tables, table_bytes)) => found::unwritable(&Maps::Rewritable { partition: 0, table_bytes, tables }),
            None => "the map list was turned down".to_string(),
        },
    }
}

/// The tables of a rewritable map list, also of one that line 6 turns down.
fn read_tables(maps: &[u8]) -> Option<(Vec<u32>, u32)> {
    if let Ok(Maps::Rewritable { tables, table_bytes, .. }) = read_maps(maps) {
        return Some((tables, table_bytes));
    }
    let map: &[u8; 64] = maps.try_into().ok()?;
    let word = |at: usize| u32::from_le_bytes([map[at], map[at + 1], map[at + 2], map[at + 3]]);
    let tables = (0..usize::from(map[42]).min(4)).map(|i| word(48 + 4 * i)).collect();
    Some((tables, word(44)))
}

/// What is wrong with a disc that is opened or made.
fn of_disc(disc: DiscRef, spares: &[u32], why: Refusal) -> String {
    let rewritable = read_tables(disc.maps).filter(|_| disc.maps.len() == 64);
    let (tables, table_bytes) = rewritable.clone().unwrap_or_default();
    match why {
        Refusal::DiscShape => shape_of(disc),
        Refusal::SpanOutside => span_of(disc),
        Refusal::MapCut | Refusal::NeitherKind => of_list(disc.maps, why),
        Refusal::Misaligned => found::misaligned(disc, &tables, table_bytes, spares),
        Refusal::NoTable if rewritable.is_some() => found::no_copy(disc, &tables, table_bytes),
        Refusal::NoTable => found::no_vat(disc),
        Refusal::TooManyEntries => found::too_many_entries(disc),
        Refusal::CopiesDiffer => found::copies_differ(disc, &tables),
        Refusal::NotBlank => {
            let written = disc.marks.iter().filter(|&&m| m != BLANK).count();
            format!("a write-once disc is made on blank sectors, and {} not blank", are(written))
        }
        _ => "the disc was turned down".to_string(),
    }
}

fn shape_of(disc: DiscRef) -> String {
    let (bytes, sectors) = (disc.bytes.len(), disc.marks.len());
    if !bytes.is_multiple_of(SECTOR) {
        format!("the image has {}, which is not a multiple of 2,048", counted(bytes, "byte"))
    } else {
        shape_words(sectors)
    }
}

fn span_of(disc: DiscRef) -> String {
    if disc.length == 0 {
        return "the partition has no sectors: L is 0".to_string();
    }
    let end = u64::from(disc.start) + u64::from(disc.length);
    format!(
        "the partition does not fit the disc: from sector {} on {} end before sector {}, and the disc has {}",
        grouped(disc.start),
        counted(disc.length as usize, "sector"),
        grouped(end),
        counted(disc.marks.len(), "sector")
    )
}

/// The blocks that a disc has, in words.
fn blocks_there(count: u32) -> String {
    match count {
        0 => "the disc has no blocks yet".to_string(),
        1 => "the disc has 1 block, 0".to_string(),
        2 => "the disc has 2 blocks, 0 and 1".to_string(),
        n => format!("the disc has {} blocks, 0 to {}", grouped(n), grouped(n - 1)),
    }
}

/// What is wrong with a call on a disc that is open.
fn of_call(open: View, asked: Asked, why: Refusal) -> String {
    let number = asked.number();
    match why {
        Refusal::LentLength => lent_words(asked),
        Refusal::OtherKind => for_the_other_kind(&asked.words(), open.is_write_once()),
        Refusal::NumberOutside => outside_words(open, asked),
        Refusal::BelongsToSpare => of_spare_words(open, number),
        Refusal::UnusedEntry => format!("block {} is unused: the disc's table has no sector for it", grouped(number)),
        Refusal::BlankSector | Refusal::UnreadableSector => not_recorded_words(open, asked),
        Refusal::PassesAsIcb => {
            format!(
                "the bytes for block {} would pass as a VAT ICB where they would stand, and be taken for the disc's own",
                grouped(number)
            )
        }
        Refusal::NoRoom => no_room_words(open, asked),
        Refusal::OneTable => {
            "the disc has one sparing table only, and sparing rewrites it: a cut there could lose every sparing".to_string()
        }
        Refusal::NoSpare => no_spare_words(open),
        Refusal::LastSequence => format!("the sequence of the sparing table has come to its end, {}", grouped(u32::MAX)),
        Refusal::StaleRecord => format!("the disc is not as it was when it was opened, so {} was not done", asked.words()),
        other => of_disc(open.disc, &[], other),
    }
}

fn lent_words(asked: Asked) -> String {
    match asked {
        Asked::SparePacket(_, given) => format!("a packet has {} bytes, and {} given", grouped(PACKET_BYTES), are(given)),
        _ => format!("a block has {} bytes, and a packet {}", grouped(SECTOR), grouped(PACKET_BYTES)),
    }
}

fn outside_words(open: View, asked: Asked) -> String {
    let (number, count) = (asked.number(), open.count());
    let packets = matches!(asked, Asked::SavePacket(_) | Asked::SparePacket(..));
    match asked {
        Asked::SaveVirtual(v) if v as usize >= MOST_ENTRIES => {
            format!("block {} cannot be saved: a write-once disc holds at most {} blocks", grouped(v), grouped(MOST_ENTRIES))
        }
        Asked::SaveVirtual(v) => {
            format!("block {} cannot be saved yet: {}, and the next new one is {}", grouped(v), blocks_there(count), grouped(count))
        }
        _ if packets && number < count => {
            let first = number - number % PACKET as u32;
            format!("no packet begins at block {}: its packet is {}", grouped(number), packet_words(first))
        }
        _ => not_there(number, count),
    }
}

fn not_there(number: u32, count: u32) -> String {
    format!("block {} does not exist: {}", grouped(number), blocks_there(count))
}

fn packet_words(first: u32) -> String {
    from_to(first as usize, first as usize + PACKET - 1, "block")
}

/// Line 30: the spare to which a block's packet belongs.
fn of_spare_words(open: View, number: u32) -> String {
    let belongs = format!("block {} belongs to a spare", grouped(number));
    let first = number - number % PACKET as u32;
    let Some(spare) = open.spare_of(first) else {
        return belongs;
    };
    let which = match spare.state {
        SpareState::Used => format!("the spare of {}", packet_words(spare.original)),
        SpareState::Defective => "a defective spare".to_string(),
        SpareState::Free => "a free spare".to_string(),
    };
    let sectors = from_to(spare.sector, spare.sector + PACKET - 1, "sector");
    format!("{belongs}: its packet, {}, is {which}, in {sectors}", packet_words(first))
}

/// Lines 25 and 14: the first block to be read that is not recorded, for a save another of its packet.
fn not_recorded_words(open: View, asked: Asked) -> String {
    let number = asked.number();
    if let (Asked::Read(_), Some(block)) = (asked, open.block(number)) {
        return block.why_not_read();
    }
    let others = open.packet(number - number % PACKET as u32).filter(|block| block.number != number);
    let lacking: Vec<Block> = others.filter(|block| !block.is_readable()).collect();
    let by_itself = format!("block {} cannot be saved by itself", grouped(number));
    let Some(first) = lacking.first() else {
        return by_itself;
    };
    let why = format!("{by_itself}: the others of its packet are written with it, and {}", first.why_not_read());
    match lacking.len() {
        1 => why,
        n => format!("{why}; of the others {} not recorded: {}", are(n), Counts::from_iter(lacking).not_recorded()),
    }
}

fn no_room_words(open: View, asked: Asked) -> String {
    let Held::WriteOnce { entries, next, .. } = open.record.held else {
        return "the disc has no room".to_string();
    };
    let free = (open.disc.length as usize).saturating_sub(next as usize);
    let left = match free {
        0 => "no sector is free".to_string(),
        1 => "1 sector is free".to_string(),
        n => format!("{} are free", counted(n, "sector")),
    };
    let adds = matches!(asked, Asked::SaveVirtual(v) if v == entries);
    let commit = commit_sectors(entries as usize + usize::from(adds));
    match asked {
        Asked::Commit => format!("no room for the commit: {left}, and it needs {}", grouped(commit)),
        _ => format!("no room for block {}: {left}, and the save and its commit need {}", grouped(asked.number()), grouped(commit + 1)),
    }
}

fn no_spare_words(open: View) -> String {
    let spares: SpareCounts = open.spares().collect();
    let has = format!("no spare is free: the disc has {}", grouped(spares.all()));
    match (spares.used, spares.defective) {
        (0, 0) => "the disc has no spares".to_string(),
        (1, 0) => format!("{has}, which is used"),
        (0, 1) => format!("{has}, which is defective"),
        (_, 0) => format!("{has}, all used"),
        (0, _) => format!("{has}, all defective"),
        (used, defective) => format!("{has}, {} used and {} defective", grouped(used), grouped(defective)),
    }
}

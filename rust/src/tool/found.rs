//! What an image has in the place of what document 01 asks for.

use super::fields::{number_at, sector, Identifier};
use super::rules::{self, FILE_ENTRY, FILE_TYPE_AT, INFORMATION_LENGTH_AT, TAIL};
use super::words::{are, counted, from_to, grouped, joined};
use tuormik::image::mark_name;
use tuormik::{DiscRef, Held, Maps, BLANK, DEFECTIVE, MOST_ENTRIES, PACKET, RECORDED, UNREADABLE};

const MAP_REGID_AT: usize = 4;
const PACKET_LENGTH_AT: usize = 40;
const TABLE_COUNT_AT: usize = 42;
const TABLE_BYTES_AT: usize = 44;

const SPARABLE: &str = "*UDF Sparable Partition";

/// A map in words.
fn map_words(map: &[u8]) -> String {
    match (map[0], map.len()) {
        (1, 6) => "an ordinary partition (type 1)".to_string(),
        (2, 64) => {
            let name = Identifier::of(&map[MAP_REGID_AT..]);
            let (packet, tables) = (number_at(map, PACKET_LENGTH_AT, 2), map[TABLE_COUNT_AT].into());
            let bytes = number_at(map, TABLE_BYTES_AT, 4);
            match name.text() {
                Some(SPARABLE) => format!(
                    "{SPARABLE} with packets of {} and {} of {}",
                    counted(packet as usize, "sector"),
                    counted(tables, "table"),
                    counted(bytes as usize, "byte")
                ),
                Some(text) => format!("{text} (type 2)"),
                None => format!("a map of type 2 with {}", name.words()),
            }
        }
        (kind, length) => format!("a map of type {kind} and {}", counted(length, "byte")),
    }
}

/// The maps of a list in words, as far as it can be walked.
fn list_words(maps: &[u8]) -> String {
    let mut words = Vec::new();
    let mut rest = maps;
    while let [_, length, ..] = *rest {
        let Some(map) = rest.get(..usize::from(length)).filter(|map| !map.is_empty()) else {
            break;
        };
        words.push(map_words(map));
        rest = &rest[map.len()..];
    }
    joined(&words)
}

/// Line 4: where a map list breaks off.
pub fn cut_map(maps: &[u8]) -> String {
    let mut at = 0;
    loop {
        let place = grouped(at);
        match maps[at..] {
            [] => return format!("the map list of {} breaks off", counted(maps.len(), "byte")),
            [_] => return format!("the map list breaks off: the map at its byte {place} has 1 byte"),
            [_, 0, ..] => return format!("the map at byte {place} of the map list says that its length is 0"),
            [_, length, ..] if usize::from(length) > maps.len() - at => {
                let left = counted(maps.len() - at, "byte");
                return format!("the map list breaks off: the map at its byte {place} says {length} bytes, and {left} are left");
            }
            [_, length, ..] => at += usize::from(length),
        }
    }
}

/// Line 5: what the list has.
pub fn neither_kind(maps: &[u8]) -> String {
    format!(
        "the volume is neither write-once nor rewritable as CD UDF has them: its map list has {}; a write-once one has an ordinary \
         partition and *UDF Virtual Partition, a rewritable one {SPARABLE} with packets of 32 sectors and 1 to 4 tables of 56 to 2,048 \
         bytes",
        list_words(maps)
    )
}

/// Lines 5 and 6 of a map list that is to be written.
pub fn unwritable(maps: &Maps) -> String {
    let Maps::Rewritable { table_bytes, tables, .. } = maps else {
        return "the map list cannot be written".to_string();
    };
    if !(1..=4).contains(&tables.len()) {
        return format!("a rewritable disc has 1 to 4 sparing tables, not {}", grouped(tables.len()));
    }
    if !(56..=2048).contains(table_bytes) {
        return format!("a sparing table has 56 to 2,048 bytes, not {}", grouped(*table_bytes));
    }
    misplaced_table(tables).unwrap_or_else(|| "the sparing tables cannot be where they are named".to_string())
}

/// The first table sector that a map list alone shows to be wrong.
fn misplaced_table(tables: &[u32]) -> Option<String> {
    let odd = tables.iter().find(|&&t| !(t as usize).is_multiple_of(PACKET));
    let twice = || tables.iter().enumerate().find(|(i, t)| tables[..*i].contains(t)).map(|(_, t)| t);
    odd.map(|&t| not_a_multiple("the sparing table at sector", t))
        .or_else(|| twice().map(|&t| format!("the sparing table at sector {} is named twice", grouped(t))))
}

fn not_a_multiple(what: &str, n: u32) -> String {
    format!("{what} {} is not at a multiple of 32", grouped(n))
}

/// Line 6: the first place that is wrong.
pub fn misaligned(disc: DiscRef, tables: &[u32], table_bytes: u32, spares: &[u32]) -> String {
    if !disc.start.is_multiple_of(PACKET as u32) {
        return not_a_multiple("the partition's first sector", disc.start);
    }
    if !disc.length.is_multiple_of(PACKET as u32) {
        return format!("the partition has {}, which is not a multiple of 32", counted(disc.length as usize, "sector"));
    }
    let misplaced = |&t: &u32| not_whole(disc, TABLE, t).or_else(|| in_partition(disc, t));
    let table = misplaced_table(tables).or_else(|| tables.iter().find_map(misplaced));
    table.unwrap_or_else(|| misplaced_spare(disc, tables, table_bytes, spares))
}

const TABLE: &str = "sparing table";

/// The packet of a table or of a spare, in words.
fn packet_of(what: &str, at: u32) -> String {
    format!("the packet of the {what} at sector {}, {},", grouped(at), from_to(at as usize, at as usize + PACKET - 1, "sector"))
}

/// That the packet of a table or of a spare is not whole on the disc, if it is not.
fn not_whole(disc: DiscRef, what: &str, at: u32) -> Option<String> {
    let sectors = disc.marks.len();
    (at as usize + PACKET > sectors)
        .then(|| format!("{} is not whole on the disc, which has {}", packet_of(what, at), counted(sectors, "sector")))
}

/// That the packet of a table lies in the partition, if it does; a spare may.
fn in_partition(disc: DiscRef, at: u32) -> Option<String> {
    let (start, end) = (disc.start as usize, disc.start as usize + disc.length as usize);
    ((at as usize) < end && start < at as usize + PACKET)
        .then(|| format!("{} lies in the partition, {}", packet_of(TABLE, at), from_to(start, end - 1, "sector")))
}

fn misplaced_spare(disc: DiscRef, tables: &[u32], table_bytes: u32, spares: &[u32]) -> String {
    let most = (table_bytes as usize).saturating_sub(56) / 8;
    if spares.len() > most {
        return format!(
            "a sparing table of {} has room for {}, not {}",
            counted(table_bytes as usize, "byte"),
            counted(most, "spare"),
            grouped(spares.len())
        );
    }
    for (i, &spare) in spares.iter().enumerate() {
        if !spare.is_multiple_of(PACKET as u32) {
            return not_a_multiple("the spare at sector", spare);
        }
        if let Some(words) = not_whole(disc, "spare", spare) {
            return words;
        }
        if tables.contains(&spare) {
            return format!("the spare at sector {} is the packet of a sparing table", grouped(spare));
        }
        if spares[..i].contains(&spare) {
            return format!("the spare at sector {} is named twice", grouped(spare));
        }
    }
    "the spares break the rule for a copy of the sparing table".to_string()
}

/// The identifiers of a sparing table: that of UDF 1.50, which is written too, and that of CD UDF 1.82.
const NEWER_NAME: &str = "*UDF Sparing Table";
const OLDER_NAME: &str = "*OSTA UDF Sparing Table";
const REGID_AT: usize = 16;
const COUNT_AT: usize = 48;
const ENTRIES_AT: usize = 56;
const ENTRY: usize = 8;

/// The newer identifier in words.
pub fn newer_identifier() -> String {
    format!("newer, {NEWER_NAME} (UDF 1.50)")
}

/// The older identifier in words.
pub fn older_identifier() -> String {
    format!("older, {OLDER_NAME} (CD UDF 1.82)")
}

/// The identifier of the sparing table in a sector.
fn table_name(disc: DiscRef<'_>, at: u32) -> Identifier<'_> {
    Identifier::of(sector(disc, at as usize).get(REGID_AT..).unwrap_or_default())
}

/// Whether a copy of the sparing table has the newer identifier.
pub fn has_newer_identifier(disc: DiscRef, at: u32) -> bool {
    table_name(disc, at).text() == Some(NEWER_NAME)
}

/// Line 8 of a rewritable disc: what stands where the tables should be.
pub fn no_copy(disc: DiscRef, tables: &[u32], table_bytes: u32) -> String {
    let found: Vec<(String, u32)> = tables.iter().map(|&t| (copy_words(disc, t, table_bytes), t)).collect();
    let words: Vec<String> = found
        .chunk_by(|a, b| a.0 == b.0)
        .map(|alike| match alike {
            [(words, t)] => format!("sector {} {words}", grouped(*t)),
            _ => format!("each of sectors {} {}", joined(&alike.iter().map(|(_, t)| grouped(*t)).collect::<Vec<_>>()), alike[0].0),
        })
        .collect();
    format!("no copy of the sparing table can be used: {}", words.join("; "))
}

/// The entries that a table says it has: original and mapped of each.
fn entries_of(table: &[u8]) -> Vec<[u64; 2]> {
    let count = number_at(table, COUNT_AT, 2) as usize;
    (0..count).map(|i| [0, 4].map(|at| number_at(table, ENTRIES_AT + ENTRY * i + at, 4))).collect()
}

/// An original that is the packet of a spare of the same table, which no copy may have.
fn spared_spare(disc: DiscRef, entries: &[[u64; 2]]) -> Option<u64> {
    let is_spare = |original: u64| entries.iter().any(|&[_, mapped]| mapped == u64::from(disc.start) + original);
    entries.iter().map(|&[original, _]| original).find(|&original| original < u64::from(disc.length) && is_spare(original))
}

/// What is to be said of the sector of a table that does not count.
fn copy_words(disc: DiscRef, at: u32, table_bytes: u32) -> String {
    let mark = disc.marks.get(at as usize).copied().unwrap_or(BLANK);
    if mark != RECORDED {
        return format!("is {}", mark_name(mark));
    }
    let bytes = sector(disc, at as usize);
    let entries = entries_of(bytes);
    let needed = ENTRIES_AT + ENTRY * entries.len();
    let has_defective = || entries.iter().any(|&[original, _]| original == u64::from(DEFECTIVE));
    let name = table_name(disc, at);
    match name.text() {
        Some(NEWER_NAME | OLDER_NAME) if needed > table_bytes as usize => {
            format!("has a table of {}, and the map list gives it {}", counted(needed, "byte"), grouped(table_bytes))
        }
        Some(OLDER_NAME) if has_defective() => format!(
            "has a table with a defective spare (0xfffffff0) and the older identifier, {OLDER_NAME}, where only the newer one, \
             {NEWER_NAME}, has that mark"
        ),
        Some(NEWER_NAME | OLDER_NAME) => match spared_spare(disc, &entries) {
            Some(original) => format!("has a table that spares the packet of block {}, which is a spare itself", grouped(original)),
            None => "has a table that breaks the rule for a copy".to_string(),
        },
        _ => format!("has {}", name.words()),
    }
}

/// Line 10: the copies of one sequence, which differ.
pub fn copies_differ(disc: DiscRef, tables: &[u32]) -> String {
    let counting: Vec<(u32, u32)> = tables.iter().filter_map(|&t| Some((t, sequence_alone(disc, tables, t)?))).collect();
    let highest = counting.iter().map(|&(_, sequence)| sequence).max().unwrap_or_default();
    let places: Vec<String> = counting.iter().filter(|&&(_, sequence)| sequence == highest).map(|&(t, _)| grouped(t)).collect();
    format!("the copies of the sparing table in sectors {} have sequence {} and differ in their entries", joined(&places), grouped(highest))
}

const EXTENDED_FILE_ENTRY: u64 = 266;
const VAT_FILE_TYPE_200: u8 = 248;

/// The version of UDF whose VAT ICB a sector may be, or was meant to be.
enum Version {
    /// CD UDF 1.82 and UDF 1.50: a rule of document 01 is broken.
    Own,
    Later,
}

fn version_of(bytes: &[u8]) -> Option<Version> {
    match (number_at(bytes, 0, 2), bytes.get(FILE_TYPE_AT).copied()?) {
        (FILE_ENTRY | EXTENDED_FILE_ENTRY, VAT_FILE_TYPE_200) | (EXTENDED_FILE_ENTRY, 0) => Some(Version::Later),
        (FILE_ENTRY, 0) => Some(Version::Own),
        _ => None,
    }
}

/// What a sector has that may be, or was meant to be, the ICB of a VAT.
fn icb_words(disc: DiscRef, at: usize) -> Option<String> {
    let bytes = sector(disc, at);
    let words = match (version_of(bytes)?, number_at(bytes, 0, 2), bytes.get(FILE_TYPE_AT).copied()?) {
        (Version::Own, ..) => {
            let rule = rules::broken(disc, block_of(disc, at)).unwrap_or_else(|| "that is a VAT ICB".to_string());
            return Some(format!("a File Entry of file type 0 {rule}"));
        }
        (_, EXTENDED_FILE_ENTRY, VAT_FILE_TYPE_200) => "a VAT of UDF 2.01: an Extended File Entry (tag 266) of file type 248",
        (_, FILE_ENTRY, _) => "a VAT of UDF 2.00 or later: a File Entry of file type 248",
        _ => "an Extended File Entry (tag 266) of file type 0, as UDF 2.00 and later have them",
    };
    Some(words.to_string())
}

/// The logical block of a sector of the partition.
fn block_of(disc: DiscRef, at: usize) -> u32 {
    at.saturating_sub(disc.start as usize) as u32
}

/// What is to be said of a sector that may be the ICB of a VAT.
pub fn possible_words(disc: DiscRef, at: usize) -> String {
    match disc.marks.get(at) {
        Some(&UNREADABLE) => "cannot be read".to_string(),
        _ => format!("has {}", icb_words(disc, at).unwrap_or_else(|| "no File Entry".to_string())),
    }
}

/// The sectors of the partition that are not blank, the highest first, with their marks.
fn written(disc: DiscRef<'_>) -> impl Iterator<Item = (usize, u8)> + '_ {
    let (start, length) = (disc.start as usize, disc.length as usize);
    let marks = disc.marks.iter().copied().enumerate().take(start + length).skip(start);
    marks.rev().filter(|(_, mark)| *mark != BLANK)
}

/// Line 8 of a write-once disc: what the partition has instead of a VAT ICB.
pub fn no_vat(disc: DiscRef) -> String {
    let (start, length) = (disc.start as usize, disc.length as usize);
    let partition = from_to(start, start + length.saturating_sub(1), "sector");
    let Some((last, _)) = written(disc).next() else {
        return format!("the partition, {partition}, is blank: it has no VAT yet");
    };
    let found = written(disc).filter(|(_, mark)| *mark == RECORDED).find_map(|(at, _)| Some((at, icb_words(disc, at)?)));
    match found {
        Some((at, words)) => format!("no VAT of CD UDF was found: sector {} has {words}", grouped(at)),
        None => {
            let unreadable = written(disc).filter(|(_, mark)| *mark == UNREADABLE).count();
            let blank = last + 1 - start - written(disc).count();
            format!(
                "no VAT was found in the partition, {partition}: of {} up to the last that is not blank, {}, {} and none is a VAT ICB",
                counted(last + 1 - start, "sector"),
                grouped(last),
                are_not_recorded(&[(unreadable, "unreadable"), (blank, "blank")])
            )
        }
    }
}

fn are_not_recorded(counts: &[(usize, &str)]) -> String {
    let there: Vec<String> = counts.iter().filter(|(n, _)| *n > 0).map(|(n, state)| format!("{} {state}", are(*n))).collect();
    if there.is_empty() {
        "all can be read".to_string()
    } else {
        there.join(", ")
    }
}

/// Whether the partition has a VAT of a later version of UDF.
pub fn has_other_vat(disc: DiscRef) -> bool {
    let is_later = |at: usize| matches!(version_of(sector(disc, at)), Some(Version::Later));
    written(disc).any(|(at, mark)| mark == RECORDED && is_later(at))
}

/// Whether nothing in the partition was ever recorded.
pub fn is_blank(disc: DiscRef) -> bool {
    written(disc).next().is_none()
}

/// Line 9: the newest VAT, which has too many entries.
pub fn too_many_entries(disc: DiscRef) -> String {
    let is_icb = |at: usize| rules::broken(disc, block_of(disc, at)).is_none();
    let icb = written(disc).find(|&(at, mark)| mark == RECORDED && is_icb(at));
    let most = grouped(MOST_ENTRIES);
    match icb {
        Some((at, _)) => {
            let entries = number_at(sector(disc, at), INFORMATION_LENGTH_AT, 8).saturating_sub(TAIL as u64) / 4;
            format!("the VAT in sector {} has {} entries, and at most {most} are taken", grouped(at), grouped(entries))
        }
        None => format!("the VAT has more than {most} entries"),
    }
}

/// How many sectors are named one by one.
const MOST_NAMED: usize = 4;

/// What an opening passed over, from one sector up to another, in words.
pub fn passed_over(disc: DiscRef, from: usize, to: usize) -> String {
    let marks = disc.marks.get(from..to).unwrap_or_default();
    let mut named = Vec::new();
    let mut counts = [0; 3];
    for (at, &mark) in (from..to).zip(marks) {
        if mark == RECORDED && version_of(sector(disc, at)).is_some() {
            named.push(at);
        } else {
            counts[usize::from(mark.min(UNREADABLE))] += 1;
        }
    }
    let [blank, recorded, unreadable] = counts;
    let kinds = [(recorded, "recorded sector"), (unreadable, "unreadable sector"), (blank, "blank sector")];
    let mut words: Vec<String> = kinds.iter().filter(|(n, _)| *n > 0).map(|(n, what)| counted(*n, what)).collect();
    let more = named.len().saturating_sub(MOST_NAMED);
    let named_words = |&at: &usize| Some(format!("sector {} with {}", grouped(at), icb_words(disc, at)?));
    words.extend(named.iter().rev().take(MOST_NAMED).filter_map(named_words));
    words.extend((more > 0).then(|| format!("{} more of these", grouped(more))));
    joined(&words)
}

/// The sequence of a copy of the sparing table, if it counts: it is asked for by an opening to which the others are unreadable.
fn sequence_alone(disc: DiscRef, tables: &[u32], own: u32) -> Option<u32> {
    let mut marks = disc.marks.to_vec();
    for &other in tables.iter().filter(|&&other| other != own) {
        *marks.get_mut(other as usize)? = UNREADABLE;
    }
    match (DiscRef { marks: &marks, ..disc }).open().ok()?.record().held {
        Held::Rewritable { sequence, .. } => Some(sequence),
        Held::WriteOnce { .. } | Held::Other(_) => None,
    }
}

/// The copies of the sparing table that do not count, or are not of the current sequence.
pub fn stale_copies(disc: DiscRef, tables: &[u32], sequence: u32) -> Vec<u32> {
    tables.iter().copied().filter(|&t| sequence_alone(disc, tables, t) != Some(sequence)).collect()
}

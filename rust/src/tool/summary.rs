//! What is to be said of an image and its disc: in a curator's words, in document 01's letters, and as JSON.

use super::json::Json;
use super::passed::{Passed, Possible};
use super::room::{Bound, Room};
use super::states::{Counts, SpareCounts, View};
use super::words::{counted, grouped, joined, parts};
use super::zeros::Zeros;
use super::{commits, found, refused, Failure};
use tuormik::image::{mark_name, Image};
use tuormik::{read_maps, Held, Maps, OpenRef, Refusal, BLANK, RECORDED, UNREADABLE};

/// The marks in the order in which they are told.
const MARKS: [u8; 3] = [RECORDED, UNREADABLE, BLANK];

/// How many marks of each sort there are.
fn mark_counts(marks: &[u8]) -> [usize; 3] {
    MARKS.map(|mark| marks.iter().filter(|&&m| m == mark).count())
}

pub fn mark_words(marks: &[u8]) -> String {
    let counts = MARKS.iter().zip(mark_counts(marks));
    counts.map(|(&mark, count)| format!("{} {}", grouped(count), mark_name(mark))).collect::<Vec<_>>().join(", ")
}

/// What an image says of itself, and what opening its disc gave.
pub struct Summary {
    sectors: usize,
    file_sectors: usize,
    counts: [usize; 3],
    mark_words: String,
    marks_source: String,
    start: u32,
    length: u32,
    maps: Option<Maps>,
    pub opened: Result<Opened, (String, Refusal)>,
    pub zeros: Option<Zeros>,
}

/// What an opening gave.
pub enum Opened {
    WriteOnce { blocks: Counts, entries: u32, next: u32, last: u32, room: Room, per_mille: u32, passed: Passed },
    Rewritable { blocks: Counts, spares: SpareCounts, sequence: u32, tables: Tables },
}

/// The sectors of the sparing tables.
pub struct Tables {
    /// Those that are not current.
    stale: Vec<u32>,
    /// The current ones, by their identifiers.
    newer: Vec<u32>,
    older: Vec<u32>,
}

impl Tables {
    fn new(view: View, all: &[u32], sequence: u32) -> Tables {
        let stale = found::stale_copies(view.disc, all, sequence);
        let current = all.iter().copied().filter(|t| !stale.contains(t));
        let (newer, older) = current.partition(|&t| found::has_newer_identifier(view.disc, t));
        Tables { stale, newer, older }
    }

    /// By which identifiers the current ones are read.
    fn identifier_words(&self) -> String {
        let (newer, older) = (found::newer_identifier(), found::older_identifier());
        match (&self.newer[..], &self.older[..]) {
            (_, []) => newer,
            ([], _) => format!("{older}; a sparing writes the {newer}"),
            (one, other) => format!("{newer} in {}; {older} in {}", sectors_words(one), sectors_words(other)),
        }
    }

    fn identifier_json(&self) -> Json {
        Json::text(match (&self.newer[..], &self.older[..]) {
            (_, []) => "newer",
            ([], _) => "older",
            _ => "mixed",
        })
    }

    /// What is to be said of those that are not current, if there are any.
    fn stale_words(&self) -> Option<String> {
        match self.stale.len() {
            0 => None,
            1 => Some(format!("the copy of the sparing table in {} is not current", sectors_words(&self.stale))),
            _ => Some(format!("the copies of the sparing table in {} are not current", sectors_words(&self.stale))),
        }
    }
}

/// Sectors by their numbers: `sector 0`, `sectors 0, 32 and 64`.
fn sectors_words(sectors: &[u32]) -> String {
    let places: Vec<String> = sectors.iter().map(|&t| grouped(t)).collect();
    format!("sector{} {}", if places.len() == 1 { "" } else { "s" }, joined(&places))
}

/// The tables of a rewritable disc.
fn tables(maps: Option<&Maps>) -> &[u32] {
    match maps {
        Some(Maps::Rewritable { tables, .. }) => tables,
        _ => &[],
    }
}

impl Summary {
    /// Opens the disc of an image; that it is turned down is told too.
    pub fn new(image: &Image) -> Result<Summary, Failure> {
        let maps = read_maps(&image.volume.maps).ok();
        let mut zeros = None;
        let opened = match commits::open(image) {
            Ok(open) => {
                zeros = Some(Zeros::new(image, (&open).into()));
                Ok(Opened::new(&open, tables(maps.as_ref()), image.file_sectors())?)
            }
            Err(Failure::Refused(words, why)) => Err((words, why)),
            Err(other) => return Err(other),
        };
        Ok(Summary {
            sectors: image.marks.len(),
            file_sectors: image.file_sectors(),
            counts: mark_counts(&image.marks),
            mark_words: mark_words(&image.marks),
            marks_source: image.marks_source(),
            start: image.volume.start,
            length: image.volume.length,
            maps,
            opened,
            zeros,
        })
    }

    /// Each thing that there is to say, with its name.
    pub fn lines(&self) -> Vec<(&'static str, String)> {
        let mut lines = Vec::new();
        match &self.maps {
            Some(Maps::WriteOnce { partition }) => lines.push(("kind", format!("write-once, partition {}", grouped(*partition)))),
            Some(Maps::Rewritable { partition, .. }) => lines.push(("kind", format!("rewritable, partition {}", grouped(*partition)))),
            None => {}
        }
        if let Ok(opened) = &self.opened {
            lines.extend(opened.words());
        }
        lines.push(("disc", format!("{}: {}", counted(self.sectors, "sector"), self.mark_words)));
        if self.file_sectors < self.sectors {
            let (has, end) = (counted(self.file_sectors, "sector"), grouped(u64::from(self.start) + u64::from(self.length)));
            lines.push(("note", format!("the image file has {has}, and S + L is {end}: those that it does not have are taken as blank")));
        }
        lines.push(("marks", self.marks_source.clone()));
        lines.extend(self.zeros.as_ref().and_then(Zeros::warning).map(|words| ("warning", words)));
        if let Some(Maps::Rewritable { table_bytes, tables, .. }) = &self.maps {
            lines.push(("tables", format!("in {} ({} each)", sectors_words(tables), counted(*table_bytes as usize, "byte"))));
        }
        if let Ok(Opened::Rewritable { tables, .. }) = &self.opened {
            lines.push(("identifier", tables.identifier_words()));
        }
        lines.push(("S", grouped(self.start)));
        lines.push(("L", grouped(self.length)));
        if let Ok(opened) = &self.opened {
            lines.extend(opened.letters(self.start));
        }
        lines
    }

    pub fn json(&self) -> Vec<(&'static str, Json)> {
        let [recorded, unreadable, blank] = self.counts.map(Json::number);
        let (kind, partition) = match &self.maps {
            Some(Maps::WriteOnce { partition }) => (Json::text("write-once"), Json::number(*partition)),
            Some(Maps::Rewritable { partition, .. }) => (Json::text("rewritable"), Json::number(*partition)),
            None => (Json::None, Json::None),
        };
        let mut parts = vec![
            ("opens", Json::Flag(self.opened.is_ok())),
            ("kind", kind),
            ("partition", partition),
            ("sectors", Json::number(self.sectors)),
            ("file_sectors", Json::number(self.file_sectors)),
            ("recorded", recorded),
            ("unreadable", unreadable),
            ("blank", blank),
            ("s", Json::number(self.start)),
            ("l", Json::number(self.length)),
        ];
        if let Some(Maps::Rewritable { tables, table_bytes, .. }) = &self.maps {
            parts.push(("tables", Json::numbers(tables.iter().copied())));
            parts.push(("table_bytes", Json::number(*table_bytes)));
        }
        parts.extend(self.zeros.as_ref().map(|zeros| ("blocks_in_doubt", Json::number(zeros.count))));
        match &self.opened {
            Ok(opened) => parts.extend(opened.json()),
            Err((words, why)) => parts.extend([("line", Json::number(why.number())), ("words", Json::text(words))]),
        }
        parts
    }
}

impl Opened {
    fn new(open: &OpenRef, tables: &[u32], file_sectors: usize) -> Result<Opened, Failure> {
        let view = View::from(open);
        let blocks = view.blocks().collect();
        Ok(match view.record.held {
            Held::WriteOnce { entries, next, last } => {
                let per_mille = open.fullness().map_err(|error| refused::by_call(open, refused::Asked::Fullness, error))?;
                Opened::WriteOnce {
                    blocks,
                    entries,
                    next,
                    last,
                    room: Room::new(entries as usize, next as usize, view.disc.length as usize),
                    per_mille,
                    passed: Passed::new(view, file_sectors),
                }
            }
            Held::Rewritable { sequence, .. } | Held::Other([_, _, sequence, _]) => {
                Opened::Rewritable { blocks, spares: view.spares().collect(), sequence, tables: Tables::new(view, tables, sequence) }
            }
        })
    }

    /// In a curator's words.
    fn words(&self) -> Vec<(&'static str, String)> {
        match self {
            Opened::WriteOnce { blocks, room, per_mille, .. } => vec![
                ("blocks", blocks_words(*blocks)),
                ("room", room.words()),
                ("fullness", format!("{}.{} %", per_mille / 10, per_mille % 10)),
            ],
            Opened::Rewritable { blocks, spares, tables, .. } => {
                let mut lines = vec![("blocks", logical_words(*blocks)), ("spares", spares.to_string())];
                lines.extend(tables.stale_words().map(|words| ("warning", words)));
                lines
            }
        }
    }

    /// In the letters of document 01.
    fn letters(&self, start: u32) -> Vec<(&'static str, String)> {
        match self {
            Opened::WriteOnce { blocks, entries, next, last, passed, .. } => {
                let at = u64::from(start) + u64::from(*last);
                let mut lines = vec![
                    ("N", format!("{} ({} used)", grouped(*entries), grouped(blocks.used()))),
                    ("NWA", grouped(*next)),
                    ("last ICB", format!("{} (sector {})", grouped(*last), grouped(at))),
                    ("passed over", grouped(passed.count)),
                ];
                if passed.count > 0 {
                    lines.push(("which are", passed.words.clone()));
                }
                lines
            }
            Opened::Rewritable { spares, sequence, .. } => vec![
                ("R", format!("{} ({spares})", grouped(spares.all()))),
                ("sequence", grouped(*sequence)),
                ("passed over", "0".to_string()),
            ],
        }
    }

    fn json(&self) -> Vec<(&'static str, Json)> {
        match self {
            Opened::WriteOnce { blocks, entries, next, last, room, per_mille, passed } => {
                let mut parts = vec![("n", Json::number(*entries)), ("used", Json::number(blocks.used()))];
                parts.extend(blocks_json(*blocks));
                parts.extend([
                    ("new_blocks_that_fit", Json::number(room.fits)),
                    ("room_bounded_by", bound_json(room.bound)),
                    ("fullness_per_mille", Json::number(*per_mille)),
                    ("nwa", Json::number(*next)),
                    ("last_icb", Json::number(*last)),
                    ("passed_over", Json::number(passed.count)),
                    ("possible_newer_vat", passed.possible.as_ref().and_then(Possible::block).map_or(Json::None, Json::number)),
                ]);
                parts
            }
            Opened::Rewritable { blocks, spares, sequence, tables } => {
                let mut parts = Vec::from(blocks_json(*blocks));
                parts.extend([
                    ("blocks_of_spares", Json::number(blocks.of_spare)),
                    ("r", Json::number(spares.all())),
                    ("spares_used", Json::number(spares.used)),
                    ("spares_defective", Json::number(spares.defective)),
                    ("spares_free", Json::number(spares.free)),
                    ("sequence", Json::number(*sequence)),
                    ("table_identifier", tables.identifier_json()),
                    ("tables_not_current", Json::numbers(tables.stale.iter().copied())),
                    ("passed_over", Json::number(0u32)),
                ]);
                parts
            }
        }
    }

    /// What the opening passed over; nothing on a rewritable disc.
    pub fn passed(&self) -> Option<&Passed> {
        match self {
            Opened::WriteOnce { passed, .. } => Some(passed),
            Opened::Rewritable { .. } => None,
        }
    }

    /// What stands against calling a disc clean, beside blocks that are unreadable or blank.
    pub fn faults(&self) -> Vec<String> {
        match self {
            Opened::WriteOnce { passed, .. } => passed.warning().into_iter().collect(),
            Opened::Rewritable { tables, .. } => tables.stale_words().into_iter().collect(),
        }
    }

    /// In a few words.
    pub fn gist(&self) -> String {
        match self {
            Opened::WriteOnce { blocks, per_mille, .. } => {
                let also = if blocks.unused > 0 { format!(" and {} unused", grouped(blocks.unused)) } else { String::new() };
                format!("write-once, {} used{also}, {}.{} % full", counted(blocks.used(), "block"), per_mille / 10, per_mille % 10)
            }
            Opened::Rewritable { blocks, spares, .. } => {
                let also = if spares.defective > 0 { format!(", {} defective", grouped(spares.defective)) } else { String::new() };
                let used = format!("{} of {} used{also}", grouped(spares.used), counted(spares.all(), "spare"));
                let also = if blocks.of_spare > 0 { format!(" and {} of spares", grouped(blocks.of_spare)) } else { String::new() };
                format!("rewritable, {}{also}, {used}", counted(blocks.used(), "block"))
            }
        }
    }
}

/// The blocks of a write-once disc.
fn blocks_words(blocks: Counts) -> String {
    let counts = parts(&[(blocks.used(), "used"), (blocks.unused, "unused")]);
    match blocks.not_recorded() {
        _ if counts.is_empty() => "none yet".to_string(),
        words if words.is_empty() => counts,
        words => format!("{counts}; of those used {words}"),
    }
}

/// The blocks of a rewritable disc.
fn logical_words(Counts { recorded, unreadable, blank, of_spare, .. }: Counts) -> String {
    let words = format!("{} readable, {} unreadable, {} blank", grouped(recorded), grouped(unreadable), grouped(blank));
    match of_spare {
        0 => words,
        n => format!("{words}; {} more belong to spares", grouped(n)),
    }
}

/// What bounds the room of a write-once disc.
fn bound_json(bound: Bound) -> Json {
    Json::text(match bound {
        Bound::Sectors => "sectors",
        Bound::Blocks => "blocks",
    })
}

/// The blocks that have a sector of their own, by their states.
fn blocks_json(blocks: Counts) -> [(&'static str, Json); 3] {
    [
        ("blocks_readable", Json::number(blocks.recorded)),
        ("blocks_unreadable", Json::number(blocks.unreadable)),
        ("blocks_blank", Json::number(blocks.blank)),
    ]
}

//! What a comparison comes to of sparing tables (02, slip 1) and of spares in the partition (slip 8). It is counted, so that a test can ask
//! whether it came up.

use super::bytes::{Copy, Name};
use super::step::{Call, World};
use super::Tally;
use crate::plain;
use std::ops::RangeInclusive;
use tuormik::{BLANK, DEFECTIVE, MOST_ENTRIES, NONE, PACKET, RECORDED};

/// The name under which the answers of sparings are counted whose packet has an entry.
pub const AGAIN: &str = "again";
/// The name under which the writes are counted at which such sparings were cut.
pub const CUT_AGAIN: &str = "again, cut at";
/// The current copies of a table that is opened have both identifiers.
pub const BOTH_NAMES: &str = "both names";
/// They have the older one only.
pub const OLDER_NAME: &str = "older name";
/// Above the table that is opened stands a copy with the older identifier and a defective spare.
pub const OLDER_MARKED: &str = "older, marked";
/// Above it stands a copy with an original between that of defective spares and that of free ones.
pub const RESERVED_ABOVE: &str = "reserved";
/// The table that is opened has a defective spare.
pub const HOLDS_DEFECTIVE: &str = "defective";
/// A sparing is done on a table that has a defective spare.
pub const KEEPS_DEFECTIVE: &str = "kept";
/// A sparing is done where a copy has the older identifier.
pub const RENEWED: &str = "renewed";

/// A table that is opened has a spare in the partition, and a current copy with the newer identifier.
pub const INSIDE_NEWER: &str = "inside, newer";
/// The same with the older one.
pub const INSIDE_OLDER: &str = "inside, older";
/// The name under which it is counted that above the table that is opened stands a copy with an original that is the packet of a spare, by
/// what that spare is.
pub const SHARED_ABOVE: &str = "shared";
/// The name under which calls are counted that line 30 turns down, by what the spare is.
pub const OF_SPARE: &str = "of a spare";
/// The name under which those of them are counted for which a line after 30 holds too, by that line.
pub const BEFORE: &str = "30 before";
/// Line 12 turns down a packet start that is another block of a spare's packet.
pub const OUTSIDE_FIRST: &str = "12 before 30";

/// What a spare is to an original or a block.
#[derive(Clone, Copy, PartialEq)]
pub enum Spare {
    /// that of another packet
    Used,
    /// a defective one
    Defective,
    /// a free one
    Free,
    /// that of the original itself
    Own,
}

impl Spare {
    /// The one of an entry with this original.
    fn of(original: u32) -> Spare {
        match original {
            DEFECTIVE => Spare::Defective,
            NONE => Spare::Free,
            _ => Spare::Used,
        }
    }
}

/// Originals that are neither used, defective nor free.
pub const RESERVED: RangeInclusive<u32> = 0xffff_fff1..=0xffff_fffe;

/// A rewritable disc's copies, and the table that is lent with it.
pub(super) struct Tables {
    /// how many tables there are
    count: u32,
    copies: Vec<Copy>,
    entries: Vec<(u32, u32)>,
}

impl Tables {
    pub(super) fn of(world: &World) -> Option<Tables> {
        let mut told = [0; 8];
        if plain::read_maps(&world.maps, &mut told) != 0 || told[0] != 1 {
            return None;
        }
        let held = |&at: &usize| world.marks.get(at) == Some(&RECORDED) && Name::of(world.sector(at)).is_some();
        let sectors = told[4..][..told[2] as usize].iter().map(|&t| t as usize);
        let copies = sectors.filter(held).map(|at| Copy::of(world.sector(at))).collect();
        let count = 2 * world.record[1].min(MOST_ENTRIES as u32 / 2) as usize;
        let entries = world.table[..count].chunks_exact(2).map(|entry| (entry[0], entry[1])).collect();
        Some(Tables { count: told[2], copies, entries })
    }

    /// The spare that has the packet of block b, if the block is one of the partition.
    fn spare_of(&self, world: &World, b: u32) -> Option<Spare> {
        let start = world.s.checked_add(b - b % PACKET as u32).filter(|_| b < world.l)?;
        self.entries.iter().find(|entry| entry.1 == start).map(|entry| Spare::of(entry.0))
    }

    fn has_defective(&self) -> bool {
        self.entries.iter().any(|entry| entry.0 == DEFECTIVE)
    }
}

/// Counts what a call came to on a disc that had these tables before it.
pub(super) fn note(tally: &mut Tally, before: &Tables, call: &Call, answer: u32, after: &World) {
    note_spare(tally, before, call, answer, after);
    match call {
        Call::Open if answer == 0 => note_opened(tally, after),
        Call::SparePacket { b, fail, .. } => {
            if before.entries.iter().any(|entry| entry.0 == *b) && answer_of_sparing(answer) {
                tally.note(AGAIN, answer);
                if answer == 255 {
                    tally.note(CUT_AGAIN, fail.at);
                }
            }
            if answer == 0 && before.has_defective() {
                tally.note(KEEPS_DEFECTIVE, 0);
            }
            if answer == 0 && before.copies.iter().any(|copy| copy.name == Name::Older) {
                tally.note(RENEWED, 0);
            }
        }
        _ => {}
    }
}

/// Counts what a call came to that names a block of a spare; as it is turned down, the disc is as it was.
fn note_spare(tally: &mut Tally, tables: &Tables, call: &Call, answer: u32, world: &World) {
    let (Call::Read { number: b } | Call::SaveBlock { b, .. } | Call::SavePacket { b, .. } | Call::SparePacket { b, .. }) = call else {
        return;
    };
    match (answer, tables.spare_of(world, *b)) {
        (12, Some(_)) => tally.note(OUTSIDE_FIRST, 0),
        (30, Some(spare)) => {
            tally.note(OF_SPARE, spare as u32);
            for line in lines_after(tables, call, *b, world) {
                tally.note(BEFORE, line);
            }
        }
        _ => {}
    }
}

/// The lines after 30 that hold for a call on a packet in its place.
fn lines_after(tables: &Tables, call: &Call, b: u32, world: &World) -> Vec<u32> {
    let start = (world.s + b - b % PACKET as u32) as usize;
    let own = (world.s + b) as usize;
    let lines_of = |marks: &[u8]| {
        let first = marks.iter().find(|&&mark| mark != RECORDED);
        first.map(|&mark| if mark == BLANK { 25 } else { 14 }).into_iter().collect()
    };
    match call {
        Call::Read { .. } => lines_of(&world.marks[own..own + 1]),
        Call::SaveBlock { .. } => lines_of(&[&world.marks[start..own], &world.marks[own + 1..start + PACKET]].concat()),
        Call::SparePacket { .. } => {
            let has_free = tables.entries.iter().any(|entry| entry.0 == NONE);
            let lines = [(17, tables.count == 1), (19, !has_free), (20, world.record[2] == u32::MAX)];
            lines.into_iter().filter(|line| line.1).map(|line| line.0).collect()
        }
        _ => Vec::new(),
    }
}

/// Whether an original of a copy is the packet of such a spare.
fn is_shared(copy: &Copy, s: u32, with: Spare) -> bool {
    let entries = || copy.entries.iter().enumerate();
    entries().filter(|(_, entry)| Spare::of(entry.0) == Spare::Used).any(|(i, used)| {
        let spare = |j: usize, original: u32| if i == j { Spare::Own } else { Spare::of(original) };
        entries().any(|(j, entry)| s.checked_add(used.0) == Some(entry.1) && spare(j, entry.0) == with)
    })
}

/// Whether the tests up to line 12 are passed.
fn answer_of_sparing(answer: u32) -> bool {
    answer == 0 || answer > 12
}

fn note_opened(tally: &mut Tally, world: &World) {
    let Some(opened) = Tables::of(world) else { return };
    let sequence = world.record[2];
    let current = || opened.copies.iter().filter(|copy| copy.sequence == sequence && copy.entries == opened.entries);
    let has = |name: Name| current().any(|copy| copy.name == name);
    let is_inside = opened.entries.iter().any(|entry| entry.1.wrapping_sub(world.s) < world.l);
    let above = || opened.copies.iter().filter(|copy| copy.sequence > sequence);
    let seen = [
        (BOTH_NAMES, has(Name::Newer) && has(Name::Older)),
        (OLDER_NAME, has(Name::Older) && !has(Name::Newer)),
        (OLDER_MARKED, above().any(|copy| copy.name == Name::Older && copy.has_defective())),
        (RESERVED_ABOVE, above().any(|copy| copy.entries.iter().any(|entry| RESERVED.contains(&entry.0)))),
        (HOLDS_DEFECTIVE, opened.has_defective()),
        (INSIDE_NEWER, is_inside && has(Name::Newer)),
        (INSIDE_OLDER, is_inside && has(Name::Older)),
    ];
    for (what, is_seen) in seen {
        if is_seen {
            tally.note(what, 0);
        }
    }
    for spare in [Spare::Used, Spare::Defective, Spare::Free, Spare::Own] {
        if above().any(|copy| is_shared(copy, world.s, spare)) {
            tally.note(SHARED_ABOVE, spare as u32);
        }
    }
}

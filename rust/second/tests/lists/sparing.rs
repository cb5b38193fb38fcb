//! Sparing tables by the words of document 01 ("The sparing table") and of document 02, slips 1 and 8: which copies count, which of them
//! are current, which blocks belong to a spare, and what a sparing makes of the entries.

use crate::maps::table_sectors;
use tuormik::{DEFECTIVE, NONE, PACKET, RECORDED, SECTOR};

/// Opening finds no copy that counts.
pub const NO_TABLE: u32 = 8;
/// The current copies differ in entries.
pub const COPIES_DIFFER: u32 = 10;
/// No entry is free.
pub const NO_SPARE: u32 = 19;
/// The write of a sparing that is its first of a table.
pub const FIRST_TABLE: u32 = PACKET as u32 + 1;
/// What the places of a lent table hold that no call fills.
pub const LENT: u32 = 0xabcd_abcd;

/// Where the parts of a rewritable disc are.
#[derive(Clone, PartialEq, Eq, Hash, Debug)]
pub struct Layout {
    pub sectors: u32,
    pub s: u32,
    pub l: u32,
    /// in map order
    pub tables: Vec<u32>,
}

impl Layout {
    /// Whether the packet of a block belongs to a spare: an entry of any kind maps it.
    pub fn is_of_spare(&self, entries: &[Entry], b: u32) -> bool {
        entries.iter().any(|entry| entry.1 == self.s + b - b % PACKET as u32)
    }
}

#[derive(Clone, Copy, PartialEq, Eq, Hash, Debug)]
pub enum Name {
    Newer,
    Older,
}

/// Original and mapped.
pub type Entry = (u32, u32);

/// A copy of the table.
#[derive(Clone, PartialEq, Eq, Hash, Debug)]
pub struct Copy {
    pub name: Name,
    pub suffix: u8,
    pub sequence: u32,
    pub entries: Vec<Entry>,
    pub is_readable: bool,
}

impl Copy {
    pub fn bytes(&self) -> [u8; SECTOR] {
        let mut sector = [0; SECTOR];
        let name: &[u8] = match self.name {
            Name::Newer => b"*UDF Sparing Table",
            Name::Older => b"*OSTA UDF Sparing Table",
        };
        sector[17..][..name.len()].copy_from_slice(name);
        sector[40..48].fill(self.suffix);
        sector[48..50].copy_from_slice(&(self.entries.len() as u16).to_le_bytes());
        sector[52..56].copy_from_slice(&self.sequence.to_le_bytes());
        for (to, (original, mapped)) in sector[56..].chunks_exact_mut(8).zip(&self.entries) {
            to[..4].copy_from_slice(&original.to_le_bytes());
            to[4..].copy_from_slice(&mapped.to_le_bytes());
        }
        sector
    }

    /// The copy in a sector; here every sector of a table has one.
    fn of(sector: &[u8], mark: u8) -> Copy {
        let word = |at: usize| u32::from_le_bytes([sector[at], sector[at + 1], sector[at + 2], sector[at + 3]]);
        let name = if sector[17..22] == *b"*OSTA" { Name::Older } else { Name::Newer };
        let entries = (0..word(48) as usize).map(|i| (word(56 + 8 * i), word(60 + 8 * i))).collect();
        Copy { name, suffix: sector[40], sequence: word(52), entries, is_readable: mark == RECORDED }
    }

    /// Whether it counts.
    pub fn counts(&self, layout: &Layout) -> bool {
        let originals: Vec<u32> = self.entries.iter().map(|entry| entry.0).collect();
        let mapped: Vec<u32> = self.entries.iter().map(|entry| entry.1).collect();
        let mut used = originals.iter().filter(|original| **original < layout.l);
        self.is_readable
            && !(self.name == Name::Older && originals.contains(&DEFECTIVE))
            && originals_fit(&originals, layout)
            && mapped_fit(&mapped, layout)
            && used.all(|original| !layout.is_of_spare(&self.entries, *original))
    }

    /// Whether a lent table and a record are those of this table, and what is beyond it is kept.
    pub fn is_lent(&self, table: &[u32], record: &[u32]) -> bool {
        let numbers = flat(&self.entries);
        let has_record = record == [1, self.entries.len() as u32, self.sequence, 0, 0];
        has_record && table[..numbers.len()] == numbers && table[numbers.len()] == LENT
    }
}

/// Used originals are multiples of 32 below L and strictly ascending; defective entries stand after used and before free ones.
fn originals_fit(originals: &[u32], layout: &Layout) -> bool {
    let used = originals.iter().take_while(|&&o| o != DEFECTIVE && o != NONE).count();
    let (used, others) = originals.split_at(used);
    let defective = others.iter().take_while(|&&o| o == DEFECTIVE).count();
    let ascend = used.windows(2).all(|pair| pair[0] < pair[1]);
    used.iter().all(|o| o % PACKET as u32 == 0 && *o < layout.l) && ascend && others[defective..].iter().all(|&o| o == NONE)
}

/// Mapped starts are distinct multiples of 32, whole packets on the disc, outside every table's packet; in the partition or not.
pub fn mapped_fit(mapped: &[u32], layout: &Layout) -> bool {
    let is_whole = |m: u32| m.is_multiple_of(PACKET as u32) && u64::from(m) + PACKET as u64 <= u64::from(layout.sectors);
    mapped.iter().enumerate().all(|(i, m)| is_whole(*m) && !layout.tables.contains(m) && !mapped[..i].contains(m))
}

pub fn flat(entries: &[Entry]) -> Vec<u32> {
    entries.iter().flat_map(|entry| [entry.0, entry.1]).collect()
}

/// The entries of a table by their kinds; of defective and free ones the mapped starts.
pub struct Parts {
    pub used: Vec<Entry>,
    pub defective: Vec<u32>,
    pub free: Vec<u32>,
}

impl Parts {
    pub fn of(entries: &[Entry]) -> Parts {
        let mapped = |which: u32| entries.iter().filter(move |entry| entry.0 == which).map(|entry| entry.1).collect();
        let used = entries.iter().copied().filter(|entry| entry.0 != DEFECTIVE && entry.0 != NONE).collect();
        Parts { used, defective: mapped(DEFECTIVE), free: mapped(NONE) }
    }

    /// The spare of a packet, whose entry goes.
    pub fn give_up(&mut self, p: u32) -> Option<u32> {
        let own = self.used.iter().position(|entry| entry.0 == p)?;
        Some(self.used.remove(own).1)
    }

    /// The table of them.
    pub fn entries(mut self) -> Vec<Entry> {
        self.used.sort_by_key(|entry| entry.0);
        let marked = |mark: u32, mapped: Vec<u32>| mapped.into_iter().map(move |m| (mark, m));
        self.used.into_iter().chain(marked(DEFECTIVE, self.defective)).chain(marked(NONE, self.free)).collect()
    }
}

/// The entries after a sparing of packet p, and the spare that it takes: its entry turns defective, the last of them, and the free entry
/// of lowest index is taken.
pub fn spared(entries: &[Entry], p: u32) -> Option<(Vec<Entry>, u32)> {
    let mut parts = Parts::of(entries);
    if parts.free.is_empty() {
        return None;
    }
    let taken = parts.free.remove(0);
    let had = parts.give_up(p);
    parts.defective.extend(had);
    parts.used.push((p, taken));
    Some((parts.entries(), taken))
}

/// The copies in map order.
#[derive(Clone, PartialEq, Eq, Hash, Debug)]
pub struct Copies {
    pub layout: Layout,
    pub all: Vec<Copy>,
}

impl Copies {
    /// Those of a disc.
    pub fn on(disc: &[u8], marks: &[u8], maps: &[u8], s: u32, l: u32) -> Copies {
        let layout = Layout { sectors: marks.len() as u32, s, l, tables: table_sectors(maps) };
        let copy = |&at: &u32| Copy::of(&disc[SECTOR * at as usize..][..SECTOR], marks[at as usize]);
        Copies { all: layout.tables.iter().map(copy).collect(), layout }
    }

    /// The current copies: those of the highest sequence among the ones that count.
    pub fn current(&self) -> Vec<usize> {
        let counting = || (0..self.all.len()).filter(|&i| self.all[i].counts(&self.layout));
        let highest = counting().map(|i| self.all[i].sequence).max();
        counting().filter(|&i| Some(self.all[i].sequence) == highest).collect()
    }

    /// The table that is opened, or the line: current copies must have the same entries, under whatever identifier.
    pub fn opened(&self) -> Result<&Copy, u32> {
        let current = self.current();
        let first = &self.all[*current.first().ok_or(NO_TABLE)?];
        let agree = current.iter().all(|&i| self.all[i].entries == first.entries);
        agree.then_some(first).ok_or(COPIES_DIFFER)
    }

    /// The copies that a sparing writes, in turn: first those that were not current, then the others, each in map order.
    pub fn order(&self) -> [Vec<usize>; 2] {
        let current = self.current();
        let (first, last) = (0..self.all.len()).partition(|i| !current.contains(i));
        [first, last]
    }

    /// What matters of them for the calls that follow.
    pub fn seen(&self) -> Vec<Option<Seen>> {
        let counting = || self.all.iter().filter(|copy| copy.counts(&self.layout));
        let rank = |copy: &Copy| counting().filter(|other| other.sequence < copy.sequence).count();
        let seen = |copy: &Copy| copy.counts(&self.layout).then(|| (copy.name, copy.entries.clone(), rank(copy)));
        self.all.iter().map(seen).collect()
    }
}

/// What matters of a copy that counts: its identifier, its entries, and how many of the others have a lower sequence.
pub type Seen = (Name, Vec<Entry>, usize);

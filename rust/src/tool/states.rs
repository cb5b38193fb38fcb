//! The blocks of an open disc: where each is, and in which state; and its spares.

use super::words::{grouped, parts};
use std::fmt;
use tuormik::image::mark_name;
use tuormik::{DiscRef, Held, Open, OpenRef, Record, BLANK, DEFECTIVE, NONE, PACKET, RECORDED, UNREADABLE};

/// An open disc, as its table and its record tell it.
#[derive(Clone, Copy)]
pub struct View<'a> {
    pub disc: DiscRef<'a>,
    pub table: &'a [u32],
    pub record: Record,
}

impl<'a> From<&'a Open<'_>> for View<'a> {
    fn from(open: &'a Open) -> View<'a> {
        View { disc: open.disc().to_read(), table: open.table(), record: open.record() }
    }
}

impl<'a> From<&'a OpenRef<'_>> for View<'a> {
    fn from(open: &'a OpenRef) -> View<'a> {
        View { disc: open.disc(), table: open.table(), record: open.record() }
    }
}

/// The state of a block. A blank one was never recorded, and so is not unreadable (document 02, slip 5). One of a spare that is inside the
/// partition is neither read nor saved, whatever its sector's mark (slip 8).
#[derive(Clone, Copy, Debug, PartialEq, Eq)]
pub enum State {
    Recorded,
    Unreadable,
    Blank,
    Unused,
    OfSpare,
}

impl State {
    /// The state of a used block whose sector has a mark.
    fn of_mark(mark: u8) -> State {
        match mark {
            RECORDED => State::Recorded,
            UNREADABLE => State::Unreadable,
            _ => State::Blank,
        }
    }
}

impl fmt::Display for State {
    fn fmt(&self, f: &mut fmt::Formatter) -> fmt::Result {
        f.write_str(match self {
            State::Recorded => mark_name(RECORDED),
            State::Unreadable => mark_name(UNREADABLE),
            State::Blank => mark_name(BLANK),
            State::Unused => "unused",
            State::OfSpare => "of a spare",
        })
    }
}

/// A block as the disc's table and marks tell it.
#[derive(Clone, Copy, Debug, PartialEq, Eq)]
pub struct Block {
    pub number: u32,
    /// Its logical block and its sector, which is the spare's where the block is of one; none where its entry is unused.
    pub place: Option<(u32, usize)>,
    pub state: State,
}

impl Block {
    pub fn is_readable(&self) -> bool {
        self.state == State::Recorded
    }

    /// Why a block that has a sector is not read, as a sentence.
    pub fn why_not_read(&self) -> String {
        let sector = self.place.map_or(0, |(_, sector)| sector);
        let why = if self.state == State::Blank { "was never recorded" } else { "cannot be read" };
        format!("block {} {why}: its sector, {}, is {}", grouped(self.number), grouped(sector), self.state)
    }
}

/// How many blocks are in each state.
#[derive(Clone, Copy, Debug, Default, PartialEq, Eq)]
pub struct Counts {
    pub recorded: usize,
    pub unreadable: usize,
    pub blank: usize,
    pub unused: usize,
    pub of_spare: usize,
}

impl Counts {
    /// Those that have a sector of their own.
    pub fn used(self) -> usize {
        self.recorded + self.unreadable + self.blank
    }

    pub fn all(self) -> usize {
        self.used() + self.unused + self.of_spare
    }

    /// Those that have a sector of their own which is not recorded, in words; empty where there are none.
    pub fn not_recorded(self) -> String {
        parts(&[(self.unreadable, "unreadable"), (self.blank, "blank (never recorded)")])
    }
}

impl FromIterator<Block> for Counts {
    fn from_iter<T: IntoIterator<Item = Block>>(blocks: T) -> Counts {
        let mut counts = Counts::default();
        for block in blocks {
            *match block.state {
                State::Recorded => &mut counts.recorded,
                State::Unreadable => &mut counts.unreadable,
                State::Blank => &mut counts.blank,
                State::Unused => &mut counts.unused,
                State::OfSpare => &mut counts.of_spare,
            } += 1;
        }
        counts
    }
}

/// What a spare is: a packet's, or defective, and then not used again, or free.
#[derive(Clone, Copy, Debug, PartialEq, Eq)]
pub enum SpareState {
    Used,
    Defective,
    Free,
}

/// A spare, as its entry of the sparing table tells it.
#[derive(Clone, Copy, Debug, PartialEq, Eq)]
pub struct Spare {
    /// The first block of the packet that is spared to it, if it is used.
    pub original: u32,
    /// Its first sector.
    pub sector: usize,
    pub state: SpareState,
}

impl Spare {
    fn new(original: u32, mapped: u32) -> Spare {
        let state = match original {
            NONE => SpareState::Free,
            DEFECTIVE => SpareState::Defective,
            _ => SpareState::Used,
        };
        Spare { original, sector: mapped as usize, state }
    }
}

/// How many spares are in each state.
#[derive(Clone, Copy, Debug, Default, PartialEq, Eq)]
pub struct SpareCounts {
    pub used: usize,
    pub defective: usize,
    pub free: usize,
}

impl SpareCounts {
    /// R.
    pub fn all(self) -> usize {
        self.used + self.defective + self.free
    }
}

impl FromIterator<Spare> for SpareCounts {
    fn from_iter<T: IntoIterator<Item = Spare>>(spares: T) -> SpareCounts {
        let mut counts = SpareCounts::default();
        for spare in spares {
            *match spare.state {
                SpareState::Used => &mut counts.used,
                SpareState::Defective => &mut counts.defective,
                SpareState::Free => &mut counts.free,
            } += 1;
        }
        counts
    }
}

impl fmt::Display for SpareCounts {
    fn fmt(&self, f: &mut fmt::Formatter) -> fmt::Result {
        write!(f, "{} used, {} defective, {} free", grouped(self.used), grouped(self.defective), grouped(self.free))
    }
}

impl<'a> View<'a> {
    pub fn is_write_once(self) -> bool {
        matches!(self.record.held, Held::WriteOnce { .. })
    }

    /// How many blocks the disc has: N or L.
    pub fn count(self) -> u32 {
        match self.record.held {
            Held::WriteOnce { entries, .. } => entries,
            Held::Rewritable { .. } | Held::Other(_) => self.disc.length,
        }
    }

    /// The spares of a rewritable disc, in the order of its table.
    pub fn spares(self) -> impl Iterator<Item = Spare> + 'a {
        self.table.chunks_exact(2).map(|entry| Spare::new(entry[0], entry[1]))
    }

    /// The sector to which a packet is spared.
    pub fn spared_to(self, original: u32) -> Option<usize> {
        self.spares().find(|spare| spare.state == SpareState::Used && spare.original == original).map(|spare| spare.sector)
    }

    /// The first sector of a packet of a rewritable disc by its number, where it is not spared.
    fn own_place(self, original: u32) -> usize {
        self.disc.start as usize + original as usize
    }

    /// Where a packet of a rewritable disc is.
    pub fn packet_place(self, original: u32) -> usize {
        self.spared_to(original).unwrap_or(self.own_place(original))
    }

    /// The spare inside the partition to which a packet of a rewritable disc belongs.
    pub fn spare_of(self, original: u32) -> Option<Spare> {
        self.spares().find(|spare| spare.sector == self.own_place(original))
    }

    /// The blocks of the packet that begins at a logical block.
    pub fn packet(self, first: u32) -> impl Iterator<Item = Block> + 'a {
        (first..first.saturating_add(PACKET as u32)).filter_map(move |number| self.block(number))
    }

    /// The block of a number; none from the number of blocks upward.
    pub fn block(self, number: u32) -> Option<Block> {
        if number >= self.count() {
            return None;
        }
        let (place, is_of_spare) = if self.is_write_once() {
            let entry = *self.table.get(number as usize)?;
            ((entry != NONE).then(|| (entry, self.disc.start as usize + entry as usize)), false)
        } else {
            let within = number % PACKET as u32;
            let first = number - within;
            (Some((number, self.packet_place(first) + within as usize)), self.spare_of(first).is_some())
        };
        let state = match place {
            _ if is_of_spare => State::OfSpare,
            Some((_, sector)) => State::of_mark(self.disc.marks.get(sector).copied().unwrap_or(BLANK)),
            None => State::Unused,
        };
        Some(Block { number, place, state })
    }

    /// All blocks, in order.
    pub fn blocks(self) -> impl Iterator<Item = Block> + 'a {
        (0..self.count()).filter_map(move |number| self.block(number))
    }

    /// The blocks by runs.
    pub fn runs(self) -> Vec<Run> {
        let mut runs: Vec<Run> = Vec::new();
        for block in self.blocks() {
            match runs.last_mut() {
                Some(run) if run.goes_on_with(&block) => run.count += 1,
                _ => runs.push(Run { first: block, count: 1 }),
            }
        }
        runs
    }
}

/// Blocks that follow each other, are in one state and stand in sectors that follow each other.
pub struct Run {
    pub first: Block,
    pub count: usize,
}

impl Run {
    /// The last block's number.
    pub fn last(&self) -> usize {
        self.first.number as usize + self.count - 1
    }

    fn goes_on_with(&self, block: &Block) -> bool {
        let step = |place: Option<(u32, usize)>| place.map(|(_, sector)| sector + self.count);
        block.state == self.first.state && block.place.map(|(_, sector)| sector) == step(self.first.place)
    }
}

#[cfg(test)]
mod tests {
    use super::*;

    #[test]
    fn entries_are_used_defective_or_free() {
        let state = |original| Spare::new(original, 96).state;
        assert_eq!([0, 32, 1_048_544].map(state), [SpareState::Used; 3]);
        assert_eq!([DEFECTIVE, NONE].map(state), [SpareState::Defective, SpareState::Free]);
        let counts: SpareCounts = [32, 64, DEFECTIVE, NONE, NONE, NONE].map(|original| Spare::new(original, 96)).into_iter().collect();
        assert_eq!(counts, SpareCounts { used: 2, defective: 1, free: 3 });
        assert_eq!((counts.all(), counts.to_string().as_str()), (6, "2 used, 1 defective, 3 free"));
    }
}

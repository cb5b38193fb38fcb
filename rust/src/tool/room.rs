//! How much room a write-once disc has.

use super::rules::{ATTRIBUTES_AT, TAIL};
use super::words::grouped;
use tuormik::{MOST_ENTRIES, SECTOR};

/// The sectors that a commit of so many blocks writes: d for the data of the VAT, 1 for its ICB.
pub fn commit_sectors(entries: usize) -> usize {
    let file = 4 * entries + TAIL;
    let data = if ATTRIBUTES_AT + file < SECTOR { 0 } else { file.div_ceil(SECTOR) };
    data + 1
}

/// How many new blocks can be saved and then committed together.
#[derive(Clone, Copy, Debug, PartialEq, Eq)]
pub struct Room {
    pub fits: usize,
    pub bound: Bound,
}

/// What a disc is short of for one new block more.
#[derive(Clone, Copy, Debug, PartialEq, Eq)]
pub enum Bound {
    Sectors,
    /// The limit of 4,096 blocks: sectors are left.
    Blocks,
}

impl Room {
    /// The room of a disc with so many entries, NWA and L.
    pub fn new(entries: usize, next: usize, length: usize) -> Room {
        let free = length.saturating_sub(next);
        let fits = |count: &usize| count + commit_sectors(entries + count) <= free;
        let most = MOST_ENTRIES.saturating_sub(entries);
        if fits(&(most + 1)) {
            return Room { fits: most, bound: Bound::Blocks };
        }
        Room { fits: (1..=most.min(free)).rev().find(fits).unwrap_or(0), bound: Bound::Sectors }
    }

    /// In words, with the limit where it is what bounds the room.
    pub fn words(self) -> String {
        let room = match self.fits {
            0 if self.bound == Bound::Blocks => "no new block".to_string(),
            0 => "no new block fits".to_string(),
            1 => "1 new block fits".to_string(),
            n => format!("{} new blocks fit, committed together", grouped(n)),
        };
        match self.bound {
            Bound::Sectors => room,
            Bound::Blocks => format!("{room}: a write-once disc holds at most {}", grouped(MOST_ENTRIES)),
        }
    }
}

#[cfg(test)]
mod tests {
    use super::*;

    /// The worked examples e to h and j of document 01.
    #[test]
    fn as_the_examples_of_01() {
        let d = |entries| commit_sectors(entries) - 1;
        assert_eq!([d(458), d(459), d(503), d(504), d(4096)], [0, 1, 1, 2, 9]);
        let by_sectors = |fits| Room { fits, bound: Bound::Sectors };
        assert_eq!([Room::new(2, 7, 9), Room::new(2, 8, 9), Room::new(2, 9, 9)], [1, 0, 0].map(by_sectors));
        assert_eq!(Room::new(0, 1, 400), by_sectors(398));
        let by_blocks = |fits| Room { fits, bound: Bound::Blocks };
        assert_eq!(Room::new(4096, 5000, 300_000), by_blocks(0));
        assert_eq!(Room::new(4000, 5000, 300_000), by_blocks(96));
        // where a new block would not fit either way the sectors are what is short
        assert_eq!(Room::new(4096, 5000, 5010), by_sectors(0));
    }
}

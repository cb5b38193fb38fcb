//! Blocks that are all zeros, where nothing tells whether their sectors were read.

use super::states::{Block, View};
use super::words::grouped;
use tuormik::image::Image;
use tuormik::SECTOR;

/// Readable blocks of zeros in an image that has no marks file. An imaging program leaves zeros where it could not read a sector, and
/// without marks they pass for the disc's own.
pub struct Zeros {
    /// How many there are.
    pub count: usize,
    first: Option<Block>,
}

impl Zeros {
    pub fn new(image: &Image, view: View) -> Zeros {
        let mut blocks = view.blocks().filter(|block| image.marks_file().is_none() && block.is_readable() && is_zeros(view, block));
        let first = blocks.next();
        Zeros { count: usize::from(first.is_some()) + blocks.count(), first }
    }

    /// What is to be said of them, if there are any.
    pub fn warning(&self) -> Option<String> {
        let block = self.first?;
        let place = format!("block {}, sector {}", grouped(block.number), grouped(block.place?.1));
        Some(match self.count {
            1 => format!("1 block is all zeros ({place}), and there is no marks file: it may not have been read"),
            n => {
                format!(
                    "{} blocks are all zeros (the first is {place}), and there is no marks file: they may not have been read",
                    grouped(n)
                )
            }
        })
    }
}

fn is_zeros(view: View, block: &Block) -> bool {
    let sector = block.place.and_then(|(_, at)| view.disc.bytes.get(SECTOR * at..SECTOR * (at + 1)));
    sector.is_some_and(|bytes| bytes.iter().all(|&b| b == 0))
}

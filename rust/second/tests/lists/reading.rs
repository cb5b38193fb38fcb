//! What is read, held against the plain store.

use crate::lists::{Slot, Store, World};
use tuormik::{NONE, SECTOR};
use tuormik_second::layer::Layer;

impl Slot {
    /// What reading it gives: its bytes, or a line.
    pub fn seen(&self) -> Result<&[u8], u32> {
        match self {
            Slot::Holds(bytes) => Ok(bytes),
            Slot::Unused => Err(13),
            Slot::OfSpare => Err(30),
            Slot::Blank => Err(25),
            Slot::Unreadable => Err(14),
        }
    }
}

impl World {
    pub fn read(&self, layer: &Layer, number: u32) -> Result<Vec<u8>, u32> {
        let mut out = vec![0; SECTOR];
        match (layer.read)(&self.disc, &self.marks, &self.maps, self.s, self.l, &self.table, &self.record, number, &mut out) {
            0 => Ok(out),
            line => Err(line),
        }
    }
}

/// Some blocks read as the store has them: bytes, 13 where unused, 30 of a spare, 25 where blank, 14 where unreadable; and from the number
/// of blocks upward it is 12.
pub fn holds(layer: &Layer, world: &World, store: &Store, blocks: impl Iterator<Item = usize>) -> Result<(), String> {
    for b in blocks {
        let (read, slot) = (world.read(layer, b as u32), store.blocks[b].seen());
        if read.as_deref() != slot.as_deref() {
            return Err(format!("block {b} reads otherwise, {:?} and not {:?}", told(read.as_deref()), told(slot.as_deref())));
        }
    }
    for b in [store.blocks.len() as u32, store.blocks.len() as u32 + 1, NONE] {
        let read = world.read(layer, b);
        if read != Err(12) {
            return Err(format!("block {b} reads otherwise, {:?} and not 12", told(read.as_deref())));
        }
    }
    Ok(())
}

/// The first bytes of a block, or the line.
fn told<'a>(read: Result<&'a [u8], &'a u32>) -> Result<&'a [u8], u32> {
    read.map(|bytes| &bytes[..4]).map_err(|line| *line)
}

//! Random lists of calls, the discs that they are run on, and the plain store that they are held against.

mod random;
#[path = "store.rs"]
mod store;

pub use random::Random;
pub use store::*;
use tuormik::{BLANK, MOST_ENTRIES, PACKET, PACKET_BYTES, SECTOR};
use tuormik_second::layer::Layer;

/// The calls of a list as they were carried out, with their replies: after a cut the next call is an opening.
pub fn carried_out<'a>(calls: &'a [Call], replies: &'a [u32]) -> impl Iterator<Item = (&'a Call, u32)> {
    let is_down = |i: usize| i > 0 && replies[i - 1] == CUT;
    calls.iter().zip(replies).enumerate().map(move |(i, (call, &reply))| (if is_down(i) { &OPEN } else { call }, reply))
}

impl World {
    /// A new disc, write-once where it has no tables; it is not opened.
    pub fn new(layer: &Layer, sectors: u32, s: u32, l: u32, tables: &[u32], spares: &[u32]) -> World {
        let is_once = tables.is_empty();
        let mut maps = vec![0; if is_once { 70 } else { 64 }];
        assert_eq!((layer.write_maps)(u32::from(!is_once), 3, 2048, tables, &mut maps), 0);
        let (mut disc, mut marks) = (vec![0x11; SECTOR * sectors as usize], vec![BLANK; sectors as usize]);
        assert_eq!((layer.make)(&mut disc, &mut marks, &maps, s, l, spares), 0);
        World { disc, marks, maps, s, l, table: vec![0; MOST_ENTRIES], record: [0; 5] }
    }
}

/// A call on a disc with so many blocks in a partition of l sectors.
pub fn draw(random: &mut Random, is_once: bool, known: usize, l: u32) -> Call {
    use Kind::*;
    let kinds: &[Kind] = if is_once {
        &[SaveVirtual, SaveVirtual, SaveVirtual, SaveVirtual, FreeVirtual, Commit, Commit, Open, SaveBlock]
    } else {
        &[SaveBlock, SaveBlock, SavePacket, SparePacket, Open, Commit]
    };
    let kind = kinds[random.below(kinds.len() as u32) as usize];
    let number = match kind {
        SaveVirtual | FreeVirtual => random.below(known as u32 + 2),
        SavePacket | SparePacket => PACKET as u32 * random.below(l.div_ceil(PACKET as u32) + 1),
        _ => random.below(l + 1),
    };
    let length = match kind {
        SaveVirtual | SaveBlock => SECTOR,
        SavePacket | SparePacket => PACKET_BYTES,
        _ => 0,
    };
    let length = if random.below(40) == 0 { length / 2 } else { length };
    let mut state = random.next() | 1;
    let bytes = (0..length)
        .map(|_| {
            state = state.wrapping_mul(6_364_136_223_846_793_005).wrapping_add(1);
            (state >> 56) as u8
        })
        .collect();
    let writes = match kind {
        SaveVirtual => 1,
        Commit => 2,
        SaveBlock | SavePacket => 32,
        _ => 36,
    };
    let cut_at = match kind {
        _ if random.below(4) != 0 => 0,
        // at a table
        SparePacket if random.below(2) == 0 => PACKET as u32 + 1 + random.below(3),
        _ => random.below(writes + 2),
    };
    Call { kind, number, cut_at, cut_effect: random.below(4), bytes }
}

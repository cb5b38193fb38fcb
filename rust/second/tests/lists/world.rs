//! Write-once discs with what else is lent: no opening has to have handed their records back, and they need have no VAT.

mod random;
mod sizes;

pub use random::Random;
use tuormik::{BLANK, MOST_ENTRIES, NONE, RECORDED, SECTOR, UNREADABLE};
use tuormik_second::layer::{Layer, PLAIN};
use tuormik_second::plain;

pub const MOST: u32 = MOST_ENTRIES as u32;
pub const OUTSIDE: u32 = 12;
pub const PASSES_AS_ICB: u32 = 15;
pub const NO_ROOM: u32 = 16;

/// N at and about the steps of d.
pub const COUNTS: [u32; 14] = [0, 1, 457, 458, 459, 502, 503, 504, 1015, 1016, 4087, 4094, 4095, 4096];

/// d of 01.
pub fn data_sectors(n: u32) -> u32 {
    sizes::data_sectors(n as usize)
}

/// One of some.
pub fn pick<T: Copy>(random: &mut Random, from: &[T]) -> T {
    from[random.below(from.len() as u32) as usize]
}

/// All that is lent.
#[derive(Clone, PartialEq)]
pub struct World {
    pub disc: Vec<u8>,
    pub marks: Vec<u8>,
    pub maps: Vec<u8>,
    pub s: u32,
    pub l: u32,
    pub table: Vec<u32>,
    pub record: Vec<u32>,
}

pub const START: u32 = 3;

impl World {
    /// A write-once disc with n blocks, NWA `next` and l sectors, none of which is a VAT ICB; around its partition sectors are recorded.
    /// Each byte of a sector is the low byte of its number.
    pub fn new(n: u32, next: u32, l: u32) -> World {
        let mut maps = vec![0; 70];
        assert_eq!((PLAIN.write_maps)(0, 1, 0, &[], &mut maps), 0);
        let sectors = (START + l + 2) as usize;
        let mut marks = vec![RECORDED; sectors];
        marks[START as usize..][..l as usize].fill(BLANK);
        for (i, mark) in marks[START as usize..][..next as usize].iter_mut().enumerate() {
            *mark = [RECORDED, UNREADABLE, BLANK, RECORDED][i % 4];
        }
        if next > 0 {
            marks[(START + next - 1) as usize] = if next.is_multiple_of(2) { RECORDED } else { UNREADABLE };
        }
        let entry = |i: u32| if i.is_multiple_of(5) { NONE } else { (7 * i) % next.max(1) };
        // beyond N the table holds what no entry may be
        let table = (0..MOST + 4).map(|i| if i < n { entry(i) } else { 0xabcd_0000 | i }).collect();
        let record = vec![0, n, next, next.saturating_sub(1) / 2, 77];
        let mut disc = vec![0; SECTOR * sectors];
        disc.chunks_exact_mut(SECTOR).enumerate().for_each(|(i, sector)| sector.fill(i as u8));
        World { disc, marks, maps, s: START, l, table, record }
    }

    /// The disc, blank, is made and opened.
    pub fn make(&mut self, layer: &Layer) {
        self.marks.fill(BLANK);
        assert_eq!((layer.make)(&mut self.disc, &mut self.marks, &self.maps, self.s, self.l, &[]), 0);
        assert_eq!(self.open(layer), 0);
    }

    pub fn open(&mut self, layer: &Layer) -> u32 {
        let World { disc, marks, maps, s, l, table, record } = self;
        (layer.open)(disc, marks, maps, *s, *l, table, record)
    }

    pub fn save(&mut self, layer: &Layer, v: u32, block: &[u8], (cut_at, cut_effect): (u32, u32)) -> u32 {
        let World { disc, marks, maps, s, l, table, record } = self;
        (layer.save_virtual)(disc, marks, maps, *s, *l, table, record, v, block, cut_at, cut_effect)
    }

    pub fn free(&mut self, layer: &Layer, v: u32) -> u32 {
        let World { disc, marks, maps, s, l, table, record } = self;
        (layer.free_virtual)(disc, marks, maps, *s, *l, table, record, v)
    }

    pub fn commit(&mut self, layer: &Layer, (cut_at, cut_effect): (u32, u32)) -> u32 {
        let World { disc, marks, maps, s, l, table, record } = self;
        (layer.commit)(disc, marks, maps, *s, *l, table, record, cut_at, cut_effect)
    }
}

/// Cuts that strike nothing, of a call with so many writes: a row of fifteen, with every effect.
pub fn no_cut(way: usize, writes: u32) -> (u32, u32) {
    ([0, writes + 1, 0, u32::MAX, writes + 2][way % 5], (way % 3) as u32)
}

/// The ICB of an empty VAT at logical block k.
pub fn icb_at(k: u32) -> Vec<u8> {
    let mut maps = vec![0; 70];
    plain::write_maps(0, 0, 0, &[], &mut maps);
    let (mut disc, mut marks) = (vec![0; SECTOR], vec![BLANK]);
    assert_eq!(plain::make(&mut disc, &mut marks, &maps, 0, 1, &[]), 0);
    disc[12..16].copy_from_slice(&k.to_le_bytes());
    mend_checksum(&mut disc);
    disc
}

/// The tag's checksum made right.
pub fn mend_checksum(icb: &mut [u8]) {
    icb[4] = 0;
    icb[4] = icb[..16].iter().fold(0, |sum: u8, &b| sum.wrapping_add(b));
}

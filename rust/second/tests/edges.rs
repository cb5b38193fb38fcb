//! Edges of document 01 that random lists on small discs do not come to, through both implementations.

use tuormik::{BLANK, MOST_ENTRIES, MOST_SECTORS, NONE, RECORDED, SECTOR};
use tuormik_second::layer::{Layer, PLAIN, PROVED};
use tuormik_second::plain;

fn both(edge: impl Fn(&Layer)) {
    edge(&PLAIN);
    edge(&PROVED);
}

/// A write-once disc that is recorded all over.
struct World {
    disc: Vec<u8>,
    marks: Vec<u8>,
    maps: [u8; 70],
    table: Vec<u32>,
    record: [u32; 5],
}

impl World {
    fn new(sectors: usize) -> World {
        let mut maps = [0; 70];
        assert_eq!(plain::write_maps(0, 0, 0, &[], &mut maps), 0);
        World { disc: vec![0; SECTOR * sectors], marks: vec![RECORDED; sectors], maps, table: vec![0; MOST_ENTRIES], record: [0; 5] }
    }

    fn sector(&mut self, at: u32) -> &mut [u8] {
        &mut self.disc[SECTOR * at as usize..][..SECTOR]
    }

    /// A VAT file of no entries at the start of a sector.
    fn put_empty_file(&mut self, at: u32) {
        let file = self.sector(at);
        file[1..23].copy_from_slice(b"*UDF Virtual Alloc Tbl");
        file[32..36].fill(0xff);
    }

    fn open(&mut self, layer: &Layer, s: u32, l: u32) -> u32 {
        (layer.open)(&self.disc, &self.marks, &self.maps, s, l, &mut self.table, &mut self.record)
    }
}

/// An ICB for block k with these extents of lengths and blocks.
fn icb(k: u32, extents: &[[u32; 2]]) -> [u8; SECTOR] {
    let mut icb = [0; SECTOR];
    (icb[20], icb[0], icb[1], icb[2]) = (4, 5, 1, 2);
    let length: u64 = extents.iter().map(|e| u64::from(e[0])).sum();
    icb[56..64].copy_from_slice(&length.to_le_bytes());
    icb[172..176].copy_from_slice(&(8 * extents.len() as u32).to_le_bytes());
    for (to, n) in icb[176..].chunks_exact_mut(4).zip(extents.iter().flatten()) {
        to.copy_from_slice(&n.to_le_bytes());
    }
    icb[12..16].copy_from_slice(&k.to_le_bytes());
    icb[10..12].copy_from_slice(&2032u16.to_le_bytes());
    let crc = plain::crc(&icb[16..], 0);
    icb[8..10].copy_from_slice(&crc.to_le_bytes());
    icb[4] = icb[..16].iter().fold(0u8, |sum, &b| sum.wrapping_add(b));
    icb
}

/// Where NWA is L, a block whose extent reaches block L, recorded as the sector after the partition is, does not pass; one whose extent
/// is below it does.
#[test]
fn an_extent_that_reaches_k() {
    both(|layer| {
        let (s, l) = (3, 10);
        let mut world = World::new(20);
        world.put_empty_file(s + l);
        world.put_empty_file(s + l - 1);
        world.record = [0, 0, l, 0, 0];
        let mut save = |block: &[u8]| {
            let World { disc, marks, maps, table, record } = &mut world;
            (layer.save_virtual)(disc, marks, maps, s, l, table, record, 0, block, 0, 0)
        };
        assert_eq!(save(&icb(l, &[[36, l]])), 16);
        assert_eq!(save(&icb(l, &[[36, l - 1]])), 15);
    });
}

/// On a long disc every mark counts for line 1, and the newest VAT is found wherever it is, whatever is passed over above it.
#[test]
fn marks_of_a_long_disc() {
    let sectors = 2 * 65_536 + 70;
    let l = sectors as u32;
    both(|layer| {
        let mut world = World::new(sectors);
        world.marks.fill(BLANK);
        for at in [0, 63, 64, 65_535, 65_536, 131_071, 131_072, 131_135, 131_136, sectors - 1] {
            world.marks[at] = 3;
            assert_eq!(world.open(layer, 0, l), 1, "mark {at}");
            world.marks[at] = BLANK;
        }
        for k in [1, 7, 8, 127, 128, 4_095, 4_096, 65_535, 65_536, 131_071, 131_072, l - 9] {
            world.sector(k - 1).fill(0);
            world.put_empty_file(k - 1);
            world.sector(k).copy_from_slice(&icb(k, &[[36, k - 1]]));
            for passed in [0, 1, 7, 8] {
                let (from, to) = (k as usize - 1, (k + passed) as usize);
                world.marks[from..=to].fill(RECORDED);
                assert_eq!(world.open(layer, 0, l), 0, "block {k}");
                assert_eq!(world.record, [0, 0, k + passed + 1, k, passed]);
                world.marks[from..=to].fill(BLANK);
            }
        }
    });
}

/// Marks and sectors outside the partition count for line 1 only.
#[test]
fn marks_outside_the_partition() {
    both(|layer| {
        let mut world = World::new(20);
        world.marks.fill(BLANK);
        assert_eq!((layer.make)(&mut world.disc, &mut world.marks, &world.maps, 5, 10, &[]), 0);
        assert_eq!(world.open(layer, 5, 10), 0);
        (world.marks[19], world.marks[4]) = (2, 2);
        assert_eq!(world.open(layer, 5, 10), 0);
        world.marks[19] = 3;
        assert_eq!(world.open(layer, 5, 10), 1);
    });
}

/// S + L is not taken modulo 2^32.
#[test]
fn spans_that_wrap() {
    both(|layer| {
        let mut world = World::new(20);
        for (s, l) in [(u32::MAX, 1), (u32::MAX, 2), (u32::MAX - 9, 20), (20, 1), (0, 21), (0, u32::MAX), (1 << 31, 1 << 31), (5, 0)] {
            assert_eq!(world.open(layer, s, l), 2, "{s} {l}");
        }
        assert_eq!(world.open(layer, 19, 1), 8);
    });
}

/// A disc of the most sectors, and of one more.
#[test]
#[ignore = "takes 2 GB"]
fn the_most_sectors() {
    both(|layer| {
        for (sectors, answer) in [(MOST_SECTORS, 0), (MOST_SECTORS + 1, 1)] {
            let mut world = World::new(sectors);
            world.marks.fill(BLANK);
            let l = sectors as u32;
            assert_eq!((layer.make)(&mut world.disc, &mut world.marks, &world.maps, 0, l, &[]), answer);
            assert_eq!(world.open(layer, 0, l), answer);
        }
    });
}

/// A length with one of its upper two bits set fails, also where so many blocks stand below k.
#[test]
#[ignore = "takes 1 GB"]
fn the_upper_bits_of_a_length() {
    both(|layer| {
        for (length, answer) in [((1 << 30) - SECTOR as u32, 9), (1 << 30, 8)] {
            let blocks = length / SECTOR as u32;
            let mut world = World::new(blocks as usize + 2);
            world.put_empty_file(blocks);
            let k = blocks + 1;
            world.sector(k).copy_from_slice(&icb(k, &[[length, 0], [36, blocks]]));
            assert_eq!(world.open(layer, 0, k + 1), answer);
        }
    });
}

/// Extents that name the same blocks over and over make a VAT of more than 2^32 entries, which is one all the same: line 9.
#[test]
#[ignore = "reads 17 GB of entries, which takes minutes"]
fn more_than_32_bits_of_entries() {
    both(|layer| {
        const BLOCKS: u32 = 36_010;
        let mut world = World::new(BLOCKS as usize + 2);
        world.put_empty_file(BLOCKS);
        let mut extents = vec![[SECTOR as u32 * BLOCKS, 0]; 233];
        let length: u64 = extents.iter().map(|e| u64::from(e[0])).sum();
        assert!(length / 4 > 1 << 32);
        extents.push([36, BLOCKS]);
        let k = BLOCKS + 1;
        world.sector(k).copy_from_slice(&icb(k, &extents));
        assert_eq!(world.open(layer, 0, k + 1), 9);
    });
}

/// A look-up in a file of any length.
#[test]
fn look_up_in_any_file() {
    both(|layer| {
        let look_up = |file: &[u8], v: u32| {
            let mut result = [0];
            match (layer.look_up)(file, v, &mut result) {
                0 => Ok(result[0]),
                line => Err(line),
            }
        };
        let tail = b"\0*UDF Virtual Alloc Tbl\0suffix!!\x01\0\0\0";
        for n in 0..36 {
            assert_eq!(look_up(&tail[..n], 0), Err(8));
        }
        assert_eq!(look_up(tail, 0), Err(12));
        let file = |entries: &[u32]| -> Vec<u8> { entries.iter().flat_map(|e| e.to_le_bytes()).chain(*tail).collect() };
        assert_eq!(look_up(&file(&[5, NONE]), 0), Ok(5));
        assert_eq!(look_up(&file(&[5, NONE]), 1), Err(13));
        assert_eq!(look_up(&file(&[5, NONE]), 2), Err(12));
        assert_eq!(look_up(&file(&vec![6; MOST_ENTRIES]), 4095), Ok(6));
        assert_eq!(look_up(&file(&vec![6; MOST_ENTRIES + 1]), 0), Err(9));
        let mut flagged = file(&[5]);
        flagged[4] = 1;
        assert_eq!(look_up(&flagged, 0), Err(8));
    });
}

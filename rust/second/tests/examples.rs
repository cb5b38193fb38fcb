//! Document 01's worked examples, a to l, through both implementations; l, and every fullness of small partitions, as document 02, slip 4,
//! has them, and k with a second sparing of its packet, as slip 1 has it.

use tuormik::{BLANK, DEFECTIVE, MOST_ENTRIES, NONE, PACKET_BYTES, RECORDED, SECTOR};
use tuormik_second::layer::{Layer, PLAIN, PROVED};

/// A lent disc, whose every sector begins with its own number.
struct World {
    disc: Vec<u8>,
    marks: Vec<u8>,
    maps: Vec<u8>,
    s: u32,
    l: u32,
    table: Vec<u32>,
    record: [u32; 5],
}

impl World {
    fn new(layer: &Layer, sectors: u32, s: u32, l: u32, tables: &[u32]) -> World {
        let kind = u32::from(!tables.is_empty());
        let mut maps = vec![0; if kind == 0 { 70 } else { 64 }];
        assert_eq!((layer.write_maps)(kind, 0, 2048, tables, &mut maps), 0);
        let disc = (0..sectors)
            .flat_map(|at| {
                let mut sector = [0xee; SECTOR];
                sector[..4].copy_from_slice(&at.to_le_bytes());
                sector
            })
            .collect();
        World { disc, marks: vec![BLANK; sectors as usize], maps, s, l, table: vec![7; MOST_ENTRIES], record: [0; 5] }
    }

    /// The record and the table of some entries, on a disc recorded up to NWA.
    fn hold(&mut self, entries: &[u32], next: u32) {
        let from = self.s as usize;
        self.marks[from..].fill(BLANK);
        self.marks[from..from + next as usize].fill(RECORDED);
        self.table[..entries.len()].copy_from_slice(entries);
        self.record = [0, entries.len() as u32, next, 0, 0];
    }

    /// How full the partition is with no entry and a next block.
    fn fullness(&mut self, layer: &Layer, next: u32) -> Result<u32, u32> {
        self.hold(&[], next);
        let mut result = [0];
        match (layer.fullness)(&self.disc, &self.marks, &self.maps, self.s, self.l, &self.table, &self.record, &mut result) {
            0 => Ok(result[0]),
            line => Err(line),
        }
    }

    /// The sector that a block is read from.
    fn read(&self, layer: &Layer, number: u32) -> Result<u32, u32> {
        let mut out = [0; SECTOR];
        match (layer.read)(&self.disc, &self.marks, &self.maps, self.s, self.l, &self.table, &self.record, number, &mut out) {
            0 => Ok(u32::from_le_bytes([out[0], out[1], out[2], out[3]])),
            line => Err(line),
        }
    }

    fn open(&mut self, layer: &Layer) -> u32 {
        (layer.open)(&self.disc, &self.marks, &self.maps, self.s, self.l, &mut self.table, &mut self.record)
    }

    fn save(&mut self, layer: &Layer, v: u32) -> u32 {
        let World { disc, marks, maps, s, l, table, record } = self;
        (layer.save_virtual)(disc, marks, maps, *s, *l, table, record, v, &[1; SECTOR], 0, 0)
    }

    fn commit(&mut self, layer: &Layer) -> u32 {
        let World { disc, marks, maps, s, l, table, record } = self;
        (layer.commit)(disc, marks, maps, *s, *l, table, record, 0, 0)
    }

    fn spare(&mut self, layer: &Layer, b: u32, packet: &[u8]) -> u32 {
        let World { disc, marks, maps, s, l, table, record } = self;
        (layer.spare_packet)(disc, marks, maps, *s, *l, table, record, b, packet, 0, 0)
    }
}

fn both(example: impl Fn(&Layer)) {
    example(&PLAIN);
    example(&PROVED);
}

#[test]
fn a_to_d_entries() {
    both(|layer| {
        let mut world = World::new(layer, 300, 257, 43, &[]);
        world.hold(&[0, 1], 20);
        assert_eq!(world.read(layer, 1), Ok(258));
        world.hold(&[0, 16, 15], 20);
        assert_eq!(world.read(layer, 2), Ok(272));
        assert_eq!(world.read(layer, 3), Err(12));
        world.hold(&[0, 16, NONE], 20);
        assert_eq!(world.read(layer, 2), Err(13));
    });
}

#[test]
fn e_to_h_data_sectors() {
    both(|layer| {
        for (n, d) in [(0, 0), (458, 0), (459, 1), (503, 1), (504, 2), (4096, 9)] {
            let mut world = World::new(layer, 40, 3, 37, &[]);
            world.hold(&vec![5; n], 20);
            assert_eq!(world.commit(layer), 0);
            assert_eq!(world.record, [0, n as u32, 20 + d + 1, 20 + d, 0], "N {n}");
            let before = world.table.clone();
            world.table.fill(7);
            assert_eq!(world.open(layer), 0);
            assert_eq!(world.record, [0, n as u32, 20 + d + 1, 20 + d, 0], "N {n}");
            assert_eq!(world.table[..n], before[..n]);
            assert!(world.table[n..].iter().all(|&e| e == 7));
        }
    });
}

const NEWER: &[u8; 23] = b"*UDF Sparing Table\0\0\0\0\0";
const OLDER: &[u8; 23] = b"*OSTA UDF Sparing Table";

/// The record of a rewritable disc whose only copies are made here, each with an identifier.
fn put_copies(world: &mut World, tables: &[(u32, &[u8; 23])], entries: &[u32]) {
    for &(t, name) in tables {
        let copy = &mut world.disc[SECTOR * t as usize..][..SECTOR];
        copy.fill(0);
        copy[17..40].copy_from_slice(name);
        copy[48] = (entries.len() / 2) as u8;
        for (to, n) in copy[56..].chunks_exact_mut(4).zip(entries) {
            to.copy_from_slice(&n.to_le_bytes());
        }
    }
    world.marks.fill(RECORDED);
}

/// Two tables with every choice of their identifiers.
const NAMED: [[(u32, &[u8; 23]); 2]; 4] =
    [[(0, OLDER), (32, OLDER)], [(0, OLDER), (32, NEWER)], [(0, NEWER), (32, OLDER)], [(0, NEWER), (32, NEWER)]];

#[test]
fn i_spared_blocks() {
    both(|layer| {
        for tables in NAMED {
            let mut world = World::new(layer, 1088, 512, 64, &[0, 32]);
            put_copies(&mut world, &tables, &[32, 1024]);
            assert_eq!(world.open(layer), 0);
            assert_eq!(world.read(layer, 31), Ok(543));
            assert_eq!(world.read(layer, 63), Ok(1055));
            assert_eq!(world.read(layer, 64), Err(12));
        }
    });
}

#[test]
fn j_room() {
    both(|layer| {
        let mut world = World::new(layer, 20, 2, 9, &[]);
        world.hold(&[0, 1], 7);
        assert_eq!(world.save(layer, 1), 0);
        assert_eq!(world.record, [0, 2, 8, 0, 0]);
        assert_eq!(world.save(layer, 1), 16);
        assert_eq!(world.commit(layer), 0);
        assert_eq!(world.commit(layer), 16);
    });
}

/// The sector of a table of some numbers, as it is written.
fn written(sequence: u32, numbers: &[u32]) -> Vec<u8> {
    let mut sector = [&[0; 17], &NEWER[..], &[0; 8], &[(numbers.len() / 2) as u8, 0, 0, 0], &sequence.to_le_bytes()].concat();
    sector.extend(numbers.iter().flat_map(|n| n.to_le_bytes()));
    sector.resize(SECTOR, 0);
    sector
}

impl World {
    /// The lent table, the record and both copies have these numbers after a sparing, and opening gives them again.
    fn holds(&mut self, layer: &Layer, sequence: u32, numbers: &[u32]) {
        for _ in 0..2 {
            let held = &self.table[..numbers.len() + 1];
            assert_eq!(held, [numbers, &[7]].concat(), "{}", layer.name);
            assert_eq!(self.record, [1, numbers.len() as u32 / 2, sequence, 0, 0], "{}", layer.name);
            for t in [0, 32] {
                assert_eq!(self.disc[SECTOR * t..SECTOR * (t + 1)], written(sequence, numbers), "{}: table at {t}", layer.name);
            }
            self.table.fill(7);
            assert_eq!(self.open(layer), 0, "{}", layer.name);
        }
    }
}

#[test]
fn k_sparing() {
    both(|layer| {
        for tables in NAMED {
            let mut world = World::new(layer, 2144, 512, 96, &[0, 32]);
            put_copies(&mut world, &tables, &[64, 2048, NONE, 2080, NONE, 2112]);
            assert_eq!(world.open(layer), 0);
            assert_eq!(world.spare(layer, 32, &[3; PACKET_BYTES]), 0);
            world.holds(layer, 1, &[32, 2080, 64, 2048, NONE, 2112]);
            assert_eq!(world.disc[SECTOR * 2080..SECTOR * 2112], [3; PACKET_BYTES]);
            // the same packet again
            assert_eq!(world.spare(layer, 32, &[4; PACKET_BYTES]), 0);
            world.holds(layer, 2, &[32, 2112, 64, 2048, DEFECTIVE, 2080]);
            assert_eq!(world.disc[SECTOR * 2080..SECTOR * 2112], [3; PACKET_BYTES]);
            assert_eq!(world.disc[SECTOR * 2112..SECTOR * 2144], [4; PACKET_BYTES]);
            // no entry is free
            for b in [0, 32, 64] {
                assert_eq!(world.spare(layer, b, &[5; PACKET_BYTES]), 19, "{}: {b}", layer.name);
            }
            world.holds(layer, 2, &[32, 2112, 64, 2048, DEFECTIVE, 2080]);
        }
    });
}

/// The packet's entry turns defective as the last of the defective ones, and the free one of lowest index is taken.
#[test]
fn sparing_again() {
    both(|layer| {
        let mut world = World::new(layer, 2176, 512, 96, &[0, 32]);
        put_copies(&mut world, &NAMED[3], &[32, 2080, 64, 2048, DEFECTIVE, 2144, NONE, 2112]);
        assert_eq!(world.open(layer), 0);
        assert_eq!(world.spare(layer, 32, &[3; PACKET_BYTES]), 0);
        world.holds(layer, 1, &[32, 2112, 64, 2048, DEFECTIVE, 2144, DEFECTIVE, 2080]);
        // a copy with the older identifier and the mark does not count
        for (tables, answer) in [(NAMED[0], 8), (NAMED[1], 0), (NAMED[2], 0), (NAMED[3], 0)] {
            put_copies(&mut world, &tables, &[32, 2112, DEFECTIVE, 2144]);
            assert_eq!(world.open(layer), answer, "{}", layer.name);
        }
    });
}

#[test]
fn l_fullness() {
    both(|layer| {
        let mut world = World::new(layer, 80, 0, 64, &[]);
        assert_eq!(world.fullness(layer, 3), Ok(47));
        world.l = 80;
        assert_eq!(world.fullness(layer, 1), Ok(12));
        assert_eq!(world.fullness(layer, 3), Ok(38));
    });
}

/// Of all numbers of per mille the one that is nearest to 1,000 n / l, by exact fractions: two of them have the distances x / l and y / l.
/// Of two at the same distance it is the even one.
fn nearest(n: u32, l: u32) -> u32 {
    (0..=1000).min_by_key(|f| ((1000 * n).abs_diff(f * l), f % 2)).expect("there are some")
}

#[test]
fn fullness_is_the_nearest() {
    both(|layer| {
        let mut world = World::new(layer, 200, 0, 1, &[]);
        for l in 1..=200 {
            world.l = l;
            assert_eq!(world.fullness(layer, 0), Err(11), "{}: L {l}, NWA 0", layer.name);
            for n in 1..=l {
                assert_eq!(world.fullness(layer, n), Ok(nearest(n, l)), "{}: L {l}, NWA {n}", layer.name);
            }
        }
    });
}

//! Long tables, on which the two implementations must agree: sparing tables with mapped starts far apart, equal ones and packets of the
//! partition among them, under both identifiers and with defective spares, and VATs whose files lie in many extents. The random lists of
//! calls have short tables.

#[path = "lists/met.rs"]
mod met;

use met::Met;
use tuormik::{DEFECTIVE, MOST_ENTRIES, NONE, PACKET, PACKET_BYTES, RECORDED, SECTOR, UNREADABLE};
use tuormik_second::layer::{Layer, PLAIN, PROVED};
use tuormik_second::plain;

/// Numbers that look random, the same in every run.
struct Draw(u64);

impl Draw {
    fn below(&mut self, limit: usize) -> usize {
        self.0 ^= self.0 << 13;
        self.0 ^= self.0 >> 7;
        self.0 ^= self.0 << 17;
        (self.0 >> 20) as usize % limit
    }
}

fn put(sector: &mut [u8], at: usize, bytes: &[u8]) {
    sector[at..at + bytes.len()].copy_from_slice(bytes);
}

// ---- sparing tables

const S: u32 = 32;
const L: u32 = 8 * PACKET as u32;
const TABLES: [u32; 4] = [320, 352, 384, 416];
const FIRST_SPARE: usize = 14;
const PACKETS: usize = 600;
const SECTORS: usize = PACKETS * PACKET;

/// A lent disc with what goes with it.
#[derive(Clone)]
struct Lent {
    disc: Vec<u8>,
    marks: Vec<u8>,
    table: Vec<u32>,
    record: [u32; 5],
}

impl Lent {
    fn open(&mut self, layer: &Layer, maps: &[u8]) -> u32 {
        (layer.open)(&self.disc, &self.marks, maps, S, L, &mut self.table, &mut self.record)
    }

    fn entry(&mut self, copy: u32, i: usize) -> &mut [u8] {
        let at = SECTOR * copy as usize + 56 + 8 * i;
        &mut self.disc[at..at + 8]
    }

    fn set_original(&mut self, copy: u32, i: usize, original: u32) {
        self.entry(copy, i)[..4].copy_from_slice(&original.to_le_bytes());
    }

    /// The first entries of every copy.
    fn set_entries(&mut self, originals: [u32; 3], mapped: [u32; 3]) {
        for copy in TABLES {
            for (i, (original, mapped)) in originals.into_iter().zip(mapped).enumerate() {
                self.set_original(copy, i, original);
                self.entry(copy, i)[4..].copy_from_slice(&mapped.to_le_bytes());
            }
        }
    }

    fn set_name(&mut self, copy: u32, is_older: bool) {
        self.disc[SECTOR * copy as usize + 17..][..23].copy_from_slice(if is_older { OLDER } else { NEWER });
    }

    fn read(&self, layer: &Layer, maps: &[u8], b: u32) -> (u32, Vec<u8>) {
        let mut out = vec![0; SECTOR];
        let answer = (layer.read)(&self.disc, &self.marks, maps, S, L, &self.table, &self.record, b, &mut out);
        (answer, out)
    }

    /// The originals of the table that was opened.
    fn originals(&self) -> impl Iterator<Item = u32> + '_ {
        self.table.chunks_exact(2).take(self.record[1] as usize).map(|entry| entry[0])
    }
}

const NEWER: &[u8; 23] = b"*UDF Sparing Table\0\0\0\0\0";
const OLDER: &[u8; 23] = b"*OSTA UDF Sparing Table";

fn assert_same(a: &Lent, b: &Lent, what: &str) {
    assert!(a.disc == b.disc, "{what}: the discs differ");
    assert!(a.marks == b.marks, "{what}: the marks differ");
    assert!(a.table == b.table, "{what}: the tables differ");
    assert!(a.record == b.record, "{what}: the records differ");
}

/// Packets to be spares, each once: side by side, or 256 apart as far as there are any.
fn spares(count: usize, apart: bool) -> Vec<u32> {
    let all = PACKETS - FIRST_SPARE;
    let order: Vec<usize> = if apart { (0..256).flat_map(|i| (i..all).step_by(256)).collect() } else { (0..all).collect() };
    order[..count].iter().map(|p| ((FIRST_SPARE + p) * PACKET) as u32).collect()
}

/// A block of each packet of the partition reads alike; which of them belong to a spare.
fn of_spares(proved: &Lent, plain: &Lent, maps: &[u8], within: u32, what: &str) -> Vec<bool> {
    let is_of_spare = |p: u32| {
        let (answer, bytes) = proved.read(&PROVED, maps, p + within);
        assert!((answer, bytes) == plain.read(&PLAIN, maps, p + within), "{what}: block {}", p + within);
        answer == 30
    };
    (0..L).step_by(PACKET).map(is_of_spare).collect()
}

#[test]
fn long_sparing_tables_are_read_alike() {
    let mut draw = Draw(20_040_182);
    let mut maps = vec![0; 64];
    assert_eq!((PLAIN.write_maps)(1, 0, SECTOR as u32, &TABLES, &mut maps), 0);
    let (mut met, mut seen) = ([0; 12], Met::default());
    for case in 0..80 {
        let count = [1, 2, 16, 64, 100, 248, 249][draw.below(7)];
        let mut lent = Lent { disc: vec![0; SECTOR * SECTORS], marks: vec![0; SECTORS], table: vec![7; MOST_ENTRIES], record: [9; 5] };
        let mut spares = spares(count, draw.below(2) == 0);
        // some of them in the partition
        let inside: Vec<u32> = (S..S + L).step_by(PACKET).filter(|_| draw.below(5) == 0).collect();
        inside.iter().for_each(|&start| spares[draw.below(count)] = start);
        let made = (PLAIN.make)(&mut lent.disc, &mut lent.marks, &maps, S, L, &spares);
        assert_eq!(made, 0, "case {case}");
        let mut other = lent.clone();
        // packets that are spared, seldom one that is a spare, then defective spares, then free ones; each copy with an identifier of its own
        let is_spare = |p: u32| spares.contains(&(S + p));
        let used = (0..L).step_by(PACKET).filter(|&p| draw.below(3) == 0 && (!is_spare(p) || draw.below(4) == 0));
        let used: Vec<u32> = used.take(count).collect();
        seen.note("an original that is a spare", used.iter().any(|&p| is_spare(p)));
        let defective = [0, 0, 1, count / 2, count - used.len()][draw.below(5)].min(count - used.len());
        let originals = used.iter().copied().chain(std::iter::repeat_n(DEFECTIVE, defective));
        for copy in TABLES {
            originals.clone().enumerate().for_each(|(i, original)| lent.set_original(copy, i, original));
            lent.set_name(copy, draw.below(3) == 0);
        }
        for _ in 0..draw.below(4) {
            let (damage, i, j) = (draw.below(6), draw.below(count), draw.below(count));
            let (first, sequence) = (draw.below(4), draw.below(3) as u8);
            // the last is neither used, defective nor free
            let original = [DEFECTIVE, NONE, (j % 9 * PACKET) as u32, DEFECTIVE + 1 + j as u32 % 14][draw.below(4)];
            // one copy, or all of them alike
            let copies = if draw.below(3) == 0 { &TABLES[..] } else { &TABLES[first..first + 1] };
            for &copy in copies {
                match damage {
                    0 => {
                        // a mapped start that stands twice, unless both are one entry
                        let mapped = lent.entry(copy, i)[4..].to_vec();
                        lent.entry(copy, j)[4..].copy_from_slice(&mapped);
                    }
                    1 => {
                        // two entries change places
                        let (a, b) = (lent.entry(copy, i).to_vec(), lent.entry(copy, j).to_vec());
                        lent.entry(copy, i).copy_from_slice(&b);
                        lent.entry(copy, j).copy_from_slice(&a);
                    }
                    2 => lent.disc[SECTOR * copy as usize + 52] = sequence,
                    3 => lent.set_original(copy, i, original),
                    4 => lent.set_name(copy, i % 2 == 0),
                    _ => lent.marks[copy as usize] = UNREADABLE,
                }
            }
        }
        put(&mut other.disc, 0, &lent.disc);
        put(&mut other.marks, 0, &lent.marks);
        let answer = lent.open(&PROVED, &maps);
        assert_eq!(answer, other.open(&PLAIN, &maps), "case {case}: opening");
        assert_same(&lent, &other, &format!("case {case}: opening"));
        met[answer as usize] += 1;
        if answer != 0 {
            continue;
        }
        seen.note("an opening with defective spares", lent.originals().any(|original| original == DEFECTIVE));
        let within = draw.below(PACKET) as u32;
        let of_spare = of_spares(&lent, &other, &maps, within, &format!("case {case}"));
        seen.note("blocks of spares and others", of_spare.contains(&true) && of_spare.contains(&false));
        for b in [0, 7, 0, 7] {
            let packet = vec![b as u8 + 1; PACKET_BYTES];
            let (b, cut) = ((b * PACKET) as u32, draw.below(40) as u32);
            let spare = |layer: &Layer, x: &mut Lent| {
                (layer.spare_packet)(&mut x.disc, &mut x.marks, &maps, S, L, &mut x.table, &mut x.record, b, &packet, cut, 1)
            };
            let is_spared = lent.originals().any(|original| original == b);
            let answer = spare(&PROVED, &mut lent);
            assert_eq!(answer, spare(&PLAIN, &mut other), "case {case}: sparing {b}");
            assert_same(&lent, &other, &format!("case {case}: sparing {b}"));
            seen.note("a packet spared", answer == 0 && !is_spared);
            seen.note("a packet spared again", answer == 0 && is_spared);
            seen.note("a packet spared again, cut before the tables", answer == 255 && is_spared && cut <= 32);
            seen.note("a packet spared again, cut at the tables", answer == 255 && is_spared && cut > 32);
            seen.note("a packet spared already, no spare left", answer == 19 && is_spared);
            seen.note("a packet of a spare", answer == 30);
            if answer == 0 {
                assert_eq!(of_spares(&lent, &other, &maps, within, &format!("case {case}")), of_spare, "case {case}: sparing {b}");
            }
        }
    }
    seen.all();
    assert!(met[0] > 10 && met[8] > 0 && met[10] > 0, "answers of opening: {met:?}");
}

/// Spares that are 256 or 512 packets behind one of the partition are not taken for it: three of them in any order, one used.
#[test]
fn spares_far_behind_the_partition() {
    let mut maps = vec![0; 64];
    assert_eq!((PLAIN.write_maps)(1, 0, SECTOR as u32, &TABLES, &mut maps), 0);
    let mut lent = Lent { disc: vec![0; SECTOR * SECTORS], marks: vec![0; SECTORS], table: vec![7; MOST_ENTRIES], record: [9; 5] };
    let starts: Vec<u32> = [0, 32].into_iter().flat_map(|p| [0, 256, 512].map(|far| S + p + far * PACKET as u32)).collect();
    assert_eq!((PLAIN.make)(&mut lent.disc, &mut lent.marks, &maps, S, L, &starts[..3]), 0);
    let mut opened = [0; 2];
    for number in 0..starts.len().pow(3) {
        let mapped = [1, 6, 36].map(|weight| starts[number / weight % 6]);
        let are_distinct = (1..3).all(|i| !mapped[..i].contains(&mapped[i]));
        for original in [0, 32] {
            lent.set_entries([original, NONE, NONE], mapped);
            let counts = are_distinct && !mapped.contains(&(S + original));
            for layer in [&PLAIN, &PROVED] {
                assert_eq!(lent.open(layer, &maps), if counts { 0 } else { 8 }, "{}: {original}, {mapped:?}", layer.name);
                for p in [0, 32].into_iter().filter(|_| counts) {
                    let is_of_spare = lent.read(layer, &maps, p + 7).0 == 30;
                    assert_eq!(is_of_spare, mapped.contains(&(S + p)), "{}: {p}, {mapped:?}", layer.name);
                }
            }
            opened[usize::from(counts)] += 1;
        }
    }
    // of the six one is on the original
    assert_eq!(opened, [2 * (216 - 60), 2 * 60]);
}

// ---- VATs in many extents

/// The ICB at block k of a file of some bytes in extents of length and block.
fn icb(k: u32, bytes: usize, extents: &[(u32, u32)]) -> [u8; SECTOR] {
    let mut sector = [0; SECTOR];
    put(&mut sector, 20, &4u16.to_le_bytes());
    put(&mut sector, 24, &1u16.to_le_bytes());
    put(&mut sector, 56, &(bytes as u64).to_le_bytes());
    put(&mut sector, 172, &(8 * extents.len() as u32).to_le_bytes());
    for (i, (length, block)) in extents.iter().enumerate() {
        put(&mut sector, 176 + 8 * i, &length.to_le_bytes());
        put(&mut sector, 180 + 8 * i, &block.to_le_bytes());
    }
    let covered = 160 + 8 * extents.len();
    let crc = plain::crc(&sector[16..16 + covered], 0);
    put(&mut sector, 0, &261u16.to_le_bytes());
    put(&mut sector, 2, &2u16.to_le_bytes());
    put(&mut sector, 8, &crc.to_le_bytes());
    put(&mut sector, 10, &(covered as u16).to_le_bytes());
    put(&mut sector, 12, &k.to_le_bytes());
    sector[4] = (0..16).filter(|&i| i != 4).fold(0u8, |sum, i| sum.wrapping_add(sector[i]));
    sector
}

/// The bytes of a VAT file.
fn file(entries: &[u32], previous: u32) -> Vec<u8> {
    let mut bytes: Vec<u8> = entries.iter().flat_map(|e| e.to_le_bytes()).collect();
    bytes.push(0);
    bytes.extend(b"*UDF Virtual Alloc Tbl\0");
    bytes.extend([0; 8]);
    bytes.extend(previous.to_le_bytes());
    bytes
}

#[test]
fn vats_in_many_extents_are_read_alike() {
    let mut draw = Draw(18_672_004);
    let mut maps = vec![0; 70];
    assert_eq!((PLAIN.write_maps)(0, 0, 0, &[], &mut maps), 0);
    let (s, l) = (4u32, 60u32);
    let mut met = [0; 10];
    for case in 0..400 {
        let n = [0, 1, 458, 459, 503, 504, 511, 512, 1000, 4095, 4096, 4097][draw.below(12)];
        let k = 40u32;
        let mut entries: Vec<u32> = (0..n).map(|_| if draw.below(5) == 0 { NONE } else { draw.below(k as usize) as u32 }).collect();
        if n > 0 && draw.below(4) == 0 {
            // an entry that is too high, or just not
            entries[draw.below(n)] = k - 1 + draw.below(2) as u32;
        }
        let previous = if draw.below(8) == 0 { k } else { NONE };
        let bytes = file(&entries, previous);
        let mut disc = vec![0u8; SECTOR * 64];
        let mut marks = vec![0u8; 64];
        marks[s as usize..(s + k) as usize + 1].fill(RECORDED);
        // whole sectors at first, in an order of their own; the last extent has the rest
        let mut blocks: Vec<u32> = (0..k).collect();
        for i in (1..blocks.len()).rev() {
            blocks.swap(i, draw.below(i + 1));
        }
        let mut extents: Vec<(u32, u32)> = Vec::new();
        for (part, &block) in bytes.chunks(SECTOR).zip(&blocks) {
            put(&mut disc, SECTOR * (s + block) as usize, part);
            match extents.last_mut() {
                Some((length, first)) if *first + *length / SECTOR as u32 == block => *length += part.len() as u32,
                _ => extents.push((part.len() as u32, block)),
            }
        }
        if draw.below(6) == 0 {
            extents.push((0, 3));
        }
        put(&mut disc, SECTOR * (s + k) as usize, &icb(k, bytes.len(), &extents));
        let mut tables = [vec![7u32; MOST_ENTRIES], vec![7u32; MOST_ENTRIES]];
        let mut records = [[9u32; 5]; 2];
        let mut answers = [0; 2];
        for (i, layer) in [&PROVED, &PLAIN].into_iter().enumerate() {
            answers[i] = (layer.open)(&disc, &marks, &maps, s, l, &mut tables[i], &mut records[i]);
        }
        assert_eq!(answers[0], answers[1], "case {case}: {n} entries in {extents:?}");
        assert!(tables[0] == tables[1], "case {case}: the tables differ");
        assert_eq!(records[0], records[1], "case {case}");
        let fits = previous == NONE && entries.iter().all(|&e| e == NONE || e < k);
        let expected = if !fits {
            8
        } else if n > MOST_ENTRIES {
            9
        } else {
            0
        };
        assert_eq!(answers[0], expected, "case {case}: {n} entries in {extents:?}");
        if expected == 0 {
            assert!(tables[0][..n] == entries[..], "case {case}: the entries");
        }
        met[expected as usize] += 1;
    }
    assert!(met[0] > 50 && met[8] > 20 && met[9] > 5, "answers of opening: {met:?}");
}

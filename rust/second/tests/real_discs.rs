//! Discs made by other people's tools: which of them open, with which blocks, and which are refused by which line of 01.
//!
//! The images stand in `tests/discs` as their sectors that are not zeros; `tests/discs/README.md` says how each was made.

#[path = "lists/store.rs"]
mod lists;
#[path = "lists/reading.rs"]
mod reading;
#[path = "discs/sectors.rs"]
mod sectors;

use lists::{Call, Kind, Slot, Store, World, CUT, OPEN};
use reading::holds;
use sectors::{unpack, HEAD};
use tuormik::descriptors::{find_space, find_volume, recognized, Counted, Extent, Space};
use tuormik::{calls, marks_by_rule, read_maps, Disc, Error, Held, Maps, Open, Record, Refusal};
use tuormik::{BLANK, DEFECTIVE, MOST_ENTRIES, NONE, PACKET, PACKET_BYTES, RECORDED, SECTOR};
use tuormik_second::layer::{Layer, PLAIN, PROVED};
use tuormik_second::plain;

/// A disc in memory.
#[derive(Clone)]
struct Loaded {
    bytes: Vec<u8>,
    marks: Vec<u8>,
    maps: Vec<u8>,
    start: u32,
    length: u32,
}

impl Loaded {
    /// The image, filled up with blank sectors to S + L, with marks by the rule.
    fn new(file: &[u8]) -> Loaded {
        let mut bytes = unpack(file);
        let volume = find_volume(&bytes).expect("volume descriptors");
        let end = (volume.start + volume.length) as usize;
        let mut marks = marks_by_rule(&bytes);
        if marks.len() < end {
            bytes.resize(SECTOR * end, 0);
            marks.resize(end, BLANK);
        }
        Loaded { bytes, marks, maps: volume.maps, start: volume.start, length: volume.length }
    }

    fn open(&mut self) -> Result<Open<'_>, Error> {
        let plain = self.open_plainly();
        let disc = Disc { bytes: &mut self.bytes, marks: &mut self.marks, maps: &self.maps, start: self.start, length: self.length };
        let opened = disc.open();
        assert_eq!(opened.as_ref().map(|open| open.record()).map_err(|e| *e), plain, "the plain implementation opens it otherwise");
        opened
    }

    fn open_plainly(&self) -> Result<Record, Error> {
        let (mut table, mut record) = ([0; 4096], [0; 5]);
        Error::check(plain::open(&self.bytes, &self.marks, &self.maps, self.start, self.length, &mut table, &mut record))?;
        Ok(Record::from_numbers(record))
    }

    /// Opens the disc and spares the packet that begins at logical block b, by both implementations alike; the table then.
    fn spare(&mut self, b: u32, packet: &[u8]) -> Result<Vec<u32>, Error> {
        let Loaded { mut bytes, mut marks, maps, start: s, length: l } = self.clone();
        let (mut table, mut record) = ([0; 4096], [0; 5]);
        Error::check(plain::open(&bytes, &marks, &maps, s, l, &mut table, &mut record))?;
        let answer = plain::spare_packet(&mut bytes, &mut marks, &maps, s, l, &mut table, &mut record, b, packet, 0, 0);
        let mut open = self.open()?;
        let spared = open.spare_packet(b, packet).map(|()| open.table().to_vec());
        assert_eq!(spared.as_ref().map(|_| ()).map_err(|e| *e), Error::check(answer), "the plain implementation spares it otherwise");
        assert!(self.bytes == bytes && self.marks == marks, "the plain implementation leaves another disc");
        spared
    }

    /// The disc with a table and a record, which are not opened.
    fn world(&self) -> World {
        let Loaded { bytes: disc, marks, maps, start: s, length: l } = self.clone();
        World { disc, marks, maps, s, l, table: vec![0; MOST_ENTRIES], record: [0; 5] }
    }

    fn sector(&self, at: u32) -> &[u8] {
        &self.bytes[SECTOR * at as usize..][..SECTOR]
    }

    fn sector_mut(&mut self, at: u32) -> &mut [u8] {
        &mut self.bytes[SECTOR * at as usize..][..SECTOR]
    }

    /// Filled up with blank sectors.
    fn fill_up(&mut self, sectors: usize) {
        self.bytes.resize(SECTOR * sectors, 0);
        self.marks.resize(sectors, BLANK);
    }
}

fn u16_at(b: &[u8], at: usize) -> u16 {
    u16::from_le_bytes([b[at], b[at + 1]])
}

fn u32_at(b: &[u8], at: usize) -> u32 {
    u32::from_le_bytes([b[at], b[at + 1], b[at + 2], b[at + 3]])
}

/// The identifier of the descriptor in a block, whose tag says that it is virtual block v.
fn descriptor_of(block: &[u8], v: u32) -> u16 {
    let sum = block[..16].iter().fold(0u8, |sum, &b| sum.wrapping_add(b)).wrapping_sub(block[4]);
    assert_eq!(sum, block[4], "the checksum of block {v}");
    let covered = usize::from(u16_at(block, 10));
    assert_eq!(plain::crc(&block[16..16 + covered], 0), u16_at(block, 8), "the CRC of block {v}");
    assert_eq!(u32_at(block, 12), v, "the location in the tag of block {v}");
    u16_at(block, 0)
}

const FILE_SET: u16 = 256;
const FILE_ENTRY: u16 = 261;

/// A write-once disc opens with this record, and every block is a descriptor that says so itself.
fn opens_once(file: &[u8], span: (u32, u32), entries: u32, last: u32) {
    let mut loaded = Loaded::new(file);
    assert_eq!((loaded.start, loaded.length), span);
    assert!(matches!(read_maps(&loaded.maps), Ok(Maps::WriteOnce { .. })));
    let open = loaded.open().expect("it opens");
    assert_eq!(open.record(), Record { held: Held::WriteOnce { entries, next: last + 1, last }, passed_over: 0 });
    for v in 0..entries {
        let identifier = descriptor_of(&open.read(v).expect("a block"), v);
        assert_eq!(identifier, if v == 0 { FILE_SET } else { FILE_ENTRY });
    }
    assert_eq!(open.read(entries), Err(Error::Refused(Refusal::NumberOutside)));
}

#[test]
fn cdr_150_512_opens() {
    opens_once(include_bytes!("discs/real-cdr-1.50-512.sectors"), (257, 255), 2, 42);
}

#[test]
fn cdr_150_4096_opens() {
    opens_once(include_bytes!("discs/real-cdr-1.50-4096.sectors"), (257, 3839), 2, 42);
}

#[test]
fn closed_cdr_150_4096_opens() {
    opens_once(include_bytes!("discs/real-cdr-1.50-4096-closed.sectors"), (258, 3838), 2, 255);
}

const WRUDF: &[u8] = include_bytes!("discs/real-wrudf-mid.sectors");

#[test]
fn wrudf_opens() {
    opens_once(WRUDF, (513, 15_871), 254, 2216);
}

/// The newest VAT of the disc that wrudf wrote: its file is embedded.
const NEWEST: u32 = 2216;

/// wrudf records the sector of the previous ICB, S + 42 = 555, where 01 wants its logical block, 42. It is below k here and passes.
#[test]
fn wrudf_records_a_sector_as_the_previous_icb() {
    let loaded = Loaded::new(WRUDF);
    let at = SECTOR * (loaded.start + NEWEST) as usize;
    let icb = &loaded.bytes[at..at + SECTOR];
    let length = u32_at(icb, 56) as usize;
    assert_eq!(u32_at(icb, 176 + length - 4), 555);
    // the table in the file is the one that is opened, by the other way too
    let mut result = [0];
    assert_eq!(calls::look_up(&icb[176..176 + length], 1, &mut result), 0);
    assert_eq!(result, [2215]);
}

/// Where that number is not below k, the newest VAT is passed over and the one before is opened.
#[test]
fn a_previous_icb_not_below_k_is_passed_over() {
    let mut loaded = Loaded::new(WRUDF);
    let at = SECTOR * (loaded.start + NEWEST) as usize;
    let icb = &mut loaded.bytes[at..at + SECTOR];
    let end = 176 + u32_at(icb, 56) as usize;
    icb[end - 4..end].copy_from_slice(&NEWEST.to_le_bytes());
    let crc = plain::crc(&icb[16..16 + usize::from(u16_at(icb, 10))], 0);
    icb[8..10].copy_from_slice(&crc.to_le_bytes());
    icb[4] = 0;
    icb[4] = icb[..16].iter().fold(0u8, |sum, &b| sum.wrapping_add(b));
    let open = loaded.open().expect("it opens");
    let held = Held::WriteOnce { entries: 2, next: NEWEST + 1, last: 42 };
    assert_eq!(open.record(), Record { held, passed_over: NEWEST - 42 });
}

/// UDF 2.01 has its VAT in an Extended File Entry (tag 266, version 3) of file type 248: line 8.
#[test]
fn cdr_201_is_refused() {
    let mut loaded = Loaded::new(include_bytes!("discs/real-cdr-2.01-4096.sectors"));
    let icb = &loaded.bytes[SECTOR * 299..SECTOR * 300];
    assert_eq!((u16_at(icb, 0), u16_at(icb, 2), icb[27]), (266, 3, 248));
    assert_eq!(loaded.open().err(), Some(Error::Refused(Refusal::NoTable)));
    let words = "a volume of UDF 2.00 or later: so is its VAT, whose ICB is at sector 299";
    assert_eq!(recognized(&loaded.bytes).as_deref(), Some(words));
}

/// No disc of this format is taken for another one.
#[test]
fn discs_of_the_format_are_not_recognized_as_others() {
    for file in [
        include_bytes!("discs/real-cdr-1.50-512.sectors").as_slice(),
        include_bytes!("discs/real-cdr-1.50-4096.sectors"),
        include_bytes!("discs/real-cdr-1.50-4096-closed.sectors"),
        include_bytes!("discs/real-wrudf-mid.sectors"),
        include_bytes!("discs/real-cdrw-1.50-1000-R3.sectors"),
        TAB2,
    ] {
        assert_eq!(recognized(&unpack(file)), None);
    }
}

// ---- rewritable discs

const TAB2: &[u8] = include_bytes!("discs/real-cdrw-1.50-2048-tab2.sectors");
const TAB2_TABLES: [u32; 2] = [160, 2016];

/// UDF 1.50 and mkudffs name the sparing table *UDF Sparing Table, 004 *OSTA UDF Sparing Table.
const NEWER: &[u8; 24] = b"\0*UDF Sparing Table\0\0\0\0\0";
const OLDER: &[u8; 24] = b"\0*OSTA UDF Sparing Table";

fn free_spares(mapped: impl Iterator<Item = u32>) -> Vec<u32> {
    mapped.flat_map(|m| [NONE, m]).collect()
}

/// A reader of sparable partitions that goes by the identifier and the layout which mkudffs writes, and shares nothing with either
/// implementation. It takes one table as it stands, with no look at the other copies, the sequence or the tag before the table, and asks for its identifier.
struct Foreign<'a> {
    loaded: &'a Loaded,
    packet: u32,
    /// original and mapped location
    entries: Vec<(u32, u32)>,
}

impl Foreign<'_> {
    /// By table i of the sparable partition map.
    fn new(loaded: &Loaded, i: usize) -> Foreign<'_> {
        let map = &loaded.maps;
        assert_eq!((map[0], map[1], &map[5..28]), (2, 64, &b"*UDF Sparable Partition"[..]));
        let (packet, tables) = (u32::from(u16_at(map, 40)), usize::from(map[42]));
        assert!(i < tables, "the map has no table {i}");
        let table = loaded.sector(u32_at(map, 48 + 4 * i));
        assert_eq!((u16_at(table, 0), &table[17..35]), (0, &b"*UDF Sparing Table"[..]), "no sparing table");
        let entries = table[56..].chunks_exact(8).take(usize::from(u16_at(table, 48)));
        Foreign { loaded, packet, entries: entries.map(|entry| (u32_at(entry, 0), u32_at(entry, 4))).collect() }
    }

    /// A logical block: at its packet's mapped location, or in the partition.
    fn block(&self, b: u32) -> &[u8] {
        let first = b / self.packet * self.packet;
        let mapped = self.entries.iter().filter(|entry| entry.0 == first).map(|entry| entry.1).next();
        self.loaded.sector(mapped.unwrap_or(self.loaded.start + first) + b % self.packet)
    }

    /// Whether a logical block lies in a packet that an entry has as its mapped location.
    fn is_of_spare(&self, b: u32) -> bool {
        let packet = self.loaded.start + b / self.packet * self.packet;
        self.entries.iter().any(|entry| entry.1 == packet)
    }
}

const OF_SPARE: Error = Error::Refused(Refusal::BelongsToSpare);

/// Every block of the partition reads as through the foreign reader, by whichever of the tables it goes, and with the plain implementation
/// too; but for blocks of spares, which give 30. How many these are.
fn reads_as_foreign(loaded: &mut Loaded) -> usize {
    let (as_it_is, mut world) = (loaded.clone(), loaded.world());
    let foreign: Vec<Foreign> = (0..usize::from(as_it_is.maps[42])).map(|i| Foreign::new(&as_it_is, i)).collect();
    let open = loaded.open().expect("it opens");
    world.open(&PLAIN);
    let mut of_spares = 0;
    for b in 0..as_it_is.length {
        let read = open.read(b).map(Vec::from);
        let plain = world.read(&PLAIN, b).or_else(|line| Error::check(line).map(|()| Vec::new()));
        assert!(plain == read, "the plain implementation reads block {b} otherwise");
        let of_spare = read == Err(OF_SPARE);
        let is_alike = |reader: &Foreign| reader.is_of_spare(b) == of_spare && (of_spare || read.as_deref() == Ok(reader.block(b)));
        assert!(foreign.iter().all(is_alike), "block {b} reads otherwise");
        of_spares += usize::from(of_spare);
    }
    assert_eq!(open.read(as_it_is.length), Err(Error::Refused(Refusal::NumberOutside)));
    of_spares
}

/// The packet of a logical block as it reads.
fn packet_of(loaded: &mut Loaded, first: u32) -> Vec<u8> {
    let open = loaded.open().expect("it opens");
    (first..first + PACKET as u32).flat_map(|b| open.read(b).expect("a block")).collect()
}

/// The disc opens with this record and table.
fn opens_with(loaded: &mut Loaded, sequence: u32, table: &[u32]) {
    let open = loaded.open().expect("it opens");
    assert_eq!(open.record(), Record { held: Held::Rewritable { entries: table.len() as u32 / 2, sequence }, passed_over: 0 });
    assert_eq!(open.table(), table);
}

/// It opens as it stands, and the File Set Descriptor, block 32, says so itself.
#[test]
fn cdrw_2048_opens() {
    let mut loaded = Loaded::new(TAB2);
    assert_eq!((loaded.start, loaded.length), (544, 1440));
    let maps = read_maps(&loaded.maps);
    assert_eq!(maps, Ok(Maps::Rewritable { partition: 0, table_bytes: 120, tables: TAB2_TABLES.to_vec() }));
    for t in TAB2_TABLES {
        let table = loaded.sector(t);
        assert_eq!(&table[16..40], NEWER);
        // the suffix, which is ignored, and the tag, of which 01 asks for the identifier only
        assert_eq!(table[40..48], [0x50, 1, 4, 5, 0, 0, 0, 0]);
        assert_eq!((descriptor_of(table, t), u16_at(table, 2)), (0, 2));
    }
    opens_with(&mut loaded, 0, &free_spares((288..544).step_by(32)));
    assert_eq!(descriptor_of(&loaded.open().expect("it opens").read(32).expect("a block"), 32), FILE_SET);
    assert_eq!(reads_as_foreign(&mut loaded), 0, "no spare is in the partition");
}

/// Block 32's packet is spared twice: the first spare turns defective. That reader finds every block after either.
#[test]
fn cdrw_2048_is_spared_twice() {
    is_spared_twice(Loaded::new(TAB2), 32, 0);
}

/// The packet of the File Set Descriptor, which begins at a block, is spared twice and then as often as spares are left. So many blocks
/// belong to spares throughout.
fn is_spared_twice(mut loaded: Loaded, first: u32, of_spares: usize) {
    let mut packet = packet_of(&mut loaded, first);
    let rest = free_spares((352..544).step_by(32));
    let expected = [[&[first, 288, NONE, 320][..], &rest].concat(), [&[first, 320, DEFECTIVE, 288][..], &rest].concat()];
    for (sequence, table) in [1, 2].into_iter().zip(expected) {
        packet[SECTOR..2 * SECTOR].fill(sequence as u8);
        assert_eq!(loaded.spare(first, &packet), Ok(table.clone()));
        opens_with(&mut loaded, sequence, &table);
        for t in TAB2_TABLES {
            let copy = loaded.sector(t);
            assert_eq!((&copy[..16], &copy[16..40], &copy[40..48]), (&[0; 16][..], &NEWER[..], &[0; 8][..]), "table at {t}");
            assert_eq!((u16_at(copy, 48), u32_at(copy, 52)), (8, sequence), "table at {t}");
        }
        assert_eq!(reads_as_foreign(&mut loaded), of_spares);
        assert!(packet_of(&mut loaded, first) == packet);
        assert_eq!(descriptor_of(&loaded.open().expect("it opens").read(first).expect("a block"), 32), FILE_SET);
    }
    // the other six go the same way, and then no spare is left
    for spare in (352..544).step_by(32) {
        let table = loaded.spare(first, &packet).expect("a spare is free");
        assert_eq!(table[..2], [first, spare]);
    }
    opens_with(
        &mut loaded,
        8,
        &[
            [first, 512],
            [DEFECTIVE, 288],
            [DEFECTIVE, 320],
            [DEFECTIVE, 352],
            [DEFECTIVE, 384],
            [DEFECTIVE, 416],
            [DEFECTIVE, 448],
            [DEFECTIVE, 480],
        ]
        .concat(),
    );
    assert_eq!(reads_as_foreign(&mut loaded), of_spares);
    assert_eq!(loaded.spare(first, &packet), Err(Error::Refused(Refusal::NoSpare)));
}

/// The second table's packet, sectors 992 to 1,023, is not whole on a disc of 1,000: line 6. On a disc of 1,024 it opens.
#[test]
fn cdrw_1000_is_refused_by_its_last_packet() {
    let mut loaded = Loaded::new(include_bytes!("discs/real-cdrw-1.50-1000-R3.sectors"));
    assert_eq!((loaded.start, loaded.length, loaded.marks.len()), (384, 576, 1000));
    assert_eq!(loaded.open().err(), Some(Error::Refused(Refusal::Misaligned)));
    loaded.fill_up(1024);
    opens_with(&mut loaded, 0, &free_spares((288..384).step_by(32)));
    assert_eq!(reads_as_foreign(&mut loaded), 0, "no spare is in the partition");
}

// ---- the space bitmaps of the rewritable discs

/// The sectors of the partition descriptor and of the logical volume integrity descriptor on both discs.
const PARTITION: u32 = 98;
const INTEGRITY: u32 = 128;

/// The space bitmap as it is read, a block that mkudffs put at the partition's beginning: the two descriptors say where it is and how many
/// blocks are free. Its tag's CRC covers the two numbers of its head, and none of its bits.
fn bitmap_of(loaded: &mut Loaded, free: u32) -> Vec<u8> {
    let (partition, integrity) = (loaded.sector(PARTITION), loaded.sector(INTEGRITY));
    assert_eq!((u16_at(partition, 0), &partition[25..31], u16_at(integrity, 0)), (5, &b"+NSR02"[..], 9));
    assert_eq!([64, 68].map(|at| u32_at(partition, at)), [2048, 0]);
    assert_eq!([80, 84].map(|at| u32_at(integrity, at)), [free, loaded.length]);
    let counted = Some(Counted { sector: INTEGRITY as usize, free });
    assert_eq!(find_space(&loaded.bytes), Ok(Space { bitmap: Some(Extent { length: 2048, block: 0 }), counted }));
    let length = loaded.length;
    let bitmap = loaded.open().expect("it opens").read(0).expect("a block").to_vec();
    assert_eq!([0, 10].map(|at| u16_at(&bitmap, at)), [264, 8]);
    assert_eq!([16, 20].map(|at| u32_at(&bitmap, at)), [length, length / 8]);
    bitmap
}

/// The run of so many blocks in these rows, each with its first and its last block, whose first block is nearest to a block.
fn nearest(rows: &[(u32, u32)], wanted: u32, near: u32) -> Option<u32> {
    let long = rows.iter().filter(|(first, last)| last - first + 1 >= wanted);
    long.map(|&(first, last)| near.clamp(first, last + 1 - wanted)).min_by_key(|first| (first.abs_diff(near), *first))
}

/// Both implementations count what the integrity descriptor says, find the runs that the rows have, and restore every byte by giving back
/// what they took.
fn is_free_in_rows(loaded: &mut Loaded, free: u32, rows: &[(u32, u32)]) {
    let bitmap = bitmap_of(loaded, free);
    let l = loaded.length;
    let is_free = |b: u32| bitmap[24 + b as usize / 8] >> (b % 8) & 1 == 1;
    assert!((0..l).all(|b| is_free(b) == rows.iter().any(|(first, last)| (*first..=*last).contains(&b))));
    let longest = rows.iter().map(|(first, last)| last - first + 1).max().expect("a row");
    for layer in [&PLAIN, &PROVED] {
        let mut result = [0];
        assert_eq!(((layer.bitmap_count)(&bitmap, l, &mut result), result), (0, [free]), "{}", layer.name);
        for wanted in [1, 2, 30, 31, 32, 33, 64, longest - 1, longest, longest + 1, l] {
            for near in 0..l {
                let mut result = [0];
                let answer = (layer.bitmap_find)(&bitmap, l, wanted, near, &mut result);
                let found = (answer == 0).then_some(result[0]);
                assert_eq!(found, nearest(rows, wanted, near), "{}: {wanted} near {near}", layer.name);
                assert!(answer == 0 || answer == 33, "{}: {wanted} near {near} gives {answer}", layer.name);
            }
        }
        for &(first, last) in rows {
            for (first, count) in [(first, 1), (first, last - first + 1), (last, 1), (first + 7, 17)] {
                let mut changed = bitmap.clone();
                assert_eq!((layer.bitmap_take)(&mut changed, l, first, count), 0, "{}", layer.name);
                assert_eq!((layer.bitmap_take)(&mut changed, l, first, count), 32, "{}", layer.name);
                assert_eq!(((layer.bitmap_count)(&changed, l, &mut result), result), (0, [free - count]), "{}", layer.name);
                assert_eq!((layer.bitmap_give_back)(&mut changed, l, first, count), 0, "{}", layer.name);
                assert!(changed == bitmap, "{}: {count} from {first} on", layer.name);
            }
        }
    }
}

#[test]
fn cdrw_2048_has_its_free_blocks_in_four_rows() {
    let rows = [(1, 31), (33, 63), (65, 95), (97, 1439)];
    is_free_in_rows(&mut Loaded::new(TAB2), 1436, &rows);
    let found = [(32, 0), (1, 64), (1343, 0), (1344, 0)].map(|(wanted, near)| nearest(&rows, wanted, near));
    assert_eq!(found, [Some(97), Some(63), Some(97), None]);
}

#[test]
fn cdrw_1000_has_its_free_blocks_in_four_rows() {
    let mut loaded = Loaded::new(include_bytes!("discs/real-cdrw-1.50-1000-R3.sectors"));
    loaded.fill_up(1024);
    let rows = [(1, 31), (33, 63), (65, 95), (97, 575)];
    is_free_in_rows(&mut loaded, 572, &rows);
    assert_eq!([nearest(&rows, 479, 575), nearest(&rows, 480, 575)], [Some(97), None]);
}

// ---- lists on a disc with spares outside its partition, and on one with spares in it

/// The cuts of a call of so many writes: none, at its first and last, at the last of the packet and at the first after it.
fn cuts(writes: u32) -> impl Iterator<Item = (u32, u32)> {
    let at = [1, 32, 33, writes].into_iter().filter(move |&at| at <= writes);
    std::iter::once((0, 0)).chain(at.flat_map(|at| [0, 1, 2].map(|effect| (at, effect))))
}

/// What a call answers and leaves: blocks of spares give 30 in every call, and after it every block reads as the plain store has it.
fn call_holds(layer: &Layer, world: &mut World, store: &mut Store, call: &Call) {
    let (opened, replies) = world.run(layer, std::slice::from_ref(call));
    let of_spare = store.blocks.get(call.number as usize) == Some(&Slot::OfSpare);
    let (reply, is_cut) = (replies[0], replies[0] == CUT);
    assert_eq!(opened, 0, "{}", layer.name);
    match call.kind {
        Kind::SaveVirtual | Kind::FreeVirtual | Kind::Commit => assert_eq!(reply, 7, "{}: {:?}", layer.name, call.kind),
        _ if call.number >= world.l => assert_eq!(reply, 12, "{}: {:?} {}", layer.name, call.kind, call.number),
        _ => assert_eq!(reply == 30, of_spare, "{}: {:?} {}", layer.name, call.kind, call.number),
    }
    if reply == 0 || is_cut {
        store.take(call, is_cut);
    }
    if is_cut {
        world.open(layer);
        store.take(&OPEN, false);
    }
    holds(layer, world, store, 0..store.blocks.len()).unwrap_or_else(|what| panic!("{}: {what}, after {:?}", layer.name, call.kind));
}

/// Saves and sparings of some packets with cuts, one after the other, by both implementations; they leave the same disc.
fn lists_hold(loaded: &Loaded, packets: &[u32]) {
    let worlds = [&PLAIN, &PROVED].map(|layer| {
        let mut world = loaded.world();
        world.open(layer);
        let mut store = Store::of(&world);
        for (kind, number) in [(Kind::SaveVirtual, 0), (Kind::FreeVirtual, 0), (Kind::Commit, 0), (Kind::SaveBlock, world.l)] {
            call_holds(layer, &mut world, &mut store, &Call::new(kind, number, vec![1; SECTOR]));
        }
        for &p in packets {
            for (kind, number, length, writes) in [
                (Kind::SparePacket, p, PACKET_BYTES, 34),
                (Kind::SaveBlock, p + 3, SECTOR, 32),
                (Kind::SavePacket, p, PACKET_BYTES, 32),
                (Kind::SaveBlock, p + 31, SECTOR, 32),
            ] {
                for (cut_at, cut_effect) in cuts(writes) {
                    let bytes = vec![(p + cut_at) as u8; length];
                    let call = Call { cut_at, cut_effect, ..Call::new(kind, number, bytes) };
                    call_holds(layer, &mut world, &mut store, &call);
                }
            }
        }
        world
    });
    assert!(worlds[0] == worlds[1], "the two leave different discs");
}

#[test]
fn cdrw_2048_in_lists() {
    lists_hold(&Loaded::new(TAB2), &[0, 32, 1408]);
}

/// The image of two tables, given another S and L: from its first spare on, so that its eight spares are the first packets of the partition.
/// What was block b is block b + 256.
fn with_spares_inside() -> Loaded {
    let mut loaded = Loaded::new(TAB2);
    (loaded.start, loaded.length) = (288, 1696);
    loaded
}

/// It opens with the table that it has. Blocks 0 to 255 give 30, every other block is its sector; block 288 is the File Set Descriptor.
#[test]
fn spares_inside_are_opened() {
    let mut loaded = with_spares_inside();
    opens_with(&mut loaded, 0, &free_spares((288..544).step_by(32)));
    assert_eq!(reads_as_foreign(&mut loaded), 256);
    let (as_it_is, mut outside) = (loaded.clone(), Loaded::new(TAB2));
    let (open, outside) = (loaded.open().expect("it opens"), outside.open().expect("it opens"));
    for b in 0..1696 {
        match open.read(b) {
            Ok(block) => assert!(b >= 256 && block == as_it_is.sector(288 + b) && outside.read(b - 256) == Ok(block), "block {b}"),
            refused => assert!(b < 256 && refused == Err(OF_SPARE), "block {b}"),
        }
    }
    assert_eq!(descriptor_of(&open.read(288).expect("a block"), 32), FILE_SET);
}

#[test]
fn spares_inside_are_used_and_turn_defective() {
    is_spared_twice(with_spares_inside(), 288, 256);
}

/// Among the packets there are two of spares, the first and the last of them.
#[test]
fn spares_inside_in_lists() {
    lists_hold(&with_spares_inside(), &[0, 224, 256, 288, 1664]);
}

// ---- what is derived here from an image: no tool made these

/// The disc of two tables with other ones, each with a copy of the table that it has, and other entries and bytes of each table.
fn derived(tables: &[u32], table_bytes: u32, entries: &[u32]) -> Loaded {
    let mut loaded = Loaded::new(TAB2);
    let reach = entries.chunks_exact(2).map(|entry| entry[1]).chain(tables.iter().copied()).max().unwrap_or(0) as usize + PACKET;
    loaded.fill_up(reach.max(loaded.marks.len()));
    loaded.maps[42] = tables.len() as u8;
    loaded.maps[44..48].copy_from_slice(&table_bytes.to_le_bytes());
    for (to, t) in loaded.maps[48..].chunks_exact_mut(4).zip(tables) {
        to.copy_from_slice(&t.to_le_bytes());
    }
    let mut table = loaded.sector(TAB2_TABLES[0]).to_vec();
    table[48..50].copy_from_slice(&(entries.len() as u16 / 2).to_le_bytes());
    table[56..].fill(0);
    for (to, n) in table[56..].chunks_exact_mut(4).zip(entries) {
        to.copy_from_slice(&n.to_le_bytes());
    }
    for &t in tables {
        loaded.sector_mut(t).copy_from_slice(&table);
        loaded.marks[t as usize] = RECORDED;
    }
    loaded
}

/// So many free spares: the image's eight, and then whole packets behind its last sector.
fn spares(count: u32) -> Vec<u32> {
    free_spares((288..544).step_by(32).chain((2048..).step_by(32)).take(count as usize))
}

static PACKET_OF_FIVES: [u8; PACKET_BYTES] = [5; PACKET_BYTES];

/// R of 0, 32 and 249, the most that 2,048 bytes hold. A table of 250 entries is longer than a sector, and its map is of neither kind.
#[test]
fn derived_with_other_numbers_of_entries() {
    for (count, table_bytes) in [(0, 56), (0, 120), (32, 312), (249, 2048)] {
        let mut loaded = derived(&TAB2_TABLES, table_bytes, &spares(count));
        opens_with(&mut loaded, 0, &spares(count));
        reads_as_foreign(&mut loaded);
        if count == 0 {
            assert_eq!(loaded.spare(32, &PACKET_OF_FIVES), Err(Error::Refused(Refusal::NoSpare)));
            continue;
        }
        for (sequence, first) in [(1, [32, 288, NONE, 320]), (2, [32, 320, DEFECTIVE, 288])] {
            let table = [&first, &spares(count)[4..]].concat();
            assert_eq!(loaded.spare(32, &PACKET_OF_FIVES), Ok(table.clone()));
            opens_with(&mut loaded, sequence, &table);
            reads_as_foreign(&mut loaded);
        }
    }
    // one entry more than the bytes of each table hold, in the table or in the map
    assert_eq!(derived(&TAB2_TABLES, 312, &spares(33)).open().err(), Some(Error::Refused(Refusal::NoTable)));
    let mut too_long = derived(&TAB2_TABLES, 2056, &spares(249));
    assert_eq!(read_maps(&too_long.maps), Err(Error::Refused(Refusal::NeitherKind)));
    assert_eq!(too_long.open().err(), Some(Error::Refused(Refusal::NeitherKind)));
}

/// With one table a disc opens, and no packet of it is spared; with four all copies are written.
#[test]
fn derived_with_one_table_and_with_four() {
    let mut one = derived(&TAB2_TABLES[..1], 120, &spares(8));
    opens_with(&mut one, 0, &spares(8));
    reads_as_foreign(&mut one);
    assert_eq!(one.spare(32, &PACKET_OF_FIVES), Err(Error::Refused(Refusal::OneTable)));
    let tables = [160, 2016, 2048, 2080];
    let mut four = derived(&tables, 120, &spares(8));
    opens_with(&mut four, 0, &spares(8));
    reads_as_foreign(&mut four);
    for (sequence, first) in [(1, [32, 288, NONE, 320]), (2, [32, 320, DEFECTIVE, 288])] {
        let table = [&first, &spares(8)[4..]].concat();
        assert_eq!(four.spare(32, &PACKET_OF_FIVES), Ok(table.clone()));
        opens_with(&mut four, sequence, &table);
        reads_as_foreign(&mut four);
        assert!(tables.iter().all(|&t| four.sector(t) == four.sector(160)));
    }
}

/// Under 004's identifier the image opens the same, in one copy or in both; with a defective spare such a copy does not count.
#[test]
fn derived_with_the_older_identifier() {
    let defective = [&[DEFECTIVE, 288], &spares(8)[2..]].concat();
    for older in [&TAB2_TABLES[..1], &TAB2_TABLES[1..], &TAB2_TABLES] {
        let with_older = |entries: &[u32]| {
            let mut loaded = derived(&TAB2_TABLES, 120, entries);
            older.iter().for_each(|&t| loaded.sector_mut(t)[16..40].copy_from_slice(OLDER));
            loaded
        };
        let mut loaded = with_older(&spares(8));
        opens_with(&mut loaded, 0, &spares(8));
        assert_eq!(descriptor_of(&loaded.open().expect("it opens").read(32).expect("a block"), 32), FILE_SET);
        // a sparing renews both
        loaded.spare(32, &PACKET_OF_FIVES).expect("a spare is free");
        assert!(TAB2_TABLES.iter().all(|&t| loaded.sector(t)[16..40] == *NEWER));
        reads_as_foreign(&mut loaded);
        let mut marked = with_older(&defective);
        if older.len() == 2 {
            assert_eq!(marked.open().err(), Some(Error::Refused(Refusal::NoTable)));
        } else {
            opens_with(&mut marked, 0, &defective);
        }
    }
    let mut newer = derived(&TAB2_TABLES, 120, &defective);
    opens_with(&mut newer, 0, &defective);
    reads_as_foreign(&mut newer);
}

fn put_number(bytes: &mut Vec<u8>, mut number: usize) {
    while number > 127 {
        bytes.push(number as u8 & 127 | 128);
        number >>= 7;
    }
    bytes.push(number as u8);
}

/// The runs of a sector that differ from another.
fn runs(sector: &[u8], from: &[u8]) -> Vec<u8> {
    const SAME: usize = 3;
    let differs = |at: usize| sector[at] != from[at];
    let (mut bytes, mut count, mut end) = (Vec::new(), 0, 0);
    while let Some(at) = (end..SECTOR).find(|&at| differs(at)) {
        let stays = |at: &usize| !(*at..(at + SAME).min(SECTOR)).any(differs);
        let after = (at..SECTOR).find(stays).unwrap_or(SECTOR);
        put_number(&mut bytes, at - end);
        put_number(&mut bytes, after - at);
        bytes.extend_from_slice(&sector[at..after]);
        (count, end) = (count + 1, after);
    }
    let mut counted = Vec::new();
    put_number(&mut counted, count);
    counted.extend_from_slice(&bytes);
    counted
}

/// The file of the sectors of an image that are to be kept.
fn pack(image: &[u8], is_kept: impl Fn(usize) -> bool) -> Vec<u8> {
    const MOST_BACK: usize = 127;
    let mut file = HEAD.to_vec();
    put_number(&mut file, image.len() / SECTOR);
    let mut told: Vec<&[u8]> = vec![&[0; SECTOR]];
    let mut last = 0;
    for (at, sector) in image.chunks_exact(SECTOR).enumerate() {
        if sector.iter().all(|&b| b == 0) || !is_kept(at) {
            continue;
        }
        let ways = told.iter().rev().take(MOST_BACK).enumerate().map(|(back, from)| (back + 1, runs(sector, from)));
        let (back, runs) = ways.min_by_key(|(_, runs)| runs.len()).expect("a sector before");
        put_number(&mut file, at - last);
        put_number(&mut file, back);
        file.extend_from_slice(&runs);
        told.push(sector);
        last = at;
    }
    file
}

#[test]
fn what_is_packed_is_unpacked() {
    for file in [WRUDF, include_bytes!("discs/real-cdrw-1.50-1000-R3.sectors")] {
        let image = unpack(file);
        assert_eq!(unpack(&pack(&image, |_| true)), image);
        assert_eq!(pack(&image, |_| true), file);
    }
}

/// Makes a file of `tests/discs`: `TUORMIK_IMAGE=FROM TUORMIK_SECTORS=TO cargo test pack_an_image -- --ignored`. With `TUORMIK_BLOCKS=1` it
/// keeps, inside the partition, only VAT ICBs and the blocks that the newest VAT names.
#[test]
#[ignore = "makes a file of tests/discs"]
fn pack_an_image() {
    let path = |name| std::env::var_os(name).expect("TUORMIK_IMAGE and TUORMIK_SECTORS name files");
    let image = std::fs::read(path("TUORMIK_IMAGE")).expect("an image");
    let mut kept = None;
    if std::env::var_os("TUORMIK_BLOCKS").is_some() {
        let mut loaded = Loaded::new(&pack(&image, |_| true));
        let start = loaded.start as usize;
        let table = loaded.open().expect("it opens").table().to_vec();
        let mut sectors: Vec<usize> = table.iter().map(|&e| start + e as usize).collect();
        while let Ok(open) = loaded.open() {
            let Held::WriteOnce { last, .. } = open.record().held else { break };
            sectors.push(start + last as usize);
            loaded.length = last;
        }
        kept = Some((start, sectors));
    }
    let is_kept = |at| kept.as_ref().is_none_or(|(start, sectors)| at < *start || sectors.contains(&at));
    std::fs::write(path("TUORMIK_SECTORS"), pack(&image, is_kept)).expect("a file of sectors");
}

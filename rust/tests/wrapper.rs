//! The safe wrapper: records, cuts, refusals, lists of calls, the CRC, the space bitmap.

use tuormik::{
    crc, crc_by_bytes, crc_by_words, crc_word, look_up, read_maps, write_maps, Bitmap, BitmapRef, Call, Cut, Disc, DiscRef, Effect, Error,
    Forecast, Held, Maps, Open, Record, Refusal, BLANK, COMMIT, DEFECTIVE, NONE, PACKET_BYTES, SECTOR, UNREADABLE,
};

struct Memory {
    bytes: Vec<u8>,
    marks: Vec<u8>,
    maps: Vec<u8>,
    start: u32,
    length: u32,
}

impl Memory {
    fn new(sectors: usize, start: u32, length: u32, maps: &Maps, spares: &[u32]) -> Memory {
        let maps = write_maps(maps).expect("a map list");
        let mut memory = Memory { bytes: vec![0; SECTOR * sectors], marks: vec![BLANK; sectors], maps, start, length };
        memory.disc().make(spares).expect("a disc");
        memory
    }

    fn once() -> Memory {
        Memory::new(60, 5, 50, &Maps::WriteOnce { partition: 1 }, &[])
    }

    fn rewritable() -> Memory {
        let maps = Maps::Rewritable { partition: 1, table_bytes: 2048, tables: vec![0, 32] };
        Memory::new(224, 96, 64, &maps, &[64, 192])
    }

    fn disc(&mut self) -> Disc<'_> {
        Disc { bytes: &mut self.bytes, marks: &mut self.marks, maps: &self.maps, start: self.start, length: self.length }
    }
}

const fn refused(why: Refusal) -> Error {
    Error::Refused(why)
}

fn once(entries: u32, next: u32, last: u32, passed_over: u32) -> Record {
    Record { held: Held::WriteOnce { entries, next, last }, passed_over }
}

#[test]
fn a_write_once_disc() {
    let mut memory = Memory::once();
    let mut open = memory.disc().open().expect("it opens");
    assert_eq!(open.record(), once(0, 1, 0, 0));
    assert_eq!(open.save_virtual(0, &[1; SECTOR]), Ok(()));
    assert_eq!(open.save_virtual(1, &[2; SECTOR]), Ok(()));
    assert_eq!(open.save_virtual(3, &[2; SECTOR]), Err(refused(Refusal::NumberOutside)));
    assert_eq!(open.save_virtual(2, &[2; 7]), Err(Error::Length { what: "block", has: 7, needs: SECTOR }));
    assert_eq!(open.free_virtual(0), Ok(()));
    assert_eq!(open.table(), [NONE, 2]);
    assert_eq!(open.read(0), Err(refused(Refusal::UnusedEntry)));
    assert_eq!(open.commit(), Ok(()));
    assert_eq!(open.record(), once(2, 4, 3, 0));
    assert_eq!(open.fullness(), Ok(80));
    assert_eq!(open.spare_packet(0, &[0; PACKET_BYTES]), Err(refused(Refusal::OtherKind)));
    assert_eq!(open.save_packet(0, &[0; PACKET_BYTES]), Err(refused(Refusal::OtherKind)));
    assert_eq!(open.save_block(0, &[0; SECTOR]), Err(refused(Refusal::OtherKind)));
    assert_eq!(open.record(), once(2, 4, 3, 0));
}

/// Numbers of the C interface go through a record as they are.
#[test]
fn a_record_of_any_numbers() {
    let each = [0, 1, 2, 3, 255, u32::MAX];
    for kind in each {
        for count in each {
            for next in each {
                for last in each {
                    let numbers = [kind, count, next, last, 9];
                    assert_eq!(Record::from_numbers(numbers).numbers(), numbers);
                }
            }
        }
    }
}

const NEITHER_KIND: [u32; 4] = [2, 3, 256, u32::MAX];

/// A disc as it is open, but for a record of another kind.
fn of_kind(disc: Disc, kind: u32) -> Open {
    let open = disc.open().expect("it opens");
    let mut numbers = open.record().numbers();
    numbers[0] = kind;
    let table = open.table().to_vec();
    Open::resume(open.close(), &table, Record::from_numbers(numbers))
}

/// A record of neither kind goes with no disc, whatever else it has.
#[test]
fn a_record_of_neither_kind_on_a_write_once_disc() {
    let mut memory = Memory::once();
    let stale = Err(refused(Refusal::StaleRecord));
    for kind in NEITHER_KIND {
        let mut open = of_kind(memory.disc(), kind);
        let record = open.record();
        assert_eq!([open.save_virtual(0, &[1; SECTOR]), open.free_virtual(0), open.commit()], [stale; 3]);
        assert_eq!([open.read(0).map(drop), open.fullness().map(drop), open.forecast(&[]).map(drop)], [stale; 3]);
        assert_eq!((open.record(), record.numbers()), (record, [kind, 0, 1, 0, 0]));
        assert_eq!((open.open_again(), open.record()), (Ok(()), once(0, 1, 0, 0)));
    }
}

#[test]
fn a_record_of_neither_kind_on_a_rewritable_disc() {
    let mut memory = Memory::rewritable();
    for kind in NEITHER_KIND {
        let mut open = of_kind(memory.disc(), kind);
        let record = open.record();
        assert_eq!(answers(&mut open, 32), [Err(refused(Refusal::StaleRecord)); 4]);
        assert_eq!((open.record(), record.numbers()), (record, [kind, 2, 0, 0, 0]));
        assert_eq!((open.open_again(), open.record().numbers()), (Ok(()), [1, 2, 0, 0, 0]));
    }
}

/// The fourth number of a rewritable disc's record is not looked at.
#[test]
fn a_rewritable_record_with_a_last_icb() {
    let (mut memory, table) = (Memory::rewritable(), [NONE, 64, NONE, 192]);
    let mut open = Open::resume(memory.disc(), &table, Record::from_numbers([1, 2, 0, 7, 0]));
    assert_eq!((open.table(), open.read(33)), (table.as_slice(), Ok([0; SECTOR])));
    assert_eq!(open.save_block(33, &[5; SECTOR]), Ok(()));
    assert_eq!(open.record().numbers(), [1, 2, 0, 0, 0]);
}

/// Line 3 says which of the lent slices has the wrong length, how many bytes it has and how many it must have.
#[test]
fn a_wrong_length_says_which() {
    let words = |answer: Result<(), Error>| answer.map_err(|error| (error.refusal(), error.to_string()));
    let wrong = |text: &str| Err((Some(Refusal::LentLength), format!("{text}. (01, line 3)")));
    let mut memory = Memory::once();
    let mut open = memory.disc().open().expect("it opens");
    assert_eq!(words(open.save_virtual(0, &[2; 7])), wrong("The lent block must have 2,048 bytes, and has 7"));
    assert_eq!(words(open.save_virtual(0, &[])), wrong("The lent block must have 2,048 bytes, and has 0"));
    let mut memory = Memory::rewritable();
    let mut open = memory.disc().open().expect("it opens");
    assert_eq!(words(open.save_block(0, &[1; SECTOR + 1])), wrong("The lent block must have 2,048 bytes, and has 2,049"));
    assert_eq!(words(open.save_packet(0, &[1; SECTOR])), wrong("The lent packet must have 65,536 bytes, and has 2,048"));
    assert_eq!(words(open.spare_packet(0, &[1])), wrong("The lent packet must have 65,536 bytes, and has 1"));
    let calls = [
        Call::SaveBlock { b: 0, block: &[1; 5], cut: Cut::NONE },
        Call::SaveBlock { b: 99, block: &[1; SECTOR], cut: Cut::NONE },
        Call::SparePacket { b: 0, packet: &[1; SECTOR], cut: Cut::NONE },
    ];
    let replies: Vec<_> = memory.disc().run(&calls).expect("a list").replies.into_iter().map(words).collect();
    assert_eq!(replies[0], wrong("The lent block must have 2,048 bytes, and has 5"));
    assert_eq!(replies[1].clone().map_err(|(why, _)| why), Err(Some(Refusal::NumberOutside)));
    assert_eq!(replies[2], wrong("The lent packet must have 65,536 bytes, and has 2,048"));
}

/// The shape of the disc and the span are asked before any length.
#[test]
fn a_wrong_length_is_told_after_lines_1_and_2() {
    let mut memory = Memory::once();
    let record = memory.disc().open().expect("it opens").record();
    let long = Disc { length: 56, ..memory.disc() };
    assert_eq!(Open::resume(long, &[], record).save_virtual(0, &[2; 7]), Err(refused(Refusal::SpanOutside)));
    memory.marks.push(BLANK);
    assert_eq!(Open::resume(memory.disc(), &[], record).save_virtual(0, &[2; 7]), Err(refused(Refusal::DiscShape)));
}

#[test]
fn after_a_cut_the_disc_is_opened_again() {
    let mut memory = Memory::once();
    let mut open = memory.disc().open().expect("it opens");
    assert_eq!(open.save_virtual(0, &[1; SECTOR]), Ok(()));
    assert_eq!(open.commit(), Ok(()));
    assert_eq!(open.save_virtual_cut(0, &[2; SECTOR], Cut::at(1, Effect::Unreadable)), Err(Error::Cut));
    assert_eq!(open.read(0), Err(Error::PowerOff));
    assert_eq!(open.commit(), Err(Error::PowerOff));
    assert_eq!(open.fullness(), Err(Error::PowerOff));
    assert_eq!(open.forecast(&[]), Err(Error::PowerOff));
    assert_eq!(open.open_again(), Ok(()));
    assert_eq!(open.record(), once(1, 4, 2, 1));
    assert_eq!(open.read(0), Ok([1; SECTOR]));
    // a cut past the last write is none
    assert_eq!(open.commit_cut(Cut::at(2, Effect::Old)), Ok(()));
}

#[test]
fn a_rewritable_disc() {
    let mut memory = Memory::rewritable();
    let mut open = memory.disc().open().expect("it opens");
    let record = |sequence| Record { held: Held::Rewritable { entries: 2, sequence }, passed_over: 0 };
    assert_eq!(open.record(), record(0));
    assert_eq!(open.table(), [NONE, 64, NONE, 192]);
    assert_eq!(open.save_block(33, &[5; SECTOR]), Ok(()));
    assert_eq!(open.spare_packet(32, &[6; PACKET_BYTES]), Ok(()));
    assert_eq!((open.record(), open.table()), (record(1), [32, 64, NONE, 192].as_slice()));
    assert_eq!(open.read(33), Ok([6; SECTOR]));
    assert_eq!(open.save_packet_cut(32, &[7; PACKET_BYTES], Cut::at(2, Effect::Whole)), Err(Error::Cut));
    assert_eq!(open.open_again(), Ok(()));
    assert_eq!((open.read(32), open.read(33), open.read(34)), (Ok([7; SECTOR]), Ok([7; SECTOR]), Ok([6; SECTOR])));
    assert_eq!(open.save_virtual(0, &[0; SECTOR]), Err(refused(Refusal::OtherKind)));
    assert_eq!(open.free_virtual(0), Err(refused(Refusal::OtherKind)));
    assert_eq!(open.commit(), Err(refused(Refusal::OtherKind)));
    assert_eq!(open.fullness(), Err(refused(Refusal::OtherKind)));
    for items in [&[][..], &[0], &[COMMIT]] {
        assert_eq!(open.forecast(items), Err(refused(Refusal::OtherKind)));
    }
}

/// The identifiers of a sparing table, with the flags before them (document 02, slip 1).
const NEWER: &[u8; 24] = b"\0*UDF Sparing Table\0\0\0\0\0";
const OLDER: &[u8; 24] = b"\0*OSTA UDF Sparing Table";

/// A packet that is spared already is spared again: its entry turns defective, the last of them, and the free entry of lowest index is taken.
#[test]
fn a_packet_is_spared_again() {
    let maps = Maps::Rewritable { partition: 1, table_bytes: 2048, tables: vec![0, 32] };
    let mut memory = Memory::new(320, 224, 64, &maps, &[160, 64, 192, 96]);
    let mut open = memory.disc().open().expect("it opens");
    for (b, with, table) in [
        (32, 1, [32, 160, NONE, 64, NONE, 192, NONE, 96]),
        (0, 2, [0, 64, 32, 160, NONE, 192, NONE, 96]),
        (32, 3, [0, 64, 32, 192, DEFECTIVE, 160, NONE, 96]),
        (0, 4, [0, 96, 32, 192, DEFECTIVE, 160, DEFECTIVE, 64]),
    ] {
        assert_eq!(open.spare_packet(b, &[with; PACKET_BYTES]), Ok(()));
        assert_eq!(open.table(), table);
        assert_eq!((open.read(b), open.read(b + 31)), (Ok([with; SECTOR]), Ok([with; SECTOR])));
    }
    assert_eq!((open.read(0), open.read(32)), (Ok([4; SECTOR]), Ok([3; SECTOR])));
    let record = Record { held: Held::Rewritable { entries: 4, sequence: 4 }, passed_over: 0 };
    assert_eq!(open.record(), record);
    assert_eq!(open.open_again(), Ok(()));
    assert_eq!((open.record(), open.table()), (record, [0, 96, 32, 192, DEFECTIVE, 160, DEFECTIVE, 64].as_slice()));
    for b in [0, 32] {
        assert_eq!(open.spare_packet(b, &[5; PACKET_BYTES]), Err(refused(Refusal::NoSpare)));
    }
    // the marks of entries are no numbers of packets
    for b in [DEFECTIVE, NONE, 64] {
        assert_eq!(open.spare_packet(b, &[5; PACKET_BYTES]), Err(refused(Refusal::NumberOutside)));
        assert_eq!(open.read(b), Err(refused(Refusal::NumberOutside)));
    }
}

/// A cut second sparing is done exactly if a new copy of the table is whole.
#[test]
fn a_cut_in_a_second_sparing() {
    let mut memory = Memory::rewritable();
    let mut open = memory.disc().open().expect("it opens");
    assert_eq!(open.spare_packet(32, &[1; PACKET_BYTES]), Ok(()));
    for at in [1, 2, 32, 33, 34] {
        for effect in [Effect::Old, Effect::Unreadable, Effect::Whole] {
            let (mut bytes, mut marks) = (memory.bytes.clone(), memory.marks.clone());
            let disc = Disc { bytes: &mut bytes, marks: &mut marks, maps: &memory.maps, start: memory.start, length: memory.length };
            let mut open = disc.open().expect("it opens");
            assert_eq!(open.spare_packet_cut(32, &[2; PACKET_BYTES], Cut::at(at, effect)), Err(Error::Cut));
            // the lent table is left as it came
            assert_eq!(open.table(), [32, 64, NONE, 192]);
            assert_eq!(open.open_again(), Ok(()));
            let is_done = at > 33 || (at, effect) == (33, Effect::Whole);
            let (table, with) = if is_done { ([32, 192, DEFECTIVE, 64], 2) } else { ([32, 64, NONE, 192], 1) };
            assert_eq!((open.table(), open.read(32), open.read(63)), (table.as_slice(), Ok([with; SECTOR]), Ok([with; SECTOR])));
            // a sparing after it: from there to a spare that is free, if there is one
            let answer = if is_done { Err(refused(Refusal::NoSpare)) } else { Ok(()) };
            assert_eq!(open.spare_packet(32, &[3; PACKET_BYTES]), answer);
        }
    }
}

/// Both identifiers are read, also side by side; the newer one is written. The older one knows no defective spare.
#[test]
fn both_identifiers_of_a_sparing_table() {
    let at = |table: usize| SECTOR * table + 16;
    let names = |memory: &Memory| [0, 32].map(|table| memory.bytes[at(table)..at(table) + 24].to_vec());
    for (one, other) in [(NEWER, NEWER), (NEWER, OLDER), (OLDER, NEWER), (OLDER, OLDER)] {
        let mut memory = Memory::rewritable();
        assert_eq!(names(&memory), [NEWER; 2]);
        for (table, name) in [(0, one), (32, other)] {
            memory.bytes[at(table)..at(table) + 24].copy_from_slice(name);
        }
        let mut open = memory.disc().open().expect("it opens");
        assert_eq!(open.table(), [NONE, 64, NONE, 192]);
        // a save leaves the tables alone
        assert_eq!(open.save_block(33, &[5; SECTOR]), Ok(()));
        assert_eq!(names(&memory), [one, other]);
        let mut open = memory.disc().open().expect("it opens");
        assert_eq!(open.spare_packet(32, &[6; PACKET_BYTES]), Ok(()));
        assert_eq!(open.read(33), Ok([6; SECTOR]));
        assert_eq!(names(&memory), [NEWER; 2]);
        // a cut at the second table leaves it as it was, beside a newer one of a higher sequence
        memory.bytes[at(32)..at(32) + 24].copy_from_slice(OLDER);
        let mut open = memory.disc().open().expect("it opens");
        assert_eq!(open.spare_packet_cut(32, &[7; PACKET_BYTES], Cut::at(34, Effect::Old)), Err(Error::Cut));
        assert_eq!(open.open_again(), Ok(()));
        assert_eq!((open.table(), open.read(33)), ([32, 192, DEFECTIVE, 64].as_slice(), Ok([7; SECTOR])));
        assert_eq!(names(&memory), [NEWER, OLDER]);
    }
}

/// A copy with the older identifier and a defective spare does not count, whatever its sequence; nor does one with another mark.
#[test]
fn copies_that_do_not_count() {
    let put = |memory: &mut Memory, table: usize, at: usize, bytes: &[u8]| {
        memory.bytes[SECTOR * table + at..][..bytes.len()].copy_from_slice(bytes);
    };
    let mut memory = Memory::rewritable();
    put(&mut memory, 32, 16, OLDER);
    put(&mut memory, 32, 52, &[9]);
    put(&mut memory, 32, 56, &DEFECTIVE.to_le_bytes());
    let open = memory.disc().open().expect("it opens");
    assert_eq!((open.record().numbers(), open.table()), ([1, 2, 0, 0, 0], [NONE, 64, NONE, 192].as_slice()));
    memory.marks[0] = UNREADABLE;
    assert_eq!(memory.disc().open().err(), Some(refused(Refusal::NoTable)));
    // with the newer identifier it counts
    put(&mut memory, 32, 16, NEWER);
    let open = memory.disc().open().expect("it opens");
    assert_eq!((open.record().numbers(), open.table()), ([1, 2, 9, 0, 0], [DEFECTIVE, 64, NONE, 192].as_slice()));
    // a defective entry stands before the free ones, and no other mark is one
    for entries in [[NONE, DEFECTIVE], [0xffff_fff1, NONE], [DEFECTIVE, 0xffff_fffe], [DEFECTIVE, 0]] {
        for (i, original) in entries.into_iter().enumerate() {
            put(&mut memory, 32, 56 + 8 * i, &original.to_le_bytes());
        }
        assert_eq!(memory.disc().open().err(), Some(refused(Refusal::NoTable)), "{entries:x?}");
    }
    for entries in [[0, DEFECTIVE], [DEFECTIVE, DEFECTIVE], [32, NONE]] {
        for (i, original) in entries.into_iter().enumerate() {
            put(&mut memory, 32, 56 + 8 * i, &original.to_le_bytes());
        }
        assert_eq!(memory.disc().open().expect("it opens").table(), [entries[0], 64, entries[1], 192]);
    }
}

/// A rewritable disc with spares inside its partition (document 02, slip 8): blocks 32 to 63 and 96 to 127 are of one each, and the spare
/// between them stands outside.
fn with_spares_inside() -> Memory {
    let maps = Maps::Rewritable { partition: 1, table_bytes: 2048, tables: vec![0, 32] };
    Memory::new(224, 96, 128, &maps, &[128, 64, 192])
}

/// The answers of every call that names a block or a packet: reading, saving a block, saving a packet, sparing.
fn answers(open: &mut Open, b: u32) -> [Result<(), Error>; 4] {
    let (block, packet) = ([9; SECTOR], [9; PACKET_BYTES]);
    [open.read(b).map(drop), open.save_block(b, &block), open.save_packet(b, &packet), open.spare_packet(b, &packet)]
}

/// The blocks of a spare are refused by every call, whether their spare is free, used or defective, and nothing changes.
#[test]
fn spares_inside_the_partition() {
    let [of_spare, outside] = [refused(Refusal::BelongsToSpare), refused(Refusal::NumberOutside)];
    let mut memory = with_spares_inside();
    let mut open = memory.disc().open().expect("it opens");
    let tables = [
        [NONE, 128, NONE, 64, NONE, 192],
        [64, 128, NONE, 64, NONE, 192],
        [64, 64, DEFECTIVE, 128, NONE, 192],
        [64, 192, DEFECTIVE, 128, DEFECTIVE, 64],
    ];
    for (with, table) in (0..).zip(tables) {
        if with > 0 {
            assert_eq!(open.spare_packet(64, &[with; PACKET_BYTES]), Ok(()));
        }
        assert_eq!(open.table(), table);
        let before = (open.disc().bytes.to_vec(), open.disc().marks.to_vec(), open.record());
        for b in 0..128 {
            let is_of_spare = (32..64).contains(&b) || b >= 96;
            assert_eq!(open.read(b).err(), is_of_spare.then_some(of_spare), "{b}");
            if is_of_spare {
                let packet = if b % 32 == 0 { of_spare } else { outside };
                assert_eq!(answers(&mut open, b), [Err(of_spare), Err(of_spare), Err(packet), Err(packet)], "{b}");
            }
        }
        // the number of blocks stays L
        for b in [128, 160, NONE - 31] {
            assert_eq!(answers(&mut open, b), [Err(outside); 4], "{b}");
        }
        assert_eq!((open.disc().bytes.to_vec(), open.disc().marks.to_vec(), open.record()), before);
        assert_eq!((open.read(64), open.read(95)), (Ok([with; SECTOR]), Ok([with; SECTOR])));
        assert_eq!((open.read(0), open.read(31)), (Ok([0; SECTOR]), Ok([0; SECTOR])));
        assert_eq!(open.open_again(), Ok(()));
    }
    // a save goes to the spare inside, and to no other block
    assert_eq!(open.save_block(70, &[5; SECTOR]), Ok(()));
    assert_eq!(open.disc().bytes[SECTOR * 198..SECTOR * 199], [5; SECTOR]);
    assert_eq!((open.read(70), open.read(102)), (Ok([5; SECTOR]), Err(of_spare)));
}

/// 30 stands after 12 and before all that comes after it, 17 and the marks of its sectors too.
#[test]
fn a_spare_is_told_before_what_comes_after_it() {
    let of_spare = Err(refused(Refusal::BelongsToSpare));
    let maps = Maps::Rewritable { partition: 1, table_bytes: 2048, tables: vec![0] };
    let mut memory = Memory::new(160, 64, 96, &maps, &[96]);
    memory.marks[96..100].copy_from_slice(&[BLANK, UNREADABLE, BLANK, UNREADABLE]);
    let mut open = memory.disc().open().expect("it opens");
    assert_eq!(answers(&mut open, 32), [of_spare; 4]);
    for b in 33..64 {
        assert_eq!([open.read(b).map(drop), open.save_block(b, &[9; SECTOR])], [of_spare; 2]);
    }
    assert_eq!(open.spare_packet(0, &[9; PACKET_BYTES]), Err(refused(Refusal::OneTable)));
    // what is lent, and whether the record goes with the disc, is asked before
    let empty = [open.save_block(32, &[]), open.save_packet(32, &[]), open.spare_packet(32, &[])];
    assert_eq!(empty.map(|answer| answer.err().and_then(Error::refusal)), [Some(Refusal::LentLength); 3]);
    let stale = Record { held: Held::Rewritable { entries: 1, sequence: 9 }, passed_over: 0 };
    let mut open = Open::resume(memory.disc(), &[NONE, 96], stale);
    assert_eq!(answers(&mut open, 32), [Err(refused(Refusal::StaleRecord)); 4]);
}

/// Lists of calls, cut too: the same blocks are of a spare after each.
#[test]
fn spares_inside_over_a_list_of_calls() {
    let of_spare = Err(refused(Refusal::BelongsToSpare));
    let (one, two) = ([1; PACKET_BYTES], [2; PACKET_BYTES]);
    for at in [1, 32, 33, 34] {
        for effect in [Effect::Old, Effect::Unreadable, Effect::Whole] {
            let mut memory = with_spares_inside();
            let spare = |b, packet, cut| Call::SparePacket { b, packet, cut };
            let calls = [
                spare(0, &one, Cut::NONE),
                spare(32, &one, Cut::NONE),
                Call::SaveBlock { b: 40, block: &[3; SECTOR], cut: Cut::NONE },
                Call::SavePacket { b: 96, packet: &two, cut: Cut::at(1, Effect::Whole) },
                spare(0, &two, Cut::at(at, effect)),
                Call::Open,
                spare(32, &one, Cut::at(1, Effect::Unreadable)),
                Call::SaveBlock { b: 100, block: &[3; SECTOR], cut: Cut::NONE },
            ];
            let ran = memory.disc().run(&calls).expect("it opens");
            assert_eq!(ran.replies, [Ok(()), of_spare, of_spare, of_spare, Err(Error::Cut), Ok(()), of_spare, of_spare]);
            let is_done = at > 33 || (at, effect) == (33, Effect::Whole);
            let open = memory.disc().open().expect("it opens");
            assert_eq!(
                (open.read(0), open.read(31)),
                if is_done { (Ok([2; SECTOR]), Ok([2; SECTOR])) } else { (Ok([1; SECTOR]), Ok([1; SECTOR])) }
            );
            for b in 0..128 {
                let is_of_spare = (32..64).contains(&b) || b >= 96;
                assert_eq!(open.read(b).map(drop), if is_of_spare { of_spare } else { Ok(()) }, "{b}");
            }
        }
    }
}

/// An original may not be the packet of a spare, of any entry; a spare may be any packet of the partition, also all of them.
#[test]
fn originals_and_spares_inside() {
    let mut memory = with_spares_inside();
    let mut opens = |entries: [[u32; 2]; 3]| {
        for table in [0, 32] {
            let at = SECTOR * table + 56;
            for (to, number) in memory.bytes[at..at + 24].chunks_exact_mut(4).zip(entries.iter().flatten()) {
                to.copy_from_slice(&number.to_le_bytes());
            }
        }
        let opened = memory.disc().open().map(|open| open.table().to_vec());
        opened.map(|table| assert_eq!(table, entries.concat()))
    };
    let none = Err(refused(Refusal::NoTable));
    // blocks 0, 32, 64 and 96 are sectors 96, 128, 160 and 192
    for (entries, answer) in [
        ([[0, 128], [DEFECTIVE, 160], [NONE, 192]], Ok(())),
        ([[0, 128], [32, 64], [NONE, 192]], none),
        ([[0, 96], [NONE, 128], [NONE, 64]], none),
        ([[0, 64], [DEFECTIVE, 96], [NONE, 128]], none),
        ([[0, 64], [DEFECTIVE, 128], [NONE, 96]], none),
        ([[0, 64], [32, 192], [64, 96]], none),
        ([[0, 64], [32, 192], [64, 128]], none),
        ([[0, 160], [32, 192], [NONE, 64]], Ok(())),
        ([[DEFECTIVE, 96], [DEFECTIVE, 128], [NONE, 160]], Ok(())),
        // distinct, multiples of 32, on the disc, and no table's packet
        ([[0, 128], [NONE, 128], [NONE, 64]], none),
        ([[0, 144], [NONE, 64], [NONE, 192]], none),
        ([[0, 224], [NONE, 64], [NONE, 192]], none),
        ([[0, 32], [NONE, 64], [NONE, 192]], none),
    ] {
        assert_eq!(opens(entries), answer, "{entries:?}");
    }
    let maps = Maps::Rewritable { partition: 1, table_bytes: 2048, tables: vec![0, 32] };
    let mut memory = Memory::new(160, 64, 96, &maps, &[64, 96, 128]);
    let open = memory.disc().open().expect("it opens");
    assert!((0..96).all(|b| open.read(b) == Err(refused(Refusal::BelongsToSpare))));
    assert_eq!(open.read(96), Err(refused(Refusal::NumberOutside)));
    for spares in [&[64, 64][..], &[80], &[32], &[160], &[128, 96, 128]] {
        assert_eq!(memory.disc().make(spares), Err(refused(Refusal::Misaligned)), "{spares:?}");
    }
    // a table does not stand in the partition
    memory.maps = write_maps(&Maps::Rewritable { partition: 1, table_bytes: 2048, tables: vec![0, 64] }).expect("a map list");
    assert_eq!(memory.disc().make(&[]), Err(refused(Refusal::Misaligned)));
}

/// What a list would come to is told without changing the disc, and is what carrying it out comes to (document 02, slip 9).
#[test]
fn a_forecast() {
    let mut memory = Memory::once();
    let before = (memory.bytes.clone(), memory.marks.clone());
    let mut open = memory.disc().open().expect("it opens");
    let fits = |next, entries| Ok(Forecast::Fits { next, entries });
    let stops = |index, why| Ok(Forecast::Stops { index, why });
    assert_eq!(open.forecast(&[]), fits(1, 0));
    assert_eq!(open.forecast(&[0, 1, 0, COMMIT]), fits(5, 2));
    assert_eq!(open.forecast(&[NONE, COMMIT + 1, 0, COMMIT]), fits(5, 1));
    assert_eq!(open.forecast(&[0, 2, 1]), stops(1, Refusal::NumberOutside));
    assert_eq!(open.forecast(&[COMMIT - 1]), stops(0, Refusal::NumberOutside));
    // of 50 sectors one is recorded: 48 saves leave one for the commit
    let new: Vec<u32> = (0..60).collect();
    assert_eq!(open.forecast(&new), stops(48, Refusal::NoRoom));
    assert_eq!(open.forecast(&[&new[..48], &[COMMIT]].concat()), fits(50, 48));
    assert_eq!(open.forecast(&[&new[..48], &[COMMIT, COMMIT]].concat()), stops(49, Refusal::NoRoom));
    // line 12 stands before line 16
    assert_eq!(open.forecast(&[&new[..48], &[49]].concat()), stops(48, Refusal::NumberOutside));
    assert_eq!(open.forecast(&vec![COMMIT; 100_000]), stops(49, Refusal::NoRoom));
    assert_eq!((open.disc().bytes.to_vec(), open.disc().marks.to_vec()), before);
    assert_eq!((open.record(), open.table()), (once(0, 1, 0, 0), [].as_slice()));

    for v in [0, 1, 0] {
        assert_eq!(open.save_virtual(v, &[9; SECTOR]), Ok(()));
    }
    assert_eq!(open.commit(), Ok(()));
    assert_eq!(open.record(), once(2, 5, 4, 0));
    assert_eq!(open.disc().to_read().open().expect("it opens").forecast(&[2, COMMIT]), fits(7, 3));
    let open = Open::resume(memory.disc(), &[], once(2, 4, 0, 0));
    assert_eq!(open.forecast(&[]), Err(refused(Refusal::StaleRecord)));
}

/// A block that was never recorded is not told as one that cannot be read (document 02, slip 5).
#[test]
fn blank_and_unreadable_blocks() {
    let [blank, unreadable] = [refused(Refusal::BlankSector), refused(Refusal::UnreadableSector)];
    let mut memory = Memory::once();
    let mut open = memory.disc().open().expect("it opens");
    for v in 0..3 {
        assert_eq!(open.save_virtual(v, &[7; SECTOR]), Ok(()));
    }
    assert_eq!(open.commit(), Ok(()));
    // logical blocks 1 to 3, from sector 6 on
    memory.marks[6..8].copy_from_slice(&[BLANK, UNREADABLE]);
    let mut open = memory.disc().open().expect("it opens");
    assert_eq!([open.read(0), open.read(1), open.read(2)], [Err(blank), Err(unreadable), Ok([7; SECTOR])]);
    assert_eq!(open.save_virtual(0, &[8; SECTOR]), Ok(()));
    assert_eq!(open.read(0), Ok([8; SECTOR]));

    // block 3 is blank and block 5 unreadable: of the others of a packet the first decides
    let mut memory = Memory::rewritable();
    (memory.marks[96 + 3], memory.marks[96 + 5]) = (BLANK, UNREADABLE);
    let mut open = memory.disc().open().expect("it opens");
    assert_eq!([open.read(3), open.read(5), open.read(4)], [Err(blank), Err(unreadable), Ok([0; SECTOR])]);
    assert_eq!([open.save_block(0, &[8; SECTOR]), open.save_block(3, &[8; SECTOR])], [Err(blank), Err(unreadable)]);
    assert_eq!(open.save_block(32, &[8; SECTOR]), Ok(()));
    let calls = [5, 3, 9].map(|b| Call::SaveBlock { b, block: &[8; SECTOR], cut: Cut::NONE });
    assert_eq!(memory.disc().run(&calls).expect("it opens").replies, [Err(blank), Err(unreadable), Err(blank)]);
}

#[test]
fn a_list_of_calls() {
    let mut memory = Memory::once();
    let calls = [
        Call::SaveVirtual { v: 0, block: &[1; SECTOR], cut: Cut::NONE },
        Call::Commit { cut: Cut::NONE },
        Call::SaveVirtual { v: 1, block: &[2; SECTOR], cut: Cut::NONE },
        Call::Commit { cut: Cut::at(1, Effect::Old) },
        Call::FreeVirtual { v: 0 },
        Call::FreeVirtual { v: 1 },
        Call::SaveBlock { b: 0, block: &[0; SECTOR], cut: Cut::NONE },
    ];
    let ran = memory.disc().run(&calls).expect("it opens");
    // the call after the cut is taken as an opening
    let answers = [Ok(()), Ok(()), Ok(()), Err(Error::Cut), Ok(()), Err(refused(Refusal::NumberOutside)), Err(refused(Refusal::OtherKind))];
    assert_eq!(ran.replies, answers);
    assert_eq!(ran.record, once(1, 4, 2, 1));
    let open = Open::resume(memory.disc(), &ran.table, ran.record);
    assert_eq!(open.read(0), Ok([1; SECTOR]));
    let blank = &mut [BLANK; 60];
    let mut disc = Disc { marks: blank, ..memory.disc() };
    assert_eq!(disc.run(&calls).err(), Some(refused(Refusal::NoTable)));
}

/// Reading lends nothing to be written: several readers hold one disc at once.
#[test]
fn reading_needs_only_shared_slices() {
    let mut memory = Memory::once();
    let mut open = memory.disc().open().expect("it opens");
    assert_eq!(open.save_virtual(0, &[1; SECTOR]), Ok(()));
    assert_eq!(open.commit(), Ok(()));
    assert_eq!(open.disc().to_read().open().expect("it opens").read(0), Ok([1; SECTOR]));
    let Memory { bytes, marks, maps, start, length } = &memory;
    let disc = DiscRef { bytes, marks, maps, start: *start, length: *length };
    let (one, other) = (disc.open().expect("it opens"), disc.open().expect("it opens"));
    assert_eq!(one.record(), once(1, 3, 2, 0));
    assert_eq!((one.table(), one.read(0), other.read(1)), ([1].as_slice(), Ok([1; SECTOR]), Err(refused(Refusal::NumberOutside))));
    assert_eq!((one.fullness(), one.possible_icbs()), (Ok(60), vec![]));
    assert_eq!(DiscRef { length: 0, ..one.disc() }.open().err(), Some(refused(Refusal::SpanOutside)));
}

#[test]
fn a_stale_record_is_refused() {
    let mut memory = Memory::once();
    let mut open = Open::resume(memory.disc(), &[], once(0, 9, 0, 0));
    assert_eq!(open.commit(), Err(refused(Refusal::StaleRecord)));
    let mut open = Open::resume(memory.disc(), &[], once(u32::MAX, 1, 0, 0));
    assert_eq!(open.commit(), Err(refused(Refusal::StaleRecord)));
    assert_eq!(open.table().len(), 4096);
}

#[test]
fn map_lists_and_vat_files() {
    let all = [
        Maps::WriteOnce { partition: 513 },
        Maps::Rewritable { partition: 0, table_bytes: 56, tables: vec![32] },
        Maps::Rewritable { partition: 65_535, table_bytes: 2048, tables: vec![96, 0, 64, 1 << 20] },
    ];
    for maps in all {
        assert_eq!(read_maps(&write_maps(&maps).expect("a map list")), Ok(maps));
    }
    assert_eq!(read_maps(&[]), Err(refused(Refusal::NeitherKind)));
    assert_eq!(read_maps(&[1]), Err(refused(Refusal::MapCut)));
    let none = Maps::Rewritable { partition: 0, table_bytes: 56, tables: vec![] };
    assert_eq!(write_maps(&none), Err(refused(Refusal::NeitherKind)));
    assert_eq!(look_up(&[], 0), Err(refused(Refusal::NoTable)));
}

/// The published values: of the check string from 0, 0xffff and 0x1d0f, and of the example of ECMA-167, 7.2.6.
#[test]
fn published_crcs() {
    for by in [crc, crc_by_bytes, crc_by_words] {
        assert_eq!(by(b"123456789", 0), 0x31c3);
        assert_eq!(by(b"123456789", 0xffff), 0x29b1);
        assert_eq!(by(b"123456789", 0x1d0f), 0xe5cc);
        assert_eq!(by(b"\x70\x6a\x77", 0), 0x3299);
    }
}

#[test]
fn crcs_of_parts() {
    let whole: Vec<u8> = (0..=255).cycle().take(700).collect();
    for by in [crc, crc_by_bytes, crc_by_words] {
        for start in [0, 1, 0x1d0f, 0xffff] {
            assert_eq!(by(&[], start), start);
            for at in 0..=whole.len() {
                assert_eq!(by(&whole[at..], by(&whole[..at], start)), crc_by_bytes(&whole, start), "{at} bytes, then the others");
            }
        }
    }
    assert_eq!(crc_by_bytes(b"9", crc_word(crc_word(0, *b"1234"), *b"5678")), 0x31c3);
}

/// A bitmap of 20 blocks: 2 to 4, 7 and 8, 10 to 14, 18 and 19 are free. Its CRC is over the bits too.
const BITMAP: [u8; 27] = [8, 1, 0, 0, 0xab, 0, 0, 0, 0x29, 0x6e, 11, 0, 0, 0, 0, 0, 20, 0, 0, 0, 3, 0, 0, 0, 0x9c, 0x7d, 0x0c];

#[test]
fn free_runs_are_counted_and_found() {
    let bitmap = BitmapRef { bytes: &BITMAP, length: 20 };
    assert_eq!(bitmap.free(), Ok(12));
    for (near, wanted, found) in [
        (6, 3, Ok(2)),
        (7, 3, Ok(10)),
        (6, 2, Ok(7)),
        (5, 2, Ok(3)),
        (19, 2, Ok(18)),
        (0, 6, Err(refused(Refusal::NoRun))),
        (20, 1, Err(refused(Refusal::NumberOutside))),
        (20, 0, Err(refused(Refusal::NumberOutside))),
        (3, 0, Err(refused(Refusal::WrongRun))),
    ] {
        assert_eq!(bitmap.find(wanted, near), found, "{wanted} near {near}");
    }
    for (bytes, length) in [(&BITMAP[..], 19), (&BITMAP[..], 21), (&BITMAP[..26], 20), (&[], 0)] {
        let bitmap = BitmapRef { bytes, length };
        assert_eq!(bitmap.free(), Err(refused(Refusal::BitmapMalformed)));
        assert_eq!(bitmap.find(0, 99), Err(refused(Refusal::BitmapMalformed)));
    }
}

#[test]
fn free_runs_are_taken_and_given_back() {
    let mut bytes = [&BITMAP[..], &[7; 21]].concat();
    let mut bitmap = Bitmap { bytes: &mut bytes, length: 20 };
    assert_eq!(bitmap.take(7, 2), Ok(()));
    assert_eq!((bitmap.bytes[4], &bitmap.bytes[8..10], &bitmap.bytes[24..27]), (0xbc, &[0x42, 0x66][..], &[0x1c, 0x7c, 0x0c][..]));
    assert_eq!(bitmap.give_back(15, 3), Ok(()));
    assert_eq!((bitmap.bytes[4], &bitmap.bytes[8..10], &bitmap.bytes[24..27]), (0x1a, &[0xb9, 0x4d][..], &[0x1c, 0xfc, 0x0f][..]));
    assert_eq!((bitmap.free(), bitmap.to_read().find(5, 19)), (Ok(13), Ok(15)));
    let was = bitmap.bytes.to_vec();
    for (first, count, why) in
        [(20, 0, Refusal::NumberOutside), (19, 2, Refusal::WrongRun), (0, 0, Refusal::WrongRun), (7, u32::MAX, Refusal::WrongRun)]
    {
        assert_eq!(bitmap.take(first, count), Err(refused(why)));
        assert_eq!(bitmap.give_back(first, count), Err(refused(why)));
    }
    assert_eq!(bitmap.take(7, 1), Err(refused(Refusal::WrongRun)));
    assert_eq!(bitmap.give_back(9, 2), Err(refused(Refusal::WrongRun)));
    assert_eq!(bitmap.take_near(11, 0), Err(refused(Refusal::NoRun)));
    assert!(bitmap.bytes == was);
    assert_eq!(bitmap.take_near(3, 16), Ok(16));
    assert_eq!((bitmap.give_back(16, 3), bitmap.take(15, 3), bitmap.give_back(7, 2)), (Ok(()), Ok(()), Ok(())));
    assert_eq!(bytes, [&BITMAP[..], &[7; 21]].concat());
}

#[test]
fn words_of_refusals() {
    assert_eq!(refused(Refusal::NoTable).to_string(), "No VAT ICB or counting copy exists. (01, line 8)");
    assert_eq!(Error::check(0), Ok(()));
    assert_eq!(Error::check(21), Err(refused(Refusal::NotBlank)));
    assert_eq!(Error::check(25), Err(refused(Refusal::BlankSector)));
    assert_eq!(Error::check(14), Err(refused(Refusal::UnreadableSector)));
    assert_eq!(Error::check(30), Err(refused(Refusal::BelongsToSpare)));
    for (number, why) in [(31, Refusal::BitmapMalformed), (32, Refusal::WrongRun), (33, Refusal::NoRun)] {
        assert_eq!(Error::check(number), Err(refused(why)));
    }
    assert_eq!(refused(Refusal::NoRun).to_string(), "No free run of the wanted length exists. (02, line 33)");
    for unknown in [18, 22, 24, 26, 29, 34] {
        assert_eq!(Error::check(unknown), Err(Error::Unknown(unknown)));
    }
    assert_eq!(Error::check(255), Err(Error::Cut));
    assert_eq!(Error::check(77), Err(Error::Unknown(77)));
}

//! Blank sectors and unreadable ones (document 02, slip 5), through both implementations: of the sectors to be read the first that is not
//! recorded gives 25 where it is blank and 14 where it is unreadable.

use tuormik::{BLANK, MOST_ENTRIES, NONE, PACKET, PACKET_BYTES, RECORDED, SECTOR, UNREADABLE};
use tuormik_second::layer::{Layer, PLAIN, PROVED};

const BLANK_LINE: u32 = 25;
const UNREADABLE_LINE: u32 = 14;
const CUT: u32 = 255;

/// What a mark other than recorded gives.
fn line_of(mark: u8) -> u32 {
    if mark == BLANK {
        BLANK_LINE
    } else {
        UNREADABLE_LINE
    }
}

fn both(test: impl Fn(&Layer)) {
    test(&PLAIN);
    test(&PROVED);
}

/// A lent disc, made and opened.
#[derive(Clone, PartialEq)]
struct World {
    disc: Vec<u8>,
    marks: Vec<u8>,
    maps: Vec<u8>,
    s: u32,
    l: u32,
    table: Vec<u32>,
    record: [u32; 5],
}

/// Where the power fails: at which write, and what becomes of it.
type Cut = (u32, u32);
const NO_CUT: Cut = (0, 0);
const OLD: u32 = 0;
const MADE_UNREADABLE: u32 = 1;
const WHOLE: u32 = 2;

impl World {
    fn new(sectors: usize, s: u32, l: u32, tables: &[u32], spares: &[u32]) -> World {
        let kind = u32::from(!tables.is_empty());
        let mut maps = vec![0; if kind == 0 { 70 } else { 64 }];
        assert_eq!((PLAIN.write_maps)(kind, 0, 2048, tables, &mut maps), 0);
        let (mut disc, mut marks) = (vec![0; SECTOR * sectors], vec![BLANK; sectors]);
        assert_eq!((PLAIN.make)(&mut disc, &mut marks, &maps, s, l, spares), 0);
        let mut world = World { disc, marks, maps, s, l, table: vec![0; MOST_ENTRIES], record: [0; 5] };
        assert_eq!(world.open(&PLAIN), 0);
        world
    }

    fn write_once() -> World {
        World::new(60, 5, 50, &[], &[])
    }

    /// Two tables, two packets from sector 64 on, two spares.
    fn rewritable() -> World {
        World::new(192, 64, 64, &[0, 32], &[160, 128])
    }

    fn open(&mut self, layer: &Layer) -> u32 {
        (layer.open)(&self.disc, &self.marks, &self.maps, self.s, self.l, &mut self.table, &mut self.record)
    }

    /// The first byte of a block.
    fn read(&self, layer: &Layer, number: u32) -> Result<u8, u32> {
        let mut out = [0xee; SECTOR];
        match (layer.read)(&self.disc, &self.marks, &self.maps, self.s, self.l, &self.table, &self.record, number, &mut out) {
            0 => Ok(out[0]),
            line => {
                assert_eq!(out, [0xee; SECTOR], "{}: a refusal gives no bytes", layer.name);
                Err(line)
            }
        }
    }

    fn save_virtual(&mut self, layer: &Layer, v: u32, with: u8, cut: Cut) -> u32 {
        let World { disc, marks, maps, s, l, table, record } = self;
        (layer.save_virtual)(disc, marks, maps, *s, *l, table, record, v, &[with; SECTOR], cut.0, cut.1)
    }

    fn commit(&mut self, layer: &Layer) -> u32 {
        let World { disc, marks, maps, s, l, table, record } = self;
        (layer.commit)(disc, marks, maps, *s, *l, table, record, 0, 0)
    }

    fn save_block(&mut self, layer: &Layer, b: u32, with: u8, cut: Cut) -> u32 {
        let World { disc, marks, maps, s, l, table, record } = self;
        (layer.save_block)(disc, marks, maps, *s, *l, table, record, b, &[with; SECTOR], cut.0, cut.1)
    }

    fn save_packet(&mut self, layer: &Layer, b: u32, with: u8, cut: Cut) -> u32 {
        let World { disc, marks, maps, s, l, table, record } = self;
        (layer.save_packet)(disc, marks, maps, *s, *l, table, record, b, &[with; PACKET_BYTES], cut.0, cut.1)
    }

    fn spare_packet(&mut self, layer: &Layer, b: u32, with: u8) -> u32 {
        let World { disc, marks, maps, s, l, table, record } = self;
        (layer.spare_packet)(disc, marks, maps, *s, *l, table, record, b, &[with; PACKET_BYTES], 0, 0)
    }

    /// The mark of a block's sector, where no packet is spared.
    fn mark(&mut self, block: u32) -> &mut u8 {
        &mut self.marks[(self.s + block) as usize]
    }

    /// A call that is turned down by a line, and leaves all as it was.
    fn refuses(&mut self, line: u32, what: &str, call: impl FnOnce(&mut World) -> u32) {
        let before = self.clone();
        assert_eq!(call(self), line, "{what}");
        assert!(*self == before, "{what}: something changed");
    }
}

// ---- reading

/// The entries of a VAT may name blank sectors below its ICB, as a disc of another system has them.
#[test]
fn a_write_once_entry_that_names_a_blank_sector() {
    both(|layer| {
        let mut world = World::write_once();
        // NWA 10 above blank sectors, of which entries name the third and the fifth
        *world.mark(9) = RECORDED;
        world.table[..4].copy_from_slice(&[3, 5, NONE, 9]);
        world.record = [0, 4, 10, 0, 9];
        assert_eq!(world.commit(layer), 0);
        assert_eq!(world.open(layer), 0);
        assert_eq!(world.record, [0, 4, 11, 10, 0]);
        let read = |world: &World| [0, 1, 2, 3, 4].map(|v| world.read(layer, v));
        assert_eq!(read(&world), [Err(25), Err(25), Err(13), Ok(0), Err(12)], "{}", layer.name);
        *world.mark(5) = UNREADABLE;
        assert_eq!(read(&world), [Err(25), Err(14), Err(13), Ok(0), Err(12)], "{}", layer.name);
        // nothing is written below NWA: another block's save and a commit leave them as they are
        assert_eq!(world.save_virtual(layer, 3, 7, NO_CUT), 0);
        assert_eq!(world.commit(layer), 0);
        assert_eq!(world.open(layer), 0);
        assert_eq!(read(&world), [Err(25), Err(14), Err(13), Ok(7), Err(12)], "{}", layer.name);
        // their own saves heal them
        assert_eq!(world.save_virtual(layer, 0, 8, NO_CUT), 0);
        assert_eq!(world.save_virtual(layer, 1, 9, NO_CUT), 0);
        assert_eq!(read(&world), [Ok(8), Ok(9), Err(13), Ok(7), Err(12)], "{}", layer.name);
    });
}

/// Every block of a rewritable disc, in its place and spared, with each mark.
#[test]
fn rewritable_blocks() {
    both(|layer| {
        let mut world = World::rewritable();
        assert_eq!(world.save_packet(layer, 0, 1, NO_CUT), 0);
        assert_eq!(world.spare_packet(layer, 32, 2), 0);
        for b in 0..64 {
            // the packet of block 32 is at sector 160
            let sector = if b < 32 { 64 + b } else { 160 + b - 32 } as usize;
            for (mark, expected) in [(BLANK, Err(25)), (UNREADABLE, Err(14)), (RECORDED, Ok(1 + (b / 32) as u8))] {
                world.marks[sector] = mark;
                assert_eq!(world.read(layer, b), expected, "{}: block {b}", layer.name);
            }
        }
    });
}

// ---- saving a block

/// Of the other sectors of the packet the lowest that is not recorded decides, whether it is below the block or above it.
#[test]
fn the_first_of_the_others_decides() {
    // of a block's packet two sectors with their marks, and what the save of block 10 gives
    let cases: [([(u32, u8); 2], u32); 10] = [
        ([(3, BLANK), (5, UNREADABLE)], 25),
        ([(3, UNREADABLE), (5, BLANK)], 14),
        ([(3, BLANK), (20, UNREADABLE)], 25),
        ([(3, UNREADABLE), (20, BLANK)], 14),
        ([(20, BLANK), (25, UNREADABLE)], 25),
        ([(20, UNREADABLE), (25, BLANK)], 14),
        ([(0, BLANK), (31, UNREADABLE)], 25),
        ([(0, UNREADABLE), (31, BLANK)], 14),
        ([(10, BLANK), (11, UNREADABLE)], 14),
        ([(9, BLANK), (10, UNREADABLE)], 25),
    ];
    both(|layer| {
        for packet in [0, 32] {
            for (marked, line) in cases {
                let mut world = World::rewritable();
                for (i, mark) in marked {
                    *world.mark(packet + i) = mark;
                }
                let what = format!("{}: {marked:?} in the packet of block {packet}", layer.name);
                world.refuses(line, &what, |world| world.save_block(layer, packet + 10, 7, NO_CUT));
                // so it is with a cut, which no refused call comes to
                world.refuses(line, &what, |world| world.save_block(layer, packet + 10, 7, (1, MADE_UNREADABLE)));
                // the other packet is not read
                assert_eq!(world.save_block(layer, 32 - packet + 10, 7, NO_CUT), 0, "{what}");
            }
        }
    });
}

/// The block's own sector is not read: whatever its mark, the save is accepted and the block is there.
#[test]
fn the_own_sector_is_not_asked() {
    both(|layer| {
        for b in 0..64 {
            for mark in [BLANK, UNREADABLE] {
                let mut world = World::rewritable();
                *world.mark(b) = mark;
                assert_eq!(world.read(layer, b), Err(line_of(mark)));
                assert_eq!(world.save_block(layer, b, 7, NO_CUT), 0, "{}: block {b} of mark {mark}", layer.name);
                assert_eq!(world.read(layer, b), Ok(7), "{}: block {b} of mark {mark}", layer.name);
                assert_eq!(world.marks[64..128], [RECORDED; 64]);
            }
        }
    });
}

/// For every block of a packet, every pair of others with a blank and an unreadable one in either order, in place and spared: the two
/// implementations and the rule agree, and nothing changes.
#[test]
fn every_pair_of_others() {
    let mut compared = 0;
    for is_spared in [false, true] {
        let mut world = World::rewritable();
        if is_spared {
            assert_eq!(world.spare_packet(&PLAIN, 32, 3), 0);
        }
        let start = if is_spared { 160 } else { 96 };
        for i in 0..PACKET {
            for (j, k) in (0..PACKET).flat_map(|k| (0..k).map(move |j| (j, k))).filter(|&(j, k)| j != i && k != i) {
                for (low, high) in [(BLANK, UNREADABLE), (UNREADABLE, BLANK)] {
                    (world.marks[start + j], world.marks[start + k]) = (low, high);
                    let (marks, record) = (world.marks.clone(), world.record);
                    for layer in [&PROVED, &PLAIN] {
                        let answer = world.save_block(layer, 32 + i as u32, 7, NO_CUT);
                        assert_eq!(answer, line_of(low), "{}: block {i}, marks {low} at {j} and {high} at {k}", layer.name);
                        assert!(world.marks == marks && world.record == record, "{}: block {i}, {j} and {k}", layer.name);
                    }
                    (world.marks[start + j], world.marks[start + k]) = (RECORDED, RECORDED);
                    compared += 1;
                }
            }
            let written = if is_spared { 3 } else { 0 };
            assert!(world.disc[SECTOR * start..][..PACKET_BYTES] == [written; PACKET_BYTES], "block {i}: the packet changed");
        }
    }
    assert_eq!(compared, 2 * 32 * (31 * 30 / 2) * 2);
}

/// A single one of the others, of either mark, with the block's own sector of any mark.
#[test]
fn every_other_sector_alone() {
    let mut world = World::rewritable();
    for i in 0..32 {
        for j in (0..32).filter(|&j| j != i) {
            for own in [BLANK, RECORDED, UNREADABLE] {
                for other in [BLANK, UNREADABLE] {
                    (*world.mark(i), *world.mark(j)) = (own, other);
                    let marks = world.marks.clone();
                    for layer in [&PROVED, &PLAIN] {
                        let answer = world.save_block(layer, i, 7, NO_CUT);
                        assert_eq!(answer, line_of(other), "{}: block {i} of mark {own}, mark {other} at {j}", layer.name);
                        assert!(world.marks == marks, "{}: block {i} of mark {own}, mark {other} at {j}", layer.name);
                    }
                    (*world.mark(i), *world.mark(j)) = (RECORDED, RECORDED);
                }
            }
        }
    }
}

/// As calls of a list.
#[test]
fn in_a_list() {
    both(|layer| {
        let mut world = World::rewritable();
        (*world.mark(3), *world.mark(5)) = (BLANK, UNREADABLE);
        (*world.mark(35), *world.mark(37)) = (UNREADABLE, BLANK);
        // saves of blocks 0, 3, 5, 32, 35 and 37, then of the first packet, then of block 0 again
        let save = |b: u32| [3, b, 0, 0, 0, SECTOR as u32];
        let packet = [4, 0, 0, 0, 0, PACKET_BYTES as u32];
        let calls = [save(0), save(3), save(5), save(32), save(35), save(37), packet, save(0)];
        let mut replies = [99; 8];
        let World { disc, marks, maps, s, l, table, record } = &mut world;
        let pool = [7; PACKET_BYTES];
        let opened = (layer.run)(disc, marks, maps, *s, *l, table, record, calls.as_flattened(), &pool, &mut replies);
        assert_eq!((opened, replies), (0, [25, 14, 25, 14, 25, 14, 0, 0]), "{}", layer.name);
    });
}

// ---- cuts

/// A cut write that becomes unreadable on a blank sector gives 14 from then on, an old one leaves 25, a whole one the bytes.
#[test]
fn a_cut_write_on_a_blank_sector() {
    both(|layer| {
        let (write, first) = (10, 3);
        for (effect, expected) in [(OLD, Err(25)), (MADE_UNREADABLE, Err(14)), (WHOLE, Ok(7))] {
            for is_packet in [false, true] {
                let mut world = World::rewritable();
                assert_eq!(world.save_packet(layer, 0, first, NO_CUT), 0);
                *world.mark(write - 1) = BLANK;
                let answer = if is_packet {
                    world.save_packet(layer, 0, 7, (write, effect))
                } else {
                    world.save_block(layer, write - 1, 7, (write, effect))
                };
                assert_eq!(answer, CUT, "{}", layer.name);
                for _ in 0..2 {
                    assert_eq!(world.open(layer), 0);
                    assert_eq!(world.read(layer, write - 1), expected, "{}: effect {effect}", layer.name);
                    // so it is for the others of its packet, which a save writes with it
                    let saved = world.clone().save_block(layer, 0, 8, NO_CUT);
                    assert_eq!(saved, expected.err().unwrap_or(0), "{}: effect {effect}", layer.name);
                }
                // a write after the cut is not made, one before it is
                assert_eq!(world.read(layer, write), Ok(first));
                assert_eq!(world.read(layer, write - 2), Ok(if is_packet { 7 } else { first }));
            }
        }
    });
}

/// On a write-once disc the sector at NWA is blank until a write there, which a cut can leave unreadable.
#[test]
fn a_cut_write_at_nwa() {
    both(|layer| {
        let mut world = World::write_once();
        assert_eq!(world.save_virtual(layer, 0, 7, NO_CUT), 0);
        assert_eq!(world.commit(layer), 0);
        let next = world.record[2];
        assert_eq!(world.save_virtual(layer, 0, 8, (1, MADE_UNREADABLE)), CUT);
        assert_eq!(world.open(layer), 0);
        assert_eq!((world.record[2], *world.mark(next), world.read(layer, 0)), (next + 1, UNREADABLE, Ok(7)));
        // an entry that names it, as a disc of another system may have it
        world.table[0] = next;
        assert_eq!(world.read(layer, 0), Err(14));
        *world.mark(next - 1) = BLANK;
        world.table[0] = next - 1;
        assert_eq!(world.read(layer, 0), Err(25));
    });
}

// ---- what heals, and what does not read

#[test]
fn saving_the_packet_heals() {
    both(|layer| {
        let mut world = World::rewritable();
        for b in 0..32 {
            *world.mark(b) = [BLANK, UNREADABLE, RECORDED][b as usize % 3];
        }
        let before = |world: &World| (0..32).map(|b| world.read(layer, b)).collect::<Vec<_>>();
        assert!(before(&world)[..3] == [Err(25), Err(14), Ok(0)]);
        let mut spared = world.clone();
        assert_eq!(world.save_packet(layer, 0, 7, NO_CUT), 0);
        assert_eq!(before(&world), [Ok(7); 32], "{}", layer.name);
        assert_eq!(world.save_block(layer, 4, 8, NO_CUT), 0);
        // so does sparing it to a packet that has marks of all three sorts
        for i in 0..32 {
            spared.marks[160 + i] = [UNREADABLE, RECORDED, BLANK][i % 3];
        }
        assert_eq!(spared.spare_packet(layer, 0, 9), 0);
        assert_eq!(before(&spared), [Ok(9); 32], "{}", layer.name);
        assert_eq!(spared.save_block(layer, 4, 8, NO_CUT), 0);
    });
}

/// Saving a virtual block, freeing, committing, fullness and opening ask no mark of a block's sector.
#[test]
fn calls_that_read_no_block() {
    both(|layer| {
        for mark in [BLANK, UNREADABLE] {
            let mut world = World::write_once();
            for v in 0..3 {
                assert_eq!(world.save_virtual(layer, v, 7, NO_CUT), 0);
            }
            assert_eq!(world.commit(layer), 0);
            for b in 1..4 {
                *world.mark(b) = mark;
            }
            assert_eq!(world.open(layer), 0, "{}", layer.name);
            assert_eq!(world.read(layer, 2), Err(line_of(mark)));
            assert_eq!(world.save_virtual(layer, 0, 8, NO_CUT), 0);
            let World { disc, marks, maps, s, l, table, record } = &mut world;
            assert_eq!((layer.free_virtual)(disc, marks, maps, *s, *l, table, record, 1), 0, "{}", layer.name);
            let mut result = [0];
            assert_eq!((layer.fullness)(disc, marks, maps, *s, *l, table, record, &mut result), 0, "{}", layer.name);
            assert_eq!(world.commit(layer), 0, "{}", layer.name);
            assert_eq!([0, 1, 2].map(|v| world.read(layer, v)), [Ok(8), Err(13), Err(line_of(mark))]);
        }
    });
}

/// 25 and 14 stand after lines 1 to 3, 11 and 12: a call that one of these turns down as well gives that.
#[test]
fn lines_before_25() {
    both(|layer| {
        for mark in [BLANK, UNREADABLE] {
            let mut world = World::rewritable();
            (*world.mark(3), *world.mark(63)) = (mark, mark);
            assert_eq!([world.read(layer, 63), world.read(layer, 64)], [Err(line_of(mark)), Err(12)], "{}", layer.name);
            world.refuses(12, "a block that is not there", |world| world.save_block(layer, 64, 7, NO_CUT));
            world.refuses(3, "a block of another length", |world| {
                let World { disc, marks, maps, s, l, table, record } = world;
                (layer.save_block)(disc, marks, maps, *s, *l, table, record, 0, &[7; 7], 0, 0)
            });
            world.record[2] += 1;
            assert_eq!(world.read(layer, 3), Err(11), "{}", layer.name);
            world.refuses(11, "a stale record", |world| world.save_block(layer, 0, 7, NO_CUT));
            world.record[2] -= 1;
            world.l -= 32;
            assert_eq!(world.read(layer, 63), Err(12), "{}", layer.name);
            world.l = 1 << 20;
            assert_eq!(world.read(layer, 3), Err(2), "{}", layer.name);
            world.l = 64;
            world.marks[0] = 3;
            assert_eq!(world.read(layer, 3), Err(1), "{}", layer.name);
        }
    });
}

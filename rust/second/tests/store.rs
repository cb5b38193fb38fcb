//! Document 01's demand 3 on random lists: after every list that does not end in a cut reading gives what the plain store holds. Rewritable
//! discs have copies of their tables under both identifiers, packets are spared more than once (document 02, slip 1), and on some of them
//! spares are in the partition (slip 8).

mod lists;
#[path = "lists/maps.rs"]
mod maps;
#[path = "lists/met.rs"]
mod met;
#[path = "lists/reading.rs"]
mod reading;

use lists::{carried_out, draw, Call, Kind, Landing, Random, Slot, Store, World, CUT, OPEN};
use met::Met;
use reading::holds;
use std::collections::BTreeSet;
use tuormik::{BLANK, DEFECTIVE, NONE, PACKET, PACKET_BYTES, SECTOR, UNREADABLE};
use tuormik_second::layer::{Layer, PLAIN, PROVED};

impl Store {
    /// Whether a call saves or spares blocks that are there, with bytes of the right length: then it goes by what they are.
    fn goes_by_blocks(&self, call: &Call) -> bool {
        let length = match call.kind {
            Kind::SaveBlock => SECTOR,
            Kind::SavePacket | Kind::SparePacket => PACKET_BYTES,
            _ => return false,
        };
        !self.is_once && (call.number as usize) < self.blocks.len() && call.bytes.len() == length
    }

    /// The line of its blocks by which such a call is turned down: of a spare, or, where it saves a block, that of the first of the others
    /// of its packet that has no bytes.
    fn line(&self, call: &Call) -> Option<u32> {
        let b = call.number as usize;
        let start = b - b % PACKET;
        match call.kind {
            _ if self.blocks[b] == Slot::OfSpare => Some(OF_SPARE),
            Kind::SaveBlock => (start..start + PACKET).filter(|&i| i != b).find_map(|i| self.blocks[i].seen().err()),
            _ => None,
        }
    }
}

const OF_SPARE: u32 = 30;

impl World {
    fn is_once(&self) -> bool {
        self.maps.len() == 70
    }
}

/// L of a rewritable disc, and its spares: outside the partition, which is at 192, or some or all of them in it.
const SPARED: [(u32, &[u32]); 4] = [(64, &[96, 160, 128]), (128, &[224, 96, 288]), (128, &[96, 288, 192]), (64, &[192, 224])];

/// A new disc of one of the kinds, opened, with some blocks that are blank or unreadable.
fn new_world(layer: &Layer, random: &mut Random) -> World {
    let is_once = random.below(2) == 0;
    let tables: &[u32] = if is_once { &[] } else { &[0, 32, 64][..1 + random.below(3) as usize] };
    let (length, spares) = SPARED[random.below(7).saturating_sub(3) as usize];
    let (sectors, s, l) = if is_once { (67 + random.below(80), random.below(9), 12 + random.below(48)) } else { (320, 192, length) };
    let spares = &spares[..random.below(spares.len() as u32 + 1) as usize];
    let mut world = World::new(layer, sectors, s, l, tables, spares);
    let is_as_made = random.below(4) == 0;
    if is_once && !is_as_made {
        // blocks 0 to 5 at logical blocks 1 to 6, of which one is freed
        let mut calls: Vec<Call> = (0..6).map(|v| Call::new(Kind::SaveVirtual, v, vec![v as u8; SECTOR])).collect();
        calls.push(Call::new(Kind::FreeVirtual, random.below(6), Vec::new()));
        calls.push(Call::new(Kind::Commit, 0, Vec::new()));
        assert_eq!(world.run(layer, &calls), (0, vec![0; 8]));
    }
    if !is_as_made {
        vary_copies(&mut world, tables, spares, random);
    }
    let blocks = if is_once { s + 1..s + 7 } else { s..s + l };
    for _ in 0..if is_as_made { 0 } else { random.below(5) } {
        let at = blocks.start + random.below(blocks.len() as u32);
        world.marks[at as usize] = [BLANK, UNREADABLE][random.below(2) as usize];
    }
    world.open(layer);
    world
}

const NEWER: &[u8; 24] = b"\0*UDF Sparing Table\0\0\0\0\0";
const OLDER: &[u8; 24] = b"\0*OSTA UDF Sparing Table";

/// Whether the copy at a table sector has the newer identifier and a suffix of zeros.
fn is_newer(world: &World, table: u32) -> bool {
    let regid = &world.disc[SECTOR * table as usize + 16..][..32];
    regid[..24] == *NEWER && regid[24..] == [0; 8]
}

/// Copies as another writer leaves them: identifiers and suffixes at random, and in all of them a packet that is spared or a defective
/// spare. The first copy counts: where a spare is defective, its identifier is the newer one, and no spare is the packet that is spared.
fn vary_copies(world: &mut World, tables: &[u32], spares: &[u32], random: &mut Random) {
    let packet = PACKET as u32 * random.below(2);
    let used = !spares.is_empty() && !spares.contains(&(world.s + packet)) && random.below(3) == 0;
    let defective = usize::from(used) < spares.len() && random.below(3) == 0;
    for (i, &t) in tables.iter().enumerate() {
        let copy = &mut world.disc[SECTOR * t as usize..][..SECTOR];
        let is_older = random.below(2) == 0 && !(i == 0 && defective);
        copy[16..40].copy_from_slice(if is_older { OLDER } else { NEWER });
        copy[40..48].fill(random.below(3) as u8);
        let mut originals = [used.then_some(packet), defective.then_some(DEFECTIVE)].into_iter().flatten();
        for entry in copy[56..].chunks_exact_mut(8).take(spares.len()) {
            entry[..4].copy_from_slice(&originals.next().unwrap_or(NONE).to_le_bytes());
        }
    }
}

/// The packets that are spared when a disc is opened.
fn spared_in(world: &World) -> BTreeSet<u32> {
    let count = if world.is_once() { 0 } else { world.record[1] as usize };
    let originals = world.table.chunks_exact(2).take(count).map(|entry| entry[0]);
    originals.filter(|&original| original < world.l).collect()
}

/// A sparing is done once a new copy is whole; the first is write 33.
fn is_done(call: &Call) -> bool {
    call.landing(PACKET as u32 + 1) == Landing::Done
}

fn note_sparing(met: &mut Met, call: &Call, reply: u32, is_spared: bool) {
    let first = PACKET as u32 + 1;
    met.note("a packet spared", !is_spared && reply == 0);
    met.note("a packet spared again", is_spared && reply == 0);
    met.note("a packet spared again, cut before the tables", is_spared && reply == CUT && call.cut_at < first);
    met.note("a packet spared again, cut at the tables and not done", is_spared && reply == CUT && call.cut_at == first && !is_done(call));
    met.note("a packet spared again, cut at the tables and done", is_spared && reply == CUT && call.cut_at >= first && is_done(call));
    met.note("a packet spared already, no spare left", is_spared && reply == 19);
    met.note("a packet spared already, one table", is_spared && reply == 17);
}

fn note_spares(met: &mut Met, kind: Kind, reply: u32) {
    met.note("a block of a spare saved", kind == Kind::SaveBlock && reply == OF_SPARE);
    met.note("a packet of a spare saved", kind == Kind::SavePacket && reply == OF_SPARE);
    met.note("a packet of a spare spared", kind == Kind::SparePacket && reply == OF_SPARE);
}

/// What spares in the partition are when a list has ended.
fn note_in_partition(met: &mut Met, world: &World) {
    let count = if world.is_once() { 0 } else { world.record[1] as usize };
    let has = |is_kind: fn(u32) -> bool| {
        let mut inside = world.table.chunks_exact(2).take(count).filter(|entry| (world.s..world.s + world.l).contains(&entry[1]));
        inside.any(|entry| is_kind(entry[0]))
    };
    met.note("a used spare in the partition", has(|original| original < DEFECTIVE));
    met.note("a defective spare in the partition", has(|original| original == DEFECTIVE));
    met.note("a free spare in the partition", has(|original| original == NONE));
}

fn try_lists(layer: &Layer, seed: u64, discs: u32) {
    let mut random = Random(seed);
    let mut sparing = Met::default();
    let (mut compared, mut cut) = (0, 0);
    // how often the lines 25 and 14 came up, in reading on discs of either kind and in saving a block
    let mut met = [[0; 2]; 3];
    let mut meet = |place: usize, line: u32| match line {
        25 => met[place][0] += 1,
        14 => met[place][1] += 1,
        _ => {}
    };
    for _ in 0..discs {
        let mut world = new_world(layer, &mut random);
        let mut store = Store::of(&world);
        let mut spared = spared_in(&world);
        let tables = if world.is_once() { Vec::new() } else { maps::table_sectors(&world.maps) };
        for _ in 0..8 {
            let mut calls: Vec<Call> = Vec::new();
            for _ in 0..random.below(14) {
                calls.push(draw(&mut random, store.is_once, store.blocks.len() + calls.len() / 2, world.l));
            }
            let was_older = tables.iter().any(|&t| !is_newer(&world, t));
            let (opened, replies) = world.run(layer, &calls);
            assert!(!replies.contains(&18), "{}: 18 never occurs", layer.name);
            let mut is_renewed = false;
            assert_eq!(opened, 0, "{}: the list's opening is accepted", layer.name);
            store.take(&OPEN, false);
            for (call, reply) in carried_out(&calls, &replies) {
                assert!(call.kind != Kind::Open || reply == 0, "{}: every opening is accepted", layer.name);
                if store.goes_by_blocks(call) {
                    // a sparing goes by its tables and entries besides, after its blocks
                    let of_blocks = if reply == CUT || [17, 19, 20].contains(&reply) { 0 } else { reply };
                    assert_eq!(of_blocks, store.line(call).unwrap_or(0), "{}: {:?} {}", layer.name, call.kind, call.number);
                    meet(2, of_blocks);
                    note_spares(&mut sparing, call.kind, reply);
                }
                if call.kind == Kind::SparePacket {
                    note_sparing(&mut sparing, call, reply, spared.contains(&call.number));
                    if (reply == 0 || reply == CUT) && is_done(call) {
                        spared.insert(call.number);
                    }
                    is_renewed |= reply == 0;
                }
                if reply == 0 || reply == CUT {
                    store.take(call, reply == CUT);
                }
            }
            if is_renewed {
                assert!(tables.iter().all(|&t| is_newer(&world, t)), "{}: a copy is not renewed", layer.name);
                sparing.note("copies of the older identifier or another suffix renewed", was_older);
            }
            if replies.last() == Some(&CUT) {
                cut += 1;
            } else {
                holds(layer, &world, &store, 0..store.blocks.len()).unwrap_or_else(|what| panic!("{}: {what}", layer.name));
                let all_of_spares = !store.blocks.is_empty() && store.blocks.iter().all(|slot| *slot == Slot::OfSpare);
                sparing.note("all blocks of spares", all_of_spares);
                note_in_partition(&mut sparing, &world);
                store.blocks.iter().filter_map(|slot| slot.seen().err()).for_each(|line| meet(usize::from(store.is_once), line));
                compared += 1;
            }
        }
    }
    assert!(compared > 0 && cut > 0);
    sparing.all();
    assert!(met.as_flattened().iter().all(|&times| times > 0), "{met:?}");
}

#[test]
fn demand_3_of_the_proved_library() {
    try_lists(&PROVED, 3, 800);
}

#[test]
fn demand_3_of_the_plain_implementation() {
    try_lists(&PLAIN, 3, 800);
}

//! Spares in the partition (document 02, slip 8), through both implementations: such discs are made and opened, the blocks of their spares
//! give 30 throughout, no two others share a sector, and a copy with an original that is a spare's packet does not count.
//!
//! The discs have four packets in the partition, two of them spares. From every start there are lists of sparings with cuts, and in every
//! state each block is read, and each packet saved and spared. What has to come of it is worked out here from the words of 01 and 02.

#[path = "lists/store.rs"]
mod lists;
#[path = "lists/maps.rs"]
mod maps;
#[path = "lists/met.rs"]
mod met;
#[path = "lists/reading.rs"]
mod reading;
#[path = "lists/sparing.rs"]
mod sparing;
#[path = "lists/wrong.rs"]
mod wrong;

use lists::{Call, Kind, Landing, Slot, Store, World, CUT};
use met::Met;
use reading::holds;
use sparing::{mapped_fit, spared, Copies, Copy, Entry, Layout, Name, Parts, Seen, FIRST_TABLE, LENT, NO_SPARE, NO_TABLE};
use std::collections::{BTreeSet, HashSet};
use tuormik::{BLANK, DEFECTIVE, MOST_ENTRIES, NONE, PACKET, PACKET_BYTES, RECORDED, SECTOR, UNREADABLE};
use tuormik_second::layer::{Layer, PLAIN, PROVED};
use wrong::wrong_layers;

const WRONG_LENGTH: u32 = 3;
const OTHER_KIND: u32 = 7;
const OUTSIDE: u32 = 12;
const UNREADABLE_SECTOR: u32 = 14;
const ONE_TABLE: u32 = 17;
const LAST_SEQUENCE: u32 = 20;
const BLANK_SECTOR: u32 = 25;
const OF_SPARE: u32 = 30;

// ---- the discs

const SECTORS: u32 = 256;
const S: u32 = 64;
const L: u32 = 128;
const PACKETS: [u32; 4] = [0, 32, 64, 96];
/// In map order.
const TABLES: [u32; 2] = [192, 32];
/// The spares of a table, in its order: two are in the partition, as its packets 32 and 96.
const MAPPED: [[u32; 3]; 3] = [[96, 160, 0], [160, 224, 96], [0, 96, 160]];

fn is_inside(mapped: u32) -> bool {
    (S..S + L).contains(&mapped)
}

impl World {
    /// A disc without a copy: every sector is recorded, and each byte of it is the number of the sector.
    fn unmade(tables: &[u32]) -> World {
        let mut maps = vec![0; 64];
        assert_eq!((PLAIN.write_maps)(1, 3, 2048, tables, &mut maps), 0);
        let disc = (0..SECTORS).flat_map(|at| [at as u8; SECTOR]).collect();
        World { disc, marks: vec![RECORDED; SECTORS as usize], maps, s: S, l: L, table: vec![LENT; MOST_ENTRIES], record: [9; 5] }
    }

    /// The same with a copy in each table.
    fn with_copies(copies: &[Copy]) -> World {
        let mut world = World::unmade(&TABLES[..copies.len()]);
        copies.iter().zip(TABLES).for_each(|(copy, at)| world.put(at, &copy.bytes(), RECORDED));
        world
    }

    /// One that is made.
    fn made(layer: &Layer, spares: &[u32]) -> World {
        let mut world = World::unmade(&TABLES);
        assert_eq!((layer.make)(&mut world.disc, &mut world.marks, &world.maps, S, L, spares), 0, "{}", layer.name);
        world
    }

    fn copies(&self) -> Copies {
        Copies::on(&self.disc, &self.marks, &self.maps, self.s, self.l)
    }

    fn sector(&self, at: u32) -> &[u8] {
        &self.disc[SECTOR * at as usize..][..SECTOR]
    }

    fn put(&mut self, at: u32, bytes: &[u8], mark: u8) {
        self.disc[SECTOR * at as usize..][..SECTOR].copy_from_slice(bytes);
        self.marks[at as usize] = mark;
    }

    fn try_open(&mut self, layer: &Layer) -> u32 {
        (layer.open)(&self.disc, &self.marks, &self.maps, self.s, self.l, &mut self.table, &mut self.record)
    }

    fn call(&mut self, layer: &Layer, call: &Call) -> u32 {
        let World { disc, marks, maps, s, l, table, record } = self;
        let Call { number: b, cut_at: at, cut_effect: effect, bytes, .. } = call;
        match call.kind {
            Kind::SaveBlock => (layer.save_block)(disc, marks, maps, *s, *l, table, record, *b, bytes, *at, *effect),
            Kind::SavePacket => (layer.save_packet)(disc, marks, maps, *s, *l, table, record, *b, bytes, *at, *effect),
            _ => (layer.spare_packet)(disc, marks, maps, *s, *l, table, record, *b, bytes, *at, *effect),
        }
    }
}

/// A copy as it is written.
fn copy_of(sequence: u32, entries: &[Entry]) -> Copy {
    Copy { name: Name::Newer, suffix: 0, sequence, entries: entries.to_vec(), is_readable: true }
}

/// The older identifier, where the entries may have it.
fn older(copy: Copy) -> Copy {
    let has_defective = copy.entries.iter().any(|entry| entry.0 == DEFECTIVE);
    let name = if has_defective { Name::Newer } else { Name::Older };
    Copy { name, suffix: 7, ..copy }
}

/// Block i of what a call is lent.
fn block(tag: u8, i: usize) -> Vec<u8> {
    let mut bytes = vec![0xee; SECTOR];
    bytes[..2].copy_from_slice(&[tag, i as u8]);
    bytes
}

fn packet(tag: u8) -> Vec<u8> {
    (0..PACKET).flat_map(|i| block(tag, i)).collect()
}

// ---- the rules, from the words of 01 and 02

/// The sector of a block: in its packet's spare, or in the partition.
fn place(entries: &[Entry], b: u32) -> u32 {
    let within = b % PACKET as u32;
    entries.iter().find(|entry| entry.0 == b - within).map_or(S + b, |entry| entry.1 + within)
}

/// What a call has to come to.
enum Due {
    Refused(u32),
    /// the sectors that it writes, in turn, and the table that then is current
    Made {
        writes: Vec<(u32, Vec<u8>)>,
        table: Copy,
    },
}

/// What a call has to come to on a disc that is opened; its lines are tested in this order.
fn due(world: &World, call: &Call) -> Due {
    let copies = world.copies();
    let table = copies.opened().expect("the disc is opened").clone();
    let (b, is_block) = (call.number, call.kind == Kind::SaveBlock);
    if call.bytes.len() != if is_block { SECTOR } else { PACKET_BYTES } {
        return Due::Refused(WRONG_LENGTH);
    }
    if b >= L || !(is_block || b.is_multiple_of(PACKET as u32)) {
        return Due::Refused(OUTSIDE);
    }
    if copies.layout.is_of_spare(&table.entries, b) {
        return Due::Refused(OF_SPARE);
    }
    let own = place(&table.entries, b);
    let upward = |from: u32| (from..).zip(call.bytes.chunks_exact(SECTOR).map(<[u8]>::to_vec));
    match call.kind {
        Kind::SaveBlock => {
            let start = own - b % PACKET as u32;
            let sectors = start..start + PACKET as u32;
            let line = |at: u32| match world.marks[at as usize] {
                BLANK => Some(BLANK_SECTOR),
                UNREADABLE => Some(UNREADABLE_SECTOR),
                _ => None,
            };
            let bytes = |at: u32| if at == own { call.bytes.clone() } else { world.sector(at).to_vec() };
            match sectors.clone().filter(|at| *at != own).find_map(line) {
                Some(line) => Due::Refused(line),
                None => Due::Made { writes: sectors.map(|at| (at, bytes(at))).collect(), table },
            }
        }
        Kind::SavePacket => Due::Made { writes: upward(own).collect(), table },
        _ if copies.all.len() == 1 => Due::Refused(ONE_TABLE),
        _ => match spared(&table.entries, b) {
            None => Due::Refused(NO_SPARE),
            Some(_) if table.sequence == u32::MAX => Due::Refused(LAST_SEQUENCE),
            Some((entries, spare)) => {
                let table = copy_of(table.sequence + 1, &entries);
                let written = copies.order().concat().into_iter().map(|i| (copies.layout.tables[i], table.bytes().to_vec()));
                Due::Made { writes: upward(spare).chain(written).collect(), table }
            }
        },
    }
}

// ---- a call is held against the rules

fn need(holds: bool, otherwise: impl FnOnce() -> String) -> Result<(), String> {
    holds.then_some(()).ok_or_else(otherwise)
}

const OPENING: &str = "the opening";
const MAKING: &str = "making";
const READING: &str = "reads otherwise";
const PLACES: &str = "is not at a place of its own";

/// A disc on the way through a list: the table that is current, and the plain store.
#[derive(Clone)]
struct State {
    table: Copy,
    store: Store,
}

/// What a call may change, as it is before it: the sectors that it writes, and what else is lent.
struct Saved {
    sectors: Vec<(u32, Vec<u8>, u8)>,
    table: Vec<u32>,
    record: [u32; 5],
}

impl Saved {
    fn of(world: &World, writes: &[(u32, Vec<u8>)]) -> Saved {
        let sector = |&(at, _): &(u32, Vec<u8>)| (at, world.sector(at).to_vec(), world.marks[at as usize]);
        Saved { sectors: writes.iter().map(sector).collect(), table: world.table.clone(), record: world.record }
    }

    /// What else is lent is as it was.
    fn is_lent(&self, world: &World) -> bool {
        world.table == self.table && world.record == self.record
    }

    fn put_back(&self, world: &mut World) {
        self.sectors.iter().for_each(|(at, bytes, mark)| world.put(*at, bytes, *mark));
        world.table.copy_from_slice(&self.table);
        world.record = self.record;
    }
}

/// Its name in `include/tuormik.h`.
fn name(call: &Call) -> &'static str {
    match call.kind {
        Kind::SaveBlock => "save_block",
        Kind::SavePacket => "save_packet",
        _ => "spare_packet",
    }
}

/// The sectors are written as far as the cut lets them.
fn holds_writes(world: &World, saved: &Saved, writes: &[(u32, Vec<u8>)], call: &Call) -> Result<(), String> {
    (1..).zip(writes.iter().zip(&saved.sectors)).try_for_each(|(n, ((at, new), (_, old, mark)))| {
        let (bytes, mark) = match call.landing(n) {
            Landing::Done => (new, RECORDED),
            Landing::Kept => (old, *mark),
            Landing::Unreadable => (old, UNREADABLE),
        };
        need(world.sector(*at) == bytes && world.marks[*at as usize] == mark, || format!("sector {at} is not by the cut's rule"))
    })
}

/// The first and the last block of each packet, and one between.
fn some_blocks(between: usize) -> impl Iterator<Item = usize> {
    PACKETS.into_iter().flat_map(move |p| [0, 1 + between % 30, 31].map(|i| p as usize + i))
}

/// A call and, where it is accepted, the opening after it: by the rules, and then by the plain store. The state that they leave.
fn call_and_open(layer: &Layer, world: &mut World, state: &State, call: &Call, due: &Due, saved: &Saved) -> Result<Option<State>, String> {
    let answer = world.call(layer, call);
    let answers = |what: u32| format!("{} {} answers {answer}, not {what}", name(call), call.number);
    let (writes, table) = match due {
        Due::Refused(line) => {
            need(answer == *line, || answers(*line))?;
            need(saved.is_lent(world), || "the lent table or the record changes".to_string())?;
            return Ok(None);
        }
        Due::Made { writes, table } => (writes, table),
    };
    let is_cut = (1..=writes.len() as u32).contains(&call.cut_at);
    let accepted = if is_cut { CUT } else { 0 };
    need(answer == accepted, || answers(accepted))?;
    holds_writes(world, saved, writes, call)?;
    let is_handed_back = if is_cut { saved.is_lent(world) } else { table.is_lent(&world.table, &world.record) };
    need(is_handed_back, || format!("the lent table or the record of {}", name(call)))?;
    // a sparing is done if a new copy is whole: the first is write 33
    let is_done = call.kind != Kind::SparePacket || call.landing(FIRST_TABLE) == Landing::Done;
    let table = if is_done { table } else { &state.table };
    let answer = world.try_open(layer);
    need(answer == 0 && table.is_lent(&world.table, &world.record), || format!("{OPENING} answers {answer}; {table:?}"))?;
    let mut store = state.store.clone();
    store.take(call, is_cut);
    holds(layer, world, &store, some_blocks(call.cut_at as usize))?;
    Ok(Some(State { table: table.clone(), store }))
}

/// No two blocks that can be addressed share a sector, and none is in a table's packet, a free or a defective spare: as the table on the
/// disc has it, and as it is read where each sector holds its own number.
fn are_apart(layer: &Layer, world: &World) -> Result<(), String> {
    let copies = world.copies();
    let entries = &copies.opened().map_err(|line| format!("the rules give {line}"))?.entries;
    let parts = Parts::of(entries);
    let others = [&copies.layout.tables, &parts.defective, &parts.free].into_iter().flatten();
    let mut taken: BTreeSet<u32> = others.flat_map(|start| *start..start + PACKET as u32).collect();
    let mut numbered = world.clone();
    (0..SECTORS).filter(|at| !copies.layout.tables.contains(at)).for_each(|at| numbered.put(at, &[at as u8; SECTOR], RECORDED));
    for b in (0..L).filter(|b| !copies.layout.is_of_spare(entries, *b)) {
        let at = place(entries, b);
        need(taken.insert(at), || format!("block {b} {PLACES}"))?;
        need(numbered.read(layer, b) == Ok(vec![at as u8; SECTOR]), || format!("block {b} {PLACES}, or not there"))?;
    }
    Ok(())
}

// ---- all lists

/// The cuts of a call, of whose writes some are named: none, also by a number past the last write, and at these.
fn cuts(last: u32, at: &'static [u32]) -> impl Iterator<Item = (u32, u32)> {
    [(0, 0), (last + 1, 1)].into_iter().chain(at.iter().flat_map(|&at| [0, 1, 2].map(|effect| (at, effect))))
}

/// The calls of a state: of each packet and of some of its blocks, with cuts; and some with numbers or lengths that are wrong.
fn calls(tag: u8) -> Vec<Call> {
    let cut = |kind: Kind, number: u32, bytes: &[u8], (cut_at, cut_effect): (u32, u32)| Call {
        cut_at,
        cut_effect,
        ..Call::new(kind, number, bytes.to_vec())
    };
    let (first, whole) = (block(tag, 0), packet(tag));
    let mut calls = Vec::new();
    for p in PACKETS {
        calls.extend(cuts(34, &[1, 32, 33, 34]).map(|at| cut(Kind::SparePacket, p, &whole, at)));
        calls.extend(cuts(32, &[1, 17, 32]).map(|at| cut(Kind::SavePacket, p, &whole, at)));
        for within in [0, 5, 31] {
            calls.extend(cuts(32, &[6, 32]).map(|at| cut(Kind::SaveBlock, p + within, &first, at)));
        }
        for number in [p + 1, p + 31] {
            calls.extend([Kind::SavePacket, Kind::SparePacket].map(|kind| Call::new(kind, number, whole.clone())));
        }
        calls.extend([Kind::SaveBlock, Kind::SavePacket, Kind::SparePacket].map(|kind| Call::new(kind, p, vec![tag; 7])));
    }
    for number in [L, NONE - 31, NONE] {
        calls.push(Call::new(Kind::SaveBlock, number, first.clone()));
        calls.extend([Kind::SavePacket, Kind::SparePacket].map(|kind| Call::new(kind, number, whole.clone())));
    }
    calls
}

/// Lists of sparings from every start, and in each state all calls: every list, but that after copies which are the same for what follows,
/// with as many sparings to go, one list goes on for all.
struct Lists<'a> {
    layer: &'a Layer,
    /// by the number of sparings that are left
    calls: [Vec<Call>; 3],
    seen: HashSet<(Vec<Option<Seen>>, usize)>,
    starts: u64,
    states: u64,
    made: u64,
    met: Met,
}

impl Lists<'_> {
    fn new(layer: &Layer) -> Lists<'_> {
        let calls = [1, 2, 3].map(calls);
        Lists { layer, calls, seen: HashSet::new(), starts: 0, states: 0, made: 0, met: Met::default() }
    }

    /// A disc as it comes, and its lists of up to so many sparings more.
    fn start(&mut self, mut world: World, most: usize) -> Result<(), String> {
        let copies = world.copies();
        let table = copies.opened().map_err(|line| format!("the rules give {line}"))?.clone();
        let answer = world.try_open(self.layer);
        need(answer == 0 && table.is_lent(&world.table, &world.record), || format!("{OPENING} answers {answer} of {copies:?}"))?;
        let state = State { table, store: Store::of(&world) };
        self.starts += 1;
        self.go(&mut world, &state, most).map_err(|what| format!("{what}, from {:?} on", copies.all))
    }

    /// All calls in a state, and the lists that go on from it; the disc is left as it came.
    fn go(&mut self, world: &mut World, state: &State, left: usize) -> Result<(), String> {
        self.states += 1;
        holds(self.layer, world, &state.store, 0..L as usize)?;
        are_apart(self.layer, world)?;
        note_spares(&mut self.met, &state.table.entries);
        let whole = world.clone();
        for i in 0..self.calls[left].len() {
            let call = self.calls[left][i].clone();
            let due = due(world, &call);
            let saved = Saved::of(world, if let Due::Made { writes, .. } = &due { writes } else { &[] });
            self.made += 1;
            let told = |what: String| format!("{what}, after {:?} of {}, cut {:?}", call.kind, call.number, (call.cut_at, call.cut_effect));
            let after = call_and_open(self.layer, world, state, &call, &due, &saved).map_err(told)?;
            note_call(&mut self.met, state, &call, &due, after.as_ref());
            if let (Some(after), true, Kind::SparePacket) = (&after, left > 0, call.kind) {
                if self.seen.insert((world.copies().seen(), left - 1)) {
                    self.go(world, after, left - 1).map_err(told)?;
                }
            }
            saved.put_back(world);
        }
        need(*world == whole, || format!("other sectors change in calls after {:?}", state.table))
    }
}

/// What the spares in the partition are.
fn note_spares(met: &mut Met, entries: &[Entry]) {
    let has = |is_kind: fn(u32) -> bool| entries.iter().any(|entry| is_inside(entry.1) && is_kind(entry.0));
    met.note("a used spare in the partition", has(|original| original < L));
    met.note("a defective spare in the partition", has(|original| original == DEFECTIVE));
    met.note("a free spare in the partition", has(|original| original == NONE));
}

fn note_call(met: &mut Met, state: &State, call: &Call, due: &Due, after: Option<&State>) {
    let line = if let Due::Refused(line) = due { *line } else { 0 };
    met.note("12 in a spare's packet", line == OUTSIDE && call.number < L && state.store.blocks[call.number as usize] == Slot::OfSpare);
    met.note("30 where no entry is free", line == OF_SPARE && state.table.entries.iter().all(|entry| entry.0 != NONE));
    let kinds = |table: &Copy| {
        let parts = Parts::of(&table.entries);
        [parts.used.len(), parts.defective.len(), parts.free.iter().filter(|m| is_inside(**m)).count()]
    };
    if let Some(after) = after {
        let (old, new) = (kinds(&state.table), kinds(&after.table));
        met.note("a spare in the partition taken", new[2] < old[2]);
        met.note("a spare turned defective", new[1] > old[1]);
        met.note("a sparing cut and not done", call.kind == Kind::SparePacket && call.cut_at == FIRST_TABLE && new == old);
        met.note("a sparing cut and done", call.kind == Kind::SparePacket && call.cut_at == FIRST_TABLE && new != old);
    }
}

/// The entry that maps the packet of an original.
#[derive(Clone, Copy)]
enum Way {
    Own,
    Used,
    Defective,
    Free,
}

const WAYS: [Way; 4] = [Way::Own, Way::Used, Way::Defective, Way::Free];

/// A table in which an original is a packet that an entry maps, and which is right in all else.
fn spoiled(mapped: [u32; 3], way: Way) -> Vec<Entry> {
    const INSIDE: u32 = 96;
    let others: Vec<u32> = mapped.into_iter().filter(|m| *m != INSIDE).collect();
    let (inside, original, other, free) = (INSIDE, INSIDE - S, others[0], (NONE, others[1]));
    match way {
        Way::Own => vec![(original, inside), (NONE, other), free],
        Way::Used => vec![(0, inside), (original, other), free],
        Way::Defective => vec![(original, other), (DEFECTIVE, inside), free],
        Way::Free => vec![(original, other), (NONE, inside), free],
    }
}

/// Originals in the three places of a table: of the packets that can be spared, of defective and of free spares.
const ORIGINALS: [[u32; 3]; 12] = [
    [NONE, NONE, NONE],
    [DEFECTIVE, NONE, NONE],
    [DEFECTIVE, DEFECTIVE, NONE],
    [DEFECTIVE, DEFECTIVE, DEFECTIVE],
    [0, NONE, NONE],
    [0, DEFECTIVE, NONE],
    [0, DEFECTIVE, DEFECTIVE],
    [64, NONE, NONE],
    [64, DEFECTIVE, NONE],
    [64, DEFECTIVE, DEFECTIVE],
    [0, 64, NONE],
    [0, 64, DEFECTIVE],
];

fn entries_of(originals: [u32; 3], mapped: [u32; 3]) -> Vec<Entry> {
    originals.into_iter().zip(mapped).collect()
}

/// The copies of a start whose current table has these entries: in both tables, in one above an older one, or below one that does not
/// count.
fn mixes(originals: [u32; 3], mapped: [u32; 3]) -> Vec<[Copy; 2]> {
    let newest = copy_of(6, &entries_of(originals, mapped));
    let stale = copy_of(5, &entries_of([NONE; 3], mapped));
    let above = WAYS.map(|way| copy_of(7, &spoiled(mapped, way)));
    let mut mixes = vec![[newest.clone(), newest.clone()], [older(newest.clone()), older(stale)]];
    mixes.extend(above.into_iter().map(|above| [above, newest.clone()]));
    mixes
}

/// The lists from every start of some tables.
fn try_lists<'a>(layer: &'a Layer, originals: &[[u32; 3]], mapped: &[[u32; 3]], most: usize) -> Result<Lists<'a>, String> {
    let mut lists = Lists::new(layer);
    for &mapped in mapped {
        for copies in originals.iter().flat_map(|&originals| mixes(originals, mapped)) {
            lists.start(World::with_copies(&copies), most)?;
        }
    }
    println!("{}: {} starts, {} states, {} calls", layer.name, lists.starts, lists.states, lists.made);
    Ok(lists)
}

#[test]
fn lists_from_every_start() {
    for layer in [&PLAIN, &PROVED] {
        match try_lists(layer, &ORIGINALS, &MAPPED, 2) {
            Ok(lists) => lists.met.all(),
            Err(what) => panic!("{}: {what}", layer.name),
        }
    }
}

// ---- lines in their order

/// The spares, and packet 64.
const DAMAGED: [usize; 4] = [0, 96, 128, 160];
/// Marks of a packet: all blank or unreadable, or its first, a middle or its last sector.
const DAMAGES: [(usize, usize, u8); 6] =
    [(0, PACKET, BLANK), (0, PACKET, UNREADABLE), (0, 1, BLANK), (5, 6, UNREADABLE), (5, 6, BLANK), (31, 32, UNREADABLE)];

/// All calls on discs on which other lines hold as well: sectors that are not recorded, in spares and beside them, one table only, no free
/// entry, the last sequence.
fn try_lines(layer: &Layer) -> Result<(), String> {
    let mut lists = Lists::new(layer);
    for tables in 1..=2 {
        for sequence in [6, u32::MAX] {
            for originals in [[0, DEFECTIVE, NONE], [0, 64, DEFECTIVE], [NONE, NONE, NONE]] {
                let copy = copy_of(sequence, &entries_of(originals, MAPPED[0]));
                for (from, to, mark) in DAMAGES {
                    let mut world = World::with_copies(&vec![copy.clone(); tables]);
                    for start in DAMAGED {
                        world.marks[start + from..start + to].fill(mark);
                    }
                    lists.start(world, 0)?;
                }
            }
        }
    }
    Ok(())
}

#[test]
fn lines_in_their_order() {
    for layer in [&PLAIN, &PROVED] {
        assert_eq!(try_lines(layer), Ok(()), "{}", layer.name);
    }
}

/// The order of 02 in one place: of packet 32, which is a spare, and of packet 0, which is none.
#[test]
fn lines_by_hand() {
    let (none_free, free) = ([(64, 0), (DEFECTIVE, 96)], [(64, 0), (NONE, 96)]);
    for layer in [&PLAIN, &PROVED] {
        for (tables, sequence, entries, line) in [
            (1, u32::MAX, none_free, ONE_TABLE),
            (1, 6, free, ONE_TABLE),
            (2, u32::MAX, none_free, NO_SPARE),
            (2, 6, none_free, NO_SPARE),
            (2, u32::MAX, free, LAST_SEQUENCE),
        ] {
            let mut world = World::with_copies(&vec![copy_of(sequence, &entries); tables]);
            world.marks[96..128].fill(BLANK);
            world.marks[110] = UNREADABLE;
            assert_eq!(world.try_open(layer), 0, "{}", layer.name);
            let mut answer = |kind: Kind, number: u32, bytes: usize| world.call(layer, &Call::new(kind, number, vec![1; bytes]));
            for (kind, length) in [(Kind::SaveBlock, SECTOR), (Kind::SavePacket, PACKET_BYTES), (Kind::SparePacket, PACKET_BYTES)] {
                assert_eq!(answer(kind, 32, 7), WRONG_LENGTH, "{}", layer.name);
                assert_eq!(answer(kind, L, length), OUTSIDE, "{}", layer.name);
                assert_eq!(answer(kind, 32, length), OF_SPARE, "{}", layer.name);
                let other = if kind == Kind::SaveBlock { OF_SPARE } else { OUTSIDE };
                assert_eq!(answer(kind, 33, length), other, "{}", layer.name);
            }
            assert_eq!(answer(Kind::SparePacket, 0, PACKET_BYTES), line, "{}", layer.name);
            for b in 32..64 {
                assert_eq!(world.read(layer, b), Err(OF_SPARE), "{}: block {b}", layer.name);
            }
            assert_eq!((world.read(layer, L), world.read(layer, 31)), (Err(OUTSIDE), Ok(vec![95; SECTOR])), "{}", layer.name);
            // line 11 is before them
            world.record[2] ^= 1;
            assert_eq!((world.read(layer, 32), world.read(layer, L)), (Err(11), Err(11)), "{}", layer.name);
        }
    }
}

// ---- the copy rule

/// Mapped starts that a copy may have or not: outside the partition, its four packets, a table's packet.
const STARTS: [u32; 7] = [0, 64, 96, 128, 160, 224, 32];
const EVERY_ORIGINAL: [u32; 6] = [0, 32, 64, 96, DEFECTIVE, NONE];

/// Every table of up to so many of these entries, under both identifiers, above a copy of a lower sequence: which of the two is opened. How
/// many are wrong in another place, how many in an original only, and how many count.
fn copy_rule(layer: &Layer, most: u32) -> Result<[u32; 3], String> {
    let entry = |n: usize| (EVERY_ORIGINAL[n / STARTS.len()], STARTS[n % STARTS.len()]);
    let all = EVERY_ORIGINAL.len() * STARTS.len();
    let below = copy_of(4, &[(NONE, 224)]);
    let mut world = World::with_copies(&[below.clone(), below.clone()]);
    let mut tally = [0; 3];
    for count in 0..=most {
        for number in 0..all.pow(count) {
            let entries: Vec<Entry> = (0..count).map(|i| entry(number / all.pow(i) % all)).collect();
            for name in [Name::Newer, Name::Older] {
                let copy = Copy { name, ..copy_of(5, &entries) };
                world.put(TABLES[0], &copy.bytes(), RECORDED);
                let copies = world.copies();
                let expected = copies.opened().map_err(|line| format!("the rules give {line}"))?;
                world.table[..2 * most as usize + 2].fill(LENT);
                let answer = world.try_open(layer);
                need(answer == 0 && expected.is_lent(&world.table, &world.record), || format!("{OPENING} answers {answer} of {copy:?}"))?;
                tally[kind_of(&copy, &copies)] += 1;
            }
        }
    }
    Ok(tally)
}

/// Whether a copy counts (2), or would if the spares in the partition were elsewhere (1).
fn kind_of(copy: &Copy, copies: &Copies) -> usize {
    let mut wider = copies.layout.clone();
    wider.sectors *= 2;
    let elsewhere = |&(original, mapped): &Entry| (original, if is_inside(mapped) { mapped + SECTORS } else { mapped });
    let moved = Copy { entries: copy.entries.iter().map(elsewhere).collect(), ..copy.clone() };
    usize::from(copy.counts(&copies.layout)) + usize::from(moved.counts(&wider))
}

#[test]
fn tables_of_all_originals_and_starts() {
    for layer in [&PLAIN, &PROVED] {
        match copy_rule(layer, 3) {
            // R entries, u of them used, have C(4, u) choices of originals and R - u + 1 of defective ones (none under the older name) and
            // 6! / (6 - R)! of starts, or, where no original is on one, (6 - u)! / (6 - u - R)!
            Ok(tally) => assert_eq!(tally, [151_790 - 6_548, 3_944, 2_604], "{}", layer.name),
            Err(what) => panic!("{}: {what}", layer.name),
        }
    }
}

/// In each of the four ways, under either identifier and in either table: the copy with a lower sequence is opened, without any it is 8.
#[test]
fn an_original_that_is_a_spare() {
    for layer in [&PLAIN, &PROVED] {
        for way in WAYS {
            let above = copy_of(7, &spoiled(MAPPED[0], way));
            let newest = copy_of(6, &entries_of([0, DEFECTIVE, NONE], MAPPED[0]));
            for above in [above.clone(), older(above)] {
                for copies in [[above.clone(), newest.clone()], [newest.clone(), above.clone()]] {
                    let mut world = World::with_copies(&copies);
                    assert_eq!(world.try_open(layer), 0, "{}: {above:?}", layer.name);
                    assert!(newest.is_lent(&world.table, &world.record), "{}: {above:?}", layer.name);
                }
                let mut world = World::with_copies(&[above.clone(), above.clone()]);
                assert_eq!(world.try_open(layer), NO_TABLE, "{}: {above:?}", layer.name);
                // copies of one sequence do not differ where one of them does not count
                let same = Copy { sequence: 6, ..above };
                assert_eq!(World::with_copies(&[same, newest.clone()]).try_open(layer), 0, "{}", layer.name);
            }
        }
    }
}

// ---- making

/// Numbers that spares may have or not.
const NUMBERS: [u32; 10] = [0, 32, 64, 80, 96, 128, 160, 192, 224, 256];

/// Lists of up to three of these numbers as spares to be made: refused, or the partition is zeros and each table has them.
fn making(layer: &Layer) -> Result<u32, String> {
    let mut accepted = 0;
    let unmade = World::unmade(&TABLES);
    let layout = Layout { sectors: SECTORS, s: S, l: L, tables: TABLES.to_vec() };
    for count in 0..=3 {
        for number in 0..NUMBERS.len().pow(count) {
            let spares: Vec<u32> = (0..count).map(|i| NUMBERS[number / NUMBERS.len().pow(i) % NUMBERS.len()]).collect();
            let fits = mapped_fit(&spares, &layout);
            let (mut world, mut expected) = (unmade.clone(), unmade.clone());
            let answer = (layer.make)(&mut world.disc, &mut world.marks, &world.maps, S, L, &spares);
            need(answer == if fits { 0 } else { 6 }, || format!("{MAKING} answers {answer} of {spares:?}"))?;
            if fits {
                let table = copy_of(0, &spares.iter().map(|m| (NONE, *m)).collect::<Vec<Entry>>());
                (S..S + L).for_each(|at| expected.put(at, &[0; SECTOR], RECORDED));
                TABLES.iter().for_each(|at| expected.put(*at, &table.bytes(), RECORDED));
                need(world == expected, || format!("{MAKING} of {spares:?} leaves another disc"))?;
                let opened = world.try_open(layer);
                need(opened == 0 && table.is_lent(&world.table, &world.record), || format!("{OPENING} of a made disc answers {opened}"))?;
                holds(layer, &world, &Store::of(&world), 0..L as usize)?;
                accepted += 1;
            } else {
                need(world == expected, || format!("{MAKING} is refused and changes the disc"))?;
            }
        }
    }
    Ok(accepted)
}

/// 0 to 3 of the six packets that are no table's, in any order.
#[test]
fn made_with_spares_inside() {
    for layer in [&PLAIN, &PROVED] {
        assert_eq!(making(layer), Ok(1 + 6 + 30 + 120), "{}", layer.name);
    }
}

/// The partition is all spares, free or defective: the disc is made and opened, and every block gives 30.
#[test]
fn all_blocks_of_spares() {
    let all = PACKETS.map(|p| S + p);
    for layer in [&PLAIN, &PROVED] {
        let mut made = World::made(layer, &all);
        made.open(layer);
        assert!(copy_of(0, &all.map(|m| (NONE, m))).is_lent(&made.table, &made.record), "{}", layer.name);
        let mixed = [(DEFECTIVE, all[2]), (DEFECTIVE, all[0]), (NONE, all[3]), (NONE, all[1])];
        let mut worn = World::with_copies(&[copy_of(9, &mixed), copy_of(9, &mixed)]);
        worn.open(layer);
        for mut world in [made, worn] {
            assert!((0..L).all(|b| world.read(layer, b) == Err(OF_SPARE)), "{}", layer.name);
            assert_eq!(world.read(layer, L), Err(OUTSIDE), "{}", layer.name);
            let before = world.clone();
            for call in calls(1).iter().filter(|call| call.bytes.len() != 7) {
                let is_outside = call.number >= L || call.kind != Kind::SaveBlock && !call.number.is_multiple_of(PACKET as u32);
                assert_eq!(world.call(layer, call), if is_outside { OUTSIDE } else { OF_SPARE }, "{}: {}", layer.name, call.number);
            }
            assert!(world == before, "{}", layer.name);
        }
    }
}

// ---- a list by hand

/// Packet 0 is spared to packet 96 and then to packet 32, so that the spare of packet 96 is used and then defective; packet 64 is spared
/// to a spare before the partition. Before, between and after, the blocks of both packets give 30.
#[test]
fn a_made_disc_in_a_list() {
    let spare = |p: u32, tag: u8| Call::new(Kind::SparePacket, p, packet(tag));
    let is_of_spare = |b: &u32| (32..64).contains(b) || (96..128).contains(b);
    let refused = [
        Call::new(Kind::SaveBlock, 35, block(1, 0)),
        Call::new(Kind::SavePacket, 96, packet(1)),
        spare(32, 1),
        Call::new(Kind::SaveVirtual, 32, block(1, 0)),
        Call::new(Kind::FreeVirtual, 32, Vec::new()),
        Call::new(Kind::Commit, 32, Vec::new()),
    ];
    let lines = [OF_SPARE, OF_SPARE, OF_SPARE, OTHER_KIND, OTHER_KIND, OTHER_KIND];
    for layer in [&PLAIN, &PROVED] {
        let mut world = World::made(layer, &[160, 96, 0]);
        world.open(layer);
        let lists = [
            (vec![], copy_of(0, &[(NONE, 160), (NONE, 96), (NONE, 0)])),
            (vec![spare(0, 2)], copy_of(1, &[(0, 160), (NONE, 96), (NONE, 0)])),
            (vec![spare(0, 3)], copy_of(2, &[(0, 96), (DEFECTIVE, 160), (NONE, 0)])),
            (vec![spare(64, 4), spare(0, 5)], copy_of(3, &[(0, 96), (64, 0), (DEFECTIVE, 160)])),
        ];
        for (calls, table) in lists {
            let list = [&refused[..], &calls, &refused].concat();
            let (opened, replies) = world.run(layer, &list);
            assert_eq!(opened, 0, "{}", layer.name);
            let accepted: Vec<u32> = calls.iter().map(|call| if call.bytes[0] == 5 { NO_SPARE } else { 0 }).collect();
            assert_eq!(replies, [&lines[..], &accepted, &lines].concat(), "{}", layer.name);
            assert!(table.is_lent(&world.table, &world.record), "{}: {table:?}", layer.name);
            assert!((0..L).filter(is_of_spare).all(|b| world.read(layer, b) == Err(OF_SPARE)), "{}: {table:?}", layer.name);
            for b in (0..L).filter(|b| !is_of_spare(b)) {
                assert!(world.read(layer, b) == Ok(world.sector(place(&table.entries, b)).to_vec()), "{}: block {b}", layer.name);
            }
        }
        assert_eq!((world.read(layer, 7), world.read(layer, 70)), (Ok(block(3, 7)), Ok(block(4, 6))), "{}", layer.name);
    }
}

// ---- layers that are wrong

/// How a layer goes against the rules: in lists on few discs, in the order of lines, in the copy rule or in making.
fn violation(layer: &Layer) -> Option<String> {
    let lists = try_lists(layer, &[[0, DEFECTIVE, NONE], [NONE, NONE, NONE]], &MAPPED, 0).err();
    lists.or_else(|| try_lines(layer).err()).or_else(|| copy_rule(layer, 2).err()).or_else(|| making(layer).err())
}

#[test]
fn wrong_layers_are_found() {
    assert_eq!(violation(&PLAIN), None);
    for (call, layer) in wrong_layers() {
        let found = violation(&layer).unwrap_or_else(|| panic!("{}: it is not found", layer.name));
        let words = match call {
            "read" => READING,
            "open" => OPENING,
            "make" => MAKING,
            call => call,
        };
        assert!(found.contains(words), "{}: {found}", layer.name);
    }
}

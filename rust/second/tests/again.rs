//! Sparing again (document 02, slip 1), through both implementations: both identifiers of a table are read and the newer one is written, a
//! packet that is spared already is spared to another spare, its entry turns defective, and 18 never occurs.
//!
//! The discs have two packets, two to four tables and up to four spares. Every mix of identifiers and sequences in the copies is a start;
//! from each, lists of sparings with cuts. What the disc has to hold is worked out here from the words of 01 and 02.

#[path = "lists/landing.rs"]
mod landing;
#[path = "lists/maps.rs"]
mod maps;
#[path = "lists/met.rs"]
mod met;
#[path = "lists/sparing.rs"]
mod sparing;

use landing::Landing;
use met::Met;
use sparing::{flat, spared, Copies, Copy, Entry, Layout, Name, Parts, Seen, COPIES_DIFFER, FIRST_TABLE, LENT, NO_SPARE, NO_TABLE};
use std::collections::HashSet;
use tuormik::{BLANK, DEFECTIVE, MOST_ENTRIES, NONE, PACKET, PACKET_BYTES, RECORDED, SECTOR, UNREADABLE};
use tuormik_second::layer::{Layer, PLAIN, PROVED};

const CUT: u32 = 255;

// ---- the discs

const SECTORS: usize = 320;
const S: u32 = 64;
const L: u32 = 64;
const PACKETS: [u32; 2] = [0, 32];
/// In map order, and in the order of a new table's entries.
const TABLES: [u32; 4] = [32, 0, 128, 160];
const SPARES: [u32; 4] = [224, 192, 288, 256];

/// A disc of so many tables.
fn layout(tables: usize) -> Layout {
    Layout { sectors: SECTORS as u32, s: S, l: L, tables: TABLES[..tables].to_vec() }
}

/// All that is lent.
#[derive(Clone, PartialEq)]
struct World {
    disc: Vec<u8>,
    marks: Vec<u8>,
    maps: Vec<u8>,
    table: Vec<u32>,
    record: [u32; 5],
}

impl World {
    /// A disc without a copy: both packets and every spare are recorded, each block with the tag of its packet.
    fn new(tables: usize) -> World {
        let mut maps = vec![0; 64];
        assert_eq!((PLAIN.write_maps)(1, 3, 2048, &TABLES[..tables], &mut maps), 0);
        let mut world = World {
            disc: vec![0x11; SECTOR * SECTORS],
            marks: vec![BLANK; SECTORS],
            maps,
            table: vec![LENT; MOST_ENTRIES],
            record: [9; 5],
        };
        for p in PACKETS {
            world.put_packet(S + p, &packet(tag_in_place(p)));
        }
        for m in SPARES {
            world.put_packet(m, &packet(tag_of_spare(m)));
        }
        world
    }

    fn put_packet(&mut self, at: u32, bytes: &[u8]) {
        self.disc[SECTOR * at as usize..][..PACKET_BYTES].copy_from_slice(bytes);
        self.marks[at as usize..][..PACKET].fill(RECORDED);
    }

    fn put_copy(&mut self, at: u32, copy: &Copy) {
        self.disc[SECTOR * at as usize..][..SECTOR].copy_from_slice(&copy.bytes());
        self.marks[at as usize] = if copy.is_readable { RECORDED } else { UNREADABLE };
    }

    fn sector(&self, at: u32) -> &[u8] {
        &self.disc[SECTOR * at as usize..][..SECTOR]
    }

    fn open(&mut self, layer: &Layer) -> u32 {
        (layer.open)(&self.disc, &self.marks, &self.maps, S, L, &mut self.table, &mut self.record)
    }

    fn spare(&mut self, layer: &Layer, p: u32, packet: &[u8], cut: Cut) -> u32 {
        let World { disc, marks, maps, table, record } = self;
        (layer.spare_packet)(disc, marks, maps, S, L, table, record, p, packet, cut.at, cut.effect)
    }

    fn read(&self, layer: &Layer, b: u32) -> Result<Vec<u8>, u32> {
        let mut out = vec![0; SECTOR];
        match (layer.read)(&self.disc, &self.marks, &self.maps, S, L, &self.table, &self.record, b, &mut out) {
            0 => Ok(out),
            line => Err(line),
        }
    }
}

/// What a packet holds.
type Tag = u8;

/// Block i of it begins with i.
fn packet(tag: Tag) -> Vec<u8> {
    let mut bytes = vec![tag; PACKET_BYTES];
    bytes.chunks_exact_mut(SECTOR).enumerate().for_each(|(i, block)| block[0] = i as u8);
    bytes
}

fn tag_in_place(p: u32) -> Tag {
    200 + (p / PACKET as u32) as Tag
}

fn tag_of_spare(m: u32) -> Tag {
    210 + (m / PACKET as u32) as Tag
}

// ---- the rules, from the words of 01 and 02

/// What may be wrong with a sparing.
#[derive(Clone, Copy, PartialEq, Debug)]
enum Slip {
    Right,
    NewDefectiveFirst,
    OldSpareFree,
    OldEntryKept,
    LastFreeTaken,
    OlderNameKept,
    SuffixKept,
    CurrentFirst,
}

/// The entries after a sparing of packet p with a slip, and the spare that it takes.
fn misspared(entries: &[Entry], p: u32, slip: Slip) -> Option<(Vec<Entry>, u32)> {
    let mut parts = Parts::of(entries);
    let taken = match slip {
        _ if parts.free.is_empty() => return None,
        Slip::LastFreeTaken => parts.free.pop()?,
        _ => parts.free.remove(0),
    };
    let had = if slip == Slip::OldEntryKept { None } else { parts.give_up(p) };
    match (slip, had) {
        (_, None) => {}
        (Slip::NewDefectiveFirst, Some(m)) => parts.defective.insert(0, m),
        (Slip::OldSpareFree, Some(m)) => parts.free.insert(0, m),
        (_, Some(m)) => parts.defective.push(m),
    }
    parts.used.push((p, taken));
    Some((parts.entries(), taken))
}

/// The power fails at write `at`, counted from 1; the write is old, unreadable or whole.
#[derive(Clone, Copy, Debug)]
struct Cut {
    at: u32,
    effect: u32,
}

const NO_CUT: Cut = Cut { at: 0, effect: 0 };

impl Cut {
    /// What becomes of write n.
    fn landing(self, n: u32) -> Landing {
        landing::landing(n, self.at, self.effect)
    }
}

impl Copies {
    /// Each with its sector.
    fn placed(&self) -> impl Iterator<Item = (u32, &Copy)> {
        self.layout.tables.iter().copied().zip(&self.all)
    }

    /// They after a sparing that made this table.
    fn written(&self, entries: &[Entry], sequence: u32, cut: Cut, slip: Slip) -> Copies {
        let mut order = self.order();
        if slip == Slip::CurrentFirst {
            order.reverse();
        }
        let mut after = self.clone();
        for (i, place) in order.concat().into_iter().enumerate() {
            let old = &self.all[place];
            match cut.landing(FIRST_TABLE + i as u32) {
                Landing::Kept => {}
                Landing::Unreadable => after.all[place].is_readable = false,
                Landing::Done => {
                    let name = if slip == Slip::OlderNameKept { old.name } else { Name::Newer };
                    let suffix = if slip == Slip::SuffixKept { old.suffix } else { 0 };
                    after.all[place] = Copy { name, suffix, sequence, entries: entries.to_vec(), is_readable: true };
                }
            }
        }
        after
    }
}

// ---- a sparing is held against the rules

fn need(holds: bool, otherwise: impl FnOnce() -> String) -> Result<(), String> {
    holds.then_some(()).ok_or_else(otherwise)
}

/// A disc on the way through a list: its copies, and what the plain store has of its two packets.
#[derive(Clone)]
struct State {
    copies: Copies,
    held: [Tag; 2],
}

impl State {
    /// As the disc is first opened.
    fn of(copies: Copies) -> Result<State, u32> {
        let table = copies.opened()?;
        let tag = |p: u32| table.entries.iter().find(|entry| entry.0 == p).map_or(tag_in_place(p), |entry| tag_of_spare(entry.1));
        Ok(State { held: PACKETS.map(tag), copies })
    }
}

/// A sparing.
#[derive(Clone, Copy, Debug)]
struct Call {
    p: u32,
    tag: Tag,
    cut: Cut,
}

const ANSWER: &str = "answers";
const TABLE: &str = "a copy is not as 02 has it";
const LENT_TABLE: &str = "the lent table or the record";
const OPENING: &str = "the opening";
const READING: &str = "reads otherwise";

/// The lent table and the record are those of a table, and what is beyond them is kept.
fn holds_table(world: &World, table: &Copy, what: &str) -> Result<(), String> {
    need(table.is_lent(&world.table, &world.record), || format!("{what}: {LENT_TABLE} should be {table:?}"))
}

/// The table sectors hold these copies, byte by byte.
fn holds_copies(world: &World, copies: &Copies) -> Result<(), String> {
    copies.placed().try_for_each(|(at, copy)| {
        let mark = if copy.is_readable { RECORDED } else { UNREADABLE };
        need(world.marks[at as usize] == mark && world.sector(at) == copy.bytes(), || format!("{TABLE} at sector {at}: {copy:?}"))
    })
}

/// The spare was written as far as the cut lets it.
fn holds_spare(world: &World, before: &Saved, packet: &[u8], cut: Cut) -> Result<(), String> {
    (0..PACKET).try_for_each(|i| {
        let (at, old, new) = (before.spare as usize + i, &before.bytes[SECTOR * i..][..SECTOR], &packet[SECTOR * i..][..SECTOR]);
        let (bytes, mark) = match cut.landing(i as u32 + 1) {
            Landing::Done => (new, RECORDED),
            Landing::Kept => (old, before.marks[i]),
            Landing::Unreadable => (old, UNREADABLE),
        };
        need(world.sector(at as u32) == bytes && world.marks[at] == mark, || format!("sector {at} of the spare is not by the cut's rule"))
    })
}

/// The spare that a sparing writes, as it is before it.
struct Saved {
    spare: u32,
    bytes: Vec<u8>,
    marks: Vec<u8>,
}

impl Saved {
    fn of(world: &World, spare: u32) -> Saved {
        let at = spare as usize;
        Saved { spare, bytes: world.disc[SECTOR * at..][..PACKET_BYTES].to_vec(), marks: world.marks[at..][..PACKET].to_vec() }
    }

    fn put_back(&self, world: &mut World) {
        let at = self.spare as usize;
        world.disc[SECTOR * at..][..PACKET_BYTES].copy_from_slice(&self.bytes);
        world.marks[at..][..PACKET].copy_from_slice(&self.marks);
    }
}

/// What never happens to the entries, whatever the table is: the number of entries and the mapped starts stay, a defective entry stays so,
/// a spare that is free stays so but for the first, and the packet takes that one.
fn entries_keep_their_state(before: &[Entry], after: &[Entry], p: u32) -> Result<(), String> {
    let mapped = |entries: &[Entry], which: u32| entries.iter().filter(|e| e.0 == which).map(|e| e.1).collect::<Vec<u32>>();
    let sorted = |entries: &[Entry]| {
        let mut all: Vec<u32> = entries.iter().map(|entry| entry.1).collect();
        all.sort();
        all
    };
    let (old, new) = (mapped(before, DEFECTIVE), mapped(after, DEFECTIVE));
    let free = mapped(before, NONE);
    need(sorted(before) == sorted(after), || "the mapped starts change".to_string())?;
    need(new.starts_with(&old), || "a defective entry becomes free or used, or changes its place".to_string())?;
    need(new[old.len()..] == mapped(before, p), || "the packet's entry does not turn defective".to_string())?;
    need(mapped(after, NONE) == free[1..] && mapped(after, p) == free[..1], || {
        "another spare than the lowest free one is taken".to_string()
    })
}

/// Both packets as the plain store has them: their first and last blocks, and one between.
fn holds_blocks(layer: &Layer, world: &World, held: [Tag; 2], between: u32) -> Result<(), String> {
    for (p, tag) in PACKETS.into_iter().zip(held) {
        for i in [0, 1 + between % 30, 31] {
            let mut block = [tag; SECTOR];
            block[0] = i as u8;
            let read = world.read(layer, p + i);
            need(read.as_deref() == Ok(&block), || format!("block {} {READING}, {:?}", p + i, read.map(|bytes| bytes[1])))?;
        }
    }
    Ok(())
}

/// A sparing and the opening after it; the state that they leave.
fn spare_and_open(layer: &Layer, world: &mut World, state: &State, call: Call, met: &mut Met) -> Result<State, String> {
    let Call { p, tag, cut } = call;
    let table = state.copies.opened().map_err(|line| format!("the test's own state gives {line}"))?.clone();
    let Some((entries, spare)) = spared(&table.entries, p) else {
        let answer = world.spare(layer, p, &packet(tag), cut);
        need(answer == NO_SPARE, || format!("{ANSWER} {answer} where no entry is free"))?;
        met.note("no spare left for a packet that is spared", table.entries.iter().any(|entry| entry.0 == p));
        holds_copies(world, &state.copies)?;
        holds_table(world, &table, "refused")?;
        return Ok(state.clone());
    };
    let (before, bytes) = (Saved::of(world, spare), packet(tag));
    let is_cut = (1..FIRST_TABLE + state.copies.all.len() as u32).contains(&cut.at);
    let answer = world.spare(layer, p, &bytes, cut);
    need(answer == if is_cut { CUT } else { 0 }, || format!("{ANSWER} {answer}"))?;
    // done if a new copy is whole: the first is write 33
    let is_done = cut.landing(FIRST_TABLE) == Landing::Done;
    let after = state.copies.written(&entries, table.sequence + 1, cut, Slip::Right);
    let new = if is_done { Copy { sequence: table.sequence + 1, entries, ..table.clone() } } else { table.clone() };
    holds_copies(world, &after)?;
    holds_spare(world, &before, &bytes, cut)?;
    holds_table(world, if is_cut { &table } else { &new }, "the sparing")?;
    // what is opened, by the layer and by the rules
    let opened = after.opened().map_err(|line| format!("the rules give {line}"))?;
    need((opened.sequence, &opened.entries) == (new.sequence, &new.entries), || format!("the rules give {opened:?}, not {new:?}"))?;
    let answer = world.open(layer);
    need(answer == 0, || format!("{OPENING} answers {answer}"))?;
    holds_table(world, &new, OPENING)?;
    if is_done {
        entries_keep_their_state(&table.entries, &new.entries, p)?;
    }
    let mut held = state.held;
    if is_done {
        held[(p / PACKET as u32) as usize] = tag;
    }
    holds_blocks(layer, world, held, cut.at + u32::from(tag))?;
    note(met, state, &table, call, is_cut, is_done, &after);
    Ok(State { copies: after, held })
}

fn note(met: &mut Met, state: &State, table: &Copy, call: Call, is_cut: bool, is_done: bool, after: &Copies) {
    let is_again = table.entries.iter().any(|entry| entry.0 == call.p);
    let at = call.cut.at;
    met.note("spared", !is_again && !is_cut);
    met.note("spared again", is_again && !is_cut);
    met.note("spared again, cut before the tables", is_again && is_cut && at < FIRST_TABLE);
    met.note("spared again, cut at the first table, not done", is_again && at == FIRST_TABLE && !is_done);
    met.note("spared again, cut at the first table, done", is_again && at == FIRST_TABLE && is_done);
    met.note("spared again, cut at a later table", is_again && is_cut && at > FIRST_TABLE);
    let is_older = |copies: &Copies| copies.all.iter().any(|copy| copy.name == Name::Older);
    met.note("an older copy renewed", is_older(&state.copies) && !is_older(after));
    met.note("an older copy beside a newer one after a cut", is_cut && is_done && is_older(after));
    let defective = table.entries.iter().filter(|entry| entry.0 == DEFECTIVE).count();
    met.note("a defective entry kept", is_done && defective > 0);
    met.note("a defective entry added to others", is_done && is_again && defective > 0);
    let current = state.copies.current();
    let has = |name: Name| current.iter().any(|&i| state.copies.all[i].name == name);
    met.note("current copies of both names", has(Name::Newer) && has(Name::Older));
    let above = || state.copies.all.iter().filter(|copy| copy.is_readable && copy.sequence > table.sequence);
    met.note(
        "an older copy with the mark above",
        above().any(|copy| copy.name == Name::Older && copy.entries.iter().any(|e| e.0 == DEFECTIVE)),
    );
    met.note("a reserved original above", above().any(|copy| copy.entries.iter().any(|e| e.0 == RESERVED)));
}

// ---- all lists

/// The cuts of a sparing on a disc with some tables: none, also by a number past the last write, some in the packet, the last there among
/// them, and all in the tables.
fn cuts(tables: usize) -> Vec<Cut> {
    let last = PACKET as u32 + tables as u32;
    let in_packet: &[u32] = if tables == 2 { &[1, 17, 32] } else { &[32] };
    let cuts = in_packet.iter().copied().chain(FIRST_TABLE..=last).flat_map(|at| [0, 1, 2].map(|effect| Cut { at, effect }));
    [NO_CUT, Cut { at: last + 1, effect: 1 }].into_iter().chain(cuts).collect()
}

/// Lists of sparings from every start: every list, but that after copies which are the same for what follows, with as many sparings to go,
/// one list goes on for all.
struct Lists<'a> {
    layer: &'a Layer,
    cuts: Vec<Cut>,
    seen: HashSet<(Vec<Option<Seen>>, usize)>,
    states: u64,
    calls: u64,
    met: Met,
}

impl Lists<'_> {
    fn new(layer: &Layer, tables: usize) -> Lists<'_> {
        Lists { layer, cuts: cuts(tables), seen: HashSet::new(), states: 0, calls: 0, met: Met::default() }
    }

    /// All lists of so many sparings; the disc is left as it came.
    fn go(&mut self, world: &mut World, state: &State, left: usize) -> Result<(), String> {
        self.states += 1;
        let came = world.clone();
        for p in PACKETS {
            for cut in self.cuts.clone() {
                let call = Call { p, tag: (2 * left + (p / PACKET as u32) as usize) as Tag, cut };
                let spare = state.copies.opened().ok().and_then(|table| spared(&table.entries, p)).map(|(_, spare)| spare);
                let saved = spare.map(|spare| Saved::of(world, spare));
                self.calls += 1;
                let told = |what: String| format!("{what}: {call:?} after {:?}", state.copies);
                let after = spare_and_open(self.layer, world, state, call, &mut self.met).map_err(told)?;
                if left > 1 && self.seen.insert((after.copies.seen(), left - 1)) {
                    self.go(world, &after, left - 1)?;
                }
                saved.iter().for_each(|saved| saved.put_back(world));
                state.copies.placed().for_each(|(at, copy)| world.put_copy(at, copy));
                world.table[..came.record[1] as usize * 2].copy_from_slice(&came.table[..came.record[1] as usize * 2]);
                world.record = came.record;
            }
        }
        need(*world == came, || format!("other sectors or places change after {:?}", state.copies))
    }
}

/// An original that is neither used, defective nor free.
const RESERVED: u32 = 0xffff_fff1;

/// What a copy is at the start.
#[derive(Clone, Copy)]
enum Role {
    Stale,
    Newest,
    /// newer than the newest, but with a reserved original
    Reserved,
    Unreadable,
}

/// A copy of a role, where the newest table has these entries.
fn copy_of(name: Name, role: Role, entries: &[Entry]) -> Copy {
    let all_free = || entries.iter().map(|entry| (NONE, entry.1)).collect();
    let (sequence, entries) = match role {
        Role::Stale => (5, all_free()),
        Role::Newest | Role::Unreadable => (6, entries.to_vec()),
        Role::Reserved => {
            let mut entries = entries.to_vec();
            let free = entries.iter().position(|entry| entry.0 == NONE).unwrap_or(entries.len() - 1);
            entries[free].0 = RESERVED;
            (7, entries)
        }
    };
    let suffix = if name == Name::Older { 7 } else { 0 };
    Copy { name, suffix, sequence, entries, is_readable: !matches!(role, Role::Unreadable) }
}

/// An identifier and a role.
type Kind = (Name, Role);

/// Every choice of a kind for each of some tables.
fn mixes(tables: usize, kinds: &[Kind], entries: &[Entry]) -> Vec<Copies> {
    let one: Vec<Copy> = kinds.iter().map(|&(name, role)| copy_of(name, role, entries)).collect();
    let mut all = vec![Vec::new()];
    for _ in 0..tables {
        all = all.iter().flat_map(|copies| one.iter().map(move |copy| [&copies[..], std::slice::from_ref(copy)].concat())).collect();
    }
    all.into_iter().map(|all| Copies { layout: layout(tables), all }).collect()
}

/// The table of these originals.
fn table_of(originals: &[u32]) -> Vec<Entry> {
    originals.iter().copied().zip(SPARES).collect()
}

/// The disc with these copies is opened as the rules say, and all lists hold on it.
fn try_start(lists: &mut Lists, tables: usize, copies: Copies, most: usize) -> Result<(), String> {
    let mut world = World::new(tables);
    copies.placed().for_each(|(at, copy)| world.put_copy(at, copy));
    let (came, answer) = (world.clone(), world.open(lists.layer));
    match State::of(copies.clone()) {
        Err(line) => {
            need(answer == line && world == came, || format!("{OPENING} answers {answer}, not {line}, of {copies:?}"))?;
            lists.met.note("no copy counts", line == NO_TABLE);
            Ok(())
        }
        Ok(state) => {
            need(answer == 0, || format!("{OPENING} answers {answer} of {copies:?}"))?;
            holds_table(&world, copies.opened().map_err(|line| line.to_string())?, OPENING)?;
            holds_blocks(lists.layer, &world, state.held, 7)?;
            lists.go(&mut world, &state, most)
        }
    }
}

/// Every start with so many tables, of these kinds and first originals, and its lists of up to so many sparings.
fn try_all<'a>(layer: &'a Layer, tables: usize, kinds: &[Kind], firsts: &[&[u32]], most: usize) -> Result<Lists<'a>, String> {
    let (mut lists, mut starts) = (Lists::new(layer, tables), 0);
    for originals in firsts {
        for copies in mixes(tables, kinds, &table_of(originals)) {
            starts += 1;
            try_start(&mut lists, tables, copies, most)?;
        }
    }
    println!("{}: {tables} tables: {starts} starts, {} states, {} calls", layer.name, lists.states, lists.calls);
    Ok(lists)
}

fn hold(tables: usize, kinds: &[Kind], firsts: &[&[u32]]) {
    for layer in [&PLAIN, &PROVED] {
        match try_all(layer, tables, kinds, firsts, 3) {
            Ok(lists) => lists.met.all(),
            Err(what) => panic!("{}: {what}", layer.name),
        }
    }
}

const KINDS: [Kind; 8] = [
    (Name::Newer, Role::Newest),
    (Name::Older, Role::Newest),
    (Name::Newer, Role::Stale),
    (Name::Older, Role::Stale),
    (Name::Newer, Role::Reserved),
    (Name::Older, Role::Reserved),
    (Name::Newer, Role::Unreadable),
    (Name::Older, Role::Unreadable),
];

#[test]
fn two_tables() {
    let firsts: [&[u32]; 8] = [
        &[NONE, NONE],
        &[32, NONE],
        &[NONE, NONE, NONE],
        &[32, NONE, NONE],
        &[0, DEFECTIVE, NONE],
        &[32, NONE, NONE, NONE],
        &[0, DEFECTIVE, NONE, NONE],
        &[0, 32, DEFECTIVE, NONE],
    ];
    hold(2, &KINDS, &firsts);
}

#[test]
fn three_tables() {
    hold(3, &KINDS[..6], &[&[32, NONE, NONE], &[0, DEFECTIVE, NONE, NONE]]);
}

#[test]
fn four_tables() {
    hold(4, &KINDS[..5], &[&[0, DEFECTIVE, NONE, NONE]]);
}

// ---- the copy rule

/// Originals that a copy may have or not: of packets of the partition, above it, no multiple of 32, reserved, and beside those of defective
/// and free spares.
const ORIGINALS: [u32; 10] = [0, 32, L, 16, DEFECTIVE, NONE, DEFECTIVE + 1, NONE - 1, DEFECTIVE - 16, DEFECTIVE - 1];

/// Every table of up to four of these originals, under both identifiers: whether it is opened, and with which entries.
fn copy_rule(layer: &Layer) -> Result<[u32; 2], String> {
    let mut world = World::new(2);
    let mut answers = [0; 2];
    for count in 0..=SPARES.len() as u32 {
        for number in 0..ORIGINALS.len().pow(count) {
            let digit = |i: u32| number / ORIGINALS.len().pow(i) % ORIGINALS.len();
            let originals: Vec<u32> = (0..count).map(|i| ORIGINALS[digit(i)]).collect();
            for name in [Name::Newer, Name::Older] {
                let copy = Copy { name, suffix: 3, sequence: 4, entries: table_of(&originals), is_readable: true };
                TABLES[..2].iter().for_each(|&at| world.put_copy(at, &copy));
                world.table[..9].fill(LENT);
                let (answer, counts) = (world.open(layer), copy.counts(&layout(2)));
                need(answer == if counts { 0 } else { NO_TABLE }, || format!("{OPENING} answers {answer} of {copy:?}"))?;
                if counts {
                    holds_table(&world, &copy, OPENING)?;
                }
                answers[usize::from(counts)] += 1;
            }
        }
    }
    Ok(answers)
}

#[test]
fn tables_of_all_originals() {
    for layer in [&PLAIN, &PROVED] {
        match copy_rule(layer) {
            // neither, 0, 32 or both, then defective and free ones: 15 + 10 + 10 + 6 tables, and without defective ones 5 + 4 + 4 + 3
            Ok(answers) => assert_eq!(answers, [22_222 - 57, 57], "{}", layer.name),
            Err(what) => panic!("{}: {what}", layer.name),
        }
    }
}

/// The mapped start of a defective entry is one of all mapped starts: distinct, whole, outside the tables' packets; in the partition it is
/// not the packet of a used entry.
#[test]
fn mapped_starts_of_defective_entries() {
    for layer in [&PLAIN, &PROVED] {
        let mut world = World::new(2);
        let answers = [(288, 0), (128, 0), (224, 8), (289, 8), (0, 8), (32, 8), (S, 0), (S + 32, 8), (320, 8), (NONE, 8), (NONE - 31, 8)];
        for (mapped, answer) in answers {
            let entries = vec![(32, 224), (DEFECTIVE, mapped), (NONE, 192)];
            let copy = Copy { name: Name::Newer, suffix: 0, sequence: 4, entries, is_readable: true };
            TABLES[..2].iter().for_each(|&at| world.put_copy(at, &copy));
            assert_eq!(world.open(layer), answer, "{}: {mapped}", layer.name);
        }
    }
}

// ---- layers that are wrong

const SLIPS: [Slip; 8] = [
    Slip::Right,
    Slip::NewDefectiveFirst,
    Slip::OldSpareFree,
    Slip::OldEntryKept,
    Slip::LastFreeTaken,
    Slip::OlderNameKept,
    Slip::SuffixKept,
    Slip::CurrentFirst,
];

fn put(disc: &mut [u8], marks: &mut [u8], at: usize, bytes: &[u8], landing: Landing) {
    match landing {
        Landing::Kept => {}
        Landing::Unreadable => marks[at] = UNREADABLE,
        Landing::Done => {
            disc[SECTOR * at..][..SECTOR].copy_from_slice(bytes);
            marks[at] = RECORDED;
        }
    }
}

fn put_copy(disc: &mut [u8], marks: &mut [u8], at: u32, copy: &Copy) {
    put(disc, marks, at as usize, &copy.bytes(), if copy.is_readable { Landing::Done } else { Landing::Unreadable });
}

/// The sparing of the rules above with a slip; whether it is refused is asked of the plain implementation.
#[allow(clippy::too_many_arguments)]
fn spare_with<const SLIP: usize>(
    disc: &mut [u8],
    marks: &mut [u8],
    maps: &[u8],
    s: u32,
    l: u32,
    table: &mut [u32],
    record: &mut [u32],
    b: u32,
    packet: &[u8],
    at: u32,
    effect: u32,
) -> u32 {
    let (mut d, mut m, mut t, mut r) = (disc.to_vec(), marks.to_vec(), table.to_vec(), record.to_vec());
    let answer = (PLAIN.spare_packet)(&mut d, &mut m, maps, s, l, &mut t, &mut r, b, packet, at, effect);
    let entries: Vec<Entry> = table.chunks_exact(2).take(record[1] as usize).map(|entry| (entry[0], entry[1])).collect();
    let (0 | CUT, Some((after, spare))) = (answer, misspared(&entries, b, SLIPS[SLIP])) else { return answer };
    let cut = Cut { at, effect };
    for (i, block) in packet.chunks_exact(SECTOR).enumerate() {
        put(disc, marks, spare as usize + i, block, cut.landing(i as u32 + 1));
    }
    let copies = Copies::on(disc, marks, maps, s, l).written(&after, record[2] + 1, cut, SLIPS[SLIP]);
    for (at, copy) in copies.placed() {
        put_copy(disc, marks, at, copy);
    }
    if answer == 0 {
        record[2] += 1;
        // the entries of a table that has one more do not all go into the lent one
        table[..2 * entries.len()].copy_from_slice(&flat(&after)[..2 * entries.len()]);
    }
    answer
}

/// How a table may be read wrongly.
#[derive(Clone, Copy, PartialEq)]
enum Reading {
    ReservedAsDefective,
    ReservedAsFree,
    DefectiveAnywhere,
    OlderMarkCounts,
    OlderNotRead,
    NewerBeforeSequence,
    TenByNames,
}

const READINGS: [Reading; 7] = [
    Reading::ReservedAsDefective,
    Reading::ReservedAsFree,
    Reading::DefectiveAnywhere,
    Reading::OlderMarkCounts,
    Reading::OlderNotRead,
    Reading::NewerBeforeSequence,
    Reading::TenByNames,
];

/// A copy as a wrong reading takes it.
fn misread(copy: &Copy, reading: Reading, newer_counts: bool) -> Copy {
    let mut taken = copy.clone();
    let is_older = copy.name == Name::Older;
    let reserved_as = |as_if: u32| move |entry: &Entry| (if entry.0 == RESERVED { as_if } else { entry.0 }, entry.1);
    match reading {
        Reading::ReservedAsDefective => taken.entries = copy.entries.iter().map(reserved_as(DEFECTIVE)).collect(),
        Reading::ReservedAsFree => taken.entries = copy.entries.iter().map(reserved_as(NONE)).collect(),
        Reading::DefectiveAnywhere => taken.entries.sort_by_key(|entry| entry.0.max(DEFECTIVE - 1)),
        Reading::OlderMarkCounts => taken.name = Name::Newer,
        Reading::OlderNotRead => taken.is_readable &= !is_older,
        Reading::NewerBeforeSequence => taken.is_readable &= !(is_older && newer_counts),
        Reading::TenByNames => {}
    }
    taken
}

/// The plain opening of tables that are read wrongly.
fn open_with<const READING: usize>(disc: &[u8], marks: &[u8], maps: &[u8], s: u32, l: u32, table: &mut [u32], record: &mut [u32]) -> u32 {
    let copies = Copies::on(disc, marks, maps, s, l);
    let current = copies.current();
    let has = |name: Name| current.iter().any(|&i| copies.all[i].name == name);
    if READINGS[READING] == Reading::TenByNames && has(Name::Newer) && has(Name::Older) {
        return COPIES_DIFFER;
    }
    let (mut d, mut m) = (disc.to_vec(), marks.to_vec());
    let newer_counts = copies.all.iter().any(|copy| copy.name == Name::Newer && copy.counts(&copies.layout));
    for (at, copy) in copies.placed() {
        put_copy(&mut d, &mut m, at, &misread(copy, READINGS[READING], newer_counts));
    }
    (PLAIN.open)(&d, &m, maps, s, l, table, record)
}

/// Whether the lent table has an entry of the packet that begins at block b.
fn is_spared(table: &[u32], record: &[u32], b: u32) -> bool {
    table.chunks_exact(2).take(record[1] as usize).any(|entry| entry[0] == b)
}

/// Layers that are wrong in one place, and the words by which they are found.
fn wrong_layers() -> Vec<(&'static str, Layer)> {
    let spare = |name, spare_packet| Layer { name, spare_packet, ..PLAIN };
    let open = |name, open| Layer { name, open, ..PLAIN };
    let refuses = |name, spare_packet| (ANSWER, Layer { name, spare_packet, ..PLAIN });
    vec![
        (TABLE, spare("a new defective entry first", spare_with::<1>)),
        (TABLE, spare("the old spare free again", spare_with::<2>)),
        (TABLE, spare("the old entry kept", spare_with::<3>)),
        (TABLE, spare("the last free entry taken", spare_with::<4>)),
        (TABLE, spare("the older name kept", spare_with::<5>)),
        (TABLE, spare("the suffix kept", spare_with::<6>)),
        (TABLE, spare("current copies first", spare_with::<7>)),
        refuses("18 of a packet that is spared", |d, m, maps, s, l, t, r, b, packet, at, effect| {
            if is_spared(t, r, b) {
                18
            } else {
                (PLAIN.spare_packet)(d, m, maps, s, l, t, r, b, packet, at, effect)
            }
        }),
        refuses("19 of a packet that is spared", |d, m, maps, s, l, t, r, b, packet, at, effect| {
            if is_spared(t, r, b) {
                NO_SPARE
            } else {
                (PLAIN.spare_packet)(d, m, maps, s, l, t, r, b, packet, at, effect)
            }
        }),
        (OPENING, open("0xfffffff1 taken as defective", open_with::<0>)),
        (OPENING, open("0xfffffff1 taken as free", open_with::<1>)),
        (OPENING, open("defective entries anywhere", open_with::<2>)),
        (OPENING, open("an older copy with the mark", open_with::<3>)),
        (OPENING, open("the older name not read", open_with::<4>)),
        (OPENING, open("the newer name before the sequence", open_with::<5>)),
        (OPENING, open("line 10 by the names", open_with::<6>)),
    ]
}

/// How a layer goes against the rules, in lists of up to two sparings on few discs or in the copy rule.
fn violation(layer: &Layer) -> Option<String> {
    let firsts: [&[u32]; 2] = [&[32, NONE, NONE], &[0, DEFECTIVE, NONE, NONE]];
    try_all(layer, 2, &KINDS, &firsts, 2).err().or_else(|| copy_rule(layer).err())
}

#[test]
fn wrong_layers_are_found() {
    for right in [PLAIN, Layer { name: "the rules of this test", spare_packet: spare_with::<0>, ..PLAIN }] {
        assert_eq!(violation(&right), None, "{}", right.name);
    }
    for (words, layer) in wrong_layers() {
        let found = violation(&layer).unwrap_or_else(|| panic!("{}: it is not found", layer.name));
        assert!(found.contains(words), "{}: {found}", layer.name);
    }
}

// ---- by hand

/// A disc with these copies of one table in all of its tables.
fn world_with(tables: usize, name: Name, sequence: u32, entries: &[Entry]) -> World {
    let mut world = World::new(tables);
    let copy = Copy { name, suffix: 0, sequence, entries: entries.to_vec(), is_readable: true };
    TABLES[..tables].iter().for_each(|&at| world.put_copy(at, &copy));
    world
}

/// 17, 19 and 20 in this order, of a packet that is spared and of one that is not.
#[test]
fn lines_in_their_order() {
    let free = [(32, 224), (DEFECTIVE, 192), (NONE, 288)];
    for layer in [&PLAIN, &PROVED] {
        for (tables, sequence, entries, line) in [
            (1, u32::MAX, &free[..2], 17),
            (1, 0, &free[..], 17),
            (2, u32::MAX, &free[..2], 19),
            (2, 0, &free[..2], 19),
            (2, u32::MAX, &free[..], 20),
            (2, u32::MAX - 1, &free[..], 0),
        ] {
            for p in PACKETS {
                let mut world = world_with(tables, Name::Newer, sequence, entries);
                assert_eq!(world.open(layer), 0);
                let before = world.clone();
                assert_eq!(world.spare(layer, p, &packet(1), NO_CUT), line, "{}: {p}, {tables} tables, {entries:?}", layer.name);
                assert_eq!(world == before, line != 0);
                // lines before them
                let mut world = before.clone();
                for (b, bytes, line) in [(16, PACKET_BYTES, 12), (L, PACKET_BYTES, 12), (DEFECTIVE, PACKET_BYTES, 12), (p, 7, 3)] {
                    assert_eq!(world.spare(layer, b, &vec![1; bytes], NO_CUT), line, "{}: {b}", layer.name);
                }
                assert!(world == before, "{}: a refusal changes nothing", layer.name);
            }
        }
    }
}

/// Line 11 compares the marks of defective and free spares too.
#[test]
fn a_lent_table_with_another_mark() {
    for layer in [&PLAIN, &PROVED] {
        let mut world = world_with(2, Name::Newer, 3, &[(32, 224), (DEFECTIVE, 192), (NONE, 288)]);
        assert_eq!(world.open(layer), 0);
        assert_eq!(world.table[..6], [32, 224, DEFECTIVE, 192, NONE, 288]);
        for (at, to) in [(2, NONE), (4, DEFECTIVE), (2, DEFECTIVE + 1), (3, 256)] {
            let mut altered = world.clone();
            altered.table[at] = to;
            assert_eq!(altered.read(layer, 0), Err(11), "{}: {to} at {at}", layer.name);
            assert_eq!(altered.spare(layer, 32, &packet(1), NO_CUT), 11, "{}: {to} at {at}", layer.name);
        }
        for b in [DEFECTIVE, DEFECTIVE - 16, NONE] {
            assert_eq!(world.read(layer, b), Err(12), "{}", layer.name);
        }
    }
}

/// A made disc has the newer identifier in every copy; in one list a packet is spared twice, and the third time no spare is left.
#[test]
fn a_made_disc_in_a_list() {
    for layer in [&PLAIN, &PROVED] {
        for tables in 2..=4 {
            let mut world = World::new(tables);
            assert_eq!((layer.make)(&mut world.disc, &mut world.marks, &world.maps, S, L, &SPARES[..2]), 0);
            let made = Copy { name: Name::Newer, suffix: 0, sequence: 0, entries: table_of(&[NONE, NONE]), is_readable: true };
            assert_eq!(holds_copies(&world, &Copies { layout: layout(tables), all: vec![made.clone(); tables] }), Ok(()), "{}", layer.name);
            let spare = |tag: u32| [5, 32, 0, 0, PACKET_BYTES as u32 * tag, PACKET_BYTES as u32];
            let calls = [spare(0), spare(1), [6, 0, 0, 0, 0, 0], spare(2)];
            let pool = [packet(7), packet(8), packet(9)].concat();
            let mut replies = [99; 4];
            world.table.fill(LENT);
            let World { disc, marks, maps, table, record } = &mut world;
            let opened = (layer.run)(disc, marks, maps, S, L, table, record, calls.as_flattened(), &pool, &mut replies);
            assert_eq!((opened, replies), (0, [0, 0, 0, NO_SPARE]), "{}", layer.name);
            let twice = Copy { sequence: 2, entries: vec![(32, 192), (DEFECTIVE, 224)], ..made };
            assert_eq!(
                holds_copies(&world, &Copies { layout: layout(tables), all: vec![twice.clone(); tables] }),
                Ok(()),
                "{}",
                layer.name
            );
            assert_eq!(holds_table(&world, &twice, "the list"), Ok(()), "{}", layer.name);
            for b in 0..L {
                let expected = if b < 32 { vec![0; SECTOR] } else { packet(8)[SECTOR * (b as usize - 32)..][..SECTOR].to_vec() };
                assert!(world.read(layer, b) == Ok(expected), "{}: block {b}", layer.name);
            }
        }
    }
}

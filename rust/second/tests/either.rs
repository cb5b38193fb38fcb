//! Document 02, slip 11, through both implementations: where two saves of different blocks are accepted in both orders, then a commit and
//! an opening, nothing cut, every block reads alike in both orders. The discs, tables and records need only pass line 11, with a VAT on the
//! disc or none: 02 asks for no more.
//!
//! Here more is asked than 02 does: which saves are refused is foretold by lines 12, 15 and 16 of document 01; the commit and the opening
//! are accepted; the two blocks read as saved, and every other one as before.

#[path = "lists/met.rs"]
mod met;
#[path = "lists/world.rs"]
mod world;

use met::Met;
use tuormik::{BLANK, RECORDED, SECTOR, UNREADABLE};
use tuormik_second::layer::{Layer, PLAIN, PROVED};
use tuormik_second::plain;
use world::{data_sectors, icb_at, mend_checksum, no_cut, pick, Random, World, COUNTS, MOST, NO_ROOM, OUTSIDE, PASSES_AS_ICB};

const CUT: u32 = 255;

// ---- the blocks

/// What a block is.
#[derive(Clone, Copy, Debug, PartialEq)]
enum Kind {
    /// An ICB nowhere.
    Plain,
    /// It begins with the file of an empty VAT.
    File,
    /// The ICB of an empty VAT at this logical block; its file is embedded.
    Icb(u32),
    /// The same, where its file begins the block below it.
    IcbOverFile(u32),
}

struct Block {
    kind: Kind,
    bytes: Vec<u8>,
}

impl Block {
    fn plain(bytes: Vec<u8>) -> Block {
        Block { kind: Kind::Plain, bytes }
    }

    fn file() -> Block {
        Block { kind: Kind::File, bytes: [&icb_at(0)[176..][..36], &[0x5a; SECTOR - 36]].concat() }
    }

    fn icb(k: u32) -> Block {
        Block { kind: Kind::Icb(k), bytes: icb_at(k) }
    }

    fn icb_over_file(k: u32) -> Block {
        let mut bytes = icb_at(k);
        // short_ads: 8 bytes, an extent of 36 bytes in the block below
        bytes[34] = 0;
        bytes[172..].fill(0);
        (bytes[172], bytes[176]) = (8, 36);
        bytes[180..184].copy_from_slice(&(k - 1).to_le_bytes());
        bytes[10..12].copy_from_slice(&168u16.to_le_bytes());
        let crc = plain::crc(&bytes[16..][..168], 0);
        bytes[8..10].copy_from_slice(&crc.to_le_bytes());
        mend_checksum(&mut bytes);
        Block { kind: Kind::IcbOverFile(k), bytes }
    }

    /// An ICB but for its CRC.
    fn with_wrong_crc(k: u32) -> Block {
        let mut bytes = icb_at(k);
        bytes[100] ^= 1;
        Block::plain(bytes)
    }

    /// Whether it passes as a VAT ICB at a logical block, where another one is below it.
    fn passes(&self, at: u32, below: Option<&Block>) -> bool {
        match self.kind {
            Kind::Plain | Kind::File => false,
            Kind::Icb(k) => k == at,
            Kind::IcbOverFile(k) => k == at && below.is_some_and(|below| below.kind == Kind::File),
        }
    }
}

/// Blocks to save where NWA is `next`: those that are an ICB at one of the two places, and those that are at neither.
fn blocks(random: &mut Random, next: u32) -> [Block; 10] {
    [
        Block::plain(vec![0; SECTOR]),
        Block::plain(vec![0xff; SECTOR]),
        Block::plain((0..SECTOR).map(|_| random.next() as u8).collect()),
        Block::file(),
        Block::icb(next),
        Block::icb(next + 1),
        Block::icb(next + 2),
        Block::icb_over_file(next + 1),
        Block::with_wrong_crc(next),
        Block::with_wrong_crc(next + 1),
    ]
}

/// Pairs of numbers where there are n blocks.
fn numbers(n: u32) -> Vec<[u32; 2]> {
    let last = n.saturating_sub(1);
    let pairs = [[0, last], [last, n / 2], [n / 3, n / 2], [n, 0], [last, n], [n, n + 1], [MOST - 1, MOST], [last, u32::MAX]];
    pairs.into_iter().filter(|[v, w]| v != w).collect()
}

// ---- the property

/// A number and what is saved there.
type Save<'a> = (u32, &'a Block);

/// Two saves on a disc.
struct Case<'a> {
    world: &'a World,
    saves: [Save<'a>; 2],
    /// Which of the cuts that are none the calls have.
    way: usize,
}

impl Case<'_> {
    /// The numbers to read: all up to N + 2, on discs with many blocks in some of the cases only, and some far ones.
    fn to_read(&self) -> impl Iterator<Item = u32> {
        let (n, [(v, _), (w, _)]) = (self.world.record[1], self.saves);
        let step = if n < 600 || self.way.is_multiple_of(31) { 1 } else { 61 };
        (0..=n + 2).step_by(step).chain([v, w, n.saturating_sub(1), n, n + 1, n + 2, MOST - 1, MOST, u32::MAX])
    }

    fn told(&self) -> String {
        let ([(v, a), (w, b)], World { l, record, .. }) = (self.saves, self.world);
        format!("{v} {:?}, {w} {:?}, where N is {}, NWA {} and L {l}; way {}", a.kind, b.kind, record[1], record[2], self.way)
    }
}

/// The answer of a reading, and the lent bytes after it.
type Reading = (u32, Vec<u8>);

const LENT: u8 = 0xa5;

impl World {
    fn read(&self, layer: &Layer, number: u32) -> Reading {
        let World { disc, marks, maps, s, l, table, record } = self;
        let mut out = vec![LENT; SECTOR];
        let answer = (layer.read)(disc, marks, maps, *s, *l, table, record, number, &mut out);
        (answer, out)
    }
}

/// The save by which an order stops, 0 or 1, and the line that it is refused by.
type Stop = Option<(usize, u32)>;

/// Where an order stops by lines 12, 15 and 16.
fn foretold(world: &World, order: [Save; 2]) -> Stop {
    let (mut n, mut next) = (world.record[1], world.record[2]);
    for (i, (v, block)) in order.into_iter().enumerate() {
        let after = if v == n { n + 1 } else { n };
        let below = (i == 1).then_some(order[0].1);
        if v > n || v >= MOST {
            return Some((i, OUTSIDE));
        } else if block.passes(next, below) {
            return Some((i, PASSES_AS_ICB));
        } else if next + 1 + data_sectors(after) + 1 > world.l {
            return Some((i, NO_ROOM));
        }
        (n, next) = (after, next + 1);
    }
    None
}

fn need(holds: bool, otherwise: impl FnOnce() -> String) -> Result<(), String> {
    holds.then_some(()).ok_or_else(otherwise)
}

/// An order: its saves and, where both are accepted, a commit and an opening.
fn in_turn(layer: &Layer, world: &mut World, order: [Save; 2], way: usize) -> Result<Stop, String> {
    for (i, (v, block)) in order.into_iter().enumerate() {
        let before = world.clone();
        let answer = world.save(layer, v, &block.bytes, no_cut(way + i, 1));
        if answer != 0 {
            need(*world == before, || format!("a save refused by {answer} changes what is lent"))?;
            return Ok(Some((i, answer)));
        }
    }
    let writes = data_sectors(world.record[1]) + 1;
    let committed = world.commit(layer, no_cut(way + 2, writes));
    need(committed == 0, || format!("the commit answers {committed}"))?;
    let opened = world.open(layer);
    need(opened == 0, || format!("the opening answers {opened}"))?;
    need(world.record[4] == 0, || format!("the opening passes over {}", world.record[4]))?;
    Ok(None)
}

/// What became of the two orders, and what is read after them.
#[derive(PartialEq)]
struct Outcome {
    stops: [Stop; 2],
    ends: [World; 2],
    readings: Vec<(u32, Reading)>,
}

const DIFFERENT: &str = "differently in the two orders";
const NOT_AS_SAVED: &str = "not as it was saved";
const NOT_AS_BEFORE: &str = "not as before";
const NOT_FORETOLD: &str = "not as foretold";
const ROOM_PARTS: &str = "line 16 parts the orders";

/// What reading gives after both orders: the same.
fn alike(layer: &Layer, case: &Case, ends: &[World; 2]) -> Result<Vec<(u32, Reading)>, String> {
    let read = |u: u32| {
        let [one, other] = ends.each_ref().map(|end| end.read(layer, u));
        need(one == other, || format!("block {u} reads {DIFFERENT}, {} and {}", one.0, other.0))?;
        need(one.0 == 0 || one.1 == [LENT; SECTOR], || format!("block {u} is refused by {}, and the lent bytes change", one.0))?;
        Ok((u, one))
    };
    case.to_read().map(read).collect()
}

/// The two blocks read as saved, and every other as before.
fn as_expected(layer: &Layer, case: &Case, u: u32, reading: &Reading) -> Result<(), String> {
    match case.saves.iter().find(|(v, _)| *v == u) {
        Some((_, block)) => need(reading.0 == 0 && reading.1 == block.bytes, || format!("block {u} reads {NOT_AS_SAVED}, {}", reading.0)),
        None => need(*reading == case.world.read(layer, u), || format!("block {u} reads {NOT_AS_BEFORE}, {}", reading.0)),
    }
}

/// The property, of a case by a layer.
fn either_first(layer: &Layer, case: &Case) -> Result<Outcome, String> {
    let [v, w] = case.saves;
    let orders = [[v, w], [w, v]];
    // the two orders take their cuts from different places of the row
    let ways = [case.way, case.way + 4 + case.way / 15 % 11];
    let (mut stops, mut ends) = ([None; 2], [case.world.clone(), case.world.clone()]);
    for i in 0..2 {
        stops[i] = in_turn(layer, &mut ends[i], orders[i], ways[i])?;
    }
    let only_room = stops.iter().flatten().all(|&(_, line)| line == NO_ROOM);
    need(!only_room || stops[0].is_some() == stops[1].is_some(), || format!("{ROOM_PARTS}, {stops:?}"))?;
    let expected = orders.map(|order| foretold(case.world, order));
    need(stops == expected, || format!("stopped {stops:?}, {NOT_FORETOLD}, {expected:?}"))?;
    let readings = if stops == [None, None] { alike(layer, case, &ends)? } else { Vec::new() };
    readings.iter().try_for_each(|(u, reading)| as_expected(layer, case, *u, reading))?;
    Ok(Outcome { stops, ends, readings })
}

// ---- both implementations

/// The case holds of both, and they agree on all that it leaves.
fn holds(case: &Case, met: &mut Met) {
    let [plain, proved] = [&PLAIN, &PROVED].map(|layer| match either_first(layer, case) {
        Ok(outcome) => outcome,
        Err(what) => panic!("{}: {what}: {}", layer.name, case.told()),
    });
    assert!(plain == proved, "the two implementations differ: {}", case.told());
    note_stops(case, plain.stops, met);
    for (line, reads) in [(12, "a block reads 12"), (13, "a block reads 13"), (14, "a block reads 14"), (25, "a block reads 25")] {
        met.note(reads, plain.readings.iter().any(|(_, (answer, _))| *answer == line));
    }
}

fn note_stops(case: &Case, stops: [Stop; 2], met: &mut Met) {
    let ([(v, a), (w, b)], n) = (case.saves, case.world.record[1]);
    let both = stops == [None, None];
    let is_new = v == n || w == n;
    let is_over = [a, b].iter().any(|block| matches!(block.kind, Kind::IcbOverFile(_)));
    met.note("accepted in both orders", both);
    met.note("accepted in both orders, both existing", both && !is_new);
    met.note("accepted in both orders, one new", both && is_new);
    met.note("accepted in both orders, of equal bytes", both && a.bytes == b.bytes);
    met.note("accepted in both orders, the VAT in its ICB", both && data_sectors(n) == 0);
    met.note("accepted in both orders, the VAT in data sectors", both && data_sectors(n) > 0);
    met.note("accepted in both orders, an ICB without its file", both && is_over);
    // refused in one order only: the save's place, the line, and the block
    let alone = match stops {
        [Some((place, line)), None] => Some((place, line, [a, b][place].kind)),
        [None, Some((place, line))] => Some((place, line, [b, a][place].kind)),
        _ => None,
    };
    let by_file = matches!(alone, Some((1, PASSES_AS_ICB, Kind::IcbOverFile(_))));
    met.note("12 in one order only", matches!(alone, Some((_, OUTSIDE, _))));
    met.note("15 in one order only, as the first save", matches!(alone, Some((0, PASSES_AS_ICB, _))));
    met.note("15 in one order only, as the second save", matches!(alone, Some((1, PASSES_AS_ICB, _))) && !by_file);
    met.note("15 in one order only, by the bytes of the other block", by_file);
    let lines = stops.map(|stop| stop.map_or(0, |(_, line)| line));
    met.note("12 in both orders", lines == [OUTSIDE; 2]);
    met.note("15 in both orders", lines == [PASSES_AS_ICB; 2]);
    met.note("16 in both orders", lines == [NO_ROOM; 2]);
    met.note("refused in both orders by different lines", lines[0] != lines[1] && !lines.contains(&0));
}

/// Every pair of blocks on a disc, with a pair of numbers each.
fn each_pair_of_blocks(world: &World, random: &mut Random, mut each: impl FnMut(&Case)) {
    let (blocks, numbers) = (blocks(random, world.record[2]), numbers(world.record[1]));
    let mut way = random.below(1_000) as usize;
    for a in &blocks {
        for b in &blocks {
            let [v, w] = numbers[way % numbers.len()];
            each(&Case { world, saves: [(v, a), (w, b)], way });
            way += 1;
        }
    }
}

/// Discs with no VAT, with N at and about the steps of d and every little room left.
#[test]
fn discs_without_a_vat() {
    let (mut met, mut random) = (Met::default(), Random(11));
    for n in COUNTS.into_iter().chain([2, 3]) {
        for room in 0..=data_sectors(n) + 5 {
            let world = World::new(n, 12, 12 + room);
            each_pair_of_blocks(&world, &mut random, |case| holds(case, &mut met));
        }
    }
    met.all();
}

/// A disc after random calls, some of them cut; then sectors may have become blank or unreadable.
fn after_calls(layer: &Layer, random: &mut Random) -> World {
    let (n, next) = (pick(random, &[0, 0, 0, 2, 5, 9, 457, 458, 502, 503]), 1 + random.below(12));
    let mut world = World::new(n, next, next + data_sectors(n) + 1 + random.below(40));
    if n == 0 {
        world.make(layer);
    } else {
        assert_eq!(world.commit(layer, (0, 0)), 0, "{}", layer.name);
    }
    for _ in 0..random.below(25) {
        let (v, next) = (random.below(world.record[1] + 2), world.record[2]);
        let cut = (pick(random, &[0, 0, 0, 1, 2, 3]), random.below(3));
        let answer = match random.below(9) {
            0..=4 => {
                let blocks = blocks(random, next);
                world.save(layer, v, &pick(random, &blocks.each_ref()).bytes, cut)
            }
            5 => world.free(layer, v),
            6..=7 => world.commit(layer, cut),
            _ => CUT,
        };
        if answer == CUT {
            assert_eq!(world.open(layer), 0, "{}", layer.name);
        }
    }
    spoil(&mut world, random);
    world
}

fn spoil(world: &mut World, random: &mut Random) {
    let Some(one_in) = pick(random, &[None, Some(3), Some(12)]) else { return };
    let top = (world.s + world.record[2]) as usize - 1;
    for at in world.s as usize..=top {
        if random.below(one_in) == 0 {
            // NWA stays
            world.marks[at] = if at == top { UNREADABLE } else { pick(random, &[BLANK, RECORDED, UNREADABLE]) };
        }
    }
}

/// Discs as lists of calls leave them, and worse ones.
#[test]
fn discs_after_calls() {
    let (mut met, mut random) = (Met::default(), Random(0x11_2004));
    for i in 0..400 {
        let world = after_calls([&PLAIN, &PROVED][i % 2], &mut random);
        let (blocks, numbers) = (blocks(&mut random, world.record[2]), numbers(world.record[1]));
        for way in 20 * i..20 * i + 20 {
            let saves = pick(&mut random, &numbers).map(|number| (number, pick(&mut random, &blocks.each_ref())));
            holds(&Case { world: &world, saves, way }, &mut met);
        }
    }
    met.all();
}

// ---- layers that are wrong

/// Layers that are wrong in one place, and by what they are found: by what 02 says, or only by what is asked beyond it.
fn wrong_layers() -> [(&'static str, Layer); 7] {
    let save = |name, save_virtual| Layer { name, save_virtual, ..PLAIN };
    let commit = |name, commit| Layer { name, commit, ..PLAIN };
    let open = |name, open| Layer { name, open, ..PLAIN };
    let entry_zero = save("a save of an existing block sets entry 0", |d, m, maps, s, l, t, r, v, block, at, effect| {
        let entry = if v < r[1] { 0 } else { v };
        (PLAIN.save_virtual)(d, m, maps, s, l, t, r, entry, block, at, effect)
    });
    let nothing = save("a save writes nothing", |d, m, maps, s, l, t, r, v, block, at, effect| {
        (PLAIN.save_virtual)(&mut d.to_vec(), m, maps, s, l, t, r, v, block, at, effect)
    });
    let sorted = commit("a commit sorts the entries", |d, m, maps, s, l, t, r, at, effect| {
        let mut entries = t.to_vec();
        entries[..r[1] as usize].sort();
        (PLAIN.commit)(d, m, maps, s, l, &entries, r, at, effect)
    });
    let exchanged = commit("a commit exchanges the two newest entries", |d, m, maps, s, l, t, r, at, effect| {
        let mut entries = t.to_vec();
        let newest = [1, 2].map(|below| t[..r[1] as usize].iter().position(|&entry| entry == r[2] - below));
        if let [Some(i), Some(j)] = newest {
            entries.swap(i, j);
        }
        (PLAIN.commit)(d, m, maps, s, l, &entries, r, at, effect)
    });
    let no_blocks = open("an opening finds no blocks", |d, m, maps, s, l, t, r| {
        let answer = (PLAIN.open)(d, m, maps, s, l, t, r);
        r[1] = 0;
        answer
    });
    // the orders still read alike: the commit lays its ICB above
    let any_icb = save("a save takes a VAT ICB", |d, m, maps, s, l, t, r, v, block, at, effect| {
        let sector = SECTOR * (s + r[2]) as usize;
        let answer = (PLAIN.save_virtual)(d, m, maps, s, l, t, r, v, &[0; SECTOR], at, effect);
        if answer == 0 {
            d[sector..][..SECTOR].copy_from_slice(block);
        }
        answer
    });
    let more_room = save("a save of an existing block leaves room for a new one", |d, m, maps, s, l, t, r, v, block, at, effect| {
        if v < r[1] && r[2] + 1 + data_sectors(r[1] + 1) + 1 > l {
            return NO_ROOM;
        }
        (PLAIN.save_virtual)(d, m, maps, s, l, t, r, v, block, at, effect)
    });
    [
        (DIFFERENT, entry_zero),
        (DIFFERENT, nothing),
        (DIFFERENT, sorted),
        (NOT_AS_SAVED, exchanged),
        (NOT_AS_BEFORE, no_blocks),
        (NOT_FORETOLD, any_icb),
        (ROOM_PARTS, more_room),
    ]
}

/// How a layer goes against the property, on few discs.
fn violations(layer: &Layer) -> Vec<String> {
    let (mut found, mut random) = (Vec::new(), Random(7));
    for (n, room) in [(4, 3), (4, 5), (457, 3), (458, 4)] {
        let world = World::new(n, 12, 12 + room);
        each_pair_of_blocks(&world, &mut random, |case| found.extend(either_first(layer, case).err()));
    }
    found
}

#[test]
fn wrong_layers_are_found() {
    assert!(violations(&PLAIN).is_empty());
    for (words, layer) in wrong_layers() {
        let found = violations(&layer);
        let is_found = |words: &str| found.iter().any(|what| what.contains(words));
        assert!(is_found(words), "{}: {found:#?}", layer.name);
        assert_eq!(is_found(DIFFERENT), words == DIFFERENT, "{}: {found:#?}", layer.name);
    }
}

// ---- by hand

/// A made disc of 12 sectors, all in the partition, whose blocks 0 and 1 are ones: the ICB is at 3, and NWA is 4.
fn two_blocks(layer: &Layer) -> World {
    let mut world = World { s: 0, l: 12, ..World::new(0, 0, 7) };
    world.make(layer);
    assert_eq!(world.record, [0, 0, 1, 0, 0]);
    assert_eq!([0, 1].map(|v| world.save(layer, v, &[1; SECTOR], (0, 0))), [0, 0]);
    assert_eq!(world.record, [0, 2, 3, 0, 0]);
    assert_eq!(world.commit(layer, (0, 0)), 0);
    assert_eq!((&world.record[..], &world.table[..2]), (&[0, 2, 4, 3, 0][..], &[1, 2][..]));
    world
}

/// Twos and threes over the ones, in both orders. Then the ICB of an empty VAT at logical block 4 instead of the threes: it is refused as
/// the first save and accepted as the second, and block 1 does not read alike.
#[test]
fn orders_by_hand() {
    let [ones, twos, threes] = [1, 2, 3].map(|byte| vec![byte; SECTOR]);
    let icb = icb_at(4);
    // each save with its answer and NWA after it; NWA after the commit; the entries and the blocks 0 and 1 then
    let orders = [
        ([(0, &twos, 0, 5), (1, &threes, 0, 6)], 7, [4, 5], [&twos, &threes]),
        ([(1, &threes, 0, 5), (0, &twos, 0, 6)], 7, [5, 4], [&twos, &threes]),
        ([(1, &icb, PASSES_AS_ICB, 4), (0, &twos, 0, 5)], 6, [4, 2], [&twos, &ones]),
        ([(0, &twos, 0, 5), (1, &icb, 0, 6)], 7, [4, 5], [&twos, &icb]),
    ];
    for layer in [&PLAIN, &PROVED] {
        for (saves, end, entries, blocks) in orders {
            let mut world = two_blocks(layer);
            for (v, block, answer, next) in saves {
                assert_eq!(world.save(layer, v, block, (0, 0)), answer, "{}", layer.name);
                assert_eq!(world.record, [0, 2, next, 3, 0], "{}", layer.name);
            }
            assert_eq!(world.commit(layer, (0, 0)), 0, "{}", layer.name);
            assert_eq!(world.record, [0, 2, end, end - 1, 0], "{}", layer.name);
            assert_eq!(world.open(layer), 0, "{}", layer.name);
            assert_eq!(world.record, [0, 2, end, end - 1, 0], "{}", layer.name);
            assert_eq!(world.table[..2], entries, "{}", layer.name);
            for (u, block) in [0, 1].into_iter().zip(blocks) {
                assert!(world.read(layer, u) == (0, block.clone()), "{}: block {u}", layer.name);
            }
            assert!(world.read(layer, 2) == (OUTSIDE, vec![LENT; SECTOR]), "{}", layer.name);
        }
    }
}

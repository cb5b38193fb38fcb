//! How long the calls of the proved library take, as ratios to the plain implementation, both measured by turns in one run.
//!
//!     cargo run --release -p tuormik-second --bin ratios -- [SECTORS .. | crc | bitmap]
//!
//! Prints the tables of docs/BENCHMARKS.md, with `crc` that of the CRC alone and with `bitmap` that of the space bitmap alone. Each time is
//! the least of many; a disc is put back as it was after every call.

use std::hint::black_box;
use std::process::ExitCode;
use std::time::{Duration, Instant};
use tuormik::numbers::grouped;
use tuormik::{BLANK, COMMIT, MOST_ENTRIES, NONE, PACKET, PACKET_BYTES, RECORDED, SECTOR};
use tuormik_second::layer::{Layer, PLAIN, PROVED};
use tuormik_second::plain;

const SIZES: [usize; 4] = [3_330, 33_300, 333_000, 1_000_000];

/// A lent disc.
struct World {
    disc: Vec<u8>,
    marks: Vec<u8>,
    maps: Vec<u8>,
    s: u32,
    l: u32,
    table: Vec<u32>,
    record: [u32; 5],
}

/// The least time of each implementation.
#[derive(Clone, Copy)]
struct Times {
    plain: Duration,
    proved: Duration,
}

impl Times {
    fn ratio(self) -> f64 {
        self.proved.as_secs_f64() / self.plain.as_secs_f64().max(1e-12)
    }
}

#[repr(C)]
struct Timespec {
    seconds: i64,
    nanoseconds: i64,
}

extern "C" {
    fn clock_gettime(clock: i32, time: *mut Timespec) -> i32;
}

/// The time that this thread has run (`CLOCK_THREAD_CPUTIME_ID` of Linux).
fn cpu_time() -> Duration {
    const THREAD_CPU_TIME: i32 = 3;
    let mut time = Timespec { seconds: 0, nanoseconds: 0 };
    // SAFETY: the C library's function writes one timespec, which is lent to it.
    unsafe { clock_gettime(THREAD_CPU_TIME, &mut time) };
    Duration::new(time.seconds as u64, time.nanoseconds as u32)
}

/// Measures a call by turns for about a second, at least 4 times each: a quick call some ten thousand times, so that what else the
/// machine does in between does not decide.
fn measure(world: &mut World, call: impl Fn(&Layer, &mut World) -> u32, put_back: impl Fn(&mut World)) -> Result<Times, String> {
    measure_for(Duration::from_secs(1), world, call, put_back)
}

/// The same for about so long, on anything that is lent.
fn measure_for<W>(long: Duration, world: &mut W, call: impl Fn(&Layer, &mut W) -> u32, put_back: impl Fn(&mut W)) -> Result<Times, String> {
    let mut least = [Duration::MAX; 2];
    let begun = Instant::now();
    for round in 0usize.. {
        for turn in 0..2 {
            // who goes first changes, so that neither always finds the other's lines in the cache
            let which = (round + turn) % 2;
            let layer = if which == 0 { &PLAIN } else { &PROVED };
            let (cpu, from) = (cpu_time(), Instant::now());
            let answer = call(layer, world);
            let mut took = from.elapsed();
            // a call that takes long is interrupted by other programs, whose time is not its own
            if took > Duration::from_millis(1) {
                took = took.min(cpu_time().saturating_sub(cpu));
            }
            put_back(world);
            if answer != 0 {
                return Err(format!("{} answered {answer}", layer.name));
            }
            least[which] = least[which].min(took);
        }
        if round >= 3 && begun.elapsed() > long {
            break;
        }
    }
    Ok(Times { plain: least[0], proved: least[1] })
}

/// The rows of a table, each with a time for each size.
struct Rows {
    rows: Vec<(String, Vec<Option<Times>>)>,
    column: usize,
}

impl Rows {
    fn add(&mut self, name: &str, times: Result<Times, String>) -> Result<(), String> {
        let times = times.map_err(|why| format!("{name}: {why}"))?;
        eprintln!("  {name}: {}", shown(times.ratio()));
        let at = match self.rows.iter().position(|row| row.0 == name) {
            Some(at) => at,
            None => {
                self.rows.push((name.to_string(), Vec::new()));
                self.rows.len() - 1
            }
        };
        let row = &mut self.rows[at].1;
        row.resize(self.column, None);
        row.push(Some(times));
        Ok(())
    }
}

fn duration(time: Duration) -> String {
    let ns = time.as_nanos() as f64;
    match ns {
        _ if ns < 1e3 => format!("{ns:.0} ns"),
        _ if ns < 1e6 => format!("{:.1} µs", ns / 1e3),
        _ if ns < 1e9 => format!("{:.1} ms", ns / 1e6),
        _ => format!("{:.2} s", ns / 1e9),
    }
}

/// A ratio to two places; below a hundredth to two digits.
fn shown(ratio: f64) -> String {
    let places = if ratio > 0.0 && ratio < 0.01 { (1.0 - ratio.log10().floor()) as usize } else { 2 };
    format!("{ratio:.places$}")
}

/// User data: bytes that no sector of which has a tag.
fn fill(disc: &mut [u8]) {
    let mut state = 1u32;
    let pattern: Vec<u8> = (0..PACKET_BYTES)
        .map(|_| {
            state = state.wrapping_mul(1_664_525).wrapping_add(1_013_904_223);
            (state >> 24) as u8 | 1
        })
        .collect();
    for part in disc.chunks_mut(PACKET_BYTES) {
        part.copy_from_slice(&pattern[..part.len()]);
    }
}

/// A block for logical block k whose tag is right and whose CRC, of 2,032 bytes, is not.
fn wrong_crc(k: u32) -> [u8; SECTOR] {
    let mut block = [0x5a; SECTOR];
    block[..16].copy_from_slice(&[5, 1, 2, 0, 0, 0, 0, 0, 0, 0, 0xf0, 7, 0, 0, 0, 0]);
    block[12..16].copy_from_slice(&k.to_le_bytes());
    let crc = plain::crc(&block[16..], 0) ^ 1;
    block[8..10].copy_from_slice(&crc.to_le_bytes());
    block[4] = block[..16].iter().fold(0u8, |sum, &b| sum.wrapping_add(b));
    block
}

const ONCE_START: u32 = 32;

/// A write-once disc whose partition has an empty VAT and user data up to `next`; its record and table are of n entries.
fn once(sectors: usize, next: u32, n: u32) -> Result<World, String> {
    let mut world = World {
        disc: vec![0; SECTOR * sectors],
        marks: vec![BLANK; sectors],
        maps: vec![0; 70],
        s: ONCE_START,
        l: sectors as u32 - ONCE_START,
        table: vec![0; MOST_ENTRIES],
        record: [0; 5],
    };
    plain::write_maps(0, 0, 0, &[], &mut world.maps);
    fill(&mut world.disc);
    let made = plain::make(&mut world.disc, &mut world.marks, &world.maps, world.s, world.l, &[]);
    let from = world.s as usize;
    world.marks[from..from + next as usize].fill(RECORDED);
    for (i, entry) in world.table.iter_mut().enumerate() {
        *entry = if i % 7 == 0 { NONE } else { (i as u32 * 31) % next };
    }
    world.record = [0, n, next, 0, next - 1];
    if made != 0 {
        return Err(format!("a disc of {sectors} sectors is not made: {made}"));
    }
    Ok(world)
}

/// A VAT of n entries committed at the end of what is recorded.
fn commit_plainly(world: &mut World) -> Result<(), String> {
    let World { disc, marks, maps, s, l, table, record } = world;
    match plain::commit(disc, marks, maps, *s, *l, table, record, 0, 0) {
        0 => Ok(()),
        answer => Err(format!("a commit answered {answer}")),
    }
}

fn open(layer: &Layer, w: &mut World) -> u32 {
    (layer.open)(&w.disc, &w.marks, &w.maps, w.s, w.l, &mut w.table, &mut w.record)
}

fn read(layer: &Layer, w: &mut World, number: u32) -> u32 {
    let mut out = [0; SECTOR];
    (layer.read)(&w.disc, &w.marks, &w.maps, w.s, w.l, &w.table, &w.record, number, &mut out)
}

fn save_virtual(layer: &Layer, w: &mut World, v: u32, block: &[u8]) -> u32 {
    (layer.save_virtual)(&mut w.disc, &mut w.marks, &w.maps, w.s, w.l, &mut w.table, &mut w.record, v, block, 0, 0)
}

/// Blank again from `next` on, with the record of n entries.
fn put_back(world: &mut World, next: u32, n: u32) {
    let from = (world.s + next) as usize;
    let end = (from + 16).min(world.marks.len());
    world.marks[from..end].fill(BLANK);
    world.record = [0, n, next, 0, next - 1];
}

fn measure_once(sectors: usize, rows: &mut Rows) -> Result<(), String> {
    let l = sectors as u32 - ONCE_START;
    let nothing = |_: &mut World| ();

    // nearly empty
    let mut world = once(sectors, 16, 1)?;
    commit_plainly(&mut world)?;
    rows.add("open, clean, nearly empty", measure(&mut world, open, nothing))?;

    // half full, for the calls
    let next = l / 2;
    let block = [0x77; SECTOR];
    let mut world = once(sectors, next, 458)?;
    rows.add("read, write-once", measure(&mut world, |y, w| read(y, w, 1), nothing))?;
    let undo = |w: &mut World| {
        put_back(w, next, 458);
        w.table[458] = 0;
    };
    rows.add("save_virtual", measure(&mut world, |y, w| save_virtual(y, w, 458, &block), undo))?;
    let free = |y: &Layer, w: &mut World| (y.free_virtual)(&w.disc, &w.marks, &w.maps, w.s, w.l, &mut w.table, &mut w.record, 1);
    rows.add("free_virtual", measure(&mut world, free, |w| w.table[1] = 31 % next))?;
    let full = |y: &Layer, w: &mut World| (y.fullness)(&w.disc, &w.marks, &w.maps, w.s, w.l, &w.table, &w.record, &mut [0]);
    rows.add("fullness", measure(&mut world, full, nothing))?;
    measure_forecast(sectors, rows)?;
    for n in [1, 458, 4096] {
        put_back(&mut world, next, n);
        let commit = |y: &Layer, w: &mut World| (y.commit)(&mut w.disc, &mut w.marks, &w.maps, w.s, w.l, &w.table, &mut w.record, 0, 0);
        rows.add(&format!("commit, N = {}", grouped(n as usize)), measure(&mut world, commit, |w| put_back(w, next, n)))?;
    }

    // full, its VAT at the end
    let mut world = once(sectors, l - 1, 458)?;
    commit_plainly(&mut world)?;
    rows.add("open, clean, full", measure(&mut world, open, nothing))?;
    put_back(&mut world, l - 10, 4096);
    world.table.iter_mut().filter(|entry| **entry != NONE).for_each(|entry| *entry %= l - 10);
    commit_plainly(&mut world)?;
    rows.add("open, clean, full, N = 4,096", measure(&mut world, open, nothing))?;

    // full, its VAT at the start
    let mut world = once(sectors, l, 0)?;
    rows.add("open, dirty: user data passed over", measure(&mut world, open, nothing))?;
    for k in 1..l {
        let at = SECTOR * (world.s + k) as usize;
        world.disc[at..at + SECTOR].copy_from_slice(&wrong_crc(k));
    }
    rows.add("open, dirty: right tags with wrong CRCs passed over", measure(&mut world, open, nothing))
}

/// A forecast, which the plain implementation makes by carrying the list out on a copy of the disc: from an empty disc on, 4,095 new blocks,
/// or as many as fit, and a commit.
fn measure_forecast(sectors: usize, rows: &mut Rows) -> Result<(), String> {
    let mut world = once(sectors, 1, 0)?;
    let most = (MOST_ENTRIES as u32 - 1).min(world.l - 16);
    let items: Vec<u32> = (0..most).chain([COMMIT]).collect();
    let forecast = |y: &Layer, w: &mut World| {
        let mut result = [0; 3];
        let answer = (y.forecast)(&w.disc, &w.marks, &w.maps, w.s, w.l, &w.table, &w.record, &items, &mut result);
        // an item that is refused counts as a refusal here
        answer.max(result[0])
    };
    rows.add("forecast of up to 4,095 new blocks and a commit", measure(&mut world, forecast, |_| ()))
}

/// The spares of a rewritable disc, behind its tables: how many there are, how many of them are used and defective, whether the partition
/// begins with them or after them, and what its rows are called by.
struct Spares {
    all: u32,
    used: u32,
    defective: u32,
    are_inside: bool,
    called: &'static str,
}

const SPARES: Spares = Spares { all: 64, used: 30, defective: 0, are_inside: false, called: "" };
/// As many as a table of 2,048 bytes holds.
const MOST_SPARES: Spares = Spares { all: 249, used: 120, defective: 8, are_inside: false, called: ", 249 entries" };
const MOST_INSIDE: Spares = Spares { are_inside: true, called: ", 249 entries, spares inside", ..MOST_SPARES };

const TABLES: [u32; 2] = [0, 32];

impl Spares {
    /// The sectors before the partition: the packets of the tables, and of the spares where these are outside.
    fn start(&self) -> u32 {
        PACKET as u32 * (TABLES.len() as u32 + if self.are_inside { 0 } else { self.all })
    }

    /// The first block that belongs to no spare.
    fn first(&self) -> u32 {
        PACKET as u32 * if self.are_inside { self.all } else { 0 }
    }

    /// The first block of the packet that is measured, which is not spared: the one after the next.
    fn unspared(&self) -> u32 {
        self.first() + PACKET as u32 * (self.used + 1)
    }

    /// Whether a disc of so many sectors has room for them and for the packets that are measured.
    fn fit(&self, sectors: usize) -> bool {
        (self.start() + self.unspared()) as usize + PACKET <= sectors
    }
}

/// A rewritable disc with so many spares: the first packets are spared, as many as are used, and as many of these as are defective once more.
fn rewritable(sectors: usize, spared: &Spares) -> Result<World, String> {
    let l = (sectors as u32 - spared.start()) / PACKET as u32 * PACKET as u32;
    let mut world = World {
        disc: vec![0; SECTOR * sectors],
        marks: vec![RECORDED; sectors],
        maps: vec![0; 64],
        s: spared.start(),
        l,
        table: vec![0; MOST_ENTRIES],
        record: [0; 5],
    };
    plain::write_maps(1, 0, 2048, &TABLES, &mut world.maps);
    let spares: Vec<u32> = (0..spared.all).map(|i| PACKET as u32 * (TABLES.len() as u32 + i)).collect();
    fill(&mut world.disc);
    let World { disc, marks, maps, s, l, table, record } = &mut world;
    let mut answers = vec![plain::make(disc, marks, maps, *s, *l, &spares), plain::open(disc, marks, maps, *s, *l, table, record)];
    let packet = vec![0x33; PACKET_BYTES];
    for i in (0..spared.used).chain(0..spared.defective) {
        let b = spared.first() + PACKET as u32 * i;
        answers.push(plain::spare_packet(disc, marks, maps, *s, *l, table, record, b, &packet, 0, 0));
    }
    match answers.iter().find(|answer| **answer != 0) {
        Some(answer) => Err(format!("a rewritable disc of {sectors} sectors is not made: {answer}")),
        None => Ok(world),
    }
}

fn measure_rewritable(sectors: usize, spared: &Spares, rows: &mut Rows) -> Result<(), String> {
    if !spared.fit(sectors) {
        return Ok(());
    }
    let mut world = rewritable(sectors, spared)?;
    measure_blocks(&mut world, spared, rows)?;
    measure_packets(&mut world, spared, rows)
}

/// Where spares are in the partition, the calls on blocks tell what that takes.
fn measure_inside(sectors: usize, rows: &mut Rows) -> Result<(), String> {
    if !MOST_INSIDE.fit(sectors) {
        return Ok(());
    }
    measure_blocks(&mut rewritable(sectors, &MOST_INSIDE)?, &MOST_INSIDE, rows)
}

fn measure_blocks(world: &mut World, spared: &Spares, rows: &mut Rows) -> Result<(), String> {
    let nothing = |_: &mut World| ();
    let (first, b, called) = (spared.first(), spared.unspared(), spared.called);
    let block = [0x44; SECTOR];
    rows.add(&format!("open, rewritable{called}"), measure(world, open, nothing))?;
    rows.add(&format!("read, rewritable{called}"), measure(world, |y, w| read(y, w, first + 33), nothing))?;
    let save = |y: &Layer, w: &mut World| {
        (y.save_block)(&mut w.disc, &mut w.marks, &w.maps, w.s, w.l, &w.table, &mut w.record, b + 8, &block, 0, 0)
    };
    rows.add(&format!("save_block{called}"), measure(world, save, nothing))
}

fn measure_packets(world: &mut World, spared: &Spares, rows: &mut Rows) -> Result<(), String> {
    let (b, called) = (spared.unspared(), spared.called);
    let (table, record) = (world.table.clone(), world.record);
    let copies: Vec<Vec<u8>> = TABLES.iter().map(|&t| world.disc[SECTOR * t as usize..][..SECTOR].to_vec()).collect();
    let packet = vec![0x55; PACKET_BYTES];
    let save =
        |y: &Layer, w: &mut World| (y.save_packet)(&mut w.disc, &mut w.marks, &w.maps, w.s, w.l, &w.table, &mut w.record, b, &packet, 0, 0);
    rows.add(&format!("save_packet{called}"), measure(world, save, |_| ()))?;
    let spare = |y: &Layer, w: &mut World, b: u32| {
        (y.spare_packet)(&mut w.disc, &mut w.marks, &w.maps, w.s, w.l, &mut w.table, &mut w.record, b, &packet, 0, 0)
    };
    let undo = |w: &mut World| {
        for (&t, copy) in TABLES.iter().zip(&copies) {
            w.disc[SECTOR * t as usize..][..SECTOR].copy_from_slice(copy);
        }
        w.table.copy_from_slice(&table);
        w.record = record;
    };
    rows.add(&format!("spare_packet{called}"), measure(world, |y, w| spare(y, w, b), undo))?;
    // the packet in the middle of those that are spared
    let again = spared.first() + PACKET as u32 * (spared.used / 2);
    rows.add(&format!("spare_packet, spared already{called}"), measure(world, |y, w| spare(y, w, again), undo))
}

/// On a disc so small that nothing else counts: a block to save whose tag is right, so that its CRC is tested.
fn measure_crc() -> Result<Times, String> {
    let mut world = once(64, 8, 1)?;
    let block = wrong_crc(8);
    measure(&mut world, |y, w| save_virtual(y, w, 1, &block), |w| put_back(w, 8, 1))
}

type Crc = fn(&[u8], u16) -> u16;

/// The ways to a CRC: those of the proved library, the third of which its calls use, and those of the plain implementation, the first of
/// which its calls use.
const CRCS: [(&str, Crc); 5] = [
    ("byte by byte", tuormik::crc_by_bytes),
    ("word by word", tuormik::crc_by_words),
    ("in use", tuormik::crc),
    ("plain, one table", plain::crc),
    ("plain, four tables", plain::crc_by_words),
];

const BY_BYTES: usize = 0;
const BY_WORDS: usize = 1;
const IN_USE: usize = 2;

/// The fewest and the most bytes that the CRC of an ICB covers, and the most that a tag can name.
const CRC_LENGTHS: [usize; 3] = [160, 2_032, 65_535];

/// The least time of each way, for some CRCs in a row.
struct CrcTimes {
    length: usize,
    in_a_row: u32,
    least: [Duration; CRCS.len()],
}

impl CrcTimes {
    fn ratio(&self, a: usize, b: usize) -> f64 {
        self.least[a].as_secs_f64() / self.least[b].as_secs_f64().max(1e-12)
    }
}

/// Measures the ways by turns for about a second, on the same bytes. Few bytes are taken many times in a row, from the CRC of the time
/// before, so that reading the clock does not count.
fn measure_crcs(length: usize) -> Result<CrcTimes, String> {
    let mut bytes = vec![0; length];
    fill(&mut bytes);
    let in_a_row = (PACKET_BYTES / length) as u32;
    let mut least = [Duration::MAX; CRCS.len()];
    let begun = Instant::now();
    for round in 0usize.. {
        let mut values = [0; CRCS.len()];
        for turn in 0..CRCS.len() {
            let which = (round + turn) % CRCS.len();
            let crc = black_box(CRCS[which].1);
            let from = Instant::now();
            values[which] = (0..in_a_row).fold(round as u16, |start, _| crc(&bytes, start));
            least[which] = least[which].min(from.elapsed());
        }
        if let Some(which) = values.iter().position(|value| *value != values[IN_USE]) {
            return Err(format!("the CRCs of {length} bytes differ: in use and {}", CRCS[which].0));
        }
        if round >= 3 && begun.elapsed() > Duration::from_secs(1) {
            break;
        }
    }
    Ok(CrcTimes { length, in_a_row, least })
}

fn measure_all_crcs() -> Result<Vec<CrcTimes>, String> {
    eprintln!("CRCs");
    CRC_LENGTHS.into_iter().map(measure_crcs).collect()
}

fn print_crcs(rows: &[CrcTimes]) {
    let heads: Vec<&str> = CRCS.iter().map(|crc| crc.0).collect();
    println!("| CRC of, and the ratio of that in use | {} | words to bytes |", heads.join(" | "));
    println!("|---|{}", "---:|".repeat(CRCS.len() + 1));
    for row in rows {
        let cells = (0..CRCS.len()).map(|which| {
            let time = duration(row.least[which] / row.in_a_row);
            match which {
                IN_USE => time,
                _ => format!("{time} ({:.2})", row.ratio(IN_USE, which)),
            }
        });
        let cells = cells.collect::<Vec<_>>().join(" | ");
        println!("| {} bytes | {cells} | {:.2} |", grouped(row.length), row.ratio(BY_WORDS, BY_BYTES));
    }
}

// ---- the space bitmap

const BLOCKS: [u32; 3] = [33_300, 333_000, 1_000_000];

/// A space bitmap of L blocks by which of them are free, its CRC over 8 bytes, as on the discs of most writers.
fn bitmap(l: u32, mut is_free: impl FnMut(u32) -> bool) -> Vec<u8> {
    let mut bitmap = vec![0; 24 + l.div_ceil(8) as usize];
    bitmap[..2].copy_from_slice(&264u16.to_le_bytes());
    bitmap[10] = 8;
    let bytes = l.div_ceil(8);
    bitmap[16..20].copy_from_slice(&l.to_le_bytes());
    bitmap[20..24].copy_from_slice(&bytes.to_le_bytes());
    for s in (0..l).filter(|&s| is_free(s)) {
        bitmap[24 + s as usize / 8] |= 1 << (s % 8);
    }
    let crc = plain::crc(&bitmap[16..24], 0);
    bitmap[8..10].copy_from_slice(&crc.to_le_bytes());
    bitmap[4] = bitmap[..16].iter().fold(0u8, |sum, &b| sum.wrapping_add(b));
    bitmap
}

/// A call on a bitmap that leaves it as it was, and how many of them are measured in a row, so that reading the clock does not count.
struct OnBitmap {
    name: &'static str,
    bitmap: Vec<u8>,
    call: fn(&Layer, &mut [u8], u32) -> (u32, u32),
    in_a_row: u32,
}

/// The answer of a search for so many blocks near the middle, and what it found.
fn find(layer: &Layer, bitmap: &[u8], l: u32, wanted: u32) -> (u32, u32) {
    let mut result = [0];
    let answer = (layer.bitmap_find)(bitmap, l, wanted, l / 2, &mut result);
    (answer, result[0])
}

/// The answers of taking so many blocks from a block on, and of giving them back.
fn take_and_give_back(layer: &Layer, bitmap: &mut [u8], l: u32, first: u32, count: u32) -> (u32, u32) {
    ((layer.bitmap_take)(bitmap, l, first, count), (layer.bitmap_give_back)(bitmap, l, first, count))
}

/// What is measured on bitmaps of L blocks.
fn on_bitmaps(l: u32) -> Vec<OnBitmap> {
    let random = || {
        let mut state = 1u64;
        bitmap(l, |_| {
            state = state.wrapping_mul(6_364_136_223_846_793_005).wrapping_add(1_442_695_040_888_963_407);
            state >> 63 == 1
        })
    };
    let count: fn(&Layer, &mut [u8], u32) -> (u32, u32) = |y, b, l| {
        let mut result = [0];
        ((y.bitmap_count)(b, l, &mut result), result[0])
    };
    let row = |name, bitmap, call, in_a_row| OnBitmap { name, bitmap, call, in_a_row };
    vec![
        row("count, random bits", random(), count, 1),
        row("find 32, a run 100 blocks below", bitmap(l, |s| s < l / 2 - 68), |y, b, l| find(y, b, l, 32), 100),
        row("find 32, a run 100 blocks above", bitmap(l, |s| s >= l / 2 + 100), |y, b, l| find(y, b, l, 32), 100),
        row("find 1, full disc", bitmap(l, |_| false), |y, b, l| find(y, b, l, 1), 1),
        row("find 32, the only run at the end", bitmap(l, |s| s >= l - 32), |y, b, l| find(y, b, l, 32), 1),
        row("find 32, random bits", random(), |y, b, l| find(y, b, l, 32), 1),
        row("find 64, random bits", random(), |y, b, l| find(y, b, l, 64), 1),
        row("find 2, every second block free", bitmap(l, |s| s % 2 == 0), |y, b, l| find(y, b, l, 2), 1),
        row("find 33, rows of 1 and 32 by turns", bitmap(l, |s| ![1, 34].contains(&(s % 35))), |y, b, l| find(y, b, l, 33), 1),
        row("take and give back 1 block", bitmap(l, |_| true), |y, b, l| take_and_give_back(y, b, l, l / 2, 1), 100),
        row("take and give back L blocks", bitmap(l, |_| true), |y, b, l| take_and_give_back(y, b, l, 0, l), 1),
    ]
}

/// Measures the calls on bitmaps of each size, each for about a third of a second. Both implementations give the same, and leave the bitmap
/// as it was.
fn measure_bitmaps() -> Result<Rows, String> {
    let mut rows = Rows { rows: Vec::new(), column: 0 };
    for (i, &l) in BLOCKS.iter().enumerate() {
        eprintln!("bitmaps of {} blocks", grouped(l as usize));
        rows.column = i;
        for OnBitmap { name, bitmap, call, in_a_row } in on_bitmaps(l) {
            let mut lent = bitmap.clone();
            let expected = call(&PLAIN, &mut lent, l);
            if call(&PROVED, &mut lent, l) != expected || lent != bitmap {
                return Err(format!("{name}: the answers differ on {l} blocks"));
            }
            let repeated = |y: &Layer, lent: &mut Vec<u8>| {
                let differs = (0..in_a_row).any(|_| call(y, black_box(lent), l) != expected);
                u32::from(differs)
            };
            let times = measure_for(Duration::from_millis(300), &mut lent, repeated, |_| ());
            rows.add(name, times.map(|t| Times { plain: t.plain / in_a_row, proved: t.proved / in_a_row }))?;
        }
    }
    Ok(rows)
}

fn print_bitmaps(rows: &Rows) {
    let heads: Vec<String> = BLOCKS.iter().map(|&l| grouped(l as usize)).collect();
    println!("| plain, proved and the ratio, by blocks | {} |", heads.join(" | "));
    println!("|---|{}", "---:|".repeat(BLOCKS.len()));
    for (name, times) in &rows.rows {
        let cells = times.iter().flatten().map(|t| format!("{}, {} ({})", duration(t.plain), duration(t.proved), shown(t.ratio())));
        println!("| {name} | {} |", cells.collect::<Vec<_>>().join(" | "));
    }
}

fn print_tables(sizes: &[usize], rows: &Rows, crc: Times) {
    let column = sizes.iter().position(|&n| n == 333_000).unwrap_or(sizes.len() - 1);
    println!("| call, on a disc of {} sectors | plain | proved | ratio |", grouped(sizes[column]));
    println!("|---|---:|---:|---:|");
    for (name, times) in &rows.rows {
        if let Some(Some(t)) = times.get(column) {
            println!("| {name} | {} | {} | {} |", duration(t.plain), duration(t.proved), shown(t.ratio()));
        }
    }
    println!(
        "| CRC of 2,032 bytes (save_virtual of a block with a right tag, 64 sectors) | {} | {} | {:.2} |",
        duration(crc.plain),
        duration(crc.proved),
        crc.ratio()
    );
    println!();
    let heads: Vec<String> = sizes.iter().map(|&n| grouped(n)).collect();
    println!("| proved, and its ratio, by sectors | {} |", heads.join(" | "));
    println!("|---|{}", "---:|".repeat(sizes.len()));
    for (name, times) in &rows.rows {
        let cells = (0..sizes.len()).map(|i| match times.get(i) {
            Some(Some(t)) => format!("{} ({})", duration(t.proved), shown(t.ratio())),
            _ => String::new(),
        });
        println!("| {name} | {} |", cells.collect::<Vec<_>>().join(" | "));
    }
}

fn run(sizes: &[usize]) -> Result<(), String> {
    let mut rows = Rows { rows: Vec::new(), column: 0 };
    for (i, &sectors) in sizes.iter().enumerate() {
        eprintln!("{} sectors", grouped(sectors));
        rows.column = i;
        measure_once(sectors, &mut rows)?;
        measure_rewritable(sectors, &SPARES, &mut rows)?;
        measure_rewritable(sectors, &MOST_SPARES, &mut rows)?;
        measure_inside(sectors, &mut rows)?;
    }
    let (crc, crcs, bitmaps) = (measure_crc()?, measure_all_crcs()?, measure_bitmaps()?);
    print_tables(sizes, &rows, crc);
    println!();
    print_crcs(&crcs);
    println!();
    print_bitmaps(&bitmaps);
    Ok(())
}

fn main() -> ExitCode {
    let words: Vec<String> = std::env::args().skip(1).collect();
    let sizes: Option<Vec<usize>> =
        words.iter().map(|word| word.replace(',', "").parse().ok().filter(|sectors| (3_330..=1 << 20).contains(sectors))).collect();
    let done = match sizes {
        _ if words == ["crc"] => measure_all_crcs().map(|crcs| print_crcs(&crcs)),
        _ if words == ["bitmap"] => measure_bitmaps().map(|rows| print_bitmaps(&rows)),
        Some(sizes) if sizes.is_empty() => run(&SIZES),
        Some(sizes) => run(&sizes),
        None => {
            eprintln!("usage: ratios [SECTORS .. | crc | bitmap]\nA disc has 3,330 to 1,048,576 sectors here.");
            return ExitCode::from(2);
        }
    };
    match done {
        Ok(()) => ExitCode::SUCCESS,
        Err(why) => {
            eprintln!("{why}");
            ExitCode::from(1)
        }
    }
}

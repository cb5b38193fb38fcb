//! Document 01, with the change requests of document 02 that have landed, a second time, in plain Rust over lent slices.
//!
//! It was written from these documents, with the readings of open points in `docs/DECISIONS.md`, and shares no code with the proved layer.
//! The tests hold the two against each other, and the benchmarks take it as their baseline. Each function is the one of the same name in
//! `include/tuormik.h`, with slices for pointers and lengths; the CRC goes by tables. "Line n" is line n of 01, "Why a call is turned
//! down", or number n of 02, which stands where 02 places it among them: 31 directly after 3, 30, 32 and 33 in turn after 12, 25 directly
//! before 14. Line 18 never occurs (02, slip 1). A call is turned down by `Err(n)`.
#![deny(missing_docs)]
#![allow(clippy::too_many_arguments)]

use std::cmp::Ordering;
use std::ops::Range;

#[cfg(feature = "c-names")]
mod c_names;

const SECTOR: usize = 2048;
const PACKET: usize = 32;
const PACKET_BYTES: usize = PACKET * SECTOR;
const MOST_SECTORS: usize = 1 << 20;
const MOST_ENTRIES: usize = 4096;
const RECORD: usize = 5;
const NONE: u32 = u32::MAX;
/// The original of a defective spare (02, slip 1).
const DEFECTIVE: u32 = 0xffff_fff0;

const BLANK: u8 = 0;
const RECORDED: u8 = 1;
const UNREADABLE: u8 = 2;

const WRITE_ONCE: u32 = 0;
const REWRITABLE: u32 = 1;

const CUT: u32 = 255;

/// A refusal is its line.
type Answer<T> = Result<T, u32>;

/// Turned down by a line unless the test holds.
fn need(holds: bool, line: u32) -> Answer<()> {
    if holds {
        Ok(())
    } else {
        Err(line)
    }
}

// ---- numbers in bytes

fn u16_at(b: &[u8], at: usize) -> u16 {
    u16::from_le_bytes([b[at], b[at + 1]])
}

fn u32_at(b: &[u8], at: usize) -> u32 {
    u32::from_le_bytes([b[at], b[at + 1], b[at + 2], b[at + 3]])
}

fn u64_at(b: &[u8], at: usize) -> u64 {
    u64::from(u32_at(b, at)) | u64::from(u32_at(b, at + 4)) << 32
}

fn put(b: &mut [u8], at: usize, bytes: &[u8]) {
    b[at..at + bytes.len()].copy_from_slice(bytes);
}

fn words(b: &[u8]) -> impl Iterator<Item = u32> + '_ {
    b.chunks_exact(4).map(|w| u32::from_le_bytes([w[0], w[1], w[2], w[3]]))
}

/// A regid: a flags byte of 0, 23 identifier bytes filled with zeros, 8 suffix bytes, which are written as 0 and ignored when read.
struct Regid([u8; 24]);

const REGID: usize = 32;

impl Regid {
    const fn new(name: &str) -> Regid {
        let name = name.as_bytes();
        let mut bytes = [0; 24];
        let mut i = 0;
        while i < name.len() {
            bytes[i + 1] = name[i];
            i += 1;
        }
        Regid(bytes)
    }

    fn is_at(&self, b: &[u8], at: usize) -> bool {
        b[at..at + 24] == self.0
    }
}

static VIRTUAL: Regid = Regid::new("*UDF Virtual Partition");
static SPARABLE: Regid = Regid::new("*UDF Sparable Partition");
static VAT: Regid = Regid::new("*UDF Virtual Alloc Tbl");
/// The sparing table's two identifiers (02, slip 1): both are read, the newer one is written.
static SPARING: Regid = Regid::new("*UDF Sparing Table");
static OLDER_SPARING: Regid = Regid::new("*OSTA UDF Sparing Table");

// ---- the tag's CRC and checksum

const fn crc_table() -> [u16; 256] {
    let mut table = [0; 256];
    let mut i = 0;
    while i < 256 {
        let mut crc = (i as u16) << 8;
        let mut bit = 0;
        while bit < 8 {
            crc = if crc & 0x8000 != 0 { crc << 1 ^ 0x1021 } else { crc << 1 };
            bit += 1;
        }
        table[i] = crc;
        i += 1;
    }
    table
}

static CRC_TABLE: [u16; 256] = crc_table();

/// The CRC of polynomial 0x1021, high bit first, from a start, which is 0 in a tag: by one table.
pub fn crc(bytes: &[u8], start: u16) -> u16 {
    bytes.iter().fold(start, |crc, &b| crc << 8 ^ CRC_TABLE[usize::from((crc >> 8) as u8 ^ b)])
}

/// The same as [`crc`], which takes a byte at a time.
pub fn crc_by_bytes(bytes: &[u8], start: u16) -> u16 {
    crc(bytes, start)
}

/// In table n: what a byte gives with n bytes of 0 after it.
const fn crc_tables() -> [[u16; 256]; 4] {
    let first = crc_table();
    let mut tables = [first; 4];
    let mut n = 1;
    while n < 4 {
        let mut i = 0;
        while i < 256 {
            let crc = tables[n - 1][i];
            tables[n][i] = crc << 8 ^ first[(crc >> 8) as usize];
            i += 1;
        }
        n += 1;
    }
    tables
}

static CRC_TABLES: [[u16; 256]; 4] = crc_tables();

/// The same as [`crc`], each word of four bytes by [`crc_word`], and a tail of up to three by the byte. No call uses it: the benchmarks do.
pub fn crc_by_words(bytes: &[u8], start: u16) -> u16 {
    let words = bytes.chunks_exact(4);
    let tail = words.remainder();
    crc(tail, words.fold(start, |crc, w| crc_word(crc, w[0], w[1], w[2], w[3])))
}

/// The step of four bytes, by four tables held ready.
pub fn crc_word(crc: u16, a: u8, b: u8, c: u8, d: u8) -> u16 {
    let [high, low] = crc.to_be_bytes();
    CRC_TABLES[3][usize::from(high ^ a)]
        ^ CRC_TABLES[2][usize::from(low ^ b)]
        ^ CRC_TABLES[1][usize::from(c)]
        ^ CRC_TABLES[0][usize::from(d)]
}

/// The sum of a tag's bytes but its own, modulo 256.
fn checksum(tag: &[u8]) -> u8 {
    tag[..16].iter().fold(0u8, |sum, &b| sum.wrapping_add(b)).wrapping_sub(tag[4])
}

// ---- the map list

enum Volume {
    WriteOnce { partition: u16 },
    Rewritable { partition: u16, tables: Tables },
}

/// The sparing tables that a map names: their sectors, and the bytes of each.
struct Tables {
    sectors: [u32; 4],
    count: usize,
    size: u32,
}

impl Tables {
    fn sectors(&self) -> &[u32] {
        &self.sectors[..self.count]
    }
}

const TYPE_ONE: usize = 6;
const TYPE_TWO: usize = 64;

/// Of line 6, what a list of table sectors shows by itself.
fn tables_apart(tables: &[u32]) -> bool {
    tables.iter().enumerate().all(|(i, t)| t % PACKET as u32 == 0 && !tables[..i].contains(t))
}

fn table_ranges_fit(count: usize, size: u32) -> bool {
    (1..=4).contains(&count) && (56..=SECTOR as u32).contains(&size)
}

/// Lines 4, 5 and, of 6, what the list shows.
fn volume_of(maps: &[u8]) -> Answer<Volume> {
    let mut rest = maps;
    while !rest.is_empty() {
        need(rest.len() >= 2, 4)?;
        let length = usize::from(rest[1]);
        need(length != 0 && length <= rest.len(), 4)?;
        rest = &rest[length..];
    }
    let is_type_two = |m: &[u8], name: &Regid| m.len() == TYPE_TWO && m[0] == 2 && usize::from(m[1]) == TYPE_TWO && name.is_at(m, 4);
    if maps.len() == TYPE_ONE + TYPE_TWO {
        let (one, two) = maps.split_at(TYPE_ONE);
        let partition = u16_at(two, 38);
        need(one[0] == 1 && usize::from(one[1]) == TYPE_ONE, 5)?;
        need(is_type_two(two, &VIRTUAL) && u16_at(one, 4) == partition, 5)?;
        return Ok(Volume::WriteOnce { partition });
    }
    need(is_type_two(maps, &SPARABLE) && u16_at(maps, 40) == PACKET as u16, 5)?;
    let count = usize::from(maps[42]);
    let size = u32_at(maps, 44);
    need(table_ranges_fit(count, size), 5)?;
    let mut sectors = [0; 4];
    for (to, sector) in sectors[..count].iter_mut().zip(words(&maps[48..])) {
        *to = sector;
    }
    need(tables_apart(&sectors[..count]), 6)?;
    Ok(Volume::Rewritable { partition: u16_at(maps, 38), tables: Tables { sectors, count, size } })
}

// ---- what every call on a disc examines

/// The partition: its first sector and its number of sectors.
#[derive(Clone, Copy)]
struct Span {
    s: usize,
    l: usize,
}

impl Span {
    /// Whether a packet that begins at a sector lies outside.
    fn is_clear_of(self, packet: usize) -> bool {
        packet + PACKET <= self.s || packet >= self.s + self.l
    }
}

/// Lines 1 to 6; `lent` says whether the other lent slices have their lengths.
fn examine(disc: &[u8], marks: &[u8], maps: &[u8], s: u32, l: u32, lent: bool) -> Answer<(Span, Volume)> {
    let sectors = marks.len();
    need((1..=MOST_SECTORS).contains(&sectors) && disc.len() == SECTOR * sectors, 1)?;
    need(marks.iter().fold(BLANK, |most, &m| most.max(m)) <= UNREADABLE, 1)?;
    let span = Span { s: s as usize, l: l as usize };
    need(l != 0 && u64::from(s) + u64::from(l) <= sectors as u64, 2)?;
    need(lent, 3)?;
    let volume = volume_of(maps)?;
    if let Volume::Rewritable { tables, .. } = &volume {
        need(span.s.is_multiple_of(PACKET) && span.l.is_multiple_of(PACKET), 6)?;
        for &t in tables.sectors() {
            need(t as usize + PACKET <= sectors && span.is_clear_of(t as usize), 6)?;
        }
    }
    Ok((span, volume))
}

/// Lines 25 and 14 (02, slip 5) of the sectors to be read, by their marks from the lowest sector up: the first that is not recorded tells
/// which.
fn need_recorded(marks: impl IntoIterator<Item = u8>) -> Answer<()> {
    match marks.into_iter().find(|&m| m != RECORDED) {
        None => Ok(()),
        Some(BLANK) => Err(25),
        Some(_) => Err(14),
    }
}

fn is_table(table: &[u32]) -> bool {
    table.len() >= MOST_ENTRIES
}

fn is_record(record: &[u32]) -> bool {
    record.len() == RECORD
}

type Sector = [u8; SECTOR];

fn sector(disc: &[u8], at: usize) -> &Sector {
    &disc.as_chunks().0[at]
}

// ---- sector writes and the cut

/// The power fails at write `at`, counted from 1.
#[derive(Clone, Copy)]
struct Cut {
    at: u32,
    effect: u32,
}

const NO_CUT: Cut = Cut { at: 0, effect: 0 };

/// Through this every sector write of every call goes; it counts them.
struct Writer<'a> {
    disc: &'a mut [u8],
    marks: &'a mut [u8],
    cut: Cut,
    count: u32,
}

impl<'a> Writer<'a> {
    fn new(disc: &'a mut [u8], marks: &'a mut [u8], cut: Cut) -> Writer<'a> {
        Writer { disc, marks, cut, count: 0 }
    }

    /// Whether the next write is made. At the cut its effect decides, and an unreadable sector gets its mark here.
    fn lands(&mut self, at: usize) -> bool {
        self.count += 1;
        if self.cut.at == 0 || self.count < self.cut.at {
            return true;
        }
        if self.count > self.cut.at || self.cut.effect == 0 {
            return false;
        }
        if self.cut.effect == 1 {
            self.marks[at] = UNREADABLE;
            return false;
        }
        true
    }

    fn write(&mut self, at: usize, bytes: &[u8]) {
        if self.lands(at) {
            put(self.disc, SECTOR * at, bytes);
            self.marks[at] = RECORDED;
        }
    }

    /// A sector written with the bytes that it has.
    fn rewrite(&mut self, at: usize) {
        if self.lands(at) {
            self.marks[at] = RECORDED;
        }
    }

    fn write_upward(&mut self, at: usize, bytes: &[u8]) {
        for (i, block) in bytes.chunks_exact(SECTOR).enumerate() {
            self.write(at + i, block);
        }
    }

    /// Whether the power failed in one of the writes.
    fn was_cut(&self) -> bool {
        self.cut.at != 0 && self.cut.at <= self.count
    }
}

// ---- the VAT and its ICB, read

/// The file of a VAT ICB: the embedded bytes, or the extents' bytes in turn.
#[derive(Clone, Copy)]
struct VatFile<'a> {
    disc: &'a [u8],
    s: usize,
    length: u64,
    embedded: &'a [u8],
    extents: &'a [u8],
}

const VAT_TAIL: usize = REGID + 4;

/// The extents of an allocation: pairs of length and logical block up to the first zero length.
fn extents(allocation: &[u8]) -> impl Iterator<Item = (u32, u32)> + '_ {
    allocation.chunks_exact(8).map(|pair| (u32_at(pair, 0), u32_at(pair, 4))).take_while(|&(length, _)| length != 0)
}

impl<'a> VatFile<'a> {
    /// The bytes of the file in turn. All parts but the last are multiples of 2,048 bytes, so no entry lies in two of them.
    fn parts(self) -> impl Iterator<Item = &'a [u8]> {
        std::iter::once(self.embedded).chain(extents(self.extents).map(move |(length, block)| {
            let from = SECTOR * (self.s + block as usize);
            &self.disc[from..from + length as usize]
        }))
    }

    /// The bytes of the file up to its regid, in turn.
    fn entry_parts(self) -> impl Iterator<Item = &'a [u8]> {
        let mut left = self.length - VAT_TAIL as u64;
        self.parts().map(move |part| {
            let here = left.min(part.len() as u64);
            left -= here;
            &part[..here as usize]
        })
    }

    /// The regid and the previous ICB.
    fn tail(self) -> [u8; VAT_TAIL] {
        let mut tail = [0; VAT_TAIL];
        let mut before = self.length - VAT_TAIL as u64;
        let mut at = 0;
        for part in self.parts() {
            let skip = before.min(part.len() as u64);
            before -= skip;
            let bytes = &part[skip as usize..];
            put(&mut tail, at, bytes);
            at += bytes.len();
        }
        tail
    }

    fn count(self) -> u64 {
        (self.length - VAT_TAIL as u64) / 4
    }
}

fn fits_below(k: u32, entry: u32) -> bool {
    entry < k || entry == NONE
}

fn all_fit_below(k: u32, entries: impl Iterator<Item = u32>) -> bool {
    entries.fold(true, |fit, e| fit & fits_below(k, e))
}

/// Whether bytes begin as a VAT ICB's tag at logical block k does. It is asked of every sector that opening passes over.
fn has_tag(icb: &Sector, k: u32) -> bool {
    u16_at(icb, 0) == 261 && u16_at(icb, 2) == 2 && u32_at(icb, 12) == k
}

/// The VAT file, if the 2,048 bytes of an ICB would pass as a VAT ICB at logical block k.
fn vat_file<'a>(disc: &'a [u8], marks: &[u8], s: usize, k: u32, icb: &'a Sector) -> Option<VatFile<'a>> {
    // the tag
    let crc_length = usize::from(u16_at(icb, 10));
    let tag_fits = has_tag(icb, k)
        && icb[5] == 0
        && (160..=2032).contains(&crc_length)
        && icb[4] == checksum(icb)
        && u16_at(icb, 8) == crc(&icb[16..16 + crc_length], 0);
    if !tag_fits {
        return None;
    }
    // the File Entry
    let form = icb[34] & 7;
    let length = u64_at(icb, 56);
    let e = u64::from(u32_at(icb, 168));
    let a = u64::from(u32_at(icb, 172));
    if u16_at(icb, 20) != 4 || icb[27] != 0 || 176 + e + a > SECTOR as u64 {
        return None;
    }
    let from = 176 + e as usize;
    let allocation = &icb[from..from + a as usize];
    let file = match form {
        3 if a == length => VatFile { disc, s, length, embedded: allocation, extents: &[] },
        0 if a % 8 == 0 && extents_fit(marks, s, k, allocation, length) => VatFile { disc, s, length, embedded: &[], extents: allocation },
        _ => return None,
    };
    // the file
    if length < VAT_TAIL as u64 || !length.is_multiple_of(4) {
        return None;
    }
    let tail = file.tail();
    let fits = VAT.is_at(&tail, 0) && fits_below(k, u32_at(&tail, REGID)) && file.entry_parts().all(|part| all_fit_below(k, words(part)));
    fits.then_some(file)
}

/// Lengths of 30 bits, all but the last multiples of 2,048, that add up to the file's, and every block below k and recorded.
fn extents_fit(marks: &[u8], s: usize, k: u32, allocation: &[u8], file_length: u64) -> bool {
    let mut sum = 0;
    for (length, block) in extents(allocation) {
        if length >> 30 != 0 || sum % SECTOR as u64 != 0 {
            return false;
        }
        sum += u64::from(length);
        let from = block as usize;
        let end = from + (length as usize).div_ceil(SECTOR);
        if end > k as usize || marks[s + from..s + end].iter().any(|&m| m != RECORDED) {
            return false;
        }
    }
    sum == file_length
}

// ---- the VAT and its ICB, written

fn vat_bytes(n: usize) -> usize {
    4 * n + VAT_TAIL
}

fn is_embedded(n: usize) -> bool {
    176 + vat_bytes(n) < SECTOR
}

/// d.
fn data_sectors(n: usize) -> usize {
    if is_embedded(n) {
        0
    } else {
        vat_bytes(n).div_ceil(SECTOR)
    }
}

/// The VAT file of some entries.
fn write_vat(file: &mut [u8], entries: &[u32], previous: u32) {
    for (to, e) in file.chunks_exact_mut(4).zip(entries) {
        to.copy_from_slice(&e.to_le_bytes());
    }
    let tail = &mut file[4 * entries.len()..];
    put(tail, 0, &VAT.0);
    put(tail, REGID, &previous.to_le_bytes());
}

/// The ICB at logical block k of the VAT of some entries, whose data sectors stand directly below it.
fn vat_icb(k: u32, entries: &[u32], previous: u32) -> [u8; SECTOR] {
    let mut icb = [0; SECTOR];
    let f = vat_bytes(entries.len());
    let d = data_sectors(entries.len());
    let a = if d == 0 {
        write_vat(&mut icb[176..176 + f], entries, previous);
        icb[34] = 3;
        f
    } else {
        put(&mut icb, 176, &(f as u32).to_le_bytes());
        put(&mut icb, 180, &(k - d as u32).to_le_bytes());
        8
    };
    icb[20] = 4;
    icb[24] = 1;
    put(&mut icb, 56, &(f as u64).to_le_bytes());
    put(&mut icb, 64, &(d as u64).to_le_bytes());
    put(&mut icb, 172, &(a as u32).to_le_bytes());
    put(&mut icb, 0, &261u16.to_le_bytes());
    icb[2] = 2;
    let crc = crc(&icb[16..176 + a], 0);
    put(&mut icb, 8, &crc.to_le_bytes());
    put(&mut icb, 10, &(160 + a as u16).to_le_bytes());
    put(&mut icb, 12, &k.to_le_bytes());
    icb[4] = checksum(&icb);
    icb
}

// ---- the record of a write-once disc

/// N, NWA and the last ICB.
#[derive(Clone, Copy)]
struct Held {
    n: u32,
    next: u32,
    last: u32,
}

/// What an accepted call leaves in the record: kind, N or R, NWA or sequence, last ICB. Passed over is kept.
fn keep(record: &mut [u32], kept: [u32; 4]) {
    record[..4].copy_from_slice(&kept);
}

impl Held {
    fn kept(self) -> [u32; 4] {
        [WRITE_ONCE, self.n, self.next, self.last]
    }
}

/// NWA: one past the last mark that is not blank.
fn next_of(marks: &[u8]) -> usize {
    const STEP: usize = 64;
    let mut end = marks.len();
    while end >= STEP && marks[end - STEP..end].iter().fold(0, |any, &m| any | m) == BLANK {
        end -= STEP;
    }
    marks[..end].iter().rposition(|&m| m != BLANK).map_or(0, |last| last + 1)
}

/// Lines 1 to 7 and 11 of a call on a write-once disc.
fn examine_once(disc: &[u8], marks: &[u8], maps: &[u8], s: u32, l: u32, table: &[u32], record: &[u32], lent: bool) -> Answer<(Span, Held)> {
    let lent = lent && is_table(table) && is_record(record);
    let (span, volume) = examine(disc, marks, maps, s, l, lent)?;
    need(matches!(volume, Volume::WriteOnce { .. }), 7)?;
    let held = held_of(marks, span, table, record)?;
    Ok((span, held))
}

/// Line 11 on a write-once disc.
fn held_of(marks: &[u8], span: Span, table: &[u32], record: &[u32]) -> Answer<Held> {
    let held = Held { n: record[1], next: record[2], last: record[3] };
    let (n, next) = (held.n as usize, held.next as usize);
    need(record[0] == WRITE_ONCE && n <= MOST_ENTRIES, 11)?;
    need(next <= span.l && held.last < held.next, 11)?;
    let partition = &marks[span.s..span.s + span.l];
    need(partition[next - 1] != BLANK, 11)?;
    need(partition[next..].iter().fold(0, |any, &m| any | m) == BLANK, 11)?;
    need(all_fit_below(held.next, table[..n].iter().copied()), 11)?;
    Ok(held)
}

// ---- the sparing table

/// The counting copies of the highest sequence.
struct Current<'a> {
    /// which of the map's tables they are
    is_current: [bool; 4],
    sequence: u32,
    /// the bytes of the entries
    entries: &'a [u8],
}

impl Current<'_> {
    fn count(&self) -> usize {
        self.entries.len() / 8
    }
}

/// A set of packets of the disc, by their first sectors.
struct Packets([u64; MOST_SECTORS / PACKET / 64]);

impl Packets {
    fn new() -> Packets {
        Packets([0; MOST_SECTORS / PACKET / 64])
    }

    /// The word of a packet, and its bit in it.
    fn place(start: usize) -> (usize, u64) {
        let packet = start / PACKET;
        (packet / 64, 1 << (packet % 64))
    }

    fn has(&self, start: usize) -> bool {
        let (word, bit) = Packets::place(start);
        self.0[word] & bit != 0
    }

    /// Whether the packet was not among them before.
    fn add(&mut self, start: usize) -> bool {
        let (word, bit) = Packets::place(start);
        let is_new = self.0[word] & bit == 0;
        self.0[word] |= bit;
        is_new
    }
}

/// The copy rule over entries of original and mapped. The originals are packets of the partition and two numbers above them, first that of
/// defective spares and then that of free ones: used entries, defective and free ones stand in this order where the originals never
/// descend, and only those two numbers stand more than once. No original is a packet that an entry maps (02, slip 8).
fn entries_fit(entries: impl ExactSizeIterator<Item = (u32, u32)> + Clone, sectors: usize, span: Span, tables: &Tables) -> bool {
    if 56 + 8 * entries.len() > tables.size as usize {
        return false;
    }
    let mut mapped_packets = Packets::new();
    let mut lowest = 0;
    for (original, mapped) in entries.clone() {
        let is_packet = original % PACKET as u32 == 0 && (original as usize) < span.l;
        if original < lowest || !(is_packet || original == DEFECTIVE || original == NONE) {
            return false;
        }
        lowest = if is_packet { original + 1 } else { original };
        let start = mapped as usize;
        if !start.is_multiple_of(PACKET) || start + PACKET > sectors || tables.sectors().contains(&mapped) {
            return false;
        }
        if !mapped_packets.add(start) {
            return false;
        }
    }
    let mut originals = entries.map(|(original, _)| original as usize).take_while(|&original| original < span.l);
    originals.all(|original| !mapped_packets.has(span.s + original))
}

/// The bytes of a copy's entries, if the copy at a sector counts.
fn counting_copy<'a>(disc: &'a [u8], marks: &[u8], span: Span, tables: &Tables, at: u32) -> Option<&'a [u8]> {
    if marks[at as usize] != RECORDED {
        return None;
    }
    let copy = sector(disc, at as usize);
    let is_older = OLDER_SPARING.is_at(copy, 16);
    if u16_at(copy, 0) != 0 || !(is_older || SPARING.is_at(copy, 16)) {
        return None;
    }
    let entries = copy[56..].get(..8 * usize::from(u16_at(copy, 48)))?;
    let pairs = entries.chunks_exact(8).map(|e| (u32_at(e, 0), u32_at(e, 4)));
    // under the older identifier no spare is marked as defective
    if is_older && pairs.clone().any(|(original, _)| original == DEFECTIVE) {
        return None;
    }
    entries_fit(pairs, marks.len(), span, tables).then_some(entries)
}

/// Lines 8 and 10 on a rewritable disc.
fn current_of<'a>(disc: &'a [u8], marks: &[u8], span: Span, tables: &Tables) -> Answer<Current<'a>> {
    let mut current: Option<Current> = None;
    let mut differ = false;
    for (i, &t) in tables.sectors().iter().enumerate() {
        let Some(entries) = counting_copy(disc, marks, span, tables, t) else {
            continue;
        };
        let sequence = u32_at(sector(disc, t as usize), 52);
        match &mut current {
            Some(c) if sequence < c.sequence => {}
            Some(c) if sequence == c.sequence => {
                c.is_current[i] = true;
                differ |= entries != c.entries;
            }
            _ => {
                let mut is_current = [false; 4];
                is_current[i] = true;
                differ = false;
                current = Some(Current { is_current, sequence, entries });
            }
        }
    }
    let current = current.ok_or(8u32)?;
    need(!differ, 10)?;
    Ok(current)
}

/// What a call on a rewritable disc goes on with once lines 1 to 8, 10 and 11 are passed: then the lent table is the current one.
struct Spared {
    span: Span,
    tables: Tables,
    is_current: [bool; 4],
    sequence: u32,
    /// the numbers of the current table in the lent one
    numbers: usize,
}

impl Spared {
    fn kept(&self) -> [u32; 4] {
        [REWRITABLE, (self.numbers / 2) as u32, self.sequence, 0]
    }

    /// Where the packet that begins at a logical block is mapped to, if it has an entry.
    fn mapped(&self, table: &[u32], packet: u32) -> Option<u32> {
        let mut entries = table[..self.numbers].chunks_exact(2);
        entries.find(|e| e[0] == packet).map(|e| e[1])
    }

    /// The sector at which block b is.
    fn place(&self, table: &[u32], b: u32) -> usize {
        let offset = b as usize % PACKET;
        match self.mapped(table, b - offset as u32) {
            Some(start) => start as usize + offset,
            None => self.span.s + b as usize,
        }
    }

    /// Lines 12 and 30 of a block.
    fn need_block(&self, table: &[u32], b: u32) -> Answer<()> {
        need((b as usize) < self.span.l, 12)?;
        need(!self.is_of_spare(table, b), 30)
    }

    /// Lines 12 and 30 of a packet start.
    fn need_packet(&self, table: &[u32], b: u32) -> Answer<()> {
        need((b as usize).is_multiple_of(PACKET), 12)?;
        self.need_block(table, b)
    }

    /// Whether an entry of any kind maps the packet in which block b of the partition lies.
    fn is_of_spare(&self, table: &[u32], b: u32) -> bool {
        let start = self.span.s as u32 + b - b % PACKET as u32;
        let (entries, _) = table[..self.numbers].as_chunks();
        entries.iter().fold(false, |any, &[_, mapped]| any | (mapped == start))
    }
}

/// Lines 8, 10 and 11 on a rewritable disc.
fn spared_of(disc: &[u8], marks: &[u8], span: Span, tables: Tables, table: &[u32], record: &[u32]) -> Answer<Spared> {
    let current = current_of(disc, marks, span, &tables)?;
    let count = current.count();
    need(record[..3] == [REWRITABLE, count as u32, current.sequence], 11)?;
    need(words(current.entries).eq(table[..2 * count].iter().copied()), 11)?;
    Ok(Spared { span, is_current: current.is_current, sequence: current.sequence, numbers: 2 * count, tables })
}

/// Lines 1 to 8, 10 and 11 of a call on a rewritable disc.
fn examine_rewritable(disc: &[u8], marks: &[u8], maps: &[u8], s: u32, l: u32, table: &[u32], record: &[u32], lent: bool) -> Answer<Spared> {
    let lent = lent && is_table(table) && is_record(record);
    match examine(disc, marks, maps, s, l, lent)? {
        (span, Volume::Rewritable { tables, .. }) => spared_of(disc, marks, span, tables, table, record),
        _ => Err(7),
    }
}

/// The sector of a sparing table.
fn table_sector(sequence: u32, numbers: impl ExactSizeIterator<Item = u32>) -> [u8; SECTOR] {
    let mut sector = [0; SECTOR];
    put(&mut sector, 16, &SPARING.0);
    put(&mut sector, 48, &((numbers.len() / 2) as u16).to_le_bytes());
    put(&mut sector, 52, &sequence.to_le_bytes());
    for (to, n) in sector[56..].chunks_exact_mut(4).zip(numbers) {
        to.copy_from_slice(&n.to_le_bytes());
    }
    sector
}

// ---- the calls

/// The number that a call returns: 0, or the refusal's.
fn number(answer: Answer<()>) -> u32 {
    answer.err().unwrap_or(0)
}

/// The number that a writing call returns; `true` is a cut.
fn number_or_cut(answer: Answer<bool>) -> u32 {
    match answer {
        Ok(false) => 0,
        Ok(true) => CUT,
        Err(line) => line,
    }
}

/// Opens the disc.
pub fn open(disc: &[u8], marks: &[u8], maps: &[u8], s: u32, l: u32, table: &mut [u32], record: &mut [u32]) -> u32 {
    let mut call = || -> Answer<()> {
        let lent = is_table(table) && is_record(record);
        match examine(disc, marks, maps, s, l, lent)? {
            (span, Volume::WriteOnce { .. }) => {
                let next = next_of(&marks[span.s..span.s + span.l]);
                let (k, file) = newest_vat(disc, marks, span.s, next).ok_or(8u32)?;
                need(file.count() <= MOST_ENTRIES as u64, 9)?;
                for (to, entry) in table.iter_mut().zip(file.entry_parts().flat_map(words)) {
                    *to = entry;
                }
                keep(record, Held { n: file.count() as u32, next: next as u32, last: k }.kept());
                record[4] = next as u32 - 1 - k;
            }
            (span, Volume::Rewritable { tables, .. }) => {
                let current = current_of(disc, marks, span, &tables)?;
                for (to, n) in table.iter_mut().zip(words(current.entries)) {
                    *to = n;
                }
                keep(record, [REWRITABLE, current.count() as u32, current.sequence, 0]);
                record[4] = 0;
            }
        }
        Ok(())
    };
    number(call())
}

/// The first VAT ICB below logical block `next`, going down, and its file.
fn newest_vat<'a>(disc: &'a [u8], marks: &[u8], s: usize, next: usize) -> Option<(u32, VatFile<'a>)> {
    for k in (0..next).rev() {
        let icb = sector(disc, s + k);
        if marks[s + k] == RECORDED && has_tag(icb, k as u32) {
            if let Some(file) = vat_file(disc, marks, s, k as u32, icb) {
                return Some((k as u32, file));
            }
        }
    }
    None
}

/// Gives a block's 2,048 bytes.
pub fn read(disc: &[u8], marks: &[u8], maps: &[u8], s: u32, l: u32, table: &[u32], record: &[u32], block: u32, out: &mut [u8]) -> u32 {
    let mut call = || -> Answer<()> {
        let lent = is_table(table) && is_record(record) && out.len() == SECTOR;
        let at = match examine(disc, marks, maps, s, l, lent)? {
            (span, Volume::WriteOnce { .. }) => {
                let held = held_of(marks, span, table, record)?;
                need(block < held.n, 12)?;
                let entry = table[block as usize];
                need(entry != NONE, 13)?;
                span.s + entry as usize
            }
            (span, Volume::Rewritable { tables, .. }) => {
                let spared = spared_of(disc, marks, span, tables, table, record)?;
                spared.need_block(table, block)?;
                spared.place(table, block)
            }
        };
        need_recorded([marks[at]])?;
        out.copy_from_slice(sector(disc, at));
        Ok(())
    };
    number(call())
}

/// Save v: one sector at NWA, entry v set to it; v = N adds one.
pub fn save_virtual(
    disc: &mut [u8],
    marks: &mut [u8],
    maps: &[u8],
    s: u32,
    l: u32,
    table: &mut [u32],
    record: &mut [u32],
    v: u32,
    block: &[u8],
    cut_at: u32,
    cut_effect: u32,
) -> u32 {
    let cut = Cut { at: cut_at, effect: cut_effect };
    let mut call = || -> Answer<bool> {
        let lent = block.len() == SECTOR;
        let (span, held) = examine_once(disc, marks, maps, s, l, table, record, lent)?;
        need(v <= held.n && (v as usize) < MOST_ENTRIES, 12)?;
        let is_icb = block.try_into().is_ok_and(|icb| vat_file(disc, marks, span.s, held.next, icb).is_some());
        need(!is_icb, 15)?;
        let n = if v == held.n { held.n + 1 } else { held.n };
        let next = held.next as usize;
        need(next + 1 + data_sectors(n as usize) < span.l, 16)?;
        let mut writer = Writer::new(disc, marks, cut);
        writer.write(span.s + next, block);
        if writer.was_cut() {
            return Ok(true);
        }
        table[v as usize] = held.next;
        keep(record, Held { n, next: held.next + 1, ..held }.kept());
        Ok(false)
    };
    number_or_cut(call())
}

/// Free v: entry unused, no write.
pub fn free_virtual(disc: &[u8], marks: &[u8], maps: &[u8], s: u32, l: u32, table: &mut [u32], record: &mut [u32], v: u32) -> u32 {
    let mut call = || -> Answer<()> {
        let (_, held) = examine_once(disc, marks, maps, s, l, table, record, true)?;
        need(v < held.n, 12)?;
        let entry = &mut table[v as usize];
        need(*entry != NONE, 13)?;
        *entry = NONE;
        Ok(())
    };
    number(call())
}

/// Commit: VAT data upward, then the ICB naming the previous ICB.
pub fn commit(
    disc: &mut [u8],
    marks: &mut [u8],
    maps: &[u8],
    s: u32,
    l: u32,
    table: &[u32],
    record: &mut [u32],
    cut_at: u32,
    cut_effect: u32,
) -> u32 {
    let cut = Cut { at: cut_at, effect: cut_effect };
    let mut call = || -> Answer<bool> {
        let (span, held) = examine_once(disc, marks, maps, s, l, table, record, true)?;
        let entries = &table[..held.n as usize];
        let d = data_sectors(entries.len());
        let next = held.next as usize;
        need(next + d < span.l, 16)?;
        let k = held.next + d as u32;
        let mut writer = Writer::new(disc, marks, cut);
        if d != 0 {
            let mut data = [0; (4 * MOST_ENTRIES + VAT_TAIL).div_ceil(SECTOR) * SECTOR];
            write_vat(&mut data[..vat_bytes(entries.len())], entries, held.last);
            writer.write_upward(span.s + next, &data[..SECTOR * d]);
        }
        writer.write(span.s + k as usize, &vat_icb(k, entries, held.last));
        if writer.was_cut() {
            return Ok(true);
        }
        keep(record, Held { n: held.n, next: k + 1, last: k }.kept());
        Ok(false)
    };
    number_or_cut(call())
}

/// Save b: the packet with one block replaced, 32 sectors rewritten upward.
pub fn save_block(
    disc: &mut [u8],
    marks: &mut [u8],
    maps: &[u8],
    s: u32,
    l: u32,
    table: &[u32],
    record: &mut [u32],
    b: u32,
    block: &[u8],
    cut_at: u32,
    cut_effect: u32,
) -> u32 {
    let cut = Cut { at: cut_at, effect: cut_effect };
    let mut call = || -> Answer<bool> {
        let lent = block.len() == SECTOR;
        let spared = examine_rewritable(disc, marks, maps, s, l, table, record, lent)?;
        spared.need_block(table, b)?;
        let at = spared.place(table, b);
        let start = at - b as usize % PACKET;
        let is_other = |i: &usize| *i != at;
        need_recorded((start..start + PACKET).filter(is_other).map(|i| marks[i]))?;
        let mut writer = Writer::new(disc, marks, cut);
        for i in start..start + PACKET {
            if is_other(&i) {
                writer.rewrite(i);
            } else {
                writer.write(i, block);
            }
        }
        if writer.was_cut() {
            return Ok(true);
        }
        keep(record, spared.kept());
        Ok(false)
    };
    number_or_cut(call())
}

/// Save packet: the same with 65,536 lent bytes.
pub fn save_packet(
    disc: &mut [u8],
    marks: &mut [u8],
    maps: &[u8],
    s: u32,
    l: u32,
    table: &[u32],
    record: &mut [u32],
    b: u32,
    packet: &[u8],
    cut_at: u32,
    cut_effect: u32,
) -> u32 {
    let cut = Cut { at: cut_at, effect: cut_effect };
    let mut call = || -> Answer<bool> {
        let lent = packet.len() == PACKET_BYTES;
        let spared = examine_rewritable(disc, marks, maps, s, l, table, record, lent)?;
        spared.need_packet(table, b)?;
        let mut writer = Writer::new(disc, marks, cut);
        writer.write_upward(spared.place(table, b), packet);
        if writer.was_cut() {
            return Ok(true);
        }
        keep(record, spared.kept());
        Ok(false)
    };
    number_or_cut(call())
}

/// Spare packet: those bytes to the free entry of lowest index, then the resorted table, first to copies that were not current. A packet
/// that is spared already takes a free entry too, and the one that it had turns defective, the last of the defective ones (02, slip 1).
pub fn spare_packet(
    disc: &mut [u8],
    marks: &mut [u8],
    maps: &[u8],
    s: u32,
    l: u32,
    table: &mut [u32],
    record: &mut [u32],
    b: u32,
    packet: &[u8],
    cut_at: u32,
    cut_effect: u32,
) -> u32 {
    let cut = Cut { at: cut_at, effect: cut_effect };
    let mut call = || -> Answer<bool> {
        let lent = packet.len() == PACKET_BYTES;
        let mut spared = examine_rewritable(disc, marks, maps, s, l, table, record, lent)?;
        spared.need_packet(table, b)?;
        need(spared.tables.count >= 2, 17)?;
        let (entries, _) = table[..spared.numbers].as_chunks();
        let free = entries.partition_point(|&[original, _]| original != NONE);
        let &[_, spare] = entries.get(free).ok_or(19u32)?;
        need(spared.sequence != u32::MAX, 20)?;
        spared.sequence += 1;
        // those of lower packets, the new one, those of higher packets and the defective ones, the one that turns, and the free ones left
        let (lower, rest) = entries[..free].split_at(entries.partition_point(|&[original, _]| original < b));
        let (had, higher) = match rest {
            [[original, mapped], higher @ ..] if *original == b => (Some([DEFECTIVE, *mapped]), higher),
            _ => (None, rest),
        };
        let taken = [[b, spare]];
        let resorted = lower.iter().chain(&taken).chain(higher).chain(&had).chain(&entries[free + 1..]);
        let mut sorted = [[0; 2]; SECTOR / 8];
        let sorted = &mut sorted[..entries.len()];
        sorted.iter_mut().zip(resorted).for_each(|(to, entry)| *to = *entry);
        let sorted = sorted.as_flattened();

        let copy = table_sector(spared.sequence, sorted.iter().copied());
        let mut writer = Writer::new(disc, marks, cut);
        writer.write_upward(spare as usize, packet);
        for current in [false, true] {
            for (i, &t) in spared.tables.sectors().iter().enumerate() {
                if spared.is_current[i] == current {
                    writer.write(t as usize, &copy);
                }
            }
        }
        if writer.was_cut() {
            return Ok(true);
        }
        table[..spared.numbers].copy_from_slice(sorted);
        keep(record, spared.kept());
        Ok(false)
    };
    number_or_cut(call())
}

/// Makes a disc.
pub fn make(disc: &mut [u8], marks: &mut [u8], maps: &[u8], s: u32, l: u32, spares: &[u32]) -> u32 {
    let mut call = || -> Answer<()> {
        match examine(disc, marks, maps, s, l, true)? {
            (span, Volume::WriteOnce { .. }) => {
                need(next_of(&marks[span.s..span.s + span.l]) == 0, 21)?;
                Writer::new(disc, marks, NO_CUT).write(span.s, &vat_icb(0, &[], NONE));
            }
            (span, Volume::Rewritable { tables, .. }) => {
                let entries = spares.iter().map(|&m| (NONE, m));
                need(entries_fit(entries, marks.len(), span, &tables), 6)?;
                let mut numbers = [NONE; SECTOR / 4];
                let numbers = &mut numbers[..2 * spares.len()];
                for (entry, &m) in numbers.chunks_exact_mut(2).zip(spares) {
                    entry[1] = m;
                }
                let copy = table_sector(0, numbers.iter().copied());
                let mut writer = Writer::new(disc, marks, NO_CUT);
                for at in span.s..span.s + span.l {
                    writer.write(at, &[0; SECTOR]);
                }
                for &t in tables.sectors() {
                    writer.write(t as usize, &copy);
                }
            }
        }
        Ok(())
    };
    number(call())
}

/// 1,000 times NWA / L to the nearest whole number (02, slip 4): of the number below and the next, the one that is less far off, and the
/// even one where both are as far.
fn per_mille(next: u64, l: u64) -> u64 {
    let below = 1000 * next / l;
    let above = below + 1;
    match (1000 * next - below * l).cmp(&(above * l - 1000 * next)) {
        Ordering::Less => below,
        Ordering::Greater => above,
        Ordering::Equal if below.is_multiple_of(2) => below,
        Ordering::Equal => above,
    }
}

/// How full the partition is.
pub fn fullness(disc: &[u8], marks: &[u8], maps: &[u8], s: u32, l: u32, table: &[u32], record: &[u32], result: &mut [u32]) -> u32 {
    let lent = result.len() == 1;
    let answer = examine_once(disc, marks, maps, s, l, table, record, lent).map(|(span, held)| {
        result[0] = per_mille(u64::from(held.next), span.l as u64) as u32;
    });
    number(answer)
}

/// From here on an item is a commit; one below is a save of that block (02, slip 9).
const COMMIT_ITEM: u32 = 0x8000_0000;

/// What a list of saves and commits would come to: it is carried out, up to a first refusal, on copies of all that is lent. The blocks are
/// zeros, which have no tag and so are never refused by line 15.
pub fn forecast(
    disc: &[u8],
    marks: &[u8],
    maps: &[u8],
    s: u32,
    l: u32,
    table: &[u32],
    record: &[u32],
    items: &[u32],
    result: &mut [u32],
) -> u32 {
    let lent = result.len() == 3;
    if let Err(line) = examine_once(disc, marks, maps, s, l, table, record, lent) {
        return line;
    }
    let (mut disc, mut marks, mut table, mut record) = (disc.to_vec(), marks.to_vec(), table.to_vec(), record.to_vec());
    let (d, m, t, r) = (&mut disc, &mut marks, &mut table, &mut record);
    for (i, &item) in items.iter().enumerate() {
        let answer = if item < COMMIT_ITEM {
            save_virtual(d, m, maps, s, l, t, r, item, &[0; SECTOR], 0, 0)
        } else {
            commit(d, m, maps, s, l, t, r, 0, 0)
        };
        if answer != 0 {
            result.copy_from_slice(&[answer, i as u32, 0]);
            return 0;
        }
    }
    result.copy_from_slice(&[0, r[2], r[1]]);
    0
}

/// Tells what a map list says.
pub fn read_maps(maps: &[u8], result: &mut [u32]) -> u32 {
    let mut call = || -> Answer<()> {
        need(result.len() == 8, 3)?;
        match volume_of(maps)? {
            Volume::WriteOnce { partition } => {
                result.copy_from_slice(&[WRITE_ONCE, partition.into(), 0, 0, 0, 0, 0, 0]);
            }
            Volume::Rewritable { partition, tables } => {
                result[..4].copy_from_slice(&[REWRITABLE, partition.into(), tables.count as u32, tables.size]);
                result[4..].copy_from_slice(&tables.sectors);
            }
        }
        Ok(())
    };
    number(call())
}

/// Writes a map list.
pub fn write_maps(kind: u32, partition: u16, table_bytes: u32, tables: &[u32], out: &mut [u8]) -> u32 {
    let mut call = || -> Answer<()> {
        match kind {
            WRITE_ONCE => {
                need(out.len() == TYPE_ONE + TYPE_TWO, 3)?;
                let (one, two) = out.split_at_mut(TYPE_ONE);
                one.copy_from_slice(&[1, TYPE_ONE as u8, 1, 0, 0, 0]);
                put(one, 4, &partition.to_le_bytes());
                write_type_two(two, &VIRTUAL, partition);
            }
            REWRITABLE => {
                need(out.len() == TYPE_TWO, 3)?;
                need(table_ranges_fit(tables.len(), table_bytes), 5)?;
                need(tables_apart(tables), 6)?;
                write_type_two(out, &SPARABLE, partition);
                out[40] = PACKET as u8;
                out[42] = tables.len() as u8;
                put(out, 44, &table_bytes.to_le_bytes());
                for (to, t) in out[48..].chunks_exact_mut(4).zip(tables) {
                    to.copy_from_slice(&t.to_le_bytes());
                }
            }
            _ => return Err(5),
        }
        Ok(())
    };
    number(call())
}

/// A type 2 map up to its partition number, and zeros after it.
fn write_type_two(map: &mut [u8], name: &Regid, partition: u16) {
    map.fill(0);
    map[0] = 2;
    map[1] = TYPE_TWO as u8;
    put(map, 4, &name.0);
    map[36] = 1;
    put(map, 38, &partition.to_le_bytes());
}

/// Looks up an entry in a lent VAT file.
pub fn look_up(file: &[u8], v: u32, result: &mut [u32]) -> u32 {
    let mut call = || -> Answer<()> {
        need(result.len() == 1, 3)?;
        need(file.len() >= VAT_TAIL && file.len().is_multiple_of(4), 8)?;
        let entries = file.len() - VAT_TAIL;
        need(VAT.is_at(file, entries), 8)?;
        need(entries / 4 <= MOST_ENTRIES, 9)?;
        need((v as usize) < entries / 4, 12)?;
        let entry = u32_at(file, 4 * v as usize);
        need(entry != NONE, 13)?;
        result[0] = entry;
        Ok(())
    };
    number(call())
}

// ---- the space bitmap

/// Where the bits of a space bitmap begin (02, slip 10).
const BITS_AT: usize = 24;

/// Line 31, and then the bytes that hold the bits of the L blocks.
fn bits_of(bitmap: &[u8], l: u32) -> Answer<&[u8]> {
    need(bitmap.len() >= BITS_AT, 31)?;
    let crc_length = usize::from(u16_at(bitmap, 10));
    need(u16_at(bitmap, 0) == 264 && bitmap[4] == checksum(bitmap) && crc_length >= 8, 31)?;
    let covered = bitmap.get(16..16 + crc_length).ok_or(31u32)?;
    need(crc(covered, 0) == u16_at(bitmap, 8), 31)?;
    let bytes = bitmap[BITS_AT..].get(..u32_at(bitmap, 20) as usize).ok_or(31u32)?;
    need(u32_at(bitmap, 16) == l, 31)?;
    bytes.get(..(l as usize).div_ceil(8)).ok_or(31)
}

/// The rows of free blocks among some blocks, as ranges: a row begins and ends where a bit is not as the one before.
fn free_rows(bits: &[u8], among: Range<usize>) -> Vec<Range<usize>> {
    let mut rows = Vec::new();
    let mut begun = None;
    let mut before = 0;
    let skipped = among.start / 8;
    let (words, rest) = bits[skipped..among.end.div_ceil(8)].as_chunks();
    let mut last = [0; 8];
    last[..rest.len()].copy_from_slice(rest);
    for (i, &word) in words.iter().chain([&last]).enumerate() {
        let first = 8 * skipped + 64 * i;
        let mut bits = u64::from_le_bytes(word);
        // blocks that are not among those asked for count as allocated
        if first < among.start {
            bits &= !0 << (among.start - first);
        }
        if first + 64 > among.end {
            bits &= !(!0 << among.end.saturating_sub(first));
        }
        let mut turns = bits ^ (bits << 1 | before);
        before = bits >> 63;
        while turns != 0 {
            let s = first + turns.trailing_zeros() as usize;
            turns &= turns - 1;
            match begun.take() {
                None => begun = Some(s),
                Some(start) => rows.push(start..s),
            }
        }
    }
    // the last word has at most 56 of the blocks, so that no row goes on past it
    rows
}

/// Counts the free blocks.
pub fn bitmap_count(bitmap: &[u8], l: u32, result: &mut [u32]) -> u32 {
    let mut call = || -> Answer<()> {
        need(result.len() == 1, 3)?;
        let (whole, last) = bits_of(bitmap, l)?.split_at(l as usize / 8);
        let (words, rest) = whole.as_chunks();
        let ones: u32 = words.iter().map(|&word| u64::from_le_bytes(word).count_ones()).sum();
        let last = last.iter().map(|byte| byte & !(!0 << (l % 8)));
        result[0] = ones + rest.iter().copied().chain(last).map(u8::count_ones).sum::<u32>();
        Ok(())
    };
    number(call())
}

/// Finds the free run of a wanted length whose first block is nearest to a block, the lower of two: among the rows about that block, and
/// about it farther and farther.
pub fn bitmap_find(bitmap: &[u8], l: u32, wanted: u32, near: u32, result: &mut [u32]) -> u32 {
    let mut call = || -> Answer<()> {
        need(result.len() == 1, 3)?;
        let bits = bits_of(bitmap, l)?;
        need(near < l, 12)?;
        need(wanted != 0, 32)?;
        let (l, wanted, near) = (l as usize, wanted as usize, near as usize);
        let mut reach = 512;
        loop {
            // here lie all runs whose first block is at most this far, and no others
            let among = near.saturating_sub(reach)..l.min(near + reach + wanted);
            let is_all = among == (0..l);
            let rows = free_rows(bits, among);
            // rows ascend, and the first of those at equal distance is taken
            let firsts = rows.iter().filter(|row| row.len() >= wanted).map(|row| near.clamp(row.start, row.end - wanted));
            if let Some(first) = firsts.min_by_key(|first| first.abs_diff(near)) {
                result[0] = first as u32;
                return Ok(());
            }
            need(!is_all, 33)?;
            reach *= 8;
        }
    };
    number(call())
}

/// Takes a run of free blocks.
pub fn bitmap_take(bitmap: &mut [u8], l: u32, first: u32, count: u32) -> u32 {
    number(turn_run(bitmap, l, first, count, true))
}

/// Gives a run of allocated blocks back.
pub fn bitmap_give_back(bitmap: &mut [u8], l: u32, first: u32, count: u32) -> u32 {
    number(turn_run(bitmap, l, first, count, false))
}

/// A run of blocks, all of them free or all of them allocated, turns into the other; then CRC and checksum, which sums the CRC's bytes.
fn turn_run(bitmap: &mut [u8], l: u32, first: u32, count: u32, is_free: bool) -> Answer<()> {
    let bits = bits_of(bitmap, l)?;
    need(first < l, 12)?;
    need(count != 0 && count <= l - first, 32)?;
    let run = first as usize..first as usize + count as usize;
    let rows = free_rows(bits, run.clone());
    need(if is_free { rows == [run.clone()] } else { rows.is_empty() }, 32)?;

    let bits = &mut bitmap[BITS_AT..];
    // whole bytes, and the blocks below and above them
    let from = run.start.next_multiple_of(8).min(run.end);
    let to = (run.end / 8 * 8).max(from);
    bits[from / 8..to / 8].fill(if is_free { 0 } else { 255 });
    for s in (run.start..from).chain(to..run.end) {
        bits[s / 8] ^= 1 << (s % 8);
    }
    let crc_length = usize::from(u16_at(bitmap, 10));
    let crc = crc(&bitmap[16..16 + crc_length], 0);
    put(bitmap, 8, &crc.to_le_bytes());
    bitmap[4] = checksum(bitmap);
    Ok(())
}

// ---- lists of calls

const CALL: usize = 6;

/// Opens the disc and carries out a list of calls.
pub fn run(
    disc: &mut [u8],
    marks: &mut [u8],
    maps: &[u8],
    s: u32,
    l: u32,
    table: &mut [u32],
    record: &mut [u32],
    calls: &[u32],
    bytes: &[u8],
    replies: &mut [u32],
) -> u32 {
    let opened = open(disc, marks, maps, s, l, table, record);
    if opened != 0 {
        return opened;
    }
    let mut down = false;
    for (i, call) in calls.chunks_exact(CALL).enumerate() {
        let &[kind, n, at, effect, from, count] = call else {
            continue;
        };
        let from = bytes.len().min(from as usize);
        let end = bytes.len().min(from.saturating_add(count as usize));
        let lent = &bytes[from..end];
        let (d, m, t, r) = (&mut *disc, &mut *marks, &mut *table, &mut *record);
        let reply = match kind {
            0 if !down => save_virtual(d, m, maps, s, l, t, r, n, lent, at, effect),
            1 if !down => free_virtual(d, m, maps, s, l, t, r, n),
            2 if !down => commit(d, m, maps, s, l, t, r, at, effect),
            3 if !down => save_block(d, m, maps, s, l, t, r, n, lent, at, effect),
            4 if !down => save_packet(d, m, maps, s, l, t, r, n, lent, at, effect),
            5 if !down => spare_packet(d, m, maps, s, l, t, r, n, lent, at, effect),
            _ => open(d, m, maps, s, l, t, r),
        };
        down = reply == CUT;
        if let Some(place) = replies.get_mut(i) {
            *place = reply;
        }
    }
    0
}

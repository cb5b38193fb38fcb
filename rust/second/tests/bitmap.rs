//! Document 02, slip 10, through both implementations: free blocks counted, runs found, taken and given back in the space bitmap.
//!
//! What the calls come to is also worked out a third time, from 02's words, and by readings that are wrong in one place: each of these is
//! contradicted by a call that is tried here, so an implementation that was wrong there would be found.

#[path = "lists/random.rs"]
mod random;
#[path = "discs/sectors.rs"]
mod sectors;

use random::Random;
use sectors::unpack;
use tuormik::descriptors::{find_space, find_volume};
use tuormik::SECTOR;
use tuormik_second::layer::{Layer, PLAIN, PROVED};

const OUTSIDE: u32 = 12;
const MALFORMED: u32 = 31;
const WRONG_RUN: u32 = 32;
const NO_RUN: u32 = 33;

/// Where the bits begin.
const BITS: usize = 24;

// ---- bitmaps

/// The CRC of descriptor tags, a bit at a time.
fn crc(bytes: &[u8]) -> u16 {
    bytes.iter().fold(0, |crc, &byte| {
        (0..8).fold(crc ^ u16::from(byte) << 8, |crc, _| if crc & 0x8000 == 0 { crc << 1 } else { crc << 1 ^ 0x1021 })
    })
}

fn u16_at(bytes: &[u8], at: usize) -> u16 {
    u16::from_le_bytes([bytes[at], bytes[at + 1]])
}

fn u32_at(bytes: &[u8], at: usize) -> u32 {
    u32::from_le_bytes([bytes[at], bytes[at + 1], bytes[at + 2], bytes[at + 3]])
}

fn put(bytes: &mut [u8], at: usize, number: impl Into<u64>, length: usize) {
    bytes[at..at + length].copy_from_slice(&number.into().to_le_bytes()[..length]);
}

/// The CRC made right as far as its length is lent.
fn mend_crc(bytes: &mut [u8]) {
    let end = bytes.len().min(16 + usize::from(u16_at(bytes, 10)));
    let value = crc(&bytes[16..end]);
    put(bytes, 8, value, 2);
}

fn mend_checksum(bytes: &mut [u8]) {
    bytes[4] = 0;
    bytes[4] = bytes[..16].iter().fold(0, |sum: u8, &byte| sum.wrapping_add(byte));
}

fn mend(bytes: &mut [u8]) {
    mend_crc(bytes);
    mend_checksum(bytes);
}

/// A bitmap of L blocks with these bytes of bits and some bytes behind them.
fn bitmap(l: u32, bits: &[u8], behind: &[u8], crc_length: u16) -> Vec<u8> {
    let mut bytes = vec![0; BITS];
    put(&mut bytes, 0, 264u16, 2);
    put(&mut bytes, 10, crc_length, 2);
    put(&mut bytes, 16, l, 4);
    put(&mut bytes, 20, bits.len() as u32, 4);
    bytes.extend(bits);
    bytes.extend(behind);
    mend(&mut bytes);
    bytes
}

/// The bits of some blocks, told by which of them are free; the bits after the last are ones.
fn bits_by(l: u32, is_free: impl Fn(u32) -> bool) -> Vec<u8> {
    (0..l.div_ceil(8)).map(|i| (0..8).map(|j| u8::from(8 * i + j >= l || is_free(8 * i + j)) << j).sum()).collect()
}

// ---- the calls, and what they come to by 02's words

#[derive(Clone, Copy, Debug)]
enum Call {
    Count,
    Find { wanted: u32, near: u32 },
    Take { first: u32, count: u32 },
    GiveBack { first: u32, count: u32 },
}

/// What a call answers, what stands in its result, if it has one, and the bytes after it.
#[derive(Debug, PartialEq)]
struct Outcome {
    answer: u32,
    result: u32,
    bytes: Vec<u8>,
}

/// What stands in a result that is not written.
const UNTOUCHED: u32 = 0x7777_7777;

impl Call {
    fn make(self, layer: &Layer, bytes: &[u8], l: u32) -> Outcome {
        let mut bytes = bytes.to_vec();
        let mut result = [UNTOUCHED];
        let answer = match self {
            Call::Count => (layer.bitmap_count)(&bytes, l, &mut result),
            Call::Find { wanted, near } => (layer.bitmap_find)(&bytes, l, wanted, near, &mut result),
            Call::Take { first, count } => (layer.bitmap_take)(&mut bytes, l, first, count),
            Call::GiveBack { first, count } => (layer.bitmap_give_back)(&mut bytes, l, first, count),
        };
        Outcome { answer, result: result[0], bytes }
    }
}

/// Where a reading goes wrong.
#[derive(Clone, Copy, Debug, PartialEq)]
enum Slip {
    // of blocks and bits
    /// block s at weight 2 to the power 7 - s modulo 8; a zero is free; bits from L on count
    HighBitFirst,
    ZeroIsFree,
    PastL,

    // of finding
    /// of two at equal distance the higher
    HigherAtTie,
    /// a run begins where its row does
    FirstOfRow,
    /// only from the given block up; only down; the lowest run, wherever it is
    UpwardOnly,
    DownwardOnly,
    Lowest,
    /// the distance is that of the run's nearest block, or of its last
    NearestEnd,
    LastBlock,
    /// f + wanted is below L
    LastRunMissed,
    /// 32 for a wanted length above L; 33 for 0
    TooLongIsWrong,
    NoneIsNoRun,

    // of line 12, 32 and the order
    /// 32 is tested before 12
    RunFirst,
    /// block L is one
    BlockL,

    // of line 31
    /// a CRC length of 7 is enough, of 8 is not, of over 2,032 is not; whatever it is
    Seven,
    Nine,
    AsIcb,
    AnyLength,
    NoIdentifier,
    NoChecksum,
    NoCrc,
    /// version, byte 5, serial number and location are tested
    Version,
    Reserved,
    Serial,
    Location,
    /// as many bits as L or more will do; bits may run past the bytes; bytes and CRC past those lent
    MoreBits,
    BitsPastBytes,
    BytesPastLent,
    CrcPastLent,
    /// no byte more may be lent; none more may be had
    LentExactly,
    BytesExactly,
    /// L is not 0, or at most 1,048,576
    NotZero,
    Limited,

    // of taking and giving back
    /// the first block, the last, or none is tested for its state; the other state is needed
    FirstUntested,
    LastUntested,
    Untested,
    OtherState,
    /// the run may end past L by a block; it must end before L; first + count is taken modulo 2 to the power 32
    EndPastL,
    EndBelowL,
    EndWraps,
    /// whole bytes are changed; a block less is; the block after is too
    WholeBytes,
    OneLess,
    OneMore,
    /// not renewed; renewed in the other order; the CRC length set to all bits, or the CRC taken over them
    CrcKept,
    ChecksumKept,
    ChecksumFirst,
    LengthAnew,
    CrcOverBits,
    /// the tag's version is set to 2; bits from L on are cleared
    VersionWritten,
    BitsPastCleared,
}

use Slip::*;

const OF_FINDING: [Slip; 15] = [
    HighBitFirst,
    ZeroIsFree,
    PastL,
    HigherAtTie,
    FirstOfRow,
    UpwardOnly,
    DownwardOnly,
    Lowest,
    NearestEnd,
    LastBlock,
    LastRunMissed,
    TooLongIsWrong,
    NoneIsNoRun,
    RunFirst,
    BlockL,
];

const OF_TAKING: [Slip; 22] = [
    HighBitFirst,
    ZeroIsFree,
    RunFirst,
    BlockL,
    FirstUntested,
    LastUntested,
    Untested,
    OtherState,
    EndPastL,
    EndBelowL,
    EndWraps,
    WholeBytes,
    OneLess,
    OneMore,
    CrcKept,
    ChecksumKept,
    ChecksumFirst,
    LengthAnew,
    CrcOverBits,
    VersionWritten,
    BitsPastCleared,
    NotZero,
];

const OF_TESTING: [Slip; 19] = [
    Seven,
    Nine,
    AsIcb,
    AnyLength,
    NoIdentifier,
    NoChecksum,
    NoCrc,
    Version,
    Reserved,
    Serial,
    Location,
    MoreBits,
    BitsPastBytes,
    BytesPastLent,
    CrcPastLent,
    LentExactly,
    BytesExactly,
    NotZero,
    Limited,
];

/// A bitmap as 02 has it, with a slip or none.
struct Reading<'a> {
    slip: Option<Slip>,
    bytes: &'a [u8],
    l: u32,
}

impl Reading<'_> {
    fn is(&self, one: Slip) -> bool {
        self.slip == Some(one)
    }

    /// Whether 31 lets the bitmap pass.
    fn is_formed(&self) -> bool {
        let (b, l) = (self.bytes, self.l);
        if b.len() < BITS {
            return false;
        }
        let crc_length = usize::from(u16_at(b, 10));
        let lengths = match self.slip {
            Some(Seven) => 7..=65_535,
            Some(Nine) => 9..=65_535,
            Some(AsIcb) => 8..=2_032,
            Some(AnyLength) => 0..=65_535,
            _ => 8..=65_535,
        };
        let covered = b.get(16..16 + crc_length).or(self.is(CrcPastLent).then_some(&b[16..]));
        let sum = b[..16].iter().fold(0u8, |sum, &byte| sum.wrapping_add(byte)).wrapping_sub(b[4]);
        let (bits, had) = (u32_at(b, 16), u32_at(b, 20));
        let end = BITS as u64 + u64::from(had);
        let needed = u64::from(l.div_ceil(8));
        lengths.contains(&crc_length)
            && (self.is(NoIdentifier) || u16_at(b, 0) == 264)
            && (self.is(NoChecksum) || b[4] == sum)
            && covered.is_some_and(|covered| self.is(NoCrc) || u16_at(b, 8) == crc(covered))
            && (!self.is(Version) || (2..=3).contains(&u16_at(b, 2)))
            && (!self.is(Reserved) || b[5] == 0)
            && (!self.is(Serial) || u16_at(b, 6) == 0)
            && (!self.is(Location) || u32_at(b, 12) == 0)
            && (bits == l || self.is(MoreBits) && bits > l)
            && u64::from(l) <= 8 * u64::from(had) + if self.is(BitsPastBytes) { 8 } else { 0 }
            && end <= b.len() as u64 + if self.is(BytesPastLent) { 1 } else { 0 }
            && (!self.is(LentExactly) || end == b.len() as u64)
            && (!self.is(BytesExactly) || u64::from(had) == needed)
            && (!self.is(NotZero) || l != 0)
            && (!self.is(Limited) || l <= 1_048_576)
    }

    /// How many bits are looked at.
    fn blocks(&self) -> u32 {
        if self.is(PastL) {
            8 * u32_at(self.bytes, 20)
        } else {
            self.l
        }
    }

    fn place(&self, s: u32) -> (usize, u8) {
        let weight = if self.is(HighBitFirst) { 7 - s % 8 } else { s % 8 };
        (BITS + s as usize / 8, 1 << weight)
    }

    fn is_free(&self, s: u32) -> bool {
        let (at, weight) = self.place(s);
        let is_one = self.bytes.get(at).is_some_and(|byte| byte & weight != 0);
        is_one != self.is(ZeroIsFree)
    }

    /// Lines 31, 12 and 32.
    fn tested(&self, block: u32, is_right: impl Fn() -> bool) -> Result<(), u32> {
        if !self.is_formed() {
            return Err(MALFORMED);
        }
        let is_there = block < self.l || self.is(BlockL) && block == self.l;
        let lines = [(is_there, OUTSIDE), (is_right(), WRONG_RUN)];
        let mut failing = lines.iter().filter(|(holds, _)| !holds).map(|(_, line)| *line);
        let first = if self.is(RunFirst) { failing.next_back() } else { failing.next() };
        first.map_or(Ok(()), Err)
    }

    fn counted(&self) -> Result<u32, u32> {
        if !self.is_formed() {
            return Err(MALFORMED);
        }
        Ok((0..self.blocks()).filter(|&s| self.is_free(s)).count() as u32)
    }

    fn distance(&self, first: u32, wanted: u32, near: u32) -> u32 {
        let last = first + wanted - 1;
        match self.slip {
            Some(NearestEnd) if first <= near && near <= last => 0,
            Some(NearestEnd) => first.abs_diff(near).min(last.abs_diff(near)),
            Some(LastBlock) => last.abs_diff(near),
            Some(Lowest) => 0,
            _ => first.abs_diff(near),
        }
    }

    /// Of all blocks at which such a run begins the one at the least distance, the lowest of these.
    fn found(&self, wanted: u32, near: u32) -> Result<u32, u32> {
        self.tested(near, || (wanted != 0 || self.is(NoneIsNoRun)) && (wanted <= self.l || !self.is(TooLongIsWrong)))?;
        if wanted == 0 {
            return Err(NO_RUN);
        }
        let blocks = self.blocks();
        // from the highest block down, how many in a row are free from it on
        let mut row = 0;
        let mut best: Option<(u32, u32)> = None;
        for first in (0..blocks).rev() {
            row = if self.is_free(first) { row + 1 } else { 0 };
            let is_run = row >= wanted
                && (!self.is(LastRunMissed) || first + wanted < blocks)
                && (!self.is(FirstOfRow) || first == 0 || !self.is_free(first - 1))
                && (!self.is(UpwardOnly) || first >= near)
                && (!self.is(DownwardOnly) || first <= near);
            if is_run {
                let distance = self.distance(first, wanted, near);
                if best.is_none_or(|(least, _)| distance < least || distance == least && !self.is(HigherAtTie)) {
                    best = Some((distance, first));
                }
            }
        }
        best.map(|(_, first)| first).ok_or(NO_RUN)
    }

    /// The bytes after a run is taken, or given back.
    fn turned(&self, first: u32, count: u32, takes: bool) -> Result<Vec<u8>, u32> {
        let l = u64::from(self.l);
        let end = if self.is(EndWraps) { first.wrapping_add(count).into() } else { u64::from(first) + u64::from(count) };
        let is_inside = match self.slip {
            Some(EndPastL) => end <= l + 1,
            Some(EndBelowL) => end < l,
            _ => end <= l,
        };
        let tested = match self.slip {
            Some(FirstUntested) => u64::from(first) + 1..end,
            Some(LastUntested) => u64::from(first)..end.saturating_sub(1),
            Some(Untested) => 0..0,
            _ => u64::from(first)..end,
        };
        let needed = takes != self.is(OtherState);
        self.tested(first, || count != 0 && is_inside && tested.clone().all(|s| self.is_free(s as u32) == needed))?;

        let mut bytes = self.bytes.to_vec();
        let changed = match self.slip {
            Some(OneLess) => u64::from(first)..end - 1,
            Some(OneMore) => u64::from(first)..end + 1,
            _ => u64::from(first)..end,
        };
        let becomes_one = takes == self.is(ZeroIsFree);
        for s in changed {
            let (at, weight) = self.place(s as u32);
            let weight = if self.is(WholeBytes) { 255 } else { weight };
            if let Some(byte) = bytes.get_mut(at) {
                *byte = if becomes_one { *byte | weight } else { *byte & !weight };
            }
        }
        let had = u32_at(&bytes, 20);
        if self.is(BitsPastCleared) {
            for s in self.l..8 * had {
                let (at, weight) = self.place(s);
                bytes[at] &= !weight;
            }
        }
        match self.slip {
            Some(CrcKept) => mend_checksum(&mut bytes),
            Some(ChecksumKept) => mend_crc(&mut bytes),
            Some(ChecksumFirst) => {
                mend_checksum(&mut bytes);
                mend_crc(&mut bytes);
            }
            Some(LengthAnew) => {
                put(&mut bytes, 10, 8 + had as u16, 2);
                mend(&mut bytes);
            }
            Some(CrcOverBits) => {
                let value = crc(&bytes[16..BITS + had as usize]);
                put(&mut bytes, 8, value, 2);
                mend_checksum(&mut bytes);
            }
            Some(VersionWritten) => {
                put(&mut bytes, 2, 2u16, 2);
                mend(&mut bytes);
            }
            _ => mend(&mut bytes),
        }
        Ok(bytes)
    }

    fn outcome(&self, call: Call) -> Outcome {
        let told = |told: Result<u32, u32>| Outcome {
            answer: told.err().unwrap_or(0),
            result: told.unwrap_or(UNTOUCHED),
            bytes: self.bytes.to_vec(),
        };
        let written = |written: Result<Vec<u8>, u32>| Outcome {
            answer: written.as_ref().err().copied().unwrap_or(0),
            result: UNTOUCHED,
            bytes: written.unwrap_or_else(|_| self.bytes.to_vec()),
        };
        match call {
            Call::Count => told(self.counted()),
            Call::Find { wanted, near } => told(self.found(wanted, near)),
            Call::Take { first, count } => written(self.turned(first, count, true)),
            Call::GiveBack { first, count } => written(self.turned(first, count, false)),
        }
    }
}

/// How many calls were tried, how often each answer was met, and which slips none of the calls contradicts.
struct Tried {
    slips: Vec<Slip>,
    calls: usize,
    answers: [usize; 34],
}

impl Tried {
    fn new(slips: &[Slip]) -> Tried {
        Tried { slips: slips.to_vec(), calls: 0, answers: [0; 34] }
    }

    /// A call: both implementations and 02's words come to the same. Gives it.
    fn call(&mut self, bytes: &[u8], l: u32, call: Call) -> Outcome {
        let by = |slip| Reading { slip, bytes, l }.outcome(call);
        let outcome = by(None);
        for layer in [&PLAIN, &PROVED] {
            let made = call.make(layer, bytes, l);
            assert!(made == outcome, "{}: {}\n{}", layer.name, case(bytes, l, call), different(&made, &outcome));
        }
        self.slips.retain(|&slip| by(Some(slip)) == outcome);
        self.calls += 1;
        self.answers[outcome.answer as usize] += 1;
        outcome
    }

    /// The result of a call that answers 0, or its refusal.
    fn told(&mut self, bytes: &[u8], l: u32, call: Call) -> Result<u32, u32> {
        let outcome = self.call(bytes, l, call);
        if outcome.answer == 0 {
            Ok(outcome.result)
        } else {
            Err(outcome.answer)
        }
    }

    fn count(&mut self, bytes: &[u8], l: u32) -> Result<u32, u32> {
        self.told(bytes, l, Call::Count)
    }

    fn find(&mut self, bytes: &[u8], l: u32, wanted: u32, near: u32) -> Result<u32, u32> {
        self.told(bytes, l, Call::Find { wanted, near })
    }

    /// Takes a run, and the answer.
    fn take(&mut self, bytes: &mut Vec<u8>, l: u32, first: u32, count: u32) -> u32 {
        let Outcome { answer, bytes: after, .. } = self.call(bytes, l, Call::Take { first, count });
        *bytes = after;
        answer
    }

    fn give_back(&mut self, bytes: &mut Vec<u8>, l: u32, first: u32, count: u32) -> u32 {
        let Outcome { answer, bytes: after, .. } = self.call(bytes, l, Call::GiveBack { first, count });
        *bytes = after;
        answer
    }

    /// No slip could have passed, and each of these answers was met.
    fn done(self, answers: &[u32]) {
        assert!(self.slips.is_empty(), "{} calls contradict no {:?}", self.calls, self.slips);
        for &answer in answers {
            assert!(self.answers[answer as usize] > 0, "{answer} was not met");
        }
    }
}

fn case(bytes: &[u8], l: u32, call: Call) -> String {
    format!("{call:?}, L {l}, {} bytes lent: {:02x?}", bytes.len(), &bytes[..bytes.len().min(100)])
}

fn different(made: &Outcome, right: &Outcome) -> String {
    let at = made.bytes.iter().zip(&right.bytes).position(|(a, b)| a != b);
    let answers = |outcome: &Outcome| format!("answers {}, result {:#x}", outcome.answer, outcome.result);
    format!("it {}, and should {}; the bytes differ first at {at:?}", answers(made), answers(right))
}

// ---- worked bitmaps

/// Blocks 2 to 4, 7 and 8, 10 to 14, 18 and 19 of 20 are free.
const WORKED: [u8; 27] = [
    0x08, 0x01, 0x00, 0x00, 0xbf, 0x00, 0x00, 0x00, 0x05, 0xa9, 0x08, 0x00, 0x00, 0x00, 0x00, 0x00, 0x14, 0x00, 0x00, 0x00, 0x03, 0x00,
    0x00, 0x00, 0x9c, 0x7d, 0x0c,
];

#[test]
fn worked_bitmaps() {
    let mut tried = Tried::new(&[]);
    let l = 20;
    assert_eq!(bitmap(l, &[0x9c, 0x7d, 0x0c], &[], 8), WORKED);
    assert_eq!(tried.count(&WORKED, l), Ok(12));
    for (near, wanted, first) in [(6, 3, 2), (7, 3, 10), (6, 2, 7), (5, 2, 3), (19, 2, 18)] {
        assert_eq!(tried.find(&WORKED, l, wanted, near), Ok(first), "{wanted} near {near}");
    }
    for (near, wanted, line) in [(0, 6, NO_RUN), (20, 1, OUTSIDE), (3, 0, WRONG_RUN), (20, 0, OUTSIDE), (3, 21, NO_RUN)] {
        assert_eq!(tried.find(&WORKED, l, wanted, near), Err(line), "{wanted} near {near}");
    }

    // the CRC over the bits too
    let mut bytes = bitmap(l, &[0x9c, 0x7d, 0x0c], &[], 11);
    let tag = |bytes: &[u8]| (u16_at(bytes, 8), bytes[4], u16_at(bytes, 10));
    assert_eq!(tag(&bytes), (0x6e29, 0xab, 11));
    assert_eq!(tried.take(&mut bytes, l, 7, 2), 0);
    assert_eq!((&bytes[24..], tag(&bytes)), (&[0x1c, 0x7c, 0x0c][..], (0x6642, 0xbc, 11)));
    assert_eq!(tried.give_back(&mut bytes, l, 15, 3), 0);
    assert_eq!((&bytes[24..], tag(&bytes)), (&[0x1c, 0xfc, 0x0f][..], (0x4db9, 0x1a, 11)));
    assert_eq!(tried.count(&bytes, l), Ok(13));

    // the example of ECMA-167, 7.2.6
    for layer in [&PLAIN, &PROVED] {
        assert_eq!((layer.crc)(&[0x70, 0x6a, 0x77], 0), 0x3299, "{}", layer.name);
    }
    assert_eq!(crc(&[0x70, 0x6a, 0x77]), 0x3299);
}

/// The bitmaps of two discs that mkudffs made, in their block 0: as many blocks are free as their integrity descriptors say, all but
/// blocks 0, 32, 64 and 96.
#[test]
fn bitmaps_of_real_discs() {
    let mut tried = Tried::new(&[]);
    let larger: &[u8] = include_bytes!("discs/real-cdrw-1.50-2048-tab2.sectors");
    let smaller: &[u8] = include_bytes!("discs/real-cdrw-1.50-1000-R3.sectors");
    for (file, start, length, free) in [(larger, 544, 1440, 1436), (smaller, 384, 576, 572)] {
        let image = unpack(file);
        let volume = find_volume(&image).expect("volume descriptors");
        assert_eq!((volume.start, volume.length), (start, length));
        let space = find_space(&image).expect("volume descriptors");
        let extent = space.bitmap.expect("a bitmap");
        assert_eq!((extent.block, space.counted.map(|counted| counted.free)), (0, Some(free)));
        // no packet of either disc is spared
        let made = image[SECTOR * (start + extent.block) as usize..][..SECTOR].to_vec();
        assert_eq!((extent.length, u32_at(&made, 20), u16_at(&made, 10)), (2048, length / 8, 8));

        assert_eq!(tried.count(&made, length), Ok(free));
        let longest = length - 97;
        assert_eq!(tried.find(&made, length, 32, 0), Ok(97));
        assert_eq!(tried.find(&made, length, 1, 64), Ok(63));
        assert_eq!(tried.find(&made, length, 31, 0), Ok(1));
        for near in [0, length - 1] {
            assert_eq!(tried.find(&made, length, longest, near), Ok(97));
            assert_eq!(tried.find(&made, length, longest + 1, near), Err(NO_RUN));
        }
        let mut bytes = made.clone();
        let allocated = [0, 32, 64, 96];
        for s in allocated {
            assert_eq!((tried.take(&mut bytes, length, s, 1), tried.give_back(&mut bytes, length, s, 1)), (WRONG_RUN, 0));
        }
        assert_eq!(tried.find(&bytes, length, length, 5), Ok(0));
        assert_eq!(tried.take(&mut bytes, length, 0, length), 0);
        assert_eq!(tried.count(&bytes, length), Ok(0));
        assert_eq!(tried.give_back(&mut bytes, length, 0, length), 0);
        for s in allocated {
            assert_eq!(tried.take(&mut bytes, length, s, 1), 0);
        }
        assert!(bytes == made);
    }
}

/// With no block counting gives 0, and every other call answers 12.
#[test]
fn no_blocks() {
    let mut tried = Tried::new(&[NotZero]);
    for bits in [&[][..], &[0xff], &[0; 9]] {
        let mut bytes = bitmap(0, bits, &[3; 5], 8);
        assert_eq!(tried.count(&bytes, 0), Ok(0));
        for n in [0, 1, u32::MAX] {
            for block in [0, 1, u32::MAX] {
                assert_eq!(tried.find(&bytes, 0, n, block), Err(OUTSIDE));
                assert_eq!(tried.take(&mut bytes, 0, block, n), OUTSIDE);
                assert_eq!(tried.give_back(&mut bytes, 0, block, n), OUTSIDE);
            }
        }
    }
    tried.done(&[0, OUTSIDE]);
}

/// A result of another length is line 3, before 31.
#[test]
fn results_of_another_length() {
    let mut damaged = WORKED;
    damaged[4] ^= 1;
    for layer in [&PLAIN, &PROVED] {
        for bytes in [&WORKED[..], &damaged, &[]] {
            for length in [0, 2, 3] {
                let mut result = vec![7; length];
                assert_eq!((layer.bitmap_count)(bytes, 20, &mut result), 3, "{}", layer.name);
                assert_eq!((layer.bitmap_find)(bytes, 20, 3, 6, &mut result), 3, "{}", layer.name);
                assert_eq!((layer.bitmap_find)(bytes, 20, 0, 20, &mut result), 3, "{}", layer.name);
                assert_eq!(result, vec![7; length], "{}", layer.name);
            }
        }
    }
}

// ---- all small bitmaps

/// The bits of a small bitmap; those past L are ones or zeros, and a byte more is there.
fn small_bits(l: u32, pattern: u32) -> Vec<u8> {
    let past = if pattern.count_ones().is_multiple_of(2) { !0 << l } else { 0 };
    (pattern | past).to_le_bytes()[..l.div_ceil(8) as usize + 1].to_vec()
}

/// The most blocks of a small bitmap.
const SMALL: u32 = 11;

#[test]
fn found_in_all_small_bitmaps() {
    let mut tried = Tried::new(&OF_FINDING);
    for l in 0..=SMALL {
        for pattern in 0..1 << l {
            let bytes = bitmap(l, &small_bits(l, pattern), &[], 8);
            assert_eq!(tried.count(&bytes, l), Ok(pattern.count_ones()));
            for wanted in 0..=l + 1 {
                for near in 0..=l {
                    let _ = tried.find(&bytes, l, wanted, near);
                }
            }
        }
    }
    tried.done(&[0, OUTSIDE, WRONG_RUN, NO_RUN]);
}

#[test]
fn taken_and_given_back_in_all_small_bitmaps() {
    let mut tried = Tried::new(&OF_TAKING);
    for l in 0..SMALL {
        for pattern in 0..1 << l {
            let bits = small_bits(l, pattern);
            // over the bits, over the bytes behind them too, over a part of the bits, and over none
            let crc_length = [8 + bits.len() as u16, 12 + bits.len() as u16, 9, 8][pattern as usize % 4];
            let made = bitmap(l, &bits, &[0x5a, 0, 0xff, 1], crc_length);
            for first in 0..=l {
                for count in (0..=l + 1 - first).chain([u32::MAX - first, u32::MAX - first + 1, u32::MAX]) {
                    let mut bytes = made.clone();
                    let taken = tried.take(&mut bytes, l, first, count);
                    if taken == 0 {
                        assert_eq!(tried.count(&bytes, l), Ok(pattern.count_ones() - count));
                        assert_eq!(tried.take(&mut bytes, l, first, 1), WRONG_RUN);
                        assert_eq!(tried.give_back(&mut bytes, l, first, count), 0);
                        assert!(bytes == made, "given back, every byte is as it was");
                    }
                    let given = tried.give_back(&mut bytes, l, first, count);
                    assert!(taken != 0 || given != 0);
                    if given == 0 {
                        assert_eq!(tried.count(&bytes, l), Ok(pattern.count_ones() + count));
                        assert_eq!(tried.take(&mut bytes, l, first, count), 0);
                        assert!(bytes == made, "taken again, every byte is as it was");
                    }
                }
            }
        }
    }
    tried.done(&[0, OUTSIDE, WRONG_RUN]);
}

// ---- rows about the ends of bytes and words

/// Lengths of rows, and wanted ones, about those at which an implementation may change its way.
const LENGTHS: [u32; 17] = [1, 2, 3, 7, 8, 9, 15, 31, 32, 33, 34, 56, 57, 63, 64, 65, 100];

/// One row of free blocks, wherever it is, and one allocated block among free ones.
#[test]
fn one_row_and_one_gap() {
    let mut tried = Tried::new(&[PastL, FirstOfRow, UpwardOnly, DownwardOnly, LastRunMissed]);
    for l in [57, 63, 64, 65, 71, 72, 73, 127, 128, 129, 136, 150] {
        for from in 0..l {
            for length in LENGTHS.into_iter().filter(|length| from + length <= l) {
                let bytes = bitmap(l, &bits_by(l, |s| (from..from + length).contains(&s)), &[], 8);
                let mut nears = [0, l - 1, from, from + length - 1, (from + length) / 2];
                nears.sort();
                for near in nears {
                    assert_eq!(tried.find(&bytes, l, length, near), Ok(from));
                    assert_eq!(tried.find(&bytes, l, length + 1, near), Err(NO_RUN));
                }
            }
            let bytes = bitmap(l, &bits_by(l, |s| s != from), &[], 8);
            for wanted in LENGTHS.into_iter().filter(|wanted| *wanted <= l) {
                for near in [from.saturating_sub(wanted), from.saturating_sub(1), from, l - 1] {
                    let found = tried.find(&bytes, l, wanted, near);
                    assert_eq!(found.is_ok(), wanted <= from.max(l - 1 - from));
                }
            }
        }
    }
    tried.done(&[0, NO_RUN]);
}

/// Two rows as far from a block, and a block nearer to either.
#[test]
fn two_rows() {
    let mut tried = Tried::new(&[HigherAtTie, NearestEnd, LastBlock, Lowest]);
    for length in LENGTHS {
        for apart in [2, 4, 32, 62, 64, 66, 128, 130, 200].into_iter().filter(|apart| *apart > length) {
            for from in [0, 1, 5, 7, 8, 63, 64, 65] {
                let l = from + apart + length + from % 3;
                let is_free = |s: u32| (from..from + length).contains(&s) || (from + apart..from + apart + length).contains(&s);
                let bytes = bitmap(l, &bits_by(l, is_free), &[], 8);
                let middle = from + apart / 2;
                assert_eq!(tried.find(&bytes, l, length, middle), Ok(from));
                assert_eq!(tried.find(&bytes, l, length, middle - 1), Ok(from));
                assert_eq!(tried.find(&bytes, l, length, middle + 1), Ok(from + apart));
            }
        }
    }
    tried.done(&[0]);
}

// ---- random bitmaps

fn pick<T: Copy>(random: &mut Random, from: &[T]) -> T {
    from[random.below(from.len() as u32) as usize]
}

/// Blocks in rows of free ones and of allocated ones by turns, of random lengths.
fn random_bits(random: &mut Random, l: u32) -> Vec<u8> {
    let mut bits = vec![0u8; l.div_ceil(8) as usize];
    let longest = [0; 2].map(|_| pick(random, &[1, 2, 3, 9, 40, 70, 300]));
    let mut s = random.below(longest[0] + 1);
    while s < l {
        let end = l.min(s + 1 + random.below(longest[0]));
        (s..end).for_each(|s| bits[s as usize / 8] |= 1 << (s % 8));
        s = end + 1 + random.below(longest[1]);
    }
    // past L anything
    if !l.is_multiple_of(8) {
        *bits.last_mut().expect("a byte") |= (random.next() as u8) << (l % 8);
    }
    bits
}

/// A bitmap as others may write it: more bytes than it needs, more lent than it has, any version, serial number and location, and a CRC of
/// any length.
fn random_bitmap(random: &mut Random, l: u32) -> Vec<u8> {
    let mut bits = random_bits(random, l);
    bits.extend((0..pick(random, &[0, 0, 1, 7, 8, 9])).map(|_| random.next() as u8));
    let behind: Vec<u8> = (0..pick(random, &[0, 0, 1, 7, 8, 9, 60, 2048])).map(|_| random.next() as u8).collect();
    let most = (8 + bits.len() + behind.len()).min(65_535) as u16;
    let crc_length = match random.below(6) {
        0 | 1 => 8,
        2 => 8 + bits.len().min(60_000) as u16,
        3 => most,
        _ => 8 + random.below(u32::from(most) - 7) as u16,
    };
    let mut bytes = bitmap(l, &bits, &behind, crc_length);
    if random.below(2) == 0 {
        for at in [2, 3, 5, 6, 7, 12, 13, 14, 15] {
            bytes[at] = random.next() as u8;
        }
        mend_checksum(&mut bytes);
    }
    bytes
}

/// L about the ends of bytes and words, and longer at times.
fn random_length(random: &mut Random) -> u32 {
    match random.below(8) {
        0 => random.below(20),
        1..=4 => random.below(201),
        5 => 64 * random.below(10) + random.below(3),
        6 => (8 * random.below(60) + random.below(3)).saturating_sub(1),
        _ => random.below(6_000),
    }
}

fn random_run(random: &mut Random, l: u32) -> (u32, u32) {
    let odd = [0, 1, l.wrapping_sub(1), l, l.wrapping_add(1), u32::MAX, u32::MAX - l];
    let first = if random.below(12) == 0 { pick(random, &odd) } else { random.below(l) };
    let count = match random.below(12) {
        0 => pick(random, &odd),
        // to 2 to the power 32, or past it by a few
        1 => random.below(6).wrapping_sub(first),
        2 => l.saturating_sub(first).wrapping_add(random.below(3)).wrapping_sub(1),
        _ => {
            let most = pick(random, &[2, 4, 12, 70]);
            1 + random.below(most)
        }
    };
    (first, count)
}

fn random_call(random: &mut Random, l: u32) -> Call {
    let (block, count) = random_run(random, l);
    match random.below(12) {
        0 => Call::Count,
        1..=6 => Call::Find { wanted: if random.below(3) == 0 { pick(random, &LENGTHS) } else { count }, near: block },
        7..=9 => Call::Take { first: block, count },
        _ => Call::GiveBack { first: block, count },
    }
}

#[test]
fn random_calls() {
    let slips: Vec<Slip> = OF_FINDING.into_iter().chain(OF_TAKING).collect();
    let mut tried = Tried::new(&slips);
    let mut random = Random(0x9e37_79b9_7f4a_7c15);
    for _ in 0..20_000 {
        let l = random_length(&mut random);
        let mut bytes = random_bitmap(&mut random, l);
        for _ in 0..12 {
            let call = random_call(&mut random, l);
            bytes = tried.call(&bytes, l, call).bytes;
            // what is found is taken now and then
            if let (Call::Find { wanted, near }, 0) = (call, random.below(2)) {
                if let Ok(first) = tried.find(&bytes, l, wanted, near) {
                    assert_eq!(tried.take(&mut bytes, l, first, wanted), 0);
                }
            }
        }
    }
    tried.done(&[0, OUTSIDE, WRONG_RUN, NO_RUN]);
}

/// Runs that are taken and given back in any order: when all is undone, every byte is as it was first.
#[test]
fn lists_that_are_undone() {
    let mut tried = Tried::new(&[CrcKept, ChecksumKept, ChecksumFirst, LengthAnew]);
    let mut random = Random(0x1234_5678_9abc_def1);
    for _ in 0..300 {
        let l = 20 + random_length(&mut random);
        let first_bytes = random_bitmap(&mut random, l);
        let mut bytes = first_bytes.clone();
        let free = tried.count(&bytes, l).expect("a count");
        let mut taken = Vec::new();
        for _ in 0..20 {
            let wanted = 1 + random.below(9);
            if let Ok(first) = tried.find(&bytes, l, wanted, random.below(l)) {
                assert_eq!(tried.take(&mut bytes, l, first, wanted), 0);
                taken.push((first, wanted));
            }
        }
        let missing: u32 = taken.iter().map(|run| run.1).sum();
        assert_eq!(tried.count(&bytes, l), Ok(free - missing));
        while !taken.is_empty() {
            let (first, count) = taken.swap_remove(random.below(taken.len() as u32) as usize);
            // in two parts, the upper first
            let lower = random.below(count);
            assert_eq!(tried.give_back(&mut bytes, l, first + lower, count - lower), 0);
            if lower > 0 {
                assert_eq!(tried.give_back(&mut bytes, l, first, lower), 0);
            }
        }
        assert!(bytes == first_bytes);
    }
    tried.done(&[0, NO_RUN]);
}

// ---- damaged bitmaps

/// Every call answers 31 and leaves every byte.
fn is_refused(tried: &mut Tried, bytes: &[u8], l: u32) {
    let calls = [
        Call::Count,
        Call::Find { wanted: 1, near: 0 },
        Call::Find { wanted: 0, near: l },
        Call::Take { first: 2, count: 1 },
        Call::Take { first: l, count: 0 },
        Call::GiveBack { first: 0, count: 1 },
        Call::GiveBack { first: l, count: u32::MAX },
    ];
    for call in calls {
        assert_eq!(tried.call(bytes, l, call).answer, MALFORMED, "{}", case(bytes, l, call));
    }
}

/// The calls are carried out.
fn is_accepted(tried: &mut Tried, bytes: &[u8], l: u32) {
    assert!(tried.count(bytes, l).is_ok());
    let mut bytes = bytes.to_vec();
    if let Ok(first) = tried.find(&bytes, l, 1, l / 2) {
        assert_eq!(tried.take(&mut bytes, l, first, 1), 0);
        assert_eq!(tried.give_back(&mut bytes, l, first, 1), 0);
    }
}

/// What 31 tests, one thing at a time, at its edge; and what it does not test.
#[test]
fn tested_and_not_tested() {
    let mut tried = Tried::new(&OF_TESTING);
    let bits = [0x9c, 0x7d, 0x0c];
    let with = |change: &dyn Fn(&mut Vec<u8>)| {
        let mut bytes = bitmap(20, &bits, &[], 11);
        change(&mut bytes);
        bytes
    };
    is_accepted(&mut tried, &with(&|_| ()), 20);
    // a bit of the tag, of the numbers and of the bits is wrong
    for at in 0..27 {
        for bit in 0..8 {
            is_refused(&mut tried, &with(&|b| b[at] ^= 1 << bit), 20);
        }
    }
    // and checksum and CRC are right again: of the tag only its identifier and its CRC length count
    for at in (0..16).filter(|at| ![4, 8, 9, 10, 11].contains(at)) {
        for bit in 0..8 {
            let bytes = with(&|b| {
                b[at] ^= 1 << bit;
                mend(b);
            });
            if at < 2 {
                is_refused(&mut tried, &bytes, 20);
            } else {
                is_accepted(&mut tried, &bytes, 20);
            }
        }
    }
    // the CRC length, with bytes behind the bitmap and without
    for behind in [0, 1, 3000] {
        let bytes = bitmap(20, &bits, &vec![0x5a; behind], 8);
        let most = bytes.len() - 16;
        for length in [0, 1, 7, 8, 9, 10, 11, 12, 160, 2031, 2032, 2033, 2034, most - 1, most, most + 1, 65_535] {
            let mut bytes = bytes.clone();
            put(&mut bytes, 10, length as u64, 2);
            mend(&mut bytes);
            if (8..=most).contains(&length) {
                is_accepted(&mut tried, &bytes, 20);
            } else {
                is_refused(&mut tried, &bytes, 20);
            }
        }
    }
    // L and the number of bits
    for l in [0, 1, 19, 20, 21, 24, 25, 1 << 20, u32::MAX] {
        let bytes = with(&|_| ());
        if l == 20 {
            is_accepted(&mut tried, &bytes, l);
        } else {
            is_refused(&mut tried, &bytes, l);
        }
        let numbered = with(&|b| {
            put(b, 16, l, 4);
            mend(b);
        });
        if l <= 24 {
            is_accepted(&mut tried, &numbered, l);
        } else {
            is_refused(&mut tried, &numbered, l);
        }
    }
    // the number of bytes: as L needs and as are lent; more bytes may be lent, and had
    for behind in [0, 1, 6] {
        for had in [0, 2, 3, 4, 5, 9, 10, 255, 0x2000_0000, 0x2000_0003, u32::MAX - 23, u32::MAX] {
            let mut bytes = bitmap(20, &bits, &vec![0xa5; behind], 8);
            put(&mut bytes, 20, had, 4);
            mend(&mut bytes);
            if (3..=3 + behind as u32).contains(&had) {
                is_accepted(&mut tried, &bytes, 20);
            } else {
                is_refused(&mut tried, &bytes, 20);
            }
        }
    }
    // fewer bytes are lent than the bitmap has, down to none
    for length in 0..27 {
        is_refused(&mut tried, &with(&|b| b.truncate(length)), 20);
        is_refused(&mut tried, &bitmap(20, &bits, &[], 8)[..length], 20);
    }
    // no block, and more of them than a disc has
    is_accepted(&mut tried, &bitmap(0, &[], &[], 8), 0);
    is_refused(&mut tried, &bitmap(0, &[], &[], 8)[..23], 0);
    is_accepted(&mut tried, &bitmap(1_048_577, &vec![0xff; 131_073], &[], 8), 1_048_577);
    tried.done(&[0, MALFORMED]);
}

/// Random bitmaps, damaged at random, with checksum and CRC made right after it or not.
#[test]
fn random_damage() {
    let mut tried = Tried::new(&[Seven, NoIdentifier, NoChecksum, NoCrc, MoreBits, LentExactly, BytesExactly, BytesPastLent, CrcPastLent]);
    let mut random = Random(0xfeed_beef_0bad_cafe);
    for _ in 0..20_000 {
        let mut l = random_length(&mut random).min(700);
        let mut bytes = random_bitmap(&mut random, l);
        let held = bytes.len() as u32;
        let edge = |random: &mut Random, near: u32| near.wrapping_add(random.below(5)).wrapping_sub(2);
        match random.below(8) {
            0 => {
                let at = random.below(BITS as u32) as usize;
                bytes[at] ^= 1 << random.below(8);
            }
            1 => {
                let at = random.below(held) as usize;
                bytes[at] ^= 1 << random.below(8);
            }
            2 => bytes.truncate(random.below(held + 1) as usize),
            3 => bytes.truncate((held - random.below(4)) as usize),
            4 => {
                let to = edge(&mut random, l);
                put(&mut bytes, 16, to, 4);
            }
            5 => {
                let near = pick(&mut random, &[l.div_ceil(8), held - 24, 0, 0x2000_0000, u32::MAX]);
                let to = edge(&mut random, near);
                put(&mut bytes, 20, to, 4);
            }
            6 => {
                let near = pick(&mut random, &[8, held - 16, 8 + l.div_ceil(8), 2032]);
                let to = edge(&mut random, near) as u16;
                put(&mut bytes, 10, to, 2);
            }
            _ => l = edge(&mut random, l),
        }
        if bytes.len() >= 16 && random.below(4) != 0 {
            if random.below(6) != 0 {
                mend_crc(&mut bytes);
            }
            if random.below(6) != 0 {
                mend_checksum(&mut bytes);
            }
        }
        for _ in 0..3 {
            let call = random_call(&mut random, l.min(10_000));
            tried.call(&bytes, l, call);
        }
    }
    tried.done(&[0, MALFORMED, OUTSIDE, WRONG_RUN, NO_RUN]);
}

// ---- more blocks than a disc has

#[test]
fn many_blocks() {
    let mut tried = Tried::new(&[HigherAtTie, UpwardOnly, DownwardOnly, LastRunMissed, Limited]);
    for l in [1_048_577, 3_000_000] {
        // one block of 64 is free, a row of 40 at either end, one of 100 below the middle and one of 101 above it
        let middle = l / 2;
        let rows = [(0, 40), (middle - 1000, 100), (middle + 1000, 101), (l - 40, 40)];
        let is_free = |s: u32| s % 64 == 9 || rows.iter().any(|row| (row.0..row.0 + row.1).contains(&s));
        let made = bitmap(l, &bits_by(l, is_free), &[7; 3], 65_535);
        let mut bytes = made.clone();
        assert!(tried.count(&bytes, l).is_ok());
        assert_eq!(tried.find(&bytes, l, 100, middle), Ok(middle - 1000));
        assert_eq!(tried.find(&bytes, l, 101, 0), Ok(middle + 1000));
        assert_eq!(tried.find(&bytes, l, 40, l - 1), Ok(l - 40));
        assert_eq!(tried.find(&bytes, l, 102, l - 1), Err(NO_RUN));
        for many in [l, l + 1, u32::MAX] {
            assert_eq!(tried.find(&bytes, l, many, 0), Err(NO_RUN));
            assert_eq!(tried.find(&bytes, l, 0, many), Err(OUTSIDE));
            assert_eq!(tried.take(&mut bytes, l, many, many), OUTSIDE);
            assert_eq!(tried.give_back(&mut bytes, l, l - 1, many), WRONG_RUN);
        }
        assert_eq!(tried.take(&mut bytes, l, middle + 1000, 101), 0);
        assert_eq!(tried.find(&bytes, l, 100, l - 1), Ok(middle - 1000));
        assert_eq!(tried.give_back(&mut bytes, l, middle + 1000, 101), 0);
        assert!(bytes == made);
    }
    // all of it at once
    let l = 1_048_577;
    let free = bitmap(l, &bits_by(l, |_| true), &[], 8);
    let mut bytes = free.clone();
    assert_eq!(tried.find(&bytes, l, l, l - 1), Ok(0));
    assert_eq!(tried.take(&mut bytes, l, 0, l), 0);
    assert_eq!((tried.count(&bytes, l), tried.find(&bytes, l, 1, 7)), (Ok(0), Err(NO_RUN)));
    assert_eq!(tried.give_back(&mut bytes, l, 0, l), 0);
    assert!(bytes == free);
    tried.done(&[0, OUTSIDE, WRONG_RUN, NO_RUN]);
}

//! Random numbers, and bytes that a few numbers tell: blocks, ICBs, copies of a sparing table and space bitmaps, right or forged.

use crate::plain;
use tuormik::{DEFECTIVE, MOST_ENTRIES, NONE, SECTOR};

/// A random sequence (splitmix64), given by its seed.
#[derive(Clone)]
pub struct Random(u64);

impl Random {
    pub fn new(seed: u64) -> Random {
        Random(seed)
    }

    /// The sequence of one case of a seed.
    pub fn of_case(seed: u64, number: u64) -> Random {
        let mut random = Random(seed);
        let mixed = random.next() ^ number.wrapping_mul(0xd1b5_4a32_d192_ed03);
        Random(mixed)
    }

    pub fn next(&mut self) -> u64 {
        self.0 = self.0.wrapping_add(0x9e37_79b9_7f4a_7c15);
        let mut z = self.0;
        z = (z ^ (z >> 30)).wrapping_mul(0xbf58_476d_1ce4_e5b9);
        z = (z ^ (z >> 27)).wrapping_mul(0x94d0_49bb_1331_11eb);
        z ^ (z >> 31)
    }

    /// Below n; 0 where n is 0.
    pub fn below(&mut self, n: u32) -> u32 {
        ((u64::from(self.next() as u32) * u64::from(n)) >> 32) as u32
    }

    pub fn between(&mut self, low: u32, high: u32) -> u32 {
        low + self.below(high - low + 1)
    }

    /// True once in n.
    pub fn once_in(&mut self, n: u32) -> bool {
        self.below(n) == 0
    }

    pub fn pick<T: Clone>(&mut self, from: &[T]) -> T {
        from[self.below(from.len() as u32) as usize].clone()
    }

    /// A number at which something may change: 0, the highest, one beside a given one, or any.
    pub fn odd_number(&mut self, near: u32) -> u32 {
        match self.below(8) {
            0 => 0,
            1 => u32::MAX,
            2 => near.wrapping_add(1),
            3 => near.wrapping_sub(1),
            4 => near.wrapping_add(32),
            5 => near ^ 1 << self.below(32),
            6 => self.below(5000),
            _ => self.next() as u32,
        }
    }
}

/// A byte changed by xor.
#[derive(Clone, Copy, Debug)]
pub struct Twist {
    pub at: usize,
    pub by: u8,
}

/// Some bytes.
#[derive(Clone, Debug)]
pub enum Bytes {
    /// Random ones of a seed.
    Noise { seed: u64, length: usize },
    /// One byte over and over.
    Filled { with: u8, length: usize },
    /// An ICB.
    Icb(Icb),
}

impl Bytes {
    pub fn make(&self) -> Vec<u8> {
        match self {
            Bytes::Noise { seed, length } => noise(*seed, *length),
            Bytes::Filled { with, length } => vec![*with; *length],
            Bytes::Icb(icb) => icb.make().to_vec(),
        }
    }
}

pub fn noise(seed: u64, length: usize) -> Vec<u8> {
    let mut random = Random::new(seed);
    let mut bytes = Vec::with_capacity(length + 8);
    while bytes.len() < length {
        bytes.extend_from_slice(&random.next().to_le_bytes());
    }
    bytes.truncate(length);
    bytes
}

/// Entries of a VAT, told by a seed: most below a limit, some unused.
#[derive(Clone, Copy, Debug)]
pub struct Entries {
    pub count: u32,
    pub below: u32,
    pub seed: u64,
}

impl Entries {
    pub fn make(self) -> Vec<u32> {
        let mut random = Random::new(self.seed);
        (0..self.count).map(|_| if self.below == 0 || random.once_in(5) { NONE } else { random.below(self.below) }).collect()
    }
}

/// The bytes of a VAT file, with one of them changed or none.
#[derive(Clone, Debug)]
pub struct File {
    pub entries: Entries,
    pub previous: u32,
    pub suffix: u8,
    pub twist: Option<Twist>,
    pub cut_off: usize,
}

impl File {
    pub fn make(&self) -> Vec<u8> {
        let mut file: Vec<u8> = self.entries.make().iter().flat_map(|e| e.to_le_bytes()).collect();
        file.push(0);
        file.extend_from_slice(b"*UDF Virtual Alloc Tbl\0");
        file.extend_from_slice(&[self.suffix; 8]);
        file.extend_from_slice(&self.previous.to_le_bytes());
        twist(&mut file, self.twist);
        file.truncate(file.len().saturating_sub(self.cut_off));
        file
    }
}

fn twist(bytes: &mut [u8], twist: Option<Twist>) {
    if let Some(Twist { at, by }) = twist {
        if let Some(byte) = bytes.get_mut(at) {
            *byte ^= by;
        }
    }
}

/// What an ICB says of its file.
#[derive(Clone, Debug)]
pub enum Allocation {
    Embedded(File),
    /// Lengths and logical blocks.
    Extents(Vec<(u32, u32)>),
}

/// A VAT ICB for logical block k, right but for its twists.
#[derive(Clone, Debug)]
pub struct Icb {
    pub k: u32,
    pub allocation: Allocation,
    /// added to the information length
    pub length_off: i64,
    pub attributes: u32,
    /// the CRC length; where it is none, up to the end of the allocation
    pub crc_length: Option<u16>,
    /// changed before the tag is made, so that checksum and CRC are right
    pub inner: Option<Twist>,
    /// changed after it
    pub outer: Option<Twist>,
}

impl Icb {
    pub fn make(&self) -> [u8; SECTOR] {
        let mut icb = [0; SECTOR];
        let (form, bytes, length) = match &self.allocation {
            Allocation::Embedded(file) => {
                let file = file.make();
                let length = file.len() as u64;
                (3, file, length)
            }
            Allocation::Extents(extents) => {
                let bytes = extents.iter().flat_map(|(length, block)| [length.to_le_bytes(), block.to_le_bytes()]).flatten().collect();
                (0, bytes, extents.iter().map(|e| u64::from(e.0)).sum())
            }
        };
        icb[20] = 4;
        icb[24] = 1;
        icb[34] = form;
        icb[56..64].copy_from_slice(&length.wrapping_add_signed(self.length_off).to_le_bytes());
        icb[168..172].copy_from_slice(&self.attributes.to_le_bytes());
        icb[172..176].copy_from_slice(&(bytes.len() as u32).to_le_bytes());
        let from = (176 + self.attributes as usize).min(SECTOR);
        let fits = bytes.len().min(SECTOR - from);
        icb[from..from + fits].copy_from_slice(&bytes[..fits]);
        twist(&mut icb, self.inner);
        self.put_tag(&mut icb, from + fits);
        twist(&mut icb, self.outer);
        icb
    }

    fn put_tag(&self, icb: &mut [u8; SECTOR], end: usize) {
        let crc_length = self.crc_length.unwrap_or((end - 16) as u16);
        let covered = usize::from(crc_length).min(SECTOR - 16);
        icb[0..2].copy_from_slice(&261u16.to_le_bytes());
        icb[2] = 2;
        let crc = plain::crc(&icb[16..16 + covered], 0);
        icb[8..10].copy_from_slice(&crc.to_le_bytes());
        icb[10..12].copy_from_slice(&crc_length.to_le_bytes());
        icb[12..16].copy_from_slice(&self.k.to_le_bytes());
        mend_checksum(icb);
    }
}

/// The tag's checksum made right.
pub fn mend_checksum(sector: &mut [u8]) {
    sector[4] = 0;
    sector[4] = sector[..16].iter().fold(0, |sum: u8, &b| sum.wrapping_add(b));
}

/// The identifier of a copy.
#[derive(Clone, Copy, Debug, PartialEq)]
pub enum Name {
    Newer,
    Older,
}

impl Name {
    /// As 23 bytes filled with zeros.
    fn bytes(self) -> &'static [u8; 23] {
        match self {
            Name::Newer => b"*UDF Sparing Table\0\0\0\0\0",
            Name::Older => b"*OSTA UDF Sparing Table",
        }
    }

    /// The one that a sector has, if it has one.
    pub fn of(sector: &[u8]) -> Option<Name> {
        [Name::Newer, Name::Older].into_iter().find(|name| sector[16] == 0 && sector[17..40] == *name.bytes())
    }
}

/// A copy of a sparing table.
#[derive(Clone, Debug)]
pub struct Copy {
    pub name: Name,
    pub suffix: u8,
    pub sequence: u32,
    /// original and mapped
    pub entries: Vec<(u32, u32)>,
    pub twist: Option<Twist>,
}

impl Copy {
    pub fn make(&self) -> [u8; SECTOR] {
        let mut copy = [0; SECTOR];
        copy[17..40].copy_from_slice(self.name.bytes());
        copy[40..48].fill(self.suffix);
        copy[48..50].copy_from_slice(&(self.entries.len() as u16).to_le_bytes());
        copy[52..56].copy_from_slice(&self.sequence.to_le_bytes());
        for (to, (original, mapped)) in copy[56..].chunks_exact_mut(8).zip(&self.entries) {
            to[..4].copy_from_slice(&original.to_le_bytes());
            to[4..].copy_from_slice(&mapped.to_le_bytes());
        }
        twist(&mut copy, self.twist);
        copy
    }

    /// The copy that a sector holds, as far as it can be one.
    pub fn of(sector: &[u8]) -> Copy {
        let word = |at: usize| u32::from_le_bytes([sector[at], sector[at + 1], sector[at + 2], sector[at + 3]]);
        let count = usize::from(u16::from_le_bytes([sector[48], sector[49]])).min((SECTOR - 56) / 8);
        let entries = (0..count).map(|i| (word(56 + 8 * i), word(60 + 8 * i))).collect();
        Copy { name: Name::of(sector).unwrap_or(Name::Newer), suffix: 0, sequence: word(52), entries, twist: None }
    }

    pub fn has_defective(&self) -> bool {
        self.entries.iter().any(|entry| entry.0 == DEFECTIVE)
    }
}

/// A space bitmap, right but for its twists.
#[derive(Clone, Debug)]
pub struct Bitmap {
    /// the number of blocks, and that of bytes
    pub l: u32,
    pub had: u32,
    /// rows of free and of allocated blocks by turns, told by a seed and their greatest lengths; the bits after them are random
    pub longest: [u32; 2],
    pub seed: u64,
    /// the lent bytes behind its own
    pub behind: usize,
    pub crc_length: u16,
    /// version, byte 5, serial number and location
    pub ignored: u8,
    /// changed before the tag is made, so that checksum and CRC are right
    pub inner: Option<Twist>,
    /// changed after it
    pub outer: Option<Twist>,
}

impl Bitmap {
    /// Where the bits begin.
    pub const BITS: usize = 24;

    pub fn make(&self) -> Vec<u8> {
        let mut random = Random::new(self.seed);
        let mut bitmap = vec![0; Bitmap::BITS];
        bitmap.extend(noise(random.next(), self.had as usize + self.behind));
        let mut s = 0;
        for turn in (random.below(2) as usize..).map(|i| i % 2) {
            if s >= self.l {
                break;
            }
            let end = self.l.min(s + random.between(1, self.longest[turn]));
            for s in s..end {
                if let Some(byte) = bitmap.get_mut(Bitmap::BITS + s as usize / 8) {
                    *byte = *byte & !(1 << (s % 8)) | u8::from(turn == 0) << (s % 8);
                }
            }
            s = end;
        }
        bitmap[0..2].copy_from_slice(&264u16.to_le_bytes());
        for at in [2, 3, 5, 6, 7, 12, 13, 14, 15] {
            bitmap[at] = self.ignored;
        }
        bitmap[10..12].copy_from_slice(&self.crc_length.to_le_bytes());
        bitmap[16..20].copy_from_slice(&self.l.to_le_bytes());
        bitmap[20..24].copy_from_slice(&self.had.to_le_bytes());
        twist(&mut bitmap, self.inner);
        let covered = bitmap.len().min(16 + usize::from(u16::from_le_bytes([bitmap[10], bitmap[11]])));
        let crc = plain::crc(&bitmap[16..covered], 0);
        bitmap[8..10].copy_from_slice(&crc.to_le_bytes());
        mend_checksum(&mut bitmap);
        twist(&mut bitmap, self.outer);
        bitmap
    }
}

/// The most entries whose VAT is embedded, and counts around which something changes.
pub const COUNTS: [u32; 14] = [0, 1, 2, 457, 458, 459, 502, 503, 504, 511, 512, 1015, MOST_ENTRIES as u32 - 1, MOST_ENTRIES as u32];

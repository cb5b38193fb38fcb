//! The start of a case, and its steps.

use super::bytes::{mend_checksum, noise, Bitmap, Bytes, Copy, Entries, File, Icb};
use crate::layer::Layer;
use tuormik::{BLANK, MOST_ENTRIES, RECORDED, SECTOR};

/// A volume, and what its sectors hold before the first step.
#[derive(Clone, Debug)]
pub struct Start {
    pub sectors: usize,
    pub s: u32,
    pub l: u32,
    pub maps: Vec<u8>,
    /// random bytes everywhere, or zeros
    pub filled_by: Option<u64>,
    /// random marks outside the partition, or blank ones
    pub marked_by: Option<u64>,
    /// places of the lent table beyond 4,096
    pub more_places: usize,
}

/// All that is lent to one implementation.
#[derive(Clone)]
pub struct World {
    pub disc: Vec<u8>,
    pub marks: Vec<u8>,
    pub maps: Vec<u8>,
    pub s: u32,
    pub l: u32,
    pub table: Vec<u32>,
    pub record: Vec<u32>,
    /// the space bitmap, of L blocks
    pub bitmap: Vec<u8>,
}

impl World {
    pub fn new(start: &Start) -> World {
        let disc = match start.filled_by {
            Some(seed) => noise(seed, SECTOR * start.sectors),
            None => vec![0; SECTOR * start.sectors],
        };
        let mut marks = match start.marked_by {
            Some(seed) => noise(seed, start.sectors).iter().map(|b| b % 3).collect(),
            None => vec![BLANK; start.sectors],
        };
        let from = start.s as usize;
        marks[from..from + start.l as usize].fill(BLANK);
        World {
            disc,
            marks,
            maps: start.maps.clone(),
            s: start.s,
            l: start.l,
            table: (0..MOST_ENTRIES + start.more_places).map(|i| 0xabcd_0000 | i as u32).collect(),
            record: vec![9, 8, 7, 6, 5],
            bitmap: Vec::new(),
        }
    }

    /// Where two of them differ first.
    pub fn difference(&self, other: &World) -> Option<String> {
        if let Some(at) = first_difference(&self.disc, &other.disc) {
            return Some(format!("sector {} differs first at byte {}: {} and {}", at / SECTOR, at % SECTOR, self.disc[at], other.disc[at]));
        }
        if let Some(at) = first_difference(&self.marks, &other.marks) {
            return Some(format!("the mark of sector {at} differs: {} and {}", self.marks[at], other.marks[at]));
        }
        if let Some(at) = first_difference(&self.table, &other.table) {
            return Some(format!("the lent table differs first at {at}: {} and {}", self.table[at], other.table[at]));
        }
        if self.record != other.record {
            return Some(format!("the record differs: {:?} and {:?}", self.record, other.record));
        }
        if let Some(at) = first_difference(&self.bitmap, &other.bitmap) {
            return Some(format!("the bitmap differs first at byte {at}: {} and {}", self.bitmap[at], other.bitmap[at]));
        }
        None
    }

    pub fn sector(&self, at: usize) -> &[u8] {
        &self.disc[SECTOR * at..SECTOR * (at + 1)]
    }

    fn put(&mut self, at: usize, bytes: &[u8]) {
        if let Some(to) = self.disc.get_mut(SECTOR * at..SECTOR * (at + 1)) {
            to.copy_from_slice(bytes);
            self.marks[at] = RECORDED;
        }
    }
}

fn first_difference<T: PartialEq>(a: &[T], b: &[T]) -> Option<usize> {
    if a == b {
        return None;
    }
    Some(a.iter().zip(b).position(|(x, y)| x != y).unwrap_or(a.len().min(b.len())))
}

/// How a call is lent something else than it should be.
#[derive(Clone, Debug)]
pub enum Odd {
    /// fewer bytes or marks, counted from the end
    DiscShort(usize),
    MarksShort(usize),
    NoSectors,
    S(u32),
    L(u32),
    Maps(Vec<u8>),
    TableLength(usize),
    RecordLength(usize),
    OutLength(usize),
}

/// The power fails at a write.
#[derive(Clone, Copy, Debug)]
pub struct Fail {
    pub at: u32,
    pub effect: u32,
}

/// A call.
#[derive(Clone, Debug)]
pub enum Call {
    Open,
    Read { number: u32 },
    SaveVirtual { v: u32, block: Bytes, fail: Fail },
    FreeVirtual { v: u32 },
    Commit { fail: Fail },
    SaveBlock { b: u32, block: Bytes, fail: Fail },
    SavePacket { b: u32, packet: Bytes, fail: Fail },
    SparePacket { b: u32, packet: Bytes, fail: Fail },
    Make { spares: Vec<u32> },
    Fullness,
    Forecast { items: Vec<u32> },
    ReadMaps,
    WriteMaps { kind: u32, partition: u16, table_bytes: u32, tables: Vec<u32>, length: usize },
    LookUp { file: File, v: u32 },
    BitmapCount,
    BitmapFind { wanted: u32, near: u32 },
    BitmapTake { first: u32, count: u32 },
    BitmapGiveBack { first: u32, count: u32 },
    Run { calls: Vec<[u32; 6]>, left_over: usize, pool: Vec<Bytes>, replies: usize },
}

/// A step of a case.
#[derive(Clone, Debug)]
pub enum Step {
    Call(Call),
    /// a call that is lent something else
    Oddly(Odd, Call),
    /// a sector's mark is changed
    Mark {
        sector: usize,
        mark: u8,
    },
    /// a byte of a sector is changed
    Byte {
        sector: usize,
        at: usize,
        by: u8,
    },
    /// a byte of a sector is changed, and its tag's checksum made right
    TagByte {
        sector: usize,
        at: usize,
        by: u8,
    },
    /// a sector is recorded outside the layer
    Sector {
        sector: usize,
        bytes: Bytes,
    },
    /// an ICB at its logical block
    PutIcb(Icb),
    /// a VAT file in the sectors from a logical block on
    PutFile {
        block: u32,
        file: File,
    },
    /// a copy of a sparing table
    PutCopy {
        sector: usize,
        copy: Copy,
    },
    /// one sector written over another
    CopySector {
        from: usize,
        to: usize,
    },
    /// a number of the record, or of the lent table
    SetRecord {
        at: usize,
        to: u32,
    },
    SetTable {
        at: usize,
        to: u32,
    },
    /// another number of entries, and the table filled with them
    FillTable(Entries),
    /// another space bitmap, or a byte of it changed
    PutBitmap(Bitmap),
    BitmapByte {
        at: usize,
        by: u8,
    },
    /// a number of a map list is changed for good
    MapByte {
        at: usize,
        by: u8,
    },
}

/// What a call answers and hands back beside the world.
pub struct Answer {
    pub number: u32,
    pub lent: Vec<u32>,
}

impl Step {
    /// Takes the step; a call answers.
    pub fn take(&self, layer: &Layer, world: &mut World) -> Option<Answer> {
        match self {
            Step::Call(call) => return Some(call.make(layer, world, None)),
            Step::Oddly(odd, call) => return Some(call.make(layer, world, Some(odd))),
            Step::Mark { sector, mark } => {
                if let Some(m) = world.marks.get_mut(*sector) {
                    *m = *mark;
                }
            }
            Step::Byte { sector, at, by } => {
                if let Some(b) = world.disc.get_mut(SECTOR * sector + at) {
                    *b ^= by;
                }
            }
            Step::TagByte { sector, at, by } => {
                if let Some(s) = world.disc.get_mut(SECTOR * sector..SECTOR * (sector + 1)) {
                    s[*at] ^= by;
                    mend_checksum(s);
                }
            }
            Step::Sector { sector, bytes } => world.put(*sector, &bytes.make()),
            Step::PutIcb(icb) => world.put(world.s as usize + icb.k as usize, &icb.make()),
            Step::PutFile { block, file } => {
                for (i, part) in file.make().chunks(SECTOR).enumerate() {
                    let mut sector = [0; SECTOR];
                    sector[..part.len()].copy_from_slice(part);
                    world.put(world.s as usize + *block as usize + i, &sector);
                }
            }
            Step::PutCopy { sector, copy } => world.put(*sector, &copy.make()),
            Step::CopySector { from, to } => {
                let bytes = world.sector(*from).to_vec();
                world.put(*to, &bytes);
            }
            Step::SetRecord { at, to } => world.record[*at] = *to,
            Step::SetTable { at, to } => world.table[*at] = *to,
            Step::FillTable(entries) => {
                let entries = entries.make();
                world.record[1] = entries.len() as u32;
                world.table[..entries.len()].copy_from_slice(&entries);
            }
            Step::PutBitmap(bitmap) => world.bitmap = bitmap.make(),
            Step::BitmapByte { at, by } => {
                if let Some(b) = world.bitmap.get_mut(*at) {
                    *b ^= by;
                }
            }
            Step::MapByte { at, by } => {
                if let Some(b) = world.maps.get_mut(*at) {
                    *b ^= by;
                }
            }
        }
        None
    }

    /// Steps that do a little less.
    pub fn simpler(&self) -> Vec<Step> {
        let without = |call: &Call, i: usize| {
            let mut fewer = call.clone();
            match &mut fewer {
                Call::Run { calls, .. } => drop(calls.remove(i)),
                Call::Forecast { items } => drop(items.remove(i)),
                _ => {}
            }
            Step::Call(fewer)
        };
        match self {
            Step::Call(call @ Call::Run { calls, .. }) => (0..calls.len()).map(|i| without(call, i)).collect(),
            Step::Call(call @ Call::Forecast { items }) => (0..items.len()).map(|i| without(call, i)).collect(),
            _ => Vec::new(),
        }
    }
}

impl Call {
    pub fn name(&self) -> &'static str {
        match self {
            Call::Open => "open",
            Call::Read { .. } => "read",
            Call::SaveVirtual { .. } => "save_virtual",
            Call::FreeVirtual { .. } => "free_virtual",
            Call::Commit { .. } => "commit",
            Call::SaveBlock { .. } => "save_block",
            Call::SavePacket { .. } => "save_packet",
            Call::SparePacket { .. } => "spare_packet",
            Call::Make { .. } => "make",
            Call::Fullness => "fullness",
            Call::Forecast { .. } => "forecast",
            Call::ReadMaps => "read_maps",
            Call::WriteMaps { .. } => "write_maps",
            Call::LookUp { .. } => "look_up",
            Call::BitmapCount => "bitmap_count",
            Call::BitmapFind { .. } => "bitmap_find",
            Call::BitmapTake { .. } => "bitmap_take",
            Call::BitmapGiveBack { .. } => "bitmap_give_back",
            Call::Run { .. } => "run",
        }
    }

    fn make(&self, layer: &Layer, world: &mut World, odd: Option<&Odd>) -> Answer {
        let (mut s, mut l) = (world.s, world.l);
        let mut maps = world.maps.as_slice();
        let (mut disc, mut marks) = (world.disc.as_mut_slice(), world.marks.as_mut_slice());
        let mut table = world.table.as_mut_slice();
        // a record or a table that is too long is a copy, whose changes do not count
        let mut long_record = world.record.clone();
        let mut record = world.record.as_mut_slice();
        let mut out_length = None;
        match odd {
            None => {}
            Some(Odd::DiscShort(by)) => {
                let left = disc.len().saturating_sub(*by);
                disc = &mut world.disc[..left];
            }
            Some(Odd::MarksShort(by)) => {
                let left = marks.len() - by;
                marks = &mut world.marks[..left];
            }
            Some(Odd::NoSectors) => (disc, marks) = (&mut [], &mut []),
            Some(Odd::S(to)) => s = *to,
            Some(Odd::L(to)) => l = *to,
            Some(Odd::Maps(to)) => maps = to,
            Some(Odd::TableLength(to)) => table = &mut world.table[..*to],
            Some(Odd::RecordLength(to)) => {
                long_record.resize(*to, 0);
                record = &mut long_record;
            }
            Some(Odd::OutLength(to)) => out_length = Some(*to),
        }
        let lent_bytes = |bytes: &Bytes| {
            let mut bytes = bytes.make();
            if let Some(length) = out_length {
                bytes.resize(length, 0);
            }
            bytes
        };
        let mut lent = Vec::new();
        let number = match self {
            Call::Open => (layer.open)(disc, marks, maps, s, l, table, record),
            Call::Read { number } => {
                let mut out = vec![0xa5; out_length.unwrap_or(SECTOR)];
                let answer = (layer.read)(disc, marks, maps, s, l, table, record, *number, &mut out);
                lent.extend(out.iter().map(|&b| u32::from(b)));
                answer
            }
            Call::SaveVirtual { v, block, fail } => {
                let block = lent_bytes(block);
                (layer.save_virtual)(disc, marks, maps, s, l, table, record, *v, &block, fail.at, fail.effect)
            }
            Call::FreeVirtual { v } => (layer.free_virtual)(disc, marks, maps, s, l, table, record, *v),
            Call::Commit { fail } => (layer.commit)(disc, marks, maps, s, l, table, record, fail.at, fail.effect),
            Call::SaveBlock { b, block, fail } => {
                let block = lent_bytes(block);
                (layer.save_block)(disc, marks, maps, s, l, table, record, *b, &block, fail.at, fail.effect)
            }
            Call::SavePacket { b, packet, fail } => {
                let packet = lent_bytes(packet);
                (layer.save_packet)(disc, marks, maps, s, l, table, record, *b, &packet, fail.at, fail.effect)
            }
            Call::SparePacket { b, packet, fail } => {
                let packet = lent_bytes(packet);
                (layer.spare_packet)(disc, marks, maps, s, l, table, record, *b, &packet, fail.at, fail.effect)
            }
            Call::Make { spares } => (layer.make)(disc, marks, maps, s, l, spares),
            Call::Fullness => {
                lent = vec![77; out_length.unwrap_or(1)];
                (layer.fullness)(disc, marks, maps, s, l, table, record, &mut lent)
            }
            Call::Forecast { items } => {
                lent = vec![77; out_length.unwrap_or(3)];
                (layer.forecast)(disc, marks, maps, s, l, table, record, items, &mut lent)
            }
            Call::ReadMaps => {
                lent = vec![77; out_length.unwrap_or(8)];
                (layer.read_maps)(maps, &mut lent)
            }
            Call::WriteMaps { kind, partition, table_bytes, tables, length } => {
                let mut out = vec![0xa5; *length];
                let answer = (layer.write_maps)(*kind, *partition, *table_bytes, tables, &mut out);
                lent.extend(out.iter().map(|&b| u32::from(b)));
                answer
            }
            Call::LookUp { file, v } => {
                lent = vec![77; out_length.unwrap_or(1)];
                (layer.look_up)(&file.make(), *v, &mut lent)
            }
            Call::BitmapCount => {
                lent = vec![77; out_length.unwrap_or(1)];
                (layer.bitmap_count)(&world.bitmap, l, &mut lent)
            }
            Call::BitmapFind { wanted, near } => {
                lent = vec![77; out_length.unwrap_or(1)];
                (layer.bitmap_find)(&world.bitmap, l, *wanted, *near, &mut lent)
            }
            Call::BitmapTake { first, count } => (layer.bitmap_take)(&mut world.bitmap, l, *first, *count),
            Call::BitmapGiveBack { first, count } => (layer.bitmap_give_back)(&mut world.bitmap, l, *first, *count),
            Call::Run { calls, left_over, pool, replies } => {
                let mut numbers: Vec<u32> = calls.iter().flatten().copied().collect();
                numbers.extend(std::iter::repeat_n(2, *left_over));
                let pool: Vec<u8> = pool.iter().flat_map(Bytes::make).collect();
                lent = vec![77; *replies];
                (layer.run)(disc, marks, maps, s, l, table, record, &numbers, &pool, &mut lent)
            }
        };
        if let Some(Odd::RecordLength(_)) = odd {
            lent.extend_from_slice(&long_record);
        }
        Answer { number, lent }
    }
}

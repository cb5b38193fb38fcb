//! Layers that are wrong in one place about spares in the partition (document 02, slip 8): the plain implementation but for one call.

use crate::maps::table_sectors;
use tuormik::{DEFECTIVE, NONE, PACKET, SECTOR};
use tuormik_second::layer::{Layer, PLAIN};

/// A disc with itself once more behind its last packet: an entry that maps a packet of it can be made to map the same sectors there.
struct Twice {
    disc: Vec<u8>,
    marks: Vec<u8>,
    /// how far the second is behind the first
    shift: u32,
}

impl Twice {
    fn of(disc: &[u8], marks: &[u8]) -> Twice {
        let sectors = marks.len().next_multiple_of(PACKET);
        let (mut disc, mut marks) = (disc.to_vec(), marks.to_vec());
        disc.resize(SECTOR * sectors, 0);
        marks.resize(sectors, 0);
        disc.extend_from_within(..);
        marks.extend_from_within(..);
        Twice { disc, marks, shift: sectors as u32 }
    }

    fn copy(&mut self, at: u32) -> &mut [u8] {
        &mut self.disc[SECTOR * at as usize..][..SECTOR]
    }
}

fn word(bytes: &[u8]) -> u32 {
    u32::from_le_bytes([bytes[0], bytes[1], bytes[2], bytes[3]])
}

/// The entries of a copy, as far as they are in its sector.
fn entries_of(copy: &mut [u8]) -> Vec<&mut [u8]> {
    let count = usize::from(copy[48]) + 256 * usize::from(copy[49]);
    copy[56..].chunks_exact_mut(8).take(count).collect()
}

fn map_elsewhere(entry: &mut [u8], shift: u32) {
    let mapped = word(&entry[4..]).wrapping_add(shift);
    entry[4..].copy_from_slice(&mapped.to_le_bytes());
}

// ---- line 30

/// What a call that names a block does otherwise.
#[derive(Clone, Copy)]
enum Slip {
    /// blocks that belong to a spare let through: of used, defective or free ones, but for the first of a packet, of the last entry
    UsedLet,
    DefectiveLet,
    FreeLet,
    OthersOfPacketLet,
    LastEntryLet,
    /// another line in the place of 30
    As12,
    As14,
    /// 30 only where another line does not hold, or before 12
    After25,
    After14,
    After17,
    After19,
    After20,
    Before12,
    /// 30 of a packet that is spared, or of one whose number, without S, is a mapped start
    OfSpared,
    WithoutStart,
}

const SLIPS: [Slip; 15] = [
    Slip::UsedLet,
    Slip::DefectiveLet,
    Slip::FreeLet,
    Slip::OthersOfPacketLet,
    Slip::LastEntryLet,
    Slip::As12,
    Slip::As14,
    Slip::After25,
    Slip::After14,
    Slip::After17,
    Slip::After19,
    Slip::After20,
    Slip::Before12,
    Slip::OfSpared,
    Slip::WithoutStart,
];

/// What is lent to a call that names block b.
#[derive(Clone, Copy)]
struct Lent<'a> {
    disc: &'a [u8],
    marks: &'a [u8],
    maps: &'a [u8],
    s: u32,
    table: &'a [u32],
    record: &'a [u32],
    b: u32,
}

impl Lent<'_> {
    fn entries(&self) -> impl Iterator<Item = &[u32]> {
        self.table.chunks_exact(2).take(self.record[1] as usize)
    }

    fn packet(&self) -> u32 {
        self.b - self.b % PACKET as u32
    }

    /// The entry that maps the packet of the block.
    fn own_entry(&self) -> Option<usize> {
        self.entries().position(|entry| self.s.checked_add(self.packet()) == Some(entry[1]))
    }

    /// What the call answers where that entry maps the same sectors elsewhere.
    fn otherwise(&self, entry: usize, call: impl FnOnce(&mut Twice, &mut [u32]) -> u32) -> u32 {
        let mut twice = Twice::of(self.disc, self.marks);
        let (mut table, shift) = (self.table.to_vec(), twice.shift);
        let numbers: Vec<u8> = self.entries().flatten().flat_map(|n| n.to_le_bytes()).collect();
        for at in table_sectors(self.maps) {
            let mut entries = entries_of(twice.copy(at));
            if entries.concat() == numbers {
                map_elsewhere(entries[entry], shift);
            }
        }
        table[2 * entry + 1] += shift;
        call(&mut twice, &mut table)
    }

    /// What the call answers with a slip, where it answers this without.
    fn answer(&self, slip: Slip, answer: u32, call: impl FnOnce(&mut Twice, &mut [u32]) -> u32) -> u32 {
        let past_eleven = answer == 0 || answer > 11;
        let own = if past_eleven { self.own_entry() } else { None };
        match (slip, own, answer) {
            (Slip::As12, _, 30) => 12,
            (Slip::As14, _, 30) => 14,
            (Slip::Before12, Some(_), 12) => 30,
            (_, Some(entry), 30) => {
                let original = self.table[2 * entry];
                let otherwise = self.otherwise(entry, call);
                let takes_otherwise = match slip {
                    Slip::UsedLet => original < DEFECTIVE,
                    Slip::DefectiveLet => original == DEFECTIVE,
                    Slip::FreeLet => original == NONE,
                    Slip::OthersOfPacketLet => !self.b.is_multiple_of(PACKET as u32),
                    Slip::LastEntryLet => entry + 1 == self.record[1] as usize,
                    Slip::After25 => otherwise == 25,
                    Slip::After14 => otherwise == 14,
                    Slip::After17 => otherwise == 17,
                    Slip::After19 => otherwise == 19,
                    Slip::After20 => otherwise == 20,
                    Slip::WithoutStart => self.entries().all(|entry| entry[1] != self.packet()),
                    _ => false,
                };
                if takes_otherwise {
                    otherwise
                } else {
                    30
                }
            }
            (Slip::OfSpared, None, 0 | 13..) if self.entries().any(|entry| entry[0] == self.packet()) => 30,
            (Slip::WithoutStart, None, 0 | 13..) if self.entries().any(|entry| entry[1] == self.packet()) => 30,
            _ => answer,
        }
    }
}

#[allow(clippy::too_many_arguments)]
fn read_by<const SLIP: usize>(
    disc: &[u8],
    marks: &[u8],
    maps: &[u8],
    s: u32,
    l: u32,
    table: &[u32],
    record: &[u32],
    b: u32,
    out: &mut [u8],
) -> u32 {
    let answer = (PLAIN.read)(disc, marks, maps, s, l, table, record, b, out);
    if maps.len() != 64 {
        return answer;
    }
    let mut other = out.to_vec();
    let lent = Lent { disc, marks, maps, s, table, record, b };
    let told =
        lent.answer(SLIPS[SLIP], answer, |twice, table| (PLAIN.read)(&twice.disc, &twice.marks, maps, s, l, table, record, b, &mut other));
    if told == 0 {
        out.copy_from_slice(&other);
    }
    told
}

/// The plain call of a name but for line 30; what it writes where it answers 0 in the place of 30 is not written.
macro_rules! writes_by {
    ($name:ident, $call:ident, $table:ty) => {
        #[allow(clippy::too_many_arguments)]
        fn $name<const SLIP: usize>(
            disc: &mut [u8],
            marks: &mut [u8],
            maps: &[u8],
            s: u32,
            l: u32,
            table: $table,
            record: &mut [u32],
            b: u32,
            bytes: &[u8],
            at: u32,
            effect: u32,
        ) -> u32 {
            let (came, came_record) = (table.to_vec(), record.to_vec());
            let answer = (PLAIN.$call)(disc, marks, maps, s, l, table, record, b, bytes, at, effect);
            if maps.len() != 64 {
                return answer;
            }
            let lent = Lent { disc, marks, maps, s, table: &came, record: &came_record, b };
            lent.answer(SLIPS[SLIP], answer, |twice, table| {
                let record = &mut came_record.clone();
                (PLAIN.$call)(&mut twice.disc, &mut twice.marks, maps, s, l, table, record, b, bytes, at, effect)
            })
        }
    };
}

writes_by!(save_block_by, save_block, &[u32]);
writes_by!(save_packet_by, save_packet, &[u32]);
writes_by!(spare_packet_by, spare_packet, &mut [u32]);

// ---- the copy rule

/// The entry that maps the packet of an original.
#[derive(Clone, Copy, PartialEq)]
enum Way {
    Own,
    Used,
    Defective,
    Free,
}

/// What an opening does otherwise.
#[derive(Clone, Copy)]
enum Opening {
    /// originals let be on a mapped start: on any, on those of one kind of entries, on all but those of free ones
    OriginalsLet,
    OwnLet,
    UsedLet,
    DefectiveLet,
    FreeLet,
    AllButFreeLet,
    /// such a copy refused by the number of the original, without S
    OriginalsWithoutStart,
    /// spares in the partition refused: used, defective, free
    UsedRefused,
    DefectiveRefused,
    FreeRefused,
}

const OPENINGS: [Opening; 10] = [
    Opening::OriginalsLet,
    Opening::OwnLet,
    Opening::UsedLet,
    Opening::DefectiveLet,
    Opening::FreeLet,
    Opening::AllButFreeLet,
    Opening::OriginalsWithoutStart,
    Opening::UsedRefused,
    Opening::DefectiveRefused,
    Opening::FreeRefused,
];

impl Opening {
    /// Whether an original may be on such a mapped start.
    fn lets(self, way: Way) -> bool {
        match self {
            Opening::OriginalsLet | Opening::OriginalsWithoutStart => true,
            Opening::OwnLet => way == Way::Own,
            Opening::UsedLet => way == Way::Used,
            Opening::DefectiveLet => way == Way::Defective,
            Opening::FreeLet => way == Way::Free,
            Opening::AllButFreeLet => way != Way::Free,
            _ => false,
        }
    }

    /// Whether it refuses a copy with these entries.
    fn refuses(self, entries: &[(u32, u32)], s: u32, l: u32) -> bool {
        let inside = |is_kind: fn(u32) -> bool| entries.iter().any(|&(original, mapped)| is_kind(original) && mapped.wrapping_sub(s) < l);
        match self {
            Opening::OriginalsWithoutStart => entries.iter().any(|entry| entries.iter().any(|other| entry.0 == other.1)),
            Opening::UsedRefused => inside(|original| original < DEFECTIVE),
            Opening::DefectiveRefused => inside(|original| original == DEFECTIVE),
            Opening::FreeRefused => inside(|original| original == NONE),
            _ => false,
        }
    }

    /// The entries whose mapped starts originals may be on.
    fn elsewhere(self, entries: &[(u32, u32)], s: u32) -> Vec<usize> {
        let way = |i: usize, j: usize| match entries[j].0 {
            _ if i == j => Way::Own,
            DEFECTIVE => Way::Defective,
            NONE => Way::Free,
            _ => Way::Used,
        };
        let is_on = |i: usize, j: usize| entries[i].0 < DEFECTIVE && s.checked_add(entries[i].0) == Some(entries[j].1);
        let all = 0..entries.len();
        // where an original is on a mapped start in another way besides, the copy stays refused
        let is_let = |j: &usize| all.clone().any(|i| is_on(i, *j)) && all.clone().all(|i| !is_on(i, *j) || self.lets(way(i, *j)));
        all.clone().filter(is_let).collect()
    }
}

/// The plain opening but for the copy rule: copies are refused that should not be, or their entries map the same sectors elsewhere.
fn open_by<const OPENING: usize>(disc: &[u8], marks: &[u8], maps: &[u8], s: u32, l: u32, table: &mut [u32], record: &mut [u32]) -> u32 {
    let answer = (PLAIN.open)(disc, marks, maps, s, l, &mut table.to_vec(), &mut record.to_vec());
    if maps.len() != 64 || ![0, 8, 10].contains(&answer) {
        return (PLAIN.open)(disc, marks, maps, s, l, table, record);
    }
    let mut twice = Twice::of(disc, marks);
    let shift = twice.shift;
    for at in table_sectors(maps) {
        let copy = twice.copy(at);
        let mut held = entries_of(copy);
        let entries: Vec<(u32, u32)> = held.iter().map(|entry| (word(entry), word(&entry[4..]))).collect();
        for i in OPENINGS[OPENING].elsewhere(&entries, s) {
            map_elsewhere(held[i], shift);
        }
        if OPENINGS[OPENING].refuses(&entries, s, l) {
            copy[0] = 1;
        }
    }
    let answer = (PLAIN.open)(&twice.disc, &twice.marks, maps, s, l, table, record);
    if answer == 0 {
        let mapped = table.chunks_exact_mut(2).take(record[1] as usize).map(|entry| &mut entry[1]);
        mapped.filter(|mapped| **mapped >= shift).for_each(|mapped| *mapped -= shift);
    }
    answer
}

// ---- making

/// The spares in the partition.
fn inside(spares: &[u32], s: u32, l: u32) -> impl Iterator<Item = u32> + '_ {
    spares.iter().copied().filter(move |m| m.wrapping_sub(s) < l)
}

fn make_without_spares_inside(disc: &mut [u8], marks: &mut [u8], maps: &[u8], s: u32, l: u32, spares: &[u32]) -> u32 {
    let (mut other, mut other_marks) = (disc.to_vec(), marks.to_vec());
    match (PLAIN.make)(&mut other, &mut other_marks, maps, s, l, spares) {
        0 if maps.len() == 64 && inside(spares, s, l).next().is_some() => 6,
        _ => (PLAIN.make)(disc, marks, maps, s, l, spares),
    }
}

fn make_and_leave_spares(disc: &mut [u8], marks: &mut [u8], maps: &[u8], s: u32, l: u32, spares: &[u32]) -> u32 {
    let (before, before_marks) = (disc.to_vec(), marks.to_vec());
    let answer = (PLAIN.make)(disc, marks, maps, s, l, spares);
    if answer == 0 && maps.len() == 64 {
        for at in inside(spares, s, l).map(|m| m as usize) {
            let bytes = SECTOR * at..SECTOR * (at + PACKET);
            disc[bytes.clone()].copy_from_slice(&before[bytes]);
            marks[at..at + PACKET].copy_from_slice(&before_marks[at..at + PACKET]);
        }
    }
    answer
}

/// Layers that are wrong in one call.
macro_rules! layers {
    ($call:ident, $by:ident, $what:ident: $($slip:ident)*) => {
        [$((stringify!($call), Layer {
            name: concat!(stringify!($call), ", ", stringify!($slip)),
            $call: $by::<{ $what::$slip as usize }>,
            ..PLAIN
        })),*]
    };
}

/// The call that is wrong, and the layer.
pub fn wrong_layers() -> Vec<(&'static str, Layer)> {
    let make = |name, make| ("make", Layer { name, make, ..PLAIN });
    let makes = [make("make, spares inside refused", make_without_spares_inside), make("make, spares inside left", make_and_leave_spares)];
    [
        &layers!(read, read_by, Slip:
            UsedLet DefectiveLet FreeLet OthersOfPacketLet LastEntryLet As12 As14 After25 After14 OfSpared WithoutStart)[..],
        &layers!(save_block, save_block_by, Slip:
            UsedLet DefectiveLet FreeLet OthersOfPacketLet LastEntryLet As12 As14 After25 After14 OfSpared WithoutStart),
        &layers!(save_packet, save_packet_by, Slip:
            UsedLet DefectiveLet FreeLet LastEntryLet As12 As14 Before12 OfSpared WithoutStart),
        &layers!(spare_packet, spare_packet_by, Slip:
            UsedLet DefectiveLet FreeLet LastEntryLet As12 As14 After17 After19 After20 Before12 OfSpared WithoutStart),
        &layers!(open, open_by, Opening:
            OriginalsLet OwnLet UsedLet DefectiveLet FreeLet AllButFreeLet OriginalsWithoutStart UsedRefused DefectiveRefused FreeRefused),
        &makes,
    ]
    .concat()
}

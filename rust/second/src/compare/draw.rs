//! Which steps a case takes: drawn at random, by what the disc has come to.

use super::bytes::{Allocation, Bitmap, Bytes, Copy, Entries, File, Icb, Name, Random, Twist, COUNTS};
use super::step::{Call, Fail, Odd, Start, Step, World};
use super::tables::RESERVED;
use crate::plain;
use std::collections::VecDeque;
use tuormik::{BLANK, COMMIT, DEFECTIVE, MOST_ENTRIES, NONE, PACKET, PACKET_BYTES, SECTOR, UNREADABLE};

/// What a case is drawn by.
pub struct Drawer {
    start: Start,
    /// table sectors of a rewritable volume; a write-once one has none
    tables: Vec<u32>,
    spares: Vec<u32>,
    length: usize,
    queue: VecDeque<Step>,
}

impl Drawer {
    pub fn new(random: &mut Random) -> Drawer {
        let mut drawer = if random.once_in(2) { once(random) } else { rewritable(random) };
        drawer.length = random.between(4, 48) as usize;
        if !random.once_in(12) {
            drawer.queue.push_back(Step::Call(Call::Make { spares: drawer.spares.clone() }));
        }
        if random.once_in(3) {
            drawer.made_by_others(random);
        }
        if !random.once_in(12) {
            drawer.queue.push_back(Step::Call(Call::Open));
        }
        drawer
    }

    /// The tables of a disc that another writer made: each copy with an identifier and a suffix of its own.
    fn made_by_others(&mut self, random: &mut Random) {
        let entries: Vec<(u32, u32)> = self.spares.iter().map(|&spare| (NONE, spare)).collect();
        let same = random.once_in(3).then(|| name(random));
        for &t in &self.tables {
            let name = same.unwrap_or_else(|| name(random));
            let (suffix, sequence) = (random.pick(&[0, 0, 1, 255]), random.pick(&[0, 0, 0, 1]));
            let copy = Copy { name, suffix, sequence, entries: entries.clone(), twist: None };
            self.queue.push_back(Step::PutCopy { sector: t as usize, copy });
        }
    }

    pub fn start(&self) -> &Start {
        &self.start
    }

    pub fn length(&self) -> usize {
        self.length
    }

    fn is_once(&self) -> bool {
        self.tables.is_empty()
    }

    /// The next step on a disc that has come to `world`.
    pub fn next(&mut self, random: &mut Random, world: &World) -> Step {
        if let Some(step) = self.queue.pop_front() {
            return step;
        }
        match random.below(21) {
            0 => {
                let call = if random.once_in(6) { self.run(random, world) } else { self.call(random, world) };
                Step::Oddly(self.odd(random, world), call)
            }
            1 => self.small_call(random, world),
            2 => self.altered_lent(random, world),
            3 | 4 => {
                self.damage(random, world);
                if !random.once_in(6) {
                    self.queue.push_back(Step::Call(Call::Open));
                }
                self.queue.pop_front().unwrap_or(Step::Call(Call::Open))
            }
            5 => Step::Call(self.run(random, world)),
            6 => Step::Call(Call::Open),
            7 if !self.is_once() => self.sparings(random, world),
            8 => self.bitmap_calls(random, world),
            _ => Step::Call(self.call(random, world)),
        }
    }

    /// A call on a disc, mostly one for its kind.
    fn call(&mut self, random: &mut Random, world: &World) -> Call {
        let call = match (self.is_once() != random.once_in(40), random.below(17)) {
            (_, 0) => Call::Open,
            (_, 1) => Call::Fullness,
            (_, 16) => Call::Forecast { items: self.items(random, world, world.record[1]) },
            (_, 2) if random.once_in(6) => Call::Make { spares: self.odd_spares(random) },
            (_, 2..=4) => Call::Read { number: self.number(random, world) },
            (true, 5..=11) => {
                Call::SaveVirtual { v: self.virtual_number(random, world), block: self.block(random, world), fail: fail(random, 1) }
            }
            (true, 12 | 13) => Call::FreeVirtual { v: self.virtual_number(random, world) },
            (true, _) => Call::Commit { fail: fail(random, 3) },
            (false, 5..=9) => Call::SaveBlock { b: self.number(random, world), block: self.block(random, world), fail: fail(random, 32) },
            (false, 10..=12) => Call::SavePacket { b: self.packet_number(random, world), packet: packet(random), fail: fail(random, 32) },
            (false, _) => {
                Call::SparePacket { b: self.packet_number(random, world), packet: packet(random), fail: self.sparing_fail(random) }
            }
        };
        if !random.once_in(5) && has_fail(&call) {
            self.queue.push_back(Step::Call(Call::Open));
        }
        call
    }

    /// A list to be forecast on a disc of n blocks: blocks that it has, new ones, some above these, and commits; at times more than fit.
    fn items(&self, random: &mut Random, world: &World, n: u32) -> Vec<u32> {
        let mut n = n.min(MOST_ENTRIES as u32);
        let new_in = random.pick(&[1, 2, 4]);
        let commit_in = random.pick(&[3, 12, 100]);
        let count = match random.below(4) {
            0 => random.below(4),
            1 | 2 => random.below(30),
            _ => random.below(world.l + 8),
        };
        let item = |_| match random.below(60) {
            0 => random.odd_number(n),
            1 => n.saturating_add(random.between(1, 3)),
            2 => random.pick(&[MOST_ENTRIES as u32 - 1, MOST_ENTRIES as u32, COMMIT - 1, NONE, COMMIT + 1]),
            _ if random.once_in(commit_in) => COMMIT | random.pick(&[0, 0, 1, 2, 0x7fff_ffff]),
            _ if random.once_in(40) => COMMIT | random.next() as u32,
            _ if random.once_in(new_in) => {
                n += 1;
                n - 1
            }
            _ => random.below(n),
        };
        (0..count).map(item).collect()
    }

    fn virtual_number(&self, random: &mut Random, world: &World) -> u32 {
        let n = world.record[1];
        match random.below(12) {
            0 => random.odd_number(n),
            1..=5 => n,
            _ => random.below(n.min(MOST_ENTRIES as u32)),
        }
    }

    fn number(&self, random: &mut Random, world: &World) -> u32 {
        match random.below(12) {
            0 if self.is_once() => random.odd_number(world.record[1]),
            0 => random.odd_number(world.l),
            _ if self.is_once() => random.below(world.record[1].min(MOST_ENTRIES as u32)),
            _ => random.below(world.l),
        }
    }

    fn packet_number(&self, random: &mut Random, world: &World) -> u32 {
        match random.below(12) {
            0 => random.odd_number(world.l),
            1 => random.below(world.l),
            _ => random.below(world.l.div_ceil(PACKET as u32)) * PACKET as u32,
        }
    }

    /// One packet spared over and over, mostly one that has an entry, and its blocks read.
    fn sparings(&mut self, random: &mut Random, world: &World) -> Step {
        let entries = world.table[..2 * world.record[1].min(MOST_ENTRIES as u32 / 2) as usize].chunks_exact(2);
        let spared: Vec<u32> = entries.map(|entry| entry[0]).filter(|&original| original < world.l).collect();
        let b = if spared.is_empty() || random.once_in(4) { self.packet_number(random, world) } else { random.pick(&spared) };
        for _ in 0..random.between(1, 3) {
            let fail = if random.once_in(2) { Fail { at: 0, effect: 0 } } else { self.sparing_fail(random) };
            self.queue.push_back(Step::Call(Call::SparePacket { b, packet: packet(random), fail }));
            if fail.at != 0 || random.once_in(4) {
                self.queue.push_back(Step::Call(Call::Open));
            }
            self.queue.push_back(Step::Call(Call::Read { number: b | random.below(PACKET as u32) }));
        }
        self.queue.pop_front().unwrap_or(Step::Call(Call::Open))
    }

    fn sparing_fail(&self, random: &mut Random) -> Fail {
        if random.once_in(3) {
            return Fail { at: random.between(32, 38), effect: random.below(4) };
        }
        fail(random, 36)
    }

    /// Calls on the space bitmap, which is another one at times, and damaged at times.
    fn bitmap_calls(&mut self, random: &mut Random, world: &World) -> Step {
        if world.bitmap.is_empty() || random.once_in(2) {
            self.queue.push_back(Step::PutBitmap(bitmap(random, world.l)));
        }
        for _ in 0..random.between(1, 6) {
            let (block, count) = (self.bitmap_block(random, world), bitmap_count(random, world));
            let call = match random.below(8) {
                0 => Call::BitmapCount,
                1..=3 => Call::BitmapFind { wanted: count, near: block },
                4 | 5 => Call::BitmapTake { first: block, count },
                _ => Call::BitmapGiveBack { first: block, count },
            };
            let step = match random.below(24) {
                0 => Step::Oddly(Odd::OutLength(random.pick(&[0, 2])), call),
                1 => Step::Oddly(Odd::L(random.odd_number(world.l)), call),
                2 => Step::BitmapByte { at: random.below(40) as usize, by: 1 << random.below(8) },
                _ => Step::Call(call),
            };
            self.queue.push_back(step);
        }
        self.queue.pop_front().unwrap_or(Step::Call(Call::BitmapCount))
    }

    fn bitmap_block(&self, random: &mut Random, world: &World) -> u32 {
        if random.once_in(12) {
            random.odd_number(world.l)
        } else {
            random.below(world.l)
        }
    }

    /// A block to save: mostly user data, at times an ICB that would pass or nearly so.
    fn block(&self, random: &mut Random, world: &World) -> Bytes {
        match random.below(8) {
            0 => Bytes::Filled { with: random.below(256) as u8, length: SECTOR },
            1 if self.is_once() => Bytes::Icb(icb(random, world, world.record[2])),
            _ => Bytes::Noise { seed: random.next(), length: SECTOR },
        }
    }

    /// Something else lent than should be.
    fn odd(&self, random: &mut Random, world: &World) -> Odd {
        match random.below(10) {
            0 => Odd::DiscShort(random.pick(&[1, SECTOR, 2 * SECTOR])),
            1 => Odd::MarksShort(1),
            2 if random.once_in(3) => Odd::NoSectors,
            2 | 3 => Odd::S(match random.below(4) {
                0 => world.s + PACKET as u32,
                1 => world.marks.len() as u32 - world.l.min(world.marks.len() as u32),
                _ => random.odd_number(world.s),
            }),
            4 => Odd::L(match random.below(3) {
                0 => world.marks.len() as u32 - world.s + random.below(2),
                _ => random.odd_number(world.l),
            }),
            5 => Odd::TableLength(random.pick(&[0, 1, 499, MOST_ENTRIES - 1, MOST_ENTRIES])),
            6 => Odd::RecordLength(random.pick(&[0, 1, 3, 4, 5, 6, 8])),
            7 => Odd::OutLength(random.pick(&[0, 1, 2, 3, 4, 7, 8, 9, 2047, 2048, 2049, 65535, 65536, 65537])),
            _ => Odd::Maps(self.odd_maps(random, world)),
        }
    }

    fn odd_maps(&self, random: &mut Random, world: &World) -> Vec<u8> {
        let mut maps = world.maps.clone();
        match random.below(8) {
            0 => maps.truncate(random.below(maps.len() as u32 + 1) as usize),
            1 => maps.extend_from_slice(&[1, 6, 1, 0, 0, 0][..random.between(1, 6) as usize]),
            2 => {
                let again = maps.clone();
                maps.extend_from_slice(&again);
            }
            3 if !self.is_once() && maps.len() >= 64 => {
                let i = random.below(self.tables.len() as u32) as usize;
                let to = match random.below(5) {
                    0 => world.s,
                    1 => world.s + world.l,
                    2 => world.marks.len() as u32,
                    3 => random.pick(&self.tables),
                    _ => random.odd_number(self.tables[i]),
                };
                maps[48 + 4 * i..52 + 4 * i].copy_from_slice(&to.to_le_bytes());
            }
            4 if !self.is_once() && maps.len() >= 64 => {
                let at = random.pick(&[40usize, 41, 42, 44, 45, 46, 47]);
                maps[at] = random.pick(&[0, 1, 2, 4, 5, 8, 31, 32, 33, 55, 56, 57, 255]);
            }
            5 => {
                let kind = random.below(2);
                maps = maps_of(kind, &[64, 96]);
            }
            _ if maps.is_empty() => {}
            _ => {
                let at = random.pick(&[0, 1, 2, 4, 5, 6, 7, 10, 11, 26, 27, 28, 29, 33, 34, 36, 38, 42, 44, 45, 63, 64, 69]);
                if let Some(byte) = maps.get_mut(at) {
                    *byte = random.pick(&[0, 1, 2, 6, 64, 255, *byte ^ 1, *byte ^ 0x20]);
                }
            }
        }
        maps
    }

    /// Calls that are lent no disc.
    fn small_call(&self, random: &mut Random, world: &World) -> Step {
        let call = match random.below(3) {
            0 => {
                let maps = self.odd_maps(random, world);
                return Step::Oddly(
                    if random.once_in(6) { Odd::OutLength(random.between(0, 10) as usize) } else { Odd::Maps(maps) },
                    Call::ReadMaps,
                );
            }
            1 => {
                let count = random.pick(&[0usize, 1, 1, 2, 2, 3, 4, 4, 5]);
                let mut tables: Vec<u32> = (0..count).map(|_| random.below(40) * PACKET as u32).collect();
                if random.once_in(8) && count > 0 {
                    tables[0] = random.odd_number(tables[0]);
                }
                Call::WriteMaps {
                    kind: random.pick(&[0, 0, 1, 1, 1, 1, 2, u32::MAX]),
                    partition: random.next() as u16,
                    table_bytes: random.pick(&[0, 55, 56, 57, 64, 1000, 2047, 2048, 2049, u32::MAX]),
                    tables,
                    length: random.pick(&[0, 6, 63, 64, 64, 64, 65, 69, 70, 70, 70, 71]),
                }
            }
            _ => {
                let count = random.pick(&COUNTS).wrapping_add(random.pick(&[0, 0, 1, 7])).min(4200);
                let length = 4 * count as usize + 36;
                let file = File {
                    entries: Entries { count, below: random.next() as u32, seed: random.next() },
                    previous: random.next() as u32,
                    suffix: random.next() as u8,
                    twist: random.once_in(4).then(|| Twist { at: length - 1 - random.below(36) as usize, by: 1 << random.below(8) }),
                    cut_off: if random.once_in(6) { random.between(1, 40) as usize } else { 0 },
                };
                let v = if random.once_in(4) { random.odd_number(count) } else { random.below(count) };
                let call = Call::LookUp { file, v };
                if random.once_in(8) {
                    return Step::Oddly(Odd::OutLength(random.pick(&[0, 2])), call);
                }
                call
            }
        };
        Step::Call(call)
    }

    /// A record or a table that was altered.
    fn altered_lent(&mut self, random: &mut Random, world: &World) -> Step {
        match random.below(4) {
            0 => {
                let at = random.below(5) as usize;
                Step::SetRecord { at, to: random.odd_number(world.record[at]) }
            }
            1 => {
                let held = world.record[1].clamp(1, 500);
                let at = random.below(held * if self.is_once() { 1 } else { 2 }) as usize;
                let to = match random.below(4) {
                    0 => world.record[2],
                    1 => NONE,
                    2 => random.below(world.record[2].min(1 << 20)),
                    _ => random.odd_number(world.table[at]),
                };
                Step::SetTable { at, to }
            }
            2 if self.is_once() => {
                let count = random.pick(&COUNTS).wrapping_add(random.pick(&[0, 0, 0, 1])).min(MOST_ENTRIES as u32);
                if random.once_in(2) {
                    self.queue.push_back(Step::Call(Call::Forecast { items: self.items(random, world, count) }));
                }
                self.queue.push_back(Step::Call(Call::Commit { fail: fail(random, 9) }));
                self.queue.push_back(Step::Call(Call::Open));
                Step::FillTable(Entries { count, below: world.record[2].min(1 << 20), seed: random.next() })
            }
            _ => {
                let at = random.below(world.maps.len() as u32) as usize;
                if random.once_in(6) {
                    return Step::MapByte { at, by: 1 << random.below(8) };
                }
                // bytes of a map list that are ignored
                let at = if self.is_once() {
                    random.pick(&[2, 3, 8, 9, 34, 35, 41, 42, 43, 46, 47, 69])
                } else {
                    random.pick(&[2, 3, 28, 35, 36, 37, 43])
                };
                Step::MapByte { at, by: 1 << random.below(8) }
            }
        }
    }

    /// What happens to a disc outside the layer.
    fn damage(&mut self, random: &mut Random, world: &World) {
        if self.is_once() {
            self.damage_once(random, world);
        } else {
            self.damage_rewritable(random, world);
        }
    }

    fn damage_once(&mut self, random: &mut Random, world: &World) {
        let s = world.s as usize;
        let partition = &world.marks[s..s + world.l as usize];
        let next = partition.iter().rposition(|&m| m != 0).map_or(0, |last| last as u32 + 1);
        let recorded = s + random.below(next) as usize;
        let newest = s + next.saturating_sub(1) as usize;
        match random.below(10) {
            0 => self.queue.push_back(Step::Mark { sector: recorded, mark: random.below(3) as u8 }),
            1 => self.queue.push_back(Step::Mark { sector: newest, mark: random.below(3) as u8 }),
            2 => self.queue.push_back(Step::Mark { sector: s + random.below(world.l) as usize, mark: random.between(1, 3) as u8 }),
            3 => {
                let at = if random.once_in(2) { random.below(220) } else { random.below(SECTOR as u32) } as usize;
                self.queue.push_back(Step::Byte { sector: recorded, at, by: 1 << random.below(8) });
            }
            4 => {
                let at = random.below(16) as usize;
                self.queue.push_back(Step::TagByte { sector: newest, at, by: 1 << random.below(8) });
            }
            5 => {
                let bytes = Bytes::Noise { seed: random.next(), length: SECTOR };
                self.queue.push_back(Step::Sector { sector: s + next.min(world.l - 1) as usize, bytes });
            }
            6 => self.queue.push_back(Step::CopySector { from: recorded, to: s + next.min(world.l - 1) as usize }),
            7 => self.queue.push_back(Step::PutIcb(icb(random, world, next.min(world.l - 1)))),
            8 => self.unrecorded_entry(random, world, next),
            _ => self.forged_file(random, world, next),
        }
    }

    /// A used entry whose sector, below NWA, is blank or unreadable, and its block read.
    fn unrecorded_entry(&mut self, random: &mut Random, world: &World, next: u32) {
        let v = random.below(world.record[1].min(MOST_ENTRIES as u32));
        let entry = world.table[v as usize];
        if entry < next {
            self.queue.push_back(Step::Mark { sector: (world.s + entry) as usize, mark: random.pick(&[BLANK, UNREADABLE]) });
            self.queue.push_back(Step::Call(Call::Open));
            self.queue.push_back(Step::Call(Call::Read { number: v }));
        }
    }

    /// A VAT in extents, laid by hand above what is recorded.
    fn forged_file(&mut self, random: &mut Random, world: &World, next: u32) {
        let count = random.pick(&COUNTS).wrapping_add(random.pick(&[0, 0, 1, 2, 5, 6, 8])).min(4200);
        let f = 4 * count + 36;
        let d = f.div_ceil(SECTOR as u32);
        let k = next + d + random.below(2);
        if k >= world.l {
            return;
        }
        let file = File {
            entries: Entries { count, below: if random.once_in(8) { k + 2 } else { k }, seed: random.next() },
            previous: if random.once_in(6) { random.odd_number(k) } else { random.below(k) },
            suffix: random.below(3) as u8,
            twist: random.once_in(8).then(|| Twist { at: f as usize - 1 - random.below(36) as usize, by: 1 << random.below(8) }),
            cut_off: 0,
        };
        self.queue.push_back(Step::PutFile { block: next, file });
        let mut extents = Vec::new();
        let mut block = next;
        let mut left = f;
        while left > 0 {
            let blocks = random.between(1, d);
            let length = left.min(blocks * SECTOR as u32);
            extents.push((length, block));
            left -= length;
            block += blocks;
        }
        match random.below(12) {
            // an extent of other blocks before, so that the file is longer
            0 => extents.insert(0, (SECTOR as u32 * random.between(1, 3), random.below(next + 1))),
            1 => extents.push((0, random.next() as u32)),
            2 => extents.extend([(0, 0), (random.next() as u32, random.next() as u32)]),
            3 => {
                let i = random.below(extents.len() as u32) as usize;
                extents[i].0 ^= 1 << random.below(32);
            }
            4 => {
                let i = random.below(extents.len() as u32) as usize;
                extents[i].1 = random.odd_number(k);
            }
            5 => {
                let i = random.below(extents.len() as u32) as usize;
                extents.insert(i, (0, block));
            }
            6 => {
                // the same block over and over
                let again = (SECTOR as u32, next);
                extents.splice(0..0, std::iter::repeat_n(again, random.between(1, 12) as usize));
            }
            _ => {}
        }
        let mut icb = Icb { allocation: Allocation::Extents(extents), ..icb(random, world, k) };
        if random.once_in(3) {
            (icb.length_off, icb.inner, icb.outer) = (0, None, None);
        }
        self.queue.push_back(Step::PutIcb(icb));
        if random.once_in(6) {
            let sector = (world.s + next + random.below(d)) as usize;
            self.queue.push_back(Step::Mark { sector, mark: random.below(3) as u8 });
        }
    }

    fn damage_rewritable(&mut self, random: &mut Random, world: &World) {
        let table = random.pick(&self.tables) as usize;
        let held = world.sector(table);
        let somewhere = match random.below(3) {
            0 => random.pick(&self.tables) as usize,
            1 if !self.spares.is_empty() => random.pick(&self.spares) as usize + random.below(32) as usize,
            _ => (world.s + random.below(world.l)) as usize,
        };
        match random.below(11) {
            0 | 1 => self.queue.push_back(Step::Mark { sector: somewhere, mark: random.below(3) as u8 }),
            2 => {
                let at =
                    if random.once_in(2) { random.below(57 + 8 * self.spares.len() as u32) } else { random.below(SECTOR as u32) } as usize;
                self.queue.push_back(Step::Byte { sector: table, at, by: 1 << random.below(8) });
            }
            3 => self.queue.push_back(Step::CopySector { from: table, to: random.pick(&self.tables) as usize }),
            4 => self.unrecorded_packet(random, world),
            5 => self.queue.push_back(Step::PutCopy { sector: table, copy: original_on_spare(random, world, Copy::of(held)) }),
            6 => self.last_sequence(random, world),
            _ => {
                let mut copy = Copy::of(held);
                self.forge(random, world, &mut copy);
                // on one table, or on all of them, at times each under an identifier of its own
                if random.once_in(2) {
                    let is_mixed = random.once_in(2);
                    for &t in &self.tables {
                        let name = if is_mixed { name(random) } else { copy.name };
                        self.queue.push_back(Step::PutCopy { sector: t as usize, copy: Copy { name, ..copy.clone() } });
                    }
                } else {
                    self.queue.push_back(Step::PutCopy { sector: table, copy });
                }
            }
        }
    }

    /// A packet, at its present place, of recorded sectors but one to three that are blank or unreadable, and a block of it saved and
    /// read, which may be one of those: which of them is the first decides.
    fn unrecorded_packet(&mut self, random: &mut Random, world: &World) {
        let first = random.below(world.l / PACKET as u32) * PACKET as u32;
        let entries = world.table[..2 * world.record[1].min(MOST_ENTRIES as u32 / 2) as usize].chunks_exact(2);
        let mapped = entries.filter(|entry| entry[0] == first).map(|entry| entry[1]).next();
        let start = mapped.unwrap_or(world.s + first) as usize;
        if !random.once_in(3) {
            self.queue.push_back(Step::Call(Call::SavePacket { b: first, packet: packet(random), fail: Fail { at: 0, effect: 0 } }));
        }
        let others: Vec<usize> = (0..random.between(1, 3)).map(|_| random.below(PACKET as u32) as usize).collect();
        for i in &others {
            self.queue.push_back(Step::Mark { sector: start + i, mark: random.pick(&[BLANK, UNREADABLE]) });
        }
        self.queue.push_back(Step::Call(Call::Open));
        let within = if random.once_in(3) { random.pick(&others) as u32 } else { random.below(PACKET as u32) };
        self.queue.push_back(Step::Call(Call::Read { number: first + random.pick(&others) as u32 }));
        let block = self.block(random, world);
        self.queue.push_back(Step::Call(Call::SaveBlock { b: first + within, block, fail: fail(random, 32) }));
    }

    /// The last sequence in every table, and a packet spared.
    fn last_sequence(&mut self, random: &mut Random, world: &World) {
        let mut copy = Copy::of(world.sector(random.pick(&self.tables) as usize));
        copy.sequence = u32::MAX;
        for &t in &self.tables {
            self.queue.push_back(Step::PutCopy { sector: t as usize, copy: copy.clone() });
        }
        self.queue.push_back(Step::Call(Call::Open));
        let b = self.packet_number(random, world);
        self.queue.push_back(Step::Call(Call::SparePacket { b, packet: packet(random), fail: self.sparing_fail(random) }));
    }

    fn forge(&self, random: &mut Random, world: &World, copy: &mut Copy) {
        copy.entries.truncate(300);
        let i = random.below(copy.entries.len() as u32) as usize;
        match random.below(16) {
            0 => copy.sequence = random.pick(&[0, 1, u32::MAX - 1, u32::MAX]),
            1 => copy.sequence = copy.sequence.wrapping_add(random.between(0, 2)).wrapping_sub(1),
            2 if !copy.entries.is_empty() => {
                copy.entries[i].0 = if random.once_in(2) { random.odd_number(world.l) } else { random.below(4) * PACKET as u32 };
            }
            3 if !copy.entries.is_empty() => {
                copy.entries[i].1 = match random.below(6) {
                    0 => random.pick(&self.tables),
                    1 => world.s,
                    2 => world.s + world.l,
                    3 => random.pick(&copy.entries).1,
                    4 => world.marks.len() as u32 - random.below(40),
                    _ => random.odd_number(copy.entries[i].1),
                };
            }
            4 if copy.entries.len() > 1 => copy.entries.swap(0, i),
            5 => drop(copy.entries.pop()),
            6 => copy.entries.push((NONE, random.below(world.marks.len() as u32 / PACKET as u32) * PACKET as u32)),
            7 => copy.entries.resize(random.pick(&[0, 1, 200, 249, 250, 300]), (NONE, 0)),
            8 => copy.twist = Some(Twist { at: random.below(56) as usize, by: 1 << random.below(8) }),
            9 if !copy.entries.is_empty() => copy.entries[i].0 = DEFECTIVE,
            10 if !copy.entries.is_empty() => copy.entries[i].0 = random.between(*RESERVED.start(), *RESERVED.end()),
            11 => {
                // entries in their order, but for two neighbours or one that is reserved
                some_spared(random, world, copy);
                let count = copy.entries.len();
                if count > 1 && random.once_in(2) {
                    copy.entries.swap(i.min(count - 2), i.min(count - 2) + 1);
                } else if let Some(entry) = copy.entries.get_mut(i) {
                    entry.0 = random.pick(&[*RESERVED.start(), *RESERVED.end(), DEFECTIVE - 1, DEFECTIVE - 16]);
                }
            }
            12 => {
                // the older identifier with a defective spare, above all others
                some_spared(random, world, copy);
                if let Some(entry) = copy.entries.iter_mut().rfind(|entry| entry.0 == NONE) {
                    entry.0 = DEFECTIVE;
                    copy.entries.sort_by_key(|entry| entry.0);
                }
                copy.name = Name::Older;
                copy.sequence = copy.sequence.saturating_add(random.between(1, 3));
                return;
            }
            13 => copy.suffix = random.next() as u8,
            _ => some_spared(random, world, copy),
        }
        if random.once_in(3) {
            copy.name = name(random);
        }
        if random.once_in(3) {
            copy.sequence = copy.sequence.wrapping_add(1);
        }
    }

    /// Spares to be made: those of the volume, or others.
    fn odd_spares(&self, random: &mut Random) -> Vec<u32> {
        let mut spares = self.spares.clone();
        match random.below(6) {
            0 => spares.push(random.below(80) * PACKET as u32),
            1 => spares.push(random.odd_number(64)),
            2 => spares.extend(&self.tables),
            3 => spares.resize(300, 0),
            4 => spares.clear(),
            _ => {}
        }
        spares
    }

    /// A list of calls for one `run`.
    fn run(&self, random: &mut Random, world: &World) -> Call {
        let kinds: &[u32] = if self.is_once() { &[0, 0, 0, 0, 0, 1, 2, 2, 6, 3] } else { &[3, 3, 3, 4, 4, 5, 5, 6, 0] };
        let mut pool = Vec::new();
        let mut pooled = 0;
        let count = random.below(if self.is_once() { 16 } else { 6 });
        let mut n = world.record[1].min(MOST_ENTRIES as u32);
        let calls = (0..count)
            .map(|_| {
                let kind = if random.once_in(30) { random.next() as u32 } else { random.pick(kinds) };
                let fail = match kind {
                    0 | 2 => fail(random, 2),
                    _ => self.sparing_fail(random),
                };
                let fail = if random.once_in(2) { Fail { at: 0, effect: 0 } } else { fail };
                let number = match kind {
                    0 if random.once_in(2) => {
                        n += 1;
                        n - 1
                    }
                    0 | 1 => random.below(n.max(1)),
                    3 => random.below(world.l + 1),
                    _ => self.packet_number(random, world),
                };
                let bytes = match kind {
                    0 | 3 => Bytes::Noise { seed: random.next(), length: SECTOR },
                    4 | 5 => packet(random),
                    _ => Bytes::Filled { with: 1, length: random.below(9) as usize },
                };
                let length = bytes.make().len() as u32;
                let mut part = (pooled, length);
                if random.once_in(20) {
                    part.0 = random.odd_number(pooled);
                }
                if random.once_in(20) {
                    part.1 = random.odd_number(length);
                }
                pooled += length;
                pool.push(bytes);
                [kind, number, fail.at, fail.effect, part.0, part.1]
            })
            .collect();
        let replies = match random.below(4) {
            0 => random.below(count + 3),
            _ => count,
        } as usize;
        Call::Run { calls, left_over: random.pick(&[0, 0, 0, 1, 5]), pool, replies }
    }
}

/// Whether a call has a cut, so that an opening should follow.
fn has_fail(call: &Call) -> bool {
    match call {
        Call::SaveVirtual { fail, .. } | Call::Commit { fail } => fail.at != 0,
        Call::SaveBlock { fail, .. } | Call::SavePacket { fail, .. } | Call::SparePacket { fail, .. } => fail.at != 0,
        _ => false,
    }
}

/// No cut, or one at or about some writes.
fn fail(random: &mut Random, writes: u32) -> Fail {
    if !random.once_in(4) {
        return Fail { at: 0, effect: random.below(3) };
    }
    let at = if random.once_in(12) { random.odd_number(writes) } else { random.between(1, writes + 1) };
    let effect = if random.once_in(12) { random.next() as u32 } else { random.below(3) };
    Fail { at, effect }
}

/// An identifier of a copy.
fn name(random: &mut Random) -> Name {
    random.pick(&[Name::Newer, Name::Older])
}

/// Some packets spared and some spares defective, in their order. The packets of spares in the partition are mostly passed by.
fn some_spared(random: &mut Random, world: &World, copy: &mut Copy) {
    let packets = world.l / PACKET as u32;
    let defective = random.pick(&[0, 0, 1, 1, 2]);
    let mapped: Vec<u32> = copy.entries.iter().map(|entry| entry.1).collect();
    let takes_any = random.once_in(8);
    let mut from = 0;
    let mut left = defective;
    for entry in &mut copy.entries {
        from += random.below(3);
        while !takes_any && from < packets && mapped.contains(&(world.s + from * PACKET as u32)) {
            from += 1;
        }
        entry.0 = if from < packets {
            from * PACKET as u32
        } else if left > 0 {
            left -= 1;
            DEFECTIVE
        } else {
            NONE
        };
        from += 1;
    }
}

/// A copy above the one that it is made of, with some packets spared; in one entry the original is the packet of a spare, its own or that of
/// any other entry.
fn original_on_spare(random: &mut Random, world: &World, mut copy: Copy) -> Copy {
    some_spared(random, world, &mut copy);
    let inside: Vec<u32> = copy.entries.iter().map(|entry| entry.1.wrapping_sub(world.s)).filter(|&packet| packet < world.l).collect();
    if !inside.is_empty() {
        let i = random.below(copy.entries.len() as u32) as usize;
        copy.entries[i].0 = random.pick(&inside);
        copy.entries.sort_by_key(|entry| entry.0);
    }
    copy.sequence = copy.sequence.saturating_add(random.between(1, 2));
    copy
}

fn packet(random: &mut Random) -> Bytes {
    Bytes::Noise { seed: random.next(), length: PACKET_BYTES }
}

/// An ICB for block k, right or with something wrong.
fn icb(random: &mut Random, world: &World, k: u32) -> Icb {
    let count = if random.once_in(4) { random.between(440, 470) } else { random.below(12) };
    let below = match random.below(8) {
        0 => k.wrapping_add(2).min(1 << 21),
        _ => k.min(1 << 21),
    };
    let previous = match random.below(6) {
        0 => random.odd_number(k),
        1 => NONE,
        2 => world.record[3],
        _ => random.below(k),
    };
    let length = 4 * count as usize + 36;
    let file = File {
        entries: Entries { count, below, seed: random.next() },
        previous,
        suffix: random.below(3) as u8,
        twist: random.once_in(10).then(|| Twist { at: length - 1 - random.below(36) as usize, by: 1 << random.below(8) }),
        cut_off: if random.once_in(20) { random.below(5) as usize } else { 0 },
    };
    const FIELDS: [usize; 19] = [16, 20, 21, 24, 27, 34, 35, 56, 57, 60, 63, 64, 168, 169, 171, 172, 173, 175, 176];
    const CRC_LENGTHS: [u16; 9] = [0, 158, 159, 160, 161, 2031, 2032, 2033, u16::MAX];
    Icb {
        k: if random.once_in(12) { random.odd_number(k).min(world.l) } else { k },
        allocation: Allocation::Embedded(file),
        length_off: if random.once_in(12) { i64::from(random.below(9)) - 4 } else { 0 },
        attributes: if random.once_in(4) { random.pick(&[1, 4, 100, 1836, 1837, 1900, u32::MAX]) } else { 0 },
        crc_length: random.once_in(3).then(|| if random.once_in(3) { random.below(2100) as u16 } else { random.pick(&CRC_LENGTHS) }),
        inner: random.once_in(4).then(|| Twist { at: random.pick(&FIELDS), by: 1 << random.below(8) }),
        outer: random.once_in(6).then(|| Twist { at: random.below(220) as usize, by: 1 << random.below(8) }),
    }
}

/// How many blocks are wanted.
fn bitmap_count(random: &mut Random, world: &World) -> u32 {
    match random.below(10) {
        0 => random.odd_number(world.l),
        1 => random.below(world.l + 2),
        2 => random.between(30, 35),
        _ => random.between(1, 4),
    }
}

/// A space bitmap of l blocks, right or with something wrong.
fn bitmap(random: &mut Random, l: u32) -> Bitmap {
    const FIELDS: [usize; 10] = [0, 1, 10, 11, 16, 17, 19, 20, 21, 23];
    let needed = l.div_ceil(8);
    let had = if random.once_in(12) { needed.saturating_sub(1) } else { needed + random.pick(&[0, 0, 1, 9]) };
    let behind = random.pick(&[0, 0, 1, 30, 500]);
    let most = 8 + had + behind as u32;
    Bitmap {
        l,
        had,
        longest: [0; 2].map(|_| random.pick(&[1, 2, 3, 10, 40, 100])),
        seed: random.next(),
        behind,
        crc_length: match random.below(5) {
            0 | 1 => 8,
            2 => 8 + had as u16,
            3 => most as u16,
            _ if random.once_in(4) => random.pick(&[0, 7, most as u16 + 1, u16::MAX]),
            _ => random.between(8, most) as u16,
        },
        ignored: if random.once_in(2) { random.next() as u8 } else { 0 },
        inner: random.once_in(12).then(|| Twist { at: random.pick(&FIELDS), by: 1 << random.below(8) }),
        outer: random.once_in(12).then(|| Twist { at: random.below(30) as usize, by: 1 << random.below(8) }),
    }
}

fn maps_of(kind: u32, tables: &[u32]) -> Vec<u8> {
    let mut maps = vec![0; if kind == 0 { 70 } else { 64 }];
    plain::write_maps(kind, 0, 2048, tables, &mut maps);
    maps
}

/// A write-once volume.
fn once(random: &mut Random) -> Drawer {
    let s = random.below(7);
    let l = match random.below(4) {
        0 => random.between(1, 10),
        1 | 2 => random.between(11, 40),
        _ => random.between(41, 120),
    };
    let sectors = (s + l + random.below(4)) as usize;
    Drawer {
        start: Start {
            sectors,
            s,
            l,
            maps: maps_of(0, &[]),
            filled_by: (!random.once_in(3)).then(|| random.next()),
            marked_by: (!random.once_in(3)).then(|| random.next()),
            more_places: random.pick(&[0, 0, 1, 100]),
        },
        tables: Vec::new(),
        spares: Vec::new(),
        length: 0,
        queue: VecDeque::new(),
    }
}

/// In any order.
fn shuffled(random: &mut Random, mut places: Vec<u32>) -> Vec<u32> {
    for i in (1..places.len()).rev() {
        places.swap(i, random.below(i as u32 + 1) as usize);
    }
    places
}

/// A rewritable volume: the partition's packets in a row, and before and after them tables and spares in any order. At times some of the
/// partition's packets are spares too, or all of them.
fn rewritable(random: &mut Random) -> Drawer {
    let inside = if random.once_in(3) { random.between(1, 2) } else { 0 };
    let packets = inside + if inside > 0 && random.once_in(8) { 0 } else { random.between(1, 3) };
    let count = random.pick(&[1usize, 2, 2, 2, 3, 4]);
    let spares = random.pick(&[0usize, 1, 2, 3, 3, 4]);
    let others = (count + spares) as u32 + random.below(2);
    let before = random.below(others + 1);
    let places = (0..others).map(|i| PACKET as u32 * if i < before { i } else { i + packets }).collect();
    let places = shuffled(random, places);
    let own = shuffled(random, (before..before + packets).map(|i| PACKET as u32 * i).collect());
    let tables = places[..count].to_vec();
    let spares = shuffled(random, [&places[count..count + spares], &own[..inside as usize]].concat());
    let size = match random.below(3) {
        0 => 56 + 8 * spares.len() as u32,
        1 => 56 + 8 * spares.len() as u32 + random.below(30),
        _ => 2048,
    };
    let mut maps = vec![0; 64];
    plain::write_maps(1, random.next() as u16, size, &tables, &mut maps);
    Drawer {
        start: Start {
            sectors: PACKET * (others + packets) as usize + random.pick(&[0, 0, 1, 31]),
            s: PACKET as u32 * before,
            l: PACKET as u32 * packets,
            maps,
            filled_by: random.once_in(2).then(|| random.next()),
            marked_by: (!random.once_in(3)).then(|| random.next()),
            more_places: random.pick(&[0, 0, 1, 100]),
        },
        tables,
        spares,
        length: 0,
        queue: VecDeque::new(),
    }
}

//! The plain store of document 01 ("The plain store"), the calls that it is fed and the discs that they are made on. Document 02 gives it
//! two readings more: blank (slip 5) and of a spare (slip 8), which is set at its start and which no call changes. It is fed each call's
//! arguments and cut and whether the call was accepted. A sparing is done or not by the same rule where its packet is spared already
//! (document 02, slip 1).

mod landing;
mod sizes;

pub use landing::Landing;
pub use sizes::data_sectors;
use tuormik::{BLANK, NONE, PACKET, RECORDED, SECTOR};
use tuormik_second::layer::Layer;

/// The reply of a call that was cut.
pub const CUT: u32 = 255;

/// What the store has of a block.
#[derive(Clone, PartialEq, Debug)]
pub enum Slot {
    Holds(Vec<u8>),
    Unused,
    OfSpare,
    Unreadable,
    Blank,
}

impl Slot {
    /// What a sector is.
    fn of(mark: u8, bytes: &[u8]) -> Slot {
        match mark {
            BLANK => Slot::Blank,
            RECORDED => Slot::Holds(bytes.to_vec()),
            _ => Slot::Unreadable,
        }
    }
}

/// What a call of a list is.
#[derive(Clone, Copy, PartialEq, Debug)]
pub enum Kind {
    SaveVirtual,
    FreeVirtual,
    Commit,
    SaveBlock,
    SavePacket,
    SparePacket,
    Open,
}

#[derive(Clone, Debug)]
pub struct Call {
    pub kind: Kind,
    pub number: u32,
    pub cut_at: u32,
    pub cut_effect: u32,
    pub bytes: Vec<u8>,
}

/// An opening, as a list follows one, and as a cut is followed by one.
pub static OPEN: Call = Call { kind: Kind::Open, number: 0, cut_at: 0, cut_effect: 0, bytes: Vec::new() };

impl Call {
    /// One that is not cut.
    pub fn new(kind: Kind, number: u32, bytes: Vec<u8>) -> Call {
        Call { kind, number, bytes, ..OPEN.clone() }
    }

    /// What becomes of its write n.
    pub fn landing(&self, n: u32) -> Landing {
        landing::landing(n, self.cut_at, self.cut_effect)
    }
}

#[derive(Clone)]
pub struct Store {
    pub is_once: bool,
    pub blocks: Vec<Slot>,
    copy: Vec<Slot>,
}

impl Store {
    /// A disc as it was first opened.
    pub fn of(world: &World) -> Store {
        let is_once = world.maps.len() == 70;
        let sector = |at: u32| Slot::of(world.marks[at as usize], &world.disc[SECTOR * at as usize..][..SECTOR]);
        let blocks: Vec<Slot> = if is_once {
            let entries = &world.table[..world.record[1] as usize];
            entries.iter().map(|&entry| if entry == NONE { Slot::Unused } else { sector(world.s + entry) }).collect()
        } else {
            let entries = || world.table[..2 * world.record[1] as usize].chunks_exact(2);
            let start = |packet: u32| entries().find(|entry| entry[0] == packet).map_or(world.s + packet, |entry| entry[1]);
            let is_of_spare = |packet: u32| entries().any(|entry| entry[1] == world.s + packet);
            let slot = |b: u32| match (b - b % PACKET as u32, b % PACKET as u32) {
                (packet, _) if is_of_spare(packet) => Slot::OfSpare,
                (packet, within) => sector(start(packet) + within),
            };
            (0..world.l).map(slot).collect()
        };
        Store { is_once, copy: blocks.clone(), blocks }
    }

    /// A call that was accepted.
    pub fn take(&mut self, call: &Call, is_cut: bool) {
        let b = call.number as usize;
        match call.kind {
            Kind::Open => {
                if self.is_once {
                    self.blocks = self.copy.clone();
                }
            }
            Kind::SaveVirtual if is_cut => {}
            Kind::SaveVirtual => {
                let slot = Slot::Holds(call.bytes.clone());
                if b == self.blocks.len() {
                    self.blocks.push(slot);
                } else {
                    self.blocks[b] = slot;
                }
            }
            Kind::FreeVirtual => self.blocks[b] = Slot::Unused,
            Kind::Commit => {
                // cut or not, it has copied if its ICB, the last write, is whole
                if call.landing(data_sectors(self.blocks.len()) + 1) == Landing::Done {
                    self.copy = self.blocks.clone();
                }
            }
            Kind::SaveBlock => {
                let start = b - b % PACKET;
                let mut packet: Vec<Slot> = self.blocks[start..start + PACKET].to_vec();
                packet[b % PACKET] = Slot::Holds(call.bytes.clone());
                self.write_packet(call, start, packet);
            }
            Kind::SavePacket => self.write_packet(call, b, slots(&call.bytes)),
            Kind::SparePacket => {
                // done if a new table copy is whole; the first is write 33
                if call.landing(PACKET as u32 + 1) == Landing::Done {
                    self.blocks[b..b + PACKET].clone_from_slice(&slots(&call.bytes));
                }
            }
        }
    }

    /// Each sector of a packet by the cut's rule.
    fn write_packet(&mut self, call: &Call, start: usize, packet: Vec<Slot>) {
        for (i, slot) in packet.into_iter().enumerate() {
            match call.landing(i as u32 + 1) {
                Landing::Done => self.blocks[start + i] = slot,
                Landing::Kept => {}
                Landing::Unreadable => self.blocks[start + i] = Slot::Unreadable,
            }
        }
    }
}

fn slots(packet: &[u8]) -> Vec<Slot> {
    packet.chunks(SECTOR).map(|block| Slot::Holds(block.to_vec())).collect()
}

/// A disc that a list is run on.
#[derive(Clone, PartialEq)]
pub struct World {
    pub disc: Vec<u8>,
    pub marks: Vec<u8>,
    pub maps: Vec<u8>,
    pub s: u32,
    pub l: u32,
    pub table: Vec<u32>,
    pub record: [u32; 5],
}

impl World {
    pub fn open(&mut self, layer: &Layer) {
        let World { disc, marks, maps, s, l, table, record } = self;
        assert_eq!((layer.open)(disc, marks, maps, *s, *l, table, record), 0, "{}: an opening is accepted", layer.name);
    }

    pub fn run(&mut self, layer: &Layer, calls: &[Call]) -> (u32, Vec<u32>) {
        let (mut numbers, mut pool) = (Vec::new(), Vec::new());
        for call in calls {
            let kind = call.kind as u32;
            numbers.extend([kind, call.number, call.cut_at, call.cut_effect, pool.len() as u32, call.bytes.len() as u32]);
            pool.extend_from_slice(&call.bytes);
        }
        let mut replies = vec![99; calls.len()];
        let World { disc, marks, maps, s, l, table, record } = self;
        let opened = (layer.run)(disc, marks, maps, *s, *l, table, record, &numbers, &pool, &mut replies);
        (opened, replies)
    }
}

//! A packet moved to a free spare.

use super::args::Args;
use super::commits::open_to_write;
use super::entry::{Choice, Entry, AS_IT_WAS, CUT};
use super::images::{finish, input, load_to_write};
use super::output::Outputs;
use super::refused::{self, Asked};
use super::states::{Counts, View};
use super::words::grouped;
use super::{Done, Failure};
use std::path::Path;
use tuormik::{Cut, Error, Open, Refusal, PACKET, PACKET_BYTES, SECTOR};

pub const ENTRY: Entry = Entry {
    name: "spare",
    line: "a packet moved to a free spare",
    usage: &["IMAGE NUMBER [FILE] [--zeros]"],
    about: "\
Spares the packet that begins at logical block NUMBER of a rewritable disc: it goes to the free spare that stands first in the sparing \
table. A packet that is spared already goes to another spare, and its old one turns defective: it is not used again. A packet that is \
itself a spare inside the partition is not spared. The packet's bytes are those of FILE (65,536), or those that are read from the \
disc. Every copy of the sparing table is written with the newer identifier, that of UDF 1.50.
",
    choices: &[Choice::flag("--zeros", "blocks that cannot be read (unreadable) or were never recorded (blank) become zeros"), CUT],
    takes_volume: true,
    writes: AS_IT_WAS,
    run: spare,
};

fn spare(args: &mut Args, out: &mut Outputs) -> Done {
    let mut image = load_to_write(args, out)?;
    let b = args.next_number("NUMBER")?;
    let path = args.next_word();
    args.end()?;
    let cut = args.cut()?;
    let zeros = args.has("--zeros");
    let given = path.map(|path| input(Path::new(&path), PACKET_BYTES)).transpose()?;
    let answer = open_to_write(&mut image).and_then(|open| spare_it(open, b, given, zeros, cut));
    finish(&mut image, answer, cut, out)
}

fn spare_it(mut open: Open, b: u32, given: Option<Vec<u8>>, zeros: bool, cut: Cut) -> Result<String, Failure> {
    let (packet, blocks) = match given {
        Some(bytes) => (bytes, Counts::default()),
        None => (read_packet(&open, b, zeros)?, View::from(&open).packet(b).collect()),
    };
    let old = View::from(&open).spared_to(b);
    let answer = open.spare_packet_cut(b, &packet, cut);
    answer.map_err(|error| refused::by_call(&open, Asked::SparePacket(b, packet.len()), error))?;
    let place = grouped(View::from(&open).packet_place(b));
    let left = old.map_or(String::new(), |old| format!(", and its old spare, at sector {}, is defective", grouped(old)));
    let spared = format!("spared the packet of block {}: it is now at sector {place}{left}", grouped(b));
    Ok(match blocks.not_recorded() {
        words if words.is_empty() => spared,
        words => format!("{spared}; blocks that became zeros: {words}"),
    })
}

/// The packet that begins at block b; with zeros for blocks that are unreadable or blank, where they are asked for.
fn read_packet(open: &Open, b: u32, zeros: bool) -> Result<Vec<u8>, Failure> {
    let mut packet = Vec::with_capacity(PACKET_BYTES);
    for i in 0..PACKET as u32 {
        match open.read(b.saturating_add(i)) {
            Ok(block) => packet.extend_from_slice(&block),
            Err(Error::Refused(Refusal::BlankSector | Refusal::UnreadableSector)) if zeros => packet.extend_from_slice(&[0; SECTOR]),
            // that a number is outside or of a spare, or that the disc is write-once, the sparing itself says
            Err(Error::Refused(Refusal::NumberOutside | Refusal::BelongsToSpare | Refusal::UnusedEntry)) => {
                packet.extend_from_slice(&[0; SECTOR])
            }
            Err(error) => return Err(refused::by_call(open, Asked::Read(b.saturating_add(i)), error)),
        }
    }
    Ok(packet)
}

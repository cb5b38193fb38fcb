//! The blocks of a disc: where each is, and in which state.

use super::args::Args;
use super::commits;
use super::entry::{Choice, Entry};
use super::images::load_next;
use super::output::Outputs;
use super::states::{SpareState, State, View};
use super::summary::mark_words;
use super::words::{counted, grouped};
use super::Done;
use tuormik::{PACKET, RECORDED};

pub const ENTRY: Entry = Entry {
    name: "list",
    line: "each block: where it is, and in which state",
    usage: &["IMAGE [--all]"],
    about: "\
Lists the blocks. Write-once: a line for each virtual block, with its logical block, its sector and its state: recorded, unreadable, \
blank (its sector was never recorded) or unused. Rewritable: a line for each packet that is spared or has an unreadable or a blank \
sector, with the count of each, one for each packet that is of a spare, and one for each spare that is defective or free. Packets in \
place, and spares in the partition, are counted.
",
    choices: &[Choice::flag("--all", "a line for every packet")],
    takes_volume: true,
    writes: None,
    run: list,
};

fn list(args: &mut Args, out: &mut Outputs) -> Done {
    let image = load_next(args)?;
    args.end()?;
    let open = commits::open_and_tell(&image, out)?;
    let view = View::from(&open);
    if view.is_write_once() {
        list_once(view, out);
    } else {
        list_packets(view, args.has("--all"), out);
    }
    Ok(())
}

fn list_once(open: View, out: &mut Outputs) {
    out.line("virtual  logical    sector");
    for block in open.blocks() {
        let (logical, sector) = match block.place {
            Some((logical, sector)) => (grouped(logical), grouped(sector)),
            None => ("-".to_string(), "-".to_string()),
        };
        out.line(format_args!("{:>7}  {logical:>7}  {sector:>8}  {}", grouped(block.number), block.state));
    }
}

fn list_packets(open: View, all: bool, out: &mut Outputs) {
    out.line("  blocks                 sectors");
    let (mut plain, mut of_spares) = (0, 0);
    for b in (0..open.count()).step_by(PACKET) {
        let (is_spared, is_of_spare) = (open.spared_to(b).is_some(), open.spare_of(b).is_some());
        let at = open.packet_place(b);
        let marks = &open.disc.marks[at..at + PACKET];
        if !is_spared && !is_of_spare && !all && marks.iter().all(|&m| m == RECORDED) {
            plain += 1;
            continue;
        }
        of_spares += usize::from(is_of_spare);
        let state = match (is_of_spare, is_spared) {
            (true, _) => State::OfSpare.to_string(),
            (_, true) => format!("spared, {}", mark_words(marks)),
            _ => mark_words(marks),
        };
        let (first, last) = (grouped(b), grouped(b as usize + PACKET - 1));
        out.line(format_args!("{first:>8} to {last:<8}  {:>8} to {:<8}  {state}", grouped(at), grouped(at + PACKET - 1)));
    }
    if plain > 0 {
        out.line(format_args!("{} in place, recorded", counted(plain, "packet")));
    }
    if of_spares > 0 {
        out.line(format_args!("{} in the partition, whose blocks are neither read nor saved", counted(of_spares, "spare")));
    }
    for spare in open.spares() {
        let words = match spare.state {
            // told with its packet
            SpareState::Used => continue,
            SpareState::Defective => "defective spare",
            SpareState::Free => "free spare",
        };
        out.line(format_args!("    {words:<19}{:>8} to {}", grouped(spare.sector), grouped(spare.sector + PACKET - 1)));
    }
}

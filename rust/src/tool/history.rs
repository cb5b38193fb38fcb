//! The chain of VAT ICBs.

use super::args::Args;
use super::commits::{chain, open_and_tell};
use super::entry::Entry;
use super::images::load_next;
use super::output::Outputs;
use super::Done;

pub const ENTRY: Entry = Entry {
    name: "history",
    line: "the chain of VAT ICBs",
    usage: &["IMAGE"],
    about: "\
Lists the VAT ICBs of a write-once disc, the newest first: each is found by opening the disc again with L cut to the block of the one \
before.
",
    choices: &[],
    takes_volume: true,
    writes: None,
    run: history,
};

fn history(args: &mut Args, out: &mut Outputs) -> Done {
    let image = load_next(args)?;
    args.end()?;
    let found = chain(&image)?;
    open_and_tell(&image, out)?;
    out.line("VAT ICB    sector       N  sectors between it and the next");
    for commit in &found {
        let [icb, sector, entries, between] = commit.numbers(image.volume.start);
        out.line(format_args!("{icb:>7}  {sector:>8}  {entries:>6}  {between:>6}"));
    }
    Ok(())
}

//! Virtual blocks freed.

use super::args::Args;
use super::commits::{commit_and_tell, open_to_commit};
use super::entry::{Entry, AS_IT_WAS, CUT, FORCE};
use super::images::{finish, load_to_write, optional_count};
use super::output::Outputs;
use super::refused::{self, Asked};
use super::words::{counted, grouped};
use super::{Done, Failure};
use tuormik::{Cut, Open};

pub const ENTRY: Entry = Entry {
    name: "free",
    line: "virtual blocks freed",
    usage: &["IMAGE NUMBER [COUNT]"],
    about: "Frees COUNT virtual blocks (1) of a write-once disc from NUMBER on, and commits.\n",
    choices: &[FORCE, CUT],
    takes_volume: true,
    writes: AS_IT_WAS,
    run: free,
};

fn free(args: &mut Args, out: &mut Outputs) -> Done {
    let mut image = load_to_write(args, out)?;
    let first = args.next_number("NUMBER")?;
    let count = optional_count(args)?;
    args.end()?;
    let cut = args.cut()?;
    let answer = open_to_commit(&mut image, args.has("--force"), out).and_then(|open| free_all(open, first, count, cut));
    finish(&mut image, answer, cut, out)
}

fn free_all(mut open: Open, first: u32, count: u32, cut: Cut) -> Result<String, Failure> {
    for i in 0..count {
        let v = first.saturating_add(i);
        open.free_virtual(v).map_err(|error| refused::by_call(&open, Asked::Free(v), error))?;
    }
    let freed = format!("freed {} from {} on", counted(count as usize, "block"), grouped(first));
    Ok(format!("{freed}\n{}", commit_and_tell(&mut open, cut)?))
}

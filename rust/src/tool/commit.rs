//! A new VAT at the end of what is recorded.

use super::args::Args;
use super::commits::{commit_and_tell, open_to_commit};
use super::entry::{Entry, AS_IT_WAS, CUT, FORCE};
use super::images::{finish, load_to_write};
use super::output::Outputs;
use super::Done;

pub const ENTRY: Entry = Entry {
    name: "commit",
    line: "a new VAT written at the end of what is recorded",
    usage: &["IMAGE"],
    about: "\
Opens a write-once disc and commits the table that was found: the disc then ends with its VAT ICB, and opening passes over nothing.
",
    choices: &[FORCE, CUT],
    takes_volume: true,
    writes: AS_IT_WAS,
    run: commit,
};

fn commit(args: &mut Args, out: &mut Outputs) -> Done {
    let mut image = load_to_write(args, out)?;
    args.end()?;
    let cut = args.cut()?;
    let answer = open_to_commit(&mut image, args.has("--force"), out).and_then(|mut open| commit_and_tell(&mut open, cut));
    finish(&mut image, answer, cut, out)
}

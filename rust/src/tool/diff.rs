//! Two discs held against each other, block by block.

use super::args::{missing, Args};
use super::entry::Entry;
use super::images::load;
use super::output::Outputs;
use super::progress::Progress;
use super::states::{State, View};
use super::words::{counted, from_to, number, parts};
use super::{commits, Done, Failure};
use std::ffi::OsString;
use std::path::PathBuf;
use tuormik::{OpenRef, SECTOR};

/// What becomes of a block from one disc to the other.
#[derive(Clone, Copy, PartialEq, Eq)]
enum Change {
    Alike,
    Differs,
    Appeared,
    Went,
    /// never recorded in one of them, with bytes in the other
    BlankInA,
    BlankInB,
    /// not to be read in one of them
    Unknown,
    /// of a spare, and so no block to be read or saved
    OfSpareInBoth,
    OfSpareInA,
    OfSpareInB,
}

impl Change {
    /// Whether nothing becomes of the block.
    fn is_none(self) -> bool {
        matches!(self, Change::Alike | Change::OfSpareInBoth)
    }
}

/// The changes that are told, with the words of one block and of several, and of a count.
const TOLD: [(Change, &str, &str, &str); 8] = [
    (Change::Differs, "differs", "differ", "different"),
    (Change::Appeared, "appeared", "appeared", "appeared"),
    (Change::Went, "went", "went", "went"),
    (Change::BlankInA, "is blank in A: it was never recorded there", "are blank in A: they were never recorded there", "blank in A"),
    (Change::BlankInB, "is blank in B: it was never recorded there", "are blank in B: they were never recorded there", "blank in B"),
    (Change::Unknown, "cannot be compared: it cannot be read", "cannot be compared: they cannot be read", "not to be compared"),
    (Change::OfSpareInA, "is of a spare in A", "are of a spare in A", "of spares in A"),
    (Change::OfSpareInB, "is of a spare in B", "are of a spare in B", "of spares in B"),
];

/// What a block is.
enum Content {
    None,
    Blank,
    Unreadable,
    OfSpare,
    Bytes(Box<[u8; SECTOR]>),
}

/// An image, and the commit that is named after it: `IMAGE@ICB`.
fn split(word: OsString) -> (PathBuf, Option<u32>) {
    let path = PathBuf::from(&word);
    let text = word.to_string_lossy();
    match text.rsplit_once('@').and_then(|(image, icb)| Some((image, number(icb)?))) {
        // a file of that whole name is meant where there is one
        Some((image, icb)) if !path.exists() => (PathBuf::from(image), Some(icb)),
        _ => (path, None),
    }
}

pub const ENTRY: Entry = Entry {
    name: "diff",
    line: "which blocks of two discs differ",
    usage: &["A B"],
    about: "\
Holds the blocks of two images against each other, by their numbers, and tells which differ, appeared (in B alone) or went (in A \
alone), which are blank (never recorded) or of a spare in one of them, and which cannot be read. Blocks that are blank in both are \
alike; those of a spare in both are counted apart, and are no difference. A and B are images, or IMAGE@ICB for the disc as the commit \
left it whose VAT ICB is at that logical block. The status is 0 where nothing differs and 1 where something does. A volume given by \
hand is that of both; --marks does not go with two images.
",
    choices: &[],
    takes_volume: true,
    writes: None,
    run: diff,
};

fn diff(args: &mut Args, out: &mut Outputs) -> Done {
    if args.has("--marks") {
        return Err(Failure::Usage("--marks goes with one image, and these are two".into()));
    }
    let mut word = |what: &str| args.next_word().ok_or_else(|| missing(what));
    let ((first, first_at), (second, second_at)) = (split(word("A")?), split(word("B")?));
    args.end()?;
    let (a, b) = (load(args, &first)?, load(args, &second)?);
    let (a, b) = (commits::open_at(&a, first_at, out)?, commits::open_at(&b, second_at, out)?);
    if View::from(&a).is_write_once() != View::from(&b).is_write_once() {
        return Err(Failure::File("one disc is write-once and the other rewritable: their blocks are not the same ones".into()));
    }
    let changes = changes(&a, &b)?;
    tell(&changes, out);
    Failure::told(u8::from(changes.iter().any(|&change| !change.is_none())))
}

fn content(open: &OpenRef, number: u32) -> Result<Content, Failure> {
    Ok(match View::from(open).block(number).map(|block| block.state) {
        Some(State::Recorded) => Content::Bytes(Box::new(commits::read(open, number)?)),
        Some(State::Unreadable) => Content::Unreadable,
        Some(State::Blank) => Content::Blank,
        Some(State::OfSpare) => Content::OfSpare,
        Some(State::Unused) | None => Content::None,
    })
}

fn changes(a: &OpenRef, b: &OpenRef) -> Result<Vec<Change>, Failure> {
    let count = View::from(a).count().max(View::from(b).count());
    let mut progress = Progress::new("blocks compared");
    let change = |number| -> Result<Change, Failure> {
        progress.tell(number as usize, count as usize);
        Ok(match (content(a, number)?, content(b, number)?) {
            (Content::None, Content::None) | (Content::Blank, Content::Blank) => Change::Alike,
            (Content::OfSpare, Content::OfSpare) => Change::OfSpareInBoth,
            (Content::OfSpare, _) => Change::OfSpareInA,
            (_, Content::OfSpare) => Change::OfSpareInB,
            (Content::None, _) => Change::Appeared,
            (_, Content::None) => Change::Went,
            (Content::Unreadable, _) | (_, Content::Unreadable) => Change::Unknown,
            (Content::Blank, _) => Change::BlankInA,
            (_, Content::Blank) => Change::BlankInB,
            (Content::Bytes(a), Content::Bytes(b)) if a == b => Change::Alike,
            (Content::Bytes(_), Content::Bytes(_)) => Change::Differs,
        })
    };
    (0..count).map(change).collect()
}

/// A line for blocks that follow each other and have the same change, and the counts.
fn tell(changes: &[Change], out: &mut Outputs) {
    let mut first = 0;
    for run in changes.chunk_by(|a, b| a == b) {
        if let Some((_, one, several, _)) = TOLD.iter().find(|told| told.0 == run[0]) {
            let words = if run.len() == 1 { one } else { several };
            out.line(format_args!("{} {words}", from_to(first, first + run.len() - 1, "block")));
        }
        first += run.len();
    }
    let count = |change| changes.iter().filter(|&&c| c == change).count();
    let mut counts = vec![(count(Change::Alike), "alike"), (count(Change::OfSpareInBoth), "of spares in both")];
    counts.extend(TOLD.iter().map(|(change, _, _, words)| (count(*change), *words)));
    match changes.len() {
        0 => out.line("neither disc has blocks"),
        n => out.line(format_args!("{}: {}", counted(n, "block"), parts(&counts))),
    }
}

//! The marks of an image's sectors: shown, taken from a map of ddrescue, or set by hand.

use super::args::{number, Args};
use super::entry::{Choice, Entry};
use super::images::{input, load_without_volume, telling};
use super::output::Outputs;
use super::progress::Waiting;
use super::summary::mark_words;
use super::words::{counted, grouped};
use super::{Done, Failure};
use std::ffi::OsString;
use std::path::Path;
use tuormik::image::{mark_name, marks_from_ddrescue, Error, Marking};
use tuormik::{marks_by_rule, BLANK, RECORDED, UNREADABLE};

pub const ENTRY: Entry = Entry {
    name: "marks",
    line: "which sectors of an image are blank, recorded or unreadable",
    usage: &["IMAGE", "IMAGE --from-ddrescue MAPFILE [--blank-from SECTOR]", "IMAGE --set MARK FROM COUNT .."],
    about: "\
Tells the marks of an image's sectors by runs, as a marks file has them, and where they came from. No volume is needed: each file of whole \
sectors has marks.
With --from-ddrescue or --set it writes the marks file, which belongs to the image's bytes from then on; the image itself stays as it is. \
A map file of GNU ddrescue tells which bytes were read: a sector is recorded where all of its bytes were, and unreadable otherwise. Map and \
image must end together. A sector whose bytes are not zeros is not called blank.
",
    choices: &[
        Choice { name: "--from-ddrescue", values: &["MAPFILE"], words: "the marks by the map file of ddrescue, which made the image" },
        Choice { name: "--blank-from", values: &["SECTOR"], words: "with a map: the sectors from this one on were never recorded" },
        Choice {
            name: "--set",
            values: &["MARK", "FROM", "COUNT"],
            words: "COUNT sectors from sector FROM on are blank, recorded or unreadable; of several the later one prevails",
        },
        Choice::flag("--force", "with a map: replaces a marks file that is there"),
        Choice { name: "--marks", values: &["FILE"], words: "another marks file than IMAGE.marks" },
    ],
    takes_volume: false,
    writes: Some("image and marks are as they were"),
    run: marks,
};

fn marks(args: &mut Args, out: &mut Outputs) -> Done {
    let path = args.next_path("IMAGE")?;
    args.end()?;
    let changes = args.all("--set").map(change).collect::<Result<Vec<_>, _>>()?;
    let Some(mut marking) = begin(args, &path, !changes.is_empty(), out)? else {
        return show(args, &path, out);
    };
    for Change { mark, from, count } in changes {
        marking.set(mark, from, count)?;
    }
    marking.store()?;
    out.line(format_args!("{}: {}", counted(marking.marks().len(), "sector"), mark_words(marking.marks())));
    if let Some(from) = zeros_from(&marking).filter(|_| args.has("--from-ddrescue")) {
        out.line(format_args!(
            "those from {0} on are zeros and not called blank: where nothing was recorded there, --blank-from {0} says so",
            grouped(from)
        ));
    }
    Ok(())
}

/// From where on all sectors are zeros, where the last of them is not called blank.
fn zeros_from(marking: &Marking) -> Option<usize> {
    let from = marks_by_rule(marking.bytes()).iter().rposition(|&mark| mark != BLANK).map_or(0, |last| last + 1);
    marking.marks().last().filter(|&&mark| mark != BLANK && from < marking.marks().len()).map(|_| from)
}

/// The image that is to be marked, with the marks of a map if one is given; none where the marks are only to be told.
fn begin(args: &Args, path: &Path, has_changes: bool, out: &mut Outputs) -> Result<Option<Marking>, Failure> {
    let _waiting = Waiting::new(format!("reading {}", path.display()));
    let (marks_path, tell) = (args.path("--marks"), &mut telling(path, out));
    match args.path("--from-ddrescue") {
        Some(map) => marked_by(map, args, Marking::begin_anew(path, marks_path, args.has("--force"), tell)?).map(Some),
        None => match ["--blank-from", "--force"].into_iter().find(|option| args.has(option)) {
            Some(option) => Err(Failure::Usage(format!("{option} goes with --from-ddrescue"))),
            None if has_changes => Ok(Some(Marking::begin(path, marks_path, tell)?)),
            None => Ok(None),
        },
    }
}

/// The most bytes of a map file: far more than one of a disc has.
const MOST_BYTES: usize = 1 << 26;

/// Takes the marks of a map of ddrescue.
fn marked_by(map: &Path, args: &Args, mut marking: Marking) -> Result<Marking, Failure> {
    let blank_from = args.number("--blank-from")?.map(|sector| sector as usize);
    let text = input(map, MOST_BYTES)?;
    let wrong = |words: String| Error::Wrong { path: map.to_owned(), words };
    if text.len() > MOST_BYTES {
        return Err(wrong(format!("it has more than {} bytes, and so is no map of a disc", grouped(MOST_BYTES))).into());
    }
    let marks = marks_from_ddrescue(&text, marking.marks().len(), blank_from).map_err(wrong)?;
    marking.set_all(marks)?;
    Ok(marking)
}

/// A mark that sectors are to have.
struct Change {
    mark: u8,
    from: usize,
    count: usize,
}

/// What one --set says.
fn change(values: &[OsString]) -> Result<Change, Failure> {
    let words: Vec<_> = values.iter().map(|value| value.to_string_lossy()).collect();
    let [name, from, count] = &words[..] else {
        return Err(Failure::Usage("--set needs MARK FROM COUNT".into()));
    };
    let mark = [BLANK, RECORDED, UNREADABLE].into_iter().find(|&mark| mark_name(mark) == name);
    let mark = mark.ok_or_else(|| Failure::Usage(format!("--set: {name} is no mark, which is blank, recorded or unreadable")))?;
    Ok(Change { mark, from: number(from, "--set")? as usize, count: number(count, "--set")? as usize })
}

/// Tells the marks of the image file.
fn show(args: &Args, path: &Path, out: &mut Outputs) -> Done {
    out.only_reads();
    let image = load_without_volume(args, path)?;
    out.line(format_args!("{}: {}, {}", counted(image.marks.len(), "sector"), mark_words(&image.marks), image.marks_source()));
    out.line("mark             from      count");
    let mut from = 0;
    for run in image.marks.chunk_by(|a, b| a == b) {
        out.line(format_args!("{:<10}  {:>9}  {:>9}", mark_name(run[0]), grouped(from), grouped(run.len())));
        from += run.len();
    }
    Ok(())
}

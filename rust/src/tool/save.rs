//! Blocks saved from files.

use super::args::{missing, Args};
use super::commits::{commit_and_tell, open_to_commit};
use super::entry::{Choice, Entry, AS_IT_WAS, CUT, FORCE};
use super::fit::{self, Told};
use super::images::{finish, input, load_to_write};
use super::output::Outputs;
use super::progress::Progress;
use super::refused::{self, Asked};
use super::states::View;
use super::words::{counted, from_to, grouped, number};
use super::{Done, Failure};
use std::path::{Path, PathBuf};
use tuormik::image::Image;
use tuormik::{read_maps, Cut, Maps, Open, MOST_ENTRIES, MOST_SECTORS, PACKET, PACKET_BYTES, SECTOR};

pub const ENTRY: Entry = Entry {
    name: "save",
    line: "blocks saved from files",
    usage: &["IMAGE NUMBER FILE.. [--no-commit] [--packet]"],
    about: "\
Saves the bytes of each FILE ('-': the standard input), one after the other, as blocks from NUMBER on; the last block of each is \
filled up with zeros. A line for each FILE tells which blocks it went to. On a write-once disc NUMBER may be 'new', which adds blocks, \
and a commit follows; without it what was saved is not found again. Several blocks and their commit are forecast there, as by 'fit', \
before anything is written: the first line tells what they take. Where they do not all fit, none is saved, and the message tells how \
many would fit. On a rewritable disc a block that belongs to a spare inside the partition is not saved, nor is any other with it.
",
    choices: &[
        Choice::flag("--no-commit", "no commit after the saves"),
        Choice::flag("--packet", "whole packets of a rewritable disc, all 32 blocks of each replaced: FILE has 65,536 bytes for each"),
        FORCE,
        CUT,
    ],
    takes_volume: true,
    writes: AS_IT_WAS,
    run: save,
};

/// What is to be saved.
struct Load {
    /// Where it goes: a number, or `new`.
    word: String,
    /// The files, each with its bytes, not filled up yet.
    files: Vec<(PathBuf, Vec<u8>)>,
    packet: bool,
    commits: bool,
    cut: Cut,
}

fn save(args: &mut Args, out: &mut Outputs) -> Done {
    let mut image = load_to_write(args, out)?;
    let word = args.next_word().ok_or_else(|| missing("NUMBER"))?.to_string_lossy().into_owned();
    let (packet, commits, cut) = (args.has("--packet"), !args.has("--no-commit"), args.cut()?);
    let paths = args.next_paths("FILE")?.into_iter();
    let files = paths.map(|path| input_for(&image, &path, packet).map(|bytes| (path, bytes))).collect::<Result<_, _>>()?;
    let load = Load { word, files, packet, commits, cut };
    let answer = open_to_commit(&mut image, args.has("--force"), out).and_then(|open| save_all(open, &load, out));
    finish(&mut image, answer, cut, out)
}

/// The bytes that are to be saved: as many as the disc can hold, one at least, and with --packet whole packets.
fn input_for(image: &Image, path: &Path, packet: bool) -> Result<Vec<u8>, Failure> {
    let blocks = match read_maps(&image.volume.maps) {
        Ok(Maps::WriteOnce { .. }) => (image.volume.length as usize).min(MOST_ENTRIES),
        _ => (image.volume.length as usize).min(MOST_SECTORS),
    };
    let bytes = input(path, SECTOR * blocks)?;
    let wrong = |words: String| Err(Failure::File(format!("{}: {words}", path.display())));
    match bytes.len() {
        0 => wrong("it is empty: there is nothing to save".into()),
        n if n > SECTOR * blocks => {
            wrong(format!("it has more than the {} bytes of the disc's {}", grouped(SECTOR * blocks), counted(blocks, "block")))
        }
        n if packet && !n.is_multiple_of(PACKET_BYTES) => {
            wrong(format!("it has {}, no whole packets of 65,536, which --packet saves", counted(n, "byte")))
        }
        _ => Ok(bytes),
    }
}

impl Load {
    /// The bytes of all files, each filled up to whole blocks.
    fn bytes(&self) -> Vec<u8> {
        let mut all = Vec::new();
        for (_, bytes) in &self.files {
            all.extend_from_slice(bytes);
            all.resize(all.len().next_multiple_of(SECTOR), 0);
        }
        all
    }

    /// Which file goes to which blocks, from the first on, a line each.
    fn places(&self, mut first: u32) -> String {
        let mut text = String::new();
        for (path, bytes) in &self.files {
            let blocks = bytes.len().div_ceil(SECTOR);
            let last = first as usize + blocks - 1;
            let filled = match (SECTOR * blocks - bytes.len(), blocks) {
                (0, _) => String::new(),
                (zeros, 1) => format!(", filled up with {}", counted_zeros(zeros)),
                (zeros, _) => format!(", the last filled up with {}", counted_zeros(zeros)),
            };
            text.push_str(&format!("{}: {}{filled}\n", input_words(path), from_to(first as usize, last, "block")));
            first = first.saturating_add(blocks as u32);
        }
        text
    }
}

/// A file by its name, or the standard input.
fn input_words(path: &Path) -> String {
    if path.as_os_str() == "-" {
        "the standard input".to_string()
    } else {
        path.display().to_string()
    }
}

fn counted_zeros(n: usize) -> String {
    counted(n, "byte") + " of zeros"
}

/// Blocks that are saved together, with their commit, must all fit: where one does not, nothing is written. Tells what they take.
fn need_fit(open: &Open, first: u32, count: usize, commits: bool) -> Result<String, Failure> {
    let saves = (0..count as u32).map(|i| Asked::SaveVirtual(first.saturating_add(i)));
    let calls: Vec<Asked> = saves.chain(commits.then_some(Asked::Commit)).collect();
    match fit::ask(open.into(), |items| open.forecast(items), &calls)? {
        Told::Fits { next, .. } => Ok(fit::takes_words(open.into(), &calls, next)),
        Told::Stops { index: 0, words, why } => Err(Failure::Refused(words, why)),
        Told::Stops { index, words, why } => {
            let would_fit = format!("of {} the first {} would fit, and nothing was written", counted(count, "block"), grouped(index));
            Err(Failure::Refused(format!("{words}; {would_fit}"), why))
        }
    }
}

fn save_all(mut open: Open, load: &Load, out: &mut Outputs) -> Result<String, Failure> {
    let Load { packet, commits, cut, .. } = *load;
    let is_once = View::from(&open).is_write_once();
    let first = match load.word.as_str() {
        "new" if is_once => open.record().entries(),
        word => number(word).ok_or_else(|| Failure::Usage(format!("NUMBER: {word} is no block number")))?,
    };
    let unit = if packet { PACKET_BYTES } else { SECTOR };
    let bytes = load.bytes();
    let count = bytes.len() / unit;
    if is_once && !packet && count > 1 {
        out.line(need_fit(&open, first, count, commits)?);
        out.flush();
    }
    let mut progress = Progress::new("blocks saved");
    // the cut is in the last call that writes
    let cut_of = |is_last: bool| if is_last { cut } else { Cut::NONE };
    for (i, part) in bytes.chunks_exact(unit).enumerate() {
        let is_last = i + 1 == count && !(is_once && commits);
        let step = if packet { PACKET * i } else { i } as u32;
        let number = first.saturating_add(step);
        let cut = cut_of(is_last);
        let (answer, asked) = match (is_once, packet) {
            (true, false) => (open.save_virtual_cut(number, part, cut), Asked::SaveVirtual(number)),
            (false, false) => (open.save_block_cut(number, part, cut), Asked::SaveBlock(number)),
            (_, true) => (open.save_packet_cut(number, part, cut), Asked::SavePacket(number)),
        };
        answer.map_err(|error| refused::by_call(&open, asked, error))?;
        progress.tell(i, count);
    }
    drop(progress);
    let saved =
        format!("{}saved {} from {} on", load.places(first), counted(count, if packet { "packet" } else { "block" }), grouped(first));
    if !is_once {
        let replaced = from_to(first as usize, first as usize + bytes.len() / SECTOR - 1, "block");
        return Ok(format!("{saved}; what {replaced} had before is replaced"));
    }
    if !commits {
        return Ok(format!("{saved}; not committed, so an opening does not find it"));
    }
    Ok(format!("{saved}\n{}", commit_and_tell(&mut open, cut)?))
}

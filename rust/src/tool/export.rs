//! All blocks of a disc, as a commit left it, as files of a folder, with a list.

use super::args::Args;
use super::entry::{Choice, Entry, AT};
use super::images::load;
use super::output::Outputs;
use super::progress::Progress;
use super::states::{Block, Counts, View};
use super::verify::faults_of;
use super::words::{counted, grouped, parts};
use super::{commits, status, Done, Failure};
use std::fs::{self, File};
use std::io::{BufWriter, Write};
use std::path::Path;
use tuormik::{OpenRef, SECTOR};

const LIST: &str = "list.csv";
const ALL: &str = "blocks.bin";

pub const ENTRY: Entry = Entry {
    name: "export",
    line: "all blocks, as files of a folder",
    usage: &["IMAGE FOLDER [--runs | --one-file] [--at ICB]"],
    about: "\
Writes each block as a file into FOLDER, which must be empty or not there yet, and a list, list.csv, with each block's number, its \
logical block, its sector, its state, its file and its offset in that file. Blocks that are unused or of a spare are listed and \
skipped. So are those that are unreadable or blank (never recorded), and the export then ends with status 1: all others are exported. \
The list is written last: an export that was stopped leaves none.
",
    choices: &[
        Choice::flag("--runs", "a file for each run of blocks that follow each other and can be read: blocks-0000-0031.bin"),
        Choice::flag("--one-file", "all blocks that can be read one after the other in one file, blocks.bin"),
        AT,
    ],
    takes_volume: true,
    writes: None,
    run: export,
};

fn export(args: &mut Args, out: &mut Outputs) -> Done {
    let path = args.next_path("IMAGE")?;
    let folder = args.next_path("FOLDER")?;
    args.end()?;
    let layout = Layout::asked(args)?;
    let at = args.number("--at")?;
    let image = load(args, &path)?;
    let open = commits::open_at(&image, at, out)?;
    let view = View::from(&open);
    make_folder(&folder)?;
    let blocks: Vec<Block> = view.blocks().collect();
    let readable: Vec<Block> = blocks.iter().copied().filter(Block::is_readable).collect();
    let files = layout.files(&readable, blocks.len());
    write_all(&open, &folder, &files).map_err(not_whole)?;
    // the list comes last: a tool that was stopped leaves none
    image.write_output(&folder.join(LIST), list(&blocks, &files).as_bytes()).map_err(|error| not_whole(error.into()))?;
    out.line(told(blocks.into_iter().collect(), layout, files.len(), &folder));
    let faults: Vec<String> = faults_of(&view.runs()).collect();
    if faults.is_empty() {
        return Ok(());
    }
    out.say(format_args!("not all is exported: {}", faults.join("; ")));
    Failure::told(status::NO)
}

/// Which blocks share a file.
#[derive(Clone, Copy, PartialEq, Eq)]
enum Layout {
    FileABlock,
    Runs,
    OneFile,
}

impl Layout {
    fn asked(args: &Args) -> Result<Layout, Failure> {
        match (args.has("--runs"), args.has("--one-file")) {
            (true, true) => Err(Failure::Usage("--runs and --one-file exclude each other".into())),
            (true, false) => Ok(Layout::Runs),
            (false, true) => Ok(Layout::OneFile),
            (false, false) => Ok(Layout::FileABlock),
        }
    }

    /// The files for those blocks that can be read, of a disc of so many.
    fn files(self, readable: &[Block], count: usize) -> Vec<Part<'_>> {
        let groups: Vec<&[Block]> = match self {
            Layout::FileABlock => readable.chunks(1).collect(),
            Layout::Runs => readable.chunk_by(|a, b| a.number + 1 == b.number).collect(),
            Layout::OneFile => readable.chunks(readable.len().max(1)).collect(),
        };
        let digits = count.saturating_sub(1).to_string().len().max(4);
        groups.into_iter().map(|blocks| Part { name: self.name(blocks, digits), blocks }).collect()
    }

    fn name(self, blocks: &[Block], digits: usize) -> String {
        match (self, blocks) {
            (Layout::OneFile, _) | (_, []) => ALL.to_string(),
            (_, [block]) => format!("block-{:0digits$}.bin", block.number),
            (_, [first, .., last]) => format!("blocks-{:0digits$}-{:0digits$}.bin", first.number, last.number),
        }
    }
}

/// A file of the export, and the blocks that stand in it one after the other.
struct Part<'a> {
    name: String,
    blocks: &'a [Block],
}

/// Writes the files into the folder.
fn write_all(open: &OpenRef, folder: &Path, files: &[Part]) -> Done {
    let count = View::from(open).count() as usize;
    let mut progress = Progress::new("blocks exported");
    for Part { name, blocks } in files {
        let path = folder.join(name);
        let file = File::create_new(&path).map_err(|e| Failure::file(&path, &e))?;
        let written = write_blocks(open, blocks, file, &path, |number| progress.tell(number as usize, count));
        if written.is_err() {
            // what is half written is of no use
            let _ = fs::remove_file(&path);
        }
        written?;
    }
    Ok(())
}

/// Writes blocks one after the other to a file, and tells each.
fn write_blocks(open: &OpenRef, blocks: &[Block], file: File, path: &Path, mut tell: impl FnMut(u32)) -> Done {
    let mut file = BufWriter::new(file);
    let failed = |e| Failure::file(path, &e);
    for block in blocks {
        file.write_all(&commits::read(open, block.number)?).map_err(failed)?;
        tell(block.number);
    }
    file.flush().map_err(failed)
}

/// The failure of a file, with what it leaves of the export.
fn not_whole(failure: Failure) -> Failure {
    match failure {
        Failure::File(words) => Failure::File(format!("{words}; the export is not whole, and has no {LIST}")),
        other => other,
    }
}

/// The list: a line a block, with the file and the offset of those that have one.
fn list(blocks: &[Block], files: &[Part]) -> String {
    let in_files = files.iter().flat_map(|file| (0..file.blocks.len()).map(move |i| (&file.name, SECTOR * i)));
    let mut places = in_files.map(|(name, offset)| format!("{name},{offset}"));
    let mut text = "block,logical,sector,state,file,offset\n".to_string();
    for block in blocks {
        let place = if block.is_readable() { places.next() } else { None };
        text.push_str(&line(block, place.as_deref().unwrap_or(",")));
    }
    text
}

/// A block's line in the list, its numbers as scripts read them.
fn line(block: &Block, file_and_offset: &str) -> String {
    let (logical, sector) = match block.place {
        Some((logical, sector)) => (logical.to_string(), sector.to_string()),
        None => Default::default(),
    };
    format!("{},{logical},{sector},{},{file_and_offset}\n", block.number, block.state)
}

/// What was exported and what was skipped, in a line.
fn told(counts: Counts, layout: Layout, files: usize, folder: &Path) -> String {
    let skipped = parts(&[
        (counts.unused, "unused"),
        (counts.unreadable, "unreadable"),
        (counts.blank, "blank (never recorded)"),
        (counts.of_spare, "of spares"),
    ]);
    let also = if skipped.is_empty() { String::new() } else { format!("; skipped: {skipped}") };
    let within = if layout == Layout::FileABlock { String::new() } else { format!(" in {}", counted(files, "file")) };
    let (read, all) = (grouped(counts.recorded), counted(counts.all(), "block"));
    format!("exported {read} of {all}{within} to {}{also}; {LIST} lists all", folder.display())
}

/// A new folder, or one that is there and empty.
fn make_folder(folder: &Path) -> Done {
    let file = |e| Failure::file(folder, &e);
    match fs::create_dir(folder) {
        Err(e) if e.kind() == std::io::ErrorKind::AlreadyExists => {
            if fs::read_dir(folder).map_err(file)?.next().is_some() {
                return Err(Failure::File(format!("{}: the folder is not empty, and nothing in it is replaced", folder.display())));
            }
            Ok(())
        }
        other => other.map_err(file),
    }
}

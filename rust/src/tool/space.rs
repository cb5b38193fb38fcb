//! The free blocks of a rewritable disc by its space bitmap: told, found, taken and given back (document 02, slip 10).

use super::args::{missing, number, Args};
use super::bitmap::{longest, rows, Asked};
use super::commits::{open_and_tell, open_to_write};
use super::entry::{Choice, Entry, AS_IT_WAS, CUT};
use super::images::{finish, load, load_path_to_write};
use super::output::Outputs;
use super::refused;
use super::states::View;
use super::words::{are, counted, from_to, grouped, joined};
use super::{Done, Failure};
use std::ops::Range;
use std::path::Path;
use tuormik::descriptors::{find_space, Counted, Extent};
use tuormik::image::Image;
use tuormik::{read_maps, Bitmap, BitmapRef, Cut, Error, Maps, Open, PACKET, SECTOR};

pub const ENTRY: Entry = Entry {
    name: "space",
    line: "the free blocks of a rewritable disc: told, found, taken, given back",
    usage: &[
        "IMAGE",
        "IMAGE find COUNT [--near BLOCK]",
        "IMAGE take COUNT --near BLOCK",
        "IMAGE take FIRST COUNT",
        "IMAGE give-back FIRST COUNT",
    ],
    about: "\
Tells which blocks of a rewritable disc are free by the space bitmap that its partition descriptor names: how many, and each row, which \
is of free blocks that follow each other. A run is of COUNT blocks that do, all of a row or a part of it. Writers of files put that \
bitmap on a disc; 'tuormik make' does not.
  find                 tells the free run whose first block is nearest to BLOCK (0), the lower of two at equal distance
  take                 takes that run, or the one from block FIRST on: its blocks, all of them free before, are allocated then
  give-back            gives the run from block FIRST on back: its blocks, all of them allocated before, are free then
The run's blocks themselves are neither read nor written. The bitmap is read and saved through the layer, so that a packet of it may be spared; \
checksum and CRC of its tag are renewed, and of its blocks those alone are saved that change. The count of free blocks in the logical \
volume integrity descriptor is not renewed: 'tuormik space IMAGE' tells both. A cut counts the writes of all saves together, 32 for each \
block; a bitmap of several blocks may then be new in some and old in others, and is malformed (02, line 31) where its CRC covers them.
",
    choices: &[
        Choice { name: "--near", values: &["BLOCK"], words: "with find and take: the block to which the run's first block is nearest" },
        CUT,
    ],
    takes_volume: true,
    writes: AS_IT_WAS,
    run: space,
};

/// What a command line wants of the bitmap.
enum Wish {
    Tell,
    Find { count: u32, near: u32 },
    Change(Change),
}

/// A run that is to be taken or given back.
#[derive(Clone, Copy)]
enum Change {
    TakeNear { count: u32, near: u32 },
    Take { first: u32, count: u32 },
    GiveBack { first: u32, count: u32 },
}

impl Wish {
    /// What the words after the image ask for.
    fn new(args: &mut Args) -> Result<Wish, Failure> {
        let near = args.number("--near")?;
        let word = args.next_word().map(|word| word.to_string_lossy().into_owned());
        let wish = match (word.as_deref(), near) {
            (None, _) => Wish::Tell,
            (Some("find"), _) => Wish::Find { count: args.next_number("COUNT")?, near: near.unwrap_or(0) },
            (Some("take"), Some(near)) => Wish::Change(Change::TakeNear { count: args.next_number("COUNT")?, near }),
            (Some("take"), None) => {
                let (first, count) = run(args, "COUNT (or --near BLOCK, for the nearest run of so many)")?;
                Wish::Change(Change::Take { first, count })
            }
            (Some("give-back"), _) => {
                let (first, count) = run(args, "COUNT")?;
                Wish::Change(Change::GiveBack { first, count })
            }
            (Some(other), _) => return Err(Failure::Usage(format!("{other} is not find, take or give-back"))),
        };
        args.end()?;
        if args.has("--near") && matches!(wish, Wish::Tell | Wish::Change(Change::GiveBack { .. })) {
            return Err(Failure::Usage("--near goes with find and take".into()));
        }
        if args.has("--cut") && !matches!(wish, Wish::Change(_)) {
            return Err(Failure::Usage("--cut goes with take and give-back".into()));
        }
        Ok(wish)
    }
}

/// The first block and the length of a run.
fn run(args: &mut Args, count: &str) -> Result<(u32, u32), Failure> {
    let first = args.next_number("FIRST")?;
    let word = args.next_word().ok_or_else(|| missing(count))?;
    Ok((first, number(&word.to_string_lossy(), "COUNT")?))
}

fn space(args: &mut Args, out: &mut Outputs) -> Done {
    let path = args.next_path("IMAGE")?;
    let cut = args.cut()?;
    match Wish::new(args)? {
        Wish::Tell => look(args, &path, None, out),
        Wish::Find { count, near } => look(args, &path, Some((count, near)), out),
        Wish::Change(change) => {
            let mut image = load_path_to_write(args, &path, out)?;
            let place = Place::of(&image)?;
            let answer = open_to_write(&mut image).and_then(|open| change_it(open, place, change, cut));
            finish(&mut image, answer, cut, out)
        }
    }
}

/// Where the space bitmap of a disc is: in these logical blocks.
#[derive(Clone, Copy)]
struct Place {
    first: u32,
    blocks: u32,
    /// the free blocks by the integrity descriptor
    counted: Option<Counted>,
}

impl Place {
    /// As the descriptors of an image tell it.
    fn of(image: &Image) -> Result<Place, Failure> {
        if let Ok(Maps::WriteOnce { .. }) = read_maps(&image.volume.maps) {
            return Err(refused::other_kind("a space bitmap", true));
        }
        let wrong = Failure::File;
        let told = find_space(&image.bytes).map_err(|why| wrong(format!("{why}; so nothing tells where the space bitmap is")))?;
        let none = || wrong("the disc has no space bitmap: its partition descriptor names none".into());
        let Extent { length, block: first } = told.bitmap.ok_or_else(none)?;
        if length >> 30 != 0 {
            return Err(wrong(format!(
                "the disc has no space bitmap that was recorded: its extent has the length {length:#010x}, with one of the upper two bits set"
            )));
        }
        let (blocks, last) = (length.div_ceil(SECTOR as u32), u64::from(image.volume.length).saturating_sub(1));
        let end = u64::from(first) + u64::from(blocks) - 1;
        if end > last {
            return Err(wrong(format!(
                "the partition descriptor names {} as the space bitmap, and the last block of the partition is {}",
                from_to(first as usize, end as usize, "block"),
                grouped(last)
            )));
        }
        Ok(Place { first, blocks, counted: told.counted })
    }

    fn words(self) -> String {
        from_to(self.first as usize, self.first as usize + self.blocks as usize - 1, "block")
    }

    /// The bytes of its blocks, as an open disc reads them.
    fn read(self, view: View, read: impl Fn(u32) -> Result<[u8; SECTOR], Error>) -> Result<Vec<u8>, Failure> {
        let mut bytes = Vec::with_capacity(SECTOR * self.blocks as usize);
        for block in self.first..self.first + self.blocks {
            let part = read(block);
            bytes.extend_from_slice(&part.map_err(|error| of_its_block(view, refused::Asked::Read(block), error))?);
        }
        Ok(bytes)
    }
}

/// An answer of a call on a block of the bitmap.
fn of_its_block<'a>(open: impl Into<View<'a>>, asked: refused::Asked, error: Error) -> Failure {
    match refused::by_call(open, asked, error) {
        Failure::Refused(words, why) => Failure::Refused(format!("the space bitmap: {words}"), why),
        other => other,
    }
}

/// How many blocks of a run belong to spares inside the partition.
fn of_spares(view: View, run: &Range<u32>) -> usize {
    let start = view.disc.start as usize;
    let within = |packet: usize| (run.end as usize).min(packet + PACKET).saturating_sub((run.start as usize).max(packet));
    view.spares().filter_map(|spare| spare.sector.checked_sub(start)).map(within).sum()
}

/// A run in words, with what is to be known of it.
fn run_words(view: View, first: u32, count: u32) -> String {
    let run = first..first + count;
    let words = from_to(first as usize, run.end as usize - 1, "block");
    match of_spares(view, &run) {
        0 => words,
        n => format!("{words}, of which {} of a spare inside the partition, neither read nor saved", are(n)),
    }
}

/// How far a run's first block is from the block near which it was looked for, in words.
fn distance_words(first: u32, near: u32) -> String {
    match first.abs_diff(near) {
        0 => String::new(),
        far => format!(", {} from block {}", counted(far as usize, "block"), grouped(near)),
    }
}

/// Tells of the bitmap, or of the run of so many blocks that is nearest to a block.
fn look(args: &Args, path: &Path, nearest: Option<(u32, u32)>, out: &mut Outputs) -> Done {
    out.only_reads();
    let image = load(args, path)?;
    let place = Place::of(&image)?;
    let open = open_and_tell(&image, out)?;
    let view = View::from(&open);
    let bytes = place.read(view, |block| open.read(block))?;
    let bitmap = BitmapRef { bytes: &bytes, length: view.disc.length };
    match nearest {
        None => tell(view, place, bitmap, out),
        Some((count, near)) => {
            let found = bitmap.find(count, near);
            let first = found.map_err(|error| refused::by_bitmap(bitmap, Asked::Nearest { count, near }, error))?;
            out.line(format_args!("found {}{}", run_words(view, first, count), distance_words(first, near)));
            Ok(())
        }
    }
}

fn tell(view: View, place: Place, bitmap: BitmapRef, out: &mut Outputs) -> Done {
    let free = bitmap.free().map_err(|error| refused::by_bitmap(bitmap, Asked::Free, error))?;
    let rows = rows(bitmap);
    let mut lines = vec![("free", free_words(free, bitmap.length))];
    let spared: usize = rows.iter().map(|row| of_spares(view, row)).sum();
    if spared > 0 {
        lines.push(("of spares", format!("{} of the free ones, inside the partition, neither read nor saved", grouped(spared))));
    }
    if let Some(row) = longest(&rows) {
        let words = format!("{}, the longest {} from {} on", grouped(rows.len()), counted(row.len(), "block"), grouped(row.start));
        lines.push(("rows", words));
    }
    lines.push(("bitmap", place.words()));
    if let Some(counted) = place.counted {
        lines.push(("integrity", counted_words(free, counted)));
    }
    for (name, words) in lines {
        out.line(format_args!("{name:<12}  {words}"));
    }
    if !rows.is_empty() {
        out.line("   first       last     blocks");
    }
    for row in rows {
        out.line(format_args!("{:>8}   {:>8}   {:>8}", grouped(row.start), grouped(row.end - 1), grouped(row.len())));
    }
    Ok(())
}

fn free_words(free: u32, length: u32) -> String {
    format!("{} of {}", grouped(free), counted(length as usize, "block"))
}

/// What the integrity descriptor has beside the bitmap's count.
fn counted_words(free: u32, Counted { sector, free: by_it }: Counted) -> String {
    let has = format!("{} free by the integrity descriptor (sector {})", grouped(by_it), grouped(sector));
    match by_it.abs_diff(free) {
        0 => has,
        n if by_it > free => format!("{has}, {} more than by the bitmap", grouped(n)),
        n => format!("{has}, {} fewer than by the bitmap", grouped(n)),
    }
}

/// Changes the bitmap, and saves the blocks of it that changed.
fn change_it(mut open: Open, place: Place, change: Change, cut: Cut) -> Result<String, Failure> {
    let was = place.read(View::from(&open), |block| open.read(block))?;
    let length = open.disc().length;
    let mut bytes = was.clone();
    let mut bitmap = Bitmap { bytes: &mut bytes, length };
    let turned_down = |asked: Asked, error: Error| refused::by_bitmap(BitmapRef { bytes: &was, length }, asked, error);
    let done = match change {
        Change::TakeNear { count, near } => {
            let taken = bitmap.take_near(count, near);
            let first = taken.map_err(|error| turned_down(Asked::Nearest { count, near }, error))?;
            format!("took {}{}", run_words(View::from(&open), first, count), distance_words(first, near))
        }
        Change::Take { first, count } => {
            bitmap.take(first, count).map_err(|error| turned_down(Asked::Take { first, count }, error))?;
            format!("took {}", run_words(View::from(&open), first, count))
        }
        Change::GiveBack { first, count } => {
            bitmap.give_back(first, count).map_err(|error| turned_down(Asked::GiveBack { first, count }, error))?;
            format!("gave back {}", run_words(View::from(&open), first, count))
        }
    };
    let free = bitmap.free().map_err(|error| turned_down(Asked::Free, error))?;
    let saved = save_changed(&mut open, place, &was, &bytes, cut)?;
    Ok(format!("{done}\nfree: {}; saved {saved} of the bitmap", free_words(free, length)))
}

/// Saves the blocks of a bitmap that changed, and gives them in words. The writes of all saves are counted together, for the cut.
fn save_changed(open: &mut Open, place: Place, was: &[u8], bytes: &[u8], cut: Cut) -> Result<String, Failure> {
    let parts = || was.chunks_exact(SECTOR).zip(bytes.chunks_exact(SECTOR)).zip(place.first..);
    let changed: Vec<(u32, &[u8])> = parts().filter(|((old, new), _)| old != new).map(|((_, new), block)| (block, new)).collect();
    let blocks: Vec<String> = changed.iter().map(|(block, _)| grouped(*block)).collect();
    let words = format!("block{} {}", if blocks.len() == 1 { "" } else { "s" }, joined(&blocks));
    let mut writes = 0;
    for (block, part) in changed {
        let cut_here = match cut.at.checked_sub(writes) {
            Some(at) if at <= PACKET as u32 => Cut { at, ..cut },
            _ => Cut::NONE,
        };
        open.save_block_cut(block, part, cut_here).map_err(|error| {
            match of_its_block(&*open, refused::Asked::SaveBlock(block), error) {
                Failure::Cut(_) if blocks.len() > 1 => {
                    Failure::Cut(format!("the saves of {words} of the space bitmap, in that of block {}", grouped(block)))
                }
                Failure::Cut(call) => Failure::Cut(format!("{call} of the space bitmap")),
                other => other,
            }
        })?;
        writes += PACKET as u32;
    }
    Ok(words)
}

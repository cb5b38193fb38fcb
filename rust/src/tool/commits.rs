//! A disc opened, as it is now or as a commit of the past left it, and the chain of its commits.

use super::output::Outputs;
use super::passed::Passed;
use super::progress::{Progress, Waiting};
use super::refused::{self, Asked};
use super::states::{Block, View};
use super::words::{counted, grouped, joined};
use super::Failure;
use tuormik::image::Image;
use tuormik::{read_maps, Cut, DiscRef, Error, Held, Maps, Open, OpenRef, Record, Refusal, SECTOR};

/// Opens a disc; a line tells of an opening that takes longer than a second.
fn open_patiently(disc: DiscRef<'_>) -> Result<OpenRef<'_>, Error> {
    let _waiting = Waiting::new("opening the disc".to_string());
    disc.open()
}

/// Opens the disc of an image to read it; a refusal says what was found instead.
pub fn open(image: &Image) -> Result<OpenRef<'_>, Failure> {
    let disc = image.to_read();
    open_patiently(disc).map_err(|error| refused::by_opening(disc, error))
}

/// Opens it and says what was passed over.
pub fn open_and_tell<'a>(image: &'a Image, out: &mut Outputs) -> Result<OpenRef<'a>, Failure> {
    let open = open(image)?;
    Passed::new((&open).into(), image.file_sectors()).warn(image.name(), out);
    Ok(open)
}

/// Opens it to write it.
pub fn open_to_write(image: &mut Image) -> Result<Open<'_>, Failure> {
    let open = open(image)?;
    let (table, record) = (open.table().to_vec(), open.record());
    Ok(Open::resume(image.disc(), &table, record))
}

/// Opens it to save and commit, and says what was passed over. Where a newer VAT may be among that, only who insists goes on.
pub fn open_to_commit<'a>(image: &'a mut Image, is_forced: bool, out: &mut Outputs) -> Result<Open<'a>, Failure> {
    let passed = Passed::new((&open(image)?).into(), image.file_sectors());
    passed.need_force(image.name(), is_forced, out)?;
    open_to_write(image)
}

/// Commits, and says what the disc has come to.
pub fn commit_and_tell(open: &mut Open, cut: Cut) -> Result<String, Failure> {
    open.commit_cut(cut).map_err(|error| refused::by_call(&*open, Asked::Commit, error))?;
    Ok(match open.record().held {
        Held::WriteOnce { entries, next, last } => {
            format!("committed: N {}, NWA {}, last ICB {}", grouped(entries), grouped(next), grouped(last))
        }
        _ => String::new(),
    })
}

/// Opens a disc as the commit left it whose VAT ICB is at a logical block, or as it is where none is named.
pub fn open_at<'a>(image: &'a Image, icb: Option<u32>, out: &mut Outputs) -> Result<OpenRef<'a>, Failure> {
    let Some(icb) = icb else {
        return open_and_tell(image, out);
    };
    let found = chain(image)?;
    if !found.iter().any(|commit| commit.icb == icb) {
        return Err(no_commit(&found, icb));
    }
    open_as_of(image, icb)
}

/// Opens a disc as of the commit whose VAT ICB is at a logical block: all above it is out of the partition, so it is its last sector.
pub fn open_as_of(image: &Image, icb: u32) -> Result<OpenRef<'_>, Failure> {
    let disc = DiscRef { length: icb.saturating_add(1), ..image.to_read() };
    open_patiently(disc).map_err(|error| refused::by_opening(disc, error))
}

fn no_commit(found: &[Commit], icb: u32) -> Failure {
    const MOST: usize = 8;
    let mut places: Vec<String> = found.iter().take(MOST).map(|commit| grouped(commit.icb)).collect();
    if found.len() > MOST {
        places.push(format!("{} more", grouped(found.len() - MOST)));
    }
    Failure::File(format!(
        "no commit has its VAT ICB at block {}: the disc has {}, at {}",
        grouped(icb),
        counted(found.len(), "commit"),
        joined(&places)
    ))
}

/// A commit of a write-once disc.
pub struct Commit {
    /// The logical block of its VAT ICB.
    pub icb: u32,
    /// The record of an opening whose partition ends below the next commit.
    pub record: Record,
}

impl Commit {
    /// Its block, its sector, its number of blocks, and the sectors between it and the next, as they are printed.
    pub fn numbers(&self, start: u32) -> [String; 4] {
        let sector = u64::from(start) + u64::from(self.icb);
        [grouped(self.icb), grouped(sector), grouped(self.record.entries()), grouped(self.record.passed_over)]
    }
}

/// The commits of a write-once disc, the newest first: each is found by opening again with L cut to the ICB of the one before.
pub fn chain(image: &Image) -> Result<Vec<Commit>, Failure> {
    if let Ok(Maps::Rewritable { .. }) = read_maps(&image.volume.maps) {
        return Err(refused::other_kind("a history of commits", false));
    }
    let mut found = Vec::new();
    let mut length = image.volume.length;
    let mut progress = Progress::new("commits found");
    loop {
        let disc = DiscRef { length, ..image.to_read() };
        let record = match open_patiently(disc) {
            Ok(open) => open.record(),
            Err(Error::Refused(Refusal::NoTable)) if !found.is_empty() => return Ok(found),
            Err(error) => return Err(refused::by_opening(disc, error)),
        };
        let Held::WriteOnce { last: icb, .. } = record.held else {
            return Ok(found);
        };
        found.push(Commit { icb, record });
        progress.tell(found.len(), found.len());
        if icb == 0 {
            return Ok(found);
        }
        length = icb;
    }
}

/// The bytes of a block; a refusal says why it has none.
pub fn read(open: &OpenRef, number: u32) -> Result<[u8; SECTOR], Failure> {
    open.read(number).map_err(|error| refused::by_call(open, Asked::Read(number), error))
}

/// Reads every block that the table and the marks call readable.
pub fn read_all(open: &OpenRef) -> Result<(), Failure> {
    let view = View::from(open);
    let mut progress = Progress::new("blocks read");
    for block in view.blocks().filter(Block::is_readable) {
        read(open, block.number)?;
        progress.tell(block.number as usize, view.count() as usize);
    }
    Ok(())
}

//! What an opening passed over above the last VAT ICB, and what to do about it.

use super::commits;
use super::output::Outputs;
use super::states::View;
use super::words::{from_to, grouped};
use super::{found, Done, Failure};
use std::path::Path;
use tuormik::image::Image;
use tuormik::{possible_icbs, Held};

/// What an opening passed over.
pub struct Passed {
    pub count: u32,
    /// What the sectors have, in words.
    pub words: String,
    /// The highest place that may have a newer VAT than the one that was found.
    pub possible: Option<Possible>,
    /// The sectors, in words.
    sectors: String,
}

/// A place that may have a newer VAT.
pub enum Possible {
    /// A block that was passed over, with its sector and what it has.
    Block { block: u32, sector: usize, has: String },
    /// A sector that the image file does not have: it ends with what was passed over, before the partition does.
    CutOff { sector: usize },
}

impl Possible {
    fn words(&self) -> String {
        match self {
            Possible::Block { block, sector, has } => {
                format!("block {} (sector {}) {has}: it may be a newer VAT", grouped(*block), grouped(*sector))
            }
            Possible::CutOff { sector } => {
                format!("the image file ends before sector {}, and with it a newer VAT may have been cut off", grouped(*sector))
            }
        }
    }

    /// The block, where the image has it.
    pub fn block(&self) -> Option<u32> {
        match self {
            Possible::Block { block, .. } => Some(*block),
            Possible::CutOff { .. } => None,
        }
    }
}

impl Passed {
    /// What the opening passed over that gave the record; the image file has so many sectors.
    pub fn new(View { disc, record, .. }: View, file_sectors: usize) -> Passed {
        let Held::WriteOnce { next, last, .. } = record.held else {
            return Passed { count: 0, words: String::new(), possible: None, sectors: String::new() };
        };
        let start = disc.start as usize;
        let (from, to) = (start + last as usize + 1, start + next as usize);
        let in_disc = possible_icbs(disc.bytes, disc.marks, disc.start, record).last().map(|&block| {
            let sector = start + block as usize;
            Possible::Block { block, sector, has: found::possible_words(disc, sector) }
        });
        let is_cut_off = from < to && to == file_sectors && file_sectors < start + disc.length as usize;
        let possible = in_disc.or(is_cut_off.then_some(Possible::CutOff { sector: to }));
        Passed {
            count: record.passed_over,
            words: found::passed_over(disc, from, to),
            possible,
            sectors: from_to(from, to.saturating_sub(1).max(from), "sector"),
        }
    }

    /// A warning where something was passed over.
    pub fn warning(&self) -> Option<String> {
        let were = if self.count == 1 { "was" } else { "were" };
        let passed = format!("{} {were} passed over above the last VAT ICB: {}", self.sectors, self.words);
        let may_be = match &self.possible {
            Some(possible) => possible.words(),
            None => "blocks saved and not committed, or a write that was cut".to_string(),
        };
        (self.count > 0).then(|| format!("{passed}; {may_be}"))
    }

    /// Says the warning of an image, if there is one.
    pub fn warn(&self, image: &Path, out: &mut Outputs) {
        if let Some(words) = self.warning() {
            out.say(format_args!("warning: {}: {words}", image.display()));
        }
    }

    /// Writing to a disc on which a VAT that may be newer was passed over needs --force, and says what is left behind.
    pub fn need_force(&self, image: &Path, is_forced: bool, out: &mut Outputs) -> Done {
        match &self.possible {
            Some(_) if !is_forced => Err(Failure::File(format!(
                "{}: {}\nWhat is written goes by the older VAT, and a commit ends the disc with it; on a CD-R that cannot be undone. \
                 --force goes on all the same",
                image.display(),
                self.warning().unwrap_or_default()
            ))),
            Some(_) => {
                self.warn(image, out);
                out.say("--force: what was passed over is left behind, and is no longer looked at after the next commit");
                Ok(())
            }
            None => {
                self.warn(image, out);
                Ok(())
            }
        }
    }
}

/// Says what an opening of the image passes over, where it opens.
pub fn tell(image: &Image, out: &mut Outputs) -> Done {
    match commits::open_and_tell(image, out) {
        Ok(_) | Err(Failure::Refused(..)) => Ok(()),
        Err(other) => Err(other),
    }
}

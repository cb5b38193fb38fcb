//! A shelf of images, gone through: a line an image, and what each comes to.

use super::args::Args;
use super::commits::{self, Commit};
use super::entry::{Choice, Entry};
use super::images::{images, load, load_without_volume};
use super::json::Json;
use super::output::Outputs;
use super::progress::Progress;
use super::states::{Run, State, View};
use super::summary::Summary;
use super::words::{counted, from_to, grouped, parts};
use super::zeros::Zeros;
use super::{found, status, Done, Failure};
use std::path::Path;
use tuormik::descriptors::anchor_places;
use tuormik::image::Image;
use tuormik::{Refusal, UNREADABLE};

pub const ENTRY: Entry = Entry {
    name: "verify",
    line: "whether images are clean, damaged, or of another format",
    usage: &["IMAGE.. [--history] [--json]"],
    about: "\
Opens the disc of each image and reads every block that is used. A line an image says what it comes to, and why:
  clean                       all that is used can be read (status 0)
  DAMAGED                     opening passed over sectors above the last commit; blocks that are used cannot be read (they are \
unreadable), or were never recorded (they are blank); a copy of the sparing table is not current; no VAT, or no sparing table, can be \
read any more; descriptors that lead to the volume are lost (status 1)
  CANNOT BE OPENED            the file cannot be read, or this layer cannot open its disc (status 2)
  NOT A DISC OF THIS FORMAT   it is something else, and what, where that can be told (status 5)
That blocks belong to spares inside the partition is no fault: they are not read, and counted apart. Nor are blocks of zeros, but where \
there is no marks file a warning tells of them: they may be sectors that were not read. The last line counts the images. \
Of several images the highest status is given.
",
    choices: &[
        Choice::flag("--history", "looks at older commits too: which of them have a block that can no longer be read"),
        Choice::flag("--json", "a JSON list with an object an image"),
    ],
    takes_volume: true,
    writes: None,
    run: verify,
};

/// What an image comes to.
#[derive(Clone, Copy, Debug, PartialEq, Eq)]
pub enum Standing {
    Clean,
    /// Something that was written is not found, or cannot be read.
    Damaged,
    /// The file cannot be read, or its disc cannot be opened.
    Unopened,
    /// It is no disc of this format.
    OtherFormat,
}

/// Each with its words and the status.
const STANDINGS: [(Standing, &str, u8); 4] = [
    (Standing::Clean, "clean", status::DONE),
    (Standing::Damaged, "damaged", status::NO),
    (Standing::Unopened, "cannot be opened", status::WRONG),
    (Standing::OtherFormat, "not a disc of this format", status::OTHER_FORMAT),
];

impl Standing {
    fn words(self) -> &'static str {
        STANDINGS[self as usize].1
    }

    fn status(self) -> u8 {
        STANDINGS[self as usize].2
    }

    /// What an image comes to whose disc is turned down by a line.
    fn of_refusal(image: &Image, why: Refusal) -> Standing {
        match why {
            Refusal::MapCut | Refusal::NeitherKind | Refusal::Misaligned => Standing::OtherFormat,
            Refusal::NoTable if found::has_other_vat(image.to_read()) => Standing::OtherFormat,
            Refusal::NoTable if found::is_blank(image.to_read()) => Standing::Unopened,
            Refusal::NoTable | Refusal::CopiesDiffer => Standing::Damaged,
            _ => Standing::Unopened,
        }
    }
}

/// What there is to say of an image: what it comes to, in a few words what it is, what is wrong with it, and what may be.
pub struct Verdict {
    pub standing: Standing,
    pub gist: String,
    pub faults: Vec<String>,
    pub warnings: Vec<String>,
}

impl Verdict {
    fn new(standing: Standing, fault: String) -> Verdict {
        Verdict { standing, gist: String::new(), faults: vec![fault], warnings: Vec::new() }
    }

    pub fn is_clean(&self) -> bool {
        self.standing == Standing::Clean
    }

    pub fn words(&self) -> String {
        match self.standing {
            Standing::Clean => format!("clean: {}", self.gist),
            other => format!("{}: {}", other.words().to_uppercase(), self.faults.join("; ")),
        }
    }

    fn json(&self, path: &Path) -> Json {
        Json::Object(vec![
            ("image", Json::text(path.to_string_lossy())),
            ("verdict", Json::text(self.standing.words())),
            ("status", Json::number(self.standing.status())),
            ("disc", if self.gist.is_empty() { Json::None } else { Json::text(&self.gist) }),
            ("faults", Json::List(self.faults.iter().map(Json::text).collect())),
            ("warnings", Json::List(self.warnings.iter().map(Json::text).collect())),
        ])
    }
}

fn verify(args: &mut Args, out: &mut Outputs) -> Done {
    let paths = images(args)?;
    let (is_json, mut objects, mut standings) = (args.has("--json"), Vec::new(), Vec::new());
    let widest = paths.iter().map(|path| path.to_string_lossy().chars().count()).max().unwrap_or(0);
    let mut progress = Progress::new("images verified");
    for (i, path) in paths.iter().enumerate() {
        progress.tell(i, paths.len());
        let verdict = verdict_of(args, path)?;
        standings.push(verdict.standing);
        progress.clear();
        if is_json {
            objects.push(verdict.json(path));
        } else {
            out.line(format_args!("{:<widest$}  {}", path.to_string_lossy(), verdict.words()));
            for words in &verdict.warnings {
                out.line(format_args!("{:<widest$}  warning: {words}", ""));
            }
            out.flush();
        }
    }
    if is_json {
        out.line(Json::List(objects));
    } else {
        out.line(counts(&standings));
    }
    Failure::told(standings.iter().map(|standing| standing.status()).max().unwrap_or(status::DONE))
}

/// How many images there are of each standing.
pub fn counts(standings: &[Standing]) -> String {
    let counts = STANDINGS.map(|(standing, words, _)| (standings.iter().filter(|&&s| s == standing).count(), words));
    format!("{}: {}", counted(standings.len(), "image"), parts(&counts))
}

/// What there is to say of the image of a path, also where it cannot be loaded.
pub fn verdict_of(args: &Args, path: &Path) -> Result<Verdict, Failure> {
    let verdict = load(args, path).and_then(|image| verdict(&image, args.has("--history")));
    let failure = match verdict {
        Err(failure) if failure.is_of_image() => failure,
        other => return other,
    };
    let standing = match failure {
        Failure::NoVolume(_) => match unreadable_anchor(args, path) {
            Some(sector) => return Ok(Verdict::new(Standing::Damaged, anchor_words(sector))),
            None => Standing::OtherFormat,
        },
        Failure::LostVolume(_) => Standing::Damaged,
        _ => Standing::Unopened,
    };
    Ok(Verdict::new(standing, without_name(&failure.words(), path)))
}

/// A sector in which an anchor may stand, and that cannot be read.
fn unreadable_anchor(args: &Args, path: &Path) -> Option<usize> {
    let image = load_without_volume(args, path).ok()?;
    anchor_places(image.marks.len()).find(|&at| image.marks.get(at) == Some(&UNREADABLE))
}

fn anchor_words(sector: usize) -> String {
    format!("no volume is found, and sector {}, where an anchor volume descriptor pointer may stand, cannot be read", grouped(sector))
}

/// What is said of a file, without the name that the line has already.
fn without_name(words: &str, path: &Path) -> String {
    match words.split_once(": ") {
        Some((named, rest)) if Path::new(named).file_name() == path.file_name() => rest.to_string(),
        _ => words.to_string(),
    }
}

/// Clean is a disc that opens, passes over nothing, and has every block that is used, and every copy of its sparing table; with its history,
/// also every block that an older commit used.
pub fn verdict(image: &Image, with_history: bool) -> Result<Verdict, Failure> {
    let summary = Summary::new(image)?;
    let warnings = summary.zeros.iter().filter_map(Zeros::warning).collect();
    let opened = match summary.opened {
        Ok(opened) => opened,
        Err((words, why)) => return Ok(Verdict::new(Standing::of_refusal(image, why), format!("{words} ({})", why.place()))),
    };
    let mut faults = opened.faults();
    let open = commits::open(image)?;
    commits::read_all(&open)?;
    faults.extend(faults_of(&View::from(&open).runs()));
    if with_history && View::from(&open).is_write_once() {
        faults.extend(history_faults(image)?);
    }
    let standing = if faults.is_empty() { Standing::Clean } else { Standing::Damaged };
    Ok(Verdict { standing, gist: opened.gist(), faults, warnings })
}

/// The blocks that cannot be read, or were never recorded.
pub fn faults_of(runs: &[Run]) -> impl Iterator<Item = String> {
    let unreadable = state_words(runs, State::Unreadable, ["cannot be read", "cannot be read"]);
    let blank = state_words(runs, State::Blank, ["was never recorded", "were never recorded"]);
    unreadable.into_iter().chain(blank)
}

/// What is wrong with the commits before the last.
fn history_faults(image: &Image) -> Result<Vec<String>, Failure> {
    let mut faults = Vec::new();
    for Commit { icb, .. } in commits::chain(image)?.iter().skip(1) {
        let open = commits::open_as_of(image, *icb)?;
        let runs = View::from(&open).runs();
        faults.extend(faults_of(&runs).map(|fault| format!("as of the commit at block {}, {fault}", grouped(*icb))));
    }
    Ok(faults)
}

/// The blocks that are in a state, if there are any, with what is to be said of one and of several.
fn state_words(runs: &[Run], state: State, [one, several]: [&str; 2]) -> Option<String> {
    const MOST: usize = 4;
    let those: Vec<&Run> = runs.iter().filter(|run| run.first.state == state).collect();
    let count: usize = those.iter().map(|run| run.count).sum();
    let mut words: Vec<String> = those.iter().take(MOST).map(|run| run_words(run)).collect();
    if those.len() > MOST {
        let told: usize = those.iter().take(MOST).map(|run| run.count).sum();
        words.push(format!("{} more", grouped(count - told)));
    }
    let are = if count == 1 { one } else { several };
    (count > 0).then(|| format!("{} {are}: {}", counted(count, "block"), words.join(", ")))
}

fn run_words(run: &Run) -> String {
    let sector = run.first.place.map_or(0, |(_, sector)| sector);
    let blocks = from_to(run.first.number as usize, run.last(), "block");
    format!("{blocks} ({}, {})", from_to(sector, sector + run.count - 1, "sector"), run.first.state)
}

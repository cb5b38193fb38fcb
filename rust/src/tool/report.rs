//! A page about discs, to be filed with their images: of each whether it is clean, by which files that is known, what it is, its picture,
//! its history and its blocks.

use super::args::Args;
use super::commits::{self, Commit};
use super::entry::{Choice, Entry};
use super::evidence::{file_name, put_files, put_files_on_disk};
use super::images::{images, load};
use super::output::Outputs;
use super::page::{self, escaped, is_long, Body, Fact, Row};
use super::picture::Picture;
use super::progress::Progress;
use super::states::{Run, State, View};
use super::summary::Summary;
use super::verify::{self, Standing, Verdict};
use super::words::{counted, from_to};
use super::{date, status, version, Done, Failure};
use std::path::{Path, PathBuf};
use tuormik::image::{need_output, write_file, Image};

pub const ENTRY: Entry = Entry {
    name: "report",
    line: "a page about discs, to be filed with them",
    usage: &["IMAGE.. [--output FILE]"],
    about: "\
Writes a page (HTML, whole in itself) to the standard output or to FILE: of each image what 'tuormik verify' says, name, length, date and \
SHA-256 of the image and of its marks file, what 'tuormik info' tells, its picture, its history and its blocks. Several images have a \
line each at the top, which leads to the image's part. An image that cannot be loaded has its part too, which says why, and the status \
is then 2.
The page tells when it was made: at this moment, or at the time that the environment's SOURCE_DATE_EPOCH gives in seconds from 1970 on, \
so that a page can be made twice alike.
",
    choices: &[Choice { name: "--output", values: &["FILE"], words: "where the page goes" }],
    takes_volume: true,
    writes: None,
    run: report,
};

fn report(args: &mut Args, out: &mut Outputs) -> Done {
    let paths = images(args)?;
    if let Some(output) = args.path("--output") {
        for path in &paths {
            need_output(output, path, args.path("--marks"))?;
        }
    }
    let made = format!("Report of {}, made by {}", date::utc(date::of_making()?), version());
    let (shelf, status) = Shelf::new(args, &paths, out)?;
    let page = shelf.page(&made);
    match args.path("--output") {
        Some(path) => write_file(path, page.as_bytes())?,
        None => out.text(page),
    }
    Failure::told(status)
}

/// What a page has: a part an image.
struct Shelf {
    parts: Vec<Part>,
}

/// What a page has of an image.
struct Part {
    path: PathBuf,
    verdict: Verdict,
    /// Whether the image could be loaded.
    has_disc: bool,
    /// What an opening passed over, where it did.
    warning: Option<String>,
    body: Body,
}

impl Shelf {
    /// The parts of the images, and the status: an image that cannot be loaded does not keep the others from being told of.
    fn new(args: &Args, paths: &[PathBuf], out: &mut Outputs) -> Result<(Shelf, u8), Failure> {
        let (mut parts, mut status) = (Vec::new(), status::DONE);
        let is_one = paths.len() == 1;
        let mut progress = Progress::new("images told of");
        for (i, path) in paths.iter().enumerate() {
            progress.tell(i, paths.len());
            // a page of one image has its name as its heading
            let body = Body::new(if is_one { 2 } else { 3 });
            let part = match load(args, path) {
                Ok(image) => Part::new(path, &image, body)?,
                Err(failure) if failure.is_of_image() => {
                    progress.clear();
                    status = status.max(failure.tell(out));
                    Part::of_none(args, path, body)?
                }
                Err(other) => return Err(other),
            };
            if let Some(words) = &part.warning {
                progress.clear();
                out.say(format_args!("warning: {}: {words}", path.display()));
            }
            parts.push(part);
        }
        Ok((Shelf { parts }, status))
    }

    fn page(self, made: &str) -> String {
        let is_one = self.parts.len() == 1;
        let title = match &self.parts[..] {
            [part] => file_name(&part.path),
            parts => counted(parts.len(), "image"),
        };
        let mut body = Body::new(1);
        body.put_heading(&title);
        body.put_words_as("made", made);
        if !is_one {
            self.put_lines(&mut body);
        }
        for (i, part) in self.parts.into_iter().enumerate() {
            part.put(&mut body, i + 1, !is_one);
        }
        page::whole(&format!("Report on {title}"), body)
    }

    /// A line an image, which leads to its part, and how many there are of each standing.
    fn put_lines(&self, body: &mut Body) {
        body.put(
            "<table class=\"shelf\" id=\"shelf\">\n<thead><tr><th scope=\"col\">image</th><th scope=\"col\">state</th></tr></thead>\n",
        );
        body.put("<tbody>\n");
        for (i, Part { path, verdict, .. }) in self.parts.iter().enumerate() {
            let class = if verdict.is_clean() { "" } else { " class=\"lost\"" };
            let (link, words) = (escaped(&path.to_string_lossy()), escaped(&verdict.words()));
            body.put(format!("<tr{class}><td><a href=\"#image-{}\">{link}</a></td><td>{words}</td></tr>\n", i + 1));
        }
        body.put("</tbody>\n</table>\n");
        let standings: Vec<Standing> = self.parts.iter().map(|part| part.verdict.standing).collect();
        body.put_words(&verify::counts(&standings));
    }
}

impl Part {
    fn new(path: &Path, image: &Image, mut body: Body) -> Result<Part, Failure> {
        let verdict = verify::verdict(image, false)?;
        let summary = Summary::new(image)?;
        let warning = summary.opened.as_ref().ok().and_then(|opened| opened.passed()).and_then(|passed| passed.warning());
        put_files(&mut body, path, image);
        body.put_heading("The disc");
        let facts: Vec<Fact> = summary.lines().into_iter().map(|(name, words)| Fact::new(name, words)).collect();
        body.put_facts(&facts);
        match &summary.opened {
            Ok(_) => put_open(&mut body, image)?,
            Err((words, why)) => put_picture(&mut body, &Picture::of_marks(image, format!("{words} ({})", why.place()))),
        }
        Ok(Part { path: path.to_owned(), verdict, has_disc: true, warning, body })
    }

    /// The part of an image that cannot be loaded: why it cannot, and its files as far as they can be read.
    fn of_none(args: &Args, path: &Path, mut body: Body) -> Result<Part, Failure> {
        put_files_on_disk(&mut body, path, args.path("--marks"));
        Ok(Part { path: path.to_owned(), verdict: verify::verdict_of(args, path)?, has_disc: false, warning: None, body })
    }

    /// Puts the part at its place, under its name where it is one of several.
    fn put(self, body: &mut Body, place: usize, is_named: bool) {
        let class = if self.has_disc { " class=\"disc\"" } else { "" };
        body.put(format!("<section{class} id=\"image-{place}\">\n"));
        if is_named {
            let mut named = Body::new(2);
            named.put_heading(&file_name(&self.path));
            body.put_all(named);
        }
        body.put_words_as(if self.verdict.is_clean() { "verdict" } else { "verdict bad" }, &self.verdict.words());
        body.put_all(self.body);
        if is_named {
            body.put("<p class=\"back\"><a href=\"#shelf\">All images</a></p>\n");
        }
        body.put("</section>\n");
    }
}

fn put_picture(body: &mut Body, picture: &Picture) {
    body.put_heading("The picture");
    body.put_words(match picture.from_marks {
        Some(_) => "Each field is a sector, as the marks tell it: the disc is turned down.",
        None => "Each field is a sector; the numbers at the left are the first sectors of their rows.",
    });
    body.put(picture.figure());
}

/// The picture of a disc that opens, the history of a write-once one, and the blocks of either.
fn put_open(body: &mut Body, image: &Image) -> Done {
    let open = commits::open(image)?;
    let view = View::from(&open);
    let found = if view.is_write_once() { commits::chain(image)? } else { Vec::new() };
    put_picture(body, &Picture::of_open(image, view, &found));
    if view.is_write_once() {
        put_history(body, &found, image.volume.start);
    }
    put_blocks(body, &view.runs());
    Ok(())
}

fn put_history(body: &mut Body, found: &[Commit], start: u32) {
    body.put_heading("History");
    body.put_words(
        "The commits, the newest first. Each has a VAT (virtual allocation table: where each block is) and its ICB (information control \
         block: where that VAT is), which is written last.",
    );
    let heads = ["VAT ICB, from S", "its sector", "blocks", "sectors between it and the next"];
    let rows: Vec<Row> = found.iter().map(|commit| Row::new(commit.numbers(start))).collect();
    body.put_long_table("commit", &heads, &rows);
}

/// The blocks, by runs. Where these are many, those that are lost stand before them too.
fn put_blocks(body: &mut Body, runs: &[Run]) {
    const HEADS: [&str; 3] = ["blocks", "where", "state"];
    body.put_heading("Blocks");
    if runs.is_empty() {
        return body.put_words("The disc has no blocks yet.");
    }
    let rows: Vec<Row> = runs.iter().map(run_row).collect();
    let lost: Vec<Row> = rows.iter().filter(|row| row.is_lost).cloned().collect();
    if is_long(&rows) && !lost.is_empty() {
        body.put_words("Those that cannot be read or were never recorded:");
        body.put_long_table("run", &HEADS, &lost);
        body.put_words("All:");
    }
    body.put_long_table("run", &HEADS, &rows);
}

/// A run of blocks; what is lost has a sign, so that it is seen without colours.
fn run_row(run: &Run) -> Row {
    let place = run.first.place.map_or("-".to_string(), |(_, sector)| from_to(sector, sector + run.count - 1, "sector"));
    let (sign, also) = match run.first.state {
        State::Unreadable => ("\u{25b2} ", ""),
        State::Blank => ("\u{25b3} ", " (never recorded)"),
        _ => ("", ""),
    };
    let cells = [from_to(run.first.number as usize, run.last(), "block"), place, format!("{sign}{}{also}", run.first.state)];
    Row { cells: cells.into(), is_lost: !sign.is_empty() }
}

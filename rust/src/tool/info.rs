//! What kind of disc each image has, and how full it is.

use super::args::Args;
use super::entry::{Choice, Entry};
use super::images::{images, load};
use super::json::Json;
use super::output::Outputs;
use super::summary::Summary;
use super::{Done, Failure};
use std::path::Path;

pub const ENTRY: Entry = Entry {
    name: "info",
    line: "what kind of disc this is, and how full",
    usage: &["IMAGE.. [--json]"],
    about: "\
Opens the disc of each image and tells its kind, how many blocks are used, and of these unreadable or blank (never recorded), how many \
more fit, with the limit of 4,096 blocks where that is what bounds them, and how full it is, then in the letters of document 01 S, L, \
N, NWA, the last VAT ICB, how many sectors were passed over, and what they are; of a rewritable disc how many blocks belong to spares inside the partition, R, the sequence, the spares that are used, \
defective and free, and by which identifier its sparing tables are read: the newer one (UDF 1.50) or the older one (CD UDF 1.82). On a \
write-once disc 0 passed over says that the last sector of the partition that is not blank is a VAT ICB; once an opening has told 0, \
later ones tell at most the number of sector writes begun since the last whole VAT ICB, wherever the power failed. Where there is no \
marks file a warning tells of blocks that are all zeros: they may be sectors that were not read.
",
    choices: &[Choice::flag("--json", "a JSON list with an object an image, its numbers without commas")],
    takes_volume: true,
    writes: None,
    run: info,
};

fn info(args: &mut Args, out: &mut Outputs) -> Done {
    let paths = images(args)?;
    if args.has("--json") {
        return all_as_json(args, &paths, out);
    }
    let [path] = &paths[..] else {
        return all_as_text(args, &paths, out);
    };
    as_text(args, path, out)
}

fn summarize(args: &Args, path: &Path) -> Result<Summary, Failure> {
    Summary::new(&load(args, path)?)
}

/// Says what the opening passed over.
fn warn(summary: &Summary, path: &Path, out: &mut Outputs) {
    if let Some(passed) = summary.opened.as_ref().ok().and_then(|opened| opened.passed()) {
        passed.warn(path, out);
    }
}

fn as_text(args: &Args, path: &Path, out: &mut Outputs) -> Done {
    let summary = summarize(args, path)?;
    for (name, words) in summary.lines() {
        out.line(format_args!("{name:<12}  {words}"));
    }
    warn(&summary, path, out);
    match &summary.opened {
        Ok(_) => Ok(()),
        Err((words, why)) => Err(Failure::Refused(words.clone(), *why)),
    }
}

/// Each image under its name; what one of them cannot say does not keep the others from being told.
fn all_as_text(args: &Args, paths: &[impl AsRef<Path>], out: &mut Outputs) -> Done {
    let mut status = 0;
    for (i, path) in paths.iter().map(AsRef::as_ref).enumerate() {
        out.line(format_args!("{}{}", if i > 0 { "\n" } else { "" }, path.display()));
        if let Err(failure) = as_text(args, path, out) {
            status = status.max(failure.tell(out));
        }
    }
    Failure::told(status)
}

/// A list with an object an image.
fn all_as_json(args: &Args, paths: &[impl AsRef<Path>], out: &mut Outputs) -> Done {
    let mut status = 0;
    let mut objects = Vec::new();
    for path in paths.iter().map(AsRef::as_ref) {
        let mut parts = vec![("image", Json::text(path.to_string_lossy()))];
        match summarize(args, path) {
            Ok(summary) => {
                warn(&summary, path, out);
                status = status.max(summary.opened.is_err().into());
                parts.extend(summary.json());
            }
            Err(failure) => {
                status = status.max(failure.status());
                parts.extend([("opens", Json::Flag(false)), ("words", Json::text(failure.words()))]);
            }
        }
        objects.push(Json::Object(parts));
    }
    out.line(Json::List(objects));
    Failure::told(status)
}

//! By which files a disc is known: their names, lengths and times, and their digests, so that a page is evidence.

use super::date;
use super::page::{Body, Fact};
use super::sha256::sha256_text;
use super::words::counted;
use std::ffi::OsString;
use std::fs;
use std::os::unix::fs::MetadataExt;
use std::path::{Path, PathBuf};
use tuormik::image::Image;
use tuormik::{MOST_SECTORS, SECTOR};

const IMAGE: &str = "image";
const MARKS: &str = "marks file";

/// The name of a file, without its folders.
pub fn file_name(path: &Path) -> String {
    path.file_name().unwrap_or(path.as_os_str()).to_string_lossy().into_owned()
}

/// The files of an image: what is told of them is of the bytes that were read.
pub fn put_files(body: &mut Body, path: &Path, image: &Image) {
    let bytes = image.file_bytes();
    body.put_heading("The files");
    body.put_facts(&file_facts(IMAGE, path, bytes.len(), Some(sha256_text(bytes))));
    body.put_facts(&match image.marks_file() {
        Some((path, text)) => file_facts(MARKS, path, text.len(), Some(sha256_text(text))),
        None => vec![Fact::new(MARKS, "none")],
    });
}

/// Those files of an image that cannot be loaded that are there. One that is longer than a disc has no digest.
pub fn put_files_on_disk(body: &mut Body, path: &Path, marks_path: Option<&Path>) {
    let marks = marks_path.map_or_else(|| beside(path), Path::to_owned);
    let files: Vec<Vec<Fact>> = [(IMAGE, path), (MARKS, &marks)].into_iter().filter_map(|(what, path)| on_disk(what, path)).collect();
    if !files.is_empty() {
        body.put_heading("The files");
    }
    for facts in files {
        body.put_facts(&facts);
    }
}

/// The marks file beside an image.
fn beside(path: &Path) -> PathBuf {
    let mut name = OsString::from(path);
    name.push(".marks");
    name.into()
}

fn on_disk(what: &str, path: &Path) -> Option<Vec<Fact>> {
    let length = fs::metadata(path).ok().filter(fs::Metadata::is_file)?.len() as usize;
    let bytes = if length <= MOST_SECTORS * SECTOR { fs::read(path).ok() } else { None };
    Some(file_facts(what, path, length, bytes.map(|bytes| sha256_text(&bytes))))
}

fn file_facts(what: &str, path: &Path, length: usize, digest: Option<String>) -> Vec<Fact> {
    let sectors = match what {
        IMAGE if length.is_multiple_of(SECTOR) => format!(" ({})", counted(length / SECTOR, "sector")),
        _ => String::new(),
    };
    let mut facts = vec![Fact::new(what, file_name(path)), Fact::new("length", format!("{}{sectors}", counted(length, "byte")))];
    facts.extend(fs::metadata(path).ok().map(|found| Fact::new("last changed", date::utc(found.mtime()))));
    facts.extend(digest.map(Fact::digest));
    facts
}

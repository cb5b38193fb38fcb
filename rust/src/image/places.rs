//! Names of files and what stands there: what a name leads to, and whether it can be read or replaced.

use super::files::{folder_of, if_there, with_ending};
use super::journal::Pair;
use super::Error;
use std::fs::{self, FileType, Metadata, OpenOptions};
use std::io::ErrorKind;
use std::os::unix::fs::{FileTypeExt, MetadataExt};
use std::path::{Path, PathBuf};

/// The file that a name leads to, links followed; where there is none yet, the name in its folder.
pub(super) fn settled(path: &Path) -> Result<PathBuf, Error> {
    let wrong = |e| Error::file(path, e);
    if let Some(path) = if_there(fs::canonicalize(path)).map_err(wrong)? {
        return Ok(path);
    }
    need_linked(path)?;
    if let Some(there) = found(path)? {
        // a link of the system to what has no name, as to the pipe of a shell
        return Err(no_file(path, &there).unwrap_or_else(|| Error::wrong(path, "it is a file that was removed")));
    }
    let name = path.file_name().ok_or_else(|| Error::wrong(path, "it is no name of a file"))?;
    let folder = if_there(fs::canonicalize(folder_of(path))).map_err(wrong)?;
    Ok(folder.ok_or_else(|| Error::wrong(path, "its folder is not there"))?.join(name))
}

/// The name of the marks file beside an image.
pub(super) fn marks_beside(image: &Path) -> PathBuf {
    with_ending(image, ".marks")
}

/// The files of an image, whether it is there or not, and of its marks, which are those of a name or stand beside it.
pub(super) fn located(path: &Path, marks_path: Option<&Path>) -> Result<Pair, Error> {
    let image = settled(path)?;
    let marks = marks_path.map_or_else(|| settled(&marks_beside(&image)), settled)?;
    Ok(Pair { image, marks })
}

/// What a name leads to, where there is something.
fn found(path: &Path) -> Result<Option<Metadata>, Error> {
    if_there(fs::metadata(path)).map_err(|e| Error::file(path, e))
}

/// A link that leads to nothing is not taken for a name that is free: what it should lead to is missing.
fn need_linked(path: &Path) -> Result<(), Error> {
    match fs::read_link(path) {
        Ok(to) if found(path)?.is_none() => Err(Error::wrong(path, format!("it is a link to {}, and nothing is there", to.display()))),
        _ => Ok(()),
    }
}

pub(super) fn is_same_file(a: &Path, b: &Path) -> Result<bool, Error> {
    Ok(match (found(a)?, found(b)?) {
        (Some(a), Some(b)) => (a.dev(), a.ino()) == (b.dev(), b.ino()),
        _ => false,
    })
}

/// What a thing is that is no regular file.
fn other_kind(kind: FileType) -> Option<&'static str> {
    match () {
        () if kind.is_file() => None,
        () if kind.is_dir() => Some("a folder"),
        () if kind.is_fifo() => Some("a pipe"),
        () if kind.is_socket() => Some("a socket"),
        () if kind.is_block_device() => Some("a block device"),
        () if kind.is_char_device() => Some("a character device"),
        () => Some("no regular file"),
    }
}

fn no_file(path: &Path, there: &Metadata) -> Option<Error> {
    other_kind(there.file_type()).map(|what| Error::wrong(path, format!("it is {what}, and no file")))
}

/// What is there can be read as often as it takes, and has an end: a regular file, or the drive of a disc; or there is nothing.
pub(super) fn need_readable(path: &Path) -> Result<(), Error> {
    let there = found(path)?.filter(|there| !there.file_type().is_block_device());
    there.and_then(|there| no_file(path, &there)).map_or(Ok(()), Err)
}

/// What is there may be replaced: a regular file that can be written to, or nothing.
pub(super) fn need_replaceable(path: &Path) -> Result<(), Error> {
    let Some(there) = found(path)? else {
        return Ok(());
    };
    if let Some(what) = other_kind(there.file_type()) {
        return Err(Error::wrong(path, format!("it is {what}, and nothing is written to it")));
    }
    let is_open_to_writing = || match OpenOptions::new().write(true).open(path) {
        Ok(_) => Ok(true),
        Err(e) if [ErrorKind::PermissionDenied, ErrorKind::ReadOnlyFilesystem].contains(&e.kind()) => Ok(false),
        Err(e) => Err(Error::file(path, e)),
    };
    if there.permissions().readonly() || !is_open_to_writing()? {
        return Err(Error::wrong(path, "it is read-only"));
    }
    Ok(())
}

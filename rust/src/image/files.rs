//! The calls of the file system that reading and replacing an image are made of, one by one, so that a test can stop at each.

use crate::{MOST_SECTORS, SECTOR};
use std::ffi::OsString;
use std::fs::{self, File, OpenOptions};
use std::io::{self, ErrorKind, Read, Write};
use std::os::unix::fs::{fchown, MetadataExt, OpenOptionsExt};
use std::path::{Path, PathBuf};

/// What tells a file from the one that was there before, or after it.
#[derive(Clone, Debug, PartialEq, Eq)]
pub(super) struct Stamp(pub(super) Vec<u64>);

/// The most bytes of a file that are read: one more than a disc has.
pub(super) const MOST_BYTES: usize = MOST_SECTORS * SECTOR + 1;

/// The calls.
pub(super) trait Files {
    /// The stamp of a file, where there is one.
    fn stamp(&self, path: &Path) -> io::Result<Option<Stamp>>;
    /// The bytes of a file, where there is one, up to [`MOST_BYTES`].
    fn read(&self, path: &Path) -> io::Result<Option<Vec<u8>>>;
    /// Writes a file whole, down to the medium, with owner and permissions of another where that is there.
    fn write(&self, path: &Path, bytes: &[u8], like: &Path) -> io::Result<()>;
    /// Gives a file another name; what had that name is gone.
    fn rename(&self, from: &Path, to: &Path) -> io::Result<()>;
    /// Removes a file.
    fn remove(&self, path: &Path) -> io::Result<()>;
    /// Brings the names in a folder down to the medium.
    fn sync_folder(&self, folder: &Path) -> io::Result<()>;
    /// The names in a folder.
    fn names(&self, folder: &Path) -> io::Result<Vec<OsString>>;
}

/// The file system.
pub(super) struct System;

impl Files for System {
    fn stamp(&self, path: &Path) -> io::Result<Option<Stamp>> {
        let Some(found) = if_there(fs::metadata(path))? else {
            return Ok(None);
        };
        let times = [found.mtime(), found.mtime_nsec(), found.ctime(), found.ctime_nsec()].map(|time| time as u64);
        Ok(Some(Stamp([[found.dev(), found.ino(), found.len()].as_slice(), &times].concat())))
    }

    fn read(&self, path: &Path) -> io::Result<Option<Vec<u8>>> {
        let Some(file) = if_there(File::open(path))? else {
            return Ok(None);
        };
        let size = usize::try_from(file.metadata()?.len()).unwrap_or(usize::MAX);
        let mut bytes = Vec::with_capacity(size.min(MOST_BYTES));
        file.take(MOST_BYTES as u64).read_to_end(&mut bytes)?;
        Ok(Some(bytes))
    }

    fn write(&self, path: &Path, bytes: &[u8], like: &Path) -> io::Result<()> {
        let like = if_there(fs::metadata(like))?;
        let mut options = OpenOptions::new();
        options.write(true).create(true).truncate(true);
        if like.is_some() {
            // nobody else reads it before it has the other's permissions
            options.mode(0o600);
        }
        let mut file = options.open(path)?;
        file.write_all(bytes)?;
        if let Some(like) = like {
            let own = file.metadata()?;
            if (own.uid(), own.gid()) != (like.uid(), like.gid()) {
                // who may not give a file away keeps it
                let _ = fchown(&file, Some(like.uid()), Some(like.gid()));
            }
            file.set_permissions(like.permissions())?;
        }
        file.sync_all()
    }

    fn rename(&self, from: &Path, to: &Path) -> io::Result<()> {
        fs::rename(from, to)
    }

    fn remove(&self, path: &Path) -> io::Result<()> {
        fs::remove_file(path)
    }

    fn sync_folder(&self, folder: &Path) -> io::Result<()> {
        // a folder that may be written and not read, or of a file system that brings no folder down, is left to itself
        match File::open(folder).and_then(|folder| folder.sync_all()) {
            Err(e) if [ErrorKind::PermissionDenied, ErrorKind::InvalidInput, ErrorKind::Unsupported].contains(&e.kind()) => Ok(()),
            synced => synced,
        }
    }

    fn names(&self, folder: &Path) -> io::Result<Vec<OsString>> {
        fs::read_dir(folder)?.map(|entry| entry.map(|entry| entry.file_name())).collect()
    }
}

/// What was found, or none where nothing is there.
pub(super) fn if_there<T>(found: io::Result<T>) -> io::Result<Option<T>> {
    match found {
        Ok(found) => Ok(Some(found)),
        Err(e) if e.kind() == ErrorKind::NotFound => Ok(None),
        Err(e) => Err(e),
    }
}

/// The name with an ending put to it.
pub(super) fn with_ending(path: &Path, ending: &str) -> PathBuf {
    let mut name = path.as_os_str().to_owned();
    name.push(ending);
    PathBuf::from(name)
}

/// The folder that a file is in.
pub(super) fn folder_of(path: &Path) -> &Path {
    path.parent().filter(|folder| !folder.as_os_str().is_empty()).unwrap_or(Path::new("."))
}

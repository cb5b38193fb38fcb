//! The lock of an image, from its loading to its storing: a file beside it that is locked and names the process that holds it.
//!
//! The image itself cannot carry the lock, since storing puts another file in its place. The lock's file is removed when the lock is let
//! go; who waited for it then sees that its file is no longer the one of that name, and begins again. A file that a killed process left
//! is locked by nobody, and the next one takes it.

use super::files::{if_there, with_ending};
use super::holder::{Waited, Watch};
use super::Error;
use std::fs::{self, File, OpenOptions, TryLockError};
use std::io::{self, ErrorKind, Read, Write};
use std::os::unix::fs::MetadataExt;
use std::path::{Path, PathBuf};
use std::time::Duration;

/// How long a second process waits for the first where that makes no progress.
const PATIENCE: Duration = Duration::from_secs(2);
const PAUSE: Duration = Duration::from_millis(10);

/// A lock that is held until it is dropped.
pub(super) struct Lock {
    path: PathBuf,
    /// closed, and so unlocked, after the file of this name is removed
    file: File,
}

impl Lock {
    /// Takes the lock of an image. Where another process holds it, waits as long as that makes progress, and tells so at every look; then
    /// says which it is.
    pub(super) fn take(image: &Path, tell: &mut dyn FnMut(Waited)) -> Result<Lock, Error> {
        let path = with_ending(image, ".tuormik-lock");
        let mut watch = Watch::new();
        loop {
            let wrong = |e: io::Error| match e.kind() {
                ErrorKind::PermissionDenied | ErrorKind::ReadOnlyFilesystem => {
                    Error::wrong(image, "nothing can be written in its folder, so it cannot be replaced")
                }
                _ => Error::file(&path, e),
            };
            let mut file = OpenOptions::new().read(true).write(true).create(true).truncate(false).open(&path).map_err(wrong)?;
            match file.try_lock() {
                Ok(()) if is_named(&file, &path).map_err(wrong)? => return Ok(Lock { path, file }.named()),
                Ok(()) => {}
                Err(TryLockError::WouldBlock) => {
                    let waited = watch.look(holder(&mut file));
                    if watch.still() >= PATIENCE {
                        return Err(Error::Held { path: image.to_owned(), by: waited.by });
                    }
                    tell(waited);
                    std::thread::sleep(PAUSE);
                }
                Err(TryLockError::Error(e)) => return Err(wrong(e)),
            }
        }
    }

    /// With the process that holds it in its file. Where there is no room for that the lock holds all the same.
    fn named(mut self) -> Lock {
        let _ = self.file.set_len(0).and_then(|()| writeln!(self.file, "{}", std::process::id()));
        self
    }
}

impl Drop for Lock {
    fn drop(&mut self) {
        // one that cannot be removed is locked by nobody
        let _ = fs::remove_file(&self.path);
    }
}

/// Whether a file is still the one of its name.
fn is_named(file: &File, path: &Path) -> io::Result<bool> {
    let own = file.metadata()?;
    Ok(if_there(fs::metadata(path))?.is_some_and(|there| (there.dev(), there.ino()) == (own.dev(), own.ino())))
}

/// The process that a lock's file names.
fn holder(file: &mut File) -> Option<u32> {
    let mut text = String::new();
    file.read_to_string(&mut text).ok()?;
    text.trim().parse().ok()
}

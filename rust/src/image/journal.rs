//! An image and its marks replaced together, so that whoever is stopped at any call of the file system leaves a pair that belongs
//! together.
//!
//! A store writes the new image beside the old one, and then the note: a file that names the new image and holds the new marks. The note
//! coming to its name, IMAGE.tuormik-store, is the one moment at which both change. After it the new image is renamed to its place, the
//! marks are written to theirs, and the note is removed. Where a note is found, its store was stopped after that moment: who reads takes
//! the pair as the note tells it, and who writes first does what the note still asks for, which can be stopped and done again as often as
//! it may be.

use super::files::{folder_of, with_ending, Files, Stamp};
use super::marks_file::fingerprint;
use super::Error;
use std::ffi::{OsStr, OsString};
use std::os::unix::ffi::{OsStrExt, OsStringExt};
use std::path::{Path, PathBuf};
use std::time::{Duration, Instant};

/// How long who reads tries again where another process replaces what is read.
const PATIENCE: Duration = Duration::from_secs(2);

/// The files of an image and of its marks.
#[derive(Clone, Debug, PartialEq, Eq)]
pub(super) struct Pair {
    pub(super) image: PathBuf,
    pub(super) marks: PathBuf,
}

/// What becomes of the marks file.
#[derive(Clone, Debug, PartialEq, Eq)]
pub(super) enum NewMarks {
    /// It is as it was.
    Kept,
    /// It is removed.
    Removed,
    /// It has this text.
    Text(Vec<u8>),
}

/// What the files of a pair hold.
#[derive(Clone, Debug, PartialEq, Eq)]
pub(super) struct Contents {
    pub(super) image: Option<Vec<u8>>,
    pub(super) marks: Option<Vec<u8>>,
}

/// What a note tells: the store that it belongs to, after the moment at which both files change.
#[derive(Clone, Debug, PartialEq, Eq)]
struct Note {
    /// the ending of the names under which new files are written
    ending: String,
    /// the fingerprint of the image that is replaced, if there was one
    was: Option<u64>,
    /// the fingerprint of the new one
    is: u64,
    marks_path: PathBuf,
    marks: NewMarks,
}

const NOTE_ENDING: &str = ".tuormik-store";
const NEW_ENDING: &str = ".tuormik-new-";
const HEAD: &[u8] = b"tuormik store";

impl Note {
    fn new(pair: &Pair, was: Option<u64>, is: u64, marks: NewMarks) -> Result<Note, Error> {
        if pair.marks.as_os_str().as_bytes().contains(&b'\n') {
            return Err(Error::wrong(&pair.marks, "a marks file's name has no line breaks"));
        }
        let ending = format!("{NEW_ENDING}{}", std::process::id());
        Ok(Note { ending, was, is, marks_path: pair.marks.clone(), marks })
    }

    fn path(image: &Path) -> PathBuf {
        with_ending(image, NOTE_ENDING)
    }

    /// The note as bytes: lines, then the marks' text, then a line that tells whether all of it is there.
    fn bytes(&self) -> Vec<u8> {
        let (word, text): (_, &[u8]) = match &self.marks {
            NewMarks::Kept => ("kept", &[]),
            NewMarks::Removed => ("removed", &[]),
            NewMarks::Text(text) => ("text", text),
        };
        let was = self.was.map_or("none".to_string(), |print| format!("{print:016x}"));
        let head = format!("\n{}\n{was}\n{:016x}\n{word}\n", self.ending, self.is);
        let mut bytes = [HEAD, head.as_bytes(), self.marks_path.as_os_str().as_bytes(), b"\n", text].concat();
        let end = format!("\nend {:016x}\n", fingerprint(&bytes));
        bytes.extend_from_slice(end.as_bytes());
        bytes
    }

    /// The bytes that its store takes beside what is there: those of the new image, of the note and of the new marks.
    fn needs(&self, image: Option<&[u8]>) -> usize {
        let marks = match &self.marks {
            NewMarks::Text(text) => text.len(),
            NewMarks::Kept | NewMarks::Removed => 0,
        };
        image.map_or(0, <[u8]>::len) + self.bytes().len() + marks
    }

    fn from_bytes(bytes: &[u8]) -> Option<Note> {
        let (bytes, end) = bytes.split_at_checked(bytes.len().checked_sub("\nend 0123456789abcdef\n".len())?)?;
        if end != format!("\nend {:016x}\n", fingerprint(bytes)).as_bytes() {
            return None;
        }
        let mut parts = bytes.splitn(7, |&b| b == b'\n');
        let mut line = || parts.next();
        let is_note = line()? == HEAD;
        let word = |bytes| std::str::from_utf8(bytes).ok();
        let (ending, was, is, kind) = (word(line()?)?, word(line()?)?, word(line()?)?, word(line()?)?);
        let marks_path = PathBuf::from(OsString::from_vec(line()?.to_vec()));
        let text = line()?;
        let print = |word: &str| u64::from_str_radix(word, 16).ok();
        let marks = match kind {
            "kept" => NewMarks::Kept,
            "removed" => NewMarks::Removed,
            "text" => NewMarks::Text(text.to_vec()),
            _ => return None,
        };
        let was = if was == "none" { None } else { Some(print(was)?) };
        is_note.then_some(Note { ending: ending.to_string(), was, is: print(is)?, marks_path, marks })
    }

    /// The note of a store that was stopped, where there is one.
    fn find(files: &dyn Files, image: &Path) -> Result<Option<Note>, Error> {
        let path = Note::path(image);
        let Some(bytes) = files.read(&path).map_err(|e| Error::file(&path, e))? else {
            return Ok(None);
        };
        let note = Note::from_bytes(&bytes);
        note.map(Some).ok_or_else(|| Error::wrong(&path, "it should tell of a store that was stopped, and cannot be read"))
    }

    /// The bytes that the image has by the note, and whether they are still under the new file's name. A file of that name that is not
    /// the one that the note tells of counts as none.
    fn image(&self, files: &dyn Files, image: &Path) -> Result<(Option<Vec<u8>>, bool), Error> {
        let (new, old) = (with_ending(image, &self.ending), read(files, image)?);
        let Some(bytes) = read(files, &new)?.filter(|bytes| fingerprint(bytes) == self.is) else {
            return Ok((old, false));
        };
        let print = old.as_deref().map(fingerprint);
        if print != self.was && print != Some(self.is) {
            let words = "a store of this image was stopped before its end, and the image has been replaced by another program since";
            return Err(Error::wrong(image, format!("{words}: what was stored is in {}", new.display())));
        }
        Ok((Some(bytes), true))
    }
}

fn read(files: &dyn Files, path: &Path) -> Result<Option<Vec<u8>>, Error> {
    files.read(path).map_err(|e| Error::file(path, e))
}

fn sync(files: &dyn Files, path: &Path) -> Result<(), Error> {
    let folder = folder_of(path);
    files.sync_folder(folder).map_err(|e| Error::file(folder, e))
}

fn rename(files: &dyn Files, from: &Path, to: &Path) -> Result<(), Error> {
    files.rename(from, to).map_err(|e| Error::file(to, e))
}

fn write(files: &dyn Files, path: &Path, bytes: &[u8], like: &Path) -> Result<(), Error> {
    files.write(path, bytes, like).map_err(|e| Error::file(path, e))
}

/// Replaces image and marks. The caller holds the image's lock, and has finished what was stopped before.
pub(super) fn store(files: &dyn Files, pair: &Pair, was: Option<u64>, bytes: &[u8], marks: NewMarks) -> Result<(), Error> {
    bring(files, pair, &Note::new(pair, was, fingerprint(bytes), marks)?, Some(bytes))
}

/// Replaces the marks alone, of an image with this fingerprint. The caller has done as for [`store`].
pub(super) fn store_marks(files: &dyn Files, pair: &Pair, image: u64, text: Vec<u8>) -> Result<(), Error> {
    bring(files, pair, &Note::new(pair, Some(image), image, NewMarks::Text(text))?, None)
}

/// Writes the new image, if there is one, and the note, and does what the note asks for.
fn bring(files: &dyn Files, pair: &Pair, note: &Note, bytes: Option<&[u8]>) -> Result<(), Error> {
    let (new, new_note) = (with_ending(&pair.image, &note.ending), with_ending(&pair.image, &format!("{}.store", note.ending)));
    let prepared = prepare(files, &pair.image, bytes, note, &new, &new_note);
    if let Err(error) = prepared {
        // what was half written is of no use
        for path in [new, new_note] {
            let _ = files.remove(&path);
        }
        return Err(error.in_storing(&pair.image, note.needs(bytes)));
    }
    // from here on the new pair is the pair
    put_in_place(files, &pair.image, note, bytes.is_some()).map_err(|error| Error::unfinished(&pair.image, error))
}

/// Writes the new image and the note, and brings the note to its name.
fn prepare(files: &dyn Files, image: &Path, bytes: Option<&[u8]>, note: &Note, new: &Path, new_note: &Path) -> Result<(), Error> {
    if let Some(bytes) = bytes {
        write(files, new, bytes, image)?;
    }
    write(files, new_note, &note.bytes(), image)?;
    sync(files, image)?;
    rename(files, new_note, &Note::path(image))
}

/// Does what a note asks for, and removes it.
fn put_in_place(files: &dyn Files, image: &Path, note: &Note, has_new: bool) -> Result<(), Error> {
    sync(files, image)?;
    if has_new {
        rename(files, &with_ending(image, &note.ending), image)?;
    }
    match &note.marks {
        NewMarks::Kept => {}
        NewMarks::Removed => {
            let wrong = |e| Error::file(&note.marks_path, e);
            if files.stamp(&note.marks_path).map_err(wrong)?.is_some() {
                files.remove(&note.marks_path).map_err(wrong)?;
            }
        }
        NewMarks::Text(text) => {
            let new = with_ending(&note.marks_path, &note.ending);
            write(files, &new, text, &note.marks_path)?;
            rename(files, &new, &note.marks_path)?;
        }
    }
    sync(files, image)?;
    if note.marks != NewMarks::Kept {
        sync(files, &note.marks_path)?;
    }
    let path = Note::path(image);
    files.remove(&path).map_err(|e| Error::file(&path, e))?;
    sync(files, image)
}

/// Finishes a store that was stopped, and removes what one left that did not come to its note. The caller holds the image's lock.
pub(super) fn finish(files: &dyn Files, image: &Path) -> Result<(), Error> {
    if let Some(note) = Note::find(files, image)? {
        let (bytes, has_new) = note.image(files, image)?;
        // where the image is not the note's, the note's marks are of no use
        let is_of_note = bytes.as_deref().map(fingerprint) == Some(note.is);
        let note = if is_of_note { note } else { Note { marks: NewMarks::Kept, ..note } };
        put_in_place(files, image, &note, has_new)?;
    }
    let mut left = image.file_name().unwrap_or_default().to_owned();
    left.push(NEW_ENDING);
    let is_left = |name: &OsStr| name.as_bytes().starts_with(left.as_bytes());
    let folder = folder_of(image);
    // in a folder whose names cannot be read they stay
    for name in files.names(folder).unwrap_or_default().into_iter().filter(|name| is_left(name)) {
        let _ = files.remove(&folder.join(name));
    }
    Ok(())
}

/// What the files of a pair hold, a store that was stopped counted as done; nothing is written. Where another process replaces them
/// meanwhile they are read again.
pub(super) fn read_pair(files: &dyn Files, pair: &Pair) -> Result<Contents, Error> {
    let begun = Instant::now();
    loop {
        let before = stamps(files, pair)?;
        let contents = read_once(files, pair);
        if stamps(files, pair)? == before {
            return contents;
        }
        if begun.elapsed() >= PATIENCE {
            return Err(Error::wrong(&pair.image, "it is replaced again and again while it is read"));
        }
    }
}

fn stamps(files: &dyn Files, pair: &Pair) -> Result<Vec<Option<Stamp>>, Error> {
    let paths = [&Note::path(&pair.image), &pair.image, &pair.marks];
    paths.into_iter().map(|path| files.stamp(path).map_err(|e| Error::file(path, e))).collect()
}

fn read_once(files: &dyn Files, pair: &Pair) -> Result<Contents, Error> {
    let Some(note) = Note::find(files, &pair.image)? else {
        return Ok(Contents { image: read(files, &pair.image)?, marks: read(files, &pair.marks)? });
    };
    let (image, _) = note.image(files, &pair.image)?;
    // marks in another file than the note's are not told by it, nor are those of an image that came after it
    let is_of_note = note.marks_path == pair.marks && image.as_deref().map(fingerprint) == Some(note.is);
    let marks = match note.marks {
        NewMarks::Text(text) if is_of_note => Some(text),
        NewMarks::Removed if is_of_note => None,
        _ => read(files, &pair.marks)?,
    };
    Ok(Contents { image, marks })
}

#[cfg(test)]
mod tests {
    use super::*;
    use crate::image::files::System;
    use std::cell::{Cell, RefCell};
    use std::collections::BTreeMap;
    use std::io;

    /// A file's bytes: as they are, and as they came down to the medium.
    #[derive(Clone, Default)]
    struct Bytes {
        now: Vec<u8>,
        synced: Vec<u8>,
    }

    /// A change of names that has not come down to the medium yet.
    #[derive(Clone)]
    enum Change {
        Created(PathBuf, usize),
        Renamed(PathBuf, PathBuf),
        Removed(PathBuf),
    }

    impl Change {
        fn folder(&self) -> &Path {
            match self {
                Change::Created(path, _) | Change::Renamed(_, path) | Change::Removed(path) => folder_of(path),
            }
        }

        fn make(&self, names: &mut BTreeMap<PathBuf, usize>) {
            match self {
                Change::Created(path, file) => {
                    names.insert(path.clone(), *file);
                }
                Change::Renamed(from, to) => {
                    if let Some(file) = names.remove(from) {
                        names.insert(to.clone(), file);
                    }
                }
                Change::Removed(path) => {
                    names.remove(path);
                }
            }
        }
    }

    /// A file system in memory that stops after some calls: from then on every call fails. It can be full, too.
    #[derive(Clone, Default)]
    struct Memory {
        files: RefCell<Vec<Bytes>>,
        names: RefCell<BTreeMap<PathBuf, usize>>,
        synced: RefCell<BTreeMap<PathBuf, usize>>,
        changes: RefCell<Vec<Change>>,
        left: Cell<usize>,
        is_stopped: Cell<bool>,
        /// the bytes that its files can have together, and what the system says of more
        room: Option<(usize, io::ErrorKind)>,
    }

    impl Memory {
        fn new(pair: &Pair, contents: &Contents) -> Memory {
            let memory = Memory { left: Cell::new(usize::MAX), ..Memory::default() };
            for (path, bytes) in [(&pair.image, &contents.image), (&pair.marks, &contents.marks)] {
                if let Some(bytes) = bytes {
                    memory.write(path, bytes, path).expect("a file");
                    memory.sync_folder(folder_of(path)).expect("a folder");
                }
            }
            memory
        }

        fn stopping_after(&self, calls: usize) -> Memory {
            let memory = self.clone();
            memory.left.set(calls);
            memory
        }

        /// The bytes of all files that have a name.
        fn used(&self) -> usize {
            self.names.borrow().values().map(|&file| self.files.borrow()[file].now.len()).sum()
        }

        fn need_room(&self) -> io::Result<()> {
            match self.room {
                Some((room, full)) if self.used() > room => Err(full.into()),
                _ => Ok(()),
            }
        }

        fn call(&self) -> io::Result<()> {
            match self.left.get().checked_sub(1) {
                Some(left) => self.left.set(left),
                None => self.is_stopped.set(true),
            }
            if self.is_stopped.get() {
                Err(io::Error::other("stopped"))
            } else {
                Ok(())
            }
        }

        fn change(&self, change: Change) {
            change.make(&mut self.names.borrow_mut());
            self.changes.borrow_mut().push(change);
        }

        /// What may be found after the stop. Killed: all as it is. With the power off: of the bytes either those that came down or all,
        /// and of the changes of names since they last came down any.
        fn found(&self) -> Vec<Memory> {
            let changes = self.changes.borrow();
            let mut found = Vec::new();
            for chosen in 0..1u32 << changes.len() {
                let mut names = self.synced.borrow().clone();
                for (_, change) in changes.iter().enumerate().filter(|(i, _)| chosen >> i & 1 == 1) {
                    change.make(&mut names);
                }
                for is_synced in [false, true] {
                    let bytes = |file: &Bytes| if is_synced { file.synced.clone() } else { file.now.clone() };
                    let files = self.files.borrow().iter().map(|file| Bytes { now: bytes(file), synced: bytes(file) }).collect();
                    found.push(Memory {
                        files: RefCell::new(files),
                        names: RefCell::new(names.clone()),
                        synced: RefCell::new(names.clone()),
                        changes: RefCell::default(),
                        left: Cell::new(usize::MAX),
                        is_stopped: Cell::new(false),
                        room: None,
                    });
                }
            }
            found
        }
    }

    impl Files for Memory {
        fn stamp(&self, path: &Path) -> io::Result<Option<Stamp>> {
            Ok(self.names.borrow().get(path).map(|&file| Stamp(vec![file as u64])))
        }

        fn read(&self, path: &Path) -> io::Result<Option<Vec<u8>>> {
            Ok(self.names.borrow().get(path).map(|&file| self.files.borrow()[file].now.clone()))
        }

        fn write(&self, path: &Path, bytes: &[u8], _: &Path) -> io::Result<()> {
            self.call()?;
            let there = self.names.borrow().get(path).copied();
            let file = there.unwrap_or_else(|| {
                self.files.borrow_mut().push(Bytes::default());
                let file = self.files.borrow().len() - 1;
                self.change(Change::Created(path.to_owned(), file));
                file
            });
            for part in [&bytes[..0], &bytes[..bytes.len() / 2], bytes] {
                self.files.borrow_mut()[file].now = part.to_vec();
                self.need_room()?;
                self.call()?;
            }
            self.files.borrow_mut()[file].synced = bytes.to_vec();
            Ok(())
        }

        fn rename(&self, from: &Path, to: &Path) -> io::Result<()> {
            self.call()?;
            self.change(Change::Renamed(from.to_owned(), to.to_owned()));
            Ok(())
        }

        fn remove(&self, path: &Path) -> io::Result<()> {
            self.call()?;
            self.change(Change::Removed(path.to_owned()));
            Ok(())
        }

        fn sync_folder(&self, folder: &Path) -> io::Result<()> {
            self.call()?;
            let (down, left): (Vec<Change>, Vec<Change>) = self.changes.take().into_iter().partition(|change| change.folder() == folder);
            down.iter().for_each(|change| change.make(&mut self.synced.borrow_mut()));
            self.changes.replace(left);
            Ok(())
        }

        fn names(&self, folder: &Path) -> io::Result<Vec<OsString>> {
            let names = self.names.borrow();
            let here = names.keys().filter(|path| folder_of(path) == folder);
            Ok(here.map(|path| path.file_name().unwrap_or_default().to_owned()).collect())
        }
    }

    /// The file system itself, killed after some calls that change it. What a process has written stays where it is killed, so nothing is
    /// brought down to the medium.
    struct Killed {
        left: Cell<usize>,
    }

    impl Killed {
        fn call(&self) -> io::Result<()> {
            let left = self.left.get().checked_sub(1).ok_or_else(|| io::Error::other("killed"))?;
            self.left.set(left);
            Ok(())
        }
    }

    impl Files for Killed {
        fn stamp(&self, path: &Path) -> io::Result<Option<Stamp>> {
            System.stamp(path)
        }

        fn read(&self, path: &Path) -> io::Result<Option<Vec<u8>>> {
            System.read(path)
        }

        fn write(&self, path: &Path, bytes: &[u8], _: &Path) -> io::Result<()> {
            self.call()?;
            std::fs::write(path, &bytes[..bytes.len() / 2])?;
            self.call()?;
            std::fs::write(path, bytes)
        }

        fn rename(&self, from: &Path, to: &Path) -> io::Result<()> {
            self.call()?;
            System.rename(from, to)
        }

        fn remove(&self, path: &Path) -> io::Result<()> {
            self.call()?;
            System.remove(path)
        }

        fn sync_folder(&self, _: &Path) -> io::Result<()> {
            self.call()
        }

        fn names(&self, folder: &Path) -> io::Result<Vec<OsString>> {
            System.names(folder)
        }
    }

    /// A version of a pair, and how a store makes it.
    #[derive(Clone)]
    struct Version {
        bytes: Vec<u8>,
        marks: NewMarks,
        /// whether its marks alone are stored
        is_marks_alone: bool,
    }

    impl Version {
        fn new(byte: u8, marks: Option<&str>) -> Version {
            let marks = marks.map_or(NewMarks::Removed, |text| NewMarks::Text(text.into()));
            Version { bytes: vec![byte; 16], marks, is_marks_alone: false }
        }

        fn contents(&self) -> Contents {
            let marks = match &self.marks {
                NewMarks::Text(text) => Some(text.clone()),
                _ => None,
            };
            Contents { image: Some(self.bytes.clone()), marks }
        }

        /// Finishes what was stopped, and stores this version.
        fn store(&self, files: &dyn Files, pair: &Pair) -> Result<(), Error> {
            finish(files, &pair.image)?;
            let was = read_pair(files, pair)?.image.as_deref().map(fingerprint);
            match (&self.marks, was) {
                (NewMarks::Text(text), Some(was)) if self.is_marks_alone => store_marks(files, pair, was, text.clone()),
                _ => store(files, pair, was, &self.bytes, self.marks.clone()),
            }
        }
    }

    fn seen(files: &dyn Files, pair: &Pair) -> Contents {
        read_pair(files, pair).expect("a pair that can be read")
    }

    /// Stops a store at every call, looks at all that may then be found, and gives each to `then`; says how many calls there are.
    fn stopped_everywhere(memory: &Memory, pair: &Pair, new: &Version, then: &mut dyn FnMut(&Memory)) -> usize {
        let old = seen(memory, pair);
        for calls in 0.. {
            let stopped = memory.stopping_after(calls);
            let done = new.store(&stopped, pair);
            for found in stopped.found() {
                let contents = seen(&found, pair);
                let is_new = contents == new.contents();
                assert!(is_new || contents == old && done.is_err(), "stopped after {calls} calls: {old:?} became {contents:?}");
                then(&found);
                // who writes next finds the same, and nothing is left besides
                finish(&found, &pair.image).expect("it is finished");
                assert_eq!(seen(&found, pair), contents);
                assert!(found.names.borrow().keys().all(|path| [&pair.image, &pair.marks].contains(&path)));
            }
            if !stopped.is_stopped.get() {
                done.expect("it is done");
                return calls;
            }
        }
        unreachable!()
    }

    /// The power fails, or the process is killed, at any call of a store and at any call of the next one.
    fn stopped_twice(pair: &Pair, versions: [Option<Version>; 3]) {
        let [old, new, newer] =
            versions.map(|version| version.unwrap_or(Version { bytes: vec![], marks: NewMarks::Kept, is_marks_alone: false }));
        let mut contents = old.contents();
        if old.bytes.is_empty() {
            contents.image = None;
        }
        let memory = Memory::new(pair, &contents);
        let mut twice = 0;
        let calls = stopped_everywhere(&memory, pair, &new, &mut |found| {
            twice += stopped_everywhere(found, pair, &newer, &mut |_| {});
        });
        assert!(calls > 10 && twice > 100, "{calls} calls, {twice} after them");
    }

    fn beside() -> Pair {
        Pair { image: "folder/d.img".into(), marks: "folder/d.img.marks".into() }
    }

    #[test]
    fn two_stops_leave_image_and_marks_together() {
        let version = |byte, marks| Some(Version::new(byte, marks));
        stopped_twice(&beside(), [version(1, Some("one")), version(2, Some("two")), version(3, Some("three"))]);
        // marks come and go
        stopped_twice(&beside(), [version(1, None), version(2, Some("two")), version(3, None)]);
        stopped_twice(&beside(), [version(1, Some("one")), version(2, None), version(3, Some("three"))]);
        // only the marks change, as where a write that is cut leaves its sector unreadable
        stopped_twice(&beside(), [version(1, Some("one")), version(1, Some("two")), version(1, Some("three"))]);
        // the image is new
        stopped_twice(&beside(), [None, version(2, Some("two")), version(3, Some("three"))]);
    }

    #[test]
    fn two_stops_leave_marks_that_are_stored_alone_old_or_new() {
        let marks = |text| Some(Version { is_marks_alone: true, ..Version::new(1, Some(text)) });
        let version = |byte, marks| Some(Version::new(byte, marks));
        for old in [None, Some("one")] {
            stopped_twice(&beside(), [version(1, old), marks("two"), marks("three")]);
            stopped_twice(&beside(), [version(1, old), marks("two"), version(3, Some("three"))]);
            stopped_twice(&elsewhere(), [version(1, old), marks("two"), marks("three")]);
        }
    }

    fn elsewhere() -> Pair {
        Pair { marks: "elsewhere/marks".into(), ..beside() }
    }

    #[test]
    fn marks_in_another_folder_too() {
        let version = |byte, marks| Some(Version::new(byte, marks));
        stopped_twice(&elsewhere(), [version(1, Some("one")), version(2, Some("two")), version(3, Some("three"))]);
        stopped_twice(&elsewhere(), [version(1, None), version(2, Some("two")), version(3, Some("three"))]);
    }

    /// The same on the file system itself, without the power failing: a store is killed at every call, and the next one too.
    #[test]
    fn two_kills_leave_files_that_belong_together() {
        let folder = std::env::temp_dir().join(format!("tuormik-killed-{}", std::process::id()));
        std::fs::create_dir_all(&folder).expect("a folder");
        let pair = Pair { image: folder.join("d.img"), marks: folder.join("d.img.marks") };
        let [one, two, three] = [(1, "one"), (2, "two"), (3, "three")].map(|(byte, marks)| Version::new(byte, Some(marks)));
        let killed = |calls: usize| Killed { left: Cell::new(calls) };
        // a store is 15 calls, and finishing one that was killed up to 11
        const CALLS: [usize; 2] = [15, 26];
        for (first, second) in (0..=CALLS[0]).flat_map(|first| (0..=CALLS[1]).map(move |second| (first, second))) {
            one.store(&killed(usize::MAX), &pair).expect("it is stored");
            let is_two = two.store(&killed(first), &pair).is_ok();
            let found = seen(&System, &pair);
            assert!(found == two.contents() || found == one.contents() && !is_two, "killed after {first}: {found:?}");
            let is_three = three.store(&killed(second), &pair).is_ok();
            let then = seen(&System, &pair);
            assert!(then == three.contents() || then == found && !is_three, "killed after {first}, {second}: {found:?} became {then:?}");
            assert!(is_two == (first == CALLS[0]) && (is_three || second < CALLS[1]), "killed after {first}, {second}");
        }
        std::fs::remove_dir_all(&folder).expect("a folder");
    }

    /// A memory in which a store of version 2 over version 1 was stopped right after its note came to its name.
    fn noted() -> Memory {
        let memory = Memory::new(&beside(), &Version::new(1, Some("one")).contents());
        let is_noted = |memory: &&Memory| memory.names.borrow().contains_key(&Note::path(&beside().image));
        let mut stopped = (0..100).map(|calls| {
            let stopped = memory.stopping_after(calls);
            let _ = Version::new(2, Some("two")).store(&stopped, &beside());
            Memory { left: Cell::new(usize::MAX), is_stopped: Cell::new(false), ..stopped }
        });
        stopped.find(|memory| is_noted(&memory)).expect("a note")
    }

    #[test]
    fn an_image_that_another_program_put_there_stays() {
        let memory = noted();
        memory.write(&beside().image, &[9; 16], Path::new("")).expect("a file");
        let words = finish(&memory, &beside().image).expect_err("the image is another one").to_string();
        assert!(words.contains("replaced by another program") && words.contains("tuormik-new"), "{words}");
        assert!(read_pair(&memory, &beside()).is_err());
        // after the new image came to its place it is simply the image
        let memory = noted();
        let name = format!("folder/d.img{NEW_ENDING}{}", std::process::id());
        memory.rename(Path::new(&name), &beside().image).expect("a rename");
        memory.write(&beside().image, &[9; 16], Path::new("")).expect("a file");
        memory.write(&beside().marks, b"nine", Path::new("")).expect("a file");
        for _ in 0..2 {
            assert_eq!(seen(&memory, &beside()), Version::new(9, Some("nine")).contents());
            finish(&memory, &beside().image).expect("it is finished");
        }
    }

    /// Where the room is not enough the pair is as it was, and nothing is left besides; with what is said to be needed it is enough.
    #[test]
    fn a_full_file_system_says_what_storing_needs() {
        let (old, new) = (Version::new(1, Some("one")), Version { bytes: vec![2; 64], ..Version::new(2, Some("two")) });
        for kind in [io::ErrorKind::StorageFull, io::ErrorKind::QuotaExceeded, io::ErrorKind::FileTooLarge] {
            let memory = |room| Memory { room: Some((room, kind)), ..Memory::new(&beside(), &old.contents()) };
            let used = memory(0).used();
            let needs = match new.store(&memory(used), &beside()) {
                Err(Error::NoRoom { path, needs, error }) if path == beside().image && error.kind() == kind => needs,
                other => panic!("{other:?}"),
            };
            let first = (used..).find(|&room| {
                let memory = memory(room);
                match new.store(&memory, &beside()) {
                    Ok(()) => return true,
                    Err(Error::NoRoom { needs: again, .. }) => assert_eq!(again, needs),
                    Err(other) => panic!("{other}"),
                }
                assert_eq!(seen(&memory, &beside()), old.contents());
                assert_eq!(memory.used(), used, "something is left");
                false
            });
            // the marks find room where the old image was
            assert_eq!(first.map(|room| room + "two".len()), Some(used + needs));
        }
    }

    #[test]
    fn a_note_reads_back() {
        let texts = [NewMarks::Kept, NewMarks::Removed, NewMarks::Text(b"a\nb\n\n".to_vec()), NewMarks::Text(vec![])];
        for (marks, was) in texts.into_iter().zip([None, Some(0), Some(u64::MAX), None]) {
            let marks_path = PathBuf::from(OsString::from_vec(vec![b'/', 0xff, b' ']));
            let note = Note { ending: ".e".into(), was, is: 5, marks_path, marks };
            let bytes = note.bytes();
            assert_eq!(Note::from_bytes(&bytes), Some(note));
            for length in 0..bytes.len() {
                assert_eq!(Note::from_bytes(&bytes[..length]), None);
            }
        }
    }
}

//! Discs in image files: the bytes of a disc, the marks of its sectors, and how both are replaced together.
//!
//! An image file is a dump of a disc, 2,048 bytes a sector. The marks of its sectors stand in a marks file, IMAGE.marks or another one, or
//! follow the rule of [`marks_by_rule`]; [`MARKS_FORMAT`] tells how such a file is written.
//!
//! [`Image::load`] reads the pair of files and writes nothing, so that a folder may be read-only. [`Image::load_to_write`] takes the
//! image's lock before, and holds it until the image is dropped: two processes cannot store over each other. [`Image::store`] replaces
//! both files so that whoever is stopped in it, at any call of the file system, leaves the old pair or the new one. [`Marking`] replaces
//! the marks alone, in the same way; [`marks_from_ddrescue`] tells which they are by the map of an imaging program.
//!
//! [`Image::open`] and [`Image::open_to_write`] do so with an image whose own descriptors tell its volume, as the tool makes them. [`Error`]
//! takes the answers of the layer too, so that `?` leads from a path to what is stored:
//!
//! ```
//! use tuormik::image::{Error, Image};
//!
//! fn save(path: &str, block: &[u8]) -> Result<(), Error> {
//!     let mut image = Image::open_to_write(path)?;
//!     let mut open = image.disc().open()?;
//!     open.save_virtual(0, block)?;
//!     open.commit()?;
//!     image.store()
//! }
//!
//! fn read(path: &str) -> Result<[u8; 2048], Error> {
//!     let image = Image::open(path)?;
//!     Ok(image.to_read().open()?.read(0)?)
//! }
//! # use tuormik::{descriptors::{write_volume, Volume}, write_maps, Maps};
//! # let path = std::env::temp_dir().join(format!("tuormik-saved-{}.img", std::process::id()));
//! # let volume = Volume { maps: write_maps(&Maps::WriteOnce { partition: 0 })?, start: 288, length: 100 };
//! # let mut image = Image::create(&path, None, 400, volume, true)?;
//! # image.disc().make(&[])?;
//! # for (at, bytes) in write_volume(&image.volume, 0).expect("descriptors") {
//! #     image.bytes[2048 * at..][..2048].copy_from_slice(&bytes);
//! # }
//! # image.marks[..288].fill(tuormik::RECORDED);
//! # image.store()?;
//! # drop(image);
//! # let path = path.to_str().expect("a path");
//! # let done = save(path, &[7; 2048]).and_then(|()| read(path));
//! # std::fs::remove_file(path).expect("the image is there");
//! # assert_eq!(done?, [7; 2048]);
//! # Ok::<(), Error>(())
//! ```

mod ddrescue;
mod files;
mod holder;
mod journal;
mod lock;
mod marking;
mod marks_file;
mod places;

use crate::descriptors::{find_volume, recognized, Volume};
use crate::numbers::{counted, grouped};
use crate::{marks_by_rule, read_maps, Disc, DiscRef, Maps, BLANK, MOST_SECTORS, PACKET, SECTOR};
use files::{folder_of, with_ending, Files, Stamp, System, MOST_BYTES};
use journal::{NewMarks, Pair};
use lock::Lock;
use marks_file::{fingerprint, is_marks_file, marks_text, read_marks};
use places::{is_same_file, located, marks_beside, need_readable, need_replaceable, settled};
use std::fmt;
use std::fs;
use std::io::{self, ErrorKind};
use std::path::{Path, PathBuf};

pub use ddrescue::marks_from_ddrescue;
pub use holder::Waited;
pub use marking::Marking;
pub use marks_file::{mark_name, MARKS_FORMAT};

/// Why an image is not read or not replaced, or a call on its disc did not come to its end.
#[derive(Debug)]
pub enum Error {
    /// A file that cannot be read or written.
    File {
        /// The file.
        path: PathBuf,
        /// What the system says.
        error: io::Error,
    },
    /// A file that is not what it should be.
    Wrong {
        /// The file.
        path: PathBuf,
        /// What is wrong with it.
        words: String,
    },
    /// A file that is no image of a disc, by what its bytes tell.
    NoImage {
        /// The file.
        path: PathBuf,
        /// What it is.
        what: String,
    },
    /// An image that is not there.
    Missing {
        /// The image.
        path: PathBuf,
    },
    /// An image that another program has changed since it was loaded; nothing was stored.
    Changed {
        /// The image.
        path: PathBuf,
    },
    /// A file system that has no room for what is to be stored; what was there is as it was.
    NoRoom {
        /// The file that was to be replaced.
        path: PathBuf,
        /// The bytes that storing takes beside what is there.
        needs: usize,
        /// What the system says.
        error: io::Error,
    },
    /// A file that is there already, where a new one is to be made.
    Exists {
        /// The file.
        path: PathBuf,
    },
    /// An image that another process has loaded to write it, and that does not seem to come to an end with it.
    Held {
        /// The image.
        path: PathBuf,
        /// The number of that process, where its lock tells it.
        by: Option<u32>,
    },
    /// An image that is stored, with files that are not all in their places yet; the next load to write puts them there, and until then a
    /// load finds them where they are.
    Unfinished {
        /// The image.
        path: PathBuf,
        /// What stood in the way.
        error: Box<Error>,
    },
    /// What the layer answered to a call.
    Call(crate::Error),
}

/// What a system says that has no room.
const NO_ROOM: [ErrorKind; 3] = [ErrorKind::StorageFull, ErrorKind::QuotaExceeded, ErrorKind::FileTooLarge];

impl Error {
    fn file(path: &Path, error: io::Error) -> Error {
        Error::File { path: path.to_owned(), error }
    }

    fn wrong(path: &Path, words: impl Into<String>) -> Error {
        Error::Wrong { path: path.to_owned(), words: words.into() }
    }

    fn missing(path: &Path) -> Error {
        Error::Missing { path: path.to_owned() }
    }

    fn changed(path: &Path) -> Error {
        Error::Changed { path: path.to_owned() }
    }

    fn unfinished(path: &Path, error: Error) -> Error {
        Error::Unfinished { path: path.to_owned(), error: Box::new(error) }
    }

    /// What an error comes to in storing a file, which takes so many bytes beside what is there.
    fn in_storing(self, path: &Path, needs: usize) -> Error {
        match self {
            Error::File { error, .. } if NO_ROOM.contains(&error.kind()) => Error::NoRoom { path: path.to_owned(), needs, error },
            other => other,
        }
    }
}

impl fmt::Display for Error {
    fn fmt(&self, f: &mut fmt::Formatter) -> fmt::Result {
        match self {
            Error::File { path, error } => write!(f, "{}: {error}", path.display()),
            Error::Wrong { path, words } => write!(f, "{}: {words}", path.display()),
            Error::NoImage { path, what } => write!(f, "{}: it is {what}", path.display()),
            Error::NoRoom { path, needs, error } => {
                write!(f, "{}: {error}: storing takes {} beside what is there", path.display(), counted(*needs, "byte"))
            }
            Error::Missing { path } => write!(f, "{}: there is no such file", path.display()),
            Error::Changed { path } => {
                write!(f, "{}: it or its marks were changed by another program meanwhile; nothing was stored", path.display())
            }
            Error::Exists { path } => write!(f, "{}: it is there already", path.display()),
            Error::Held { path, by: Some(by) } => {
                write!(f, "{}: process {by} is writing it, and no progress of it is seen; nothing was done here", path.display())
            }
            Error::Held { path, by: None } => write!(f, "{}: another process is writing it; nothing was done here", path.display()),
            Error::Unfinished { path, error } => {
                write!(
                    f,
                    "{}: it is stored, but not all is in its place ({error}); the next command that writes to it puts it there",
                    path.display()
                )
            }
            Error::Call(error) => error.fmt(f),
        }
    }
}

impl std::error::Error for Error {}

impl From<crate::Error> for Error {
    fn from(error: crate::Error) -> Error {
        Error::Call(error)
    }
}

/// A disc in memory, filled up with blank sectors to the partition's end, and where it came from.
pub struct Image {
    /// The bytes of the disc.
    pub bytes: Vec<u8>,
    /// The marks of its sectors.
    pub marks: Vec<u8>,
    /// The map list, S and L.
    pub volume: Volume,
    /// as it was asked for
    name: PathBuf,
    pair: Pair,
    /// sectors of the image file
    sectors: usize,
    /// what the marks file has, where there is one
    marks_text: Option<Vec<u8>>,
    /// what is held where the image is to be stored
    hold: Option<Hold>,
}

/// What is held of an image that is to be stored.
struct Hold {
    _lock: Lock,
    /// the fingerprint of the file that is replaced, if there is one
    was: Option<u64>,
    /// the stamps of image and marks as they were read
    stamps: [Option<Stamp>; 2],
}

impl Image {
    /// Makes an image that is not a file yet, of blank sectors, and takes its lock. A file of that name, or its marks, are replaced only
    /// where `replaces` says so.
    pub fn create(path: &Path, marks_path: Option<&Path>, sectors: usize, volume: Volume, replaces: bool) -> Result<Image, Error> {
        Image::create_waiting(path, marks_path, sectors, volume, replaces, &mut |_| {})
    }

    /// The same, telling of its waiting as [`Image::load_to_write_waiting`] does.
    pub fn create_waiting(
        path: &Path,
        marks_path: Option<&Path>,
        sectors: usize,
        volume: Volume,
        replaces: bool,
        tell: &mut dyn FnMut(Waited),
    ) -> Result<Image, Error> {
        let pair = located(path, marks_path)?;
        if pair.image == pair.marks {
            return Err(Error::wrong(path, "the image cannot be its own marks file"));
        }
        need_replaceable(&pair.image)?;
        need_replaceable(&pair.marks)?;
        let lock = Lock::take(&pair.image, tell)?;
        journal::finish(&System, &pair.image)?;
        let there = journal::read_pair(&System, &pair)?;
        for (is_there, path) in [(there.image.is_some(), &pair.image), (there.marks.is_some(), &pair.marks)] {
            if is_there && !replaces {
                return Err(Error::Exists { path: path.clone() });
            }
        }
        if there.marks.as_deref().is_some_and(|text| !is_marks_file(text)) {
            return Err(Error::wrong(&pair.marks, "it is there, and is no marks file"));
        }
        let hold = Hold { _lock: lock, was: there.image.as_deref().map(fingerprint), stamps: stamps(&pair)? };
        let (bytes, marks) = (vec![0; SECTOR * sectors], vec![BLANK; sectors]);
        Ok(Image { bytes, marks, volume, name: path.to_owned(), pair, sectors, marks_text: None, hold: Some(hold) })
    }

    /// Reads an image file whose volume its own descriptors tell, with its marks where they are beside it, as [`Image::load`] does.
    pub fn open(path: impl AsRef<Path>) -> Result<Image, Error> {
        let path = path.as_ref();
        Image::load(path, None, |bytes| described(path, bytes))
    }

    /// Takes the image's lock and reads it as [`Image::open`] does, to store it later, as [`Image::load_to_write`] does.
    pub fn open_to_write(path: impl AsRef<Path>) -> Result<Image, Error> {
        let path = path.as_ref();
        Image::load_to_write(path, None, |bytes| described(path, bytes))
    }

    /// Reads an image file. The marks are those of a marks file, named or beside the image, or follow the rule; the volume is the one
    /// that `find` finds, in the bytes or elsewhere. Nothing is written and nothing locked; what is read belongs together also where
    /// another process stores the image at that moment.
    pub fn load<E: From<Error>>(path: &Path, marks_path: Option<&Path>, find: impl FnOnce(&[u8]) -> Result<Volume, E>) -> Result<Image, E> {
        read_image(path, located(path, marks_path)?, marks_path.is_some(), find)
    }

    /// Takes the image's lock and reads it as [`Image::load`] does, to store it later. A store that was stopped is finished before. What
    /// cannot be replaced is refused: what is no regular file, and what is read-only. Where another process has the lock this one waits:
    /// on Linux as long as that one makes progress, and two seconds where none is seen.
    pub fn load_to_write<E: From<Error>>(
        path: &Path,
        marks_path: Option<&Path>,
        find: impl FnOnce(&[u8]) -> Result<Volume, E>,
    ) -> Result<Image, E> {
        Image::load_to_write_waiting(path, marks_path, find, &mut |_| {})
    }

    /// The same; while it waits, `tell` is told again and again for whom, and for how long so far.
    pub fn load_to_write_waiting<E: From<Error>>(
        path: &Path,
        marks_path: Option<&Path>,
        find: impl FnOnce(&[u8]) -> Result<Volume, E>,
        tell: &mut dyn FnMut(Waited),
    ) -> Result<Image, E> {
        let pair = located(path, marks_path)?;
        need_replaceable(&pair.image)?;
        need_replaceable(&pair.marks)?;
        let lock = Lock::take(&pair.image, tell)?;
        journal::finish(&System, &pair.image)?;
        let stamps = stamps(&pair)?;
        let mut image = read_image(path, pair, marks_path.is_some(), find)?;
        let was = Some(fingerprint(image.file_bytes()));
        image.hold = Some(Hold { _lock: lock, was, stamps });
        Ok(image)
    }

    /// The name by which the image was asked for.
    pub fn name(&self) -> &Path {
        &self.name
    }

    /// The disc as it is lent to the layer.
    pub fn disc(&mut self) -> Disc<'_> {
        Disc {
            bytes: &mut self.bytes,
            marks: &mut self.marks,
            maps: &self.volume.maps,
            start: self.volume.start,
            length: self.volume.length,
        }
    }

    /// The disc, to be read.
    pub fn to_read(&self) -> DiscRef<'_> {
        DiscRef { bytes: &self.bytes, marks: &self.marks, maps: &self.volume.maps, start: self.volume.start, length: self.volume.length }
    }

    /// The sectors of the image file: fewer than those of the disc where the file ends before the partition does.
    pub fn file_sectors(&self) -> usize {
        self.sectors
    }

    /// The bytes of the image file, without the sectors that fill the disc up.
    pub fn file_bytes(&self) -> &[u8] {
        &self.bytes[..SECTOR * self.sectors]
    }

    /// The marks file and its bytes, where there is one.
    pub fn marks_file(&self) -> Option<(&Path, &[u8])> {
        self.marks_text.as_deref().map(|text| (self.pair.marks.as_path(), text))
    }

    /// How the marks were found, in words.
    pub fn marks_source(&self) -> String {
        match self.marks_file() {
            Some((path, _)) => format!("from {}", path.file_name().unwrap_or(path.as_os_str()).to_string_lossy()),
            None => "by the rule that trailing sectors of zeros are blank".to_string(),
        }
    }

    /// Replaces the image file by this image, and its marks file where there is one or the marks do not follow the rule. Whoever is stopped
    /// in it leaves both files old or both new, as the next load reads them. An image that was loaded only to be read is not stored.
    pub fn store(&mut self) -> Result<(), Error> {
        let recorded = self.marks.iter().rposition(|&m| m != BLANK).map_or(0, |last| last + 1);
        self.sectors = self.sectors.max(recorded);
        let Some(hold) = &self.hold else {
            return Err(Error::wrong(&self.pair.image, "it was loaded to be read, and is not stored"));
        };
        if stamps(&self.pair)? != hold.stamps {
            return Err(Error::changed(&self.pair.image));
        }
        let (bytes, marks) = (self.file_bytes(), &self.marks[..self.sectors]);
        let print = fingerprint(bytes);
        let new_marks = if self.marks_text.is_some() || marks_by_rule(bytes) != marks {
            NewMarks::Text(marks_text(marks, print).into_bytes())
        } else if hold.stamps[1].is_some() {
            NewMarks::Removed
        } else {
            NewMarks::Kept
        };
        let marks_text = match &new_marks {
            NewMarks::Text(text) => Some(text.clone()),
            NewMarks::Kept | NewMarks::Removed => None,
        };
        journal::store(&System, &self.pair, hold.was, bytes, new_marks)?;
        // what follows does not undo the store
        let stamps = stamps(&self.pair).map_err(|error| Error::unfinished(&self.pair.image, error))?;
        self.marks_text = marks_text;
        if let Some(hold) = &mut self.hold {
            (hold.was, hold.stamps) = (Some(print), stamps);
        }
        Ok(())
    }

    /// Writes a file that is none of the image's own, as [`write_file`] does.
    pub fn write_output(&self, path: &Path, bytes: &[u8]) -> Result<(), Error> {
        need_other(path, [&self.pair.image, &self.pair.marks])?;
        write_file(path, bytes)
    }
}

/// An output must be none of the files of an image, which need not have a disc, nor be there.
pub fn need_output(path: &Path, image: &Path, marks_path: Option<&Path>) -> Result<(), Error> {
    // a name that leads to no file is none that could be written over
    let image = settled(image).ok();
    let marks = marks_path.map_or_else(|| image.as_deref().map(marks_beside), |path| settled(path).ok());
    need_other(path, image.iter().chain(&marks))
}

/// An output must be none of these files.
fn need_other<'a>(path: &Path, files: impl IntoIterator<Item = &'a PathBuf>) -> Result<(), Error> {
    let output = settled(path)?;
    for own in files {
        if output == *own || is_same_file(&output, own)? {
            return Err(Error::wrong(path, "it is the image or its marks file, and is not written over"));
        }
    }
    Ok(())
}

/// Writes a file whole, then renames it to its place. What is no regular file, or is read-only, stays as it is.
pub fn write_file(path: &Path, bytes: &[u8]) -> Result<(), Error> {
    let path = &settled(path)?;
    need_replaceable(path)?;
    let new = with_ending(path, &format!(".tuormik-new-{}", std::process::id()));
    let write = || -> io::Result<()> {
        System.write(&new, bytes, path)?;
        System.rename(&new, path)?;
        System.sync_folder(folder_of(path))
    };
    write().map_err(|e| {
        // what was half written is of no use
        let _ = fs::remove_file(&new);
        Error::file(path, e).in_storing(path, bytes.len())
    })
}

fn stamps(pair: &Pair) -> Result<[Option<Stamp>; 2], Error> {
    let stamp = |path: &Path| System.stamp(path).map_err(|e| Error::file(path, e));
    Ok([stamp(&pair.image)?, stamp(&pair.marks)?])
}

/// The volume that the descriptors of an image tell.
fn described(path: &Path, bytes: &[u8]) -> Result<Volume, Error> {
    find_volume(bytes).map_err(|why| Error::wrong(path, why.to_string()))
}

/// Reads image and marks, and finds the volume.
fn read_image<E: From<Error>>(
    name: &Path,
    pair: Pair,
    must_have_marks: bool,
    find: impl FnOnce(&[u8]) -> Result<Volume, E>,
) -> Result<Image, E> {
    need_readable(&pair.image)?;
    need_readable(&pair.marks)?;
    let contents = journal::read_pair(&System, &pair)?;
    let wrong = |words: String| Error::wrong(&pair.image, words);
    let mut bytes = contents.image.ok_or_else(|| Error::missing(&pair.image))?;
    need_image(&pair.image, &bytes)?;
    if must_have_marks && contents.marks.is_none() {
        return Err(Error::wrong(&pair.marks, "there is no such file").into());
    }
    let (volume, sectors) = (find(&bytes)?, bytes.len() / SECTOR);
    need_whole(&volume, sectors).map_err(wrong)?;
    let mut marks = match &contents.marks {
        Some(text) => read_marks(text, &bytes).map_err(|words| Error::wrong(&pair.marks, words))?,
        None => marks_by_rule(&bytes),
    };
    let end = (volume.start as usize).saturating_add(volume.length as usize);
    if sectors < end && end <= MOST_SECTORS {
        // a write-once disc ends at its last recorded sector: those from there to the partition's end are blank
        bytes.resize(SECTOR * end, 0);
        marks.resize(end, BLANK);
    }
    Ok(Image { bytes, marks, volume, name: name.to_owned(), pair, sectors, marks_text: contents.marks, hold: None })
}

/// The bytes of an image are whole sectors, as many as a disc can have.
fn need_sectors(length: usize) -> Result<(), String> {
    match length {
        0 => Err("it is empty: a disc has one sector at least".into()),
        _ if length >= MOST_BYTES => {
            Err(format!("it has more than {} bytes, and so more sectors than a disc of 1,048,576", grouped(MOST_BYTES - 1)))
        }
        _ if !length.is_multiple_of(SECTOR) => Err(format!(
            "it has {}, no multiple of 2,048: {} and {}",
            counted(length, "byte"),
            counted(length / SECTOR, "sector"),
            counted(length % SECTOR, "byte")
        )),
        _ => Ok(()),
    }
}

/// A file has the bytes of an image; where it has not, what it is, if they tell.
fn need_image(path: &Path, bytes: &[u8]) -> Result<(), Error> {
    need_sectors(bytes.len()).map_err(|words| match recognized(bytes) {
        Some(what) => Error::NoImage { path: path.to_owned(), what },
        None => Error::wrong(path, words),
    })
}

/// A rewritable disc is not shorter than its partition and its sparing tables: what is cut off there is lost, not blank.
fn need_whole(volume: &Volume, sectors: usize) -> Result<(), String> {
    let Ok(Maps::Rewritable { tables, .. }) = read_maps(&volume.maps) else {
        return Ok(());
    };
    let (start, length) = (u64::from(volume.start), u64::from(volume.length));
    let mut places = tables.iter().map(|&table| u64::from(table)).chain([start, length]);
    let is_aligned = places.all(|place| place.is_multiple_of(PACKET as u64));
    let end = tables.iter().map(|&table| u64::from(table) + PACKET as u64).fold(start + length, u64::max);
    // what is not aligned, or on no disc, the layer turns down
    if is_aligned && (sectors as u64) < end && end <= MOST_SECTORS as u64 {
        return Err(format!(
            "it has {}, and its partition and sparing tables end at {}: the rest was cut off",
            counted(sectors, "sector"),
            grouped(end)
        ));
    }
    Ok(())
}

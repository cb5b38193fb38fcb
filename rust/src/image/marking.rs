//! Marks given to the sectors of an image: its marks file is written, and nothing else.

use super::files::{Stamp, System};
use super::holder::Waited;
use super::journal::{self, Pair};
use super::lock::Lock;
use super::marks_file::{fingerprint, is_marks_file, marks_text, need_zeros, read_marks};
use super::places::{located, need_readable, need_replaceable};
use super::{need_image, stamps, Error};
use crate::numbers::{counted, grouped};
use crate::{marks_by_rule, BLANK, RECORDED, UNREADABLE};
use std::path::Path;

/// The marks that an image's sectors have.
const MARKS: [u8; 3] = [BLANK, RECORDED, UNREADABLE];

/// An image whose marks are to be changed, and they alone: no volume is looked for in it, and it may be read-only. Its lock is held until
/// this is dropped.
pub struct Marking {
    bytes: Vec<u8>,
    marks: Vec<u8>,
    pair: Pair,
    stamps: [Option<Stamp>; 2],
    _lock: Lock,
}

impl Marking {
    /// Takes the image's lock and reads its bytes and its marks. While it waits for the lock, `tell` is told as by
    /// [`Image::load_to_write_waiting`](super::Image::load_to_write_waiting).
    pub fn begin(path: &Path, marks_path: Option<&Path>, tell: &mut dyn FnMut(Waited)) -> Result<Marking, Error> {
        let (mut marking, text) = Marking::with_text(path, marks_path, tell)?;
        match text {
            Some(text) => marking.marks = read_marks(&text, &marking.bytes).map_err(|words| Error::wrong(&marking.pair.marks, words))?,
            None if marks_path.is_some() => return Err(Error::wrong(&marking.pair.marks, "there is no such file")),
            None => {}
        }
        Ok(marking)
    }

    /// The same for marks that are all new: at first they follow the rule. A marks file that is there is not read, since it may belong to
    /// bytes that the image had before; it is replaced only where `replaces` says so.
    pub fn begin_anew(path: &Path, marks_path: Option<&Path>, replaces: bool, tell: &mut dyn FnMut(Waited)) -> Result<Marking, Error> {
        let (marking, text) = Marking::with_text(path, marks_path, tell)?;
        match text {
            Some(_) if !replaces => Err(Error::Exists { path: marking.pair.marks }),
            Some(text) if !is_marks_file(&text) => Err(Error::wrong(&marking.pair.marks, "it is there, and is no marks file")),
            _ => Ok(marking),
        }
    }

    /// The image with marks by the rule, and the text of its marks file.
    fn with_text(path: &Path, marks_path: Option<&Path>, tell: &mut dyn FnMut(Waited)) -> Result<(Marking, Option<Vec<u8>>), Error> {
        let pair = located(path, marks_path)?;
        if pair.image == pair.marks {
            return Err(Error::wrong(path, "the image cannot be its own marks file"));
        }
        need_readable(&pair.image)?;
        need_replaceable(&pair.marks)?;
        let lock = Lock::take(&pair.image, tell)?;
        journal::finish(&System, &pair.image)?;
        let stamps = stamps(&pair)?;
        let contents = journal::read_pair(&System, &pair)?;
        let bytes = contents.image.ok_or_else(|| Error::missing(&pair.image))?;
        need_image(&pair.image, &bytes)?;
        Ok((Marking { marks: marks_by_rule(&bytes), bytes, pair, stamps, _lock: lock }, contents.marks))
    }

    /// The bytes of the image file.
    pub fn bytes(&self) -> &[u8] {
        &self.bytes
    }

    /// The marks of its sectors.
    pub fn marks(&self) -> &[u8] {
        &self.marks
    }

    /// Gives all sectors their marks.
    pub fn set_all(&mut self, marks: Vec<u8>) -> Result<(), Error> {
        if marks.len() != self.marks.len() {
            return Err(self.wrong(format!("it has {}, and not {}", counted(self.marks.len(), "sector"), grouped(marks.len()))));
        }
        self.marks = marks;
        Ok(())
    }

    /// Gives so many sectors from one on a mark.
    pub fn set(&mut self, mark: u8, from: usize, count: usize) -> Result<(), Error> {
        let sectors = self.marks.len();
        let named = from.checked_add(count).and_then(|end| self.marks.get_mut(from..end));
        match named {
            Some(named) if MARKS.contains(&mark) => {
                named.fill(mark);
                Ok(())
            }
            Some(_) => Err(self.wrong(format!("{mark} is no mark"))),
            None => Err(self.wrong(format!(
                "it has {}, too few for {} from sector {} on",
                counted(sectors, "sector"),
                grouped(count),
                grouped(from)
            ))),
        }
    }

    fn wrong(&self, words: impl Into<String>) -> Error {
        Error::wrong(&self.pair.image, words)
    }

    /// Writes the marks file. Whoever is stopped in it leaves the old one or the new one. A sector is not called blank where its bytes are
    /// not zeros.
    pub fn store(&mut self) -> Result<(), Error> {
        if stamps(&self.pair)? != self.stamps {
            return Err(Error::changed(&self.pair.image));
        }
        need_zeros(&self.marks, &self.bytes).map_err(|words| self.wrong(words))?;
        let image = fingerprint(&self.bytes);
        journal::store_marks(&System, &self.pair, image, marks_text(&self.marks, image).into_bytes())?;
        // what follows does not undo the store
        self.stamps = stamps(&self.pair).map_err(|error| Error::unfinished(&self.pair.image, error))?;
        Ok(())
    }
}

#[cfg(test)]
mod tests {
    use super::*;
    use crate::image::files::Files;
    use crate::SECTOR;
    use std::fs;
    use std::path::PathBuf;

    /// A folder with an image of four sectors, of which the second is not zeros.
    struct Folder(PathBuf);

    impl Folder {
        fn new(name: &str) -> Folder {
            let folder = std::env::temp_dir().join(format!("tuormik-marking-{name}-{}", std::process::id()));
            fs::create_dir_all(&folder).expect("a folder");
            let folder = Folder(folder);
            folder.write("d.img", &[[0; SECTOR], [7; SECTOR], [0; SECTOR], [0; SECTOR]].concat());
            folder
        }

        fn path(&self, name: &str) -> PathBuf {
            self.0.join(name)
        }

        fn write(&self, name: &str, bytes: &[u8]) {
            fs::write(self.path(name), bytes).expect("a file");
        }

        fn begin(&self) -> Result<Marking, Error> {
            Marking::begin(&self.path("d.img"), None, &mut |_| {})
        }

        fn marks(&self) -> Vec<u8> {
            self.begin().expect("an image").marks().to_vec()
        }
    }

    impl Drop for Folder {
        fn drop(&mut self) {
            let _ = fs::remove_dir_all(&self.0);
        }
    }

    #[test]
    fn marks_are_stored_and_the_image_is_as_it_was() {
        let folder = Folder::new("stored");
        let stamp = || System.stamp(&folder.path("d.img")).expect("a stamp");
        let old = stamp();
        let mut marking = folder.begin().expect("an image");
        assert_eq!(marking.marks(), [1, 1, 0, 0]);
        marking.set(UNREADABLE, 0, 1).expect("a mark");
        marking.set(RECORDED, 3, 1).expect("a mark");
        marking.store().expect("it is stored");
        // and once more, with what was stored before
        marking.set(BLANK, 0, 1).expect("a mark");
        marking.store().expect("it is stored");
        drop(marking);
        assert_eq!((folder.marks(), stamp()), (vec![0, 1, 0, 1], old));
        assert_eq!(fs::read_dir(&folder.0).expect("a folder").count(), 2);
    }

    #[test]
    fn what_is_not_marked() {
        let folder = Folder::new("refused");
        let mut marking = folder.begin().expect("an image");
        assert!(marking.set(3, 0, 1).is_err());
        for (from, count) in [(4, 1), (0, 5), (usize::MAX, 1), (1, usize::MAX)] {
            assert!(marking.set(BLANK, from, count).is_err_and(|error| error.to_string().contains("it has 4")), "{from} {count}");
        }
        assert!(marking.set_all(vec![1; 5]).is_err());
        marking.set_all(vec![0; 4]).expect("marks");
        let words = marking.store().expect_err("a sector has bytes").to_string();
        assert!(words.ends_with("sector 1 is called blank, and its bytes are not zeros"), "{words}");
        drop(marking);
        assert_eq!(folder.marks(), [1, 1, 0, 0]);
        assert!(!folder.path("d.img.marks").exists());
    }

    #[test]
    fn marks_of_other_bytes_are_replaced_where_it_is_asked_for() {
        let folder = Folder::new("anew");
        let anew = |replaces| Marking::begin_anew(&folder.path("d.img"), None, replaces, &mut |_| {});
        folder.write("d.img.marks", b"tuormik marks\nimage 0\n");
        assert!(folder.begin().is_err_and(|error| error.to_string().contains("other bytes")));
        assert!(matches!(anew(false), Err(Error::Exists { .. })));
        let mut marking = anew(true).expect("an image");
        marking.set_all(vec![2, 1, 1, 0]).expect("marks");
        marking.store().expect("it is stored");
        drop(marking);
        assert_eq!(folder.marks(), [2, 1, 1, 0]);
        // what is no marks file is not written over
        folder.write("d.img.marks", b"a letter");
        assert!(anew(true).is_err_and(|error| error.to_string().contains("is no marks file")));
    }

    #[test]
    fn an_image_that_another_program_changes_meanwhile_is_not_marked() {
        let folder = Folder::new("meanwhile");
        let mut marking = folder.begin().expect("an image");
        folder.write("d.img", &[7; SECTOR]);
        assert!(marking.store().is_err_and(|error| error.to_string().contains("by another program meanwhile")));
    }

    #[test]
    fn a_file_that_is_no_image() {
        let folder = Folder::new("none");
        folder.write("d.img", b"\xfd7zXZ\0 and so on");
        let words = folder.begin().err().expect("it is no image").to_string();
        assert!(words.ends_with("d.img: it is a file compressed by xz"), "{words}");
        assert!(Marking::begin(&folder.path("e.img"), None, &mut |_| {}).is_err());
        assert!(Marking::begin(&folder.path("d.img"), Some(&folder.path("d.img")), &mut |_| {}).is_err());
    }
}

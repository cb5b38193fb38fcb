//! The words of a command line, as its command takes them.

use super::entry::{nearest, Entry, SHORT};
use super::{words, Failure, ENTRIES};
use std::ffi::{OsStr, OsString};
use std::path::{Path, PathBuf};
use tuormik::{Cut, Effect};

/// A command's words: those in their places, and the options.
#[derive(Default)]
pub struct Args {
    words: Vec<OsString>,
    next: usize,
    options: Vec<(&'static str, Vec<OsString>)>,
}

/// What becomes of a write at which the power fails, with its words.
pub const EFFECTS: [(Effect, &str); 3] = [(Effect::Old, "old"), (Effect::Unreadable, "unreadable"), (Effect::Whole, "whole")];

fn usage(words: String) -> Failure {
    Failure::Usage(words)
}

/// Why an option is not taken.
fn no_option(entry: &Entry, name: &str) -> Failure {
    let is_elsewhere = ENTRIES.iter().any(|other| other.taken().any(|choice| choice.name == name));
    if is_elsewhere {
        return usage(format!("{} has no option {name}", entry.name));
    }
    let near = nearest(name, entry.taken().map(|choice| choice.name)).map_or(String::new(), |near| format!("; the nearest is {near}"));
    usage(format!("there is no option {name}{near}"))
}

impl Args {
    /// Takes the words that stand after a command's name apart.
    pub fn new(entry: &'static Entry, words: impl IntoIterator<Item = OsString>) -> Result<Args, Failure> {
        let mut args = Args::default();
        let mut words = words.into_iter();
        while let Some(word) = words.next() {
            let name = word.to_string_lossy().into_owned();
            if name == "--" {
                args.words.extend(words.by_ref());
            } else if !name.starts_with('-') || name == "-" {
                args.words.push(word);
            } else {
                args.take(entry, &name, &mut words)?;
            }
        }
        Ok(args)
    }

    /// Takes an option with its values, of which one may stand behind an equals sign.
    fn take(&mut self, entry: &'static Entry, name: &str, words: &mut impl Iterator<Item = OsString>) -> Result<(), Failure> {
        let (name, first) = name.split_once('=').map_or((name, None), |(name, value)| (name, Some(OsString::from(value))));
        let name = SHORT.iter().find(|(short, _)| *short == name).map_or(name, |(_, long)| long);
        if name == "--help" {
            self.options.push(("--help", Vec::new()));
            return Ok(());
        }
        let choice = entry.taken().find(|choice| choice.name == name).ok_or_else(|| no_option(entry, name))?;
        if first.is_some() && choice.values.len() != 1 {
            return Err(usage(format!("{name} does not take a value behind an equals sign")));
        }
        let values: Vec<OsString> = first.into_iter().chain(words).take(choice.values.len()).collect();
        match choice.values.get(values.len()) {
            Some(missing) => Err(usage(format!("{name} needs {missing}"))),
            None => {
                self.options.push((choice.name, values));
                Ok(())
            }
        }
    }

    pub fn has(&self, option: &str) -> bool {
        self.options.iter().any(|(name, _)| *name == option)
    }

    /// The values of an option, each time that it was given.
    pub fn all(&self, option: &'static str) -> impl Iterator<Item = &[OsString]> {
        self.options.iter().filter(move |(name, _)| *name == option).map(|(_, values)| &values[..])
    }

    /// The value of an option; one that is given twice has the last.
    pub fn value(&self, option: &'static str) -> Option<&OsStr> {
        self.all(option).last().and_then(|values| values.first()).map(OsString::as_os_str)
    }

    pub fn path(&self, option: &'static str) -> Option<&Path> {
        self.value(option).map(Path::new)
    }

    pub fn number(&self, option: &'static str) -> Result<Option<u32>, Failure> {
        self.value(option).map(|word| number(&word.to_string_lossy(), option)).transpose()
    }

    /// Numbers with commas between them.
    pub fn numbers(&self, option: &'static str) -> Result<Option<Vec<u32>>, Failure> {
        let Some(words) = self.value(option) else {
            return Ok(None);
        };
        let words = words.to_string_lossy();
        let words = words.split(',').filter(|word| !word.is_empty());
        words.map(|word| number(word, option)).collect::<Result<_, _>>().map(Some)
    }

    pub fn next_word(&mut self) -> Option<OsString> {
        let word = self.words.get(self.next)?.clone();
        self.next += 1;
        Some(word)
    }

    pub fn next_path(&mut self, what: &str) -> Result<PathBuf, Failure> {
        self.next_word().map(PathBuf::from).ok_or_else(|| missing(what))
    }

    /// A path, and all that follow it.
    pub fn next_paths(&mut self, what: &str) -> Result<Vec<PathBuf>, Failure> {
        let first = self.next_path(what)?;
        Ok(std::iter::once(first).chain(std::iter::from_fn(|| self.next_word().map(PathBuf::from))).collect())
    }

    pub fn next_number(&mut self, what: &str) -> Result<u32, Failure> {
        let word = self.next_word().ok_or_else(|| missing(what))?;
        number(&word.to_string_lossy(), what)
    }

    pub fn end(&self) -> Result<(), Failure> {
        match self.words.get(self.next) {
            Some(word) => Err(usage(format!("{} is a word too many", word.to_string_lossy()))),
            None => Ok(()),
        }
    }

    /// Where the power is to fail: `WRITE:old`, `WRITE:unreadable` or `WRITE:whole`.
    pub fn cut(&self) -> Result<Cut, Failure> {
        let Some(word) = self.value("--cut") else {
            return Ok(Cut::NONE);
        };
        let word = word.to_string_lossy();
        let (at, effect) = word.split_once(':').unwrap_or((&word, "old"));
        let effect = EFFECTS.iter().find(|(_, name)| *name == effect);
        let (effect, _) = effect.ok_or_else(|| usage(format!("--cut {word}: a write becomes old, unreadable or whole")))?;
        Ok(Cut::at(number(at, "--cut")?, *effect))
    }
}

/// That a word of the command line is not there.
pub fn missing(what: &str) -> Failure {
    usage(format!("{what} is missing"))
}

/// A number of a command line.
pub fn number(word: &str, what: &str) -> Result<u32, Failure> {
    words::number(word).ok_or_else(|| usage(format!("{what}: {word} is no number from 0 to 4,294,967,295")))
}

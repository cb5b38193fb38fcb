//! What a command is: its name, its help, its options and itself. All that there is to say of a command stands in its own entry.

use super::args::Args;
use super::output::Outputs;
use super::words::wrapped_at;
use super::Done;

/// A command.
pub struct Entry {
    /// Its name, of one word or of two.
    pub name: &'static str,
    /// What it does, in a line.
    pub line: &'static str,
    /// What stands after its name, for each way to call it.
    pub usage: &'static [&'static str],
    /// What it does, in paragraphs and items with a line break after each; an item is two spaces, a name, spaces and its words.
    pub about: &'static str,
    /// The options of its own.
    pub choices: &'static [Choice],
    /// Whether a volume can be given to it by hand.
    pub takes_volume: bool,
    /// Of a command that writes an image: what is so where a file fails it.
    pub writes: Option<&'static str>,
    pub run: fn(&mut Args, &mut Outputs) -> Done,
}

/// An option.
pub struct Choice {
    pub name: &'static str,
    /// What stands after its name.
    pub values: &'static [&'static str],
    pub words: &'static str,
}

impl Choice {
    pub const fn flag(name: &'static str, words: &'static str) -> Choice {
        Choice { name, values: &[], words }
    }

    /// The name, with another if there is one, and the values.
    pub fn usage(&self) -> String {
        let short = SHORT.iter().find(|(_, long)| *long == self.name).map_or(String::new(), |(short, _)| format!(", {short}"));
        let values: String = self.values.iter().map(|value| format!(" {value}")).collect();
        format!("{}{values}{short}", self.name)
    }
}

/// Options that have a short name too.
pub const SHORT: [(&str, &str); 2] = [("-h", "--help"), ("-o", "--output")];

/// What a writing command leaves where a file fails it.
pub const AS_IT_WAS: Option<&str> = Some("the image is as it was");

pub const FORCE: Choice = Choice::flag("--force", "goes on also where a sector that was passed over may be a newer VAT");
pub const CUT: Choice = Choice {
    name: "--cut",
    values: &["WRITE:EFFECT"],
    words: "the power fails at this sector write, counted from 1, which becomes old, unreadable or whole; the image is then stored as the \
            cut left it",
};
pub const AT: Choice = Choice {
    name: "--at",
    values: &["ICB"],
    words: "as the commit left them whose VAT ICB is at this logical block ('tuormik history' lists them)",
};

/// The options by which a volume is given.
pub const VOLUME: [Choice; 8] = [
    Choice { name: "--start", values: &["S"], words: "the partition's first sector" },
    Choice { name: "--length", values: &["L"], words: "its number of sectors" },
    Choice::flag("--write-once", "a write-once volume"),
    Choice { name: "--tables", values: &["T,.."], words: "a rewritable one, with sparing tables at these sectors" },
    Choice { name: "--table-bytes", values: &["N"], words: "the bytes of each table (2,048)" },
    Choice { name: "--partition", values: &["N"], words: "the partition number of the map list (0)" },
    Choice { name: "--maps", values: &["FILE"], words: "the map list itself" },
    Choice { name: "--marks", values: &["FILE"], words: "another marks file than IMAGE.marks" },
];

pub const VOLUME_ABOUT: &str = "\
The volume is the one that the image's own descriptors tell (anchor at sector 256, 512 or n - 256), or is given by hand:
";

pub const MARKS_ABOUT: &str = "\
The marks are those of a marks file, IMAGE.marks where there is one, or follow the rule that trailing sectors of zeros are blank.
";

/// The width of a help's lines, and of the names of options in it.
const WIDE: usize = 100;
const NAMES: usize = 23;

/// Options with their words, a line or more each.
pub fn choices_text<'a>(choices: impl IntoIterator<Item = &'a Choice>) -> String {
    let line = |choice: &Choice| wrapped_at(NAMES, WIDE, &format!("  {}", choice.usage()), choice.words);
    choices.into_iter().map(line).collect()
}

/// The name and the words of a line that begins with two spaces and has two or more between them.
pub fn item(line: &str) -> Option<(&str, &str)> {
    let (name, words) = line.strip_prefix("  ")?.split_once("  ")?;
    Some((name, words.trim_start())).filter(|(name, _)| !name.is_empty())
}

/// Paragraphs and items, broken into lines; other lines that begin with spaces stand as they are.
pub fn paragraphs(text: &str) -> String {
    let broken = |line: &str| match item(line) {
        Some((name, words)) => wrapped_at(line.len() - words.len(), WIDE, &format!("  {name}"), words),
        None if line.starts_with(' ') => format!("{line}\n"),
        None => wrapped_at(0, WIDE, "", line),
    };
    text.lines().map(broken).collect()
}

impl Entry {
    /// The options that the command takes.
    pub fn taken(&self) -> impl Iterator<Item = &Choice> {
        let volume: &[Choice] = if self.takes_volume { &VOLUME } else { &[] };
        self.choices.iter().chain(volume)
    }

    pub fn help(&self) -> String {
        let usage: String = self.usage.iter().map(|words| format!("tuormik {} {words}", self.name).trim_end().to_string() + "\n").collect();
        let mut text = format!("{usage}\n{}", paragraphs(self.about));
        if !self.choices.is_empty() {
            text.push_str(&format!("\n{}", choices_text(self.choices)));
        }
        if self.takes_volume {
            text.push_str("\n'tuormik help volume' tells how a volume and its marks are given by hand.\n");
        }
        text
    }
}

/// How a volume is given, and what a marks file is.
pub fn volume_help() -> String {
    let parts = [paragraphs(VOLUME_ABOUT), choices_text(&VOLUME), paragraphs(MARKS_ABOUT)];
    format!("{}\n{}", parts.concat(), paragraphs(tuormik::image::MARKS_FORMAT))
}

/// The name that is nearest to a word, if one is near: a slip of the finger or two away.
pub fn nearest<'a>(word: &str, names: impl IntoIterator<Item = &'a str>) -> Option<&'a str> {
    let far = |name: &str| distance(word, name);
    names.into_iter().min_by_key(|name| far(name)).filter(|name| far(name) <= 2 && far(name) < name.chars().count())
}

/// How many letters are put in, left out or exchanged from one word to the other.
fn distance(a: &str, b: &str) -> usize {
    let b: Vec<char> = b.chars().collect();
    let mut row: Vec<usize> = (0..=b.len()).collect();
    for (i, from) in a.chars().enumerate() {
        let mut diagonal = row[0];
        row[0] = i + 1;
        for (j, &to) in b.iter().enumerate() {
            let changed = diagonal + usize::from(from != to);
            diagonal = row[j + 1];
            row[j + 1] = changed.min(diagonal + 1).min(row[j] + 1);
        }
    }
    row[b.len()]
}

#[cfg(test)]
mod tests {
    use super::*;

    #[test]
    fn distances() {
        assert_eq!([distance("", "abc"), distance("abc", "abc"), distance("verfy", "verify"), distance("sved", "save")], [3, 0, 1, 2]);
        let names = ["info", "verify", "save", "map"];
        assert_eq!(nearest("verfiy", names), Some("verify"));
        assert_eq!(nearest("sav", names), Some("save"));
        assert_eq!(nearest("dance", names), None);
        assert_eq!(nearest("xy", names), None);
    }
}

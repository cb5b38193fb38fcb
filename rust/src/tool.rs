//! The commands of the tool, and how they end.

mod args;
mod bitmap;
mod commit;
mod commits;
mod date;
mod demo;
mod diff;
mod entry;
mod evidence;
mod export;
mod fields;
mod fit;
mod found;
mod free;
mod history;
mod images;
mod info;
mod json;
mod letters;
mod list;
mod make;
mod manual;
mod map;
mod marks;
mod media;
mod output;
mod page;
mod passed;
mod picture;
mod progress;
mod read;
mod refused;
mod report;
mod room;
mod rules;
mod save;
mod sha256;
mod space;
mod spare;
mod states;
mod summary;
mod verify;
mod volume;
mod words;
mod zeros;

use args::Args;
use entry::{nearest, Entry};
use output::Outputs;
use std::ffi::OsString;
use std::path::Path;
use tuormik::Refusal;

/// The commands, in the order in which they are listed.
const ENTRIES: [&Entry; 18] = [
    &info::ENTRY,
    &verify::ENTRY,
    &marks::ENTRY,
    &list::ENTRY,
    &read::ENTRY,
    &fit::ENTRY,
    &save::ENTRY,
    &free::ENTRY,
    &commit::ENTRY,
    &spare::ENTRY,
    &space::ENTRY,
    &make::ENTRY,
    &export::ENTRY,
    &diff::ENTRY,
    &report::ENTRY,
    &history::ENTRY,
    &map::ENTRY,
    &demo::ENTRY,
];

/// How a command ends.
mod status {
    pub const DONE: u8 = 0;
    pub const NO: u8 = 1;
    pub const WRONG: u8 = 2;
    pub const CUT: u8 = 3;
    pub const UNTOLD: u8 = 4;
    pub const OTHER_FORMAT: u8 = 5;

    /// Each in words.
    pub const WORDS: [(u8, &str); 6] = [
        (DONE, "done"),
        (NO, "turned down (the message gives the line of document 01 or 02), or the answer is no: damaged, different, or not all of it"),
        (WRONG, "a wrong command line, or a file that cannot be read or written"),
        (CUT, "the power was cut, as --cut asked; the image was stored as the cut left it"),
        (UNTOLD, "done, but the standard output did not take all of the answer"),
        (OTHER_FORMAT, "verify: not a disc of this format"),
    ];
}

/// Why a command did not come to its end.
pub enum Failure {
    /// The layer turned a call down: the case in a sentence, and the line of document 01 or 02.
    Refused(String, Refusal),
    /// The power failed in a call.
    Cut(String),
    /// A wrong command line.
    Usage(String),
    /// A file that cannot be read or written, or is not what it should be.
    File(String),
    /// The same, in words that say themselves what became of the image.
    FileTold(String),
    /// An image whose descriptors tell no volume.
    NoVolume(String),
    /// An image that should have a volume, and whose descriptors are not all there.
    LostVolume(String),
    /// All is said, and this is the status.
    Told(u8),
}

impl Failure {
    fn file(path: &Path, error: &std::io::Error) -> Failure {
        Failure::File(format!("{}: {error}", path.display()))
    }

    /// The end of a command that has said all: done where the status is 0.
    fn told(status: u8) -> Done {
        if status == status::DONE {
            Ok(())
        } else {
            Err(Failure::Told(status))
        }
    }

    fn status(&self) -> u8 {
        match self {
            Failure::Refused(..) => status::NO,
            Failure::Usage(_) | Failure::File(_) | Failure::FileTold(_) | Failure::NoVolume(_) | Failure::LostVolume(_) => status::WRONG,
            Failure::Cut(_) => status::CUT,
            Failure::Told(status) => *status,
        }
    }

    /// Whether it is about an image: others can still be told of.
    fn is_of_image(&self) -> bool {
        matches!(self, Failure::File(_) | Failure::FileTold(_) | Failure::NoVolume(_) | Failure::LostVolume(_) | Failure::Refused(..))
    }

    /// In a line.
    fn words(&self) -> String {
        match self {
            Failure::Refused(words, why) => format!("{words} ({})", why.place()),
            Failure::Usage(words)
            | Failure::File(words)
            | Failure::FileTold(words)
            | Failure::NoVolume(words)
            | Failure::LostVolume(words)
            | Failure::Cut(words) => words.clone(),
            Failure::Told(_) => String::new(),
        }
    }

    /// Says it, a refusal with its line of document 01 or 02, and gives the status.
    fn tell(&self, out: &mut Outputs) -> u8 {
        match self {
            Failure::Told(_) => {}
            Failure::Refused(words, why) => out.say(format_args!("{words}\nturned down: {why}")),
            other => out.say(other.words()),
        }
        self.status()
    }

    /// With what a command has to add: to a wrong command line where its help is, to a file that failed it what became of the image.
    fn of(self, entry: &Entry) -> Failure {
        match (self, entry.writes) {
            (Failure::Usage(words), _) => Failure::Usage(format!("{words}\n('tuormik help {}' tells how it is called)", entry.name)),
            (Failure::File(words), Some(kept)) => Failure::File(format!("{words}; {kept}")),
            (Failure::NoVolume(words), Some(kept)) => Failure::NoVolume(format!("{words}; {kept}")),
            (Failure::LostVolume(words), Some(kept)) => Failure::LostVolume(format!("{words}; {kept}")),
            (other, _) => other,
        }
    }
}

impl From<tuormik::image::Error> for Failure {
    fn from(error: tuormik::image::Error) -> Failure {
        use tuormik::image::Error::*;
        let words = error.to_string();
        match error {
            File { .. } | Wrong { .. } | NoRoom { .. } | Call(_) => Failure::File(words),
            Exists { .. } => Failure::File(format!("{words} (--force replaces it)")),
            NoImage { .. } => Failure::NoVolume(words),
            Missing { .. } | Changed { .. } | Held { .. } | Unfinished { .. } => Failure::FileTold(words),
        }
    }
}

type Done = Result<(), Failure>;

fn version() -> String {
    let layer = if cfg!(feature = "stand-in") { " (the plain implementation in the place of the proved library)" } else { "" };
    format!("tuormik {}{layer}", env!("CARGO_PKG_VERSION"))
}

/// What is common to the commands, in words.
const NUMBERS: &str = "Numbers are taken as 4096, 4,096 or 0x1000; in lists, where commas stand between numbers, without commas in them.";

/// Where the rest is told.
const MORE: &str = "'tuormik help COMMAND' tells the rest, 'tuormik help volume' how a volume and its marks are given by hand.";

fn help() -> String {
    let mut text =
        "tuormik: discs in the CD UDF format, through a proved block layer\n\nusage: tuormik COMMAND [WORDS] [OPTIONS]\n\n".to_string();
    for entry in ENTRIES {
        text.push_str(&format!("  {:<9}{}\n", entry.name, entry.line));
    }
    text.push('\n');
    text.push_str(&entry::paragraphs(MORE));
    text.push_str(&entry::paragraphs(NUMBERS));
    text.push_str("Status:\n");
    for (status, words) in status::WORDS {
        text.push_str(&words::wrapped_at(5, 100, &format!("  {status}"), words));
    }
    text
}

/// The command whose name the words begin with, and the words after it.
fn find(words: &[OsString]) -> Option<(&'static Entry, &[OsString])> {
    find_in(&ENTRIES, words)
}

/// The same of some commands. A name of two words goes before one of one.
fn find_in<'a>(entries: &[&'static Entry], words: &'a [OsString]) -> Option<(&'static Entry, &'a [OsString])> {
    let name = |count: usize| Some(words.get(..count)?.iter().map(|word| word.to_string_lossy()).collect::<Vec<_>>().join(" "));
    let named = |count: usize| {
        let name = name(count)?;
        let entry = entries.iter().find(|entry| entry.name == name)?;
        Some((*entry, &words[count..]))
    };
    named(2).or_else(|| named(1))
}

fn no_command(word: &OsString) -> Failure {
    let name = word.to_string_lossy();
    let near = nearest(&name, ENTRIES.iter().map(|entry| entry.name)).map_or(String::new(), |near| format!("; the nearest is {near}"));
    Failure::Usage(format!("there is no command {name}{near} ('tuormik help' lists them)"))
}

/// The help that is asked for: of all, of a command, of the volume, or the manual page.
fn help_of(words: &[OsString], out: &mut Outputs) -> Done {
    let text = match words {
        [] => help(),
        [word] if word == "volume" => entry::volume_help(),
        [word] if word == "--manual" => manual::page(),
        [word, ..] => find(words).ok_or_else(|| no_command(word))?.0.help(),
    };
    out.text(text);
    Ok(())
}

/// Does what the words ask for.
fn dispatch(words: &[OsString], out: &mut Outputs) -> Done {
    let Some(first) = words.first() else {
        return Err(Failure::Usage("which command? 'tuormik help' lists them".into()));
    };
    match first.to_string_lossy().as_ref() {
        "--help" | "-h" | "help" => return help_of(&words[1..], out),
        "--version" | "-V" => {
            out.line(version());
            return Ok(());
        }
        _ => {}
    }
    let (entry, rest) = find(words).ok_or_else(|| no_command(first))?;
    carry_out(entry, rest, out).map_err(|failure| failure.of(entry))
}

/// Carries out a command, or shows its help.
fn carry_out(entry: &'static Entry, words: &[OsString], out: &mut Outputs) -> Done {
    let mut args = Args::new(entry, words.iter().cloned())?;
    if args.has("--help") {
        out.text(entry.help());
        return Ok(());
    }
    (entry.run)(&mut args, out)
}

/// Runs the command line's words and gives the status. What the standard output did not take is said, but where who read it has closed it
/// and only an answer was lost.
pub fn run(words: impl Iterator<Item = OsString>, out: &mut Outputs) -> u8 {
    let words: Vec<OsString> = words.collect();
    let done = dispatch(&words, out);
    out.flush();
    let status = done.map_or_else(|failure| failure.tell(out), |()| status::DONE);
    let is_writing = find(&words).is_some_and(|(entry, _)| entry.writes.is_some()) && !out.is_only_read();
    match out.lost() {
        Some(error) if is_writing || !out.is_closed() => {
            let what =
                if is_writing && status == status::DONE { "all was done and stored, but what was to be told of it" } else { "the answer" };
            out.say(format_args!("{what} could not be written to the standard output: {error}"));
            status.max(if status == status::DONE { status::UNTOLD } else { status })
        }
        _ => status,
    }
}

/// Runs the words of this process.
pub fn main() -> u8 {
    run(std::env::args_os().skip(1), &mut Outputs::standard())
}

#[cfg(test)]
#[path = "../tests/folder/bitmaps.rs"]
mod bitmaps;

#[cfg(test)]
mod tests {
    use super::*;
    use std::cell::Cell;
    use std::collections::BTreeMap;
    use std::io::{self, ErrorKind, Write};
    use std::path::PathBuf;
    use std::rc::Rc;

    /// A name may have two words, and its first word may be a name too.
    #[test]
    fn commands_of_two_words() {
        static ADD: Entry = Entry { name: "season add", ..commit::ENTRY };
        static SEASON: Entry = Entry { name: "season", ..commit::ENTRY };
        let found = |line: &str| {
            let words: Vec<OsString> = line.split(' ').map(OsString::from).collect();
            find_in(&[&SEASON, &ADD], &words).map(|(entry, rest)| (entry.name, rest.len()))
        };
        assert_eq!(found("season add d.img harvest"), Some(("season add", 2)));
        assert_eq!(found("season d.img"), Some(("season", 1)));
        assert_eq!([found("add d.img"), found("seasons")], [None, None]);
        assert!(ADD.help().starts_with("tuormik season add IMAGE\n"));
    }

    /// An output that counts its writes, and fails from one of them on.
    #[derive(Clone)]
    struct Counted {
        writes: Rc<Cell<usize>>,
        fails: Option<(usize, ErrorKind)>,
    }

    impl Counted {
        fn new(fails: Option<(usize, ErrorKind)>) -> Counted {
            Counted { writes: Rc::default(), fails }
        }
    }

    impl Write for Counted {
        fn write(&mut self, bytes: &[u8]) -> io::Result<usize> {
            let at = self.writes.replace(self.writes.get() + 1);
            match self.fails {
                Some((from, kind)) if at >= from => Err(kind.into()),
                _ => Ok(bytes.len()),
            }
        }

        fn flush(&mut self) -> io::Result<()> {
            Ok(())
        }
    }

    /// A folder of discs, which is laid anew for each run.
    struct Folder(PathBuf);

    type Files = BTreeMap<PathBuf, Vec<u8>>;

    impl Folder {
        fn new() -> Folder {
            Folder(std::env::temp_dir().join(format!("tuormik-outputs-{}", std::process::id())))
        }

        fn lay(&self, files: &Files) {
            let _ = std::fs::remove_dir_all(&self.0);
            std::fs::create_dir_all(&self.0).expect("a folder");
            for (name, bytes) in files {
                std::fs::write(self.0.join(name), bytes).expect("a file");
            }
        }

        fn files(&self) -> Files {
            let mut files = Files::new();
            let mut folders = vec![self.0.clone()];
            while let Some(folder) = folders.pop() {
                for entry in std::fs::read_dir(folder).expect("a folder") {
                    let path = entry.expect("an entry").path();
                    if path.is_dir() {
                        folders.push(path);
                    } else {
                        let name = path.strip_prefix(&self.0).expect("a name").to_path_buf();
                        files.insert(name, std::fs::read(&path).expect("a file"));
                    }
                }
            }
            files
        }

        /// Runs a command line, in which a word that begins with a dot and a slash is a file of the folder, and gives the status.
        fn run(&self, line: &str, out: &Counted, err: &Counted) -> u8 {
            let in_folder = |word: &str| word.strip_prefix("./").map_or(word.into(), |name| self.0.join(name).into_os_string());
            run(line.split(' ').map(in_folder), &mut Outputs::new(out.clone(), err.clone()))
        }
    }

    impl Drop for Folder {
        fn drop(&mut self) {
            let _ = std::fs::remove_dir_all(&self.0);
        }
    }

    /// Discs of both kinds: one that is clean, one with what was not committed and an unreadable sector above its last commit, one with a
    /// space bitmap.
    fn discs(folder: &Folder) -> Files {
        folder.lay(&Files::from([
            ("text".into(), b"one".to_vec()),
            ("three".into(), vec![3; 3 * 2048]),
            ("packet".into(), vec![4; 65_536]),
            ("map".into(), b"0x0 + 1\n0 819200 +\n".to_vec()),
            ("bitmap".into(), bitmaps::bitmap(64, &[8..32, 40..64], 16)),
        ]));
        for line in [
            "make ./d.img --sectors 400 --write-once",
            "save ./d.img new ./three",
            "make ./e.img --sectors 400 --write-once",
            "save ./e.img new ./text",
            "make ./r.img --sectors 640 --tables 0,32,64 --spares 96,128 --length 64",
            "make ./b.img --sectors 640 --tables 0,32,64 --spares 96,128 --length 64",
            "save ./b.img 3 ./bitmap",
        ] {
            assert_eq!(folder.run(line, &Counted::new(None), &Counted::new(None)), 0, "{line}");
        }
        let line = "save ./e.img new ./three --cut 1:unreadable";
        assert_eq!(folder.run(line, &Counted::new(None), &Counted::new(None)), 3);
        let mut files = folder.files();
        bitmaps::name_bitmap(files.get_mut(Path::new("b.img")).expect("a disc"), 2048, 3);
        files.insert("b.img.marks".into(), b"tuormik marks\nrecorded 0 640\n".to_vec());
        files
    }

    /// Every command, done, turned down, cut and wrong.
    const LINES: [&str; 53] = [
        "help",
        "help save",
        "help volume",
        "--version",
        "dance",
        "info ./d.img ./e.img ./r.img",
        "info --json ./d.img ./none",
        "verify ./d.img ./r.img",
        "verify ./d.img ./e.img --history",
        "verify --json ./d.img ./e.img",
        "marks ./e.img",
        "marks ./d.img --set unreadable 290 1",
        "marks ./d.img --set blank 288 1",
        "marks ./d.img --from-ddrescue ./map --blank-from 293",
        "list ./d.img",
        "list ./r.img --all",
        "read ./d.img 0 3",
        "read ./d.img 0 --hex",
        "read ./e.img 0 --output ./out",
        "read ./d.img 9",
        "fit ./d.img new*9 commit",
        "fit ./d.img new*900 commit",
        "save ./d.img new ./three",
        "save ./d.img 0 ./text",
        "save ./d.img new ./three --no-commit",
        "save ./d.img new ./three --cut 1:whole",
        "save ./d.img new ./three --cut 1:unreadable",
        "save ./e.img new ./text",
        "save ./e.img new ./text --force",
        "save ./r.img 3 ./text",
        "save ./r.img 32 ./packet --packet",
        "save ./r.img 3 ./text --cut 9:unreadable",
        "free ./d.img 1",
        "free ./d.img 9",
        "commit ./d.img",
        "commit ./e.img --force --cut 1:old",
        "spare ./r.img 32",
        "spare ./r.img 32 --cut 33:whole",
        "space ./b.img",
        "space ./r.img",
        "space ./b.img find 3 --near 4",
        "space ./b.img find 25",
        "space ./b.img take 3 --near 4",
        "space ./b.img take 3 4 --cut 4:unreadable",
        "space ./b.img take 8 4 --cut 4:unreadable",
        "space ./b.img give-back 0 8",
        "make ./n.img --media cdrw --sectors 700",
        "export ./d.img ./copy",
        "diff ./d.img ./e.img",
        "report ./d.img",
        "history ./e.img",
        "map ./r.img ./r.svg",
        "demo",
    ];

    #[test]
    fn status_and_files_are_those_of_a_run_that_was_not_hindered() {
        let folder = Folder::new();
        let discs = discs(&folder);
        for entry in ENTRIES {
            assert!(LINES.iter().any(|line| line.starts_with(entry.name)), "{} is not tried", entry.name);
        }
        for line in LINES {
            folder.lay(&discs);
            let (out, err) = (Counted::new(None), Counted::new(None));
            let status = folder.run(line, &out, &err);
            let files = folder.files();
            let writing = ["save", "free", "commit", "spare", "make", "marks ./d.img", "space ./b.img take", "space ./b.img give-back"];
            let writes = writing.iter().any(|name| line.starts_with(name));
            assert!(!writes || status != 0 || files != discs, "{line} has changed nothing");
            for kind in [ErrorKind::BrokenPipe, ErrorKind::StorageFull] {
                let untold = if status == 0 && (writes || kind != ErrorKind::BrokenPipe) { status::UNTOLD } else { status };
                for at in 0..out.writes.get() {
                    folder.lay(&discs);
                    let hindered = folder.run(line, &Counted::new(Some((at, kind))), &Counted::new(None));
                    assert_eq!(hindered, untold, "{line}: the output fails at write {at}, {kind}");
                    assert!(folder.files() == files, "{line}: the output fails at write {at}, {kind}, and the files differ");
                }
                for at in 0..err.writes.get() {
                    folder.lay(&discs);
                    let hindered = folder.run(line, &Counted::new(None), &Counted::new(Some((at, kind))));
                    assert_eq!(hindered, status, "{line}: the messages fail at write {at}, {kind}");
                    assert!(folder.files() == files, "{line}: the messages fail at write {at}, {kind}, and the files differ");
                }
            }
        }
    }
}

//! A folder in which a test runs the tool.

#![allow(dead_code, reason = "each file of tests uses its part")]

pub mod bitmaps;
#[path = "../../second/tests/discs/sectors.rs"]
pub mod sectors;
pub mod written;

use std::path::PathBuf;
use std::process::{Child, Command, Output, Stdio};

/// A folder of one test.
pub struct Folder(pub PathBuf);

impl Folder {
    pub fn new(name: &str) -> Folder {
        let path = std::env::temp_dir().join(format!("tuormik-{name}-{}", std::process::id()));
        let _ = std::fs::remove_dir_all(&path);
        std::fs::create_dir_all(&path).expect("a folder");
        Folder(path.canonicalize().expect("a folder"))
    }

    /// A folder with a write-once disc `d.img` of 400 sectors, and a file `text` to save.
    pub fn with_disc(name: &str) -> Folder {
        let folder = Folder::new(name);
        folder.does(&["make", "d.img", "--sectors", "400", "--write-once"]);
        folder.write("text", b"one");
        folder
    }

    /// A folder with a rewritable disc `d.img` of 640 sectors, whose partition is at 288 and has so many, with three tables and these
    /// spares. A block of it has `a block`, which is in the file `text`; the file `packet` has the bytes of a packet.
    pub fn with_spares(name: &str, spares: &str, length: &str, block: &str) -> Folder {
        let folder = Folder::new(name);
        folder.does(&["make", "d.img", "--sectors", "640", "--tables", "0,32,64", "--spares", spares, "--length", length]);
        folder.write("text", b"a block");
        folder.write("packet", &[b'p'; 65_536]);
        folder.does(&["save", "d.img", block, "text"]);
        folder
    }

    pub fn command(&self, words: &[&str]) -> Command {
        let mut command = Command::new(env!("CARGO_BIN_EXE_tuormik"));
        command.args(words).current_dir(&self.0).stdin(Stdio::null()).stdout(Stdio::piped()).stderr(Stdio::piped());
        command
    }

    pub fn start(&self, words: &[&str]) -> Child {
        self.command(words).spawn().expect("the tool runs")
    }

    pub fn run(&self, words: &[&str]) -> (i32, String, String) {
        ended(self.start(words))
    }

    /// Runs it and expects status 0.
    pub fn does(&self, words: &[&str]) -> String {
        let (status, out, err) = self.run(words);
        assert_eq!(status, 0, "{words:?}: {err}");
        out
    }

    /// Runs it and expects a refusal by a line of 01, or of 02 from 22 on; gives the first line of the message.
    pub fn refuses(&self, line: u32, words: &[&str]) -> String {
        let (status, _, err) = self.run(words);
        assert_eq!(status, 1, "{words:?}: {err}");
        let document = if line < 22 { "01" } else { "02" };
        assert!(err.ends_with(&format!("({document}, line {line})\n")), "{words:?}: {err}");
        let first = err.lines().next().and_then(|first| first.strip_prefix("tuormik: ")).expect("a message");
        first.to_string()
    }

    /// Runs it and expects status 3, and a message that the image is as the cut left it.
    pub fn is_cut(&self, words: &[&str], where_it_was: &str) {
        let (status, _, err) = self.run(words);
        let told = format!("tuormik: the power failed at {where_it_was}; the image was stored as the cut left it\n");
        assert_eq!((status, err), (3, told), "{words:?}");
    }

    /// Runs it and expects status 2; gives the message.
    pub fn usage(&self, words: &[&str]) -> String {
        let (status, out, err) = self.run(words);
        assert_eq!((status, out.as_str()), (2, ""), "{words:?}");
        err.strip_prefix("tuormik: ").expect("a message").to_string()
    }

    /// Runs it and expects that it refuses with these words, and that no file has changed.
    pub fn turns_away(&self, words: &[&str], said: &[&str]) {
        let before = self.files();
        let (status, out, err) = self.run(words);
        assert_ne!(status, 0, "{words:?} was done: {out}");
        assert!(said.iter().all(|part| err.contains(part)), "{words:?}: {err}");
        assert_eq!(self.files(), before, "{words:?} changed the files");
    }

    pub fn path(&self, name: &str) -> PathBuf {
        self.0.join(name)
    }

    /// The files, each with its bytes where it has any.
    pub fn files(&self) -> Vec<(PathBuf, Option<Vec<u8>>)> {
        let entries = std::fs::read_dir(&self.0).expect("a folder").map(|entry| entry.expect("an entry").path());
        let mut files: Vec<_> = entries.map(|path| (path.clone(), std::fs::read(path).ok())).collect();
        files.sort();
        files
    }

    pub fn write(&self, name: &str, bytes: &[u8]) {
        std::fs::write(self.path(name), bytes).expect("a file");
    }

    pub fn bytes(&self, name: &str) -> Vec<u8> {
        std::fs::read(self.path(name)).expect("a file")
    }

    pub fn names(&self) -> Vec<String> {
        self.files().iter().map(|(path, _)| path.file_name().unwrap_or_default().to_string_lossy().into_owned()).collect()
    }
}

impl Drop for Folder {
    fn drop(&mut self) {
        let _ = std::fs::remove_dir_all(&self.0);
    }
}

/// What a tool that was started comes to: its status, its output and its messages.
pub fn ended(child: Child) -> (i32, String, String) {
    let Output { status, stdout, stderr } = child.wait_with_output().expect("the tool ends");
    let text = |bytes| String::from_utf8_lossy(bytes).into_owned();
    let (out, err) = (text(&stdout), text(&stderr));
    assert!(!err.contains("panicked"), "{err}");
    (status.code().expect("a status"), out, err)
}

/// Whether a program is installed.
pub fn is_installed(program: &str) -> bool {
    Command::new(program).arg("--version").stdout(Stdio::null()).status().is_ok_and(|status| status.success())
}

/// One of the lines of a text is this, but for its spaces.
pub fn has(text: &str, line: &str) {
    let squeezed = |l: &str| l.split_whitespace().collect::<Vec<_>>().join(" ");
    assert!(text.lines().any(|l| squeezed(l) == line), "'{line}' is not in\n{text}");
}

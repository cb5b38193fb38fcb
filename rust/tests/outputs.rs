//! What becomes of a command whose outputs fail: what is stored and what the status tells agree, whatever became of the report.

mod folder;

use folder::Folder;
use std::fs::{File, OpenOptions};
use std::process::Stdio;

const SECTOR: usize = 2048;

/// A pipe that nobody reads from.
fn closed() -> Stdio {
    let (reader, writer) = std::io::pipe().expect("a pipe");
    drop(reader);
    writer.into()
}

/// A device on which there is no room.
fn full() -> Stdio {
    OpenOptions::new().write(true).open("/dev/full").map(File::into).expect("/dev/full")
}

/// Runs the tool with these outputs and gives the status, and what it said on the standard error where that could be read.
fn run(folder: &Folder, words: &[&str], out: Stdio, err: Stdio) -> (i32, String) {
    let output = folder.command(words).stdout(out).stderr(err).output().expect("the tool runs");
    (output.status.code().expect("a status"), String::from_utf8_lossy(&output.stderr).into_owned())
}

#[test]
fn a_save_is_stored_whoever_reads_of_it() {
    let folder = Folder::with_disc("outputs-save");
    folder.write("three", &[b'3'; 3 * SECTOR]);
    for (i, out) in [closed(), full()].into_iter().enumerate() {
        let (status, err) = run(&folder, &["save", "d.img", "new", "three"], out, Stdio::piped());
        assert_eq!(status, 4, "{err}");
        assert!(err.starts_with("tuormik: all was done and stored, but what was to be told of it could not be written"), "{err}");
        folder.does(&["read", "d.img", "0", &(3 * (i + 1)).to_string()]);
    }
    // as it is asked for: nothing of it is said twice, and a cut is a cut
    let words = ["save", "d.img", "new", "three", "--cut", "1:old"];
    for out in [closed(), full()] {
        assert_eq!(run(&folder, &words, out, Stdio::piped()).0, 3);
    }
    // a refusal is a refusal
    for out in [closed(), full()] {
        assert_eq!(run(&folder, &["free", "d.img", "99"], out, Stdio::piped()).0, 1);
    }
}

#[test]
fn an_answer_has_its_status_whoever_reads_it() {
    let folder = Folder::with_disc("outputs-answer");
    folder.does(&["save", "d.img", "new", "text"]);
    folder.write("e.img", &folder.bytes("d.img"));
    folder.does(&["save", "e.img", "new", "text", "--no-commit"]);
    for (words, status) in [(&["verify", "d.img"][..], 0), (&["verify", "e.img"], 1), (&["read", "d.img", "0"], 0), (&["demo"], 0)] {
        let quiet = run(&folder, words, closed(), Stdio::piped());
        assert_eq!(quiet, (status, String::new()), "{words:?}");
        let (told, err) = run(&folder, words, full(), Stdio::piped());
        assert_eq!(told, if status == 0 { 4 } else { status }, "{words:?}");
        assert!(err.starts_with("tuormik: the answer could not be written to the standard output: "), "{err}");
    }
}

#[test]
fn messages_need_no_reader() {
    let folder = Folder::with_disc("outputs-messages");
    for (out, err) in [(closed(), closed()), (full(), full()), (Stdio::piped(), full()), (Stdio::piped(), closed())] {
        assert_eq!(run(&folder, &["read", "d.img", "7"], out, err).0, 1);
    }
    assert_eq!(run(&folder, &["commit", "d.img"], full(), full()).0, 4);
    let history = folder.does(&["history", "d.img"]);
    assert_eq!(history.lines().count(), 3, "{history}");
}

/// Nothing but `output.rs` names the outputs of the process.
#[test]
fn one_place_writes_to_the_outputs() {
    let sources = concat!(env!("CARGO_MANIFEST_DIR"), "/src");
    let mut folders = vec![std::path::PathBuf::from(sources)];
    let mut found = Vec::new();
    while let Some(folder) = folders.pop() {
        for entry in std::fs::read_dir(folder).expect("a folder") {
            let path = entry.expect("an entry").path();
            if path.is_dir() {
                folders.push(path);
                continue;
            }
            let text = std::fs::read_to_string(&path).expect("a source");
            if ["stdout()", "stderr()", "println!", "print!", "eprint"].iter().any(|word| text.contains(word)) {
                found.push(path.strip_prefix(sources).expect("a source").to_path_buf());
            }
        }
    }
    assert_eq!(found, [std::path::Path::new("tool/output.rs")]);
}

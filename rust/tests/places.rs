//! What stands in the place of an image, of its marks or of an output, and is none: each is said to be what it is, and nothing is written.

mod folder;

use folder::{ended, Folder};
use std::io::Write;
use std::os::unix::fs::symlink;
use std::os::unix::net::UnixListener;
use std::process::{Command, Stdio};

const MAKE: [&str; 4] = ["--sectors", "400", "--write-once", "--force"];

/// With a volume given by hand, so that nothing needs to be read to find one.
const BY_HAND: [&str; 5] = ["--start", "0", "--length", "9", "--write-once"];

#[test]
fn a_link_to_nothing_is_no_missing_marks_file() {
    let folder = Folder::with_disc("dangling");
    folder.does(&["save", "d.img", "new", "text"]);
    symlink("elsewhere/m", folder.path("d.img.marks")).expect("a link");
    let said = ["d.img.marks: ", "link to elsewhere/m"];
    for words in [&["info", "d.img"][..], &["read", "d.img", "0"], &["save", "d.img", "new", "text"], &["commit", "d.img"]] {
        folder.turns_away(words, &said);
    }
    folder.turns_away(&[&["make", "d.img"][..], &MAKE].concat(), &said);
    assert!(folder.run(&["verify", "d.img"]).1.contains("link to elsewhere/m"));
    // the same where the link is named, and where it stands in the place of the image
    folder.turns_away(&["info", "d.img", "--marks", "d.img.marks"], &said);
    folder.turns_away(&[&["make", "e.img", "--marks", "d.img.marks"][..], &MAKE].concat(), &said);
    folder.turns_away(&["info", "d.img.marks"], &said);
    folder.turns_away(&["marks", "d.img", "--set", "unreadable", "257", "1"], &said);
    folder.turns_away(&["read", "d.img", "0", "--output", "d.img.marks"], &said);
    // a page that tells of others besides is not written over it
    folder.does(&["make", "e.img", "--sectors", "400", "--write-once"]);
    let over = ["it is the image or its marks file, and is not written over"];
    folder.turns_away(&["report", "d.img", "e.img", "--output", "d.img"], &over);
    folder.turns_away(&["report", "d.img", "--marks", "nowhere/m", "--output", "d.img"], &over);
    // once there is something it is read
    std::fs::create_dir(folder.path("elsewhere")).expect("a folder");
    folder.write("elsewhere/m", b"tuormik marks\nunreadable 257 1\n");
    assert!(folder.does(&["info", "d.img"]).contains("1 unreadable"));
    // and written, as the file that a link to an image leads to
    folder.does(&["save", "d.img", "new", "text"]);
    assert!(folder.path("d.img.marks").is_symlink());
    assert!(folder.bytes("elsewhere/m").starts_with(b"tuormik marks\nimage "));
    assert!(folder.does(&["info", "d.img"]).contains("1 unreadable"));
}

/// Reads and writes to a place, and expects that it is said to be something.
fn is_called(folder: &Folder, place: &str, what: &str) {
    let what = [what];
    folder.turns_away(&["info", place], &what);
    folder.turns_away(&["info", "d.img", "--marks", place], &what);
    folder.turns_away(&["marks", place, "--set", "blank", "0", "1"], &what);
    folder.turns_away(&[&["save", place, "new", "text"][..], &BY_HAND].concat(), &what);
    folder.turns_away(&[&["make", place][..], &MAKE].concat(), &what);
    folder.turns_away(&["read", "d.img", "0", "--output", place], &what);
}

#[test]
fn what_is_no_file_is_called_what_it_is() {
    let folder = Folder::with_disc("no-file");
    folder.does(&["save", "d.img", "new", "text"]);
    is_called(&folder, ".", "it is a folder");
    is_called(&folder, "/dev/null", "it is a character device");
    let _socket = UnixListener::bind(folder.path("socket")).expect("a socket");
    is_called(&folder, "socket", "it is a socket");
    // in a folder of its own, since who looks at the files would wait for it
    std::fs::create_dir(folder.path("other")).expect("a folder");
    if Command::new("mkfifo").arg(folder.path("other/pipe")).status().is_ok_and(|status| status.success()) {
        is_called(&folder, "other/pipe", "it is a pipe");
    }
    folder.turns_away(&["info", "nowhere"], &["nowhere: there is no such file\n"]);
    folder.turns_away(&["info", "nowhere/d.img"], &["nowhere/d.img: its folder is not there\n"]);
}

#[test]
fn a_pipe_without_a_name_is_called_a_pipe() {
    let folder = Folder::with_disc("unnamed");
    let of_stdin = |words: &[&str]| {
        let mut tool = folder.command(words).stdin(Stdio::piped()).spawn().expect("the tool runs");
        // it is not read, and may be closed before
        let _ = tool.stdin.take().map(|mut stdin| stdin.write_all(b"bytes"));
        ended(tool)
    };
    for words in [&["info", "/dev/stdin"][..], &["info", "d.img", "--marks", "/dev/stdin"], &["commit", "/dev/stdin"]] {
        let (status, out, err) = of_stdin(words);
        assert_eq!((status, out.as_str()), (2, ""), "{words:?}");
        assert!(err.starts_with("tuormik: /dev/stdin: it is a pipe"), "{words:?}: {err}");
    }
    // what a shell hands over may be a file
    let disc = std::fs::File::open(folder.path("d.img")).expect("a file");
    let tool = folder.command(&["info", "/dev/stdin"]).stdin(disc).spawn().expect("the tool runs");
    assert_eq!(ended(tool).0, 0);
}

/// What is said of a file that is not replaced says so once, and nothing untrue of an image that is not there.
#[test]
fn what_became_of_the_image_is_said_once() {
    let folder = Folder::with_disc("once");
    folder.write("short", &[0; 100]);
    let cases = [
        (&["save", "nowhere", "new", "text"][..], "there is no such file\n"),
        (&["save", "d.img", "new", "nowhere"], "nowhere: No such file or directory (os error 2); the image is as it was\n"),
        (&["save", ".", "new", "text"], "it is a folder, and nothing is written to it; the image is as it was\n"),
        (&["commit", "short"], "0 sectors and 100 bytes; the image is as it was\n"),
        (&["make", "d.img", "--sectors", "400", "--write-once"], "it is there already (--force replaces it); no disc was made\n"),
    ];
    for (words, end) in cases {
        let said = folder.usage(words);
        assert!(said.ends_with(end), "{words:?}: {said}");
    }
}

#[test]
fn one_is_not_put_in_the_plural() {
    let folder = Folder::with_disc("one");
    folder.does(&["make", "r.img", "--sectors", "640", "--tables", "0", "--spares", "96,128", "--length", "64"]);
    let sectors = folder.bytes("r.img");
    for (name, length) in [("byte", 1), ("sector", 2048), ("odd", 2049)] {
        folder.write(name, &sectors[..length]);
    }
    let volume = ["--start", "288", "--length", "64", "--tables", "0"];
    folder.turns_away(&["info", "byte"], &["it has 1 byte, no multiple of 2,048: 0 sectors and 1 byte\n"]);
    folder.turns_away(&["info", "odd"], &["1 sector and 1 byte\n"]);
    folder.turns_away(&[&["info", "sector"][..], &volume].concat(), &["it has 1 sector, and its partition"]);
    folder.turns_away(&["save", "r.img", "0", "byte", "--packet"], &["it has 1 byte, no whole packets of 65,536"]);
    folder.turns_away(&["save", "d.img", "new", "odd", "--start", "399", "--length", "1", "--write-once"], &["of the disc's 1 block;"]);
    let info = folder.does(&["info", "r.img"]);
    assert!(info.contains("in sector 0 (2,048 bytes each)"), "{info}");
}

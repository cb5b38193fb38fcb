//! A file system that has no room for what is to be stored, by the limit that a shell sets to the length of files.

mod folder;

use folder::{ended, Folder};
use std::process::{Command, Stdio};

/// The tool, under a limit that an image of 400 sectors is above; the signal that comes with it is ignored, or ends the tool.
fn limited(folder: &Folder, signal: &str, words: &[&str]) -> Command {
    let script = format!("{signal} ulimit -c 0; ulimit -f 100; exec \"$0\" \"$@\"");
    let mut shell = Command::new("sh");
    shell.args(["-c", &script, env!("CARGO_BIN_EXE_tuormik")]).args(words).current_dir(&folder.0);
    shell.stdout(Stdio::piped()).stderr(Stdio::piped());
    shell
}

/// The last line that it says where it fails.
fn message(folder: &Folder, words: &[&str]) -> String {
    let tool = limited(folder, "trap '' XFSZ;", words).spawn().expect("a shell");
    let (status, _, err) = ended(tool);
    assert_eq!(status, 2, "{words:?}: {err}");
    err.lines().last().unwrap_or_default().to_string()
}

#[test]
fn a_store_without_room_says_how_much_it_needs() {
    let folder = Folder::with_disc("full");
    folder.write("zeros", &[0; 2048]);
    // with marks, which are stored too
    folder.does(&["save", "d.img", "new", "zeros", "--no-commit"]);
    assert!(folder.path("d.img.marks").exists());
    let before = folder.files();
    let said = message(&folder, &["save", "d.img", "new", "text"]);
    assert!(said.starts_with(&format!("tuormik: {}: ", folder.path("d.img").display())), "{said}");
    assert!(said.contains(": storing takes 819,") && said.ends_with(" bytes beside what is there; the image is as it was"), "{said}");
    assert_eq!(folder.files(), before);
    let said = message(&folder, &["make", "e.img", "--sectors", "400", "--write-once"]);
    assert!(said.contains(": storing takes 819,") && said.ends_with(" bytes beside what is there; no disc was made"), "{said}");
    assert_eq!(folder.files(), before);
}

#[test]
fn a_tool_that_the_limit_ends_leaves_the_image_as_it_was() {
    let folder = Folder::with_disc("limit");
    let before = folder.bytes("d.img");
    let status = limited(&folder, "", &["save", "d.img", "new", "text"]).status().expect("a shell");
    assert!(!status.success());
    assert_eq!(folder.bytes("d.img"), before);
    folder.does(&["save", "d.img", "new", "text"]);
    assert_eq!(folder.names(), ["d.img", "text"]);
}

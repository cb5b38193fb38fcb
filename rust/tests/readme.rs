//! What README shows of the tool, run as it is written.

mod folder;

use folder::sectors::unpack;
use folder::written::{examples, printed, Example};
use folder::Folder;

const README: &str = include_str!("../../README.md");
const SECTOR: usize = 2048;

/// A folder with the files that the commands name and do not make: three days' blocks, a disc with what was not committed, one with a
/// scratch, one with another file system, and one that mkudffs made.
fn shelf() -> Folder {
    let folder = Folder::new("readme");
    folder.write("may12", &[b'a'; SECTOR]);
    folder.write("may13", &[b'b'; 2 * SECTOR]);
    folder.write("may14", b"rain");
    for name in ["june.img", "scratched.img"] {
        folder.does(&["make", name, "--sectors", "4096", "--write-once"]);
        folder.write("blocks", &[b'c'; 120 * SECTOR]);
        folder.does(&["save", name, "new", "blocks"]);
    }
    folder.does(&["save", "june.img", "new", "may12", "--no-commit"]);
    folder.does(&["marks", "scratched.img", "--set", "unreadable", "389", "2"]);
    let mut photos = vec![0; 400 * SECTOR];
    photos[16 * SECTOR + 1..][..5].copy_from_slice(b"CD001");
    folder.write("photos.img", &photos);
    folder.write("clover.img", &unpack(include_bytes!("../second/tests/discs/real-cdrw-1.50-2048-tab2.sectors")));
    folder
}

#[test]
fn the_tool_prints_what_readme_shows() {
    let section = README.split("\n## ").find(|section| section.starts_with("The tool\n")).expect("a section");
    let examples = examples(section);
    assert!(examples.len() > 10);
    let folder = shelf();
    let commands: Vec<&str> = examples.iter().map(|example| example.command).collect();
    for (Example { command, shown }, printed) in examples.iter().zip(printed(&folder, &commands)) {
        let shown: Vec<&str> = shown.iter().copied().filter(|line| !line.is_empty()).collect();
        assert!(printed.lines().eq(shown), "README shows of '{command}' what it does not print:\n{printed}");
    }
}

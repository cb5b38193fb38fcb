//! The commands of docs/IMAGING.md, run as they are written, and what it says that they print. A file stands in the place of the drive, and
//! ddrescue is told in its test mode which sectors of it cannot be read.

mod folder;

use folder::written::{examples, printed, Example};
use folder::{is_installed, Folder};

const PAGE: &str = include_str!("../../docs/IMAGING.md");
const SECTOR: usize = 2048;

/// The drive, and what stands in its place: a disc of 4,096 sectors, of which 700 to 703 cannot be read.
const DRIVE: &str = "drive=/dev/sr0";
const STAND_IN: &str = "drive=disc; ddrescue() { command ddrescue -q -H bad \"$@\"; }";
const BAD: &str = "0 + 1\n0 1433600 +\n1433600 8192 -\n1441792 6946816 +\n";

#[test]
fn the_page_is_as_it_is_written() {
    if !is_installed("ddrescue") {
        eprintln!("ddrescue is not installed: the page is not tried");
        return;
    }
    let folder = Folder::new("imaging");
    folder.does(&["make", "disc", "--sectors", "4096", "--write-once"]);
    folder.write("blocks", &[b'a'; 600 * SECTOR]);
    folder.does(&["save", "disc", "new", "blocks"]);
    folder.write("bad", BAD.as_bytes());
    let examples = examples(PAGE);
    let commands: Vec<&str> = examples.iter().map(|example| if example.command == DRIVE { STAND_IN } else { example.command }).collect();
    assert_eq!(commands.iter().filter(|&&command| command == STAND_IN).count(), 1);
    let printed = printed(&folder, &commands);
    for (Example { command, shown }, printed) in examples.iter().zip(&printed) {
        let is_told = !shown.is_empty() || !command.starts_with("tuormik");
        assert!(!is_told || printed.lines().eq(shown.iter().copied()), "{command}\n{printed}");
    }
    for name in
        ["disc-001.img", "disc-001.img.marks", "disc-001.map", "disc-001/list.csv", "disc-001.html", "disc-001.sha256", "shelf.html"]
    {
        assert!(folder.path(name).is_file(), "{name} is not there");
    }
}

//! Nothing that was committed is buried in silence: what an opening passed over is said by every command, and what may be a newer VAT is not
//! written over unless that is asked for.

mod folder;

use folder::{has, Folder};

const SECTOR: usize = 2048;

/// A folder with a disc of three commits, each with a block more: their VAT ICBs are at blocks 0, 2, 4 and 6, sectors 288 to 294.
fn with_commits(name: &str) -> Folder {
    let folder = Folder::with_disc(name);
    for text in ["one", "two", "three"] {
        folder.write("text", text.as_bytes());
        folder.does(&["save", "d.img", "new", "text"]);
    }
    folder
}

/// Commands that read the disc as it is opened, and those that write to it.
const READING: [&[&str]; 10] = [
    &["info", "d.img"],
    &["info", "--json", "d.img"],
    &["list", "d.img"],
    &["read", "d.img", "0"],
    &["export", "d.img", "copy"],
    &["diff", "d.img", "d.img"],
    &["fit", "d.img", "new"],
    &["history", "d.img"],
    &["report", "d.img"],
    &["map", "d.img", "d.svg"],
];
const WRITING: [&[&str]; 4] =
    [&["save", "d.img", "new", "text"], &["save", "d.img", "0", "text", "--no-commit"], &["free", "d.img", "0"], &["commit", "d.img"]];

/// Every command says this; those that write do nothing but with --force, and then say what they leave behind.
fn is_said_by_all(folder: &Folder, warning: &str) {
    for words in READING {
        let (status, _, err) = folder.run(words);
        assert_eq!(status, 0, "{words:?}: {err}");
        assert!(err.starts_with(&format!("tuormik: warning: d.img: {warning}\n")), "{words:?}: {err}");
    }
    let (image, marks) = (folder.bytes("d.img"), std::fs::read(folder.path("d.img.marks")).ok());
    for words in WRITING {
        folder.turns_away(words, &[warning, "--force", "the image is as it was"]);
        let (status, _, err) = folder.run(&[words, &["--force"]].concat());
        assert_eq!(status, 0, "{words:?}: {err}");
        assert!(err.contains(warning) && err.contains("is left behind"), "{words:?}: {err}");
        assert_ne!(folder.bytes("d.img"), image, "{words:?}");
        folder.write("d.img", &image);
        match &marks {
            Some(marks) => folder.write("d.img.marks", marks),
            None => drop(std::fs::remove_file(folder.path("d.img.marks"))),
        }
    }
}

#[test]
fn the_newest_vat_cannot_be_read() {
    let folder = with_commits("buried-unreadable");
    folder.write("d.img.marks", b"tuormik marks\nunreadable 294 1\n");
    const WARNING: &str = "sectors 293 to 294 were passed over above the last VAT ICB: 1 recorded sector and 1 unreadable sector; block 6 \
                           (sector 294) cannot be read: it may be a newer VAT";
    is_said_by_all(&folder, WARNING);
    let (status, out, _) = folder.run(&["verify", "d.img"]);
    assert_eq!(status, 1);
    has(&out, &format!("d.img DAMAGED: {WARNING}"));
}

#[test]
fn the_newest_vat_was_cut_off() {
    let folder = with_commits("buried-cut-off");
    let bytes = folder.bytes("d.img");
    folder.write("d.img", &bytes[..SECTOR * 294]);
    is_said_by_all(
        &folder,
        "sector 293 was passed over above the last VAT ICB: 1 recorded sector; the image file ends before sector 294, and with it a newer \
         VAT may have been cut off",
    );
}

/// What was saved and not committed is said, and needs no --force: no VAT can be there.
#[test]
fn what_was_not_committed() {
    let folder = with_commits("buried-uncommitted");
    folder.does(&["save", "d.img", "0", "text", "--no-commit"]);
    for words in READING {
        let (status, _, err) = folder.run(words);
        assert_eq!(status, 0, "{words:?}: {err}");
        assert!(
            err.starts_with("tuormik: warning: d.img: sector 295 was passed over above the last VAT ICB: 1 recorded sector; "),
            "{err}"
        );
    }
    folder.does(&["commit", "d.img"]);
    assert_eq!(folder.run(&["read", "d.img", "0"]).2, "");
}

/// A disc is clean as its last commit left it, and an older commit has lost a block.
#[test]
fn older_commits_are_looked_at_where_it_is_asked_for() {
    let folder = with_commits("buried-history");
    folder.does(&["save", "d.img", "0", "text"]);
    let (status, out, _) = folder.run(&["verify", "d.img", "--history"]);
    assert_eq!(status, 0, "{out}");
    // block 0 was at sector 289, and is at 295 now
    folder.write("d.img.marks", b"tuormik marks\nunreadable 289 1\n");
    has(&folder.does(&["verify", "d.img"]), "d.img clean: write-once, 3 blocks used, 8.0 % full");
    let (status, out, _) = folder.run(&["verify", "d.img", "--history"]);
    assert_eq!(status, 1);
    let fault = |icb| format!("as of the commit at block {icb}, 1 block cannot be read: block 0 (sector 289, unreadable)");
    has(&out, &format!("d.img DAMAGED: {}; {}; {}", fault(6), fault(4), fault(2)));
    let (status, out, _) = folder.run(&["verify", "d.img", "--history", "--json"]);
    assert_eq!(status, 1);
    assert!(
        out.starts_with(r#"[{"image": "d.img", "verdict": "damaged", "status": 1, "disc": "write-once, 3 blocks used, 8.0 % full", "#),
        "{out}"
    );
    // a rewritable disc has no commits
    folder.does(&["make", "r.img", "--sectors", "640", "--tables", "0,32", "--spares", "96", "--length", "64"]);
    folder.does(&["verify", "r.img", "--history"]);
}

//! The marks of an image: told, taken from map files of GNU ddrescue, and set by hand.
//!
//! The maps in `tests/maps` were written by ddrescue 1.27 over a disc of 400 sectors: `retried.map` and `no-scrape.map` where sectors 300
//! to 309 could not be read (its test mode), the second with `-n`; `first-300-sectors.map` where it was asked for these alone.

mod folder;

use folder::{has, is_installed, Folder};
use std::process::Command;

const SECTOR: usize = 2048;
/// The sectors that could not be read.
const BAD: std::ops::Range<usize> = 300..310;

const RETRIED: &str = include_str!("maps/retried.map");
const NO_SCRAPE: &str = include_str!("maps/no-scrape.map");
const FIRST_300_SECTORS: &str = include_str!("maps/first-300-sectors.map");

/// A folder with a write-once disc of 400 sectors and 50 blocks, in sectors 289 to 338, and its copy `copy.img` as an imaging program
/// leaves it that could not read ten of them.
fn with_copy(name: &str) -> Folder {
    let folder = Folder::new(name);
    folder.does(&["make", "disc.img", "--sectors", "400", "--write-once"]);
    folder.write("blocks", &[7; 50 * SECTOR]);
    folder.does(&["save", "disc.img", "new", "blocks"]);
    let mut copy = folder.bytes("disc.img");
    copy[SECTOR * BAD.start..SECTOR * BAD.end].fill(0);
    folder.write("copy.img", &copy);
    folder
}

/// The lines of a marks file after the one with the fingerprint.
fn runs(folder: &Folder, name: &str) -> Vec<String> {
    let text = String::from_utf8(folder.bytes(name)).expect("a marks file");
    text.lines().skip(2).map(str::to_string).collect()
}

const BY_MAP: [&str; 3] = ["recorded 0 300", "unreadable 300 10", "recorded 310 90"];

#[test]
fn sectors_that_ddrescue_did_not_read_are_unreadable() {
    for (name, map) in [("retried", RETRIED), ("no-scrape", NO_SCRAPE)] {
        let folder = with_copy(&format!("marks-{name}"));
        let image = folder.bytes("copy.img");
        folder.write("copy.map", map.as_bytes());
        let told = folder.does(&["marks", "copy.img", "--from-ddrescue", "copy.map"]);
        has(&told, "400 sectors: 390 recorded, 10 unreadable, 0 blank");
        has(&told, "those from 340 on are zeros and not called blank: where nothing was recorded there, --blank-from 340 says so");
        assert_eq!(runs(&folder, "copy.img.marks"), BY_MAP);
        let told = folder.does(&["marks", "copy.img", "--from-ddrescue", "copy.map", "--force", "--blank-from", "340"]);
        assert_eq!(told, "400 sectors: 330 recorded, 10 unreadable, 60 blank\n");
        assert!(folder.bytes("copy.img") == image, "the image is as it was");
        let (status, out, _) = folder.run(&["verify", "copy.img"]);
        assert_eq!(status, 1);
        has(&out, "copy.img DAMAGED: 10 blocks cannot be read: blocks 11 to 20 (sectors 300 to 309, unreadable)");
    }
}

#[test]
fn what_was_never_recorded_is_blank() {
    let folder = with_copy("marks-blank");
    folder.write("copy.map", RETRIED.as_bytes());
    let too_low = ["marks", "copy.img", "--from-ddrescue", "copy.map", "--blank-from", "320"];
    folder.turns_away(&too_low, &["copy.img: sector 320 is called blank, and its bytes are not zeros"]);
    folder.does(&["marks", "copy.img", "--from-ddrescue", "copy.map", "--blank-from", "340"]);
    assert_eq!(runs(&folder, "copy.img.marks"), ["recorded 0 300", "unreadable 300 10", "recorded 310 30", "blank 340 60"]);
    // an image that ends where ddrescue was stopped
    let mut copy = folder.bytes("disc.img");
    copy.truncate(300 * SECTOR);
    folder.write("copy.img", &copy);
    folder.write("copy.map", FIRST_300_SECTORS.as_bytes());
    let by_map = ["marks", "copy.img", "--force", "--from-ddrescue", "copy.map"];
    folder.turns_away(&by_map, &["copy.map: it goes on to sector 399 with what was not read, and the image has 300: that may be blank"]);
    copy.resize(400 * SECTOR, 0);
    folder.write("copy.img", &copy);
    folder.does(&by_map);
    assert_eq!(runs(&folder, "copy.img.marks"), ["recorded 0 300", "unreadable 300 100"]);
}

#[test]
fn a_marks_file_is_replaced_by_force_alone() {
    let folder = with_copy("marks-force");
    folder.write("copy.map", RETRIED.as_bytes());
    let by_map = ["marks", "copy.img", "--from-ddrescue", "copy.map"];
    folder.does(&by_map);
    // a retry reads one sector more, and the marks belong to the bytes before it
    let mut copy = folder.bytes("copy.img");
    copy[SECTOR * 300..SECTOR * 301].fill(7);
    folder.write("copy.img", &copy);
    folder.write("copy.map", b"0 + 1\n0 616448 +\n616448 18432 -\n634880 184320 +\n");
    folder.turns_away(&["marks", "copy.img"], &["copy.img.marks: line 2: these marks belong to other bytes than the image has"]);
    folder.turns_away(&by_map, &["copy.img.marks: it is there already (--force replaces it)"]);
    folder.does(&[&by_map[..], &["--force"]].concat());
    assert_eq!(runs(&folder, "copy.img.marks"), ["recorded 0 301", "unreadable 301 9", "recorded 310 90"]);
}

#[test]
fn marks_are_told_by_runs() {
    let folder = with_copy("marks-told");
    let by_rule = "\
400 sectors: 340 recorded, 0 unreadable, 60 blank, by the rule that trailing sectors of zeros are blank
mark             from      count
recorded            0        340
blank             340         60
";
    assert_eq!(folder.does(&["marks", "copy.img"]), by_rule);
    folder.write("copy.map", RETRIED.as_bytes());
    folder.does(&["marks", "copy.img", "--from-ddrescue", "copy.map"]);
    let by_map = "\
400 sectors: 390 recorded, 10 unreadable, 0 blank, from copy.img.marks
mark             from      count
recorded            0        300
unreadable        300         10
recorded          310         90
";
    assert_eq!(folder.does(&["marks", "copy.img"]), by_map);
    assert_eq!(folder.does(&["marks", "disc.img"]), by_rule);
}

#[test]
fn marks_are_set_by_hand() {
    let folder = with_copy("marks-set");
    let image = folder.bytes("copy.img");
    let told = folder.does(&["marks", "copy.img", "--set", "unreadable", "300", "12", "--set", "recorded", "0x136", "2"]);
    assert_eq!(told, "400 sectors: 330 recorded, 10 unreadable, 60 blank\n");
    assert_eq!(runs(&folder, "copy.img.marks"), ["recorded 0 300", "unreadable 300 10", "recorded 310 30", "blank 340 60"]);
    // what was set stays, and with a map --set has the last word
    folder.does(&["marks", "copy.img", "--set", "recorded", "340", "10"]);
    assert_eq!(runs(&folder, "copy.img.marks"), ["recorded 0 300", "unreadable 300 10", "recorded 310 40", "blank 350 50"]);
    folder.write("copy.map", RETRIED.as_bytes());
    folder.does(&["marks", "copy.img", "--from-ddrescue", "copy.map", "--force", "--set", "blank", "300", "10"]);
    assert_eq!(runs(&folder, "copy.img.marks"), ["recorded 0 300", "blank 300 10", "recorded 310 90"]);
    assert!(folder.bytes("copy.img") == image, "the image is as it was");
}

#[test]
fn no_volume_is_needed() {
    let folder = Folder::new("marks-any");
    folder.write("noise", &[7; 9 * SECTOR]);
    folder.write("other", b"tuormik marks\n");
    folder.does(&["marks", "noise", "--set", "unreadable", "3", "2", "--marks", "other"]);
    assert_eq!(runs(&folder, "other"), ["recorded 0 3", "unreadable 3 2", "recorded 5 4"]);
    has(&folder.does(&["marks", "noise", "--marks", "other"]), "unreadable 3 2");
    has(&folder.does(&["marks", "noise"]), "recorded 0 9");
}

#[test]
fn an_image_that_is_write_protected_is_marked() {
    let folder = with_copy("marks-protected");
    let protected = |name: &str| {
        let path = folder.path(name);
        let mut permissions = std::fs::metadata(&path).expect("a file").permissions();
        permissions.set_readonly(true);
        std::fs::set_permissions(path, permissions).expect("permissions");
    };
    protected("copy.img");
    folder.does(&["marks", "copy.img", "--set", "unreadable", "300", "10"]);
    folder.turns_away(&["save", "copy.img", "new", "blocks"], &["copy.img: it is read-only"]);
    // its marks can be write-protected too
    protected("copy.img.marks");
    folder.turns_away(&["marks", "copy.img", "--set", "recorded", "300", "1"], &["copy.img.marks: it is read-only"]);
}

#[test]
fn what_is_not_marked() {
    let folder = with_copy("marks-refused");
    folder.write("copy.map", RETRIED.as_bytes());
    folder.write("short", &[7; SECTOR + 1]);
    let set = |mark, from, count| ["marks", "copy.img", "--set", mark, from, count];
    let by_map = |image, map| ["marks", image, "--from-ddrescue", map];
    folder.turns_away(&set("spoilt", "0", "1"), &["--set: spoilt is no mark, which is blank, recorded or unreadable"]);
    folder.turns_away(&set("blank", "one", "1"), &["--set: one is no number"]);
    folder.turns_away(&set("recorded", "390", "11"), &["copy.img: it has 400 sectors, too few for 11 from sector 390 on"]);
    folder.turns_away(&set("blank", "288", "1"), &["copy.img: sector 288 is called blank, and its bytes are not zeros"]);
    folder.turns_away(&["marks", "copy.img", "--set", "blank", "0"], &["--set needs COUNT"]);
    folder.turns_away(&["marks", "copy.img", "--blank-from", "340"], &["--blank-from goes with --from-ddrescue"]);
    folder.turns_away(&["marks", "copy.img", "--force"], &["--force goes with --from-ddrescue"]);
    folder.turns_away(&["marks", "copy.img", "--set", "recorded", "0", "1", "--marks", "none"], &["none: there is no such file"]);
    folder.turns_away(&by_map("copy.img", "none.map"), &["none.map: "]);
    folder.turns_away(&by_map("copy.img", "copy.img"), &["copy.img: "]);
    folder.turns_away(&by_map("copy.img", "short"), &["short: line 1: "]);
    folder.turns_away(&by_map("short", "copy.map"), &["short: it has 2,049 bytes, no multiple of 2,048"]);
    folder.turns_away(&by_map("none.img", "copy.map"), &["none.img: "]);
}

/// The real program over a disc of which some sectors cannot be read, as its test mode has it, where it is installed.
#[test]
fn ddrescue_itself() {
    if !is_installed("ddrescue") {
        eprintln!("ddrescue is not installed: its stored maps alone are read");
        return;
    }
    let folder = with_copy("marks-ddrescue");
    folder.write("bad", RETRIED.as_bytes());
    let (copy, rescued) = (folder.bytes("copy.img"), ["rescued.img", "rescued.map"]);
    for options in [["-n", "-q"], ["-r1", "-q"]] {
        let mut ddrescue = Command::new("ddrescue");
        ddrescue.args(options).args(["-b", "2048", "-H", "bad", "disc.img"]).args(rescued).current_dir(&folder.0);
        assert!(ddrescue.status().expect("ddrescue runs").success());
        assert!(folder.bytes("rescued.img") == copy, "it leaves zeros where it could not read");
        folder.does(&["marks", "rescued.img", "--from-ddrescue", "rescued.map", "--force"]);
        assert_eq!(runs(&folder, "rescued.img.marks"), BY_MAP);
    }
}

#[test]
fn zeros_without_marks_are_doubted() {
    let folder = with_copy("marks-zeros");
    let warning =
        "warning: 10 blocks are all zeros (the first is block 11, sector 300), and there is no marks file: they may not have been read";
    let (status, out, err) = folder.run(&["verify", "copy.img", "disc.img"]);
    assert_eq!((status, err.as_str()), (0, ""), "it is no fault");
    let told: Vec<&str> = out.lines().map(str::trim).collect();
    assert_eq!(told[1], warning, "{out}");
    assert!(told[0].starts_with("copy.img  clean") && told[2].starts_with("disc.img  clean") && told[3] == "2 images: 2 clean", "{out}");
    has(&folder.does(&["info", "copy.img"]), &warning.replace("warning:", "warning"));
    assert!(folder.does(&["info", "--json", "copy.img"]).contains(r#""blocks_in_doubt": 10"#));
    assert!(folder.does(&["verify", "--json", "copy.img"]).contains(r#""warnings": ["10 blocks are all zeros"#));
    assert!(!folder.does(&["info", "disc.img"]).contains("warning"));
    // with marks nothing is in doubt: who wrote them knows
    folder.does(&["marks", "copy.img", "--set", "recorded", "300", "10"]);
    assert!(!folder.does(&["verify", "copy.img"]).contains("warning"));
    assert!(folder.does(&["info", "--json", "copy.img"]).contains(r#""blocks_in_doubt": 0"#));
}

#[test]
fn zeros_of_a_rewritable_disc_are_doubted_too() {
    let folder = Folder::with_spares("marks-rewritable", "96,128", "64", "3");
    // as it has a marks file, it is known that its zeros were written
    assert!(!folder.does(&["verify", "d.img"]).contains("warning"));
    // without one, those before the last sector that is not zeros are in doubt
    std::fs::remove_file(folder.path("d.img.marks")).expect("a marks file");
    let words =
        "warning: 3 blocks are all zeros (the first is block 0, sector 288), and there is no marks file: they may not have been read";
    let (_, out, _) = folder.run(&["verify", "d.img"]);
    has(&out, words);
}

//! What an export comes to: its files, its list, its status.

mod folder;

use folder::{has, Folder};
use std::process::Command;

const SECTOR: usize = 2048;

/// What the blocks of a disc are filled with.
const LETTERS: &str = "abcde\0g";

/// A folder with a write-once disc of blocks 0 to 6, each filled with its own letter, of which block 2 is unused, and the marks `m`, by
/// which block 4 is unreadable and block 5 blank.
fn with_blocks(name: &str) -> Folder {
    let folder = Folder::with_disc(name);
    folder.write("letters", &filled(LETTERS));
    folder.does(&["save", "d.img", "new", "letters"]);
    folder.does(&["free", "d.img", "2"]);
    folder.write("m", b"tuormik marks\nrecorded 0 400\nunreadable 293 1\nblank 294 1\nblank 298 102\n");
    folder
}

/// The files of a folder in the folder, sorted.
fn names(folder: &Folder, name: &str) -> Vec<String> {
    let entries = std::fs::read_dir(folder.path(name)).expect("a folder").map(|entry| entry.expect("an entry").file_name());
    let mut names: Vec<String> = entries.map(|name| name.to_string_lossy().into_owned()).collect();
    names.sort();
    names
}

fn text(folder: &Folder, name: &str) -> String {
    String::from_utf8(folder.bytes(name)).expect("text")
}

/// The bytes of blocks that are filled with these letters.
fn filled(letters: &str) -> Vec<u8> {
    letters.bytes().flat_map(|letter| [letter; SECTOR]).collect()
}

/// The bytes of each block that a list gives a file, by its file and its offset.
fn by_list(folder: &Folder, name: &str) -> Vec<(String, Vec<u8>)> {
    let list = text(folder, &format!("{name}/list.csv"));
    let rows = list.lines().skip(1).map(|line| line.split(',').collect::<Vec<_>>());
    let kept = rows.filter(|row| !row[4].is_empty());
    kept.map(|row| {
        let offset: usize = row[5].parse().expect("an offset");
        (row[0].to_string(), folder.bytes(&format!("{name}/{}", row[4]))[offset..][..SECTOR].to_vec())
    })
    .collect()
}

#[test]
fn an_export_that_lacks_a_block_says_no() {
    let folder = with_blocks("export-lacks");
    // unused blocks are no fault
    has(&folder.does(&["export", "d.img", "whole"]), "exported 6 of 7 blocks to whole; skipped: 1 unused; list.csv lists all");
    let (status, out, err) = folder.run(&["export", "d.img", "out", "--marks", "m"]);
    assert_eq!(status, 1, "{err}");
    has(&out, "exported 4 of 7 blocks to out; skipped: 1 unused, 1 unreadable, 1 blank (never recorded); list.csv lists all");
    let said =
        "tuormik: not all is exported: 1 block cannot be read: block 4 (sector 293, unreadable); 1 block was never recorded: block 5 \
                (sector 294, blank)\n";
    assert_eq!(err, said);
    assert_eq!(names(&folder, "out"), ["block-0000.bin", "block-0001.bin", "block-0003.bin", "block-0006.bin", "list.csv"]);
    let list = "block,logical,sector,state,file,offset\n\
                0,1,289,recorded,block-0000.bin,0\n\
                1,2,290,recorded,block-0001.bin,0\n\
                2,,,unused,,\n\
                3,4,292,recorded,block-0003.bin,0\n\
                4,5,293,unreadable,,\n\
                5,6,294,blank,,\n\
                6,7,295,recorded,block-0006.bin,0\n";
    assert_eq!(text(&folder, "out/list.csv"), list);
    // each of the two alone
    for (marks, says) in [("unreadable 293 1", "cannot be read: block 4"), ("blank 294 1", "was never recorded: block 5")] {
        folder.write("m", format!("tuormik marks\nrecorded 0 400\n{marks}\nblank 298 102\n").as_bytes());
        let (status, _, err) = folder.run(&["export", "d.img", &says[..3], "--marks", "m"]);
        assert!(status == 1 && err.starts_with("tuormik: not all is exported: 1 block") && err.contains(says), "{status} {err}");
    }
}

#[test]
fn an_export_by_runs() {
    let folder = with_blocks("export-runs");
    let (status, out, err) = folder.run(&["export", "d.img", "out", "--runs", "--marks", "m"]);
    assert_eq!(status, 1, "{err}");
    let told = "exported 4 of 7 blocks in 3 files to out; skipped: 1 unused, 1 unreadable, 1 blank (never recorded); list.csv lists all";
    has(&out, told);
    assert_eq!(names(&folder, "out"), ["block-0003.bin", "block-0006.bin", "blocks-0000-0001.bin", "list.csv"]);
    assert_eq!(folder.bytes("out/blocks-0000-0001.bin"), filled("ab"));
    assert_eq!(folder.bytes("out/block-0003.bin"), filled("d"));
    let list = "block,logical,sector,state,file,offset\n\
                0,1,289,recorded,blocks-0000-0001.bin,0\n\
                1,2,290,recorded,blocks-0000-0001.bin,2048\n\
                2,,,unused,,\n\
                3,4,292,recorded,block-0003.bin,0\n\
                4,5,293,unreadable,,\n\
                5,6,294,blank,,\n\
                6,7,295,recorded,block-0006.bin,0\n";
    assert_eq!(text(&folder, "out/list.csv"), list);
    // blocks follow each other by their numbers, wherever their sectors are
    folder.does(&["save", "d.img", "4", "text"]);
    folder.does(&["export", "d.img", "again", "--runs"]);
    assert_eq!(names(&folder, "again"), ["blocks-0000-0001.bin", "blocks-0003-0006.bin", "list.csv"]);
    has(&text(&folder, "again/list.csv"), "4,10,298,recorded,blocks-0003-0006.bin,2048");
    assert_eq!(by_list(&folder, "again"), by_list_of_files(&folder));
}

/// The blocks of `d.img` by an export of a file a block.
fn by_list_of_files(folder: &Folder) -> Vec<(String, Vec<u8>)> {
    folder.does(&["export", "d.img", "files"]);
    by_list(folder, "files")
}

#[test]
fn an_export_in_one_file() {
    let folder = with_blocks("export-one");
    let (status, out, err) = folder.run(&["export", "d.img", "out", "--one-file", "--marks", "m"]);
    assert_eq!(status, 1, "{err}");
    has(&out, "exported 4 of 7 blocks in 1 file to out; skipped: 1 unused, 1 unreadable, 1 blank (never recorded); list.csv lists all");
    assert_eq!(names(&folder, "out"), ["blocks.bin", "list.csv"]);
    assert_eq!(folder.bytes("out/blocks.bin"), filled("abdg"));
    let list = "block,logical,sector,state,file,offset\n\
                0,1,289,recorded,blocks.bin,0\n\
                1,2,290,recorded,blocks.bin,2048\n\
                2,,,unused,,\n\
                3,4,292,recorded,blocks.bin,4096\n\
                4,5,293,unreadable,,\n\
                5,6,294,blank,,\n\
                6,7,295,recorded,blocks.bin,6144\n";
    assert_eq!(text(&folder, "out/list.csv"), list);
    // as a commit left it, and with no block at all
    folder.does(&["export", "d.img", "then", "--one-file", "--at", "8"]);
    assert_eq!(folder.bytes("then/blocks.bin"), filled(LETTERS));
    has(
        &folder.does(&["export", "d.img", "none", "--one-file", "--at", "0"]),
        "exported 0 of 0 blocks in 0 files to none; list.csv lists all",
    );
    assert_eq!(names(&folder, "none"), ["list.csv"]);
}

#[test]
fn a_rewritable_disc_with_spares_inside() {
    let folder = Folder::new("export-inside");
    folder.does(&["make", "d.img", "--sectors", "640", "--tables", "0,32", "--spares", "320", "--length", "96"]);
    let told = "exported 64 of 96 blocks in 2 files to out; skipped: 32 of spares; list.csv lists all\n";
    assert_eq!(folder.does(&["export", "d.img", "out", "--runs"]), told);
    assert_eq!(names(&folder, "out"), ["blocks-0000-0031.bin", "blocks-0064-0095.bin", "list.csv"]);
    has(&text(&folder, "out/list.csv"), "65,65,353,recorded,blocks-0064-0095.bin,2048");
    has(&text(&folder, "out/list.csv"), "32,32,320,of a spare,,");
}

#[test]
fn runs_and_one_file_exclude_each_other() {
    let folder = with_blocks("export-both");
    assert!(folder.usage(&["export", "d.img", "out", "--runs", "--one-file"]).starts_with("--runs and --one-file exclude each other\n"));
    assert!(!folder.path("out").exists());
}

/// Exports with files of at most so many units of 512 or 1,024 bytes: what is written beyond fails, as on a full file system.
fn export_limited(folder: &Folder, units: usize, words: &[&str]) -> (i32, String) {
    let script = format!("trap '' XFSZ; ulimit -f {units}; exec \"$@\"");
    let mut command = Command::new("sh");
    command.args(["-c", &script, "sh", env!("CARGO_BIN_EXE_tuormik"), "export", "d.img"]).args(words).current_dir(&folder.0);
    let output = command.output().expect("the tool runs");
    assert!(output.stdout.is_empty());
    (output.status.code().expect("a status"), String::from_utf8_lossy(&output.stderr).into_owned())
}

#[test]
fn an_export_that_a_file_fails_has_no_list() {
    let folder = Folder::new("export-full");
    folder.does(&["make", "d.img", "--sectors", "900", "--write-once"]);
    folder.write("many", &[7; 600 * SECTOR]);
    folder.does(&["save", "d.img", "new", "many"]);
    // too little for a block, for a run, for all in one file, and for the list alone
    let cases: [(usize, &[&str], &str, usize); 4] = [
        (1, &["a"], "a/block-0000.bin", 0),
        (400, &["b", "--runs"], "b/blocks-0000-0599.bin", 0),
        (400, &["c", "--one-file"], "c/blocks.bin", 0),
        (16, &["d"], "d/list.csv", 600),
    ];
    for (units, words, file, left) in cases {
        let (status, err) = export_limited(&folder, units, words);
        assert_eq!(status, 2, "{err}");
        assert!(err.starts_with("tuormik: ") && err.contains(&format!("{file}: File too large")), "{err}");
        assert!(err.ends_with("; the export is not whole, and has no list.csv\n"), "{err}");
        // what is half written does not stay
        let there = names(&folder, words[0]);
        assert_eq!((there.len(), there.iter().any(|name| name == "list.csv")), (left, false), "{there:?}");
    }
}

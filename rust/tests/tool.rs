//! The tool, run as a program: what it prints, its status, and what becomes of the files.

mod folder;

use folder::{ended, has, Folder};
use std::path::Path;

const COMMANDS: [&str; 18] = [
    "info", "verify", "marks", "list", "read", "fit", "save", "free", "commit", "spare", "space", "make", "export", "diff", "report",
    "history", "map", "demo",
];

#[test]
fn every_command_has_help() {
    let folder = Folder::new("help");
    let all = folder.does(&["--help"]);
    for command in COMMANDS {
        assert!(all.contains(command));
        let help = folder.does(&[command, "--help"]);
        assert!(help.starts_with(&format!("tuormik {command}")), "{help}");
        assert_eq!(folder.does(&["help", command]), help);
        assert!(help.lines().all(|line| line.chars().count() <= 100), "{help}");
    }
    assert!(all.lines().chain(folder.does(&["help", "volume"]).lines()).all(|line| line.chars().count() <= 100), "{all}");
    // a slip of the finger gets one line, and the nearest command or option
    assert_eq!(folder.usage(&["verfiy", "d.img"]), "there is no command verfiy; the nearest is verify ('tuormik help' lists them)\n");
    assert_eq!(folder.usage(&["help", "dance"]), "there is no command dance ('tuormik help' lists them)\n");
    assert!(folder.usage(&["save", "--no-comit"]).starts_with("there is no option --no-comit; the nearest is --no-commit\n"));
    assert!(folder.usage(&["info", "--cut", "1"]).starts_with("info has no option --cut\n"));
    folder.usage(&[]);
    folder.usage(&["dance"]);
    for command in COMMANDS {
        folder.usage(&[command, "--no-such-option"]);
        if !["info", "verify", "report"].contains(&command) {
            folder.usage(&[command, "a", "b", "c", "d", "e"]);
        }
        if command != "demo" {
            folder.usage(&[command]);
            let (status, ..) = folder.run(&[command, "no-such-image", "0", "no-such-file"]);
            assert_eq!(status, 2, "{command}");
        }
    }
}

#[test]
fn a_write_once_disc_lives() {
    let folder = Folder::new("once");
    folder.does(&["make", "d.img", "--sectors", "400", "--write-once"]);
    folder.usage(&["make", "d.img", "--sectors", "400", "--write-once"]);
    has(&folder.does(&["info", "d.img"]), "NWA 1");
    folder.write("text", b"the first block");
    let out = folder.does(&["save", "d.img", "new", "text"]);
    has(&out, "committed: N 1, NWA 3, last ICB 2");
    folder.write("two", &[7; 2049]);
    has(&folder.does(&["save", "d.img", "new", "two"]), "committed: N 3, NWA 6, last ICB 5");
    let block = folder.does(&["read", "d.img", "0"]);
    assert_eq!(block.trim_end_matches('\0'), "the first block");
    assert_eq!(block.len(), 2048);
    folder.does(&["read", "d.img", "1", "2", "--output", "out"]);
    let mut expected = vec![7; 2049];
    expected.resize(4096, 0);
    assert_eq!(folder.bytes("out"), expected);
    assert!(folder.does(&["read", "d.img", "0", "--hex"]).contains("the first block"));
    let list = folder.does(&["list", "d.img"]);
    has(&list, "0 1 289 recorded");
    has(&list, "2 4 292 recorded");
    folder.does(&["free", "d.img", "1"]);
    has(&folder.does(&["list", "d.img"]), "1 - - unused");
    folder.refuses(13, &["read", "d.img", "1"]);
    folder.refuses(13, &["free", "d.img", "1"]);
    folder.refuses(12, &["read", "d.img", "3"]);
    folder.refuses(12, &["save", "d.img", "4", "text"]);
    folder.refuses(7, &["spare", "d.img", "0"]);
    folder.refuses(3, &["spare", "d.img", "0", "text"]);
    folder.write("packet", &[7; 65_536]);
    folder.refuses(7, &["save", "d.img", "0", "packet", "--packet"]);
    let history = folder.does(&["history", "d.img"]);
    assert_eq!(history.lines().count(), 5, "{history}");
    // everything is still told by the rule, so no marks file and nothing else is there
    assert_eq!(folder.names(), ["d.img", "out", "packet", "text", "two"]);
}

#[test]
fn what_is_not_committed_is_passed_over() {
    let folder = Folder::new("passed");
    folder.does(&["make", "d.img", "--sectors", "400", "--write-once"]);
    folder.write("text", b"one");
    folder.does(&["save", "d.img", "new", "text", "--no-commit"]);
    let (_, info, warning) = folder.run(&["info", "d.img"]);
    has(&info, "passed over 1");
    assert!(warning.starts_with("tuormik: warning: d.img: sector 289 was passed over"), "{warning}");
    has(&folder.does(&["commit", "d.img"]), "committed: N 0, NWA 3, last ICB 2");
    assert_eq!(folder.run(&["info", "d.img"]).2, "");
    // a commit that is cut: the image is the disc as the cut left it
    folder.is_cut(&["save", "d.img", "new", "text", "--cut", "1:unreadable"], "write 1 of the commit, which became unreadable");
    has(&folder.does(&["info", "d.img"]), "passed over 2");
    assert!(folder.names().contains(&"d.img.marks".to_string()));
}

/// What `fit` tells is what the commands then come to, and the image is left alone.
#[test]
fn a_list_that_fits() {
    let folder = Folder::with_disc("fit");
    let before = folder.files();
    let out = folder.does(&["fit", "d.img", "new*40", "commit"]);
    assert_eq!(
        out,
        "fits: 41 sectors for 40 saves and 1 commit\nthen: N 40, NWA 42, 70 sectors left, 69 new blocks fit, committed together\n"
    );
    let out = folder.does(&["fit", "d.img", "0", "new", "1", "commit", "0", "2", "new"]);
    let expected = "fits: 7 sectors for 6 saves and 1 commit\n\
                    then: N 4, NWA 8, 104 sectors left, 103 new blocks fit, committed together\n\
                    what is saved last is not committed: a commit takes 1 sector more\n";
    assert_eq!(out, expected);
    has(&folder.does(&["fit", "d.img", "commit"]), "fits: 1 sector for 1 commit");
    has(&folder.does(&["fit", "d.img", "new*0"]), "fits: 0 sectors for an empty list");
    has(&folder.does(&["fit", "d.img", "new*109", "commit"]), "then: N 109, NWA 111, 1 sector left, no new block fits");
    assert_eq!(folder.files(), before);
    folder.write("forty", &[7; 40 * 2048]);
    let out = folder.does(&["save", "d.img", "new", "forty"]);
    let expected = "fits: 41 sectors for 40 saves and 1 commit\nforty: blocks 0 to 39\nsaved 40 blocks from 0 on\n\
                    committed: N 40, NWA 42, last ICB 41\n";
    assert_eq!(out, expected);
    has(&folder.does(&["info", "d.img"]), "room 69 new blocks fit, committed together");
    has(&folder.does(&["fit", "d.img", "new", "commit"]), "then: N 41, NWA 44, 68 sectors left, 67 new blocks fit, committed together");
    // 458 blocks are the last that fit into the ICB
    folder.does(&["make", "e.img", "--sectors", "2,000", "--write-once"]);
    has(&folder.does(&["fit", "e.img", "new*458", "commit", "new", "commit"]), "fits: 462 sectors for 459 saves and 2 commits");
    // what an opening passed over is told as by the other commands
    folder.does(&["save", "d.img", "0", "text", "--no-commit"]);
    let (status, out, err) = folder.run(&["fit", "d.img", "commit"]);
    assert_eq!((status, out.lines().count()), (0, 2), "{out}");
    assert_eq!(
        err,
        "tuormik: warning: d.img: sector 330 was passed over above the last VAT ICB: 1 recorded sector; blocks saved and not committed, or a \
         write that was cut\n"
    );
}

#[test]
fn wrong_items() {
    let folder = Folder::with_disc("fit-usage");
    for word in ["news", "new*", "new*x", "new40", "commits", "-1", "1.5", "*", ""] {
        folder.usage(&["fit", "d.img", "0", word]);
    }
    assert!(folder.usage(&["fit", "d.img"]).starts_with("ITEM is missing"));
    assert!(folder.usage(&["fit", "d.img", "old"]).starts_with("ITEM: old is no block number, and not new, new*COUNT or commit\n"));
}

/// Several blocks that do not all fit are refused before any is saved.
#[test]
fn saves_that_do_not_fit() {
    let folder = Folder::with_disc("save-fit");
    folder.write("some", &[7; 100 * 2048]);
    folder.does(&["save", "d.img", "new", "some"]);
    folder.write("many", &[8; 12 * 2048]);
    folder.turns_away(
        &["save", "d.img", "new", "many"],
        &["no room for block 109: 1 sector is free, and the save and its commit need 2; of 12 blocks the first 9 would fit, and nothing was written\n"],
    );
    folder.turns_away(&["save", "d.img", "50", "many", "--no-commit"], &["no room for block 59: ", "of 12 blocks the first 9 would fit"]);
    folder.turns_away(&["save", "d.img", "new", "many", "--cut", "1:old"], &["no room for block 109: ", "(01, line 16)\n"]);
    // numbers that are not there, from the first block on
    folder.turns_away(
        &["save", "d.img", "101", "many"],
        &["block 101 cannot be saved yet: the disc has 100 blocks, 0 to 99, and the next new one is 100\n"],
    );
    folder.turns_away(&["save", "d.img", "0x80000000", "many"], &["block 2,147,483,648 cannot be saved", "(01, line 12)\n"]);
    folder.turns_away(&["save", "d.img", "0xffffffff", "many"], &["block 4,294,967,295 cannot be saved", "(01, line 12)\n"]);
    folder.write("nine", &[8; 9 * 2048]);
    has(&folder.does(&["save", "d.img", "new", "nine"]), "committed: N 109, NWA 112, last ICB 111");
}

/// Of several files each begins at a block of its own; they are forecast together.
#[test]
fn several_files() {
    let folder = Folder::with_disc("save-files");
    folder.write("long", &[7; 2049]);
    folder.write("short", b"two");
    let out = folder.does(&["save", "d.img", "new", "text", "long", "short"]);
    let expected = "fits: 5 sectors for 4 saves and 1 commit\n\
                    text: block 0, filled up with 2,045 bytes of zeros\n\
                    long: blocks 1 to 2, the last filled up with 2,047 bytes of zeros\n\
                    short: block 3, filled up with 2,045 bytes of zeros\n\
                    saved 4 blocks from 0 on\n\
                    committed: N 4, NWA 6, last ICB 5\n";
    assert_eq!(out, expected);
    let out = folder.does(&["read", "d.img", "0", "4", "--output", "all"]);
    assert_eq!(out, "");
    let filled = |bytes: &[u8], length: usize| [bytes, &vec![0; length - bytes.len()]].concat();
    assert_eq!(folder.bytes("all"), [filled(b"one", 2048), filled(&[7; 2049], 4096), filled(b"two", 2048)].concat());
    let out = folder.does(&["save", "d.img", "1", "short", "text", "--no-commit"]);
    let expected = "fits: 2 sectors for 2 saves\n\
                    short: block 1, filled up with 2,045 bytes of zeros\n\
                    text: block 2, filled up with 2,045 bytes of zeros\n\
                    saved 2 blocks from 1 on; not committed, so an opening does not find it\n";
    assert_eq!(out, expected);
    // a second file that is not there, or does not fit
    folder.turns_away(&["save", "d.img", "new", "text", "none"], &["none"]);
    folder.write("most", &[7; 102 * 2048]);
    folder.turns_away(
        &["save", "d.img", "new", "text", "most", "text"],
        &["no room for block 107: 1 sector is free, and the save and its commit need 2; of 104 blocks the first 103 would fit, and nothing was written\n"],
    );
    // on a rewritable disc too, where nothing is forecast
    folder.does(&["make", "r.img", "--sectors", "640", "--tables", "0,32", "--spares", "64,96,128,160"]);
    let out = folder.does(&["save", "r.img", "3", "text", "short"]);
    let expected = "text: block 3, filled up with 2,045 bytes of zeros\n\
                    short: block 4, filled up with 2,045 bytes of zeros\n\
                    saved 2 blocks from 3 on; what blocks 3 to 4 had before is replaced\n";
    assert_eq!(out, expected);
}

/// A disc holds 4,096 blocks.
#[test]
fn more_blocks_than_a_disc_holds() {
    let folder = Folder::new("save-most");
    folder.does(&["make", "d.img", "--sectors", "9,000", "--write-once"]);
    has(&folder.does(&["fit", "d.img", "new*4,096", "commit"]), "fits: 4,106 sectors for 4,096 saves and 1 commit");
    let line = folder.refuses(12, &["fit", "d.img", "new*4294967295"]);
    let sentence = "block 4,096 cannot be saved: a write-once disc holds at most 4,096 blocks";
    assert_eq!(line, format!("item 4,096 (save 4,096), after the 4,096 before it: {sentence}"));
    folder.write("some", &[7; 10 * 2048]);
    folder.write("most", &[7; 4_090 * 2048]);
    folder.does(&["save", "d.img", "new", "most"]);
    let words = folder.refuses(12, &["save", "d.img", "new", "some"]);
    assert_eq!(words, format!("{sentence}; of 10 blocks the first 6 would fit, and nothing was written"));
}

#[test]
fn a_block_of_zeros_needs_a_marks_file() {
    let folder = Folder::new("zeros");
    folder.does(&["make", "d.img", "--sectors", "400", "--write-once"]);
    folder.write("zeros", &[0; 2048]);
    folder.does(&["save", "d.img", "new", "zeros", "--no-commit"]);
    has(&folder.does(&["info", "d.img"]), "passed over 1");
    assert_eq!(folder.names(), ["d.img", "d.img.marks", "zeros"]);
    // marks that go with another image are not taken
    folder.does(&["make", "e.img", "--sectors", "401", "--write-once"]);
    std::fs::copy(folder.path("d.img.marks"), folder.path("e.img.marks")).expect("a copy");
    folder.usage(&["info", "e.img"]);
    folder.does(&["commit", "d.img"]);
    has(&folder.does(&["info", "d.img"]), "passed over 0");
}

#[test]
fn marks_by_hand() {
    let folder = Folder::new("marks");
    folder.does(&["make", "d.img", "--sectors", "400", "--write-once"]);
    folder.write("text", b"one");
    folder.does(&["save", "d.img", "new", "text"]);
    folder.write("m", b"tuormik marks\nrecorded 256 35\nunreadable 289 1\n");
    folder.refuses(14, &["read", "d.img", "0", "--marks", "m"]);
    has(&folder.does(&["list", "d.img", "--marks", "m"]), "0 1 289 unreadable");
    folder.usage(&["info", "d.img", "--marks", "text"]);
    folder.usage(&["info", "d.img", "--marks", "not-there"]);
}

#[test]
fn a_rewritable_disc_lives() {
    let folder = Folder::new("rewritable");
    let make = ["make", "d.img", "--sectors", "640", "--tables", "0,32,64", "--spares", "96,128", "--length", "64"];
    folder.does(&make);
    let info = folder.does(&["info", "d.img"]);
    has(&info, "R 2 (0 used, 0 defective, 2 free)");
    folder.write("text", b"a block");
    folder.does(&["save", "d.img", "40", "text"]);
    assert!(folder.does(&["read", "d.img", "40"]).starts_with("a block"));
    has(&folder.does(&["spare", "d.img", "32"]), "spared the packet of block 32: it is now at sector 96");
    assert!(folder.does(&["read", "d.img", "40"]).starts_with("a block"));
    has(&folder.does(&["info", "d.img"]), "sequence 1");
    let list = folder.does(&["list", "d.img"]);
    has(&list, "32 to 63 96 to 127 spared, 32 recorded, 0 unreadable, 0 blank");
    has(&list, "1 packet in place, recorded");
    folder.refuses(12, &["spare", "d.img", "64"]);
    folder.refuses(3, &["spare", "d.img", "0", "text"]);
    folder.refuses(7, &["commit", "d.img"]);
    folder.refuses(7, &["history", "d.img"]);
    folder.does(&["spare", "d.img", "0"]);
    folder.refuses(19, &["spare", "d.img", "32"]);
    // a cut save leaves a sector unreadable; saving the packet heals it
    folder.is_cut(&["save", "d.img", "3", "text", "--cut", "9:unreadable"], "write 9 of the save of block 3, which became unreadable");
    folder.refuses(14, &["read", "d.img", "8"]);
    folder.refuses(14, &["save", "d.img", "3", "text"]);
    folder.write("packet", &[b'p'; 65_536]);
    folder.does(&["save", "d.img", "0", "packet", "--packet"]);
    assert!(folder.does(&["read", "d.img", "8"]).starts_with("pp"));
    for picture in ["p.svg", "p.ppm"] {
        let words = folder.does(&["map", "d.img", picture]);
        assert!(words.contains("64 used spare, 3 sparing table"), "{words}");
    }
    assert!(folder.bytes("p.svg").starts_with(b"<svg"));
    assert!(folder.bytes("p.ppm").starts_with(b"P6\n"));
    folder.usage(&["map", "d.img", "p.png"]);
}

#[test]
fn volumes_by_hand() {
    let folder = Folder::new("hand");
    let volume = ["--start", "0", "--length", "20", "--write-once"];
    let with = |words: &[&'static str]| [words, &volume].concat();
    let out = folder.does(&with(&["make", "d.img", "--sectors", "20"]));
    assert!(out.contains("by hand"), "{out}");
    folder.usage(&["info", "d.img"]);
    has(&folder.does(&with(&["info", "d.img"])), "L 20");
    folder.refuses(2, &["info", "d.img", "--start", "0", "--length", "0", "--write-once"]);
    folder.refuses(6, &["info", "d.img", "--start", "0", "--length", "20", "--tables", "1"]);
    folder.refuses(5, &["info", "d.img", "--start", "0", "--length", "20", "--tables", "0,32,64,96,128"]);
    folder.refuses(6, &["make", "e.img", "--sectors", "640", "--tables", "0", "--spares", "0", "--length", "64"]);
    folder.refuses(2, &["make", "e.img", "--sectors", "100", "--write-once"]);
    folder.refuses(1, &["make", "e.img", "--sectors", "1048577", "--write-once"]);
    folder.refuses(1, &["make", "e.img", "--sectors", "0", "--write-once"]);
    folder.write("maps", &[1, 0]);
    folder.refuses(4, &["info", "d.img", "--start", "0", "--length", "20", "--maps", "maps"]);
    folder.write("odd", &[1; 2049]);
    folder.usage(&["info", "odd", "--start", "0", "--length", "1", "--write-once"]);
    folder.write("empty", &[]);
    folder.usage(&["info", "empty", "--start", "0", "--length", "1", "--write-once"]);
    folder.refuses(2, &["info", "d.img", "--start", "4294967295", "--length", "4294967295", "--write-once"]);
    assert!(!Path::new(&folder.path("e.img")).exists());
}

/// Where the image cannot be replaced it stays as it was, and no half of a new one is left.
#[test]
fn an_image_is_replaced_whole_or_not_at_all() {
    let folder = Folder::new("whole");
    folder.does(&["make", "d.img", "--sectors", "400", "--write-once"]);
    folder.write("text", b"one");
    let before = folder.bytes("d.img");
    // a folder stands where the store is to be told of
    std::fs::create_dir(folder.path("d.img.tuormik-store")).expect("a folder");
    folder.usage(&["save", "d.img", "new", "text"]);
    assert_eq!(folder.bytes("d.img"), before);
    std::fs::remove_dir(folder.path("d.img.tuormik-store")).expect("a folder");
    // a half of one that a crash left is removed
    folder.write("d.img.tuormik-new-7", &[9; 100]);
    folder.does(&["save", "d.img", "new", "text"]);
    assert_eq!(folder.names(), ["d.img", "text"]);
    // a refused call leaves the file alone
    let before = folder.bytes("d.img");
    folder.refuses(12, &["save", "d.img", "9", "text"]);
    assert_eq!(folder.bytes("d.img"), before);
}

#[test]
fn the_demo_finds_every_block() {
    let folder = Folder::new("demo");
    let out = folder.does(&["demo"]);
    has(&out, "219 cuts. Every block was found again after every cut.");
    assert!(out.ends_with("No opening passed over more sectors than writes were begun since the last whole VAT ICB.\n"), "{out}");
    assert!(folder.names().is_empty());
}

/// 600 saves, then a commit of three writes: each is cut and becomes old, unreadable or whole, and then it is not cut.
#[test]
fn the_demo_tells_the_writes_begun() {
    let folder = Folder::new("begun");
    let out = folder.does(&["demo"]);
    let told: Vec<&str> = out.lines().filter_map(|line| line.split_once("passed over ")?.1.strip_suffix(" writes begun")).collect();
    let expected = [
        "600 of 601",
        "601 of 601",
        "601 of 601",
        "601 of 602",
        "602 of 602",
        "602 of 602",
        "602 of 603",
        "603 of 603",
        "0 of 0",
        "0 of 0",
    ];
    assert_eq!(told, expected);
}

#[test]
fn nobody_has_to_read_the_output() {
    let folder = Folder::new("pipe");
    let mut child = folder.start(&["demo"]);
    drop(child.stdout.take());
    assert_eq!(ended(child).0, 0);
}

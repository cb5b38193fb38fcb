//! What a curator does every day: info, verify, export, diff, map, make by medium.

mod folder;

use folder::{has, Folder};

const SECTOR: usize = 2048;

/// A folder with a write-once disc of three commits: at ICB 0 no block, at 3 blocks 0 and 1, at 6 block 0 again and a new block 2, and
/// at 7 block 1 freed.
fn with_commits(name: &str) -> Folder {
    let folder = Folder::new(name);
    folder.does(&["make", "d.img", "--sectors", "400", "--write-once"]);
    let two: Vec<u8> = [[b'a'; SECTOR], [b'b'; SECTOR]].concat();
    folder.write("two", &two);
    has(&folder.does(&["save", "d.img", "new", "two"]), "committed: N 2, NWA 4, last ICB 3");
    folder.write("c", b"c");
    folder.does(&["save", "d.img", "0", "c", "--no-commit"]);
    // what was not committed is gone: saved again, with a new block
    folder.does(&["commit", "d.img"]);
    has(&folder.does(&["save", "d.img", "0", "c"]), "committed: N 2, NWA 8, last ICB 7");
    has(&folder.does(&["save", "d.img", "new", "c"]), "committed: N 3, NWA 10, last ICB 9");
    has(&folder.does(&["free", "d.img", "1"]), "committed: N 3, NWA 11, last ICB 10");
    folder
}

/// A rewritable disc of 640 sectors with 64 blocks and two spares.
fn make_rewritable(folder: &Folder, name: &str) {
    folder.does(&["make", name, "--sectors", "640", "--tables", "0,32,64", "--spares", "96,128", "--length", "64"]);
}

#[test]
fn info_in_a_curators_words() {
    let folder = with_commits("info");
    let info = folder.does(&["info", "d.img"]);
    has(&info, "blocks 2 used, 1 unused");
    // 112 sectors, 11 written: 100 blocks and a commit's one sector
    has(&info, "room 100 new blocks fit, committed together");
    has(&info, "fullness 9.8 %");
    has(&info, "N 3 (2 used)");
    has(&info, "last ICB 10 (sector 298)");
    assert!(!info.contains("which are"), "{info}");
    // the room is as told: one block more does not fit
    folder.write("fits", &[7; 100 * SECTOR]);
    folder.write("too-many", &[7; 101 * SECTOR]);
    let words = folder.refuses(16, &["save", "d.img", "new", "too-many"]);
    let expected =
        "no room for block 103: 1 sector is free, and the save and its commit need 2; of 101 blocks the first 100 would fit, and \
                    nothing was written";
    assert_eq!(words, expected);
    folder.does(&["save", "d.img", "new", "fits"]);
    has(&folder.does(&["info", "d.img"]), "room no new block fits");
    folder.does(&["make", "e.img", "--sectors", "400", "--write-once"]);
    has(&folder.does(&["info", "e.img"]), "blocks none yet");
}

#[test]
fn info_tells_what_was_passed_over() {
    let folder = with_commits("info-passed");
    folder.is_cut(&["save", "d.img", "new", "two", "--cut", "1:unreadable"], "write 1 of the commit, which became unreadable");
    let info = folder.does(&["info", "d.img"]);
    has(&info, "passed over 3");
    has(&info, "which are 2 recorded sectors and 1 unreadable sector");
    // a VAT that breaks a rule is named
    folder.does(&["commit", "d.img", "--force"]);
    let mut image = folder.bytes("d.img");
    image[SECTOR * (288 + 14) + 8] ^= 1;
    folder.write("d.img", &image);
    std::fs::remove_file(folder.path("d.img.marks")).expect("a marks file");
    let info = folder.does(&["info", "d.img"]);
    has(&info, "which are 3 recorded sectors and sector 302 with a File Entry of file type 0 whose tag's checksum is 97 and should be 98");
    // so is one of a later version of UDF, and no commit goes over it
    image[SECTOR * 302..][..2].copy_from_slice(&266u16.to_le_bytes());
    image[SECTOR * 302 + 27] = 248;
    folder.write("d.img", &image);
    let words = "block 14 (sector 302) has a VAT of UDF 2.01: an Extended File Entry (tag 266) of file type 248: it may be a newer VAT";
    folder.turns_away(&["commit", "d.img"], &[words, "--force"]);
    assert!(folder.does(&["info", "d.img", "--json"]).contains(r#""possible_newer_vat": 14"#));
}

#[test]
fn info_of_several_and_as_json() {
    let folder = with_commits("info-several");
    make_rewritable(&folder, "r.img");
    folder.write("noise", &[7; 9 * SECTOR]);
    let (status, out, err) = folder.run(&["info", "d.img", "noise", "r.img"]);
    assert_eq!(status, 2, "{err}");
    for line in
        ["d.img", "N 3 (2 used)", "noise", "r.img", "spares 0 used, 0 defective, 2 free", "blocks 64 readable, 0 unreadable, 0 blank"]
    {
        has(&out, line);
    }
    assert!(err.contains("no anchor volume descriptor pointer"), "{err}");
    let (status, out, _) = folder.run(&["info", "--json", "d.img", "noise", "r.img"]);
    assert_eq!(status, 2);
    let expected = r#"[{"image": "d.img", "opens": true, "kind": "write-once", "partition": 0, "sectors": 400, "file_sectors": 400, "recorded": 299, "unreadable": 0, "blank": 101, "s": 288, "l": 112, "blocks_in_doubt": 0, "n": 3, "used": 2, "blocks_readable": 2, "blocks_unreadable": 0, "blocks_blank": 0, "new_blocks_that_fit": 100, "room_bounded_by": "sectors", "fullness_per_mille": 98, "nwa": 11, "last_icb": 10, "passed_over": 0, "possible_newer_vat": null}, {"image": "noise", "opens": false, "words": ""#;
    assert!(out.starts_with(expected), "{out}");
    let expected = r#"{"image": "r.img", "opens": true, "kind": "rewritable", "partition": 0, "sectors": 640, "file_sectors": 640, "recorded": 71, "unreadable": 0, "blank": 569, "s": 288, "l": 64, "tables": [0, 32, 64], "table_bytes": 2048, "blocks_in_doubt": 0, "blocks_readable": 64, "blocks_unreadable": 0, "blocks_blank": 0, "blocks_of_spares": 0, "r": 2, "spares_used": 0, "spares_defective": 0, "spares_free": 2, "sequence": 0, "table_identifier": "newer", "tables_not_current": [], "passed_over": 0}]
"#;
    assert!(out.ends_with(expected), "{out}");
    // a disc that is turned down: status 1, with the line
    let mut image = folder.bytes("d.img");
    image[SECTOR * 288..].fill(0);
    folder.write("e.img", &image);
    let (status, out, err) = folder.run(&["info", "--json", "e.img"]);
    assert_eq!((status, err.as_str()), (1, ""));
    assert!(
        out.contains(r#""opens": false"#) && out.contains(r#""line": 8, "words": "the partition, sectors 288 to 399, is blank"#),
        "{out}"
    );
    assert!(folder.usage(&["info", "d.img", "r.img", "--marks", "m"]).starts_with("--marks goes with one image"));
}

#[test]
fn verify_goes_through_a_shelf() {
    let folder = with_commits("verify");
    make_rewritable(&folder, "r.img");
    let (status, out, err) = folder.run(&["verify", "d.img", "r.img"]);
    assert_eq!((status, err.as_str()), (0, ""));
    has(&out, "d.img clean: write-once, 2 blocks used and 1 unused, 9.8 % full");
    has(&out, "r.img clean: rewritable, 64 blocks, 0 of 2 spares used");
    has(&out, "2 images: 2 clean");
    // damaged: blocks that cannot be read, copies that are not current, what was passed over, what does not open, what is not there
    folder.write("text", b"text");
    folder.is_cut(&["save", "r.img", "3", "text", "--cut", "9:unreadable"], "write 9 of the save of block 3, which became unreadable");
    folder.is_cut(&["spare", "r.img", "32", "--cut", "33:whole"], "write 33 of the sparing of the packet of block 32, which became whole");
    std::fs::copy(folder.path("d.img"), folder.path("e.img")).expect("a copy");
    folder.does(&["save", "e.img", "new", "text", "--no-commit"]);
    let mut image = folder.bytes("d.img");
    image[SECTOR * 288..].fill(0);
    folder.write("f.img", &image);
    folder.write("m.img", &folder.bytes("d.img"));
    folder.write("m.img.marks", b"tuormik marks\nrecorded 0 299\nunreadable 296 1\n");
    assert_eq!(folder.run(&["verify", "d.img", "r.img", "e.img", "m.img"]).0, 1);
    let (status, out, err) = folder.run(&["verify", "d.img", "r.img", "e.img", "f.img", "m.img", "g.img"]);
    assert_eq!((status, err.as_str()), (2, ""));
    has(&out, "d.img clean: write-once, 2 blocks used and 1 unused, 9.8 % full");
    has(
        &out,
        "r.img DAMAGED: the copies of the sparing table in sectors 32 and 64 are not current; 1 block cannot be read: block 8 (sector 296, \
         unreadable)",
    );
    let passed =
        "sector 299 was passed over above the last VAT ICB: 1 recorded sector; blocks saved and not committed, or a write that was cut";
    has(&out, &format!("e.img DAMAGED: {passed}"));
    has(&out, "f.img CANNOT BE OPENED: the partition, sectors 288 to 399, is blank: it has no VAT yet (01, line 8)");
    has(&out, "m.img DAMAGED: 1 block cannot be read: block 2 (sector 296, unreadable)");
    assert!(out.lines().any(|line| line.starts_with("g.img  CANNOT BE OPENED: there is no such file")), "{out}");
    has(&out, "6 images: 1 clean, 3 damaged, 2 cannot be opened");
}

/// What the kind of a disc does not take is refused, and what was rounded is said.
#[test]
fn making_says_what_it_does_not_take_and_what_it_rounds() {
    let folder = Folder::new("make-kinds");
    let made = folder.does(&["make", "a.img", "--sectors", "650", "--tables", "0,32", "--spares", "64"]);
    assert_eq!(made, "made a.img: 650 sectors, S 288, L 352\nthe partition was rounded down from 362 sectors to whole packets of 32\n");
    let made = folder.does(&["make", "b.img", "--media", "cdrw", "--sectors", "700"]);
    assert_eq!(made, "made b.img: 672 sectors, S 320, L 64\nthe disc was rounded down from 700 sectors to whole packets of 32\n");
    for whole in [&["--write-once"][..], &["--tables", "0,32", "--length", "64"]] {
        let made = folder.does(&[&["make", "c.img", "--sectors", "401", "--force"][..], whole].concat());
        assert!(!made.contains("rounded"), "{made}");
    }
    for option in [["--spares", "64"], ["--table-bytes", "512"]] {
        let words = folder.usage(&[&["make", "d.img", "--sectors", "400", "--write-once"][..], &option].concat());
        let why = format!("a write-once disc has no sparing tables and no spares, so {} does not go with --write-once\n", option[0]);
        assert!(words.starts_with(&why), "{words}");
    }
    for option in [&["--write-once"][..], &["--tables", "0"], &["--partition", "1"]] {
        let words = folder.usage(&[&["make", "d.img", "--sectors", "400", "--maps", "maps"][..], option].concat());
        assert!(words.starts_with("a map list tells the kind and all that goes with it, so --"), "{words}");
    }
    let list = tuormik::write_maps(&tuormik::Maps::WriteOnce { partition: 0 }).expect("a map list");
    folder.write("maps", &list);
    let words = folder.usage(&["make", "d.img", "--sectors", "400", "--maps", "maps", "--spares", "64"]);
    assert!(words.starts_with("the map list is of a write-once disc, which has no spares\n"), "{words}");
    assert!(folder.usage(&["make", "d.img", "--media", "dvd"]).starts_with("--media dvd: a medium is cdr or cdrw\n"));
}

#[test]
fn export_of_any_commit() {
    let folder = with_commits("export");
    has(&folder.does(&["export", "d.img", "now"]), "exported 2 of 3 blocks to now; skipped: 1 unused; list.csv lists all");
    let list =
        "block,logical,sector,state,file,offset\n0,6,294,recorded,block-0000.bin,0\n1,,,unused,,\n2,8,296,recorded,block-0002.bin,0\n";
    assert_eq!(String::from_utf8_lossy(&folder.bytes("now/list.csv")), list);
    assert!(folder.bytes("now/block-0000.bin").starts_with(b"c\0"));
    assert_eq!(std::fs::read_dir(folder.path("now")).expect("a folder").count(), 3);
    // as the first commit left it
    has(&folder.does(&["export", "d.img", "then", "--at", "3"]), "exported 2 of 2 blocks to then; list.csv lists all");
    assert_eq!([folder.bytes("then/block-0000.bin"), folder.bytes("then/block-0001.bin")].concat(), folder.bytes("two"));
    // a folder that is not empty stays as it is; an empty one is taken
    assert!(folder.usage(&["export", "d.img", "now"]).starts_with("now: the folder is not empty"));
    std::fs::create_dir(folder.path("empty")).expect("a folder");
    folder.does(&["export", "d.img", "empty", "--at", "0"]);
    assert_eq!(folder.bytes("empty/list.csv"), b"block,logical,sector,state,file,offset\n");
    assert!(folder
        .usage(&["export", "d.img", "other", "--at", "2"])
        .starts_with("no commit has its VAT ICB at block 2: the disc has 6 commits"));
    assert!(!folder.path("other").exists());
    // unreadable blocks are listed and skipped
    folder.write("m", b"tuormik marks\nrecorded 0 299\nunreadable 296 1\n");
    let (status, out, _) = folder.run(&["export", "d.img", "damaged", "--marks", "m"]);
    assert_eq!(status, 1);
    has(&out, "exported 1 of 3 blocks to damaged; skipped: 1 unused, 1 unreadable; list.csv lists all");
    assert!(String::from_utf8_lossy(&folder.bytes("damaged/list.csv")).ends_with("\n2,8,296,unreadable,,\n"));
}

#[test]
fn export_of_a_rewritable_disc() {
    let folder = Folder::new("export-rewritable");
    make_rewritable(&folder, "r.img");
    folder.write("text", b"text");
    folder.does(&["save", "r.img", "40", "text"]);
    folder.does(&["spare", "r.img", "32"]);
    has(&folder.does(&["export", "r.img", "out"]), "exported 64 of 64 blocks to out; list.csv lists all");
    assert!(folder.bytes("out/block-0040.bin").starts_with(b"text\0"));
    let list = folder.bytes("out/list.csv");
    let list = String::from_utf8_lossy(&list);
    has(&list, "31,31,319,recorded,block-0031.bin,0");
    has(&list, "40,40,104,recorded,block-0040.bin,0");
}

#[test]
fn read_as_a_commit_left_it() {
    let folder = with_commits("read-at");
    let first = |words: &[&str]| folder.does(words).as_bytes()[0];
    assert_eq!(first(&["read", "d.img", "0"]), b'c');
    assert_eq!(first(&["read", "d.img", "0", "--at", "3"]), b'a');
    assert_eq!(first(&["read", "d.img", "1", "--at", "0x9"]), b'b');
    let sentence = folder.refuses(12, &["read", "d.img", "2", "--at", "7"]);
    assert_eq!(sentence, "block 2 does not exist: the disc has 2 blocks, 0 and 1");
    let words = folder.usage(&["read", "d.img", "0", "--at", "8"]);
    assert!(words.starts_with("no commit has its VAT ICB at block 8: the disc has 6 commits, at 10, 9, 7, 5, 3 and 0\n"), "{words}");
    folder.usage(&["read", "d.img", "0", "--at", "4294967295"]);
}

#[test]
fn diff_of_two_discs_and_of_two_commits() {
    let folder = with_commits("diff");
    let told = |status: i32, a: &str, b: &str, lines: &str| {
        let (got, out, err) = folder.run(&["diff", a, b]);
        assert_eq!((got, out.as_str(), err.as_str()), (status, lines, ""), "{a} {b}");
    };
    told(0, "d.img", "d.img", "3 blocks: 3 alike\n");
    told(0, "d.img@0", "d.img@0", "neither disc has blocks\n");
    told(1, "d.img@0", "d.img@3", "blocks 0 to 1 appeared\n2 blocks: 2 appeared\n");
    told(1, "d.img@3", "d.img", "block 0 differs\nblock 1 went\nblock 2 appeared\n3 blocks: 1 different, 1 appeared, 1 went\n");
    told(0, "d.img", "d.img@0xa", "3 blocks: 3 alike\n");
    // a block that cannot be read on one of them
    std::fs::copy(folder.path("d.img"), folder.path("e.img")).expect("a copy");
    folder.write("e.img.marks", b"tuormik marks\nrecorded 0 299\nunreadable 296 1\n");
    told(1, "d.img", "e.img", "block 2 cannot be compared: it cannot be read\n3 blocks: 2 alike, 1 not to be compared\n");
    // a file of the whole name is meant where there is one
    folder.does(&["make", "d.img@3", "--sectors", "400", "--write-once"]);
    told(0, "d.img@3", "d.img@0", "neither disc has blocks\n");
    make_rewritable(&folder, "r.img");
    assert!(folder.usage(&["diff", "d.img", "r.img"]).starts_with("one disc is write-once and the other rewritable"));
    folder.usage(&["diff", "d.img", "not-there"]);
    folder.usage(&["diff", "d.img"]);
}

#[test]
fn a_disc_that_is_turned_down_is_drawn_from_its_marks() {
    let folder = with_commits("map-turned-down");
    let mut image = folder.bytes("d.img");
    image[SECTOR * 288..].fill(7);
    folder.write("e.img", &image);
    let out = folder.does(&["map", "e.img", "e.svg"]);
    has(&out, "e.svg: 400 recorded");
    assert!(out.contains("drawn from the marks alone, since the disc was turned down: no VAT was found"), "{out}");
    let page = folder.does(&["report", "e.img"]);
    assert!(page.contains("<svg") && page.contains("DAMAGED: no VAT was found"), "{page}");
    // a partition that is none is drawn with no edge
    let out = folder.does(&["map", "e.img", "e.svg", "--start", "0", "--length", "0", "--write-once"]);
    assert!(out.contains("turned down: the partition has no sectors: L is 0 (01, line 2)"), "{out}");
    assert!(String::from_utf8_lossy(&folder.bytes("e.svg")).contains("400 sectors; the partition has none of them"));
}

#[test]
fn a_map_has_labels_live_blocks_and_runs() {
    let folder = with_commits("map");
    let out = folder.does(&["map", "d.img", "d.svg"]);
    has(&out, "d.svg: 101 blank, 291 recorded, 2 live, 6 VAT ICB");
    let svg = String::from_utf8(folder.bytes("d.svg")).expect("text");
    assert!(svg.contains("viewBox=\"0 0 ") && svg.contains(">live: 2<tspan"), "{svg}");
    for label in [">0</text>", ">32</text>", ">384</text>"] {
        assert!(svg.contains(label), "{label} is not in\n{svg}");
    }
    // numbers in a marks file too are taken in each form
    folder.write("m", b"tuormik marks\nunreadable 296 1\nunreadable 0x10 0x2\nrecorded 0 1\n");
    has(&folder.does(&["map", "d.img", "m.svg", "--marks", "m"]), "m.svg: 101 blank, 289 recorded, 1 live, 6 VAT ICB, 3 unreadable");
}

#[test]
fn discs_by_their_medium() {
    let folder = Folder::new("media");
    has(&folder.does(&["make", "r.img", "--media", "cdr", "--sectors", "1,024"]), "made r.img: 1,024 sectors, S 288, L 736");
    has(&folder.does(&["info", "r.img"]), "kind write-once, partition 0");
    has(&folder.does(&["make", "w.img", "--media", "cdrw", "--sectors", "0x800"]), "made w.img: 2,048 sectors, S 320, L 1,440");
    let info = folder.does(&["info", "w.img"]);
    has(&info, "kind rewritable, partition 0");
    has(&info, "tables in sectors 96, 192, 1,856 and 1,952 (2,048 bytes each)");
    has(&info, "spares 0 used, 0 defective, 2 free");
    let verified = folder.does(&["verify", "r.img", "w.img"]);
    has(&verified, "2 images: 2 clean");
    // the sparings have the tables and spares that they need
    has(&folder.does(&["spare", "w.img", "64"]), "spared the packet of block 64: it is now at sector 288");
    has(&folder.does(&["spare", "w.img", "0"]), "spared the packet of block 0: it is now at sector 1,760");
    for wrong in [&["--media", "dvd"][..], &["--media", "cdrw", "--sectors", "639"], &["--media", "cdr", "--start", "288"]] {
        folder.usage(&[&["make", "x.img"], wrong].concat());
    }
    assert!(!folder.path("x.img").exists());
}

/// A number is taken in each of its forms wherever one is taken, and printed in one.
#[test]
fn numbers_are_taken_and_printed_alike() {
    let folder = Folder::new("numbers");
    folder.write("many", &[7; 1100 * SECTOR]);
    folder.write("text", b"text");
    // the commit of 1,100 blocks is 3 sectors of data and the ICB, at block 1,104
    for (i, sectors) in ["4096", "4,096", "0x1000"].iter().enumerate() {
        let image = format!("{i}.img");
        has(&folder.does(&["make", &image, "--sectors", sectors, "--write-once"]), &format!("made {image}: 4,096 sectors, S 288, L 3,808"));
        has(&folder.does(&["save", &image, "new", "many"]), "saved 1,100 blocks from 0 on");
    }
    for word in ["1024", "1,024", "0x400"] {
        has(&folder.does(&["save", "0.img", word, "text"]), "saved 1 block from 1,024 on");
        assert!(folder.does(&["read", "0.img", word]).starts_with("text"));
        assert_eq!(folder.does(&["read", "1.img", "0", word]).len(), 1024 * SECTOR);
    }
    for word in ["1104", "1,104", "0x450"] {
        folder.does(&["read", "0.img", "0", "--at", word]);
        folder.does(&["diff", "1.img", &format!("1.img@{word}")]);
    }
    has(&folder.does(&["list", "0.img"]), "1,099 1,100 1,388 recorded");
    assert!(folder.does(&["history", "0.img"]).contains("  1,100 "));
    for word in ["1,02", "10,24", "0x", "1e3", "-1", "1.024"] {
        folder.usage(&["read", "0.img", word]);
        folder.usage(&["read", "0.img", "0", word]);
        folder.usage(&["make", "x.img", "--sectors", word, "--write-once"]);
    }
}

#[test]
fn a_version() {
    let folder = Folder::new("version");
    assert!(folder.does(&["--version"]).starts_with(&format!("tuormik {}", env!("CARGO_PKG_VERSION"))));
}

/// Every write of the commit and of both sparings, with each effect: 3 and twice 35 writes.
#[test]
fn the_demo_cuts_at_every_write() {
    let folder = Folder::new("demo-cuts");
    let out = folder.does(&["demo"]);
    for write in 1..=3 {
        for effect in ["old", "unreadable", "whole"] {
            let version = if (write, effect) == (3, "whole") { 2 } else { 1 };
            let line = format!("the power fails at write {write}, which becomes {effect} opened: 600 of 600 blocks, version {version},");
            let squeezed = out.split_whitespace().collect::<Vec<_>>().join(" ");
            assert!(squeezed.contains(&line), "'{line}' is not in\n{out}");
        }
    }
    let (first, second) = out.split_once("The same disc, and the packet of block 32 is spared already.").expect("a second sparing");
    let places = [("their own place", "the first spare"), ("the first spare", "the second spare; the first is defective")];
    for (part, (before, after)) in [first, second].into_iter().zip(places) {
        for (writes, effect, version) in [
            ("each of writes 1 to 32", "old", 1),
            ("each of writes 1 to 32", "unreadable", 1),
            ("each of writes 1 to 32", "whole", 1),
            ("write 33", "old", 1),
            ("write 33", "unreadable", 1),
            ("write 33", "whole", 2),
            ("each of writes 34 to 35", "old", 2),
            ("each of writes 34 to 35", "unreadable", 2),
            ("each of writes 34 to 35", "whole", 2),
        ] {
            let place = if version == 1 { before } else { after };
            let opened = format!("opened: 64 of 64 blocks, those of the packet in version {version}, in {place}");
            has(part, &format!("the power fails at {writes}, which becomes {effect} {opened}"));
        }
    }
    has(first, "no cut: the sparing was done opened: 64 of 64 blocks, those of the packet in version 2, in the first spare");
    let opened = "opened: 64 of 64 blocks, those of the packet in version 2, in the second spare; the first is defective";
    has(second, &format!("no cut: the second sparing was done {opened}"));
    has(&out, "219 cuts. Every block was found again after every cut.");
    has(&out, "A sparing was done exactly if a new copy of the sparing table was whole.");
}

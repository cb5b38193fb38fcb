//! Spares inside the partition (document 02, slip 8): their blocks are of a spare in every command, neither content nor damage.

mod folder;

use folder::{has, Folder};

const SECTOR: usize = 2048;

/// A folder with a rewritable disc of 640 sectors: partition at 288, 128 sectors, three tables, and three spares, the first of them blocks
/// 32 to 63 and the last blocks 96 to 127. Block 5 has `a block`.
fn inside(name: &str) -> Folder {
    Folder::with_spares(name, "320,96,384", "128", "5")
}

/// Blocks of two spares, by the first of each, are refused by each call, and no file changes.
fn are_refused(folder: &Folder, blocks: [u32; 2]) {
    let line = "\nturned down: The block or packet belongs to a spare. (02, line 30)\n";
    for first in blocks {
        for b in [first, first + 1, first + 31].map(|b| b.to_string()) {
            folder.turns_away(&["read", "d.img", &b], &[line]);
            folder.turns_away(&["save", "d.img", &b, "text"], &[line]);
        }
        let b = first.to_string();
        folder.turns_away(&["save", "d.img", &b, "packet", "--packet"], &[line]);
        folder.turns_away(&["spare", "d.img", &b, "packet"], &[line]);
        folder.turns_away(&["spare", "d.img", &b], &[line]);
        folder.turns_away(&["spare", "d.img", &b, "--zeros"], &[line]);
    }
    // from L upward there is no block, of a spare or not
    folder.refuses(12, &["read", "d.img", "128"]);
    folder.refuses(12, &["spare", "d.img", "128"]);
}

#[test]
fn making_tells_how_many_blocks_are_left() {
    let folder = Folder::new("inside-make");
    let make = |name: &str, spares: &str| {
        folder.does(&["make", name, "--sectors", "640", "--tables", "0,32", "--spares", spares, "--length", "96"])
    };
    let made = |name: &str| format!("made {name}: 640 sectors, S 288, L 96\n");
    assert_eq!(make("a.img", "320"), format!("{}1 spare in the partition: of its 96 blocks 64 are left\n", made("a.img")));
    assert_eq!(make("b.img", "96,352,288"), format!("{}2 spares in the partition: of its 96 blocks 32 are left\n", made("b.img")));
    assert_eq!(make("c.img", "288,320,352"), format!("{}3 spares in the partition: of its 96 blocks 0 are left\n", made("c.img")));
    // the packets beside the partition are outside it
    assert_eq!(make("d.img", "96,128,384"), made("d.img"));
    // the partition is zeros, those of the spares too, and each disc opens
    for (image, blocks) in [("a.img", 64), ("b.img", 32), ("c.img", 0), ("d.img", 96)] {
        assert!(folder.bytes(image)[SECTOR * 288..SECTOR * 384].iter().all(|&b| b == 0));
        let of_spares = 96 - blocks;
        let also = if of_spares > 0 { format!("; {of_spares} more belong to spares") } else { String::new() };
        has(&folder.does(&["info", image]), &format!("blocks {blocks} readable, 0 unreadable, 0 blank{also}"));
    }
    // a write-once disc has none
    let words = folder.usage(&["make", "e.img", "--sectors", "400", "--write-once", "--spares", "288,320"]);
    assert!(
        words.starts_with("a write-once disc has no sparing tables and no spares, so --spares does not go with --write-once\n"),
        "{words}"
    );
}

/// What the commands tell of the disc of [`inside`] at a time.
struct Told {
    /// lines of the list: the spared packet, how many are in place, the spares that are not used
    spared: &'static [&'static str],
    in_place: &'static str,
    spares: &'static [&'static str],
    counts: &'static str,
    verdict: &'static str,
    legend: &'static str,
}

/// A packet is spared to a spare inside, then to one outside, then to another inside: the blocks of a spare are the same throughout.
const THROUGHOUT: [Told; 4] = [
    Told {
        spared: &[],
        in_place: "2 packets in place, recorded",
        spares: &["free spare 320 to 351", "free spare 96 to 127", "free spare 384 to 415"],
        counts: "0 used, 0 defective, 3 free",
        verdict: "clean: rewritable, 64 blocks and 64 of spares, 0 of 3 spares used",
        legend: "473 blank, 4 recorded, 64 live, 96 free spare, 3 sparing table",
    },
    Told {
        spared: &["0 to 31 320 to 351 spared, 32 recorded, 0 unreadable, 0 blank"],
        in_place: "1 packet in place, recorded",
        spares: &["free spare 96 to 127", "free spare 384 to 415"],
        counts: "1 used, 0 defective, 2 free",
        verdict: "clean: rewritable, 64 blocks and 64 of spares, 1 of 3 spares used",
        legend: "473 blank, 36 recorded, 32 live, 64 free spare, 32 used spare, 3 sparing table",
    },
    Told {
        spared: &["0 to 31 96 to 127 spared, 32 recorded, 0 unreadable, 0 blank"],
        in_place: "1 packet in place, recorded",
        spares: &["defective spare 320 to 351", "free spare 384 to 415"],
        counts: "1 used, 1 defective, 1 free",
        verdict: "clean: rewritable, 64 blocks and 64 of spares, 1 of 3 spares used, 1 defective",
        legend: "473 blank, 36 recorded, 32 live, 32 free spare, 32 defective spare, 32 used spare, 3 sparing table",
    },
    Told {
        spared: &["0 to 31 384 to 415 spared, 32 recorded, 0 unreadable, 0 blank"],
        in_place: "1 packet in place, recorded",
        spares: &["defective spare 320 to 351", "defective spare 96 to 127"],
        counts: "1 used, 2 defective, 0 free",
        verdict: "clean: rewritable, 64 blocks and 64 of spares, 1 of 3 spares used, 2 defective",
        legend: "473 blank, 36 recorded, 32 live, 64 defective spare, 32 used spare, 3 sparing table",
    },
];

#[test]
fn what_is_told_while_packets_are_spared() {
    let folder = inside("inside-told");
    for (times, told) in THROUGHOUT.iter().enumerate() {
        if times > 0 {
            folder.does(&["spare", "d.img", "0"]);
        }
        let list = folder.does(&["list", "d.img"]);
        let lines: Vec<String> = list.lines().skip(1).map(|line| line.split_whitespace().collect::<Vec<_>>().join(" ")).collect();
        let of_spares = ["32 to 63 320 to 351 of a spare", "96 to 127 384 to 415 of a spare"];
        let counted = [told.in_place, "2 spares in the partition, whose blocks are neither read nor saved"];
        assert_eq!(lines, [told.spared, &of_spares, &counted, told.spares].concat());
        let info = folder.does(&["info", "d.img"]);
        has(&info, "blocks 64 readable, 0 unreadable, 0 blank; 64 more belong to spares");
        has(&info, &format!("spares {}", told.counts));
        has(&info, "L 128");
        let json = folder.does(&["info", "d.img", "--json"]);
        let part = r#""blocks_readable": 64, "blocks_unreadable": 0, "blocks_blank": 0, "blocks_of_spares": 64, "r": 3, "#;
        assert!(json.contains(part), "{json}");
        has(&folder.does(&["verify", "d.img"]), &format!("d.img {}", told.verdict));
        has(&folder.does(&["map", "d.img", "d.ppm"]), &format!("d.ppm: {}", told.legend));
        let page = folder.does(&["report", "d.img"]);
        has(&page, &format!("<p class=\"verdict\">{}</p>", told.verdict));
        has(&page, "<tr><th scope=\"row\">blocks</th><td>64 readable, 0 unreadable, 0 blank; 64 more belong to spares</td></tr>");
        has(&page, "<tr><td>blocks 32 to 63</td><td>sectors 320 to 351</td><td>of a spare</td></tr>");
        has(&page, "<tr><td>blocks 64 to 95</td><td>sectors 352 to 383</td><td>recorded</td></tr>");
        has(&page, "<tr><td>blocks 96 to 127</td><td>sectors 384 to 415</td><td>of a spare</td></tr>");
        are_refused(&folder, [32, 96]);
        // of several blocks none is saved where one of them is of a spare
        folder.turns_away(&["save", "d.img", "31", "text", "text"], &["block 32 belongs to a spare: ", "(02, line 30)\n"]);
        assert!(folder.does(&["read", "d.img", "5"]).starts_with("a block\0"));
    }
    assert_eq!(folder.refuses(19, &["spare", "d.img", "64"]), "no spare is free: the disc has 3, 1 used and 2 defective");
    has(&folder.does(&["list", "d.img", "--all"]), "64 to 95 352 to 383 32 recorded, 0 unreadable, 0 blank");
}

/// Each sector is drawn as what it is, a spare inside the partition as a spare.
#[test]
fn a_map_of_spares_inside() {
    let folder = inside("inside-map");
    folder.does(&["spare", "d.img", "0"]);
    // a sector of the spare inside that is free cannot be read, and another is blank
    folder.write("d.img.marks", b"tuormik marks\nrecorded 0 640\nunreadable 390 1\nblank 391 1\n");
    has(
        &folder.does(&["map", "d.img", "d.svg"]),
        "d.svg: 509 recorded, 32 live, 63 free spare, 32 used spare, 3 sparing table, 1 unreadable",
    );
    let svg = String::from_utf8(folder.bytes("d.svg")).expect("text");
    for part in [">free spare: 63<tspan", ">used spare: 32<tspan", ">live: 32<tspan"] {
        assert!(svg.contains(part), "'{part}' is not in\n{svg}");
    }
    // rows of 64 sectors: the used spare is sectors 320 to 351, row 5, and the live packet sectors 352 to 383, the rest of the row
    assert!(svg.contains(r##"fill="#e88a1a" d="M0 5h32v1h-32z""##) && svg.contains(r##"fill="#3f8f5f" d="M32 5h32v1h-32z""##), "{svg}");
}

/// Blocks of a spare are listed and skipped; what is exported is what can be read.
#[test]
fn an_export_skips_blocks_of_spares() {
    let folder = inside("inside-export");
    folder.does(&["spare", "d.img", "0"]);
    let told = "exported 64 of 128 blocks to out; skipped: 64 of spares; list.csv lists all\n";
    assert_eq!(folder.does(&["export", "d.img", "out"]), told);
    let list = String::from_utf8(folder.bytes("out/list.csv")).expect("text");
    assert_eq!(list.lines().filter(|line| line.ends_with(",of a spare,,")).count(), 64);
    for line in
        ["5,5,325,recorded,block-0005.bin,0", "32,32,320,of a spare,,", "63,63,351,of a spare,,", "64,64,352,recorded,block-0064.bin,0"]
    {
        has(&list, line);
    }
    assert!(folder.bytes("out/block-0005.bin").starts_with(b"a block\0"));
    let names = std::fs::read_dir(folder.path("out")).expect("a folder").count();
    assert_eq!((names, folder.path("out/block-0031.bin").exists(), folder.path("out/block-0032.bin").exists()), (65, true, false));
    // all blocks are of spares
    folder.does(&["make", "e.img", "--sectors", "640", "--tables", "0,32", "--spares", "288,320", "--length", "64"]);
    let told = "exported 0 of 64 blocks to none; skipped: 64 of spares; list.csv lists all\n";
    assert_eq!(folder.does(&["export", "e.img", "none"]), told);
    has(&folder.does(&["verify", "e.img"]), "e.img clean: rewritable, 0 blocks and 64 of spares, 0 of 2 spares used");
}

#[test]
fn blocks_of_spares_held_against_each_other() {
    let folder = inside("inside-diff");
    let make = |name: &str, spares: &str, length: &str| {
        folder.does(&["make", name, "--sectors", "640", "--tables", "0,32,64", "--spares", spares, "--length", length]);
    };
    let told = |status: i32, a: &str, b: &str, lines: &str| {
        let (got, out, err) = folder.run(&["diff", a, b]);
        assert_eq!((got, out.as_str(), err.as_str()), (status, lines, ""), "{a} {b}");
    };
    told(0, "d.img", "d.img", "128 blocks: 64 alike, 64 of spares in both\n");
    // a spare that is free in one and used in the other, with other bytes, is no difference
    make("e.img", "320,96,384", "128");
    folder.does(&["save", "e.img", "5", "text"]);
    folder.does(&["spare", "e.img", "0"]);
    told(0, "d.img", "e.img", "128 blocks: 64 alike, 64 of spares in both\n");
    folder.write("other", &[7; 27 * SECTOR]);
    folder.does(&["save", "e.img", "5", "other"]);
    told(1, "d.img", "e.img", "blocks 5 to 31 differ\n128 blocks: 37 alike, 64 of spares in both, 27 different\n");
    // of a spare in one of them alone
    make("f.img", "96,384", "128");
    folder.does(&["save", "f.img", "5", "text"]);
    let last = "128 blocks: 64 alike, 32 of spares in both, 32 of spares in";
    told(1, "d.img", "f.img", &format!("blocks 32 to 63 are of a spare in A\n{last} A\n"));
    told(1, "f.img", "d.img", &format!("blocks 32 to 63 are of a spare in B\n{last} B\n"));
    // also where the other has no such block, or one that cannot be read
    make("g.img", "128", "96");
    folder.does(&["save", "g.img", "5", "text"]);
    let lines = "blocks 32 to 63 are of a spare in A\nblocks 96 to 127 are of a spare in A\n128 blocks: 64 alike, 64 of spares in A\n";
    told(1, "d.img", "g.img", lines);
    folder.write("g.img.marks", b"tuormik marks\nrecorded 0 640\nunreadable 321 1\nblank 322 1\n");
    told(1, "d.img", "g.img", lines);
}

/// What is wrong with the sectors of a free spare is no fault of the disc, and is not told as one of its blocks.
#[test]
fn a_free_spare_with_sectors_that_are_not_recorded() {
    let folder = inside("inside-marks");
    folder.write("d.img.marks", b"tuormik marks\nrecorded 0 640\nunreadable 325 1\nblank 330 2\n");
    has(&folder.does(&["info", "d.img"]), "blocks 64 readable, 0 unreadable, 0 blank; 64 more belong to spares");
    has(&folder.does(&["verify", "d.img"]), "1 image: 1 clean");
    has(&folder.does(&["list", "d.img"]), "32 to 63 320 to 351 of a spare");
    are_refused(&folder, [32, 96]);
    // a sparing writes all of it
    has(&folder.does(&["spare", "d.img", "0"]), "spared the packet of block 0: it is now at sector 320");
    has(&folder.does(&["verify", "d.img"]), "1 image: 1 clean");
    // now it is the packet's: the sector of block 5 is 325
    folder.write("d.img.marks", b"tuormik marks\nrecorded 0 640\nunreadable 325 1\n");
    has(&folder.does(&["info", "d.img"]), "blocks 63 readable, 1 unreadable, 0 blank; 64 more belong to spares");
    let (status, verified, _) = folder.run(&["verify", "d.img"]);
    assert_eq!(status, 1);
    has(&verified, "d.img DAMAGED: 1 block cannot be read: block 5 (sector 325, unreadable)");
    are_refused(&folder, [32, 96]);
    folder.does(&["spare", "d.img", "0", "--zeros"]);
    has(&folder.does(&["verify", "d.img"]), "d.img clean: rewritable, 64 blocks and 64 of spares, 1 of 3 spares used, 1 defective");
}

/// A sparing to a spare inside the partition with the power cut: done exactly if a copy of the new table is whole, and the blocks of a
/// spare are those of before.
#[test]
fn a_sparing_to_the_inside_is_cut() {
    for (cut, is_done) in [("1:unreadable", false), ("32:whole", false), ("33:unreadable", false), ("33:whole", true), ("34:old", true)] {
        let folder = inside("inside-cut");
        let (write, effect) = cut.split_once(':').expect("a cut");
        let what = format!("write {write} of the sparing of the packet of block 64, which became {effect}");
        folder.is_cut(&["spare", "d.img", "64", "packet", "--cut", cut], &what);
        let first = if is_done { "pp" } else { "\0\0" };
        assert!(folder.does(&["read", "d.img", "70"]).starts_with(first), "{cut}");
        assert!(folder.does(&["read", "d.img", "5"]).starts_with("a block\0"), "{cut}");
        has(&folder.does(&["info", "d.img"]), "blocks 64 readable, 0 unreadable, 0 blank; 64 more belong to spares");
        are_refused(&folder, [32, 96]);
    }
}

/// A copy that is not current may map other packets: it changes nothing.
#[test]
fn a_copy_that_is_not_current() {
    let folder = inside("inside-stale");
    folder.is_cut(&["spare", "d.img", "64", "--cut", "34:old"], "write 34 of the sparing of the packet of block 64, which became old");
    // the first entry of the third copy maps blocks 0 to 31
    let mut image = folder.bytes("d.img");
    image[SECTOR * 64 + 60..][..4].copy_from_slice(&288u32.to_le_bytes());
    folder.write("d.img", &image);
    folder.write("d.img.marks", b"tuormik marks\nrecorded 0 640\n");
    assert!(folder.does(&["read", "d.img", "5"]).starts_with("a block\0"));
    are_refused(&folder, [32, 96]);
    has(&folder.does(&["info", "d.img"]), "warning the copies of the sparing table in sectors 32 and 64 are not current");
    // alone it opens, with other blocks of a spare
    folder.write("d.img.marks", b"tuormik marks\nrecorded 0 640\nunreadable 0 1\nunreadable 32 1\n");
    folder.refuses(30, &["read", "d.img", "5"]);
    folder.does(&["read", "d.img", "32"]);
}

//! Spares that turn defective, and sparing tables of newer and of older writers (document 02, slip 1): what the tool makes of them.

mod folder;

use folder::{has, Folder};

const SECTOR: usize = 2048;
const TABLES: [usize; 3] = [0, 32, 64];

/// The identifiers of a sparing table, with the flags before them.
const NEWER: &[u8; 24] = b"\0*UDF Sparing Table\0\0\0\0\0";
const OLDER: &[u8; 24] = b"\0*OSTA UDF Sparing Table";
/// The original of a defective spare.
const DEFECTIVE: [u8; 4] = 0xffff_fff0_u32.to_le_bytes();

/// A folder with a rewritable disc of 640 sectors: partition at 288, 64 sectors, three tables, three spares; block 40 has `a block`.
fn rewritable(name: &str) -> Folder {
    Folder::with_spares(name, "96,128,160", "64", "40")
}

/// Writes bytes into sparing tables of d.img, as another writer would: all its sectors are then recorded.
fn patch(folder: &Folder, tables: &[usize], at: usize, bytes: &[u8]) {
    let mut image = folder.bytes("d.img");
    for table in tables {
        image[SECTOR * table + at..][..bytes.len()].copy_from_slice(bytes);
    }
    folder.write("d.img", &image);
    folder.write("d.img.marks", b"tuormik marks\nrecorded 0 640\n");
}

/// The identifiers of the three copies.
fn names(folder: &Folder) -> [Vec<u8>; 3] {
    let image = folder.bytes("d.img");
    TABLES.map(|table| image[SECTOR * table + 16..][..24].to_vec())
}

#[test]
fn a_packet_is_spared_twice() {
    let folder = rewritable("spared-twice");
    has(&folder.does(&["spare", "d.img", "32"]), "spared the packet of block 32: it is now at sector 96");
    has(&folder.does(&["info", "d.img"]), "spares 1 used, 0 defective, 2 free");
    let again = "spared the packet of block 32: it is now at sector 128, and its old spare, at sector 96, is defective";
    has(&folder.does(&["spare", "d.img", "32"]), again);
    assert!(folder.does(&["read", "d.img", "40"]).starts_with("a block\0"));

    let info = folder.does(&["info", "d.img"]);
    for line in [
        "blocks 64 readable, 0 unreadable, 0 blank",
        "spares 1 used, 1 defective, 1 free",
        "identifier newer, *UDF Sparing Table (UDF 1.50)",
        "R 3 (1 used, 1 defective, 1 free)",
        "sequence 2",
    ] {
        has(&info, line);
    }
    let json = folder.does(&["info", "d.img", "--json"]);
    let part = r#""r": 3, "spares_used": 1, "spares_defective": 1, "spares_free": 1, "sequence": 2, "table_identifier": "newer""#;
    assert!(json.contains(part), "{json}");

    let list = "  blocks                 sectors\n      32 to 63             128 to 159       spared, 32 recorded, 0 unreadable, 0 blank\n\
                1 packet in place, recorded\n    defective spare          96 to 127\n    free spare              160 to 191\n";
    assert_eq!(folder.does(&["list", "d.img"]), list);

    // of the partition's 64 sectors those of the spared packet are not live, and 4 of the disc are descriptors
    let legend = "473 blank, 36 recorded, 32 live, 32 free spare, 32 defective spare, 32 used spare, 3 sparing table";
    for picture in ["d.svg", "d.ppm"] {
        has(&folder.does(&["map", "d.img", picture]), &format!("{picture}: {legend}"));
    }
    let svg = String::from_utf8(folder.bytes("d.svg")).expect("text");
    assert!(svg.contains(">defective spare: 32<tspan"), "{svg}");
    let page = folder.does(&["report", "d.img"]);
    assert!(page.contains(">defective spare: 32<span") && page.contains("<td>1 used, 1 defective, 1 free</td>"), "{page}");
    has(&folder.does(&["verify", "d.img"]), "d.img clean: rewritable, 64 blocks, 1 of 3 spares used, 1 defective");
    folder.does(&["export", "d.img", "out"]);
    has(&String::from_utf8_lossy(&folder.bytes("out/list.csv")), "40,40,136,recorded,block-0040.bin,0");

    // once more, with other bytes, and then no spare is left, for any packet
    let again = "spared the packet of block 32: it is now at sector 160, and its old spare, at sector 128, is defective";
    has(&folder.does(&["spare", "d.img", "32", "packet"]), again);
    assert!(folder.does(&["read", "d.img", "40"]).starts_with("pp"));
    has(&folder.does(&["info", "d.img"]), "spares 1 used, 2 defective, 0 free");
    for words in [&["spare", "d.img", "32"][..], &["spare", "d.img", "0"]] {
        folder.turns_away(words, &["no spare is free: the disc has 3, 1 used and 2 defective\n", "(01, line 19)\n"]);
    }
}

/// The spare to which a packet was spared cannot be read: it is spared again, with zeros or with bytes, and the disc is clean.
#[test]
fn a_spare_that_cannot_be_read() {
    let folder = rewritable("spare-unreadable");
    folder.does(&["spare", "d.img", "32"]);
    folder.write("d.img.marks", b"tuormik marks\nrecorded 0 640\nunreadable 104 1\nblank 100 1\n");
    assert_eq!(folder.refuses(14, &["read", "d.img", "40"]), "block 40 cannot be read: its sector, 104, is unreadable");
    folder.refuses(25, &["spare", "d.img", "32"]);
    let spared = "spared the packet of block 32: it is now at sector 128, and its old spare, at sector 96, is defective";
    has(
        &folder.does(&["spare", "d.img", "32", "--zeros"]),
        &format!("{spared}; blocks that became zeros: 1 unreadable, 1 blank (never recorded)"),
    );
    assert_eq!(folder.does(&["read", "d.img", "40"]).trim_end_matches('\0'), "");
    has(&folder.does(&["verify", "d.img"]), "d.img clean: rewritable, 64 blocks, 1 of 3 spares used, 1 defective");
    // a sector of a defective spare that cannot be read is drawn as that; the others, a blank one too, as defective
    has(
        &folder.does(&["map", "d.img", "d.svg"]),
        "d.svg: 509 recorded, 32 live, 32 free spare, 31 defective spare, 32 used spare, 3 sparing table, 1 unreadable",
    );
}

/// A second sparing with the power cut: done exactly if a copy of the new table is whole.
#[test]
fn a_second_sparing_is_cut() {
    for (cut, is_done) in [("32:whole", false), ("33:old", false), ("33:unreadable", false), ("33:whole", true), ("34:old", true)] {
        let folder = rewritable("spared-twice-cut");
        folder.does(&["spare", "d.img", "32"]);
        let (write, effect) = cut.split_once(':').expect("a cut");
        let what = format!("write {write} of the sparing of the packet of block 32, which became {effect}");
        folder.is_cut(&["spare", "d.img", "32", "packet", "--cut", cut], &what);
        let (first, spares, place) = if is_done {
            ("pp", "1 used, 1 defective, 1 free", "128 to 159")
        } else {
            ("a block\0", "1 used, 0 defective, 2 free", "96 to 127")
        };
        assert!(folder.does(&["read", "d.img", "40"]).starts_with(first), "{cut}");
        has(&folder.does(&["info", "d.img"]), &format!("spares {spares}"));
        has(&folder.does(&["list", "d.img"]), &format!("32 to 63 {place} spared, 32 recorded, 0 unreadable, 0 blank"));
    }
}

/// A disc of an older writer opens; a save leaves its tables alone, and a sparing writes the newer identifier into all of them.
#[test]
fn an_older_disc() {
    let folder = rewritable("older-table");
    assert_eq!(names(&folder), [NEWER; 3]);
    patch(&folder, &TABLES, 16, OLDER);
    let older = "identifier older, *OSTA UDF Sparing Table (CD UDF 1.82); a sparing writes the newer, *UDF Sparing Table (UDF 1.50)";
    has(&folder.does(&["info", "d.img"]), older);
    assert!(folder.does(&["info", "d.img", "--json"]).contains(r#""table_identifier": "older", "tables_not_current": []"#));
    has(&folder.does(&["verify", "d.img"]), "d.img clean: rewritable, 64 blocks, 0 of 3 spares used");
    folder.does(&["save", "d.img", "41", "text"]);
    assert_eq!(names(&folder), [OLDER; 3]);
    // cut after the first of the new tables: the others are not current, and have the older identifier still
    let what = "write 34 of the sparing of the packet of block 32, which became old";
    folder.is_cut(&["spare", "d.img", "32", "--cut", "34:old"], what);
    assert_eq!(names(&folder), [NEWER, OLDER, OLDER]);
    let info = folder.does(&["info", "d.img"]);
    has(&info, "warning the copies of the sparing table in sectors 32 and 64 are not current");
    has(&info, "identifier newer, *UDF Sparing Table (UDF 1.50)");
    has(&folder.does(&["spare", "d.img", "0"]), "spared the packet of block 0: it is now at sector 128");
    assert_eq!(names(&folder), [NEWER; 3]);
    has(&folder.does(&["info", "d.img"]), "spares 2 used, 0 defective, 1 free");
    assert!(folder.does(&["read", "d.img", "41"]).starts_with("a block\0"));
}

/// Copies of both identifiers with the same entries are current side by side.
#[test]
fn copies_of_both_identifiers() {
    let folder = rewritable("both-tables");
    patch(&folder, &[32, 64], 16, OLDER);
    let both =
        "identifier newer, *UDF Sparing Table (UDF 1.50) in sector 0; older, *OSTA UDF Sparing Table (CD UDF 1.82) in sectors 32 and 64";
    has(&folder.does(&["info", "d.img"]), both);
    assert!(folder.does(&["info", "d.img", "--json"]).contains(r#""table_identifier": "mixed", "tables_not_current": []"#));
    has(&folder.does(&["verify", "d.img"]), "1 image: 1 clean");
    folder.does(&["spare", "d.img", "32"]);
    assert_eq!(names(&folder), [NEWER; 3]);
}

/// A newer writer has found a spare defective before any packet was spared.
#[test]
fn a_newer_disc_with_a_defective_spare() {
    let folder = rewritable("newer-defective");
    patch(&folder, &TABLES, 56, &DEFECTIVE);
    has(&folder.does(&["info", "d.img"]), "spares 0 used, 1 defective, 2 free");
    has(&folder.does(&["verify", "d.img"]), "d.img clean: rewritable, 64 blocks, 0 of 3 spares used, 1 defective");
    // a copy with the older identifier and that mark does not count
    patch(&folder, &[32], 16, OLDER);
    let (status, out, _) = folder.run(&["verify", "d.img"]);
    assert_eq!(status, 1);
    has(&out, "d.img DAMAGED: the copy of the sparing table in sector 32 is not current");
    has(&folder.does(&["spare", "d.img", "32"]), "spared the packet of block 32: it is now at sector 128");
    let list = folder.does(&["list", "d.img"]);
    has(&list, "32 to 63 128 to 159 spared, 32 recorded, 0 unreadable, 0 blank");
    has(&list, "defective spare 96 to 127");
    has(&list, "free spare 160 to 191");
    has(
        &folder.does(&["spare", "d.img", "32"]),
        "spared the packet of block 32: it is now at sector 160, and its old spare, at sector 128, is defective",
    );
    // the new one is the last of those that are defective
    assert!(folder.does(&["list", "d.img"]).ends_with("defective spare          96 to 127\n    defective spare         128 to 159\n"));
    has(&folder.does(&["verify", "d.img"]), "d.img clean: rewritable, 64 blocks, 1 of 3 spares used, 2 defective");
}

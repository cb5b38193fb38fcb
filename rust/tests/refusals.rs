//! Refusals in words: for each line of 01 and 02 that a command can meet, the first line of the message is a sentence with the case's
//! numbers.

mod folder;

use folder::Folder;

const SECTOR: usize = 2048;
/// The originals of a defective spare and of a free one.
const DEFECTIVE: [u8; 4] = 0xffff_fff0_u32.to_le_bytes();
const FREE: [u8; 4] = u32::MAX.to_le_bytes();

/// A folder with a rewritable disc of 640 sectors: partition at 288, 64 sectors, three tables, two spares.
fn rewritable(name: &str) -> Folder {
    let folder = Folder::new(name);
    folder.does(&["make", "d.img", "--sectors", "640", "--tables", "0,32,64", "--spares", "96,128", "--length", "64"]);
    folder.write("text", b"a block");
    folder.write("packet", &[7; 65_536]);
    folder
}

/// Changes bytes of an image.
fn patch(folder: &Folder, name: &str, sector: usize, at: usize, bytes: &[u8]) {
    let mut image = folder.bytes(name);
    image[SECTOR * sector + at..][..bytes.len()].copy_from_slice(bytes);
    folder.write(name, &image);
}

/// Runs commands and expects refusals by a line, each with this sentence.
fn refuse(folder: &Folder, line: u32, cases: &[(&[&str], &str)]) {
    for (words, sentence) in cases {
        assert_eq!(folder.refuses(line, words), *sentence, "{words:?}");
    }
}

#[test]
fn a_message_has_the_sentence_first_and_then_the_line() {
    let folder = Folder::with_disc("refusal-form");
    let (status, out, err) = folder.run(&["read", "d.img", "2"]);
    assert_eq!((status, out.as_str()), (1, ""));
    let expected = "tuormik: block 2 does not exist: the disc has no blocks yet\n\
                    turned down: v is N or more (save: above N, or 4,096), b is L or more, or a packet start is not a multiple of 32 below \
                    L. (01, line 12)\n";
    assert_eq!(err, expected);
}

#[test]
fn discs_that_cannot_be_made() {
    let folder = Folder::new("refusal-make");
    let make = |rest: &[&'static str]| [&["make", "e.img"], rest].concat();
    let cases: [(u32, Vec<&str>, &str); 16] = [
        (1, make(&["--sectors", "0", "--write-once"]), "a disc has 1 to 1,048,576 sectors, not 0"),
        (1, make(&["--sectors", "1,048,577", "--write-once"]), "a disc has 1 to 1,048,576 sectors, not 1,048,577"),
        (2, make(&["--sectors", "100", "--write-once"]), "the partition has no sectors: L is 0"),
        (
            2,
            make(&["--sectors", "400", "--start", "300", "--length", "200", "--write-once"]),
            "the partition does not fit the disc: from sector 300 on 200 sectors end before sector 500, and the disc has 400 sectors",
        ),
        (5, make(&["--sectors", "640", "--tables", "0,32,64,96,128"]), "a rewritable disc has 1 to 4 sparing tables, not 5"),
        (5, make(&["--sectors", "640", "--tables", "0", "--table-bytes", "9"]), "a sparing table has 56 to 2,048 bytes, not 9"),
        (6, make(&["--sectors", "640", "--tables", "0,33"]), "the sparing table at sector 33 is not at a multiple of 32"),
        (6, make(&["--sectors", "640", "--tables", "32,32"]), "the sparing table at sector 32 is named twice"),
        (6, make(&["--sectors", "640", "--tables", "0", "--length", "40"]), "the partition has 40 sectors, which is not a multiple of 32"),
        (
            6,
            make(&["--sectors", "650", "--tables", "0,640", "--length", "64"]),
            "the packet of the sparing table at sector 640, sectors 640 to 671, is not whole on the disc, which has 650 sectors",
        ),
        (
            6,
            make(&["--sectors", "640", "--tables", "0,320", "--length", "64", "--spares", "288"]),
            "the packet of the sparing table at sector 320, sectors 320 to 351, lies in the partition, sectors 288 to 351",
        ),
        (
            6,
            make(&["--sectors", "650", "--tables", "0", "--length", "64", "--spares", "320,640"]),
            "the packet of the spare at sector 640, sectors 640 to 671, is not whole on the disc, which has 650 sectors",
        ),
        (
            6,
            make(&["--sectors", "640", "--tables", "0", "--length", "64", "--spares", "300"]),
            "the spare at sector 300 is not at a multiple of 32",
        ),
        (
            6,
            make(&["--sectors", "640", "--tables", "0", "--length", "64", "--spares", "320,288,320"]),
            "the spare at sector 320 is named twice",
        ),
        (
            6,
            make(&["--sectors", "640", "--tables", "0", "--length", "64", "--spares", "0"]),
            "the spare at sector 0 is the packet of a sparing table",
        ),
        (
            6,
            make(&["--sectors", "640", "--tables", "0", "--length", "64", "--table-bytes", "64", "--spares", "32,64"]),
            "a sparing table of 64 bytes has room for 1 spare, not 2",
        ),
    ];
    for (line, words, sentence) in &cases {
        refuse(&folder, *line, &[(words, sentence)]);
    }
    assert!(folder.names().is_empty());
}

#[test]
fn map_lists_by_hand() {
    let folder = Folder::with_disc("refusal-maps");
    let by_hand = ["info", "d.img", "--start", "288", "--length", "112", "--maps", "maps"];
    let cases: [(u32, &[u8], &str); 4] = [
        (4, &[1], "the map list breaks off: the map at its byte 0 has 1 byte"),
        (4, &[1, 6, 0, 0, 0, 0, 2, 64], "the map list breaks off: the map at its byte 6 says 64 bytes, and 2 bytes are left"),
        (4, &[9, 0], "the map at byte 0 of the map list says that its length is 0"),
        (
            5,
            &[1, 6, 1, 0, 0, 0],
            "the volume is neither write-once nor rewritable as CD UDF has them: its map list has an ordinary partition (type 1); a \
             write-once one has an ordinary partition and *UDF Virtual Partition, a rewritable one *UDF Sparable Partition with packets of \
             32 sectors and 1 to 4 tables of 56 to 2,048 bytes",
        ),
    ];
    for (line, maps, sentence) in cases {
        folder.write("maps", maps);
        refuse(&folder, line, &[(&by_hand, sentence)]);
    }
    let mut metadata = [0; 70];
    metadata[..2].copy_from_slice(&[1, 6]);
    metadata[6..8].copy_from_slice(&[2, 64]);
    metadata[11..34].copy_from_slice(b"*UDF Metadata Partition");
    folder.write("maps", &metadata);
    assert!(folder.refuses(5, &by_hand).contains("has an ordinary partition (type 1) and *UDF Metadata Partition (type 2);"));
}

#[test]
fn numbers_that_are_not_there() {
    let folder = Folder::with_disc("refusal-numbers");
    let cases: [(&[&str], &str); 2] = [
        (&["read", "d.img", "0"], "block 0 does not exist: the disc has no blocks yet"),
        (&["save", "d.img", "1", "text"], "block 1 cannot be saved yet: the disc has no blocks yet, and the next new one is 0"),
    ];
    refuse(&folder, 12, &cases);
    folder.does(&["save", "d.img", "new", "text"]);
    refuse(&folder, 12, &[(&["read", "d.img", "1"], "block 1 does not exist: the disc has 1 block, 0")]);
    folder.does(&["save", "d.img", "new", "text"]);
    let cases: [(&[&str], &str); 5] = [
        (&["read", "d.img", "2"], "block 2 does not exist: the disc has 2 blocks, 0 and 1"),
        (&["read", "d.img", "1,000"], "block 1,000 does not exist: the disc has 2 blocks, 0 and 1"),
        (&["free", "d.img", "0x10"], "block 16 does not exist: the disc has 2 blocks, 0 and 1"),
        (&["save", "d.img", "3", "text"], "block 3 cannot be saved yet: the disc has 2 blocks, 0 and 1, and the next new one is 2"),
        (&["save", "d.img", "4096", "text"], "block 4,096 cannot be saved: a write-once disc holds at most 4,096 blocks"),
    ];
    refuse(&folder, 12, &cases);
    folder.does(&["free", "d.img", "1"]);
    for command in ["read", "free"] {
        refuse(&folder, 13, &[(&[command, "d.img", "1"], "block 1 is unused: the disc's table has no sector for it")]);
    }
}

#[test]
fn sectors_that_cannot_be_read() {
    let folder = Folder::with_disc("refusal-marks");
    folder.does(&["save", "d.img", "new", "text"]);
    folder.write("m", b"tuormik marks\nrecorded 0 291\nunreadable 289 1\n");
    let read = ["read", "d.img", "0", "--marks", "m"];
    refuse(&folder, 14, &[(&read, "block 0 cannot be read: its sector, 289, is unreadable")]);
    let folder = rewritable("refusal-packet");
    folder.is_cut(&["save", "d.img", "3", "text", "--cut", "9:unreadable"], "write 9 of the save of block 3, which became unreadable");
    let cases: [(&[&str], &str); 3] = [
        (&["read", "d.img", "8"], "block 8 cannot be read: its sector, 296, is unreadable"),
        (
            &["save", "d.img", "3", "text"],
            "block 3 cannot be saved by itself: the others of its packet are written with it, and block 8 cannot be read: its sector, 296, \
             is unreadable",
        ),
        (&["spare", "d.img", "0"], "block 8 cannot be read: its sector, 296, is unreadable"),
    ];
    refuse(&folder, 14, &cases);
}

#[test]
fn a_block_that_would_pass_as_an_icb() {
    let folder = Folder::with_disc("refusal-icb");
    folder.does(&["make", "e.img", "--sectors", "400", "--write-once"]);
    folder.does(&["commit", "e.img"]);
    // the ICB that e.img has at block 1, where the next write of d.img goes
    folder.write("icb", &folder.bytes("e.img")[SECTOR * 289..SECTOR * 290]);
    let sentence = "the bytes for block 0 would pass as a VAT ICB where they would stand, and be taken for the disc's own";
    refuse(&folder, 15, &[(&["save", "d.img", "new", "icb"], sentence)]);
}

#[test]
fn no_room() {
    let folder = Folder::new("refusal-room");
    folder.write("text", b"one");
    folder.does(&["make", "d.img", "--sectors", "291", "--write-once"]);
    folder.does(&["save", "d.img", "new", "text"]);
    let cases: [(&[&str], &str); 2] = [
        (&["save", "d.img", "new", "text"], "no room for block 1: no sector is free, and the save and its commit need 2"),
        (&["commit", "d.img"], "no room for the commit: no sector is free, and it needs 1"),
    ];
    refuse(&folder, 16, &cases);
    let cases: [(&[&str], &str); 3] = [
        (&["fit", "d.img", "0"], "item 0 (save 0): no room for block 0: no sector is free, and the save and its commit need 2"),
        (&["fit", "d.img", "new"], "item 0 (save 1): no room for block 1: no sector is free, and the save and its commit need 2"),
        (&["fit", "d.img", "commit"], "item 0 (commit): no room for the commit: no sector is free, and it needs 1"),
    ];
    refuse(&folder, 16, &cases);
    // line 12 is asked first
    let sentence = "item 0 (save 2): block 2 cannot be saved yet: the disc has 1 block, 0, and the next new one is 1";
    refuse(&folder, 12, &[(&["fit", "d.img", "2", "commit"], sentence)]);
    // one sector is free, which a commit would take
    folder.does(&["make", "e.img", "--sectors", "290", "--write-once"]);
    let sentence = "no room for block 0: 1 sector is free, and the save and its commit need 2";
    refuse(&folder, 16, &[(&["save", "e.img", "new", "text"], sentence)]);
    // 459 blocks no longer fit into the ICB: one data sector more
    folder.does(&["make", "f.img", "--sectors", "750", "--write-once"]);
    folder.write("many", &[7; 458 * SECTOR]);
    folder.does(&["save", "f.img", "new", "many"]);
    let sentence = "no room for block 458: 2 sectors are free, and the save and its commit need 3";
    refuse(&folder, 16, &[(&["save", "f.img", "new", "text"], sentence)]);
    // of a list the numbers are those at the refused item
    let cases: [(&[&str], &str); 3] = [
        (
            &["fit", "f.img", "7", "new"],
            "item 1 (save 458), after the one before it: no room for block 458: 1 sector is free, and the save and its commit need 3",
        ),
        (
            &["fit", "f.img", "7", "commit", "commit"],
            "item 2 (commit), after the 2 before it: no room for the commit: no sector is free, and it needs 1",
        ),
        (&["fit", "f.img", "new", "7"], "item 0 (save 458): no room for block 458: 2 sectors are free, and the save and its commit need 3"),
    ];
    refuse(&folder, 16, &cases);
}

#[test]
fn items_that_are_not_there() {
    let folder = Folder::with_disc("refusal-items");
    let cases: [(&[&str], &str); 4] = [
        (&["fit", "d.img", "1"], "item 0 (save 1): block 1 cannot be saved yet: the disc has no blocks yet, and the next new one is 0"),
        (
            &["fit", "d.img", "new*3", "commit", "4"],
            "item 4 (save 4), after the 4 before it: block 4 cannot be saved yet: the disc has 3 blocks, 0 to 2, and the next new one is 3",
        ),
        // a number that stands for a commit in the layer's list is a block number here
        (
            &["fit", "d.img", "0x80000000"],
            "item 0 (save 2,147,483,648): block 2,147,483,648 cannot be saved: a write-once disc holds at most 4,096 blocks",
        ),
        (
            &["fit", "d.img", "commit", "4,294,967,295"],
            "item 1 (save 4,294,967,295), after the one before it: block 4,294,967,295 cannot be saved: a write-once disc holds at most 4,096 \
             blocks",
        ),
    ];
    refuse(&folder, 12, &cases);
}

#[test]
fn calls_for_the_other_kind() {
    let folder = Folder::with_disc("refusal-kind-once");
    folder.write("packet", &[7; 65_536]);
    let cases: [(&[&str], &str); 2] = [
        (&["spare", "d.img", "0", "packet"], "the sparing of the packet of block 0 is for a rewritable disc, and this one is write-once"),
        (
            &["save", "d.img", "0", "packet", "--packet"],
            "the save of the packet of block 0 is for a rewritable disc, and this one is write-once",
        ),
    ];
    refuse(&folder, 7, &cases);
    let folder = rewritable("refusal-kind-rewritable");
    let cases: [(&[&str], &str); 5] = [
        (&["fit", "d.img", "new", "commit"], "the forecast of saves and commits is for a write-once disc, and this one is rewritable"),
        (&["commit", "d.img"], "the commit is for a write-once disc, and this one is rewritable"),
        (&["free", "d.img", "3"], "the freeing of block 3 is for a write-once disc, and this one is rewritable"),
        (&["history", "d.img"], "a history of commits is for a write-once disc, and this one is rewritable"),
        (&["read", "d.img", "3", "--at", "0"], "a history of commits is for a write-once disc, and this one is rewritable"),
    ];
    refuse(&folder, 7, &cases);
}

#[test]
fn sparings() {
    let folder = rewritable("refusal-spare");
    refuse(&folder, 3, &[(&["spare", "d.img", "0", "text"], "a packet has 65,536 bytes, and 7 are given")]);
    let cases: [(&[&str], &str); 4] = [
        (&["spare", "d.img", "33", "packet"], "no packet begins at block 33: its packet is blocks 32 to 63"),
        (&["save", "d.img", "1", "packet", "--packet"], "no packet begins at block 1: its packet is blocks 0 to 31"),
        (&["spare", "d.img", "64", "packet"], "block 64 does not exist: the disc has 64 blocks, 0 to 63"),
        (&["save", "d.img", "64", "text"], "block 64 does not exist: the disc has 64 blocks, 0 to 63"),
    ];
    refuse(&folder, 12, &cases);
    folder.does(&["spare", "d.img", "32"]);
    for table in [0, 32, 64] {
        patch(&folder, "d.img", table, 52, &[255; 4]);
    }
    std::fs::remove_file(folder.path("d.img.marks")).expect("a marks file");
    let sentence = "the sequence of the sparing table has come to its end, 4,294,967,295";
    // of a packet that is spared already too
    refuse(&folder, 20, &[(&["spare", "d.img", "0", "packet"], sentence), (&["spare", "d.img", "32"], sentence)]);
    folder.does(&["make", "e.img", "--sectors", "640", "--tables", "0,32", "--length", "64"]);
    refuse(&folder, 19, &[(&["spare", "e.img", "0"], "the disc has no spares")]);
    folder.does(&["make", "f.img", "--sectors", "640", "--tables", "0,32", "--spares", "96", "--length", "64"]);
    folder.does(&["spare", "f.img", "0"]);
    let sentence = "no spare is free: the disc has 1, which is used";
    refuse(&folder, 19, &[(&["spare", "f.img", "32"], sentence), (&["spare", "f.img", "0"], sentence)]);
    folder.does(&["make", "g.img", "--sectors", "640", "--tables", "0", "--spares", "96", "--length", "64"]);
    let sentence = "the disc has one sparing table only, and sparing rewrites it: a cut there could lose every sparing";
    refuse(&folder, 17, &[(&["spare", "g.img", "0"], sentence)]);
}

/// Blocks and packets of a spare inside the partition (document 02, slip 8): 30 stands after 12 and before all that follows it.
#[test]
fn what_belongs_to_a_spare() {
    let folder = rewritable("refusal-of-spare");
    // blocks 32 to 63 are sectors 320 to 351; all spares are free, then one is used, then it is defective
    folder.does(&["make", "e.img", "--sectors", "640", "--tables", "0,32", "--spares", "320,96", "--length", "96"]);
    for which in ["a free spare", "the spare of blocks 64 to 95", "a defective spare"] {
        let sentence = |b: u32| format!("block {b} belongs to a spare: its packet, blocks 32 to 63, is {which}, in sectors 320 to 351");
        let [first, other, last] = [32, 40, 63].map(sentence);
        let cases: [(&[&str], &str); 9] = [
            (&["read", "e.img", "32"], &first),
            (&["read", "e.img", "40"], &other),
            (&["read", "e.img", "31", "2"], &first),
            (&["save", "e.img", "63", "text"], &last),
            (&["save", "e.img", "32", "packet", "--packet"], &first),
            (&["save", "e.img", "31", "text", "text"], &first),
            (&["spare", "e.img", "32"], &first),
            (&["spare", "e.img", "32", "--zeros"], &first),
            (&["spare", "e.img", "32", "packet"], &first),
        ];
        refuse(&folder, 30, &cases);
        // 12 and 3 are asked first
        refuse(&folder, 12, &[(&["spare", "e.img", "33"], "no packet begins at block 33: its packet is blocks 32 to 63")]);
        refuse(&folder, 12, &[(&["read", "e.img", "96"], "block 96 does not exist: the disc has 96 blocks, 0 to 95")]);
        refuse(&folder, 3, &[(&["spare", "e.img", "32", "text"], "a packet has 65,536 bytes, and 7 are given")]);
        if which != "a defective spare" {
            folder.does(&["spare", "e.img", "64"]);
        }
    }
    // 19 stands after it; so do 17, and 25 and 14 of its sectors
    refuse(&folder, 19, &[(&["spare", "e.img", "64"], "no spare is free: the disc has 2, 1 used and 1 defective")]);
    folder.does(&["make", "f.img", "--sectors", "640", "--tables", "0", "--spares", "320", "--length", "64"]);
    folder.write("f.img.marks", b"tuormik marks\nrecorded 0 640\nblank 321 1\nunreadable 330 1\n");
    for words in [&["spare", "f.img", "32"][..], &["read", "f.img", "33"], &["read", "f.img", "42"], &["save", "f.img", "40", "text"]] {
        folder.refuses(30, words);
    }
    // the words of the line stand below the case's own
    let (_, _, err) = folder.run(&["read", "e.img", "40"]);
    assert!(err.ends_with("\nturned down: The block or packet belongs to a spare. (02, line 30)\n"), "{err}");
    // a spare outside the partition has no blocks
    folder.does(&["read", "d.img", "63"]);
}

/// A packet that is spared already is spared again until no spare is free; a defective spare is none (document 02, slip 1).
#[test]
fn no_spare_is_left() {
    let folder = rewritable("refusal-no-spare");
    for _ in 0..2 {
        folder.does(&["spare", "d.img", "32"]);
    }
    let sentence = "no spare is free: the disc has 2, 1 used and 1 defective";
    refuse(&folder, 19, &[(&["spare", "d.img", "32"], sentence), (&["spare", "d.img", "0", "packet"], sentence)]);
    folder.does(&["make", "e.img", "--sectors", "640", "--tables", "0,32", "--spares", "96,128", "--length", "64"]);
    folder.does(&["spare", "e.img", "0"]);
    folder.does(&["spare", "e.img", "32"]);
    refuse(&folder, 19, &[(&["spare", "e.img", "32"], "no spare is free: the disc has 2, all used")]);
    // spares that another writer found to be defective
    for (image, spares, sentence) in [
        ("f.img", "96", "no spare is free: the disc has 1, which is defective"),
        ("g.img", "96,128", "no spare is free: the disc has 2, all defective"),
    ] {
        folder.does(&["make", image, "--sectors", "640", "--tables", "0,32", "--spares", spares, "--length", "64"]);
        for table in [0, 32] {
            for entry in 0..spares.split(',').count() {
                patch(&folder, image, table, 56 + 8 * entry, &DEFECTIVE);
            }
        }
        std::fs::remove_file(folder.path(&format!("{image}.marks"))).expect("a marks file");
        refuse(&folder, 19, &[(&["spare", image, "0", "packet"], sentence)]);
    }
}

#[test]
fn what_a_write_once_disc_has_instead_of_a_vat() {
    let folder = Folder::with_disc("refusal-no-vat");
    let info = ["info", "d.img"];
    // UDF 2.01: an Extended File Entry of file type 248
    patch(&folder, "d.img", 288, 0, &266u16.to_le_bytes());
    patch(&folder, "d.img", 288, 27, &[248]);
    let sentence = "no VAT of CD UDF was found: sector 288 has a VAT of UDF 2.01: an Extended File Entry (tag 266) of file type 248";
    refuse(&folder, 8, &[(&info, sentence)]);
    patch(&folder, "d.img", 288, 0, &261u16.to_le_bytes());
    let sentence = "no VAT of CD UDF was found: sector 288 has a VAT of UDF 2.00 or later: a File Entry of file type 248";
    refuse(&folder, 8, &[(&info, sentence)]);
    patch(&folder, "d.img", 288, 27, &[0]);
    patch(&folder, "d.img", 288, 8, &[1, 2]);
    let sentence = "no VAT of CD UDF was found: sector 288 has a File Entry of file type 0 whose tag's checksum is 21 and should be 207";
    refuse(&folder, 8, &[(&info, sentence)]);
    patch(&folder, "d.img", 288, 0, &[7; 40]);
    let sentence =
        "no VAT was found in the partition, sectors 288 to 399: of 1 sector up to the last that is not blank, 288, all can be read \
                    and none is a VAT ICB";
    refuse(&folder, 8, &[(&info, sentence)]);
    patch(&folder, "d.img", 288, 0, &[0; SECTOR]);
    let sentence = "the partition, sectors 288 to 399, is blank: it has no VAT yet";
    refuse(&folder, 8, &[(&info, sentence)]);
}

#[test]
fn what_a_rewritable_disc_has_instead_of_a_table() {
    let folder = rewritable("refusal-no-copy");
    let info = ["info", "d.img"];
    // copies of one sequence with other entries: the free spares by turns
    patch(&folder, "d.img", 32, 60, &128u32.to_le_bytes());
    patch(&folder, "d.img", 32, 68, &96u32.to_le_bytes());
    std::fs::remove_file(folder.path("d.img.marks")).expect("a marks file");
    let sentence = "the copies of the sparing table in sectors 0, 32 and 64 have sequence 0 and differ in their entries";
    refuse(&folder, 10, &[(&info, sentence)]);
    // a copy that does not count has no part in it, whatever its sequence
    patch(&folder, "d.img", 64, 52, &[7]);
    patch(&folder, "d.img", 64, 56, &[0xf1]);
    let sentence = "the copies of the sparing table in sectors 0 and 32 have sequence 0 and differ in their entries";
    refuse(&folder, 10, &[(&info, sentence)]);
    // the older identifier with a defective spare, and none
    for table in [0, 32] {
        patch(&folder, "d.img", table, 16, b"\0*OSTA UDF Sparing Table");
        patch(&folder, "d.img", table, 56, &DEFECTIVE);
    }
    patch(&folder, "d.img", 64, 16, &[0; 24]);
    let sentence =
        "no copy of the sparing table can be used: each of sectors 0 and 32 has a table with a defective spare (0xfffffff0) and the \
                    older identifier, *OSTA UDF Sparing Table, where only the newer one, *UDF Sparing Table, has that mark; sector 64 has \
                    no identifier";
    refuse(&folder, 8, &[(&info, sentence)]);
    // with the newer one both count, and differ
    for table in [0, 32] {
        patch(&folder, "d.img", table, 16, b"\0*UDF Sparing Table\0\0\0\0\0");
    }
    refuse(&folder, 10, &[(&info, "the copies of the sparing table in sectors 0 and 32 have sequence 0 and differ in their entries")]);
    // too long, a mapped start that is no multiple of 32, and another identifier
    patch(&folder, "d.img", 0, 48, &[250, 0]);
    patch(&folder, "d.img", 32, 60, &[1]);
    patch(&folder, "d.img", 64, 16, b"\0*Another\0\0\0\0\0\0\0\0\0\0\0\0\0\0\0");
    let sentence =
        "no copy of the sparing table can be used: sector 0 has a table of 2,056 bytes, and the map list gives it 2,048; sector 32 \
                    has a table that breaks the rule for a copy; sector 64 has the identifier *Another";
    refuse(&folder, 8, &[(&info, sentence)]);
    folder.write("m", b"tuormik marks\nrecorded 0 640\nunreadable 0 1\nunreadable 32 1\nunreadable 64 1\n");
    let sentence = "no copy of the sparing table can be used: each of sectors 0, 32 and 64 is unreadable";
    refuse(&folder, 8, &[(&["info", "d.img", "--marks", "m"], sentence)]);
}

/// An original that is the packet of a spare (document 02, slip 8): a copy with it does not count, whichever entry maps that packet.
#[test]
fn an_original_that_is_a_spare() {
    let folder = rewritable("refusal-original");
    std::fs::remove_file(folder.path("d.img.marks")).expect("a marks file");
    let put = |entries: [([u8; 4], u32); 2]| {
        let bytes = entries.map(|(original, mapped)| [original, mapped.to_le_bytes()].concat()).concat();
        for table in [0, 32, 64] {
            patch(&folder, "d.img", table, 56, &bytes);
        }
    };
    // blocks 0 to 31 are sectors 288 to 319, and blocks 32 to 63 sectors 320 to 351
    let [first, second] = [0u32, 32].map(u32::to_le_bytes);
    for (entries, original) in [
        ([(first, 288), (FREE, 96)], 0),
        ([(first, 96), (second, 288)], 0),
        ([(first, 320), (second, 96)], 32),
        ([(second, 96), (DEFECTIVE, 320)], 32),
        ([(second, 96), (FREE, 320)], 32),
    ] {
        put(entries);
        let sentence = format!(
            "no copy of the sparing table can be used: each of sectors 0, 32 and 64 has a table that spares the packet of block {original}, \
             which is a spare itself"
        );
        refuse(&folder, 8, &[(&["info", "d.img"], &sentence)]);
    }
    for entries in [[(first, 320), (FREE, 96)], [(first, 96), (FREE, 320)], [(second, 96), (DEFECTIVE, 288)], [(FREE, 288), (FREE, 320)]] {
        put(entries);
        folder.does(&["info", "d.img"]);
    }
}

/// The CRC of polynomial 0x1021, start 0, high bit first.
fn crc(bytes: &[u8]) -> u16 {
    let shift = |crc: u16, _| if crc & 0x8000 != 0 { crc << 1 ^ 0x1021 } else { crc << 1 };
    bytes.iter().fold(0, |crc, &b| (0..8).fold(crc ^ u16::from(b) << 8, shift))
}

/// A VAT of 4,097 entries: 16,424 bytes in blocks 1 to 9, its ICB at block 10.
#[test]
fn a_vat_with_too_many_entries() {
    let folder = Folder::with_disc("refusal-entries");
    let mut image = folder.bytes("d.img");
    let file = 36 + 4 * 4097u32;
    let mut icb = image[SECTOR * 288..SECTOR * 289].to_vec();
    icb[176..].fill(0);
    icb[34] = 0;
    icb[56..64].copy_from_slice(&u64::from(file).to_le_bytes());
    icb[172..176].copy_from_slice(&8u32.to_le_bytes());
    icb[176..180].copy_from_slice(&file.to_le_bytes());
    icb[180..184].copy_from_slice(&1u32.to_le_bytes());
    icb[10..12].copy_from_slice(&168u16.to_le_bytes());
    icb[12..16].copy_from_slice(&10u32.to_le_bytes());
    let crc = crc(&icb[16..16 + 168]);
    icb[8..10].copy_from_slice(&crc.to_le_bytes());
    icb[4] = 0;
    icb[4] = icb[..16].iter().fold(0u8, |sum, &b| sum.wrapping_add(b));
    image[SECTOR * 298..SECTOR * 299].copy_from_slice(&icb);
    let regid = SECTOR * 289 + file as usize - 36;
    image[regid..regid + 24].copy_from_slice(b"\0*UDF Virtual Alloc Tbl\0");
    image[regid + 32..regid + 36].copy_from_slice(&[255; 4]);
    folder.write("d.img", &image);
    refuse(&folder, 9, &[(&["info", "d.img"], "the VAT in sector 298 has 4,097 entries, and at most 4,096 are taken")]);
}

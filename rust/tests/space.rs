//! The free blocks of a rewritable disc by its space bitmap (document 02, slip 10): what the tool tells of them, and what becomes of the
//! image's sectors where a run is taken or given back.

mod folder;

use folder::bitmaps::{bitmap, name_bitmap, sign};
use folder::sectors::unpack;
use folder::{has, Folder};

const SECTOR: usize = 2048;

/// Two discs that mkudffs made.
const TAB2: &[u8] = include_bytes!("../second/tests/discs/real-cdrw-1.50-2048-tab2.sectors");
const R3: &[u8] = include_bytes!("../second/tests/discs/real-cdrw-1.50-1000-R3.sectors");

/// A folder with the first of them as d.img: S 544, L 1,440, its bitmap in block 0.
fn with_real(name: &str) -> Folder {
    let folder = Folder::new(name);
    folder.write("d.img", &unpack(TAB2));
    folder
}

/// A folder with a rewritable disc of 640 sectors, d.img: partition at 288, 64 sectors, three tables, spares at 96 and 128, and a bitmap in
/// block 3, by which these rows are free, with a CRC over its bits too.
fn with_bitmap(name: &str, rows: &[std::ops::Range<usize>]) -> Folder {
    let folder = Folder::with_spares(name, "96,128", "64", "40");
    change(&folder, |image| {
        name_bitmap(image, 2048, 3);
        image[SECTOR * 291..][..SECTOR].copy_from_slice(&bitmap(64, rows, 16));
    });
    folder
}

/// Changes the bytes of d.img, as another writer would: all its sectors are then recorded.
fn change(folder: &Folder, change: impl FnOnce(&mut [u8])) {
    let mut image = folder.bytes("d.img");
    change(&mut image);
    folder.write("d.img", &image);
    folder.write("d.img.marks", format!("tuormik marks\nrecorded 0 {}\n", image.len() / SECTOR).as_bytes());
}

/// The sectors in which d.img differs from what it was.
fn changed(folder: &Folder, was: &[u8]) -> Vec<usize> {
    let image = folder.bytes("d.img");
    assert_eq!(image.len(), was.len());
    (0..image.len() / SECTOR).filter(|&at| image[SECTOR * at..][..SECTOR] != was[SECTOR * at..][..SECTOR]).collect()
}

/// The rows that a disc's list has, as first and last block.
fn rows(out: &str) -> Vec<(u32, u32)> {
    let (_, list) = out.split_once("   first       last     blocks\n").unwrap_or((out, ""));
    let number = |word: &str| word.replace(',', "").parse::<u32>().expect("a number");
    let row = |line: &str| {
        let numbers: Vec<u32> = line.split_whitespace().map(number).collect();
        assert_eq!(numbers[1] - numbers[0] + 1, numbers[2], "{line}");
        (numbers[0], numbers[1])
    };
    list.lines().map(row).collect()
}

#[test]
fn discs_that_mkudffs_made() {
    let folder = with_real("space-real");
    let expected = "\
free          1,436 of 1,440 blocks
rows          4, the longest 1,343 blocks from 97 on
bitmap        block 0
integrity     1,436 free by the integrity descriptor (sector 128)
   first       last     blocks
       1         31         31
      33         63         31
      65         95         31
      97      1,439      1,343
";
    assert_eq!(folder.does(&["space", "d.img"]), expected);
    for (words, found) in [
        (&["32"][..], "found blocks 97 to 128, 97 blocks from block 0\n"),
        (&["32", "--near", "0"], "found blocks 97 to 128, 97 blocks from block 0\n"),
        (&["1", "--near", "64"], "found block 63, 1 block from block 64\n"),
        (&["1", "--near", "0x41"], "found block 65\n"),
        (&["1,343", "--near", "0"], "found blocks 97 to 1,439, 97 blocks from block 0\n"),
        (&["40", "--near", "1,439"], "found blocks 1,400 to 1,439, 39 blocks from block 1,439\n"),
    ] {
        assert_eq!(folder.does(&[&["space", "d.img", "find"], words].concat()), found, "{words:?}");
    }
    assert_eq!(
        folder.refuses(33, &["space", "d.img", "find", "1344"]),
        "no 1,344 free blocks in a row: the longest row has 1,343, from 97 on"
    );
    // the other one opens with a whole packet at its end
    let mut image = unpack(R3);
    image.resize(SECTOR * 1024, 0);
    folder.write("d.img", &image);
    let out = folder.does(&["space", "d.img"]);
    has(&out, "free 572 of 576 blocks");
    has(&out, "integrity 572 free by the integrity descriptor (sector 128)");
    assert_eq!(rows(&out), [(1, 31), (33, 63), (65, 95), (97, 575)]);
    assert_eq!(folder.does(&["space", "d.img", "find", "479", "--near", "575"]), "found blocks 97 to 575, 478 blocks from block 575\n");
    assert_eq!(folder.refuses(33, &["space", "d.img", "find", "480"]), "no 480 free blocks in a row: the longest row has 479, from 97 on");
    assert_eq!(folder.names(), ["d.img"]);
}

#[test]
fn a_run_is_taken_and_given_back() {
    let folder = with_real("space-taken");
    let was = folder.bytes("d.img");
    let took = "took blocks 97 to 128, 97 blocks from block 0\nfree: 1,404 of 1,440 blocks; saved block 0 of the bitmap\n";
    assert_eq!(folder.does(&["space", "d.img", "take", "32", "--near", "0"]), took);
    assert_eq!(changed(&folder, &was), [544]);
    let out = folder.does(&["space", "d.img"]);
    has(&out, "integrity 1,436 free by the integrity descriptor (sector 128), 32 more than by the bitmap");
    assert_eq!(rows(&out), [(1, 31), (33, 63), (65, 95), (129, 1439)]);
    assert_eq!(
        folder.does(&["space", "d.img", "take", "64", "--near", "1,000"]),
        "took blocks 1,000 to 1,063\nfree: 1,340 of 1,440 blocks; saved block 0 of the bitmap\n"
    );
    assert_eq!(
        folder.does(&["space", "d.img", "take", "31", "1"]),
        "took block 31\nfree: 1,339 of 1,440 blocks; saved block 0 of the bitmap\n"
    );
    // what stands beside each other is given back together
    assert_eq!(
        folder.does(&["space", "d.img", "give-back", "31", "2"]),
        "gave back blocks 31 to 32\nfree: 1,341 of 1,440 blocks; saved block 0 of the bitmap\n"
    );
    has(&folder.does(&["space", "d.img"]), "1 63 63");
    for (first, count) in [("97", "32"), ("1000", "64")] {
        folder.does(&["space", "d.img", "give-back", first, count]);
    }
    folder.does(&["space", "d.img", "take", "32", "1"]);
    // every byte is as it was, and nothing else is there
    assert!(folder.bytes("d.img") == was);
    assert_eq!(folder.names(), ["d.img"]);
}

#[test]
fn a_bitmap_whose_packet_is_spared() {
    let folder = with_real("space-spared");
    folder.does(&["spare", "d.img", "0"]);
    let was = folder.bytes("d.img");
    has(&folder.does(&["space", "d.img"]), "free 1,436 of 1,440 blocks");
    folder.does(&["space", "d.img", "take", "5", "--near", "50"]);
    // in the spare, and not where the block was before
    assert_eq!(changed(&folder, &was), [288]);
    assert_eq!(rows(&folder.does(&["space", "d.img"])), [(1, 31), (33, 49), (55, 63), (65, 95), (97, 1439)]);
    folder.does(&["space", "d.img", "give-back", "50", "5"]);
    assert!(folder.bytes("d.img") == was);
}

/// Runs commands and expects refusals by a line, each with this sentence, and that no file has changed.
fn refuse(folder: &Folder, line: u32, cases: &[(&str, &str)]) {
    for (words, sentence) in cases {
        let before = folder.files();
        let words: Vec<&str> = ["space", "d.img"].into_iter().chain(words.split_whitespace()).collect();
        assert_eq!(folder.refuses(line, &words), *sentence, "{words:?}");
        assert_eq!(folder.files(), before, "{words:?}");
    }
}

#[test]
fn what_is_turned_down() {
    let folder = with_bitmap("space-refused", &[8..32, 40..64]);
    let outside = "block 64 does not exist: the disc has 64 blocks, 0 to 63";
    refuse(
        &folder,
        12,
        &[
            ("find 1 --near 64", outside),
            ("find 0 --near 64", outside),
            ("take 1 --near 64", outside),
            ("take 64 0", outside),
            ("give-back 64 1", outside),
        ],
    );
    let none = "a run has one block at least, not 0";
    refuse(
        &folder,
        32,
        &[
            ("find 0", none),
            ("take 0 --near 63", none),
            ("take 8 0", none),
            ("give-back 63 0", none),
            ("take 63 2", "2 blocks from 63 on end with block 64, and the last of the disc is 63"),
            ("give-back 7 4,294,967,295", "4,294,967,295 blocks from 7 on end with block 4,294,967,301, and the last of the disc is 63"),
            ("take 7 1", "block 7 cannot be taken: it is allocated"),
            ("take 7 3", "blocks 7 to 9 cannot be taken: block 7 is allocated"),
            ("take 30 11", "blocks 30 to 40 cannot be taken: 8 are allocated, the first of them block 32"),
            ("give-back 8 1", "block 8 cannot be given back: it is free"),
            ("give-back 32 9", "blocks 32 to 40 cannot be given back: block 40 is free"),
            ("give-back 0 64", "blocks 0 to 63 cannot be given back: 48 are free, the first of them block 8"),
        ],
    );
    refuse(
        &folder,
        33,
        &[
            ("find 25 --near 63", "no 25 free blocks in a row: the longest row has 24, from 8 on"),
            ("take 64 --near 0", "no 64 free blocks in a row: the longest row has 24, from 8 on"),
            ("find 65", "no 65 free blocks in a row: the longest row has 24, from 8 on"),
        ],
    );
    for (first, count) in [("8", "24"), ("40", "24")] {
        folder.does(&["space", "d.img", "take", first, count]);
    }
    refuse(&folder, 33, &[("find 1", "no block is free"), ("take 2 --near 7", "no block is free")]);
    assert_eq!(folder.does(&["space", "d.img"]), "free          0 of 64 blocks\nbitmap        block 3\n");

    let folder = Folder::with_disc("space-once");
    for words in ["", "find 1", "take 1 --near 0", "take 0 1", "give-back 0 1"] {
        refuse(&folder, 7, &[(words, "a space bitmap is for a rewritable disc, and this one is write-once")]);
    }
}

#[test]
fn a_bitmap_that_is_damaged() {
    let folder = with_bitmap("space-damaged", &[8..32, 40..64]);
    let was = folder.bytes("d.img");
    let place = SECTOR * 291;
    let crcs = |at: usize| {
        let mut bytes = was[place..][..SECTOR].to_vec();
        let has = tuormik::crc(&bytes[16..32], 0);
        bytes[at] ^= 1;
        format!("its CRC is {has:#06x} and should be {:#06x}", tuormik::crc(&bytes[16..32], 0))
    };
    let checksum = was[place + 4];
    for (at, byte, is_signed, says) in [
        (0, 9, true, "its tag has identifier 265 and not 264".to_string()),
        (4, checksum ^ 1, false, format!("its tag's checksum is {} and should be {checksum}", checksum ^ 1)),
        (27, was[place + 27] ^ 1, false, crcs(27)),
        (16, 65, true, "it is of 65 blocks, and the partition has 64".to_string()),
        (20, 7, true, "its 64 bits run past its 7 bytes".to_string()),
        (21, 8, true, "its 2,056 bytes of bits run past the 2,024 that stand behind its head".to_string()),
    ] {
        folder.write("d.img", &was);
        change(&folder, |image| {
            image[place + at] = byte;
            if is_signed {
                sign(&mut image[place..], 16);
            }
        });
        let sentence = format!("the space bitmap is malformed: {says}");
        for words in ["", "find 1 --near 64", "take 1 --near 64", "take 8 0", "give-back 0 65"] {
            refuse(&folder, 31, &[(words, &sentence)]);
        }
    }
    // its sector is not recorded
    change(&folder, |image| image[place..][..SECTOR].fill(0));
    for (mark, line, says) in [("unreadable", 14, "cannot be read"), ("blank", 25, "was never recorded")] {
        folder.write("d.img.marks", format!("tuormik marks\nrecorded 0 640\n{mark} 291 1\n").as_bytes());
        let sentence = format!("the space bitmap: block 3 {says}: its sector, 291, is {mark}");
        refuse(&folder, line, &[("", &sentence), ("find 1", &sentence), ("take 1 --near 0", &sentence)]);
    }
    // nor is another of its packet: the bitmap is read, and not saved
    folder.write("d.img", &was);
    folder.write("d.img.marks", b"tuormik marks\nrecorded 0 640\nunreadable 300 1\n");
    has(&folder.does(&["space", "d.img"]), "free 48 of 64 blocks");
    let sentence =
        "the space bitmap: block 3 cannot be saved by itself: the others of its packet are written with it, and block 12 cannot \
                    be read: its sector, 300, is unreadable";
    refuse(&folder, 14, &[("take 1 --near 0", sentence)]);
}

#[test]
fn where_no_bitmap_is() {
    let folder = Folder::with_spares("space-nowhere", "96,128", "64", "40");
    let says = |words: &[&str], message: &str| folder.turns_away(&[&["space", "d.img"], words].concat(), &[message]);
    for words in [&[][..], &["find", "1"], &["take", "1", "--near", "0"], &["give-back", "0", "1"]] {
        says(words, "tuormik: the disc has no space bitmap: its partition descriptor names none; the image is as it was\n");
    }
    for (length, block, message) in [
        (
            0x4000_0800,
            3,
            "the disc has no space bitmap that was recorded: its extent has the length 0x40000800, with one of the upper two bits set",
        ),
        (2048, 64, "the partition descriptor names block 64 as the space bitmap, and the last block of the partition is 63"),
        (4096, 63, "the partition descriptor names blocks 63 to 64 as the space bitmap, and the last block of the partition is 63"),
        (0x3fff_ffff, u32::MAX, "the partition descriptor names blocks 4,294,967,295 to 4,295,491,582 as the space bitmap"),
    ] {
        change(&folder, |image| name_bitmap(image, length, block));
        says(&[], message);
        says(&["take", "1", "--near", "0"], message);
    }
    // a bitmap of a byte more than the descriptor says is read in whole sectors
    change(&folder, |image| {
        name_bitmap(image, 31, 3);
        image[SECTOR * 291..][..SECTOR].copy_from_slice(&bitmap(64, &[0..1, 63..64], 8));
    });
    has(&folder.does(&["space", "d.img"]), "free 2 of 64 blocks");
    // no descriptors, and a volume by hand
    change(&folder, |image| image[SECTOR * 256..][..SECTOR * 4].fill(0));
    let by_hand = ["--start", "288", "--length", "64", "--tables", "0,32,64"];
    has(&folder.does(&[&["info", "d.img"], &by_hand[..]].concat()), "L 64");
    says(&by_hand, "no anchor volume descriptor pointer stands at sector 256, 512 or n - 256; so nothing tells where the space bitmap is");
}

/// A bitmap of two blocks: those that change are saved, and no others. The CRC is over the head alone, or over the bits of both.
#[test]
fn a_bitmap_of_two_blocks() {
    const LENGTH: usize = 16_256;
    const BITS: usize = 8 * (SECTOR - 24);
    let folder = Folder::new("space-two");
    folder.does(&["make", "d.img", "--sectors", "16544", "--tables", "0,32", "--spares", "64", "--length", &LENGTH.to_string()]);
    for (covered, both, line) in [(8, &[][..], None), (4000, &[288], Some(31))] {
        change(&folder, |image| {
            name_bitmap(image, 4096, 0);
            let rows = [2..100, BITS - 10..BITS + 10, BITS + 30..LENGTH];
            image[SECTOR * 288..][..2 * SECTOR].copy_from_slice(&bitmap(LENGTH, &rows, covered));
        });
        let was = folder.bytes("d.img");
        has(&folder.does(&["space", "d.img"]), "bitmap blocks 0 to 1");
        // of the second alone, of the first alone, of both
        let tagged = if both.is_empty() { "block 1" } else { "blocks 0 and 1" };
        has(&folder.does(&["space", "d.img", "take", "16222", "3"]), &format!("free: 149 of 16,256 blocks; saved {tagged} of the bitmap"));
        assert_eq!(changed(&folder, &was), [both, &[289]].concat());
        folder.does(&["space", "d.img", "give-back", "16222", "3"]);
        assert!(folder.bytes("d.img") == was);
        has(&folder.does(&["space", "d.img", "take", "3", "2"]), "free: 150 of 16,256 blocks; saved block 0 of the bitmap");
        assert_eq!(changed(&folder, &was), [288]);
        folder.does(&["space", "d.img", "give-back", "3", "2"]);
        let run = ["space", "d.img", "take", "20", "--near", "16,200"];
        has(&folder.does(&run), "took blocks 16,182 to 16,201, 18 blocks from block 16,200");
        assert_eq!(changed(&folder, &was), [288, 289]);
        folder.does(&["space", "d.img", "give-back", "16182", "20"]);
        assert!(folder.bytes("d.img") == was);
        // cut between the two: one is new and the other old
        let cut = [&run[..], &["--cut", "33:old"]].concat();
        folder.is_cut(&cut, "write 33 of the saves of blocks 0 and 1 of the space bitmap, in that of block 1, which became old");
        assert_eq!(changed(&folder, &was), [288]);
        match line {
            None => has(&folder.does(&["space", "d.img"]), "free 142 of 16,256 blocks"),
            Some(line) => assert!(folder.refuses(line, &["space", "d.img"]).starts_with("the space bitmap is malformed: its CRC is ")),
        }
        folder.write("d.img", &was);
        change(&folder, |_| {});
        // a cut past the last write is none
        folder.does(&[&run[..], &["--cut", "65:unreadable"]].concat());
        folder.does(&["space", "d.img", "give-back", "16182", "20"]);
        assert!(folder.bytes("d.img") == was);
    }
}

#[test]
fn a_change_is_cut() {
    let folder = with_bitmap("space-cut", &[8..32, 40..64]);
    let was = folder.bytes("d.img");
    let take = |cut: &'static str| ["space", "d.img", "take", "8", "4", "--cut", cut];
    // block 3 is the fourth of its packet
    for (cut, is_taken) in [("3:whole", false), ("4:old", false), ("4:whole", true), ("32:old", true)] {
        folder.write("d.img", &was);
        change(&folder, |_| {});
        let (write, effect) = cut.split_once(':').expect("a cut");
        folder.is_cut(&take(cut), &format!("write {write} of the save of block 3 of the space bitmap, which became {effect}"));
        let free = if is_taken { "free 44 of 64 blocks" } else { "free 48 of 64 blocks" };
        has(&folder.does(&["space", "d.img"]), free);
    }
    folder.write("d.img", &was);
    change(&folder, |_| {});
    folder.is_cut(&take("4:unreadable"), "write 4 of the save of block 3 of the space bitmap, which became unreadable");
    folder.refuses(14, &["space", "d.img"]);
    assert!(folder.usage(&["space", "d.img", "--cut", "1:old"]).starts_with("--cut goes with take and give-back\n"));
    assert!(folder.usage(&["space", "d.img", "find", "1", "--cut", "1:old"]).starts_with("--cut goes with take and give-back\n"));
}

/// Blocks of spares inside the partition are never saved, whatever the bitmap says of them.
#[test]
fn free_blocks_of_spares() {
    let folder = Folder::with_spares("space-inside", "320,96", "96", "70");
    change(&folder, |image| {
        name_bitmap(image, 2048, 3);
        image[SECTOR * 291..][..SECTOR].copy_from_slice(&bitmap(96, &[30..40, 50..96], 8));
    });
    let out = folder.does(&["space", "d.img"]);
    has(&out, "free 56 of 96 blocks");
    has(&out, "of spares 22 of the free ones, inside the partition, neither read nor saved");
    has(
        &folder.does(&["space", "d.img", "find", "4", "--near", "30"]),
        "found blocks 30 to 33, of which 2 are of a spare inside the partition, neither read nor saved",
    );
    has(&folder.does(&["space", "d.img", "take", "4", "--near", "64"]), "took blocks 64 to 67");
}

#[test]
fn wrong_command_lines() {
    let folder = with_bitmap("space-usage", &[8..32, 40..64]);
    for (words, says) in [
        (&["space"][..], "IMAGE is missing\n"),
        (&["space", "d.img", "dance"], "dance is not find, take or give-back\n"),
        (&["space", "d.img", "find"], "COUNT is missing\n"),
        (&["space", "d.img", "find", "1", "2"], "2 is a word too many\n"),
        (&["space", "d.img", "find", "x"], "COUNT: x is no number from 0 to 4,294,967,295\n"),
        (&["space", "d.img", "take", "5"], "COUNT (or --near BLOCK, for the nearest run of so many) is missing\n"),
        (&["space", "d.img", "take", "5", "6", "--near", "7"], "6 is a word too many\n"),
        (&["space", "d.img", "take", "--near", "7"], "COUNT is missing\n"),
        (&["space", "d.img", "give-back", "5"], "COUNT is missing\n"),
        (&["space", "d.img", "give-back", "5", "6", "--near", "7"], "--near goes with find and take\n"),
        (&["space", "d.img", "--near", "7"], "--near goes with find and take\n"),
        (&["space", "d.img", "find", "1", "--near", "x"], "--near: x is no number from 0 to 4,294,967,295\n"),
    ] {
        let before = folder.files();
        assert!(folder.usage(words).starts_with(says), "{words:?}");
        assert_eq!(folder.files(), before, "{words:?}");
    }
}

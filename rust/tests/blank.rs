//! Blank blocks and unreadable ones (document 02, slip 5): every command tells the two apart, so that nobody cleans a disc for a sector
//! that was never recorded.

mod folder;

use folder::{has, Folder};

const SECTOR: usize = 2048;

/// The marks of the write-once disc below: block 1 is blank, block 2 unreadable.
const ONCE_MARKS: &[u8] = b"tuormik marks\nblank 291 1\nunreadable 293 1\n";

/// A folder with a write-once disc of four blocks, each committed by itself: block v is at sector 289 + 2 v, and the VAT ICB of its commit
/// after it. Block 1 is of zeros, so that it can be called blank. The last block is freed.
fn write_once(name: &str) -> Folder {
    let folder = Folder::with_disc(name);
    folder.write("zeros", &[0; SECTOR]);
    for file in ["text", "zeros", "text", "text"] {
        folder.does(&["save", "d.img", "new", file]);
    }
    folder.does(&["free", "d.img", "3"]);
    folder.write("m", ONCE_MARKS);
    folder
}

/// Marks of sectors that are changed in the marks file of an image.
fn mark(folder: &Folder, image: &str, lines: &str) {
    let name = format!("{image}.marks");
    let text = String::from_utf8(folder.bytes(&name)).expect("text");
    // without the fingerprint the file goes with any bytes
    let kept: Vec<&str> = text.lines().filter(|line| !line.starts_with("image ")).collect();
    folder.write(&name, format!("{}\n{lines}", kept.join("\n")).as_bytes());
}

/// A folder with a rewritable disc of 640 sectors, its 64 blocks from sector 288 on, with some sectors marked anew.
fn rewritable(name: &str, lines: &str) -> Folder {
    let folder = Folder::new(name);
    folder.does(&["make", "d.img", "--sectors", "640", "--tables", "0,32,64", "--spares", "96,128", "--length", "64"]);
    folder.write("text", b"a block");
    folder.write("packet", &[b'p'; 65_536]);
    mark(&folder, "d.img", lines);
    folder
}

/// Runs it and expects the whole message of a refusal by a blank sector, which says nothing of unreadable ones.
fn tells_blank(folder: &Folder, words: &[&str], sentence: &str) {
    let line = "turned down: A sector was never recorded: of those to be read (save b: the others of its packet) the first that is not \
                recorded is blank. (02, line 25)";
    let (status, out, err) = folder.run(words);
    assert_eq!((status, out.as_str(), err), (1, "", format!("tuormik: {sentence}\n{line}\n")), "{words:?}");
}

/// The same of an unreadable one.
fn tells_unreadable(folder: &Folder, words: &[&str], sentence: &str) {
    let line = "turned down: A sector cannot be read: of those to be read (save b: the others of its packet) the first that is not \
                recorded is unreadable. (01, line 14)";
    let (status, out, err) = folder.run(words);
    assert_eq!((status, out.as_str(), err), (1, "", format!("tuormik: {sentence}\n{line}\n")), "{words:?}");
}

#[test]
fn reading_a_write_once_disc() {
    let folder = write_once("blank-read");
    let blank = "block 1 was never recorded: its sector, 291, is blank";
    let unreadable = "block 2 cannot be read: its sector, 293, is unreadable";
    tells_blank(&folder, &["read", "d.img", "1", "--marks", "m"], blank);
    tells_blank(&folder, &["read", "d.img", "0", "4", "--marks", "m"], blank);
    tells_unreadable(&folder, &["read", "d.img", "2", "--marks", "m"], unreadable);
    // as a commit left them: the VAT ICBs of the four saves are at blocks 2, 4, 6 and 8
    tells_blank(&folder, &["read", "d.img", "1", "--at", "4", "--marks", "m"], blank);
    tells_blank(&folder, &["read", "d.img", "1", "--at", "8", "--marks", "m"], blank);
    tells_unreadable(&folder, &["read", "d.img", "2", "--at", "6", "--marks", "m"], unreadable);
    assert!(folder.does(&["read", "d.img", "0", "--at", "6", "--marks", "m"]).starts_with("one"));
}

#[test]
fn what_a_write_once_disc_is_told_as() {
    let folder = write_once("blank-once");
    let list = folder.does(&["list", "d.img", "--marks", "m"]);
    for line in ["0 1 289 recorded", "1 3 291 blank", "2 5 293 unreadable", "3 - - unused"] {
        has(&list, line);
    }
    let info = folder.does(&["info", "d.img", "--marks", "m"]);
    has(&info, "blocks 3 used, 1 unused; of those used 1 unreadable, 1 blank (never recorded)");
    let json = folder.does(&["info", "--json", "d.img", "--marks", "m"]);
    assert!(json.contains(r#""used": 3, "blocks_readable": 1, "blocks_unreadable": 1, "blocks_blank": 1, "#), "{json}");
    let (status, verified, _) = folder.run(&["verify", "d.img", "--marks", "m"]);
    assert_eq!(status, 1);
    has(
        &verified,
        "d.img DAMAGED: 1 block cannot be read: block 2 (sector 293, unreadable); 1 block was never recorded: block 1 (sector 291, blank)",
    );
    let (status, exported, _) = folder.run(&["export", "d.img", "out", "--marks", "m"]);
    assert_eq!(status, 1);
    has(&exported, "exported 1 of 4 blocks to out; skipped: 1 unused, 1 unreadable, 1 blank (never recorded); list.csv lists all");
    let list =
        "block,logical,sector,state,file,offset\n0,1,289,recorded,block-0000.bin,0\n1,3,291,blank,,\n2,5,293,unreadable,,\n3,,,unused,,\n";
    assert_eq!(String::from_utf8_lossy(&folder.bytes("out/list.csv")), list);
    let page = folder.does(&["report", "d.img", "--marks", "m"]);
    has(&page, "<tr class=\"lost\"><td>block 1</td><td>sector 291</td><td>\u{25b3} blank (never recorded)</td></tr>");
    has(&page, "<tr class=\"lost\"><td>block 2</td><td>sector 293</td><td>\u{25b2} unreadable</td></tr>");
    assert!(page.contains("; 1 block was never recorded: block 1 (sector 291, blank)</p>"), "{page}");
}

/// A disc whose only fault is a blank block is nowhere told to be unreadable.
#[test]
fn a_blank_block_alone() {
    let folder = write_once("blank-alone");
    folder.write("m", b"tuormik marks\nblank 291 1\n");
    let (_, verified, _) = folder.run(&["verify", "d.img", "--marks", "m"]);
    has(&verified, "d.img DAMAGED: 1 block was never recorded: block 1 (sector 291, blank)");
    let map = folder.does(&["map", "d.img", "d.svg", "--marks", "m"]);
    let (_, exported, missing) = folder.run(&["export", "d.img", "out", "--marks", "m"]);
    let list = folder.does(&["list", "d.img", "--marks", "m"]);
    let page = folder.does(&["report", "d.img", "--marks", "m"]);
    let table = page.split_once("<h2>Blocks</h2>").expect("the blocks").1;
    let (_, _, read) = folder.run(&["read", "d.img", "1", "--marks", "m"]);
    for told in [&verified, &map, &exported, &missing, &list, table, &read] {
        assert!(told.contains("blank"), "{told}");
        assert!(!told.contains("unreadable") && !told.contains("cannot be read"), "{told}");
    }
}

#[test]
fn discs_held_against_each_other() {
    let folder = write_once("blank-diff");
    std::fs::copy(folder.path("d.img"), folder.path("e.img")).expect("a copy");
    folder.write("e.img.marks", ONCE_MARKS);
    let told = |a: &str, b: &str, lines: &str| {
        let (status, out, err) = folder.run(&["diff", a, b]);
        assert_eq!((status, out.as_str(), err.as_str()), (1, lines, ""), "{a} {b}");
    };
    let last = "block 2 cannot be compared: it cannot be read\n4 blocks: 2 alike, 1 blank in";
    told("d.img", "e.img", &format!("block 1 is blank in B: it was never recorded there\n{last} B, 1 not to be compared\n"));
    told("e.img", "d.img", &format!("block 1 is blank in A: it was never recorded there\n{last} A, 1 not to be compared\n"));
    // blank in both is alike, and against unreadable it cannot be told
    told("e.img", "e.img", "block 2 cannot be compared: it cannot be read\n4 blocks: 3 alike, 1 not to be compared\n");
    std::fs::copy(folder.path("d.img"), folder.path("f.img")).expect("a copy");
    folder.write("f.img.marks", b"tuormik marks\nunreadable 291 1\n");
    told("e.img", "f.img", "blocks 1 to 2 cannot be compared: they cannot be read\n4 blocks: 2 alike, 2 not to be compared\n");
    folder.write("f.img.marks", b"tuormik marks\nblank 291 1\n");
    let (status, out, _) = folder.run(&["diff", "f.img", "f.img"]);
    assert_eq!((status, out.as_str()), (0, "4 blocks: 4 alike\n"));
    // the commit at block 2 has no block 1
    told("f.img@2", "f.img", "blocks 1 to 2 appeared\n4 blocks: 2 alike, 2 appeared\n");
}

/// Block 3 is blank and block 8 unreadable, or the reverse: of the others of a packet the first decides, and a block's own sector is not
/// asked.
#[test]
fn saves_into_a_packet() {
    let by_itself = |b: u32| format!("block {b} cannot be saved by itself: the others of its packet are written with it, and");
    let both = "of the others 2 are not recorded: 1 unreadable, 1 blank (never recorded)";
    let folder = rewritable("blank-first", "blank 291 1\nunreadable 296 1\n");
    let blank = "block 3 was never recorded: its sector, 291, is blank";
    let unreadable = "block 8 cannot be read: its sector, 296, is unreadable";
    tells_blank(&folder, &["read", "d.img", "3"], blank);
    tells_unreadable(&folder, &["read", "d.img", "8"], unreadable);
    for b in [0, 5, 20] {
        tells_blank(&folder, &["save", "d.img", &b.to_string(), "text"], &format!("{} {blank}; {both}", by_itself(b)));
    }
    tells_unreadable(&folder, &["save", "d.img", "3", "text"], &format!("{} {unreadable}", by_itself(3)));
    tells_blank(&folder, &["save", "d.img", "8", "text"], &format!("{} {blank}", by_itself(8)));
    let folder = rewritable("unreadable-first", "unreadable 291 1\nblank 296 1\n");
    let unreadable = "block 3 cannot be read: its sector, 291, is unreadable";
    let blank = "block 8 was never recorded: its sector, 296, is blank";
    for b in [0, 5, 20] {
        tells_unreadable(&folder, &["save", "d.img", &b.to_string(), "text"], &format!("{} {unreadable}; {both}", by_itself(b)));
    }
    tells_blank(&folder, &["save", "d.img", "3", "text"], &format!("{} {blank}", by_itself(3)));
    // the packet saved whole heals it
    folder.does(&["save", "d.img", "0", "packet", "--packet"]);
    has(&folder.does(&["info", "d.img"]), "blocks 64 readable, 0 unreadable, 0 blank");
    folder.does(&["save", "d.img", "3", "text"]);
}

/// A block alone in its packet that is not recorded is healed by its own save.
#[test]
fn a_block_is_healed_by_its_own_save() {
    for lines in ["blank 291 1\n", "unreadable 291 1\n"] {
        let folder = rewritable("blank-own", lines);
        folder.does(&["save", "d.img", "3", "text"]);
        assert!(folder.does(&["read", "d.img", "3"]).starts_with("a block"));
        has(&folder.does(&["info", "d.img"]), "blocks 64 readable, 0 unreadable, 0 blank");
    }
}

/// A cut write that becomes unreadable on a blank sector is told as unreadable from then on; an old one leaves it blank.
#[test]
fn cuts_on_a_blank_sector() {
    let folder = rewritable("blank-cut", "blank 291 1\n");
    folder.is_cut(&["save", "d.img", "3", "text", "--cut", "4:old"], "write 4 of the save of block 3, which became old");
    tells_blank(&folder, &["read", "d.img", "3"], "block 3 was never recorded: its sector, 291, is blank");
    folder.is_cut(&["save", "d.img", "3", "text", "--cut", "4:unreadable"], "write 4 of the save of block 3, which became unreadable");
    tells_unreadable(&folder, &["read", "d.img", "3"], "block 3 cannot be read: its sector, 291, is unreadable");
    folder.is_cut(&["save", "d.img", "3", "text", "--cut", "4:whole"], "write 4 of the save of block 3, which became whole");
    assert!(folder.does(&["read", "d.img", "3"]).starts_with("a block"));
}

#[test]
fn sparing_with_zeros() {
    // of the packet of block 32, from sector 320 on
    let folder = rewritable("blank-zeros", "blank 321 2\nunreadable 330 1\n");
    tells_blank(&folder, &["spare", "d.img", "32"], "block 33 was never recorded: its sector, 321, is blank");
    let spared = "spared the packet of block 32: it is now at sector 96";
    has(
        &folder.does(&["spare", "d.img", "32", "--zeros"]),
        &format!("{spared}; blocks that became zeros: 1 unreadable, 2 blank (never recorded)"),
    );
    has(&folder.does(&["info", "d.img"]), "blocks 64 readable, 0 unreadable, 0 blank");
    for block in ["33", "34", "42"] {
        assert_eq!(folder.does(&["read", "d.img", block]).into_bytes(), [0; SECTOR]);
    }
    // blocks that are there keep their bytes, and blank ones alone are taken too
    let folder = rewritable("blank-zeros-alone", "");
    folder.does(&["save", "d.img", "40", "text"]);
    mark(&folder, "d.img", "blank 321 1\n");
    has(&folder.does(&["spare", "d.img", "32", "--zeros"]), &format!("{spared}; blocks that became zeros: 1 blank (never recorded)"));
    assert!(folder.does(&["read", "d.img", "40"]).starts_with("a block"));
    // with bytes of its own no block is read
    let folder = rewritable("blank-given", "blank 321 1\nunreadable 330 1\n");
    has(&folder.does(&["spare", "d.img", "32", "packet"]), spared);
}

#[test]
fn what_a_rewritable_disc_is_told_as() {
    let folder = rewritable("blank-rewritable", "blank 291 2\nunreadable 296 1\nblank 351 1\n");
    let info = folder.does(&["info", "d.img"]);
    has(&info, "blocks 60 readable, 1 unreadable, 3 blank");
    let json = folder.does(&["info", "--json", "d.img"]);
    assert!(json.contains(r#""blocks_readable": 60, "blocks_unreadable": 1, "blocks_blank": 3, "#), "{json}");
    let list = folder.does(&["list", "d.img"]);
    has(&list, "0 to 31 288 to 319 29 recorded, 1 unreadable, 2 blank");
    has(&list, "32 to 63 320 to 351 31 recorded, 0 unreadable, 1 blank");
    let (status, verified, _) = folder.run(&["verify", "d.img"]);
    assert_eq!(status, 1);
    has(
        &verified,
        "d.img DAMAGED: 1 block cannot be read: block 8 (sector 296, unreadable); 3 blocks were never recorded: blocks 3 to 4 (sectors \
         291 to 292, blank), block 63 (sector 351, blank)",
    );
    let (status, exported, _) = folder.run(&["export", "d.img", "out"]);
    assert_eq!(status, 1);
    has(&exported, "exported 60 of 64 blocks to out; skipped: 1 unreadable, 3 blank (never recorded); list.csv lists all");
    let row = "<tr class=\"lost\"><td>blocks 3 to 4</td><td>sectors 291 to 292</td><td>\u{25b3} blank (never recorded)</td></tr>";
    has(&folder.does(&["report", "d.img"]), row);
}

/// A blank sector is drawn as blank where a packet is spared to it too, and a free spare may be blank.
#[test]
fn a_map_with_blank_blocks() {
    let folder = rewritable("blank-map", "");
    folder.does(&["spare", "d.img", "32"]);
    // 3 tables, 4 descriptors, 64 sectors of the partition, of which those of the spared packet are not live
    has(&folder.does(&["map", "d.img", "d.svg"]), "d.svg: 505 blank, 36 recorded, 32 live, 32 free spare, 32 used spare, 3 sparing table");
    // sector 98 is block 34, of zeros
    mark(&folder, "d.img", "blank 98 1\nunreadable 99 1\nblank 290 1\n");
    has(
        &folder.does(&["map", "d.img", "d.svg"]),
        "d.svg: 507 blank, 36 recorded, 31 live, 32 free spare, 30 used spare, 3 sparing table, 1 unreadable",
    );
    tells_blank(&folder, &["read", "d.img", "34"], "block 34 was never recorded: its sector, 98, is blank");
}

/// What was found in the place of a VAT: blank sectors among those up to the last that is not blank are counted by themselves.
#[test]
fn a_partition_without_a_vat() {
    let folder = Folder::with_disc("blank-no-vat");
    let mut image = folder.bytes("d.img");
    image[SECTOR * 288..SECTOR * 289].fill(7);
    image[SECTOR * 292..SECTOR * 293].fill(7);
    folder.write("d.img", &image);
    let found = |m: &str, words: &str| {
        folder.write("m", format!("tuormik marks\n{m}").as_bytes());
        let sentence = folder.refuses(8, &["info", "d.img", "--marks", "m"]);
        let all = "no VAT was found in the partition, sectors 288 to 399: of 5 sectors up to the last that is not blank, 292,";
        assert_eq!(sentence, format!("{all} {words} and none is a VAT ICB"));
    };
    found("", "all can be read");
    found("blank 289 1\n", "1 is blank");
    found("blank 289 2\nunreadable 291 1\n", "1 is unreadable, 2 are blank");
    found("unreadable 288 1\n", "1 is unreadable");
}

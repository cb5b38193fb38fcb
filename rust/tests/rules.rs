//! What a disc has that breaks a rule: which rule of a VAT ICB, with which numbers, and identifiers that are no text.

mod folder;

use folder::{has, Folder};

const SECTOR: usize = 2048;

/// Writes bytes into a sector of an image, at an offset, and takes its marks file away.
fn patch(folder: &Folder, image: &str, sector: usize, at: usize, bytes: &[u8]) {
    let mut whole = folder.bytes(image);
    whole[SECTOR * sector + at..][..bytes.len()].copy_from_slice(bytes);
    folder.write(image, &whole);
    let _ = std::fs::remove_file(folder.path(&format!("{image}.marks")));
}

/// The VAT ICB in sector 292.
fn icb(folder: &Folder) -> Vec<u8> {
    folder.bytes("d.img")[SECTOR * 292..][..SECTOR].to_vec()
}

fn patch_icb(folder: &Folder, at: usize, bytes: &[u8]) {
    patch(folder, "d.img", 292, at, bytes);
}

/// The CRC that the VAT ICB has, and the one that it should have.
fn crcs(folder: &Folder) -> [u16; 2] {
    let icb = icb(folder);
    let two = |at: usize| u16::from_le_bytes([icb[at], icb[at + 1]]);
    [two(8), tuormik::crc(&icb[16..][..usize::from(two(10))], 0)]
}

/// Gives the VAT ICB the CRC and the checksum that it should have.
fn sign(folder: &Folder) {
    patch_icb(folder, 8, &crcs(folder)[1].to_le_bytes());
    patch_icb(folder, 4, &[0]);
    let sum = icb(folder)[..16].iter().fold(0u8, |sum, &b| sum.wrapping_add(b));
    patch_icb(folder, 4, &[sum]);
}

/// A folder with a disc of two blocks, whose last commit has its VAT ICB at block 4, sector 292.
fn with_commits(name: &str) -> Folder {
    let folder = Folder::with_disc(name);
    folder.does(&["save", "d.img", "new", "text"]);
    has(&folder.does(&["save", "d.img", "new", "text"]), "committed: N 2, NWA 5, last ICB 4");
    folder
}

/// The rule that a passed-over sector breaks is told wherever what was passed over is told.
#[test]
fn the_broken_rule_is_told_everywhere() {
    let folder = with_commits("rules-told");
    patch_icb(&folder, 176, &9u32.to_le_bytes());
    let [found, right] = crcs(&folder);
    let words = format!("a File Entry of file type 0 whose CRC is {found:#06x} and should be {right:#06x}");
    let info = folder.does(&["info", "d.img"]);
    has(&info, &format!("which are 1 recorded sector and sector 292 with {words}"));
    let (_, verified, _) = folder.run(&["verify", "d.img"]);
    assert!(verified.contains(&format!("sector 292 with {words}")), "{verified}");
    let (_, _, warned) = folder.run(&["read", "d.img", "0"]);
    assert!(warned.contains(&format!("block 4 (sector 292) has {words}: it may be a newer VAT")), "{warned}");
    let page = folder.does(&["report", "d.img"]);
    assert!(page.contains(&words), "{page}");
    folder.turns_away(&["commit", "d.img"], &[&words, "--force"]);
}

/// Where no VAT is found the highest candidate is named.
#[test]
fn a_disc_with_no_vat_names_the_highest_candidate() {
    let folder = with_commits("rules-none");
    for sector in [288, 290, 292] {
        patch(&folder, "d.img", sector, 12, &7u32.to_le_bytes());
    }
    let words = "no VAT of CD UDF was found: sector 292 has a File Entry of file type 0 which is for block 7 and stands at block 4";
    assert_eq!(folder.refuses(8, &["list", "d.img"]), words);
}

/// A VAT that has too many entries is told by its own numbers, also below a sector that only looks like one.
#[test]
fn too_many_entries_below_a_candidate() {
    let folder = with_commits("rules-many");
    // 8 extents of one sector of unused entries, and one of an entry, the regid and the previous ICB
    let mut tail = [0; 40];
    tail[..4].fill(0xff);
    tail[5..27].copy_from_slice(b"*UDF Virtual Alloc Tbl");
    tail[36..].fill(0xff);
    patch(&folder, "d.img", 289, 0, &[0xff; SECTOR]);
    patch(&folder, "d.img", 291, 0, &tail);
    let extents = [[(2048, 1u32); 8].as_slice(), &[(40u32, 3)]].concat();
    let list: Vec<u8> = extents.iter().flat_map(|(length, block)| [length.to_le_bytes(), block.to_le_bytes()].concat()).collect();
    patch_icb(&folder, 34, &[0]);
    patch_icb(&folder, 56, &(8 * 2048 + 40u64).to_le_bytes());
    patch_icb(&folder, 172, &(list.len() as u32).to_le_bytes());
    patch_icb(&folder, 176, &list);
    sign(&folder);
    let words = "the VAT in sector 292 has 4,097 entries, and at most 4,096 are taken";
    assert_eq!(folder.refuses(9, &["list", "d.img"]), words);
    // the next sector has a File Entry of file type 0 too, for another block
    patch(&folder, "d.img", 293, 0, &icb(&folder));
    patch(&folder, "d.img", 293, 56, &[36]);
    assert_eq!(folder.refuses(9, &["list", "d.img"]), words);
}

/// An identifier that is no text is told by its bytes.
#[test]
fn identifiers_that_are_no_text() {
    let folder = Folder::with_spares("rules-identifiers", "96,128", "64", "3");
    for table in [0, 32, 64] {
        patch(&folder, "d.img", table, 16, &[0; 24]);
        patch(&folder, "d.img", table, 17, b"*OSTA UDF\nSparing");
    }
    patch(&folder, "d.img", 64, 17, &[0x2a, 0x4f, 0, 0xff]);
    patch(&folder, "d.img", 64, 21, &[0; 19]);
    let sentence = folder.refuses(8, &["info", "d.img"]);
    let words =
        "each of sectors 0 and 32 has the identifier 2a 4f 53 54 41 20 55 44 46 0a 53 70 61 72 69 6e 67 (no text); sector 64 has the \
                 identifier 2a 4f 00 ff (no text)";
    assert!(sentence.ends_with(words), "{sentence}");
    // the map list of the volume: its map has the regid at 4, flags first
    for (name, told) in [
        (&[0x2a, 0x4f, 0, 0xff][..], "a map of type 2 with the identifier 2a 4f 00 ff (no text)"),
        (b"*UDF Metadata Partition", "*UDF Metadata Partition (type 2)"),
        (b"", "a map of type 2 with no identifier"),
    ] {
        let mut map = [0; 64];
        map[..2].copy_from_slice(&[2, 64]);
        map[5..5 + name.len()].copy_from_slice(name);
        folder.write("maps", &map);
        let sentence = folder.refuses(5, &["info", "d.img", "--maps", "maps", "--start", "288", "--length", "64"]);
        assert!(sentence.contains(&format!("its map list has {told}; ")), "{sentence}");
    }
}

//! What `verify` says of images that hold no volume of this format, and of those that have lost theirs.

mod folder;

use folder::Folder;

const SECTOR: usize = 2048;

/// The status of `verify`, and what it says of an image behind its name.
fn verified(folder: &Folder, name: &str) -> (i32, String) {
    let (status, out, err) = folder.run(&["verify", name]);
    assert_eq!(err, "");
    let first = out.lines().next().and_then(|line| line.strip_prefix(name)).expect("a line");
    (status, first.trim().to_string())
}

/// The image of `Folder::with_disc` with these identifiers in its volume recognition sequence.
fn named(folder: &Folder, identifiers: &[&str]) -> Vec<u8> {
    let mut bytes = folder.bytes("d.img");
    for (i, name) in identifiers.iter().enumerate() {
        bytes[SECTOR * (16 + i) + 1..][..5].copy_from_slice(name.as_bytes());
    }
    bytes
}

#[test]
fn what_is_of_another_format() {
    let folder = Folder::with_disc("recognized-other");
    let mut iso = named(&folder, &["CD001", "CD001"]);
    iso[SECTOR * 256..SECTOR * 260].fill(0);
    let mut raw = vec![7; 9 * 2352];
    for sector in raw.chunks_mut(2352) {
        sector[..12].copy_from_slice(&[0, 255, 255, 255, 255, 255, 255, 255, 255, 255, 255, 0]);
    }
    for (name, bytes, what) in [
        ("iso", iso, "plain ISO 9660, a file system of another kind"),
        ("raw", raw, "an image of raw sectors of 2,352 bytes, and not of their 2,048 bytes of data alone"),
        ("packed", b"\xfd7zXZ\0 and so on".to_vec(), "a file compressed by xz"),
    ] {
        folder.write(name, &bytes);
        assert_eq!(verified(&folder, name), (5, format!("NOT A DISC OF THIS FORMAT: it is {what}")), "{name}");
        let (status, _, err) = folder.run(&["info", name]);
        assert!(status == 2 && err.contains(what), "{err}");
    }
    folder.write("noise", &[7; 9 * SECTOR]);
    let (status, words) = verified(&folder, "noise");
    assert!(status == 5 && words.starts_with("NOT A DISC OF THIS FORMAT: no anchor volume descriptor pointer stands"), "{words}");
}

#[test]
fn what_has_lost_its_descriptors_is_damaged() {
    let folder = Folder::with_disc("recognized-lost");
    let whole = named(&folder, &["BEA01", "NSR02", "TEA01"]);
    let without = |sector: usize| {
        let mut bytes = whole.clone();
        bytes[SECTOR * sector + 20] ^= 1;
        bytes
    };
    folder.write("whole", &whole);
    assert_eq!(verified(&folder, "whole").0, 0);
    for (name, sector, why) in [
        ("anchor", 256, "no anchor volume descriptor pointer stands at sector 256, 512 or n - 256, though"),
        ("partition", 257, "the volume descriptor sequence has no descriptor of the partition"),
        ("logical", 258, "the volume descriptor sequence has no logical volume descriptor"),
    ] {
        folder.write(name, &without(sector));
        let (status, words) = verified(&folder, name);
        assert!(status == 1 && words.starts_with(&format!("DAMAGED: {why}")), "{name}: {words}");
    }
    // also where no volume recognition sequence tells of it: by an anchor that is damaged, by what it led to, or by marks
    let mut bytes = folder.bytes("d.img");
    bytes[SECTOR * 256 + 20] ^= 1;
    folder.write("e.img", &bytes);
    let (status, words) = verified(&folder, "e.img");
    assert!(
        status == 1 && words.starts_with("DAMAGED: no anchor ") && words.contains("sector 256 has one whose checksum or CRC"),
        "{words}"
    );
    bytes[SECTOR * 256..SECTOR * 257].fill(0);
    folder.write("e.img", &bytes);
    let (status, words) = verified(&folder, "e.img");
    assert!(status == 1 && words.contains("sector 258 has the logical volume descriptor to which one leads"), "{words}");
    bytes[SECTOR * 256..SECTOR * 260].fill(0);
    folder.write("e.img", &bytes);
    assert_eq!(verified(&folder, "e.img").0, 5);
    folder.write("e.img.marks", b"tuormik marks\nunreadable 256 4\n");
    let words = "no volume is found, and sector 256, where an anchor volume descriptor pointer may stand, cannot be read";
    assert_eq!(verified(&folder, "e.img"), (1, format!("DAMAGED: {words}")));
    // blocks of another size are another format
    let mut other = whole.clone();
    let logical = &mut other[SECTOR * 258..][..SECTOR];
    logical[212..216].copy_from_slice(&512u32.to_le_bytes());
    let crc = tuormik::crc(&logical[16..16 + 496], 0);
    logical[8..10].copy_from_slice(&crc.to_le_bytes());
    logical[4] = 0;
    logical[4] = logical[..16].iter().fold(0u8, |sum, &b| sum.wrapping_add(b));
    folder.write("other", &other);
    let (status, words) = verified(&folder, "other");
    assert!(status == 5 && words.starts_with("NOT A DISC OF THIS FORMAT: the logical volume has blocks of 512 bytes"), "{words}");
}

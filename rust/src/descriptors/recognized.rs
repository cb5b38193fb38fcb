//! What a file is that holds no volume of this format, as far as its bytes tell.

use super::{find_volume, identifier, sector, Volume};
use crate::numbers::grouped;
use crate::passed::{is_later_icb, may_be_icb};
use crate::{read_maps, Maps};

/// What a file is, in words that "it is" may stand before; none where its bytes do not tell, and where they tell a volume that may be of
/// this format. A disc that is only damaged is thus not taken for another one.
pub fn recognized(bytes: &[u8]) -> Option<String> {
    let file = container(bytes).map(str::to_string).or_else(|| raw_sectors(bytes));
    file.or_else(|| match find_volume(bytes) {
        Ok(volume) => later_udf(bytes, &volume),
        Err(_) => plain_iso(bytes),
    })
}

/// How files begin that are no images, or images packed in some way.
const BEGINNINGS: [(&[u8], &str); 10] = [
    (b"\x1f\x8b", "a file compressed by gzip"),
    (b"\xfd7zXZ\0", "a file compressed by xz"),
    (b"\x28\xb5\x2f\xfd", "a file compressed by zstd"),
    (b"BZh", "a file compressed by bzip2"),
    (b"LZIP", "a file compressed by lzip"),
    (b"PK\x03\x04", "a ZIP archive"),
    (b"7z\xbc\xaf\x27\x1c", "a 7z archive"),
    (b"MEDIA DESCRIPTOR", "an MDS file, which describes an image and is none"),
    (b"# Mapfile. Created by GNU ddrescue", "a map file of ddrescue, not its image"),
    (b"tuormik marks", "a marks file, not its image"),
];

fn container(bytes: &[u8]) -> Option<&'static str> {
    let told = BEGINNINGS.iter().find(|(beginning, _)| bytes.starts_with(beginning)).map(|&(_, words)| words);
    told.or_else(|| is_nero(bytes).then_some("an image of Nero (NRG), with its own chunks around the sectors"))
        .or_else(|| is_cue_sheet(bytes).then_some("a CUE sheet, which names an image and is none"))
}

/// An image of Nero has its mark at the end, before a place of 4 or of 8 bytes.
fn is_nero(bytes: &[u8]) -> bool {
    [(8, b"NERO"), (12, b"NER5")].iter().any(|&(before, mark)| bytes.len() >= before && bytes[bytes.len() - before..].starts_with(mark))
}

fn is_cue_sheet(bytes: &[u8]) -> bool {
    const MOST_BYTES: usize = 1 << 16;
    let is_sheet = |text: &str| text.lines().any(|line| line.starts_with("FILE \"")) && text.contains("TRACK ");
    bytes.len() <= MOST_BYTES && std::str::from_utf8(bytes).is_ok_and(is_sheet)
}

/// The pattern at the begin of a sector as it stands on the disc (ECMA-130, 14.1), and the lengths of such sectors: plain, and with the
/// 96 bytes of its subchannels.
const SYNC: [u8; 12] = [0, 255, 255, 255, 255, 255, 255, 255, 255, 255, 255, 0];
const RAW_LENGTHS: [usize; 2] = [2352, 2448];

fn raw_sectors(bytes: &[u8]) -> Option<String> {
    let is_sync = |at: usize| bytes.get(at..).is_some_and(|rest| rest.starts_with(&SYNC));
    let length = RAW_LENGTHS.into_iter().find(|&length| is_sync(0) && is_sync(length))?;
    Some(format!("an image of raw sectors of {} bytes, and not of their 2,048 bytes of data alone", grouped(length)))
}

/// The first sector of the volume recognition sequence, and how many are looked at.
const RECOGNITION_START: usize = 16;
const MOST_RECOGNIZED: usize = 64;

/// The standard identifiers of the volume recognition sequence (ECMA-167, part 2, 9.1), up to a sector that has none.
fn identifiers(bytes: &[u8]) -> impl Iterator<Item = &[u8]> {
    const KNOWN: [&[u8; 5]; 7] = [b"CD001", b"CDW02", b"BEA01", b"BOOT2", b"NSR02", b"NSR03", b"TEA01"];
    let places = RECOGNITION_START..RECOGNITION_START + MOST_RECOGNIZED;
    let found = places.map_while(move |at| sector(bytes, at).map(|sector| &sector[1..6]));
    found.take_while(|name| KNOWN.iter().any(|known| name == known))
}

/// The identifier of UDF in the volume recognition sequence, where it has one.
pub(super) fn udf_identifier(bytes: &[u8]) -> Option<&'static str> {
    ["NSR02", "NSR03"].into_iter().find(|udf| identifiers(bytes).any(|name| name == udf.as_bytes()))
}

fn plain_iso(bytes: &[u8]) -> Option<String> {
    let is_iso = identifiers(bytes).any(|name| name == b"CD001") && udf_identifier(bytes).is_none();
    is_iso.then(|| "plain ISO 9660, a file system of another kind".to_string())
}

/// A write-once volume of a later version of UDF: so says the newest File Entry in it that may be the ICB of a VAT.
fn later_udf(bytes: &[u8], volume: &Volume) -> Option<String> {
    let Ok(Maps::WriteOnce { .. }) = read_maps(&volume.maps) else {
        return None;
    };
    let place = |block: u32| volume.start as usize + block as usize;
    let may_be_vat =
        |block: u32| sector(bytes, place(block)).filter(|sector| may_be_icb(sector) && identifier(sector, block as usize).is_some());
    let (block, icb) = (0..volume.length).rev().find_map(|block| Some((block, may_be_vat(block)?)))?;
    let words = || format!("a volume of UDF 2.00 or later: so is its VAT, whose ICB is at sector {}", grouped(place(block)));
    is_later_icb(icb).then(words)
}

#[cfg(test)]
mod tests {
    use super::*;
    use crate::descriptors::{put, put_tag, write_volume, NoVolume};
    use crate::passed::{EXTENDED_FILE_ENTRY, FILE_ENTRY, FILE_TYPE_AT};
    use crate::{write_maps, SECTOR};

    const NUMBER: u16 = 0;

    /// An image of 400 sectors with so many of them named in the volume recognition sequence.
    fn with_names(names: &[&[u8; 5]]) -> Vec<u8> {
        let mut bytes = vec![0; 400 * SECTOR];
        for (i, name) in names.iter().enumerate() {
            put(&mut bytes, SECTOR * (RECOGNITION_START + i) + 1, *name);
        }
        bytes
    }

    fn describe(bytes: &mut [u8], maps: &Maps) {
        let volume = Volume { maps: write_maps(maps).expect("a map list"), start: 288, length: 112 };
        for (at, sector) in write_volume(&volume, NUMBER).expect("descriptors") {
            put(bytes, SECTOR * at, &sector);
        }
    }

    fn is(bytes: &[u8], words: &str) {
        let told = recognized(bytes);
        assert!(told.as_ref().is_some_and(|told| told.contains(words)), "{words}: {told:?}");
    }

    #[test]
    fn iso_9660_alone() {
        let iso = with_names(&[b"CD001", b"CD001"]);
        is(&iso, "plain ISO 9660");
        // beside UDF it is not alone, also where the anchor is lost
        let mut bridge = with_names(&[b"CD001", b"CD001", b"BEA01", b"NSR02", b"TEA01"]);
        assert_eq!(recognized(&bridge), None);
        describe(&mut bridge, &Maps::WriteOnce { partition: NUMBER });
        assert_eq!(recognized(&bridge), None);
        // a name counts where the sequence reaches it
        assert_eq!(recognized(&with_names(&[b"OTHER", b"CD001"])), None);
    }

    #[test]
    fn udf_without_an_anchor() {
        let mut bytes = with_names(&[b"BEA01", b"NSR03", b"TEA01"]);
        assert_eq!((udf_identifier(&bytes), recognized(&bytes)), (Some("NSR03"), None));
        let NoVolume::Lost(words) = find_volume(&bytes).expect_err("no anchor") else {
            panic!("it was there");
        };
        assert!(
            words.ends_with("though the volume recognition sequence tells of UDF (NSR03): it was lost, or the image is not whole"),
            "{words}"
        );
        describe(&mut bytes, &Maps::WriteOnce { partition: NUMBER });
        assert!(find_volume(&bytes).is_ok());
    }

    #[test]
    fn raw_sectors_of_either_length() {
        for (length, words) in [(2352, "raw sectors of 2,352 bytes"), (2448, "raw sectors of 2,448 bytes")] {
            let mut bytes = vec![7; 3 * length];
            put(&mut bytes, 0, &SYNC);
            assert_eq!(recognized(&bytes), None);
            put(&mut bytes, length, &SYNC);
            is(&bytes, words);
        }
    }

    #[test]
    fn files_that_are_no_images() {
        for (beginning, words) in BEGINNINGS {
            is(&[beginning, &[7; 9]].concat(), words);
        }
        is(b"FILE \"disc.bin\" BINARY\r\n  TRACK 01 MODE1/2352\r\n    INDEX 01 00:00:00\r\n", "a CUE sheet");
        is(&[&[7; 5000], b"NER5".as_slice(), &[0; 8]].concat(), "an image of Nero");
        is(&[&[7; 5000], b"NERO".as_slice(), &[0; 4]].concat(), "an image of Nero");
    }

    #[test]
    fn a_vat_of_later_udf() {
        let mut bytes = with_names(&[b"BEA01", b"NSR03", b"TEA01"]);
        describe(&mut bytes, &Maps::WriteOnce { partition: NUMBER });
        let mut put_icb = |block: usize, tag: [u8; 2], kind: u8| {
            let mut icb = [0; SECTOR];
            icb[FILE_TYPE_AT] = kind;
            put_tag(&mut icb, u16::from_le_bytes(tag), block);
            put(&mut bytes, SECTOR * (288 + block), &icb);
            recognized(&bytes)
        };
        // the newest decides, and what is no VAT is passed by
        assert_eq!(put_icb(3, FILE_ENTRY, 0), None);
        let later = put_icb(9, EXTENDED_FILE_ENTRY, 248);
        assert_eq!(later.as_deref(), Some("a volume of UDF 2.00 or later: so is its VAT, whose ICB is at sector 297"));
        assert_eq!(put_icb(10, EXTENDED_FILE_ENTRY, 5), later);
        assert_eq!(put_icb(11, FILE_ENTRY, 0), None);
        // a rewritable volume has no VAT
        describe(&mut bytes, &Maps::Rewritable { partition: NUMBER, table_bytes: 2048, tables: vec![0, 32] });
        assert_eq!(recognized(&bytes), None);
    }

    #[test]
    fn what_is_not_told() {
        for n in [0, 1, 11, 12, 2047, 2048, 17 * SECTOR, 400 * SECTOR] {
            assert_eq!(recognized(&vec![0; n]), None);
            assert_eq!(recognized(&vec![0xff; n]), None);
        }
    }
}

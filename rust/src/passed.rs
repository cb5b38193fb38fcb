//! What an opening passed over, where it may be a VAT.

use crate::{Held, Record, RECORDED, SECTOR, UNREADABLE};

pub(crate) const FILE_ENTRY: [u8; 2] = 261u16.to_le_bytes();
pub(crate) const EXTENDED_FILE_ENTRY: [u8; 2] = 266u16.to_le_bytes();
pub(crate) const FILE_TYPE_AT: usize = 27;
/// The file type of a VAT, as CD UDF and UDF 1.50 have it, and as UDF 2.00 and later do.
const VAT_FILE_TYPES: [u8; 2] = [0, LATER_VAT_FILE_TYPE];
const LATER_VAT_FILE_TYPE: u8 = 248;

/// The logical blocks between the last VAT ICB and NWA that may be a newer VAT. Each holds a File Entry of file type 0, as the ICB of a VAT
/// is, or one as later versions of UDF have it, an Extended File Entry or file type 248, and breaks a rule of document 01; or it is
/// unreadable, and may be anything. With it there may be blocks that the table found does not name. A commit would end the disc with that
/// older table, and on a CD-R it cannot be undone.
pub fn possible_icbs(bytes: &[u8], marks: &[u8], start: u32, record: Record) -> Vec<u32> {
    let Held::WriteOnce { next, last, .. } = record.held else {
        return Vec::new();
    };
    let is_possible = |&block: &u32| {
        let at = start as usize + block as usize;
        let sector = bytes.get(SECTOR * at..).and_then(|rest| rest.get(..SECTOR));
        match marks.get(at) {
            Some(&RECORDED) => sector.is_some_and(may_be_icb),
            Some(&UNREADABLE) => true,
            _ => false,
        }
    };
    (last.saturating_add(1)..next).filter(is_possible).collect()
}

/// Whether a sector may be the ICB of a VAT, of any version of UDF.
pub(crate) fn may_be_icb(sector: &[u8]) -> bool {
    (sector[..2] == FILE_ENTRY || sector[..2] == EXTENDED_FILE_ENTRY) && VAT_FILE_TYPES.contains(&sector[FILE_TYPE_AT])
}

/// Whether one that may be is as UDF 2.00 and later have it.
pub(crate) fn is_later_icb(sector: &[u8]) -> bool {
    sector[FILE_TYPE_AT] == LATER_VAT_FILE_TYPE
}

#[cfg(test)]
mod tests {
    use super::*;
    use crate::BLANK;

    #[test]
    fn file_entries_of_type_0_and_unreadable_blocks_are_named() {
        let mut bytes = vec![0; 9 * SECTOR];
        for at in [1, 3, 4, 5, 6, 8] {
            bytes[SECTOR * at..][..2].copy_from_slice(&FILE_ENTRY);
        }
        bytes[SECTOR * 4 + FILE_TYPE_AT] = 5;
        let marks = [1, 1, 1, 1, 1, UNREADABLE, RECORDED, RECORDED, BLANK];
        let record = Record { held: Held::WriteOnce { entries: 0, next: 7, last: 1 }, passed_over: 5 };
        assert_eq!(possible_icbs(&bytes, &marks, 1, record), [2, 4, 5]);
        // as UDF 2.01 has them
        bytes[SECTOR * 7..][..2].copy_from_slice(&EXTENDED_FILE_ENTRY);
        bytes[SECTOR * 7 + FILE_TYPE_AT] = 248;
        assert_eq!(possible_icbs(&bytes, &marks, 1, record), [2, 4, 5, 6]);
        assert_eq!(possible_icbs(&bytes, &marks, u32::MAX, record), []);
        let record = Record { held: Held::Rewritable { entries: 0, sequence: 0 }, passed_over: 0 };
        assert_eq!(possible_icbs(&bytes, &marks, 1, record), []);
    }
}

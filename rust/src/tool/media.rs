//! What a disc that is to be made gets where only its medium is named.

use super::words::grouped;
use super::Failure;
use tuormik::PACKET;

/// The sectors of a disc of 74 minutes.
const CDR_SECTORS: u32 = 333_000;
/// Those that are left of it in packets of 32, with 7 sectors of run-in, run-out and link beside each.
const CDRW_SECTORS: u32 = CDR_SECTORS / 39 * 32;

/// Where the partition starts: above the descriptors, which are in the packet of sector 256.
pub const START: u32 = 288;
/// Sparing tables before the descriptors, and as many before the disc's end.
const TABLES: [u32; 2] = [96, 192];
/// What a CD-RW has at its end that is no partition and no spare.
const END: u32 = 256;
const MOST_SPARES_A_SIDE: u32 = 32;

/// The layout of a disc.
#[derive(Debug, PartialEq, Eq)]
pub struct Layout {
    pub sectors: u32,
    pub start: u32,
    pub length: u32,
    /// None on a write-once disc.
    pub tables: Option<Vec<u32>>,
    pub spares: Vec<u32>,
}

/// The layout of a medium, `cdr` or `cdrw`, with its own number of sectors or a given one.
pub fn layout(medium: &str, sectors: Option<u32>) -> Result<Layout, Failure> {
    match medium {
        "cdr" => Ok(cdr(sectors.unwrap_or(CDR_SECTORS))),
        "cdrw" => cdrw(sectors.unwrap_or(CDRW_SECTORS)),
        _ => Err(Failure::Usage(format!("--media {medium}: a medium is cdr or cdrw"))),
    }
}

fn cdr(sectors: u32) -> Layout {
    Layout { sectors, start: START, length: sectors.saturating_sub(START), tables: None, spares: Vec::new() }
}

/// Two tables and half of the spares stand before the partition, two and the other half after it, so that no scratch reaches all.
fn cdrw(sectors: u32) -> Result<Layout, Failure> {
    const STEP: u32 = PACKET as u32;
    let end = sectors - sectors % STEP;
    // one packet in 128 is a spare
    let spares = (end / STEP / 256).clamp(1, MOST_SPARES_A_SIDE);
    let start = START + STEP * spares;
    let least = start + STEP + STEP * spares + END;
    if end < least {
        return Err(Failure::Usage(format!("a CD-RW has at least {} sectors, not {}", grouped(least), grouped(sectors))));
    }
    let after = end - END - STEP * spares;
    let tables = Some(TABLES.into_iter().chain(TABLES.into_iter().rev().map(|t| end - t)).collect());
    let packets = |from: u32| (0..spares).map(move |i| from + STEP * i);
    Ok(Layout { sectors: end, start, length: after - start, tables, spares: packets(START).chain(packets(after)).collect() })
}

#[cfg(test)]
mod tests {
    use super::*;
    use tuormik::{write_maps, Disc, Maps, SECTOR};

    #[test]
    fn a_cdrw_has_its_tables_and_spares_on_both_sides() {
        let Ok(layout) = layout("cdrw", None) else { panic!("a layout") };
        assert_eq!((layout.sectors, layout.start, layout.length), (273_216, 1312, 270_624));
        assert_eq!(layout.tables, Some(vec![96, 192, 273_024, 273_120]));
        assert_eq!(layout.spares.len(), 64);
        assert_eq!((layout.spares[31], layout.spares[32]), (1280, 271_936));
    }

    #[test]
    fn every_layout_can_be_made() {
        for sectors in [640, 672, 700, 2048, 8191, 8192, 20_000] {
            let Ok(Layout { sectors, start, length, tables: Some(tables), spares }) = layout("cdrw", Some(sectors)) else {
                panic!("{sectors} sectors")
            };
            let maps = write_maps(&Maps::Rewritable { partition: 0, table_bytes: 2048, tables }).expect("a map list");
            let (mut bytes, mut marks) = (vec![0; SECTOR * sectors as usize], vec![0; sectors as usize]);
            let mut disc = Disc { bytes: &mut bytes, marks: &mut marks, maps: &maps, start, length };
            assert_eq!(disc.make(&spares), Ok(()), "{sectors} sectors");
        }
        assert!(layout("cdrw", Some(639)).is_err());
        assert!(layout("cdrw", Some(640)).is_ok());
        assert!(layout("dvd", None).is_err());
    }
}

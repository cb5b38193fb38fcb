//! What the names mean that `tuormik info` gives to numbers, for who meets them on a page.

const MEANINGS: [(&str, &str); 12] = [
    ("fullness", "how much of the partition is written"),
    ("marks", "which sectors are recorded, blank (never recorded) or unreadable"),
    ("tables", "copies of the sparing table, which tells to which spare a packet of 32 sectors was moved"),
    ("identifier", "the name by which a sparing table is known"),
    ("S", "the first sector of the partition, the part of the disc that has the blocks"),
    ("L", "how many sectors the partition has"),
    ("N", "entries of the VAT (virtual allocation table), which tells where each block is"),
    ("NWA", "next writable address: the sector, counted from S, that is written next"),
    ("last ICB", "where, counted from S, the newest VAT has its ICB (information control block), which tells where that VAT is"),
    ("passed over", "sectors written after the newest VAT that was found; on a rewritable disc always 0"),
    ("R", "entries of the sparing table, one for each spare"),
    ("sequence", "the number of the sparing table: of its copies the one with the highest counts"),
];

/// The meaning of a name, where it is no plain word.
pub fn meaning(name: &str) -> Option<&'static str> {
    MEANINGS.iter().find(|(named, _)| *named == name).map(|(_, meaning)| *meaning)
}

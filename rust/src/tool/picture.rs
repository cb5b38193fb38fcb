//! A picture of a disc: a small field a sector, row by row; where little of a disc is used that part is drawn enlarged too.

mod figure;
mod panel;
mod svg;

use super::commits::{self, Commit};
use super::passed::{Passed, Possible};
use super::states::{Block, SpareState, View};
use super::words::{counted, from_to, grouped, joined};
use super::Failure;
pub use figure::STYLE;
use panel::{row, Panel};
use std::ops::Range;
use tuormik::descriptors::Volume;
use tuormik::image::Image;
use tuormik::{possible_icbs, read_maps, Held, Maps, PACKET, RECORDED, UNREADABLE};

/// What a sector is drawn as.
#[derive(Clone, Copy, PartialEq, Eq)]
pub enum Kind {
    Blank,
    Recorded,
    Live,
    FreeSpare,
    DefectiveSpare,
    UsedSpare,
    Table,
    Icb,
    Unreadable,
}

/// A kind in words, and its colour.
struct Look {
    kind: Kind,
    name: &'static str,
    meaning: &'static str,
    colour: [u8; 3],
}

const fn look(kind: Kind, name: &'static str, meaning: &'static str, colour: [u8; 3]) -> Look {
    Look { kind, name, meaning, colour }
}

/// Each kind; those that come later are drawn over those before.
const LOOKS: [Look; 9] = [
    look(Kind::Blank, "blank", "never recorded", [0xee, 0xee, 0xea]),
    look(Kind::Recorded, "recorded", "recorded, and no current block", [0xa9, 0xb8, 0xcc]),
    look(Kind::Live, "live", "a block of the current table", [0x3f, 0x8f, 0x5f]),
    look(Kind::FreeSpare, "free spare", "kept for a packet that fails", [0xf3, 0xd9, 0x8b]),
    look(Kind::DefectiveSpare, "defective spare", "not used again", [0x6b, 0x3f, 0x1d]),
    look(Kind::UsedSpare, "used spare", "has the blocks of a packet that was moved", [0xe8, 0x8a, 0x1a]),
    look(Kind::Table, "sparing table", "tells which packet is in which spare", [0x1b, 0x1b, 0x6b]),
    look(Kind::Icb, "VAT ICB", "ends a commit, and tells where its table is", [0x1b, 0x1b, 0x6b]),
    look(Kind::Unreadable, "unreadable", "recorded, and cannot be read", [0xd6, 0x27, 0x28]),
];

fn colour(kind: Kind) -> [u8; 3] {
    LOOKS.iter().find(|look| look.kind == kind).map_or([0; 3], |look| look.colour)
}

fn hex([r, g, b]: [u8; 3]) -> String {
    format!("#{r:02x}{g:02x}{b:02x}")
}

/// The colour of what stands around a sector that may be a newer VAT.
const POSSIBLE: [u8; 3] = [0xb0, 0x00, 0xb0];

/// How an item of the legend is drawn.
enum Sign {
    /// A field of a colour.
    Field([u8; 3]),
    /// One that is crossed out, and the bar beside its row.
    Unreadable,
    /// The line around a sector that may be a newer VAT, and the arrow beside its row.
    Possible,
    /// The line around the partition.
    Edge,
}

/// An item of the legend.
struct Item {
    sign: Sign,
    /// What it is and how many there are.
    words: String,
    meaning: String,
}

/// A disc, ready to be drawn.
pub struct Picture {
    kinds: Vec<Kind>,
    volume: Volume,
    /// The sectors that may be a newer VAT, in order.
    possible: Vec<usize>,
    /// Why it is drawn from its marks alone.
    pub from_marks: Option<String>,
}

/// What the marks tell, which are all there is where the disc is turned down.
fn by_marks(marks: &[u8]) -> Vec<Kind> {
    let kind = |&mark: &u8| match mark {
        RECORDED => Kind::Recorded,
        UNREADABLE => Kind::Unreadable,
        _ => Kind::Blank,
    };
    marks.iter().map(kind).collect()
}

/// Paints sectors, but those that are unreadable, and those that are blank where it is no spare that may be blank: a free or a defective
/// one.
fn paint(kinds: &mut [Kind], from: usize, count: usize, with: Kind) {
    let may_be_blank = matches!(with, Kind::FreeSpare | Kind::DefectiveSpare);
    for kind in kinds.iter_mut().skip(from).take(count) {
        let is_kept = *kind == Kind::Unreadable || (*kind == Kind::Blank && !may_be_blank);
        if !is_kept {
            *kind = with;
        }
    }
}

/// Sectors in order, as runs of sectors that follow each other: the first of each, and how many.
fn runs(sectors: impl Iterator<Item = usize>) -> Vec<(usize, usize)> {
    let mut runs: Vec<(usize, usize)> = Vec::new();
    for sector in sectors {
        match runs.last_mut() {
            Some((from, count)) if *from + *count == sector => *count += 1,
            _ => runs.push((sector, 1)),
        }
    }
    runs
}

/// Where sectors are, in words: `sectors 7 and 9 to 12`, and of many runs the first ones.
fn places(runs: &[(usize, usize)]) -> String {
    const MOST: usize = 4;
    let one = |&(from, count): &(usize, usize)| match count {
        1 => grouped(from),
        _ => format!("{} to {}", grouped(from), grouped(from + count - 1)),
    };
    let mut words: Vec<String> = runs.iter().take(MOST).map(one).collect();
    if runs.len() > MOST {
        let rest: usize = runs[MOST..].iter().map(|(_, count)| count).sum();
        words.push(format!("{} more", grouped(rest)));
    }
    let is_one = matches!(runs, [(_, 1)]);
    format!("sector{} {}", if is_one { "" } else { "s" }, joined(&words))
}

impl Picture {
    /// The picture of an image's disc: as it opens, or where it is turned down from its marks.
    pub fn new(image: &Image) -> Result<Picture, Failure> {
        let open = match commits::open(image) {
            Ok(open) => open,
            Err(failure @ Failure::Refused(..)) => return Ok(Picture::of_marks(image, failure.words())),
            Err(other) => return Err(other),
        };
        let view = View::from(&open);
        let found = if view.is_write_once() { commits::chain(image)? } else { Vec::new() };
        Ok(Picture::of_open(image, view, &found))
    }

    /// The picture of a disc that is turned down, and why it is.
    pub fn of_marks(image: &Image, why: String) -> Picture {
        Picture { kinds: by_marks(&image.marks), volume: image.volume.clone(), possible: Vec::new(), from_marks: Some(why) }
    }

    /// The picture of a disc that is open, with its commits.
    pub fn of_open(image: &Image, view: View, found: &[Commit]) -> Picture {
        let mut picture =
            Picture { kinds: by_marks(&image.marks), volume: image.volume.clone(), possible: possible(image, view), from_marks: None };
        for block in view.blocks().filter(Block::is_readable) {
            picture.paint(block.place.map_or(0, |(_, sector)| sector), 1, Kind::Live);
        }
        if let Held::Rewritable { .. } = view.record.held {
            picture.paint_spares(view);
        }
        for commit in found {
            picture.paint(image.volume.start as usize + commit.icb as usize, 1, Kind::Icb);
        }
        picture
    }

    fn paint(&mut self, from: usize, count: usize, with: Kind) {
        paint(&mut self.kinds, from, count, with);
    }

    /// The spares of a rewritable disc, and its sparing tables.
    fn paint_spares(&mut self, open: View) {
        for spare in open.spares() {
            let kind = match spare.state {
                SpareState::Used => Kind::UsedSpare,
                SpareState::Defective => Kind::DefectiveSpare,
                SpareState::Free => Kind::FreeSpare,
            };
            self.paint(spare.sector, PACKET, kind);
        }
        if let Ok(Maps::Rewritable { tables, .. }) = read_maps(open.disc.maps) {
            for table in tables {
                self.paint(table as usize, 1, Kind::Table);
            }
        }
    }

    /// The kinds that there are, each with its count.
    fn counts(&self) -> impl Iterator<Item = (usize, &'static Look)> + '_ {
        let count = |kind| self.kinds.iter().filter(|&&k| k == kind).count();
        LOOKS.iter().map(move |look| (count(look.kind), look)).filter(|(count, _)| *count > 0)
    }

    /// The counts in words.
    pub fn legend(&self) -> String {
        let words: Vec<String> = self.counts().map(|(count, look)| format!("{} {}", grouped(count), look.name)).collect();
        words.join(", ")
    }

    /// What the picture has, each with its sign: the kinds, what may be a newer VAT, and the partition.
    fn items(&self) -> Vec<Item> {
        let mut items: Vec<Item> = self.counts().map(|(count, look)| self.item(count, look)).collect();
        if !self.possible.is_empty() {
            let words = format!("may be a newer VAT: {}", grouped(self.possible.len()));
            let meaning = format!("{}, marked by an arrow", places(&runs(self.possible.iter().copied())));
            items.push(Item { sign: Sign::Possible, words, meaning });
        }
        if let Some(place) = self.partition() {
            items.push(Item { sign: Sign::Edge, words: "the partition".to_string(), meaning: place });
        }
        items
    }

    /// The item of a kind; of what a curator looks for it tells where that is.
    fn item(&self, count: usize, look: &Look) -> Item {
        let words = format!("{}: {}", look.name, grouped(count));
        let those = self.kinds.iter().enumerate().filter(|(_, kind)| **kind == look.kind).map(|(sector, _)| sector);
        let places = || places(&runs(those));
        let (sign, meaning) = match look.kind {
            Kind::Unreadable => (Sign::Unreadable, format!("{}, marked by a bar", places())),
            Kind::UsedSpare | Kind::DefectiveSpare => (Sign::Field(look.colour), format!("{}: {}", look.meaning, places())),
            _ => (Sign::Field(look.colour), look.meaning.to_string()),
        };
        Item { sign, words, meaning }
    }

    /// The sectors of the partition, where it has any.
    fn partition(&self) -> Option<String> {
        let (start, length) = (self.volume.start as usize, self.volume.length as usize);
        (length > 0).then(|| from_to(start, start + length - 1, "sector"))
    }

    fn title(&self) -> String {
        let partition = self.partition().map_or("has none of them".to_string(), |place| format!("is {place}"));
        format!("{}; the partition {partition}", counted(self.kinds.len(), "sector"))
    }

    /// The sectors up to the last one that is not blank.
    fn used(&self) -> usize {
        self.kinds.iter().rposition(|&kind| kind != Kind::Blank).map_or(0, |last| last + 1)
    }

    /// The parts of the picture: the whole disc, and before it what is enlarged. Where little of a disc is used that is enlarged, and the
    /// whole disc is drawn small; of a large rewritable disc what stands around the partition.
    fn panels(&self) -> Vec<Panel<'_>> {
        let (used, all) = (self.used(), self.kinds.len());
        let whole = |row| Panel::new(self, "The whole disc", 0..all, row);
        if self.is_enlarged(&(0..used)) {
            return vec![Panel::enlarged(self, "What is used, enlarged", 0..used), whole(2 * row(all))];
        }
        let mut panels = self.around();
        panels.push(whole(row(all)));
        panels
    }

    /// Sectors are enlarged where they are a quarter of the disc at most.
    fn is_enlarged(&self, sectors: &Range<usize>) -> bool {
        !sectors.is_empty() && 4 * sectors.len() <= self.kinds.len()
    }

    /// What stands before and after the partition of a large rewritable disc: its sparing tables, and most often its spares.
    fn around(&self) -> Vec<Panel<'_>> {
        /// The sectors of a disc on which a packet is seen without being enlarged.
        const SMALL: usize = 8192;
        if self.kinds.len() <= SMALL || !self.kinds.contains(&Kind::Table) {
            return Vec::new();
        }
        let start = self.volume.start as usize;
        let (before, after) = (0..start, start + self.volume.length as usize..self.kinds.len());
        let parts = [("The beginning of the disc, enlarged", before), ("The end of the disc, enlarged", after)];
        let enlarged = parts.into_iter().filter(|(_, sectors)| self.is_enlarged(sectors));
        enlarged.map(|(what, sectors)| Panel::enlarged(self, what, sectors)).collect()
    }

    /// A pixel a sector, or more where they are few.
    pub fn ppm(&self) -> Vec<u8> {
        let row = row(self.kinds.len());
        let rows = self.kinds.len().div_ceil(row);
        let side = (512 / row).clamp(1, 8);
        let mut bytes = format!("P6\n{} {}\n255\n", side * row, side * rows).into_bytes();
        for line in self.kinds.chunks(row) {
            let mut pixels = Vec::new();
            for x in 0..row {
                let colour = line.get(x).map_or([255; 3], |&kind| colour(kind));
                for _ in 0..side {
                    pixels.extend_from_slice(&colour);
                }
            }
            for _ in 0..side {
                bytes.extend_from_slice(&pixels);
            }
        }
        bytes
    }
}

/// The sectors that may be a newer VAT: such as were passed over, and the one before which the image file was cut off.
fn possible(image: &Image, view: View) -> Vec<usize> {
    let View { disc, record, .. } = view;
    let blocks = possible_icbs(disc.bytes, disc.marks, disc.start, record);
    let mut sectors: Vec<usize> = blocks.into_iter().map(|block| disc.start as usize + block as usize).collect();
    if let Some(Possible::CutOff { sector }) = Passed::new(view, image.file_sectors()).possible {
        sectors.push(sector);
    }
    sectors
}

#[cfg(test)]
mod tests {
    use super::*;

    /// A disc of these kinds, whose partition starts at sector 288.
    pub fn picture(kinds: Vec<Kind>) -> Picture {
        let volume = Volume { maps: Vec::new(), start: 288, length: kinds.len() as u32 - 288 };
        Picture { kinds, volume, possible: Vec::new(), from_marks: None }
    }

    /// A CD-R that is full but for its end, with a scratch and a lone unreadable sector.
    pub fn full_disc() -> Picture {
        let mut kinds = vec![Kind::Recorded; 333_000];
        kinds[320_000..].fill(Kind::Blank);
        kinds[200_000..203_000].fill(Kind::Unreadable);
        kinds[100_000] = Kind::Unreadable;
        kinds[319_999] = Kind::Icb;
        picture(kinds)
    }

    /// The sectors of each part, and how many it has in a row.
    fn sizes_of(picture: &Picture) -> Vec<(Range<usize>, usize)> {
        picture.panels().iter().map(|panel| (panel.sectors.clone(), panel.row)).collect()
    }

    #[test]
    fn places_are_told_by_runs() {
        let told = |sectors: &[usize]| places(&runs(sectors.iter().copied()));
        assert_eq!(told(&[7]), "sector 7");
        assert_eq!(told(&[7, 8, 2000]), "sectors 7 to 8 and 2,000");
        assert_eq!(told(&[1, 3, 5, 7, 9, 10, 11]), "sectors 1, 3, 5, 7 and 3 more");
    }

    #[test]
    fn what_is_used_is_enlarged_where_it_is_little() {
        let sizes = |used: usize, all: usize| {
            let mut kinds = vec![Kind::Recorded; all];
            kinds[used..].fill(Kind::Blank);
            sizes_of(&picture(kinds))
        };
        assert_eq!(sizes(400, 400), [(0..400, 32)]);
        assert_eq!(sizes(299, 333_000), [(0..320, 32), (0..333_000, 2048)]);
        assert_eq!(sizes(83_250, 333_000), [(0..83_456, 512), (0..333_000, 2048)]);
        assert_eq!(sizes(83_251, 333_000), [(0..333_000, 1024)]);
        assert_eq!(sizes(0, 400), [(0..400, 32)]);
    }

    #[test]
    fn what_stands_around_the_partition_of_a_large_rewritable_disc_is_enlarged() {
        let sizes = |all: usize| {
            let mut disc = picture(vec![Kind::Live; all]);
            disc.kinds[..288].fill(Kind::FreeSpare);
            disc.kinds[all - 256..].fill(Kind::FreeSpare);
            disc.kinds[96] = Kind::Table;
            disc.volume.length = all as u32 - 288 - 256;
            sizes_of(&disc)
        };
        assert_eq!(sizes(8192), [(0..8192, 128)]);
        assert_eq!(sizes(20_000), [(0..288, 32), (19_744..20_000, 32), (0..20_000, 256)]);
    }

    #[test]
    fn the_legend_has_what_is_drawn_and_no_more() {
        let words = |picture: &Picture| picture.items().into_iter().map(|item| item.words).collect::<Vec<_>>();
        let mut disc = full_disc();
        assert_eq!(words(&disc), ["blank: 13,000", "recorded: 316,998", "VAT ICB: 1", "unreadable: 3,001", "the partition"]);
        assert_eq!(disc.items()[3].meaning, "sectors 100,000 and 200,000 to 202,999, marked by a bar");
        disc.possible = vec![320_001];
        assert_eq!(words(&disc)[4], "may be a newer VAT: 1");
        disc.volume.length = 0;
        assert_eq!(words(&disc).len(), 5);
    }
}

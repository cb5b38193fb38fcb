//! Sectors as rows of fields, and what stands at their left and right.

use super::{colour, hex, runs, Kind, Look, Picture, LOOKS, POSSIBLE};
use crate::tool::words::{from_to, grouped};
use std::fmt::Write;
use std::ops::Range;
use tuormik::descriptors::Volume;

/// How many sectors a row has: a number of packets, so that there are about twice as many in a row as there are rows.
pub fn row(sectors: usize) -> usize {
    let fits = |row: &usize| 2 * sectors <= row * row;
    [32, 64, 128, 256, 512].into_iter().find(fits).unwrap_or(1024)
}

/// Kinds of which a single sector has to be seen on a full disc too: they have an edge of their own colour.
fn is_notable(kind: Kind) -> bool {
    matches!(kind, Kind::Unreadable | Kind::Icb | Kind::Table)
}

/// The height of a label, and the least distance of two where not each row has one.
const LABEL: usize = 14;
const APART: usize = 28;
/// The least height of fields in which a cross is seen.
const CROSSED: usize = 6;
/// The width of what stands at the right of the rows.
pub const MARGIN: usize = 24;

/// Sectors of a disc, as rows. Its fields are as wide as there is room, and its height is in pixels.
pub struct Panel<'a> {
    picture: &'a Picture,
    /// What it shows.
    what: &'static str,
    pub sectors: Range<usize>,
    pub row: usize,
    /// The height of a row.
    side: usize,
}

impl Panel<'_> {
    pub fn new<'a>(picture: &'a Picture, what: &'static str, sectors: Range<usize>, row: usize) -> Panel<'a> {
        Panel { picture, what, sectors, row, side: (768 / row).clamp(2, 16) }
    }

    /// Some sectors, with as many in a row as their number asks for, and as many more as fill the last row.
    pub fn enlarged<'a>(picture: &'a Picture, what: &'static str, Range { start, end }: Range<usize>) -> Panel<'a> {
        let row = row(end - start);
        let end = start + (end - start).next_multiple_of(row);
        Panel::new(picture, what, start..end.min(picture.kinds.len()), row)
    }

    pub fn rows(&self) -> usize {
        self.sectors.len().div_ceil(self.row)
    }

    pub fn height(&self) -> usize {
        self.side * self.rows()
    }

    fn kinds(&self) -> &[Kind] {
        &self.picture.kinds[self.sectors.clone()]
    }

    pub fn title(&self) -> String {
        format!("{}: {}", self.what, from_to(self.sectors.start, self.sectors.end - 1, "sector"))
    }

    /// The fields, in units of a sector and a row, to be drawn as wide and as high as the panel is.
    pub fn fields(&self) -> String {
        let mut text = String::new();
        for look in &LOOKS {
            if look.kind == Kind::Unreadable {
                // around an unreadable sector, not over it
                self.put_possible(&mut text);
            }
            self.put_kind(&mut text, look);
        }
        self.put_crosses(&mut text);
        let edge = edge(self.partition(), self.row);
        let _ = writeln!(text, r#"<path fill="none"{} d="{edge}"/>"#, outlined("#000", 2));
        text
    }

    fn put_kind(&self, text: &mut String, look: &Look) {
        let fields = path(self.kinds(), look.kind, self.row);
        if !fields.is_empty() {
            let colour = hex(look.colour);
            let edge = if is_notable(look.kind) { outlined(&colour, 1) } else { String::new() };
            let _ = writeln!(text, r#"<path fill="{colour}"{edge} d="{fields}"/>"#);
        }
    }

    /// A cross in each unreadable field, so that it is told from others without its colour.
    fn put_crosses(&self, text: &mut String) {
        let mut crosses = String::new();
        let those = self.kinds().iter().enumerate().filter(|(_, kind)| **kind == Kind::Unreadable);
        for (sector, _) in those.take_while(|_| self.side >= CROSSED) {
            let (x, y) = (sector % self.row, sector / self.row);
            let _ = write!(crosses, "M{x} {y}l1 1m0-1l-1 1");
        }
        if !crosses.is_empty() {
            let _ = writeln!(text, r#"<path fill="none"{} d="{crosses}"/>"#, outlined("#fff", 1));
        }
    }

    /// A line around each run of sectors that may be a newer VAT.
    fn put_possible(&self, text: &mut String) {
        let mut fields = String::new();
        for (from, count) in runs(self.possible()) {
            put_run(&mut fields, from, from + count, self.row);
        }
        if !fields.is_empty() {
            let _ = writeln!(text, r#"<path fill="none"{} d="{fields}"/>"#, outlined(&hex(POSSIBLE), 5));
        }
    }

    /// The sectors that may be a newer VAT, counted from the first of the panel.
    fn possible(&self) -> impl Iterator<Item = usize> + '_ {
        let those = self.picture.possible.iter().filter(|sector| self.sectors.contains(sector));
        those.map(|sector| sector - self.sectors.start)
    }

    /// The sectors of the partition from the first of the panel on, counted from that; its end may be after the panel's.
    fn partition(&self) -> Range<usize> {
        let Volume { start, length, .. } = self.picture.volume;
        let end = (start as usize + length as usize).min(self.picture.kinds.len());
        (start as usize).saturating_sub(self.sectors.start)..end.saturating_sub(self.sectors.start)
    }

    /// The first sector of each row that has room for it, with the height of the row's middle.
    pub fn labels(&self) -> Vec<(usize, String)> {
        let every = if self.side < LABEL { APART.div_ceil(self.side) } else { 1 };
        (0..self.rows()).step_by(every).map(|y| (self.side * y + self.side / 2, grouped(self.sectors.start + y * self.row))).collect()
    }

    /// What stands at the right, in pixels: a bar beside each row that has an unreadable sector, and an arrow beside each that has one
    /// that may be a newer VAT.
    pub fn margin(&self) -> String {
        let mut text = String::new();
        let is_unreadable = |line: &[Kind]| line.contains(&Kind::Unreadable);
        let rows = self.kinds().chunks(self.row).enumerate().filter(|(_, line)| is_unreadable(line)).map(|(y, _)| y);
        for (y, count) in runs(rows) {
            let _ = writeln!(text, "{}", bar(self.side * y, self.side * count));
        }
        let mut rows: Vec<usize> = self.possible().map(|sector| sector / self.row).collect();
        rows.dedup();
        for (y, count) in runs(rows.into_iter()) {
            let _ = writeln!(text, "{}", arrow(self.side * y + self.side * count / 2));
        }
        text
    }
}

/// A bar beside rows, so high as they are.
pub fn bar(top: usize, height: usize) -> String {
    format!(r#"<rect x="3" y="{top}" width="6" height="{}" fill="{}"/>"#, height.max(2), hex(colour(Kind::Unreadable)))
}

/// An arrow that points to a row.
pub fn arrow(middle: usize) -> String {
    format!(r#"<path d="M11 {middle}l9-5v10z" fill="{}"/>"#, hex(POSSIBLE))
}

/// The attributes of a line that is so wide at every size of the fields.
pub fn outlined(colour: &str, width: usize) -> String {
    format!(r#" stroke="{colour}" stroke-width="{width}" vector-effect="non-scaling-stroke""#)
}

/// The fields of one kind as a path, in sectors and rows. Rows that are whole of one kind become one field.
fn path(kinds: &[Kind], kind: Kind, row: usize) -> String {
    let mut text = String::new();
    let mut at = 0;
    for run in kinds.chunk_by(|a, b| a == b) {
        if run[0] == kind {
            put_run(&mut text, at, at + run.len(), row);
        }
        at += run.len();
    }
    text
}

/// A run of sectors: the end of its first row, the rows that it fills, the beginning of its last.
fn put_run(text: &mut String, from: usize, to: usize, row: usize) {
    let mut at = from;
    while at < to {
        let (x, y) = (at % row, at / row);
        let rows = if x == 0 { ((to - at) / row).max(1) } else { 1 };
        let wide = (row - x).min(to - at);
        let _ = write!(text, "M{x} {y}h{wide}v{rows}h-{wide}z");
        at += if wide == row { rows * row } else { wide };
    }
}

/// The edge around sectors, which may begin and end inside a row.
fn edge(sectors: Range<usize>, row: usize) -> String {
    if sectors.is_empty() {
        return String::new();
    }
    let Range { start: from, end: to } = sectors;
    let (x, y) = (from % row, from / row);
    let (end, last) = ((to - 1) % row + 1, (to - 1) / row);
    if y == last {
        format!("M{x} {y}H{end}V{}H{x}z", y + 1)
    } else {
        format!("M{x} {y}H{row}V{last}H{end}V{}H0V{}H{x}z", last + 1, y + 1)
    }
}

#[cfg(test)]
mod tests {
    use super::*;
    use crate::tool::picture::tests::{full_disc, picture};

    /// The sectors that a path covers.
    fn covered(path: &str, row: usize) -> Vec<usize> {
        let mut sectors = Vec::new();
        for field in path.split_terminator('z') {
            let numbers: Vec<usize> = field.split(|c: char| !c.is_ascii_digit()).filter_map(|n| n.parse().ok()).collect();
            let [x, y, wide, rows, _] = numbers[..] else { panic!("{field}") };
            sectors.extend((y..y + rows).flat_map(|y| (x..x + wide).map(move |x| y * row + x)));
        }
        sectors.sort_unstable();
        sectors
    }

    #[test]
    fn runs_cover_their_sectors_and_no_others() {
        for (from, to) in [(0, 1), (0, 32), (3, 7), (30, 34), (0, 96), (5, 133), (31, 160), (64, 65), (1, 200)] {
            let mut text = String::new();
            put_run(&mut text, from, to, 32);
            assert_eq!(covered(&text, 32), (from..to).collect::<Vec<_>>(), "{text}");
        }
        let mut text = String::new();
        put_run(&mut text, 0, 320_000, 1024);
        assert_eq!(text.matches('z').count(), 2);
    }

    #[test]
    fn a_full_disc_is_a_small_text() {
        let disc = full_disc();
        let panel = Panel::enlarged(&disc, "", 0..333_000);
        let (fields, margin) = (panel.fields(), panel.margin());
        assert!(fields.len() + margin.len() < 8192, "{} bytes", fields.len());
        // sector 100,000 is the 673rd of row 97, and its row and the four of the scratch have bars
        assert!(fields.contains("M672 97h1v1h-1z"), "{fields}");
        assert_eq!(margin, format!("{}\n{}\n", bar(2 * 97, 2), bar(2 * 195, 8)));
        assert_eq!(panel.labels().last(), Some(&(645, "329,728".to_string())));
    }

    #[test]
    fn what_is_unreadable_or_may_be_a_newer_vat_is_told_without_colours() {
        let mut kinds = vec![Kind::Recorded; 320];
        kinds[70] = Kind::Unreadable;
        let mut disc = picture(kinds);
        disc.possible = vec![290, 291, 319];
        let panel = Panel::enlarged(&disc, "", 0..320);
        assert!(panel.fields().contains("M6 2l1 1m0-1l-1 1"), "{}", panel.fields());
        assert!(panel.fields().contains("M2 9h2v1h-2zM31 9h1v1h-1z"), "{}", panel.fields());
        assert_eq!(panel.margin(), format!("{}\n{}\n", bar(32, 16), arrow(9 * 16 + 8)));
    }

    #[test]
    fn rows_are_packets() {
        assert_eq!([row(1), row(512), row(513), row(4096), row(333_000), row(1 << 20)], [32, 32, 64, 128, 1024, 1024]);
    }
}

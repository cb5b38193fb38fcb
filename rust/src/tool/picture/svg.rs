//! The picture as a file of its own.

use super::panel::{arrow, bar, outlined, Panel, MARGIN};
use super::{colour, hex, Item, Kind, Picture, Sign, POSSIBLE};
use std::fmt::Write;

/// The width of the rows, and of what stands at their left.
const ROWS: usize = 512;
const LEFT: usize = 84;
const WIDTH: usize = LEFT + ROWS + MARGIN;
/// The height of a line of words.
const LINE: usize = 20;
/// What is left free around all.
const AROUND: usize = 8;

impl Picture {
    /// The picture as an SVG file: its panels, one above the other, and its legend.
    pub fn svg(&self) -> String {
        let mut body = String::new();
        let mut top = AROUND;
        for panel in self.panels() {
            put_panel(&mut body, &panel, top);
            top += LINE + panel.height() + LINE;
        }
        for item in self.items() {
            put_item(&mut body, &item, top);
            top += LINE;
        }
        let height = top + AROUND;
        format!(
            "<svg xmlns=\"http://www.w3.org/2000/svg\" role=\"img\" viewBox=\"0 0 {WIDTH} {height}\" width=\"{WIDTH}\" height=\"{height}\" \
             font-family=\"sans-serif\" font-size=\"13\">\n<title>{}</title>\n<rect width=\"100%\" height=\"100%\" fill=\"#fff\"/>\n\
             {body}</svg>\n",
            self.title()
        )
    }
}

/// A panel, under its title.
fn put_panel(text: &mut String, panel: &Panel, top: usize) {
    let _ = writeln!(text, r#"<text x="{AROUND}" y="{}">{}</text>"#, top + 13, panel.title());
    let (top, height) = (top + LINE, panel.height());
    for (middle, label) in panel.labels() {
        let _ = writeln!(text, r##"<text x="{}" y="{}" text-anchor="end" fill="#444">{label}</text>"##, LEFT - 8, top + middle + 5);
    }
    let _ = writeln!(
        text,
        r#"<svg x="{LEFT}" y="{top}" width="{ROWS}" height="{height}" viewBox="0 0 {} {}" preserveAspectRatio="none" shape-rendering="crispEdges">"#,
        panel.row,
        panel.rows()
    );
    text.push_str(&panel.fields());
    let _ = writeln!(text, "</svg>\n<g transform=\"translate({} {top})\">\n{}</g>", LEFT + ROWS, panel.margin());
}

/// An item of the legend, in a line.
fn put_item(text: &mut String, Item { sign, words, meaning }: &Item, top: usize) {
    let _ = writeln!(text, r#"<g transform="translate({AROUND} {top})">{}</g>"#, sign.drawn());
    let _ = writeln!(text, "<text x=\"{}\" y=\"{}\">{words}<tspan fill=\"#555\"> \u{2013} {meaning}</tspan></text>", AROUND + 44, top + 12);
}

impl Sign {
    /// The sign of a legend's item, 36 wide and 14 high.
    pub fn drawn(&self) -> String {
        let field = |fill: &str, line: &str| format!(r#"<rect x="1" y="1" width="12" height="12" fill="{fill}"{line}/>"#);
        let unreadable = hex(colour(Kind::Unreadable));
        match self {
            Sign::Field(colour) => field(&hex(*colour), ""),
            Sign::Unreadable => {
                let cross = format!(r#"<path d="M1 1l12 12m0-12l-12 12" fill="none"{}/>"#, outlined("#fff", 1));
                format!(r#"{}{cross}<g transform="translate(12 0)">{}</g>"#, field(&unreadable, ""), bar(1, 12))
            }
            Sign::Possible => format!(r#"{}<g transform="translate(4 0)">{}</g>"#, field("none", &outlined(&hex(POSSIBLE), 3)), arrow(7)),
            Sign::Edge => field("none", &outlined("#000", 2)),
        }
    }
}

#[cfg(test)]
mod tests {
    use crate::tool::picture::tests::full_disc;

    #[test]
    fn a_full_disc_is_a_small_file() {
        let svg = full_disc().svg();
        assert!(svg.len() < 12_000, "{} bytes", svg.len());
        for part in [">recorded: 316,998<", ">329,728</text>", "sectors 100,000 and 200,000 to 202,999, marked by a bar<"] {
            assert!(svg.contains(part), "'{part}' is not in\n{svg}");
        }
    }
}

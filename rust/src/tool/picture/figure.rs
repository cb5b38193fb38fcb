//! The picture as a part of a page: the words are the page's own, so that they are as large as it has them at every width.

use super::panel::{Panel, MARGIN};
use super::{Item, Picture};
use std::fmt::Write;

/// What a page needs to show a figure.
pub const STYLE: &str = "
figure { margin: 12px 0; }
.panel { display: grid; grid-template-columns: 64px minmax(0, 1fr) 24px; }
.panel svg { display: block; width: 100%; height: 100%; }
.labels { position: relative; font-size: 12px; line-height: 1; color: #444; font-variant-numeric: tabular-nums; }
.labels span { position: absolute; right: 8px; transform: translateY(-50%); }
.over { margin: 16px 0 6px; }
.legend { list-style: none; margin: 16px 0 0; padding: 0; display: grid; gap: 2px 24px; grid-template-columns: repeat(auto-fill, minmax(min(100%, 400px), 1fr)); }
.legend li { padding-left: 44px; position: relative; break-inside: avoid; }
.legend svg { position: absolute; left: 0; top: 4px; }
";

impl Picture {
    /// The picture as a figure of a page.
    pub fn figure(&self) -> String {
        let mut text = "<figure>\n".to_string();
        for panel in self.panels() {
            put_panel(&mut text, &panel);
        }
        text.push_str("<ul class=\"legend\">\n");
        for Item { sign, words, meaning } in self.items() {
            let drawn = sign.drawn();
            let _ = writeln!(
                text,
                "<li><svg width=\"36\" height=\"14\" aria-hidden=\"true\">{drawn}</svg>{words}<span class=\"why\"> \u{2013} {meaning}</span></li>"
            );
        }
        text.push_str("</ul>\n</figure>\n");
        text
    }
}

/// A panel, under its title.
fn put_panel(text: &mut String, panel: &Panel) {
    let (title, height, rows) = (panel.title(), panel.height(), panel.rows());
    let _ = writeln!(
        text,
        "<p class=\"over\">{title}</p>\n<div class=\"panel\" style=\"height: {height}px\">\n<div class=\"labels\" aria-hidden=\"true\">"
    );
    for (middle, label) in panel.labels() {
        let _ = writeln!(text, r#"<span style="top: {middle}px">{label}</span>"#);
    }
    let _ = writeln!(
        text,
        "</div>\n<svg role=\"img\" viewBox=\"0 0 {} {rows}\" preserveAspectRatio=\"none\" shape-rendering=\"crispEdges\">\n<title>{title}</title>",
        panel.row
    );
    text.push_str(&panel.fields());
    let _ = writeln!(text, "</svg>\n<svg viewBox=\"0 0 {MARGIN} {height}\" aria-hidden=\"true\">\n{}</svg>\n</div>", panel.margin());
}

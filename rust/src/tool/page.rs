//! A page of HTML, whole in itself: its head, its tables, and what is folded.

use super::letters::meaning;
use super::picture;
use super::words::counted;

const STYLE: &str = "
:root { color-scheme: light; }
body { font: 15px/1.5 system-ui, sans-serif; color: #222; background: #fff; max-width: 960px; margin: 32px auto; padding: 0 16px; }
h1, h2, h3 { line-height: 1.25; overflow-wrap: anywhere; break-after: avoid; }
h1 { font-size: 26px; margin: 0 0 4px; }
h2 { font-size: 20px; margin: 36px 0 8px; }
h3 { font-size: 17px; margin: 28px 0 8px; }
h1 + p, h2 + p, h3 + p { margin-top: 0; break-after: avoid; }
a { color: #0b4a8f; }
table { border-collapse: collapse; font-variant-numeric: tabular-nums; }
tr { break-inside: avoid; }
th, td { text-align: left; vertical-align: top; padding: 3px 20px 3px 0; border-bottom: 1px solid #ddd; font-weight: normal; overflow-wrap: anywhere; }
th { color: #555; overflow-wrap: normal; }
th[scope=row] { min-width: 6.5em; white-space: nowrap; }
table + table { margin-top: 16px; }
.shelf td:first-child { min-width: 8em; }
thead th { vertical-align: bottom; }
.n { text-align: right; }
.why { color: #595959; }
.digest { font: 13px/1.5 ui-monospace, monospace; }
.verdict { padding: 10px 14px; border-left: 5px solid #3f8f5f; background: #eef5f0; overflow-wrap: anywhere; break-inside: avoid; }
.bad { border-left: 5px double #d62728; background: #fbeeee; }
.lost td { background: #fbe4e4; font-weight: bold; }
.lost td:first-child { border-left: 5px double #d62728; padding-left: 6px; }
.shelf .lost td { font-weight: normal; }
summary { cursor: pointer; padding: 6px 0; color: #0b4a8f; }
.made { color: #555; }
@media (max-width: 600px) { th, td { padding-right: 10px; } }
@media print {
  body { margin: 0; max-width: none; font-size: 13px; }
  * { print-color-adjust: exact; -webkit-print-color-adjust: exact; }
  .shelf ~ .disc { break-before: page; }
  .panel, .over { break-inside: avoid; }
  .over { break-after: avoid; }
  details::details-content { content-visibility: visible; display: block; }
  summary { list-style: none; }
  .folded { columns: 2; font-size: 11px; line-height: 1.3; }
  .folded td { padding-top: 1px; padding-bottom: 1px; }
  .back { display: none; }
}
";

/// Words as they are written in HTML.
pub fn escaped(words: &str) -> String {
    words.replace('&', "&amp;").replace('<', "&lt;").replace('>', "&gt;").replace('"', "&quot;")
}

/// A page with a title and what it has.
pub fn whole(title: &str, body: Body) -> String {
    let (title, figure, Body { html, .. }) = (escaped(title), picture::STYLE, body);
    format!(
        "<!DOCTYPE html>\n<html lang=\"en\">\n<head>\n<meta charset=\"utf-8\">\n<meta name=\"viewport\" content=\"width=device-width\">\n\
         <title>{title}</title>\n<style>{STYLE}{figure}</style>\n</head>\n<body>\n{html}</body>\n</html>\n"
    )
}

/// A name, what there is to say of it, and what it means where it is no plain word.
pub struct Fact {
    name: String,
    words: String,
    meaning: Option<&'static str>,
    is_digest: bool,
}

impl Fact {
    pub fn new(name: &str, words: impl Into<String>) -> Fact {
        Fact { name: name.to_string(), words: words.into(), meaning: meaning(name), is_digest: false }
    }

    /// The SHA-256 of a file.
    pub fn digest(words: String) -> Fact {
        Fact { is_digest: true, ..Fact::new("SHA-256", words) }
    }
}

/// A row of a table.
#[derive(Clone)]
pub struct Row {
    pub cells: Vec<String>,
    /// Whether it tells of what is lost.
    pub is_lost: bool,
}

impl Row {
    pub fn new(cells: impl Into<Vec<String>>) -> Row {
        Row { cells: cells.into(), is_lost: false }
    }
}

/// Whether a table is so long that its end is folded.
pub fn is_long(rows: &[Row]) -> bool {
    const SHORT: usize = 20;
    rows.len() > SHORT
}

/// What a page has, written piece by piece, under headings of a level.
pub struct Body {
    html: String,
    level: usize,
}

impl Body {
    pub fn new(level: usize) -> Body {
        Body { html: String::new(), level }
    }

    /// What is HTML already.
    pub fn put(&mut self, html: impl AsRef<str>) {
        self.html.push_str(html.as_ref());
    }

    /// What another body has.
    pub fn put_all(&mut self, other: Body) {
        self.put(other.html);
    }

    pub fn put_heading(&mut self, words: &str) {
        let level = self.level;
        self.put(format!("<h{level}>{}</h{level}>\n", escaped(words)));
    }

    pub fn put_words(&mut self, words: &str) {
        self.put(format!("<p>{}</p>\n", escaped(words)));
    }

    /// Words that have a look of their own.
    pub fn put_words_as(&mut self, class: &str, words: &str) {
        self.put(format!("<p class=\"{class}\">{}</p>\n", escaped(words)));
    }

    pub fn put_facts(&mut self, facts: &[Fact]) {
        self.put("<table>\n");
        for Fact { name, words, meaning, is_digest } in facts {
            let why = meaning.map_or(String::new(), |meaning| format!("<span class=\"why\"> \u{2013} {}</span>", escaped(meaning)));
            let class = if *is_digest { " class=\"digest\"" } else { "" };
            self.put(format!("<tr><th scope=\"row\">{}</th><td{class}>{}{why}</td></tr>\n", escaped(name), escaped(words)));
        }
        self.put("</table>\n");
    }

    /// A table under its heads; cells of digits stand to the right.
    fn put_table(&mut self, heads: &[&str], rows: &[Row]) {
        let head = |head: &&str| format!("<th scope=\"col\">{}</th>", escaped(head));
        self.put(format!("<table>\n<thead><tr>{}</tr></thead>\n<tbody>\n", heads.iter().map(head).collect::<String>()));
        let is_number = |cell: &str| cell.bytes().all(|b| b.is_ascii_digit() || b == b',');
        let cell = |cell: &String| format!("<td{}>{}</td>", if is_number(cell) { " class=\"n\"" } else { "" }, escaped(cell));
        for Row { cells, is_lost } in rows {
            let class = if *is_lost { " class=\"lost\"" } else { "" };
            self.put(format!("<tr{class}>{}</tr>\n", cells.iter().map(cell).collect::<String>()));
        }
        self.put("</tbody>\n</table>\n");
    }

    /// A table of things; where they are many the rows after the first ones are folded, but in print.
    pub fn put_long_table(&mut self, thing: &str, heads: &[&str], rows: &[Row]) {
        const SHOWN: usize = 12;
        if !is_long(rows) {
            return self.put_table(heads, rows);
        }
        let (first, others) = rows.split_at(SHOWN);
        self.put_table(heads, first);
        self.put(format!("<details>\n<summary>{} more</summary>\n<div class=\"folded\">\n", counted(others.len(), thing)));
        self.put_table(heads, others);
        self.put("</div>\n</details>\n");
    }
}

//! The page that a curator files: what it tells, that it is whole in itself, and that what it shows is told without colours too.

mod folder;

use folder::{ended, has, Folder};
use std::collections::BTreeSet;
use std::fs::File;
use std::time::{Duration, UNIX_EPOCH};

const SECTOR: usize = 2048;
/// 1996-02-29 23:59:59 UTC.
const LEAP_DAY: u64 = 825_638_399;

/// The page of images, made at a known time, with the status and the messages.
fn page_of(folder: &Folder, words: &[&str]) -> (i32, String, String) {
    let mut command = folder.command(&[&["report"], words].concat());
    let told = ended(command.env("SOURCE_DATE_EPOCH", LEAP_DAY.to_string()).spawn().expect("the tool runs"));
    if words.iter().all(|word| *word != "--output") {
        is_well_formed(&told.1);
    }
    told
}

/// The page of a command that ends with status 0.
fn page(folder: &Folder, words: &[&str]) -> String {
    let (status, page, err) = page_of(folder, words);
    assert_eq!(status, 0, "{words:?}: {err}");
    page
}

fn contains(page: &str, parts: &[&str]) {
    for part in parts {
        assert!(page.contains(part), "'{part}' is not in\n{page}");
    }
}

/// The tags of a page, without what stands between them.
fn tags(page: &str) -> impl Iterator<Item = &str> {
    page.split('<').skip(1).map(|part| part.split_once('>').expect("a tag ends").0)
}

/// The values that an attribute has in a page.
fn values<'a>(page: &'a str, attribute: &str) -> Vec<&'a str> {
    let begins = format!(" {attribute}=\"");
    page.split(&begins).skip(1).map(|part| part.split_once('"').expect("a value ends").0).collect()
}

/// Every tag that is opened is closed, in order; nothing is taken from elsewhere; links lead to what is there; heads of tables say of what,
/// and pictures have a title or are hidden from who cannot see them.
fn is_well_formed(page: &str) {
    assert!(page.starts_with("<!DOCTYPE html>\n<html lang=\"en\">\n") && page.ends_with("</html>\n"), "{page}");
    let mut open = Vec::new();
    for tag in tags(page).filter(|tag| !tag.starts_with('!') && !tag.starts_with("meta ") && !tag.ends_with('/')) {
        match tag.strip_prefix('/') {
            Some(name) => assert_eq!(open.pop(), Some(name), "{page}"),
            None => open.push(tag.split(' ').next().expect("a name")),
        }
    }
    assert_eq!(open, [""; 0]);
    for part in ["<script", "<link", " src=", "url(", "@import"] {
        assert!(!page.contains(part), "'{part}' is in\n{page}");
    }
    let ids = values(page, "id");
    assert_eq!(ids.iter().collect::<BTreeSet<_>>().len(), ids.len(), "{ids:?}");
    for link in values(page, "href") {
        assert!(link.strip_prefix('#').is_some_and(|id| ids.contains(&id)), "{link} leads nowhere");
    }
    for tag in tags(page) {
        assert!(!tag.starts_with("th") || tag.starts_with("thead") || tag.contains("scope="), "{tag}");
        assert!(!tag.starts_with("svg ") || tag.contains("role=\"img\"") || tag.contains("aria-hidden=\"true\""), "{tag}");
    }
    assert_eq!(page.matches(" role=\"img\"").count(), page.matches("\n<title>").count() - 1);
}

/// A folder with a write-once disc of so many commits of a block each, beside the one that made it: their VAT ICBs are at every second
/// block.
fn with_commits(name: &str, count: usize) -> Folder {
    let folder = Folder::with_disc(name);
    for _ in 0..count {
        folder.does(&["save", "d.img", "new", "text"]);
    }
    folder
}

#[test]
fn a_page_is_whole_in_itself() {
    let folder = with_commits("page", 3);
    folder.does(&["free", "d.img", "1"]);
    let first = page(&folder, &["d.img"]);
    contains(&first, &["<h1>d.img</h1>", "<h2>History</h2>", "<h2>Blocks</h2>", "clean: write-once", "<td class=\"n\">292</td>"]);
    contains(&first, &["<p class=\"made\">Report of 1996-02-29 23:59:59 UTC, made by tuormik "]);
    has(&first, "<tr><td>block 2</td><td>sector 293</td><td>recorded</td></tr>");
    has(&first, "<tr><td>block 1</td><td>-</td><td>unused</td></tr>");
    assert!(!first.contains("passed over above") && !first.contains("<a "), "{first}");
    // twice alike, and to a file
    assert_eq!(page_of(&folder, &["d.img", "--output", "page.html"]), (0, String::new(), String::new()));
    assert_eq!(folder.bytes("page.html"), first.as_bytes());
    let wrong = folder.command(&["report", "d.img"]).env("SOURCE_DATE_EPOCH", "yesterday").spawn().expect("the tool runs");
    let (status, out, err) = ended(wrong);
    assert_eq!((status, out.as_str()), (2, ""));
    assert!(err.contains("SOURCE_DATE_EPOCH: yesterday is no number of seconds from 1970 on"), "{err}");
    // names are words, not marks
    folder.write("<b>&.img", &folder.bytes("d.img"));
    let named = page(&folder, &["<b>&.img"]);
    assert!(named.contains("<h1>&lt;b&gt;&amp;.img</h1>") && !named.contains("<b>"), "{named}");
    folder.does(&["make", "r.img", "--sectors", "640", "--tables", "0,32,64", "--spares", "96,128", "--length", "64"]);
    let rewritable = page(&folder, &["r.img"]);
    contains(&rewritable, &["<td>blocks 0 to 63</td><td>sectors 288 to 351</td>"]);
    assert!(!rewritable.contains("History"), "{rewritable}");
}

/// Letters are told what they mean where they stand.
#[test]
fn letters_are_explained() {
    let folder = with_commits("page-letters", 1);
    folder.does(&["make", "r.img", "--sectors", "640", "--tables", "0,32,64", "--spares", "96,128", "--length", "64"]);
    for (image, letters) in [("d.img", &["S", "L", "N", "NWA", "last ICB", "passed over"][..]), ("r.img", &["S", "L", "R", "sequence"])] {
        let page = page(&folder, &[image]);
        for letter in letters {
            let begins = format!("<tr><th scope=\"row\">{letter}</th>");
            let row = page.lines().find(|line| line.starts_with(&begins)).expect("a row");
            assert!(row.contains("<span class=\"why\">"), "{row}");
        }
    }
    contains(&page(&folder, &["d.img"]), &["VAT (virtual allocation table", "ICB (information control block", "next writable address"]);
}

/// The digests are those that sha256sum gives of the same bytes.
#[test]
fn a_page_names_the_files_that_it_is_about() {
    let folder = Folder::new("page-files");
    folder.write("d.img", &[7; 400 * SECTOR]);
    folder.write("d.img.marks", b"tuormik marks\nunreadable 296 1\n");
    let image = File::options().write(true).open(folder.path("d.img")).expect("a file");
    image.set_modified(UNIX_EPOCH + Duration::from_secs(LEAP_DAY)).expect("a time");
    // the disc is longer than its file: the digest is the file's
    let page = page(&folder, &["d.img", "--start", "288", "--length", "1000", "--write-once"]);
    for (name, words) in [
        ("image", "d.img"),
        ("length", "819,200 bytes (400 sectors)"),
        ("last changed", "1996-02-29 23:59:59 UTC"),
        ("marks file", "d.img.marks"),
        ("length", "31 bytes"),
    ] {
        has(&page, &format!("<tr><th scope=\"row\">{name}</th><td>{words}</td></tr>"));
    }
    let of_image = "aad17bf9c4c43b807554e74eb897fa3aaa020d1519bc38283f2f3847c9abcc41";
    let of_marks = "7f7cf55a080eb571a4372a8a755cdc69b53ca442250c3eaf1f5f7ffad457df3e";
    for digest in [of_image, of_marks] {
        has(&page, &format!("<tr><th scope=\"row\">SHA-256</th><td class=\"digest\">{digest}</td></tr>"));
    }
}

#[test]
fn a_shelf_has_a_line_an_image_that_leads_to_its_part() {
    let folder = with_commits("page-shelf", 3);
    folder.write("e.img", &folder.bytes("d.img"));
    folder.write("e.img.marks", b"tuormik marks\nunreadable 291 1\n");
    folder.write("n.img", b"abc");
    let (status, page, err) = page_of(&folder, &["d.img", "e.img", "n.img", "not-there.img", "no-folder/x.img", "d.img"]);
    assert_eq!(status, 2, "{err}");
    assert_eq!(err.lines().count(), 3, "{err}");
    assert_eq!(values(&page, "href")[..6], ["#image-1", "#image-2", "#image-3", "#image-4", "#image-5", "#image-6"]);
    has(&page, "<tr><td><a href=\"#image-1\">d.img</a></td><td>clean: write-once, 3 blocks used, 6.2 % full</td></tr>");
    contains(
        &page,
        &["<tr class=\"lost\"><td><a href=\"#image-2\">e.img</a></td><td>DAMAGED: 1 block cannot be read: block 1 (sector 291"],
    );
    for (place, name) in [(3, "n.img"), (4, "not-there.img"), (5, "no-folder/x.img")] {
        contains(&page, &[&format!("<a href=\"#image-{place}\">{name}</a></td><td>CANNOT BE OPENED: ")]);
    }
    contains(&page, &["<title>Report on 6 images</title>", "<p>6 images: 2 clean, 1 damaged, 3 cannot be opened</p>", "<h2>e.img</h2>"]);
    // what cannot be opened is told by its files all the same
    contains(&page, &["ba7816bf8f01cfea414140de5dae2223b00361a396177a9cb410ff61f20015ad"]);
    assert_eq!(page.matches("<h3>The picture</h3>").count(), 3);
}

#[test]
fn no_image_of_a_shelf_is_written_over() {
    let folder = with_commits("page-over", 1);
    folder.write("e.img", &folder.bytes("d.img"));
    folder.write("e.img.marks", b"tuormik marks\n");
    folder.write("n.img", b"abc");
    for output in ["d.img", "e.img", "e.img.marks", "n.img", "./d.img"] {
        folder.turns_away(&["report", "d.img", "e.img", "n.img", "--output", output], &["it is the image or its marks file"]);
    }
}

#[test]
fn what_is_lost_is_told_without_colours() {
    let folder = with_commits("page-lost", 3);
    folder.write("d.img.marks", b"tuormik marks\nunreadable 291 1\nunreadable 16 2\n");
    let page = page(&folder, &["d.img"]);
    has(&page, "<tr class=\"lost\"><td>block 1</td><td>sector 291</td><td>\u{25b2} unreadable</td></tr>");
    contains(&page, &["unreadable: 3<span class=\"why\"> \u{2013} sectors 16 to 17 and 291, marked by a bar</span>"]);
    // a cross in each field, and a bar beside each row
    contains(&page, &["M16 0l1 1m0-1l-1 1M17 0l1 1m0-1l-1 1M3 9l1 1m0-1l-1 1"]);
    assert_eq!(page.matches("<rect x=\"3\" y=\"").count(), 2 + 1, "{page}");
}

#[test]
fn what_may_be_a_newer_vat_is_marked() {
    let marked = |folder: &Folder, sector: usize| {
        let (_, page, err) = page_of(folder, &["d.img"]);
        assert!(err.starts_with("tuormik: warning: ") && page.contains("<p class=\"verdict bad\">DAMAGED: sector"), "{err}");
        contains(&page, &[&format!("may be a newer VAT: 1<span class=\"why\"> \u{2013} sector {sector}, marked by an arrow</span>")]);
        // around its field, and beside its row
        contains(&page, &[&format!("d=\"M{} {}h1v1h-1z\"/>", sector % 32, sector / 32)]);
        assert_eq!(page.matches("l9-5v10z").count(), 1 + 1, "{page}");
    };
    // a VAT ICB that breaks a rule, one that is unreadable, and one that was cut off
    let folder = with_commits("page-newer", 3);
    let image = folder.bytes("d.img");
    let mut broken = image.clone();
    broken[SECTOR * 294 + 8] ^= 1;
    folder.write("d.img", &broken);
    marked(&folder, 294);
    folder.write("d.img", &image);
    assert!(!page(&folder, &["d.img"]).contains("newer VAT"));
    folder.write("d.img.marks", b"tuormik marks\nunreadable 294 1\n");
    let (_, page, _) = page_of(&folder, &["d.img"]);
    contains(&page, &["unreadable: 1<", "may be a newer VAT: "]);
    std::fs::remove_file(folder.path("d.img.marks")).expect("a marks file");
    folder.write("d.img", &image[..SECTOR * 294]);
    marked(&folder, 294);
}

/// The history and the blocks are folded where they are long, and what is lost among many blocks stands before them.
#[test]
fn what_is_long_is_folded() {
    let folder = with_commits("page-long", 19);
    assert!(!page(&folder, &["d.img"]).contains("<details>"));
    for _ in 0..2 {
        folder.does(&["save", "d.img", "new", "text"]);
    }
    folder.write("d.img.marks", b"tuormik marks\nunreadable 327 1\n");
    let page = page(&folder, &["d.img"]);
    contains(&page, &["<summary>10 commits more</summary>", "<summary>9 runs more</summary>"]);
    let (history, blocks) = page.split_once("<h2>Blocks</h2>").expect("the blocks");
    for icb in 0..=21 {
        contains(history, &[&format!("<td class=\"n\">{}</td><td class=\"n\">{}</td>", 2 * icb, 288 + 2 * icb)]);
    }
    let lost = "<tr class=\"lost\"><td>block 19</td><td>sector 327</td><td>\u{25b2} unreadable</td></tr>";
    assert_eq!(blocks.matches(lost).count(), 2, "{blocks}");
    assert!(blocks.find(lost) < blocks.find("<td>block 0</td>"), "{blocks}");
}

/// The part of a text between two others.
fn between<'a>(text: &'a str, from: &str, to: &str) -> &'a str {
    text.split_once(from).and_then(|(_, rest)| rest.split_once(to)).expect("both are there").0
}

fn legend(page: &str) -> &str {
    between(page, "<ul class=\"legend\">", "</ul>")
}

/// The colours of what is drawn, and those of the legend.
fn colours(page: &str) -> [BTreeSet<&str>; 2] {
    let parts = [between(page, "<figure>", "<ul class=\"legend\">"), legend(page)];
    parts.map(|part| values(part, "fill").into_iter().filter(|colour| *colour != "none").collect())
}

#[test]
fn the_legend_names_what_is_drawn_and_no_more() {
    let folder = with_commits("page-legend", 3);
    folder.does(&["make", "w.img", "--media", "cdrw", "--sectors", "2048"]);
    folder.does(&["make", "x.img", "--media", "cdrw", "--sectors", "16384"]);
    let legend_is = |image: &str, names: &str| {
        let (_, page, _) = page_of(&folder, &[image]);
        let [fields, signs] = colours(&page);
        assert_eq!(fields, signs, "{image}: {page}");
        let items = legend(&page).split("</svg>").skip(1).map(|item| item.split_once("<span").expect("a meaning").0);
        assert_eq!(items.collect::<Vec<_>>().join("; "), names, "{image}");
    };
    legend_is("d.img", "blank: 105; recorded: 288; live: 3; VAT ICB: 4; the partition");
    folder.write("d.img.marks", b"tuormik marks\nunreadable 294 1\n");
    let also = "unreadable: 1; may be a newer VAT: 1; the partition";
    legend_is("d.img", &format!("blank: 105; recorded: 289; live: 2; VAT ICB: 3; {also}"));
    let tables = "sparing table: 4; the partition";
    legend_is("w.img", &format!("blank: 536; recorded: 4; live: 1,440; free spare: 64; {tables}"));
    // a packet that is spared, and spared again: its spare is used, and the first one defective
    folder.does(&["spare", "w.img", "64"]);
    legend_is("w.img", &format!("blank: 536; recorded: 36; live: 1,408; free spare: 32; used spare: 32; {tables}"));
    folder.does(&["spare", "w.img", "64"]);
    legend_is("w.img", &format!("blank: 536; recorded: 36; live: 1,408; defective spare: 32; used spare: 32; {tables}"));
    folder.does(&["spare", "x.img", "64"]);
    let page = page(&folder, &["x.img"]);
    contains(&page, &["The beginning of the disc, enlarged: sectors 0 to 351<", "The end of the disc, enlarged: ", "The whole disc: "]);
    contains(&page, &["has the blocks of a packet that was moved: sectors 288 to 319"]);
}

/// Of a large disc of which little is used that part is drawn enlarged, in a page as in a picture.
#[test]
fn what_is_used_of_a_large_disc_is_enlarged() {
    let folder = Folder::new("page-large");
    folder.does(&["make", "d.img", "--media", "cdr", "--sectors", "20000"]);
    let page = page(&folder, &["d.img"]);
    folder.does(&["map", "d.img", "d.svg"]);
    for text in [&page, &String::from_utf8(folder.bytes("d.svg")).expect("text")] {
        contains(text, &["What is used, enlarged: sectors 0 to 319<", "The whole disc: sectors 0 to 19,999<"]);
        contains(text, &["viewBox=\"0 0 32 10\"", "viewBox=\"0 0 512 40\""]);
    }
}

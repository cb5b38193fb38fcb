//! A picture of a disc, as a file.

use super::args::Args;
use super::entry::Entry;
use super::images::load_next;
use super::output::Outputs;
use super::passed;
use super::picture::Picture;
use super::{Done, Failure};

pub const ENTRY: Entry = Entry {
    name: "map",
    line: "a picture of the disc",
    usage: &["IMAGE PICTURE"],
    about: "\
Draws the sectors of the disc, row by row: blank (never recorded), recorded, live (a block of the current table), unreadable, VAT \
ICBs, sparing tables, spares that are used, defective or free, also those inside the partition, and a line around the partition. What \
is used is drawn enlarged too where it is a quarter of the disc at most, and of a large rewritable disc what stands around the \
partition. Rows with an unreadable sector have a bar, those with a sector \
that may be a newer VAT an arrow. Where the disc is turned down it is drawn from its marks alone. PICTURE ends in .svg or in .ppm, which \
has the fields of the whole disc alone.
",
    choices: &[],
    takes_volume: true,
    writes: None,
    run: map,
};

fn map(args: &mut Args, out: &mut Outputs) -> Done {
    let image = load_next(args)?;
    let path = args.next_path("PICTURE")?;
    args.end()?;
    let picture = Picture::new(&image)?;
    let ending = path.extension().map(|e| e.to_ascii_lowercase());
    let bytes = match ending.as_ref().and_then(|e| e.to_str()) {
        Some("svg") => picture.svg().into_bytes(),
        Some("ppm") => picture.ppm(),
        _ => return Err(Failure::Usage(format!("{}: a picture ends in .svg or .ppm", path.display()))),
    };
    image.write_output(&path, &bytes)?;
    out.line(format_args!("{}: {}", path.display(), picture.legend()));
    if let Some(words) = &picture.from_marks {
        out.line(format_args!("drawn from the marks alone, since the disc was turned down: {words}"));
    }
    passed::tell(&image, out)
}

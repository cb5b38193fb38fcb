//! The bytes of blocks.

use super::args::Args;
use super::commits;
use super::entry::{Choice, Entry, AT};
use super::images::{load_next, optional_count};
use super::output::Outputs;
use super::progress::Progress;
use super::Done;

pub const ENTRY: Entry = Entry {
    name: "read",
    line: "the bytes of blocks",
    usage: &["IMAGE NUMBER [COUNT] [--at ICB] [--output FILE] [--hex]"],
    about: "\
Reads COUNT blocks (1) from NUMBER on: virtual blocks of a write-once disc, logical ones of a rewritable disc. Their bytes go to FILE \
or to the standard output. The message about a block whose sector was never recorded (blank) differs from that about one whose sector \
cannot be read (unreadable). A block that belongs to a spare inside the partition is not read; the message names the spare.
",
    choices: &[
        AT,
        Choice { name: "--output", values: &["FILE"], words: "where the bytes go" },
        Choice::flag("--hex", "as text, sixteen bytes a line"),
    ],
    takes_volume: true,
    writes: None,
    run: read,
};

fn read(args: &mut Args, out: &mut Outputs) -> Done {
    let image = load_next(args)?;
    let first = args.next_number("NUMBER")?;
    let count = optional_count(args)?;
    args.end()?;
    let open = commits::open_at(&image, args.number("--at")?, out)?;
    let mut bytes = Vec::new();
    let mut progress = Progress::new("blocks read");
    for i in 0..count {
        bytes.extend_from_slice(&commits::read(&open, first.saturating_add(i))?);
        progress.tell(i as usize, count as usize);
    }
    drop(progress);
    if args.has("--hex") {
        bytes = hex(&bytes).into_bytes();
    }
    match args.path("--output") {
        Some(path) => Ok(image.write_output(path, &bytes)?),
        None => {
            out.bytes(&bytes);
            Ok(())
        }
    }
}

/// Sixteen bytes a line, in hexadecimal and as letters; lines that repeat the one before are left out.
fn hex(bytes: &[u8]) -> String {
    let mut text = String::new();
    let mut last: Option<&[u8]> = None;
    let mut is_left_out = false;
    for (i, line) in bytes.chunks(16).enumerate() {
        if last == Some(line) {
            if !is_left_out {
                text.push_str("*\n");
            }
            is_left_out = true;
            continue;
        }
        (last, is_left_out) = (Some(line), false);
        let digits: Vec<String> = line.iter().map(|b| format!("{b:02x}")).collect();
        let letters: String = line.iter().map(|&b| if (32..127).contains(&b) { b as char } else { '.' }).collect();
        text.push_str(&format!("{:08x}  {:<47}  {letters}\n", 16 * i, digits.join(" ")));
    }
    text
}

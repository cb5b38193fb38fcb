//! A new disc.

use super::args::Args;
use super::entry::{Choice, Entry};
use super::images::{store, telling};
use super::media::{layout, Layout, START};
use super::output::Outputs;
use super::states::{Counts, View};
use super::volume::{maps, maps_of};
use super::words::{are, counted, grouped};
use super::{commits, refused, Done, Failure};
use tuormik::descriptors::{write_volume, Volume, DESCRIPTORS_END};
use tuormik::image::Image;
use tuormik::{read_maps, Maps, BLANK, MOST_SECTORS, PACKET, RECORDED, SECTOR};

pub const ENTRY: Entry = Entry {
    name: "make",
    line: "a new disc",
    usage: &[
        "IMAGE --media cdr|cdrw [--sectors N]",
        "IMAGE --sectors N --write-once [--start S] [--length L]",
        "IMAGE --sectors N --tables T,.. [--spares M,..] [--start S] [--length L]",
    ],
    about: "\
Makes a disc of N sectors and writes it to IMAGE, which must not be there yet. The partition starts at S (288) and has L sectors (to \
the end of the disc, on a rewritable one in whole packets). Where sectors 256 to 259 are free, descriptors are put there that tell the \
volume, so that the other commands find it; they make no file system.
",
    choices: &[
        Choice { name: "--sectors", values: &["N"], words: "the number of sectors" },
        Choice {
            name: "--media",
            values: &["cdr|cdrw"],
            words: "cdr: a write-once disc of 333,000 sectors, or of N; cdrw: a rewritable disc of 273,216 sectors, or of N rounded down to \
                    whole packets, with four sparing tables, two before the partition and two after it, and one packet in 128 a spare, half \
                    of them on either side",
        },
        Choice::flag("--write-once", "a write-once disc"),
        Choice { name: "--tables", values: &["T,.."], words: "sparing tables of a rewritable disc, at these sectors" },
        Choice { name: "--table-bytes", values: &["N"], words: "the bytes of each table (2,048)" },
        Choice {
            name: "--spares",
            values: &["M,.."],
            words: "packets to which others can be spared, by their first sectors; the blocks of those inside the partition can be neither \
                    read nor saved, and the command tells how many blocks are left",
        },
        Choice { name: "--start", values: &["S"], words: "the partition's first sector" },
        Choice { name: "--length", values: &["L"], words: "its number of sectors" },
        Choice { name: "--partition", values: &["N"], words: "the partition number (0)" },
        Choice { name: "--maps", values: &["FILE"], words: "the map list itself" },
        Choice { name: "--marks", values: &["FILE"], words: "where the marks go, if they need a file (IMAGE.marks)" },
        Choice::flag("--no-descriptors", "no descriptors"),
        Choice::flag("--force", "replaces IMAGE, and its marks file, where they are there"),
    ],
    takes_volume: false,
    writes: Some("no disc was made"),
    run: make,
};

fn usage(words: String) -> Failure {
    Failure::Usage(words)
}

/// Where everything is on a disc to be made, with its map list: as the medium has it, or as the options give it.
fn layout_of(args: &Args) -> Result<(Layout, Vec<u8>), Failure> {
    let by_medium = ["--write-once", "--tables", "--table-bytes", "--start", "--length", "--spares", "--maps"];
    need_own(args, "--media", &by_medium, "a medium gives a disc all but its number of sectors")?;
    let by_list = ["--write-once", "--tables", "--table-bytes", "--partition"];
    need_own(args, "--maps", &by_list, "a map list tells the kind and all that goes with it")?;
    let of_rewritable = ["--spares", "--table-bytes"];
    need_own(args, "--write-once", &of_rewritable, "a write-once disc has no sparing tables and no spares")?;
    let sectors = args.number("--sectors")?;
    if let Some(medium) = args.value("--media") {
        let layout = layout(&medium.to_string_lossy(), sectors)?;
        let maps = maps_of(args, layout.tables.clone())?;
        return Ok((layout, maps));
    }
    let sectors = sectors.ok_or_else(|| usage("how many sectors? --sectors N, or --media cdr or cdrw".into()))?;
    let start = args.number("--start")?.unwrap_or(START);
    let (tables, spares) = (args.numbers("--tables")?, args.numbers("--spares")?.unwrap_or_default());
    let maps = maps(args)?.ok_or_else(|| usage("which kind? --write-once, --tables T,.., --maps FILE or --media".into()))?;
    let rest = sectors.saturating_sub(start);
    let whole = if matches!(read_maps(&maps), Ok(Maps::Rewritable { .. })) { rest - rest % PACKET as u32 } else { rest };
    let length = args.number("--length")?.unwrap_or(whole);
    Ok((Layout { sectors, start, length, tables, spares }, maps))
}

/// What was rounded down to whole packets: the disc that a medium gives, or the partition that goes to its end.
fn rounded_words(args: &Args, layout: &Layout) -> Result<Option<String>, Failure> {
    let Some(asked) = args.number("--sectors")?.filter(|_| !args.has("--length")) else {
        return Ok(None);
    };
    let (what, from, to) = if args.has("--media") {
        ("the disc", asked, layout.sectors)
    } else {
        ("the partition", asked.saturating_sub(layout.start), layout.length)
    };
    Ok((from != to).then(|| format!("{what} was rounded down from {} to whole packets of 32", counted(from as usize, "sector"))))
}

/// An option that tells what others would tell too, or that others do not fit, stands without them.
fn need_own(args: &Args, option: &str, others: &[&str], why: &str) -> Done {
    match others.iter().find(|other| args.has(option) && args.has(other)) {
        Some(other) => Err(usage(format!("{why}, so {other} does not go with {option}"))),
        None => Ok(()),
    }
}

fn make(args: &mut Args, out: &mut Outputs) -> Done {
    let path = args.next_path("IMAGE")?;
    args.end()?;
    let (layout, maps) = layout_of(args)?;
    let rounded = rounded_words(args, &layout)?;
    let Layout { sectors, start, length, spares, .. } = layout;
    if sectors as usize > MOST_SECTORS {
        return Err(refused::sectors(sectors as usize));
    }
    let kind = read_maps(&maps).map_err(|error| refused::by_list(&maps, error))?;
    if let (Maps::WriteOnce { .. }, true) = (&kind, args.has("--spares")) {
        return Err(usage("the map list is of a write-once disc, which has no spares".into()));
    }
    let (Maps::WriteOnce { partition } | Maps::Rewritable { partition, .. }) = kind;
    let volume = Volume { maps, start, length };
    let (marks, replaces) = (args.path("--marks"), args.has("--force"));
    let mut image = Image::create_waiting(&path, marks, sectors as usize, volume, replaces, &mut telling(&path, out))?;
    let mut disc = image.disc();
    disc.make(&spares).map_err(|error| refused::by_making(disc.to_read(), &spares, error))?;
    let is_described = !args.has("--no-descriptors") && describe(&mut image, partition);
    store(&mut image)?;
    out.line(format_args!("made {}: {}, S {}, L {}", path.display(), counted(sectors as usize, "sector"), grouped(start), grouped(length)));
    for words in rounded.into_iter().chain(left_words(&image)?) {
        out.line(words);
    }
    if !is_described {
        out.line("it has no descriptors: give S, L and the kind to the other commands by hand");
    }
    Ok(())
}

/// How many blocks are left of a disc with spares in its partition.
fn left_words(image: &Image) -> Result<Option<String>, Failure> {
    let open = commits::open(image)?;
    let view = View::from(&open);
    let blocks: Counts = view.blocks().collect();
    let spares = counted(blocks.of_spare / PACKET, "spare");
    let words = || format!("{spares} in the partition: of its {} {} left", counted(view.count() as usize, "block"), are(blocks.used()));
    Ok((blocks.of_spare > 0).then(words))
}

/// Puts descriptors into sectors that making left alone, and says whether they found room.
fn describe(image: &mut Image, partition: u16) -> bool {
    let Some(sectors) = write_volume(&image.volume, partition) else {
        return false;
    };
    let partition_end = image.volume.start as usize + image.volume.length as usize;
    let is_clear = (image.volume.start as usize) >= DESCRIPTORS_END || partition_end <= 256;
    let has_room = is_clear && sectors.iter().all(|(at, _)| image.marks.get(*at) == Some(&BLANK)) && !is_spare_there(image);
    if has_room {
        for (at, bytes) in sectors {
            image.bytes[SECTOR * at..SECTOR * (at + 1)].copy_from_slice(&bytes);
            image.marks[at] = RECORDED;
        }
        // what stands before a write-once partition is recorded with it, so that the rule tells the marks
        if matches!(read_maps(&image.volume.maps), Ok(Maps::WriteOnce { .. })) {
            image.marks[..image.volume.start as usize].fill(RECORDED);
        }
    }
    has_room
}

/// Whether the packet of sectors 256 to 287 is a spare.
fn is_spare_there(image: &Image) -> bool {
    match image.to_read().open() {
        Ok(open) => {
            let view = View::from(&open);
            !view.is_write_once() && view.spares().any(|spare| spare.sector == 256)
        }
        Err(_) => true,
    }
}

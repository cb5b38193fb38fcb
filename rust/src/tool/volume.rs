//! The volume of an image: what the options give, and for the rest what its descriptors tell.

use super::args::Args;
use super::{refused, words, Failure};
use tuormik::descriptors::{find_volume, recognized, NoVolume, Volume};
use tuormik::{write_maps, Maps};

fn usage(words: String) -> Failure {
    Failure::Usage(words)
}

/// The map list that the options give: a file, or the kind.
pub fn maps(args: &Args) -> Result<Option<Vec<u8>>, Failure> {
    if let Some(path) = args.path("--maps") {
        return std::fs::read(path).map(Some).map_err(|e| Failure::file(path, &e));
    }
    match (args.has("--write-once"), args.numbers("--tables")?) {
        (true, Some(_)) => Err(usage("--write-once and --tables are of different kinds".into())),
        (false, None) => Ok(None),
        (_, tables) => maps_of(args, tables).map(Some),
    }
}

/// The map list of a rewritable volume with tables, or of a write-once one.
pub fn maps_of(args: &Args, tables: Option<Vec<u32>>) -> Result<Vec<u8>, Failure> {
    let partition = args.number("--partition")?.unwrap_or(0);
    let partition = u16::try_from(partition).map_err(|_| usage(format!("--partition {} is above 65,535", words::grouped(partition))))?;
    let table_bytes = args.number("--table-bytes")?.unwrap_or(2048);
    let maps = match tables {
        Some(tables) => Maps::Rewritable { partition, table_bytes, tables },
        None => Maps::WriteOnce { partition },
    };
    write_maps(&maps).map_err(|error| refused::by_maps(&maps, error))
}

/// The volume of an image.
pub fn volume(args: &Args, image: &[u8]) -> Result<Volume, Failure> {
    let (maps, start, length) = (maps(args)?, args.number("--start")?, args.number("--length")?);
    if let (Some(maps), Some(start), Some(length)) = (&maps, start, length) {
        return Ok(Volume { maps: maps.clone(), start, length });
    }
    let found = find_volume(image).map_err(|why| no_volume(image, &why))?;
    Ok(Volume { maps: maps.unwrap_or(found.maps), start: start.unwrap_or(found.start), length: length.unwrap_or(found.length) })
}

/// That an image tells no volume: what it is, where that can be told, or else how a volume is given.
fn no_volume(image: &[u8], why: &NoVolume) -> Failure {
    let by_hand = || format!("{why}; give the volume by hand: --start S --length L and --write-once, --tables T,.. or --maps FILE");
    match why {
        NoVolume::Lost(_) => Failure::LostVolume(by_hand()),
        NoVolume::Other(_) => Failure::NoVolume(recognized(image).map_or_else(by_hand, |what| format!("it is {what}"))),
    }
}

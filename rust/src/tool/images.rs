//! Images as commands take them: loaded, and stored when a command is done with them.

use super::args::{Args, EFFECTS};
use super::output::Outputs;
use super::progress::Waiting;
use super::volume::volume;
use super::words::{grouped, number};
use super::{Done, Failure};
use std::io::Read;
use std::path::{Path, PathBuf};
use std::time::Duration;
use tuormik::descriptors::Volume;
use tuormik::image::{Image, Waited};
use tuormik::{Cut, MOST_SECTORS};

/// The image of a path, with the marks and the volume that the options give.
pub fn load(args: &Args, path: &Path) -> Result<Image, Failure> {
    let _waiting = Waiting::new(format!("reading {}", path.display()));
    Image::load(path, args.path("--marks"), |bytes| volume(args, bytes))
}

/// The same, whether it tells a volume or not.
pub fn load_without_volume(args: &Args, path: &Path) -> Result<Image, Failure> {
    let _waiting = Waiting::new(format!("reading {}", path.display()));
    Image::load(path, args.path("--marks"), |_| Ok(Volume { maps: Vec::new(), start: 0, length: 0 }))
}

/// The image that a command's next word names.
pub fn load_next(args: &mut Args) -> Result<Image, Failure> {
    let path = args.next_path("IMAGE")?;
    load(args, &path)
}

/// The same, to be stored: it is locked from here on.
pub fn load_to_write(args: &mut Args, out: &mut Outputs) -> Result<Image, Failure> {
    let path = args.next_path("IMAGE")?;
    load_path_to_write(args, &path, out)
}

/// The image of a path, to be stored.
pub fn load_path_to_write(args: &Args, path: &Path, out: &mut Outputs) -> Result<Image, Failure> {
    let _waiting = Waiting::new(format!("reading {}", path.display()));
    let tell = &mut telling(path, out);
    Image::load_to_write_waiting(path, args.path("--marks"), |bytes| volume(args, bytes), tell)
}

/// How long a command waits for another before it says so.
const MOMENT: Duration = Duration::from_millis(200);

/// Says once, after a moment, for whom a command waits that is to write an image.
pub fn telling<'a, 'b>(path: &'a Path, out: &'a mut Outputs<'b>) -> impl FnMut(Waited) + use<'a, 'b> {
    let mut is_told = false;
    move |Waited { by, time }| {
        if time >= MOMENT && !is_told {
            let whom = by.map_or("another process".to_string(), |by| format!("process {by}"));
            out.say(format_args!("waiting for {whom}, which is writing {}", path.display()));
            is_told = true;
        }
    }
}

/// The images of a command that takes several.
pub fn images(args: &mut Args) -> Result<Vec<PathBuf>, Failure> {
    let paths = args.next_paths("IMAGE")?;
    if paths.len() > 1 && args.has("--marks") {
        return Err(Failure::Usage(format!("--marks goes with one image, and these are {}", grouped(paths.len()))));
    }
    Ok(paths)
}

/// How many blocks are meant: a word of the command line, or 1.
pub fn optional_count(args: &mut Args) -> Result<u32, Failure> {
    let Some(word) = args.next_word() else {
        return Ok(1);
    };
    let word = word.to_string_lossy();
    let count = number(&word).filter(|&n| n > 0 && n as usize <= MOST_SECTORS);
    count.ok_or_else(|| Failure::Usage(format!("COUNT: {word} is no number of blocks from 1 to 1,048,576")))
}

/// The bytes of a file, or of the standard input, up to one more than the most.
pub fn input(path: &Path, most: usize) -> Result<Vec<u8>, Failure> {
    let mut bytes = Vec::new();
    let most = most as u64 + 1;
    let read = if path.as_os_str() == "-" {
        std::io::stdin().lock().take(most).read_to_end(&mut bytes)
    } else {
        std::fs::File::open(path).and_then(|file| file.take(most).read_to_end(&mut bytes))
    };
    read.map_err(|e| Failure::file(path, &e))?;
    Ok(bytes)
}

/// Replaces the image file by the image.
pub fn store(image: &mut Image) -> Done {
    let _waiting = Waiting::new("storing the image".to_string());
    Ok(image.store()?)
}

/// Stores the image once a call is done, and where the power was to fail in it too: then it is the disc as the cut left it.
pub fn finish(image: &mut Image, answer: Result<String, Failure>, cut: Cut, out: &mut Outputs) -> Done {
    match answer {
        Ok(words) => {
            store(image)?;
            out.line(words);
            Ok(())
        }
        Err(Failure::Cut(call)) => {
            store(image)?;
            let effect = EFFECTS.iter().find(|(effect, _)| *effect == cut.effect).map_or("", |(_, name)| name);
            Err(Failure::Cut(format!(
                "the power failed at write {} of {call}, which became {effect}; the image was stored as the cut left it",
                grouped(cut.at)
            )))
        }
        Err(other) => Err(other),
    }
}

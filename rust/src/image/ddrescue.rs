//! Map files of GNU ddrescue: which bytes of a disc it read ("Mapfile structure" in its manual).
//!
//! A map is text. What follows a '#' at a line's begin or after white space is a comment. The first line that has more is the status line:
//! a position, a status and, in newer versions, a pass. Each line after it is a part: its position, its size in bytes and its status. The
//! parts follow each other with no gap and no overlap.

use crate::numbers::grouped;
use crate::{BLANK, MOST_SECTORS, RECORDED, SECTOR, UNREADABLE};

/// The statuses of the program's run, and of a part.
const RUN_STATUSES: [&str; 7] = ["?", "*", "/", "-", "F", "G", "+"];
const PART_STATUSES: [&str; 5] = ["?", "*", "/", "-", FINISHED];
const FINISHED: &str = "+";

/// The marks that a map tells of an image of so many sectors, or what is wrong with it. A sector is recorded where the map says of all its
/// bytes that they were read, and unreadable where it does not; from `blank_from` on sectors are blank. What stands before the first part
/// was not tried, as ddrescue itself takes it. Up to `blank_from` map and image must end together: where the map ends first nothing is
/// known of the rest, and where the image ends first sectors that were not read would pass for blank ones.
pub fn marks_from_ddrescue(text: &[u8], sectors: usize, blank_from: Option<usize>) -> Result<Vec<u8>, String> {
    let text = std::str::from_utf8(text).map_err(|_| "it is no text, and so no map of ddrescue")?;
    let parts = read_parts(text)?;
    need_same_end(&parts, sectors, blank_from)?;
    let mut marks = vec![UNREADABLE; sectors];
    for run in parts.chunk_by(|a, b| a.is_finished && b.is_finished).filter(|run| run[0].is_finished) {
        let (from, end) = (run[0].from.div_ceil(SECTOR as u64), run[run.len() - 1].end / SECTOR as u64);
        if let Some(read) = marks.get_mut(from as usize..end as usize) {
            read.fill(RECORDED);
        }
    }
    if let Some(blank) = blank_from.and_then(|from| marks.get_mut(from..)) {
        blank.fill(BLANK);
    }
    Ok(marks)
}

/// A part of the disc: its bytes, and whether they were read.
#[derive(Debug)]
struct Part {
    from: u64,
    end: u64,
    is_finished: bool,
}

/// The parts of a map, in their order.
fn read_parts(text: &str) -> Result<Vec<Part>, String> {
    let mut lines = text.lines().map(fields).enumerate().filter(|(_, fields)| !fields.is_empty());
    let (i, status) = lines.next().ok_or("it has no status line, and so is no map of ddrescue")?;
    read_status(&status).map_err(|words| format!("line {}: {words}", i + 1))?;
    let mut parts: Vec<Part> = Vec::new();
    for (i, fields) in lines {
        let part = read_part(&fields).and_then(|part| need_follow(parts.last(), part));
        parts.push(part.map_err(|words| format!("line {}: {words}", i + 1))?);
    }
    Ok(parts)
}

/// The fields of a line, without its comment.
fn fields(line: &str) -> Vec<&str> {
    line.split_whitespace().take_while(|field| !field.starts_with('#')).collect()
}

fn read_status(fields: &[&str]) -> Result<(), String> {
    let [position, status, ref pass @ ..] = *fields else {
        return Err("the status line needs a position and a status".into());
    };
    if pass.len() > 1 {
        return Err(format!("a status line has at most a position, a status and a pass, not {} fields", fields.len()));
    }
    integer(position)?;
    need_status(status, &RUN_STATUSES)?;
    match pass.first() {
        Some(pass) if pass.parse::<u32>().is_err() => Err(format!("{pass} is no number of a pass")),
        _ => Ok(()),
    }
}

fn read_part(fields: &[&str]) -> Result<Part, String> {
    let [position, size, status] = *fields else {
        return Err(format!("a part has a position, a size and a status, not {} fields", fields.len()));
    };
    let (from, size) = (integer(position)?, integer(size)?);
    need_status(status, &PART_STATUSES)?;
    if size == 0 {
        return Err("the part has a size of 0".into());
    }
    let end = from.checked_add(size).ok_or_else(|| format!("a part from {position} on cannot have {} bytes", grouped(size)))?;
    Ok(Part { from, end, is_finished: status == FINISHED })
}

fn need_status(word: &str, statuses: &[&str]) -> Result<(), String> {
    if statuses.contains(&word) {
        return Ok(());
    }
    Err(format!("{word} is no status: it is one of {}", statuses.join(" ")))
}

/// A part follows the one before it.
fn need_follow(before: Option<&Part>, part: Part) -> Result<Part, String> {
    match before {
        Some(before) if part.from > before.end => Err(format!(
            "the part begins at byte {}, and the one before it ends at {}: there is a gap",
            grouped(part.from),
            grouped(before.end)
        )),
        Some(before) if part.from < before.end => Err(format!(
            "the part begins at byte {}, and the one before it ends at {}: they overlap",
            grouped(part.from),
            grouped(before.end)
        )),
        _ => Ok(part),
    }
}

/// A number as C++ writes it: decimal, hexadecimal after 0x, octal after 0.
fn integer(word: &str) -> Result<u64, String> {
    let (digits, radix) = match word.as_bytes() {
        [b'0', b'x' | b'X', ..] => (&word[2..], 16),
        [b'0', _, ..] => (&word[1..], 8),
        _ => (word, 10),
    };
    if digits.is_empty() || !digits.chars().all(|digit| digit.is_digit(radix)) {
        return Err(format!("{word} is no number"));
    }
    u64::from_str_radix(digits, radix).map_err(|_| format!("{word} is more than any disc has"))
}

/// Map and image end at the same sector, as far as it is not blank.
fn need_same_end(parts: &[Part], sectors: usize, blank_from: Option<usize>) -> Result<(), String> {
    let sectors = sectors as u64;
    let blank_from = blank_from.map_or(u64::MAX, |from| from as u64);
    let end_of = |part: Option<&Part>| part.map_or(0, |part| part.end.div_ceil(SECTOR as u64));
    let end = end_of(parts.last());
    let read_end = end_of(parts.iter().rfind(|part| part.is_finished));
    if end < sectors.min(blank_from) {
        return Err(format!(
            "it ends at sector {}, and the image has {}: it is not a map of this image, or not a whole one",
            grouped(end),
            grouped(sectors)
        ));
    }
    if read_end > sectors {
        return Err(format!(
            "it says that sectors up to {} were read, and the image has {}: it is not a map of this image, or the image was cut short",
            grouped(read_end - 1),
            grouped(sectors)
        ));
    }
    if end.min(blank_from) > sectors {
        return Err(beyond_image(end.min(blank_from), sectors));
    }
    Ok(())
}

/// That a map has sectors, up to an end, that were not read and are not in the image.
fn beyond_image(end: u64, sectors: u64) -> String {
    let places = format!("it goes on to sector {} with what was not read, and the image has {}", grouped(end - 1), grouped(sectors));
    let blank = format!("that may be blank, from sector {} on", grouped(sectors));
    if end > MOST_SECTORS as u64 {
        return format!("{places}: {blank}");
    }
    format!("{places}: {blank}; otherwise the image needs zeros in its place, up to a length of {} bytes", end * SECTOR as u64)
}

#[cfg(test)]
mod tests {
    use super::*;

    const HEAD: &str = "# Mapfile. Created by GNU ddrescue version 1.27\n0x0 + 1\n";

    /// The marks of an image of four sectors, with nothing blank.
    fn marks(parts: &str) -> Result<Vec<u8>, String> {
        marks_from_ddrescue(format!("{HEAD}{parts}").as_bytes(), 4, None)
    }

    fn is_wrong(parts: &str, words: &str) {
        let answer = marks(parts);
        assert!(answer.as_ref().is_err_and(|told| told.contains(words)), "{parts}: {answer:?}");
    }

    #[test]
    fn finished_is_recorded_and_all_else_unreadable() {
        assert_eq!(marks("0x0000 0x2000 +"), Ok(vec![1, 1, 1, 1]));
        for status in ["?", "*", "/", "-"] {
            assert_eq!(marks(&format!("0x0 0x800 +\n0x800 0x800 {status}\n0x1000 0x1000 +")), Ok(vec![1, 2, 1, 1]), "{status}");
        }
    }

    #[test]
    fn a_sector_is_recorded_where_all_its_bytes_were_read() {
        // by parts that end within sectors: 1 is read by two of them, of 2 a byte is missing
        assert_eq!(marks("0 3000 +\n3000 1096 +\n4096 1 -\n4097 2047 +\n6144 2048 ?"), Ok(vec![1, 1, 2, 2]));
        assert_eq!(marks("0 1 +\n1 1 -\n2 8190 +"), Ok(vec![2, 1, 1, 1]));
        assert_eq!(marks("0 8191 +\n8191 1 -"), Ok(vec![1, 1, 1, 2]));
        // the map of a file that ends within its last sector
        assert_eq!(marks("0 8191 +"), Ok(vec![1, 1, 1, 2]));
    }

    #[test]
    fn numbers_are_as_in_c() {
        assert_eq!(marks("0x0 0X800 +\n04000 2048 -\n4096 010000 +"), Ok(vec![1, 2, 1, 1]));
        for word in ["", "0x", "08", "1a", "+1", "-1", "0x+1", "1,000", "one"] {
            assert!(integer(word).is_err(), "{word}");
        }
        assert_eq!(integer("0xffffffffffffffff"), Ok(u64::MAX));
        assert!(integer("0x10000000000000000").is_err_and(|words| words.contains("more than any disc has")));
    }

    #[test]
    fn comments_and_empty_lines_are_passed_by() {
        let text = "\n# a comment\n \t# another\n0x0 ? # of an older version, without a pass\n\n0 8192 + # all\n";
        assert_eq!(marks_from_ddrescue(text.as_bytes(), 4, None), Ok(vec![1; 4]));
        let text = text.replace('\n', "\r\n");
        assert_eq!(marks_from_ddrescue(text.as_bytes(), 4, None), Ok(vec![1; 4]));
    }

    #[test]
    fn from_blank_from_on_all_is_blank() {
        let marks = |parts: &str, from| marks_from_ddrescue(format!("{HEAD}{parts}").as_bytes(), 4, Some(from));
        assert_eq!(marks("0 4096 +\n4096 4096 -", 2), Ok(vec![1, 1, 0, 0]));
        assert_eq!(marks("0 8192 +", 0), Ok(vec![0; 4]));
        assert_eq!(marks("0 8192 +", 4), Ok(vec![1; 4]));
        assert_eq!(marks("0 8192 +", usize::MAX), Ok(vec![1; 4]));
        // of what is blank the map need say nothing, and it may go on beyond the image
        assert_eq!(marks("0 4096 +", 2), Ok(vec![1, 1, 0, 0]));
        assert_eq!(marks("0 8192 +\n8192 0x7fffffffffffdfff ?", 4), Ok(vec![1; 4]));
        assert!(marks("0 4096 +", 3).is_err_and(|words| words.contains("it ends at sector 2")));
        assert!(marks("0 8192 +\n8192 4096 ?", 5)
            .is_err_and(|words| words.contains("it goes on to sector 4 with what was not read, and the image has 4")));
    }

    #[test]
    fn what_stands_before_the_first_part_was_not_tried() {
        assert_eq!(marks("2048 6144 +"), Ok(vec![2, 1, 1, 1]));
    }

    #[test]
    fn what_is_no_map() {
        assert!(marks_from_ddrescue(&[0xff], 4, None).is_err_and(|words| words.contains("no text")));
        for (text, words) in [
            ("", "no status line"),
            ("# only a comment\n", "no status line"),
            ("0x0\n", "line 1: the status line needs"),
            ("0x0 + 1 2\n", "line 1: a status line has at most a position, a status and a pass, not 4 fields"),
            ("# here\n0x0 x 1\n", "line 2: x is no status"),
            ("zero + 1\n", "line 1: zero is no number"),
            ("0x0 + one\n", "line 1: one is no number of a pass"),
            ("tuormik marks\n", "line 1: tuormik is no number"),
        ] {
            let answer = marks_from_ddrescue(text.as_bytes(), 4, None);
            assert!(answer.as_ref().is_err_and(|told| told.contains(words)), "{text}: {answer:?}");
        }
    }

    #[test]
    fn parts_that_are_none() {
        is_wrong("0 8192", "line 3: a part has a position, a size and a status, not 2 fields");
        is_wrong("0 8192 + 1", "line 3: a part has a position, a size and a status, not 4 fields");
        is_wrong("0 8192 F", "line 3: F is no status: it is one of ? * / - +");
        is_wrong("0 0 +", "line 3: the part has a size of 0");
        is_wrong("0 8192x +", "line 3: 8192x is no number");
        is_wrong("0 4096 +\n0x1000 0xffffffffffffffff -", "line 4: a part from 0x1000 on cannot have");
        is_wrong("0 99999999999999999999 +", "line 3: 99999999999999999999 is more than any disc has");
    }

    #[test]
    fn parts_follow_each_other() {
        is_wrong("0 4096 +\n\n6144 2048 -", "line 5: the part begins at byte 6,144, and the one before it ends at 4,096: there is a gap");
        is_wrong("0 4096 +\n2048 6144 -", "line 4: the part begins at byte 2,048, and the one before it ends at 4,096: they overlap");
    }

    #[test]
    fn map_and_image_end_together() {
        is_wrong("", "it ends at sector 0, and the image has 4");
        is_wrong("0 6144 +", "it ends at sector 3, and the image has 4");
        is_wrong("0 8193 +", "it says that sectors up to 4 were read, and the image has 4");
        is_wrong(
            "0 8192 +\n8192 4096 -",
            "it goes on to sector 5 with what was not read, and the image has 4: that may be blank, from sector 4 on; otherwise the image \
             needs zeros in its place, up to a length of 12288 bytes",
        );
        // as of an input whose length ddrescue could not tell
        let answer = marks("0 8192 +\n8192 0x7fffffffffffdfff ?");
        assert!(answer.is_err_and(|words| words.ends_with("that may be blank, from sector 4 on")));
    }
}

//! Marks files: the marks of a disc's sectors, as text.

use crate::numbers::{grouped, number};
use crate::{marks_by_rule, BLANK, MOST_SECTORS, RECORDED, SECTOR, UNREADABLE};

/// The format of a marks file, in words.
pub const MARKS_FORMAT: &str = "\
A marks file is text, and its first line is 'tuormik marks'. Each line after it is one of
  blank FROM COUNT         COUNT sectors from sector FROM on are blank; one whose bytes are not zeros is not, and the file is refused
  recorded FROM COUNT      they are recorded
  unreadable FROM COUNT    they are unreadable
  image FINGERPRINT        written by the tool: the marks belong to these bytes, and with others the file is refused
A later line prevails. Sectors that no line names follow the rule: trailing sectors of zeros are blank, all others are recorded.
";

const HEAD: &str = "tuormik marks";
const MARK_NAMES: [&str; 3] = ["blank", "recorded", "unreadable"];

/// The mark in words.
pub fn mark_name(mark: u8) -> &'static str {
    MARK_NAMES.get(usize::from(mark)).unwrap_or(&"unknown")
}

/// A number that tells an image's bytes from others.
pub(super) fn fingerprint(bytes: &[u8]) -> u64 {
    let mix = |hash: u64, word: u64| (hash ^ word).wrapping_mul(0x0000_0100_0000_01b3).rotate_left(23);
    let words = bytes.chunks_exact(8);
    let rest = words.remainder().iter().fold(0, |word, &b| word << 8 | u64::from(b));
    let hash = words.fold(0xcbf2_9ce4_8422_2325, |hash, w| mix(hash, u64::from_le_bytes([w[0], w[1], w[2], w[3], w[4], w[5], w[6], w[7]])));
    mix(mix(hash, rest), bytes.len() as u64)
}

/// Whether a file begins as a marks file does.
pub(super) fn is_marks_file(text: &[u8]) -> bool {
    text.strip_prefix(HEAD.as_bytes()).is_some_and(|rest| rest.first().is_none_or(|b| b.is_ascii_whitespace()))
}

/// The text of a marks file: its head, the image that it goes with, and runs of sectors.
pub(super) fn marks_text(marks: &[u8], image: u64) -> String {
    let mut text = format!("{HEAD}\nimage {image:016x}\n");
    let mut from = 0;
    for run in marks.chunk_by(|a, b| a == b) {
        text.push_str(&format!("{} {from} {}\n", mark_name(run[0]), run.len()));
        from += run.len();
    }
    text
}

/// The marks that a marks file tells of an image with these bytes, or what is wrong with it.
pub(super) fn read_marks(text: &[u8], bytes: &[u8]) -> Result<Vec<u8>, String> {
    let text = std::str::from_utf8(text).map_err(|_| "it is no text, and so no marks file")?;
    let mut marks = marks_by_rule(bytes);
    let mut lines = text.lines().enumerate();
    if lines.next().map(|(_, line)| line.trim()) != Some(HEAD) {
        return Err(format!("its first line is not '{HEAD}'"));
    }
    for (i, line) in lines {
        read_line(line, &mut marks, bytes).map_err(|words| format!("line {}: {words}", i + 1))?;
    }
    need_zeros(&marks, bytes)?;
    Ok(marks)
}

/// Sectors that are called blank have zeros.
pub(super) fn need_zeros(marks: &[u8], bytes: &[u8]) -> Result<(), String> {
    let is_written = |sector: &[u8]| sector.iter().any(|&b| b != 0);
    match bytes.chunks(SECTOR).zip(marks).position(|(sector, &mark)| mark == BLANK && is_written(sector)) {
        Some(at) => Err(format!("sector {} is called blank, and its bytes are not zeros", grouped(at))),
        None => Ok(()),
    }
}

/// Takes up what one line of a marks file tells.
fn read_line(line: &str, marks: &mut [u8], bytes: &[u8]) -> Result<(), String> {
    let wrong = || "it is none of 'image FINGERPRINT' and 'blank|recorded|unreadable FROM COUNT'".to_string();
    let words: Vec<&str> = line.split_whitespace().collect();
    match words[..] {
        [] => Ok(()),
        ["image", print] if u64::from_str_radix(print, 16).map_err(|_| wrong())? == fingerprint(bytes) => Ok(()),
        ["image", _] => Err("these marks belong to other bytes than the image has: one of the two was replaced without the other".into()),
        [name, from, count] => {
            let mark = [BLANK, RECORDED, UNREADABLE].into_iter().find(|&mark| mark_name(mark) == name).ok_or_else(wrong)?;
            let (from, count) = (number(from).ok_or_else(wrong)? as usize, number(count).ok_or_else(wrong)? as usize);
            let end = from.checked_add(count).filter(|&end| end <= MOST_SECTORS).ok_or_else(wrong)?;
            let sectors = marks.len();
            if end > sectors && mark != BLANK {
                return Err(format!("it names sectors up to {}, and the image has {}", grouped(end - 1), grouped(sectors)));
            }
            if let Some(named) = marks.get_mut(from..end.min(sectors)) {
                named.fill(mark);
            }
            Ok(())
        }
        _ => Err(wrong()),
    }
}

#[cfg(test)]
mod tests {
    use super::*;

    /// Four sectors, of which the second is not zeros.
    fn image() -> Vec<u8> {
        let mut bytes = vec![0; 4 * SECTOR];
        bytes[SECTOR] = 1;
        bytes
    }

    #[test]
    fn marks_are_read_as_written() {
        let (bytes, marks) = (image(), [0, 1, 2, 1]);
        let text = marks_text(&marks, fingerprint(&bytes));
        assert_eq!(read_marks(text.as_bytes(), &bytes), Ok(marks.to_vec()));
        let other = read_marks(text.as_bytes(), &[0; 4 * SECTOR]);
        assert!(other.is_err_and(|words| words.contains("other bytes")));
    }

    #[test]
    fn sectors_that_no_line_names_follow_the_rule() {
        assert_eq!(read_marks(b"tuormik marks\n", &image()), Ok(vec![1, 1, 0, 0]));
        assert_eq!(read_marks(b"tuormik marks\nunreadable 0 1\n", &image()), Ok(vec![2, 1, 0, 0]));
        assert_eq!(read_marks(b"tuormik marks\nrecorded 3 1\n", &image()), Ok(vec![1, 1, 0, 1]));
        assert_eq!(read_marks(b"tuormik marks\nblank 0 1\nblank 2 9\n", &image()), Ok(vec![0, 1, 0, 0]));
    }

    #[test]
    fn a_sector_with_bytes_is_not_blank() {
        let words = read_marks(b"tuormik marks\nblank 1 3\n", &image());
        assert_eq!(words, Err("sector 1 is called blank, and its bytes are not zeros".into()));
    }

    #[test]
    fn what_is_no_marks_file() {
        for text in ["marks", "tuormik marks\nrecorded 0 5", "tuormik marks\nrecorded 0 99999999999999999999", "tuormik marks\nspoilt 0 1"]
        {
            assert!(read_marks(text.as_bytes(), &image()).is_err(), "{text}");
        }
        assert!(read_marks(&[0xff], &image()).is_err());
        assert!(is_marks_file(b"tuormik marks\n") && !is_marks_file(b"tuormik marksmen") && !is_marks_file(b""));
    }
}

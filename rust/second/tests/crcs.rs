//! The CRC of the proved library, by each of its ways, held against the plain one, which goes by tables: bytes of many lengths at every
//! alignment and from many starts, the word's step from every CRC, and tags as other systems wrote them.
//!
//! Each comparison is also tried on functions that are wrong, and has to tell them.

use tuormik_second::plain;

type Crc = fn(&[u8], u16) -> u16;
type Step = fn(u16, [u8; 4]) -> u16;

/// The proved ones, and the plain one by four tables: all are held against the plain one by one table.
const CRCS: [(&str, Crc); 4] = [
    ("crc", tuormik::crc),
    ("crc_by_bytes", tuormik::crc_by_bytes),
    ("crc_by_words", tuormik::crc_by_words),
    ("four tables", plain::crc_by_words),
];

const STARTS: [u16; 3] = [0, 0xffff, 0x1d0f];

/// Numbers that look random, the same in every run.
struct Draw(u64);

impl Draw {
    fn next(&mut self) -> u64 {
        self.0 ^= self.0 << 13;
        self.0 ^= self.0 >> 7;
        self.0 ^= self.0 << 17;
        self.0
    }

    fn crc(&mut self) -> u16 {
        (self.next() >> 20) as u16
    }

    fn word(&mut self) -> [u8; 4] {
        ((self.next() >> 20) as u32).to_le_bytes()
    }
}

/// Random bytes to be taken at any alignment.
struct Bytes {
    bytes: Vec<u8>,
    /// where an address is a multiple of 8
    from: usize,
}

impl Bytes {
    /// So many bytes and more.
    fn new(draw: &mut Draw, most: usize) -> Bytes {
        let bytes: Vec<u8> = (0..most + 16).map(|_| (draw.next() >> 20) as u8).collect();
        let from = bytes.as_ptr().align_offset(8);
        Bytes { bytes, from }
    }

    /// Some of them, the first at an address that is `alignment` modulo 8.
    fn at(&self, alignment: usize, length: usize) -> &[u8] {
        let part = &self.bytes[self.from + alignment..][..length];
        assert_eq!(part.as_ptr() as usize % 8, alignment);
        part
    }
}

// ---- what is compared

/// Where CRCs differ first, on bytes of these lengths at every alignment, from the starts above and two more.
fn difference(crcs: &[(&str, Crc)], lengths: &[usize]) -> Option<String> {
    let mut draw = Draw(20_040_167);
    let longest = lengths.iter().max().copied().unwrap_or(0);
    for alignment in 0..8 {
        let bytes = Bytes::new(&mut draw, longest);
        for &length in lengths {
            let part = bytes.at(alignment, length);
            for start in STARTS.into_iter().chain([draw.crc(), draw.crc()]) {
                let expected = plain::crc(part, start);
                for (name, crc) in crcs {
                    let found = crc(part, start);
                    if found != expected {
                        let what = format!("{length} bytes at alignment {alignment} from {start:04x}");
                        return Some(format!("{what}: {found:04x} by {name}, and {expected:04x} by one table"));
                    }
                }
            }
        }
    }
    None
}

/// Where a word's step differs first from four byte steps: from every CRC, and with every value of each byte.
fn step_difference(step: Step) -> Option<String> {
    let mut draw = Draw(18_672_003);
    let mut cases: Vec<(u16, [u8; 4])> = (0..=u16::MAX).map(|crc| (crc, draw.word())).collect();
    for place in 0..4 {
        for value in 0..=255 {
            for crc in STARTS.into_iter().chain([draw.crc()]) {
                let mut word = draw.word();
                word[place] = value;
                cases.push((crc, word));
            }
        }
    }
    cases.into_iter().find_map(|(crc, word)| {
        let expected = word.iter().fold(crc, |crc, &byte| plain::crc(&[byte], crc));
        let found = step(crc, word);
        (found != expected).then(|| format!("{word:02x?} from {crc:04x}: {found:04x}, and {expected:04x} byte by byte"))
    })
}

fn short() -> Vec<usize> {
    (0..=300).collect()
}

/// Lengths about the longest that a tag in a sector can cover, and about the longest that a tag can name.
fn long() -> Vec<usize> {
    (2_032 - 20..=2_032 + 20).chain(65_535 - 20..=65_535 + 4).collect()
}

// ---- the right ones

#[test]
fn bytes_of_any_length_and_alignment() {
    assert_eq!(difference(&CRCS, &short()), None);
}

#[test]
fn long_bytes() {
    assert_eq!(difference(&CRCS, &long()), None);
}

#[test]
fn the_word_s_step() {
    assert_eq!(step_difference(tuormik::crc_word), None);
    assert_eq!(step_difference(|crc, [a, b, c, d]| plain::crc_word(crc, a, b, c, d)), None);
}

/// A line of `tags.txt`: of a tag its CRC, and the bytes that this covers.
fn tag(line: &str) -> (u16, Vec<u8>) {
    let words: Vec<&str> = line.split(' ').collect();
    let [_, _, _, _, crc, length, _, digits] = words[..] else { panic!("{line}") };
    let crc = u16::from_str_radix(crc, 16).expect("a CRC");
    let byte = |at| u8::from_str_radix(&digits[at..at + 2], 16).expect("a byte");
    let bytes: Vec<u8> = (0..digits.len()).step_by(2).map(byte).collect();
    assert_eq!([bytes[8], bytes[9]], crc.to_le_bytes(), "{line}");
    assert_eq!(bytes.len(), 16 + length.parse::<usize>().expect("a length"), "{line}");
    (crc, bytes[16..].to_vec())
}

#[test]
fn tags_of_other_systems() {
    let tags: Vec<(u16, Vec<u8>)> = include_str!("tags.txt").lines().filter(|line| !line.starts_with('#')).map(tag).collect();
    assert_eq!(tags.len(), 15);
    for (crc, covered) in tags {
        for (name, by) in CRCS.into_iter().chain([("one table", plain::crc as Crc)]) {
            assert_eq!(by(&covered, 0), crc, "{name}: a tag over {} bytes", covered.len());
        }
    }
}

// ---- wrong ones, which the comparisons have to tell

/// A CRC without the bytes after its last word.
fn without_tail(bytes: &[u8], start: u16) -> u16 {
    plain::crc(&bytes[..bytes.len() / 4 * 4], start)
}

/// A CRC that starts at 0 whatever its start, where it has a word.
fn from_0(bytes: &[u8], start: u16) -> u16 {
    plain::crc(bytes, if bytes.len() < 4 { start } else { 0 })
}

/// A CRC that is wrong from 20 bytes on, and in one bit.
fn wrong_from_20(bytes: &[u8], start: u16) -> u16 {
    plain::crc(bytes, start) ^ u16::from(bytes.len() >= 20)
}

/// A CRC that takes words where they are aligned only, and leaves out what stands before them.
fn aligned(bytes: &[u8], start: u16) -> u16 {
    let before = bytes.as_ptr().align_offset(4).min(bytes.len());
    plain::crc(&bytes[before..], start)
}

/// A CRC that counts its bytes in 16 bits.
fn counted_in_16_bits(bytes: &[u8], start: u16) -> u16 {
    plain::crc(&bytes[..usize::from(bytes.len() as u16)], start)
}

#[test]
fn wrong_crcs_are_told() {
    let wrong: [(&str, Crc); 4] =
        [("without tail", without_tail), ("from 0", from_0), ("wrong from 20 on", wrong_from_20), ("aligned", aligned)];
    for crc in wrong {
        assert_ne!(difference(&[crc], &short()), None, "{}", crc.0);
    }
    assert_ne!(difference(&[("counted in 16 bits", counted_in_16_bits)], &long()), None);
}

fn four_steps(crc: u16, word: [u8; 4]) -> u16 {
    plain::crc(&word, crc)
}

#[test]
fn wrong_steps_are_told() {
    let wrong: [(&str, Step); 4] = [
        ("the last byte first", |crc, [a, b, c, d]| four_steps(crc, [d, c, b, a])),
        ("from 0", |_, word| four_steps(0, word)),
        ("one CRC is wrong", |crc, word| four_steps(crc, word) ^ u16::from(crc == 0x8000)),
        ("one value of the third byte is wrong", |crc, word| four_steps(crc, word) ^ u16::from(word[2] == 0x80)),
    ];
    assert_eq!(step_difference(four_steps), None);
    for (name, step) in wrong {
        assert_ne!(step_difference(step), None, "{name}");
    }
}

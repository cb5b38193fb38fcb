//! The fields of structures on a disc: sectors, numbers, and the identifiers of regids.

use tuormik::{DiscRef, SECTOR};

/// The bytes of a sector; none where the disc does not have it.
pub fn sector(disc: DiscRef<'_>, at: usize) -> &[u8] {
    disc.bytes.get(SECTOR * at..SECTOR * (at + 1)).unwrap_or_default()
}

/// A number of so many bytes, the lowest first.
pub fn number_at(bytes: &[u8], at: usize, count: usize) -> u64 {
    bytes.get(at..at + count).map_or(0, |part| part.iter().rev().fold(0, |n, &b| n << 8 | u64::from(b)))
}

/// The identifier of a regid, without the zeros that fill it up.
#[derive(Clone, Copy, PartialEq, Eq)]
pub struct Identifier<'a>(&'a [u8]);

impl<'a> Identifier<'a> {
    /// That of the regid with which the bytes begin.
    pub fn of(regid: &'a [u8]) -> Identifier<'a> {
        let name = regid.get(1..24).unwrap_or_default();
        let end = name.iter().rposition(|&b| b != 0).map_or(0, |last| last + 1);
        Identifier(&name[..end])
    }

    /// Its text, if it is one: printable ASCII, and not empty.
    pub fn text(self) -> Option<&'a str> {
        let is_text = !self.0.is_empty() && self.0.iter().all(|b| (b' '..=b'~').contains(b));
        std::str::from_utf8(self.0).ok().filter(|_| is_text)
    }

    /// What there is, in words: the text, or where it is none the bytes in hexadecimal.
    pub fn words(self) -> String {
        match self.text() {
            Some(text) => format!("the identifier {text}"),
            None if self.0.is_empty() => "no identifier".to_string(),
            None => {
                let bytes: Vec<String> = self.0.iter().map(|b| format!("{b:02x}")).collect();
                format!("the identifier {} (no text)", bytes.join(" "))
            }
        }
    }
}

#[cfg(test)]
mod tests {
    use super::*;

    fn regid(name: &[u8]) -> [u8; 32] {
        let mut regid = [0; 32];
        regid[1..=name.len()].copy_from_slice(name);
        regid[24] = 7;
        regid
    }

    #[test]
    fn identifiers_in_words() {
        let words = |name: &[u8]| Identifier::of(&regid(name)).words();
        assert_eq!(words(b"*UDF Virtual Alloc Tbl"), "the identifier *UDF Virtual Alloc Tbl");
        assert_eq!(words(b"23 bytes and none over."), "the identifier 23 bytes and none over.");
        assert_eq!(words(&[0x2a, 0x4f, 0, 0xff]), "the identifier 2a 4f 00 ff (no text)");
        assert_eq!(words(b"two\nlines"), "the identifier 74 77 6f 0a 6c 69 6e 65 73 (no text)");
        assert_eq!(words(b""), "no identifier");
        assert_eq!(Identifier::of(&[0; 7]).words(), "no identifier");
    }

    #[test]
    fn numbers_have_their_lowest_byte_first() {
        assert_eq!([number_at(&[1, 2, 3], 0, 2), number_at(&[1, 2, 3], 1, 2), number_at(&[1, 2, 3], 2, 2)], [0x201, 0x302, 0]);
        assert_eq!(number_at(&[0xff; 8], 0, 8), u64::MAX);
    }
}

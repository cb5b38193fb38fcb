//! The rules for a VAT ICB (document 01, "The VAT and its ICB"): the first that a sector breaks, in the order of 01 and with the sector's
//! own numbers.

use super::fields::{number_at, sector, Identifier};
use super::words::{counted, grouped};
use tuormik::image::mark_name;
use tuormik::{crc, DiscRef, NONE, RECORDED, SECTOR};

const TAG_IDENTIFIER_AT: usize = 0;
const VERSION_AT: usize = 2;
const CHECKSUM_AT: usize = 4;
const RESERVED_AT: usize = 5;
const CRC_AT: usize = 8;
const CRC_LENGTH_AT: usize = 10;
const LOCATION_AT: usize = 12;
const TAG: usize = 16;

/// The identifier of a File Entry's tag.
pub const FILE_ENTRY: u64 = 261;

const STRATEGY_AT: usize = 20;
pub const FILE_TYPE_AT: usize = 27;
const FORM_AT: usize = 34;
pub const INFORMATION_LENGTH_AT: usize = 56;
const ATTRIBUTE_LENGTH_AT: usize = 168;
const ALLOCATION_LENGTH_AT: usize = 172;
/// Where the attributes begin, and where there are none an embedded file.
pub const ATTRIBUTES_AT: usize = 176;

const SHORT_ADS: u8 = 0;
const EMBEDDED: u8 = 3;
const PAIR: usize = 8;
/// The bits of an extent's length word that must be 0.
const UPPER_TWO: u64 = 0xc000_0000;

const NAME: &str = "*UDF Virtual Alloc Tbl";
const REGID: usize = 32;
/// The regid and the previous ICB, behind the entries.
pub const TAIL: usize = REGID + 4;

/// The first rule that the recorded sector of a logical block breaks, as a clause that goes on from what it is: "whose CRC is .."; none
/// where it is a VAT ICB.
pub fn broken(disc: DiscRef, block: u32) -> Option<String> {
    let icb = Icb { disc, block, bytes: sector(disc, disc.start as usize + block as usize) };
    if icb.bytes.len() != SECTOR {
        return Some("which is not on the disc".to_string());
    }
    icb.keeps_all().err()
}

/// A rule that is kept, or the words for one that is broken.
type Kept = Result<(), String>;

fn rule(is_kept: bool, words: impl FnOnce() -> String) -> Kept {
    if is_kept {
        Ok(())
    } else {
        Err(words())
    }
}

/// What may be a VAT ICB: the bytes of a logical block.
#[derive(Clone, Copy)]
struct Icb<'a> {
    disc: DiscRef<'a>,
    block: u32,
    bytes: &'a [u8],
}

/// An extent of a file: its length word and its first logical block.
#[derive(Clone, Copy)]
struct Extent {
    length: u64,
    block: u64,
}

impl Extent {
    /// One past its last block.
    fn end(self) -> u64 {
        self.block + self.length.div_ceil(SECTOR as u64)
    }
}

impl<'a> Icb<'a> {
    fn keeps_all(self) -> Kept {
        self.keeps_tag()?;
        self.keeps_file_entry()?;
        if self.form() == EMBEDDED {
            self.keeps_embedded()?;
        } else {
            self.keeps_extents()?;
        }
        self.keeps_file()
    }

    fn number(self, at: usize, count: usize) -> u64 {
        number_at(self.bytes, at, count)
    }

    /// The tag: identifier, version, byte 5, CRC length, location, checksum, CRC.
    fn keeps_tag(self) -> Kept {
        let [identifier, version, found_crc, crc_length] =
            [TAG_IDENTIFIER_AT, VERSION_AT, CRC_AT, CRC_LENGTH_AT].map(|at| self.number(at, 2));
        let location = self.number(LOCATION_AT, 4);
        rule(identifier == FILE_ENTRY, || format!("whose tag has identifier {} and not 261", grouped(identifier)))?;
        rule(version == 2, || format!("whose tag has version {} and not 2", grouped(version)))?;
        let reserved = self.bytes[RESERVED_AT];
        rule(reserved == 0, || format!("whose tag has {reserved} in its byte 5 and not 0"))?;
        rule((160..=2032).contains(&crc_length), || format!("whose CRC length is {} and not 160 to 2,032", grouped(crc_length)))?;
        rule(location == self.block.into(), || format!("which is for block {} and stands at block {}", grouped(location), self.own()))?;
        let (checksum, sum) = (self.bytes[CHECKSUM_AT], self.checksum());
        rule(checksum == sum, || format!("whose tag's checksum is {checksum} and should be {sum}"))?;
        let crc = u64::from(crc(&self.bytes[TAG..TAG + crc_length as usize], 0));
        rule(found_crc == crc, || format!("whose CRC is {found_crc:#06x} and should be {crc:#06x}"))
    }

    /// The sum of the tag's bytes but its own.
    fn checksum(self) -> u8 {
        self.bytes[..TAG].iter().fold(0u8, |sum, &b| sum.wrapping_add(b)).wrapping_sub(self.bytes[CHECKSUM_AT])
    }

    /// Its own block, as it is printed.
    fn own(self) -> String {
        grouped(self.block)
    }

    /// Strategy, file type, form, and that attributes and allocation are inside the sector.
    fn keeps_file_entry(self) -> Kept {
        let (strategy, file_type, form) = (self.number(STRATEGY_AT, 2), self.bytes[FILE_TYPE_AT], self.form());
        rule(strategy == 4, || format!("whose strategy is {} and not 4", grouped(strategy)))?;
        rule(file_type == 0, || format!("whose file type is {file_type} and not 0"))?;
        rule([SHORT_ADS, EMBEDDED].contains(&form), || {
            format!("whose file is neither embedded nor in short_ads: the low three bits of byte 34 are {form}, not 3 or 0")
        })?;
        let [attributes, allocation] = [ATTRIBUTE_LENGTH_AT, ALLOCATION_LENGTH_AT].map(|at| self.number(at, 4));
        rule(ATTRIBUTES_AT as u64 + attributes + allocation <= SECTOR as u64, || {
            format!("whose {} of attributes and {} of allocation do not fit its sector", bytes(attributes), bytes(allocation))
        })
    }

    /// How the file is recorded.
    fn form(self) -> u8 {
        self.bytes[FORM_AT] & 7
    }

    /// F.
    fn file_length(self) -> u64 {
        self.number(INFORMATION_LENGTH_AT, 8)
    }

    /// The embedded file, or the list of extents.
    fn allocation(self) -> &'a [u8] {
        let from = ATTRIBUTES_AT + self.number(ATTRIBUTE_LENGTH_AT, 4) as usize;
        &self.bytes[from..from + self.number(ALLOCATION_LENGTH_AT, 4) as usize]
    }

    fn keeps_embedded(self) -> Kept {
        let (length, allocation) = (self.file_length(), self.allocation().len() as u64);
        rule(allocation == length, || format!("whose embedded file of {} has an allocation of {}", bytes(length), bytes(allocation)))
    }

    /// The extents up to the first of length 0.
    fn extents(self) -> impl Iterator<Item = Extent> + 'a {
        let pairs = self.allocation().chunks_exact(PAIR);
        pairs.map(|pair| Extent { length: number_at(pair, 0, 4), block: number_at(pair, 4, 4) }).take_while(|extent| extent.length != 0)
    }

    /// The list of extents: its length, the lengths in it, their sum, and the blocks.
    fn keeps_extents(self) -> Kept {
        let allocation = self.allocation().len();
        rule(allocation.is_multiple_of(PAIR), || format!("whose list of extents has {}, no multiple of 8", bytes(allocation as u64)))?;
        let extents: Vec<Extent> = self.extents().collect();
        for (i, Extent { length, .. }) in extents.iter().enumerate() {
            rule(length & UPPER_TWO == 0, || {
                format!("whose extent {i} has the length {length:#010x}, with one of the upper two bits set")
            })?;
        }
        for (i, Extent { length, .. }) in extents.iter().enumerate().take(extents.len().saturating_sub(1)) {
            let words = || format!("whose extent {i} has {}, no multiple of 2,048, and is not the last", bytes(*length));
            rule(length.is_multiple_of(SECTOR as u64), words)?;
        }
        let (length, sum) = (self.file_length(), extents.iter().map(|extent| extent.length).sum());
        rule(length == sum, || format!("whose file has {} and its extents {}", bytes(length), bytes(sum)))?;
        extents.iter().enumerate().try_for_each(|(i, extent)| self.keeps_blocks(i, *extent))
    }

    /// The blocks of an extent are below the ICB, and recorded.
    fn keeps_blocks(self, i: usize, extent: Extent) -> Kept {
        let last = extent.end() - 1;
        rule(last < self.block.into(), || {
            format!("whose extent {i} goes up to block {}, not below its own block {}", grouped(last), self.own())
        })?;
        for block in extent.block..extent.end() {
            let mark = self.disc.marks[self.disc.start as usize + block as usize];
            rule(mark == RECORDED, || format!("whose extent {i} has block {}, which is {}", grouped(block), mark_name(mark)))?;
        }
        Ok(())
    }

    /// The bytes of the file in turn: all but the last a multiple of 2,048.
    fn parts(self) -> Vec<&'a [u8]> {
        if self.form() == EMBEDDED {
            return vec![self.allocation()];
        }
        let place = |extent: Extent| SECTOR * (self.disc.start as usize + extent.block as usize);
        self.extents().map(|extent| &self.disc.bytes[place(extent)..place(extent) + extent.length as usize]).collect()
    }

    /// The file: its length, its regid, the previous ICB and the entries.
    fn keeps_file(self) -> Kept {
        let length = self.file_length();
        rule(length >= TAIL as u64, || format!("whose file of {} is no VAT file: that has at least 36", bytes(length)))?;
        rule(length.is_multiple_of(4), || format!("whose file of {} is no VAT file: that has 36 and 4 an entry", bytes(length)))?;
        let parts = self.parts();
        let entries = length - TAIL as u64;
        let tail = after(&parts, entries);
        let name = Identifier::of(&tail);
        rule(tail[0] == 0, || format!("whose file has a regid with the flags {:#04x} and not 0", tail[0]))?;
        rule(name.text() == Some(NAME), || format!("whose file has {} where {NAME} should stand", name.words()))?;
        self.keeps_below(number_at(&tail, REGID, 4), || "previous VAT ICB".to_string())?;
        let words = parts.iter().flat_map(|part| part.chunks_exact(4)).map(|word| number_at(word, 0, 4));
        (0..entries / 4).zip(words).try_for_each(|(i, entry)| self.keeps_below(entry, || format!("entry {}", grouped(i))))
    }

    /// What names a block below the ICB, or none.
    fn keeps_below(self, block: u64, what: impl FnOnce() -> String) -> Kept {
        rule(block < self.block.into() || block == NONE.into(), || {
            format!("whose {}, {}, is not below its own block {}", what(), grouped(block), self.own())
        })
    }
}

/// What is left of parts after so many bytes.
fn after(parts: &[&[u8]], count: u64) -> Vec<u8> {
    let mut left = count;
    let mut rest = Vec::new();
    for part in parts {
        let skipped = left.min(part.len() as u64);
        left -= skipped;
        rest.extend_from_slice(&part[skipped as usize..]);
    }
    rest
}

/// So many bytes, in words.
fn bytes(count: u64) -> String {
    counted(usize::try_from(count).unwrap_or(usize::MAX), "byte")
}

#[cfg(test)]
mod tests {
    use super::*;
    use tuormik::{write_maps, Disc, Error, Maps, Open, Record, Refusal, UNREADABLE};

    const START: usize = 3;
    const SECTORS: usize = 24;
    const FILE_AT: usize = ATTRIBUTES_AT;

    /// A disc, and the logical block of what may be its VAT ICB, which is its last sector that is not blank.
    #[derive(Clone)]
    struct Case {
        bytes: Vec<u8>,
        marks: Vec<u8>,
        maps: Vec<u8>,
        block: u32,
    }

    impl Case {
        /// Eight blocks, saved and then committed in a VAT of so many entries, all but the first two unused.
        fn committed(entries: usize) -> Result<Case, Error> {
            let maps = write_maps(&Maps::WriteOnce { partition: 0 })?;
            let (mut bytes, mut marks) = (vec![0; SECTOR * SECTORS], vec![0; SECTORS]);
            let (start, length) = (START as u32, (SECTORS - START) as u32);
            let mut disc = Disc { bytes: &mut bytes, marks: &mut marks, maps: &maps, start, length };
            disc.make(&[])?;
            let mut open = disc.open()?;
            for v in 0..8 {
                open.save_virtual(v, &[7; SECTOR])?;
            }
            let [kind, _, next, last, passed] = open.record().numbers();
            let table: Vec<u32> = [1, 8].into_iter().chain(std::iter::repeat(NONE)).take(entries).collect();
            let mut open = Open::resume(open.close(), &table, Record::from_numbers([kind, entries as u32, next, last, passed]));
            open.commit()?;
            let block = open.record().numbers()[3];
            Ok(Case { bytes, marks, maps, block })
        }

        /// The file of 5 entries in the ICB, behind attributes.
        fn embedded() -> Result<Case, Error> {
            let mut case = Case::committed(5)?;
            let file = case.icb()[FILE_AT..FILE_AT + 56].to_vec();
            case.put(ATTRIBUTE_LENGTH_AT, &8u32.to_le_bytes());
            case.put(FILE_AT + 8, &file);
            Ok(case.signed())
        }

        /// The file of 600 entries in two extents apart, behind attributes, and a pair behind the end of the list.
        fn scattered() -> Result<Case, Error> {
            let mut case = Case::committed(600)?;
            for (from, to) in [(9, 6), (10, 2)] {
                case.bytes.copy_within(SECTOR * (START + from)..SECTOR * (START + from + 1), SECTOR * (START + to));
            }
            case.put(ATTRIBUTE_LENGTH_AT, &16u32.to_le_bytes());
            case.put_extents(FILE_AT + 16, &[(2048, 6), (388, 2), (0, 77), (77, 77)]);
            Ok(case.signed())
        }

        /// A file of 4,097 entries: extents that overlap.
        fn too_many() -> Result<Case, Error> {
            let mut case = Case::committed(600)?;
            let last = 4 * 87;
            case.put_extents(FILE_AT, &[[(2048, 9); 8].as_slice(), &[(40, 2)]].concat());
            let tail = case.bytes[SECTOR * (START + 10) + last..][..40].to_vec();
            case.bytes[SECTOR * (START + 2)..][..40].copy_from_slice(&tail);
            case.put(INFORMATION_LENGTH_AT, &(8 * 2048 + 40u64).to_le_bytes());
            Ok(case.signed())
        }

        fn icb(&self) -> &[u8] {
            &self.bytes[SECTOR * (START + self.block as usize)..][..SECTOR]
        }

        fn put(&mut self, at: usize, bytes: &[u8]) {
            let from = SECTOR * (START + self.block as usize) + at;
            self.bytes[from..from + bytes.len()].copy_from_slice(bytes);
        }

        /// Adds to a field of so many bytes.
        fn add(&mut self, (at, count): (usize, usize), more: u64) {
            let value = number_at(self.icb(), at, count).wrapping_add(more);
            self.put(at, &value.to_le_bytes()[..count]);
        }

        fn put_extents(&mut self, at: usize, extents: &[(u32, u32)]) {
            self.put(ALLOCATION_LENGTH_AT, &(PAIR as u32 * extents.len() as u32).to_le_bytes());
            for (i, (length, block)) in extents.iter().enumerate() {
                self.put(at + PAIR * i, &[length.to_le_bytes(), block.to_le_bytes()].concat());
            }
        }

        /// With the CRC and the checksum that it should have.
        fn signed(mut self) -> Case {
            let length = number_at(self.icb(), CRC_LENGTH_AT, 2) as usize;
            if let Some(covered) = self.icb()[TAG..].get(..length) {
                let crc = crc(covered, 0);
                self.put(CRC_AT, &crc.to_le_bytes());
            }
            let sum = self.to_test().checksum();
            self.put(CHECKSUM_AT, &[sum]);
            self
        }

        /// The disc, which ends with the ICB.
        fn disc(&self) -> DiscRef<'_> {
            DiscRef { bytes: &self.bytes, marks: &self.marks, maps: &self.maps, start: START as u32, length: self.block + 1 }
        }

        fn to_test(&self) -> Icb<'_> {
            Icb { disc: self.disc(), block: self.block, bytes: self.icb() }
        }

        fn broken(&self) -> Option<String> {
            broken(self.disc(), self.block)
        }

        /// Whether the layer takes it for a VAT ICB, as one of too many entries is too. Where it does not, it may find the one at block 0.
        fn is_taken(&self) -> bool {
            match self.disc().open() {
                Ok(open) => open.record().passed_over == 0,
                Err(Error::Refused(Refusal::TooManyEntries)) => true,
                Err(Error::Refused(Refusal::NoTable)) => false,
                Err(other) => panic!("{other}"),
            }
        }
    }

    /// Numbers that look drawn at random, always the same from a seed.
    struct Draw(u64);

    impl Draw {
        fn below(&mut self, n: usize) -> usize {
            self.0 = self.0.wrapping_mul(6_364_136_223_846_793_005).wrapping_add(1_442_695_040_888_963_407);
            (self.0 >> 33) as usize % n
        }

        /// From -16 to 16, to be added.
        fn near_zero(&mut self) -> u64 {
            (self.below(33) as u64).wrapping_sub(16)
        }
    }

    /// The fields of an ICB that a rule names, with their bytes.
    const FIELDS: [(usize, usize); 13] = [
        (TAG_IDENTIFIER_AT, 2),
        (VERSION_AT, 2),
        (CHECKSUM_AT, 1),
        (RESERVED_AT, 1),
        (CRC_AT, 2),
        (CRC_LENGTH_AT, 2),
        (LOCATION_AT, 4),
        (STRATEGY_AT, 2),
        (FILE_TYPE_AT, 1),
        (FORM_AT, 1),
        (INFORMATION_LENGTH_AT, 8),
        (ATTRIBUTE_LENGTH_AT, 4),
        (ALLOCATION_LENGTH_AT, 4),
    ];

    /// Changes something: a bit of the ICB, a field, two fields that go together, a byte or an entry of another block, a mark.
    fn change(case: &mut Case, draw: &mut Draw) {
        let [attributes, allocation] = [ATTRIBUTE_LENGTH_AT, ALLOCATION_LENGTH_AT].map(|at| number_at(case.icb(), at, 4) as usize);
        let list = (FILE_AT + attributes).min(SECTOR - 2 * PAIR);
        let another = SECTOR * (START + draw.below(case.block as usize));
        match draw.below(7) {
            0 | 1 => {
                let at = draw.below((list + allocation + PAIR).min(SECTOR));
                let byte = case.icb()[at] ^ 1 << draw.below(8);
                case.put(at, &[byte]);
            }
            2 => {
                let fields = [&FIELDS[..], &[(list, 4), (list + 4, 4)]].concat();
                case.add(fields[draw.below(fields.len())], draw.near_zero());
            }
            3 => {
                let (more, length) = (draw.near_zero(), (INFORMATION_LENGTH_AT, 8));
                let together = [
                    (length, (ALLOCATION_LENGTH_AT, 4), more),
                    (length, (list, 4), more),
                    ((list, 4), (list + PAIR, 4), more.wrapping_neg()),
                ];
                let (one, other, other_more) = together[draw.below(together.len())];
                case.add(one, more);
                case.add(other, other_more);
            }
            4 => case.bytes[another + draw.below(SECTOR)] = draw.below(256) as u8,
            5 => case.bytes[another + 4 * draw.below(SECTOR / 4)..][..4].copy_from_slice(&(draw.below(20) as u32).to_le_bytes()),
            _ => case.marks[START + 1 + draw.below(case.block as usize - 1)] = draw.below(3) as u8,
        }
    }

    /// A sector breaks a rule exactly if the layer does not take it for a VAT ICB.
    #[test]
    fn as_the_layer_takes_it() -> Result<(), Error> {
        let cases =
            [Case::committed(5)?, Case::embedded()?, Case::committed(458)?, Case::committed(600)?, Case::scattered()?, Case::too_many()?];
        for (seed, good) in cases.iter().enumerate() {
            assert_eq!((good.broken(), good.is_taken()), (None, true), "case {seed}");
            let mut draw = Draw(seed as u64);
            let mut counts = [0; 2];
            for round in 0..10_000 {
                let mut case = good.clone();
                for _ in 0..=draw.below(2) {
                    change(&mut case, &mut draw);
                }
                let case = if round % 2 == 0 { case.signed() } else { case };
                let (broken, is_taken) = (case.broken(), case.is_taken());
                assert_eq!(broken.is_none(), is_taken, "case {seed}, round {round}: {broken:?}");
                counts[usize::from(is_taken)] += 1;
            }
            assert!(counts.iter().all(|&count| count > 100), "case {seed}: {counts:?}");
        }
        Ok(())
    }

    /// The words for a case that is changed, and then signed.
    fn words(case: &Case, change: impl FnOnce(&mut Case)) -> String {
        let mut case = case.clone();
        change(&mut case);
        let case = case.signed();
        assert!(!case.is_taken());
        case.broken().expect("a broken rule")
    }

    /// The words for a case with other bytes in its ICB.
    fn words_with(case: &Case, at: usize, bytes: &[u8]) -> String {
        words(case, |case| case.put(at, bytes))
    }

    #[test]
    fn the_tag_in_words() -> Result<(), Error> {
        let case = Case::committed(5)?;
        assert_eq!(words_with(&case, TAG_IDENTIFIER_AT, &[6]), "whose tag has identifier 262 and not 261");
        assert_eq!(words_with(&case, VERSION_AT, &[3]), "whose tag has version 3 and not 2");
        assert_eq!(words_with(&case, RESERVED_AT, &[7]), "whose tag has 7 in its byte 5 and not 0");
        assert_eq!(words_with(&case, CRC_LENGTH_AT, &[159]), "whose CRC length is 159 and not 160 to 2,032");
        assert_eq!(words_with(&case, CRC_LENGTH_AT, &[0xf1, 7]), "whose CRC length is 2,033 and not 160 to 2,032");
        assert_eq!(words_with(&case, LOCATION_AT, &[7]), "which is for block 7 and stands at block 9");
        let sum = case.icb()[CHECKSUM_AT];
        let mut other = case.clone();
        other.put(CHECKSUM_AT, &[!sum]);
        assert_eq!(other.broken(), Some(format!("whose tag's checksum is {} and should be {sum}", !sum)));
        // a CRC of which only the bytes' order is wrong has the same sum
        let mut other = case.clone();
        let crc = [case.icb()[CRC_AT], case.icb()[CRC_AT + 1]];
        other.put(CRC_AT, &[crc[1], crc[0]]);
        let [found, right] = [u16::from_be_bytes(crc), u16::from_le_bytes(crc)];
        assert_eq!(other.broken(), Some(format!("whose CRC is {found:#06x} and should be {right:#06x}")));
        assert_eq!(broken(case.disc(), 1000), Some("which is not on the disc".to_string()));
        Ok(())
    }

    #[test]
    fn an_embedded_file_in_words() -> Result<(), Error> {
        let case = Case::committed(5)?;
        let tail = FILE_AT + 20;
        assert_eq!(words_with(&case, STRATEGY_AT, &[0, 16]), "whose strategy is 4,096 and not 4");
        assert_eq!(words_with(&case, FILE_TYPE_AT, &[5]), "whose file type is 5 and not 0");
        let form = "whose file is neither embedded nor in short_ads: the low three bits of byte 34 are 1, not 3 or 0";
        assert_eq!(words_with(&case, FORM_AT, &[0x79]), form);
        let fit = "whose 2,000 bytes of attributes and 56 bytes of allocation do not fit its sector";
        assert_eq!(words_with(&case, ATTRIBUTE_LENGTH_AT, &[0xd0, 7]), fit);
        let length = "whose embedded file of 60 bytes has an allocation of 56 bytes";
        assert_eq!(words_with(&case, INFORMATION_LENGTH_AT, &[60]), length);
        for (length, says) in
            [(32, "of 32 bytes is no VAT file: that has at least 36"), (54, "of 54 bytes is no VAT file: that has 36 and 4 an entry")]
        {
            let short = words(&case, |case| {
                case.put(INFORMATION_LENGTH_AT, &[length]);
                case.put(ALLOCATION_LENGTH_AT, &[length]);
            });
            assert_eq!(short, format!("whose file {says}"));
        }
        assert_eq!(words_with(&case, tail, &[1]), "whose file has a regid with the flags 0x01 and not 0");
        let mut name = [0; 23];
        assert_eq!(words_with(&case, tail + 1, &name), "whose file has no identifier where *UDF Virtual Alloc Tbl should stand");
        name[..4].copy_from_slice(&[0x2a, 0x4f, 0, 0xff]);
        let no_text = "whose file has the identifier 2a 4f 00 ff (no text) where *UDF Virtual Alloc Tbl should stand";
        assert_eq!(words_with(&case, tail + 1, &name), no_text);
        assert_eq!(words_with(&case, tail + REGID, &[9, 0, 0, 0]), "whose previous VAT ICB, 9, is not below its own block 9");
        assert_eq!(words_with(&case, FILE_AT + 12, &[120, 0, 0, 0]), "whose entry 3, 120, is not below its own block 9");
        Ok(())
    }

    #[test]
    fn extents_in_words() -> Result<(), Error> {
        let case = Case::committed(600)?;
        assert_eq!(words_with(&case, ALLOCATION_LENGTH_AT, &[12]), "whose list of extents has 12 bytes, no multiple of 8");
        let upper = "whose extent 0 has the length 0x40000984, with one of the upper two bits set";
        assert_eq!(words_with(&case, FILE_AT + 3, &[0x40]), upper);
        let scattered = Case::scattered()?;
        let multiple = "whose extent 0 has 2,000 bytes, no multiple of 2,048, and is not the last";
        assert_eq!(words_with(&scattered, FILE_AT + 16, &[0xd0, 7]), multiple);
        assert_eq!(words_with(&case, INFORMATION_LENGTH_AT, &[0x88]), "whose file has 2,440 bytes and its extents 2,436 bytes");
        assert_eq!(words_with(&case, FILE_AT, &[0; 4]), "whose file has 2,436 bytes and its extents 0 bytes");
        assert_eq!(words_with(&case, FILE_AT + 4, &[10]), "whose extent 0 goes up to block 11, not below its own block 11");
        for (mark, name) in [(UNREADABLE, "unreadable"), (tuormik::BLANK, "blank")] {
            let unread = words(&scattered, |case| case.marks[START + 2] = mark);
            assert_eq!(unread, format!("whose extent 1 has block 2, which is {name}"));
        }
        for (entry, place) in [(511, 4 * 511), (512, 2048)] {
            let outside = words(&case, |case| case.bytes[SECTOR * (START + 9) + place..][..4].copy_from_slice(&[11, 0, 0, 0]));
            assert_eq!(outside, format!("whose entry {entry}, 11, is not below its own block 11"));
        }
        Ok(())
    }
}

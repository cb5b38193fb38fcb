//! The power cut at every sector write of a commit, of a sparing, and of a second sparing of the same packet, on discs in memory.

use super::args::{Args, EFFECTS};
use super::entry::Entry;
use super::output::Outputs;
use super::refused::{self, Asked};
use super::room::commit_sectors;
use super::words::grouped;
use super::{Done, Failure};
use tuormik::{write_maps, Cut, Disc, Effect, Error, Maps, Open, BLANK, DEFECTIVE, NONE, PACKET, SECTOR};

/// A disc in memory.
#[derive(Clone)]
struct Memory {
    bytes: Vec<u8>,
    marks: Vec<u8>,
    maps: Vec<u8>,
    start: u32,
    length: u32,
}

impl Memory {
    fn new(sectors: usize, start: u32, length: u32, maps: &Maps) -> Result<Memory, Failure> {
        let maps = write_maps(maps).map_err(|error| refused::by_maps(maps, error))?;
        Ok(Memory { bytes: vec![0; SECTOR * sectors], marks: vec![BLANK; sectors], maps, start, length })
    }

    fn disc(&mut self) -> Disc<'_> {
        Disc { bytes: &mut self.bytes, marks: &mut self.marks, maps: &self.maps, start: self.start, length: self.length }
    }

    fn make(&mut self, spares: &[u32]) -> Done {
        let mut disc = self.disc();
        let answer = disc.make(spares);
        answer.map_err(|error| refused::by_making(disc.to_read(), spares, error))
    }

    /// What a disc here is turned down by has no words of its own: each is made to be opened.
    fn open(&mut self) -> Result<Open<'_>, Failure> {
        self.disc().open().map_err(|error| Failure::File(error.to_string()))
    }
}

/// The bytes that block v gets in its nth version.
fn block(v: u32, version: u32) -> [u8; SECTOR] {
    let mut bytes = [0; SECTOR];
    let text = format!("block {v}, version {version}\n");
    for (to, from) in bytes.iter_mut().zip(text.bytes().cycle()) {
        *to = from;
    }
    bytes
}

pub const ENTRY: Entry = Entry {
    name: "demo",
    line: "the power cut at every write of a commit and of two sparings",
    usage: &[""],
    about: "\
Makes discs in memory, cuts the power at every sector write of a commit, of a sparing, and of a second sparing of the same packet in \
turn, with each effect, opens the disc again and reads every block. Writes that came to the same are told in one line. Of the \
write-once disc it tells how many sectors opening passed over, and how many sector writes were begun since the last whole VAT ICB; of \
the rewritable one where the packet is. A sparing is done exactly if a new copy of the sparing table is whole.
",
    choices: &[],
    takes_volume: false,
    writes: None,
    run: demo,
};

fn demo(args: &mut Args, out: &mut Outputs) -> Done {
    args.end()?;
    let committed = commit_demo(out)?;
    out.line("");
    let spared = sparing_demo(out)?;
    out.line("");
    let spared_again = second_sparing_demo(out)?;
    out.line("");
    let all = [committed, spared, spared_again];
    if let Some(words) = all.iter().find_map(Came::fault) {
        return Err(Failure::File(words.into()));
    }
    let cuts: usize = all.iter().map(|came| came.cuts).sum();
    out.line(format_args!("{} cuts. Every block was found again after every cut.", grouped(cuts)));
    out.line(format_args!("A sparing was done exactly if a new copy of the sparing table was whole."));
    out.line(format_args!("No opening passed over more sectors than writes were begun since the last whole VAT ICB."));
    Ok(())
}

/// What a disc has when it is opened again.
struct Found {
    /// the version in which all blocks are found that the call was to change, where the table says of them what goes with it
    version: Option<u32>,
    passed_over: u32,
    /// the sector writes begun since the last whole VAT ICB; none where there are no VATs
    begun: u32,
    words: String,
}

/// A call with the power cut at one of its writes, and the disc opened again.
struct Tried {
    /// the cut, and what becomes of its write in words; none where the call was done
    cut: Option<(Cut, &'static str)>,
    found: Found,
}

/// How a call came through all its cuts.
struct Came {
    /// Whether every block was found again, in the version that it has to be in.
    are_found: bool,
    /// Whether no opening passed over more sectors than writes were begun.
    is_bounded: bool,
    cuts: usize,
}

impl Came {
    /// What is wrong, if anything is.
    fn fault(&self) -> Option<&'static str> {
        match self {
            Came { are_found: false, .. } => Some("a block was not found again, or not as it should be"),
            Came { is_bounded: false, .. } => {
                Some("an opening passed over more sectors than writes were begun since the last whole VAT ICB")
            }
            _ => None,
        }
    }
}

/// Whether a write becomes whole in a call with this cut.
fn is_whole(write: u32, cut: Cut) -> bool {
    write < cut.at || cut == Cut::at(write, Effect::Whole)
}

/// Runs a call with a cut at each of its writes in turn, each with every effect, until a cut is past the last write.
fn every_cut(mut call: impl FnMut(Cut) -> Result<(Result<(), Error>, Found), Failure>) -> Result<Vec<Tried>, Failure> {
    let mut all = Vec::new();
    for at in 1.. {
        for (effect, name) in EFFECTS {
            let cut = Cut::at(at, effect);
            let (answer, found) = call(cut)?;
            let is_done = answer.is_ok();
            all.push(Tried { cut: (!is_done).then_some((cut, name)), found });
            if is_done {
                return Ok(all);
            }
        }
    }
    Ok(all)
}

/// Tells the cuts, writes that came to the same in one line, and whether each came to the version that it has to: 2 where the deciding
/// write is whole, 1 before.
fn tell(out: &mut Outputs, call: &str, all: &[Tried], deciding: u32) -> Came {
    let decided = |tried: &Tried| tried.cut.is_none_or(|(cut, _)| is_whole(deciding, cut));
    let are_found = all.iter().all(|tried| tried.found.version == Some(if decided(tried) { 2 } else { 1 }));
    let is_bounded = all.iter().all(|tried| tried.found.passed_over <= tried.found.begun);
    let (cuts, done) = all.split_at(all.len().saturating_sub(1));
    let writes: Vec<&[Tried]> = cuts.chunks(EFFECTS.len()).collect();
    let mut first = 1;
    for alike in writes.chunk_by(|a, b| a.iter().map(|t| &t.found.words).eq(b.iter().map(|t| &t.found.words))) {
        let last = first + alike.len() - 1;
        for tried in alike[0] {
            let becomes = tried.cut.map_or("", |(_, name)| name);
            let what = if first == last {
                format!("the power fails at write {first}, which becomes {becomes}")
            } else {
                format!("the power fails at each of writes {first} to {last}, which becomes {becomes}")
            };
            out.line(format_args!("  {what:<72} opened: {}", tried.found.words));
        }
        first = last + 1;
    }
    for tried in done {
        out.line(format_args!("  {:<72} opened: {}", format!("no cut: the {call} was done"), tried.found.words));
    }
    Came { are_found, is_bounded, cuts: cuts.len() }
}

/// What an answer other than done and cut is.
fn only_cut(open: &Open, asked: Asked, answer: Result<(), Error>) -> Result<Result<(), Error>, Failure> {
    match answer {
        Ok(()) | Err(Error::Cut) => Ok(answer),
        Err(other) => Err(refused::by_call(open, asked, other)),
    }
}

/// The version that all of these blocks are found in; none where they are not all of one.
fn version_of(open: &Open, blocks: std::ops::Range<u32>) -> Option<u32> {
    [2, 1].into_iter().find(|&version| blocks.clone().all(|v| open.read(v).is_ok_and(|bytes| bytes == block(v, version))))
}

fn commit_demo(out: &mut Outputs) -> Result<Came, Failure> {
    const COUNT: u32 = 600;
    let mut memory = Memory::new(1600, 32, 1500, &Maps::WriteOnce { partition: 0 })?;
    memory.make(&[])?;
    let mut open = memory.open()?;
    // the sector writes since the last whole VAT ICB
    let mut saves = 0;
    for version in [1, 2] {
        for v in 0..COUNT {
            let answer = open.save_virtual(v, &block(v, version));
            answer.map_err(|error| refused::by_call(&open, Asked::SaveVirtual(v), error))?;
            saves += 1;
        }
        if version == 1 {
            open.commit().map_err(|error| refused::by_call(&open, Asked::Commit, error))?;
            saves = 0;
        }
    }
    // its ICB is the last
    let writes = commit_sectors(COUNT as usize) as u32;
    let (table, record) = (open.table().to_vec(), open.record());
    let _ = open.close();
    let all = every_cut(|cut| {
        let mut tried = memory.clone();
        // the saves again would be found only after a commit, so the commit runs with the record and the table of the saves
        let mut open = Open::resume(tried.disc(), &table, record);
        let answer = open.commit_cut(cut);
        let answer = only_cut(&open, Asked::Commit, answer)?;
        let _ = open.close();
        let open = tried.open()?;
        let (version, passed_over) = (version_of(&open, 0..COUNT), open.record().passed_over);
        let begun = if is_whole(writes, cut) { 0 } else { saves + cut.at };
        let words = match version {
            Some(version) => {
                let passed = format!("passed over {} of {} writes begun", grouped(passed_over), grouped(begun));
                format!("{COUNT} of {COUNT} blocks, version {version}, {passed}")
            }
            None => "blocks are lost".to_string(),
        };
        Ok((answer, Found { version, passed_over, begun, words }))
    })?;
    out.line(format_args!(
        "A write-once disc: {COUNT} blocks saved and committed. Then each is saved again, and the commit of these, {writes} writes, \
         is cut."
    ));
    Ok(tell(out, "commit", &all, writes))
}

fn packet(b: u32, version: u32) -> Vec<u8> {
    (b..b + PACKET as u32).flat_map(|i| block(i, version)).collect()
}

/// The rewritable disc of the sparings: its blocks, the packet that is spared, and its two spares.
const LENGTH: u32 = 64;
const SPARED: u32 = 32;
const SPARES: [u32; 2] = [96, 128];

/// That disc with its blocks in version 1.
fn rewritable() -> Result<Memory, Failure> {
    let maps = Maps::Rewritable { partition: 0, table_bytes: 2048, tables: vec![0, 32, 64] };
    let mut memory = Memory::new(320, 192, LENGTH, &maps)?;
    memory.make(&SPARES)?;
    let mut open = memory.open()?;
    for b in (0..LENGTH).step_by(PACKET) {
        let answer = open.save_packet(b, &packet(b, 1));
        answer.map_err(|error| refused::by_call(&open, Asked::SavePacket(b), error))?;
    }
    let _ = open.close();
    Ok(memory)
}

/// Where the packet is, as the whole sparing table says.
#[derive(Clone, Copy, Debug, PartialEq, Eq)]
enum Place {
    Own,
    FirstSpare,
    /// and the first spare is defective
    SecondSpare,
    Wrong,
}

impl Place {
    fn of_table(table: &[u32]) -> Place {
        let [first, second] = SPARES;
        if table == [NONE, first, NONE, second] {
            Place::Own
        } else if table == [SPARED, first, NONE, second] {
            Place::FirstSpare
        } else if table == [SPARED, second, DEFECTIVE, first] {
            Place::SecondSpare
        } else {
            Place::Wrong
        }
    }

    fn words(self) -> &'static str {
        match self {
            Place::Own => "in their own place",
            Place::FirstSpare => "in the first spare",
            Place::SecondSpare => "in the second spare; the first is defective",
            Place::Wrong => "with a sparing table that is wrong",
        }
    }
}

/// Spares the packet in version 2 with a cut at each write. It has to be at the first of these places in version 1, at the second in
/// version 2.
fn spare_with_cuts(memory: &Memory, places: [Place; 2]) -> Result<Vec<Tried>, Failure> {
    let bytes = packet(SPARED, 2);
    every_cut(|cut| {
        let mut tried = memory.clone();
        let mut open = tried.open()?;
        let answer = open.spare_packet_cut(SPARED, &bytes, cut);
        let answer = only_cut(&open, Asked::SparePacket(SPARED, bytes.len()), answer)?;
        let _ = open.close();
        let open = tried.open()?;
        let version = version_of(&open, SPARED..LENGTH).filter(|_| version_of(&open, 0..SPARED) == Some(1));
        let place = Place::of_table(open.table());
        let words = match version {
            Some(version) => format!("{LENGTH} of {LENGTH} blocks, those of the packet in version {version}, {}", place.words()),
            None => "blocks are lost".to_string(),
        };
        let version = version.filter(|&version| places[version as usize - 1] == place);
        Ok((answer, Found { version, passed_over: open.record().passed_over, begun: 0, words }))
    })
}

/// A table of the new sequence is whole from the write after the packet's on.
const TABLE_WRITE: u32 = PACKET as u32 + 1;

fn sparing_demo(out: &mut Outputs) -> Result<Came, Failure> {
    let all = spare_with_cuts(&rewritable()?, [Place::Own, Place::FirstSpare])?;
    let writes = all.len() / EFFECTS.len();
    out.line(format_args!(
        "A rewritable disc: {LENGTH} blocks, three sparing tables, two spares. The packet of block {SPARED} is spared, and the sparing, \
         {writes} writes, is cut."
    ));
    Ok(tell(out, "sparing", &all, TABLE_WRITE))
}

fn second_sparing_demo(out: &mut Outputs) -> Result<Came, Failure> {
    let mut memory = rewritable()?;
    let mut open = memory.open()?;
    let bytes = packet(SPARED, 1);
    let answer = open.spare_packet(SPARED, &bytes);
    answer.map_err(|error| refused::by_call(&open, Asked::SparePacket(SPARED, bytes.len()), error))?;
    let _ = open.close();
    let all = spare_with_cuts(&memory, [Place::FirstSpare, Place::SecondSpare])?;
    let writes = all.len() / EFFECTS.len();
    out.line(format_args!(
        "The same disc, and the packet of block {SPARED} is spared already. It is spared again, and this sparing, {writes} writes, is cut."
    ));
    Ok(tell(out, "second sparing", &all, TABLE_WRITE))
}

#[cfg(test)]
mod tests {
    use super::*;

    /// What is wrong with a commit of one write that came to these versions, and passed over so many where so many were begun.
    fn fault(found: [(u32, u32, u32); 4]) -> Option<&'static str> {
        let cuts = EFFECTS.map(|(effect, name)| Some((Cut::at(1, effect), name))).into_iter().chain([None]);
        let tried = |(cut, (version, passed_over, begun))| Tried {
            cut,
            found: Found { version: Some(version), passed_over, begun, words: String::new() },
        };
        let all: Vec<Tried> = cuts.zip(found).map(tried).collect();
        let came = tell(&mut Outputs::new(Vec::new(), Vec::new()), "commit", &all, 1);
        assert_eq!(came.cuts, 3);
        came.fault()
    }

    /// A table is right as a whole: what stands in another order, or says free for defective, is wrong.
    #[test]
    fn places_of_the_packet() {
        let place = |table: [u32; 4]| Place::of_table(&table);
        assert_eq!([place([NONE, 96, NONE, 128]), place([32, 96, NONE, 128])], [Place::Own, Place::FirstSpare]);
        assert_eq!(place([32, 128, DEFECTIVE, 96]), Place::SecondSpare);
        for table in [[32, 128, NONE, 96], [32, 96, DEFECTIVE, 128], [DEFECTIVE, 96, 32, 128], [32, 128, 32, 96], [0, 128, DEFECTIVE, 96]] {
            assert_eq!(place(table), Place::Wrong);
        }
    }

    #[test]
    fn each_fault_has_its_words() {
        assert_eq!(fault([(1, 7, 8), (1, 8, 8), (2, 0, 0), (2, 0, 0)]), None);
        assert_eq!(fault([(1, 7, 8), (2, 8, 8), (2, 0, 0), (2, 0, 0)]), Some("a block was not found again, or not as it should be"));
        for found in [[(1, 9, 8), (1, 8, 8), (2, 0, 0), (2, 0, 0)], [(1, 7, 8), (1, 8, 8), (2, 0, 0), (2, 1, 0)]] {
            assert!(fault(found).is_some_and(|words| words.starts_with("an opening passed over more sectors")), "{found:?}");
        }
    }
}

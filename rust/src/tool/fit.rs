//! Whether saves and commits fit on a write-once disc, asked before they are made (document 02, slip 9).

use super::args::Args;
use super::commits;
use super::entry::Entry;
use super::images::load_next;
use super::output::Outputs;
use super::refused::{self, Asked};
use super::room::{commit_sectors, Room};
use super::states::View;
use super::words::{counted, grouped, joined, number};
use super::{Done, Failure};
use tuormik::{Error, Forecast, Held, Record, Refusal, COMMIT, MOST_ENTRIES};

/// The item that a call is in a list to be forecast. A block number that would be a commit there is outside as it is.
fn item(call: &Asked) -> u32 {
    match call {
        Asked::Commit => COMMIT,
        save => save.number().min(COMMIT - 1),
    }
}

/// What calls would come to.
pub enum Told {
    /// All are carried out, and leave NWA and N.
    Fits { next: u32, entries: u32 },
    /// One, by its index, is refused, with the case in a sentence.
    Stops { index: usize, words: String, why: Refusal },
}

/// Asks the layer what saves and commits would come to on an open disc.
pub fn ask(open: View, forecast: impl Fn(&[u32]) -> Result<Forecast, Error>, calls: &[Asked]) -> Result<Told, Failure> {
    let items: Vec<u32> = calls.iter().map(item).collect();
    let asked = |items: &[u32]| forecast(items).map_err(|error| refused::by_call(open, Asked::Forecast, error));
    let (index, why) = match asked(&items)? {
        Forecast::Fits { next, entries } => return Ok(Told::Fits { next, entries }),
        Forecast::Stops { index, why } => (index as usize, why),
    };
    // the sentence has the numbers of the disc as the items before leave it
    let mut then = open;
    if let (Forecast::Fits { next, entries }, Held::WriteOnce { last, .. }) = (asked(&items[..index])?, open.record.held) {
        then.record = Record { held: Held::WriteOnce { entries, next, last }, ..open.record };
    }
    match refused::by_call(then, calls[index], Error::Refused(why)) {
        Failure::Refused(words, why) => Ok(Told::Stops { index, words, why }),
        other => Err(other),
    }
}

/// The calls of a command line, and how many blocks the disc has come to after them.
struct Calls {
    calls: Vec<Asked>,
    entries: u32,
}

impl Calls {
    /// Adds what a word stands for: a block number, `new`, `new*COUNT` or `commit`.
    fn add(&mut self, word: &str) -> Done {
        let wrong = || Failure::Usage(format!("ITEM: {word} is no block number, and not new, new*COUNT or commit"));
        match (word, word.strip_prefix("new")) {
            ("commit", _) => self.calls.push(Asked::Commit),
            (_, Some("")) => self.save(self.entries),
            (_, Some(times)) => {
                let count = times.strip_prefix('*').and_then(number).ok_or_else(wrong)?;
                // of more than a disc holds the first too many is refused, whatever follows
                for _ in 0..count.min(MOST_ENTRIES as u32 + 1) {
                    self.save(self.entries);
                }
            }
            (_, None) => self.save(number(word).ok_or_else(wrong)?),
        }
        Ok(())
    }

    fn save(&mut self, v: u32) {
        self.calls.push(Asked::SaveVirtual(v));
        self.entries += u32::from(v == self.entries);
    }
}

pub const ENTRY: Entry = Entry {
    name: "fit",
    line: "whether saves and commits fit, before they are made",
    usage: &["IMAGE ITEM.."],
    about: "\
Tells whether a list of saves and commits fits on a write-once disc, in this order, and what it takes and leaves; the image is only \
read. Where it does not fit the message names the first item that would be refused, counted from 0, and why. Each ITEM is
  NUMBER               a save of that block
  new                  a save of a new block; 'new*40', in quotes for the shell, stands for 40 of them
  commit               a commit
It is the forecast of a run in which the power does not fail. That the bytes of a block would pass as a VAT ICB (01, line 15) is not \
foreseen.
",
    choices: &[],
    takes_volume: true,
    writes: None,
    run: fit,
};

fn fit(args: &mut Args, out: &mut Outputs) -> Done {
    let image = load_next(args)?;
    let words: Vec<String> = std::iter::from_fn(|| args.next_word()).map(|word| word.to_string_lossy().into_owned()).collect();
    if words.is_empty() {
        return Err(Failure::Usage("ITEM is missing: a block number, new, new*COUNT or commit".into()));
    }
    let open = commits::open_and_tell(&image, out)?;
    let view = View::from(&open);
    let mut list = Calls { calls: Vec::new(), entries: view.record.entries() };
    words.iter().try_for_each(|word| list.add(word))?;
    let calls = list.calls;
    match ask(view, |items| open.forecast(items), &calls)? {
        Told::Fits { next, entries } => {
            out.line(takes_words(view, &calls, next));
            out.text(leaves_words(view, &calls, next, entries));
            Ok(())
        }
        Told::Stops { index, words, why } => {
            let call = match calls[index] {
                Asked::Commit => "commit".to_string(),
                save => format!("save {}", grouped(save.number())),
            };
            let after = match index {
                0 => String::new(),
                1 => ", after the one before it".to_string(),
                n => format!(", after the {} before it", grouped(n)),
            };
            Err(Failure::Refused(format!("item {} ({call}){after}: {words}", grouped(index)), why))
        }
    }
}

/// What calls that fit take: NWA is `next` after them.
pub fn takes_words(open: View, calls: &[Asked], next: u32) -> String {
    let Held::WriteOnce { next: before, .. } = open.record.held else {
        return String::new();
    };
    let commits = calls.iter().filter(|call| matches!(call, Asked::Commit)).count();
    let counts = [(calls.len() - commits, "save"), (commits, "commit")];
    let parts: Vec<String> = counts.iter().filter(|(n, _)| *n > 0).map(|(n, thing)| counted(*n, thing)).collect();
    let what = if parts.is_empty() { "an empty list".to_string() } else { joined(&parts) };
    format!("fits: {} for {what}", counted(next.saturating_sub(before) as usize, "sector"))
}

/// And what they leave.
fn leaves_words(open: View, calls: &[Asked], next: u32, entries: u32) -> String {
    let left = open.disc.length.saturating_sub(next) as usize;
    let room = Room::new(entries as usize, next as usize, open.disc.length as usize).words();
    let mut text = format!("then: N {}, NWA {}, {} left, {room}\n", grouped(entries), grouped(next), counted(left, "sector"));
    if matches!(calls.last(), Some(Asked::SaveVirtual(_))) {
        let more = counted(commit_sectors(entries as usize), "sector");
        text.push_str(&format!("what is saved last is not committed: a commit takes {more} more\n"));
    }
    text
}

//! Two implementations held against each other: random lists of calls on random discs, compared call by call and byte by byte.
//!
//! A case is a start (a volume and what its sectors hold) and a list of steps: calls of `include/tuormik.h`, well or badly lent, and
//! between them what happens to a disc outside the layer (damage, forged ICBs and copies, altered records and tables); beside the disc
//! stands a space bitmap, right or damaged. Both implementations go through the same steps, each on a disc and a bitmap of its own; after
//! every call the answers and all that was lent are compared. A case that shows a difference is cut down to few steps before it is
//! reported.
//!
//! A seed and a number give a case again.

mod bytes;
mod draw;
mod step;
pub mod tables;

use crate::layer::Layer;
use bytes::Random;
use draw::Drawer;
use std::cell::Cell;
use std::collections::BTreeMap;
use std::fmt;
use std::panic::{catch_unwind, AssertUnwindSafe};
use std::sync::Once;
use step::{Call, Start, Step, World};
use tables::Tables;

/// The name under which the calls of a list are counted.
pub const IN_A_LIST: &str = "in a list";
/// The name under which it is counted what forecasts tell: that all fits, or why an item does not.
pub const FORECAST_TELLS: &str = "told";

/// How often each call answered each number.
#[derive(Clone, Default)]
pub struct Tally {
    counts: BTreeMap<(&'static str, u32), u64>,
    calls: u64,
}

impl Tally {
    fn add(&mut self, call: &'static str, answer: u32) {
        self.note(call, answer);
        self.calls += 1;
    }

    /// What is counted and is no call of its own.
    fn note(&mut self, what: &'static str, told: u32) {
        *self.counts.entry((what, told)).or_default() += 1;
    }

    fn add_all(&mut self, other: &Tally) {
        for (key, n) in &other.counts {
            *self.counts.entry(*key).or_default() += n;
        }
        self.calls += other.calls;
    }

    /// The number of calls that were compared, those of lists among them.
    pub fn calls(&self) -> u64 {
        self.calls
    }

    /// How often a call answered a number.
    pub fn count(&self, call: &'static str, answer: u32) -> u64 {
        self.counts.get(&(call, answer)).copied().unwrap_or(0)
    }
}

impl fmt::Display for Tally {
    fn fmt(&self, f: &mut fmt::Formatter) -> fmt::Result {
        let mut last = "";
        for ((call, answer), n) in &self.counts {
            if *call != last {
                if !last.is_empty() {
                    writeln!(f)?;
                }
                write!(f, "{call:>14}:")?;
                last = call;
            }
            write!(f, " {answer}×{n}")?;
        }
        writeln!(f)
    }
}

/// A list of steps after which the two implementations differ.
pub struct Difference {
    seed: u64,
    number: u64,
    start: Start,
    steps: Vec<Step>,
    drawn: usize,
    what: String,
}

impl Difference {
    /// The number of steps that show it.
    pub fn steps(&self) -> usize {
        self.steps.len()
    }
}

impl fmt::Display for Difference {
    fn fmt(&self, f: &mut fmt::Formatter) -> fmt::Result {
        writeln!(
            f,
            "A difference in case {} of seed {}: {} steps, cut down from {}.",
            self.number,
            self.seed,
            self.steps.len(),
            self.drawn
        )?;
        writeln!(f, "start: {:?}", self.start)?;
        for (i, step) in self.steps.iter().enumerate() {
            writeln!(f, "{:>4}. {step:?}", i + 1)?;
        }
        writeln!(f, "then: {}", self.what)?;
        writeln!(f, "again: cargo run --release -p tuormik-second --bin compare -- {} 1 {}", self.seed, self.number)
    }
}

/// What a case of a seed comes to.
pub fn compare_case(a: &Layer, b: &Layer, seed: u64, number: u64) -> Result<Tally, Box<Difference>> {
    let mut random = Random::of_case(seed, number);
    let drawer = Drawer::new(&mut random);
    let start = drawer.start().clone();
    let mut steps = Vec::new();
    let mut tally = Tally::default();
    let what = match quietly(|| draw_and_compare(a, b, drawer, &mut random, &mut steps, &mut tally)) {
        None => return Ok(tally),
        Some(what) => what,
    };
    let drawn = steps.len();
    let (steps, what) = cut_down(a, b, &start, steps, what);
    Err(Box::new(Difference { seed, number, start, steps, drawn, what }))
}

thread_local! {
    static IS_QUIET: Cell<bool> = const { Cell::new(false) };
}

/// Panics in a comparison are not printed where they happen.
fn silence_panics() {
    static ONCE: Once = Once::new();
    ONCE.call_once(|| {
        let before = std::panic::take_hook();
        std::panic::set_hook(Box::new(move |info| {
            if !IS_QUIET.get() {
                before(info);
            }
        }));
    });
}

/// What it says, where it is a difference; a panic is one.
fn quietly(compared: impl FnOnce() -> Option<String>) -> Option<String> {
    silence_panics();
    IS_QUIET.set(true);
    let compared = catch_unwind(AssertUnwindSafe(compared));
    IS_QUIET.set(false);
    compared.unwrap_or_else(|panic| {
        let words = panic.downcast_ref::<String>().map(String::as_str);
        let words = words.or(panic.downcast_ref::<&str>().copied());
        Some(format!("a panic: {}", words.unwrap_or("without words")))
    })
}

/// Draws steps and compares as it goes, since what is drawn next depends on what the disc has come to.
fn draw_and_compare(
    a: &Layer,
    b: &Layer,
    mut drawer: Drawer,
    random: &mut Random,
    steps: &mut Vec<Step>,
    tally: &mut Tally,
) -> Option<String> {
    let mut ours = World::new(drawer.start());
    let mut theirs = ours.clone();
    for _ in 0..drawer.length() {
        let step = drawer.next(random, &theirs);
        steps.push(step);
        let step = steps.last()?;
        if let Some(what) = compare_step(a, b, step, &mut ours, &mut theirs, tally) {
            return Some(what);
        }
    }
    None
}

fn compare_step(a: &Layer, b: &Layer, step: &Step, ours: &mut World, theirs: &mut World, tally: &mut Tally) -> Option<String> {
    let before = Tables::of(theirs);
    let one = step.take(a, ours);
    let other = step.take(b, theirs);
    if let (Some(one), Some(other)) = (&one, &other) {
        if one.number != other.number {
            return Some(format!("{} answers {}, {} answers {}", a.name, one.number, b.name, other.number));
        }
        if let Some(at) = one.lent.iter().zip(&other.lent).position(|(x, y)| x != y) {
            return Some(format!("what is handed back differs first at {at}: {} {}, {} {}", a.name, one.lent[at], b.name, other.lent[at]));
        }
        if let Step::Call(call) | Step::Oddly(_, call) = step {
            tally.add(call.name(), one.number);
            match call {
                Call::Run { calls, replies, .. } if one.number == 0 => {
                    for &reply in one.lent.iter().take(calls.len().min(*replies)) {
                        tally.add(IN_A_LIST, reply);
                    }
                }
                Call::Forecast { .. } if one.number == 0 => tally.note(FORECAST_TELLS, one.lent[0]),
                _ => {}
            }
            if let (Step::Call(call), Some(before)) = (step, &before) {
                tables::note(tally, before, call, one.number, theirs);
            }
        }
    }
    ours.difference(theirs).map(|what| format!("{what} ({} first)", a.name))
}

/// Whether a list of steps shows a difference, after how many of them, and which.
fn shows(a: &Layer, b: &Layer, start: &Start, steps: &[Step]) -> Option<(usize, String)> {
    let mut taken = 0;
    let what = quietly(|| {
        let mut ours = World::new(start);
        let mut theirs = ours.clone();
        steps.iter().find_map(|step| {
            taken += 1;
            compare_step(a, b, step, &mut ours, &mut theirs, &mut Tally::default())
        })
    })?;
    Some((taken, what))
}

/// The list with steps left out, and calls of its lists, as long as it shows a difference.
fn cut_down(a: &Layer, b: &Layer, start: &Start, mut steps: Vec<Step>, mut what: String) -> (Vec<Step>, String) {
    let mut size = steps.len().div_ceil(2);
    while size > 0 {
        let mut from = 0;
        while from < steps.len() {
            let mut fewer = steps.clone();
            fewer.drain(from..(from + size).min(steps.len()));
            match shows(a, b, start, &fewer) {
                Some((taken, words)) => {
                    fewer.truncate(taken);
                    steps = fewer;
                    what = words;
                }
                None => from += size,
            }
        }
        size /= 2;
    }
    for i in 0..steps.len() {
        let mut simpler = steps[i].simpler();
        while let Some(step) = simpler.pop() {
            let mut fewer = steps.clone();
            fewer[i] = step;
            if let Some((taken, words)) = shows(a, b, start, &fewer) {
                if taken == steps.len() {
                    simpler = fewer[i].simpler();
                    steps = fewer;
                    what = words;
                }
            }
        }
    }
    (steps, what)
}

/// Compares some cases of a seed; `progress` is told the cases and calls so far.
pub fn compare_cases(
    a: &Layer,
    b: &Layer,
    seed: u64,
    numbers: std::ops::Range<u64>,
    mut progress: impl FnMut(u64, u64),
) -> Result<Tally, Box<Difference>> {
    let mut tally = Tally::default();
    let mut compared = Ok(());
    for number in numbers {
        match compare_case(a, b, seed, number) {
            Ok(counted) => tally.add_all(&counted),
            Err(difference) => {
                compared = Err(difference);
                break;
            }
        }
        progress(number, tally.calls);
    }
    compared.map(|()| tally)
}

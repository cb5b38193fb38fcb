//! Document 02, slip 12, on random lists on write-once discs: an opening passes over at most the sector writes begun since the last whole
//! VAT ICB. These are counted from the calls, their cuts and whether they were accepted, beside the plain store; nothing is taken from
//! the layer's record or from the marks. Exactly, passed over are the writes begun without the cut ones that became old.

mod lists;
#[path = "lists/met.rs"]
mod met;

use lists::{carried_out, data_sectors, draw, Call, Kind, Landing, Random, Store, World, CUT, OPEN};
use met::Met;
use tuormik::{BLANK, NONE, RECORDED, SECTOR, UNREADABLE};
use tuormik_second::layer::{Layer, PLAIN, PROVED};

/// A call of a list as it was carried out.
struct Made {
    kind: Kind,
    is_accepted: bool,
    /// How many sector writes it has where it is accepted.
    writes: u32,
    /// The write at which the power fails, and what becomes of it.
    cut: Option<(u32, Landing)>,
}

impl Made {
    fn new(call: &Call, reply: u32, store: &Store) -> Made {
        let writes = match call.kind {
            Kind::SaveVirtual => 1,
            Kind::Commit => data_sectors(store.blocks.len()) + 1,
            _ => 0,
        };
        let is_cut = (1..=writes).contains(&call.cut_at);
        Made {
            kind: call.kind,
            is_accepted: reply == 0 || reply == CUT,
            writes,
            cut: is_cut.then(|| (call.cut_at, call.landing(call.cut_at))),
        }
    }

    fn begun(&self) -> u32 {
        self.cut.map_or(self.writes, |(at, _)| at)
    }

    fn old(&self) -> u32 {
        u32::from(self.cut.is_some_and(|(_, landing)| landing == Landing::Kept))
    }

    /// Whether its last write is a VAT ICB, and is whole.
    fn lays_icb(&self) -> bool {
        self.kind == Kind::Commit && self.cut.is_none_or(|cut| cut == (self.writes, Landing::Done))
    }

    fn is_cut_commit(&self) -> bool {
        self.kind == Kind::Commit && self.cut.is_some()
    }
}

/// The sector writes since the last whole VAT ICB: those begun, and of these the cut ones that became old.
#[derive(Clone, Copy, Debug)]
struct Count {
    begun: u32,
    old: u32,
}

impl Count {
    /// The count at an opening that passed over so many.
    fn new(passed: u32) -> Count {
        Count { begun: passed, old: 0 }
    }

    fn and(self, begun: u32, old: u32) -> Count {
        Count { begun: self.begun + begun, old: self.old + old }
    }

    fn after(self, made: &Made) -> Count {
        match made {
            _ if !made.is_accepted => self,
            _ if made.lays_icb() => Count::new(0),
            _ => self.and(made.begun(), made.old()),
        }
    }

    fn is_exact(self, passed: u32) -> bool {
        passed + self.old == self.begun
    }
}

/// Where the writes went, in logical blocks.
#[derive(Clone, Copy)]
struct Ledger {
    /// NWA.
    next: u32,
    /// The last whole VAT ICB.
    icb: u32,
}

impl Ledger {
    fn after(self, made: &Made) -> Ledger {
        if !made.is_accepted {
            return self;
        }
        // one that became old left its sector blank
        let next = self.next + made.begun() - made.old();
        Ledger { next, icb: if made.lays_icb() { next - 1 } else { self.icb } }
    }
}

/// The disc after a list.
struct Seen {
    /// What an opening passes over then.
    passed: u32,
    /// What `run` handed back as passed over.
    handed: u32,
    /// The last sector of the partition that is not blank, as a logical block.
    top: u32,
}

/// The last sector of the partition that is not blank, as a logical block.
fn top(world: &World) -> u32 {
    let partition = &world.marks[world.s as usize..][..world.l as usize];
    partition.iter().rposition(|&mark| mark != BLANK).expect("a sector that is not blank") as u32
}

impl Seen {
    fn new(layer: &Layer, mut world: World) -> Seen {
        let handed = world.record[4];
        world.open(layer);
        Seen { passed: world.record[4], handed, top: top(&world) }
    }
}

/// A disc, and what became of it along a list.
struct History {
    /// What the opening before the list is to pass over.
    passed: u32,
    ledger: Ledger,
    opened: Seen,
    steps: Vec<(Made, Seen)>,
}

/// A disc before its first opening.
struct Start {
    world: World,
    n: usize,
    icb: u32,
    passed: u32,
}

impl Start {
    /// A write-once disc whose VAT has n entries. Above its ICB are sectors that an opening passes over, and above these is room for writes.
    fn new(layer: &Layer, random: &mut Random, n: usize, passed: u32, room: u32) -> Start {
        let icb = 1 + data_sectors(n);
        let (s, l) = (random.below(9), icb + 1 + passed + room);
        let mut world = World::new(layer, s + l + random.below(9), s, l, &[], &[]);
        // from the record and a table of n entries, used ones among them, a commit
        world.record = [0, n as u32, 1, 0, 0];
        world.table[..n].fill_with(|| if random.below(4) == 0 { 0 } else { NONE });
        let World { disc, marks, maps, table, record, .. } = &mut world;
        assert_eq!((layer.commit)(disc, marks, maps, s, l, table, record, 0, 0), 0, "{}: N {n}", layer.name);
        for i in 1..=passed {
            let marks = if i == passed { &[RECORDED, UNREADABLE][..] } else { &[RECORDED, UNREADABLE, BLANK] };
            world.marks[(s + icb + i) as usize] = marks[random.below(marks.len() as u32) as usize];
        }
        Start { world, n, icb, passed }
    }

    /// N small, or about the edges where the VAT leaves its ICB and where its data take a second sector; with little room or much.
    fn drawn(layer: &Layer, random: &mut Random) -> Start {
        let n = [random.below(6), 456 + random.below(4), 501 + random.below(4)][random.below(3) as usize];
        let passed = if random.below(2) == 0 { 0 } else { random.below(4) };
        let room = [random.below(5), random.below(30)][random.below(2) as usize];
        Start::new(layer, random, n as usize, passed, room)
    }

    /// A call on the disc when it has n blocks. Saves often add a block, and some are of the bytes of the VAT ICB: elsewhere than at their
    /// own place these are none. Commits are often cut.
    fn draw(&self, random: &mut Random, n: usize) -> Call {
        let mut call = draw(random, true, n, self.world.l);
        match (call.kind, random.below(6)) {
            (Kind::SaveVirtual, 0) => call.bytes = self.world.disc[SECTOR * (self.world.s + self.icb) as usize..][..SECTOR].to_vec(),
            (Kind::SaveVirtual, 1..=3) => call.number = n as u32,
            (Kind::Commit, 0..=1) => call.cut_at = 1 + random.below(4),
            _ => {}
        }
        call
    }

    /// Each list that the calls of a list begin with is run from the start; `next` gives one more call, for a disc with so many blocks.
    fn history(&self, layer: &Layer, mut next: impl FnMut(usize) -> Option<Call>) -> History {
        let ran = |calls: &[Call]| {
            let mut world = self.world.clone();
            let (opened, replies) = world.run(layer, calls);
            assert_eq!(opened, 0, "{}: the list's opening is accepted", layer.name);
            (world, replies)
        };
        let (world, _) = ran(&[]);
        let mut store = Store::of(&world);
        assert_eq!(store.blocks.len(), self.n, "{}: N", layer.name);
        let opened = Seen::new(layer, world);
        let (mut calls, mut steps) = (Vec::new(), Vec::new());
        while let Some(call) = next(store.blocks.len()) {
            calls.push(call);
            let (world, replies) = ran(&calls);
            let (call, reply) = carried_out(&calls, &replies).last().expect("a call");
            let made = Made::new(call, reply, &store);
            assert!(call.kind != Kind::Open || reply == 0, "{}: every opening is accepted", layer.name);
            if made.is_accepted {
                assert_eq!(reply == CUT, made.cut.is_some(), "{}: {:?} was cut", layer.name, call.kind);
                store.take(call, made.cut.is_some());
            }
            steps.push((made, Seen::new(layer, world)));
        }
        let ledger = Ledger { next: top(&self.world) + 1, icb: self.icb };
        History { passed: self.passed, ledger, opened, steps }
    }
}

fn random_history(layer: &Layer, random: &mut Random) -> History {
    let start = Start::drawn(layer, random);
    let mut left = 2 + random.below(14);
    start.history(layer, |n| {
        left = left.checked_sub(1)?;
        Some(start.draw(random, n))
    })
}

impl Met {
    fn note_step(&mut self, made: &Made, before: Count, count: Count, passed: u32) {
        let resets = made.is_accepted && made.lays_icb() && before.begun > 0;
        let cuts_data = made.is_accepted && made.is_cut_commit() && made.begun() < made.writes;
        self.note("the bound is reached", count.begun > 0 && passed == count.begun);
        self.note("the bound is not reached", passed < count.begun);
        self.note("a commit that is not cut sets the count to 0", resets && made.cut.is_none());
        self.note("a commit that is cut at its whole ICB sets the count to 0", resets && made.cut.is_some());
        self.note("the first of two data sectors is cut", cuts_data && made.writes == 3 && made.begun() == 1);
        self.note("the second of two data sectors is cut", cuts_data && made.begun() == 2);
        self.note("the data sector is cut", cuts_data && made.writes == 2);
        self.note("a data sector that was cut became old", cuts_data && made.old() == 1);
        self.note("an ICB that was cut became old", made.is_accepted && made.is_cut_commit() && !cuts_data && made.old() == 1);
        self.note("a save is refused", !made.is_accepted && made.kind == Kind::SaveVirtual && count.begun > 0);
        self.note("a commit is refused", !made.is_accepted && made.kind == Kind::Commit && count.begun > 0);
        self.note("an opening finds a count", made.kind == Kind::Open && count.begun > 0);
    }
}

/// What an opening passes over, and whether that is none, as counted.
fn holds(what: &str, seen: &Seen, count: Count, ledger: Ledger) {
    assert!(seen.passed <= count.begun, "{what}: {} passed over, {count:?}", seen.passed);
    assert!(count.is_exact(seen.passed), "{what}: {} passed over, {count:?}", seen.passed);
    assert_eq!(seen.top + 1, ledger.next, "{what}: NWA");
    assert_eq!(seen.passed == 0, seen.top == ledger.icb, "{what}: {} passed over, the last VAT ICB is at {}", seen.passed, ledger.icb);
}

fn follow(layer: &Layer, history: &History, met: &mut Met) {
    let (mut count, mut ledger) = (Count::new(history.passed), history.ledger);
    holds(layer.name, &history.opened, count, ledger);
    assert_eq!(history.opened.handed, history.passed, "{}", layer.name);
    let mut handed = history.passed;
    met.note("the first opening passes over some", handed > 0);
    met.note("the first opening passes over none", handed == 0);
    let commits = history.steps.iter().filter(|(made, _)| made.is_accepted && made.kind == Kind::Commit);
    let writes: Vec<u32> = commits.map(|(made, _)| made.writes).collect();
    met.note("a list comes to a data sector", writes.windows(2).any(|two| two == [1, 2]));
    met.note("a list comes to a second data sector", writes.windows(2).any(|two| two == [2, 3]));
    for (i, (made, seen)) in history.steps.iter().enumerate() {
        let before = count;
        (count, ledger) = (count.after(made), ledger.after(made));
        let what = format!("{}: after call {i}, {:?}", layer.name, made.kind);
        holds(&what, seen, count, ledger);
        if made.kind == Kind::Open {
            handed = count.begun - count.old;
        }
        assert_eq!(seen.handed, handed, "{what}: the count of the last opening is handed back");
        met.note_step(made, before, count, seen.passed);
    }
}

fn try_lists(layer: &Layer, seed: u64, discs: u32) {
    let mut random = Random(seed);
    let mut met = Met::default();
    for _ in 0..discs {
        follow(layer, &random_history(layer, &mut random), &mut met);
    }
    met.all();
}

#[test]
fn the_bound_of_the_proved_library() {
    try_lists(&PROVED, 12, 4000);
}

#[test]
fn the_bound_of_the_plain_implementation() {
    try_lists(&PLAIN, 12, 4000);
}

/// A list with its counts by hand, on a disc whose VAT has two data sectors.
#[test]
fn a_list_by_hand() {
    const UNREADABLE: u32 = 1;
    const WHOLE: u32 = 2;
    let save = || Call::new(Kind::SaveVirtual, 0, vec![7; SECTOR]);
    let commit = || Call::new(Kind::Commit, 0, Vec::new());
    let cut = |call: Call, cut_at: u32, cut_effect: u32| Call { cut_at, cut_effect, ..call };
    // each call, what is begun after it, and what an opening then passes over
    let list = [
        (save(), 1, 1),
        (cut(save(), 1, UNREADABLE), 2, 2),
        (OPEN.clone(), 2, 2),
        (cut(commit(), 2, 0), 4, 3),
        (OPEN.clone(), 4, 3),
        (cut(commit(), 3, UNREADABLE), 7, 6),
        (OPEN.clone(), 7, 6),
        (cut(commit(), 3, WHOLE), 0, 0),
        (OPEN.clone(), 0, 0),
        (cut(save(), 1, 0), 1, 0),
        (OPEN.clone(), 1, 0),
        (save(), 2, 1),
        (commit(), 0, 0),
    ];
    for layer in [&PROVED, &PLAIN] {
        let mut calls = list.iter().map(|(call, ..)| call.clone());
        let history = Start::new(layer, &mut Random(1), 504, 0, 14).history(layer, |_| calls.next());
        follow(layer, &history, &mut Met::default());
        let mut count = Count::new(0);
        for (i, ((_, begun, passed), (made, seen))) in list.iter().zip(&history.steps).enumerate() {
            count = count.after(made);
            assert_eq!((count.begun, seen.passed), (*begun, *passed), "{}: after call {i}", layer.name);
        }
        assert_eq!(history.steps.len(), list.len());
    }
}

// ---- counters that are wrong

type Rule = fn(Count, &Made) -> Count;

/// Rules that count too little: the bound itself is contradicted.
const TOO_LITTLE: [(&str, Rule); 4] = [
    ("a cut write is not counted", |count, made| match count.after(made) {
        next if made.is_accepted && made.cut.is_some() => Count { begun: next.begun.saturating_sub(1), ..next },
        next => next,
    }),
    ("an opening sets the count to 0", |count, made| if made.kind == Kind::Open { Count::new(0) } else { count.after(made) }),
    (
        "every cut commit sets the count to 0",
        |count, made| {
            if made.is_accepted && made.is_cut_commit() {
                Count::new(0)
            } else {
                count.after(made)
            }
        },
    ),
    ("a refused commit sets the count to 0", |count, made| if made.lays_icb() { Count::new(0) } else { count.after(made) }),
];

/// Rules that count too much, or tell too few old writes: the bound holds, and is not exact.
const TOO_MUCH: [(&str, Rule); 3] = [
    ("nothing sets the count to 0", |count, made| if made.is_accepted { count.and(made.begun(), made.old()) } else { count }),
    ("refused calls are counted", |count, made| if made.is_accepted { count.after(made) } else { count.and(made.begun(), made.old()) }),
    ("old writes of a commit are not told", |count, made| match count.after(made) {
        next if made.kind == Kind::Commit => Count { old: next.old.min(count.old), ..next },
        next => next,
    }),
];

/// In how many lists the bound is contradicted by a rule, and in how many it is not exact.
fn contradicted(histories: &[History], rule: Rule) -> [usize; 2] {
    let counts = |history: &History| {
        let mut count = Count::new(history.passed);
        let step = |(made, seen): &(Made, Seen)| {
            count = rule(count, made);
            (count, seen.passed)
        };
        history.steps.iter().map(step).collect::<Vec<_>>()
    };
    let lists = |is_against: fn(Count, u32) -> bool| {
        let is_met = |history: &&History| counts(history).into_iter().any(|(count, passed)| is_against(count, passed));
        histories.iter().filter(is_met).count()
    };
    [lists(|count, passed| passed > count.begun), lists(|count, passed| !count.is_exact(passed))]
}

#[test]
fn wrong_counters_are_contradicted() {
    let mut random = Random(21);
    let histories: Vec<History> = (0..1000).map(|_| random_history(&PROVED, &mut random)).collect();
    assert_eq!(contradicted(&histories, |count, made| count.after(made)), [0, 0]);
    for (name, rule) in TOO_LITTLE {
        let [over, inexact] = contradicted(&histories, rule);
        assert!(over > 0 && inexact > 0, "{name}: {over}, {inexact}");
    }
    for (name, rule) in TOO_MUCH {
        let [over, inexact] = contradicted(&histories, rule);
        assert!(over == 0 && inexact > 0, "{name}: {over}, {inexact}");
    }
}

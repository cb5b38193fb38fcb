//! Document 02, slip 9, through both implementations: what a forecast tells of a list of saves and commits is what carrying the list out
//! comes to, call by call, from the same disc, table and record, up to a first refusal. The discs have no VAT and the records are of no
//! opening, but where it is said: 02 asks for any.
//!
//! What the lists come to is also worked out by a formula from document 01's words, and by formulas that are wrong in one place: each of
//! these is contradicted by a list that is tried here, so a forecast that was wrong there would be found.

#[path = "lists/world.rs"]
mod world;

use tuormik::{BLANK, COMMIT, MOST_ENTRIES, NONE, RECORDED, SECTOR, UNREADABLE};
use tuormik_second::layer::{Layer, PLAIN, PROVED};
use world::{data_sectors, icb_at, no_cut, pick, Random, World, COUNTS, MOST, NO_ROOM, OUTSIDE, PASSES_AS_ICB, START};

impl World {
    /// The result, or the line by which the forecast itself is refused; nothing else that is lent changes.
    fn forecast(&self, layer: &Layer, items: &[u32]) -> Result<[u32; 3], u32> {
        let before = self.clone();
        let mut result = [7, 77, 777];
        let World { disc, marks, maps, s, l, table, record } = self;
        let answer = (layer.forecast)(disc, marks, maps, *s, *l, table, record, items, &mut result);
        assert!(*self == before, "{}: a forecast changes nothing that is lent", layer.name);
        if answer == 0 {
            return Ok(result);
        }
        assert_eq!(result, [7, 77, 777], "{}: refused by {answer}, the result is as it was", layer.name);
        Err(answer)
    }

    /// Carries a list out up to a first refusal: what 02 says that the forecast is to be. The blocks are of several kinds, and the cuts
    /// those that are none.
    fn carry_out(&mut self, layer: &Layer, items: &[u32], way: usize) -> [u32; 3] {
        for (i, &item) in items.iter().enumerate() {
            let (next, n) = (self.record[2], self.record[1]);
            // each call has its own cut and effect
            let cut = |writes: u32| no_cut(way + 7 * i, writes);
            let answer = if item < COMMIT {
                self.save(layer, item, &block(way + i, next), cut(1))
            } else {
                self.commit(layer, cut(data_sectors(n) + 1))
            };
            if answer != 0 {
                return [answer, i as u32, 0];
            }
        }
        [0, self.record[2], self.record[1]]
    }
}

/// A block that does not pass as a VAT ICB at logical block `next`, from 1 on.
fn block(kind: usize, next: u32) -> Vec<u8> {
    match kind % 5 {
        0 => vec![0; SECTOR],
        1 => vec![0xff; SECTOR],
        2 => (0..SECTOR).map(|i| (i * (next as usize + 3)) as u8).collect(),
        // the ICB of an empty VAT, at another block than its own
        3 => icb_at(0),
        // a right tag whose CRC is wrong
        _ => {
            let mut block = icb_at(next);
            block[SECTOR - 1] ^= 1;
            block[100] ^= 1;
            block
        }
    }
}

/// Where a formula goes wrong.
#[derive(Clone, Copy, Debug, PartialEq)]
enum Slip {
    /// a save takes d for the N before it
    DataBefore,
    /// a save leaves no room for the commit after it
    NoReserve,
    /// a commit takes d for an N one higher
    DataAfter,
    /// a commit asks for room for another commit
    CommitReserve,
    /// a commit adds 1 to NWA, or d
    CommitAddsOne,
    CommitAddsData,
    /// 16 is tested before 12
    RoomFirst,
    /// a disc holds any number of blocks
    AnyNumber,
    /// block N is outside
    NoNewBlock,
    /// every save adds a block
    EverySaveAdds,
    /// 0x80000000 is a save; it alone is a commit; 0xffffffff is no commit
    CommitAbove,
    CommitAlone,
    NoneIsNoCommit,
    /// the VAT is embedded where 176 + F is 2,048 too
    EmbeddedAtMost,
    /// the last sector is never used
    OneLess,
    /// the index is counted from 1
    IndexFromOne,
    /// N and NWA change places
    Exchanged,
    /// the list goes on after a refusal, and the last one is told
    LastRefusal,
}

const SLIPS: [Slip; 18] = [
    Slip::DataBefore,
    Slip::NoReserve,
    Slip::DataAfter,
    Slip::CommitReserve,
    Slip::CommitAddsOne,
    Slip::CommitAddsData,
    Slip::RoomFirst,
    Slip::AnyNumber,
    Slip::NoNewBlock,
    Slip::EverySaveAdds,
    Slip::CommitAbove,
    Slip::CommitAlone,
    Slip::NoneIsNoCommit,
    Slip::EmbeddedAtMost,
    Slip::OneLess,
    Slip::IndexFromOne,
    Slip::Exchanged,
    Slip::LastRefusal,
];

/// What a list comes to by lines 12 and 16 of document 01 and its words on NWA and N, with a slip or none.
fn by_formula(slip: Option<Slip>, l: u32, mut next: u32, mut n: u32, items: &[u32]) -> [u32; 3] {
    let is = |one: Slip| slip == Some(one);
    let data = |n: u32| if is(Slip::EmbeddedAtMost) && 176 + 4 * n + 36 <= 2048 { 0 } else { data_sectors(n) };
    let l = if is(Slip::OneLess) { l - 1 } else { l };
    let mut stopped = None;
    for (i, &item) in items.iter().enumerate() {
        let commits = match slip {
            Some(Slip::CommitAbove) => item > COMMIT,
            Some(Slip::CommitAlone) => item == COMMIT,
            Some(Slip::NoneIsNoCommit) => (COMMIT..NONE).contains(&item),
            _ => item >= COMMIT,
        };
        let adds = is(Slip::EverySaveAdds) || item == n;
        let after = n + u32::from(adds);
        let (refusal, next_after, n_after) = if commits {
            let d = data(if is(Slip::DataAfter) { n + 1 } else { n });
            let fits = next + d + 1 + u32::from(is(Slip::CommitReserve)) <= l;
            let taken = match slip {
                Some(Slip::CommitAddsOne) => 1,
                Some(Slip::CommitAddsData) => d,
                _ => d + 1,
            };
            ((!fits).then_some(NO_ROOM), next + taken, n)
        } else {
            let most = if is(Slip::AnyNumber) { COMMIT } else { MOST };
            let is_there = item < most && if is(Slip::NoNewBlock) { item < n } else { item <= n };
            let reserve = if is(Slip::NoReserve) { 0 } else { data(if is(Slip::DataBefore) { n } else { after }) + 1 };
            let has_room = next + 1 + reserve <= l;
            let refusals = [(is_there, OUTSIDE), (has_room, NO_ROOM)];
            let mut failing = refusals.iter().filter(|(holds, _)| !holds).map(|(_, line)| *line);
            let refusal = if is(Slip::RoomFirst) { failing.next_back() } else { failing.next() };
            (refusal, next + 1, after)
        };
        match refusal {
            None => (next, n) = (next_after, n_after),
            Some(line) => {
                stopped = Some([line, i as u32 + u32::from(is(Slip::IndexFromOne)), 0]);
                if !is(Slip::LastRefusal) {
                    break;
                }
            }
        }
    }
    let ended = if is(Slip::Exchanged) { [0, n, next] } else { [0, next, n] };
    stopped.unwrap_or(ended)
}

/// How many lists were tried, how many of them stopped at 12 and at 16, and which slips none of them contradicts. Blocks and cuts change
/// from list to list.
struct Tried {
    slips: Vec<Slip>,
    lists: usize,
    stopped: [usize; 2],
}

impl Tried {
    fn new() -> Tried {
        Tried { slips: SLIPS.to_vec(), lists: 0, stopped: [0; 2] }
    }

    /// A list on a disc: both forecasts, both runs and the formula come to the same. Gives it.
    fn list(&mut self, world: &World, items: &[u32]) -> [u32; 3] {
        let told = world.forecast(&PLAIN, items).expect("a forecast");
        assert_eq!(
            world.forecast(&PROVED, items),
            Ok(told),
            "{}: N {}, NWA {}, L {}",
            PROVED.name,
            world.record[1],
            world.record[2],
            world.l
        );
        let mut left = Vec::new();
        for layer in [&PLAIN, &PROVED] {
            let mut world = world.clone();
            let come_to = world.carry_out(layer, items, self.lists);
            assert_eq!(come_to, told, "{}: {}", layer.name, case(&world, items));
            left.push((world.record, world.marks));
        }
        assert!(left[0] == left[1], "the two are left with different records or marks: {}", case(world, items));
        let formula = |slip| by_formula(slip, world.l, world.record[2], world.record[1], items);
        assert_eq!(formula(None), told, "the formula: {}", case(world, items));
        self.slips.retain(|&slip| formula(Some(slip)) == told);
        self.lists += 1;
        match told[0] {
            OUTSIDE => self.stopped[0] += 1,
            NO_ROOM => self.stopped[1] += 1,
            _ => assert_eq!(told[0], 0),
        }
        told
    }

    /// No slip could have passed, and both refusals were met.
    fn done(self) {
        assert!(self.slips.is_empty(), "{} lists contradict no {:?}", self.lists, self.slips);
        assert!(self.stopped.iter().all(|&n| n > 0) && self.stopped.iter().sum::<usize>() < self.lists);
    }
}

fn case(world: &World, items: &[u32]) -> String {
    let shown: Vec<String> = items.iter().take(40).map(|item| format!("{item:#x}")).collect();
    format!("N {}, NWA {}, L {}, {} items: {}", world.record[1], world.record[2], world.l, items.len(), shown.join(" "))
}

/// The first N of each d, from 0 to 9.
const STEPS: [u32; 10] = [0, 459, 504, 1016, 1528, 2040, 2552, 3064, 3576, 4088];

#[test]
fn steps_of_d() {
    let d: Vec<u32> = STEPS.iter().map(|&n| data_sectors(n)).collect();
    assert_eq!(d, (0..10).collect::<Vec<_>>());
    assert!(STEPS.iter().all(|&n| n == 0 || data_sectors(n - 1) + 1 == data_sectors(n)));
    assert_eq!([458, 459, 503, 504, 4096].map(data_sectors), [0, 1, 1, 2, 9]);
}

/// All lists of up to three items, at every N of note and with every little room left.
#[test]
fn short_lists() {
    let mut tried = Tried::new();
    for n in COUNTS {
        for room in 0..=data_sectors(n.min(MOST - 1) + 1) + 4 {
            let world = World::new(n, 20, 20 + room);
            let letters = [0, n, n + 1, n + 2, COMMIT];
            assert_eq!(tried.list(&world, &[]), [0, 20, n]);
            for a in letters {
                tried.list(&world, &[a]);
                for b in letters {
                    tried.list(&world, &[a, b]);
                    for c in [0, n, n + 1, COMMIT, NONE, COMMIT + n, COMMIT - 1] {
                        tried.list(&world, &[a, b, c]);
                    }
                }
            }
        }
    }
    tried.done();
}

/// From an empty disc to 4,096 blocks, with commits where d rises and about it, on discs where all fits exactly, on ones with a sector
/// less and on ones with a sector more.
#[test]
fn from_none_to_4096() {
    let mut tried = Tried::new();
    let commits = [COMMIT, COMMIT + 1, NONE, 0x8000_1000];
    let mut items = Vec::new();
    for n in 0..MOST {
        items.push(n);
        if COUNTS.contains(&(n + 1)) || STEPS.contains(&(n + 1)) {
            items.push(commits[items.len() % 4]);
            items.push(n / 2);
        }
    }
    items.push(COMMIT);
    let made = |l: u32| {
        let mut world = World::new(0, 0, l);
        world.make(&PLAIN);
        world
    };
    let [_, needed, n] = by_formula(None, u32::MAX / 2, 1, 0, &items);
    assert_eq!(n, MOST);
    let last = items.len() as u32 - 1;
    assert_eq!(tried.list(&made(needed), &items), [0, needed, MOST]);
    assert_eq!(tried.list(&made(needed - 1), &items), [NO_ROOM, last - 1, 0]);
    // line 12 is asked first, also where there is no room
    items.extend([MOST, COMMIT]);
    for l in [needed, needed + 1, needed + 100] {
        assert_eq!(tried.list(&made(l), &items), [OUTSIDE, last + 1, 0]);
    }
    // an old block again, and commits until they do not fit
    let room = 100;
    items.truncate(last as usize + 1);
    items.push(7);
    items.extend([COMMIT; 12]);
    assert_eq!(tried.list(&made(needed + room), &items), [NO_ROOM, last + 2 + 9, 0]);
    assert_eq!(tried.list(&made(needed + room + 1), &items), [NO_ROOM, last + 2 + 10, 0]);
}

/// Random lists on random discs.
#[test]
fn random_lists() {
    let mut tried = Tried::new();
    let mut random = Random(0x9e37_79b9_7f4a_7c15);
    for _ in 0..6_000 {
        let n = match random.below(4) {
            0 => random.below(12),
            1 => random.below(MOST + 1),
            2 => MOST - random.below(4),
            _ => (pick(&mut random, &STEPS) + random.below(6)).saturating_sub(4).min(MOST),
        };
        let next = 1 + random.below(30);
        let room = pick(&mut random, &[1, 4, 12, 60]);
        let world = World::new(n, next, next + random.below(room) + 1);
        let (mut known, commit_in) = (n, pick(&mut random, &[2, 5, 30]));
        let count = random.below(50);
        let items: Vec<u32> = (0..count)
            .map(|_| match random.below(40) {
                0 => random.next() as u32,
                1 => known + 1 + random.below(2),
                2 => pick(&mut random, &[MOST - 1, MOST, MOST + 1, COMMIT - 1]),
                _ if random.below(commit_in) == 0 => COMMIT | pick(&mut random, &[0, 0, 1, 7, MOST, 0x7fff_ffff]),
                _ if random.below(2) == 0 => {
                    known += 1;
                    known - 1
                }
                _ => random.below(known),
            })
            .collect();
        tried.list(&world, &items);
    }
    tried.done();
}

/// Lists go on from what an opening found, and from what calls after it made of the record.
#[test]
fn after_an_opening_and_calls() {
    for layer in [&PLAIN, &PROVED] {
        let mut tried = Tried::new();
        let mut world = World::new(0, 0, 30);
        world.make(layer);
        assert_eq!(tried.list(&world, &[0, 1, 2, COMMIT, 1, COMMIT]), [0, 7, 3]);
        assert_eq!(world.carry_out(layer, &[0, 1, 2, COMMIT, 1], 0), [0, 6, 3]);
        assert_eq!(world.free(layer, 2), 0);
        // a freed block is still one: N stays, and it can be saved again
        assert_eq!(tried.list(&world, &[2, 3, COMMIT]), [0, 9, 4]);
        // opened again, the save of block 1 was passed over and its sector is taken
        assert_eq!(world.open(layer), 0);
        assert_eq!((world.record[1], world.record[2], world.record[4]), (3, 6, 1));
        assert_eq!(tried.list(&world, &[3, 4, 6, COMMIT]), [OUTSIDE, 2, 0]);
        assert_eq!(tried.list(&world, &[3; 40]), [NO_ROOM, 23, 0]);
    }
}

/// A list has any length: the index is that of the first refusal, whatever follows.
#[test]
fn very_long_lists() {
    let world = World::new(2, 5, 40);
    let mut items = vec![0; 2_000_000];
    for layer in [&PLAIN, &PROVED] {
        assert_eq!(world.forecast(layer, &items), Ok([NO_ROOM, 34, 0]));
    }
    items[33] = 3;
    for layer in [&PLAIN, &PROVED] {
        assert_eq!(world.forecast(layer, &items), Ok([OUTSIDE, 33, 0]));
    }
}

/// Where the forecast itself is refused, the first item of any list is refused by the same number; the empty list has no item, and its
/// forecast is refused as well.
#[test]
fn where_the_forecast_is_refused() {
    let good = || World::new(3, 20, 40);
    let with = |change: &dyn Fn(&mut World)| {
        let mut world = good();
        change(&mut world);
        world
    };
    let mut rewritable = vec![0; 64];
    assert_eq!((PLAIN.write_maps)(1, 1, 2048, &[64], &mut rewritable), 0);
    let cases = [
        (1, with(&|w| w.disc.truncate(SECTOR - 1))),
        (1, with(&|w| w.marks[0] = 3)),
        (2, with(&|w| w.l = 0)),
        (2, with(&|w| w.l = 43)),
        (3, with(&|w| w.table.truncate(MOST_ENTRIES - 1))),
        (3, with(&|w| w.record.truncate(4))),
        (3, with(&|w| w.record.push(0))),
        (4, with(&|w| w.maps.truncate(69))),
        (5, with(&|w| w.maps.clear())),
        (6, with(&|w| w.maps = rewritable.clone())),
        (11, with(&|w| w.record[0] = 1)),
        (11, with(&|w| w.record[1] = MOST + 1)),
        (11, with(&|w| w.record[2] = 19)),
        (11, with(&|w| w.record[2] = 21)),
        (11, with(&|w| w.record[3] = 20)),
        (11, with(&|w| w.record[3] = NONE)),
        (11, with(&|w| w.table[2] = 20)),
        (11, with(&|w| w.marks[START as usize + 19] = BLANK)),
        (11, with(&|w| w.marks[START as usize + 30] = UNREADABLE)),
        (11, World::new(0, 0, 40)),
        (7, {
            let mut world = with(&|w| w.maps = rewritable.clone());
            (world.disc, world.marks, world.s, world.l) = (vec![0; 96 * SECTOR], vec![RECORDED; 96], 0, 64);
            world
        }),
    ];
    for (line, world) in &cases {
        for layer in [&PLAIN, &PROVED] {
            assert_eq!(world.forecast(layer, &[]), Err(*line), "{}", layer.name);
            for items in [[0, 1], [3, COMMIT], [9, COMMIT], [COMMIT, 0], [NONE, 0]] {
                assert_eq!(world.forecast(layer, &items), Err(*line), "{}", layer.name);
                assert_eq!(world.clone().carry_out(layer, &items, 0), [*line, 0, 0], "{}", layer.name);
            }
        }
    }
    // a result of another length is line 3, after lines 1 and 2 and before the others
    for layer in [&PLAIN, &PROVED] {
        for length in [0, 1, 2, 4] {
            for (line, world) in cases.iter().map(|(line, world)| ((*line).min(3), world)).chain([(3, &good())]) {
                let mut result = vec![7; length];
                let World { disc, marks, maps, s, l, table, record } = world;
                let answer = (layer.forecast)(disc, marks, maps, *s, *l, table, record, &[0], &mut result);
                assert_eq!((answer, result), (line, vec![7; length]), "{}", layer.name);
            }
        }
    }
}

/// A block that would pass as a VAT ICB is refused in the run, and the forecast does not know of it: it is lent no blocks.
#[test]
fn fifteen_is_not_foreseen() {
    for layer in [&PLAIN, &PROVED] {
        let mut world = World::new(2, 5, 40);
        assert_eq!(world.forecast(layer, &[2, COMMIT]), Ok([0, 7, 3]));
        let icb = icb_at(5);
        assert_eq!(world.save(layer, 2, &icb, (0, 0)), PASSES_AS_ICB, "{}", layer.name);
        // at the next block it is not one
        assert_eq!(world.carry_out(layer, &[0], 0), [0, 6, 2]);
        assert_eq!(world.save(layer, 2, &icb, (0, 0)), 0, "{}", layer.name);
    }
}

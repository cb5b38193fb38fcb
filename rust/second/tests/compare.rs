//! The proved library and the plain implementation, call by call and byte by byte on random lists of calls.
//!
//! `TUORMIK_SEED` and `TUORMIK_CASES` choose another seed and number of cases; the program `compare` does the same with progress.

#[path = "lists/maps.rs"]
mod maps;
#[path = "lists/wrong.rs"]
mod wrong;

use tuormik::{BLANK, COMMIT, DEFECTIVE, NONE, PACKET, RECORDED, SECTOR};
use tuormik_second::compare::tables::{
    Spare, AGAIN, BEFORE, BOTH_NAMES, CUT_AGAIN, HOLDS_DEFECTIVE, INSIDE_NEWER, INSIDE_OLDER, KEEPS_DEFECTIVE, OF_SPARE, OLDER_MARKED,
    OLDER_NAME, OUTSIDE_FIRST, RENEWED, RESERVED_ABOVE, SHARED_ABOVE,
};
use tuormik_second::compare::{compare_cases, Difference, Tally, FORECAST_TELLS, IN_A_LIST};
use tuormik_second::layer::{Layer, PLAIN, PROVED};
use wrong::wrong_layers;

const SEED: u64 = 20_040_182;
const CASES: u64 = 6_000;

fn number_in(name: &str, otherwise: u64) -> u64 {
    std::env::var(name).ok().and_then(|word| word.parse().ok()).unwrap_or(otherwise)
}

fn compared() -> Tally {
    let (seed, cases) = (number_in("TUORMIK_SEED", SEED), number_in("TUORMIK_CASES", CASES));
    match compare_cases(&PROVED, &PLAIN, seed, 0..cases, |_, _| {}) {
        Ok(tally) => tally,
        Err(difference) => panic!("\n{difference}"),
    }
}

/// What each call can answer: lines of 01 and 02, 0 done and 255 cut.
const ANSWERS: [(&str, &[u32]); 22] = [
    ("open", &[0, 1, 2, 3, 4, 5, 6, 8, 9, 10]),
    ("read", &[0, 1, 2, 3, 4, 5, 6, 8, 10, 11, 12, 13, 14, 25, 30]),
    ("save_virtual", &[0, 1, 2, 3, 4, 5, 6, 7, 11, 12, 15, 16, 255]),
    ("free_virtual", &[0, 1, 2, 3, 4, 5, 6, 7, 11, 12, 13]),
    ("commit", &[0, 1, 2, 3, 4, 5, 6, 7, 11, 16, 255]),
    ("save_block", &[0, 1, 2, 3, 4, 5, 6, 7, 8, 10, 11, 12, 14, 25, 30, 255]),
    ("save_packet", &[0, 1, 2, 3, 4, 5, 6, 7, 8, 10, 11, 12, 30, 255]),
    ("spare_packet", &[0, 1, 2, 3, 4, 5, 6, 7, 8, 10, 11, 12, 17, 19, 20, 30, 255]),
    (AGAIN, &[0, 17, 19, 20, 255]),
    ("make", &[0, 1, 2, 4, 5, 6, 21]),
    ("fullness", &[0, 1, 2, 3, 4, 5, 6, 7, 11]),
    ("forecast", &[0, 1, 2, 3, 4, 5, 6, 7, 11]),
    (FORECAST_TELLS, &[0, 12, 16]),
    ("read_maps", &[0, 3, 4, 5, 6]),
    ("write_maps", &[0, 3, 5, 6]),
    ("look_up", &[0, 3, 8, 9, 12, 13]),
    ("bitmap_count", &[0, 3, 31]),
    ("bitmap_find", &[0, 3, 12, 31, 32, 33]),
    ("bitmap_take", &[0, 12, 31, 32]),
    ("bitmap_give_back", &[0, 12, 31, 32]),
    ("run", &[0, 1, 2, 3, 4, 5, 6, 8, 9, 10]),
    (IN_A_LIST, &[0, 3, 7, 12, 13, 14, 16, 17, 19, 20, 25, 30, 255]),
];

#[test]
fn the_two_agree_and_every_answer_is_met() {
    let tally = compared();
    println!("{tally}{} calls", tally.calls());
    if std::env::var_os("TUORMIK_CASES").is_some() {
        return;
    }
    for (call, answers) in ANSWERS {
        for answer in 0..=255 {
            let met = tally.count(call, answer) > 0;
            assert!(met || !answers.contains(&answer), "{call} never answered {answer}");
            assert!(!met || answers.contains(&answer) || call == IN_A_LIST, "{call} answered {answer}, which 01 and 02 do not let it");
        }
        assert_eq!(tally.count(call, NEVER), 0, "{call} answered {NEVER}, which never occurs");
    }
    tables_are_met(&tally);
    spares_inside_are_met(&tally);
}

/// The line that never occurs (02, slip 1).
const NEVER: u32 = 18;

/// The write of a sparing that is the first of a table.
const FIRST_TABLE: u32 = PACKET as u32 + 1;

/// Both identifiers and defective spares came up, and sparings of packets that are spared already, cut at every write of a table and
/// before them.
fn tables_are_met(tally: &Tally) {
    for what in [BOTH_NAMES, OLDER_NAME, OLDER_MARKED, RESERVED_ABOVE, HOLDS_DEFECTIVE, KEEPS_DEFECTIVE, RENEWED] {
        assert!(tally.count(what, 0) > 0, "{what} did not come up");
    }
    assert!((1..FIRST_TABLE).any(|at| tally.count(CUT_AGAIN, at) > 0), "no sparing again was cut before its tables");
    for at in FIRST_TABLE..FIRST_TABLE + 4 {
        assert!(tally.count(CUT_AGAIN, at) > 0, "no sparing again was cut at write {at}");
    }
}

/// Spares in the partition came up under both identifiers, line 30 of each kind of them, with 12 before it and with each line after it, and
/// originals that are the packet of a spare in each way.
fn spares_inside_are_met(tally: &Tally) {
    for what in [INSIDE_NEWER, INSIDE_OLDER, OUTSIDE_FIRST] {
        assert!(tally.count(what, 0) > 0, "{what} did not come up");
    }
    for spare in [Spare::Used, Spare::Defective, Spare::Free] {
        assert!(tally.count(OF_SPARE, spare as u32) > 0, "no block of such a spare came up: {}", spare as u32);
    }
    for line in [25, 14, 17, 19, 20] {
        assert!(tally.count(BEFORE, line) > 0, "30 did not come up before {line}");
    }
    for spare in [Spare::Used, Spare::Defective, Spare::Free, Spare::Own] {
        assert!(tally.count(SHARED_ABOVE, spare as u32) > 0, "no original of such a spare came up: {}", spare as u32);
    }
}

/// A layer that is wrong in one place is found, and the list that shows it is short.
#[test]
fn a_difference_is_found_and_cut_down() {
    #[allow(clippy::too_many_arguments)]
    fn commit_that_forgets(
        disc: &mut [u8],
        marks: &mut [u8],
        maps: &[u8],
        s: u32,
        l: u32,
        table: &[u32],
        record: &mut [u32],
        cut_at: u32,
        cut_effect: u32,
    ) -> u32 {
        let last = record.get(3).copied();
        let answer = (PLAIN.commit)(disc, marks, maps, s, l, table, record, cut_at, cut_effect);
        if let (0, Some(last)) = (answer, last) {
            record[3] = last;
        }
        answer
    }
    let wrong = Layer { name: "wrong", commit: commit_that_forgets, ..PLAIN };
    let difference = is_found(&wrong, 200, "the record differs");
    assert!(difference.steps() <= 3, "{difference}");
}

/// In so many cases a difference to the plain implementation is found, told with these words.
fn is_found(wrong: &Layer, cases: u64, words: &str) -> Box<Difference> {
    match compare_cases(wrong, &PLAIN, SEED, 0..cases, |_, _| {}) {
        Ok(_) => panic!("{}: no difference was found", wrong.name),
        Err(difference) => {
            assert!(difference.to_string().contains(words), "{difference}");
            difference
        }
    }
}

// ---- layers that tell blank and unreadable sectors apart by another rule

/// By which of the other sectors of a packet a save is turned down.
#[derive(Clone, Copy)]
enum By {
    AnyBlank,
    AnyUnreadable,
    Last,
    AboveFirst,
    OwnToo,
}

const BLANK_LINE: u32 = 25;
const UNREADABLE_LINE: u32 = 14;

/// The line of the first of some marks that is not recorded.
fn line_of_first(marks: impl Iterator<Item = u8>) -> Option<u32> {
    marks.filter(|&m| m != RECORDED).map(|m| if m == BLANK { BLANK_LINE } else { UNREADABLE_LINE }).next()
}

/// The line of the sectors of a packet but for the one at `own`.
fn line_by(by: By, packet: &[u8], own: usize) -> Option<u32> {
    let (below, above) = (packet[..own].iter().copied(), packet[own + 1..].iter().copied());
    let others = below.clone().chain(above.clone());
    match by {
        By::AnyBlank => line_of_first(others.clone().filter(|&m| m == BLANK)).or(line_of_first(others)),
        By::AnyUnreadable => line_of_first(others.clone().filter(|&m| m != BLANK)).or(line_of_first(others)),
        By::Last => line_of_first(others.rev()),
        By::AboveFirst => line_of_first(above.chain(below)),
        By::OwnToo => line_of_first(packet.iter().copied()),
    }
}

/// The plain save of a block, but for the rule of lines 25 and 14.
#[allow(clippy::too_many_arguments)]
fn save_block_by<const BY: usize>(
    disc: &mut [u8],
    marks: &mut [u8],
    maps: &[u8],
    s: u32,
    l: u32,
    table: &[u32],
    record: &mut [u32],
    b: u32,
    block: &[u8],
    cut_at: u32,
    cut_effect: u32,
) -> u32 {
    let by = [By::AnyBlank, By::AnyUnreadable, By::Last, By::AboveFirst, By::OwnToo][BY];
    let before = (disc.to_vec(), marks.to_vec(), record.to_vec());
    let answer = (PLAIN.save_block)(disc, marks, maps, s, l, table, record, b, block, cut_at, cut_effect);
    if ![0, UNREADABLE_LINE, BLANK_LINE, 255].contains(&answer) {
        return answer;
    }
    let own = b as usize % PACKET;
    let original = b - own as u32;
    let spared = table[..2 * record[1] as usize].chunks_exact(2).find(|entry| entry[0] == original);
    let start = spared.map_or(s + original, |entry| entry[1]) as usize;
    match line_by(by, &before.1[start..start + PACKET], own) {
        Some(line) => {
            disc.copy_from_slice(&before.0);
            marks.copy_from_slice(&before.1);
            record.copy_from_slice(&before.2);
            line
        }
        None => answer,
    }
}

/// The plain reading, which on discs of one kind, told by the length of its map list, does not tell blank sectors.
#[allow(clippy::too_many_arguments)]
fn read_without_blank<const MAPS: usize>(
    disc: &[u8],
    marks: &[u8],
    maps: &[u8],
    s: u32,
    l: u32,
    table: &[u32],
    record: &[u32],
    number: u32,
    out: &mut [u8],
) -> u32 {
    match (PLAIN.read)(disc, marks, maps, s, l, table, record, number, out) {
        BLANK_LINE if maps.len() == MAPS => UNREADABLE_LINE,
        answer => answer,
    }
}

/// The random discs have blank and unreadable sectors, in both orders, below and above the block to be saved, and as its own: a layer that
/// goes by another rule is found.
#[test]
fn other_rules_for_blank_and_unreadable_are_found() {
    let save_by = |name, save_block| Layer { name, save_block, ..PLAIN };
    let read_by = |name, read| Layer { name, read, ..PLAIN };
    let wrong = [
        save_by("any blank", save_block_by::<0>),
        save_by("any unreadable", save_block_by::<1>),
        save_by("the last", save_block_by::<2>),
        save_by("those above first", save_block_by::<3>),
        save_by("the own sector too", save_block_by::<4>),
        read_by("no blank on a write-once disc", read_without_blank::<70>),
        read_by("no blank on a rewritable disc", read_without_blank::<64>),
    ];
    for layer in wrong {
        is_found(&layer, 1_000, &format!("then: {} answers", layer.name));
    }
}

// ---- layers that forecast by another rule

/// What is wrong with a forecast.
#[derive(Clone, Copy)]
enum Forecasting {
    /// 0x80000000 is a save; 0xffffffff is one
    CommitAbove,
    NoneIsASave,
    /// 16 is tested before 12
    RoomFirst,
    IndexFromOne,
    Exchanged,
    /// where it is refused, the result is zeros
    ResultCleared,
}

/// The plain forecast, but for one rule.
#[allow(clippy::too_many_arguments)]
fn forecast_by<const BY: usize>(
    disc: &[u8],
    marks: &[u8],
    maps: &[u8],
    s: u32,
    l: u32,
    table: &[u32],
    record: &[u32],
    items: &[u32],
    result: &mut [u32],
) -> u32 {
    use Forecasting::*;
    let by = [CommitAbove, NoneIsASave, RoomFirst, IndexFromOne, Exchanged, ResultCleared][BY];
    let mut items = items.to_vec();
    let wrongly_saved = match by {
        CommitAbove => Some(COMMIT),
        NoneIsASave => Some(NONE),
        _ => None,
    };
    items.iter_mut().filter(|item| Some(**item) == wrongly_saved).for_each(|item| *item = COMMIT - 1);
    let answer = (PLAIN.forecast)(disc, marks, maps, s, l, table, record, &items, result);
    match (by, answer, &mut *result) {
        (ResultCleared, 1.., told) => told.fill(0),
        (IndexFromOne, 0, [12 | 16, index, _]) => *index += 1,
        (Exchanged, 0, [0, next, entries]) => std::mem::swap(next, entries),
        (RoomFirst, 0, told @ [12, _, _]) => {
            // where not even a commit fits there is no room for a save
            let at = told[1] as usize;
            let with_commit = [&items[..at], &[COMMIT]].concat();
            (PLAIN.forecast)(disc, marks, maps, s, l, table, record, &with_commit, told);
            let line = if told[0] == 16 { 16 } else { 12 };
            told.copy_from_slice(&[line, at as u32, 0]);
        }
        _ => {}
    }
    answer
}

/// The random lists have items that tell a forecast by another rule.
#[test]
fn other_rules_for_forecasts_are_found() {
    let by = |name, forecast| Layer { name, forecast, ..PLAIN };
    let wrong = [
        by("0x80000000 as a save", forecast_by::<0>),
        by("0xffffffff as a save", forecast_by::<1>),
        by("16 before 12", forecast_by::<2>),
        by("an index from 1", forecast_by::<3>),
        by("N and NWA exchanged", forecast_by::<4>),
        by("a result cleared where it is refused", forecast_by::<5>),
    ];
    for layer in wrong {
        is_found(&layer, 2_000, "then: what is handed back differs");
    }
}

// ---- layers that go by another rule in the space bitmap

/// The random bitmaps have ties, bits past L, a CRC over the bits, and runs that begin below the given block.
#[test]
fn other_rules_for_the_space_bitmap_are_found() {
    let higher_at_tie = Layer {
        name: "the higher of two",
        bitmap_find: |bitmap, l, wanted, near, result| {
            let answer = (PLAIN.bitmap_find)(bitmap, l, wanted, near, result);
            if let (0, [found]) = (answer, result) {
                let mirrored = near + near.saturating_sub(*found);
                if *found < near && (PLAIN.bitmap_take)(&mut bitmap.to_vec(), l, mirrored, wanted) == 0 {
                    *found = mirrored;
                }
            }
            answer
        },
        ..PLAIN
    };
    is_found(&higher_at_tie, 2_000, "then: what is handed back differs");
    let past_l = Layer {
        name: "bits past L",
        bitmap_count: |bitmap, l, result| {
            let answer = (PLAIN.bitmap_count)(bitmap, l, result);
            if let (0, [count]) = (answer, result) {
                let had = u32::from_le_bytes([bitmap[20], bitmap[21], bitmap[22], bitmap[23]]) as usize;
                *count = bitmap[24..24 + had].iter().map(|byte| byte.count_ones()).sum();
            }
            answer
        },
        ..PLAIN
    };
    is_found(&past_l, 2_000, "then: what is handed back differs");
    let crc_kept = Layer {
        name: "no CRC renewed",
        bitmap_take: |bitmap, l, first, count| {
            let kept = bitmap.to_vec();
            let answer = (PLAIN.bitmap_take)(bitmap, l, first, count);
            if answer == 0 {
                bitmap[8..10].copy_from_slice(&kept[8..10]);
                bitmap[4] = kept[4];
            }
            answer
        },
        ..PLAIN
    };
    is_found(&crc_kept, 2_000, "then: the bitmap differs first at byte 4");
    let run_first = Layer {
        name: "32 before 12",
        bitmap_give_back: |bitmap, l, first, count| match (PLAIN.bitmap_give_back)(bitmap, l, first, count) {
            12 if u64::from(first) + u64::from(count) > u64::from(l) => 32,
            answer => answer,
        },
        ..PLAIN
    };
    is_found(&run_first, 2_000, "answers 32");
}

// ---- layers that read or write sparing tables by another rule

const NEWER: &[u8; 24] = b"\0*UDF Sparing Table\0\0\0\0\0";
const OLDER: &[u8; 24] = b"\0*OSTA UDF Sparing Table";

/// The sectors of the tables that a map list names, as far as they are on the disc.
fn tables_in(maps: &[u8], sectors: usize) -> Vec<usize> {
    if maps.len() != 64 {
        return Vec::new();
    }
    maps::table_sectors(maps).iter().map(|&t| t as usize).filter(|&t| t < sectors).collect()
}

fn is_marked(copy: &[u8]) -> bool {
    let count = usize::from(u16::from_le_bytes([copy[48], copy[49]]));
    copy[56..].chunks_exact(8).take(count).any(|entry| entry[..4] == DEFECTIVE.to_le_bytes())
}

/// The plain opening, but that each copy is altered before it is read.
fn open_altered(
    disc: &[u8],
    marks: &[u8],
    maps: &[u8],
    span: (u32, u32),
    table: &mut [u32],
    record: &mut [u32],
    alter: fn(&mut [u8]),
) -> u32 {
    let mut altered = disc.to_vec();
    for at in tables_in(maps, disc.len() / SECTOR) {
        alter(&mut altered[SECTOR * at..][..SECTOR]);
    }
    (PLAIN.open)(&altered, marks, maps, span.0, span.1, table, record)
}

/// The random discs have copies of both identifiers, defective spares and reserved originals: a layer that goes by another rule is found.
#[test]
fn other_rules_for_sparing_tables_are_found() {
    let open = |name, open| Layer { name, open, ..PLAIN };
    let opens = [
        open("an older copy with the mark", |disc, marks, maps, s, l, table, record| {
            open_altered(disc, marks, maps, (s, l), table, record, |copy| {
                if copy[16..40] == *OLDER && is_marked(copy) {
                    copy[16..40].copy_from_slice(NEWER);
                }
            })
        }),
        open("no older copy", |disc, marks, maps, s, l, table, record| {
            open_altered(disc, marks, maps, (s, l), table, record, |copy| {
                if copy[16..40] == *OLDER {
                    copy[16] = 1;
                }
            })
        }),
        open("0xfffffffe as a free spare", |disc, marks, maps, s, l, table, record| {
            open_altered(disc, marks, maps, (s, l), table, record, |copy| {
                let reserved = |entry: &&mut [u8]| entry[..4] == (NONE - 1).to_le_bytes();
                copy[56..].chunks_exact_mut(8).filter(reserved).for_each(|entry| entry[0] = 0xff);
            })
        }),
        open("no suffix", |disc, marks, maps, s, l, table, record| {
            open_altered(disc, marks, maps, (s, l), table, record, |copy| {
                if copy[40..48] != [0; 8] {
                    copy[16] = 1;
                }
            })
        }),
    ];
    for layer in opens {
        is_found(&layer, 2_000, &format!("then: {} answers", layer.name));
    }
    let older_kept = Layer {
        name: "the older identifier kept",
        spare_packet: |disc, marks, maps, s, l, table, record, b, packet, at, effect| {
            let before = disc.to_vec();
            let answer = (PLAIN.spare_packet)(disc, marks, maps, s, l, table, record, b, packet, at, effect);
            for at in tables_in(maps, disc.len() / SECTOR) {
                let name = SECTOR * at + 16..SECTOR * at + 40;
                if before[name.clone()] == *OLDER {
                    disc[name].copy_from_slice(OLDER);
                }
            }
            answer
        },
        ..PLAIN
    };
    is_found(&older_kept, 2_000, "differs first at byte");
}

// ---- layers that are wrong about spares in the partition

/// The random discs have such spares of every kind, and lists that name their blocks: a layer that goes by another rule is found.
#[test]
fn other_rules_for_spares_inside_are_found() {
    for (call, layer) in wrong_layers() {
        // an opening is seen by its table too, making by the disc
        let words = if ["open", "make"].contains(&call) { "then: ".to_string() } else { format!("then: {} answers", layer.name) };
        is_found(&layer, 3_000, &words);
    }
}

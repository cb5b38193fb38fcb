//! The process that holds a lock, as another one sees it: whether it makes progress, by what Linux tells of it in /proc/PID/stat (proc(5)).

use std::fs;
use std::time::{Duration, Instant};

/// What is told to who waits for an image that another process is writing.
#[derive(Clone, Copy, Debug, PartialEq, Eq)]
pub struct Waited {
    /// The number of that process, where its lock tells it.
    pub by: Option<u32>,
    /// How long this one has waited so far.
    pub time: Duration,
}

/// A process at a moment.
#[derive(Clone, Copy, Debug, PartialEq, Eq)]
struct Seen {
    process: u32,
    /// one that runs, or waits for a medium
    is_busy: bool,
    /// the processor time that all of its threads have taken
    time: u64,
}

impl Seen {
    /// Another process, where it can be looked at. Of its own process none can tell progress: it takes time by waiting.
    fn other(process: u32) -> Option<Seen> {
        let text = fs::read(format!("/proc/{process}/stat")).ok().filter(|_| process != std::process::id())?;
        Seen::from_stat(process, &String::from_utf8_lossy(&text))
    }

    /// The name of the command is the second field and stands in brackets; it may itself have brackets and spaces.
    fn from_stat(process: u32, text: &str) -> Option<Seen> {
        let (_, fields) = text.rsplit_once(')')?;
        let fields: Vec<&str> = fields.split_whitespace().collect();
        // of all fields, counted from 1, the state is the 3rd, and times in user and kernel mode are the 14th and the 15th
        let field = |number: usize| fields.get(number - 3);
        let time = |number: usize| field(number)?.parse::<u64>().ok();
        Some(Seen { process, is_busy: ["R", "D"].contains(field(3)?), time: time(14)?.saturating_add(time(15)?) })
    }

    /// Whether something was done since an earlier look, by this process or by one that held the lock before.
    fn has_moved_since(&self, earlier: &Seen) -> bool {
        (self.process, self.time) != (earlier.process, earlier.time)
    }
}

/// Who waits for the holder of a lock.
pub(super) struct Watch {
    begun: Instant,
    /// when progress was last seen
    moved: Instant,
    seen: Option<Seen>,
}

impl Watch {
    pub(super) fn new() -> Watch {
        let begun = Instant::now();
        Watch { begun, moved: begun, seen: None }
    }

    /// Looks at the process that holds the lock.
    pub(super) fn look(&mut self, by: Option<u32>) -> Waited {
        let seen = by.and_then(Seen::other);
        if seen.is_some_and(|now| now.is_busy || self.seen.is_some_and(|earlier| now.has_moved_since(&earlier))) {
            self.moved = Instant::now();
        }
        self.seen = seen;
        Waited { by, time: self.begun.elapsed() }
    }

    /// How long no progress has been seen.
    pub(super) fn still(&self) -> Duration {
        self.moved.elapsed()
    }
}

#[cfg(test)]
mod tests {
    use super::*;

    fn stat(name: &str, state: char) -> String {
        format!("77 ({name}) {state} 1 77 77 34816 77 4194304 105 2 0 0 300 45 8 9 20 0 1 0 6200 5668864 256\n")
    }

    #[test]
    fn a_name_with_brackets_and_spaces_is_no_hindrance() {
        for name in ["tuormik", "a b", "a) R 1 2 (b", ") ", "", "(("] {
            for (state, is_busy) in [('R', true), ('D', true), ('S', false), ('T', false), ('Z', false)] {
                assert_eq!(Seen::from_stat(77, &stat(name, state)), Some(Seen { process: 77, is_busy, time: 345 }), "{name} {state}");
            }
        }
    }

    #[test]
    fn what_is_no_stat_tells_nothing() {
        let text = stat("tuormik", 'S');
        let fields: Vec<&str> = text.split(' ').collect();
        assert_eq!(Seen::from_stat(77, &fields[..14].join(" ")), None);
        assert!(Seen::from_stat(77, &fields[..15].join(" ")).is_some());
        for text in ["", "77", "77 (tuormik", "77 (tuormik)", "77 (tuormik) S 1 2 3 4 5 6 7 8 9 10 x y"] {
            assert_eq!(Seen::from_stat(77, text), None, "{text}");
        }
    }

    #[test]
    fn progress_is_time_taken_or_another_holder() {
        let earlier = Seen { process: 77, is_busy: false, time: 345 };
        assert!(!earlier.has_moved_since(&earlier));
        assert!(Seen { time: 346, ..earlier }.has_moved_since(&earlier));
        assert!(Seen { process: 78, ..earlier }.has_moved_since(&earlier));
    }

    #[test]
    fn its_own_process_and_none_at_all_are_not_looked_at() {
        let mut watch = Watch::new();
        for by in [None, Some(std::process::id()), Some(u32::MAX)] {
            assert_eq!((watch.look(by).by, watch.seen), (by, None));
        }
        assert_eq!(watch.moved, watch.begun);
    }
}

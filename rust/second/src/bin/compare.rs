//! Holds the proved library against the plain implementation on random lists of calls.
//!
//!     cargo run --release -p tuormik-second --bin compare -- [SEED [CASES [FIRST]]]

use std::process::ExitCode;
use std::time::Instant;
use tuormik_second::compare::compare_cases;
use tuormik_second::layer::{PLAIN, PROVED};

const USAGE: &str = "usage: compare [SEED [CASES [FIRST]]]
Compares the proved library with the plain implementation on CASES random lists of calls (1,000) of SEED (1), from number FIRST (0) on.";

fn main() -> ExitCode {
    let mut numbers = [1, 1000, 0];
    let words: Vec<String> = std::env::args().skip(1).collect();
    if words.len() > numbers.len() {
        eprintln!("{USAGE}");
        return ExitCode::from(2);
    }
    for (to, word) in numbers.iter_mut().zip(&words) {
        match word.replace(',', "").parse() {
            Ok(number) => *to = number,
            Err(_) => {
                eprintln!("{USAGE}");
                return ExitCode::from(2);
            }
        }
    }
    let [seed, cases, first] = numbers;
    let begun = Instant::now();
    let mut shown = begun;
    let compared = compare_cases(&PROVED, &PLAIN, seed, first..first.saturating_add(cases), |number, calls| {
        if shown.elapsed().as_secs() >= 5 {
            shown = Instant::now();
            eprintln!("seed {seed}: case {number}, {calls} calls, {} s", begun.elapsed().as_secs());
        }
    });
    match compared {
        Ok(tally) => {
            print!("{tally}");
            println!("seed {seed}, cases {first} to {}: {} calls, no difference", first + cases.max(1) - 1, tally.calls());
            ExitCode::SUCCESS
        }
        Err(difference) => {
            print!("{difference}");
            ExitCode::from(1)
        }
    }
}

// The Rust beside it: compares the exports of our static libraries with the crate's own functions,
// value by value. Without an argument in the short form, with `long` in the long one; with
// `compound` only the answers for pairs. With `bench` it measures both instead, with `vectors` it
// writes the files that the crates' programs are run with, with `answers` it answers the pairs that
// it reads, with `midpoints` it lists the pairs with a whole exponent that may be misrounded, and
// with `lines` and a number it writes batches of so many lines for measuring fade.

#![allow(dead_code)]

mod answers;
mod batch;
mod bench;
mod bits;
mod checks;
mod common;
mod compare;
mod compound;
mod double_double;
mod draw;
mod dyadic_float;
mod edges;
mod files;
mod lines;
mod ours;
mod random;
mod rounding;
mod sample;
mod told;
mod values;
mod vectors;

use checks::{document_pairs, listed_pairs, Check, CHECKS, DRAWN_PAIRS, PAIRS, SWEEPS};
use compare::Tally;
use std::process::ExitCode;
use values::Share;

// The branches of the Rust that we port are those for a machine without these.
const _: () = assert!(!cfg!(target_feature = "fma") && !cfg!(target_feature = "sse4.1"));
const _: () = assert!(cfg!(target_arch = "x86_64"));

// How many random values a thread draws: in the short form, in the long one, and there of pairs.
const SHORT: u64 = 10_000_000;
const LONG: u64 = 36_000_000;
const LONG_PAIRS: u64 = 500_000_000;

// Does what the arguments say.
fn main() -> ExitCode {
    let words: Vec<String> = std::env::args().skip(1).collect();
    let equal = match words.iter().map(String::as_str).collect::<Vec<_>>()[..] {
        [] => compare(false, true),
        ["long"] => compare(true, true),
        ["compound"] => compare(false, false),
        ["long", "compound"] => compare(true, false),
        ["bench"] => {
            bench::bench();
            return ExitCode::SUCCESS;
        }
        ["vectors"] => {
            files::write(&vectors::files(&vectors::list()));
            files::write(&sample::files());
            return ExitCode::SUCCESS;
        }
        ["answers"] => {
            answers::answer();
            return ExitCode::SUCCESS;
        }
        ["midpoints"] => {
            answers::near_midpoints();
            return ExitCode::SUCCESS;
        }
        ["lines", count] => {
            sample::write_timed(count.parse().expect("lines wants a number"));
            return ExitCode::SUCCESS;
        }
        _ => {
            eprintln!("oracle: the arguments are [long] [compound], bench, vectors,");
            eprintln!("  lines [count], accuracy every, accuracy [slow] [count] [range]...;");
            eprintln!("  of the program itself also answers, midpoints");
            return ExitCode::from(2);
        }
    };
    println!("oracle: {}", if equal { "all equal" } else { "DIFFERENCES FOUND" });
    ExitCode::from(!equal as u8)
}

// Runs the checks, those of the parts too if wanted, and prints a line for each.
fn compare(long: bool, parts: bool) -> bool {
    println!("seed: {:016x}", random::SEED);
    let mut equal = document_pairs().report("pairs of document 01");
    if parts {
        for check in CHECKS {
            equal &= run(check, long, if long { LONG } else { SHORT }).report(check.0);
        }
    }
    equal &= compare_compound(long);
    if parts {
        equal &= compare_batches();
    }
    equal
}

// The checks of the batches: the plain program for them, and their files.
fn compare_batches() -> bool {
    let equal = sample::plain_program().report("batch lines, by the plain program");
    equal & compare_files(&sample::files())
}

// Each file on the disk beside what would be written now.
fn compare_files(files: &[files::File]) -> bool {
    files.iter().fold(true, |equal, file| equal & files::on_disk(file).report(file.0))
}

// The checks of the answers for pairs.
fn compare_compound(long: bool) -> bool {
    let mut equal = true;
    let midpoints = [draw::midpoints(), draw::almost_midpoints()].concat();
    let list = vectors::list();
    for (name, pairs) in [
        ("compoundf, pairs of document 01", &PAIRS.map(|row| row.0)[..]),
        ("compoundf, answers by midpoints", &midpoints),
        ("compoundf, pairs of the replay", &list),
    ] {
        equal &= listed_pairs(pairs).report(name);
    }
    equal &= compare_files(&vectors::files(&list));
    let drawn = run(DRAWN_PAIRS, long, if long { LONG_PAIRS } else { SHORT });
    equal &= drawn.report(DRAWN_PAIRS.0) & drawn.reaches_all_routes();
    for check in SWEEPS.into_iter().filter(|_| long) {
        equal &= run(check, long, 0).report(check.0);
    }
    equal
}

// One check: on one thread in the short form, on two in the long one.
fn run((_, compare): Check, long: bool, random: u64) -> Tally {
    let parts = if long { 2 } else { 1 };
    std::thread::scope(|scope| {
        let start = |part| {
            scope.spawn(move || {
                let mut tally = Tally::default();
                compare(&mut tally, &Share { part, parts, long, random });
                tally
            })
        };
        let threads: Vec<_> = (0..parts).map(start).collect();
        let tallies = threads.into_iter().map(|thread| thread.join().expect("a check failed"));
        tallies.fold(Tally::default(), Tally::plus)
    })
}

//! Compares the proved library with the second calculation, and measures both.
//!
//! Arguments, both optional: a seed and a number of sheets.

mod answers;
mod before;
mod check;
mod damage;
mod desk;
mod draft;
mod drifts;
mod eaves;
#[cfg(not(test))]
mod ffi;
mod fuzz;
mod halls;
mod jobs;
mod layouts;
mod measure;
mod moves;
mod pairs;
mod parapets;
mod random;
mod segments;
mod sets;
mod stores;
mod tally;
mod tenths;
mod turns;

use std::env;
use std::process::ExitCode;
use std::time::Instant;

use fuzz::Fuzz;
/// In tests the second calculation takes the library's place.
#[cfg(test)]
use second::calls as ffi;

const SEED: u64 = 20_031_991;
const SHEETS: u64 = 48_000;
/// Each with a sound store. Those up to request A7 have no dated sites, so it changes no answer.
const SWEEPS: [fn(&mut Fuzz); 17] = [
    Fuzz::sweep,
    Fuzz::sweep_map,
    Fuzz::sweep_codes,
    Fuzz::sweep_refused,
    Fuzz::sweep_drifts,
    Fuzz::sweep_pairs,
    Fuzz::sweep_tenths,
    Fuzz::sweep_eaves,
    Fuzz::sweep_desk,
    Fuzz::sweep_halls,
    Fuzz::sweep_jobs,
    Fuzz::sweep_sets,
    Fuzz::sweep_parapets,
    Fuzz::sweep_layouts,
    Fuzz::sweep_segments,
    Fuzz::sweep_turns,
    Fuzz::sweep_moves,
];
/// A run of the usual size is to reach this.
const LEAST: u64 = 1_000_000;

fn main() -> ExitCode {
    let Some((seed, sheets)) = arguments() else {
        eprintln!("usage: compare [SEED [SHEETS]]");
        return ExitCode::from(2);
    };
    println!("SEED {seed}");
    let start = Instant::now();
    let mut fuzz = Fuzz::new(seed);
    for sweep in SWEEPS {
        fuzz.lend_any();
        sweep(&mut fuzz);
    }
    fuzz.run(sheets);
    let tally = &fuzz.checker.tally;
    tally.print();
    println!("SECONDS {:.1}", start.elapsed().as_secs_f64());
    if tally.agrees() {
        measure::print(seed);
    }
    let enough = sheets < SHEETS || tally.comparisons() >= LEAST;
    if tally.is_good() && enough {
        ExitCode::SUCCESS
    } else {
        ExitCode::FAILURE
    }
}

/// The seed and the number of sheets, unless an argument is no number.
fn arguments() -> Option<(u64, u64)> {
    let mut given = env::args().skip(1).map(|text| text.parse().ok());
    let seed = given.next().unwrap_or(Some(SEED))?;
    let sheets = given.next().unwrap_or(Some(SHEETS))?;
    Some((seed, sheets))
}

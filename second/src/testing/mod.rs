//! Everything that `test` runs.

mod buslogs;
mod buslogs_rows;
mod choices;
mod clears;
mod cost;
pub mod coverage;
mod demand3;
mod failing;
mod failing_rows;
mod fixed;
mod heard;
mod held;
mod held_rows;
mod held_run;
mod levels;
mod listed;
mod listed_rows;
mod log;
mod names;
mod nesting;
mod nothing;
mod nothing_met;
mod nothing_rows;
mod panel;
mod panel_others;
mod panel_rows;
mod play;
mod play_rows;
mod played;
mod ports;
mod properties;
mod reach;
mod recorded;
mod skipping;
mod traces;
mod visits;
mod visits_rows;
mod walk;

use std::collections::BTreeSet;
use std::panic::{AssertUnwindSafe, catch_unwind};

use crate::cases::buslogs::{BusLog, bus_log};
use crate::cases::pairs::{Pair, pair};
use crate::cases::{Case, Cases, Made};
use coverage::Coverage;
pub use recorded::{
    AskedBusLog, AskedBusLogRun, AskedHold, AskedHoldRun, AskedList, AskedListingRun, AskedPanel,
    AskedPanelRun, AskedRead,
};

/// Each seed's first cases are run.
const SEEDS: [u64; 4] = [1, 2026, 0xC0FFEE, 0x5EED_5EED_5EED_5EED];
const CASES_EACH: usize = 5600;
/// And each seed's first pairs of runs (request Q-14).
const PAIRS_EACH: usize = 1000;
/// And each seed's first bus logs (request Q-12).
const LOGS_EACH: usize = 3000;

#[derive(Default)]
struct Tally {
    passed: usize,
    failed: usize,
}

impl Tally {
    fn note(&mut self, name: &str, outcome: Result<(), String>) {
        match outcome {
            Ok(()) => self.passed += 1,
            Err(what) => {
                self.failed += 1;
                println!("FAILED {name}: {what}");
            }
        }
    }
}

/// Runs all cases, prints what they met, and says whether all is well. The
/// last line is the count.
pub fn test() -> bool {
    let mut tally = Tally::default();
    // A panic is reported with its case's name, not on its own.
    std::panic::set_hook(Box::new(|_| {}));
    for ran in run_fixed() {
        tally.note(ran.name, ran.outcome.and_then(|()| fixed_nesting(&ran.asked)));
    }
    let fixed = tally.passed + tally.failed;
    let mut coverage = Coverage::new();
    // Two seeds at a time, for the machine has two cores.
    for seeds in SEEDS.chunks(2) {
        let ran: Vec<_> = std::thread::scope(|scope| {
            let threads: Vec<_> = seeds.iter().map(|&s| scope.spawn(move || run_seed(s))).collect();
            threads.into_iter().map(|thread| thread.join().expect("panics are caught")).collect()
        });
        for (outcomes, met) in ran {
            outcomes.into_iter().for_each(|(name, outcome)| tally.note(&name, outcome));
            coverage.add(&met);
        }
    }
    let (pairs, logs) = (SEEDS.len() * PAIRS_EACH, SEEDS.len() * LOGS_EACH);
    let generated = tally.passed + tally.failed - fixed - pairs - logs;
    println!("cases  coverage\n{coverage}");
    for row in coverage.missing() {
        tally.failed += 1;
        println!("FAILED no case met: {row}");
    }
    println!(
        "{fixed} fixed cases, {generated} generated cases, {pairs} pairs of runs, {logs} bus logs"
    );
    println!("{} passed, {} failed", tally.passed, tally.failed);
    tally.failed == 0
}

/// A seed's first cases, each with its name, and what they met.
fn run_seed(seed: u64) -> (Vec<(String, Result<(), String>)>, Coverage) {
    let mut coverage = Coverage::new();
    let run = |(number, made): (usize, Made)| {
        (format!("case {number} of seed {seed}"), generated(&made, &mut coverage))
    };
    let mut outcomes: Vec<_> = Cases::new(seed).take(CASES_EACH).enumerate().map(run).collect();
    outcomes.extend((0..PAIRS_EACH).map(|number| {
        let tried = paired(|| pair(seed, number), &mut coverage);
        (format!("pair {number} of seed {seed}"), tried)
    }));
    outcomes.extend((0..LOGS_EACH).map(|number| {
        let tried = logged(|| bus_log(seed, number), &mut coverage);
        (format!("bus log {number} of seed {seed}"), tried)
    }));
    (outcomes, coverage)
}

/// A fixed case that was run: whether it held, and what it asked of the rules.
pub struct Ran {
    pub name: &'static str,
    pub outcome: Result<(), String>,
    pub asked: Vec<Case>,
    /// The panels it asked for, and the panel's program (request Q-13).
    pub panels: Vec<AskedPanel>,
    pub panel_runs: Vec<AskedPanelRun>,
    /// The suppliers' logs it held against ours, and the log's program (request Q-7).
    pub holds: Vec<AskedHold>,
    pub hold_runs: Vec<AskedHoldRun>,
    /// The tables it listed, the texts it read, and the programs for these (request Q-4).
    pub lists: Vec<AskedList>,
    pub reads: Vec<AskedRead>,
    pub listing_runs: Vec<AskedListingRun>,
    /// The bus logs it converted, and the programs for these (request Q-12).
    pub bus_logs: Vec<AskedBusLog>,
    pub bus_log_runs: Vec<AskedBusLogRun>,
}

/// Runs the fixed cases for another program to be asked the same.
pub fn run_fixed() -> Vec<Ran> {
    fixed::all().into_iter().map(ran).collect()
}

fn ran((name, case): (&'static str, fn())) -> Ran {
    let outcome = catch_unwind(case).map_err(|panic| panic_text(&*panic));
    Ran {
        name,
        outcome,
        asked: recorded::asked(),
        panels: recorded::panels(),
        panel_runs: recorded::panel_runs(),
        holds: recorded::holds(),
        hold_runs: recorded::hold_runs(),
        lists: recorded::lists(),
        reads: recorded::reads(),
        listing_runs: recorded::listing_runs(),
        bus_logs: recorded::bus_logs(),
        bus_log_runs: recorded::bus_log_runs(),
    }
}

/// The tables that the fixed cases of request Q-4 list, each with the bytes of room lent; all
/// different.
pub fn fixed_listings() -> Vec<(Vec<u32>, usize)> {
    let ran = fixed::listing_cases().into_iter().map(ran);
    let asked = ran.flat_map(|ran| ran.lists).map(|asked| (asked.table, asked.lent.len()));
    asked.collect::<BTreeSet<_>>().into_iter().collect()
}

/// The texts that they read, each with the words of room lent; all different.
pub fn fixed_reads() -> Vec<(Vec<u8>, usize)> {
    let ran = fixed::listing_cases().into_iter().map(ran);
    let asked = ran.flat_map(|ran| ran.reads).map(|asked| (asked.text, asked.lent.len()));
    asked.collect::<BTreeSet<_>>().into_iter().collect()
}

/// The texts alone, those of the programs too; all different.
pub fn fixed_texts() -> Vec<Vec<u8>> {
    let mut texts = BTreeSet::new();
    for ran in fixed::listing_cases().into_iter().map(ran) {
        texts.extend(ran.reads.into_iter().map(|asked| asked.text));
        let runs = ran.listing_runs.into_iter().filter(|asked| !asked.lists);
        texts.extend(runs.map(|asked| asked.file));
    }
    texts.into_iter().collect()
}

/// The bus logs that the fixed cases of request Q-12 convert, in order.
pub fn fixed_bus_logs() -> Vec<AskedBusLog> {
    fixed::buslog_cases().into_iter().map(ran).flat_map(|ran| ran.bus_logs).collect()
}

/// The files that its programs are asked in them.
pub fn fixed_bus_log_runs() -> Vec<AskedBusLogRun> {
    fixed::buslog_cases().into_iter().map(ran).flat_map(|ran| ran.bus_log_runs).collect()
}

/// What a fixed case asked, tried for its nesting.
fn fixed_nesting(asked: &[Case]) -> Result<(), String> {
    let tried = catch_unwind(|| asked.iter().try_for_each(|c| nesting::try_asked(c).map(|_| ())));
    tried.map_err(|panic| panic_text(&*panic))?
}

/// Tries everything on a generated case and counts what it met.
pub fn generated(made: &Made, coverage: &mut Coverage) -> Result<(), String> {
    let tried = catch_unwind(|| properties::try_case(made));
    let met = tried.map_err(|panic| panic_text(&*panic))??;
    coverage.count(&met).map_err(|row| format!("met what cannot be: {row}"))
}

/// Tries a pair of runs and counts what it met. It is made in here, for making it runs the rules.
pub fn paired(make: impl Fn() -> Pair, coverage: &mut Coverage) -> Result<(), String> {
    let tried = catch_unwind(AssertUnwindSafe(|| nothing::try_pair(&make())));
    let met = tried.map_err(|panic| panic_text(&*panic))??;
    coverage.count(&met).map_err(|row| format!("met what cannot be: {row}"))
}

/// Tries a bus log and counts what it met. It is made in here, for making it runs the rules.
pub fn logged(make: impl Fn() -> BusLog, coverage: &mut Coverage) -> Result<(), String> {
    let tried = catch_unwind(AssertUnwindSafe(|| buslogs::try_bus_log(&make())));
    let met = tried.map_err(|panic| panic_text(&*panic))??;
    coverage.count(&met).map_err(|row| format!("met what cannot be: {row}"))
}

fn panic_text(panic: &(dyn std::any::Any + Send)) -> String {
    let text = panic.downcast_ref::<String>().map(String::as_str);
    text.or(panic.downcast_ref::<&str>().copied()).unwrap_or("panicked").to_string()
}

//! `compare buslogs`: bus logs that are drawn, and real lines that are damaged, through both sides.

mod programs;
mod real;
mod recorded;

use std::fmt;

use second::cases::buslogs::bus_log;
use second::cases::prng::Prng;
use second::testing;
use second::testing::coverage::Coverage;

pub use programs::{CANLOG, DAY, programs};
pub use real::{Real, networks};
pub use recorded::recorded;

use crate::differ::Difference;
use crate::differ::buslogs::{AskedLog, Logs, compare_log};
use crate::generated::{seeds, told_log, two_at_a_time};
use crate::rows::Of;
use crate::subject::{Proved, Subject};

/// Of so many drawings one is tried by the second program's own tests too, which are slow, for the rows.
const ROWS: usize = 8;

/// What drawings have shown.
pub struct Met {
    drawn: usize,
    damaged: usize,
    logs: Logs,
    coverage: Coverage,
}

impl Met {
    pub fn none() -> Self {
        Met { drawn: 0, damaged: 0, logs: Logs::default(), coverage: Coverage::new() }
    }

    fn add(&mut self, more: &Met) {
        self.drawn += more.drawn;
        self.damaged += more.damaged;
        self.logs += more.logs;
        self.coverage.add(&more.coverage);
    }
}

impl fmt::Display for Met {
    fn fmt(&self, f: &mut fmt::Formatter) -> fmt::Result {
        let Met { drawn, damaged, logs, .. } = self;
        write!(f, "{drawn} bus logs drawn, {damaged} of real lines damaged; {logs}")
    }
}

/// Seeds, each with how many of its first drawings are run; two seeds at a time.
pub fn buslogs(words: &[&str]) -> Result<(), String> {
    let (mut met, real) = (Met::none(), Real::all()?);
    for more in two_at_a_time(&seeds(words)?, |seed| run_seed(seed, &real))? {
        met.add(&more);
    }
    println!("{met}: no difference");
    met.logs.all_met()?;
    Of::Logs.all_met(&met.coverage)
}

fn run_seed(&(seed, count): &(u64, usize), real: &[Real]) -> Result<Met, String> {
    let mut met = Met::none();
    for number in 0..count {
        compare_drawing(&Proved, seed, number, real, &mut met).map_err(|difference| {
            told(&Proved, &format!("bus log {number} of seed {seed}"), difference)
        })?;
        if number % ROWS == 0 {
            testing::logged(|| bus_log(seed, number), &mut met.coverage).map_err(|what| {
                format!("bus log {number} of seed {seed}, second program: {what}")
            })?;
        }
    }
    Ok(met)
}

/// Everything both sides say of a drawing; and of some real lines, damaged.
pub fn compare_drawing(
    subject: &impl Subject,
    seed: u64,
    number: usize,
    real: &[Real],
    met: &mut Met,
) -> Result<(), Difference> {
    met.drawn += 1;
    met.logs += compare_log(subject, &AskedLog::from(bus_log(seed, number)))?;
    if number % 4 == 1 {
        met.damaged += 1;
        let mut rng = Prng::new(seed ^ (number as u64) << 32 ^ 0x12);
        met.logs += compare_log(subject, &Real::damaged(real, &mut rng))?;
    }
    Ok(())
}

/// What differs, made small; it is always a bus log.
pub fn told(subject: &impl Subject, name: &str, difference: Difference) -> String {
    match &difference.log {
        Some(asked) => told_log(subject, name, asked),
        None => format!("{name}: {difference}"),
    }
}

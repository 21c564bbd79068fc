//! A supplier's log held by the program, beside the second program: of a day on the marked table, and of an hour on the truck, whose
//! day would be a log of 3.5 GB.

use std::time::{Duration, Instant};

use super::day::TICKS;
use super::{MARKED, example, marked_run, target};
use crate::kind::{Kind, Log};
use crate::programs::{Program, bytes};

const REPEATS: usize = 3;
const HOUR: usize = TICKS / 24;

pub fn bench_hold(command: &[&str]) -> Result<(), String> {
    println!("a supplier's log held by the program, all as ordered, best of {REPEATS}");
    both(
        &format!("marked table, a day of {TICKS} ticks"),
        &MARKED,
        ticking(&marked_run(), TICKS),
        command,
    )?;
    match example("truck") {
        Some([table, run]) => {
            both(&format!("truck, an hour of {HOUR} ticks"), &table, ticking(&run, HOUR), command)
        }
        None => {
            println!("truck: missing (examples/truck.table, examples/truck.events)");
            Ok(())
        }
    }
}

/// A run, and then ticks up to so many events in all.
fn ticking(run: &[u32], length: usize) -> Vec<u32> {
    run.iter().copied().chain(std::iter::repeat(0)).take(length).collect()
}

/// The second program is started as `second hold`, with the same three files; what both print is one line.
fn both(name: &str, table: &[u32], events: Vec<u32>, command: &[&str]) -> Result<(), String> {
    let folder = target().join("compare/bench").to_string_lossy().into_owned();
    let judge = target().join("second/release/second").to_string_lossy().into_owned();
    let second = [judge.as_str(), "hold"];
    let (second, proved) = (Program::new(&folder, &second)?, Program::new(&folder, command)?);
    let count = events.len();
    let (table, events) = (bytes(table, 0), bytes(&events, 0));
    let log = Log::Own.bytes(&table, &events);
    proved.write(&table, &events)?;
    proved.write_log(Some(&log))?;
    println!("{name}: {count} events, a log of {} bytes", log.len());
    drop((table, events, log));
    let kind = Kind::Hold { log: Log::Own, all: false };
    let mut times = vec![];
    for (who, program) in [("proved", &proved), ("second", &second)] {
        let mut best = Duration::MAX;
        for _ in 0..REPEATS {
            let start = Instant::now();
            let output = program.start(&kind)?;
            best = best.min(start.elapsed());
            let due = format!("{count} events: all as our tables order\n");
            if output.stdout != due.as_bytes() || !output.stderr.is_empty() {
                return Err(format!("{name}, {who}: {output:?}"));
            }
        }
        let each = best.as_nanos() as f64 / count as f64;
        println!("  {who} program: {best:.2?}, {each:.0} ns an event");
        times.push(best.as_secs_f64());
    }
    println!("  ratio {:.2}", times[0] / times[1]);
    proved.remove_log()
}

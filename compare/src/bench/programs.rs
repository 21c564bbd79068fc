//! `compare bench-programs`: both programs on 400,000 events.

use std::collections::hash_map::DefaultHasher;
use std::hash::{Hash, Hasher};
use std::time::{Duration, Instant};

use super::{MARKED, example, marked_run, target};
use crate::kind::Kind;
use crate::programs::{Program, bytes};

const EVENTS: usize = 400_000;
const REPEATS: usize = 3;

pub fn programs(command: &[&str]) -> Result<(), String> {
    println!("{EVENTS} events, best of {REPEATS}, with the start of the program and its output");
    both("marked table", &MARKED, &marked_run(), command)?;
    match example("truck") {
        Some([table, events]) => both("truck", &table, &events, command),
        None => {
            println!("truck: missing (examples/truck.table, examples/truck.events)");
            Ok(())
        }
    }
}

/// The run over and over, the state passed on, by both programs.
fn both(name: &str, table: &[u32], run: &[u32], command: &[&str]) -> Result<(), String> {
    let events: Vec<u32> = run.iter().copied().cycle().take(EVENTS).collect();
    let judge = target().join("second/release/second").to_string_lossy().into_owned();
    let folder = target().join("compare/bench").to_string_lossy().into_owned();
    let (table, events) = (bytes(table, 0), bytes(&events, 0));
    let (proved, by_proved) = timed(&Program::new(&folder, command)?, &table, &events)?;
    let (second, by_second) = timed(&Program::new(&folder, &[&judge, "run"])?, &table, &events)?;
    let ratio = proved.as_secs_f64() / second.as_secs_f64();
    println!("{name}: proved {proved:.2?}, second {second:.2?}, ratio {ratio:.2}");
    println!("  output {} bytes, hash {:016X}", by_proved.0, by_proved.1);
    if by_proved == by_second {
        return Ok(());
    }
    Err(format!("the second program's has {} bytes, hash {:016X}", by_second.0, by_second.1))
}

/// The best time, and the output's length and hash.
fn timed(
    program: &Program,
    table: &[u8],
    events: &[u8],
) -> Result<(Duration, (usize, u64)), String> {
    program.write(table, events)?;
    let (mut best, mut told) = (Duration::MAX, (0, 0));
    for _ in 0..REPEATS {
        let start = Instant::now();
        let output = program.start(&Kind::Run)?;
        best = best.min(start.elapsed());
        let mut hasher = DefaultHasher::new();
        output.stdout.hash(&mut hasher);
        told = (output.stdout.len(), hasher.finish());
    }
    Ok((best, told))
}

//! `compare bench`: the proved event call beside another commit's, the
//! yardstick's and the second program's, in one run. What is timed is compared
//! first.

mod before;
mod buslogs;
mod clock;
mod day;
mod editions;
mod holds;
mod hostile;
mod listings;
mod logs;
mod panels;
mod programs;
mod sized;
#[cfg(test)]
mod tests;
mod times;
mod timing;
mod visits;
mod wide;

use std::fs;
use std::hint::black_box;
use std::path::{Path, PathBuf};

use second::program::words;

pub use buslogs::{bench_canlog, buslogs as bench_buslogs};
pub use clock::Clock;
pub use day::{bench_day, day};
use hostile::Hostile;
pub use listings::{listings as bench_listings, longest};
pub use logs::bench_hold;
pub use programs::programs;
use times::{Run, Times};
use timing::{Work, best};

/// The names of the columns, each at its width.
const ROWS: &str =
    " words     B   trace   visits    before    proved yardstick    second    p/b    p/y    p/s";
const HOSTILE_ROWS: &str =
    " words reason   visits     check    before     event yardstick    second    p/b    p/y";

/// Hostile tables stay under 2 ms a call.
const MOST: f64 = 2_000_000.0;

pub const MARKED: [u32; 12] = [
    0x0102_0100, 0x0001_0001, 0x0001_0002, 0x0100_0000, 0x2100_0000, 0x1010_2000, 0x030A_0005,
    0x0000_5000, 0x1000_00FF, 0x1838_0002, 0x4000_0002, 0x0000_1234,
];

/// The marked run from its request to the settled network.
pub fn marked_run() -> Vec<u32> {
    [&[0x1100_0500, 0, 0x5100_0000][..], &[0; 8]].concat()
}

/// A table's and a run's words, if the files are there.
pub fn example(name: &str) -> Option<[Vec<u32>; 2]> {
    let folder = Path::new(env!("CARGO_MANIFEST_DIR")).join("../examples");
    let read = |kind: &str| fs::read(folder.join(name).with_extension(kind)).ok();
    Some([words(&read("table")?), words(&read("events")?)])
}

/// Where the repository's builds are.
fn target() -> PathBuf {
    Path::new(env!("CARGO_MANIFEST_DIR")).join("../target")
}

pub fn bench() -> Result<(), String> {
    println!(
        "ns per event, best of five, the sides in turn; trace words and visits per event; before is the"
    );
    println!(
        "proved code of the commit that tools/bench was given; p/b, p/y and p/s are the proved"
    );
    println!("code's time by before's, the yardstick's and the second program's");
    println!("{:<44}{ROWS}", "");
    row("marked table, its run", &MARKED, &marked_run(), &[])?;
    match example("truck") {
        Some([table, events]) => row("truck, its run", &table, &events, &[])?,
        None => println!("truck: missing (examples/truck.table, examples/truck.events)"),
    }
    let large = sized::sized(68).words();
    row("large table, mixed events", &large, &sized::events(), &[])?;
    row("large table, request that starts 68 lists", &large, &sized::events()[..1], &[])?;
    row("large table, tick with nothing marked", &large, &[0], &[])?;
    println!("growth: lists and expressions three deep, mixed events");
    for blocks in [3, 9, 29, 85] {
        row(&format!("{blocks} blocks"), &sized::sized(blocks).words(), &sized::events(), &[])?;
    }
    println!("editions: edition 2 beside edition 1, outcomes lent with each event");
    for editions::Lending { name, draft, events, outcomes } in editions::all() {
        row(&name, &draft.words(), &events, &outcomes)?;
    }
    println!("a rule on 64 conditions joined seven deep, and a request that has it evaluated");
    for wide in wide::ALL {
        let draft = wide.draft();
        let name = format!("64 conditions, {}", wide.name);
        row(&name, &draft.words(), &[wide::request(&draft)], &[])?;
    }
    visits::prices()?;
    panels::panels()?;
    holds::holds()?;
    listings::listings()?;
    buslogs::buslogs()?;
    hostile_tables()
}

/// The times of runs that take turns.
fn times<const RUNS: usize>(name: &str, runs: [Run; RUNS]) -> Result<[Times; RUNS], String> {
    let times = Times::of(before::LINKED.as_ref(), &Clock, &runs);
    let times = times.map_err(|what| format!("{name}: {what}"))?;
    times.try_into().map_err(|_| format!("{name}: not a time for each run"))
}

/// One line of an accepted table, the outcomes lent with each event.
fn row(name: &str, table: &[u32], events: &[u32], outcomes: &[u32]) -> Result<(), String> {
    let check = second::check(table);
    if check.reason != 0 {
        return Err(format!("{name}: {check:?}"));
    }
    let [times] = times(name, [Run::fresh(table, events, outcomes)])?;
    let [before, by_before, why] = times.beside(&times.before, 1.0, 0);
    let [yardstick, by_yardstick, why_too] = times.beside(&times.yardstick, 1.0, 0);
    let Times { proved, second, written, visits, .. } = times;
    let (words, b, by_second) = (table.len(), check.b, proved / second);
    let [trace, visits] = [written as f64, visits as f64].map(|all| all / events.len() as f64);
    println!(
        "{name:<44}{words:>6}{b:>6}{trace:>8.1}{visits:>9.1}{before:>10}{proved:>10.0}{yardstick:>10}\
         {second:>10.0}{by_before:>7}{by_yardstick:>7}{by_second:>7.2}{why}{why_too}"
    );
    Ok(())
}

/// The tables made to be slow, by the proved check and by event.
fn hostile_tables() -> Result<(), String> {
    println!("hostile tables: microseconds a call, best of five, the sides in turn");
    println!("{:<44}{HOSTILE_ROWS}", "");
    let (mut slowest, mut accepted): (f64, _) = (0.0, (0.0, String::new()));
    for hostile in hostile::all() {
        let (reason, time) = hostile_row(&hostile)?;
        slowest = slowest.max(time);
        if reason == 0 && time > accepted.0 {
            accepted = (time, hostile.name);
        }
    }
    println!("slowest proved call: {:.1} us; OVER is above 2 ms", slowest / 1000.0);
    println!("slowest accepted table: {:.1} us, {}", accepted.0 / 1000.0, accepted.1);
    Ok(())
}

/// One line of a table made to be slow: its reason, and the slower of the proved
/// check and event.
fn hostile_row(hostile: &Hostile) -> Result<(u32, f64), String> {
    let (name, words) = (&hostile.name, hostile.draft.words());
    let [times] = times(name, [Run::fresh(&words, &[hostile.event], &[])])?;
    let mut check: Work = Box::new(|| {
        black_box(herringcart::check_table(black_box(&words)));
        1
    });
    let check = best(&mut [Some(&mut check)])[0];
    let [before, by_before, why] = times.beside(&times.before, 1000.0, 1);
    let [yardstick, by_yardstick, why_too] = times.beside(&times.yardstick, 1000.0, 1);
    let [checked, event, second] = [check, times.proved, times.second].map(|ns| ns / 1000.0);
    let (length, reason, visits) = (words.len(), second::check(&words).reason, times.visits);
    let proved = check.max(times.proved);
    let flag = if proved > MOST { " OVER" } else { "" };
    println!(
        "{name:<44}{length:>6}{reason:>7}{visits:>9}{checked:>10.1}{before:>10}{event:>10.1}\
         {yardstick:>10}{second:>10.1}{by_before:>7}{by_yardstick:>7}{flag}{why}{why_too}"
    );
    Ok((reason, proved))
}

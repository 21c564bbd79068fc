//! What reading a bus log takes, by the proved code beside the second program, in just enough room. What is timed is compared first.

use std::fs;
use std::hint::black_box;
use std::path::Path;
use std::process::{Command, Stdio};
use std::time::{Duration, Instant};

use second::{Converted, Cursor, convert};

use super::target;
use super::timing::{Work, best};
use crate::buslogs::networks;
use crate::subject::{Proved, Subject};

const BYTES: usize = 20_000_000;
const REPEATS: usize = 3;

/// A log to time: how many networks its table has, and how many microseconds lie between two lines.
struct Timed {
    name: &'static str,
    networks: usize,
    gap: u64,
    frames: &'static [&'static str],
}

/// As a trailer's bus has them: every thousandth line a bus-off.
const TYPICAL: &[&str] = &[
    "0CF00400#001F3E5D7C9BBAD9",
    "18FEF100#0726456483A2C1E0",
    "0C040BC8#001F3E5D7C9BBAD9",
    "123#0011",
    "18FEBF0B#FFFFFFFFFFFFFFFF",
];
const ALL: [Timed; 4] = [
    Timed { name: "typical lines, 1 network", networks: 1, gap: 400, frames: TYPICAL },
    Timed { name: "typical lines, 8 networks", networks: 8, gap: 400, frames: TYPICAL },
    Timed {
        name: "short lines 100 ms apart, 1 network",
        networks: 1,
        gap: 100_000,
        frames: &["123#"],
    },
    Timed {
        name: "short lines 100 ms apart, 8 networks",
        networks: 8,
        gap: 100_000,
        frames: &["123#"],
    },
];

impl Timed {
    fn table(&self) -> Vec<u32> {
        networks(self.networks)
    }

    fn list(&self) -> Vec<u8> {
        (0..self.networks).flat_map(|n| format!("can{n}\n").into_bytes()).collect()
    }

    fn log(&self) -> Vec<u8> {
        let (mut log, mut number) = (Vec::with_capacity(BYTES + 64), 0);
        while log.len() < BYTES {
            let time = 1_700_000_000_000_000 + self.gap * number as u64;
            let frame = if number % 1000 == 999 {
                "20000040#0000000000000000"
            } else {
                self.frames[number % self.frames.len()]
            };
            let (seconds, parts) = (time / 1_000_000, time % 1_000_000);
            log.extend(
                format!("({seconds}.{parts:06}) can{} {frame}\n", number % self.networks)
                    .into_bytes(),
            );
            number += 1;
        }
        log
    }
}

pub fn buslogs() -> Result<(), String> {
    println!(
        "bus logs of 20 MB: ms a call, best of five, the sides in turn; MB of text a second; p/s the proved code's time by the"
    );
    println!("second program's");
    println!("{:<44}  lines  events    proved    second    p/s   proved   second", "");
    ALL.iter().try_for_each(row)
}

fn row(timed: &Timed) -> Result<(), String> {
    let (name, table, list, log) = (timed.name, timed.table(), timed.list(), timed.log());
    let judged = convert(&table, &list, &log, Cursor::default(), usize::MAX);
    let Converted { answer, events, cursor, .. } = judged;
    let mut out = vec![0; events.len()];
    let read = Proved.read_log(&table, &list, &log, Cursor::default(), &mut out);
    if (answer, read.answer, read.cursor) != (0, 0, cursor) || out != events {
        return Err(format!("{name}: the sides differ, or the log is refused"));
    }
    let (count, mut second_out) = (events.len(), events);
    let mut proved: Work = Box::new(|| {
        black_box(Proved.read_log(&table, &list, black_box(&log), Cursor::default(), &mut out));
        1
    });
    let mut second: Work = Box::new(|| {
        second_out = convert(&table, &list, black_box(&log), Cursor::default(), count).events;
        1
    });
    let times = best(&mut [Some(&mut proved), Some(&mut second)]);
    // Bytes a nanosecond are GB a second.
    let [mine, judged] = [times[0], times[1]].map(|time| 1000.0 * log.len() as f64 / time);
    let [proved, second] = [times[0], times[1]].map(|time| time / 1_000_000.0);
    println!(
        "{name:<44}{:>7}{count:>8}{proved:>10.1}{second:>10.1}{:>7.2}{mine:>9.0}{judged:>9.0}",
        cursor.lines,
        proved / second
    );
    Ok(())
}

/// The program on the same logs, its output thrown away, beside the second program's.
pub fn bench_canlog(command: &[&str]) -> Result<(), String> {
    println!(
        "canlog on bus logs of 20 MB, output thrown away: best of {REPEATS}, and MB of text a second"
    );
    let folder = target().join("compare/bench-canlog");
    let tell = |why: std::io::Error| format!("{}: {why}", folder.display());
    fs::create_dir_all(&folder).map_err(tell)?;
    let second = target().join("second/release/second").display().to_string();
    for timed in &ALL {
        let files = ["table", "interfaces", "log"].map(|name| folder.join(name));
        let table: Vec<u8> = timed.table().iter().flat_map(|word| word.to_be_bytes()).collect();
        let log = timed.log();
        for (path, bytes) in files.iter().zip([&table, &timed.list(), &log]) {
            fs::write(path, bytes).map_err(tell)?;
        }
        let files = files.each_ref().map(|path| path.as_path());
        let proved = started(command, &files)?;
        let judged = started(&[&second, "canlog"], &files)?;
        let speed = |time: Duration| log.len() as f64 / 1e6 / time.as_secs_f64();
        println!(
            "{:<44}proved {proved:.2?}, {:.0} MB/s; second {judged:.2?}, {:.0} MB/s",
            timed.name,
            speed(proved),
            speed(judged)
        );
    }
    fs::remove_dir_all(&folder).map_err(tell)
}

/// The best time of a program on its files.
fn started(command: &[&str], files: &[&Path]) -> Result<Duration, String> {
    let mut best = Duration::MAX;
    for _ in 0..REPEATS {
        let mut program = Command::new(command[0]);
        program.args(&command[1..]).args(files).stdout(Stdio::null());
        let start = Instant::now();
        let status =
            program.status().map_err(|why| format!("cannot start {}: {why}", command[0]))?;
        best = best.min(start.elapsed());
        if !status.success() {
            return Err(format!("{}: {status}", command[0]));
        }
    }
    Ok(best)
}

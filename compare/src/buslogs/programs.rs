//! The programs of Q-12, byte for byte against what the second program tells: `canlog TABLE INTERFACES LOG`, and `day`, which is the proved
//! `play` on what it writes. A proved program's status is always 0: the front makes one of what it says.

use std::collections::BTreeSet;
use std::fs;
use std::path::{Path, PathBuf};
use std::process::{Command, Output};
use std::time::Duration;

use second::Cursor;
use second::buslog::answer::NO_ROOM;
use second::buslog_run;
use second::cases::buslogs::{bus_log, fixed_bus_log_runs};
use second::listing_run::Told;
use second::program::words;

use super::real::{Real, networks};
use crate::number;
use crate::programs::bytes;
use crate::shrink::smallest_text;

pub const CANLOG: &str = "canlog";
pub const DAY: &str = "day";

/// How long a log is made smaller; each try starts the program.
const LIMIT: Duration = Duration::from_secs(60);
/// No more events are asked for: a gap of 317 years would be written for days.
const EVENTS: usize = 300_000;

/// The three files' bytes.
#[derive(Clone, PartialEq, Eq, PartialOrd, Ord)]
struct Files {
    table: Vec<u8>,
    list: Vec<u8>,
    log: Vec<u8>,
}

impl Files {
    fn new(table: &[u32], list: &[u8], log: &[u8]) -> Self {
        Files { table: bytes(table, log.len() % 4), list: list.to_vec(), log: log.to_vec() }
    }

    fn ends(&self) -> bool {
        let (start, table) = (Cursor::default(), words(&self.table));
        second::convert(&table, &self.list, &self.log, start, EVENTS).answer != NO_ROOM
    }

    fn told(&self, plays: bool) -> Told {
        let told = if plays { buslog_run::day } else { buslog_run::canlog };
        told(&self.table, &self.list, &self.log)
    }
}

/// The program's command line, and the files it is given.
struct Program<'a> {
    command: &'a [&'a str],
    plays: bool,
    table: PathBuf,
    list: PathBuf,
    log: PathBuf,
    events: PathBuf,
}

impl<'a> Program<'a> {
    fn new(folder: &str, plays: bool, command: &'a [&'a str]) -> Self {
        let file = |name: &str| Path::new(folder).join(name);
        let [table, list, log] = ["table", "interfaces", "bus-log"].map(file);
        Program { command, plays, table, list, log, events: file("events") }
    }

    /// Standard output and standard error; of a day those of the play, and behind them what was said of the log.
    fn start(&self) -> Result<Output, String> {
        let (name, before) = self.command.split_last().ok_or("no program")?;
        let start = |name: &Path, files: &[&PathBuf]| {
            let words =
                before.iter().map(Path::new).chain([name]).chain(files.iter().map(|f| f.as_path()));
            let words: Vec<&Path> = words.collect();
            let output = Command::new(words[0]).args(&words[1..]).output();
            output.map_err(|why| format!("cannot start {}: {why}", words[0].display()))
        };
        let said = start(Path::new(name), &[&self.table, &self.list, &self.log])?;
        if !self.plays || !said.status.success() {
            return Ok(said);
        }
        let write =
            |path: &PathBuf, bytes: &[u8]| fs::write(path, bytes).map_err(|why| why.to_string());
        write(&self.events, &said.stdout)?;
        let play = Path::new(name).with_file_name("play");
        let mut played = start(&play, &[&self.table, &self.events])?;
        played.stderr.extend(said.stderr);
        Ok(played)
    }

    /// Fails where standard output or standard error is not the second program's.
    fn compare(&self, files: &Files) -> Result<Told, String> {
        for (path, bytes) in
            [(&self.table, &files.table), (&self.list, &files.list), (&self.log, &files.log)]
        {
            fs::write(path, bytes)
                .map_err(|why| format!("cannot write {}: {why}", path.display()))?;
        }
        let (output, told) = (self.start()?, files.told(self.plays));
        let said = output.stderr == told.trouble.as_bytes();
        if output.stdout == told.printed && said && output.status.code() == Some(0) {
            return Ok(told);
        }
        let alike = output.stdout.iter().zip(&told.printed).take_while(|(a, b)| a == b).count();
        Err(format!(
            "{}, {} bytes, said \"{}\"\nthe second program {} bytes, of which {alike} are the same, and \"{}\"",
            output.status,
            output.stdout.len(),
            output.stderr.escape_ascii(),
            told.printed.len(),
            told.trouble.escape_default()
        ))
    }

    /// A file that cannot be read is a message on standard error; of `canlog`'s no output.
    fn missing(&self, files: &Files) -> Result<(), String> {
        for path in [&self.log, &self.list, &self.table] {
            self.compare(files)?;
            fs::remove_file(path).map_err(|why| why.to_string())?;
            let output = self.start()?;
            if output.stderr.is_empty() || !self.plays && !output.stdout.is_empty() {
                return Err(format!("without {}: {output:?}", path.display()));
            }
        }
        Ok(())
    }
}

/// The files of the fixed cases, so many that are drawn, the recorded logs, and long ones.
pub fn programs(
    name: &str,
    folder: &str,
    count: &str,
    seed: &str,
    command: &[&str],
) -> Result<(), String> {
    let (count, seed): (usize, u64) = (number(count)?, number(seed)?);
    fs::create_dir_all(folder).map_err(|why| format!("cannot make {folder}: {why}"))?;
    let program = Program::new(folder, name == DAY, command);
    let all = files(seed, count)?;
    let (mut done, mut refused) = (0, BTreeSet::new());
    for (what, files) in &all {
        match program.compare(files) {
            Ok(Told { status: 0, .. }) => done += 1,
            Ok(Told { trouble, .. }) => drop(refused.insert(trouble)),
            Err(told) => {
                return Err(format!(
                    "{name}, {what}, made smaller:\n{}",
                    smaller(&program, files, told)
                ));
            }
        }
    }
    program.missing(&Files::new(&networks(1), b"can0\n", b"(1.000000) can0 20000040#\n"))?;
    all_told(&refused)?;
    let (all, refusals) = (all.len(), refused.len());
    println!(
        "{name}, {all} logs: the same bytes; {done} are read to their end, the others refused in {refusals} ways"
    );
    if done > 0 { Ok(()) } else { Err(format!("{name}: no log is read to its end")) }
}

/// The files with as short a log as still differs, and what is told of it.
fn smaller(program: &Program, files: &Files, told: String) -> String {
    let with = |log: &[u8]| Files { log: log.to_vec(), ..files.clone() };
    let log = smallest_text(&files.log, |log| program.compare(&with(log)).is_err(), LIMIT);
    let told = program.compare(&with(&log)).err().unwrap_or(told);
    let front = &log[..log.len().min(2000)];
    format!(
        "table: {}\ninterfaces: \"{}\"\nlog, {} bytes: \"{}\"\n{told}",
        crate::differ::Words(&words(&files.table)),
        files.list.escape_ascii(),
        log.len(),
        front.escape_ascii()
    )
}

/// Fails where something that a refusal can say was not said.
fn all_told(refused: &BTreeSet<String>) -> Result<(), String> {
    let all = [
        "line 0: the table has reason 5 at word ",
        "line 0: INTERFACES is not empty, and the table has no network\n",
        "line 0: INTERFACES is not 1 name, one a line\n",
        "line 0: INTERFACES is not 2 different names, one a line\n",
        "line 1: misspelt\n",
        ": the time goes back\n",
        ": an interface that is not listed\n",
        "line 9001: ",
    ];
    match all.iter().find(|said| !refused.iter().any(|told| told.contains(**said))) {
        None => Ok(()),
        Some(said) => Err(format!("no log is refused with {said:?}")),
    }
}

fn files(seed: u64, count: usize) -> Result<Vec<(String, Files)>, String> {
    // A case that fails is told by the comparison of the fixed cases.
    std::panic::set_hook(Box::new(|_| {}));
    let fixed: BTreeSet<Files> = fixed_bus_log_runs()
        .into_iter()
        .map(|run| Files { table: run.table, list: run.interfaces, log: run.log })
        .collect();
    let fixed = fixed.into_iter().map(|files| ("a fixed log".to_string(), files));
    let drawn = (0..).map(|number| {
        let log = bus_log(seed, number);
        (
            format!("bus log {number} of seed {seed}"),
            Files::new(&log.table, &log.interfaces, &log.log),
        )
    });
    let real = Real::all()?.into_iter().map(|real| {
        let files = Files::new(&networks(real.interfaces.len()), &real.list(), &real.log);
        (real.name, files)
    });
    let ends = |(_, files): &(String, Files)| files.ends();
    let all = fixed.chain(drawn.filter(ends).take(count)).chain(real).chain(long());
    Ok(all.filter(ends).collect())
}

/// Logs of more bytes and of more events than a program holds at a time; refused at their end; and lines as long as a program's window.
fn long() -> Vec<(String, Files)> {
    let list = b"can0\nbench-ebs-can-1\n";
    let line = |number: usize, gap: usize| {
        let name = ["can0", "bench-ebs-can-1"][number % 3 / 2];
        let frame = ["123#", "0CF00400#001F3E5D7C9BBAD9", "20000040#0000000000000000", "7FF#00"]
            [number % 4];
        let time = 1_700_000_000_000_000 + number * gap;
        format!("({}.{:06}) {name} {frame}\n", time / 1_000_000, time % 1_000_000)
    };
    let lines = |count: usize, gap: usize| -> Vec<u8> {
        (0..count).flat_map(|number| line(number, gap).into_bytes()).collect()
    };
    let made = |what: &str, log: Vec<u8>| (what.to_string(), Files::new(&networks(2), list, &log));
    let many = lines(9000, 2500);
    vec![
        made("9,000 lines", many.clone()),
        made("9,000 lines, and one misspelt", [&many[..], b"no line\n"].concat()),
        made(
            "9,000 lines, and one without its newline",
            [&many[..], b"(1900000000.000000) can0 123#"].concat(),
        ),
        made(
            "9,000 lines, and one that goes back",
            [many.clone(), line(0, 0).into_bytes()].concat(),
        ),
        made("9,000 lines, and a long one", [&many[..], &vec![b'9'; 200_000]].concat()),
        made("9,000 lines 100 milliseconds apart", lines(9000, 100_000)),
        made(
            "a gap of 250,000 ticks",
            [&many[..], b"(1700002522.500000) can0 20000040#\n"].concat(),
        ),
        made("an endless line", vec![b'('; 200_000]),
        made("newlines", vec![b'\n'; 70_000]),
        made("no line", vec![]),
    ]
}

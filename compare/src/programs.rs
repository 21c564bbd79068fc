//! Both programs byte for byte, and the proved code as document 01's program.

use std::fmt::Write as _;
use std::fs;
use std::io::{self, Write as _};
use std::path::{Path, PathBuf};
use std::process::{Command, Output, Stdio};
use std::time::Duration;

use herringcart::End;
use second::cases::{Case, Cases};
use second::program::words;
use second::testing::{AskedHoldRun, run_fixed};

use crate::bench::MARKED;
use crate::differ::Words;
use crate::kind::{Expected, Kind, Log, Told, kinds};
use crate::number;
use crate::shrink::smallest;

/// How long a case is made smaller; each try starts the program.
const LIMIT: Duration = Duration::from_secs(60);

/// A file's whole words.
pub fn read(path: &str) -> Result<Vec<u32>, String> {
    read_bytes(path).map(|bytes| words(&bytes))
}

pub fn read_bytes(path: &str) -> Result<Vec<u8>, String> {
    fs::read(path).map_err(|why| format!("cannot read {path}: {why}"))
}

/// Document 01's program over the proved library, in this process; and what the second program's fixed cases ask of it besides: a
/// file that has for each event the number of outcomes it lends, and then these.
pub fn run(table: &str, events: &str, outcomes: Option<&str>) -> Result<(), String> {
    let (table, events) = (read(table)?, read(events)?);
    let lines = by_library(&table, &events, &outcomes.map_or(Ok(vec![]), read)?);
    io::stdout().lock().write_all(lines.as_bytes()).map_err(|why| format!("cannot print: {why}"))
}

fn by_library(table: &[u32], events: &[u32], mut outcomes: &[u32]) -> String {
    let check = herringcart::check_table(table);
    if !check.accepted() {
        return format!("{}\n{}\n", check.reason, check.place);
    }
    let mut state = vec![0; herringcart::state_words(table)];
    let mut trace = vec![0; check.bound as usize];
    herringcart::make_fresh(table, &mut state);
    let mut lines = String::new();
    for &event in events {
        let lent;
        (lent, outcomes) = match outcomes {
            [] => outcomes.split_at(0),
            [count, rest @ ..] => rest.split_at(rest.len().min(*count as usize)),
        };
        let answer = herringcart::take_event(table, &mut state, &mut trace, lent, event);
        let _ = writeln!(lines, "{}", answer.number);
        for word in state.iter().chain(&trace[..answer.count]) {
            let _ = writeln!(lines, "{word:08X}");
        }
    }
    lines
}

/// `play` over the proved library, in this process.
pub fn play(table: &str, events: &str) -> Result<(), String> {
    let lines = played_by_library(&read(table)?, &read(events)?);
    io::stdout().lock().write_all(lines.as_bytes()).map_err(|why| format!("cannot print: {why}"))
}

fn played_by_library(table: &[u32], events: &[u32]) -> String {
    let check = herringcart::check_table(table);
    if !check.accepted() {
        return format!("{}\n{}\n", check.reason, check.place);
    }
    let mut state = vec![0; herringcart::state_words(table)];
    let mut trace = vec![0; 2 * check.bound as usize];
    herringcart::make_fresh(table, &mut state);
    let (mut lines, mut taken, mut visits) = (String::new(), 0, 0);
    let end = loop {
        let played = herringcart::play(table, &mut state, &mut trace, &events[taken..]);
        taken += played.taken;
        visits += played.visits;
        for word in &trace[..played.count] {
            let _ = writeln!(lines, "trace {word:08X}");
        }
        if played.end != End::TraceFull {
            break played.end;
        }
    };
    lines += &state_lines(table, &state);
    let _ = writeln!(lines, "taken {taken}\nvisits {visits}\nanswer {}", end.number());
    lines
}

/// A state's words as `play` prints them at its end.
pub fn state_lines(table: &[u32], state: &[u32]) -> String {
    let (mut lines, mut words) = (String::new(), state.iter());
    let counts = [table[0] >> 16 & 255, table[1] & 0xFFFF, table[0] >> 8 & 255, table[0] & 255];
    for (name, count) in ["port", "rule", "network", "source"].into_iter().zip(counts) {
        for (number, word) in (0..count).zip(&mut words) {
            let _ = writeln!(lines, "{name} {number} {word:08X}");
        }
    }
    lines
}

/// `cost` over the proved library, in this process.
pub fn cost(table: &str, events: &str) -> Result<(), String> {
    let lines = cost_by_library(&read(table)?, &read(events)?);
    io::stdout().lock().write_all(lines.as_bytes()).map_err(|why| format!("cannot print: {why}"))
}

fn cost_by_library(table: &[u32], events: &[u32]) -> String {
    let check = herringcart::check_table(table);
    if !check.accepted() {
        return format!("{}\n{}\n", check.reason, check.place);
    }
    let mut state = vec![0; herringcart::state_words(table)];
    let mut trace = vec![0; check.bound as usize];
    herringcart::make_fresh(table, &mut state);
    let (mut lines, mut costs) = (String::new(), vec![]);
    for (number, &event) in events.iter().enumerate() {
        let answer = herringcart::take_event(table, &mut state, &mut trace, &[], event);
        let (count, visits) = (answer.count as u32, answer.visits);
        let _ = writeln!(
            lines,
            "event {number} answer {} trace {count} visits {visits}",
            answer.number
        );
        costs.push([count, visits]);
    }
    let rules = table[1] & 0xFFFF;
    let bounds = [check.bound, 127 * (rules + check.bound)];
    for (at, name) in ["trace", "visits"].into_iter().enumerate() {
        let most = costs.iter().map(|cost| cost[at]).max().unwrap_or(0);
        let first = costs.iter().position(|cost| cost[at] == most);
        let event = first.map_or("none".into(), |number| number.to_string());
        let _ = writeln!(lines, "most {name} {most} event {event} bound {}", bounds[at]);
    }
    lines
}

/// The program's command line, and the files it is given: two, and a log.
pub struct Program<'a> {
    command: &'a [&'a str],
    table: PathBuf,
    events: PathBuf,
    log: PathBuf,
}

impl<'a> Program<'a> {
    pub fn new(folder: &str, command: &'a [&'a str]) -> Result<Self, String> {
        fs::create_dir_all(folder).map_err(|why| format!("cannot make {folder}: {why}"))?;
        let file = |name: &str| Path::new(folder).join(name);
        Ok(Program { command, table: file("table"), events: file("events"), log: file("log") })
    }

    pub fn write(&self, table: &[u8], events: &[u8]) -> Result<(), String> {
        fs::write(&self.table, table)
            .and_then(|()| fs::write(&self.events, events))
            .map_err(|why| format!("cannot write {}: {why}", self.table.display()))
    }

    /// The third file, where there is one.
    pub fn write_log(&self, log: Option<&[u8]>) -> Result<(), String> {
        let Some(log) = log else { return Ok(()) };
        fs::write(&self.log, log)
            .map_err(|why| format!("cannot write {}: {why}", self.log.display()))
    }

    /// Takes the third file away: one of a day is large.
    pub fn remove_log(&self) -> Result<(), String> {
        fs::remove_file(&self.log)
            .map_err(|why| format!("cannot remove {}: {why}", self.log.display()))
    }

    fn ready(&self, kind: &Kind) -> Result<Command, String> {
        let (name, arguments) = self.command.split_first().ok_or("no program")?;
        let mut command = Command::new(name);
        command.args(arguments).arg(&self.table).arg(&self.events);
        if matches!(kind, Kind::Hold { .. }) {
            command.arg(&self.log);
        }
        command.args(kind.behind());
        Ok(command)
    }

    /// Starts the program on its files.
    pub fn start(&self, kind: &Kind) -> Result<Output, String> {
        let mut command = self.ready(kind)?;
        command.output().map_err(|why| format!("cannot start {}: {why}", self.command[0]))
    }

    /// Starts the program on its files, its output thrown away.
    pub fn quietly(&self, kind: &Kind) -> Result<(), String> {
        let (name, mut command) = (self.command[0], self.ready(kind)?);
        let status = command.stdout(Stdio::null()).status();
        let status = status.map_err(|why| format!("cannot start {name}: {why}"))?;
        if status.success() { Ok(()) } else { Err(format!("{name}: {status}")) }
    }

    /// Fails where its standard output is not the second program's, or standard error not what is expected there.
    pub fn compare(&self, kind: &Kind, table: &[u8], events: &[u8]) -> Result<(), String> {
        self.write(table, events)?;
        self.write_log(kind.log(table, events).as_deref())?;
        let output = self.start(kind)?;
        let Expected { lines: expected, told } = kind.expected(table, events);
        if output.stdout == expected.as_bytes() && told.is(output.status.code(), &output.stderr) {
            return Ok(());
        }
        let given = String::from_utf8_lossy(&output.stdout);
        let line = given.lines().zip(expected.lines()).take_while(|(g, e)| g == e).count();
        let told = match told {
            Told::Any => String::new(),
            Told::Whether(true) => " and a message".into(),
            Told::Whether(false) => " and no message".into(),
            Told::Just(text) => format!(" and the message {text:?}"),
        };
        Err(format!(
            "{kind:?}: {}, output differs at line {}: {:?} where the second program has {:?}{told}; standard error: {:?}",
            output.status,
            line + 1,
            given.lines().nth(line),
            expected.lines().nth(line),
            String::from_utf8_lossy(&output.stderr)
        ))
    }
}

/// Whole words, and for some cases bytes past the last, which are ignored.
pub fn bytes(words: &[u32], past: usize) -> Vec<u8> {
    let bytes = words.iter().flat_map(|word| word.to_be_bytes());
    bytes.chain([0x5A, 0xA5, 0xFF].into_iter().take(past)).collect()
}

/// How many events there are up to the last that wrote trace words, all if none did. A panel that is not followed shows the words of
/// the last event alone, and few cases end with one that wrote some.
fn written(case: &Case) -> usize {
    let mut state = vec![0; herringcart::state_words(&case.table)];
    let mut trace = vec![0; second::check(&case.table).b];
    second::fresh(&case.table, &mut state);
    let mut wrote =
        |&event: &u32| second::step(&case.table, &mut state, &mut trace, event, &[]).count > 0;
    let wrote: Vec<bool> = case.events.iter().map(&mut wrote).collect();
    wrote.iter().rposition(|&wrote| wrote).map_or(wrote.len(), |last| last + 1)
}

pub fn programs(
    name: &str,
    folder: &str,
    count: &str,
    seed: &str,
    command: &[&str],
) -> Result<(), String> {
    let (count, seed): (usize, u64) = (number(count)?, number(seed)?);
    let program = Program::new(folder, command)?;
    let mut logs = LogsMet::default();
    for (place, made) in Cases::new(seed).take(count).enumerate() {
        let past = place % 4;
        // The program makes its own state, and lends B and no outcomes.
        let mut case = Case { state: vec![], room: 0, ..made.case.lending_none() };
        if name == "panel" && place % 4 >= 2 {
            case.events.truncate(written(&case));
        }
        for kind in kinds(name, place, &case.table)? {
            let compare = |case: &Case| {
                program.compare(&kind, &bytes(&case.table, past), &bytes(&case.events, 3 - past))
            };
            logs.meet(&kind, &bytes(&case.table, past), &bytes(&case.events, 3 - past));
            if let Err(what) = compare(&case) {
                let case = smallest(&case, |case| compare(case).is_err(), LIMIT);
                let what = compare(&case).err().unwrap_or(what);
                let (table, events) = (Words(&case.table), Words(&case.events));
                return Err(format!(
                    "case {place} of seed {seed}, made smaller:\ntable: {table}\nevents: {events}\n{what}"
                ));
            }
        }
    }
    kinds(name, 1, &MARKED)?.iter().try_for_each(|kind| missing_files(&program, kind))?;
    if name == "hold" {
        logs.all_met()?;
        fixed_logs(&program)?;
    }
    println!("{name}, {count} cases of seed {seed}: the same bytes; an unreadable file is told");
    Ok(())
}

/// A file that cannot be read is a message on standard error and no output.
fn missing_files(program: &Program, kind: &Kind) -> Result<(), String> {
    program.write(&bytes(&MARKED, 0), &[])?;
    program.write_log(kind.log(&bytes(&MARKED, 0), &[]).as_deref())?;
    let log = matches!(kind, Kind::Hold { .. }).then_some(&program.log);
    for missing in log.into_iter().chain([&program.events, &program.table]) {
        fs::remove_file(missing).map_err(|why| why.to_string())?;
        let output = program.start(kind)?;
        if !output.stdout.is_empty() || output.stderr.is_empty() {
            return Err(format!("without {}: {output:?}", missing.display()));
        }
    }
    Ok(())
}

/// How many logs were as ordered, had an event that parted, and were in trouble; and with one that parted before it.
#[derive(Default)]
struct LogsMet([usize; 4]);

impl LogsMet {
    fn meet(&mut self, kind: &Kind, table: &[u8], events: &[u8]) {
        let Kind::Hold { .. } = kind else { return };
        let Expected { told: Told::Just(text), .. } = kind.expected(table, events) else { return };
        let (trouble, parted) = (text.contains("of the log"), text.contains("parted"));
        self.0[2 * usize::from(trouble) + usize::from(parted)] += 1;
    }

    fn all_met(&self) -> Result<(), String> {
        let [yes, parted, trouble, both] = self.0;
        println!(
            "hold: {yes} logs as ordered or refused with their table, {parted} with an event that parts, {trouble} in trouble, {both} with both"
        );
        if self.0.contains(&0) {
            Err("one of these kinds of logs was not met".into())
        } else {
            Ok(())
        }
    }
}

/// The logs that the second program's fixed cases hold, by the program; each is told with what its case expects.
fn fixed_logs(program: &Program) -> Result<(), String> {
    // A case that fails is told with its name, not by its panic.
    std::panic::set_hook(Box::new(|_| {}));
    let mut logs = 0;
    for case in run_fixed() {
        case.outcome.map_err(|what| format!("fixed case {}: {what}", case.name))?;
        for AskedHoldRun { table, events, log, all, .. } in &case.hold_runs {
            let kind = Kind::Hold { log: Log::Given(log.clone()), all: *all };
            program
                .compare(&kind, table, events)
                .map_err(|what| format!("fixed case {}: {what}", case.name))?;
        }
        logs += case.hold_runs.len();
    }
    println!("hold, {logs} logs of the fixed cases: the same bytes");
    Ok(())
}

//! `run TABLE EVENTS [OUTCOMES]`, `play TABLE EVENTS`, `cost TABLE EVENTS`, `panel OPERATOR TABLE
//! EVENTS [--follow]`, `hold TABLE EVENTS LOG [--all]`, `list TABLE`, `read LISTING`, `canlog TABLE
//! INTERFACES LOG`, `day TABLE INTERFACES LOG`, `test`, `emit SEED COUNT` and `answer`.

use std::io::{self, BufWriter, Write};
use std::process::ExitCode;

use second::buslog_run::{self, Stopped};
use second::cases::Cases;
use second::listing_run::{self, Told};
use second::program::NoPanel;
use second::{program, stream, testing};

const USAGE: &str = "usage: second run TABLE EVENTS [OUTCOMES] | play TABLE EVENTS | \
                     cost TABLE EVENTS | panel OPERATOR TABLE EVENTS [--follow] | \
                     hold TABLE EVENTS LOG [--all] | list TABLE | read LISTING | \
                     canlog TABLE INTERFACES LOG | day TABLE INTERFACES LOG | test | \
                     emit SEED COUNT | answer < CASES";
const FOLLOW: &str = "--follow";
const ALL: &str = "--all";

fn main() -> ExitCode {
    let args: Vec<String> = std::env::args().skip(1).collect();
    let args: Vec<&str> = args.iter().map(String::as_str).collect();
    let out = || BufWriter::new(io::stdout().lock());
    let done = match args[..] {
        ["run", table, events] => run(table, events, None).map(|()| 0),
        ["run", table, events, outcomes] => run(table, events, Some(outcomes)).map(|()| 0),
        ["play", table, events] => program::play_files(&mut out(), table, events).map(|()| 0),
        ["cost", table, events] => program::cost_files(&mut out(), table, events).map(|()| 0),
        ["panel", ref asked @ ..] => Ok(panel(asked)),
        ["hold", ref asked @ ..] => hold(asked),
        ["list", table] => tell(listing_run::list_file(table)),
        ["read", listing] => tell(listing_run::read_file(listing)),
        ["canlog", table, interfaces, log] => {
            converted(buslog_run::canlog_files(&mut out(), [table, interfaces, log]))
        }
        ["day", table, interfaces, log] => {
            converted(buslog_run::day_files(&mut out(), [table, interfaces, log]))
        }
        ["test"] => Ok(if testing::test() { 0 } else { 1 }),
        ["emit", seed, count] => emit(seed, count).map(|()| 0),
        ["answer"] => answer().map(|()| 0).map_err(|why| format!("cannot answer: {why}")),
        _ => Err(USAGE.into()),
    };
    match done {
        Ok(status) => ExitCode::from(status),
        Err(message) => {
            eprintln!("{message}");
            ExitCode::from(2)
        }
    }
}

fn run(table: &str, events: &str, outcomes: Option<&str>) -> Result<(), String> {
    put(program::run(table, events, outcomes)?.as_bytes())
}

/// Prints a panel; gives the status to leave with. The option may stand anywhere among the words.
fn panel(asked: &[&str]) -> u8 {
    let mut words = asked.to_vec();
    let follow = words.iter().position(|&word| word == FOLLOW);
    follow.map(|place| words.remove(place));
    let [operator, table, events] = words[..] else {
        eprintln!("{USAGE}");
        return 2;
    };
    let Some(operator) = program::operator(operator) else {
        eprintln!("not an operator's number: {operator}\n{USAGE}");
        return 2;
    };
    let out = &mut BufWriter::new(io::stdout().lock());
    match program::panel_files(out, operator, table, events, follow.is_some()) {
        Ok(()) => 0,
        Err(NoPanel::Operator) => {
            eprintln!("an operator's number is 1 to 15");
            1
        }
        Err(NoPanel::Table { reason, place }) => {
            eprintln!("the table is refused: reason {reason}, place {place}");
            1
        }
        // Who reads it has seen enough.
        Err(NoPanel::Closed) => 0,
        Err(NoPanel::Unable(why)) => {
            eprintln!("{why}");
            2
        }
    }
}

/// Holds a log against our rules; gives the status to leave with. The option may stand anywhere
/// among the words.
fn hold(asked: &[&str]) -> Result<u8, String> {
    let mut words = asked.to_vec();
    let all = words.iter().position(|&word| word == ALL);
    all.map(|place| words.remove(place));
    let [table, events, log] = words[..] else {
        return Err(USAGE.into());
    };
    let told = program::hold_files(table, events, log, all.is_some())?;
    put(told.printed.as_bytes())?;
    if let Some(trouble) = told.trouble {
        eprintln!("{trouble}");
    }
    Ok(told.status)
}

/// Prints what is told of a table or a listing; gives the status to leave with.
fn tell(told: Result<Told, String>) -> Result<u8, String> {
    let told = told?;
    let mut out = io::stdout().lock();
    match out.write_all(&told.printed).and_then(|()| out.flush()) {
        Ok(()) => {
            let _ = io::stderr().write_all(told.trouble.as_bytes());
            Ok(told.status)
        }
        // Who reads it has seen enough.
        Err(why) if why.kind() == io::ErrorKind::BrokenPipe => Ok(0),
        Err(why) => Err(format!("cannot print: {why}")),
    }
}

/// Tells what a log was refused by; gives the status to leave with.
fn converted(done: Result<Option<String>, Stopped>) -> Result<u8, String> {
    match done {
        Ok(None) => Ok(0),
        Ok(Some(trouble)) => {
            let _ = writeln!(io::stderr(), "{trouble}");
            Ok(1)
        }
        // Who reads it has seen enough.
        Err(Stopped::Closed) => Ok(0),
        Err(Stopped::Unread(why)) => Err(why.to_string()),
        Err(Stopped::Unable(why)) => Err(why),
    }
}

fn put(bytes: &[u8]) -> Result<(), String> {
    io::stdout().lock().write_all(bytes).map_err(|why| format!("cannot print: {why}"))
}

fn emit(seed: &str, count: &str) -> Result<(), String> {
    let seed: u64 = seed.parse().map_err(|_| format!("not a seed: {seed}"))?;
    let count: usize = count.parse().map_err(|_| format!("not a count: {count}"))?;
    let mut out = BufWriter::new(io::stdout().lock());
    Cases::new(seed)
        .take(count)
        .try_for_each(|made| stream::write_words(&mut out, &stream::case_words(&made.case)))
        .and_then(|()| out.flush())
        .map_err(|why| format!("cannot emit: {why}"))
}

fn answer() -> io::Result<()> {
    let mut input = io::BufReader::new(io::stdin().lock());
    let mut out = BufWriter::new(io::stdout().lock());
    while let Some(case) = stream::read_case(&mut input)? {
        stream::write_words(&mut out, &stream::result_words(&case))?;
    }
    out.flush()
}

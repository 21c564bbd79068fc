//! `compare canlog` and `compare day`: the programs of Q-12 over the proved library, in this process. Fixed cases of the second program
//! start them, and what they tell is held against what they recorded.

use std::fmt::Write as _;
use std::fs::File;
use std::io::{self, Read, Write};
use std::process::ExitCode;

use herringcart::{Cursor, End, LogEnd, LogRead};
use second::listing_run::Told;
use second::program::words;

use crate::programs::{bytes, state_lines};

/// Bytes of a log read at a time, and events laid at a time.
const BLOCK: usize = 1 << 15;
const ROOM: usize = 1 << 14;
/// A line that is spelt right has at most so many bytes, its newline too.
const LONGEST: usize = 62;
/// Of a list no more bytes are looked at, of a table no more words: more cannot be right.
const LIST_BYTES: u64 = 4096;
const TABLE_BYTES: u64 = 4 * (herringcart::TABLE_WORDS as u64 + 1);

/// What a program could not do.
pub enum Stopped {
    Unread(io::Error),
    Unprinted(io::Error),
}

/// What is told on standard error, where there is something.
type Trouble = Option<String>;

/// Writes the events of a log as it is read, or prints what a play of them prints.
pub fn write(
    out: &mut impl Write,
    plays: bool,
    table: &[u32],
    list: &[u8],
    log: &mut impl Read,
) -> Result<Trouble, Stopped> {
    let check = herringcart::check_table(table);
    if !check.accepted() {
        let (reason, place) = (check.reason, check.place);
        let printed = if plays { format!("{reason}\n{place}\n") } else { String::new() };
        out.write_all(printed.as_bytes()).map_err(Stopped::Unprinted)?;
        return Ok(Some(format!(
            "herringcart: line 0: the table has reason {reason} at word {place}\n"
        )));
    }
    let mut day = plays.then(|| Day::fresh(table, check.bound as usize));
    let refused = convert(table, list, log, |events| {
        let printed = match &mut day {
            Some(day) => day.play(events).into_bytes(),
            None => bytes(events, 0),
        };
        out.write_all(&printed).map_err(Stopped::Unprinted)
    })?;
    let end = day.map(|day| day.end()).unwrap_or_default();
    out.write_all(end.as_bytes()).and_then(|()| out.flush()).map_err(Stopped::Unprinted)?;
    Ok(refused.and_then(|end| refusal(table, end)))
}

/// Reads a log block by block, the line that a block ends in carried over, and hands on the events; gives what refused it.
fn convert(
    table: &[u32],
    list: &[u8],
    log: &mut impl Read,
    mut hand_on: impl FnMut(&[u32]) -> Result<(), Stopped>,
) -> Result<Option<LogEnd>, Stopped> {
    let (mut held, mut block, mut out) = (vec![], vec![0; BLOCK], vec![0; ROOM]);
    let mut cursor = Cursor::default();
    loop {
        let more = log.read(&mut block).map_err(Stopped::Unread)?;
        held.extend_from_slice(&block[..more]);
        let whole = held.iter().rposition(|&byte| byte == b'\n').map_or(0, |last| last + 1);
        // Behind the last newline only the log's end, or a line that is too long already, is read.
        let end = if more == 0 || held.len() - whole >= LONGEST { held.len() } else { whole };
        let mut at = 0;
        loop {
            let LogRead { end, events, bytes } =
                herringcart::read_log(table, list, &held[at..end], &mut cursor, &mut out);
            hand_on(events)?;
            at += bytes;
            match end {
                LogEnd::Read => break,
                LogEnd::NoRoom(_) => {}
                refused => return Ok(Some(refused)),
            }
        }
        if more == 0 {
            return Ok(None);
        }
        held.drain(..end);
    }
}

/// The words of the second program's programs for a refusal.
fn refusal(table: &[u32], end: LogEnd) -> Trouble {
    let (line, networks) = (end.line(), table[0] >> 8 & 0xFF);
    let what = match (end, networks) {
        (LogEnd::Misspelt(_), _) => "misspelt".into(),
        (LogEnd::GoesBack(_), _) => "the time goes back".into(),
        (LogEnd::NotListed(_), _) => "an interface that is not listed".into(),
        (LogEnd::BadInterfaces, 0) => {
            "INTERFACES is not empty, and the table has no network".into()
        }
        (LogEnd::BadInterfaces, 1) => "INTERFACES is not 1 name, one a line".into(),
        (LogEnd::BadInterfaces, _) => {
            format!("INTERFACES is not {networks} different names, one a line")
        }
        _ => return None,
    };
    Some(format!("herringcart: line {line}: {what}\n"))
}

/// A play that goes on call after call.
struct Day<'a> {
    table: &'a [u32],
    state: Vec<u32>,
    trace: Vec<u32>,
    taken: usize,
    visits: u64,
    end: End,
}

impl<'a> Day<'a> {
    fn fresh(table: &'a [u32], bound: usize) -> Self {
        let mut state = vec![0; herringcart::state_words(table)];
        herringcart::make_fresh(table, &mut state);
        Day { table, state, trace: vec![0; 2 * bound], taken: 0, visits: 0, end: End::Done }
    }

    /// The lines of the trace words that these events write.
    fn play(&mut self, events: &[u32]) -> String {
        let (mut lines, mut at) = (String::new(), 0);
        while self.end == End::Done {
            let rest = &events[at..];
            let played = herringcart::play(self.table, &mut self.state, &mut self.trace, rest);
            at += played.taken;
            self.visits += played.visits;
            for word in &self.trace[..played.count] {
                let _ = writeln!(lines, "trace {word:08X}");
            }
            match played.end {
                End::TraceFull => {}
                End::Done => break,
                end => self.end = end,
            }
        }
        self.taken += at;
        lines
    }

    fn end(&self) -> String {
        let Day { table, state, taken, visits, end, .. } = self;
        let end = end.number();
        format!("{}taken {taken}\nvisits {visits}\nanswer {end}\n", state_lines(table, state))
    }
}

/// What is told of the three files' bytes.
pub fn told(plays: bool, table: &[u8], list: &[u8], mut log: &[u8]) -> Told {
    let (mut printed, table) = (vec![], words(table));
    let trouble = match write(&mut printed, plays, &table, list, &mut log) {
        Ok(trouble) => trouble.unwrap_or_default(),
        Err(_) => "memory was not read or written".into(),
    };
    let status = u8::from(!trouble.is_empty());
    Told { printed, trouble, status }
}

/// Leaves with the status that is told; with 2 for a file that cannot be read. A closed pipe is no trouble: the reader has seen enough.
pub fn tell(plays: bool, files: &[&str], usage: &str) -> ExitCode {
    let &[table, list, log] = files else {
        eprintln!("{usage}");
        return ExitCode::from(2);
    };
    match on_files(plays, table, list, log) {
        Ok(trouble) => {
            eprint!("{trouble}");
            ExitCode::from(u8::from(!trouble.is_empty()))
        }
        Err(trouble) => {
            eprintln!("compare: {trouble}");
            ExitCode::from(2)
        }
    }
}

/// All files are opened before anything is judged.
fn on_files(plays: bool, table: &str, list: &str, log: &str) -> Result<String, String> {
    let unread = |path: &str, why: io::Error| format!("cannot read {path}: {why}");
    let open = |path: &str| File::open(path).map_err(|why| unread(path, why));
    let (table_file, list_file, mut log_file) = (open(table)?, open(list)?, open(log)?);
    let front = |file: File, path: &str, most: u64| {
        let mut bytes = vec![];
        file.take(most).read_to_end(&mut bytes).map_err(|why| unread(path, why))?;
        Ok::<_, String>(bytes)
    };
    let (of, names) = (front(table_file, table, TABLE_BYTES)?, front(list_file, list, LIST_BYTES)?);
    match write(&mut io::stdout().lock(), plays, &words(&of), &names, &mut log_file) {
        Ok(trouble) => Ok(trouble.unwrap_or_default()),
        Err(Stopped::Unread(why)) => Err(unread(log, why)),
        Err(Stopped::Unprinted(why)) if why.kind() == io::ErrorKind::BrokenPipe => {
            Ok(String::new())
        }
        Err(Stopped::Unprinted(why)) => Err(format!("cannot print: {why}")),
    }
}

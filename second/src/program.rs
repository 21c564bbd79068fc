//! The programs: a table and a file of events, and what is printed.

use std::fmt::Write as _;
use std::io::{self, Write};

use crate::check::accept;
use crate::hold::{parting, verdict};
use crate::lists::Run;
use crate::panel::{OPERATORS, View};
use crate::play::{TRACE_FULL, play, take};
use crate::state::{State, fresh, start, state_length};
use crate::step::step;
use crate::supplier::{Log, Recording};
use crate::words::{Event, Section, Table};

/// The whole words of a file, high byte first; bytes past the last are ignored.
pub fn words(bytes: &[u8]) -> Vec<u32> {
    let whole = bytes.chunks_exact(4);
    whole.map(|b| u32::from_be_bytes([b[0], b[1], b[2], b[3]])).collect()
}

/// What the program prints for the two files' bytes, with no outcomes lent.
pub fn printed(table: &[u8], events: &[u8]) -> String {
    printed_with(table, events, &[])
}

/// The outcomes that each event's call lends, of a file that has for each event, in order, their
/// number and then the outcome words. Where the file ends, no more are lent.
fn lent(outcomes: &[u8]) -> impl Iterator<Item = Vec<u32>> {
    let mut rest = words(outcomes).into_iter();
    std::iter::from_fn(move || {
        let length = rest.next()? as usize;
        Some(rest.by_ref().take(length).collect())
    })
}

/// The same with outcomes lent.
pub fn printed_with(table: &[u8], events: &[u8], outcomes: &[u8]) -> String {
    let (table, mut lent) = (words(table), lent(outcomes));
    let (shape, b) = match accept(&table) {
        Ok(accepted) => accepted,
        Err((reason, place)) => return format!("{reason}\n{place}\n"),
    };
    let mut state = vec![0; state_length(&shape)];
    fresh(&table, &mut state);
    let mut trace = vec![0; b];
    let mut lines = String::new();
    for event in words(events) {
        let outcomes = lent.next().unwrap_or_default();
        let stepped = step(&table, &mut state, &mut trace, event, &outcomes);
        let _ = writeln!(lines, "{}", stepped.answer);
        for word in state.iter().chain(&trace[..stepped.count]) {
            let _ = writeln!(lines, "{word:08X}");
        }
    }
    lines
}

/// A file's bytes. All files are read before anything is printed, so that an
/// unreadable one leaves no output.
pub fn read(path: &str) -> Result<Vec<u8>, String> {
    std::fs::read(path).map_err(|why| unreadable(path, &why))
}

/// What is told of a file that cannot be read.
pub fn unreadable(path: &str, why: &io::Error) -> String {
    format!("cannot read {path}: {why}")
}

pub fn run(table: &str, events: &str, outcomes: Option<&str>) -> Result<String, String> {
    let (table, events) = (read(table)?, read(events)?);
    let outcomes = outcomes.map_or(Ok(vec![]), read)?;
    Ok(printed_with(&table, &events, &outcomes))
}

/// Trace words lent beyond B to each call of a day: so many that the checks of table and state,
/// one of each a call, hardly count.
pub const SPARE: usize = 1 << 16;

/// What is printed where a day is played, for the two files' bytes.
pub fn played(table: &[u8], events: &[u8]) -> String {
    let mut lines = vec![];
    write_played(&mut lines, table, events, SPARE).expect("memory takes it");
    String::from_utf8(lines).expect("letters, digits and spaces")
}

/// Plays a day from a fresh state, call after call, with B and so many trace words more lent to
/// each, and prints it as it goes. Every call takes an event or ends the day.
pub fn write_played(
    out: &mut impl Write,
    table: &[u8],
    events: &[u8],
    spare: usize,
) -> io::Result<()> {
    let (table, events) = (words(table), words(events));
    let (shape, b) = match accept(&table) {
        Ok(accepted) => accepted,
        Err((reason, place)) => return write!(out, "{reason}\n{place}\n"),
    };
    let mut day = Day::fresh(&table, &shape, b + spare);
    day.play(out, &events)?;
    day.end(out, &shape)
}

/// A day that is played call after call, and printed as it goes.
pub struct Day<'a> {
    table: &'a [u32],
    state: Vec<u32>,
    trace: Vec<u32>,
    taken: usize,
    visits: u64,
    answer: u32,
}

impl<'a> Day<'a> {
    /// With so many trace words lent to each call, B at least.
    pub fn fresh(table: &'a [u32], shape: &Table, room: usize) -> Self {
        let mut state = vec![0; state_length(shape)];
        fresh(table, &mut state);
        Day { table, state, trace: vec![0; room], taken: 0, visits: 0, answer: 0 }
    }

    /// Plays events behind those before, unless one of these was refused.
    pub fn play(&mut self, out: &mut impl Write, events: &[u32]) -> io::Result<()> {
        let (mut taken, mut go_on) = (0, self.answer == 0);
        // it "can be resumed from that event".
        while go_on {
            let played = play(self.table, &mut self.state, &mut self.trace, &events[taken..]);
            for word in &self.trace[..played.count] {
                writeln!(out, "trace {word:08X}")?;
            }
            go_on = played.answer == TRACE_FULL;
            assert!(played.taken > 0 || !go_on, "the day would never end");
            taken += played.taken;
            self.visits += played.visits;
            self.answer = played.answer;
        }
        self.taken += taken;
        Ok(())
    }

    /// Prints how it ended.
    pub fn end(&self, out: &mut impl Write, shape: &Table) -> io::Result<()> {
        write_state(out, shape, &self.state)?;
        let Day { taken, visits, answer, .. } = self;
        writeln!(out, "taken {taken}\nvisits {visits}\nanswer {answer}")
    }
}

/// A state's words, each with its section's name and its number there.
fn write_state(out: &mut impl Write, table: &Table, state: &[u32]) -> io::Result<()> {
    let named = [
        ("port", Section::Ports),
        ("rule", Section::Rules),
        ("network", Section::Networks),
        ("source", Section::Sources),
    ];
    for (name, section) in named {
        let words = &state[start(table, section)..][..table.count(section)];
        for (number, word) in words.iter().enumerate() {
            writeln!(out, "{name} {number} {word:08X}")?;
        }
    }
    Ok(())
}

/// The most words that one evaluation visits: those of a whole tree of seven levels.
pub const WHOLE_TREE: u64 = 127;

/// The largest number so far, with the first event that has it.
#[derive(Default)]
struct Most(Option<(u64, usize)>);

impl Most {
    fn meet(&mut self, number: u64, event: usize) {
        if self.0.is_none_or(|(most, _)| number > most) {
            self.0 = Some((number, event));
        }
    }

    fn write(&self, out: &mut impl Write, what: &str, bound: u64) -> io::Result<()> {
        match self.0 {
            Some((most, event)) => writeln!(out, "most {what} {most} event {event} bound {bound}"),
            None => writeln!(out, "most {what} 0 event none bound {bound}"),
        }
    }
}

/// Prints what each event costs, request Q-10, as it goes: from a fresh state, with B trace words
/// and no outcomes lent. The table is checked once, as in a play; but a refused event, which
/// changes nothing, is followed by the next as in `run`.
pub fn write_cost(out: &mut impl Write, table: &[u8], events: &[u8]) -> io::Result<()> {
    let (table, events) = (words(table), words(events));
    let (shape, b) = match accept(&table) {
        Ok(accepted) => accepted,
        Err((reason, place)) => return write!(out, "{reason}\n{place}\n"),
    };
    let mut first = vec![0; state_length(&shape)];
    fresh(&table, &mut first);
    let state = State::of(&shape, &first).expect("a fresh state has its length");
    let mut run = Run { table: &shape, state, trace: vec![], outcomes: &[], visits: 0 };
    let (mut most_trace, mut most_visits) = (Most::default(), Most::default());
    for (number, event) in events.into_iter().enumerate() {
        run.trace.clear();
        run.visits = 0;
        let answer = take(&mut run, Event::of(event));
        let (trace, visits) = (run.trace.len() as u64, run.visits);
        writeln!(out, "event {number} answer {answer} trace {trace} visits {visits}")?;
        most_trace.meet(trace, number);
        most_visits.meet(visits, number);
    }
    let evaluations = (shape.count(Section::Rules) + b) as u64;
    most_trace.write(out, "trace", b as u64)?;
    // "at most 127 times the sum of R and B".
    most_visits.write(out, "visits", WHOLE_TREE * evaluations)
}

/// What is printed of the events' cost, for the two files' bytes.
pub fn cost(table: &[u8], events: &[u8]) -> String {
    let mut lines = vec![];
    write_cost(&mut lines, table, events).expect("memory takes it");
    String::from_utf8(lines).expect("letters, digits and spaces")
}

/// Prints the events' cost of two files.
pub fn cost_files(out: &mut impl Write, table: &str, events: &str) -> Result<(), String> {
    let (table, events) = (read(table)?, read(events)?);
    write_cost(out, &table, &events)
        .and_then(|()| out.flush())
        .map_err(|why| format!("cannot print: {why}"))
}

/// The number that a word of decimal digits says; None where it is anything else. A number too
/// large to hold is held at the largest, for both are above 15.
pub fn operator(word: &str) -> Option<u32> {
    let digits = !word.is_empty() && word.bytes().all(|byte| byte.is_ascii_digit());
    let next =
        |number: u32, byte: u8| number.saturating_mul(10).saturating_add(u32::from(byte - b'0'));
    digits.then(|| word.bytes().fold(0, next))
}

/// Why a panel is not printed: answers 9 and 1, in this order; or what its files and its output
/// would not do. Fresh states and those after them fit, and there is room to print in.
#[derive(Debug)]
pub enum NoPanel {
    Operator,
    Table {
        reason: u32,
        place: usize,
    },
    /// The pipe it is printed to was closed.
    Closed,
    Unable(String),
}

impl From<io::Error> for NoPanel {
    fn from(why: io::Error) -> Self {
        match why.kind() {
            io::ErrorKind::BrokenPipe => NoPanel::Closed,
            _ => NoPanel::Unable(format!("cannot print: {why}")),
        }
    }
}

/// The panel of an operator after the last event, request Q-13, each event taken from a fresh state
/// as `run` takes it, with B trace words and no outcomes lent. Or, to follow it, the panel after
/// each event that changed it, behind a line with the event's number.
pub fn write_panel(
    out: &mut impl Write,
    operator: u32,
    table: &[u8],
    events: &[u8],
    follow: bool,
) -> Result<(), NoPanel> {
    let table = words(table);
    if !OPERATORS.contains(&operator) {
        return Err(NoPanel::Operator);
    }
    // Checked once, as in `cost`.
    let (shape, _) = accept(&table).map_err(|(reason, place)| NoPanel::Table { reason, place })?;
    let mut first = vec![0; state_length(&shape)];
    fresh(&table, &mut first);
    let state = State::of(&shape, &first).expect("a fresh state has its length");
    let mut run = Run { table: &shape, state, trace: vec![], outcomes: &[], visits: 0 };
    let view = View::of(operator, &shape);
    let mut seen = view.words(&first, &[]);
    for (number, event) in words(events).into_iter().enumerate() {
        // The newest step's words are the event's own: a refused one wrote none.
        run.trace.clear();
        take(&mut run, Event::of(event));
        let now = view.words(&run.state.words, &run.trace);
        if follow && now != seen {
            write!(out, "event {number}\n{}", view.lines(&now))?;
        }
        seen = now;
    }
    if !follow {
        write!(out, "{}", view.lines(&seen))?;
    }
    Ok(out.flush()?)
}

/// What is printed of an operator's panel, for the two files' bytes.
pub fn panel(operator: u32, table: &[u8], events: &[u8], follow: bool) -> Result<String, NoPanel> {
    let mut lines = vec![];
    write_panel(&mut lines, operator, table, events, follow)?;
    Ok(String::from_utf8(lines).expect("letters, digits and spaces"))
}

/// Prints an operator's panel of two files.
pub fn panel_files(
    out: &mut impl Write,
    operator: u32,
    table: &str,
    events: &str,
    follow: bool,
) -> Result<(), NoPanel> {
    let read = |path: &str| read(path).map_err(NoPanel::Unable);
    let (table, events) = (read(table)?, read(events)?);
    write_panel(out, operator, &table, &events, follow)
}

/// What is told where a supplier's log is held against our rules (request Q-7).
#[derive(Clone, PartialEq, Eq, Debug)]
pub struct HoldTold {
    /// All of standard output.
    pub printed: String,
    /// The line on standard error, without its newline.
    pub trouble: Option<String>,
    pub status: u8,
}

/// Holds a supplier's log against what our rules order for the events, taken one after the other
/// from the fresh state, with B trace words and no outcomes lent. Ends at the first event that is
/// not as ordered; or, where all are wanted, goes on from the supplier's state.
pub fn hold(table: &[u8], events: &[u8], log: &[u8], all: bool) -> HoldTold {
    let mut printed = String::new();
    let (status, trouble) = match held(&mut printed, table, events, log, all) {
        Ok(as_ordered) => (if as_ordered { 0 } else { 1 }, None),
        Err((status, trouble)) => (status, Some(format!("herringcart: {trouble}"))),
    };
    HoldTold { printed, trouble, status }
}

/// Whether all events held are as ordered; or the status to leave with and what is wrong.
fn held(
    lines: &mut String,
    table: &[u8],
    events: &[u8],
    log: &[u8],
    all: bool,
) -> Result<bool, (u8, String)> {
    let (table, events, mut log) = (words(table), words(events), Log::of(log));
    let (shape, _) = accept(&table).map_err(|(reason, place)| {
        (2, format!("refused: the table has reason {reason} at word {place}"))
    })?;
    let mut first = vec![0; state_length(&shape)];
    fresh(&table, &mut first);
    let state = State::of(&shape, &first).expect("a fresh state has its length");
    // Checked once, as in `cost`.
    let mut run = Run { table: &shape, state, trace: vec![], outcomes: &[], visits: 0 };
    let mut others = 0;
    for (number, &event) in events.iter().enumerate() {
        let supplier = log.recording(number, first.len()).map_err(|trouble| (1, trouble))?;
        run.trace.clear();
        let answer = take(&mut run, Event::of(event));
        let state = run.state.words.clone();
        let ours = Recording { answer, state, trace: run.trace.clone() };
        let Some(told) = held_apart(&ours, &supplier) else {
            continue;
        };
        let _ = write!(lines, "event {number} {event:08X}\n{told}");
        others += 1;
        if !all {
            return Ok(false);
        }
        match State::of(&shape, &supplier.state).filter(State::fits) {
            Some(state) => run.state = state,
            None => *lines += "the supplier's state does not fit: on from ours\n",
        }
    }
    log.end().map_err(|trouble| (1, trouble))?;
    let _ = match others {
        0 => writeln!(lines, "{} events: all as our tables order", events.len()),
        _ => writeln!(lines, "{} events: {others} not as our tables order", events.len()),
    };
    Ok(others == 0)
}

/// How an event's recordings part, and their words from there, ours first; None where they are
/// the same.
fn held_apart(ours: &Recording, supplier: &Recording) -> Option<String> {
    let whose = |name: &str, words: &[u32]| {
        words.iter().map(|word| format!("{name} {word:08X}\n")).collect::<String>()
    };
    let both = |told: String, ours: &[u32], suppliers: &[u32]| {
        Some(format!("{told}\n{}{}", whose("ours", ours), whose("supplier", suppliers)))
    };
    if ours.answer != supplier.answer {
        let side = |name: &str, side: &Recording| {
            format!("{name} {}\n{}", side.answer, whose(name, &side.trace))
        };
        let (ours, suppliers) = (side("ours", ours), side("supplier", supplier));
        return Some(format!("answers part\n{ours}{suppliers}"));
    }
    let parting = parting(&ours.trace, &ours.state, &supplier.trace, &supplier.state);
    let word = parting.number;
    let told = match parting.verdict {
        verdict::AS_ORDERED => return None,
        verdict::TRACES_PART => "traces part at word",
        verdict::SUPPLIER_STOPS => "the supplier's trace stops at word",
        verdict::OURS_STOPS => "the supplier's trace goes on at word",
        _ => {
            let told = format!("states part at word {word}");
            return both(told, &ours.state[word..], &supplier.state[word..]);
        }
    };
    both(format!("{told} {word}"), &ours.trace[word..], &supplier.trace[word..])
}

/// Holds a log's file against what our rules order for two files.
pub fn hold_files(table: &str, events: &str, log: &str, all: bool) -> Result<HoldTold, String> {
    Ok(hold(&read(table)?, &read(events)?, &read(log)?, all))
}

/// Prints the day of two files.
pub fn play_files(out: &mut impl Write, table: &str, events: &str) -> Result<(), String> {
    let (table, events) = (read(table)?, read(events)?);
    write_played(out, &table, &events, SPARE)
        .and_then(|()| out.flush())
        .map_err(|why| format!("cannot print: {why}"))
}

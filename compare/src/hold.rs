//! `compare hold`: the program that holds a supplier's log against ours, over the proved library, in this process. Fixed cases of
//! the second program start it, and what it tells is held against what they recorded. The log is read by the second program's reader,
//! for the library has none.

use std::fmt::Write as _;
use std::io::{self, Write as _};
use std::process::ExitCode;

use herringcart::Verdict;
use second::program::{HoldTold, words};
use second::supplier::{Log, Recording};

use crate::programs::read_bytes;

const ALL: &str = "--all";

/// Leaves with the status that is told; with 2 for other words and files that cannot be read.
pub fn hold(asked: &[&str], usage: &str) -> ExitCode {
    let mut words = asked.to_vec();
    let all = words.iter().position(|&word| word == ALL);
    all.map(|place| words.remove(place));
    let [table, events, log] = words[..] else {
        eprintln!("{usage}");
        return ExitCode::from(2);
    };
    let files = [table, events, log].map(read_bytes);
    let [Ok(table), Ok(events), Ok(log)] = &files else {
        files
            .iter()
            .filter_map(|file| file.as_ref().err())
            .for_each(|why| eprintln!("compare: {why}"));
        return ExitCode::from(2);
    };
    let HoldTold { printed, trouble, status } = by_library(table, events, log, all.is_some());
    if let Err(why) = io::stdout().lock().write_all(printed.as_bytes()) {
        eprintln!("compare: cannot print: {why}");
        return ExitCode::from(2);
    }
    trouble.iter().for_each(|line| eprintln!("{line}"));
    ExitCode::from(status)
}

/// What is told of a log, by the files' bytes.
pub fn by_library(table: &[u8], events: &[u8], log: &[u8], all: bool) -> HoldTold {
    let mut printed = String::new();
    let (status, trouble) = match held(&mut printed, &words(table), &words(events), log, all) {
        Ok(as_ordered) => (u8::from(!as_ordered), None),
        Err((status, trouble)) => (status, Some(format!("herringcart: {trouble}"))),
    };
    HoldTold { printed, trouble, status }
}

/// Whether all events are as ordered; or the status and what is wrong.
fn held(
    lines: &mut String,
    table: &[u32],
    events: &[u32],
    log: &[u8],
    all: bool,
) -> Result<bool, (u8, String)> {
    let check = herringcart::check_table(table);
    if !check.accepted() {
        let (reason, place) = (check.reason, check.place);
        return Err((2, format!("refused: the table has reason {reason} at word {place}")));
    }
    let mut state = vec![0; herringcart::state_words(table)];
    let mut trace = vec![0; check.bound as usize];
    herringcart::make_fresh(table, &mut state);
    let (mut log, mut others) = (Log::of(log), 0);
    for (number, &event) in events.iter().enumerate() {
        let theirs = log.recording(number, state.len()).map_err(|trouble| (1, trouble))?;
        let Some(told) = apart(table, &mut state, &mut trace, event, &theirs) else { continue };
        let _ = write!(lines, "event {number} {event:08X}\n{told}");
        others += 1;
        if !all {
            return Ok(false);
        }
        if herringcart::check_state(table, &theirs.state) == 0 {
            state = theirs.state;
        } else {
            lines.push_str("the supplier's state does not fit: on from ours\n");
        }
    }
    log.end().map_err(|trouble| (1, trouble))?;
    let how_many = if others == 0 { "all".into() } else { format!("{others} not") };
    let _ = writeln!(lines, "{} events: {how_many} as our tables order", events.len());
    Ok(others == 0)
}

/// How an event's recordings part, and their words from there; None where they do not. The state is passed on.
fn apart(
    table: &[u32],
    state: &mut [u32],
    trace: &mut [u32],
    event: u32,
    theirs: &Recording,
) -> Option<String> {
    let named = |name: &str, words: &[u32]| -> String {
        words.iter().map(|word| format!("{name} {word:08X}\n")).collect()
    };
    let held = herringcart::hold(table, state, trace, &[], event, &theirs.trace, &theirs.state);
    let (verdict, part, count) = (held.verdict, held.part.to_vec(), held.count);
    let answer = if let Verdict::Refused(answer) = verdict { answer } else { 0 };
    let (ours, suppliers) = (&trace[..count], &theirs.trace[..]);
    if answer != theirs.answer {
        let side = |name: &str, answer: u32, words: &[u32]| {
            format!("{name} {answer}\n{}", named(name, words))
        };
        let ours = side("ours", answer, ours);
        return Some(format!("answers part\n{ours}{}", side("supplier", theirs.answer, suppliers)));
    }
    let states_part = |word: usize| {
        let (ours, suppliers) = (named("ours", &state[word..]), &theirs.state[word..]);
        Some(format!("states part at word {word}\n{ours}{}", named("supplier", suppliers)))
    };
    match verdict {
        Verdict::AsOrdered => None,
        // Refused alike: no trace, and the state before.
        Verdict::Refused(_) if !suppliers.is_empty() => {
            let suppliers = named("supplier", suppliers);
            Some(format!("the supplier's trace goes on at word 0\n{suppliers}"))
        }
        Verdict::Refused(_) => {
            let length = state.len().max(theirs.state.len());
            let differs = |&word: &usize| state.get(word) != theirs.state.get(word);
            (0..length).find(differs).and_then(states_part)
        }
        Verdict::TracesPart(word) => {
            let (ours, suppliers) = (named("ours", &ours[word..]), named("supplier", &part));
            Some(format!("traces part at word {word}\n{ours}{suppliers}"))
        }
        Verdict::TheirsStops(word) => {
            Some(format!("the supplier's trace stops at word {word}\n{}", named("ours", &part)))
        }
        Verdict::OursStops(word) => {
            let suppliers = named("supplier", &part);
            Some(format!("the supplier's trace goes on at word {word}\n{suppliers}"))
        }
        Verdict::StatesPart(word) => states_part(word),
    }
}

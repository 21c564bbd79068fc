//! `compare panel`: the panel's program over the proved library, in this process. Fixed cases of the second program start it,
//! and what it prints is held against what they recorded.

use std::fmt::Write as _;
use std::io::{self, Write as _};
use std::process::ExitCode;

use second::program::operator;

use crate::programs::read;

const FOLLOW: &str = "--follow";

/// Status 1 for a number or a table that is refused, and 2 for other words and files that cannot be read. A closed pipe is no
/// trouble: the reader has seen enough.
pub fn panel(asked: &[&str], usage: &str) -> ExitCode {
    let mut words = asked.to_vec();
    let follow = words.iter().position(|&word| word == FOLLOW);
    follow.map(|place| words.remove(place));
    let [number, table, events] = words[..] else {
        eprintln!("{usage}");
        return ExitCode::from(2);
    };
    let Some(number) = operator(number) else {
        eprintln!("compare: not an operator's number: {number}");
        return ExitCode::from(2);
    };
    let (table, events) = match (read(table), read(events)) {
        (Ok(table), Ok(events)) => (table, events),
        (Err(why), _) | (_, Err(why)) => {
            eprintln!("compare: {why}");
            return ExitCode::from(2);
        }
    };
    match by_library(number, &table, &events, follow.is_some()) {
        Ok(lines) => print(&lines),
        Err(answer) => {
            eprintln!("compare: no panel: answer {answer}");
            ExitCode::FAILURE
        }
    }
}

fn print(lines: &str) -> ExitCode {
    match io::stdout().lock().write_all(lines.as_bytes()) {
        Err(why) if why.kind() != io::ErrorKind::BrokenPipe => {
            eprintln!("compare: cannot print: {why}");
            ExitCode::from(2)
        }
        _ => ExitCode::SUCCESS,
    }
}

/// What is printed of an operator's panel; or the answer that refuses it.
pub fn by_library(
    operator: u32,
    table: &[u32],
    events: &[u32],
    follow: bool,
) -> Result<String, u32> {
    let bound = herringcart::check_table(table).bound as usize;
    let mut state = vec![0; herringcart::state_words(table)];
    let mut trace = vec![0; bound];
    herringcart::make_fresh(table, &mut state);
    let mut seen = laid(operator, table, &state, &[])?;
    let mut lines = String::new();
    for (number, &event) in events.iter().enumerate() {
        let answer = herringcart::take_event(table, &mut state, &mut trace, &[], event);
        let now = laid(operator, table, &state, &trace[..answer.count])?;
        if follow && now != seen {
            let _ = write!(lines, "event {number}\n{now}");
        }
        seen = now;
    }
    Ok(if follow { lines } else { seen })
}

/// A panel in the room that is always enough.
fn laid(operator: u32, table: &[u32], state: &[u32], words: &[u32]) -> Result<String, u32> {
    let mut lines = vec![0; herringcart::panel_bytes(words.len())];
    let panel = herringcart::panel(operator, table, state, words, &mut lines);
    if !panel.done() {
        return Err(panel.number);
    }
    Ok(String::from_utf8_lossy(&lines[..panel.bytes]).into_owned())
}

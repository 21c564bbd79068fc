//! A panel for each operator: request Q-13.

use std::fmt::Write as _;

use crate::check::accept;
use crate::state::{State, start};
use crate::words::*;

/// The operators there are: 0 is the platform, and an owner field has four bits.
pub const OPERATORS: std::ops::RangeInclusive<u32> = 1..=15;
/// "Number 0 or above 15 (answer 9)".
pub const NO_OPERATOR: u32 = 9;
/// The lines do not fit, as in Q-4: "then with 11 where the output is too short".
pub const NO_ROOM: u32 = 11;

#[derive(Clone, Copy, PartialEq, Eq, Debug)]
pub struct Panel {
    pub answer: u32,
    /// How many bytes were laid at the front of the room; 0 in a refusal.
    pub bytes: usize,
}

/// Lays an operator's lines at the front of the room lent: those of a state and of the trace words
/// handed in, which may be any. A refusal changes no byte of the room.
pub fn panel(operator: u32, table: &[u32], state: &[u32], words: &[u32], out: &mut [u8]) -> Panel {
    let refused = |answer: u32| Panel { answer, bytes: 0 };
    let lines = match lines(operator, table, state, words) {
        Err(answer) => return refused(answer),
        Ok(lines) if lines.len() > out.len() => return refused(NO_ROOM),
        Ok(lines) => lines,
    };
    out[..lines.len()].copy_from_slice(lines.as_bytes());
    Panel { answer: 0, bytes: lines.len() }
}

/// All the lines, however many; or the answer: 9, 1 or 2, in this order.
fn lines(operator: u32, table: &[u32], state: &[u32], words: &[u32]) -> Result<String, u32> {
    if !OPERATORS.contains(&operator) {
        return Err(NO_OPERATOR);
    }
    let (table, _) = accept(table).map_err(|_| 1u32)?;
    let state = State::of(&table, state).filter(State::fits).ok_or(2u32)?;
    let view = View::of(operator, &table);
    Ok(view.lines(&view.words(&state.words, words)))
}

/// What an operator sees of a table: its things, and where each has its word in a state.
pub struct View {
    operator: u32,
    things: Vec<Thing>,
}

struct Thing {
    name: &'static str,
    /// Its number in its section.
    number: usize,
    /// The place of its word in a state.
    place: usize,
}

impl View {
    /// Rules have owners too, but Q-13 speaks of "that operator's ports, networks, sources and
    /// trace words in table order".
    pub fn of(operator: u32, table: &Table) -> View {
        let owner = |section: Section, number: usize| match section {
            Section::Networks => table.network(number).owner,
            Section::Sources => table.source(number).owner,
            _ => table.port(number).owner,
        };
        let shown = [
            ("port", Section::Ports),
            ("network", Section::Networks),
            ("source", Section::Sources),
        ];
        let mut things = vec![];
        for (name, section) in shown {
            let own = (0..table.count(section)).filter(|&n| owner(section, n) == operator);
            let first = start(table, section);
            things.extend(own.map(|number| Thing { name, number, place: first + number }));
        }
        View { operator, things }
    }

    /// Its words, a panel's in order: of the state, then of the newest step's trace.
    pub fn words(&self, state: &[u32], trace: &[u32]) -> Vec<u32> {
        let things = self.things.iter().map(|thing| state[thing.place]);
        let own = trace.iter().filter(|&&word| TraceWord::of(word).owner == self.operator);
        things.chain(own.copied()).collect()
    }

    /// The panel that shows these words. Two panels of one table are the same bytes exactly where
    /// their words are the same.
    pub fn lines(&self, words: &[u32]) -> String {
        let (things, trace) = words.split_at(self.things.len());
        let mut lines = String::new();
        for (Thing { name, number, .. }, word) in self.things.iter().zip(things) {
            let _ = writeln!(lines, "{name} {number} {word:08X}");
        }
        for word in trace {
            let _ = writeln!(lines, "trace {word:08X}");
        }
        lines
    }
}

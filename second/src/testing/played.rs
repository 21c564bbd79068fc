//! What `play TABLE EVENTS` prints for a case, written again from its single events.

use super::coverage::{Met, Row};
use super::log::{Entry, hold};
use crate::cases::Case;
use crate::cases::draft::Draft;
use crate::check::Check;
use crate::program::{played, write_played};

const REASON: &str = "day printed: reason and place";
const ENDED: &str = "day printed: all events taken";
const REFUSED: &str = "day printed: ended by a refusal";
const SILENT: &str = "day printed: no trace word";
const SEVERAL: &str = "day printed: trace of several calls";
const SECTIONS: &str = "day printed: two words or more in each section";

pub const ROWS: [&str; 6] = [REASON, ENDED, REFUSED, SILENT, SEVERAL, SECTIONS];

pub fn bytes(words: &[u32]) -> Vec<u8> {
    words.iter().flat_map(|word| word.to_be_bytes()).collect()
}

/// A bad table, whatever the events.
pub fn try_reason(case: &Case, checked: Check, met: &mut Met) -> Result<(), String> {
    let lines = played(&bytes(&case.table), &bytes(&case.events));
    let due = format!("{}\n{}\n", checked.reason, checked.place);
    hold(lines == due, || format!("printed {lines:?}, not {due:?}"))?;
    met.insert(Row::Special(REASON));
    Ok(())
}

/// A case from a fresh state: with no events; and with its own, in as few calls as there may be
/// and in several.
pub fn try_day(case: &Case, draft: &Draft, log: &[Entry], met: &mut Met) -> Result<(), String> {
    let none = played(&bytes(&case.table), &[]);
    hold(none == due(case, draft, &[]), || format!("printed {none:?} for no events"))?;
    let taken = log.iter().take_while(|entry| entry.answer == 0).count();
    let trace: usize = log[..taken].iter().map(|entry| entry.trace.len()).sum();
    // Bytes past the last whole word are ignored.
    let past = vec![0xFF; log.len() % 4];
    let table = [bytes(&case.table), past.clone()].concat();
    let events = [bytes(&case.events), past].concat();
    let (lines, due) = (played(&table, &events), due(case, draft, log));
    hold(lines == due, || format!("printed {lines:?}, not {due:?}"))?;
    let mut lines = vec![];
    let written = write_played(&mut lines, &table, &events, trace / 3);
    hold(written.is_ok() && lines == due.as_bytes(), || "resumed, it prints another day".into())?;
    let counts = [draft.ports.len(), draft.rules.len(), draft.networks.len(), draft.sources.len()];
    let rows = [
        (taken == log.len(), ENDED),
        (taken < log.len(), REFUSED),
        (taken > 0 && trace == 0, SILENT),
        (trace > draft.b() + trace / 3, SEVERAL),
        (counts.iter().all(|&count| count >= 2), SECTIONS),
    ];
    met.extend(rows.iter().filter(|(holds, _)| *holds).map(|&(_, row)| Row::Special(row)));
    Ok(())
}

/// What is to be printed for events that have this log.
fn due(case: &Case, draft: &Draft, log: &[Entry]) -> String {
    let taken: Vec<&Entry> = log.iter().take_while(|entry| entry.answer == 0).collect();
    let answer = log.get(taken.len()).map_or(0, |entry| entry.answer);
    let state = taken.last().map_or(&case.state, |entry| &entry.after);
    let trace = taken.iter().flat_map(|entry| &entry.trace);
    let trace = trace.map(|word| format!("trace {word:08X}\n"));
    let words = labels(draft).zip(state).map(|(label, word)| format!("{label} {word:08X}\n"));
    let visits: u64 = taken.iter().map(|entry| entry.visits).sum();
    let end = format!("taken {}\nvisits {visits}\nanswer {answer}\n", taken.len());
    trace.chain(words).chain([end]).collect()
}

/// The name and number of each word of a state.
pub fn labels(draft: &Draft) -> impl Iterator<Item = String> {
    let numbered =
        |name: &'static str, count: usize| (0..count).map(move |number| format!("{name} {number}"));
    numbered("port", draft.ports.len())
        .chain(numbered("rule", draft.rules.len()))
        .chain(numbered("network", draft.networks.len()))
        .chain(numbered("source", draft.sources.len()))
}

//! What `cost TABLE EVENTS` prints for a case, written again from its single events.

use super::log::{Entry, hold};
use super::played::bytes;
use crate::cases::Case;
use crate::check::Check;
use crate::program::cost;

/// A bad table, whatever the events.
pub fn try_reason(case: &Case, checked: Check) -> Result<(), String> {
    let lines = cost(&bytes(&case.table), &bytes(&case.events));
    let due = format!("{}\n{}\n", checked.reason, checked.place);
    hold(lines == due, || format!("cost prints {lines:?}, not {due:?}"))
}

/// A case from a fresh state, and without its events.
pub fn try_cost(case: &Case, rules: usize, b: usize, log: &[Entry]) -> Result<(), String> {
    for (events, log) in [(&case.events[..], log), (&[], &[])] {
        let lines = cost(&bytes(&case.table), &bytes(events));
        let due = due(rules, b, log);
        hold(lines == due, || format!("cost prints {lines:?}, not {due:?}"))?;
    }
    Ok(())
}

fn due(rules: usize, b: usize, log: &[Entry]) -> String {
    let mut lines = String::new();
    for (number, Entry { answer, trace, visits, .. }) in log.iter().enumerate() {
        let trace = trace.len();
        lines += &format!("event {number} answer {answer} trace {trace} visits {visits}\n");
    }
    let traces: Vec<u64> = log.iter().map(|entry| entry.trace.len() as u64).collect();
    let visits: Vec<u64> = log.iter().map(|entry| entry.visits).collect();
    let evaluations = 127 * (rules + b);
    lines + &most("trace", &traces, b) + &most("visits", &visits, evaluations)
}

fn most(what: &str, numbers: &[u64], bound: usize) -> String {
    let most = numbers.iter().max().copied().unwrap_or(0);
    let first = numbers.iter().position(|&number| number == most);
    let first = first.map_or("none".to_string(), |event| event.to_string());
    format!("most {what} {most} event {first} bound {bound}\n")
}

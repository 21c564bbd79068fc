//! A trace read back against its table.

use super::log::Entry;
use crate::cases::draft::Draft;
use crate::words::*;

/// The lists that started, in order.
pub fn started(entry: &Entry) -> Vec<usize> {
    let words = entry.trace.iter().map(|&word| TraceWord::of(word));
    words.filter(|word| word.kind == LIST_START).map(|word| word.a as usize).collect()
}

/// The words that rule items wrote.
pub fn rule_items(entry: &Entry) -> impl Iterator<Item = TraceWord> {
    let words = entry.trace.iter().map(|&word| TraceWord::of(word));
    words.filter(|word| word.kind == item::RULE)
}

/// The modes that network requests asked a network for, in order.
pub fn modes_asked(entry: &Entry, network: usize) -> impl Iterator<Item = u32> {
    let words = entry.trace.iter().map(|&word| TraceWord::of(word));
    let requests =
        words.filter(move |word| (word.kind, word.a) == (item::NETWORK_REQUEST, network as u32));
    requests.map(|word| word.b)
}

/// The owners of the lists that outside calls ran in, in order.
pub fn callers(trace: &[u32]) -> Vec<u32> {
    let words = trace.iter().map(|&word| TraceWord::of(word));
    words.filter(|word| word.kind == item::OUTSIDE_CALL).map(|word| word.owner).collect()
}

/// A rule was certainly evaluated if its stored result changed or a rule item says so.
pub fn evaluated(draft: &Draft, entry: &Entry) -> Vec<usize> {
    let first = draft.ports.len();
    let changed = |&rule: &usize| entry.before[first + rule] != entry.after[first + rule];
    let by_item = rule_items(entry).filter(|word| word.b != UNDEFINED);
    (0..draft.rules.len()).filter(changed).chain(by_item.map(|w| w.a as usize)).collect()
}

//! The lists that an event chooses, worked out from the words before and after it.

use std::collections::BTreeSet;

use super::log::Entry;
use super::ports::{Ports, arbitrated, expires, undefined};
use super::skipping::gives;
use crate::cases::draft::Draft;
use crate::words::*;

/// An event of an accepted table that is done.
pub struct Choices<'a> {
    draft: &'a Draft,
    mentions: &'a [Ports],
    entry: &'a Entry,
    /// The ports' words when the rules were evaluated: no list had run yet.
    pub read: Vec<u32>,
    pub arbitrated: Ports,
    undefined: Ports,
}

impl<'a> Choices<'a> {
    pub fn of(draft: &'a Draft, mentions: &'a [Ports], entry: &'a Entry) -> Self {
        let read = (0..draft.ports.len()).map(|port| read(draft, entry, port)).collect();
        let (arbitrated, undefined) = (arbitrated(draft, entry), undefined(draft, entry));
        Choices { draft, mentions, entry, read, arbitrated, undefined }
    }

    /// The lists chosen, had just these ports been arbitrated.
    pub fn chosen(&self, arbitrated: Ports) -> BTreeSet<usize> {
        let results = self.results(arbitrated);
        results.filter_map(|(rule, result)| self.chosen_by(rule, result)).collect()
    }

    /// The rules evaluated before any list runs, each with its result.
    pub fn results(&self, arbitrated: Ports) -> impl Iterator<Item = (usize, bool)> {
        let concerned = move |&number: &usize| {
            let (rule, mentions) = (self.draft.rules[number], self.mentions[number]);
            rule.nested_only == 0 && mentions & arbitrated != 0 && mentions & self.undefined == 0
        };
        let gives = |number: usize| {
            (number, gives(self.draft, &self.read, self.draft.rules[number].expression))
        };
        (0..self.mentions.len()).filter(concerned).map(gives)
    }

    fn chosen_by(&self, number: usize, result: bool) -> Option<usize> {
        let list = self.draft.rules[number].list_for(result)?;
        let last = RuleState::of(self.entry.before[self.draft.ports.len() + number]).last;
        (self.draft.lists[list].triggered == 0 || last != result as u32).then_some(list)
    }
}

fn read(draft: &Draft, entry: &Entry, port: usize) -> u32 {
    let before = PortState::of(entry.before[port]);
    match draft.ports[port].kind {
        // Lists write no mode port.
        port::MODE => entry.after[port],
        port::EVENT => PortState { value: first_value(entry, port), ..before }.word(),
        _ if expires(draft, entry, port) => PortState { value: timer::EXPIRED, ..before }.word(),
        _ => before.word(),
    }
}

/// An event port's value before any list has run.
pub fn first_value(entry: &Entry, port: usize) -> u32 {
    if requested(entry, port) { 1 } else { PortState::of(entry.before[port]).value }
}

/// The event speaks of this event port.
pub fn requested(entry: &Entry, port: usize) -> bool {
    entry.event.kind == event::EVENT_REQUEST && entry.event.index as usize == port
}

//! Sets of ports, read off a table or off an event's words.

use std::ops::RangeInclusive;

use super::log::Entry;
use crate::cases::draft::Draft;
use crate::events::shown;
use crate::words::*;

/// Ports as bits, for there are at most 64.
pub type Ports = u64;

pub fn ports_where(draft: &Draft, wanted: impl Fn(usize) -> bool) -> Ports {
    (0..draft.ports.len()).filter(|&port| wanted(port)).fold(0, |ports, port| ports | 1 << port)
}

/// The ports of a set, by their numbers.
pub fn members(ports: Ports) -> impl Iterator<Item = usize> {
    (0..Ports::BITS as usize).filter(move |&port| ports >> port & 1 == 1)
}

/// What each rule mentions, skipped or not.
pub fn mentions(draft: &Draft) -> Vec<Ports> {
    let mut known = vec![None; draft.expressions.len()];
    let rules = draft.rules.iter();
    rules.map(|rule| mentioned(draft, rule.expression as usize, &mut known)).collect()
}

fn mentioned(draft: &Draft, number: usize, known: &mut [Option<Ports>]) -> Ports {
    if let Some(ports) = known[number] {
        return ports;
    }
    let ports = match draft.expressions[number] {
        Expression::Condition(condition) => 1 << condition.port,
        operator => operator.arguments().fold(0, |ports, a| ports | mentioned(draft, a, known)),
    };
    known[number] = Some(ports);
    ports
}

pub fn undefined(draft: &Draft, entry: &Entry) -> Ports {
    ports_where(draft, |port| PortState::of(entry.after[port]).defined == 0)
}

/// Ports that an item cleared, started or stopped.
pub fn written(entry: &Entry) -> Ports {
    named(entry, item::CLEAR_EVENT..=item::STOP_TIMER)
}

pub fn cleared(entry: &Entry) -> Ports {
    named(entry, item::CLEAR_EVENT..=item::CLEAR_EVENT)
}

fn named(entry: &Entry, kinds: RangeInclusive<u32>) -> Ports {
    let words = entry.trace.iter().map(|&word| TraceWord::of(word));
    words.filter(|word| kinds.contains(&word.kind)).fold(0, |ports, word| ports | 1 << word.a)
}

/// The ports a taken event arbitrated, by the words before and after it: lists
/// turn no network and no source.
pub fn arbitrated(draft: &Draft, entry: &Entry) -> Ports {
    match entry.event.kind {
        event::MODE_REQUEST | event::EVENT_REQUEST => {
            let immediate = draft.ports[entry.event.index as usize].deferred == 0;
            if immediate { 1 << entry.event.index } else { 0 }
        }
        event::TICK => {
            let marked = ports_where(draft, |port| {
                PortState::of(entry.before[port]).marked == 1 || expires(draft, entry, port)
            });
            marked | turned(draft, entry)
        }
        _ => 0,
    }
}

/// A timer that runs out in this tick.
pub fn expires(draft: &Draft, entry: &Entry, port: usize) -> bool {
    let word = PortState::of(entry.before[port]);
    let started = draft.ports[port].kind == port::TIMER && word.value == timer::STARTED;
    entry.is_tick() && started && word.remaining == 1
}

/// The ports of networks and sources that show something else than before.
fn turned(draft: &Draft, entry: &Entry) -> Ports {
    let (before, after) = (&entry.before, &entry.after);
    let network = |number: &usize| {
        let shows = |state: &[u32]| shown(draft.network_in(state, *number).state);
        shows(before) != shows(after)
    };
    let source = |number: &usize| {
        let status = |state: &[u32]| draft.source_in(state, *number).status;
        status(before) != status(after)
    };
    let networks = (0..draft.networks.len()).filter(network).map(|n| draft.networks[n].0.port);
    let sources = (0..draft.sources.len()).filter(source).map(|s| draft.sources[s].port);
    networks.chain(sources).fold(0, |ports, port| ports | 1 << port)
}

//! Events by who sends them: taken ones of an owner's own things, and refused ones of every kind
//! under an owner's name.

use super::draft::Draft;
use super::prng::Prng;
use super::sequences::{open_mode_ports, some_value};
use crate::words::*;

/// How often each kind is sent where there is a thing for it. Wakeups and bus-offs come before what
/// ends them.
const WEIGHTS: [usize; 8] = [0, 34, 12, 14, 5, 14, 4, 9];

/// An event of each kind for each thing, under its owner's name: all are taken.
pub fn openings(draft: &Draft) -> Vec<Event> {
    let event = |kind: u32, owner: u32, index: usize| {
        let index = index as u32;
        Event { kind, owner, index, ..Default::default() }
    };
    let modes = open_mode_ports(draft).into_iter();
    let mut all: Vec<Event> =
        modes.map(|p| event(event::MODE_REQUEST, draft.ports[p].owner, p)).collect();
    let ports = draft.ports.iter().enumerate().filter(|(_, port)| port.kind == port::EVENT);
    all.extend(ports.map(|(p, port)| event(event::EVENT_REQUEST, port.owner, p)));
    for (s, source) in draft.sources.iter().enumerate() {
        let kinds = [event::WAKEUP, event::WAKEUP_VALID, event::WAKEUP_CLEAR];
        all.extend(kinds.map(|kind| event(kind, source.owner, s)));
    }
    for (n, (network, _)) in draft.networks.iter().enumerate() {
        let kinds = [event::BUS_OFF, event::HEARD];
        all.extend(kinds.map(|kind| event(kind, network.owner, n)));
    }
    all
}

/// An event of one of those given, with a value that tells something; None where there are none.
pub fn taken(rng: &mut Prng, draft: &Draft, openings: &[Event]) -> Option<Event> {
    let has = |kind: usize| openings.iter().any(|event| event.kind as usize == kind);
    let weights: Vec<usize> = (0..8).map(|k| if has(k) { WEIGHTS[k] } else { 0 }).collect();
    if openings.is_empty() {
        return None;
    }
    let kind = rng.weighed(&weights) as u32;
    let of_kind: Vec<Event> = openings.iter().copied().filter(|e| e.kind == kind).collect();
    let event = rng.pick(&of_kind);
    let request = kind == event::MODE_REQUEST;
    let value = if request { some_value(rng, draft, event.index as usize) } else { 0 };
    Some(Event { value, ..event })
}

/// An event under an owner's name that is answered 4, 5 or 6; 4 where nothing is another's.
pub fn refused(rng: &mut Prng, draft: &Draft, all: &[Event], owner: u32) -> Event {
    let others: Vec<Event> = all.iter().copied().filter(|e| e.owner != owner).collect();
    match rng.below(4) {
        0 => without_thing(rng, draft, owner),
        1 => malformed(rng, all, owner),
        // Most of what a stranger may try is on things that are not its own.
        _ => match taken(rng, draft, &others) {
            Some(foreign) => Event { owner, ..foreign },
            None => malformed(rng, all, owner),
        },
    }
}

/// One that would be taken, or a tick, with a field spoilt.
fn malformed(rng: &mut Prng, all: &[Event], owner: u32) -> Event {
    let sound = Event { owner, ..rng.pick_any(all).unwrap_or_default() };
    let unknown = rng.within(event::HEARD + 1, 15);
    match rng.below(4) {
        0 => Event { kind: unknown, ..sound },
        1 if sound.kind != event::MODE_REQUEST => Event { value: rng.within(1, 255), ..sound },
        2 => {
            // A tick with more in it; under the platform's name the owner alone is no more.
            let index = if owner == PLATFORM { rng.within(1, 255) } else { rng.within(0, 1) };
            Event { kind: event::TICK, owner, index, ..Default::default() }
        }
        _ => Event { zero: rng.within(1, 255), ..sound },
    }
}

/// An absent thing, a port of a wrong kind, or the port of a network or source.
fn without_thing(rng: &mut Prng, draft: &Draft, owner: u32) -> Event {
    let kind = rng.within(event::MODE_REQUEST, event::HEARD);
    let open = open_mode_ports(draft);
    let wrong = |&port: &usize| match kind {
        event::MODE_REQUEST => !open.contains(&port),
        _ => draft.ports[port].kind != port::EVENT,
    };
    let count = match kind {
        event::MODE_REQUEST | event::EVENT_REQUEST => draft.ports.len(),
        event::BUS_OFF | event::HEARD => draft.networks.len(),
        _ => draft.sources.len(),
    };
    let of_ports = kind <= event::EVENT_REQUEST && rng.chance(70);
    let closed: Vec<usize> =
        if of_ports { (0..draft.ports.len()).filter(wrong).collect() } else { vec![] };
    let absent = rng.within(count as u32, 255);
    let index = rng.pick_any(&closed).map_or(absent, |port| port as u32);
    Event { kind, owner, index, ..Default::default() }
}

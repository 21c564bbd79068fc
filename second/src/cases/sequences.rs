//! Event sequences: mostly taken, each with the answer its making gives it.

use super::draft::Draft;
use super::prng::Prng;
use crate::words::*;

/// How many things of a kind a sequence comes back to.
const FOCUS: usize = 3;

struct Sender<'a> {
    rng: &'a mut Prng,
    draft: &'a Draft,
    /// Open mode ports, event ports, sources and networks to come back to.
    focus: [Vec<usize>; 4],
}

/// Events with the answers that table and event alone give.
pub fn sequence(
    rng: &mut Prng,
    draft: &Draft,
    length: usize,
    refused_percent: usize,
) -> Vec<(u32, u32)> {
    let all = [
        open_mode_ports(draft),
        event_ports(draft),
        numbers(&draft.sources),
        numbers(&draft.networks),
    ];
    let focus = all.map(|mut things| {
        rng.shuffle(&mut things);
        things.truncate(FOCUS);
        things
    });
    let mut sender = Sender { rng, draft, focus };
    (0..length)
        .map(|_| {
            let taken = sender.taken();
            if sender.rng.chance(refused_percent) {
                let (event, answer) = sender.refused(taken);
                (event.word(), answer)
            } else {
                (taken.word(), 0)
            }
        })
        .collect()
}

/// Events that are taken, with a few of any kind strewn in.
pub fn strewn(rng: &mut Prng, draft: &Draft, taken: &[Event]) -> Vec<(u32, u32)> {
    strew(rng, draft, taken.iter().map(|event| (event.word(), 0)).collect())
}

/// Events with their answers, with a few of any kind strewn in.
pub fn strew(rng: &mut Prng, draft: &Draft, mut events: Vec<(u32, u32)>) -> Vec<(u32, u32)> {
    let strays = 1 + rng.below(4);
    for stray in sequence(rng, draft, strays, 6) {
        events.insert(rng.below(events.len() + 1), stray);
    }
    events
}

fn numbers<T>(things: &[T]) -> Vec<usize> {
    (0..things.len()).collect()
}

fn ports_of_kind(draft: &Draft, kind: u32) -> Vec<usize> {
    numbers(&draft.ports).into_iter().filter(|&p| draft.ports[p].kind == kind).collect()
}

pub fn open_mode_ports(draft: &Draft) -> Vec<usize> {
    let things = draft.thing_ports();
    let open = |port: &usize| !things.contains(&(*port as u32));
    ports_of_kind(draft, port::MODE).into_iter().filter(open).collect()
}

fn event_ports(draft: &Draft) -> Vec<usize> {
    ports_of_kind(draft, port::EVENT)
}

/// Mostly one that a condition compares the port with.
pub fn some_value(rng: &mut Prng, draft: &Draft, port: usize) -> u32 {
    let compared: Vec<u32> = draft
        .expressions
        .iter()
        .filter_map(|expression| match expression {
            Expression::Condition(c) if c.port as usize == port => Some(c.value),
            _ => None,
        })
        .collect();
    match rng.pick_any(&compared) {
        Some(value) if rng.chance(70) => value,
        _ => rng.pick(&[0, 1, 2, 3, 5, 255]),
    }
}

impl Sender<'_> {
    /// A tick where the table has nothing of the kind drawn.
    fn taken(&mut self) -> Event {
        let kind = self.rng.weighed(&[34, 26, 12, 9, 5, 10, 4, 8]) as u32;
        let focus = match kind {
            event::TICK => return Event::default(),
            event::MODE_REQUEST => &self.focus[0],
            event::EVENT_REQUEST => &self.focus[1],
            event::BUS_OFF | event::HEARD => &self.focus[3],
            _ => &self.focus[2],
        };
        let Some(number) = self.rng.pick_any(focus) else {
            return Event::default();
        };
        let owner = match kind {
            event::MODE_REQUEST | event::EVENT_REQUEST => self.draft.ports[number].owner,
            event::BUS_OFF | event::HEARD => self.draft.networks[number].0.owner,
            _ => self.draft.sources[number].owner,
        };
        let value =
            if kind == event::MODE_REQUEST { some_value(self.rng, self.draft, number) } else { 0 };
        Event { kind, owner, index: number as u32, value, zero: 0 }
    }

    fn refused(&mut self, taken: Event) -> (Event, u32) {
        match self.rng.within(4, 6) {
            5 => (self.without_thing(), 5),
            6 if taken.kind != event::TICK => {
                let owner = (taken.owner + self.rng.within(1, 15)) % 16;
                (Event { owner, ..taken }, 6)
            }
            _ => (self.malformed(taken), 4),
        }
    }

    fn malformed(&mut self, taken: Event) -> Event {
        let kind = self.rng.within(event::HEARD + 1, 15);
        let zero = self.rng.within(1, 255);
        match self.rng.below(4) {
            0 => Event { kind, ..taken },
            1 if taken.kind != event::MODE_REQUEST => {
                Event { value: self.rng.within(1, 255), ..taken }
            }
            2 if taken.kind == event::TICK => Event { owner: self.rng.within(1, 15), ..taken },
            3 if taken.kind == event::TICK => Event { index: self.rng.within(1, 255), ..taken },
            _ => Event { zero, ..taken },
        }
    }

    /// Absent, or a port of a wrong kind, or the port of a network or source;
    /// the owner may be wrong besides, for 5 comes before 6.
    fn without_thing(&mut self) -> Event {
        let (draft, owner) = (self.draft, self.rng.within(0, 15));
        let kind = self.rng.within(event::MODE_REQUEST, event::HEARD);
        let (count, closed) = match kind {
            event::MODE_REQUEST => (draft.ports.len(), open_mode_ports(draft)),
            event::EVENT_REQUEST => (draft.ports.len(), event_ports(draft)),
            event::BUS_OFF | event::HEARD => (draft.networks.len(), numbers(&draft.networks)),
            _ => (draft.sources.len(), numbers(&draft.sources)),
        };
        let wrong: Vec<usize> = (0..count).filter(|number| !closed.contains(number)).collect();
        let index = match self.rng.pick_any(&wrong) {
            Some(number) if self.rng.chance(70) => number as u32,
            _ => self.rng.within(count as u32, 255),
        };
        let own = draft.ports.get(index as usize).map_or(owner, |port| port.owner);
        let owner = if self.rng.chance(50) { own } else { owner };
        Event { kind, owner, index, value: 0, zero: 0 }
    }
}

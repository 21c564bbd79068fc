//! Pairs of runs for request Q-14: one accepted table, one operator, and two event sequences that
//! share the ticks, the platform's events and the operator's, while the strangers' differ freely.
//!
//! `pair(seed, number)` gives the same pair every time. Each side's calls are made from a fresh
//! state, one after another, refused ones included; `agreement` judges what they gave.

use super::cleared::clearing;
use super::draft::Draft;
use super::failing::failing;
use super::heard::hearing;
use super::lent::{Lender, Luck};
use super::levels::leveling;
use super::neighbours::neighbours;
use super::outcomes::strew_aborts;
use super::prng::Prng;
use super::senders::{openings, refused, taken};
use super::tables::pad;
use super::turned::turned;
use super::visited::visiting;
use super::ways::with_ways;
use super::wide::widen;
use super::{any_draft, largest, small, small_or_empty};
use crate::check::accept;
use crate::events::refusal;
use crate::words::*;

/// One event call of a run.
#[derive(Clone, PartialEq, Eq, Debug)]
pub struct Sent {
    pub event: u32,
    /// The outcome words lent. In shared events of both sides they are such that the operator's
    /// and the platform's calls meet the same, in order; all are 0 or 1, but for a few of
    /// strangers' calls, which are then answered 8.
    pub outcomes: Vec<u32>,
    /// How many trace words are lent: at least B, but for a few of strangers' calls, which are then
    /// answered 3.
    pub room: usize,
    /// Whether both sides have it: a tick, the platform's or the operator's, by its owner field.
    pub shared: bool,
}

/// Events of a day that are done by one play, which is resumed at "trace full" in the same room
/// until it has taken all of them; or by a single call without outcomes, where there is one event.
/// All of them are taken.
#[derive(Clone, PartialEq, Eq, Debug)]
pub struct Part {
    pub events: Vec<u32>,
    pub room: usize,
    pub single: bool,
}

#[derive(Clone, PartialEq, Eq, Debug)]
pub struct Pair {
    pub table: Vec<u32>,
    /// The table's.
    pub b: usize,
    /// 0 is the platform, to which every operator is a stranger.
    pub operator: u32,
    pub sides: [Vec<Sent>; 2],
    /// The events of each side that are taken where no call fails, from a fresh state again: as
    /// one play; and as a mixture of plays and single calls.
    pub days: [[Vec<Part>; 2]; 2],
}

impl Pair {
    /// Whether an event word is one that both sides have.
    pub fn shares(&self, event: u32) -> bool {
        [PLATFORM, self.operator].contains(&Event::of(event).owner)
    }
}

#[derive(Clone, Copy)]
enum Shape {
    Neighbours,
    Turned,
    Small,
    Rich,
    Cleared,
    Levels,
    Heard,
    Failing,
    Visited,
    Wide,
    Reached,
    Limits,
    Dearest,
}

const SHAPES: [Shape; 20] = {
    use Shape::*;
    [
        Neighbours, Small, Neighbours, Rich, Neighbours, Turned, Cleared, Neighbours, Heard,
        Failing, Neighbours, Turned, Levels, Neighbours, Visited, Rich, Neighbours, Wide, Turned,
        Reached,
    ]
};

/// Shapes that are dear to run come once in so many pairs.
const SELDOM: usize = 100;

pub fn pair(seed: u64, number: usize) -> Pair {
    // Each from a place of its own: neighbouring seeds of this generator overlap.
    let rng = &mut Prng::new(Prng::new(seed).draw() ^ Prng::new(number as u64).draw());
    let shape = match number % SELDOM {
        49 => Shape::Dearest,
        99 => Shape::Limits,
        _ => SHAPES[number % SHAPES.len()],
    };
    let (draft, told) = drawn(rng, shape);
    let table = draft.words();
    let operator = some_operator(rng, &draft);
    let most = if matches!(shape, Shape::Limits | Shape::Dearest) { 6 } else { 24 };
    let mut pairing = Pairing::of(rng, &draft, operator);
    let shared = pairing.shared(&told, most);
    let sides = pairing.strewn(&shared, &told);
    fitted(rng, table, operator, shared, sides)
}

/// A table with the events that its maker has for it.
fn drawn(rng: &mut Prng, shape: Shape) -> (Draft, Vec<u32>) {
    let base = small_or_empty(rng);
    let (mut draft, told) = match shape {
        Shape::Neighbours => (neighbours(rng, base), vec![]),
        Shape::Turned => {
            let draft = neighbours(rng, base);
            (turned(rng, draft), vec![])
        }
        Shape::Small => (small(rng), vec![]),
        Shape::Rich => (any_draft(rng), vec![]),
        Shape::Cleared => clearing(rng, base),
        Shape::Levels => leveling(rng, base),
        Shape::Heard => hearing(rng, base),
        Shape::Failing => failing(rng, base),
        Shape::Visited => visiting(rng, base),
        Shape::Wide => {
            let base = small(rng);
            widen(rng, base)
        }
        Shape::Reached => {
            let base = any_draft(rng);
            (with_ways(rng, &base), vec![])
        }
        Shape::Limits => (largest(rng), vec![]),
        Shape::Dearest => {
            let mut draft = any_draft(rng);
            let left = 4096 - draft.b();
            pad(rng, &mut draft, left, 1);
            (draft, vec![])
        }
    };
    if rng.chance(50) {
        strew_aborts(rng, &mut draft);
    }
    (draft, told.into_iter().map(|(event, _)| event).collect())
}

/// Mostly one who has things; at times the platform, or anyone.
fn some_operator(rng: &mut Prng, draft: &Draft) -> u32 {
    let owners = draft.ports.iter().map(|port| port.owner);
    let operators: Vec<u32> = owners.filter(|&owner| owner != PLATFORM).collect();
    match rng.weighed(&[14, 4, 82]) {
        0 => PLATFORM,
        1 => rng.within(1, 15),
        _ => rng.pick_any(&operators).unwrap_or(1),
    }
}

struct Pairing<'a> {
    rng: &'a mut Prng,
    draft: &'a Draft,
    operator: u32,
    all: Vec<Event>,
    /// Those of `all` that are the operator's, the platform's and strangers'.
    own: Vec<Event>,
    platforms: Vec<Event>,
    strange: Vec<Event>,
    /// Who may send as a stranger, mostly those who have things.
    strangers: Vec<u32>,
}

impl<'a> Pairing<'a> {
    fn of(rng: &'a mut Prng, draft: &'a Draft, operator: u32) -> Self {
        let all = openings(draft);
        let of = |wanted: &dyn Fn(u32) -> bool| -> Vec<Event> {
            all.iter().copied().filter(|event| wanted(event.owner)).collect()
        };
        let (own, platforms) = (of(&|owner| owner == operator), of(&|owner| owner == PLATFORM));
        let strange = of(&|owner| ![PLATFORM, operator].contains(&owner));
        let strangers = (1..16).filter(|&owner| owner != operator).collect();
        Pairing { rng, draft, operator, all, own, platforms, strange, strangers }
    }

    /// What both sides have, in order.
    fn shared(&mut self, told: &[u32], most: usize) -> Vec<u32> {
        let seen = |event: &u32| [PLATFORM, self.operator].contains(&Event::of(*event).owner);
        let mut events: Vec<u32> = told.iter().copied().filter(seen).take(most).collect();
        for _ in 0..4 + self.rng.below(most) {
            let event = self.shared_event().word();
            events.insert(self.rng.below(events.len() + 1), event);
        }
        let place = self.rng.below(events.len() + 1);
        let busy = if self.rng.chance(60) { self.busy() } else { vec![] };
        events.splice(place..place, busy);
        events
    }

    fn shared_event(&mut self) -> Event {
        match self.rng.weighed(&[38, 32, 20, 10]) {
            0 => Event::default(),
            1 => taken(self.rng, self.draft, &self.own).unwrap_or_default(),
            2 => taken(self.rng, self.draft, &self.platforms).unwrap_or_default(),
            _ => {
                let owner = self.rng.pick(&[PLATFORM, self.operator, self.operator]);
                refused(self.rng, self.draft, &self.all, owner)
            }
        }
    }

    /// Events that have the operator's things go on for a few ticks: requests, then bus-offs of
    /// what they have asked for, and wakeups.
    fn busy(&mut self) -> Vec<u32> {
        let of = |kind: u32| self.own.iter().copied().filter(move |event| event.kind == kind);
        let mut busy: Vec<Event> = of(event::MODE_REQUEST).take(4).collect();
        for request in &mut busy {
            request.value = self.rng.pick(&[1, 1, 2, 3]);
        }
        busy.push(Event::default());
        busy.extend(of(event::WAKEUP).take(2).chain(of(event::BUS_OFF).take(3)));
        let ticks = 2 + self.rng.below(5);
        busy.resize(busy.len() + ticks, Event::default());
        busy.into_iter().map(Event::word).collect()
    }

    fn stranger_event(&mut self, told: &[u32]) -> Event {
        if let Some(event) = self.rng.pick_any(told)
            && self.rng.chance(30)
        {
            return Event::of(event);
        }
        let sent = taken(self.rng, self.draft, &self.strange);
        let any = self.rng.pick(&self.strangers);
        let owner = sent.map_or(any, |sent| sent.owner);
        match sent {
            Some(sent) if self.rng.chance(70) => sent,
            _ => {
                let owner = if self.rng.chance(80) { owner } else { any };
                refused(self.rng, self.draft, &self.all, owner)
            }
        }
    }

    /// Strangers' events before each shared one and behind the last, of both sides.
    fn strewn(&mut self, shared: &[u32], told: &[u32]) -> [Vec<Vec<u32>>; 2] {
        let strange = |event: &u32| ![PLATFORM, self.operator].contains(&Event::of(*event).owner);
        let told: Vec<u32> = told.iter().copied().filter(strange).collect();
        // At times one side has none at all: the strangers struck out.
        let silent = if self.rng.chance(12) { Some(self.rng.below(2)) } else { None };
        let mut sides = [vec![], vec![]];
        for _ in 0..=shared.len() {
            let mut gaps = self.gaps(&told);
            silent.map(|side| std::mem::take(&mut gaps[side]));
            sides.iter_mut().zip(gaps).for_each(|(side, gap)| side.push(gap));
        }
        sides
    }

    /// None, in one side alone, the same in both, or each its own.
    fn gaps(&mut self, told: &[u32]) -> [Vec<u32>; 2] {
        match self.rng.weighed(&[30, 16, 16, 8, 30]) {
            0 => [vec![], vec![]],
            1 => [self.gap(told), vec![]],
            2 => [vec![], self.gap(told)],
            3 => {
                let gap = self.gap(told);
                [gap.clone(), gap]
            }
            _ => [self.gap(told), self.gap(told)],
        }
    }

    fn gap(&mut self, told: &[u32]) -> Vec<u32> {
        let length = self.rng.pick(&[1, 1, 2, 2, 3, 4]);
        (0..length).map(|_| self.stranger_event(told).word()).collect()
    }
}

/// The calls of both sides, with rooms and outcomes, and their days.
fn fitted(
    rng: &mut Prng,
    table: Vec<u32>,
    operator: u32,
    shared: Vec<u32>,
    gaps: [Vec<Vec<u32>>; 2],
) -> Pair {
    let (accepted, b) = accept(&table).expect("made good, or found good");
    let lucks: Vec<Luck> = shared.iter().map(|_| Luck::drawn(rng)).collect();
    let sides = gaps.map(|gaps| {
        let mut lender = Lender::of(&mut *rng, &accepted, b, operator);
        let mut sent = vec![];
        for (number, gap) in gaps.iter().enumerate() {
            sent.extend(gap.iter().map(|&event| lender.strange(event)));
            sent.extend(shared.get(number).map(|&event| lender.shared(event, &lucks[number])));
        }
        sent
    });
    let events = |sent: &Vec<Sent>| -> Vec<u32> {
        let events = sent.iter().map(|sent| sent.event);
        events.filter(|&event| refusal(&accepted, Event::of(event), &[]) == 0).collect()
    };
    let days = [false, true].map(|mixed| {
        [0, 1].map(|side| {
            let events = events(&sides[side]);
            if mixed { mixture(rng, &events, b) } else { vec![played(rng, events, b)] }
        })
    });
    drop(accepted);
    Pair { table, b, operator, sides, days }
}

fn played(rng: &mut Prng, events: Vec<u32>, b: usize) -> Part {
    // Mostly so little that it is full time and again.
    let more = rng.pick(&[0, 1, 3, b / 4, b / 2, b, 4 * b]);
    let room = b + more + rng.below(4);
    Part { events, room, single: false }
}

/// Cut anywhere, a part of one event done by a single call as often as by a play.
fn mixture(rng: &mut Prng, events: &[u32], b: usize) -> Vec<Part> {
    let (mut parts, mut rest) = (vec![], events);
    while !rest.is_empty() {
        let (part, behind) = rest.split_at((1 + rng.below(6)).min(rest.len()));
        rest = behind;
        if rng.chance(50) {
            let single = |&event: &u32| Part { events: vec![event], room: b, single: true };
            parts.extend(part.iter().map(single));
        } else {
            parts.push(played(rng, part.to_vec(), b));
        }
    }
    parts
}

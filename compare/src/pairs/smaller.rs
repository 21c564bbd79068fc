//! Making a pair smaller for as long as it is still at fault. Events, outcomes and days are left out; table and rooms stay as they
//! are: without a thing of the table the two runs would meet other outcomes, and it would be no pair of Q-14's any more.

use std::time::{Duration, Instant};

use second::cases::pairs::{Pair, Part};
use second::testing;
use second::testing::coverage::Coverage;

use crate::differ::pairs::compare_pair;
use crate::subject::Subject;

/// The longest that one pair is made smaller.
const LIMIT: Duration = Duration::from_secs(20);

/// The smallest pair found that is at fault; where the statement is broken it stays so.
pub fn smallest(subject: &impl Subject, pair: &Pair) -> Pair {
    let end = Instant::now() + LIMIT;
    let broken = |pair: &Pair| compare_pair(subject, pair).err().map(|why| why.broken.is_some());
    let Some(was) = broken(pair) else { return pair.clone() };
    let faulty = |pair: &Pair| {
        Instant::now() < end && broken(pair).is_some_and(|is| is || !was) && is_pair(pair)
    };
    let mut shrinking = Shrinking { pair: pair.clone(), faulty: &faulty };
    loop {
        let before = shrinking.pair.clone();
        shrinking.pass();
        if shrinking.pair == before || Instant::now() >= end {
            return shrinking.pair;
        }
    }
}

/// Without a stranger's event the shared ones may run other calls, which then meet other outcomes: Q-14 says nothing of such runs.
fn is_pair(pair: &Pair) -> bool {
    testing::paired(|| pair.clone(), &mut Coverage::new()).is_ok()
}

struct Shrinking<'a> {
    pair: Pair,
    faulty: &'a dyn Fn(&Pair) -> bool,
}

impl Shrinking<'_> {
    /// Every way once, the ones that take most away first.
    fn pass(&mut self) {
        for day in 0..2 {
            let mut less = self.pair.clone();
            less.days[day] = Default::default();
            self.take(less);
        }
        self.take(Pair { sides: Default::default(), ..self.pair.clone() });
        for number in (0..most_shared(&self.pair)).rev() {
            self.take(without_shared(&self.pair, number));
        }
        for side in 0..2 {
            self.cut_strangers(side);
            self.lend_none(side);
            (0..2).for_each(|day| self.cut_day(day, side));
        }
    }

    /// Takes the candidate if it is another pair and at fault.
    fn take(&mut self, candidate: Pair) {
        if candidate != self.pair && (self.faulty)(&candidate) {
            self.pair = candidate;
        }
    }

    fn cut_strangers(&mut self, side: usize) {
        for at in (0..self.pair.sides[side].len()).rev() {
            if !self.pair.sides[side][at].shared {
                let mut less = self.pair.clone();
                less.sides[side].remove(at);
                self.take(less);
            }
        }
    }

    fn lend_none(&mut self, side: usize) {
        for at in 0..self.pair.sides[side].len() {
            let mut less = self.pair.clone();
            less.sides[side][at].outcomes.clear();
            self.take(less);
        }
    }

    /// Takes strangers' events out of a day.
    fn cut_day(&mut self, day: usize, side: usize) {
        // From the last on: whatever is left out, those before it stand where they stood.
        for (at, event) in events(&self.pair.days[day][side]).into_iter().enumerate().rev() {
            if !self.pair.shares(event) {
                let mut less = self.pair.clone();
                remove(&mut less.days[day][side], at);
                self.take(less);
            }
        }
    }
}

/// How many shared events the sides and days have at most.
fn most_shared(pair: &Pair) -> usize {
    let sent = pair.sides[0].iter().filter(|sent| sent.shared).count();
    let done = |day: &[Vec<Part>; 2]| {
        events(&day[0]).into_iter().filter(|&event| pair.shares(event)).count()
    };
    pair.days.iter().map(done).fold(sent, usize::max)
}

/// All events of a day's run.
fn events(parts: &[Part]) -> Vec<u32> {
    parts.iter().flat_map(|part| part.events.iter().copied()).collect()
}

/// Without a shared event, by its number, in both runs and in every day that has so many.
fn without_shared(pair: &Pair, number: usize) -> Pair {
    let mut less = pair.clone();
    for sent in &mut less.sides {
        let mut shared = (0..sent.len()).filter(|&at| sent[at].shared);
        if let Some(at) = shared.nth(number) {
            sent.remove(at);
        }
    }
    for parts in less.days.iter_mut().flatten() {
        let events = events(parts);
        let mut shared = (0..events.len()).filter(|&at| pair.shares(events[at]));
        if let Some(at) = shared.nth(number) {
            remove(parts, at);
        }
    }
    less
}

/// Takes an event out, counted over all parts; a part without events goes with it.
fn remove(parts: &mut Vec<Part>, mut at: usize) {
    for part in parts.iter_mut() {
        if at < part.events.len() {
            part.events.remove(at);
            break;
        }
        at -= part.events.len();
    }
    parts.retain(|part| !part.events.is_empty());
}

//! Rooms and outcomes for the calls of a run, such that an operator's and the platform's calls meet
//! what was drawn for them, whatever strangers' calls run between.

use super::outcomes::ABOVE_1;
use super::pairs::Sent;
use super::prng::Prng;
use crate::check::Accepted;
use crate::events::refusal;
use crate::lists::Run;
use crate::state::{State, fresh_words};
use crate::words::*;

/// What the calls of an operator and the platform meet in one shared event, in order; past the end
/// they are good.
pub struct Luck(Vec<u32>);

impl Luck {
    pub fn drawn(rng: &mut Prng) -> Luck {
        let percent = rng.pick(&[0, 0, 10, 30, 60]);
        Luck((0..rng.below(12)).map(|_| rng.chance(percent) as u32).collect())
    }
}

/// One side's run as it is made, by the judge's own rules.
pub struct Lender<'a> {
    rng: &'a mut Prng,
    table: &'a Accepted<'a>,
    b: usize,
    operator: u32,
    state: Vec<u32>,
    /// So many of a hundred strangers' calls fail on this side.
    percent: usize,
}

impl<'a> Lender<'a> {
    pub fn of(rng: &'a mut Prng, table: &'a Accepted<'a>, b: usize, operator: u32) -> Self {
        let percent = rng.pick(&[0, 20, 50, 80]);
        Lender { rng, table, b, operator, state: fresh_words(table), percent }
    }

    fn sees(&self, owner: u32) -> bool {
        [PLATFORM, self.operator].contains(&owner)
    }

    /// A stranger's call with any outcomes; a few with too little room or with no outcome.
    pub fn strange(&mut self, event: u32) -> Sent {
        let (mut outcomes, mut room) = (self.any(), self.room());
        match self.rng.below(40) {
            0 if self.b > 0 => room = self.rng.below(self.b),
            1 => {
                let place = self.rng.below(outcomes.len() + 1);
                outcomes.insert(place, self.rng.pick(&ABOVE_1));
            }
            _ => {}
        }
        if room >= self.b {
            self.go_on(event, &outcomes);
        }
        Sent { event, outcomes, room, shared: false }
    }

    /// A shared event's call.
    pub fn shared(&mut self, event: u32, luck: &Luck) -> Sent {
        let taken = refusal(self.table, Event::of(event), &[]) == 0;
        let reads = taken && self.table.edition == edition::TWO;
        let outcomes = if reads { self.alike(event, luck) } else { self.any() };
        let room = self.room();
        self.go_on(event, &outcomes);
        Sent { event, outcomes, room, shared: true }
    }

    fn room(&mut self) -> usize {
        self.b + self.rng.pick(&[0, 0, 1, 2, 7])
    }

    fn any(&mut self) -> Vec<u32> {
        let length = self.rng.pick(&[0, 0, 1, 2, 3, 6, 12]);
        (0..length).map(|_| self.rng.chance(self.percent) as u32).collect()
    }

    /// Each call's outcome is found before those behind it, for which of them run depends on it.
    fn alike(&mut self, event: u32, luck: &Luck) -> Vec<u32> {
        let mut lent: Vec<u32> = vec![];
        loop {
            let callers = self.callers(event, &lent);
            if callers.len() <= lent.len() {
                break;
            }
            let mut own = callers[..lent.len()].iter().filter(|&&owner| self.sees(owner)).count();
            for &owner in &callers[lent.len()..] {
                let next = match self.sees(owner) {
                    true => luck.0.get(own).copied().unwrap_or(outcome::GOOD),
                    false => self.rng.chance(self.percent) as u32,
                };
                own += self.sees(owner) as usize;
                lent.push(next);
                if next == outcome::FAILED {
                    break;
                }
            }
        }
        self.ended(lent)
    }

    /// Past their end calls are good, and outcomes that no call reads say nothing.
    fn ended(&mut self, mut lent: Vec<u32>) -> Vec<u32> {
        match self.rng.below(3) {
            0 => {
                while lent.last() == Some(&outcome::GOOD) {
                    lent.pop();
                }
            }
            1 => lent.extend((0..self.rng.below(4)).map(|_| self.rng.within(0, 1))),
            _ => {}
        }
        lent
    }

    /// The owners of the calls that run, in order.
    fn callers(&self, event: u32, outcomes: &[u32]) -> Vec<u32> {
        let words = self.run(event, outcomes).trace.into_iter().map(TraceWord::of);
        words.filter(|word| word.kind == item::OUTSIDE_CALL).map(|word| word.owner).collect()
    }

    fn run<'b>(&'b self, event: u32, outcomes: &'b [u32]) -> Run<'b> {
        let state = State::of(self.table, &self.state).expect("as long as a fresh one");
        let mut run = Run { table: self.table, state, trace: vec![], outcomes, visits: 0 };
        run.take(Event::of(event));
        run
    }

    fn go_on(&mut self, event: u32, outcomes: &[u32]) {
        if refusal(self.table, Event::of(event), outcomes) == 0 {
            self.state = self.run(event, outcomes).state.words;
        }
    }
}

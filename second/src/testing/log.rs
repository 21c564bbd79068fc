//! A case's events taken one after another, as the properties read them.

use crate::cases::Case;
use crate::step;
use crate::stream::TRACE_FILL;
use crate::words::{Event, event};

/// One event with the state before and after it.
#[derive(Clone)]
pub struct Entry {
    pub event: Event,
    /// The outcomes lent.
    pub outcomes: Vec<u32>,
    pub answer: u32,
    pub before: Vec<u32>,
    pub after: Vec<u32>,
    /// The trace words that the count covers.
    pub trace: Vec<u32>,
    /// The expression words visited.
    pub visits: u64,
}

impl Entry {
    pub fn is_tick(&self) -> bool {
        self.event.kind == event::TICK
    }

    /// Whether its event is of this kind and speaks of the thing of this number.
    pub fn is_of(&self, kind: u32, number: usize) -> bool {
        (self.event.kind, self.event.index as usize) == (kind, number)
    }
}

/// Fails with what went wrong unless it holds.
pub fn hold(holds: bool, what: impl FnOnce() -> String) -> Result<(), String> {
    if holds { Ok(()) } else { Err(what()) }
}

/// Every event in turn, the state passed on.
pub fn run(case: &Case) -> Vec<Entry> {
    let mut state = case.state.clone();
    let one = |(number, &event): (usize, &u32)| {
        let (before, mut trace) = (state.clone(), vec![TRACE_FILL; case.room]);
        let outcomes = case.lent(number).to_vec();
        let stepped = step(&case.table, &mut state, &mut trace, event, &outcomes);
        // A count past the room would show as a short trace and fail below.
        let written = stepped.count.min(case.room);
        let untouched = trace[written..].iter().all(|&word| word == TRACE_FILL);
        let answer = if untouched { stepped.answer } else { u32::MAX };
        trace.truncate(written);
        let (event, after, visits) = (Event::of(event), state.clone(), stepped.visits);
        Entry { event, outcomes, answer, before, after, trace, visits }
    };
    case.events.iter().enumerate().map(one).collect()
}

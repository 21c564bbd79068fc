//! A recorded day in one call: request Q-1.

use crate::check::accept;
use crate::events::refusal;
use crate::lists::Run;
use crate::state::State;
use crate::words::Event;

/// "Trace full". Q-1: "That stop takes the place of answer 3."
pub const TRACE_FULL: u32 = 3;

#[derive(Clone, Copy, PartialEq, Eq, Debug)]
pub struct Played {
    /// How many events were taken: those answered 0, all before the stop.
    pub taken: usize,
    /// How many trace words they wrote together.
    pub count: usize,
    /// How many expression words they visited together: request Q-10.
    pub visits: u64,
    /// 0 after the last event, or what the play stopped by.
    pub answer: u32,
}

/// Plays events until there is none left, one is refused or the trace is full. As with single
/// events, the day is played on copies, of which only what was taken is handed over.
pub fn play(table: &[u32], state: &mut [u32], trace: &mut [u32], events: &[u32]) -> Played {
    match day(table, state, trace.len(), events) {
        Err(answer) => Played { taken: 0, count: 0, visits: 0, answer },
        Ok(day) => {
            state.copy_from_slice(&day.state);
            trace[..day.trace.len()].copy_from_slice(&day.trace);
            let Day { taken, visits, answer, .. } = day;
            Played { taken, count: day.trace.len(), visits, answer }
        }
    }
}

/// A day as far as it was played.
struct Day {
    state: Vec<u32>,
    trace: Vec<u32>,
    taken: usize,
    visits: u64,
    answer: u32,
}

/// The day; or the answer to a bad table or state, which are "checked once, even with no events".
fn day(table: &[u32], state: &[u32], room: usize, events: &[u32]) -> Result<Day, u32> {
    let (table, b) = accept(table).map_err(|_| 1u32)?;
    let state = State::of(&table, state).filter(State::fits).ok_or(2u32)?;
    // "In play all calls are good."
    let mut run = Run { table: &table, state, trace: vec![], outcomes: &[], visits: 0 };
    let (mut taken, mut answer) = (0, 0);
    for &event in events {
        // The room is asked for before the event's word is looked at, and only for an event.
        let full = room - run.trace.len() < b;
        answer = if full { TRACE_FULL } else { take(&mut run, Event::of(event)) };
        if answer != 0 {
            break;
        }
        taken += 1;
    }
    let Run { state, trace, visits, .. } = run;
    Ok(Day { state: state.words, trace, taken, visits, answer })
}

/// Takes an event, its words behind those of the events before: 0; or the number of its refusal,
/// and then nothing has changed.
pub fn take(run: &mut Run, event: Event) -> u32 {
    let answer = refusal(run.table, event, &[]);
    if answer == 0 {
        run.take(event);
    }
    answer
}

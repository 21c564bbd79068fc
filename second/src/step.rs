//! One event at a time.

use crate::check::accept;
use crate::events::refusal;
use crate::lists::Run;
use crate::state::State;
use crate::words::Event;

#[derive(Clone, Copy, PartialEq, Eq, Debug)]
pub struct Stepped {
    pub answer: u32,
    /// How many trace words were written.
    pub count: usize,
    /// How many expression words were visited: request Q-10.
    pub visits: u64,
}

/// Takes one event, with the outcomes of the outside calls it will run. A refusal changes no word
/// of state or trace; an event is run on copies, which are handed over when it is done.
pub fn step(
    table: &[u32],
    state: &mut [u32],
    trace: &mut [u32],
    event: u32,
    outcomes: &[u32],
) -> Stepped {
    match done(table, state, trace.len(), Event::of(event), outcomes) {
        // "Refusals report 0."
        Err(answer) => Stepped { answer, count: 0, visits: 0 },
        Ok(done) => {
            state.copy_from_slice(&done.state);
            trace[..done.trace.len()].copy_from_slice(&done.trace);
            Stepped { answer: 0, count: done.trace.len(), visits: done.visits }
        }
    }
}

/// The state's and the trace's new words, and the expression words visited for them.
struct Done {
    state: Vec<u32>,
    trace: Vec<u32>,
    visits: u64,
}

/// What the event does, or the answer of the refusal.
fn done(
    table: &[u32],
    state: &[u32],
    room: usize,
    event: Event,
    outcomes: &[u32],
) -> Result<Done, u32> {
    let (table, b) = accept(table).map_err(|_| 1u32)?;
    let state = State::of(&table, state).filter(State::fits).ok_or(2u32)?;
    if room < b {
        return Err(3);
    }
    match refusal(&table, event, outcomes) {
        0 => {}
        answer => return Err(answer),
    }
    let mut run = Run { table: &table, state, trace: vec![], outcomes, visits: 0 };
    run.take(event);
    Ok(Done { state: run.state.words, trace: run.trace, visits: run.visits })
}

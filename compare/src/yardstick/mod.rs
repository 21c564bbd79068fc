//! A clock for the proved code, no judge of it: document 01's event call in
//! safe Rust made for speed. Every call makes every check, on the stack alone.
//!
//! It is held at the base's rules: document 01 without any request. It is for
//! times alone, no request is carried over to it, and the gate does not try it.
//! `bench` takes its time only where it computes what the second program does.

mod arbitration;
mod check;
mod events;
mod nesting;
mod state;
mod table;
#[cfg(test)]
mod tests;

use arbitration::Run;
use check::{Refusal, Sets, accept};
use nesting::{Memory, Notes};
use state::State;
use table::Table;

/// Tables with no more expressions and lists than this have smaller notes, for
/// to clear the large ones takes longer than all else in a small table.
const SMALL: usize = 48;

/// Hands the notes that the table needs to a call.
#[inline]
fn with_notes<T>(table: &Table, call: impl FnOnce(Notes) -> T) -> T {
    if table.expressions.len() <= SMALL && table.lists.len() <= SMALL {
        call(Memory::<SMALL, SMALL>::new().notes(table))
    } else {
        call(Memory::<512, 255>::new().notes(table))
    }
}

/// The check that an event call begins with: B, or reason and place.
pub fn check_table(words: &[u32]) -> Result<u32, Refusal> {
    let table = Table::of(words).map_err(|reason| (reason, 0))?;
    with_notes(&table, |mut notes| accept(&table, &mut Sets::default(), &mut notes))
}

/// The state's check that follows it: 0, or the answer of a refusal.
pub fn check_state(words: &[u32], state: &[u32]) -> u32 {
    let Some(table) = Table::of(words).ok().filter(|_| check_table(words).is_ok()) else {
        return 1;
    };
    // Its sections are made for writing.
    let mut state = state.to_vec();
    let fits = State::of(&table, &mut state).is_some_and(|state| state.fits(&table));
    if fits { 0 } else { 2 }
}

/// One event, as document 01 has it: the count, or the answer of a refusal.
/// Not inlined, as the proved call is not.
#[inline(never)]
pub fn take_event(
    words: &[u32],
    state: &mut [u32],
    trace: &mut [u32],
    event: u32,
) -> Result<usize, u32> {
    let table = Table::of(words).map_err(|_| 1u32)?;
    with_notes(&table, |notes| take(&table, notes, state, trace, event))
}

/// Nothing is written before the last check.
fn take(
    table: &Table,
    mut notes: Notes,
    state: &mut [u32],
    trace: &mut [u32],
    event: u32,
) -> Result<usize, u32> {
    let mut sets = Sets::default();
    let b = accept(table, &mut sets, &mut notes).map_err(|_| 1u32)?;
    let state = State::of(table, state).filter(|state| state.fits(table)).ok_or(2u32)?;
    if trace.len() < b as usize {
        return Err(3);
    }
    events::refuse(table, &sets, event)?;
    let mut run = Run { table, mentions: notes.mentions, state, trace, count: 0, undefined: 0 };
    run.take(&sets, event);
    Ok(run.count)
}

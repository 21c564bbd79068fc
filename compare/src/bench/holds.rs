//! What holding a supplier's recording takes, by the proved code: beside the event call that it makes, and beside the second
//! program. What is timed is compared first.

use std::cell::RefCell;
use std::hint::black_box;

use super::timing::{Work, best};
use super::{MARKED, example, marked_run, sized};
use crate::differ::holds::{Recorded, compare_hold};
use crate::subject::Proved;

const ROWS: &str = " words   state   trace     event      held    second    h/e    h/s";

pub fn holds() -> Result<(), String> {
    println!(
        "recordings held: ns an event, best of five, in turn: the event call alone, the event held, and held by the second program;"
    );
    println!(
        "state and trace words of our own recording; h/e and h/s are the time held by the others"
    );
    println!("{:<44}{ROWS}", "");
    let request = marked_run()[0];
    row("marked table, its request, as ordered", &own(&MARKED, request))?;
    let mut stops = own(&MARKED, request);
    stops.theirs.pop();
    row("marked table, its request, a word lost", &stops)?;
    match example("truck") {
        Some([table, _]) => row("truck, a tick, as ordered", &own(&table, 0))?,
        None => println!("truck: missing (examples/truck.table)"),
    }
    let (large, request) = (sized::sized(68).words(), sized::events()[0]);
    row("large table, 68 lists, as ordered", &own(&large, request))?;
    let mut parts = own(&large, request);
    parts.theirs[0] ^= 1;
    row("large table, 68 lists, the first word parts", &parts)?;
    row("large table, nothing marked, as ordered", &own(&large, 0))
}

/// An event from the fresh state with our own step's recording of it.
pub fn own(table: &[u32], event: u32) -> Recorded {
    let mut state = vec![0; herringcart::state_words(table)];
    second::fresh(table, &mut state);
    let trace = vec![0; second::check(table).b];
    let (table, outcomes, theirs, their_state) = (table.to_vec(), vec![], vec![], vec![]);
    let alone = Recorded { table, state, trace, outcomes, event, theirs, their_state };
    let (theirs, their_state, _) = alone.ours();
    Recorded { theirs, their_state, ..alone }
}

/// A call on a table, a state and a trace.
type Call<'a> = &'a dyn Fn(&[u32], &mut [u32], &mut [u32]) -> usize;

fn row(name: &str, recorded: &Recorded) -> Result<(), String> {
    compare_hold(&Proved, recorded).map_err(|what| format!("{name}: {what}"))?;
    let Recorded { table, state: before, trace, event, theirs, their_state, .. } = recorded;
    // The same words are lent to all, for where they stand can change a time.
    let lent = RefCell::new([before.clone(), trace.clone()]);
    let by = |call: Call| {
        let [state, trace] = &mut *lent.borrow_mut();
        state.copy_from_slice(before);
        black_box(call(black_box(&table[..]), state, trace));
        1
    };
    let (theirs, their_state) = (&theirs[..], &their_state[..]);
    let mut alone: Work =
        Box::new(|| by(&|t, s, r| herringcart::take_event(t, s, r, &[], *event).count));
    let mut held: Work = Box::new(|| {
        by(&|t, s, r| herringcart::hold(t, s, r, &[], *event, theirs, their_state).part.len())
    });
    let mut second: Work = Box::new(|| {
        by(&|t, s, r| second::hold(t, s, r, &[], *event, theirs, their_state).part.len())
    });
    let times = best(&mut [Some(&mut alone), Some(&mut held), Some(&mut second)]);
    let (alone, held, second) = (times[0], times[1], times[2]);
    let (trace, state, _) = recorded.ours();
    let (length, state, trace) = (table.len(), state.len(), trace.len());
    println!(
        "{name:<44}{length:>6}{state:>8}{trace:>8}{alone:>10.0}{held:>10.0}{second:>10.0}{:>7.2}{:>7.2}",
        held / alone,
        held / second
    );
    Ok(())
}

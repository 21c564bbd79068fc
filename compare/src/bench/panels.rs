//! What a panel takes, by the proved code beside the second program: after the first event of a run, with the words that its step
//! wrote. What is timed is compared first.

use std::hint::black_box;

use second::cases::draft::Draft;

use super::timing::{Work, best};
use super::{MARKED, marked_run, sized};
use crate::differ::panels::{Shown, compare_panel};
use crate::subject::Proved;

const OWNER: u32 = 1;
const STRANGER: u32 = 2;
const ROWS: &str = " words   trace   bytes    proved    second    p/s";

pub fn panels() -> Result<(), String> {
    println!(
        "panels: ns a panel, best of five, the sides in turn; trace words handed in, bytes laid"
    );
    println!("{:<44}{ROWS}", "");
    row("marked table, its request", &behind(OWNER, &MARKED, marked_run()[0]))?;
    let (large, request) = (owned(sized::sized(68)).words(), sized::events()[0] | OWNER << 24);
    row("large table, request that starts 68 lists", &behind(OWNER, &large, request))?;
    row("large table, nothing marked", &behind(OWNER, &large, 0))?;
    row("large table, one who owns nothing of it", &behind(STRANGER, &large, request))
}

/// The table with everything of it one operator's.
pub fn owned(mut draft: Draft) -> Draft {
    draft.ports.iter_mut().for_each(|port| port.owner = OWNER);
    draft.networks.iter_mut().for_each(|(network, _)| network.owner = OWNER);
    draft.sources.iter_mut().for_each(|source| source.owner = OWNER);
    draft.rules.iter_mut().for_each(|rule| rule.owner = OWNER);
    draft.lists.iter_mut().for_each(|list| list.owner = OWNER);
    draft
}

/// The panel behind one event from the fresh state, in the room that is always enough.
pub fn behind(operator: u32, table: &[u32], event: u32) -> Shown {
    let mut state = vec![0; herringcart::state_words(table)];
    let mut trace = vec![0; second::check(table).b];
    second::fresh(table, &mut state);
    let stepped = second::step(table, &mut state, &mut trace, event, &[]);
    trace.truncate(stepped.count);
    let room = vec![0; herringcart::panel_bytes(trace.len())];
    Shown { operator, table: table.to_vec(), state, words: trace, room }
}

fn row(name: &str, shown: &Shown) -> Result<(), String> {
    compare_panel(&Proved, shown).map_err(|what| format!("{name}: {what}"))?;
    let Shown { operator, table, state, words, room } = shown;
    let [mut lines, mut judged] = [room.clone(), room.clone()];
    let mut proved: Work = Box::new(|| {
        let table = black_box(&table[..]);
        black_box(herringcart::panel(*operator, table, state, words, &mut lines));
        1
    });
    let mut second: Work = Box::new(|| {
        let table = black_box(&table[..]);
        black_box(second::panel(*operator, table, state, words, &mut judged));
        1
    });
    let times = best(&mut [Some(&mut proved), Some(&mut second)]);
    let (length, trace, bytes) = (table.len(), words.len(), shown.needs());
    let (proved, second) = (times[0], times[1]);
    let ratio = proved / second;
    println!("{name:<44}{length:>6}{trace:>8}{bytes:>8}{proved:>10.0}{second:>10.0}{ratio:>7.2}");
    Ok(())
}

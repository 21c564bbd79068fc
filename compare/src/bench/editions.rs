//! Calls that fail: the marked run in edition 2, and a large table in both
//! editions, its calls without abort, so that all run.

use second::cases::draft::Draft;
use second::words::*;

use super::{MARKED, marked_run, sized};

/// As many blocks as there can be, and the outside calls that a request of 5
/// runs in each: three in its last list, two in the others.
const BLOCKS: usize = 85;
const CALLS: usize = 7;

/// A table, a run on it, and what is lent with each of its events.
pub struct Lending {
    pub name: String,
    pub draft: Draft,
    pub events: Vec<u32>,
    pub outcomes: Vec<u32>,
}

pub fn all() -> [Lending; 4] {
    let request = vec![sized::events()[0]];
    let large = |name: &str, edition, calls| Lending {
        name: format!("{BLOCKS} blocks, {name}"),
        draft: Draft { edition, ..sized::sized(BLOCKS) },
        events: request.clone(),
        outcomes: vec![outcome::FAILED; calls],
    };
    let calls = BLOCKS * CALLS;
    [
        Lending {
            name: "marked table, edition 2, the call fails".into(),
            draft: marked(),
            events: marked_run(),
            outcomes: vec![outcome::FAILED],
        },
        large("edition 1, all lists", edition::ONE, 0),
        large("edition 2, none lent", edition::TWO, 0),
        large(&format!("edition 2, {calls} calls fail"), edition::TWO, calls),
    ]
}

/// The marked table, its call with abort.
fn marked() -> Draft {
    let table = Table::of(&MARKED).expect("a header");
    let mut draft = Draft { edition: edition::TWO, ..Draft::of(&table) };
    draft.items[1].abort = 1;
    draft
}

//! Tables refused because nothing reaches a list, and such tables with another fault besides.

use super::draft::Draft;
use super::prng::Prng;
use super::refused::{Refused, clashing, refuse, too_deep};
use super::tables::pad;
use super::ways::{turned_away, with_cut_ways, with_ring};
use crate::words::*;

pub const UNREACHED_4097: &str = "not reached: the cost is 4097 too";

/// The good table with lists that nothing reaches.
pub fn unreached(rng: &mut Prng, good: &Draft) -> Option<Refused> {
    let (draft, lowest) =
        if rng.chance(60) { with_cut_ways(rng, good) } else { turned_away(rng, good)? };
    at_list(&draft, lowest)
}

/// The same of a table that has no room for more lists.
pub fn unreached_of_many(rng: &mut Prng, good: &Draft) -> Option<Refused> {
    let (draft, lowest) = turned_away(rng, good)?;
    at_list(&draft, lowest)
}

fn at_list(draft: &Draft, lowest: usize) -> Option<Refused> {
    let words = draft.words();
    let place = Table::of(&words)?.place(Section::Lists, lowest);
    Some(Refused::of(words, 10, place))
}

/// Nothing reaches a ring: that it nests without end comes first.
pub fn unreached_ring(rng: &mut Prng, good: &Draft) -> Option<Refused> {
    too_deep(&with_ring(rng, good))
}

/// Lists that nothing reaches, and another fault: every reason but 9 comes before 10.
pub fn unreached_and_more(rng: &mut Prng, good: &Draft) -> Option<Refused> {
    let (mut draft, lowest) = with_cut_ways(rng, good);
    match rng.weighed(&[3, 1, 1]) {
        0 => {
            let reason = rng.within(2, 7);
            refuse(rng, &draft, reason)
        }
        1 => clashing(rng, &draft),
        _ => {
            let left = 4097 - draft.b();
            pad(rng, &mut draft, left, 1);
            let refused = at_list(&draft, lowest)?;
            Some(Refused { note: Some(UNREACHED_4097), ..refused })
        }
    }
}

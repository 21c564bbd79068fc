//! Editions, aborts in outside calls, and the outcomes that event calls lend.

use super::draft::Draft;
use super::prng::Prng;
use crate::words::*;

/// Words that are no outcomes.
pub const ABOVE_1: [u32; 6] = [2, 3, 256, 0x0100_0001, 0x8000_0000, 0xFFFF_FFFF];

pub fn some_edition(rng: &mut Prng) -> u32 {
    rng.pick(&[edition::ONE, edition::TWO])
}

/// Has none, some or all of the outside calls abort, where there is abort.
pub fn strew_aborts(rng: &mut Prng, draft: &mut Draft) {
    let percent = rng.pick(&[0, 20, 50, 100]);
    if draft.edition == edition::ONE {
        return;
    }
    for item in draft.items.iter_mut().filter(|item| item.kind == item::OUTSIDE_CALL) {
        item.abort |= rng.chance(percent) as u32;
    }
}

/// How a case's event calls lend outcomes.
#[derive(Clone, Copy)]
pub enum Lending {
    Nothing,
    /// So many of a hundred outcomes are failed.
    Failed(usize),
}

impl Lending {
    pub fn some(rng: &mut Prng) -> Self {
        if rng.chance(30) { Lending::Nothing } else { Lending::often(rng) }
    }

    pub fn often(rng: &mut Prng) -> Self {
        Lending::Failed(rng.pick(&[10, 30, 50, 90]))
    }

    /// The outcomes that one event call lends: none, too few or too many for the calls it runs,
    /// or just enough; at times with a word that is no outcome.
    pub fn lent(self, rng: &mut Prng) -> Vec<u32> {
        let Lending::Failed(percent) = self else {
            return vec![];
        };
        let length = match rng.weighed(&[20, 50, 25, 5]) {
            0 => 0,
            1 => 1 + rng.below(4),
            2 => 5 + rng.below(8),
            _ => 13 + rng.below(48),
        };
        let mut outcomes: Vec<u32> = (0..length).map(|_| rng.chance(percent) as u32).collect();
        if length > 0 && rng.chance(3) {
            let any = rng.below(length);
            let place = rng.pick(&[0, any, length - 1]);
            let word = rng.word().max(2);
            outcomes[place] = if rng.chance(20) { word } else { rng.pick(&ABOVE_1) };
        }
        outcomes
    }
}

/// The answer to an event that lends these outcomes, given what table and event alone give. Q-9:
/// answer 8 is "checked after answer 4".
pub fn answer_with(outcomes: &[u32], answer: u32) -> u32 {
    let no_outcome = outcomes.iter().any(|word| ![0, 1].contains(word));
    if no_outcome && answer != 4 { 8 } else { answer }
}

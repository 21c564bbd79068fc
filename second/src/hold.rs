//! A supplier's log held against ours: request Q-7.

use crate::step::{Stepped, step};

/// The verdicts' numbers, in the order in which they are looked for; 0 where none of them holds.
pub mod verdict {
    /// "Say yes exactly if both are what our rules order, whoever wrote them."
    pub const AS_ORDERED: u32 = 0;
    /// "If our step would refuse, give its answer and an empty part."
    pub const REFUSED: u32 = 1;
    /// "If the traces part, give the first differing word and hand back the supplier's words from
    /// there."
    pub const TRACES_PART: u32 = 2;
    /// "If one merely stops early, give the shorter length and hand back the rest of whichever
    /// recording is longer": the supplier's stops, and the rest is of ours.
    pub const SUPPLIER_STOPS: u32 = 3;
    /// Ours stops, and the rest is the supplier's.
    pub const OURS_STOPS: u32 = 4;
    /// "If only the states part, give the first differing state word (or the shorter length) and
    /// an empty part."
    pub const STATES_PART: u32 = 5;
}

use verdict::*;

/// Whose words a part is.
#[derive(Clone, Copy, PartialEq, Eq, PartialOrd, Ord, Debug)]
pub enum Whose {
    /// The part is empty.
    Nobody = 0,
    Suppliers = 1,
    Ours = 2,
}

#[derive(Clone, PartialEq, Eq, Debug)]
pub struct Held {
    pub verdict: u32,
    /// The answer of a refusal; the word's number, from 0, or the shorter length; 0 for yes.
    pub number: usize,
    pub whose: Whose,
    /// Where the part begins in the trace that it is the rest of; 0 where it is nobody's.
    pub from: usize,
    pub part: Vec<u32>,
    /// What our own step answered. State and trace are as it left them.
    pub stepped: Stepped,
}

/// Holds a supplier's trace and state after one event against what our step orders, which is taken
/// as an event call takes it: it writes the state and our trace.
pub fn hold(
    table: &[u32],
    state: &mut [u32],
    trace: &mut [u32],
    outcomes: &[u32],
    event: u32,
    theirs: &[u32],
    their_state: &[u32],
) -> Held {
    // "A supplier's log is compared with the outcomes given."
    let stepped = step(table, state, trace, event, outcomes);
    let parting = if stepped.answer != 0 {
        Parting { verdict: REFUSED, number: stepped.answer as usize }
    } else {
        parting(&trace[..stepped.count], state, theirs, their_state)
    };
    let Parting { verdict, number } = parting;
    let (whose, rest) = match verdict {
        TRACES_PART | OURS_STOPS => (Whose::Suppliers, &theirs[number..]),
        SUPPLIER_STOPS => (Whose::Ours, &trace[number..stepped.count]),
        _ => (Whose::Nobody, &[][..]),
    };
    let from = if whose == Whose::Nobody { 0 } else { number };
    Held { verdict, number, whose, from, part: rest.to_vec(), stepped }
}

/// A verdict and the number beside it.
#[derive(Clone, Copy, PartialEq, Eq, Debug)]
pub struct Parting {
    pub verdict: u32,
    pub number: usize,
}

/// The verdict on a supplier's trace and state, beside ours after the event: traces first.
pub fn parting(trace: &[u32], state: &[u32], theirs: &[u32], their_state: &[u32]) -> Parting {
    let (verdict, number) = match apart(trace, theirs) {
        Some(Apart::Differ(word)) => (TRACES_PART, word),
        Some(Apart::Shorter(length)) if theirs.len() == length => (SUPPLIER_STOPS, length),
        Some(Apart::Shorter(length)) => (OURS_STOPS, length),
        None => match apart(state, their_state) {
            Some(Apart::Differ(number) | Apart::Shorter(number)) => (STATES_PART, number),
            None => (AS_ORDERED, 0),
        },
    };
    Parting { verdict, number }
}

/// How two rows of words are not the same.
enum Apart {
    /// They differ at this word, which both have, and not before.
    Differ(usize),
    /// One is a beginning of the other, and this is its length.
    Shorter(usize),
}

fn apart(one: &[u32], other: &[u32]) -> Option<Apart> {
    let differs = one.iter().zip(other).position(|(a, b)| a != b);
    let shorter = one.len().min(other.len());
    match differs {
        Some(word) => Some(Apart::Differ(word)),
        None => (one.len() != other.len()).then_some(Apart::Shorter(shorter)),
    }
}

//! Rows of request Q-9: editions, outcomes lent, calls that fail and lists that are aborted.

use std::fmt;

use super::coverage::{EVENTS, ITEMS};
use super::walk::By;
use crate::words::*;

#[derive(Clone, Copy, PartialEq, Eq, PartialOrd, Ord, Debug)]
pub enum Failing {
    Accepted(u32),
    /// An edition that there is not: the nearest, and the last.
    NoEdition(u32),
    /// The item's kind.
    AbortIn(u32),
    /// Whether the call has abort, and whether it failed.
    Call(bool, bool),
    Level(u32),
    By(By),
    /// The event's kind.
    At(u32),
    /// The kind of an item of the aborted list that ran, or that did not.
    Kept(u32),
    Left(u32),
    /// The answer given, though an outcome is above 1.
    Before8(u32),
    /// The answer that 8 comes before.
    After8(u32),
    /// The edition.
    Eight(u32),
}

pub fn rows() -> impl Iterator<Item = Failing> {
    let kinds = item::OUTSIDE_CALL..=item::RULE;
    [edition::ONE, edition::TWO]
        .into_iter()
        .flat_map(|edition| [Failing::Accepted(edition), Failing::Eight(edition)])
        .chain([0, edition::TWO + 1, 255].map(Failing::NoEdition))
        .chain((item::CLEAR_EVENT..=item::RULE).map(Failing::AbortIn))
        .chain([false, true].into_iter().flat_map(|a| [false, true].map(|f| Failing::Call(a, f))))
        .chain((1..=LEVELS).map(Failing::Level))
        .chain([By::Choice, By::Name, By::RuleItem].map(Failing::By))
        .chain((event::TICK..=event::EVENT_REQUEST).map(Failing::At))
        .chain(kinds.clone().map(Failing::Kept))
        .chain(kinds.map(Failing::Left))
        .chain((1..=4).map(Failing::Before8))
        .chain([5, 6].map(Failing::After8))
}

impl fmt::Display for Failing {
    fn fmt(&self, f: &mut fmt::Formatter) -> fmt::Result {
        let kind = |kind: u32| ITEMS[kind as usize];
        match *self {
            Failing::Accepted(edition) => write!(f, "edition {edition} accepted"),
            Failing::NoEdition(edition) => write!(f, "edition {edition} refused"),
            Failing::AbortIn(item) => write!(f, "abort refused: {}", kind(item)),
            Failing::Call(abort, failed) => {
                let abort = if abort { "with abort" } else { "without abort" };
                write!(f, "outside call {abort}: {}", if failed { "failed" } else { "good" })
            }
            Failing::Level(level) => write!(f, "list aborted at level {level}"),
            Failing::By(By::Choice) => f.write_str("list aborted: chosen"),
            Failing::By(By::Name) => f.write_str("list aborted: named"),
            Failing::By(By::RuleItem) => f.write_str("list aborted: a rule item's"),
            Failing::At(event) => write!(f, "list aborted in: {}", EVENTS[event as usize]),
            Failing::Kept(item) => write!(f, "list aborted behind: {}", kind(item)),
            Failing::Left(item) => write!(f, "list aborted before: {}", kind(item)),
            Failing::Before8(answer) => write!(f, "answer {answer} though an outcome is above 1"),
            Failing::After8(answer) => write!(f, "answer 8 though {answer} would be given"),
            Failing::Eight(edition) => write!(f, "answer 8 in edition {edition}"),
        }
    }
}

pub const AT_FIRST: &str = "list aborted at the first of several items";
pub const AT_INNER: &str = "list aborted at an inner item";
pub const AT_LAST: &str = "list aborted at the last of several items";
pub const AT_ONLY: &str = "list aborted at its only item";
pub const ON_BY_NAME: &str = "outer list goes on behind an aborted one: named";
pub const ON_BY_RULE: &str = "outer list goes on behind an aborted one: a rule item's";
pub const NEXT_CHOSEN: &str = "chosen list runs behind an aborted one";
pub const NEXT_FAILS: &str = "chosen list runs behind an aborted one, and is aborted too";
pub const INNER_AND_OUTER: &str = "list aborted, and the list that holds its item too";
pub const PLATFORMS: &str = "list aborted: the platform's";
pub const OPERATORS: &str = "list aborted: an operator's";
pub const BOTH_OWNERS: &str = "lists aborted in one event: the platform's and an operator's";
pub const FAILED_THEN_ABORTED: &str = "list aborted behind a failed call without abort";
pub const GOOD_THEN_ABORTED: &str = "list aborted behind a good call with abort";
pub const PAST_END: &str = "outside call with abort past the end of the outcomes";
pub const LENT_NONE: &str = "outcomes lent: none for calls that run";
pub const LENT_SHORT: &str = "outcomes lent: too few";
pub const LENT_EXACT: &str = "outcomes lent: as many as calls run";
pub const LENT_LONG: &str = "outcomes lent: too many";
pub const LENT_IDLE: &str = "outcomes lent: no call runs";
pub const FAILED_IN_ONE: &str = "outcomes lent: failed, to calls of edition 1";
pub const EIGHT_FIRST: &str = "answer 8 by the first of several outcomes";
pub const EIGHT_INNER: &str = "answer 8 by an inner outcome";
pub const EIGHT_LAST: &str = "answer 8 by the last of several outcomes";
pub const EIGHT_ONLY: &str = "answer 8 by the only outcome";
pub const EIGHT_TICK: &str = "answer 8 to a tick";
pub const EIGHT_READ: &str = "answer 8 by an outcome that a call would read";
pub const EIGHT_UNREAD: &str = "answer 8 by an outcome that no call would read";
pub const EIGHT_BY_2: &str = "answer 8 by 2";
pub const EIGHT_BY_MOST: &str = "answer 8 by FFFFFFFF";
pub const A_2048: &str = "outside call refused: a 2048 in edition 1";
pub const A_IN_TWO: &str = "outside call refused: a in edition 2";
pub const NAME_ABOVE_2047: &str = "absent name refused: above 2047 in edition 1";
pub const NAME_2047: &str = "absent name refused: 2047 in edition 2";
pub const AGAIN_IN_ONE: &str = "run repeated in edition 1, calls failing there";
pub const AGAIN_IN_TWO: &str = "run repeated in edition 2 without abort, calls failing there";
pub const PLAYED_GOOD: &str = "played with good calls, where failed ones aborted a list";
pub const STRUCK_OUT_FAILED: &str = "strangers' taken events struck out, a call fails all the same";
pub const STRUCK_OUT_MOVED: &str =
    "strangers' taken events struck out, a failed call is another in order";

pub const ROWS: [&str; 39] = [
    AT_FIRST,
    AT_INNER,
    AT_LAST,
    AT_ONLY,
    ON_BY_NAME,
    ON_BY_RULE,
    NEXT_CHOSEN,
    NEXT_FAILS,
    INNER_AND_OUTER,
    PLATFORMS,
    OPERATORS,
    BOTH_OWNERS,
    FAILED_THEN_ABORTED,
    GOOD_THEN_ABORTED,
    PAST_END,
    LENT_NONE,
    LENT_SHORT,
    LENT_EXACT,
    LENT_LONG,
    LENT_IDLE,
    FAILED_IN_ONE,
    EIGHT_FIRST,
    EIGHT_INNER,
    EIGHT_LAST,
    EIGHT_ONLY,
    EIGHT_TICK,
    EIGHT_READ,
    EIGHT_UNREAD,
    EIGHT_BY_2,
    EIGHT_BY_MOST,
    A_2048,
    A_IN_TWO,
    NAME_ABOVE_2047,
    NAME_2047,
    AGAIN_IN_ONE,
    AGAIN_IN_TWO,
    PLAYED_GOOD,
    STRUCK_OUT_FAILED,
    STRUCK_OUT_MOVED,
];

//! What plays met: where they stopped, and what came next.

use super::coverage::{Met, Row};
use super::log::Entry;

const ENDED: &str = "play ended after its last event";
const REFUSED_4: &str = "play ended by answer 4";
const REFUSED_5: &str = "play ended by answer 5";
const REFUSED_6: &str = "play ended by answer 6";
const REFUSED_LATER: &str = "play ended by a refusal before an event that would be taken";
const BAD_TABLE: &str = "play of a bad table";
const BAD_STATE: &str = "play from an unfit state";
const NO_EVENTS: &str = "play with no events";
const NO_EVENTS_SHORT: &str = "play with no events: fewer than B words lent";
const NO_EVENTS_1: &str = "play with no events: bad table";
const NO_EVENTS_2: &str = "play with no events: unfit state";
const FULL_FIRST: &str = "trace full at the first of several events";
const FULL_MIDDLE: &str = "trace full at an event in the middle";
const FULL_LAST: &str = "trace full at the last of several events";
const FULL_BEFORE_4: &str = "trace full before an event of answer 4";
const FULL_BEFORE_5: &str = "trace full before an event of answer 5";
const FULL_BEFORE_6: &str = "trace full before an event of answer 6";
const FULL_BEFORE_NONE: &str = "trace full before an event that writes no words";
const FULL_BEFORE_FEW: &str = "trace full before an event whose words are fewer than those free";
const EXACT: &str = "later event taken with exactly B words free";
const EXACT_REFUSED: &str = "later event refused with exactly B words free";
const SHORT: &str = "trace full at a later event with B-1 words free";
const LEAVES_LESS: &str = "last event leaves fewer than B words free";
const LEAVES_NONE: &str = "last event leaves no word free";
const NOTHING_NEEDED: &str = "B is 0: several events played in an empty trace";
const JOINED: &str = "words of three events joined";
pub const RESUMED_ONCE: &str = "play resumed once";
pub const RESUMED_OFTEN: &str = "play resumed five times or more";
pub const RESUMED_REFUSED: &str = "play resumed at an event that is refused";
pub const CUT: &str = "play cut in two: both parts take events";
pub const CUT_FULL: &str = "play cut in two: trace full where they are cut";
pub const STRUCK_OUT: &str = "struck out of a play: strangers' events";
pub const STRUCK_ELSEWHERE: &str = "struck out of a play: trace full elsewhere than before";
pub const STRUCK_MORE: &str = "struck out of a play: trace full though not before";

pub const ROWS: [&str; 34] = [
    ENDED,
    REFUSED_4,
    REFUSED_5,
    REFUSED_6,
    REFUSED_LATER,
    BAD_TABLE,
    BAD_STATE,
    NO_EVENTS,
    NO_EVENTS_SHORT,
    NO_EVENTS_1,
    NO_EVENTS_2,
    FULL_FIRST,
    FULL_MIDDLE,
    FULL_LAST,
    FULL_BEFORE_4,
    FULL_BEFORE_5,
    FULL_BEFORE_6,
    FULL_BEFORE_NONE,
    FULL_BEFORE_FEW,
    EXACT,
    EXACT_REFUSED,
    SHORT,
    LEAVES_LESS,
    LEAVES_NONE,
    NOTHING_NEEDED,
    JOINED,
    RESUMED_ONCE,
    RESUMED_OFTEN,
    RESUMED_REFUSED,
    CUT,
    CUT_FULL,
    STRUCK_OUT,
    STRUCK_ELSEWHERE,
    STRUCK_MORE,
];

/// A play of a bad table or from an unfit state.
pub fn meet_refused(answer: u32, no_events: bool, met: &mut Met) {
    let row = match (answer, no_events) {
        (1, false) => BAD_TABLE,
        (1, true) => NO_EVENTS_1,
        (_, false) => BAD_STATE,
        (_, true) => NO_EVENTS_2,
    };
    met.insert(Row::Special(row));
}

/// A play as it was held against its events' log.
pub struct Seen<'a> {
    pub log: &'a [Entry],
    pub b: usize,
    pub room: usize,
    pub taken: usize,
    pub answer: u32,
}

impl Seen<'_> {
    /// The words free before an event.
    fn free(&self, at: usize) -> usize {
        self.room - self.log[..at].iter().map(|entry| entry.trace.len()).sum::<usize>()
    }

    pub fn meet(&self, met: &mut Met) {
        let mut rows = match self.answer {
            0 => self.ended(),
            3 => self.full(),
            _ => self.refused(),
        };
        let taken = &self.log[..self.taken];
        if taken.iter().filter(|entry| !entry.trace.is_empty()).count() >= 3 {
            rows.push(JOINED);
        }
        let at_b = |at: &usize| self.b > 0 && self.free(*at) == self.b;
        if (1..self.taken).any(|at| self.free(at) < self.room && at_b(&at)) {
            rows.push(EXACT);
        }
        met.extend(rows.into_iter().map(Row::Special));
    }

    fn ended(&self) -> Vec<&'static str> {
        let (events, free) = (self.log.len(), self.free(self.taken));
        let rows = [
            (events > 0, ENDED),
            (events == 0, NO_EVENTS),
            (events == 0 && free < self.b, NO_EVENTS_SHORT),
            (events > 0 && free < self.b, LEAVES_LESS),
            (events > 0 && free == 0 && self.b > 0, LEAVES_NONE),
            (events > 1 && self.b == 0 && self.room == 0, NOTHING_NEEDED),
        ];
        holding(&rows)
    }

    fn full(&self) -> Vec<&'static str> {
        let (at, free, next) = (self.taken, self.free(self.taken), &self.log[self.taken]);
        let (first, last) = (at == 0, at + 1 == self.log.len());
        let written = next.trace.len();
        let rows = [
            (first && !last, FULL_FIRST),
            (!first && !last, FULL_MIDDLE),
            (!first && last, FULL_LAST),
            (next.answer == 4, FULL_BEFORE_4),
            (next.answer == 5, FULL_BEFORE_5),
            (next.answer == 6, FULL_BEFORE_6),
            (next.answer == 0 && written == 0, FULL_BEFORE_NONE),
            (written > 0 && written < free, FULL_BEFORE_FEW),
            (!first && free + 1 == self.b, SHORT),
        ];
        holding(&rows)
    }

    fn refused(&self) -> Vec<&'static str> {
        let later = &self.log[self.taken + 1..];
        let exact = self.b > 0 && self.free(self.taken) == self.b;
        let rows = [
            (self.answer == 4, REFUSED_4),
            (self.answer == 5, REFUSED_5),
            (self.answer == 6, REFUSED_6),
            (later.iter().any(|entry| entry.answer == 0), REFUSED_LATER),
            (self.taken > 0 && exact && self.room > self.b, EXACT_REFUSED),
        ];
        holding(&rows)
    }
}

fn holding(rows: &[(bool, &'static str)]) -> Vec<&'static str> {
    rows.iter().filter(|(holds, _)| *holds).map(|&(_, row)| row).collect()
}

//! Rows of request Q-7: what suppliers' words were held against ours, what was said of them, and
//! what was told of suppliers' logs.

use std::fmt;

use crate::words::edition;

#[derive(Clone, Copy, PartialEq, Eq, PartialOrd, Ord, Debug)]
pub enum Held {
    Verdict(u32),
    /// The answer beside it.
    Refused(u32),
    /// Yes to our own words in this edition.
    Yes(u32),
    /// What was done to a trace or a state, and where.
    Damage(Words, Damage, Place),
    /// The verdict on words written with other outcomes.
    Outcomes(u32),
    /// The verdict printed for an event of a log; 6 where answers part.
    Printed(u32),
}

#[derive(Clone, Copy, PartialEq, Eq, PartialOrd, Ord, Debug)]
pub enum Words {
    Trace,
    State,
}

#[derive(Clone, Copy, PartialEq, Eq, PartialOrd, Ord, Debug)]
pub enum Damage {
    Changed,
    Lost,
    Added,
    Exchanged,
    Cut,
    GoneOn,
}

/// Of the word; where words are cut, to none, some or all but one; where they go on, by one, by
/// few, by more than our trace or state has.
#[derive(Clone, Copy, PartialEq, Eq, PartialOrd, Ord, Debug)]
pub enum Place {
    First,
    Inner,
    Last,
}

pub const DAMAGES: [Damage; 6] = {
    use Damage::*;
    [Changed, Lost, Added, Exchanged, Cut, GoneOn]
};
const PLACES: [Place; 3] = [Place::First, Place::Inner, Place::Last];

pub fn rows() -> impl Iterator<Item = Held> {
    let damage = |words: Words| {
        DAMAGES.into_iter().flat_map(move |d| PLACES.map(|place| Held::Damage(words, d, place)))
    };
    (0..=5)
        .map(Held::Verdict)
        .chain((1..=6).chain([8]).map(Held::Refused))
        .chain([edition::ONE, edition::TWO].map(Held::Yes))
        .chain(damage(Words::Trace))
        .chain(damage(Words::State))
        .chain((2..=5).map(Held::Outcomes))
        .chain((2..=6).map(Held::Printed))
}

const VERDICTS: [&str; 7] = [
    "as ordered",
    "refused",
    "traces part",
    "the supplier's trace stops",
    "the supplier's trace goes on",
    "states part",
    "answers part",
];

impl fmt::Display for Held {
    fn fmt(&self, f: &mut fmt::Formatter) -> fmt::Result {
        match *self {
            Held::Verdict(verdict) => write!(f, "held: {}", VERDICTS[verdict as usize]),
            Held::Refused(answer) => write!(f, "held: refused by {answer}"),
            Held::Yes(edition) => write!(f, "held: our own words in edition {edition}"),
            Held::Damage(words, damage, place) => {
                let words = if words == Words::Trace { "trace" } else { "state" };
                let what = match damage {
                    Damage::Changed => "a word changed",
                    Damage::Lost => "a word lost",
                    Damage::Added => "a word added",
                    Damage::Exchanged => "two words exchanged",
                    Damage::Cut => "cut",
                    Damage::GoneOn => "gone on",
                };
                let place = match (damage, place) {
                    (Damage::Cut, Place::First) => "to none",
                    (Damage::Cut, Place::Inner) => "to some words",
                    (Damage::Cut, Place::Last) => "by one word",
                    (Damage::GoneOn, Place::First) => "by one word",
                    (Damage::GoneOn, Place::Inner) => "by few words",
                    (Damage::GoneOn, Place::Last) => "by more words than it has",
                    (_, Place::First) => "at the first",
                    (_, Place::Inner) => "within",
                    (_, Place::Last) => "at the last",
                };
                write!(f, "held: {words}, {what} {place}")
            }
            Held::Outcomes(verdict) => {
                write!(f, "held: words of other outcomes, {}", VERDICTS[verdict as usize])
            }
            Held::Printed(verdict) => write!(f, "log held: {}", VERDICTS[verdict as usize]),
        }
    }
}

pub const YES_SILENT: &str = "held: our own words, no trace";
pub const YES_ROOM: &str = "held: our own words in more room than they need";
pub const YES_OUTCOMES: &str = "held: our own words of a failed call";
pub const PART_AND_STATE: &str = "held: traces part and so do states";
pub const STOP_AND_STATE: &str = "held: the supplier's trace stops and states part";
pub const GO_ON_AND_STATE: &str = "held: the supplier's trace goes on and states part";
pub const STATE_LOWER: &str = "held: traces part at a higher word than states";
pub const LIKE_LOST: &str = "held: a word lost beside its like, traces part further on";
pub const LIKE_ADDED: &str = "held: a word added beside its like, traces part further on";
pub const LIKE_LAST: &str = "held: the last of words that are alike lost, the supplier's stops";
pub const LIKE_EXCHANGED: &str = "held: words that are alike exchanged, as ordered";
pub const PAST_ROOM: &str = "held: the supplier's trace is longer than our room";
pub const ROOMS_WORDS: &str = "held: the supplier's trace goes on as our room does";
pub const NOTHING_OF_SOME: &str = "held: nothing, and our step wrote";
pub const NOTHING_OF_NONE: &str = "held: nothing, and our step wrote no trace";
pub const REFUSED_SAME: &str = "held: refused, the state unchanged and no words";
pub const REFUSED_WORDS: &str = "held: refused, with trace words";
pub const REFUSED_STATE: &str = "held: refused, with another state";
pub const REFUSED_TAKEN: &str = "held: refused, with words of the event taken";
pub const EVERY_PLACE: &str = "held: damaged at every place of ten words or more";

pub const LOG_YES: &str = "log held: our own print, all as ordered";
pub const LOG_YES_ALL: &str = "log held to the end: our own print, all as ordered";
pub const LOG_REFUSED: &str = "log held: refused events as ordered";
pub const LOG_EMPTY: &str = "log held: no events, no lines";
pub const LOG_OTHERS: &str = "log held to the end: one event not as ordered";
pub const LOG_SEVERAL: &str = "log held to the end: several events not as ordered";
pub const LOG_THEIRS: &str = "log held to the end: on from the supplier's state";
pub const LOG_THEIRS_YES: &str =
    "log held to the end: as ordered from the supplier's state and not from ours";
pub const LOG_OURS: &str = "log held to the end: on from ours";
pub const LOG_OURS_LENGTH: &str = "log held to the end: on from ours by the state's length";
pub const LOG_SHORT: &str = "log held: fewer words than a state's behind an answer";
pub const LOG_BOTH_REFUSE: &str = "log held: both refuse, and words part";
pub const LOG_MISSPELT_FIRST: &str = "log's trouble: misspelt, the first line";
pub const LOG_WORD_FIRST: &str = "log's trouble: a word in the first line";
pub const LOG_MISSPELT: &str = "log's trouble: misspelt behind an answer";
pub const LOG_NO_NEWLINE: &str = "log's trouble: the last line has no newline";
pub const LOG_BEFORE: &str = "log's trouble: ends before the first event";
pub const LOG_BEFORE_LATER: &str = "log's trouble: ends before a later event";
pub const LOG_ENDS_IN: &str = "log's trouble: ends in an event";
pub const LOG_MANY: &str = "log's trouble: more than 8192 words";
pub const LOG_8192: &str = "log held: 8192 words behind an answer";
pub const LOG_GOES_ON: &str = "log's trouble: goes on behind the last event";
pub const LOG_GOES_ON_NONE: &str = "log's trouble: goes on, no events";
pub const LOG_KEPT: &str = "log's trouble: behind events that are not as ordered";
pub const LOG_TABLE: &str = "log's trouble: the table has a reason";

pub const ROWS: [&str; 45] = [
    YES_SILENT,
    YES_ROOM,
    YES_OUTCOMES,
    PART_AND_STATE,
    STOP_AND_STATE,
    GO_ON_AND_STATE,
    STATE_LOWER,
    LIKE_LOST,
    LIKE_ADDED,
    LIKE_LAST,
    LIKE_EXCHANGED,
    PAST_ROOM,
    ROOMS_WORDS,
    NOTHING_OF_SOME,
    NOTHING_OF_NONE,
    REFUSED_SAME,
    REFUSED_WORDS,
    REFUSED_STATE,
    REFUSED_TAKEN,
    EVERY_PLACE,
    LOG_YES,
    LOG_YES_ALL,
    LOG_REFUSED,
    LOG_EMPTY,
    LOG_OTHERS,
    LOG_SEVERAL,
    LOG_THEIRS,
    LOG_THEIRS_YES,
    LOG_OURS,
    LOG_OURS_LENGTH,
    LOG_SHORT,
    LOG_BOTH_REFUSE,
    LOG_MISSPELT_FIRST,
    LOG_WORD_FIRST,
    LOG_MISSPELT,
    LOG_NO_NEWLINE,
    LOG_BEFORE,
    LOG_BEFORE_LATER,
    LOG_ENDS_IN,
    LOG_MANY,
    LOG_8192,
    LOG_GOES_ON,
    LOG_GOES_ON_NONE,
    LOG_KEPT,
    LOG_TABLE,
];

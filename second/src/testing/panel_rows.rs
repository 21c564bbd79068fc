//! Rows of request Q-13: what panels had and left out, how they were refused, what other tables,
//! states and traces they were the same of, and what their program printed.

use std::fmt;

use super::coverage::{Met, Row};
use super::panel::Laid;
use super::visits_rows::special;
use crate::words::*;

#[derive(Clone, Copy, PartialEq, Eq, PartialOrd, Ord, Debug)]
pub enum Panels {
    /// The answer.
    Answer(u32),
    Edition(u32),
    Operator(u32),
    /// The refusal given, and the one that it comes before.
    Before(u32, u32),
    /// The section of another table whose words differ.
    Table(usize),
    /// The section, and whether the words of a state that differ are the platform's.
    State(usize, bool),
}

/// A state's sections that panels show.
pub const SHOWN: [Section; 3] = [Section::Ports, Section::Networks, Section::Sources];

/// Operators that must have been seen.
const SEEN: [u32; 3] = [1, 2, 15];

pub fn rows() -> impl Iterator<Item = Panels> {
    let states = SHOWN.into_iter().flat_map(|section| {
        [false, true].map(|platforms| Panels::State(section as usize, platforms))
    });
    [0, 1, 2, 9, 11]
        .map(Panels::Answer)
        .into_iter()
        .chain([edition::ONE, edition::TWO].map(Panels::Edition))
        .chain(SEEN.map(Panels::Operator))
        .chain([(9, 1), (9, 2), (9, 11), (1, 11), (2, 11)].map(|(a, b)| Panels::Before(a, b)))
        .chain(SECTIONS.map(|section| Panels::Table(section as usize)))
        .chain(states)
}

impl fmt::Display for Panels {
    fn fmt(&self, f: &mut fmt::Formatter) -> fmt::Result {
        match *self {
            Panels::Answer(answer) => write!(f, "panel's answer {answer}"),
            Panels::Edition(edition) => write!(f, "panel with lines in edition {edition}"),
            Panels::Operator(operator) => write!(f, "panel with lines of operator {operator}"),
            Panels::Before(given, before) => {
                write!(f, "panel's answer {given} though {before} would be given")
            }
            Panels::Table(section) => {
                write!(f, "same panel of another table: {:?}", SECTIONS[section])
            }
            Panels::State(section, platforms) => {
                let whose = if platforms { "the platform's" } else { "strangers'" };
                write!(f, "same panel of another state: {whose} {:?}", SECTIONS[section])
            }
        }
    }
}

pub const ZERO: &str = "panel's answer 9: number 0";
pub const SIXTEEN: &str = "panel's answer 9: number 16";
pub const LOW_BITS: &str = "panel's answer 9: an operator's number in the low bits";
pub const EXACT: &str = "panel in just enough room";
pub const SHORT: &str = "panel in a byte too little";
pub const LARGER: &str = "panel in more room than it needs";
const EMPTY: &str = "panel without lines";
const TRACE_ALONE: &str = "panel of trace words alone";
const EVERYTHING: &str = "panel of ports, networks, sources and trace words";
const PORT_10: &str = "panel with a port above 9";
const SOURCE_10: &str = "panel with a source above 9";
const RENUMBERED: &str = "panel with a network or source whose port has another number";
const OWN_RULES: &str = "panel leaves out the operator's rule";
const PLATFORMS_THING: &str = "panel leaves out the platform's thing before an own one";
const STRANGERS_THING: &str = "panel leaves out a stranger's thing before an own one";
const PLATFORMS_WORD: &str = "panel leaves out the platform's trace word before an own one";
const STRANGERS_WORD: &str = "panel leaves out a stranger's trace word before an own one";
pub const BEFORE_ANY: &str = "panel before any event";
pub const REFUSED: &str = "panel behind a refused event, the one before having written own words";
pub const OTHER_EDITION: &str = "same panel of another table: edition";
pub const OTHER_OWN: &str = "same panel of another table: an own thing's word";
pub const EXCHANGED: &str = "same panel of another table: strangers exchanged";
pub const NOW_PLATFORMS: &str = "same panel of another table: a stranger's thing is the platform's";
pub const OTHER_KIND: &str = "same panel of another table: a port's kind";
pub const OTHER_RULES: &str = "same panel of another state: rules";
pub const OTHER_OWN_RULES: &str = "same panel of another state: own rules";
pub const DROPPED: &str = "same panel of another trace: a stranger's word is not there";
pub const ADDED: &str = "same panel of another trace: a stranger's word is added";
pub const PRINTED_FRESH: &str = "panel printed: no events";
pub const PRINTED_WORDS: &str = "panel printed: trace words";
pub const PRINTED_REFUSED: &str = "panel printed: words gone with a refused event";
pub const PRINTED_NUMBER: &str = "panel not printed: number";
pub const PRINTED_TABLE: &str = "panel not printed: table";
pub const FOLLOWED_NONE: &str = "panel followed: no event changed it";
pub const FOLLOWED_SOME: &str = "panel followed: some events changed it and some did not";
pub const FOLLOWED_VANISHED: &str = "panel followed: only trace lines vanished";
pub const FOLLOWED_REFUSED: &str = "panel followed: lines vanished with a refused event";
pub const FOLLOWED_AGAIN: &str = "panel followed: the same trace words again, nothing printed";
pub const FOLLOWED_EMPTY: &str = "panel followed: become empty";
pub const FOLLOWED_STRANGERS: &str = "panel followed: a stranger's event, nothing printed";
pub const FOLLOWED_PLATFORMS: &str = "panel followed: changed by the platform's event";
pub const FOLLOWED_10: &str = "panel followed: event above 9";

pub const ROWS: [&str; 42] = [
    ZERO,
    SIXTEEN,
    LOW_BITS,
    EXACT,
    SHORT,
    LARGER,
    EMPTY,
    TRACE_ALONE,
    EVERYTHING,
    PORT_10,
    SOURCE_10,
    RENUMBERED,
    OWN_RULES,
    PLATFORMS_THING,
    STRANGERS_THING,
    PLATFORMS_WORD,
    STRANGERS_WORD,
    BEFORE_ANY,
    REFUSED,
    OTHER_EDITION,
    OTHER_OWN,
    EXCHANGED,
    NOW_PLATFORMS,
    OTHER_KIND,
    OTHER_RULES,
    OTHER_OWN_RULES,
    DROPPED,
    ADDED,
    PRINTED_FRESH,
    PRINTED_WORDS,
    PRINTED_REFUSED,
    PRINTED_NUMBER,
    PRINTED_TABLE,
    FOLLOWED_NONE,
    FOLLOWED_SOME,
    FOLLOWED_VANISHED,
    FOLLOWED_REFUSED,
    FOLLOWED_AGAIN,
    FOLLOWED_EMPTY,
    FOLLOWED_STRANGERS,
    FOLLOWED_PLATFORMS,
    FOLLOWED_10,
];

/// What a panel that was done had, and what it left out.
pub fn meet(laid: &Laid, met: &mut Met) {
    let (draft, operator) = (laid.draft, laid.operator);
    let ports: Vec<u32> = draft.ports.iter().map(|port| port.owner).collect();
    let networks: Vec<u32> = draft.networks.iter().map(|(network, _)| network.owner).collect();
    let sources: Vec<u32> = draft.sources.iter().map(|source| source.owner).collect();
    let words: Vec<u32> = laid.words.iter().map(|&word| TraceWord::of(word).owner).collect();
    let things = [&ports[..], &networks, &sources];
    let own = |owners: &[u32]| owners.contains(&operator);
    let above_9 = |owners: &[u32]| owners.iter().skip(10).any(|&owner| owner == operator);
    let none = !things.iter().any(|owners| own(owners));
    let stranger = |owner: u32| owner != PLATFORM && owner != operator;
    let platform = |owner: u32| owner == PLATFORM;
    let leaves = |meant: &dyn Fn(u32) -> bool| things.iter().any(|t| precedes(t, operator, meant));
    special(
        met,
        &[
            (none && !own(&words), EMPTY),
            (none && own(&words), TRACE_ALONE),
            (things.iter().all(|owners| own(owners)) && own(&words), EVERYTHING),
            (above_9(&ports), PORT_10),
            (above_9(&sources), SOURCE_10),
            (renumbered(laid), RENUMBERED),
            (draft.rules.iter().any(|rule| rule.owner == operator), OWN_RULES),
            (leaves(&platform), PLATFORMS_THING),
            (leaves(&stranger), STRANGERS_THING),
            (precedes(&words, operator, &platform), PLATFORMS_WORD),
            (precedes(&words, operator, &stranger), STRANGERS_WORD),
        ],
    );
    if !none || own(&words) {
        met.insert(Row::Panels(Panels::Edition(draft.edition)));
        met.extend(
            SEEN.into_iter().filter(|&o| o == operator).map(Panels::Operator).map(Row::Panels),
        );
    }
}

/// Whether a network or source of the operator's has a port of another number than its own.
fn renumbered(laid: &Laid) -> bool {
    let networks = laid.draft.networks.iter().map(|(network, _)| (network.owner, network.port));
    let sources = laid.draft.sources.iter().map(|source| (source.owner, source.port));
    let apart = |(number, (owner, port)): (usize, (u32, u32))| {
        owner == laid.operator && port != number as u32
    };
    networks.enumerate().any(apart) || sources.enumerate().any(apart)
}

/// Whether an owner that is meant stands before one that is the operator.
fn precedes(owners: &[u32], operator: u32, meant: &dyn Fn(u32) -> bool) -> bool {
    let last = owners.iter().rposition(|&owner| owner == operator).unwrap_or(0);
    owners[..last].iter().any(|&owner| meant(owner))
}

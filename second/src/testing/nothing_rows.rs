//! Rows of request Q-14: what strangers did in one run and not in the other, what of the operator's
//! was going on meanwhile, and what differed in shared events that is nobody's but strangers'.

use std::fmt;

use super::coverage::{EVENTS, ITEMS};
use crate::words::*;

#[derive(Clone, Copy, PartialEq, Eq, PartialOrd, Ord, Debug)]
pub enum Nothing {
    /// The edition, and the answer to a stranger's event.
    Alone(u32, u32),
    /// The edition.
    Differ(u32),
    /// The kind of a stranger's event that changed something.
    Changed(u32),
    /// The kind of an item that a stranger's event ran.
    Ran(u32),
    /// The edition, and what of the operator's goes on.
    During(u32, Going),
    /// The edition, and the answer to a shared event.
    Refused(u32, u32),
    /// The edition, and the kind of a shared event whose trace counts differ.
    Total(u32, u32),
    /// The edition, and the kind of a shared event whose own words stand elsewhere.
    Moved(u32, u32),
}

/// What of the operator's a shared event may find going on.
#[derive(Clone, Copy, PartialEq, Eq, PartialOrd, Ord, Debug)]
pub enum Going {
    Timer,
    Pending,
    Recovering,
    Check,
}

pub const GOING: [Going; 4] = [Going::Timer, Going::Pending, Going::Recovering, Going::Check];
const EDITIONS: [u32; 2] = [edition::ONE, edition::TWO];
/// The shared events that run strangers' lists: an operator's own cannot.
const RUNNING: [u32; 3] = [event::TICK, event::MODE_REQUEST, event::EVENT_REQUEST];
/// Item 5 adds no word.
const SHOWN: [u32; 6] = [
    item::OUTSIDE_CALL,
    item::CLEAR_EVENT,
    item::START_TIMER,
    item::STOP_TIMER,
    item::NETWORK_REQUEST,
    item::RULE,
];

pub fn rows() -> impl Iterator<Item = Nothing> {
    let each = |edition: u32| {
        let alone = [0, 3, 4, 5, 6, 8].map(|answer| Nothing::Alone(edition, answer));
        let refused = [4, 5, 6].map(|answer| Nothing::Refused(edition, answer));
        let running = RUNNING.into_iter();
        let differing = running
            .flat_map(move |kind| [Nothing::Total(edition, kind), Nothing::Moved(edition, kind)]);
        let during = GOING.map(|going| Nothing::During(edition, going));
        let differ = [Nothing::Differ(edition)].into_iter();
        differ.chain(alone).chain(refused).chain(differing).chain(during)
    };
    EDITIONS
        .into_iter()
        .flat_map(each)
        .chain((event::MODE_REQUEST..=event::HEARD).map(Nothing::Changed))
        .chain(SHOWN.map(Nothing::Ran))
}

impl fmt::Display for Nothing {
    fn fmt(&self, f: &mut fmt::Formatter) -> fmt::Result {
        match *self {
            Nothing::Alone(edition, answer) => {
                let answered = match answer {
                    0 => "taken".to_string(),
                    answer => format!("refused by {answer}"),
                };
                write!(f, "pair, edition {edition}: stranger's event in one run alone: {answered}")
            }
            Nothing::Differ(edition) => {
                write!(f, "pair, edition {edition}: strangers' events differ at the same place")
            }
            Nothing::Changed(kind) => {
                let kind = EVENTS[kind as usize];
                write!(f, "pair: stranger's event in one run alone changes something: {kind}")
            }
            Nothing::Ran(kind) => {
                let kind = ITEMS[kind as usize];
                write!(f, "pair: stranger's event in one run alone runs: {kind}")
            }
            Nothing::During(edition, going) => {
                let going = match going {
                    Going::Timer => "timer runs",
                    Going::Pending => "source is pending",
                    Going::Recovering => "network recovers",
                    Going::Check => "network is in check after a bus-off",
                };
                write!(f, "pair, edition {edition}: strangers differ while an own {going}")
            }
            Nothing::Refused(edition, answer) => {
                write!(f, "pair, edition {edition}: shared event refused by {answer}")
            }
            Nothing::Total(edition, kind) => {
                let kind = EVENTS[kind as usize];
                write!(f, "pair, edition {edition}: total counts differ in a shared {kind}")
            }
            Nothing::Moved(edition, kind) => {
                let kind = EVENTS[kind as usize];
                write!(f, "pair, edition {edition}: own words stand elsewhere in a shared {kind}")
            }
        }
    }
}

pub const FROM_PLATFORM: &str = "pair: the operator is the platform";
pub const FROM_IDLE: &str = "pair: the operator owns nothing";
pub const SILENT: &str = "pair: one run has no stranger's event";
pub const FEWER: &str = "pair: different numbers of strangers' events";
pub const NESTED_NAME: &str = "pair: strangers differ by an event that runs a named list";
pub const NESTED_RULE: &str = "pair: strangers differ by an event that runs a rule item's list";
pub const ABORTED: &str = "pair: strangers differ by an event with a list aborted";
pub const ABORTED_BEFORE: &str =
    "pair: stranger's list aborted in a shared tick before an own list";
pub const ABORTED_ALONE: &str =
    "pair: stranger's list aborted in a shared tick before an own list, in one run alone";
pub const OTHER_LUCK: &str = "pair: strangers' calls in a shared event meet other outcomes";
pub const OWN_FAILED: &str = "pair: own call failed in both runs";
pub const OWN_ABORTED: &str = "pair: own list aborted in both runs";
pub const OWN_MOVED: &str = "pair: own call failed in both runs, another in order";
pub const PLATFORM_FAILED: &str = "pair: the platform's call failed in both runs";
pub const FOREIGN_OWN: &str = "pair: stranger's event of an own thing in one run alone";
pub const PANEL_LINES: &str = "pair: same panel with lines";
pub const PANEL_TRACE: &str = "pair: same panel with trace lines";
pub const PANEL_TOTAL: &str = "pair: same panel with trace lines, total counts differ";
pub const PANEL_REFUSED: &str = "pair: same panel behind a shared refused event";
pub const DAY_ELSEWHERE: &str = "pair's days: trace full at different places";
pub const DAY_ALONE: &str = "pair's days: trace full in one run alone";
pub const DAY_MIXED: &str = "pair's days: plays and single calls mixed in both runs";
pub const DAY_OTHERWISE: &str =
    "pair's days: shared event played in one run, by a single call in the other";
pub const DAY_TOTAL: &str = "pair's days: joined traces of different lengths";

pub const ROWS: [&str; 24] = [
    FROM_PLATFORM,
    FROM_IDLE,
    SILENT,
    FEWER,
    NESTED_NAME,
    NESTED_RULE,
    ABORTED,
    ABORTED_BEFORE,
    ABORTED_ALONE,
    OTHER_LUCK,
    OWN_FAILED,
    OWN_ABORTED,
    OWN_MOVED,
    PLATFORM_FAILED,
    FOREIGN_OWN,
    PANEL_LINES,
    PANEL_TRACE,
    PANEL_TOTAL,
    PANEL_REFUSED,
    DAY_ELSEWHERE,
    DAY_ALONE,
    DAY_MIXED,
    DAY_OTHERWISE,
    DAY_TOTAL,
];

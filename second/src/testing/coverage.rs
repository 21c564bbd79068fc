//! What the cases met. A row that no case met is a failure.

use std::cmp::Ordering;
use std::collections::{BTreeMap, BTreeSet};
use std::fmt;

use super::buslogs_rows::{self, Log};
use super::failing_rows::{self, Failing};
use super::heard::{self, Heard};
use super::held_rows::{self, Held};
use super::listed_rows::{self, Listing};
use super::nesting::{self, Nesting};
use super::nothing_rows::{self, Nothing};
use super::panel_rows::{self, Panels};
use super::visits_rows::{self, Visits};
use super::{names, play_rows, played};
use crate::cases::refused::{COST_4097, DEPTH_8_EXPRESSION, DEPTH_8_LIST, RING};
use crate::cases::states::{MISFITS, Misfit};
use crate::cases::unreached::UNREACHED_4097;
use crate::words::*;

#[derive(Clone, Copy, PartialEq, Eq, PartialOrd, Ord, Debug)]
pub enum Row {
    Reason(u32),
    Answer(u32),
    EventTaken(u32),
    ItemRun(u32),
    Evaluated(u32),
    Settled(u32),
    NotSettled(u32),
    Visits(Visits),
    /// The event's value before; whether its port is deferred.
    Clear(u32, u32),
    /// Whether the cleared event's port is deferred.
    ChosenByClear(u32),
    /// The value against the level it is compared with.
    Level(Ordering),
    /// The operator, and the number of its argument.
    LevelIn(u32, usize),
    NoKind(u32),
    /// How many lists there are on the way to a list, itself included.
    Distance(u32),
    NetworkTurn(u32, u32),
    BusOffIgnored(u32),
    Heard(Heard),
    Failing(Failing),
    Nesting(Nesting),
    Panels(Panels),
    Held(Held),
    Listing(Listing),
    BusLog(Log),
    Nothing(Nothing),
    SourceTurn(u32, u32),
    Unfit(usize),
    Limit(usize),
    Special(&'static str),
}

/// What a case met.
pub type Met = BTreeSet<Row>;

pub const TWO_CHOSEN: &str = "two or more lists chosen at once";
pub const CHOSEN_AND_NAMED: &str = "a list both chosen and named";
pub const COST_4096: &str = "cost 4096 accepted";
pub const TRACE_FULL: &str = "trace filled to B";
pub const PLATFORM_ASKS: &str = "platform list asks an operator's network";
pub const UNDEFINED_ITEM: &str = "rule item with an undefined port";
pub const COUNTER_HELD: &str = "counter held at 255";
pub const L1_LOADED: &str = "L1 loaded";
pub const L2_LOADED: &str = "L2 loaded";
pub const TIMER_STARTED: &str = "timer started";
pub const TIMER_STOPPED: &str = "timer stopped";
pub const TIMER_EXPIRED: &str = "timer expired";
pub const NETWORK_SHOWN: &str = "countdown checked: network shows full";
pub const NETWORK_SETTLED: &str = "countdown checked: network settled, nothing heard";
pub const SETTLED_LOST: &str =
    "countdown checked: network settled, heard before the L-th tick only";
pub const SETTLED_HEARD: &str = "countdown checked: network settled, heard";
pub const SETTLED_HEARD_LAST: &str = "countdown checked: network settled, heard where 1 remains";
pub const SOURCE_EXPIRED: &str = "countdown checked: source expires";
pub const SOURCE_ENDED: &str = "countdown ended by its own operator";
pub const UNREADY_BY_SKIPPED: &str = "rule unready only by a port on a skipped side";
pub const EVALUATED_BY_SKIPPED: &str = "rule evaluated only by a mention on a skipped side";
pub const CLEARED_IN_OWN_REQUEST: &str = "clear in the port's own arbitration: request";
pub const CLEARED_IN_OWN_TICK: &str = "clear in the port's own arbitration: tick";
pub const MARK_TAKEN_AWAY: &str = "tick passes over an event whose request took its mark away";
pub const FITS_MARKED_IMMEDIATE: &str = "state fits: immediate event marked";
pub const LEVEL_0: &str = "at or above 0 evaluated";
pub const LEVEL_255_REACHED: &str = "at or above 255 evaluated: reached";
pub const LEVEL_255_MISSED: &str = "at or above 255 evaluated: not reached";
pub const LEVEL_IN_ITEM: &str = "at or above evaluated by a rule item";
pub const LEVEL_RISEN: &str = "rule turned by a value that rises to a level";
pub const LEVEL_FALLEN: &str = "rule turned by a value that falls below a level";
pub const LEVEL_UNREADY: &str = "rule unready only by undefined ports at or above";
pub const LEVEL_UNREADY_ITEM: &str = "rule item undefined only by ports at or above";
pub const LEVEL_EQUALITIES: &str = "run repeated with equalities for levels";
pub const LEVEL_ZERO_FIELD: &str = "at or above refused: zero field";
pub const LEVEL_ON_TIMER: &str = "at or above refused: timer";
pub const LEVEL_ON_EVENT: &str = "at or above refused: event";
pub const LEVEL_ON_ABSENT: &str = "at or above refused: absent port";
pub const LEVEL_CLASH: &str = "owners clash only by at or above";
pub const STRUCK_OUT: &str = "strangers' taken events struck out";
pub const STRUCK_OUT_HEARD: &str = "strangers' taken heards struck out";
pub const STRUCK_OUT_REFUSED: &str = "strangers' heards of a network that is in check struck out";
pub const STRUCK_OUT_SAME: &str =
    "strangers' taken events struck out, heard taken at the same tick";

const SPECIAL: [&str; 48] = [
    TWO_CHOSEN,
    CHOSEN_AND_NAMED,
    DEPTH_8_EXPRESSION,
    DEPTH_8_LIST,
    RING,
    COST_4096,
    COST_4097,
    UNREACHED_4097,
    TRACE_FULL,
    PLATFORM_ASKS,
    UNDEFINED_ITEM,
    COUNTER_HELD,
    L1_LOADED,
    L2_LOADED,
    TIMER_STARTED,
    TIMER_STOPPED,
    TIMER_EXPIRED,
    NETWORK_SHOWN,
    NETWORK_SETTLED,
    SETTLED_LOST,
    SETTLED_HEARD,
    SETTLED_HEARD_LAST,
    SOURCE_EXPIRED,
    SOURCE_ENDED,
    UNREADY_BY_SKIPPED,
    EVALUATED_BY_SKIPPED,
    CLEARED_IN_OWN_REQUEST,
    CLEARED_IN_OWN_TICK,
    MARK_TAKEN_AWAY,
    FITS_MARKED_IMMEDIATE,
    LEVEL_0,
    LEVEL_255_REACHED,
    LEVEL_255_MISSED,
    LEVEL_IN_ITEM,
    LEVEL_RISEN,
    LEVEL_FALLEN,
    LEVEL_UNREADY,
    LEVEL_UNREADY_ITEM,
    LEVEL_EQUALITIES,
    LEVEL_ZERO_FIELD,
    LEVEL_ON_TIMER,
    LEVEL_ON_EVENT,
    LEVEL_ON_ABSENT,
    LEVEL_CLASH,
    STRUCK_OUT,
    STRUCK_OUT_HEARD,
    STRUCK_OUT_REFUSED,
    STRUCK_OUT_SAME,
];

/// Every way a network can go; any other is a failure of the rules.
const NETWORK_TURNS: [(u32, u32); 13] = {
    use network::*;
    [
        (NONE, CHECK),
        (SILENT, NONE),
        (SILENT, CHECK),
        (CHECK, NONE),
        (CHECK, SILENT),
        (CHECK, FULL),
        (CHECK, RECOVER),
        (FULL, NONE),
        (FULL, SILENT),
        (FULL, RECOVER),
        (RECOVER, NONE),
        (RECOVER, SILENT),
        (RECOVER, CHECK),
    ]
};

const SOURCE_TURNS: [(u32, u32); 9] = {
    use source::*;
    [
        (NONE, PENDING),
        (NONE, VALIDATED),
        (PENDING, NONE),
        (PENDING, VALIDATED),
        (PENDING, EXPIRED),
        (VALIDATED, NONE),
        (EXPIRED, NONE),
        (EXPIRED, PENDING),
        (EXPIRED, VALIDATED),
    ]
};

pub const EVENTS: [&str; 8] = [
    "tick",
    "mode request",
    "event request",
    "wakeup",
    "wakeup valid",
    "bus-off",
    "wakeup clear",
    "heard",
];
pub const ITEMS: [&str; 7] =
    ["outside call", "clear event", "start timer", "stop timer", "network request", "list", "rule"];
pub const EXPRESSIONS: [&str; 10] =
    ["equal", "not equal", "set", "cleared", "AND", "OR", "XOR", "NAND", "NOT", "at or above"];
const ARGUMENTS: [&str; 2] = ["left", "right"];
const EVENT_VALUES: [&str; 2] = ["clear", "set"];
const PORTS: [&str; 2] = ["immediate", "deferred"];
pub const NETWORK_STATES: [&str; 5] = ["none", "silent", "check", "full", "recover"];
const STATUSES: [&str; 4] = ["none", "pending", "validated", "expired"];

impl Row {
    pub fn unfit(misfit: Misfit) -> Row {
        Row::Unfit(misfit as usize)
    }

    pub fn limit(section: Section) -> Row {
        Row::Limit(section as usize)
    }
}

impl fmt::Display for Row {
    fn fmt(&self, f: &mut fmt::Formatter) -> fmt::Result {
        let turn = |names: &[&str], from: u32, to: u32| {
            format!("{} to {}", names[from as usize], names[to as usize])
        };
        let text = match *self {
            Row::Reason(reason) => format!("reason {reason}"),
            Row::Answer(answer) => format!("answer {answer}"),
            Row::EventTaken(kind) => format!("event taken: {}", EVENTS[kind as usize]),
            Row::ItemRun(kind) => format!("item run: {}", ITEMS[kind as usize]),
            Row::Evaluated(kind) => format!("evaluated: {}", EXPRESSIONS[kind as usize]),
            Row::Settled(kind) => format!("settled by left: {}", EXPRESSIONS[kind as usize]),
            Row::NotSettled(kind) => format!("not settled by left: {}", EXPRESSIONS[kind as usize]),
            Row::Visits(visits) => visits.to_string(),
            Row::Clear(value, deferred) => {
                let (event, port) = (EVENT_VALUES[value as usize], PORTS[deferred as usize]);
                format!("clear marks: {event} event, {port} port")
            }
            Row::ChosenByClear(deferred) => {
                format!("list chosen at a tick only by a clear: {} port", PORTS[deferred as usize])
            }
            Row::Level(Ordering::Less) => "at or above evaluated: value below".to_string(),
            Row::Level(Ordering::Equal) => "at or above evaluated: value at".to_string(),
            Row::Level(Ordering::Greater) => "at or above evaluated: value above".to_string(),
            Row::LevelIn(kind, side) => {
                let (operator, argument) = (EXPRESSIONS[kind as usize], ARGUMENTS[side]);
                format!("at or above decides {operator}: {argument}")
            }
            Row::NoKind(kind) => format!("expression kind {kind} refused"),
            Row::Distance(lists) => format!("lists on the way to one that is reached: {lists}"),
            Row::NetworkTurn(from, to) => format!("network: {}", turn(&NETWORK_STATES, from, to)),
            Row::BusOffIgnored(state) => {
                format!("bus-off ignored in {}", NETWORK_STATES[state as usize])
            }
            Row::Heard(heard) => heard.to_string(),
            Row::Failing(failing) => failing.to_string(),
            Row::Nesting(nesting) => nesting.to_string(),
            Row::Panels(panels) => panels.to_string(),
            Row::Held(held) => held.to_string(),
            Row::Listing(listing) => listing.to_string(),
            Row::BusLog(log) => log.to_string(),
            Row::Nothing(nothing) => nothing.to_string(),
            Row::SourceTurn(from, to) => format!("source: {}", turn(&STATUSES, from, to)),
            Row::Unfit(misfit) => format!("state unfit: {:?}", MISFITS[misfit]),
            Row::Limit(section) => {
                let section = SECTIONS[section];
                format!("limit reached: {section:?} {}", section.limits().1)
            }
            Row::Special(what) => what.to_string(),
        };
        f.write_str(&text)
    }
}

/// How many cases met each row.
pub struct Coverage(BTreeMap<Row, usize>);

impl Default for Coverage {
    fn default() -> Self {
        Coverage::new()
    }
}

impl Coverage {
    /// Every row there must be, met by none yet.
    pub fn new() -> Self {
        let settling = [expression::AND, expression::OR, expression::NAND];
        let levels = [Ordering::Less, Ordering::Equal, Ordering::Greater];
        let level_in = (expression::AND..=expression::NAND)
            .flat_map(|kind| [0, 1].map(|side| Row::LevelIn(kind, side)))
            .chain([Row::LevelIn(expression::NOT, 0)]);
        let ignoring = [network::NONE, network::SILENT, network::RECOVER];
        let rows = (0..=10)
            .map(Row::Reason)
            .chain((0..=6).chain([8]).map(Row::Answer))
            .chain((event::TICK..=event::HEARD).map(Row::EventTaken))
            .chain((0..=6).map(Row::ItemRun))
            .chain((expression::EQUAL..=expression::AT_OR_ABOVE).map(Row::Evaluated))
            .chain(settling.map(Row::Settled))
            .chain(settling.map(Row::NotSettled))
            .chain(visits_rows::rows().map(Row::Visits))
            .chain([(0, 0), (0, 1), (1, 0), (1, 1)].map(|(value, port)| Row::Clear(value, port)))
            .chain((0..=1).map(Row::ChosenByClear))
            .chain(levels.map(Row::Level))
            .chain(level_in)
            .chain((expression::AT_OR_ABOVE + 1..=15).map(Row::NoKind))
            .chain((1..=LEVELS).map(Row::Distance))
            .chain(NETWORK_TURNS.map(|(from, to)| Row::NetworkTurn(from, to)))
            .chain(ignoring.map(Row::BusOffIgnored))
            .chain(heard::rows().map(Row::Heard))
            .chain(failing_rows::rows().map(Row::Failing))
            .chain(nesting::rows().map(Row::Nesting))
            .chain(panel_rows::rows().map(Row::Panels))
            .chain(held_rows::rows().map(Row::Held))
            .chain(listed_rows::rows().map(Row::Listing))
            .chain(buslogs_rows::rows().map(Row::BusLog))
            .chain(nothing_rows::rows().map(Row::Nothing))
            .chain(SOURCE_TURNS.map(|(from, to)| Row::SourceTurn(from, to)))
            .chain(MISFITS.map(Row::unfit))
            .chain(SECTIONS.map(Row::limit))
            .chain(SPECIAL.map(Row::Special))
            .chain(names::ROWS.map(Row::Special))
            .chain(heard::ROWS.map(Row::Special))
            .chain(failing_rows::ROWS.map(Row::Special))
            .chain(visits_rows::ROWS.map(Row::Special))
            .chain(play_rows::ROWS.map(Row::Special))
            .chain(played::ROWS.map(Row::Special))
            .chain(panel_rows::ROWS.map(Row::Special))
            .chain(held_rows::ROWS.map(Row::Special))
            .chain(listed_rows::ROWS.map(Row::Special))
            .chain(buslogs_rows::ROWS.map(Row::Special))
            .chain(nothing_rows::ROWS.map(Row::Special));
        Coverage(rows.map(|row| (row, 0)).collect())
    }

    /// Counts a case's rows; a row that cannot be is given back.
    pub fn count(&mut self, met: &Met) -> Result<(), Row> {
        for row in met {
            *self.0.get_mut(row).ok_or(*row)? += 1;
        }
        Ok(())
    }

    /// Counts what other cases met besides.
    pub fn add(&mut self, other: &Coverage) {
        for (row, cases) in &other.0 {
            *self.0.entry(*row).or_default() += cases;
        }
    }

    pub fn missing(&self) -> Vec<Row> {
        self.0.iter().filter(|&(_, &cases)| cases == 0).map(|(&row, _)| row).collect()
    }
}

impl fmt::Display for Coverage {
    fn fmt(&self, f: &mut fmt::Formatter) -> fmt::Result {
        self.0.iter().try_for_each(|(row, cases)| writeln!(f, "{cases:>8}  {row}"))
    }
}

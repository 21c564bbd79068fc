//! Request Q-8 on a run: "The next tick takes it, unless none or silent is asked: check becomes
//! full with counter 0, whatever remains. A move out of check clears it, a bus-off included; heard
//! in another state changes nothing."

use std::fmt;

use super::coverage::{Met, NETWORK_STATES, Row};
use super::log::{Entry, hold};
use super::traces::modes_asked;
use crate::cases::draft::Draft;
use crate::words::*;

const TWICE: &str = "heard twice in check";
const OPERATORS_OWN: &str = "heard in check: an operator's own network";
const PLATFORMS_OWN: &str = "heard in check: the platform's own network";
const TWO_MODES: &str = "heard kept while one event's lists ask for two modes";
const AT_LAST_TICK: &str = "heard taken where 1 remains";
const AT_EARLIER_TICK: &str = "heard taken where more than 1 remains";
const BUS_OFF: &str = "heard dropped by a bus-off";
const NOT_KEPT: &str = "heard dropped by a bus-off, and the next check counts down";
const STRANGERS: &str = "heard refused in check: a stranger's";
const PLATFORMS: &str = "heard refused in check: the platform's";
const NO_NETWORK: &str = "heard refused: no such network";
const MALFORMED: &str = "heard refused: malformed";
const FITS: &str = "state fits: heard in check";

const MODES: [&str; 3] = ["none", "silent", "full"];

pub const ROWS: [&str; 13] = [
    TWICE,
    OPERATORS_OWN,
    PLATFORMS_OWN,
    TWO_MODES,
    AT_LAST_TICK,
    AT_EARLIER_TICK,
    BUS_OFF,
    NOT_KEPT,
    STRANGERS,
    PLATFORMS,
    NO_NETWORK,
    MALFORMED,
    FITS,
];

/// Rows of what networks hear.
#[derive(Clone, Copy, PartialEq, Eq, PartialOrd, Ord, Debug)]
pub enum Heard {
    /// The network's state.
    In(u32),
    /// The mode that lists ask for.
    Kept(u32),
    /// The mode asked.
    AtTick(u32),
    /// An event that there is not.
    NoEvent(u32),
}

pub fn rows() -> impl Iterator<Item = Heard> {
    let modes = mode::NONE..=mode::FULL;
    (network::NONE..=network::RECOVER)
        .map(Heard::In)
        .chain(modes.clone().map(Heard::Kept))
        .chain(modes.map(Heard::AtTick))
        .chain((event::HEARD + 1..=15).map(Heard::NoEvent))
}

impl fmt::Display for Heard {
    fn fmt(&self, f: &mut fmt::Formatter) -> fmt::Result {
        match *self {
            Heard::In(state) => write!(f, "heard in {}", NETWORK_STATES[state as usize]),
            Heard::Kept(mode) => {
                write!(f, "heard kept while lists ask for {}", MODES[mode as usize])
            }
            Heard::AtTick(mode) => write!(f, "heard met by a tick, asked {}", MODES[mode as usize]),
            Heard::NoEvent(kind) => write!(f, "event kind {kind} refused"),
        }
    }
}

/// A state that was made to fit.
pub fn meet_fit(draft: &Draft, state: &[u32], met: &mut Met) {
    if (0..draft.networks.len()).any(|network| draft.network_in(state, network).heard == 1) {
        met.insert(Row::Special(FITS));
    }
}

/// A refused event on an accepted table with a state that fits.
pub fn meet_refused(draft: &Draft, entry: &Entry, met: &mut Met) {
    let Event { kind, owner, index, .. } = entry.event;
    let in_check = || draft.network_in(&entry.before, index as usize).state == network::CHECK;
    let row = match (entry.answer, kind) {
        (4, event::HEARD) => Row::Special(MALFORMED),
        (4, kind) if kind > event::HEARD => Row::Heard(Heard::NoEvent(kind)),
        (5, event::HEARD) => Row::Special(NO_NETWORK),
        (6, event::HEARD) if in_check() && owner == PLATFORM => Row::Special(PLATFORMS),
        (6, event::HEARD) if in_check() => Row::Special(STRANGERS),
        _ => return,
    };
    met.insert(row);
}

/// Whether the event is a tick at which what was heard ends the network's check.
pub fn takes_heard(draft: &Draft, entry: &Entry, network: usize) -> bool {
    Turn::of(draft, entry, network).takes_heard()
}

/// Follows a case's events that are done.
pub struct Heards<'a> {
    draft: &'a Draft,
    /// Networks of which a bus-off dropped what was heard, and that no tick has met in check since.
    dropped: Vec<bool>,
}

impl<'a> Heards<'a> {
    pub fn over(draft: &'a Draft) -> Self {
        Heards { draft, dropped: vec![false; draft.networks.len()] }
    }

    pub fn follow(&mut self, entry: &Entry, met: &mut Met) -> Result<(), String> {
        if entry.event.kind == event::HEARD {
            try_heard(self.draft, entry)?;
        }
        for (number, dropped) in self.dropped.iter_mut().enumerate() {
            let turn = Turn::of(self.draft, entry, number);
            let tried = turn.try_bit().and_then(|()| turn.try_tick());
            tried.map_err(|what| format!("network {number}: {what}"))?;
            turn.meet_heard(met);
            turn.meet_kept(met);
            turn.meet_tick(*dropped, met);
            *dropped = turn.has_dropped(*dropped);
        }
        Ok(())
    }
}

/// Heard changes nothing but its network's bit, and starts nothing.
fn try_heard(draft: &Draft, entry: &Entry) -> Result<(), String> {
    let at = draft.ports.len() + draft.rules.len() + entry.event.index as usize;
    let mut unheard = entry.after.clone();
    let heard = NetworkState::of(entry.before[at]).heard;
    unheard[at] = NetworkState { heard, ..NetworkState::of(unheard[at]) }.word();
    hold(unheard == entry.before && entry.trace.is_empty(), || {
        format!("heard left {:X?} of {:X?}", entry.after, entry.before)
    })
}

/// What an event does to a network.
struct Turn<'a> {
    entry: &'a Entry,
    number: usize,
    before: NetworkState,
    after: NetworkState,
}

impl<'a> Turn<'a> {
    fn of(draft: &Draft, entry: &'a Entry, number: usize) -> Self {
        let (before, after) =
            (draft.network_in(&entry.before, number), draft.network_in(&entry.after, number));
        Turn { entry, number, before, after }
    }

    fn takes_heard(&self) -> bool {
        self.entry.is_tick() && self.before.heard == 1 && self.after.state == network::FULL
    }

    fn drops_heard(&self) -> bool {
        self.entry.is_of(event::BUS_OFF, self.number) && self.before.heard == 1
    }

    fn stays_in_check(&self) -> bool {
        [self.before.state, self.after.state] == [network::CHECK; 2]
    }

    /// The bit is 1 between ticks only, and no longer than check lasts.
    fn try_bit(&self) -> Result<(), String> {
        let Turn { entry, number, before, after } = self;
        let heard = before.heard == 1 || entry.is_of(event::HEARD, *number);
        let expected = heard && self.stays_in_check() && !entry.is_tick();
        hold(after.heard == expected as u32, || format!("{before:?} became {after:?}"))
    }

    /// Where a tick takes a network that is in check.
    fn try_tick(&self) -> Result<(), String> {
        let Turn { entry, before, after, .. } = self;
        if !entry.is_tick() || before.state != network::CHECK {
            return Ok(());
        }
        let expected = match before.asked {
            mode::NONE => (network::NONE, 0, 0),
            mode::SILENT => (network::SILENT, 0, 0),
            _ if before.heard == 1 || before.remaining == 1 => (network::FULL, 0, 0),
            _ => (network::CHECK, before.counter, before.remaining - 1),
        };
        hold((after.state, after.counter, after.remaining) == expected, || {
            format!("{before:?} ticked to {after:?}")
        })
    }

    fn meet_heard(&self, met: &mut Met) {
        let Turn { entry, before, .. } = self;
        if self.drops_heard() {
            met.insert(Row::Special(BUS_OFF));
        }
        if !entry.is_of(event::HEARD, self.number) {
            return;
        }
        met.insert(Row::Heard(Heard::In(before.state)));
        if before.state == network::CHECK {
            let platforms = entry.event.owner == PLATFORM;
            met.insert(Row::Special(if platforms { PLATFORMS_OWN } else { OPERATORS_OWN }));
        }
        if before.heard == 1 {
            met.insert(Row::Special(TWICE));
        }
    }

    /// Lists ask for a mode before the tick, and what was heard stays.
    fn meet_kept(&self, met: &mut Met) {
        let Turn { entry, before, after, .. } = self;
        let asked: Vec<u32> = modes_asked(entry, self.number).collect();
        if before.heard == 1 && after.heard == 1 && !asked.is_empty() {
            met.insert(Row::Heard(Heard::Kept(after.asked)));
            if asked.iter().any(|&mode| mode != after.asked) {
                met.insert(Row::Special(TWO_MODES));
            }
        }
    }

    fn meet_tick(&self, dropped: bool, met: &mut Met) {
        if !self.entry.is_tick() {
            return;
        }
        if self.before.heard == 1 {
            met.insert(Row::Heard(Heard::AtTick(self.before.asked)));
        }
        if self.takes_heard() {
            let last = self.before.remaining == 1;
            met.insert(Row::Special(if last { AT_LAST_TICK } else { AT_EARLIER_TICK }));
        }
        if dropped && self.stays_in_check() {
            met.insert(Row::Special(NOT_KEPT));
        }
    }

    /// Whether a bus-off has dropped what was heard, this one or one before.
    fn has_dropped(&self, dropped: bool) -> bool {
        let Turn { entry, before, after, .. } = self;
        let met_in_check = entry.is_tick() && before.state == network::CHECK;
        let gone = ![network::CHECK, network::RECOVER].contains(&after.state);
        self.drops_heard() || dropped && !met_in_check && !gone
    }
}

//! Request Q-2 on a run: "a clear marks the port, deferred or immediate, even if
//! it was clear already, for the next tick unless arbitrated sooner."

use super::choices::{Choices, first_value, requested};
use super::coverage::{self, Met, Row};
use super::log::{Entry, hold};
use super::ports::{Ports, cleared, members, ports_where};
use crate::cases::draft::Draft;
use crate::words::*;

/// Follows a case's events that are done.
pub struct Clears<'a> {
    draft: &'a Draft,
    events: Ports,
    /// Marked by a clear, and by nothing else.
    by_clear: Ports,
    /// Immediate ports that were marked until their request came.
    taken_away: Ports,
}

impl<'a> Clears<'a> {
    pub fn over(draft: &'a Draft) -> Self {
        let events = ports_where(draft, |port| draft.ports[port].kind == port::EVENT);
        Clears { draft, events, by_clear: 0, taken_away: 0 }
    }

    pub fn follow(
        &mut self,
        entry: &Entry,
        choices: &Choices,
        met: &mut Met,
    ) -> Result<(), String> {
        if entry.is_tick() {
            self.meet_tick(choices, met);
        }
        let cleared = cleared(entry);
        for port in members(self.events) {
            let arbitrated = choices.arbitrated >> port & 1 == 1;
            let cleared = cleared >> port & 1 == 1;
            try_event(entry, port, arbitrated, cleared)?;
            if cleared {
                self.meet_clear(entry, port, arbitrated, met);
            }
            self.note(entry, port, arbitrated, cleared);
        }
        Ok(())
    }

    /// A port that was cleared; it is marked, or the case has failed.
    fn meet_clear(&self, entry: &Entry, port: usize, arbitrated: bool, met: &mut Met) {
        // Where the mark was there and stayed, the clear did not make it.
        if PortState::of(entry.before[port]).marked == 0 || arbitrated {
            met.insert(Row::Clear(first_value(entry, port), self.draft.ports[port].deferred));
        }
        if arbitrated {
            let at_tick = coverage::CLEARED_IN_OWN_TICK;
            let at_request = coverage::CLEARED_IN_OWN_REQUEST;
            met.insert(Row::Special(if entry.is_tick() { at_tick } else { at_request }));
        }
    }

    /// What a tick chose, or did not, that would be otherwise but for one mark.
    fn meet_tick(&self, choices: &Choices, met: &mut Met) {
        let chosen = choices.chosen(choices.arbitrated);
        for port in members(self.by_clear & choices.arbitrated) {
            if choices.chosen(choices.arbitrated & !(1 << port)) != chosen {
                met.insert(Row::ChosenByClear(self.draft.ports[port].deferred));
            }
        }
        for port in members(self.taken_away & !choices.arbitrated) {
            if choices.chosen(choices.arbitrated | 1 << port) != chosen {
                met.insert(Row::Special(coverage::MARK_TAKEN_AWAY));
            }
        }
    }

    fn note(&mut self, entry: &Entry, port: usize, arbitrated: bool, cleared: bool) {
        let (bit, request) = (1 << port, requested(entry, port));
        let marked = PortState::of(entry.before[port]).marked == 1;
        // A mark that was there for another reason, and stayed, hides the clear's.
        let hidden = marked && !arbitrated && self.by_clear & bit == 0;
        if cleared && !hidden {
            self.by_clear |= bit;
        } else if arbitrated || request {
            self.by_clear &= !bit;
        }
        if request && arbitrated && marked && !cleared {
            self.taken_away |= bit;
        } else if cleared || entry.is_tick() {
            self.taken_away &= !bit;
        }
    }
}

/// Value and mark follow from the word before, the event and its trace.
fn try_event(entry: &Entry, port: usize, arbitrated: bool, cleared: bool) -> Result<(), String> {
    let before = PortState::of(entry.before[port]);
    // An immediate request is its port's arbitration.
    let stays = (before.marked == 1 || requested(entry, port)) && !arbitrated;
    let expected = PortState {
        marked: (cleared || stays) as u32,
        value: if cleared { 0 } else { first_value(entry, port) },
        ..before
    };
    let after = PortState::of(entry.after[port]);
    hold(after == expected, || format!("port {port} is {after:?}, not {expected:?}"))
}

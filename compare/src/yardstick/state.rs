//! A state's sections and whether they fit.

use super::table::*;

/// What remaining counts in a started timer, a pending source, a network in check or recover.
pub const REMAINING: u32 = 0xFFFF;

/// A port's state.
pub const DEFINED: u32 = 1 << 31;
pub const MARKED: u32 = 1 << 30;
pub const VALUE: u32 = 22;

/// Where a network's asked mode, state and counter stand.
pub const ASKED: u32 = 30;
pub const NETWORK_STATE: u32 = 27;
pub const COUNTER: u32 = 19;

/// Where a source's status and a rule's last result stand.
pub const STATUS: u32 = 30;

/// Values of a timer and states of a network that count.
pub const STARTED: u32 = 1;
pub const EXPIRED: u32 = 2;
pub const CHECK: u32 = 2;
pub const FULL: u32 = 3;
pub const RECOVER: u32 = 4;
pub const PENDING: u32 = 1;

#[inline]
pub const fn value(port: u32) -> u32 {
    field(port, VALUE, 8)
}

#[inline]
pub const fn network_state(network: u32) -> u32 {
    field(network, NETWORK_STATE, 3)
}

#[inline]
pub const fn counter(network: u32) -> u32 {
    field(network, COUNTER, 8)
}

/// A state's sections; its length is right.
pub struct State<'a> {
    pub ports: &'a mut [u32],
    pub rules: &'a mut [u32],
    pub networks: &'a mut [u32],
    pub sources: &'a mut [u32],
}

impl<'a> State<'a> {
    /// None where the length is wrong.
    #[inline]
    pub fn of(table: &Table, words: &'a mut [u32]) -> Option<Self> {
        let [p, r, n] = [table.ports.len(), table.rules.len(), table.networks.len()];
        if words.len() != p + r + n + table.sources.len() {
            return None;
        }
        let (ports, rest) = words.split_at_mut(p);
        let (rules, rest) = rest.split_at_mut(r);
        let (networks, sources) = rest.split_at_mut(n);
        Some(State { ports, rules, networks, sources })
    }

    /// As in the table's check, no loop stops early.
    #[inline]
    pub fn fits(&self, table: &Table) -> bool {
        let ports = table.ports.iter().zip(&*self.ports);
        let rules = self.rules.iter();
        let networks = table.networks.iter().zip(&*self.networks);
        let sources = table.sources.iter().zip(&*self.sources);
        ports.fold(true, |fits, (&port, &state)| fits & port_fits(port, state))
            && rules.fold(true, |fits, &rule| fits & (rule << 2 == 0) & (rule >> 30 <= 2))
            && networks.fold(true, |fits, (pair, &state)| fits & network_fits(pair[1], state))
            && sources.fold(true, |fits, (&source, &state)| fits & source_fits(source, state))
    }
}

#[inline]
fn port_fits(port: u32, state: u32) -> bool {
    let (kind, value) = (port_kind(port), value(state));
    let (defined, marked) = (state & DEFINED != 0, state & MARKED != 0);
    let most_value = if kind == MODE { 255 } else { kind };
    let started = (kind == TIMER) & (value == STARTED);
    (field(state, 16, 6) == 0)
        & (is_deferred(port) | !marked)
        & (defined | ((kind == MODE) & (value == 0) & !marked))
        & (value <= most_value)
        & remaining_fits(started, port & REMAINING, state)
}

#[inline]
fn network_fits(waits: u32, network: u32) -> bool {
    let (state, counter) = (network_state(network), counter(network));
    let longer = (waits >> 24).max(field(waits, 16, 8));
    let (counts, most) = match state {
        CHECK => (true, waits & 0xFFFF),
        RECOVER => (true, longer),
        _ => (false, 0),
    };
    let counter_fits = match state {
        CHECK => true,
        RECOVER => counter >= 1,
        _ => counter == 0,
    };
    (field(network, 16, 3) == 0)
        & (network >> ASKED <= 2)
        & (state <= RECOVER)
        & counter_fits
        & remaining_fits(counts, most, network)
}

#[inline]
fn source_fits(source: u32, state: u32) -> bool {
    let pending = state >> STATUS == PENDING;
    (field(state, 16, 14) == 0) & remaining_fits(pending, field(source, 4, 16), state)
}

/// What counts down has 1 to its most remaining, everything else 0.
#[inline]
fn remaining_fits(counts: bool, most: u32, state: u32) -> bool {
    let remaining = state & REMAINING;
    if counts { (remaining >= 1) & (remaining <= most) } else { remaining == 0 }
}

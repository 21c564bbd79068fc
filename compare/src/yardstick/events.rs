//! Events: which are refused, and what a taken one does to the state.

use super::arbitration::Run;
use super::check::Sets;
use super::state::*;
use super::table::*;

const TICK: u32 = 0;
const MODE_REQUEST: u32 = 1;
const EVENT_REQUEST: u32 = 2;
const WAKEUP: u32 = 3;
const WAKEUP_VALID: u32 = 4;
const BUS_OFF: u32 = 5;
const WAKEUP_CLEAR: u32 = 6;

const VALIDATED: u32 = 2;
const SOURCE_EXPIRED: u32 = 3;

/// What each network state shows on its port.
const SHOWN: [u32; 8] = [0, 1, 2, 2, 3, 2, 2, 2];

#[inline]
fn index(event: u32) -> u32 {
    field(event, 16, 8)
}

/// Answers 4, 5 and 6, which read the table only.
#[inline]
pub fn refuse(table: &Table, sets: &Sets, event: u32) -> Result<(), u32> {
    let (kind, number) = (top(event), index(event));
    let zero = match kind {
        TICK => u32::MAX,
        MODE_REQUEST => 0xFF,
        EVENT_REQUEST..=WAKEUP_CLEAR => 0xFFFF,
        _ => return Err(4),
    };
    if event & zero != 0 {
        return Err(4);
    }
    let port = |set: u64| match table.ports.get(number as usize) {
        Some(&port) if has(set, number) => Some(port_owner(port)),
        _ => None,
    };
    let owner = match kind {
        TICK => return Ok(()),
        MODE_REQUEST => port(sets.modes & !sets.taken),
        EVENT_REQUEST => port(sets.events),
        BUS_OFF => table.networks.get(number as usize).map(|network| top(network[0])),
        _ => table.sources.get(number as usize).map(|&source| top(source)),
    };
    match owner {
        None => Err(5),
        Some(owner) if owner != field(event, 24, 4) => Err(6),
        Some(_) => Ok(()),
    }
}

impl Run<'_> {
    pub fn take(&mut self, sets: &Sets, event: u32) {
        let number = index(event) as usize;
        match top(event) {
            TICK => self.tick(sets),
            MODE_REQUEST => self.request(number, field(event, 8, 8)),
            EVENT_REQUEST => self.request(number, 1),
            WAKEUP => self.wakeup(number),
            WAKEUP_VALID => {
                if self.state.sources[number] >> STATUS == PENDING {
                    self.turn_source(number, VALIDATED, 0);
                }
            }
            BUS_OFF => self.bus_off(number),
            _ => self.turn_source(number, 0, 0),
        }
    }

    fn request(&mut self, number: usize, value: u32) {
        let deferred = is_deferred(self.table.ports[number]);
        let mark = if deferred { MARKED } else { 0 };
        // Neither a mode port nor an event port has anything remaining.
        self.state.ports[number] = DEFINED | mark | value << VALUE;
        if !deferred {
            self.arbitrate(1 << number);
        }
    }

    fn wakeup(&mut self, number: usize) {
        let status = self.state.sources[number] >> STATUS;
        if status == 0 || status == SOURCE_EXPIRED {
            match field(self.table.sources[number], 4, 16) {
                0 => self.turn_source(number, VALIDATED, 0),
                timeout => self.turn_source(number, PENDING, timeout),
            }
        }
    }

    fn bus_off(&mut self, number: usize) {
        let old = self.state.networks[number];
        if matches!(network_state(old), CHECK | FULL) {
            let [network, waits] = self.table.networks[number];
            let counter = (counter(old) + 1).min(255);
            let short = counter <= field(network, 12, 8);
            let remaining = if short { waits >> 24 } else { field(waits, 16, 8) };
            self.turn_network(number, RECOVER, counter, remaining);
        }
    }

    fn tick(&mut self, sets: &Sets) {
        for number in 0..self.state.networks.len() {
            self.tick_network(number);
        }
        for number in 0..self.state.sources.len() {
            let source = self.state.sources[number];
            if source >> STATUS == PENDING {
                match source & REMAINING {
                    1 => self.turn_source(number, SOURCE_EXPIRED, 0),
                    more => self.state.sources[number] = PENDING << STATUS | (more - 1),
                }
            }
        }
        self.tick_timers(sets.timers);
        let set = |set, (number, &port): (usize, &u32)| set | u64::from(port >> 30 & 1) << number;
        let marked = self.state.ports.iter().enumerate().fold(0, set);
        if marked != 0 {
            self.arbitrate(marked);
        }
    }

    /// One transition at most.
    #[inline]
    fn tick_network(&mut self, number: usize) {
        let old = self.state.networks[number];
        let e_ticks = self.table.networks[number][1] & 0xFFFF;
        let (state, counter) = (network_state(old), counter(old));
        let left = (old & REMAINING).saturating_sub(1);
        match (old >> ASKED, state) {
            (0, 0) | (1, 0) => {}
            (0, _) => self.turn_network(number, 0, 0, 0),
            (1, _) => self.turn_network(number, 1, 0, 0),
            (_, 0 | 1) => self.turn_network(number, CHECK, 0, e_ticks),
            (_, RECOVER) if left == 0 => self.turn_network(number, CHECK, counter, e_ticks),
            (_, CHECK) if left == 0 => self.turn_network(number, FULL, 0, 0),
            _ => self.state.networks[number] = old & !REMAINING | left,
        }
    }

    #[inline]
    fn tick_timers(&mut self, mut timers: u64) {
        while timers != 0 {
            let port = &mut self.state.ports[timers.trailing_zeros() as usize];
            if value(*port) == STARTED {
                *port -= 1;
                if *port & REMAINING == 0 {
                    *port = DEFINED | MARKED | EXPIRED << VALUE;
                }
            }
            timers &= timers - 1;
        }
    }

    /// Its port is written where what it shows changes, whatever the port holds.
    fn turn_network(&mut self, number: usize, state: u32, counter: u32, remaining: u32) {
        let old = self.state.networks[number];
        let shown = SHOWN[state as usize];
        if SHOWN[network_state(old) as usize] != shown {
            self.write_port(named_port(self.table.networks[number][0]), shown);
        }
        self.state.networks[number] =
            old >> ASKED << ASKED | state << NETWORK_STATE | counter << COUNTER | remaining;
    }

    /// Its port is written where its status changes, whatever the port holds.
    fn turn_source(&mut self, number: usize, status: u32, remaining: u32) {
        if self.state.sources[number] >> STATUS != status {
            self.write_port(named_port(self.table.sources[number]), status);
        }
        self.state.sources[number] = status << STATUS | remaining;
    }

    #[inline]
    fn write_port(&mut self, number: u32, value: u32) {
        self.state.ports[number as usize] = DEFINED | MARKED | value << VALUE;
    }
}

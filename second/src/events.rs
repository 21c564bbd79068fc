//! Events: which are refused, and what a taken one does.

use crate::lists::Run;
use crate::words::*;

/// Answers 4, 8, 5 and 6, in this order, which read the table, the event and the outcomes lent
/// only; otherwise 0. Q-9: "An outcome word above 1 is answer 8, checked after answer 4 over all
/// lent words."
pub fn refusal(table: &Table, event: Event, outcomes: &[u32]) -> u32 {
    if malformed(event) {
        4
    } else if outcomes.iter().any(|&word| word > outcome::FAILED) {
        8
    } else if event.kind == event::TICK {
        0
    } else {
        match owner_of_thing(table, event) {
            None => 5,
            Some(owner) if owner != event.owner => 6,
            Some(_) => 0,
        }
    }
}

fn malformed(event: Event) -> bool {
    let tick_with_more = event.kind == event::TICK && event != Event::default();
    let value_out_of_place = event.kind != event::MODE_REQUEST && event.value != 0;
    event.kind > event::HEARD || event.zero != 0 || tick_with_more || value_out_of_place
}

/// The owner of the port, source or network an event speaks of, if it may.
fn owner_of_thing(table: &Table, event: Event) -> Option<u32> {
    let number = event.index as usize;
    let present = |section: Section| number < table.count(section);
    match event.kind {
        event::MODE_REQUEST | event::EVENT_REQUEST => {
            let port = present(Section::Ports).then(|| table.port(number))?;
            let open = if event.kind == event::MODE_REQUEST {
                port.kind == port::MODE && !table.thing_ports().contains(&event.index)
            } else {
                port.kind == port::EVENT
            };
            open.then_some(port.owner)
        }
        event::BUS_OFF | event::HEARD => {
            present(Section::Networks).then(|| table.network(number).owner)
        }
        _ => present(Section::Sources).then(|| table.source(number).owner),
    }
}

/// What a network's state shows on its port.
pub fn shown(state: u32) -> u32 {
    match state {
        network::NONE => 0,
        network::SILENT => 1,
        network::RECOVER => 3,
        _ => 2,
    }
}

impl Run<'_> {
    pub fn take(&mut self, event: Event) {
        let number = event.index as usize;
        match event.kind {
            event::TICK => self.tick(),
            event::MODE_REQUEST => self.request(number, event.value),
            event::EVENT_REQUEST => self.request(number, 1),
            event::WAKEUP => self.wakeup(number),
            event::WAKEUP_VALID => {
                if self.state.source(number).status == source::PENDING {
                    self.turn_source(number, source::VALIDATED, 0);
                }
            }
            event::BUS_OFF => self.bus_off(number),
            event::HEARD => self.heard(number),
            _ => self.turn_source(number, source::NONE, 0),
        }
    }

    fn request(&mut self, number: usize, value: u32) {
        let marked = self.table.port(number).deferred;
        let port = self.state.port(number);
        self.state.set_port(number, PortState { defined: 1, marked, value, ..port });
        if marked == 0 {
            self.arbitrate(&[number]);
        }
    }

    fn wakeup(&mut self, number: usize) {
        let status = self.state.source(number).status;
        if status == source::NONE || status == source::EXPIRED {
            match self.table.source(number).timeout {
                0 => self.turn_source(number, source::VALIDATED, 0),
                timeout => self.turn_source(number, source::PENDING, timeout),
            }
        }
    }

    fn bus_off(&mut self, number: usize) {
        let old = self.state.network(number);
        if old.state == network::CHECK || old.state == network::FULL {
            let counter = (old.counter + 1).min(255);
            let waits = self.table.waits(number);
            let short = counter <= self.table.network(number).threshold;
            let remaining = if short { waits.l1 } else { waits.l2 };
            self.turn_network(number, network::RECOVER, counter, remaining);
        }
    }

    /// Heard waits for the next tick, so nothing is shown yet; only check takes note of it.
    fn heard(&mut self, number: usize) {
        let old = self.state.network(number);
        if old.state == network::CHECK {
            self.state.set_network(number, NetworkState { heard: 1, ..old });
        }
    }

    fn tick(&mut self) {
        for number in 0..self.table.count(Section::Networks) {
            self.tick_network(number);
        }
        for number in 0..self.table.count(Section::Sources) {
            let source = self.state.source(number);
            match (source.status, source.remaining) {
                (source::PENDING, 1) => self.turn_source(number, source::EXPIRED, 0),
                (source::PENDING, more) => self.turn_source(number, source::PENDING, more - 1),
                _ => {}
            }
        }
        let ports = 0..self.table.count(Section::Ports);
        ports.clone().for_each(|number| self.tick_timer(number));
        let marked: Vec<usize> = ports.filter(|&p| self.state.port(p).marked == 1).collect();
        self.arbitrate(&marked);
    }

    /// One transition at most.
    fn tick_network(&mut self, number: usize) {
        let old = self.state.network(number);
        let e_ticks = self.table.waits(number).e_ticks;
        let left = old.remaining.saturating_sub(1);
        let (state, counter, remaining) = match (old.asked, old.state) {
            (mode::NONE, _) => (network::NONE, 0, 0),
            (mode::SILENT, network::SILENT..) => (network::SILENT, 0, 0),
            (mode::FULL, network::NONE | network::SILENT) => (network::CHECK, 0, e_ticks),
            (_, network::RECOVER) if left == 0 => (network::CHECK, old.counter, e_ticks),
            // heard ends the check "whatever remains", "unless none or silent is asked".
            (_, network::CHECK) if left == 0 || old.heard == 1 => (network::FULL, 0, 0),
            _ => (old.state, old.counter, left),
        };
        self.turn_network(number, state, counter, remaining);
    }

    fn tick_timer(&mut self, number: usize) {
        let port = self.state.port(number);
        if self.table.port(number).kind != port::TIMER || port.value != timer::STARTED {
            return;
        }
        match port.remaining {
            1 => self.turn_timer(number, timer::EXPIRED, 0),
            more => self.state.set_port(number, PortState { remaining: more - 1, ..port }),
        }
    }

    /// Its port is written where what it shows changes, whatever the port holds. Outside check
    /// nothing heard is kept.
    fn turn_network(&mut self, number: usize, state: u32, counter: u32, remaining: u32) {
        let old = self.state.network(number);
        if shown(old.state) != shown(state) {
            self.write_port(self.table.network(number).port, shown(state));
        }
        let heard = if state == network::CHECK { old.heard } else { 0 };
        let turned = NetworkState { state, counter, heard, remaining, ..old };
        self.state.set_network(number, turned);
    }

    /// Its port is written where its status changes, whatever the port holds.
    fn turn_source(&mut self, number: usize, status: u32, remaining: u32) {
        if self.state.source(number).status != status {
            self.write_port(self.table.source(number).port, status);
        }
        self.state.set_source(number, SourceState { status, zero: 0, remaining });
    }

    fn write_port(&mut self, number: u32, value: u32) {
        let port = PortState { defined: 1, marked: 1, value, ..Default::default() };
        self.state.set_port(number as usize, port);
    }
}

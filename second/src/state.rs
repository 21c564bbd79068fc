//! The state: reading and writing its words, whether one fits, and a fresh one.

use crate::check::accept;
use crate::words::*;

/// A state's words beside their table; its length is right.
pub struct State<'a> {
    table: &'a Table<'a>,
    pub words: Vec<u32>,
}

/// P+R+N+S.
pub fn state_length(table: &Table) -> usize {
    start(table, Section::Sources) + table.count(Section::Sources)
}

/// Where a section's words begin in a state: ports, rules, networks, sources.
pub fn start(table: &Table, section: Section) -> usize {
    let order = [Section::Ports, Section::Rules, Section::Networks, Section::Sources];
    let before = order.into_iter().take_while(|&earlier| earlier != section);
    before.map(|earlier| table.count(earlier)).sum()
}

macro_rules! words_of_a_state {
    ($($read:ident $write:ident $section:ident $word:ident)+) => { $(
        pub fn $read(&self, number: usize) -> $word {
            $word::of(self.words[start(self.table, Section::$section) + number])
        }

        pub fn $write(&mut self, number: usize, word: $word) {
            let place = start(self.table, Section::$section) + number;
            self.words[place] = word.word();
        }
    )+ };
}

impl<'a> State<'a> {
    /// None where the length is wrong.
    pub fn of(table: &'a Table<'a>, words: &[u32]) -> Option<Self> {
        let words = words.to_vec();
        (words.len() == state_length(table)).then_some(State { table, words })
    }

    words_of_a_state! {
        port set_port Ports PortState
        rule set_rule Rules RuleState
        network set_network Networks NetworkState
        source set_source Sources SourceState
    }

    pub fn fits(&self) -> bool {
        let table = self.table;
        let all =
            |section: Section, fits: &dyn Fn(usize) -> bool| (0..table.count(section)).all(fits);
        all(Section::Ports, &|p| port_fits(table.port(p), self.port(p)))
            && all(Section::Rules, &|r| self.rule(r).zero == 0 && self.rule(r).last <= UNDEFINED)
            && all(Section::Networks, &|n| network_fits(table.waits(n), self.network(n)))
            && all(Section::Sources, &|s| source_fits(table.source(s), self.source(s)))
    }
}

fn port_fits(port: Port, state: PortState) -> bool {
    let started = port.kind == port::TIMER && state.value == timer::STARTED;
    let undefined_fits = port.kind == port::MODE && state.value == 0 && state.marked == 0;
    // "So the state rule that immediate ports are unmarked holds only for mode ports."
    let unmarked = port.kind == port::MODE && port.deferred == 0;
    let value_fits = match port.kind {
        port::EVENT => state.value <= 1,
        port::TIMER => state.value <= timer::EXPIRED,
        _ => true,
    };
    state.zero == 0
        && (!unmarked || state.marked == 0)
        && (state.defined == 1 || undefined_fits)
        && value_fits
        && remaining_fits(started.then_some(port.reload), state.remaining)
}

fn network_fits(waits: Waits, state: NetworkState) -> bool {
    let most = match state.state {
        network::CHECK => Some(waits.e_ticks),
        network::RECOVER => Some(waits.l1.max(waits.l2)),
        _ => None,
    };
    let counter_fits = match state.state {
        network::CHECK => true,
        network::RECOVER => state.counter >= 1,
        _ => state.counter == 0,
    };
    // heard "may be 1 only in check".
    let heard_fits = state.heard == 0 || state.state == network::CHECK;
    state.zero == 0
        && heard_fits
        && state.asked <= mode::FULL
        && state.state <= network::RECOVER
        && counter_fits
        && remaining_fits(most, state.remaining)
}

fn source_fits(source: Source, state: SourceState) -> bool {
    let pending = state.status == source::PENDING;
    state.zero == 0 && remaining_fits(pending.then_some(source.timeout), state.remaining)
}

/// What counts down has 1 to its most remaining, everything else 0.
fn remaining_fits(most: Option<u32>, remaining: u32) -> bool {
    match most {
        Some(most) => (1..=most).contains(&remaining),
        None => remaining == 0,
    }
}

/// 0 where the state fits; 1 for a bad table; 2 where it does not fit.
pub fn check_state(table: &[u32], state: &[u32]) -> u32 {
    let Ok((table, _)) = accept(table) else {
        return 1;
    };
    match State::of(&table, state) {
        Some(state) if state.fits() => 0,
        _ => 2,
    }
}

/// Makes a fresh state: 0; or 1 for a bad table, 2 for a wrong length, and
/// then nothing is written.
pub fn fresh(table: &[u32], state: &mut [u32]) -> u32 {
    let Ok((table, _)) = accept(table) else {
        return 1;
    };
    let made = fresh_words(&table);
    if made.len() != state.len() {
        return 2;
    }
    state.copy_from_slice(&made);
    0
}

/// A fresh state's words.
pub fn fresh_words(table: &Table) -> Vec<u32> {
    let zeroes = vec![0; state_length(table)];
    let mut made = State { table, words: zeroes };
    for number in 0..table.count(Section::Ports) {
        let port = table.port(number);
        let defined = (port.kind != port::MODE || port.has_initial == 1) as u32;
        made.set_port(number, PortState { defined, value: port.initial, ..Default::default() });
    }
    for number in 0..table.count(Section::Rules) {
        made.set_rule(number, RuleState { last: table.rule(number).first, zero: 0 });
    }
    made.words
}

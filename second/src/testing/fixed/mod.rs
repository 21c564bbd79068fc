//! Fixed cases: each a few words long, its outcome worked out by hand from
//! documents 01 and 02 and named after the sentence or
//! reading it tells apart.
//!
//! Expected words stand in hex, so that no layout is judged by itself:
//! - port state: 80000000 defined, 40000000 marked, value times 00400000, remaining;
//! - rule state: 00000000 false, 40000000 true, 80000000 undefined;
//! - network state: 40000000 asked silent, 80000000 asked full; 08000000 silent,
//!   10000000 check, 18000000 full, 20000000 recover; counter times 00080000; 00040000 heard;
//!   remaining;
//! - source state: 40000000 pending, 80000000 validated, C0000000 expired; remaining.

/// Defines cases and lists them for the runner.
macro_rules! fixed_cases {
    ($($(#[$doc:meta])* fn $name:ident() $body:block)+) => {
        $($(#[$doc])* fn $name() $body)+

        pub const CASES: &[(&str, fn())] = &[$((stringify!($name), $name)),+];
    };
}

mod agreement;
mod arbitration;
mod bound;
mod buslog;
mod buslog_lists;
mod buslog_run;
mod buslog_started;
mod buslog_times;
mod clears;
mod cost;
mod demand3;
mod editions;
mod eights;
mod events;
mod expressions;
mod failing;
mod heard;
mod hold;
mod hold_run;
mod levels;
mod levels_checked;
mod listing;
mod listing_run;
mod listing_started;
mod lists;
mod marked;
mod names;
mod nesting;
mod networks;
mod nothing;
mod owners;
mod panel;
mod panel_refused;
mod panel_run;
mod play;
mod played;
mod program;
mod reached;
mod reading;
mod shape;
mod sources;
mod states;
mod streams;
mod timers;
mod unreached;
mod visited;
mod visits;
mod visits_played;

use super::recorded::{check, check_state, fresh, step};
use crate::cases::draft::Draft;
use crate::words::event::*;
use crate::words::*;

pub fn all() -> Vec<(&'static str, fn())> {
    [
        marked::CASES,
        shape::CASES,
        names::CASES,
        owners::CASES,
        reached::CASES,
        unreached::CASES,
        states::CASES,
        events::CASES,
        sources::CASES,
        networks::CASES,
        heard::CASES,
        timers::CASES,
        arbitration::CASES,
        expressions::CASES,
        levels_checked::CASES,
        levels::CASES,
        lists::CASES,
        clears::CASES,
        editions::CASES,
        failing::CASES,
        eights::CASES,
        visits::CASES,
        visited::CASES,
        bound::CASES,
        play::CASES,
        program::CASES,
        played::CASES,
        visits_played::CASES,
        cost::CASES,
        panel::CASES,
        panel_refused::CASES,
        panel_run::CASES,
        hold::CASES,
        hold_run::CASES,
        listing::CASES,
        reading::CASES,
        listing_run::CASES,
        listing_started::CASES,
        buslog::CASES,
        buslog_times::CASES,
        buslog_lists::CASES,
        buslog_run::CASES,
        buslog_started::CASES,
        streams::CASES,
        demand3::CASES,
        nesting::CASES,
        nothing::CASES,
        agreement::CASES,
    ]
    .concat()
}

/// Those of request Q-4 that any program can run: this one need not be started for them.
pub fn listing_cases() -> Vec<(&'static str, fn())> {
    [listing::CASES, reading::CASES, listing_run::CASES].concat()
}

/// Those of request Q-12 that any program can run.
pub fn buslog_cases() -> Vec<(&'static str, fn())> {
    [buslog::CASES, buslog_times::CASES, buslog_lists::CASES, buslog_run::CASES].concat()
}

/// 255: a rule's missing list.
const NONE: u32 = NO_LIST;

fn mode(owner: u32) -> u32 {
    Port { owner, ..Default::default() }.word()
}

fn initial(owner: u32, initial: u32) -> u32 {
    Port { has_initial: 1, owner, initial, ..Default::default() }.word()
}

fn event(owner: u32) -> u32 {
    Port { kind: port::EVENT, owner, ..Default::default() }.word()
}

fn deferred(port: u32) -> u32 {
    Port { deferred: 1, ..Port::of(port) }.word()
}

fn timer(owner: u32, reload: u32) -> u32 {
    Port { kind: port::TIMER, deferred: 1, owner, reload, ..Default::default() }.word()
}

/// Threshold 2, L1 3, L2 10, E-ticks 5, as in the marked table.
fn network(owner: u32, port: u32) -> [u32; 2] {
    [Network { owner, port, threshold: 2, zero: 0 }.word(), 0x030A_0005]
}

fn source(owner: u32, port: u32, timeout: u32) -> u32 {
    Source { owner, port, timeout, zero: 0 }.word()
}

fn condition(kind: u32, port: u32, value: u32) -> u32 {
    Condition { kind, port, value, zero: 0 }.word()
}

fn equal(port: u32, value: u32) -> u32 {
    condition(expression::EQUAL, port, value)
}

fn set(port: u32) -> u32 {
    condition(expression::SET, port, 0)
}

fn cleared(port: u32) -> u32 {
    condition(expression::CLEARED, port, 0)
}

fn at_or_above(port: u32, value: u32) -> u32 {
    condition(expression::AT_OR_ABOVE, port, value)
}

fn operator(kind: u32, left: u32, right: u32) -> u32 {
    Operator { kind, left, right }.word()
}

fn not(left: u32) -> u32 {
    operator(expression::NOT, left, 0)
}

/// First result false.
fn rule(owner: u32, expression: u32, true_list: u32, false_list: u32) -> u32 {
    Rule { owner, expression, true_list, false_list, ..Default::default() }.word()
}

/// Rules on expression 0 that start so many lists, two each: a list that nothing starts is refused.
fn starting_all(owner: u32, lists: u32) -> Vec<u32> {
    let list = |number: u32| if number < lists { number } else { NONE };
    (0..lists).step_by(2).map(|number| rule(owner, 0, number, list(number + 1))).collect()
}

fn nested_only(rule: u32) -> u32 {
    Rule { nested_only: 1, ..Rule::of(rule) }.word()
}

fn first_result(first: u32, rule: u32) -> u32 {
    Rule { first, ..Rule::of(rule) }.word()
}

/// Conditional, priority 0.
fn list(owner: u32, first: u32, count: u32) -> u32 {
    List { owner, first, count, ..Default::default() }.word()
}

fn triggered(list: u32) -> u32 {
    List { triggered: 1, ..List::of(list) }.word()
}

fn priority(priority: u32, list: u32) -> u32 {
    List { priority, ..List::of(list) }.word()
}

fn call(code: u32) -> u32 {
    Item::call(code).word(edition::ONE)
}

/// An item of kinds 1, 2, 3, 5 and 6.
fn item(kind: u32, a: u32) -> u32 {
    Item::naming(kind, a).word(edition::ONE)
}

fn ask(network: u32, mode: u32) -> u32 {
    Item::asking(network, mode).word(edition::ONE)
}

fn request(owner: u32, index: u32, value: u32) -> u32 {
    Event { kind: event::MODE_REQUEST, owner, index, value, zero: 0 }.word()
}

fn send(kind: u32, owner: u32, index: u32) -> u32 {
    Event { kind, owner, index, value: 0, zero: 0 }.word()
}

fn table(
    ports: &[u32],
    networks: &[[u32; 2]],
    sources: &[u32],
    expressions: &[u32],
    rules: &[u32],
    lists: &[u32],
    items: &[u32],
) -> Vec<u32> {
    let networks = networks.iter().map(|&[first, waits]| (Network::of(first), Waits::of(waits)));
    let draft = Draft {
        edition: edition::ONE,
        ports: ports.iter().copied().map(Port::of).collect(),
        networks: networks.collect(),
        sources: sources.iter().copied().map(Source::of).collect(),
        expressions: expressions.iter().copied().map(Expression::of).collect(),
        rules: rules.iter().copied().map(Rule::of).collect(),
        lists: lists.iter().copied().map(List::of).collect(),
        items: items.iter().map(|&word| Item::of(edition::ONE, word)).collect(),
    };
    draft.words()
}

/// Rules and lists on the ports given, without networks and sources.
fn plain(
    ports: &[u32],
    expressions: &[u32],
    rules: &[u32],
    lists: &[u32],
    items: &[u32],
) -> Vec<u32> {
    table(ports, &[], &[], expressions, rules, lists, items)
}

/// The words with one in another's place.
fn with(words: &[u32], place: usize, word: u32) -> Vec<u32> {
    let mut words = words.to_vec();
    words[place] = word;
    words
}

#[track_caller]
fn refused(table: &[u32], reason: u32, place: usize) {
    let checked = check(table);
    assert_eq!((checked.reason, checked.place, checked.b), (reason, place, 0));
}

#[track_caller]
fn stands(table: &[u32], b: usize) {
    let checked = check(table);
    assert_eq!((checked.reason, checked.place, checked.b), (0, 0, b));
}

/// A table with the state that is passed on from event to event.
struct Play {
    table: Vec<u32>,
    state: Vec<u32>,
}

impl Play {
    #[track_caller]
    fn fresh(table: &[u32]) -> Play {
        let counts = Table::of(table).expect("a header");
        let mut state = vec![0; crate::state::state_length(&counts)];
        assert_eq!(fresh(table, &mut state), 0);
        Play { table: table.to_vec(), state }
    }

    fn of(table: &[u32], state: &[u32]) -> Play {
        Play { table: table.to_vec(), state: state.to_vec() }
    }

    /// Sends an event that is done; gives the trace words that were written.
    #[track_caller]
    fn take(&mut self, event: u32) -> Vec<u32> {
        self.take_with(event, &[])
    }

    /// The same with outcomes lent.
    #[track_caller]
    fn take_with(&mut self, event: u32, outcomes: &[u32]) -> Vec<u32> {
        let mut trace = vec![0x5555_5555; check(&self.table).b];
        let stepped = step(&self.table, &mut self.state, &mut trace, event, outcomes);
        assert_eq!(stepped.answer, 0, "answer to {event:08X}");
        assert!(trace[stepped.count..].iter().all(|&word| word == 0x5555_5555));
        trace.truncate(stepped.count);
        trace
    }

    /// Sends an event that is done; gives the expression words that were visited.
    #[track_caller]
    fn visits(&mut self, event: u32) -> u64 {
        self.visits_with(event, &[])
    }

    /// The same with outcomes lent.
    #[track_caller]
    fn visits_with(&mut self, event: u32, outcomes: &[u32]) -> u64 {
        let mut trace = vec![0x5555_5555; check(&self.table).b];
        let stepped = step(&self.table, &mut self.state, &mut trace, event, outcomes);
        assert_eq!(stepped.answer, 0, "answer to {event:08X}");
        stepped.visits
    }

    /// Sends an event that is refused and changes nothing; gives the answer.
    #[track_caller]
    fn answer(&mut self, event: u32) -> u32 {
        self.answer_with(event, &[])
    }

    /// The same with outcomes lent.
    #[track_caller]
    fn answer_with(&mut self, event: u32, outcomes: &[u32]) -> u32 {
        let mut trace = vec![0x5555_5555; check(&self.table).b];
        let before = (self.state.clone(), trace.clone());
        let stepped = step(&self.table, &mut self.state, &mut trace, event, outcomes);
        assert_eq!((stepped.count, stepped.visits), (0, 0));
        assert_eq!((self.state.clone(), trace), before);
        stepped.answer
    }

    /// Ticks that write no trace.
    #[track_caller]
    fn ticks(&mut self, count: usize) {
        for _ in 0..count {
            assert_eq!(self.take(TICK), [0; 0]);
        }
    }
}

//! Arbitration, and running lists.

use std::cmp::Reverse;

use crate::check::Accepted;
use crate::expressions::{evaluate, mentions, visits};
use crate::state::State;
use crate::words::*;

/// An event being taken: the state as it changes, the trace as it grows, the outcomes that are
/// still to be read, and the expression words visited so far.
pub struct Run<'a> {
    pub table: &'a Accepted<'a>,
    pub state: State<'a>,
    pub trace: Vec<u32>,
    pub outcomes: &'a [u32],
    pub visits: u64,
}

impl Run<'_> {
    pub fn arbitrate(&mut self, arbitrated: &[usize]) {
        for &number in arbitrated {
            let port = self.state.port(number);
            self.state.set_port(number, PortState { marked: 0, ..port });
        }
        // Every rule is evaluated before any list runs.
        let mut chosen: Vec<usize> = vec![];
        for number in 0..self.table.count(Section::Rules) {
            let rule = self.table.rule(number);
            let concerned = rule.nested_only == 0
                && mentions(self.table, rule.expression as usize, &|p| arbitrated.contains(&p));
            if concerned && let Some(result) = self.result(rule) {
                chosen.extend(self.store(number, result));
            }
        }
        chosen.sort_by_key(|&list| (Reverse(self.table.list(list).priority), list));
        chosen.dedup();
        chosen.into_iter().for_each(|list| self.run_list(list));
    }

    /// What a rule gives by the current values; None where it mentions an undefined port. Only
    /// evaluations visit words, each time again: the tests for ports that are mentioned do not.
    fn result(&mut self, rule: Rule) -> Option<bool> {
        let expression = rule.expression as usize;
        let undefined = |port: usize| self.state.port(port).defined == 0;
        if mentions(self.table, expression, &undefined) {
            return None;
        }
        let value = |port: usize| self.state.port(port).value;
        let (visited, result) =
            (visits(self.table, expression, &value), evaluate(self.table, expression, &value));
        self.visits += visited;
        Some(result)
    }

    /// Stores a rule's result and gives the list it starts: the one for that
    /// result, if it is conditional or the result is not the previous one.
    fn store(&mut self, number: usize, result: bool) -> Option<usize> {
        let previous = self.state.rule(number).last;
        let last = result as u32;
        self.state.set_rule(number, RuleState { last, zero: 0 });
        let list = self.table.rule(number).list_for(result)?;
        let starts = self.table.list(list).triggered == 0 || previous != last;
        starts.then_some(list)
    }

    /// Lists run within lists no deeper than the table nests, which the check has seen to.
    fn run_list(&mut self, number: usize) {
        let list = self.table.list(number);
        self.write(LIST_START, list.owner, number as u32, 0);
        for item in list.items() {
            let item = self.table.item(item);
            self.run_item(item, list.owner);
            // Q-9: "A failed call with abort stops the list that holds it, after its trace word;
            // an outer list goes on."
            if item.kind == item::OUTSIDE_CALL && self.call_failed() && item.abort == 1 {
                break;
            }
        }
    }

    /// Whether the outside call that has just run failed. Every call of edition 2 reads the next
    /// outcome, abort or not; "past their end every call is good". Edition 1 reads none.
    fn call_failed(&mut self) -> bool {
        if self.table.edition == edition::ONE {
            return false;
        }
        let Some((&next, rest)) = self.outcomes.split_first() else {
            return false;
        };
        self.outcomes = rest;
        next == outcome::FAILED
    }

    fn run_item(&mut self, item: Item, owner: u32) {
        let named = item.a as usize;
        match item.kind {
            item::LIST => return self.run_list(named),
            item::RULE => return self.run_rule(named, owner),
            // Q-2: "From now on a clear marks the port, deferred or immediate, even if
            // it was clear already, for the next tick unless arbitrated sooner."
            item::CLEAR_EVENT => {
                let port = self.state.port(named);
                self.state.set_port(named, PortState { marked: 1, value: 0, ..port });
            }
            item::START_TIMER => {
                self.turn_timer(named, timer::STARTED, self.table.port(named).reload)
            }
            item::STOP_TIMER => self.turn_timer(named, timer::STOPPED, 0),
            item::NETWORK_REQUEST => {
                let network = self.state.network(named);
                self.state.set_network(named, NetworkState { asked: item.b, ..network });
            }
            _ => {}
        }
        self.write(item.kind, owner, item.a, item.b);
    }

    fn run_rule(&mut self, number: usize, owner: u32) {
        let result = self.result(self.table.rule(number));
        let shown = result.map_or(UNDEFINED, |result| result as u32);
        self.write(item::RULE, owner, number as u32, shown);
        if let Some(list) = result.and_then(|result| self.store(number, result)) {
            self.run_list(list);
        }
    }

    /// A timer is marked whenever it is started, stopped or expires.
    pub fn turn_timer(&mut self, number: usize, value: u32, remaining: u32) {
        let turned = PortState { defined: 1, marked: 1, value, zero: 0, remaining };
        self.state.set_port(number, turned);
    }

    fn write(&mut self, kind: u32, owner: u32, a: u32, b: u32) {
        self.trace.push(TraceWord { kind, owner, a, b }.word());
    }
}

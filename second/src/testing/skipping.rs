//! Expressions read as a program reads them that skips the right side of an
//! AND, OR or NAND once the left side settles it: what it passes over, and that
//! it gives the same.

use super::coverage::{EVALUATED_BY_SKIPPED, Met, Row, UNREADY_BY_SKIPPED};
use super::log::{Entry, hold};
use super::ports::{Ports, arbitrated, undefined, written};
use super::traces::{evaluated, rule_items};
use crate::cases::draft::Draft;
use crate::words::*;

/// What an expression gives where the ports are as in a state.
pub fn gives(draft: &Draft, state: &[u32], expression: u32) -> bool {
    Reading::of(draft, state, expression as usize).0
}

/// What reading an expression was like, where the ports are as in a state.
pub struct Read {
    pub gives: bool,
    /// How many words it visited.
    pub visits: u64,
    /// The operators whose skipped side had operators.
    pub skipped: Vec<u32>,
    /// Whether it visited an expression twice.
    pub shared: bool,
    /// How many levels down it came.
    pub depth: u32,
}

pub fn read(draft: &Draft, state: &[u32], expression: u32) -> Read {
    let (gives, reading) = Reading::of(draft, state, expression as usize);
    let Reading { visits, skipped, mut met, depth, .. } = reading;
    met.sort();
    let shared = met.windows(2).any(|two| two[0] == two[1]);
    Read { gives, visits, skipped, shared, depth }
}

/// One reading of an expression where the ports are as in a state.
struct Reading<'a> {
    draft: &'a Draft,
    state: &'a [u32],
    /// The ports it read.
    read: Ports,
    /// How its operators of the three kinds were settled.
    rows: Vec<Row>,
    /// How many words it came to, each time again, and which.
    visits: u64,
    met: Vec<u32>,
    /// The operators whose skipped side has operators.
    skipped: Vec<u32>,
    /// How deep it stands now, and how deep it came.
    level: u32,
    depth: u32,
}

impl<'a> Reading<'a> {
    fn of(draft: &'a Draft, state: &'a [u32], expression: usize) -> (bool, Self) {
        let mut reading = Reading {
            draft,
            state,
            read: 0,
            rows: vec![],
            visits: 0,
            met: vec![],
            skipped: vec![],
            level: 0,
            depth: 0,
        };
        let gives = reading.gives(expression as u32);
        (gives, reading)
    }

    fn gives(&mut self, number: u32) -> bool {
        self.visits += 1;
        self.met.push(number);
        self.level += 1;
        self.depth = self.depth.max(self.level);
        let gives = self.comes_to(number);
        self.level -= 1;
        gives
    }

    fn comes_to(&mut self, number: u32) -> bool {
        match self.draft.expressions[number as usize] {
            Expression::Condition(condition) => self.holds(condition),
            Expression::Operator(operator) => {
                let left = self.gives(operator.left);
                match operator.kind {
                    expression::NOT => !left,
                    expression::XOR => left ^ self.gives(operator.right),
                    _ => self.decides(operator, left) ^ (operator.kind == expression::NAND),
                }
            }
        }
    }

    fn holds(&mut self, condition: Condition) -> bool {
        let port = condition.port as usize;
        self.read |= 1 << port;
        let value = PortState::of(self.state[port]).value;
        match condition.kind {
            expression::EQUAL => value == condition.value,
            expression::NOT_EQUAL => value != condition.value,
            expression::SET => value == 1,
            expression::CLEARED => value == 0,
            // Another way than the judge's.
            _ => (condition.value..=255).any(|level| value == level),
        }
    }

    /// The side that decides an AND, an OR, or the AND in a NAND.
    fn decides(&mut self, operator: Operator, left: bool) -> bool {
        if left != (operator.kind == expression::OR) {
            self.rows.push(Row::NotSettled(operator.kind));
            return self.gives(operator.right);
        }
        if let Expression::Operator(_) = self.draft.expressions[operator.right as usize] {
            self.skipped.push(operator.kind);
        }
        // Counted only where the right side would have turned the result.
        let (right, _) = Reading::of(self.draft, self.state, operator.right as usize);
        if right != left {
            self.rows.push(Row::Settled(operator.kind));
        }
        left
    }
}

/// An accepted table with the ports that each rule mentions, skipped or not.
pub struct Skipping<'a> {
    pub draft: &'a Draft,
    pub mentions: &'a [Ports],
}

impl<'a> Skipping<'a> {
    pub fn meet(&self, entry: &Entry, met: &mut Met) -> Result<(), String> {
        // Where no list wrote a port, it has the value that was read.
        let written = written(entry);
        for rule in evaluated(self.draft, entry) {
            if self.mentions[rule] & written == 0 {
                self.meet_evaluated(entry, rule, met)?;
            }
        }
        if !met.contains(&Row::Special(UNREADY_BY_SKIPPED)) {
            let found = (0..self.mentions.len())
                .any(|rule| self.mentions[rule] & written == 0 && self.unready(entry, rule));
            met.extend(found.then_some(Row::Special(UNREADY_BY_SKIPPED)));
        }
        Ok(())
    }

    fn reading(&self, entry: &'a Entry, rule: usize) -> (bool, Reading<'a>) {
        Reading::of(self.draft, &entry.after, self.draft.rules[rule].expression as usize)
    }

    /// The rule was certainly evaluated.
    fn meet_evaluated(&self, entry: &Entry, rule: usize, met: &mut Met) -> Result<(), String> {
        let (gives, reading) = self.reading(entry, rule);
        let stored = RuleState::of(entry.after[self.draft.ports.len() + rule]).last;
        hold(stored == gives as u32, || {
            format!("rule {rule} has {stored} where skipping gives {gives}")
        })?;
        let by_item = rule_items(entry).any(|word| word.a as usize == rule);
        if !by_item && reading.read & arbitrated(self.draft, entry) == 0 {
            met.insert(Row::Special(EVALUATED_BY_SKIPPED));
        }
        met.extend(reading.rows);
        Ok(())
    }

    /// The rule's turn came, but a port is undefined, and only such ports are
    /// as are passed over.
    fn unready(&self, entry: &Entry, rule: usize) -> bool {
        let undefined = undefined(self.draft, entry);
        let due = self.draft.rules[rule].nested_only == 0
            && self.mentions[rule] & arbitrated(self.draft, entry) != 0;
        let named = || rule_items(entry).any(|word| word.a as usize == rule);
        self.mentions[rule] & undefined != 0
            && (due || named())
            && self.reading(entry, rule).1.read & undefined == 0
    }
}

//! Rules on mode ports being at or above levels, several on one port, with
//! requests that take the ports up and down past them.

use super::draft::{Draft, conditions_on};
use super::numbers::renumbered;
use super::prng::Prng;
use super::sequences::strewn;
use crate::words::*;

/// Networks' and sources' ports show 0 to 3.
const SHOWN: u32 = 2;

struct Leveler<'a> {
    rng: &'a mut Prng,
    draft: Draft,
    owner: u32,
    /// Mode ports that requests move, each with a level that it stays near. The
    /// last is undefined until its first request.
    moved: Vec<(usize, u32)>,
    /// The other mode ports that the owner's rules may mention.
    others: Vec<usize>,
}

/// The good table, which may be empty, with rules on levels besides, and events
/// for them with the answers that table and event alone give.
pub fn leveling(rng: &mut Prng, good: Draft) -> (Draft, Vec<(u32, u32)>) {
    let owner = good.some_owner(rng);
    let legal = |port: &Port| port.kind == port::MODE && [owner, PLATFORM].contains(&port.owner);
    let others = (0..good.ports.len()).filter(|&port| legal(&good.ports[port])).collect();
    let mut leveler = Leveler { rng, draft: good, owner, moved: vec![], others };
    leveler.add_ports();
    leveler.add_rules();
    let events = leveler.sent();
    let Leveler { rng, draft, .. } = leveler;
    let events = strewn(rng, &draft, &events);
    (renumbered(rng, draft), events)
}

/// Mostly the level, or just above or below it.
fn near(rng: &mut Prng, level: u32) -> u32 {
    let below = level.saturating_sub(1);
    let above = (level + 1).min(255);
    rng.pick(&[level, level, level, below, below, above, above, 0, 255])
}

impl Leveler<'_> {
    fn add_ports(&mut self) {
        let count = 2 + self.rng.below(3);
        for made in 1..=count {
            let owner = if self.rng.chance(70) { self.owner } else { PLATFORM };
            let level = self.rng.pick(&[0, 1, 5, 5, 9, 127, 128, 200, 254, 255]);
            let deferred = self.rng.chance(35) as u32;
            let blank = Port { owner, deferred, ..Default::default() };
            let port = if made < count && self.rng.chance(50) {
                Port { has_initial: 1, initial: near(self.rng, level), ..blank }
            } else {
                blank
            };
            self.moved.push((self.draft.ports.len(), level));
            self.draft.ports.push(port);
        }
    }

    /// Rules on levels, and one more, on a level too, that starts them by rule items.
    fn add_rules(&mut self) {
        let mut items = vec![];
        for _ in 0..3 + self.rng.below(4) {
            let depth = self.rng.within(1, 4);
            let nested_only = self.rng.chance(30) as u32;
            let rule = self.rule(depth, nested_only);
            let number = self.draft.add_rule(rule);
            if nested_only == 1 || self.rng.chance(25) {
                items.push(Item::naming(item::RULE, number));
            }
        }
        if items.is_empty() {
            return;
        }
        let rule = self.rule(1, 0);
        // The starting list takes the place of the rule's own, and starts that too.
        if rule.true_list != NO_LIST {
            items.push(Item::naming(item::LIST, rule.true_list));
        }
        let starting = self.draft.add_list(self.rng, self.owner, false, &items);
        self.draft.add_rule(Rule { true_list: starting, ..rule });
    }

    fn rule(&mut self, depth: u32, nested_only: u32) -> Rule {
        Rule {
            owner: self.owner,
            first: self.rng.within(0, UNDEFINED),
            nested_only,
            expression: self.expression(depth),
            true_list: self.own_list(),
            false_list: self.own_list(),
        }
    }

    fn own_list(&mut self) -> u32 {
        if self.rng.chance(15) {
            return NO_LIST;
        }
        let (b, triggered) = (self.rng.within(0, 65535), self.rng.chance(50));
        let call = Item::call(b);
        self.draft.add_list(self.rng, self.owner, triggered, &[call])
    }

    fn expression(&mut self, depth: u32) -> u32 {
        if depth == 1 || self.rng.chance(15) {
            return self.condition();
        }
        let kind = self.rng.within(expression::AND, expression::NOT);
        let left = self.expression(depth - 1);
        let right = if kind == expression::NOT { 0 } else { self.expression(depth - 1) };
        self.draft.add_expression(Expression::Operator(Operator { kind, left, right }))
    }

    /// Mostly at or above.
    fn condition(&mut self) -> u32 {
        let (port, level) = match self.rng.pick_any(&self.others) {
            Some(other) if self.rng.chance(10) => (other, SHOWN),
            _ => self.rng.pick(&self.moved),
        };
        let any = self.rng.pick(conditions_on(&self.draft.ports[port]));
        let kind = if self.rng.chance(70) { expression::AT_OR_ABOVE } else { any };
        let (port, value) = (port as u32, near(self.rng, level));
        self.draft.add_expression(Expression::Condition(Condition { kind, port, value, zero: 0 }))
    }

    fn sent(&mut self) -> Vec<Event> {
        let length = 12 + self.rng.below(20);
        let shown_from = self.rng.below(length);
        let mut values: Vec<u32> = self.moved.iter().map(|&(_, level)| level).collect();
        (0..length).map(|step| self.send(step >= shown_from, &mut values)).collect()
    }

    /// A tick, or a request that mostly takes its port one up or one down.
    fn send(&mut self, all_shown: bool, values: &mut [u32]) -> Event {
        if self.rng.chance(30) {
            return Event::default();
        }
        let at = self.rng.below(self.moved.len() - !all_shown as usize);
        let (port, level) = self.moved[at];
        values[at] = match self.rng.weighed(&[4, 4, 3, 1]) {
            0 => (values[at] + 1).min(255),
            1 => values[at].saturating_sub(1),
            2 => near(self.rng, level),
            _ => self.rng.within(0, 255),
        };
        let (kind, owner) = (event::MODE_REQUEST, self.draft.ports[port].owner);
        Event { kind, owner, index: port as u32, value: values[at], zero: 0 }
    }
}

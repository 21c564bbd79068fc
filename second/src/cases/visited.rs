//! Wide expressions that share their sides, which settle and do not, in rules and rule items, with
//! lists between that change what they read: request Q-10 counts the words that each evaluation
//! visits. At times as many as there can be, so that events come near the bound.

use super::draft::{Draft, SEVEN};
use super::numbers::renumbered;
use super::prng::Prng;
use super::sequences::strewn;
use crate::words::*;

/// Requests and conditions have values below this one, so that they often meet.
const VALUES: u32 = 3;

struct Visitor<'a> {
    rng: &'a mut Prng,
    draft: Draft,
    owner: u32,
    /// An immediate mode port that nearly every expression mentions.
    go: u32,
    /// Mode ports that requests turn; the last is undefined at first.
    modes: Vec<u32>,
    event: u32,
    timer: u32,
    /// Expressions by their depth, conditions first.
    levels: Vec<Vec<u32>>,
}

/// The good table, which may be empty, with such rules and lists besides, and events for them with
/// the answers that table and event alone give.
pub fn visiting(rng: &mut Prng, good: Draft) -> (Draft, Vec<(u32, u32)>) {
    let (owner, go) = (good.some_owner(rng), good.ports.len() as u32);
    let (modes, levels) = (vec![go], vec![]);
    let mut visitor = Visitor { rng, draft: good, owner, go, modes, event: go, timer: go, levels };
    visitor.add_ports();
    match visitor.rng.weighed(&[6, 3, 1]) {
        0 => visitor.add_varied(),
        1 => visitor.add_whole(true),
        _ => visitor.add_whole(false),
    }
    visitor.start_unreached();
    let events = visitor.sent();
    let Visitor { rng, draft, .. } = visitor;
    let events = strewn(rng, &draft, &events);
    (renumbered(rng, draft), events)
}

impl Visitor<'_> {
    fn add_ports(&mut self) {
        let blank = Port { owner: self.owner, ..Default::default() };
        let initial = Port { has_initial: 1, ..blank };
        let deferred = self.rng.chance(30) as u32;
        let first = self.go;
        self.draft.ports.extend([
            initial,
            Port { initial: self.rng.within(0, VALUES - 1), deferred, ..initial },
            blank,
            Port { kind: port::EVENT, deferred: self.rng.chance(50) as u32, ..blank },
            Port { kind: port::TIMER, deferred: 1, reload: self.rng.within(1, 3), ..blank },
        ]);
        self.modes = vec![first, first + 1, first + 2];
        (self.event, self.timer) = (first + 3, first + 4);
    }

    fn condition(&mut self, port: u32) -> u32 {
        let (kind, value) = match self.draft.ports[port as usize].kind {
            port::EVENT => (self.rng.pick(&[expression::SET, expression::CLEARED]), 0),
            port::TIMER => (self.rng.pick(&[expression::EQUAL, expression::NOT_EQUAL]), 1),
            _ => {
                let kinds = [expression::EQUAL, expression::NOT_EQUAL, expression::AT_OR_ABOVE];
                (self.rng.pick(&kinds), self.rng.below(VALUES as usize) as u32)
            }
        };
        self.draft.add_expression(Expression::Condition(Condition { kind, port, value, zero: 0 }))
    }

    fn operator(&mut self, kind: u32, left: u32, right: u32) -> u32 {
        let right = if kind == expression::NOT { 0 } else { right };
        self.draft.add_expression(Expression::Operator(Operator { kind, left, right }))
    }

    /// Conditions on the ports, and above them up to six levels of two or three operators, whose
    /// sides are mostly of the level below and often the same.
    fn weave(&mut self) {
        let mut ports = vec![self.go, self.go, self.modes[1], self.event, self.timer];
        if self.rng.chance(25) {
            ports.push(self.modes[2]);
        }
        self.levels = vec![ports.into_iter().map(|port| self.condition(port)).collect()];
        for _ in 1..self.rng.within(3, SEVEN) {
            let operators = (0..2 + self.rng.below(2)).map(|_| self.any_operator()).collect();
            self.levels.push(operators);
        }
    }

    fn any_operator(&mut self) -> u32 {
        use expression::*;
        let kind = self.rng.pick(&[AND, AND, OR, OR, NAND, NAND, XOR, XOR, NOT]);
        let (left, right) = (self.lower(), self.lower());
        self.operator(kind, left, right)
    }

    /// Mostly one of the highest level there is so far.
    fn lower(&mut self) -> u32 {
        let highest = self.levels.len() - 1;
        let level = if self.rng.chance(75) { highest } else { self.rng.below(highest + 1) };
        self.rng.pick(&self.levels[level])
    }

    /// A rule on an expression of any size, mostly a wide one.
    fn rule(&mut self, nested_only: u32, true_list: u32, false_list: u32) -> u32 {
        let (owner, expression) = (self.owner, self.lower());
        let first = self.rng.within(0, UNDEFINED);
        self.draft.add_rule(Rule { owner, first, nested_only, expression, true_list, false_list })
    }

    /// Rules without lists; lists of rule items on them; lists that hold such lists, by name and by
    /// rule items; and rules that start some of all.
    fn add_varied(&mut self) {
        self.weave();
        let mut rules: Vec<u32> = vec![];
        for _ in 0..2 + self.rng.below(3) {
            let nested_only = self.rng.chance(40) as u32;
            rules.push(self.rule(nested_only, NO_LIST, NO_LIST));
        }
        let mut lists: Vec<u32> = (0..2).map(|_| self.add_list(&rules, &[])).collect();
        for _ in 0..1 + self.rng.below(2) {
            let nested_only = self.rng.chance(60) as u32;
            let (yes, no) = (self.rng.pick(&lists), self.rng.pick(&lists));
            rules.push(self.rule(nested_only, yes, no));
        }
        for _ in 0..1 + self.rng.below(2) {
            let outer = self.add_list(&rules, &lists);
            lists.push(outer);
        }
        let (yes, no) = (self.rng.pick(&lists), self.rng.pick(&lists));
        self.rule(0, yes, no);
    }

    /// A list of up to five items, at times one of them twice.
    fn add_list(&mut self, rules: &[u32], lists: &[u32]) -> u32 {
        let count = 1 + self.rng.below(4);
        let mut items: Vec<Item> = (0..count).map(|_| self.item(rules, lists)).collect();
        if self.rng.chance(40) {
            items.push(items[0]);
        }
        let triggered = self.rng.chance(20);
        self.draft.add_list(self.rng, self.owner, triggered, &items)
    }

    fn item(&mut self, rules: &[u32], lists: &[u32]) -> Item {
        let rule = Item::naming(item::RULE, self.rng.pick(rules));
        match self.rng.weighed(&[10, 4, 3, 2, 2, 4]) {
            0 => rule,
            1 => {
                let aborts = self.draft.edition == edition::TWO && self.rng.chance(60);
                Item { abort: aborts as u32, ..Item::call(self.rng.within(0, 65535)) }
            }
            2 => Item::naming(item::CLEAR_EVENT, self.event),
            3 => Item::naming(item::START_TIMER, self.timer),
            4 => Item::naming(item::STOP_TIMER, self.timer),
            _ => self.rng.pick_any(lists).map_or(rule, |list| Item::naming(item::LIST, list)),
        }
    }

    /// Whole trees of up to seven levels that nothing settles, or only in a few scenes, in rules
    /// that are all evaluated; and lists of rule items alone, or none: near the bound.
    fn add_whole(&mut self, with_lists: bool) {
        let kind = self.rng.pick(&[expression::XOR, expression::XOR, expression::AND]);
        let mut top = self.condition(self.go);
        let levels = self.rng.pick(&[SEVEN - 1, SEVEN, SEVEN, SEVEN]);
        for _ in 1..levels {
            top = self.operator(kind, top, top);
        }
        let count = 1 + self.rng.below(4);
        self.levels = vec![vec![top]];
        let rules: Vec<u32> = (0..count).map(|_| self.rule(0, NO_LIST, NO_LIST)).collect();
        for _ in 0..if with_lists { 1 + self.rng.below(2) } else { 0 } {
            let length = 8 + self.rng.below(24);
            let named = (0..length).map(|_| Item::naming(item::RULE, self.rng.pick(&rules)));
            let items: Vec<Item> = named.collect();
            let list = self.draft.add_list(self.rng, self.owner, false, &items);
            self.rule(0, list, list);
        }
    }

    /// Every list has a rule or a list that starts it.
    fn start_unreached(&mut self) {
        while let Some(&list) = self.draft.unreached().first() {
            self.rule(0, list as u32, NO_LIST);
        }
    }

    fn sent(&mut self) -> Vec<Event> {
        let length = 6 + self.rng.below(10);
        (0..length).map(|_| self.send()).collect()
    }

    fn send(&mut self) -> Event {
        let value = self.rng.below(VALUES as usize) as u32;
        let (kind, index, value) = match self.rng.weighed(&[4, 6, 3, 2]) {
            0 => return Event::default(),
            1 => (event::MODE_REQUEST, self.go, value),
            2 => (event::MODE_REQUEST, self.rng.pick(&self.modes), value),
            _ => (event::EVENT_REQUEST, self.event, 0),
        };
        Event { kind, owner: self.owner, index, value, zero: 0 }
    }
}

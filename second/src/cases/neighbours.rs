//! The platform and operators side by side, each with things of every kind and with lists on its
//! own ports and on the platform's, so that one tick or one request of the platform's runs lists of
//! all of them, and what a stranger's lists do there depends on what it was sent before.

use super::draft::Draft;
use super::numbers::renumbered;
use super::prng::Prng;
use crate::words::*;

/// Requests of 1 up to this are compared with.
const VALUES: u32 = 3;
/// How deep lists are named one in another.
const LEVELS_DOWN: usize = 3;

/// One owner's things, by their ports and numbers.
#[derive(Clone, Copy)]
struct Things {
    owner: u32,
    /// An open mode port.
    ask: u32,
    event: u32,
    timer: u32,
    network: u32,
    /// The ports of its network and its source.
    shows: [u32; 2],
}

struct Settler<'a> {
    rng: &'a mut Prng,
    draft: Draft,
    /// The platform's first.
    all: Vec<Things>,
}

/// The good table, which may be empty, with neighbours besides.
pub fn neighbours(rng: &mut Prng, good: Draft) -> Draft {
    let mut operators: Vec<u32> = (1..16).collect();
    rng.shuffle(&mut operators);
    let number = 2 + rng.below(2);
    let mut settler = Settler { rng, draft: good, all: vec![] };
    settler.add_things(PLATFORM);
    operators[..number].iter().for_each(|&operator| settler.add_things(operator));
    for whose in 0..settler.all.len() {
        settler.add_waking(whose);
        for _ in 0..2 + settler.rng.below(4) {
            settler.add_row(whose);
        }
    }
    let Settler { rng, draft, .. } = settler;
    renumbered(rng, draft)
}

impl Settler<'_> {
    fn add_things(&mut self, owner: u32) {
        let (first, network) = (self.draft.ports.len() as u32, self.draft.networks.len() as u32);
        let blank = Port { owner, ..Default::default() };
        let either = [self.rng.chance(40) as u32, self.rng.chance(50) as u32];
        let shown = Port { deferred: 1, ..blank };
        self.draft.ports.extend([
            Port { deferred: either[0], ..blank },
            Port { kind: port::EVENT, deferred: either[1], ..blank },
            Port { kind: port::TIMER, deferred: 1, reload: self.rng.within(1, 4), ..blank },
            shown,
            shown,
        ]);
        let threshold = self.rng.within(0, 2);
        let waits = Waits {
            l1: self.rng.within(1, 3),
            l2: self.rng.within(1, 4),
            e_ticks: self.rng.within(1, 4),
        };
        self.draft.networks.push((Network { owner, port: first + 3, threshold, zero: 0 }, waits));
        let timeout = self.rng.pick(&[0, 1, 2, 3, 4, 4]);
        self.draft.sources.push(Source { owner, port: first + 4, timeout, zero: 0 });
        let shows = [first + 3, first + 4];
        let (event, timer) = (first + 1, first + 2);
        self.all.push(Things { owner, ask: first, event, timer, network, shows });
    }

    /// A request that has the owner's network asked for full and its timer started.
    fn add_waking(&mut self, whose: usize) {
        let Things { owner, ask, timer, network, .. } = self.all[whose];
        let mut items =
            vec![Item::asking(network, mode::FULL), Item::naming(item::START_TIMER, timer)];
        if self.rng.chance(50) {
            items.insert(0, self.call());
        }
        let list = self.draft.add_list(self.rng, owner, false, &items);
        let expression = self.condition(expression::EQUAL, ask, 1);
        self.add_rule(Rule { owner, expression, true_list: list, false_list: NO_LIST, ..blank() });
    }

    /// A rule with one or two lists, each with lists in it.
    fn add_row(&mut self, whose: usize) {
        let owner = self.all[whose].owner;
        let expression = self.expression(whose);
        let list = self.add_list(whose, LEVELS_DOWN);
        let other = if self.rng.chance(50) { self.add_list(whose, 1) } else { NO_LIST };
        let mut lists = [list, other];
        self.rng.shuffle(&mut lists);
        let [true_list, false_list] = lists;
        self.add_rule(Rule { owner, expression, true_list, false_list, ..blank() });
    }

    fn add_rule(&mut self, rule: Rule) -> u32 {
        let first = self.rng.within(0, UNDEFINED);
        self.draft.add_rule(Rule { first, ..rule })
    }

    fn add_list(&mut self, whose: usize, levels: usize) -> u32 {
        let mut items: Vec<Item> = (0..1 + self.rng.below(3)).map(|_| self.leaf(whose)).collect();
        if levels > 1 && self.rng.chance(45) {
            let inner = self.add_list(whose, levels - 1);
            let naming = self.naming(whose, inner);
            items.insert(self.rng.below(items.len() + 1), naming);
        }
        let triggered = self.rng.chance(35);
        self.draft.add_list(self.rng, self.all[whose].owner, triggered, &items)
    }

    /// An item that runs the list: by name, or by a rule item that may turn either way.
    fn naming(&mut self, whose: usize, list: u32) -> Item {
        if self.rng.chance(50) {
            return Item::naming(item::LIST, list);
        }
        let (true_list, false_list) =
            self.rng.pick(&[(list, list), (list, NO_LIST), (NO_LIST, list)]);
        let (owner, expression) = (self.all[whose].owner, self.expression(whose));
        let rule = Rule { owner, nested_only: 1, expression, true_list, false_list, ..blank() };
        Item::naming(item::RULE, self.add_rule(rule))
    }

    /// The platform's lists may name anybody's things.
    fn leaf(&mut self, whose: usize) -> Item {
        let platforms = self.all[whose].owner == PLATFORM;
        let anybody = self.rng.below(self.all.len());
        let named = if platforms && self.rng.chance(50) { anybody } else { whose };
        let Things { event, timer, network, .. } = self.all[named];
        match self.rng.weighed(&[8, 2, 3, 1, 3]) {
            0 => self.call(),
            1 => Item::naming(item::CLEAR_EVENT, event),
            2 => Item::naming(item::START_TIMER, timer),
            3 => Item::naming(item::STOP_TIMER, timer),
            _ => {
                let mode = self.rng.pick(&[mode::NONE, mode::SILENT, mode::FULL, mode::FULL]);
                Item::asking(network, mode)
            }
        }
    }

    fn call(&mut self) -> Item {
        let abort = (self.draft.edition == edition::TWO && self.rng.chance(60)) as u32;
        Item { abort, ..Item::call(self.rng.within(0, 65535)) }
    }

    /// On a port of the owner's or the platform's, often on one of each.
    fn expression(&mut self, whose: usize) -> u32 {
        let own = self.on(whose);
        if self.rng.chance(50) {
            return own;
        }
        let other = self.on(0);
        let kind = self.rng.within(expression::AND, expression::NAND);
        let [left, right] = if self.rng.chance(50) { [own, other] } else { [other, own] };
        self.draft.add_expression(Expression::Operator(Operator { kind, left, right }))
    }

    fn on(&mut self, whose: usize) -> u32 {
        let Things { ask, event, timer, shows, .. } = self.all[whose];
        let value = self.rng.within(1, VALUES);
        let either = [expression::EQUAL, expression::NOT_EQUAL];
        // Requests of the platform's events reach everybody.
        let events = if whose == 0 { 5 } else { 2 };
        match self.rng.weighed(&[6, events, 2, 2, 2]) {
            0 => {
                let kind = self.rng.pick(&[expression::EQUAL, expression::AT_OR_ABOVE]);
                self.condition(kind, ask, value)
            }
            1 => {
                let kind = self.rng.pick(&[expression::SET, expression::CLEARED]);
                self.condition(kind, event, 0)
            }
            2 => {
                let (kind, value) = (self.rng.pick(&either), self.rng.within(0, timer::EXPIRED));
                self.condition(kind, timer, value)
            }
            port => {
                let kind = self.rng.pick(&either);
                self.condition(kind, shows[port - 3], value)
            }
        }
    }

    fn condition(&mut self, kind: u32, port: u32, value: u32) -> u32 {
        let condition = Condition { kind, port, value, zero: 0 };
        self.draft.add_expression(Expression::Condition(condition))
    }
}

fn blank() -> Rule {
    Rule::default()
}

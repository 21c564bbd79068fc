//! Lists of outside calls that fail, one list in another, by name and by rule items, each with
//! things to be done before and after its calls; and requests that start several such rows of
//! lists at once, the platform's and an operator's.

use super::draft::{Draft, SEVEN};
use super::numbers::renumbered;
use super::prng::Prng;
use super::sequences::strewn;
use crate::words::*;

/// Requests of 1 up to this start rows of lists.
const STARTED: u32 = 3;

/// What one owner's lists may name.
struct Things {
    owner: u32,
    event: u32,
    timer: u32,
    network: u32,
}

struct Failer<'a> {
    rng: &'a mut Prng,
    draft: Draft,
    /// The platform's mode port whose requests start the rows: everyone's rules may mention it.
    go: u32,
    owners: Vec<Things>,
}

/// The good table, which may be empty, with rows of lists besides, and events for them with the
/// answers that table and event alone give.
pub fn failing(rng: &mut Prng, good: Draft) -> (Draft, Vec<(u32, u32)>) {
    let (go, operator) = (good.ports.len() as u32, rng.within(1, 15));
    let mut failer = Failer { rng, draft: good, go, owners: vec![] };
    let deferred = failer.rng.chance(25) as u32;
    failer.draft.ports.push(Port { deferred, owner: PLATFORM, ..Default::default() });
    failer.add_things(PLATFORM);
    failer.add_things(operator);
    for _ in 0..2 + failer.rng.below(3) {
        let levels = failer.levels();
        failer.add_row(levels);
    }
    let events = failer.sent();
    let Failer { rng, draft, .. } = failer;
    let events = strewn(rng, &draft, &events);
    (renumbered(rng, draft), events)
}

impl Failer<'_> {
    /// A row of seven is as likely as one of a few.
    fn levels(&mut self) -> u32 {
        let any = self.rng.within(1, SEVEN);
        self.rng.pick(&[1, 2, 3, any, any, SEVEN])
    }

    fn add_things(&mut self, owner: u32) {
        let (event, network) = (self.draft.ports.len() as u32, self.draft.networks.len() as u32);
        let deferred = self.rng.chance(50) as u32;
        let blank = Port { owner, ..Default::default() };
        self.draft.ports.extend([
            Port { kind: port::EVENT, deferred, ..blank },
            Port { kind: port::TIMER, deferred: 1, reload: self.rng.within(1, 4), ..blank },
            Port { deferred: 1, ..blank },
        ]);
        let named = Network { owner, port: event + 2, threshold: 1, zero: 0 };
        self.draft.networks.push((named, Waits { l1: 1, l2: 2, e_ticks: 2 }));
        self.owners.push(Things { owner, event, timer: event + 1, network });
    }

    /// A row of lists, made from the last up to the first, which a request starts.
    fn add_row(&mut self, levels: u32) {
        let whose = self.rng.below(self.owners.len());
        let owner = self.owners[whose].owner;
        let mut below = None;
        for _ in 0..levels {
            let mut items = self.leaves(whose);
            if let Some(list) = below {
                let place = self.rng.below(items.len() + 1);
                let naming = self.naming(owner, list);
                items.insert(place, naming);
            } else if items.is_empty() {
                items.push(self.call());
            }
            let triggered = self.rng.chance(20);
            below = Some(self.draft.add_list(self.rng, owner, triggered, &items));
        }
        let value = self.rng.within(1, STARTED);
        let kind = self.rng.pick(&[expression::EQUAL, expression::AT_OR_ABOVE]);
        let true_list = below.expect("a row of one list or more");
        self.add_rule(0, kind, value, Rule { owner, true_list, ..no_lists() });
    }

    /// Up to four items that name no list.
    fn leaves(&mut self, whose: usize) -> Vec<Item> {
        (0..self.rng.below(5)).map(|_| self.leaf(whose)).collect()
    }

    fn leaf(&mut self, whose: usize) -> Item {
        let Things { event, timer, network, .. } = self.owners[whose];
        match self.rng.weighed(&[8, 1, 1, 1, 1]) {
            0 => self.call(),
            1 => Item::naming(item::CLEAR_EVENT, event),
            2 => Item::naming(item::START_TIMER, timer),
            3 => Item::naming(item::STOP_TIMER, timer),
            _ => Item::asking(network, self.rng.within(mode::NONE, mode::FULL)),
        }
    }

    /// Mostly one that aborts, where there is abort.
    fn call(&mut self) -> Item {
        let abort = (self.draft.edition == edition::TWO && self.rng.chance(60)) as u32;
        Item { abort, ..Item::call(self.rng.within(0, 65535)) }
    }

    /// An item that runs the list: by name, or by a rule that mostly has it for both results.
    fn naming(&mut self, owner: u32, list: u32) -> Item {
        if self.rng.chance(50) {
            return Item::naming(item::LIST, list);
        }
        let (true_list, false_list) =
            self.rng.pick(&[(list, list), (list, list), (list, NO_LIST), (NO_LIST, list)]);
        let value = self.rng.within(0, STARTED);
        let rule = Rule { owner, true_list, false_list, ..no_lists() };
        Item::naming(item::RULE, self.add_rule(1, expression::EQUAL, value, rule))
    }

    /// A rule on the value of the platform's port.
    fn add_rule(&mut self, nested_only: u32, kind: u32, value: u32, rule: Rule) -> u32 {
        let condition = Condition { kind, port: self.go, value, zero: 0 };
        let expression = self.draft.add_expression(Expression::Condition(condition));
        let first = self.rng.within(0, UNDEFINED);
        self.draft.add_rule(Rule { nested_only, expression, first, ..rule })
    }

    fn sent(&mut self) -> Vec<Event> {
        let length = 6 + self.rng.below(12);
        (0..length).map(|_| self.send()).collect()
    }

    fn send(&mut self) -> Event {
        let (kind, index, value) = match self.rng.weighed(&[3, 6, 1]) {
            0 => return Event::default(),
            // One value more than starts a row by itself.
            1 => (event::MODE_REQUEST, self.go, self.rng.within(1, STARTED + 1)),
            _ => {
                let whose = self.rng.below(self.owners.len());
                (event::EVENT_REQUEST, self.owners[whose].event, 0)
            }
        };
        let owner = self.draft.ports[index as usize].owner;
        Event { kind, owner, index, value, zero: 0 }
    }
}

fn no_lists() -> Rule {
    Rule { true_list: NO_LIST, false_list: NO_LIST, ..Default::default() }
}

//! Events that lists clear and rules on those events, with requests that set
//! them, requests that clear them, and ticks, in any order.

use super::draft::Draft;
use super::numbers::renumbered;
use super::prng::Prng;
use super::sequences::strewn;
use crate::words::*;

/// Requests of 1 up to this start a list that clears.
const STARTERS: u32 = 3;

struct Clearer<'a> {
    rng: &'a mut Prng,
    draft: Draft,
    /// Whose lists are started to clear, and whose rules are on the events.
    clearing: u32,
    watching: u32,
    /// The owner of the events cleared.
    cleared: u32,
    /// The mode port whose requests start the lists.
    go: usize,
    events: Vec<usize>,
}

/// The good table, which may be empty, with cleared events besides, and events
/// for them with the answers that table and event alone give.
pub fn clearing(rng: &mut Prng, good: Draft) -> (Draft, Vec<(u32, u32)>) {
    // The platform's lists clear anyone's events; anyone's rules are on the platform's.
    let clearing = good.some_owner(rng);
    let cleared = if clearing == PLATFORM { good.some_owner(rng) } else { clearing };
    let watching = if cleared == PLATFORM { good.some_owner(rng) } else { cleared };
    let go = good.ports.len();
    let mut clearer = Clearer { rng, draft: good, clearing, watching, cleared, go, events: vec![] };
    clearer.add_ports();
    (1..=STARTERS).for_each(|value| clearer.add_starter(value));
    clearer.add_watchers();
    let events = clearer.sent();
    let Clearer { rng, draft, .. } = clearer;
    let events = strewn(rng, &draft, &events);
    (renumbered(rng, draft), events)
}

impl Clearer<'_> {
    fn add_ports(&mut self) {
        // Deferred, it has the events cleared in a tick's arbitration.
        let deferred = self.rng.chance(30) as u32;
        self.draft.ports.push(Port { deferred, owner: self.clearing, ..Default::default() });
        let more = self.rng.below(3);
        let either = [0, 1].into_iter().chain((0..more).map(|_| self.rng.within(0, 1)));
        for deferred in either {
            self.events.push(self.draft.ports.len());
            let owner = self.cleared;
            let event = Port { kind: port::EVENT, deferred, owner, ..Default::default() };
            self.draft.ports.push(event);
        }
    }

    /// A rule that a request of this value makes true, with a list that clears
    /// by itself, by a list it names or by a rule item.
    fn add_starter(&mut self, value: u32) {
        let items: Vec<Item> = (0..1 + self.rng.below(2)).map(|_| self.clear()).collect();
        let owner = self.clearing;
        let clears = self.add_list(owner, 15, &items);
        let asked = self.condition(expression::EQUAL, self.go, value);
        let rule = Rule { owner, expression: asked, ..Default::default() };
        let list = match self.rng.below(4) {
            0 => self.add_list(owner, 0, &[Item::naming(item::LIST, clears)]),
            1 => {
                let lists = Rule { true_list: clears, false_list: clears, ..rule };
                let named = self.draft.add_rule(Rule { nested_only: 1, ..lists });
                self.add_list(owner, 0, &[Item::naming(item::RULE, named)])
            }
            _ => clears,
        };
        self.draft.add_rule(Rule { true_list: list, false_list: NO_LIST, ..rule });
    }

    fn clear(&mut self) -> Item {
        Item::naming(item::CLEAR_EVENT, self.rng.pick(&self.events) as u32)
    }

    fn add_list(&mut self, owner: u32, triggered_percent: usize, items: &[Item]) -> u32 {
        let triggered = self.rng.chance(triggered_percent);
        self.draft.add_list(self.rng, owner, triggered, items)
    }

    fn condition(&mut self, kind: u32, port: usize, value: u32) -> u32 {
        let condition = Condition { kind, port: port as u32, value, zero: 0 };
        self.draft.add_expression(Expression::Condition(condition))
    }

    /// At least one rule on each event, and one more that starts nested-only ones by rule items.
    fn add_watchers(&mut self) {
        let again = self.rng.pick(&self.events);
        let mut items = vec![];
        for event in self.events.clone().into_iter().chain([again]) {
            let rule = Rule {
                owner: self.watching,
                first: self.rng.within(0, UNDEFINED),
                nested_only: self.rng.chance(10) as u32,
                expression: self.on(event),
                true_list: self.watching_list(),
                false_list: self.watching_list(),
            };
            let number = self.draft.add_rule(rule);
            if rule.nested_only == 1 {
                items.push(Item::naming(item::RULE, number));
            }
        }
        if items.is_empty() {
            return;
        }
        let (owner, expression) = (self.watching, self.on(again));
        let list = self.add_list(owner, 0, &items);
        let lists = Rule { true_list: list, false_list: list, ..Default::default() };
        self.draft.add_rule(Rule { owner, expression, ..lists });
    }

    /// An expression on the event, mostly on nothing else.
    fn on(&mut self, event: usize) -> u32 {
        let left = self.set_or_cleared(event);
        let (kind, right) = match self.rng.weighed(&[6, 3, 1]) {
            0 => return left,
            1 => {
                let other = self.rng.pick(&self.events);
                let right = self.set_or_cleared(other);
                (self.rng.within(expression::AND, expression::NAND), right)
            }
            _ => (expression::NOT, 0),
        };
        self.draft.add_expression(Expression::Operator(Operator { kind, left, right }))
    }

    fn set_or_cleared(&mut self, event: usize) -> u32 {
        let kind = self.rng.pick(&[expression::SET, expression::CLEARED]);
        self.condition(kind, event, 0)
    }

    /// A call, with a clear besides where the owner may: an event that is
    /// cleared in its own arbitration comes again at the next tick.
    fn watching_list(&mut self) -> u32 {
        if self.rng.chance(20) {
            return NO_LIST;
        }
        let b = self.rng.within(0, 65535);
        let mut items = vec![Item::call(b)];
        let may = self.watching == PLATFORM || self.watching == self.cleared;
        if may && self.rng.chance(20) {
            items.push(self.clear());
        }
        self.add_list(self.watching, 40, &items)
    }

    fn sent(&mut self) -> Vec<Event> {
        let length = 8 + self.rng.below(20);
        (0..length).map(|_| self.send()).collect()
    }

    fn send(&mut self) -> Event {
        let (kind, index, value) = match self.rng.weighed(&[4, 3, 3]) {
            0 => return Event::default(),
            // One value more than starts a list.
            1 => (event::MODE_REQUEST, self.go, self.rng.within(1, STARTERS + 1)),
            _ => (event::EVENT_REQUEST, self.rng.pick(&self.events), 0),
        };
        let owner = self.draft.ports[index].owner;
        Event { kind, owner, index: index as u32, value, zero: 0 }
    }
}

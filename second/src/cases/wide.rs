//! Wide and deep expressions, with events that bring their ports to a scene:
//! values for which most left sides settle their operator, while the right
//! side, if it decided instead, would turn the result.

use super::draft::{Draft, SEVEN};
use super::numbers::renumbered;
use super::prng::Prng;
use super::sequences::strewn;
use super::states::fresh_state;
use crate::words::*;

/// The sides that grow: both whole, one only, or as it comes.
#[derive(Clone, Copy)]
enum Lean {
    Neither,
    Left,
    Right,
    Ragged,
}

/// How an expression is to come out.
#[derive(Clone, Copy)]
struct Wish {
    lean: Lean,
    scene: usize,
    /// What it gives in the scene.
    gives: bool,
    /// Whether skipped sides may mention hidden ports.
    hides: bool,
    /// A program that skips does not read it in the scene.
    skipped: bool,
}

struct Weaver<'a> {
    rng: &'a mut Prng,
    draft: Draft,
    owner: u32,
    /// An immediate port; its rule starts the list that holds the rule items.
    go: usize,
    /// Ports that events bring to a scene's values, `go` among them.
    steered: Vec<usize>,
    /// Ports of the table as it was that are defined from the start.
    started: Vec<usize>,
    /// Undefined at first, and mentioned only where a scene has it skipped.
    hidden: Vec<usize>,
    /// A value for every port.
    scenes: Vec<Vec<u32>>,
}

/// The good table with wide rules of one owner besides, and events for them
/// with the answers that table and event alone give.
pub fn widen(rng: &mut Prng, good: Draft) -> (Draft, Vec<(u32, u32)>) {
    let owner = good.some_owner(rng);
    let legal = |port: &Port| port.owner == owner || port.owner == PLATFORM;
    let defined = |port: &Port| port.has_initial == 1 || port.kind != port::MODE;
    let started = (0..good.ports.len())
        .filter(|&p| legal(&good.ports[p]) && defined(&good.ports[p]))
        .collect();
    let go = good.ports.len();
    let (steered, hidden) = (vec![go], vec![]);
    let mut weaver =
        Weaver { rng, draft: good, owner, go, steered, started, hidden, scenes: vec![] };
    weaver.add_ports();
    weaver.set_scenes();
    weaver.add_rules();
    let events = weaver.events();
    let Weaver { rng, draft, .. } = weaver;
    (renumbered(rng, draft), events)
}

impl Weaver<'_> {
    fn add_ports(&mut self) {
        self.draft.ports.push(Port { owner: self.owner, ..Default::default() });
        for _ in 0..2 + self.rng.below(4) {
            let owner = self.some_owner();
            let deferred = self.rng.chance(35) as u32;
            let blank = Port { owner, deferred, ..Default::default() };
            let port = match self.rng.below(4) {
                0 => Port { kind: port::EVENT, ..blank },
                1 => Port { has_initial: 1, initial: self.rng.within(0, 3), ..blank },
                _ => blank,
            };
            self.steered.push(self.draft.ports.len());
            self.draft.ports.push(port);
        }
        for _ in 0..1 + self.rng.below(2) {
            let owner = self.some_owner();
            let deferred = self.rng.chance(25) as u32;
            self.hidden.push(self.draft.ports.len());
            self.draft.ports.push(Port { owner, deferred, ..Default::default() });
        }
    }

    fn some_owner(&mut self) -> u32 {
        if self.rng.chance(70) { self.owner } else { PLATFORM }
    }

    /// A set event stays set, so the scenes agree on events: 1, or 0 in those
    /// that are never sent. Ports that are not steered have their first value.
    fn set_scenes(&mut self) {
        let ports = &fresh_state(&self.draft)[..self.draft.ports.len()];
        let mut first: Vec<u32> = ports.iter().map(|&word| PortState::of(word).value).collect();
        let is = |port: usize, kind: u32| self.draft.ports[port].kind == kind;
        for &port in self.steered.iter().filter(|&&port| is(port, port::EVENT)) {
            first[port] = self.rng.chance(70) as u32;
        }
        for _ in 0..2 + self.rng.below(2) {
            let mut scene = first.clone();
            let drawn = self.steered.iter().chain(&self.hidden);
            for &port in drawn.filter(|&&port| is(port, port::MODE)) {
                scene[port] = self.rng.pick(&[0, 1, 2, 3, 255]);
            }
            self.scenes.push(scene);
        }
    }

    fn add_rules(&mut self) {
        let mut rules = vec![];
        let small = 2 + self.rng.below(3);
        for number in 0..=small {
            let lean = match self.rng.weighed(&[3, 3, 3, 2]) {
                _ if number == 0 => Lean::Neither,
                0 => Lean::Neither,
                1 => Lean::Left,
                2 => Lean::Right,
                _ => Lean::Ragged,
            };
            let depth = match lean {
                Lean::Neither if number == 0 => self.rng.within(SEVEN - 1, SEVEN),
                Lean::Neither => self.rng.within(2, 4),
                // Five expressions of any size must stay below 512.
                Lean::Ragged => self.rng.within(SEVEN - 3, SEVEN - 1),
                _ => self.rng.within(SEVEN - 3, SEVEN),
            };
            let wish = Wish {
                lean,
                scene: self.rng.below(self.scenes.len()),
                gives: self.rng.chance(50),
                hides: self.rng.chance(50),
                skipped: false,
            };
            let expression = self.weave(depth, wish);
            let nested_only = self.rng.chance(40) as u32;
            rules.push(self.add_rule(expression, nested_only));
        }
        self.add_starter(&rules);
    }

    /// The number of an expression, at most so deep, that comes out as wished.
    fn weave(&mut self, depth: u32, wish: Wish) -> u32 {
        let cut_short = matches!(wish.lean, Lean::Neither) && depth < 5 && self.rng.chance(7);
        if depth == 1 || cut_short {
            return self.condition(wish);
        }
        let (kind, left_gives, right_gives) = self.operator(wish);
        let left_settles = match kind {
            expression::AND | expression::NAND => !left_gives,
            expression::OR => left_gives,
            _ => false,
        };
        let (left_depth, right_depth) = self.sides(wish.lean, depth, kind);
        let left = self.weave(left_depth, Wish { gives: left_gives, ..wish });
        let right = if kind == expression::NOT {
            0
        } else {
            let skipped = wish.skipped || left_settles;
            self.weave(right_depth, Wish { gives: right_gives, skipped, ..wish })
        };
        self.draft.add_expression(Expression::Operator(Operator { kind, left, right }))
    }

    /// A kind, and what its sides must give for it to give what is wished. A
    /// side that settles stands beside one that would turn the result.
    fn operator(&mut self, wish: Wish) -> (u32, bool, bool) {
        use expression::*;
        const T: bool = true;
        const F: bool = false;
        let settled = if matches!(wish.lean, Lean::Right) { 35 } else { 60 };
        match (self.rng.weighed(&[settled, 85 - settled, 10, 5]), wish.gives) {
            (0, true) => self.rng.pick(&[(OR, T, F), (NAND, F, T)]),
            (0, false) => (AND, F, T),
            (1, true) => self.rng.pick(&[(AND, T, T), (OR, F, T), (NAND, T, F)]),
            (1, false) => self.rng.pick(&[(AND, T, F), (OR, F, F), (NAND, T, T)]),
            (2, gives) => {
                let left = self.rng.chance(50);
                (XOR, left, left != gives)
            }
            (_, gives) => (NOT, !gives, F),
        }
    }

    /// How deep the two sides may be.
    fn sides(&mut self, lean: Lean, depth: u32, kind: u32) -> (u32, u32) {
        let (long, short) = (depth - 1, self.rng.within(1, 2.min(depth - 1)));
        match lean {
            _ if kind == expression::NOT => (long, 0),
            Lean::Neither => (long, long),
            Lean::Left => (long, short),
            Lean::Right => (short, long),
            Lean::Ragged if self.rng.chance(50) => (long, self.rng.within(1, long)),
            Lean::Ragged => (self.rng.within(1, long), long),
        }
    }

    fn condition(&mut self, wish: Wish) -> u32 {
        let port = if wish.skipped && wish.hides && self.rng.chance(50) {
            self.rng.pick(&self.hidden)
        } else if !self.started.is_empty() && self.rng.chance(8) {
            self.rng.pick(&self.started)
        } else {
            self.rng.pick(&self.steered)
        };
        let there = self.scenes[wish.scene][port];
        let (kind, value) = match self.draft.ports[port].kind {
            port::EVENT => {
                let set = wish.gives == (there == 1);
                (if set { expression::SET } else { expression::CLEARED }, 0)
            }
            port::MODE if (wish.gives || there < 255) && self.rng.chance(20) => {
                (expression::AT_OR_ABOVE, self.level(there, wish.gives))
            }
            _ if self.rng.chance(60) => {
                (if wish.gives { expression::EQUAL } else { expression::NOT_EQUAL }, there)
            }
            _ => {
                let other = self.scenes[self.rng.below(self.scenes.len())][port];
                let other =
                    if other == there { (there + self.rng.within(1, 255)) % 256 } else { other };
                (if wish.gives { expression::NOT_EQUAL } else { expression::EQUAL }, other)
            }
        };
        let port = port as u32;
        self.draft.add_expression(Expression::Condition(Condition { kind, port, value, zero: 0 }))
    }

    /// A level that the value there has reached, or has not; mostly close to it.
    fn level(&mut self, there: u32, reached: bool) -> u32 {
        let (close, least, most) =
            if reached { (there, 0, there) } else { (there + 1, there + 1, 255) };
        if self.rng.chance(60) { close } else { self.rng.within(least, most) }
    }

    /// A rule with a list of its own for each result, mostly conditional.
    fn add_rule(&mut self, expression: u32, nested_only: u32) -> u32 {
        let (true_list, false_list) = (self.own_list(), self.own_list());
        let (owner, first) = (self.owner, self.rng.within(0, UNDEFINED));
        self.draft.add_rule(Rule { owner, first, nested_only, expression, true_list, false_list })
    }

    fn own_list(&mut self) -> u32 {
        if self.rng.chance(10) {
            return NO_LIST;
        }
        let b = self.rng.within(0, 65535);
        let call = Item::call(b);
        let triggered = self.rng.chance(25);
        self.draft.add_list(self.rng, self.owner, triggered, &[call])
    }

    /// A rule that `go` makes true, whatever the scene, with a list of rule items.
    fn add_starter(&mut self, rules: &[u32]) {
        let rule_item = |&a: &u32| Item::naming(item::RULE, a);
        let named = rules.iter().filter(|&&rule| {
            self.draft.rules[rule as usize].nested_only == 1 || self.rng.chance(25)
        });
        let mut items: Vec<Item> = named.map(rule_item).collect();
        if items.is_empty() {
            items.push(rule_item(&rules[0]));
        }
        let list = self.draft.add_list(self.rng, self.owner, false, &items);
        let kind = expression::NOT_EQUAL;
        let condition = Condition { kind, port: self.go as u32, value: 200, zero: 0 };
        let expression = self.draft.add_expression(Expression::Condition(condition));
        let (owner, false_list) = (self.owner, NO_LIST);
        let starter = Rule { owner, expression, true_list: list, false_list, ..Default::default() };
        self.draft.add_rule(starter);
    }

    /// One scene after another; the hidden ports stay undefined for a while.
    fn events(&mut self) -> Vec<(u32, u32)> {
        let mut events = vec![];
        let shown_from = self.rng.below(3);
        for visit in 0..2 + self.rng.below(3) {
            let scene = self.rng.below(self.scenes.len());
            let mut ports = self.steered.clone();
            self.rng.shuffle(&mut ports);
            ports.push(self.go);
            events.extend(ports.iter().filter_map(|&port| self.request(scene, port)));
            if self.rng.chance(60) {
                events.push(Event::default());
            }
            if visit >= shown_from {
                let hidden = self.hidden.clone();
                events.extend(hidden.iter().filter_map(|&port| self.request(scene, port)));
                events.extend(self.request(scene, self.go));
                events.push(Event::default());
            }
        }
        strewn(self.rng, &self.draft, &events)
    }

    /// None for an event that is never sent.
    fn request(&self, scene: usize, number: usize) -> Option<Event> {
        let (port, there) = (self.draft.ports[number], self.scenes[scene][number]);
        let (kind, value) = match port.kind {
            port::EVENT if there == 0 => return None,
            port::EVENT => (event::EVENT_REQUEST, 0),
            _ => (event::MODE_REQUEST, there),
        };
        Some(Event { kind, owner: port.owner, index: number as u32, value, zero: 0 })
    }
}

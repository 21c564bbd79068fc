//! Tables that stand by the way they are made: every name is drawn from what
//! it may name, nesting and cost are kept within bounds as they grow.

use super::draft::{Draft, PRIORITIES, SEVEN, conditions_on};
use super::numbers::renumbered;
use super::outcomes::{some_edition, strew_aborts};
use super::prng::Prng;
use crate::words::*;

/// How many of each thing to make, and how dear the lists may be together. Rules come besides where
/// they are needed to start lists.
#[derive(Clone, Copy, Debug)]
pub struct Plan {
    pub operators: usize,
    pub ports: usize,
    pub networks: usize,
    pub sources: usize,
    pub expressions: usize,
    pub rules: usize,
    pub lists: usize,
    pub items_each: usize,
    pub cost: usize,
}

/// Lists, each with its rule, that bring the table of all limits to its dearest.
pub const PADDING: usize = 20;

/// The most rules it can take to start all lists of the table of all limits, two lists a rule:
/// each of the 16 owners may have one list over.
const STARTERS: usize = (255 - PADDING + 16) / 2;

impl Plan {
    pub fn small(rng: &mut Prng) -> Plan {
        let (networks, sources) = (rng.below(3), rng.below(3));
        let lists = rng.below(9);
        Plan {
            operators: rng.below(4),
            ports: networks + sources + 1 + rng.below(7),
            networks,
            sources,
            expressions: 1 + rng.below(14),
            rules: 1 + rng.below(10),
            lists,
            items_each: 4,
            cost: 20 + lists * 8,
        }
    }

    /// With everything in it, and room for deep nesting.
    pub fn rich(rng: &mut Prng) -> Plan {
        let (networks, sources) = (2 + rng.below(4), 2 + rng.below(4));
        let lists = 12 + rng.below(40);
        Plan {
            operators: 1 + rng.below(5),
            ports: networks + sources + 10 + rng.below(14),
            networks,
            sources,
            expressions: 20 + rng.below(60),
            rules: 10 + rng.below(40),
            lists,
            items_each: 6,
            cost: lists * 14,
        }
    }

    /// Every count at its limit, or short of it by what padding adds.
    pub fn limits(rng: &mut Prng) -> Plan {
        Plan {
            operators: 1 + rng.below(15),
            ports: 64,
            networks: 8,
            sources: 32,
            expressions: 512,
            rules: 256 - PADDING - STARTERS,
            lists: 255 - PADDING,
            items_each: 7,
            cost: 2400,
        }
    }
}

/// Half of all draws go to the deepest, so that seven levels are often reached.
const DEEPEST_PERCENT: usize = 50;

struct Grower<'a> {
    rng: &'a mut Prng,
    plan: Plan,
    draft: Draft,
    owners: Vec<u32>,
    /// Those of the owners who can have rules, so that something can start their lists.
    ruling: Vec<u32>,
    /// Whose ports an expression mentions besides the platform's, and its depth.
    expressions: Vec<(u32, u32)>,
    /// Depth and cost of each list; of each rule, its lists' greater ones; of each item.
    lists: Vec<(u32, usize)>,
    rules: Vec<(u32, usize)>,
    items: Vec<(u32, usize)>,
    /// Whether each list has a rule that isn't nested-only or is named by a later list. Where all
    /// have, all are reached, for the later list is one of them.
    started: Vec<bool>,
    spent: usize,
}

/// A table that the check accepts, of either edition.
pub fn grow(rng: &mut Prng, plan: Plan) -> Draft {
    let mut owners: Vec<u32> = (1..16).collect();
    rng.shuffle(&mut owners);
    owners.truncate(plan.operators);
    owners.push(PLATFORM);
    let mut grower = Grower {
        rng,
        plan,
        draft: Draft::default(),
        owners,
        ruling: vec![],
        expressions: vec![],
        lists: vec![],
        rules: vec![],
        items: vec![],
        started: vec![],
        spent: 0,
    };
    grower.grow_ports_and_things();
    (0..plan.expressions).for_each(|_| grower.grow_expression());
    grower.find_ruling();
    grower.grow_rules_and_lists();
    grower.grow_starters();
    let Grower { rng, mut draft, .. } = grower;
    draft.edition = some_edition(rng);
    strew_aborts(rng, &mut draft);
    renumbered(rng, draft)
}

impl Grower<'_> {
    fn grow_ports_and_things(&mut self) {
        let plan = self.plan;
        let order = self.rng.order(plan.ports);
        let (things, _) = order.split_at(plan.networks + plan.sources);
        for number in 0..plan.ports {
            let owner = self.rng.pick(&self.owners);
            let port = if things.contains(&number) {
                Port { kind: port::MODE, deferred: 1, owner, ..Default::default() }
            } else {
                self.open_port(owner)
            };
            self.draft.ports.push(port);
        }
        for (made, &number) in things.iter().enumerate() {
            let (owner, port) = (self.draft.ports[number].owner, number as u32);
            if made < plan.networks {
                let network = self.network(owner, port);
                self.draft.networks.push(network);
            } else {
                let timeout = self.timeout();
                self.draft.sources.push(Source { owner, port, timeout, zero: 0 });
            }
        }
    }

    fn open_port(&mut self, owner: u32) -> Port {
        let deferred = self.rng.within(0, 1);
        let blank = Port { owner, deferred, ..Default::default() };
        match self.rng.weighed(&[5, 3, 2]) {
            0 if self.rng.chance(40) => {
                Port { has_initial: 1, initial: self.rng.within(0, 3), ..blank }
            }
            0 => blank,
            1 => Port { kind: port::EVENT, ..blank },
            _ => Port { kind: port::TIMER, deferred: 1, reload: self.wait(65535), ..blank },
        }
    }

    /// Mostly short, so that it ends within a sequence.
    fn wait(&mut self, most: u32) -> u32 {
        if self.rng.chance(90) { self.rng.within(1, 4) } else { self.rng.within(1, most) }
    }

    fn timeout(&mut self) -> u32 {
        if self.rng.chance(15) { 0 } else { self.wait(65535) }
    }

    fn network(&mut self, owner: u32, port: u32) -> (Network, Waits) {
        let threshold = self.rng.pick(&[0, 1, 1, 2, 2, 3, 254, 255]);
        let waits = Waits { l1: self.wait(255), l2: self.wait(255), e_ticks: self.wait(65535) };
        (Network { owner, port, threshold, zero: 0 }, waits)
    }

    fn grow_expression(&mut self) {
        let any = self.rng.below(self.plan.ports);
        let class = self.draft.ports[any].owner;
        let usable: Vec<usize> = (0..self.expressions.len())
            .filter(|&e| {
                let (of, depth) = self.expressions[e];
                (of == class || of == PLATFORM) && depth < SEVEN
            })
            .collect();
        let condition = usable.is_empty() || self.rng.chance(35);
        let (expression, depth) =
            if condition { (self.condition(class), 1) } else { self.operator(&usable) };
        self.draft.expressions.push(expression);
        self.expressions.push((class, depth));
    }

    fn condition(&mut self, class: u32) -> Expression {
        let ports: Vec<usize> = (0..self.plan.ports)
            .filter(|&p| [class, PLATFORM].contains(&self.draft.ports[p].owner))
            .collect();
        let port = self.rng.pick(&ports);
        let event = self.draft.ports[port].kind == port::EVENT;
        let kind = self.rng.pick(conditions_on(&self.draft.ports[port]));
        let value = if event { 0 } else { self.rng.pick(&[0, 1, 2, 2, 3, 255]) };
        Expression::Condition(Condition { kind, port: port as u32, value, zero: 0 })
    }

    fn operator(&mut self, usable: &[usize]) -> (Expression, u32) {
        let kind = self.rng.within(expression::AND, expression::NOT);
        let depths: Vec<u32> = usable.iter().map(|&e| self.expressions[e].1).collect();
        let left = usable[self.deep_choice(&depths)];
        let right = usable[self.rng.below(usable.len())];
        let right = if kind == expression::NOT { 0 } else { right };
        let operator = Operator { kind, left: left as u32, right: right as u32 };
        let expression = Expression::Operator(operator);
        let deeper = expression.arguments().map(|a| self.expressions[a].1).max();
        (expression, 1 + deeper.unwrap_or(0))
    }

    /// One of the depths given, often the greatest.
    fn deep_choice(&mut self, depths: &[u32]) -> usize {
        if self.rng.chance(DEEPEST_PERCENT) {
            let deepest = depths.iter().max();
            depths.iter().position(|depth| Some(depth) == deepest).unwrap_or(0)
        } else {
            self.rng.below(depths.len())
        }
    }

    /// The owners with an expression that their rules may have.
    fn find_ruling(&mut self) {
        let may = |&&owner: &&u32| !self.expressions_for(owner).is_empty();
        self.ruling = self.owners.iter().filter(may).copied().collect();
    }

    fn expressions_for(&self, owner: u32) -> Vec<usize> {
        let usable = |&e: &usize| [owner, PLATFORM].contains(&self.expressions[e].0);
        (0..self.expressions.len()).filter(usable).collect()
    }

    fn grow_rules_and_lists(&mut self) {
        loop {
            let rules = self.plan.rules - self.rules.len();
            let lists = self.plan.lists - self.lists.len();
            match (rules, lists) {
                (0, 0) => return,
                (_, 0) => self.grow_rule(),
                _ => match self.rng.weighed(&[rules, lists]) {
                    0 => self.grow_rule(),
                    _ => self.grow_list(),
                },
            }
        }
    }

    fn grow_rule(&mut self) {
        let expression = self.rng.below(self.expressions.len());
        let owner = match self.expressions[expression].0 {
            PLATFORM => self.rng.pick(&self.owners),
            class => class,
        };
        let lists: Vec<usize> =
            (0..self.lists.len()).filter(|&l| self.draft.lists[l].owner == owner).collect();
        let list = |rng: &mut Prng| match rng.pick_any(&lists) {
            Some(list) if rng.chance(75) => list as u32,
            _ => NO_LIST,
        };
        let rule = Rule {
            owner,
            first: self.rng.within(0, UNDEFINED),
            nested_only: self.rng.chance(20) as u32,
            expression: expression as u32,
            true_list: list(self.rng),
            false_list: list(self.rng),
        };
        self.add_rule(rule);
    }

    /// Rules for the lists that nothing starts, two at once where an owner has two.
    fn grow_starters(&mut self) {
        let mut left: Vec<usize> = (0..self.lists.len()).filter(|&l| !self.started[l]).collect();
        self.rng.shuffle(&mut left);
        while let Some(list) = left.pop() {
            let owner = self.draft.lists[list].owner;
            let other = left.iter().position(|&other| self.draft.lists[other].owner == owner);
            let other = match other {
                Some(at) => left.swap_remove(at) as u32,
                None => self.rng.pick(&[NO_LIST, list as u32]),
            };
            let mut lists = [list as u32, other];
            self.rng.shuffle(&mut lists);
            let expressions = self.expressions_for(owner);
            let (first, expression) =
                (self.rng.within(0, UNDEFINED), self.rng.pick(&expressions) as u32);
            let [true_list, false_list] = lists;
            self.add_rule(Rule { owner, first, nested_only: 0, expression, true_list, false_list });
        }
    }

    fn add_rule(&mut self, rule: Rule) {
        if rule.nested_only == 0 {
            rule.lists().for_each(|list| self.started[list] = true);
        }
        let greater = |(d, c): (u32, usize), l: usize| {
            let (depth, cost) = self.lists[l];
            (d.max(depth), c.max(cost))
        };
        self.rules.push(rule.lists().fold((0, 0), greater));
        self.draft.rules.push(rule);
    }

    fn grow_list(&mut self) {
        let owner = self.rng.pick(&self.ruling);
        let after = self.plan.lists - self.lists.len() - 1;
        // Every list still to come costs at least 2.
        let most = self.plan.cost - self.spent - 2 * after;
        let fair = 3 * most / (after + 1);
        let allowed = most.min(fair.max(2));
        let shared = if self.rng.chance(15) { self.shared_items(owner, allowed) } else { None };
        let items = shared.unwrap_or_else(|| self.new_items(owner, allowed));
        let depth = 1 + self.items[items.clone()].iter().map(|&(depth, _)| depth).max().unwrap();
        let cost = 1 + self.items[items.clone()].iter().map(|&(_, cost)| cost).sum::<usize>();
        self.spent += cost;
        for item in &self.draft.items[items.clone()] {
            self.draft.named_by_item(item).for_each(|list| self.started[list] = true);
        }
        self.started.push(false);
        self.lists.push((depth, cost));
        self.draft.lists.push(List {
            owner,
            triggered: self.rng.within(0, 1),
            priority: self.rng.pick(&PRIORITIES),
            first: items.start as u32,
            count: items.len() as u32,
        });
    }

    /// Items of an earlier list of the owner, from some item on.
    fn shared_items(&mut self, owner: u32, allowed: usize) -> Option<std::ops::Range<usize>> {
        let fits =
            |list: usize| self.draft.lists[list].owner == owner && self.lists[list].1 <= allowed;
        let lists: Vec<usize> = (0..self.lists.len()).filter(|&list| fits(list)).collect();
        let items = self.draft.lists[self.rng.pick_any(&lists)?].items();
        Some(items.start + self.rng.below(items.len())..items.end)
    }

    fn new_items(&mut self, owner: u32, allowed: usize) -> std::ops::Range<usize> {
        let start = self.items.len();
        let wanted = 1 + self.rng.below(self.plan.items_each);
        let mut left = allowed - 1;
        while self.items.len() - start < wanted && left > 0 {
            let (item, depth, cost) = self.item(owner, left);
            self.draft.items.push(item);
            self.items.push((depth, cost));
            left -= cost;
        }
        start..self.items.len()
    }

    /// An item for a list of this owner, with the depth and cost it adds.
    fn item(&mut self, owner: u32, left: usize) -> (Item, u32, usize) {
        let kind = self.rng.weighed(&[3, 2, 3, 2, 5, 4, 4]) as u32;
        let ours = |of: u32| of == owner || owner == PLATFORM;
        let ports = |wanted: u32| -> Vec<usize> {
            let ports = self.draft.ports.iter().enumerate();
            let named = ports.filter(|(_, port)| port.kind == wanted && ours(port.owner));
            named.map(|(number, _)| number).collect()
        };
        let named: Vec<usize> = match kind {
            item::CLEAR_EVENT => ports(port::EVENT),
            item::START_TIMER | item::STOP_TIMER => ports(port::TIMER),
            item::NETWORK_REQUEST => {
                let networks = 0..self.draft.networks.len();
                networks.filter(|&n| ours(self.draft.networks[n].0.owner)).collect()
            }
            item::LIST => affordable(&self.lists, left, |l| self.draft.lists[l].owner == owner),
            item::RULE => affordable(&self.rules, left - 1, |r| self.draft.rules[r].owner == owner),
            _ => vec![],
        };
        if named.is_empty() {
            let b = self.rng.within(0, 65535);
            return (Item::call(b), 0, 1);
        }
        self.naming_item(kind, &named)
    }

    fn naming_item(&mut self, kind: u32, named: &[usize]) -> (Item, u32, usize) {
        let of = |grown: &[(u32, usize)]| named.iter().map(|&n| grown[n].0).collect::<Vec<_>>();
        let chosen = match kind {
            item::LIST => self.deep_choice(&of(&self.lists)),
            item::RULE => self.deep_choice(&of(&self.rules)),
            _ => self.rng.below(named.len()),
        };
        let a = named[chosen];
        let request = [mode::NONE, mode::SILENT, mode::FULL, mode::FULL, mode::FULL, mode::FULL];
        let b = if kind == item::NETWORK_REQUEST { self.rng.pick(&request) } else { 0 };
        let (depth, cost) = match kind {
            item::LIST => self.lists[a],
            item::RULE => (self.rules[a].0, 1 + self.rules[a].1),
            _ => (0, 1),
        };
        (Item { kind, abort: 0, a: a as u32, b }, depth, cost)
    }
}

/// What may still be named: not seven deep already, and not too dear.
fn affordable(grown: &[(u32, usize)], left: usize, ours: impl Fn(usize) -> bool) -> Vec<usize> {
    let fits = |&number: &usize| grown[number].0 < SEVEN && grown[number].1 <= left;
    (0..grown.len()).filter(|number| fits(number) && ours(*number)).collect()
}

/// Adds lists of outside calls, at least so many, until all lists together
/// cost exactly `left` more; each gets a rule of its own.
pub fn pad(rng: &mut Prng, draft: &mut Draft, left: usize, at_least: usize) {
    let pool = draft.items.len() as u32;
    let calls = (0..255).map(|b| Item::call(b));
    draft.items.extend(calls);
    let lists = at_least.max(left.div_ceil(256));
    for made in 0..lists {
        let share = left / lists + (made < left % lists) as usize;
        let model = draft.rules[rng.below(draft.rules.len())];
        let list = draft.lists.len() as u32;
        draft.lists.push(List {
            owner: model.owner,
            triggered: rng.within(0, 1),
            priority: rng.within(0, 255),
            first: pool,
            count: share as u32 - 1,
        });
        draft.rules.push(Rule { nested_only: 0, true_list: list, false_list: list, ..model });
    }
}

/// Rules up to the limit, each like one there is, so that their lists are reached without them;
/// no list names them.
pub fn fill_rules(rng: &mut Prng, draft: &mut Draft) {
    while draft.rules.len() < Section::Rules.limits().1 {
        let (model, nested_only) = (rng.pick(&draft.rules), rng.chance(40) as u32);
        draft.rules.push(Rule { first: rng.within(0, UNDEFINED), nested_only, ..model });
    }
}

/// Items in no list up to the limit: they must name rightly but clash with nobody.
pub fn fill_items(rng: &mut Prng, draft: &mut Draft) {
    while draft.items.len() < Section::Items.limits().1 {
        let item = if rng.chance(50) {
            Item::naming(item::LIST, rng.below(draft.lists.len()) as u32)
        } else {
            Item::naming(item::RULE, rng.below(draft.rules.len()) as u32)
        };
        draft.items.push(item);
    }
}

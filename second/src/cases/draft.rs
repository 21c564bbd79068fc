//! A table before it is packed, and what its maker knows of its nesting.

use super::prng::Prng;
use crate::words::*;

/// How deep a good table may nest: the maker's own number, so that a wrong one
/// in the rules shows.
pub const SEVEN: u32 = 7;

/// Few priorities, so that equal ones are common.
pub const PRIORITIES: [u32; 5] = [0, 1, 1, 7, 255];

#[derive(Clone, PartialEq, Eq, Debug)]
pub struct Draft {
    pub edition: u32,
    pub ports: Vec<Port>,
    pub networks: Vec<(Network, Waits)>,
    pub sources: Vec<Source>,
    pub expressions: Vec<Expression>,
    pub rules: Vec<Rule>,
    pub lists: Vec<List>,
    pub items: Vec<Item>,
}

/// An empty table of edition 1.
impl Default for Draft {
    fn default() -> Self {
        Draft {
            edition: edition::ONE,
            ports: vec![],
            networks: vec![],
            sources: vec![],
            expressions: vec![],
            rules: vec![],
            lists: vec![],
            items: vec![],
        }
    }
}

/// The kinds of conditions there may be on a port.
pub fn conditions_on(port: &Port) -> &'static [u32] {
    use expression::*;
    match port.kind {
        port::EVENT => &[SET, CLEARED],
        port::TIMER => &[EQUAL, NOT_EQUAL],
        _ => &[EQUAL, NOT_EQUAL, AT_OR_ABOVE],
    }
}

/// How deep something nests, walked along its names.
#[derive(Clone, Copy, PartialEq, Eq, PartialOrd, Ord, Debug)]
pub enum Depth {
    Levels(u32),
    Endless,
}

impl Draft {
    /// An accepted table, unpacked.
    pub fn of(table: &Table) -> Self {
        let all = |section: Section| 0..table.count(section);
        Draft {
            edition: table.edition,
            ports: all(Section::Ports).map(|p| table.port(p)).collect(),
            networks: all(Section::Networks).map(|n| (table.network(n), table.waits(n))).collect(),
            sources: all(Section::Sources).map(|s| table.source(s)).collect(),
            expressions: all(Section::Expressions).map(|e| table.expression(e)).collect(),
            rules: all(Section::Rules).map(|r| table.rule(r)).collect(),
            lists: all(Section::Lists).map(|l| table.list(l)).collect(),
            items: all(Section::Items).map(|i| table.item(i)).collect(),
        }
    }

    /// The platform, anyone, or mostly one who has a port already.
    pub fn some_owner(&self, rng: &mut Prng) -> u32 {
        match rng.below(5) {
            0 => PLATFORM,
            1 => rng.within(1, 15),
            _ => rng.pick_any(&self.ports).map_or(PLATFORM, |port| port.owner),
        }
    }

    /// The number of an expression; equal ones share a word.
    pub fn add_expression(&mut self, expression: Expression) -> u32 {
        let same = self.expressions.iter().position(|&other| other == expression);
        same.unwrap_or_else(|| {
            self.expressions.push(expression);
            self.expressions.len() - 1
        }) as u32
    }

    pub fn add_rule(&mut self, rule: Rule) -> u32 {
        self.rules.push(rule);
        self.rules.len() as u32 - 1
    }

    /// A list with items of its own, its priority one of a few.
    pub fn add_list(&mut self, rng: &mut Prng, owner: u32, triggered: bool, items: &[Item]) -> u32 {
        let (first, count) = (self.items.len() as u32, items.len() as u32);
        let (triggered, priority) = (triggered as u32, rng.pick(&PRIORITIES));
        self.items.extend(items);
        self.lists.push(List { owner, triggered, priority, first, count });
        self.lists.len() as u32 - 1
    }

    /// A network's word in a state of this table.
    pub fn network_in(&self, state: &[u32], number: usize) -> NetworkState {
        NetworkState::of(state[self.ports.len() + self.rules.len() + number])
    }

    /// A source's word in a state of this table.
    pub fn source_in(&self, state: &[u32], number: usize) -> SourceState {
        let before = self.ports.len() + self.rules.len() + self.networks.len();
        SourceState::of(state[before + number])
    }

    pub fn words(&self) -> Vec<u32> {
        let pair = |high: usize, low: usize| Pair { high: high as u32, low: low as u32 }.word();
        let head = Head {
            edition: self.edition,
            ports: self.ports.len() as u32,
            networks: self.networks.len() as u32,
            sources: self.sources.len() as u32,
        };
        let mut words = vec![
            head.word(),
            pair(self.expressions.len(), self.rules.len()),
            pair(self.lists.len(), self.items.len()),
        ];
        words.extend(self.ports.iter().map(|port| port.word()));
        words.extend(self.networks.iter().flat_map(|(n, waits)| [n.word(), waits.word()]));
        words.extend(self.sources.iter().map(|source| source.word()));
        words.extend(self.expressions.iter().map(|expression| expression.word()));
        words.extend(self.rules.iter().map(|rule| rule.word()));
        words.extend(self.lists.iter().map(|list| list.word()));
        words.extend(self.items.iter().map(|item| item.word(self.edition)));
        words
    }

    /// The depth of every expression and every list, by walking down with a
    /// memory: another way than the check's, so that the two can disagree.
    pub fn depths(&self) -> (Vec<Depth>, Vec<Depth>) {
        let arguments = |expression: usize| self.expressions[expression].arguments().collect();
        let named = |list: usize| self.named_by(list);
        let expressions = Walk::over(self.expressions.len(), &arguments);
        (expressions, Walk::over(self.lists.len(), &named))
    }

    fn named_by(&self, list: usize) -> Vec<usize> {
        let items = &self.items[self.lists[list].items()];
        items.iter().flat_map(|item| self.named_by_item(item)).collect()
    }

    /// The lists that an item names, directly or by its rule.
    pub fn named_by_item(&self, item: &Item) -> impl Iterator<Item = usize> + use<> {
        let (list, rule) = match item.kind {
            item::LIST => (Some(item.a as usize), None),
            item::RULE => (None, Some(self.rules[item.a as usize])),
            _ => (None, None),
        };
        list.into_iter().chain(rule.into_iter().flat_map(|rule| rule.lists()))
    }

    /// The lists that nothing reaches, each looked at from below: neither it, nor a list that
    /// names it, nor one that names that, and so on up, is a list of a rule that isn't nested-only.
    /// Another way than the check's, so that the two can disagree.
    pub fn unreached(&self) -> Vec<usize> {
        let mut has_rule = vec![false; self.lists.len()];
        for rule in self.rules.iter().filter(|rule| rule.nested_only == 0) {
            rule.lists().for_each(|list| has_rule[list] = true);
        }
        let mut namers = vec![vec![]; self.lists.len()];
        for list in 0..self.lists.len() {
            self.named_by(list).into_iter().for_each(|named| namers[named].push(list));
        }
        let reached = |&list: &usize| {
            let (mut above, mut seen) = (vec![list], vec![false; namers.len()]);
            while let Some(next) = above.pop() {
                if has_rule[next] {
                    return true;
                }
                if !std::mem::replace(&mut seen[next], true) {
                    above.extend(&namers[next]);
                }
            }
            false
        };
        (0..self.lists.len()).filter(|list| !reached(list)).collect()
    }

    /// What all lists of a good table cost together, by walking every path.
    pub fn b(&self) -> usize {
        (0..self.lists.len()).map(|list| self.cost(list)).sum()
    }

    fn cost(&self, list: usize) -> usize {
        let item_cost = |item: &Item| match item.kind {
            item::LIST => self.cost(item.a as usize),
            item::RULE => {
                let lists = self.rules[item.a as usize].lists();
                1 + lists.map(|list| self.cost(list)).max().unwrap_or(0)
            }
            _ => 1,
        };
        1 + self.items[self.lists[list].items()].iter().map(item_cost).sum::<usize>()
    }

    /// The ports that networks, then sources, have as their own.
    pub fn thing_ports(&self) -> Vec<u32> {
        let networks = self.networks.iter().map(|(network, _)| network.port);
        networks.chain(self.sources.iter().map(|source| source.port)).collect()
    }

    pub fn mentioned(&self, expression: usize) -> Vec<usize> {
        match self.expressions[expression] {
            Expression::Condition(condition) => vec![condition.port as usize],
            operator => operator.arguments().flat_map(|a| self.mentioned(a)).collect(),
        }
    }
}

struct Walk<'a> {
    names: &'a dyn Fn(usize) -> Vec<usize>,
    known: Vec<Option<Depth>>,
    /// On the way down from the start: meeting one again closes a ring.
    open: Vec<bool>,
}

impl Walk<'_> {
    fn over(count: usize, names: &dyn Fn(usize) -> Vec<usize>) -> Vec<Depth> {
        let mut walk = Walk { names, known: vec![None; count], open: vec![false; count] };
        (0..count).map(|start| walk.depth(start)).collect()
    }

    fn depth(&mut self, at: usize) -> Depth {
        if let Some(depth) = self.known[at] {
            return depth;
        }
        if self.open[at] {
            return Depth::Endless;
        }
        self.open[at] = true;
        let named = (self.names)(at);
        let deepest = named.into_iter().map(|next| self.depth(next)).max();
        self.open[at] = false;
        let depth = match deepest {
            None => Depth::Levels(1),
            Some(Depth::Levels(levels)) => Depth::Levels(levels + 1),
            Some(Depth::Endless) => Depth::Endless,
        };
        // In a ring, the first met is endless for certain, and so is all that leads to it.
        self.known[at] = Some(depth);
        depth
    }
}

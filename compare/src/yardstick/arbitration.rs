//! Arbitration, and running lists, in the lent state and trace themselves: no
//! list of an accepted table starts at an eighth level, so nothing is undone.

use super::state::*;
use super::table::*;

/// A rule's result that is none.
const UNDEFINED: u32 = 2;

/// An event being taken.
pub struct Run<'a> {
    pub table: &'a Table<'a>,
    /// The ports each expression mentions.
    pub mentions: &'a [u64],
    pub state: State<'a>,
    pub trace: &'a mut [u32],
    pub count: usize,
    /// Ports that are undefined. No list changes that.
    pub undefined: u64,
}

impl Run<'_> {
    pub fn arbitrate(&mut self, arbitrated: u64) {
        let ports = self.state.ports.iter_mut().enumerate();
        self.undefined = ports.fold(0, |set, (number, port)| {
            *port &= if has(arbitrated, number as u32) { !MARKED } else { u32::MAX };
            set | u64::from(!*port >> 31) << number
        });
        let mut chosen = [0u64; 4];
        let mut some = false;
        // Every rule is evaluated before any list runs.
        for (number, &rule) in self.table.rules.iter().enumerate() {
            let expression = rule_expression(rule);
            let mentions = self.mentions[expression];
            let concerned = field(rule, 25, 1) == 0 && mentions & arbitrated != 0;
            if !concerned || mentions & self.undefined != 0 {
                continue;
            }
            let result = self.evaluate(expression);
            if let Some(list) = self.store(number, rule, result) {
                chosen[list as usize / 64] |= 1 << (list % 64);
                some = true;
            }
        }
        if some {
            self.run_chosen(chosen);
        }
    }

    /// Once each, larger priority first, then lower number.
    fn run_chosen(&mut self, chosen: [u64; 4]) {
        let (mut order, mut count) = ([0u16; 256], 0);
        for (part, mut set) in chosen.into_iter().enumerate() {
            while set != 0 {
                let list = part as u32 * 64 + set.trailing_zeros();
                let priority = field(self.table.lists[list as usize], 19, 8);
                order[count] = ((255 - priority) << 8 | list) as u16;
                count += 1;
                set &= set - 1;
            }
        }
        order[..count].sort_unstable();
        order[..count].iter().for_each(|&list| self.run_list(u32::from(list & 0xFF)));
    }

    /// By the current values.
    fn evaluate(&self, number: usize) -> bool {
        let word = self.table.expressions[number];
        let kind = top(word);
        if kind < 4 {
            let value = value(self.state.ports[named_port(word) as usize]);
            return match kind {
                0 => value == field(word, 12, 8),
                1 => value != field(word, 12, 8),
                2 => value == 1,
                _ => value == 0,
            };
        }
        let [left, right] = arguments(word);
        let left = self.evaluate(left);
        match kind {
            4 => left && self.evaluate(right),
            5 => left || self.evaluate(right),
            6 => left != self.evaluate(right),
            7 => !(left && self.evaluate(right)),
            _ => !left,
        }
    }

    /// Stores a rule's result and gives the list it starts: the one for that
    /// result, if it is conditional or the result is not the previous one.
    #[inline]
    fn store(&mut self, number: usize, rule: u32, result: bool) -> Option<u32> {
        let last = u32::from(result) << STATUS;
        let previous = std::mem::replace(&mut self.state.rules[number], last);
        let list = rule_lists(rule)[result as usize];
        if list == NO_LIST {
            return None;
        }
        let triggered = field(self.table.lists[list as usize], 27, 1) == 1;
        (!triggered || previous != last).then_some(list)
    }

    fn run_list(&mut self, number: u32) {
        let table = self.table;
        let list = table.lists[number as usize];
        let owner = top(list) << 24;
        self.write(0xF000_0000 | owner | number << 16);
        for &item in table.items_of(list) {
            let named = named(item) as usize;
            match top(item) {
                0 => {}
                1 => self.state.ports[named] &= !(0xFF << VALUE),
                2 => {
                    let reload = table.ports[named] & 0xFFFF;
                    self.state.ports[named] = DEFINED | MARKED | STARTED << VALUE | reload;
                }
                3 => self.state.ports[named] = DEFINED | MARKED,
                4 => {
                    let network = &mut self.state.networks[named];
                    *network = *network << 2 >> 2 | item << ASKED;
                }
                5 => {
                    self.run_list(named as u32);
                    continue;
                }
                _ => {
                    self.run_rule(named, owner);
                    continue;
                }
            }
            // What it names is below 256, so the owner's bits are free in its word.
            self.write(item | owner);
        }
    }

    fn run_rule(&mut self, number: usize, owner: u32) {
        let rule = self.table.rules[number];
        let expression = rule_expression(rule);
        let word = 0x6000_0000 | owner | (number as u32) << 16;
        if self.mentions[expression] & self.undefined != 0 {
            self.write(word | UNDEFINED);
            return;
        }
        let result = self.evaluate(expression);
        self.write(word | u32::from(result));
        if let Some(list) = self.store(number, rule, result) {
            self.run_list(list);
        }
    }

    #[inline]
    fn write(&mut self, word: u32) {
        self.trace[self.count] = word;
        self.count += 1;
    }
}

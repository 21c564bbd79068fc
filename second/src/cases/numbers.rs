//! Expressions, rules and lists numbered anew, so that names point forward as well as back.

use super::draft::Draft;
use super::prng::Prng;
use crate::words::*;

/// The new number of each expression, rule and list.
pub struct Numbers {
    expressions: Vec<usize>,
    rules: Vec<usize>,
    pub lists: Vec<usize>,
}

/// The same table with its things in any order.
pub fn renumbered(rng: &mut Prng, draft: Draft) -> Draft {
    Numbers::drawn(rng, &draft).given_to(&draft)
}

fn new(numbers: &[usize], named: u32) -> u32 {
    numbers[named as usize] as u32
}

impl Numbers {
    pub fn drawn(rng: &mut Prng, draft: &Draft) -> Self {
        Numbers {
            expressions: rng.order(draft.expressions.len()),
            rules: rng.order(draft.rules.len()),
            lists: rng.order(draft.lists.len()),
        }
    }

    /// Has this list change numbers with the one that would be the last.
    pub fn put_last(&mut self, list: usize) {
        let last = self.lists.iter().position(|&number| number + 1 == self.lists.len());
        if let Some(last) = last {
            self.lists.swap(list, last);
        }
    }

    /// The same table with these numbers.
    pub fn given_to(&self, draft: &Draft) -> Draft {
        let list = |named: u32| if named == NO_LIST { NO_LIST } else { new(&self.lists, named) };
        let mut renumbered = draft.clone();
        for (&number, &expression) in self.expressions.iter().zip(&draft.expressions) {
            renumbered.expressions[number] = self.expression(expression);
        }
        for (&number, &rule) in self.rules.iter().zip(&draft.rules) {
            renumbered.rules[number] = Rule {
                expression: new(&self.expressions, rule.expression),
                true_list: list(rule.true_list),
                false_list: list(rule.false_list),
                ..rule
            };
        }
        for (&number, &list) in self.lists.iter().zip(&draft.lists) {
            renumbered.lists[number] = list;
        }
        for item in &mut renumbered.items {
            match item.kind {
                item::LIST => item.a = new(&self.lists, item.a),
                item::RULE => item.a = new(&self.rules, item.a),
                _ => {}
            }
        }
        renumbered
    }

    fn expression(&self, expression: Expression) -> Expression {
        let Expression::Operator(operator) = expression else {
            return expression;
        };
        let left = new(&self.expressions, operator.left);
        let rightless = operator.kind == expression::NOT;
        let right = if rightless { 0 } else { new(&self.expressions, operator.right) };
        Expression::Operator(Operator { left, right, ..operator })
    }
}

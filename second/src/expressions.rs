//! Expressions: what they mention, what they give, and nesting in general.

use crate::words::{Condition, Expression, LEVELS, Table, expression};

/// The depth of each thing, given what each names: 1 plus the deepest it
/// names; None where that is above seven or without end. Found level by level,
/// for the paths may be too many to walk.
pub fn depths(names: &[Vec<usize>]) -> Vec<Option<u32>> {
    let mut depth = vec![None; names.len()];
    for level in 1..=LEVELS {
        let stands = |&thing: &usize| {
            depth[thing].is_none() && names[thing].iter().all(|&named| depth[named].is_some())
        };
        let found: Vec<usize> = (0..names.len()).filter(stands).collect();
        for thing in found {
            depth[thing] = Some(level);
        }
    }
    depth
}

/// Whether an expression mentions a port for which `wanted` holds. This is
/// static: no part is passed over because another decides the value.
pub fn mentions(table: &Table, number: usize, wanted: &dyn Fn(usize) -> bool) -> bool {
    match table.expression(number) {
        Expression::Condition(condition) => wanted(condition.port as usize),
        operator => operator.arguments().any(|argument| mentions(table, argument, wanted)),
    }
}

/// What an expression gives where the ports have these values. Both sides are
/// always evaluated, so that programs that skip one can be judged by it.
pub fn evaluate(table: &Table, number: usize, value: &dyn Fn(usize) -> u32) -> bool {
    let argument = |number: u32| evaluate(table, number as usize, value);
    match table.expression(number) {
        Expression::Condition(condition) => holds(condition, value(condition.port as usize)),
        Expression::Operator(operator) => match operator.kind {
            expression::AND => argument(operator.left) & argument(operator.right),
            expression::OR => argument(operator.left) | argument(operator.right),
            expression::XOR => argument(operator.left) != argument(operator.right),
            expression::NAND => !(argument(operator.left) & argument(operator.right)),
            _ => !argument(operator.left),
        },
    }
}

/// Request Q-10: how many expression words an evaluation visits where the ports have these values,
/// "counted left before right with the skipping of Q-3", each visit again. A count of its own
/// beside what the expression gives, for that is evaluated without skipping.
pub fn visits(table: &Table, number: usize, value: &dyn Fn(usize) -> u32) -> u64 {
    let Expression::Operator(operator) = table.expression(number) else {
        return 1;
    };
    let argument = |number: u32| visits(table, number as usize, value);
    let left = evaluate(table, operator.left as usize, value);
    // "Once the left side settles an AND, OR or NAND, skip the right side."
    let reads_right = match operator.kind {
        expression::AND | expression::NAND => left,
        expression::OR => !left,
        expression::XOR => true,
        // NOT's right is a zero field, no argument.
        _ => false,
    };
    1 + argument(operator.left) + if reads_right { argument(operator.right) } else { 0 }
}

fn holds(condition: Condition, value: u32) -> bool {
    match condition.kind {
        expression::EQUAL => value == condition.value,
        expression::NOT_EQUAL => value != condition.value,
        expression::SET => value == 1,
        expression::CLEARED => value == 0,
        // "true exactly if the port's value is not below the given one."
        expression::AT_OR_ABOVE => value >= condition.value,
        kind => unreachable!("the check refuses kind {kind}"),
    }
}

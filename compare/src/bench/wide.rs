//! A rule on 64 conditions joined by ANDs or by ORs, a whole tree seven deep,
//! where one condition decides: the first, so that all else could be skipped,
//! or the last, so that nothing could.

use second::cases::draft::Draft;
use second::words::*;

/// The conditions of a whole tree seven deep: one for each port there can be.
pub const LEAVES: u32 = 64;

/// The values that the conditions hold for, and do not.
const HOLDS: u32 = 1;
const FAILS: u32 = 0;

pub struct Wide {
    pub name: &'static str,
    /// The operator, AND or OR.
    pub joined: u32,
    /// The one condition that is false under AND, or true under OR.
    pub decides: u32,
}

pub const ALL: [Wide; 4] = [
    Wide { name: "AND, the first false", joined: expression::AND, decides: 0 },
    Wide { name: "AND, the last false", joined: expression::AND, decides: LEAVES - 1 },
    Wide { name: "OR, the first true", joined: expression::OR, decides: 0 },
    Wide { name: "OR, the last true", joined: expression::OR, decides: LEAVES - 1 },
];

impl Wide {
    /// Each condition asks for a port of its own.
    pub fn draft(&self) -> Draft {
        let condition = |port| Condition { port, value: HOLDS, ..Default::default() };
        let port = |number| {
            let holds = (number == self.decides) == (self.joined == expression::OR);
            let initial = if holds { HOLDS } else { FAILS };
            Port { has_initial: 1, initial, ..Default::default() }
        };
        let rule = Rule {
            first: UNDEFINED,
            true_list: NO_LIST,
            false_list: NO_LIST,
            ..Default::default()
        };
        Draft {
            ports: (0..LEAVES).map(port).collect(),
            expressions: tree(0, self.joined, condition),
            rules: vec![rule],
            ..Default::default()
        }
    }
}

/// Asks the last port for the value that it has: the rule is evaluated, nothing
/// turns, and a search for the port meets all the others first.
pub fn request(draft: &Draft) -> u32 {
    let index = LEAVES - 1;
    let value = draft.ports[index as usize].initial;
    Event { kind: event::MODE_REQUEST, index, value, ..Default::default() }.word()
}

/// A whole tree of 127 words of its own, as they stand from expression `first`
/// on: the root, and level by level what it joins, last the conditions from
/// left to right.
pub fn tree(first: u32, kind: u32, condition: impl Fn(u32) -> Condition) -> Vec<Expression> {
    let join = |at| {
        let left = first + 2 * at + 1;
        Expression::Operator(Operator { kind, left, right: left + 1 })
    };
    let leaves = (0..LEAVES).map(|leaf| Expression::Condition(condition(leaf)));
    (0..LEAVES - 1).map(join).chain(leaves).collect()
}

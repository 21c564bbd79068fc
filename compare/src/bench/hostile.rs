//! Tables made to be slow: to check, to refuse late, or to run.

use second::cases::draft::Draft;
use second::words::*;

use super::wide::{self, LEAVES, tree};

/// A list's most items, and the most lists.
const FULL: usize = 255;

/// The most lists of as many items that B leaves room for.
pub const LISTS: u32 = 16;

/// A table that is slow, and an event that is slow on it if it is accepted.
pub struct Hostile {
    pub name: String,
    pub draft: Draft,
    pub event: u32,
}

pub fn all() -> Vec<Hostile> {
    let plain = |name: &str, draft| Hostile { name: name.into(), draft, event: 0 };
    let request = Event { kind: event::MODE_REQUEST, index: 1, ..Default::default() }.word();
    let asked = |name, draft| Hostile { event: request, ..plain(name, draft) };
    let wide = wide::ALL.into_iter().map(|wide| {
        let draft = wide.draft();
        let (name, event) = (format!("4,080 rule items, {}", wide.name), wide::request(&draft));
        Hostile { name, event, draft: rule_items(same_rules(draft)) }
    });
    let mut all = vec![
        plain("lists 7 deep, deepest first", started(levels(7, Order::DeepFirst, false))),
        plain("lists 7 deep, deepest last", started(levels(7, Order::DeepLast, false))),
        plain("rules 7 deep, deepest first", started(levels(7, Order::DeepFirst, true))),
        plain("rules 7 deep, deepest last", started(levels(7, Order::DeepLast, true))),
        plain("lists beside a row of seven", started(beside(false))),
        plain("rules beside a row of seven", started(beside(true))),
        plain(
            "lists 7 deep, the last reached by none",
            unreached(levels(7, Order::DeepLast, false)),
        ),
        plain(
            "rules 7 deep, the last reached by none",
            unreached(levels(7, Order::DeepLast, true)),
        ),
        plain("lists 8 deep, the last only", levels(8, Order::DeepLast, false)),
        plain("lists, the last one a ring", ring(false, false)),
        plain("lists, each a ring at its last item", ring(true, false)),
        plain("rules, each a ring at its last item", ring(true, true)),
        plain("lists 7 deep, the last item a stranger's", stranger()),
        asked("expressions 7 deep, 256 rules", expressions(7)),
        plain("expressions, the last 8 deep", expressions(8)),
        plain("expressions, and rules beside a row of seven", both()),
        asked("255 lists chosen at once, last one first", chosen()),
        asked("4,080 rule items, the most visits", rule_items(same_rules(repeated()))),
        asked("4,080 rule items of expressions 7 deep", rule_items(expressions(7))),
        asked("4,080 rule items, no branch shared", rule_items(unshared())),
        asked("4,080 rule items, conditions at or above", rule_items(leveled(expressions(7)))),
        asked("4,080 rule items, a port undefined", rule_items(undefined(expressions(7)))),
        asked("4,080 rule items, both of these", rule_items(undefined(unshared()))),
    ];
    all.extend(wide);
    all
}

#[derive(Clone, Copy, PartialEq, Eq)]
enum Order {
    DeepFirst,
    DeepLast,
}

/// One port, one expression, one rule, no lists.
fn least() -> Draft {
    Draft {
        ports: vec![Port { has_initial: 1, ..Default::default() }; 2],
        expressions: vec![Expression::of(0)],
        rules: vec![rule(0, NO_LIST, NO_LIST)],
        ..Default::default()
    }
}

fn rule(expression: u32, true_list: u32, false_list: u32) -> Rule {
    Rule { expression, true_list, false_list, ..Default::default() }
}

/// As many lists as there can be in so many levels of equal width. The lists of
/// a level share 255 items; all but the last name lists of the lowest level, so
/// that a search level by level reads a list to its end before it learns that
/// it must come again, and only the last names the level below.
fn levels(deep: usize, order: Order, by_rules: bool) -> Draft {
    let mut draft = least();
    let each = FULL / deep;
    let number = |level: usize, at: usize| {
        let list = level * each + at % each;
        if order == Order::DeepLast { list as u32 } else { (deep * each - 1 - list) as u32 }
    };
    draft.lists = vec![List::default(); deep * each];
    for level in 0..deep {
        let list = List { first: (level * FULL) as u32, count: FULL as u32, ..Default::default() };
        for at in 0..each {
            draft.lists[number(level, at) as usize] = list;
        }
        for at in 0..FULL {
            let below = if at + 1 == FULL { level.saturating_sub(1) } else { 0 };
            let item = match level {
                0 => Item::default(),
                _ if by_rules => rule_item(&mut draft, number(below, at), number(below, at + 1)),
                _ => list_item(number(below, at)),
            };
            draft.items.push(item);
        }
    }
    draft
}

/// With rules that start every list, so that each is read to its end for what it
/// reaches, and the table is refused for its cost alone.
fn started(mut draft: Draft) -> Draft {
    let lists: Vec<u32> = (0..draft.lists.len() as u32).collect();
    let starts = lists.chunks(2).map(|pair| rule(0, pair[0], *pair.get(1).unwrap_or(&NO_LIST)));
    draft.rules.extend(starts);
    draft
}

/// The same but for the last list, which no other names.
fn unreached(draft: Draft) -> Draft {
    let mut draft = started(draft);
    let last = draft.lists.len() as u32 - 1;
    for rule in &mut draft.rules {
        for list in [&mut rule.true_list, &mut rule.false_list] {
            *list = if *list == last { NO_LIST } else { *list };
        }
    }
    draft
}

fn list_item(a: u32) -> Item {
    Item::naming(item::LIST, a)
}

/// An item naming a rule with these two lists: one there is, or a new one.
fn rule_item(draft: &mut Draft, true_list: u32, false_list: u32) -> Item {
    let wanted = Rule { nested_only: 1, ..rule(0, true_list, false_list) };
    let found = draft.rules.iter().position(|rule| *rule == wanted);
    let a = found.unwrap_or(draft.rules.len());
    if a == draft.rules.len() {
        draft.rules.push(wanted);
    }
    Item::naming(item::RULE, a as u32)
}

/// A row of seven lists, so that a search level by level needs all its rounds,
/// and beside it as many lists as there can be that stand from the second
/// round on and are read to their end in each: they share 255 items that name
/// the end of the row.
fn beside(by_rules: bool) -> Draft {
    let mut draft = least();
    draft.items = (1..7).map(list_item).chain([Item::default()]).collect();
    let item = if by_rules { rule_item(&mut draft, 6, 6) } else { list_item(6) };
    draft.items.extend([item; FULL]);
    draft.lists = (0..7).map(|first| List { first, count: 1, ..Default::default() }).collect();
    draft.lists.resize(FULL, List { first: 7, count: 255, ..Default::default() });
    draft
}

/// One list of calls; all others share 255 items that name it, but for the
/// last, which names the last list. Every list reads that item and so leads
/// into the ring, or the last list alone does.
fn ring(all: bool, by_rules: bool) -> Draft {
    let mut draft = least();
    let last = FULL as u32 - 1;
    let mut name = |list: u32| match by_rules {
        true => rule_item(&mut draft, list, 0),
        false => list_item(list),
    };
    let (calls, back) = (name(0), name(last));
    draft.items = vec![Item::default(); FULL];
    draft.items.extend([calls; FULL - 1]);
    draft.items.push(back);
    let list = |first, count| List { first, count, ..Default::default() };
    draft.lists = vec![list(255, if all { 255 } else { 254 }); FULL];
    draft.lists[0] = list(0, 255);
    draft.lists[last as usize] = list(255, 255);
    draft
}

/// Lists nested seven deep whose lowest level ends in a stranger's port: the
/// owners are read to the last item of the last list.
fn stranger() -> Draft {
    let mut draft = levels(7, Order::DeepFirst, false);
    draft.ports.push(Port { kind: port::EVENT, owner: 2, ..Default::default() });
    draft.ports.iter_mut().take(2).for_each(|port| port.owner = 1);
    draft.rules.iter_mut().for_each(|rule| rule.owner = 1);
    draft.lists.iter_mut().for_each(|list| list.owner = 1);
    draft.items[FULL - 1] = Item::naming(item::CLEAR_EVENT, 2);
    // Only the last list reaches that item.
    let last = draft.lists.len() - 1;
    draft.lists[..last].iter_mut().filter(|l| l.first == 0).for_each(|list| list.count = 254);
    draft
}

/// As many expressions as there can be of this depth, each a whole tree of
/// XOR, so that every visit is made, with port 1 at its last leaf alone. The
/// trees share their branches. Each rule has one of its own.
fn expressions(deep: usize) -> Draft {
    let mut draft = least();
    draft.expressions.clear();
    let leaf = |port| Expression::Condition(Condition { port, ..Default::default() });
    let xor = |left, right| Expression::Operator(Operator { kind: expression::XOR, left, right });
    draft.expressions.extend([leaf(0), leaf(1)]);
    for level in 1..6 {
        let below = 2 * (level - 1);
        draft.expressions.extend([xor(below, below), xor(below, below + 1)]);
    }
    draft.expressions.resize(512, xor(10, 11));
    if deep > 7 {
        draft.expressions[511] = xor(510, 510);
    }
    draft.rules = (0..256).map(|r| rule(12 + r, NO_LIST, NO_LIST)).collect();
    draft
}

/// The slow expressions in the rules that the slow lists name.
fn both() -> Draft {
    let lists = started(beside(true));
    let mut draft = Draft { rules: lists.rules, ..expressions(7) };
    for (number, rule) in draft.rules.iter_mut().enumerate() {
        rule.expression = 12 + number as u32;
    }
    draft.rules.resize(256, rule(300, NO_LIST, NO_LIST));
    draft.lists = lists.lists;
    draft.items = lists.items;
    draft
}

/// One event chooses every list there can be, by slow expressions, and the
/// lists run in the order opposite to their numbers.
fn chosen() -> Draft {
    let mut draft = expressions(7);
    draft.items = vec![Item::default(); 15];
    let list = |priority| List { priority, first: 0, count: 15, ..Default::default() };
    draft.lists = (0..FULL as u32).map(list).collect();
    for number in 0..FULL as u32 {
        draft.rules[number as usize] = rule(12 + number, number, number);
    }
    draft
}

/// As `expressions`, in whole trees of 127 words each that share no branch: as
/// many as there can be.
fn unshared() -> Draft {
    let mut draft = expressions(7);
    let condition = |leaf| Condition { port: (leaf == LEAVES - 1) as u32, ..Default::default() };
    let roots = [0, 1, 2, 3].map(|number| number * (2 * LEAVES - 1));
    let trees = roots.map(|root| tree(root, expression::XOR, condition));
    draft.expressions = trees.concat();
    for (rule, root) in draft.rules.iter_mut().zip(roots.into_iter().cycle()) {
        rule.expression = root;
    }
    draft
}

/// With each condition at or above its value, the last kind that is asked for.
fn leveled(mut draft: Draft) -> Draft {
    for expression in &mut draft.expressions {
        if let Expression::Condition(condition) = expression {
            condition.kind = expression::AT_OR_ABOVE;
        }
    }
    draft
}

/// With as many ports as there can be. The last has no value at first and is
/// never asked for one, and no rule mentions it; so that some port is undefined
/// says nothing of a rule.
fn undefined(mut draft: Draft) -> Draft {
    draft.ports.resize(63, draft.ports[0]);
    draft.ports.push(Port::default());
    draft
}

/// One rule on a whole tree of XOR that is seven words: each joins the one before with itself, the first is a condition on port 1.
pub fn repeated() -> Draft {
    let mut draft = least();
    let leaf = Expression::Condition(Condition { port: 1, ..Default::default() });
    let join = |below| {
        let operator = Operator { kind: expression::XOR, left: below, right: below };
        Expression::Operator(operator)
    };
    draft.expressions = [leaf].into_iter().chain((0..LEVELS - 1).map(join)).collect();
    draft.rules = vec![rule(LEVELS - 1, NO_LIST, NO_LIST)];
    draft
}

/// As many rules as there can be, each as the only one there is.
fn same_rules(mut draft: Draft) -> Draft {
    draft.rules.resize(256, draft.rules[0]);
    draft
}

/// One event starts 16 lists of 255 rule items each, and each item visits its
/// rule's expression, the whole of it where that is a tree of XOR: the most that
/// a run can evaluate, for a rule item without lists costs one trace word.
pub fn rule_items(mut draft: Draft) -> Draft {
    // The first rules start the lists, the others are in the lists' items.
    let others = draft.rules.len() as u32 - LISTS;
    let item = |i| Item::naming(item::RULE, LISTS + i % others);
    draft.items = (0..FULL as u32).map(item).collect();
    draft.lists = vec![List { first: 0, count: 255, ..Default::default() }; LISTS as usize];
    for (list, rule) in (0..LISTS).zip(&mut draft.rules) {
        (rule.true_list, rule.false_list) = (list, list);
    }
    draft
}

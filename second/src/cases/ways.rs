//! Ways to lists: rows of lists of which each is reached by the one before alone, and the first by
//! a rule. Whole, they reach all their lists; cut, nothing reaches the lists after the cut.

use super::draft::{Draft, SEVEN};
use super::numbers::{Numbers, renumbered};
use super::prng::Prng;
use crate::words::*;

/// A way, from the list that a rule starts to the last.
struct Way {
    /// Its rules are like this one.
    model: Rule,
    lists: Vec<usize>,
    /// What leads from each list to the next.
    steps: Vec<Step>,
}

struct Step {
    /// The item that names the next list, or a rule that has it.
    item: usize,
    rule: Option<usize>,
}

/// The good table with ways besides.
pub fn with_ways(rng: &mut Prng, good: &Draft) -> Draft {
    let mut draft = good.clone();
    for _ in 0..1 + rng.below(3) {
        let way = add_way(rng, &mut draft);
        add_rule(rng, &mut draft, 0, &way, 0);
        if rng.chance(40) {
            let step = rng.below(way.lists.len());
            share(rng, &mut draft, &way, step);
        }
        if rng.chance(25) {
            // Nothing starts the rule, and its list is reached without it.
            let list = rng.below(way.lists.len());
            add_rule(rng, &mut draft, 1, &way, list);
        }
    }
    renumbered(rng, draft)
}

/// The good table with ways besides, at least one of them cut, and the lowest list that is then
/// not reached.
pub fn with_cut_ways(rng: &mut Prng, good: &Draft) -> (Draft, usize) {
    let mut draft = good.clone();
    let first = add_way(rng, &mut draft);
    let mut unreached = cut(rng, &mut draft, &first);
    for _ in 0..rng.below(3) {
        let way = add_way(rng, &mut draft);
        if rng.chance(50) {
            unreached.extend(cut(rng, &mut draft, &way));
        } else {
            add_rule(rng, &mut draft, 0, &way, 0);
        }
    }
    in_any_order(rng, &draft, &unreached)
}

/// The good table with rules and items turned away from lists until something is not reached, and
/// the lowest such list.
pub fn turned_away(rng: &mut Prng, good: &Draft) -> Option<(Draft, usize)> {
    let mut draft = good.clone();
    for _ in 0..20 {
        turn_away(rng, &mut draft);
        let unreached = draft.unreached();
        if !unreached.is_empty() {
            return Some(in_any_order(rng, &draft, &unreached));
        }
    }
    None
}

/// A ring of lists that nothing reaches, besides the good table.
pub fn with_ring(rng: &mut Prng, good: &Draft) -> Draft {
    let mut draft = good.clone();
    let way = add_way(rng, &mut draft);
    let (first, last) = (way.lists[0], way.lists[way.lists.len() - 1]);
    let closing = draft.lists[last].items().start;
    draft.items[closing] = Item::naming(item::LIST, first as u32);
    renumbered(rng, draft)
}

/// New numbers for all, and the lowest of the lists given. A list alone is at times put last.
fn in_any_order(rng: &mut Prng, draft: &Draft, lists: &[usize]) -> (Draft, usize) {
    let mut numbers = Numbers::drawn(rng, draft);
    if lists.len() == 1 && rng.chance(30) {
        numbers.put_last(lists[0]);
    }
    let lowest = lists.iter().map(|&list| numbers.lists[list]).min();
    (numbers.given_to(draft), lowest.expect("a list that is not reached"))
}

fn call(rng: &mut Prng) -> Item {
    Item::call(rng.within(0, 65535))
}

/// Lists of one owner, made from the last up to the first, which nothing starts yet.
fn add_way(rng: &mut Prng, draft: &mut Draft) -> Way {
    let mut way = Way { model: rng.pick(&draft.rules), lists: vec![], steps: vec![] };
    let last = [call(rng)];
    way.lists.push(add_list(rng, draft, way.model.owner, &last));
    for _ in 1..rng.within(1, SEVEN) {
        let rule = rng.chance(50).then(|| add_rule(rng, draft, 1, &way, 0));
        let naming = match rule {
            Some(rule) => Item::naming(item::RULE, rule as u32),
            None => Item::naming(item::LIST, way.lists[0] as u32),
        };
        let before = rng.below(3);
        let mut items: Vec<Item> = (0..before).map(|_| call(rng)).collect();
        items.push(naming);
        items.extend((0..rng.below(3)).map(|_| call(rng)));
        way.steps.insert(0, Step { item: draft.items.len() + before, rule });
        way.lists.insert(0, add_list(rng, draft, way.model.owner, &items));
    }
    way
}

fn add_list(rng: &mut Prng, draft: &mut Draft, owner: u32, items: &[Item]) -> usize {
    let triggered = rng.chance(50);
    draft.add_list(rng, owner, triggered, items) as usize
}

/// A rule that has the way's list for one result or for both.
fn add_rule(rng: &mut Prng, draft: &mut Draft, nested_only: u32, way: &Way, list: usize) -> usize {
    let (list, first) = (way.lists[list] as u32, rng.within(0, UNDEFINED));
    let (true_list, false_list) = rng.pick(&[(list, NO_LIST), (NO_LIST, list), (list, list)]);
    let rule = Rule { first, nested_only, true_list, false_list, ..way.model };
    draft.add_rule(rule) as usize
}

/// A list with a rule of its own that holds the step's item too, if there is such a step.
fn share(rng: &mut Prng, draft: &mut Draft, way: &Way, step: usize) {
    let Some(&Step { item, .. }) = way.steps.get(step) else {
        return;
    };
    let items = draft.lists[way.lists[step]].items();
    let first = rng.within(items.start as u32, item as u32);
    let count = rng.within(item as u32 + 1, items.end as u32) - first;
    let sharing = List { first, count, ..draft.lists[way.lists[step]] };
    draft.lists.push(sharing);
    let list = draft.lists.len() as u32 - 1;
    draft.add_rule(Rule { nested_only: 0, true_list: list, false_list: NO_LIST, ..way.model });
}

/// Cuts the way; gives the lists that are then not reached. They end where a list shares an item.
fn cut(rng: &mut Prng, draft: &mut Draft, way: &Way) -> Vec<usize> {
    let at = rng.below(way.lists.len());
    if at == 0 {
        leave_unstarted(rng, draft, way);
    } else {
        add_rule(rng, draft, 0, way, 0);
        cut_step(rng, draft, way, at - 1);
    }
    let mut end = way.lists.len();
    if at < way.steps.len() && rng.chance(40) {
        let step = at + rng.below(way.steps.len() - at);
        share(rng, draft, way, step);
        end = step + 1;
    }
    way.lists[at..end].to_vec()
}

/// Nothing has the first list, or only what starts nothing.
fn leave_unstarted(rng: &mut Prng, draft: &mut Draft, way: &Way) {
    match rng.below(4) {
        0 => {}
        1 => {
            add_rule(rng, draft, 1, way, 0);
        }
        // The last item is in no list.
        2 => draft.items.push(Item::naming(item::LIST, way.lists[0] as u32)),
        _ => {
            let rule = add_rule(rng, draft, 1, way, 0);
            draft.items.push(Item::naming(item::RULE, rule as u32));
        }
    }
}

/// Turns the step's item or rule away, or leaves the item out of its list.
fn cut_step(rng: &mut Prng, draft: &mut Draft, way: &Way, number: usize) {
    let Step { item, rule } = way.steps[number];
    let list = &mut draft.lists[way.lists[number]];
    let (items, several) = (list.items(), list.count > 1);
    match (rng.below(3), rule) {
        (0, _) if several && item == items.start => {
            *list = List { first: list.first + 1, count: list.count - 1, ..*list };
        }
        (0, _) if several && item + 1 == items.end => list.count -= 1,
        (1, Some(rule)) => {
            let none = Rule { true_list: NO_LIST, false_list: NO_LIST, ..draft.rules[rule] };
            draft.rules[rule] = none;
        }
        _ => draft.items[item] = call(rng),
    }
}

fn turn_away(rng: &mut Prng, draft: &mut Draft) {
    let number = rng.below(draft.rules.len());
    let rule = &mut draft.rules[number];
    match rng.weighed(&[3, 3, 3, 3, 1, 3]) {
        0 => rule.nested_only = 1,
        1 => rule.true_list = NO_LIST,
        2 => rule.false_list = NO_LIST,
        3 if draft.rules.len() > 1 => delete_rule(rng, draft, number as u32),
        4 => draft.rules.iter_mut().for_each(|rule| rule.nested_only = 1),
        _ if !draft.items.is_empty() => {
            let item = rng.below(draft.items.len());
            draft.items[item] = call(rng);
        }
        _ => {}
    }
}

/// "A list stayed in a table after its rule was deleted".
fn delete_rule(rng: &mut Prng, draft: &mut Draft, number: u32) {
    draft.rules.remove(number as usize);
    for item in draft.items.iter_mut().filter(|item| item.kind == item::RULE) {
        match item.a {
            a if a == number => *item = call(rng),
            a if a > number => item.a -= 1,
            _ => {}
        }
    }
}

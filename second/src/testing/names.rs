//! What names each list: by which ways the lists of a table are reached, and for want of which a
//! list is not.

use super::coverage::{Met, Row};
use crate::cases::draft::Draft;
use crate::words::*;

const BY_TRUE: &str = "list reached only by one rule: true";
const BY_FALSE: &str = "list reached only by one rule: false";
const BY_BOTH: &str = "list reached only by one rule: both results";
const BY_TWO_RULES: &str = "list reached only by two rules or more";
const BY_NAME: &str = "list reached only by named lists";
const BY_ITEM_TRUE: &str = "list reached only by rule items: true";
const BY_ITEM_FALSE: &str = "list reached only by rule items: false";
const BY_ITEM_BOTH: &str = "list reached only by rule items: both results";
const BY_NAME_AND_ITEM: &str = "list reached only by named lists and rule items";
const BY_RULE_AND_NAME: &str = "list reached by a rule and by a named list";
const BY_RULE_AND_ITEM: &str = "list reached by a rule and by a nested-only rule's item";
const BY_FIRST_ITEM: &str = "list reached only by the first of several items";
const BY_INNER_ITEM: &str = "list reached only by an inner item";
const BY_LAST_ITEM: &str = "list reached only by the last of several items";
const BY_SHARED_ITEM: &str = "list reached only by items of two lists";
const BY_HIGHER: &str = "list reached only by higher lists";
const BY_LOWER: &str = "list reached only by lower lists";
const OPERATORS: &str = "operator's list reached only by lists";
const PLATFORMS: &str = "platform's list reached only by lists";
const LONG_WAY: &str = "list reached only through three lists and a rule item";
const LAST_BY_RULE: &str = "list 254 reached by a rule";
const LAST_BY_LISTS: &str = "list 254 reached only by lists";
const IDLE_RULE: &str = "nested-only rule that no list names, its lists reached";
const NAMED_RULE: &str = "rule item on a rule that isn't nested-only";
const SPARE_NAME: &str = "item in no list names a list that is reached";

const NOT_NAMED: &str = "not reached: nothing names it";
const NOT_STARTED: &str = "not reached: only a nested-only rule that no item names";
const NOT_BY_NAME: &str = "not reached: only a list that isn't names it";
const NOT_BY_ITEM: &str = "not reached: only a rule item in a list that isn't";
const NOT_BY_SPARE_NAME: &str = "not reached: only an item in no list names it";
const NOT_BY_SPARE_ITEM: &str = "not reached: only a rule item in no list";
const NOT_BY_NUMBER: &str = "not reached: a reached list's item of another kind has its number";
const NOT_SHARING: &str = "not reached: a lower list is, by an item of both";
const NOT_ALONE: &str = "not reached: several, the lowest is the place";
const NOT_ONE: &str = "not reached: all of several lists";
const NOT_FIRST: &str = "not reached: list 0 of several";
const NOT_LAST: &str = "not reached: only the last list of several";
const NOT_254: &str = "not reached: only list 254";
const NOT_OPERATORS: &str = "not reached: operator's list";
const NOT_PLATFORMS: &str = "not reached: platform's list";
pub const TOO_DEEP: &str = "nested too deep at a list that is not reached";
pub const CLASHING: &str = "owners clash and a list is not reached";

pub const ROWS: [&str; 42] = [
    BY_TRUE,
    BY_FALSE,
    BY_BOTH,
    BY_TWO_RULES,
    BY_NAME,
    BY_ITEM_TRUE,
    BY_ITEM_FALSE,
    BY_ITEM_BOTH,
    BY_NAME_AND_ITEM,
    BY_RULE_AND_NAME,
    BY_RULE_AND_ITEM,
    BY_FIRST_ITEM,
    BY_INNER_ITEM,
    BY_LAST_ITEM,
    BY_SHARED_ITEM,
    BY_HIGHER,
    BY_LOWER,
    OPERATORS,
    PLATFORMS,
    LONG_WAY,
    LAST_BY_RULE,
    LAST_BY_LISTS,
    IDLE_RULE,
    NAMED_RULE,
    SPARE_NAME,
    NOT_NAMED,
    NOT_STARTED,
    NOT_BY_NAME,
    NOT_BY_ITEM,
    NOT_BY_SPARE_NAME,
    NOT_BY_SPARE_ITEM,
    NOT_BY_NUMBER,
    NOT_SHARING,
    NOT_ALONE,
    NOT_ONE,
    NOT_FIRST,
    NOT_LAST,
    NOT_254,
    NOT_OPERATORS,
    NOT_PLATFORMS,
    TOO_DEEP,
    CLASHING,
];

/// What names each list.
pub struct Names<'a> {
    draft: &'a Draft,
    /// The rules that have it.
    rules: Vec<Vec<usize>>,
    /// The items of lists that name it or a rule that has it, each with its list.
    items: Vec<Vec<(usize, usize)>>,
    /// In how many lists each item is.
    held: Vec<usize>,
}

impl<'a> Names<'a> {
    pub fn of(draft: &'a Draft) -> Self {
        let has = |list: usize| {
            let rules = 0..draft.rules.len();
            rules.filter(move |&rule| draft.rules[rule].lists().any(|l| l == list)).collect()
        };
        let mut items = vec![vec![]; draft.lists.len()];
        let mut held = vec![0; draft.items.len()];
        for (holder, list) in draft.lists.iter().enumerate() {
            for item in list.items() {
                held[item] += 1;
                for named in draft.named_by_item(&draft.items[item]) {
                    items[named].push((holder, item));
                }
            }
        }
        items.iter_mut().for_each(|names: &mut Vec<_>| names.dedup());
        Names { draft, rules: (0..draft.lists.len()).map(has).collect(), items, held }
    }

    /// The rules that have the list and aren't nested-only.
    fn starting(&self, list: usize) -> Vec<usize> {
        let starts = |&rule: &usize| self.draft.rules[rule].nested_only == 0;
        self.rules[list].iter().copied().filter(starts).collect()
    }

    fn is_rule_item(&self, item: usize) -> bool {
        self.draft.items[item].kind == item::RULE
    }

    /// The row for the results for which the rules have the list.
    fn by_results(&self, rules: &[usize], list: usize, rows: [&'static str; 3]) -> &'static str {
        let for_result = |result: bool| {
            rules.iter().any(|&rule| self.draft.rules[rule].list_for(result) == Some(list))
        };
        match (for_result(true), for_result(false)) {
            (true, false) => rows[0],
            (false, true) => rows[1],
            _ => rows[2],
        }
    }

    pub fn meet_reached(&self, met: &mut Met) {
        for list in 0..self.draft.lists.len() {
            met.insert(Row::Special(self.reached_by(list)));
            if self.starting(list).is_empty() {
                self.meet_passage(list, met);
            } else if list == 254 {
                met.insert(Row::Special(LAST_BY_RULE));
            }
        }
        self.meet_distances(met);
        self.meet_rules(met);
        let spare = |item: usize| self.held[item] == 0;
        if (0..self.held.len()).any(|i| spare(i) && self.draft.items[i].kind == item::LIST) {
            met.insert(Row::Special(SPARE_NAME));
        }
    }

    fn reached_by(&self, list: usize) -> &'static str {
        let starting = self.starting(list);
        let (by_item, by_name): (Vec<usize>, Vec<usize>) =
            self.items[list].iter().map(|&(_, item)| item).partition(|&i| self.is_rule_item(i));
        let rules: Vec<usize> = by_item.iter().map(|&i| self.draft.items[i].a as usize).collect();
        let nested = rules.iter().any(|&rule| self.draft.rules[rule].nested_only == 1);
        match (starting.len(), by_name.is_empty(), rules.is_empty()) {
            (0, false, true) => BY_NAME,
            (0, false, false) => BY_NAME_AND_ITEM,
            (0, true, _) => {
                self.by_results(&rules, list, [BY_ITEM_TRUE, BY_ITEM_FALSE, BY_ITEM_BOTH])
            }
            (_, false, _) => BY_RULE_AND_NAME,
            _ if nested => BY_RULE_AND_ITEM,
            (1, ..) => self.by_results(&starting, list, [BY_TRUE, BY_FALSE, BY_BOTH]),
            _ => BY_TWO_RULES,
        }
    }

    /// Rows of a list that only lists reach.
    fn meet_passage(&self, list: usize, met: &mut Met) {
        let items = &self.items[list];
        if let [(holder, item)] = items[..] {
            let held = self.draft.lists[holder].items();
            let row = match (item == held.start, item + 1 == held.end) {
                (true, true) => None,
                (true, false) => Some(BY_FIRST_ITEM),
                (false, true) => Some(BY_LAST_ITEM),
                (false, false) => Some(BY_INNER_ITEM),
            };
            met.extend(row.map(Row::Special));
        }
        let platforms = self.draft.lists[list].owner == PLATFORM;
        let rows = [
            (items.iter().all(|&(_, item)| self.held[item] > 1), BY_SHARED_ITEM),
            (items.iter().all(|&(holder, _)| holder > list), BY_HIGHER),
            (items.iter().all(|&(holder, _)| holder < list), BY_LOWER),
            (platforms, PLATFORMS),
            (!platforms, OPERATORS),
            (list == 254, LAST_BY_LISTS),
            (self.is_long_way(list), LONG_WAY),
        ];
        met.extend(rows.iter().filter(|(holds, _)| *holds).map(|&(_, row)| Row::Special(row)));
    }

    /// The one way up passes three lists or more, and a rule item.
    fn is_long_way(&self, list: usize) -> bool {
        let (mut at, mut lists, mut by_item) = (list, 0, false);
        while self.starting(at).is_empty() {
            let [(holder, item)] = self.items[at][..] else {
                return false;
            };
            (at, lists, by_item) = (holder, lists + 1, by_item || self.is_rule_item(item));
        }
        lists >= 3 && by_item
    }

    /// How many lists there are on the shortest way to a list, itself included.
    fn meet_distances(&self, met: &mut Met) {
        let lists = 0..self.draft.lists.len();
        let (mut near, mut far): (Vec<usize>, Vec<usize>) =
            lists.partition(|&list| !self.starting(list).is_empty());
        for distance in 1.. {
            if near.is_empty() {
                return;
            }
            met.insert(Row::Distance(distance));
            let next = |&list: &usize| self.items[list].iter().any(|(l, _)| near.contains(l));
            (near, far) = far.into_iter().partition(next);
        }
    }

    fn meet_rules(&self, met: &mut Met) {
        for (number, rule) in self.draft.rules.iter().enumerate() {
            let names = |item: usize| {
                let Item { kind, a, .. } = self.draft.items[item];
                self.held[item] > 0 && kind == item::RULE && a as usize == number
            };
            let named = (0..self.held.len()).any(names);
            match (rule.nested_only == 1, named, rule.lists().next().is_some()) {
                (true, false, true) => met.insert(Row::Special(IDLE_RULE)),
                (false, true, true) => met.insert(Row::Special(NAMED_RULE)),
                _ => false,
            };
        }
    }

    pub fn meet_unreached(&self, unreached: &[usize], met: &mut Met) {
        let (list, lists) = (unreached[0], self.draft.lists.len());
        met.extend(self.cause(list).map(Row::Special));
        let platforms = self.draft.lists[list].owner == PLATFORM;
        let (alone, last) = (unreached.len() == 1, list + 1 == lists);
        let reached = (0..lists).filter(|list| !unreached.contains(list));
        let mut run = reached.flat_map(|list| &self.draft.items[self.draft.lists[list].items()]);
        let other = |kind: u32| kind != item::LIST && kind != item::OUTSIDE_CALL;
        let rows = [
            (run.any(|item| other(item.kind) && item.a as usize == list), NOT_BY_NUMBER),
            ((0..list).any(|lower| self.is_shared(lower, unreached)), NOT_SHARING),
            (!alone, NOT_ALONE),
            (!alone && unreached.len() == lists, NOT_ONE),
            (list == 0 && lists > 1, NOT_FIRST),
            (alone && last && lists > 1, NOT_LAST),
            (alone && list == 254, NOT_254),
            (platforms, NOT_PLATFORMS),
            (!platforms, NOT_OPERATORS),
        ];
        met.extend(rows.iter().filter(|(holds, _)| *holds).map(|&(_, row)| Row::Special(row)));
    }

    /// Only items that one of these lists holds too reach the list.
    fn is_shared(&self, list: usize, lists: &[usize]) -> bool {
        let by_them = |item: usize| {
            self.items[list].iter().any(|&(holder, i)| i == item && lists.contains(&holder))
        };
        let items = &self.items[list];
        self.starting(list).is_empty() && items.iter().all(|&(_, item)| by_them(item))
    }

    /// What alone has the list that is not reached; None where it is more than one thing.
    fn cause(&self, list: usize) -> Option<&'static str> {
        let names = |item: &Item| self.draft.named_by_item(item).any(|named| named == list);
        let naming: Vec<usize> =
            (0..self.held.len()).filter(|&item| names(&self.draft.items[item])).collect();
        let all = |rule_items: bool, held: bool| {
            let alike = |&item: &usize| {
                self.is_rule_item(item) == rule_items && (self.held[item] > 0) == held
            };
            naming.iter().all(alike)
        };
        match (naming.is_empty(), self.rules[list].is_empty()) {
            (true, true) => Some(NOT_NAMED),
            (true, false) => Some(NOT_STARTED),
            (false, true) if all(false, true) => Some(NOT_BY_NAME),
            (false, true) if all(false, false) => Some(NOT_BY_SPARE_NAME),
            (false, false) if all(true, true) => Some(NOT_BY_ITEM),
            (false, false) if all(true, false) => Some(NOT_BY_SPARE_ITEM),
            _ => None,
        }
    }
}

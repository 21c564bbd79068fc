//! Request Q-6 on a case: which lists are reached, worked out from each list upwards, and what
//! follows from it for tables near this one and for runs.

use super::coverage::{Met, Row};
use super::log::{Entry, hold};
use super::names::{CLASHING, Names, TOO_DEEP};
use super::traces::started;
use crate::cases::draft::Draft;
use crate::check::{Check, check};
use crate::words::*;

/// What the check says of a table's lists is what the way up from each list says, and agrees with
/// what it says of tables near it.
pub fn try_reach(words: &[u32], checked: Check, met: &mut Met) -> Result<(), String> {
    // The names of a table that reasons 1 to 6 refuse say nothing.
    let Some(table) = Table::of(words).filter(|_| [0, 7, 8, 9, 10].contains(&checked.reason))
    else {
        return Ok(());
    };
    let draft = Draft::of(&table);
    let unreached = draft.unreached();
    let lowest = unreached.first().map(|&list| table.place(Section::Lists, list));
    match checked.reason {
        7 if unreached.iter().any(|&l| table.place(Section::Lists, l) == checked.place) => {
            met.insert(Row::Special(TOO_DEEP));
        }
        8 if lowest.is_some() => {
            met.insert(Row::Special(CLASHING));
        }
        7 | 8 => {}
        10 => {
            hold(lowest == Some(checked.place), || format!("{unreached:?} are not reached"))?;
            try_without(&draft, &unreached)?;
            Names::of(&draft).meet_unreached(&unreached, met);
        }
        _ => {
            hold(lowest.is_none(), || format!("accepted, but {unreached:?} are not reached"))?;
            try_cut_off(&draft)?;
            if checked.reason == 0 {
                Names::of(&draft).meet_reached(met);
            }
        }
    }
    Ok(())
}

/// Without the lists that are not reached, the table is not refused for them.
fn try_without(draft: &Draft, gone: &[usize]) -> Result<(), String> {
    let new = |list: u32| {
        let lower = gone.iter().filter(|&&other| other < list as usize).count();
        (!gone.contains(&(list as usize))).then_some(list - lower as u32)
    };
    let slot = |list: u32| if list == NO_LIST { NO_LIST } else { new(list).unwrap_or(NO_LIST) };
    let mut without = draft.clone();
    let kept = (0..draft.lists.len()).filter(|list| !gone.contains(list));
    without.lists = kept.map(|list| draft.lists[list]).collect();
    for rule in &mut without.rules {
        (rule.true_list, rule.false_list) = (slot(rule.true_list), slot(rule.false_list));
    }
    for item in without.items.iter_mut().filter(|item| item.kind == item::LIST) {
        *item = new(item.a).map_or(Item::default(), |a| Item { a, ..*item });
    }
    let checked = check(&without.words());
    hold([0, 9].contains(&checked.reason), || format!("without its unreached lists: {checked:?}"))
}

/// Where all lists are reached: with every rule nested-only none is, and a list more, which
/// nothing names, is not reached either.
fn try_cut_off(draft: &Draft) -> Result<(), String> {
    let Some(&copied) = draft.lists.last() else {
        return Ok(());
    };
    let refused_at = |draft: &Draft, list: usize| {
        let words = draft.words();
        let place = Table::of(&words).map(|table| table.place(Section::Lists, list));
        let checked = check(&words);
        hold((checked.reason, Some(checked.place)) == (10, place), || {
            format!("list {list} is cut off, and the check gives {checked:?}")
        })
    };
    let mut nested = draft.clone();
    nested.rules.iter_mut().for_each(|rule| rule.nested_only = 1);
    refused_at(&nested, 0)?;
    if draft.lists.len() == Section::Lists.limits().1 {
        return Ok(());
    }
    let mut longer = draft.clone();
    longer.lists.push(copied);
    refused_at(&longer, draft.lists.len())
}

/// Every list that starts is one that a rule which isn't nested-only has, or that a list which
/// started before it names: so no list starts that is not reached.
pub fn try_started(draft: &Draft, entry: &Entry) -> Result<(), String> {
    let starts = started(entry);
    for (number, list) in starts.iter().enumerate() {
        let has = |rule: &Rule| rule.nested_only == 0 && rule.lists().any(|l| l == *list);
        let names = |&before: &usize| {
            let items = &draft.items[draft.lists[before].items()];
            items.iter().any(|item| draft.named_by_item(item).any(|named| named == *list))
        };
        let reached = draft.rules.iter().any(has) || starts[..number].iter().any(names);
        hold(reached, || format!("list {list} started, and nothing started reaches it"))?;
    }
    Ok(())
}

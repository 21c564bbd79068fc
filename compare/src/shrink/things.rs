//! A case without one thing of its table: the names of later things are moved
//! up, and the thing's state word and events go with it.

use second::cases::Case;
use second::cases::draft::Draft;
use second::state::{start, state_length};
use second::words::*;

/// The table where its words are as many as its header says; others are made
/// smaller word by word only.
fn shaped(case: &Case) -> Option<Table<'_>> {
    let table = Table::of(&case.table)?;
    let known = [edition::ONE, edition::TWO].contains(&table.edition);
    (known && table.stated_length() == case.table.len()).then_some(table)
}

pub fn count(case: &Case, section: Section) -> usize {
    shaped(case).map_or(0, |table| table.count(section))
}

pub fn without(case: &Case, section: Section, at: usize) -> Option<Case> {
    let table = shaped(case)?;
    let mut less = case.clone();
    let has_state =
        matches!(section, Section::Ports | Section::Rules | Section::Networks | Section::Sources);
    if has_state && case.state.len() == state_length(&table) {
        less.state.remove(start(&table, section) + at);
    }
    let mut draft = Draft::of(&table);
    remove(&mut draft, section, at);
    less.table = draft.words();
    let events = (0..case.events.len()).filter_map(|number| {
        let moved = moved_event(case.events[number], section, at)?;
        Some((moved, case.lent(number).to_vec()))
    });
    (less.events, less.outcomes) = events.unzip();
    Some(less)
}

/// The case of edition 1, which has no abort; None where it is so already.
pub fn in_edition_1(case: &Case) -> Option<Case> {
    let table = shaped(case).filter(|table| table.edition != edition::ONE)?;
    let mut draft = Draft { edition: edition::ONE, ..Draft::of(&table) };
    draft.items.iter_mut().for_each(|item| item.abort = 0);
    Some(Case { table: draft.words(), ..case.clone() })
}

fn remove(draft: &mut Draft, section: Section, at: usize) {
    match section {
        Section::Ports => remove_port(draft, at),
        Section::Networks => {
            draft.networks.remove(at);
            move_items(draft, &[item::NETWORK_REQUEST], at);
        }
        Section::Sources => {
            draft.sources.remove(at);
        }
        Section::Expressions => remove_expression(draft, at),
        Section::Rules => {
            draft.rules.remove(at);
            move_items(draft, &[item::RULE], at);
        }
        Section::Lists => remove_list(draft, at),
        Section::Items => remove_item(draft, at),
    }
}

/// A name of a later thing than the one taken out is one less.
fn moved_up(name: u32, at: usize) -> u32 {
    if name as usize > at { name - 1 } else { name }
}

fn move_up(name: &mut u32, at: usize) {
    *name = moved_up(*name, at);
}

fn move_items(draft: &mut Draft, kinds: &[u32], at: usize) {
    draft.items.iter_mut().filter(|i| kinds.contains(&i.kind)).for_each(|i| move_up(&mut i.a, at));
}

/// A condition on the port that is taken out is on the first one that is left,
/// for it would else name nothing, or a port that its kind does not fit.
fn remove_port(draft: &mut Draft, at: usize) {
    draft.ports.remove(at);
    let event = draft.ports.first().is_some_and(|port| port.kind == port::EVENT);
    let kind = if event { expression::SET } else { expression::EQUAL };
    draft.networks.iter_mut().for_each(|(network, _)| move_up(&mut network.port, at));
    draft.sources.iter_mut().for_each(|source| move_up(&mut source.port, at));
    for expression in &mut draft.expressions {
        match expression {
            Expression::Condition(condition) if condition.port as usize == at => {
                *condition = Condition { kind, ..Default::default() };
            }
            Expression::Condition(condition) => move_up(&mut condition.port, at),
            Expression::Operator(_) => {}
        }
    }
    move_items(draft, &[item::CLEAR_EVENT, item::START_TIMER, item::STOP_TIMER], at);
}

/// Whatever names the expression that is taken out names its left argument
/// instead, or another condition.
fn remove_expression(draft: &mut Draft, at: usize) {
    let is_condition = |e: &Expression| matches!(e, Expression::Condition(_));
    let heir = match draft.expressions.remove(at) {
        Expression::Operator(operator) => moved_up(operator.left, at),
        Expression::Condition(_) => {
            draft.expressions.iter().position(is_condition).unwrap_or(at) as u32
        }
    };
    let rename = |name: &mut u32| {
        *name = if *name as usize == at { heir } else { moved_up(*name, at) };
    };
    for expression in &mut draft.expressions {
        if let Expression::Operator(operator) = expression {
            rename(&mut operator.left);
            if operator.kind != expression::NOT {
                rename(&mut operator.right);
            }
        }
    }
    draft.rules.iter_mut().for_each(|rule| rename(&mut rule.expression));
}

/// Whatever names the list that is taken out names the first list below it
/// instead, for that one may have no other start; where there is none, a rule has
/// no list and an item is a call.
fn remove_list(draft: &mut Draft, at: usize) {
    let list = draft.lists.remove(at);
    let items = draft.items.get(list.items()).unwrap_or_default().iter();
    let mut below = items.flat_map(|item| named_lists(draft, item)).filter(|&list| list != at);
    let heir = below.next().map(|list| moved_up(list as u32, at));
    for rule in &mut draft.rules {
        for name in [&mut rule.true_list, &mut rule.false_list] {
            match *name {
                list if list as usize == at => *name = heir.unwrap_or(NO_LIST),
                NO_LIST => {}
                _ => move_up(name, at),
            }
        }
    }
    for item in draft.items.iter_mut().filter(|item| item.kind == item::LIST) {
        match heir {
            _ if item.a as usize != at => move_up(&mut item.a, at),
            Some(list) => item.a = list,
            None => *item = Item::default(),
        }
    }
}

/// The lists that an item names, directly or by a rule.
fn named_lists(draft: &Draft, item: &Item) -> Vec<usize> {
    match item.kind {
        item::LIST => vec![item.a as usize],
        item::RULE => {
            draft.rules.get(item.a as usize).map_or(vec![], |rule| rule.lists().collect())
        }
        _ => vec![],
    }
}

fn remove_item(draft: &mut Draft, at: usize) {
    draft.items.remove(at);
    for list in &mut draft.lists {
        if list.items().contains(&at) {
            list.count -= 1;
        } else {
            move_up(&mut list.first, at);
        }
    }
}

/// None where the event speaks of the thing taken out.
fn moved_event(word: u32, section: Section, at: usize) -> Option<u32> {
    let event = Event::of(word);
    let of = match event.kind {
        event::MODE_REQUEST | event::EVENT_REQUEST => Section::Ports,
        event::BUS_OFF | event::HEARD => Section::Networks,
        event::WAKEUP | event::WAKEUP_VALID | event::WAKEUP_CLEAR => Section::Sources,
        _ => return Some(word),
    };
    if of != section {
        return Some(word);
    }
    let mut moved = event;
    move_up(&mut moved.index, at);
    (event.index as usize != at).then(|| moved.word())
}

/// The case with an owner's things the platform's: none of them can lose its
/// owner alone without a clash.
pub fn without_owner(case: &Case, owner: u32) -> Option<Case> {
    let mut draft = Draft::of(&shaped(case)?);
    let mut less = case.clone();
    let rid = |field: &mut u32| {
        if *field == owner {
            *field = PLATFORM;
        }
    };
    draft.ports.iter_mut().for_each(|port| rid(&mut port.owner));
    draft.networks.iter_mut().for_each(|(network, _)| rid(&mut network.owner));
    draft.sources.iter_mut().for_each(|source| rid(&mut source.owner));
    draft.rules.iter_mut().for_each(|rule| rid(&mut rule.owner));
    draft.lists.iter_mut().for_each(|list| rid(&mut list.owner));
    less.table = draft.words();
    for word in &mut less.events {
        let mut event = Event::of(*word);
        rid(&mut event.owner);
        *word = event.word();
    }
    Some(less)
}

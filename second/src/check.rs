//! The table's check: the first reason that holds, its place, and B.

use std::ops::Deref;

use crate::expressions::{depths, mentions};
use crate::words::*;

/// What the check gives: reason 0 and B, or a reason with its place.
#[derive(Clone, Copy, PartialEq, Eq, Debug)]
pub struct Check {
    pub reason: u32,
    pub place: usize,
    /// The sum of all lists' costs; 0 for a refused table.
    pub b: usize,
}

pub const DEAREST: u64 = 4096;

/// A table that the check accepts, made by `accept` alone: lists are run of no other, for only
/// there it is known that they end.
pub struct Accepted<'a>(Table<'a>);

impl<'a> Deref for Accepted<'a> {
    type Target = Table<'a>;

    fn deref(&self) -> &Table<'a> {
        &self.0
    }
}

pub fn check(words: &[u32]) -> Check {
    match accept(words) {
        Ok((_, b)) => Check { reason: 0, place: 0, b },
        Err((reason, place)) => Check { reason, place, b: 0 },
    }
}

/// The table and its B, or the reason and place of its refusal.
pub fn accept(words: &[u32]) -> Result<(Accepted<'_>, usize), (u32, usize)> {
    let table = shaped(words).map_err(|reason| (reason, 0))?;
    let all: Vec<(usize, Word)> = table.words().collect();
    refuse_lowest(5, &all, |_, word| breaks_own_fields(word))?;
    let thing_ports = table.thing_ports();
    refuse_lowest(6, &all, |number, word| names_wrongly(&table, &thing_ports, number, word))?;
    let expression_depths = depths(&expression_names(&table));
    let list_names = list_names(&table);
    let list_depths = depths(&list_names);
    refuse_lowest(7, &all, |number, word| match word {
        Word::Expression(_) => expression_depths[number].is_none(),
        Word::List(_) => list_depths[number].is_none(),
        _ => false,
    })?;
    refuse_lowest(8, &all, |_, word| clashes(&table, word))?;
    // Q-6: "It is reason 10, placed at the lowest such list word. It stands after owner clashes
    // and before the sum of costs."
    if let Some(lowest) = reached(&table, &list_names).iter().position(|&reached| !reached) {
        return Err((10, table.place(Section::Lists, lowest)));
    }
    let b = costs(&table, &list_depths).into_iter().fold(0, u64::saturating_add);
    if b > DEAREST { Err((9, 0)) } else { Ok((Accepted(table), b as usize)) }
}

/// Reasons 1 to 4, which have no place.
pub fn shaped(words: &[u32]) -> Result<Table<'_>, u32> {
    let table = Table::of(words).ok_or(1u32)?;
    // "Reason 2 now means an edition other than 1 or 2".
    if ![edition::ONE, edition::TWO].contains(&table.edition) {
        return Err(2);
    }
    let outside = |section: Section| {
        let (least, most) = section.limits();
        !(least..=most).contains(&table.count(section))
    };
    if SECTIONS.into_iter().any(outside) {
        return Err(3);
    }
    if table.stated_length() != words.len() {
        return Err(4);
    }
    Ok(table)
}

/// Refuses the table at the lowest of its words past the header that breaks the reason's rule.
fn refuse_lowest(
    reason: u32,
    words: &[(usize, Word)],
    breaks: impl Fn(usize, Word) -> bool,
) -> Result<(), (u32, usize)> {
    match words.iter().position(|&(number, word)| breaks(number, word)) {
        Some(past_header) => Err((reason, HEADER + past_header)),
        None => Ok(()),
    }
}

/// Reason 5: what a word can break by itself.
fn breaks_own_fields(word: Word) -> bool {
    match word {
        Word::Port(port) => port_breaks_own_fields(port),
        Word::Network(network) => network.zero != 0,
        Word::Waits(waits) => waits.l1 == 0 || waits.l2 == 0 || waits.e_ticks == 0,
        Word::Source(source) => source.zero != 0,
        Word::Expression(Expression::Condition(c)) => condition_breaks_own_fields(c),
        Word::Expression(Expression::Operator(operator)) => {
            operator.kind == expression::NOT && operator.right != 0
        }
        Word::Rule(rule) => rule.first > UNDEFINED,
        Word::List(list) => list.count == 0,
        Word::Item(item) => item_breaks_own_fields(item),
    }
}

fn port_breaks_own_fields(port: Port) -> bool {
    let timer = port.kind == port::TIMER;
    port.kind > port::TIMER
        || (port.has_initial == 1 && port.kind != port::MODE)
        || (port.has_initial == 0 && port.initial != 0)
        || timer != (port.reload >= 1)
        || (timer && port.deferred == 0)
}

fn condition_breaks_own_fields(condition: Condition) -> bool {
    let value_breaks = match condition.kind {
        expression::EQUAL | expression::NOT_EQUAL | expression::AT_OR_ABOVE => false,
        expression::SET | expression::CLEARED => condition.value != 0,
        // There is no such kind.
        _ => true,
    };
    value_breaks || condition.zero != 0
}

fn item_breaks_own_fields(item: Item) -> bool {
    let fields_break = match item.kind {
        item::OUTSIDE_CALL => item.a != 0,
        item::NETWORK_REQUEST => item.b > mode::FULL,
        item::CLEAR_EVENT..=item::RULE => item.b != 0,
        _ => true,
    };
    // "abort only in outside calls".
    fields_break || (item.abort == 1 && item.kind != item::OUTSIDE_CALL)
}

/// Reason 6: an absent thing, or one of a wrong kind.
fn names_wrongly(table: &Table, thing_ports: &[u32], number: usize, word: Word) -> bool {
    let absent = |section: Section, named: usize| named >= table.count(section);
    match word {
        Word::Port(_) | Word::Waits(_) => false,
        Word::Network(network) => unfit_port(table, network.port, &thing_ports[..number]),
        Word::Source(source) => {
            let earlier = table.count(Section::Networks) + number;
            unfit_port(table, source.port, &thing_ports[..earlier])
        }
        Word::Expression(Expression::Condition(condition)) => {
            !has_port(table, condition.port, |kind| may_be_on(condition, kind))
        }
        Word::Expression(operator) => {
            operator.arguments().any(|argument| absent(Section::Expressions, argument))
        }
        Word::Rule(rule) => {
            absent(Section::Expressions, rule.expression as usize)
                || rule.lists().any(|list| absent(Section::Lists, list))
        }
        Word::List(list) => list.items().end > table.count(Section::Items),
        Word::Item(item) => {
            let named = item.a as usize;
            match item.kind {
                item::CLEAR_EVENT => !has_port(table, item.a, |kind| kind == port::EVENT),
                item::START_TIMER | item::STOP_TIMER => {
                    !has_port(table, item.a, |kind| kind == port::TIMER)
                }
                item::NETWORK_REQUEST => absent(Section::Networks, named),
                item::LIST => absent(Section::Lists, named),
                item::RULE => absent(Section::Rules, named),
                _ => false,
            }
        }
    }
}

/// Whether a port of this kind is one that the condition wants.
fn may_be_on(condition: Condition, port: u32) -> bool {
    match condition.kind {
        expression::EQUAL | expression::NOT_EQUAL => port != port::EVENT,
        expression::SET | expression::CLEARED => port == port::EVENT,
        // At or above; reason 5 has refused all others.
        _ => port == port::MODE,
    }
}

fn has_port(table: &Table, number: u32, kind: impl Fn(u32) -> bool) -> bool {
    let number = number as usize;
    number < table.count(Section::Ports) && kind(table.port(number).kind)
}

/// Whether a network or source may not have this port, given the earlier ones' ports.
fn unfit_port(table: &Table, number: u32, earlier: &[u32]) -> bool {
    let deferred_mode_port_without_initial = |number: u32| {
        let port = table.port(number as usize);
        port.deferred == 1 && port.has_initial == 0
    };
    !has_port(table, number, |kind| kind == port::MODE)
        || !deferred_mode_port_without_initial(number)
        || earlier.contains(&number)
}

fn expression_names(table: &Table) -> Vec<Vec<usize>> {
    (0..table.count(Section::Expressions))
        .map(|number| table.expression(number).arguments().collect())
        .collect()
}

/// The lists each list names, directly or by a rule item's lists.
fn list_names(table: &Table) -> Vec<Vec<usize>> {
    let named_by = |item: Item| match item.kind {
        item::LIST => vec![item.a as usize],
        item::RULE => table.rule(item.a as usize).lists().collect(),
        _ => vec![],
    };
    let named_in = |list: usize| table.list(list).items().flat_map(|i| named_by(table.item(i)));
    (0..table.count(Section::Lists)).map(|list| named_in(list).collect()).collect()
}

/// Reason 8: owners clash.
fn clashes(table: &Table, word: Word) -> bool {
    let port_owner = |number: u32| table.port(number as usize).owner;
    match word {
        Word::Network(network) => network.owner != port_owner(network.port),
        Word::Source(source) => source.owner != port_owner(source.port),
        Word::Rule(rule) => {
            let foreign = |number: usize| {
                let owner = table.port(number).owner;
                owner != rule.owner && owner != PLATFORM
            };
            mentions(table, rule.expression as usize, &foreign)
                || rule.lists().any(|list| table.list(list).owner != rule.owner)
        }
        Word::List(list) => list.items().any(|i| item_clashes(table, list, table.item(i))),
        _ => false,
    }
}

fn item_clashes(table: &Table, list: List, item: Item) -> bool {
    let named = item.a as usize;
    match item.kind {
        item::OUTSIDE_CALL => false,
        item::LIST => table.list(named).owner != list.owner,
        item::RULE => table.rule(named).owner != list.owner,
        // The platform's lists may name anybody's ports and networks.
        _ if list.owner == PLATFORM => false,
        item::NETWORK_REQUEST => table.network(named).owner != list.owner,
        _ => table.port(named).owner != list.owner,
    }
}

/// Which lists are reached. Q-6: "Refuse a table in which a list is reached by no rule that isn't
/// nested-only, whether directly, by a named list, or by a rule item." Such a rule reaches both its
/// lists, and a reached list all that it names. Each list's names are followed once, when it is
/// first reached, for the paths may be too many to walk.
fn reached(table: &Table, names: &[Vec<usize>]) -> Vec<bool> {
    let rules = (0..table.count(Section::Rules)).map(|number| table.rule(number));
    let starting = rules.filter(|rule| rule.nested_only == 0);
    let mut to_follow: Vec<usize> = starting.flat_map(|rule| rule.lists()).collect();
    let mut reached = vec![false; names.len()];
    while let Some(list) = to_follow.pop() {
        if !reached[list] {
            reached[list] = true;
            to_follow.extend(&names[list]);
        }
    }
    reached
}

/// Each list's cost. A list names only shallower ones, so going by depth finds
/// every cost once; the sums of a hostile table are held at the largest number.
fn costs(table: &Table, depths: &[Option<u32>]) -> Vec<u64> {
    let mut costs = vec![0u64; depths.len()];
    for level in 1..=LEVELS {
        for list in (0..depths.len()).filter(|&list| depths[list] == Some(level)) {
            let items = table.list(list).items().map(|i| item_cost(table, &costs, table.item(i)));
            costs[list] = items.fold(1, u64::saturating_add);
        }
    }
    costs
}

fn item_cost(table: &Table, costs: &[u64], item: Item) -> u64 {
    match item.kind {
        item::LIST => costs[item.a as usize],
        item::RULE => {
            let lists = table.rule(item.a as usize).lists();
            lists.map(|list| costs[list]).max().unwrap_or(0).saturating_add(1)
        }
        _ => 1,
    }
}

//! Refused tables, made from good ones by a known fault, so that reason and
//! place are known without asking the judge.

use super::draft::{Depth, Draft, SEVEN, conditions_on};
use super::numbers::renumbered;
use super::outcomes::some_edition;
use super::prng::Prng;
use super::tables::pad;
use super::unreached::unreached;
use crate::words::*;

/// A table with the reason and place its making gives it.
pub struct Refused {
    pub words: Vec<u32>,
    pub reason: u32,
    pub place: usize,
    /// The coverage row it was made for, where the reason alone does not say.
    pub note: Option<&'static str>,
}

impl Refused {
    pub fn of(words: Vec<u32>, reason: u32, place: usize) -> Self {
        Refused { words, reason, place, note: None }
    }
}

pub const RING: &str = "ring refused";
pub const DEPTH_8_EXPRESSION: &str = "expression depth 8 refused";
pub const DEPTH_8_LIST: &str = "list depth 8 refused";
pub const COST_4097: &str = "cost 4097 refused";

/// The good table with one fault of the reason wanted; None where this table
/// does not lend itself to it.
pub fn refuse(rng: &mut Prng, good: &Draft, reason: u32) -> Option<Refused> {
    match reason {
        1..=4 => Some(misshapen(rng, good.words(), reason)),
        5 | 6 => one_word(rng, good, reason),
        7 => nested_too_deep(rng, good),
        8 => clashing(rng, good),
        9 => Some(too_dear(rng, good)),
        _ => unreached(rng, good),
    }
}

/// Tries until the table lends itself to the reason.
pub fn refuse_some(rng: &mut Prng, reason: u32, draft: impl Fn(&mut Prng) -> Draft) -> Refused {
    loop {
        let good = draft(rng);
        if let Some(refused) = refuse(rng, &good, reason) {
            return refused;
        }
    }
}

fn misshapen(rng: &mut Prng, mut words: Vec<u32>, reason: u32) -> Refused {
    match reason {
        1 => words.truncate(rng.below(HEADER)),
        2 => words[0] = Head { edition: no_edition(rng), ..Head::of(words[0]) }.word(),
        3 => break_limit(rng, &mut words),
        _ => match rng.below(3) {
            0 => words.push(rng.word()),
            1 => words.truncate(rng.within(HEADER as u32, words.len() as u32 - 1) as usize),
            // One more item than there is, or one fewer.
            _ if words[2] & 0xFFFF == 0 => words[2] += 1,
            _ => words[2] -= 1,
        },
    }
    Refused::of(words, reason, 0)
}

/// Mostly one next to those there are.
fn no_edition(rng: &mut Prng) -> u32 {
    let any = rng.within(edition::TWO + 1, 255);
    rng.pick(&[0, edition::TWO + 1, 255, any])
}

fn break_limit(rng: &mut Prng, words: &mut [u32]) {
    let mut head = Head::of(words[0]);
    let (mut second, mut third) = (Pair::of(words[1]), Pair::of(words[2]));
    let section = rng.pick(&SECTIONS);
    let (least, most) = section.limits();
    let widest = if (section as usize) < 3 { 255 } else { 65535 };
    let count = match rng.below(3) {
        0 if least == 1 => 0,
        1 => rng.within(most as u32 + 1, widest),
        _ => most as u32 + 1,
    };
    let field = match section {
        Section::Ports => &mut head.ports,
        Section::Networks => &mut head.networks,
        Section::Sources => &mut head.sources,
        Section::Expressions => &mut second.high,
        Section::Rules => &mut second.low,
        Section::Lists => &mut third.high,
        Section::Items => &mut third.low,
    };
    *field = count;
    words[..HEADER].copy_from_slice(&[head.word(), second.word(), third.word()]);
}

/// Breaks one word, by its own fields or by what it names.
fn one_word(rng: &mut Prng, good: &Draft, reason: u32) -> Option<Refused> {
    let mut words = good.words();
    let table = Table::of(&words)?;
    let kind = rng.within(item::CLEAR_EVENT, item::RULE);
    let (level, item) = (rng.pick_any(&levels(good)), rng.pick_any(&items(good, kind)));
    // Conditions at or above and items that name things are seldom met among all words.
    let place = match (rng.weighed(&[3, 4, 3]), level, item) {
        (0, Some(level), _) => table.place(Section::Expressions, level),
        (1, _, Some(item)) => table.place(Section::Items, item),
        _ => HEADER + rng.below(words.len() - HEADER),
    };
    let (number, word) = table.words().nth(place - HEADER)?;
    words[place] = match reason {
        5 => broken(rng, good.edition, word),
        _ => misnaming(rng, good, number, word)?,
    };
    Some(Refused::of(words, reason, place))
}

/// The conditions at or above.
fn levels(good: &Draft) -> Vec<usize> {
    let level = |expression: &Expression| match expression {
        Expression::Condition(condition) => condition.kind == expression::AT_OR_ABOVE,
        Expression::Operator(_) => false,
    };
    (0..good.expressions.len()).filter(|&number| level(&good.expressions[number])).collect()
}

fn items(good: &Draft, kind: u32) -> Vec<usize> {
    (0..good.items.len()).filter(|&item| good.items[item].kind == kind).collect()
}

fn broken(rng: &mut Prng, edition: u32, word: Word) -> u32 {
    match word {
        Word::Port(port) => broken_port(rng, port),
        Word::Network(network) => Network { zero: rng.within(1, 0xFFF), ..network }.word(),
        Word::Waits(waits) => match rng.below(3) {
            0 => Waits { l1: 0, ..waits }.word(),
            1 => Waits { l2: 0, ..waits }.word(),
            _ => Waits { e_ticks: 0, ..waits }.word(),
        },
        Word::Source(source) => Source { zero: rng.within(1, 15), ..source }.word(),
        Word::Expression(expression) => broken_expression(rng, expression),
        Word::Rule(rule) => Rule { first: 3, ..rule }.word(),
        Word::List(list) => List { count: 0, ..list }.word(),
        Word::Item(item) => broken_item(rng, edition, item).word(edition),
    }
}

fn broken_expression(rng: &mut Prng, expression: Expression) -> u32 {
    let no_kind = rng.within(expression::AT_OR_ABOVE + 1, 15);
    match expression {
        Expression::Condition(condition) => match rng.weighed(&[1, 2, 1]) {
            0 if [expression::SET, expression::CLEARED].contains(&condition.kind) => {
                Condition { value: rng.within(1, 255), ..condition }.word()
            }
            1 => Condition { kind: no_kind, ..condition }.word(),
            _ => Condition { zero: rng.within(1, 0xFFF), ..condition }.word(),
        },
        Expression::Operator(operator) => match rng.below(2) {
            0 if operator.kind == expression::NOT => {
                Operator { right: rng.within(1, 0x3FFF), ..operator }.word()
            }
            _ => Operator { kind: no_kind, ..operator }.word(),
        },
    }
}

fn broken_port(rng: &mut Prng, port: Port) -> u32 {
    let initial = Port { has_initial: 0, initial: rng.within(1, 255), ..port };
    let timer = port.kind == port::TIMER;
    let reload = Port { reload: if timer { 0 } else { rng.within(1, 65535) }, ..port };
    let kind = Port { kind: 3, ..port };
    let special = match port.kind {
        port::MODE => initial,
        port::EVENT => Port { has_initial: 1, ..port },
        _ => Port { deferred: 0, ..port },
    };
    rng.pick(&[initial, reload, kind, special]).word()
}

fn broken_item(rng: &mut Prng, edition: u32, item: Item) -> Item {
    let (widest, calls) = (widest_a(edition), item.kind == item::OUTSIDE_CALL);
    match item.kind {
        _ if rng.chance(20) => Item { kind: rng.within(item::RULE + 1, 15), ..item },
        // "abort only in outside calls".
        _ if edition == edition::TWO && !calls && rng.chance(75) => Item { abort: 1, ..item },
        // The highest bit is abort's in edition 2, and a's in edition 1.
        item::OUTSIDE_CALL if rng.chance(40) => Item { a: widest / 2 + 1, ..item },
        item::OUTSIDE_CALL => Item { a: rng.within(1, widest), ..item },
        item::NETWORK_REQUEST => Item { b: rng.within(3, 65535), ..item },
        _ => Item { b: rng.within(1, 65535), ..item },
    }
}

/// The largest a that an item can have.
fn widest_a(edition: u32) -> u32 {
    if edition == edition::TWO { 2047 } else { 4095 }
}

/// The word with a name of an absent or wrong thing; None for one that names nothing.
fn misnaming(rng: &mut Prng, good: &Draft, number: usize, word: Word) -> Option<u32> {
    let word = match word {
        Word::Port(_) | Word::Waits(_) => return None,
        Word::Network(network) => Network { port: thing_port(rng, good, number), ..network }.word(),
        Word::Source(source) => {
            let earlier = good.networks.len() + number;
            Source { port: thing_port(rng, good, earlier), ..source }.word()
        }
        Word::Expression(Expression::Condition(condition)) => {
            let right = |port: &Port| conditions_on(port).contains(&condition.kind);
            Condition { port: wrong_port(rng, good, 255, right), ..condition }.word()
        }
        Word::Expression(Expression::Operator(operator)) => {
            let absent = rng.within(good.expressions.len() as u32, 0x3FFF);
            match rng.below(2) {
                0 if operator.kind != expression::NOT => {
                    Operator { right: absent, ..operator }.word()
                }
                _ => Operator { left: absent, ..operator }.word(),
            }
        }
        Word::Rule(rule) => misnaming_rule(rng, good, rule)?.word(),
        Word::List(list) => {
            let first = good.items.len() as u32 + 1 - list.count;
            List { first, ..list }.word()
        }
        Word::Item(item) => misnaming_item(rng, good, item)?.word(good.edition),
    };
    Some(word)
}

/// An absent port, or one for which `right` does not hold.
fn wrong_port(rng: &mut Prng, good: &Draft, widest: u32, right: impl Fn(&Port) -> bool) -> u32 {
    let ports = good.ports.iter().enumerate();
    let wrong: Vec<usize> = ports.filter(|(_, port)| !right(port)).map(|(p, _)| p).collect();
    match rng.pick_any(&wrong) {
        Some(port) if rng.chance(60) => port as u32,
        _ => rng.within(good.ports.len() as u32, widest),
    }
}

/// A port that a network or source may not have: the wrong kind, or an earlier one's.
fn thing_port(rng: &mut Prng, good: &Draft, earlier: usize) -> u32 {
    match rng.pick_any(&good.thing_ports()[..earlier]) {
        Some(shared) if rng.chance(50) => shared,
        _ => wrong_port(rng, good, 255, |port| {
            port.kind == port::MODE && port.deferred == 1 && port.has_initial == 0
        }),
    }
}

fn misnaming_rule(rng: &mut Prng, good: &Draft, rule: Rule) -> Option<Rule> {
    let (expressions, lists) = (good.expressions.len() as u32, good.lists.len() as u32);
    match rng.below(3) {
        0 if expressions < 512 => Some(Rule { expression: rng.within(expressions, 511), ..rule }),
        1 if lists < 255 => Some(Rule { true_list: rng.within(lists, 254), ..rule }),
        2 if lists < 255 => Some(Rule { false_list: rng.within(lists, 254), ..rule }),
        _ => None,
    }
}

fn misnaming_item(rng: &mut Prng, good: &Draft, item: Item) -> Option<Item> {
    let widest = widest_a(good.edition);
    let absent = |rng: &mut Prng, count: usize| {
        let any = rng.within(count as u32, widest);
        rng.pick(&[any, any, any, widest])
    };
    let a = match item.kind {
        item::CLEAR_EVENT => wrong_port(rng, good, widest, |port| port.kind == port::EVENT),
        item::START_TIMER | item::STOP_TIMER => {
            wrong_port(rng, good, widest, |port| port.kind == port::TIMER)
        }
        item::NETWORK_REQUEST => absent(rng, good.networks.len()),
        item::LIST if rng.chance(30) => NO_LIST,
        item::LIST => absent(rng, good.lists.len()),
        item::RULE => absent(rng, good.rules.len()),
        _ => return None,
    };
    Some(Item { a, ..item })
}

/// The lowest expression, else the lowest list, that nests too deep.
pub fn too_deep(draft: &Draft) -> Option<Refused> {
    let words = draft.words();
    let (expressions, lists) = draft.depths();
    let lowest = |depths: &[Depth]| depths.iter().position(|&d| d > Depth::Levels(SEVEN));
    let (section, number, depth, eight) = match (lowest(&expressions), lowest(&lists)) {
        (Some(e), _) => (Section::Expressions, e, expressions[e], DEPTH_8_EXPRESSION),
        (_, Some(l)) => (Section::Lists, l, lists[l], DEPTH_8_LIST),
        _ => return None,
    };
    let place = Table::of(&words)?.place(section, number);
    let note = match depth {
        Depth::Endless => Some(RING),
        Depth::Levels(8) => Some(eight),
        _ => None,
    };
    Some(Refused { words, reason: 7, place, note })
}

/// Turns one name inward until something nests too deep.
fn nested_too_deep(rng: &mut Prng, good: &Draft) -> Option<Refused> {
    let mut draft = good.clone();
    for _ in 0..20 {
        match rng.below(3) {
            0 => {
                let (any, at) =
                    (rng.below(draft.expressions.len()), rng.below(draft.expressions.len()));
                if let Expression::Operator(operator) = &mut draft.expressions[at] {
                    operator.left = any as u32;
                }
            }
            1 if !draft.lists.is_empty() => {
                let (any, at) = (rng.below(draft.lists.len()), rng.below(draft.items.len()));
                draft.items[at] = Item::naming(item::LIST, any as u32);
            }
            _ if !draft.lists.is_empty() => {
                let (any, at) = (rng.below(draft.lists.len()), rng.below(draft.rules.len()));
                draft.rules[at].false_list = any as u32;
            }
            _ => {}
        }
        if let Some(refused) = too_deep(&draft) {
            return Some(refused);
        }
    }
    None
}

/// Adds a row of lists or expressions, each naming the next, so many levels deep.
pub fn row(rng: &mut Prng, good: &Draft, levels: usize) -> Draft {
    let mut draft = good.clone();
    let rule = draft.rules[rng.below(draft.rules.len())];
    if rng.chance(50) {
        let base = rule.expression;
        draft.expressions[base as usize] = Expression::Condition(condition_on(rng, &draft, rule));
        let first = draft.expressions.len() as u32;
        for level in 0..levels as u32 - 1 {
            let left = if level == 0 { base } else { first + level - 1 };
            let kind = rng.within(expression::AND, expression::NOT);
            let right = if kind == expression::NOT { 0 } else { base };
            draft.expressions.push(Expression::Operator(Operator { kind, left, right }));
        }
    } else {
        add_row_of_lists(rng, &mut draft, rule, levels);
    }
    renumbered(rng, draft)
}

fn condition_on(rng: &mut Prng, draft: &Draft, rule: Rule) -> Condition {
    let port = draft.mentioned(rule.expression as usize)[0];
    let kind = rng.pick(conditions_on(&draft.ports[port]));
    Condition { kind, port: port as u32, value: 0, zero: 0 }
}

/// Every other level goes through a rule item, which is no level of its own.
fn add_row_of_lists(rng: &mut Prng, draft: &mut Draft, model: Rule, levels: usize) {
    for level in 0..levels {
        let deeper = draft.lists.len() as u32;
        let first = draft.items.len() as u32;
        let item = if level == 0 {
            Item::call(0xBEE)
        } else if rng.chance(50) {
            Item::naming(item::LIST, deeper - 1)
        } else {
            let rule = Rule { nested_only: 1, true_list: deeper - 1, ..model };
            draft.rules.push(Rule { false_list: NO_LIST, ..rule });
            Item::naming(item::RULE, draft.rules.len() as u32 - 1)
        };
        draft.items.push(item);
        let (owner, triggered, priority) = (model.owner, rng.within(0, 1), rng.within(0, 9));
        draft.lists.push(List { owner, triggered, priority, first, count: 1 });
    }
    let top = draft.lists.len() as u32 - 1;
    draft.rules.push(Rule { nested_only: 0, true_list: top, false_list: top, ..model });
}

/// A row eight deep, where seven would stand.
pub fn eight_deep(rng: &mut Prng, good: &Draft) -> Option<Refused> {
    too_deep(&row(rng, good, 8))
}

pub fn clashing(rng: &mut Prng, good: &Draft) -> Option<Refused> {
    let mut draft = good.clone();
    let other = |rng: &mut Prng, owner: u32| (owner + rng.within(1, 15)) % 16;
    let (section, number) = match rng.below(4) {
        0 if !draft.networks.is_empty() => {
            let n = rng.below(draft.networks.len());
            draft.networks[n].0.owner = other(rng, draft.networks[n].0.owner);
            (Section::Networks, n)
        }
        1 if !draft.sources.is_empty() => {
            let s = rng.below(draft.sources.len());
            draft.sources[s].owner = other(rng, draft.sources[s].owner);
            (Section::Sources, s)
        }
        2 => (Section::Rules, foreign_rule(rng, &mut draft)?),
        _ => (Section::Lists, foreign_item(rng, &mut draft)?),
    };
    if too_deep(&draft).is_some() {
        return None;
    }
    let words = draft.words();
    let place = Table::of(&words)?.place(section, number);
    Some(Refused::of(words, 8, place))
}

/// Gives a rule an expression that mentions a stranger's port, or a stranger's list.
fn foreign_rule(rng: &mut Prng, draft: &mut Draft) -> Option<usize> {
    let number = rng.below(draft.rules.len());
    let owner = draft.rules[number].owner;
    let foreign = |port: &usize| ![owner, PLATFORM].contains(&draft.ports[*port].owner);
    let expressions: Vec<usize> =
        (0..draft.expressions.len()).filter(|&e| draft.mentioned(e).iter().any(foreign)).collect();
    // A list in a rule that no item names leaves reason 7 alone.
    let named = draft.items.iter().any(|i| i.kind == item::RULE && i.a as usize == number);
    let lists: Vec<usize> =
        (0..draft.lists.len()).filter(|&l| !named && draft.lists[l].owner != owner).collect();
    if let (Some(expression), true) = (rng.pick_any(&expressions), rng.chance(50)) {
        draft.rules[number].expression = expression as u32;
    } else {
        draft.rules[number].true_list = rng.pick_any(&lists)? as u32;
    }
    Some(number)
}

/// Turns an item of a list to a stranger's thing; the lowest list that holds
/// the item and may not name the thing is the one that clashes.
fn foreign_item(rng: &mut Prng, draft: &mut Draft) -> Option<usize> {
    let used: Vec<usize> = draft.lists.iter().flat_map(|list| list.items()).collect();
    let number = rng.pick_any(&used)?;
    let (_, depths) = draft.depths();
    let nests = [item::LIST, item::RULE].contains(&draft.items[number].kind);
    let candidates: Vec<(Item, u32)> = if nests && rng.chance(50) {
        let flat = (0..draft.lists.len()).filter(|&l| depths[l] == Depth::Levels(1));
        flat.map(|l| (Item::naming(item::LIST, l as u32), draft.lists[l].owner)).collect()
    } else {
        flat_items(draft)
    };
    let (item, owner) = rng.pick_any(&candidates)?;
    let freed = |list: &List| item.kind != item::LIST && list.owner == PLATFORM;
    let clash = |list: &List| list.items().contains(&number) && list.owner != owner && !freed(list);
    let lowest = draft.lists.iter().position(clash)?;
    draft.items[number] = item;
    Some(lowest)
}

/// Every item of kinds 1 to 4 there can be, with the owner of what it names.
fn flat_items(draft: &Draft) -> Vec<(Item, u32)> {
    let of_port = |(number, port): (usize, &Port)| {
        let kinds: &[u32] = match port.kind {
            port::EVENT => &[item::CLEAR_EVENT],
            port::TIMER => &[item::START_TIMER, item::STOP_TIMER],
            _ => &[],
        };
        let (a, owner) = (number as u32, port.owner);
        kinds.iter().map(move |&kind| (Item::naming(kind, a), owner)).collect::<Vec<_>>()
    };
    let of_network = |(number, (network, _)): (usize, &(Network, Waits))| {
        let item = Item::asking(number as u32, mode::FULL);
        (item, network.owner)
    };
    let ports = draft.ports.iter().enumerate().flat_map(of_port);
    ports.chain(draft.networks.iter().enumerate().map(of_network)).collect()
}

/// One word of trace more than is allowed.
fn too_dear(rng: &mut Prng, good: &Draft) -> Refused {
    let mut draft = good.clone();
    let left = 4097 - draft.b();
    pad(rng, &mut draft, left, 1);
    Refused { words: draft.words(), reason: 9, place: 0, note: Some(COST_4097) }
}

/// Two faults in one table: the earlier reason, or the lower place, is given.
pub fn two_faults(rng: &mut Prng, good: &Draft) -> Option<Refused> {
    let base = good.words();
    let late_reason = rng.within(5, 8);
    let late = refuse(rng, good, late_reason)?;
    let early_reason = rng.within(2, 6);
    if early_reason < 5 {
        return Some(misshapen(rng, late.words, early_reason));
    }
    let early = refuse(rng, good, early_reason)?;
    if late.words[early.place] != base[early.place] || early.words.len() != late.words.len() {
        return None;
    }
    let mut words = late.words;
    words[early.place] = early.words[early.place];
    let (reason, place) = (early.reason, early.place).min((late.reason, late.place));
    Some(Refused::of(words, reason, place))
}

/// Lists of 255 items that all name the next list, as deep as asked: more
/// paths than can be walked. Ringed, the last names the first again.
pub fn hostile(rng: &mut Prng, levels: usize, ringed: bool) -> Refused {
    let port = Port { kind: port::MODE, ..Default::default() };
    let rule = Rule { true_list: 0, false_list: NO_LIST, ..Default::default() };
    let mut draft = Draft {
        edition: some_edition(rng),
        ports: vec![port],
        expressions: vec![Expression::of(0)],
        rules: vec![rule],
        ..Default::default()
    };
    let by_rules = rng.chance(50);
    for level in 0..levels {
        let (first, next) = (draft.items.len() as u32, (level + 1) % levels);
        draft.rules.push(Rule { nested_only: 1, true_list: next as u32, ..rule });
        let item = match (level + 1 == levels && !ringed, by_rules) {
            (true, _) => Item::default(),
            (_, true) => Item::naming(item::RULE, level as u32 + 1),
            (_, false) => Item::naming(item::LIST, next as u32),
        };
        draft.items.extend([item; 255]);
        draft.lists.push(List { first, count: 255, ..Default::default() });
    }
    let draft = renumbered(rng, draft);
    too_deep(&draft).unwrap_or_else(|| Refused::of(draft.words(), 9, 0))
}

/// Every expression but the first is an AND of the one before with itself.
pub fn hostile_expressions(rng: &mut Prng, levels: usize) -> Refused {
    let and = |left: u32| Operator { kind: expression::AND, left, right: left };
    let operators = (0..levels as u32 - 1).map(|left| Expression::Operator(and(left)));
    let draft = Draft {
        ports: vec![Port::default()],
        expressions: std::iter::once(Expression::of(0)).chain(operators).collect(),
        rules: vec![Rule { true_list: NO_LIST, false_list: NO_LIST, ..Default::default() }],
        ..Default::default()
    };
    too_deep(&renumbered(rng, draft)).expect("the row is longer than seven")
}

//! Request Q-11 on a case: "Show from the table check that no event call on an accepted table can
//! reach it, in either edition and in play". How deep lists and expressions nest is walked word by
//! word from each of them down, while the check goes up level by level, so that the two can
//! disagree; and how deep runs come is read off what they wrote.

use std::collections::BTreeSet;
use std::fmt;

use super::choices::Choices;
use super::coverage::{Met, Row};
use super::log::{Entry, hold, run};
use super::ports::{Ports, mentions};
use super::visits::Visited;
use super::walk::Walk;
use crate::cases::Case;
use crate::cases::draft::{Draft, SEVEN};
use crate::check::{Check, accept, check};
use crate::lists::Run;
use crate::play::take;
use crate::state::State;
use crate::words::*;

#[derive(Clone, Copy, PartialEq, Eq, PartialOrd, Ord, Debug)]
pub enum What {
    List,
    Expression,
}

/// How one list comes to be run by another.
#[derive(Clone, Copy, PartialEq, Eq, PartialOrd, Ord, Debug)]
pub enum Way {
    Name,
    TrueList,
    FalseList,
}

#[derive(Clone, Copy, PartialEq, Eq, PartialOrd, Ord, Debug)]
pub enum Calls {
    Single,
    Play,
}

#[derive(Clone, Copy, PartialEq, Eq, PartialOrd, Ord, Debug)]
pub enum Nesting {
    /// The edition of a table that is accepted with seven levels.
    Seven(What, u32),
    /// The edition of a table that is refused at a word with an eighth.
    Eighth(What, u32),
    /// Without this way there would be no seventh, or no eighth level.
    SevenBy(Way),
    EighthBy(Way),
    /// A run came to level seven; the edition.
    Ran(What, u32, Calls),
}

const EDITIONS: [u32; 2] = [edition::ONE, edition::TWO];
const WHATS: [What; 2] = [What::List, What::Expression];
pub const WAYS: [Way; 3] = [Way::Name, Way::TrueList, Way::FalseList];

pub fn rows() -> impl Iterator<Item = Nesting> {
    let each = WHATS.into_iter().flat_map(|what| EDITIONS.map(|edition| (what, edition)));
    let of_edition = each.flat_map(|(what, edition)| {
        let ran = |calls: Calls| Nesting::Ran(what, edition, calls);
        let levels = [Nesting::Seven(what, edition), Nesting::Eighth(what, edition)];
        levels.into_iter().chain([ran(Calls::Single), ran(Calls::Play)])
    });
    of_edition.chain(WAYS.map(Nesting::SevenBy)).chain(WAYS.map(Nesting::EighthBy))
}

impl fmt::Display for What {
    fn fmt(&self, f: &mut fmt::Formatter) -> fmt::Result {
        f.write_str(if *self == What::List { "list" } else { "expression" })
    }
}

impl fmt::Display for Way {
    fn fmt(&self, f: &mut fmt::Formatter) -> fmt::Result {
        f.write_str(match self {
            Way::Name => "named lists",
            Way::TrueList => "rule items' true lists",
            Way::FalseList => "rule items' false lists",
        })
    }
}

impl fmt::Display for Nesting {
    fn fmt(&self, f: &mut fmt::Formatter) -> fmt::Result {
        match *self {
            Nesting::Seven(what, edition) => {
                write!(f, "{what} walked to level 7 and accepted: edition {edition}")
            }
            Nesting::Eighth(what, edition) => {
                write!(f, "{what} walked to level 8 and refused: edition {edition}")
            }
            Nesting::SevenBy(way) => write!(f, "level 7 accepted, only by {way}"),
            Nesting::EighthBy(way) => write!(f, "level 8 refused, only by {way}"),
            Nesting::Ran(what, edition, calls) => {
                let does = if what == What::List { "run" } else { "evaluated" };
                let calls = if calls == Calls::Single { "single event" } else { "play" };
                write!(f, "{what} {does} at level 7: edition {edition}, {calls}")
            }
        }
    }
}

/// The deepest level there is below a thing that stands on this one, no further than to the first
/// too deep. What was met on a level before is not walked there again, for paths may be too many.
fn below(
    names: &dyn Fn(usize) -> Vec<usize>,
    thing: usize,
    level: u32,
    met: &mut BTreeSet<(usize, u32)>,
) -> u32 {
    if level > SEVEN || !met.insert((thing, level)) {
        return level;
    }
    let named = names(thing).into_iter();
    named.map(|next| below(names, next, level + 1, met)).max().unwrap_or(level)
}

/// The same of each of so many things, standing on level 1.
fn levels(things: usize, names: &dyn Fn(usize) -> Vec<usize>) -> Vec<u32> {
    (0..things).map(|thing| below(names, thing, 1, &mut BTreeSet::new())).collect()
}

/// Of each list, leaving out a way.
fn list_levels(table: &Table, without: Option<Way>) -> Vec<u32> {
    let names = |list: usize| {
        let named = names_of_list(table, list).into_iter();
        named.filter(|&(way, _)| Some(way) != without).map(|(_, list)| list).collect()
    };
    levels(table.count(Section::Lists), &names)
}

fn expression_levels(table: &Table) -> Vec<u32> {
    let names = |number: usize| match table.expression(number) {
        Expression::Condition(_) => vec![],
        Expression::Operator(not) if not.kind == expression::NOT => vec![not.left as usize],
        Expression::Operator(both) => vec![both.left as usize, both.right as usize],
    };
    levels(table.count(Section::Expressions), &names)
}

/// The lists that a list's items name, read off the words' fields alone.
fn names_of_list(table: &Table, list: usize) -> Vec<(Way, usize)> {
    let List { first, count, .. } = table.list(list);
    let mut names = vec![];
    for number in first..first + count {
        let Item { kind, a, .. } = table.item(number as usize);
        if kind == item::LIST {
            names.push((Way::Name, a as usize));
        } else if kind == item::RULE {
            let Rule { true_list, false_list, .. } = table.rule(a as usize);
            let lists = [(Way::TrueList, true_list), (Way::FalseList, false_list)];
            let there = lists.into_iter().filter(|&(_, list)| list != NO_LIST);
            names.extend(there.map(|(way, list)| (way, list as usize)));
        }
    }
    names
}

/// The deepest level of a table's lists and of its expressions, of which 8 stands for all below.
pub fn deepest(words: &[u32]) -> [u32; 2] {
    let table = Table::of(words).expect("a header");
    let most = |levels: Vec<u32>| levels.into_iter().max().unwrap_or(0);
    [most(list_levels(&table, None)), most(expression_levels(&table))]
}

/// The check refuses a table for its nesting exactly where a word of it is walked to an eighth
/// level, and at the lowest such word.
pub fn try_table(words: &[u32], checked: Check, met: &mut Met) -> Result<(), String> {
    // The names of a table that reasons 1 to 6 refuse say nothing.
    let Some(table) = Table::of(words).filter(|_| [0, 7, 8, 9, 10].contains(&checked.reason))
    else {
        return Ok(());
    };
    let (expressions, lists) = (expression_levels(&table), list_levels(&table, None));
    let eighth = |levels: &[u32]| levels.iter().position(|&level| level > SEVEN);
    let lowest = match (eighth(&expressions), eighth(&lists)) {
        (Some(number), _) => Some((What::Expression, table.place(Section::Expressions, number))),
        (_, Some(number)) => Some((What::List, table.place(Section::Lists, number))),
        _ => None,
    };
    let given = (checked.reason == 7).then_some(checked.place);
    hold(given == lowest.map(|(_, place)| place), || {
        format!("the check gives {checked:?}, and level 8 is walked to from {lowest:?}")
    })?;
    if let Some((what, _)) = lowest {
        met.insert(Row::Nesting(Nesting::Eighth(what, table.edition)));
    }
    for (what, levels) in [(What::Expression, &expressions), (What::List, &lists)] {
        if checked.reason == 0 && levels.contains(&SEVEN) {
            met.insert(Row::Nesting(Nesting::Seven(what, table.edition)));
        }
    }
    meet_ways(&table, checked.reason, &lists, met);
    Ok(())
}

/// The ways without which a table's lists would not come to level seven, or not below it.
fn meet_ways(table: &Table, reason: u32, lists: &[u32], met: &mut Met) {
    let row = match (reason, lists.iter().max()) {
        (0, Some(&SEVEN)) => Nesting::SevenBy,
        (7, Some(&deepest)) if deepest > SEVEN => Nesting::EighthBy,
        _ => return,
    };
    let most = lists.iter().max();
    let needed = |way: &Way| list_levels(table, Some(*way)).iter().max() < most;
    met.extend(WAYS.into_iter().filter(needed).map(|way| Row::Nesting(row(way))));
}

/// No event's run starts a list, or evaluates an expression, below level seven: neither by single
/// calls, whose log is given, nor in a play.
pub fn try_runs(case: &Case, log: &[Entry], met: &mut Met) -> Result<(), String> {
    let Ok((table, _)) = accept(&case.table) else {
        return Ok(());
    };
    let draft = Draft::of(&table);
    let mentions = mentions(&draft);
    let played = played(case);
    for (calls, log) in [(Calls::Single, log), (Calls::Play, &played)] {
        for (number, entry) in log.iter().enumerate().filter(|(_, entry)| entry.answer == 0) {
            let tried = levels_run(&draft, &mentions, entry).and_then(|levels| {
                hold(levels.iter().all(|&level| level <= SEVEN), || format!("levels {levels:?}"))?;
                let at_seven = WHATS.into_iter().zip(levels).filter(|&(_, level)| level == SEVEN);
                let ran = |(what, _)| Row::Nesting(Nesting::Ran(what, draft.edition, calls));
                met.extend(at_seven.map(ran));
                Ok(())
            });
            tried.map_err(|what| format!("event {number}, {calls:?}: {what}"))?;
        }
    }
    Ok(())
}

/// The deepest levels at which an event ran a list, by its trace, and evaluated an expression.
fn levels_run(draft: &Draft, mentions: &[Ports], entry: &Entry) -> Result<[u32; 2], String> {
    let choices = Choices::of(draft, mentions, entry);
    let walk = Walk::over(draft, &choices, entry)?;
    let lists = walk.lists.iter().map(|ran| ran.level).max();
    let evaluations = Visited { draft, mentions, entry, walk: &walk }.evaluations(&choices)?;
    let expressions = evaluations.iter().map(|evaluation| evaluation.read.depth).max();
    Ok([lists.unwrap_or(0), expressions.unwrap_or(0)])
}

/// The case's events as a play takes them, all in one run up to the first that is refused.
fn played(case: &Case) -> Vec<Entry> {
    let Ok((table, _)) = accept(&case.table) else {
        return vec![];
    };
    let Some(state) = State::of(&table, &case.state).filter(State::fits) else {
        return vec![];
    };
    let mut run = Run { table: &table, state, trace: vec![], outcomes: &[], visits: 0 };
    let one = |&event: &u32| {
        let (before, written, visited) = (run.state.words.clone(), run.trace.len(), run.visits);
        let event = Event::of(event);
        let answer = take(&mut run, event);
        let (after, trace) = (run.state.words.clone(), run.trace[written..].to_vec());
        let visits = run.visits - visited;
        let entry = Entry { event, outcomes: vec![], answer, before, after, trace, visits };
        (answer == 0).then_some(entry)
    };
    case.events.iter().map_while(one).collect()
}

/// All of this on what a fixed case asked; gives what it met.
pub fn try_asked(case: &Case) -> Result<Met, String> {
    let mut met = Met::new();
    try_table(&case.table, check(&case.table), &mut met)?;
    try_runs(case, &run(case), &mut met)?;
    Ok(met)
}

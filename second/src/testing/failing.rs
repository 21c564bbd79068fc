//! Request Q-9 on a case: which calls fail, which lists they stop, and what is answered where a
//! word lent is no outcome.

use super::coverage::{Met, Row};
use super::failing_rows::{self as rows, Failing};
use super::log::{Entry, hold, run};
use super::traces::callers;
use super::walk::{By, RanItem, RanList, Walk};
use crate::cases::Case;
use crate::cases::draft::Draft;
use crate::check::Check;
use crate::words::*;

fn special(met: &mut Met, rows: &[(bool, &'static str)]) {
    met.extend(rows.iter().filter(|(holds, _)| *holds).map(|&(_, row)| Row::Special(row)));
}

/// Answer 8 is given exactly where a word lent is above 1 and neither table, state, room nor the
/// event's form is refused before; and what a refused table met.
pub fn try_answers(
    case: &Case,
    checked: Check,
    log: &[Entry],
    met: &mut Met,
) -> Result<(), String> {
    meet_check(&case.table, checked, met);
    for (number, entry) in log.iter().enumerate() {
        let above_1 = entry.outcomes.iter().any(|&word| word >= 2);
        let due = if above_1 { [1, 2, 3, 4, 8].as_slice() } else { &[0, 1, 2, 3, 4, 5, 6] };
        hold(due.contains(&entry.answer), || {
            format!("event {number} answered {} with {:X?}", entry.answer, entry.outcomes)
        })?;
        if entry.answer == 8 {
            meet_8(case, entry, met);
        } else if above_1 {
            met.insert(Row::Failing(Failing::Before8(entry.answer)));
        }
    }
    Ok(())
}

fn meet_check(words: &[u32], checked: Check, met: &mut Met) {
    let Some(table) = Table::of(words) else {
        return;
    };
    match checked.reason {
        0 => {
            met.insert(Row::Failing(Failing::Accepted(table.edition)));
        }
        2 if [0, 3, 255].contains(&table.edition) => {
            met.insert(Row::Failing(Failing::NoEdition(table.edition)));
        }
        5 | 6 => {
            let past_header = checked.place - HEADER;
            if let Some((_, Word::Item(item))) = table.words().nth(past_header) {
                meet_item(table.edition, checked.reason, item, met);
            }
        }
        _ => {}
    }
}

/// An item that reason 5 or 6 refuses.
fn meet_item(edition: u32, reason: u32, item: Item, met: &mut Met) {
    let call = item.kind == item::OUTSIDE_CALL;
    let named = item.b == 0 && (item::CLEAR_EVENT..=item::RULE).contains(&item.kind);
    let request = item.kind == item::NETWORK_REQUEST && item.b <= mode::FULL;
    if item.abort == 1 && (named || request) {
        met.insert(Row::Failing(Failing::AbortIn(item.kind)));
    }
    let (one, two) = (edition == edition::ONE, edition == edition::TWO);
    special(
        met,
        &[
            (one && call && item.a == 2048, rows::A_2048),
            (two && call && item.a != 0, rows::A_IN_TWO),
            (one && reason == 6 && item.a > 2047, rows::NAME_ABOVE_2047),
            (two && reason == 6 && item.a == 2047, rows::NAME_2047),
        ],
    );
}

/// An event answered 8, and what it would have been with good outcomes in place of what is none.
fn meet_8(case: &Case, entry: &Entry, met: &mut Met) {
    let mended = entry.outcomes.iter().map(|&word| if word > 1 { 0 } else { word }).collect();
    let (state, events) = (entry.before.clone(), vec![entry.event.word()]);
    let mended = &run(&Case { state, events, outcomes: vec![mended], ..case.clone() })[0];
    if mended.answer != 0 {
        met.insert(Row::Failing(Failing::After8(mended.answer)));
    }
    let edition = Head::of(case.table[0]).edition;
    met.insert(Row::Failing(Failing::Eight(edition)));
    let outcomes = &entry.outcomes;
    let wrong: Vec<usize> = (0..outcomes.len()).filter(|&at| outcomes[at] > 1).collect();
    let last = outcomes.len() - 1;
    let read = if edition == edition::TWO { callers(&mended.trace).len() } else { 0 };
    let alone = wrong.len() == 1;
    special(
        met,
        &[
            (alone && last > 0 && wrong[0] == 0, rows::EIGHT_FIRST),
            (alone && 0 < wrong[0] && wrong[0] < last, rows::EIGHT_INNER),
            (alone && last > 0 && wrong[0] == last, rows::EIGHT_LAST),
            (last == 0, rows::EIGHT_ONLY),
            (entry.is_tick(), rows::EIGHT_TICK),
            (mended.answer == 0 && wrong[0] < read, rows::EIGHT_READ),
            (mended.answer == 0 && wrong[0] >= read, rows::EIGHT_UNREAD),
            (alone && outcomes[wrong[0]] == 2, rows::EIGHT_BY_2),
            (alone && outcomes[wrong[0]] == u32::MAX, rows::EIGHT_BY_MOST),
        ],
    );
}

/// A taken event.
pub fn meet(draft: &Draft, entry: &Entry, walk: &Walk, met: &mut Met) {
    meet_lent(draft, walk, met);
    let calls: Vec<&RanItem> =
        walk.items.iter().filter(|ran| ran.item.kind == item::OUTSIDE_CALL).collect();
    for (number, call) in calls.iter().enumerate() {
        let abort = call.item.abort == 1;
        met.insert(Row::Failing(Failing::Call(abort, call.failed)));
        let past_end = !walk.outcomes.is_empty() && number >= walk.outcomes.len();
        special(met, &[(abort && past_end, rows::PAST_END)]);
    }
    let aborted = (0..walk.lists.len()).filter(|&number| walk.lists[number].aborted);
    for number in aborted {
        met.insert(Row::Failing(Failing::At(entry.event.kind)));
        meet_aborted(draft, walk, number, met);
    }
    meet_owners(draft, walk, met);
}

/// The outcomes lent against the calls that ran.
fn meet_lent(draft: &Draft, walk: &Walk, met: &mut Met) {
    let (lent, calls) = (walk.outcomes.len(), walk.calls);
    let failed = walk.outcomes.iter().take(calls).any(|&word| word == outcome::FAILED);
    let (one, runs) = (draft.edition == edition::ONE, calls > 0);
    special(
        met,
        &[
            (!one && runs && lent == 0, rows::LENT_NONE),
            (!one && 0 < lent && lent < calls, rows::LENT_SHORT),
            (!one && runs && lent == calls, rows::LENT_EXACT),
            (!one && runs && lent > calls, rows::LENT_LONG),
            (!one && !runs && lent > 0, rows::LENT_IDLE),
            (one && failed, rows::FAILED_IN_ONE),
        ],
    );
}

/// A list that a failed call stopped.
fn meet_aborted(draft: &Draft, walk: &Walk, number: usize, met: &mut Met) {
    let RanList { list, by, level, ran, outer, .. } = walk.lists[number];
    met.extend([Failing::Level(level), Failing::By(by)].map(Row::Failing));
    let items = &draft.items[draft.lists[list].items()];
    met.extend(items[..ran - 1].iter().map(|item| Row::Failing(Failing::Kept(item.kind))));
    met.extend(items[ran..].iter().map(|item| Row::Failing(Failing::Left(item.kind))));
    met.insert(Row::Special(match (ran == 1, ran == items.len()) {
        (true, true) => rows::AT_ONLY,
        (true, false) => rows::AT_FIRST,
        (false, true) => rows::AT_LAST,
        (false, false) => rows::AT_INNER,
    }));
    let before = |abort: u32, failed: bool| {
        let mut calls = walk.items.iter().filter(|ran| ran.list == number);
        calls.any(|ran| {
            let Item { kind, abort: has, .. } = ran.item;
            kind == item::OUTSIDE_CALL && (has, ran.failed) == (abort, failed)
        })
    };
    let outer_aborted = outer.is_some_and(|outer| walk.lists[outer].aborted);
    special(
        met,
        &[
            (before(0, true), rows::FAILED_THEN_ABORTED),
            (before(1, false), rows::GOOD_THEN_ABORTED),
            (outer_aborted, rows::INNER_AND_OUTER),
        ],
    );
    meet_behind(walk, number, met);
}

/// What runs behind a list that a failed call stopped.
fn meet_behind(walk: &Walk, number: usize, met: &mut Met) {
    let RanList { by, outer, .. } = walk.lists[number];
    let went_on = outer.is_some_and(|outer| {
        let last = walk.items.iter().rposition(|ran| ran.list == number);
        walk.items[last.unwrap_or(0)..].iter().any(|ran| ran.list == outer)
    });
    let chosen = |later: &&RanList| by == By::Choice && later.by == By::Choice;
    let mut behind = walk.lists[number + 1..].iter().filter(chosen).peekable();
    special(
        met,
        &[
            (went_on && by == By::Name, rows::ON_BY_NAME),
            (went_on && by == By::RuleItem, rows::ON_BY_RULE),
            (behind.peek().is_some(), rows::NEXT_CHOSEN),
            (behind.any(|later| later.aborted), rows::NEXT_FAILS),
        ],
    );
}

fn meet_owners(draft: &Draft, walk: &Walk, met: &mut Met) {
    let aborted = walk.lists.iter().filter(|ran| ran.aborted);
    let owners: Vec<u32> = aborted.map(|ran| draft.lists[ran.list].owner).collect();
    let platforms = owners.contains(&PLATFORM);
    let operators = owners.iter().any(|&owner| owner != PLATFORM);
    special(
        met,
        &[
            (platforms, rows::PLATFORMS),
            (operators, rows::OPERATORS),
            (platforms && operators, rows::BOTH_OWNERS),
        ],
    );
}

/// With good calls a run is the same in the other edition without abort, where all calls fail. The
/// case lends no outcomes, `good` is its log, and `log` the one with the outcomes lent.
pub fn try_good(
    draft: &Draft,
    case: &Case,
    log: &[Entry],
    good: &[Entry],
    met: &mut Met,
) -> Result<(), String> {
    let other = edition::ONE + edition::TWO - draft.edition;
    let mut turned = Draft { edition: other, ..draft.clone() };
    turned.items.iter_mut().for_each(|item| item.abort = 0);
    let outcomes = vec![vec![outcome::FAILED; 20]; case.events.len()];
    let again = run(&Case { table: turned.words(), outcomes, ..case.clone() });
    for (number, (one, two)) in good.iter().zip(&again).enumerate() {
        let same = (one.answer, &one.after, &one.trace) == (two.answer, &two.after, &two.trace);
        hold(same, || format!("event {number} differs in edition {other}"))?;
    }
    let aborted = |(failing, good): (&Entry, &Entry)| {
        let same_before = failing.before == good.before && failing.answer == good.answer;
        same_before && failing.trace != good.trace
    };
    let calls = good.iter().any(|entry| !callers(&entry.trace).is_empty());
    let one = draft.edition == edition::ONE;
    special(
        met,
        &[
            (!one && calls, rows::AGAIN_IN_ONE),
            (one && calls, rows::AGAIN_IN_TWO),
            (log.iter().zip(good).any(aborted), rows::PLAYED_GOOD),
        ],
    );
    Ok(())
}

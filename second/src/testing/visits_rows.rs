//! Rows of request Q-10: what is evaluated, how often, and how near the bound events come.

use std::fmt;

use super::coverage::{EVENTS, EXPRESSIONS, Met, Row};
use super::visits::{Evaluation, Visited};
use crate::words::*;

#[derive(Clone, Copy, PartialEq, Eq, PartialOrd, Ord, Debug)]
pub enum Visits {
    /// The event's kind.
    In(u32),
    /// The edition.
    Of(u32),
    /// The answer of a refusal behind an event that had visits.
    NoneIn(u32),
    /// The operator whose skipped side has operators.
    Skipped(u32),
}

pub fn rows() -> impl Iterator<Item = Visits> {
    let settling = [expression::AND, expression::OR, expression::NAND];
    (event::TICK..=event::EVENT_REQUEST)
        .map(Visits::In)
        .chain([edition::ONE, edition::TWO].map(Visits::Of))
        .chain([4, 5, 6, 8].map(Visits::NoneIn))
        .chain(settling.map(Visits::Skipped))
}

impl fmt::Display for Visits {
    fn fmt(&self, f: &mut fmt::Formatter) -> fmt::Result {
        match *self {
            Visits::In(kind) => write!(f, "visits in: {}", EVENTS[kind as usize]),
            Visits::Of(edition) => write!(f, "visits in edition {edition}"),
            Visits::NoneIn(answer) => write!(f, "no visits: answer {answer} behind an event's"),
            Visits::Skipped(kind) => {
                write!(f, "side with operators skipped: {}", EXPRESSIONS[kind as usize])
            }
        }
    }
}

const NO_TRACE: &str = "visits without a trace word";
const AGAIN: &str = "rule evaluated by arbitration and again by a rule item";
const AGAIN_FEWER: &str = "rule evaluated again by a rule item, fewer visits";
const AGAIN_MORE: &str = "rule evaluated again by a rule item, more visits";
const ITEM_TWICE: &str = "rule evaluated by two rule items or more";
const ITEM_FEWER: &str = "rule item visits fewer words than before any list";
const ITEM_MORE: &str = "rule item visits more words than before any list";
const LIST_TWICE: &str = "list with a rule item that is evaluated run twice";
const UNDEFINED_NONE: &str = "rule item with an undefined port beside one that is evaluated";
const NOT_VISITED: &str = "rule not evaluated beside one that is: no arbitrated port";
const NESTED_ONLY: &str = "rule not evaluated beside one that is: nested-only";
const UNREADY: &str = "rule not evaluated beside one that is: an undefined port";
const IDLE: &str = "rule evaluated that changes nothing and has no list for its result";
const ABORTED: &str = "rule item not evaluated behind a call that aborted its list";
const BEHIND_ABORTED: &str = "rule item evaluated in a list outside of an aborted one";
const LARGEST: &str = "evaluation of 127 visits";
const SMALLEST: &str = "evaluation of 1 visit";
const SHARED: &str = "evaluation that visits an expression twice";
const DEEP: &str = "evaluation of seven levels that skips a side";
const HALF: &str = "visits at least 50 % of the bound";
const HALF_LISTS: &str = "visits at least 50 % of the bound, B above 0";
const MOST: &str = "visits at least 90 % of the bound";
const MOST_LISTS: &str = "visits at least 90 % of the bound, B above 0";
const ALL: &str = "visits that meet the bound";
const THOUSAND: &str = "visits above 1000";
const NONE_TICK: &str = "no visits: tick";
const NONE_DEFERRED: &str = "no visits: request of a deferred port";
pub const PLAY_REFUSED: &str = "visits of a play ended by a refusal";
pub const PLAY_FULL: &str = "visits of a play stopped at trace full";
pub const PLAY_SILENT: &str = "visits of a play that writes nothing";

pub const ROWS: [&str; 30] = [
    NO_TRACE,
    AGAIN,
    AGAIN_FEWER,
    AGAIN_MORE,
    ITEM_TWICE,
    ITEM_FEWER,
    ITEM_MORE,
    LIST_TWICE,
    UNDEFINED_NONE,
    NOT_VISITED,
    NESTED_ONLY,
    UNREADY,
    IDLE,
    ABORTED,
    BEHIND_ABORTED,
    LARGEST,
    SMALLEST,
    SHARED,
    DEEP,
    HALF,
    HALF_LISTS,
    MOST,
    MOST_LISTS,
    ALL,
    THOUSAND,
    NONE_TICK,
    NONE_DEFERRED,
    PLAY_REFUSED,
    PLAY_FULL,
    PLAY_SILENT,
];

pub fn special(met: &mut Met, rows: &[(bool, &'static str)]) {
    met.extend(rows.iter().filter(|(holds, _)| *holds).map(|&(_, row)| Row::Special(row)));
}

/// What an event's evaluations met, against the most that its table lets it visit.
pub fn meet(visited: &Visited, evaluations: &[Evaluation], bound: u64, met: &mut Met) {
    let (entry, visits) = (visited.entry, visited.entry.visits);
    let lists = !visited.draft.lists.is_empty();
    let deferred = (event::MODE_REQUEST..=event::EVENT_REQUEST).contains(&entry.event.kind)
        && visited.draft.ports[entry.event.index as usize].deferred == 1;
    special(
        met,
        &[
            (visits > 0 && entry.trace.is_empty(), NO_TRACE),
            (2 * visits >= bound, HALF),
            (2 * visits >= bound && lists, HALF_LISTS),
            (10 * visits >= 9 * bound, MOST),
            (10 * visits >= 9 * bound && lists, MOST_LISTS),
            (visits == bound, ALL),
            (visits > 1000, THOUSAND),
            (visits == 0 && entry.is_tick(), NONE_TICK),
            (deferred, NONE_DEFERRED),
        ],
    );
    if visits > 0 {
        let kinds = [Visits::In(entry.event.kind), Visits::Of(visited.draft.edition)];
        met.extend(kinds.map(Row::Visits));
        meet_rules(visited, evaluations, met);
    }
    evaluations.iter().for_each(|evaluation| meet_evaluation(evaluation, met));
    meet_again(evaluations, met);
    meet_lists(visited, evaluations, met);
}

fn meet_evaluation(evaluation: &Evaluation, met: &mut Met) {
    let read = &evaluation.read;
    met.extend(read.skipped.iter().map(|&kind| Row::Visits(Visits::Skipped(kind))));
    let by_item = evaluation.item.is_some();
    special(
        met,
        &[
            (read.visits == 127, LARGEST),
            (read.visits == 1, SMALLEST),
            (read.shared, SHARED),
            (read.depth == LEVELS && !read.skipped.is_empty(), DEEP),
            (by_item && read.visits < evaluation.at_first, ITEM_FEWER),
            (by_item && read.visits > evaluation.at_first, ITEM_MORE),
        ],
    );
}

/// Rules that are evaluated more than once.
fn meet_again(evaluations: &[Evaluation], met: &mut Met) {
    let (items, arbitrated): (Vec<&Evaluation>, Vec<&Evaluation>) =
        evaluations.iter().partition(|evaluation| evaluation.item.is_some());
    for (number, item) in items.iter().enumerate() {
        let first = arbitrated.iter().find(|first| first.rule == item.rule);
        let before = first.map_or(item.read.visits, |first| first.read.visits);
        special(
            met,
            &[
                (first.is_some(), AGAIN),
                (item.read.visits < before, AGAIN_FEWER),
                (item.read.visits > before, AGAIN_MORE),
                (items[..number].iter().any(|earlier| earlier.rule == item.rule), ITEM_TWICE),
            ],
        );
    }
}

/// Rules that are not evaluated, or to no effect, in an event that evaluates some.
fn meet_rules(visited: &Visited, evaluations: &[Evaluation], met: &mut Met) {
    let (draft, entry) = (visited.draft, visited.entry);
    let arbitrated = super::ports::arbitrated(draft, entry);
    let undefined = super::ports::undefined(draft, entry);
    for (number, rule) in draft.rules.iter().enumerate() {
        let mentions = visited.mentions[number];
        let due = mentions & arbitrated != 0;
        let mut own = evaluations.iter().filter(|evaluation| evaluation.rule == number);
        let (nested, ready) = (rule.nested_only == 1, mentions & undefined == 0);
        let state = draft.ports.len() + number;
        let same = entry.before[state] == entry.after[state];
        special(
            met,
            &[
                (!due && !nested && ready, NOT_VISITED),
                (due && nested && ready && own.clone().next().is_none(), NESTED_ONLY),
                (due && !nested && !ready, UNREADY),
                (same && own.any(|e| rule.list_for(e.read.gives).is_none()), IDLE),
            ],
        );
    }
}

/// Rule items by the lists that hold them.
fn meet_lists(visited: &Visited, evaluations: &[Evaluation], met: &mut Met) {
    let (draft, walk) = (visited.draft, visited.walk);
    let is_rule = |item: &Item| item.kind == item::RULE;
    let places: Vec<usize> = evaluations.iter().filter_map(|evaluation| evaluation.item).collect();
    let rules = walk.items.iter().filter(|ran| is_rule(&ran.item)).count();
    let holders: Vec<usize> = places.iter().map(|&place| walk.items[place].list).collect();
    let twice = |&holder: &usize| {
        let same =
            |&other: &usize| other != holder && walk.lists[other].list == walk.lists[holder].list;
        holders.iter().any(same)
    };
    special(
        met,
        &[
            (!places.is_empty() && rules > places.len(), UNDEFINED_NONE),
            (holders.iter().any(twice), LIST_TWICE),
        ],
    );
    for (number, ran) in walk.lists.iter().enumerate().filter(|(_, ran)| ran.aborted) {
        let left = &draft.items[draft.lists[ran.list].items()][ran.ran..];
        let last = walk.items.iter().rposition(|item| item.list == number).unwrap_or(0);
        let behind = |&place: &usize| place > last && Some(walk.items[place].list) == ran.outer;
        special(
            met,
            &[
                (left.iter().any(is_rule), ABORTED),
                (ran.outer.is_some() && places.iter().any(behind), BEHIND_ABORTED),
            ],
        );
    }
}

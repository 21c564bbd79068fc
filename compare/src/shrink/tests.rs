//! A side made wrong on purpose is found and its case made small.

mod buslogs;
mod holds;
mod listings;
mod panels;

use herringcart::{Answer, End, Played};
use second::cases::draft::Draft;
use second::cases::{Case, Cases};
use second::words::*;

use super::{LIMIT, smallest, smallest_difference};
use crate::bench::MARKED;
use crate::differ::compare;
use crate::subject::{Proved, Subject};

/// The first of a seed's cases on which a wrong side shows, made small.
fn found(wrong: &impl Subject) -> Case {
    let mut cases = Cases::new(6).take(4000).map(|made| made.case);
    let case = cases.find(|case| compare(wrong, case).is_err()).expect("a case that shows it");
    assert!(compare(&Proved, &case).is_ok());
    let (small, _) = smallest_difference(wrong, &case);
    assert!(compare(wrong, &small).is_err() && compare(&Proved, &small).is_ok());
    small
}

/// Has a timer undefined when it expires.
struct Undefines;

impl Subject for Undefines {
    fn step(
        &self,
        table: &[u32],
        state: &mut [u32],
        trace: &mut [u32],
        outcomes: &[u32],
        event: u32,
    ) -> Answer {
        let before = state.to_vec();
        let answer = herringcart::take_event(table, state, trace, outcomes, event);
        for (old, new) in before.iter().zip(state) {
            let (was, is) = (PortState::of(*old), PortState::of(*new));
            if (was.value, is.value, was.remaining) == (timer::STARTED, timer::EXPIRED, 1) {
                *new = PortState { defined: 0, ..is }.word();
            }
        }
        answer
    }
}

#[test]
fn wrong_bit_in_an_expiring_timer_is_found_and_its_case_made_small() {
    let small = found(&Undefines);
    let table = Table::of(&small.table).expect("a header");
    assert_eq!((table.count(Section::Ports), small.events.len()), (1, 1));
    assert!(small.table.len() <= 6, "{small:X?}");
}

/// Writes a word behind the trace it is lent where a list asks a network.
struct WritesPast;

impl Subject for WritesPast {
    fn step(
        &self,
        table: &[u32],
        state: &mut [u32],
        trace: &mut [u32],
        outcomes: &[u32],
        event: u32,
    ) -> Answer {
        let answer = herringcart::take_event(table, state, trace, outcomes, event);
        let asks = |word: &u32| TraceWord::of(*word).kind == item::NETWORK_REQUEST;
        if trace[..answer.count].iter().any(asks) {
            // SAFETY: the comparison lends its words out of a larger buffer.
            unsafe { *trace.as_mut_ptr().add(trace.len()) = 0 };
        }
        answer
    }
}

#[test]
fn word_written_past_the_trace_is_found_and_its_case_made_small() {
    let small = found(&WritesPast);
    assert_eq!((small.events.len(), small.room), (1, 2));
    // Two ports, a network, an expression, a rule, a list, an item.
    assert!(small.table.len() <= 11, "{small:X?}");
}

/// Takes every call for good.
struct AllGood;

impl Subject for AllGood {
    fn step(
        &self,
        table: &[u32],
        state: &mut [u32],
        trace: &mut [u32],
        outcomes: &[u32],
        event: u32,
    ) -> Answer {
        let good: Vec<u32> = outcomes.iter().map(|&word| word & !outcome::FAILED).collect();
        herringcart::take_event(table, state, trace, &good, event)
    }
}

#[test]
fn failed_call_taken_for_good_is_found_and_its_case_made_small() {
    let small = found(&AllGood);
    assert_eq!((small.events.len(), small.outcomes.concat()), (1, vec![outcome::FAILED]));
    // A port, an expression, a rule, a list, the call with abort and an item behind it.
    assert_eq!(small.table.len(), 9, "{small:X?}");
    assert_eq!(Table::of(&small.table).expect("a header").item(0).abort, 1);
}

#[test]
fn outcomes_that_nothing_asks_for_are_dropped_or_good() {
    let outcomes = vec![vec![1, 0, 1], vec![1, 1, u32::MAX]];
    let case = Case { events: vec![0; 2], outcomes, ..Default::default() };
    let second_failed = |case: &Case| case.lent(1).get(1) == Some(&outcome::FAILED);
    assert_eq!(smallest(&case, second_failed, LIMIT).outcomes, [vec![], vec![0, 1]]);
    let any_above_1 = |case: &Case| case.outcomes.concat().iter().any(|&word| word > 1);
    let small = smallest(&case, any_above_1, LIMIT).outcomes.concat();
    assert_eq!((small.len(), small[0].count_ones()), (1, 1));
}

/// Reads 2 as failed.
struct TakesTwo;

impl Subject for TakesTwo {
    fn step(
        &self,
        table: &[u32],
        state: &mut [u32],
        trace: &mut [u32],
        outcomes: &[u32],
        event: u32,
    ) -> Answer {
        let read = |&word: &u32| if word == 2 { outcome::FAILED } else { word };
        let outcomes: Vec<u32> = outcomes.iter().map(read).collect();
        herringcart::take_event(table, state, trace, &outcomes, event)
    }
}

#[test]
fn outcome_above_1_taken_for_failed_is_found_and_its_case_made_small() {
    let small = found(&TakesTwo);
    assert_eq!((small.events.len(), small.outcomes.concat()), (1, vec![2]));
    // A port, an expression and a rule: no call has to run.
    assert_eq!(small.table.len(), 6, "{small:X?}");
    assert_eq!(Table::of(&small.table).expect("a header").edition, edition::ONE);
}

#[test]
fn one_thing_less_moves_the_names_of_later_ones() {
    // Whatever is taken out, what is left is a table of one thing less, and both sides read it.
    let case = Cases::new(1).next().expect("cases have no end").case;
    for section in SECTIONS {
        let count = super::things::count(&case, section);
        for at in 0..count {
            let less = super::things::without(&case, section, at).expect("a shaped table");
            assert_eq!(super::things::count(&less, section), count - 1);
            assert!(compare(&Proved, &less).is_ok());
        }
    }
}

/// Takes an expression nested seven deep for eight.
struct CountsOneMore;

impl Subject for CountsOneMore {
    fn check(&self, table: &[u32]) -> herringcart::Check {
        let check = herringcart::check_table(table);
        let deep = |table: &Table| {
            let names = |e: usize| table.expression(e).arguments().collect();
            let names: Vec<Vec<usize>> =
                (0..table.count(Section::Expressions)).map(names).collect();
            second::expressions::depths(&names).iter().position(|depth| *depth == Some(LEVELS))
        };
        match Table::of(table).filter(|_| check.accepted()) {
            Some(read) if deep(&read).is_some() => herringcart::Check { reason: 7, ..check },
            _ => check,
        }
    }
}

#[test]
fn wrong_check_is_found_and_its_case_made_small() {
    let small = found(&CountsOneMore);
    assert!(small.events.is_empty() && small.state.is_empty());
    // A port, seven expressions, a rule.
    assert_eq!(small.table.len(), 12, "{small:X?}");
}

/// Counts an event that a play does not take.
struct CountsRefused;

impl Subject for CountsRefused {
    fn play(&self, table: &[u32], state: &mut [u32], trace: &mut [u32], events: &[u32]) -> Played {
        let played = herringcart::play(table, state, trace, events);
        let refused = matches!(played.end, End::Malformed | End::NoSuchThing | End::NotItsOwner);
        Played { taken: played.taken + usize::from(refused), ..played }
    }
}

#[test]
fn refused_event_that_a_play_counts_is_found_and_its_case_made_small() {
    let small = found(&CountsRefused);
    assert_eq!(small.events.len(), 1, "{small:X?}");
}

/// Lays the words of the last event that writes over those before it: what a play that starts each event at the front would leave.
struct LaysOver;

impl Subject for LaysOver {
    fn play(&self, table: &[u32], state: &mut [u32], trace: &mut [u32], events: &[u32]) -> Played {
        let room = trace.len();
        let (mut taken, mut count) = (0, 0);
        loop {
            let one = &events[taken..events.len().min(taken + 1)];
            let played = herringcart::play(table, state, &mut trace[..room - count], one);
            taken += played.taken;
            count += played.count;
            if played.end != End::Done || taken == events.len() {
                return Played { taken, count, ..played };
            }
        }
    }
}

#[test]
fn words_laid_over_earlier_ones_are_found() {
    let small = found(&LaysOver);
    assert!(small.events.len() <= 3, "{small:X?}");
}

/// The visits of the rules that arbitration evaluates, alone: of the table without its lists, which `alter` may change further.
fn arbitrated(table: &[u32], state: &[u32], event: u32, alter: impl Fn(&mut Draft)) -> u32 {
    let Some(read) = Table::of(table).filter(|_| herringcart::check_table(table).accepted()) else {
        return 0;
    };
    let mut draft = Draft { lists: vec![], items: vec![], ..Draft::of(&read) };
    for rule in &mut draft.rules {
        (rule.true_list, rule.false_list) = (NO_LIST, NO_LIST);
    }
    alter(&mut draft);
    herringcart::take_event(&draft.words(), &mut state.to_vec(), &mut [], &[], event).visits
}

/// Counts both sides of every operator, of the rules that arbitration evaluates.
struct CountsSkipped;

impl Subject for CountsSkipped {
    fn step(
        &self,
        table: &[u32],
        state: &mut [u32],
        trace: &mut [u32],
        outcomes: &[u32],
        event: u32,
    ) -> Answer {
        // Nothing settles an XOR.
        let whole = arbitrated(table, state, event, |draft| {
            for expression in &mut draft.expressions {
                if let Expression::Operator(operator) = expression
                    && operator.kind != expression::NOT
                {
                    operator.kind = expression::XOR;
                }
            }
        });
        let answer = herringcart::take_event(table, state, trace, outcomes, event);
        let visits = if answer.done() { answer.visits.max(whole) } else { answer.visits };
        Answer { visits, ..answer }
    }
}

#[test]
fn skipped_side_that_is_counted_is_found_and_its_case_made_small() {
    let small = found(&CountsSkipped);
    assert_eq!(small.events.len(), 1, "{small:X?}");
    // A port, a condition, an operator of which it is both sides, and a rule.
    assert_eq!(small.table.len(), 7, "{small:X?}");
}

/// Forgets what rule items visit.
struct ForgetsRuleItems;

impl Subject for ForgetsRuleItems {
    fn step(
        &self,
        table: &[u32],
        state: &mut [u32],
        trace: &mut [u32],
        outcomes: &[u32],
        event: u32,
    ) -> Answer {
        let visits = arbitrated(table, state, event, |_| {});
        let answer = herringcart::take_event(table, state, trace, outcomes, event);
        if answer.done() { Answer { visits, ..answer } } else { answer }
    }
}

#[test]
fn rule_items_that_are_not_counted_are_found_and_their_case_made_small() {
    let small = found(&ForgetsRuleItems);
    assert_eq!(small.events.len(), 1, "{small:X?}");
    // A port, a condition, two rules, a list and its item.
    assert_eq!(small.table.len(), 9, "{small:X?}");
}

/// Reports a visit of an event that another owner's thing is asked by.
struct VisitsRefused;

impl Subject for VisitsRefused {
    fn step(
        &self,
        table: &[u32],
        state: &mut [u32],
        trace: &mut [u32],
        outcomes: &[u32],
        event: u32,
    ) -> Answer {
        let answer = herringcart::take_event(table, state, trace, outcomes, event);
        Answer { visits: answer.visits + u32::from(answer.number == 6), ..answer }
    }
}

#[test]
fn visit_of_a_refused_event_is_found_and_its_case_made_small() {
    let small = found(&VisitsRefused);
    // Two ports, one of another owner, a condition and a rule.
    assert_eq!((small.events.len(), small.table.len()), (1, 7), "{small:X?}");
}

/// Of a play reports what its last event visits.
struct VisitsOfTheLast;

impl Subject for VisitsOfTheLast {
    fn play(&self, table: &[u32], state: &mut [u32], trace: &mut [u32], events: &[u32]) -> Played {
        let before = state.to_vec();
        let played = herringcart::play(table, state, trace, events);
        let Some(last) = played.taken.checked_sub(1) else { return played };
        let (mut state, mut trace) = (before, trace.to_vec());
        let but_one = herringcart::play(table, &mut state, &mut trace, &events[..last]);
        Played { visits: played.visits - but_one.visits, ..played }
    }
}

#[test]
fn play_that_forgets_earlier_visits_is_found_and_its_case_made_small() {
    let small = found(&VisitsOfTheLast);
    // The second event may visit nothing.
    assert_eq!((small.events.len(), small.table.len()), (2, 6), "{small:X?}");
}

#[test]
fn what_is_told_of_a_case_says_its_visits() {
    let events = vec![0x1100_0500, 0, 0x1200_0500];
    let case =
        Case { table: MARKED.to_vec(), state: vec![0; 4], room: 3, events, ..Default::default() };
    let told = crate::generated::told("name", &case);
    assert!(told.contains("\nvisits: 1; 0; 0 by the second program, each at most 508\n"), "{told}");
}

//! Request Q-11: an accepted table nests seven levels at most, so that no run comes to an eighth,
//! in either edition, by single events and in play.

use super::editions::edition_2;
use super::lists::GO;
use super::*;
use crate::cases::Case;
use crate::testing::coverage::Row;
use crate::testing::nesting::{Calls, Nesting, WAYS, Way, What, deepest, try_asked};
use crate::testing::recorded::play;

/// Both editions of a table, each with its number.
fn editions(table: &[u32]) -> [(u32, Vec<u32>); 2] {
    [(1, table.to_vec()), (2, edition_2(table))]
}

/// So many lists, each in the one before by this way; the last calls 8. GO starts list 0, whose
/// word is at place 6 and as many more; rule items for false lists give false then.
fn row(levels: u32, way: Way) -> Vec<u32> {
    let nested = |k: u32| match way {
        Way::Name => rule(1, 0, NONE, NONE),
        Way::TrueList => rule(1, 0, k, NONE),
        Way::FalseList => rule(1, 1, NONE, k),
    };
    let rules: Vec<u32> = (0..levels)
        .map(|k| if k == 0 { rule(1, 0, 0, NONE) } else { nested_only(nested(k)) })
        .collect();
    let lists: Vec<u32> = (0..levels).map(|k| list(1, k, 1)).collect();
    let naming = (1..levels).map(|k| item(if way == Way::Name { 5 } else { 6 }, k));
    let items: Vec<u32> = naming.chain([call(8)]).collect();
    plain(&[mode(1)], &[equal(0, 5), not(0)], &rules, &lists, &items)
}

/// What GO writes where there are seven.
fn row_words(way: Way) -> Vec<u32> {
    let shown = match way {
        Way::Name => None,
        Way::TrueList => Some(0x6100_0001),
        Way::FalseList => Some(0x6100_0000),
    };
    let started = (0..7).flat_map(|k| {
        let item = shown.filter(|_| k > 0).map(|word| word + (k << 16));
        item.into_iter().chain([0xF100_0000 + (k << 16)])
    });
    started.chain([0x0100_0008]).collect()
}

/// So many expressions, each but the first on the one before: on its left, on its right, or NOT.
/// GO has the last evaluated down to the first, at place 4. Its rule starts no list.
fn chain(levels: u32, joined: usize) -> Vec<u32> {
    let join = |below: u32| match joined {
        0 => operator(expression::XOR, below, 0),
        1 => operator(expression::XOR, 0, below),
        _ => not(below),
    };
    let words: Vec<u32> = [equal(0, 5)].into_iter().chain((0..levels - 1).map(join)).collect();
    plain(&[mode(1)], &words, &[rule(1, levels - 1, NONE, NONE)], &[], &[])
}

/// GO on a fresh state comes to level seven, by a single event and in a play.
#[track_caller]
fn comes_to_seven(what: What, edition: u32, table: &[u32]) {
    let Play { table, state } = Play::fresh(table);
    let room = check(&table).b;
    let met = try_asked(&Case { table, state, room, events: vec![GO], outcomes: vec![] });
    let met = met.expect("no deeper than seven");
    for calls in [Calls::Single, Calls::Play] {
        assert!(met.contains(&Row::Nesting(Nesting::Ran(what, edition, calls))), "{calls:?}");
    }
}

/// Nothing can be had of the table but answer 1, whatever is lent, and nothing is written.
#[track_caller]
fn is_answer_1(table: &[u32]) {
    let length = crate::state::state_length(&Table::of(table).expect("a header"));
    let (mut state, mut trace) = (vec![0; length], [0x5555_5555; 60]);
    assert_eq!([fresh(table, &mut state), check_state(table, &state)], [1, 1]);
    for (event, outcomes) in
        [(GO, &[][..]), (TICK, &[]), (GO, &[0, 1]), (GO, &[2]), (u32::MAX, &[])]
    {
        let stepped = step(table, &mut state, &mut trace, event, outcomes);
        assert_eq!((stepped.answer, stepped.count, stepped.visits), (1, 0, 0));
    }
    for events in [&[GO, TICK][..], &[]] {
        let played = play(table, &mut state, &mut trace, events);
        assert_eq!((played.answer, played.taken, played.count, played.visits), (1, 0, 0, 0));
    }
    assert_eq!((state, trace), (vec![0; length], [0x5555_5555; 60]));
}

/// Each of so many lists names all behind it, the nearest first or last; the last calls 8.
fn naming_all(levels: u32, nearest_first: bool) -> Vec<u32> {
    let last = levels - 1;
    let named = |k: u32| item(5, if nearest_first { k } else { levels - k });
    let items: Vec<u32> = (1..levels).map(named).chain([call(8)]).collect();
    let first = |k: u32| if nearest_first { k } else { 0 };
    let lists = (0..last).map(|k| list(1, first(k), last - k)).chain([list(1, last, 1)]);
    let lists: Vec<u32> = lists.collect();
    plain(&[mode(1)], &[equal(0, 5)], &[rule(1, 0, 0, NONE)], &lists, &items)
}

fixed_cases! {
    fn lists_nested_by_each_way_stand_at_seven_and_are_refused_at_eight() {
        for way in WAYS {
            // Costs 2, and 1 or 2 more for each list above.
            let b = if way == Way::Name { 35 } else { 56 };
            for (_, table) in editions(&row(7, way)) {
                stands(&table, b);
                assert_eq!(deepest(&table), [7, 2]);
            }
            for (_, table) in editions(&row(8, way)) {
                refused(&table, 7, 6 + 8);
                assert_eq!(deepest(&table), [8, 2]);
            }
        }
    }

    fn lists_nested_by_each_way_run_down_to_level_seven() {
        for way in WAYS {
            for (edition, table) in editions(&row(7, way)) {
                assert_eq!(Play::fresh(&table).take(GO), row_words(way));
                let (mut state, mut trace) = (Play::fresh(&table).state, [0; 56]);
                let played = play(&table, &mut state, &mut trace, &[GO]);
                assert_eq!((played.answer, played.taken), (0, 1));
                assert_eq!(trace[..played.count], row_words(way));
                comes_to_seven(What::List, edition, &table);
            }
        }
    }

    fn lists_eight_deep_are_answer_1_to_every_call() {
        for way in WAYS {
            editions(&row(8, way)).iter().for_each(|(_, table)| is_answer_1(table));
        }
    }

    fn expressions_of_each_form_stand_at_seven_and_are_refused_at_eight() {
        for joined in 0..3 {
            for (edition, table) in editions(&chain(7, joined)) {
                stands(&table, 0);
                assert_eq!(deepest(&table), [0, 7]);
                comes_to_seven(What::Expression, edition, &table);
            }
            for (_, table) in editions(&chain(8, joined)) {
                refused(&table, 7, 4 + 7);
                assert_eq!(deepest(&table), [0, 8]);
                is_answer_1(&table);
            }
        }
    }

    fn longest_way_down_counts_wherever_its_item_stands() {
        for nearest_first in [true, false] {
            for (edition, table) in editions(&naming_all(7, nearest_first)) {
                // Costs 2 and 3, and then twice the one before.
                stands(&table, 2 + 3 + 6 + 12 + 24 + 48 + 96);
                assert_eq!(deepest(&table), [7, 1]);
                comes_to_seven(What::List, edition, &table);
            }
            for (_, table) in editions(&naming_all(8, nearest_first)) {
                refused(&table, 7, 6);
                assert_eq!(deepest(&table), [8, 1]);
            }
        }
    }

    /// List 0 holds a rule item with the row from list 2 on and list 1, a call; the row's last
    /// list calls too. It counts whichever of the two the rule gives, and even if it never runs.
    fn deeper_of_a_rule_items_lists_counts_whatever_the_rule_gives() {
        let table = |levels: u32, lists: (u32, u32), expression: u32| {
            let rules = [rule(1, 0, 0, NONE), nested_only(rule(1, expression, lists.0, lists.1))];
            let row = (3..=levels).map(|next| item(5, next));
            let items: Vec<u32> = [item(6, 1), call(8)].into_iter().chain(row).collect();
            let items = [&items[..], &[call(9)]].concat();
            let lists: Vec<u32> = (0..=levels).map(|k| list(1, k, 1)).collect();
            plain(&[mode(1)], &[equal(0, 5), not(0)], &rules, &lists, &items)
        };
        for lists in [(2, 1), (1, 2)] {
            for expression in [0, 1] {
                for (edition, seven) in editions(&table(7, lists, expression)) {
                    stands(&seven, 2 + (2 + 3 + 4 + 5 + 6 + 7) + 9);
                    assert_eq!(deepest(&seven), [7, 2]);
                    // GO gives the first true and the second false.
                    if (expression == 0) == (lists == (2, 1)) {
                        comes_to_seven(What::List, edition, &seven);
                    }
                }
                for (_, eight) in editions(&table(8, lists, expression)) {
                    refused(&eight, 7, 8);
                    assert_eq!(deepest(&eight), [8, 2]);
                }
            }
        }
    }

    /// Each names the one before it, and the rule starts the last.
    fn eighth_level_is_refused_at_the_lowest_list_above_it() {
        let table = |levels: u32| {
            let naming = (1..levels).map(|above| item(5, above - 1));
            let items: Vec<u32> = [call(8)].into_iter().chain(naming).collect();
            let lists: Vec<u32> = (0..levels).map(|k| list(1, k, 1)).collect();
            plain(&[mode(1)], &[equal(0, 5)], &[rule(1, 0, levels - 1, NONE)], &lists, &items)
        };
        for (_, table) in editions(&table(7)) {
            stands(&table, 35);
        }
        for levels in [8, 9, 20] {
            for (_, table) in editions(&table(levels)) {
                refused(&table, 7, 6 + 7);
            }
        }
    }
}

//! Request Q-9: "A failed call with abort stops the list that holds it, after its trace word; an
//! outer list goes on."

use super::editions::{abort, edition_2};
use super::*;

/// Operator 1's request that starts what the tables here start.
const GO: u32 = 0x1100_0500;
const GOOD: u32 = 0;
const FAILED: u32 = 1;

/// A call with abort.
fn risky(code: u32) -> u32 {
    abort(call(code))
}

/// List 0 of these items, started by GO, in edition 1.
fn first_edition(items: &[u32]) -> Vec<u32> {
    let lists = [list(1, 0, items.len() as u32)];
    plain(&[mode(1)], &[equal(0, 5)], &[rule(1, 0, 0, NONE)], &lists, items)
}

fn one_list(items: &[u32]) -> Vec<u32> {
    edition_2(&first_edition(items))
}

/// Lists of these items of operator 1's; GO chooses the first ones, so many, in this order.
fn lists_of(chosen: u32, lists: &[&[u32]]) -> Vec<u32> {
    let mut first = 0;
    let words = lists.iter().map(|items| {
        let word = list(1, first, items.len() as u32);
        first += items.len() as u32;
        word
    });
    let words: Vec<u32> = words.collect();
    let rules: Vec<u32> = (0..chosen).map(|number| rule(1, 0, number, NONE)).collect();
    edition_2(&plain(&[mode(1)], &[equal(0, 5)], &rules, &words, &lists.concat()))
}

/// List 0 holds rule item 1, whose list 1 is for both results.
fn by_rule_item(before: &[u32], after: &[u32], inner: &[u32]) -> Vec<u32> {
    let items = [before, &[item(6, 1)], after, inner].concat();
    let outer = (before.len() + 1 + after.len()) as u32;
    let rules = [rule(1, 0, 0, NONE), nested_only(rule(1, 0, 1, 1))];
    let lists = [list(1, 0, outer), list(1, outer, inner.len() as u32)];
    edition_2(&plain(&[mode(1)], &[equal(0, 5)], &rules, &lists, &items))
}

/// GO with these outcomes, from a fresh state, writes this.
#[track_caller]
fn runs(table: &[u32], outcomes: &[u32], trace: &[u32]) {
    assert_eq!(Play::fresh(table).take_with(GO, outcomes), trace, "{outcomes:?}");
}

/// List 0's start and calls of these codes.
fn calls(codes: &[u32]) -> Vec<u32> {
    [0xF100_0000].into_iter().chain(codes.iter().map(|code| 0x0100_0000 + code)).collect()
}

/// GO with these outcomes, from a fresh state, has list 0 call these.
#[track_caller]
fn called(table: &[u32], outcomes: &[u32], codes: &[u32]) {
    runs(table, outcomes, &calls(codes));
}

/// Lists 0 up to 6, each in the one before, by name or by a rule item on a rule of its own. List k
/// calls 1k (hex) with abort, then names the next, then calls 2k: in all, calls 10 up to 16, then
/// 26 down to 20.
fn seven_deep(by_rules: bool) -> Vec<u32> {
    let naming = |next: u32| if by_rules { item(6, next) } else { item(5, next) };
    let items = (0..7).flat_map(|k| {
        let inner = (k < 6).then(|| naming(k + 1));
        [Some(risky(0x10 + k)), inner, Some(call(0x20 + k))].into_iter().flatten()
    });
    let items: Vec<u32> = items.collect();
    let lists: Vec<u32> = (0..7).map(|k| list(1, 3 * k, if k < 6 { 3 } else { 2 })).collect();
    let nested = (1..7).map(|k| nested_only(rule(1, 0, k, NONE)));
    let rules: Vec<u32> = [rule(1, 0, 0, NONE)].into_iter().chain(nested).collect();
    edition_2(&plain(&[mode(1)], &[equal(0, 5)], &rules, &lists, &items))
}

/// What it writes where the call with abort of the last of so many levels fails.
fn aborted_at(level: u32, by_rules: bool) -> Vec<u32> {
    let down = (0..level).flat_map(|k| {
        let item = (by_rules && k > 0).then_some(0x6100_0001 + (k << 16));
        [item, Some(0xF100_0000 + (k << 16)), Some(0x0100_0010 + k)].into_iter().flatten()
    });
    let up = (0..level - 1).rev().map(|k| 0x0100_0020 + k);
    down.chain(up).collect()
}

/// Ports: 0 mode, 1 event, 2 timer of reload 9, 3 the network's; the list of these items.
fn with_things(items: &[u32]) -> Vec<u32> {
    edition_2(&table(
        &[mode(1), event(1), timer(1, 9), deferred(mode(1))],
        &[network(1, 3)],
        &[],
        &[equal(0, 5), set(1)],
        &[rule(1, 0, 0, NONE), nested_only(rule(1, 1, NONE, NONE))],
        &[list(1, 0, items.len() as u32)],
        items,
    ))
}

/// Before GO: the event set and unmarked, the timer stopped, rule 1 undefined, nothing asked.
const THINGS: [u32; 7] = [0, 0x8040_0000, 0x8000_0000, 0, 0, 0x8000_0000, 0];

/// The same after GO, port 0 and rule 0 apart, where the list did nothing.
const UNTOUCHED: [u32; 7] = [0x8140_0000, 0x8040_0000, 0x8000_0000, 0, 0x4000_0000, 0x8000_0000, 0];

fixed_cases! {
    fn failed_call_with_abort_stops_its_list_after_its_trace_word() {
        let table = one_list(&[risky(1), risky(2), risky(3)]);
        called(&table, &[FAILED], &[1]);
        called(&table, &[GOOD, FAILED], &[1, 2]);
        called(&table, &[GOOD, GOOD, FAILED], &[1, 2, 3]);
        called(&table, &[GOOD, GOOD, GOOD], &[1, 2, 3]);
    }

    fn abort_at_the_first_item() {
        let table = one_list(&[risky(1), call(2), call(3)]);
        called(&table, &[FAILED, GOOD, GOOD], &[1]);
        called(&table, &[GOOD, FAILED, FAILED], &[1, 2, 3]);
    }

    fn abort_at_a_middle_item() {
        let table = one_list(&[call(1), risky(2), call(3)]);
        called(&table, &[GOOD, FAILED, GOOD], &[1, 2]);
        called(&table, &[FAILED, GOOD, FAILED], &[1, 2, 3]);
    }

    fn abort_at_the_last_item() {
        let table = one_list(&[call(1), call(2), risky(3)]);
        called(&table, &[GOOD, GOOD, FAILED], &[1, 2, 3]);
        called(&table, &[FAILED, FAILED, GOOD], &[1, 2, 3]);
    }

    fn abort_at_the_only_item() {
        called(&one_list(&[risky(1)]), &[FAILED], &[1]);
        called(&one_list(&[risky(1)]), &[GOOD], &[1]);
    }

    fn failed_call_without_abort_goes_on() {
        called(&one_list(&[call(1), call(2), call(3)]), &[FAILED; 3], &[1, 2, 3]);
    }

    fn failed_call_without_abort_has_read_its_outcome() {
        let table = one_list(&[call(1), risky(2), call(3), risky(4), call(5)]);
        called(&table, &[FAILED], &[1, 2, 3, 4, 5]);
        called(&table, &[FAILED, GOOD, FAILED, FAILED], &[1, 2, 3, 4]);
        called(&table, &[GOOD, FAILED], &[1, 2]);
        called(&table, &[FAILED, GOOD, GOOD, GOOD, FAILED], &[1, 2, 3, 4, 5]);
    }

    fn good_call_with_abort_goes_on_and_has_read_its_outcome() {
        let table = one_list(&[risky(1), risky(2), call(3)]);
        called(&table, &[GOOD, FAILED], &[1, 2]);
        called(&table, &[GOOD, GOOD, FAILED], &[1, 2, 3]);
    }

    fn items_of_other_kinds_read_no_outcome() {
        let items = [item(1, 1), item(2, 2), risky(1), item(3, 2), ask(0, 1), item(6, 1), risky(2)];
        let table = with_things(&[&items[..], &[call(3)]].concat());
        let mut play = Play::of(&table, &THINGS);
        let trace = play.take_with(GO, &[GOOD, FAILED]);
        assert_eq!(trace[1..4], [0x1101_0000, 0x2102_0000, 0x0100_0001]);
        assert_eq!(trace[4..], [0x3102_0000, 0x4100_0001, 0x6101_0000, 0x0100_0002]);
    }

    fn past_the_end_of_the_outcomes_every_call_is_good() {
        let table = one_list(&[risky(1), risky(2), risky(3)]);
        for outcomes in [&[][..], &[GOOD], &[GOOD, GOOD]] {
            called(&table, outcomes, &[1, 2, 3]);
        }
        called(&one_list(&[call(1), risky(2), risky(3)]), &[FAILED], &[1, 2, 3]);
    }

    fn outcomes_past_the_calls_are_not_read() {
        let table = one_list(&[risky(1), risky(2)]);
        called(&table, &[GOOD, GOOD], &[1, 2]);
        called(&table, &[GOOD, GOOD, FAILED, FAILED, FAILED], &[1, 2]);
        called(&table, &[FAILED, FAILED, FAILED], &[1]);
    }

    fn outcomes_where_nothing_runs_change_nothing() {
        let table = one_list(&[risky(1)]);
        let mut play = Play::fresh(&table);
        assert_eq!(play.take_with(TICK, &[FAILED; 3]), [0; 0]);
        assert_eq!(play.take_with(request(1, 0, 6), &[FAILED; 3]), [0; 0]);
        assert_eq!(play.state, [0x8180_0000, 0]);
    }

    fn trace_word_does_not_show_abort() {
        for (code, word) in [(0, 0x0100_0000), (0x1234, 0x0100_1234), (0xFFFF, 0x0100_FFFF)] {
            for outcomes in [&[][..], &[GOOD], &[FAILED]] {
                runs(&one_list(&[risky(code)]), outcomes, &[0xF100_0000, word]);
            }
        }
    }

    fn edition_1_acts_as_if_all_calls_were_good() {
        let table = first_edition(&[call(1), call(2), call(3)]);
        for outcomes in [&[][..], &[FAILED], &[GOOD, FAILED], &[FAILED; 3], &[FAILED; 9]] {
            called(&table, outcomes, &[1, 2, 3]);
        }
    }

    fn same_table_without_abort_is_the_same_in_both_editions_whatever_the_outcomes() {
        let mut items = [item(1, 1), call(1), item(2, 2), call(2), ask(0, 2), item(6, 1), call(3)];
        let two = with_things(&items);
        let one = with(&two, 0, (two[0] & 0x00FF_FFFF) | 0x0100_0000);
        let lent: [&[u32]; 6] =
            [&[], &[FAILED], &[GOOD, FAILED], &[FAILED; 3], &[GOOD; 5], &[FAILED, GOOD, FAILED]];
        for (first, second) in lent.iter().flat_map(|a| lent.iter().map(move |b| (a, b))) {
            let (mut here, mut there) = (Play::of(&one, &THINGS), Play::of(&two, &THINGS));
            for event in [GO, TICK, GO, send(EVENT_REQUEST, 1, 1), TICK, TICK] {
                assert_eq!(here.take_with(event, first), there.take_with(event, second));
                assert_eq!(here.state, there.state);
            }
        }
        // With abort, a failed call makes the difference.
        items[3] = risky(2);
        let mut play = Play::of(&with_things(&items), &THINGS);
        assert_eq!(play.take_with(GO, &[GOOD, FAILED]).len(), 5);
    }

    fn outer_list_goes_on_behind_a_named_list_that_is_aborted() {
        let table = lists_of(1, &[&[call(1), item(5, 1), call(2)], &[risky(3), call(4)]]);
        let outer = [0xF100_0000, 0x0100_0001, 0xF101_0000, 0x0100_0003, 0x0100_0002];
        runs(&table, &[GOOD, FAILED], &outer);
        runs(&table, &[FAILED, FAILED, FAILED], &outer);
        let all = [outer[0], outer[1], outer[2], outer[3], 0x0100_0004, outer[4]];
        runs(&table, &[FAILED, GOOD, FAILED, FAILED], &all);
        runs(&table, &[], &all);
    }

    fn call_behind_an_aborted_named_list_reads_the_next_outcome() {
        let table = lists_of(1, &[&[item(5, 1), risky(1), call(2)], &[risky(3), call(4), call(5)]]);
        let start = [0xF100_0000, 0xF101_0000, 0x0100_0003, 0x0100_0001];
        runs(&table, &[FAILED, FAILED], &start);
        runs(&table, &[FAILED, GOOD, FAILED], &[&start[..], &[0x0100_0002]].concat());
    }

    fn named_list_twice_in_a_list_is_aborted_each_by_its_own_outcome() {
        let table = lists_of(1, &[&[item(5, 1), item(5, 1), call(1)], &[risky(3), call(4)]]);
        let whole = [0xF101_0000, 0x0100_0003, 0x0100_0004];
        let cut = &whole[..2];
        let trace = |a: &[u32], b: &[u32]| [&[0xF100_0000][..], a, b, &[0x0100_0001]].concat();
        runs(&table, &[FAILED, FAILED], &trace(cut, cut));
        runs(&table, &[FAILED, GOOD], &trace(cut, &whole));
        runs(&table, &[GOOD, GOOD, FAILED], &trace(&whole, cut));
        runs(&table, &[GOOD, FAILED, GOOD], &trace(&whole, &whole));
    }

    fn abort_at_every_level_by_name() {
        for level in 1..8 {
            let outcomes = [&vec![GOOD; level - 1][..], &[FAILED]].concat();
            runs(&seven_deep(false), &outcomes, &aborted_at(level as u32, false));
            // Outcomes for the calls on the way up, which have no abort.
            let failed = [&outcomes[..], &[FAILED; 7]].concat();
            runs(&seven_deep(false), &failed, &aborted_at(level as u32, false));
        }
        let mut all = aborted_at(7, false);
        all.insert(14, 0x0100_0026);
        runs(&seven_deep(false), &[GOOD; 14], &all);
        runs(&seven_deep(false), &[], &all);
    }

    fn abort_at_every_level_by_rule_items() {
        for level in 1..8 {
            let outcomes = [&vec![GOOD; level - 1][..], &[FAILED]].concat();
            let mut play = Play::fresh(&seven_deep(true));
            assert_eq!(play.take_with(GO, &outcomes), aborted_at(level as u32, true));
            // The results stored on the way stay, and no more are.
            let stored = (0..7).map(|k| if k < level { 0x4000_0000 } else { 0 });
            assert_eq!(play.state[1..], stored.collect::<Vec<u32>>());
        }
    }

    fn aborted_list_of_a_rule_item_leaves_its_result_and_the_holding_list_goes_on() {
        let table = by_rule_item(&[call(1)], &[call(2)], &[risky(3), call(4)]);
        let mut play = Play::fresh(&table);
        let trace = [0xF100_0000, 0x0100_0001, 0x6101_0001, 0xF101_0000, 0x0100_0003, 0x0100_0002];
        assert_eq!(play.take_with(GO, &[GOOD, FAILED]), trace);
        assert_eq!(play.state, [0x8140_0000, 0x4000_0000, 0x4000_0000]);
    }

    fn call_behind_an_aborted_list_of_a_rule_item_reads_the_next_outcome() {
        let table = by_rule_item(&[], &[risky(1), call(2)], &[risky(3), call(4)]);
        let start = [0xF100_0000, 0x6101_0001, 0xF101_0000, 0x0100_0003, 0x0100_0001];
        runs(&table, &[FAILED, FAILED], &start);
        runs(&table, &[FAILED, GOOD, FAILED], &[&start[..], &[0x0100_0002]].concat());
    }

    /// The rule mentions port 1, which is undefined: nothing runs and nothing is read.
    fn rule_item_that_runs_nothing_reads_no_outcome() {
        let rules = [rule(1, 0, 0, NONE), nested_only(rule(1, 1, 1, 1))];
        let lists = [list(1, 0, 3), list(1, 3, 1)];
        let items = [item(6, 1), risky(1), call(2), risky(3)];
        let ports = [mode(1), mode(1)];
        let table = edition_2(&plain(&ports, &[equal(0, 5), equal(1, 5)], &rules, &lists, &items));
        runs(&table, &[FAILED], &[0xF100_0000, 0x6101_0002, 0x0100_0001]);
        let all = [0xF100_0000, 0x6101_0002, 0x0100_0001, 0x0100_0002];
        runs(&table, &[GOOD, FAILED], &all);
    }

    fn inner_list_and_then_the_outer_one_are_aborted() {
        let table = lists_of(1, &[&[item(5, 1), risky(1), call(2)], &[call(3), risky(4), call(5)]]);
        let trace = [0xF100_0000, 0xF101_0000, 0x0100_0003, 0x0100_0004, 0x0100_0001];
        runs(&table, &[GOOD, FAILED, FAILED], &trace);
    }

    fn aborted_outer_list_runs_no_inner_one() {
        let table = lists_of(1, &[&[risky(1), item(5, 1)], &[call(2)]]);
        called(&table, &[FAILED], &[1]);
        let by_rule = by_rule_item(&[risky(1)], &[], &[call(2)]);
        let mut play = Play::fresh(&by_rule);
        assert_eq!(play.take_with(GO, &[FAILED]), calls(&[1]));
        // The rule of the item behind is not evaluated.
        assert_eq!(play.state, [0x8140_0000, 0x4000_0000, 0]);
    }

    fn chosen_list_behind_an_aborted_one_runs_and_reads_the_next_outcomes() {
        let table = lists_of(2, &[&[risky(1), call(2)], &[risky(3), risky(4), call(5)]]);
        let first = [0xF100_0000, 0x0100_0001, 0xF101_0000, 0x0100_0003];
        runs(&table, &[FAILED, FAILED], &first);
        runs(&table, &[FAILED, GOOD, FAILED], &[&first[..], &[0x0100_0004]].concat());
        let all = [&first[..], &[0x0100_0004, 0x0100_0005]].concat();
        runs(&table, &[FAILED], &all);
        runs(&table, &[FAILED, GOOD, GOOD, FAILED], &all);
        // The first list's second call, which does not run, reads none; where it runs, it does.
        let second = [0xF100_0000, 0x0100_0001, 0x0100_0002, 0xF101_0000, 0x0100_0003];
        runs(&table, &[GOOD, GOOD, FAILED], &second);
        runs(&table, &[GOOD, FAILED, FAILED], &second);
    }

    fn outcomes_go_by_the_order_in_which_lists_run_not_by_their_numbers() {
        let items = [risky(1), call(2), risky(3), call(4)];
        let lists = [priority(1, list(1, 0, 2)), priority(9, list(1, 2, 2))];
        let rules = [rule(1, 0, 0, NONE), rule(1, 0, 1, NONE)];
        let table = edition_2(&plain(&[mode(1)], &[equal(0, 5)], &rules, &lists, &items));
        let trace = [0xF101_0000, 0x0100_0003, 0xF100_0000, 0x0100_0001, 0x0100_0002];
        runs(&table, &[FAILED, GOOD], &trace);
        let trace = [0xF101_0000, 0x0100_0003, 0x0100_0004, 0xF100_0000, 0x0100_0001];
        runs(&table, &[GOOD, GOOD, FAILED], &trace);
    }

    fn three_chosen_lists_all_aborted() {
        let lists: [&[u32]; 3] = [&[risky(1), call(2)], &[risky(3), call(4)], &[risky(5), call(6)]];
        let table = lists_of(3, &lists);
        let starts = [0xF100_0000, 0x0100_0001, 0xF101_0000, 0x0100_0003, 0xF102_0000, 0x0100_0005];
        runs(&table, &[FAILED; 3], &starts);
        runs(&table, &[FAILED, FAILED], &[&starts[..], &[0x0100_0006]].concat());
    }

    /// List 1 is chosen and named: aborted where it is named, it runs whole where it was chosen.
    fn aborted_named_list_runs_again_where_it_was_chosen() {
        let table = lists_of(2, &[&[item(5, 1), call(1)], &[risky(3), call(4)]]);
        let named = [0xF100_0000, 0xF101_0000, 0x0100_0003, 0x0100_0001];
        let chosen = [0xF101_0000, 0x0100_0003, 0x0100_0004];
        runs(&table, &[FAILED], &[&named[..], &chosen].concat());
        runs(&table, &[FAILED, GOOD, FAILED], &[&named[..], &chosen[..2]].concat());
    }

    fn lists_that_share_items_are_aborted_each_by_itself() {
        let rules = [rule(1, 0, 0, NONE), rule(1, 0, 1, NONE)];
        let lists = [list(1, 0, 3), list(1, 1, 2)];
        let items = [call(1), risky(2), call(3)];
        let table = edition_2(&plain(&[mode(1)], &[equal(0, 5)], &rules, &lists, &items));
        let first = [0xF100_0000, 0x0100_0001, 0x0100_0002];
        let second = [0xF101_0000, 0x0100_0002];
        runs(&table, &[GOOD, FAILED, FAILED], &[&first[..], &second].concat());
        let whole = [&first[..], &second, &[0x0100_0003]].concat();
        runs(&table, &[GOOD, FAILED, GOOD], &whole);
    }

    /// The platform's port 0 starts the platform's list 0 and operator 1's list 1.
    fn platforms_and_operators_lists_in_one_event() {
        let rules = [rule(0, 0, 0, NONE), rule(1, 0, 1, NONE)];
        let lists = [list(0, 0, 2), list(1, 2, 2)];
        let items = [risky(1), call(2), risky(3), call(4)];
        let table = edition_2(&plain(&[mode(0)], &[equal(0, 5)], &rules, &lists, &items));
        let (cut, whole) = (vec![0xF000_0000, 1], vec![0xF000_0000, 1, 2]);
        let (theirs_cut, theirs) =
            (vec![0xF101_0000, 0x0100_0003], vec![0xF101_0000, 0x0100_0003, 0x0100_0004]);
        let cases: [(&[u32], Vec<u32>); 5] = [
            (&[FAILED, FAILED], [&cut[..], &theirs_cut].concat()),
            (&[FAILED, GOOD], [&cut[..], &theirs].concat()),
            (&[GOOD, GOOD, FAILED], [&whole[..], &theirs_cut].concat()),
            (&[GOOD, FAILED], [&whole[..], &theirs].concat()),
            (&[], [&whole[..], &theirs].concat()),
        ];
        for (outcomes, trace) in cases {
            assert_eq!(Play::fresh(&table).take_with(0x1000_0500, outcomes), trace);
        }
    }

    /// What each item of the aborted list did before the call stays: a clear with its mark, a timer
    /// with its reload and mark, what is asked, a result.
    fn aborted_list_keeps_what_it_stored() {
        let items = [item(1, 1), item(2, 2), ask(0, 2), item(6, 1), risky(7)];
        let later = [item(3, 2), ask(0, 1), call(8)];
        let table = with_things(&[&items[..], &later].concat());
        let mut play = Play::of(&table, &THINGS);
        let words = [0xF100_0000, 0x1101_0000, 0x2102_0000, 0x4100_0002, 0x6101_0000, 0x0100_0007];
        assert_eq!(play.take_with(GO, &[FAILED]), words);
        let kept = [0x8140_0000, 0xC000_0000, 0xC040_0009, 0, 0x4000_0000, 0, 0x8000_0000];
        assert_eq!(play.state, kept);
        // With a good call the later items are done too.
        let mut play = Play::of(&table, &THINGS);
        let later = [0x3102_0000, 0x4100_0001, 0x0100_0008];
        assert_eq!(play.take_with(GO, &[GOOD]), [&words[..], &later].concat());
        assert_eq!(play.state[2], 0xC000_0000);
        assert_eq!(play.state[6], 0x4000_0000);
    }

    fn later_items_of_an_aborted_list_do_nothing() {
        let later = [item(1, 1), item(2, 2), item(3, 2), ask(0, 1), ask(0, 2), item(6, 1), call(8)];
        for later in later {
            let mut play = Play::of(&with_things(&[risky(7), later]), &THINGS);
            assert_eq!(play.take_with(GO, &[FAILED]), [0xF100_0000, 0x0100_0007]);
            assert_eq!(play.state, UNTOUCHED);
        }
    }

    fn what_an_aborted_list_did_goes_on_at_the_tick() {
        let table = with_things(&[item(2, 2), ask(0, 2), risky(7), item(3, 2), ask(0, 0)]);
        let mut play = Play::of(&table, &THINGS);
        play.take_with(GO, &[FAILED]);
        play.take(TICK);
        // Eight of nine ticks remain, and the network is in check.
        assert_eq!(play.state[2], 0x8040_0008);
        assert_eq!([play.state[3], play.state[6]], [0x8080_0000, 0x9000_0005]);
    }

    fn result_that_chose_an_aborted_list_is_stored() {
        let lists = [triggered(list(1, 0, 2))];
        let items = [risky(1), call(2)];
        let rules = [rule(1, 0, 0, NONE)];
        let table = edition_2(&plain(&[mode(1)], &[equal(0, 5)], &rules, &lists, &items));
        let mut play = Play::fresh(&table);
        assert_eq!(play.take_with(GO, &[FAILED]), calls(&[1]));
        // Triggered, it does not run again for the same result, aborted or not.
        assert_eq!(play.take_with(GO, &[FAILED]), [0; 0]);
        assert_eq!(play.take(request(1, 0, 6)), [0; 0]);
        assert_eq!(play.take_with(GO, &[GOOD]), calls(&[1, 2]));
    }

    fn each_event_reads_its_own_outcomes_from_the_first() {
        let table = one_list(&[risky(1), risky(2), call(3)]);
        let mut play = Play::fresh(&table);
        let days: [(&[u32], &[u32]); 8] = [
            (&[GOOD, FAILED], &[1, 2]),
            (&[FAILED], &[1]),
            (&[], &[1, 2, 3]),
            (&[GOOD, GOOD, FAILED, FAILED], &[1, 2, 3]),
            // What was left over is gone.
            (&[], &[1, 2, 3]),
            (&[GOOD], &[1, 2, 3]),
            (&[FAILED, FAILED, FAILED], &[1]),
            (&[GOOD, FAILED], &[1, 2]),
        ];
        for (outcomes, codes) in days {
            assert_eq!(play.take_with(GO, outcomes), calls(codes), "{outcomes:?}");
            assert_eq!(play.state, [0x8140_0000, 0x4000_0000]);
        }
    }

    fn ticks_lists_read_outcomes_too() {
        let rules = [rule(1, 0, 0, NONE), rule(1, 1, 1, NONE)];
        let lists = [list(1, 0, 2), list(1, 2, 2)];
        let items = [risky(1), call(2), risky(3), call(4)];
        let ports = [deferred(mode(1)), deferred(event(1))];
        let table = edition_2(&plain(&ports, &[equal(0, 5), set(1)], &rules, &lists, &items));
        let mut play = Play::fresh(&table);
        assert_eq!(play.take_with(GO, &[FAILED]), [0; 0]);
        assert_eq!(play.take_with(send(EVENT_REQUEST, 1, 1), &[FAILED]), [0; 0]);
        let trace = [0xF100_0000, 0x0100_0001, 0xF101_0000, 0x0100_0003];
        assert_eq!(play.take_with(TICK, &[FAILED, FAILED]), trace);
        assert_eq!(play.state[..2], [0x8140_0000, 0x8040_0000]);
        play.take(GO);
        assert_eq!(play.take_with(TICK, &[GOOD, FAILED]), calls(&[1, 2]));
    }

    fn event_requests_list_reads_outcomes_too() {
        let rules = [rule(1, 0, 0, NONE)];
        let items = [risky(1), call(2)];
        let table = edition_2(&plain(&[event(1)], &[set(0)], &rules, &[list(1, 0, 2)], &items));
        let request = send(EVENT_REQUEST, 1, 0);
        assert_eq!(Play::fresh(&table).take_with(request, &[FAILED]), calls(&[1]));
        assert_eq!(Play::fresh(&table).take_with(request, &[GOOD]), calls(&[1, 2]));
    }

    /// Room is asked for by B, though an aborted list writes fewer words.
    fn abort_changes_nothing_of_the_room_asked_for() {
        let table = one_list(&[risky(1), call(2), call(3)]);
        stands(&table, 4);
        let (mut state, mut trace) = ([0; 2], [0x5555_5555; 3]);
        assert_eq!(step(&table, &mut state, &mut trace, GO, &[FAILED]).answer, 3);
        assert_eq!((state, trace), ([0; 2], [0x5555_5555; 3]));
        let mut trace = [0x5555_5555; 6];
        let stepped = step(&table, &mut state, &mut trace, GO, &[FAILED]);
        assert_eq!((stepped.answer, stepped.count), (0, 2));
        assert_eq!(trace[..2], [0xF100_0000, 0x0100_0001]);
        assert_eq!(trace[2..], [0x5555_5555; 4]);
    }

    fn sixteen_lists_of_255_calls_fill_b_or_are_all_aborted() {
        let lists = [list(1, 0, 255); 16];
        let rules: Vec<u32> = (0..16).map(|number| rule(1, 0, number, NONE)).collect();
        let table = plain(&[mode(1)], &[equal(0, 5)], &rules, &lists, &[risky(1); 255]);
        let table = edition_2(&table);
        assert_eq!(Play::fresh(&table).take_with(GO, &[]).len(), 4096);
        assert_eq!(Play::fresh(&table).take_with(GO, &[GOOD; 4080]).len(), 4096);
        let all: Vec<u32> = (0..16).flat_map(|k| [0xF100_0000 + (k << 16), 0x0100_0001]).collect();
        runs(&table, &[FAILED; 16], &all);
        // The last call of the last list.
        let last = [&[GOOD; 4079][..], &[FAILED]].concat();
        assert_eq!(Play::fresh(&table).take_with(GO, &last).len(), 4096);
        // The first list whole, and the second stopped at its second call.
        let second = [&[GOOD; 256][..], &[FAILED; 15]].concat();
        assert_eq!(Play::fresh(&table).take_with(GO, &second).len(), 256 + 3 + 2 * 14);
    }

    /// A wakeup, a bus-off or a heard runs no list.
    fn events_without_lists_read_nothing() {
        let table = edition_2(&super::shape::BASE);
        for kind in [WAKEUP, WAKEUP_VALID, BUS_OFF, WAKEUP_CLEAR, HEARD] {
            let (mut lent, mut none) = (Play::fresh(&table), Play::fresh(&table));
            assert_eq!(lent.take_with(send(kind, 1, 0), &[FAILED; 3]), [0; 0]);
            none.take(send(kind, 1, 0));
            assert_eq!(lent.state, none.state);
        }
    }
}

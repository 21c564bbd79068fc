//! Request Q-10: which evaluations an event's visits are the sum of. "Refusals report 0. Rule items
//! count."

use super::editions::{abort, edition_2};
use super::*;
use crate::words::expression::{AND, OR, XOR};

/// Operator 1's request of 5, which starts list 0, and of 6, which starts nothing.
const GO: u32 = 0x1100_0500;
const SIX: u32 = 0x1100_0600;
/// Operator 1's event request of port 1.
const SET: u32 = 0x2101_0000;

/// Ports: 0 mode, 1 event, 2 mode, undefined until its request. Three words, seven words, and one
/// word visited; by the event, three where it is set and two where it is clear.
const THREE: u32 = 2;
const ON_EVENT: u32 = 3;
const BY_EVENT: u32 = 4;
const ON_UNDEFINED: u32 = 5;
const OR_UNDEFINED: u32 = 6;
const SEVEN: u32 = 7;

/// Rule 0 is on port 0 being 5, one visit, and has list 0 for it; then these rules.
fn starting(rules: &[u32], lists: &[u32], items: &[u32]) -> Vec<u32> {
    let expressions = [
        equal(0, 5),
        equal(0, 6),
        operator(XOR, 0, 0),
        set(1),
        operator(AND, ON_EVENT, 0),
        equal(2, 5),
        operator(OR, 0, ON_UNDEFINED),
        operator(XOR, THREE, THREE),
    ];
    let first = if lists.is_empty() { NONE } else { 0 };
    let rules = [&[rule(1, 0, first, NONE)], rules].concat();
    plain(&[mode(1), event(1), mode(1)], &expressions, &rules, lists, items)
}

/// A rule without lists on this expression.
fn idle(expression: u32) -> u32 {
    rule(1, expression, NONE, NONE)
}

/// The same, evaluated by rule items alone.
fn nested(expression: u32) -> u32 {
    nested_only(idle(expression))
}

/// What GO visits on a fresh state.
fn go(table: &[u32]) -> u64 {
    Play::fresh(table).visits(GO)
}

/// The event set before, as no rule on it sees.
fn go_with_event_set(table: &[u32]) -> u64 {
    let mut play = Play::fresh(table);
    play.state[1] = 0x8040_0000;
    play.visits(GO)
}

fixed_cases! {
    fn visits_are_the_sum_over_all_rules_of_arbitration() {
        assert_eq!(go(&starting(&[], &[], &[])), 1);
        assert_eq!(go(&starting(&[idle(THREE)], &[], &[])), 1 + 3);
        assert_eq!(go(&starting(&[idle(THREE), idle(1), idle(SEVEN)], &[], &[])), 1 + 3 + 1 + 7);
    }

    /// Two rules on one expression.
    fn each_rule_on_an_expression_visits_it_again() {
        assert_eq!(go(&starting(&[idle(THREE), idle(THREE), idle(0)], &[], &[])), 1 + 3 + 3 + 1);
    }

    fn nested_only_rule_visits_nothing_in_arbitration() {
        assert_eq!(go(&starting(&[nested(SEVEN)], &[list(1, 0, 1)], &[call(9)])), 1);
    }

    fn rule_that_mentions_no_arbitrated_port_visits_nothing() {
        let table = starting(&[idle(ON_EVENT)], &[], &[]);
        let mut play = Play::fresh(&table);
        assert_eq!([play.visits(GO), play.visits(SET), play.visits(GO)], [1, 1, 1]);
    }

    /// Not even the left side that would settle it.
    fn rule_that_mentions_an_undefined_port_visits_nothing() {
        let mut play = Play::fresh(&starting(&[idle(OR_UNDEFINED)], &[], &[]));
        assert_eq!(play.visits(GO), 1);
        // Once it is defined the left side settles it; at 6 it does not.
        assert_eq!(play.visits(request(1, 2, 9)), 2);
        assert_eq!([play.visits(GO), play.visits(SIX)], [1 + 2, 1 + 3]);
    }

    fn rule_whose_arbitrated_port_stands_on_a_skipped_side_is_visited() {
        let expressions = [equal(0, 5), equal(1, 7), operator(AND, 1, 0)];
        let table = plain(&[mode(1), initial(1, 0)], &expressions, &[idle(2)], &[], &[]);
        assert_eq!(go(&table), 2);
    }

    /// No list is chosen, or no other result is stored: the words are visited all the same.
    fn rule_that_chooses_no_list_and_changes_nothing_counts() {
        let mut play = Play::fresh(&starting(&[idle(THREE)], &[list(1, 0, 1)], &[call(9)]));
        assert_eq!([SIX, SIX, GO, GO].map(|event| play.visits(event)), [4, 4, 4, 4]);
    }

    fn visits_without_a_trace_word() {
        let table = starting(&[idle(SEVEN)], &[], &[]);
        let mut state = vec![0, 0x8000_0000, 0, 0, 0];
        let stepped = step(&table, &mut state, &mut [], GO, &[]);
        assert_eq!((stepped.answer, stepped.count, stepped.visits), (0, 0, 8));
    }

    fn rule_items_count() {
        let table = starting(&[nested(THREE)], &[list(1, 0, 1)], &[item(6, 1)]);
        let mut play = Play::fresh(&table);
        assert_eq!([play.visits(GO), play.visits(SIX), play.visits(GO)], [1 + 3, 1, 1 + 3]);
    }

    fn rule_of_arbitration_counts_again_in_a_rule_item() {
        let table = starting(&[idle(THREE)], &[list(1, 0, 1)], &[item(6, 1)]);
        assert_eq!(go(&table), 1 + 3 + 3);
    }

    fn same_rule_in_two_items_counts_twice() {
        let table = starting(&[nested(THREE)], &[list(1, 0, 2)], &[item(6, 1), item(6, 1)]);
        assert_eq!(go(&table), 1 + 3 + 3);
    }

    fn same_item_in_two_lists_counts_twice() {
        let rules = [nested(THREE), rule(1, 0, 1, NONE)];
        let table = starting(&rules, &[list(1, 0, 1), list(1, 0, 1)], &[item(6, 1)]);
        assert_eq!(go(&table), 1 + 1 + 3 + 3);
    }

    fn same_list_named_twice_counts_twice() {
        let lists = [list(1, 0, 2), list(1, 2, 1)];
        let items = [item(5, 1), item(5, 1), item(6, 1)];
        assert_eq!(go(&starting(&[nested(THREE)], &lists, &items)), 1 + 3 + 3);
        // Chosen besides, by rule 2.
        let rules = [nested(THREE), rule(1, 0, 1, NONE)];
        assert_eq!(go(&starting(&rules, &lists, &items)), 1 + 1 + 3 + 3 + 3);
    }

    fn list_chosen_by_two_rules_runs_and_counts_once() {
        let rules = [nested(THREE), rule(1, 0, 0, NONE)];
        assert_eq!(go(&starting(&rules, &[list(1, 0, 1)], &[item(6, 1)])), 1 + 1 + 3);
    }

    /// It writes its word, evaluates nothing and counts 0.
    fn rule_item_with_an_undefined_port_visits_nothing() {
        for expression in [ON_UNDEFINED, OR_UNDEFINED] {
            let table = starting(&[nested(expression)], &[list(1, 0, 1)], &[item(6, 1)]);
            assert_eq!(go(&table), 1);
            let mut play = Play::fresh(&table);
            assert_eq!(play.take(GO), [0xF100_0000, 0x6101_0002]);
            // Defined by a request that no rule of arbitration mentions.
            assert_eq!(play.visits(request(1, 2, 9)), 0);
            let evaluated = if expression == ON_UNDEFINED { 1 } else { 2 };
            assert_eq!(play.visits(GO), 1 + evaluated);
        }
    }

    fn triggered_list_that_does_not_run_visits_nothing() {
        let table = starting(&[nested(THREE)], &[triggered(list(1, 0, 1))], &[item(6, 1)]);
        let mut play = Play::fresh(&table);
        assert_eq!([GO, GO, SIX, GO].map(|event| play.visits(event)), [4, 1, 1, 4]);
    }

    /// The rule item's list is not run, for it is triggered; the item counts.
    fn rule_item_that_runs_no_list_counts() {
        let lists = [list(1, 0, 1), triggered(list(1, 1, 1))];
        let rules = [nested_only(rule(1, THREE, NONE, 1)), nested(SEVEN)];
        let mut play = Play::fresh(&starting(&rules, &lists, &[item(6, 1), item(6, 2)]));
        // First result false, as it is: the list of the seven does not run.
        assert_eq!(play.visits(GO), 1 + 3);
        play.state[4] = 0x8000_0000;
        assert_eq!(play.visits(GO), 1 + 3 + 7);
    }

    /// Rules of arbitration go by the values before any list, rule items by current ones.
    fn rule_item_behind_a_clear_visits_by_the_current_value() {
        let clear_first = [item(1, 1), item(6, 1)];
        let item_first = [item(6, 1), item(1, 1)];
        let lists = [list(1, 0, 2)];
        for (items, in_item) in [(clear_first, 2), (item_first, 3)] {
            let table = starting(&[idle(BY_EVENT)], &lists, &items);
            assert_eq!(go_with_event_set(&table), 1 + 3 + in_item);
            let table = starting(&[nested(BY_EVENT)], &lists, &items);
            assert_eq!(go_with_event_set(&table), 1 + in_item);
            assert_eq!(go(&table), 1 + 2);
        }
    }

    fn rule_item_of_a_later_list_visits_by_what_an_earlier_one_left() {
        // List 0 clears, list 1 has the rule item.
        let rules = [idle(BY_EVENT), rule(1, 0, 1, NONE)];
        let items = [item(1, 1), item(6, 1)];
        let lists = [priority(7, list(1, 0, 1)), list(1, 1, 1)];
        assert_eq!(go_with_event_set(&starting(&rules, &lists, &items)), 1 + 3 + 1 + 2);
        let lists = [list(1, 0, 1), priority(7, list(1, 1, 1))];
        assert_eq!(go_with_event_set(&starting(&rules, &lists, &items)), 1 + 3 + 1 + 3);
    }

    fn rule_item_behind_a_started_timer_visits_by_the_current_value() {
        // Started settles the OR; the rule of arbitration saw it stopped.
        let expressions = [equal(0, 5), equal(1, 1), operator(OR, 1, 0)];
        let rules = [rule(1, 0, 0, NONE), idle(2)];
        let items = [item(2, 1), item(6, 1), item(3, 1), item(6, 1)];
        let table = plain(&[mode(1), timer(1, 4)], &expressions, &rules, &[list(1, 0, 4)], &items);
        assert_eq!(go(&table), 1 + 3 + 2 + 3);
    }

    /// Lists 0 to 6 by rule items on port 0 being 5, and in the last one on the three words.
    fn rule_items_of_all_seven_levels_count() {
        let rules: Vec<u32> = (1..7).map(|k| nested_only(rule(1, 0, k, NONE))).collect();
        let rules = [rules, vec![nested(THREE)]].concat();
        let lists: Vec<u32> = (0..7).map(|k| list(1, k, 1)).collect();
        let items: Vec<u32> = (0..7).map(|k| item(6, k + 1)).collect();
        assert_eq!(go(&starting(&rules, &lists, &items)), 1 + 6 + 3);
    }

    fn refusals_report_0_behind_an_event_that_had_visits() {
        let table = starting(&[nested(THREE)], &[list(1, 0, 1)], &[item(6, 1)]);
        let mut play = Play::fresh(&table);
        assert_eq!(play.visits(GO), 4);
        let refusal = |table: &[u32], state: &[u32], room: usize, event: u32, lent: &[u32]| {
            let (mut state, mut trace) = (state.to_vec(), vec![0x5555_5555; room]);
            let stepped = step(table, &mut state, &mut trace, event, lent);
            assert_eq!((stepped.count, stepped.visits), (0, 0), "answer {}", stepped.answer);
            stepped.answer
        };
        let unfit = with(&play.state, 0, 1);
        assert_eq!(refusal(&table[1..], &play.state, 2, GO, &[]), 1);
        assert_eq!(refusal(&table, &unfit, 2, GO, &[]), 2);
        assert_eq!(refusal(&table, &play.state, 1, GO, &[]), 3);
        assert_eq!(refusal(&table, &play.state, 2, GO + 1, &[]), 4);
        assert_eq!(refusal(&table, &play.state, 2, request(1, 9, 5), &[]), 5);
        assert_eq!(refusal(&table, &play.state, 2, request(2, 0, 5), &[]), 6);
        assert_eq!(refusal(&table, &play.state, 2, GO, &[0, 2]), 8);
        assert_eq!(play.visits(GO), 4);
    }

    fn tick_without_marked_port_visits_nothing() {
        let mut play = Play::fresh(&starting(&[idle(SEVEN)], &[], &[]));
        assert_eq!([TICK, GO, TICK].map(|event| play.visits(event)), [0, 8, 0]);
    }

    fn deferred_request_visits_nothing_and_its_tick_does() {
        let expressions = [equal(0, 5), equal(1, 5), operator(XOR, 0, 1)];
        let rules = [idle(0), idle(2)];
        let ports = [deferred(mode(1)), deferred(initial(1, 0))];
        let mut play = Play::fresh(&plain(&ports, &expressions, &rules, &[], &[]));
        assert_eq!([GO, TICK, TICK].map(|event| play.visits(event)), [0, 1 + 3, 0]);
        // Both marked, one arbitration: the rule that mentions both is evaluated once.
        assert_eq!([GO, request(1, 1, 5), TICK].map(|event| play.visits(event)), [0, 0, 1 + 3]);
        assert_eq!([request(1, 1, 5), TICK].map(|event| play.visits(event)), [0, 3]);
    }

    fn mark_set_by_a_list_is_visited_in_the_next_tick() {
        let table = starting(&[idle(BY_EVENT)], &[list(1, 0, 1)], &[item(1, 1)]);
        let mut play = Play::fresh(&table);
        assert_eq!([GO, TICK, TICK].map(|event| play.visits(event)), [1 + 2, 2, 0]);
    }

    /// Kinds 3 to 7 mark ports at most; the tick behind them arbitrates.
    fn wakeups_bus_offs_and_heards_visit_nothing() {
        let ports = [deferred(mode(1)), deferred(mode(1))];
        let (expressions, rules) = ([equal(0, 3), equal(1, 1)], [idle(0), idle(1)]);
        let (networks, sources) = ([network(1, 0)], [source(1, 1, 9)]);
        let table = table(&ports, &networks, &sources, &expressions, &rules, &[], &[]);
        let mut play = Play::fresh(&table);
        for kind in [WAKEUP, WAKEUP_VALID, WAKEUP_CLEAR] {
            assert_eq!([play.visits(send(kind, 1, 0)), play.visits(TICK)], [0, 1]);
        }
        // Asked full, in none: the tick that goes to check shows it and visits.
        play.state[4] = 0x8000_0000;
        assert_eq!(play.visits(TICK), 1);
        assert_eq!([play.visits(send(HEARD, 1, 0)), play.visits(TICK)], [0, 0]);
        assert_eq!([play.visits(send(BUS_OFF, 1, 0)), play.visits(TICK)], [0, 1]);
    }

    /// "A failed call with abort stops the list that holds it": what stands behind visits
    /// nothing.
    fn aborted_list_visits_nothing_behind_the_call() {
        let items = [item(6, 1), abort(call(9)), item(6, 2), item(6, 2)];
        let rules = [nested(THREE), nested(SEVEN)];
        let mut play = Play::fresh(&edition_2(&starting(&rules, &[list(1, 0, 4)], &items)));
        assert_eq!(play.visits_with(GO, &[1]), 1 + 3);
        assert_eq!(play.visits_with(GO, &[0]), 1 + 3 + 7 + 7);
        assert_eq!(play.visits_with(GO, &[]), 1 + 3 + 7 + 7);
    }

    fn outer_list_of_an_aborted_one_still_visits() {
        let lists = [list(1, 0, 2), list(1, 2, 2)];
        let inner = [abort(call(9)), item(6, 2)];
        let rules = [nested(THREE), nested(SEVEN), nested_only(rule(1, 0, 1, NONE))];
        let named = [&[item(5, 1), item(6, 1)], &inner[..]].concat();
        // Rule 3 is in no list here; its list is named.
        let mut play = Play::fresh(&edition_2(&starting(&rules, &lists, &named)));
        assert_eq!([play.visits_with(GO, &[1]), play.visits_with(GO, &[0])], [1 + 3, 1 + 7 + 3]);
        let by_rule = [&[item(6, 3), item(6, 1)], &inner[..]].concat();
        let mut play = Play::fresh(&edition_2(&starting(&rules, &lists, &by_rule)));
        assert_eq!([play.visits_with(GO, &[1]), play.visits_with(GO, &[0])], [5, 12]);
    }

    fn later_chosen_list_of_an_aborted_one_still_visits() {
        let rules = [nested(THREE), nested(SEVEN), rule(1, 0, 1, NONE)];
        let items = [abort(call(9)), item(6, 2), item(6, 1)];
        let table = edition_2(&starting(&rules, &[list(1, 0, 2), list(1, 2, 1)], &items));
        let mut play = Play::fresh(&table);
        assert_eq!([play.visits_with(GO, &[1]), play.visits_with(GO, &[0])], [1 + 1 + 3, 12]);
    }

    fn failed_calls_without_abort_and_of_edition_1_skip_no_visits() {
        let table = starting(&[nested(THREE)], &[list(1, 0, 2)], &[call(9), item(6, 1)]);
        assert_eq!(Play::fresh(&table).visits_with(GO, &[1]), 4);
        assert_eq!(Play::fresh(&edition_2(&table)).visits_with(GO, &[1]), 4);
    }
}

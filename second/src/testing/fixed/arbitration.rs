//! Arbitration: which rules are evaluated and which lists are chosen.

use super::*;

/// Ports 0 and 1 as given; one rule, as given, on the last expression; lists 0
/// and 1, where the rule has both, call 7 and 8. State: [port 0, port 1, rule].
fn ruled(ports: [u32; 2], expressions: &[u32], rule: u32, lists: [u32; 2]) -> Vec<u32> {
    let rule = Rule { expression: expressions.len() as u32 - 1, ..Rule::of(rule) };
    let started = rule.lists().max().map_or(0, |last| last + 1);
    plain(&ports, expressions, &[rule.word()], &lists[..started], &[call(7), call(8)])
}

const CONDITIONAL: [u32; 2] = [0x1000_0001, 0x1000_0101];
const TRIGGERED: [u32; 2] = [0x1800_0001, 0x1800_0101];
const RAN_0: [u32; 2] = [0xF100_0000, 0x0100_0007];
const RAN_1: [u32; 2] = [0xF101_0000, 0x0100_0008];
const NOTHING: [u32; 0] = [];

/// Rule on port 0 being 5, with the first result and lists given.
fn on_five(first: u32, true_list: u32, false_list: u32, lists: [u32; 2]) -> Play {
    let rule = first_result(first, rule(1, 0, true_list, false_list));
    Play::fresh(&ruled([mode(1); 2], &[equal(0, 5)], rule, lists))
}

/// What the operator gives for arguments false-false, false-true, true-false, true-true.
#[track_caller]
fn gives(kind: u32, results: [u32; 4]) {
    let expressions = [equal(0, 1), equal(1, 1), operator(kind, 0, 1)];
    for (arguments, result) in results.into_iter().enumerate() {
        let ports = [arguments as u32 >> 1, arguments as u32 & 1];
        let mut play = Play::fresh(&ruled(
            [initial(1, ports[0]), initial(1, 9)],
            &expressions,
            rule(1, 0, NONE, NONE),
            CONDITIONAL,
        ));
        play.take(request(1, 1, ports[1]));
        assert_eq!(play.state[2], result << 30, "{arguments}");
    }
}

fixed_cases! {
    fn helpers_lists_are_the_words() {
        assert_eq!(CONDITIONAL, [list(1, 0, 1), list(1, 1, 1)]);
        assert_eq!(TRIGGERED, [triggered(list(1, 0, 1)), triggered(list(1, 1, 1))]);
    }

    fn conditional_list_is_chosen_every_time() {
        let mut play = on_five(0, 0, 1, CONDITIONAL);
        for (value, ran) in [(5, RAN_0), (5, RAN_0), (0, RAN_1), (0, RAN_1)] {
            assert_eq!(play.take(request(1, 0, value)), ran);
        }
    }

    fn triggered_list_is_chosen_when_the_result_differs() {
        let mut play = on_five(0, 0, 1, TRIGGERED);
        assert_eq!(play.take(request(1, 0, 5)), RAN_0);
        assert_eq!(play.take(request(1, 0, 5)), NOTHING);
        assert_eq!(play.take(request(1, 0, 0)), RAN_1);
        assert_eq!(play.take(request(1, 0, 1)), NOTHING);
    }

    fn triggered_belongs_to_the_list_chosen() {
        let mut play = on_five(0, 0, 1, [TRIGGERED[0], CONDITIONAL[1]]);
        assert_eq!(play.take(request(1, 0, 5)), RAN_0);
        assert_eq!(play.take(request(1, 0, 5)), NOTHING);
        assert_eq!(play.take(request(1, 0, 0)), RAN_1);
        assert_eq!(play.take(request(1, 0, 0)), RAN_1);
    }

    fn undefined_differs_from_both() {
        assert_eq!(on_five(2, 0, 1, TRIGGERED).take(request(1, 0, 5)), RAN_0);
        assert_eq!(on_five(2, 0, 1, TRIGGERED).take(request(1, 0, 0)), RAN_1);
    }

    fn first_result_counts_as_the_previous_one() {
        assert_eq!(on_five(1, 0, 1, TRIGGERED).take(request(1, 0, 5)), NOTHING);
        assert_eq!(on_five(0, 0, 1, TRIGGERED).take(request(1, 0, 0)), NOTHING);
        assert_eq!(on_five(1, 0, 1, TRIGGERED).take(request(1, 0, 0)), RAN_1);
    }

    fn result_is_stored_even_where_there_is_no_list_for_it() {
        let mut play = on_five(0, NONE, 0, TRIGGERED);
        assert_eq!(play.take(request(1, 0, 5)), NOTHING);
        assert_eq!(play.state[2], 0x4000_0000);
        assert_eq!(play.take(request(1, 0, 0)), RAN_0);
        assert_eq!(play.take(request(1, 0, 0)), NOTHING);
    }

    fn triggered_list_for_both_results_runs_at_each_change() {
        let mut play = on_five(0, 0, 0, TRIGGERED);
        for (value, runs) in [(5, true), (5, false), (0, true), (0, false), (5, true)] {
            assert_eq!(play.take(request(1, 0, value)) == RAN_0, runs);
        }
    }

    fn mentions_no_undefined_one_is_over_the_whole_expression() {
        // The left argument alone would make the OR true.
        let either = [equal(0, 5), equal(1, 5), operator(expression::OR, 0, 1)];
        let rule = first_result(2, rule(1, 0, 0, 1));
        let mut play = Play::fresh(&ruled([mode(1); 2], &either, rule, CONDITIONAL));
        assert_eq!(play.take(request(1, 0, 5)), NOTHING);
        assert_eq!(play.state, [0x8140_0000, 0, 0x8000_0000]);
        assert_eq!(play.take(request(1, 1, 0)), RAN_0);
    }

    fn mentions_an_arbitrated_port_is_over_the_whole_expression() {
        // The left argument alone makes the AND false.
        let both = [equal(0, 5), equal(1, 5), operator(expression::AND, 0, 1)];
        let mut play =
            Play::fresh(&ruled([initial(1, 0), mode(1)], &both, rule(1, 0, 0, 1), CONDITIONAL));
        assert_eq!(play.take(request(1, 1, 5)), RAN_1);
    }

    fn rule_that_mentions_no_arbitrated_port_is_left_alone() {
        let mut play = Play::fresh(&ruled(
            [initial(1, 5), mode(1)],
            &[equal(0, 5)],
            rule(1, 0, 0, 1),
            CONDITIONAL,
        ));
        assert_eq!(play.take(request(1, 1, 5)), NOTHING);
        assert_eq!(play.state[2], 0);
    }

    fn not_s_right_is_no_name_in_mention_and_evaluation() {
        // Expression 0, NOT's right read as a name, mentions port 1, which is undefined.
        let negated = [equal(1, 5), equal(0, 5), not(1)];
        let mut play = Play::fresh(&ruled([mode(1); 2], &negated, rule(1, 0, 0, 1), CONDITIONAL));
        assert_eq!(play.take(request(1, 0, 5)), RAN_1);
        assert_eq!(play.take(request(1, 1, 5)), NOTHING);
        assert_eq!(play.take(request(1, 0, 0)), RAN_0);
    }

    fn nested_only_rule_is_not_arbitrated() {
        // The lists are there for the rule on port 1.
        let mut play = Play::fresh(&plain(
            &[mode(1); 2],
            &[equal(0, 5), equal(1, 5)],
            &[nested_only(rule(1, 0, 0, 1)), rule(1, 1, 0, 1)],
            &CONDITIONAL,
            &[call(7), call(8)],
        ));
        assert_eq!(play.take(request(1, 0, 5)), NOTHING);
        assert_eq!(play.state[2], 0);
    }

    fn operators_rule_is_arbitrated_on_a_platform_port() {
        let mut play =
            Play::fresh(&ruled([mode(0), mode(1)], &[equal(0, 5)], rule(1, 0, 0, 1), CONDITIONAL));
        assert_eq!(play.take(request(0, 0, 5)), RAN_0);
    }

    fn conditions_by_kind() {
        for (kind, equal_5, equal_6) in
            [(expression::EQUAL, RAN_0, RAN_1), (expression::NOT_EQUAL, RAN_1, RAN_0)]
        {
            let mut play = Play::fresh(&ruled(
                [mode(1); 2],
                &[condition(kind, 0, 5)],
                rule(1, 0, 0, 1),
                CONDITIONAL,
            ));
            assert_eq!(play.take(request(1, 0, 5)), equal_5);
            assert_eq!(play.take(request(1, 0, 6)), equal_6);
        }
        for (kind, when_set, when_cleared) in
            [(expression::SET, RAN_0, RAN_1), (expression::CLEARED, RAN_1, RAN_0)]
        {
            let table = ruled(
                [event(1), deferred(event(1))],
                &[condition(kind, 0, 0)],
                rule(1, 0, 0, 1),
                CONDITIONAL,
            );
            assert_eq!(Play::fresh(&table).take(send(EVENT_REQUEST, 1, 0)), when_set);
            // A cleared event that is marked is arbitrated at the tick.
            let mut play = Play::of(&table, &[0xC000_0000, 0x8000_0000, 0]);
            assert_eq!(play.take(TICK), when_cleared);
        }
    }

    fn operators_by_kind() {
        gives(expression::AND, [0, 0, 0, 1]);
        gives(expression::OR, [0, 1, 1, 1]);
        gives(expression::XOR, [0, 1, 1, 0]);
        gives(expression::NAND, [1, 1, 1, 0]);
    }

    fn not_turns_its_left() {
        let mut play = Play::fresh(&ruled(
            [mode(1); 2],
            &[equal(0, 5), not(0)],
            rule(1, 0, 0, 1),
            CONDITIONAL,
        ));
        assert_eq!(play.take(request(1, 0, 5)), RAN_1);
        assert_eq!(play.take(request(1, 0, 6)), RAN_0);
    }

    fn immediate_request_reads_marked_ports_and_leaves_their_marks() {
        let both = [equal(0, 5), equal(1, 3), operator(expression::AND, 0, 1)];
        let mut play =
            Play::fresh(&ruled([mode(1), deferred(mode(1))], &both, rule(1, 0, 0, 1), CONDITIONAL));
        assert_eq!(play.take(request(1, 1, 3)), NOTHING);
        assert_eq!(play.take(request(1, 0, 5)), RAN_0);
        assert_eq!(play.state, [0x8140_0000, 0xC0C0_0000, 0x4000_0000]);
        assert_eq!(play.take(TICK), RAN_0);
        assert_eq!(play.state, [0x8140_0000, 0x80C0_0000, 0x4000_0000]);
    }

    fn all_marked_ports_of_a_tick_are_one_arbitration() {
        // Two rules on two ports choose one list.
        let ports = [deferred(mode(1)); 2];
        let rules = [rule(1, 0, 0, NONE), rule(1, 1, 0, NONE)];
        let mut play = Play::fresh(&plain(
            &ports,
            &[equal(0, 5), equal(1, 5)],
            &rules,
            &CONDITIONAL[..1],
            &[call(7)],
        ));
        play.take(request(1, 0, 5));
        play.take(request(1, 1, 5));
        assert_eq!(play.take(TICK), RAN_0);
        assert_eq!(play.state, [0x8140_0000, 0x8140_0000, 0x4000_0000, 0x4000_0000]);
    }

    fn rule_on_two_marked_ports_is_evaluated_once() {
        let both = [equal(0, 5), equal(1, 5), operator(expression::XOR, 0, 1)];
        let mut play =
            Play::fresh(&ruled([deferred(mode(1)); 2], &both, rule(1, 0, 0, 0), TRIGGERED));
        play.take(request(1, 0, 5));
        play.take(request(1, 1, 0));
        assert_eq!(play.take(TICK), RAN_0);
    }

    fn list_chosen_by_two_rules_runs_once() {
        let rules = [rule(1, 0, 0, NONE), rule(1, 1, NONE, 0)];
        let mut play = Play::fresh(&plain(
            &[mode(1)],
            &[equal(0, 5), equal(0, 6)],
            &rules,
            &CONDITIONAL[..1],
            &[call(7)],
        ));
        assert_eq!(play.take(request(1, 0, 5)), RAN_0);
    }

    fn triggered_list_chosen_by_one_of_two_rules_runs() {
        // Rule 0 stays false, rule 1 turns true.
        let rules = [rule(1, 0, NONE, 0), rule(1, 1, 0, NONE)];
        let mut play = Play::fresh(&plain(
            &[mode(1)],
            &[equal(0, 5), equal(0, 6)],
            &rules,
            &TRIGGERED[..1],
            &[call(7)],
        ));
        assert_eq!(play.take(request(1, 0, 6)), RAN_0);
    }

    fn larger_priority_first_then_lower_number() {
        let lists = [1, 2, 2, 255].map(|p| priority(p, list(1, 0, 1)));
        // The rules choose lists 2, 0, 3 and 1 in their own order.
        let rules = [2, 0, 3, 1].map(|chosen| rule(1, 0, chosen, NONE));
        let mut play = Play::fresh(&plain(&[mode(1)], &[equal(0, 5)], &rules, &lists, &[call(7)]));
        let ran = play.take(request(1, 0, 5));
        let starts: Vec<u32> = ran.into_iter().step_by(2).collect();
        assert_eq!(starts, [0xF103_0000, 0xF101_0000, 0xF102_0000, 0xF100_0000]);
    }

    fn rules_are_evaluated_before_any_list_runs() {
        // List 0, of greater priority, clears the event that rule 1 wants set.
        let expressions = [equal(0, 5), set(1), operator(expression::AND, 0, 1)];
        let rules = [rule(1, 0, 0, NONE), rule(1, 2, 1, NONE)];
        let lists = [priority(9, list(1, 0, 1)), list(1, 1, 1)];
        let mut play = Play::fresh(&plain(
            &[mode(1), event(1)],
            &expressions,
            &rules,
            &lists,
            &[item(1, 1), call(8)],
        ));
        play.take(send(EVENT_REQUEST, 1, 1));
        let ran = play.take(request(1, 0, 5));
        assert_eq!(ran, [0xF100_0000, 0x1101_0000, 0xF101_0000, 0x0100_0008]);
        assert_eq!(play.state, [0x8140_0000, 0xC000_0000, 0x4000_0000, 0x4000_0000]);
    }
}

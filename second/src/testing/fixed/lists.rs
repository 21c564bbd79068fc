//! Running lists: items, named lists, rule items and their trace words.

use super::*;

/// A request of 5 on port 0 starts list 0, whatever else there is. Port 1 is as
/// given. Rule 0 starts list 0; the rules given come after it.
pub fn starting(
    port_1: u32,
    expressions: &[u32],
    rules: &[u32],
    lists: &[u32],
    items: &[u32],
) -> Play {
    let expressions = [&[equal(0, 5)], expressions].concat();
    let rules = [&[rule(1, 0, 0, NONE)], rules].concat();
    Play::fresh(&plain(&[mode(1), port_1], &expressions, &rules, lists, items))
}

pub const GO: u32 = 0x1100_0500;

/// Rule 1, nested-only, on port 1 being 3, started by list 0; it starts lists 1
/// (true) and 2 (false), which call 8 and 9.
fn rule_item(port_1: u32, nested: [u32; 2]) -> Play {
    starting(
        port_1,
        &[equal(1, 3)],
        &[nested_only(rule(1, 1, 1, 2))],
        &[list(1, 0, 1), nested[0], nested[1]],
        &[item(6, 1), call(8), call(9)],
    )
}

const CONDITIONAL: [u32; 2] = [0x1000_0101, 0x1000_0201];
const TRIGGERED: [u32; 2] = [0x1800_0101, 0x1800_0201];

fixed_cases! {
    fn items_take_effect_in_order_and_are_written_as_they_are() {
        let ports = [mode(1), event(1), timer(1, 3), deferred(mode(1))];
        let items = [call(0xFFFF), item(1, 1), item(2, 2), item(3, 2), ask(0, 1)];
        let table = table(
            &ports,
            &[network(1, 3)],
            &[],
            &[equal(0, 5)],
            &[rule(1, 0, 0, NONE)],
            &[list(1, 0, 5)],
            &items,
        );
        let ran = Play::fresh(&table).take(GO);
        assert_eq!(
            ran,
            [0xF100_0000, 0x0100_FFFF, 0x1101_0000, 0x2102_0000, 0x3102_0000, 0x4100_0001]
        );
    }

    fn later_item_has_the_last_word() {
        let run = |items: [u32; 2]| {
            let mut play = starting(timer(1, 3), &[], &[], &[list(1, 0, 2)], &items);
            play.take(GO);
            play.state[1]
        };
        assert_eq!(run([item(2, 1), item(3, 1)]), 0xC000_0000);
        assert_eq!(run([item(3, 1), item(2, 1)]), 0xC040_0003);
    }

    fn network_request_only_sets_asked() {
        let table = table(
            &[mode(1), deferred(mode(1))],
            &[network(1, 1)],
            &[],
            &[equal(0, 5)],
            &[rule(1, 0, 0, NONE)],
            &[list(1, 0, 1)],
            &[ask(0, 0)],
        );
        let mut play = Play::of(&table, &[0, 0x8080_0000, 0, 0xA008_0002]);
        assert_eq!(play.take(GO), [0xF100_0000, 0x4100_0000]);
        assert_eq!(play.state, [0x8140_0000, 0x8080_0000, 0x4000_0000, 0x2008_0002]);
    }

    fn clear_sets_the_event_to_0_and_marks_it() {
        let mut play = starting(deferred(event(1)), &[], &[], &[list(1, 0, 1)], &[item(1, 1)]);
        assert_eq!(play.take(GO), [0xF100_0000, 0x1101_0000]);
        assert_eq!(play.state[1], 0xC000_0000);
        // Nor does it take a mark away.
        play.take(send(EVENT_REQUEST, 1, 1));
        assert_eq!(play.state[1], 0xC040_0000);
        play.take(GO);
        assert_eq!(play.state[1], 0xC000_0000);
    }

    fn named_list_always_runs_and_item_5_adds_no_word() {
        let lists = [list(1, 0, 3), triggered(list(1, 3, 1))];
        let mut play =
            starting(mode(1), &[], &[], &lists, &[call(1), item(5, 1), call(2), call(8)]);
        for _ in 0..2 {
            assert_eq!(
                play.take(GO),
                [0xF100_0000, 0x0100_0001, 0xF101_0000, 0x0100_0008, 0x0100_0002]
            );
        }
    }

    fn list_named_twice_runs_twice() {
        let mut play = starting(
            mode(1),
            &[],
            &[],
            &[list(1, 0, 2), list(1, 2, 1)],
            &[item(5, 1), item(5, 1), call(8)],
        );
        assert_eq!(
            play.take(GO),
            [0xF100_0000, 0xF101_0000, 0x0100_0008, 0xF101_0000, 0x0100_0008]
        );
    }

    fn list_both_chosen_and_named_runs_for_each() {
        let lists = [list(1, 0, 1), list(1, 1, 1)];
        let mut play =
            starting(mode(1), &[], &[rule(1, 0, 1, NONE)], &lists, &[item(5, 1), call(8)]);
        assert_eq!(
            play.take(GO),
            [0xF100_0000, 0xF101_0000, 0x0100_0008, 0xF101_0000, 0x0100_0008]
        );
    }

    fn rule_item_writes_its_word_before_its_lists_words() {
        let mut play = rule_item(initial(1, 3), CONDITIONAL);
        assert_eq!(play.take(GO), [0xF100_0000, 0x6101_0001, 0xF101_0000, 0x0100_0008]);
        let mut play = rule_item(initial(1, 4), CONDITIONAL);
        assert_eq!(play.take(GO), [0xF100_0000, 0x6101_0000, 0xF102_0000, 0x0100_0009]);
    }

    fn rule_item_stores_and_runs_on_the_same_test() {
        let mut play = rule_item(initial(1, 3), TRIGGERED);
        assert_eq!(play.take(GO), [0xF100_0000, 0x6101_0001, 0xF101_0000, 0x0100_0008]);
        assert_eq!(play.state, [0x8140_0000, 0x80C0_0000, 0x4000_0000, 0x4000_0000]);
        assert_eq!(play.take(GO), [0xF100_0000, 0x6101_0001]);
        // The port's change alone brings nothing in: the rule is nested-only.
        assert_eq!(play.take(request(1, 1, 0)), [0; 0]);
        assert_eq!(play.take(GO), [0xF100_0000, 0x6101_0000, 0xF102_0000, 0x0100_0009]);
        assert_eq!(play.state[3], 0);
    }

    fn rule_item_conditional_runs_again() {
        let mut play = rule_item(initial(1, 3), CONDITIONAL);
        for _ in 0..2 {
            assert_eq!(play.take(GO), [0xF100_0000, 0x6101_0001, 0xF101_0000, 0x0100_0008]);
        }
    }

    fn rule_item_with_an_undefined_port_stores_and_runs_nothing_but_writes_its_word() {
        for lists in [CONDITIONAL, TRIGGERED] {
            let mut play = rule_item(mode(1), lists);
            assert_eq!(play.take(GO), [0xF100_0000, 0x6101_0002]);
            assert_eq!(play.state, [0x8140_0000, 0, 0x4000_0000, 0]);
        }
    }

    fn rule_item_without_a_list_writes_its_word_and_stores() {
        let mut play = starting(
            initial(1, 3),
            &[equal(1, 3)],
            &[nested_only(rule(1, 1, NONE, NONE))],
            &[list(1, 0, 2)],
            &[item(6, 1), call(8)],
        );
        assert_eq!(play.take(GO), [0xF100_0000, 0x6101_0001, 0x0100_0008]);
        assert_eq!(play.state[3], 0x4000_0000);
    }

    fn rule_item_reads_current_values() {
        // The event is cleared just before.
        let mut play = starting(
            event(1),
            &[set(1)],
            &[nested_only(rule(1, 1, NONE, 1))],
            &[list(1, 0, 2), list(1, 2, 1)],
            &[item(1, 1), item(6, 1), call(8)],
        );
        play.take(send(EVENT_REQUEST, 1, 1));
        assert_eq!(
            play.take(GO),
            [0xF100_0000, 0x1101_0000, 0x6101_0000, 0xF101_0000, 0x0100_0008]
        );
    }

    fn rule_item_compares_with_the_result_stored_in_the_same_arbitration() {
        // Rule 1, arbitrated too, has just turned true and chosen list 1; the
        // item in list 0 finds no change, so list 1 runs once, as chosen.
        let lists = [priority(9, list(1, 0, 1)), triggered(list(1, 1, 1))];
        let mut play =
            starting(mode(1), &[], &[rule(1, 0, 1, NONE)], &lists, &[item(6, 1), call(8)]);
        assert_eq!(play.take(GO), [0xF100_0000, 0x6101_0001, 0xF101_0000, 0x0100_0008]);
    }

    fn list_once_chosen_runs_even_if_a_rule_item_has_since_turned_its_rule() {
        let expressions = [set(1), operator(expression::AND, 0, 1)];
        let lists = [priority(9, list(1, 0, 2)), list(1, 2, 1)];
        let mut play = starting(
            event(1),
            &expressions,
            &[rule(1, 2, 1, NONE)],
            &lists,
            &[item(1, 1), item(6, 1), call(8)],
        );
        play.take(send(EVENT_REQUEST, 1, 1));
        assert_eq!(
            play.take(GO),
            [0xF100_0000, 0x1101_0000, 0x6101_0000, 0xF101_0000, 0x0100_0008]
        );
        assert_eq!(play.state[3], 0);
    }

    fn trace_owner_is_of_the_list_that_holds_the_item() {
        // A platform list asks operator 2's network.
        let table = table(
            &[mode(0), deferred(mode(2))],
            &[network(2, 1)],
            &[],
            &[equal(0, 5)],
            &[rule(0, 0, 0, NONE)],
            &[list(0, 0, 2)],
            &[ask(0, 2), call(8)],
        );
        let mut play = Play::fresh(&table);
        assert_eq!(play.take(0x1000_0500), [0xF000_0000, 0x4000_0002, 0x0000_0008]);
        assert_eq!(play.state[3], 0x8000_0000);
    }

    fn trace_holds_list_and_rule_numbers_of_a_whole_byte() {
        // The other lists are there for the result false, which does not come.
        let mut rules: Vec<u32> = (0..254).map(|list| rule(1, 0, NONE, list)).collect();
        rules[0] = rule(1, 0, 254, 0);
        rules.extend([nested_only(rule(1, 0, NONE, NONE)); 2]);
        let lists = vec![list(1, 0, 1); 255];
        let table = plain(&[mode(1)], &[equal(0, 5)], &rules, &lists, &[item(6, 255)]);
        assert_eq!(Play::fresh(&table).take(GO), [0xF1FE_0000, 0x61FF_0001]);
    }

    fn lists_seven_deep_run_to_the_bottom() {
        // List k holds an item naming list k + 1, by a rule where k is odd.
        let lists: Vec<u32> = (0..7).map(|level| list(1, level, 1)).collect();
        let items: Vec<u32> = (0..6)
            .map(|level| if level % 2 == 0 { item(5, level + 1) } else { item(6, level) })
            .collect();
        let rules: Vec<u32> =
            (1..6).map(|level| nested_only(rule(1, 0, level + 1, NONE))).collect();
        let mut play = starting(mode(1), &[], &rules, &lists, &[&items[..], &[call(8)]].concat());
        assert_eq!(
            play.take(GO),
            [
                0xF100_0000, 0xF101_0000, 0x6101_0001, 0xF102_0000, 0xF103_0000, 0x6103_0001,
                0xF104_0000, 0xF105_0000, 0x6105_0001, 0xF106_0000, 0x0100_0008,
            ]
        );
    }

    fn list_at_an_eighth_level_is_refused_with_its_table() {
        for (levels, answer) in [(7, 0), (8, 1)] {
            let lists: Vec<u32> = (0..levels).map(|level| list(1, level, 1)).collect();
            let items: Vec<u32> = (1..levels).map(|next| item(5, next)).chain([call(8)]).collect();
            let words = plain(&[mode(1)], &[equal(0, 5)], &[rule(1, 0, 0, NONE)], &lists, &items);
            let stepped = step(&words, &mut [0; 2], &mut [0; 35], GO, &[]);
            assert_eq!((stepped.answer, stepped.count), (answer, if answer == 0 { 8 } else { 0 }));
        }
    }
}

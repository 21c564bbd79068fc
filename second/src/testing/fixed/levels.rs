//! Request Q-5: condition kind 9, "at or above", is "for mode ports only: true
//! exactly if the port's value is not below the given one."

use super::expressions::{F, T, both_give, concerned, unready};
use super::*;
use crate::words::expression::{AND, NAND, OR, XOR};

/// In both_give's table port 0 is 1, and these two are its expressions 3 and 4.
const LEVELS_1_AND_2: [u32; 2] = [0x9000_1000, 0x9000_2000];
const AT: u32 = 3;
const BELOW: u32 = 4;

/// A port of the kind given; a rule on it being at or above the level, with
/// list 0 (true) and list 1, which call 7 and 8. State: [port, rule].
fn on_level(port: u32, level: u32, lists: [u32; 2]) -> Play {
    let rule = first_result(2, rule(1, 0, 0, 1));
    Play::fresh(&plain(&[port], &[at_or_above(0, level)], &[rule], &lists, &[call(7), call(8)]))
}

const LISTS: [u32; 2] = [0x1000_0001, 0x1000_0101];
const REACHED: [u32; 2] = [0xF100_0000, 0x0100_0007];
const MISSED: [u32; 2] = [0xF101_0000, 0x0100_0008];
const NOTHING: [u32; 0] = [];

/// Of the values, in this order, just those from the one at `first` on reach the level.
#[track_caller]
fn reached(level: u32, values: &[u32], first: usize) {
    let mut play = on_level(mode(1), level, LISTS);
    for (at, &value) in values.iter().enumerate() {
        let (ran, result) = if at >= first { (REACHED, 0x4000_0000) } else { (MISSED, 0) };
        assert_eq!(play.take(request(1, 0, value)), ran, "{value} against {level}");
        assert_eq!(play.state[1], result);
    }
}

/// What the operator gives for levels false-false, false-true, true-false,
/// true-true; the same with an equality on either side.
#[track_caller]
fn operator_gives(kind: u32, results: [bool; 4]) {
    for (left, right) in [([BELOW, AT], [BELOW, AT]), ([F, T], [BELOW, AT]), ([BELOW, AT], [F, T])]
    {
        for (arguments, &result) in results.iter().enumerate() {
            let joined = operator(kind, left[arguments >> 1], right[arguments & 1]);
            both_give(result, &[LEVELS_1_AND_2[0], LEVELS_1_AND_2[1], joined]);
        }
    }
}

/// The equalities of these values on port 0, and over them ORs in pairs, the
/// first expression having the number given.
fn tree_of_equalities(values: std::ops::RangeInclusive<u32>, first: u32) -> Vec<u32> {
    let mut words: Vec<u32> = values.map(|value| equal(0, value)).collect();
    let mut row: Vec<u32> = (0..words.len() as u32).map(|number| first + number).collect();
    while row.len() > 1 {
        let pairs: Vec<Vec<u32>> = row.chunks(2).map(<[u32]>::to_vec).collect();
        row = pairs.iter().map(|pair| join(&mut words, first, pair)).collect();
    }
    words
}

fn join(words: &mut Vec<u32>, first: u32, pair: &[u32]) -> u32 {
    let [left, right] = *pair else { return pair[0] };
    words.push(operator(OR, left, right));
    first + words.len() as u32 - 1
}

/// A network's or source's port 1, with a rule on it being at or above 2 as in
/// `on_level`. A request of 0 to 2 on port 0 asks the network for that mode.
fn on_things_level(networks: &[[u32; 2]], sources: &[u32]) -> Play {
    let asks = networks.len() as u32 * 3;
    let expressions = [at_or_above(1, 2), equal(0, 0), equal(0, 1), equal(0, 2)];
    let asking = (0..asks).map(|mode| rule(1, 1 + mode, 2 + mode, NONE));
    let rules: Vec<u32> = [rule(1, 0, 0, 1)].into_iter().chain(asking).collect();
    let lists: Vec<u32> = (0..2 + asks).map(|first| list(1, first, 1)).collect();
    let items: Vec<u32> =
        [call(7), call(8)].into_iter().chain((0..asks).map(|mode| ask(0, mode))).collect();
    let ports = [mode(1), deferred(mode(1))];
    Play::fresh(&table(&ports, networks, sources, &expressions, &rules, &lists, &items))
}

fixed_cases! {
    fn helpers_words_are_the_words() {
        assert_eq!(LEVELS_1_AND_2, [at_or_above(0, 1), at_or_above(0, 2)]);
        assert_eq!(LISTS, [list(1, 0, 1), list(1, 1, 1)]);
    }

    fn below_at_and_above_the_level() {
        reached(5, &[0, 3, 4, 5, 6, 127, 128, 255], 3);
        reached(1, &[0, 1, 2, 255], 1);
        reached(9, &[0, 1, 2, 3, 4, 5, 6, 7, 8, 9, 10], 9);
    }

    fn level_0_is_reached_by_every_value() {
        reached(0, &[0, 1, 127, 128, 255], 0);
    }

    fn level_255_is_reached_by_255_alone() {
        reached(255, &[0, 1, 127, 128, 253, 254, 255], 6);
    }

    fn levels_compare_as_eight_bits_without_a_sign() {
        reached(127, &[0, 126, 127, 128, 129, 255], 2);
        reached(128, &[0, 1, 126, 127, 128, 129, 254, 255], 4);
        reached(129, &[1, 2, 127, 128, 129, 130, 255], 4);
        reached(200, &[0, 71, 72, 73, 127, 199, 200, 201, 255], 6);
    }

    fn rule_and_rule_item_are_asked_the_same_level() {
        both_give(true, &[at_or_above(0, 0)]);
        both_give(true, &[at_or_above(0, 1)]);
        both_give(false, &[at_or_above(0, 2)]);
        both_give(false, &[at_or_above(0, 255)]);
    }

    fn levels_in_and() {
        operator_gives(AND, [false, false, false, true]);
    }

    fn levels_in_or() {
        operator_gives(OR, [false, true, true, true]);
    }

    fn levels_in_xor() {
        operator_gives(XOR, [false, true, true, false]);
    }

    fn levels_in_nand() {
        operator_gives(NAND, [true, true, true, false]);
    }

    fn levels_in_not() {
        both_give(false, &[LEVELS_1_AND_2[0], LEVELS_1_AND_2[1], not(AT)]);
        both_give(true, &[LEVELS_1_AND_2[0], LEVELS_1_AND_2[1], not(BELOW)]);
    }

    fn level_at_the_end_of_seven_deep() {
        // True, false, false, true, true, false, true upward; or the other way with below.
        let chain = |leaf: u32| {
            [
                LEVELS_1_AND_2[0],
                LEVELS_1_AND_2[1],
                not(leaf),
                operator(AND, T, 5),
                operator(NAND, 6, T),
                operator(OR, F, 7),
                operator(XOR, 8, T),
                not(9),
            ]
        };
        both_give(true, &chain(AT));
        both_give(false, &chain(BELOW));
    }

    fn two_levels_of_one_port_are_a_band() {
        let band = [at_or_above(0, 3), at_or_above(0, 7), operator(XOR, 0, 1)];
        let rules = [rule(1, 2, 0, 1)];
        let mut play =
            Play::fresh(&plain(&[mode(1)], &band, &rules, &LISTS, &[call(7), call(8)]));
        for (value, within) in [(2, false), (3, true), (6, true), (7, false), (255, false)] {
            let ran = if within { REACHED } else { MISSED };
            assert_eq!(play.take(request(1, 0, value)), ran, "{value}");
        }
    }

    fn triggered_lists_are_chosen_where_the_value_passes_the_level() {
        let mut play = on_level(mode(1), 5, LISTS.map(triggered));
        let up_and_down: [(u32, &[u32]); 8] = [
            (4, &MISSED),
            (3, &NOTHING),
            (5, &REACHED),
            (6, &NOTHING),
            (5, &NOTHING),
            (4, &MISSED),
            (255, &REACHED),
            (0, &MISSED),
        ];
        for (value, ran) in up_and_down {
            assert_eq!(play.take(request(1, 0, value)), ran, "{value}");
        }
    }

    fn deferred_port_reaches_its_level_at_the_tick() {
        let mut play = on_level(deferred(mode(1)), 5, LISTS);
        for (value, ran, word) in [(4, MISSED, 0x8100_0000), (5, REACHED, 0x8140_0000)] {
            assert_eq!(play.take(request(1, 0, value)), NOTHING);
            assert_eq!(play.take(TICK), ran);
            assert_eq!(play.state[0], word);
            assert_eq!(play.take(TICK), NOTHING);
        }
    }

    fn initial_value_reaches_a_level_once_arbitrated() {
        // Port 0's request has the rule evaluated; port 1 has its initial value 6.
        for (level, ran) in [(6, REACHED), (7, MISSED)] {
            let both = [at_or_above(0, 0), at_or_above(1, level), operator(AND, 0, 1)];
            let ports = [mode(1), initial(1, 6)];
            let rules = [rule(1, 2, 0, 1)];
            let mut play = Play::fresh(&plain(&ports, &both, &rules, &LISTS, &[call(7), call(8)]));
            assert_eq!(play.take(request(1, 0, 0)), ran);
        }
    }

    fn undefined_port_has_reached_no_level_not_even_0() {
        unready(&[at_or_above(1, 0)]);
        unready(&[at_or_above(1, 0), operator(AND, T, 3)]);
        unready(&[at_or_above(1, 5), operator(XOR, 3, T)]);
        unready(&[at_or_above(1, 0), not(3), operator(OR, F, 4)]);
    }

    fn undefined_port_at_or_above_on_a_skipped_side_leaves_the_rule_unready() {
        for level in [0, 5, 255] {
            for skipping in [operator(AND, F, 3), operator(OR, T, 3), operator(NAND, F, 3)] {
                unready(&[at_or_above(1, level), skipping]);
            }
        }
    }

    fn mention_at_or_above_has_the_rule_evaluated() {
        concerned(true, 5, &[at_or_above(1, 5)]);
        concerned(false, 4, &[at_or_above(1, 5)]);
        concerned(false, 5, &[at_or_above(1, 5), operator(AND, F, 3)]);
        concerned(true, 4, &[at_or_above(1, 5), operator(OR, T, 3)]);
        concerned(true, 5, &[at_or_above(1, 5), operator(NAND, F, 3)]);
    }

    fn networks_port_reaches_a_level_by_the_mode_shown() {
        let mut play = on_things_level(&[network(1, 1)], &[]);
        let asked = |mode: u32| [0xF102_0000 + (mode << 16), 0x4100_0000 + mode];
        assert_eq!(play.take(request(1, 0, 2)), asked(2));
        // Check shows 2, recover 3, silent 1, none 0.
        assert_eq!(play.take(TICK), REACHED);
        assert_eq!(play.take(send(BUS_OFF, 1, 0)), NOTHING);
        assert_eq!(play.take(TICK), REACHED);
        assert_eq!(play.take(request(1, 0, 1)), asked(1));
        assert_eq!(play.take(TICK), MISSED);
        assert_eq!(play.take(request(1, 0, 0)), asked(0));
        assert_eq!(play.take(TICK), MISSED);
    }

    fn sources_port_reaches_a_level_by_its_status() {
        let mut play = on_things_level(&[], &[source(1, 1, 2)]);
        let steps = [
            (WAKEUP, MISSED),
            (WAKEUP_VALID, REACHED),
            (WAKEUP_CLEAR, MISSED),
            (WAKEUP, MISSED),
            // The second tick since has it expired.
            (TICK, REACHED),
        ];
        for (kind, ran) in steps {
            if kind != TICK {
                assert_eq!(play.take(send(kind, 1, 0)), NOTHING);
            }
            assert_eq!(play.take(TICK), ran, "after {kind}");
        }
    }

    fn value_that_a_network_never_shows_is_compared_all_the_same() {
        // The state fits: nothing asks that port 1 agrees with its network.
        let play = on_things_level(&[network(1, 1)], &[]);
        for (word, ran) in [(0xF240_0000, REACHED), (0xC040_0000, MISSED)] {
            let mut play = Play { state: with(&play.state, 1, word), table: play.table.clone() };
            assert_eq!(play.take(TICK), ran);
        }
    }

    fn level_gives_what_its_values_equalities_give() {
        for level in 1..=9 {
            let tree = tree_of_equalities(level..=9, 1);
            let words = [&[at_or_above(0, level)], &tree[..]].concat();
            let rules = [rule(1, 0, 0, 1), rule(1, tree.len() as u32, 2, 3)];
            let lists = [0, 1, 0, 1].map(|first| list(1, first, 1));
            let mut play =
                Play::fresh(&plain(&[mode(1)], &words, &rules, &lists, &[call(7), call(8)]));
            for value in 0..=9 {
                let ran = if value < level {
                    [0xF101_0000, 0x0100_0008, 0xF103_0000, 0x0100_0008]
                } else {
                    [0xF100_0000, 0x0100_0007, 0xF102_0000, 0x0100_0007]
                };
                assert_eq!(play.take(request(1, 0, value)), ran, "{value} against {level}");
                assert_eq!(play.state[1], play.state[2]);
            }
        }
    }
}

//! Request Q-5 in the table's check: "at or above" is for mode ports only,
//! "Reason 6 covers a wrong port kind, reason 5 then starts at kind 10."

use super::names::expressions;
use super::shape::BASE;
use super::*;
use crate::words::expression::{AND, NAND, OR, XOR};

/// Ports 0 of operator 1, 1 of operator 2 and 2 of the platform; a rule of the
/// owner given on the last expression, at place 6 and on.
fn mentioned_by(owner: u32, expressions: &[u32]) -> Vec<u32> {
    let last = expressions.len() as u32 - 1;
    plain(&[mode(1), mode(2), mode(0)], expressions, &[rule(owner, last, NONE, NONE)], &[], &[])
}

/// Nine equalities, values 1 to 9, joined by ORs each of which names the one before.
fn chain_of_equalities() -> Vec<u32> {
    let equalities = (1..=9).map(|value| equal(0, value));
    let ors = (0..8).map(|at| operator(OR, if at == 0 { 0 } else { 8 + at }, at + 1));
    equalities.chain(ors).collect()
}

fixed_cases! {
    fn at_or_above_has_the_fields_of_equal() {
        assert_eq!(at_or_above(4, 9), 0x9040_9000);
    }

    fn at_or_above_stands_on_mode_ports_of_networks_and_sources_too() {
        for word in [0x9000_5000, 0x9010_5000, 0x9020_5000] {
            stands(&with(&BASE, 11, word), 13);
        }
    }

    fn at_or_above_on_a_timer_is_reason_6() {
        refused(&with(&BASE, 11, 0x9040_2000), 6, 11);
        refused(&with(&BASE, 12, 0x9040_0000), 6, 12);
    }

    fn equal_and_not_equal_stand_on_a_timer_as_before() {
        stands(&with(&BASE, 11, 0x0040_2000), 13);
        stands(&with(&BASE, 11, 0x1040_2000), 13);
    }

    fn at_or_above_on_an_event_is_reason_6() {
        refused(&with(&BASE, 11, 0x9030_1000), 6, 11);
        refused(&with(&BASE, 12, 0x9030_0000), 6, 12);
    }

    fn at_or_above_on_an_absent_port_is_reason_6() {
        refused(&with(&BASE, 11, 0x9050_5000), 6, 11);
        refused(&with(&BASE, 11, 0x9400_5000), 6, 11);
        refused(&with(&BASE, 12, 0x9FF0_0000), 6, 12);
    }

    fn at_or_above_in_no_rule_is_judged_by_6() {
        let spare = |port: u32| {
            let expressions = [equal(0, 0), at_or_above(port, 3)];
            plain(&[mode(0), event(0)], &expressions, &[rule(0, 0, NONE, NONE)], &[], &[])
        };
        stands(&spare(0), 0);
        refused(&spare(1), 6, 6);
        refused(&spare(2), 6, 6);
    }

    fn each_bit_of_at_or_above_s_zero_field_is_reason_5() {
        for bit in 0..12 {
            refused(&with(&BASE, 11, 0x9000_5000 | 1 << bit), 5, 11);
            refused(&with(&BASE, 12, 0x9000_0000 | 1 << bit), 5, 12);
        }
        refused(&with(&BASE, 11, 0x9000_5FFF), 5, 11);
    }

    fn value_of_at_or_above_is_free() {
        for value in [0, 1, 2, 127, 128, 254, 255] {
            stands(&with(&BASE, 11, 0x9000_0000 | value << 12), 13);
        }
    }

    fn each_kind_from_10_on_is_reason_5_at_its_word() {
        for kind in 10..=15 {
            // The fields of at or above on port 0, of AND, of NOT, and none.
            for word in [0x0000_5000, 0x0000_C001, 0x0000_4000, 0] {
                refused(&with(&BASE, 11, kind << 28 | word), 5, 11);
                refused(&with(&BASE, 14, kind << 28 | word), 5, 14);
            }
        }
    }

    fn reason_5_comes_before_6_of_at_or_above() {
        // Its own zero field on an event, on a timer and on an absent port.
        for word in [0x9030_0001, 0x9040_0800, 0x9FF0_5FFF] {
            refused(&with(&BASE, 11, word), 5, 11);
        }
        // On a timer at 11, with a kind above 9 at a later word, or with the last item broken.
        let on_timer = with(&BASE, 11, 0x9040_2000);
        refused(&with(&on_timer, 12, 0xA030_0000), 5, 12);
        refused(&with(&on_timer, 26, 0xF000_0000), 5, 26);
        // A kind above 9 names nothing: no port 255.
        refused(&with(&BASE, 14, 0xAFF0_0000), 5, 14);
    }

    fn reason_6_of_at_or_above_is_at_the_lowest_word_and_before_7() {
        let on_timer = with(&BASE, 12, 0x9040_0000);
        refused(&with(&on_timer, 11, 0x9030_0000), 6, 11);
        refused(&with(&on_timer, 13, 0x9050_0000), 6, 12);
        refused(&with(&on_timer, 8, 0x1050_2000), 6, 8);
        // Expression 3 is NOT of itself.
        refused(&with(&on_timer, 14, 0x8000_C000), 6, 12);
    }

    fn rule_with_a_strangers_port_at_or_above_is_reason_8() {
        stands(&mentioned_by(1, &[at_or_above(0, 3)]), 0);
        refused(&mentioned_by(1, &[at_or_above(1, 3)]), 8, 7);
        let [own, strange] = [at_or_above(0, 3), at_or_above(1, 0)];
        for joined in [operator(AND, 0, 1), operator(OR, 1, 0), operator(XOR, 1, 1), not(1)] {
            refused(&mentioned_by(1, &[own, strange, joined]), 8, 9);
        }
        // NOT's right is no name.
        stands(&mentioned_by(1, &[strange, own, not(1)]), 0);
    }

    fn operators_rule_may_mention_a_platform_port_at_or_above() {
        stands(&mentioned_by(1, &[at_or_above(2, 3)]), 0);
        stands(&mentioned_by(1, &[at_or_above(0, 3), at_or_above(2, 3), operator(NAND, 0, 1)]), 0);
    }

    fn platform_rule_mentions_only_platform_ports_at_or_above() {
        stands(&mentioned_by(0, &[at_or_above(2, 3)]), 0);
        refused(&mentioned_by(0, &[at_or_above(0, 3)]), 8, 7);
    }

    fn strangers_port_at_or_above_in_no_rule_clashes_with_nobody() {
        stands(&mentioned_by(1, &[at_or_above(1, 3), at_or_above(0, 3)]), 0);
    }

    fn at_or_above_is_one_level_and_names_no_expression() {
        // Read as an operator's, these fields would name a ring, or what is absent.
        stands(&expressions(&[at_or_above(0, 0)]), 0);
        stands(&expressions(&[at_or_above(0, 5)]), 0);
        stands(&expressions(&[at_or_above(0, 255)]), 0);
        let seven = |leaf: u32| [leaf, not(0), not(1), not(2), not(3), not(4), not(5)];
        stands(&expressions(&seven(at_or_above(0, 0))), 0);
        refused(&expressions(&[&seven(at_or_above(0, 0))[..], &[not(6)]].concat()), 7, 4 + 7);
    }

    fn at_or_above_on_the_eighth_level_is_reason_7_on_either_side() {
        // Each operator has the next on one side and the last, the condition, on the other.
        let row = |levels: u32, join: fn(u32, u32) -> u32| -> Vec<u32> {
            (1..levels).map(|next| join(next, levels - 1)).chain([at_or_above(0, 5)]).collect()
        };
        let joins: [fn(u32, u32) -> u32; 2] =
            [|next, last| operator(AND, next, last), |next, last| operator(NAND, last, next)];
        for join in joins {
            stands(&expressions(&row(7, join)), 0);
            refused(&expressions(&row(8, join)), 7, 4);
        }
    }

    fn chain_of_nine_equalities_is_reason_7_and_one_level_stands() {
        // The seventh OR is eight deep.
        refused(&expressions(&chain_of_equalities()), 7, 4 + 9 + 6);
        stands(&expressions(&[at_or_above(0, 1)]), 0);
    }
}

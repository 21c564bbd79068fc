//! Reasons 6, 7 and 9: names, nesting and cost.

use super::shape::BASE;
use super::*;

/// Each word in turn in this place is refused for reason 6 there.
#[track_caller]
fn misnames(place: usize, words: &[u32]) {
    for &word in words {
        refused(&with(&BASE, place, word), 6, place);
    }
}

/// Expressions only, on one platform port; the first is at place 4.
pub fn expressions(expressions: &[u32]) -> Vec<u32> {
    plain(&[mode(0)], expressions, &[rule(0, 0, NONE, NONE)], &[], &[])
}

/// A row of lists of one item each, list k naming list k + 1, the last a call;
/// the first is at place 6, and the rule starts it.
fn row_of_lists(levels: u32) -> Vec<u32> {
    let lists: Vec<u32> = (0..levels).map(|level| list(0, level, 1)).collect();
    let naming = (1..levels).map(|next| item(5, next));
    let items: Vec<u32> = naming.chain([call(0)]).collect();
    plain(&[mode(0)], &[equal(0, 0)], &[rule(0, 0, 0, NONE)], &lists, &items)
}

/// The same row, each list but the last holding rule k, whose false list is
/// list k + 1; the first list is at place 5 + levels, and the last rule starts it.
fn row_by_rules(levels: u32) -> Vec<u32> {
    let rules: Vec<u32> = (1..=levels)
        .map(|next| if next < levels { rule(0, 0, NONE, next) } else { rule(0, 0, 0, NONE) })
        .collect();
    let lists: Vec<u32> = (0..levels).map(|level| list(0, level, 1)).collect();
    let naming = (1..levels).map(|next| item(6, next - 1));
    let items: Vec<u32> = naming.chain([call(0)]).collect();
    plain(&[mode(0)], &[equal(0, 0)], &rules, &lists, &items)
}

/// Lists of 255 items, each naming the next list, as many as asked; the rule starts the first.
fn hostile(levels: u32) -> Vec<u32> {
    let lists: Vec<u32> = (0..levels).map(|level| list(0, level * 255, 255)).collect();
    let naming = (1..=levels).map(|next| if next < levels { item(5, next) } else { call(0) });
    let items: Vec<u32> = naming.flat_map(|item| [item; 255]).collect();
    plain(&[mode(0)], &[equal(0, 0)], &[rule(0, 0, 0, NONE)], &lists, &items)
}

/// Lists of so many calls each, from one store of 255. The first rule is at place 5.
fn lists_of(counts: &[u32]) -> Vec<u32> {
    let lists: Vec<u32> = counts.iter().map(|&count| list(0, 0, count)).collect();
    let rules = starting_all(0, counts.len() as u32);
    plain(&[mode(0)], &[equal(0, 0)], &rules, &lists, &[call(0); 255])
}

fixed_cases! {
    fn conditions_0_and_1_want_mode_or_timer_ports() {
        misnames(11, &[0x0030_5000, 0x1030_0000]);
        stands(&with(&BASE, 11, 0x0040_2000), 13);
        stands(&with(&BASE, 11, 0x1010_2000), 13);
    }

    fn conditions_2_and_3_want_event_ports() {
        misnames(12, &[0x2000_0000, 0x2040_0000, 0x3000_0000, 0x3040_0000]);
        stands(&with(&BASE, 12, 0x3030_0000), 13);
    }

    fn condition_on_an_absent_port() {
        misnames(11, &[0x0050_5000, 0x0FF0_5000]);
        misnames(12, &[0x2050_0000]);
    }

    fn value_of_a_condition_is_not_judged() {
        // A timer is compared with 200, which it never shows.
        stands(&with(&BASE, 11, 0x004C_8000), 13);
    }

    fn operator_with_an_absent_argument() {
        misnames(13, &[0x4001_0001, 0x4000_C004, 0x4FFF_FFFF]);
        misnames(14, &[0x8001_0000]);
    }

    fn item_1_wants_an_event_port() {
        misnames(20, &[0x1000_0000, 0x1004_0000, 0x1005_0000]);
    }

    fn items_2_and_3_want_a_timer() {
        misnames(21, &[0x2000_0000, 0x2003_0000, 0x2005_0000]);
        misnames(22, &[0x3001_0000, 0x3003_0000, 0x3FFF_0000]);
    }

    fn items_4_5_6_want_what_is_there() {
        misnames(23, &[0x4001_0002]);
        misnames(24, &[0x5002_0000]);
        misnames(25, &[0x6002_0000]);
    }

    fn item_names_are_twelve_bits_wide() {
        misnames(20, &[0x1103_0000]);
        misnames(23, &[0x4100_0002]);
        misnames(24, &[0x5101_0000]);
        misnames(25, &[0x6101_0000]);
    }

    fn list_ending_past_a_is_placed_at_the_list() {
        misnames(18, &[0x1000_0801, 0x1000_0702, 0x1007_FFFF]);
        misnames(17, &[0x1000_0009]);
        stands(&with(&BASE, 17, 0x1000_0006), 10);
    }

    fn rule_with_an_absent_expression_or_list() {
        misnames(15, &[0x1004_00FF, 0x11FF_00FF, 0x1002_02FF, 0x1002_FEFF]);
        misnames(16, &[0x1003_FF02, 0x1003_FFFE]);
    }

    fn network_wants_a_deferred_mode_port_without_initial_value() {
        // Immediate, event, timer, absent.
        misnames(8, &[0x1000_2000, 0x1030_2000, 0x1040_2000, 0x1050_2000]);
        // With an initial value.
        refused(&with(&BASE, 4, 0x3100_0000), 6, 8);
    }

    fn source_wants_a_deferred_mode_port_without_initial_value() {
        misnames(10, &[0x1000_0040, 0x1030_0040, 0x1040_0040, 0x1050_0040]);
        refused(&with(&BASE, 5, 0x3100_0000), 6, 10);
    }

    fn shared_port_is_placed_at_the_later_one() {
        misnames(10, &[0x1010_0040]);
        let port = deferred(mode(1));
        let networks = table(
            &[port, port],
            &[network(1, 0), network(1, 0)],
            &[],
            &[equal(0, 0)],
            &[rule(1, 0, NONE, NONE)],
            &[],
            &[],
        );
        refused(&networks, 6, 7);
        let sources = table(
            &[port, port],
            &[],
            &[source(1, 1, 1), source(1, 1, 1)],
            &[equal(0, 0)],
            &[rule(1, 0, NONE, NONE)],
            &[],
            &[],
        );
        refused(&sources, 6, 6);
    }

    fn network_comes_before_a_source_it_shares_with() {
        // The network is turned to the source's port, and the source is to blame.
        refused(&with(&BASE, 8, 0x1020_2000), 6, 10);
    }

    fn item_5_with_255_is_never_no_list() {
        misnames(24, &[0x50FF_0000]);
        let lists = [list(0, 0, 1); 255];
        let rules = starting_all(0, 255);
        let all =
            |a: u32| plain(&[mode(0)], &[equal(0, 0)], &rules, &lists, &[call(0), item(5, a)]);
        refused(&all(255), 6, 5 + 128 + 255 + 1);
        stands(&all(254), 510);
    }

    fn item_in_no_list_is_judged_by_6() {
        let spare =
            plain(&[mode(0)], &[equal(0, 0)], &[rule(0, 0, NONE, NONE)], &[], &[item(1, 0)]);
        refused(&spare, 6, 6);
    }

    fn expression_in_no_rule_is_judged_by_6() {
        refused(&expressions(&[equal(0, 0), equal(1, 0)]), 6, 5);
    }

    fn reason_6_lowest_word_of_two() {
        refused(&with(&with(&BASE, 26, 0x5009_0000), 13, 0x4FFF_FFFF), 6, 13);
    }

    fn reason_6_comes_before_7_at_a_lower_place() {
        refused(&with(&with(&BASE, 14, 0x8000_C000), 26, 0x5009_0000), 6, 26);
    }

    fn expression_seven_deep_stands_eight_is_refused() {
        let seven = [equal(0, 0), not(0), not(1), not(2), not(3), not(4), not(5)];
        stands(&expressions(&seven), 0);
        refused(&expressions(&[&seven[..], &[not(6)]].concat()), 7, 4 + 7);
    }

    fn operator_is_1_more_than_its_deeper_argument() {
        let left = |deep: u32| operator(expression::AND, deep, 0);
        let right = |deep: u32| operator(expression::XOR, 0, deep);
        let seven = [equal(0, 0), left(0), right(1), left(2), right(3), left(4), right(5)];
        stands(&expressions(&seven), 0);
        refused(&expressions(&[&seven[..], &[left(6)]].concat()), 7, 4 + 7);
        refused(&expressions(&[&seven[..], &[right(6)]].concat()), 7, 4 + 7);
    }

    fn reason_7_is_placed_at_the_lowest_word_too_deep_not_at_the_eighth_level() {
        // Nine deep from the top down: word 0 is nine deep, word 1 eight.
        let down: Vec<u32> = (1..9).map(not).chain([equal(0, 0)]).collect();
        refused(&expressions(&down), 7, 4);
        let up: Vec<u32> = [equal(0, 0)].into_iter().chain((0..8).map(not)).collect();
        refused(&expressions(&up), 7, 4 + 7);
    }

    fn expression_ring() {
        refused(&expressions(&[equal(0, 0), not(1)]), 7, 5);
        refused(&expressions(&[equal(0, 0), not(2), operator(expression::OR, 0, 1)]), 7, 5);
    }

    fn word_that_leads_into_a_ring_nests_without_end_too() {
        refused(&expressions(&[not(2), equal(0, 0), not(2)]), 7, 4);
    }

    fn expression_in_no_rule_is_judged_by_7() {
        refused(&expressions(&[equal(0, 0), equal(0, 1), not(2)]), 7, 6);
    }

    fn not_s_right_is_no_name_in_depth() {
        // Read as a name, NOT's right 0 would make expression 0 a ring.
        stands(&expressions(&[not(1), equal(0, 0)]), 0);
        let seven = [not(1), not(2), not(3), not(4), not(5), not(6), equal(0, 0)];
        stands(&expressions(&seven), 0);
    }

    fn list_seven_deep_stands_eight_is_refused() {
        // Costs 2, 3, ... 8 upward from the last.
        stands(&row_of_lists(7), 2 + 3 + 4 + 5 + 6 + 7 + 8);
        refused(&row_of_lists(8), 7, 6);
    }

    fn rule_item_is_no_level_of_its_own() {
        // Costs 2, and 2 more for each rule item above.
        stands(&row_by_rules(7), 2 + 4 + 6 + 8 + 10 + 12 + 14);
        refused(&row_by_rules(8), 7, 5 + 8);
    }

    fn rule_item_adds_both_lists_whatever_the_rule_can_give() {
        // The rule can only be true where XOR of a thing with itself is; its
        // false list and its true list each lead back.
        for (true_list, false_list) in [(0, NONE), (NONE, 0)] {
            let ring = plain(
                &[mode(0)],
                &[equal(0, 0), operator(expression::XOR, 0, 0)],
                &[rule(0, 1, true_list, false_list)],
                &[list(0, 0, 1)],
                &[item(6, 0)],
            );
            refused(&ring, 7, 7);
        }
    }

    fn ring_of_lists_and_a_list_leading_into_it() {
        let lists = [list(0, 0, 1), list(0, 1, 1), list(0, 2, 1)];
        let ring = plain(
            &[mode(0)],
            &[equal(0, 0)],
            &[rule(0, 0, NONE, NONE)],
            &lists,
            &[item(5, 1), item(5, 2), item(5, 1)],
        );
        refused(&ring, 7, 6);
        // With the leading list turned away, the ring itself is next.
        refused(&with(&ring, 9, call(0)), 7, 7);
    }

    fn list_nothing_starts_is_judged_by_7() {
        let ring = plain(
            &[mode(0)],
            &[equal(0, 0)],
            &[rule(0, 0, NONE, NONE)],
            &[list(0, 0, 1)],
            &[item(5, 0)],
        );
        refused(&ring, 7, 6);
    }

    fn expressions_come_before_lists_in_reason_7() {
        let both = plain(
            &[mode(0)],
            &[equal(0, 0), not(1)],
            &[rule(0, 0, NONE, NONE)],
            &[list(0, 0, 1)],
            &[item(5, 0)],
        );
        refused(&both, 7, 5);
    }

    fn hostile_nesting_is_judged_without_walking_every_path() {
        refused(&hostile(7), 9, 0);
        refused(&hostile(8), 7, 6);
        let ands: Vec<u32> =
            (0..511).map(|before| operator(expression::AND, before, before)).collect();
        refused(&expressions(&[&[equal(0, 0)], &ands[..]].concat()), 7, 4 + 7);
    }

    fn cost_4096_stands_4097_is_refused() {
        stands(&lists_of(&[255; 16]), 4096);
        let mut counts = [255; 17];
        counts[15..].copy_from_slice(&[127, 128]);
        refused(&lists_of(&counts), 9, 0);
        counts[15..].copy_from_slice(&[127, 127]);
        stands(&lists_of(&counts), 4096);
    }

    fn cost_of_a_rule_item_is_1_plus_the_dearer_list() {
        let named = |true_list: u32, false_list: u32| {
            plain(
                &[mode(0)],
                &[equal(0, 0)],
                &[rule(0, 0, true_list, false_list), rule(0, 0, 0, 1), rule(0, 0, 2, NONE)],
                &[list(0, 0, 1), list(0, 0, 3), list(0, 3, 1)],
                &[call(0), call(0), call(0), item(6, 0)],
            )
        };
        // Lists 0 and 1 cost 2 and 4; list 2 costs 1 + 1 + the dearer.
        stands(&named(0, 1), 2 + 4 + 6);
        stands(&named(1, 0), 2 + 4 + 6);
        stands(&named(NONE, 0), 2 + 4 + 4);
        stands(&named(NONE, NONE), 2 + 4 + 2);
    }

    fn b_is_the_sum_over_all_lists() {
        stands(&lists_of(&[1, 1, 1]), 6);
    }

    fn reason_9_comes_after_8() {
        let mut counts = [255; 17];
        counts[16] = 1;
        let dear = lists_of(&counts);
        refused(&dear, 9, 0);
        // The first rule becomes operator 1's, its lists stay the platform's.
        refused(&with(&dear, 5, rule(1, 0, 0, 1)), 8, 5);
    }
}

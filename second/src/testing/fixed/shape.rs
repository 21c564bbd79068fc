//! Reasons 1 to 5: header, length, and each word's own fields.

use super::*;

/// Something of every kind, hand-packed: ports 0 mode, 1 the network's, 2 the
/// source's, 3 event, 4 timer. Expressions 0 equal, 1 set, 2 AND of 3 and 1,
/// 3 NOT of 0. List 0 holds an item of every kind, list 1 a call. Costs 11 + 2.
pub const BASE: [u32; 27] = [
    0x0105_0101, 0x0004_0002, 0x0002_0008, // 3: ports
    0x0100_0000, 0x2100_0000, 0x2100_0000, 0x4100_0000, 0xA100_0003,
    // 8: network, 10: source
    0x1010_2000, 0x030A_0005, 0x1020_0040, // 11: expressions
    0x0000_5000, 0x2030_0000, 0x4000_C001, 0x8000_0000, // 15: rules
    0x1002_00FF, 0x1003_FF01, // 17: lists
    0x1000_0007, 0x1000_0701, // 19: items
    0x0000_1234, 0x1003_0000, 0x2004_0000, 0x3004_0000, 0x4000_0002, 0x5001_0000, 0x6001_0000,
    0x0000_0001,
];

/// The least table: one port, one expression, one rule.
pub const LEAST: [u32; 6] = [0x0101_0000, 0x0001_0001, 0, 0, 0, 0x0000_FFFF];

/// Each word in turn in this place is refused for reason 5 there.
#[track_caller]
fn refused_alone(place: usize, words: &[u32]) {
    for &word in words {
        refused(&with(&BASE, place, word), 5, place);
    }
}

fixed_cases! {
    fn layout_of_every_word() {
        let packed = table(
            &[mode(1), deferred(mode(1)), deferred(mode(1)), event(1), timer(1, 3)],
            &[network(1, 1)],
            &[source(1, 2, 4)],
            &[equal(0, 5), set(3), operator(expression::AND, 3, 1), not(0)],
            &[rule(1, 2, 0, NONE), rule(1, 3, NONE, 1)],
            &[list(1, 0, 7), list(1, 7, 1)],
            &[
                call(0x1234),
                item(1, 3),
                item(2, 4),
                item(3, 4),
                ask(0, 2),
                item(5, 1),
                item(6, 1),
                call(1),
            ],
        );
        assert_eq!(packed, BASE);
    }

    /// List 1 costs 2; list 0 costs 1, five items, 2 for list 1, and 1 + 2 for the rule item.
    fn cost_of_every_item_kind() {
        stands(&BASE, 13);
    }

    fn reason_1_fewer_than_three_words_whatever_they_are() {
        refused(&[], 1, 0);
        refused(&[0xFFFF_FFFF], 1, 0);
        refused(&[0x0101_0000, 0x0001_0001], 1, 0);
    }

    fn reason_2_edition_is_not_1_or_2() {
        refused(&with(&BASE, 0, 0x0005_0101), 2, 0);
        refused(&with(&BASE, 0, 0x0305_0101), 2, 0);
        refused(&with(&BASE, 0, 0xFF05_0101), 2, 0);
        // Before the limits and the length.
        refused(&[0xFFFF_FFFF, 0xFFFF_FFFF, 0xFFFF_FFFF], 2, 0);
    }

    fn reason_3_each_count_outside_its_limits() {
        let beyond = [
            [0x0100_0000, 0x0001_0001, 0],           // P 0
            [0x0141_0000, 0x0001_0001, 0],           // P 65
            [0x0101_0900, 0x0001_0001, 0],           // N 9
            [0x0101_0021, 0x0001_0001, 0],           // S 33
            [0x0101_0000, 0x0000_0001, 0],           // E 0
            [0x0101_0000, 0x0201_0001, 0],           // E 513
            [0x0101_0000, 0x0001_0000, 0],           // R 0
            [0x0101_0000, 0x0001_0101, 0],           // R 257
            [0x0101_0000, 0x0001_0001, 0x0100_0000], // L 256
            [0x0101_0000, 0x0001_0001, 0x0000_0800], // A 2,048
        ];
        // Before the length, which differs everywhere here.
        beyond.iter().for_each(|header| refused(header, 3, 0));
    }

    /// At each limit the length is judged next, so the count itself stands.
    fn reason_3_each_count_at_its_limit_stands() {
        let at = [
            [0x0140_0000, 0x0001_0001, 0],
            [0x0101_0800, 0x0001_0001, 0],
            [0x0101_0020, 0x0001_0001, 0],
            [0x0101_0000, 0x0200_0001, 0],
            [0x0101_0000, 0x0001_0100, 0],
            [0x0101_0000, 0x0001_0001, 0x00FF_0000],
            [0x0101_0000, 0x0001_0001, 0x0000_07FF],
        ];
        at.iter().for_each(|header| refused(header, 4, 0));
    }

    fn reason_3_no_networks_sources_lists_items_stands() {
        stands(&LEAST, 0);
    }

    fn reason_4_length_differs() {
        refused(&BASE[..26], 4, 0);
        refused(&[&BASE[..], &[0]].concat(), 4, 0);
        // Before a word's own fields.
        refused(&with(&BASE, 3, 0xC100_0000)[..26], 4, 0);
    }

    /// All limits together: 3,185 words, and each network has two of them.
    fn reason_4_longest_table_is_3185_words() {
        let mut words = vec![0; 3185];
        words[..3].copy_from_slice(&[0x0140_0820, 0x0200_0100, 0x00FF_07FF]);
        refused(&words[..3184], 4, 0);
        // All zero, the first network's waits are what breaks a rule first.
        refused(&words, 5, 3 + 64 + 1);
        words.push(0);
        refused(&words, 4, 0);
    }

    fn place_counts_from_0_over_the_whole_table() {
        refused(&with(&BASE, 3, 0xC100_0000), 5, 3);
        refused(&with(&BASE, 26, 0xF000_0000), 5, 26);
    }

    fn reason_5_lowest_word_of_two() {
        refused(&with(&with(&BASE, 26, 0xF000_0000), 9, 0), 5, 9);
    }

    fn reason_5_port_kind_3() {
        refused_alone(3, &[0xC100_0000, 0xE100_0001]);
    }

    fn reason_5_initial_value_outside_mode_ports() {
        refused_alone(6, &[0x5100_0000, 0x5107_0000, 0x4107_0000]);
        refused_alone(7, &[0xB100_0003, 0xA107_0003]);
    }

    fn reason_5_initial_field_without_has_initial() {
        refused_alone(3, &[0x0101_0000, 0x0180_0000]);
        stands(&with(&BASE, 3, 0x1180_0000), 13);
        stands(&with(&BASE, 3, 0x1100_0000), 13);
    }

    fn reason_5_reload_at_least_1_in_a_timer_else_0() {
        refused_alone(7, &[0xA100_0000]);
        refused_alone(3, &[0x0100_0001, 0x0100_8000]);
        refused_alone(6, &[0x4100_0001]);
        stands(&with(&BASE, 7, 0xA100_0001), 13);
        stands(&with(&BASE, 7, 0xA100_FFFF), 13);
    }

    fn reason_5_timer_not_deferred() {
        refused_alone(7, &[0x8100_0003]);
    }

    fn reason_5_network_zero_field() {
        refused_alone(8, &[0x1010_2001, 0x1010_2800]);
    }

    fn reason_5_waits_and_e_ticks_0_at_the_networks_second_word() {
        refused_alone(9, &[0x000A_0005, 0x0300_0005, 0x030A_0000]);
        stands(&with(&BASE, 9, 0x0101_0001), 13);
    }

    fn reason_5_source_zero_field() {
        refused_alone(10, &[0x1020_0041, 0x1020_0048]);
    }

    fn reason_5_condition_zero_field() {
        refused_alone(11, &[0x0000_5001, 0x0000_5800]);
        refused_alone(12, &[0x2030_0001, 0x3030_0800]);
    }

    fn reason_5_value_in_set_and_cleared() {
        refused_alone(12, &[0x2030_1000, 0x3038_0000]);
    }

    fn reason_5_expression_kind_above_9() {
        refused_alone(13, &[0xA000_0000, 0xF000_0000]);
        stands(&with(&BASE, 13, 0x7000_C001), 13);
    }

    fn reason_5_right_in_not() {
        refused_alone(14, &[0x8000_0001, 0x8000_2000]);
    }

    fn reason_5_first_result_3() {
        refused_alone(15, &[0x1C02_00FF]);
        stands(&with(&BASE, 15, 0x1802_00FF), 13);
    }

    fn reason_5_list_count_0() {
        refused_alone(17, &[0x1000_0000, 0x1FF8_0100]);
    }

    fn reason_5_item_kind_above_6() {
        refused_alone(19, &[0x7000_0000, 0xF000_0000]);
    }

    fn reason_5_a_in_an_outside_call() {
        refused_alone(19, &[0x0001_1234, 0x0800_1234]);
    }

    fn reason_5_b_in_items_1_2_3_5_6() {
        refused_alone(20, &[0x1003_0001, 0x1003_8000]);
        refused_alone(21, &[0x2004_0001]);
        refused_alone(22, &[0x3004_0001]);
        refused_alone(24, &[0x5001_0001]);
        refused_alone(25, &[0x6001_0001]);
    }

    fn reason_5_requested_mode_above_2() {
        refused_alone(23, &[0x4000_0003, 0x4000_8002]);
        stands(&with(&BASE, 23, 0x4000_0000), 13);
        stands(&with(&BASE, 23, 0x4000_0001), 13);
    }

    fn threshold_0_priority_0_and_timeout_0_stand() {
        stands(&with(&BASE, 8, 0x1010_0000), 13);
        stands(&with(&BASE, 17, 0x1000_0007), 13);
        stands(&with(&BASE, 10, 0x1020_0000), 13);
    }

    fn reason_5_comes_before_6_at_a_lower_place() {
        refused(&with(&with(&BASE, 8, 0x1050_2000), 26, 0xF000_0000), 5, 26);
    }

    fn item_in_no_list_is_judged_by_5() {
        let spare =
            plain(&[mode(0)], &[equal(0, 0)], &[rule(0, 0, NONE, NONE)], &[], &[0x0001_0000]);
        refused(&spare, 5, 6);
    }

    fn expression_in_no_rule_is_judged_by_5() {
        let spare =
            plain(&[mode(0)], &[equal(0, 0), 0xA000_0000], &[rule(0, 0, NONE, NONE)], &[], &[]);
        refused(&spare, 5, 5);
    }
}

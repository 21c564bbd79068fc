//! Bus logs, request Q-12: ticks, times that go back, room, the order of refusals, and cursors.

use super::buslog::*;

/// A log from a cursor on, in this room.
#[track_caller]
fn from(cursor: [u64; 4], room: usize, log: &[u8], whole: Whole) {
    converts(&three(), NAMES, log, (cursor, room), whole);
}

/// Lines at these times in microseconds, all of frames that give no event, in just enough room.
#[track_caller]
fn ticks(times: &[u64], due: usize, given: u64) {
    let line = |time: &u64| format!("({}.{:06}) can1 123#\n", time / 1_000_000, time % 1_000_000);
    let log: String = times.iter().map(line).collect();
    let (first, last) = (times[0], times[times.len() - 1]);
    let after = [times.len() as u64, first, last, given];
    let whole = (0, 0, log.len(), &vec![0; due][..], after);
    converts(&three(), NAMES, log.as_bytes(), (START, due), whole);
}

/// Bus-offs at 1 second and 30 milliseconds behind it: 26 bytes each.
const TWO: &[u8] = b"(1.000000) can0 20000040#\n(1.030000) can1 20000040#\n";
const SECOND: u64 = 1_000_000;

fixed_cases! {
    fn buslog_tick_comes_not_before_ten_milliseconds() {
        ticks(&[5_000_000, 5_009_999], 0, 0);
    }

    fn buslog_tick_comes_at_ten_milliseconds() {
        ticks(&[5_000_000, 5_010_000], 1, 1);
    }

    fn buslog_only_whole_ten_milliseconds_count() {
        ticks(&[5_000_000, 5_019_999], 1, 1);
        ticks(&[5_000_000, 5_020_000], 2, 2);
    }

    fn buslog_ticks_are_counted_from_the_first_line_and_not_from_the_clock() {
        ticks(&[9_999, 10_000], 0, 0);
        ticks(&[5_000, 14_999], 0, 0);
        ticks(&[5_000, 15_000], 1, 1);
    }

    fn buslog_short_gaps_add_up_to_ticks() {
        // 9,999 microseconds apart: none, none, one, two, three passed.
        ticks(&[0, 9_999], 0, 0);
        ticks(&[0, 9_999, 19_998], 1, 1);
        ticks(&[0, 9_999, 19_998, 29_997, 39_996], 3, 3);
    }

    fn buslog_what_is_over_ten_milliseconds_is_not_lost() {
        ticks(&[0, 15_000, 30_000, 45_000], 4, 4);
        ticks(&[0, 19_999, 39_998], 3, 3);
    }

    fn buslog_what_is_over_is_not_given_twice() {
        ticks(&[0, 10_000, 10_001, 19_999, 20_000], 2, 2);
    }

    fn buslog_thousand_lines_a_microsecond_short_of_ten_milliseconds() {
        let times: Vec<u64> = (0..=1000).map(|number| number * 9_999).collect();
        // 9,999,000 microseconds passed.
        ticks(&times, 999, 999);
    }

    fn buslog_large_gap_gives_all_its_ticks() {
        let (log, events) = (b"(0.000000) can0 123#\n(10.000000) can0 123#\n", [0; 1000]);
        from(START, 1000, log, (0, 0, 43, &events, [2, 0, 10_000_000, 1000]));
    }

    fn buslog_largest_gap_gives_ticks_while_there_is_room() {
        let log = b"(0.000000) can0 123#\n(9999999999.999999) can0 20000040#\n";
        from(START, 3, log, (11, 2, 21, &[0; 3], [1, 0, 0, 3]));
    }

    fn buslog_largest_gaps_last_tick_and_bus_off() {
        let log = b"(9999999999.999999) can0 20000040#\n";
        let (last, all) = (9_999_999_999_999_999, 999_999_999_999);
        from([1, 0, 0, all - 1], 9, log, (0, 0, 35, &[0, OFF_0], [2, 0, last, all]));
    }

    fn buslog_ticks_come_before_the_lines_bus_off() {
        gives(TWO, (0, 0, 52, &[OFF_0, 0, 0, 0, OFF_1], [2, SECOND, 1_030_000, 3]));
    }

    fn buslog_bus_offs_come_in_their_lines_order() {
        let log = b"(1.000000) vcan2 20000040#\n(1.000000) can0 20000040#\n\
                    (1.010000) can1 20000040#\n(1.010000) vcan2 20000040#\n";
        let events = [OFF_2, OFF_0, 0, OFF_1, OFF_2];
        gives(log, (0, 0, 106, &events, [4, SECOND, 1_010_000, 1]));
    }

    fn buslog_same_bus_off_comes_each_time() {
        let log = b"(1.000000) can0 20000040#\n".repeat(3);
        gives(&log, (0, 0, 78, &[OFF_0; 3], [3, SECOND, SECOND, 0]));
    }

    fn buslog_first_line_can_be_a_bus_off() {
        let log = b"(77.000000) can1 20000040#\n";
        gives(log, (0, 0, 27, &[OFF_1], [1, 77_000_000, 77_000_000, 0]));
    }

    fn buslog_equal_times_stand() {
        ticks(&[SECOND, SECOND, SECOND], 0, 0);
        ticks(&[SECOND, SECOND + 10_000, SECOND + 10_000], 1, 1);
    }

    fn buslog_time_goes_back_by_a_microsecond() {
        let log = b"(1.000001) can0 123#\n(1.000000) can0 123#\n";
        gives(log, (14, 2, 21, &[], [1, 1_000_001, 1_000_001, 0]));
    }

    fn buslog_time_goes_back_against_the_line_before_and_not_the_first() {
        let log = b"(1.000000) can0 123#\n(1.020000) can0 123#\n(1.010000) can0 123#\n";
        gives(log, (14, 3, 42, &[0, 0], [2, SECOND, 1_020_000, 2]));
    }

    fn buslog_time_goes_back_before_the_first_line() {
        let log = b"(1.000000) can0 123#\n(0.999999) can0 20000040#\n";
        gives(log, (14, 2, 21, &[], [1, SECOND, SECOND, 0]));
    }

    fn buslog_times_are_compared_as_numbers() {
        ticks(&[9_999_999, 10_000_000], 0, 0);
        ticks(&[999_999, 1_000_000], 0, 0);
        let log = b"(10.000000) can0 123#\n(9.999999) can0 123#\n";
        gives(log, (14, 2, 22, &[], [1, 10_000_000, 10_000_000, 0]));
    }

    fn buslog_times_with_and_without_leading_zeros_are_equal() {
        let log = b"(1.000000) can0 123#\n(0000000001.000000) can0 123#\n(1.000000) can0 123#\n";
        gives(log, (0, 0, 72, &[], [3, SECOND, SECOND, 0]));
    }

    fn buslog_misspelt_line_gives_no_ticks() {
        let log = b"(1.000000) can0 123#\n(2.000000) can0 12#\n";
        gives(log, (12, 2, 21, &[], [1, SECOND, SECOND, 0]));
    }

    fn buslog_unlisted_line_gives_no_ticks() {
        let log = b"(1.000000) can0 123#\n(2.000000) can7 20000040#\n";
        gives(log, (15, 2, 21, &[], [1, SECOND, SECOND, 0]));
    }

    fn buslog_unlisted_is_told_of_frames_that_give_no_event() {
        gives(b"(1.000000) can7 123#\n", (15, 1, 0, &[], START));
    }

    fn buslog_names_are_compared_byte_by_byte() {
        for name in ["can", "can00", "CAN0", "an0", "can2", "can0\r", "vcan"] {
            gives(format!("(1.000000) {name} 123#\n").as_bytes(), (15, 1, 0, &[], START));
        }
    }

    fn buslog_refusal_keeps_the_events_before_it() {
        let log = [TWO, b"(1.050000) can9 123#\n"].concat();
        let events = [OFF_0, 0, 0, 0, OFF_1];
        gives(&log, (15, 3, 52, &events, [2, SECOND, 1_030_000, 3]));
    }

    fn buslog_nothing_is_read_behind_a_refused_line() {
        let log = [b"(1.000000) can9 123#\n", TWO].concat();
        gives(&log, (15, 1, 0, &[], START));
        let log = [TWO, b"\n", TWO].concat();
        let events = [OFF_0, 0, 0, 0, OFF_1];
        gives(&log, (12, 3, 52, &events, [2, SECOND, 1_030_000, 3]));
    }

    fn buslog_first_of_two_refused_lines_is_told() {
        let log = b"(2.000000) can0 123#\n(1.000000) can0 123#\nmisspelt\n";
        gives(log, (14, 2, 21, &[], [1, 2_000_000, 2_000_000, 0]));
    }

    fn buslog_misspelt_comes_before_back_unlisted_and_no_room() {
        let log = b"(2.000000) can0 123#\n(1.000000) can9 20000040#1\n";
        from(START, 0, log, (12, 2, 21, &[], [1, 2_000_000, 2_000_000, 0]));
        from([1, 0, 0, 0], 0, b"(1.000000) can0 12#\n", (12, 2, 0, &[], [1, 0, 0, 0]));
        from([1, 0, 0, 0], 9, b"(1.000000) can9 12#\n", (12, 2, 0, &[], [1, 0, 0, 0]));
        from([1, 5, 5, 0], 9, b"(0.000000) can0 12#\n", (12, 2, 0, &[], [1, 5, 5, 0]));
    }

    fn buslog_back_comes_before_unlisted_and_no_room() {
        let log = b"(2.000000) can0 123#\n(1.000000) can9 20000040#\n";
        from(START, 0, log, (14, 2, 21, &[], [1, 2_000_000, 2_000_000, 0]));
        let log = b"(1.000000) can0 20000040#\n";
        from([1, 0, 2_000_000, 0], 0, log, (14, 2, 0, &[], [1, 0, 2_000_000, 0]));
        from([1, 0, 2_000_000, 0], 9, log, (14, 2, 0, &[], [1, 0, 2_000_000, 0]));
    }

    fn buslog_unlisted_comes_before_no_room() {
        from(START, 0, b"(2.000000) can9 20000040#\n", (15, 1, 0, &[], START));
        from([1, 0, 0, 0], 2, b"(2.000000) can9 123#\n", (15, 2, 0, &[], [1, 0, 0, 0]));
    }

    fn buslog_no_room_for_the_first_lines_bus_off() {
        from(START, 0, TWO, (11, 1, 0, &[], START));
    }

    fn buslog_no_room_for_the_first_tick() {
        from(START, 1, TWO, (11, 2, 26, &[OFF_0], [1, SECOND, SECOND, 0]));
    }

    fn buslog_no_room_keeps_the_ticks_that_fitted() {
        from(START, 2, TWO, (11, 2, 26, &[OFF_0, 0], [1, SECOND, SECOND, 1]));
        from(START, 3, TWO, (11, 2, 26, &[OFF_0, 0, 0], [1, SECOND, SECOND, 2]));
    }

    fn buslog_no_room_for_the_bus_off_behind_ticks_that_fitted() {
        from(START, 4, TWO, (11, 2, 26, &[OFF_0, 0, 0, 0], [1, SECOND, SECOND, 3]));
    }

    fn buslog_just_enough_room_is_done() {
        let events = [OFF_0, 0, 0, 0, OFF_1];
        from(START, 5, TWO, (0, 0, 52, &events, [2, SECOND, 1_030_000, 3]));
    }

    fn buslog_full_output_is_not_refused_while_no_event_is_due() {
        let log = [TWO, b"(1.039999) can0 123#\n(1.039999) vcan2 20000000#\n"].concat();
        let events = [OFF_0, 0, 0, 0, OFF_1];
        from(START, 5, &log, (0, 0, 100, &events, [4, SECOND, 1_039_999, 3]));
    }

    fn buslog_full_output_is_refused_when_a_tick_is_due() {
        let log = [TWO, b"(1.039999) can0 123#\n(1.040000) can0 123#\n"].concat();
        let events = [OFF_0, 0, 0, 0, OFF_1];
        from(START, 5, &log, (11, 4, 73, &events, [3, SECOND, 1_039_999, 3]));
    }

    fn buslog_full_output_is_refused_when_a_bus_off_is_due() {
        let log = [TWO, b"(1.030000) can0 20000040#\n"].concat();
        let events = [OFF_0, 0, 0, 0, OFF_1];
        from(START, 5, &log, (11, 3, 52, &events, [2, SECOND, 1_030_000, 3]));
    }

    fn buslog_no_room_at_all_reads_lines_without_events() {
        from(START, 0, b"", (0, 0, 0, &[], START));
        let log = b"(1.000000) can0 123#\n(1.009999) can0 123#\n";
        from(START, 0, log, (0, 0, 42, &[], [2, SECOND, 1_009_999, 0]));
        let log = [&log[..], b"(1.010000) can0 123#\n"].concat();
        from(START, 0, &log, (11, 3, 42, &[], [2, SECOND, 1_009_999, 0]));
    }

    fn buslog_full_output_does_not_hide_a_later_lines_fault() {
        from(START, 0, b"(1.000000) can0 123#\n\n", (12, 2, 21, &[], [1, SECOND, SECOND, 0]));
    }

    fn buslog_resumed_in_ticks_goes_on_there() {
        let rest = &TWO[26..];
        let after = [2, SECOND, 1_030_000, 3];
        from([1, SECOND, SECOND, 0], 9, rest, (0, 0, 26, &[0, 0, 0, OFF_1], after));
        from([1, SECOND, SECOND, 1], 9, rest, (0, 0, 26, &[0, 0, OFF_1], after));
        from([1, SECOND, SECOND, 2], 9, rest, (0, 0, 26, &[0, OFF_1], after));
    }

    fn buslog_resumed_behind_ticks_gives_the_bus_off_alone() {
        let rest = &TWO[26..];
        let after = [2, SECOND, 1_030_000, 3];
        from([1, SECOND, SECOND, 3], 9, rest, (0, 0, 26, &[OFF_1], after));
        from([1, SECOND, SECOND, 3], 0, rest, (11, 2, 0, &[], [1, SECOND, SECOND, 3]));
    }

    fn buslog_resumed_word_by_word() {
        let rest = &TWO[26..];
        from([1, SECOND, SECOND, 0], 1, rest, (11, 2, 0, &[0], [1, SECOND, SECOND, 1]));
        from([1, SECOND, SECOND, 1], 1, rest, (11, 2, 0, &[0], [1, SECOND, SECOND, 2]));
        from([1, SECOND, SECOND, 2], 1, rest, (11, 2, 0, &[0], [1, SECOND, SECOND, 3]));
        from([1, SECOND, SECOND, 3], 1, rest, (0, 0, 26, &[OFF_1], [2, SECOND, 1_030_000, 3]));
    }

    fn buslog_resumed_at_a_line_numbers_and_times_go_on() {
        let log = b"(1.045000) can0 123#\n(1.044999) can0 123#\n";
        let after = [3, SECOND, 1_045_000, 4];
        from([2, SECOND, 1_030_000, 3], 9, log, (14, 4, 21, &[0], after));
    }

    fn buslog_resumed_with_an_empty_log_changes_nothing() {
        from([2, SECOND, 1_030_000, 3], 0, b"", (0, 0, 0, &[], [2, SECOND, 1_030_000, 3]));
    }

    fn buslog_before_the_first_line_times_count_for_nothing() {
        let log = b"(0.000100) can0 20000040#\n";
        from([0, 500, 900, 0], 9, log, (0, 0, 26, &[OFF_0], [1, 100, 100, 0]));
        from([0, 0, u64::MAX, 0], 9, log, (0, 0, 26, &[OFF_0], [1, 100, 100, 0]));
        let late = b"(5.000000) can0 123#\n";
        from([0, 0, 0, 0], 9, late, (0, 0, 21, &[], [1, 5_000_000, 5_000_000, 0]));
        from([0, 1, 1, 0], 9, late, (0, 0, 21, &[], [1, 5_000_000, 5_000_000, 0]));
    }

    fn buslog_before_the_first_line_ticks_given_are_kept() {
        let log = b"(0.000100) can0 20000040#\n(0.070100) can0 123#\n(0.090100) can0 123#\n";
        let after = [3, 100, 90_100, 9];
        from([0, 500, 900, 7], 9, log, (0, 0, 68, &[OFF_0, 0, 0], after));
    }

    fn buslog_before_the_first_line_a_refusal_leaves_the_cursor() {
        let odd = [0, 500, 900, 7];
        from(odd, 9, b"\n", (12, 1, 0, &[], odd));
        from(odd, 9, b"(1.000000) can9 123#\n", (15, 1, 0, &[], odd));
        from(odd, 0, b"(1.000000) can0 20000040#\n", (11, 1, 0, &[], odd));
    }

    fn buslog_cursor_whose_first_line_is_later_passes_no_time() {
        let odd = [3, 2_000_000, 1_000_000, 0];
        let log = b"(1.500000) can0 20000040#\n(2.010000) can0 123#\n";
        from(odd, 9, log, (0, 0, 47, &[OFF_0, 0], [5, 2_000_000, 2_010_000, 1]));
    }

    fn buslog_cursor_with_more_ticks_given_than_passed_gives_none() {
        let log = b"(1.030000) can0 20000040#\n";
        let odd = [1, SECOND, SECOND, 9];
        from(odd, 9, log, (0, 0, 26, &[OFF_0], [2, SECOND, 1_030_000, 9]));
        let odd = [1, SECOND, SECOND, u64::MAX];
        from(odd, 9, log, (0, 0, 26, &[OFF_0], [2, SECOND, 1_030_000, u64::MAX]));
        from(odd, 0, log, (11, 2, 0, &[], odd));
    }

    fn buslog_cursor_of_the_latest_times() {
        let log = b"(9999999999.999999) can0 20000040#\n";
        let odd = [1, u64::MAX, u64::MAX, 0];
        from(odd, 9, log, (14, 2, 0, &[], odd));
        let after = [2, u64::MAX, 9_999_999_999_999_999, 0];
        from([1, u64::MAX, 0, 0], 9, log, (0, 0, 35, &[OFF_0], after));
    }

    fn buslog_cursor_with_last_before_first_goes_back_by_last() {
        let odd = [4, 3 * SECOND, SECOND, 0];
        from(odd, 9, b"(0.999999) can0 123#\n", (14, 5, 0, &[], odd));
        from(odd, 9, b"(1.000000) can0 123#\n", (0, 0, 21, &[], [5, 3 * SECOND, SECOND, 0]));
    }

    fn buslog_lines_are_held_at_the_largest_number() {
        let (most, log) = (u64::MAX, b"(1.000000) can0 123#\n");
        from([most - 1, 0, SECOND, 100], 9, log, (0, 0, 21, &[], [most, 0, SECOND, 100]));
        from([most, 0, SECOND, 100], 9, log, (0, 0, 21, &[], [most, 0, SECOND, 100]));
        let twice = log.repeat(2);
        from([most - 1, 0, SECOND, 100], 9, &twice, (0, 0, 42, &[], [most, 0, SECOND, 100]));
    }

    fn buslog_refused_lines_number_is_held_too() {
        let most = u64::MAX;
        from([most - 2, 0, 0, 0], 9, b"\n", (12, most - 1, 0, &[], [most - 2, 0, 0, 0]));
        from([most - 1, 0, 0, 0], 9, b"\n", (12, most, 0, &[], [most - 1, 0, 0, 0]));
        from([most, 0, 0, 0], 9, b"\n", (12, most, 0, &[], [most, 0, 0, 0]));
        let log = b"(0.010000) can0 123#\n";
        from([most, 0, 0, 0], 0, log, (11, most, 0, &[], [most, 0, 0, 0]));
    }

    fn buslog_line_11_and_answer_11_are_different_things() {
        let log = [&b"(1.000000) can0 123#\n".repeat(10)[..], b"x\n"].concat();
        gives(&log, (12, 11, 210, &[], [10, SECOND, SECOND, 0]));
    }
}

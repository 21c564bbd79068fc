//! Bus logs, request Q-12: how a line is spelt, and which frames are bus-offs.

use super::*;
use crate::buslog::{Converted, Cursor};
use crate::testing::recorded::convert;

/// Network 0 is operator 1's, 1 the platform's, 2 operator 15's.
pub fn three() -> Vec<u32> {
    table(
        &[deferred(mode(1)), deferred(mode(0)), deferred(mode(15))],
        &[network(1, 0), network(0, 1), network(15, 2)],
        &[],
        &[equal(0, 5)],
        &[rule(1, 0, NONE, NONE)],
        &[],
        &[],
    )
}

pub const NAMES: &[u8] = b"can0\ncan1\nvcan2\n";
pub const OFF_0: u32 = 0x5100_0000;
pub const OFF_1: u32 = 0x5001_0000;
pub const OFF_2: u32 = 0x5F02_0000;
pub const START: [u64; 4] = [0; 4];
pub const ROOM: usize = 100;

/// Lines, first, last, given.
pub fn cursor([lines, first, last, given]: [u64; 4]) -> Cursor {
    Cursor { lines, first, last, given }
}

/// The whole result: answer, line, bytes, events and the cursor after.
pub type Whole<'a> = (u32, u64, usize, &'a [u32], [u64; 4]);

#[track_caller]
pub fn converts(
    table: &[u32],
    names: &[u8],
    log: &[u8],
    (from, room): ([u64; 4], usize),
    (answer, line, bytes, events, after): Whole,
) {
    let converted = convert(table, names, log, cursor(from), room);
    let (events, cursor) = (events.to_vec(), cursor(after));
    assert_eq!(converted, Converted { answer, line, bytes, events, cursor });
}

/// A log from its first line on, with room.
#[track_caller]
pub fn gives(log: &[u8], whole: Whole) {
    converts(&three(), NAMES, log, (START, ROOM), whole);
}

/// A bus-off at 100 seconds; 28 bytes.
const FIRST: &[u8] = b"(100.000000) can0 20000040#\n";

/// The line, 50 milliseconds behind the first, is read, with these events behind its five ticks.
#[track_caller]
fn right(line: &[u8], events: &[u32]) {
    let all = [&[OFF_0, 0, 0, 0, 0, 0], events].concat();
    let after = [2, 100_000_000, 100_050_000, 5];
    gives(&[FIRST, line].concat(), (0, 0, 28 + line.len(), &all, after));
}

/// Behind the first line this one is misspelt, and gives nothing.
#[track_caller]
fn wrong(line: &[u8]) {
    let after = [1, 100_000_000, 100_000_000, 0];
    gives(&[FIRST, line].concat(), (12, 2, 28, &[OFF_0], after));
}

/// The line alone is read, with this list of one name, and its time is 1 microsecond.
#[track_caller]
fn named(list: &[u8], line: &[u8]) {
    let whole = (0, 0, line.len(), &[0x5100_0000][..], [1, 1, 1, 0]);
    converts(&marked::MARKED, list, line, (START, ROOM), whole);
}

fixed_cases! {
    fn buslog_empty_log_is_read() {
        gives(b"", (0, 0, 0, &[], START));
    }

    fn buslog_first_line_gives_no_tick() {
        gives(b"(100.000000) can0 123#\n", (0, 0, 23, &[], [1, 100_000_000, 100_000_000, 0]));
    }

    fn buslog_three_digits_are_a_frame_that_gives_no_event() {
        right(b"(100.050000) can0 123#\n", &[]);
    }

    fn buslog_eight_digits_are_a_frame_that_gives_no_event() {
        right(b"(100.050000) can0 12345678#\n", &[]);
    }

    fn buslog_seconds_have_one_digit() {
        gives(b"(7.000009) can0 123#\n", (0, 0, 21, &[], [1, 7_000_009, 7_000_009, 0]));
    }

    fn buslog_seconds_have_ten_digits() {
        let time = 9_876_543_210_123_456;
        gives(b"(9876543210.123456) can0 123#\n", (0, 0, 30, &[], [1, time, time, 0]));
    }

    fn buslog_largest_time_stands() {
        let time = 9_999_999_999_999_999;
        gives(b"(9999999999.999999) can0 123#\n", (0, 0, 30, &[], [1, time, time, 0]));
    }

    fn buslog_time_zero_stands() {
        gives(b"(0.000000) can0 123#\n", (0, 0, 21, &[], [1, 0, 0, 0]));
    }

    fn buslog_leading_zeros_of_seconds_stand() {
        right(b"(0000000100.050000) can0 123#\n", &[]);
        right(b"(0100.050000) can0 123#\n", &[]);
    }

    fn buslog_seconds_have_a_digit() {
        wrong(b"(.050000) can0 123#\n");
    }

    fn buslog_seconds_have_not_eleven_digits() {
        wrong(b"(10000000000.050000) can0 123#\n");
    }

    fn buslog_seconds_have_not_eleven_digits_with_leading_zeros() {
        wrong(b"(00000000100.050000) can0 123#\n");
    }

    fn buslog_seconds_are_decimal() {
        wrong(b"(10a.050000) can0 123#\n");
        wrong(b"(0x100.050000) can0 123#\n");
    }

    fn buslog_seconds_have_no_sign() {
        wrong(b"(+100.050000) can0 123#\n");
        wrong(b"(-100.050000) can0 123#\n");
    }

    fn buslog_parts_have_not_five_digits() {
        wrong(b"(100.05000) can0 123#\n");
    }

    fn buslog_parts_have_not_seven_digits() {
        wrong(b"(100.0500000) can0 123#\n");
    }

    fn buslog_parts_are_there() {
        wrong(b"(100.) can0 123#\n");
        wrong(b"(100) can0 123#\n");
    }

    fn buslog_parts_are_decimal() {
        wrong(b"(100.05000a) can0 123#\n");
        wrong(b"(100.05000 ) can0 123#\n");
    }

    fn buslog_point_is_a_point() {
        wrong(b"(100,050000) can0 123#\n");
        wrong(b"(100050000) can0 123#\n");
        wrong(b"(100..050000) can0 123#\n");
    }

    fn buslog_opening_bracket_is_there() {
        wrong(b"100.050000) can0 123#\n");
        wrong(b"[100.050000) can0 123#\n");
        wrong(b"((100.050000) can0 123#\n");
    }

    fn buslog_closing_bracket_is_there() {
        wrong(b"(100.050000 can0 123#\n");
        wrong(b"(100.050000] can0 123#\n");
        wrong(b"(100.050000)) can0 123#\n");
    }

    fn buslog_space_behind_the_time_is_there() {
        wrong(b"(100.050000)can0 123#\n");
    }

    fn buslog_space_behind_the_time_is_one() {
        wrong(b"(100.050000)  can0 123#\n");
    }

    fn buslog_space_behind_the_time_is_no_tab() {
        wrong(b"(100.050000)\tcan0 123#\n");
    }

    fn buslog_space_in_the_time_is_misspelt() {
        wrong(b"( 100.050000) can0 123#\n");
        wrong(b"(100.050000 ) can0 123#\n");
    }

    fn buslog_space_before_the_time_is_misspelt() {
        wrong(b" (100.050000) can0 123#\n");
    }

    fn buslog_name_is_there() {
        wrong(b"(100.050000)  123#\n");
        wrong(b"(100.050000) 123#\n");
    }

    fn buslog_name_has_one_byte() {
        named(b"x\n", b"(0.000001) x 20000040#\n");
    }

    fn buslog_name_has_fifteen_bytes() {
        named(b"abcdefghijklmno\n", b"(0.000001) abcdefghijklmno 20000040#\n");
    }

    fn buslog_name_of_sixteen_bytes_is_misspelt_and_not_unlisted() {
        wrong(b"(100.050000) abcdefghijklmnop 123#\n");
    }

    fn buslog_name_may_have_a_carriage_return() {
        named(b"can0\r\n", b"(0.000001) can0\r 20000040#\n");
    }

    fn buslog_name_may_have_a_hash() {
        named(b"1#2\n", b"(0.000001) 1#2 20000040#\n");
    }

    fn buslog_name_may_have_a_tab_and_a_byte_0() {
        named(b"\t\0\n", b"(0.000001) \t\0 20000040#\n");
    }

    fn buslog_name_may_have_high_bytes() {
        named(b"\xFF\x80\xC3\n", b"(0.000001) \xFF\x80\xC3 20000040#\n");
    }

    fn buslog_name_may_look_like_another_field() {
        named(b"(0.000001)\n", b"(0.000001) (0.000001) 20000040#\n");
        named(b"20000040#\n", b"(0.000001) 20000040# 20000040#\n");
    }

    fn buslog_name_has_no_newline() {
        let log = b"(0.000001) ca\nn0 20000040#\n";
        gives(log, (12, 1, 0, &[], START));
    }

    fn buslog_space_behind_the_name_is_there() {
        wrong(b"(100.050000) can0123#\n");
        wrong(b"(100.050000) can0\n");
    }

    fn buslog_space_behind_the_name_is_one() {
        wrong(b"(100.050000) can0  123#\n");
    }

    fn buslog_space_behind_the_name_is_no_tab() {
        wrong(b"(100.050000) can0\t123#\n");
    }

    fn buslog_identifier_is_there() {
        wrong(b"(100.050000) can0 #\n");
        wrong(b"(100.050000) can0 \n");
    }

    fn buslog_identifier_has_not_one_or_two_digits() {
        wrong(b"(100.050000) can0 1#\n");
        wrong(b"(100.050000) can0 12#\n");
    }

    fn buslog_identifier_has_not_four_digits() {
        wrong(b"(100.050000) can0 1234#\n");
    }

    fn buslog_identifier_has_not_five_or_six_digits() {
        wrong(b"(100.050000) can0 12345#\n");
        wrong(b"(100.050000) can0 123456#\n");
    }

    fn buslog_identifier_has_not_seven_digits() {
        wrong(b"(100.050000) can0 1234567#\n");
    }

    fn buslog_identifier_has_not_nine_digits() {
        wrong(b"(100.050000) can0 020000040#\n");
    }

    fn buslog_identifier_is_hex() {
        wrong(b"(100.050000) can0 12G#\n");
        wrong(b"(100.050000) can0 g0000040#\n");
        wrong(b"(100.050000) can0 0x123456#\n");
        wrong(b"(100.050000) can0 12 #\n");
    }

    fn buslog_identifier_in_small_letters_stands() {
        right(b"(100.050000) can0 abc#\n", &[]);
        right(b"(100.050000) can0 def#\n", &[]);
        right(b"(100.050000) can0 a0000040#\n", &[OFF_0]);
    }

    fn buslog_identifier_in_capitals_stands() {
        right(b"(100.050000) can0 ABC#\n", &[]);
        right(b"(100.050000) can0 DEF#\n", &[]);
        right(b"(100.050000) can0 A0000040#\n", &[OFF_0]);
    }

    fn buslog_identifier_in_both_cases_stands() {
        right(b"(100.050000) can0 aBc#\n", &[]);
        right(b"(100.050000) can0 eFfFfFfF#\n", &[OFF_0]);
    }

    fn buslog_hash_is_there() {
        wrong(b"(100.050000) can0 123\n");
        wrong(b"(100.050000) can0 123 \n");
    }

    fn buslog_hash_is_no_other_byte() {
        wrong(b"(100.050000) can0 123:11\n");
        wrong(b"(100.050000) can0 123 #11\n");
        wrong(b"(100.050000) can0 123# 11\n");
    }

    fn buslog_hash_is_one() {
        wrong(b"(100.050000) can0 123##\n");
        wrong(b"(100.050000) can0 123##11\n");
        wrong(b"(100.050000) can0 123#11#\n");
    }

    fn buslog_data_of_one_pair_stands() {
        right(b"(100.050000) can0 123#00\n", &[]);
    }

    fn buslog_data_of_seven_pairs_stands() {
        right(b"(100.050000) can0 123#00112233445566\n", &[]);
    }

    fn buslog_data_of_eight_pairs_stands() {
        right(b"(100.050000) can0 123#0011223344556677\n", &[]);
    }

    fn buslog_data_of_nine_pairs_is_misspelt() {
        wrong(b"(100.050000) can0 123#001122334455667788\n");
    }

    fn buslog_data_of_one_digit_is_misspelt() {
        wrong(b"(100.050000) can0 123#1\n");
    }

    fn buslog_data_of_an_odd_number_of_digits_is_misspelt() {
        wrong(b"(100.050000) can0 123#112\n");
        wrong(b"(100.050000) can0 123#001122334455667\n");
        wrong(b"(100.050000) can0 123#00112233445566778\n");
    }

    fn buslog_data_in_both_cases_stands() {
        right(b"(100.050000) can0 123#abcdefABCDEFaBcD\n", &[]);
    }

    fn buslog_data_is_hex() {
        wrong(b"(100.050000) can0 123#0G\n");
        wrong(b"(100.050000) can0 123#g0\n");
        wrong(b"(100.050000) can0 123#:0\n");
        wrong(b"(100.050000) can0 123#0/\n");
        wrong(b"(100.050000) can0 123#@`\n");
    }

    fn buslog_data_has_nothing_between_its_pairs() {
        wrong(b"(100.050000) can0 123#00 11\n");
        wrong(b"(100.050000) can0 123#00.11\n");
    }

    fn buslog_longest_line_has_sixty_two_bytes() {
        let line = b"(9999999999.999999) abcdefghijklmno 20000040#0011223344556677\n";
        let time = 9_999_999_999_999_999;
        let whole = (0, 0, 62, &[0x5100_0000][..], [1, time, time, 0]);
        converts(&marked::MARKED, b"abcdefghijklmno\n", line, (START, ROOM), whole);
    }

    fn buslog_shortest_line_has_eighteen_bytes() {
        let whole = (0, 0, 18, &[][..], [1, 1, 1, 0]);
        converts(&marked::MARKED, b"x\n", b"(0.000001) x 123#\n", (START, ROOM), whole);
    }

    fn buslog_carriage_return_at_the_end_is_misspelt() {
        wrong(b"(100.050000) can0 123#\r\n");
        wrong(b"(100.050000) can0 123#11\r\n");
        wrong(b"\r\n");
    }

    fn buslog_space_at_the_end_is_misspelt() {
        wrong(b"(100.050000) can0 123#11 \n");
        wrong(b"(100.050000) can0 123# \n");
    }

    fn buslog_empty_line_is_misspelt() {
        wrong(b"\n");
        gives(b"\n", (12, 1, 0, &[], START));
    }

    fn buslog_empty_line_at_the_end_is_misspelt() {
        let log = [FIRST, b"(100.050000) can0 123#\n", b"\n"].concat();
        let events = [OFF_0, 0, 0, 0, 0, 0];
        gives(&log, (12, 3, 51, &events, [2, 100_000_000, 100_050_000, 5]));
    }

    fn buslog_last_line_without_its_newline_is_misspelt() {
        wrong(b"(100.050000) can0 123#");
        wrong(b"(100.050000) can0 123#1122");
        wrong(b"(100.050000) can0 20000040#");
        gives(b"(100.050000) can0 123#", (12, 1, 0, &[], START));
    }

    fn buslog_single_byte_is_misspelt() {
        for byte in 0..=255 {
            if byte != b'\n' {
                gives(&[byte], (12, 1, 0, &[], START));
                gives(&[byte, b'\n'], (12, 1, 0, &[], START));
            }
        }
    }

    fn buslog_byte_0_is_misspelt() {
        wrong(b"(100.050000) can0 123#\0\n");
        wrong(b"(100.050000) can0 123\0#\n");
        wrong(b"\0(100.050000) can0 123#\n");
    }

    fn buslog_byte_order_mark_and_comments_are_misspelt() {
        wrong(b"\xEF\xBB\xBF(100.050000) can0 123#\n");
        wrong(b"# (100.050000) can0 123#\n");
        wrong(b"(100.050000) can0 123# # first\n");
    }

    fn buslog_can_fd_frame_is_misspelt() {
        wrong(b"(100.050000) can0 123##1AABB\n");
        wrong(b"(100.050000) can0 12345678##0\n");
    }

    fn buslog_remote_frame_is_misspelt() {
        wrong(b"(100.050000) can0 123#R\n");
        wrong(b"(100.050000) can0 123#R8\n");
        wrong(b"(100.050000) can0 12345678#R0\n");
    }

    fn buslog_direction_flag_is_misspelt() {
        wrong(b"(100.050000) can0 123#AABB R\n");
        wrong(b"(100.050000) can0 123#AABB T\n");
        wrong(b"(100.050000) can0 123# R\n");
    }

    fn buslog_length_code_behind_the_data_is_misspelt() {
        wrong(b"(100.050000) can0 123#0011223344556677_B\n");
    }

    fn buslog_can_xl_frame_is_misspelt() {
        wrong(b"(100.050000) can0 45123#81:00:12345678#112233\n");
    }

    fn buslog_lines_of_candump_without_its_log_option_are_misspelt() {
        wrong(b"  can0  123   [2]  11 22\n");
        wrong(b" (100.050000)  can0  123   [2]  11 22\n");
    }

    fn buslog_both_bits_are_a_bus_off() {
        right(b"(100.050000) can0 20000040#\n", &[OFF_0]);
    }

    fn buslog_bus_off_with_data_as_the_tools_write_it() {
        right(b"(100.050000) can0 20000040#0000000000000000\n", &[OFF_0]);
        right(b"(100.050000) can0 20000044#0000000000000000\n", &[OFF_0]);
    }

    fn buslog_error_bit_alone_is_no_bus_off() {
        right(b"(100.050000) can0 20000000#\n", &[]);
    }

    fn buslog_error_frames_with_other_bits_are_no_bus_off() {
        for line in [
            &b"(100.050000) can0 20000004#0004000000000000\n"[..],
            b"(100.050000) can0 20000080#0000000000000000\n",
            b"(100.050000) can0 20000100#0000000000000000\n",
            b"(100.050000) can0 20000020#4040404040404040\n",
            b"(100.050000) can0 20000400#\n",
        ] {
            right(line, &[]);
        }
    }

    fn buslog_all_bits_but_the_bus_off_bit_are_none() {
        right(b"(100.050000) can0 FFFFFFBF#\n", &[]);
        right(b"(100.050000) can0 200000b0#\n", &[]);
    }

    fn buslog_bus_off_bit_alone_is_none() {
        right(b"(100.050000) can0 00000040#\n", &[]);
    }

    fn buslog_all_bits_but_the_error_bit_are_none() {
        right(b"(100.050000) can0 DFFFFFFF#\n", &[]);
        right(b"(100.050000) can0 90000040#\n", &[]);
    }

    fn buslog_other_bits_are_free() {
        for line in [
            &b"(100.050000) can0 FFFFFFFF#\n"[..],
            b"(100.050000) can0 A0000040#\n",
            b"(100.050000) can0 60000040#\n",
            b"(100.050000) can0 30000040#\n",
            b"(100.050000) can0 200000c0#\n",
            b"(100.050000) can0 2000007F#11\n",
            b"(100.050000) can0 20001040#\n",
        ] {
            right(line, &[OFF_0]);
        }
    }

    fn buslog_three_digits_are_never_a_bus_off() {
        right(b"(100.050000) can0 040#\n", &[]);
        right(b"(100.050000) can0 240#\n", &[]);
        right(b"(100.050000) can0 FFF#\n", &[]);
        right(b"(100.050000) can0 040#2000004020000040\n", &[]);
    }

    fn buslog_bus_off_is_its_interfaces_networks_under_its_owner() {
        right(b"(100.050000) can1 20000040#\n", &[OFF_1]);
        right(b"(100.050000) vcan2 20000040#\n", &[OFF_2]);
    }
}

//! Bus logs, request Q-12: the list of interfaces, and tables that are refused.

use super::buslog::*;
use super::marked::MARKED;
use super::*;

/// A bus-off of can0, and what it gives.
const LOG: &[u8] = b"(0.000001) can0 20000040#\n";
const DONE: Whole = (0, 0, 26, &[OFF_0], [1, 1, 1, 0]);

/// The same, a bus-off of another network.
fn off(word: &u32) -> Whole<'_> {
    (0, 0, 26, std::slice::from_ref(word), [1, 1, 1, 0])
}

/// A list or a table that is refused gives nothing, and the cursor back.
const ODD: [u64; 4] = [3, 9, 4, 7];
const NO_LIST: Whole = (13, 0, 0, &[], ODD);
const NO_TABLE: Whole = (1, 0, 0, &[], ODD);

/// A list for three networks that is refused.
#[track_caller]
fn no_list(list: &[u8]) {
    converts(&three(), list, LOG, (ODD, ROOM), NO_LIST);
    converts(&three(), list, b"", (ODD, 0), NO_LIST);
}

#[track_caller]
fn no_table(table: &[u32], reason: u32) {
    assert_eq!(check(table).reason, reason);
    converts(table, NAMES, LOG, (ODD, ROOM), NO_TABLE);
    converts(table, b"", b"", (ODD, 0), NO_TABLE);
}

/// Without networks.
fn none() -> Vec<u32> {
    plain(&[mode(1)], &[equal(0, 5)], &[rule(1, 0, NONE, NONE)], &[], &[])
}

/// Eight networks, of operators 8 down to 1.
fn eight() -> Vec<u32> {
    let ports: Vec<u32> = (0..8).map(|number| deferred(mode(8 - number))).collect();
    let networks: Vec<[u32; 2]> = (0..8).map(|number| network(8 - number, number)).collect();
    table(&ports, &networks, &[], &[equal(0, 5)], &[rule(8, 0, NONE, NONE)], &[], &[])
}

fixed_cases! {
    fn buslog_list_of_three_names_stands() {
        gives(LOG, DONE);
    }

    fn buslog_list_of_one_name_stands() {
        converts(&MARKED, b"can0\n", LOG, (START, ROOM), DONE);
    }

    fn buslog_list_names_the_networks_in_order() {
        let list = b"vcan2\ncan1\ncan0\n";
        converts(&three(), list, LOG, (START, ROOM), off(&OFF_2));
        let list = b"vcan2\ncan0\ncan1\n";
        converts(&three(), list, LOG, (START, ROOM), off(&OFF_1));
    }

    fn buslog_list_of_eight_names_stands() {
        let list = b"a\nb\nc\nd\ne\nf\ng\nh\n";
        let log: Vec<u8> =
            (b'a'..=b'h').flat_map(|name| [b"(0.000001) ", &[name][..], b" 20000040#\n"].concat())
                .collect();
        let events = [
            0x5800_0000, 0x5701_0000, 0x5602_0000, 0x5503_0000, 0x5404_0000, 0x5305_0000,
            0x5206_0000, 0x5107_0000,
        ];
        converts(&eight(), list, &log, (START, ROOM), (0, 0, 184, &events, [8, 1, 1, 0]));
    }

    fn buslog_list_of_two_names_for_three_networks_is_refused() {
        no_list(b"can0\ncan1\n");
    }

    fn buslog_list_of_four_names_for_three_networks_is_refused() {
        no_list(b"can0\ncan1\nvcan2\ncan3\n");
    }

    fn buslog_list_that_is_empty_is_refused() {
        no_list(b"");
        converts(&MARKED, b"", LOG, (ODD, ROOM), NO_LIST);
    }

    fn buslog_list_with_equal_names_is_refused() {
        no_list(b"can0\ncan0\nvcan2\n");
        no_list(b"can0\ncan1\ncan0\n");
        no_list(b"can0\ncan1\ncan1\n");
    }

    fn buslog_list_with_an_empty_name_is_refused() {
        no_list(b"\ncan1\nvcan2\n");
        no_list(b"can0\n\nvcan2\n");
        no_list(b"can0\ncan1\n\n");
        converts(&MARKED, b"\n", LOG, (ODD, ROOM), NO_LIST);
    }

    fn buslog_list_with_an_empty_line_more_is_refused() {
        no_list(b"can0\ncan1\nvcan2\n\n");
        no_list(b"\ncan0\ncan1\nvcan2\n");
        no_list(b"can0\n\ncan1\nvcan2\n");
    }

    fn buslog_list_with_a_name_of_fifteen_bytes_stands() {
        converts(&three(), b"can0\ncan1\nabcdefghijklmno\n", LOG, (START, ROOM), DONE);
    }

    fn buslog_list_with_a_name_of_sixteen_bytes_is_refused() {
        no_list(b"abcdefghijklmnop\ncan1\nvcan2\n");
        no_list(b"can0\ncan1\nabcdefghijklmnop\n");
    }

    fn buslog_list_without_its_last_newline_is_refused() {
        no_list(b"can0\ncan1\nvcan2");
        converts(&MARKED, b"can0", LOG, (ODD, ROOM), NO_LIST);
    }

    fn buslog_list_with_bytes_behind_is_refused() {
        no_list(b"can0\ncan1\nvcan2\nx");
        no_list(b"can0\ncan1\nvcan2\n ");
        no_list(b"can0\ncan1\nvcan2\n\0");
    }

    fn buslog_list_with_a_space_is_refused() {
        no_list(b"can 0\ncan1\nvcan2\n");
        no_list(b"can0 \ncan1\nvcan2\n");
        no_list(b"can0\ncan1\n vcan2\n");
        no_list(b"can0 can1 vcan2\n");
        no_list(b" \ncan1\nvcan2\n");
    }

    fn buslog_list_of_odd_bytes_stands() {
        let log = b"(0.000001) \r 20000040#\n";
        let whole = (0, 0, 23, &[OFF_2][..], [1, 1, 1, 0]);
        converts(&three(), b"\0\n#\t\xFF\n\r\n", log, (START, ROOM), whole);
    }

    fn buslog_list_with_carriage_returns_has_them_in_its_names() {
        let list = b"can0\r\ncan1\r\nvcan2\r\n";
        converts(&three(), list, LOG, (START, ROOM), (15, 1, 0, &[], START));
    }

    fn buslog_list_names_that_differ_by_case_or_length_are_different() {
        converts(&three(), b"CAN0\ncan0\nCan0\n", LOG, (START, ROOM), off(&OFF_1));
        converts(&three(), b"can\ncan00\ncan0\n", LOG, (START, ROOM), off(&OFF_2));
    }

    fn buslog_list_that_is_refused_comes_before_any_line() {
        converts(&three(), b"can0\n", b"\n", (START, 0), (13, 0, 0, &[], START));
        converts(&three(), b"can0\n", LOG, (START, 0), (13, 0, 0, &[], START));
    }

    fn buslog_table_without_networks_takes_an_empty_list() {
        converts(&none(), b"", b"", (START, ROOM), (0, 0, 0, &[], START));
    }

    fn buslog_table_without_networks_takes_no_name() {
        converts(&none(), b"can0\n", b"", (ODD, ROOM), NO_LIST);
        converts(&none(), b"\n", b"", (ODD, ROOM), NO_LIST);
        converts(&none(), b"x", LOG, (ODD, ROOM), NO_LIST);
    }

    fn buslog_table_without_networks_lists_no_interface() {
        converts(&none(), b"", LOG, (START, ROOM), (15, 1, 0, &[], START));
        converts(&none(), b"", b"\n", (START, ROOM), (12, 1, 0, &[], START));
        converts(&none(), b"", LOG, (ODD, ROOM), (14, 4, 0, &[], ODD));
    }

    fn buslog_table_of_edition_2_stands() {
        let two = with(&three(), 0, 0x0203_0300);
        converts(&two, NAMES, LOG, (START, ROOM), DONE);
    }

    fn buslog_table_that_is_cut_is_refused() {
        no_table(&[], 1);
        no_table(&three()[..2], 1);
        no_table(&three()[..13], 4);
    }

    fn buslog_table_with_a_wrong_header_is_refused() {
        no_table(&with(&three(), 0, 0x0303_0300), 2);
        no_table(&with(&three(), 0, 0x0103_0900), 3);
    }

    fn buslog_table_with_a_bad_word_is_refused() {
        no_table(&with(&three(), 7, 0x0300_0005), 5);
        no_table(&with(&three(), 8, 0x0000_2000), 6);
        no_table(&with(&three(), 8, 0x1010_2000), 8);
    }

    fn buslog_table_with_a_list_that_nothing_starts_is_refused() {
        let ports = [deferred(mode(1))];
        let (networks, rules) = ([network(1, 0)], [rule(1, 0, NONE, NONE)]);
        let unreached =
            table(&ports, &networks, &[], &[equal(0, 5)], &rules, &[list(1, 0, 1)], &[call(1)]);
        no_table(&unreached, 10);
    }

    fn buslog_table_is_told_before_the_list_and_the_lines() {
        converts(&[], b"can0", b"\n", (START, 0), (1, 0, 0, &[], START));
        converts(&with(&three(), 7, 0), b"can0\ncan0\n", LOG, (ODD, 0), NO_TABLE);
    }

    fn buslog_words_that_are_no_bus_off_can_be_of_any_network() {
        let log = b"(0.000001) vcan2 123#\n(0.000001) can1 00000001#\n(0.000001) can0 7FF#00\n";
        gives(log, (0, 0, 71, &[], [3, 1, 1, 0]));
    }
}

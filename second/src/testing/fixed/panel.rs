//! Request Q-13, the lines: "it prints that operator's ports, networks, sources and trace words in
//! table order, one per line, the newest step's words last."

use super::editions::{abort, edition_2};
use super::marked::MARKED;
use super::*;
use crate::testing::recorded::panel;

/// Operators 1 and 2 and the platform, each with ports, networks, sources and a rule. The sections
/// are numbered apart: network 0 is operator 2's, and so is port 2, which it has.
pub fn works() -> Vec<u32> {
    let ports = [
        mode(0),
        deferred(mode(1)),
        deferred(mode(2)),
        deferred(mode(1)),
        event(1),
        timer(2, 9),
        mode(1),
        deferred(mode(0)),
        deferred(mode(2)),
        deferred(mode(0)),
        deferred(mode(1)),
    ];
    let networks = [network(2, 2), network(1, 1), network(0, 7)];
    let sources = [source(1, 3, 9), source(2, 8, 0), source(0, 9, 4), source(1, 10, 1)];
    let rules = [rule(1, 0, NONE, NONE), rule(2, 1, NONE, NONE), rule(0, 1, NONE, NONE)];
    table(&ports, &networks, &sources, &[equal(6, 5), equal(0, 5)], &rules, &[], &[])
}

/// A state of it that fits, no two of an operator's words the same.
#[rustfmt::skip]
pub const WORKS_STATE: [u32; 21] = [
    // Ports 0 to 10.
    0x80C0_0000, 0xC080_0000, 0x8040_0000, 0x8080_0000, 0xC040_0000, 0x8040_0007,
    0x0000_0000, 0x8000_0000, 0xC0C0_0000, 0x80C0_0000, 0xBFC0_0000,
    // Rules, networks, sources.
    0x4000_0000, 0x8000_0000, 0x0000_0000,
    0xA008_0003, 0x9004_0005, 0x4800_0000,
    0x4000_0008, 0x8000_0000, 0xC000_0000, 0x4000_0001,
];

pub const WORKS_1: [&str; 8] = [
    "port 1 C0800000",
    "port 3 80800000",
    "port 4 C0400000",
    "port 6 00000000",
    "port 10 BFC00000",
    "network 1 90040005",
    "source 0 40000008",
    "source 3 40000001",
];

const WORKS_2: [&str; 5] = [
    "port 2 80400000",
    "port 5 80400007",
    "port 8 C0C00000",
    "network 0 A0080003",
    "source 1 80000000",
];

/// Operator 1's port, and rules of all three, without networks and sources.
fn one_port() -> Vec<u32> {
    let rules = [rule(1, 0, NONE, NONE), rule(2, 1, NONE, NONE), rule(0, 1, NONE, NONE)];
    plain(&[mode(0), mode(1)], &[equal(1, 5), equal(0, 5)], &rules, &[], &[])
}

const ONE_PORT: [u32; 5] = [0x8040_0000, 0x8080_0000, 0x4000_0000, 0x8000_0000, 0];

pub fn joined(lines: &[&str]) -> String {
    lines.iter().map(|line| format!("{line}\n")).collect()
}

/// The lines are laid at the front of a larger room, and its other bytes are unchanged.
#[track_caller]
pub fn shows(operator: u32, table: &[u32], state: &[u32], words: &[u32], lines: &[&str]) {
    let lines = joined(lines);
    let mut room = vec![0xA5; lines.len() + 7];
    let laid = panel(operator, table, state, words, &mut room);
    assert_eq!((laid.answer, laid.bytes), (0, lines.len()));
    assert_eq!(String::from_utf8_lossy(&room[..lines.len()]), lines);
    assert_eq!(room[lines.len()..], [0xA5; 7]);
}

fixed_cases! {
    fn panel_of_the_marked_runs_first_event_has_six_lines() {
        let mut play = Play::fresh(&MARKED);
        let words = play.take(0x1100_0500);
        let six = [
            "port 0 81400000",
            "port 1 00000000",
            "network 0 80000000",
            "trace F1000000",
            "trace 41000002",
            "trace 01001234",
        ];
        shows(1, &MARKED, &play.state, &words, &six);
        shows(1, &edition_2(&MARKED), &play.state, &words, &six);
        let aborting = with(&edition_2(&MARKED), 11, abort(0x1234));
        shows(1, &aborting, &play.state, &words, &six);
    }

    fn panel_of_the_marked_run_goes_on() {
        let mut play = Play::fresh(&MARKED);
        let fresh = ["port 0 00000000", "port 1 00000000", "network 0 00000000"];
        shows(1, &MARKED, &play.state, &[], &fresh);
        play.take(0x1100_0500);
        let words = play.take(TICK);
        let tick = ["port 0 81400000", "port 1 80800000", "network 0 90000005"];
        shows(1, &MARKED, &play.state, &words, &tick);
        let words = play.take(0x5100_0000);
        let bus_off = ["port 0 81400000", "port 1 C0C00000", "network 0 A0080003"];
        shows(1, &MARKED, &play.state, &words, &bus_off);
    }

    fn panel_shows_ports_then_networks_then_sources_each_by_number() {
        shows(1, &works(), &WORKS_STATE, &[], &WORKS_1);
        shows(2, &works(), &WORKS_STATE, &[], &WORKS_2);
        shows(1, &edition_2(&works()), &WORKS_STATE, &[], &WORKS_1);
    }

    fn panel_has_the_traces_words_last() {
        let words = [0xF200_0000, 0x0200_0001, 0xF100_0000, 0x0100_0001];
        let own = [&WORKS_1[..], &["trace F1000000", "trace 01000001"]].concat();
        shows(1, &works(), &WORKS_STATE, &words, &own);
        let own = [&WORKS_2[..], &["trace F2000000", "trace 02000001"]].concat();
        shows(2, &works(), &WORKS_STATE, &words, &own);
    }

    /// Ports 0, 7 and 9, network 2 and source 2 are the platform's: nobody's panel has them.
    fn panel_leaves_out_what_the_platform_owns() {
        for operator in 1..=15 {
            let mut room = [0; 200];
            let laid = panel(operator, &works(), &WORKS_STATE, &[], &mut room);
            let lines = String::from_utf8_lossy(&room[..laid.bytes]).into_owned();
            for thing in ["port 0 ", "port 7 ", "port 9 ", "network 2 ", "source 2 "] {
                assert!(!lines.contains(thing), "{operator} sees {thing}");
            }
        }
        shows(1, &one_port(), &ONE_PORT, &[], &["port 1 80800000"]);
    }

    fn panel_leaves_out_owner_0_trace_words() {
        let words = [0xF000_0000, 0x4000_0002, 0xF101_0000, 0x0000_1234, 0x6000_0001];
        shows(1, &one_port(), &ONE_PORT, &words, &["port 1 80800000", "trace F1010000"]);
        shows(2, &one_port(), &ONE_PORT, &words, &[]);
    }

    fn panel_leaves_out_strangers_trace_words() {
        let words = [0xF200_0000, 0xF100_0000, 0x0200_0007, 0x0F00_0007, 0x0100_0007];
        let own = ["port 1 80800000", "trace F1000000", "trace 01000007"];
        shows(1, &one_port(), &ONE_PORT, &words, &own);
        shows(2, &one_port(), &ONE_PORT, &words, &["trace F2000000", "trace 02000007"]);
        shows(15, &one_port(), &ONE_PORT, &words, &["trace 0F000007"]);
    }

    /// Operators 1 and 2 have a rule each, whose words stand between ports and networks.
    fn panel_leaves_out_rule_words() {
        shows(1, &one_port(), &ONE_PORT, &[], &["port 1 80800000"]);
        shows(2, &one_port(), &ONE_PORT, &[], &[]);
        // The trace's words of rule items are trace words all the same.
        let words = [0x6100_0001, 0x6100_0102];
        let own = ["port 1 80800000", "trace 61000001", "trace 61000102"];
        shows(1, &one_port(), &ONE_PORT, &words, &own);
    }

    /// Network 0 stands in state word 4, behind three ports and a rule; source 0 in word 5.
    fn panel_numbers_a_thing_within_its_section_and_not_in_the_state() {
        let table = table(
            &[deferred(mode(1)), deferred(mode(1)), mode(2)],
            &[network(1, 1)],
            &[source(1, 0, 3)],
            &[equal(2, 5)],
            &[rule(2, 0, NONE, NONE)],
            &[],
            &[],
        );
        let state = [0x8040_0000, 0x8080_0000, 0, 0x8000_0000, 0x9800_0000, 0x4000_0002];
        let own = ["port 0 80400000", "port 1 80800000", "network 0 98000000", "source 0 40000002"];
        shows(1, &table, &state, &[], &own);
    }

    /// Strangers before it are counted, though they are not shown.
    fn panel_numbers_a_thing_in_the_table_and_not_among_the_operators() {
        let ports = [deferred(mode(2)), deferred(mode(2)), deferred(mode(1)), deferred(mode(1))];
        let table = table(
            &ports,
            &[network(2, 0), network(1, 3)],
            &[source(2, 1, 3), source(1, 2, 3)],
            &[equal(0, 5)],
            &[rule(2, 0, NONE, NONE)],
            &[],
            &[],
        );
        let own = ["port 2 00000000", "port 3 00000000", "network 1 00000000", "source 1 00000000"];
        shows(1, &table, &[0; 9], &[], &own);
    }

    /// Network 0 is operator 2's though port 0 is operator 1's; and so with source 0.
    fn panel_takes_networks_and_sources_by_their_own_owner_not_by_the_port_of_their_number() {
        let table = table(
            &[mode(1), deferred(mode(2)), deferred(mode(2))],
            &[network(2, 2)],
            &[source(2, 1, 3)],
            &[equal(0, 5)],
            &[rule(1, 0, NONE, NONE)],
            &[],
            &[],
        );
        let state = [0x8040_0000, 0, 0, 0x4000_0000, 0x8000_0000, 0x8000_0000];
        shows(1, &table, &state, &[], &["port 0 80400000"]);
        let own = ["port 1 00000000", "port 2 00000000", "network 0 80000000", "source 0 80000000"];
        shows(2, &table, &state, &[], &own);
    }

    /// All of the largest table's ports, networks and sources; operator 14 has every third port.
    fn panel_numbers_of_two_digits_are_decimal_and_in_the_order_of_the_table() {
        let owner = |number: u32| if number.is_multiple_of(3) { 14 } else { 15 };
        let ports: Vec<u32> = (0..64).map(|number| deferred(mode(owner(number)))).collect();
        let networks: Vec<[u32; 2]> = (0..8).map(|number| network(owner(number), number)).collect();
        let sources: Vec<u32> =
            (0..32).map(|number| source(owner(63 - number), 63 - number, 1)).collect();
        let rules = [rule(14, 0, NONE, NONE); 2];
        let table = table(&ports, &networks, &sources, &[equal(0, 5)], &rules, &[], &[]);
        let numbers = |name: &str, own: &[u32]| {
            let lines = own.iter().map(|number| format!("{name} {number} 00000000"));
            lines.collect::<Vec<String>>()
        };
        let own = [
            numbers("port", &(0..64).step_by(3).collect::<Vec<u32>>()),
            numbers("network", &[0, 3, 6]),
            numbers("source", &[0, 3, 6, 9, 12, 15, 18, 21, 24, 27, 30]),
        ];
        let own = own.concat();
        let own: Vec<&str> = own.iter().map(String::as_str).collect();
        shows(14, &table, &[0; 106], &[], &own);
        let all = (0..64).filter(|number| number % 3 != 0).collect::<Vec<u32>>();
        let all = [
            numbers("port", &all),
            numbers("network", &[1, 2, 4, 5, 7]),
            numbers("source", &(0..32).filter(|number| number % 3 != 0).collect::<Vec<u32>>()),
        ];
        let all = all.concat();
        shows(15, &table, &[0; 106], &[], &all.iter().map(String::as_str).collect::<Vec<&str>>());
    }

    fn panel_words_have_eight_capital_hex_digits() {
        let table = plain(&[mode(10)], &[equal(0, 5)], &[rule(10, 0, NONE, NONE)], &[], &[]);
        let words = [0xFA00_0000, 0x0A00_ABCD, 0x0A00_000E];
        let own = ["port 0 AAC00000", "trace FA000000", "trace 0A00ABCD", "trace 0A00000E"];
        shows(10, &table, &[0xAAC0_0000, 0], &words, &own);
    }

    /// No table writes these: kinds 5 and 7 to 14, lists and networks that are not there, fields
    /// that would be 0.
    fn panel_shows_trace_words_of_every_kind_for_nothing_checks_them() {
        let words: Vec<u32> = (0..16).map(|kind| (kind << 28) | 0x01FF_FFFF).collect();
        let lines: Vec<String> = words.iter().map(|word| format!("trace {word:08X}")).collect();
        let own: Vec<&str> = ["port 1 80800000"].into_iter().chain(lines.iter().map(String::as_str)).collect();
        shows(1, &one_port(), &ONE_PORT, &words, &own);
        assert_eq!([own[1], own[6], own[16]], ["trace 01FFFFFF", "trace 51FFFFFF", "trace F1FFFFFF"]);
        shows(15, &one_port(), &ONE_PORT, &[0xFFFF_FFFF, 0], &["trace FFFFFFFF"]);
    }

    fn panel_reads_a_trace_words_owner_in_its_second_hex_digit_alone() {
        // Kind 1; a's digits; b's digits; owners 9 and 5, which have bits of 1.
        let words = [0x1000_0000, 0x0010_0000, 0x0001_0000, 0x0000_0001, 0x0900_0000, 0x0500_0000];
        shows(1, &one_port(), &ONE_PORT, &words, &["port 1 80800000"]);
        shows(9, &one_port(), &ONE_PORT, &words, &["trace 09000000"]);
    }

    /// B is 0: the words are not the table's own, and there are more of them than any step writes.
    fn panel_shows_trace_words_of_any_number() {
        let lines = vec!["trace 01000000"; 5000];
        shows(1, &one_port(), &ONE_PORT, &[0x0100_0000; 5000], &[&["port 1 80800000"][..], &lines].concat());
    }

    fn panel_keeps_the_traces_order_and_words_that_come_again() {
        let words = [0xF102_0000, 0x0100_0009, 0xF101_0000, 0x0100_0009, 0x0100_0003, 0xF102_0000];
        let own = [
            "port 1 80800000",
            "trace F1020000",
            "trace 01000009",
            "trace F1010000",
            "trace 01000009",
            "trace 01000003",
            "trace F1020000",
        ];
        shows(1, &one_port(), &ONE_PORT, &words, &own);
    }

    fn panel_of_an_operator_who_owns_nothing_is_empty() {
        for operator in 3..=15 {
            shows(operator, &works(), &WORKS_STATE, &[0xF100_0000, 0xF200_0000, 0xF000_0000], &[]);
        }
    }

    fn panel_of_an_operator_who_owns_lists_alone_has_trace_words_alone() {
        let lists = [list(7, 0, 1)];
        let table = plain(&[mode(0)], &[equal(0, 5)], &[rule(7, 0, 0, NONE)], &lists, &[call(9)]);
        let mut play = Play::fresh(&table);
        let words = play.take(request(0, 0, 5));
        shows(7, &table, &play.state, &words, &["trace F7000000", "trace 07000009"]);
        shows(1, &table, &play.state, &words, &[]);
    }

    /// An operator's words of a step stand between the platform's and strangers'.
    fn panel_parts_a_steps_words_by_the_owners_of_the_lists() {
        let rules = [rule(0, 0, 0, NONE), rule(1, 0, 1, NONE), rule(2, 0, 2, NONE), rule(1, 0, 3, NONE)];
        let lists = [list(0, 0, 1), list(1, 0, 1), list(2, 0, 1), list(1, 1, 1)];
        let table = plain(&[mode(0)], &[equal(0, 5)], &rules, &lists, &[call(9), call(10)]);
        let mut play = Play::fresh(&table);
        let words = play.take(request(0, 0, 5));
        assert_eq!(words.len(), 8);
        let own = ["trace F1010000", "trace 01000009", "trace F1030000", "trace 0100000A"];
        shows(1, &table, &play.state, &words, &own);
        shows(2, &table, &play.state, &words, &["trace F2020000", "trace 02000009"]);
    }

    /// Q-13's last sentence. Only the counts, the numbers of operator 1's things and its words are
    /// those of `works`: even its own things are of other kinds, with other ports and waits.
    fn panel_of_another_table_that_gives_the_operator_the_same_numbered_things_is_the_same() {
        let ports = [
            timer(3, 4),
            deferred(mode(1)),
            deferred(mode(0)),
            timer(1, 4),
            deferred(mode(1)),
            deferred(mode(9)),
            deferred(mode(1)),
            event(4),
            deferred(mode(2)),
            deferred(mode(5)),
            initial(1, 77),
        ];
        let networks = [network(0, 2), [network(1, 6)[0], 0x0101_0009], network(9, 5)];
        let sources = [source(1, 4, 65535), source(2, 8, 7), source(5, 9, 0), source(1, 1, 2)];
        let rules = [rule(3, 0, NONE, NONE), rule(4, 1, NONE, NONE), rule(4, 1, NONE, NONE)];
        let expressions = [equal(0, 1), set(7)];
        let other = table(&ports, &networks, &sources, &expressions, &rules, &[], &[]);
        #[rustfmt::skip]
        let state = [
            0x8040_0003, 0xC080_0000, 0x0000_0000, 0x8080_0000, 0xC040_0000, 0x0000_0000,
            0x0000_0000, 0x8000_0000, 0x0000_0000, 0x0000_0000, 0xBFC0_0000,
            0x8000_0000, 0x0000_0000, 0x4000_0000,
            0x0000_0000, 0x9004_0005, 0x9800_0000,
            0x4000_0008, 0xC000_0000, 0x0000_0000, 0x4000_0001,
        ];
        assert_eq!(other.len(), works().len());
        let words = [0xF200_0000, 0xF100_0000, 0x0000_1111, 0x0100_1234, 0x0F00_0000];
        let own = [&WORKS_1[..], &["trace F1000000", "trace 01001234"]].concat();
        shows(1, &works(), &WORKS_STATE, &[0xF100_0000, 0x0100_1234], &own);
        shows(1, &other, &state, &words, &own);
        shows(1, &edition_2(&other), &state, &words, &own);
    }
}

//! Request Q-13, the refusals: "Number 0 or above 15 (answer 9), then a table or state that meets
//! answer 1 or 2, is refused; nothing is printed." Too little room is 11, behind these.

use super::editions::edition_2;
use super::marked::MARKED;
use super::panel::{WORKS_1, WORKS_STATE, joined, shows, works};
use super::*;
use crate::testing::recorded::panel;

const GO: u32 = 0x1100_0500;
/// The marked state behind its request, its words, and how long operator 1's six lines are.
const AFTER: [u32; 4] = [0x8140_0000, 0, 0x4000_0000, 0x8000_0000];
const WORDS: [u32; 3] = [0xF100_0000, 0x4100_0002, 0x0100_1234];
const SIX: usize = 16 + 16 + 19 + 15 + 15 + 15;

/// Numbers that are no operator's: those above 15 have an operator's number in their low bits, or
/// in four bits higher up.
const NO_NUMBERS: [u32; 14] = [
    0, 16, 17, 31, 0x21, 0x81, 0xF1, 0x101, 0x1_0001, 0x1000_0000, 0x1000_0001, 0x8000_0001,
    0xFFFF_FFF1, 0xFFFF_FFFF,
];

/// Nothing of the room is changed, and no byte is counted.
#[track_caller]
fn refuses(operator: u32, table: &[u32], state: &[u32], room: usize, answer: u32) {
    let mut lent: Vec<u8> = (0..room).map(|byte| byte as u8).collect();
    let before = lent.clone();
    let laid = panel(operator, table, state, &WORDS, &mut lent);
    assert_eq!((laid.answer, laid.bytes), (answer, 0), "operator {operator}, room {room}");
    assert_eq!(lent, before);
}

fixed_cases! {
    fn panel_of_number_0_or_above_15_is_9() {
        for number in NO_NUMBERS {
            refuses(number, &MARKED, &AFTER, SIX + 9, 9);
            refuses(number, &edition_2(&MARKED), &AFTER, SIX + 9, 9);
        }
    }

    fn panel_of_number_1_and_15_stands() {
        let table = plain(&[mode(1), mode(15)], &[equal(0, 5)], &[rule(1, 0, NONE, NONE)], &[], &[]);
        let words = [0x0100_0001, 0x0F00_000F, 0x0000_0000];
        shows(1, &table, &[0; 3], &words, &["port 0 00000000", "trace 01000001"]);
        shows(15, &table, &[0; 3], &words, &["port 1 00000000", "trace 0F00000F"]);
        refuses(16, &table, &[0; 3], 200, 9);
        refuses(0, &table, &[0; 3], 200, 9);
    }

    fn panel_of_a_bad_number_on_a_bad_table_is_9_before_1() {
        for number in NO_NUMBERS {
            refuses(number, &MARKED[..11], &AFTER, 200, 9);
            refuses(number, &[], &[], 200, 9);
        }
        refuses(1, &MARKED[..11], &AFTER, 200, 1);
    }

    fn panel_of_a_bad_number_of_an_unfit_state_is_9_before_2() {
        for number in NO_NUMBERS {
            refuses(number, &MARKED, &AFTER[..3], 200, 9);
        }
        refuses(1, &MARKED, &AFTER[..3], 200, 2);
    }

    fn panel_of_a_bad_number_in_no_room_is_9_before_11() {
        for number in NO_NUMBERS {
            refuses(number, &MARKED, &AFTER, 0, 9);
        }
        refuses(1, &MARKED, &AFTER, 0, 11);
    }

    /// The state is unfit, and would be on the good table too.
    fn panel_of_a_bad_table_and_an_unfit_state_is_1_before_2() {
        refuses(1, &with(&MARKED, 6, 0), &AFTER[..3], 200, 1);
        refuses(1, &with(&MARKED, 6, 0), &with(&AFTER, 2, 1), 200, 1);
        refuses(1, &MARKED[..2], &[], 200, 1);
    }

    fn panel_of_a_bad_table_in_no_room_is_1_before_11() {
        refuses(1, &with(&MARKED, 6, 0), &AFTER, 0, 1);
        refuses(1, &MARKED[..11], &AFTER, 5, 1);
        refuses(9, &MARKED[..11], &AFTER, 0, 1);
    }

    fn panel_of_an_unfit_state_in_no_room_is_2_before_11() {
        refuses(1, &MARKED, &with(&AFTER, 0, 1), 0, 2);
        refuses(1, &MARKED, &with(&AFTER, 2, 0xC000_0000), SIX - 1, 2);
        refuses(9, &MARKED, &AFTER[..3], 0, 2);
    }

    /// Each reason, for an operator that has things in the table and for one that has none.
    fn panel_of_a_table_with_any_reason_is_1() {
        let ring = with(&MARKED, 7, 0x8000_0000);
        let clash = with(&MARKED, 9, 0x2838_0002);
        let not_reached = with(&MARKED, 8, 0x1000_FFFF);
        let dear = {
            let rules: Vec<u32> = (0..17).map(|number| rule(1, 0, number, NONE)).collect();
            let (lists, items) = ([list(1, 0, 255); 17], [call(0); 255]);
            plain(&[mode(1)], &[equal(0, 5)], &rules, &lists, &items)
        };
        let tables = [
            (MARKED[..2].to_vec(), 1),
            (with(&MARKED, 0, 0x0302_0100), 2),
            (with(&MARKED, 0, 0x0100_0100), 3),
            (MARKED[..11].to_vec(), 4),
            (with(&MARKED, 6, 0), 5),
            (with(&MARKED, 10, 0x4001_0002), 6),
            (ring, 7),
            (clash, 8),
            (not_reached, 10),
            (dear.clone(), 9),
        ];
        for (table, reason) in tables {
            assert_eq!(check(&table).reason, reason);
            refuses(1, &table, &AFTER, 200, 1);
            refuses(9, &table, &AFTER, 200, 1);
        }
    }

    fn panel_of_a_state_of_another_length_is_2() {
        for state in [&AFTER[..3], &[], &[0x8140_0000, 0, 0x4000_0000, 0x8000_0000, 0]] {
            refuses(1, &MARKED, state, 200, 2);
            refuses(9, &MARKED, state, 200, 2);
        }
    }

    /// A word of the operator's own, and words that its panel would not show.
    fn panel_of_a_state_with_any_unfit_word_is_2() {
        // Ports of 1, 0 and 2; rules of 1, 2 and 0; networks of 1, 2 and 0; sources of 1, 2 and 0.
        for place in [1, 0, 2, 11, 12, 13, 15, 14, 16, 17, 18, 19] {
            let unfit = with(&WORKS_STATE, place, WORKS_STATE[place] | 0x0001_0000);
            refuses(1, &works(), &unfit, 400, 2);
            refuses(9, &works(), &unfit, 400, 2);
        }
        shows(1, &works(), &WORKS_STATE, &[], &WORKS_1);
    }

    fn panel_in_just_enough_room_is_done_and_with_a_byte_less_it_is_11() {
        let mut room = [0x2E; SIX];
        let laid = panel(1, &MARKED, &AFTER, &WORDS, &mut room);
        assert_eq!((laid.answer, laid.bytes), (0, 96));
        assert!(room.starts_with(b"port 0 81400000\nport 1") && room.ends_with(b"trace 01001234\n"));
        for short in [95, 94, 81, 80, 16, 1, 0] {
            refuses(1, &MARKED, &AFTER, short, 11);
        }
    }

    fn panel_in_too_little_room_lays_no_line_though_some_would_fit() {
        let mut room = *b"................................";
        let laid = panel(1, &MARKED, &AFTER, &[], &mut room);
        assert_eq!((laid.answer, laid.bytes, &room), (11, 0, b"................................"));
    }

    fn panel_in_more_room_leaves_the_bytes_behind_it_as_they_were() {
        let mut room: Vec<u8> = (0..=255).collect();
        let before = room.clone();
        let laid = panel(1, &MARKED, &AFTER, &WORDS, &mut room);
        assert_eq!((laid.answer, laid.bytes), (0, 96));
        assert_eq!(room[96..], before[96..]);
        // A shorter one over it: only its own bytes.
        let longer = room.clone();
        let laid = panel(1, &MARKED, &[0; 4], &[], &mut room);
        assert_eq!((laid.answer, laid.bytes), (0, 51));
        assert_eq!(room[51..], longer[51..]);
        assert!(room.starts_with(b"port 0 00000000\n"));
    }

    fn panel_without_lines_is_done_in_no_room() {
        let laid = panel(9, &MARKED, &AFTER, &WORDS, &mut []);
        assert_eq!((laid.answer, laid.bytes), (0, 0));
        shows(9, &MARKED, &AFTER, &WORDS, &[]);
    }

    /// Strangers' words, the platform's and the rules' take no room.
    fn panel_needs_room_for_its_own_lines_alone() {
        let words = [[0xF200_0000; 50], [0x0000_0001; 50]].concat();
        // Four lines of 16, then 17, 19 and twice 18.
        let mut room = [0; 136];
        let laid = panel(1, &works(), &WORKS_STATE, &words, &mut room);
        assert_eq!((laid.answer, laid.bytes), (0, 136));
        assert_eq!(String::from_utf8_lossy(&room), joined(&WORKS_1));
        let own = [words, vec![0x0100_0000]].concat();
        let laid = panel(1, &works(), &WORKS_STATE, &own, &mut room);
        assert_eq!((laid.answer, laid.bytes), (11, 0));
        // An operator of trace words alone.
        let laid = panel(5, &works(), &WORKS_STATE, &[0x0500_0000], &mut room[..14]);
        assert_eq!((laid.answer, laid.bytes), (11, 0));
        let laid = panel(5, &works(), &WORKS_STATE, &[0x0500_0000], &mut room[..15]);
        assert_eq!((laid.answer, laid.bytes, &room[..15]), (0, 15, &b"trace 05000000\n"[..]));
    }

    fn panel_asked_after_a_refused_event_has_its_state_and_no_words() {
        let mut play = Play::fresh(&MARKED);
        play.take(GO);
        assert_eq!(play.answer(0x1200_0500), 6);
        let three = ["port 0 81400000", "port 1 00000000", "network 0 80000000"];
        shows(1, &MARKED, &play.state, &[], &three);
    }
}

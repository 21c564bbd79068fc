//! Request Q-9: "An outcome word above 1 is answer 8, checked after answer 4 over all lent words."

use super::editions::{abort, edition_2};
use super::marked::MARKED;
use super::shape::{BASE, LEAST};
use super::*;

const GO: u32 = 0x1100_0500;

/// Words that are no outcomes: just above 1, with a low byte or bit that would be one, the largest.
const ABOVE_1: [u32; 9] =
    [2, 3, 0xFF, 0x0000_0100, 0x0001_0001, 0x0100_0000, 0x8000_0000, 0x8000_0001, 0xFFFF_FFFF];

/// The marked table in both editions, in edition 2 with abort in its call too.
fn marked() -> [Vec<u32>; 3] {
    let two = edition_2(&MARKED);
    [MARKED.to_vec(), two.clone(), with(&two, 11, abort(MARKED[11]))]
}

/// Refused with 8 on the marked table, in both editions, to a request and to a tick.
#[track_caller]
fn eight(outcomes: &[u32]) {
    for table in marked() {
        for event in [GO, TICK] {
            assert_eq!(Play::fresh(&table).answer_with(event, outcomes), 8, "{outcomes:X?}");
        }
    }
}

/// The answer where nothing is written, and that nothing is.
#[track_caller]
fn answers(table: &[u32], state: &[u32], room: usize, event: u32, outcomes: &[u32]) -> u32 {
    let (mut after, mut trace) = (state.to_vec(), vec![0x5555_5555; room]);
    let stepped = step(table, &mut after, &mut trace, event, outcomes);
    assert_eq!((stepped.count, &after[..], trace), (0, state, vec![0x5555_5555; room]));
    stepped.answer
}

fixed_cases! {
    fn outcome_above_1_is_8_whatever_it_is() {
        ABOVE_1.iter().for_each(|&word| eight(&[word]));
    }

    fn outcome_above_1_is_8_at_the_first_place() {
        ABOVE_1.iter().for_each(|&word| eight(&[word, 0, 1, 0]));
    }

    fn outcome_above_1_is_8_at_a_middle_place() {
        ABOVE_1.iter().for_each(|&word| eight(&[0, word, 0]));
        ABOVE_1.iter().for_each(|&word| eight(&[1, 1, word, 1]));
    }

    fn outcome_above_1_is_8_at_the_last_place() {
        ABOVE_1.iter().for_each(|&word| eight(&[0, 1, 0, word]));
    }

    fn several_outcomes_above_1_are_8() {
        eight(&[2, 2]);
        eight(&[2, 0xFFFF_FFFF, 3]);
        eight(&ABOVE_1);
    }

    /// The marked list runs one call.
    fn outcome_above_1_is_8_past_those_that_are_read() {
        eight(&[0, 2]);
        eight(&[1, 2]);
        eight(&[&[0; 4999][..], &[2]].concat());
        eight(&[&[1; 4999][..], &[0xFFFF_FFFF]].concat());
    }

    fn outcomes_of_0_and_1_are_taken() {
        for table in marked() {
            for outcomes in [&[0][..], &[1], &[0, 1], &[1, 1, 1, 0, 1, 0], &[1; 5000]] {
                let trace = Play::fresh(&table).take_with(GO, outcomes);
                assert_eq!(trace, [0xF100_0000, 0x4100_0002, 0x0100_1234]);
                assert_eq!(Play::fresh(&table).take_with(TICK, outcomes), [0; 0]);
            }
        }
    }

    fn outcome_above_1_is_8_where_no_list_can_run() {
        for table in [LEAST.to_vec(), edition_2(&LEAST)] {
            for event in [TICK, request(0, 0, 5)] {
                assert_eq!(answers(&table, &[0, 0], 0, event, &[2]), 8);
                assert_eq!(answers(&table, &[0, 0], 9, event, &[0, 2]), 8);
            }
        }
    }

    /// Wakeups, bus-offs and heards run no list.
    fn outcome_above_1_is_8_to_every_kind_of_event() {
        for table in [BASE.to_vec(), edition_2(&BASE)] {
            let requests = [request(1, 0, 5), send(EVENT_REQUEST, 1, 3)];
            let kinds = [WAKEUP, WAKEUP_VALID, BUS_OFF, WAKEUP_CLEAR, HEARD];
            for event in requests.into_iter().chain(kinds.map(|kind| send(kind, 1, 0))) {
                let mut play = Play::fresh(&table);
                assert_eq!(play.answer_with(event, &[1, 0, 2]), 8, "{event:08X}");
                play.take_with(event, &[1, 0, 1]);
            }
        }
    }

    fn answer_1_comes_before_8() {
        for bad in [&MARKED[..11], &with(&MARKED, 0, 0x0302_0100), &[]] {
            for event in [GO, TICK, 0xFFFF_FFFF] {
                assert_eq!(answers(bad, &[0; 4], 3, event, &[2]), 1);
            }
        }
        let bad = with(&edition_2(&MARKED), 10, 0x4800_0002);
        assert_eq!(answers(&bad, &[0; 4], 3, GO, &[0xFFFF_FFFF]), 1);
    }

    fn answer_2_comes_before_8() {
        for table in marked() {
            for event in [GO, TICK] {
                assert_eq!(answers(&table, &[0; 3], 3, event, &[2]), 2);
                assert_eq!(answers(&table, &[1, 0, 0, 0], 3, event, &[0, 2]), 2);
            }
        }
    }

    fn answer_3_comes_before_8() {
        for table in marked() {
            for event in [GO, TICK, 0x2100_0500] {
                assert_eq!(answers(&table, &[0; 4], 2, event, &[2]), 3);
                assert_eq!(answers(&table, &[0; 4], 0, event, &[1, 2]), 3);
            }
        }
    }

    fn answer_4_comes_before_8() {
        // A value, a low byte, no such kind, a tick with an owner and with an index.
        let malformed =
            [0x2100_0500, 0x1100_0501, 0x8100_0000, 0xF000_0000, 0x0100_0000, 0x0001_0000];
        for table in marked() {
            for event in malformed {
                assert_eq!(answers(&table, &[0; 4], 3, event, &[2]), 4);
                assert_eq!(answers(&table, &[0; 4], 3, event, &[0, 1, 0xFFFF_FFFF]), 4);
            }
        }
    }

    fn answer_8_comes_before_5() {
        // No such port, no event port, the network's port, no source, no network.
        let without_thing =
            [0x1102_0000, 0x2100_0000, 0x1101_0000, 0x3100_0000, 0x5101_0000, 0x7101_0000];
        for table in marked() {
            for event in without_thing {
                assert_eq!(answers(&table, &[0; 4], 3, event, &[2]), 8);
                assert_eq!(answers(&table, &[0; 4], 3, event, &[0, 0, 2]), 8);
                assert_eq!(answers(&table, &[0; 4], 3, event, &[1, 1, 1]), 5);
            }
        }
    }

    fn answer_8_comes_before_6() {
        for table in marked() {
            for event in [0x1200_0500, 0x1000_0500, 0x5200_0000, 0x7000_0000] {
                assert_eq!(answers(&table, &[0; 4], 3, event, &[2]), 8);
                assert_eq!(answers(&table, &[0; 4], 3, event, &[0, 0xFFFF_FFFF]), 8);
                assert_eq!(answers(&table, &[0; 4], 3, event, &[1, 1]), 6);
            }
        }
    }

    fn answers_1_2_3_4_8_5_6_come_in_order() {
        for table in marked() {
            let due = |table: &[u32], length: usize, room: usize, event: u32, outcomes: &[u32]| {
                answers(table, &vec![0; length], room, event, outcomes)
            };
            assert_eq!(due(&table[..11], 3, 0, 0xF200_00FF, &[2]), 1);
            assert_eq!(due(&table, 3, 0, 0xF200_00FF, &[2]), 2);
            assert_eq!(due(&table, 4, 2, 0xF200_00FF, &[2]), 3);
            assert_eq!(due(&table, 4, 3, 0xF200_00FF, &[2]), 4);
            assert_eq!(due(&table, 4, 3, 0x2200_0000, &[2]), 8);
            assert_eq!(due(&table, 4, 3, 0x2200_0000, &[1]), 5);
            assert_eq!(due(&table, 4, 3, 0x1200_0500, &[1]), 6);
        }
    }

    /// What would have changed is as it was, and the event can be sent again.
    fn answer_8_changes_nothing_and_the_next_call_is_its_own() {
        for table in marked() {
            let mut play = Play::fresh(&table);
            assert_eq!(play.answer_with(GO, &[1, 2]), 8);
            assert_eq!(play.state, [0; 4]);
            assert_eq!(play.take_with(GO, &[0, 1]), [0xF100_0000, 0x4100_0002, 0x0100_1234]);
            assert_eq!(play.answer_with(TICK, &[2]), 8);
            assert_eq!(play.state, [0x8140_0000, 0, 0x4000_0000, 0x8000_0000]);
            play.ticks(1);
            assert_eq!(play.state, [0x8140_0000, 0x8080_0000, 0x4000_0000, 0x9000_0005]);
        }
    }

    fn answer_8_to_a_tick_that_would_arbitrate() {
        let rules = [rule(1, 0, 0, NONE)];
        let ports = [deferred(mode(1))];
        let one = plain(&ports, &[equal(0, 5)], &rules, &[list(1, 0, 1)], &[call(7)]);
        for table in [one.clone(), edition_2(&one)] {
            let mut play = Play::fresh(&table);
            play.take_with(GO, &[1]);
            assert_eq!(play.answer_with(TICK, &[0, 2]), 8);
            assert_eq!(play.state, [0xC140_0000, 0]);
            assert_eq!(play.take_with(TICK, &[1, 1]), [0xF100_0000, 0x0100_0007]);
        }
    }
}

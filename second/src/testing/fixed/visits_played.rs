//! Request Q-10 in a play: the sum of visits over the events taken.

use super::marked::MARKED;
use super::*;
use crate::play::Played;
use crate::testing::recorded::{play, played};

const GO: u32 = 0x1100_0500;
const SIX: u32 = 0x1100_0600;

/// GO visits four words and writes two; SIX visits one and writes none. B is 2.
fn table() -> Vec<u32> {
    let rules = [rule(1, 0, 0, NONE), nested_only(rule(1, 1, NONE, NONE))];
    let expressions = [equal(0, 5), operator(expression::XOR, 0, 0)];
    plain(&[mode(1)], &expressions, &rules, &[list(1, 0, 1)], &[item(6, 1)])
}

#[track_caller]
fn plays(room: usize, events: &[u32], taken: usize, visits: u64, answer: u32) -> Vec<u32> {
    let (mut state, mut trace) = (vec![0; 3], vec![0x5555_5555; room]);
    let told = play(&table(), &mut state, &mut trace, events);
    assert_eq!((told.taken, told.visits, told.answer), (taken, visits, answer));
    state
}

fixed_cases! {
    fn play_reports_the_sum_of_visits() {
        plays(20, &[GO, SIX, GO], 3, 4 + 1 + 4, 0);
        plays(20, &[GO, GO, GO, SIX], 4, 4 + 4 + 4 + 1, 0);
        // The last event has none.
        plays(20, &[GO, SIX, TICK], 3, 4 + 1, 0);
        plays(20, &[TICK, TICK, GO], 3, 4, 0);
    }

    fn play_of_no_events_visits_nothing() {
        plays(20, &[], 0, 0, 0);
        plays(0, &[], 0, 0, 0);
    }

    fn play_ended_by_a_refusal_has_the_visits_of_the_events_taken() {
        for (event, answer) in [(0x2100_0500, 4), (0x2100_0000, 5), (0x1200_0500, 6)] {
            plays(20, &[GO, SIX, event, GO], 2, 4 + 1, answer);
            plays(20, &[event, GO], 0, 0, answer);
        }
    }

    fn play_stopped_at_trace_full_has_the_visits_of_the_events_taken() {
        plays(1, &[GO, GO], 0, 0, 3);
        plays(2, &[GO, GO], 1, 4, 3);
        plays(3, &[GO, SIX, GO], 1, 4, 3);
        plays(4, &[GO, SIX, GO, SIX], 3, 4 + 1 + 4, 3);
        plays(6, &[GO, SIX, GO, SIX], 4, 4 + 1 + 4 + 1, 0);
    }

    /// Each call reports its own events.
    fn play_that_is_resumed_begins_its_sum_again() {
        let (mut state, mut trace) = (vec![0; 3], vec![0; 2]);
        let events = [SIX, GO, SIX, GO];
        let first = play(&table(), &mut state, &mut trace, &events);
        assert_eq!(first, Played { taken: 2, count: 2, visits: 1 + 4, answer: 3 });
        let rest = play(&table(), &mut state, &mut trace, &events[2..]);
        assert_eq!(rest, Played { taken: 2, count: 2, visits: 1 + 4, answer: 0 });
    }

    fn play_of_events_that_write_nothing_has_visits() {
        let (mut state, mut trace) = (vec![0; 3], vec![0; 2]);
        let told = play(&table(), &mut state, &mut trace, &[SIX; 5]);
        assert_eq!(told, Played { taken: 5, count: 0, visits: 5, answer: 0 });
    }

    fn play_of_a_bad_table_or_state_visits_nothing() {
        for (table, state, answer) in [(&table()[1..], [0; 3], 1), (&table(), [1, 0, 0], 2)] {
            let mut trace = [0; 20];
            let told = play(table, &mut state.clone(), &mut trace, &[GO, GO]);
            assert_eq!(told, Played { taken: 0, count: 0, visits: 0, answer });
        }
    }

    fn played_prints_the_sum_between_taken_and_answer() {
        let bytes = super::program::bytes;
        let lines = played(&bytes(&table()), &bytes(&[GO, SIX, GO, 0x1200_0500, GO]));
        assert!(lines.ends_with("taken 3\nvisits 9\nanswer 6\n"));
        let lines = played(&bytes(&MARKED), &bytes(&[GO; 57]));
        assert!(lines.ends_with("taken 57\nvisits 57\nanswer 0\n"));
    }
}

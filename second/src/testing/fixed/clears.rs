//! Request Q-2: "a clear marks the port, deferred or immediate, even if it was
//! clear already, for the next tick unless arbitrated sooner."

use super::lists::{GO, starting};
use super::*;

/// Port 1 as given. A request of 5 on port 0 clears it (list 0); rule 1, on it
/// being cleared, calls 7 (list 1) where it is and 8 (list 2) where it is set.
/// State: [port 0, port 1, rule 0, rule 1].
fn clearing(port_1: u32) -> Play {
    let lists = [list(1, 0, 1), list(1, 1, 1), list(1, 2, 1)];
    let items = [item(1, 1), call(7), call(8)];
    starting(port_1, &[cleared(1)], &[rule(1, 1, 1, 2)], &lists, &items)
}

/// The same with port 1 in another state.
fn clearing_from(port_1: u32, word: u32) -> Play {
    let play = clearing(port_1);
    Play { state: with(&play.state, 1, word), ..play }
}

const DEFERRED: u32 = 0x6100_0000;
const IMMEDIATE: u32 = 0x4100_0000;
const EITHER: [u32; 2] = [DEFERRED, IMMEDIATE];

const SET: u32 = 0x2101_0000;
const CLEAR: [u32; 2] = [0xF100_0000, 0x1101_0000];
const IS_CLEARED: [u32; 2] = [0xF101_0000, 0x0100_0007];
const IS_SET: [u32; 2] = [0xF102_0000, 0x0100_0008];

/// Cleared, port 1 has its mark and nothing else: it stays defined, and nothing
/// remains. Rule 1 waits: it is still false.
#[track_caller]
fn clear_marks(port_1: u32, word: u32) {
    let mut play = clearing_from(port_1, word);
    assert_eq!(play.take(GO), CLEAR);
    assert_eq!(play.state, [0x8140_0000, 0xC000_0000, 0x4000_0000, 0], "{word:08X}");
}

#[track_caller]
fn cleared_runs_at_the_next_tick(port_1: u32) {
    let mut play = clearing_from(port_1, 0x8040_0000);
    assert_eq!(play.take(GO), CLEAR);
    assert_eq!(play.take(TICK), IS_CLEARED);
    assert_eq!(play.state, [0x8140_0000, 0x8000_0000, 0x4000_0000, 0x4000_0000]);
}

/// Rule 0 is on port 0 being set or cleared, as given. Where it is, the list
/// given clears port 0 and calls 7; else list 1 calls 8. State: [port 0, rule 0].
fn clearing_itself(port_0: u32, condition: u32, list_0: u32) -> Vec<u32> {
    let items = [item(1, 0), call(7), call(8)];
    plain(&[port_0], &[condition], &[rule(1, 0, 0, 1)], &[list_0, list(1, 2, 1)], &items)
}

const CLEAR_ITSELF: [u32; 3] = [0xF100_0000, 0x1100_0000, 0x0100_0007];
const OTHERWISE: [u32; 2] = [0xF101_0000, 0x0100_0008];

fixed_cases! {
    fn ports_and_requests_are_the_helpers() {
        assert_eq!(EITHER, [deferred(event(1)), event(1)]);
        assert_eq!(SET, send(EVENT_REQUEST, 1, 1));
    }

    fn clear_of_a_set_event_marks_a_deferred_port() {
        clear_marks(DEFERRED, 0x8040_0000);
    }

    fn clear_of_a_set_event_marks_an_immediate_port() {
        clear_marks(IMMEDIATE, 0x8040_0000);
    }

    fn clear_of_an_event_that_was_clear_already_marks_a_deferred_port() {
        clear_marks(DEFERRED, 0x8000_0000);
    }

    fn clear_of_an_event_that_was_clear_already_marks_an_immediate_port() {
        clear_marks(IMMEDIATE, 0x8000_0000);
    }

    fn clear_of_a_marked_port_leaves_it_marked() {
        for port in EITHER {
            clear_marks(port, 0xC000_0000);
            clear_marks(port, 0xC040_0000);
        }
    }

    fn rule_on_a_cleared_event_runs_at_the_next_tick_deferred_port() {
        cleared_runs_at_the_next_tick(DEFERRED);
    }

    fn rule_on_a_cleared_event_runs_at_the_next_tick_immediate_port() {
        cleared_runs_at_the_next_tick(IMMEDIATE);
    }

    fn rule_on_a_cleared_event_runs_even_if_it_was_clear_already() {
        for port in EITHER {
            let mut play = clearing(port);
            assert_eq!(play.take(GO), CLEAR);
            assert_eq!(play.take(TICK), IS_CLEARED);
        }
    }

    fn clears_mark_is_gone_after_the_next_tick() {
        for port in EITHER {
            let mut play = clearing(port);
            play.take(GO);
            assert_eq!(play.take(TICK), IS_CLEARED);
            play.ticks(2);
            assert_eq!(play.state, [0x8140_0000, 0x8000_0000, 0x4000_0000, 0x4000_0000]);
        }
    }

    fn clears_mark_goes_at_the_tick_even_if_no_rule_is_on_the_event() {
        for port in EITHER {
            let mut play = starting(port, &[], &[], &[list(1, 0, 1)], &[item(1, 1)]);
            assert_eq!(play.take(GO), CLEAR);
            assert_eq!(play.state[1], 0xC000_0000);
            play.ticks(1);
            assert_eq!(play.state[1], 0x8000_0000);
        }
    }

    fn marked_immediate_event_is_arbitrated_at_the_tick_cleared_or_set() {
        for (word, ran) in [(0xC000_0000, IS_CLEARED), (0xC040_0000, IS_SET)] {
            let mut play = clearing_from(IMMEDIATE, word);
            assert_eq!(play.take(TICK), ran);
            assert_eq!(play.state[1], word - 0x4000_0000);
            play.ticks(1);
        }
    }

    fn immediate_events_mark_goes_with_its_next_request() {
        // "Unless arbitrated sooner": the request is the arbitration.
        let mut play = clearing(IMMEDIATE);
        play.take(GO);
        assert_eq!(play.take(SET), IS_SET);
        assert_eq!(play.state, [0x8140_0000, 0x8040_0000, 0x4000_0000, 0]);
        play.ticks(1);
        assert_eq!(play.state, [0x8140_0000, 0x8040_0000, 0x4000_0000, 0]);
    }

    fn immediate_events_mark_goes_with_its_next_request_the_same_value_included() {
        let mut play = clearing_from(IMMEDIATE, 0xC040_0000);
        assert_eq!(play.take(SET), IS_SET);
        assert_eq!(play.state, [0, 0x8040_0000, 0, 0]);
        play.ticks(1);
    }

    fn immediate_events_mark_goes_with_its_next_request_even_if_no_rule_is_on_it() {
        let mut play = starting(IMMEDIATE, &[], &[], &[list(1, 0, 1)], &[item(1, 1)]);
        play.take(GO);
        assert_eq!(play.take(SET), [0; 0]);
        assert_eq!(play.state, [0x8140_0000, 0x8040_0000, 0x4000_0000]);
    }

    fn deferred_events_mark_stays_at_its_request() {
        let mut play = clearing(DEFERRED);
        play.take(GO);
        assert_eq!(play.take(SET), [0; 0]);
        assert_eq!(play.state[1], 0xC040_0000);
        assert_eq!(play.take(TICK), IS_SET);
        play.ticks(1);
    }

    fn deferred_events_request_and_clear_are_one_mark() {
        let mut play = clearing(DEFERRED);
        play.take(SET);
        assert_eq!(play.take(GO), CLEAR);
        assert_eq!(play.state[1], 0xC000_0000);
        assert_eq!(play.take(TICK), IS_CLEARED);
        play.ticks(1);
    }

    fn another_ports_request_leaves_the_clears_mark() {
        for port in EITHER {
            let mut play = clearing(port);
            play.take(GO);
            assert_eq!(play.take(request(1, 0, 6)), [0; 0]);
            assert_eq!(play.state[1], 0xC000_0000);
            assert_eq!(play.take(TICK), IS_CLEARED);
        }
    }

    fn clear_in_the_ports_own_arbitration_leaves_it_marked_immediate_request() {
        let mut play = Play::fresh(&clearing_itself(IMMEDIATE, set(0), list(1, 0, 2)));
        assert_eq!(play.take(send(EVENT_REQUEST, 1, 0)), CLEAR_ITSELF);
        assert_eq!(play.state, [0xC000_0000, 0x4000_0000]);
        assert_eq!(play.take(TICK), OTHERWISE);
        assert_eq!(play.state, [0x8000_0000, 0]);
        play.ticks(1);
    }

    fn clear_in_the_ports_own_arbitration_leaves_it_marked_tick() {
        for port in EITHER {
            let table = clearing_itself(port, set(0), list(1, 0, 2));
            let mut play = Play::of(&table, &[0xC040_0000, 0]);
            assert_eq!(play.take(TICK), CLEAR_ITSELF);
            assert_eq!(play.state, [0xC000_0000, 0x4000_0000]);
            assert_eq!(play.take(TICK), OTHERWISE);
            assert_eq!(play.state, [0x8000_0000, 0]);
            play.ticks(1);
        }
    }

    fn clear_in_a_ticks_arbitration_waits_for_the_following_tick() {
        for port in EITHER {
            let table = with(&clearing(port).table, 3, deferred(mode(1)));
            let mut play = Play::fresh(&table);
            assert_eq!(play.take(GO), [0; 0]);
            assert_eq!(play.take(TICK), CLEAR);
            assert_eq!(play.state, [0x8140_0000, 0xC000_0000, 0x4000_0000, 0]);
            assert_eq!(play.take(TICK), IS_CLEARED);
            play.ticks(1);
        }
    }

    fn clear_in_a_tick_that_arbitrates_the_port_too_marks_it_for_the_following_one() {
        for port in EITHER {
            let table = with(&clearing(port).table, 3, deferred(mode(1)));
            let mut play = Play::of(&table, &[0xC140_0000, 0xC040_0000, 0, 0]);
            // Rule 1 was evaluated before list 0 ran.
            assert_eq!(play.take(TICK), [CLEAR, IS_SET].concat());
            assert_eq!(play.state[1], 0xC000_0000);
            assert_eq!(play.take(TICK), IS_CLEARED);
            play.ticks(1);
        }
    }

    fn conditional_list_that_clears_its_own_event_runs_at_every_tick() {
        for port in EITHER {
            let table = clearing_itself(port, cleared(0), list(1, 0, 2));
            let mut play = Play::of(&table, &[0xC000_0000, 0]);
            for _ in 0..4 {
                assert_eq!(play.take(TICK), CLEAR_ITSELF);
                assert_eq!(play.state, [0xC000_0000, 0x4000_0000]);
            }
        }
    }

    fn triggered_list_that_clears_its_own_event_runs_once_and_then_loses_the_mark() {
        for port in EITHER {
            let table = clearing_itself(port, cleared(0), triggered(list(1, 0, 2)));
            let mut play = Play::of(&table, &[0xC000_0000, 0]);
            assert_eq!(play.take(TICK), CLEAR_ITSELF);
            assert_eq!(play.state, [0xC000_0000, 0x4000_0000]);
            // Arbitrated, but the result is the previous one.
            play.ticks(1);
            assert_eq!(play.state, [0x8000_0000, 0x4000_0000]);
            play.ticks(1);
        }
    }

    fn clear_in_a_named_list_marks() {
        let lists = [list(1, 0, 1), list(1, 1, 1), list(1, 2, 1)];
        let items = [item(5, 2), call(7), item(1, 1)];
        for port in EITHER {
            let mut play = starting(port, &[cleared(1)], &[rule(1, 1, 1, NONE)], &lists, &items);
            assert_eq!(play.take(GO), [0xF100_0000, 0xF102_0000, 0x1101_0000]);
            assert_eq!(play.state[1], 0xC000_0000);
            assert_eq!(play.take(TICK), IS_CLEARED);
        }
    }

    fn clear_in_a_rule_items_list_marks() {
        let rules = [rule(1, 1, 1, NONE), nested_only(rule(1, 1, 2, NONE))];
        let lists = [list(1, 0, 1), list(1, 1, 1), list(1, 2, 1)];
        let items = [item(6, 2), call(7), item(1, 1)];
        for port in EITHER {
            let mut play = starting(port, &[cleared(1)], &rules, &lists, &items);
            assert_eq!(play.take(GO), [0xF100_0000, 0x6102_0001, 0xF102_0000, 0x1101_0000]);
            assert_eq!(play.state[1], 0xC000_0000);
            assert_eq!(play.take(TICK), IS_CLEARED);
        }
    }

    fn rule_item_on_a_cleared_event_is_no_arbitration_of_it() {
        let rules = [rule(1, 1, 1, NONE), nested_only(rule(1, 1, NONE, NONE))];
        let lists = [list(1, 0, 2), list(1, 2, 1)];
        let items = [item(1, 1), item(6, 2), call(7)];
        for port in EITHER {
            let mut play = starting(port, &[cleared(1)], &rules, &lists, &items);
            assert_eq!(play.take(GO), [0xF100_0000, 0x1101_0000, 0x6102_0001]);
            assert_eq!(play.state[1], 0xC000_0000);
            assert_eq!(play.take(TICK), IS_CLEARED);
        }
    }

    fn two_clears_are_one_mark() {
        let lists = [list(1, 0, 2), list(1, 2, 1)];
        let items = [item(1, 1), item(1, 1), call(7)];
        for port in EITHER {
            let mut play = starting(port, &[cleared(1)], &[rule(1, 1, 1, NONE)], &lists, &items);
            assert_eq!(play.take(GO), [0xF100_0000, 0x1101_0000, 0x1101_0000]);
            assert_eq!(play.take(TICK), IS_CLEARED);
            play.ticks(1);
        }
    }

    fn cleared_event_and_another_marked_port_are_one_arbitration() {
        // Rule 1 on the event and rule 2 on the timer, which list 0 stops, choose list 1.
        let expressions = [equal(0, 5), cleared(1), equal(2, 0)];
        let rules = [rule(1, 0, 0, NONE), rule(1, 1, 1, NONE), rule(1, 2, 1, NONE)];
        let lists = [list(1, 0, 2), list(1, 2, 1)];
        let items = [item(1, 1), item(3, 2), call(7)];
        for port in EITHER {
            let ports = [mode(1), port, timer(1, 3)];
            let mut play = Play::fresh(&plain(&ports, &expressions, &rules, &lists, &items));
            assert_eq!(play.take(GO), [0xF100_0000, 0x1101_0000, 0x3102_0000]);
            assert_eq!(play.state[1..3], [0xC000_0000; 2]);
            assert_eq!(play.take(TICK), IS_CLEARED);
            assert_eq!(play.state[1..3], [0x8000_0000; 2]);
        }
    }

    fn clear_of_one_event_marks_no_other() {
        // Rule 1 is on port 2, an event that nobody clears.
        for port in EITHER {
            let mut play = Play::fresh(&plain(
                &[mode(1), port, port],
                &[equal(0, 5), cleared(2)],
                &[rule(1, 0, 0, NONE), rule(1, 1, 1, NONE)],
                &[list(1, 0, 1), list(1, 1, 1)],
                &[item(1, 1), call(7)],
            ));
            assert_eq!(play.take(GO), CLEAR);
            assert_eq!(play.state[1..3], [0xC000_0000, 0x8000_0000]);
            play.ticks(1);
        }
    }

    fn platforms_list_clears_and_marks_an_operators_event() {
        // The rule on the event is operator 1's; the event is its own or the platform's.
        for (owner, deferred) in [(0, false), (0, true), (1, false), (1, true)] {
            let event = if deferred { super::deferred(event(owner)) } else { event(owner) };
            let mut play = Play::fresh(&plain(
                &[mode(0), event],
                &[equal(0, 5), cleared(1)],
                &[rule(0, 0, 0, NONE), rule(1, 1, 1, NONE)],
                &[list(0, 0, 1), list(1, 1, 1)],
                &[item(1, 1), call(7)],
            ));
            assert_eq!(play.take(request(0, 0, 5)), [0xF000_0000, 0x1001_0000]);
            assert_eq!(play.state[1], 0xC000_0000);
            assert_eq!(play.take(TICK), IS_CLEARED);
        }
    }
}

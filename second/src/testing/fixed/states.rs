//! Fresh states, and which states fit.

use super::shape::BASE;
use super::*;

/// Ports 0 immediate mode, 1 the network's, 2 the source's, 3 immediate event,
/// 4 timer of 3; rules 5 and 6; network 7 with E-ticks 5, L1 3, L2 10; source 8
/// with timeout 4.
const FRESH: [u32; 9] = [0, 0, 0, 0x8000_0000, 0x8000_0000, 0, 0, 0, 0];

#[track_caller]
fn fit(place: usize, words: &[u32]) {
    for &word in words {
        assert_eq!(check_state(&BASE, &with(&FRESH, place, word)), 0, "{word:08X}");
    }
}

/// The state check says 2, and so does every event.
#[track_caller]
fn unfit(place: usize, words: &[u32]) {
    for &word in words {
        let state = with(&FRESH, place, word);
        assert_eq!(check_state(&BASE, &state), 2, "{word:08X}");
        assert_eq!(Play::of(&BASE, &state).answer(TICK), 2, "{word:08X}");
    }
}

fixed_cases! {
    fn fresh_events_and_timers_are_defined_modes_are_not() {
        let mut state = [0xAAAA_AAAA; 9];
        assert_eq!(fresh(&BASE, &mut state), 0);
        assert_eq!(state, FRESH);
    }

    fn fresh_initial_values_and_first_results() {
        let ports = [initial(1, 7), deferred(initial(1, 0)), mode(1), deferred(event(1))];
        let rules = [0, 1, 2].map(|first| first_result(first, rule(1, 0, NONE, NONE)));
        let play = Play::fresh(&plain(&ports, &[equal(0, 0)], &rules, &[], &[]));
        assert_eq!(
            play.state,
            [0x81C0_0000, 0x8000_0000, 0, 0x8000_0000, 0, 0x4000_0000, 0x8000_0000]
        );
    }

    fn fresh_refuses_a_bad_table_before_a_wrong_length() {
        let mut state = [0xAAAA_AAAA; 8];
        assert_eq!(fresh(&BASE[..26], &mut state), 1);
        assert_eq!(fresh(&BASE, &mut state), 2);
        assert_eq!(state, [0xAAAA_AAAA; 8]);
        assert_eq!(fresh(&[], &mut []), 1);
        assert_eq!(fresh(&BASE, &mut [0; 10]), 2);
    }

    fn state_check_gives_1_for_a_bad_table() {
        assert_eq!(check_state(&BASE[..26], &FRESH), 1);
        assert_eq!(check_state(&BASE, &FRESH), 0);
    }

    fn fit_length() {
        assert_eq!(check_state(&BASE, &FRESH[..8]), 2);
        assert_eq!(check_state(&BASE, &[&FRESH[..], &[0]].concat()), 2);
        assert_eq!(check_state(&BASE, &[]), 2);
    }

    fn fit_zero_fields() {
        unfit(0, &[0x8001_0000, 0x8020_0000]);
        unfit(5, &[0x0000_0001, 0x2000_0000]);
        unfit(7, &[0x0001_0000, 0x0002_0000, 0x1001_0005, 0x1002_0005]);
        unfit(8, &[0x0001_0000, 0x2000_0000]);
    }

    fn fit_immediate_ports_are_unmarked_holds_for_mode_ports() {
        unfit(0, &[0xC000_0000, 0xC140_0000]);
        // One with an initial value is no better.
        let table = with(&BASE, 3, initial(1, 7));
        assert_eq!(check_state(&table, &with(&FRESH, 0, 0xC1C0_0000)), 2);
        fit(1, &[0xC000_0000]);
        fit(4, &[0xC000_0000]);
    }

    fn fit_immediate_ports_are_unmarked_holds_only_for_mode_ports() {
        fit(3, &[0xC000_0000, 0xC040_0000]);
        // And every event is taken: the tick takes the mark away.
        for (word, after) in [(0xC000_0000, 0x8000_0000), (0xC040_0000, 0x8040_0000)] {
            let mut play = Play::of(&BASE, &with(&FRESH, 3, word));
            play.take(TICK);
            assert_eq!(play.state[3], after);
        }
    }

    fn fit_deferred_events_may_be_marked() {
        let table = with(&BASE, 6, deferred(event(1)));
        for word in [0xC000_0000, 0xC040_0000] {
            assert_eq!(check_state(&table, &with(&FRESH, 3, word)), 0);
        }
    }

    fn fit_marked_events_are_judged_by_all_else() {
        // A value above 1, something that remains, a zero field, not defined.
        unfit(3, &[0xC080_0000, 0xC000_0001, 0xC001_0000, 0x4000_0000]);
    }

    fn fit_undefined_port_is_an_unmarked_mode_port_of_0() {
        fit(1, &[0]);
        unfit(0, &[0x0040_0000, 0x4000_0000]);
        unfit(1, &[0x4000_0000, 0x2000_0000]);
        unfit(3, &[0]);
        unfit(4, &[0]);
    }

    fn fit_mode_values_are_free() {
        fit(0, &[0x8000_0000, 0xBFC0_0000]);
    }

    fn fit_event_values_are_0_or_1() {
        fit(3, &[0x8040_0000]);
        unfit(3, &[0x8080_0000, 0xA000_0000]);
    }

    fn fit_timer_values_are_0_to_2() {
        fit(4, &[0x8000_0000, 0x8040_0001, 0x8080_0000]);
        unfit(4, &[0x80C0_0000]);
    }

    fn fit_remaining_of_a_timer() {
        fit(4, &[0x8040_0001, 0x8040_0003, 0xC040_0003]);
        unfit(4, &[0x8040_0000, 0x8040_0004, 0x8000_0001, 0x8080_0001]);
    }

    fn fit_remaining_of_other_ports_is_0() {
        unfit(0, &[0x8000_0001, 0x8040_0001]);
        unfit(3, &[0x8040_0001]);
    }

    fn fit_results_at_most_2() {
        fit(5, &[0x4000_0000, 0x8000_0000]);
        unfit(6, &[0xC000_0000]);
    }

    fn fit_asked_at_most_2_and_state_at_most_4() {
        fit(7, &[0x4000_0000, 0x8000_0000]);
        unfit(7, &[0xC000_0000, 0x2800_0000, 0x3000_0000, 0x3800_0000]);
    }

    fn fit_remaining_of_a_network() {
        fit(7, &[0x1000_0001, 0x1000_0005, 0x2008_0001, 0x2008_000A]);
        unfit(7, &[0x1000_0000, 0x1000_0006, 0x2008_0000, 0x2008_000B]);
        unfit(7, &[0x0000_0001, 0x0800_0001, 0x1800_0001]);
    }

    fn fit_recover_up_to_the_larger_wait_whichever_it_is() {
        let turned = with(&BASE, 9, 0x0A03_0005);
        for (remaining, answer) in [(10, 0), (11, 2)] {
            let state = with(&FRESH, 7, 0x2008_0000 + remaining);
            assert_eq!(check_state(&turned, &state), answer);
        }
    }

    fn fit_counter_is_0_at_rest_free_in_check_at_least_1_in_recover() {
        unfit(7, &[0x0008_0000, 0x0808_0000, 0x1808_0000, 0x2000_0001]);
        fit(7, &[0x1000_0005, 0x1008_0005, 0x17F8_0005, 0x27F8_0001]);
    }

    fn fit_heard_in_check() {
        fit(7, &[0x1004_0005, 0x1004_0001, 0x500C_0003, 0x97FC_0005]);
        // By all else it is judged as ever: remaining, asked, the zero bits below.
        unfit(7, &[0x1004_0000, 0x1004_0006, 0xD004_0005, 0x1005_0005, 0x1006_0005]);
    }

    fn fit_heard_in_no_other_state() {
        for state in [0x0000_0000, 0x0800_0000, 0x1800_0000, 0x2008_0003] {
            for asked in [0, 0x4000_0000, 0x8000_0000] {
                fit(7, &[asked + state]);
                unfit(7, &[asked + state + 0x0004_0000]);
            }
        }
        unfit(7, &[0x2804_0000, 0x3004_0000, 0x3804_0000]);
    }

    fn fresh_has_heard_nothing() {
        let mut state = FRESH.map(|word| word | 0x0004_0000);
        assert_eq!(fresh(&BASE, &mut state), 0);
        assert_eq!(state[7], 0);
    }

    fn fit_remaining_of_a_source() {
        fit(8, &[0x4000_0001, 0x4000_0004, 0x8000_0000, 0xC000_0000]);
        unfit(8, &[0x4000_0000, 0x4000_0005, 0x0000_0001, 0x8000_0001, 0xC000_0001]);
    }

    fn fit_pending_source_with_timeout_0_never() {
        let untimed = with(&BASE, 10, 0x1020_0000);
        for word in [0x4000_0000, 0x4000_0001] {
            assert_eq!(check_state(&untimed, &with(&FRESH, 8, word)), 2);
        }
    }

    fn fit_asks_no_agreement_of_a_port_with_what_is_shown() {
        // A settled network with its port undefined; a port of 9 with its source none.
        fit(7, &[0x9800_0000]);
        fit(2, &[0x8240_0000]);
    }

    fn fit_asks_no_definition_of_a_port_with_an_initial_value() {
        let table = with(&BASE, 3, initial(1, 7));
        assert_eq!(check_state(&table, &FRESH), 0);
    }
}

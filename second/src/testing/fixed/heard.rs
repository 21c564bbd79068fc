//! Request Q-8: hearing traffic ends the check.

use super::networks::{turns, turns_in, usual, with_network};
use super::*;

const HEARD: u32 = 0x7100_0000;
const BUS_OFF: u32 = 0x5100_0000;

/// From a check that has heard, by these events, to this network word.
#[track_caller]
fn from_heard(events: &[u32], network: u32) {
    let mut play = Play::of(&usual(), &[0, 0, 0x9004_0005]);
    for &event in events {
        play.take(event);
    }
    assert_eq!(play.state[2], network);
}

/// Port 0 the network's, port 1 as given: its requests of 0, 1 and 2 have a list ask for that mode,
/// of 3 for none and then for full. State: 2 ports, 4 rules, the network at 6.
fn asked_by(port: u32) -> Vec<u32> {
    let rules: Vec<u32> = (0..4).map(|number| rule(1, number, number, NONE)).collect();
    table(
        &[deferred(mode(1)), port],
        &[network(1, 0)],
        &[],
        &[equal(1, 0), equal(1, 1), equal(1, 2), equal(1, 3)],
        &rules,
        &[list(1, 0, 1), list(1, 1, 1), list(1, 2, 1), list(1, 3, 2)],
        &[ask(0, 0), ask(0, 1), ask(0, 2), ask(0, 0), ask(0, 2)],
    )
}

/// From a network in check that shows it, its modes asked for by a port as given.
fn in_check(port: u32, network: u32) -> Play {
    Play::of(&asked_by(port), &[0x8080_0000, 0, 0, 0, 0, 0, network])
}

/// A list's request in check, then a tick: the network after each.
#[track_caller]
fn asked_in_check(network: u32, value: u32, after: [u32; 2]) {
    let mut play = in_check(mode(1), network);
    let trace = play.take(request(1, 1, value));
    assert_eq!(trace[0], 0xF100_0000 + (value << 16));
    assert_eq!(play.state[6], after[0], "after the request");
    play.take(TICK);
    assert_eq!(play.state[6], after[1], "after the tick");
}

fixed_cases! {
    fn heard_in_check_sets_its_bit_and_nothing_else() {
        turns(0x9000_0005, HEARD, [0, 0x9004_0005]);
        turns(0x9018_0001, HEARD, [0, 0x901C_0001]);
        turns(0x97F8_0003, HEARD, [0, 0x97FC_0003]);
    }

    fn heard_in_check_goes_by_the_state_not_by_what_is_asked() {
        turns(0x1000_0005, HEARD, [0, 0x1004_0005]);
        turns(0x5008_0002, HEARD, [0, 0x500C_0002]);
    }

    fn heard_in_none_changes_nothing() {
        for network in [0, 0x4000_0000, 0x8000_0000] {
            turns(network, HEARD, [0, network]);
        }
    }

    fn heard_in_silent_changes_nothing() {
        for network in [0x0800_0000, 0x4800_0000, 0x8800_0000] {
            turns(network, HEARD, [0, network]);
        }
    }

    fn heard_in_full_changes_nothing() {
        for network in [0x1800_0000, 0x5800_0000, 0x9800_0000] {
            turns(network, HEARD, [0, network]);
        }
    }

    fn heard_in_recover_changes_nothing() {
        for network in [0x2008_0003, 0x6008_0001, 0xA008_0003, 0xA7F8_000A] {
            turns(network, HEARD, [0, network]);
        }
    }

    fn heard_again_in_check_changes_nothing() {
        turns(0x9004_0005, HEARD, [0, 0x9004_0005]);
        from_heard(&[HEARD, HEARD, TICK], 0x9800_0000);
    }

    fn next_tick_takes_heard_whatever_remains() {
        for network in [0x9004_0005, 0x9004_0002, 0x901C_0004, 0x97FC_0005] {
            turns(network, TICK, [0, 0x9800_0000]);
        }
        turns_in(&with_network(0x1000_2000, 0x030A_FFFF), 0x9004_FFFF, TICK, [0, 0x9800_0000]);
    }

    fn heard_where_1_remains_is_full_at_the_same_tick_and_nothing_is_kept() {
        turns(0x9000_0001, HEARD, [0, 0x9004_0001]);
        turns(0x900C_0001, TICK, [0, 0x9800_0000]);
        turns(0x9008_0001, TICK, [0, 0x9800_0000]);
    }

    fn heard_with_none_asked_goes_to_none() {
        turns(0x1004_0005, TICK, [0x8000_0000, 0]);
        turns(0x100C_0001, TICK, [0x8000_0000, 0]);
    }

    fn heard_with_silent_asked_goes_to_silent() {
        turns(0x5004_0005, TICK, [0x8040_0000, 0x4800_0000]);
        turns(0x500C_0001, TICK, [0x8040_0000, 0x4800_0000]);
    }

    fn check_to_full_by_heard_writes_no_port_and_starts_nothing() {
        // The rule on the port is true, and what the port holds is not set right.
        let shown = table(
            &[deferred(mode(1))],
            &[network(1, 0)],
            &[],
            &[equal(0, 1)],
            &[rule(1, 0, 0, 0)],
            &[list(1, 0, 1)],
            &[call(7)],
        );
        let mut play = Play::of(&shown, &[0x8040_0000, 0, 0x9004_0005]);
        play.ticks(1);
        assert_eq!(play.state, [0x8040_0000, 0, 0x9800_0000]);
    }

    fn heard_arbitrates_nothing() {
        // A marked port stays so until the tick.
        let mut play = in_check(deferred(mode(1)), 0x9000_0005);
        play.take(request(1, 1, 2));
        assert_eq!(play.take(HEARD), [0; 0]);
        assert_eq!(play.state, [0x8080_0000, 0xC080_0000, 0, 0, 0, 0, 0x9004_0005]);
    }

    fn bus_off_clears_heard() {
        turns(0x9004_0005, BUS_OFF, [0xC0C0_0000, 0xA008_0003]);
        // Counter 2 and heard: 3 is above the threshold. The bit is no part of the counter.
        turns(0x9014_0001, BUS_OFF, [0xC0C0_0000, 0xA018_000A]);
        turns(0x97FC_0001, BUS_OFF, [0xC0C0_0000, 0xA7F8_000A]);
    }

    fn heard_then_a_bus_off_then_check_again_keeps_nothing() {
        from_heard(&[BUS_OFF, TICK, TICK, TICK], 0x9008_0005);
        from_heard(&[BUS_OFF, TICK, TICK, TICK, TICK], 0x9008_0004);
        from_heard(&[&[BUS_OFF][..], &[TICK; 7]].concat(), 0x9008_0001);
        from_heard(&[&[BUS_OFF][..], &[TICK; 8]].concat(), 0x9800_0000);
        // What is heard in that check is taken.
        from_heard(&[BUS_OFF, TICK, TICK, TICK, HEARD], 0x900C_0005);
        from_heard(&[BUS_OFF, TICK, TICK, TICK, HEARD, TICK], 0x9800_0000);
    }

    fn heard_in_recover_is_not_kept_for_the_check() {
        from_heard(&[BUS_OFF, HEARD, TICK, TICK, HEARD, TICK], 0x9008_0005);
        from_heard(&[BUS_OFF, HEARD, TICK, TICK, HEARD, TICK, TICK], 0x9008_0004);
    }

    fn heard_before_the_first_check_is_not_kept() {
        for network in [0x8000_0000, 0x8800_0000] {
            let mut play = Play::of(&usual(), &[0, 0, network]);
            for (event, after) in [(HEARD, network), (TICK, 0x9000_0005), (TICK, 0x9000_0004)] {
                play.take(event);
                assert_eq!(play.state[2], after);
            }
        }
    }

    fn heard_in_full_is_not_kept_for_the_next_check() {
        from_heard(&[TICK, HEARD, BUS_OFF], 0xA008_0003);
        from_heard(&[TICK, HEARD, BUS_OFF, TICK, TICK, TICK, TICK], 0x9008_0004);
    }

    fn full_by_heard_starts_the_counter_again() {
        // Threshold 2: the counter was 3, and the next bus-off waits L1.
        let mut play = Play::of(&usual(), &[0, 0, 0x901C_0005]);
        play.take(TICK);
        play.take(BUS_OFF);
        assert_eq!(play.state[2], 0xA008_0003);
    }

    fn heard_ends_a_check_of_counter_0_too() {
        // From none, never a bus-off.
        let mut play = Play::of(&usual(), &[0, 0, 0x8000_0000]);
        play.take(TICK);
        play.take(HEARD);
        play.take(TICK);
        assert_eq!(play.state, [0x8080_0000, 0, 0x9800_0000]);
    }

    fn heard_is_of_one_network_alone() {
        let ports = [deferred(mode(1)); 2];
        let networks = [network(1, 0), network(1, 1)];
        let rules = [rule(1, 0, NONE, NONE)];
        let table = table(&ports, &networks, &[], &[equal(0, 9)], &rules, &[], &[]);
        let mut play = Play::of(&table, &[0, 0, 0, 0x9000_0005, 0x9000_0005]);
        play.take(0x7101_0000);
        assert_eq!(play.state, [0, 0, 0, 0x9000_0005, 0x9004_0005]);
        play.ticks(1);
        assert_eq!(play.state, [0, 0, 0, 0x9000_0004, 0x9800_0000]);
    }

    fn lists_request_before_the_tick_keeps_heard() {
        asked_in_check(0x9004_0005, 0, [0x1004_0005, 0]);
        asked_in_check(0x9004_0005, 1, [0x5004_0005, 0x4800_0000]);
        asked_in_check(0x900C_0005, 2, [0x900C_0005, 0x9800_0000]);
    }

    fn lists_that_ask_for_none_and_full_in_one_event_keep_heard() {
        asked_in_check(0x9004_0005, 3, [0x9004_0005, 0x9800_0000]);
    }

    fn heard_while_none_or_silent_is_asked_is_taken_once_full_is() {
        for (network, heard) in [(0x1000_0005, 0x1004_0005), (0x5000_0005, 0x5004_0005)] {
            let mut play = in_check(mode(1), network);
            play.take(HEARD);
            assert_eq!(play.state[6], heard);
            play.take(request(1, 1, 2));
            assert_eq!(play.state[6], 0x9004_0005);
            play.take(TICK);
            assert_eq!(play.state[6], 0x9800_0000);
        }
    }

    fn ticks_own_list_asks_after_heard_is_taken() {
        let mut play = in_check(deferred(mode(1)), 0x9004_0005);
        play.take(request(1, 1, 0));
        assert_eq!(play.take(TICK), [0xF100_0000, 0x4100_0000]);
        assert_eq!(play.state[6], 0x1800_0000);
        play.take(TICK);
        assert_eq!([play.state[0], play.state[6]], [0x8000_0000, 0]);
    }

    fn heard_by_the_owner_alone() {
        let mut play = Play::of(&usual(), &[0, 0, 0x9000_0005]);
        let not_the_owner = [0x7000_0000, 0x7200_0000, 0x7F00_0000].map(|event| (event, 6));
        let no_network = [0x7101_0000, 0x72FF_0000].map(|event| (event, 5));
        for (event, answer) in not_the_owner.into_iter().chain(no_network) {
            assert_eq!(play.answer(event), answer, "{event:08X}");
        }
        play.ticks(1);
        assert_eq!(play.state[2], 0x9000_0004);
        play.take(HEARD);
        assert_eq!(play.state[2], 0x9004_0004);
    }

    fn refused_heard_takes_no_heard_away() {
        let mut play = Play::of(&usual(), &[0, 0, 0x9004_0005]);
        for event in [0x7000_0000, 0x7200_0000, 0x7101_0000, 0x7100_0100] {
            play.answer(event);
        }
        play.ticks(1);
        assert_eq!(play.state[2], 0x9800_0000);
    }

    fn platform_hears_its_own_network_alone() {
        let table = table(
            &[deferred(mode(0))],
            &[network(0, 0)],
            &[],
            &[equal(0, 9)],
            &[rule(0, 0, NONE, NONE)],
            &[],
            &[],
        );
        let mut play = Play::of(&table, &[0, 0, 0x9000_0005]);
        assert_eq!(play.answer(HEARD), 6);
        play.take(0x7000_0000);
        assert_eq!(play.state, [0, 0, 0x9004_0005]);
    }

    fn kind_8_is_malformed_for_a_network_too() {
        let mut play = Play::of(&usual(), &[0, 0, 0x9000_0005]);
        assert_eq!(play.answer(0x8100_0000), 4);
        assert_eq!(play.answer(0x8200_0000), 4);
        assert_eq!(play.answer(0x81FF_0000), 4);
    }

    fn heard_without_any_network_is_5() {
        assert_eq!(Play::fresh(&super::shape::LEAST).answer(0x7000_0000), 5);
    }
}

//! Networks: bus-off and ticks.

use super::*;

const BUS_OFF: u32 = 0x5100_0000;

/// Port 0 the network's; its state is [port, rule, network].
pub fn with_network(first: u32, waits: u32) -> Vec<u32> {
    table(
        &[deferred(mode(1))],
        &[[first, waits]],
        &[],
        &[equal(0, 9)],
        &[rule(1, 0, NONE, NONE)],
        &[],
        &[],
    )
}

/// Threshold 2, L1 3, L2 10, E-ticks 5.
pub fn usual() -> Vec<u32> {
    with_network(0x1000_2000, 0x030A_0005)
}

/// From a network in this state, with an undefined port, to port and network.
#[track_caller]
pub fn turns_in(table: &[u32], network: u32, event: u32, port_and_network: [u32; 2]) {
    let mut play = Play::of(table, &[0, 0, network]);
    play.take(event);
    assert_eq!([play.state[0], play.state[2]], port_and_network, "from {network:08X}");
}

#[track_caller]
pub fn turns(network: u32, event: u32, port_and_network: [u32; 2]) {
    turns_in(&usual(), network, event, port_and_network);
}

fixed_cases! {
    fn bus_off_in_check_or_full_makes_it_recover() {
        turns(0x9000_0004, BUS_OFF, [0xC0C0_0000, 0xA008_0003]);
        turns(0x9800_0000, BUS_OFF, [0xC0C0_0000, 0xA008_0003]);
    }

    fn bus_off_in_other_states_is_ignored() {
        for network in [0x8000_0000, 0x8800_0000, 0xA008_0002, 0, 0x4000_0000] {
            turns(network, BUS_OFF, [0, network]);
        }
    }

    fn bus_off_goes_by_the_state_not_by_what_is_asked() {
        turns(0x1800_0000, BUS_OFF, [0xC0C0_0000, 0x2008_0003]);
        turns(0x5000_0001, BUS_OFF, [0xC0C0_0000, 0x6008_0003]);
    }

    fn counter_is_compared_after_adding_1() {
        // Threshold 2: new counters 1 and 2 wait L1, 3 waits L2.
        turns(0x9008_0005, BUS_OFF, [0xC0C0_0000, 0xA010_0003]);
        turns(0x9010_0005, BUS_OFF, [0xC0C0_0000, 0xA018_000A]);
        turns(0x9018_0005, BUS_OFF, [0xC0C0_0000, 0xA020_000A]);
    }

    fn threshold_0_always_waits_l2() {
        turns_in(
            &with_network(0x1000_0000, 0x030A_0005),
            0x9800_0000,
            BUS_OFF,
            [0xC0C0_0000, 0xA008_000A],
        );
    }

    fn counter_is_held_at_255() {
        turns(0x97F8_0005, BUS_OFF, [0xC0C0_0000, 0xA7F8_000A]);
        // Held before it is compared: 255 is not above a threshold of 255.
        turns_in(
            &with_network(0x100F_F000, 0x030A_0005),
            0x97F8_0005,
            BUS_OFF,
            [0xC0C0_0000, 0xA7F8_0003],
        );
        turns(0x97F0_0005, BUS_OFF, [0xC0C0_0000, 0xA7F8_000A]);
    }

    fn asked_none_goes_to_none_from_everywhere() {
        turns(0, TICK, [0, 0]);
        turns(0x0800_0000, TICK, [0x8000_0000, 0]);
        turns(0x1008_0003, TICK, [0x8000_0000, 0]);
        turns(0x1800_0000, TICK, [0x8000_0000, 0]);
        turns(0x2010_0003, TICK, [0x8000_0000, 0]);
    }

    fn asked_silent_goes_to_silent_but_stays_in_none() {
        turns(0x4000_0000, TICK, [0, 0x4000_0000]);
        turns(0x4800_0000, TICK, [0, 0x4800_0000]);
        turns(0x5008_0003, TICK, [0x8040_0000, 0x4800_0000]);
        turns(0x5800_0000, TICK, [0x8040_0000, 0x4800_0000]);
        turns(0x6010_0001, TICK, [0x8040_0000, 0x4800_0000]);
    }

    fn asked_full_in_none_or_silent_checks() {
        turns(0x8000_0000, TICK, [0x8080_0000, 0x9000_0005]);
        turns(0x8800_0000, TICK, [0x8080_0000, 0x9000_0005]);
    }

    fn recover_and_check_count_down() {
        turns(0xA008_0003, TICK, [0, 0xA008_0002]);
        turns(0x9008_0005, TICK, [0, 0x9008_0004]);
        turns(0x9800_0000, TICK, [0, 0x9800_0000]);
    }

    fn recover_becomes_check_with_e_ticks_and_keeps_the_counter() {
        turns(0xA018_0001, TICK, [0x8080_0000, 0x9018_0005]);
    }

    fn check_becomes_full_with_counter_0_and_writes_nothing() {
        turns(0x9018_0001, TICK, [0, 0x9800_0000]);
        // Nor is a port that holds something else set right.
        let mut play = Play::of(&usual(), &[0x8040_0000, 0, 0x9000_0001]);
        play.ticks(1);
        assert_eq!(play.state, [0x8040_0000, 0, 0x9800_0000]);
    }

    fn one_transition_a_tick_and_entering_check_is_not_counted() {
        // E-ticks 1: none, check, full, one tick each.
        let brief = with_network(0x1000_2000, 0x0101_0001);
        turns_in(&brief, 0x8000_0000, TICK, [0x8080_0000, 0x9000_0001]);
        turns_in(&brief, 0xA008_0001, TICK, [0x8080_0000, 0x9008_0001]);
        turns_in(&brief, 0x9008_0001, TICK, [0, 0x9800_0000]);
    }

    fn networks_port_is_written_by_the_change_not_by_its_value() {
        // The port shows 3 already; the mark shows that it was written.
        let mut play = Play::of(&usual(), &[0x80C0_0000, 0, 0x9800_0000]);
        play.take(BUS_OFF);
        assert_eq!(play.state, [0xC0C0_0000, 0, 0xA008_0003]);
    }

    fn what_is_shown_is_arbitrated_in_the_same_tick() {
        let shows = |value: u32| {
            table(
                &[deferred(mode(1))],
                &[network(1, 0)],
                &[],
                &[equal(0, value)],
                &[rule(1, 0, 0, NONE)],
                &[list(1, 0, 1)],
                &[call(7)],
            )
        };
        for (network, value) in [(0x1800_0000, 0), (0x5800_0000, 1), (0x8000_0000, 2)] {
            let mut play = Play::of(&shows(value), &[0, 0, network]);
            assert_eq!(play.take(TICK), [0xF100_0000, 0x0100_0007]);
        }
        // Recover is shown by the bus-off and arbitrated at the next tick.
        let mut play = Play::of(&shows(3), &[0, 0, 0x9800_0000]);
        assert_eq!(play.take(BUS_OFF), [0; 0]);
        assert_eq!(play.take(TICK), [0xF100_0000, 0x0100_0007]);
        assert_eq!(play.state, [0x80C0_0000, 0x4000_0000, 0xA008_0002]);
    }

    fn every_network_and_source_of_a_tick_moves() {
        let ports = [deferred(mode(1)); 4];
        let table = table(
            &ports,
            &[network(1, 0), network(1, 1)],
            &[source(1, 2, 1), source(1, 3, 9)],
            &[equal(0, 9)],
            &[rule(1, 0, NONE, NONE)],
            &[],
            &[],
        );
        let mut play =
            Play::of(&table, &[0, 0, 0, 0, 0, 0x8000_0000, 0xA008_0001, 0x4000_0001, 0x4000_0009]);
        play.ticks(1);
        assert_eq!(
            play.state,
            [
                0x8080_0000, 0x8080_0000, 0x80C0_0000, 0, 0, 0x9000_0005, 0x9008_0005, 0xC000_0000,
                0x4000_0008
            ]
        );
    }
}

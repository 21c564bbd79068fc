//! Demand 3's countdowns and exceptions, by hand.

use super::marked::MARKED;
use super::*;

/// Ports 0 mode, 1 the network's and 2 the source's of operator 1, 3 mode of
/// operator 2, 4 the network's of operator 2, 5 mode of the platform. List 0
/// asks operator 1's network for full (request 5), list 1 for none (request 6);
/// list 2 operator 2's for full; list 3, the platform's, operator 1's for none.
/// List 4, operator 1's, asks for none when its network shows what is given.
/// State: 6 ports, 5 rules, networks at 11 and 12, source at 13.
fn two_operators(shown: u32) -> Vec<u32> {
    table(
        &[mode(1), deferred(mode(1)), deferred(mode(1)), mode(2), deferred(mode(2)), mode(0)],
        &[network(1, 1), network(2, 4)],
        &[source(1, 2, 4)],
        &[equal(0, 5), equal(0, 6), equal(3, 5), equal(5, 5), equal(1, shown)],
        &[
            rule(1, 0, 0, NONE),
            rule(1, 1, 1, NONE),
            rule(2, 2, 2, NONE),
            rule(0, 3, 3, NONE),
            rule(1, 4, 4, NONE),
        ],
        &[list(1, 0, 1), list(1, 1, 1), list(2, 2, 1), list(0, 1, 1), list(1, 1, 1)],
        &[ask(0, 2), ask(0, 0), ask(1, 2)],
    )
}

/// Operator 1's network has just been made to recover, counter 1, L 3. It is
/// asked for full once more in case list 4 has asked for none.
fn recovering(shown: u32) -> Play {
    let mut play = Play::fresh(&two_operators(shown));
    play.take(request(1, 0, 5));
    play.take(TICK);
    play.take(request(1, 0, 5));
    play.take(send(BUS_OFF, 1, 0));
    assert_eq!(play.state[11], 0xA008_0003);
    play
}

fixed_cases! {
    fn network_shows_full_at_exactly_its_l_th_tick_and_settles_e_ticks_later() {
        let mut play = Play::of(&MARKED, &[0x8140_0000, 0xC0C0_0000, 0x4000_0000, 0xA008_0003]);
        let mut shown = vec![];
        for _ in 0..9 {
            play.ticks(1);
            shown.push((play.state[1], play.state[3] & 0x3800_0000));
        }
        let (recover, check, full) = (0x2000_0000, 0x1000_0000, 0x1800_0000);
        let expected: Vec<(u32, u32)> = [(0x80C0_0000, recover); 2]
            .into_iter()
            .chain([(0x8080_0000, check); 5])
            .chain([(0x8080_0000, full); 2])
            .collect();
        assert_eq!(shown, expected);
    }

    /// Settled at the tick after the first heard from the L-th tick on; one before is lost.
    fn heard_settles_a_network_at_the_next_tick_from_its_l_th_on() {
        // L 3 and E 5: heard after 0, 1, 2, ... ticks.
        for (heard, settled) in [8, 8, 8, 4, 5, 6, 7, 8].into_iter().enumerate() {
            let mut play = recovering(9);
            for tick in 1..=9 {
                if tick == heard + 1 {
                    play.take(send(HEARD, 1, 0));
                }
                play.ticks(1);
                let due = match tick {
                    0..3 => [0x80C0_0000, 0xA008_0003 - tick as u32],
                    _ if tick < settled => [0x8080_0000, 0x9008_0008 - tick as u32],
                    _ => [0x8080_0000, 0x9800_0000],
                };
                assert_eq!([play.state[1], play.state[11]], due, "heard {heard}, tick {tick}");
            }
        }
    }

    fn only_the_first_heard_counts_and_an_early_one_does_not() {
        let mut play = recovering(9);
        play.take(send(HEARD, 1, 0));
        play.ticks(3);
        assert_eq!(play.state[11], 0x9008_0005);
        play.ticks(1);
        play.take(send(HEARD, 1, 0));
        play.take(send(HEARD, 1, 0));
        play.ticks(1);
        assert_eq!(play.state[11], 0x9800_0000);
    }

    fn only_its_owner_can_shorten_the_check() {
        let mut play = recovering(9);
        // Operator 2's own network is in check too, and heard of.
        play.take(request(2, 3, 5));
        play.ticks(3);
        play.take(send(HEARD, 2, 1));
        assert_eq!([play.state[11], play.state[12]], [0x9008_0005, 0x9004_0003]);
        for owner in [0, 2, 15] {
            assert_eq!(play.answer(send(HEARD, owner, 0)), 6);
        }
        play.ticks(1);
        assert_eq!([play.state[11], play.state[12]], [0x9008_0004, 0x9800_0000]);
        play.take(send(HEARD, 1, 0));
        play.ticks(1);
        assert_eq!([play.state[11], play.state[12]], [0x9800_0000, 0x9800_0000]);
    }

    fn list_asking_for_another_mode_before_the_tick_is_the_exception() {
        let mut play = recovering(9);
        assert_eq!(play.take(request(1, 0, 6)), [0xF101_0000, 0x4100_0000]);
        play.ticks(1);
        assert_eq!([play.state[1], play.state[11]], [0x8000_0000, 0]);
    }

    fn the_ticks_own_lists_run_after_the_networks_have_moved() {
        // List 4 asks for none in the very tick that shows full again.
        let mut play = recovering(2);
        play.ticks(2);
        assert_eq!(play.take(TICK), [0xF104_0000, 0x4100_0000]);
        assert_eq!([play.state[1], play.state[11]], [0x8080_0000, 0x1008_0005]);
        play.ticks(1);
        assert_eq!([play.state[1], play.state[11]], [0x8000_0000, 0]);
    }

    fn the_platform_may_bring_about_the_exception() {
        let mut play = recovering(9);
        assert_eq!(play.take(request(0, 5, 5)), [0xF003_0000, 0x4000_0000]);
        play.ticks(1);
        assert_eq!(play.state[11], 0);
    }

    fn ignored_bus_off_is_not_taken_and_restarts_nothing() {
        let mut play = recovering(9);
        play.ticks(1);
        play.take(send(BUS_OFF, 1, 0));
        assert_eq!(play.state[11], 0xA008_0002);
    }

    fn strangers_bus_off_is_refused_and_so_not_taken() {
        let mut play = recovering(9);
        play.ticks(4);
        assert_eq!(play.state[11], 0x9008_0004);
        assert_eq!(play.answer(send(BUS_OFF, 2, 0)), 6);
        play.ticks(4);
        assert_eq!(play.state[11], 0x9800_0000);
    }

    fn stranger_cannot_validate_or_clear_a_source() {
        let mut play = recovering(9);
        play.take(send(WAKEUP, 1, 0));
        for _ in 0..3 {
            play.ticks(1);
            assert_eq!(play.answer(send(WAKEUP_VALID, 2, 0)), 6);
            assert_eq!(play.answer(send(WAKEUP_CLEAR, 0, 0)), 6);
        }
        assert_eq!(play.state[13], 0x4000_0001);
        play.ticks(1);
        assert_eq!(play.state[13], 0xC000_0000);
    }

    /// "Demand 3's ticks are as before."
    fn event_cleared_at_every_tick_leaves_the_ticks_as_they_are() {
        for port in [event(1), deferred(event(1))] {
            let table = table(
                &[port, deferred(mode(1)), deferred(mode(1))],
                &[network(1, 1)],
                &[source(1, 2, 4)],
                &[cleared(0)],
                &[rule(1, 0, 0, NONE)],
                &[list(1, 0, 1)],
                &[item(1, 0)],
            );
            let state = [0xC000_0000, 0xC0C0_0000, 0xC040_0000, 0, 0xA008_0003, 0x4000_0004];
            let mut play = Play::of(&table, &state);
            let mut seen = vec![];
            for _ in 0..8 {
                assert_eq!(play.take(TICK), [0xF100_0000, 0x1100_0000]);
                seen.push([play.state[4], play.state[5]]);
            }
            assert_eq!(seen[1], [0xA008_0001, 0x4000_0002]);
            assert_eq!(seen[2], [0x9008_0005, 0x4000_0001]);
            assert_eq!(seen[3], [0x9008_0004, 0xC000_0000]);
            assert_eq!(seen[6], [0x9008_0001, 0xC000_0000]);
            assert_eq!(seen[7], [0x9800_0000, 0xC000_0000]);
        }
    }

    fn with_a_strangers_events_struck_out_the_ticks_are_the_same() {
        let (mut with, mut without) = (recovering(9), recovering(9));
        with.take(send(WAKEUP, 1, 0));
        without.take(send(WAKEUP, 1, 0));
        let stranger =
            [request(2, 3, 5), send(BUS_OFF, 2, 1), request(2, 3, 1), send(BUS_OFF, 2, 1)];
        for event in stranger {
            with.take(event);
            with.ticks(1);
            without.ticks(1);
            // Operator 1's and the platform's words: all but port 3, port 4, rule 2, network 1.
            for word in [0, 1, 2, 5, 6, 7, 9, 10, 11, 13] {
                assert_eq!(with.state[word], without.state[word]);
            }
        }
        assert_ne!(with.state[12], without.state[12]);
        // Three ticks to show full, one more counted; the source has expired.
        assert_eq!([with.state[11], with.state[13]], [0x9008_0004, 0xC000_0000]);
    }

    fn with_a_strangers_heards_struck_out_the_same_is_heard_at_the_same_ticks() {
        let (mut with, mut without) = (recovering(9), recovering(9));
        let mut settled = None;
        for tick in 1..=6 {
            with.take(request(2, 3, 5));
            with.take(send(HEARD, 2, 1));
            assert_eq!(with.answer(send(HEARD, 2, 0)), 6);
            if tick == 6 {
                with.take(send(HEARD, 1, 0));
                without.take(send(HEARD, 1, 0));
            }
            with.ticks(1);
            without.ticks(1);
            assert_eq!(with.state[11], without.state[11]);
            if settled.is_none() && with.state[11] == 0x9800_0000 {
                settled = Some(tick);
            }
        }
        assert_eq!(settled, Some(6));
        assert_eq!([with.state[12], without.state[12]], [0x9800_0000, 0]);
    }

    fn to_the_platform_every_operator_is_a_stranger() {
        let mut play = recovering(9);
        play.take(request(0, 5, 5));
        // The platform's words, port 5 and rule 3, whatever the operators send.
        assert_eq!([play.state[5], play.state[9]], [0x8140_0000, 0x4000_0000]);
        assert_eq!(play.answer(request(1, 5, 6)), 6);
        assert_eq!(play.answer(request(2, 5, 6)), 6);
        play.take(request(1, 0, 6));
        play.take(request(2, 3, 5));
        assert_eq!([play.state[5], play.state[9]], [0x8140_0000, 0x4000_0000]);
    }
}

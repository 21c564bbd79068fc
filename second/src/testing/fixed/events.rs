//! Answers 1 to 6, and requests.

use super::marked::MARKED;
use super::shape::{BASE, LEAST};
use super::*;
use crate::Stepped;

/// Port 0 as given; rule 0, true where it is 5 (a mode port) or set, starts
/// conditional list 0, which calls 7.
fn on(port: u32) -> Vec<u32> {
    let mode = Port::of(port).kind == port::MODE;
    let expression = if mode { equal(0, 5) } else { set(0) };
    plain(&[port], &[expression], &[rule(1, 0, 0, NONE)], &[list(1, 0, 1)], &[call(7)])
}

#[track_caller]
fn answers(events: &[u32], answer: u32) {
    for &event in events {
        assert_eq!(Play::fresh(&BASE).answer(event), answer, "{event:08X}");
    }
}

fixed_cases! {
    /// Everything is wrong at first, and is mended from the first check on.
    fn answers_come_in_order() {
        let step = |table: &[u32], length: usize, room: usize, event: u32| {
            step(table, &mut vec![0; length], &mut vec![0; room], event, &[]).answer
        };
        assert_eq!(step(&MARKED[..11], 3, 0, 0xF200_00FF), 1);
        assert_eq!(step(&MARKED, 3, 0, 0xF200_00FF), 2);
        assert_eq!(step(&MARKED, 4, 2, 0xF200_00FF), 3);
        assert_eq!(step(&MARKED, 4, 3, 0xF200_00FF), 4);
        assert_eq!(step(&MARKED, 4, 3, 0x2200_0000), 5);
        assert_eq!(step(&MARKED, 4, 3, 0x1200_0500), 6);
        assert_eq!(step(&MARKED, 4, 3, 0x1100_0500), 0);
    }

    fn any_input_at_all_is_answered() {
        assert_eq!(step(&[], &mut [], &mut [], TICK, &[]).answer, 1);
        let most = 0xFFFF_FFFF;
        assert_eq!(step(&[most; 40], &mut [most; 3], &mut [], most, &[most]).answer, 1);
        assert_eq!(step(&BASE, &mut [0xFFFF_FFFF; 9], &mut [0; 13], 0xFFFF_FFFF, &[]).answer, 2);
        assert_eq!(step(&BASE, &mut [], &mut [0; 13], TICK, &[]).answer, 2);
    }

    fn no_room_is_enough_where_b_is_0() {
        let done = Stepped { answer: 0, count: 0, visits: 0 };
        assert_eq!(step(&LEAST, &mut [0, 0], &mut [], TICK, &[]), done);
    }

    fn tick_with_any_other_bit_is_4() {
        let ticks: Vec<u32> = (0..28).map(|bit| 1 << bit).collect();
        answers(&ticks, 4);
    }

    fn kind_above_7_is_4() {
        let kinds: Vec<u32> = (8..16).map(|kind| send(kind, 1, 0)).collect();
        answers(&kinds, 4);
    }

    fn low_byte_is_4_in_every_kind() {
        let kinds: Vec<u32> =
            (0..8).flat_map(|kind| [send(kind, 1, 0) | 1, send(kind, 1, 0) | 0x80]).collect();
        answers(&kinds, 4);
    }

    fn value_outside_kind_1_is_4() {
        let kinds: Vec<u32> = (2..8).map(|kind| send(kind, 1, 0) | 0x100).collect();
        answers(&kinds, 4);
    }

    fn answer_4_comes_before_5_and_6() {
        answers(&[0x22FF_0100, 0x32FF_0001], 4);
    }

    fn absent_things_are_5() {
        let one_past = [
            (MODE_REQUEST, 5),
            (EVENT_REQUEST, 5),
            (WAKEUP, 1),
            (WAKEUP_VALID, 1),
            (BUS_OFF, 1),
            (WAKEUP_CLEAR, 1),
            (HEARD, 1),
        ];
        answers(&one_past.map(|(kind, index)| send(kind, 1, index)), 5);
        answers(&one_past.map(|(kind, _)| send(kind, 1, 255)), 5);
    }

    fn mode_request_on_no_mode_port_is_5() {
        answers(&[request(1, 3, 0), request(1, 4, 1)], 5);
    }

    fn mode_request_on_a_networks_or_sources_port_is_5_for_its_owner_too() {
        answers(&[request(1, 1, 2), request(1, 2, 1)], 5);
    }

    fn event_request_on_no_event_port_is_5() {
        answers(
            &[send(EVENT_REQUEST, 1, 0), send(EVENT_REQUEST, 1, 4), send(EVENT_REQUEST, 1, 1)],
            5,
        );
    }

    fn answer_5_comes_before_6() {
        answers(&[request(2, 5, 0), send(BUS_OFF, 2, 1), send(HEARD, 2, 1), request(2, 1, 0)], 5);
    }

    fn another_owner_is_6_the_platform_too() {
        for owner in [0, 2, 15] {
            answers(&[request(owner, 0, 5), send(EVENT_REQUEST, owner, 3)], 6);
            answers(
                &[WAKEUP, WAKEUP_VALID, BUS_OFF, WAKEUP_CLEAR, HEARD]
                    .map(|kind| send(kind, owner, 0)),
                6,
            );
        }
    }

    fn answers_4_5_6_read_the_table_only() {
        // Bus-off and heard are ignored in none and the clear finds nothing: all are done.
        let mut play = Play::fresh(&BASE);
        let before = play.state.clone();
        for kind in [BUS_OFF, WAKEUP_VALID, WAKEUP_CLEAR, HEARD] {
            assert_eq!(play.take(send(kind, 1, 0)), [0; 0]);
        }
        assert_eq!(play.state, before);
        // A settled network does not make the wrong owner or port any better.
        let settled = with(&before, 7, 0x9800_0000);
        assert_eq!(Play::of(&BASE, &settled).answer(send(BUS_OFF, 2, 0)), 6);
        assert_eq!(Play::of(&BASE, &settled).answer(request(1, 1, 2)), 5);
    }

    fn immediate_request_is_arbitrated_now_the_same_value_included() {
        let mut play = Play::fresh(&on(mode(1)));
        for _ in 0..2 {
            assert_eq!(play.take(request(1, 0, 5)), [0xF100_0000, 0x0100_0007]);
            assert_eq!(play.state, [0x8140_0000, 0x4000_0000]);
        }
        play.ticks(1);
    }

    fn deferred_request_waits_for_the_tick_the_same_value_included() {
        let mut play = Play::fresh(&on(deferred(mode(1))));
        for _ in 0..2 {
            assert_eq!(play.take(request(1, 0, 5)), [0; 0]);
            assert_eq!(play.state[0], 0xC140_0000);
            assert_eq!(play.take(TICK), [0xF100_0000, 0x0100_0007]);
            assert_eq!(play.state[0], 0x8140_0000);
            // Unmarked, it is not arbitrated again.
            play.ticks(1);
        }
    }

    fn event_request_sets_1_at_once_or_at_the_tick() {
        let mut now = Play::fresh(&on(event(1)));
        assert_eq!(now.take(send(EVENT_REQUEST, 1, 0)), [0xF100_0000, 0x0100_0007]);
        assert_eq!(now.state, [0x8040_0000, 0x4000_0000]);
        let mut later = Play::fresh(&on(deferred(event(1))));
        assert_eq!(later.take(send(EVENT_REQUEST, 1, 0)), [0; 0]);
        assert_eq!(later.state, [0xC040_0000, 0]);
        assert_eq!(later.take(TICK), [0xF100_0000, 0x0100_0007]);
        assert_eq!(later.state, [0x8040_0000, 0x4000_0000]);
    }

    fn request_value_is_the_whole_byte() {
        let mut play = Play::fresh(&on(mode(1)));
        assert_eq!(play.take(request(1, 0, 255)), [0; 0]);
        assert_eq!(play.state[0], 0xBFC0_0000);
        play.take(request(1, 0, 0));
        assert_eq!(play.state[0], 0x8000_0000);
    }

    fn events_of_the_platform_on_its_own_port() {
        let mut play =
            Play::fresh(&plain(&[mode(0)], &[equal(0, 5)], &[rule(0, 0, NONE, NONE)], &[], &[]));
        assert_eq!(play.take(request(0, 0, 5)), [0; 0]);
        assert_eq!(play.state, [0x8140_0000, 0x4000_0000]);
    }
}

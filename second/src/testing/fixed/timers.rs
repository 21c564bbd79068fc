//! Timers.

use super::*;

/// Port 0 as given, port 1 a timer. A request of 1 starts it (list 0), one of 2
/// stops it (list 1); rule 2 on the timer being started calls 7 (list 2) where
/// it is, and 8 (list 3) where it is not. State: [port 0, timer, rules].
fn timed(port: u32, reload: u32) -> Vec<u32> {
    plain(
        &[port, timer(1, reload)],
        &[equal(0, 1), equal(0, 2), equal(1, 1)],
        &[rule(1, 0, 0, NONE), rule(1, 1, 1, NONE), rule(1, 2, 2, 3)],
        &[list(1, 0, 1), list(1, 1, 1), list(1, 2, 1), list(1, 3, 1)],
        &[item(2, 1), item(3, 1), call(7), call(8)],
    )
}

const START: [u32; 2] = [0xF100_0000, 0x2101_0000];
const STOP: [u32; 2] = [0xF101_0000, 0x3101_0000];
const IS_STARTED: [u32; 2] = [0xF102_0000, 0x0100_0007];
const IS_NOT: [u32; 2] = [0xF103_0000, 0x0100_0008];

fixed_cases! {
    fn start_reloads_and_marks() {
        let mut play = Play::fresh(&timed(mode(1), 3));
        assert_eq!(play.take(request(1, 0, 1)), START);
        assert_eq!(play.state[1], 0xC040_0003);
    }

    fn timer_is_marked_at_start_and_expiry_but_not_while_it_counts() {
        let mut play = Play::fresh(&timed(mode(1), 3));
        play.take(request(1, 0, 1));
        assert_eq!(play.take(TICK), IS_STARTED);
        assert_eq!(play.state[1], 0x8040_0002);
        assert_eq!(play.take(TICK), [0; 0]);
        assert_eq!(play.state[1], 0x8040_0001);
        assert_eq!(play.take(TICK), IS_NOT);
        assert_eq!(play.state[1], 0x8080_0000);
        play.ticks(2);
        assert_eq!(play.state[1], 0x8080_0000);
    }

    fn stop_zeroes_and_marks() {
        let mut play = Play::fresh(&timed(mode(1), 3));
        play.take(request(1, 0, 1));
        play.take(TICK);
        assert_eq!(play.take(request(1, 0, 2)), STOP);
        assert_eq!(play.state[1], 0xC000_0000);
        assert_eq!(play.take(TICK), IS_NOT);
        assert_eq!(play.state[1], 0x8000_0000);
        play.ticks(4);
    }

    fn stop_marks_a_stopped_timer_too() {
        let mut play = Play::fresh(&timed(mode(1), 3));
        assert_eq!(play.take(request(1, 0, 2)), STOP);
        assert_eq!(play.state[1], 0xC000_0000);
    }

    fn start_reloads_a_started_and_an_expired_timer() {
        for timer in [0x8040_0001, 0x8080_0000] {
            let mut play = Play::of(&timed(mode(1), 3), &[0, timer, 0, 0, 0]);
            play.take(request(1, 0, 1));
            assert_eq!(play.state[1], 0xC040_0003);
        }
    }

    fn timer_is_not_counted_down_in_the_tick_that_started_it() {
        let mut play = Play::fresh(&timed(deferred(mode(1)), 3));
        play.take(request(1, 0, 1));
        assert_eq!(play.take(TICK), START);
        assert_eq!(play.state[1], 0xC040_0003);
        assert_eq!(play.take(TICK), IS_STARTED);
        assert_eq!(play.state[1], 0x8040_0002);
    }

    fn reload_1_expires_at_the_next_tick() {
        let mut play = Play::fresh(&timed(deferred(mode(1)), 1));
        play.take(request(1, 0, 1));
        assert_eq!(play.take(TICK), START);
        assert_eq!(play.state[1], 0xC040_0001);
        assert_eq!(play.take(TICK), IS_NOT);
        assert_eq!(play.state[1], 0x8080_0000);
    }

    fn marks_set_by_lists_wait_for_the_next_tick() {
        // The start in this tick's list does not bring rule 2 in at once.
        let mut play = Play::fresh(&timed(deferred(mode(1)), 9));
        play.take(request(1, 0, 1));
        assert_eq!(play.take(TICK), START);
        assert_eq!(play.state[4], 0);
        assert_eq!(play.take(TICK), IS_STARTED);
        assert_eq!(play.state[4], 0x4000_0000);
    }

    fn timers_move_before_the_marked_ports_are_arbitrated() {
        // In one tick the timer expires and port 0, marked, starts it again.
        let mut play = Play::of(&timed(deferred(mode(1)), 3), &[0xC040_0000, 0x8040_0001, 0, 0, 0]);
        assert_eq!(play.take(TICK), [START, IS_NOT].concat());
        assert_eq!(play.state[1], 0xC040_0003);
    }
}

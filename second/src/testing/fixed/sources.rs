//! Wakeup sources.

use super::*;

const WAKE: u32 = 0x3100_0000;
const VALID: u32 = 0x4100_0000;
const CLEAR: u32 = 0x6100_0000;

/// Port 0 the source's, with the timeout given; its state is [port, rule, source].
fn woken_after(timeout: u32) -> Vec<u32> {
    let port = deferred(mode(1));
    table(
        &[port],
        &[],
        &[source(1, 0, timeout)],
        &[equal(0, 9)],
        &[rule(1, 0, NONE, NONE)],
        &[],
        &[],
    )
}

/// From a source in this state, with an undefined port, to port and source.
#[track_caller]
fn turns(source: u32, event: u32, port_and_source: [u32; 2]) {
    let mut play = Play::of(&woken_after(4), &[0, 0, source]);
    play.take(event);
    assert_eq!([play.state[0], play.state[2]], port_and_source);
}

fixed_cases! {
    fn event_words_are_the_helpers() {
        assert_eq!(
            [WAKE, VALID, CLEAR],
            [WAKEUP, WAKEUP_VALID, WAKEUP_CLEAR].map(|kind| send(kind, 1, 0))
        );
    }

    fn wakeup_on_none_or_expired_is_pending_for_the_timeout() {
        turns(0, WAKE, [0xC040_0000, 0x4000_0004]);
        turns(0xC000_0000, WAKE, [0xC040_0000, 0x4000_0004]);
    }

    fn wakeup_with_timeout_0_is_validated() {
        for source in [0, 0xC000_0000] {
            let mut play = Play::of(&woken_after(0), &[0, 0, source]);
            play.take(WAKE);
            assert_eq!(play.state, [0xC080_0000, 0, 0x8000_0000]);
        }
    }

    fn repeated_wakeup_does_not_restart_the_timeout() {
        turns(0x4000_0002, WAKE, [0, 0x4000_0002]);
    }

    fn wakeup_on_validated_changes_nothing() {
        turns(0x8000_0000, WAKE, [0, 0x8000_0000]);
    }

    fn valid_turns_pending_only() {
        turns(0x4000_0003, VALID, [0xC080_0000, 0x8000_0000]);
        turns(0, VALID, [0, 0]);
        turns(0x8000_0000, VALID, [0, 0x8000_0000]);
        turns(0xC000_0000, VALID, [0, 0xC000_0000]);
    }

    fn clear_turns_all_to_none_and_on_none_writes_nothing() {
        turns(0x4000_0003, CLEAR, [0xC000_0000, 0]);
        turns(0x8000_0000, CLEAR, [0xC000_0000, 0]);
        turns(0xC000_0000, CLEAR, [0xC000_0000, 0]);
        turns(0, CLEAR, [0, 0]);
    }

    fn pending_expires_at_exactly_its_timeouts_tick() {
        let mut play = Play::fresh(&woken_after(4));
        play.take(WAKE);
        play.ticks(1);
        assert_eq!(play.state, [0x8040_0000, 0, 0x4000_0003]);
        play.ticks(2);
        assert_eq!(play.state, [0x8040_0000, 0, 0x4000_0001]);
        // Written, marked and arbitrated in the same tick.
        play.ticks(1);
        assert_eq!(play.state, [0x80C0_0000, 0, 0xC000_0000]);
        play.ticks(1);
        assert_eq!(play.state, [0x80C0_0000, 0, 0xC000_0000]);
    }

    fn counting_down_writes_no_port() {
        turns(0x4000_0003, TICK, [0, 0x4000_0002]);
    }

    fn sources_port_is_written_by_the_change_not_by_its_value() {
        // The port holds 1 already; becoming pending marks it all the same.
        let mut play = Play::of(&woken_after(4), &[0x8040_0000, 0, 0]);
        play.take(WAKE);
        assert_eq!(play.state, [0xC040_0000, 0, 0x4000_0004]);
        // It holds 3 while the source stays pending: nothing writes it.
        let mut play = Play::of(&woken_after(4), &[0x80C0_0000, 0, 0x4000_0002]);
        play.take(WAKE);
        assert_eq!(play.state, [0x80C0_0000, 0, 0x4000_0002]);
    }

    fn events_on_a_source_are_not_arbitrated_before_the_tick() {
        let port = deferred(mode(1));
        let table = table(
            &[port],
            &[],
            &[source(1, 0, 4)],
            &[equal(0, 1)],
            &[rule(1, 0, 0, NONE)],
            &[list(1, 0, 1)],
            &[call(7)],
        );
        let mut play = Play::fresh(&table);
        assert_eq!(play.take(WAKE), [0; 0]);
        assert_eq!(play.take(TICK), [0xF100_0000, 0x0100_0007]);
    }
}

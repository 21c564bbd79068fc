//! "One table whole (marked)", number by number.

use super::*;

pub const MARKED: [u32; 12] = [
    0x0102_0100, 0x0001_0001, 0x0001_0002, 0x0100_0000, 0x2100_0000, 0x1010_2000, 0x030A_0005,
    0x0000_5000, 0x1000_00FF, 0x1838_0002, 0x4000_0002, 0x0000_1234,
];

const REQUEST: u32 = 0x1100_0500;
const BUS_OFF: u32 = 0x5100_0000;

/// After the request, one tick and the bus-off.
fn after_bus_off() -> Play {
    let mut play = Play::fresh(&MARKED);
    play.take(REQUEST);
    play.ticks(1);
    assert_eq!(play.take(BUS_OFF), [0; 0]);
    play
}

fixed_cases! {
    fn marked_table_stands_with_b_3() {
        stands(&MARKED, 3);
    }

    fn marked_table_is_what_the_helpers_pack() {
        let packed = table(
            &[mode(1), deferred(mode(1))],
            &[network(1, 1)],
            &[],
            &[equal(0, 5)],
            &[rule(1, 0, 0, NONE)],
            &[priority(7, triggered(list(1, 0, 2)))],
            &[ask(0, 2), call(0x1234)],
        );
        assert_eq!(packed, MARKED);
    }

    fn marked_fresh_is_four_zero_words() {
        let mut state = [0xAAAA_AAAA; 4];
        assert_eq!(fresh(&MARKED, &mut state), 0);
        assert_eq!(state, [0; 4]);
    }

    fn marked_request() {
        let mut play = Play::fresh(&MARKED);
        assert_eq!(play.take(REQUEST), [0xF100_0000, 0x4100_0002, 0x0100_1234]);
        assert_eq!(play.state, [0x8140_0000, 0, 0x4000_0000, 0x8000_0000]);
    }

    fn marked_tick() {
        let mut play = Play::fresh(&MARKED);
        play.take(REQUEST);
        assert_eq!(play.take(TICK), [0; 0]);
        assert_eq!(play.state, [0x8140_0000, 0x8080_0000, 0x4000_0000, 0x9000_0005]);
    }

    fn marked_bus_off() {
        let state = after_bus_off().state;
        assert_eq!(state, [0x8140_0000, 0xC0C0_0000, 0x4000_0000, 0xA008_0003]);
    }

    fn marked_three_ticks() {
        let mut play = after_bus_off();
        play.ticks(3);
        assert_eq!(play.state, [0x8140_0000, 0x8080_0000, 0x4000_0000, 0x9008_0005]);
    }

    fn marked_five_more_ticks() {
        let mut play = after_bus_off();
        play.ticks(8);
        assert_eq!(play.state, [0x8140_0000, 0x8080_0000, 0x4000_0000, 0x9800_0000]);
    }

    fn marked_malformed_is_4() {
        assert_eq!(Play::fresh(&MARKED).answer(0x2100_0500), 4);
    }

    fn marked_no_event_port_is_5() {
        assert_eq!(Play::fresh(&MARKED).answer(0x2100_0000), 5);
    }

    fn marked_wrong_owner_is_6() {
        assert_eq!(Play::fresh(&MARKED).answer(0x1200_0500), 6);
    }

    fn marked_two_words_of_room_is_3() {
        let (mut state, mut trace) = ([0; 4], [0x5555_5555; 2]);
        let stepped = step(&MARKED, &mut state, &mut trace, REQUEST, &[]);
        assert_eq!((stepped.answer, stepped.count), (3, 0));
        assert_eq!((state, trace), ([0; 4], [0x5555_5555; 2]));
    }

    /// Room is asked for whatever the event would write.
    fn marked_two_words_of_room_is_3_for_a_tick_too() {
        let (mut state, mut trace) = ([0; 4], [0; 2]);
        assert_eq!(step(&MARKED, &mut state, &mut trace, TICK, &[]).answer, 3);
    }

    fn marked_more_room_leaves_later_words() {
        let (mut state, mut trace) = ([0; 4], [0x5555_5555; 5]);
        let stepped = step(&MARKED, &mut state, &mut trace, REQUEST, &[]);
        assert_eq!((stepped.answer, stepped.count), (0, 3));
        assert_eq!(trace[3..], [0x5555_5555; 2]);
    }
}

//! Calls that fail: the marked table with another call behind its own, in
//! both editions, through the wrapper.

use herringcart::{Answer, Check, End, Played, check_table, play, take_event};

const GOOD: u32 = 0;
const FAILED: u32 = 1;
const TICK: u32 = 0;
const REQUEST: u32 = 0x1100_0500;
const UNTOUCHED: u32 = 0x5555_5555;
const FRESH: [u32; 4] = [0; 4];
const DONE: [u32; 4] = [0x8140_0000, 0, 0x4000_0000, 0x8000_0000];
const WORDS: [u32; 4] = [0xF100_0000, 0x4100_0002, 0x0100_1234, 0x0100_1235];

/// Of edition 0, and without the first of the two calls.
const UNFINISHED: [u32; 13] = [
    0x0002_0100, 0x0001_0001, 0x0001_0003, 0x0100_0000, 0x2100_0000, 0x1010_2000, 0x030A_0005,
    0x0000_5000, 0x1000_00FF, 0x1838_0003, 0x4000_0002, 0x0000_0000, 0x0000_1235,
];

/// Of this edition, with this word for the first of the two calls.
fn table(edition: u32, call: u32) -> [u32; 13] {
    let mut table = UNFINISHED;
    table[0] |= edition << 24;
    table[11] = call;
    table
}

fn one() -> [u32; 13] {
    table(1, 0x0000_1234)
}

/// The first of the two calls has abort.
fn two() -> [u32; 13] {
    table(2, 0x0800_1234)
}

/// From a fresh state with B trace words lent: the answer, the state after it,
/// and what the trace then holds.
fn take(table: &[u32], outcomes: &[u32], event: u32) -> (Answer, [u32; 4], [u32; 4]) {
    let (mut state, mut trace) = (FRESH, [UNTOUCHED; 4]);
    (take_event(table, &mut state, &mut trace, outcomes, event), state, trace)
}

fn refused(number: u32) -> (Answer, [u32; 4], [u32; 4]) {
    (Answer { number, count: 0, visits: 0 }, FRESH, [UNTOUCHED; 4])
}

#[test]
fn a_failed_call_with_abort_stops_its_list() {
    let all = (Answer { number: 0, count: 4, visits: 1 }, DONE, WORDS);
    for outcomes in [&[][..], &[GOOD], &[GOOD, GOOD], &[GOOD, FAILED], &[GOOD, GOOD, FAILED]] {
        assert_eq!(take(&two(), outcomes, REQUEST), all, "{outcomes:?}");
    }
    let [start, ask, call, _] = WORDS;
    let stopped = (Answer { number: 0, count: 3, visits: 1 }, DONE, [start, ask, call, UNTOUCHED]);
    for outcomes in [&[FAILED][..], &[FAILED, GOOD], &[FAILED, FAILED]] {
        assert_eq!(take(&two(), outcomes, REQUEST), stopped, "{outcomes:?}");
    }
    // Without abort, and in edition 1, the list goes on.
    assert_eq!(take(&table(2, 0x0000_1234), &[FAILED, FAILED], REQUEST), all);
    assert_eq!(take(&one(), &[FAILED, FAILED], REQUEST), all);
}

#[test]
fn an_outcome_above_1_is_refused_wherever_it_stands() {
    for table in [one(), two()] {
        for outcomes in [&[2][..], &[GOOD, 2], &[FAILED, FAILED, FAILED, u32::MAX]] {
            for event in [REQUEST, TICK, 0x2100_0000, 0x1200_0500] {
                assert_eq!(take(&table, outcomes, event), refused(8), "{outcomes:?}, {event:08X}");
            }
            assert_eq!(take(&table, outcomes, 0x2100_0500), refused(4));
            let (mut state, mut short) = (FRESH, [UNTOUCHED; 3]);
            assert_eq!(take_event(&table, &mut state, &mut short, outcomes, REQUEST).number, 3);
        }
        assert_eq!(take(&table, &[FAILED], 0x2100_0000), refused(5));
        assert_eq!(take(&table, &[FAILED], 0x1200_0500), refused(6));
    }
}

#[test]
fn in_play_all_calls_are_good() {
    let (mut state, mut trace) = (FRESH, [UNTOUCHED; 4]);
    let played = play(&two(), &mut state, &mut trace, &[REQUEST]);
    assert_eq!(played, Played { end: End::Done, taken: 1, count: 4, visits: 1 });
    assert_eq!((state, trace), (DONE, WORDS));
}

#[test]
fn the_editions_and_where_abort_may_stand() {
    for good in [one(), two()] {
        assert_eq!(check_table(&good), Check { reason: 0, place: 0, bound: 4 });
    }
    for edition in [0, 3, 255] {
        let other = table(edition, 0x0000_1234);
        assert_eq!(check_table(&other), Check { reason: 2, place: 0, bound: 0 });
    }
    // In edition 1 the bit is part of a, which is 0 in a call; in edition 2 no other item has abort.
    assert_eq!(check_table(&table(1, 0x0800_1234)), Check { reason: 5, place: 11, bound: 0 });
    assert_eq!(check_table(&table(2, 0x4800_0002)), Check { reason: 5, place: 11, bound: 0 });
}

#[test]
fn the_archive_is_of_the_wrapper_s_version() {
    assert_eq!(herringcart::version(), herringcart::VERSION);
    let (major, minor) = (herringcart::VERSION >> 16, herringcart::VERSION & 0xFFFF);
    assert_eq!(format!("{major}.{minor}"), include_str!("../../../VERSION").trim_end());
}

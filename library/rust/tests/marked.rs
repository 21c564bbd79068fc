//! Document 01's marked table, number by number, through the wrapper.

use herringcart::{
    Answer, Check, End, Played, check_state, check_table, make_fresh, play, state_words, take_event,
};

const TABLE: [u32; 12] = [
    0x0102_0100, 0x0001_0001, 0x0001_0002, 0x0100_0000, 0x2100_0000, 0x1010_2000, 0x030A_0005,
    0x0000_5000, 0x1000_00FF, 0x1838_0002, 0x4000_0002, 0x0000_1234,
];
const TICK: u32 = 0;
const REQUEST: u32 = 0x1100_0500;
const BUS_OFF: u32 = 0x5100_0000;
const HEARD: u32 = 0x7100_0000;
const UNTOUCHED: u32 = 0x5555_5555;

/// Takes one event with B trace words lent; gives the answer and the trace.
fn take(state: &mut [u32], event: u32) -> (Answer, [u32; 3]) {
    let mut trace = [UNTOUCHED; 3];
    (take_event(&TABLE, state, &mut trace, &[], event), trace)
}

fn quiet(state: &mut [u32], events: &[u32]) {
    for &event in events {
        assert_eq!(take(state, event), (Answer { number: 0, count: 0, visits: 0 }, [UNTOUCHED; 3]));
    }
}

#[test]
fn the_marked_run() {
    assert_eq!(check_table(&TABLE), Check { reason: 0, place: 0, bound: 3 });
    assert_eq!(state_words(&TABLE), 4);
    let mut state = [0xAAAA_AAAA; 4];
    assert_eq!(make_fresh(&TABLE, &mut state), 0);
    assert_eq!((state, check_state(&TABLE, &state)), ([0; 4], 0));
    let (answer, trace) = take(&mut state, REQUEST);
    assert_eq!(answer, Answer { number: 0, count: 3, visits: 1 });
    assert_eq!(trace, [0xF100_0000, 0x4100_0002, 0x0100_1234]);
    assert_eq!(state, [0x8140_0000, 0, 0x4000_0000, 0x8000_0000]);
    quiet(&mut state, &[TICK]);
    assert_eq!(state, [0x8140_0000, 0x8080_0000, 0x4000_0000, 0x9000_0005]);
    quiet(&mut state, &[BUS_OFF]);
    assert_eq!(state, [0x8140_0000, 0xC0C0_0000, 0x4000_0000, 0xA008_0003]);
    quiet(&mut state, &[TICK; 3]);
    assert_eq!(state[3], 0x9008_0005);
    quiet(&mut state, &[TICK; 5]);
    assert_eq!(state[3], 0x9800_0000);
}

#[test]
fn heard_ends_the_check() {
    let mut state = [0x8140_0000, 0x8080_0000, 0x4000_0000, 0x9008_0005];
    quiet(&mut state, &[HEARD]);
    assert_eq!(state[3], 0x900C_0005);
    quiet(&mut state, &[TICK]);
    assert_eq!(state, [0x8140_0000, 0x8080_0000, 0x4000_0000, 0x9800_0000]);
    quiet(&mut state, &[HEARD]);
    assert_eq!(state[3], 0x9800_0000);
}

#[test]
fn the_marked_refusals_change_nothing() {
    let mut state = [0; 4];
    for (event, number) in [(0x2100_0500, 4), (0x2100_0000, 5), (0x1200_0500, 6)] {
        assert_eq!(
            take(&mut state, event),
            (Answer { number, count: 0, visits: 0 }, [UNTOUCHED; 3])
        );
    }
    let mut short = [UNTOUCHED; 2];
    let answer = take_event(&TABLE, &mut state, &mut short, &[], REQUEST);
    assert_eq!((answer, short), (Answer { number: 3, count: 0, visits: 0 }, [UNTOUCHED; 2]));
    assert_eq!(take_event(&TABLE[..11], &mut state, &mut short, &[], REQUEST).number, 1);
    assert_eq!(take_event(&TABLE, &mut state[..3], &mut short, &[], REQUEST).number, 2);
    assert_eq!(state, [0; 4]);
}

#[test]
fn refused_tables_and_states() {
    assert_eq!(check_table(&[]), Check { reason: 1, place: 0, bound: 0 });
    let mut wrong = TABLE;
    wrong[6] = 0;
    assert_eq!(check_table(&wrong), Check { reason: 5, place: 6, bound: 0 });
    let mut state = [7; 4];
    assert_eq!((make_fresh(&wrong, &mut state), make_fresh(&TABLE, &mut state[..3])), (1, 2));
    assert_eq!((check_state(&wrong, &state), check_state(&TABLE, &state)), (1, 2));
    assert_eq!(state, [7; 4]);
}

const LAST: [u32; 4] = [0x8140_0000, 0x8080_0000, 0x4000_0000, 0x9008_0005];

#[test]
fn the_run_played_until_a_refused_event() {
    let day = [REQUEST, TICK, BUS_OFF, TICK, TICK, TICK, 0x1200_0500, TICK];
    let (mut state, mut trace) = ([0; 4], [UNTOUCHED; 6]);
    let played = play(&TABLE, &mut state, &mut trace, &day);
    assert_eq!(played, Played { end: End::NotItsOwner, taken: 6, count: 3, visits: 1 });
    assert_eq!((played.end.number(), state), (6, LAST));
    assert_eq!(trace, [0xF100_0000, 0x4100_0002, 0x0100_1234, UNTOUCHED, UNTOUCHED, UNTOUCHED]);
}

#[test]
fn a_full_trace_is_resumed_from_its_event() {
    let day = [REQUEST, TICK, BUS_OFF, TICK, TICK, TICK];
    let (mut state, mut trace) = ([0; 4], [UNTOUCHED; 5]);
    let played = play(&TABLE, &mut state, &mut trace, &day);
    assert_eq!(played, Played { end: End::TraceFull, taken: 1, count: 3, visits: 1 });
    assert_eq!(state, [0x8140_0000, 0, 0x4000_0000, 0x8000_0000]);
    let rest = play(&TABLE, &mut state, &mut trace, &day[played.taken..]);
    assert_eq!(rest, Played { end: End::Done, taken: 5, count: 0, visits: 0 });
    assert_eq!(state, LAST);
}

#[test]
fn what_ends_a_play_changes_nothing() {
    for (table, words, room, events, end) in [
        (&TABLE[..11], 4, 3, &[][..], End::BadTable),
        (&TABLE, 3, 3, &[], End::UnfitState),
        (&TABLE, 4, 2, &[], End::Done),
        (&TABLE, 4, 2, &[0x2100_0500], End::TraceFull),
        (&TABLE, 4, 3, &[0x2100_0500], End::Malformed),
        (&TABLE, 4, 3, &[0x2100_0000], End::NoSuchThing),
        (&TABLE, 4, 3, &[0x1200_0500], End::NotItsOwner),
    ] {
        let (mut state, mut trace) = ([0; 4], [UNTOUCHED; 3]);
        let played = play(table, &mut state[..words], &mut trace[..room], events);
        assert_eq!(played, Played { end, taken: 0, count: 0, visits: 0 });
        assert_eq!((state, trace), ([0; 4], [UNTOUCHED; 3]));
    }
}

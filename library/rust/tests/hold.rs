//! A supplier's recording held against ours, through the wrapper: of the
//! marked run's first event, and of a call that fails.

use herringcart::Verdict::*;
use herringcart::{Answer, Verdict, hold, take_event};

const MARKED: [u32; 12] = [
    0x0102_0100, 0x0001_0001, 0x0001_0002, 0x0100_0000, 0x2100_0000, 0x1010_2000, 0x030A_0005,
    0x0000_5000, 0x1000_00FF, 0x1838_0002, 0x4000_0002, 0x0000_1234,
];
/// In edition 2, another call behind its own, which has abort.
const FAILING: [u32; 13] = [
    0x0202_0100, 0x0001_0001, 0x0001_0003, 0x0100_0000, 0x2100_0000, 0x1010_2000, 0x030A_0005,
    0x0000_5000, 0x1000_00FF, 0x1838_0003, 0x4000_0002, 0x0800_1234, 0x0000_1235,
];
const REQUEST: u32 = 0x1100_0500;
const FRESH: [u32; 4] = [0; 4];
const STATE: [u32; 4] = [0x8140_0000, 0, 0x4000_0000, 0x8000_0000];
const WORDS: [u32; 3] = [0xF100_0000, 0x4100_0002, 0x0100_1234];
const UNTOUCHED: u32 = 0x5555_5555;
/// Words of room more than the marked event needs.
const ROOM: usize = 5;

/// Whose words a part is, and from where.
#[derive(Clone, Copy, PartialEq, Eq, Debug)]
enum Part {
    Empty,
    Theirs(usize),
    Ours(usize),
}

/// Where the words at this address stand in a slice, so many up to its end.
fn from(part: (*const u32, usize), words: &[u32]) -> Option<usize> {
    (0..words.len()).find(|&from| part == (words[from..].as_ptr(), words[from..].len()))
}

/// Holds a recording of the marked request from the fresh state: the verdict, and
/// the part by its address. What our step leaves must be what an event call leaves.
fn held(theirs: &[u32], their_state: &[u32]) -> (Verdict, Part) {
    let (mut state, mut trace) = (FRESH, [UNTOUCHED; ROOM]);
    let held = hold(&MARKED, &mut state, &mut trace, &[], REQUEST, theirs, their_state);
    assert_eq!((held.count, held.visits), (3, 1));
    assert_eq!(held.as_ordered(), held.verdict == AsOrdered);
    let (verdict, part) = (held.verdict, (held.part.as_ptr(), held.part.len()));
    let part = match (from(part, theirs), from(part, &trace[..3])) {
        (None, None) if part.1 == 0 => Part::Empty,
        (Some(from), None) => Part::Theirs(from),
        (None, Some(from)) => Part::Ours(from),
        other => panic!("{other:?}, {part:?}"),
    };
    assert_eq!(state, STATE);
    assert_eq!((&trace[..3], &trace[3..]), (&WORDS[..], &[UNTOUCHED; 2][..]));
    (verdict, part)
}

#[test]
fn what_our_own_step_writes_is_as_ordered() {
    assert_eq!(held(&WORDS, &STATE), (AsOrdered, Part::Empty));
    assert_eq!((AsOrdered.number(), AsOrdered.given()), (0, 0));
}

#[test]
fn a_trace_that_differs_parts_at_its_first_other_word() {
    for place in 0..3 {
        for bit in 0..32 {
            let mut theirs = WORDS;
            theirs[place] ^= 1 << bit;
            // Whatever the state is, and whatever follows.
            for state in [&STATE[..], &FRESH, &[]] {
                let parts = (TracesPart(place), Part::Theirs(place));
                assert_eq!(held(&theirs, state), parts);
                assert_eq!(held(&[theirs, WORDS].concat(), state), parts);
                assert_eq!(held(&theirs[..=place], state), parts);
            }
        }
    }
    assert_eq!((TracesPart(2).number(), TracesPart(2).given()), (2, 2));
}

#[test]
fn a_trace_that_stops_early_hands_back_the_rest_of_ours() {
    for length in 0..3 {
        for state in [&STATE[..], &FRESH, &[]] {
            let stops = (TheirsStops(length), Part::Ours(length));
            assert_eq!(held(&WORDS[..length], state), stops);
        }
    }
    assert_eq!((TheirsStops(1).number(), TheirsStops(1).given()), (3, 1));
}

#[test]
fn a_trace_that_goes_on_hands_back_the_rest_of_theirs() {
    // Also by the words that stand behind ours in the room, and by more than it has.
    for more in [&[0][..], &[UNTOUCHED], &[UNTOUCHED; 2], &[UNTOUCHED; 9], &WORDS] {
        for state in [&STATE[..], &FRESH, &[]] {
            let stops = (OursStops(3), Part::Theirs(3));
            assert_eq!(held(&[&WORDS[..], more].concat(), state), stops);
        }
    }
    assert_eq!((OursStops(3).number(), OursStops(3).given()), (4, 3));
}

#[test]
fn states_part_where_the_traces_are_the_same() {
    for place in 0..4 {
        let mut other = STATE;
        other[place] ^= 1;
        assert_eq!(held(&WORDS, &other), (StatesPart(place), Part::Empty));
        assert_eq!(held(&WORDS, &STATE[..place]), (StatesPart(place), Part::Empty));
    }
    assert_eq!(held(&WORDS, &[&STATE[..], &[0]].concat()), (StatesPart(4), Part::Empty));
    assert_eq!((StatesPart(4).number(), StatesPart(4).given()), (5, 4));
}

#[test]
fn a_refusal_is_our_step_s_answer_whatever_was_recorded() {
    for (table, words, room, outcomes, event, answer) in [
        (&MARKED[..11], 4, 3, &[][..], REQUEST, 1),
        (&MARKED, 3, 3, &[], REQUEST, 2),
        (&MARKED, 4, 2, &[], REQUEST, 3),
        (&MARKED, 4, 3, &[], 0x2100_0500, 4),
        (&MARKED, 4, 3, &[0, 2], REQUEST, 8),
        (&MARKED, 4, 3, &[], 0x2100_0000, 5),
        (&MARKED, 4, 3, &[], 0x1200_0500, 6),
    ] {
        for (theirs, their_state) in [(&WORDS[..], &STATE[..]), (&[], &FRESH), (&[], &[])] {
            let (mut state, mut trace) = (FRESH, [UNTOUCHED; 3]);
            let (s, t) = (&mut state[..words], &mut trace[..room]);
            let held = hold(table, s, t, outcomes, event, theirs, their_state);
            assert_eq!((held.verdict, held.count, held.visits), (Refused(answer), 0, 0));
            assert_eq!((held.verdict.number(), held.verdict.given()), (1, answer as usize));
            assert!(held.part.is_empty());
            assert_eq!((state, trace), (FRESH, [UNTOUCHED; 3]));
        }
    }
}

#[test]
fn a_tick_without_a_trace() {
    let after = [0x8140_0000, 0x8080_0000, 0x4000_0000, 0x9000_0005];
    for (theirs, their_state, verdict) in [
        (&[][..], &after[..], AsOrdered),
        (&[7], &after, OursStops(0)),
        (&[], &STATE, StatesPart(1)),
        (&[], &[], StatesPart(0)),
    ] {
        let (mut state, mut trace) = (STATE, [UNTOUCHED; 3]);
        let held = hold(&MARKED, &mut state, &mut trace, &[], 0, theirs, their_state);
        assert_eq!((held.verdict, held.part), (verdict, theirs));
        assert_eq!((held.count, held.visits, state, trace), (0, 0, after, [UNTOUCHED; 3]));
    }
}

#[test]
fn a_recording_is_held_with_the_outcomes_given() {
    let stopped = &WORDS[..];
    let all = &[&WORDS[..], &[0x0100_1235]].concat()[..];
    for (outcomes, theirs, verdict, part) in [
        (&[1][..], stopped, AsOrdered, &[][..]),
        (&[1], all, OursStops(3), &all[3..]),
        (&[0], all, AsOrdered, &[]),
        (&[], all, AsOrdered, &[]),
        (&[], stopped, TheirsStops(3), &all[3..]),
        (&[0, 1], all, AsOrdered, &[]),
    ] {
        let (mut state, mut trace) = (FRESH, [UNTOUCHED; 4]);
        let held = hold(&FAILING, &mut state, &mut trace, outcomes, REQUEST, theirs, &STATE);
        assert_eq!((held.verdict, held.part), (verdict, part), "{outcomes:?}");
        let (count, visits) = (held.count, held.visits);
        // As behind an event call.
        let (mut alone, mut words) = (FRESH, [UNTOUCHED; 4]);
        let answer = take_event(&FAILING, &mut alone, &mut words, outcomes, REQUEST);
        assert_eq!(answer, Answer { number: 0, count, visits });
        assert_eq!((state, trace), (alone, words));
    }
}

#[test]
fn what_was_recorded_may_be_table_and_outcomes_too() {
    let (mut state, mut trace) = (FRESH, [UNTOUCHED; 3]);
    let held = hold(&MARKED, &mut state, &mut trace, &[], REQUEST, &MARKED[1..], &MARKED[..4]);
    assert_eq!((held.verdict, held.part), (TracesPart(0), &MARKED[1..]));
    // One log with the state before the trace, as document 01's program prints it; and words that are all three.
    let log = [&STATE[..], &WORDS].concat();
    let (mut state, mut trace) = (FRESH, [UNTOUCHED; 3]);
    let held = hold(&MARKED, &mut state, &mut trace, &[], REQUEST, &log[4..], &log[..4]);
    assert!(held.as_ordered());
    let zeros = [0; 4];
    let (mut state, mut trace) = (FRESH, [UNTOUCHED; 3]);
    let held = hold(&MARKED, &mut state, &mut trace, &zeros, REQUEST, &zeros, &zeros);
    assert_eq!((held.verdict, held.part.as_ptr()), (TracesPart(0), zeros.as_ptr()));
}

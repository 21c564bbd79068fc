//! Request Q-1: "Play a recorded day."

use std::time::{Duration, Instant};

use super::editions::edition_2;
use super::marked::MARKED;
use super::*;
use crate::play::Played;
use crate::testing::recorded::play;

const FILL: u32 = 0x5555_5555;

/// Operator 1's mode port 0: request 5 starts list 0 of one call, request 6 list 1 of two, request
/// 7 none. B is 2 and 3, so 5. State: the port, two rules.
fn two_lists() -> Vec<u32> {
    plain(
        &[mode(1)],
        &[equal(0, 5), equal(0, 6)],
        &[rule(1, 0, 0, NONE), rule(1, 1, 1, NONE)],
        &[list(1, 0, 1), list(1, 1, 2)],
        &[call(0x11), call(0x21), call(0x22)],
    )
}

const FIVE: u32 = 0x1100_0500;
const SIX: u32 = 0x1100_0600;
const SEVEN: u32 = 0x1100_0700;
const FIVE_WORDS: [u32; 2] = [0xF100_0000, 0x0100_0011];
const SIX_WORDS: [u32; 3] = [0xF101_0000, 0x0100_0021, 0x0100_0022];
const AFTER_FIVE: [u32; 3] = [0x8140_0000, 0x4000_0000, 0];
const AFTER_SIX: [u32; 3] = [0x8180_0000, 0, 0x4000_0000];
const AFTER_SEVEN: [u32; 3] = [0x81C0_0000, 0, 0];

/// Of operator 1's port 0 each: malformed, not an event port, another owner's.
const REFUSED: [(u32, u32); 3] = [(0x2100_0500, 4), (0x2100_0000, 5), (0x1200_0500, 6)];

/// What a play says and every lent word after it.
#[derive(Clone, PartialEq, Eq, Debug)]
struct Day {
    taken: usize,
    count: usize,
    answer: u32,
    state: Vec<u32>,
    trace: Vec<u32>,
}

fn day(table: &[u32], state: &[u32], room: usize, events: &[u32]) -> Day {
    let (mut state, mut trace) = (state.to_vec(), vec![FILL; room]);
    let Played { taken, count, answer, .. } = play(table, &mut state, &mut trace, events);
    Day { taken, count, answer, state, trace }
}

/// The day that took so many events, their words at the front of the room.
fn told(taken: usize, answer: u32, state: &[u32], words: &[&[u32]], room: usize) -> Day {
    let mut trace = words.concat();
    let count = trace.len();
    trace.resize(room, FILL);
    Day { taken, count, answer, state: state.to_vec(), trace }
}

/// Nothing is taken and nothing changes.
#[track_caller]
fn stops_at_once(table: &[u32], state: &[u32], room: usize, events: &[u32], answer: u32) {
    assert_eq!(day(table, state, room, events), told(0, answer, state, &[], room));
}

/// A day from the state given, resumed at each "trace full" with the next of the rooms and then
/// with the last; its joined trace, and how many plays it took.
fn resumed(table: &[u32], state: &[u32], rooms: &[usize], events: &[u32]) -> (Day, usize) {
    let mut all = told(0, 3, state, &[], 0);
    let mut plays = 0;
    while all.answer == 3 {
        let room = rooms[plays.min(rooms.len() - 1)];
        let next = day(table, &all.state, room, &events[all.taken..]);
        assert!(next.taken > 0 || next.answer != 3, "no event in {room} words");
        all.trace.extend(&next.trace[..next.count]);
        (all.taken, all.count) = (all.taken + next.taken, all.count + next.count);
        (all.answer, all.state) = (next.answer, next.state);
        plays += 1;
    }
    (all, plays)
}

fn time(work: &mut dyn FnMut()) -> Duration {
    let started = Instant::now();
    work();
    started.elapsed()
}

/// Operator 2's list 0 of two calls runs at the platform's request 5 on port 0 while its own port
/// 1 is 0; operator 1's list 1 of one call at its request 5 on port 2. B is 3 and 2, so 5. State:
/// ports 0 to 2, rules at 3 and 4.
fn writing_more_when_struck_out() -> Vec<u32> {
    plain(
        &[mode(0), initial(2, 0), mode(1)],
        &[equal(0, 5), equal(1, 0), operator(expression::AND, 0, 1), equal(2, 5)],
        &[rule(2, 2, 0, NONE), rule(1, 3, 1, NONE)],
        &[list(2, 0, 2), list(1, 2, 1)],
        &[call(0x21), call(0x22), call(0x11)],
    )
}

fixed_cases! {
    /// "In play all calls are good."
    fn play_of_edition_2_aborts_nothing() {
        let mut table = edition_2(&two_lists());
        let first_item = table.len() - 3;
        table[first_item..].iter_mut().for_each(|item| *item |= 0x0800_0000);
        let words: [&[u32]; 3] = [&FIVE_WORDS, &SIX_WORDS, &FIVE_WORDS];
        let told = told(3, 0, &AFTER_FIVE, &words, 20);
        assert_eq!(day(&table, &[0; 3], 20, &[FIVE, SIX, FIVE]), told);
        // Where single calls fail, lists are aborted.
        let mut single = Play::fresh(&table);
        assert_eq!(single.take_with(FIVE, &[1]), FIVE_WORDS);
        assert_eq!(single.take_with(SIX, &[1]), SIX_WORDS[..2]);
        // "Trace full" is by B as ever.
        let full = day(&table, &[0; 3], 6, &[FIVE, SIX]);
        assert_eq!((full.taken, full.answer), (1, 3));
    }

    fn play_is_the_same_in_both_editions() {
        let events = [FIVE, SIX, SEVEN, FIVE, SIX];
        for room in 0..20 {
            let one = day(&two_lists(), &[0; 3], room, &events);
            assert_eq!(day(&edition_2(&two_lists()), &[0; 3], room, &events), one);
        }
    }

    fn play_of_a_bad_edition_or_of_abort_in_a_wrong_place_is_1() {
        stops_at_once(&with(&MARKED, 0, 0x0302_0100), &[0; 4], 9, &[FIVE], 1);
        stops_at_once(&with(&edition_2(&MARKED), 10, 0x4800_0002), &[0; 4], 9, &[], 1);
    }

    /// "table and state checked once, even with no events".
    fn play_checks_the_table_even_with_no_events() {
        stops_at_once(&with(&MARKED, 6, 0), &[0; 4], 3, &[], 1);
        stops_at_once(&[], &[], 0, &[], 1);
    }

    fn play_checks_the_state_even_with_no_events() {
        // Port 0 is no timer, and so has nothing remaining.
        stops_at_once(&MARKED, &[0x8000_0001, 0, 0, 0], 3, &[], 2);
    }

    fn play_from_a_state_of_another_length_is_2() {
        stops_at_once(&MARKED, &[0; 3], 3, &[], 2);
        stops_at_once(&MARKED, &[0; 5], 3, &[FIVE], 2);
    }

    fn play_of_a_bad_table_from_an_unfit_state_is_1() {
        stops_at_once(&with(&MARKED, 6, 0), &[7; 2], 3, &[], 1);
        stops_at_once(&with(&MARKED, 6, 0), &[7; 2], 3, &[FIVE], 1);
    }

    fn play_says_1_before_it_looks_at_room_or_event() {
        for (event, _) in REFUSED {
            stops_at_once(&with(&MARKED, 6, 0), &[0; 4], 3, &[event], 1);
            stops_at_once(&with(&MARKED, 6, 0), &[0; 4], 0, &[event], 1);
        }
    }

    fn play_says_2_before_it_looks_at_room_or_event() {
        for (event, _) in REFUSED {
            stops_at_once(&MARKED, &[0, 0, 0xC000_0000, 0], 3, &[event], 2);
            stops_at_once(&MARKED, &[0, 0, 0xC000_0000, 0], 2, &[event], 2);
        }
    }

    /// "Every event call meets it as answer 1."
    fn play_of_a_table_with_a_list_that_nothing_starts_is_1() {
        let idle = nested_only(rule(1, 0, 0, NONE));
        let table = plain(&[mode(1)], &[equal(0, 5)], &[idle], &[list(1, 0, 1)], &[call(1)]);
        stops_at_once(&table, &[0; 2], 2, &[FIVE], 1);
    }

    fn play_with_no_events_says_0_and_changes_nothing() {
        stops_at_once(&MARKED, &[0; 4], 3, &[], 0);
        stops_at_once(&two_lists(), &AFTER_SIX, 20, &[], 0);
    }

    /// "never said when no event is left".
    fn trace_full_is_not_said_when_no_event_is_left() {
        for room in 0..3 {
            stops_at_once(&MARKED, &[0; 4], room, &[], 0);
        }
        // All three words are written, and none is free.
        let after = [0x8140_0000, 0, 0x4000_0000, 0x8000_0000];
        let words = [0xF100_0000, 0x4100_0002, 0x0100_1234];
        assert_eq!(day(&MARKED, &[0; 4], 3, &[FIVE]), told(1, 0, &after, &[&words], 3));
    }

    fn trace_full_is_said_when_an_event_is_left() {
        for room in 0..3 {
            stops_at_once(&MARKED, &[0; 4], room, &[FIVE], 3);
            stops_at_once(&MARKED, &[0; 4], room, &[FIVE, 0, 0], 3);
        }
    }

    /// "tested before each event's word is read (it takes the place of 3, so before 4)".
    fn trace_full_is_said_before_the_first_event_is_looked_at() {
        for (event, answer) in REFUSED {
            stops_at_once(&two_lists(), &[0; 3], 4, &[event], 3);
            stops_at_once(&two_lists(), &[0; 3], 5, &[event], answer);
        }
    }

    fn trace_full_is_said_before_a_later_event_is_looked_at() {
        for (event, answer) in REFUSED {
            let events = [FIVE, event, SIX];
            let full = told(1, 3, &AFTER_FIVE, &[&FIVE_WORDS], 6);
            assert_eq!(day(&two_lists(), &[0; 3], 6, &events), full);
            let refused = told(1, answer, &AFTER_FIVE, &[&FIVE_WORDS], 7);
            assert_eq!(day(&two_lists(), &[0; 3], 7, &events), refused);
        }
    }

    /// "stops before an event when fewer than B trace words are free".
    fn first_event_is_taken_with_b_words_free_and_not_with_one_less() {
        stops_at_once(&two_lists(), &[0; 3], 4, &[FIVE], 3);
        let taken = told(1, 0, &AFTER_FIVE, &[&FIVE_WORDS], 5);
        assert_eq!(day(&two_lists(), &[0; 3], 5, &[FIVE]), taken);
    }

    fn later_event_is_taken_with_b_words_free_and_not_with_one_less() {
        let full = told(1, 3, &AFTER_FIVE, &[&FIVE_WORDS], 6);
        assert_eq!(day(&two_lists(), &[0; 3], 6, &[FIVE, SIX]), full);
        let taken = told(2, 0, &AFTER_SIX, &[&FIVE_WORDS, &SIX_WORDS], 7);
        assert_eq!(day(&two_lists(), &[0; 3], 7, &[FIVE, SIX]), taken);
    }

    fn b_words_are_asked_for_however_few_the_event_would_write() {
        // Request 5 would write two words.
        for room in 2..5 {
            stops_at_once(&two_lists(), &[0; 3], room, &[FIVE], 3);
        }
    }

    fn event_that_writes_no_words_is_stopped_too() {
        stops_at_once(&two_lists(), &[0; 3], 4, &[SEVEN], 3);
        stops_at_once(&two_lists(), &[0; 3], 4, &[TICK], 3);
        let words: [&[u32]; 2] = [&FIVE_WORDS, &SIX_WORDS];
        let full = told(2, 3, &AFTER_SIX, &words, 9);
        assert_eq!(day(&two_lists(), &[0; 3], 9, &[FIVE, SIX, SEVEN]), full);
        let taken = told(3, 0, &AFTER_SEVEN, &words, 10);
        assert_eq!(day(&two_lists(), &[0; 3], 10, &[FIVE, SIX, SEVEN]), taken);
    }

    fn events_that_write_no_words_need_no_more_than_b_together() {
        let events = [SEVEN, TICK, SEVEN, TICK, FIVE];
        let taken = told(5, 0, &AFTER_FIVE, &[&FIVE_WORDS], 5);
        assert_eq!(day(&two_lists(), &[0; 3], 5, &events), taken);
    }

    /// "A refused event ends the play."
    fn refused_event_ends_the_play_and_later_ones_are_not_taken() {
        for (event, answer) in REFUSED {
            let ended = told(1, answer, &AFTER_FIVE, &[&FIVE_WORDS], 20);
            assert_eq!(day(&two_lists(), &[0; 3], 20, &[FIVE, event, SIX, SEVEN]), ended);
        }
    }

    fn refused_first_event_leaves_everything_as_it_was() {
        for (event, answer) in REFUSED {
            stops_at_once(&two_lists(), &AFTER_SIX, 20, &[event, FIVE], answer);
        }
    }

    /// "Taken counts the events answered 0 before the stop."
    fn refused_last_event_is_not_counted_as_taken() {
        for (event, answer) in REFUSED {
            let ended = told(2, answer, &AFTER_SIX, &[&FIVE_WORDS, &SIX_WORDS], 20);
            assert_eq!(day(&two_lists(), &[0; 3], 20, &[FIVE, SIX, event]), ended);
        }
    }

    /// "The answer is the number of events taken and the first refusal".
    fn first_of_several_refusals_is_the_answer() {
        let ended = told(1, 6, &AFTER_SEVEN, &[], 5);
        assert_eq!(day(&two_lists(), &[0; 3], 5, &[SEVEN, 0x1200_0500, 0x2100_0500]), ended);
        let ended = told(1, 4, &AFTER_SEVEN, &[], 5);
        assert_eq!(day(&two_lists(), &[0; 3], 5, &[SEVEN, 0x2100_0500, 0x1200_0500]), ended);
    }

    fn event_words_after_the_stop_are_not_looked_at() {
        let full = told(1, 3, &AFTER_FIVE, &[&FIVE_WORDS], 5);
        assert_eq!(day(&two_lists(), &[0; 3], 5, &[FIVE, SIX, 0xFFFF_FFFF]), full);
    }

    /// "the joined trace just as single calls would give".
    fn joined_trace_lies_at_the_front_and_later_words_are_unchanged() {
        let words: [&[u32]; 3] = [&FIVE_WORDS, &SIX_WORDS, &FIVE_WORDS];
        let joined = told(4, 0, &AFTER_FIVE, &words, 16);
        assert_eq!(joined.count, 7);
        assert_eq!(day(&two_lists(), &[0; 3], 16, &[FIVE, SIX, SEVEN, FIVE]), joined);
    }

    fn count_is_of_all_events_taken_and_not_of_the_last() {
        assert_eq!(day(&two_lists(), &[0; 3], 20, &[SIX, FIVE]).count, 5);
        assert_eq!(day(&two_lists(), &[0; 3], 20, &[SIX, SEVEN]).count, 3);
    }

    fn single_calls_give_the_same() {
        let events = [FIVE, SEVEN, SIX, TICK, FIVE, SIX];
        let mut single = Play::fresh(&two_lists());
        let words: Vec<u32> = events.iter().flat_map(|&event| single.take(event)).collect();
        assert_eq!(words.len(), 10);
        let joined = told(6, 0, &single.state, &[&words], 12);
        assert_eq!(day(&two_lists(), &[0; 3], 12, &events), joined);
    }

    fn last_results_are_passed_on_from_event_to_event() {
        // The marked list is triggered: it runs when the result turns, so at requests 1, 4 and 6.
        let events = [FIVE, FIVE, SIX, FIVE, SEVEN, FIVE];
        let words = [0xF100_0000, 0x4100_0002, 0x0100_1234];
        let after = [0x8140_0000, 0, 0x4000_0000, 0x8000_0000];
        let joined = told(6, 0, &after, &[&words, &words, &words], 9);
        assert_eq!(day(&MARKED, &[0; 4], 9, &events), joined);
        let full = told(4, 3, &after, &[&words, &words], 8);
        assert_eq!(day(&MARKED, &[0; 4], 8, &events), full);
    }

    fn marked_run_played_whole() {
        let words = [0xF100_0000, 0x4100_0002, 0x0100_1234];
        let events = [FIVE, 0, 0x5100_0000, 0, 0, 0, 0, 0, 0, 0, 0];
        for (taken, port, network) in [
            (1, 0, 0x8000_0000),
            (2, 0x8080_0000, 0x9000_0005),
            (3, 0xC0C0_0000, 0xA008_0003),
            (6, 0x8080_0000, 0x9008_0005),
            (11, 0x8080_0000, 0x9800_0000),
        ] {
            let after = [0x8140_0000, port, 0x4000_0000, network];
            let whole = told(taken, 0, &after, &[&words], 6);
            assert_eq!(day(&MARKED, &[0; 4], 6, &events[..taken]), whole);
        }
    }

    fn marked_refusals_end_the_marked_run() {
        let words = [0xF100_0000, 0x4100_0002, 0x0100_1234];
        let after = [0x8140_0000, 0x8080_0000, 0x4000_0000, 0x9000_0005];
        for (event, answer) in [(0x2100_0500, 4), (0x2100_0000, 5), (0x1200_0500, 6)] {
            let ended = told(2, answer, &after, &[&words], 6);
            assert_eq!(day(&MARKED, &[0; 4], 6, &[FIVE, 0, event, 0x5100_0000]), ended);
            let full = told(1, 3, &[0x8140_0000, 0, 0x4000_0000, 0x8000_0000], &[&words], 5);
            assert_eq!(day(&MARKED, &[0; 4], 5, &[FIVE, 0, event]), full);
        }
    }

    fn play_starts_from_the_state_it_is_lent() {
        let state = [0x8140_0000, 0xC0C0_0000, 0x4000_0000, 0xA008_0003];
        let after = [0x8140_0000, 0x8080_0000, 0x4000_0000, 0x9800_0000];
        assert_eq!(day(&MARKED, &state, 3, &[0; 8]), told(8, 0, &after, &[], 3));
    }

    fn marks_wait_for_the_next_tick_of_the_same_play() {
        // Port 0 is deferred; its rule clears the event of port 1, which a rule is on.
        let table = plain(
            &[deferred(mode(1)), event(1)],
            &[equal(0, 5), cleared(1)],
            &[rule(1, 0, 0, NONE), rule(1, 1, 1, NONE)],
            &[list(1, 0, 1), list(1, 1, 1)],
            &[item(1, 1), call(0x21)],
        );
        let state = [0, 0x8000_0000, 0, 0];
        let asked = told(1, 0, &[0xC140_0000, 0x8000_0000, 0, 0], &[], 12);
        assert_eq!(day(&table, &state, 12, &[FIVE]), asked);
        let words = [0xF100_0000, 0x1101_0000, 0xF101_0000, 0x0100_0021];
        let after = [0x8140_0000, 0x8000_0000, 0x4000_0000, 0x4000_0000];
        assert_eq!(day(&table, &state, 12, &[FIVE, 0, 0, 0]), told(4, 0, &after, &[&words], 12));
    }

    /// "The next tick takes it".
    fn heard_is_taken_by_the_next_tick_of_the_same_play() {
        let words = [0xF100_0000, 0x4100_0002, 0x0100_1234];
        let after = [0x8140_0000, 0x8080_0000, 0x4000_0000, 0x9800_0000];
        let events = [FIVE, 0, 0x7100_0000, 0];
        assert_eq!(day(&MARKED, &[0; 4], 6, &events), told(4, 0, &after, &[&words], 6));
    }

    /// "and can be resumed from that event".
    fn resumed_from_the_event_it_stopped_before_the_day_is_the_same() {
        let events = [FIVE, SIX, SEVEN, FIVE, TICK, SIX];
        let words: [&[u32]; 4] = [&FIVE_WORDS, &SIX_WORDS, &FIVE_WORDS, &SIX_WORDS];
        let mut whole = told(6, 0, &AFTER_SIX, &words, 12);
        assert_eq!(day(&two_lists(), &[0; 3], 12, &events), whole);
        whole.trace.truncate(10);
        // Five words: an event that writes leaves less than B.
        for (rooms, plays) in [(&[5][..], 4), (&[7], 2), (&[9, 5], 3), (&[10, 7], 2), (&[12], 1)] {
            assert_eq!(resumed(&two_lists(), &[0; 3], rooms, &events), (whole.clone(), plays));
        }
    }

    fn resumed_day_ends_at_the_refusal_too() {
        let events = [FIVE, SIX, 0x1200_0500, SEVEN];
        let words: [&[u32]; 2] = [&FIVE_WORDS, &SIX_WORDS];
        let ended = told(2, 6, &AFTER_SIX, &words, 5);
        for (rooms, plays) in [(&[5][..], 3), (&[7, 5], 2), (&[10], 1)] {
            assert_eq!(resumed(&two_lists(), &[0; 3], rooms, &events), (ended.clone(), plays));
        }
    }

    fn resumed_without_room_it_is_full_again_and_takes_nothing() {
        let first = day(&two_lists(), &[0; 3], 6, &[FIVE, SIX]);
        assert_eq!((first.taken, first.answer), (1, 3));
        stops_at_once(&two_lists(), &first.state, 4, &[SIX], 3);
        let rest = told(1, 0, &AFTER_SIX, &[&SIX_WORDS], 5);
        assert_eq!(day(&two_lists(), &first.state, 5, &[SIX]), rest);
    }

    /// A rule may have lists or none; without lists B is 0.
    fn without_lists_an_empty_trace_has_room_for_every_event() {
        let table = plain(&[mode(1)], &[equal(0, 5)], &[rule(1, 0, NONE, NONE)], &[], &[]);
        stands(&table, 0);
        let after = [0x8140_0000, 0x4000_0000];
        assert_eq!(day(&table, &[0; 2], 0, &[SIX, 0, 0, FIVE]), told(4, 0, &after, &[], 0));
        for (event, answer) in REFUSED {
            let ended = told(1, answer, &after, &[], 0);
            assert_eq!(day(&table, &[0; 2], 0, &[FIVE, event, SIX]), ended);
        }
    }

    fn dearest_events_fill_all_of_b_each() {
        // Sixteen lists of 255 calls: every request of 5 writes 4,096 words.
        let rules: Vec<u32> = (0..16).map(|number| rule(1, 0, number, NONE)).collect();
        let lists = [list(1, 0, 255); 16];
        let table = plain(&[mode(1)], &[equal(0, 5)], &rules, &lists, &[call(9); 255]);
        stands(&table, 4096);
        let said = |room: usize| {
            let day = day(&table, &[0; 17], room, &[FIVE; 3]);
            assert!(day.trace[day.count..].iter().all(|&word| word == FILL));
            assert!(day.trace[..day.count].chunks(4096).all(|words| words == &day.trace[..4096]));
            (day.taken, day.count, day.answer)
        };
        assert_eq!(said(4095), (0, 0, 3));
        assert_eq!(said(4096), (1, 4096, 3));
        assert_eq!(said(8191), (1, 4096, 3));
        assert_eq!(said(8192), (2, 8192, 3));
        assert_eq!(said(12287), (2, 8192, 3));
        assert_eq!(said(12288), (3, 12288, 0));
    }

    /// "table and state checked once": 2,047 items take long to check and no time at a tick.
    fn table_is_checked_once_a_play_and_not_once_an_event() {
        let lists: Vec<u32> = (0..8).map(|number| list(1, number * 255, 255)).collect();
        let starting = starting_all(1, 8);
        let table = plain(&[mode(1)], &[equal(0, 5)], &starting, &lists, &[call(9); 2047]);
        stands(&table, 2048);
        // Asked of the rules themselves: neither the long day nor the checks are for others.
        let ticks = vec![TICK; 20_000];
        let (mut state, mut trace) = (vec![0; 5], vec![FILL; 2048]);
        let mut whole = || {
            let played = crate::play(&table, &mut state, &mut trace, &ticks);
            assert_eq!((played.taken, played.count, played.answer), (20_000, 0, 0));
        };
        // The shortest of three, for others may be at work.
        let day = (0..3).map(|_| time(&mut whole)).min().expect("three");
        let check = time(&mut || (0..200).for_each(|_| assert_eq!(crate::check(&table).b, 2048)));
        // 200 checks are of a hundredth of the events.
        assert!(day < check * 20, "{day:?} for the day, {check:?} for 200 checks");
    }

    /// "since a stranger's lists may write more once its events are struck out, a play that then
    /// stops at "trace full" is resumed with room until those events are done".
    fn struck_out_play_is_full_where_the_whole_one_was_not_and_is_resumed() {
        let table = writing_more_when_struck_out();
        let fresh = [0, 0x8000_0000, 0, 0, 0];
        let (stranger, platform, own) = (request(2, 1, 9), request(0, 0, 5), request(1, 2, 5));
        let own_words = [0xF101_0000, 0x0100_0011];
        let with = [0x8140_0000, 0x8240_0000, 0x8140_0000, 0, 0x4000_0000];
        let whole = told(3, 0, &with, &[&own_words], 5);
        assert_eq!(day(&table, &fresh, 5, &[stranger, platform, own]), whole);
        let strangers_words = [0xF200_0000, 0x0200_0021, 0x0200_0022];
        let without = [0x8140_0000, 0x8000_0000, 0, 0x4000_0000, 0];
        let full = told(1, 3, &without, &[&strangers_words], 5);
        assert_eq!(day(&table, &fresh, 5, &[platform, own]), full);
        // Ports 0 and 2 and rule 1 end as in the whole play, and operator 1's words are the same.
        let after = [0x8140_0000, 0x8000_0000, 0x8140_0000, 0x4000_0000, 0x4000_0000];
        let rest = told(1, 0, &after, &[&own_words], 5);
        assert_eq!(day(&table, &full.state, 5, &[own]), rest);
    }

    /// "Demand 3 holds over the events taken": not over those of the file.
    fn strangers_refused_event_ends_the_play_and_what_follows_is_not_taken() {
        let (table, fresh) = (writing_more_when_struck_out(), [0, 0x8000_0000, 0, 0, 0]);
        let (foreign, own) = (request(2, 2, 5), request(1, 2, 5));
        stops_at_once(&table, &fresh, 10, &[foreign, own], 6);
        let after = [0, 0x8000_0000, 0x8140_0000, 0, 0x4000_0000];
        let without = told(1, 0, &after, &[&[0xF101_0000, 0x0100_0011]], 10);
        assert_eq!(day(&table, &fresh, 10, &[own]), without);
    }
}

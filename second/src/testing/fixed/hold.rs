//! Request Q-7, "Hold a supplier's log against ours": the call, sentence by sentence, and the order
//! that the readings give: "our refusal; traces part; one stops early; states part; yes".

use super::editions::{abort, edition_2};
use super::marked::MARKED;
use super::*;
use crate::hold::Whose::{self, Nobody, Ours, Suppliers};
use crate::testing::recorded::hold;

const GO: u32 = 0x1100_0500;
/// The marked request: what our step writes, and the state before and after it.
const TRACE: [u32; 3] = [0xF100_0000, 0x4100_0002, 0x0100_1234];
const BEFORE: [u32; 4] = [0; 4];
const AFTER: [u32; 4] = [0x8140_0000, 0, 0x4000_0000, 0x8000_0000];
/// No word of ours.
const OTHER: u32 = 0x0BAD_0BAD;
const FILL: u32 = 0x5555_5555;

/// What is held: from which state on which table, with which outcomes, and what our step then
/// writes and leaves.
struct Step<'a> {
    table: &'a [u32],
    before: &'a [u32],
    event: u32,
    outcomes: &'a [u32],
    room: usize,
    trace: &'a [u32],
    after: &'a [u32],
    visits: u64,
}

const MARKED_STEP: Step = Step {
    table: &MARKED,
    before: &BEFORE,
    event: GO,
    outcomes: &[],
    room: 5,
    trace: &TRACE,
    after: &AFTER,
    visits: 1,
};

impl Step<'_> {
    /// What is said of a supplier's words. State and trace end as after an event call.
    #[track_caller]
    fn says(
        &self,
        theirs: &[u32],
        their_state: &[u32],
        (verdict, number): (u32, usize),
        whose: Whose,
        part: &[u32],
    ) {
        let (mut state, mut trace) = (self.before.to_vec(), vec![FILL; self.room]);
        let (table, lent, event) = (self.table, self.outcomes, self.event);
        let held = hold(table, &mut state, &mut trace, lent, event, theirs, their_state);
        assert_eq!((held.verdict, held.number), (verdict, number), "{theirs:X?} {their_state:X?}");
        assert_eq!((held.whose, &held.part[..]), (whose, part));
        assert_eq!(held.from, if whose == Nobody { 0 } else { number });
        let count = self.trace.len();
        let told = (held.stepped.answer, held.stepped.count, held.stepped.visits);
        assert_eq!(told, (0, count, self.visits));
        assert_eq!((&state[..], &trace[..count]), (self.after, self.trace));
        assert!(trace[count..].iter().all(|&word| word == FILL));
    }

    /// "If the traces part, give the first differing word and hand back the supplier's words from
    /// there."
    #[track_caller]
    fn traces_part(&self, theirs: &[u32], their_state: &[u32], word: usize) {
        self.says(theirs, their_state, (2, word), Suppliers, &theirs[word..]);
    }

    /// "If one merely stops early, give the shorter length and hand back the rest": of ours.
    #[track_caller]
    fn theirs_stops(&self, theirs: &[u32], their_state: &[u32]) {
        self.says(theirs, their_state, (3, theirs.len()), Ours, &self.trace[theirs.len()..]);
    }

    /// Of the supplier's.
    #[track_caller]
    fn ours_stops(&self, theirs: &[u32], their_state: &[u32]) {
        let length = self.trace.len();
        self.says(theirs, their_state, (4, length), Suppliers, &theirs[length..]);
    }

    #[track_caller]
    fn states_part(&self, their_state: &[u32], word: usize) {
        self.says(self.trace, their_state, (5, word), Nobody, &[]);
    }

    #[track_caller]
    fn as_ordered(&self) {
        self.says(self.trace, self.after, (0, 0), Nobody, &[]);
    }
}

/// "If our step would refuse, give its answer and an empty part." Nothing is written.
#[track_caller]
fn refuses(
    (table, state, room): (&[u32], &[u32], usize),
    (event, outcomes): (u32, &[u32]),
    (theirs, their_state): (&[u32], &[u32]),
    answer: u32,
) {
    let (mut after, mut trace) = (state.to_vec(), vec![FILL; room]);
    let held = hold(table, &mut after, &mut trace, outcomes, event, theirs, their_state);
    assert_eq!((held.verdict, held.number), (1, answer as usize));
    assert_eq!((held.whose, held.from, &held.part[..]), (Nobody, 0, &[][..]));
    let told = (held.stepped.answer, held.stepped.count, held.stepped.visits);
    assert_eq!(told, (answer, 0, 0));
    assert_eq!((&after[..], trace), (state, vec![FILL; room]));
}

/// The marked table in edition 2, its call first and with abort, and its request's step with these
/// outcomes.
fn failing() -> Vec<u32> {
    with(&with(&edition_2(&MARKED), 10, abort(call(0x1234))), 11, ask(0, 2))
}

const GOOD_TRACE: [u32; 3] = [0xF100_0000, 0x0100_1234, 0x4100_0002];
const FAILED_TRACE: [u32; 2] = [0xF100_0000, 0x0100_1234];
const FAILED_AFTER: [u32; 4] = [0x8140_0000, 0, 0x4000_0000, 0];

fixed_cases! {
    fn hold_says_yes_where_both_are_what_our_rules_order() {
        MARKED_STEP.as_ordered();
        Step { room: 3, ..MARKED_STEP }.as_ordered();
        Step { table: &edition_2(&MARKED), ..MARKED_STEP }.as_ordered();
    }

    /// A tick of the marked run, which writes no trace; and a request that changes nothing.
    fn hold_says_yes_where_our_step_writes_no_trace() {
        let tick = [0x8140_0000, 0x8080_0000, 0x4000_0000, 0x9000_0005];
        let step = Step { before: &AFTER, event: TICK, trace: &[], after: &tick, visits: 0, ..MARKED_STEP };
        step.as_ordered();
        Step { before: &AFTER, trace: &[], ..MARKED_STEP }.as_ordered();
    }

    fn hold_gives_the_first_word_at_which_the_traces_part_and_the_suppliers_words_from_there() {
        for word in 0..3 {
            for bit in [1, 0x8000_0000, 0x0001_0000] {
                MARKED_STEP.traces_part(&with(&TRACE, word, TRACE[word] ^ bit), &AFTER, word);
            }
        }
        // All of them from the first.
        MARKED_STEP.traces_part(&[OTHER; 3], &AFTER, 0);
        MARKED_STEP.traces_part(&[TRACE[0], OTHER, OTHER], &AFTER, 1);
    }

    fn hold_gives_the_first_of_several_words_that_differ() {
        MARKED_STEP.traces_part(&[TRACE[0], OTHER, TRACE[2]], &AFTER, 1);
        MARKED_STEP.traces_part(&[OTHER, TRACE[1], OTHER], &AFTER, 0);
    }

    fn hold_takes_words_exchanged_lost_or_added_within_for_traces_that_part() {
        MARKED_STEP.traces_part(&[TRACE[1], TRACE[0], TRACE[2]], &AFTER, 0);
        MARKED_STEP.traces_part(&[TRACE[0], TRACE[2], TRACE[1]], &AFTER, 1);
        MARKED_STEP.traces_part(&[TRACE[1], TRACE[2]], &AFTER, 0);
        MARKED_STEP.traces_part(&[TRACE[0], TRACE[2]], &AFTER, 1);
        MARKED_STEP.traces_part(&[OTHER, TRACE[0], TRACE[1], TRACE[2]], &AFTER, 0);
        MARKED_STEP.traces_part(&[TRACE[0], TRACE[1], OTHER, TRACE[2]], &AFTER, 2);
    }

    /// A word that both have differs: that comes before one that stops.
    fn hold_takes_traces_of_other_lengths_that_differ_for_traces_that_part() {
        MARKED_STEP.traces_part(&[OTHER], &AFTER, 0);
        MARKED_STEP.traces_part(&[TRACE[0], OTHER], &AFTER, 1);
        MARKED_STEP.traces_part(&[TRACE[0], TRACE[1], OTHER, OTHER, OTHER], &AFTER, 2);
        MARKED_STEP.traces_part(&[OTHER, TRACE[1], TRACE[2], OTHER], &AFTER, 0);
    }

    fn hold_hands_back_the_rest_of_ours_where_the_suppliers_stops_early() {
        MARKED_STEP.says(&TRACE[..2], &AFTER, (3, 2), Ours, &[0x0100_1234]);
        MARKED_STEP.says(&TRACE[..1], &AFTER, (3, 1), Ours, &[0x4100_0002, 0x0100_1234]);
        MARKED_STEP.says(&[], &AFTER, (3, 0), Ours, &TRACE);
    }

    fn hold_hands_back_the_rest_of_the_suppliers_where_ours_stops_early() {
        MARKED_STEP.ours_stops(&[TRACE[0], TRACE[1], TRACE[2], OTHER], &AFTER);
        MARKED_STEP.ours_stops(&[TRACE, TRACE].concat(), &AFTER);
        // Our step wrote none.
        let step = Step { before: &AFTER, trace: &[], ..MARKED_STEP };
        step.says(&[OTHER], &AFTER, (4, 0), Suppliers, &[OTHER]);
        step.says(&[0; 9], &AFTER, (4, 0), Suppliers, &[0; 9]);
    }

    /// Ours are the words that were written: the room's words behind them are nobody's.
    fn hold_has_nothing_to_do_with_the_rooms_words_behind_ours() {
        MARKED_STEP.ours_stops(&[TRACE[0], TRACE[1], TRACE[2], FILL], &AFTER);
        MARKED_STEP.ours_stops(&[TRACE[0], TRACE[1], TRACE[2], FILL, FILL], &AFTER);
        Step { room: 3, ..MARKED_STEP }.ours_stops(&[TRACE[0], TRACE[1], TRACE[2], FILL], &AFTER);
        MARKED_STEP.theirs_stops(&TRACE[..2], &AFTER);
    }

    /// The supplier's trace may be longer than B and than our room.
    fn hold_takes_a_suppliers_trace_of_any_length() {
        let long = [&TRACE[..], &[OTHER; 5000]].concat();
        MARKED_STEP.ours_stops(&long, &AFTER);
        MARKED_STEP.traces_part(&long[1..], &AFTER, 0);
    }

    fn hold_gives_the_first_differing_state_word_and_an_empty_part() {
        for word in 0..4 {
            MARKED_STEP.states_part(&with(&AFTER, word, AFTER[word] ^ 1), word);
            MARKED_STEP.states_part(&with(&AFTER, word, OTHER), word);
        }
        MARKED_STEP.states_part(&with(&with(&AFTER, 3, OTHER), 1, OTHER), 1);
        // The state before is not the one after.
        MARKED_STEP.states_part(&BEFORE, 0);
    }

    fn hold_gives_the_shorter_length_where_a_state_stops_early() {
        for length in 0..4 {
            MARKED_STEP.states_part(&AFTER[..length], length);
        }
        MARKED_STEP.states_part(&[&AFTER[..], &[0]].concat(), 4);
        MARKED_STEP.states_part(&[&AFTER[..], &AFTER].concat(), 4);
    }

    fn hold_gives_the_first_differing_word_of_states_of_other_lengths() {
        MARKED_STEP.states_part(&[AFTER[0], OTHER], 1);
        MARKED_STEP.states_part(&[&[OTHER][..], &AFTER].concat(), 0);
        MARKED_STEP.states_part(&AFTER[1..], 0);
        MARKED_STEP.states_part(&[AFTER[0], AFTER[1], AFTER[2], OTHER, 0, 0], 3);
    }

    /// "Only the states part": traces come first, whatever the states are.
    fn hold_looks_at_the_traces_before_the_states() {
        for state in [&BEFORE[..], &[], &[OTHER], &AFTER[..3], &[OTHER; 9]] {
            MARKED_STEP.traces_part(&[TRACE[0], TRACE[1], OTHER], state, 2);
            MARKED_STEP.theirs_stops(&TRACE[..2], state);
            MARKED_STEP.theirs_stops(&[], state);
            MARKED_STEP.ours_stops(&[TRACE[0], TRACE[1], TRACE[2], OTHER], state);
        }
        // The state parts at a lower number than the trace.
        MARKED_STEP.traces_part(&[TRACE[0], TRACE[1], OTHER], &with(&AFTER, 0, OTHER), 2);
    }

    fn hold_of_nothing_against_a_step_that_writes() {
        MARKED_STEP.says(&[], &[], (3, 0), Ours, &TRACE);
    }

    fn hold_of_nothing_against_a_step_that_writes_no_trace() {
        Step { before: &AFTER, trace: &[], ..MARKED_STEP }.states_part(&[], 0);
    }

    /// Refused by each answer there is, with our unchanged words, with none, and with others.
    fn hold_of_a_refusal_gives_its_answer_and_an_empty_part() {
        let asked: [(&[u32], &[u32], usize, u32, &[u32], u32); 8] = [
            (&MARKED[..11], &BEFORE, 3, GO, &[], 1),
            (&MARKED, &BEFORE[..3], 3, GO, &[], 2),
            (&MARKED, &[1, 0, 0, 0], 3, GO, &[], 2),
            (&MARKED, &BEFORE, 2, GO, &[], 3),
            (&MARKED, &BEFORE, 3, 0x2100_0500, &[], 4),
            (&MARKED, &BEFORE, 3, GO, &[0, 2], 8),
            (&MARKED, &BEFORE, 3, 0x2100_0000, &[], 5),
            (&MARKED, &BEFORE, 3, 0x1200_0500, &[], 6),
        ];
        for (table, state, room, event, outcomes, answer) in asked {
            for theirs in [&[][..], &TRACE, &[OTHER], &[FILL; 9]] {
                for their_state in [state, &AFTER, &[], &[OTHER]] {
                    refuses((table, state, room), (event, outcomes), (theirs, their_state), answer);
                }
            }
        }
    }

    /// The number beside the verdict is the refusal's, in the order of document 01 and Q-9.
    fn hold_of_a_refusal_keeps_the_order_of_answers() {
        let supplied = (&TRACE[..], &AFTER[..]);
        refuses((&MARKED[..11], &[1], 0), (0xFFFF_FFFF, &[2]), supplied, 1);
        refuses((&MARKED, &[1], 0), (0xFFFF_FFFF, &[2]), supplied, 2);
        refuses((&MARKED, &BEFORE, 0), (0xFFFF_FFFF, &[2]), supplied, 3);
        refuses((&MARKED, &BEFORE, 3), (0xFFFF_FFFF, &[2]), supplied, 4);
        refuses((&MARKED, &BEFORE, 3), (0x1200_0500, &[2]), supplied, 8);
        refuses((&MARKED, &BEFORE, 3), (TICK, &[2]), supplied, 8);
    }

    /// "A supplier's log is compared with the outcomes given."
    fn hold_compares_with_the_outcomes_given() {
        let table = failing();
        let good = Step { table: &table, trace: &GOOD_TRACE, ..MARKED_STEP };
        let failed = Step { table: &table, outcomes: &[1], trace: &FAILED_TRACE, after: &FAILED_AFTER, ..MARKED_STEP };
        good.as_ordered();
        Step { outcomes: &[0, 1, 1], ..good }.as_ordered();
        failed.as_ordered();
        Step { outcomes: &[1, 0, 0], ..failed }.as_ordered();
        // Each is not what the other's outcomes order.
        failed.ours_stops(&GOOD_TRACE, &AFTER);
        good.theirs_stops(&FAILED_TRACE, &FAILED_AFTER);
        failed.states_part(&AFTER, 3);
        good.states_part(&FAILED_AFTER, 3);
    }

    /// No call stops a list in edition 1, though 8 stands there too.
    fn hold_in_edition_1_takes_every_call_for_good() {
        Step { outcomes: &[1, 1], ..MARKED_STEP }.as_ordered();
        refuses((&MARKED, &BEFORE, 3), (GO, &[1, 3]), (&TRACE, &AFTER), 8);
    }

    /// "Whatever our own step writes is accepted, with an empty part": each event of the marked run.
    fn hold_accepts_whatever_our_own_step_writes() {
        let mut play = Play::fresh(&MARKED);
        for event in [GO, TICK, 0x5100_0000, TICK, TICK, TICK, 0x7100_0000, TICK, GO, 0x1100_0600, GO] {
            let (before, visits) = (play.state.clone(), Play::of(&MARKED, &play.state).visits(event));
            let trace = play.take(event);
            let step = Step { before: &before, event, trace: &trace, after: &play.state, visits, ..MARKED_STEP };
            step.as_ordered();
        }
    }

    /// 4,096 words in 16 lists: each word's place is found.
    fn hold_finds_the_place_in_a_long_trace() {
        let rules: Vec<u32> = (0..16).map(|number| rule(0, 0, number, NONE)).collect();
        let table = plain(&[mode(0)], &[equal(0, 5)], &rules, &[list(0, 0, 255); 16], &[call(7); 255]);
        let mut play = Play::fresh(&table);
        let before = play.state.clone();
        let trace = play.take(0x1000_0500);
        let step = Step { table: &table, before: &before, event: 0x1000_0500, outcomes: &[], room: 4096, trace: &trace, after: &play.state, visits: 16 };
        step.as_ordered();
        for word in [0, 1, 255, 256, 2047, 4094, 4095] {
            step.traces_part(&with(&trace, word, OTHER), &play.state, word);
            step.theirs_stops(&trace[..word], &play.state);
        }
        step.ours_stops(&[&trace[..], &[7]].concat(), &play.state);
    }
}

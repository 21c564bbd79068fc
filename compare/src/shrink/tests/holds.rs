//! A side whose verdicts on suppliers' recordings are wrong is found, and the recording made small.

use herringcart::{Held, Verdict, hold};
use second::cases::Cases;

use crate::differ::compare;
use crate::differ::holds::{Recorded, compare_hold};
use crate::generated::told_of;
use crate::shrink::smallest_hold;
use crate::subject::{Proved, Subject};

/// What a call is made with, but for what the part is a piece of.
struct Call<'a> {
    table: &'a [u32],
    state: &'a mut [u32],
    outcomes: &'a [u32],
    event: u32,
    their_state: &'a [u32],
}

impl Call<'_> {
    fn hold<'a>(&mut self, trace: &'a mut [u32], theirs: &'a [u32]) -> Held<'a> {
        let Call { table, state, outcomes, event, their_state } = self;
        hold(table, state, trace, outcomes, *event, theirs, their_state)
    }
}

/// A wrong side: what it makes of a call.
struct Wrong(for<'a> fn(Call, &'a mut [u32], &'a [u32]) -> Held<'a>);

impl Subject for Wrong {
    fn hold<'a>(
        &self,
        table: &[u32],
        state: &mut [u32],
        trace: &'a mut [u32],
        outcomes: &[u32],
        event: u32,
        theirs: &'a [u32],
        their_state: &[u32],
    ) -> Held<'a> {
        self.0(Call { table, state, outcomes, event, their_state }, trace, theirs)
    }
}

/// The first of a seed's cases on which a wrong side shows, its recording made small.
fn found(wrong: &Wrong) -> Recorded {
    let mut cases = Cases::new(6).take(4000).map(|made| made.case);
    let case = cases.find(|case| compare(wrong, case).is_err()).expect("a case that shows it");
    let difference = compare(wrong, &case).err().expect("it differs");
    let (small, _) = smallest_hold(wrong, &difference.hold.expect("a recording differs"));
    assert!(compare_hold(wrong, &small).is_err() && compare_hold(&Proved, &small).is_ok());
    small
}

/// The smallest table there is: a port, a condition, a rule; and one with a list, its item, and a source whose tick starts it.
const LEAST: usize = 6;
const WITH_A_LIST: usize = 9;

#[test]
fn states_that_are_not_looked_at_are_found() {
    let wrong = Wrong(|mut call, trace, theirs| {
        let held = call.hold(trace, theirs);
        match held.verdict {
            Verdict::StatesPart(_) => Held { verdict: Verdict::AsOrdered, ..held },
            _ => held,
        }
    });
    let small = found(&wrong);
    assert_eq!((small.table.len(), small.theirs.len()), (LEAST, 0), "{small:X?}");
    assert!(small.outcomes.is_empty() && small.event == 0, "{small:X?}");
}

#[test]
fn a_state_that_is_a_beginning_of_ours_taken_for_ours_is_found() {
    let wrong = Wrong(|mut call, trace, theirs| {
        let length = call.their_state.len();
        let held = call.hold(trace, theirs);
        match held.verdict {
            Verdict::StatesPart(word) if word == length => {
                Held { verdict: Verdict::AsOrdered, ..held }
            }
            _ => held,
        }
    });
    let small = found(&wrong);
    assert_eq!((small.table.len(), small.their_state.len()), (LEAST, 0), "{small:X?}");
}

#[test]
fn a_part_that_is_a_copy_is_found() {
    let wrong = Wrong(|mut call, trace, theirs| {
        let held = call.hold(trace, theirs);
        Held { part: held.part.to_vec().leak(), ..held }
    });
    let small = found(&wrong);
    assert_eq!((small.table.len(), small.theirs.len()), (LEAST, 1), "{small:X?}");
}

#[test]
fn a_part_of_the_wrong_trace_is_found() {
    // The same words, as long as the traces are the same up to there.
    let wrong = Wrong(|mut call, trace, theirs| {
        let held = call.hold(trace, theirs);
        match held.verdict {
            Verdict::TheirsStops(_) => Held { part: &theirs[theirs.len()..], ..held },
            _ => held,
        }
    });
    let small = found(&wrong);
    assert!(small.table.len() <= WITH_A_LIST && small.theirs.is_empty(), "{small:X?}");
}

#[test]
fn a_part_that_begins_a_word_late_is_found() {
    let wrong = Wrong(|mut call, trace, theirs| {
        let held = call.hold(trace, theirs);
        Held { part: held.part.get(1..).unwrap_or_default(), ..held }
    });
    assert_eq!(found(&wrong).table.len(), LEAST);
}

#[test]
fn a_trace_that_goes_on_taken_for_ours_is_found() {
    let wrong = Wrong(|mut call, trace, theirs| {
        let held = call.hold(trace, theirs);
        match held.verdict {
            Verdict::OursStops(_) => Held { verdict: Verdict::AsOrdered, part: &[], ..held },
            _ => held,
        }
    });
    let small = found(&wrong);
    assert_eq!((small.table.len(), small.theirs.len()), (LEAST, 1), "{small:X?}");
}

#[test]
fn the_room_taken_for_our_trace_is_found() {
    // The words behind our own, in which nothing was written, are compared too.
    let wrong = Wrong(|mut call, trace, theirs| {
        let behind = trace.to_vec();
        let held = call.hold(trace, theirs);
        match held.verdict {
            Verdict::OursStops(from) if behind.get(from) == theirs.get(from) => {
                Held { verdict: Verdict::AsOrdered, part: &[], ..held }
            }
            _ => held,
        }
    });
    let small = found(&wrong);
    assert_eq!((small.table.len(), small.theirs.len(), small.trace.len()), (LEAST, 1, 1));
}

#[test]
fn a_refusal_that_looks_at_the_words_is_found() {
    let wrong = Wrong(|mut call, trace, theirs| {
        let held = call.hold(trace, theirs);
        match held.verdict {
            Verdict::Refused(_) if !theirs.is_empty() => {
                Held { verdict: Verdict::OursStops(0), part: theirs, ..held }
            }
            _ => held,
        }
    });
    let small = found(&wrong);
    assert_eq!((small.table.len(), small.theirs.len()), (0, 1), "{small:X?}");
}

#[test]
fn outcomes_that_are_not_lent_to_the_step_are_found() {
    let wrong = Wrong(|mut call, trace, theirs| {
        if call.outcomes.iter().all(|&word| word <= 1) {
            call.outcomes = &[];
        }
        call.hold(trace, theirs)
    });
    let small = found(&wrong);
    assert_eq!(small.outcomes, [1], "{small:X?}");
}

#[test]
fn a_word_of_the_suppliers_that_is_written_is_found() {
    let wrong = Wrong(|mut call, trace, theirs| {
        let held = call.hold(trace, theirs);
        if let (Verdict::TracesPart(word), Some(first)) = (held.verdict, theirs.first()) {
            // SAFETY: none, for this is what is tried: a call that writes what it may only read. The words are the comparison's own.
            unsafe { std::ptr::from_ref(first).cast_mut().add(word).write_volatile(0) };
        }
        held
    });
    let small = found(&wrong);
    assert!(small.table.len() <= WITH_A_LIST && small.theirs.len() == 1, "{small:X?}");
}

#[test]
fn what_is_told_of_a_recording_is_its_words_and_both_sides_verdicts() {
    let wrong = Wrong(|mut call, trace, theirs| {
        let held = call.hold(trace, theirs);
        Held { count: held.count + usize::from(held.verdict == Verdict::StatesPart(0)), ..held }
    });
    let case = Cases::new(6).map(|made| made.case).find(|case| compare(&wrong, case).is_err());
    let told = told_of(&wrong, "name", &case.expect("cases have no end"));
    assert!(told.starts_with("name, a recording held, made smaller:\ntable: "), "{told}");
    for part in
        ["\nroom: ", "\nsupplier's trace: ", "\nsupplier's state: ", "held, count\n  proved: "]
    {
        assert!(told.contains(part), "{told}");
    }
}

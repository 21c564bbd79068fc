//! Suppliers' recordings of one event through both sides: those that a case is asked for, damaged ones of its own, and any other.
//! What is read is lent between guards and must stay as it is; state and trace are compared word by word, written or not, with their
//! guards; and the part by its address, for it is a piece of one of the two traces and no copy.

use std::ops::Range;

use herringcart::Held;
use second::cases::Case;
use second::hold::{Parting, parting, verdict};
use second::stream::{Supplied, TRACE_FILL, holds_asked};
use second::testing::AskedHold;
use second::words::{Head, outcome};
use second::{Stepped, Whose};

use super::{Difference, Lent, as_word, same, same_lent, visits_words};
use crate::subject::Subject;
use crate::verdicts::Verdicts;

/// Every place is damaged in one case of four, where trace and state have no more words than these together; else these few, the first and
/// the last among them: each is a call, and checks its table anew.
const EVERY: usize = 64;
const FEW: usize = 3;

/// What an event is held with.
#[derive(Clone, PartialEq, Eq, Debug)]
pub struct Recorded {
    pub table: Vec<u32>,
    /// Before the event.
    pub state: Vec<u32>,
    /// Our trace's words before it; so many are lent.
    pub trace: Vec<u32>,
    pub outcomes: Vec<u32>,
    pub event: u32,
    pub theirs: Vec<u32>,
    pub their_state: Vec<u32>,
}

impl Recorded {
    /// What a fixed case asked.
    pub fn of_fixed(asked: &AskedHold) -> Self {
        let AskedHold { table, state, trace, outcomes, event, theirs, their_state, .. } =
            asked.clone();
        Recorded { table, state, trace, outcomes, event, theirs, their_state }
    }

    /// The trace words that our own step writes and the state that it leaves, by the second program; and its answer.
    pub fn ours(&self) -> (Vec<u32>, Vec<u32>, u32) {
        let (mut state, mut trace) = (self.state.clone(), self.trace.clone());
        let Stepped { answer, count, .. } =
            second::step(&self.table, &mut state, &mut trace, self.event, &self.outcomes);
        trace.truncate(count);
        (trace, state, answer)
    }

    fn with(&self, theirs: &[u32], their_state: &[u32]) -> Self {
        let (theirs, their_state) = (theirs.to_vec(), their_state.to_vec());
        Recorded { theirs, their_state, ..self.clone() }
    }
}

/// The recordings that the second program asks a case for, and damaged ones of its own.
pub fn compare_holds(subject: &impl Subject, case: &Case) -> Result<Verdicts, Difference> {
    let events = held_events(case);
    let mut holding = Holding { subject, verdicts: Verdicts::default() };
    for Supplied { event, theirs, their_state } in holds_asked(case) {
        holding.hold(&events[event].with(&theirs, &their_state))?;
    }
    let ours: Vec<_> = events.iter().map(Recorded::ours).collect();
    let taken = (0..events.len()).filter(|&event| ours[event].2 == 0);
    let busiest = taken.max_by_key(|&event| ours[event].0.len());
    if let Some(event) = busiest {
        holding.damaged(&events[event])?;
        holding.other_outcomes(&events[event])?;
    }
    // With the words of an event that is taken, and with others.
    if let Some(refused) = ours.iter().position(|(_, _, answer)| *answer != 0) {
        let (before, taken) = (&events[refused].state, busiest.map(|event| &ours[event]));
        let (theirs, their_state) =
            taken.map_or((&[TRACE_FILL][..], &[][..]), |(trace, state, _)| (trace, state));
        for (theirs, their_state) in
            [(theirs, their_state), (theirs, before), (&[][..], before), (&[], &[])]
        {
            holding.hold(&events[refused].with(theirs, their_state))?;
        }
    }
    Ok(holding.verdicts)
}

/// Each event of a case as it is held: from the state before it, in the case's room and with the outcomes that the case lends it. The
/// states are the second program's: that the proved code leaves the same has been seen before.
fn held_events(case: &Case) -> Vec<Recorded> {
    let mut state = case.state.clone();
    let mut held = |(number, &event): (usize, &u32)| {
        let (table, outcomes) = (case.table.clone(), case.lent(number).to_vec());
        let (before, mut trace) = (state.clone(), vec![TRACE_FILL; case.room]);
        second::step(&table, &mut state, &mut trace, event, &outcomes);
        let (state, trace) = (before, vec![TRACE_FILL; case.room]);
        Recorded { table, state, trace, outcomes, event, theirs: vec![], their_state: vec![] }
    };
    case.events.iter().enumerate().map(&mut held).collect()
}

struct Holding<'a, S> {
    subject: &'a S,
    verdicts: Verdicts,
}

impl<S: Subject> Holding<'_, S> {
    fn hold(&mut self, recorded: &Recorded) -> Result<u32, Difference> {
        let verdict = compare_hold(self.subject, recorded)?;
        self.verdicts.meet(verdict);
        Ok(verdict)
    }

    /// As `hold`, where the second program has taken the step before.
    fn beside(&mut self, stepped: &Stepping, recorded: &Recorded) -> Result<(), Difference> {
        let verdict = compare_due(self.subject, recorded, stepped.due(recorded))?;
        self.verdicts.meet(verdict);
        Ok(())
    }

    /// Our own step's recording, of which yes must be said, whatever both sides say.
    fn own(&mut self, event: &Recorded) -> Result<(), Difference> {
        let (trace, state, _) = event.ours();
        let own = event.with(&trace, &state);
        let given = self.hold(&own)?;
        same(|| "our own recording held".into(), &[given], &[verdict::AS_ORDERED])
            .map_err(|difference| told(difference, &own))?;
        if !event.outcomes.is_empty() {
            self.verdicts.meet_lent(Head::of(event.table[0]).edition);
        }
        Ok(())
    }

    /// Our own recording, then a word changed, lost and added at every place of the trace and of the state; both empty, either cut,
    /// either longer, and both other words.
    fn damaged(&mut self, event: &Recorded) -> Result<(), Difference> {
        self.own(event)?;
        let (trace, state, _) = event.ours();
        let chosen = (event.table.len() + event.event as usize) % 4 == 0;
        let few = if chosen && trace.len() + state.len() <= EVERY { EVERY } else { FEW };
        let stepped = Stepping::of(event);
        for theirs in damaged(&trace, few) {
            self.beside(&stepped, &event.with(&theirs, &state))?;
        }
        for their_state in damaged(&state, few) {
            self.beside(&stepped, &event.with(&trace, &their_state))?;
        }
        let longer = [&trace[..], &state, &[TRACE_FILL]].concat();
        let half = |words: &[u32]| words[..words.len() / 2].to_vec();
        let room = [&trace[..], &vec![TRACE_FILL; event.trace.len() - trace.len()]].concat();
        for theirs in [vec![], half(&trace), longer.clone(), room, state.clone()] {
            for their_state in [&[][..], &state] {
                self.hold(&event.with(&theirs, their_state))?;
            }
        }
        for their_state in [vec![], half(&state), [&state[..], &trace, &[0]].concat(), longer] {
            self.hold(&event.with(&trace, &their_state))?;
        }
        Ok(())
    }

    /// What the step writes where every call is good, and where the first ones fail: held with the case's outcomes; and as our own
    /// recordings with their own.
    fn other_outcomes(&mut self, event: &Recorded) -> Result<(), Difference> {
        for outcomes in [vec![], vec![outcome::FAILED; 6]] {
            let other = Recorded { outcomes, ..event.clone() };
            let (trace, state, _) = other.ours();
            self.hold(&event.with(&trace, &state))?;
            self.own(&other)?;
        }
        Ok(())
    }
}

/// The words with one changed, lost and added, at each place, or at few; a word is added behind the last too.
fn damaged(words: &[u32], few: usize) -> impl Iterator<Item = Vec<u32>> {
    let (length, step) = (words.len(), words.len().div_ceil(few).max(1));
    let places = (0..length).filter(move |place| place % step == 0 || place + 1 == length);
    let damaged = places.flat_map(move |place| {
        let [mut changed, mut lost, mut added] = [words.to_vec(), words.to_vec(), words.to_vec()];
        changed[place] ^= 1 << (place % 32);
        lost.remove(place);
        // At times a word beside its like: the two part further on.
        added.insert(place, if place % 3 == 0 { words[place] } else { !words[place] });
        [changed, lost, added]
    });
    damaged.chain([[words, &[0]].concat()])
}

/// What a side gives for a recording.
struct Given {
    verdict: u32,
    number: usize,
    /// As `Whose`; 3 where the part's words stand in neither trace.
    whose: u32,
    from: usize,
    part: Vec<u32>,
    count: usize,
    visits: u64,
}

/// What the second program gives, and the state and the trace that it leaves.
struct Due {
    given: Given,
    state: Lent,
    trace: Lent,
}

impl Due {
    fn of(recorded: &Recorded) -> Self {
        let Recorded { table, state, trace, outcomes, event, theirs, their_state } = recorded;
        let (mut state, mut trace) = (Lent::of(state), Lent::of(trace));
        let (words, room) = (state.words(), trace.words());
        let held = second::hold(table, words, room, outcomes, *event, theirs, their_state);
        let second::Held { verdict, number, whose, from, part, stepped } = held;
        let Stepped { count, visits, .. } = stepped;
        let given = Given { verdict, number, whose: whose as u32, from, part, count, visits };
        Due { given, state, trace }
    }
}

/// An event that the second program has taken, which is the same whatever is held against it. So that recordings that differ in the
/// supplier's words alone need no step each: theirs is the verdict that its `parting` gives.
struct Stepping {
    stepped: Stepped,
    state: Lent,
    trace: Lent,
}

impl Stepping {
    /// The event must be one that is taken.
    fn of(event: &Recorded) -> Self {
        let (mut state, mut trace) = (Lent::of(&event.state), Lent::of(&event.trace));
        let (words, room) = (state.words(), trace.words());
        let stepped = second::step(&event.table, words, room, event.event, &event.outcomes);
        Stepping { stepped, state, trace }
    }

    fn due(&self, Recorded { theirs, their_state, .. }: &Recorded) -> Due {
        let (mut state, mut trace) = (self.state.clone(), self.trace.clone());
        let Stepped { count, visits, .. } = self.stepped;
        let ours = &trace.words()[..count];
        let Parting { verdict, number } = parting(ours, state.words(), theirs, their_state);
        let (whose, from, part) = match verdict {
            verdict::TRACES_PART | verdict::OURS_STOPS => {
                (Whose::Suppliers, number, theirs[number..].to_vec())
            }
            verdict::SUPPLIER_STOPS => (Whose::Ours, number, ours[number..].to_vec()),
            _ => (Whose::Nobody, 0, vec![]),
        };
        let given = Given { verdict, number, whose: whose as u32, from, part, count, visits };
        Due { given, state, trace }
    }
}

/// Where a part stands, by its address.
fn place(part: &[u32], theirs: Range<*const u32>, ours: Range<*const u32>) -> (u32, usize) {
    const COPY: u32 = 3;
    let at = part.as_ptr();
    let from = |whole: Range<*const u32>| (at as usize - whole.start as usize) / size_of::<u32>();
    match () {
        () if part.is_empty() => (Whose::Nobody as u32, 0),
        () if theirs.contains(&at) => (Whose::Suppliers as u32, from(theirs)),
        () if ours.contains(&at) => (Whose::Ours as u32, from(ours)),
        () => (COPY, 0),
    }
}

/// One recording by both sides: the verdict; a difference says which recording.
pub fn compare_hold(subject: &impl Subject, recorded: &Recorded) -> Result<u32, Difference> {
    compare_due(subject, recorded, Due::of(recorded))
}

fn compare_due(subject: &impl Subject, recorded: &Recorded, due: Due) -> Result<u32, Difference> {
    let Recorded { table, state, trace, outcomes, event, theirs, their_state } = recorded;
    let mut read = [table, outcomes, theirs, their_state].map(|words| Lent::of(words));
    let untouched = read.clone();
    let (mut state, mut trace) = (Lent::of(state), Lent::of(trace));
    let proved = {
        let [t, o, w, s] = &mut read;
        let (ours, suppliers) = (trace.words().as_ptr_range(), w.words().as_ptr_range());
        let (state, trace) = (state.words(), trace.words());
        let held = subject.hold(t.words(), state, trace, o.words(), *event, w.words(), s.words());
        let Held { verdict, count, visits, part } = held;
        let (whose, from) = place(part, suppliers, ours);
        let (number, part, visits) = (verdict.given(), part.to_vec(), visits.into());
        Given { verdict: verdict.number(), number, whose, from, part, count, visits }
    };
    let what = |part: &str| format!("event {event:08X} held, {part}");
    let compared = || {
        let second = &due.given;
        let pair = |one: u32, other: usize| [one, as_word(other)];
        same(
            || what("verdict, number"),
            &pair(proved.verdict, proved.number),
            &pair(second.verdict, second.number),
        )?;
        same(
            || what("whose the part is (1 the supplier's, 2 ours, 3 a copy), from where"),
            &pair(proved.whose, proved.from),
            &pair(second.whose, second.from),
        )?;
        same(|| what("part"), &proved.part, &second.part)?;
        same(|| what("count"), &[as_word(proved.count)], &[as_word(second.count)])?;
        same(
            || what("visits"),
            &visits_words(subject, proved.visits),
            &visits_words(subject, second.visits),
        )?;
        same_lent(&|| what("state"), &state, &due.state)?;
        same_lent(&|| what("trace"), &trace, &due.trace)?;
        let names = ["table", "outcomes", "the supplier's trace", "the supplier's state"];
        let mut unchanged = names.into_iter().zip(read.iter().zip(&untouched));
        unchanged.try_for_each(|(name, (lent, was))| same_lent(&|| what(name), lent, was))
    };
    compared().map_err(|difference| told(difference, recorded))?;
    Ok(due.given.verdict)
}

/// A difference with the recording that it is of.
fn told(difference: Difference, recorded: &Recorded) -> Difference {
    Difference { hold: Some(Box::new(recorded.clone())), ..difference }
}

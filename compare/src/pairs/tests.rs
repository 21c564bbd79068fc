//! A side made wrong on purpose is found on a pair of runs: by what it breaks of Q-14, and by the second program.

use herringcart::{Answer, End, Panel, Played};
use second::cases::agreement::Eyes;
use second::cases::pairs::{Pair, pair};
use second::testing::coverage::Coverage;
use second::words::*;

use super::smaller::smallest;
use super::sums::Sums;
use super::{pairs, run, told};
use crate::differ::pairs::{Fault, compare_pair};
use crate::subject::{Proved, Subject};

/// A pair on which a wrong side shows, made small, and what is wrong with it.
struct Found {
    small: Pair,
    fault: Fault,
    told: String,
}

/// The first of a seed's pairs on which a wrong side shows as it is asked for.
fn found<S: Subject>(wrong: impl Fn(&Pair) -> S, shows: impl Fn(&Fault) -> bool) -> Found {
    let shown = |pair: &Pair| compare_pair(&wrong(pair), pair).is_err_and(|fault| shows(&fault));
    let large = (0..400).map(|number| pair(6, number)).find(shown).expect("a pair that shows it");
    let wrong = wrong(&large);
    let small = smallest(&wrong, &large);
    assert!([&large, &small].map(|pair| compare_pair(&Proved, pair).is_ok()) == [true; 2]);
    let fault = *compare_pair(&wrong, &small).err().expect("it is still at fault");
    let told = told(&wrong, "name", &small);
    let start = format!("name, made smaller:\noperator: {}\ntable: ", small.operator);
    assert!(told.starts_with(&start), "{told}");
    Found { small, fault, told }
}

/// Of a side that breaks the statement, which is said in these words.
fn broken<S: Subject>(wrong: impl Fn(&Pair) -> S, words: &str) -> Found {
    let said = |fault: &Fault| fault.broken.as_ref().is_some_and(|broken| broken.contains(words));
    let found = found(wrong, said);
    assert!(found.fault.difference.is_some() && found.fault.broken.is_some());
    assert!(found.told.contains("\nbroken by the proved code: "), "{}", found.told);
    found
}

/// Of a side that differs from the second program in these words and breaks nothing of the statement.
fn differs<S: Subject>(wrong: impl Fn(&Pair) -> S, words: &str) -> Found {
    let found = found(wrong, |fault| fault.broken.is_none());
    assert!(found.fault.broken.is_none());
    let what = &found.fault.difference.as_ref().expect("it differs").what;
    assert!(what.contains(words), "{what}");
    assert!(found.told.contains(&format!("\ndiffers: {what}\n")), "{}", found.told);
    found
}

/// How many calls the runs of a pair have, the shorter first.
fn calls(pair: &Pair) -> [usize; 2] {
    let mut calls = [0, 1].map(|side| pair.sides[side].len());
    calls.sort();
    calls
}

/// How many events its runs share.
fn shared(pair: &Pair) -> usize {
    pair.sides[0].iter().filter(|sent| sent.shared).count()
}

/// How many events its days have, of both runs.
fn events_of_days(pair: &Pair) -> usize {
    pair.days.iter().flatten().flatten().map(|part| part.events.len()).sum()
}

/// What a wrong side may make of an event behind the proved code.
struct Taken<'a> {
    eyes: &'a Eyes,
    table: &'a [u32],
    event: u32,
    state: &'a mut [u32],
    trace: &'a mut [u32],
    answer: Answer,
}

impl Taken<'_> {
    fn strange(&self) -> bool {
        !self.eyes.sees(Event::of(self.event).owner)
    }

    /// Alters a bit of a word that is seen, such that the state still fits: else the next event would be refused.
    fn alter(&mut self) {
        let places = self.eyes.state(self.state).into_iter().map(|(place, _)| place);
        for (place, bit) in places.flat_map(|place| (0..32).map(move |bit| (place, 1 << bit))) {
            self.state[place] ^= bit;
            if herringcart::check_state(self.table, self.state) == 0 {
                return;
            }
            self.state[place] ^= bit;
        }
    }
}

struct Steps(Eyes, fn(Taken) -> Answer);

impl Subject for Steps {
    fn step(
        &self,
        table: &[u32],
        state: &mut [u32],
        trace: &mut [u32],
        outcomes: &[u32],
        event: u32,
    ) -> Answer {
        let answer = herringcart::take_event(table, state, trace, outcomes, event);
        self.1(Taken { eyes: &self.0, table, event, state, trace, answer })
    }
}

fn steps(wrong: fn(Taken) -> Answer) -> impl Fn(&Pair) -> Steps {
    move |pair| Steps(Eyes::of(pair), wrong)
}

/// Whether strangers' words of a state have an odd number of bits: what tells something of them.
fn odd(eyes: &Eyes, state: &[u32]) -> bool {
    let bits = |words: &mut dyn Iterator<Item = u32>| words.map(u32::count_ones).sum::<u32>();
    let all = bits(&mut state.iter().copied());
    (all - bits(&mut eyes.state(state).into_iter().map(|(_, word)| word))) % 2 == 1
}

#[test]
fn own_word_that_a_strangers_event_changes_is_found() {
    let wrong = steps(|mut taken| {
        if taken.strange() && taken.answer.done() {
            taken.alter();
        }
        taken.answer
    });
    let Found { small, .. } = broken(wrong, "state word");
    assert_eq!((calls(&small), events_of_days(&small)), ([0, 1], 0), "{small:X?}");
}

#[test]
fn own_word_that_tells_of_a_strangers_is_found() {
    let wrong = steps(|mut taken| {
        if !taken.strange() && taken.answer.done() && odd(taken.eyes, taken.state) {
            taken.alter();
        }
        taken.answer
    });
    // A shared event that shows it, behind few strangers', of which one alone may not be left out where the bits are odd with it.
    let Found { small, fault, .. } = broken(wrong, "state word");
    assert_eq!((shared(&small), events_of_days(&small)), (1, 0), "{small:X?}");
    assert!(calls(&small)[1] <= 3, "{small:X?}");
    let broken = fault.broken.expect("it is broken");
    assert!(broken.contains("shared event 0: state word"), "{broken}");
}

/// Has the words that are seen tell whether they stand at an odd place.
fn tell_places(eyes: &Eyes, words: &mut [u32]) {
    for (place, word) in words.iter_mut().enumerate() {
        if eyes.sees(TraceWord::of(*word).owner) {
            *word ^= place as u32 & 1;
        }
    }
}

#[test]
fn trace_word_that_tells_its_position_is_found() {
    let wrong = steps(|taken| {
        tell_places(taken.eyes, &mut taken.trace[..taken.answer.count]);
        taken.answer
    });
    let Found { small, .. } = broken(wrong, "trace words");
    assert_eq!(events_of_days(&small), 0, "{small:X?}");
    assert!(shared(&small) > 0 && calls(&small)[1] > shared(&small), "{small:X?}");
}

#[test]
fn answer_that_tells_of_strangers_is_found() {
    let wrong = steps(|taken| {
        let told = taken.answer.number == 6 && !taken.strange() && odd(taken.eyes, taken.state);
        Answer { number: taken.answer.number - u32::from(told), ..taken.answer }
    });
    let Found { small, .. } = broken(wrong, "answers [");
    assert_eq!((shared(&small), events_of_days(&small)), (1, 0), "{small:X?}");
    assert!(calls(&small)[1] <= 3, "{small:X?}");
}

#[test]
fn refused_event_that_changes_a_strangers_word_is_found() {
    // Q-14 does not say so; nothing of the operator's is changed.
    let wrong = steps(|taken| {
        let seen = taken.eyes.state(taken.state);
        let mut places = 0..taken.state.len();
        let hidden = places.find(|place| seen.iter().all(|(other, _)| other != place));
        if let (4, Some(place)) = (taken.answer.number, hidden) {
            taken.state[place] ^= 1;
        }
        taken.answer
    });
    let Found { small, .. } = broken(wrong, "a refused event changed the state");
    assert_eq!((calls(&small), events_of_days(&small)), ([0, 1], 0), "{small:X?}");
}

#[test]
fn visit_of_a_strangers_refused_event_is_found() {
    let wrong = steps(|taken| {
        let told = taken.strange() && !taken.answer.done();
        Answer { visits: taken.answer.visits + u32::from(told), ..taken.answer }
    });
    let Found { small, .. } = differs(wrong, ", a stranger's event (");
    assert_eq!((calls(&small), events_of_days(&small)), ([0, 1], 0), "{small:X?}");
}

#[test]
fn word_written_past_the_state_is_found() {
    let wrong = steps(|taken| {
        if taken.strange() && taken.answer.done() {
            // SAFETY: the comparison lends its words out of a larger buffer.
            unsafe { *taken.state.as_mut_ptr().add(taken.state.len()) = 0 };
        }
        taken.answer
    });
    let Found { small, .. } = differs(wrong, "state, outside what was lent");
    assert_eq!(calls(&small)[0], 0, "{small:X?}");
}

/// A panel's lines, what they were made of, and how many bytes they are.
struct Panels(fn(&[u32], &mut [u8], Panel) -> Panel);

impl Subject for Panels {
    fn panel(&self, operator: u32, t: &[u32], s: &[u32], words: &[u32], lines: &mut [u8]) -> Panel {
        let panel = herringcart::panel(operator, t, s, words, lines);
        self.0(words, lines, panel)
    }
}

#[test]
fn panel_byte_that_tells_the_total_count_is_found() {
    let wrong = |_: &Pair| {
        Panels(|words, lines, panel| {
            if panel.bytes > 0 {
                lines[panel.bytes - 1] += words.len() as u8;
            }
            panel
        })
    };
    let Found { small, told, .. } = broken(wrong, "panels differ");
    assert_eq!(events_of_days(&small), 0, "{small:X?}");
    assert!(told.contains("; panel: \"") && small.operator > 0, "{told}");
}

#[test]
fn panel_byte_past_the_lines_is_found() {
    let wrong = |_: &Pair| {
        Panels(|words, lines, panel| {
            lines[panel.bytes] ^= u8::from(words.is_empty());
            panel
        })
    };
    let Found { small, .. } = differs(wrong, "panel of operator");
    assert!(calls(&small)[1] <= 3, "{small:X?}");
}

/// What a wrong side makes of a play behind the proved code, with how many events there were.
struct Plays(Eyes, fn(&Eyes, &mut [u32], usize, Played) -> Played);

impl Subject for Plays {
    fn play(&self, table: &[u32], state: &mut [u32], trace: &mut [u32], events: &[u32]) -> Played {
        let played = herringcart::play(table, state, trace, events);
        self.1(&self.0, trace, events.len(), played)
    }
}

#[test]
fn played_word_that_tells_its_position_is_found() {
    let wrong = |pair: &Pair| {
        Plays(Eyes::of(pair), |eyes, trace, _, played| {
            tell_places(eyes, &mut trace[..played.count]);
            played
        })
    };
    let Found { small, .. } = broken(wrong, "joined trace words differ");
    assert_eq!(calls(&small), [0, 0], "{small:X?}");
    assert!(events_of_days(&small) > 2, "{small:X?}");
}

#[test]
fn play_that_takes_nothing_is_found() {
    let wrong = |pair: &Pair| {
        Plays(Eyes::of(pair), |_, _, events, played| match played.end {
            End::TraceFull if events > 1 => Played { taken: 0, ..played },
            _ => played,
        })
    };
    let Found { small, .. } = broken(wrong, "a call that cannot be gone on from");
    assert_eq!(calls(&small), [0, 0], "{small:X?}");
}

#[test]
fn comparison_of_nothing_fails() {
    let none = Sums::default().all_met().expect_err("nothing is met");
    assert_eq!(none.lines().count(), 11);
    assert_eq!(pairs(&["7", "0"]), Err(none));
    let one = pairs(&["7", "1"]).expect_err("one pair is of one edition");
    assert!(one.starts_with("no pair met: a pair of edition "), "{one}");
    assert_eq!(pairs(&["7"]), Err("each seed needs its count".into()));
}

#[test]
fn sums_of_a_few_pairs_are_all_met() {
    let (mut sums, mut coverage) = (Sums::default(), Coverage::new());
    assert_eq!(run(7, 60, &mut sums, &mut coverage), Ok(()));
    assert_eq!(sums.all_met(), Ok(()));
    // Some row of the second program's is rarer: then the command fails.
    assert!(pairs(&["7", "60"]).is_err_and(|why| why.starts_with("no case met: pair")));
}

//! Request Q-7: suppliers' words made of our own, so that it is known what must be said of them.
//! Our step's words are a case's own log; each word of a trace and a state is changed, lost, added
//! and exchanged, and both are cut and go on.

use super::coverage::{Met, Row};
use super::held_rows::{self as rows, DAMAGES, Damage, Held, Place, Words};
use super::log::{Entry, hold as holds};
use super::visits_rows::special;
use crate::cases::Case;
use crate::cases::prng::Prng;
use crate::hold::Whose;
use crate::stream::TRACE_FILL;
use crate::words::*;
use crate::{hold, step};

/// How many words of trace and state together are damaged one by one, at every place; of longer
/// ones so many places are drawn.
const EVERY: usize = 24;

/// Draws what the case leaves open, the same for the same case.
pub fn drawing(case: &Case) -> Prng {
    let words = case.table.iter().chain(&case.events);
    Prng::new(words.fold(7, |seed, &word| seed.rotate_left(5) ^ u64::from(word)))
}

/// What must be said: the verdict and the number beside it.
type Due = (u32, usize);

/// One event of a case's log, held against suppliers' words.
struct Ours<'a> {
    case: &'a Case,
    entry: &'a Entry,
}

pub fn try_holds(case: &Case, log: &[Entry], met: &mut Met) -> Result<(), String> {
    let rng = &mut drawing(case);
    let Some(busiest) = (0..log.len()).max_by_key(|&number| log[number].trace.len()) else {
        return Ok(());
    };
    let refused: Vec<usize> = (0..log.len()).filter(|&n| log[n].answer != 0).collect();
    let any = rng.below(log.len());
    let at = |number: usize| Ours { case, entry: &log[number] };
    let tried = |number: usize, tried: Result<(), String>| {
        tried.map_err(|what| format!("event {number} held: {what}"))
    };
    // A step that refuses is held once, for there is little to be said.
    if let Some(number) = rng.pick_any(&refused) {
        tried(number, at(number).try_refused(rng, log, met))?;
    }
    // In every fourth case at every place, for each is a step of its own.
    let whole = rng.chance(25);
    for (number, whole) in [(busiest, whole), (any, false)] {
        if log[number].answer == 0 && (number == busiest || any != busiest) {
            tried(number, at(number).try_taken(rng, whole, met))?;
        }
    }
    if log[busiest].answer == 0 {
        tried(busiest, at(busiest).try_outcomes(rng, met))?;
    }
    Ok(())
}

impl Ours<'_> {
    /// Holds words and sees that just this is said of them, and that the state and our trace are
    /// what the step leaves.
    fn try_words(
        &self,
        theirs: &[u32],
        their_state: &[u32],
        (verdict, number): Due,
        met: &mut Met,
    ) -> Result<(), String> {
        let (case, entry) = (self.case, self.entry);
        let (mut state, mut trace) = (entry.before.clone(), vec![TRACE_FILL; case.room]);
        let (lent, event) = (&entry.outcomes, entry.event.word());
        let held = hold(&case.table, &mut state, &mut trace, lent, event, theirs, their_state);
        let (whose, part) = match verdict {
            2 | 4 => (Whose::Suppliers, &theirs[number..]),
            3 => (Whose::Ours, &entry.trace[number..]),
            _ => (Whose::Nobody, &[][..]),
        };
        let from = if part.is_empty() { 0 } else { number };
        let told = (held.verdict, held.number, held.whose, held.from, &held.part[..]);
        holds(told == (verdict, number, whose, from, part), || {
            format!("{theirs:X?} {their_state:X?} is {held:X?}, not {verdict} {number}")
        })?;
        let stepped = (held.stepped.answer, held.stepped.count, held.stepped.visits);
        holds(stepped == (entry.answer, entry.trace.len(), entry.visits), || {
            format!("our step: {:?}", held.stepped)
        })?;
        holds(state == entry.after, || format!("the state after it is {state:X?}"))?;
        let (words, behind) = trace.split_at(entry.trace.len());
        let kept = behind.iter().all(|&word| word == TRACE_FILL);
        holds(words == entry.trace && kept, || format!("our trace after it is {trace:X?}"))?;
        met.insert(Row::Held(Held::Verdict(verdict)));
        Ok(())
    }

    /// "If our step would refuse, give its answer and an empty part": whatever the words are.
    fn try_refused(&self, rng: &mut Prng, log: &[Entry], met: &mut Met) -> Result<(), String> {
        let (entry, due) = (self.entry, (1, self.entry.answer as usize));
        let taken = log.iter().find(|other| other.answer == 0 && !other.trace.is_empty());
        let some: Vec<u32> = (0..1 + rng.below(3)).map(|_| rng.word()).collect();
        self.try_words(&[], &entry.before, due, met)?;
        self.try_words(&some, &entry.before, due, met)?;
        self.try_words(&[], &some, due, met)?;
        self.try_words(&[], &[], due, met)?;
        if let Some(taken) = taken {
            self.try_words(&taken.trace, &taken.after, due, met)?;
        }
        met.insert(Row::Held(Held::Refused(entry.answer)));
        special(
            met,
            &[
                (true, rows::REFUSED_SAME),
                (true, rows::REFUSED_WORDS),
                (some != entry.before, rows::REFUSED_STATE),
                (taken.is_some(), rows::REFUSED_TAKEN),
            ],
        );
        Ok(())
    }

    /// Our own words, and those made of them; at every place, or at a few.
    fn try_taken(&self, rng: &mut Prng, whole: bool, met: &mut Met) -> Result<(), String> {
        let (trace, state) = (&self.entry.trace[..], &self.entry.after[..]);
        self.try_words(trace, state, (0, 0), met)?;
        self.meet_yes(met);
        let all = trace.len() + state.len();
        let every = whole && all <= EVERY;
        let drawn = if whole { EVERY / 4 } else { 1 };
        // The first and last words, and what is drawn between.
        let places = |rng: &mut Prng, length: usize| -> Vec<usize> {
            match length {
                0 => vec![],
                _ if every => (0..length).collect(),
                _ => {
                    let between = (0..drawn).map(|_| rng.below(length));
                    let mut places: Vec<usize> = between.chain([0, length - 1]).collect();
                    places.sort();
                    places.dedup();
                    places
                }
            }
        };
        special(met, &[(every && all >= 10, rows::EVERY_PLACE)]);
        let some = [rng.pick(&DAMAGES), rng.pick(&DAMAGES)];
        for damage in if every || whole { &DAMAGES[..] } else { &some } {
            let damage = *damage;
            for place in places(rng, trace.len()) {
                let (theirs, due) = self.trace_damaged(rng, damage, place, met);
                // The states part too, at times: traces are looked at first.
                let parts = due.0 != 0 && rng.chance(30);
                let (their_state, _) = if parts {
                    let (damage, place) = (rng.pick(&DAMAGES), rng.below(state.len()));
                    damaged(rng, state, damage, place)
                } else {
                    (state.to_vec(), None)
                };
                self.try_words(&theirs, &their_state, due, met)?;
                meet_both(due, state, &their_state, met);
            }
            for place in places(rng, state.len()) {
                let (their_state, apart) = damaged(rng, state, damage, place);
                let due = apart.map_or((0, 0), |number| (5, number));
                self.try_words(trace, &their_state, due, met)?;
                meet_damage(met, Words::State, damage, place, (state, &their_state));
            }
        }
        self.try_nothing(met)?;
        self.try_rooms_words(rng, met)
    }

    fn trace_damaged(
        &self,
        rng: &mut Prng,
        damage: Damage,
        place: usize,
        met: &mut Met,
    ) -> (Vec<u32>, Due) {
        let trace = &self.entry.trace;
        let (theirs, apart) = damaged(rng, trace, damage, place);
        // Where one is a beginning of the other, the shorter length is all of it.
        let due = match apart {
            None => (0, 0),
            Some(number) if number == theirs.len() => (3, number),
            Some(number) if number == trace.len() => (4, number),
            Some(number) => (2, number),
        };
        meet_damage(met, Words::Trace, damage, place, (trace, &theirs));
        let lost = damage == Damage::Lost && due.1 > place;
        special(
            met,
            &[
                (lost && due.0 == 2, rows::LIKE_LOST),
                (lost && due.0 == 3, rows::LIKE_LAST),
                (damage == Damage::Added && due.0 == 2 && due.1 > place, rows::LIKE_ADDED),
                (
                    damage == Damage::Exchanged && due.0 == 0 && trace.len() > 1,
                    rows::LIKE_EXCHANGED,
                ),
                (theirs.len() > self.case.room, rows::PAST_ROOM),
            ],
        );
        (theirs, due)
    }

    fn meet_yes(&self, met: &mut Met) {
        let (case, entry) = (self.case, self.entry);
        let edition = Head::of(case.table[0]).edition;
        met.insert(Row::Held(Held::Yes(edition)));
        special(
            met,
            &[
                (entry.trace.is_empty(), rows::YES_SILENT),
                (entry.trace.len() < case.room && !entry.trace.is_empty(), rows::YES_ROOM),
            ],
        );
    }

    /// Both empty.
    fn try_nothing(&self, met: &mut Met) -> Result<(), String> {
        let silent = self.entry.trace.is_empty();
        self.try_words(&[], &[], if silent { (5, 0) } else { (3, 0) }, met)?;
        special(met, &[(silent, rows::NOTHING_OF_NONE), (!silent, rows::NOTHING_OF_SOME)]);
        Ok(())
    }

    /// The room's words behind our own, in which nothing was written.
    fn try_rooms_words(&self, rng: &mut Prng, met: &mut Met) -> Result<(), String> {
        let trace = &self.entry.trace;
        let spare = self.case.room - trace.len();
        let theirs = [&trace[..], &vec![TRACE_FILL; 1 + rng.below(spare + 2)]].concat();
        self.try_words(&theirs, &self.entry.after, (4, trace.len()), met)?;
        special(met, &[(theirs.len() <= self.case.room, rows::ROOMS_WORDS)]);
        Ok(())
    }

    /// "A supplier's log is compared with the outcomes given": what the step writes with
    /// other outcomes.
    fn try_outcomes(&self, rng: &mut Prng, met: &mut Met) -> Result<(), String> {
        let (case, entry) = (self.case, self.entry);
        let turned: Vec<u32> = match rng.below(3) {
            0 => vec![],
            1 => vec![1; 6],
            _ => entry.outcomes.iter().map(|outcome| 1 - outcome).collect(),
        };
        let (mut state, mut trace) = (entry.before.clone(), vec![TRACE_FILL; case.room]);
        let stepped = step(&case.table, &mut state, &mut trace, entry.event.word(), &turned);
        trace.truncate(stepped.count);
        let due = self.told(&trace, &state);
        self.try_words(&trace, &state, due, met)?;
        if due.0 != 0 {
            met.insert(Row::Held(Held::Outcomes(due.0)));
            special(met, &[(entry.outcomes.contains(&1), rows::YES_OUTCOMES)]);
        }
        // The same trace beside our state, so that at times the states alone part.
        self.try_words(&entry.trace, &state, self.told(&entry.trace, &state), met)?;
        if state != entry.after {
            met.insert(Row::Held(Held::Outcomes(5)));
        }
        Ok(())
    }

    /// What must be said of words that are not made of ours: word by word.
    fn told(&self, theirs: &[u32], their_state: &[u32]) -> Due {
        let (trace, state) = (&self.entry.trace, &self.entry.after);
        let mut word = 0;
        loop {
            match (trace.get(word), theirs.get(word)) {
                (Some(a), Some(b)) if a == b => word += 1,
                (Some(_), Some(_)) => return (2, word),
                (Some(_), None) => return (3, word),
                (None, Some(_)) => return (4, word),
                (None, None) => break,
            }
        }
        let length = state.len().max(their_state.len());
        let apart = (0..length).find(|&word| state.get(word) != their_state.get(word));
        apart.map_or((0, 0), |word| (5, word))
    }
}

/// Words with one fault about a place; and where they then part from those before: at the first
/// word that differs, or at the shorter length; None where they are the same.
pub fn damaged(
    rng: &mut Prng,
    words: &[u32],
    damage: Damage,
    place: usize,
) -> (Vec<u32>, Option<usize>) {
    let length = words.len();
    let mut other = words.to_vec();
    // The first word from a place on that is not like the one behind it.
    let unlike = |from: usize| (from..length - 1).find(|&at| words[at] != words[at + 1]);
    let apart = match damage {
        Damage::Changed => {
            other[place] ^= 1 << rng.below(32);
            place
        }
        Damage::Lost => {
            other.remove(place);
            unlike(place).unwrap_or(length - 1)
        }
        Damage::Added if rng.chance(30) => {
            other.insert(place, words[place]);
            unlike(place).map_or(length, |at| at + 1)
        }
        Damage::Added => {
            let word = words[place] ^ (1 + rng.below(0xFFFF) as u32);
            other.insert(place, word);
            place
        }
        Damage::Exchanged => {
            let with = if rng.chance(50) { (place + 1) % length } else { rng.below(length) };
            other.swap(place, with);
            if words[place] == words[with] {
                return (other, None);
            }
            place.min(with)
        }
        Damage::Cut => {
            other.truncate(place);
            place
        }
        Damage::GoneOn => {
            let more = [1, 2 + rng.below(3), length + 1 + rng.below(4)];
            let more = more[rng.weighed(&[50, 30, 20])];
            other.extend((0..more).map(|_| if rng.chance(50) { rng.word() } else { words[place] }));
            length
        }
    };
    (other, Some(apart))
}

fn meet_damage(
    met: &mut Met,
    which: Words,
    damage: Damage,
    place: usize,
    (words, other): (&[u32], &[u32]),
) {
    let (length, more) = (words.len(), other.len().saturating_sub(words.len()));
    let at = match damage {
        Damage::GoneOn if more == 1 => Place::First,
        Damage::GoneOn if more <= length => Place::Inner,
        Damage::GoneOn => Place::Last,
        _ if place == 0 => Place::First,
        _ if place + 1 == length => Place::Last,
        _ => Place::Inner,
    };
    if words != other {
        met.insert(Row::Held(Held::Damage(which, damage, at)));
    }
}

fn meet_both((verdict, number): Due, state: &[u32], their_state: &[u32], met: &mut Met) {
    if state == their_state {
        return;
    }
    let lower = state.iter().zip(their_state).position(|(a, b)| a != b);
    special(
        met,
        &[
            (verdict == 2, rows::PART_AND_STATE),
            (verdict == 3, rows::STOP_AND_STATE),
            (verdict == 4, rows::GO_ON_AND_STATE),
            (verdict == 2 && lower.is_some_and(|word| word < number), rows::STATE_LOWER),
        ],
    );
}

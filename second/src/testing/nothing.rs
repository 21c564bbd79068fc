//! Request Q-14 on pairs of runs: nothing of a stranger at all is seen by an operator.

use super::coverage::Met;
use super::log::{Entry, hold};
use super::nothing_met::{Watched, meet_day, meet_panels};
use super::traces::callers;
use crate::cases::agreement::{Eyes, Stop, Told, agree, days_agree, untouched};
use crate::cases::pairs::{Pair, Part, Sent};
use crate::panel::OPERATORS;
use crate::play::TRACE_FULL;
use crate::state::state_length;
use crate::stream::TRACE_FILL;
use crate::words::*;
use crate::{check, fresh, panel, play, step};

/// Room for any operator's panel: a line for each of 104 things and of 4,096 trace words.
const LINES: usize = 4200 * 24;

/// Tries a pair; gives what it met.
pub fn try_pair(pair: &Pair) -> Result<Met, String> {
    let mut met = Met::new();
    let fresh = try_made(pair)?;
    let logs = [0, 1].map(|side| run(pair, &fresh, &pair.sides[side]));
    try_alike(pair, &logs)?;
    let told = [0, 1].map(|side| told(pair, &logs[side]));
    agree(pair, [&told[0], &told[1]])?;
    untouched(pair, &fresh, [&told[0], &told[1]])?;
    let refs = [&logs[0][..], &logs[1][..]];
    Watched::of(pair, refs).meet(&mut met);
    meet_panels(pair, [&told[0], &told[1]], &mut met);
    for (number, day) in pair.days.iter().enumerate() {
        let stops = [stops(pair, &fresh, &day[0])?, stops(pair, &fresh, &day[1])?];
        days_agree(pair, [&stops[0], &stops[1]]).map_err(|what| format!("day {number}: {what}"))?;
        meet_day(pair, day, [&stops[0], &stops[1]], &mut met);
    }
    Ok(met)
}

/// The pair is what Q-14 asks for; gives the fresh state.
fn try_made(pair: &Pair) -> Result<Vec<u32>, String> {
    let checked = check(&pair.table);
    hold((checked.reason, checked.b) == (0, pair.b), || format!("{checked:?}, B {}", pair.b))?;
    let shared = |side: &Vec<Sent>| -> Vec<u32> {
        side.iter().filter(|sent| sent.shared).map(|sent| sent.event).collect()
    };
    hold(shared(&pair.sides[0]) == shared(&pair.sides[1]), || "shared events differ".into())?;
    for sent in pair.sides.iter().flatten() {
        hold(sent.shared == pair.shares(sent.event), || format!("shared? {:08X}", sent.event))?;
        let good = sent.room >= pair.b && sent.outcomes.iter().all(|&word| word <= 1);
        hold(good || !sent.shared, || "a shared event's room or outcomes".into())?;
    }
    let table = Table::of(&pair.table).ok_or("no header")?;
    let mut state = vec![0; state_length(&table)];
    hold(fresh(&pair.table, &mut state) == 0, || "no fresh state".into())?;
    Ok(state)
}

/// A side's calls one after another.
fn run(pair: &Pair, fresh: &[u32], sent: &[Sent]) -> Vec<Entry> {
    let mut state = fresh.to_vec();
    let one = |sent: &Sent| {
        let (before, mut trace) = (state.clone(), vec![TRACE_FILL; sent.room]);
        let stepped = step(&pair.table, &mut state, &mut trace, sent.event, &sent.outcomes);
        trace.truncate(stepped.count);
        Entry {
            event: Event::of(sent.event),
            outcomes: sent.outcomes.clone(),
            answer: stepped.answer,
            before,
            after: state.clone(),
            trace,
            visits: stepped.visits,
        }
    };
    sent.iter().map(one).collect()
}

/// What Q-14 takes for granted in edition 2: "the operator's calls and the platform's must meet the
/// same outcomes in both runs."
fn try_alike(pair: &Pair, logs: &[Vec<Entry>; 2]) -> Result<(), String> {
    if Head::of(pair.table[0]).edition == edition::ONE {
        return Ok(());
    }
    let eyes = Eyes::of(pair);
    let met = |log: &[Entry]| -> Vec<Vec<u32>> {
        let shared = log.iter().filter(|entry| eyes.sees(entry.event.owner));
        shared.map(|entry| own_outcomes(&eyes, entry)).collect()
    };
    hold(met(&logs[0]) == met(&logs[1]), || "own calls meet other outcomes".into())
}

/// The outcomes that the operator's and the platform's calls of an event met, in order.
fn own_outcomes(eyes: &Eyes, entry: &Entry) -> Vec<u32> {
    let lent = entry.outcomes.iter().copied().chain(std::iter::repeat(outcome::GOOD));
    let met = callers(&entry.trace).into_iter().zip(lent);
    met.filter(|(owner, _)| eyes.sees(*owner)).map(|(_, outcome)| outcome).collect()
}

/// The results as any program would hand them in; panels are laid behind shared events.
fn told(pair: &Pair, log: &[Entry]) -> Vec<Told> {
    let one = |entry: &Entry| {
        let mut told = Told {
            answer: entry.answer,
            state: entry.after.clone(),
            words: entry.trace.clone(),
            panel: vec![],
        };
        if OPERATORS.contains(&pair.operator) && pair.shares(entry.event.word()) {
            let mut lines = vec![0; LINES];
            let laid = panel(pair.operator, &pair.table, &told.state, &told.words, &mut lines);
            lines.truncate(laid.bytes);
            told.panel = lines;
        }
        told
    };
    log.iter().map(one).collect()
}

/// A day done part by part, each play resumed until it is at its end.
fn stops(pair: &Pair, fresh: &[u32], parts: &[Part]) -> Result<Vec<Stop>, String> {
    let mut stop = Stop { shared: 0, state: fresh.to_vec(), words: vec![] };
    let mut stops = vec![stop.clone()];
    for part in parts {
        let mut rest = &part.events[..];
        while !rest.is_empty() {
            let (taken, words, ended) = call(pair, part, rest, &mut stop.state);
            hold(taken > 0 && ended, || format!("taken {taken} of {:08X?}", rest))?;
            let (done, behind) = rest.split_at(taken);
            stop.shared += done.iter().filter(|&&event| pair.shares(event)).count();
            stop.words.extend(words);
            rest = behind;
            stops.push(stop.clone());
        }
    }
    Ok(stops)
}

/// One call of a part: how many events it took, the words it wrote, and whether it ended as it
/// must, at the end or at "trace full".
fn call(pair: &Pair, part: &Part, rest: &[u32], state: &mut [u32]) -> (usize, Vec<u32>, bool) {
    let mut trace = vec![TRACE_FILL; part.room];
    if part.single {
        let stepped = step(&pair.table, state, &mut trace, rest[0], &[]);
        trace.truncate(stepped.count);
        return (1, trace, stepped.answer == 0);
    }
    let played = play(&pair.table, state, &mut trace, rest);
    trace.truncate(played.count);
    let full = played.answer == TRACE_FULL && played.taken < rest.len();
    (played.taken, trace, full || (played.answer, played.taken) == (0, rest.len()))
}

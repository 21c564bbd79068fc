//! Request Q-1 on a case: plays of its events, whole, cut and resumed, are what single calls give.

use std::ops::Range;

use super::coverage::{Met, Row};
use super::demand3::{Side, sides};
use super::log::{Entry, hold, run};
use super::play_rows::{self as rows, Seen, meet_refused};
use super::visits_rows::{PLAY_FULL, PLAY_REFUSED, PLAY_SILENT, special};
use crate::cases::Case;
use crate::cases::draft::Draft;
use crate::play::Played;
use crate::stream::TRACE_FILL;
use crate::{check_state, play, step};

/// How many of a case's first events a play is cut at.
const CUTS: usize = 12;
/// How many of a case's first events are asked for once more by single calls.
const SINGLE: usize = 8;
/// How many of a case's first events are resumed with the least room there is.
const TIGHT: usize = 16;
/// "Trace full".
const FULL: u32 = 3;
/// A play that took nothing.
const NOTHING: Played = Played { taken: 0, count: 0, visits: 0, answer: 0 };

/// Tries plays of every kind on a case, whose events `log` has one by one. Q-9: "In play all calls
/// are good", so the case lends no outcomes.
pub fn try_plays(case: &Case, b: usize, log: &[Entry], met: &mut Met) -> Result<(), String> {
    match check_state(&case.table, &case.state) {
        0 if case.room < b => {
            let log = run(&Case { room: b, ..case.clone() });
            try_accepted(&Singles { case, b, log: &log }, met)
        }
        0 => try_accepted(&Singles { case, b, log }, met),
        answer => try_refused(case, answer, met),
    }
}

/// A bad table or an unfit state is told before all else, and with no events too.
fn try_refused(case: &Case, answer: u32, met: &mut Met) -> Result<(), String> {
    for events in [&case.events[..], &[]] {
        for room in [case.room, 0] {
            let (mut state, mut trace) = (case.state.clone(), vec![TRACE_FILL; room]);
            let played = play(&case.table, &mut state, &mut trace, events);
            let unchanged = state == case.state && trace == vec![TRACE_FILL; room];
            hold(played == Played { answer, ..NOTHING } && unchanged, || {
                format!("{played:?} where {answer} was due")
            })?;
        }
        meet_refused(answer, events.is_empty(), met);
    }
    Ok(())
}

fn try_accepted(singles: &Singles, met: &mut Met) -> Result<(), String> {
    let all = 0..singles.log.len();
    let needed = singles.needed();
    let rooms = rooms(singles.b, &needed);
    for &room in &rooms {
        singles.try_play(all.clone(), room, met)?;
    }
    singles.try_play(0..0, 0, met)?;
    let least = needed.last().copied().unwrap_or(0);
    for at in 0..=all.len().min(CUTS) {
        // By turns with just room enough and with any of the rooms.
        let room = if at % 2 == 0 { least } else { rooms[at % rooms.len()] };
        singles.try_cut(at, room, met)?;
    }
    let half = needed.get(needed.len() / 2).copied().unwrap_or(0);
    singles.try_single_calls(half.saturating_sub(1))?;
    let b = singles.b;
    singles.try_resumed(all.len().min(TIGHT), &[b], met)?;
    singles.try_resumed(all.len(), &[half.max(b), 3 * b, 2 * b + 1], met)
}

/// Too few for one event, just enough for it and more; and to the word about what the day needs
/// to come to its middle and to its end.
fn rooms(b: usize, needed: &[usize]) -> Vec<usize> {
    let least = needed.last().copied().unwrap_or(0);
    let half = needed.get(needed.len() / 2).copied().unwrap_or(0);
    let less = |room: usize| room.saturating_sub(1);
    let mut rooms =
        vec![0, less(b), b, b + 1, 2 * b, less(half), half, less(least), least, least + b + 3];
    rooms.sort();
    rooms.dedup();
    rooms
}

/// A case's events one by one, with room for each.
struct Singles<'a> {
    case: &'a Case,
    b: usize,
    log: &'a [Entry],
}

/// What single calls give until one is refused.
struct Told {
    taken: usize,
    answer: u32,
    /// The trace words of the events taken.
    words: Vec<u32>,
    /// The sum of their visits.
    visits: u64,
}

/// A play, or several in a row, with every word lent.
struct Lent {
    state: Vec<u32>,
    trace: Vec<u32>,
    played: Played,
}

impl Singles<'_> {
    /// The state before an event, or after the last.
    fn state(&self, at: usize) -> &[u32] {
        if at == 0 { &self.case.state } else { &self.log[at - 1].after }
    }

    /// What single calls give where each is lent what is free of so many words: answer 3 comes
    /// where that is less than B, before the event's own answer.
    fn told(&self, events: Range<usize>, room: usize) -> Told {
        let mut told = Told { taken: 0, answer: 0, words: vec![], visits: 0 };
        for entry in &self.log[events] {
            let full = room < told.words.len() + self.b;
            told.answer = if full { FULL } else { entry.answer };
            if told.answer != 0 {
                break;
            }
            told.taken += 1;
            told.words.extend(&entry.trace);
            told.visits += entry.visits;
        }
        told
    }

    /// The least room in which each event comes to be looked at, up to the first refused.
    fn needed(&self) -> Vec<usize> {
        let taken = self.log.iter().take_while(|entry| entry.answer == 0).count();
        let mut written = 0;
        let looked_at = self.log.iter().take(taken + 1).map(|entry| {
            let needed = written + self.b;
            written += entry.trace.len();
            needed
        });
        looked_at.collect()
    }

    fn lend(&self, at: usize, room: usize) -> Lent {
        Lent { state: self.state(at).to_vec(), trace: vec![TRACE_FILL; room], played: NOTHING }
    }

    /// Plays events with what is free of the trace, behind what was played before.
    fn play_on(&self, lent: &mut Lent, events: Range<usize>) {
        let Lent { state, trace, played } = lent;
        let free = &mut trace[played.count..];
        let next = play(&self.case.table, state, free, &self.case.events[events]);
        played.taken += next.taken;
        played.count += next.count;
        played.visits += next.visits;
        played.answer = next.answer;
    }

    /// Every word lent is as single calls leave it.
    fn held(&self, from: usize, lent: &Lent, told: &Told) -> Result<(), String> {
        let Lent { state, trace, played } = lent;
        let (taken, answer, count) = (told.taken, told.answer, told.words.len());
        let due = Played { taken, count, visits: told.visits, answer };
        hold(*played == due, || format!("{played:?} of {} words, not {due:?}", trace.len()))?;
        hold(state == self.state(from + taken), || format!("state {state:X?} after {due:?}"))?;
        hold(trace[..count] == told.words, || format!("trace {:X?}", &trace[..count]))?;
        let untouched = trace[count..].iter().all(|&word| word == TRACE_FILL);
        hold(untouched, || format!("words changed behind the {count} written"))
    }

    fn try_play(&self, events: Range<usize>, room: usize, met: &mut Met) -> Result<Told, String> {
        let told = self.told(events.clone(), room);
        let mut lent = self.lend(events.start, room);
        self.play_on(&mut lent, events.clone());
        self.held(events.start, &lent, &told)
            .map_err(|what| format!("play of {events:?}: {what}"))?;
        let Told { taken, answer, visits, .. } = told;
        special(
            met,
            &[
                (visits > 0 && answer == FULL, PLAY_FULL),
                (visits > 0 && answer > FULL, PLAY_REFUSED),
                (visits > 0 && answer == 0 && told.words.is_empty(), PLAY_SILENT),
            ],
        );
        Seen { log: &self.log[events], b: self.b, room, taken, answer }.meet(met);
        Ok(told)
    }

    /// A play of the first events and, if it took them all, one of the rest with the rest of the
    /// trace are together the whole play.
    fn try_cut(&self, at: usize, room: usize, met: &mut Met) -> Result<(), String> {
        let told = self.told(0..self.log.len(), room);
        let mut lent = self.lend(0, room);
        self.play_on(&mut lent, 0..at);
        if lent.played.answer == 0 {
            self.play_on(&mut lent, at..self.log.len());
            if at > 0 && told.taken > at {
                met.insert(Row::Special(rows::CUT));
            }
            if at > 0 && told.taken == at && told.answer == FULL {
                met.insert(Row::Special(rows::CUT_FULL));
            }
        }
        self.held(0, &lent, &told).map_err(|what| format!("play cut at {at}: {what}"))
    }

    /// The log's events asked once more, each with the rest of one trace.
    fn try_single_calls(&self, room: usize) -> Result<(), String> {
        let first = self.log.len().min(SINGLE);
        let mut lent = self.lend(0, room);
        for &event in &self.case.events[..first] {
            let Lent { state, trace, played } = &mut lent;
            let free = &mut trace[played.count..];
            let stepped = step(&self.case.table, state, free, event, &[]);
            played.answer = stepped.answer;
            if stepped.answer != 0 {
                break;
            }
            played.taken += 1;
            played.count += stepped.count;
            played.visits += stepped.visits;
        }
        let told = self.told(0..first, room);
        self.held(0, &lent, &told).map_err(|what| format!("single calls: {what}"))
    }

    /// The first events, resumed at "trace full" with the next of the rooms and behind a refused
    /// event after it. With B words lent or more, each play takes an event or meets a refused one.
    fn try_resumed(&self, events: usize, rooms: &[usize], met: &mut Met) -> Result<(), String> {
        let (mut at, mut resumed) = (0, 0);
        for &room in rooms.iter().cycle() {
            let told = self.try_play(at..events, room, met)?;
            at += told.taken;
            match told.answer {
                0 => break,
                FULL => {
                    hold(told.taken > 0, || format!("nothing taken in {room} words at {at}"))?;
                    resumed += 1;
                    continue;
                }
                _ if resumed > 0 && told.taken == 0 => {
                    met.insert(Row::Special(rows::RESUMED_REFUSED));
                }
                _ => {}
            }
            meet_resumed(resumed, met);
            (at, resumed) = (at + 1, 0);
        }
        meet_resumed(resumed, met);
        Ok(())
    }
}

fn meet_resumed(times: usize, met: &mut Met) {
    match times {
        1 => met.insert(Row::Special(rows::RESUMED_ONCE)),
        5.. => met.insert(Row::Special(rows::RESUMED_OFTEN)),
        _ => false,
    };
}

/// Demand 3 over a play from a fresh state: with the strangers' events struck out of those taken,
/// and resumed with room at "trace full", all others are taken, and the operator and the platform
/// see the same at every stop.
pub fn try_struck_out(
    case: &Case,
    draft: &Draft,
    b: usize,
    log: &[Entry],
    met: &mut Met,
) -> Result<(), String> {
    let taken: Vec<&Entry> = log.iter().filter(|entry| entry.answer == 0).collect();
    let words = |entries: &[&Entry]| entries.iter().map(|entry| entry.trace.len()).sum::<usize>();
    // What the whole day needs: not a word less, so that one more written stops it.
    let least = taken.split_last().map_or(0, |(_, before)| words(before) + b);
    let half = words(&taken[..taken.len() / 2]) + b;
    for side in sides(draft).iter() {
        for room in [least, half] {
            let day = Day { case, side, room, b };
            day.try_struck_out(&taken, met)?;
        }
    }
    Ok(())
}

/// Events from a fresh state for an operator, with so many words lent to each play.
struct Day<'a> {
    case: &'a Case,
    side: &'a Side<'a>,
    room: usize,
    b: usize,
}

impl Day<'_> {
    fn try_struck_out(&self, taken: &[&Entry], met: &mut Met) -> Result<(), String> {
        let kept: Vec<&Entry> =
            taken.iter().copied().filter(|entry| self.side.has(entry.event.owner)).collect();
        if kept.len() == taken.len() {
            return Ok(());
        }
        met.insert(Row::Special(rows::STRUCK_OUT));
        let with = self.first_stop(taken);
        let without = self.try_kept(&kept)?;
        // Where the whole day stopped, among the kept events.
        let stop =
            with.map(|at| taken[..at].iter().filter(|e| self.side.has(e.event.owner)).count());
        match (stop, without) {
            (None, Some(_)) => met.insert(Row::Special(rows::STRUCK_MORE)),
            (Some(_), Some(_)) if stop != without => {
                met.insert(Row::Special(rows::STRUCK_ELSEWHERE))
            }
            _ => false,
        };
        Ok(())
    }

    /// Where the play of events that are all taken is full for the first time.
    fn first_stop(&self, taken: &[&Entry]) -> Option<usize> {
        let mut written = 0;
        taken.iter().position(|entry| {
            let full = self.room < written + self.b;
            written += entry.trace.len();
            full
        })
    }

    /// Plays the events kept until they are done; where it was full for the first time.
    fn try_kept(&self, kept: &[&Entry]) -> Result<Option<usize>, String> {
        let events: Vec<u32> = kept.iter().map(|entry| entry.event.word()).collect();
        let (mut state, mut trace) = (self.case.state.clone(), vec![TRACE_FILL; self.room]);
        let (mut at, mut first_stop) = (0, None);
        loop {
            let played = play(&self.case.table, &mut state, &mut trace, &events[at..]);
            let part = &kept[at..at + played.taken];
            at += played.taken;
            self.try_same(part, &state, &trace[..played.count])
                .map_err(|what| format!("{what}, struck out, at kept event {at}"))?;
            match played.answer {
                0 if at == events.len() => return Ok(first_stop),
                FULL if played.taken > 0 => first_stop = first_stop.or(Some(at)),
                _ => return Err(format!("struck out, at kept event {at}: {played:?}")),
            }
        }
    }

    /// What the operator and the platform see is what they saw with the strangers' events.
    fn try_same(&self, part: &[&Entry], state: &[u32], words: &[u32]) -> Result<(), String> {
        let side = self.side;
        if let Some(last) = part.last() {
            hold(side.words(state) == side.words(&last.after), || "another state".into())?;
        }
        let seen: Vec<u32> = part.iter().flat_map(|entry| side.trace(&entry.trace)).collect();
        hold(side.trace(words) == seen, || "another trace".into())
    }
}

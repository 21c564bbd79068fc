//! A pair of runs through both sides: every call of both runs and of their days, and an operator's panel behind each shared
//! event. The proved code's own results are then held against the statement, whatever the second program says of them.

use herringcart::End;
use second::cases::agreement::{Stop, Told, agree, days_agree, untouched};
use second::cases::pairs::{Pair, Part, Sent};
use second::panel::OPERATORS;
use second::state::state_length;
use second::stream::PANEL_FILL;
use second::words::Table;

use super::panels::{Shown, try_panel};
use super::plays::try_play;
use super::{
    Called, Difference, Lent, Tried, bound, compare_check, compare_fresh, same_lent, try_event,
    within_bound,
};
use crate::subject::Subject;

/// What the proved code gave for a pair.
pub struct Ran {
    /// Of each side, call after call.
    pub told: [Vec<Told>; 2],
    /// Of each day its sides', call after call.
    pub stops: [[Vec<Stop>; 2]; 2],
    /// How many panels were laid.
    pub panels: usize,
}

/// What is wrong with a pair: one of the two, or both.
pub struct Fault {
    pub ran: Ran,
    /// The first from the second program.
    pub difference: Option<Difference>,
    /// What the proved code's own results break of the statement.
    pub broken: Option<String>,
}

pub fn compare_pair(subject: &impl Subject, pair: &Pair) -> Result<Ran, Box<Fault>> {
    let mut running = Running::of(subject, pair);
    let told = [0, 1].map(|side| running.side(side));
    let stops = [0, 1].map(|day| [0, 1].map(|side| running.day(day, side)));
    let Running { fresh, panels, difference, stuck, .. } = running;
    let ran = Ran { told, stops, panels };
    let broken = stuck.or(judge(pair, &fresh, &ran).err());
    if difference.is_none() && broken.is_none() {
        return Ok(ran);
    }
    Err(Box::new(Fault { ran, difference, broken }))
}

/// The statement, on what one side gave.
fn judge(pair: &Pair, fresh: &[u32], Ran { told, stops, .. }: &Ran) -> Result<(), String> {
    let told = [&told[0][..], &told[1][..]];
    agree(pair, told)?;
    untouched(pair, fresh, told)?;
    for (number, [one, other]) in stops.iter().enumerate() {
        days_agree(pair, [one, other]).map_err(|what| format!("day {number}: {what}"))?;
    }
    Ok(())
}

struct Running<'a, S> {
    subject: &'a S,
    pair: &'a Pair,
    table: Lent,
    /// The proved side's.
    fresh: Vec<u32>,
    bound: u64,
    panels: usize,
    difference: Option<Difference>,
    /// A day that did not run to its end, of which the statement says nothing.
    stuck: Option<String>,
}

impl<'a, S: Subject> Running<'a, S> {
    fn of(subject: &'a S, pair: &'a Pair) -> Self {
        let mut table = Lent::of(&pair.table);
        let length = Table::of(&pair.table).map_or(0, |table| state_length(&table));
        let checked = compare_check(subject, table.words());
        let made = checked.and_then(|()| compare_fresh(subject, table.words(), length));
        let mut fresh = vec![0; length];
        subject.fresh(table.words(), &mut fresh);
        let bound = bound(&pair.table);
        let (difference, stuck) = (None, None);
        let mut running =
            Running { subject, pair, table, fresh, bound, panels: 0, difference, stuck };
        running.note(made.and_then(|()| running.table_untouched(&|part: &str| part.into())));
        running
    }

    /// Keeps the first difference.
    fn note(&mut self, alike: Result<(), Difference>) {
        self.difference = self.difference.take().or(alike.err());
    }

    fn table_untouched(&self, what: &dyn Fn(&str) -> String) -> Result<(), Difference> {
        same_lent(&|| what("table"), &self.table, &Lent::of(&self.pair.table))
    }

    fn start(&self) -> [Lent; 2] {
        [Lent::of(&self.fresh), Lent::of(&self.fresh)]
    }

    /// One run of the pair.
    fn side(&mut self, side: usize) -> Vec<Told> {
        let (mut states, mut shared, mut told) = (self.start(), 0, vec![]);
        for (number, sent) in self.pair.sides[side].iter().enumerate() {
            let whose = if sent.shared { format!("shared event {shared}") } else { STRANGE.into() };
            let event = sent.event;
            let what =
                |part: &str| format!("side {side}, call {number}, {whose} ({event:08X}), {part}");
            told.push(self.call(sent, &mut states, &what));
            shared += usize::from(sent.shared);
        }
        told
    }

    fn call(&mut self, sent: &Sent, states: &mut [Lent; 2], what: &dyn Fn(&str) -> String) -> Told {
        let Sent { event, ref outcomes, room, shared } = *sent;
        let called = Called { table: self.table.words(), room, outcomes, event };
        let Tried { given, alike } = try_event(self.subject, called, states, what);
        self.note(alike.and_then(|()| within_bound(given.visits, self.bound, what)));
        self.note(self.table_untouched(what));
        let (answer, state) = (given.answer.number, states[0].words().to_vec());
        let mut told = Told { answer, state, words: given.words, panel: vec![] };
        if shared && OPERATORS.contains(&self.pair.operator) {
            told.panel = self.panel(&told, what);
        }
        told
    }

    /// The operator's panel behind a shared event, of what the proved side left.
    fn panel(&mut self, told: &Told, what: &dyn Fn(&str) -> String) -> Vec<u8> {
        let Told { state, words, .. } = told.clone();
        let room = vec![PANEL_FILL; herringcart::panel_bytes(words.len())];
        let (operator, table) = (self.pair.operator, self.pair.table.clone());
        let tried = try_panel(self.subject, &Shown { operator, table, state, words, room });
        let placed =
            |difference: Difference| Difference { what: what(&difference.what), ..difference };
        self.note(tried.alike.map_err(placed));
        self.panels += 1;
        tried.given
    }

    /// One run of a day, each play resumed until it is at its end.
    fn day(&mut self, number: usize, side: usize) -> Vec<Stop> {
        let mut states = self.start();
        let mut stop = Stop { shared: 0, state: self.fresh.clone(), words: vec![] };
        let mut stops = vec![stop.clone()];
        for part in &self.pair.days[number][side] {
            let mut rest = &part.events[..];
            while !rest.is_empty() {
                let behind = stop.shared;
                let what = |part: &str| {
                    format!("day {number}, side {side}, behind {behind} shared events, {part}")
                };
                let (taken, words) = self.part(part, rest, &mut states, &what);
                if taken == 0 || taken > rest.len() {
                    self.stuck.get_or_insert_with(|| what("a call that cannot be gone on from"));
                    return stops;
                }
                let (done, left) = rest.split_at(taken);
                stop.shared += done.iter().filter(|&&event| self.pair.shares(event)).count();
                stop.state = states[0].words().to_vec();
                stop.words.extend(words);
                stops.push(stop.clone());
                rest = left;
            }
        }
        stops
    }

    /// One call of a day: how many events it took, 0 where it ended as none may, and the words it wrote.
    fn part(
        &mut self,
        part: &Part,
        rest: &[u32],
        states: &mut [Lent; 2],
        what: &dyn Fn(&str) -> String,
    ) -> (usize, Vec<u32>) {
        let (subject, table, room) = (self.subject, self.table.words(), part.room);
        let (taken, words, alike) = if part.single {
            let called = Called { table, room, outcomes: &[], event: rest[0] };
            let Tried { given, alike } = try_event(subject, called, states, what);
            (usize::from(given.answer.done()), given.words, alike)
        } else {
            let Tried { given, alike } = try_play(subject, table, states, room, rest, what);
            let (played, words) = given;
            let full = played.end == End::TraceFull && played.taken < rest.len();
            let ended = full || (played.end, played.taken) == (End::Done, rest.len());
            (if ended { played.taken } else { 0 }, words, alike)
        };
        self.note(alike);
        self.note(self.table_untouched(what));
        (taken, words)
    }
}

/// What a call is named that only one run need have.
pub const STRANGE: &str = "a stranger's event";

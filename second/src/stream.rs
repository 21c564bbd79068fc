//! Cases and results as streams of 32-bit words, high byte first.

use std::io::{self, Read, Write};

use crate::cases::Case;
use crate::cases::prng::Prng;
use crate::panel::{OPERATORS, View};
use crate::words::*;
use crate::{Stepped, check, check_state, fresh, hold, panel, play, step};

/// What a state slice holds before a fresh one is made in it.
pub const STATE_FILL: u32 = 0xAAAA_AAAA;
/// What the lent trace holds before each event and before each play.
pub const TRACE_FILL: u32 = 0x5555_5555;
/// How many of a case's events are played.
pub const PLAYED: usize = 12;
/// The most trace words that are lent to a play.
pub const MOST_ROOM: usize = 20_000;
/// What a panel's room holds before it is laid.
pub const PANEL_FILL: u8 = 0x2E;
/// The most bytes that are lent to a panel.
pub const MOST_BYTES: usize = 3_000;
/// The number of the event behind which a panel is laid, where it is laid before any.
pub const BEFORE_ANY: u32 = 0xFFFF_FFFF;

pub fn write_words(out: &mut impl Write, words: &[u32]) -> io::Result<()> {
    words.iter().try_for_each(|word| out.write_all(&word.to_be_bytes()))
}

pub fn case_words(case: &Case) -> Vec<u32> {
    let mut words = vec![];
    let mut counted = |part: &[u32]| {
        words.push(part.len() as u32);
        words.extend(part);
    };
    counted(&case.table);
    counted(&case.state);
    words.extend([case.room as u32, case.events.len() as u32]);
    for (number, &event) in case.events.iter().enumerate() {
        let lent = case.lent(number);
        words.extend([event, lent.len() as u32]);
        words.extend(lent);
    }
    words
}

/// Everything the judge says of a case.
pub fn result_words(case: &Case) -> Vec<u32> {
    let checked = check(&case.table);
    let mut words = vec![checked.reason, checked.place as u32, checked.b as u32];
    let mut made = vec![STATE_FILL; case.state.len()];
    words.push(fresh(&case.table, &mut made));
    words.extend(made);
    words.push(check_state(&case.table, &case.state));
    let calls = single_calls(case);
    for Called { stepped, state, trace } in &calls {
        words.extend([stepped.answer, stepped.count as u32, one_word(stepped.visits)]);
        words.extend(state);
        words.extend(trace);
    }
    words.extend(play_words(case));
    words.extend(panel_words(case, &calls));
    words.extend(hold_words(case, &calls));
    words
}

/// A single event's call: what it answered, and the state and the lent trace after it.
struct Called {
    stepped: Stepped,
    state: Vec<u32>,
    trace: Vec<u32>,
}

/// Each event of a case in turn, the state passed on.
fn single_calls(case: &Case) -> Vec<Called> {
    let mut state = case.state.clone();
    let call = |(number, &event): (usize, &u32)| {
        let mut trace = vec![TRACE_FILL; case.room];
        let stepped = step(&case.table, &mut state, &mut trace, event, case.lent(number));
        Called { stepped, state: state.clone(), trace }
    };
    case.events.iter().enumerate().map(call).collect()
}

/// The plays of a case's first events, each with another room and from the case's state. A play
/// lends no outcomes, whatever the case lends to single events.
fn play_words(case: &Case) -> Vec<u32> {
    let rooms = play_rooms(case);
    let mut words = vec![rooms.len() as u32];
    for room in rooms {
        let (mut state, mut trace) = (case.state.clone(), vec![TRACE_FILL; room]);
        let played = play(&case.table, &mut state, &mut trace, first_events(case));
        let (taken, count) = (played.taken as u32, played.count as u32);
        words.extend([room as u32, taken, count, one_word(played.visits), played.answer]);
        words.extend(state);
        words.extend(trace);
    }
    words
}

/// The visits of an event or of a play in one word: an event visits at most 552,704 words, and a
/// play here is of twelve events at most.
fn one_word(visits: u64) -> u32 {
    u32::try_from(visits).expect("twelve events visit fewer")
}

fn first_events(case: &Case) -> &[u32] {
    &case.events[..case.events.len().min(PLAYED)]
}

/// The rooms a case's first events are played in, all different: the case's own; the least in
/// which the trace is not full before the play ends, and one word less; the most in which it is
/// full about half way. A table or state that is refused is played in the case's room alone.
pub fn play_rooms(case: &Case) -> Vec<usize> {
    let mut rooms = vec![case.room.min(MOST_ROOM)];
    if check_state(&case.table, &case.state) != 0 {
        return rooms;
    }
    let needed = rooms_needed(case);
    let least = needed.last().copied().unwrap_or(0);
    let stopping = [Some(least), half_way(&needed)].into_iter().flatten();
    let stopping = stopping.filter_map(|room| room.checked_sub(1));
    for room in [least].into_iter().chain(stopping) {
        if !rooms.contains(&room) {
            rooms.push(room);
        }
    }
    rooms
}

/// The least room in which each event of a play is looked at, up to the one that ends it; as far
/// as that is not too much to lend. With one word less, the play stops there or at an event before
/// since which none has written.
fn rooms_needed(case: &Case) -> Vec<usize> {
    let b = check(&case.table).b;
    let (mut state, mut trace) = (case.state.clone(), vec![TRACE_FILL; b]);
    let (mut needed, mut written) = (vec![], 0);
    for &event in first_events(case) {
        if written + b > MOST_ROOM {
            break;
        }
        needed.push(written + b);
        // No outcomes: in play all calls are good.
        let stepped = step(&case.table, &mut state, &mut trace, event, &[]);
        if stepped.answer != 0 {
            break;
        }
        written += stepped.count;
    }
    needed
}

/// What the event nearest to the middle needs of those that a play can stop at: the events behind
/// one that wrote. None where a play can stop at the first event only.
fn half_way(needed: &[usize]) -> Option<usize> {
    let middle = needed.len() / 2;
    let behind_words = (1..needed.len()).filter(|&at| needed[at] > needed[at - 1]);
    behind_words.min_by_key(|at| at.abs_diff(middle)).map(|at| needed[at])
}

/// A panel that a case is asked for.
#[derive(Clone, Copy, PartialEq, Eq, Debug)]
pub struct Asked {
    pub operator: u32,
    /// The event behind which it is laid: of the case's state after it and the words that its step
    /// wrote. None: before any, of the case's own state and no words.
    pub behind: Option<usize>,
    /// The bytes lent.
    pub room: usize,
}

fn panel_words(case: &Case, calls: &[Called]) -> Vec<u32> {
    let asked = asked_of(case, calls);
    let mut words = vec![asked.len() as u32];
    for Asked { operator, behind, room } in asked {
        let (state, trace) = moment(case, calls, behind);
        let mut out = vec![PANEL_FILL; room];
        let laid = panel(operator, &case.table, state, trace, &mut out);
        let behind = behind.map_or(BEFORE_ANY, |number| number as u32);
        words.extend([operator, behind, room as u32, laid.answer, laid.bytes as u32]);
        words.extend(out.into_iter().map(u32::from));
    }
    words
}

/// The state and the newest step's words behind an event. A refused step wrote none.
fn moment<'a>(
    case: &'a Case,
    calls: &'a [Called],
    behind: Option<usize>,
) -> (&'a [u32], &'a [u32]) {
    match behind.map(|number| &calls[number]) {
        None => (&case.state, &[]),
        Some(Called { stepped, state, trace }) => (state, &trace[..stepped.count]),
    }
}

/// The panels that a case is asked for, eight at most and all different. On a table and state that
/// stand: one operator's before any event, behind the first and behind the one that wrote most of
/// its words, in just enough room, more and too little; another's behind the last; one who owns
/// nothing; number 0; and a number above 15 that has the operator's in its low bits. Any choice
/// that the case's counts leave open is drawn by its words, so that it is the same everywhere.
pub fn panels_asked(case: &Case) -> Vec<Asked> {
    asked_of(case, &single_calls(case))
}

fn asked_of(case: &Case, calls: &[Called]) -> Vec<Asked> {
    let seed = case.table.iter().chain(&case.state).chain(&case.events);
    let seed = seed.fold(0u64, |seed, &word| seed.rotate_left(7) ^ u64::from(word));
    let mut choice = Choice { case, calls, rng: Prng::new(seed) };
    let asked = if check_state(&case.table, &case.state) == 0 {
        choice.of_standing()
    } else {
        choice.of_refused()
    };
    let mut different: Vec<Asked> = vec![];
    for one in asked {
        if one.room <= MOST_BYTES && !different.contains(&one) {
            different.push(one);
        }
    }
    different
}

/// What a case's panels are chosen by.
struct Choice<'a> {
    case: &'a Case,
    calls: &'a [Called],
    rng: Prng,
}

impl Choice<'_> {
    /// A bad table or an unfit state: numbers that are refused before it and numbers that are not.
    fn of_refused(&mut self) -> Vec<Asked> {
        let (first, last) = (self.first(), self.last());
        let operator = self.rng.within(1, 15);
        let wide = self.above_15(operator);
        vec![
            Asked { operator, behind: None, room: 40 },
            Asked { operator: 0, behind: None, room: 40 },
            Asked { operator: wide, behind: last, room: 0 },
            Asked { operator: 15, behind: first, room: 0 },
        ]
    }

    fn of_standing(&mut self) -> Vec<Asked> {
        let owners = self.owners();
        let operator = self.rng.pick_any(&owners).unwrap_or(1);
        let other = self.rng.pick_any(&owners).unwrap_or(15);
        let nobody = OPERATORS.rev().find(|number| !owners.contains(number)).unwrap_or(15);
        let (first, busiest, last) = (self.first(), self.busiest(operator), self.last());
        let (some, any) = (self.some_moment(), self.some_moment());
        let (wide, more) = (self.above_15(operator), 1 + self.rng.below(20));
        let (fresh_needs, first_needs) = (self.needs(operator, None), self.needs(operator, first));
        let (needs, other_needs) = (self.needs(operator, busiest), self.needs(other, last));
        let (platform_needs, wide_needs) = (self.needs(PLATFORM, some), self.needs(operator, any));
        vec![
            Asked { operator, behind: None, room: fresh_needs },
            Asked { operator, behind: first, room: first_needs + more },
            Asked { operator, behind: busiest, room: needs },
            Asked { operator, behind: busiest, room: self.too_little(needs) },
            Asked { operator: other, behind: last, room: other_needs },
            Asked { operator: nobody, behind: some, room: more - 1 },
            Asked { operator: PLATFORM, behind: some, room: platform_needs },
            Asked { operator: wide, behind: any, room: wide_needs },
        ]
    }

    fn first(&self) -> Option<usize> {
        (!self.calls.is_empty()).then_some(0)
    }

    fn last(&self) -> Option<usize> {
        self.calls.len().checked_sub(1)
    }

    /// Behind any event, or before all.
    fn some_moment(&mut self) -> Option<usize> {
        self.rng.below(self.calls.len() + 1).checked_sub(1)
    }

    /// The event whose step wrote most of the operator's words, the last of several.
    fn busiest(&self, operator: u32) -> Option<usize> {
        let own = |number: &usize| {
            let (_, trace) = moment(self.case, self.calls, Some(*number));
            trace.iter().filter(|&&word| TraceWord::of(word).owner == operator).count()
        };
        (0..self.calls.len()).max_by_key(own)
    }

    /// The operators that own ports, networks or sources of an accepted table, or lists.
    fn owners(&self) -> Vec<u32> {
        let table = Table::of(&self.case.table).expect("an accepted table has its header");
        let ports = (0..table.count(Section::Ports)).map(|number| table.port(number).owner);
        let lists = (0..table.count(Section::Lists)).map(|number| table.list(number).owner);
        let owners: Vec<u32> = ports.chain(lists).collect();
        OPERATORS.filter(|number| owners.contains(number)).collect()
    }

    /// The bytes of the panel that the number would have if it were taken for an operator's.
    fn needs(&self, operator: u32, behind: Option<usize>) -> usize {
        let table = Table::of(&self.case.table).expect("an accepted table has its header");
        let view = View::of(operator, &table);
        let (state, trace) = moment(self.case, self.calls, behind);
        view.lines(&view.words(state, trace)).len()
    }

    /// Mostly one byte less than is needed, at times any less.
    fn too_little(&mut self, needs: usize) -> usize {
        let less = if self.rng.chance(70) {
            needs.saturating_sub(1)
        } else {
            self.rng.below(needs.max(1))
        };
        less.min(MOST_BYTES)
    }

    /// A number above 15, mostly with an operator's number in its low bits.
    fn above_15(&mut self, operator: u32) -> u32 {
        let higher = [0x10, 0x100, 0x1_0000, 0x1000_0000, 0xFFFF_FFF0];
        if self.rng.chance(20) { 16 } else { self.rng.pick(&higher) | operator }
    }
}

/// A supplier's words that a case's event is held against (request Q-7): from the state before it,
/// in the case's room and with the outcomes that the case lends it.
#[derive(Clone, PartialEq, Eq, Debug)]
pub struct Supplied {
    /// The event's number.
    pub event: usize,
    pub theirs: Vec<u32>,
    pub their_state: Vec<u32>,
}

fn hold_words(case: &Case, calls: &[Called]) -> Vec<u32> {
    let asked = supplied(case, calls);
    let mut words = vec![asked.len() as u32];
    for Supplied { event, theirs, their_state } in asked {
        let mut state = state_before(case, calls, event).to_vec();
        let mut trace = vec![TRACE_FILL; case.room];
        let (table, lent, word) = (&case.table, case.lent(event), case.events[event]);
        let held = hold(table, &mut state, &mut trace, lent, word, &theirs, &their_state);
        let Stepped { answer, count, visits } = held.stepped;
        let counted = |part: &[u32]| [&[part.len() as u32], part].concat();
        words.push(event as u32);
        words.extend(counted(&theirs));
        words.extend(counted(&their_state));
        words.extend([held.verdict, held.number as u32, answer, count as u32, one_word(visits)]);
        words.extend([held.whose as u32, held.from as u32]);
        words.extend(counted(&held.part));
        words.extend(state);
        words.extend(trace);
    }
    words
}

fn state_before<'a>(case: &'a Case, calls: &'a [Called], event: usize) -> &'a [u32] {
    event.checked_sub(1).map_or(&case.state, |before| &calls[before].state)
}

/// What a case's events are held against, thirteen at most and all different: of the event that
/// wrote most and of any other one our own words, a trace changed, cut and gone on, a state
/// changed, cut and gone on, both empty; what would be written without outcomes; and words behind
/// a refused event. Drawn by the case's words, so that it is the same everywhere.
pub fn holds_asked(case: &Case) -> Vec<Supplied> {
    supplied(case, &single_calls(case))
}

fn supplied(case: &Case, calls: &[Called]) -> Vec<Supplied> {
    let Some(busiest) = (0..calls.len()).max_by_key(|&number| calls[number].stepped.count) else {
        return vec![];
    };
    let seed = case.events.iter().chain(&case.table).chain(&case.state);
    let seed = seed.fold(7u64, |seed, &word| seed.rotate_left(11) ^ u64::from(word));
    let rng = &mut Prng::new(seed);
    let any = rng.below(calls.len());
    let refused = (0..calls.len()).filter(|&number| calls[number].stepped.answer != 0);
    let refused = rng.pick_any(&refused.collect::<Vec<usize>>());
    let ours = |number: usize| {
        let Called { stepped, state, trace } = &calls[number];
        (trace[..stepped.count].to_vec(), state.clone())
    };
    let mut asked: Vec<Supplied> = vec![];
    let mut ask = |event: usize, (theirs, their_state): (Vec<u32>, Vec<u32>)| {
        let one = Supplied { event, theirs, their_state };
        if !asked.contains(&one) {
            asked.push(one);
        }
    };
    // Few of long traces, for there are many words of them.
    let long = calls[busiest].stepped.count > LONG_TRACE;
    for event in [busiest, any] {
        let (trace, state) = ours(event);
        ask(event, (trace.clone(), state.clone()));
        ask(event, (damaged(rng, &trace, false), damaged(rng, &state, false)));
        ask(event, (trace.clone(), damaged(rng, &state, false)));
        if long {
            break;
        }
        ask(event, (damaged(rng, &trace, true), state.clone()));
        ask(event, (trace, damaged(rng, &state, true)));
    }
    ask(any, (vec![], vec![]));
    // Outcomes that matter: without them other words would be written.
    let mut state = state_before(case, calls, busiest).to_vec();
    let mut trace = vec![TRACE_FILL; case.room];
    let good = step(&case.table, &mut state, &mut trace, case.events[busiest], &[]);
    trace.truncate(good.count);
    ask(busiest, (trace, state));
    if let Some(event) = refused {
        let (trace, state) = ours(event);
        ask(event, (damaged(rng, &trace, true), state));
    }
    asked
}

/// From how many words on a trace is held against fewer.
pub const LONG_TRACE: usize = 500;

/// Words with one changed, lost, added or two exchanged; or, by length alone, cut or gone on.
fn damaged(rng: &mut Prng, words: &[u32], by_length: bool) -> Vec<u32> {
    let mut words = words.to_vec();
    let any = rng.below(words.len().max(1));
    let word = if rng.chance(50) { rng.word() } else { rng.pick(&[0, TRACE_FILL, 0xF100_0000]) };
    match (words.len(), by_length, rng.below(4)) {
        (0, ..) => words.push(word),
        (_, true, 0 | 1) => words.truncate(any),
        (_, true, 2) => words.push(word),
        (_, true, _) => words.extend([word, rng.word(), 0]),
        (_, false, 0) => words[any] ^= 1 << rng.below(32),
        (_, false, 1) => drop(words.remove(any)),
        (_, false, 2) => words.insert(any, word),
        (length, false, _) => words.swap(any, length - 1),
    }
    words
}

/// The next case of a stream; None at its end.
pub fn read_case(input: &mut impl Read) -> io::Result<Option<Case>> {
    let table = match read_word(input) {
        Err(why) if why.kind() == io::ErrorKind::UnexpectedEof => return Ok(None),
        length => read_words(input, length?)?,
    };
    let length = read_word(input)?;
    let state = read_words(input, length)?;
    let room = read_word(input)? as usize;
    let (mut events, mut outcomes) = (vec![], vec![]);
    for _ in 0..read_word(input)? {
        events.push(read_word(input)?);
        let length = read_word(input)?;
        outcomes.push(read_words(input, length)?);
    }
    Ok(Some(Case { table, state, room, events, outcomes }))
}

fn read_word(input: &mut impl Read) -> io::Result<u32> {
    let mut bytes = [0; 4];
    input.read_exact(&mut bytes)?;
    Ok(u32::from_be_bytes(bytes))
}

fn read_words(input: &mut impl Read, length: u32) -> io::Result<Vec<u32>> {
    (0..length).map(|_| read_word(input)).collect()
}

//! Making a case smaller for as long as it still differs.

mod things;

#[cfg(test)]
mod tests;

use std::iter::repeat;
use std::time::{Duration, Instant};

use second::cases::Case;
use second::stream::{PANEL_FILL, TRACE_FILL};
use second::words::{SECTIONS, Section};

use crate::differ::buslogs::{AskedLog, compare_log};
use crate::differ::holds::{Recorded, compare_hold};
use crate::differ::listings::{Asked, compare_asked};
use crate::differ::panels::{Shown, compare_panel};
use crate::differ::{Difference, compare, compare_calls};
use crate::subject::Subject;

/// The longest that one case is made smaller.
const LIMIT: Duration = Duration::from_secs(20);

/// The smallest case found that the two sides differ on, and how they differ.
pub fn smallest_difference(subject: &impl Subject, case: &Case) -> (Case, Difference) {
    // Recordings are held only where nothing else differs, for they are many calls.
    let calls = |case: &Case| compare_calls(subject, case).err();
    let all = |case: &Case| compare(subject, case).err();
    let difference: &dyn Fn(&Case) -> Option<Difference> =
        if calls(case).is_some() { &calls } else { &all };
    let case = smallest(case, |case| difference(case).is_some(), LIMIT);
    let difference = difference(&case).unwrap_or_else(not_again);
    (case, difference)
}

fn not_again() -> Difference {
    let what = "nothing any more: a side does not answer alike when asked again".into();
    let (proved, second) = (String::new(), String::new());
    Difference { what, proved, second, panel: None, hold: None, listing: None, log: None }
}

/// The smallest panel found that the two sides differ on, and how they differ. The ways are those of a case, whose events the trace
/// words stand in for: which panels a case is asked for hangs on all its words, so that a smaller case may not be asked for the one
/// that differs. First the room stays by as much above or below what the lines need as it is, then it is made smaller too. An
/// operator's number stays.
pub fn smallest_panel(subject: &impl Subject, shown: &Shown) -> (Shown, Difference) {
    let panel = |case: &Case, room: usize| Shown {
        operator: shown.operator,
        table: case.table.clone(),
        state: case.state.clone(),
        words: case.events.clone(),
        room: shown.room.iter().copied().chain(repeat(PANEL_FILL)).take(room).collect(),
    };
    let above = shown.room.len() as isize - shown.needs() as isize;
    let tied = |case: &Case| {
        let needs = panel(case, 0).needs() as isize;
        panel(case, (needs + above).max(0) as usize)
    };
    let differs = |shown: Shown| compare_panel(subject, &shown).is_err();
    let Shown { table, state, words: events, room, .. } = shown.clone();
    let case = Case { table, state, room: room.len(), events, outcomes: vec![] };
    let small = smallest(&case, |case| differs(tied(case)), LIMIT / 2);
    let case = Case { room: tied(&small).room.len(), ..small };
    let small = smallest(&case, |case| differs(panel(case, case.room)), LIMIT / 2);
    let small = panel(&small, small.room);
    let difference = compare_panel(subject, &small).err().unwrap_or_else(not_again);
    (small, difference)
}

/// The smallest recording found that the two sides differ on, and how they differ. The ways are those of a case of one event. First the
/// supplier's words stay what they are made of ours by, with a piece in another's place, for else a smaller table would have them part
/// elsewhere; then they are made smaller themselves.
pub fn smallest_hold(subject: &impl Subject, recorded: &Recorded) -> (Recorded, Difference) {
    let (trace, state, _) = recorded.ours();
    let of_trace = Edit::of(&trace, &recorded.theirs);
    let of_state = Edit::of(&state, &recorded.their_state);
    let tied = |case: &Case| {
        let Case { table, state, room, events, outcomes } = case.clone();
        let &[event] = &events[..] else { return None };
        let trace = recorded.trace.iter().copied().chain(repeat(TRACE_FILL)).take(room).collect();
        let outcomes = outcomes.concat();
        let (theirs, their_state) = (vec![], vec![]);
        let alone = Recorded { table, state, trace, outcomes, event, theirs, their_state };
        let (trace, state, _) = alone.ours();
        let (theirs, their_state) = (of_trace.made_of(&trace), of_state.made_of(&state));
        Some(Recorded { theirs, their_state, ..alone })
    };
    let differs = |recorded: &Recorded| compare_hold(subject, recorded).is_err();
    let Recorded { table, state, trace, outcomes, event, .. } = recorded.clone();
    let (room, events, outcomes) = (trace.len(), vec![event], vec![outcomes]);
    let case = Case { table, state, room, events, outcomes };
    let small = smallest(&case, |case| tied(case).is_some_and(|held| differs(&held)), LIMIT / 2);
    let small = tied(&small).filter(&differs).unwrap_or_else(|| recorded.clone());
    // The words alone, in the places of a case's events and state.
    let words = |case: &Case| Recorded {
        theirs: case.events.clone(),
        their_state: case.state.clone(),
        ..small.clone()
    };
    let (events, state) = (small.theirs.clone(), small.their_state.clone());
    let case = Case { state, events, ..Default::default() };
    let small = words(&smallest(&case, |case| differs(&words(case)), LIMIT / 2));
    let difference = compare_hold(subject, &small).err().unwrap_or_else(not_again);
    (small, difference)
}

/// The smallest table to list, or text to read, found that the two sides differ on, and how they differ. The room stays by as much above
/// or below what is needed as it is; of what is refused in any room it stays.
pub fn smallest_listing(subject: &impl Subject, asked: &Asked) -> (Asked, Difference) {
    let above = asked.needs().map(|needs| asked.room() as isize - needs as isize);
    let tied = |smaller: Asked| match (above, smaller.needs()) {
        (Some(above), Some(needs)) => smaller.lent((needs as isize + above).max(0) as usize),
        _ => smaller,
    };
    let differs = |asked: &Asked| compare_asked(subject, asked).is_err();
    let small = match asked {
        Asked::List { table, room } => {
            let listed = |case: &Case| tied(Asked::list(&case.table, room.len()));
            let case = Case { table: table.clone(), ..Default::default() };
            listed(&smallest(&case, |case| differs(&listed(case)), LIMIT))
        }
        Asked::Read { text, room } => {
            let read = |text: &[u8]| tied(Asked::read(text, room.len()));
            read(&smallest_text(text, |text| differs(&read(text)), LIMIT))
        }
    };
    // What was lent can have been the fault.
    let small = if differs(&small) { small } else { asked.clone() };
    let difference = compare_asked(subject, &small).err().unwrap_or_else(not_again);
    (small, difference)
}

/// The smallest bus log found that the two sides differ on, and how they differ: in the log's lines, its bytes, then its table, where the
/// list stays as it is, then cursor and room.
pub fn smallest_log(subject: &impl Subject, asked: &AskedLog) -> (AskedLog, Difference) {
    let differs = |asked: &AskedLog| compare_log(subject, asked).is_err();
    let with_log = |log: &[u8]| AskedLog { log: log.to_vec(), ..asked.clone() };
    let mut lines: Vec<&[u8]> = asked.log.split_inclusive(|&byte| byte == b'\n').collect();
    for place in (0..lines.len()).rev() {
        let line = lines.remove(place);
        if !differs(&with_log(&lines.concat())) {
            lines.insert(place, line);
        }
    }
    let log = smallest_text(&lines.concat(), |log| differs(&with_log(log)), LIMIT / 2);
    let mut small = with_log(&log);
    let with_table = |case: &Case| AskedLog { table: case.table.clone(), ..small.clone() };
    let case = Case { table: asked.table.clone(), ..Default::default() };
    small = with_table(&smallest(&case, |case| differs(&with_table(case)), LIMIT / 2));
    let rooms = (0..32).map(|bits| asked.room >> (31 - bits)).filter(|&room| room < asked.room);
    let fresh = AskedLog { from: Default::default(), ..small.clone() };
    small = if differs(&fresh) { fresh } else { small };
    let lent = |room: usize| AskedLog { room, ..small.clone() };
    small = rooms.map(lent).find(|smaller| differs(smaller)).unwrap_or(small.clone());
    let small = if differs(&small) { small } else { asked.clone() };
    let difference = compare_log(subject, &small).err().unwrap_or_else(not_again);
    (small, difference)
}

/// A text without pieces that it differs without as well: halves first, single bytes last.
pub fn smallest_text(text: &[u8], differs: impl Fn(&[u8]) -> bool, limit: Duration) -> Vec<u8> {
    let (end, mut text) = (Instant::now() + limit, text.to_vec());
    let mut piece = text.len().div_ceil(2);
    while piece > 0 && Instant::now() < end {
        let (mut at, before) = (0, text.len());
        while at < text.len() && Instant::now() < end {
            let behind = (at + piece).min(text.len());
            let without = [&text[..at], &text[behind..]].concat();
            if differs(&without) {
                text = without;
            } else {
                at += piece;
            }
        }
        piece = if piece == 1 && text.len() < before { 1 } else { piece / 2 };
    }
    text
}

/// How words are made of others: a piece of them, between words that are the same from the first and from the last on, has others in
/// its place.
struct Edit {
    from: usize,
    lost: usize,
    added: Vec<u32>,
}

impl Edit {
    fn of(words: &[u32], others: &[u32]) -> Self {
        let from = words.iter().zip(others).take_while(|(a, b)| a == b).count();
        let (words, others) = (&words[from..], &others[from..]);
        let same = words.iter().rev().zip(others.iter().rev()).take_while(|(a, b)| a == b).count();
        Edit { from, lost: words.len() - same, added: others[..others.len() - same].to_vec() }
    }

    /// Of fewer words at the last place that there is.
    fn made_of(&self, words: &[u32]) -> Vec<u32> {
        let from = self.from.min(words.len().saturating_sub(self.lost));
        let behind = (from + self.lost).min(words.len());
        [&words[..from], &self.added, &words[behind..]].concat()
    }
}

/// Makes a case smaller while `differs` holds of it, until no way is left or
/// the time is over.
pub fn smallest(case: &Case, differs: impl Fn(&Case) -> bool, limit: Duration) -> Case {
    let end = Instant::now() + limit;
    let differs = |case: &Case| Instant::now() < end && differs(case);
    let mut shrinking = Shrinking { case: case.clone(), differs: &differs };
    loop {
        let before = shrinking.case.clone();
        shrinking.pass();
        if shrinking.case == before || Instant::now() >= end {
            return shrinking.case;
        }
    }
}

struct Shrinking<'a> {
    case: Case,
    differs: &'a dyn Fn(&Case) -> bool,
}

impl Shrinking<'_> {
    /// Every way once, the ones that take most away first.
    fn pass(&mut self) {
        self.cut_events();
        self.begin_later();
        self.cut_events();
        self.take(self.case.lending_none());
        self.cut(|case| case.outcomes.concat().len(), |case, at| Some(without_outcome(case, at)));
        if let Some(first) = things::in_edition_1(&self.case) {
            self.take(first);
        }
        for section in SECTIONS.into_iter().rev() {
            let count = |case: &Case| things::count(case, section);
            self.cut(count, |case, at| things::without(case, section, at));
        }
        self.cut_calls();
        self.cut(
            |case| case.table.len(),
            |case, at| Some(without_word(case, |c| &mut c.table, at)),
        );
        self.cut(
            |case| case.state.len(),
            |case, at| Some(without_word(case, |c| &mut c.state, at)),
        );
        for owner in 1..16 {
            if let Some(less) = things::without_owner(&self.case, owner) {
                self.take(less);
            }
        }
        self.clear(|case| &mut case.table);
        self.clear(|case| &mut case.state);
        self.clear(|case| &mut case.events);
        for number in 0..self.case.outcomes.len() {
            self.clear(|case| &mut case.outcomes[number]);
        }
        self.less_room();
    }

    /// Takes the candidate if it is another case and differs.
    fn take(&mut self, candidate: Case) -> bool {
        let taken = candidate != self.case && (self.differs)(&candidate);
        if taken {
            self.case = candidate;
        }
        taken
    }

    fn cut_events(&mut self) {
        let count = |case: &Case| case.events.len();
        self.cut(count, |case, at| Some(without_event(case, at)));
    }

    /// Takes an item out together with an outcome: without a call alone, the calls
    /// behind it would meet other outcomes than before.
    fn cut_calls(&mut self) {
        for at in (0..things::count(&self.case, Section::Items)).rev() {
            let Some(less) = things::without(&self.case, Section::Items, at) else { return };
            let mut outcomes = 0..less.outcomes.concat().len();
            outcomes.any(|outcome| self.take(without_outcome(&less, outcome)));
        }
    }

    /// Takes things out, by halves, quarters and so on down to one at a time,
    /// from the last one on.
    fn cut(
        &mut self,
        count: impl Fn(&Case) -> usize,
        without: impl Fn(&Case, usize) -> Option<Case>,
    ) {
        let mut piece = count(&self.case);
        while piece > 0 {
            let mut end = count(&self.case);
            while end > 0 {
                let start = end.saturating_sub(piece);
                let out = |case: Option<Case>, at| case.and_then(|case| without(&case, at));
                if let Some(less) = (start..end).rev().fold(Some(self.case.clone()), out) {
                    self.take(less);
                }
                end = start;
            }
            piece /= 2;
        }
    }

    /// Begins with the state that the first event leaves, without that event.
    fn begin_later(&mut self) {
        while self.case.events.len() > 1 {
            let mut later = without_event(&self.case, 0);
            let (event, outcomes) = (self.case.events[0], self.case.lent(0));
            let mut trace = vec![TRACE_FILL; later.room];
            second::step(&later.table, &mut later.state, &mut trace, event, outcomes);
            if !self.take(later) {
                break;
            }
        }
    }

    /// Puts 0 in the place of words, and then of single bits.
    fn clear(&mut self, words: impl Fn(&mut Case) -> &mut Vec<u32>) {
        for at in 0..words(&mut self.case.clone()).len() {
            let mut candidate = self.case.clone();
            let word = std::mem::take(&mut words(&mut candidate)[at]);
            if word == 0 || self.take(candidate) {
                continue;
            }
            for bit in (0..32).map(|bit| 1 << bit).filter(|bit| word & bit != 0) {
                let mut candidate = self.case.clone();
                words(&mut candidate)[at] &= !bit;
                self.take(candidate);
            }
        }
    }

    fn less_room(&mut self) {
        for room in [0, second::check(&self.case.table).b, self.case.room / 2] {
            if room < self.case.room {
                self.take(Case { room, ..self.case.clone() });
            }
        }
        while self.case.room > 0
            && self.take(Case { room: self.case.room - 1, ..self.case.clone() })
        {}
    }
}

/// Without an event and the outcomes that it lends.
fn without_event(case: &Case, at: usize) -> Case {
    let mut less = without_word(case, |c| &mut c.events, at);
    if at < less.outcomes.len() {
        less.outcomes.remove(at);
    }
    less
}

/// Without one outcome word, counted over all events.
fn without_outcome(case: &Case, mut at: usize) -> Case {
    let mut less = case.clone();
    for lent in &mut less.outcomes {
        if at < lent.len() {
            lent.remove(at);
            break;
        }
        at -= lent.len();
    }
    less
}

fn without_word(case: &Case, words: impl Fn(&mut Case) -> &mut Vec<u32>, at: usize) -> Case {
    let mut less = case.clone();
    words(&mut less).remove(at);
    less
}

//! Request Q-13: a case's panels, written again from all words of its states and traces, in rooms
//! about what they need; and what the panel's program prints, written again from single events.

use super::coverage::{Met, Row};
use super::demand3::owners_of_words;
use super::log::{Entry, hold};
use super::panel_rows::{self as rows, Panels};
use super::played::{bytes, labels};
use super::visits_rows::special;
use crate::cases::Case;
use crate::cases::draft::Draft;
use crate::cases::prng::Prng;
use crate::panel;
use crate::program::{NoPanel, panel as printed};
use crate::words::*;

/// An operator's panels, written another way: of all words of a state, labelled as `play` prints
/// them, those of its own that are not rules'; of a trace those with its digit.
pub struct Written {
    /// Where each word stands, and what stands before it in its line.
    things: Vec<(usize, String)>,
    digit: String,
}

impl Written {
    pub fn of(draft: &Draft, operator: u32) -> Written {
        let owned = labels(draft).zip(owners_of_words(draft)).enumerate();
        let own =
            owned.filter(|(_, (label, owner))| *owner == operator && !label.starts_with("rule"));
        let things = own.map(|(place, (label, _))| (place, label)).collect();
        Written { things, digit: format!("{operator:X}") }
    }

    pub fn lines(&self, state: &[u32], words: &[u32]) -> String {
        let things =
            self.things.iter().map(|(place, label)| format!("{label} {:08X}\n", state[*place]));
        let trace = words.iter().map(|word| format!("trace {word:08X}\n"));
        let digit = |line: &String| line[7..8] == self.digit;
        things.chain(trace.filter(digit)).collect()
    }

    /// The places of a state that it shows.
    pub fn places(&self) -> impl Iterator<Item = usize> {
        self.things.iter().map(|(place, _)| *place)
    }
}

/// What a panel was laid of.
pub struct Laid<'a> {
    pub draft: &'a Draft,
    pub operator: u32,
    pub state: &'a [u32],
    pub words: &'a [u32],
}

/// Draws what the case leaves open, the same for the same case.
pub fn drawing(case: &Case) -> Prng {
    let words = case.events.iter().chain(&case.table);
    Prng::new(words.fold(13, |seed, &word| seed.rotate_left(9) ^ u64::from(word)))
}

/// The state and the newest step's words behind an event, or before any.
pub fn moment<'a>(
    case: &'a Case,
    log: &'a [Entry],
    behind: Option<usize>,
) -> (&'a [u32], &'a [u32]) {
    match behind.map(|number| &log[number]) {
        None => (&case.state, &[]),
        Some(entry) => (&entry.after, &entry.trace),
    }
}

/// The operators that own ports or lists.
pub fn owners(draft: &Draft) -> Vec<u32> {
    let owners = draft.ports.iter().map(|p| p.owner).chain(draft.lists.iter().map(|l| l.owner));
    let owners: Vec<u32> = owners.collect();
    (1..16).filter(|operator| owners.contains(operator)).collect()
}

/// Mostly one who owns something, at times anyone.
pub fn some_operator(rng: &mut Prng, owners: &[u32]) -> u32 {
    let anyone = rng.within(1, 15);
    if rng.chance(75) { rng.pick_any(owners).unwrap_or(anyone) } else { anyone }
}

/// A table and a state that stand: panels before any event or behind the last, behind the one that
/// wrote most, and behind the first refused one that follows words.
pub fn try_panels(case: &Case, draft: &Draft, log: &[Entry], met: &mut Met) -> Result<(), String> {
    let mut rng = drawing(case);
    let owners = owners(draft);
    let busiest = (0..log.len()).max_by_key(|&number| log[number].trace.len());
    let refused = (1..log.len()).find(|&n| log[n].answer != 0 && !log[n - 1].trace.is_empty());
    let last = log.len().checked_sub(1);
    let mut behind = vec![if rng.chance(50) { None } else { last }, busiest, refused];
    behind.sort();
    behind.dedup();
    for behind in behind {
        let (state, words) = moment(case, log, behind);
        let operator = some_operator(&mut rng, &owners);
        let laid = Laid { draft, operator, state, words };
        let tried = laid.try_rooms(&case.table, &mut rng, met);
        tried.map_err(|what| format!("panel of {operator} behind {behind:?}: {what}"))?;
        let own = |words: &[u32]| words.iter().any(|&w| TraceWord::of(w).owner == operator);
        let gone = behind.is_some_and(|n| n > 0 && log[n].answer != 0 && own(&log[n - 1].trace));
        special(met, &[(behind.is_none(), rows::BEFORE_ANY), (gone, rows::REFUSED)]);
    }
    Ok(())
}

impl Laid<'_> {
    /// In just enough room, and in a byte less, some less or some more; and numbers that are no
    /// operator's.
    fn try_rooms(&self, table: &[u32], rng: &mut Prng, met: &mut Met) -> Result<(), String> {
        let due = Written::of(self.draft, self.operator).lines(self.state, self.words);
        let needed = due.len();
        let rooms = [needed.saturating_sub(1), rng.below(needed + 1), needed + 1 + rng.below(30)];
        let other = rooms[rng.weighed(&[50, 20, 30])];
        self.try_room(table, &due, needed)?;
        self.try_room(table, &due, other)?;
        rows::meet(self, met);
        special(
            met,
            &[
                (needed > 0, rows::EXACT),
                (needed > 0 && other > needed, rows::LARGER),
                (needed == other + 1, rows::SHORT),
            ],
        );
        met.insert(Row::Panels(Panels::Answer(0)));
        if other < needed {
            met.insert(Row::Panels(Panels::Answer(11)));
        }
        self.try_numbers(table, needed, rng, met)
    }

    /// Numbers that are no operator's, in room that an operator's panel needs, or less.
    fn try_numbers(
        &self,
        table: &[u32],
        needed: usize,
        rng: &mut Prng,
        met: &mut Met,
    ) -> Result<(), String> {
        let above = rng.pick(&[0x10, 0x20, 0x100, 0x1000_0000, 0x8000_0000, 0xFFFF_FFF0]);
        for number in [0, 16, above | self.operator] {
            let room = if rng.chance(70) { needed } else { needed / 2 };
            try_refused(number, table, self.state, self.words, (9, room), met)?;
            special(
                met,
                &[
                    (number == 0, rows::ZERO),
                    (number == 16, rows::SIXTEEN),
                    (number > 16, rows::LOW_BITS),
                ],
            );
            if room < needed {
                met.insert(Row::Panels(Panels::Before(9, 11)));
            }
        }
        Ok(())
    }

    /// All of the room is as it must be.
    fn try_room(&self, table: &[u32], due: &str, room: usize) -> Result<(), String> {
        let mut lent = vec![0x2E; room];
        let laid = panel(self.operator, table, self.state, self.words, &mut lent);
        let (answer, lines) = if due.len() > room { (11, "") } else { (0, due) };
        let given = (laid.answer, laid.bytes);
        hold(given == (answer, lines.len()), || format!("{laid:?} in {room} bytes"))?;
        let text = String::from_utf8_lossy(&lent[..lines.len()]).into_owned();
        hold(text == lines, || format!("{text:?}, not {lines:?}"))?;
        let behind = &lent[lines.len()..];
        hold(behind.iter().all(|&byte| byte == 0x2E), || "bytes behind changed".into())
    }
}

/// A refusal changes nothing of the room.
fn try_refused(
    operator: u32,
    table: &[u32],
    state: &[u32],
    words: &[u32],
    (answer, room): (u32, usize),
    met: &mut Met,
) -> Result<(), String> {
    let mut lent = vec![0x2E; room];
    let laid = panel(operator, table, state, words, &mut lent);
    hold((laid.answer, laid.bytes) == (answer, 0), || {
        format!("panel of {operator} in {room} bytes: {laid:?}, not {answer}")
    })?;
    met.insert(Row::Panels(Panels::Answer(answer)));
    hold(lent.iter().all(|&byte| byte == 0x2E), || "a refused panel laid bytes".into())
}

/// A bad table or an unfit state, which has this answer: before too little room, and behind a
/// number that is no operator's.
pub fn try_bad(case: &Case, answer: u32, met: &mut Met) -> Result<(), String> {
    let mut rng = drawing(case);
    let (table, state) = (&case.table, &case.state);
    let words: Vec<u32> = (0..rng.below(4)).map(|_| rng.word()).collect();
    for room in [0, 60] {
        try_refused(rng.within(1, 15), table, state, &words, (answer, room), met)?;
    }
    for number in [0, 16, 0x1000_0000 | rng.within(1, 15), rng.within(17, u32::MAX)] {
        try_refused(number, table, state, &words, (9, rng.below(60)), met)?;
    }
    met.extend([Row::Panels(Panels::Before(9, answer)), Row::Panels(Panels::Before(answer, 11))]);
    Ok(())
}

/// The panel's program on a bad table, whatever the events.
pub fn try_reason(case: &Case, given: (u32, usize), met: &mut Met) -> Result<(), String> {
    let (table, events) = (bytes(&case.table), bytes(&case.events));
    let follow = case.events.len() % 2 == 1;
    match printed(1, &table, &events, follow) {
        Err(NoPanel::Table { reason, place }) if (reason, place) == given => {}
        other => return Err(format!("panel's program: {other:?}, not {given:?}")),
    }
    let refused = printed(0, &table, &events, follow);
    hold(matches!(refused, Err(NoPanel::Operator)), || format!("number 0: {refused:?}"))?;
    special(met, &[(true, rows::PRINTED_TABLE)]);
    Ok(())
}

/// What the panel's program prints for a case from a fresh state, with its events and with none.
pub fn try_runs(case: &Case, draft: &Draft, log: &[Entry], met: &mut Met) -> Result<(), String> {
    let mut rng = drawing(case);
    let operator = some_operator(&mut rng, &owners(draft));
    // Bytes past the last whole word are ignored.
    let past = vec![0xFF; log.len() % 4];
    let table = [bytes(&case.table), past.clone()].concat();
    let events = [bytes(&case.events), past].concat();
    let written = Written::of(draft, operator);
    let (followed, last) = follow(case, &written, log);
    let fresh = written.lines(&case.state, &[]);
    let others = [(&events[..], false, last), (&[], false, fresh), (&[], true, String::new())];
    let drawn = rng.weighed(&[60, 30, 10]);
    for (events, follow, due) in [(&events[..], true, followed), others[drawn].clone()] {
        let lines = printed(operator, &table, events, follow);
        let lines = lines.map_err(|why| format!("panel's program: {why:?}"))?;
        hold(lines == due, || format!("panel's program prints {lines:?}, not {due:?}"))?;
    }
    meet_runs(operator, &written, log, &case.state, met);
    if drawn == 0 {
        meet_last(operator, log, met);
    }
    let refused = printed(16, &table, &events, false);
    hold(matches!(refused, Err(NoPanel::Operator)), || format!("number 16: {refused:?}"))?;
    special(met, &[(drawn == 1, rows::PRINTED_FRESH), (true, rows::PRINTED_NUMBER)]);
    Ok(())
}

/// The panels of events that changed it, each behind its event's line; and the last of all.
fn follow(case: &Case, written: &Written, log: &[Entry]) -> (String, String) {
    let mut lines = String::new();
    let mut before = written.lines(&case.state, &[]);
    for (number, entry) in log.iter().enumerate() {
        let now = written.lines(&entry.after, &entry.trace);
        if now != before {
            lines += &format!("event {number}\n{now}");
        }
        before = now;
    }
    (lines, before)
}

fn meet_runs(operator: u32, written: &Written, log: &[Entry], first: &[u32], met: &mut Met) {
    let things = |state: &[u32]| written.places().map(|p| state[p]).collect::<Vec<u32>>();
    let own = |words: &[u32]| {
        let own = words.iter().copied().filter(|&w| TraceWord::of(w).owner == operator);
        own.collect::<Vec<u32>>()
    };
    let mut before = (things(first), vec![]);
    let mut changes = 0;
    for (number, entry) in log.iter().enumerate() {
        let now = (things(&entry.after), own(&entry.trace));
        let (changed, same_things) = (now != before, now.0 == before.0);
        let vanished = same_things && !before.1.is_empty() && now.1.is_empty();
        let (taken, owner) = (entry.answer == 0, entry.event.owner);
        let moved = entry.before != entry.after || !entry.trace.is_empty();
        changes += usize::from(changed);
        special(
            met,
            &[
                (vanished && taken, rows::FOLLOWED_VANISHED),
                (vanished && !taken, rows::FOLLOWED_REFUSED),
                (!changed && !now.1.is_empty(), rows::FOLLOWED_AGAIN),
                (vanished && now.0.is_empty(), rows::FOLLOWED_EMPTY),
                (!changed && moved && owner != 0 && owner != operator, rows::FOLLOWED_STRANGERS),
                (changed && taken && owner == 0 && !entry.is_tick(), rows::FOLLOWED_PLATFORMS),
                (changed && number > 9, rows::FOLLOWED_10),
            ],
        );
        before = now;
    }
    let some = changes > 0 && changes < log.len();
    special(met, &[(changes == 0, rows::FOLLOWED_NONE), (some, rows::FOLLOWED_SOME)]);
}

/// The panel after the last event, where that was printed.
fn meet_last(operator: u32, log: &[Entry], met: &mut Met) {
    let own = |entry: &Entry| entry.trace.iter().any(|&w| TraceWord::of(w).owner == operator);
    let last = log.last().is_some_and(own);
    let gone = match log {
        [.., before, refused] => refused.answer != 0 && own(before),
        _ => false,
    };
    special(met, &[(last, rows::PRINTED_WORDS), (gone, rows::PRINTED_REFUSED)]);
}

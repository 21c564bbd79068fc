//! One case through both sides, every answer and every lent word and byte compared.

pub mod buslogs;
pub mod holds;
pub mod listings;
pub mod pairs;
pub mod panels;
mod plays;

use std::fmt;

use herringcart::Answer;
use second::cases::Case;
use second::program::WHOLE_TREE;
use second::state::state_length;
use second::stream::{STATE_FILL, TRACE_FILL};
use second::words::{HEADER, Section, Table};

use self::buslogs::AskedLog;
use self::holds::Recorded;
use self::listings::{Asked, Listings};
use self::panels::Shown;
use crate::nearest::Visited;
use crate::subject::Subject;
use crate::verdicts::Verdicts;

/// The first thing the two sides say differently, and what each says of it.
#[derive(Clone, PartialEq, Eq, Debug)]
pub struct Difference {
    pub what: String,
    pub proved: String,
    pub second: String,
    /// The panel, where it is one that differs: without its case it differs as well.
    pub panel: Option<Box<Shown>>,
    /// The supplier's recording, where it is one that differs: likewise.
    pub hold: Option<Box<Recorded>>,
    /// The table or the text, where it is its listing or reading that differs: likewise.
    pub listing: Option<Box<Asked>>,
    /// The bus log, where its reading differs: likewise.
    pub log: Option<Box<AskedLog>>,
}

impl fmt::Display for Difference {
    fn fmt(&self, f: &mut fmt::Formatter) -> fmt::Result {
        let Difference { what, proved, second, .. } = self;
        writeln!(f, "differs: {what}\n  proved: {proved}\n  second: {second}")
    }
}

/// Words in eight hex digits.
pub struct Words<'a>(pub &'a [u32]);

impl fmt::Display for Words<'_> {
    fn fmt(&self, f: &mut fmt::Formatter) -> fmt::Result {
        let words: Vec<String> = self.0.iter().map(|word| format!("{word:08X}")).collect();
        f.write_str(&words.join(" "))
    }
}

/// Guard words on each side of what is lent: more than one call could step
/// over by a miscounted thing.
const GUARDS: usize = 64;

/// What is lent: words, or bytes.
trait Unit: Copy + PartialEq {
    const GUARD: Self;
    fn told(units: &[Self]) -> String;
}

impl Unit for u32 {
    const GUARD: u32 = 0xC3C3_C3C3;

    fn told(words: &[u32]) -> String {
        Words(words).to_string()
    }
}

impl Unit for u8 {
    const GUARD: u8 = 0xC3;

    /// Lines are text; what is not shows as its code.
    fn told(bytes: &[u8]) -> String {
        format!("\"{}\"", bytes.escape_ascii())
    }
}

/// Words or bytes lent out of the middle of a larger buffer, so that one written
/// outside them shows.
#[derive(Clone, PartialEq, Eq)]
struct Lent<U = u32>(Vec<U>);

impl<U: Unit> Lent<U> {
    fn of(units: &[U]) -> Self {
        Lent([&[U::GUARD; GUARDS], units, &[U::GUARD; GUARDS]].concat())
    }

    fn filled(length: usize, fill: U) -> Self {
        Lent::of(&vec![fill; length])
    }

    fn words(&mut self) -> &mut [U] {
        let end = self.0.len() - GUARDS;
        &mut self.0[GUARDS..end]
    }

    /// So many of the first, or all where they are fewer: a side may count wrongly.
    fn front(&mut self, count: usize) -> Vec<U> {
        let words = self.words();
        words[..count.min(words.len())].to_vec()
    }
}

/// What the proved side gave in a call, and whether the second program gave the same.
struct Tried<G> {
    given: G,
    alike: Result<(), Difference>,
}

/// A number beside words; one that is no word shows as the largest.
fn as_word(number: usize) -> u32 {
    u32::try_from(number).unwrap_or(u32::MAX)
}

/// Visits beside words: two of them, the higher first. None of a side that does not count them.
fn visits_words(subject: &impl Subject, visits: u64) -> Vec<u32> {
    let words = vec![(visits >> 32) as u32, visits as u32];
    if subject.counts_visits() { words } else { vec![] }
}

/// Fails with both sides' words where they differ.
fn same<U: Unit>(
    what: impl FnOnce() -> String,
    proved: &[U],
    second: &[U],
) -> Result<(), Difference> {
    if proved == second {
        return Ok(());
    }
    let (what, proved, second) = (what(), U::told(proved), U::told(second));
    Err(Difference { what, proved, second, panel: None, hold: None, listing: None, log: None })
}

/// As `same`; where a guard differs, the guards are shown too.
fn same_lent<U: Unit>(
    what: &dyn Fn() -> String,
    proved: &Lent<U>,
    second: &Lent<U>,
) -> Result<(), Difference> {
    if proved == second {
        return Ok(());
    }
    let (mut proved, mut second) = (proved.clone(), second.clone());
    same(what, proved.words(), second.words())?;
    same(|| format!("{}, outside what was lent", what()), &proved.0, &second.0)
}

/// the most that an event of the table visits, 127 (R + B); 0 where the table has a reason, for then none is taken.
pub fn bound(table: &[u32]) -> u64 {
    let check = second::check(table);
    let evaluations = Table::of(table).map_or(0, |read| read.count(Section::Rules) + check.b);
    if check.reason == 0 { WHOLE_TREE * evaluations as u64 } else { 0 }
}

/// What a case without a difference has shown: how near its bound it came, what was said of the recordings held, and how its table was
/// listed and read back.
#[derive(Clone, Copy, PartialEq, Eq, Debug)]
pub struct Compared {
    pub visited: Visited,
    pub held: Verdicts,
    pub listed: Listings,
}

/// Everything both sides say of a case, in the order of the calls, of suppliers' recordings of its events, and of its table's listing.
pub fn compare(subject: &impl Subject, case: &Case) -> Result<Compared, Difference> {
    let visited = compare_calls(subject, case)?;
    let held = holds::compare_holds(subject, case)?;
    Ok(Compared { visited, held, listed: listings::compare_table(subject, &case.table)? })
}

/// As `compare`, but that nothing is held and nothing listed, for that is many calls. Gives how near its bound the case came.
pub fn compare_calls(subject: &impl Subject, case: &Case) -> Result<Visited, Difference> {
    let mut visited = Visited { most: 0, bound: bound(&case.table) };
    let untouched = Lent::of(&case.table);
    let mut table = untouched.clone();
    compare_check(subject, table.words())?;
    compare_fresh(subject, table.words(), case.state.len())?;
    compare_fit(subject, table.words(), &case.state)?;
    same_lent(&|| "table after the checks".into(), &table, &untouched)?;
    let mut states = [Lent::of(&case.state), Lent::of(&case.state)];
    for (number, &event) in case.events.iter().enumerate() {
        let what = |part: &str| format!("event {number} ({event:08X}), {part}");
        let (room, outcomes) = (case.room, case.lent(number));
        let called = Called { table: table.words(), room, outcomes, event };
        let Tried { given, alike } = try_event(subject, called, &mut states, &what);
        alike?;
        within_bound(given.visits, visited.bound, &what)?;
        visited.most = visited.most.max(given.visits);
        same_lent(&|| what("table"), &table, &untouched)?;
    }
    plays::compare_plays(subject, table.words(), case)?;
    same_lent(&|| "table after the plays".into(), &table, &untouched)?;
    panels::compare_panels(subject, case)?;
    Ok(visited)
}

fn compare_check(subject: &impl Subject, table: &[u32]) -> Result<(), Difference> {
    let (proved, second) = (subject.check(table), second::check(table));
    same(
        || "check: reason, place, B".into(),
        &[proved.reason, as_word(proved.place), proved.bound],
        &[second.reason, as_word(second.place), as_word(second.b)],
    )?;
    // A missing header word counts as 0.
    let mut header = table[..table.len().min(HEADER)].to_vec();
    header.resize(HEADER, 0);
    let length = Table::of(&header).map_or(0, |header| state_length(&header));
    same(|| "state words".into(), &[as_word(subject.state_words(table))], &[as_word(length)])
}

fn compare_fresh(subject: &impl Subject, table: &[u32], length: usize) -> Result<(), Difference> {
    let mut proved = Lent::filled(length, STATE_FILL);
    let mut second = proved.clone();
    let answer = subject.fresh(table, proved.words());
    same(|| "fresh, answer".into(), &[answer], &[second::fresh(table, second.words())])?;
    same_lent(&|| "fresh, state".into(), &proved, &second)
}

fn compare_fit(subject: &impl Subject, table: &[u32], state: &[u32]) -> Result<(), Difference> {
    let untouched = Lent::of(state);
    let mut lent = untouched.clone();
    let proved = subject.check_state(table, lent.words());
    same(|| "state check".into(), &[proved], &[second::check_state(table, state)])?;
    same_lent(&|| "state check, state".into(), &lent, &untouched)
}

/// What an event's call is made with.
struct Called<'a> {
    table: &'a [u32],
    room: usize,
    outcomes: &'a [u32],
    event: u32,
}

/// What an event's call gave.
struct Taken {
    answer: Answer,
    /// The trace words that the count covers.
    words: Vec<u32>,
    /// By the second program.
    visits: u64,
}

/// One event; the states, the proved side's first, are passed on.
fn try_event(
    subject: &impl Subject,
    Called { table, room, outcomes, event }: Called,
    [state, judged]: &mut [Lent; 2],
    what: &dyn Fn(&str) -> String,
) -> Tried<Taken> {
    let mut trace = Lent::filled(room, TRACE_FILL);
    let mut expected = trace.clone();
    let untouched = Lent::of(outcomes);
    let mut lent = untouched.clone();
    let proved = subject.step(table, state.words(), trace.words(), lent.words(), event);
    let second = second::step(table, judged.words(), expected.words(), event, outcomes);
    let compared = || {
        same(
            || what("answer, count"),
            &[proved.number, as_word(proved.count)],
            &[second.answer, as_word(second.count)],
        )?;
        same(
            || what("visits"),
            &visits_words(subject, proved.visits.into()),
            &visits_words(subject, second.visits),
        )?;
        same_lent(&|| what("state"), state, judged)?;
        same_lent(&|| what("trace"), &trace, &expected)?;
        same_lent(&|| what("outcomes"), &lent, &untouched)
    };
    let alike = compared();
    let words = trace.front(proved.count);
    Tried { given: Taken { answer: proved, words, visits: second.visits }, alike }
}

/// Q-10's bound; two sides that are wrong alike would else not show.
fn within_bound(visits: u64, bound: u64, what: &dyn Fn(&str) -> String) -> Result<(), Difference> {
    let within = visits.min(bound);
    let bounded = || what("visits, which are at most 127 (R + B)");
    same(bounded, &[as_word(visits as usize)], &[as_word(within as usize)])
}

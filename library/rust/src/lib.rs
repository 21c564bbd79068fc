//! The proved mode manager for Rust. Tables, states, traces, outcomes and what a
//! supplier recorded are slices of 32-bit words; `docs/TABLES.md` has the layout of
//! each and what to do about each reason and answer. A panel's lines and a table's
//! listing are laid into a slice of bytes; a listing and a bus log are read from one.
//! Answers are the documents' numbers.
//!
//! Every call takes any words and bytes: it checks them for itself, and a refusal
//! leaves every lent word and byte as it was, but that of a bus log the events before
//! it stay. Nothing is kept between calls, no heap is used, and calls on different
//! states may run at the same time.
//!
//! ```
//! // An archive of another version may take other arguments.
//! assert_eq!(herringcart::version(), herringcart::VERSION);
//! // Document 01's marked table.
//! let table = [
//!     0x0102_0100, 0x0001_0001, 0x0001_0002, 0x0100_0000, 0x2100_0000, 0x1010_2000,
//!     0x030A_0005, 0x0000_5000, 0x1000_00FF, 0x1838_0002, 0x4000_0002, 0x0000_1234,
//! ];
//! let check = herringcart::check_table(&table);
//! assert!(check.accepted());
//! let mut state = vec![0; herringcart::state_words(&table)];
//! let mut trace = vec![0; check.bound as usize];
//! assert_eq!(herringcart::make_fresh(&table, &mut state), 0);
//! let answer = herringcart::take_event(&table, &mut state, &mut trace, &[], 0x1100_0500);
//! assert_eq!(answer.number, 0);
//! assert_eq!(trace[..answer.count], [0xF100_0000, 0x4100_0002, 0x0100_1234]);
//! // Its rule has one condition.
//! assert_eq!(answer.visits, 1);
//! // What operator 1 sees of it.
//! let newest = &trace[..answer.count];
//! let mut lines = vec![0; herringcart::panel_bytes(newest.len())];
//! let panel = herringcart::panel(1, &table, &state, newest, &mut lines);
//! assert_eq!(panel.number, 0);
//! assert!(lines[..panel.bytes].starts_with(b"port 0 81400000\nport 1 00000000\n"));
//! // What a supplier recorded of it: its trace stops a word early.
//! let theirs = [0xF100_0000, 0x4100_0002];
//! let (their_state, mut state) = (state, [0; 4]);
//! let held =
//!     herringcart::hold(&table, &mut state, &mut trace, &[], 0x1100_0500, &theirs, &their_state);
//! assert_eq!(held.verdict, herringcart::Verdict::TheirsStops(2));
//! assert_eq!(held.part, [0x0100_1234]);
//! // The table as text, and read back.
//! let mut lines = vec![0; herringcart::LISTING_BYTES];
//! let listing = herringcart::list(&table, &mut lines).expect("no reason from 1 to 4, and room");
//! assert!(listing.starts_with(b"header 1 2 1 0\nheader 1 1\n"));
//! let mut words = vec![0; herringcart::TABLE_WORDS];
//! assert_eq!(herringcart::read(listing, &mut words), Ok(&table[..]));
//! // A log of the bench: its network is bus-off 25 milliseconds after the first line.
//! let log = b"(1700000000.250037) can0 123#00\n(1700000000.275037) can0 20000040#\n";
//! let (mut cursor, mut out) = (herringcart::Cursor::default(), [0; 9]);
//! let read = herringcart::read_log(&table, b"can0\n", log, &mut cursor, &mut out);
//! assert_eq!(read.end, herringcart::LogEnd::Read);
//! assert_eq!(read.events, [0, 0, 0x5100_0000]);
//! ```
#![no_std]

/// What a table check gives.
#[derive(Clone, Copy, PartialEq, Eq, Debug)]
pub struct Check {
    /// 0, or the first of the documents' reasons 1 to 10 that holds, in their order: 10 before 9.
    pub reason: u32,
    /// The lowest word that breaks the rule; 0 for reasons 0 to 4 and 9.
    pub place: usize,
    /// B, how many trace words each event must be lent; 0 for a refused table.
    pub bound: u32,
}

impl Check {
    /// Whether events can be taken with this table.
    pub fn accepted(self) -> bool {
        self.reason == 0
    }
}

/// The most expression words that an event can visit: 127 times R + B, for a
/// table with as many rules and as large a B as there can be.
pub const MOST_VISITS: u32 = 127 * (256 + 4096);

/// What an event is answered with.
#[derive(Clone, Copy, PartialEq, Eq, Debug)]
pub struct Answer {
    /// 0 done; 1 the table has a reason; 2 the state does not fit; 3 the trace
    /// is shorter than B; 4 the event word is malformed; then, tried before 5,
    /// 8 an outcome word is above 1; 5 no such thing; 6 the thing has another
    /// owner.
    pub number: u32,
    /// How many words were written at the front of the trace; 0 if refused.
    pub count: usize,
    /// How many expression words were visited, at most `MOST_VISITS`; 0 if
    /// refused. A condition is 1. An operator is 1 and its left side's visits,
    /// and its right side's where the left has not settled it; NOT is 1 and its
    /// left side's. Every evaluation counts each time, of arbitrated rules and of
    /// rule items. The tests for ports that are arbitrated or undefined are no
    /// evaluation and do not count, though they take time.
    pub visits: u32,
}

impl Answer {
    /// Whether the event was taken.
    pub fn done(self) -> bool {
        self.number == 0
    }
}

/// What ended a play.
#[derive(Clone, Copy, PartialEq, Eq, Debug)]
pub enum End {
    /// Every event was taken.
    Done,
    /// The table has a reason.
    BadTable,
    /// The state does not fit.
    UnfitState,
    /// Fewer than B trace words are free for the next event: resume from it.
    TraceFull,
    /// The next event's word is malformed.
    Malformed,
    /// There is no such thing as the next event names.
    NoSuchThing,
    /// The thing that the next event names has another owner.
    NotItsOwner,
}

impl End {
    /// The documents' number.
    pub fn number(self) -> u32 {
        self as u32
    }
}

/// What a play gives.
#[derive(Clone, Copy, PartialEq, Eq, Debug)]
pub struct Played {
    pub end: End,
    /// How many events were taken; the next one is the one that ended it.
    pub taken: usize,
    /// How many words they wrote at the front of the trace.
    pub count: usize,
    /// How many expression words they visited together, modulo 2^64: exact for
    /// up to 2^64 / `MOST_VISITS` events.
    pub visits: u64,
}

/// Bytes that are always enough for a panel, by how many trace words are handed
/// in: 104 things of at most 21 bytes, and 15 for each trace word.
pub const fn panel_bytes(words: usize) -> usize {
    2184 + 15 * words
}

/// What a panel is answered with.
#[derive(Clone, Copy, PartialEq, Eq, Debug)]
pub struct Panel {
    /// 0 the lines are laid; or the first of these that holds, in this order: 9
    /// the number is 0 or above 15; 1 the table has a reason; 2 the state does not
    /// fit; 11 the lines need more bytes than are lent.
    pub number: u32,
    /// How many bytes were laid at the front of the lent ones. 0 if refused, and
    /// also where the operator has nothing to see, which is no refusal.
    pub bytes: usize,
}

impl Panel {
    /// Whether the lines were laid.
    pub fn done(self) -> bool {
        self.number == 0
    }
}

/// What is said of a supplier's recording of one event: the first of these that
/// holds, tried in the order `Refused` to `StatesPart`, or else `AsOrdered`.
#[derive(Clone, Copy, PartialEq, Eq, Debug)]
pub enum Verdict {
    /// Trace and state are what our tables order.
    AsOrdered,
    /// Our step refuses the event, with this answer.
    Refused(u32),
    /// The first word in which the traces differ, from 0. The part is the
    /// supplier's words from there.
    TracesPart(usize),
    /// The supplier's trace is a beginning of ours, of this length. The part is
    /// the rest of ours.
    TheirsStops(usize),
    /// Ours is a beginning of the supplier's, of this length. The part is the rest
    /// of the supplier's.
    OursStops(usize),
    /// The traces are the same. The first state word that differs, from 0, or the
    /// shorter state's length where it is a beginning of the other.
    StatesPart(usize),
}

impl Verdict {
    /// The verdict's number, as C's `enum herringcart_verdict` has it.
    pub fn number(self) -> u32 {
        match self {
            Verdict::AsOrdered => 0,
            Verdict::Refused(_) => 1,
            Verdict::TracesPart(_) => 2,
            Verdict::TheirsStops(_) => 3,
            Verdict::OursStops(_) => 4,
            Verdict::StatesPart(_) => 5,
        }
    }

    /// The number beside it: of our answer or of a word; 0 of `AsOrdered`.
    pub fn given(self) -> usize {
        match self {
            Verdict::AsOrdered => 0,
            Verdict::Refused(answer) => answer as usize,
            Verdict::TracesPart(word) | Verdict::StatesPart(word) => word,
            Verdict::TheirsStops(length) | Verdict::OursStops(length) => length,
        }
    }
}

/// What a supplier's recording is answered with.
#[derive(Clone, Copy, PartialEq, Eq, Debug)]
pub struct Held<'a> {
    pub verdict: Verdict,
    /// How many words our step wrote at the front of our trace; 0 if refused.
    pub count: usize,
    /// How many expression words our step visited; 0 if refused.
    pub visits: u32,
    /// The rest of one of the two lent traces, no copy of it: the supplier's of
    /// `TracesPart` and `OursStops`, ours of `TheirsStops`, else empty. While it is
    /// in use our trace stays lent; what `count` covers of it is read before or
    /// afterwards.
    pub part: &'a [u32],
}

impl Held<'_> {
    /// Whether the supplier's trace and state are what our tables order.
    pub fn as_ordered(self) -> bool {
        self.verdict == Verdict::AsOrdered
    }
}

/// The most words that a table can have: always room enough for `read`.
pub const TABLE_WORDS: usize = 3185;

/// Bytes that are always enough for a listing: no line has more than 47.
pub const LISTING_BYTES: usize = 47 * TABLE_WORDS;

/// Why a table is not listed: the first of these that holds, in this order.
#[derive(Clone, Copy, PartialEq, Eq, Debug)]
pub enum NotListed {
    /// Reason 1: the table has fewer than 3 words.
    TooShort,
    /// Reason 2: the edition is neither 1 nor 2.
    WrongEdition,
    /// Reason 3: a count is outside its limits.
    WrongCounts,
    /// Reason 4: the length is not what the header asks for.
    WrongLength,
    /// 11: the listing has more bytes than are lent.
    NoRoom,
}

impl NotListed {
    /// The documents' number.
    pub fn number(self) -> u32 {
        match self {
            NotListed::TooShort => 1,
            NotListed::WrongEdition => 2,
            NotListed::WrongCounts => 3,
            NotListed::WrongLength => 4,
            NotListed::NoRoom => 11,
        }
    }
}

/// Why a text is not read. A bad line 11 and too little room, which is answer 11,
/// are different cases.
#[derive(Clone, Copy, PartialEq, Eq, Debug)]
pub enum NotRead {
    /// The text is no listing: the number of its first bad line, from 1.
    BadLine(usize),
    /// The listing's table has more words than are lent.
    NoRoom,
}

impl NotRead {
    /// The answer's number, as C's call gives it.
    pub fn number(self) -> u32 {
        match self {
            NotRead::BadLine(_) => 12,
            NotRead::NoRoom => 11,
        }
    }
}

/// How far a bus log is read. All zero, the default, is before its first line.
#[derive(Clone, Copy, PartialEq, Eq, Debug, Default)]
pub struct Cursor {
    /// How many lines are read.
    pub lines: u64,
    /// The first line's time in microseconds; of no meaning while `lines` is 0.
    pub first: u64,
    /// The time of the last line read, likewise.
    pub last: u64,
    /// How many ticks are given.
    pub given: u64,
}

/// What ended the reading of a bus log: the first of these that holds, of the table
/// and the list first, then of each line, in this order. A line is told by its
/// number in the log, from 1.
#[derive(Clone, Copy, PartialEq, Eq, Debug)]
pub enum LogEnd {
    /// Every line is read.
    Read,
    /// The table has a reason.
    BadTable,
    /// The list is not as many different names as the table has networks.
    BadInterfaces,
    /// The line is not spelt as a line of a log is.
    Misspelt(u64),
    /// The line's time is before that of the line before it.
    GoesBack(u64),
    /// The line's interface is none of the list's.
    NotListed(u64),
    /// There is no room for the line's next event: go on from it.
    NoRoom(u64),
}

impl LogEnd {
    /// The answer's number, as C's call gives it.
    pub fn number(self) -> u32 {
        match self {
            LogEnd::Read => 0,
            LogEnd::BadTable => 1,
            LogEnd::BadInterfaces => 13,
            LogEnd::Misspelt(_) => 12,
            LogEnd::GoesBack(_) => 14,
            LogEnd::NotListed(_) => 15,
            LogEnd::NoRoom(_) => 11,
        }
    }

    /// The number of the line that is refused, 0 where none is.
    pub fn line(self) -> u64 {
        match self {
            LogEnd::Read | LogEnd::BadTable | LogEnd::BadInterfaces => 0,
            LogEnd::Misspelt(line)
            | LogEnd::GoesBack(line)
            | LogEnd::NotListed(line)
            | LogEnd::NoRoom(line) => line,
        }
    }
}

/// What the reading of a bus log gives.
#[derive(Clone, Copy, PartialEq, Eq, Debug)]
pub struct LogRead<'a> {
    pub end: LogEnd,
    /// The events, at the front of the words lent; a refusal keeps those before it.
    pub events: &'a [u32],
    /// How many bytes the lines read have.
    pub bytes: usize,
}

mod c {
    // As library/herringcart.h declares them. A slice is lent as its pointer
    // and its length, in words or, of lines, text, log and interfaces, in bytes.
    unsafe extern "C" {
        pub safe fn herringcart_version() -> u32;
        pub fn herringcart_check_table(
            table: *const u32,
            table_words: usize,
            place: *mut usize,
            bound: *mut u32,
        ) -> u32;
        pub fn herringcart_state_words(table: *const u32, table_words: usize) -> usize;
        pub fn herringcart_make_fresh(
            table: *const u32,
            table_words: usize,
            state: *mut u32,
            state_words: usize,
        ) -> u32;
        pub fn herringcart_check_state(
            table: *const u32,
            table_words: usize,
            state: *const u32,
            state_words: usize,
        ) -> u32;
        pub fn herringcart_take_event(
            table: *const u32,
            table_words: usize,
            state: *mut u32,
            state_words: usize,
            trace: *mut u32,
            trace_words: usize,
            outcomes: *const u32,
            outcome_words: usize,
            event: u32,
            count: *mut usize,
            visits: *mut u32,
        ) -> u32;
        pub fn herringcart_play(
            table: *const u32,
            table_words: usize,
            state: *mut u32,
            state_words: usize,
            trace: *mut u32,
            trace_words: usize,
            events: *const u32,
            event_words: usize,
            taken: *mut usize,
            count: *mut usize,
            visits: *mut u64,
        ) -> u32;
        pub fn herringcart_panel(
            operator_number: u32,
            table: *const u32,
            table_words: usize,
            state: *const u32,
            state_words: usize,
            words: *const u32,
            words_count: usize,
            lines: *mut u8,
            lines_bytes: usize,
            bytes: *mut usize,
        ) -> u32;
        pub fn herringcart_hold(
            table: *const u32,
            table_words: usize,
            state: *mut u32,
            state_words: usize,
            trace: *mut u32,
            trace_words: usize,
            outcomes: *const u32,
            outcome_words: usize,
            event: u32,
            theirs: *const u32,
            their_words: usize,
            their_state: *const u32,
            their_state_words: usize,
            number: *mut usize,
            rest: *mut usize,
            count: *mut usize,
            visits: *mut u32,
        ) -> u32;
        pub fn herringcart_list(
            table: *const u32,
            table_words: usize,
            lines: *mut u8,
            lines_bytes: usize,
            bytes: *mut usize,
        ) -> u32;
        pub fn herringcart_read(
            text: *const u8,
            text_bytes: usize,
            words: *mut u32,
            words_room: usize,
            count: *mut usize,
            line: *mut usize,
        ) -> u32;
        pub fn herringcart_read_log(
            table: *const u32,
            table_words: usize,
            interfaces: *const u8,
            interfaces_bytes: usize,
            log: *const u8,
            log_bytes: usize,
            lines: *mut u64,
            first: *mut u64,
            last: *mut u64,
            given: *mut u64,
            out: *mut u32,
            out_words: usize,
            line: *mut u64,
            events: *mut usize,
            bytes: *mut usize,
        ) -> u32;
    }
}

// Why each call below is sound: a slice's pointer is never null, aligned and
// valid for its whole length, which is at most isize::MAX bytes; what is lent
// as &mut overlaps nothing else; and the borrows last for the whole call.

// The calls always write what else they give, into locals that start as the
// largest number: were one not to, no 0 may hide it.

/// The version that this wrapper's declarations are of, as `version` gives the
/// archive's.
pub const VERSION: u32 =
    65536 * number(env!("CARGO_PKG_VERSION_MAJOR")) + number(env!("CARGO_PKG_VERSION_MINOR"));

const fn number(text: &str) -> u32 {
    match u32::from_str_radix(text, 10) {
        Ok(number) => number,
        Err(_) => panic!("cargo gives a version in decimal"),
    }
}

/// The version of the archive that is linked, major * 65536 + minor. Where it is
/// not `VERSION`, the calls may take other arguments: make none.
pub fn version() -> u32 {
    c::herringcart_version()
}

/// Checks a table: its first reason and place, or 0 and B.
pub fn check_table(table: &[u32]) -> Check {
    let (mut place, mut bound) = (usize::MAX, u32::MAX);
    // SAFETY: see above; place and bound are locals of their own.
    let reason =
        unsafe { c::herringcart_check_table(table.as_ptr(), table.len(), &mut place, &mut bound) };
    Check { reason, place, bound }
}

/// How many words a state of this table has, P+R+N+S. This reads the header
/// alone, with 0 for a missing word, and so says nothing of the table.
pub fn state_words(table: &[u32]) -> usize {
    // SAFETY: see above.
    unsafe { c::herringcart_state_words(table.as_ptr(), table.len()) }
}

/// Makes a fresh state: 0; or 1 for a bad table and 2 for a wrong length, and
/// then writes nothing.
pub fn make_fresh(table: &[u32], state: &mut [u32]) -> u32 {
    // SAFETY: see above.
    unsafe {
        c::herringcart_make_fresh(table.as_ptr(), table.len(), state.as_mut_ptr(), state.len())
    }
}

/// Checks a state: 0 if it fits, 1 for a bad table, 2 if it does not fit.
pub fn check_state(table: &[u32], state: &[u32]) -> u32 {
    // SAFETY: see above.
    unsafe { c::herringcart_check_state(table.as_ptr(), table.len(), state.as_ptr(), state.len()) }
}

/// Takes one event. Done, the state is the next one and the trace's first
/// `count` words are new; refused, no word has changed, and `count` and `visits`
/// are 0.
///
/// `outcomes` says how its outside calls end, 0 good and 1 failed. In a table of
/// edition 2 every outside call takes the next word, in the order in which they
/// run, and past the last word is good; a failed call with abort stops the list
/// that holds it, and an outer list goes on. A table of edition 1 takes none.
pub fn take_event(
    table: &[u32],
    state: &mut [u32],
    trace: &mut [u32],
    outcomes: &[u32],
    event: u32,
) -> Answer {
    let (mut count, mut visits) = (usize::MAX, u32::MAX);
    // SAFETY: see above; count and visits are locals of their own.
    let number = unsafe {
        c::herringcart_take_event(
            table.as_ptr(),
            table.len(),
            state.as_mut_ptr(),
            state.len(),
            trace.as_mut_ptr(),
            trace.len(),
            outcomes.as_ptr(),
            outcomes.len(),
            event,
            &mut count,
            &mut visits,
        )
    };
    Answer { number, count, visits }
}

/// Plays events one after the other, table and state checked once, until none
/// is left, one is refused, or fewer than B trace words are free. No outcomes
/// are lent: every outside call is good. What was taken stands in state and
/// trace; the event that ended it changed nothing. A play that ends with
/// `TraceFull` is resumed with `&events[taken..]`.
pub fn play(table: &[u32], state: &mut [u32], trace: &mut [u32], events: &[u32]) -> Played {
    let (mut taken, mut count, mut visits) = (usize::MAX, usize::MAX, u64::MAX);
    // SAFETY: see above; taken, count and visits are locals of their own.
    let number = unsafe {
        c::herringcart_play(
            table.as_ptr(),
            table.len(),
            state.as_mut_ptr(),
            state.len(),
            trace.as_mut_ptr(),
            trace.len(),
            events.as_ptr(),
            events.len(),
            &mut taken,
            &mut count,
            &mut visits,
        )
    };
    let end = match number {
        0 => End::Done,
        1 => End::BadTable,
        2 => End::UnfitState,
        3 => End::TraceFull,
        4 => End::Malformed,
        5 => End::NoSuchThing,
        6 => End::NotItsOwner,
        _ => unreachable!("the call gives no other number, which is proved"),
    };
    Played { end, taken, count, visits }
}

/// Shows an operator its panel: lays its lines at the front of the lent bytes,
/// those behind them unchanged; refused, no byte has changed. `words` are the
/// newest step's trace words, `&trace[..count]` as the event left them: none
/// before any event, and none behind a refused one. `panel_bytes` of their number
/// is always room enough.
///
/// A line is as `port 0 81400000`, `network 0 80000000`, `source 2 40000008` or
/// `trace F1000000`, with a newline: the operator's ports, networks and sources,
/// each by number, then those of the words that have it in their owner field.
/// Nothing of a stranger is shown, nothing of the platform, and no rule's word.
pub fn panel(
    operator: u32,
    table: &[u32],
    state: &[u32],
    words: &[u32],
    lines: &mut [u8],
) -> Panel {
    let mut bytes = usize::MAX;
    // SAFETY: see above; bytes is a local of its own.
    let number = unsafe {
        c::herringcart_panel(
            operator,
            table.as_ptr(),
            table.len(),
            state.as_ptr(),
            state.len(),
            words.as_ptr(),
            words.len(),
            lines.as_mut_ptr(),
            lines.len(),
            &mut bytes,
        )
    };
    Panel { number, bytes }
}

/// Holds a supplier's recording of one event against ours: `theirs` are the trace
/// words that its manager wrote, from the same state and with the same outcomes,
/// `their_state` the words of its state afterwards. Any words will do; they are only
/// read. `AsOrdered` is given exactly if both are what our tables order, whoever
/// wrote them; traces are looked at first.
///
/// Our own step is taken as `take_event` takes it: `state` and `trace` end as
/// behind that call, and `count` and `visits` are its. The part is a slice of
/// `trace` or of `theirs` and lives no longer than either.
pub fn hold<'a>(
    table: &[u32],
    state: &mut [u32],
    trace: &'a mut [u32],
    outcomes: &[u32],
    event: u32,
    theirs: &'a [u32],
    their_state: &[u32],
) -> Held<'a> {
    let (mut number, mut rest) = (usize::MAX, usize::MAX);
    let (mut count, mut visits) = (usize::MAX, u32::MAX);
    // SAFETY: see above; number, rest, count and visits are locals of their own.
    let verdict = unsafe {
        c::herringcart_hold(
            table.as_ptr(),
            table.len(),
            state.as_mut_ptr(),
            state.len(),
            trace.as_mut_ptr(),
            trace.len(),
            outcomes.as_ptr(),
            outcomes.len(),
            event,
            theirs.as_ptr(),
            theirs.len(),
            their_state.as_ptr(),
            their_state.len(),
            &mut number,
            &mut rest,
            &mut count,
            &mut visits,
        )
    };
    let (verdict, whose, from): (_, &'a [u32], _) = match (verdict, number) {
        (0, 0) => (Verdict::AsOrdered, &[], 0),
        (1, 1..=8) => (Verdict::Refused(number as u32), &[], 0),
        (2, _) => (Verdict::TracesPart(number), theirs, number),
        (3, _) => (Verdict::TheirsStops(number), trace, number),
        (4, _) => (Verdict::OursStops(number), theirs, number),
        (5, _) => (Verdict::StatesPart(number), &[], 0),
        _ => unreachable!("the call gives no other number, which is proved"),
    };
    Held { verdict, count, visits, part: &whose[from..][..rest] }
}

/// Lists a table as text: lays a line for each word at the front of the lent
/// bytes, those behind them unchanged, and gives the listing; refused, no byte
/// has changed. A table with a reason from 5 on is listed. `LISTING_BYTES` is
/// always room enough.
///
/// A line is a section's name and all fields of the word in decimal, as
/// `port 0 0 0 1 0 0`, with a newline. No two tables have the same listing.
pub fn list<'a>(table: &[u32], lines: &'a mut [u8]) -> Result<&'a [u8], NotListed> {
    let mut bytes = usize::MAX;
    // SAFETY: see above; bytes is a local of its own.
    let number = unsafe {
        c::herringcart_list(
            table.as_ptr(),
            table.len(),
            lines.as_mut_ptr(),
            lines.len(),
            &mut bytes,
        )
    };
    match (number, bytes) {
        (0, _) => Ok(&lines[..bytes]),
        (1, 0) => Err(NotListed::TooShort),
        (2, 0) => Err(NotListed::WrongEdition),
        (3, 0) => Err(NotListed::WrongCounts),
        (4, 0) => Err(NotListed::WrongLength),
        (11, 0) => Err(NotListed::NoRoom),
        _ => unreachable!("the call gives no other numbers, which is proved"),
    }
}

/// Reads a listing back: lays its table's words at the front of the lent ones,
/// those behind them unchanged, and gives them; refused, no word has changed.
/// `list` of these words gives the text again, byte for byte. Whether the table
/// is accepted is for `check_table` to say. `TABLE_WORDS` is always room enough.
///
/// Any other spelling is refused with the number of the first line at which no
/// listing goes on: a missing line has the number it would have had, an extra
/// one the last plus 1.
pub fn read<'a>(text: &[u8], words: &'a mut [u32]) -> Result<&'a [u32], NotRead> {
    let (mut count, mut line) = (usize::MAX, usize::MAX);
    // SAFETY: see above; count and line are locals of their own.
    let number = unsafe {
        c::herringcart_read(
            text.as_ptr(),
            text.len(),
            words.as_mut_ptr(),
            words.len(),
            &mut count,
            &mut line,
        )
    };
    match (number, count, line) {
        (0, _, 0) => Ok(&words[..count]),
        (12, 0, 1..) => Err(NotRead::BadLine(line)),
        (11, 0, 0) => Err(NotRead::NoRoom),
        _ => unreachable!("the call gives no other numbers, which is proved"),
    }
}

/// Turns a log of the common Linux CAN tools into event words, laid at the front of
/// `out`, the words behind them unchanged. `interfaces` names the networks'
/// interfaces in the table's order, a newline behind each.
///
/// A line is as `(1700000000.250037) can0 20000040#00`, with a newline. An eight-digit
/// identifier with 20000000 and 40 is a bus-off of the interface's network under its
/// owner; other frames give no event. Before each line come the ticks for each whole
/// 10 milliseconds since the log's first line that are not yet given.
///
/// The cursor moves behind the lines read. So a log is read in parts, each ending
/// behind a newline, and after `NoRoom` from `&log[bytes..]` on, in the same words or
/// others: the line is read again, and gives what it has not given. Events, refusals
/// and line numbers are those of the log read at once in room enough.
pub fn read_log<'a>(
    table: &[u32],
    interfaces: &[u8],
    log: &[u8],
    cursor: &mut Cursor,
    out: &'a mut [u32],
) -> LogRead<'a> {
    let (mut line, mut events, mut bytes) = (u64::MAX, usize::MAX, usize::MAX);
    // SAFETY: see above; line, events and bytes are locals of their own, and the
    // cursor's numbers are its own, each another.
    let number = unsafe {
        c::herringcart_read_log(
            table.as_ptr(),
            table.len(),
            interfaces.as_ptr(),
            interfaces.len(),
            log.as_ptr(),
            log.len(),
            &mut cursor.lines,
            &mut cursor.first,
            &mut cursor.last,
            &mut cursor.given,
            out.as_mut_ptr(),
            out.len(),
            &mut line,
            &mut events,
            &mut bytes,
        )
    };
    let end = match (number, line) {
        (0, 0) => LogEnd::Read,
        (1, 0) => LogEnd::BadTable,
        (13, 0) => LogEnd::BadInterfaces,
        (12, 1..) => LogEnd::Misspelt(line),
        (14, 1..) => LogEnd::GoesBack(line),
        (15, 1..) => LogEnd::NotListed(line),
        (11, 1..) => LogEnd::NoRoom(line),
        _ => unreachable!("the call gives no other numbers, which is proved"),
    };
    LogRead { end, events: &out[..events], bytes }
}

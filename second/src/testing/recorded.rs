//! The rules as the fixed cases ask them. What is asked is noted as a case, so
//! that another program can be asked the same; the answers are the rules' own.

use std::cell::RefCell;

use crate::buslog::{Converted, Cursor};
use crate::cases::Case;
use crate::check::{Check, accept};
use crate::hold::Held;
use crate::listing::{Listed, Read};
use crate::listing_run::Told;
use crate::panel::Panel;
use crate::play::Played;
use crate::program::{HoldTold, NoPanel};
use crate::state::state_length;
use crate::step::Stepped;
use crate::{buslog_run, listing_run, program, stream};

thread_local! {
    static ASKED: RefCell<Vec<Case>> = const { RefCell::new(vec![]) };
    static PANELS: RefCell<Vec<AskedPanel>> = const { RefCell::new(vec![]) };
    static PANEL_RUNS: RefCell<Vec<AskedPanelRun>> = const { RefCell::new(vec![]) };
    static HOLDS: RefCell<Vec<AskedHold>> = const { RefCell::new(vec![]) };
    static HOLD_RUNS: RefCell<Vec<AskedHoldRun>> = const { RefCell::new(vec![]) };
    static LISTS: RefCell<Vec<AskedList>> = const { RefCell::new(vec![]) };
    static READS: RefCell<Vec<AskedRead>> = const { RefCell::new(vec![]) };
    static LISTING_RUNS: RefCell<Vec<AskedListingRun>> = const { RefCell::new(vec![]) };
    static BUS_LOGS: RefCell<Vec<AskedBusLog>> = const { RefCell::new(vec![]) };
    static BUS_LOG_RUNS: RefCell<Vec<AskedBusLogRun>> = const { RefCell::new(vec![]) };
}

/// A panel that was asked for, and what the rules answered.
#[derive(Clone, PartialEq, Eq, Debug)]
pub struct AskedPanel {
    pub operator: u32,
    pub table: Vec<u32>,
    pub state: Vec<u32>,
    pub words: Vec<u32>,
    /// The room's bytes before; so many are lent.
    pub lent: Vec<u8>,
    pub laid: Panel,
    /// The room's bytes after.
    pub room: Vec<u8>,
}

/// What `panel OPERATOR TABLE EVENTS` was asked, by the files' bytes; and what it prints, or the
/// answer it is refused by.
#[derive(Clone, PartialEq, Eq, Debug)]
pub struct AskedPanelRun {
    pub operator: u32,
    pub table: Vec<u8>,
    pub events: Vec<u8>,
    pub follow: bool,
    pub printed: Result<String, u32>,
}

/// A supplier's log that was held against ours, and what the rules said.
#[derive(Clone, PartialEq, Eq, Debug)]
pub struct AskedHold {
    pub table: Vec<u32>,
    /// The state before.
    pub state: Vec<u32>,
    /// The room's words before; so many are lent.
    pub trace: Vec<u32>,
    pub outcomes: Vec<u32>,
    pub event: u32,
    pub theirs: Vec<u32>,
    pub their_state: Vec<u32>,
    pub held: Held,
    /// The state after.
    pub after: Vec<u32>,
    /// The room's words after.
    pub room: Vec<u32>,
}

/// What `hold TABLE EVENTS LOG [--all]` was asked, by the files' bytes, and what it tells.
#[derive(Clone, PartialEq, Eq, Debug)]
pub struct AskedHoldRun {
    pub table: Vec<u8>,
    pub events: Vec<u8>,
    pub log: Vec<u8>,
    pub all: bool,
    pub told: HoldTold,
}

/// A table that was listed, and what the rules answered.
#[derive(Clone, PartialEq, Eq, Debug)]
pub struct AskedList {
    pub table: Vec<u32>,
    /// The room's bytes before; so many are lent.
    pub lent: Vec<u8>,
    pub listed: Listed,
    /// The room's bytes after.
    pub room: Vec<u8>,
}

/// A text that was read, and what the rules answered.
#[derive(Clone, PartialEq, Eq, Debug)]
pub struct AskedRead {
    pub text: Vec<u8>,
    /// The room's words before; so many are lent.
    pub lent: Vec<u32>,
    pub read: Read,
    /// The room's words after.
    pub room: Vec<u32>,
}

/// What `list TABLE` or `read LISTING` was asked, by the file's bytes, and what it tells.
#[derive(Clone, PartialEq, Eq, Debug)]
pub struct AskedListingRun {
    /// `list`, else `read`.
    pub lists: bool,
    pub file: Vec<u8>,
    pub told: Told,
}

/// A bus log that was converted, and what the rules answered.
#[derive(Clone, PartialEq, Eq, Debug)]
pub struct AskedBusLog {
    pub table: Vec<u32>,
    pub interfaces: Vec<u8>,
    pub log: Vec<u8>,
    pub from: Cursor,
    /// How many words of output are lent.
    pub room: usize,
    pub converted: Converted,
}

/// What `canlog TABLE INTERFACES LOG` or `day TABLE INTERFACES LOG` was asked, by the files' bytes,
/// and what it tells.
#[derive(Clone, PartialEq, Eq, Debug)]
pub struct AskedBusLogRun {
    /// `day`, else `canlog`.
    pub plays: bool,
    pub table: Vec<u8>,
    pub interfaces: Vec<u8>,
    pub log: Vec<u8>,
    pub told: Told,
}

/// What was asked since this was called last.
pub fn asked() -> Vec<Case> {
    ASKED.take()
}

/// The panels that were.
pub fn panels() -> Vec<AskedPanel> {
    PANELS.take()
}

/// The panels' programs that were.
pub fn panel_runs() -> Vec<AskedPanelRun> {
    PANEL_RUNS.take()
}

/// The suppliers' logs that were held.
pub fn holds() -> Vec<AskedHold> {
    HOLDS.take()
}

/// The logs' programs that were.
pub fn hold_runs() -> Vec<AskedHoldRun> {
    HOLD_RUNS.take()
}

/// The tables that were listed.
pub fn lists() -> Vec<AskedList> {
    LISTS.take()
}

/// The texts that were read.
pub fn reads() -> Vec<AskedRead> {
    READS.take()
}

/// The programs that list and read.
pub fn listing_runs() -> Vec<AskedListingRun> {
    LISTING_RUNS.take()
}

/// The bus logs that were converted.
pub fn bus_logs() -> Vec<AskedBusLog> {
    BUS_LOGS.take()
}

/// The programs that convert and play them.
pub fn bus_log_runs() -> Vec<AskedBusLogRun> {
    BUS_LOG_RUNS.take()
}

fn note(table: &[u32], state: &[u32], room: usize, events: &[u32]) {
    let (table, state, events) = (table.to_vec(), state.to_vec(), events.to_vec());
    note_case(Case { table, state, room, events, outcomes: vec![] });
}

fn note_case(case: Case) {
    ASKED.with_borrow_mut(|asked| asked.push(case));
}

pub fn check(table: &[u32]) -> Check {
    note(table, &[], 0, &[]);
    crate::check(table)
}

pub fn fresh(table: &[u32], state: &mut [u32]) -> u32 {
    note(table, state, 0, &[]);
    crate::fresh(table, state)
}

pub fn check_state(table: &[u32], state: &[u32]) -> u32 {
    note(table, state, 0, &[]);
    crate::check_state(table, state)
}

pub fn step(
    table: &[u32],
    state: &mut [u32],
    trace: &mut [u32],
    event: u32,
    outcomes: &[u32],
) -> Stepped {
    note_case(Case {
        table: table.to_vec(),
        state: state.to_vec(),
        room: trace.len(),
        events: vec![event],
        outcomes: vec![outcomes.to_vec()],
    });
    crate::step(table, state, trace, event, outcomes)
}

/// Noted like an event's call; its plays are asked for with every case's.
pub fn play(table: &[u32], state: &mut [u32], trace: &mut [u32], events: &[u32]) -> Played {
    note(table, state, trace.len(), events);
    crate::play(table, state, trace, events)
}

/// A program's run: from a fresh state, with B trace words lent and, by `outcomes`, to each event
/// its outcomes.
fn note_files(table: &[u8], events: &[u8], outcomes: Vec<Vec<u32>>) {
    let (words, events) = (program::words(table), program::words(events));
    let (mut state, mut room) = (vec![], 0);
    if let Ok((shape, b)) = accept(&words) {
        (state, room) = (vec![0; state_length(&shape)], b);
        crate::fresh(&words, &mut state);
    }
    note_case(Case { table: words, state, room, events, outcomes });
}

pub fn printed(table: &[u8], events: &[u8]) -> String {
    note_files(table, events, vec![]);
    program::printed(table, events)
}

/// The outcomes' file is the bytes of one list of words for each event, each behind its length.
pub fn printed_with(table: &[u8], events: &[u8], outcomes: &[&[u32]]) -> String {
    note_files(table, events, outcomes.iter().map(|lent| lent.to_vec()).collect());
    let counted = outcomes.iter().flat_map(|lent| [&[lent.len() as u32][..], lent].concat());
    let file: Vec<u8> = counted.flat_map(u32::to_be_bytes).collect();
    program::printed_with(table, events, &file)
}

pub fn played(table: &[u8], events: &[u8]) -> String {
    note_files(table, events, vec![]);
    program::played(table, events)
}

pub fn cost(table: &[u8], events: &[u8]) -> String {
    note_files(table, events, vec![]);
    program::cost(table, events)
}

/// Noted as a panel, and as a case that has its table and state.
pub fn panel(operator: u32, table: &[u32], state: &[u32], words: &[u32], room: &mut [u8]) -> Panel {
    note(table, state, 0, &[]);
    let lent = room.to_vec();
    let laid = crate::panel(operator, table, state, words, room);
    let (table, state, words) = (table.to_vec(), state.to_vec(), words.to_vec());
    let asked = AskedPanel { operator, table, state, words, lent, laid, room: room.to_vec() };
    PANELS.with_borrow_mut(|panels| panels.push(asked));
    laid
}

/// What the panel's program prints, or the answer it is refused by.
pub fn panel_run(operator: u32, table: &[u8], events: &[u8], follow: bool) -> Result<String, u32> {
    note_files(table, events, vec![]);
    let printed =
        program::panel(operator, table, events, follow).map_err(|refused| match refused {
            NoPanel::Operator => 9,
            NoPanel::Table { .. } => 1,
            NoPanel::Closed | NoPanel::Unable(_) => panic!("memory takes it"),
        });
    let (table, events, asked) = (table.to_vec(), events.to_vec(), printed.clone());
    let asked = AskedPanelRun { operator, table, events, follow, printed: asked };
    PANEL_RUNS.with_borrow_mut(|runs| runs.push(asked));
    printed
}

/// Noted as a hold, and as a case that has its step.
pub fn hold(
    table: &[u32],
    state: &mut [u32],
    trace: &mut [u32],
    outcomes: &[u32],
    event: u32,
    theirs: &[u32],
    their_state: &[u32],
) -> Held {
    let (before, lent) = (state.to_vec(), trace.to_vec());
    let held = crate::hold(table, state, trace, outcomes, event, theirs, their_state);
    note_case(Case {
        table: table.to_vec(),
        state: before.clone(),
        room: lent.len(),
        events: vec![event],
        outcomes: vec![outcomes.to_vec()],
    });
    let asked = AskedHold {
        table: table.to_vec(),
        state: before,
        trace: lent,
        outcomes: outcomes.to_vec(),
        event,
        theirs: theirs.to_vec(),
        their_state: their_state.to_vec(),
        held: held.clone(),
        after: state.to_vec(),
        room: trace.to_vec(),
    };
    HOLDS.with_borrow_mut(|holds| holds.push(asked));
    held
}

/// What the log's program tells.
pub fn hold_run(table: &[u8], events: &[u8], log: &[u8], all: bool) -> HoldTold {
    note_files(table, events, vec![]);
    let told = program::hold(table, events, log, all);
    let (table, events, log) = (table.to_vec(), events.to_vec(), log.to_vec());
    let asked = AskedHoldRun { table, events, log, all, told: told.clone() };
    HOLD_RUNS.with_borrow_mut(|runs| runs.push(asked));
    told
}

pub fn list(table: &[u32], room: &mut [u8]) -> Listed {
    let lent = room.to_vec();
    let listed = crate::list(table, room);
    let asked = AskedList { table: table.to_vec(), lent, listed, room: room.to_vec() };
    LISTS.with_borrow_mut(|lists| lists.push(asked));
    listed
}

pub fn read(text: &[u8], room: &mut [u32]) -> Read {
    let lent = room.to_vec();
    let read = crate::read(text, room);
    let asked = AskedRead { text: text.to_vec(), lent, read, room: room.to_vec() };
    READS.with_borrow_mut(|reads| reads.push(asked));
    read
}

/// What the listing's program tells.
pub fn list_run(table: &[u8]) -> Told {
    noted_run(true, table, listing_run::list(table))
}

/// What the reading's program tells.
pub fn read_run(text: &[u8]) -> Told {
    noted_run(false, text, listing_run::read(text))
}

fn noted_run(lists: bool, file: &[u8], told: Told) -> Told {
    let asked = AskedListingRun { lists, file: file.to_vec(), told: told.clone() };
    LISTING_RUNS.with_borrow_mut(|runs| runs.push(asked));
    told
}

pub fn convert(
    table: &[u32],
    interfaces: &[u8],
    log: &[u8],
    from: Cursor,
    room: usize,
) -> Converted {
    let converted = crate::convert(table, interfaces, log, from, room);
    let (table, interfaces, log) = (table.to_vec(), interfaces.to_vec(), log.to_vec());
    let asked = AskedBusLog { table, interfaces, log, from, room, converted: converted.clone() };
    BUS_LOGS.with_borrow_mut(|logs| logs.push(asked));
    converted
}

/// What the program tells that converts a bus log.
pub fn canlog_run(table: &[u8], interfaces: &[u8], log: &[u8]) -> Told {
    noted_log(false, table, interfaces, log, buslog_run::canlog(table, interfaces, log))
}

/// What the program tells that plays one.
pub fn day_run(table: &[u8], interfaces: &[u8], log: &[u8]) -> Told {
    noted_log(true, table, interfaces, log, buslog_run::day(table, interfaces, log))
}

fn noted_log(plays: bool, table: &[u8], interfaces: &[u8], log: &[u8], told: Told) -> Told {
    let (table, interfaces, log) = (table.to_vec(), interfaces.to_vec(), log.to_vec());
    let asked = AskedBusLogRun { plays, table, interfaces, log, told: told.clone() };
    BUS_LOG_RUNS.with_borrow_mut(|runs| runs.push(asked));
    told
}

pub fn result_words(case: &Case) -> Vec<u32> {
    note_case(case.clone());
    stream::result_words(case)
}

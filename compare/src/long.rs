//! `compare long`: files of more than two of the program's blocks, the whole output byte for byte.
//!
//! The program reads its events block by block, and no contract says what its outermost calls do between two blocks. Here
//! the state moves all the time, and a program that starts a block from another state than the last one left prints
//! something else: that is seen of each file before the program is run on it.

mod panels;

use second::cases::draft::Draft;
use second::cases::prng::Prng;
use second::cases::sequences::sequence;
use second::cases::tables::{Plan, grow};
use second::program::{cost, played, printed};
use second::words::Table;

use crate::bench::{MARKED, example, marked_run};
use crate::kind::{Kind, Log};
use crate::programs::{Program, bytes};

/// The events of one of the program's blocks, which has 65,536 bytes.
const BLOCK: usize = 16_384;
/// So many events come back to the same few things.
const PIECE: usize = 400;
const REFUSED_PERCENT: usize = 6;
const SEED: u64 = 20_261_115;

/// A table, how many events to send it, and how many bytes stand past the last.
struct Long {
    name: &'static str,
    draft: Draft,
    events: usize,
    past: usize,
}

pub fn long(name: &str, folder: &str, command: &[&str]) -> Result<(), String> {
    let program = Program::new(folder, command)?;
    let mut rng = Prng::new(SEED);
    let [truck, _] = example("truck").ok_or("examples/truck is missing")?;
    let plan = Plan::rich(&mut rng);
    let generated = grow(&mut rng, plan);
    let files = [
        Long { name: "marked table", draft: draft(&MARKED)?, events: 3 * BLOCK, past: 0 },
        Long { name: "truck", draft: draft(&truck)?, events: 2 * BLOCK + 9_001, past: 3 },
        Long { name: "generated table", draft: generated, events: 2 * BLOCK + 1, past: 2 },
    ];
    for Long { name: of, draft, events: count, past } in files {
        let (table, events) = (draft.words(), sent(&mut rng, &draft, count));
        let compared = compare(name, &program, &table, events, past);
        let count = compared.map_err(|what| format!("{of}: {what}"))?;
        println!("{name}, {of}: {count} events: the same bytes");
    }
    match name {
        "cost" => costliest_in_the_middle(&program),
        "panel" => panels::kept_over_blocks(&program),
        _ => Ok(()),
    }
}

/// One file; gives how many events were sent.
fn compare(
    name: &str,
    program: &Program,
    table: &[u32],
    mut events: Vec<u32>,
    past: usize,
) -> Result<usize, String> {
    let kinds = match name {
        "run" => shows(table, &events).map(|()| vec![Kind::Run])?,
        "play" => {
            // A refused event would end the play.
            events = taken(table, &events);
            play_shows(table, &events).map(|()| vec![Kind::Play])?
        }
        "cost" => cost_shows(table, &events).map(|()| vec![Kind::Cost])?,
        "panel" => panels::shown(table, &mut events)?,
        "hold" => shows(table, &events).map(|()| logs(events.len()))?,
        _ => return Err(format!("neither run nor play nor cost nor panel nor hold: {name}")),
    };
    moves(table, &events)?;
    let (table, bytes) = (bytes(table, 0), bytes(&events, past));
    kinds.iter().try_for_each(|kind| program.compare(kind, &table, &bytes))?;
    Ok(events.len())
}

/// The logs that such a file is held against: its own print, of which a program that forgets its state at a block says that an event
/// parts; with words changed about the blocks' ends, of the events that are held up to the first or to the last; and without the newline
/// of its last line.
fn logs(events: usize) -> Vec<Kind> {
    let changed = Log::Changed(vec![BLOCK - 1, BLOCK, 2 * BLOCK - 1, 2 * BLOCK, events - 1]);
    let last = Log::Changed(vec![2 * BLOCK]);
    let logs =
        [(Log::Own, false), (Log::Own, true), (changed, true), (last, false), (Log::Cut(1), false)];
    logs.map(|(log, all)| Kind::Hold { log, all }).into()
}

fn draft(table: &[u32]) -> Result<Draft, String> {
    Ok(Draft::of(&Table::of(table).ok_or("not a table")?))
}

fn sent(rng: &mut Prng, draft: &Draft, count: usize) -> Vec<u32> {
    let mut events = vec![];
    while events.len() < count {
        let piece = PIECE.min(count - events.len());
        events.extend(
            sequence(rng, draft, piece, REFUSED_PERCENT).into_iter().map(|(event, _)| event),
        );
    }
    events
}

/// Fails where fewer than half of the events change the state.
fn moves(table: &[u32], events: &[u32]) -> Result<(), String> {
    let mut state = vec![0; herringcart::state_words(table)];
    let mut trace = vec![0; second::check(table).b];
    second::fresh(table, &mut state);
    let mut moving = 0;
    for &event in events {
        let before = state.clone();
        second::step(table, &mut state, &mut trace, event, &[]);
        moving += usize::from(state != before);
    }
    if 2 * moving < events.len() {
        return Err(format!("only {moving} of {} events change the state", events.len()));
    }
    Ok(())
}

/// Fails where a block that starts from the fresh state prints what it prints in its place.
fn shows(table: &[u32], events: &[u32]) -> Result<(), String> {
    let lines = |events: &[u32]| printed(&bytes(table, 0), &bytes(events, 0));
    let whole = lines(events);
    for (place, block) in events.chunks(BLOCK).enumerate().skip(1) {
        let before = lines(&events[..place * BLOCK]).len();
        if whole[before..].starts_with(&lines(block)) {
            return Err(format!("block {place} does not show the state it starts from"));
        }
    }
    Ok(())
}

/// Fails where every block costs from the fresh state what it costs in its place: few events cost more or less by the state
/// that a block starts from, so one block is enough. The numbers of the events are left out, for a block's own start at 0.
fn cost_shows(table: &[u32], events: &[u32]) -> Result<(), String> {
    let costs = |events: &[u32]| -> Vec<String> {
        let text = cost(&bytes(table, 0), &bytes(events, 0));
        let lines = text.lines().filter_map(|line| line.strip_prefix("event "));
        lines.map(|line| line.trim_start_matches(char::is_numeric).into()).collect()
    };
    let whole = costs(events);
    let mut blocks = whole.chunks(BLOCK).zip(events.chunks(BLOCK)).skip(1);
    if blocks.any(|(whole, block)| whole != costs(block)) {
        return Ok(());
    }
    Err("no block shows the state it starts from".into())
}

/// Three blocks of ticks with one request in the second: a program that forgets at a block what was largest so far, or that keeps what
/// the first block had, names another event at its end.
fn costliest_in_the_middle(program: &Program) -> Result<(), String> {
    let mut events = vec![0; 2 * BLOCK + 1];
    events[BLOCK + 7] = marked_run()[0];
    let (table, events) = (bytes(&MARKED, 0), bytes(&events, 0));
    let named =
        format!("most trace 3 event {0} bound 3\nmost visits 1 event {0} bound 508\n", BLOCK + 7);
    if !cost(&table, &events).ends_with(&named) {
        return Err("the second program names another event as the costliest".into());
    }
    program.compare(&Kind::Cost, &table, &events)?;
    println!("cost, the costliest event in the middle: the same bytes");
    Ok(())
}

/// Those of the events that are answered 0, which goes by table and event alone; as many as two blocks and the start of a third need.
fn taken(table: &[u32], events: &[u32]) -> Vec<u32> {
    let mut state = vec![0; herringcart::state_words(table)];
    let mut trace = vec![0; second::check(table).b];
    second::fresh(table, &mut state);
    let mut good =
        |event: &u32| second::step(table, &mut state, &mut trace, *event, &[]).answer == 0;
    let good: Vec<u32> = events.iter().copied().filter(|event| good(event)).collect();
    let length = events.len().max(2 * BLOCK + 1);
    good.iter().copied().cycle().take(length).collect()
}

/// Fails where a play that forgets its state at the start of a block prints what it should.
fn play_shows(table: &[u32], events: &[u32]) -> Result<(), String> {
    let lines = |events: &[u32]| played(&bytes(table, 0), &bytes(events, 0));
    let traced = |text: &str| -> Vec<String> {
        text.lines().filter(|line| line.starts_with("trace ")).map(String::from).collect()
    };
    let whole = lines(events);
    for place in (BLOCK..events.len()).step_by(BLOCK) {
        let (before, rest) = (lines(&events[..place]), lines(&events[place..]));
        let forgetful = [traced(&before), traced(&rest)].concat();
        // The last lines before `taken` are the state's; the count of a forgetful play is right.
        let state = |text: &str| -> Vec<String> {
            let counts = ["trace ", "taken ", "visits "];
            let last = |line: &&str| !counts.iter().any(|count| line.starts_with(count));
            text.lines().filter(last).map(String::from).collect()
        };
        if forgetful == traced(&whole) && state(&rest) == state(&whole) {
            return Err(format!("the block at {place} does not show the state it starts from"));
        }
    }
    Ok(())
}

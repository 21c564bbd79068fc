//! What must hold of every generated case, and what it met.

use super::choices::Choices;
use super::clears::Clears;
use super::coverage::{self, Met, Row};
use super::heard::{self, Heards};
use super::levels::{self, Levels};
use super::log::{Entry, hold, run};
use super::skipping::Skipping;
use super::traces::evaluated;
use super::visits::{Visited, try_refusals};
use super::walk::{By, Walk};
use super::{cost, demand3, failing, held, held_run, listed, nesting, panel, panel_others};
use super::{play, played, ports, reach};
use crate::cases::draft::Draft;
use crate::cases::states::fresh_state;
use crate::cases::{Case, Known, Made};
use crate::stream::STATE_FILL;
use crate::words::*;
use crate::{check, check_state, fresh, state};

/// Tries everything on one case; gives what it met.
pub fn try_case(made: &Made) -> Result<Met, String> {
    let (case, known) = (&made.case, &made.known);
    let mut met: Met = known.note.map(Row::Special).into_iter().collect();
    let checked = check(&case.table);
    met.insert(Row::Reason(checked.reason));
    // Before anything is run of it, for a run of lists that nest without end would not end.
    nesting::try_table(&case.table, checked, &mut met)?;
    let given = (checked.reason, checked.place);
    hold(known.check.is_none_or(|check| check == given), || {
        format!("check gives {checked:?}, made as {:?}", known.check)
    })?;
    hold(known.b.is_none_or(|b| b == checked.b), || format!("B {}", checked.b))?;
    try_fresh(case, checked.reason)?;
    try_state(case, known, checked.reason)?;
    met.extend(known.misfit.map(Row::unfit));
    let log = run(case);
    for (number, entry) in log.iter().enumerate() {
        let expected = known.answers.as_ref().map(|answers| answers[number]);
        hold(expected.is_none_or(|expected| expected == entry.answer), || {
            format!("event {number} answered {}, made for {expected:?}", entry.answer)
        })?;
        met.insert(Row::Answer(entry.answer));
    }
    failing::try_answers(case, checked, &log, &mut met)?;
    try_refusals(&log, &mut met)?;
    levels::meet_refused(&case.table, checked, &mut met)?;
    reach::try_reach(&case.table, checked, &mut met)?;
    nesting::try_runs(case, &log, &mut met)?;
    let (good, calls_good) = with_good_calls(case, &log);
    play::try_plays(&good, checked.b, &calls_good, &mut met)?;
    try_panels(case, &log, &mut met)?;
    held::try_holds(case, &log, &mut met)?;
    listed::try_listing(case, checked.reason, &mut met)?;
    if checked.reason == 0 {
        try_accepted(made, checked.b, &log, &mut met)?;
        failing::try_good(&read(&case.table), &good, &log, &calls_good, &mut met)?;
        try_days(made, &good, checked.b, &calls_good, &mut met)?;
    } else {
        played::try_reason(case, checked, &mut met)?;
        cost::try_reason(case, checked)?;
        panel::try_reason(case, given, &mut met)?;
        held_run::try_reason(case, given, &mut met)?;
    }
    Ok(met)
}

/// Every operator's panels; or none, of a bad table or an unfit state.
fn try_panels(case: &Case, log: &[Entry], met: &mut Met) -> Result<(), String> {
    match check_state(&case.table, &case.state) {
        0 => {
            let draft = read(&case.table);
            panel::try_panels(case, &draft, log, met)?;
            panel_others::try_others(case, &draft, log, met)
        }
        answer => panel::try_bad(case, answer, met),
    }
}

/// The case without outcomes and its log, as plays have it: all calls are good.
fn with_good_calls(case: &Case, log: &[Entry]) -> (Case, Vec<Entry>) {
    let good = case.lending_none();
    let lends = log.iter().any(|entry| !entry.outcomes.is_empty());
    let calls_good = if lends { run(&good) } else { log.to_vec() };
    (good, calls_good)
}

/// Plays from a fresh state, on a table that stands.
fn try_days(
    made: &Made,
    good: &Case,
    b: usize,
    log: &[Entry],
    met: &mut Met,
) -> Result<(), String> {
    if !made.known.fresh || good.room < b {
        return Ok(());
    }
    let draft = read(&good.table);
    play::try_struck_out(good, &draft, b, log, met)?;
    cost::try_cost(good, draft.rules.len(), b, log)?;
    panel::try_runs(good, &draft, log, met)?;
    held_run::try_logs(good, log, met)?;
    played::try_day(good, &draft, log, met)
}

/// A case whose table stands.
fn try_accepted(made: &Made, b: usize, log: &[Entry], met: &mut Met) -> Result<(), String> {
    let (case, known, draft) = (&made.case, &made.known, read(&made.case.table));
    if known.fit {
        meet_fit(&draft, &case.state, met);
    }
    try_table(&draft, b, met)?;
    try_log(case, &draft, log, b, met)?;
    levels::try_equalities(case, &draft, log, met)?;
    if known.fresh && case.room >= b {
        demand3::try_countdowns(&draft, log, met)?;
        demand3::try_struck_out(case, &draft, log, met)?;
    }
    Ok(())
}

fn read(words: &[u32]) -> Draft {
    Draft::of(&Table::of(words).expect("an accepted table has its header"))
}

/// What let a state have and still fit.
fn meet_fit(draft: &Draft, state: &[u32], met: &mut Met) {
    let immediate = |port: &Port| port.kind == port::EVENT && port.deferred == 0;
    let mut ports = draft.ports.iter().zip(state);
    if ports.any(|(port, &word)| immediate(port) && PortState::of(word).marked == 1) {
        met.insert(Row::Special(coverage::FITS_MARKED_IMMEDIATE));
    }
    heard::meet_fit(draft, state, met);
}

fn try_fresh(case: &Case, reason: u32) -> Result<(), String> {
    let filled = vec![STATE_FILL; case.state.len()];
    let mut made = filled.clone();
    let answer = fresh(&case.table, &mut made);
    let (expected, words) = match Table::of(&case.table) {
        Some(table) if reason == 0 && state::state_length(&table) == made.len() => {
            (0, fresh_state(&Draft::of(&table)))
        }
        _ => (if reason == 0 { 2 } else { 1 }, filled),
    };
    hold((answer, &made) == (expected, &words), || format!("fresh answered {answer}: {made:X?}"))
}

fn try_state(case: &Case, known: &Known, reason: u32) -> Result<(), String> {
    let fit = check_state(&case.table, &case.state);
    let expected = match reason {
        0 if known.fit => Some(0),
        0 => known.misfit.map(|_| 2),
        _ => Some(1),
    };
    hold(expected.is_none_or(|expected| expected == fit), || {
        format!("state answered {fit}, made as {:?}", known.misfit)
    })
}

/// The walk's cost agrees with the check's; the limits it reaches.
fn try_table(draft: &Draft, b: usize, met: &mut Met) -> Result<(), String> {
    hold(draft.b() == b, || format!("B is {b}, walked {}", draft.b()))?;
    if b == 4096 {
        met.insert(Row::Special(coverage::COST_4096));
    }
    let words = draft.words();
    let table = Table::of(&words).ok_or("no header")?;
    let full = |section: &Section| table.count(*section) == section.limits().1;
    met.extend(SECTIONS.into_iter().filter(full).map(Row::limit));
    Ok(())
}

fn try_log(
    case: &Case,
    draft: &Draft,
    log: &[Entry],
    b: usize,
    met: &mut Met,
) -> Result<(), String> {
    let mentions = &ports::mentions(draft);
    let skipping = Skipping { draft, mentions };
    let levels = Levels::of(draft, mentions);
    let mut clears = Clears::over(draft);
    let mut heards = Heards::over(draft);
    for (number, entry) in log.iter().enumerate() {
        if entry.answer != 0 {
            let unchanged = entry.before == entry.after && entry.trace.is_empty();
            hold(unchanged, || format!("refused event {number} changed something"))?;
            heard::meet_refused(draft, entry, met);
            continue;
        }
        hold(entry.trace.len() <= b, || format!("event {number} wrote past B"))?;
        hold(check_state(&case.table, &entry.after) == 0, || {
            format!("event {number} left a state that does not fit: {:X?}", entry.after)
        })?;
        let choices = Choices::of(draft, mentions, entry);
        let walk = Walk::over(draft, &choices, entry);
        let walk = walk.map_err(|what| format!("event {number}: {what}"))?;
        failing::meet(draft, entry, &walk, met);
        meet(draft, entry, &walk, b, met);
        levels.meet(entry, met);
        let visited = Visited { draft, mentions, entry, walk: &walk };
        let tried = reach::try_started(draft, entry)
            .and_then(|()| visited.try_visits(&choices, b, met))
            .and_then(|()| skipping.meet(entry, met))
            .and_then(|()| clears.follow(entry, &choices, met))
            .and_then(|()| heards.follow(entry, met));
        tried.map_err(|what| format!("event {number}: {what}"))?;
    }
    Ok(())
}

/// What a taken event met, read off its words.
fn meet(draft: &Draft, entry: &Entry, walk: &Walk, b: usize, met: &mut Met) {
    met.insert(Row::EventTaken(entry.event.kind));
    if b == 4096 && entry.trace.len() == b {
        met.insert(Row::Special(coverage::TRACE_FULL));
    }
    meet_lists(walk, met);
    for word in entry.trace.iter().map(|&word| TraceWord::of(word)) {
        let owner = |network: u32| draft.networks[network as usize].0.owner;
        let special = match (word.kind, word.b) {
            (item::START_TIMER, _) => coverage::TIMER_STARTED,
            (item::STOP_TIMER, _) => coverage::TIMER_STOPPED,
            (item::RULE, UNDEFINED) => coverage::UNDEFINED_ITEM,
            (item::NETWORK_REQUEST, _) if word.owner == PLATFORM && owner(word.a) != PLATFORM => {
                coverage::PLATFORM_ASKS
            }
            _ => continue,
        };
        met.insert(Row::Special(special));
    }
    for rule in evaluated(draft, entry) {
        meet_expression(draft, draft.rules[rule].expression as usize, met);
    }
    meet_turns(draft, entry, met);
}

fn meet_lists(walk: &Walk, met: &mut Met) {
    met.extend(walk.items.iter().map(|ran| Row::ItemRun(ran.item.kind)));
    let by = |wanted: By| {
        let lists = walk.lists.iter().filter(move |ran| ran.by == wanted);
        lists.map(|ran| ran.list).collect::<Vec<usize>>()
    };
    let (chosen, named) = (by(By::Choice), by(By::Name));
    if chosen.len() >= 2 {
        met.insert(Row::Special(coverage::TWO_CHOSEN));
    }
    if named.iter().any(|list| chosen.contains(list)) {
        met.insert(Row::Special(coverage::CHOSEN_AND_NAMED));
    }
}

fn meet_expression(draft: &Draft, number: usize, met: &mut Met) {
    let expression = draft.expressions[number];
    met.insert(Row::Evaluated(Condition::of(expression.word()).kind));
    expression.arguments().for_each(|argument| meet_expression(draft, argument, met));
}

fn meet_turns(draft: &Draft, entry: &Entry, met: &mut Met) {
    for (number, port) in draft.ports.iter().enumerate() {
        let value = |words: &[u32]| PortState::of(words[number]).value;
        let (before, after) = (value(&entry.before), value(&entry.after));
        if port.kind == port::TIMER && (before, after) == (timer::STARTED, timer::EXPIRED) {
            met.insert(Row::Special(coverage::TIMER_EXPIRED));
        }
    }
    for number in 0..draft.networks.len() {
        let (before, after) =
            (draft.network_in(&entry.before, number), draft.network_in(&entry.after, number));
        if before.state != after.state {
            met.insert(Row::NetworkTurn(before.state, after.state));
        }
        if entry.is_of(event::BUS_OFF, number) {
            meet_bus_off(draft.networks[number], before, after, met);
        }
    }
    for number in 0..draft.sources.len() {
        let (before, after) =
            (draft.source_in(&entry.before, number), draft.source_in(&entry.after, number));
        if before.status != after.status {
            met.insert(Row::SourceTurn(before.status, after.status));
        }
    }
}

fn meet_bus_off(
    (network, waits): (Network, Waits),
    before: NetworkState,
    after: NetworkState,
    met: &mut Met,
) {
    if before.state == after.state {
        met.insert(Row::BusOffIgnored(before.state));
        return;
    }
    if (before.counter, after.counter) == (255, 255) {
        met.insert(Row::Special(coverage::COUNTER_HELD));
    }
    if waits.l1 != waits.l2 {
        let short = after.counter <= network.threshold && after.remaining == waits.l1;
        let loaded = if short { coverage::L1_LOADED } else { coverage::L2_LOADED };
        met.insert(Row::Special(loaded));
    }
}

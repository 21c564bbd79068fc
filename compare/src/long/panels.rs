//! Panels on long files. A program that follows a panel keeps three things over its blocks: the state, the panel before and the
//! event's number; one that does not keeps the state and the newest step's words. Where one of them is forgotten at a block, it must
//! print something else.

use second::panel::View;
use second::words::Table;

use super::BLOCK;
use crate::bench::{MARKED, marked_run};
use crate::kind::{Kind, owners};
use crate::programs::{Program, bytes};

/// Changes nothing, and its step writes nothing.
const REFUSED: u32 = 0xFFFF_FFFF;

/// What a program may forget at the start of each block but the first.
#[derive(Clone, Copy, PartialEq, Eq, Debug)]
enum Forgets {
    Nothing,
    State,
    Number,
    /// Takes the fresh state's panel for the one before.
    PanelForFresh,
    /// Has none before, and prints what it sees first.
    PanelForNone,
    /// Takes what it sees first for the one before.
    PanelForFirst,
}

/// What an operator sees of a run: the words of its panel before any event, and after each.
struct Seen {
    fresh: Vec<u32>,
    after: Vec<Vec<u32>>,
}

impl Seen {
    /// From a fresh state; or from one at each block. By the library, which is faster: what comes of it is held against the second program.
    fn of(table: &[u32], view: &View, events: &[u32], anew: bool) -> Self {
        let mut fresh = vec![0; herringcart::state_words(table)];
        second::fresh(table, &mut fresh);
        let (mut state, mut trace) = (fresh.clone(), vec![0; second::check(table).b]);
        let mut after = |(number, &event): (usize, &u32)| {
            if anew && number % BLOCK == 0 {
                state.copy_from_slice(&fresh);
            }
            let answer = herringcart::take_event(table, &mut state, &mut trace, &[], event);
            view.words(&state, &trace[..answer.count])
        };
        let after = events.iter().enumerate().map(&mut after).collect();
        Seen { fresh: view.words(&fresh, &[]), after }
    }

    /// The panels that are printed where they are followed, each with its event's number.
    fn followed(&self, forgets: Forgets) -> Vec<(usize, &[u32])> {
        let (mut printed, mut before) = (vec![], Some(&self.fresh));
        for (number, now) in self.after.iter().enumerate() {
            if number % BLOCK == 0 && number > 0 {
                before = match forgets {
                    Forgets::PanelForFresh => Some(&self.fresh),
                    Forgets::PanelForNone => None,
                    Forgets::PanelForFirst => Some(now),
                    _ => before,
                };
            }
            if before != Some(now) {
                let told = if forgets == Forgets::Number { number % BLOCK } else { number };
                printed.push((told, &now[..]));
            }
            before = Some(now);
        }
        printed
    }
}

/// The operator of the most things, and another, each followed and not. The events at the blocks' starts are made to be such that each
/// thing that the first one's program could forget there shows: at the second block one that leaves its panel, at the third one that
/// changes it.
pub fn shown(table: &[u32], events: &mut [u32]) -> Result<Vec<Kind>, String> {
    let read = Table::of(table).ok_or("not a table")?;
    let state = vec![0; herringcart::state_words(table)];
    let (owners, others) = owners(table);
    let things = |operator: &u32| View::of(*operator, &read).words(&state, &[]).len();
    let operator = owners.iter().copied().max_by_key(things).ok_or("nobody owns anything")?;
    let strangers = owners.iter().chain(&others).copied().filter(|&number| number != operator);
    let view = View::of(operator, &read);
    events[BLOCK - 1..=BLOCK].fill(REFUSED);
    change_at(table, &view, events, 2 * BLOCK)?;
    shows(table, operator, events)?;
    let asked = [operator].into_iter().chain(strangers.take(1));
    Ok(asked.flat_map(|number| [true, false].map(|follow| Kind::panel(number, follow))).collect())
}

/// Puts an event at a place that changes the panel there, one of those that are sent, behind a refused one, so that it is not by the words
/// before it that the panel changes.
fn change_at(table: &[u32], view: &View, events: &mut [u32], place: usize) -> Result<(), String> {
    events[place - 1] = REFUSED;
    let mut state = vec![0; herringcart::state_words(table)];
    let mut trace = vec![0; second::check(table).b];
    second::fresh(table, &mut state);
    for &event in &events[..place] {
        herringcart::take_event(table, &mut state, &mut trace, &[], event);
    }
    let before = view.words(&state, &[]);
    let mut changes = |event: &u32| {
        let mut state = state.clone();
        let answer = herringcart::take_event(table, &mut state, &mut trace, &[], *event);
        view.words(&state, &trace[..answer.count]) != before
    };
    let found = events.iter().copied().find(|event| changes(event));
    events[place] = found.ok_or("no event changes the panel at a block's start")?;
    Ok(())
}

/// Fails where a program that forgets something at a block prints what it should.
fn shows(table: &[u32], operator: u32, events: &[u32]) -> Result<(), String> {
    let view = View::of(operator, &Table::of(table).ok_or("not a table")?);
    let seen = Seen::of(table, &view, events, false);
    let right = seen.followed(Forgets::Nothing);
    let text = |(number, words): &(usize, &[u32])| format!("event {number}\n{}", view.lines(words));
    let printed = Kind::panel(operator, true).expected(&bytes(table, 0), &bytes(events, 0));
    if right.iter().map(text).collect::<String>() != printed.lines {
        return Err("the second program follows other panels".into());
    }
    let anew = Seen::of(table, &view, events, true);
    let hidden = [
        (&anew, Forgets::State),
        (&seen, Forgets::Number),
        (&seen, Forgets::PanelForFresh),
        (&seen, Forgets::PanelForNone),
        (&seen, Forgets::PanelForFirst),
    ];
    match hidden.iter().find(|(seen, forgets)| seen.followed(*forgets) == right) {
        None => Ok(()),
        Some((_, forgets)) => {
            Err(format!("a program that forgets at a block does not show: {forgets:?}"))
        }
    }
}

const THINGS: &str = "port 0 81400000\nport 1 80800000\nnetwork 0 98000000\n";
const FIRST: &str = "port 0 81400000\nport 1 00000000\nnetwork 0 80000000\n\
                     trace F1000000\ntrace 41000002\ntrace 01001234\n";

/// The marked request at the very start and then ticks into the third block: a panel that is not followed shows the state of the first.
/// And the request as the last event of the second block, with which the file ends: the words of its step are the newest, though the
/// program reads once more and finds nothing.
pub fn kept_over_blocks(program: &Program) -> Result<(), String> {
    let mut first = vec![0; 2 * BLOCK + 1];
    first[0] = marked_run()[0];
    let mut last = vec![0; 2 * BLOCK];
    last[2 * BLOCK - 1] = marked_run()[0];
    for (events, panel) in [(first, THINGS), (last, FIRST)] {
        let (table, events) = (bytes(&MARKED, 0), bytes(&events, 0));
        let [not, followed] = [false, true].map(|follow| Kind::panel(1, follow));
        if not.expected(&table, &events).lines != panel {
            return Err("the second program shows another panel at the end".into());
        }
        program.compare(&not, &table, &events)?;
        program.compare(&followed, &table, &events)?;
    }
    println!("panel, a state and a step's words kept over blocks: the same bytes");
    Ok(())
}

//! `compare cases`: the second program's generator through both sides.

use second::cases::{Case, Cases};
use second::testing;
use second::testing::coverage::Coverage;

use crate::differ::buslogs::AskedLog;
use crate::differ::holds::Recorded;
use crate::differ::listings::{Asked, Listings};
use crate::differ::panels::Shown;
use crate::differ::{Compared, Difference, Words, bound, compare};
use crate::nearest::Nearest;
use crate::number;
use crate::rows::Of;
use crate::shrink::{
    smallest_difference, smallest_hold, smallest_listing, smallest_log, smallest_panel,
};
use crate::subject::{Proved, Subject};
use crate::verdicts::Verdicts;

/// What the cases of a seed have shown.
struct Ran {
    coverage: Coverage,
    nearest: Nearest,
    cases: usize,
    events: usize,
    verdicts: Verdicts,
    listings: Listings,
}

impl Ran {
    fn none() -> Self {
        Ran {
            coverage: Coverage::new(),
            nearest: Nearest::default(),
            cases: 0,
            events: 0,
            verdicts: Verdicts::default(),
            listings: Listings::default(),
        }
    }

    fn add(&mut self, more: Ran) {
        self.coverage.add(&more.coverage);
        self.nearest.add(more.nearest);
        self.cases += more.cases;
        self.events += more.events;
        self.verdicts += more.verdicts;
        self.listings += more.listings;
    }
}

/// Seeds, each with how many of its first cases are run; two seeds at a time.
pub fn cases(words: &[&str]) -> Result<(), String> {
    let mut ran = Ran::none();
    two_at_a_time(&seeds(words)?, run_seed)?.into_iter().for_each(|more| ran.add(more));
    let Ran { coverage, nearest, cases, events, verdicts, listings } = ran;
    println!("cases  coverage\n{}", Of::Cases.table(&coverage));
    println!("{cases} cases, {events} events: no difference\n{nearest}\n{verdicts}\n{listings}");
    Of::Cases.all_met(&coverage)?;
    verdicts.all_met()?;
    // A text that is no listing is not asked for here, but by `compare listings`.
    listings.listed_met()
}

fn run_seed(&(seed, count): &(u64, usize)) -> Result<Ran, String> {
    let mut ran = Ran { cases: count, ..Ran::none() };
    for (place, made) in Cases::new(seed).take(count).enumerate() {
        let name = || format!("case {place} of seed {seed}");
        let Compared { visited, held, listed } =
            compare(&Proved, &made.case).map_err(|_| told(&name(), &made.case))?;
        ran.nearest.meet(visited, name);
        ran.verdicts += held;
        ran.listings += listed;
        testing::generated(&made, &mut ran.coverage)
            .map_err(|what| format!("{}, second program: {what}", name()))?;
        ran.events += made.case.events.len();
    }
    Ok(ran)
}

/// Seeds off the command line, each with its count.
pub fn seeds(words: &[&str]) -> Result<Vec<(u64, usize)>, String> {
    let (pairs, rest) = words.as_chunks::<2>();
    if !rest.is_empty() {
        return Err("each seed needs its count".into());
    }
    pairs.iter().map(|[seed, count]| Ok((number(seed)?, number(count)?))).collect()
}

/// What is done with each, in their order, two of them at a time, for the machine has two cores; or what is wrong with the first that
/// fails. A panic goes on.
pub fn two_at_a_time<W: Sync, R: Send>(
    works: &[W],
    done: impl Fn(&W) -> Result<R, String> + Sync,
) -> Result<Vec<R>, String> {
    let mut all = vec![];
    for works in works.chunks(2) {
        let two: Vec<Result<R, String>> = std::thread::scope(|scope| {
            let done = &done;
            let threads: Vec<_> =
                works.iter().map(|work| scope.spawn(move || done(work))).collect();
            let end = |panic| std::panic::resume_unwind(panic);
            threads.into_iter().map(|thread| thread.join().unwrap_or_else(end)).collect()
        });
        for one in two {
            all.push(one?);
        }
    }
    Ok(all)
}

/// A case that differs, made as small as it goes, with what each side says. Where a panel, a supplier's recording or a listing differs,
/// that is told without its case.
pub fn told(name: &str, case: &Case) -> String {
    told_of(&Proved, name, case)
}

pub fn told_of(subject: &impl Subject, name: &str, case: &Case) -> String {
    match compare(subject, case).err() {
        Some(Difference { panel: Some(shown), .. }) => return told_panel(subject, name, &shown),
        Some(Difference { hold: Some(recorded), .. }) => {
            return told_hold(subject, name, &recorded);
        }
        Some(Difference { listing: Some(asked), .. }) => {
            return told_listing(subject, name, &asked);
        }
        _ => {}
    }
    let (case, difference) = smallest_difference(subject, case);
    let Case { table, state, room, events, .. } = &case;
    format!(
        "{name}, made smaller:\ntable: {}\nstate: {}\nroom: {room}\nevents: {}\noutcomes: {}\nvisits: {}\n{difference}",
        Words(table),
        Words(state),
        Words(events),
        outcomes(&case),
        visits(&case)
    )
}

/// A panel that differs, made as small as it goes, with what each side says.
pub fn told_panel(subject: &impl Subject, name: &str, shown: &Shown) -> String {
    let (Shown { operator, table, state, words, room }, difference) =
        smallest_panel(subject, shown);
    format!(
        "{name}, a panel, made smaller:\noperator: {operator}\ntable: {}\nstate: {}\ntrace words: {}\nbytes of room: {}\n{difference}",
        Words(&table),
        Words(&state),
        Words(&words),
        room.len()
    )
}

/// A supplier's recording that differs, made as small as it goes, with what each side says.
pub fn told_hold(subject: &impl Subject, name: &str, recorded: &Recorded) -> String {
    let (recorded, difference) = smallest_hold(subject, recorded);
    let Recorded { table, state, trace, outcomes, event, theirs, their_state } = recorded;
    format!(
        "{name}, a recording held, made smaller:\ntable: {}\nstate: {}\nroom: {}\nevent: {event:08X}\noutcomes: {}\n\
         supplier's trace: {}\nsupplier's state: {}\n{difference}",
        Words(&table),
        Words(&state),
        trace.len(),
        Words(&outcomes),
        Words(&theirs),
        Words(&their_state)
    )
}

/// A table listed or a text read that differs, made as small as it goes, with what each side says.
pub fn told_listing(subject: &impl Subject, name: &str, asked: &Asked) -> String {
    let (asked, difference) = smallest_listing(subject, asked);
    let what = if matches!(asked, Asked::List { .. }) { "a table listed" } else { "a text read" };
    format!("{name}, {what}, made smaller:\n{asked}\n{difference}")
}

/// A bus log that differs, made as small as it goes, with what each side says.
pub fn told_log(subject: &impl Subject, name: &str, asked: &AskedLog) -> String {
    let (asked, difference) = smallest_log(subject, asked);
    format!("{name}, a bus log, made smaller:\n{asked}\n{difference}")
}

/// What each event visits by the second program, and the most that the table allows.
fn visits(case: &Case) -> String {
    let (mut state, mut trace) = (case.state.clone(), vec![0; case.room]);
    let mut visits = |number: usize| {
        let (event, lent) = (case.events[number], case.lent(number));
        second::step(&case.table, &mut state, &mut trace, event, lent).visits.to_string()
    };
    let visits: Vec<_> = (0..case.events.len()).map(&mut visits).collect();
    format!("{} by the second program, each at most {}", visits.join("; "), bound(&case.table))
}

/// The outcomes that each event lends, event after event.
fn outcomes(case: &Case) -> String {
    let lent = (0..case.events.len()).map(|number| match case.lent(number) {
        [] => "none".into(),
        words => Words(words).to_string(),
    });
    lent.collect::<Vec<_>>().join("; ")
}

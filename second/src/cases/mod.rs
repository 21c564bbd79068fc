//! Generated cases: the same for the same seed, and what their making says of
//! their outcome.

pub mod agreement;
pub mod buslogs;
pub mod cleared;
pub mod draft;
pub mod failing;
pub mod heard;
pub mod lent;
pub mod levels;
pub mod listed;
pub mod neighbours;
pub mod numbers;
pub mod outcomes;
pub mod pairs;
pub mod prng;
pub mod refused;
pub mod senders;
pub mod sequences;
pub mod states;
pub mod tables;
pub mod turned;
pub mod unreached;
pub mod visited;
pub mod ways;
pub mod wide;

use cleared::clearing;
use draft::{Draft, SEVEN};
use failing::failing;
use heard::hearing;
use levels::leveling;
use numbers::renumbered;
use outcomes::{Lending, answer_with, some_edition, strew_aborts};
use prng::Prng;
use refused::Refused;
use sequences::sequence;
use states::{MISFITS, Misfit, fit_state, fresh_state, unfit_state};
use tables::{PADDING, Plan, fill_items, fill_rules, grow, pad};
use unreached::{unreached, unreached_and_more, unreached_of_many, unreached_ring};
use visited::visiting;
use ways::with_ways;
use wide::widen;

use crate::check;
use crate::words::*;

/// What another program is to be compared on.
#[derive(Clone, PartialEq, Eq, Debug, Default)]
pub struct Case {
    pub table: Vec<u32>,
    /// The state to start from, of any length.
    pub state: Vec<u32>,
    /// How many trace words are lent.
    pub room: usize,
    pub events: Vec<u32>,
    /// The outcomes that each event's call lends; none are lent where there is no entry. Plays of
    /// the events lend none.
    pub outcomes: Vec<Vec<u32>>,
}

impl Case {
    /// The outcomes lent to the event of this number.
    pub fn lent(&self, number: usize) -> &[u32] {
        self.outcomes.get(number).map_or(&[], Vec::as_slice)
    }

    /// The same events without any outcomes.
    pub fn lending_none(&self) -> Case {
        Case { outcomes: vec![], ..self.clone() }
    }
}

/// What the making of a case says of it; None where it says nothing.
#[derive(Clone, Debug, Default)]
pub struct Known {
    /// Reason and place.
    pub check: Option<(u32, usize)>,
    pub b: Option<usize>,
    /// The state is fresh, or fits, or misses this.
    pub fresh: bool,
    pub fit: bool,
    pub misfit: Option<Misfit>,
    /// The answer to each event.
    pub answers: Option<Vec<u32>>,
    /// A coverage row the case was made for.
    pub note: Option<&'static str>,
}

#[derive(Clone, Debug, Default)]
pub struct Made {
    pub case: Case,
    pub known: Known,
}

#[derive(Clone, Copy, Debug)]
enum Shape {
    Small,
    Rich,
    Limits,
    Dearest,
    Brimful,
    Wide,
    Cleared,
    Levels,
    Heard,
    Failing,
    Visited,
    Reached,
    Unreached,
    SevenDeep,
    EightDeep,
    /// From a state that a run may never reach.
    AnyState,
    Unfit,
    Refused,
    TwoFaults,
    Hostile,
    NamesTurned,
    BitsFlipped,
    Raw,
}

/// The shapes come round in this order, so that every seed meets all of them.
const ROUND: [Shape; 56] = {
    use Shape::*;
    [
        Small, Rich, Refused, Cleared, AnyState, Unfit, Heard, Failing, Refused, SevenDeep, Wide,
        Visited, Small, Levels, Rich, TwoFaults, Small, BitsFlipped, Refused, Heard, AnyState,
        Unfit, Rich, Failing, Wide, EightDeep, Unreached, Small, NamesTurned, Dearest, Cleared,
        Raw, Levels, Rich, Refused, Unfit, Heard, Failing, Reached, Wide, AnyState, Hostile,
        Cleared, Refused, Limits, Rich, Small, Brimful, NamesTurned, Unreached, Unfit, AnyState,
        Wide, Failing, Levels, Visited,
    ]
};

/// An endless run of cases.
pub struct Cases {
    rng: Prng,
    made: usize,
}

impl Cases {
    pub fn new(seed: u64) -> Self {
        Cases { rng: Prng::new(seed), made: 0 }
    }
}

impl Iterator for Cases {
    type Item = Made;

    fn next(&mut self) -> Option<Made> {
        let (shape, round) = (ROUND[self.made % ROUND.len()], self.made / ROUND.len());
        self.made += 1;
        Some(make(&mut self.rng, shape, round))
    }
}

fn make(rng: &mut Prng, shape: Shape, round: usize) -> Made {
    match shape {
        Shape::Small => from_fresh(rng, Plan::small, 80),
        Shape::Rich => from_fresh(rng, Plan::rich, 90),
        Shape::Limits => at_limits(rng),
        Shape::Dearest => dearest(rng),
        Shape::Brimful => brimful(rng),
        Shape::Wide => wide(rng),
        Shape::Cleared => small_or_alone(rng, clearing),
        Shape::Levels => small_or_alone(rng, leveling),
        Shape::Heard => small_or_alone(rng, hearing),
        Shape::Failing => failed(rng),
        Shape::Visited => visited(rng),
        Shape::Reached => reached(rng),
        Shape::Unreached => refused_case(rng, not_reached),
        Shape::SevenDeep => seven_deep(rng),
        Shape::EightDeep => refused_case(rng, |rng| {
            let base = small(rng);
            refused::eight_deep(rng, &base)
        }),
        Shape::AnyState => {
            let draft = any_draft(rng);
            let state = fit_state(rng, &draft);
            accepted(rng, &draft, state, false, 12)
        }
        Shape::Unfit => unfit(rng),
        Shape::Refused => {
            // There are many ways to meet 5 and 6.
            let reason = rng.pick(&[1, 2, 3, 4, 5, 5, 5, 6, 6, 7, 8, 9, 10]);
            refused_case(rng, |rng| Some(refused::refuse_some(rng, reason, any_draft)))
        }
        Shape::TwoFaults => refused_case(rng, |rng| {
            let good = any_draft(rng);
            refused::two_faults(rng, &good)
        }),
        Shape::Hostile => hostile(rng, round),
        Shape::NamesTurned => names_turned(rng),
        Shape::BitsFlipped => bits_flipped(rng),
        Shape::Raw => raw(rng),
    }
}

fn small(rng: &mut Prng) -> Draft {
    let plan = Plan::small(rng);
    grow(rng, plan)
}

fn any_draft(rng: &mut Prng) -> Draft {
    let plan = if rng.chance(50) { Plan::small(rng) } else { Plan::rich(rng) };
    grow(rng, plan)
}

fn from_fresh(rng: &mut Prng, plan: impl Fn(&mut Prng) -> Plan, most: usize) -> Made {
    let plan = plan(rng);
    let draft = grow(rng, plan);
    let length = 5 + rng.below(most);
    accepted(rng, &draft, fresh_state(&draft), true, length)
}

/// Mostly B words, at times a few more, at times too few.
fn room(rng: &mut Prng, b: usize) -> usize {
    match rng.weighed(&[75, 20, 5]) {
        0 => b,
        1 => b + 1 + rng.below(4),
        _ => b - rng.below(b + 1).min(b),
    }
}

/// A case on an accepted table from a state that fits.
fn accepted(rng: &mut Prng, draft: &Draft, state: Vec<u32>, fresh: bool, length: usize) -> Made {
    let events = sequence(rng, draft, length, 6);
    let lending = Lending::some(rng);
    taking(rng, draft, state, fresh, events, lending)
}

/// The same with the events given, each with the answer that table and event alone give; only two
/// where the room is too small.
fn taking(
    rng: &mut Prng,
    draft: &Draft,
    state: Vec<u32>,
    fresh: bool,
    mut events: Vec<(u32, u32)>,
    lending: Lending,
) -> Made {
    let b = draft.b();
    let room = room(rng, b);
    if room < b {
        events.truncate(2);
    }
    let mut draft = draft.clone();
    strew_aborts(rng, &mut draft);
    let outcomes: Vec<Vec<u32>> = events.iter().map(|_| lending.lent(rng)).collect();
    let answer = |((_, answer), lent): (&(u32, u32), &Vec<u32>)| {
        if room < b { 3 } else { answer_with(lent, *answer) }
    };
    let answers = events.iter().zip(&outcomes).map(answer).collect();
    let events = events.into_iter().map(|(event, _)| event).collect();
    Made {
        case: Case { table: draft.words(), state, room, events, outcomes },
        known: Known {
            check: Some((0, 0)),
            b: Some(b),
            fresh,
            fit: true,
            answers: Some(answers),
            ..Default::default()
        },
    }
}

fn at_limits(rng: &mut Prng) -> Made {
    let draft = largest(rng);
    accepted(rng, &draft, fresh_state(&draft), true, 8)
}

/// Every count at its limit, and the cost too or just below.
fn largest(rng: &mut Prng) -> Draft {
    let plan = Plan::limits(rng);
    let mut draft = grow(rng, plan);
    let left = 4096 - rng.below(2) - draft.b();
    pad(rng, &mut draft, left, PADDING);
    fill_rules(rng, &mut draft);
    fill_items(rng, &mut draft);
    renumbered(rng, draft)
}

fn seven_deep(rng: &mut Prng) -> Made {
    let base = small(rng);
    let draft = refused::row(rng, &base, SEVEN as usize);
    accepted(rng, &draft, fresh_state(&draft), true, 30)
}

/// Lists that are reached by one way alone.
fn reached(rng: &mut Prng) -> Made {
    let base = any_draft(rng);
    let draft = with_ways(rng, &base);
    accepted(rng, &draft, fresh_state(&draft), true, 20)
}

/// A list that nothing reaches, mostly alone; at times with another fault besides.
fn not_reached(rng: &mut Prng) -> Option<Refused> {
    if rng.chance(8) {
        let good = largest(rng);
        return unreached_of_many(rng, &good);
    }
    let good = any_draft(rng);
    match rng.weighed(&[1, 2, 3]) {
        0 => unreached_ring(rng, &good),
        1 => unreached_and_more(rng, &good),
        _ => unreached(rng, &good),
    }
}

/// All lists together cost exactly the most that is allowed.
fn dearest(rng: &mut Prng) -> Made {
    let mut draft = any_draft(rng);
    let left = 4096 - draft.b();
    pad(rng, &mut draft, left, 1);
    accepted(rng, &draft, fresh_state(&draft), true, 20)
}

/// One event starts every list, and the trace fills all of B.
fn brimful(rng: &mut Prng) -> Made {
    let mut draft = Draft {
        edition: some_edition(rng),
        ports: vec![Port::default()],
        expressions: vec![Expression::of(0)],
        rules: vec![Rule { true_list: NO_LIST, false_list: NO_LIST, ..Default::default() }],
        ..Default::default()
    };
    pad(rng, &mut draft, 4096, 1);
    accepted(rng, &draft, fresh_state(&draft), true, 4)
}

/// Wide expressions on a small table, mostly from a fresh state.
fn wide(rng: &mut Prng) -> Made {
    let base = small(rng);
    let (draft, events) = widen(rng, base);
    let lending = Lending::some(rng);
    from_mostly_fresh(rng, &draft, events, lending)
}

/// What a request is tried with, on a small table or alone, mostly from a fresh state.
fn small_or_alone(
    rng: &mut Prng,
    with: impl Fn(&mut Prng, Draft) -> (Draft, Vec<(u32, u32)>),
) -> Made {
    let base = small_or_empty(rng);
    let (draft, events) = with(rng, base);
    let lending = Lending::some(rng);
    from_mostly_fresh(rng, &draft, events, lending)
}

fn small_or_empty(rng: &mut Prng) -> Draft {
    let edition = some_edition(rng);
    if rng.chance(50) { small(rng) } else { Draft { edition, ..Default::default() } }
}

/// Outside calls that fail, on a small table or alone, nearly always in edition 2.
fn failed(rng: &mut Prng) -> Made {
    let edition = if rng.chance(92) { edition::TWO } else { edition::ONE };
    let mut base = Draft { edition, ..small_or_empty(rng) };
    if edition == edition::ONE {
        base.items.iter_mut().for_each(|item| item.abort = 0);
    }
    let (draft, events) = failing(rng, base);
    let lending = Lending::often(rng);
    from_mostly_fresh(rng, &draft, events, lending)
}

/// Wide expressions in rules and rule items, at times with calls that abort between them.
fn visited(rng: &mut Prng) -> Made {
    let base = small_or_empty(rng);
    let (draft, events) = visiting(rng, base);
    let lending = Lending::often(rng);
    from_mostly_fresh(rng, &draft, events, lending)
}

fn from_mostly_fresh(
    rng: &mut Prng,
    draft: &Draft,
    events: Vec<(u32, u32)>,
    lending: Lending,
) -> Made {
    let fresh = rng.chance(80);
    let state = if fresh { fresh_state(draft) } else { fit_state(rng, draft) };
    taking(rng, draft, state, fresh, events, lending)
}

fn unfit(rng: &mut Prng) -> Made {
    // Q-2 parts immediate mode ports from immediate events, so the mark is often the misfit.
    let mark = rng.chance(10);
    let misfit = if mark { Misfit::ImmediateModeMarked } else { rng.pick(&MISFITS) };
    let (draft, state) = loop {
        let plan = Plan::rich(rng);
        let draft = grow(rng, plan);
        if let Some(state) = unfit_state(rng, &draft, misfit) {
            break (draft, state);
        }
    };
    let mut made = accepted(rng, &draft, state, false, 2);
    made.known.fit = false;
    made.known.misfit = Some(misfit);
    made.known.answers = Some(vec![2; made.case.events.len()]);
    made
}

/// A refused table with a state and events that would do for a good one.
fn refused_case(rng: &mut Prng, refuse: impl Fn(&mut Prng) -> Option<Refused>) -> Made {
    let refused = loop {
        if let Some(refused) = refuse(rng) {
            break refused;
        }
    };
    let (events, answers) = (vec![0, rng.word()], Some(vec![1; 2]));
    let state = vec![0; rng.below(20)];
    let Refused { words, reason, place, note } = refused;
    let check = Some((reason, place));
    let outcomes = lent_to(rng, 2);
    Made {
        case: Case { table: words, state, room: rng.below(8), events, outcomes },
        known: Known { check, answers, note, ..Default::default() },
    }
}

/// Outcomes for so many events.
fn lent_to(rng: &mut Prng, events: usize) -> Vec<Vec<u32>> {
    let lending = Lending::some(rng);
    (0..events).map(|_| lending.lent(rng)).collect()
}

fn hostile(rng: &mut Prng, round: usize) -> Made {
    refused_case(rng, |rng| {
        let levels = 2 + rng.below(6);
        Some(match round % 4 {
            0 => refused::hostile(rng, SEVEN as usize, false),
            1 => refused::hostile(rng, SEVEN as usize + 1, false),
            2 => refused::hostile(rng, levels, true),
            _ => refused::hostile_expressions(rng, 512),
        })
    })
}

/// A good table with a few names and owners drawn anew from what there is.
fn names_turned(rng: &mut Prng) -> Made {
    let mut draft = any_draft(rng);
    for _ in 0..1 + rng.below(3) {
        let (expression, rule) = (rng.below(draft.expressions.len()), rng.below(draft.rules.len()));
        let some_list = rng.below(draft.lists.len().max(1));
        let (owner, some_port) = (rng.within(0, 3), rng.below(draft.ports.len()));
        match rng.below(6) {
            0 => {
                let left = rng.below(draft.expressions.len()) as u32;
                if let Expression::Operator(operator) = &mut draft.expressions[expression] {
                    operator.left = left;
                }
            }
            1 => draft.rules[rule].expression = expression as u32,
            2 => draft.rules[rule].true_list = some_list as u32,
            3 if !draft.items.is_empty() => {
                let at = rng.below(draft.items.len());
                let named = [(item::LIST, some_list), (item::RULE, rule)];
                let (kind, a) = rng.pick(&named);
                draft.items[at] = Item::naming(kind, a as u32);
            }
            4 if !draft.lists.is_empty() => draft.lists[some_list].owner = owner,
            _ => draft.ports[some_port].owner = owner,
        }
    }
    let state = fit_state(rng, &draft);
    let events = sequence(rng, &draft, 6, 6).into_iter().map(|(event, _)| event).collect();
    let table = draft.words();
    // Cost may have no end here, so the room is asked of the check.
    let room = check(&table).b;
    let outcomes = lent_to(rng, 6);
    Made { case: Case { table, state, room, events, outcomes }, known: Known::default() }
}

/// A good case with a few bits turned in its table or its state.
fn bits_flipped(rng: &mut Prng) -> Made {
    let draft = any_draft(rng);
    let state = fit_state(rng, &draft);
    let mut case = accepted(rng, &draft, state, false, 6).case;
    let words = if rng.chance(60) { &mut case.table } else { &mut case.state };
    for _ in 0..1 + rng.below(3) {
        let word = rng.below(words.len());
        words[word] ^= 1 << rng.below(32);
    }
    Made { case, known: Known::default() }
}

/// Words drawn at random, at times behind a header that fits their number.
fn raw(rng: &mut Prng) -> Made {
    let mut table: Vec<u32> = (0..rng.below(60)).map(|_| rng.word()).collect();
    if rng.chance(50) {
        table.resize(HEADER + 6, 0);
        let head = rng.pick(&[0x0101_0000, 0x0201_0000]);
        table[..HEADER].copy_from_slice(&[head, 0x0001_0001, 0x0001_0002]);
    }
    let state: Vec<u32> = (0..rng.below(4)).map(|_| rng.word()).collect();
    let events: Vec<u32> = (0..3).map(|_| rng.word()).collect();
    let outcomes = (0..3).map(|_| (0..rng.below(3)).map(|_| rng.word()).collect()).collect();
    let room = rng.below(9);
    Made { case: Case { table, state, room, events, outcomes }, known: Known::default() }
}

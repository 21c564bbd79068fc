//! Request Q-14's statement, over results that any program may have given: whether two runs of a
//! pair agree in all that is the operator's and the platform's.

use super::pairs::{Pair, Sent};
use crate::words::*;

/// What a program gave for one event call.
#[derive(Clone, PartialEq, Eq, Debug, Default)]
pub struct Told {
    pub answer: u32,
    /// The state after it.
    pub state: Vec<u32>,
    /// The trace words that the count covers; none in a refusal.
    pub words: Vec<u32>,
    /// The operator's panel of that state and those words; empty where none was asked for, in both
    /// runs alike.
    pub panel: Vec<u8>,
}

/// Where a call of a day ended: a play that ran to its end or to "trace full", or a single call.
#[derive(Clone, PartialEq, Eq, Debug, Default)]
pub struct Stop {
    /// How many shared events were done by then.
    pub shared: usize,
    pub state: Vec<u32>,
    /// All trace words from the day's beginning on, joined.
    pub words: Vec<u32>,
}

/// What an operator and the platform see of a table's runs.
pub struct Eyes {
    operator: u32,
    /// Whose each word of a state is.
    owners: Vec<u32>,
}

impl Eyes {
    pub fn of(pair: &Pair) -> Eyes {
        let table = Table::of(&pair.table).expect("an accepted table has its header");
        let all = |section: Section| 0..table.count(section);
        let ports = all(Section::Ports).map(|p| table.port(p).owner);
        let rules = all(Section::Rules).map(|r| table.rule(r).owner);
        let networks = all(Section::Networks).map(|n| table.network(n).owner);
        let sources = all(Section::Sources).map(|s| table.source(s).owner);
        let owners = ports.chain(rules).chain(networks).chain(sources).collect();
        Eyes { operator: pair.operator, owners }
    }

    pub fn sees(&self, owner: u32) -> bool {
        owner == self.operator || owner == PLATFORM
    }

    /// Its words of a state, each with its place.
    pub fn state(&self, state: &[u32]) -> Vec<(usize, u32)> {
        let seen = state.iter().zip(&self.owners).enumerate();
        let seen = seen.filter(|(_, (_, owner))| self.sees(**owner));
        seen.map(|(place, (&word, _))| (place, word)).collect()
    }

    /// Its words of a trace. The operator's and the platform's in one row: so each one's are in
    /// order, and document 01's order of lists keeps them in order to each other too.
    pub fn trace(&self, words: &[u32]) -> Vec<u32> {
        words.iter().copied().filter(|&word| self.sees(TraceWord::of(word).owner)).collect()
    }
}

fn hold(holds: bool, what: impl FnOnce() -> String) -> Result<(), String> {
    if holds { Ok(()) } else { Err(what()) }
}

fn shared_of<'a>(sent: &'a [Sent], told: &'a [Told]) -> Vec<&'a Told> {
    let shared = sent.iter().zip(told).filter(|(sent, _)| sent.shared);
    shared.map(|(_, told)| told).collect()
}

/// Q-14: "After each shared event that operator's port, rule, network and source words agree, and
/// so do its own trace words, in order." The platform's too, and the answers and panels. Each
/// side's results stand in the order of what was sent, from the fresh state on.
pub fn agree(pair: &Pair, told: [&[Told]; 2]) -> Result<(), String> {
    for (sent, told) in pair.sides.iter().zip(told) {
        hold(sent.len() == told.len(), || {
            format!("{} results of {} calls", told.len(), sent.len())
        })?;
    }
    let eyes = Eyes::of(pair);
    let [one, other] = [0, 1].map(|side| shared_of(&pair.sides[side], told[side]));
    for (number, (one, other)) in one.iter().zip(&other).enumerate() {
        let at = |what: &str| format!("operator {}, shared event {number}: {what}", pair.operator);
        let answers = [one.answer, other.answer];
        hold(answers[0] == answers[1], || at(&format!("answers {answers:?}")))?;
        let states = [one, other].map(|told| eyes.state(&told.state));
        hold(states[0] == states[1], || at(&differing(&states)))?;
        let traces = [one, other].map(|told| eyes.trace(&told.words));
        hold(traces[0] == traces[1], || at(&format!("trace words {traces:08X?}")))?;
        hold(one.panel == other.panel, || at("panels differ"))?;
    }
    Ok(())
}

fn differing(states: &[Vec<(usize, u32)>; 2]) -> String {
    let both = states[0].iter().zip(&states[1]).find(|(one, other)| one != other);
    both.map_or("states' lengths".to_string(), |((place, one), (_, other))| {
        format!("state word {place} is {one:08X} and {other:08X}")
    })
}

/// More than Q-14 says, but nothing else can be by document 01: a stranger's event, whatever its
/// answer, leaves the operator's and the platform's words as they were and writes none of theirs;
/// and a refused event, anyone's, leaves the whole state and writes nothing. `fresh` is the state
/// before the first call.
pub fn untouched(pair: &Pair, fresh: &[u32], told: [&[Told]; 2]) -> Result<(), String> {
    let eyes = Eyes::of(pair);
    for (side, (sent, told)) in pair.sides.iter().zip(told).enumerate() {
        let mut before = fresh;
        for (number, (sent, told)) in sent.iter().zip(told).enumerate() {
            let at = |what: &str| format!("side {side}, call {number}: {what}");
            if !sent.shared {
                let same = eyes.state(before) == eyes.state(&told.state);
                hold(same, || at("a stranger's event changed a word"))?;
                hold(eyes.trace(&told.words).is_empty(), || at("a stranger's event wrote a word"))?;
            }
            if told.answer != 0 {
                hold(before == told.state, || at("a refused event changed the state"))?;
                hold(told.words.is_empty(), || at("a refused event wrote words"))?;
            }
            before = &told.state;
        }
    }
    Ok(())
}

/// "In play the statement covers sequences that run to the end." At the end, and wherever
/// calls of both sides' days ended behind the same number of shared events, the operator's and the
/// platform's words of the state and of the joined trace agree. A stop with strangers' events
/// behind the last shared one is as good, for they change and write nothing that is seen.
pub fn days_agree(pair: &Pair, stops: [&[Stop]; 2]) -> Result<(), String> {
    let eyes = Eyes::of(pair);
    let [one, other] = stops;
    let ends = [one.last(), other.last()].map(|stop| stop.map_or(0, |stop| stop.shared));
    hold(ends[0] == ends[1], || format!("days end behind {ends:?} shared events"))?;
    for one in one {
        for other in other.iter().filter(|other| other.shared == one.shared) {
            let at = |what: &str| {
                format!("operator {}, behind {} shared events: {what}", pair.operator, one.shared)
            };
            let states = [one, other].map(|stop| eyes.state(&stop.state));
            hold(states[0] == states[1], || at(&differing(&states)))?;
            let traces = [one, other].map(|stop| eyes.trace(&stop.words));
            hold(traces[0] == traces[1], || at("joined trace words differ"))?;
        }
    }
    Ok(())
}

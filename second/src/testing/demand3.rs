//! Demand 3 on a run from a fresh state: nobody waits longer because of a stranger.

use super::coverage::{self, Met, Row};
use super::failing_rows::{STRUCK_OUT_FAILED, STRUCK_OUT_MOVED};
use super::heard::takes_heard;
use super::log::{Entry, hold, run};
use super::traces::{callers, modes_asked};
use crate::cases::Case;
use crate::cases::draft::Draft;
use crate::words::*;

/// Every countdown that starts in the log ends at its own tick.
pub fn try_countdowns(draft: &Draft, log: &[Entry], met: &mut Met) -> Result<(), String> {
    let log: Vec<&Entry> = log.iter().filter(|entry| entry.answer == 0).collect();
    for (at, entry) in log.iter().enumerate() {
        let following = &log[at + 1..];
        for network in 0..draft.networks.len() {
            let asked = draft.network_in(&entry.before, network).asked;
            if taken_bus_off(draft, entry, network) && asked == mode::FULL {
                follow_network(draft, network, entry, following, met)
                    .map_err(|what| format!("after taken event {at}, network {network}: {what}"))?;
            }
        }
        for source in 0..draft.sources.len() {
            let status = |words: &[u32]| draft.source_in(words, source).status;
            let pending = source::PENDING;
            if status(&entry.before) != pending && status(&entry.after) == pending {
                follow_source(draft, source, following, met)
                    .map_err(|what| format!("after taken event {at}, source {source}: {what}"))?;
            }
        }
    }
    Ok(())
}

/// Only a bus-off that makes the network recover is taken.
fn taken_bus_off(draft: &Draft, entry: &Entry, network: usize) -> bool {
    let before = draft.network_in(&entry.before, network).state;
    entry.is_of(event::BUS_OFF, network) && (before == network::CHECK || before == network::FULL)
}

/// The exception is readable off the trace.
fn asks_another_mode(entry: &Entry, network: usize) -> bool {
    modes_asked(entry, network).any(|mode| mode != mode::FULL)
}

/// A network's way back to full after a taken bus-off, in ticks from there.
struct Back {
    l: u32,
    e: u32,
    counter: u32,
    /// The ticks that had passed at the first heard from the L-th tick on.
    heard: Option<u32>,
    /// Whether there was a heard before that tick.
    lost: bool,
}

impl Back {
    fn of(draft: &Draft, network: usize, bus_off: &Entry) -> Self {
        let (named, waits) = draft.networks[network];
        let counter = (draft.network_in(&bus_off.before, network).counter + 1).min(255);
        let l = if counter <= named.threshold { waits.l1 } else { waits.l2 };
        Back { l, e: waits.e_ticks, counter, heard: None, lost: false }
    }

    fn hear(&mut self, ticks: u32) {
        if ticks < self.l {
            self.lost = true;
        } else {
            self.heard = self.heard.or(Some(ticks));
        }
    }

    /// The tick at which it settles.
    fn end(&self) -> u32 {
        let unheard = self.l + self.e;
        self.heard.map_or(unheard, |ticks| unheard.min(ticks + 1))
    }

    /// What its port shows, then its state, counter and remaining, after so many ticks.
    fn at(&self, ticks: u32) -> [u32; 4] {
        if ticks < self.l {
            [3, network::RECOVER, self.counter, self.l - ticks]
        } else if ticks < self.end() {
            [2, network::CHECK, self.counter, self.l + self.e - ticks]
        } else {
            [2, network::FULL, 0, 0]
        }
    }

    /// How it was settled. A check of one tick doesn't tell whether what was heard before is lost.
    fn row(&self) -> &'static str {
        match self.heard {
            Some(_) if self.end() < self.l + self.e => coverage::SETTLED_HEARD,
            Some(_) => coverage::SETTLED_HEARD_LAST,
            None if self.lost && self.e > 1 => coverage::SETTLED_LOST,
            None => coverage::NETWORK_SETTLED,
        }
    }
}

fn follow_network(
    draft: &Draft,
    network: usize,
    bus_off: &Entry,
    following: &[&Entry],
    met: &mut Met,
) -> Result<(), String> {
    let mut back = Back::of(draft, network, bus_off);
    let Network { owner, port, .. } = draft.networks[network].0;
    let mut ticks = 0;
    for entry in following {
        if taken_bus_off(draft, entry, network) {
            return Ok(());
        }
        if entry.is_of(event::HEARD, network) {
            hold(entry.event.owner == owner, || format!("heard from {}", entry.event.owner))?;
            back.hear(ticks);
        }
        ticks += entry.is_tick() as u32;
        let shown = PortState::of(entry.after[port as usize]).value;
        let NetworkState { state, counter, remaining, .. } =
            draft.network_in(&entry.after, network);
        let (found, due) = ([shown, state, counter, remaining], back.at(ticks));
        hold(found == due, || format!("{found:?} after {ticks} ticks, not {due:?}"))?;
        if ticks == back.l {
            met.insert(Row::Special(coverage::NETWORK_SHOWN));
        }
        if ticks == back.end() {
            met.insert(Row::Special(back.row()));
            return Ok(());
        }
        // A tick's own lists run after the networks have moved.
        if asks_another_mode(entry, network) {
            return Ok(());
        }
    }
    Ok(())
}

fn follow_source(
    draft: &Draft,
    source: usize,
    following: &[&Entry],
    met: &mut Met,
) -> Result<(), String> {
    let Source { owner, timeout, .. } = draft.sources[source];
    let mut ticks = 0;
    for entry in following {
        ticks += entry.is_tick() as u32;
        let status = draft.source_in(&entry.after, source).status;
        let ended = status != source::PENDING;
        if entry.is_tick() {
            hold(ended == (ticks == timeout), || format!("status {status} at tick {ticks}"))?;
            if ended {
                hold(status == source::EXPIRED, || format!("status {status}, not expired"))?;
                met.insert(Row::Special(coverage::SOURCE_EXPIRED));
                return Ok(());
            }
        } else if ended {
            let event = entry.event;
            let own = [event::WAKEUP_VALID, event::WAKEUP_CLEAR].contains(&event.kind)
                && (event.index as usize, event.owner) == (source, owner);
            hold(own, || format!("ended by event {:08X}", event.word()))?;
            met.insert(Row::Special(coverage::SOURCE_ENDED));
            return Ok(());
        }
    }
    Ok(())
}

/// For each operator, and for the platform: with the strangers' events struck
/// out, its words and the platform's are the same after every event kept, where
/// its calls and the platform's meet the same outcomes.
pub fn try_struck_out(
    case: &Case,
    draft: &Draft,
    log: &[Entry],
    met: &mut Met,
) -> Result<(), String> {
    for side in &sides(draft) {
        let (kept, struck): (Vec<&Entry>, Vec<&Entry>) =
            log.iter().partition(|entry| side.has(entry.event.owner));
        let alone = side.run_kept(case, &kept);
        side.try_same(&kept, &alone.iter().collect::<Vec<&Entry>>())?;
        side.meet(&kept, &struck, met);
        if struck.iter().any(|entry| entry.answer == 0) {
            side.meet_failed(&kept, &alone, met);
        }
    }
    Ok(())
}

/// The platform, and every operator that has words.
pub fn sides(draft: &Draft) -> Vec<Side<'_>> {
    let owners = owners_of_words(draft);
    let has_words = |operator: &u32| *operator == PLATFORM || owners.contains(operator);
    let side = |operator: u32| Side { draft, owners: owners.clone(), operator };
    (0..16).filter(has_words).map(side).collect()
}

/// An operator and the platform, or the platform alone.
pub struct Side<'a> {
    draft: &'a Draft,
    /// Whose each word of a state is.
    owners: Vec<u32>,
    operator: u32,
}

impl Side<'_> {
    pub fn has(&self, owner: u32) -> bool {
        owner == self.operator || owner == PLATFORM
    }

    fn has_network(&self, network: usize) -> bool {
        self.has(self.draft.networks[network].0.owner)
    }

    /// Its words of a state.
    pub fn words(&self, state: &[u32]) -> Vec<u32> {
        let words = state.iter().zip(&self.owners).filter(|(_, owner)| self.has(**owner));
        words.map(|(&word, _)| word).collect()
    }

    /// Its words of a trace.
    pub fn trace(&self, trace: &[u32]) -> Vec<u32> {
        trace.iter().copied().filter(|&word| self.has(TraceWord::of(word).owner)).collect()
    }

    /// What it sees of an event: the answer, its words and its trace words.
    fn view(&self, entry: &Entry) -> (u32, Vec<u32>, Vec<u32>) {
        (entry.answer, self.words(&entry.after), self.trace(&entry.trace))
    }

    /// The ticks at which its networks take what was heard, each with the network.
    fn heards_taken(&self, log: &[&Entry]) -> Vec<(usize, usize)> {
        let ticks = log.iter().filter(|entry| entry.answer == 0 && entry.is_tick());
        let taking = |entry: &Entry| {
            let networks = (0..self.draft.networks.len()).filter(|&n| self.has_network(n));
            networks.filter(|&n| takes_heard(self.draft, entry, n)).collect::<Vec<usize>>()
        };
        let by_tick = ticks.enumerate().map(|(tick, entry)| (tick, taking(entry)));
        by_tick.flat_map(|(tick, networks)| networks.into_iter().map(move |n| (tick, n))).collect()
    }

    /// The outcomes that its calls met in a taken event, in order.
    fn outcomes_met(&self, entry: &Entry) -> Vec<u32> {
        let lent = entry.outcomes.iter().copied().chain(std::iter::repeat(outcome::GOOD));
        let met = callers(&entry.trace).into_iter().zip(lent);
        met.filter(|(owner, _)| self.has(*owner)).map(|(_, outcome)| outcome).collect()
    }

    /// The kept events alone, from the case's state.
    fn run_kept(&self, case: &Case, kept: &[&Entry]) -> Vec<Entry> {
        let mut log: Vec<Entry> = vec![];
        for entry in kept {
            let state = log.last().map_or(&case.state, |last| &last.after).clone();
            let (events, outcomes) = (vec![entry.event.word()], vec![entry.outcomes.clone()]);
            let alone = Case { state, events, outcomes, ..case.clone() };
            let rereads = entry.answer == 0 && self.draft.edition == edition::TWO;
            let next = if rereads { self.run_alike(&alone, entry) } else { run(&alone).remove(0) };
            log.push(next);
        }
        log
    }

    /// One event, lent outcomes so that its own calls meet what they met before. Each call's
    /// outcome is found before the calls behind it, for which of them run depends on it. The
    /// strangers' first calls are good and failed by turns, whatever they were.
    fn run_alike(&self, alone: &Case, with: &Entry) -> Entry {
        let due = self.outcomes_met(with);
        let mut lent: Vec<u32> = vec![];
        loop {
            let entry = run(&Case { outcomes: vec![lent.clone()], ..alone.clone() }).remove(0);
            let callers = callers(&entry.trace);
            if callers.len() <= lent.len() {
                return entry;
            }
            let mut own = callers[..lent.len()].iter().filter(|&&owner| self.has(owner)).count();
            for (number, &owner) in callers.iter().enumerate().skip(lent.len()) {
                let next = match self.has(owner) {
                    true => due.get(own).copied().unwrap_or(outcome::GOOD),
                    false => (number < 8 && number % 2 == 0) as u32,
                };
                own += self.has(owner) as usize;
                lent.push(next);
                if next == outcome::FAILED {
                    break;
                }
            }
        }
    }

    /// The failed calls of its own, by their numbers among all calls of the event.
    fn failed_calls(&self, entry: &Entry) -> Vec<usize> {
        let calls = callers(&entry.trace).into_iter().zip(&entry.outcomes).enumerate();
        let failed = |(number, (owner, lent)): (usize, (u32, &u32))| {
            (self.has(owner) && *lent == outcome::FAILED).then_some(number)
        };
        calls.filter_map(failed).collect()
    }

    fn meet_failed(&self, with: &[&Entry], without: &[Entry], met: &mut Met) {
        if self.draft.edition == edition::ONE {
            return;
        }
        for (with, without) in with.iter().zip(without).filter(|(with, _)| with.answer == 0) {
            let (one, other) = (self.failed_calls(with), self.failed_calls(without));
            if !one.is_empty() {
                met.insert(Row::Special(STRUCK_OUT_FAILED));
            }
            if one != other {
                met.insert(Row::Special(STRUCK_OUT_MOVED));
            }
        }
    }

    fn try_same(&self, with: &[&Entry], without: &[&Entry]) -> Result<(), String> {
        let operator = self.operator;
        let (taken, alone) = (self.heards_taken(with), self.heards_taken(without));
        hold(taken == alone, || {
            format!("operator {operator}'s networks take heard at {taken:?}, alone at {alone:?}")
        })?;
        for (number, (with, without)) in with.iter().zip(without).enumerate() {
            hold(self.view(with) == self.view(without), || {
                format!("strangers changed what operator {operator} sees at kept event {number}")
            })?;
        }
        Ok(())
    }

    fn meet(&self, kept: &[&Entry], struck: &[&Entry], met: &mut Met) {
        let in_check = |entry: &Entry, network: usize| {
            self.draft.network_in(&entry.before, network).state == network::CHECK
        };
        for entry in struck {
            let heard = entry.event.kind == event::HEARD;
            let network = entry.event.index as usize;
            let row = match entry.answer {
                0 if heard => coverage::STRUCK_OUT_HEARD,
                6 if heard && self.has_network(network) && in_check(entry, network) => {
                    coverage::STRUCK_OUT_REFUSED
                }
                _ => continue,
            };
            met.insert(Row::Special(row));
        }
        if struck.iter().any(|entry| entry.answer == 0) {
            met.insert(Row::Special(coverage::STRUCK_OUT));
            if !self.heards_taken(kept).is_empty() {
                met.insert(Row::Special(coverage::STRUCK_OUT_SAME));
            }
        }
    }
}

/// Whose each word of a state is.
pub fn owners_of_words(draft: &Draft) -> Vec<u32> {
    let ports = draft.ports.iter().map(|port| port.owner);
    let rules = draft.rules.iter().map(|rule| rule.owner);
    let networks = draft.networks.iter().map(|(network, _)| network.owner);
    let sources = draft.sources.iter().map(|source| source.owner);
    ports.chain(rules).chain(networks).chain(sources).collect()
}

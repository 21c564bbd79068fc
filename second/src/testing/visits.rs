//! Request Q-10 on a case: every event's visits counted again, evaluation by evaluation, by reading
//! expressions as a program does that skips; and that they keep to their bound.

use super::choices::Choices;
use super::coverage::{Met, Row};
use super::log::{Entry, hold};
use super::ports::{Ports, undefined};
use super::skipping::{Read, read};
use super::traces::rule_items;
use super::visits_rows::{self as rows, Visits};
use super::walk::{RanItem, Walk};
use crate::cases::draft::Draft;
use crate::words::*;

/// The words of a whole tree of seven levels.
const WHOLE: u64 = 127;

/// An evaluation in a taken event.
pub struct Evaluation {
    pub rule: usize,
    /// Where a rule item's, its place among the items that ran.
    pub item: Option<usize>,
    pub read: Read,
    /// What it would have visited by the values before any list.
    pub at_first: u64,
}

/// A taken event, of a table that has the ports that each rule mentions.
pub struct Visited<'a> {
    pub draft: &'a Draft,
    pub mentions: &'a [Ports],
    pub entry: &'a Entry,
    pub walk: &'a Walk<'a>,
}

/// A refusal reports nothing visited.
pub fn try_refusals(log: &[Entry], met: &mut Met) -> Result<(), String> {
    let mut visited = false;
    for (number, entry) in log.iter().enumerate() {
        visited |= entry.visits > 0;
        if entry.answer != 0 {
            hold(entry.visits == 0, || format!("refused event {number} has {}", entry.visits))?;
            if visited {
                met.insert(Row::Visits(Visits::NoneIn(entry.answer)));
            }
        }
    }
    Ok(())
}

impl Visited<'_> {
    pub fn try_visits(&self, choices: &Choices, b: usize, met: &mut Met) -> Result<(), String> {
        let Visited { draft, entry, .. } = *self;
        let evaluations = self.evaluations(choices)?;
        let due: u64 = evaluations.iter().map(|evaluation| evaluation.read.visits).sum();
        hold(entry.visits == due, || format!("{} visits, counted {due}", entry.visits))?;
        let bound = WHOLE * (draft.rules.len() + b) as u64;
        hold(entry.visits <= bound, || format!("{} visits above {bound}", entry.visits))?;
        let index = entry.event.index as usize;
        let deferred = match entry.event.kind {
            event::TICK => false,
            event::MODE_REQUEST | event::EVENT_REQUEST => draft.ports[index].deferred == 1,
            _ => true,
        };
        hold(!deferred || entry.visits == 0, || format!("{} visits unasked", entry.visits))?;
        rows::meet(self, &evaluations, bound, met);
        Ok(())
    }

    /// Every evaluation, in order: those of arbitration by the values before any list, those of
    /// rule items by what the items before them left. The results of rule items are as shown.
    pub fn evaluations(&self, choices: &Choices) -> Result<Vec<Evaluation>, String> {
        let mut values = choices.read.clone();
        let by_arbitration = choices.results(choices.arbitrated).map(|(rule, _)| {
            let read = self.read(&choices.read, rule);
            Evaluation { rule, item: None, at_first: read.visits, read }
        });
        let mut evaluations: Vec<Evaluation> = by_arbitration.collect();
        let mut shown = rule_items(self.entry);
        for (place, ran) in self.walk.items.iter().enumerate() {
            write(&mut values, ran);
            if ran.item.kind != item::RULE {
                continue;
            }
            let (rule, word) = (ran.item.a as usize, shown.next().ok_or("no word")?);
            if self.mentions[rule] & undefined(self.draft, self.entry) != 0 {
                hold(word.b == UNDEFINED, || format!("rule item {rule} shows {}", word.b))?;
                continue;
            }
            let read = self.read(&values, rule);
            hold(word.b == read.gives as u32, || format!("rule item {rule} shows {}", word.b))?;
            let at_first = self.read(&choices.read, rule).visits;
            evaluations.push(Evaluation { rule, item: Some(place), at_first, read });
        }
        Ok(evaluations)
    }

    fn read(&self, values: &[u32], rule: usize) -> Read {
        read(self.draft, values, self.draft.rules[rule].expression)
    }
}

/// What an item leaves in the ports' words, as far as expressions read them.
fn write(values: &mut [u32], ran: &RanItem) {
    let value = match ran.item.kind {
        item::CLEAR_EVENT => 0,
        item::START_TIMER => timer::STARTED,
        item::STOP_TIMER => timer::STOPPED,
        _ => return,
    };
    let word = &mut values[ran.item.a as usize];
    *word = PortState { value, ..PortState::of(*word) }.word();
}

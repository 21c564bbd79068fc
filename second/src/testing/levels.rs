//! Request Q-5 on a case: where conditions "at or above" decide, what refuses
//! them, and that an equality in the place of one, where it says the same,
//! changes nothing.

use super::coverage::{self, Met, Row};
use super::log::{Entry, hold, run};
use super::ports::{Ports, arbitrated, undefined, written};
use super::skipping::gives;
use super::traces::{evaluated, rule_items};
use crate::cases::Case;
use crate::cases::draft::Draft;
use crate::check::Check;
use crate::words::*;

/// The conditions of an expression, those on skipped sides too.
fn conditions(draft: &Draft, number: usize) -> Vec<Condition> {
    match draft.expressions[number] {
        Expression::Condition(condition) => vec![condition],
        operator => operator.arguments().flat_map(|a| conditions(draft, a)).collect(),
    }
}

fn is_level(condition: &Condition) -> bool {
    condition.kind == expression::AT_OR_ABOVE
}

/// Whether there are conditions on such ports, and all are at or above.
fn by_levels_alone(conditions: &[Condition], port: impl Fn(usize) -> bool) -> bool {
    let mut on = conditions.iter().filter(|condition| port(condition.port as usize)).peekable();
    on.peek().is_some() && on.all(is_level)
}

/// What a refused table met, read off the word it was refused at.
pub fn meet_refused(words: &[u32], checked: Check, met: &mut Met) -> Result<(), String> {
    let Some((draft, word)) = refused_at(words, checked.place) else {
        return Ok(());
    };
    let row = match (checked.reason, word) {
        (8, Word::Rule(rule)) if clashes_by_level(&draft, rule) => {
            Row::Special(coverage::LEVEL_CLASH)
        }
        (5, Word::Expression(Expression::Condition(c))) if c.kind > expression::AT_OR_ABOVE => {
            Row::NoKind(c.kind)
        }
        (5, Word::Expression(Expression::Condition(c))) if is_level(&c) => {
            Row::Special(coverage::LEVEL_ZERO_FIELD)
        }
        (6, Word::Expression(Expression::Condition(c))) if is_level(&c) => {
            Row::Special(misnamed(&draft, c)?)
        }
        _ => return Ok(()),
    };
    met.insert(row);
    Ok(())
}

/// A table, and its word in a place; None for reasons that have no place.
fn refused_at(words: &[u32], place: usize) -> Option<(Draft, Word)> {
    let past_header = place.checked_sub(HEADER)?;
    let table = Table::of(words)?;
    let (_, word) = table.words().nth(past_header)?;
    Some((Draft::of(&table), word))
}

fn misnamed(draft: &Draft, level: Condition) -> Result<&'static str, String> {
    match draft.ports.get(level.port as usize).map(|port| port.kind) {
        None => Ok(coverage::LEVEL_ON_ABSENT),
        Some(port::EVENT) => Ok(coverage::LEVEL_ON_EVENT),
        Some(port::TIMER) => Ok(coverage::LEVEL_ON_TIMER),
        _ => Err(format!("{level:?} refused on a mode port")),
    }
}

fn clashes_by_level(draft: &Draft, rule: Rule) -> bool {
    let strange = |port: usize| ![rule.owner, PLATFORM].contains(&draft.ports[port].owner);
    let own_lists = rule.lists().all(|list| draft.lists[list].owner == rule.owner);
    own_lists && by_levels_alone(&conditions(draft, rule.expression as usize), strange)
}

/// An equality of one word says the same as at or above 1 and at or above 255.
fn with_equalities(draft: &Draft) -> Draft {
    let mut draft = draft.clone();
    for expression in &mut draft.expressions {
        if let Expression::Condition(condition) = expression
            && is_level(condition)
        {
            (condition.kind, condition.value) = match condition.value {
                1 => (expression::NOT_EQUAL, 0),
                255 => (expression::EQUAL, 255),
                level => (condition.kind, level),
            };
        }
    }
    draft
}

pub fn try_equalities(
    case: &Case,
    draft: &Draft,
    log: &[Entry],
    met: &mut Met,
) -> Result<(), String> {
    let table = with_equalities(draft).words();
    if table == case.table {
        return Ok(());
    }
    let again = run(&Case { table, ..case.clone() });
    for (number, (one, other)) in log.iter().zip(&again).enumerate() {
        let same =
            (one.answer, &one.after, &one.trace) == (other.answer, &other.after, &other.trace);
        hold(same, || format!("event {number} differs with equalities for levels"))?;
    }
    met.insert(Row::Special(coverage::LEVEL_EQUALITIES));
    Ok(())
}

/// An accepted table with the ports that each rule mentions, and its conditions.
pub struct Levels<'a> {
    draft: &'a Draft,
    mentions: &'a [Ports],
    conditions: Vec<Vec<Condition>>,
}

impl<'a> Levels<'a> {
    pub fn of(draft: &'a Draft, mentions: &'a [Ports]) -> Self {
        let of_rule = |rule: &Rule| conditions(draft, rule.expression as usize);
        Levels { draft, mentions, conditions: draft.rules.iter().map(of_rule).collect() }
    }

    pub fn meet(&self, entry: &Entry, met: &mut Met) {
        // Where no list wrote a port, it has the value that was read.
        let written = written(entry);
        for rule in evaluated(self.draft, entry) {
            if self.mentions[rule] & written == 0 && self.conditions[rule].iter().any(is_level) {
                self.meet_evaluated(entry, rule, met);
            }
        }
        self.meet_unready(entry, met);
    }

    /// The rule's turn came, but ports are undefined, all of them at or above levels.
    fn meet_unready(&self, entry: &Entry, met: &mut Met) {
        let (undefined, arbitrated) = (undefined(self.draft, entry), arbitrated(self.draft, entry));
        for (number, rule) in self.draft.rules.iter().enumerate() {
            let mentions = self.mentions[number];
            let by_levels =
                || by_levels_alone(&self.conditions[number], |port| undefined >> port & 1 == 1);
            if mentions & undefined == 0 || !by_levels() {
                continue;
            }
            if rule.nested_only == 0 && mentions & arbitrated != 0 {
                met.insert(Row::Special(coverage::LEVEL_UNREADY));
            }
            if rule_items(entry).any(|word| word.a as usize == number) {
                met.insert(Row::Special(coverage::LEVEL_UNREADY_ITEM));
            }
        }
    }

    /// The rule was certainly evaluated, and has a condition at or above.
    fn meet_evaluated(&self, entry: &Entry, rule: usize, met: &mut Met) {
        for level in self.conditions[rule].iter().filter(|condition| is_level(condition)) {
            let value = PortState::of(entry.after[level.port as usize]).value;
            met.insert(Row::Level(value.cmp(&level.value)));
            match level.value {
                0 => met.insert(Row::Special(coverage::LEVEL_0)),
                255 if value == 255 => met.insert(Row::Special(coverage::LEVEL_255_REACHED)),
                255 => met.insert(Row::Special(coverage::LEVEL_255_MISSED)),
                _ => false,
            };
        }
        if rule_items(entry).any(|word| word.a as usize == rule && word.b != UNDEFINED) {
            met.insert(Row::Special(coverage::LEVEL_IN_ITEM));
        }
        met.extend(self.passed(entry, rule).map(Row::Special));
        self.meet_operators(entry, self.draft.rules[rule].expression as usize, met);
    }

    /// The rule's result was turned by a request alone, of a port that it
    /// mentions at or above levels only.
    fn passed(&self, entry: &Entry, rule: usize) -> Option<&'static str> {
        let Event { kind: event::MODE_REQUEST, index, .. } = entry.event else {
            return None;
        };
        let port = index as usize;
        let (before, after) = (PortState::of(entry.before[port]), PortState::of(entry.after[port]));
        let last = |state: &[u32]| RuleState::of(state[self.draft.ports.len() + rule]).last;
        let gave = gives(self.draft, &entry.before, self.draft.rules[rule].expression) as u32;
        let turned = last(&entry.before) == gave && last(&entry.after) != gave;
        let by_levels = by_levels_alone(&self.conditions[rule], |named| named == port);
        let rises = after.value > before.value;
        let row = if rises { coverage::LEVEL_RISEN } else { coverage::LEVEL_FALLEN };
        (before.defined == 1 && turned && by_levels).then_some(row)
    }

    /// Operators that a condition at or above, as an argument, decides.
    fn meet_operators(&self, entry: &Entry, number: usize, met: &mut Met) {
        let Expression::Operator(operator) = self.draft.expressions[number] else {
            return;
        };
        let sides = [operator.left, operator.right];
        for (side, argument) in self.draft.expressions[number].arguments().enumerate() {
            let other = || gives(self.draft, &entry.after, sides[1 - side]);
            let decides = || match operator.kind {
                expression::AND | expression::NAND => other(),
                expression::OR => !other(),
                _ => true,
            };
            let condition = Condition::of(self.draft.expressions[argument].word());
            if is_level(&condition) && decides() {
                met.insert(Row::LevelIn(operator.kind, side));
            }
            self.meet_operators(entry, argument, met);
        }
    }
}

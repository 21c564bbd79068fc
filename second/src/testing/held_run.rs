//! What `hold TABLE EVENTS LOG [--all]` tells of a case's own print and of prints that are damaged,
//! written again from single events and from the log's lines as text.

use super::coverage::{Met, Row};
use super::held::{damaged, drawing};
use super::held_rows::{self as rows, DAMAGES, Held};
use super::log::{Entry, hold as holds};
use super::played::bytes;
use super::visits_rows::special;
use crate::cases::Case;
use crate::cases::prng::Prng;
use crate::check::{Accepted, accept};
use crate::lists::Run;
use crate::play::take;
use crate::program::{HoldTold, hold};
use crate::state::State;

/// A bad table, whatever the events and the log.
pub fn try_reason(case: &Case, (reason, place): (u32, usize), met: &mut Met) -> Result<(), String> {
    let trouble = format!("herringcart: refused: the table has reason {reason} at word {place}");
    let due = HoldTold { printed: String::new(), trouble: Some(trouble), status: 2 };
    let log = format!("{reason}\n{place}\n");
    let all = case.events.len() % 2 == 1;
    let told = hold(&bytes(&case.table), &bytes(&case.events), log.as_bytes(), all);
    holds(told == due, || format!("{told:?}, not {due:?}"))?;
    special(met, &[(true, rows::LOG_TABLE)]);
    Ok(())
}

/// What a program prints for one event.
#[derive(Clone)]
struct Print {
    answer: u32,
    state: Vec<u32>,
    trace: Vec<u32>,
}

impl Print {
    fn lines(&self) -> Vec<String> {
        let words = self.state.iter().chain(&self.trace);
        let words = words.map(|word| format!("{word:08X}"));
        [self.answer.to_string()].into_iter().chain(words).collect()
    }
}

/// The most events of a case whose print is held.
const MOST_EVENTS: usize = 40;

/// A case from a fresh state, without outcomes: our own print, two damaged ones, and none.
pub fn try_logs(case: &Case, log: &[Entry], met: &mut Met) -> Result<(), String> {
    let rng = &mut drawing(case);
    let log = &log[..log.len().min(MOST_EVENTS)];
    let case = &Case { events: case.events[..log.len()].to_vec(), ..case.clone() };
    let (table, _) = &accept(&case.table).map_err(|_| "the table stands")?;
    let print = |entry: &Entry| Print {
        answer: entry.answer,
        state: entry.after.clone(),
        trace: entry.trace.clone(),
    };
    let own: Vec<Print> = log.iter().map(print).collect();
    let own_texts: Vec<String> =
        own.iter().map(|print| joined(std::slice::from_ref(print))).collect();
    let judge = Judge { table, case, log, own_texts: &own_texts };
    let text = own_texts.concat();
    let all = rng.chance(50);
    let told = judge.try_log(&text, all, met)?;
    let yes = format!("{} events: all as our tables order\n", log.len());
    holds(told == HoldTold { printed: yes, trouble: None, status: 0 }, || format!("{told:?}"))?;
    let row = if all { rows::LOG_YES_ALL } else { rows::LOG_YES };
    let refused = log.iter().any(|entry| entry.answer != 0);
    special(met, &[(true, row), (refused, rows::LOG_REFUSED)]);
    // Words that are not ours, and lines that are not words.
    let others = judge.words_damaged(rng, &own);
    let told = judge.try_log(&others, rng.chance(70), met)?;
    holds(told.status != 0 || others == text, || format!("all as ordered: {others}"))?;
    let others = lines_damaged(rng, &text, case.state.len());
    judge.try_log(&others, rng.chance(50), met)?;
    // No events.
    let without = Case { events: vec![], ..case.clone() };
    let none = Judge { table, case: &without, log: &[], own_texts: &[] };
    let lines = if rng.chance(50) { String::new() } else { others };
    none.try_log(&lines, all, met)?;
    Ok(())
}

fn joined(prints: &[Print]) -> String {
    prints.iter().flat_map(Print::lines).map(|line| line + "\n").collect()
}

/// A text with one fault of its lines, or cut, or going on.
fn lines_damaged(rng: &mut Prng, text: &str, state_length: usize) -> String {
    let mut lines: Vec<String> = text.lines().map(str::to_string).collect();
    let length = lines.len();
    let at = match rng.below(4) {
        0 => 0,
        1 => length - 1,
        _ => rng.below(length),
    };
    let newline = !rng.chance(5);
    match rng.weighed(&[40, 25, 10, 10, 10, 5]) {
        0 => {
            let line = lines[at].clone();
            let end = line.len() - 1;
            lines[at] = match rng.below(12) {
                0 => String::new(),
                1 => format!("{line}\r"),
                2 => format!(" {line}"),
                3 => format!("{line} "),
                4 => format!("{line}0"),
                5 => line[..end].to_string(),
                6 => format!("{}a", &line[..end]),
                7 => format!("{}G", &line[..end]),
                8 => format!("0x{line}"),
                9 => format!("+{}", &line[..end]),
                10 => format!("{line}{line}"),
                _ => "event".to_string(),
            };
        }
        1 => lines.truncate(at),
        2 => lines.push(["0", "00000000", "x"][rng.below(3)].to_string()),
        3 => drop(lines.remove(at)),
        4 => {
            // Among the words of a state there may be fewer then.
            let answer = rng.below(10).to_string();
            lines.insert(at, answer);
        }
        _ => {
            // So many words that behind some answer they are as many as there may be, or more.
            let first = lines.iter().position(|line| line.len() == 8).unwrap_or(length);
            let few = 8192 - state_length - rng.below(2);
            let more = [few, 8193, 9000][rng.below(3)];
            lines.splice(first..first, vec!["0000000A".to_string(); more]);
        }
    }
    let text: String = lines.into_iter().map(|line| line + "\n").collect();
    if newline { text } else { text.strip_suffix('\n').unwrap_or(&text).to_string() }
}

/// A case's events and our own log of them.
struct Judge<'a> {
    table: &'a Accepted<'a>,
    case: &'a Case,
    log: &'a [Entry],
    /// What our program prints for each event.
    own_texts: &'a [String],
}

impl Judge<'_> {
    /// Our step from a state.
    fn ours(&self, number: usize, from: &[u32]) -> Print {
        let entry = &self.log[number];
        if from == entry.before {
            let (answer, state, trace) = (entry.answer, entry.after.clone(), entry.trace.clone());
            return Print { answer, state, trace };
        }
        let state = State::of(self.table, from).expect("its length is right");
        let mut run = Run { table: self.table, state, trace: vec![], outcomes: &[], visits: 0 };
        let answer = take(&mut run, entry.event);
        Print { answer, state: run.state.words, trace: run.trace }
    }

    fn fits(&self, state: &[u32]) -> bool {
        State::of(self.table, state).is_some_and(|state| state.fits())
    }

    /// Our prints with an answer, a trace or a state damaged; then mostly those that follow from
    /// the damaged state, where it fits. So for one event, at times for two.
    fn words_damaged(&self, rng: &mut Prng, own: &[Print]) -> String {
        let mut prints = own.to_vec();
        for _ in 0..1 + rng.below(2) {
            let number = rng.below(prints.len());
            let damage = rng.pick(&DAMAGES);
            let print = &mut prints[number];
            match rng.below(5) {
                0 => print.answer = (print.answer + 1 + rng.below(9) as u32) % 10,
                1 | 2 if !print.trace.is_empty() => {
                    let place = rng.below(print.trace.len());
                    print.trace = damaged(rng, &print.trace, damage, place).0;
                }
                1 => print.trace = vec![rng.word()],
                // A state that fits: one that another event left.
                2 | 3 => print.state = self.log[rng.below(self.log.len())].after.clone(),
                _ => {
                    let place = rng.below(print.state.len());
                    print.state = damaged(rng, &print.state, damage, place).0;
                }
            }
            let mut from = prints[number].state.clone();
            if self.fits(&from) && rng.chance(80) {
                for (later, print) in prints.iter_mut().enumerate().skip(number + 1) {
                    *print = self.ours(later, &from);
                    from.clone_from(&print.state);
                }
            }
        }
        joined(&prints)
    }

    fn try_log(&self, text: &str, all: bool, met: &mut Met) -> Result<HoldTold, String> {
        // Bytes past the last whole word are ignored.
        let past = vec![0xFF; self.log.len() % 4];
        let table = [bytes(&self.case.table), past.clone()].concat();
        let events = [bytes(&self.case.events), past].concat();
        let told = hold(&table, &events, text.as_bytes(), all);
        let due = self.due(text, all, met);
        holds(told == due, || {
            format!("of a log is told {told:?}, not {due:?}; the log: {text:?}")
        })?;
        Ok(told)
    }

    /// What must be told, by the log's lines.
    fn due(&self, text: &str, all: bool, met: &mut Met) -> HoldTold {
        let lines: Vec<&str> = text.split_inclusive('\n').collect();
        let mut printed = String::new();
        let trouble = |printed: String, line: usize, what: &str| HoldTold {
            printed,
            trouble: Some(format!("herringcart: line {line} of the log: {what}")),
            status: 1,
        };
        let (misspelt, length) = ("no answer, and no word", self.case.state.len());
        let (mut at, mut others, mut from) = (0, 0, self.case.state.clone());
        let mut met_row = |row: &'static str| met.extend([Row::Special(row)]);
        let last_line = |line: usize| line == lines.len() && !text.ends_with('\n');
        let mut verdicts = vec![];
        for (number, event) in self.case.events.iter().enumerate() {
            let Some(first) = lines.get(at) else {
                met_row(if at == 0 { rows::LOG_BEFORE } else { rows::LOG_BEFORE_LATER });
                (others > 0).then(|| met_row(rows::LOG_KEPT));
                return trouble(printed, at + 1, &format!("it ends before event {number}"));
            };
            if !is_answer(first) {
                met_row(if is_word(first) {
                    rows::LOG_WORD_FIRST
                } else {
                    rows::LOG_MISSPELT_FIRST
                });
                return trouble(printed, at + 1, misspelt);
            }
            let words = lines[at + 1..].iter().take_while(|line| is_word(line)).count();
            let end = at + 1 + words;
            if words > 8192 {
                met_row(rows::LOG_MANY);
                return trouble(printed, at + 8194, "more than 8192 words behind an answer");
            }
            if lines.get(end).is_some_and(|line| !is_answer(line)) {
                met_row(rows::LOG_MISSPELT);
                last_line(end + 1).then(|| met_row(rows::LOG_NO_NEWLINE));
                (others > 0).then(|| met_row(rows::LOG_KEPT));
                return trouble(printed, end + 1, misspelt);
            }
            if end == lines.len() && words < length {
                met_row(rows::LOG_ENDS_IN);
                (others > 0).then(|| met_row(rows::LOG_KEPT));
                return trouble(printed, end + 1, &format!("it ends in event {number}"));
            }
            let entry = &self.log[number];
            if others == 0 && lines[at..end].concat() == self.own_texts[number] {
                from.clone_from(&entry.after);
                at = end;
                continue;
            }
            let theirs: Vec<String> =
                lines[at..end].iter().map(|line| line.trim_end().into()).collect();
            let ours = self.ours(number, &from);
            let lines = ours.lines();
            let told = apart(&lines, &theirs, length);
            (words < length).then(|| met_row(rows::LOG_SHORT));
            (words == 8192).then(|| met_row(rows::LOG_8192));
            at = end;
            let Some((verdict, told)) = told else {
                let elsewhere = || self.ours(number, &self.log[number].before).lines() != lines;
                (others > 0 && elsewhere()).then(|| met_row(rows::LOG_THEIRS_YES));
                from = ours.state;
                continue;
            };
            others += 1;
            verdicts.push(verdict);
            (ours.answer != 0 && verdict != 6).then(|| met_row(rows::LOG_BOTH_REFUSE));
            printed += &format!("event {number} {event:08X}\n{told}");
            if !all {
                met.extend(verdicts.into_iter().map(|v| Row::Held(Held::Printed(v))));
                return HoldTold { printed, trouble: None, status: 1 };
            }
            let words = theirs[1..].iter().take(length);
            let state: Vec<u32> =
                words.map(|word| u32::from_str_radix(word, 16).unwrap()).collect();
            if self.fits(&state) {
                (state != ours.state).then(|| met_row(rows::LOG_THEIRS));
                from = state;
            } else {
                let short = state.len() != length;
                met_row(if short { rows::LOG_OURS_LENGTH } else { rows::LOG_OURS });
                printed += "the supplier's state does not fit: on from ours\n";
                from = ours.state;
            }
        }
        let events = self.case.events.len();
        if at < lines.len() {
            met_row(if events == 0 { rows::LOG_GOES_ON_NONE } else { rows::LOG_GOES_ON });
            (others > 0).then(|| met_row(rows::LOG_KEPT));
            return trouble(printed, at + 1, "it goes on behind the last event");
        }
        match others {
            0 if events == 0 => met_row(rows::LOG_EMPTY),
            0 => {}
            1 => met_row(rows::LOG_OTHERS),
            _ => met_row(rows::LOG_SEVERAL),
        }
        met.extend(verdicts.into_iter().map(|verdict| Row::Held(Held::Printed(verdict))));
        let how_many = if others == 0 { "all".into() } else { format!("{others} not") };
        printed += &format!("{events} events: {how_many} as our tables order\n");
        HoldTold { printed, trouble: None, status: u8::from(others > 0) }
    }
}

fn is_answer(line: &str) -> bool {
    line.len() == 2
        && line.ends_with('\n')
        && line.starts_with(|digit: char| digit.is_ascii_digit())
}

fn is_word(line: &str) -> bool {
    let digits = line.strip_suffix('\n').unwrap_or_default();
    digits.len() == 8
        && digits.trim_start_matches(|digit| "0123456789ABCDEF".contains(digit)).is_empty()
}

/// How the lines of two prints part: the verdict's number and the lines told.
fn apart(ours: &[String], theirs: &[String], state_length: usize) -> Option<(u32, String)> {
    let named = |name: &str, lines: &[String]| {
        lines.iter().map(|line| format!("{name} {line}\n")).collect::<String>()
    };
    let from = |lines: &[String], from: usize| lines.get(from..).unwrap_or_default().to_vec();
    let both =
        |ours: &[String], theirs: &[String]| named("ours", ours) + &named("supplier", theirs);
    let trace = |lines: &[String]| from(lines, 1 + state_length);
    let (our_trace, their_trace) = (trace(ours), trace(theirs));
    if ours[0] != theirs[0] {
        let (ours, theirs) =
            ([&ours[..1], &our_trace].concat(), [&theirs[..1], &their_trace].concat());
        return Some((6, format!("answers part\n{}", both(&ours, &theirs))));
    }
    let first = |one: &[String], other: &[String]| {
        (0..one.len().max(other.len())).find(|&line| one.get(line) != other.get(line))
    };
    if let Some(word) = first(&our_trace, &their_trace) {
        let (verdict, told) = match (our_trace.get(word), their_trace.get(word)) {
            (Some(_), Some(_)) => (2, "traces part"),
            (Some(_), None) => (3, "the supplier's trace stops"),
            _ => (4, "the supplier's trace goes on"),
        };
        let words = both(&from(&our_trace, word), &from(&their_trace, word));
        return Some((verdict, format!("{told} at word {word}\n{words}")));
    }
    let state = |lines: &[String]| lines[1..lines.len().min(1 + state_length)].to_vec();
    let (our_state, their_state) = (state(ours), state(theirs));
    let word = first(&our_state, &their_state)?;
    let words = both(&from(&our_state, word), &from(&their_state, word));
    Some((5, format!("states part at word {word}\n{words}")))
}

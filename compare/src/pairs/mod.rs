//! `compare pairs`: the second program's pairs of runs through both sides.

mod smaller;
mod sums;

#[cfg(test)]
mod tests;

use std::fmt::Write as _;

use second::cases::agreement::Told;
use second::cases::pairs::{Pair, Part, Sent, pair};
use second::testing;
use second::testing::coverage::Coverage;

use self::smaller::smallest;
use self::sums::Sums;
use crate::differ::Words;
use crate::differ::pairs::{Fault, STRANGE, compare_pair};
use crate::number;
use crate::rows::Of;
use crate::subject::{Proved, Subject};

/// Seeds, each with how many of its first pairs are run.
pub fn pairs(words: &[&str]) -> Result<(), String> {
    let (seeds, rest) = words.as_chunks::<2>();
    if !rest.is_empty() {
        return Err("each seed needs its count".into());
    }
    let (mut sums, mut coverage) = (Sums::default(), Coverage::new());
    for [seed, count] in seeds {
        run(number(seed)?, number(count)?, &mut sums, &mut coverage)?;
    }
    println!("cases  coverage\n{}", Of::Pairs.table(&coverage));
    println!("{sums}");
    sums.all_met()?;
    Of::Pairs.all_met(&coverage)
}

/// A seed's first pairs.
fn run(seed: u64, count: usize, sums: &mut Sums, coverage: &mut Coverage) -> Result<(), String> {
    for place in 0..count {
        let name = || format!("pair {place} of seed {seed}");
        let pair = pair(seed, place);
        let ran = compare_pair(&Proved, &pair).map_err(|_| told(&Proved, &name(), &pair))?;
        // That it is such a pair as Q-14 speaks of is seen there.
        testing::paired(|| pair.clone(), coverage)
            .map_err(|what| format!("{}, second program: {what}", name()))?;
        sums.meet(&pair, &ran);
    }
    Ok(())
}

/// A pair that is at fault, made as small as it goes, with what each call gave and what is wrong.
pub fn told(subject: &impl Subject, name: &str, pair: &Pair) -> String {
    let pair = smallest(subject, pair);
    let Pair { table, b, operator, sides, days } = &pair;
    let mut text =
        format!("{name}, made smaller:\noperator: {operator}\ntable: {}\n", Words(table));
    let _ = writeln!(text, "B: {b}");
    let fault = compare_pair(subject, &pair).err();
    let Some(Fault { ran, difference, broken }) = fault.as_deref() else {
        return text + "nothing is wrong any more: a side does not answer alike when asked again";
    };
    for (side, (sent, told)) in sides.iter().zip(&ran.told).enumerate() {
        let none = if sent.is_empty() { " no call" } else { "" };
        let _ = writeln!(text, "side {side}:{none}{}", calls(sent, told));
    }
    for (number, day) in days.iter().enumerate() {
        for (side, parts) in day.iter().enumerate().filter(|(_, parts)| !parts.is_empty()) {
            let parts: Vec<String> = parts.iter().map(part).collect();
            let _ = writeln!(text, "day {number}, side {side}: {}", parts.join("; "));
        }
    }
    difference.iter().for_each(|difference| text += &difference.to_string());
    broken.iter().for_each(|broken| text += &format!("broken by the proved code: {broken}\n"));
    text
}

/// The calls of a side, each with what the proved code gave for it.
fn calls(sent: &[Sent], told: &[Told]) -> String {
    let mut shared = 0;
    let one = |(number, (sent, told)): (usize, (&Sent, &Told))| {
        let whose = if sent.shared { format!("shared event {shared}") } else { STRANGE.into() };
        shared += usize::from(sent.shared);
        let Sent { event, outcomes, room, .. } = sent;
        let Told { answer, state, words, panel } = told;
        let outcomes =
            if outcomes.is_empty() { "none".into() } else { Words(outcomes).to_string() };
        let panel = if panel.is_empty() {
            String::new()
        } else {
            format!("; panel: \"{}\"", panel.escape_ascii())
        };
        format!(
            "\n  call {number}, {whose}: {event:08X} in {room} words, outcomes: {outcomes}\n    answer {answer}; trace words: {}; state: {}{panel}",
            Words(words),
            Words(state)
        )
    };
    sent.iter().zip(told).enumerate().map(one).collect()
}

fn part(Part { events, room, single }: &Part) -> String {
    let done = if *single { "a single call" } else { "played" };
    format!("{} {done} in {room} words", Words(events))
}

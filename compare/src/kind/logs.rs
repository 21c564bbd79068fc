//! Suppliers' logs that a program is started on: what the second program prints for the same table and events, as document 01's
//! program, with faults of their own. A log is made anew of a smaller table and fewer events, so that its fault stays.

use std::fmt;

use second::cases::prng::Prng;
use second::program::printed;

use super::Kind;

#[derive(Clone, PartialEq, Eq)]
pub enum Log {
    /// These bytes, whatever the table and the events.
    Given(Vec<u8>),
    /// The print itself.
    Own,
    /// With one or more faults that are drawn by this seed.
    Drawn(u64),
    /// With the last word behind the answers of these events changed.
    Changed(Vec<usize>),
    /// Without so many bytes at its end.
    Cut(usize),
}

impl fmt::Debug for Log {
    fn fmt(&self, f: &mut fmt::Formatter) -> fmt::Result {
        match self {
            Log::Given(bytes) => write!(f, "Given(\"{}\")", bytes.escape_ascii()),
            Log::Own => write!(f, "Own"),
            Log::Drawn(seed) => write!(f, "Drawn({seed})"),
            Log::Changed(events) => write!(f, "Changed({events:?})"),
            Log::Cut(bytes) => write!(f, "Cut({bytes})"),
        }
    }
}

impl Log {
    pub fn bytes(&self, table: &[u8], events: &[u8]) -> Vec<u8> {
        let own = || printed(table, events);
        match self {
            Log::Given(bytes) => bytes.clone(),
            Log::Own => own().into_bytes(),
            Log::Drawn(seed) => drawn(*seed, &own()),
            Log::Changed(events) => changed(&own(), events).into_bytes(),
            Log::Cut(bytes) => {
                let own = own().into_bytes();
                own[..own.len().saturating_sub(*bytes)].to_vec()
            }
        }
    }
}

/// What a program is started on for a case: its own print in every fourth, and two with faults, one of them to its end.
pub fn logs(place: usize) -> Vec<Kind> {
    let seed = place as u64;
    let drawn =
        [false, true].map(|all| Kind::Hold { log: Log::Drawn(2 * seed + u64::from(all)), all });
    let own = (place % 4 == 1).then_some(Kind::Hold { log: Log::Own, all: place % 8 == 1 });
    own.into_iter().chain(drawn).collect()
}

/// Whether it is an answer's line, with its newline or without.
fn is_answer(line: &str) -> bool {
    line.trim_end().len() == 1
}

/// The lines of each event's recording.
fn recordings(text: &str) -> Vec<Vec<String>> {
    let mut all: Vec<Vec<String>> = vec![];
    for line in text.lines() {
        match all.last_mut() {
            Some(last) if !is_answer(line) => last.push(line.into()),
            _ => all.push(vec![line.into()]),
        }
    }
    all
}

fn joined(recordings: &[Vec<String>]) -> String {
    recordings.concat().iter().map(|line| format!("{line}\n")).collect()
}

/// A hex digit's lowest bit, or an answer's, is another.
fn turn(line: &mut String) {
    let last = line.pop().and_then(|digit| digit.to_digit(16)).unwrap_or(0) ^ 1;
    line.push_str(&format!("{last:X}"));
}

fn changed(text: &str, events: &[usize]) -> String {
    let mut all = recordings(text);
    for &event in events {
        all.get_mut(event).and_then(|lines| lines.last_mut()).into_iter().for_each(turn);
    }
    joined(&all)
}

/// Faults of whole words and recordings, at times several; and then, in one log of three, one of its lines or bytes.
fn drawn(seed: u64, text: &str) -> Vec<u8> {
    let rng = &mut Prng::new(seed ^ 0x7_0000);
    let mut all = recordings(text);
    for _ in 0..rng.below(4) {
        if all.is_empty() {
            break;
        }
        let (number, other) = (rng.below(all.len()), rng.below(all.len()));
        let line = rng.below(all[number].len());
        match rng.below(6) {
            0 => turn(&mut all[number][line]),
            1 if line > 0 => drop(all[number].remove(line)),
            2 => all[number].insert(line + 1, format!("{:08X}", rng.word())),
            // Another event's words, of which the state fits.
            3 => all[number] = all[other].clone(),
            4 => all[number][0] = rng.below(10).to_string(),
            _ => all[number].truncate(line + 1),
        }
    }
    let text = joined(&all);
    if rng.below(3) > 0 {
        return text.into_bytes();
    }
    misspelt(rng, text)
}

fn misspelt(rng: &mut Prng, text: String) -> Vec<u8> {
    let mut bytes = text.into_bytes();
    let at = rng.below(bytes.len().max(1));
    match rng.below(6) {
        0 => bytes.truncate(at),
        1 => bytes.extend([&b"0\n"[..], b"00000000\n", b"x"][rng.below(3)]),
        2 if !bytes.is_empty() => drop(bytes.remove(at)),
        3 => bytes.insert(at, [b'\n', b'\r', b' ', b'0', b'a', b'G', 0, 255][rng.below(8)]),
        4 if !bytes.is_empty() => bytes[at] = b"\n\r aG0F\0"[rng.below(8)],
        // As many words behind the last answer as there may be, or more.
        _ => bytes.extend(b"0000000A\n".repeat(8192 - 40 + rng.below(80))),
    }
    bytes
}

#[cfg(test)]
mod tests {
    use super::*;
    use crate::bench::{MARKED, marked_run};
    use crate::programs::bytes;

    fn files() -> [Vec<u8>; 2] {
        [bytes(&MARKED, 0), bytes(&marked_run(), 0)]
    }

    fn told(log: &Log, all: bool) -> second::program::HoldTold {
        let [table, events] = files();
        second::program::hold(&table, &events, &log.bytes(&table, &events), all)
    }

    #[test]
    fn the_own_print_is_as_ordered_and_others_are_not() {
        assert_eq!((told(&Log::Own, false).status, told(&Log::Own, true).status), (0, 0));
        for log in [Log::Changed(vec![0]), Log::Changed(vec![3, 10]), Log::Cut(1), Log::Cut(9)] {
            assert_eq!((told(&log, false).status, told(&log, true).status), (1, 1), "{log:?}");
        }
        let two = told(&Log::Changed(vec![3, 10]), true).printed;
        assert!(two.contains("event 3 ") && two.contains("event 10 "), "{two}");
    }

    #[test]
    fn drawn_logs_are_of_every_kind_and_the_same_again() {
        let (mut yes, mut parted, mut trouble) = (0, 0, 0);
        for seed in 0..400 {
            let log = Log::Drawn(seed);
            let first = told(&log, seed % 2 == 1);
            assert_eq!(first, told(&log, seed % 2 == 1));
            match (first.trouble, first.status) {
                (Some(_), _) => trouble += 1,
                (None, 0) => yes += 1,
                _ => parted += 1,
            }
        }
        assert!(yes > 20 && parted > 100 && trouble > 50, "{yes} {parted} {trouble}");
    }
}

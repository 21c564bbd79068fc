//! What the pairs of a comparison had in them: one that compares nothing must not pass.

use std::fmt;

use second::cases::agreement::{Eyes, Stop, Told};
use second::cases::pairs::{Pair, Sent};
use second::words::{Head, TraceWord, edition};

use crate::differ::pairs::Ran;

#[derive(Default)]
pub struct Sums {
    /// Of edition 1 and of edition 2.
    pairs: [usize; 2],
    shared: usize,
    /// Shared events that wrote more words in one run than in the other, and in which a word that is seen stands elsewhere.
    counts: usize,
    places: usize,
    /// Strangers' events that one run has between two shared ones and the other has not.
    taken: usize,
    refused: usize,
    malformed: usize,
    /// All, and those that have lines.
    panels: usize,
    lines: usize,
    /// Ends of calls of two days behind the same shared events, at least one.
    stops: usize,
}

impl Sums {
    pub fn meet(&mut self, pair: &Pair, Ran { told, stops, panels }: &Ran) {
        let second = Head::of(pair.table[0]).edition == edition::TWO;
        self.pairs[usize::from(second)] += 1;
        let eyes = Eyes::of(pair);
        let [one, other] = [0, 1].map(|side| shared(&pair.sides[side], &told[side]));
        for (one, other) in one.into_iter().zip(other) {
            self.shared += 1;
            self.counts += usize::from(one.words.len() != other.words.len());
            self.places += usize::from(seen(&eyes, one) != seen(&eyes, other));
        }
        self.panels += panels;
        self.lines += told.iter().flatten().filter(|told| !told.panel.is_empty()).count();
        let [one, other] = [0, 1].map(|side| gaps(&pair.sides[side], &told[side]));
        for (one, other) in one.iter().zip(&other) {
            beside(one, other).chain(beside(other, one)).for_each(|answer| self.differs(answer));
        }
        self.stops += stops.iter().map(|[one, other]| behind_the_same(one, other)).sum::<usize>();
    }

    fn differs(&mut self, answer: u32) {
        match answer {
            0 => self.taken += 1,
            MALFORMED => self.malformed += 1,
            _ => self.refused += 1,
        }
    }

    /// Fails with the rows of which there is none.
    pub fn all_met(&self) -> Result<(), String> {
        let rows = [
            ("a pair of edition 1", self.pairs[0]),
            ("a pair of edition 2", self.pairs[1]),
            ("a shared event", self.shared),
            ("a shared event whose counts differ", self.counts),
            ("a shared event whose words stand elsewhere", self.places),
            ("a stranger's event that differs, taken", self.taken),
            ("a stranger's event that differs, refused", self.refused),
            ("a stranger's event that differs, malformed", self.malformed),
            ("a panel", self.panels),
            ("a panel with lines", self.lines),
            ("calls of both days that end behind the same shared event", self.stops),
        ];
        let missing: Vec<&str> =
            rows.into_iter().filter(|(_, sum)| *sum == 0).map(|(row, _)| row).collect();
        if missing.is_empty() {
            return Ok(());
        }
        Err(missing.iter().map(|row| format!("no pair met: {row}\n")).collect())
    }
}

impl fmt::Display for Sums {
    fn fmt(&self, f: &mut fmt::Formatter) -> fmt::Result {
        let Sums { pairs: [first, second], shared, counts, places, .. } = self;
        let Sums { taken, refused, malformed, panels, lines, stops, .. } = self;
        let pairs = first + second;
        writeln!(
            f,
            "{pairs} pairs of runs, {first} of edition 1 and {second} of edition 2: no difference, and nothing of a stranger seen"
        )?;
        writeln!(
            f,
            "strangers' events that differ: {taken} taken, {malformed} malformed, {refused} refused otherwise"
        )?;
        writeln!(
            f,
            "{shared} shared events, of which {counts} differ in their total counts and {places} in the positions of words that are seen"
        )?;
        write!(
            f,
            "{panels} panels behind them, {lines} with lines; {stops} places where calls of both days end"
        )
    }
}

/// The answer to an event word that is none.
const MALFORMED: u32 = 4;

fn shared<'a>(sent: &[Sent], told: &'a [Told]) -> Vec<&'a Told> {
    let both = sent.iter().zip(told).filter(|(sent, _)| sent.shared);
    both.map(|(_, told)| told).collect()
}

/// Where in an event's trace words those stand that are seen.
fn seen(eyes: &Eyes, told: &Told) -> Vec<usize> {
    let words = told.words.iter().enumerate();
    let seen = words.filter(|(_, word)| eyes.sees(TraceWord::of(**word).owner));
    seen.map(|(place, _)| place).collect()
}

/// A stranger's event and its answer.
type Strange = (u32, u32);

/// What strangers sent before each shared event, and behind the last.
fn gaps(sent: &[Sent], told: &[Told]) -> Vec<Vec<Strange>> {
    let calls: Vec<_> = sent.iter().zip(told).collect();
    let strange = |&(sent, told): &(&Sent, &Told)| (sent.event, told.answer);
    let gaps = calls.split(|(sent, _)| sent.shared);
    gaps.map(|gap| gap.iter().map(strange).collect()).collect()
}

/// The answers to those events of a gap that the other has not, or not as often.
fn beside(gap: &[Strange], other: &[Strange]) -> impl Iterator<Item = u32> {
    let mut left: Vec<u32> = other.iter().map(|(event, _)| *event).collect();
    let alone = move |(event, _): &&Strange| match left.iter().position(|other| other == event) {
        Some(at) => {
            left.swap_remove(at);
            false
        }
        None => true,
    };
    gap.iter().filter(alone).map(|(_, answer)| *answer).collect::<Vec<_>>().into_iter()
}

fn behind_the_same(one: &[Stop], other: &[Stop]) -> usize {
    let same = |stop: &&Stop| other.iter().any(|other| other.shared == stop.shared);
    one.iter().filter(|stop| stop.shared > 0).filter(same).count()
}

//! Bus logs through both sides, in several rooms; and read by the proved side in parts and in small rooms, which joined must be what
//! the second program reads at once. What is read is lent between guards and must stay as it is; of the words that events are laid into
//! every one is compared, laid or not, with its guards.

use std::fmt;
use std::ops::AddAssign;

use second::buslog::answer::NO_ROOM;
use second::cases::buslogs::{BusLog, MOST_ROOM};
use second::testing::AskedBusLog;
use second::{Converted, Cursor, convert};

use super::{Difference, Lent, Words, as_word, same, same_lent};
use crate::subject::{Reading, Subject};

/// A log to read, with all that is lent for it.
#[derive(Clone, PartialEq, Eq, Debug)]
pub struct AskedLog {
    pub table: Vec<u32>,
    pub interfaces: Vec<u8>,
    pub log: Vec<u8>,
    pub from: Cursor,
    /// How many words are lent for the events.
    pub room: usize,
}

impl From<BusLog> for AskedLog {
    fn from(BusLog { table, interfaces, log, from, room, .. }: BusLog) -> Self {
        AskedLog { table, interfaces, log, from, room }
    }
}

impl From<AskedBusLog> for AskedLog {
    fn from(AskedBusLog { table, interfaces, log, from, room, .. }: AskedBusLog) -> Self {
        AskedLog { table, interfaces, log, from, room }
    }
}

impl AskedLog {
    /// What the second program says of it in so many words.
    pub fn judged(&self, room: usize) -> Converted {
        convert(&self.table, &self.interfaces, &self.log, self.from, room)
    }

    /// The words that are lent for the events, another value at each place.
    fn out(&self) -> Vec<u32> {
        let word = |place: u32| place.wrapping_mul(0x9E37_79B9) ^ 0x5A5A_5A5A;
        (0..self.room as u32).map(word).collect()
    }
}

impl fmt::Display for AskedLog {
    fn fmt(&self, f: &mut fmt::Formatter) -> fmt::Result {
        let AskedLog { table, interfaces, log, from, room } = self;
        let Cursor { lines, first, last, given } = from;
        writeln!(f, "table: {}", Words(table))?;
        writeln!(f, "interfaces: \"{}\"", interfaces.escape_ascii())?;
        writeln!(f, "log: \"{}\"", log.escape_ascii())?;
        writeln!(f, "cursor: lines {lines}, first {first}, last {last}, given {given}")?;
        write!(f, "words of room: {room}")
    }
}

/// The answers that a reading has.
const ANSWERS: [u32; 7] = [0, 1, 11, 12, 13, 14, 15];

/// How often each answer was met; and of logs read in parts and in small rooms how many there were, and how many calls more than one each.
#[derive(Clone, Copy, PartialEq, Eq, Default, Debug)]
pub struct Logs {
    answers: [u64; ANSWERS.len()],
    joined: u64,
    resumed: u64,
}

impl Logs {
    fn meet(&mut self, answer: u32) {
        let place = ANSWERS.iter().position(|&known| known == answer);
        place.into_iter().for_each(|place| self.answers[place] += 1);
    }

    /// Fails with the answers that nothing met, and where no log was gone on with.
    pub fn all_met(&self) -> Result<(), String> {
        let none = ANSWERS.iter().zip(self.answers).filter(|(_, met)| *met == 0);
        let none: String =
            none.map(|(answer, _)| format!("no bus log has answer {answer}\n")).collect();
        match (none.is_empty(), self.resumed) {
            (true, 1..) => Ok(()),
            (true, 0) => Err("no bus log was gone on with".into()),
            _ => Err(none),
        }
    }
}

impl AddAssign for Logs {
    fn add_assign(&mut self, more: Self) {
        self.answers.iter_mut().zip(more.answers).for_each(|(all, more)| *all += more);
        self.joined += more.joined;
        self.resumed += more.resumed;
    }
}

impl fmt::Display for Logs {
    fn fmt(&self, f: &mut fmt::Formatter) -> fmt::Result {
        let Logs { answers, joined, resumed } = self;
        let told = ANSWERS.iter().zip(answers).map(|(answer, met)| format!("{met} of {answer}"));
        let (all, told) = (answers.iter().sum::<u64>(), told.collect::<Vec<_>>().join(", "));
        write!(
            f,
            "{all} readings of bus logs by answer: {told}; {joined} in parts and small rooms"
        )?;
        write!(f, ", gone on with {resumed} times")
    }
}

/// In the room given, in just enough, in a word less and in none; then in parts and in small rooms. A difference says what was asked.
pub fn compare_log(subject: &impl Subject, asked: &AskedLog) -> Result<Logs, Difference> {
    let whole = asked.judged(MOST_ROOM);
    let needs = whole.events.len();
    let mut rooms = vec![asked.room, needs, needs.saturating_sub(1), 0];
    rooms.sort_unstable();
    rooms.dedup();
    let mut met = Logs::default();
    for room in rooms {
        let asked = AskedLog { room, ..asked.clone() };
        met.meet(compare_call(subject, &asked).map_err(|difference| of(difference, &asked))?);
    }
    compare_joined(subject, asked, &whole, &mut met).map_err(|difference| of(difference, asked))?;
    Ok(met)
}

fn of(difference: Difference, asked: &AskedLog) -> Difference {
    Difference { log: Some(Box::new(asked.clone())), ..difference }
}

/// One call by both sides; gives the answer.
fn compare_call(subject: &impl Subject, asked: &AskedLog) -> Result<u32, Difference> {
    let (table, list) = (Lent::of(&asked.table), Lent::of(&asked.interfaces));
    let (log, out) = (Lent::of(&asked.log), Lent::of(&asked.out()));
    let (mut own_table, mut own_list, mut own_log) = (table.clone(), list.clone(), log.clone());
    let (mut laid, mut expected) = (out.clone(), out);
    let given = subject.read_log(
        own_table.words(),
        own_list.words(),
        own_log.words(),
        asked.from,
        laid.words(),
    );
    let second = asked.judged(asked.room);
    same(|| NUMBERS.into(), &given.words(), &judged_words(&second))?;
    expected.words()[..second.events.len()].copy_from_slice(&second.events);
    same_lent(&|| "bus log, the words lent for events".into(), &laid, &expected)?;
    same_lent(&|| "bus log, table".into(), &own_table, &table)?;
    same_lent(&|| "bus log, interfaces".into(), &own_list, &list)?;
    same_lent(&|| "bus log, its bytes".into(), &own_log, &log)?;
    Ok(second.answer)
}

const NUMBERS: &str = "bus log: answer, bytes, events; and in two words each: line; cursor's lines, first, last, given";

impl Reading {
    fn words(&self) -> Vec<u32> {
        let Cursor { lines, first, last, given } = self.cursor;
        let halves = |number: u64| [(number >> 32) as u32, number as u32];
        let long = [self.line, lines, first, last, given].into_iter().flat_map(halves);
        [self.answer, as_word(self.bytes), as_word(self.events)].into_iter().chain(long).collect()
    }
}

fn judged_words(converted: &Converted) -> Vec<u32> {
    let &Converted { answer, line, bytes, ref events, cursor } = converted;
    Reading { answer, line, bytes, events: events.len(), cursor }.words()
}

/// Small rooms, each for so many events in all: the table is checked anew for each.
const SMALL: [usize; 2] = [1, 3];
const FEW: usize = 9;

/// Line by line, and at once in small rooms; and in two parts that are cut behind a newline, in a small room.
fn compare_joined(
    subject: &impl Subject,
    asked: &AskedLog,
    whole: &Converted,
    met: &mut Logs,
) -> Result<(), Difference> {
    let log = &asked.log[..];
    let lines: Vec<&[u8]> = log.split_inclusive(|&byte| byte == b'\n').collect();
    let half = lines[..lines.len() / 2].iter().map(|line| line.len()).sum();
    let (front, back) = log.split_at(half);
    let mut join = |what: &str, parts: &[&[u8]], room: usize, whole: &Converted, most: usize| {
        let (joined, calls) = joined(subject, asked, parts, room, most);
        met.joined += 1;
        met.resumed += calls - 1;
        let what = || format!("{what}, joined; {NUMBERS}");
        same(what, &judged_words(&joined), &judged_words(whole))?;
        same(|| "bus log in parts, events".into(), &joined.events, &whole.events)
    };
    join("line by line", &lines, MOST_ROOM, whole, MOST_ROOM)?;
    let few = asked.judged(FEW);
    for room in SMALL {
        join(&format!("in {room} words at a time"), &[log], room, &few, FEW)?;
    }
    join("in two parts, two words at a time", &[front, back], 2, &few, FEW)
}

/// A log read by the one side part after part, each gone on with where there was no room, up to so many events; and how many calls it took.
/// A log of no byte is a part too.
fn joined(
    subject: &impl Subject,
    asked: &AskedLog,
    parts: &[&[u8]],
    room: usize,
    most: usize,
) -> (Converted, u64) {
    let mut done = Converted { answer: 0, line: 0, bytes: 0, events: vec![], cursor: asked.from };
    let (mut calls, none) = (0, [&[][..]]);
    for part in if parts.is_empty() { &none[..] } else { parts } {
        let mut at = 0;
        loop {
            let mut out = vec![0xA5A5_A5A5; room.min(most - done.events.len())];
            let (table, list) = (&asked.table, &asked.interfaces);
            let given = subject.read_log(table, list, &part[at..], done.cursor, &mut out);
            calls += 1;
            done.events.extend(&out[..given.events.min(out.len())]);
            (done.answer, done.line, done.cursor) = (given.answer, given.line, given.cursor);
            (done.bytes, at) = (done.bytes + given.bytes, part.len().min(at + given.bytes));
            // A side that does not get on is wrong, and must not go on for ever.
            if given.answer != NO_ROOM || given.events == 0 {
                break;
            }
        }
        if done.answer != 0 {
            break;
        }
    }
    (done, calls)
}

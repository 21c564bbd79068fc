//! Bus logs from the bench, turned into event words: request Q-12.

use std::ops::RangeInclusive;

use crate::check::accept;
use crate::words::{Event, Section, event};

/// The answers beside 0, every line was read.
pub mod answer {
    /// The table has a reason.
    pub const TABLE: u32 = 1;
    pub const NO_ROOM: u32 = 11;
    pub const MISSPELT: u32 = 12;
    /// The list isn't N different names.
    pub const INTERFACES: u32 = 13;
    pub const BACK: u32 = 14;
    pub const NOT_LISTED: u32 = 15;
}

/// "the ticks for each whole 10 milliseconds", in microseconds.
pub const TICK_TIME: u64 = 10_000;
const SECOND: u64 = 1_000_000;
/// The most bytes of a line that is spelt right, with its newline.
pub const LONGEST_LINE: usize = 62;
/// Both bits make an eight-digit identifier a bus-off.
const ERROR_BIT: u32 = 0x2000_0000;
const BUS_OFF_BIT: u32 = 0x40;

/// How far a log is read. All zero is before its first line.
#[derive(Clone, Copy, PartialEq, Eq, PartialOrd, Ord, Debug, Default)]
pub struct Cursor {
    /// Lines read so far.
    pub lines: u64,
    /// The first line's time in microseconds.
    pub first: u64,
    /// The time of the line before.
    pub last: u64,
    /// Ticks given so far.
    pub given: u64,
}

#[derive(Clone, PartialEq, Eq, Debug)]
pub struct Converted {
    pub answer: u32,
    /// The refused line's number; 0 where no line is refused.
    pub line: u64,
    /// How many bytes the lines read have.
    pub bytes: usize,
    pub events: Vec<u32>,
    /// From where to go on.
    pub cursor: Cursor,
}

/// Reads the lines of a log from the cursor on, with so many words of output lent.
pub fn convert(
    table: &[u32],
    interfaces: &[u8],
    log: &[u8],
    from: Cursor,
    room: usize,
) -> Converted {
    match Bench::of(table, interfaces) {
        Ok(bench) => bench.convert(log, from, room),
        Err(refused) => {
            let answer = refused.answer();
            Converted { answer, line: 0, bytes: 0, events: vec![], cursor: from }
        }
    }
}

/// What is "refused as line 0".
#[derive(Clone, Copy, PartialEq, Eq, Debug)]
pub enum NoBench {
    Table { reason: u32, place: usize },
    Interfaces { networks: usize },
}

impl NoBench {
    pub fn answer(self) -> u32 {
        match self {
            NoBench::Table { .. } => answer::TABLE,
            NoBench::Interfaces { .. } => answer::INTERFACES,
        }
    }
}

/// The interfaces' names, each with its network's bus-off under the owner.
pub struct Bench<'a>(Vec<(&'a [u8], u32)>);

impl<'a> Bench<'a> {
    pub fn of(table: &[u32], interfaces: &'a [u8]) -> Result<Self, NoBench> {
        let (table, _) =
            accept(table).map_err(|(reason, place)| NoBench::Table { reason, place })?;
        let networks = table.count(Section::Networks);
        let names = names(interfaces, networks).ok_or(NoBench::Interfaces { networks })?;
        let bus_off = |(network, name)| {
            let (kind, owner) = (event::BUS_OFF, table.network(network).owner);
            (name, Event { kind, owner, index: network as u32, value: 0, zero: 0 }.word())
        };
        Ok(Bench(names.into_iter().enumerate().map(bus_off).collect()))
    }

    /// As `convert`, for table and list are looked at already.
    pub fn convert(&self, log: &[u8], from: Cursor, room: usize) -> Converted {
        let mut done = Converted { answer: 0, line: 0, bytes: 0, events: vec![], cursor: from };
        for line in log.split_inclusive(|&byte| byte == b'\n') {
            if let Err(answer) = self.take(line, room, &mut done) {
                done.answer = answer;
                done.line = done.cursor.lines.saturating_add(1);
                break;
            }
            done.bytes += line.len();
        }
        done
    }

    /// One line; or the answer it is refused by. Q-12: "Every refusal keeps the events written
    /// before it", so the ticks that fitted count as given where there is no room for the next.
    fn take(&self, line: &[u8], room: usize, done: &mut Converted) -> Result<(), u32> {
        let frame = frame(line).ok_or(answer::MISSPELT)?;
        let Cursor { lines, first, last, given } = done.cursor;
        // "The first line's time is zero".
        let first = if lines == 0 { frame.time } else { first };
        if lines > 0 && frame.time < last {
            return Err(answer::BACK);
        }
        let listed = self.0.iter().find(|(name, _)| *name == frame.name);
        let &(_, bus_off) = listed.ok_or(answer::NOT_LISTED)?;
        let passed = frame.time.saturating_sub(first) / TICK_TIME;
        for tick in given..passed {
            done.cursor.given = tick;
            put(done, room, event::TICK)?;
        }
        let given = given.max(passed);
        done.cursor.given = given;
        if frame.bus_off {
            put(done, room, bus_off)?;
        }
        done.cursor = Cursor { lines: lines.saturating_add(1), first, last: frame.time, given };
        Ok(())
    }
}

/// The next event; or the answer to a full output.
fn put(done: &mut Converted, room: usize, event: u32) -> Result<(), u32> {
    if done.events.len() >= room {
        return Err(answer::NO_ROOM);
    }
    done.events.push(event);
    Ok(())
}

/// A list's names, one a line; None where they aren't as many different ones as there are
/// networks.
fn names(list: &[u8], networks: usize) -> Option<Vec<&[u8]>> {
    let lines: Vec<&[u8]> = list.split_inclusive(|&byte| byte == b'\n').collect();
    if lines.len() != networks {
        return None;
    }
    let name = |line: &&'_ [u8]| matches!(run(line, in_name, NAME), Some((_, b"\n")));
    let names = lines.iter().all(name);
    let different = (1..networks).all(|number| !lines[..number].contains(&lines[number]));
    (names && different).then(|| lines.iter().map(|line| &line[..line.len() - 1]).collect())
}

/// What a line says.
struct Frame<'a> {
    /// In microseconds.
    time: u64,
    name: &'a [u8],
    /// By its identifier.
    bus_off: bool,
}

const NAME: RangeInclusive<usize> = 1..=15;

fn in_name(byte: &u8) -> bool {
    !matches!(byte, b' ' | b'\n')
}

/// The bytes of a kind in front, as many as there are, and those behind them; None where they are
/// too few or too many.
fn run(
    bytes: &[u8],
    kind: impl Fn(&u8) -> bool,
    length: RangeInclusive<usize>,
) -> Option<(&[u8], &[u8])> {
    let end = bytes.iter().position(|byte| !kind(byte)).unwrap_or(bytes.len());
    length.contains(&end).then(|| bytes.split_at(end))
}

/// What a line with its newline says; None of a line that is misspelt.
fn frame(line: &[u8]) -> Option<Frame<'_>> {
    let (digit, hex) = (u8::is_ascii_digit, u8::is_ascii_hexdigit);
    let (seconds, rest) = run(line.strip_prefix(b"(")?, digit, 1..=10)?;
    let (parts, rest) = run(rest.strip_prefix(b".")?, digit, 6..=6)?;
    let (name, rest) = run(rest.strip_prefix(b") ")?, in_name, NAME)?;
    let (identifier, rest) = run(rest.strip_prefix(b" ")?, hex, 3..=8)?;
    let (data, rest) = run(rest.strip_prefix(b"#")?, hex, 0..=16)?;
    if !matches!(identifier.len(), 3 | 8) || data.len() % 2 != 0 || rest != b"\n" {
        return None;
    }
    let time = number(seconds, 10) * SECOND + number(parts, 10);
    let has = |bit: u32| number(identifier, 16) & u64::from(bit) != 0;
    let bus_off = identifier.len() == 8 && has(ERROR_BIT) && has(BUS_OFF_BIT);
    Some(Frame { time, name, bus_off })
}

/// What digits say.
fn number(digits: &[u8], base: u32) -> u64 {
    let digit = |byte: u8| (byte as char).to_digit(base).expect("a digit");
    digits.iter().fold(0, |number, &byte| number * u64::from(base) + u64::from(digit(byte)))
}

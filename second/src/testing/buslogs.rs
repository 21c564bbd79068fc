//! Request Q-12: drawn bus logs, converted another way. A line is held against every shape that a
//! line of its length can have, and times are reckoned in numbers that may go below zero.

use std::collections::BTreeSet;
use std::io::Read;

use super::buslogs_rows::{self as rows, Log};
use super::coverage::{Met, Row};
use super::log::hold;
use super::played::bytes;
use super::visits_rows::special;
use crate::buslog::{Converted, Cursor, convert};
use crate::buslog_run::{self, write_canlog};
use crate::cases::buslogs::{BusLog, MOST_ROOM};
use crate::check;
use crate::listing_run::Told;
use crate::program::played;

/// What a line says, by its text.
struct Line<'a> {
    seconds: &'a [u8],
    name: &'a [u8],
    identifier: &'a [u8],
    data: &'a [u8],
    time: i128,
}

/// The kinds of a line's bytes: digit, of a name, hex; all others are themselves.
const DIGIT: u8 = b'd';
const NAMED: u8 = b'n';
const HEX: u8 = b'h';

fn is_kind(byte: u8, kind: u8) -> bool {
    match kind {
        DIGIT => b"0123456789".contains(&byte),
        NAMED => byte != b' ' && byte != b'\n',
        HEX => b"0123456789abcdefABCDEF".contains(&byte),
        _ => byte == kind,
    }
}

/// A line against all shapes of its length.
fn judged(line: &[u8]) -> Option<Line<'_>> {
    let many = |kind: u8, count: usize| vec![kind; count];
    for (seconds, name, identifier) in
        (1..=10).flat_map(|s| (1..=15).flat_map(move |n| [3, 8].map(|i| (s, n, i))))
    {
        let Some(data) = line.len().checked_sub(seconds + name + identifier + 13) else {
            continue;
        };
        if data > 16 || data % 2 == 1 {
            continue;
        }
        let time = [&b"("[..], &many(DIGIT, seconds), b".dddddd) "].concat();
        let named = [&many(NAMED, name)[..], b" "].concat();
        let frame = [&many(HEX, identifier)[..], b"#", &many(HEX, data), b"\n"].concat();
        let shape = [&time[..], &named, &frame].concat();
        if line.iter().zip(&shape).all(|(&byte, &kind)| is_kind(byte, kind)) {
            let digits: Vec<u8> =
                line[1..seconds + 8].iter().copied().filter(|&d| d != b'.').collect();
            let from = time.len() + named.len();
            return Some(Line {
                seconds: &line[1..=seconds],
                name: &line[time.len()..from - 1],
                identifier: &line[from..from + identifier],
                data: &line[from + identifier + 1..line.len() - 1],
                time: String::from_utf8(digits).ok()?.parse().ok()?,
            });
        }
    }
    None
}

impl Line<'_> {
    /// Its identifier's bits, where it has eight digits.
    fn bits(&self) -> Option<u32> {
        let text = std::str::from_utf8(self.identifier).ok()?;
        u32::from_str_radix(text, 16).ok().filter(|_| text.len() == 8)
    }

    fn is_bus_off(&self) -> bool {
        self.bits().is_some_and(|bits| bits & 0x2000_0040 == 0x2000_0040)
    }
}

/// The names of a list that stands.
fn listed(list: &[u8], networks: usize) -> Option<Vec<&[u8]>> {
    let mut names: Vec<&[u8]> = list.split(|&byte| byte == b'\n').collect();
    let ended = names.pop() == Some(b"");
    let stand = names.iter().all(|name| (1..=15).contains(&name.len()) && !name.contains(&b' '));
    let different = names.iter().collect::<BTreeSet<_>>().len() == names.len();
    (ended && stand && different && names.len() == networks).then_some(names)
}

/// A bus-off's word, by the table's words alone.
fn bus_off(table: &[u32], network: usize) -> u32 {
    let ports = (table[0] >> 16 & 0xFF) as usize;
    let owner = table[3 + ports + 2 * network] >> 28;
    0x5000_0000 | owner << 24 | (network as u32) << 16
}

/// What a log must give, and what it met.
struct Due<'a> {
    asked: &'a BusLog,
    names: Vec<&'a [u8]>,
    done: Converted,
    met: Met,
}

/// What must be answered, with what was met.
fn due(asked: &BusLog) -> (Converted, Met) {
    let blank =
        |answer| Converted { answer, line: 0, bytes: 0, events: vec![], cursor: asked.from };
    let mut met = Met::new();
    let reason = check(&asked.table).reason;
    let networks = asked.table.first().map_or(0, |word| (word >> 8 & 0xFF) as usize);
    let names = listed(&asked.interfaces, networks);
    let first = asked.log.split_inclusive(|&byte| byte == b'\n').next();
    let misspelt = first.is_some_and(|line| judged(line).is_none());
    if reason != 0 {
        met.insert(Row::BusLog(Log::Reason(reason)));
        if names.is_none() {
            met.insert(Row::BusLog(Log::Before(1, 13)));
        }
        return (blank(1), met);
    }
    let Some(names) = names else {
        met.extend(asked.list.map(|list| Row::BusLog(Log::List(list))));
        if misspelt {
            met.insert(Row::BusLog(Log::Before(13, 12)));
        }
        return (blank(13), met);
    };
    met.insert(Row::BusLog(Log::Networks(networks)));
    let mut due = Due { asked, names, done: blank(0), met };
    for line in asked.log.split_inclusive(|&byte| byte == b'\n') {
        due.take(line);
        if due.done.answer != 0 {
            break;
        }
        due.done.bytes += line.len();
    }
    (due.done, due.met)
}

impl Due<'_> {
    fn refuse(&mut self, answer: u32, also: &[(bool, u32)]) {
        let lines = u128::from(self.done.cursor.lines) + 1;
        self.done.line = lines.min(u128::from(u64::MAX)) as u64;
        self.done.answer = answer;
        let before = also.iter().filter(|(holds, _)| *holds);
        self.met.extend(before.map(|&(_, other)| Row::BusLog(Log::Before(answer, other))));
    }

    fn take(&mut self, text: &[u8]) {
        let Cursor { lines, first, last, given } = self.done.cursor;
        let Some(line) = judged(text) else {
            special(&mut self.met, &[(text.last() != Some(&b'\n'), rows::NO_NEWLINE)]);
            let (back, unlisted) = self.also(text);
            return self.refuse(12, &[(back, 14), (unlisted, 15)]);
        };
        let zero = if lines == 0 { line.time } else { i128::from(first) };
        let back = lines > 0 && line.time < i128::from(last);
        let network = self.names.iter().position(|&name| name == line.name);
        let passed = (line.time - zero).max(0) / 10_000;
        let ticks = (passed - i128::from(given)).max(0) as u128;
        let events = ticks + u128::from(line.is_bus_off());
        let free = (self.asked.room - self.done.events.len()) as u128;
        if back {
            special(&mut self.met, &[(line.time > zero, rows::BACK_LATER)]);
            return self.refuse(14, &[(network.is_none(), 15), (events > free, 11)]);
        }
        let Some(network) = network else {
            return self.refuse(15, &[(events > free, 11)]);
        };
        self.meet(&line, ticks, free, network);
        let fitting = ticks.min(free);
        self.done.events.extend(vec![0; fitting as usize]);
        self.done.cursor.given += fitting as u64;
        if events > free {
            return self.refuse(11, &[]);
        }
        if line.is_bus_off() {
            self.done.events.push(bus_off(&self.asked.table, network));
        }
        let (first, last) = (zero as u64, line.time as u64);
        let given = given.max(passed as u64);
        self.done.cursor = Cursor { lines: lines.max(lines.wrapping_add(1)), first, last, given };
    }

    /// Whether a misspelt line's time, as far as it can be read, goes back; and whether none of the
    /// names stands in it.
    fn also(&self, text: &[u8]) -> (bool, bool) {
        let digits: Vec<u8> = text.iter().copied().take_while(|&byte| byte != b')').collect();
        let digits: String =
            String::from_utf8_lossy(&digits).chars().filter(char::is_ascii_digit).collect();
        let time: u128 = digits.parse().unwrap_or(u128::MAX);
        let Cursor { lines, last, .. } = self.done.cursor;
        let unlisted = !self.names.iter().any(|name| text.windows(name.len()).any(|w| w == *name));
        (lines > 0 && time < u128::from(last), unlisted)
    }

    /// What a line that is spelt right, not back and listed meets.
    fn meet(&mut self, line: &Line, ticks: u128, free: u128, network: usize) {
        self.meet_frame(line, network);
        let Cursor { lines, first, last, given } = self.done.cursor;
        let (gap, off) = (line.time - i128::from(last), line.is_bus_off());
        let full = ticks + u128::from(off) > free;
        let passed = (line.time - i128::from(first)) / 10_000;
        let rows = [
            (lines > 0 && gap == 0, rows::EQUAL_TIMES),
            (ticks > 1, rows::SEVERAL_TICKS),
            (lines > 0 && ticks == 1 && gap < 10_000, rows::OWED),
            (lines > 0 && gap > 10_000 && ticks * 10_000 + 5_000 < gap as u128, rows::OVER),
            (ticks > MOST_ROOM as u128, rows::GAP),
            (off && ticks > 0 && !full, rows::TICK_BEFORE),
            (full && free == 0, rows::NO_ROOM_FIRST),
            (ticks > free && free > 0, rows::NO_ROOM_TICKS),
            (off && full && ticks == free && ticks > 0, rows::NO_ROOM_BUS_OFF),
            (!full && free == 0 && self.asked.room > 0, rows::FULL),
            (!full && self.asked.room == 0, rows::ROOM_0),
            (lines > 0 && i128::from(first) > line.time, rows::FIRST_LATER),
            (lines > 0 && i128::from(given) > passed, rows::GIVEN_MORE),
            (lines == u64::MAX, rows::HELD),
        ];
        special(&mut self.met, &rows);
    }

    /// What its text meets.
    fn meet_frame(&mut self, line: &Line, network: usize) {
        let (off, bits) = (line.is_bus_off(), line.bits());
        let three = std::str::from_utf8(line.identifier).ok().filter(|text| text.len() == 3);
        let three = three.and_then(|text| u32::from_str_radix(text, 16).ok());
        let hex = [line.identifier, line.data].concat();
        let has = |bit: u32| bits.is_some_and(|bits| bits & bit != 0);
        let owner = bus_off(&self.asked.table, network) >> 24 & 0xF;
        let rows = [
            (three.is_some(), rows::THREE),
            (three.is_some_and(|bits| bits & 0x40 != 0), rows::THREE_BITS),
            (hex.iter().any(u8::is_ascii_lowercase), rows::SMALL),
            (hex.iter().any(u8::is_ascii_uppercase), rows::CAPITAL),
            (has(0x2000_0000) && !has(0x40), rows::ERROR_ALONE),
            (has(0x40) && !has(0x2000_0000), rows::BUS_OFF_ALONE),
            (off && bits != Some(0x2000_0040), rows::OTHER_BITS),
            (off && owner == 0, rows::PLATFORMS),
            (off && owner != 0, rows::OPERATORS),
            (line.seconds.len() > 1 && line.seconds[0] == b'0', rows::LEADING_ZERO),
            (line.name.iter().any(|byte| !byte.is_ascii_alphanumeric()), rows::ODD_NAME),
        ];
        special(&mut self.met, &rows);
        let lengths = [
            Log::Seconds(line.seconds.len()),
            Log::Name(line.name.len()),
            Log::Pairs(line.data.len() / 2),
        ];
        self.met.extend(lengths.map(Row::BusLog));
    }
}

/// Converts a drawn log, whole and in parts, and has the programs convert and play it.
pub fn try_bus_log(asked: &BusLog) -> Result<Met, String> {
    let (due, mut met) = due(asked);
    let BusLog { table, interfaces, log, from, room, .. } = asked;
    let done = convert(table, interfaces, log, *from, *room);
    hold(done == due, || format!("{}: {done:?}, not {due:?}", shown(asked)))?;
    met.insert(Row::BusLog(Log::Answer(done.answer)));
    if let [way] = asked.spelling[..] {
        let right = log.split_inclusive(|&byte| byte == b'\n').all(|line| judged(line).is_some());
        match done.answer {
            1 | 13 => {}
            12 => drop(met.insert(Row::BusLog(Log::Misspelt(way)))),
            _ if right => drop(met.insert(Row::BusLog(Log::Stands(way)))),
            _ => {}
        }
    }
    let odd = Cursor { lines: 0, ..*from } == *from && *from != Cursor::default();
    special(
        &mut met,
        &[
            (log.is_empty() && done.answer == 0, rows::EMPTY),
            (odd && done.cursor.lines > 0, rows::START_ODD),
            (from.lines > 0 && done.cursor.lines > from.lines, rows::BEHIND),
            (done.answer == 0 && done.events.len() == *room && *room > 0, rows::JUST),
        ],
    );
    let most = self::due(&BusLog { room: MOST_ROOM, ..asked.clone() }).0;
    if most.answer != 11 {
        try_resumed(asked, &most, &mut met)?;
        try_cut(asked, &most, &mut met)?;
        try_programs(asked, &mut met)?;
    }
    Ok(met)
}

fn shown(asked: &BusLog) -> String {
    let (list, log) = (&asked.interfaces, &asked.log);
    format!("list {:?}, log {:?}", list.escape_ascii().to_string(), log.escape_ascii().to_string())
}

/// In little room, emptied each time, it gives what it gives in much.
fn try_resumed(asked: &BusLog, most: &Converted, met: &mut Met) -> Result<(), String> {
    let room = 1 + asked.log.len() % 5 + most.events.len() / 20;
    let (mut cursor, mut bytes, mut events, mut times) = (asked.from, 0, vec![], 0);
    let done = loop {
        let rest = &asked.log[bytes..];
        let mut done = convert(&asked.table, &asked.interfaces, rest, cursor, room);
        let within = done.answer == 11 && done.cursor.given > cursor.given;
        special(met, &[(within, rows::RESUMED_IN)]);
        cursor = done.cursor;
        bytes += done.bytes;
        events.append(&mut done.events);
        if done.answer != 11 {
            break Converted { bytes, events, ..done };
        }
        times += 1;
    };
    special(met, &[(times >= 3, rows::RESUMED)]);
    hold(done == *most, || format!("resumed in {room}, {}: {done:?}, not {most:?}", shown(asked)))
}

/// Cut at a line and gone on with, it gives the same.
fn try_cut(asked: &BusLog, most: &Converted, met: &mut Met) -> Result<(), String> {
    let ends = asked.log.iter().enumerate().filter(|&(_, &byte)| byte == b'\n');
    for (end, _) in ends.take(4) {
        let (front, behind) = asked.log.split_at(end + 1);
        let convert = |log, from| convert(&asked.table, &asked.interfaces, log, from, MOST_ROOM);
        let first = convert(front, asked.from);
        if first.answer != 0 {
            return hold(first == *most, || format!("cut: {first:?}, not {most:?}"));
        }
        let second = convert(behind, first.cursor);
        let bytes = first.bytes + second.bytes;
        let events = [&first.events[..], &second.events].concat();
        let both = Converted { bytes, events, ..second };
        hold(both == *most, || format!("cut, {}: {both:?}, not {most:?}", shown(asked)))?;
        special(met, &[(!behind.is_empty(), rows::CUT)]);
    }
    Ok(())
}

/// A log that is read in small blocks.
struct Blocks<'a>(&'a [u8], usize);

impl Read for Blocks<'_> {
    fn read(&mut self, out: &mut [u8]) -> std::io::Result<usize> {
        let length = self.1.min(out.len());
        self.0.read(&mut out[..length])
    }
}

/// What the programs tell, from the first line on.
fn try_programs(asked: &BusLog, met: &mut Met) -> Result<(), String> {
    let room = MOST_ROOM;
    let (due, _) = due(&BusLog { from: Cursor::default(), room, ..asked.clone() });
    if due.answer == 11 {
        return Ok(());
    }
    let (table, events) = (bytes(&asked.table), bytes(&due.events));
    let trouble = trouble(asked, &due);
    let status = u8::from(!trouble.is_empty());
    let told = buslog_run::canlog(&table, &asked.interfaces, &asked.log);
    let written = Told { printed: events.clone(), trouble: trouble.clone(), status };
    hold(told == written, || format!("{}: {told:?}, not {written:?}", shown(asked)))?;
    let mut out = vec![];
    let blocks = &mut Blocks(&asked.log, 1 + asked.log.len() % 97);
    let line = write_canlog(&mut out, &table, &asked.interfaces, blocks);
    let line = line.expect("memory takes it").map_or(String::new(), |line| line + "\n");
    hold((&out, &line) == (&events, &trouble), || format!("in blocks: {out:?}, {line}"))?;
    let told = buslog_run::day(&table, &asked.interfaces, &asked.log);
    let day = Told { printed: played(&table, &events).into_bytes(), trouble, status };
    hold(told == day, || format!("{}: {told:?}, not {day:?}", shown(asked)))?;
    let any = !events.is_empty();
    special(
        met,
        &[(any && due.answer == 0, rows::CANLOG), (any && due.answer != 0, rows::CANLOG_REFUSED)],
    );
    Ok(())
}

/// The line on standard error, as it was decided.
fn trouble(asked: &BusLog, due: &Converted) -> String {
    let checked = check(&asked.table);
    let networks = asked.table.first().map_or(0, |word| word >> 8 & 0xFF);
    let what = match due.answer {
        0 => return String::new(),
        1 => format!("the table has reason {} at word {}", checked.reason, checked.place),
        12 => "misspelt".into(),
        14 => "the time goes back".into(),
        15 => "an interface that is not listed".into(),
        _ => match networks {
            0 => "INTERFACES is not empty, and the table has no network".into(),
            1 => "INTERFACES is not 1 name, one a line".into(),
            _ => format!("INTERFACES is not {networks} different names, one a line"),
        },
    };
    format!("herringcart: line {}: {what}\n", due.line)
}

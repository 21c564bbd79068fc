//! `compare recorded`: the logs that real tools wrote, line by line through the proved code, against what python-can and can-utils read of
//! them. Neither knows anything of Q-12, and the second program is not asked.

use std::fs;
use std::path::Path;

use herringcart::{Cursor, LogEnd, LogRead, read_log};

use super::real::{Real, networks};

/// The ticks of half an hour, and more than any of the logs has between two lines.
const ROOM: usize = 180_000;

/// What real tools read of a line.
struct Frame<'a> {
    /// python-can's, in microseconds.
    time: u64,
    /// can-utils'.
    interface: &'a str,
    /// `data`, `remote`, `fd` or `error`, likewise.
    kind: &'a str,
    bus_off: bool,
}

impl<'a> Frame<'a> {
    /// Of the line with this number. Where both tools have the interface, they say the same.
    fn of(line: &'a str, number: usize) -> Result<Self, String> {
        let columns: Vec<&str> = line.split(' ').collect();
        let wrong = || format!("no frame of line {number}: {line:?}");
        let &[own, time, other, _, _, _, _, interface, identifier, kind] = &columns[..] else {
            return Err(wrong());
        };
        let known = ["data", "remote", "fd", "error"].contains(&kind);
        if own != number.to_string() || !known || ![interface, "-"].contains(&other) {
            return Err(wrong());
        }
        let time = time.parse().map_err(|_| wrong())?;
        let bits = u32::from_str_radix(identifier, 16).map_err(|_| wrong())?;
        Ok(Frame { time, interface, kind, bus_off: kind == "error" && bits & 0x40 != 0 })
    }

    /// Whether Q-12's format has such frames.
    fn has_form(&self) -> bool {
        matches!(self.kind, "data" | "error")
    }
}

/// What the examples' README says of a log.
#[derive(PartialEq, Eq, Debug)]
struct Row {
    lines: usize,
    interfaces: String,
    foreign: usize,
    first: Option<usize>,
    bus_offs: usize,
}

impl Row {
    fn of(readme: &str, name: &str) -> Result<Self, String> {
        let wrong = || format!("the README of the logs has no row of {name}");
        let start = format!("| `{name}` |");
        let row = readme.lines().find(|line| line.starts_with(&start)).ok_or_else(wrong)?;
        let cells: Vec<&str> = row.split('|').map(str::trim).collect();
        let &["", _, lines, interfaces, foreign, first, bus_offs, ..] = &cells[..] else {
            return Err(wrong());
        };
        let number = |cell: &str| cell.parse::<usize>().map_err(|_| wrong());
        let first = if first.is_empty() { None } else { Some(number(first)?) };
        let (lines, foreign, bus_offs) = (number(lines)?, number(foreign)?, number(bus_offs)?);
        Ok(Row { lines, interfaces: interfaces.into(), foreign, first, bus_offs })
    }
}

/// What the logs have shown.
#[derive(Default)]
struct Held {
    logs: usize,
    lines: usize,
    foreign: usize,
    bus_offs: usize,
    ticks: usize,
}

pub fn recorded(folder: &str) -> Result<(), String> {
    let folder = Path::new(folder);
    let readme = fs::read_to_string(folder.join("README.md"))
        .map_err(|why| format!("cannot read {}/README.md: {why}", folder.display()))?;
    let mut held = Held::default();
    for real in Real::all_of(folder)? {
        let row = Row::of(&readme, &real.name)?;
        hold(&real, &row, &mut held).map_err(|what| format!("{}, {what}", real.name))?;
    }
    let Held { logs, lines, foreign, bus_offs, ticks } = held;
    println!(
        "{logs} recorded logs, {lines} lines: {} in the form, {foreign} foreign ones refused and then mended; each at the time and of the \
         interface that python-can and can-utils read, {bus_offs} bus-offs and {ticks} ticks: no difference",
        lines - foreign
    );
    Ok(())
}

/// A log line by line, each foreign line mended once it is refused, so that every line has the log's number; then whole.
fn hold(real: &Real, row: &Row, held: &mut Held) -> Result<(), String> {
    let (lines, frames): (Vec<&[u8]>, Vec<&str>) = (real.lines(), real.frames.lines().collect());
    if lines.len() != frames.len() {
        return Err(format!("{} lines, and frames of {}", lines.len(), frames.len()));
    }
    let mut log = Bench::of(real);
    let (mut foreign, mut bus_offs) = (vec![], 0);
    for (number, (line, frame)) in (1..).zip(lines.iter().zip(frames)) {
        let told = |what: String| format!("line {number}: {what}\n  {frame}");
        let frame = Frame::of(frame, number).map_err(told)?;
        let read = log.take(line, &frame).map_err(told)?;
        if !read {
            foreign.push(number);
            if !log.take(&mended(line, &frame), &frame).map_err(told)? {
                return Err(told("refused, mended too".into()));
            }
        } else if !frame.has_form() {
            return Err(told(format!("read, though it is of the kind {}", frame.kind)));
        }
        bus_offs += usize::from(frame.bus_off);
    }
    let (interfaces, first) = (real.interfaces.join(" "), foreign.first().copied());
    let found = Row { lines: lines.len(), interfaces, foreign: foreign.len(), first, bus_offs };
    if found != *row {
        return Err(format!("{found:?}\nthe README has {row:?}"));
    }
    whole(real, first, &log.before)?;
    held.logs += 1;
    held.lines += lines.len();
    held.foreign += foreign.len();
    held.bus_offs += bus_offs;
    held.ticks += log.cursor.given as usize;
    Ok(())
}

/// Without what is foreign to Q-12's format: spaces in front of a name, the direction behind a frame; and of a remote or an FD frame, which
/// it does not have, all behind the first hash sign.
fn mended(line: &[u8], frame: &Frame) -> Vec<u8> {
    let line = String::from_utf8_lossy(line);
    let words: Vec<&str> =
        line.split_whitespace().filter(|word| !["R", "T"].contains(word)).collect();
    let text = words.join(" ");
    let kept =
        if frame.has_form() { text.len() } else { text.find('#').map_or(0, |hash| hash + 1) };
    [&text.as_bytes()[..kept], b"\n"].concat()
}

/// A log as it is read line by line.
struct Bench<'a> {
    real: &'a Real,
    table: Vec<u32>,
    list: Vec<u8>,
    cursor: Cursor,
    out: Vec<u32>,
    /// The events of the lines in front of the first foreign one.
    before: Vec<u32>,
    foreign: bool,
}

impl<'a> Bench<'a> {
    fn of(real: &'a Real) -> Self {
        let (table, list) = (networks(real.interfaces.len()), real.list());
        let (cursor, out) = (Cursor::default(), vec![0; ROOM]);
        Bench { real, table, list, cursor, out, before: vec![], foreign: false }
    }

    /// Reads a line; false where it is refused as misspelt, with its number and nothing given. One that is read has the frame's time, the
    /// ticks up to it, and a bus-off of its interface's network where the frame is one.
    fn take(&mut self, line: &[u8], frame: &Frame) -> Result<bool, String> {
        let was = self.cursor;
        let LogRead { end, events, bytes } =
            read_log(&self.table, &self.list, line, &mut self.cursor, &mut self.out);
        if end == LogEnd::Misspelt(was.lines + 1) {
            self.foreign = true;
            let nothing = events.is_empty() && bytes == 0 && self.cursor == was;
            return if nothing { Ok(false) } else { Err("refused, and something is given".into()) };
        }
        let first = if was.lines == 0 { frame.time } else { was.first };
        let passed = frame.time.checked_sub(first).ok_or("its time goes back")? / 10_000;
        let due = Cursor { lines: was.lines + 1, first, last: frame.time, given: passed };
        if (end, self.cursor, bytes) != (LogEnd::Read, due, line.len()) {
            return Err(format!("{end:?}, {bytes} bytes, {:?}; due is {due:?}", self.cursor));
        }
        let mut given = vec![0; passed.checked_sub(was.given).ok_or("ticks go back")? as usize];
        let network = self.real.interfaces.iter().position(|name| name == frame.interface);
        let network = network.ok_or("an interface that no frame has")? as u32;
        given.extend(frame.bus_off.then_some(0x5000_0000 | (network + 1) << 24 | network << 16));
        if events != given {
            return Err(format!("events {events:X?}; due are {given:X?}"));
        }
        if !self.foreign {
            self.before.extend(given);
        }
        Ok(true)
    }
}

/// The log in one call: read to its end, or refused at its first foreign line.
fn whole(real: &Real, first: Option<usize>, before: &[u32]) -> Result<(), String> {
    let (table, mut out) = (networks(real.interfaces.len()), vec![0; ROOM]);
    let mut cursor = Cursor::default();
    let read = read_log(&table, &real.list(), &real.log, &mut cursor, &mut out);
    let due = first.map_or(LogEnd::Read, |line| LogEnd::Misspelt(line as u64));
    if (read.end, read.events) == (due, before) {
        return Ok(());
    }
    Err(format!(
        "in one call {:?} and {} events; due are {due:?} and {}",
        read.end,
        read.events.len(),
        before.len()
    ))
}

#[cfg(test)]
mod tests {
    use super::*;

    const README: &str = "| `a.log` | 3 | can0 | 1 | 3 | 1 | made up |";
    const LOG: &str =
        "(1.000000) can0 123#00\n(1.020000) can0 20000041#\n(1.025000)  can0 321#R4 R\n";
    const FRAMES: [&str; 3] = [
        "1 1000000 can0 data 00000123 1 00 can0 123 data",
        "2 1020000 can0 data 00000041 0 - can0 20000041 error",
        "3 1025000 can0 remote 00000321 4 - can0 321 remote",
    ];

    fn tried(frames: &[&str], row: Row) -> Result<(), String> {
        let real = Real {
            name: "a.log".into(),
            log: LOG.into(),
            frames: frames.join("\n"),
            interfaces: vec!["can0".into()],
        };
        hold(&real, &row, &mut Held::default())
    }

    fn row() -> Row {
        Row::of(README, "a.log").expect("a row")
    }

    #[test]
    fn a_log_that_is_read_as_the_tools_read_it() {
        assert_eq!(tried(&FRAMES, row()), Ok(()));
        assert!(Row::of(README, "b.log").is_err());
    }

    #[test]
    fn each_altered_frame_is_found() {
        for (line, from, to) in [
            (0, "1000000", "1000001"),
            (1, "1020000", "1019999"),
            (2, "1025000", "1025001"),
            (0, "123 data", "20000040 error"),
            (1, "20000041", "20000001"),
            (1, "error", "data"),
            (1, "can0 20000041", "can1 20000041"),
            (2, "321 remote", "321 data"),
            (0, "123 data", "123 fd"),
            (2, "3 ", "4 "),
        ] {
            let mut frames = FRAMES.map(String::from);
            frames[line] = frames[line].replacen(from, to, 1);
            let frames: Vec<&str> = frames.iter().map(String::as_str).collect();
            assert!(tried(&frames, row()).is_err(), "{from} as {to}");
        }
        assert!(tried(&FRAMES[..2], row()).is_err());
    }

    #[test]
    fn each_altered_number_of_the_readme_is_found() {
        for other in [
            Row { lines: 4, ..row() },
            Row { interfaces: "can0 can1".into(), ..row() },
            Row { foreign: 0, ..row() },
            Row { first: None, ..row() },
            Row { bus_offs: 0, ..row() },
        ] {
            assert!(tried(&FRAMES, other).is_err());
        }
    }
}

//! The programs of request Q-12: `canlog TABLE INTERFACES LOG` and `day TABLE INTERFACES LOG`.

use std::fs::File;
use std::io::{self, Read, Write};

use crate::buslog::{Bench, Cursor, LONGEST_LINE, NoBench, answer};
use crate::check::accept;
use crate::listing_run::Told;
use crate::program::{Day, SPARE, unreadable, words, write_played};

/// Bytes read of a log at a time, and event words converted at a time: a log of any length takes
/// no more memory.
const BLOCK: usize = 1 << 16;
const ROOM: usize = 1 << 16;
/// Of a list no more bytes are looked at: more cannot be right.
const LIST_BYTES: u64 = 4096;

/// What a program could not do.
#[derive(Debug)]
pub enum Stopped {
    /// The pipe it is printed to was closed.
    Closed,
    /// The log was no longer read.
    Unread(io::Error),
    Unable(String),
}

fn unprinted(why: io::Error) -> Stopped {
    match why.kind() {
        io::ErrorKind::BrokenPipe => Stopped::Closed,
        _ => Stopped::Unable(format!("cannot print: {why}")),
    }
}

/// The line on standard error, without its newline, where a log is refused.
type Trouble = Option<String>;

/// Prints the event words of a log as it is read, four bytes each.
pub fn write_canlog(
    out: &mut impl Write,
    table: &[u8],
    interfaces: &[u8],
    log: &mut impl Read,
) -> Result<Trouble, Stopped> {
    let bench = match Bench::of(&words(table), interfaces) {
        Ok(bench) => bench,
        Err(refused) => return Ok(Some(line_0(refused))),
    };
    let trouble = convert(&bench, log, |events| {
        let bytes: Vec<u8> = events.iter().flat_map(|event| event.to_be_bytes()).collect();
        out.write_all(&bytes)
    })?;
    out.flush().map_err(unprinted)?;
    Ok(trouble)
}

/// Plays the events of a log as it is read, and prints what `play` prints of them.
pub fn write_day(
    out: &mut impl Write,
    table: &[u8],
    interfaces: &[u8],
    log: &mut impl Read,
) -> Result<Trouble, Stopped> {
    let of = words(table);
    let bench = match Bench::of(&of, interfaces) {
        Ok(bench) => bench,
        Err(refused) => {
            let played = write_played(out, table, &[], SPARE).and_then(|()| out.flush());
            return played.map(|()| Some(line_0(refused))).map_err(unprinted);
        }
    };
    let (shape, b) = accept(&of).expect("its bench stands");
    let mut day = Day::fresh(&of, &shape, b + SPARE);
    let trouble = convert(&bench, log, |events| day.play(out, events))?;
    day.end(out, &shape).and_then(|()| out.flush()).map_err(unprinted)?;
    Ok(trouble)
}

/// Converts a log block by block, with the line that a block ends in carried over, and hands on
/// the events. Its output is emptied, so that there is always room.
fn convert(
    bench: &Bench,
    log: &mut impl Read,
    mut hand_on: impl FnMut(&[u32]) -> io::Result<()>,
) -> Result<Trouble, Stopped> {
    let (mut held, mut block, mut cursor) = (vec![], vec![0; BLOCK], Cursor::default());
    loop {
        let read = read_some(log, &mut block)?;
        held.extend_from_slice(&block[..read]);
        let end = if read == 0 { held.len() } else { lines(&held) };
        let mut from = 0;
        loop {
            let done = bench.convert(&held[from..end], cursor, ROOM);
            hand_on(&done.events).map_err(unprinted)?;
            (from, cursor) = (from + done.bytes, done.cursor);
            match done.answer {
                0 => break,
                answer::NO_ROOM => {}
                refused => return Ok(Some(line_refused(done.line, refused))),
            }
        }
        if read == 0 {
            return Ok(None);
        }
        held.drain(..end);
    }
}

/// 0 at the log's end.
fn read_some(log: &mut impl Read, block: &mut [u8]) -> Result<usize, Stopped> {
    loop {
        match log.read(block) {
            Err(why) if why.kind() == io::ErrorKind::Interrupted => {}
            read => return read.map_err(Stopped::Unread),
        }
    }
}

/// How many bytes in front can be converted: all whole lines, and behind them one that is too long
/// already, however it goes on.
fn lines(held: &[u8]) -> usize {
    let whole = held.iter().rposition(|&byte| byte == b'\n').map_or(0, |last| last + 1);
    if held.len() - whole < LONGEST_LINE { whole } else { held.len() }
}

/// What is told of a table or a list that is refused.
fn line_0(refused: NoBench) -> String {
    let what = match refused {
        NoBench::Table { reason, place } => {
            format!("the table has reason {reason} at word {place}")
        }
        NoBench::Interfaces { networks: 0 } => {
            "INTERFACES is not empty, and the table has no network".into()
        }
        NoBench::Interfaces { networks: 1 } => "INTERFACES is not 1 name, one a line".into(),
        NoBench::Interfaces { networks } => {
            format!("INTERFACES is not {networks} different names, one a line")
        }
    };
    format!("herringcart: line 0: {what}")
}

/// What is told of a line that is refused.
fn line_refused(line: u64, answer: u32) -> String {
    let what = match answer {
        answer::MISSPELT => "misspelt",
        answer::BACK => "the time goes back",
        _ => "an interface that is not listed",
    };
    format!("herringcart: line {line}: {what}")
}

/// A program that reads a log, by the bytes of table and list.
type Program<O, L> = fn(&mut O, &[u8], &[u8], &mut L) -> Result<Trouble, Stopped>;

/// What a program tells of the three files' bytes.
fn told<'a>(
    program: Program<Vec<u8>, &'a [u8]>,
    table: &[u8],
    interfaces: &[u8],
    mut log: &'a [u8],
) -> Told {
    let mut printed = vec![];
    let done = program(&mut printed, table, interfaces, &mut log);
    let trouble = done.expect("memory takes it").map(|line| line + "\n");
    let status = if trouble.is_some() { 1 } else { 0 };
    Told { printed, trouble: trouble.unwrap_or_default(), status }
}

/// What `canlog` tells of the three files' bytes.
pub fn canlog(table: &[u8], interfaces: &[u8], log: &[u8]) -> Told {
    told(write_canlog, table, interfaces, log)
}

/// What `day` tells of the three files' bytes.
pub fn day(table: &[u8], interfaces: &[u8], log: &[u8]) -> Told {
    told(write_day, table, interfaces, log)
}

/// Runs a program on three files. All are opened before anything is judged.
fn on_files<O: Write>(
    program: Program<O, File>,
    out: &mut O,
    [table, interfaces, log]: [&str; 3],
) -> Result<Trouble, Stopped> {
    let unable = |path: &str, why: io::Error| Stopped::Unable(unreadable(path, &why));
    let open = |path: &str| File::open(path).map_err(|why| unable(path, why));
    let (mut table_file, interfaces_file, mut log_file) =
        (open(table)?, open(interfaces)?, open(log)?);
    let (mut of, mut list) = (vec![], vec![]);
    table_file.read_to_end(&mut of).map_err(|why| unable(table, why))?;
    let read = interfaces_file.take(LIST_BYTES).read_to_end(&mut list);
    read.map_err(|why| unable(interfaces, why))?;
    program(out, &of, &list, &mut log_file).map_err(|stopped| match stopped {
        Stopped::Unread(why) => unable(log, why),
        stopped => stopped,
    })
}

/// Converts a log's file.
pub fn canlog_files(out: &mut impl Write, files: [&str; 3]) -> Result<Trouble, Stopped> {
    on_files(write_canlog, out, files)
}

/// Plays a log's file.
pub fn day_files(out: &mut impl Write, files: [&str; 3]) -> Result<Trouble, Stopped> {
    on_files(write_day, out, files)
}

//! Bus logs for request Q-12: a table, a list of interfaces, a log with faults of every kind, a
//! cursor and a room.

use super::listed::drawn_room;
use super::prng::Prng;
use super::{any_draft, largest, refused, small};
use crate::buslog::{Cursor, convert};
use crate::check::accept;
pub use crate::testing::{fixed_bus_log_runs, fixed_bus_logs};
use crate::words::Section;

/// What `convert` is asked.
#[derive(Clone, PartialEq, Eq, Debug)]
pub struct BusLog {
    pub table: Vec<u32>,
    pub interfaces: Vec<u8>,
    pub log: Vec<u8>,
    pub from: Cursor,
    pub room: usize,
    /// How the list was made wrong.
    pub list: Option<List>,
    /// How lines were misspelt, or may be.
    pub spelling: Vec<Spelling>,
}

/// What is wrong with a list.
#[derive(Clone, Copy, PartialEq, Eq, PartialOrd, Ord, Debug)]
pub enum List {
    TooFew,
    TooMany,
    Equal,
    EmptyName,
    Long,
    Space,
    NoNewline,
    Behind,
}

pub const LISTS: [List; 8] = {
    use List::*;
    [TooFew, TooMany, Equal, EmptyName, Long, Space, NoNewline, Behind]
};

/// A line's pieces, in order.
#[derive(Clone, Copy, PartialEq, Eq, PartialOrd, Ord, Debug)]
pub enum Piece {
    Opening,
    Seconds,
    Point,
    Parts,
    Closing,
    FirstSpace,
    Name,
    SecondSpace,
    Identifier,
    Hash,
    Data,
    Newline,
}

pub const PIECES: [Piece; 12] = {
    use Piece::*;
    [
        Opening, Seconds, Point, Parts, Closing, FirstSpace, Name, SecondSpace, Identifier, Hash,
        Data, Newline,
    ]
};

/// What is done to a line's spelling.
#[derive(Clone, Copy, PartialEq, Eq, PartialOrd, Ord, Debug)]
pub enum Spelling {
    Lost(Piece),
    /// One byte, digit or pair too long.
    Long(Piece),
    /// One digit too short.
    Short(Piece),
    /// A byte of it is another one.
    Other(Piece),
    /// Something stands before the newline, by its number in `TAILS`.
    Tail(usize),
    /// Another tool's frame, by its number in `FRAMES`, in place of hash and data.
    Frame(usize),
    /// A byte anywhere is changed, lost or added.
    Changed,
    Dropped,
    Added,
    /// Nothing but the newline.
    Empty,
}

pub const TAILS: [&str; 6] = ["\r", " ", " R", " T", "\0", " # note"];
pub const FRAMES: [&str; 6] = ["##1AABB", "##0", "#R", "#R8", "#1122334455667788_B", "#11.22"];

/// Every spelling that can be drawn.
pub fn spellings() -> Vec<Spelling> {
    let pieces = PIECES.into_iter();
    let short = [Piece::Parts, Piece::Identifier, Piece::Data];
    pieces
        .clone()
        .filter(|&piece| piece != Piece::Data)
        .map(Spelling::Lost)
        .chain(pieces.clone().map(Spelling::Long))
        .chain(short.map(Spelling::Short))
        // Another name is no spelling.
        .chain(pieces.filter(|&piece| piece != Piece::Name).map(Spelling::Other))
        .chain((0..TAILS.len()).map(Spelling::Tail))
        .chain((0..FRAMES.len()).map(Spelling::Frame))
        .chain([Spelling::Changed, Spelling::Dropped, Spelling::Added, Spelling::Empty])
        .collect()
}

/// The most words of room that are drawn, and so the most events.
pub const MOST_ROOM: usize = 2000;
const MOST_TIME: u64 = 9_999_999_999_999_999;
const SECOND: u64 = 1_000_000;
const TICK: u64 = 10_000;

/// The same every time for the same seed and number.
pub fn bus_log(seed: u64, number: usize) -> BusLog {
    // Each from a place of its own: neighbouring seeds of this generator overlap.
    let own = Prng::new(seed).draw() ^ Prng::new(number as u64).draw().rotate_left(12);
    drawn_bus_log(&mut Prng::new(own))
}

/// With a table that is drawn too.
pub fn drawn_bus_log(rng: &mut Prng) -> BusLog {
    let table = some_table(rng);
    drawn_for(rng, table)
}

/// For this table, good or not.
pub fn drawn_for(rng: &mut Prng, table: Vec<u32>) -> BusLog {
    let networks = accept(&table).map_or(rng.below(4), |(table, _)| table.count(Section::Networks));
    let names = some_names(rng, networks);
    let list = rng.chance(8).then(|| rng.pick(&LISTS));
    let interfaces = list_of(rng, &names, list);
    let base = some_base(rng);
    let (from, mut time) = some_cursor(rng, base);
    let mut log = vec![];
    let mut spelling = vec![];
    let lines = if rng.chance(95) { rng.below(13) } else { 13 + rng.below(30) };
    // Where a line is at fault, in about half of the logs.
    let fault = rng.chance(55).then(|| rng.below(lines.max(1)));
    for number in 0..lines {
        time = time.saturating_add(some_gap(rng)).min(MOST_TIME);
        let at_fault = fault == Some(number) || rng.chance(2);
        let line = some_line(rng, &names, time, at_fault);
        log.extend(line.0);
        spelling.extend(line.1);
    }
    if rng.chance(3) {
        log.truncate(rng.below(log.len() + 1));
        // It may have lost what was misspelt.
        spelling.clear();
    }
    let needed = convert(&table, &interfaces, &log, from, MOST_ROOM).events.len();
    let room = some_room(rng, needed);
    BusLog { table, interfaces, log, from, room, list, spelling }
}

/// Mostly of networks; at times without, refused, or with every count at its limit.
fn some_table(rng: &mut Prng) -> Vec<u32> {
    match rng.weighed(&[83, 6, 10, 1]) {
        0 => loop {
            let draft = any_draft(rng);
            if !draft.networks.is_empty() {
                return draft.words();
            }
        },
        1 => small(rng).words(),
        2 => {
            let reason = rng.within(1, 10);
            refused::refuse_some(rng, reason, small).words
        }
        _ => largest(rng).words(),
    }
}

/// Different names, of bytes that names may have.
fn some_names(rng: &mut Prng, count: usize) -> Vec<Vec<u8>> {
    let mut names: Vec<Vec<u8>> = vec![];
    while names.len() < count {
        let name = match rng.weighed(&[55, 15, 10, 10, 10]) {
            0 => format!("can{}", names.len()).into_bytes(),
            1 => format!("vcan{}", rng.below(12)).into_bytes(),
            2 => vec![rng.pick(b"abc#(0\r")],
            3 => (0..15).map(|_| rng.pick(b"abcdefgh")).collect(),
            _ => (0..1 + rng.below(15)).map(|_| some_byte(rng)).collect(),
        };
        if !names.contains(&name) {
            names.push(name);
        }
    }
    names
}

/// Any byte that a name may have.
fn some_byte(rng: &mut Prng) -> u8 {
    loop {
        let byte = if rng.chance(40) { rng.pick(b"#.()\r\t\0\x7F\xFF") } else { rng.word() as u8 };
        if !matches!(byte, b' ' | b'\n') {
            return byte;
        }
    }
}

fn list_of(rng: &mut Prng, names: &[Vec<u8>], wrong: Option<List>) -> Vec<u8> {
    let mut names = names.to_vec();
    let at = rng.below(names.len().max(1));
    match (wrong, names.get(at).cloned()) {
        (Some(List::TooFew), Some(_)) => drop(names.remove(at)),
        (Some(List::TooMany), _) => names.insert(at.min(names.len()), b"more".to_vec()),
        (Some(List::Equal), Some(name)) => {
            let other = rng.below(names.len());
            names[other] = name;
        }
        (Some(List::EmptyName), Some(_)) => names[at] = vec![],
        (Some(List::Long), Some(_)) => names[at] = vec![b'n'; 16],
        (Some(List::Space), Some(mut name)) => {
            let place = rng.below(name.len().min(14) + 1);
            name.truncate(14);
            name.insert(place.min(name.len()), b' ');
            names[at] = name;
        }
        _ => {}
    }
    let mut list: Vec<u8> =
        names.into_iter().flat_map(|name| [&name[..], b"\n"].concat()).collect();
    match wrong {
        Some(List::NoNewline) => drop(list.pop()),
        Some(List::Behind) => list.extend(rng.pick(&[&b"\n"[..], b"x", b" ", b"\0"])),
        _ => {}
    }
    list
}

fn some_base(rng: &mut Prng) -> u64 {
    match rng.weighed(&[30, 50, 10, 10]) {
        0 => rng.draw() % (12 * SECOND),
        1 => 1_700_000_000 * SECOND + rng.draw() % (9 * SECOND),
        2 => TICK * (rng.draw() % 1000),
        _ => MOST_TIME - rng.draw() % SECOND,
    }
}

/// Mostly before the first line, at times behind some lines, at times as no log leaves it; and the
/// time to go on from.
fn some_cursor(rng: &mut Prng, base: u64) -> (Cursor, u64) {
    let lines = 1 + rng.draw() % 30;
    let passed = rng.draw() % SECOND;
    match rng.weighed(&[75, 12, 13]) {
        0 => (Cursor::default(), base),
        1 => {
            let (first, last) = (base.saturating_sub(passed), base);
            let given = (last - first) / TICK;
            let short = if rng.chance(30) { rng.draw() % 9 } else { 0 };
            (Cursor { lines, first, last, given: given.saturating_sub(short) }, base)
        }
        _ => {
            let odd = |rng: &mut Prng| {
                let any = [0, 1, base, base / TICK, base.saturating_sub(passed), base + passed];
                let most = [u64::MAX, u64::MAX - 1];
                if rng.chance(80) { rng.pick(&any) } else { rng.pick(&most) }
            };
            let lines = rng.pick(&[0, 0, 1, lines, u64::MAX, u64::MAX - 1]);
            let (first, given) = (odd(rng), odd(rng));
            (Cursor { lines, first, last: odd(rng), given }, base)
        }
    }
}

fn some_gap(rng: &mut Prng) -> u64 {
    match rng.weighed(&[18, 30, 12, 14, 18, 6, 2]) {
        0 => 0,
        1 => rng.draw() % TICK,
        2 => TICK - 1,
        3 => TICK * (rng.draw() % 4),
        4 => rng.draw() % (10 * TICK),
        5 => rng.draw() % (50 * TICK),
        _ => rng.draw() % rng.pick(&[10 * SECOND, 3600 * SECOND, MOST_TIME]),
    }
}

/// A line, and how it was misspelt. One at fault may go back and name no interface besides.
fn some_line(
    rng: &mut Prng,
    names: &[Vec<u8>],
    time: u64,
    at_fault: bool,
) -> (Vec<u8>, Option<Spelling>) {
    let misspelt = at_fault && rng.chance(50);
    let back = at_fault && rng.chance(if misspelt { 30 } else { 50 });
    let unlisted = at_fault && (rng.chance(30) || !(misspelt || back)) || names.is_empty();
    let by = rng.pick(&[1, TICK, SECOND]);
    let time = if back { time.saturating_sub(1 + rng.draw() % by) } else { time };
    let name = match names.get(rng.below(names.len().max(1))) {
        Some(name) if !unlisted => name.clone(),
        Some(name) if name.len() < 15 && rng.chance(60) => [name, &b"x"[..]].concat(),
        _ => rng.pick(&[&b"can9"[..], b"CAN0", b"can", b"\r"]).to_vec(),
    };
    let mut pieces = some_pieces(rng, time, name);
    let spelling = misspelt.then(|| rng.pick(&spellings()));
    if let Some(spelling) = spelling {
        misspell(rng, &mut pieces, spelling);
    }
    (pieces.concat(), spelling)
}

/// A line's pieces, spelt right.
fn some_pieces(rng: &mut Prng, time: u64, name: Vec<u8>) -> Vec<Vec<u8>> {
    let (seconds, parts) = (time / SECOND, time % SECOND);
    let width = if rng.chance(85) { 1 } else { rng.below(10) + 1 };
    let identifier = match rng.weighed(&[34, 18, 30, 10, 8]) {
        0 => format!("{:03X}", rng.word() & 0xFFF),
        1 => format!("{:08X}", rng.word()),
        2 => format!("{:08X}", 0x2000_0040 | rng.word() & rng.pick(&[0, 0x3F, u32::MAX])),
        3 => format!("{:08X}", 0x2000_0000 | rng.word() & !0x40),
        _ => format!("{:08X}", 0x0000_0040 | rng.word() & !0x2000_0000),
    };
    let pairs = match rng.weighed(&[30, 40, 30]) {
        0 => 0,
        1 => 8,
        _ => rng.below(9),
    };
    let data: String = (0..pairs).map(|_| format!("{:02X}", rng.word() & 0xFF)).collect();
    let case = rng.below(3);
    let cased = |rng: &mut Prng, digits: String| -> Vec<u8> {
        let small = |rng: &mut Prng| case == 1 || case == 2 && rng.chance(50);
        digits.bytes().map(|d| if small(rng) { d.to_ascii_lowercase() } else { d }).collect()
    };
    let (identifier, data) = (cased(rng, identifier), cased(rng, data));
    let seconds = format!("{seconds:0width$}").into_bytes();
    let parts = format!("{parts:06}").into_bytes();
    let byte = |byte: u8| vec![byte];
    vec![
        byte(b'('),
        seconds,
        byte(b'.'),
        parts,
        byte(b')'),
        byte(b' '),
        name,
        byte(b' '),
        identifier,
        byte(b'#'),
        data,
        byte(b'\n'),
    ]
}

fn misspell(rng: &mut Prng, pieces: &mut Vec<Vec<u8>>, spelling: Spelling) {
    let mut line = pieces.concat();
    let at = rng.below(line.len());
    let byte =
        if rng.chance(80) { rng.pick(b"0123456789aAfFgG()#. \n\r") } else { rng.word() as u8 };
    match spelling {
        Spelling::Lost(piece) => pieces[piece as usize].clear(),
        Spelling::Long(piece) => lengthen(&mut pieces[piece as usize], piece),
        Spelling::Short(piece) => {
            let short = &mut pieces[piece as usize];
            if short.pop().is_none() {
                short.push(b'1');
            }
        }
        Spelling::Other(piece) => {
            let other = &mut pieces[piece as usize];
            if other.is_empty() {
                other.extend(b"11");
            }
            let at = rng.below(other.len());
            other[at] = rng.pick(b"[],:;\tgGRxz-+");
        }
        Spelling::Tail(tail) => pieces[Piece::Data as usize].extend(TAILS[tail].bytes()),
        Spelling::Frame(frame) => {
            pieces[Piece::Hash as usize].clear();
            pieces[Piece::Data as usize] = FRAMES[frame].into();
        }
        Spelling::Changed => line[at] = byte,
        Spelling::Dropped => drop(line.remove(at)),
        Spelling::Added => line.insert(at, byte),
        Spelling::Empty => *pieces = vec![b"\n".to_vec()],
    }
    if matches!(spelling, Spelling::Changed | Spelling::Dropped | Spelling::Added) {
        *pieces = vec![line];
    }
}

/// One too long: eleven digits, sixteen bytes, four or nine digits, nine pairs, else one byte more.
fn lengthen(bytes: &mut Vec<u8>, piece: Piece) {
    let last = bytes.last().copied().unwrap_or(b'1');
    let more = match piece {
        Piece::Seconds => 11 - bytes.len(),
        Piece::Name => 16 - bytes.len().min(15),
        Piece::Data => 18 - bytes.len(),
        _ => 1,
    };
    let byte = if piece == Piece::Seconds { b'0' } else { last };
    bytes.splice(..0, vec![byte; more]);
}

/// About what is needed, or of any other kind.
fn some_room(rng: &mut Prng, needed: usize) -> usize {
    match rng.weighed(&[55, 30, 5, 10]) {
        0 => MOST_ROOM,
        1 => drawn_room(rng, needed).min(MOST_ROOM),
        2 => 0,
        _ => rng.below(12),
    }
}

//! Tables listed and texts read through both sides. What is read is lent between guards and must stay as it is; of what is lent to
//! be written every byte and word is compared, laid or not, with its guards. It is lent with other values at each place, so that one
//! that was moved or written again shows too.

use std::fmt;
use std::ops::AddAssign;

use second::listing::{lines, words};

use super::{Difference, Lent, as_word, same, same_lent};
use crate::subject::Subject;

/// A table to list or a text to read, and what is lent for it, as it is before.
#[derive(Clone, PartialEq, Eq, Debug)]
pub enum Asked {
    List { table: Vec<u32>, room: Vec<u8> },
    Read { text: Vec<u8>, room: Vec<u32> },
}

impl Asked {
    /// In so many bytes.
    pub fn list(table: &[u32], room: usize) -> Self {
        let room = (0..room).map(|place| (place * 31 + 165) as u8).collect();
        Asked::List { table: table.to_vec(), room }
    }

    /// In so many words.
    pub fn read(text: &[u8], room: usize) -> Self {
        let room = (0..room as u32).map(|place| place.wrapping_mul(0x9E37_79B9) ^ 0x5A5A_5A5A);
        Asked::Read { text: text.to_vec(), room: room.collect() }
    }

    pub fn room(&self) -> usize {
        match self {
            Asked::List { room, .. } => room.len(),
            Asked::Read { room, .. } => room.len(),
        }
    }

    /// The same in another room.
    pub fn lent(&self, room: usize) -> Self {
        match self {
            Asked::List { table, .. } => Asked::list(table, room),
            Asked::Read { text, .. } => Asked::read(text, room),
        }
    }

    /// How many bytes or words it needs by the second program; none where it is refused in any room.
    pub fn needs(&self) -> Option<usize> {
        match self {
            Asked::List { table, .. } => lines(table).ok().map(|lines| lines.len()),
            Asked::Read { text, .. } => words(text).ok().map(|words| words.len()),
        }
    }
}

/// The table or the text, and the room.
impl fmt::Display for Asked {
    fn fmt(&self, f: &mut fmt::Formatter) -> fmt::Result {
        match self {
            Asked::List { table, room } => {
                write!(f, "table: {}\nbytes of room: {}", super::Words(table), room.len())
            }
            Asked::Read { text, room } => {
                write!(f, "text: \"{}\"\nwords of room: {}", text.escape_ascii(), room.len())
            }
        }
    }
}

/// The answers that listing and reading have.
const LISTED: [u32; 6] = [0, 1, 2, 3, 4, 11];
const READ: [u32; 3] = [0, 11, 12];

/// How often each answer was met.
#[derive(Clone, Copy, PartialEq, Eq, Default, Debug)]
pub struct Listings {
    lists: [u64; LISTED.len()],
    reads: [u64; READ.len()],
}

impl Listings {
    fn meet(&mut self, asked: &Asked, answer: u32) {
        let place = |answers: &[u32]| answers.iter().position(|&known| known == answer);
        match asked {
            Asked::List { .. } => place(&LISTED).map(|place| self.lists[place] += 1),
            Asked::Read { .. } => place(&READ).map(|place| self.reads[place] += 1),
        };
    }

    /// Fails with the answers of listings and readings that nothing met.
    pub fn all_met(&self) -> Result<(), String> {
        let missing = missing("listing", &LISTED, &self.lists);
        let missing = missing + &self::missing("reading", &READ, &self.reads);
        if missing.is_empty() { Ok(()) } else { Err(missing) }
    }

    /// Likewise where nothing but tables' own listings was read: no line of these is bad.
    pub fn listed_met(&self) -> Result<(), String> {
        let missing = missing("listing", &LISTED, &self.lists);
        let missing = missing + &self::missing("reading", &READ[..2], &self.reads);
        if missing.is_empty() { Ok(()) } else { Err(missing) }
    }
}

fn missing(what: &str, answers: &[u32], met: &[u64]) -> String {
    let none = answers.iter().zip(met).filter(|(_, met)| **met == 0);
    none.map(|(answer, _)| format!("no {what} has answer {answer}\n")).collect()
}

impl AddAssign for Listings {
    fn add_assign(&mut self, more: Self) {
        self.lists.iter_mut().zip(more.lists).for_each(|(all, more)| *all += more);
        self.reads.iter_mut().zip(more.reads).for_each(|(all, more)| *all += more);
    }
}

impl fmt::Display for Listings {
    fn fmt(&self, f: &mut fmt::Formatter) -> fmt::Result {
        let told = |answers: &[u32], met: &[u64]| -> String {
            let told = answers.iter().zip(met).map(|(answer, met)| format!("{met} of {answer}"));
            told.collect::<Vec<_>>().join(", ")
        };
        let (lists, reads): (u64, u64) = (self.lists.iter().sum(), self.reads.iter().sum());
        write!(f, "{lists} listings by answer: {}; ", told(&LISTED, &self.lists))?;
        write!(f, "{reads} readings: {}", told(&READ, &self.reads))
    }
}

/// A table listed in just enough room, in a byte less and in none; its listing read back, in just enough room, in a word less and in none.
pub fn compare_table(subject: &impl Subject, table: &[u32]) -> Result<Listings, Difference> {
    let mut met = compare_rooms(subject, &Asked::list(table, 99))?;
    let Ok(text) = lines(table) else { return Ok(met) };
    met += compare_rooms(subject, &Asked::read(text.as_bytes(), 99))?;
    // The judge's reading is the table too, or it would judge both alike.
    let back = words(text.as_bytes()).unwrap_or_default();
    same(|| "the second program's own reading of its listing".into(), table, &back)?;
    Ok(met)
}

/// In the room given, in just enough, in one less, in a little more and in none.
pub fn compare_rooms(subject: &impl Subject, asked: &Asked) -> Result<Listings, Difference> {
    let about = |needs: usize| [Some(needs), needs.checked_sub(1), Some(needs + 3)];
    let mut rooms: Vec<usize> =
        asked.needs().map_or([None; 3], about).into_iter().flatten().chain([0]).collect();
    rooms.retain(|&room| room != asked.room());
    let mut met = Listings::default();
    met.meet(asked, compare_asked(subject, asked)?);
    for room in rooms {
        let asked = asked.lent(room);
        met.meet(&asked, compare_asked(subject, &asked)?);
    }
    Ok(met)
}

/// By both sides; gives the answer. A difference says what was asked.
pub fn compare_asked(subject: &impl Subject, asked: &Asked) -> Result<u32, Difference> {
    let compared = match asked {
        Asked::List { table, room } => compare_list(subject, table, room),
        Asked::Read { text, room } => compare_read(subject, text, room),
    };
    compared
        .map_err(|difference| Difference { listing: Some(Box::new(asked.clone())), ..difference })
}

fn compare_list(subject: &impl Subject, table: &[u32], room: &[u8]) -> Result<u32, Difference> {
    let untouched = Lent::of(table);
    let (mut lent, mut laid, mut expected) = (untouched.clone(), Lent::of(room), Lent::of(room));
    let proved = subject.list(lent.words(), laid.words());
    let second = second::list(table, expected.words());
    let given = |answer: u32, bytes: usize| [answer, as_word(bytes)];
    same(
        || "listing, answer, bytes".into(),
        &given(proved.answer, proved.bytes),
        &given(second.answer, second.bytes),
    )?;
    same_lent(&|| "listing, lines".into(), &laid, &expected)?;
    same_lent(&|| "listing, table".into(), &lent, &untouched)?;
    Ok(second.answer)
}

fn compare_read(subject: &impl Subject, text: &[u8], room: &[u32]) -> Result<u32, Difference> {
    let untouched = Lent::of(text);
    let (mut lent, mut laid, mut expected) = (untouched.clone(), Lent::of(room), Lent::of(room));
    let proved = subject.read(lent.words(), laid.words());
    let second = second::read(text, expected.words());
    let given = |answer: u32, words: usize, line: usize| [answer, as_word(words), as_word(line)];
    same(
        || "reading, answer, words, line".into(),
        &given(proved.answer, proved.words, proved.line),
        &given(second.answer, second.words, second.line),
    )?;
    same_lent(&|| "reading, words".into(), &laid, &expected)?;
    same_lent(&|| "reading, text".into(), &lent, &untouched)?;
    Ok(second.answer)
}

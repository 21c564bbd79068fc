//! `compare listings`: tables of any words listed and read back, and damaged listings read, through both sides.

mod programs;

use std::fmt;

use second::cases::listed::{DAMAGES, damaged, drawn_room, drawn_table, drawn_text};
use second::cases::prng::Prng;
use second::listing::{lines, words};

use crate::differ::Difference;
use crate::differ::listings::{Asked, Listings, compare_rooms, compare_table};
use crate::generated::{seeds, told_listing, two_at_a_time};
use crate::subject::{Proved, Subject};

pub use programs::{LISTER, READER, programs};

/// How many ways a drawing's listing is damaged in, each alone; of a table of more words than so many fewer.
const WAYS: usize = 5;
const FEWER: usize = 2;
const MANY: usize = 300;

/// A table, at times one that does not list, and texts made of its listing.
pub struct Drawing {
    pub table: Vec<u32>,
    /// Each in so many words of room; with the number of what was done to it, where it is one thing.
    pub texts: Vec<(Vec<u8>, usize, Option<usize>)>,
}

/// The same of the same seed and number.
pub fn drawing(seed: u64, number: usize) -> Drawing {
    let mut rng = Prng::new(seed ^ (number as u64) << 32 ^ 0x51);
    let rng = &mut rng;
    let table = some_table(rng);
    let mut texts = vec![(drawn_text(rng, &table), None)];
    if let Ok(lines) = lines(&table) {
        let ways = if table.len() > MANY { FEWER } else { WAYS };
        texts.extend((0..ways).map(|way| {
            let way = (number * WAYS + way) % DAMAGES.len();
            (damaged(rng, lines.as_bytes(), DAMAGES[way]), Some(way))
        }));
    }
    let texts = texts.into_iter().map(|(text, way)| {
        let needs = words(&text).map_or(table.len(), |words| words.len());
        (text, drawn_room(rng, needs), way)
    });
    Drawing { texts: texts.collect(), table }
}

/// A table that lists; one in eight with another word in its header, or of another length.
fn some_table(rng: &mut Prng) -> Vec<u32> {
    let mut table = drawn_table(rng);
    match rng.below(32) {
        0 => table[0] = rng.word(),
        1 => table[rng.below(3)] = rng.word() & rng.word() & rng.word(),
        2 => table.truncate(rng.below(table.len())),
        3 => table.extend((0..1 + rng.below(9)).map(|_| rng.word())),
        _ => {}
    }
    table
}

/// What drawings have shown: the answers, and by each way of damage how many texts were refused and how many were other listings.
pub struct Met {
    drawings: usize,
    answers: Listings,
    ways: [[u64; 2]; DAMAGES.len()],
}

impl Met {
    pub fn none() -> Self {
        Met { drawings: 0, answers: Listings::default(), ways: [[0; 2]; DAMAGES.len()] }
    }

    fn add(&mut self, more: &Met) {
        self.drawings += more.drawings;
        self.answers += more.answers;
        for (all, more) in self.ways.iter_mut().flatten().zip(more.ways.iter().flatten()) {
            *all += more;
        }
    }

    /// Fails with an answer that nothing met, and with a way of damage that changed no listing.
    fn all_met(&self) -> Result<(), String> {
        let none = DAMAGES.iter().zip(self.ways).filter(|(_, met)| *met == [0; 2]);
        let none: String =
            none.map(|(way, _)| format!("no text is damaged by {way:?}\n")).collect();
        if none.is_empty() { self.answers.all_met() } else { Err(none) }
    }
}

impl fmt::Display for Met {
    fn fmt(&self, f: &mut fmt::Formatter) -> fmt::Result {
        let Met { drawings, answers, ways } = self;
        let [refused, others] = [0, 1].map(|which| ways.iter().map(|met| met[which]).sum::<u64>());
        writeln!(f, "{drawings} tables drawn, listed and read back: {answers}")?;
        write!(
            f,
            "of their listings, damaged in {} ways, {refused} are refused, {others} are other listings",
            ways.len()
        )
    }
}

/// Seeds, each with how many of its first drawings are run; two seeds at a time.
pub fn listings(words: &[&str]) -> Result<(), String> {
    let mut met = Met::none();
    for more in two_at_a_time(&seeds(words)?, run_seed)? {
        met.add(&more);
    }
    println!("{met}: no difference");
    met.all_met()
}

fn run_seed(&(seed, count): &(u64, usize)) -> Result<Met, String> {
    let mut met = Met::none();
    for number in 0..count {
        compare_drawing(&Proved, &drawing(seed, number), &mut met).map_err(|difference| {
            told(&Proved, &format!("drawing {number} of seed {seed}"), difference)
        })?;
    }
    Ok(met)
}

/// Everything both sides say of a drawing.
pub fn compare_drawing(
    subject: &impl Subject,
    drawing: &Drawing,
    met: &mut Met,
) -> Result<(), Difference> {
    met.drawings += 1;
    met.answers += compare_table(subject, &drawing.table)?;
    let own = lines(&drawing.table).unwrap_or_default();
    for (text, room, way) in &drawing.texts {
        met.answers += compare_rooms(subject, &Asked::read(text, *room))?;
        let changed = way.filter(|_| *text != own.as_bytes());
        changed.into_iter().for_each(|way| met.ways[way][usize::from(words(text).is_ok())] += 1);
    }
    Ok(())
}

/// What differs, made small; it is always a table listed or a text read, or else the second program's own reading.
pub fn told(subject: &impl Subject, name: &str, difference: Difference) -> String {
    match &difference.listing {
        Some(asked) => told_listing(subject, name, asked),
        None => format!("{name}: {difference}"),
    }
}

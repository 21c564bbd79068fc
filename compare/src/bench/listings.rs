//! What listing a table and reading it back take, by the proved code beside the second program, in just enough room. What is timed is
//! compared first.

use std::hint::black_box;

use second::listing::lines;

use super::timing::{Work, best};
use super::{MARKED, example, sized};
use crate::differ::listings::{Asked, compare_asked};
use crate::subject::{Proved, Subject};

const ROWS: &str = " words   bytes    proved    second    p/s   proved   second";

pub fn listings() -> Result<(), String> {
    println!(
        "listings: ns a call, best of five, the sides in turn; bytes of the listing; p/s the proved code's time by the second"
    );
    println!("program's; and how many MB of text a second");
    println!("{:<44}{ROWS}", "");
    let truck = example("truck").map(|[table, _]| table);
    let large = sized::sized(68).words();
    let named =
        [("marked table", Some(MARKED.to_vec())), ("truck", truck), ("large table", Some(large))];
    for (name, table) in named {
        match table {
            Some(table) => rows(name, &table)?,
            None => println!("{name}: missing (examples/{name}.table)"),
        }
    }
    rows("the longest listing", &longest())
}

/// As many words as there can be, each with as long a line as there can be.
pub fn longest() -> Vec<u32> {
    let mut table = vec![0x0240_0820, 0x0200_0100, 0x00FF_07FF];
    table.resize(herringcart::TABLE_WORDS, u32::MAX);
    table
}

/// The table listed, its listing read, and its listing with its last byte lost, which is bad in its last line.
fn rows(name: &str, table: &[u32]) -> Result<(), String> {
    let text = lines(table).map_err(|reason| format!("{name}: reason {reason}"))?.into_bytes();
    let bad = &text[..text.len() - 1];
    row(&format!("{name}, listed"), &Asked::list(table, text.len()), table.len(), text.len())?;
    row(&format!("{name}, read"), &Asked::read(&text, table.len()), table.len(), text.len())?;
    row(&format!("{name}, read, its last line bad"), &Asked::read(bad, 0), table.len(), bad.len())
}

fn row(name: &str, asked: &Asked, words: usize, bytes: usize) -> Result<(), String> {
    compare_asked(&Proved, asked).map_err(|what| format!("{name}: {what}"))?;
    let [mut mine, mut judged] = [asked.clone(), asked.clone()];
    let mut proved: Work = Box::new(|| {
        match black_box(&mut mine) {
            Asked::List { table, room } => black_box(Proved.list(table, room).bytes),
            Asked::Read { text, room } => black_box(Proved.read(text, room).words),
        };
        1
    });
    let mut second: Work = Box::new(|| {
        match black_box(&mut judged) {
            Asked::List { table, room } => black_box(second::list(table, room).bytes),
            Asked::Read { text, room } => black_box(second::read(text, room).words),
        };
        1
    });
    let times = best(&mut [Some(&mut proved), Some(&mut second)]);
    let (proved, second) = (times[0], times[1]);
    // Bytes a nanosecond are GB a second.
    let [mine, judged] = [proved, second].map(|time| 1000.0 * bytes as f64 / time);
    println!(
        "{name:<44}{words:>6}{bytes:>8}{proved:>10.0}{second:>10.0}{:>7.2}{mine:>9.0}{judged:>9.0}",
        proved / second
    );
    Ok(())
}

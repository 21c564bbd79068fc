//! A side that lists or reads wrongly is found, and its table or text made small.

use second::cases::Cases;
use second::{Listed, Read};

use crate::bench::MARKED;
use crate::differ::compare;
use crate::differ::listings::{Asked, compare_asked};
use crate::generated::{told_listing, told_of};
use crate::listings::{Met, compare_drawing, drawing};
use crate::shrink::smallest_listing;
use crate::subject::{Proved, Subject};

/// Wrong sides: what they make of a call.
struct Lists(fn(&[u32], &mut [u8]) -> Listed);
struct Reads(fn(&[u8], &mut [u32]) -> Read);

impl Subject for Lists {
    fn list(&self, table: &[u32], lines: &mut [u8]) -> Listed {
        self.0(table, lines)
    }
}

impl Subject for Reads {
    fn read(&self, text: &[u8], words: &mut [u32]) -> Read {
        self.0(text, words)
    }
}

/// The first of a seed's drawings on which a wrong side shows, made small.
fn found(wrong: &impl Subject) -> Asked {
    let differs = |number| compare_drawing(wrong, &drawing(6, number), &mut Met::none()).err();
    let difference = (0..4000).find_map(differs).expect("a drawing that shows it");
    let asked = *difference.listing.expect("a table listed or a text read differs");
    assert!(compare_asked(&Proved, &asked).is_ok());
    let (small, _) = smallest_listing(wrong, &asked);
    assert!(compare_asked(wrong, &small).is_err() && compare_asked(&Proved, &small).is_ok());
    let told = told_listing(wrong, "name", &asked);
    assert!(told.contains(", made smaller:\nt") && told.contains("\n  second: "), "{told}");
    small
}

fn text(asked: Asked) -> String {
    match asked {
        Asked::Read { text, .. } => text.escape_ascii().to_string(),
        other => panic!("{other:?}"),
    }
}

/// The words of the smallest table there is: a port, a condition, a rule.
const LEAST: usize = 6;

#[test]
fn just_enough_room_refused_is_found() {
    let small = found(&Lists(|table, lines| {
        let (last, room) = (lines.len().saturating_sub(1), lines.len());
        match Proved.list(table, lines) {
            Listed { answer: 0, bytes } if bytes == room => {
                Proved.list(table, &mut lines[..last]);
                Listed { answer: 11, bytes: 0 }
            }
            other => other,
        }
    }));
    let Asked::List { table, room } = &small else { panic!("{small:?}") };
    assert_eq!((table.len(), Some(room.len())), (LEAST, small.needs()));
}

#[test]
fn byte_behind_the_listing_is_found() {
    let small = found(&Lists(|table, lines| {
        let listed = Proved.list(table, lines);
        if let Some(behind) = lines.get_mut(listed.bytes).filter(|_| listed.answer == 0) {
            *behind = 0;
        }
        listed
    }));
    assert!(matches!(small, Asked::List { ref table, .. } if table.len() == LEAST), "{small:?}");
}

#[test]
fn leading_zero_that_is_taken_is_found() {
    let small = found(&Reads(|given, words| {
        let without = String::from_utf8_lossy(given).replace(" 00", " 0");
        Proved.read(without.as_bytes(), words)
    }));
    // Nothing stands behind the bad line; the lines before it are as many as their header says.
    let small = text(small);
    let (_, behind) = small.split_once(" 00").expect("a zero before a zero");
    assert!(behind.matches("\\n").count() <= 1, "{small}");
}

#[test]
fn word_laid_before_a_refusal_is_found() {
    let small = found(&Reads(|given, words| {
        let read = Proved.read(given, words);
        if let Some(word) = words.first_mut().filter(|_| read.line == 2) {
            *word = 0;
        }
        read
    }));
    // A good line, and nothing behind it.
    assert!(text(small).starts_with("header "), "a header's line");
}

#[test]
fn extra_line_with_the_last_one_s_number_is_found() {
    let small = found(&Reads(|given, words| {
        let read = Proved.read(given, words);
        let extra = read.line > 6 && !given.is_empty() && {
            let lines: Vec<&[u8]> = given.split_inclusive(|&byte| byte == b'\n').collect();
            let before = lines[..lines.len().min(read.line - 1)].concat();
            second::listing::words(&before).is_ok()
        };
        if extra { Read { line: read.line - 1, ..read } } else { read }
    }));
    let small = text(small);
    let (_, extra) = small.rsplit_once("\\n").expect("a listing, and a byte");
    assert_eq!(extra.len(), 1, "{small}");
}

#[test]
fn word_written_behind_what_is_lent_is_found() {
    found(&Reads(|given, words| {
        let read = Proved.read(given, words);
        if read.answer == 11 {
            // SAFETY: the comparison lends its words out of a larger buffer.
            unsafe { *words.as_mut_ptr().add(words.len()) = 0 };
        }
        read
    }));
}

#[test]
fn case_whose_table_is_listed_wrongly_is_told_by_its_table() {
    let wrong = Lists(|table, lines| {
        let listed = Proved.list(table, lines);
        if table.len() < 20 { listed } else { Listed { answer: 4, bytes: 0 } }
    });
    let mut cases = Cases::new(6).take(4000).map(|made| made.case);
    let case = cases.find(|case| compare(&wrong, case).is_err()).expect("a case that shows it");
    let told = told_of(&wrong, "name", &case);
    assert!(told.starts_with("name, a table listed, made smaller:\ntable: "), "{told}");
}

#[test]
fn marked_table_is_alike() {
    let met = crate::differ::listings::compare_table(&Proved, &MARKED).expect("no difference");
    assert!(met.listed_met().expect_err("few answers are met").contains("has answer 1\n"));
}

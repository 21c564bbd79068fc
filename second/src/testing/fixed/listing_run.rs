//! `list TABLE` and `read LISTING` of request Q-4, by what they tell.

use super::listing::*;
use super::marked::MARKED;
use super::program::bytes;
use super::shape::BASE;
use super::*;
use crate::testing::recorded::{list_run, read_run};

#[track_caller]
fn prints(file: &[u8], listing: &str) {
    let told = list_run(file);
    assert_eq!(String::from_utf8_lossy(&told.printed), listing);
    assert_eq!((&told.trouble[..], told.status), ("", 0));
}

#[track_caller]
fn has_reason(file: &[u8], reason: u32) {
    let told = list_run(file);
    assert_eq!(told.trouble, format!("herringcart: refused: the table has reason {reason}\n"));
    assert_eq!((told.printed, told.status), (vec![], 1));
}

/// What is told of a bad line: its number and what stands there, and what was expected.
#[track_caller]
fn tells(listing: &[u8], line: &str, expected: &str) {
    let told = read_run(listing);
    let lines = format!("herringcart: line {line}\nherringcart: expected: {expected}\n");
    assert_eq!(told.trouble, lines);
    assert_eq!((told.printed, told.status), (vec![], 1));
}

/// Of `BASE`'s listing with this in a line's place, counted from 0.
#[track_caller]
fn tells_of(place: usize, line: &str, expected: &str) {
    let listing = text(&but(&BASE_LINES, place, line));
    tells(listing.as_bytes(), &format!("{}: {line}", place + 1), expected);
}

const EXPRESSION: &str =
    "expression 0..15 0..255 0..255 0..4095; kinds 4 to 8: expression 4..8 0..16383 0..16383";
const PORTS: &str = "port 0..3 0..1 0..1 0..15 0..255 0..65535";

/// By line of `BASE`, from 0.
const EXPECTED: [(usize, &str); 12] = [
    (0, "header 1..2 1..64 0..8 0..32"),
    (1, "header 1..512 1..256"),
    (2, "header 0..255 0..2047"),
    (PORT, PORTS),
    (NETWORK, "network 0..15 0..255 0..255 0..4095"),
    (WAITS, "network 0..255 0..255 0..65535"),
    (SOURCE, "source 0..15 0..255 0..65535 0..15"),
    (CONDITION, EXPRESSION),
    (OPERATOR, EXPRESSION),
    (RULE, "rule 0..15 0..3 0..1 0..511 0..255 0..255"),
    (LIST, "list 0..15 0..1 0..255 0..2047 0..255"),
    (ITEM, "item 0..15 0..4095 0..65535"),
];

fixed_cases! {
    fn list_run_prints_the_marked_twelve_lines() {
        prints(&bytes(&MARKED), MARKED_LISTING);
        prints(&bytes(&BASE), &text(&BASE_LINES));
    }

    fn list_run_ignores_bytes_past_the_last_whole_word() {
        for past in 1..4 {
            prints(&[&bytes(&MARKED)[..], &[0xFF, 0, 1][..past]].concat(), MARKED_LISTING);
        }
        has_reason(&[bytes(&MARKED), vec![0; 4]].concat(), 4);
    }

    fn list_run_tells_reasons_1_to_4_and_prints_nothing() {
        has_reason(&[], 1);
        has_reason(&bytes(&MARKED)[..11], 1);
        has_reason(&bytes(&MARKED)[3..], 2);
        has_reason(&bytes(&with(&MARKED, 0, 0x0302_0100)), 2);
        has_reason(&bytes(&with(&MARKED, 1, 0x0001_0000)), 3);
        has_reason(&bytes(&MARKED[..11]), 4);
        has_reason(&bytes(&MARKED)[..47], 4);
    }

    fn list_run_prints_tables_with_later_reasons() {
        let lines: Vec<&str> = MARKED_LISTING.lines().collect();
        prints(&bytes(&with(&MARKED, 6, 0)), &text(&but(&lines, 6, "network 0 0 0")));
        prints(&bytes(&with(&MARKED, 7, 0x8000_0000)), &text(&but(&lines, 7, "expression 8 0 0")));
    }

    fn read_run_prints_the_words_high_byte_first() {
        let told = read_run(MARKED_LISTING.as_bytes());
        assert_eq!((told.printed, &told.trouble[..], told.status), (bytes(&MARKED), "", 0));
        let told = read_run(text(&BASE_LINES).as_bytes());
        assert_eq!((told.printed, &told.trouble[..], told.status), (bytes(&BASE), "", 0));
    }

    fn read_run_tells_a_bad_line_and_what_was_expected() {
        let lines: Vec<&str> = MARKED_LISTING.lines().collect();
        let listing = text(&but(&lines, 3, "port 0 0 0 1 00 0"));
        tells(listing.as_bytes(), "4: port 0 0 0 1 00 0", PORTS);
        for (place, expected) in EXPECTED {
            tells_of(place, "x", expected);
            tells_of(place, &format!("{} ", BASE_LINES[place]), expected);
        }
    }

    fn read_run_expects_items_of_the_edition() {
        let mut lines = base_lines_2();
        lines[ITEM] = "item 0 0 4660".into();
        let listing: String = lines.iter().map(|line| format!("{line}\n")).collect();
        let expected = "item 0..15 0..1 0..2047 0..65535";
        tells(listing.as_bytes(), "20: item 0 0 4660", expected);
        tells_of(ITEM, "item 0 0 0 4660", "item 0..15 0..4095 0..65535");
    }

    /// What is expected goes by the good lines before.
    fn read_run_expects_what_the_header_says() {
        let more = text(&but(&BASE_LINES, 0, "header 1 6 1 1"));
        tells(more.as_bytes(), "9: network 1 1 2 0", PORTS);
        let fewer = text(&but(&BASE_LINES, 0, "header 1 4 1 1"));
        tells(fewer.as_bytes(), "8: port 2 1 0 1 0 3", "network 0..15 0..255 0..255 0..4095");
        let none = text(&but(&BASE_LINES, 0, "header 1 5 0 1"));
        tells(none.as_bytes(), "9: network 1 1 2 0", "source 0..15 0..255 0..65535 0..15");
        let items = text(&but(&BASE_LINES, 2, "header 2 7"));
        tells(items.as_bytes(), "27: item 0 0 1", "the end of the listing");
    }

    fn read_run_tells_where_the_listing_ends() {
        tells(b"", "1: the listing ends", "header 1..2 1..64 0..8 0..32");
        for (place, expected) in EXPECTED {
            let front = text(&BASE_LINES[..place]);
            tells(front.as_bytes(), &format!("{}: the listing ends", place + 1), expected);
        }
        let more = text(&but(&BASE_LINES, 2, "header 2 9"));
        tells(more.as_bytes(), "28: the listing ends", "item 0..15 0..4095 0..65535");
    }

    fn read_run_tells_a_line_behind_the_last() {
        let listing = |extra: &str| format!("{MARKED_LISTING}{extra}");
        let end = "the end of the listing";
        tells(listing("item 0 0 1\n").as_bytes(), "13: item 0 0 1", end);
        tells(listing("item 0 0 1").as_bytes(), "13: item 0 0 1 (no newline)", end);
        tells(listing("\n").as_bytes(), "13: ", end);
        tells(listing(" ").as_bytes(), "13:   (no newline)", end);
        tells(listing("\n\n").as_bytes(), "13: ", end);
    }

    fn read_run_tells_a_line_without_its_newline() {
        let cut = &MARKED_LISTING[..179];
        tells(cut.as_bytes(), "12: item 0 0 4660 (no newline)", "item 0..15 0..4095 0..65535");
        tells(b"header 1", "1: header 1 (no newline)", "header 1..2 1..64 0..8 0..32");
        tells(b"\r", "1: ? (no newline)", "header 1..2 1..64 0..8 0..32");
    }

    fn read_run_shows_other_bytes_as_question_marks() {
        let expected = "header 1..2 1..64 0..8 0..32";
        tells(b"header\t1 2 1 0\r\n", "1: header?1 2 1 0?", expected);
        tells(b"\0\x1F ~\x7F\x80\xFF\n", "1: ?? ~???", expected);
        tells("h\u{E9}ader\n".as_bytes(), "1: h??ader", expected);
        let all: Vec<u8> = (0..=255).filter(|&byte| byte != b'\n').collect();
        // Of the first eighty, 0 to 80 without 10, all below 32 are other bytes.
        let plain = " !\"#$%&'()*+,-./0123456789:;<=>?@ABCDEFGHIJKLMNOP";
        let shown = format!("{}{plain}", "?".repeat(31));
        tells(&all, &format!("1: {shown} .."), expected);
    }

    fn read_run_shows_eighty_bytes_of_a_line() {
        let expected = "header 1..2 1..64 0..8 0..32";
        let (eighty, more) = ("8".repeat(80), "8".repeat(81));
        tells(format!("{eighty}\n").as_bytes(), &format!("1: {eighty}"), expected);
        tells(eighty.as_bytes(), &format!("1: {eighty} (no newline)"), expected);
        tells(format!("{more}\n").as_bytes(), &format!("1: {eighty} .."), expected);
        tells(more.as_bytes(), &format!("1: {eighty} .."), expected);
        let short = "8".repeat(79);
        tells(format!("{short}\n").as_bytes(), &format!("1: {short}"), expected);
        tells(short.as_bytes(), &format!("1: {short} (no newline)"), expected);
        tells("8".repeat(5000).as_bytes(), &format!("1: {eighty} .."), expected);
        // The eighty-first is the newline itself; or another byte.
        let marks = "?".repeat(80);
        tells(&[&[0xFF; 80][..], b"\n"].concat(), &format!("1: {marks}"), expected);
        tells(&[0xFF; 81], &format!("1: {marks} .."), expected);
    }
}

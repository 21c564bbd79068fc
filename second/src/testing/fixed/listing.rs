//! Request Q-4, writing: "one line per word, a section name, then all fields in decimal in document
//! 01's order, zero fields too, single spaces, a newline at each end".

use super::editions::{abort, edition_2};
use super::marked::MARKED;
use super::shape::{BASE, LEAST};
use super::*;
use crate::testing::recorded::{list as lay, read};

/// "The marked table gives", each with its newline.
pub const MARKED_LISTING: &str = "header 1 2 1 0\nheader 1 1\nheader 1 2\nport 0 0 0 1 0 0\n\
                                  port 0 1 0 1 0 0\nnetwork 1 1 2 0\nnetwork 3 10 5\n\
                                  expression 0 0 5 0\nrule 1 0 0 0 0 255\nlist 1 1 7 0 2\n\
                                  item 4 0 2\nitem 0 0 4660\n";

/// The listing of `BASE`, which has lines of every form but the items of edition 2.
pub const BASE_LINES: [&str; 27] = [
    "header 1 5 1 1",
    "header 4 2",
    "header 2 8",
    "port 0 0 0 1 0 0",
    "port 0 1 0 1 0 0",
    "port 0 1 0 1 0 0",
    "port 1 0 0 1 0 0",
    "port 2 1 0 1 0 3",
    "network 1 1 2 0",
    "network 3 10 5",
    "source 1 2 4 0",
    "expression 0 0 5 0",
    "expression 2 3 0 0",
    "expression 4 3 1",
    "expression 8 0 0",
    "rule 1 0 0 2 0 255",
    "rule 1 0 0 3 255 1",
    "list 1 0 0 0 7",
    "list 1 0 0 7 1",
    "item 0 0 4660",
    "item 1 3 0",
    "item 2 4 0",
    "item 3 4 0",
    "item 4 0 2",
    "item 5 1 0",
    "item 6 1 0",
    "item 0 0 1",
];

/// One of a word's lines in `BASE`, in edition 1 and for items in edition 2.
pub const PORT: usize = 3;
pub const NETWORK: usize = 8;
pub const WAITS: usize = 9;
pub const SOURCE: usize = 10;
pub const CONDITION: usize = 11;
pub const OPERATOR: usize = 13;
pub const RULE: usize = 15;
pub const LIST: usize = 17;
pub const ITEM: usize = 19;

pub fn text(lines: &[&str]) -> String {
    lines.iter().map(|line| format!("{line}\n")).collect()
}

/// The lines with another in one's place.
pub fn but<'a>(lines: &[&'a str], place: usize, line: &'a str) -> Vec<&'a str> {
    let mut lines = lines.to_vec();
    lines[place] = line;
    lines
}

/// `BASE`'s lines in edition 2: items of kind 0 to 6 with a 0 for abort.
pub fn base_lines_2() -> Vec<String> {
    let mut lines: Vec<String> = BASE_LINES.map(str::to_string).to_vec();
    lines[0] = "header 2 5 1 1".into();
    for line in &mut lines[ITEM..] {
        line.insert_str("item 0".len(), " 0");
    }
    lines
}

/// The room is lent with these bytes.
fn lent(room: usize) -> Vec<u8> {
    (0..room).map(|byte| byte as u8 ^ 0x5A).collect()
}

/// A table lists so, in just enough room and in more, and is read back; a byte less is 11.
#[track_caller]
pub fn lists(table: &[u32], listing: &str) {
    let needed = listing.len();
    for room in [needed, needed + 1, needed + 77] {
        let mut out = lent(room);
        let listed = lay(table, &mut out);
        assert_eq!((listed.answer, listed.bytes), (0, needed));
        assert_eq!(String::from_utf8_lossy(&out[..needed]), listing);
        assert_eq!(out[needed..], lent(room)[needed..]);
    }
    refuses(table, needed - 1, 11);
    let mut words = vec![0xAAAA_AAAA; table.len()];
    let back = read(listing.as_bytes(), &mut words);
    assert_eq!((back.answer, back.words, back.line), (0, table.len(), 0));
    assert_eq!(words, table);
}

/// Nothing of the room is changed, and no byte is counted.
#[track_caller]
fn refuses(table: &[u32], room: usize, answer: u32) {
    let mut out = lent(room);
    let listed = lay(table, &mut out);
    assert_eq!((listed.answer, listed.bytes), (answer, 0), "room {room}");
    assert_eq!(out, lent(room));
}

/// In rooms of every kind, none too.
#[track_caller]
fn refused_in_any_room(table: &[u32], reason: u32) {
    for room in [0, 1, 14, 15, 200, 1000] {
        refuses(table, room, reason);
    }
}

/// `BASE` with this word in one place lists as it does, with this line there.
#[track_caller]
fn line_of(place: usize, word: u32, line: &str) {
    lists(&with(&BASE, place, word), &text(&but(&BASE_LINES, place, line)));
}

/// An item's line in edition 2.
#[track_caller]
fn line_of_2(place: usize, word: u32, line: &str) {
    let lines = base_lines_2();
    let lines: Vec<&str> = lines.iter().map(String::as_str).collect();
    lists(&with(&edition_2(&BASE), place, word), &text(&but(&lines, place, line)));
}

/// A table of every count at its limit, of words that are all ones.
pub fn most() -> Vec<u32> {
    let mut table = vec![0x0240_0820, 0x0200_0100, 0x00FF_07FF];
    table.resize(3185, u32::MAX);
    table
}

fixed_cases! {
    fn listing_of_the_marked_table_is_the_twelve_lines() {
        lists(&MARKED, MARKED_LISTING);
        assert_eq!(MARKED_LISTING.len(), 180);
        assert_eq!(MARKED_LISTING.matches('\n').count(), 12);
    }

    fn listing_of_a_table_with_a_line_of_every_form() {
        lists(&BASE, &text(&BASE_LINES));
        let lines_2: String = base_lines_2().iter().map(|line| format!("{line}\n")).collect();
        lists(&edition_2(&BASE), &lines_2);
    }

    fn listing_of_the_least_table() {
        let behind = "header 1 1\nheader 0 0\nport 0 0 0 0 0 0\nexpression 0 0 0 0\n\
                      rule 0 0 0 0 255 255\n";
        lists(&LEAST, &format!("header 1 1 0 0\n{behind}"));
        lists(&edition_2(&LEAST), &format!("header 2 1 0 0\n{behind}"));
    }

    /// 9A123456 has other bits in every field.
    fn listing_has_the_fields_in_document_01s_order() {
        line_of(PORT, 0x9A12_3456, "port 2 0 1 10 18 13398");
        line_of(NETWORK, 0x9A12_3456, "network 9 161 35 1110");
        line_of(WAITS, 0x9A12_3456, "network 154 18 13398");
        line_of(SOURCE, 0x9A12_3456, "source 9 161 9029 6");
        line_of(CONDITION, 0x9A12_3456, "expression 9 161 35 1110");
        line_of(OPERATOR, 0x7A12_3456, "expression 7 10312 13398");
        line_of(RULE, 0x9A12_3456, "rule 9 2 1 18 52 86");
        line_of(LIST, 0x9A12_3456, "list 9 1 66 564 86");
        line_of(ITEM, 0x9A12_3456, "item 9 2578 13398");
        line_of_2(ITEM, 0x9A12_3456, "item 9 1 530 13398");
    }

    fn listing_has_the_largest_numbers_of_all_widths() {
        line_of(PORT, u32::MAX, "port 3 1 1 15 255 65535");
        line_of(NETWORK, u32::MAX, "network 15 255 255 4095");
        line_of(WAITS, u32::MAX, "network 255 255 65535");
        line_of(SOURCE, u32::MAX, "source 15 255 65535 15");
        line_of(CONDITION, u32::MAX, "expression 15 255 255 4095");
        line_of(OPERATOR, 0x8FFF_FFFF, "expression 8 16383 16383");
        line_of(RULE, u32::MAX, "rule 15 3 1 511 255 255");
        line_of(LIST, u32::MAX, "list 15 1 255 2047 255");
        line_of(ITEM, u32::MAX, "item 15 4095 65535");
        line_of_2(ITEM, u32::MAX, "item 15 1 2047 65535");
    }

    fn listing_has_zero_fields_too() {
        line_of(PORT, 0, "port 0 0 0 0 0 0");
        line_of(NETWORK, 0, "network 0 0 0 0");
        line_of(WAITS, 0, "network 0 0 0");
        line_of(SOURCE, 0, "source 0 0 0 0");
        line_of(CONDITION, 0, "expression 0 0 0 0");
        line_of(OPERATOR, 0x4000_0000, "expression 4 0 0");
        line_of(RULE, 0, "rule 0 0 0 0 0 0");
        line_of(LIST, 0, "list 0 0 0 0 0");
        line_of(ITEM, 0, "item 0 0 0");
        line_of_2(ITEM, 0, "item 0 0 0 0");
        // "0" fields that are not zero.
        line_of(NETWORK, 0x0000_0001, "network 0 0 0 1");
        line_of(SOURCE, 0x0000_0008, "source 0 0 0 8");
        line_of(CONDITION, 0x0000_0800, "expression 0 0 0 2048");
    }

    /// Every field alone has its highest and its lowest bit set.
    fn listing_parts_each_field_from_the_next() {
        line_of(PORT, 0x8000_0000, "port 2 0 0 0 0 0");
        line_of(PORT, 0x4000_0000, "port 1 0 0 0 0 0");
        line_of(PORT, 0x2000_0000, "port 0 1 0 0 0 0");
        line_of(PORT, 0x1000_0000, "port 0 0 1 0 0 0");
        line_of(PORT, 0x0981_8001, "port 0 0 0 9 129 32769");
        line_of(NETWORK, 0x9818_1801, "network 9 129 129 2049");
        line_of(WAITS, 0x8181_8001, "network 129 129 32769");
        line_of(SOURCE, 0x9818_0019, "source 9 129 32769 9");
        line_of(CONDITION, 0x1818_1801, "expression 1 129 129 2049");
        line_of(OPERATOR, 0x5800_6001, "expression 5 8193 8193");
        line_of(RULE, 0x9B01_8181, "rule 9 2 1 257 129 129");
        line_of(LIST, 0x9C0C_0181, "list 9 1 129 1025 129");
        line_of(ITEM, 0x9801_8001, "item 9 2049 32769");
        line_of_2(ITEM, 0x9C01_8001, "item 9 1 1025 32769");
        line_of_2(ITEM, 0x0800_0000, "item 0 1 0 0");
        line_of_2(ITEM, 0x0400_0000, "item 0 0 1024 0");
    }

    /// "Kinds above 8 list as conditions"; 4 to 8 have two arguments.
    fn listing_of_an_expression_goes_by_its_kind() {
        for kind in [0, 1, 2, 3, 9, 10, 11, 12, 13, 14, 15] {
            line_of(CONDITION, kind << 28 | 0x0A12_3456, &format!("expression {kind} 161 35 1110"));
        }
        for kind in 4..=8 {
            line_of(CONDITION, kind << 28 | 0x0A12_3456, &format!("expression {kind} 10312 13398"));
        }
    }

    /// "an item's a field becomes abort(1), a(11), each listed as a field".
    fn listing_of_an_item_goes_by_the_edition() {
        let call = abort(0x0000_1234);
        line_of(ITEM, call, "item 0 2048 4660");
        line_of_2(ITEM, call, "item 0 1 0 4660");
        line_of(ITEM, 0x5FFF_0000, "item 5 4095 0");
        line_of_2(ITEM, 0x5FFF_0000, "item 5 1 2047 0");
    }

    fn listing_of_the_largest_table() {
        let lines = [
            ("port 3 1 1 15 255 65535\n", 64),
            ("network 15 255 255 4095\nnetwork 255 255 65535\n", 8),
            ("source 15 255 65535 15\n", 32),
            ("expression 15 255 255 4095\n", 512),
            ("rule 15 3 1 511 255 255\n", 256),
            ("list 15 1 255 2047 255\n", 255),
            ("item 15 1 2047 65535\n", 2047),
        ];
        let all: String = lines.iter().map(|(lines, times)| lines.repeat(*times)).collect();
        lists(&most(), &format!("header 2 64 8 32\nheader 512 256\nheader 255 2047\n{all}"));
    }

    fn listing_of_a_table_with_reason_1_is_refused_by_it() {
        refused_in_any_room(&[], 1);
        refused_in_any_room(&MARKED[..1], 1);
        refused_in_any_room(&MARKED[..2], 1);
        refused_in_any_room(&[0, 0], 1);
        refused_in_any_room(&[0xFFFF_FFFF; 2], 1);
    }

    fn listing_of_a_table_with_reason_2_is_refused_by_it() {
        for edition in [0, 3, 4, 128, 255] {
            refused_in_any_room(&with(&MARKED, 0, edition << 24 | 0x0002_0100), 2);
            // Before 3 and before 4.
            refused_in_any_room(&with(&MARKED, 0, edition << 24), 2);
            refused_in_any_room(&with(&MARKED, 0, edition << 24 | 0x0002_0100)[..11], 2);
        }
        refused_in_any_room(&[0; 3], 2);
    }

    fn listing_of_a_table_with_reason_3_is_refused_by_it() {
        for head in [0x0100_0100, 0x0141_0100, 0x01FF_0100, 0x0102_0900, 0x0102_0121, 0x0202_FF00] {
            refused_in_any_room(&with(&MARKED, 0, head), 3);
        }
        for second in [0x0000_0001, 0x0001_0000, 0x0201_0001, 0x0001_0101, 0xFFFF_0001] {
            refused_in_any_room(&with(&MARKED, 1, second), 3);
        }
        for third in [0x0100_0002, 0x0001_0800, 0xFFFF_0002, 0x0001_FFFF] {
            refused_in_any_room(&with(&MARKED, 2, third), 3);
        }
        // Before 4, also where the length is as the counts say.
        refused_in_any_room(&with(&MARKED, 0, 0x0100_0100)[..10], 3);
        refused_in_any_room(&with(&MARKED, 0, 0x0100_0100)[..3], 3);
    }

    fn listing_of_a_table_with_reason_4_is_refused_by_it() {
        refused_in_any_room(&MARKED[..11], 4);
        refused_in_any_room(&MARKED[..3], 4);
        refused_in_any_room(&[&MARKED[..], &[0]].concat(), 4);
        refused_in_any_room(&with(&MARKED, 0, 0x0102_0101), 4);
        refused_in_any_room(&with(&MARKED, 2, 0x0001_0003), 4);
        refused_in_any_room(&edition_2(&BASE)[..26], 4);
    }

    /// "Tables with reasons 5 to 10 list and read back."
    fn listing_of_a_table_with_a_later_reason_is_done() {
        let rows = |place: usize, line: &'static str| {
            let lines: Vec<&str> = MARKED_LISTING.lines().collect();
            text(&but(&lines, place, line))
        };
        let dear: Vec<u32> = {
            let rules: Vec<u32> = (0..17).map(|number| rule(1, 0, number, NONE)).collect();
            plain(&[mode(1)], &[equal(0, 5)], &rules, &[list(1, 0, 255); 17], &[call(0); 255])
        };
        for (table, reason, listing) in [
            (with(&MARKED, 6, 0), 5, rows(6, "network 0 0 0")),
            (with(&MARKED, 3, 0xFFFF_FFFF), 5, rows(3, "port 3 1 1 15 255 65535")),
            (with(&MARKED, 10, 0x4001_0002), 6, rows(10, "item 4 1 2")),
            (with(&MARKED, 7, 0x8000_0000), 7, rows(7, "expression 8 0 0")),
            (with(&MARKED, 9, 0x2838_0002), 8, rows(9, "list 2 1 7 0 2")),
            (with(&MARKED, 8, 0x1000_FFFF), 10, rows(8, "rule 1 0 0 0 255 255")),
        ] {
            assert_eq!(check(&table).reason, reason);
            lists(&table, &listing);
        }
        assert_eq!(check(&dear).reason, 9);
        let rules: String = (0..17).map(|number| format!("rule 1 0 0 0 {number} 255\n")).collect();
        let front = "header 1 1 0 0\nheader 1 17\nheader 17 255\nport 0 0 0 1 0 0\n\
                     expression 0 0 5 0\n";
        let behind = ["list 1 0 0 0 255\n".repeat(17), "item 0 0 0\n".repeat(255)].concat();
        lists(&dear, &format!("{front}{rules}{behind}"));
    }

    fn listing_in_too_little_room_is_11_and_lays_no_line() {
        for room in [179, 178, 166, 100, 15, 14, 1, 0] {
            refuses(&MARKED, room, 11);
        }
        let mut out = [0x2E; 180];
        let listed = lay(&MARKED, &mut out);
        assert_eq!((listed.answer, listed.bytes, &out[..]), (0, 180, MARKED_LISTING.as_bytes()));
    }

    fn listing_over_a_longer_one_leaves_the_bytes_behind() {
        let mut out = [0x2E; 600];
        let first = lay(&BASE, &mut out).bytes;
        let before = out;
        assert_eq!(lay(&MARKED, &mut out).bytes, 180);
        assert_eq!(out[180..], before[180..]);
        assert!(out.starts_with(MARKED_LISTING.as_bytes()) && first > 180);
    }
}

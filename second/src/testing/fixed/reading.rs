//! Request Q-4, reading: "The reader refuses, with the first bad line's number, any other
//! spelling: a leading zero, a field too big for its width, an edition or count that reasons 2 and
//! 3 refuse, a missing or extra line."

use super::editions::edition_2;
use super::listing::*;
use super::marked::MARKED;
use super::shape::BASE;
use super::*;
use crate::testing::recorded::read;

const FILL: u32 = 0x5555_5555;

/// The table's words are read, in just enough room and in more; in one word less it is 11.
#[track_caller]
fn reads(text: &[u8], table: &[u32]) {
    for room in [table.len(), table.len() + 1, table.len() + 40] {
        let mut words = vec![FILL; room];
        let done = read(text, &mut words);
        assert_eq!((done.answer, done.words, done.line), (0, table.len(), 0));
        assert_eq!(words[..table.len()], *table);
        assert!(words[table.len()..].iter().all(|&word| word == FILL));
    }
    for room in [table.len() - 1, table.len() / 2, 1, 0] {
        refuses(text, room, 11, 0);
    }
}

/// Nothing of the room is changed, and no word is counted.
#[track_caller]
fn refuses(text: &[u8], room: usize, answer: u32, line: usize) {
    let mut words = vec![FILL; room];
    let refused = read(text, &mut words);
    let shown = String::from_utf8_lossy(text);
    assert_eq!((refused.answer, refused.words, refused.line), (answer, 0, line), "{shown}");
    assert!(words.iter().all(|&word| word == FILL));
}

/// A text that is no listing from this line on; more room or none makes no difference.
#[track_caller]
fn bad(text: &[u8], line: usize) {
    for room in [40, 12, 0] {
        refuses(text, room, 12, line);
    }
}

/// `BASE`'s listing with another line, its place from 0, is bad there.
#[track_caller]
fn bad_line(place: usize, line: &str) {
    bad_at(place, line, place + 1);
}

/// It is bad elsewhere.
#[track_caller]
fn bad_at(place: usize, line: &str, due: usize) {
    bad(text(&but(&BASE_LINES, place, line)).as_bytes(), due);
}

/// `BASE`'s listing with another line, its place from 0, is read as with this word.
#[track_caller]
fn good_line(place: usize, line: &str, word: u32) {
    reads(text(&but(&BASE_LINES, place, line)).as_bytes(), &with(&BASE, place, word));
}

/// The same in edition 2.
fn in_edition_2(place: usize, line: &str) -> String {
    let mut lines = base_lines_2();
    lines[place] = line.into();
    lines.iter().map(|line| format!("{line}\n")).collect()
}

/// A line of every form, with its place in `BASE`.
const FORMS: [usize; 12] =
    [0, 1, 2, PORT, NETWORK, WAITS, SOURCE, CONDITION, OPERATOR, RULE, LIST, ITEM];

/// The largest numbers of all widths, by place; the edition 2 item last.
const LARGEST: [(usize, &str); 10] = [
    (PORT, "port 3 1 1 15 255 65535"),
    (NETWORK, "network 15 255 255 4095"),
    (WAITS, "network 255 255 65535"),
    (SOURCE, "source 15 255 65535 15"),
    (CONDITION, "expression 15 255 255 4095"),
    (OPERATOR, "expression 8 16383 16383"),
    (RULE, "rule 15 3 1 511 255 255"),
    (LIST, "list 15 1 255 2047 255"),
    (ITEM, "item 15 4095 65535"),
    (ITEM, "item 15 1 2047 65535"),
];

/// The line with each of its numbers in turn made another.
fn each_number(line: &str, other: impl Fn(&str) -> String) -> Vec<String> {
    let words: Vec<&str> = line.split(' ').collect();
    let turned = |at: usize| {
        let mut words: Vec<String> = words.iter().map(|word| word.to_string()).collect();
        words[at] = other(&words[at]);
        words.join(" ")
    };
    (1..words.len()).map(turned).collect()
}

/// Every line of every form of `BASE` with this done to it is bad.
#[track_caller]
fn bad_in_every_form(other: impl Fn(&str) -> String) {
    for place in FORMS {
        bad_line(place, &other(BASE_LINES[place]));
    }
    bad(in_edition_2(ITEM, &other("item 0 0 0 4660")).as_bytes(), ITEM + 1);
}

/// Likewise for each number of it.
#[track_caller]
fn bad_in_every_number(other: impl Fn(&str) -> String) {
    for place in FORMS {
        each_number(BASE_LINES[place], &other).iter().for_each(|line| bad_line(place, line));
    }
    for line in each_number("item 0 0 0 4660", &other) {
        bad(in_edition_2(ITEM, &line).as_bytes(), ITEM + 1);
    }
}

fixed_cases! {
    fn reading_the_marked_listing_gives_the_marked_table() {
        reads(MARKED_LISTING.as_bytes(), &MARKED);
        reads(text(&BASE_LINES).as_bytes(), &BASE);
        reads(in_edition_2(ITEM, "item 0 0 0 4660").as_bytes(), &edition_2(&BASE));
    }

    fn reading_takes_the_largest_numbers_and_nothing_above() {
        for (place, line) in &LARGEST[..9] {
            let word = if *place == OPERATOR { 0x8FFF_FFFF } else { u32::MAX };
            good_line(*place, line, word);
            let above = |number: &str| (number.parse::<u32>().expect("a number") + 1).to_string();
            each_number(line, above).iter().for_each(|line| bad_line(*place, line));
        }
        let (place, line) = LARGEST[9];
        reads(in_edition_2(place, line).as_bytes(), &with(&edition_2(&BASE), place, u32::MAX));
        let above = |number: &str| (number.parse::<u32>().expect("a number") + 1).to_string();
        for line in each_number(line, above) {
            bad(in_edition_2(place, &line).as_bytes(), place + 1);
        }
    }

    /// Two to the 32nd, the 63rd or the 64th more, which a reader of few bits takes for nothing.
    fn reading_refuses_numbers_that_wrap() {
        for more in [1u128 << 32, 1 << 63, 1 << 64, 10 << 64, 10u128.pow(19), 10u128.pow(20)] {
            bad_in_every_number(|number| {
                (number.parse::<u128>().expect("a number") + more).to_string()
            });
        }
        bad_line(PORT, "port 0 0 0 257 0 0");
        bad_line(PORT, "port 0 0 0 17 0 0");
        bad_line(PORT, "port 0 0 0 1 256 0");
        bad_line(ITEM, "item 0 0 70196");
        bad_line(ITEM, "item 0 0 4294971956");
        bad_line(ITEM, "item 0 0 18446744073709556276");
        bad_line(ITEM, "item 0 0 00000000000000004660");
        bad_line(ITEM, "item 0 0 99999999999999999999");
        bad_line(ITEM, &format!("item 0 0 {}", "9".repeat(400)));
        bad_line(0, "header 257 5 1 1");
        bad_line(0, "header 4294967297 5 1 1");
        bad_line(1, "header 65540 2");
        bad_line(1, "header 4294967300 2");
    }

    fn reading_refuses_a_leading_zero() {
        bad_in_every_number(|number| format!("0{number}"));
        bad_in_every_number(|number| format!("00{number}"));
        bad_line(PORT, "port 00 0 0 1 0 0");
        bad_line(ITEM, "item 0 0 04660");
    }

    fn reading_refuses_a_sign() {
        bad_in_every_number(|number| format!("+{number}"));
        bad_in_every_number(|number| format!("-{number}"));
        bad_line(PORT, "port -0 0 0 1 0 0");
        bad_line(PORT, "port 0 0 0 -1 0 0");
    }

    fn reading_refuses_numbers_that_are_not_plain_decimal() {
        bad_in_every_number(|number| format!("0x{number}"));
        bad_in_every_number(|number| format!("{number}."));
        bad_in_every_number(|number| format!("{number}.0"));
        bad_in_every_number(|number| format!("{number}e0"));
        bad_in_every_number(|number| format!("{number}_"));
        bad_in_every_number(|number| format!("{number},"));
        bad_in_every_number(|_| "a".into());
        bad_in_every_number(|_| "".into());
        bad_in_every_number(|number| format!("\"{number}\""));
        bad_line(ITEM, "item 0 0 0x1234");
        bad_line(ITEM, "item 0 0 1234h");
        bad_line(ITEM, "item 0 0 4_660");
        bad_line(ITEM, "item 0 0 4,660");
        // One of another script, and the byte before and behind the digits.
        bad_line(PORT, "port 0 0 0 \u{661} 0 0");
        bad_line(PORT, "port 0 0 0 / 0 0");
        bad_line(PORT, "port 0 0 0 : 0 0");
    }

    fn reading_refuses_other_space() {
        bad_in_every_form(|line| line.replacen(' ', "\t", 1));
        bad_in_every_form(|line| line.replacen(' ', "  ", 1));
        bad_in_every_form(|line| line.replace(' ', "  "));
        bad_in_every_form(|line| line.replacen(' ', "", 1));
        bad_in_every_form(|line| line.replace(' ', ","));
        bad_in_every_form(|line| line.replace(' ', "\u{A0}"));
        bad_in_every_form(|line| format!("{line} "));
        bad_in_every_form(|line| format!("{line}\t"));
        bad_in_every_form(|line| format!(" {line}"));
        bad_in_every_form(|line| format!("\t{line}"));
        bad_in_every_form(|line| format!("{line}\r"));
        bad_in_every_form(|line| format!("\r{line}"));
        bad_in_every_form(|line| format!("{line}\u{B}"));
        bad_in_every_number(|number| format!(" {number}"));
        bad_in_every_number(|number| format!("\t{number}"));
    }

    fn reading_refuses_misspelt_names() {
        bad_in_every_form(|line| line[1..].to_string());
        bad_in_every_form(|line| line[line.find(' ').expect("a space")..].to_string());
        bad_in_every_form(|line| line[line.find(' ').expect("a space") + 1..].to_string());
        bad_in_every_form(|line| line.replacen(' ', "s ", 1));
        bad_in_every_form(|line| format!("{}{}", line[..1].to_uppercase(), &line[1..]));
        bad_in_every_form(|line| line.to_uppercase());
        bad_in_every_form(|line| line.replacen(' ', ": ", 1));
        bad_in_every_form(|line| format!("x{line}"));
        bad_line(NETWORK, "net 1 1 2 0");
        bad_line(WAITS, "waits 3 10 5");
        bad_line(OPERATOR, "operator 4 3 1");
        bad_line(CONDITION, "condition 0 0 5 0");
        bad_line(0, "head 1 5 1 1");
    }

    fn reading_refuses_another_sections_name() {
        let names = ["header", "port", "network", "source", "expression", "rule", "list", "item"];
        for place in FORMS {
            let (own, numbers) = BASE_LINES[place].split_once(' ').expect("a name");
            for name in names.iter().filter(|&&name| name != own) {
                bad_line(place, &format!("{name} {numbers}"));
            }
        }
        // Right as they stand, elsewhere.
        for (place, other) in [(PORT, RULE), (RULE, PORT), (NETWORK, SOURCE), (SOURCE, NETWORK)] {
            bad_line(place, BASE_LINES[other]);
        }
        for (place, other) in [(NETWORK, WAITS), (WAITS, NETWORK), (LIST, ITEM), (0, 1), (1, 0)] {
            bad_line(place, BASE_LINES[other]);
        }
        bad_line(2, BASE_LINES[PORT]);
        bad_line(CONDITION, BASE_LINES[NETWORK]);
    }

    fn reading_refuses_too_many_and_too_few_fields() {
        bad_in_every_form(|line| format!("{line} 0"));
        bad_in_every_form(|line| line[..line.rfind(' ').expect("a space")].to_string());
        bad_in_every_form(|line| line.split(' ').next().expect("a name").to_string());
        bad_in_every_form(|line| line.replacen(' ', " 0 0 ", 1));
        bad_in_every_form(|line| format!("{line} # a comment"));
        bad_in_every_form(|line| format!("{line};"));
        bad_in_every_form(|line| format!("{line} {line}"));
    }

    /// Each in the other's fields, whichever its neighbours are.
    fn reading_refuses_a_condition_of_three_fields_and_an_operator_of_four() {
        for kind in 0..=15 {
            let three = format!("expression {kind} 3 1");
            let four = format!("expression {kind} 3 1 0");
            for place in [CONDITION, OPERATOR] {
                if (4..=8).contains(&kind) {
                    good_line(place, &three, kind << 28 | 0x0000_C001);
                    bad_line(place, &four);
                } else {
                    good_line(place, &four, kind << 28 | 0x0030_1000);
                    bad_line(place, &three);
                }
            }
        }
        // Too big for a condition's port and not for an operator's left, and for neither's.
        bad_line(CONDITION, "expression 0 256 0 0");
        good_line(OPERATOR, "expression 4 256 256", 0x4040_0100);
        bad_line(OPERATOR, "expression 9 256 256");
        bad_line(OPERATOR, "expression 20 0 0");
        bad_line(OPERATOR, "expression 16 0 0 0");
    }

    fn reading_refuses_items_of_the_other_edition() {
        bad_line(ITEM, "item 0 0 0 4660");
        bad(in_edition_2(ITEM, "item 0 0 4660").as_bytes(), ITEM + 1);
        bad(in_edition_2(26, "item 0 0 1").as_bytes(), 27);
        good_line(ITEM, "item 0 2048 4660", 0x0800_1234);
        bad(in_edition_2(ITEM, "item 0 2048 4660").as_bytes(), ITEM + 1);
        bad(in_edition_2(ITEM, "item 0 2 0 4660").as_bytes(), ITEM + 1);
        bad(in_edition_2(ITEM, "item 0 0 2048 4660").as_bytes(), ITEM + 1);
        // The header alone turned: the first item is where it shows.
        bad(text(&but(&BASE_LINES, 0, "header 2 5 1 1")).as_bytes(), ITEM + 1);
        bad(in_edition_2(0, "header 1 5 1 1").as_bytes(), ITEM + 1);
    }

    fn reading_refuses_an_edition_or_count_that_the_reasons_refuse() {
        for edition in [0, 3, 4, 255, 256, 257] {
            bad_line(0, &format!("header {edition} 5 1 1"));
        }
        for ports in [0, 65, 128, 255, 256] {
            bad_line(0, &format!("header 1 {ports} 1 1"));
        }
        for (networks, sources) in [(9, 1), (255, 1), (256, 1), (1, 33), (1, 255), (1, 256)] {
            bad_line(0, &format!("header 1 5 {networks} {sources}"));
        }
        for (expressions, rules) in [(0, 2), (513, 2), (65535, 2), (65536, 2), (4, 0), (4, 257)] {
            bad_line(1, &format!("header {expressions} {rules}"));
        }
        for (lists, items) in [(256, 8), (65535, 8), (65536, 8), (2, 2048), (2, 65535)] {
            bad_line(2, &format!("header {lists} {items}"));
        }
    }

    /// Every count at its limits stands: the listing goes on behind it, to where it does not fit.
    fn reading_takes_counts_at_their_limits() {
        let first = |counts: [u32; 3], due: usize| {
            let [ports, networks, sources] = counts;
            bad_at(0, &format!("header 1 {ports} {networks} {sources}"), due);
        };
        first([1, 1, 1], 5);
        first([64, 1, 1], 9);
        first([5, 0, 1], 9);
        first([5, 8, 1], 11);
        first([5, 1, 0], 11);
        first([5, 1, 32], 12);
        bad_at(1, "header 1 2", 13);
        bad_at(1, "header 512 2", 16);
        bad_at(1, "header 4 1", 17);
        bad_at(1, "header 4 256", 18);
        bad_at(2, "header 0 8", 18);
        bad_at(2, "header 255 8", 20);
        bad_at(2, "header 2 0", 20);
        bad_at(2, "header 2 2047", 28);
    }

    /// "a count that does not fit what follows shows at the first line with the wrong name"
    fn reading_shows_a_count_that_does_not_fit_at_the_first_wrong_name() {
        bad_at(0, "header 1 4 1 1", 8);
        bad_at(0, "header 1 6 1 1", 9);
        bad_at(0, "header 1 5 0 1", 9);
        bad_at(0, "header 1 5 2 1", 11);
        bad_at(0, "header 1 5 1 0", 11);
        bad_at(0, "header 1 5 1 2", 12);
        bad_at(1, "header 3 2", 15);
        bad_at(1, "header 5 2", 16);
        bad_at(1, "header 4 1", 17);
        bad_at(1, "header 4 3", 18);
        bad_at(2, "header 1 8", 19);
        bad_at(2, "header 3 8", 20);
        bad_at(2, "header 2 7", 27);
        bad_at(2, "header 2 9", 28);
    }

    /// "a missing line has the number it would have had": where the text ends.
    fn reading_refuses_a_listing_that_ends_early() {
        bad(b"", 1);
        for lines in 0..27 {
            bad(text(&BASE_LINES[..lines]).as_bytes(), lines + 1);
        }
        for lines in 0..12 {
            let front: String = MARKED_LISTING.split_inclusive('\n').take(lines).collect();
            bad(front.as_bytes(), lines + 1);
        }
    }

    /// A line that is missing within shows where the next section's begins, or at the end.
    fn reading_refuses_a_listing_with_a_line_lost() {
        let sections = [(3..8, 8), (8..9, 9), (9..10, 10), (10..11, 11), (11..15, 15)];
        let behind = [(15..17, 17), (17..19, 19), (19..27, 27)];
        for (places, due) in sections.into_iter().chain(behind) {
            for place in places {
                let mut lines = BASE_LINES.to_vec();
                lines.remove(place);
                bad(text(&lines).as_bytes(), due);
            }
        }
        // Without its second line, the third is taken for it, and then a port is no header.
        let mut lines = BASE_LINES.to_vec();
        lines.remove(1);
        bad(text(&lines).as_bytes(), 3);
        bad(text(&BASE_LINES[1..]).as_bytes(), 1);
    }

    /// "an extra one the last plus 1"
    fn reading_refuses_a_line_too_many() {
        for extra in ["item 0 0 1", "header 1 5 1 1", "x", "", " ", "#", "\0"] {
            bad(format!("{}{extra}\n", text(&BASE_LINES)).as_bytes(), 28);
            bad(format!("{MARKED_LISTING}{extra}\n").as_bytes(), 13);
        }
        // Without a newline too.
        for extra in ["item 0 0 1", " ", "\r", "\0", "x"] {
            bad(format!("{}{extra}", text(&BASE_LINES)).as_bytes(), 28);
        }
        bad(format!("{MARKED_LISTING}{MARKED_LISTING}").as_bytes(), 13);
    }

    fn reading_refuses_a_line_doubled() {
        // A header of two fields doubled is taken for the next.
        let front = [(0, 2), (1, 4), (2, 4), (3, 9), (7, 9), (8, 10), (9, 11), (10, 12)];
        let behind = [(11, 16), (14, 16), (15, 18), (17, 20), (19, 28), (26, 28)];
        for (place, due) in front.into_iter().chain(behind) {
            let mut lines = BASE_LINES.to_vec();
            lines.insert(place, lines[place]);
            bad(text(&lines).as_bytes(), due);
        }
    }

    fn reading_refuses_empty_lines_and_comments() {
        for line in ["", " ", "#", "# a comment", "// port", "; port", "\r", "\t"] {
            for place in 0..=27 {
                let mut lines = BASE_LINES.to_vec();
                lines.insert(place, line);
                bad(text(&lines).as_bytes(), place + 1);
            }
        }
        bad(b"\n", 1);
        bad(b"\n\n", 1);
        bad(format!("\n{MARKED_LISTING}").as_bytes(), 1);
        bad(format!("\u{FEFF}{MARKED_LISTING}").as_bytes(), 1);
    }

    /// "a last line without its newline is itself bad"
    fn reading_refuses_a_line_without_its_newline() {
        for lines in 1..=27 {
            let front = text(&BASE_LINES[..lines]);
            bad(&front.as_bytes()[..front.len() - 1], lines);
        }
        bad(b"header 1 2 1 0", 1);
        bad(b"h", 1);
        bad(b"0", 1);
        // Two lines in one.
        bad(text(&BASE_LINES).replacen('\n', "", 1).as_bytes(), 1);
        bad(text(&BASE_LINES).replacen('\n', " ", 1).as_bytes(), 1);
        bad(text(&BASE_LINES).replace('\n', "\r").as_bytes(), 1);
        bad(text(&BASE_LINES).replace('\n', "\r\n").as_bytes(), 1);
        bad(text(&BASE_LINES).replace('\n', ";").as_bytes(), 1);
        bad(text(&BASE_LINES).replace('\n', "\0").as_bytes(), 1);
    }

    fn reading_refuses_a_line_cut_in_two() {
        bad(text(&BASE_LINES).replacen("port 0 0", "port 0\n0", 1).as_bytes(), 4);
        bad(text(&BASE_LINES).replacen("header 4 ", "header 4\n", 1).as_bytes(), 2);
        bad(text(&BASE_LINES).replacen("item 0 0 4660", "item 0 0 4660\nitem", 1).as_bytes(), 21);
    }

    fn reading_refuses_bytes_that_are_no_listings() {
        for byte in (0..=255u8).filter(|byte| !byte.is_ascii_digit() && *byte != b'\n') {
            // In a name's place, behind a name, in a number's and at a line's end.
            for (place, at) in [(PORT, 0), (PORT, 4), (PORT, 5), (PORT, 16), (0, 0), (26, 10)] {
                let mut line = BASE_LINES[place].as_bytes().to_vec();
                line.insert(at, byte);
                let (front, behind) = (text(&BASE_LINES[..place]), text(&BASE_LINES[place + 1..]));
                let all = [front.as_bytes(), &line, b"\n", behind.as_bytes()].concat();
                refuses(&all, 40, 12, place + 1);
            }
        }
        bad(&[0xFF; 9], 1);
        bad(&[0; 9], 1);
    }

    fn reading_tells_the_first_of_several_bad_lines() {
        let two = but(&but(&BASE_LINES, 5, "port 0"), 20, "item");
        bad(text(&two).as_bytes(), 6);
        let all = but(&two, 0, "header");
        bad(text(&all).as_bytes(), 1);
        // A bad line before a missing one, and a missing one without its newline.
        bad(text(&but(&BASE_LINES[..20], 12, "expression")).as_bytes(), 13);
        bad(b"header 1 5 1 1\nheader 4 2\nheader 2 8", 3);
    }

    /// "Line 11 and reason 11 are different cases of the answer", and spelling comes first.
    fn reading_tells_line_11_from_room_11() {
        refuses(MARKED_LISTING.as_bytes(), 11, 11, 0);
        let lines: Vec<&str> = MARKED_LISTING.lines().collect();
        let bad_at_11 = text(&but(&lines, 10, "item 4 0 02"));
        for room in [0, 1, 10, 11, 12, 13] {
            refuses(bad_at_11.as_bytes(), room, 12, 11);
        }
        let bad_at_12 = text(&but(&lines, 11, "item 0 0 04660"));
        refuses(bad_at_12.as_bytes(), 11, 12, 12);
        refuses(format!("{MARKED_LISTING}\n").as_bytes(), 11, 12, 13);
    }

    fn reading_in_too_little_room_writes_no_word() {
        for room in 0..12 {
            refuses(MARKED_LISTING.as_bytes(), room, 11, 0);
        }
        let mut words = [FILL; 12];
        let done = read(MARKED_LISTING.as_bytes(), &mut words);
        assert_eq!((done.answer, done.words, done.line, words), (0, 12, 0, MARKED));
    }

    /// "Reading a listing gives the same words", of tables that no check accepts too.
    fn reading_asks_no_reason_above_4() {
        good_line(PORT, "port 3 1 1 15 255 65535", u32::MAX);
        good_line(WAITS, "network 0 0 0", 0);
        good_line(NETWORK, "network 1 200 2 1", 0x1C80_2001);
        good_line(OPERATOR, "expression 4 2 2", 0x4000_8002);
        good_line(OPERATOR, "expression 8 0 9", 0x8000_0009);
        good_line(RULE, "rule 2 3 0 2 0 255", 0x2C02_00FF);
        good_line(LIST, "list 1 0 0 2000 0", 0x1007_D000);
        good_line(ITEM, "item 15 0 0", 0xF000_0000);
    }

    fn reading_the_largest_listing() {
        let mut listing = vec![0; 200_000];
        let bytes = crate::list(&most(), &mut listing).bytes;
        let text = &listing[..bytes];
        reads(text, &most());
        bad(&text[..bytes - 1], 3185);
        bad(&[text, b"item 15 1 2047 65535\n"].concat(), 3186);
    }
}

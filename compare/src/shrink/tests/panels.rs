//! A side whose panels are wrong is found, and the panel made small.

use herringcart::Panel;
use second::cases::Cases;
use second::words::*;

use crate::differ::compare;
use crate::differ::panels::{Shown, compare_panel};
use crate::generated::told_of;
use crate::shrink::smallest_panel;
use crate::subject::{Proved, Subject};

/// A wrong side: what it makes of a call.
struct Wrong(fn(u32, &[u32], &[u32], &[u32], &mut [u8]) -> Panel);

impl Subject for Wrong {
    fn panel(&self, operator: u32, t: &[u32], s: &[u32], words: &[u32], lines: &mut [u8]) -> Panel {
        self.0(operator, t, s, words, lines)
    }
}

/// The first of a seed's cases on which a wrong side shows, its panel made small.
fn found(wrong: &Wrong) -> Shown {
    let mut cases = Cases::new(6).take(4000).map(|made| made.case);
    let case = cases.find(|case| compare(wrong, case).is_err()).expect("a case that shows it");
    let difference = compare(wrong, &case).expect_err("it differs");
    let (small, _) = smallest_panel(wrong, &difference.panel.expect("a panel differs"));
    assert!(compare_panel(wrong, &small).is_err() && compare_panel(&Proved, &small).is_ok());
    let told = told_of(wrong, "name", &case);
    assert!(told.starts_with("name, a panel, made smaller:\noperator: "), "{told}");
    small
}

/// The smallest table there is: a port, a condition, a rule.
const LEAST: usize = 6;
/// With a port of an operator's besides, for the rule is the platform's and so is what it mentions.
const WITH_OWN: usize = 7;

#[test]
fn strangers_word_that_is_shown_is_found() {
    let wrong = Wrong(|operator, table, state, words, lines| {
        // A word of the operator before this one is taken for this one's.
        let taken = |&word: &u32| {
            let read = TraceWord::of(word);
            if read.owner + 1 == operator { word + (1 << 24) } else { word }
        };
        let words: Vec<u32> = words.iter().map(taken).collect();
        herringcart::panel(operator, table, state, &words, lines)
    });
    let small = found(&wrong);
    assert_eq!((small.words.len(), small.table.len()), (1, LEAST), "{small:X?}");
    assert_eq!(TraceWord::of(small.words[0]).owner + 1, small.operator);
}

#[test]
fn number_cut_to_its_low_bits_is_found() {
    let wrong = Wrong(|operator, table, state, words, lines| {
        herringcart::panel(
            if operator > 15 { operator % 16 } else { operator },
            table,
            state,
            words,
            lines,
        )
    });
    let small = found(&wrong);
    assert!(small.operator > 15 && small.words.is_empty() && small.room.is_empty(), "{small:X?}");
}

#[test]
fn number_refused_behind_the_table_is_found() {
    let wrong = Wrong(|operator, table, state, words, lines| {
        match herringcart::check_state(table, state) {
            0 => herringcart::panel(operator, table, state, words, lines),
            number => Panel { number, bytes: 0 },
        }
    });
    let small = found(&wrong);
    assert!(small.table.is_empty() && small.state.is_empty() && small.words.is_empty());
}

#[test]
fn just_enough_room_refused_is_found() {
    let wrong = Wrong(|operator, table, state, words, lines| {
        let mut copy = lines.to_vec();
        let panel = herringcart::panel(operator, table, state, words, &mut copy);
        if panel.done() && panel.bytes == lines.len() && panel.bytes > 0 {
            return Panel { number: 11, bytes: 0 };
        }
        lines.copy_from_slice(&copy);
        panel
    });
    let small = found(&wrong);
    assert_eq!(
        (small.table.len(), small.room.len()),
        (WITH_OWN, "port 0 00000000\n".len()),
        "{small:X?}"
    );
}

#[test]
fn lines_laid_as_far_as_they_fit_are_found() {
    let wrong = Wrong(|operator, table, state, words, lines| {
        let panel = herringcart::panel(operator, table, state, words, lines);
        if let (11, Some(first)) = (panel.number, lines.first_mut()) {
            *first = b'p';
        }
        panel
    });
    let small = found(&wrong);
    assert_eq!((small.table.len(), small.room.len()), (WITH_OWN, 1), "{small:X?}");
}

#[test]
fn byte_written_behind_the_lines_is_found_within_the_room_and_behind_it() {
    let within = Wrong(|operator, table, state, words, lines| {
        let panel = herringcart::panel(operator, table, state, words, lines);
        if let Some(behind) = lines.get_mut(panel.bytes).filter(|_| panel.done()) {
            *behind = 0;
        }
        panel
    });
    assert_eq!(found(&within).room.len(), 1);
    let behind = Wrong(|operator, table, state, words, lines| {
        let panel = herringcart::panel(operator, table, state, words, lines);
        if panel.done() && panel.bytes == lines.len() {
            // SAFETY: the comparison lends its bytes out of a larger buffer.
            unsafe { *lines.as_mut_ptr().add(lines.len()) = 0 };
        }
        panel
    });
    assert_eq!(found(&behind).room.len(), 0);
}

#[test]
fn rules_word_shown_for_a_networks_is_found() {
    let wrong = Wrong(|operator, table, state, words, lines| {
        // The networks' words are looked for behind the ports'.
        let mut state = state.to_vec();
        if let Some(read) =
            Table::of(table).filter(|_| herringcart::check_state(table, &state) == 0)
        {
            let (ports, rules) = (read.count(Section::Ports), read.count(Section::Rules));
            for network in 0..read.count(Section::Networks) {
                let rule = state[ports + network % rules];
                let mut moved = state.clone();
                moved[ports + rules + network] = rule;
                if herringcart::check_state(table, &moved) == 0 {
                    state = moved;
                }
            }
        }
        herringcart::panel(operator, table, &state, words, lines)
    });
    let small = found(&wrong);
    let table = Table::of(&small.table).expect("a header");
    assert_eq!((table.count(Section::Networks), small.words.len()), (1, 0), "{small:X?}");
}

#[test]
fn bytes_reported_of_a_refusal_are_found() {
    let wrong = Wrong(|operator, table, state, words, lines| {
        let panel = herringcart::panel(operator, table, state, words, lines);
        Panel { bytes: if panel.number == 11 { lines.len() } else { panel.bytes }, ..panel }
    });
    assert_eq!(found(&wrong).room.len(), 1);
}

#[test]
fn what_is_told_of_a_panel_is_its_words_and_both_sides_lines() {
    let wrong = Wrong(|operator, table, state, words, lines| {
        let panel = herringcart::panel(operator, table, state, words, lines);
        lines.iter_mut().filter(|byte| **byte == b'F').for_each(|byte| *byte = b'f');
        panel
    });
    let case = Cases::new(6).map(|made| made.case).find(|case| compare(&wrong, case).is_err());
    let told = told_of(&wrong, "name", &case.expect("cases have no end"));
    for part in ["\ntrace words: ", "\nbytes of room: ", ", lines\n  proved: \"", "\n  second: \""]
    {
        assert!(told.contains(part), "{told}");
    }
}

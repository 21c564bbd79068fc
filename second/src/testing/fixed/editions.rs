//! Request Q-9, the table: "Make edition 2 of the table: an item's a field becomes abort(1),
//! a(11)".

use super::marked::MARKED;
use super::shape::{BASE, LEAST};
use super::*;

/// The same words in edition 2.
pub fn edition_2(table: &[u32]) -> Vec<u32> {
    with(table, 0, Head { edition: 2, ..Head::of(table[0]) }.word())
}

/// A call's word with abort: in edition 1 that bit is a's highest.
pub fn abort(item: u32) -> u32 {
    item | 0x0800_0000
}

/// The items of `BASE` of kinds 1 to 6, by their places.
const NAMING: [usize; 6] = [20, 21, 22, 23, 24, 25];

/// The word in this place of `BASE`, in edition 1 and in edition 2.
#[track_caller]
fn reasons(place: usize, word: u32, reason_1: u32, reason_2: u32) {
    refused(&with(&BASE, place, word), reason_1, place);
    refused(&with(&edition_2(&BASE), place, word), reason_2, place);
}

fixed_cases! {
    fn edition_2_stands() {
        stands(&edition_2(&BASE), 13);
        stands(&edition_2(&MARKED), 3);
        stands(&edition_2(&LEAST), 0);
        assert_eq!([edition_2(&BASE)[0], edition_2(&MARKED)[0]], [0x0205_0101, 0x0202_0100]);
    }

    fn edition_other_than_1_or_2_is_reason_2() {
        for edition in [0, 3, 4, 0x10, 0x81, 0x82, 254, 255] {
            refused(&with(&MARKED, 0, (edition << 24) | 0x0002_0100), 2, 0);
        }
        // Before the limits, the length and abort in a wrong place.
        refused(&[0x0300_0000, 0, 0], 2, 0);
        refused(&with(&MARKED, 0, 0x0302_0100)[..11], 2, 0);
        refused(&with(&with(&MARKED, 0, 0x0302_0100), 10, 0x4800_0002), 2, 0);
        // Reason 1 is before it.
        refused(&[0x0302_0100, 0x0001_0001], 1, 0);
    }

    fn edition_2_has_the_limits_and_the_length_of_edition_1() {
        refused(&[0x0200_0000, 0x0001_0001, 0], 3, 0);
        refused(&[0x0241_0000, 0x0001_0001, 0], 3, 0);
        refused(&[0x0201_0000, 0x0001_0001, 0x0000_0800], 3, 0);
        refused(&[0x0201_0000, 0x0001_0001, 0x0000_07FF], 4, 0);
        refused(&edition_2(&BASE)[..26], 4, 0);
        refused(&[&edition_2(&BASE)[..], &[0]].concat(), 4, 0);
        refused(&[0x0201_0000, 0x0001_0001], 1, 0);
    }

    fn abort_in_an_outside_call_stands_in_edition_2_alone() {
        for (place, word) in [(19, 0x0800_1234), (19, 0x0800_0000), (26, 0x0800_FFFF)] {
            stands(&with(&edition_2(&BASE), place, word), 13);
            // There it is a of 12 bits, 2,048.
            refused(&with(&BASE, place, word), 5, place);
        }
    }

    fn abort_in_every_other_item_is_reason_5() {
        for place in NAMING {
            // In edition 1 it names what is absent: a is 2,048 or more.
            reasons(place, abort(BASE[place]), 6, 5);
        }
        for kind in 7..16 {
            reasons(19, (kind << 28) | 0x0800_0000, 5, 5);
        }
    }

    fn abort_in_requests_of_every_mode_is_reason_5() {
        for mode in 0..4 {
            refused(&with(&edition_2(&BASE), 23, 0x4800_0000 + mode), 5, 23);
        }
    }

    fn abort_of_the_lowest_word_is_the_place() {
        let two = with(&with(&edition_2(&BASE), 25, 0x6801_0000), 21, 0x2804_0000);
        refused(&two, 5, 21);
        // And before reason 6, though at a lower place.
        refused(&with(&with(&edition_2(&BASE), 25, 0x6801_0000), 8, 0x1050_2000), 5, 25);
        // An absent name besides is no matter.
        refused(&with(&edition_2(&BASE), 24, 0x5FFF_0000), 5, 24);
    }

    fn abort_in_an_item_of_no_list_is_judged() {
        let spare = |item: u32| {
            let rules = [rule(0, 0, NONE, NONE)];
            edition_2(&plain(&[event(0)], &[set(0)], &rules, &[], &[item]))
        };
        refused(&spare(0x1800_0000), 5, 6);
        stands(&spare(0x1000_0000), 0);
        stands(&spare(0x0800_0007), 0);
    }

    fn a_of_an_outside_call_is_0_in_both_editions() {
        for a in [1, 2, 1024, 2047] {
            reasons(19, (a << 16) | 0x1234, 5, 5);
            // With abort besides; in edition 1 all of it is a.
            reasons(19, abort((a << 16) | 0x1234), 5, 5);
        }
    }

    fn names_at_the_limit_of_a_are_absent() {
        for place in NAMING {
            let kind_and_b = BASE[place] & 0xF000_FFFF;
            // 2,047: eleven bits.
            reasons(place, kind_and_b | 0x07FF_0000, 6, 6);
            // 4,095 in edition 1: twelve bits; in edition 2 it is abort and 2,047.
            reasons(place, kind_and_b | 0x0FFF_0000, 6, 5);
        }
    }

    /// List 254 is the highest there is; 254 + 2,048 is none.
    fn a_is_read_whole_in_edition_1() {
        let lists = [&[list(0, 0, 1); 254][..], &[list(0, 1, 1)]].concat();
        let rules = starting_all(0, 254);
        let naming =
            |item: u32| plain(&[mode(0)], &[equal(0, 5)], &rules, &lists, &[item, call(7)]);
        let place = naming(0).len() - 2;
        stands(&naming(0x50FE_0000), 254 * 3 + 2);
        stands(&edition_2(&naming(0x50FE_0000)), 254 * 3 + 2);
        refused(&naming(0x58FE_0000), 6, place);
        refused(&edition_2(&naming(0x58FE_0000)), 5, place);
    }

    fn reasons_7_8_9_and_10_are_as_in_edition_1() {
        let chain = |lists: u32| {
            let names = (1..lists).map(|next| item(5, next));
            let items: Vec<u32> = names.chain([abort(call(7))]).collect();
            let lists: Vec<u32> = (0..lists).map(|number| list(0, number, 1)).collect();
            edition_2(&plain(&[mode(0)], &[equal(0, 5)], &[rule(0, 0, 0, NONE)], &lists, &items))
        };
        // Costs of 2 for the last, and 1 more for each before.
        stands(&chain(7), 2 + 3 + 4 + 5 + 6 + 7 + 8);
        refused(&chain(8), 7, 6);
        // The rule's list is another's.
        refused(&with(&edition_2(&BASE), 18, 0x2000_0701), 8, 16);
        // Rule 1 has no list, and rule item 1 none to run: list 1 is named still; without that too
        // nothing reaches it.
        let cut = with(&edition_2(&BASE), 16, 0x1003_FFFF);
        refused(&with(&cut, 24, 0x0800_0001), 10, 18);
    }

    fn abort_changes_no_cost() {
        let calls = |count: usize| {
            let lists = [list(0, 0, 255); 16];
            let rules: Vec<u32> = (0..16).map(|number| rule(0, 0, number, NONE)).collect();
            let last = list(0, 0, count as u32);
            let lists = [&lists[..15], &[last]].concat();
            let items = [abort(call(1)); 255];
            edition_2(&plain(&[mode(0)], &[equal(0, 5)], &rules, &lists, &items))
        };
        stands(&calls(255), 4096);
        stands(&calls(254), 4095);
        let mut dear = calls(255);
        // One list more, of one call: 2 above.
        dear[2] += 0x0001_0000;
        dear.insert(dear.len() - 255, list(0, 0, 1));
        dear[1] += 1;
        dear.insert(3 + 2 + 16, rule(0, 0, 16, NONE));
        refused(&dear, 9, 0);
    }

    fn fresh_state_and_its_check_are_as_in_edition_1() {
        for table in [&BASE[..], &MARKED, &LEAST] {
            let (one, two) = (Play::fresh(table).state, Play::fresh(&edition_2(table)).state);
            assert_eq!(one, two);
            assert_eq!(check_state(&edition_2(table), &two), 0);
            let mut longer = [&two[..], &[0]].concat();
            assert_eq!(check_state(&edition_2(table), &longer), 2);
            assert_eq!(fresh(&edition_2(table), &mut longer), 2);
        }
        let bad = with(&edition_2(&BASE), 20, 0x1803_0000);
        assert_eq!(fresh(&bad, &mut [0; 9]), 1);
        assert_eq!(check_state(&bad, &[0; 9]), 1);
    }

    /// The header's first byte is another, and nothing else is.
    fn marked_run_in_edition_2() {
        let mut play = Play::fresh(&edition_2(&MARKED));
        assert_eq!(play.take(0x1100_0500), [0xF100_0000, 0x4100_0002, 0x0100_1234]);
        assert_eq!(play.state, [0x8140_0000, 0, 0x4000_0000, 0x8000_0000]);
        play.ticks(1);
        play.take(0x5100_0000);
        play.ticks(8);
        assert_eq!(play.state, [0x8140_0000, 0x8080_0000, 0x4000_0000, 0x9800_0000]);
        assert_eq!(play.answer(0x2100_0500), 4);
        assert_eq!(play.answer(0x2100_0000), 5);
        assert_eq!(play.answer(0x1200_0500), 6);
    }
}

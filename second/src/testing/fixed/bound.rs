//! Request Q-10: "Show that it is at most 127 times the sum of R and B, so never above 552,704."
//! Tables whose events come as near as they can.
//!
//! Each rule item that is evaluated writes a word, and every run of a list one more at its start,
//! with at most 255 items behind it: so of 4,096 words at most 4,080 are rule items'.

use super::*;
use crate::testing::recorded::play;
use crate::words::expression::{AND, XOR};

const GO: u32 = 0x1000_0500;
const SIX: u32 = 0x1000_0600;

/// Seven words of this kind, a whole tree of 127 visits, on the platform's port 0 being 5.
fn tree(kind: u32) -> Vec<u32> {
    let above = (0..6).map(|below| operator(kind, below, below));
    [equal(0, 5)].into_iter().chain(above).collect()
}

/// So many rules on the whole tree; the first ones have a list each for the result given. All
/// lists have the same items, so many rule items on the last rule, which has no list.
fn nearest(kind: u32, gives: bool, rules: u32, lists: u32, items: usize) -> Vec<u32> {
    let rule = |number: u32| match (number < lists, gives) {
        (false, _) => rule(0, 6, NONE, NONE),
        (true, true) => rule(0, 6, number, NONE),
        (true, false) => rule(0, 6, NONE, number),
    };
    let words: Vec<u32> = (0..rules).map(rule).collect();
    let lists = vec![list(0, 0, items as u32); lists as usize];
    plain(&[mode(0)], &tree(kind), &words, &lists, &vec![item(6, rules - 1); items])
}

fixed_cases! {
    /// Sixteen lists of the same 255 rule items, and 256 rules: 4,336 evaluations of 127 words
    /// each, where R + B is 4,352: 2,032 below the bound. No event of any table visits more.
    fn nearest_to_the_bound_where_r_and_b_are_largest_is_550672() {
        let table = nearest(XOR, false, 256, 16, 255);
        stands(&table, 4096);
        assert_eq!(Play::fresh(&table).visits(GO), 127 * (256 + 16 * 255));
        assert_eq!(Play::fresh(&table).visits(SIX), 550_672);
        assert_eq!(Play::fresh(&table).take(GO).len(), 4096);
    }

    /// The same with AND: at 6 every left side settles, so that 256 times seven words are visited
    /// and no list is chosen.
    fn nearest_to_the_bound_with_and_goes_down_to_7_words_a_rule() {
        let table = nearest(AND, true, 256, 16, 255);
        assert_eq!(Play::fresh(&table).visits(GO), 550_672);
        assert_eq!(Play::fresh(&table).visits(SIX), 256 * 7);
    }

    /// Edition 2, and a play of two events.
    fn nearest_to_the_bound_twice_in_a_play_is_1101344() {
        let table = super::editions::edition_2(&nearest(XOR, false, 256, 16, 255));
        let (mut state, mut trace) = (Play::fresh(&table).state, vec![0; 8192]);
        let played = play(&table, &mut state, &mut trace, &[GO, SIX]);
        assert_eq!((played.taken, played.count, played.visits), (2, 8192, 1_101_344));
    }

    /// R 2 and B 256: one evaluation below 258.
    fn nearest_to_the_bound_of_a_small_table() {
        let table = nearest(XOR, false, 2, 1, 255);
        stands(&table, 256);
        assert_eq!(Play::fresh(&table).visits(GO), 127 * (2 + 255));
    }

    /// R 2 and B 2: three evaluations of four.
    fn nearest_to_the_bound_of_the_smallest_table_with_a_list() {
        let table = nearest(XOR, false, 2, 1, 1);
        stands(&table, 2);
        assert_eq!(Play::fresh(&table).visits(GO), 127 * 3);
    }

    /// Without lists B is 0, and every rule is evaluated: the bound is met.
    fn bound_is_met_where_there_are_no_lists() {
        for rules in [1, 2, 256] {
            let table = nearest(XOR, false, rules, 0, 0);
            stands(&table, 0);
            assert_eq!(Play::fresh(&table).visits(GO), 127 * rules as u64);
        }
    }

    /// B counts a list that runs in another's place too: lists named by a chosen one that are
    /// chosen themselves. Fourteen times list 1 and 241 rule items in list 0, and list 1 once more.
    fn named_lists_come_no_nearer() {
        let rules = [rule(0, 6, NONE, 0), rule(0, 6, NONE, 1), rule(0, 6, NONE, NONE)];
        let items = [vec![item(5, 1); 14], vec![item(6, 2); 255]].concat();
        let lists = [list(0, 0, 255), list(0, 14, 255)];
        let table = plain(&[mode(0)], &tree(XOR), &rules, &lists, &items);
        stands(&table, 1 + 14 * 256 + 241 + 256);
        assert_eq!(Play::fresh(&table).visits(GO), 127 * (3 + 15 * 255 + 241));
    }
}

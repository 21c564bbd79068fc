//! Request Q-10: "the number of expression words visited in one event, counted left before right
//! with the skipping of Q-3". Here what one evaluation visits: the one rule is evaluated once.

use super::*;
use crate::words::expression::{AND, NAND, NOT_EQUAL, OR, XOR};

/// Operator 1's request of 5, which makes expression T true and F false.
const GO: u32 = 0x1100_0500;
const T: u32 = 0;
const F: u32 = 1;

/// What GO visits where the rule is on the last of these operators, which are expressions 2 and up.
fn visited(operators: &[u32]) -> u64 {
    let expressions = [&[equal(0, 5), equal(0, 6)], operators].concat();
    let rules = [rule(1, expressions.len() as u32 - 1, NONE, NONE)];
    Play::fresh(&plain(&[mode(1)], &expressions, &rules, &[], &[])).visits(GO)
}

/// What GO visits by an operator of this kind on T and F: T T, T F, F T and F F.
fn four(kind: u32) -> [u64; 4] {
    [(T, T), (T, F), (F, T), (F, F)].map(|(left, right)| visited(&[operator(kind, left, right)]))
}

/// Six operators of this kind above T or F, each with the one before on both sides: a whole tree
/// of seven levels in seven words.
fn shared(kind: u32, leaf: u32) -> [u32; 6] {
    [leaf, 2, 3, 4, 5, 6].map(|below| operator(kind, below, below))
}

/// Six operators of this kind, the one before on the left and a condition on the right.
fn leaning_left(kind: u32, leaf: u32, right: u32) -> [u32; 6] {
    [leaf, 2, 3, 4, 5, 6].map(|below| operator(kind, below, right))
}

fn leaning_right(kind: u32, left: u32, leaf: u32) -> [u32; 6] {
    [leaf, 2, 3, 4, 5, 6].map(|below| operator(kind, left, below))
}

fixed_cases! {
    /// The smallest evaluation there is, whatever it gives.
    fn condition_is_one_visit() {
        let on_mode = |expression: u32| {
            let rules = [rule(1, 0, NONE, NONE)];
            Play::fresh(&plain(&[mode(1)], &[expression], &rules, &[], &[])).visits(GO)
        };
        for value in [5, 6] {
            assert_eq!(on_mode(equal(0, value)), 1);
            assert_eq!(on_mode(condition(NOT_EQUAL, 0, value)), 1);
            assert_eq!(on_mode(at_or_above(0, value)), 1);
        }
        for expression in [set(0), cleared(0)] {
            let rules = [rule(1, 0, NONE, NONE)];
            let table = plain(&[event(1)], &[expression], &rules, &[], &[]);
            assert_eq!(Play::fresh(&table).visits(0x2100_0000), 1);
        }
    }

    fn condition_on_a_timer_is_one_visit() {
        let table = plain(&[timer(1, 3)], &[equal(0, 2)], &[rule(1, 0, NONE, NONE)], &[], &[]);
        // Started, and one tick remains.
        assert_eq!(Play::of(&table, &[0x8040_0001, 0]).visits(TICK), 1);
        assert_eq!(Play::of(&table, &[0x8040_0002, 0]).visits(TICK), 0);
    }

    fn and_is_settled_by_a_false_left() {
        assert_eq!(four(AND), [3, 3, 2, 2]);
    }

    fn or_is_settled_by_a_true_left() {
        assert_eq!(four(OR), [2, 2, 3, 3]);
    }

    fn nand_is_settled_by_a_false_left() {
        assert_eq!(four(NAND), [3, 3, 2, 2]);
    }

    fn xor_is_never_settled() {
        assert_eq!(four(XOR), [3, 3, 3, 3]);
    }

    /// Its right is a zero field: expression 0, which it would name, is not visited.
    fn not_is_one_visit_and_its_left() {
        assert_eq!([visited(&[not(T)]), visited(&[not(F)])], [2, 2]);
        assert_eq!(visited(&[not(T), not(2), not(3)]), 4);
        assert_eq!(visited(&[operator(AND, T, F), not(2)]), 4);
        assert_eq!(visited(&[operator(AND, F, T), not(2)]), 3);
    }

    /// Expression 0 is an operator itself: visited as NOT's right it would count three.
    fn not_above_a_table_whose_first_expression_is_an_operator() {
        let expressions = [operator(XOR, 1, 1), equal(0, 5), not(1)];
        let table = plain(&[mode(1)], &expressions, &[rule(1, 2, NONE, NONE)], &[], &[]);
        assert_eq!(Play::fresh(&table).visits(GO), 2);
    }

    /// A program that reads the right side first has 3 and 4 turned about, or skips the left.
    fn left_comes_before_right() {
        // The right alone would settle each.
        assert_eq!(visited(&[operator(XOR, T, F), operator(AND, 2, F)]), 5);
        assert_eq!(visited(&[operator(XOR, T, T), operator(OR, 2, T)]), 5);
        assert_eq!(visited(&[operator(XOR, T, F), operator(NAND, 2, F)]), 5);
        // The left settles each, and the right is wide.
        assert_eq!(visited(&[operator(XOR, T, F), operator(AND, F, 2)]), 2);
        assert_eq!(visited(&[operator(XOR, T, T), operator(OR, T, 2)]), 2);
        assert_eq!(visited(&[operator(XOR, T, F), operator(NAND, F, 2)]), 2);
    }

    fn skipped_side_with_operators_is_not_visited_at_all() {
        let inner = [operator(XOR, T, F), operator(XOR, 2, 2), operator(AND, 3, 3)];
        for (kind, settling, other) in [(AND, F, T), (OR, T, F), (NAND, F, T)] {
            let above = |left: u32| visited(&[&inner[..], &[operator(kind, left, 4)]].concat());
            assert_eq!(above(settling), 2);
            // XOR of a thing with itself is false: seven visits, and they settle the AND.
            assert_eq!(above(other), 1 + 1 + (1 + 7));
        }
    }

    fn skipped_side_within_a_side_that_is_not_skipped() {
        // OR of (F AND T), which skips T, and (F OR T), which does not.
        let sides = [operator(AND, F, T), operator(OR, F, T)];
        assert_eq!(visited(&[sides[0], sides[1], operator(OR, 2, 3)]), 1 + 2 + 3);
        assert_eq!(visited(&[sides[0], sides[1], operator(OR, 3, 2)]), 1 + 3);
        assert_eq!(visited(&[sides[0], sides[1], operator(AND, 2, 3)]), 1 + 2);
        assert_eq!(visited(&[sides[0], sides[1], operator(NAND, 3, 2)]), 1 + 3 + 2);
        assert_eq!(visited(&[sides[0], sides[1], operator(XOR, 2, 3)]), 1 + 2 + 3);
    }

    /// NAND settled by its left gives true, which settles an OR above and no AND.
    fn what_a_settled_operator_gives_settles_the_one_above() {
        let settled = operator(NAND, F, T);
        assert_eq!(visited(&[settled, operator(OR, 2, F)]), 1 + 2);
        assert_eq!(visited(&[settled, operator(AND, 2, F)]), 1 + 2 + 1);
        let settled = operator(NAND, T, T);
        assert_eq!(visited(&[settled, operator(OR, 2, F)]), 1 + 3 + 1);
        assert_eq!(visited(&[settled, operator(NAND, 2, F)]), 1 + 3);
        let turned = [operator(AND, F, T), not(2)];
        assert_eq!(visited(&[turned[0], turned[1], operator(OR, 3, F)]), 1 + 3);
        assert_eq!(visited(&[turned[0], turned[1], operator(AND, 3, F)]), 1 + 3 + 1);
    }

    /// "each visit again": one word stands on both sides.
    fn shared_expression_counts_each_time() {
        assert_eq!(visited(&[operator(XOR, T, T)]), 3);
        assert_eq!(visited(&[operator(XOR, T, T), operator(XOR, 2, 2)]), 7);
        assert_eq!(visited(&[operator(XOR, T, T), operator(OR, 2, 2)]), 7);
        assert_eq!(visited(&[operator(XOR, T, T), operator(AND, 2, 2)]), 4);
    }

    fn whole_tree_of_seven_levels_is_127_visits() {
        for (kind, leaf) in [(XOR, T), (XOR, F), (AND, T), (OR, F)] {
            assert_eq!(visited(&shared(kind, leaf)), 127);
        }
    }

    /// The left side of every operator is visited, and no right side.
    fn settled_tree_of_seven_levels_is_7_visits() {
        assert_eq!(visited(&shared(AND, F)), 7);
        assert_eq!(visited(&shared(OR, T)), 7);
    }

    /// Settled by a false one it gives a true one, which does not settle the next: one more, then
    /// twice and one more, and so on.
    fn shared_nand_is_settled_at_every_other_level() {
        let levels = (1..=6).map(|levels| visited(&shared(NAND, F)[..levels]));
        assert_eq!(levels.collect::<Vec<u64>>(), [2, 5, 6, 13, 14, 29]);
    }

    fn row_that_leans_left_or_right() {
        assert_eq!(visited(&leaning_left(AND, T, T)), 13);
        assert_eq!(visited(&leaning_left(AND, F, T)), 7);
        assert_eq!(visited(&leaning_left(OR, T, F)), 7);
        assert_eq!(visited(&leaning_left(OR, F, F)), 13);
        assert_eq!(visited(&leaning_right(AND, T, F)), 13);
        assert_eq!(visited(&leaning_right(AND, F, T)), 2);
        assert_eq!(visited(&leaning_right(OR, T, F)), 2);
        assert_eq!(visited(&leaning_right(XOR, T, F)), 13);
    }
}

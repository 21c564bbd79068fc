//! Which left sides settle an AND, OR or NAND, what a settled one gives, and
//! that whether a rule is ready or concerned is asked of skipped sides too. A
//! rule that is arbitrated and a rule item are asked the same.

use super::*;
use crate::words::expression::{AND, NAND, OR, XOR};

/// Expressions 0 and 1 are true and false by port 0; 2 is whether port 1 is 5.
pub const T: u32 = 0;
pub const F: u32 = 1;
const FIVE: u32 = 2;

/// Asks port 0 for 1, which it is.
const GO: u32 = 0x1100_0100;

/// Rules 0 and 2 are on the last expression: rule 0 has lists 0 (true) and 1;
/// rule 2, nested-only, has lists 3 and 4. Rule 1 starts list 2, which holds
/// rule 2. The other lists call 7, 8, 9 and 10. First results are undefined.
/// State: [port 0, port 1, rules 0 to 2].
fn ruled_twice(port_1: u32, expressions: &[u32]) -> Play {
    let expressions = [&[equal(0, 1), equal(0, 2), equal(1, 5)], expressions].concat();
    let last = expressions.len() as u32 - 1;
    let rules = [rule(1, last, 0, 1), rule(1, T, 2, NONE), nested_only(rule(1, last, 3, 4))];
    let rules = rules.map(|rule| first_result(2, rule));
    let lists = [0, 1, 2, 3, 4].map(|first| list(1, first, 1));
    let items = [call(7), call(8), item(6, 2), call(9), call(10)];
    Play::fresh(&plain(&[initial(1, 1), port_1], &expressions, &rules, &lists, &items))
}

/// Both rules give this, by their stored results, their lists and the rule item's word.
#[track_caller]
pub fn both_give(result: bool, expressions: &[u32]) {
    let mut play = ruled_twice(initial(1, 5), expressions);
    let ran = play.take(GO);
    if result {
        let lists = [0xF100_0000, 0x0100_0007, 0xF102_0000, 0x6102_0001, 0xF103_0000, 0x0100_0009];
        assert_eq!(ran, lists);
        assert_eq!(play.state[2..], [0x4000_0000; 3]);
    } else {
        let lists = [0xF101_0000, 0x0100_0008, 0xF102_0000, 0x6102_0000, 0xF104_0000, 0x0100_000A];
        assert_eq!(ran, lists);
        assert_eq!(play.state[2..], [0, 0x4000_0000, 0]);
    }
}

/// Port 1, mentioned on a skipped side only, is undefined: rule 0 is not
/// evaluated, and the rule item says undefined and stores nothing.
#[track_caller]
pub fn unready(expressions: &[u32]) {
    let mut play = ruled_twice(mode(1), expressions);
    assert_eq!(play.take(GO), [0xF102_0000, 0x6102_0002]);
    assert_eq!(play.state, [0x8040_0000, 0, 0x8000_0000, 0x4000_0000, 0x8000_0000]);
}

/// Port 1, mentioned on a skipped side only, is asked for the value given: rule
/// 0 is evaluated, at once or, where port 1 is deferred, by the tick, and again.
#[track_caller]
pub fn concerned(result: bool, value: u32, expressions: &[u32]) {
    let ran = if result { [0xF100_0000, 0x0100_0007] } else { [0xF101_0000, 0x0100_0008] };
    let results = [(result as u32) << 30, 0x8000_0000, 0x8000_0000];
    let mut play = ruled_twice(initial(1, 7), expressions);
    for _ in 0..2 {
        assert_eq!(play.take(request(1, 1, value)), ran);
        assert_eq!(play.state[2..], results);
    }
    let mut play = ruled_twice(deferred(mode(1)), expressions);
    for _ in 0..2 {
        assert_eq!(play.take(request(1, 1, value)), [0; 0]);
        assert_eq!(play.take(TICK), ran);
        assert_eq!(play.state[2..], results);
    }
}

/// Two expressions a level, 3 to 12 on levels 2 to 6, then the one given, on
/// level 7: odd ones are true and even ones false, all by their left sides, and
/// all would be turned by their right sides.
fn wide(top: u32) -> [u32; 11] {
    [
        operator(NAND, F, T),
        operator(AND, F, T),
        operator(OR, 3, 4),
        operator(AND, 4, 3),
        operator(NAND, 6, 5),
        operator(AND, 6, 5),
        operator(OR, 7, 8),
        operator(AND, 8, 7),
        operator(NAND, 10, 9),
        operator(AND, 10, 9),
        top,
    ]
}

/// Expressions 3 to 7 on levels 2 to 6, whose right sides decide, then the one
/// given, on level 7. The rightmost is whether port 1 is 5; 7 is true where not.
fn long(top: u32) -> [u32; 6] {
    [
        operator(AND, T, FIVE),
        operator(NAND, T, 3),
        operator(OR, F, 4),
        operator(AND, T, 5),
        operator(XOR, F, 6),
        top,
    ]
}

fixed_cases! {
    fn and_settled_by_false_gives_false() {
        both_give(false, &[operator(AND, F, T)]);
        both_give(false, &[operator(AND, F, F)]);
    }

    fn and_is_not_settled_by_true() {
        both_give(false, &[operator(AND, T, F)]);
        both_give(true, &[operator(AND, T, T)]);
    }

    fn or_settled_by_true_gives_true() {
        both_give(true, &[operator(OR, T, F)]);
        both_give(true, &[operator(OR, T, T)]);
    }

    fn or_is_not_settled_by_false() {
        both_give(true, &[operator(OR, F, T)]);
        both_give(false, &[operator(OR, F, F)]);
    }

    fn nand_settled_by_false_gives_true() {
        both_give(true, &[operator(NAND, F, T)]);
        both_give(true, &[operator(NAND, F, F)]);
    }

    fn nand_is_not_settled_by_true() {
        both_give(true, &[operator(NAND, T, F)]);
        both_give(false, &[operator(NAND, T, T)]);
    }

    fn xor_is_settled_by_neither() {
        both_give(false, &[operator(XOR, T, T)]);
        both_give(true, &[operator(XOR, T, F)]);
        both_give(true, &[operator(XOR, F, T)]);
        both_give(false, &[operator(XOR, F, F)]);
    }

    fn seven_deep_to_the_left_and_settled_at_each_level() {
        // False, true, true, then XOR false, false, true: one wrong turns all above it.
        let chain = [
            operator(AND, F, T),
            operator(NAND, 3, T),
            operator(OR, 4, F),
            operator(XOR, 5, T),
            operator(AND, 6, T),
            operator(NAND, 7, T),
        ];
        both_give(true, &chain);
        both_give(false, &chain[..5]);
    }

    fn seven_deep_to_the_right_and_settled_only_at_the_last() {
        let chain = |last: u32| {
            [
                last,
                operator(AND, T, 3),
                operator(NAND, T, 4),
                operator(OR, F, 5),
                operator(XOR, T, 6),
                operator(NAND, T, 7),
            ]
        };
        // The last is true, then true, false, false, true, false; or all the other way.
        both_give(false, &chain(operator(NAND, F, T)));
        both_give(false, &chain(operator(OR, T, F)));
        both_give(true, &chain(operator(AND, F, T)));
    }

    fn wide_and_seven_deep_settled_on_every_level() {
        both_give(false, &wide(operator(AND, 12, 11)));
        both_give(true, &wide(operator(OR, 11, 12)));
        both_give(true, &wide(operator(NAND, 12, 11)));
    }

    fn wide_and_seven_deep_not_settled_at_the_top() {
        both_give(false, &wide(operator(AND, 11, 12)));
        both_give(true, &wide(operator(AND, 11, 11)));
        both_give(true, &wide(operator(OR, 12, 11)));
        both_give(false, &wide(operator(OR, 12, 12)));
        both_give(true, &wide(operator(NAND, 11, 12)));
        both_give(false, &wide(operator(NAND, 11, 11)));
        both_give(false, &wide(operator(XOR, 11, 11)));
        both_give(true, &wide(operator(XOR, 12, 11)));
    }

    fn undefined_port_on_the_side_an_and_skips_leaves_the_rule_unready() {
        unready(&[operator(AND, F, FIVE)]);
    }

    fn undefined_port_on_the_side_an_or_skips_leaves_the_rule_unready() {
        unready(&[operator(OR, T, FIVE)]);
    }

    fn undefined_port_on_the_side_a_nand_skips_leaves_the_rule_unready() {
        unready(&[operator(NAND, F, FIVE)]);
    }

    fn undefined_port_at_the_end_of_a_long_skipped_side_leaves_the_rule_unready() {
        for top in [operator(AND, F, 7), operator(OR, T, 7), operator(NAND, F, 7)] {
            unready(&long(top));
        }
    }

    fn undefined_port_on_a_side_skipped_within_the_left_leaves_the_rule_unready() {
        unready(&[operator(OR, T, FIVE), operator(AND, 3, T)]);
        unready(&[operator(NAND, F, FIVE), operator(XOR, 3, T)]);
        unready(&[operator(AND, F, FIVE), not(3)]);
    }

    fn mention_on_the_side_an_and_skips_has_the_rule_evaluated() {
        concerned(false, 5, &[operator(AND, F, FIVE)]);
    }

    fn mention_on_the_side_an_or_skips_has_the_rule_evaluated() {
        concerned(true, 0, &[operator(OR, T, FIVE)]);
    }

    fn mention_on_the_side_a_nand_skips_has_the_rule_evaluated() {
        concerned(true, 5, &[operator(NAND, F, FIVE)]);
    }

    fn mention_at_the_end_of_a_long_skipped_side_has_the_rule_evaluated() {
        // The long side gives true, false and true.
        concerned(false, 0, &long(operator(AND, F, 7)));
        concerned(true, 5, &long(operator(OR, T, 7)));
        concerned(true, 0, &long(operator(NAND, F, 7)));
    }

    fn mention_on_a_side_skipped_within_the_left_has_the_rule_evaluated() {
        concerned(true, 0, &[operator(OR, T, FIVE), operator(AND, 3, T)]);
        concerned(false, 5, &[operator(NAND, F, FIVE), operator(XOR, 3, T)]);
        concerned(true, 5, &[operator(AND, F, FIVE), not(3)]);
    }
}

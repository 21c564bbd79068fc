//! The expression words that an event visits, through the wrapper. Each
//! table has two immediate ports, both 0, that all is asked of, and one rule
//! that has a list, which evaluates a second rule.

use herringcart::{Answer, End, MOST_VISITS, Played, check_table, make_fresh, play, take_event};

const UNTOUCHED: u32 = 0x5555_5555;
const REFUSED: Answer = Answer { number: 6, count: 0, visits: 0 };

/// Port 0 is asked for a value, by its owner.
fn asks(value: u32) -> u32 {
    0x1100_0000 | value << 8
}

/// A table with these expressions. Rule 0 is on the last and, true or false,
/// starts the list; the list's one item evaluates rule 1, which is nested-only,
/// on the last but one.
fn table(expressions: &[u32]) -> Vec<u32> {
    let last = expressions.len() as u32 - 1;
    let counts = [0x0102_0000, (last + 1) << 16 | 2, 0x0001_0001, 0x1100_0000, 0x1100_0000];
    let rules = [0x1000_0000 | last << 16, 0x1200_FFFF | (last - 1) << 16];
    [&counts, expressions, &rules, &[0x1000_0001, 0x6001_0000]].concat()
}

fn fresh(table: &[u32]) -> [u32; 4] {
    assert_eq!(check_table(table).reason, 0);
    let mut state = [UNTOUCHED; 4];
    assert_eq!(make_fresh(table, &mut state), 0);
    state
}

/// What a request of port 0 visits, from the fresh state.
fn visits(expressions: &[u32], value: u32) -> u32 {
    let (table, mut trace) = (table(expressions), [UNTOUCHED; 2]);
    let answer = take_event(&table, &mut fresh(&table), &mut trace, &[], asks(value));
    assert_eq!((answer.number, answer.count), (0, 2));
    answer.visits
}

const EQUALS_5: u32 = 0x0000_5000;
const OTHER_EQUALS_5: u32 = 0x0010_5000;

/// An operator of this kind on expressions 0 and 1, and behind it the rules'.
fn joined(kind: u32) -> [u32; 4] {
    [EQUALS_5, OTHER_EQUALS_5, EQUALS_5, kind << 28 | 1]
}

#[test]
fn the_right_side_counts_where_the_left_has_not_settled_it() {
    // One for the rule item, and the operator's own.
    let [and, or, xor, nand] = [4, 5, 6, 7].map(joined);
    for (expressions, when_false, when_true) in [(and, 2, 3), (or, 3, 2), (xor, 3, 3), (nand, 2, 3)]
    {
        assert_eq!(visits(&expressions, 4), 1 + when_false, "{expressions:08X?}");
        assert_eq!(visits(&expressions, 5), 1 + when_true, "{expressions:08X?}");
    }
}

#[test]
fn not_counts_itself_and_its_left_side() {
    let not = [EQUALS_5, EQUALS_5, 0x8000_0000];
    assert_eq!([visits(&not, 4), visits(&not, 5)], [1 + 2, 1 + 2]);
}

#[test]
fn a_shared_word_counts_each_time() {
    // Each XOR is of the word before it with itself.
    let mut expressions = vec![EQUALS_5];
    for level in 1..7u32 {
        let below = level - 1;
        expressions.push(0x6000_0000 | below << 14 | below);
        assert_eq!(visits(&expressions, 5), ((2 << level) - 1) + ((1 << level) - 1));
    }
}

#[test]
fn refusals_visit_nothing() {
    let table = table(&joined(6));
    let (mut state, mut trace) = (fresh(&table), [UNTOUCHED; 2]);
    let answer = take_event(&table, &mut state, &mut trace, &[], asks(5));
    assert_eq!(answer, Answer { number: 0, count: 2, visits: 4 });
    let refused = |number| Answer { number, ..REFUSED };
    let (short, wrong) = (&mut [UNTOUCHED; 1], 0x1200_0500);
    assert_eq!(take_event(&table[1..], &mut state, &mut trace, &[], asks(5)), refused(1));
    assert_eq!(take_event(&table, &mut state[1..], &mut trace, &[], asks(5)), refused(2));
    assert_eq!(take_event(&table, &mut state, short, &[], asks(5)), refused(3));
    assert_eq!(take_event(&table, &mut state, &mut trace, &[], asks(5) | 1), refused(4));
    assert_eq!(take_event(&table, &mut state, &mut trace, &[2], asks(5)), refused(8));
    assert_eq!(take_event(&table, &mut state, &mut trace, &[], 0x1102_0500), refused(5));
    assert_eq!(take_event(&table, &mut state, &mut trace, &[], wrong), refused(6));
}

#[test]
fn a_play_visits_what_its_events_do() {
    let table = table(&joined(4));
    let (mut state, mut trace) = (fresh(&table), [UNTOUCHED; 8]);
    let day = [asks(4), asks(5), 0, asks(4), 0x1200_0500, asks(5)];
    let played = play(&table, &mut state, &mut trace, &day);
    let end = End::NotItsOwner;
    assert_eq!(played, Played { end, taken: 4, count: 6, visits: 3 + 4 + 3 });
    let full = play(&table, &mut state, &mut trace[..3], &day);
    assert_eq!(full, Played { end: End::TraceFull, taken: 1, count: 2, visits: 3 });
    let refused = play(&table[1..], &mut state, &mut trace, &day);
    assert_eq!(refused, Played { end: End::BadTable, taken: 0, count: 0, visits: 0 });
}

#[test]
fn the_most_is_the_documents() {
    assert_eq!(MOST_VISITS, 552_704);
}

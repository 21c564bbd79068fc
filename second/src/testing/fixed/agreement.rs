//! Request Q-14, the judge itself: what `agreement` lets pass and what it does not, so that results
//! of any program may be handed to it.

use super::*;
use crate::cases::agreement::{Stop, Told, agree, days_agree, untouched};
use crate::cases::pairs::{Pair, Sent, pair};

/// Operator 1's mode port 0, operator 2's 1 and the platform's 2, all deferred, and a timer of each:
/// 3, 4 and 5. Request 5 of a port starts its owner's list: a call, then its timer's start. The
/// lists' numbers are 1, 0 and 2. State: 6 ports, then rules 0 to 2 of operators 1, 2 and platform.
fn three() -> Vec<u32> {
    plain(
        &[
            deferred(mode(1)),
            deferred(mode(2)),
            deferred(mode(0)),
            timer(1, 3),
            timer(2, 3),
            timer(0, 3),
        ],
        &[equal(0, 5), equal(1, 5), equal(2, 5)],
        &[rule(1, 0, 1, NONE), rule(2, 1, 0, NONE), rule(0, 2, 2, NONE)],
        &[list(2, 0, 2), list(1, 2, 2), list(0, 4, 2)],
        &[call(0x22), item(2, 4), call(0x11), item(2, 3), call(0x10), item(2, 5)],
    )
}

const B: usize = 9;

fn sent(event: u32) -> Sent {
    let shared = [0, 1].contains(&Event::of(event).owner);
    Sent { event, outcomes: vec![], room: B, shared }
}

/// Both sides have operator 1's and the platform's requests and a tick; the first operator 2's too.
fn made() -> Pair {
    let shared = [request(1, 0, 5), request(0, 2, 5), TICK].map(sent);
    let one = [&[sent(request(2, 1, 5))][..], &shared].concat();
    let other = [&shared[..2], &[sent(0x8200_0000)], &shared[2..]].concat();
    Pair { table: three(), b: B, operator: 1, sides: [one, other], days: Default::default() }
}

fn fresh_of(pair: &Pair) -> Vec<u32> {
    Play::fresh(&pair.table).state
}

/// What the rules give for a side.
fn results(pair: &Pair, side: usize) -> Vec<Told> {
    let mut state = fresh_of(pair);
    let one = |sent: &Sent| {
        let mut trace = vec![0; sent.room];
        let stepped = step(&pair.table, &mut state, &mut trace, sent.event, &sent.outcomes);
        let (answer, words) = (stepped.answer, trace[..stepped.count].to_vec());
        Told { answer, state: state.clone(), words, panel: vec![] }
    };
    pair.sides[side].iter().map(one).collect()
}

/// The first side's results, changed, against the second's.
fn judged(change: impl Fn(&mut Vec<Told>)) -> [bool; 2] {
    let pair = made();
    let mut one = results(&pair, 0);
    let other = results(&pair, 1);
    change(&mut one);
    let both: [&[Told]; 2] = [&one, &other];
    [agree(&pair, both).is_ok(), untouched(&pair, &fresh_of(&pair), both).is_ok()]
}

/// The last call of the first side, the shared tick.
const LAST: usize = 3;

fixed_cases! {
    fn judge_lets_the_rules_results_pass() {
        assert_eq!(judged(|_| {}), [true, true]);
        let words = results(&made(), 0)[LAST].words.clone();
        let own = [0xF101_0000, 0x0100_0011, 0x2103_0000, 0xF002_0000, 0x0000_0010, 0x2005_0000];
        assert_eq!(words, [&[0xF200_0000, 0x0200_0022, 0x2204_0000], &own[..]].concat());
        assert_eq!(results(&made(), 1)[LAST].words, own);
    }

    fn judge_lets_strangers_words_differ() {
        for place in [1, 4, 7] {
            assert!(judged(|told| told[LAST].state[place] ^= 0x8000_0000)[0]);
        }
        assert!(judged(|told| drop(told[LAST].words.drain(..3)))[0]);
        assert!(judged(|told| told[LAST].words.rotate_left(3))[0]);
    }

    fn judge_refuses_another_answer() {
        (1..4).for_each(|call| assert!(!judged(|told| told[call].answer = 6)[0]));
    }

    fn judge_refuses_another_word_of_the_operators_or_the_platforms() {
        for place in [0, 2, 3, 5, 6, 8] {
            for call in 1..4 {
                assert!(!judged(|told| told[call].state[place] ^= 1)[0], "{place} after {call}");
            }
        }
    }

    fn judge_refuses_other_own_trace_words() {
        for place in 3..9 {
            assert!(!judged(|told| drop(told[LAST].words.drain(place..=place)))[0]);
            assert!(!judged(|told| told[LAST].words[place] ^= 1)[0]);
        }
        assert!(!judged(|told| told[LAST].words.swap(4, 5))[0]);
        assert!(!judged(|told| told[LAST].words.push(0x0100_0011))[0]);
        assert!(!judged(|told| told[1].words.push(0xF101_0000))[0]);
    }

    fn judge_refuses_another_panel_and_too_few_results() {
        assert!(!judged(|told| told[LAST].panel = b"port 0 00000000\n".to_vec())[0]);
        assert!(!judged(|told| drop(told.pop()))[0]);
    }

    /// Behind a stranger's event nothing is compared by Q-14, but document 01 leaves no other word.
    fn judge_of_the_untouched_looks_behind_strangers_events() {
        for place in [0, 2, 3, 5, 6, 8] {
            assert_eq!(judged(|told| told[0].state[place] ^= 1), [true, false]);
        }
        assert_eq!(judged(|told| told[0].words.push(0x0100_0011)), [true, false]);
        assert_eq!(judged(|told| told[0].words.push(0x0200_0022)), [true, true]);
        assert_eq!(judged(|told| told[0].answer = 6), [true, false]);
    }

    fn judge_of_days_compares_where_both_have_stopped() {
        let pair = made();
        let state = fresh_of(&pair);
        let stop = |shared: usize, words: &[u32]| Stop {
            shared,
            state: state.clone(),
            words: words.to_vec(),
        };
        let own = [0xF101_0000, 0x0100_0011];
        let one = [stop(0, &[]), stop(1, &own[..1]), stop(3, &own)];
        let other = [stop(0, &[]), stop(2, &[own[1]]), stop(3, &[0xF200_0000, own[0], own[1]])];
        assert!(days_agree(&pair, [&one, &other]).is_ok());
        assert!(days_agree(&pair, [&one[..2], &other]).is_err());
        let words = [stop(0, &[]), stop(3, &own[..1])];
        assert!(days_agree(&pair, [&one, &words]).is_err());
        let middle = [stop(0, &[]), stop(1, &own[1..]), stop(3, &own)];
        assert!(days_agree(&pair, [&one, &middle]).is_err());
        let mut state = stop(3, &own);
        state.state[0] ^= 1;
        assert!(days_agree(&pair, [&one, &[state]]).is_err());
    }

    fn pairs_are_the_same_for_the_same_seed_and_number() {
        assert_eq!(pair(7, 3), pair(7, 3));
        assert_ne!(pair(7, 3), pair(7, 4));
        assert_ne!(pair(7, 3), pair(8, 3));
        // Each number begins elsewhere: one pair's draws are not another's a step on.
        let operators: Vec<u32> = (0..40).map(|number| pair(7, number).operator).collect();
        assert!((0..16).filter(|operator| operators.contains(operator)).count() > 8);
    }
}

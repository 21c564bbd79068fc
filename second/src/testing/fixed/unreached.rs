//! Request Q-6, the refusal: "It is reason 10, placed at the lowest such list word. It stands after
//! owner clashes and before the sum of costs. Every event call meets it as answer 1."

use super::program::bytes;
use super::reached::{reaching, singles, starts};
use super::*;
use crate::testing::recorded::printed;

/// List 1 is unreached. State: [port, rule].
fn left_over() -> Vec<u32> {
    reaching(&[starts(0)], &singles(2), &[call(7), call(8)])
}

/// So many lists of 255 calls, and rules for the first `started` of them, a rule each.
fn dear(lists: u32, started: u32) -> Vec<u32> {
    let rules: Vec<u32> = (0..started).map(starts).collect();
    reaching(&rules, &vec![list(0, 0, 255); lists as usize], &[call(0); 255])
}

/// Seven lists of 255 items, each naming the next list; the rule has the lists given.
fn hostile(rule: u32) -> Vec<u32> {
    let lists: Vec<u32> = (0..7).map(|level| list(0, level * 255, 255)).collect();
    let items: Vec<u32> =
        (1..8).flat_map(|next| [if next < 7 { item(5, next) } else { call(0) }; 255]).collect();
    reaching(&[rule], &lists, &items)
}

fixed_cases! {
    fn place_is_the_lowest_such_list_word() {
        // Of lists 1, 3 and 4 the rules start more and more.
        let with_rules = |more: &[u32]| {
            let rules: Vec<u32> = [0, 2].iter().chain(more).map(|&list| starts(list)).collect();
            reaching(&rules, &singles(5), &[call(0); 5])
        };
        refused(&with_rules(&[]), 10, 7 + 1);
        refused(&with_rules(&[1]), 10, 8 + 3);
        refused(&with_rules(&[3]), 10, 8 + 1);
        refused(&with_rules(&[1, 3]), 10, 9 + 4);
        stands(&with_rules(&[1, 3, 4]), 10);
    }

    fn place_is_counted_over_the_whole_table() {
        let ports = [mode(1), deferred(mode(1)), deferred(mode(1))];
        let rules = [rule(1, 0, 0, NONE), rule(1, 1, 0, NONE)];
        let whole = table(
            &ports,
            &[network(1, 1)],
            &[source(1, 2, 4)],
            &[equal(0, 0), not(0)],
            &rules,
            &[list(1, 0, 1); 2],
            &[call(0)],
        );
        // Header 3, ports 3, network 2, source 1, expressions 2, rules 2, list 0.
        refused(&whole, 10, 14);
    }

    fn only_lists_must_be_reached() {
        // An expression in no rule, a rule that nothing starts, an item in no list.
        let rules = [starts(0), nested_only(rule(0, 0, NONE, NONE))];
        let table =
            plain(&[mode(0)], &[equal(0, 0), equal(0, 1)], &rules, &singles(1), &[call(0); 2]);
        stands(&table, 2);
    }

    fn reason_8_comes_before_10() {
        // List 0 is unreached and lower; list 1 clears operator 2's event.
        let table = |cleared: u32| {
            let lists = [list(1, 0, 1), list(1, 1, 1)];
            let (rules, items) = ([rule(1, 0, 1, NONE)], [call(0), item(1, 1)]);
            plain(&[mode(1), event(cleared)], &[equal(0, 0)], &rules, &lists, &items)
        };
        refused(&table(2), 8, 8);
        refused(&table(1), 10, 7);
        // The rule has a stranger's list, which it would reach; list 1 is unreached.
        refused(&with(&left_over(), 5, rule(1, 0, 0, NONE)), 8, 5);
    }

    fn unreached_list_that_clashes_is_reason_8() {
        let table = |owner: u32| {
            let lists = [list(1, 0, 1), list(1, 1, 1)];
            let (rules, items) = ([rule(1, 0, 0, NONE)], [call(0), item(1, 1)]);
            plain(&[mode(1), event(owner)], &[equal(0, 0)], &rules, &lists, &items)
        };
        refused(&table(2), 8, 8);
        refused(&table(1), 10, 8);
    }

    fn reason_10_comes_before_9() {
        // 17 lists cost 17 times 256.
        refused(&dear(17, 17), 9, 0);
        for started in 1..17 {
            refused(&dear(17, started), 10, 5 + 2 * started as usize);
        }
        // Without the unreached one the rest would stand.
        stands(&dear(16, 16), 4096);
        refused(&dear(16, 15), 10, 5 + 15 + 15);
    }

    fn hostile_reach_is_judged_without_walking_every_path() {
        refused(&hostile(starts(0)), 9, 0);
        refused(&hostile(starts(1)), 10, 6);
        refused(&hostile(rule(0, 0, NONE, NONE)), 10, 6);
    }

    fn ring_of_unreached_lists_is_reason_7() {
        // List 0, lower than the ring of lists 1 and 2, is unreached too.
        let ring = [call(0), item(5, 2), item(5, 1)];
        refused(&reaching(&[rule(0, 0, NONE, NONE)], &singles(3), &ring), 7, 7);
        // A nested-only rule has the list that holds its rule item.
        let by_rule = [nested_only(rule(0, 0, 0, NONE))];
        refused(&reaching(&by_rule, &singles(1), &[item(6, 0)]), 7, 6);
    }

    fn unreached_row_eight_deep_is_reason_7() {
        let naming: Vec<u32> = (1..8).map(|next| item(5, next)).chain([call(0)]).collect();
        refused(&reaching(&[rule(0, 0, NONE, NONE)], &singles(8), &naming), 7, 6);
        let seven: Vec<u32> = (1..7).map(|next| item(5, next)).chain([call(0)]).collect();
        refused(&reaching(&[rule(0, 0, NONE, NONE)], &singles(7), &seven), 10, 6);
    }

    fn reasons_5_and_6_come_before_10_at_a_higher_place() {
        // List 1 is unreached at 7; item 1 is at 9.
        let table = left_over();
        refused(&table, 10, 7);
        refused(&with(&table, 9, 0x0001_0000), 5, 9);
        refused(&with(&table, 9, item(5, 2)), 6, 9);
        refused(&with(&table, 7, list(0, 1, 0)), 5, 7);
    }

    fn reasons_2_to_4_come_before_10() {
        let table = left_over();
        refused(&with(&table, 0, 0x0301_0000), 2, 0);
        refused(&with(&table, 1, 0x0001_0101), 3, 0);
        refused(&table[..9], 4, 0);
    }

    fn every_event_call_meets_it_as_answer_1() {
        // A tick, a request, an event that is malformed.
        for event in [TICK, request(0, 0, 5), 0xFFFF_FFFF] {
            // A state that would fit, one that would not, one too short.
            for state in [&[0, 0][..], &[0xFFFF_FFFF; 2], &[0]] {
                let (mut after, mut trace) = (state.to_vec(), [0x5555_5555; 4]);
                let stepped = step(&left_over(), &mut after, &mut trace, event, &[]);
                assert_eq!((stepped.answer, stepped.count), (1, 0));
                assert_eq!((&after[..], trace), (state, [0x5555_5555; 4]));
                assert_eq!(Play::of(&left_over(), state).answer(event), 1);
            }
        }
        // The event that the started list alone would run by.
        let started = reaching(&[rule(0, 0, 0, 1)], &singles(2), &[call(7), call(8)]);
        let ran = Play::fresh(&started).take(request(0, 0, 5));
        assert_eq!(ran, [0xF001_0000, 0x0000_0008]);
    }

    fn fresh_and_the_state_check_answer_1_for_it() {
        for length in 0..4 {
            let mut state = vec![0xAAAA_AAAA; length];
            assert_eq!(fresh(&left_over(), &mut state), 1);
            assert_eq!(state, vec![0xAAAA_AAAA; length]);
            assert_eq!(check_state(&left_over(), &vec![0; length]), 1);
        }
    }

    fn program_prints_reason_10_and_its_place() {
        assert_eq!(printed(&bytes(&left_over()), &bytes(&[0])), "10\n7\n");
    }
}

//! Reason 8: owners.

use super::shape::BASE;
use super::*;

/// Ports 0 mode of operator 1, 1 event and 2 timer of operator 2, 3 mode, 4
/// event and 5 timer of the platform, 6 the network's, of operator 2. The rules
/// mention port 3. The first is at place 13; after one, lists are at 14 and 15.
fn between(rules: &[u32], lists: [u32; 2], items: [u32; 2]) -> Vec<u32> {
    let ports = [mode(1), event(2), timer(2, 1), mode(0), event(0), timer(0, 1), deferred(mode(2))];
    table(&ports, &[network(2, 6)], &[], &[equal(3, 0)], rules, &lists, &items)
}

/// The item in a list of the owner given, at place 14.
fn holding(owner: u32, item: u32) -> Vec<u32> {
    between(&[rule(owner, 0, 0, 1)], [list(owner, 0, 1), list(owner, 1, 1)], [item, call(0)])
}

/// A list of one owner naming a list of another.
fn naming_list(owner: u32, named: u32) -> Vec<u32> {
    let lists = [list(owner, 0, 1), list(named, 1, 1)];
    between(&[rule(owner, 0, 0, NONE)], lists, [item(5, 1), call(0)])
}

/// A list of one owner, at place 15, naming a rule of another.
fn naming_rule(owner: u32, named: u32) -> Vec<u32> {
    let lists = [list(owner, 0, 1), list(owner, 1, 1)];
    between(&[rule(named, 0, NONE, NONE), rule(owner, 0, 0, 1)], lists, [item(6, 0), call(0)])
}

/// A rule of one owner with a list of another.
fn starting_list(owner: u32, started: u32) -> Vec<u32> {
    let lists = [list(owner, 1, 1), list(started, 1, 1)];
    between(&[rule(owner, 0, 0, 1)], lists, [call(0), call(0)])
}

/// Operator 2's event, timer and network, in items 1 to 4.
fn operator_2_s() -> [u32; 4] {
    [item(1, 1), item(2, 2), item(3, 2), ask(0, 2)]
}

fixed_cases! {
    fn network_has_its_ports_owner() {
        refused(&with(&BASE, 8, 0x2010_2000), 8, 8);
        refused(&with(&BASE, 8, 0x0010_2000), 8, 8);
    }

    fn source_has_its_ports_owner() {
        refused(&with(&BASE, 10, 0x2020_0040), 8, 10);
        refused(&with(&BASE, 10, 0x0020_0040), 8, 10);
    }

    fn rule_mentions_no_strangers_port() {
        let mention = |expressions: &[u32]| {
            let last = expressions.len() as u32 - 1;
            plain(&[mode(1), mode(2)], expressions, &[rule(1, last, NONE, NONE)], &[], &[])
        };
        stands(&mention(&[equal(0, 0)]), 0);
        refused(&mention(&[equal(1, 0)]), 8, 6);
        refused(&mention(&[equal(0, 0), equal(1, 0), operator(expression::NAND, 0, 1)]), 8, 8);
        refused(&mention(&[equal(0, 0), equal(1, 0), operator(expression::OR, 1, 0)]), 8, 8);
    }

    fn operators_rule_may_mention_a_platform_port() {
        stands(&with(&BASE, 3, mode(0)), 13);
    }

    fn operators_list_may_not_name_a_platform_port() {
        // The same port in an item: the event that item 1 clears.
        refused(&with(&BASE, 6, event(0)), 8, 17);
        for item in [item(1, 4), item(2, 5), item(3, 5)] {
            refused(&holding(1, item), 8, 14);
            stands(&holding(0, item), 4);
        }
    }

    fn platform_rule_mentions_only_platform_ports() {
        let mention =
            |owner: u32| plain(&[mode(owner)], &[equal(0, 0)], &[rule(0, 0, NONE, NONE)], &[], &[]);
        stands(&mention(0), 0);
        refused(&mention(1), 8, 5);
    }

    fn rules_lists_have_its_owner() {
        stands(&starting_list(1, 1), 4);
        refused(&starting_list(1, 2), 8, 13);
        refused(&starting_list(1, 0), 8, 13);
        refused(&starting_list(0, 1), 8, 13);
    }

    fn operators_list_names_only_its_own_ports_and_networks() {
        for item in operator_2_s() {
            stands(&holding(2, item), 4);
            refused(&holding(1, item), 8, 14);
        }
    }

    fn platform_list_may_name_anybodys_ports_and_networks() {
        for item in operator_2_s() {
            stands(&holding(0, item), 4);
        }
    }

    fn list_names_only_lists_of_its_owner_the_platforms_too() {
        stands(&naming_list(0, 0), 3 + 2);
        stands(&naming_list(1, 1), 3 + 2);
        refused(&naming_list(1, 2), 8, 14);
        refused(&naming_list(1, 0), 8, 14);
        refused(&naming_list(0, 1), 8, 14);
    }

    fn list_names_only_rules_of_its_owner_the_platforms_too() {
        stands(&naming_rule(0, 0), 2 + 2);
        stands(&naming_rule(1, 1), 2 + 2);
        refused(&naming_rule(1, 2), 8, 15);
        refused(&naming_rule(1, 0), 8, 15);
        refused(&naming_rule(0, 1), 8, 15);
    }

    fn shared_items_are_judged_by_each_lists_owner() {
        let shared = |first: u32, second: u32| {
            let rules = [rule(first, 0, 0, NONE), rule(second, 0, 1, NONE)];
            let lists = [list(first, 0, 1), list(second, 0, 1)];
            between(&rules, lists, [item(1, 1), call(0)])
        };
        stands(&shared(0, 2), 4);
        refused(&shared(2, 1), 8, 16);
        refused(&shared(1, 2), 8, 15);
    }

    fn item_in_no_list_clashes_with_nobody() {
        let lists = [list(1, 1, 1), list(1, 1, 1)];
        stands(&between(&[rule(1, 0, 0, 1)], lists, [ask(0, 2), call(0)]), 4);
    }

    fn expression_in_no_rule_clashes_with_nobody() {
        let mixed = [equal(0, 0), equal(1, 0), operator(expression::AND, 0, 1)];
        stands(&plain(&[mode(1), mode(2)], &mixed, &[rule(1, 0, NONE, NONE)], &[], &[]), 0);
    }

    fn not_s_right_is_no_name_in_owners() {
        // Expression 0, NOT's right read as a name, mentions operator 2's port.
        let negated = [equal(1, 0), equal(0, 0), not(1)];
        stands(&plain(&[mode(1), mode(2)], &negated, &[rule(1, 2, NONE, NONE)], &[], &[]), 0);
    }

    fn reason_8_lowest_word_of_two() {
        refused(&with(&with(&BASE, 10, 0x2020_0040), 8, 0x2010_2000), 8, 8);
        // Rule 0 starts list 0: with a strange list, the rule comes first.
        refused(&with(&BASE, 17, 0x2000_0007), 8, 15);
    }

    fn reason_7_comes_before_8() {
        refused(&with(&with(&BASE, 8, 0x2010_2000), 24, 0x5000_0000), 7, 17);
    }
}

//! Request Q-6, what is reached: "a list is reached by no rule that isn't nested-only, whether
//! directly, by a named list, or by a rule item."

use super::*;

/// Rules, lists and items on one platform port: list k is at place 5 + rules + k.
pub fn reaching(rules: &[u32], lists: &[u32], items: &[u32]) -> Vec<u32> {
    plain(&[mode(0)], &[equal(0, 0)], rules, lists, items)
}

/// So many lists, list k with item k alone.
pub fn singles(count: u32) -> Vec<u32> {
    (0..count).map(|number| list(0, number, 1)).collect()
}

/// The rule starts one list.
pub fn starts(number: u32) -> u32 {
    rule(0, 0, number, NONE)
}

/// Seven lists in this order, each naming the next by an item 5, or by rule k + 1 where `by_rules`
/// holds; rule 0 starts the first. Where `cut` is given, that list of the row calls instead.
fn row(order: [u32; 7], by_rules: bool, cut: Option<usize>) -> Vec<u32> {
    let mut items = [call(0); 7];
    let mut rules = vec![starts(order[0])];
    for step in 0..6 {
        let (from, to) = (order[step] as usize, order[step + 1]);
        let lists = if step % 2 == 0 { (to, NONE) } else { (NONE, to) };
        let by_rule = item(6, rules.len() as u32);
        if by_rules {
            rules.push(nested_only(rule(0, 0, lists.0, lists.1)));
        }
        if cut != Some(step) {
            items[from] = if by_rules { by_rule } else { item(5, to) };
        }
    }
    reaching(&rules, &singles(7), &items)
}

fixed_cases! {
    fn list_that_stayed_after_its_rule_was_deleted() {
        let items = [call(0); 2];
        stands(&reaching(&[starts(0), starts(1)], &singles(2), &items), 4);
        refused(&reaching(&[starts(0)], &singles(2), &items), 10, 7);
        refused(&reaching(&[starts(1)], &singles(2), &items), 10, 6);
        refused(&reaching(&[rule(0, 0, NONE, NONE)], &singles(1), &items), 10, 6);
    }

    fn with_no_lists_nothing_is_unreached() {
        for rule in [rule(0, 0, NONE, NONE), nested_only(rule(0, 0, NONE, NONE))] {
            stands(&reaching(&[rule], &[], &[]), 0);
            stands(&reaching(&[rule], &[], &[call(0), item(6, 0)]), 0);
        }
    }

    fn rule_reaches_both_its_lists_directly() {
        let with_lists = |true_list: u32, false_list: u32| {
            reaching(&[rule(0, 0, true_list, false_list)], &singles(2), &[call(0); 2])
        };
        stands(&with_lists(0, 1), 4);
        stands(&with_lists(1, 0), 4);
        // As a true list only, as a false list only, for both results.
        for (true_list, false_list) in [(0, NONE), (NONE, 0), (0, 0)] {
            refused(&with_lists(true_list, false_list), 10, 7);
        }
        for (true_list, false_list) in [(1, NONE), (NONE, 1), (1, 1)] {
            refused(&with_lists(true_list, false_list), 10, 6);
        }
    }

    fn list_reached_as_a_true_list_only_or_as_a_false_list_only_stands() {
        stands(&reaching(&[rule(0, 0, 0, NONE)], &singles(1), &[call(0)]), 2);
        stands(&reaching(&[rule(0, 0, NONE, 0)], &singles(1), &[call(0)]), 2);
    }

    fn no_list_in_a_rule_reaches_nothing() {
        // 255 is none, even beside list 254.
        let lists = [list(0, 0, 1); 255];
        let mut rules = starting_all(0, 254);
        rules.push(rule(0, 0, NONE, NONE));
        refused(&reaching(&rules, &lists, &[call(0)]), 10, 5 + 128 + 254);
        stands(&reaching(&starting_all(0, 255), &lists, &[call(0)]), 510);
    }

    fn nested_only_rule_reaches_nothing_by_itself() {
        let items = [call(0); 2];
        refused(&reaching(&[nested_only(rule(0, 0, 0, 1))], &singles(2), &items), 10, 6);
        let half = [starts(0), nested_only(rule(0, 0, NONE, 1))];
        refused(&reaching(&half, &singles(2), &items), 10, 8);
        let half = [nested_only(rule(0, 0, 0, NONE)), starts(1)];
        refused(&reaching(&half, &singles(2), &items), 10, 7);
    }

    fn nested_only_rule_that_no_item_names_stands_if_its_lists_are_reached_otherwise() {
        let rules = [starts(0), nested_only(rule(0, 0, 0, 0))];
        stands(&reaching(&rules, &singles(1), &[call(0)]), 2);
    }

    fn rule_item_reaches_both_lists_of_its_rule() {
        let named = |true_list: u32, false_list: u32| {
            let rules = [starts(0), nested_only(rule(0, 0, true_list, false_list))];
            reaching(&rules, &singles(3), &[item(6, 1), call(0), call(0)])
        };
        // Lists 1 and 2 cost 2 each, list 0 costs 1 + 1 + 2.
        stands(&named(1, 2), 8);
        stands(&named(2, 1), 8);
        refused(&named(1, NONE), 10, 9);
        refused(&named(NONE, 1), 10, 9);
        refused(&named(2, NONE), 10, 8);
        refused(&named(NONE, 2), 10, 8);
        refused(&named(NONE, NONE), 10, 8);
    }

    fn rule_that_isnt_nested_only_reaches_its_lists_whether_an_item_names_it_or_not() {
        let with_rule = |rule: u32, item: u32| {
            reaching(&[starts(0), rule], &singles(3), &[item, call(0), call(0)])
        };
        let rule = rule(0, 0, 1, 2);
        stands(&with_rule(rule, item(6, 1)), 8);
        stands(&with_rule(rule, call(0)), 6);
        stands(&with_rule(nested_only(rule), item(6, 1)), 8);
        refused(&with_rule(nested_only(rule), call(0)), 10, 8);
        // The item that names it is in no list, or in an unreached one: list 3, at place 10.
        let items = [call(0), call(0), call(0), item(6, 1)];
        stands(&reaching(&[starts(0), rule], &singles(3), &items), 6);
        refused(&reaching(&[starts(0), rule], &singles(4), &items), 10, 10);
    }

    fn last_of_256_rules_reaches_its_lists() {
        let mut rules = vec![rule(0, 0, NONE, NONE); 256];
        refused(&reaching(&rules, &singles(2), &[call(0); 2]), 10, 5 + 256);
        rules[255] = rule(0, 0, 1, 0);
        stands(&reaching(&rules, &singles(2), &[call(0); 2]), 4);
        rules[255] = nested_only(rules[255]);
        refused(&reaching(&rules, &singles(2), &[call(0); 2]), 10, 5 + 256);
    }

    fn rule_item_in_an_unreached_list_reaches_nothing() {
        // List 2 holds the rule item, list 1 is the rule's; both are unreached.
        for nested in [rule(0, 0, 1, NONE), rule(0, 0, NONE, 1)] {
            let rules = [starts(0), nested_only(nested)];
            refused(&reaching(&rules, &singles(3), &[call(0), call(0), item(6, 1)]), 10, 8);
        }
    }

    fn list_that_only_an_unreached_list_names_is_unreached() {
        let items = [call(0), call(0), item(5, 1)];
        refused(&reaching(&[starts(0)], &singles(3), &items), 10, 7);
        stands(&reaching(&[rule(0, 0, 0, 2)], &singles(3), &items), 7);
    }

    fn list_named_by_one_reached_and_one_unreached_list_is_reached() {
        let items = [item(5, 1), call(0), item(5, 1)];
        refused(&reaching(&[starts(0)], &singles(3), &items), 10, 8);
        refused(&reaching(&[starts(2)], &singles(3), &items), 10, 6);
        stands(&reaching(&[rule(0, 0, 0, 2)], &singles(3), &items), 8);
    }

    fn list_with_a_rule_and_a_name_is_reached_by_either() {
        let with_both = |rule: u32, item: u32| {
            reaching(&[starts(0), rule], &singles(2), &[item, call(0)])
        };
        let none = rule(0, 0, NONE, NONE);
        stands(&with_both(starts(1), item(5, 1)), 5);
        stands(&with_both(starts(1), call(0)), 4);
        stands(&with_both(none, item(5, 1)), 5);
        refused(&with_both(none, call(0)), 10, 8);
    }

    fn list_of_two_rules_is_reached_by_either() {
        let none = rule(0, 0, NONE, NONE);
        let of = |rules: [u32; 2]| reaching(&rules, &singles(1), &[call(0)]);
        stands(&of([starts(0), rule(0, 0, NONE, 0)]), 2);
        stands(&of([none, rule(0, 0, NONE, 0)]), 2);
        stands(&of([starts(0), none]), 2);
        refused(&of([none, none]), 10, 7);
    }

    fn reach_is_transitive_by_named_lists() {
        let orders = [[0, 1, 2, 3, 4, 5, 6], [6, 5, 4, 3, 2, 1, 0], [3, 5, 1, 6, 0, 4, 2]];
        for order in orders {
            stands(&row(order, false, None), 2 + 3 + 4 + 5 + 6 + 7 + 8);
            for cut in 0..6 {
                let lowest = order[cut + 1..].iter().min().expect("a list after it");
                refused(&row(order, false, Some(cut)), 10, 6 + *lowest as usize);
            }
        }
    }

    fn reach_is_transitive_by_rule_items() {
        let orders = [[0, 1, 2, 3, 4, 5, 6], [6, 5, 4, 3, 2, 1, 0], [3, 5, 1, 6, 0, 4, 2]];
        for order in orders {
            stands(&row(order, true, None), 2 + 4 + 6 + 8 + 10 + 12 + 14);
            for cut in 0..6 {
                let lowest = order[cut + 1..].iter().min().expect("a list after it");
                refused(&row(order, true, Some(cut)), 10, 12 + *lowest as usize);
            }
        }
    }

    fn reached_only_through_three_lists_and_a_rule_item() {
        // List 3 names list 1, which holds rule 1, whose false list 2 names list 0.
        let through = |items: [u32; 4]| {
            reaching(&[starts(3), nested_only(rule(0, 0, NONE, 2))], &singles(4), &items)
        };
        let whole = [call(0), item(6, 1), item(5, 0), item(5, 1)];
        stands(&through(whole), 2 + 3 + 5 + 6);
        refused(&through([whole[0], whole[1], whole[2], call(0)]), 10, 7);
        refused(&through([whole[0], call(0), whole[2], whole[3]]), 10, 7);
        refused(&through([whole[0], whole[1], call(0), whole[3]]), 10, 7);
        // Without the item that names it, list 2 is next where list 0 has a rule.
        let rules = [rule(0, 0, 3, 0), nested_only(rule(0, 0, NONE, 2))];
        let cut = [whole[0], call(0), whole[2], whole[3]];
        refused(&reaching(&rules, &singles(4), &cut), 10, 9);
    }

    fn every_item_of_a_list_reaches() {
        let lists = [list(0, 0, 3), list(0, 3, 1), list(0, 3, 1), list(0, 3, 1)];
        let all = [item(5, 1), item(5, 2), item(5, 3), call(0)];
        stands(&reaching(&[starts(0)], &lists, &all), 7 + 2 + 2 + 2);
        for place in 0..3 {
            let table = reaching(&[starts(0)], &lists, &with(&all, place, call(0)));
            refused(&table, 10, 7 + place);
        }
    }

    fn last_of_255_items_reaches() {
        let mut items = vec![call(0); 256];
        let lists = [list(0, 0, 255), list(0, 255, 1)];
        refused(&reaching(&[starts(0)], &lists, &items), 10, 7);
        items[254] = item(5, 1);
        stands(&reaching(&[starts(0)], &lists, &items), 1 + 254 + 2 + 2);
    }

    fn item_in_no_list_reaches_nothing() {
        // The item is before the started list's first, or after its last.
        let lists = [list(0, 1, 1), list(0, 2, 1)];
        let (before, after) = ([1, 0, 0, 0], [0, 0, 0, 1]);
        let naming =
            |item: u32, at: [u32; 4]| at.map(|here| if here == 1 { item } else { call(0) });
        for at in [before, after] {
            refused(&reaching(&[starts(0)], &lists, &naming(item(5, 1), at)), 10, 7);
            let rules = [starts(0), nested_only(rule(0, 0, 1, 1))];
            refused(&reaching(&rules, &lists, &naming(item(6, 1), at)), 10, 8);
        }
        // With one item more the list holds it.
        let longer = [list(0, 0, 2), list(0, 2, 1)];
        stands(&reaching(&[starts(0)], &longer, &naming(item(5, 1), before)), 4 + 2);
        let longer = [list(0, 2, 2), list(0, 2, 1)];
        stands(&reaching(&[starts(0)], &longer, &naming(item(5, 1), after)), 4 + 2);
    }

    fn shared_items_reach_from_every_list_that_holds_them() {
        // Item 1, in lists 0 and 1, names list 2.
        let lists = [list(0, 0, 2), list(0, 1, 1), list(0, 2, 1)];
        let shared = |rule: u32| reaching(&[rule], &lists, &[call(0), item(5, 2), call(0)]);
        stands(&shared(rule(0, 0, 0, 1)), 4 + 3 + 2);
        // From one of them alone, the other one is unreached.
        refused(&shared(rule(0, 0, 1, NONE)), 10, 6);
        refused(&shared(rule(0, 0, 0, NONE)), 10, 7);
        refused(&shared(rule(0, 0, 2, NONE)), 10, 6);
        // Lists 1 and 2 share the item that names list 0: either one reaches it.
        let lists = [list(0, 0, 1), list(0, 1, 1), list(0, 1, 1)];
        let shared = |rule: u32| reaching(&[rule], &lists, &[call(0), item(5, 0)]);
        refused(&shared(starts(2)), 10, 7);
        refused(&shared(starts(1)), 10, 8);
        stands(&shared(rule(0, 0, 1, 2)), 2 + 3 + 3);
    }

    fn item_of_another_kind_with_the_lists_number_reaches_nothing() {
        // Port 1 is an event, then a timer; list 1 is unreached.
        for (port, item) in
            [(event(0), item(1, 1)), (timer(0, 1), item(2, 1)), (timer(0, 1), item(3, 1))]
        {
            let ports = [mode(0), port];
            let table = plain(&ports, &[equal(0, 0)], &[starts(0)], &singles(2), &[item, call(0)]);
            refused(&table, 10, 8);
        }
        let ports = [mode(0), deferred(mode(0)), deferred(mode(0))];
        let networks = [network(0, 1), network(0, 2)];
        let asking = [ask(1, 2), call(0)];
        let table =
            table(&ports, &networks, &[], &[equal(0, 0)], &[starts(0)], &singles(2), &asking);
        refused(&table, 10, 13);
        refused(&reaching(&[starts(0)], &singles(2), &[call(1), call(0)]), 10, 7);
        // An outside call has 0 for a list.
        refused(&reaching(&[starts(1)], &singles(2), &[call(0); 2]), 10, 6);
    }

    fn rule_item_and_named_list_of_the_same_number_are_two() {
        // Rule 1 has list 2: item 5 with 1 reaches list 1 alone, item 6 with 1 list 2 alone.
        let named = |item: u32| {
            let rules = [starts(0), nested_only(rule(0, 0, 2, NONE))];
            reaching(&rules, &singles(3), &[item, call(0), call(0)])
        };
        refused(&named(item(5, 1)), 10, 9);
        refused(&named(item(6, 1)), 10, 8);
    }

    fn rule_reaches_its_lists_whatever_it_can_give() {
        // XOR of a thing with itself is never true.
        let never = [equal(0, 0), operator(expression::XOR, 0, 0)];
        let rules = [rule(0, 1, 0, NONE), nested_only(rule(0, 1, 1, NONE))];
        let items = [item(6, 1), call(0)];
        stands(&plain(&[mode(0)], &never, &rules[..1], &singles(1), &[call(0)]), 2);
        stands(&plain(&[mode(0)], &never, &rules, &singles(2), &items), 4 + 2);
    }

    fn each_owners_lists_are_reached_by_that_owners_rules() {
        let lists = [list(1, 0, 1), list(0, 0, 1), list(2, 0, 1)];
        let of = |owners: [u32; 3]| {
            let rules = [0, 1, 2].map(|number| rule(owners[number], 0, NONE, number as u32));
            plain(&[mode(0)], &[equal(0, 0)], &rules, &lists, &[call(0)])
        };
        let all = of([1, 0, 2]);
        stands(&all, 6);
        for (place, owner) in [(5, 1), (6, 0), (7, 2)] {
            refused(&with(&all, place, rule(owner, 0, NONE, NONE)), 10, place + 3);
        }
    }

    fn last_list_of_255_reached_only_by_a_named_list_or_a_rule_item() {
        // Lists 0 to 253 have a rule each two; list 253 alone holds the second item.
        let mut lists = [list(0, 0, 1); 255];
        lists[253] = list(0, 1, 1);
        let mut rules = starting_all(0, 254);
        let table = |rules: &[u32], item: u32| reaching(rules, &lists, &[call(0), item]);
        refused(&table(&rules, call(0)), 10, 5 + 127 + 254);
        stands(&table(&rules, item(5, 254)), 254 * 2 + 3);
        rules.push(nested_only(rule(0, 0, NONE, 254)));
        refused(&table(&rules, call(0)), 10, 5 + 128 + 254);
        stands(&table(&rules, item(6, 127)), 254 * 2 + 4);
    }
}

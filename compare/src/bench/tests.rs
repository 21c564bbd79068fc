//! A time is of the same computation, or there is none; and the tables are what
//! their rows say. The yardstick and another commit's code are not asked: the
//! proved code with a fault stands in for them.

use herringcart::{Answer, Check};
use second::cases::draft::Draft;
use second::words::*;

use super::*;
use crate::differ::bound;
use crate::differ::holds::compare_hold;
use crate::subject::{Proved, Subject};

/// Has another place for a refused table and another answer for a bus-off.
struct Other;

impl Subject for Other {
    fn check(&self, table: &[u32]) -> Check {
        let check = Proved.check(table);
        if check.accepted() { check } else { Check { place: check.place + 1, ..check } }
    }

    fn step(
        &self,
        table: &[u32],
        state: &mut [u32],
        trace: &mut [u32],
        outcomes: &[u32],
        event: u32,
    ) -> Answer {
        let answer = Proved.step(table, state, trace, outcomes, event);
        if event >> 28 == 5 { Answer { number: 6, ..answer } } else { answer }
    }
}

/// What is said where there is no time, else nothing: of the yardstick, and of
/// the code before in the same words.
fn said(table: &[u32], events: &[u32]) -> String {
    let runs = [Run::fresh(table, events, &[])];
    let times = &Times::of(Some(&Other), &Other, &runs).expect("the proved code is right")[0];
    let [time, ratio, why] = times.beside(&times.yardstick, 1.0, 0);
    assert_eq!((time == "-", ratio == "-"), (!why.is_empty(), !why.is_empty()));
    let before = times.beside(&times.before, 1.0, 0);
    assert_eq!((&before[0] == "-", &before[1] == "-"), (time == "-", ratio == "-"));
    assert_eq!(before[2], why.replace("yardstick", "before"));
    why
}

#[test]
fn a_clock_that_computes_something_else_has_no_time() {
    let why = said(&MARKED, &marked_run());
    assert!(why.ends_with("computes something else: event 2 (51000000), answer, count"), "{why}");
    // Without the bus-off it is the same computation.
    assert_eq!(said(&MARKED, &marked_run()[..2]), "");
}

#[test]
fn a_clock_that_refuses_a_table_otherwise_has_no_time() {
    let tables = hostile::all().into_iter().map(|hostile| hostile.draft.words());
    let refused: Vec<_> = tables.filter(|words| second::check(words).reason != 0).collect();
    let why = said(&refused[0], &[0]);
    assert!(why.ends_with("computes something else: check: reason, place, B"), "{why}");
}

#[test]
fn without_a_commit_there_is_no_time_before_and_nothing_is_said() {
    let runs = [Run::fresh(&MARKED, &marked_run(), &[])];
    let times = &Times::of(None::<&Proved>, &Proved, &runs).expect("right")[0];
    assert_eq!(times.beside(&times.before, 1.0, 0), ["-", "-", ""]);
    assert!(times.yardstick.is_ok());
}

/// The state and trace after an event on a fresh state of an accepted table.
fn after(draft: &Draft, event: u32) -> (Vec<u32>, Vec<u32>) {
    after_lending(draft, event, &[])
}

fn after_lending(draft: &Draft, event: u32, outcomes: &[u32]) -> (Vec<u32>, Vec<u32>) {
    let words = draft.words();
    let check = herringcart::check_table(&words);
    assert!(check.accepted(), "{check:?}");
    let mut state = vec![0; herringcart::state_words(&words)];
    assert_eq!(herringcart::make_fresh(&words, &mut state), 0);
    let mut trace = vec![0; check.bound as usize];
    let answer = herringcart::take_event(&words, &mut state, &mut trace, outcomes, event);
    assert!(answer.done(), "{answer:?}");
    trace.truncate(answer.count);
    (state, trace)
}

/// What an event on a fresh state visits.
fn visits_after(draft: &Draft, event: u32) -> u32 {
    let words = draft.words();
    let mut state = vec![0; herringcart::state_words(&words)];
    assert_eq!(herringcart::make_fresh(&words, &mut state), 0);
    let mut trace = vec![0; herringcart::check_table(&words).bound as usize];
    herringcart::take_event(&words, &mut state, &mut trace, &[], event).visits
}

/// The value of an expression on a fresh state, and the words that are visited
/// where the right side is passed over once the left one has settled it.
fn visited(draft: &Draft, number: usize) -> (bool, usize) {
    let (kind, left, right) = match draft.expressions[number] {
        Expression::Condition(condition) => {
            let initial = draft.ports[condition.port as usize].initial;
            let level = condition.kind == expression::AT_OR_ABOVE;
            return (initial == condition.value || level && initial > condition.value, 1);
        }
        Expression::Operator(Operator { kind, left, right }) => (kind, left, right),
    };
    let (left, visits) = visited(draft, left as usize);
    if left == (kind == expression::OR) && kind != expression::XOR {
        return (left, visits + 1);
    }
    let (right, more) = visited(draft, right as usize);
    (if kind == expression::XOR { left != right } else { right }, visits + more + 1)
}

#[test]
fn the_condition_that_a_wide_row_names_decides_it_alone() {
    for wide in wide::ALL {
        let draft = wide.draft();
        let result = |draft: &Draft| {
            let (state, trace) = after(draft, wide::request(draft));
            assert_eq!(trace, []);
            RuleState::of(state[draft.ports.len()]).last
        };
        let given = result(&draft);
        assert_eq!(given, (wide.joined == expression::OR) as u32, "{}", wide.name);
        for leaf in 0..wide::LEAVES {
            let mut turned = draft.clone();
            turned.ports[leaf as usize].initial ^= 1;
            let turns = result(&turned) != given;
            assert_eq!(turns, leaf == wide.decides, "{}: condition {leaf}", wide.name);
        }
        // Down to the first leaf, or all of the tree.
        let visits = if wide.decides == 0 { 7 } else { 127 };
        assert_eq!(visited(&draft, 0), (given == 1, visits), "{}", wide.name);
    }
}

#[test]
fn a_wide_row_s_event_turns_nothing() {
    for wide in wide::ALL {
        let draft = wide.draft();
        let event = wide::request(&draft);
        let (mut state, _) = after(&draft, event);
        let first = state.clone();
        assert!(Proved.step(&draft.words(), &mut state, &mut [], &[], event).done());
        assert_eq!(state, first, "{}", wide.name);
        let value = |port: usize| PortState::of(state[port]).value;
        assert!((0..draft.ports.len()).all(|port| value(port) == draft.ports[port].initial));
    }
}

/// The hostile rows of 4,080 rule items.
fn of_rule_items() -> Vec<Hostile> {
    let all = hostile::all().into_iter();
    all.filter(|hostile| hostile.name.starts_with("4,080 rule items")).collect()
}

#[test]
fn each_of_4080_rule_items_is_reached_and_evaluated() {
    assert_eq!(of_rule_items().len(), 10);
    for Hostile { name, draft, event } in of_rule_items() {
        let (_, trace) = after(&draft, event);
        let mut expected = vec![];
        for (a, list) in (0..).zip(&draft.lists) {
            expected.push(TraceWord { kind: LIST_START, a, ..Default::default() }.word());
            for item in &draft.items[list.items()] {
                let expression = draft.rules[item.a as usize].expression as usize;
                let b = visited(&draft, expression).0 as u32;
                expected.push(TraceWord { kind: item::RULE, a: item.a, b, owner: 0 }.word());
            }
        }
        assert_eq!(expected.len(), 16 + 4080);
        assert_eq!(trace, expected, "{name}");
    }
}

#[test]
fn rule_items_visit_as_many_words_as_their_row_says() {
    for Hostile { name, draft, event } in of_rule_items() {
        let visits = if name.contains("first") { 7 } else { 127 };
        let roots = draft.rules.iter().map(|rule| rule.expression as usize);
        assert!(roots.into_iter().all(|root| visited(&draft, root).1 == visits), "{name}");
        // All rules are arbitrated.
        assert_eq!(visits_after(&draft, event), visits as u32 * (256 + 4080), "{name}");
    }
}

#[test]
fn the_row_of_the_most_visits_comes_near_the_bound() {
    let rows = of_rule_items();
    let row = rows.iter().find(|row| row.name.ends_with("the most visits")).expect("the row");
    let words = row.draft.words();
    assert_eq!(
        (row.draft.expressions.len(), row.draft.rules.len(), row.draft.lists.len()),
        (7, 256, 16)
    );
    assert_eq!(bound(&words), herringcart::MOST_VISITS.into());
    assert_eq!(visits_after(&row.draft, row.event), 550_672);
}

#[test]
fn two_events_that_give_the_price_of_a_visit_differ_in_their_visits_alone() {
    for visits::Priced { name, fewer, more } in visits::all() {
        let [(_, less_trace), (_, more_trace)] =
            [&fewer, &more].map(|row| after(&row.draft, row.event));
        let [less, most] = [&fewer, &more].map(|row| visits_after(&row.draft, row.event));
        // 17 rules are arbitrated and 4,080 items run; b, which is the result, may differ.
        let each = if name.starts_with("AND") { 7 } else { 63 };
        assert_eq!((less, most), (4097 * each, 4097 * 127), "{name}");
        let without_results = |trace: &[u32]| trace.iter().map(|word| word >> 16).collect();
        let [left, right]: [Vec<u32>; 2] = [&less_trace, &more_trace].map(|t| without_results(t));
        assert_eq!((left.len(), &left), (4096, &right), "{name}");
        let [left, right] = [&fewer, &more].map(|row| row.draft.words());
        let differ = left.iter().zip(&right).filter(|(left, right)| left != right).count();
        assert!(left.len() == right.len() && differ <= 17, "{name}: {differ} words");
    }
}

/// The expression words below a root, itself included, each as often as it is met.
fn below(draft: &Draft, root: usize) -> Vec<usize> {
    let arguments = draft.expressions[root].arguments();
    [root].into_iter().chain(arguments.flat_map(|next| below(draft, next))).collect()
}

/// Those of the hostile rows of 4,080 rule items whose names end so.
fn ending(names: [&str; 2]) -> Vec<Hostile> {
    let ends = |row: &Hostile| names.iter().any(|name| row.name.ends_with(name));
    let rows: Vec<_> = of_rule_items().into_iter().filter(ends).collect();
    assert_eq!(rows.len(), 2);
    rows
}

#[test]
fn trees_that_share_no_branch_share_no_word() {
    for Hostile { name, draft, .. } in ending(["no branch shared", "both of these"]) {
        let mut roots: Vec<_> = draft.rules.iter().map(|rule| rule.expression as usize).collect();
        roots.sort();
        roots.dedup();
        let mut words: Vec<_> = roots.iter().flat_map(|&root| below(&draft, root)).collect();
        words.sort();
        assert_eq!((roots.len(), words), (4, (0..4 * 127).collect()), "{name}");
    }
}

#[test]
fn the_undefined_port_stays_so_and_no_rule_mentions_it() {
    for Hostile { name, draft, event } in ending(["a port undefined", "both of these"]) {
        let (state, _) = after(&draft, event);
        let undefined = |&port: &usize| PortState::of(state[port]).defined == 0;
        let ports: Vec<_> = (0..draft.ports.len()).filter(undefined).collect();
        assert_eq!(ports, [63], "{name}");
        let mentioned = |rule: &Rule| draft.mentioned(rule.expression as usize);
        assert!(!draft.rules.iter().flat_map(mentioned).any(|port| port == 63), "{name}");
    }
}

#[test]
fn a_row_of_edition_2_runs_the_calls_that_it_lends_outcomes_for() {
    let [marked, one, two, failing] = editions::all();
    assert_eq!(marked.draft.words()[1..11], MARKED[1..11]);
    let (_, stopped) = after_lending(&marked.draft, marked.events[0], &marked.outcomes);
    assert_eq!(stopped, [0xF100_0000, 0x4100_0002, 0x0100_1234]);
    let calls = |trace: &[u32]| trace.iter().filter(|&&word| word >> 28 == 0).count();
    let [first, second, third] = [one, two, failing].map(|row| {
        assert_eq!(row.events.len(), 1, "{}", row.name);
        let (_, trace) = after_lending(&row.draft, row.events[0], &row.outcomes);
        (row.draft.edition, row.outcomes, trace)
    });
    assert_eq!([first.0, second.0, third.0], [edition::ONE, edition::TWO, edition::TWO]);
    assert_eq!((first.1.len(), second.1.len()), (0, 0));
    assert_eq!(third.1, vec![outcome::FAILED; calls(&third.2)]);
    // All run, so the trace is the same.
    assert!(first.2 == second.2 && first.2 == third.2 && calls(&first.2) > 500);
}

#[test]
fn lists_that_nothing_starts_are_in_the_rows_that_say_so_alone() {
    for Hostile { name, draft, .. } in hostile::all() {
        let Check { reason, place, .. } = herringcart::check_table(&draft.words());
        assert_eq!(reason == 10, name.ends_with("reached by none"), "{name}: reason {reason}");
        // Such a row reads all other lists first.
        let items = draft.words().len() - draft.items.len();
        assert!(reason != 10 || place == items - 1, "{name}: place {place}");
    }
}

#[test]
fn the_large_panel_is_of_every_thing_and_word() {
    let table = panels::owned(sized::sized(68)).words();
    assert_eq!(second::check(&table).reason, 0);
    let request = sized::events()[0] | 1 << 24;
    let shown = panels::behind(1, &table, request);
    let read = Table::of(&table).expect("a header");
    let things = [Section::Ports, Section::Networks, Section::Sources].map(|s| read.count(s));
    let mut lines = shown.room.clone();
    let laid = second::panel(1, &table, &shown.state, &shown.words, &mut lines);
    let count = lines[..laid.bytes].iter().filter(|&&byte| byte == b'\n').count();
    assert!(shown.words.len() > 68 && count == things.iter().sum::<usize>() + shown.words.len());
    assert_eq!(panels::behind(2, &table, request).needs(), 0);
}

#[test]
fn what_is_held_is_our_own_recording_of_a_trace_and_a_state() {
    let large = sized::sized(68).words();
    for (table, event, words) in
        [(&MARKED[..], marked_run()[0], 3), (&large, sized::events()[0], 69)]
    {
        let own = holds::own(table, event);
        assert_eq!(compare_hold(&Proved, &own), Ok(second::hold::verdict::AS_ORDERED));
        assert!(own.theirs.len() >= words && own.their_state != own.state, "{own:X?}");
        assert_eq!(own.their_state.len(), herringcart::state_words(table));
    }
}

#[test]
fn no_listing_is_longer_than_the_longest_row_s() {
    let longest = second::listing::lines(&longest()).expect("no reason from 1 to 4");
    assert_eq!((longest.len(), longest.lines().count()), (71_508, herringcart::TABLE_WORDS));
    // Nor is a line longer than the bound that the rooms are reckoned by.
    for table in (0..400).map(|number| crate::listings::drawing(3, number).table) {
        let lines = second::listing::lines(&table).unwrap_or_default();
        assert!(lines.len() <= longest.len() && lines.lines().all(|line| line.len() < 47));
    }
}

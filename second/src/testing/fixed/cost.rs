//! `cost TABLE EVENTS` of request Q-10, by what it prints, and once more as it is started.

use super::editions::{abort, edition_2};
use super::marked::MARKED;
use super::program::{bytes, file, start};
use super::*;
use crate::program::cost_files;
use crate::testing::recorded::cost;

const GO: u32 = 0x1100_0500;
const SIX: u32 = 0x1100_0600;

/// R is 2 and B 3: list 0, started by GO, has a call and a rule item on rule 1.
fn with_list() -> Vec<u32> {
    let rules = [rule(1, 0, 0, NONE), nested_only(rule(1, 1, NONE, NONE))];
    let expressions = [equal(0, 5), operator(expression::XOR, 0, 0)];
    plain(&[mode(1)], &expressions, &rules, &[list(1, 0, 2)], &[call(9), item(6, 1)])
}

#[track_caller]
fn costs(table: &[u32], events: &[u32], lines: &[&str]) {
    let lines: String = lines.iter().map(|line| format!("{line}\n")).collect();
    assert_eq!(cost(&bytes(table), &bytes(events)), lines);
}

const REQUESTED: &str = "event 0 answer 0 trace 3 visits 1\n\
                         most trace 3 event 0 bound 3\nmost visits 1 event 0 bound 508\n";
const NOTHING: &str = "most trace 0 event none bound 3\nmost visits 0 event none bound 508\n";

fixed_cases! {
    fn cost_of_the_marked_request() {
        assert_eq!(cost(&bytes(&MARKED), &bytes(&[GO])), REQUESTED);
    }

    fn cost_is_printed_for_each_event_in_turn_from_a_fresh_state() {
        costs(
            &with_list(),
            &[SIX, GO, TICK, GO],
            &[
                "event 0 answer 0 trace 0 visits 1",
                "event 1 answer 0 trace 3 visits 4",
                "event 2 answer 0 trace 0 visits 0",
                "event 3 answer 0 trace 3 visits 4",
                "most trace 3 event 1 bound 3",
                "most visits 4 event 1 bound 635",
            ],
        );
    }

    /// The marked list is triggered: the state is passed on.
    fn cost_names_the_first_of_several_events_that_have_the_most() {
        costs(
            &MARKED,
            &[SIX, GO, GO, SIX, GO],
            &[
                "event 0 answer 0 trace 0 visits 1",
                "event 1 answer 0 trace 3 visits 1",
                "event 2 answer 0 trace 0 visits 1",
                "event 3 answer 0 trace 0 visits 1",
                "event 4 answer 0 trace 3 visits 1",
                "most trace 3 event 1 bound 3",
                "most visits 1 event 0 bound 508",
            ],
        );
    }

    fn cost_where_all_events_cost_nothing_names_the_first() {
        costs(
            &MARKED,
            &[TICK, TICK],
            &[
                "event 0 answer 0 trace 0 visits 0",
                "event 1 answer 0 trace 0 visits 0",
                "most trace 0 event 0 bound 3",
                "most visits 0 event 0 bound 508",
            ],
        );
    }

    fn cost_of_a_refused_event_is_0_and_the_next_is_taken() {
        costs(
            &with_list(),
            &[0x1200_0500, GO, 0x1100_0501, 0x2100_0000, 0x9100_0000, GO],
            &[
                "event 0 answer 6 trace 0 visits 0",
                "event 1 answer 0 trace 3 visits 4",
                "event 2 answer 4 trace 0 visits 0",
                "event 3 answer 5 trace 0 visits 0",
                "event 4 answer 4 trace 0 visits 0",
                "event 5 answer 0 trace 3 visits 4",
                "most trace 3 event 1 bound 3",
                "most visits 4 event 1 bound 635",
            ],
        );
    }

    fn cost_of_refused_events_alone() {
        costs(
            &MARKED,
            &[0x1200_0500],
            &[
                "event 0 answer 6 trace 0 visits 0",
                "most trace 0 event 0 bound 3",
                "most visits 0 event 0 bound 508",
            ],
        );
    }

    fn cost_without_events_has_the_bounds_alone() {
        assert_eq!(cost(&bytes(&MARKED), &[]), NOTHING);
        assert_eq!(cost(&bytes(&MARKED), &[0x11, 0, 5]), NOTHING);
    }

    fn cost_ignores_bytes_past_the_last_whole_word() {
        let table = [bytes(&MARKED), vec![1, 2, 3]].concat();
        let events = [bytes(&[GO]), vec![0xFF]].concat();
        assert_eq!(cost(&table, &events), REQUESTED);
    }

    fn cost_of_a_bad_table_is_reason_and_place_and_nothing_else() {
        for events in [bytes(&[GO]), vec![]] {
            assert_eq!(cost(&bytes(&with(&MARKED, 6, 0)), &events), "5\n6\n");
            assert_eq!(cost(&bytes(&MARKED)[..47], &events), "4\n0\n");
            assert_eq!(cost(&[], &events), "1\n0\n");
        }
    }

    /// No outcomes are lent: every call is good.
    fn cost_of_edition_2_with_abort_is_the_same() {
        let mut table = edition_2(&with_list());
        let first_item = table.len() - 2;
        table[first_item] = abort(call(9));
        let one = cost(&bytes(&with_list()), &bytes(&[GO, SIX]));
        assert_eq!(cost(&bytes(&table), &bytes(&[GO, SIX])), one);
        assert!(one.starts_with("event 0 answer 0 trace 3 visits 4\n"));
    }

    /// 127 times 16 rules and 4,096 words.
    fn cost_bounds_are_b_and_127_times_r_and_b() {
        let rules: Vec<u32> = (0..16).map(|number| rule(1, 0, number, NONE)).collect();
        let table =
            plain(&[mode(1)], &[equal(0, 5)], &rules, &[list(1, 0, 255); 16], &[call(0); 255]);
        costs(
            &table,
            &[GO],
            &[
                "event 0 answer 0 trace 4096 visits 16",
                "most trace 4096 event 0 bound 4096",
                "most visits 16 event 0 bound 522224",
            ],
        );
    }

    fn cost_started_prints_the_same_and_leaves_with_0_for_refusals_too() {
        let (good, bad) =
            (file("cost-good", &bytes(&MARKED)), file("cost-bad", &bytes(&MARKED[..11])));
        let events = file("cost-events", &bytes(&[GO]));
        for (table, lines) in [(&good, REQUESTED), (&bad, "4\n0\n")] {
            let output = start("cost", table, &events);
            assert_eq!(String::from_utf8_lossy(&output.stdout), lines);
            assert!(output.status.success() && output.stderr.is_empty());
        }
        [good, bad, events].iter().for_each(|path| std::fs::remove_file(path).expect("it goes"));
    }

    fn cost_says_on_standard_error_what_it_cannot_read() {
        let table = file("cost-readable", &bytes(&MARKED[..11]));
        let missing = format!("{table}-missing");
        for (table, events) in [(&table, &missing), (&missing, &table)] {
            let mut lines = vec![];
            let message = cost_files(&mut lines, table, events).unwrap_err();
            assert!(message.contains(&missing) && lines.is_empty());
            let output = start("cost", table, events);
            assert!(output.stdout.is_empty() && output.status.code() == Some(2));
            assert!(String::from_utf8_lossy(&output.stderr).contains(&missing));
        }
        std::fs::remove_file(table).expect("the file goes");
    }
}

//! `play TABLE EVENTS`, by what it prints, and once more as it is started.

use super::editions::edition_2;
use super::marked::MARKED;
use super::program::{bytes, file, start};
use super::*;
use crate::program::{play_files, write_played};
use crate::testing::recorded::played;

const TRACE: &str = "trace F1000000\ntrace 41000002\ntrace 01001234\n";
const FRESH: &str = "port 0 00000000\nport 1 00000000\nrule 0 00000000\nnetwork 0 00000000\n";

/// The marked table's state after its request and what came then.
fn marked_state(port: &str, network: &str) -> String {
    format!("port 0 81400000\nport 1 {port}\nrule 0 40000000\nnetwork 0 {network}\n")
}

fn marked_request() -> String {
    format!("{TRACE}{}taken 1\nvisits 1\nanswer 0\n", marked_state("00000000", "80000000"))
}

/// Printed with B trace words and so many more lent to each call.
fn played_with(spare: usize, table: &[u32], events: &[u32]) -> String {
    let mut lines = vec![];
    write_played(&mut lines, &bytes(table), &bytes(events), spare).expect("memory takes it");
    String::from_utf8(lines).expect("text")
}

fixed_cases! {
    fn played_marked_request_prints_trace_state_taken_visits_and_answer() {
        assert_eq!(played(&bytes(&MARKED), &bytes(&[0x1100_0500])), marked_request());
    }

    fn played_started_prints_the_same() {
        let (table, events) =
            (file("day-table", &bytes(&MARKED)), file("day", &bytes(&[0x1100_0500])));
        let output = start("play", &table, &events);
        std::fs::remove_file(table).and(std::fs::remove_file(events)).expect("the files go");
        assert_eq!(String::from_utf8_lossy(&output.stdout), marked_request());
        assert!(output.status.success() && output.stderr.is_empty());
    }

    fn played_marked_run_prints_the_state_once_and_last() {
        let events = [0x1100_0500, 0, 0x5100_0000, 0, 0, 0, 0, 0, 0, 0, 0];
        let state = marked_state("80800000", "98000000");
        let lines = format!("{TRACE}{state}taken 11\nvisits 1\nanswer 0\n");
        assert_eq!(played(&bytes(&MARKED), &bytes(&events)), lines);
    }

    fn played_trace_is_printed_in_the_order_of_the_events() {
        // Requests of 5 and 6 turn the marked rule, whose list is triggered: two runs of three.
        let events = [0x1100_0500, 0x1100_0600, 0, 0x1100_0500, 0x1100_0500];
        let state = marked_state("80800000", "90000005");
        let lines = format!("{TRACE}{TRACE}{state}taken 5\nvisits 4\nanswer 0\n");
        assert_eq!(played(&bytes(&MARKED), &bytes(&events)), lines);
    }

    /// Ports, rules, networks and sources, each counted from 0, in decimal.
    fn played_state_is_labelled_by_section() {
        let table = table(
            &[deferred(mode(1)), deferred(mode(2)), deferred(mode(1)), deferred(mode(2)), mode(0)],
            &[network(1, 0), network(2, 1)],
            &[source(1, 2, 9), source(2, 3, 0)],
            &[equal(4, 5)],
            &[rule(0, 0, NONE, NONE), first_result(2, rule(0, 0, NONE, NONE))],
            &[],
            &[],
        );
        let events = [send(WAKEUP, 1, 0), send(WAKEUP, 2, 1), request(0, 4, 5), TICK];
        let lines = "port 0 00000000\nport 1 00000000\nport 2 80400000\nport 3 80800000\n\
                     port 4 81400000\nrule 0 40000000\nrule 1 40000000\nnetwork 0 00000000\n\
                     network 1 00000000\nsource 0 40000008\nsource 1 80000000\n\
                     taken 4\nvisits 2\nanswer 0\n";
        assert_eq!(played(&bytes(&table), &bytes(&events)), lines);
    }

    fn played_numbers_are_decimal_and_words_are_hex() {
        let table = plain(&[initial(1, 11); 12], &[equal(0, 5)], &[rule(1, 0, NONE, NONE)], &[], &[]);
        let lines = played(&bytes(&table), &bytes(&[TICK; 17]));
        let ports: String = (0..12).map(|number| format!("port {number} 82C00000\n")).collect();
        assert_eq!(lines, format!("{ports}rule 0 00000000\ntaken 17\nvisits 0\nanswer 0\n"));
    }

    fn played_without_events_prints_the_fresh_state() {
        let lines = format!("{FRESH}taken 0\nvisits 0\nanswer 0\n");
        assert_eq!(played(&bytes(&MARKED), &[]), lines);
        assert_eq!(played(&bytes(&MARKED), &[0x11, 0, 5]), lines);
    }

    fn played_ignores_bytes_past_the_last_whole_word() {
        let table = [bytes(&MARKED), vec![1, 2, 3]].concat();
        let events = [bytes(&[0x1100_0500]), vec![0xFF]].concat();
        assert_eq!(played(&table, &events), marked_request());
    }

    fn played_bad_table_prints_reason_and_place_and_nothing_else() {
        for events in [bytes(&[0x1100_0500]), vec![]] {
            assert_eq!(played(&bytes(&with(&MARKED, 6, 0)), &events), "5\n6\n");
            assert_eq!(played(&bytes(&with(&MARKED, 11, 0xF000_0000)), &events), "5\n11\n");
            assert_eq!(played(&bytes(&MARKED)[..47], &events), "4\n0\n");
            assert_eq!(played(&[], &events), "1\n0\n");
        }
    }

    fn played_refused_event_prints_its_answer_and_ends_the_day() {
        let state = marked_state("00000000", "80000000");
        for (event, answer) in [(0x2100_0500, 4), (0x2100_0000, 5), (0x1200_0500, 6)] {
            let lines = format!("{TRACE}{state}taken 1\nvisits 1\nanswer {answer}\n");
            let events = [0x1100_0500, event, 0, 0x5100_0000];
            assert_eq!(played(&bytes(&MARKED), &bytes(&events)), lines);
            let lines = format!("{FRESH}taken 0\nvisits 0\nanswer {answer}\n");
            assert_eq!(played(&bytes(&MARKED), &bytes(&[event, 0x1100_0500])), lines);
        }
    }

    fn played_is_the_same_however_often_it_is_resumed() {
        let turns = [0x1100_0500, 0x1100_0600, 0, 0x1100_0500, 0x1100_0700, 0x1100_0500];
        let state = "port 0 81400000\nport 1 80800000\nrule 0 40000000\nnetwork 0 90000005\n";
        let done = format!("{TRACE}{TRACE}{TRACE}{state}taken 6\nvisits 5\nanswer 0\n");
        let refused = format!("{TRACE}{TRACE}{TRACE}{state}taken 6\nvisits 5\nanswer 6\n");
        let stopped = [&turns[..], &[0x1200_0500, 0]].concat();
        assert_eq!(played(&bytes(&MARKED), &bytes(&turns)), done);
        assert_eq!(played(&bytes(&MARKED), &bytes(&stopped)), refused);
        for spare in 0..10 {
            assert_eq!(played_with(spare, &MARKED, &turns), done);
            assert_eq!(played_with(spare, &MARKED, &stopped), refused);
        }
    }

    fn played_edition_2_with_abort_prints_the_same_for_all_calls_are_good() {
        let table = with(&edition_2(&MARKED), 11, 0x0800_1234);
        assert_eq!(played(&bytes(&table), &bytes(&[0x1100_0500])), marked_request());
        // The call before the request, which runs behind it all the same.
        let table = with(&with(&edition_2(&MARKED), 10, 0x0800_1234), 11, 0x4000_0002);
        let lines = played(&bytes(&table), &bytes(&[0x1100_0500]));
        assert!(lines.starts_with("trace F1000000\ntrace 01001234\ntrace 41000002\n"));
        assert_eq!(played(&bytes(&with(&table, 0, 0x0302_0100)), &[]), "2\n0\n");
    }

    /// More trace words than one call is lent: 20 times 4,096.
    fn played_is_resumed_at_trace_full_and_so_never_prints_3() {
        let lists = [list(0, 0, 255); 16];
        let rules: Vec<u32> = (0..16).map(|number| rule(0, 0, number, NONE)).collect();
        let table = plain(&[mode(0)], &[equal(0, 5)], &rules, &lists, &[call(0); 255]);
        let lines = played(&bytes(&table), &bytes(&[0x1000_0500; 20]));
        let trace = lines.lines().take_while(|line| line.starts_with("trace ")).count();
        assert_eq!(trace, 20 * 4096);
        assert_eq!(lines.lines().nth(trace), Some("port 0 81400000"));
        assert_eq!(lines.lines().count(), trace + 17 + 3);
        assert!(lines.ends_with("rule 15 40000000\ntaken 20\nvisits 320\nanswer 0\n"));
    }

    /// B is 0: nothing is lent but what is spare.
    fn played_without_lists_prints_no_trace() {
        let table = plain(&[mode(1)], &[equal(0, 5)], &[rule(1, 0, NONE, NONE)], &[], &[]);
        let events = [0x1100_0500, 0, 0x1100_0500];
        let lines = "port 0 81400000\nrule 0 40000000\ntaken 3\nvisits 2\nanswer 0\n";
        assert_eq!(played(&bytes(&table), &bytes(&events)), lines);
        assert_eq!(played_with(0, &table, &events), lines);
    }

    fn played_leaves_with_0_for_refusals_too() {
        let (good, bad) =
            (file("day-good", &bytes(&MARKED)), file("day-bad", &bytes(&MARKED[..11])));
        let events = file("day-refused", &bytes(&[0x1200_0500]));
        let refused = format!("{FRESH}taken 0\nvisits 0\nanswer 6\n");
        for (table, lines) in [(&good, &refused[..]), (&bad, "4\n0\n")] {
            let output = start("play", table, &events);
            assert_eq!(String::from_utf8_lossy(&output.stdout), lines);
            assert!(output.status.success() && output.stderr.is_empty());
        }
        [good, bad, events].iter().for_each(|path| std::fs::remove_file(path).expect("it goes"));
    }

    fn played_says_on_standard_error_what_it_cannot_read() {
        let table = file("day-readable", &bytes(&MARKED[..11]));
        let missing = format!("{table}-missing");
        for (table, events) in [(&table, &missing), (&missing, &table)] {
            let mut lines = vec![];
            let message = play_files(&mut lines, table, events).unwrap_err();
            assert!(message.contains(&missing) && lines.is_empty());
            let output = start("play", table, events);
            assert!(output.stdout.is_empty() && output.status.code() == Some(2));
            assert!(String::from_utf8_lossy(&output.stderr).contains(&missing));
        }
        std::fs::remove_file(table).expect("the file goes");
    }
}

//! `panel OPERATOR TABLE EVENTS [--follow]` of request Q-13, by what it prints, and once more as it
//! is started.

use std::process::{Command, Stdio};

use super::editions::{abort, edition_2};
use super::marked::MARKED;
use super::panel::{joined, works};
use super::program::{bytes, file, start_with};
use super::*;
use crate::program::operator;
use crate::testing::recorded::panel_run;

const GO: u32 = 0x1100_0500;
const SIX: u32 = 0x1100_0600;
/// Refused by 6, 5 and 4.
const STRANGERS: u32 = 0x1200_0500;
const ABSENT: u32 = 0x2100_0000;
const MALFORMED: u32 = 0x2100_0500;

const FRESH: [&str; 3] = ["port 0 00000000", "port 1 00000000", "network 0 00000000"];
const REQUESTED: [&str; 3] = ["port 0 81400000", "port 1 00000000", "network 0 80000000"];
const TICKED: [&str; 3] = ["port 0 81400000", "port 1 80800000", "network 0 90000005"];
const TRACE: [&str; 3] = ["trace F1000000", "trace 41000002", "trace 01001234"];

/// Conditional lists: one of operator 1's on its own port 0, one of operator 7's on the platform's
/// port 1. Operator 7 owns nothing else.
fn conditional() -> Vec<u32> {
    let rules = [rule(1, 0, 0, NONE), rule(7, 1, 1, NONE)];
    let lists = [list(1, 0, 1), list(7, 1, 1)];
    plain(&[mode(1), mode(0)], &[equal(0, 5), equal(1, 5)], &rules, &lists, &[call(9), call(10)])
}

#[track_caller]
fn prints(operator: u32, table: &[u32], events: &[u32], parts: &[&[&str]]) {
    let printed = panel_run(operator, &bytes(table), &bytes(events), false);
    assert_eq!(printed, Ok(joined(&parts.concat())));
}

#[track_caller]
fn follows(operator: u32, table: &[u32], events: &[u32], parts: &[&[&str]]) {
    let printed = panel_run(operator, &bytes(table), &bytes(events), true);
    assert_eq!(printed, Ok(joined(&parts.concat())));
}

fixed_cases! {
    fn panel_run_of_the_marked_runs_first_event() {
        prints(1, &MARKED, &[GO], &[&REQUESTED, &TRACE]);
        prints(1, &edition_2(&MARKED), &[GO], &[&REQUESTED, &TRACE]);
    }

    fn panel_run_without_events_is_the_fresh_states() {
        prints(1, &MARKED, &[], &[&FRESH]);
        assert_eq!(panel_run(1, &bytes(&MARKED), &[0x11, 0, 5], false), Ok(joined(&FRESH)));
        let initials = plain(&[initial(1, 9), event(1)], &[set(1)], &[rule(1, 0, NONE, NONE)], &[], &[]);
        prints(1, &initials, &[], &[&["port 0 82400000", "port 1 80000000"]]);
    }

    fn panel_run_is_printed_once_and_after_the_last_event() {
        prints(1, &MARKED, &[GO, TICK], &[&TICKED]);
        prints(1, &MARKED, &[SIX, TICK, GO], &[&REQUESTED, &TRACE]);
        let bus_off = ["port 0 81400000", "port 1 C0C00000", "network 0 A0080003"];
        prints(1, &MARKED, &[GO, TICK, 0x5100_0000], &[&bus_off]);
    }

    /// The first request's words are not the newest step's.
    fn panel_run_has_the_words_of_the_last_events_own_step_alone() {
        prints(1, &MARKED, &[GO, GO], &[&REQUESTED]);
        prints(1, &MARKED, &[GO, SIX, GO], &[&REQUESTED, &TRACE]);
        let own = ["port 0 81400000", "trace F1000000", "trace 01000009"];
        prints(1, &conditional(), &[GO, GO, GO], &[&own]);
    }

    fn panel_run_after_a_refused_event_has_no_words() {
        for refused in [STRANGERS, ABSENT, MALFORMED] {
            prints(1, &MARKED, &[GO, refused], &[&REQUESTED]);
            prints(1, &MARKED, &[refused], &[&FRESH]);
            prints(1, &MARKED, &[GO, refused, refused], &[&REQUESTED]);
        }
    }

    fn panel_run_takes_the_event_behind_a_refused_one() {
        prints(1, &MARKED, &[STRANGERS, GO], &[&REQUESTED, &TRACE]);
        prints(1, &MARKED, &[GO, MALFORMED, TICK], &[&TICKED]);
    }

    fn panel_run_of_another_operator_or_of_one_without_things() {
        prints(2, &MARKED, &[GO], &[]);
        prints(15, &MARKED, &[], &[]);
        prints(7, &conditional(), &[request(0, 1, 5)], &[&["trace F7010000", "trace 0700000A"]]);
        prints(1, &conditional(), &[request(0, 1, 5)], &[&["port 0 00000000"]]);
        prints(2, &works(), &[send(WAKEUP, 2, 1)], &[&[
            "port 2 00000000",
            "port 5 80000000",
            "port 8 C0800000",
            "network 0 00000000",
            "source 1 80000000",
        ]]);
    }

    /// No outcomes are lent: a call with abort goes on.
    fn panel_run_of_edition_2_lends_no_outcomes() {
        let first = with(&with(&edition_2(&MARKED), 10, abort(0x1234)), 11, 0x4000_0002);
        let trace = ["trace F1000000", "trace 01001234", "trace 41000002"];
        prints(1, &first, &[GO], &[&REQUESTED, &trace]);
    }

    fn panel_run_ignores_bytes_past_the_last_whole_word() {
        let table = [bytes(&MARKED), vec![1, 2, 3]].concat();
        let events = [bytes(&[GO]), vec![0xFF]].concat();
        let six = [REQUESTED, TRACE].concat();
        assert_eq!(panel_run(1, &table, &events, false), Ok(joined(&six)));
        let followed = [&["event 0"][..], &six].concat();
        assert_eq!(panel_run(1, &table, &events, true), Ok(joined(&followed)));
    }

    fn panel_run_refuses_the_number_and_then_the_table() {
        let (good, bad) = (bytes(&MARKED), bytes(&MARKED[..11]));
        for follow in [false, true] {
            for number in [0, 16, 17, 0x1000_0001, u32::MAX] {
                assert_eq!(panel_run(number, &good, &bytes(&[GO]), follow), Err(9));
                assert_eq!(panel_run(number, &bad, &bytes(&[GO]), follow), Err(9));
            }
            for operator in [1, 9, 15] {
                assert_eq!(panel_run(operator, &bad, &bytes(&[GO]), follow), Err(1));
                assert_eq!(panel_run(operator, &bad, &[], follow), Err(1));
                assert_eq!(panel_run(operator, &[], &[], follow), Err(1));
            }
        }
    }

    fn follow_prints_the_panel_after_each_event_that_changed_it_with_its_number_from_0() {
        let bus_off = ["port 0 81400000", "port 1 C0C00000", "network 0 A0080003"];
        let expected: [&[&str]; 7] =
            [&["event 0"], &REQUESTED, &TRACE, &["event 1"], &TICKED, &["event 2"], &bus_off];
        follows(1, &MARKED, &[GO, TICK, 0x5100_0000], &expected);
        follows(1, &edition_2(&MARKED), &[GO, TICK, 0x5100_0000], &expected);
    }

    fn follow_prints_nothing_for_an_event_that_changed_nothing() {
        // A fresh state's ticks do nothing; nor does the value there is already, in the end.
        follows(1, &MARKED, &[TICK, TICK], &[]);
        follows(1, &MARKED, &[TICK, TICK, GO], &[&["event 2"], &REQUESTED, &TRACE]);
        let twice: [&[&str]; 5] = [&["event 0"], &REQUESTED, &TRACE, &["event 1"], &REQUESTED];
        follows(1, &MARKED, &[GO, GO, GO, GO], &twice);
    }

    fn follow_without_events_prints_nothing() {
        follows(1, &MARKED, &[], &[]);
        assert_eq!(panel_run(1, &bytes(&MARKED), &[0x11, 0, 5], true), Ok(String::new()));
    }

    /// The state's words are the same before and after.
    fn follow_takes_trace_lines_that_vanish_for_a_change() {
        let vanished: [&[&str]; 5] = [&["event 0"], &REQUESTED, &TRACE, &["event 1"], &REQUESTED];
        follows(1, &MARKED, &[GO, GO], &vanished);
        // A refused event's step wrote none.
        for refused in [STRANGERS, ABSENT, MALFORMED] {
            follows(1, &MARKED, &[GO, refused], &vanished);
            follows(1, &MARKED, &[GO, refused, refused, STRANGERS], &vanished);
        }
    }

    /// The list is conditional: each request writes the same words.
    fn follow_prints_nothing_where_an_event_wrote_the_words_of_the_one_before() {
        let once: [&[&str]; 1] = [&["event 0", "port 0 81400000", "trace F1000000", "trace 01000009"]];
        follows(1, &conditional(), &[GO, GO, GO], &once);
        let again: [&[&str]; 3] = [
            once[0],
            &["event 2", "port 0 81400000"],
            &["event 3", "port 0 81400000", "trace F1000000", "trace 01000009"],
        ];
        follows(1, &conditional(), &[GO, GO, TICK, GO], &again);
    }

    fn follow_counts_refused_events_in_the_numbers_and_prints_nothing_for_them() {
        follows(1, &MARKED, &[STRANGERS, ABSENT, MALFORMED], &[]);
        let later: [&[&str]; 3] = [&["event 3"], &REQUESTED, &TRACE];
        follows(1, &MARKED, &[STRANGERS, ABSENT, MALFORMED, GO], &later);
        let twelfth = [vec![STRANGERS; 11], vec![GO]].concat();
        follows(1, &MARKED, &twelfth, &[&["event 11"], &REQUESTED, &TRACE]);
    }

    /// Operator 1's port is written, then the platform's; each sees its own change alone.
    fn follow_prints_nothing_for_what_strangers_and_the_platform_change() {
        let events = [GO, request(0, 1, 5), request(0, 1, 5), request(0, 1, 6)];
        let own: [&[&str]; 2] = [
            &["event 0", "port 0 81400000", "trace F1000000", "trace 01000009"],
            &["event 1", "port 0 81400000"],
        ];
        follows(1, &conditional(), &events, &own);
        follows(2, &conditional(), &events, &[]);
    }

    /// Rule words change at the first request, and are not shown.
    fn follow_prints_nothing_where_a_rules_word_alone_changes() {
        let rules = [rule(1, 0, NONE, NONE)];
        let table = plain(&[mode(0), mode(1)], &[equal(0, 5)], &rules, &[], &[]);
        follows(1, &table, &[request(0, 0, 5), request(0, 0, 6)], &[]);
    }

    /// Operator 7 owns a list and nothing else.
    fn follow_prints_the_event_alone_where_the_panel_has_become_empty() {
        let events = [GO, request(0, 1, 5), TICK, TICK, request(0, 1, 5)];
        let lines: [&[&str]; 3] = [
            &["event 1", "trace F7010000", "trace 0700000A"],
            &["event 2"],
            &["event 4", "trace F7010000", "trace 0700000A"],
        ];
        follows(7, &conditional(), &events, &lines);
    }

    /// A countdown changes the panel at each tick, and the source's port at the last.
    fn follow_prints_each_tick_of_a_countdown() {
        let ports = [deferred(mode(1)), mode(0)];
        let rules = [rule(0, 0, NONE, NONE)];
        let table = table(&ports, &[], &[source(1, 0, 3)], &[equal(1, 5)], &rules, &[], &[]);
        let lines = [
            "event 0",
            "port 0 C0400000",
            "source 0 40000003",
            "event 1",
            "port 0 80400000",
            "source 0 40000002",
            "event 2",
            "port 0 80400000",
            "source 0 40000001",
            "event 3",
            "port 0 80C00000",
            "source 0 C0000000",
        ];
        follows(1, &table, &[send(WAKEUP, 1, 0), TICK, TICK, TICK, TICK], &[&lines]);
    }

    fn panel_number_is_decimal_digits_however_many() {
        for (word, number) in [("1", 1), ("0", 0), ("15", 15), ("0015", 15), ("16", 16), ("017", 17)] {
            assert_eq!(operator(word), Some(number));
        }
        for above in ["4294967295", "4294967296", "4294967297", "18446744073709551617", "99999999999999999999999999999999"] {
            assert!(operator(above).is_some_and(|number| number > 15));
        }
        assert_eq!(operator(&format!("{}1", "0".repeat(50))), Some(1));
        for word in ["", "+1", "-1", " 1", "1 ", "0x1", "1.0", "one", "F", "\u{661}", "1_0"] {
            assert_eq!(operator(word), None);
        }
    }

    fn panel_started_prints_the_same_wherever_its_option_stands() {
        let (table, events) = (file("panel", &bytes(&MARKED)), file("panel-e", &bytes(&[GO])));
        let six = joined(&[REQUESTED, TRACE].concat());
        let followed = format!("event 0\n{six}");
        let (t, e) = (&table[..], &events[..]);
        for (words, lines) in [
            (vec!["panel", "1", t, e], &six),
            (vec!["panel", "0000000000001", t, e], &six),
            (vec!["panel", "1", t, e, "--follow"], &followed),
            (vec!["panel", "1", t, "--follow", e], &followed),
            (vec!["panel", "1", "--follow", t, e], &followed),
            (vec!["panel", "--follow", "1", t, e], &followed),
        ] {
            let output = start_with(&words);
            assert_eq!(&String::from_utf8_lossy(&output.stdout), lines);
            assert!(output.status.success() && output.stderr.is_empty());
        }
        [table, events].iter().for_each(|path| std::fs::remove_file(path).expect("it goes"));
    }

    fn panel_started_leaves_with_1_for_a_refused_number_or_table() {
        let (good, bad) = (file("panel-good", &bytes(&MARKED)), file("panel-bad", &bytes(&MARKED[..11])));
        let events = file("panel-events", &bytes(&[GO]));
        for (number, table) in [("0", &good), ("16", &good), ("17", &good), ("18446744073709551617", &good), ("0", &bad), ("1", &bad)] {
            for follow in [&["--follow"][..], &[]] {
                let output = start_with(&[&["panel", number, table, &events], follow].concat());
                assert!(output.stdout.is_empty() && !output.stderr.is_empty());
                assert_eq!(output.status.code(), Some(1));
            }
        }
        [good, bad, events].iter().for_each(|path| std::fs::remove_file(path).expect("it goes"));
    }

    fn panel_started_leaves_with_2_for_other_words_and_files_it_cannot_read() {
        let path = file("panel-readable", &bytes(&MARKED));
        let (here, missing) = (&path[..], &format!("{path}-missing")[..]);
        for words in [
            &["panel", "x", here, here][..],
            &["panel", "", here, here],
            &["panel", "-1", here, here],
            &["panel", "+1", here, here],
            &["panel", "1", here],
            &["panel", "1", here, "--follow"],
            &["panel", "1", here, here, here],
            &["panel"],
            &["panel", "1", here, missing],
            &["panel", "1", missing, here],
            &["panel", "1", here, missing, "--follow"],
        ] {
            let output = start_with(words);
            assert!(output.stdout.is_empty() && !output.stderr.is_empty());
            assert_eq!(output.status.code(), Some(2), "{words:?}");
            let unread = words.contains(&missing);
            assert!(!unread || String::from_utf8_lossy(&output.stderr).contains(missing));
        }
        std::fs::remove_file(path).expect("the file goes");
    }

    fn panel_started_ends_quietly_where_its_pipe_is_closed() {
        // Far more than a pipe holds.
        let (table, events) =
            (file("panel-piped", &bytes(&MARKED)), file("panel-many", &bytes(&[GO, SIX].repeat(9000))));
        let program = std::env::current_exe().expect("the program's own path");
        let mut started = Command::new(program)
            .args(["panel", "1", &table, &events, "--follow"])
            .stdout(Stdio::piped())
            .stderr(Stdio::piped())
            .spawn()
            .expect("the program starts");
        drop(started.stdout.take());
        let output = started.wait_with_output().expect("it ends");
        assert!(output.status.success() && output.stderr.is_empty());
        [table, events].iter().for_each(|path| std::fs::remove_file(path).expect("it goes"));
    }
}

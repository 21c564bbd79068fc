//! `hold TABLE EVENTS LOG [--all]` of request Q-7, by what it tells, and once more as it is started.

use super::editions::{abort, edition_2};
use super::marked::MARKED;
use super::program::{bytes, file, start_with};
use super::*;
use crate::program::hold_files;
use crate::testing::recorded::{hold_run, printed};

const GO: u32 = 0x1100_0500;
const SIX: u32 = 0x1100_0600;
const STRANGERS: u32 = 0x1200_0500;
const ABSENT: u32 = 0x2100_0000;
const MALFORMED: u32 = 0x2100_0500;

/// What document 01's program prints for the marked request, and for a tick behind it.
const REQUESTED: [&str; 8] =
    ["0", "81400000", "00000000", "40000000", "80000000", "F1000000", "41000002", "01001234"];
const TICKED: [&str; 5] = ["0", "81400000", "80800000", "40000000", "90000005"];
/// A refused event's, from the fresh state.
const REFUSED: [&str; 5] = ["6", "00000000", "00000000", "00000000", "00000000"];

fn text(lines: &[&str]) -> String {
    lines.iter().map(|line| format!("{line}\n")).collect()
}

/// A row of lines with one in another's place.
fn but<'a>(lines: &[&'a str], place: usize, line: &'a str) -> Vec<&'a str> {
    let mut lines = lines.to_vec();
    lines[place] = line;
    lines
}

/// What is printed of a log, without trouble.
#[track_caller]
fn prints(events: &[u32], log: &[&str], all: bool, lines: &[&str], status: u8) {
    let told = hold_run(&bytes(&MARKED), &bytes(events), text(log).as_bytes(), all);
    assert_eq!((told.printed, told.trouble), (text(lines), None));
    assert_eq!(told.status, status);
}

#[track_caller]
fn accepts(events: &[u32], log: &[&str]) {
    let last = format!("{} events: all as our tables order", events.len());
    prints(events, log, false, &[&last], 0);
    prints(events, log, true, &[&last], 0);
}

/// A log that ends at its first event that is not as ordered.
#[track_caller]
fn finds(events: &[u32], log: &[&str], lines: &[&str]) {
    prints(events, log, false, lines, 1);
}

/// What is wrong with a log's bytes, and what was printed before; likewise where all are wanted.
#[track_caller]
fn troubles(events: &[u32], log: &str, line: usize, what: &str, before: &[&str]) {
    for all in [false, true] {
        let told = hold_run(&bytes(&MARKED), &bytes(events), log.as_bytes(), all);
        let trouble = format!("herringcart: line {line} of the log: {what}");
        assert_eq!((told.printed, told.trouble, told.status), (text(before), Some(trouble), 1));
    }
}

const MISSPELT: &str = "no answer, and no word";

/// Neither an answer nor a word; each has its newline but the last three.
const NO_LINES: [&str; 26] = [
    "\n",
    " \n",
    "0 \n",
    " 0\n",
    "00\n",
    "10\n",
    "a\n",
    "A\n",
    "-\n",
    "0\r\n",
    "8140000\n",
    "814000000\n",
    "8140000g\n",
    "8140000a\n",
    "abcdef00\n",
    "0x814000\n",
    "81400000 \n",
    " 81400000\n",
    "81400000\r\n",
    "8140 000\n",
    "+1400000\n",
    "\u{661}\n",
    "F1000000F1000000\n",
    "0",
    "81400000",
    "814",
];

fixed_cases! {
    fn hold_run_accepts_the_marked_requests_eight_lines() {
        accepts(&[GO], &REQUESTED);
        accepts(&[GO, TICK], &[&REQUESTED[..], &TICKED].concat());
    }

    /// The whole marked run with its refusals, as our own program prints it.
    fn hold_run_accepts_the_marked_runs_own_print() {
        let ticks = [TICK; 8];
        let events = [&[GO, TICK, 0x5100_0000][..], &ticks, &[MALFORMED, ABSENT, STRANGERS, GO, SIX, GO]].concat();
        let log = printed(&bytes(&MARKED), &bytes(&events));
        accepts(&events, &log.lines().collect::<Vec<&str>>());
    }

    fn hold_run_accepts_a_refusal_with_the_unchanged_state() {
        accepts(&[STRANGERS], &REFUSED);
        accepts(&[MALFORMED], &but(&REFUSED, 0, "4"));
        accepts(&[ABSENT], &but(&REFUSED, 0, "5"));
        let after = ["6", "81400000", "00000000", "40000000", "80000000"];
        accepts(&[GO, STRANGERS, TICK], &[&REQUESTED[..], &after, &TICKED].concat());
    }

    fn hold_run_of_no_events_and_an_empty_log() {
        accepts(&[], &[]);
        let told = hold_run(&bytes(&MARKED), &[0x11, 0, 5], &[], false);
        assert_eq!((&told.printed[..], told.status), ("0 events: all as our tables order\n", 0));
    }

    fn hold_run_ignores_bytes_past_the_last_whole_word() {
        let table = [bytes(&MARKED), vec![1, 2, 3]].concat();
        let events = [bytes(&[GO]), vec![0x11]].concat();
        let told = hold_run(&table, &events, text(&REQUESTED).as_bytes(), false);
        assert_eq!((&told.printed[..], told.trouble, told.status), ("1 events: all as our tables order\n", None, 0));
    }

    fn hold_run_where_answers_part() {
        let ours = ["event 0 11000500", "answers part", "ours 0", "ours F1000000", "ours 41000002", "ours 01001234"];
        finds(&[GO], &REFUSED, &[&ours[..], &["supplier 6"]].concat());
        // Before the traces and states, be they ours or not.
        let own = ["supplier 1", "supplier F1000000", "supplier 41000002", "supplier 01001234"];
        finds(&[GO], &but(&REQUESTED, 0, "1"), &[&ours[..], &own].concat());
        finds(&[GO], &["9", "81400000", "0000000A", "00000000", "0000000F", "0BADF00D"], &[&ours[..], &["supplier 9", "supplier 0BADF00D"]].concat());
        // We refuse, and the supplier does not or by another answer.
        let done = ["event 0 12000500", "answers part", "ours 6", "supplier 0", "supplier F1000000", "supplier 41000002", "supplier 01001234"];
        finds(&[STRANGERS], &REQUESTED, &done);
        finds(&[STRANGERS], &but(&REFUSED, 0, "5"), &["event 0 12000500", "answers part", "ours 6", "supplier 5"]);
        for answer in ["1", "2", "3", "4", "5", "7", "8", "9"] {
            let suppliers = format!("supplier {answer}");
            finds(&[STRANGERS], &but(&REFUSED, 0, answer), &["event 0 12000500", "answers part", "ours 6", &suppliers]);
        }
    }

    fn hold_run_where_traces_part() {
        let ours = ["ours F1000000", "ours 41000002", "ours 01001234"];
        let suppliers = ["supplier F1000000", "supplier 41000002", "supplier 01001234"];
        for word in 0..3 {
            let told = format!("traces part at word {word}");
            let part = but(&suppliers, word, "supplier 00000ABC");
            let lines = [&["event 0 11000500", &told], &ours[word..], &part[word..]].concat();
            finds(&[GO], &but(&REQUESTED, 5 + word, "00000ABC"), &lines);
        }
        // A shorter and a longer one that differ; the states are not looked at.
        let log = [&but(&REQUESTED, 4, "00000000")[..5], &["01001234"]].concat();
        let part = ["event 0 11000500", "traces part at word 0"];
        finds(&[GO], &log, &[&part[..], &ours, &["supplier 01001234"]].concat());
    }

    fn hold_run_where_the_suppliers_trace_stops() {
        let ours = ["ours F1000000", "ours 41000002", "ours 01001234"];
        for word in 0..3 {
            let told = format!("the supplier's trace stops at word {word}");
            finds(&[GO], &REQUESTED[..5 + word], &[&["event 0 11000500", &told], &ours[word..]].concat());
        }
    }

    fn hold_run_where_the_suppliers_trace_goes_on() {
        let log = [&REQUESTED[..], &["01001234", "F1000000"]].concat();
        let lines = ["event 0 11000500", "the supplier's trace goes on at word 3", "supplier 01001234", "supplier F1000000"];
        finds(&[GO], &log, &lines);
        // Behind a step that wrote none, and behind a refusal.
        let log = [&REQUESTED[..], &TICKED, &["00000000"]].concat();
        let lines = ["event 1 00000000", "the supplier's trace goes on at word 0", "supplier 00000000"];
        finds(&[GO, TICK], &log, &lines);
        let log = [&REFUSED[..], &["F1000000"]].concat();
        let lines = ["event 0 12000500", "the supplier's trace goes on at word 0", "supplier F1000000"];
        finds(&[STRANGERS], &log, &lines);
    }

    fn hold_run_where_states_part() {
        let words = ["81400000", "00000000", "40000000", "80000000"];
        for word in 0..4 {
            let told = format!("states part at word {word}");
            let ours: Vec<String> = words[word..].iter().map(|word| format!("ours {word}")).collect();
            let theirs = but(&words, word, "12345678");
            let suppliers: Vec<String> = theirs[word..].iter().map(|word| format!("supplier {word}")).collect();
            let both: Vec<&str> = ours.iter().chain(&suppliers).map(String::as_str).collect();
            let lines = [&["event 0 11000500", &told], &both[..]].concat();
            finds(&[GO], &but(&REQUESTED, 1 + word, "12345678"), &lines);
        }
        // A refusal changes nothing.
        let lines = [
            "event 0 12000500", "states part at word 2", "ours 00000000", "ours 00000000",
            "supplier 40000000", "supplier 00000000",
        ];
        finds(&[STRANGERS], &but(&REFUSED, 3, "40000000"), &lines);
    }

    /// The state is all of a recording's words where there are fewer; its trace is then empty.
    fn hold_run_of_a_recording_with_fewer_words_than_a_state() {
        let tick = ["0", "00000000", "00000000", "00000000", "00000000"];
        for length in 0..4 {
            let log = [&tick[..1 + length], &tick].concat();
            let told = format!("states part at word {length}");
            let ours = vec!["ours 00000000"; 4 - length];
            finds(&[TICK, TICK], &log, &[&["event 0 00000000", &told], &ours[..]].concat());
        }
        let log = [&["0", "00000001"], &tick[..]].concat();
        let ours = ["ours 00000000"; 4];
        let lines = [&["event 0 00000000", "states part at word 0"], &ours[..], &["supplier 00000001"]].concat();
        finds(&[TICK, TICK], &log, &lines);
        // Where we wrote, the empty trace comes first.
        let lines = ["event 0 11000500", "the supplier's trace stops at word 0", "ours F1000000", "ours 41000002", "ours 01001234"];
        finds(&[GO, TICK], &[&REQUESTED[..4], &TICKED].concat(), &lines);
        finds(&[GO, TICK], &[&REQUESTED[..1], &TICKED].concat(), &lines);
    }

    fn hold_run_ends_at_the_first_event_that_is_not_as_ordered() {
        // What comes behind it is not read: misspelt, missing, or going on.
        let lines = ["event 1 00000000", "states part at word 3", "ours 90000005", "supplier 90000004"];
        let start = [&REQUESTED[..], &but(&TICKED, 4, "90000004")].concat();
        for behind in [&[][..], &["0", "x"], &["0"], &["0", "0", "0", "0"]] {
            finds(&[GO, TICK, TICK], &[&start[..], behind].concat(), &lines);
        }
        finds(&[GO, TICK], &[&start[..], &["0"]].concat(), &lines);
    }

    fn hold_run_counts_events_from_0_and_refused_ones_too() {
        let log = [&REFUSED.repeat(11)[..], &REQUESTED[..7]].concat();
        let events = [&[STRANGERS; 11][..], &[GO]].concat();
        finds(&events, &log, &["event 11 11000500", "the supplier's trace stops at word 2", "ours 01001234"]);
    }

    fn hold_run_of_all_goes_on_from_the_suppliers_state() {
        // It asked the network for nothing: a tick from there leaves it in none.
        let log = [&but(&REQUESTED, 4, "00000000")[..], &["0", "81400000", "00000000", "40000000", "00000000"]].concat();
        let parted = ["event 0 11000500", "states part at word 3", "ours 80000000", "supplier 00000000"];
        let last = ["2 events: 1 not as our tables order"];
        prints(&[GO, TICK], &log, true, &[&parted[..], &last].concat(), 1);
        finds(&[GO, TICK], &log, &parted);
        // From its rule's word the list runs once more.
        let log = [&but(&REQUESTED, 3, "00000000")[..], &REQUESTED].concat();
        let parted = ["event 0 11000500", "states part at word 2", "ours 40000000", "ours 80000000", "supplier 00000000", "supplier 80000000"];
        prints(&[GO, GO], &log, true, &[&parted[..], &last].concat(), 1);
        // Where answers part, too: the supplier refused, and the fresh state is kept.
        let log = [&REFUSED[..], &REQUESTED].concat();
        let parted = ["event 0 11000500", "answers part", "ours 0", "ours F1000000", "ours 41000002", "ours 01001234", "supplier 6"];
        prints(&[GO, GO], &log, true, &[&parted[..], &last].concat(), 1);
        // And where traces part, with a state of its own.
        let log = [&but(&REQUESTED, 4, "00000000")[..7], &["0", "81400000", "00000000", "40000000", "00000000"]].concat();
        let parted = ["event 0 11000500", "the supplier's trace stops at word 2", "ours 01001234"];
        prints(&[GO, TICK], &log, true, &[&parted[..], &last].concat(), 1);
    }

    fn hold_run_of_all_goes_on_from_ours_where_the_suppliers_state_does_not_fit() {
        let unfit = "the supplier's state does not fit: on from ours";
        let last = "2 events: 1 not as our tables order";
        let log = [&but(&REQUESTED, 4, "80000001")[..], &TICKED].concat();
        let parted = ["event 0 11000500", "states part at word 3", "ours 80000000", "supplier 80000001"];
        prints(&[GO, TICK], &log, true, &[&parted[..], &[unfit, last]].concat(), 1);
        // Without it, no such line.
        finds(&[GO, TICK], &log, &parted);
        // A wrong length does not fit.
        let log = [&REQUESTED[..4], &TICKED].concat();
        let parted = ["event 0 11000500", "the supplier's trace stops at word 0", "ours F1000000", "ours 41000002", "ours 01001234"];
        prints(&[GO, TICK], &log, true, &[&parted[..], &[unfit, last]].concat(), 1);
        // Nor does it where answers part. We refused: on from the state before.
        let fresh = ["0", "00000000", "00000000", "00000000", "00000000"];
        let log = [&["0", "FFFFFFFF", "00000000", "00000000", "00000000"][..], &fresh].concat();
        let parted = ["event 0 12000500", "answers part", "ours 6", "supplier 0"];
        prints(&[STRANGERS, TICK], &log, true, &[&parted[..], &[unfit, last]].concat(), 1);
    }

    fn hold_run_of_all_counts_the_events_that_are_not() {
        let short = &REQUESTED[..7];
        let six = ["0", "81800000", "00000000", "00000000", "80000000"];
        let log = [short, &six, short, &six, &REQUESTED, &six[..4], &["6", "81800000", "00000000", "00000000", "80000000"]].concat();
        let events = [GO, SIX, GO, SIX, GO, SIX, STRANGERS];
        let stops = |event: &'static str| [event, "the supplier's trace stops at word 2", "ours 01001234"];
        let six = [
            "event 5 11000600", "states part at word 3", "ours 80000000",
            "the supplier's state does not fit: on from ours", "7 events: 3 not as our tables order",
        ];
        let lines = [&stops("event 0 11000500")[..], &stops("event 2 11000500"), &six].concat();
        prints(&events, &log, true, &lines, 1);
        // The last event too, and all.
        prints(&[GO], short, true, &[&stops("event 0 11000500")[..], &["1 events: 1 not as our tables order"]].concat(), 1);
    }

    /// In edition 2 as well: no outcomes are lent.
    fn hold_run_lends_no_outcomes() {
        let table = with(&with(&edition_2(&MARKED), 10, abort(call(0x1234))), 11, ask(0, 2));
        let log = ["0", "81400000", "00000000", "40000000", "80000000", "F1000000", "01001234", "41000002"];
        let told = hold_run(&bytes(&table), &bytes(&[GO]), text(&log).as_bytes(), false);
        assert_eq!((&told.printed[..], told.status), ("1 events: all as our tables order\n", 0));
        let failed = ["0", "81400000", "00000000", "40000000", "00000000", "F1000000", "01001234"];
        let told = hold_run(&bytes(&table), &bytes(&[GO]), text(&failed).as_bytes(), false);
        let lines = "event 0 11000500\nthe supplier's trace stops at word 2\nours 41000002\n";
        assert_eq!((&told.printed[..], told.status), (lines, 1));
    }

    fn hold_run_of_a_log_that_ends_before_an_event() {
        troubles(&[GO], "", 1, "it ends before event 0", &[]);
        troubles(&[GO, TICK], &text(&REQUESTED), 9, "it ends before event 1", &[]);
        troubles(&[GO, TICK, TICK], &text(&[&REQUESTED[..], &TICKED].concat()), 14, "it ends before event 2", &[]);
    }

    fn hold_run_of_a_log_that_ends_in_an_event() {
        for lines in 1..5 {
            troubles(&[GO], &text(&REQUESTED[..lines]), lines + 1, "it ends in event 0", &[]);
            let log = text(&[&REQUESTED[..], &TICKED[..lines]].concat());
            troubles(&[GO, TICK, TICK], &log, 9 + lines, "it ends in event 1", &[]);
        }
        // With all of the state's words it does not, and a refusal's recording has a state too.
        finds(&[GO], &REQUESTED[..5], &["event 0 11000500", "the supplier's trace stops at word 0", "ours F1000000", "ours 41000002", "ours 01001234"]);
        troubles(&[STRANGERS], "6\n", 2, "it ends in event 0", &[]);
    }

    fn hold_run_of_a_misspelt_answer() {
        for line in NO_LINES {
            troubles(&[GO], line, 1, MISSPELT, &[]);
            let last = !line.ends_with('\n');
            let behind = if last { String::new() } else { text(&REQUESTED) };
            troubles(&[GO], &format!("{line}{behind}"), 1, MISSPELT, &[]);
        }
        // A word stands where the answer has to.
        troubles(&[GO], &text(&REQUESTED[1..]), 1, MISSPELT, &[]);
        troubles(&[GO], "81400000\n", 1, MISSPELT, &[]);
    }

    /// In each line's place: among the state's words, among the trace's, and behind them.
    fn hold_run_of_a_misspelt_word() {
        for place in 1..=8 {
            for line in NO_LINES {
                let last = !line.ends_with('\n');
                let behind = if last { String::new() } else { text(&REQUESTED[place..]) };
                let log = format!("{}{line}{behind}", text(&REQUESTED[..place]));
                troubles(&[GO], &log, place + 1, MISSPELT, &[]);
            }
        }
        // Behind the last recording too; and at its first line of another event's.
        troubles(&[GO, TICK], &format!("{}{}x\n", text(&REQUESTED), text(&TICKED)), 14, MISSPELT, &[]);
        troubles(&[GO, TICK], &format!("{}\n{}", text(&REQUESTED), text(&TICKED)), 9, MISSPELT, &[]);
        troubles(&[GO, TICK], &format!("{}0", text(&REQUESTED)), 9, MISSPELT, &[]);
    }

    /// An event whose recording is in trouble has no verdict.
    fn hold_run_tells_trouble_before_the_verdict() {
        let log = format!("{}x\n", text(&but(&REQUESTED, 0, "6")));
        troubles(&[GO], &log, 9, MISSPELT, &[]);
        troubles(&[GO], "6\n81400001\n", 3, "it ends in event 0", &[]);
    }

    fn hold_run_of_8192_words_behind_an_answer_and_of_one_more() {
        let extra = ["0000000A"; 8185];
        let log = [&REQUESTED[..], &extra].concat();
        let lines = [&["event 0 11000500", "the supplier's trace goes on at word 3"][..], &["supplier 0000000A"; 8185]].concat();
        finds(&[GO], &log, &lines);
        let more = "more than 8192 words behind an answer";
        troubles(&[GO], &text(&[&log[..], &["00000000"]].concat()), 8194, more, &[]);
        troubles(&[GO], &text(&[&log[..], &["00000000"], &["0"; 9]].concat()), 8194, more, &[]);
        troubles(&[TICK, GO], &text(&[&REFUSED[..], &log, &["00000000"]].concat()).replacen('6', "0", 1), 8199, more, &[]);
        // What stands there is not a word.
        troubles(&[GO], &format!("{}0000000\n", text(&log)), 8194, MISSPELT, &[]);
    }

    fn hold_run_of_a_log_that_goes_on_behind_the_last_event() {
        let behind = "it goes on behind the last event";
        troubles(&[GO], &text(&[&REQUESTED[..], &["0"]].concat()), 9, behind, &[]);
        troubles(&[GO], &text(&[&REQUESTED[..], &TICKED].concat()), 9, behind, &[]);
        troubles(&[GO], &format!("{}0\nx", text(&REQUESTED)), 9, behind, &[]);
        // Without events, whatever the line holds.
        for line in NO_LINES {
            troubles(&[], line, 1, behind, &[]);
        }
        troubles(&[], "0\n", 1, behind, &[]);
        troubles(&[], &text(&REQUESTED[1..]), 1, behind, &[]);
    }

    fn hold_run_keeps_what_was_printed_before_the_trouble() {
        let stops = ["event 0 11000500", "the supplier's trace stops at word 2", "ours 01001234"];
        for (behind, line, what) in [
            ("", 8, "it ends before event 1"),
            ("0\n", 9, "it ends in event 1"),
            ("0\n81400000\nx\n", 10, MISSPELT),
            ("0\n81400000\n80800000\n40000000\n90000005\n0\n", 13, "it goes on behind the last event"),
        ] {
            let log = format!("{}{behind}", text(&REQUESTED[..7]));
            let told = hold_run(&bytes(&MARKED), &bytes(&[GO, TICK]), log.as_bytes(), true);
            let trouble = format!("herringcart: line {line} of the log: {what}");
            assert_eq!((told.printed, told.trouble, told.status), (text(&stops), Some(trouble), 1));
        }
    }

    fn hold_run_of_a_bad_table() {
        for (table, reason, place) in [(bytes(&with(&MARKED, 6, 0)), 5, 6), (bytes(&MARKED)[..47].to_vec(), 4, 0), (vec![], 1, 0)] {
            for log in [&b""[..], b"5\n6\n", b"x"] {
                for events in [&[GO][..], &[]] {
                    let told = hold_run(&table, &bytes(events), log, !log.is_empty());
                    let trouble = format!("herringcart: refused: the table has reason {reason} at word {place}");
                    assert_eq!((&told.printed[..], told.trouble, told.status), ("", Some(trouble), 2));
                }
            }
        }
    }

    fn hold_run_started_tells_the_same_wherever_its_option_stands() {
        let (table, events) = (file("hold", &bytes(&MARKED)), file("hold-e", &bytes(&[GO, TICK])));
        let good = file("hold-good", text(&[&REQUESTED[..], &TICKED].concat()).as_bytes());
        let bad = file("hold-bad", text(&[&REQUESTED[..7], &TICKED].concat()).as_bytes());
        let cut = file("hold-cut", text(&REQUESTED).as_bytes());
        let (t, e) = (&table[..], &events[..]);
        let stops = "event 0 11000500\nthe supplier's trace stops at word 2\nours 01001234\n";
        let all = format!("{stops}2 events: 1 not as our tables order\n");
        let ends = "herringcart: line 9 of the log: it ends before event 1\n";
        let yes = "2 events: all as our tables order\n";
        for (words, lines, trouble, status) in [
            (vec!["hold", t, e, &good], yes, "", 0),
            (vec!["hold", t, e, &good, "--all"], yes, "", 0),
            (vec!["hold", t, e, &bad], stops, "", 1),
            (vec!["hold", t, e, &bad, "--all"], &all, "", 1),
            (vec!["hold", t, e, "--all", &bad], &all, "", 1),
            (vec!["hold", "--all", t, e, &bad], &all, "", 1),
            (vec!["hold", t, e, &cut], "", ends, 1),
            (vec!["hold", e, e, &cut], "", "herringcart: refused: the table has reason 1 at word 0\n", 2),
        ] {
            let output = start_with(&words);
            assert_eq!(String::from_utf8_lossy(&output.stdout), lines);
            assert_eq!(String::from_utf8_lossy(&output.stderr), trouble);
            assert_eq!(output.status.code(), Some(status));
        }
        [table, events, good, bad, cut].iter().for_each(|path| std::fs::remove_file(path).expect("it goes"));
    }

    fn hold_run_started_leaves_with_2_for_other_words_and_files_it_cannot_read() {
        let path = file("hold-readable", &bytes(&MARKED));
        let (here, missing) = (&path[..], &format!("{path}-missing")[..]);
        for words in [
            &["hold"][..],
            &["hold", here, here],
            &["hold", here, here, "--all"],
            &["hold", here, here, here, here],
            &["hold", here, here, here, "--follow"],
            &["hold", here, here, here, "--all", "--all"],
            &["hold", missing, here, here],
            &["hold", here, missing, here],
            &["hold", here, here, missing],
        ] {
            let output = start_with(words);
            assert!(output.stdout.is_empty() && !output.stderr.is_empty());
            assert_eq!(output.status.code(), Some(2), "{words:?}");
            let unread = words.contains(&missing);
            assert!(!unread || String::from_utf8_lossy(&output.stderr).contains(missing));
        }
        assert!(hold_files(here, here, missing, false).unwrap_err().contains(missing));
        std::fs::remove_file(path).expect("the file goes");
    }
}

//! The program, by what it prints, and once more as it is started.

use std::process::{Command, Output};

use super::editions::edition_2;
use super::marked::MARKED;
use super::*;
use crate::program::run;
use crate::testing::recorded::{printed, printed_with};

pub fn bytes(words: &[u32]) -> Vec<u8> {
    words.iter().flat_map(|word| word.to_be_bytes()).collect()
}

const EIGHT_LINES: &str =
    "0\n81400000\n00000000\n40000000\n80000000\nF1000000\n41000002\n01001234\n";
const FRESH_LINES: &str = "00000000\n00000000\n00000000\n00000000\n";

/// A file of these bytes for as long as the process lives.
pub fn file(name: &str, bytes: &[u8]) -> String {
    let name = format!("herringcart-second-{}-{name}", std::process::id());
    let path = std::env::temp_dir().join(name);
    std::fs::write(&path, bytes).expect("a file in the temporary folder");
    path.to_string_lossy().into_owned()
}

/// Starts this very program, as `run TABLE EVENTS` for one.
pub fn start(command: &str, table: &str, events: &str) -> Output {
    start_with(&[command, table, events])
}

pub fn start_with(arguments: &[&str]) -> Output {
    let program = std::env::current_exe().expect("the program's own path");
    Command::new(program).args(arguments).output().expect("the program starts")
}

/// The marked table in edition 2, its call before its request, and with abort.
fn call_first() -> Vec<u32> {
    with(&with(&edition_2(&MARKED), 10, 0x0800_1234), 11, 0x4000_0002)
}

/// What a request of 5 prints on it where the call fails, where it is good, and with an outcome
/// above 1; and, between, a request of 6.
const FAILED_LINES: &str = "0\n81400000\n00000000\n40000000\n00000000\nF1000000\n01001234\n";
const GOOD_LINES: &str =
    "0\n81400000\n00000000\n40000000\n80000000\nF1000000\n01001234\n41000002\n";
const SIX_LINES: &str = "0\n81800000\n00000000\n00000000\n00000000\n";

fixed_cases! {
    fn program_prints_the_marked_eight_lines() {
        assert_eq!(printed(&bytes(&MARKED), &bytes(&[0x1100_0500])), EIGHT_LINES);
    }

    fn program_started_prints_the_same() {
        let (table, events) =
            (file("table", &bytes(&MARKED)), file("events", &bytes(&[0x1100_0500])));
        let output = start("run", &table, &events);
        std::fs::remove_file(table).and(std::fs::remove_file(events)).expect("the files go");
        assert_eq!(String::from_utf8_lossy(&output.stdout), EIGHT_LINES);
        assert!(output.status.success() && output.stderr.is_empty());
    }

    fn program_prints_capital_hex_and_passes_the_state_on() {
        let events = bytes(&[0x1100_0500, 0, 0x5100_0000]);
        let lines = printed(&bytes(&MARKED), &events);
        let tick = "0\n81400000\n80800000\n40000000\n90000005\n";
        let bus_off = "0\n81400000\nC0C00000\n40000000\nA0080003\n";
        assert_eq!(lines, format!("{EIGHT_LINES}{tick}{bus_off}"));
    }

    fn program_prints_what_heard_does() {
        let events = bytes(&[0x1100_0500, 0, 0x7100_0000, 0, 0x8100_0000]);
        let lines = printed(&bytes(&MARKED), &events);
        let after = |answer: u32, network: &str| {
            format!("{answer}\n81400000\n80800000\n40000000\n{network}\n")
        };
        let tick = after(0, "90000005");
        let (heard, taken) = (after(0, "90040005"), after(0, "98000000"));
        let malformed = after(4, "98000000");
        assert_eq!(lines, format!("{EIGHT_LINES}{tick}{heard}{taken}{malformed}"));
    }

    fn program_prints_a_refused_events_answer_and_the_unchanged_state_and_goes_on() {
        let events = bytes(&[0x1200_0500, 0x2100_0500, 0x2100_0000, 0]);
        let lines = printed(&bytes(&MARKED), &events);
        assert_eq!(
            lines,
            format!("6\n{FRESH_LINES}4\n{FRESH_LINES}5\n{FRESH_LINES}0\n{FRESH_LINES}")
        );
    }

    fn program_without_events_prints_nothing() {
        assert_eq!(printed(&bytes(&MARKED), &[]), "");
        assert_eq!(printed(&bytes(&MARKED), &[0x11, 0, 5]), "");
    }

    fn program_ignores_bytes_past_the_last_whole_word() {
        let table = [bytes(&MARKED), vec![1, 2, 3]].concat();
        let events = [bytes(&[0x1100_0500]), vec![0xFF]].concat();
        assert_eq!(printed(&table, &events), EIGHT_LINES);
    }

    fn program_prints_reason_and_place_and_ends() {
        let events = bytes(&[0x1100_0500]);
        assert_eq!(printed(&bytes(&with(&MARKED, 6, 0)), &events), "5\n6\n");
        assert_eq!(printed(&bytes(&with(&MARKED, 11, 0xF000_0000)), &events), "5\n11\n");
        assert_eq!(printed(&bytes(&MARKED)[..47], &events), "4\n0\n");
        assert_eq!(printed(&[], &[]), "1\n0\n");
    }

    fn program_lends_b_and_so_never_prints_3() {
        // B is 4,096, and all of it is written: 1 answer, 18 state words, the trace.
        let lists = [list(0, 0, 255); 16];
        let rules: Vec<u32> = (0..16).map(|number| rule(0, 0, number, NONE)).collect();
        let table = plain(&[mode(0)], &[equal(0, 5)], &rules, &lists, &[call(0); 255]);
        let lines = printed(&bytes(&table), &bytes(&[0x1000_0500]));
        assert_eq!(lines.lines().next(), Some("0"));
        assert_eq!(lines.lines().count(), 1 + 17 + 4096);
    }

    fn program_lends_each_event_its_outcomes() {
        let events = bytes(&[0x1100_0500, 0x1100_0600, 0x1100_0500]);
        let table = bytes(&call_first());
        let lines = |outcomes: &[&[u32]]| printed_with(&table, &events, outcomes);
        let all = format!("{FAILED_LINES}{SIX_LINES}{GOOD_LINES}");
        assert_eq!(lines(&[&[1], &[], &[0]]), all);
        assert_eq!(lines(&[&[1, 0], &[1, 1, 1], &[]]), all);
        // A file that ends early lends no more.
        assert_eq!(lines(&[&[1]]), all);
        let good = lines(&[]);
        assert_eq!(good, printed(&table, &events));
        assert!(good.starts_with(GOOD_LINES) && good.ends_with(GOOD_LINES));
    }

    fn program_prints_8_and_the_unchanged_state_and_goes_on() {
        let (table, events) = (bytes(&call_first()), bytes(&[0x1100_0500, 0x1100_0500, 0]));
        let lines = printed_with(&table, &events, &[&[0, 2], &[1], &[2]]);
        let last = FAILED_LINES.replacen('0', "8", 1);
        let state = last.split_inclusive('\n').take(5).collect::<String>();
        assert_eq!(lines, format!("8\n{FRESH_LINES}{FAILED_LINES}{state}"));
        let one = printed_with(&bytes(&MARKED), &events[..4], &[&[2]]);
        assert_eq!(one, format!("8\n{FRESH_LINES}"));
    }

    fn program_started_with_a_file_of_outcomes() {
        let (table, events) =
            (file("failing", &bytes(&call_first())), file("sent", &bytes(&[0x1100_0500; 2])));
        // A number and so many words for each event; bytes past the last whole word.
        let lent = [bytes(&[2, 1, 0, 1, 0]), vec![0, 0, 1]].concat();
        let outcomes = file("outcomes", &lent);
        let output = start_with(&["run", &table, &events, &outcomes]);
        let missing = start_with(&["run", &table, &events, &format!("{outcomes}-missing")]);
        for path in [table, events, outcomes] {
            std::fs::remove_file(path).expect("the file goes");
        }
        // The list is triggered: it runs once.
        let again = "0\n81400000\n00000000\n40000000\n00000000\n";
        assert_eq!(String::from_utf8_lossy(&output.stdout), format!("{FAILED_LINES}{again}"));
        assert!(output.status.success() && output.stderr.is_empty());
        assert!(missing.stdout.is_empty() && missing.status.code() == Some(2));
    }

    fn program_says_on_standard_error_what_it_cannot_read() {
        let table = file("readable", &bytes(&MARKED[..11]));
        let missing = format!("{table}-missing");
        for (table, events) in [(&table, &missing), (&missing, &table)] {
            assert!(run(table, events, None).unwrap_err().contains(&missing));
            let output = start("run", table, events);
            assert!(output.stdout.is_empty() && !output.status.success());
            assert!(String::from_utf8_lossy(&output.stderr).contains(&missing));
        }
        std::fs::remove_file(table).expect("the file goes");
    }
}

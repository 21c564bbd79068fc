//! `canlog TABLE INTERFACES LOG` and `day TABLE INTERFACES LOG` of request Q-12, as they are
//! started.

use std::process::{Command, Stdio};

use super::buslog::{NAMES, OFF_0, OFF_1, three};
use super::program::{bytes, file, start_with};
use super::with;

const LOG: &[u8] = b"(1.000000) can0 20000040#\n(1.030000) can1 20000040#\n";
const FIVE: [u32; 5] = [OFF_0, 0, 0, 0, OFF_1];

/// Standard output, standard error and the status.
#[track_caller]
fn starts(words: &[&str], printed: &[u8], trouble: &str, status: i32) {
    let output = start_with(words);
    assert_eq!(output.stdout, printed);
    assert_eq!(String::from_utf8_lossy(&output.stderr), trouble);
    assert_eq!(output.status.code(), Some(status));
}

fn gone(paths: &[&String]) {
    paths.iter().for_each(|path| std::fs::remove_file(path).expect("the file goes"));
}

fixed_cases! {
    fn canlog_started_writes_the_events_or_tells_the_line() {
        let (table, names) = (file("log-table", &bytes(&three())), file("log-names", NAMES));
        let (log, bad) = (file("log", LOG), file("log-bad", &[LOG, b"(1.0"].concat()));
        starts(&["canlog", &table, &names, &log], &bytes(&FIVE), "", 0);
        let told = "herringcart: line 3: misspelt\n";
        starts(&["canlog", &table, &names, &bad], &bytes(&FIVE), told, 1);
        let told = "herringcart: line 0: INTERFACES is not 3 different names, one a line\n";
        starts(&["canlog", &table, &log, &bad], b"", told, 1);
        gone(&[&table, &names, &log, &bad]);
    }

    fn day_started_prints_what_play_prints_of_canlogs_events() {
        let (table, names) = (file("day-table", &bytes(&three())), file("day-names", NAMES));
        let (log, bad) = (file("day-log", LOG), file("day-bad", &[LOG, b"(1.0"].concat()));
        let events = file("day-events", &start_with(&["canlog", &table, &names, &log]).stdout);
        let played = start_with(&["play", &table, &events]).stdout;
        assert!(played.ends_with(b"taken 5\nvisits 0\nanswer 0\n"));
        starts(&["day", &table, &names, &log], &played, "", 0);
        starts(&["day", &table, &names, &bad], &played, "herringcart: line 3: misspelt\n", 1);
        gone(&[&table, &names, &log, &bad, &events]);
    }

    fn canlog_and_day_started_tell_a_table_with_a_reason() {
        let table = file("log-reason", &bytes(&with(&three(), 7, 0x0300_0005)));
        let told = "herringcart: line 0: the table has reason 5 at word 7\n";
        starts(&["canlog", &table, &table, &table], b"", told, 1);
        starts(&["day", &table, &table, &table], b"5\n7\n", told, 1);
        gone(&[&table]);
    }

    fn canlog_and_day_started_leave_with_2_for_other_words_and_files_they_cannot_read() {
        let path = file("log-readable", b"no table, no list, no log");
        let (here, missing) = (&path[..], &format!("{path}-missing")[..]);
        for command in ["canlog", "day"] {
            for words in [
                &[command][..],
                &[command, here, here],
                &[command, here, here, here, here],
                &[command, missing, here, here],
                &[command, here, missing, here],
                // The table has a reason, but a file that is missing is told first.
                &[command, here, here, missing],
            ] {
                let output = start_with(words);
                assert!(output.stdout.is_empty() && !output.stderr.is_empty());
                assert_eq!(output.status.code(), Some(2), "{words:?}");
                let unread = words.contains(&missing);
                assert!(!unread || String::from_utf8_lossy(&output.stderr).contains(missing));
            }
        }
        gone(&[&path]);
    }

    fn canlog_and_day_started_leave_with_2_for_a_log_that_is_a_folder() {
        let (table, names) = (file("fold-table", &bytes(&three())), file("fold-names", NAMES));
        let folder = std::env::temp_dir().to_string_lossy().into_owned();
        for command in ["canlog", "day"] {
            let output = start_with(&[command, &table, &names, &folder]);
            assert_eq!(output.status.code(), Some(2));
            assert!(String::from_utf8_lossy(&output.stderr).contains(&folder));
        }
        gone(&[&table, &names]);
    }

    fn canlog_and_day_started_end_on_files_without_end() {
        let (table, names) = (file("end-table", &bytes(&three())), file("end-names", NAMES));
        let zeros = "/dev/zero";
        for command in ["canlog", "day"] {
            let output = start_with(&[command, &table, &names, zeros]);
            assert_eq!(output.stderr, b"herringcart: line 1: misspelt\n");
            let output = start_with(&[command, &table, zeros, zeros]);
            let told = b"herringcart: line 0: INTERFACES is not 3 different names, one a line\n";
            assert_eq!((&output.stderr[..], output.status.code()), (&told[..], Some(1)));
        }
        gone(&[&table, &names]);
    }

    fn canlog_and_day_started_end_quietly_where_their_pipe_is_closed() {
        // More ticks than could ever be written, and a few events that a pipe holds.
        let (table, names) = (file("pipe-table", &bytes(&three())), file("pipe-names", NAMES));
        let gap = b"(0.000000) can0 123#\n(9999999999.999999) can0 123#\n";
        let (long, short) = (file("pipe-long", gap), file("pipe-short", LOG));
        for words in [["canlog", &long], ["canlog", &short], ["day", &short]] {
            let (reader, writer) = std::io::pipe().expect("a pipe");
            drop(reader);
            let program = std::env::current_exe().expect("the program's own path");
            let mut command = Command::new(program);
            command.args([words[0], &table, &names, words[1]]);
            command.stdout(writer).stderr(Stdio::piped());
            let output = command.spawn().and_then(|started| started.wait_with_output());
            let output = output.expect("it starts and ends");
            assert!(output.status.success() && output.stderr.is_empty(), "{words:?}");
        }
        gone(&[&table, &names, &long, &short]);
    }

    fn canlog_started_writes_as_it_goes() {
        // The first ticks of 999,999,999,999 come while the log is far from done.
        use std::io::Read;
        let (table, names) = (file("go-table", &bytes(&three())), file("go-names", NAMES));
        let gap = b"(0.000000) can0 20000040#\n(9999999999.999999) can0 123#\n";
        let log = file("go-log", gap);
        let program = std::env::current_exe().expect("the program's own path");
        let mut command = Command::new(program);
        command.args(["canlog", &table, &names, &log]).stdout(Stdio::piped());
        let mut started = command.spawn().expect("it starts");
        let mut front = vec![0xEE; 4_000_000];
        let mut out = started.stdout.take().expect("its output");
        out.read_exact(&mut front).expect("ticks");
        drop(out);
        assert!(started.wait().expect("it ends").success());
        let due = [&OFF_0.to_be_bytes()[..], &vec![0; 3_999_996]].concat();
        assert!(front == due);
        gone(&[&table, &names, &log]);
    }
}

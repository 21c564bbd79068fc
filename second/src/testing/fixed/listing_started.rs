//! `list TABLE` and `read LISTING` of request Q-4, as they are started.

use std::process::{Command, Stdio};

use super::listing::*;
use super::marked::MARKED;
use super::program::{bytes, file, start_with};

/// Standard output, standard error and the status.
#[track_caller]
fn starts(words: &[&str], printed: &[u8], trouble: &str, status: i32) {
    let output = start_with(words);
    assert_eq!(output.stdout, printed);
    assert_eq!(String::from_utf8_lossy(&output.stderr), trouble);
    assert_eq!(output.status.code(), Some(status));
}

fn gone(paths: &[&String]) {
    paths.iter().for_each(|path| std::fs::remove_file(path).expect("the file goes"));
}

fixed_cases! {
    fn list_started_prints_the_listing_or_the_reason() {
        let (good, cut) = (file("list", &bytes(&MARKED)), file("list-cut", &bytes(&MARKED)[..47]));
        starts(&["list", &good], MARKED_LISTING.as_bytes(), "", 0);
        starts(&["list", &cut], b"", "herringcart: refused: the table has reason 4\n", 1);
        gone(&[&good, &cut]);
    }

    fn read_started_prints_the_table_or_the_bad_line() {
        let good = file("read", MARKED_LISTING.as_bytes());
        let bad = file("read-bad", MARKED_LISTING.replacen("1 0 0\n", "1 00 0\n", 1).as_bytes());
        let long = file("read-long", format!("{MARKED_LISTING}{}", "x".repeat(300)).as_bytes());
        starts(&["read", &good], &bytes(&MARKED), "", 0);
        let told = "herringcart: line 4: port 0 0 0 1 00 0\n\
                    herringcart: expected: port 0..3 0..1 0..1 0..15 0..255 0..65535\n";
        starts(&["read", &bad], b"", told, 1);
        let told = format!(
            "herringcart: line 13: {} ..\nherringcart: expected: the end of the listing\n",
            "x".repeat(80)
        );
        starts(&["read", &long], b"", &told, 1);
        gone(&[&good, &bad, &long]);
    }

    fn list_and_read_started_give_each_other_back() {
        let table = file("listed", &bytes(&most()));
        let listing = start_with(&["list", &table]).stdout;
        let listing = file("listing", &listing);
        starts(&["read", &listing], &bytes(&most()), "", 0);
        gone(&[&table, &listing]);
    }

    fn list_and_read_started_leave_with_2_for_other_words_and_files_they_cannot_read() {
        let path = file("list-readable", &bytes(&MARKED));
        let (here, missing) = (&path[..], &format!("{path}-missing")[..]);
        for words in [
            &["list"][..],
            &["read"],
            &["list", here, here],
            &["read", here, here],
            &["list", missing],
            &["read", missing],
        ] {
            let output = start_with(words);
            assert!(output.stdout.is_empty() && !output.stderr.is_empty());
            assert_eq!(output.status.code(), Some(2), "{words:?}");
            let unread = words.contains(&missing);
            assert!(!unread || String::from_utf8_lossy(&output.stderr).contains(missing));
        }
        gone(&[&path]);
    }

    fn list_and_read_started_end_quietly_where_their_pipe_is_closed() {
        // The listing is more than a pipe holds, the table is not.
        let table = file("list-piped", &bytes(&most()));
        let listing = file("read-piped", MARKED_LISTING.as_bytes());
        for words in [["list", &table], ["read", &listing]] {
            let (reader, writer) = std::io::pipe().expect("a pipe");
            drop(reader);
            let program = std::env::current_exe().expect("the program's own path");
            let mut command = Command::new(program);
            command.args(words).stdout(writer).stderr(Stdio::piped());
            let output = command.spawn().and_then(|started| started.wait_with_output());
            let output = output.expect("it starts and ends");
            assert!(output.status.success() && output.stderr.is_empty(), "{words:?}");
        }
        gone(&[&table, &listing]);
    }
}

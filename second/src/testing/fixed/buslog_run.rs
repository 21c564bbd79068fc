//! `canlog TABLE INTERFACES LOG` and `day TABLE INTERFACES LOG` of request Q-12, by what they tell.

use super::buslog::{NAMES, OFF_0, OFF_1, three};
use super::marked::MARKED;
use super::program::bytes;
use super::*;
use crate::buslog_run::{write_canlog, write_day};
use crate::listing_run::Told;
use crate::program::played;
use crate::testing::recorded::{canlog_run, day_run};

/// The events and the line of trouble; the status is 1 where there is one.
#[track_caller]
fn tells(table: &[u32], names: &[u8], log: &[u8], events: &[u32], trouble: &str) {
    let status = if trouble.is_empty() { 0 } else { 1 };
    let told = |printed| Told { printed, trouble: trouble.into(), status };
    let table = bytes(table);
    assert_eq!(canlog_run(&table, names, log), told(bytes(events)));
    let day = played(&table, &bytes(events)).into_bytes();
    assert_eq!(day_run(&table, names, log), told(day.clone()));
    // In blocks of every length about a line's, and byte by byte.
    for block in (1..=130).filter(|&block| block < 4 || log.len() < 400) {
        let (mut out, mut played) = (vec![], vec![]);
        let line = write_canlog(&mut out, &table, names, &mut Blocks { log, block });
        let day_line = write_day(&mut played, &table, names, &mut Blocks { log, block });
        let lines = [line, day_line].map(|line| line.expect("memory takes it"));
        let due = trouble.strip_suffix('\n').map(String::from);
        assert_eq!((out, played), (bytes(events), day.clone()), "in blocks of {block}");
        assert_eq!(lines, [due.clone(), due], "in blocks of {block}");
    }
}

/// A log that is read so many bytes at a time.
struct Blocks<'a> {
    log: &'a [u8],
    block: usize,
}

impl std::io::Read for Blocks<'_> {
    fn read(&mut self, out: &mut [u8]) -> std::io::Result<usize> {
        let length = self.block.min(self.log.len()).min(out.len());
        let (front, rest) = self.log.split_at(length);
        out[..length].copy_from_slice(front);
        self.log = rest;
        Ok(length)
    }
}

const TWO: &[u8] = b"(1.000000) can0 20000040#\n(1.030000) can1 20000040#\n";
const FIVE: [u32; 5] = [OFF_0, 0, 0, 0, OFF_1];

/// Behind the two lines.
#[track_caller]
fn third(line: &[u8], trouble: &str) {
    tells(&three(), NAMES, &[TWO, line].concat(), &FIVE, trouble);
}

fixed_cases! {
    fn canlog_writes_the_words_high_byte_first() {
        let told = canlog_run(&bytes(&three()), NAMES, TWO);
        let words = b"\x51\0\0\0\0\0\0\0\0\0\0\0\0\0\0\0\x50\x01\0\0";
        assert_eq!(told, Told { printed: words.to_vec(), trouble: "".into(), status: 0 });
    }

    fn canlog_and_day_tell_nothing_more_of_a_log_that_is_read() {
        tells(&three(), NAMES, TWO, &FIVE, "");
    }

    fn canlog_and_day_of_an_empty_log() {
        tells(&three(), NAMES, b"", &[], "");
    }

    fn canlog_tells_a_misspelt_line() {
        third(b"(1.030000) can1 20000040\n", "herringcart: line 3: misspelt\n");
    }

    fn canlog_tells_a_last_line_without_its_newline() {
        third(b"(1.030000) can1 20000040#", "herringcart: line 3: misspelt\n");
        tells(&three(), NAMES, &TWO[..51], &FIVE[..1], "herringcart: line 2: misspelt\n");
        tells(&three(), NAMES, &TWO[..1], &[], "herringcart: line 1: misspelt\n");
    }

    fn canlog_tells_a_time_that_goes_back() {
        third(b"(1.029999) can9 20000040#\n", "herringcart: line 3: the time goes back\n");
    }

    fn canlog_tells_an_interface_that_is_not_listed() {
        let told = "herringcart: line 3: an interface that is not listed\n";
        third(b"(2.030000) can9 20000040#\n", told);
    }

    fn canlog_tells_the_tables_reason_and_place() {
        let bad = with(&three(), 7, 0x0300_0005);
        let told = "herringcart: line 0: the table has reason 5 at word 7\n";
        tells(&bad, NAMES, TWO, &[], told);
        tells(&bad, b"x", b"\n", &[], told);
        tells(&[], NAMES, TWO, &[], "herringcart: line 0: the table has reason 1 at word 0\n");
    }

    fn day_prints_the_tables_reason_and_place_as_play_does() {
        let told = day_run(&bytes(&with(&three(), 7, 0x0300_0005)), NAMES, TWO);
        assert_eq!(told.printed, b"5\n7\n");
        assert_eq!(told.trouble, "herringcart: line 0: the table has reason 5 at word 7\n");
        assert_eq!(told.status, 1);
    }

    fn canlog_tells_a_list_for_several_networks() {
        let told = "herringcart: line 0: INTERFACES is not 3 different names, one a line\n";
        tells(&three(), b"can0\ncan1\n", TWO, &[], told);
        tells(&three(), b"can0\ncan1\ncan1\n", b"\n", &[], told);
    }

    fn canlog_tells_a_list_for_one_network() {
        let told = "herringcart: line 0: INTERFACES is not 1 name, one a line\n";
        tells(&MARKED, b"can0\ncan1\n", TWO, &[], told);
    }

    fn canlog_tells_a_list_for_no_network() {
        let told = "herringcart: line 0: INTERFACES is not empty, and the table has no network\n";
        let none = plain(&[mode(1)], &[equal(0, 5)], &[rule(1, 0, NONE, NONE)], &[], &[]);
        tells(&none, b"can0\n", TWO, &[], told);
        tells(&none, b"", b"", &[], "");
        let told = "herringcart: line 1: an interface that is not listed\n";
        tells(&none, b"", TWO, &[], told);
    }

    fn day_prints_the_state_and_the_events_taken() {
        let told = day_run(&bytes(&MARKED), b"can0\n", &TWO[..26]);
        let lines = "port 0 00000000\nport 1 00000000\nrule 0 00000000\nnetwork 0 00000000\n\
                     taken 1\nvisits 0\nanswer 0\n";
        assert_eq!(String::from_utf8_lossy(&told.printed), lines);
    }

    fn day_of_a_list_that_is_refused_is_a_day_of_no_events() {
        let told = day_run(&bytes(&MARKED), b"can0", &TWO[..26]);
        let lines = "port 0 00000000\nport 1 00000000\nrule 0 00000000\nnetwork 0 00000000\n\
                     taken 0\nvisits 0\nanswer 0\n";
        assert_eq!(String::from_utf8_lossy(&told.printed), lines);
        assert_eq!(told.trouble, "herringcart: line 0: INTERFACES is not 1 name, one a line\n");
    }

    fn day_of_a_log_that_is_refused_has_the_events_before() {
        let log = [TWO, b"(1.040000) can9 123#\n"].concat();
        let told = day_run(&bytes(&three()), NAMES, &log);
        let printed = String::from_utf8_lossy(&told.printed).into_owned();
        assert!(printed.ends_with("taken 5\nvisits 0\nanswer 0\n"));
        let trouble = "herringcart: line 3: an interface that is not listed\n";
        assert_eq!((&told.trouble[..], told.status), (trouble, 1));
    }

    fn canlog_table_may_have_bytes_past_its_last_word() {
        let table = [&bytes(&three())[..], b"\0\0\0"].concat();
        assert_eq!(canlog_run(&table, NAMES, TWO).printed, bytes(&FIVE));
    }

    fn canlog_reads_logs_of_many_blocks() {
        // 270,000 bytes: lines lie across every bound of 65,536.
        let line = |number: u32| {
            format!("({}.500{:03}) can0 20000040#\n", 10 + number / 1000, number % 1000)
        };
        let log: String = (0..10_000).map(line).collect();
        let told = canlog_run(&bytes(&three()), NAMES, log.as_bytes());
        // All within a millisecond of their second, so 100 ticks before each but the first.
        let second = [&[0; 100][..], &[OFF_0; 1000]].concat();
        let events = second.repeat(10)[100..].to_vec();
        assert!(told.printed == bytes(&events) && told.status == 0);
        let cut = &log.as_bytes()[..log.len() - 1];
        let told = canlog_run(&bytes(&three()), NAMES, cut);
        assert_eq!(told.trouble, "herringcart: line 10000: misspelt\n");
        assert!(told.printed == bytes(&events[..events.len() - 1]));
    }

    fn canlog_gives_more_ticks_than_it_converts_at_a_time() {
        let log = b"(0.000000) can0 123#\n(2000.009999) can1 20000040#\n(2000.010000) can0 123#\n";
        let told = canlog_run(&bytes(&three()), NAMES, log);
        let events = [&[0; 200_000][..], &[OFF_1, 0]].concat();
        assert_eq!((told.printed == bytes(&events), told.trouble, told.status), (true, "".into(), 0));
        let told = day_run(&bytes(&three()), NAMES, log);
        assert_eq!(told.printed, played(&bytes(&three()), &bytes(&events)).into_bytes());
    }

    fn canlog_gives_just_as_many_ticks_as_it_converts_at_a_time() {
        for ticks in [65_535u32, 65_536, 65_537] {
            let end = format!("({}.{:02}0000) can1 20000040#\n", ticks / 100, ticks % 100);
            let log = format!("(0.000000) can0 123#\n{end}x\n");
            let told = canlog_run(&bytes(&three()), NAMES, log.as_bytes());
            let events = [&vec![0; ticks as usize][..], &[OFF_1]].concat();
            assert!(told.printed == bytes(&events), "{ticks}");
            assert_eq!(told.trouble, "herringcart: line 3: misspelt\n");
        }
    }

    fn canlog_reads_the_longest_line_and_none_longer() {
        let list = b"abcdefghijklmno\n";
        let line = b"(9999999999.999999) abcdefghijklmno 20000040#0011223344556677\n";
        tells(&MARKED, list, line, &[OFF_0], "");
        tells(&MARKED, list, &line.repeat(3), &[OFF_0; 3], "");
        let long = [&line[..61], b"8\n"].concat();
        tells(&MARKED, list, &long, &[], "herringcart: line 1: misspelt\n");
        let behind = [&line[..], &long].concat();
        tells(&MARKED, list, &behind, &[OFF_0], "herringcart: line 2: misspelt\n");
        let cut = [line, &line[..61]].concat();
        tells(&MARKED, list, &cut, &[OFF_0], "herringcart: line 2: misspelt\n");
    }

    fn canlog_refuses_a_line_without_end() {
        let log = [TWO, &vec![b'1'; 300_000]].concat();
        let told = canlog_run(&bytes(&three()), NAMES, &log);
        assert_eq!(told.printed, bytes(&FIVE));
        assert_eq!(told.trouble, "herringcart: line 3: misspelt\n");
        let log = [TWO, &vec![0; 300_000], b"\n"].concat();
        assert_eq!(canlog_run(&bytes(&three()), NAMES, &log).trouble, told.trouble);
    }

    fn canlog_reads_nothing_behind_a_refused_line() {
        let log = [TWO, b"\n", TWO, &vec![b'\n'; 300_000]].concat();
        let told = canlog_run(&bytes(&three()), NAMES, &log);
        assert_eq!(told.printed, bytes(&FIVE));
        assert_eq!(told.trouble, "herringcart: line 3: misspelt\n");
    }
}

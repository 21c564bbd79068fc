//! A side that reads bus logs wrongly is found, and its log made small.

use second::Cursor;

use crate::buslogs::{Met, Real, compare_drawing, told};
use crate::differ::buslogs::{AskedLog, compare_log};
use crate::shrink::smallest_log;
use crate::subject::{Proved, Reading, Subject};

type Read = fn(&[u32], &[u8], &[u8], Cursor, &mut [u32]) -> Reading;

/// A wrong side: what it makes of a call.
struct Wrong(Read);

impl Subject for Wrong {
    fn read_log(
        &self,
        table: &[u32],
        interfaces: &[u8],
        log: &[u8],
        from: Cursor,
        out: &mut [u32],
    ) -> Reading {
        self.0(table, interfaces, log, from, out)
    }
}

/// The first of a seed's drawings on which a wrong side shows, made small.
fn found(wrong: Read) -> AskedLog {
    let (wrong, real) = (Wrong(wrong), Real::all().expect("the examples"));
    let differs = |number| compare_drawing(&wrong, 6, number, &real, &mut Met::none()).err();
    let difference = (0..4000).find_map(differs).expect("a drawing that shows it");
    let asked = difference.log.clone().expect("a bus log differs");
    assert!(compare_log(&Proved, &asked).is_ok());
    let (small, _) = smallest_log(&wrong, &asked);
    assert!(compare_log(&wrong, &small).is_err() && compare_log(&Proved, &small).is_ok());
    let told = told(&wrong, "name", difference);
    assert!(told.contains("a bus log, made smaller:\ntable: ") && told.contains("\n  second: "));
    small
}

fn lines(asked: &AskedLog) -> usize {
    asked.log.iter().filter(|&&byte| byte == b'\n').count()
}

#[test]
fn carriage_return_that_is_taken_is_found() {
    let small = found(|table, list, log, from, out| {
        let right = Proved.read_log(table, list, log, from, &mut out.to_vec());
        let mut without = log.to_vec();
        let mut bytes = log.windows(2).map(|two| two != b"\r\n").chain([true]);
        without.retain(|_| bytes.next() == Some(true));
        let log = if right.answer == 12 { &without } else { log };
        Proved.read_log(table, list, log, from, out)
    });
    assert!(small.log.contains(&b'\r') && lines(&small) <= 2, "{small}");
}

#[test]
fn tick_lost_where_a_log_is_gone_on_with_is_found() {
    let small = found(|table, list, log, from, out| {
        let mut reading = Proved.read_log(table, list, log, from, out);
        if reading.answer == 11 && reading.events > 0 {
            reading.cursor.given += 1;
        }
        reading
    });
    assert!(lines(&small) <= 2, "{small}");
}

#[test]
fn zero_time_of_each_part_is_found() {
    // Right in every call that starts with the log.
    let small = found(|table, list, log, from, out| {
        let start = Cursor { first: from.last, given: 0, ..from };
        let from = if from.lines == 1 && from.given > 0 { start } else { from };
        Proved.read_log(table, list, log, from, out)
    });
    assert!(lines(&small) <= 3, "{small}");
}

#[test]
fn line_number_of_a_part_is_found() {
    let small = found(|table, list, log, from, out| {
        let reading = Proved.read_log(table, list, log, from, out);
        let own = reading.line.saturating_sub(from.lines);
        Reading { line: own, ..reading }
    });
    assert!(lines(&small) <= 2, "{small}");
}

#[test]
fn word_written_behind_the_events_is_found() {
    found(|table, list, log, from, out| {
        let reading = Proved.read_log(table, list, log, from, out);
        if let Some(word) = out.get_mut(reading.events) {
            *word = 0;
        }
        reading
    });
}

#[test]
fn word_written_behind_what_is_lent_is_found() {
    found(|table, list, log, from, out| {
        let reading = Proved.read_log(table, list, log, from, out);
        if reading.answer == 11 {
            // SAFETY: the comparison lends its words out of a larger buffer, but where it joins parts, which it does behind.
            unsafe { *out.as_mut_ptr().add(out.len()) = 0 };
        }
        reading
    });
}

#[test]
fn bus_off_of_the_platform_is_found() {
    let small = found(|table, list, log, from, out| {
        let reading = Proved.read_log(table, list, log, from, out);
        out[..reading.events].iter_mut().for_each(|word| *word &= 0xF0FF_FFFF);
        reading
    });
    assert_eq!(lines(&small), 1, "{small}");
}

#[test]
fn answers_that_nothing_met_are_told() {
    let asked = AskedLog {
        table: vec![],
        interfaces: vec![],
        log: vec![],
        from: Cursor::default(),
        room: 0,
    };
    let met = compare_log(&Proved, &asked).expect("no difference");
    let missing = met.all_met().expect_err("few answers are met");
    assert!(missing.contains("answer 12\n") && !missing.contains("answer 1\n"), "{missing}");
}

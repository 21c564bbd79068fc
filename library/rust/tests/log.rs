//! A log of the bench turned into event words, through the wrapper: lines that
//! are read, refusals in their order, and logs read in parts.

use herringcart::LogEnd::{
    BadInterfaces, BadTable, GoesBack, Misspelt, NoRoom, NotListed, Read as All,
};
use herringcart::{Cursor, LogEnd, LogRead, read_log};

/// Document 01's marked table: network 0 is operator 1's.
const MARKED: [u32; 12] = [
    0x0102_0100, 0x0001_0001, 0x0001_0002, 0x0100_0000, 0x2100_0000, 0x1010_2000, 0x030A_0005,
    0x0000_5000, 0x1000_00FF, 0x1838_0002, 0x4000_0002, 0x0000_1234,
];
const TICK: u32 = 0;
const BUS_OFF: u32 = 0x5100_0000;
const WORD: u32 = 0x5555_5555;

/// A microsecond less than 25 milliseconds up to the first bus-off, an error frame that is none
/// at the same time, and up to the second 40 milliseconds in all.
const LOG: &str = "(1700000000.250037) can0 123#0011\n\
                   (1700000000.275036) can0 20000040#\n\
                   (1700000000.275036) can0 20000004#0000000000000000\n\
                   (1700000000.290037) can0 e00000c1#aF\n";
const EVENTS: [u32; 6] = [TICK, TICK, BUS_OFF, TICK, TICK, BUS_OFF];
const LAST: Cursor =
    Cursor { lines: 4, first: 1_700_000_000_250_037, last: 1_700_000_000_290_037, given: 4 };

/// What is given in so many words. What is behind the events must be as it was.
fn from(cursor: &mut Cursor, list: &str, log: &str, room: usize) -> (LogEnd, Vec<u32>, usize) {
    let mut out = vec![WORD; room];
    let start = out.as_ptr();
    let LogRead { end, events, bytes } =
        read_log(&MARKED, list.as_bytes(), log.as_bytes(), cursor, &mut out);
    assert!(events.as_ptr() == start, "the front of what was lent");
    let events = events.to_vec();
    assert!(out[events.len()..].iter().all(|&word| word == WORD));
    (end, events, bytes)
}

/// The same from a log's start on.
fn read(list: &str, log: &str, room: usize) -> (LogEnd, Vec<u32>, usize) {
    from(&mut Cursor::default(), list, log, room)
}

#[test]
fn a_log_in_one_call() {
    for room in [6, 7, 99] {
        let mut cursor = Cursor::default();
        let read = from(&mut cursor, "can0\n", LOG, room);
        assert_eq!(read, (All, EVENTS.to_vec(), LOG.len()));
        assert_eq!(cursor, LAST);
    }
    assert_eq!(read("can0\n", "", 0), (All, vec![], 0));
}

#[test]
fn cut_behind_each_newline() {
    for (cut, _) in LOG.match_indices('\n') {
        let (front, rest) = LOG.split_at(cut + 1);
        let mut cursor = Cursor::default();
        let (first, mut events, bytes) = from(&mut cursor, "can0\n", front, 6);
        assert_eq!((first, bytes), (All, front.len()));
        let (end, more, _) = from(&mut cursor, "can0\n", rest, 6);
        events.extend(more);
        assert_eq!((end, &events[..], cursor), (All, &EVENTS[..], LAST));
    }
}

#[test]
fn gone_on_with_where_there_was_no_room() {
    for room in 1..6 {
        let (mut cursor, mut all, mut at) = (Cursor::default(), vec![], 0);
        let end = loop {
            let (end, events, bytes) = from(&mut cursor, "can0\n", &LOG[at..], room);
            assert_eq!(end.number() == 11, events.len() == room && all.len() + room < 6);
            all.extend(events);
            at += bytes;
            match end {
                // The second line has three events, the fourth two.
                NoRoom(line) => assert_eq!(line, if all.len() < 3 { 2 } else { 4 }),
                end => break end,
            }
        };
        assert_eq!((end, &all[..], at, cursor), (All, &EVENTS[..], LOG.len(), LAST));
    }
}

#[test]
fn no_room_keeps_the_ticks_that_fitted() {
    let mut cursor = Cursor::default();
    let first = LOG.find('\n').expect("a line") + 1;
    assert_eq!(from(&mut cursor, "can0\n", LOG, 1), (NoRoom(2), vec![TICK], first));
    assert_eq!(cursor, Cursor { lines: 1, first: LAST.first, last: LAST.first, given: 1 });
    // A full output is refused only where an event is due.
    assert_eq!(read("can0\n", &LOG[..first], 0), (All, vec![], first));
}

#[test]
fn refused_as_line_0() {
    let mut cursor = LAST;
    let mut out = [WORD; 3];
    let refused = read_log(&MARKED[..11], b"no list", b"no line", &mut cursor, &mut out);
    assert_eq!(refused, LogRead { end: BadTable, events: &[], bytes: 0 });
    for list in ["", "can0", "\n", "can0\ncan1\n", "can 0\n", "sixteen-letters-\n", "can0\n\n"] {
        assert_eq!(from(&mut cursor, list, "no line", 3), (BadInterfaces, vec![], 0), "{list:?}");
    }
    assert_eq!((cursor, out), (LAST, [WORD; 3]));
}

#[test]
fn lines_refused_by_their_numbers_keep_what_was_written() {
    let front = &LOG[..LOG.find("(1700000000.290037)").expect("the last line")];
    let refused = |line: &str, end: LogEnd| {
        let mut cursor = Cursor::default();
        let log = format!("{front}{line}{LOG}");
        let read = from(&mut cursor, "can0\n", &log, 3);
        assert_eq!(read, (end, EVENTS[..3].to_vec(), front.len()), "{line:?}");
        let last = LAST.first + 24_999;
        assert_eq!(cursor, Cursor { lines: 3, first: LAST.first, last, given: 2 });
    };
    // Each stands before those behind it: the last is the one line that is listed and in order.
    refused("(1700000000.275035) can1 20000040 \n", Misspelt(4));
    refused("(1700000000.290037) can0 20000040#00 R\n", Misspelt(4));
    refused("(1700000000.290037) can0 20000040#00\r\n", Misspelt(4));
    refused("(1700000000.275035) can1 20000040#\n", GoesBack(4));
    refused("(1700000000.275036) can1 20000040#\n", NotListed(4));
    refused("(1700000000.275036) can0 20000040#\n", NoRoom(4));
}

#[test]
fn answers_have_their_numbers_and_lines() {
    let lines = [Misspelt(7), GoesBack(7), NotListed(7), NoRoom(7)];
    assert_eq!(lines.map(|end| (end.number(), end.line())), [(12, 7), (14, 7), (15, 7), (11, 7)]);
    let others = [All, BadTable, BadInterfaces];
    assert_eq!(others.map(|end| (end.number(), end.line())), [(0, 0), (1, 0), (13, 0)]);
}

#[test]
fn a_cursor_of_any_numbers() {
    let most = u64::MAX;
    let mut cursor = Cursor { lines: most, first: most, last: 0, given: most };
    assert_eq!(from(&mut cursor, "can0\n", "(9999999999.999999) can0 000#\n", 0).0, All);
    let last = 9_999_999_999_999_999;
    assert_eq!(cursor, Cursor { lines: most, first: most, last, given: most });
    assert_eq!(from(&mut cursor, "can0\n", "(1.000000) can0 000#\n", 0).0, GoesBack(most));
    assert_eq!(from(&mut cursor, "can0\n", "\n", 0).0, Misspelt(most));
}

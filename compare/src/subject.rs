//! What is compared with the second program: the proved code. It stands behind
//! a trait so that the tests can put a wrong one in its place.

use herringcart::{Answer, Check, Held, LogRead, NotRead, Panel, Played};
use second::{Cursor, Listed, Read};

/// What the reading of a bus log gives; its events stand at the front of what was lent.
#[derive(Clone, Copy, PartialEq, Eq, Debug)]
pub struct Reading {
    pub answer: u32,
    pub line: u64,
    pub bytes: usize,
    pub events: usize,
    pub cursor: Cursor,
}

pub trait Subject {
    /// Whether its visits are compared: a side that was made before Q-10 reports none.
    fn counts_visits(&self) -> bool {
        true
    }

    fn check(&self, table: &[u32]) -> Check {
        herringcart::check_table(table)
    }

    fn state_words(&self, table: &[u32]) -> usize {
        herringcart::state_words(table)
    }

    fn fresh(&self, table: &[u32], state: &mut [u32]) -> u32 {
        herringcart::make_fresh(table, state)
    }

    fn check_state(&self, table: &[u32], state: &[u32]) -> u32 {
        herringcart::check_state(table, state)
    }

    fn step(
        &self,
        table: &[u32],
        state: &mut [u32],
        trace: &mut [u32],
        outcomes: &[u32],
        event: u32,
    ) -> Answer {
        herringcart::take_event(table, state, trace, outcomes, event)
    }

    fn play(&self, table: &[u32], state: &mut [u32], trace: &mut [u32], events: &[u32]) -> Played {
        herringcart::play(table, state, trace, events)
    }

    fn panel(
        &self,
        operator: u32,
        table: &[u32],
        state: &[u32],
        words: &[u32],
        lines: &mut [u8],
    ) -> Panel {
        herringcart::panel(operator, table, state, words, lines)
    }

    fn hold<'a>(
        &self,
        table: &[u32],
        state: &mut [u32],
        trace: &'a mut [u32],
        outcomes: &[u32],
        event: u32,
        theirs: &'a [u32],
        their_state: &[u32],
    ) -> Held<'a> {
        herringcart::hold(table, state, trace, outcomes, event, theirs, their_state)
    }

    fn list(&self, table: &[u32], lines: &mut [u8]) -> Listed {
        match herringcart::list(table, lines) {
            Ok(listing) => Listed { answer: 0, bytes: listing.len() },
            Err(refused) => Listed { answer: refused.number(), bytes: 0 },
        }
    }

    fn read(&self, text: &[u8], words: &mut [u32]) -> Read {
        match herringcart::read(text, words) {
            Ok(words) => Read { answer: 0, words: words.len(), line: 0 },
            Err(refused) => {
                let line = if let NotRead::BadLine(line) = refused { line } else { 0 };
                Read { answer: refused.number(), words: 0, line }
            }
        }
    }

    fn read_log(
        &self,
        table: &[u32],
        interfaces: &[u8],
        log: &[u8],
        from: Cursor,
        out: &mut [u32],
    ) -> Reading {
        let Cursor { lines, first, last, given } = from;
        let mut cursor = herringcart::Cursor { lines, first, last, given };
        let LogRead { end, events, bytes } =
            herringcart::read_log(table, interfaces, log, &mut cursor, out);
        let (answer, line, events) = (end.number(), end.line(), events.len());
        let herringcart::Cursor { lines, first, last, given } = cursor;
        let cursor = Cursor { lines, first, last, given };
        Reading { answer, line, bytes, events, cursor }
    }
}

pub struct Proved;

impl Subject for Proved {}

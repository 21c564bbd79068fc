//! A supplier's log, which request Q-7's program reads: what document 01's program prints for each
//! event, as a supplier's printed it.

/// The most words behind an answer.
pub const MOST_WORDS: usize = 8192;

/// A line, each with its newline.
#[derive(Clone, Copy, PartialEq, Eq, Debug)]
enum Line {
    /// One decimal digit.
    Answer(u32),
    /// Eight capital hex digits.
    Word(u32),
    /// Anything else; a last line without its newline too.
    Misspelt,
}

/// What a supplier's program printed for one event.
#[derive(Clone, PartialEq, Eq, Debug)]
pub struct Recording {
    pub answer: u32,
    pub state: Vec<u32>,
    pub trace: Vec<u32>,
}

/// The lines, and how many of them are read.
pub struct Log {
    lines: Vec<Line>,
    read: usize,
}

impl Log {
    pub fn of(bytes: &[u8]) -> Log {
        let lines = bytes.split_inclusive(|&byte| byte == b'\n');
        Log { lines: lines.map(line).collect(), read: 0 }
    }

    /// An answer's line and all word lines behind it: the first words are the state, as many as
    /// the table's state has, the others the trace. Or what is wrong with the log, and in which
    /// line.
    pub fn recording(&mut self, event: usize, state_length: usize) -> Result<Recording, String> {
        let answer = match self.next() {
            Some(Line::Answer(answer)) => answer,
            Some(_) => return Err(self.trouble("no answer, and no word")),
            None => return Err(self.trouble(&format!("it ends before event {event}"))),
        };
        self.read += 1;
        let mut words = vec![];
        loop {
            match self.next() {
                Some(Line::Word(_)) if words.len() == MOST_WORDS => {
                    let many = format!("more than {MOST_WORDS} words behind an answer");
                    return Err(self.trouble(&many));
                }
                Some(Line::Word(word)) => words.push(word),
                Some(Line::Misspelt) => return Err(self.trouble("no answer, and no word")),
                None if words.len() < state_length => {
                    return Err(self.trouble(&format!("it ends in event {event}")));
                }
                Some(Line::Answer(_)) | None => break,
            }
            self.read += 1;
        }
        let trace = words.split_off(state_length.min(words.len()));
        Ok(Recording { answer, state: words, trace })
    }

    /// Nothing is left of it behind the last event's recording.
    pub fn end(&self) -> Result<(), String> {
        match self.next() {
            Some(_) => Err(self.trouble("it goes on behind the last event")),
            None => Ok(()),
        }
    }

    fn next(&self) -> Option<Line> {
        self.lines.get(self.read).copied()
    }

    /// Of the line that is read next, or is missing. Lines count from 1.
    fn trouble(&self, what: &str) -> String {
        format!("line {} of the log: {what}", self.read + 1)
    }
}

fn line(bytes: &[u8]) -> Line {
    let capital = |byte: &u8| matches!(byte, b'0'..=b'9' | b'A'..=b'F');
    let digit = |byte: &u8| (*byte as char).to_digit(16).expect("a hex digit");
    match bytes {
        [answer @ b'0'..=b'9', b'\n'] => Line::Answer(digit(answer)),
        [word @ .., b'\n'] if word.len() == 8 && word.iter().all(capital) => {
            Line::Word(word.iter().fold(0, |word, byte| word << 4 | digit(byte)))
        }
        _ => Line::Misspelt,
    }
}

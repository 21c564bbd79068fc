//! The programs of request Q-4: `list TABLE` and `read LISTING`.

use crate::listing;
use crate::listing::{Bad, lines};
use crate::program::{read as file, words as words_of};

/// What is told of a file.
#[derive(Clone, PartialEq, Eq, Debug)]
pub struct Told {
    /// All of standard output.
    pub printed: Vec<u8>,
    /// All of standard error.
    pub trouble: String,
    pub status: u8,
}

impl Told {
    fn printed(printed: Vec<u8>) -> Told {
        Told { printed, trouble: String::new(), status: 0 }
    }

    fn refused(trouble: String) -> Told {
        Told { printed: vec![], trouble, status: 1 }
    }
}

/// The listing of the table that a file's bytes are.
pub fn list(table: &[u8]) -> Told {
    match lines(&words_of(table)) {
        Ok(lines) => Told::printed(lines.into_bytes()),
        Err(reason) => {
            Told::refused(format!("herringcart: refused: the table has reason {reason}\n"))
        }
    }
}

/// The table that a listing's bytes say, as a file's bytes.
pub fn read(text: &[u8]) -> Told {
    match listing::words(text) {
        Ok(words) => Told::printed(words.into_iter().flat_map(u32::to_be_bytes).collect()),
        Err(bad) => {
            let (number, expected) = (bad.number(), bad.expected());
            let stands = format!("herringcart: line {number}: {}\n", shown(&bad));
            Told::refused(format!("{stands}herringcart: expected: {expected}\n"))
        }
    }
}

/// The most bytes shown of a bad line.
const MOST_SHOWN: usize = 80;

/// What stands in a bad line's place.
fn shown(bad: &Bad) -> String {
    let Some(line) = bad.stands else {
        return "the listing ends".into();
    };
    let (bytes, newline) = match line {
        [bytes @ .., b'\n'] => (bytes, true),
        bytes => (bytes, false),
    };
    let plain = |&byte: &u8| if matches!(byte, 32..=126) { byte as char } else { '?' };
    let front: String = bytes.iter().take(MOST_SHOWN).map(plain).collect();
    match (bytes.len() > MOST_SHOWN, newline) {
        (true, _) => front + " ..",
        (false, false) => front + " (no newline)",
        (false, true) => front,
    }
}

/// Lists a table's file.
pub fn list_file(table: &str) -> Result<Told, String> {
    Ok(list(&file(table)?))
}

/// Reads a listing's file.
pub fn read_file(text: &str) -> Result<Told, String> {
    Ok(read(&file(text)?))
}

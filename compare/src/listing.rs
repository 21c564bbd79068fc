//! `compare list` and `compare read`: the programs of Q-4 over the proved library, in this process. Fixed cases of the second program start
//! them, and what they tell is held against what they recorded.

use std::io::{self, Write as _};
use std::process::ExitCode;

use herringcart::NotRead;
use second::listing_run::{self, Told};
use second::program::words;

use crate::programs::{bytes, read_bytes};

/// Leaves with the status that is told; with 2 for a file that cannot be read. A closed pipe is no trouble: the reader has seen enough.
pub fn tell(path: &str, told: fn(&[u8]) -> Told) -> ExitCode {
    let Told { printed, trouble, status } = match read_bytes(path) {
        Ok(file) => told(&file),
        Err(why) => {
            eprintln!("compare: {why}");
            return ExitCode::from(2);
        }
    };
    match io::stdout().lock().write_all(&printed).and_then(|()| io::stdout().flush()) {
        Ok(()) => {
            eprint!("{trouble}");
            ExitCode::from(status)
        }
        Err(why) if why.kind() == io::ErrorKind::BrokenPipe => ExitCode::SUCCESS,
        Err(why) => {
            eprintln!("compare: cannot print: {why}");
            ExitCode::from(2)
        }
    }
}

/// What is told of a table's file, in the room that is always enough.
pub fn list(file: &[u8]) -> Told {
    let mut lines = vec![0; herringcart::LISTING_BYTES];
    match herringcart::list(&words(file), &mut lines) {
        Ok(listing) => Told { printed: listing.to_vec(), trouble: String::new(), status: 0 },
        Err(refused) => {
            let reason = refused.number();
            let trouble = format!("herringcart: refused: the table has reason {reason}\n");
            Told { printed: vec![], trouble, status: 1 }
        }
    }
}

/// What is told of a listing's file. The library says the number of the first bad line; what stands there and what was expected is told
/// in the second program's words.
pub fn read(text: &[u8]) -> Told {
    let mut words = vec![0; herringcart::TABLE_WORDS];
    let line = match herringcart::read(text, &mut words) {
        Ok(words) => return Told { printed: bytes(words, 0), trouble: String::new(), status: 0 },
        Err(NotRead::BadLine(line)) => line.to_string(),
        Err(NotRead::NoRoom) => "none, but no room".into(),
    };
    let Told { trouble, .. } = listing_run::read(text);
    let said = trouble.strip_prefix("herringcart: line ").and_then(|said| said.split_once(": "));
    let said = said.map_or("", |(_, said)| said);
    Told { printed: vec![], trouble: format!("herringcart: line {line}: {said}"), status: 1 }
}

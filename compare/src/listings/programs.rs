//! The programs of Q-4, `list TABLE` and `read LISTING`, byte for byte against what the second program tells. A proved program's status is
//! always 0: the front makes one of what it says.

use std::collections::BTreeSet;
use std::fs;
use std::path::{Path, PathBuf};
use std::process::{Command, Output};
use std::time::Duration;

use second::cases::listed::{fixed_listings, fixed_texts};
use second::listing::lines;
use second::listing_run::{self, Told};

use super::drawing;
use crate::bench::{MARKED, longest};
use crate::number;
use crate::programs::bytes;
use crate::shrink::smallest_text;

pub const LISTER: &str = "list";
pub const READER: &str = "read";

/// How long a file is made smaller; each try starts the program.
const LIMIT: Duration = Duration::from_secs(60);

/// The program reads so many bytes of a text, and no more: no listing is as long.
const FRONT: usize = 163_840;

/// A program's command line, the file that it is given, and what the second program tells of such a file.
struct Program<'a> {
    command: &'a [&'a str],
    path: PathBuf,
    told: fn(&[u8]) -> Told,
}

impl Program<'_> {
    fn start(&self) -> Result<Output, String> {
        let (name, arguments) = self.command.split_first().ok_or("no program")?;
        let output = Command::new(name).args(arguments).arg(&self.path).output();
        output.map_err(|why| format!("cannot start {name}: {why}"))
    }

    /// Fails where standard output or standard error is not the second program's.
    fn compare(&self, file: &[u8]) -> Result<Told, String> {
        fs::write(&self.path, file)
            .map_err(|why| format!("cannot write {}: {why}", self.path.display()))?;
        let (output, told) = (self.start()?, (self.told)(file));
        let said = output.stderr == told.trouble.as_bytes();
        if output.stdout == told.printed && said && output.status.code() == Some(0) {
            return Ok(told);
        }
        Err(format!(
            "{}, printed \"{}\", said \"{}\"\nthe second program printed \"{}\", said \"{}\"",
            output.status,
            shown(&output.stdout),
            shown(&output.stderr),
            shown(&told.printed),
            shown(told.trouble.as_bytes())
        ))
    }

    /// A file that cannot be read is a message on standard error and no output.
    fn missing(&self) -> Result<(), String> {
        fs::remove_file(&self.path).map_err(|why| why.to_string())?;
        let output = self.start()?;
        if output.stdout.is_empty() && !output.stderr.is_empty() {
            return Ok(());
        }
        Err(format!("without {}: {output:?}", self.path.display()))
    }
}

/// The front of what may be long.
fn shown(bytes: &[u8]) -> String {
    let more = if bytes.len() > 2000 { " .." } else { "" };
    format!("{}{more}", bytes[..bytes.len().min(2000)].escape_ascii())
}

/// The fixed files, so many that are drawn, and long ones.
pub fn programs(
    name: &str,
    folder: &str,
    count: &str,
    seed: &str,
    command: &[&str],
) -> Result<(), String> {
    let (count, seed): (usize, u64) = (number(count)?, number(seed)?);
    fs::create_dir_all(folder).map_err(|why| format!("cannot make {folder}: {why}"))?;
    let reads = name == READER;
    let path = Path::new(folder).join(if reads { "listing" } else { "table" });
    let told = if reads { listing_run::read } else { listing_run::list };
    let program = Program { command, path, told };
    let files = if reads { texts(seed, count) } else { tables(seed, count) };
    let (mut done, mut refused) = (0, BTreeSet::new());
    for (what, file) in &files {
        match program.compare(file) {
            Ok(Told { status: 0, .. }) => done += 1,
            Ok(Told { trouble, .. }) => drop(refused.insert(trouble)),
            Err(told) => {
                let small = smallest_text(file, |file| program.compare(file).is_err(), LIMIT);
                let told = program.compare(&small).err().unwrap_or(told);
                return Err(format!(
                    "{name}, {what}, made smaller:\n\"{}\"\n{told}",
                    shown(&small)
                ));
            }
        }
    }
    program.missing()?;
    all_told(&refused, reads)?;
    let (all, refusals) = (files.len(), refused.len());
    println!(
        "{name}, {all} files: the same bytes; {done} are done, the others refused in {refusals} ways"
    );
    if done > 0 { Ok(()) } else { Err(format!("{name}: no file is done")) }
}

/// Fails where something that a refusal can say was not said.
fn all_told(refused: &BTreeSet<String>, reads: bool) -> Result<(), String> {
    let reading = [
        "line 1: ",
        "line 11: ",
        "line 3186: ",
        ": the listing ends\n",
        " ..\n",
        " (no newline)\n",
        "?",
        ": \nherringcart: expected: ",
        "expected: header 1..2",
        "expected: header 1..512",
        "expected: header 0..255",
        "expected: port ",
        "expected: network 0..15",
        "expected: network 0..255",
        "expected: source ",
        "expected: expression ",
        "expected: rule ",
        "expected: list ",
        "expected: item 0..15 0..4095",
        "expected: item 0..15 0..1",
        "expected: the end of the listing",
    ];
    let listing = ["reason 1\n", "reason 2\n", "reason 3\n", "reason 4\n"];
    let said: &[&str] = if reads { &reading } else { &listing };
    match said.iter().find(|said| !refused.iter().any(|told| told.contains(**said))) {
        None => Ok(()),
        Some(said) => Err(format!("no file is refused with {said:?}")),
    }
}

/// Tables' files, some with bytes past the last word, which are ignored.
fn tables(seed: u64, count: usize) -> Vec<(String, Vec<u8>)> {
    let fixed: BTreeSet<Vec<u32>> = fixed_listings().into_iter().map(|(table, _)| table).collect();
    let fixed = fixed.into_iter().map(|table| ("a fixed table".to_string(), table));
    let drawn = (0..count)
        .map(|number| (format!("drawing {number} of seed {seed}"), drawing(seed, number).table));
    let most = longest();
    let long = [0, 1, 2, 5000, 100_000].map(|more| {
        (format!("{more} words too many"), [&most[..], &vec![u32::MAX; more]].concat())
    });
    let all = fixed.chain(drawn).chain(long).enumerate();
    all.map(|(place, (what, table))| (what, bytes(&table, place % 4))).collect()
}

fn texts(seed: u64, count: usize) -> Vec<(String, Vec<u8>)> {
    let fixed = fixed_texts().into_iter().map(|text| ("a fixed text".to_string(), text));
    let drawn = (0..).flat_map(|number| {
        let name = move |_| format!("drawing {number} of seed {seed}");
        let texts = drawing(seed, number).texts.into_iter().map(|(text, ..)| text);
        texts.enumerate().map(move |(place, text)| (name(place), text))
    });
    fixed.chain(drawn.take(count)).chain(long_texts()).collect()
}

/// Texts that are longer than the front that the program reads, or end about there.
fn long_texts() -> Vec<(String, Vec<u8>)> {
    let [longest, marked] =
        [&longest()[..], &MARKED].map(|table| lines(table).unwrap_or_default().into_bytes());
    let behind = |front: &[u8], byte: u8, length: usize| -> Vec<u8> {
        front.iter().copied().chain(std::iter::repeat(byte)).take(length).collect()
    };
    let mut long = vec![
        ("the longest listing".to_string(), longest.clone()),
        ("the longest listing three times".into(), longest.repeat(3)),
        ("a long line behind the longest listing".into(), behind(&longest, b'9', 2 * FRONT)),
        ("nothing but newlines".into(), behind(&[], b'\n', FRONT + 9)),
        ("nothing but bytes 0".into(), behind(&[], 0, FRONT + 9)),
        ("a number of many digits".into(), behind(b"header 1 2 1 ", b'1', FRONT + 9)),
        ("zeros in a line in the midst".into(), {
            let (front, rest) = longest.split_at(longest.len() - 1 - 21 * 50);
            [&behind(front, b'0', FRONT - 40), rest].concat()
        }),
    ];
    for length in FRONT - 2..=FRONT + 2 {
        let text = behind(&marked, b'x', length);
        long.push((format!("a line up to byte {length}"), text.clone()));
        long.push((
            format!("a line up to byte {length} and a newline"),
            [text, vec![b'\n']].concat(),
        ));
        let lines = [&marked[..], &b"item 0 0 0\n".repeat(length / 11)].concat();
        long.push((format!("lines up to byte {length}"), lines[..length].to_vec()));
    }
    long
}

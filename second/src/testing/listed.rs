//! Request Q-4: a case's table, and one of any words, listed and read back; and texts that are no
//! listings. Lines are judged another way: what any numbers in a line would say is written again,
//! and the line is right if that is what stands there.

use std::fmt::Write as _;

use super::coverage::{Met, Row};
use super::listed_rows::{self as rows, Form, Listing};
use super::log::hold;
use super::played::bytes;
use super::visits_rows::special;
use crate::cases::Case;
use crate::cases::listed::{DAMAGES, LINES, damaged, drawn_room, drawn_table, drawn_text};
use crate::cases::prng::Prng;
use crate::listing_run::{self, Told};
use crate::{check, list, read};

const BYTE: u8 = 0x2E;
const WORD: u32 = 0x5555_5555;
/// How often a table's listing is damaged; of more words than so many only once.
const TIMES: usize = 3;
const MANY: usize = 200;

/// What a text is the listing of; or what its first bad line is.
type Due = Result<Vec<u32>, Bad>;

struct Bad {
    /// The words of the lines before it.
    before: Vec<u32>,
    form: Form,
    /// With its newline, if it has one.
    stands: Option<Vec<u8>>,
}

pub fn try_listing(case: &Case, reason: u32, met: &mut Met) -> Result<(), String> {
    let words = case.table.iter().chain(&case.events);
    let rng = &mut Prng::new(words.fold(4, |seed, &word| seed.rotate_left(11) ^ u64::from(word)));
    try_table(rng, &case.table, reason, met).map_err(|what| format!("listing: {what}"))?;
    let table = drawn_table(rng);
    try_table(rng, &table, check(&table).reason, met)
        .map_err(|what| format!("listing of {table:X?}: {what}"))
}

fn try_table(rng: &mut Prng, table: &[u32], reason: u32, met: &mut Met) -> Result<(), String> {
    if (1..=4).contains(&reason) {
        return try_refused(rng, table, reason, met);
    }
    let forms: Vec<Form> = (0..table.len()).map(|place| form_behind(&table[..place])).collect();
    let lines = forms.iter().zip(table).map(|(&form, &word)| written(form, word));
    let due: String = lines.collect();
    meet_table(table, &forms, reason, met);
    try_rooms(rng, table, &due, met)?;
    let told = listing_run::list(&[&bytes(table)[..], &[0xFF; 3][..table.len() % 4]].concat());
    let printed = Told { printed: due.clone().into_bytes(), trouble: String::new(), status: 0 };
    hold(told == printed, || format!("{told:?}, not {printed:?}"))?;
    try_text(rng, due.as_bytes(), table.len(), met)?;
    for _ in 0..if table.len() > MANY { 1 } else { TIMES } {
        let damage = rng.pick(&DAMAGES);
        let text = damaged(rng, due.as_bytes(), damage);
        let stands = try_text(rng, &text, table.len(), met).map_err(|what| {
            format!("{damage:?} in {:?}: {what}", String::from_utf8_lossy(&text))
        })?;
        let row = if stands { Listing::Stands(damage) } else { Listing::Damaged(damage) };
        // Where nothing could be damaged, or two of the same were exchanged, it is no row.
        if text != due.as_bytes() {
            met.insert(Row::Listing(row));
        }
    }
    Ok(())
}

/// A table of reasons 1 to 4, in any room; and bytes that are no listing.
fn try_refused(rng: &mut Prng, table: &[u32], reason: u32, met: &mut Met) -> Result<(), String> {
    for room in [0, rng.below(400)] {
        let mut out = vec![BYTE; room];
        let listed = list(table, &mut out);
        hold((listed.answer, listed.bytes) == (reason, 0), || format!("{listed:?}"))?;
        hold(out.iter().all(|&byte| byte == BYTE), || "a refused listing laid bytes".into())?;
    }
    let trouble = format!("herringcart: refused: the table has reason {reason}\n");
    let told = listing_run::list(&bytes(table));
    hold(told == Told { printed: vec![], trouble, status: 1 }, || format!("{told:?}"))?;
    met.insert(Row::Listing(Listing::Listed(reason)));
    let noise = drawn_text(rng, table);
    let stands = try_text(rng, &noise, 0, met)?;
    special(met, &[(true, rows::LIST_BEFORE), (!stands, rows::NOISE)]);
    Ok(())
}

/// The listing in just enough room, and in a byte less, some less or more.
fn try_rooms(rng: &mut Prng, table: &[u32], due: &str, met: &mut Met) -> Result<(), String> {
    let needed = due.len();
    let other = drawn_room(rng, needed);
    for room in [needed, other] {
        let mut out = vec![BYTE; room];
        let listed = list(table, &mut out);
        let (answer, laid) = if needed > room { (11, "") } else { (0, due) };
        let given = (listed.answer, listed.bytes);
        hold(given == (answer, laid.len()), || format!("{listed:?} in {room} bytes"))?;
        let (front, behind) = out.split_at(laid.len());
        hold(front == laid.as_bytes(), || format!("{}", String::from_utf8_lossy(front)))?;
        hold(behind.iter().all(|&byte| byte == BYTE), || "bytes behind changed".into())?;
        met.insert(Row::Listing(Listing::Listed(answer)));
    }
    let rows = [
        (true, rows::LIST_EXACT),
        (other > needed, rows::LIST_MORE),
        (other + 1 == needed, rows::LIST_SHORT),
    ];
    special(met, &rows);
    Ok(())
}

/// Whether a text is a listing; it must be read as such, or refused at its first bad line.
fn try_text(rng: &mut Prng, text: &[u8], lines: usize, met: &mut Met) -> Result<bool, String> {
    let due = due(text);
    let told = listing_run::read(text);
    let written = told_of(&due);
    hold(told == written, || format!("{told:?}, not {written:?}"))?;
    match due {
        Ok(words) => {
            try_words(rng, text, &words, met)?;
            Ok(true)
        }
        Err(bad) => {
            try_bad(rng, text, &bad, met)?;
            let number = bad.before.len() + 1;
            special(met, &[(number == lines && bad.stands.is_some(), rows::LINE_LAST)]);
            Ok(false)
        }
    }
}

/// A listing: its words in just enough room and in another, and its bytes once more.
fn try_words(rng: &mut Prng, text: &[u8], words: &[u32], met: &mut Met) -> Result<(), String> {
    let needed = words.len();
    let other = drawn_room(rng, needed);
    for room in [needed, other] {
        let mut out = vec![WORD; room];
        let done = read(text, &mut out);
        let (answer, laid) = if needed > room { (11, &[][..]) } else { (0, words) };
        let given = (done.answer, done.words, done.line);
        hold(given == (answer, laid.len(), 0), || format!("{done:?} in {room} words"))?;
        let (front, behind) = out.split_at(laid.len());
        hold(front == laid, || format!("{front:X?}, not {laid:X?}"))?;
        hold(behind.iter().all(|&word| word == WORD), || "words behind changed".into())?;
        met.insert(Row::Listing(Listing::Read(answer)));
    }
    let mut again = vec![BYTE; text.len()];
    let listed = list(words, &mut again);
    hold((listed.answer, listed.bytes) == (0, text.len()), || format!("{listed:?} again"))?;
    hold(again == text, || "listed again, other bytes".into())?;
    let rows = [
        (true, rows::READ_EXACT),
        (other > needed, rows::READ_MORE),
        (other + 1 == needed, rows::READ_SHORT),
    ];
    special(met, &rows);
    Ok(())
}

/// A text that is none, in any room. The lines before the bad one are a listing's.
fn try_bad(rng: &mut Prng, text: &[u8], bad: &Bad, met: &mut Met) -> Result<(), String> {
    let number = bad.before.len() + 1;
    for room in [0, number + rng.below(99)] {
        let mut out = vec![WORD; room];
        let refused = read(text, &mut out);
        let given = (refused.answer, refused.words, refused.line);
        hold(given == (12, 0, number), || format!("{refused:?}, not line {number}"))?;
        hold(out.iter().all(|&word| word == WORD), || "a refused reading laid words".into())?;
    }
    if rng.chance(20) {
        let table = completed(&bad.before);
        let mut listing = vec![0; 100_000];
        let listed = list(&table, &mut listing);
        hold(listed.answer == 0, || format!("{listed:?} of a table completed"))?;
        let front = |text: &[u8]| {
            let lines = text.split_inclusive(|&byte| byte == b'\n').take(number - 1);
            lines.flatten().copied().collect::<Vec<u8>>()
        };
        hold(front(&listing) == front(text), || "a line before the bad one is bad".into())?;
    }
    meet_bad(bad, met);
    Ok(())
}

/// A table that begins with these words: the least, with zero words for all that is left.
fn completed(words: &[u32]) -> Vec<u32> {
    let header = [0x0101_0000, 0x0001_0001, 0];
    let mut table = [words, &header[words.len().min(3)..]].concat();
    while form_behind(&table) != Form::End {
        table.push(0);
    }
    table
}

/// What the line behind those of these words must be.
fn form_behind(words: &[u32]) -> Form {
    let [first, second, third, behind @ ..] = words else {
        return [Form::First, Form::Second, Form::Third][words.len()];
    };
    let sections = [
        (first >> 16 & 0xFF, Form::Port),
        ((first >> 8 & 0xFF) * 2, Form::Network),
        (first & 0xFF, Form::Source),
        (second >> 16, Form::Expression),
        (second & 0xFFFF, Form::Rule),
        (third >> 16, Form::List),
        (third & 0xFFFF, Form::ItemOne),
    ];
    let mut left = behind.len();
    for (lines, form) in sections {
        if left < lines as usize {
            return match form {
                Form::Network if left % 2 == 1 => Form::Waits,
                Form::ItemOne if first >> 24 == 2 => Form::ItemTwo,
                form => form,
            };
        }
        left -= lines as usize;
    }
    Form::End
}

/// The name and the widths of a line whose first number is this.
fn shape(form: Form, kind: u32) -> (&'static str, &'static [u32]) {
    let operator = (4..=8).contains(&kind);
    LINES[match form {
        Form::First => 0,
        Form::Second | Form::Third => 1,
        Form::Port => 2,
        Form::Network => 3,
        Form::Waits => 4,
        Form::Source => 5,
        Form::Expression if operator => 7,
        Form::Expression => 6,
        Form::Rule => 8,
        Form::List => 9,
        Form::ItemOne => 10,
        Form::ItemTwo => 11,
        Form::End => unreachable!("no line stands behind the last"),
    }]
}

fn written(form: Form, word: u32) -> String {
    let (name, widths) = shape(form, word >> 28);
    let (mut line, mut from) = (String::with_capacity(32), 0);
    line += name;
    for width in widths {
        let _ = write!(line, " {}", word << from >> (32 - width));
        from += width;
    }
    line + "\n"
}

/// What the numbers in a line say, however they are spelt.
fn said(form: Form, line: &[u8]) -> u32 {
    let text = String::from_utf8_lossy(line);
    let words = text.split_whitespace().skip(1);
    let numbers: Vec<u32> = words.filter_map(|word| word.parse().ok()).collect();
    let (_, widths) = shape(form, numbers.first().copied().unwrap_or(0));
    let numbers = numbers.into_iter().chain(std::iter::repeat(0));
    let pack = |word: u32, (&width, number): (&u32, u32)| word << width | number % (1 << width);
    widths.iter().zip(numbers).fold(0, pack)
}

/// The word of a line of this form, with its newline; None where it is not one's.
fn right(form: Form, line: &[u8]) -> Option<u32> {
    let word = (form != Form::End).then(|| said(form, line))?;
    let headed = |header: [u32; 3]| !matches!(check(&header).reason, 2 | 3);
    let counted = match form {
        Form::First => headed([word, 0x0001_0001, 0]),
        Form::Second => headed([0x0101_0000, word, 0]),
        Form::Third => headed([0x0101_0000, 0x0001_0001, word]),
        _ => true,
    };
    (counted && written(form, word).as_bytes() == line).then_some(word)
}

fn due(text: &[u8]) -> Due {
    let mut before = vec![];
    let mut rest = text;
    loop {
        let form = form_behind(&before);
        if rest.is_empty() {
            return if form == Form::End {
                Ok(before)
            } else {
                Err(Bad { before, form, stands: None })
            };
        }
        let end = rest.iter().position(|&byte| byte == b'\n').map_or(rest.len(), |at| at + 1);
        let (line, behind) = rest.split_at(end);
        match right(form, line) {
            Some(word) => before.push(word),
            None => return Err(Bad { before, form, stands: Some(line.to_vec()) }),
        }
        rest = behind;
    }
}

/// What the reading's program must tell.
fn told_of(due: &Due) -> Told {
    let bad = match due {
        Ok(words) => {
            return Told { printed: bytes(words), trouble: String::new(), status: 0 };
        }
        Err(bad) => bad,
    };
    let mut shown = bad.stands.clone().unwrap_or(b"the listing ends\n".to_vec());
    let newline = shown.last() == Some(&b'\n');
    if newline {
        shown.pop();
    }
    let behind = match (shown.len(), newline) {
        (81.., _) => " ..",
        (_, true) => "",
        _ => " (no newline)",
    };
    shown.truncate(80);
    let other = |byte: &u8| byte.is_ascii_graphic() || *byte == b' ';
    shown.iter_mut().filter(|byte| !other(byte)).for_each(|byte| *byte = b'?');
    let stands = String::from_utf8(shown).expect("no other bytes are left");
    let (number, expected) = (bad.before.len() + 1, bad.form.expected());
    let trouble = format!(
        "herringcart: line {number}: {stands}{behind}\nherringcart: expected: {expected}\n"
    );
    Told { printed: vec![], trouble, status: 1 }
}

fn meet_table(table: &[u32], forms: &[Form], reason: u32, met: &mut Met) {
    let mut kinds = [false; 16];
    for (form, word) in forms.iter().zip(table) {
        if *form == Form::Expression {
            kinds[(word >> 28) as usize] = true;
        }
    }
    let met_kinds = (0..16).filter(|&kind| kinds[kind as usize]);
    met.extend(met_kinds.map(|kind| Row::Listing(Listing::Kind(kind))));
    met.insert(Row::Listing(Listing::Reason(reason)));
    if table[2] & 0xFFFF != 0 {
        met.insert(Row::Listing(Listing::Edition(table[0] >> 24)));
    }
    special(met, &[(table.len() == 3185, rows::LIST_LARGEST)]);
}

fn meet_bad(bad: &Bad, met: &mut Met) {
    let number = bad.before.len() + 1;
    met.insert(Row::Listing(Listing::Read(12)));
    special(
        met,
        &[
            (true, rows::READ_BEFORE),
            (number == 11, rows::LINE_11),
            (number == 1, rows::LINE_FIRST),
            (number >= 1000, rows::LINE_1000),
        ],
    );
    let Some(line) = &bad.stands else {
        met.insert(Row::Listing(Listing::Missing(bad.form)));
        return;
    };
    met.insert(Row::Listing(Listing::Bad(bad.form)));
    let other = |&byte: &u8| byte != b'\n' && !matches!(byte, 32..=126);
    special(
        met,
        &[
            (!line.ends_with(b"\n") && line.len() <= 80, rows::NO_NEWLINE),
            (line.iter().any(other), rows::OTHER_BYTES),
            (line.len() > 81, rows::LONG),
            (line == b"\n", rows::EMPTY),
        ],
    );
}

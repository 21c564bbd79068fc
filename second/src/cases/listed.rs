//! Tables to list and texts to read, request Q-4: any words behind a header that lists, and
//! listings that are damaged.

use super::prng::Prng;
pub use crate::testing::{fixed_listings, fixed_reads, fixed_texts};
use crate::words::{HEADER, SECTIONS, Section};

/// The lines there are: a name, and the widths of the fields. The maker's own numbers, so that
/// wrong ones in the rules show. Each is known by its name and how many fields it has.
pub const LINES: [(&str, &[u32]); 13] = [
    ("header", &[8, 8, 8, 8]),
    ("header", &[16, 16]),
    ("port", &[2, 1, 1, 4, 8, 16]),
    ("network", &[4, 8, 8, 12]),
    ("network", &[8, 8, 16]),
    ("source", &[4, 8, 16, 4]),
    ("expression", &[4, 8, 8, 12]),
    ("expression", &[4, 14, 14]),
    ("rule", &[4, 2, 1, 9, 8, 8]),
    ("list", &[4, 1, 8, 11, 8]),
    ("item", &[4, 12, 16]),
    ("item", &[4, 1, 11, 16]),
    // Not a section's, but a line that someone may have written.
    ("trace", &[4, 4, 8, 16]),
];

/// What is done to a listing.
#[derive(Clone, Copy, PartialEq, Eq, PartialOrd, Ord, Debug)]
pub enum Damage {
    Bytes(Bytes),
    Lines(Lines),
    Spelling(Spelling),
    Fields(Fields),
}

/// To a byte anywhere in it.
#[derive(Clone, Copy, PartialEq, Eq, PartialOrd, Ord, Debug)]
pub enum Bytes {
    Changed,
    Lost,
    Added,
    Exchanged,
    /// All from there on are lost.
    Cut,
}

/// To its lines.
#[derive(Clone, Copy, PartialEq, Eq, PartialOrd, Ord, Debug)]
pub enum Lines {
    Lost,
    Doubled,
    Exchanged,
    /// One of its own once more, behind the last.
    Added,
    /// All from there on are lost.
    Cut,
    /// An empty one more.
    Empty,
    /// A comment more.
    Comment,
    /// The last one's newline is lost.
    NoNewline,
    /// Some of a line's bytes behind the last, without a newline.
    Trailing,
    /// Several are one, with another byte in their newlines' places.
    Joined,
}

/// To how one line is spelt.
#[derive(Clone, Copy, PartialEq, Eq, PartialOrd, Ord, Debug)]
pub enum Spelling {
    LeadingZero,
    Plus,
    Minus,
    Tab,
    TwoSpaces,
    SpaceBefore,
    SpaceBehind,
    Return,
    Capital,
    OtherName,
    Nul,
    HighByte,
    /// About eighty bytes long.
    Padded,
    /// A comment behind it.
    Remark,
    /// The three bytes that some editors put before a text.
    OrderMark,
}

/// To the fields of one line.
#[derive(Clone, Copy, PartialEq, Eq, PartialOrd, Ord, Debug)]
pub enum Fields {
    /// To another number of its width, in a line that is no header and not in an expression's
    /// kind.
    Changed,
    /// The least number that is too big for its width.
    TooBig,
    /// Its number and 2 to the 32nd, the 63rd or the 64th more, or as many as have twenty digits.
    Long,
    Lost,
    Added,
    /// Another count in the header.
    Count,
    /// A count in the header just outside its limits, or edition 0 or 3.
    Limit,
    /// The other edition.
    Edition,
    /// An expression's kind, which has other fields.
    Kind,
}

pub const DAMAGES: [Damage; 39] = {
    use Damage::{Bytes as B, Fields as F, Lines as L, Spelling as S};
    [
        B(Bytes::Changed),
        B(Bytes::Lost),
        B(Bytes::Added),
        B(Bytes::Exchanged),
        B(Bytes::Cut),
        L(Lines::Lost),
        L(Lines::Doubled),
        L(Lines::Exchanged),
        L(Lines::Added),
        L(Lines::Cut),
        L(Lines::Empty),
        L(Lines::Comment),
        L(Lines::NoNewline),
        L(Lines::Trailing),
        L(Lines::Joined),
        S(Spelling::LeadingZero),
        S(Spelling::Plus),
        S(Spelling::Minus),
        S(Spelling::Tab),
        S(Spelling::TwoSpaces),
        S(Spelling::SpaceBefore),
        S(Spelling::SpaceBehind),
        S(Spelling::Return),
        S(Spelling::Capital),
        S(Spelling::OtherName),
        S(Spelling::Nul),
        S(Spelling::HighByte),
        S(Spelling::Padded),
        S(Spelling::Remark),
        S(Spelling::OrderMark),
        F(Fields::Changed),
        F(Fields::TooBig),
        F(Fields::Long),
        F(Fields::Lost),
        F(Fields::Added),
        F(Fields::Count),
        F(Fields::Limit),
        F(Fields::Edition),
        F(Fields::Kind),
    ]
};

/// A count: mostly few, at times the least or the most.
fn some_count(rng: &mut Prng, section: Section) -> usize {
    let (least, most) = section.limits();
    match rng.weighed(&[82, 15, 3]) {
        0 => (least + rng.below(6)).min(most),
        1 => least,
        _ => most,
    }
}

/// Any word: all bits drawn, few set, none, or all.
fn some_word(rng: &mut Prng) -> u32 {
    match rng.weighed(&[60, 20, 10, 10]) {
        0 => rng.word(),
        1 => rng.word() & rng.word() & rng.word(),
        2 => 0,
        _ => u32::MAX,
    }
}

/// A table that lists: a header within its limits, and any words behind it.
pub fn drawn_table(rng: &mut Prng) -> Vec<u32> {
    let counts = SECTIONS.map(|section| some_count(rng, section));
    let [ports, networks, sources, expressions, rules, lists, items] = counts;
    let edition = rng.pick(&[1, 2]);
    let head = [edition, ports, networks, sources];
    let mut table = vec![
        head.iter().fold(0, |word, &count| word << 8 | count as u32),
        (expressions << 16 | rules) as u32,
        (lists << 16 | items) as u32,
    ];
    let length = counts.iter().sum::<usize>() + networks;
    table.extend((0..length).map(|_| some_word(rng)));
    table
}

/// Room about what is needed, in bytes or in words: just enough, one less, less, or more.
pub fn drawn_room(rng: &mut Prng, needed: usize) -> usize {
    match rng.weighed(&[30, 30, 15, 25]) {
        0 => needed,
        1 => needed.saturating_sub(1),
        2 => rng.below(needed + 1),
        _ => needed + 1 + rng.below(9),
    }
}

/// The listing of a table, now and then whole and mostly damaged once, at times twice; bytes that
/// are no listing of one that does not list.
pub fn drawn_text(rng: &mut Prng, table: &[u32]) -> Vec<u8> {
    let Ok(lines) = crate::listing::lines(table) else {
        let some = b"header 0129\n pot-+\t\r\0\xFF";
        return (0..rng.below(60)).map(|_| rng.pick(some)).collect();
    };
    let mut text = lines.into_bytes();
    for _ in 0..rng.weighed(&[10, 75, 15]) {
        let damage = rng.pick(&DAMAGES);
        text = damaged(rng, &text, damage);
    }
    text
}

/// A text with this done to it, at a place that is drawn; where there is no such place, unchanged.
pub fn damaged(rng: &mut Prng, text: &[u8], damage: Damage) -> Vec<u8> {
    let mut text = text.to_vec();
    if text.is_empty() {
        return text;
    }
    if let Damage::Bytes(bytes) = damage {
        damage_bytes(rng, &mut text, bytes);
        return text;
    }
    let mut lines: Vec<Vec<u8>> =
        text.split_inclusive(|&byte| byte == b'\n').map(<[u8]>::to_vec).collect();
    match damage {
        Damage::Lines(what) => damage_lines(rng, &mut lines, what),
        Damage::Spelling(spelling) => {
            let at = some_line(rng, lines.len());
            damage_spelling(rng, &mut lines[at], spelling);
        }
        Damage::Fields(fields) => damage_fields(rng, &mut lines, fields),
        Damage::Bytes(_) => {}
    }
    lines.concat()
}

/// A line's number from 0: often of the header, or the last.
fn some_line(rng: &mut Prng, lines: usize) -> usize {
    match rng.weighed(&[25, 10, 65]) {
        0 => rng.below(lines.min(HEADER)),
        1 => lines - 1,
        _ => rng.below(lines),
    }
}

fn damage_bytes(rng: &mut Prng, text: &mut Vec<u8>, what: Bytes) {
    let at = rng.below(text.len());
    let next = (at + 1).min(text.len() - 1);
    let byte = if rng.chance(75) { rng.pick(b"0123456789 \nehp") } else { rng.word() as u8 };
    match what {
        Bytes::Changed => text[at] = byte,
        Bytes::Lost => drop(text.remove(at)),
        Bytes::Added => text.insert(rng.below(text.len() + 1), byte),
        Bytes::Exchanged => text.swap(at, next),
        Bytes::Cut => text.truncate(at),
    }
}

fn damage_lines(rng: &mut Prng, lines: &mut Vec<Vec<u8>>, what: Lines) {
    let at = some_line(rng, lines.len());
    let line = lines[at].clone();
    match what {
        Lines::Lost => drop(lines.remove(at)),
        Lines::Doubled => lines.insert(at, line),
        Lines::Exchanged => {
            let (next, any) = ((at + 1).min(lines.len() - 1), rng.below(lines.len()));
            lines.swap(at, if rng.chance(60) { next } else { any });
        }
        Lines::Added => lines.push(line),
        Lines::Cut => lines.truncate(at),
        Lines::Empty => lines.insert(rng.below(lines.len() + 1), b"\n".to_vec()),
        Lines::Comment => lines.insert(rng.below(lines.len() + 1), b"# a port\n".to_vec()),
        Lines::NoNewline => drop(lines.last_mut().and_then(Vec::pop)),
        Lines::Trailing => lines.push(line[..1 + rng.below(line.len().max(2) - 1)].to_vec()),
        Lines::Joined => {
            let (end, byte) = (at + 1 + rng.below(9), rng.pick(b" \r;\0"));
            let joined = lines.iter_mut().take(end).skip(at);
            joined.for_each(|line| *line.last_mut().expect("a line has a byte") = byte);
        }
    }
}

fn damage_spelling(rng: &mut Prng, line: &mut Vec<u8>, what: Spelling) {
    // Where a number begins: behind one of the spaces.
    let spaces: Vec<usize> = (0..line.len()).filter(|&place| line[place] == b' ').collect();
    let Some(space) = rng.pick_any(&spaces) else {
        return;
    };
    let (number, end) = (space + 1, line.len() - 1);
    match what {
        Spelling::LeadingZero => line.insert(number, b'0'),
        Spelling::Plus => line.insert(number, b'+'),
        Spelling::Minus => line.insert(number, b'-'),
        Spelling::Tab => line[space] = b'\t',
        Spelling::TwoSpaces => line.insert(space, b' '),
        Spelling::SpaceBefore => line.insert(0, b' '),
        Spelling::SpaceBehind => line.insert(end, b' '),
        Spelling::Return => line.insert(end, b'\r'),
        Spelling::Capital => {
            let at = rng.pick(&[0, spaces[0].saturating_sub(1)]);
            line[at] = line[at].to_ascii_uppercase();
        }
        Spelling::OtherName => {
            let (name, _) = rng.pick(&LINES);
            line.splice(..spaces[0], name.bytes());
        }
        Spelling::Nul => line.insert(rng.below(line.len()), 0),
        Spelling::Padded => {
            let more = (79 + rng.below(4)).saturating_sub(end);
            line.splice(end..end, vec![b'9'; more]);
        }
        Spelling::Remark => drop(line.splice(end..end, *b" # a port")),
        Spelling::OrderMark => drop(line.splice(..0, *b"\xEF\xBB\xBF")),
        Spelling::HighByte => line.insert(rng.below(line.len()), rng.pick(&[127, 128, 160, 255])),
    }
}

const TWENTY_DIGITS: u128 = 99_999_999_999_999_990_000;

/// A line's name and numbers, and its fields' widths; None of a line that has none.
fn parted(line: &[u8]) -> Option<(String, Vec<u128>, &'static [u32])> {
    let text = std::str::from_utf8(line).ok()?;
    let mut words = text.split_whitespace();
    let name = words.next()?;
    let numbers: Vec<u128> = words.map(|word| word.parse().ok()).collect::<Option<_>>()?;
    let (_, widths) =
        LINES.into_iter().find(|(n, widths)| *n == name && widths.len() == numbers.len())?;
    Some((name.to_string(), numbers, widths))
}

fn joined(name: &str, numbers: &[u128]) -> Vec<u8> {
    let numbers: String = numbers.iter().map(|number| format!(" {number}")).collect();
    format!("{name}{numbers}\n").into_bytes()
}

fn damage_fields(rng: &mut Prng, lines: &mut [Vec<u8>], what: Fields) {
    let named = |name: &[u8]| {
        (0..lines.len()).filter(|&at| lines[at].starts_with(name)).collect::<Vec<usize>>()
    };
    let at = match what {
        Fields::Count | Fields::Limit => rng.below(lines.len().min(HEADER)),
        Fields::Edition => 0,
        Fields::Kind => rng.pick_any(&named(b"expression")).unwrap_or(0),
        Fields::Changed => HEADER.min(lines.len() - 1) + rng.below(lines.len().max(4) - HEADER),
        _ => some_line(rng, lines.len()),
    };
    let at = at.min(lines.len() - 1);
    let Some((name, mut numbers, widths)) = parted(&lines[at]) else {
        return;
    };
    let field = rng.below(numbers.len());
    let past = 1 << widths[field];
    match what {
        Fields::Changed if name == "expression" && field == 0 => {}
        Fields::Changed => numbers[field] = u128::from(rng.draw()) % past,
        Fields::TooBig => numbers[field] = past,
        Fields::Long => numbers[field] += rng.pick(&[1 << 32, 1 << 63, 1 << 64, TWENTY_DIGITS]),
        Fields::Lost => drop(numbers.remove(field)),
        Fields::Added => numbers.insert(field, if rng.chance(50) { 0 } else { numbers[field] }),
        Fields::Count => damage_count(rng, at, &mut numbers),
        Fields::Limit => damage_limit(rng, at, &mut numbers),
        Fields::Edition => numbers[0] = 3 - numbers[0].min(3),
        Fields::Kind => {
            let operator = (4..=8).contains(&numbers[0]);
            let kinds: &[u128] = if operator { &[0, 1, 2, 3, 9, 10, 15] } else { &[4, 5, 6, 7, 8] };
            numbers[0] = rng.pick(kinds);
        }
    }
    lines[at] = joined(&name, &numbers);
}

/// The sections whose counts each line of the header has, the edition in the first's front.
const COUNTED: [&[Section]; HEADER] = [
    &[Section::Ports, Section::Networks, Section::Sources],
    &[Section::Expressions, Section::Rules],
    &[Section::Lists, Section::Items],
];

/// Another count within its limits.
fn damage_count(rng: &mut Prng, at: usize, numbers: &mut [u128]) {
    let counted = COUNTED[at];
    let which = rng.below(counted.len());
    let Some(field) = (numbers.len() + which).checked_sub(counted.len()) else {
        return;
    };
    let (least, most) = counted[which].limits();
    let count = numbers[field];
    let near = if rng.chance(50) { count + 1 } else { count.saturating_sub(1) };
    let any = rng.within(least as u32, most as u32).into();
    let drawn = if rng.chance(75) { near } else { any };
    numbers[field] = drawn.clamp(least as u128, most as u128);
}

/// The least count too many, or too few where there may be too few; or no edition.
fn damage_limit(rng: &mut Prng, at: usize, numbers: &mut [u128]) {
    let counted = COUNTED[at];
    let which = rng.below(numbers.len());
    let (least, most) = match (which + counted.len()).checked_sub(numbers.len()) {
        None => (1, 2),
        Some(which) => counted[which].limits(),
    };
    let few = least > 0 && rng.chance(50);
    numbers[which] = if few { least as u128 - 1 } else { most as u128 + 1 };
}

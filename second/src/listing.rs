//! Listing and reading back: request Q-4.

use std::fmt::{self, Write as _};

use crate::check::shaped;
use crate::panel::NO_ROOM;
use crate::words::*;

/// The text is no listing; Q-4: "The reader refuses, with the first bad line's number, any other
/// spelling".
pub const NO_LISTING: u32 = 12;

#[derive(Clone, Copy, PartialEq, Eq, Debug)]
pub struct Listed {
    /// 0; or 1 to 4, the table's reason; or 11.
    pub answer: u32,
    /// How many bytes were laid at the front of the room; 0 in a refusal.
    pub bytes: usize,
}

#[derive(Clone, Copy, PartialEq, Eq, Debug)]
pub struct Read {
    /// 0; or 12; or 11.
    pub answer: u32,
    /// How many words were laid at the front of the room; 0 in a refusal.
    pub words: usize,
    /// The first bad line's number from 1; 0 but with answer 12.
    pub line: usize,
}

/// Lays a table's listing at the front of the room lent. A refusal changes no byte of the room.
pub fn list(table: &[u32], out: &mut [u8]) -> Listed {
    let refused = |answer: u32| Listed { answer, bytes: 0 };
    let lines = match lines(table) {
        Err(reason) => return refused(reason),
        Ok(lines) if lines.len() > out.len() => return refused(NO_ROOM),
        Ok(lines) => lines,
    };
    out[..lines.len()].copy_from_slice(lines.as_bytes());
    Listed { answer: 0, bytes: lines.len() }
}

/// Lays the words of a listing's table at the front of the room lent. A refusal changes no word of
/// the room.
pub fn read(text: &[u8], out: &mut [u32]) -> Read {
    let refused = |answer: u32, line: usize| Read { answer, words: 0, line };
    let words = match words(text) {
        Err(bad) => return refused(NO_LISTING, bad.number()),
        Ok(words) if words.len() > out.len() => return refused(NO_ROOM, 0),
        Ok(words) => words,
    };
    out[..words.len()].copy_from_slice(&words);
    Read { answer: 0, words: words.len(), line: 0 }
}

/// A table's whole listing; or its reason, 1 to 4. Tables with later reasons list.
pub fn lines(table: &[u32]) -> Result<String, u32> {
    shaped(table)?;
    let mut lines = String::new();
    for (place, &word) in table.iter().enumerate() {
        Form::of(&table[..place], word).write(word, &mut lines);
    }
    Ok(lines)
}

/// The words of the table that a text is the listing of; or its first bad line.
pub fn words(text: &[u8]) -> Result<Vec<u32>, Bad<'_>> {
    let mut words = vec![];
    for line in text.split_inclusive(|&byte| byte == b'\n') {
        let forms = Form::behind(&words).iter();
        // A line that another form would have been written in is misspelt.
        let read = forms.filter_map(|form| {
            let word = form.read(line)?;
            (Form::of(&words, word) == *form).then_some(word)
        });
        match read.last() {
            Some(word) => words.push(word),
            None => return Err(Bad { before: words, stands: Some(line) }),
        }
    }
    if Form::behind(&words).is_empty() {
        Ok(words)
    } else {
        Err(Bad { before: words, stands: None })
    }
}

/// The first line at which a text is no listing's.
#[derive(Clone, PartialEq, Eq, Debug)]
pub struct Bad<'a> {
    /// The words of the lines before it.
    before: Vec<u32>,
    /// The bad line with its newline, if it has one; None where it is missing.
    pub stands: Option<&'a [u8]>,
}

impl Bad<'_> {
    /// Lines count from 1.
    pub fn number(&self) -> usize {
        self.before.len() + 1
    }

    /// What a listing would have there.
    pub fn expected(&self) -> String {
        match Form::behind(&self.before) {
            [] => "the end of the listing".into(),
            [form, ..] if *form == CONDITION => format!("{CONDITION}; kinds 4 to 8: {OPERATOR}"),
            [form, ..] => form.to_string(),
        }
    }
}

/// What a line is: its section's name and its fields.
#[derive(Clone, Copy, PartialEq, Eq, Debug)]
pub struct Form {
    name: &'static str,
    widths: &'static [u32],
    /// The least and the most of its first fields; the others are held by their widths alone.
    limits: &'static [(u32, u32)],
}

const fn limits(section: Section) -> (u32, u32) {
    let (least, most) = section.limits();
    (least as u32, most as u32)
}

const fn form(name: &'static str, widths: &'static [u32]) -> Form {
    Form { name, widths, limits: &[] }
}

/// "an edition or count that reasons 2 and 3 refuse" is another spelling.
const HEADERS: [Form; HEADER] = [
    Form {
        limits: &[
            (edition::ONE, edition::TWO),
            limits(Section::Ports),
            limits(Section::Networks),
            limits(Section::Sources),
        ],
        ..form("header", Head::WIDTHS)
    },
    Form {
        limits: &[limits(Section::Expressions), limits(Section::Rules)],
        ..form("header", Pair::WIDTHS)
    },
    Form {
        limits: &[limits(Section::Lists), limits(Section::Items)],
        ..form("header", Pair::WIDTHS)
    },
];
const PORT: Form = form("port", Port::WIDTHS);
const NETWORK: Form = form("network", Network::WIDTHS);
const WAITS: Form = form("network", Waits::WIDTHS);
const SOURCE: Form = form("source", Source::WIDTHS);
const CONDITION: Form = form("expression", Condition::WIDTHS);
const OPERATOR: Form =
    Form { limits: &[(expression::AND, expression::NOT)], ..form("expression", Operator::WIDTHS) };
const RULE: Form = form("rule", Rule::WIDTHS);
const LIST: Form = form("list", List::WIDTHS);
const ITEM_ONE: Form = form("item", ItemOne::WIDTHS);
const ITEM_TWO: Form = form("item", ItemTwo::WIDTHS);

impl Form {
    /// The forms that the line behind those of these words may have; none behind the last.
    fn behind(words: &[u32]) -> &'static [Form] {
        let Some(table) = Table::of(words) else {
            return std::slice::from_ref(&HEADERS[words.len()]);
        };
        match table.section_at(words.len()) {
            None => &[],
            Some((Section::Ports, _)) => &[PORT],
            Some((Section::Networks, 0)) => &[NETWORK],
            Some((Section::Networks, _)) => &[WAITS],
            Some((Section::Sources, _)) => &[SOURCE],
            Some((Section::Expressions, _)) => &[CONDITION, OPERATOR],
            Some((Section::Rules, _)) => &[RULE],
            Some((Section::Lists, _)) => &[LIST],
            Some((Section::Items, _)) if table.edition == edition::TWO => &[ITEM_TWO],
            Some((Section::Items, _)) => &[ITEM_ONE],
        }
    }

    /// The form of the line of a word that stands behind these.
    fn of(words: &[u32], word: u32) -> Form {
        match (Form::behind(words), Expression::of(word)) {
            ([CONDITION, OPERATOR], Expression::Operator(_)) => OPERATOR,
            (forms, _) => forms[0],
        }
    }

    /// Each field's width, least and most.
    fn fields(&self) -> impl Iterator<Item = (u32, u32, u32)> {
        self.widths.iter().enumerate().map(|(field, &width)| {
            let (least, most) = self.limits.get(field).copied().unwrap_or((0, (1 << width) - 1));
            (width, least, most)
        })
    }

    fn write(&self, word: u32, lines: &mut String) {
        lines.push_str(self.name);
        let mut behind = u32::BITS;
        for (width, ..) in self.fields() {
            behind -= width;
            let _ = write!(lines, " {}", word >> behind & ((1 << width) - 1));
        }
        lines.push('\n');
    }

    /// The word whose line this is, its newline included.
    fn read(&self, line: &[u8]) -> Option<u32> {
        let mut rest = line.strip_prefix(self.name.as_bytes())?;
        let mut word = 0;
        for (width, least, most) in self.fields() {
            rest = rest.strip_prefix(b" ")?;
            let digits = rest.iter().take_while(|byte| byte.is_ascii_digit()).count();
            let field = number(&rest[..digits])?;
            if !(least..=most).contains(&field) {
                return None;
            }
            word = word << width | field;
            rest = &rest[digits..];
        }
        (rest == b"\n").then_some(word)
    }
}

/// The name, and of each field the least and the most.
impl fmt::Display for Form {
    fn fmt(&self, f: &mut fmt::Formatter) -> fmt::Result {
        f.write_str(self.name)?;
        self.fields().try_for_each(|(_, least, most)| write!(f, " {least}..{most}"))
    }
}

/// The number that digits say without a leading zero. One too large to hold is held at the largest,
/// for no field has so many bits.
fn number(digits: &[u8]) -> Option<u32> {
    let next =
        |number: u32, &byte: &u8| number.saturating_mul(10).saturating_add(u32::from(byte - b'0'));
    match digits {
        [] | [b'0', _, ..] => None,
        _ => Some(digits.iter().fold(0, next)),
    }
}

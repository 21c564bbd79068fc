//! Rows of request Q-4: what was listed, how listings were damaged, and what was told of them.

use std::fmt;

use crate::cases::listed::{Bytes, DAMAGES, Damage, Fields, Lines, Spelling};

#[derive(Clone, Copy, PartialEq, Eq, PartialOrd, Ord, Debug)]
pub enum Listing {
    /// The answer to listing.
    Listed(u32),
    /// The reason of a table that is listed all the same.
    Reason(u32),
    /// A table of this edition with an item.
    Edition(u32),
    /// An expression's kind.
    Kind(u32),
    /// The answer to reading.
    Read(u32),
    /// Refused.
    Damaged(Damage),
    /// Still a listing, and another one than before.
    Stands(Damage),
    /// The form of a bad line.
    Bad(Form),
    /// The form of a line that is missing at the text's end.
    Missing(Form),
}

/// What a line must be.
#[derive(Clone, Copy, PartialEq, Eq, PartialOrd, Ord, Debug)]
pub enum Form {
    First,
    Second,
    Third,
    Port,
    Network,
    Waits,
    Source,
    Expression,
    Rule,
    List,
    ItemOne,
    ItemTwo,
    End,
}

pub const FORMS: [Form; 13] = {
    use Form::*;
    [
        First, Second, Third, Port, Network, Waits, Source, Expression, Rule, List, ItemOne,
        ItemTwo, End,
    ]
};

impl Form {
    /// What is told where a line of it is expected, as it was decided.
    pub fn expected(self) -> &'static str {
        match self {
            Form::First => "header 1..2 1..64 0..8 0..32",
            Form::Second => "header 1..512 1..256",
            Form::Third => "header 0..255 0..2047",
            Form::Port => "port 0..3 0..1 0..1 0..15 0..255 0..65535",
            Form::Network => "network 0..15 0..255 0..255 0..4095",
            Form::Waits => "network 0..255 0..255 0..65535",
            Form::Source => "source 0..15 0..255 0..65535 0..15",
            Form::Expression => {
                "expression 0..15 0..255 0..255 0..4095; \
                 kinds 4 to 8: expression 4..8 0..16383 0..16383"
            }
            Form::Rule => "rule 0..15 0..3 0..1 0..511 0..255 0..255",
            Form::List => "list 0..15 0..1 0..255 0..2047 0..255",
            Form::ItemOne => "item 0..15 0..4095 0..65535",
            Form::ItemTwo => "item 0..15 0..1 0..2047 0..65535",
            Form::End => "the end of the listing",
        }
    }
}

/// Damages that leave some listings listings: of other words, or of the same.
const STANDING: [Damage; 9] = [
    Damage::Bytes(Bytes::Changed),
    Damage::Bytes(Bytes::Lost),
    Damage::Bytes(Bytes::Added),
    Damage::Bytes(Bytes::Exchanged),
    Damage::Lines(Lines::Exchanged),
    Damage::Fields(Fields::Changed),
    // An expression's kind lost or doubled: `expression 0 4 3 1` and `expression 4 3 1`.
    Damage::Fields(Fields::Lost),
    Damage::Fields(Fields::Added),
    Damage::Fields(Fields::Edition),
];

/// A number within its width, which always stands.
const NEVER_REFUSED: Damage = Damage::Fields(Fields::Changed);

pub fn rows() -> impl Iterator<Item = Listing> {
    let refused = DAMAGES.into_iter().filter(|&damage| damage != NEVER_REFUSED);
    let missing = FORMS.into_iter().filter(|&form| form != Form::End);
    [0, 1, 2, 3, 4, 11]
        .map(Listing::Listed)
        .into_iter()
        .chain([0, 5, 6, 7, 8, 9, 10].map(Listing::Reason))
        .chain([1, 2].map(Listing::Edition))
        .chain((0..=15).map(Listing::Kind))
        .chain([0, 11, 12].map(Listing::Read))
        .chain(refused.map(Listing::Damaged))
        .chain(STANDING.map(Listing::Stands))
        .chain(FORMS.map(Listing::Bad))
        .chain(missing.map(Listing::Missing))
}

fn damage_name(damage: Damage) -> &'static str {
    match damage {
        Damage::Bytes(bytes) => match bytes {
            Bytes::Changed => "a byte changed",
            Bytes::Lost => "a byte lost",
            Bytes::Added => "a byte added",
            Bytes::Exchanged => "two bytes exchanged",
            Bytes::Cut => "cut off at a byte",
        },
        Damage::Lines(lines) => match lines {
            Lines::Lost => "a line lost",
            Lines::Doubled => "a line doubled",
            Lines::Exchanged => "two lines exchanged",
            Lines::Added => "a line added at the end",
            Lines::Cut => "cut off at a line",
            Lines::Empty => "an empty line added",
            Lines::Comment => "a comment added",
            Lines::NoNewline => "the last newline lost",
            Lines::Trailing => "bytes behind the last newline",
            Lines::Joined => "several lines in one",
        },
        Damage::Spelling(spelling) => spelling_name(spelling),
        Damage::Fields(fields) => match fields {
            Fields::Changed => "a field changed within its width",
            Fields::TooBig => "a field too big by one",
            Fields::Long => "a field too big by 2 to the 32nd or more",
            Fields::Lost => "a field lost",
            Fields::Added => "a field added",
            Fields::Count => "another count",
            Fields::Limit => "a count or edition outside its limits",
            Fields::Edition => "the other edition",
            Fields::Kind => "an expression's kind with other fields",
        },
    }
}

fn spelling_name(spelling: Spelling) -> &'static str {
    match spelling {
        Spelling::LeadingZero => "a leading zero",
        Spelling::Plus => "a plus sign",
        Spelling::Minus => "a minus sign",
        Spelling::Tab => "a tab",
        Spelling::TwoSpaces => "two spaces",
        Spelling::SpaceBefore => "a space before the line",
        Spelling::SpaceBehind => "a space behind the line",
        Spelling::Return => "a carriage return",
        Spelling::Capital => "a capital",
        Spelling::OtherName => "another name",
        Spelling::Nul => "a byte 0",
        Spelling::HighByte => "a byte above 126",
        Spelling::Padded => "about eighty bytes in a line",
        Spelling::Remark => "a comment behind the line",
        Spelling::OrderMark => "a byte order mark",
    }
}

impl fmt::Display for Listing {
    fn fmt(&self, f: &mut fmt::Formatter) -> fmt::Result {
        match *self {
            Listing::Listed(answer) => write!(f, "listing's answer {answer}"),
            Listing::Reason(reason) => write!(f, "listed and read back: reason {reason}"),
            Listing::Edition(edition) => write!(f, "listed: items of edition {edition}"),
            Listing::Kind(kind) => write!(f, "listed: expression of kind {kind}"),
            Listing::Read(answer) => write!(f, "reading's answer {answer}"),
            Listing::Damaged(damage) => write!(f, "reading refused: {}", damage_name(damage)),
            Listing::Stands(damage) => write!(f, "still a listing: {}", damage_name(damage)),
            Listing::Bad(form) => write!(f, "bad line: {form:?}"),
            Listing::Missing(form) => write!(f, "missing line: {form:?}"),
        }
    }
}

pub const LIST_EXACT: &str = "listed in just enough room";
pub const LIST_MORE: &str = "listed in more room";
pub const LIST_SHORT: &str = "listing refused in a byte too little";
pub const LIST_BEFORE: &str = "listing refused by a reason though the room is too little";
pub const LIST_LARGEST: &str = "listed: a table of 3185 words";
pub const READ_EXACT: &str = "read in just enough room";
pub const READ_MORE: &str = "read in more room";
pub const READ_SHORT: &str = "reading refused in a word too little";
pub const READ_BEFORE: &str = "reading refused by a bad line though the room is too little";
pub const LINE_11: &str = "bad line: number 11";
pub const LINE_FIRST: &str = "bad line: the first";
pub const LINE_LAST: &str = "bad line: the last";
pub const LINE_1000: &str = "bad line: number 1000 or above";
pub const NO_NEWLINE: &str = "bad line shown: no newline";
pub const OTHER_BYTES: &str = "bad line shown: other bytes";
pub const LONG: &str = "bad line shown: more than 80 bytes";
pub const EMPTY: &str = "bad line shown: empty";
pub const NOISE: &str = "reading refused: bytes that were never a listing";

pub const ROWS: [&str; 18] = [
    LIST_EXACT, LIST_MORE, LIST_SHORT, LIST_BEFORE, LIST_LARGEST, READ_EXACT, READ_MORE,
    READ_SHORT, READ_BEFORE, LINE_11, LINE_FIRST, LINE_LAST, LINE_1000, NO_NEWLINE, OTHER_BYTES,
    LONG, EMPTY, NOISE,
];

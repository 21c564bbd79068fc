//! Rows of request Q-12: what bus logs were converted, and how they were refused.

use std::fmt;

use crate::cases::buslogs::{FRAMES, LISTS, List, Spelling, TAILS, spellings};

#[derive(Clone, Copy, PartialEq, Eq, PartialOrd, Ord, Debug)]
pub enum Log {
    Answer(u32),
    /// The reason of a table that is refused as line 0.
    Reason(u32),
    /// How many networks a list that stands has names for.
    Networks(usize),
    List(List),
    /// Refused as misspelt, in a log with nothing else misspelt.
    Misspelt(Spelling),
    /// Still spelt right.
    Stands(Spelling),
    /// The first answer is given though the second would be too.
    Before(u32, u32),
    /// How many digits a line's seconds have.
    Seconds(usize),
    Name(usize),
    Pairs(usize),
}

/// Spellings that leave some lines right.
const STANDING: [Spelling; 3] = [Spelling::Changed, Spelling::Dropped, Spelling::Added];

const BEFORE: [(u32, u32); 7] =
    [(1, 13), (12, 14), (12, 15), (14, 15), (14, 11), (15, 11), (13, 12)];

pub fn rows() -> impl Iterator<Item = Log> {
    [0, 1, 11, 12, 13, 14, 15]
        .map(Log::Answer)
        .into_iter()
        .chain((1..=10).map(Log::Reason))
        .chain([0, 1, 2, 3, 4, 5, 8].map(Log::Networks))
        .chain(LISTS.map(Log::List))
        .chain(spellings().into_iter().map(Log::Misspelt))
        .chain(STANDING.map(Log::Stands))
        .chain(BEFORE.map(|(first, second)| Log::Before(first, second)))
        .chain((1..=10).map(Log::Seconds))
        .chain((1..=15).map(Log::Name))
        .chain((0..=8).map(Log::Pairs))
}

fn spelling_name(spelling: Spelling) -> String {
    match spelling {
        Spelling::Lost(piece) => format!("{piece:?} lost"),
        Spelling::Long(piece) => format!("{piece:?} too long"),
        Spelling::Short(piece) => format!("{piece:?} too short"),
        Spelling::Other(piece) => format!("{piece:?} with another byte"),
        Spelling::Tail(tail) => format!("{:?} at the end", TAILS[tail]),
        Spelling::Frame(frame) => format!("a frame with {}", FRAMES[frame]),
        Spelling::Changed => "a byte changed".into(),
        Spelling::Dropped => "a byte lost".into(),
        Spelling::Added => "a byte added".into(),
        Spelling::Empty => "an empty line".into(),
    }
}

impl fmt::Display for Log {
    fn fmt(&self, f: &mut fmt::Formatter) -> fmt::Result {
        match *self {
            Log::Answer(answer) => write!(f, "bus log's answer {answer}"),
            Log::Reason(reason) => write!(f, "bus log of a table of reason {reason}"),
            Log::Networks(networks) => write!(f, "bus log's list stands: names {networks}"),
            Log::List(list) => write!(f, "bus log's list refused: {list:?}"),
            Log::Misspelt(way) => write!(f, "bus log misspelt: {}", spelling_name(way)),
            Log::Stands(way) => write!(f, "bus log still spelt right: {}", spelling_name(way)),
            Log::Before(first, second) => write!(f, "bus log's answer {first} before {second}"),
            Log::Seconds(digits) => write!(f, "bus log's line: digits of seconds {digits}"),
            Log::Name(bytes) => write!(f, "bus log's line: bytes of the name {bytes}"),
            Log::Pairs(pairs) => write!(f, "bus log's line: pairs of data {pairs}"),
        }
    }
}

pub const EMPTY: &str = "bus log: empty";
pub const EQUAL_TIMES: &str = "bus log: equal times";
pub const SEVERAL_TICKS: &str = "bus log: several ticks before a line";
pub const OWED: &str = "bus log: a tick owed by lines that are less apart";
pub const OVER: &str =
    "bus log: a line more than 10 milliseconds behind without a tick more for it";
pub const GAP: &str = "bus log: more ticks due than any room";
pub const THREE: &str = "bus log: identifier of three digits";
pub const THREE_BITS: &str = "bus log: identifier of three digits with the bus-off bit";
pub const SMALL: &str = "bus log: small hex letters";
pub const CAPITAL: &str = "bus log: capital hex letters";
pub const ERROR_ALONE: &str = "bus log: error bit without bus-off bit";
pub const BUS_OFF_ALONE: &str = "bus log: bus-off bit without error bit";
pub const OTHER_BITS: &str = "bus log: bus-off with other bits";
pub const PLATFORMS: &str = "bus log: bus-off of a platform's network";
pub const OPERATORS: &str = "bus log: bus-off of an operator's network";
pub const TICK_BEFORE: &str = "bus log: bus-off behind ticks of its line";
pub const LEADING_ZERO: &str = "bus log: leading zero";
pub const ODD_NAME: &str = "bus log: name with an odd byte";
pub const NO_ROOM_FIRST: &str = "bus log: no room for a line's first event";
pub const NO_ROOM_TICKS: &str = "bus log: no room behind ticks that fitted";
pub const NO_ROOM_BUS_OFF: &str = "bus log: no room for the bus-off behind ticks that fitted";
pub const FULL: &str = "bus log: lines read behind the one that filled the room";
pub const ROOM_0: &str = "bus log: lines read in no room";
pub const JUST: &str = "bus log: events in just enough room";
pub const RESUMED: &str = "bus log: resumed at no room, three times or more";
pub const RESUMED_IN: &str = "bus log: resumed within a line's ticks";
pub const BACK_LATER: &str = "bus log: back, and later than the first line";
pub const BEHIND: &str = "bus log: from behind other lines";
pub const START_ODD: &str = "bus log: cursor before the first line that is not all zero";
pub const FIRST_LATER: &str = "bus log: cursor whose first line is later";
pub const GIVEN_MORE: &str = "bus log: cursor with more ticks given than passed";
pub const HELD: &str = "bus log: lines held at the largest number";
pub const CUT: &str = "bus log: cut in two and gone on with";
pub const CANLOG: &str = "bus log written: every line";
pub const CANLOG_REFUSED: &str = "bus log written: refused behind events";
pub const NO_NEWLINE: &str = "bus log: last line without its newline";

pub const ROWS: [&str; 36] = [
    EMPTY,
    EQUAL_TIMES,
    SEVERAL_TICKS,
    OWED,
    OVER,
    GAP,
    THREE,
    THREE_BITS,
    SMALL,
    CAPITAL,
    ERROR_ALONE,
    BUS_OFF_ALONE,
    OTHER_BITS,
    PLATFORMS,
    OPERATORS,
    TICK_BEFORE,
    LEADING_ZERO,
    ODD_NAME,
    NO_ROOM_FIRST,
    NO_ROOM_TICKS,
    NO_ROOM_BUS_OFF,
    FULL,
    ROOM_0,
    JUST,
    RESUMED,
    RESUMED_IN,
    BACK_LATER,
    BEHIND,
    START_ODD,
    FIRST_LATER,
    GIVEN_MORE,
    HELD,
    CUT,
    CANLOG,
    CANLOG_REFUSED,
    NO_NEWLINE,
];

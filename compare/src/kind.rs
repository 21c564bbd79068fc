//! What the programs are started as, and what the second program prints for it.

mod logs;

use second::panel::{OPERATORS, View};
use second::program::{self, HoldTold, played, printed};
use second::words::{Section, Table};

pub use logs::Log;

/// A program has its two files for words; a panel's has behind them whose it is, in decimal, and whether it is followed; a log's has a
/// third file, and behind it whether all events are wanted.
#[derive(Clone, PartialEq, Eq, Debug)]
pub enum Kind {
    Run,
    Play,
    Cost,
    Panel { operator: String, follow: bool },
    Hold { log: Log, all: bool },
}

/// What the second program prints, and what is said on standard error.
pub struct Expected {
    pub lines: String,
    pub told: Told,
}

/// What is said on standard error.
#[derive(Clone, PartialEq, Eq, Debug)]
pub enum Told {
    /// It is not looked at.
    Any,
    /// Something or nothing.
    Whether(bool),
    /// Just this; and the status is 0, whatever is found.
    Just(String),
}

impl Told {
    /// Whether a program that ended with a status, and said this, has told it.
    pub fn is(&self, status: Option<i32>, said: &[u8]) -> bool {
        match self {
            Told::Any => status.is_some(),
            Told::Whether(told) => status.is_some() && *told != said.is_empty(),
            Told::Just(text) => status == Some(0) && text.as_bytes() == said,
        }
    }
}

/// Where an event was not as ordered the program says this last, for its status cannot tell.
const PARTED: &str = "herringcart: parted\n";

impl Kind {
    pub fn panel(operator: u32, follow: bool) -> Self {
        Kind::Panel { operator: operator.to_string(), follow }
    }

    /// The words behind the two files.
    pub fn behind(&self) -> Vec<&str> {
        match self {
            Kind::Panel { operator, follow: true } => vec![operator, "follow"],
            Kind::Panel { operator, follow: false } => vec![operator],
            Kind::Hold { all: true, .. } => vec!["all"],
            _ => vec![],
        }
    }

    /// The bytes of the third file, made of what the second program prints for the two others.
    pub fn log(&self, table: &[u8], events: &[u8]) -> Option<Vec<u8>> {
        match self {
            Kind::Hold { log, .. } => Some(log.bytes(table, events)),
            _ => None,
        }
    }

    /// What the second program prints for the bytes of a table and of its events.
    pub fn expected(&self, table: &[u8], events: &[u8]) -> Expected {
        let lines = match self {
            Kind::Run => printed(table, events),
            Kind::Play => played(table, events),
            Kind::Cost => program::cost(table, events),
            Kind::Panel { operator, follow } => {
                let number = program::operator(operator);
                let shown = |number| program::panel(number, table, events, *follow).ok();
                let printed = number.and_then(shown);
                return Expected {
                    told: Told::Whether(printed.is_none()),
                    lines: printed.unwrap_or_default(),
                };
            }
            Kind::Hold { log, all } => {
                let log = log.bytes(table, events);
                return Expected::of_log(program::hold(table, events, &log, *all));
            }
        };
        Expected { lines, told: Told::Any }
    }
}

impl Expected {
    /// What is wrong with the log or the table, and whether an event was not as ordered: the lines of the first such are the first.
    fn of_log(HoldTold { printed, trouble, .. }: HoldTold) -> Self {
        let parted = if printed.starts_with("event ") { PARTED } else { "" };
        let trouble = trouble.map_or(String::new(), |trouble| format!("{trouble}\n"));
        Expected { lines: printed, told: Told::Just(format!("{trouble}{parted}")) }
    }
}

/// Words that are no operator's number: 0; numbers above 15, of which a program that keeps too few bits sees an operator's; and what
/// is no number at all.
const REFUSED: [&str; 12] = [
    "0",
    "16",
    "17",
    "257",
    "65537",
    "4294967297",
    "18446744073709551617",
    "000",
    "x",
    "",
    "-1",
    "1x",
];

/// What a program is started as for a case, by the case's place.
pub fn kinds(name: &str, place: usize, table: &[u32]) -> Result<Vec<Kind>, String> {
    match name {
        "run" => Ok(vec![Kind::Run]),
        "play" => Ok(vec![Kind::Play]),
        "cost" => Ok(vec![Kind::Cost]),
        "panel" => Ok(panels(place, table)),
        "hold" => Ok(logs::logs(place)),
        _ => Err(format!("neither run nor play nor cost nor panel nor hold: {name}")),
    }
}

/// The panel of one who owns something of an accepted table and that of a stranger, who in every other case owns nothing, each
/// followed and not; of a refused table one that is any operator's. A number is refused with every fourth case.
fn panels(place: usize, table: &[u32]) -> Vec<Kind> {
    let (owners, others) = owners(table);
    let turn = |all: &[u32]| all.get(place % all.len().max(1)).copied();
    let owner = turn(&owners);
    let (strangers, own): (Vec<_>, Vec<_>) =
        owners.iter().copied().partition(|&operator| Some(operator) != owner);
    let (first, then) = if place % 2 == 0 { (&others, &strangers) } else { (&strangers, &others) };
    let stranger = turn(first).or(turn(then)).or(turn(&own));
    let asked = owner.into_iter().chain(stranger);
    let mut kinds: Vec<Kind> =
        asked.flat_map(|number| [false, true].map(|follow| Kind::panel(number, follow))).collect();
    if second::check(table).reason != 0 {
        kinds.truncate(1);
    }
    // A number is the same with zeros before it.
    if let Some(Kind::Panel { operator, .. }) = kinds.first_mut().filter(|_| place % 8 == 3) {
        *operator = format!("{operator:0>25}");
    }
    if place % 4 == 0 {
        let operator = REFUSED[place / 4 % REFUSED.len()].to_string();
        kinds.push(Kind::Panel { operator, follow: place % 8 == 0 });
    }
    kinds
}

/// The operators that own something of an accepted table that is shown, a thing or a list's trace words; and those that own nothing.
pub fn owners(table: &[u32]) -> (Vec<u32>, Vec<u32>) {
    let Some(read) = Table::of(table).filter(|_| second::check(table).reason == 0) else {
        return (vec![], OPERATORS.collect());
    };
    let state = vec![0; herringcart::state_words(table)];
    let lists = 0..read.count(Section::Lists);
    OPERATORS.partition(|&operator| {
        let things = View::of(operator, &read).words(&state, &[]);
        !things.is_empty() || lists.clone().any(|list| read.list(list).owner == operator)
    })
}

#[cfg(test)]
mod tests {
    use super::*;
    use crate::bench::MARKED;
    use crate::programs::bytes;

    fn asked(place: usize, table: &[u32]) -> Vec<(String, bool)> {
        let words = |kind: Kind| match kind {
            Kind::Panel { operator, follow } => (operator, follow),
            other => panic!("{other:?}"),
        };
        panels(place, table).into_iter().map(words).collect()
    }

    #[test]
    fn an_owner_and_a_stranger_are_asked_for_followed_and_not() {
        assert_eq!(owners(&MARKED), (vec![1], (2..=15).collect()));
        for place in [1, 2, 5, 1001] {
            let asked = asked(place, &MARKED);
            assert_eq!(asked[..2], [("1".into(), false), ("1".into(), true)]);
            assert_eq!((asked.len(), asked[2].1, asked[3].1), (4, false, true));
            assert!(asked[2].0 == asked[3].0 && asked[2].0 != "1");
        }
    }

    #[test]
    fn refused_numbers_and_tables_are_asked_for_too() {
        let refused: Vec<String> =
            (0..48).step_by(4).map(|at| asked(at, &MARKED)[4].0.clone()).collect();
        assert_eq!(refused, REFUSED);
        assert!(
            refused
                .iter()
                .all(|word| program::operator(word)
                    .is_none_or(|number| !OPERATORS.contains(&number)))
        );
        assert_eq!((asked(1, &MARKED[..11]).len(), asked(4, &[]).len()), (1, 2));
        let zeros = asked(3, &MARKED)[0].0.clone();
        assert!(zeros.len() == 25 && program::operator(&zeros) == Some(1));
    }

    #[test]
    fn a_refused_panel_prints_nothing_and_is_told() {
        let table: Vec<u8> = MARKED.iter().flat_map(|word| word.to_be_bytes()).collect();
        for (operator, table, told) in [
            ("1", &table[..], false),
            ("2", &table, false),
            ("0", &table, true),
            ("x", &table, true),
            ("1", &[], true),
        ] {
            let kind = Kind::Panel { operator: operator.into(), follow: false };
            let expected = kind.expected(table, &[]);
            assert_eq!(
                (expected.told, expected.lines.is_empty()),
                (Told::Whether(told), told || operator == "2")
            );
        }
    }

    #[test]
    fn of_a_log_the_trouble_is_told_and_behind_it_that_an_event_parted() {
        let [table, events] = [&MARKED[..], &[0x1100_0500, 0]].map(|words| bytes(words, 0));
        let told = |log: Log, all: bool| Kind::Hold { log, all }.expected(&table, &events).told;
        let ends = "herringcart: line 13 of the log: no answer, and no word\n";
        let just = |text: &str| Told::Just(text.into());
        for all in [false, true] {
            assert_eq!(told(Log::Own, all), just(""));
            assert_eq!(told(Log::Changed(vec![0]), all), just(PARTED));
            assert_eq!(told(Log::Cut(1), all), just(ends));
        }
        let log = Log::Changed(vec![0]).bytes(&table, &events);
        let log = Log::Given(log[..log.len() - 1].to_vec());
        assert_eq!(told(log.clone(), false), just(PARTED));
        assert_eq!(told(log, true), just(&format!("{ends}{PARTED}")));
        let bad = Kind::Hold { log: Log::Own, all: false }.expected(&table[..44], &events);
        assert_eq!(bad.told, just("herringcart: refused: the table has reason 4 at word 0\n"));
    }

    #[test]
    fn what_a_program_has_told_goes_by_its_status_and_standard_error() {
        assert!(Told::Any.is(Some(1), b"x") && !Told::Any.is(None, b""));
        assert!(Told::Whether(true).is(Some(1), b"x") && !Told::Whether(true).is(Some(1), b""));
        assert!(Told::Whether(false).is(Some(0), b"") && !Told::Whether(false).is(None, b""));
        let just = Told::Just(PARTED.into());
        assert!(just.is(Some(0), PARTED.as_bytes()) && !just.is(Some(1), PARTED.as_bytes()));
        assert!(!just.is(Some(0), b"") && Told::Just(String::new()).is(Some(0), b""));
    }
}

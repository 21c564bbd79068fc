//! What one visit costs: two events that differ in nothing but how many words each rule item visits, so that the difference of
//! their times, by that of their visits, is the price of one.

use second::cases::draft::Draft;
use second::words::*;

use super::hostile::{LISTS, repeated, rule_items};
use super::times;
use super::times::{Run, Time, Times};
use super::wide::{self, tree};

/// The names of the columns, each at its width.
const PRICES: &str = "    fewer     more    before    proved yardstick    second";

/// A table and an event that has 4,080 rule items evaluated.
pub struct Evaluating {
    pub draft: Draft,
    pub event: u32,
}

pub struct Priced {
    pub name: &'static str,
    pub fewer: Evaluating,
    pub more: Evaluating,
}

pub fn all() -> [Priced; 3] {
    let [first, last] = [&wide::ALL[0], &wide::ALL[1]].map(|wide| {
        let draft = wide.draft();
        let event = wide::request(&draft);
        Evaluating { draft: items(draft), event }
    });
    [
        Priced { name: "XOR, seven words over and over", fewer: repeating(6), more: repeating(7) },
        Priced { name: "XOR, 127 words, at or above", fewer: apart(1), more: apart(0) },
        Priced { name: "AND, the first or the last false", fewer: first, more: last },
    ]
}

/// As many rules as start the lists and one more, which all their items name: so few that what the check reads of them is little.
fn items(mut draft: Draft) -> Draft {
    draft.rules.resize(LISTS as usize + 1, draft.rules[0]);
    rule_items(draft)
}

/// Trees so deep of seven words; the seventh is there unused where they are not seven deep.
fn repeating(levels: u32) -> Evaluating {
    let mut draft = repeated();
    draft.rules[0].expression = levels - 1;
    asked(draft)
}

/// A tree of 127 words of its own from this one of them on: the root 0 is seven deep, its left side 1 six deep. Each condition is of the
/// kind that is asked for last.
fn apart(root: u32) -> Evaluating {
    let mut draft = repeated();
    let condition = |_| Condition { kind: expression::AT_OR_ABOVE, port: 1, ..Default::default() };
    draft.expressions = tree(0, expression::XOR, condition);
    draft.rules[0].expression = root;
    asked(draft)
}

fn asked(draft: Draft) -> Evaluating {
    let event = Event { kind: event::MODE_REQUEST, index: 1, ..Default::default() }.word();
    Evaluating { draft: items(draft), event }
}

/// What a visit costs each side, pair by pair; then what the most visits that there can be would cost at the dearest price.
pub fn prices() -> Result<(), String> {
    println!(
        "what a visit costs: ns, from two events of 4,080 rule items that visit fewer and more words"
    );
    println!("{:<44}{PRICES}", "");
    let mut dearest: f64 = 0.0;
    for Priced { name, fewer, more } in all() {
        let run = |row: &Evaluating| Run::fresh(&row.draft.words(), &[row.event], &[]);
        let [fewer, more] = times(name, [run(&fewer), run(&more)])?;
        let sides: [fn(&Times) -> Time; 4] = [
            |times| times.before.clone(),
            |times| Ok(times.proved),
            |times| times.yardstick.clone(),
            |times| Ok(times.second),
        ];
        let prices = sides.map(|side| price(&fewer, &more, side));
        dearest = dearest.max(prices[1].unwrap_or(0.0));
        let [before, proved, yardstick, second] =
            prices.map(|price| price.map_or("-".into(), |price| format!("{price:.2}")));
        let [few, many] = [fewer.visits, more.visits];
        println!("{name:<44}{few:>9}{many:>9}{before:>10}{proved:>10}{yardstick:>10}{second:>10}");
    }
    let (most, all) = (herringcart::MOST_VISITS, f64::from(herringcart::MOST_VISITS) * dearest);
    println!("{most} visits, the most there can be, at the dearest of these: {:.2} ms", all / 1e6);
    Ok(())
}

/// Nanoseconds for each visit that the one event makes more than the other, where a side has both times.
fn price(fewer: &Times, more: &Times, time: fn(&Times) -> Time) -> Option<f64> {
    let visits = (more.visits - fewer.visits) as f64;
    Some((time(more).ok()? - time(fewer).ok()?) / visits)
}

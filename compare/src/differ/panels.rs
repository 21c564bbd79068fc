//! Operators' panels through both sides: those that a case is asked for,
//! and any other. Table, state and trace words are lent between guards and must
//! stay as they are; the room's every byte is compared, laid or not, and its
//! guards.

use second::cases::Case;
use second::stream::{Asked, PANEL_FILL, TRACE_FILL, panels_asked};
use second::testing::AskedPanel;

use super::{Difference, Lent, Tried, as_word, same, same_lent};
use crate::subject::Subject;

/// What a panel is asked with.
#[derive(Clone, PartialEq, Eq, Debug)]
pub struct Shown {
    pub operator: u32,
    pub table: Vec<u32>,
    pub state: Vec<u32>,
    /// The newest step's trace words, or any.
    pub words: Vec<u32>,
    /// The bytes lent, as they are before.
    pub room: Vec<u8>,
}

impl Shown {
    /// What a fixed case asked.
    pub fn recorded(asked: &AskedPanel) -> Self {
        let AskedPanel { operator, table, state, words, lent, .. } = asked.clone();
        Shown { operator, table, state, words, room: lent }
    }

    /// The bytes that its lines need by the second program; 0 where it is refused.
    pub fn needs(&self) -> usize {
        let mut room = vec![0; herringcart::panel_bytes(self.words.len())];
        second::panel(self.operator, &self.table, &self.state, &self.words, &mut room).bytes
    }
}

/// The panels of a case, each of the state that an event leaves and the words that it wrote. The events
/// are run by the second program: that the proved code leaves the same has been seen before.
pub fn compare_panels(subject: &impl Subject, case: &Case) -> Result<(), Difference> {
    let (mut state, mut trace, mut count) = (case.state.clone(), vec![TRACE_FILL; case.room], 0);
    let asked = panels_asked(case);
    for number in 0..=case.events.len() {
        let behind = number.checked_sub(1);
        if let Some(event) = behind {
            let (word, lent) = (case.events[event], case.lent(event));
            count = second::step(&case.table, &mut state, &mut trace, word, lent).count;
        }
        for &Asked { operator, room, .. } in asked.iter().filter(|asked| asked.behind == behind) {
            let (table, state, words) =
                (case.table.clone(), state.clone(), trace[..count].to_vec());
            let room = vec![PANEL_FILL; room];
            compare_panel(subject, &Shown { operator, table, state, words, room })?;
        }
    }
    Ok(())
}

/// One panel by both sides; a difference says which.
pub fn compare_panel(subject: &impl Subject, shown: &Shown) -> Result<(), Difference> {
    try_panel(subject, shown).alike
}

/// As `compare_panel`, with the bytes that the proved side laid.
pub(super) fn try_panel(subject: &impl Subject, shown: &Shown) -> Tried<Vec<u8>> {
    let Shown { operator, table, state, words, room } = shown;
    let mut lent = [table, state, words].map(|words| Lent::of(words));
    let untouched = lent.clone();
    let (mut lines, mut expected) = (Lent::of(room), Lent::of(room));
    let [t, s, w] = &mut lent;
    let proved = subject.panel(*operator, t.words(), s.words(), w.words(), lines.words());
    let second = second::panel(*operator, table, state, words, expected.words());
    let what = |part: &str| format!("panel of operator {operator}, {part}");
    let compared = || {
        same(
            || what("answer, bytes"),
            &[proved.number, as_word(proved.bytes)],
            &[second.answer, as_word(second.bytes)],
        )?;
        same_lent(&|| what("lines"), &lines, &expected)?;
        let names = ["table", "state", "trace words"];
        let mut unchanged = names.into_iter().zip(lent.iter().zip(&untouched));
        unchanged
            .try_for_each(|(name, (lent, untouched))| same_lent(&|| what(name), lent, untouched))
    };
    let differs = |difference| Difference { panel: Some(Box::new(shown.clone())), ..difference };
    let alike = compared().map_err(differs);
    Tried { given: lines.front(proved.bytes), alike }
}

//! What an event ran, worked out item by item from the lists it chooses, the outcomes lent and the
//! results that its rule items show; its trace must be just that.

use std::cmp::Reverse;

use super::choices::Choices;
use super::log::{Entry, hold};
use crate::cases::draft::Draft;
use crate::words::*;

/// What had a list run.
#[derive(Clone, Copy, PartialEq, Eq, PartialOrd, Ord, Debug)]
pub enum By {
    Choice,
    Name,
    RuleItem,
}

/// A list that ran.
pub struct RanList {
    pub list: usize,
    pub by: By,
    /// 1 where it was chosen, 1 more than that of the list that holds its item otherwise.
    pub level: u32,
    /// How many of its items ran: fewer than it has only where a call stopped it.
    pub ran: usize,
    pub aborted: bool,
    /// The run of the list that holds its item, by its place among all.
    pub outer: Option<usize>,
}

/// An item that ran.
pub struct RanItem {
    pub item: Item,
    /// The run of its list, by its place among all.
    pub list: usize,
    /// What an outside call met.
    pub failed: bool,
}

/// A taken event of an accepted table.
pub struct Walk<'a> {
    draft: &'a Draft,
    /// The trace words not yet met.
    words: &'a [u32],
    /// The outcomes lent, and how many outside calls have run.
    pub outcomes: &'a [u32],
    pub calls: usize,
    /// Every rule's last result.
    last: Vec<u32>,
    /// In the order in which they start.
    pub lists: Vec<RanList>,
    pub items: Vec<RanItem>,
}

impl<'a> Walk<'a> {
    pub fn over(draft: &'a Draft, choices: &Choices, entry: &'a Entry) -> Result<Self, String> {
        let (first, rules) = (draft.ports.len(), draft.rules.len());
        let last = |state: &[u32]| -> Vec<u32> {
            state[first..first + rules].iter().map(|&word| RuleState::of(word).last).collect()
        };
        let mut walk = Walk {
            draft,
            words: &entry.trace,
            outcomes: &entry.outcomes,
            calls: 0,
            last: last(&entry.before),
            lists: vec![],
            items: vec![],
        };
        let mut chosen: Vec<usize> = choices.chosen(choices.arbitrated).into_iter().collect();
        chosen.sort_by_key(|&list| (Reverse(draft.lists[list].priority), list));
        for (rule, result) in choices.results(choices.arbitrated) {
            walk.last[rule] = result as u32;
        }
        for list in chosen {
            walk.list(list, By::Choice, None)?;
        }
        hold(walk.words.is_empty(), || format!("{:X?} past the lists that run", walk.words))?;
        let stored = last(&entry.after);
        hold(walk.last == stored, || format!("results {stored:?}, not {:?}", walk.last))?;
        Ok(walk)
    }

    fn meet(&mut self, expected: u32) -> Result<(), String> {
        let next = self.words.first().copied();
        hold(next == Some(expected), || format!("{next:X?} where {expected:08X} is due"))?;
        self.words = &self.words[1..];
        Ok(())
    }

    fn list(&mut self, list: usize, by: By, outer: Option<usize>) -> Result<(), String> {
        let List { owner, .. } = self.draft.lists[list];
        self.meet(TraceWord { kind: LIST_START, owner, a: list as u32, b: 0 }.word())?;
        let level = outer.map_or(1, |outer| self.lists[outer].level + 1);
        let number = self.lists.len();
        self.lists.push(RanList { list, by, level, ran: 0, aborted: false, outer });
        for item in self.draft.lists[list].items() {
            if self.lists[number].aborted {
                break;
            }
            self.lists[number].ran += 1;
            self.item(self.draft.items[item], owner, number)?;
        }
        Ok(())
    }

    fn item(&mut self, item: Item, owner: u32, list: usize) -> Result<(), String> {
        let Item { kind, a, b, .. } = item;
        let place = self.items.len();
        self.items.push(RanItem { item, list, failed: false });
        match kind {
            item::LIST => return self.list(a as usize, By::Name, Some(list)),
            item::RULE => return self.rule(a as usize, owner, list),
            _ => self.meet(TraceWord { kind, owner, a, b }.word())?,
        }
        if kind == item::OUTSIDE_CALL {
            // Edition 1 acts as if all calls were good.
            let reads = self.draft.edition == edition::TWO;
            let failed = reads && self.outcomes.get(self.calls) == Some(&outcome::FAILED);
            self.calls += 1;
            self.items[place].failed = failed;
            self.lists[list].aborted = failed && item.abort == 1;
        }
        Ok(())
    }

    /// The word shows the result, and the result says which list runs.
    fn rule(&mut self, number: usize, owner: u32, list: usize) -> Result<(), String> {
        let result = self.words.first().map_or(u32::MAX, |&word| TraceWord::of(word).b);
        hold(result <= UNDEFINED, || format!("rule item {number} shows {result}"))?;
        self.meet(TraceWord { kind: item::RULE, owner, a: number as u32, b: result }.word())?;
        if result == UNDEFINED {
            return Ok(());
        }
        let previous = std::mem::replace(&mut self.last[number], result);
        match self.draft.rules[number].list_for(result == 1) {
            Some(next) if self.draft.lists[next].triggered == 0 || previous != result => {
                self.list(next, By::RuleItem, Some(list))
            }
            _ => Ok(()),
        }
    }
}

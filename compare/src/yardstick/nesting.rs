//! Depth, and with it what else is found by going into nested things: the
//! ports an expression mentions, a list's cost and whether its owners clash.
//! Each thing is read once; a path longer than seven ends the check.

use super::check::Sets;
use super::table::*;

/// A list's cost is held here: above the dearest table's.
const HELD: u32 = 4097;

/// What is known of a list; nothing where its depth is 0.
#[derive(Clone, Copy, Default)]
pub struct Nest {
    pub cost: u32,
    depth: u8,
    owner: u8,
    pub clashes: bool,
}

/// What the check learns and the step uses, one for each expression or list.
pub struct Notes<'n> {
    /// The ports an expression mentions. It mentions one at least, so an empty
    /// set is an expression not yet read.
    pub mentions: &'n mut [u64],
    pub depths: &'n mut [u8],
    pub nests: &'n mut [Nest],
}

/// The place the notes stand in, on the stack.
pub struct Memory<const E: usize, const L: usize> {
    mentions: [u64; E],
    depths: [u8; E],
    nests: [Nest; L],
}

impl<const E: usize, const L: usize> Memory<E, L> {
    #[inline]
    pub fn new() -> Self {
        Memory { mentions: [0; E], depths: [0; E], nests: [Nest::default(); L] }
    }

    #[inline]
    pub fn notes(&mut self, table: &Table) -> Notes<'_> {
        let (e, l) = (table.expressions.len(), table.lists.len());
        Notes {
            mentions: &mut self.mentions[..e],
            depths: &mut self.depths[..e],
            nests: &mut self.nests[..l],
        }
    }
}

/// Gives the first expression that nests too deep.
#[inline]
pub fn nest_expressions(table: &Table, notes: &mut Notes) -> Result<(), usize> {
    let kept = notes.depths.iter_mut().zip(notes.mentions.iter_mut());
    for (&word, (depth, mentions)) in table.expressions.iter().zip(kept) {
        if top(word) < 4 {
            (*depth, *mentions) = (1, 1 << named_port(word));
        }
    }
    for number in 0..table.expressions.len() {
        if notes.depths[number] == 0 {
            read_operator(table.expressions, notes, number, LEVELS).ok_or(number)?;
        }
    }
    Ok(())
}

/// Finds an operator's depth, and what it mentions; None where it nests deeper
/// than these levels.
fn read_operator(words: &[u32], notes: &mut Notes, number: usize, levels: u8) -> Option<u8> {
    let below = levels.checked_sub(1)?;
    let [left, right] = arguments(words[number]);
    // NOT's right is no name; its left stands for it.
    let right = if top(words[number]) == NOT { left } else { right };
    let mut depth = 0;
    for argument in [left, right] {
        depth = depth.max(match notes.depths[argument] {
            0 => read_operator(words, notes, argument, below)?,
            known => known,
        });
    }
    if depth > below {
        return None;
    }
    notes.mentions[number] = notes.mentions[left] | notes.mentions[right];
    notes.depths[number] = depth + 1;
    Some(depth + 1)
}

/// Gives the first list that nests too deep.
#[inline]
pub fn nest_lists(table: &Table, sets: &Sets, notes: &mut Notes) -> Result<(), usize> {
    for number in 0..table.lists.len() {
        nest_list(table, sets, notes.nests, number as u32, LEVELS).ok_or(number)?;
    }
    Ok(())
}

/// What is known of a list or is now read; None where that nests deeper than
/// these levels. One known already may be deeper: its reader sees to that.
#[inline]
fn nest_list<'n>(
    table: &Table,
    sets: &Sets,
    nests: &'n mut [Nest],
    number: u32,
    levels: u8,
) -> Option<&'n Nest> {
    if nests[number as usize].depth == 0 {
        read_list(table, sets, nests, number, levels)?;
    }
    Some(&nests[number as usize])
}

fn read_list(
    table: &Table,
    sets: &Sets,
    nests: &mut [Nest],
    number: u32,
    levels: u8,
) -> Option<()> {
    let below = levels.checked_sub(1)?;
    let list = table.lists[number as usize];
    let owner = top(list) as u8;
    let own = own_things(sets, owner);
    let (mut depth, mut cost, mut clashes) = (0, 1, false);
    for &item in table.items_of(list) {
        let (kind, named) = (top(item), named(item));
        if let Some(own) = own.get(kind as usize) {
            cost += 1;
            clashes |= own.wrapping_shr(named) & 1 == 0;
        } else if kind == 5 {
            let nest = nest_list(table, sets, nests, named, below)?;
            depth = depth.max(nest.depth);
            cost += nest.cost;
            clashes |= nest.owner != owner;
        } else {
            let rule = table.rules[named as usize];
            let (deepest, dearer) = nest_rule(table, sets, nests, rule, below)?;
            depth = depth.max(deepest);
            cost += 1 + dearer;
            clashes |= top(rule) as u8 != owner;
        }
    }
    if depth > below {
        return None;
    }
    nests[number as usize] = Nest { cost: cost.min(HELD), depth: depth + 1, owner, clashes };
    Some(())
}

/// What the items 0 to 4 of an owner's lists may name: the platform's anybody's things.
#[inline]
fn own_things(sets: &Sets, owner: u8) -> [u64; 5] {
    let (ports, networks) = match owner {
        0 => (u64::MAX, u64::MAX),
        _ => (sets.ports_of[owner as usize], sets.networks_of[owner as usize]),
    };
    [u64::MAX, ports, ports, ports, networks]
}

/// The depth of a rule's deeper list and the cost of its dearer one.
#[inline]
fn nest_rule(
    table: &Table,
    sets: &Sets,
    nests: &mut [Nest],
    rule: u32,
    levels: u8,
) -> Option<(u8, u32)> {
    let (mut depth, mut cost) = (0, 0);
    for list in rule_lists(rule) {
        if list != NO_LIST {
            let nest = nest_list(table, sets, nests, list, levels)?;
            depth = depth.max(nest.depth);
            cost = cost.max(nest.cost);
        }
    }
    Some((depth, cost))
}

//! The table's check. Each rule is a loop over one section; what a loop learns
//! of the ports is kept as sets of bits, for there are at most 64.

use super::nesting::{Notes, nest_expressions, nest_lists};
use super::table::*;

/// The most that all lists together may cost.
const DEAREST: u32 = 4096;

/// Reason and place.
pub type Refusal = (u32, usize);

/// Ports by what they are and whose they are, and the networks by owner.
#[derive(Default)]
pub struct Sets {
    pub modes: u64,
    pub events: u64,
    pub timers: u64,
    /// What a network or source may have: deferred mode ports without initial value.
    free: u64,
    /// What networks and sources have.
    pub taken: u64,
    pub ports_of: [u64; 16],
    pub networks_of: [u64; 16],
}

/// B, or the first reason above 4 that holds; fills the empty sets and notes.
pub fn accept(table: &Table, sets: &mut Sets, notes: &mut Notes) -> Result<u32, Refusal> {
    own_fields(table).map_err(|place| (5, place))?;
    sets.fill(table);
    names(table, sets).map_err(|place| (6, place))?;
    nest_expressions(table, notes).map_err(|number| (7, table.starts().expressions + number))?;
    nest_lists(table, sets, notes).map_err(|number| (7, table.starts().lists + number))?;
    owners(table, sets, notes).map_err(|place| (8, place))?;
    // Each cost is held just above the dearest, so the sum cannot overflow.
    let b = notes.nests.iter().map(|nest| nest.cost).sum();
    if b > DEAREST { Err((9, 0)) } else { Ok(b) }
}

impl Sets {
    #[inline]
    fn fill(&mut self, table: &Table) {
        let mut kinds = [0; 4];
        for (number, &port) in table.ports.iter().enumerate() {
            let bit = 1 << number;
            kinds[port_kind(port) as usize] |= bit;
            self.ports_of[port_owner(port) as usize] |= bit;
            // Kind, deferred and has-initial are the top four bits.
            self.free |= if top(port) == 0b0010 { bit } else { 0 };
        }
        for (number, [network, _]) in table.networks.iter().enumerate() {
            self.networks_of[top(*network) as usize] |= 1 << number;
        }
        [self.modes, self.events, self.timers, _] = kinds;
    }
}

/// The number of the first that breaks a rule. The first loop does not stop
/// early: so it has no branches, and nearly every table is good.
#[inline]
fn first<T>(things: &[T], breaks: impl Fn(&T) -> bool) -> Result<(), usize> {
    let bad = things.iter().fold(false, |bad, thing| bad | breaks(thing));
    if !bad {
        return Ok(());
    }
    Err(things.iter().position(breaks).unwrap_or_default())
}

/// Reason 5.
#[inline]
fn own_fields(table: &Table) -> Result<(), usize> {
    first(table.ports, |&port| port_breaks(port)).map_err(|n| table.starts().ports + n)?;
    for (number, &[network, waits]) in table.networks.iter().enumerate() {
        if field(network, 0, 12) != 0 {
            return Err(table.starts().networks + 2 * number);
        }
        if waits >> 24 == 0 || field(waits, 16, 8) == 0 || waits & 0xFFFF == 0 {
            return Err(table.starts().networks + 2 * number + 1);
        }
    }
    first(table.sources, |&source| field(source, 0, 4) != 0)
        .map_err(|n| table.starts().sources + n)?;
    first(table.expressions, |&expression| expression_breaks(expression))
        .map_err(|n| table.starts().expressions + n)?;
    first(table.rules, |&rule| field(rule, 26, 2) == 3).map_err(|n| table.starts().rules + n)?;
    first(table.lists, |&list| field(list, 0, 8) == 0).map_err(|n| table.starts().lists + n)?;
    first(table.items, |&item| item_breaks(item)).map_err(|n| table.starts().items + n)
}

#[inline]
fn port_breaks(port: u32) -> bool {
    let kind = port_kind(port);
    let (timer, has_initial) = (kind == TIMER, field(port, 28, 1) == 1);
    (kind > TIMER)
        | (has_initial & (kind != MODE))
        | (!has_initial & (field(port, 16, 8) != 0))
        | (timer != (port & 0xFFFF != 0))
        | (timer & !is_deferred(port))
}

#[inline]
fn expression_breaks(expression: u32) -> bool {
    let kind = top(expression);
    let zero = match kind {
        0 | 1 => 0x0000_0FFF,
        2 | 3 => 0x000F_FFFF,
        4..NOT => 0,
        NOT => 0x0000_3FFF,
        _ => u32::MAX,
    };
    expression & zero != 0
}

#[inline]
fn item_breaks(item: u32) -> bool {
    let (kind, b) = (top(item), item & 0xFFFF);
    let fields = match kind {
        0 => named(item) != 0,
        4 => b > 2,
        _ => b != 0,
    };
    (kind > 6) | fields
}

/// Reason 6; learns which ports networks and sources have.
#[inline]
fn names(table: &Table, sets: &mut Sets) -> Result<(), usize> {
    for (number, [network, _]) in table.networks.iter().enumerate() {
        take(sets, *network).ok_or_else(|| table.starts().networks + 2 * number)?;
    }
    for (number, source) in table.sources.iter().enumerate() {
        take(sets, *source).ok_or_else(|| table.starts().sources + number)?;
    }
    let (e, l, a) = (table.expressions.len(), table.lists.len() as u32, table.items.len() as u32);
    let wanted = [sets.modes | sets.timers, sets.events];
    first(table.expressions, |&expression| {
        let [left, right] = arguments(expression);
        let condition = has(wanted[field(expression, 29, 1) as usize], named_port(expression));
        !(if top(expression) < 4 { condition } else { (left < e) & (right < e) })
    })
    .map_err(|n| table.starts().expressions + n)?;
    first(table.rules, |&rule| {
        let [no, yes] = rule_lists(rule).map(|list| (list >= l) & (list != NO_LIST));
        (rule_expression(rule) >= e) | no | yes
    })
    .map_err(|n| table.starts().rules + n)?;
    first(table.lists, |&list| field(list, 8, 11) + field(list, 0, 8) > a)
        .map_err(|n| table.starts().lists + n)?;
    item_names(table, sets).map_err(|n| table.starts().items + n)
}

/// Lets a network or source have its port, if it may.
#[inline]
fn take(sets: &mut Sets, thing: u32) -> Option<()> {
    let port = named_port(thing);
    let open = has(sets.free & !sets.taken, port);
    open.then(|| sets.taken |= 1 << port)
}

/// By its kind an item has a limit, and names a port of a set if it names one.
#[inline]
fn item_names(table: &Table, sets: &Sets) -> Result<(), usize> {
    let [p, n] = [table.ports.len(), table.networks.len()].map(|count| count as u32);
    let [l, r] = [table.lists.len(), table.rules.len()].map(|count| count as u32);
    let mut limits = [0; 16];
    limits[..7].copy_from_slice(&[1, p, p, p, n, l, r]);
    let mut ports = [u64::MAX; 16];
    ports[1..4].copy_from_slice(&[sets.events, sets.timers, sets.timers]);
    first(table.items, |&item| {
        let (kind, named) = (top(item) as usize, named(item));
        (named >= limits[kind]) | (ports[kind].wrapping_shr(named) & 1 == 0)
    })
}

/// Reason 8. The lists' items were read when the lists' nesting was.
#[inline]
fn owners(table: &Table, sets: &Sets, notes: &Notes) -> Result<(), usize> {
    let strange = |thing: u32| !has(sets.ports_of[top(thing) as usize], named_port(thing));
    first(table.networks, |[network, _]| strange(*network))
        .map_err(|n| table.starts().networks + 2 * n)?;
    first(table.sources, |&source| strange(source)).map_err(|n| table.starts().sources + n)?;
    first(table.rules, |&rule| {
        let own = sets.ports_of[top(rule) as usize] | sets.ports_of[0];
        let strange = |list: u32| list != NO_LIST && top(table.lists[list as usize]) != top(rule);
        let [no, yes] = rule_lists(rule).map(strange);
        (notes.mentions[rule_expression(rule)] & !own != 0) | no | yes
    })
    .map_err(|n| table.starts().rules + n)?;
    first(notes.nests, |nest| nest.clashes).map_err(|n| table.starts().lists + n)
}

//! Tables with owners or names turned from one owner's things to another's, where the check still
//! accepts them: so that a check that lets too much pass is found by what strangers then do.

use super::draft::Draft;
use super::prng::Prng;
use crate::check;
use crate::words::*;

/// How many turned tables are tried; most are refused.
const TRIES: usize = 12;

/// A turned table that is accepted, or the table as it was.
pub fn turned(rng: &mut Prng, good: Draft) -> Draft {
    let tried = (0..TRIES).map(|_| {
        let mut draft = good.clone();
        turn(rng, &mut draft);
        draft
    });
    let mut accepted = tried.filter(|draft| *draft != good && check(&draft.words()).reason == 0);
    accepted.next().unwrap_or(good)
}

fn turn(rng: &mut Prng, draft: &mut Draft) {
    match rng.below(6) {
        0 | 1 => turn_condition(rng, draft),
        2 | 3 => turn_item(rng, draft),
        4 => turn_rule(rng, draft),
        _ => turn_owner(rng, draft),
    }
}

/// Another port of the same kind in a condition.
fn turn_condition(rng: &mut Prng, draft: &mut Draft) {
    let at = rng.below(draft.expressions.len());
    if let Expression::Condition(condition) = &mut draft.expressions[at] {
        condition.port = like(rng, &draft.ports, condition.port);
    }
}

/// Another port of the same kind as this one.
fn like(rng: &mut Prng, ports: &[Port], port: u32) -> u32 {
    let kind = ports[port as usize].kind;
    let same = (0..ports.len()).filter(|&other| ports[other].kind == kind);
    rng.pick(&same.collect::<Vec<usize>>()) as u32
}

/// Another port or network in an item; or a list or rule named in place of a call, for those that
/// are named so far must be reached all the same.
fn turn_item(rng: &mut Prng, draft: &mut Draft) {
    let kind = rng.within(item::CLEAR_EVENT, item::RULE);
    let naming = [item::LIST, item::RULE].contains(&kind);
    let turned = if naming { item::OUTSIDE_CALL } else { kind };
    let of_kind = (0..draft.items.len()).filter(|&at| draft.items[at].kind == turned);
    let Some(at) = rng.pick_any(&of_kind.collect::<Vec<usize>>()) else {
        return;
    };
    let item = draft.items[at];
    let a = match kind {
        item::NETWORK_REQUEST => rng.below(draft.networks.len()) as u32,
        item::LIST => rng.below(draft.lists.len()) as u32,
        item::RULE => rng.below(draft.rules.len()) as u32,
        _ => like(rng, &draft.ports, item.a),
    };
    draft.items[at] = if naming { Item::naming(kind, a) } else { Item { a, ..item } };
}

/// Another list of a rule, which adds to its own.
fn turn_rule(rng: &mut Prng, draft: &mut Draft) {
    let (at, list) = (rng.below(draft.rules.len()), rng.below(draft.lists.len().max(1)) as u32);
    if (list as usize) < draft.lists.len() && draft.rules[at].false_list == NO_LIST {
        draft.rules[at].false_list = list;
    }
}

/// Another owner of a network or source, a rule or a list.
fn turn_owner(rng: &mut Prng, draft: &mut Draft) {
    let owner = draft.some_owner(rng);
    match rng.below(4) {
        0 if !draft.networks.is_empty() => {
            let at = rng.below(draft.networks.len());
            draft.networks[at].0.owner = owner;
        }
        1 if !draft.sources.is_empty() => {
            let at = rng.below(draft.sources.len());
            draft.sources[at].owner = owner;
        }
        2 if !draft.lists.is_empty() => {
            let at = rng.below(draft.lists.len());
            draft.lists[at].owner = owner;
        }
        _ => {
            let at = rng.below(draft.rules.len());
            draft.rules[at].owner = owner;
        }
    }
}

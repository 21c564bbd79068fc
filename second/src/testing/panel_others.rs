//! Request Q-13's last sentence: "Accepted tables of equal counts that give the operator the same
//! numbered things, with fitting states and traces agreeing in that operator's words, print the
//! same bytes."

use super::coverage::{Met, Row};
use super::demand3::owners_of_words;
use super::log::{Entry, hold};
use super::panel::{Written, drawing, moment, owners, some_operator};
use super::panel_rows::{self as rows, Panels};
use super::visits_rows::special;
use crate::cases::Case;
use crate::cases::draft::Draft;
use crate::cases::prng::Prng;
use crate::cases::states::fit_state;
use crate::words::*;
use crate::{check, check_state, panel};

/// A table's fields are drawn anew in so many of a hundred words; an operator's own less often, for
/// its words of the state must fit the other table too.
const STRANGERS: usize = 60;
const OWN: usize = 15;

/// Behind any event, for an owner mostly: another table, state and trace, and the same panel.
pub fn try_others(case: &Case, draft: &Draft, log: &[Entry], met: &mut Met) -> Result<(), String> {
    let mut rng = drawing(case);
    let behind = rng.below(log.len() + 1).checked_sub(1);
    let (state, words) = moment(case, log, behind);
    let operator = some_operator(&mut rng, &owners(draft));
    let here = Seen { draft: draft.clone(), state: state.to_vec(), words: words.to_vec() };
    let Some(other) = here.another(&mut rng, operator) else {
        return Ok(());
    };
    other.try_same(operator, &Written::of(draft, operator).lines(state, words))?;
    here.meet(&other, operator, met);
    Ok(())
}

/// What a panel is printed of.
struct Seen {
    draft: Draft,
    state: Vec<u32>,
    words: Vec<u32>,
}

impl Seen {
    fn try_same(&self, operator: u32, lines: &str) -> Result<(), String> {
        let mut room = vec![0x2E; lines.len() + 3];
        let laid = panel(operator, &self.draft.words(), &self.state, &self.words, &mut room);
        let same = laid.answer == 0 && room == [lines.as_bytes(), b"..."].concat();
        hold(same && laid.bytes == lines.len(), || {
            let room = String::from_utf8_lossy(&room).into_owned();
            format!("operator {operator} sees {laid:?} {room:?} of another table, not {lines:?}")
        })
    }

    /// Another that must have the operator's panel; None where the state's own words do not fit
    /// the table drawn.
    fn another(&self, rng: &mut Prng, operator: u32) -> Option<Seen> {
        let draft = other_table(rng, &self.draft, operator);
        let mut state = fit_state(rng, &draft);
        for place in Written::of(&draft, operator).places() {
            state[place] = self.state[place];
        }
        let fits = check_state(&draft.words(), &state) == 0;
        fits.then(|| Seen { draft, state, words: other_trace(rng, &self.words, operator) })
    }

    fn meet(&self, other: &Seen, operator: u32, met: &mut Met) {
        let (here, there) = (&self.draft, &other.draft);
        self.meet_tables(other, operator, met);
        let whose = owners_of_words(here).into_iter().zip(owners_of_words(there));
        let changed = self.state.iter().zip(&other.state).map(|(a, b)| a != b);
        let (ports, rules) = (here.ports.len(), here.rules.len());
        for (place, ((owner, owner_there), changed)) in whose.zip(changed).enumerate() {
            let section = match place {
                _ if place < ports => Section::Ports,
                _ if place < ports + rules => Section::Rules,
                _ if place < ports + rules + here.networks.len() => Section::Networks,
                _ => Section::Sources,
            };
            if !changed {
                continue;
            }
            if section == Section::Rules {
                let own = owner == operator && owner_there == operator;
                special(met, &[(true, rows::OTHER_RULES), (own, rows::OTHER_OWN_RULES)]);
            } else {
                met.insert(Row::Panels(Panels::State(section as usize, owner == PLATFORM)));
            }
        }
        let strangers = |words: &[u32]| {
            let strangers = words.iter().filter(|&&word| TraceWord::of(word).owner != operator);
            strangers.copied().collect::<Vec<u32>>()
        };
        let (before, after) = (strangers(&self.words), strangers(&other.words));
        let dropped = before.iter().any(|word| !after.contains(word));
        let added = after.iter().any(|word| !before.contains(word));
        special(met, &[(dropped, rows::DROPPED), (added, rows::ADDED)]);
    }

    fn meet_tables(&self, other: &Seen, operator: u32, met: &mut Met) {
        let (here, there) = (&self.draft, &other.draft);
        let differ = [
            (here.ports != there.ports, Section::Ports),
            (here.networks != there.networks, Section::Networks),
            (here.sources != there.sources, Section::Sources),
            (here.expressions != there.expressions, Section::Expressions),
            (here.rules != there.rules, Section::Rules),
            (here.lists != there.lists, Section::Lists),
            (here.items != there.items, Section::Items),
        ];
        let differ = differ.into_iter().filter(|(differs, _)| *differs);
        met.extend(differ.map(|(_, section)| Row::Panels(Panels::Table(section as usize))));
        let ports = here.ports.iter().zip(&there.ports);
        let own_port = ports.clone().any(|(a, b)| a.owner == operator && a != b);
        let networks = here.networks.iter().zip(&there.networks);
        let own_network = networks.clone().any(|(a, b)| a.0.owner == operator && a != b);
        let mut sources = here.sources.iter().zip(&there.sources);
        let own_source = sources.any(|(a, b)| a.owner == operator && a != b);
        let exchanged =
            |(a, b): (&Port, &Port)| ![a.owner, b.owner].contains(&PLATFORM) && a.owner != b.owner;
        special(
            met,
            &[
                (here.edition != there.edition, rows::OTHER_EDITION),
                (own_port || own_network || own_source, rows::OTHER_OWN),
                (ports.clone().any(exchanged), rows::EXCHANGED),
                (
                    ports.clone().any(|(a, b)| a.owner > b.owner && b.owner == 0),
                    rows::NOW_PLATFORMS,
                ),
                (ports.clone().any(|(a, b)| a.kind != b.kind), rows::OTHER_KIND),
            ],
        );
    }
}

/// Another accepted table of the same counts, in which the operator has the things that it has.
fn other_table(rng: &mut Prng, draft: &Draft, operator: u32) -> Draft {
    let mut other = draft.clone();
    if rng.chance(70) {
        exchange_strangers(rng, &mut other, operator);
    }
    redraw_things(rng, &mut other, operator);
    redraw_rest(rng, &mut other);
    let mut turned = other.clone();
    turn_word(rng, &mut turned, operator);
    if check(&turned.words()).reason == 0 { turned } else { other }
}

/// Owners other than the operator and the platform trade places with each other.
fn exchange_strangers(rng: &mut Prng, draft: &mut Draft, operator: u32) {
    let strangers: Vec<u32> = (1..16).filter(|&owner| owner != operator).collect();
    let mut exchanged = strangers.clone();
    rng.shuffle(&mut exchanged);
    let exchange = |owner: &mut u32| {
        if let Some(at) = strangers.iter().position(|stranger| stranger == owner) {
            *owner = exchanged[at];
        }
    };
    draft.ports.iter_mut().for_each(|port| exchange(&mut port.owner));
    draft.networks.iter_mut().for_each(|(network, _)| exchange(&mut network.owner));
    draft.sources.iter_mut().for_each(|source| exchange(&mut source.owner));
    draft.rules.iter_mut().for_each(|rule| exchange(&mut rule.owner));
    draft.lists.iter_mut().for_each(|list| exchange(&mut list.owner));
}

/// What no other word of the table speaks of: initial values, reloads, waits and timeouts.
fn redraw_things(rng: &mut Prng, draft: &mut Draft, operator: u32) {
    let chance = |owner: u32| if owner == operator { OWN } else { STRANGERS };
    let thing_ports = draft.thing_ports();
    for (number, port) in draft.ports.iter_mut().enumerate() {
        let free = !thing_ports.contains(&(number as u32));
        if !rng.chance(chance(port.owner)) {
            continue;
        }
        match port.kind {
            port::TIMER => port.reload = rng.within(1, 65535),
            port::MODE if free => {
                (port.deferred, port.has_initial) = (rng.within(0, 1), rng.within(0, 1));
                port.initial = port.has_initial * rng.within(0, 255);
            }
            port::EVENT => port.deferred = rng.within(0, 1),
            _ => {}
        }
    }
    for (network, waits) in draft.networks.iter_mut() {
        if rng.chance(chance(network.owner)) {
            network.threshold = rng.within(0, 255);
            let (l1, l2) = (rng.within(1, 255), rng.within(1, 255));
            *waits = Waits { l1, l2, e_ticks: rng.within(1, 65535) };
        }
    }
    for source in draft.sources.iter_mut() {
        if rng.chance(chance(source.owner)) {
            source.timeout = rng.pick(&[0, 1, 5, 65535]);
        }
    }
}

/// Values, first results, priorities, codes and the edition: no name changes, and so no reason.
fn redraw_rest(rng: &mut Prng, draft: &mut Draft) {
    for expression in draft.expressions.iter_mut() {
        if let Expression::Condition(condition) = expression
            && ![expression::SET, expression::CLEARED].contains(&condition.kind)
            && rng.chance(STRANGERS)
        {
            condition.value = rng.within(0, 255);
        }
    }
    for rule in draft.rules.iter_mut() {
        rule.first = rng.within(0, UNDEFINED);
        if rng.chance(50) {
            std::mem::swap(&mut rule.true_list, &mut rule.false_list);
        }
    }
    for list in draft.lists.iter_mut() {
        (list.triggered, list.priority) = (rng.within(0, 1), rng.within(0, 255));
    }
    let aborts = draft.items.iter().any(|item| item.abort == 1);
    if rng.chance(50) && !aborts {
        draft.edition = edition::ONE + edition::TWO - draft.edition;
    }
    for item in draft.items.iter_mut() {
        match item.kind {
            item::OUTSIDE_CALL if rng.chance(OWN) => item.b = rng.within(0, 65535),
            item::NETWORK_REQUEST if rng.chance(OWN) => item.b = rng.within(mode::NONE, mode::FULL),
            _ => {}
        }
    }
}

/// A stranger's port, rule or list turned to another's, to the platform's or to another kind, or
/// two networks or sources in each other's places: it may not stand.
fn turn_word(rng: &mut Prng, draft: &mut Draft, operator: u32) {
    let not_own: Vec<u32> = (0..16).filter(|&owner| owner != operator).collect();
    let owner = if rng.chance(50) { PLATFORM } else { rng.pick(&not_own) };
    let strangers = |owners: Vec<u32>| {
        let numbered = owners.into_iter().enumerate().filter(|(_, owner)| *owner != operator);
        numbered.map(|(number, _)| number).collect::<Vec<usize>>()
    };
    let ports = strangers(draft.ports.iter().map(|port| port.owner).collect());
    let networks = strangers(draft.networks.iter().map(|(network, _)| network.owner).collect());
    let sources = strangers(draft.sources.iter().map(|source| source.owner).collect());
    match rng.below(5) {
        0 => {
            if let Some(port) = rng.pick_any(&ports) {
                give_port(draft, port as u32, owner);
            }
        }
        1 => {
            if let Some(port) = rng.pick_any(&ports) {
                draft.ports[port] = some_port(rng, draft.ports[port].owner);
            }
        }
        2 => {
            if let (Some(a), Some(b)) = (rng.pick_any(&networks), rng.pick_any(&networks)) {
                draft.networks.swap(a, b);
            }
        }
        3 => {
            if let (Some(a), Some(b)) = (rng.pick_any(&sources), rng.pick_any(&sources)) {
                draft.sources.swap(a, b);
            }
        }
        _ => {
            // Any owner's rule; the operator may win or lose one, for rules are not shown.
            let rule = rng.below(draft.rules.len());
            draft.rules[rule].owner = rng.within(0, 15);
        }
    }
}

/// A port of any kind.
fn some_port(rng: &mut Prng, owner: u32) -> Port {
    let kind = rng.within(port::MODE, port::TIMER);
    let (deferred, reload) = if kind == port::TIMER { (1, 9) } else { (rng.within(0, 1), 0) };
    Port { kind, deferred, owner, reload, ..Default::default() }
}

/// A port, and the network or source that has it, to another owner.
fn give_port(draft: &mut Draft, port: u32, owner: u32) {
    draft.ports[port as usize].owner = owner;
    for (network, _) in draft.networks.iter_mut().filter(|(network, _)| network.port == port) {
        network.owner = owner;
    }
    for source in draft.sources.iter_mut().filter(|source| source.port == port) {
        source.owner = owner;
    }
}

/// The operator's words in their order, among words of others: some of those that there were, and
/// some that no step may have written.
fn other_trace(rng: &mut Prng, words: &[u32], operator: u32) -> Vec<u32> {
    let kept = rng.pick(&[0, 50, 100]);
    let mut trace = vec![];
    for &word in words.iter().chain(&[0]) {
        for _ in 0..rng.below(3) {
            let added = TraceWord::of(rng.word());
            if added.owner != operator {
                trace.push(added.word());
            }
        }
        if TraceWord::of(word).owner == operator || rng.chance(kept) {
            trace.push(word);
        }
    }
    trace
}

//! Accepted tables of any size at equal nesting: the same few things over and
//! over, so that only their number grows.

use second::cases::draft::Draft;
use second::words::*;

/// Rules and lists share these ports, whatever the size.
const ASKED: u32 = 0;
const PRESSED: u32 = 1;
const CLOCK: u32 = 2;
const QUIET: u32 = 3;

/// A table of so many blocks (at most 85) of three lists, three rules, six
/// expressions and 21 items; ports, networks and sources grow with them as far
/// as document 01 lets them. Lists and expressions nest three deep.
pub fn sized(blocks: usize) -> Draft {
    let networks = (blocks / 10).min(8);
    let sources = (blocks / 3).min(32);
    let mut draft = Draft { ports: ports(networks + sources), ..Default::default() };
    let first = QUIET + 1;
    draft.networks = (0..networks as u32)
        .map(|n| {
            let network = Network { port: first + n, threshold: 2, ..Default::default() };
            (network, Waits { l1: 3, l2: 10, e_ticks: 5 })
        })
        .collect();
    let first = first + networks as u32;
    let source = |s| Source { port: first + s, timeout: 4, ..Default::default() };
    draft.sources = (0..sources as u32).map(source).collect();
    (0..blocks).for_each(|_| block(&mut draft));
    draft
}

/// The shared ports, and one for each network and source.
fn ports(things: usize) -> Vec<Port> {
    let asked = Port { kind: port::MODE, has_initial: 1, ..Default::default() };
    let pressed = Port { kind: port::EVENT, ..Default::default() };
    let clock = Port { kind: port::TIMER, deferred: 1, reload: 3, ..Default::default() };
    let shown = Port { kind: port::MODE, deferred: 1, ..Default::default() };
    [asked, pressed, clock, asked].into_iter().chain(vec![shown; things]).collect()
}

/// A request of 5 starts the block's first list, which names the second, which
/// has a rule item that starts the third; an expired timer starts the third.
fn block(draft: &mut Draft) {
    let e = draft.expressions.len() as u32;
    let condition = |kind, port, value| {
        Expression::Condition(Condition { kind, port, value, ..Default::default() })
    };
    let operator = |kind, left, right| Expression::Operator(Operator { kind, left, right });
    draft.expressions.extend([
        condition(expression::EQUAL, ASKED, 5),
        condition(expression::NOT_EQUAL, QUIET, 9),
        condition(expression::SET, PRESSED, 0),
        operator(expression::OR, e + 1, e + 2),
        operator(expression::AND, e, e + 3),
        condition(expression::EQUAL, CLOCK, timer::EXPIRED),
    ]);
    let (l, r) = (draft.lists.len() as u32, draft.rules.len() as u32);
    let rule = |expression, true_list| Rule {
        expression,
        true_list,
        false_list: NO_LIST,
        first: UNDEFINED,
        ..Default::default()
    };
    let nested = Rule { nested_only: 1, ..rule(e + 3, l + 2) };
    draft.rules.extend([rule(e + 4, l), nested, rule(e + 5, l + 2)]);
    let names = [(item::LIST, l + 1), (item::RULE, r + 1), (item::OUTSIDE_CALL, 0)];
    for (place, (kind, a)) in names.into_iter().enumerate() {
        let list = List {
            priority: l % 7,
            first: draft.items.len() as u32,
            count: 7,
            ..Default::default()
        };
        draft.lists.push(List { triggered: (place == 2) as u32, ..list });
        let asks = !draft.networks.is_empty();
        draft.items.extend(items(asks).into_iter().chain([Item::naming(kind, a)]));
    }
}

/// Six items of every kind that names no list.
fn items(asks: bool) -> [Item; 6] {
    let ask = if asks { Item::asking(0, mode::FULL) } else { Item::call(3) };
    let clear = Item::naming(item::CLEAR_EVENT, PRESSED);
    let turn = |kind| Item::naming(kind, CLOCK);
    [Item::call(1), clear, ask, turn(item::STOP_TIMER), turn(item::START_TIMER), Item::call(2)]
}

/// Requests that start every first list and ones that start none, an event, a
/// tick that arbitrates, ticks that count, a wakeup and a bus-off, which small
/// tables refuse alike on both sides.
pub fn events() -> Vec<u32> {
    let request = |value| Event { kind: event::MODE_REQUEST, value, ..Default::default() }.word();
    let send = |kind, index| Event { kind, index, ..Default::default() }.word();
    vec![
        request(5),
        0,
        send(event::EVENT_REQUEST, PRESSED),
        request(6),
        0,
        send(event::WAKEUP, 0),
        0,
        0,
        send(event::BUS_OFF, 0),
        request(7),
        0,
        0,
    ]
}

//! Networks that are heard of in every state: lists ask them for modes and bus-offs make them
//! recover, with ticks between, so that what was heard in check is taken, dropped or lost.

use super::draft::Draft;
use super::numbers::renumbered;
use super::prng::Prng;
use super::sequences::strew;
use crate::words::*;

/// What lists ask for, in order, at requests of 0 up.
const ASKED: [&[u32]; 5] = {
    use mode::*;
    [&[NONE], &[SILENT], &[FULL], &[NONE, FULL], &[FULL, SILENT]]
};

/// What check and full show.
const SHOWN: u32 = 2;

/// A network, and the mode port whose requests have it asked for modes.
#[derive(Clone, Copy)]
struct Line {
    network: usize,
    go: usize,
}

struct Hearer<'a> {
    rng: &'a mut Prng,
    draft: Draft,
    lines: Vec<Line>,
    /// Each with the answer that table and event alone give.
    sent: Vec<(u32, u32)>,
}

/// The good table, which may be empty, with networks besides, and events for
/// them with the answers that table and event alone give.
pub fn hearing(rng: &mut Prng, good: Draft) -> (Draft, Vec<(u32, u32)>) {
    let mut hearer = Hearer { rng, draft: good, lines: vec![], sent: vec![] };
    // Two are often strangers to each other.
    let lines = 1 + hearer.rng.below(2);
    (0..lines).for_each(|_| hearer.add_line());
    let checks = 3 + hearer.rng.below(6);
    (0..checks).for_each(|_| hearer.send_check());
    let Hearer { rng, draft, sent, .. } = hearer;
    let events = strew(rng, &draft, sent);
    (renumbered(rng, draft), events)
}

impl Hearer<'_> {
    fn add_line(&mut self) {
        let owner = if self.rng.chance(30) {
            self.draft.some_owner(self.rng)
        } else {
            self.rng.within(1, 15)
        };
        // The platform's lists ask anyone's networks.
        let asking = if self.rng.chance(20) { PLATFORM } else { owner };
        let (network, port) = (self.draft.networks.len(), self.draft.ports.len());
        let line = Line { network, go: port + 1 };
        let deferred = self.rng.chance(20) as u32;
        self.draft.ports.push(Port { deferred: 1, owner, ..Default::default() });
        self.draft.ports.push(Port { deferred, owner: asking, ..Default::default() });
        let pair = self.network(owner, port as u32);
        self.draft.networks.push(pair);
        for (value, modes) in ASKED.iter().enumerate() {
            let ask = |&b: &u32| Item::asking(network as u32, b);
            let items: Vec<Item> = modes.iter().map(ask).collect();
            self.add_rule(asking, line.go, value as u32, &items);
        }
        // Whether check or full is shown: going from one to the other starts nothing.
        let call = Item::call(port as u32);
        self.add_rule(owner, port, SHOWN, &[call]);
        self.lines.push(line);
    }

    /// Mostly short, so that it ends within a sequence; at times a check that only heard can end.
    fn network(&mut self, owner: u32, port: u32) -> (Network, Waits) {
        let threshold = self.rng.pick(&[0, 1, 2, 255]);
        let (l1, l2) = (self.rng.within(1, 4), self.rng.within(1, 4));
        let e_ticks = self.rng.pick(&[1, 2, 3, 4, 6, 65535]);
        (Network { owner, port, threshold, zero: 0 }, Waits { l1, l2, e_ticks })
    }

    /// A rule with a list of its own where the port has this value.
    fn add_rule(&mut self, owner: u32, port: usize, value: u32, items: &[Item]) {
        let condition = Condition { kind: expression::EQUAL, port: port as u32, value, zero: 0 };
        let expression = self.draft.add_expression(Expression::Condition(condition));
        let true_list = self.draft.add_list(self.rng, owner, false, items);
        let lists = Rule { true_list, false_list: NO_LIST, ..Default::default() };
        self.draft.add_rule(Rule { owner, expression, ..lists });
    }

    /// Takes a network to check, mostly, and has something happen to it there.
    fn send_check(&mut self) {
        let line = self.rng.pick(&self.lines);
        let Waits { l1, l2, .. } = self.draft.networks[line.network].1;
        self.ask(line, mode::FULL);
        if self.rng.chance(50) {
            self.send(line, event::BUS_OFF);
        }
        let ticks = self.rng.within(1, l1.max(l2));
        (0..ticks).for_each(|_| self.tick());
        for _ in 0..2 + self.rng.below(6) {
            match self.rng.weighed(&[6, 5, 2, 2, 1]) {
                0 => self.send(line, event::HEARD),
                1 => self.tick(),
                2 => self.send(line, event::BUS_OFF),
                3 => {
                    let value = self.rng.below(ASKED.len()) as u32;
                    self.ask(line, value);
                }
                _ => self.send_strange(line),
            }
        }
    }

    fn tick(&mut self) {
        self.sent.push((Event::default().word(), 0));
    }

    fn ask(&mut self, line: Line, value: u32) {
        let (index, owner) = (line.go as u32, self.draft.ports[line.go].owner);
        let request = Event { kind: event::MODE_REQUEST, owner, index, value, zero: 0 };
        self.sent.push((request.word(), 0));
    }

    fn send(&mut self, line: Line, kind: u32) {
        let owner = self.draft.networks[line.network].0.owner;
        self.sent.push((self.event(line, kind, owner), 0));
    }

    /// Heard, from one who does not have the network.
    fn send_strange(&mut self, line: Line) {
        let owner = self.draft.networks[line.network].0.owner;
        let stranger = (owner + self.rng.within(1, 15)) % 16;
        let sender = if self.rng.chance(50) && owner != PLATFORM { PLATFORM } else { stranger };
        self.sent.push((self.event(line, event::HEARD, sender), 6));
    }

    fn event(&self, line: Line, kind: u32, owner: u32) -> u32 {
        Event { kind, owner, index: line.network as u32, value: 0, zero: 0 }.word()
    }
}

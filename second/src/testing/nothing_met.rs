//! What a pair of runs met, place by place: the strangers' events of both sides before a shared
//! event, and that event in both.

use super::choices::Choices;
use super::coverage::{Met, Row};
use super::log::Entry;
use super::nothing_rows::{self as rows, GOING, Going, Nothing};
use super::ports::{Ports, mentions};
use super::traces::{callers, started};
use super::visits_rows::special;
use super::walk::{By, Walk};
use crate::cases::agreement::{Stop, Told};
use crate::cases::draft::Draft;
use crate::cases::pairs::{Pair, Part};
use crate::words::*;

/// Strangers' events of both sides between two shared ones, and the later of these.
struct Place<'a> {
    gaps: [&'a [Entry]; 2],
    shared: Option<[&'a Entry; 2]>,
}

pub struct Watched<'a> {
    pair: &'a Pair,
    draft: Draft,
    mentions: Vec<Ports>,
    places: Vec<Place<'a>>,
}

impl<'a> Watched<'a> {
    pub fn of(pair: &'a Pair, logs: [&'a [Entry]; 2]) -> Self {
        let draft = Draft::of(&Table::of(&pair.table).expect("it has its header"));
        let [one, other] = logs.map(|log| parted(pair, log));
        let place = |((gap, shared), (with, same)): (Gap<'a>, Gap<'a>)| Place {
            gaps: [gap, with],
            shared: shared.zip(same).map(|(one, other)| [one, other]),
        };
        let places = one.into_iter().zip(other).map(place).collect();
        Watched { pair, mentions: mentions(&draft), draft, places }
    }

    pub fn meet(&self, met: &mut Met) {
        let lengths = [0, 1].map(|side| self.pair.sides[side].len());
        let shared = self.pair.sides[0].iter().filter(|sent| sent.shared).count();
        let owners = self.draft.ports.iter().map(|port| port.owner);
        let owners = owners.chain(self.draft.rules.iter().map(|rule| rule.owner));
        let idle = owners.into_iter().all(|owner| owner != self.pair.operator);
        special(
            met,
            &[
                (self.pair.operator == PLATFORM, rows::FROM_PLATFORM),
                (idle && self.pair.operator != PLATFORM, rows::FROM_IDLE),
                (lengths[0] != lengths[1], rows::FEWER),
                (lengths[0] != lengths[1] && lengths.contains(&shared), rows::SILENT),
            ],
        );
        for place in &self.places {
            self.meet_gaps(place, met);
            if let Some(shared) = place.shared {
                self.meet_going(place, shared, met);
                self.meet_shared(shared, met);
                self.meet_calls(shared, met);
            }
        }
    }

    /// Strangers' events that one side alone has at this place, or both with others there.
    fn meet_gaps(&self, place: &Place, met: &mut Met) {
        let edition = self.draft.edition;
        let [one, other] = place.gaps;
        if !differ(place) {
            return;
        }
        if !one.is_empty() && !other.is_empty() {
            met.insert(Row::Nothing(Nothing::Differ(edition)));
        }
        place.gaps.iter().for_each(|gap| gap.iter().for_each(|entry| self.meet_nested(entry, met)));
        if !one.is_empty() && !other.is_empty() {
            return;
        }
        for entry in one.iter().chain(other) {
            met.insert(Row::Nothing(Nothing::Alone(edition, entry.answer)));
            if entry.answer == 0 && entry.before != entry.after {
                met.insert(Row::Nothing(Nothing::Changed(entry.event.kind)));
            }
            let kinds = entry.trace.iter().map(|&word| TraceWord::of(word).kind);
            let items = kinds.filter(|&kind| kind != LIST_START);
            met.extend(items.map(|kind| Row::Nothing(Nothing::Ran(kind))));
            if entry.answer == 6 && self.of_own_thing(entry.event) {
                met.insert(Row::Special(rows::FOREIGN_OWN));
            }
        }
    }

    fn of_own_thing(&self, event: Event) -> bool {
        let (draft, number) = (&self.draft, event.index as usize);
        let owner = match event.kind {
            event::MODE_REQUEST | event::EVENT_REQUEST => draft.ports[number].owner,
            event::BUS_OFF | event::HEARD => draft.networks[number].0.owner,
            _ => draft.sources[number].owner,
        };
        owner == self.pair.operator
    }

    fn walk<'b>(&'b self, entry: &'b Entry) -> Option<Walk<'b>> {
        let choices = Choices::of(&self.draft, &self.mentions, entry);
        Walk::over(&self.draft, &choices, entry).ok()
    }

    fn meet_nested(&self, entry: &Entry, met: &mut Met) {
        if entry.answer != 0 || entry.trace.is_empty() {
            return;
        }
        let Some(walk) = self.walk(entry) else {
            return;
        };
        let by = |by: By| walk.lists.iter().any(|ran| ran.by == by);
        let aborted = walk.lists.iter().any(|ran| ran.aborted);
        special(
            met,
            &[
                (by(By::Name), rows::NESTED_NAME),
                (by(By::RuleItem), rows::NESTED_RULE),
                (aborted, rows::ABORTED),
            ],
        );
    }

    /// Something of the operator's that the shared event goes on with, strangers differing before.
    fn meet_going(&self, place: &Place, shared: [&Entry; 2], met: &mut Met) {
        let taken = place.gaps.iter().any(|gap| gap.iter().any(|entry| entry.answer == 0));
        let [entry, _] = shared;
        if !differ(place) || !taken || entry.answer != 0 {
            return;
        }
        for going in GOING {
            if self.went_on(going, entry) {
                met.insert(Row::Nothing(Nothing::During(self.draft.edition, going)));
            }
        }
    }

    fn went_on(&self, going: Going, entry: &Entry) -> bool {
        let (draft, own) = (&self.draft, |owner: u32| owner == self.pair.operator);
        let network = |state: u32| {
            let mut networks =
                (0..draft.networks.len()).filter(|&n| own(draft.networks[n].0.owner));
            networks.any(|n| {
                let [before, after] = [&entry.before, &entry.after].map(|w| draft.network_in(w, n));
                before.state == state && before.counter > 0 && before != after
            })
        };
        match going {
            Going::Timer => draft.ports.iter().enumerate().any(|(number, port)| {
                let [before, after] =
                    [&entry.before, &entry.after].map(|words| PortState::of(words[number]));
                let runs = port.kind == port::TIMER && before.value == timer::STARTED;
                own(port.owner) && runs && before.remaining != after.remaining
            }),
            Going::Pending => draft.sources.iter().enumerate().any(|(number, source)| {
                let [before, after] =
                    [&entry.before, &entry.after].map(|words| draft.source_in(words, number));
                own(source.owner) && before.status == source::PENDING && before != after
            }),
            Going::Recovering => network(network::RECOVER),
            Going::Check => network(network::CHECK),
        }
    }

    fn meet_shared(&self, [one, other]: [&Entry; 2], met: &mut Met) {
        let (edition, kind) = (self.draft.edition, one.event.kind);
        if one.answer != 0 {
            met.insert(Row::Nothing(Nothing::Refused(edition, one.answer)));
            return;
        }
        if one.trace.len() != other.trace.len() {
            met.insert(Row::Nothing(Nothing::Total(edition, kind)));
        }
        let stand = |entry: &Entry| -> Vec<usize> {
            let words = entry.trace.iter().map(|&word| TraceWord::of(word).owner).enumerate();
            words.filter(|&(_, owner)| owner == self.pair.operator).map(|(at, _)| at).collect()
        };
        if stand(one) != stand(other) {
            met.insert(Row::Nothing(Nothing::Moved(edition, kind)));
        }
    }

    /// What calls met in a shared event of edition 2.
    fn meet_calls(&self, shared: [&Entry; 2], met: &mut Met) {
        if self.draft.edition == edition::ONE || shared[0].answer != 0 {
            return;
        }
        let whose = |own: &dyn Fn(u32) -> bool| shared.map(|entry| failed(entry, own));
        let [own, moved] = whose(&|owner| owner == self.pair.operator);
        let [platforms, _] = whose(&|owner| owner == PLATFORM);
        let strange = |owner: u32| ![PLATFORM, self.pair.operator].contains(&owner);
        let lucks = shared.map(|entry| outcomes(entry, &strange));
        let other_luck = lucks[0].iter().zip(&lucks[1]).any(|(one, other)| one != other);
        let aborted = shared.map(|entry| self.aborted(entry));
        let before = aborted.each_ref().map(|&(_, before)| before);
        let tick = shared[0].is_tick();
        special(
            met,
            &[
                (!own.is_empty(), rows::OWN_FAILED),
                (own != moved, rows::OWN_MOVED),
                (!platforms.is_empty(), rows::PLATFORM_FAILED),
                (other_luck, rows::OTHER_LUCK),
                (aborted[0].0 && aborted[1].0, rows::OWN_ABORTED),
                (tick && (before[0] || before[1]), rows::ABORTED_BEFORE),
                (tick && before[0] != before[1], rows::ABORTED_ALONE),
            ],
        );
    }

    /// Whether a list of the operator's is aborted; and whether a stranger's is, before one of the
    /// operator's starts.
    fn aborted(&self, entry: &Entry) -> (bool, bool) {
        if entry.outcomes.is_empty() || started(entry).is_empty() {
            return (false, false);
        }
        let Some(walk) = self.walk(entry) else {
            return (false, false);
        };
        let own = |list: usize| self.draft.lists[list].owner == self.pair.operator;
        let strange = |list: usize| !own(list) && self.draft.lists[list].owner != PLATFORM;
        let first = walk.lists.iter().position(|ran| ran.aborted && strange(ran.list));
        let behind = first.is_some_and(|at| walk.lists[at..].iter().any(|ran| own(ran.list)));
        (walk.lists.iter().any(|ran| ran.aborted && own(ran.list)), behind)
    }
}

type Gap<'a> = (&'a [Entry], Option<&'a Entry>);

/// A side's strangers' events, each row of them with the shared event behind it.
fn parted<'a>(pair: &Pair, log: &'a [Entry]) -> Vec<Gap<'a>> {
    let shared = |entry: &Entry| pair.shares(entry.event.word());
    log.split_inclusive(shared)
        .map(|part| match part.split_last() {
            Some((last, gap)) if shared(last) => (gap, Some(last)),
            _ => (part, None),
        })
        .chain(log.last().is_some_and(shared).then_some((&[][..], None)))
        .collect()
}

fn differ(place: &Place) -> bool {
    let events = |gap: &[Entry]| gap.iter().map(|e| e.event.word()).collect::<Vec<u32>>();
    events(place.gaps[0]) != events(place.gaps[1])
}

/// What the calls of those wanted met, in order.
fn outcomes(entry: &Entry, wanted: &dyn Fn(u32) -> bool) -> Vec<u32> {
    let lent = entry.outcomes.iter().copied().chain(std::iter::repeat(outcome::GOOD));
    let met = callers(&entry.trace).into_iter().zip(lent);
    met.filter(|(owner, _)| wanted(*owner)).map(|(_, outcome)| outcome).collect()
}

/// The failed calls of those wanted, by their numbers among all calls of the event.
fn failed(entry: &Entry, wanted: &dyn Fn(u32) -> bool) -> Vec<usize> {
    let calls = callers(&entry.trace).into_iter().zip(&entry.outcomes).enumerate();
    let failed = calls.filter(|(_, (owner, lent))| wanted(*owner) && **lent == outcome::FAILED);
    failed.map(|(number, _)| number).collect()
}

/// What the panels behind shared events had.
pub fn meet_panels(pair: &Pair, told: [&[Told]; 2], met: &mut Met) {
    let shared = [0, 1].map(|side| {
        let sent = pair.sides[side].iter().zip(told[side]);
        sent.filter(|(sent, _)| sent.shared).map(|(_, told)| told).collect::<Vec<&Told>>()
    });
    for (one, other) in shared[0].iter().zip(&shared[1]).filter(|(one, _)| !one.panel.is_empty()) {
        let traced = one.panel.windows(6).any(|bytes| bytes == b"trace ");
        special(
            met,
            &[
                (true, rows::PANEL_LINES),
                (traced, rows::PANEL_TRACE),
                (traced && one.words.len() != other.words.len(), rows::PANEL_TOTAL),
                (one.answer != 0, rows::PANEL_REFUSED),
            ],
        );
    }
}

/// What a day met, given where its calls ended.
pub fn meet_day(pair: &Pair, day: &[Vec<Part>; 2], stops: [&[Stop]; 2], met: &mut Met) {
    let full = [0, 1].map(|side| first_full(&day[side], stops[side]));
    let kinds = [0, 1].map(|side| done_singly(pair, &day[side]));
    let mixed = |kinds: &Vec<bool>| kinds.contains(&true) && kinds.contains(&false);
    let lengths = stops.map(|stops| stops.last().map(|stop| stop.words.len()));
    special(
        met,
        &[
            (full[0].is_some() && full[1].is_some() && full[0] != full[1], rows::DAY_ELSEWHERE),
            (full[0].is_some() != full[1].is_some(), rows::DAY_ALONE),
            (kinds.iter().all(mixed), rows::DAY_MIXED),
            (kinds[0].iter().zip(&kinds[1]).any(|(one, other)| one != other), rows::DAY_OTHERWISE),
            (lengths[0] != lengths[1], rows::DAY_TOTAL),
        ],
    );
}

/// Behind how many shared events a day of one play was full for the first time.
fn first_full(parts: &[Part], stops: &[Stop]) -> Option<usize> {
    // The first stop is before any event, the last at the end.
    let one = parts.len() == 1 && !parts[0].single && stops.len() > 2;
    one.then(|| stops[1].shared)
}

/// Of each shared event, whether a single call did it.
fn done_singly(pair: &Pair, parts: &[Part]) -> Vec<bool> {
    let shared = |part: &Part| part.events.iter().filter(|&&event| pair.shares(event)).count();
    parts.iter().flat_map(|part| vec![part.single; shared(part)]).collect()
}

//! States that fit, reached or not, and states that miss one condition.

use super::draft::Draft;
use super::prng::Prng;
use crate::words::*;

/// A state's words by their kind, before they are put in a row.
struct Parts {
    ports: Vec<PortState>,
    rules: Vec<RuleState>,
    networks: Vec<NetworkState>,
    sources: Vec<SourceState>,
}

impl Parts {
    fn words(&self) -> Vec<u32> {
        let ports = self.ports.iter().map(|word| word.word());
        let rules = self.rules.iter().map(|word| word.word());
        let networks = self.networks.iter().map(|word| word.word());
        let sources = self.sources.iter().map(|word| word.word());
        ports.chain(rules).chain(networks).chain(sources).collect()
    }
}

/// The fresh state, made by the document's sentence and not by the judge.
pub fn fresh_state(draft: &Draft) -> Vec<u32> {
    let port = |port: &Port| PortState {
        defined: (port.has_initial == 1 || port.kind != port::MODE) as u32,
        value: if port.has_initial == 1 { port.initial } else { 0 },
        ..Default::default()
    };
    let parts = Parts {
        ports: draft.ports.iter().map(port).collect(),
        rules: draft.rules.iter().map(|rule| RuleState { last: rule.first, zero: 0 }).collect(),
        networks: vec![NetworkState::default(); draft.networks.len()],
        sources: vec![SourceState::default(); draft.sources.len()],
    };
    parts.words()
}

/// Any state that fits.
pub fn fit_state(rng: &mut Prng, draft: &Draft) -> Vec<u32> {
    fit_parts(rng, draft).words()
}

fn fit_parts(rng: &mut Prng, draft: &Draft) -> Parts {
    Parts {
        ports: draft.ports.iter().map(|&port| fit_port(rng, port)).collect(),
        rules: draft.rules.iter().map(|_| RuleState { last: rng.within(0, 2), zero: 0 }).collect(),
        networks: draft.networks.iter().map(|&(_, waits)| fit_network(rng, waits)).collect(),
        sources: draft.sources.iter().map(|&source| fit_source(rng, source)).collect(),
    }
}

fn fit_port(rng: &mut Prng, port: Port) -> PortState {
    let value = match port.kind {
        port::MODE if rng.chance(20) => return PortState::default(),
        port::MODE => rng.pick(&[0, 1, 2, 3, 255]),
        port::EVENT => rng.within(0, 1),
        _ => rng.within(timer::STOPPED, timer::EXPIRED),
    };
    let started = port.kind == port::TIMER && value == timer::STARTED;
    let remaining = if started { rng.within(1, port.reload) } else { 0 };
    // a clear marks an immediate event too; an immediate mode port is never marked.
    let may_be_marked = port.deferred == 1 || port.kind == port::EVENT;
    let marked = if may_be_marked { rng.within(0, 1) } else { 0 };
    PortState { defined: 1, marked, value, zero: 0, remaining }
}

fn fit_network(rng: &mut Prng, waits: Waits) -> NetworkState {
    let asked = rng.pick(&[mode::NONE, mode::SILENT, mode::FULL, mode::FULL, mode::FULL]);
    let state = rng.within(network::NONE, network::RECOVER);
    let counter = rng.pick(&[1, 2, 3, 254, 255]);
    let (counter, remaining) = match state {
        network::CHECK => (counter * rng.within(0, 1), rng.within(1, waits.e_ticks)),
        network::RECOVER => (counter, rng.within(1, waits.l1.max(waits.l2))),
        _ => (0, 0),
    };
    // only in check may something have been heard.
    let heard = if state == network::CHECK { rng.within(0, 1) } else { 0 };
    NetworkState { asked, state, counter, heard, zero: 0, remaining }
}

fn fit_source(rng: &mut Prng, source: Source) -> SourceState {
    match rng.within(source::NONE, source::EXPIRED) {
        source::PENDING if source.timeout == 0 => SourceState::default(),
        source::PENDING => {
            let remaining = rng.within(1, source.timeout);
            SourceState { status: source::PENDING, zero: 0, remaining }
        }
        status => SourceState { status, zero: 0, remaining: 0 },
    }
}

/// Each condition that a state can miss.
#[derive(Clone, Copy, PartialEq, Eq, Debug)]
pub enum Misfit {
    Length,
    PortZeroField,
    RuleZeroField,
    NetworkUpperZeroBit,
    NetworkLowerZeroBit,
    SourceZeroField,
    ImmediateModeMarked,
    UndefinedEvent,
    UndefinedTimer,
    UndefinedWithValue,
    UndefinedMarked,
    EventValue,
    TimerValue,
    StartedRemaining,
    NotStartedRemaining,
    PendingRemaining,
    PendingWithoutTimeout,
    NotPendingRemaining,
    CheckRemaining,
    RecoverRemaining,
    SettledRemaining,
    ResultAboveTwo,
    AskedAboveTwo,
    NetworkStateAboveFour,
    CounterOutOfPlace,
    CounterMissing,
    HeardInNone,
    HeardInSilent,
    HeardInFull,
    HeardInRecover,
}

pub const MISFITS: [Misfit; 30] = [
    Misfit::Length,
    Misfit::PortZeroField,
    Misfit::RuleZeroField,
    Misfit::NetworkUpperZeroBit,
    Misfit::NetworkLowerZeroBit,
    Misfit::SourceZeroField,
    Misfit::ImmediateModeMarked,
    Misfit::UndefinedEvent,
    Misfit::UndefinedTimer,
    Misfit::UndefinedWithValue,
    Misfit::UndefinedMarked,
    Misfit::EventValue,
    Misfit::TimerValue,
    Misfit::StartedRemaining,
    Misfit::NotStartedRemaining,
    Misfit::PendingRemaining,
    Misfit::PendingWithoutTimeout,
    Misfit::NotPendingRemaining,
    Misfit::CheckRemaining,
    Misfit::RecoverRemaining,
    Misfit::SettledRemaining,
    Misfit::ResultAboveTwo,
    Misfit::AskedAboveTwo,
    Misfit::NetworkStateAboveFour,
    Misfit::CounterOutOfPlace,
    Misfit::CounterMissing,
    Misfit::HeardInNone,
    Misfit::HeardInSilent,
    Misfit::HeardInFull,
    Misfit::HeardInRecover,
];

/// A state that fits but for this one condition; None where the table has
/// nothing that could miss it.
pub fn unfit_state(rng: &mut Prng, draft: &Draft, misfit: Misfit) -> Option<Vec<u32>> {
    let mut parts = fit_parts(rng, draft);
    match misfit {
        Misfit::Length => {
            let mut words = parts.words();
            match rng.below(3) {
                0 => words.clear(),
                1 => words.push(0),
                _ => words.truncate(words.len() - 1),
            }
            return Some(words);
        }
        Misfit::RuleZeroField | Misfit::ResultAboveTwo => {
            let rule = rng.below(parts.rules.len());
            let zero = misfit == Misfit::RuleZeroField;
            let word = &mut parts.rules[rule];
            if zero { word.zero = bit(rng, 30) } else { word.last = 3 }
        }
        _ => {
            let missed = spoil_port(rng, draft, &mut parts, misfit)
                .or_else(|| spoil_network(rng, draft, &mut parts, misfit))
                .or_else(|| spoil_source(rng, draft, &mut parts, misfit));
            missed?;
        }
    }
    Some(parts.words())
}

fn bit(rng: &mut Prng, width: usize) -> u32 {
    1 << rng.below(width)
}

/// Too little or too much of what must be 1 to `most`.
fn outside(rng: &mut Prng, most: u32) -> u32 {
    if most < 65535 && rng.chance(50) { most + 1 } else { 0 }
}

fn spoil_port(rng: &mut Prng, draft: &Draft, parts: &mut Parts, misfit: Misfit) -> Option<()> {
    let wanted = |port: &Port| match misfit {
        Misfit::PortZeroField | Misfit::NotStartedRemaining => true,
        Misfit::ImmediateModeMarked => port.kind == port::MODE && port.deferred == 0,
        Misfit::UndefinedEvent | Misfit::EventValue => port.kind == port::EVENT,
        Misfit::UndefinedTimer | Misfit::TimerValue | Misfit::StartedRemaining => {
            port.kind == port::TIMER
        }
        Misfit::UndefinedWithValue => port.kind == port::MODE,
        Misfit::UndefinedMarked => port.kind == port::MODE && port.deferred == 1,
        _ => false,
    };
    let ports: Vec<usize> = (0..draft.ports.len()).filter(|&p| wanted(&draft.ports[p])).collect();
    let number = rng.pick_any(&ports)?;
    let (port, old) = (draft.ports[number], parts.ports[number]);
    let defined = PortState { defined: 1, ..Default::default() };
    parts.ports[number] = match misfit {
        Misfit::PortZeroField => PortState { zero: bit(rng, 6), ..old },
        Misfit::ImmediateModeMarked => PortState { defined: 1, marked: 1, ..old },
        Misfit::UndefinedEvent | Misfit::UndefinedTimer => PortState::default(),
        Misfit::UndefinedWithValue => PortState { value: rng.within(1, 255), ..Default::default() },
        Misfit::UndefinedMarked => PortState { marked: 1, ..Default::default() },
        Misfit::EventValue => PortState { value: rng.within(2, 255), ..defined },
        Misfit::TimerValue => PortState { value: rng.within(3, 255), ..defined },
        Misfit::StartedRemaining => {
            let remaining = outside(rng, port.reload);
            PortState { value: timer::STARTED, remaining, ..defined }
        }
        _ => {
            // 0 is stopped in a timer and fits every other port.
            PortState { value: 0, remaining: rng.within(1, 65535), ..defined }
        }
    };
    Some(())
}

fn spoil_network(rng: &mut Prng, draft: &Draft, parts: &mut Parts, misfit: Misfit) -> Option<()> {
    let networks: Vec<usize> = (0..draft.networks.len()).collect();
    let number = rng.pick_any(&networks)?;
    let (waits, old) = (draft.networks[number].1, parts.networks[number]);
    let most = waits.l1.max(waits.l2);
    let at_rest = rng.pick(&[network::NONE, network::SILENT, network::FULL]);
    let counter = rng.within(1, 255);
    let turned = |state: u32, counter: u32, remaining: u32| NetworkState {
        asked: old.asked,
        state,
        counter,
        remaining,
        ..Default::default()
    };
    let heard = |state: u32| NetworkState { heard: 1, ..turned(state, 0, 0) };
    parts.networks[number] = match misfit {
        Misfit::NetworkUpperZeroBit => NetworkState { zero: 2, ..old },
        Misfit::NetworkLowerZeroBit => NetworkState { zero: 1, ..old },
        Misfit::AskedAboveTwo => NetworkState { asked: 3, ..old },
        Misfit::NetworkStateAboveFour => turned(rng.within(5, 7), 0, 0),
        Misfit::CheckRemaining => {
            NetworkState { state: network::CHECK, remaining: outside(rng, waits.e_ticks), ..old }
        }
        Misfit::RecoverRemaining => turned(network::RECOVER, counter, outside(rng, most)),
        Misfit::SettledRemaining => turned(at_rest, 0, rng.within(1, 65535)),
        Misfit::CounterOutOfPlace => turned(at_rest, counter, 0),
        Misfit::CounterMissing => turned(network::RECOVER, 0, most),
        Misfit::HeardInNone => heard(network::NONE),
        Misfit::HeardInSilent => heard(network::SILENT),
        Misfit::HeardInFull => heard(network::FULL),
        Misfit::HeardInRecover => {
            NetworkState { heard: 1, ..turned(network::RECOVER, counter, rng.within(1, most)) }
        }
        _ => return None,
    };
    Some(())
}

fn spoil_source(rng: &mut Prng, draft: &Draft, parts: &mut Parts, misfit: Misfit) -> Option<()> {
    let timed = misfit != Misfit::PendingWithoutTimeout;
    let sources: Vec<usize> =
        (0..draft.sources.len()).filter(|&s| (draft.sources[s].timeout > 0) == timed).collect();
    let number = rng.pick_any(&sources)?;
    let (timeout, old) = (draft.sources[number].timeout, parts.sources[number]);
    let not_pending = rng.pick(&[source::NONE, source::VALIDATED, source::EXPIRED]);
    let (status, zero, remaining) = match misfit {
        Misfit::SourceZeroField => (old.status, bit(rng, 14), old.remaining),
        Misfit::PendingRemaining => (source::PENDING, 0, outside(rng, timeout)),
        Misfit::PendingWithoutTimeout => (source::PENDING, 0, rng.within(0, 1)),
        Misfit::NotPendingRemaining => (not_pending, 0, rng.within(1, 65535)),
        _ => return None,
    };
    parts.sources[number] = SourceState { status, zero, remaining };
    Some(())
}

//! Request Q-14: "After each shared event that operator's port, rule, network and source words
//! agree, and so do its own trace words, in order." Operator 1 is the operator, operator 2 the
//! stranger.

use super::editions::{abort, edition_2};
use super::*;
use crate::play::Played;
use crate::testing::recorded::{panel, play};

/// Ports of operator 1: 0 mode, 1 deferred mode, 2 timer of 3, 3 its network's, 4 its source's;
/// of operator 2: 5 mode, 6 deferred mode, 7 timer of 2, 8 its network's, 9 its source's; 10 mode
/// of the platform. Requests of 5: port 6 starts list 0, which names list 5; port 1 list 1; port 0
/// list 2, port 5 list 3, each asking its network for full and starting its timer; port 10 lists 0
/// and 1. Port 10's request of 6 starts list 4, the platform's, which starts timer 2. B is 16.
/// State: 11 ports, rules from 11 on, networks 18 and 19, sources 20 and 21.
fn street() -> Vec<u32> {
    let shown = |owner: u32| deferred(mode(owner));
    table(
        &[
            mode(1),
            shown(1),
            timer(1, 3),
            shown(1),
            shown(1),
            mode(2),
            shown(2),
            timer(2, 2),
            shown(2),
            shown(2),
            mode(0),
        ],
        &[network(1, 3), network(2, 8)],
        &[source(1, 4, 4), source(2, 9, 3)],
        &[equal(0, 5), equal(1, 5), equal(5, 5), equal(6, 5), equal(10, 5), equal(10, 6)],
        &[
            rule(2, 3, 0, NONE),
            rule(1, 1, 1, NONE),
            rule(1, 0, 2, NONE),
            rule(2, 2, 3, NONE),
            rule(1, 4, 1, NONE),
            rule(0, 5, 4, NONE),
            rule(2, 4, 0, NONE),
        ],
        &[list(2, 0, 2), list(1, 2, 1), list(1, 3, 2), list(2, 5, 2), list(0, 7, 1), list(2, 8, 1)],
        &[
            call(0x22),
            item(5, 5),
            call(0x11),
            ask(0, 2),
            item(2, 2),
            ask(1, 2),
            item(2, 7),
            item(2, 2),
            call(0x23),
        ],
    )
}

/// Where operator 1's and the platform's words are in a state of it.
const SEEN: [usize; 12] = [0, 1, 2, 3, 4, 10, 12, 13, 15, 16, 18, 20];

/// Lists 0 and 5, operator 2's; list 1, operator 1's; lists 2 and 3.
const STRANGE: [u32; 4] = [0xF200_0000, 0x0200_0022, 0xF205_0000, 0x0200_0023];
const OWN: [u32; 2] = [0xF101_0000, 0x0100_0011];
const OWN_WAKING: [u32; 3] = [0xF102_0000, 0x4100_0002, 0x2102_0000];
const STRANGE_WAKING: [u32; 3] = [0xF203_0000, 0x4201_0002, 0x2207_0000];

fn seen(state: &[u32]) -> Vec<u32> {
    SEEN.map(|place| state[place]).to_vec()
}

/// The words of the platform's and operator 1's lists.
fn own(words: &[u32]) -> Vec<u32> {
    words.iter().copied().filter(|word| word & 0x0E00_0000 == 0).collect()
}

/// Two runs of one table from fresh states.
struct Two {
    one: Play,
    other: Play,
}

impl Two {
    #[track_caller]
    fn runs() -> Two {
        Two { one: Play::fresh(&street()), other: Play::fresh(&street()) }
    }

    /// A shared event that is taken: what is seen agrees. Gives both traces.
    #[track_caller]
    fn both(&mut self, event: u32) -> [Vec<u32>; 2] {
        let traces = [self.one.take(event), self.other.take(event)];
        assert_eq!(own(&traces[0]), own(&traces[1]));
        self.agree();
        traces
    }

    #[track_caller]
    fn agree(&self) {
        assert_eq!(seen(&self.one.state), seen(&self.other.state));
    }

    /// Shared ticks without own words; gives a word of operator 1's after each.
    #[track_caller]
    fn ticks(&mut self, count: usize, place: usize) -> Vec<u32> {
        let tick = |_| {
            assert_eq!(own(&self.both(TICK)[0]), [0; 0]);
            self.one.state[place]
        };
        (0..count).map(tick).collect()
    }
}

/// Port 0 deferred mode and 1 timer of operator 1, 2 deferred mode of operator 2. Request 5 of
/// port 2 starts list 0, two calls, the first with abort; of port 0 list 1, a call with abort
/// before the timer's start. State: the ports, two rules.
fn risky() -> Vec<u32> {
    edition_2(&plain(
        &[deferred(mode(1)), timer(1, 3), deferred(mode(2))],
        &[equal(0, 5), equal(2, 5)],
        &[rule(2, 1, 0, NONE), rule(1, 0, 1, NONE)],
        &[list(2, 0, 2), list(1, 2, 2)],
        &[abort(call(0x22)), call(0x23), abort(call(0x11)), item(2, 1)],
    ))
}

const STARTED: u32 = 0xC040_0003;
const STOPPED: u32 = 0x8000_0000;

/// A tick with these outcomes behind operator 1's request, and operator 2's if it is sent one:
/// timer 1's word and the trace.
#[track_caller]
fn risked(sent: bool, outcomes: &[u32]) -> (u32, Vec<u32>) {
    let mut play = Play::fresh(&risky());
    if sent {
        play.take(request(2, 2, 5));
    }
    play.take(request(1, 0, 5));
    let trace = play.take_with(TICK, outcomes);
    (play.state[1], trace)
}

/// Port 0 mode of operator 2, whose request 5 starts the timer 1, by a rule and a list; each of
/// the owner given. The rule is at place 6, the list at 7.
fn owned(rule_s: u32, list_s: u32, timer_s: u32) -> Vec<u32> {
    plain(
        &[mode(2), timer(timer_s, 3)],
        &[equal(0, 5)],
        &[rule(rule_s, 0, 0, NONE)],
        &[list(list_s, 0, 1)],
        &[item(2, 1)],
    )
}

/// Events played in this room from a fresh state, resumed until they are done: how many each play
/// took, the state and the joined trace.
#[track_caller]
fn day(events: &[u32], room: usize) -> (Vec<usize>, Vec<u32>, Vec<u32>) {
    let Play { table, mut state } = Play::fresh(&street());
    let (mut taken, mut words, mut rest) = (vec![], vec![], events);
    while !rest.is_empty() {
        let mut trace = vec![0; room];
        let Played { taken: some, count, answer, .. } = play(&table, &mut state, &mut trace, rest);
        assert_eq!(answer, if some < rest.len() { 3 } else { 0 });
        assert!(some > 0);
        taken.push(some);
        words.extend(&trace[..count]);
        rest = &rest[some..];
    }
    (taken, state, words)
}

/// Operator's panel of a state and words.
fn lines(operator: u32, state: &[u32], words: &[u32]) -> Vec<u8> {
    let mut room = vec![0; 1000];
    let laid = panel(operator, &street(), state, words, &mut room);
    assert_eq!(laid.answer, 0);
    room.truncate(laid.bytes);
    room
}

fixed_cases! {
    fn total_counts_differ_though_nothing_of_the_operators_does() {
        let mut two = Two::runs();
        two.one.take(request(2, 6, 5));
        assert_eq!(two.both(TICK), [STRANGE.to_vec(), vec![]]);
    }

    fn own_words_stand_at_other_positions() {
        let mut two = Two::runs();
        two.one.take(request(2, 6, 5));
        two.both(request(1, 1, 5));
        assert_eq!(two.both(TICK), [[&STRANGE[..], &OWN].concat(), OWN.to_vec()]);
    }

    fn own_words_stand_before_and_behind_strangers_by_the_lists_alone() {
        // The platform's request runs list 0 too in both runs; what differs went before.
        let mut two = Two::runs();
        two.one.take(request(2, 6, 5));
        two.other.take(request(2, 5, 5));
        let all = [&STRANGE[..], &OWN].concat();
        assert_eq!(two.both(request(0, 10, 5)), [all.clone(), all]);
        assert_eq!(two.both(TICK), [STRANGE.to_vec(), vec![]]);
    }

    fn strangers_events_differ_at_the_same_place() {
        let mut two = Two::runs();
        assert_eq!(two.one.take(request(2, 5, 5)), STRANGE_WAKING);
        two.other.take(send(WAKEUP, 2, 1));
        two.other.take(request(2, 6, 5));
        two.other.take(request(2, 6, 4));
        assert_eq!(two.both(request(1, 0, 5)), [OWN_WAKING.to_vec(), OWN_WAKING.to_vec()]);
        assert_eq!(two.ticks(3, 2), [0x8040_0002, 0x8040_0001, 0x8080_0000]);
        assert_ne!(two.one.state, two.other.state);
    }

    fn own_timer_runs_on_whatever_a_stranger_starts() {
        let mut two = Two::runs();
        two.both(request(1, 0, 5));
        assert_eq!(two.one.state[2], STARTED);
        let mut shown = vec![];
        for _ in 0..3 {
            assert_eq!(two.one.take(request(2, 5, 5)), STRANGE_WAKING);
            two.agree();
            shown.extend(two.ticks(1, 2));
        }
        assert_eq!(shown, [0x8040_0002, 0x8040_0001, 0x8080_0000]);
        assert_eq!([two.one.state[7], two.other.state[7]], [0x8040_0001, STOPPED]);
    }

    fn own_network_recovers_whatever_a_strangers_does() {
        let mut two = Two::runs();
        two.both(request(1, 0, 5));
        two.one.take(request(2, 5, 5));
        assert_eq!(two.ticks(1, 18), [0x9000_0005]);
        two.both(send(BUS_OFF, 1, 0));
        assert_eq!(two.one.state[18], 0xA008_0003);
        // Its own twice, and twice the operator's.
        for (network, answers) in [(1, 0), (0, 6)] {
            for _ in 0..2 {
                let event = send(BUS_OFF, 2, network);
                let mut trace = [0; 16];
                let Play { table, state } = &mut two.one;
                assert_eq!(step(table, state, &mut trace, event, &[]).answer, answers);
            }
        }
        assert_eq!(two.one.state[19], 0xA008_0003);
        assert_eq!(two.ticks(3, 18), [0xA008_0002, 0xA008_0001, 0x9008_0005]);
        assert_eq!(two.one.answer(send(HEARD, 2, 0)), 6);
        two.one.take(send(HEARD, 2, 1));
        assert_eq!(two.ticks(2, 18), [0x9008_0004, 0x9008_0003]);
        assert_eq!([two.one.state[19], two.other.state[19]], [0x9800_0000, 0]);
    }

    fn own_source_is_pending_whatever_a_strangers_does() {
        let mut two = Two::runs();
        two.both(send(WAKEUP, 1, 0));
        let mut shown = vec![];
        for kind in [WAKEUP, WAKEUP_VALID, WAKEUP_CLEAR, WAKEUP] {
            two.one.take(send(kind, 2, 1));
            assert_eq!(two.one.answer(send(kind, 2, 0)), 6);
            shown.extend(two.ticks(1, 20));
        }
        assert_eq!(shown, [0x4000_0003, 0x4000_0002, 0x4000_0001, 0xC000_0000]);
        assert_eq!([two.one.state[21], two.other.state[21]], [0x4000_0002, 0]);
    }

    fn the_platforms_events_must_be_shared() {
        // Left out of one run, the platform's request leaves the operator's rule as it was.
        let mut two = Two::runs();
        assert_eq!(own(&two.one.take(request(0, 10, 5))), OWN);
        assert_eq!([two.one.state[15], two.other.state[15]], [0x4000_0000, 0]);
        // And its timer, by the platform's list.
        assert_eq!(two.one.take(request(0, 10, 6)), [0xF004_0000, 0x2002_0000]);
        let states = [&mut two.one, &mut two.other].map(|run| {
            run.ticks(1);
            run.state[2]
        });
        assert_eq!(states, [0x8040_0002, STOPPED]);
    }

    fn ticks_must_be_shared() {
        let mut two = Two::runs();
        two.both(send(WAKEUP, 1, 0));
        two.one.ticks(1);
        assert_eq!([two.one.state[20], two.other.state[20]], [0x4000_0003, 0x4000_0004]);
    }

    fn own_calls_must_meet_the_same_outcomes() {
        assert_eq!(risked(false, &[0]), (STARTED, vec![0xF101_0000, 0x0100_0011, 0x2101_0000]));
        assert_eq!(risked(false, &[1]), (STOPPED, OWN.to_vec()));
    }

    fn same_outcomes_met_by_own_calls_are_other_words_lent() {
        let alone = risked(false, &[1]);
        let aborted = [&STRANGE[..2], &OWN].concat();
        let whole = [&STRANGE[..2], &[0x0200_0023], &OWN].concat();
        assert_eq!(risked(true, &[1, 1]), (alone.0, aborted));
        assert_eq!(risked(true, &[0, 0, 1]), (alone.0, whole.clone()));
        assert_eq!(risked(true, &[0, 1, 1]), (alone.0, whole));
    }

    fn same_words_lent_are_other_outcomes_met_by_own_calls() {
        // The stranger's call has read the one there is.
        assert_eq!([risked(false, &[1]).0, risked(true, &[1]).0], [STOPPED, STARTED]);
        assert_eq!([risked(false, &[0, 0, 1]).0, risked(true, &[0, 0, 1]).0], [STARTED, STOPPED]);
    }

    /// Owners play no part in a run but in trace words, so a run of a table refused here would be
    /// that of the last one: the stranger's request would start operator 1's timer.
    fn table_by_which_a_stranger_would_be_seen_is_refused() {
        refused(&owned(1, 1, 1), 8, 6);
        refused(&owned(2, 1, 1), 8, 6);
        refused(&owned(1, 2, 1), 8, 6);
        refused(&owned(2, 2, 1), 8, 7);
        refused(&owned(0, 0, 1), 8, 6);
        let mut play = Play::fresh(&owned(2, 2, 2));
        assert_eq!(play.take(request(2, 0, 5)), [0xF200_0000, 0x2201_0000]);
        assert_eq!(play.state, [0x8140_0000, STARTED, 0x4000_0000]);
        for table in [owned(1, 1, 1), owned(2, 1, 1), owned(2, 2, 1)] {
            let mut play = Play::of(&table, &[0, STOPPED, 0]);
            assert_eq!(play.answer(request(2, 0, 5)), 1);
        }
    }

    /// A rule's word is its owner's, so a rule on a stranger's port would show what it was sent.
    fn rule_on_a_strangers_port_would_show_its_events() {
        let on_5 = |owner: u32| {
            let rules = [rule(1, 0, NONE, NONE), rule(owner, 1, NONE, NONE)];
            plain(&[mode(1), mode(2)], &[equal(0, 5), equal(1, 5)], &rules, &[], &[])
        };
        refused(&on_5(1), 8, 8);
        let mut play = Play::fresh(&on_5(2));
        play.take(request(2, 1, 5));
        assert_eq!(play.state, [0, 0x8140_0000, 0, 0x4000_0000]);
    }

    fn own_refused_events_are_refused_in_both_runs() {
        let mut two = Two::runs();
        two.both(request(1, 0, 5));
        // Malformed ones, a tick with an owner among them; absent and closed things; strangers'.
        let malformed = [0x8100_0000, 0x1100_0501, 0x2100_0100, 0x0100_0000, 0x0001_0000];
        let unknown = [request(1, 3, 5), request(1, 11, 5), send(EVENT_REQUEST, 1, 0)];
        let foreign = [request(1, 5, 5), send(WAKEUP, 1, 1), send(BUS_OFF, 1, 1)];
        for (events, answer) in [(&malformed[..], 4), (&unknown, 5), (&foreign, 6)] {
            for &event in events {
                two.one.take(request(2, 5, 5));
                two.other.take(request(2, 6, 5));
                assert_eq!([two.one.answer(event), two.other.answer(event)], [answer; 2]);
                two.agree();
            }
        }
        assert_eq!(two.ticks(1, 2), [0x8040_0002]);
    }

    fn strangers_refused_events_leave_everything() {
        let mut two = Two::runs();
        two.both(request(1, 0, 5));
        let before = two.one.state.clone();
        let malformed = [0x8200_0000, 0x1200_0501, 0x2200_0100, 0x0200_0000, 0x0201_0000];
        let unknown = [request(2, 8, 5), request(2, 3, 5), send(WAKEUP, 2, 2)];
        let foreign =
            [request(2, 0, 5), request(2, 10, 5), send(HEARD, 2, 0), send(WAKEUP_CLEAR, 2, 0)];
        for (events, answer) in [(&malformed[..], 4), (&unknown, 5), (&foreign, 6)] {
            for &event in events {
                assert_eq!(two.one.answer(event), answer, "{event:08X}");
            }
        }
        assert_eq!(two.one.state, before);
        // More than the document asks: calls with too little room, or with no outcome.
        let Play { table, state } = &mut two.one;
        let mut trace = [0x5555_5555; 15];
        assert_eq!(step(table, state, &mut trace, request(2, 5, 5), &[]).answer, 3);
        assert_eq!((&*state, trace), (&before, [0x5555_5555; 15]));
        assert_eq!(two.one.answer_with(request(2, 5, 5), &[0, 2]), 8);
        assert_eq!(two.one.state, before);
        assert_eq!(two.ticks(3, 2), [0x8040_0002, 0x8040_0001, 0x8080_0000]);
    }

    fn strangers_refused_request_leaves_no_mark() {
        let mut two = Two::runs();
        two.both(request(1, 1, 5));
        assert_eq!(two.both(TICK), [OWN.to_vec(), OWN.to_vec()]);
        assert_eq!([two.one.answer(request(2, 1, 5)), two.one.state[1]], [6, 0x8140_0000]);
        // A mark would have list 1 run again.
        assert_eq!(two.both(TICK), [vec![], vec![]]);
    }

    fn strangers_malformed_tick_is_none() {
        let mut two = Two::runs();
        two.both(request(1, 0, 5));
        (2..16).for_each(|owner| assert_eq!(two.one.answer(owner << 24), 4));
        two.agree();
        assert_eq!(two.one.state[2], STARTED);
    }

    fn panel_is_the_same_bytes() {
        let mut two = Two::runs();
        two.one.take(request(2, 6, 5));
        two.both(request(1, 1, 5));
        let [one, other] = two.both(TICK);
        let shown = lines(1, &two.one.state, &one);
        assert_eq!(shown, lines(1, &two.other.state, &other));
        assert!(shown.ends_with(b"source 0 00000000\ntrace F1010000\ntrace 01000011\n"));
        // Operator 2's own differ, and who owns nothing sees nothing in either run.
        assert_ne!(lines(2, &two.one.state, &one), lines(2, &two.other.state, &other));
        assert_eq!([lines(3, &two.one.state, &one), lines(3, &two.other.state, &other)], [b"", b""]);
        // Behind a refused event there are no words in either.
        assert_eq!([two.one.answer(0x8100_0000), two.other.answer(0x8100_0000)], [4, 4]);
        assert_eq!(lines(1, &two.one.state, &[]), lines(1, &two.other.state, &[]));
    }

    fn plays_agree_at_their_ends() {
        let shared = [request(1, 1, 5), TICK, request(0, 10, 5), TICK, TICK];
        let [deferred, waking] = [request(2, 6, 5), request(2, 5, 5)];
        let one = [deferred, shared[0], shared[1], waking, shared[2], deferred, shared[3], shared[4]];
        let (stops, state, words) = day(&one, 16);
        // Full wherever something was written.
        assert_eq!(stops, [3, 1, 1, 2, 1]);
        let (all_at_once, same, joined) = day(&one, 16 + 6 + 3 + 6 + 4);
        assert_eq!((all_at_once, &same, &joined), (vec![8], &state, &words));
        let (stops, other, fewer) = day(&shared, 17);
        assert_eq!(stops, [2, 1, 2]);
        assert_eq!(seen(&state), seen(&other));
        assert_eq!(own(&words), own(&fewer));
        assert_eq!(own(&words), [OWN, OWN].concat());
        assert_eq!([words.len(), fewer.len()], [19, 8]);
    }

    fn play_full_by_a_strangers_words_keeps_own_marks() {
        let (stops, state, words) = day(&[request(1, 1, 5), request(2, 5, 5), TICK], 16);
        assert_eq!((stops, words), (vec![2, 1], [&STRANGE_WAKING[..], &OWN].concat()));
        let (stops, other, words) = day(&[request(1, 1, 5), TICK], 16);
        assert_eq!((stops, words), (vec![2], OWN.to_vec()));
        assert_eq!(seen(&state), seen(&other));
    }

    fn plays_and_single_calls_mixed_agree() {
        let shared = [request(1, 0, 5), TICK, send(BUS_OFF, 1, 0), TICK, TICK];
        let (_, played, words) = day(&shared, 64);
        let mut run = Play::fresh(&street());
        let mut mixed = run.take(request(2, 5, 5));
        mixed.extend(run.take(shared[0]));
        let Play { table, mut state } = run;
        let mut trace = [0; 64];
        let events = [shared[1], request(2, 6, 5), shared[2], shared[3]];
        let day = play(&table, &mut state, &mut trace, &events);
        assert_eq!((day.answer, day.taken), (0, 4));
        mixed.extend(&trace[..day.count]);
        mixed.extend(Play::of(&table, &state).take(shared[4]));
        assert_eq!([own(&mixed), own(&words)], [OWN_WAKING.to_vec(), OWN_WAKING.to_vec()]);
        let mut last = Play::of(&table, &state);
        last.take(shared[4]);
        assert_eq!(seen(&last.state), seen(&played));
        assert_eq!(last.state[18], 0xA008_0001);
    }

    fn to_the_platform_operator_1_is_a_stranger_too() {
        let mut two = Two::runs();
        let platforms = |words: &[u32]| -> Vec<u32> {
            words.iter().copied().filter(|word| word & 0x0F00_0000 == 0).collect()
        };
        two.one.take(request(1, 0, 5));
        two.other.take(request(2, 6, 5));
        for event in [request(0, 10, 6), TICK, request(0, 10, 5), TICK] {
            two.one.take(request(1, 1, 5));
            two.other.take(send(WAKEUP, 1, 0));
            let traces = [two.one.take(event), two.other.take(event)];
            assert_eq!(platforms(&traces[0]), platforms(&traces[1]));
            let [one, other] = [&two.one.state, &two.other.state];
            assert_eq!([one[10], one[16]], [other[10], other[16]]);
        }
        assert_ne!(two.one.state, two.other.state);
    }
}

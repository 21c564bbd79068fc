//! The streams that other programs are compared by.

use super::editions::edition_2;
use super::marked::MARKED;
use super::*;
use crate::cases::Case;
use crate::stream::{
    Asked, Supplied, case_words, holds_asked, panels_asked, play_rooms, read_case, write_words,
};
use crate::testing::recorded;

const AFTER: [u32; 4] = [0x8140_0000, 0, 0x4000_0000, 0x8000_0000];

fn marked_case(room: usize) -> Case {
    let (table, state, events) = (MARKED.to_vec(), vec![0; 4], vec![0x1100_0500]);
    Case { table, state, room, events, outcomes: vec![] }
}

/// The results up to the panels, the panels, and what is held (request Q-7).
fn parts(case: &Case) -> [Vec<u32>; 3] {
    let mut words = recorded::result_words(case);
    let (state, events) = (case.state.len(), case.events.len());
    let plays: usize = play_rooms(case).iter().map(|room| 5 + state + room).sum();
    let panels: usize = panels_asked(case).iter().map(|asked| 5 + asked.room).sum();
    let mut behind = words.split_off(5 + state + events * (3 + state + case.room) + 1 + plays);
    let held = behind.split_off(1 + panels);
    [words, behind, held]
}

/// The results up to the panels.
fn result_words(case: &Case) -> Vec<u32> {
    let [words, ..] = parts(case);
    words
}

/// What is held of a case, by the event, the supplier's words, what is told of them (verdict,
/// number, answer, count, visits, whose, from), the part, and state and room after.
fn held_words(
    one: &Supplied,
    told: [u32; 7],
    part: &[u32],
    state: &[u32],
    room: &[u32],
) -> Vec<u32> {
    let (trace, words) = (one.theirs.len() as u32, one.their_state.len() as u32);
    let supplied =
        [&[one.event as u32, trace], &one.theirs[..], &[words], &one.their_state].concat();
    [&supplied, &told[..], &[part.len() as u32], part, state, room].concat()
}

/// Operator 1's panel of the marked table before its request and behind it.
const THREE_LINES: &str = "port 0 00000000\nport 1 00000000\nnetwork 0 00000000\n";
const SIX_LINES: &str = "port 0 81400000\nport 1 00000000\nnetwork 0 80000000\n\
                         trace F1000000\ntrace 41000002\ntrace 01001234\n";

/// A panel's words, by what is laid in its room.
fn panel_words(asked: &Asked, answer: u32, lines: &str) -> Vec<u32> {
    let behind = asked.behind.map_or(0xFFFF_FFFF, |number| number as u32);
    let mut words = vec![asked.operator, behind, asked.room as u32, answer, lines.len() as u32];
    words.extend(lines.bytes().map(u32::from));
    words.resize(5 + asked.room, 0x2E);
    words
}

fixed_cases! {
    fn stream_of_panels() {
        let asked = panels_asked(&marked_case(3));
        let mut words = vec![asked.len() as u32];
        for one in &asked {
            let lines = if one.behind == Some(0) { SIX_LINES } else { THREE_LINES };
            words.extend(match one.operator {
                0 | 16.. => panel_words(one, 9, ""),
                1 if one.room < lines.len() => panel_words(one, 11, ""),
                1 => panel_words(one, 0, lines),
                _ => panel_words(one, 0, ""),
            });
        }
        assert_eq!(parts(&marked_case(3))[1], words);
        // Before the request in just enough room; behind it in more, just enough and too little.
        let own: Vec<&Asked> = asked.iter().filter(|one| one.operator == 1).collect();
        assert_eq!(own[0], &Asked { operator: 1, behind: None, room: 51 });
        assert!(own[1].behind == Some(0) && own[1].room > 96);
        assert_eq!(own[2], &Asked { operator: 1, behind: Some(0), room: 96 });
        assert!(own[3].behind == Some(0) && own[3].room < 96);
        let others: Vec<u32> = asked[4..].iter().map(|one| one.operator).collect();
        assert_eq!((others.len(), &others[..2]), (3, &[15, 0][..]));
        assert!(others[2] > 15);
    }

    fn stream_of_panels_on_a_bad_table_or_from_an_unfit_state() {
        let bad = Case { table: MARKED[..11].to_vec(), ..marked_case(3) };
        let unfit = Case { state: vec![1; 4], ..marked_case(3) };
        for (case, answer) in [(bad, 1), (unfit, 2)] {
            let asked = panels_asked(&case);
            let operator = |one: &Asked| (1..16).contains(&one.operator);
            let refused = |one: &Asked| {
                panel_words(one, if operator(one) { answer } else { 9 }, "")
            };
            let words: Vec<u32> = asked.iter().flat_map(refused).collect();
            assert_eq!(parts(&case)[1], [&[4][..], &words].concat());
            let rooms: Vec<usize> = asked.iter().map(|one| one.room).collect();
            assert_eq!(rooms, [40, 40, 0, 0]);
            assert!(operator(&asked[0]) && asked[1].operator == 0);
            assert!(asked[2].operator > 15 && asked[3].operator == 15);
        }
    }

    /// 201 trace words of the operator's: 3,018 bytes of them and 16 of its port.
    fn stream_has_no_panel_of_more_than_3000_bytes() {
        let table = plain(&[mode(1)], &[equal(0, 5)], &[rule(1, 0, 0, NONE)], &[list(1, 0, 200)], &[call(0); 200]);
        let (state, events) = (vec![0; 2], vec![0x1100_0500; 3]);
        let case = Case { table, state, room: 201, events, outcomes: vec![] };
        let asked = panels_asked(&case);
        assert!(asked.iter().all(|one| one.room <= 3000));
        assert!(asked.contains(&Asked { operator: 1, behind: None, room: 16 }));
        let short: Vec<&Asked> = asked.iter().filter(|one| one.operator == 1 && one.behind == Some(2)).collect();
        assert_eq!(short.len(), 1);
        let [_, all, _] = parts(&case);
        let words = panel_words(short[0], 11, "");
        assert!(all.windows(words.len()).any(|part| part == words));
    }

    /// The marked request: our own words are held, and words that are not ours.
    fn stream_of_what_is_held() {
        let case = marked_case(4);
        let (trace, room) = ([0xF100_0000, 0x4100_0002, 0x0100_1234], [0xF100_0000, 0x4100_0002, 0x0100_1234, 0x5555_5555]);
        let asked = holds_asked(&case);
        let mut words = vec![asked.len() as u32];
        let mut verdicts = vec![];
        for one in &asked {
            let apart = one.theirs.iter().zip(&trace).position(|(a, b)| a != b);
            let length = one.theirs.len();
            let states = one.their_state.iter().zip(&AFTER).position(|(a, b)| a != b);
            let shorter = one.their_state.len().min(4);
            let ([verdict, number, whose], part) = match (apart, length) {
                (Some(word), _) => ([2, word, 1], &one.theirs[word..]),
                (None, 0..=2) => ([3, length, 2], &trace[length..]),
                (None, 4..) => ([4, 3, 1], &one.theirs[3..]),
                (None, 3) if one.their_state == AFTER => ([0; 3], &[][..]),
                (None, 3) => ([5, states.unwrap_or(shorter), 0], &[][..]),
            };
            let from = if whose == 0 { 0 } else { number };
            let told = [verdict, number, 0, 3, 1, whose, from].map(|number| number as u32);
            words.extend(held_words(one, told, part, &AFTER, &room));
            verdicts.push(verdict);
        }
        assert_eq!(parts(&case)[2], words);
        assert!(verdicts[0] == 0 && asked[0].theirs == trace && asked[0].their_state == AFTER);
        for verdict in [2, 5] {
            assert!(verdicts.contains(&verdict));
        }
        assert!(verdicts.contains(&3) || verdicts.contains(&4));
        assert!(asked.contains(&Supplied { event: 0, theirs: vec![], their_state: vec![] }));
    }

    fn stream_of_what_is_held_where_the_step_refuses() {
        let bad = Case { table: MARKED[..11].to_vec(), ..marked_case(3) };
        let unfit = Case { state: vec![1; 4], ..marked_case(3) };
        let events = vec![0x1200_0500, 0x1200_0500];
        for (case, answer) in [(bad, 1), (unfit, 2), (marked_case(2), 3), (Case { events, ..marked_case(3) }, 6)] {
            let asked = holds_asked(&case);
            let room = vec![0x5555_5555; case.room];
            let refused = |one: &Supplied| {
                held_words(one, [1, answer, answer, 0, 0, 0, 0], &[], &case.state, &room)
            };
            let words: Vec<u32> = asked.iter().flat_map(refused).collect();
            assert_eq!(parts(&case)[2], [&[asked.len() as u32], &words[..]].concat());
            assert!(asked.iter().any(|one| !one.theirs.is_empty()));
        }
        // No events, nothing to hold.
        assert_eq!(parts(&Case { events: vec![], ..marked_case(3) })[2], [0]);
    }

    /// The call stands before the request, with abort, and fails: without outcomes it would not.
    fn stream_of_what_is_held_with_outcomes() {
        let table = with(&with(&edition_2(&MARKED), 10, 0x0800_1234), 11, 0x4000_0002);
        let case = Case { table, outcomes: vec![vec![1]], ..marked_case(3) };
        let (failed, good) = ([0xF100_0000, 0x0100_1234], [0xF100_0000, 0x0100_1234, 0x4100_0002]);
        let after = [0x8140_0000, 0, 0x4000_0000, 0];
        let one = Supplied { event: 0, theirs: good.to_vec(), their_state: AFTER.to_vec() };
        assert!(holds_asked(&case).contains(&one));
        let room = [0xF100_0000, 0x0100_1234, 0x5555_5555];
        let words = held_words(&one, [4, 2, 0, 2, 1, 1, 2], &good[2..], &after, &room);
        let [_, _, held] = parts(&case);
        assert!(held.windows(words.len()).any(|part| part == words));
        let one = Supplied { event: 0, theirs: failed.to_vec(), their_state: after.to_vec() };
        let words = held_words(&one, [0, 0, 0, 2, 1, 0, 0], &[], &after, &room);
        assert!(held.windows(words.len()).any(|part| part == words));
    }

    /// Each event is held from the state before it.
    fn stream_of_what_is_held_of_a_later_event() {
        let case = Case { events: vec![0x1100_0600, 0x1100_0500], ..marked_case(3) };
        let trace = vec![0xF100_0000, 0x4100_0002, 0x0100_1234];
        let one = Supplied { event: 1, theirs: trace.clone(), their_state: AFTER.to_vec() };
        let words = held_words(&one, [0, 0, 0, 3, 1, 0, 0], &[], &AFTER, &trace);
        let [_, _, held] = parts(&case);
        assert_eq!(holds_asked(&case)[0], one);
        assert_eq!(held[1..][..words.len()], words);
    }

    fn stream_holds_less_of_long_traces() {
        let lists = [list(1, 0, 250); 3];
        let rules = [rule(1, 0, 0, 1), rule(1, 0, 1, 2)];
        let table = plain(&[mode(1)], &[equal(0, 5)], &rules, &lists, &[call(0); 250]);
        let case = Case { table, state: vec![0; 3], room: 753, events: vec![0x1100_0500; 3], outcomes: vec![] };
        let asked = holds_asked(&case);
        assert!(asked.len() <= 5 && asked.iter().any(|one| one.theirs.len() == 502));
    }

    fn stream_of_a_case() {
        let one = [4, 0, 0, 0, 0, 3, 1, 0x1100_0500, 0];
        assert_eq!(case_words(&marked_case(3)), [&[12][..], &MARKED, &one].concat());
        // Behind each event the number of its outcomes, and then these.
        let two = [4, 0, 0, 0, 0, 3, 2, 0x1100_0500, 3, 1, 0, 2, 0, 0];
        let (events, outcomes) = (vec![0x1100_0500, TICK], vec![vec![1, 0, 2], vec![]]);
        let case = Case { events, outcomes, ..marked_case(3) };
        assert_eq!(case_words(&case), [&[12][..], &MARKED, &two].concat());
    }

    fn stream_of_its_results() {
        let trace = [0xF100_0000, 0x4100_0002, 0x0100_1234, 0x5555_5555];
        // Reason, place, B; fresh and its words; the state's check; answer, count, visits, words.
        let single = [&[0, 0, 3][..], &[0, 0, 0, 0, 0], &[0], &[0, 3, 1], &AFTER, &trace].concat();
        // Room, taken, count, visits, answer, words: the case's room, B, and a word less.
        let own = [&[4, 1, 3, 1, 0][..], &AFTER, &trace].concat();
        let least = [&[3, 1, 3, 1, 0][..], &AFTER, &trace[..3]].concat();
        let full = [&[2, 0, 0, 0, 3][..], &[0; 4], &[0x5555_5555; 2]].concat();
        let expected = [single, vec![3], own, least, full].concat();
        assert_eq!(result_words(&marked_case(4)), expected);
    }

    /// The call stands before the request, with abort: single, it fails; played, it is good.
    fn stream_of_results_with_outcomes() {
        let table = with(&with(&edition_2(&MARKED), 10, 0x0800_1234), 11, 0x4000_0002);
        let case = |lent: &[u32]| Case {
            table: table.clone(),
            outcomes: vec![lent.to_vec()],
            ..marked_case(3)
        };
        let good = [0xF100_0000, 0x0100_1234, 0x4100_0002];
        let failed = [0x8140_0000, 0, 0x4000_0000, 0, 0xF100_0000, 0x0100_1234, 0x5555_5555];
        let before = [0, 0, 3, 0, 0, 0, 0, 0, 0];
        let own = [&[3, 1, 3, 1, 0][..], &AFTER, &good].concat();
        let full = [&[2, 0, 0, 0, 3][..], &[0; 4], &[0x5555_5555; 2]].concat();
        let plays = [&[2][..], &own, &full].concat();
        let expected = [&before[..], &[0, 2, 1], &failed, &plays].concat();
        assert_eq!(result_words(&case(&[1])), expected);
        let expected = [&before[..], &[0, 3, 1], &AFTER, &good, &plays].concat();
        assert_eq!(result_words(&case(&[0, 1])), expected);
        let unwritten = [0, 0, 0, 0, 0x5555_5555, 0x5555_5555, 0x5555_5555];
        let expected = [&before[..], &[8, 0, 0], &unwritten, &plays].concat();
        assert_eq!(result_words(&case(&[0, 2])), expected);
    }

    fn stream_of_refusals() {
        let unwritten = [[0; 4].as_slice(), &[0x5555_5555; 2]].concat();
        let single = [&[0, 0, 3][..], &[0, 0, 0, 0, 0], &[0], &[3, 0, 0], &unwritten].concat();
        let own = [&[2, 0, 0, 0, 3][..], &unwritten].concat();
        let least =
            [&[3, 1, 3, 1, 0][..], &AFTER, &[0xF100_0000, 0x4100_0002, 0x0100_1234]].concat();
        assert_eq!(result_words(&marked_case(2)), [single, vec![2], own, least].concat());
        let bad = Case { table: MARKED[..11].to_vec(), state: vec![7; 2], ..marked_case(1) };
        let single = [4, 0, 0, 1, 0xAAAA_AAAA, 0xAAAA_AAAA, 1, 1, 0, 0, 7, 7, 0x5555_5555];
        let play = [1, 1, 0, 0, 0, 1, 7, 7, 0x5555_5555];
        assert_eq!(result_words(&bad), [&single[..], &play].concat());
    }

    /// Requests of 5 write three words, and those of 6 none.
    fn stream_has_plays_that_end_and_that_stop_at_the_end_and_half_way() {
        let turns = |refused: &[u32]| {
            let events = [&[0x1100_0500, 0x1100_0600].repeat(4)[..], refused].concat();
            play_rooms(&Case { events, ..marked_case(3) })
        };
        // The eighth event needs four runs and B; the fourth, half way, two runs and B.
        assert_eq!(turns(&[]), [3, 15, 14, 8]);
        // The refused event is looked at too, and what comes behind it is not.
        assert_eq!(turns(&[0x1200_0500, 0x1100_0500, 0x1100_0600]), [3, 15, 14, 8]);
        // A tenth: five runs.
        assert_eq!(turns(&[0x1100_0500, 0x1100_0600]), [3, 18, 17, 11]);
    }

    fn stream_has_plays_of_twelve_events_and_no_more() {
        let events = [0x1100_0500, 0x1100_0600].repeat(20);
        let case = Case { events, ..marked_case(5) };
        assert_eq!(play_rooms(&case)[..3], [5, 21, 20]);
        let twelve = result_words(&Case { events: case.events[..12].to_vec(), ..case.clone() });
        let plays = 1 + play_rooms(&case).iter().map(|room| 5 + 4 + room).sum::<usize>();
        let all = result_words(&case);
        assert_eq!(all[all.len() - plays..], twelve[twelve.len() - plays..]);
    }

    fn stream_has_plays_in_the_cases_room_alone_where_nothing_can_be_played() {
        let refused = Case { table: MARKED[..11].to_vec(), ..marked_case(7) };
        let unfit = Case { state: vec![1; 4], ..marked_case(7) };
        assert_eq!([play_rooms(&refused), play_rooms(&unfit)], [[7], [7]]);
        // Nothing is needed for no events.
        assert_eq!(play_rooms(&Case { events: vec![], ..marked_case(7) }), [7, 0]);
    }

    fn stream_has_no_play_of_more_than_20000_words() {
        let rules: Vec<u32> = (0..16).map(|number| rule(0, 0, number, NONE)).collect();
        let table =
            plain(&[mode(0)], &[equal(0, 5)], &rules, &[list(0, 0, 255); 16], &[call(0); 255]);
        let events = vec![0x1000_0500; 12];
        let case = Case { table, state: vec![0; 17], room: 30_000, events, outcomes: vec![] };
        // The fourth event is the last that could be lent its 16,384 words; the third is half way.
        assert_eq!(play_rooms(&case), [20_000, 16_384, 16_383, 12_287]);
    }

    fn stream_is_read_as_it_was_written() {
        let events = vec![0x1100_0500, TICK, TICK];
        let outcomes = vec![vec![], vec![0, 1, 0xFFFF_FFFF], vec![1]];
        let lending = |room: usize| Case {
            events: events.clone(),
            outcomes: outcomes.clone(),
            ..marked_case(room)
        };
        let mut bytes = vec![];
        for room in [3, 2] {
            write_words(&mut bytes, &case_words(&lending(room))).expect("memory takes it");
        }
        let mut input = &bytes[..];
        for room in [3, 2] {
            assert_eq!(read_case(&mut input).expect("a whole case"), Some(lending(room)));
        }
        assert_eq!(read_case(&mut input).expect("the end"), None);
        assert!(read_case(&mut &bytes[..20]).is_err());
    }
}

//! A panel for each operator, through the wrapper: the marked run's first
//! event, and a table whose things have several owners.

use herringcart::{Panel, check_table, make_fresh, panel, panel_bytes, take_event};

const MARKED: [u32; 12] = [
    0x0102_0100, 0x0001_0001, 0x0001_0002, 0x0100_0000, 0x2100_0000, 0x1010_2000, 0x030A_0005,
    0x0000_5000, 0x1000_00FF, 0x1838_0002, 0x4000_0002, 0x0000_1234,
];
const STATE: [u32; 4] = [0x8140_0000, 0, 0x4000_0000, 0x8000_0000];
const WORDS: [u32; 3] = [0xF100_0000, 0x4100_0002, 0x0100_1234];
const THINGS: &str = "port 0 81400000\nport 1 00000000\nnetwork 0 80000000\n";
const TRACE: &str = "trace F1000000\ntrace 41000002\ntrace 01001234\n";
const UNTOUCHED: u8 = 0x55;

/// The panel in so many bytes: the answer, and the bytes laid. What is behind
/// them, in a refusal all, must be as it was.
fn shown(
    operator: u32,
    table: &[u32],
    state: &[u32],
    words: &[u32],
    room: usize,
) -> (Panel, String) {
    let mut lines = vec![UNTOUCHED; room];
    let panel = panel(operator, table, state, words, &mut lines);
    let (laid, behind) = lines.split_at(panel.bytes);
    assert!(behind.iter().all(|&byte| byte == UNTOUCHED));
    assert!(panel.done() || laid.is_empty());
    (panel, String::from_utf8(laid.to_vec()).expect("letters, digits and spaces"))
}

fn refused(number: u32) -> (Panel, String) {
    (Panel { number, bytes: 0 }, String::new())
}

fn done(lines: String) -> (Panel, String) {
    (Panel { number: 0, bytes: lines.len() }, lines)
}

#[test]
fn the_marked_run_s_first_event_shows_six_lines() {
    let (mut state, mut trace) = ([0xAAAA_AAAA; 4], [0; 3]);
    assert_eq!(make_fresh(&MARKED, &mut state), 0);
    let answer = take_event(&MARKED, &mut state, &mut trace, &[], 0x1100_0500);
    let newest = &trace[..answer.count];
    assert_eq!((state, newest), (STATE, &WORDS[..]));
    let six = format!("{THINGS}{TRACE}");
    for room in [six.len(), six.len() + 1, panel_bytes(newest.len())] {
        assert_eq!(shown(1, &MARKED, &state, newest, room), done(six.clone()));
    }
    // A refused event wrote none, and its trace is not handed on.
    let refused = take_event(&MARKED, &mut state, &mut trace, &[], 0x1200_0500);
    assert_eq!((refused.number, refused.count), (6, 0));
    let newest = &trace[..refused.count];
    assert_eq!(shown(1, &MARKED, &state, newest, 99), done(THINGS.into()));
}

#[test]
fn an_operator_that_owns_nothing_sees_nothing() {
    for operator in 2..=15 {
        for room in [0, 99] {
            assert_eq!(shown(operator, &MARKED, &STATE, &WORDS, room), done(String::new()));
        }
    }
}

#[test]
fn refusals_in_their_order() {
    let (bad, unfit, needs) = (&MARKED[..11], &STATE[..3], THINGS.len() + TRACE.len());
    for number in [0, 16, 17, 0x101, 0x1_0001, 0x1000_0001, u32::MAX] {
        for (table, state, room) in [(&MARKED[..], &STATE[..], needs), (bad, unfit, 0)] {
            assert_eq!(shown(number, table, state, &WORDS, room), refused(9), "{number}");
        }
    }
    for (state, room) in [(&STATE[..], needs), (unfit, 0)] {
        assert_eq!(shown(1, bad, state, &WORDS, room), refused(1));
    }
    for room in [0, needs] {
        assert_eq!(shown(1, &MARKED, unfit, &WORDS, room), refused(2));
    }
    for room in 0..needs {
        assert_eq!(shown(1, &MARKED, &STATE, &WORDS, room), refused(11));
    }
}

/// Ports of the platform, of operators 1, 2 and 15, and of 1 again; the network
/// is operator 2's, the sources operator 1's and 15's. A rule of operator 1.
const SHARED: [u32; 14] = [
    0x0107_0102, 0x0001_0001, 0x0000_0000, 0x0000_0000, 0x2100_0000, 0x2200_0000, 0x2F00_0000,
    0x2100_0000, 0x0000_0000, 0x0100_0000, 0x2020_0000, 0x0101_0001, 0x1010_0000, 0xF030_0000,
];

#[test]
fn each_operator_sees_its_own_and_nothing_of_others() {
    // A condition on port 5, the platform's, and the rule on it.
    let table = [&SHARED[..], &[0x0050_5000, 0x1000_FFFF]].concat();
    assert_eq!(check_table(&table).reason, 0);
    let mut state = [0xAAAA_AAAA; 11];
    assert_eq!(make_fresh(&table, &mut state), 0);
    // The platform's ports are set, which is not seen; and so is operator 1's own rule.
    (state[0], state[5], state[7]) = (0x8140_0000, 0x8140_0000, 0x4000_0000);
    state[6] = 0x8200_0000;
    let words = [0xF000_0000, 0x0100_0001, 0x0F00_0002, 0x0200_0003, 0x0100_0004, 0x1000_0005];
    let seen = |operator| shown(operator, &table, &state, &words, panel_bytes(words.len())).1;
    assert_eq!(
        seen(1),
        "port 1 00000000\nport 4 00000000\nport 6 82000000\nsource 0 00000000\n\
         trace 01000001\ntrace 01000004\n"
    );
    assert_eq!(seen(2), "port 2 00000000\nnetwork 0 00000000\ntrace 02000003\n");
    assert_eq!(seen(15), "port 3 00000000\nsource 1 00000000\ntrace 0F000002\n");
    assert_eq!(seen(3), "");
}

#[test]
fn the_room_that_is_always_enough() {
    assert_eq!((panel_bytes(0), panel_bytes(4096)), (2184, 63_624));
    let words = [0x0100_0000; 4096];
    let (panel, lines) = shown(1, &MARKED, &STATE, &words, panel_bytes(words.len()));
    assert_eq!(panel, Panel { number: 0, bytes: THINGS.len() + 15 * words.len() });
    assert_eq!(lines.lines().count(), 3 + words.len());
}

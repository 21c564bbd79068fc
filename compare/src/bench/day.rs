//! A recorded day on the truck: 8,640,000 ticks of 10 ms with the truck's own events spread over it.

use std::time::{Duration, Instant};

use herringcart::End;

use super::{example, target};
use crate::kind::Kind;
use crate::programs::{Program, bytes};

pub const TICKS: usize = 8_640_000;
const REPEATS: usize = 3;
/// As many trace words as the program `play` lends.
const ROOM: usize = 16_384;

/// How often the truck's events are sent on a quiet and on a busy day.
const DAYS: [(&str, usize); 2] =
    [("the truck's events once", 1), ("the truck's events 2,000 times", 2_000)];

/// The truck's table and its day: of its run the events that are taken, the ticks left out, spread over the day `times` times.
fn recorded(times: usize) -> Result<[Vec<u32>; 2], String> {
    let [table, run] = example("truck").ok_or("examples/truck is missing")?;
    let mut state = vec![0; herringcart::state_words(&table)];
    let mut trace = vec![0; second::check(&table).b];
    second::fresh(&table, &mut state);
    let mut sent: Vec<u32> = vec![];
    for event in run.into_iter().filter(|&event| event != 0) {
        if second::step(&table, &mut state, &mut trace, event, &[]).answer == 0 {
            sent.push(event);
        }
    }
    let sent: Vec<u32> = sent.iter().copied().cycle().take(times * sent.len()).collect();
    let mut events = vec![];
    for (number, event) in sent.iter().enumerate() {
        let until = (number + 1) * TICKS / (sent.len() + 1);
        events.resize(until + number, 0);
        events.push(*event);
    }
    events.resize(TICKS + sent.len(), 0);
    Ok([table, events])
}

/// `compare whole-day`: the whole day by the program, byte for byte what the second program prints.
pub fn day(folder: &str, command: &[&str]) -> Result<(), String> {
    let program = Program::new(folder, command)?;
    for (name, times) in DAYS {
        let [table, events] = recorded(times)?;
        program.compare(&Kind::Play, &bytes(&table, 0), &bytes(&events, 0))?;
        println!("a day of {TICKS} ticks, {name}: the same bytes");
    }
    Ok(())
}

pub fn bench_day(command: &[&str]) -> Result<(), String> {
    println!("a day of {TICKS} ticks on the truck, best of {REPEATS}");
    for (name, times) in DAYS {
        let [table, events] = recorded(times)?;
        println!("{name}: {} events", events.len());
        let (played, words) = without_printing(&table, &events)?;
        let each = played.as_nanos() as f64 / events.len() as f64;
        println!(
            "  played without printing: {played:.2?}, {each:.0} ns an event, {words} trace words"
        );
        with_printing(&table, &events, command)?;
    }
    Ok(())
}

/// The best time of a whole day by the library, and how many trace words it wrote.
fn without_printing(table: &[u32], events: &[u32]) -> Result<(Duration, usize), String> {
    let mut best = (Duration::MAX, 0);
    for _ in 0..REPEATS {
        let start = Instant::now();
        let words = whole(table, events)?;
        best = best.min((start.elapsed(), words));
    }
    Ok(best)
}

fn whole(table: &[u32], events: &[u32]) -> Result<usize, String> {
    let mut state = vec![0; herringcart::state_words(table)];
    let mut trace = vec![0; ROOM];
    herringcart::make_fresh(table, &mut state);
    let (mut taken, mut words) = (0, 0);
    loop {
        let played = herringcart::play(table, &mut state, &mut trace, &events[taken..]);
        taken += played.taken;
        words += played.count;
        match played.end {
            End::TraceFull => {}
            End::Done => return Ok(words),
            end => return Err(format!("event {taken} ended the day: {end:?}")),
        }
    }
}

/// Both programs, their output thrown away; and the same bytes.
fn with_printing(table: &[u32], events: &[u32], command: &[&str]) -> Result<(), String> {
    let folder = target().join("compare/bench").to_string_lossy().into_owned();
    let judge = target().join("second/release/second").to_string_lossy().into_owned();
    let second = [judge.as_str(), "play"];
    let second = Program::new(&folder, &second)?;
    let proved = Program::new(&folder, command)?;
    proved.write(&bytes(table, 0), &bytes(events, 0))?;
    for (name, program) in [("proved", &proved), ("second", &second)] {
        let mut best = Duration::MAX;
        for _ in 0..REPEATS {
            let start = Instant::now();
            program.quietly(&Kind::Play)?;
            best = best.min(start.elapsed());
        }
        println!("  {name} program, with its output: {best:.2?}");
    }
    if proved.start(&Kind::Play)?.stdout == second.start(&Kind::Play)?.stdout {
        return Ok(());
    }
    Err("the two programs print other bytes".into())
}

//! `compare hunt`: fresh seeds for as long as it is told.

use std::time::{Duration, Instant, SystemTime, UNIX_EPOCH};

use second::cases::Cases;
use second::cases::pairs::pair;

use crate::differ::pairs::compare_pair;
use crate::differ::{Compared, compare};
use crate::found::keep;
use crate::generated::told;
use crate::listings::{Met, compare_drawing, drawing};
use crate::nearest::Nearest;
use crate::number;
use crate::shrink::smallest_difference;
use crate::subject::Proved;
use crate::verdicts::Verdicts;
use crate::{buslogs, listings, pairs};

/// After so many a hunt ends: the rest is most likely the same fault again.
const ENOUGH: usize = 10;

/// One in so many of a hunt's seconds is for pairs of runs, the last ones; and one in so many, before these, for listings, and
/// before these for bus logs.
const PAIRS: u32 = 4;
const LISTINGS: u32 = 8;
const LOGS: u32 = 8;

pub fn hunt(seconds: &str) -> Result<(), String> {
    let (start, time) = (Instant::now(), Duration::from_secs(number(seconds)?));
    let listings = start + time - time / PAIRS;
    let logs = listings - time / LISTINGS;
    let end = logs - time / LOGS;
    let now = SystemTime::now().duration_since(UNIX_EPOCH).map_err(|why| why.to_string())?;
    let seed = now.as_nanos() as u64;
    println!("seed {seed}");
    let (mut cases, mut found, mut nearest) = (0, 0, Nearest::default());
    let mut verdicts = Verdicts::default();
    for made in Cases::new(seed) {
        if Instant::now() >= end || found == ENOUGH {
            break;
        }
        match compare(&Proved, &made.case) {
            Ok(Compared { visited, held, .. }) => {
                nearest.meet(visited, || format!("case {cases}"));
                verdicts += held;
            }
            Err(_) => {
                let name = format!("{seed}-{cases}");
                let (case, _) = smallest_difference(&Proved, &made.case);
                println!("{}\nkept as {}", told(&name, &case), keep(&name, &case)?.display());
                found += 1;
            }
        }
        cases += 1;
    }
    println!("{cases} cases of seed {seed}: {found} differ\n{nearest}\n{verdicts}");
    let logged = hunt_logs(seed, logs)?;
    let listed = hunt_listings(seed, listings);
    let at_fault = hunt_pairs(seed, start + time);
    match (found, logged, listed, at_fault) {
        (0, 0, 0, 0) => Ok(()),
        _ => Err(format!(
            "{found} cases, {logged} bus logs, {listed} listings and {at_fault} pairs of runs found"
        )),
    }
}

/// Bus logs, and real lines damaged, until then; gives how many differ. None is kept, for a found case is one run: a drawing is named by
/// seed and number, and `compare buslogs` makes it again.
fn hunt_logs(seed: u64, end: Instant) -> Result<usize, String> {
    let (mut tried, mut found, mut met) = (0, 0, buslogs::Met::none());
    let real = buslogs::Real::all()?;
    while Instant::now() < end && found < ENOUGH {
        if let Err(difference) = buslogs::compare_drawing(&Proved, seed, tried, &real, &mut met) {
            let name = format!("bus log {tried} of seed {seed}");
            println!("{}", buslogs::told(&Proved, &name, difference));
            found += 1;
        }
        tried += 1;
    }
    println!("{met}: {found} differ, of seed {seed}");
    Ok(found)
}

/// Tables listed and damaged listings read until then; gives how many differ. None is kept, for a found case is one run: a drawing is
/// named by seed and number, and `compare listings` makes it again.
fn hunt_listings(seed: u64, end: Instant) -> usize {
    let (mut tried, mut found, mut met) = (0, 0, Met::none());
    while Instant::now() < end && found < ENOUGH {
        if let Err(difference) = compare_drawing(&Proved, &drawing(seed, tried), &mut met) {
            let name = format!("drawing {tried} of seed {seed}");
            println!("{}", listings::told(&Proved, &name, difference));
            found += 1;
        }
        tried += 1;
    }
    println!("{met}: {found} differ, of seed {seed}");
    found
}

/// Pairs of runs until then; gives how many are at fault. None is kept, for a found case is one run: a pair is named by seed and
/// number, and `compare pairs` makes it again.
fn hunt_pairs(seed: u64, end: Instant) -> usize {
    let (mut tried, mut found) = (0, 0);
    while Instant::now() < end && found < ENOUGH {
        let pair = pair(seed, tried);
        if compare_pair(&Proved, &pair).is_err() {
            let name = format!("pair {tried} of seed {seed}");
            println!("{}", pairs::told(&Proved, &name, &pair));
            found += 1;
        }
        tried += 1;
    }
    println!("{tried} pairs of runs of seed {seed}: {found} at fault");
    found
}

//! How long a call takes: best of several, each over enough calls to be told
//! from the clock's own steps.

use std::hint::black_box;
use std::time::{Duration, Instant};

const REPEATS: usize = 5;
const LEAST: Duration = Duration::from_millis(15);

/// Makes calls and counts them.
pub type Work<'a> = Box<dyn FnMut() -> usize + 'a>;

/// Nanoseconds for one of the calls that each makes; without end for none. They
/// take turns, so that a machine that grows slower does so for all alike.
pub fn best(works: &mut [Option<&mut Work>]) -> Vec<f64> {
    let mut least = vec![f64::INFINITY; works.len()];
    for _ in 0..REPEATS {
        for (work, least) in works.iter_mut().zip(&mut least) {
            let Some(work) = work else { continue };
            // The first run of a turn warms the caches and is not counted.
            black_box(work());
            *least = least.min(once(work));
        }
    }
    least
}

fn once(work: &mut Work) -> f64 {
    let (start, mut calls) = (Instant::now(), 0);
    loop {
        calls += black_box(work());
        let spent = start.elapsed();
        if spent >= LEAST {
            return spent.as_nanos() as f64 / calls as f64;
        }
    }
}

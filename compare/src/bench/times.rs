//! One run by every side: what each computes is compared, then it is timed.

use std::cell::RefCell;
use std::hint::black_box;

use second::cases::Case;

use super::timing::{Work, best};
use crate::differ::{Difference, compare_calls};
use crate::subject::{Proved, Subject};

/// Nanoseconds per event; or what is said below the line where there is no time,
/// which is nothing where there is no such side.
pub type Time = Result<f64, String>;

/// Of each side, and how many trace words a run writes and expression words it visits.
pub struct Times {
    pub proved: f64,
    pub before: Time,
    pub yardstick: Time,
    pub second: f64,
    pub written: usize,
    pub visits: u64,
}

impl Times {
    /// Of runs from a fresh state, again and again; all of them take turns. The
    /// proved code, the one before and the clock are first held against the
    /// second program on these very runs.
    pub fn of(
        before: Option<&impl Subject>,
        clock: &impl Subject,
        runs: &[Run],
    ) -> Result<Vec<Self>, Difference> {
        for run in runs {
            compare_calls(&Proved, &run.case)?;
        }
        let mut all: Vec<_> = runs.iter().map(|run| Sides::of(run, before, clock)).collect();
        let mut works: Vec<_> = all.iter_mut().flat_map(Sides::works).collect();
        let times = best(&mut works);
        let (times, _) = times.as_chunks();
        let timed = runs.iter().zip(all).zip(times);
        Ok(timed.map(|((run, sides), &times)| sides.timed(run, times)).collect())
    }

    /// Another side's time, in so many of the unit's nanoseconds, the proved
    /// code's by it, and what is said below the line.
    pub fn beside(&self, time: &Time, unit: f64, digits: usize) -> [String; 3] {
        match time {
            Ok(time) => {
                let ratio = self.proved / time;
                [format!("{:.digits$}", time / unit), format!("{ratio:.2}"), String::new()]
            }
            Err(why) => ["-".into(), "-".into(), why.clone()],
        }
    }
}

/// A run by each side that computes what the second program does.
struct Sides<'a> {
    proved: Work<'a>,
    before: Result<Work<'a>, String>,
    clock: Result<Work<'a>, String>,
    second: Work<'a>,
}

impl<'a> Sides<'a> {
    fn of(run: &'a Run, before: Option<&'a impl Subject>, clock: &'a impl Subject) -> Self {
        Sides {
            proved: run.by(|t, s, r, o, e| Proved.step(t, s, r, o, e).count),
            before: before.ok_or_else(String::new).and_then(|side| run.held("before", side)),
            clock: run.held("yardstick", clock),
            second: run.by(|t, s, r, o, e| second::step(t, s, r, e, o).count),
        }
    }

    fn works(&mut self) -> [Option<&mut Work<'a>>; 4] {
        let (before, clock) = (self.before.as_mut().ok(), self.clock.as_mut().ok());
        [Some(&mut self.proved), before, clock, Some(&mut self.second)]
    }

    /// With the times of its works.
    fn timed(self, run: &Run, [proved, before, yardstick, second]: [f64; 4]) -> Times {
        let (written, visits) = run.counted();
        let (before, yardstick) = (self.before.map(|_| before), self.clock.map(|_| yardstick));
        Times { proved, before, yardstick, second, written, visits }
    }
}

/// A run, and the words that are lent for it: the same to all sides, for where
/// words stand can change a time.
pub struct Run {
    case: Case,
    state_and_trace: RefCell<[Vec<u32>; 2]>,
}

impl Run {
    /// From a fresh state, each event with the same outcomes.
    pub fn fresh(table: &[u32], events: &[u32], outcomes: &[u32]) -> Self {
        let mut state = vec![0; herringcart::state_words(table)];
        second::fresh(table, &mut state);
        let (room, table, events) = (second::check(table).b, table.to_vec(), events.to_vec());
        let state_and_trace = RefCell::new([state.clone(), vec![0; room]]);
        let outcomes = vec![outcomes.to_vec(); events.len()];
        Run { case: Case { table, state, room, events, outcomes }, state_and_trace }
    }

    /// The run by a call that gives its count.
    fn by<'a>(
        &'a self,
        call: impl Fn(&[u32], &mut [u32], &mut [u32], &[u32], u32) -> usize + 'a,
    ) -> Work<'a> {
        Box::new(move || {
            let [state, trace] = &mut *self.state_and_trace.borrow_mut();
            state.copy_from_slice(&self.case.state);
            let table = black_box(&self.case.table[..]);
            for (&event, outcomes) in self.case.events.iter().zip(&self.case.outcomes) {
                black_box(call(table, state, trace, outcomes, event));
            }
            self.case.events.len()
        })
    }

    /// The run by a side, if that computes what the second program does.
    fn held<'a>(&'a self, name: &str, side: &'a impl Subject) -> Result<Work<'a>, String> {
        compare_calls(side, &self.case).map_err(|difference| {
            format!("\n  {name}: no time, it computes something else: {}", difference.what)
        })?;
        Ok(self.by(|t, s, r, o, e| side.step(t, s, r, o, e).count))
    }

    /// The trace words and the visits of the run, by the second program.
    fn counted(&self) -> (usize, u64) {
        let [state, trace] = &mut *self.state_and_trace.borrow_mut();
        state.copy_from_slice(&self.case.state);
        let (mut written, mut visits) = (0, 0);
        for (&event, outcomes) in self.case.events.iter().zip(&self.case.outcomes) {
            let stepped = second::step(&self.case.table, state, trace, event, outcomes);
            written += stepped.count;
            visits += stepped.visits;
        }
        (written, visits)
    }
}

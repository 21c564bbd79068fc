//! The proved code of another commit, where `tools/bench COMMIT` has it linked:
//! the same five calls as today's, by other names. Up to version 3.2 the event
//! call takes no outcomes, and up to 4.0 it reports no visits.

use crate::subject::Subject;

#[cfg(before)]
pub const LINKED: Option<Before> = Some(Before);
#[cfg(not(before))]
pub const LINKED: Option<Before> = None;

#[cfg(before)]
pub struct Before;

/// There is none.
#[cfg(not(before))]
pub enum Before {}

#[cfg(not(before))]
impl Subject for Before {}

#[cfg(before)]
mod c {
    // As library/herringcart.h declares them, which `tools/bench` has seen to
    // declare the same in both commits, but for the event call's outcomes and visits.
    unsafe extern "C" {
        pub fn before_herringcart_check_table(
            table: *const u32,
            table_words: usize,
            place: *mut usize,
            bound: *mut u32,
        ) -> u32;
        pub fn before_herringcart_state_words(table: *const u32, table_words: usize) -> usize;
        pub fn before_herringcart_make_fresh(
            table: *const u32,
            table_words: usize,
            state: *mut u32,
            state_words: usize,
        ) -> u32;
        pub fn before_herringcart_check_state(
            table: *const u32,
            table_words: usize,
            state: *const u32,
            state_words: usize,
        ) -> u32;
        #[cfg(before_counts_visits)]
        pub fn before_herringcart_take_event(
            table: *const u32,
            table_words: usize,
            state: *mut u32,
            state_words: usize,
            trace: *mut u32,
            trace_words: usize,
            outcomes: *const u32,
            outcome_words: usize,
            event: u32,
            count: *mut usize,
            visits: *mut u32,
        ) -> u32;
        // Version 4.0.
        #[cfg(all(before_takes_outcomes, not(before_counts_visits)))]
        pub fn before_herringcart_take_event(
            table: *const u32,
            table_words: usize,
            state: *mut u32,
            state_words: usize,
            trace: *mut u32,
            trace_words: usize,
            outcomes: *const u32,
            outcome_words: usize,
            event: u32,
            count: *mut usize,
        ) -> u32;
        // Up to version 3.2.
        #[cfg(not(before_takes_outcomes))]
        pub fn before_herringcart_take_event(
            table: *const u32,
            table_words: usize,
            state: *mut u32,
            state_words: usize,
            trace: *mut u32,
            trace_words: usize,
            event: u32,
            count: *mut usize,
        ) -> u32;
    }
}

// Why each call below is sound stands in library/rust/src/lib.rs: they are the
// same calls on the same slices, with locals for what else they write.
#[cfg(before)]
impl Subject for Before {
    fn counts_visits(&self) -> bool {
        cfg!(before_counts_visits)
    }

    fn check(&self, table: &[u32]) -> herringcart::Check {
        let (mut place, mut bound) = (usize::MAX, u32::MAX);
        // SAFETY: see above.
        let reason = unsafe {
            c::before_herringcart_check_table(table.as_ptr(), table.len(), &mut place, &mut bound)
        };
        herringcart::Check { reason, place, bound }
    }

    fn state_words(&self, table: &[u32]) -> usize {
        // SAFETY: see above.
        unsafe { c::before_herringcart_state_words(table.as_ptr(), table.len()) }
    }

    fn fresh(&self, table: &[u32], state: &mut [u32]) -> u32 {
        let (words, length) = (state.as_mut_ptr(), state.len());
        // SAFETY: see above.
        unsafe { c::before_herringcart_make_fresh(table.as_ptr(), table.len(), words, length) }
    }

    fn check_state(&self, table: &[u32], state: &[u32]) -> u32 {
        let (words, length) = (state.as_ptr(), state.len());
        // SAFETY: see above.
        unsafe { c::before_herringcart_check_state(table.as_ptr(), table.len(), words, length) }
    }

    fn step(
        &self,
        table: &[u32],
        state: &mut [u32],
        trace: &mut [u32],
        outcomes: &[u32],
        event: u32,
    ) -> herringcart::Answer {
        let (mut count, mut visits) = (usize::MAX, if self.counts_visits() { u32::MAX } else { 0 });
        let (t, s, r) = (table.as_ptr(), state.as_mut_ptr(), trace.as_mut_ptr());
        let [tl, sl, rl] = [table.len(), state.len(), trace.len()];
        #[cfg(before_takes_outcomes)]
        let (o, ol) = (outcomes.as_ptr(), outcomes.len());
        let v = &mut visits;
        // SAFETY: see above.
        #[cfg(before_counts_visits)]
        let number = unsafe {
            c::before_herringcart_take_event(t, tl, s, sl, r, rl, o, ol, event, &mut count, v)
        };
        #[cfg(not(before_counts_visits))]
        let _ = v;
        // SAFETY: see above.
        #[cfg(all(before_takes_outcomes, not(before_counts_visits)))]
        let number = unsafe {
            c::before_herringcart_take_event(t, tl, s, sl, r, rl, o, ol, event, &mut count)
        };
        // It does not see what is lent. Whether that matters shows before anything is timed.
        #[cfg(not(before_takes_outcomes))]
        let _ = outcomes;
        // SAFETY: see above.
        #[cfg(not(before_takes_outcomes))]
        let number =
            unsafe { c::before_herringcart_take_event(t, tl, s, sl, r, rl, event, &mut count) };
        herringcart::Answer { number, count, visits }
    }
}

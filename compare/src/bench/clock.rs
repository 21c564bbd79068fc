//! The yardstick in the proved code's place. Its checks are compared too, for a
//! table that is refused for another reason takes another time.

use herringcart::{Answer, Check};

use crate::subject::Subject;
use crate::yardstick;

/// A fresh state is not timed and stays the proved one. The base's calls are all good, and nobody counts visits.
pub struct Clock;

impl Subject for Clock {
    fn counts_visits(&self) -> bool {
        false
    }

    fn check(&self, table: &[u32]) -> Check {
        match yardstick::check_table(table) {
            Ok(bound) => Check { reason: 0, place: 0, bound },
            Err((reason, place)) => Check { reason, place, bound: 0 },
        }
    }

    fn check_state(&self, table: &[u32], state: &[u32]) -> u32 {
        yardstick::check_state(table, state)
    }

    fn step(
        &self,
        table: &[u32],
        state: &mut [u32],
        trace: &mut [u32],
        _outcomes: &[u32],
        event: u32,
    ) -> Answer {
        match yardstick::take_event(table, state, trace, event) {
            Ok(count) => Answer { number: 0, count, visits: 0 },
            Err(number) => Answer { number, count: 0, visits: 0 },
        }
    }
}

//! How near the bound of Q-10, 127 (R + B), the events of a comparison come.

use std::fmt;

/// What an event of a case visits at most, and the bound of its table.
#[derive(Clone, Copy, PartialEq, Eq, Debug)]
pub struct Visited {
    pub most: u64,
    pub bound: u64,
}

/// Of many cases the one with the most visits, and the one with the largest share of its bound; of equal ones the first.
#[derive(Default)]
pub struct Nearest {
    most: Option<(Visited, String)>,
    share: Option<(Visited, String)>,
}

impl Nearest {
    pub fn meet(&mut self, visited: Visited, name: impl Fn() -> String) {
        let Visited { most, bound } = visited;
        let more = |than: &Visited| most > than.most;
        let nearer = |than: &Visited| most * than.bound > than.most * bound;
        if most > 0 && self.most.as_ref().is_none_or(|(than, _)| more(than)) {
            self.most = Some((visited, name()));
        }
        if most > 0 && self.share.as_ref().is_none_or(|(than, _)| nearer(than)) {
            self.share = Some((visited, name()));
        }
    }

    /// What later cases came to.
    pub fn add(&mut self, later: Nearest) {
        for (visited, name) in later.most.into_iter().chain(later.share) {
            self.meet(visited, || name.clone());
        }
    }
}

impl fmt::Display for Nearest {
    fn fmt(&self, f: &mut fmt::Formatter) -> fmt::Result {
        let (Some((visited, name)), Some((near, whose))) = (&self.most, &self.share) else {
            return write!(f, "visits: no event visited a word");
        };
        writeln!(f, "visits: at most {} in an event, {name}", visited.most)?;
        let percent = 100.0 * near.most as f64 / near.bound as f64;
        let Visited { most, bound } = near;
        write!(
            f,
            "visits: the nearest to 127 (R + B) is {most} of {bound}, {percent:.1} %, {whose}"
        )
    }
}

#[cfg(test)]
mod tests {
    use super::*;

    fn told(cases: &[(u64, u64)]) -> String {
        let mut nearest = Nearest::default();
        for (number, &(most, bound)) in cases.iter().enumerate() {
            nearest.meet(Visited { most, bound }, || format!("case {number}"));
        }
        nearest.to_string()
    }

    #[test]
    fn the_most_and_the_nearest_are_each_the_first_of_their_like() {
        let cases = [(0, 0), (0, 127), (100, 254), (9, 127), (200, 508), (200, 400), (100, 200)];
        assert_eq!(
            told(&cases),
            "visits: at most 200 in an event, case 4\n\
             visits: the nearest to 127 (R + B) is 200 of 400, 50.0 %, case 5"
        );
    }

    #[test]
    fn what_was_met_in_two_parts_is_as_in_one() {
        let cases = [(100, 254), (9, 127), (200, 508), (200, 400), (100, 200), (0, 0), (5, 6)];
        for cut in 0..=cases.len() {
            let (mut nearest, mut later) = (Nearest::default(), Nearest::default());
            for (number, &(most, bound)) in cases.iter().enumerate() {
                let part = if number < cut { &mut nearest } else { &mut later };
                part.meet(Visited { most, bound }, || format!("case {number}"));
            }
            nearest.add(later);
            assert_eq!(nearest.to_string(), told(&cases), "{cut}");
        }
    }

    #[test]
    fn where_nothing_is_visited_that_is_said() {
        assert_eq!(told(&[(0, 0), (0, 127)]), "visits: no event visited a word");
    }
}

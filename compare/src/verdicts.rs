//! How many suppliers' recordings were held, and what was said of them.

use std::fmt;
use std::ops::AddAssign;

const VERDICTS: [&str; 6] =
    ["as ordered", "refused", "traces part", "the supplier's stops", "ours stops", "states part"];

/// By the verdict's number; and of our own step's recordings, taken with outcomes lent, how many in edition 1 and in edition 2.
#[derive(Clone, Copy, PartialEq, Eq, Default, Debug)]
pub struct Verdicts {
    met: [u64; 6],
    lent: [u64; 2],
}

impl Verdicts {
    pub fn meet(&mut self, verdict: u32) {
        self.met[verdict as usize] += 1;
    }

    /// Our own recording, with outcomes lent in a table of this edition.
    pub fn meet_lent(&mut self, edition: u32) {
        self.lent[usize::from(edition == 2)] += 1;
    }

    pub fn all(&self) -> u64 {
        self.met.iter().sum()
    }

    /// Fails with what nothing met.
    pub fn all_met(&self) -> Result<(), String> {
        let verdicts = VERDICTS.iter().zip(self.met);
        let verdicts = verdicts.map(|(name, met)| (format!("no recording held is {name}\n"), met));
        let lent = (1..).zip(self.lent);
        let lent = lent.map(|(edition, met)| {
            (format!("no own recording with outcomes lent in edition {edition}\n"), met)
        });
        let missing: String =
            verdicts.chain(lent).filter(|(_, met)| *met == 0).map(|(told, _)| told).collect();
        if missing.is_empty() { Ok(()) } else { Err(missing) }
    }
}

impl AddAssign for Verdicts {
    fn add_assign(&mut self, more: Self) {
        self.met.iter_mut().zip(more.met).for_each(|(all, more)| *all += more);
        self.lent.iter_mut().zip(more.lent).for_each(|(all, more)| *all += more);
    }
}

impl fmt::Display for Verdicts {
    fn fmt(&self, f: &mut fmt::Formatter) -> fmt::Result {
        let told: Vec<String> =
            VERDICTS.iter().zip(self.met).map(|(name, met)| format!("{met} {name}")).collect();
        let [one, two] = self.lent;
        write!(f, "{} recordings held: {}", self.all(), told.join(", "))?;
        if one + two == 0 {
            return Ok(());
        }
        write!(f, "\nof our own with outcomes lent: {one} in edition 1, {two} in edition 2")
    }
}

#[cfg(test)]
mod tests {
    use super::*;

    #[test]
    fn a_verdict_or_an_edition_that_nothing_met_is_told() {
        let mut verdicts = Verdicts::default();
        assert_eq!(verdicts.all_met().expect_err("nothing is met").lines().count(), 8);
        (0..5).for_each(|verdict| verdicts.meet(verdict));
        verdicts.meet_lent(2);
        let missing =
            "no recording held is states part\nno own recording with outcomes lent in edition 1\n";
        assert_eq!(verdicts.all_met(), Err(missing.into()));
        let mut more = Verdicts::default();
        more.meet(5);
        more.meet_lent(1);
        verdicts += more;
        assert_eq!((verdicts.all(), verdicts.all_met()), (6, Ok(())));
        assert!(verdicts.to_string().starts_with("6 recordings held: 1 as ordered, 1 refused, "));
    }
}

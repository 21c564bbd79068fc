//! The second program's coverage has the rows of its cases, of its pairs of runs and of its bus logs in one table; a command meets those of
//! one kind.

use second::testing::coverage::Coverage;

/// What a command runs.
#[derive(Clone, Copy, PartialEq, Eq, Debug)]
pub enum Of {
    Cases,
    Pairs,
    Logs,
}

impl Of {
    /// By its name, which of a pair's or a bus log's begins so.
    fn has(self, row: &str) -> bool {
        let of = match row {
            row if row.starts_with("pair") => Of::Pairs,
            row if row.starts_with("bus log") => Of::Logs,
            _ => Of::Cases,
        };
        self == of
    }

    /// The table, as the second program prints it: a number, two spaces, the row.
    pub fn table(self, coverage: &Coverage) -> String {
        let table = coverage.to_string();
        let row =
            |line: &&str| line.trim_start().split_once("  ").is_some_and(|(_, row)| self.has(row));
        table.lines().filter(row).map(|line| format!("{line}\n")).collect()
    }

    /// Fails with the rows that nothing met.
    pub fn all_met(self, coverage: &Coverage) -> Result<(), String> {
        let rows = coverage.missing().into_iter().map(|row| row.to_string());
        let missing: Vec<String> = rows.filter(|row| self.has(row)).collect();
        if missing.is_empty() {
            return Ok(());
        }
        Err(missing.iter().map(|row| format!("no case met: {row}\n")).collect())
    }
}

#[cfg(test)]
mod tests {
    use super::*;

    #[test]
    fn every_row_is_asked_for_by_one_of_the_three() {
        let none = Coverage::new();
        let rows = |of: Of| of.all_met(&none).expect_err("nothing is met").lines().count();
        let all = [Of::Cases, Of::Pairs, Of::Logs];
        assert!(all.iter().all(|&of| rows(of) > 0));
        assert_eq!(all.map(rows).iter().sum::<usize>(), none.missing().len());
        for of in all {
            assert_eq!(of.table(&none).lines().count(), rows(of));
        }
    }
}

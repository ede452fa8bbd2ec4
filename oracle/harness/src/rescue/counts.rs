//! How often each sort of damage got each answer.

use side::Rescued;

const ANSWERS: usize = 6;
const HEAD: [&str; ANSWERS] = ["unchanged", "dropped", "left", "both", "13", "14"];

/// A row of each sort of damage, in the order in which they are met.
#[derive(Clone, Debug, Default, PartialEq, Eq)]
pub struct Counts(Vec<(&'static str, [u64; ANSWERS])>);

impl Counts {
    pub fn add(&mut self, sort: &'static str, answer: &Result<Rescued, u64>) {
        let column = match answer {
            Ok(saved) => usize::from(!saved.dropped.is_empty()) + 2 * usize::from(saved.left > 0),
            Err(13) => 4,
            Err(_) => 5,
        };
        self.row(sort)[column] += 1;
    }

    /// Adds what was counted elsewhere.
    pub fn join(&mut self, other: Counts) {
        for (sort, counted) in other.0 {
            let row = self.row(sort).iter_mut();
            row.zip(counted).for_each(|(count, more)| *count += more);
        }
    }

    /// The number of journals.
    pub fn sum(&self) -> u64 {
        self.columns().iter().sum()
    }

    /// How often each answer was given, whatever the damage.
    pub fn columns(&self) -> [u64; ANSWERS] {
        std::array::from_fn(|column| self.0.iter().map(|(_, counts)| counts[column]).sum())
    }

    fn row(&mut self, sort: &'static str) -> &mut [u64; ANSWERS] {
        let index = self.0.iter().position(|(name, _)| *name == sort).unwrap_or_else(|| {
            self.0.push((sort, [0; ANSWERS]));
            self.0.len() - 1
        });
        &mut self.0[index].1
    }
}

/// A line of each sort, and one of the sums.
impl std::fmt::Display for Counts {
    fn fmt(&self, out: &mut std::fmt::Formatter) -> std::fmt::Result {
        let mut line = |name: &str, cells: [String; ANSWERS]| {
            let cells: String = cells.iter().map(|cell| format!("{cell:>11}")).collect();
            writeln!(out, "{name:20}{cells}")
        };
        line("", HEAD.map(str::to_string))?;
        for (sort, counts) in self.0.iter().chain([&("all", self.columns())]) {
            line(sort, counts.map(|count| count.to_string()))?;
        }
        Ok(())
    }
}

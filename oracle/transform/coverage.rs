//! Counts of what the random calls covered, printed as short lines.

use super::block::Kind;
use super::NAME;
use std::collections::BTreeMap;

/// A run of at least this many calls has to cover everything that is counted.
const ENOUGH: usize = 100_000;

#[derive(Default)]
pub struct Valid {
    calls: usize,
    kinds: BTreeMap<&'static str, usize>,
    /// Blocks with an exact half among the four coefficients that are eighths of whole numbers.
    ties: usize,
    least: i32,
    greatest: i32,
}

impl Valid {
    pub fn count(&mut self, kind: Kind, residual: &[i32], coefficients: &[i32]) {
        self.calls += 1;
        *self.kinds.entry(kind.name()).or_default() += 1;
        self.ties += usize::from(has_tie(residual));
        for &number in coefficients {
            self.least = self.least.min(number);
            self.greatest = self.greatest.max(number);
        }
    }

    pub fn print(&self) {
        let words: Vec<String> = self.kinds.iter().map(|(k, n)| format!("{k} {n}")).collect();
        println!("{NAME}: {} valid calls equal: {}", self.calls, words.join(", "));
        println!("{NAME}: {} blocks with an exact half", self.ties);
        println!("{NAME}: coefficients from {} to {}", self.least, self.greatest);
    }

    /// A long run has to have left nothing out: 2,040 is the greatest that a residual gives.
    pub fn complete(&self) -> Result<(), String> {
        let all = self.kinds.len() == Kind::ALL.len()
            && self.ties > 0
            && (self.least, self.greatest) == (-2040, 2040);
        if self.calls >= ENOUGH && !all {
            return Err(format!("{NAME}: the valid calls left something uncovered"));
        }
        Ok(())
    }
}

/// The coefficients at rows and columns 0 and 4 are sums of the residuals with signs, over 8, so it
/// is known which of them lie half way between two whole numbers.
fn has_tie(residual: &[i32]) -> bool {
    let sign =
        |index: usize, turn: bool| if turn && matches!(index, 1 | 2 | 5 | 6) { -1 } else { 1 };
    [(false, false), (false, true), (true, false), (true, true)].iter().any(|&(v, u)| {
        let terms = residual.iter().enumerate();
        let sum: i32 = terms.map(|(k, n)| n * sign(k / 8, v) * sign(k % 8, u)).sum();
        sum.rem_euclid(8) == 4
    })
}

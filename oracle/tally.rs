//! Counts of what damaged calls covered: every number alone, and before each later one.

use crate::summary::Row;
use std::collections::{BTreeMap, BTreeSet};

/// A run of at least this many calls has to cover everything that is counted.
const ENOUGH: usize = 20_000;

pub struct Tally {
    name: &'static str,
    /// The numbers that can occur, in the order in which they are looked at.
    numbers: &'static [u8],
    calls: usize,
    replies: BTreeMap<u8, usize>,
    alone: BTreeSet<u8>,
    pairs: BTreeSet<(u8, u8)>,
    /// How many pairs there can be.
    every: usize,
    /// So many calls have to cover everything.
    enough: usize,
}

impl Tally {
    pub fn new(name: &'static str, numbers: &'static [u8]) -> Self {
        let (replies, alone, pairs) = Default::default();
        let every = numbers.len() * (numbers.len() - 1) / 2;
        Tally { name, numbers, calls: 0, replies, alone, pairs, every, enough: ENOUGH }
    }

    /// So many pairs that cannot be, as one reason rules the other out.
    pub fn without(self, pairs: usize) -> Self {
        Tally { every: self.every - pairs, ..self }
    }

    /// So many calls have to cover everything.
    pub fn enough(self, enough: usize) -> Self {
        Tally { enough, ..self }
    }

    /// So many damaged calls of an entry: each one's reasons, in order, and how it was answered.
    pub fn run<T>(
        mut self,
        row: &mut Row,
        calls: usize,
        mut call: impl FnMut() -> (Vec<u8>, Result<T, String>),
    ) {
        for _ in 0..calls {
            let (reasons, found) = call();
            row.refused(found);
            self.count(&reasons);
        }
        row.covered(self.finish());
    }

    /// All reasons of one call, in order.
    pub fn count(&mut self, reasons: &[u8]) {
        self.calls += 1;
        *self.replies.entry(reasons[0]).or_default() += 1;
        self.pairs.extend(reasons[1..].iter().map(|&later| (reasons[0], later)));
        if reasons.len() == 1 {
            self.alone.insert(reasons[0]);
        }
    }

    /// Prints the counts; an error if a long run left something out.
    pub fn finish(self) -> Result<(), String> {
        let all = self.numbers.len();
        let every = self.every;
        let words: Vec<String> = self.replies.iter().map(|(n, c)| format!("{n} {c}")).collect();
        println!("{}: {} refusals equal: {}", self.name, self.calls, words.join(", "));
        println!(
            "{}: {} of {all} numbers with no other reason, {} of {every} pairs",
            self.name,
            self.alone.len(),
            self.pairs.len()
        );
        let covered = self.alone.len() == all && self.pairs.len() == every;
        if self.calls >= self.enough && !covered {
            return Err(format!("{}: the damaged calls left something uncovered", self.name));
        }
        Ok(())
    }
}

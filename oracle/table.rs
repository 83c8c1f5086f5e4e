//! A set of rows that are timed: it measures each in several passes, once more and up to three times
//! where a figure misses what is wanted of it, and hands all on to be printed.

use crate::timing::Times;
use crate::wanted::Wanted;

/// How often a row that missed is measured again before it has failed.
const AGAIN: usize = 3;

/// A figure over several rows: of the mean of their ratios, or of the sums of their times.
#[derive(Clone, Copy, PartialEq)]
pub enum Over {
    Mean,
    Sums,
}

struct Row {
    name: String,
    times: Times,
}

struct Group {
    name: String,
    over: Over,
    rows: Vec<usize>,
}

pub struct Table {
    title: &'static str,
    rows: Vec<Row>,
    groups: Vec<Group>,
}

impl Table {
    pub fn new(title: &'static str) -> Self {
        Table { title, rows: Vec::new(), groups: Vec::new() }
    }

    /// A row not timed yet, in these groups.
    pub fn row(&mut self, name: String, groups: &[(&str, Over)]) {
        let at = self.rows.len();
        self.rows.push(Row { name, times: Times::NONE });
        for &(group, over) in groups {
            let name = match over {
                Over::Mean => format!("{group}, mean"),
                Over::Sums => format!("{group}, sums"),
            };
            match self.groups.iter_mut().find(|group| group.name == name) {
                Some(group) => group.rows.push(at),
                None => self.groups.push(Group { name, over, rows: vec![at] }),
            }
        }
    }

    /// Measures. `time` is handed a row's number and its best times so far, and answers
    /// the better ones. Every row is timed in each pass, so that a slow spell of the machine spoils
    /// no row.
    pub fn run(
        mut self,
        wanted: &mut Wanted,
        passes: usize,
        mut time: impl FnMut(usize, Times) -> Times,
    ) {
        let all: Vec<usize> = (0..self.rows.len()).collect();
        self.passes(passes, &all, &mut time);
        for _ in 0..AGAIN {
            let missed = self.missed(wanted);
            if missed.is_empty() {
                break;
            }
            self.passes(passes, &missed, &mut time);
        }
        self.judge(wanted);
    }

    fn passes(
        &mut self,
        passes: usize,
        rows: &[usize],
        time: &mut impl FnMut(usize, Times) -> Times,
    ) {
        for _ in 0..passes {
            for &at in rows {
                self.rows[at].times = time(at, self.rows[at].times);
            }
        }
    }

    /// The rows that a missed figure is made of.
    fn missed(&self, wanted: &Wanted) -> Vec<usize> {
        let group_missed = |at: usize| {
            let mut groups = self.groups.iter().filter(|group| group.rows.contains(&at));
            groups.any(|group| !wanted.holds(&group.name, self.over(group)))
        };
        (0..self.rows.len())
            .filter(|&at| {
                let row = &self.rows[at];
                !wanted.holds(&row.name, row.times.ratio()) || group_missed(at)
            })
            .collect()
    }

    fn over(&self, group: &Group) -> f64 {
        let times: Vec<Times> = group.rows.iter().map(|&at| self.rows[at].times).collect();
        match group.over {
            Over::Mean => times.iter().map(Times::ratio).sum::<f64>() / times.len() as f64,
            Over::Sums => Times::mean(&times).ratio(),
        }
    }

    /// Hands the figures on; the titles tell how far a run has come.
    fn judge(&self, wanted: &mut Wanted) {
        println!("{}: {} rows", self.title, self.rows.len());
        for Row { name, times } in &self.rows {
            wanted.judge(name, Some(*times), times.ratio());
        }
        for group in &self.groups {
            wanted.judge(&group.name, None, self.over(group));
        }
    }
}

//! Counts of what valid calls covered: names under titles, printed as short lines. Each count has
//! to be above 0.

use std::collections::BTreeMap;

/// A run of at least this many calls has to cover everything that is counted.
const ENOUGH: usize = 20_000;

/// A name under its title.
pub type Mark = (&'static str, String);

pub struct Counted {
    name: &'static str,
    /// What is said of the calls.
    are: &'static str,
    calls: usize,
    /// So many have to cover everything.
    enough: usize,
    lines: BTreeMap<&'static str, BTreeMap<String, usize>>,
}

impl Counted {
    /// All that is to be counted, at 0.
    pub fn new(name: &'static str, all: Vec<(&'static str, Vec<String>)>) -> Self {
        let mut lines = BTreeMap::new();
        for (title, names) in all {
            lines.insert(title, names.into_iter().map(|name| (name, 0)).collect());
        }
        Counted { name, are: "valid calls equal", calls: 0, enough: ENOUGH, lines }
    }

    /// Other words for the calls, of which so many have to cover everything.
    pub fn naming(self, are: &'static str, enough: usize) -> Self {
        Counted { are, enough, ..self }
    }

    /// One call, with the names that it counts for.
    pub fn count(&mut self, marks: Vec<Mark>) {
        self.calls += 1;
        for (title, name) in marks {
            self.add(title, &name);
        }
    }

    pub fn add(&mut self, title: &'static str, name: &str) {
        let line = self.lines.get_mut(title).expect("a title of the list");
        *line.get_mut(name).expect("a name of the list") += 1;
    }

    pub fn so_far(&self, title: &'static str, name: &str) -> usize {
        self.lines[title][name]
    }

    /// Prints the counts; an error if a long run left something out.
    pub fn finish(self) -> Result<(), String> {
        let name = self.name;
        println!("{name}: {} {}", self.calls, self.are);
        let mut missing = Vec::new();
        for (title, line) in &self.lines {
            let words: Vec<String> = line.iter().map(|(n, count)| format!("{n} {count}")).collect();
            println!("{name}: {title}: {}", words.join(", "));
            let none = line.iter().filter(|(_, &count)| count == 0);
            missing.extend(none.map(|(n, _)| format!("{title}: {n}")));
        }
        if self.calls >= self.enough && !missing.is_empty() {
            return Err(format!("{name}: the calls left out {}", missing.join(", ")));
        }
        Ok(())
    }
}

/// Those of the names that hold.
pub fn held(title: &'static str, names: Vec<(&str, bool)>) -> Vec<Mark> {
    names.into_iter().filter(|name| name.1).map(|name| (title, name.0.to_string())).collect()
}

pub fn strings(names: &[&str]) -> Vec<String> {
    names.iter().map(|name| name.to_string()).collect()
}

//! The wanted figures: of each row the least ratio to the Rust, or for a share the number that it is
//! to stay below. A line of the file is `>= 0.77  NAME` or `< 0.1  NAME`; # begins a comment. Beside
//! them the figures found, which are one table at the end.

use crate::timing::Times;
use std::fs;

#[derive(Clone, Copy)]
enum Bound {
    AtLeast(f64),
    Below(f64),
}

struct Line {
    name: String,
    bound: Bound,
    asked: bool,
}

/// A row of the table. Of a figure over several rows there are no times.
struct Found {
    name: String,
    times: Option<Times>,
    figure: f64,
    text: String,
}

pub struct Wanted {
    lines: Vec<Line>,
    found: Vec<Found>,
    faults: Vec<String>,
}

impl Wanted {
    pub fn read(path: &str) -> Result<Self, String> {
        let text = fs::read_to_string(path).map_err(|error| format!("{path}: {error}"))?;
        let mut lines: Vec<Line> = Vec::new();
        for (number, line) in text.lines().enumerate() {
            let words: Vec<&str> =
                line.split('#').next().unwrap_or("").split_whitespace().collect();
            if words.is_empty() {
                continue;
            }
            let line =
                Line::of(&words).ok_or(format!("{path}: line {} is no figure", number + 1))?;
            if lines.iter().any(|other| other.name == line.name) {
                return Err(format!("{path}: {} is listed twice", line.name));
            }
            lines.push(line);
        }
        Ok(Wanted { lines, found: Vec::new(), faults: Vec::new() })
    }

    /// Whether a figure is as it is wanted. A row that has no line is never.
    pub fn holds(&self, name: &str, figure: f64) -> bool {
        match self.bound(name) {
            Some(Bound::AtLeast(least)) => figure >= least,
            Some(Bound::Below(most)) => figure < most,
            None => false,
        }
    }

    /// A figure found, which is printed at the end beside what is wanted.
    pub fn judge(&mut self, name: &str, times: Option<Times>, figure: f64) {
        if let Some(line) = self.lines.iter_mut().find(|line| line.name == name) {
            line.asked = true;
        }
        let mut text = match self.bound(name) {
            Some(Bound::AtLeast(least)) => format!(">= {least:.2}"),
            Some(Bound::Below(most)) => format!("< {most:.2}"),
            None => "no figure".to_string(),
        };
        if !self.holds(name, figure) {
            self.faults.push(format!("{name}: {figure:.3}, wanted {text}"));
            text += "  missed";
        }
        self.found.push(Found { name: name.to_string(), times, figure, text });
    }

    /// The table, and a line for each miss.
    pub fn print(&self) {
        let wide = self.found.iter().map(|found| found.name.len()).max().unwrap_or(0);
        println!("{:<wide$}  {:>12}  {:>12}   ratio  wanted", "row", "Rust ns", "Rattle ns");
        for Found { name, times, figure, text } in &self.found {
            let time = |of: fn(&Times) -> f64| {
                times.map_or(String::new(), |times| format!("{:.1}", of(&times)))
            };
            let (rust, rattle) = (time(|times| times.rust), time(|times| times.rattle));
            println!("{name:<wide$}  {rust:>12}  {rattle:>12}  {figure:>6.2}  {text}");
        }
        self.faults.iter().for_each(|fault| println!("missed: {fault}"));
    }

    /// Lines whose row nothing has asked for. Where all rows are timed there is none.
    pub fn hold_all_asked(&mut self) {
        for line in self.lines.iter().filter(|line| !line.asked) {
            self.faults.push(format!("{}: no row has this name", line.name));
        }
    }

    pub fn missed(&self) -> usize {
        self.faults.len()
    }

    fn bound(&self, name: &str) -> Option<Bound> {
        self.lines.iter().find(|line| line.name == name).map(|line| line.bound)
    }
}

impl Line {
    fn of(words: &[&str]) -> Option<Self> {
        let [sign, number, name @ ..] = words else { return None };
        let number: f64 = number.parse().ok()?;
        let bound = match *sign {
            ">=" => Bound::AtLeast(number),
            "<" => Bound::Below(number),
            _ => return None,
        };
        (!name.is_empty()).then(|| Line { name: name.join(" "), bound, asked: false })
    }
}

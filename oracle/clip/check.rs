//! One run of the program, held to what it is to print.

use super::marks;
use super::NAME;
use crate::broodline::{play, Program};
use crate::counted::Counted;
use crate::random::Random;
use crate::summary::Row;
use std::fs;

/// A refusal's line begins so.
const REFUSED: &str = "refused ";

/// Where the input of a run that differs is kept, and both outputs.
const KEPT: &str = "target/oracle/broodline-mismatch";

pub struct Checker {
    program: Program,
    seed: u64,
    /// The number of the clip, by which a text names it.
    pub clip: usize,
}

impl Checker {
    pub fn new(program: Program, seed: u64) -> Self {
        Checker { program, seed, clip: 0 }
    }

    /// Runs the program on an input of this kind and counts the run; the output, if as wanted.
    pub fn check(
        &self,
        kind: &'static str,
        input: &[u8],
        counted: &mut Counted,
        random: &mut Random,
        row: &mut Row,
    ) -> Option<String> {
        let wanted = play(input);
        let refused = wanted.lines().any(|line| line.starts_with(REFUSED));
        let found = self.run(kind, input, &wanted, counted, random);
        row.called(u8::from(refused), found).map(|()| wanted)
    }

    fn run(
        &self,
        kind: &'static str,
        input: &[u8],
        wanted: &str,
        counted: &mut Counted,
        random: &mut Random,
    ) -> Result<(), String> {
        let pieces = random.chance(30);
        let piece = if pieces { random.size(1, 500) } else { usize::MAX };
        let ran = self.program.run(input, piece).map_err(|e| format!("{NAME} doesn't run: {e}"))?;
        if ran.output != wanted.as_bytes() || !ran.status.success() {
            let got = String::from_utf8_lossy(&ran.output).into_owned();
            let place = format!("seed {}, clip {}, {kind}", self.seed, self.clip);
            let status = ran.status;
            return Err(match keep(input, wanted, &ran.output) {
                Ok(()) => format!("MISMATCH: {NAME}, {place}, {status}; the input is {KEPT}.in"),
                Err(error) => format!("MISMATCH: {NAME}, {place}, {status}; not kept: {error}"),
            } + &first_difference(wanted, &got));
        }
        counted.add(marks::RUNS, kind);
        counted.add(marks::PIPES, if pieces { "in pieces" } else { "at once" });
        for line in wanted.lines() {
            count_line(line, wanted, counted);
        }
        Ok(())
    }
}

fn count_line(line: &str, text: &str, counted: &mut Counted) {
    match line.strip_prefix(REFUSED) {
        Some(number) => {
            counted.add(marks::REFUSALS, number);
            let lines = text.lines().count() - 1;
            counted.add(marks::AFTER, if lines == 0 { "no line" } else { "some lines" });
        }
        None => {
            let four = line.split(' ').count() == 17;
            counted.add(marks::LINES, if four { "four vectors" } else { "one vector" });
        }
    }
}

fn keep(input: &[u8], wanted: &str, got: &[u8]) -> std::io::Result<()> {
    fs::write(format!("{KEPT}.in"), input)?;
    fs::write(format!("{KEPT}.wanted"), wanted)?;
    fs::write(format!("{KEPT}.got"), got)
}

/// The first line of the two that is not the same, with its end.
fn first_difference(wanted: &str, got: &str) -> String {
    let mut lines = (wanted.split_inclusive('\n'), got.split_inclusive('\n'));
    for number in 1.. {
        let (wanted, got) = (lines.0.next(), lines.1.next());
        if wanted != got {
            return format!("\nline {number}\nwanted {wanted:?}\ngot    {got:?}");
        }
        if wanted.is_none() {
            break;
        }
    }
    "\nthe output is the same".into()
}

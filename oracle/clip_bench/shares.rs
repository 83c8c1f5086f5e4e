//! What is timed of a setting, and the share of reading and printing in it.

use crate::search_bench::MODES;
use crate::timing::Times;
use crate::wanted::Wanted;

/// One setting, in nanoseconds for a picture.
pub struct Line {
    vectors: u32,
    mode: u32,
    fcode: u32,
    pub times: Times,
    /// A process whose header is turned back.
    pub start: f64,
    /// A process that reads all planes and no prediction.
    pub planes: f64,
    /// The library on all macroblocks, once, in a new process.
    pub first: f64,
    /// The same, later in that process.
    pub again: f64,
}

/// Vectors, mode and fcode.
pub fn settings() -> Vec<(u32, u32, u32)> {
    let mut all = Vec::new();
    for vectors in [1, 4] {
        for mode in [0, 1] {
            all.extend([1, 4].map(|fcode| (vectors, mode, fcode)));
        }
    }
    all
}

impl Line {
    /// Not timed yet.
    pub fn new(vectors: u32, mode: u32, fcode: u32) -> Self {
        let [start, planes, first, again] = [f64::INFINITY; 4];
        Line { vectors, mode, fcode, times: Times::NONE, start, planes, first, again }
    }

    /// A file of its own for each setting.
    pub fn path(&self, folder: &str, name: &str) -> String {
        format!("{folder}/clip-{}-{}-{}-{name}.in", self.vectors, self.mode, self.fcode)
    }

    pub fn setting(&self) -> String {
        let vectors = if self.vectors == 4 { "four vectors" } else { "one vector" };
        format!("{vectors} {} fcode {}", MODES[self.mode as usize], self.fcode)
    }
}

/// A start, and the reading of planes, is the same work in every setting: the best of all counts.
struct Shared {
    start: f64,
    planes: f64,
}

impl Shared {
    fn of<'a>(lines: impl Iterator<Item = &'a Line>) -> Self {
        lines.fold(Shared { start: f64::INFINITY, planes: f64::INFINITY }, |best, line| Shared {
            start: best.start.min(line.start),
            planes: best.planes.min(line.planes),
        })
    }

    /// That of all but the coding in the time after the start.
    fn share(&self, line: &Line, coding: f64) -> f64 {
        1.0 - coding / (line.times.rattle - self.start)
    }
}

fn name(line: &Line) -> String {
    format!("reading and printing, share, {}", line.setting())
}

/// The places of the lines whose share is not as it is wanted. Shares count at fcode 1.
pub fn missed<'a>(lines: impl Iterator<Item = &'a Line> + Clone, wanted: &Wanted) -> Vec<usize> {
    let shared = Shared::of(lines.clone());
    let holds = |line: &Line| wanted.holds(&name(line), shared.share(line, line.first));
    lines
        .enumerate()
        .filter(|(_, line)| line.fcode == 1 && !holds(line))
        .map(|(at, _)| at)
        .collect()
}

pub fn print<'a>(lines: impl Iterator<Item = &'a Line> + Clone, wanted: &mut Wanted) {
    let shared = Shared::of(lines.clone());
    println!("in us: start, planes, first, again, whole; at most: the share with again for first");
    let head = "start  planes  first  again  whole  at most   share";
    println!("{:<57}  {head}", "reading and printing");
    for line in lines.filter(|line| line.fcode == 1) {
        let (name, share) = (name(line), shared.share(line, line.first));
        let [start, planes] = [shared.start, shared.planes].map(|time| time / 1e3);
        let [first, again, whole] = [line.first, line.again, line.times.rattle].map(|t| t / 1e3);
        let most = shared.share(line, line.again);
        wanted.judge(&name, None, share);
        println!(
            "{name:<57}  {start:>5.0}  {planes:>6.0}  {first:>5.0}  {again:>5.0}  {whole:>5.0}  \
             {most:>7.3}  {share:>6.3}"
        );
    }
}

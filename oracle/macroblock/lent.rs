//! The areas that events are lent, and the originals' events laid out in them.

use crate::ask::Areas;
use crate::guard::{held, Lent};
use crate::random::Random;
use crate::texture::AcEvent;

/// Events in areas of 64 a block, the rest 0, and the count of each block.
#[derive(Clone, Debug, Default, PartialEq)]
pub struct Laid {
    pub lasts: Vec<u8>,
    pub runs: Vec<u8>,
    pub levels: Vec<i32>,
    pub counts: Vec<u8>,
}

impl Laid {
    pub fn out(blocks: &[Vec<AcEvent>]) -> Laid {
        let n = 64 * blocks.len();
        let counts = blocks.iter().map(|events| events.len() as u8).collect();
        let mut laid = Laid { lasts: vec![0; n], runs: vec![0; n], levels: vec![0; n], counts };
        for (b, events) in blocks.iter().enumerate() {
            for (i, event) in events.iter().enumerate() {
                laid.lasts[64 * b + i] = event.last as u8;
                laid.runs[64 * b + i] = event.run as u8;
                laid.levels[64 * b + i] = event.level;
            }
        }
        laid
    }
}

/// Guarded areas for marks, runs, levels and counts.
pub struct EventsLent {
    pub lasts: Lent<u8>,
    pub runs: Lent<u8>,
    pub levels: Lent<i32>,
    pub counts: Lent<u8>,
}

impl EventsLent {
    /// Areas of these lengths, and so many counts.
    pub fn new(lens: [usize; 3], counts: usize, random: &mut Random) -> Self {
        EventsLent {
            lasts: Lent::new(lens[0], random.byte()),
            runs: Lent::new(lens[1], random.byte()),
            levels: Lent::new(lens[2], random.byte()),
            counts: Lent::new(counts, random.byte()),
        }
    }

    /// The areas, and the counts beside them.
    pub fn areas(&mut self) -> (Areas<'_>, &mut [u8]) {
        let EventsLent { lasts, runs, levels, counts } = self;
        let areas = Areas { lasts: lasts.area(), runs: runs.area(), levels: levels.area() };
        (areas, counts.area())
    }

    /// Holds all four to the reply: 0 with what is wanted, or a refusal with nothing written.
    pub fn held(&self, got: u8, reply: u8, wanted: &Laid) -> Result<(), String> {
        named("marks", held(&self.lasts, got, reply, &wanted.lasts))?;
        named("runs", held(&self.runs, got, reply, &wanted.runs))?;
        named("levels", held(&self.levels, got, reply, &wanted.levels))?;
        named("counts", held(&self.counts, got, reply, &wanted.counts))
    }
}

/// The text of a difference, with where it is.
pub fn named(area: &str, found: Result<(), String>) -> Result<(), String> {
    found.map_err(|text| format!("{area}: {text}"))
}

/// Numbers in lines of so many.
pub fn lines<T: ToString>(title: &str, numbers: &[T], width: usize) -> String {
    let mut text = format!("{title}, {} long:\n", numbers.len());
    for row in numbers.chunks(width.max(1)) {
        let words: Vec<String> = row.iter().map(T::to_string).collect();
        text += &format!("  {}\n", words.join(" "));
    }
    text
}

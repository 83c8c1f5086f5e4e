//! One call: its entry's name and its arguments by the header's names, and how it stands in the
//! file.

use super::answer::{answer, Areas};
use super::header::{Entry, Kind};
use super::reasons::reasons;
use std::collections::BTreeMap;

#[derive(Clone, Debug)]
pub struct Call {
    pub entry: &'static str,
    pub numbers: BTreeMap<&'static str, i128>,
    /// What is read.
    pub areas: BTreeMap<&'static str, Vec<i128>>,
    /// The lengths of what is lent with a length.
    pub lens: BTreeMap<&'static str, usize>,
}

impl Call {
    pub fn of(entry: &'static str) -> Call {
        let (numbers, areas, lens) = (BTreeMap::new(), BTreeMap::new(), BTreeMap::new());
        Call { entry, numbers, areas, lens }
    }

    pub fn set(mut self, name: &'static str, number: impl Into<i128>) -> Call {
        self.numbers.insert(name, number.into());
        self
    }

    /// Sizes, which have no conversion of their own.
    pub fn size(self, name: &'static str, number: usize) -> Call {
        self.set(name, number as u64)
    }

    pub fn reads<T: Copy + Into<i128>>(mut self, name: &'static str, area: &[T]) -> Call {
        self.areas.insert(name, area.iter().map(|&x| x.into()).collect());
        self
    }

    pub fn lent(mut self, name: &'static str, len: usize) -> Call {
        self.lens.insert(name, len);
        self
    }

    pub fn has(&self, name: &str) -> bool {
        self.numbers.contains_key(name)
    }

    pub fn number(&self, name: &str) -> i128 {
        *self.numbers.get(name).unwrap_or_else(|| panic!("{} has no {name}", self.entry))
    }

    pub fn area(&self, name: &str) -> &[i128] {
        self.areas.get(name).unwrap_or_else(|| panic!("{} has no {name}", self.entry))
    }

    pub fn bytes(&self, name: &str) -> Vec<u8> {
        self.area(name).iter().map(|&x| x as u8).collect()
    }

    pub fn words(&self, name: &str) -> Vec<i32> {
        self.area(name).iter().map(|&x| x as i32).collect()
    }

    pub fn run(&self) -> [u64; 5] {
        std::array::from_fn(|i| self.area("run")[i] as u64)
    }

    /// The call as docs/STORED.md lays it out, with its reply and what it leaves in lent areas.
    pub fn write(&self, entry: &Entry, out: &mut Vec<u8>) {
        let reply = reasons(self).first().copied().unwrap_or(0);
        let told = if reply == 0 { answer(self) } else { Areas::new() };
        let mut laid = Laid::default();
        let mut named = 0;
        for p in &entry.parameters {
            let name = p.name.as_str();
            named += usize::from(!matches!(p.kind, Kind::LentFixed(_)));
            let after = told.get(name).map(Vec::as_slice);
            match p.kind {
                Kind::Number => laid.slots.push(Slot::Number(self.number(name))),
                Kind::Read | Kind::ReadFixed => laid.read(self.area(name), p.size),
                Kind::Lent => laid.lent(self.lens[name], after, p.size),
                Kind::LentFixed(n) => laid.lent(n, after, p.size),
                Kind::Changed => {
                    laid.read(self.area(name), p.size);
                    laid.lent(self.area(name).len(), after, p.size);
                }
            }
        }
        assert_eq!(named, self.numbers.len() + self.areas.len() + self.lens.len(), "{self:?}");
        laid.write(entry.number, reply, out);
    }
}

/// A number, or an area: where it stands among those that are read or among the answers, and how
/// many elements it has.
enum Slot {
    Number(i128),
    Read(usize, usize),
    Lent(usize, usize),
}

/// The parts of a call: its slots, the elements of what is read, and the answers.
#[derive(Default)]
struct Laid {
    slots: Vec<Slot>,
    areas: Vec<u8>,
    answers: Vec<u8>,
}

impl Laid {
    fn read(&mut self, area: &[i128], size: usize) {
        self.slots.push(Slot::Read(self.areas.len(), area.len()));
        area.iter().for_each(|&x| put(x, size, &mut self.areas));
    }

    fn lent(&mut self, len: usize, after: Option<&[i128]>, size: usize) {
        self.slots.push(Slot::Lent(self.answers.len(), len));
        if let Some(area) = after {
            assert_eq!(area.len(), len, "an answer's length");
            area.iter().for_each(|&x| put(x, size, &mut self.answers));
        }
    }

    /// The length of what follows, the entry's number, the reply, where the answers begin, the
    /// slots, what is read, the answers.
    fn write(&self, entry: u8, reply: u8, out: &mut Vec<u8>) {
        let eights = |slot: &Slot| if matches!(slot, Slot::Number(_)) { 1 } else { 2 };
        let areas = 6 + 8 * self.slots.iter().map(eights).sum::<usize>();
        let answers = areas + self.areas.len();
        put((answers + self.answers.len()) as i128, 4, out);
        out.extend([entry, reply]);
        put(answers as i128, 4, out);
        for slot in &self.slots {
            let area = match *slot {
                Slot::Number(number) => [Some(number), None],
                Slot::Read(at, len) => [Some((areas + at) as i128), Some(len as i128)],
                Slot::Lent(at, len) => [Some((answers + at) as i128), Some(len as i128)],
            };
            area.into_iter().flatten().for_each(|number| put(number, 8, out));
        }
        out.extend(&self.areas);
        out.extend(&self.answers);
    }
}

/// High byte first, two's complement; the number has to fit.
fn put(number: i128, size: usize, out: &mut Vec<u8>) {
    let bits = 8 * size as u32;
    assert!((-(1i128 << (bits - 1))..1i128 << bits).contains(&number), "{number} in {size} bytes");
    out.extend(&number.to_be_bytes()[16 - size..]);
}

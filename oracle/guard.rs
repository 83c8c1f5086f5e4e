//! An output area lent to the library, between two guards. All of it starts as a pattern, so that
//! an entry written where none may be, or left where one must be, is seen.

use std::fmt::Display;

/// As long as the longest answer, so that one written to too short an area is still caught.
const GUARD: usize = 384;

/// What an area holds: its pattern at a place.
pub trait Pattern: Copy + PartialEq {
    /// `salt` varies the pattern from call to call: an entry that happens to be written with the
    /// pattern's value in one call is not in the next.
    fn at(index: usize, salt: u8) -> Self;
}

impl Pattern for u8 {
    fn at(index: usize, salt: u8) -> u8 {
        (index as u8).wrapping_mul(37) ^ salt
    }
}

impl Pattern for i32 {
    /// Far from every coefficient and level, which stay within -2,048..2,047.
    fn at(index: usize, salt: u8) -> i32 {
        0x4000_0000 | (index as i32) << 8 | i32::from(salt)
    }
}

impl Pattern for u32 {
    /// Far from every sum, which is at most 255 times 256.
    fn at(index: usize, salt: u8) -> u32 {
        0x8000_0000 | (index as u32) << 8 | u32::from(salt)
    }
}

impl Pattern for u64 {
    /// Far from every side, count and total of a picture.
    fn at(index: usize, salt: u8) -> u64 {
        0x8000_0000_0000_0000 | (index as u64) << 8 | u64::from(salt)
    }
}

pub struct Lent<T> {
    entries: Vec<T>,
    salt: u8,
}

impl<T: Pattern> Lent<T> {
    /// An area of `len` entries.
    pub fn new(len: usize, salt: u8) -> Self {
        let entries = (0..len + 2 * GUARD).map(|i| T::at(i, salt)).collect();
        Lent { entries, salt }
    }

    /// An area that holds these entries.
    pub fn holding(entries: &[T], salt: u8) -> Self {
        let mut lent = Lent::new(entries.len(), salt);
        lent.area().copy_from_slice(entries);
        lent
    }

    /// What is lent.
    pub fn area(&mut self) -> &mut [T] {
        let end = self.entries.len() - GUARD;
        &mut self.entries[GUARD..end]
    }

    /// What the area holds now.
    pub fn contents(&self) -> &[T] {
        &self.entries[GUARD..self.entries.len() - GUARD]
    }

    /// Nothing was written outside the area.
    pub fn guards_hold(&self) -> bool {
        let end = self.entries.len() - GUARD;
        self.holds(0..GUARD) && self.holds(end..self.entries.len())
    }

    /// Nothing was written at all.
    pub fn untouched(&self) -> bool {
        self.holds(0..self.entries.len())
    }

    fn holds(&self, mut places: std::ops::Range<usize>) -> bool {
        places.all(|i| self.entries[i] == T::at(i, self.salt))
    }
}

/// Holds a call that fills one area to its reply: 0 with `wanted` in the area, or a refusal with
/// nothing written. The error is the text of the difference.
pub fn held<T: Pattern + Display>(
    lent: &Lent<T>,
    got: u8,
    reply: u8,
    wanted: &[T],
) -> Result<(), String> {
    if got != reply {
        return Err(format!("reply {got}, wanted {reply}"));
    }
    if reply != 0 {
        let text = format!("refused with {got}, and the area was written");
        return if lent.untouched() { Ok(()) } else { Err(text) };
    }
    if !lent.guards_hold() {
        return Err("written outside the output area".to_string());
    }
    match lent.contents().iter().zip(wanted).position(|(g, w)| g != w) {
        None => Ok(()),
        Some(at) => Err(format!("entry {at} is {}, wanted {}", lent.contents()[at], wanted[at])),
    }
}

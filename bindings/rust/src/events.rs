//! Scans, and the events of scanned levels.

use crate::refusal::{done, never_refused};
use crate::{raw, Refusal};

/// Areas lent for events: 64 entries for a block, six times as many for a macroblock, whose block b
/// has entries 64 b to 64 b + 63. After a block's events its entries are 0.
///
/// Refused: 12 where a length is another.
#[derive(Debug)]
pub struct Areas<'a> {
    /// 1 for a block's last event, 0 for any other.
    pub lasts: &'a mut [u8],
    /// How many zeros stand before each event's level.
    pub runs: &'a mut [u8],
    /// Non-zero levels.
    pub levels: &'a mut [i32],
}

/// Room for events: `Events<64>` for a block, `Events<384>` for a macroblock.
///
/// ```
/// let mut room = hencouch::Events::<64>::new();
/// assert_eq!(room.areas().runs.len(), 64);
/// ```
#[derive(Clone, Debug, PartialEq, Eq)]
pub struct Events<const ENTRIES: usize> {
    /// As [`Areas`] has them.
    pub lasts: [u8; ENTRIES],
    /// As [`Areas`] has them.
    pub runs: [u8; ENTRIES],
    /// As [`Areas`] has them.
    pub levels: [i32; ENTRIES],
}

impl<const ENTRIES: usize> Events<ENTRIES> {
    /// No event.
    pub const fn new() -> Self {
        Events { lasts: [0; ENTRIES], runs: [0; ENTRIES], levels: [0; ENTRIES] }
    }

    /// The three areas, to be lent to a call.
    pub fn areas(&mut self) -> Areas<'_> {
        Areas { lasts: &mut self.lasts, runs: &mut self.runs, levels: &mut self.levels }
    }
}

impl<const ENTRIES: usize> Default for Events<ENTRIES> {
    fn default() -> Self {
        Self::new()
    }
}

/// Puts 64 levels, eight to a row, into scan order.
///
/// Refused: 12 where a length is not 64, 13 where a level is outside -2,047 to 2,047, 14 where the
/// scan is not 0 to 2.
///
/// ```
/// use hencouch::{forward_scan, inverse_scan, Refusal, ZIGZAG};
///
/// let levels: [i32; 64] = std::array::from_fn(|k| k as i32);
/// let (mut scanned, mut back) = ([0; 64], [0; 64]);
/// forward_scan(&levels, ZIGZAG, &mut scanned)?;
/// assert_eq!(scanned[..6], [0, 1, 8, 16, 9, 2]);
/// inverse_scan(&scanned, ZIGZAG, &mut back)?;
/// assert_eq!(back, levels);
///
/// assert_eq!(forward_scan(&levels, 3, &mut scanned), Err(Refusal::Choice));
/// # Ok::<(), Refusal>(())
/// ```
pub fn forward_scan(levels: &[i32], scan: u32, out: &mut [i32]) -> Result<(), Refusal> {
    done(raw::forward_scan(levels, scan, out))
}

/// Puts 64 levels in scan order back into rows of eight.
///
/// Refused: as [`forward_scan`].
///
/// ```
/// use hencouch::{inverse_scan, Refusal, ALTERNATE_VERTICAL};
///
/// let scanned: [i32; 64] = std::array::from_fn(|k| k as i32);
/// let mut levels = [0; 64];
/// inverse_scan(&scanned, ALTERNATE_VERTICAL, &mut levels)?;
/// assert_eq!((levels[0], levels[8], levels[16]), (0, 1, 2));
///
/// assert_eq!(inverse_scan(&[0; 63], ALTERNATE_VERTICAL, &mut levels), Err(Refusal::Length));
/// # Ok::<(), Refusal>(())
/// ```
pub fn inverse_scan(levels: &[i32], scan: u32, out: &mut [i32]) -> Result<(), Refusal> {
    done(raw::inverse_scan(levels, scan, out))
}

/// The events of 64 levels in scan order, and how many there are. The areas are 64 long.
///
/// Refused: 12 where a length is not 64, 13 where a level is outside -2,047 to 2,047.
///
/// ```
/// use hencouch::{levels_to_events, Events, Refusal};
///
/// let mut levels = [0; 64];
/// (levels[0], levels[4]) = (3, -1);
/// let mut events = Events::<64>::new();
/// assert_eq!(levels_to_events(&levels, events.areas())?, 2);
/// assert_eq!((events.lasts[0], events.runs[0], events.levels[0]), (0, 0, 3));
/// assert_eq!((events.lasts[1], events.runs[1], events.levels[1]), (1, 3, -1));
///
/// assert_eq!(levels_to_events(&[2048; 64], events.areas()), Err(Refusal::Range));
/// # Ok::<(), Refusal>(())
/// ```
pub fn levels_to_events(levels: &[i32], areas: Areas) -> Result<u8, Refusal> {
    let mut count = 0;
    done(raw::levels_to_events(levels, areas.lasts, areas.runs, areas.levels, &mut count))?;
    Ok(count)
}

/// The scan of inter blocks: [`crate::ALTERNATE_VERTICAL`] where `interlaced` and `alternate_scan`
/// are both set, else [`crate::ZIGZAG`]. Never refused.
///
/// ```
/// use hencouch::{inter_scan, ALTERNATE_VERTICAL, ZIGZAG};
///
/// assert_eq!(inter_scan(true, true), ALTERNATE_VERTICAL);
/// assert_eq!(inter_scan(false, true), ZIGZAG);
/// ```
pub fn inter_scan(interlaced: bool, alternate_scan: bool) -> u32 {
    let mut scan = 0;
    never_refused(raw::inter_scan(interlaced.into(), alternate_scan.into(), &mut scan));
    scan
}

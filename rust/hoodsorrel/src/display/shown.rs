//! Submeshes shown and hidden.

use crate::answer::{low, told, words};
use crate::raw;
use crate::refusal::Refusal;
use std::fmt;

/// The submeshes that are shown, by the numbers of their records, in the order they were shown, and the total of their
/// points. A record is five words of a drawing's records, and the first one has number 0; words after the last five are
/// none.
///
/// A call judges the whole list against the records before it changes it, so a list may come from anywhere. What a call
/// leaves of a list that it takes, the next one takes too, over the same records. Over others a list that does not fit
/// them is refused with 19, by both calls: begin again with [`Shown::none`]. One that fits is taken.
///
/// ```
/// use hoodsorrel::Refusal;
/// use hoodsorrel::display::Shown;
///
/// // Two submeshes, of 30 points and of 12.
/// let records = [0, 7, 1, 0, 30, 0, 7, 2, 30, 12];
/// let mut shown = Shown::none();
/// shown.show(1, &records)?;
/// shown.show(0, &records)?;
/// assert_eq!((shown.numbers(), shown.total), (&[1, 0][..], 42));
/// assert_eq!(shown.show(1, &records), Err(Refusal::ListOrNumber));
/// shown.hide(1, &records)?;
/// assert_eq!((shown.numbers(), shown.total), (&[0][..], 30));
/// assert_eq!(shown.hide(1, &records), Err(Refusal::NotShown));
/// # Ok::<(), Refusal>(())
/// ```
#[derive(Clone)]
pub struct Shown {
    /// The numbers stand at the front. What stands behind them is not looked at, and stays.
    pub entries: [u32; Shown::MOST],
    /// How many of the entries are numbers that are shown.
    pub count: u32,
    /// The points of all that are shown.
    pub total: u64,
}

impl Shown {
    /// So many are shown at most.
    pub const MOST: usize = 64;

    /// No number is shown.
    pub fn none() -> Shown {
        let mut entries = [0; Shown::MOST];
        let [count, total, ..] = told(|words| raw::none_shown(&mut entries, words));
        Shown {
            entries,
            count: low(count),
            total,
        }
    }

    /// The numbers that are shown, in the order they were shown.
    pub fn numbers(&self) -> &[u32] {
        let count = self.entries.len().min(self.count as usize);
        &self.entries[..count]
    }

    /// Puts a record's number at the end. Refused with 19, then 21; a refusal changes nothing.
    pub fn show(&mut self, number: u32, records: &[u32]) -> Result<(), Refusal> {
        self.handed_in(|list, count, total, words| {
            raw::show(list, count, total, number, records, words)
        })
    }

    /// Takes a record's number out, the rest closing up. Refused with 19, then 20; a refusal changes nothing.
    pub fn hide(&mut self, number: u32, records: &[u32]) -> Result<(), Refusal> {
        self.handed_in(|list, count, total, words| {
            raw::hide(list, count, total, number, records, words)
        })
    }

    /// Hands the list to a call, and takes the count and the total that it has then.
    fn handed_in(
        &mut self,
        call: impl FnOnce(&mut [u32], u32, u64, &mut [u64]) -> i64,
    ) -> Result<(), Refusal> {
        let Shown { count, total, .. } = *self;
        let [count, total, ..] = words(|words| call(&mut self.entries, count, total, words))?;
        self.count = low(count);
        self.total = total;
        Ok(())
    }
}

/// Two lists are equal that show the same numbers in the same order, with the same total. What stands behind the
/// numbers does not count.
impl PartialEq for Shown {
    fn eq(&self, other: &Shown) -> bool {
        self.numbers() == other.numbers() && self.count == other.count && self.total == other.total
    }
}

impl Eq for Shown {}

impl fmt::Debug for Shown {
    fn fmt(&self, f: &mut fmt::Formatter<'_>) -> fmt::Result {
        f.debug_struct("Shown")
            .field("numbers", &self.numbers())
            .field("count", &self.count)
            .field("total", &self.total)
            .finish()
    }
}

impl Default for Shown {
    fn default() -> Shown {
        Shown::none()
    }
}

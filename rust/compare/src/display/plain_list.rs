//! Document 02's slip 10, word by word: a plain list of shown record numbers, its two rules and their refusals. It
//! keeps no total.

use crate::refusals::{LIST_FULL, LIST_OR_NUMBER, NOT_SHOWN};

/// So many are shown at most.
pub const MOST: usize = 64;

#[derive(Clone, Copy, Debug)]
pub enum Request {
    Show(u32),
    Hide(u32),
}

/// The point count of each record: a record is five whole words, and words after the last five are none.
fn counts(words: &[u32]) -> Vec<u64> {
    let (records, _) = words.as_chunks::<5>();
    records.iter().map(|record| u64::from(record[4])).collect()
}

pub fn is_record(words: &[u32], number: u32) -> bool {
    (number as usize) < counts(words).len()
}

/// The points of numbers, each a record's, worked out afresh.
pub fn total(words: &[u32], numbers: &[u32]) -> u64 {
    let counts = counts(words);
    numbers.iter().map(|&n| counts[n as usize]).sum()
}

/// The list after a request, or the request's refusal.
pub fn after(words: &[u32], list: &[u32], request: Request) -> Result<Vec<u32>, i64> {
    let (Request::Show(number) | Request::Hide(number)) = request;
    if !is_record(words, number) {
        return Err(LIST_OR_NUMBER);
    }
    let place = list.iter().position(|shown| *shown == number);
    let mut list = list.to_vec();
    match (request, place) {
        (Request::Show(_), Some(_)) => return Err(LIST_OR_NUMBER),
        (Request::Show(_), None) if list.len() == MOST => return Err(LIST_FULL),
        (Request::Show(_), None) => list.push(number),
        (Request::Hide(_), None) => return Err(NOT_SHOWN),
        (Request::Hide(_), Some(place)) => drop(list.remove(place)),
    }
    Ok(list)
}

/// A list with its total as it is handed in: entries, of which so many are shown.
#[derive(Clone, Debug)]
pub struct Handed {
    pub entries: Vec<u32>,
    pub count: u32,
    pub total: u64,
}

impl Handed {
    /// What is shown of it, or nothing where document 02 has 19 for it.
    pub fn usable(&self, words: &[u32]) -> Option<&[u32]> {
        let count = self.count as usize;
        if count > MOST {
            return None;
        }
        let list = &self.entries[..count];
        let once = (0..count).all(|i| !list[..i].contains(&list[i]));
        let known = list.iter().all(|&number| is_record(words, number));
        (once && known && total(words, list) == self.total).then_some(list)
    }

    /// The list after a request to it, whatever it is, or the refusal.
    pub fn after(&self, words: &[u32], request: Request) -> Result<Vec<u32>, i64> {
        after(words, self.usable(words).ok_or(LIST_OR_NUMBER)?, request)
    }

    /// A list put at its front, with what stood behind it, and with the list's total.
    pub fn holding(&self, words: &[u32], list: &[u32]) -> Handed {
        let mut entries = self.entries.clone();
        entries[..list.len()].copy_from_slice(list);
        Handed {
            entries,
            count: list.len() as u32,
            total: total(words, list),
        }
    }
}

#[cfg(test)]
mod tests {
    use super::*;

    #[test]
    fn the_order_of_the_refusals() {
        let words = [0, 0, 0, 0, 2].repeat(65);
        let all: Vec<u32> = (0..64).collect();
        assert_eq!(after(&words, &all, Request::Show(64)), Err(21));
        assert_eq!(after(&words, &all, Request::Show(63)), Err(19));
        assert_eq!(after(&words, &all, Request::Show(65)), Err(19));
        assert_eq!(after(&words, &all, Request::Hide(64)), Err(20));
        assert_eq!(after(&words, &all, Request::Hide(65)), Err(19));
    }

    #[test]
    fn the_rest_closes_up() {
        let words = [0; 25];
        let hidden = after(&words, &[4, 0, 2], Request::Hide(0));
        assert_eq!(hidden, Ok(vec![4, 2]));
        assert_eq!(after(&words, &[4, 2], Request::Show(0)), Ok(vec![4, 2, 0]));
    }
}

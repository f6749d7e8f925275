//! Document 02's slip 1, word by word: the triangles of records.

/// The most that a first point plus its count, or all counts, may come to.
const MOST: u64 = 4_294_967_295;

/// Mode, first point and point count of each record; or nothing where document 02 has 15.
fn usable(words: &[u32]) -> Option<Vec<[u32; 3]>> {
    let (records, rest) = words.as_chunks::<5>();
    let records: Vec<[u32; 3]> = records
        .iter()
        .map(|&[_, _, mode, first, count]| [mode, first, count])
        .collect();
    let sum = |numbers: &[u32]| numbers.iter().copied().map(u64::from).sum::<u64>();
    let counts: Vec<u32> = records.iter().map(|[_, _, count]| *count).collect();
    let good = rest.is_empty()
        && records.iter().all(|[mode, ..]| *mode <= 2)
        && records.iter().all(|[_, points @ ..]| sum(points) <= MOST)
        && sum(&counts) <= MOST;
    good.then_some(records)
}

/// Points of triangle k, before the record's first point is added.
fn corners(mode: u32, k: u32) -> [u32; 3] {
    match mode {
        0 => [3 * k, 3 * k + 1, 3 * k + 2],
        1 if k.is_multiple_of(2) => [k, k + 1, k + 2],
        1 => [k + 1, k, k + 2],
        _ => [0, k + 1, k + 2],
    }
}

fn triangle_count(mode: u32, points: u32) -> u32 {
    match mode {
        0 => points / 3,
        // One for each k from 0 to the point count less 3.
        _ if points < 3 => 0,
        _ => points - 3 + 1,
    }
}

/// How many numbers there are, which may be more than memory holds.
pub fn length(words: &[u32]) -> Option<usize> {
    let triangles = |&[mode, _, count]: &[u32; 3]| triangle_count(mode, count) as usize;
    Some(3 * usable(words)?.iter().map(triangles).sum::<usize>())
}

pub fn triangles(words: &[u32]) -> Option<Vec<u32>> {
    let mut numbers = Vec::new();
    for [mode, first, count] in usable(words)? {
        for k in 0..triangle_count(mode, count) {
            numbers.extend(corners(mode, k).map(|point| first + point));
        }
    }
    Some(numbers)
}

#[cfg(test)]
mod tests {
    use super::*;

    #[test]
    fn the_paper_s_modes() {
        let made = |mode| triangles(&[0, 0, mode, 10, 5]);
        assert_eq!(made(0), Some(vec![10, 11, 12]));
        assert_eq!(made(1), Some(vec![10, 11, 12, 12, 11, 13, 12, 13, 14]));
        assert_eq!(made(2), Some(vec![10, 11, 12, 10, 12, 13, 10, 13, 14]));
        assert_eq!(made(3), None);
    }

    #[test]
    fn the_largest_numbers() {
        assert_eq!(length(&[0, 0, 1, 0, u32::MAX]), Some(3 * 4_294_967_293));
        assert_eq!(length(&[0, 0, 1, 1, u32::MAX]), None);
        assert_eq!(length(&[0, 0, 0, u32::MAX, 0]), Some(0));
    }
}

//! The calls on the records of a drawing.

use crate::answers::line::{lent, List, MOST_LISTED};
use crate::answers::one_of;
use crate::display::model;
use crate::display::records::{at_limits, good, many_points, spoil, FAULTS};
use crate::display::triangles::answer;
use crate::inputs::random::Random;

/// Random records without a fault, and of those at the limits every so manieth.
const RANDOM: usize = 40;
const STEP: usize = 7;

pub fn add(list: &mut List, random: &mut Random) {
    let mut all = vec![Vec::new()];
    all.extend(at_limits().into_iter().step_by(STEP));
    all.extend(many_points(random).into_iter().step_by(2));
    all.extend((0..RANDOM).map(|_| good(random, 6).concat()));
    for first in FAULTS {
        for second in FAULTS {
            let mut words = good(random, 3).concat();
            spoil(random, &mut words, first);
            spoil(random, &mut words, second);
            all.push(words);
        }
    }
    for words in all {
        let needed = model::length(&words).filter(|n| *n <= MOST_LISTED);
        let n = one_of(
            random,
            &[needed.unwrap_or(0), needed.unwrap_or(0) + 3, 0, 5],
        );
        triangles(list, &words, n.min(MOST_LISTED));
    }
}

fn triangles(list: &mut List, words: &[u32], n: usize) {
    let (answer, numbers) = answer(words, n);
    let data: Vec<u8> = words.iter().flat_map(|word| word.to_be_bytes()).collect();
    let after = lent(n, &numbers);
    let args = [words.len() as u64, n as u64];
    list.buffers("triangles", &args, &data, &answer, &[&after]);
}

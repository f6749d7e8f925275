//! The points of each texture of a mesh list.

use crate::answers::line::{lent, List};
use crate::answers::lists::{damages, faults_of_m1, longs, thirds, wholes, STEP};
use crate::answers::one_of;
use crate::inputs::random::Random;
use crate::mesh::payloads;
use crate::mesh::textures::{all_textures, answer, due, few_textures};

/// Random lists in which textures occur again.
const RANDOM: usize = 30;
/// The longest list: one with every texture once.
const LONG: usize = 2048;
/// As many words as all textures take.
const MOST: usize = 512;

pub fn add(list: &mut List, random: &mut Random) {
    let mut all = wholes(random);
    all.extend(
        all_textures(random)
            .into_iter()
            .filter(|list| list.len() <= LONG),
    );
    all.extend((0..RANDOM).map(|_| again(random)));
    all.extend(thirds(random));
    all.extend(longs().into_iter().step_by(STEP));
    all.extend(faults_of_m1().into_iter().step_by(STEP));
    all.extend(damages(random).into_iter().step_by(STEP));
    for payload in all {
        let due = due(&payload);
        let needed = due.as_ref().map_or(6, Vec::len);
        let n = one_of(random, &[needed, needed + 3, needed.saturating_sub(1), 0]);
        textures(list, &payload, n.min(MOST));
    }
}

fn again(random: &mut Random) -> Vec<u8> {
    let mut list = payloads::List::random(random);
    few_textures(random, &mut list);
    list.spelled().bytes
}

fn textures(list: &mut List, payload: &[u8], n: usize) {
    let due = due(payload);
    let (answer, words) = answer(&due, n);
    let after = lent(n, words);
    list.buffers("texture_points", &[n as u64], payload, &answer, &[&after]);
}

//! A frame's points shared out.

use crate::answers::line::{lent, List};
use crate::answers::one_of;
use crate::display::shares::{answer, MOST_WINDOWS, RANGE};
use crate::inputs::random::Random;

const RANDOM: usize = 60;

pub fn add(list: &mut List, random: &mut Random) {
    for (points, wishes) in limits() {
        let n = wishes.len();
        for length in [n.saturating_sub(1), n, n + 2] {
            share(list, points, &wishes, length);
        }
    }
    for _ in 0..RANDOM {
        let wishes = (0..1 + random.below(MOST_WINDOWS)).map(|_| random.below(30) as u32);
        let wishes: Vec<u32> = wishes.collect();
        let points = random.below(120) as u32;
        let n = wishes.len();
        let length = one_of(random, &[n, n + 2, n.saturating_sub(1), 0]);
        share(list, points, &wishes, length);
    }
}

/// Points and wishes at the limits and beyond them.
fn limits() -> Vec<(u32, Vec<u32>)> {
    let most = RANGE - 1;
    vec![
        (5, vec![]),
        (5, vec![9; MOST_WINDOWS]),
        (5, vec![9; MOST_WINDOWS + 1]),
        (most, vec![most; MOST_WINDOWS]),
        (RANGE, vec![1]),
        (u32::MAX, vec![1]),
        (1, vec![0, RANGE]),
        (1, vec![u32::MAX, 0]),
        (0, vec![3, 4]),
        (7, vec![0, 0]),
        (RANGE, vec![RANGE; MOST_WINDOWS + 1]),
    ]
}

fn share(list: &mut List, points: u32, wishes: &[u32], n: usize) {
    let (answer, shares) = answer(points, wishes, n);
    let data: Vec<u8> = wishes.iter().flat_map(|word| word.to_be_bytes()).collect();
    let after = lent(n, &shares);
    let args = [u64::from(points), wishes.len() as u64, n as u64];
    list.buffers("share_points", &args, &data, &answer, &[&after]);
}

//! A frame's points shared out among windows, against the turns of document 02.

use crate::inputs::random::Random;
use crate::lent::answer::Answer;
use crate::lent::fill::{before, check_exactly, lengths};
use crate::options::Options;
use crate::refusals::SHARES;
use crate::tally::Tally;

const NAME: &str = "shares";
/// Points and wishes are below this.
pub const RANGE: u32 = 1_000_000;
pub const MOST_WINDOWS: usize = 8;
/// All cases: so many points at most, shared out among so many windows at most with wishes of so much at most.
const POINTS: u32 = 40;
const WINDOWS: usize = 4;
const WISH: u32 = 12;
const RANDOM: usize = 20_000;
/// Random cases of up to a million points, of which the turns are many.
const LARGE: usize = 300;
/// With `--long` there are so many times as many random ones.
const LONGER: usize = 10;

pub fn run(options: &Options) -> Vec<Tally> {
    let times = if options.long { LONGER } else { 1 };
    let random = &mut Random::new(options.seed, NAME);
    vec![
        every_small_case(options),
        random_cases(options, random, times),
        limits(options, random),
    ]
}

/// The shares, one point at a time: a turn goes through the windows in their order and gives a point to each whose wish
/// is unmet, until the points end or a turn finds no such wish. None where document 02 has 26.
pub fn by_turns(points: u32, wishes: &[u32]) -> Option<Vec<u32>> {
    let in_range = |number: &u32| *number < RANGE;
    if wishes.is_empty()
        || wishes.len() > MOST_WINDOWS
        || !in_range(&points)
        || !wishes.iter().all(in_range)
    {
        return None;
    }
    let mut shares = vec![0; wishes.len()];
    let mut left = points;
    loop {
        let before = left;
        for (share, wish) in shares.iter_mut().zip(wishes) {
            if left > 0 && *share < *wish {
                *share += 1;
                left -= 1;
            }
        }
        if left == 0 || left == before {
            return Some(shares);
        }
    }
}

/// The answer with a buffer of so many items, and what the buffer begins with afterwards.
pub fn answer(points: u32, wishes: &[u32], lent: usize) -> (Answer, Vec<u32>) {
    match by_turns(points, wishes) {
        None => (Answer::refused(SHARES), Vec::new()),
        Some(shares) if lent < shares.len() => (Answer::needs(shares.len()), Vec::new()),
        Some(shares) => (Answer::place(shares.len()), shares),
    }
}

fn on(tally: &mut Tally, points: u32, wishes: &[u32], lent: usize) {
    let (due, shares) = answer(points, wishes, lent);
    let mut after = before(lent);
    after[..shares.len()].copy_from_slice(&shares);
    check_exactly(
        tally,
        &due,
        &after,
        |out, words| hoodsorrel::raw::share_points(points, wishes, out, words),
        || (points, wishes.to_vec(), lent),
    );
}

/// With no buffer, with one item less than needed, exactly so many, and more.
fn each_length(tally: &mut Tally, points: u32, wishes: &[u32]) {
    for lent in lengths(wishes.len()) {
        on(tally, points, wishes, lent);
    }
}

fn every_small_case(options: &Options) -> Tally {
    let what = "against literal turns: up to 40 points, every list of up to 4 wishes of up to 12";
    let mut tally = Tally::new(options, "shares", what);
    for windows in 0..=WINDOWS {
        let mut wishes = vec![0; windows];
        loop {
            for points in 0..=POINTS {
                on(&mut tally, points, &wishes, windows);
            }
            if !next(&mut wishes) {
                break;
            }
        }
    }
    tally
}

/// The next list of small wishes, or not where this is the last.
fn next(wishes: &mut [u32]) -> bool {
    for wish in wishes {
        if *wish < WISH {
            *wish += 1;
            return true;
        }
        *wish = 0;
    }
    false
}

/// A number below a limit, small ones as likely as large ones.
fn any_size(random: &mut Random, limit: u32) -> u32 {
    let bits = random.below(2 + (limit - 1).ilog2() as usize);
    random.below((1 << bits).min(limit as usize)) as u32
}

fn random_cases(options: &Options, random: &mut Random, times: usize) -> Tally {
    let what =
        "against literal turns: random points and wishes below a million, one to eight windows";
    let mut tally = Tally::new(options, "shares at random", what);
    for (cases, limit) in [(RANDOM, 5000), (LARGE, RANGE)] {
        for _ in 0..cases * times {
            let windows = 1 + random.below(MOST_WINDOWS);
            let wishes: Vec<u32> = (0..windows).map(|_| any_size(random, limit)).collect();
            let together = wishes.iter().sum::<u32>().min(RANGE - 1);
            let other = any_size(random, limit);
            let points = random.pick(&[other, together, together.saturating_sub(1)]);
            each_length(&mut tally, points, &wishes);
        }
    }
    tally
}

/// Every limit and one beyond it, in every window, and two faults at once.
fn limits(options: &Options, random: &mut Random) -> Tally {
    let what = "no window, eight, nine; points and each wish at the limit and beyond; two faults, and short buffers";
    let mut tally = Tally::new(options, "shares at the limits", what);
    let numbers = [0, 1, 2, RANGE - 2, RANGE - 1, RANGE, RANGE + 1, u32::MAX];
    for windows in 0..=MOST_WINDOWS + 2 {
        let few: Vec<u32> = (0..windows).map(|_| random.below(50) as u32).collect();
        for points in numbers {
            each_length(&mut tally, points, &few);
            for window in 0..windows {
                for wish in numbers {
                    let mut wishes = few.clone();
                    wishes[window] = wish;
                    each_length(&mut tally, points, &wishes);
                }
            }
            for wish in numbers {
                each_length(&mut tally, points, &vec![wish; windows]);
            }
        }
    }
    tally
}

#[cfg(test)]
mod tests {
    use super::by_turns;

    #[test]
    fn the_turns_go_in_order_and_pass_over_met_wishes() {
        assert_eq!(by_turns(8, &[3, 9, 1]), Some(vec![3, 4, 1]));
        assert_eq!(by_turns(2, &[3, 0, 9, 1]), Some(vec![1, 0, 1, 0]));
        assert_eq!(by_turns(100, &[3, 9, 1]), Some(vec![3, 9, 1]));
        assert_eq!(by_turns(0, &[5]), Some(vec![0]));
    }

    #[test]
    fn what_is_out_of_range_is_refused() {
        assert_eq!(by_turns(1, &[]), None);
        assert_eq!(by_turns(1, &[0; 9]), None);
        assert_eq!(by_turns(1_000_000, &[1]), None);
        assert_eq!(by_turns(1, &[1, 1_000_000]), None);
    }
}

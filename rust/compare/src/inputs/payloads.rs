//! Payloads that the readers of kinds 0 and 1 take, and what is shown of any.

use crate::inputs::random::Random;
use crate::lent::answer::Answer;
use crate::refusals::TOO_LONG;
use crate::tally::Tally;

/// No payload that is longer is read.
pub const LONGEST: usize = 67_108_864;
const VERSIONS: [u8; 3] = [0, 1, 255];
/// The longest of the short payloads.
const SHORT: usize = 40;
const MOST_SHOWN: usize = 256;

/// So many of the payloads are tried at their longest.
const LONG: usize = 8;

/// Each payload at all short lengths, and the first of them at their longest.
pub fn lengths<P: AsRef<[u8]>>(
    random: &mut Random,
    beyond: &mut Tally,
    payloads: &[P],
    mut check: impl FnMut(&[u8]),
    ours: impl Fn(&[u8], &mut [u64]) -> i64,
) {
    for payload in payloads {
        cuts(random, payload.as_ref(), &mut check);
    }
    longest(beyond, &payloads[..LONG], check, ours);
}

/// All lengths of 0 to 40 bytes in each version: what a payload begins with, then random bytes.
/// So are the three free bytes behind the version.
pub fn cuts(random: &mut Random, payload: &[u8], mut each: impl FnMut(&[u8])) {
    let mut bytes = payload.to_vec();
    bytes.extend(random.bytes(SHORT - payload.len()));
    random.fill(&mut bytes[1..4]);
    for version in VERSIONS {
        bytes[0] = version;
        for n in 0..=SHORT {
            each(&bytes[..n]);
        }
    }
}

/// A copy with a bit turned over, a byte replaced, its end cut off, or bytes added.
pub fn damaged(random: &mut Random, payload: &[u8]) -> Vec<u8> {
    let mut bytes = payload.to_vec();
    for _ in 0..1 + random.below(3) {
        if bytes.is_empty() {
            break;
        }
        let place = random.below(bytes.len());
        match random.below(4) {
            0 => bytes[place] ^= 1 << random.below(8),
            1 => bytes[place] = random.word() as u8,
            2 => bytes.truncate(place),
            _ => bytes.insert(place, random.word() as u8),
        }
    }
    bytes
}

/// Each payload with zeros behind it up to the longest that is read, and with one byte more.
fn longest<P: AsRef<[u8]>>(
    beyond: &mut Tally,
    payloads: &[P],
    mut check: impl FnMut(&[u8]),
    ours: impl Fn(&[u8], &mut [u64]) -> i64,
) {
    let mut bytes = vec![0; LONGEST + 1];
    for payload in payloads.iter().map(P::as_ref) {
        bytes[..payload.len()].copy_from_slice(payload);
        check(&bytes[..LONGEST]);
        let due = Answer::refused(TOO_LONG);
        beyond.call(&due, |words| ours(&bytes, words), || shown(&bytes));
    }
}

/// What of a payload is shown beside a difference: its length and its first bytes.
pub fn shown(payload: &[u8]) -> (usize, Vec<u8>) {
    let n = payload.len().min(MOST_SHOWN);
    (payload.len(), payload[..n].to_vec())
}

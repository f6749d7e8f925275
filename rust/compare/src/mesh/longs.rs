//! Boxes with a long size: at each of its limits, and cut anywhere, for a mesh and for a box that is skipped, in every
//! place of a list. What a list is refused with is known without a look at its bytes.

use std::iter;

use spell::{header, long_header, Mesh, Size, MESH};

use crate::mesh::payloads::{lone_of, BOTH_SIZES};
use crate::refusals::{BAD_SIZE, SHORT, THIRD_MESH};

const SHORT_HEADER: usize = Size::Short.header();
const LONG_HEADER: usize = Size::Long.header();
/// Zeros behind the last box: none, as many as are free, and enough for the header of a box whose size is 0.
const BEHIND: [usize; 4] = [0, 7, 8, 17];
/// The body of a box that is skipped: enough zeros for several headers.
const ZEROS: [u8; 21] = [0; 21];

/// Lists that end with a box that has a long size, each with its refusal, if it has one.
pub fn every_long(mesh: &Mesh, mut each: impl FnMut(&[u8], Option<i64>)) {
    let mesh = Mesh {
        rest: Vec::new(),
        ..mesh.clone()
    };
    let body = spell::body(&mesh).bytes;
    for (before, meshes) in every_before(&mesh) {
        for (box_type, body) in [(MESH, &body[..]), (*b"free", &ZEROS)] {
            let last = Last {
                before: &before,
                box_type,
                third: box_type == MESH && meshes == 2,
                body,
            };
            BEHIND.iter().for_each(|n| last.every_size(*n, &mut each));
            last.every_cut_header(&mut each);
            last.every_cut_body(&mut each);
            last.every_short_size(&mut each);
        }
    }
}

/// No mesh, one and two, with and without boxes that are skipped around them, of both sizes; and how many meshes.
fn every_before(mesh: &Mesh) -> Vec<(Vec<u8>, usize)> {
    let skipped = BOTH_SIZES.map(|size| [header(*b"free", 3, size), vec![0xFF; 3]].concat());
    let [short, long] = skipped;
    let mut all = Vec::new();
    for skipped in [Vec::new(), short, long] {
        all.push((skipped.clone(), 0));
        for size in BOTH_SIZES {
            let boxes = [&lone_of(mesh, size)[..], &skipped].concat();
            all.push(([&skipped[..], &boxes].concat(), 1));
            all.push(([&skipped[..], &boxes, &boxes].concat(), 2));
        }
    }
    all
}

/// The last box of a list.
struct Last<'a> {
    before: &'a [u8],
    box_type: [u8; 4],
    /// Whether it is a third mesh.
    third: bool,
    /// A mesh's without a fault, all bytes of it needed, or zeros.
    body: &'a [u8],
}

impl Last<'_> {
    /// What is due where the box has this refusal, if it has one: a third mesh is refused at its type.
    fn due(&self, refusal: Option<i64>) -> Option<i64> {
        if self.third {
            Some(THIRD_MESH)
        } else {
            refusal
        }
    }

    /// The long size that is right.
    fn right(&self) -> usize {
        LONG_HEADER + self.body.len()
    }

    fn with_size(&self, size: u64) -> Vec<u8> {
        [self.before, &long_header(self.box_type, size), self.body].concat()
    }

    /// With so many zeros behind it, every long size around each limit.
    fn every_size(&self, behind: usize, mut each: impl FnMut(&[u8], Option<i64>)) {
        let (right, left) = (self.right(), self.right() + behind);
        let sizes = (0..=LONG_HEADER + 2)
            .chain(right - 2..=right + 2)
            .chain(left - 9..=left + 2)
            .map(|size| size as u64);
        for size in sizes.chain(bad_sizes(self.before.len(), right, left)) {
            let list = [&self.with_size(size)[..], &vec![0; behind]].concat();
            each(&list, self.due(self.refusal_of(size, left as u64)));
        }
    }

    /// The refusal of a list in which this is the long size, with so many bytes from the box's start on. Where the box
    /// is good, zeros follow: up to seven are free, and more of them are a box of size 0.
    fn refusal_of(&self, size: u64, left: u64) -> Option<i64> {
        if size < LONG_HEADER as u64 || size > left {
            Some(BAD_SIZE)
        } else if self.box_type == MESH && size < self.right() as u64 {
            Some(SHORT)
        } else {
            (left - size >= SHORT_HEADER as u64).then_some(BAD_SIZE)
        }
    }

    /// Cut in the header, or behind it: fewer than 8 bytes are free, and below 16 the long size is not complete,
    /// whatever there is of it.
    fn every_cut_header(&self, mut each: impl FnMut(&[u8], Option<i64>)) {
        let right = self.right() as u64;
        for size in [0, 1, 15, 16, 17, right, 1 << 32, u64::MAX] {
            let list = self.with_size(size);
            for n in 0..=LONG_HEADER {
                let refusal = match n {
                    0..SHORT_HEADER => None,
                    SHORT_HEADER..LONG_HEADER => self.due(Some(SHORT)),
                    _ => self.due(self.refusal_of(size, LONG_HEADER as u64)),
                };
                each(&list[..self.before.len() + n], refusal);
            }
        }
    }

    /// Cut in the body, behind which the right size reaches.
    fn every_cut_body(&self, mut each: impl FnMut(&[u8], Option<i64>)) {
        let list = self.with_size(self.right() as u64);
        for n in self.before.len() + LONG_HEADER..list.len() {
            each(&list[..n], self.due(Some(BAD_SIZE)));
        }
    }

    /// With a size of 4 bytes that is bad, in place of 1. It comes before the type. The Rust is asked too where all
    /// boxes before have short sizes.
    fn every_short_size(&self, mut each: impl FnMut(&[u8], Option<i64>)) {
        let mut list = self.with_size(self.right() as u64);
        let past = self.right() as u32 + 1;
        for size in iter::once(0)
            .chain(2..8)
            .chain([past, 0x8000_0001, u32::MAX])
        {
            list[self.before.len()..][..4].copy_from_slice(&size.to_be_bytes());
            each(&list, Some(BAD_SIZE));
        }
    }
}

/// Long sizes that are bad for a box at a place that has this size and so many bytes from its start on: below 16, past
/// the end, right in fewer bits, and such that the end of the box wraps.
pub fn bad_sizes(at: usize, right: usize, left: usize) -> [u64; 20] {
    let [at, right, left] = [at, right, left].map(|n| n as u64);
    let high = 1 << 32;
    [
        0,
        1,
        7,
        8,
        15,
        left + 1,
        high - 1,
        high,
        high + 16,
        high + right,
        high + left,
        (high << 8) + right,
        1 << 63,
        (1 << 63) + right,
        u64::MAX - 16,
        u64::MAX - at,
        // to the start of the list, into it, and to the byte before the box
        at.wrapping_neg(),
        at.wrapping_neg() | 7,
        u64::MAX - 7,
        u64::MAX,
    ]
}

//! Lists with a third mesh: its box is refused at its type, behind its size and before its long size and its body,
//! whatever follows.

use spell::{header, overwrite, Mesh, Part, Size, Spelled, MESH};

use crate::mesh::damage::{every_bit, every_byte, every_stray};
use crate::mesh::model::HEADER;
use crate::mesh::payloads::{lone, lone_of, BOTH_SIZES};
use crate::mesh::words::every_body;
use crate::refusals::{BAD_SIZE, SHORT, THIRD_MESH};

/// Where a box that is skipped can stand among three meshes: before, twice between and behind them.
const GAPS: u32 = 4;
/// Skipped boxes around each mesh: none, few and many.
pub const SKIPPED: [usize; 4] = [0, 1, 2, 1000];

/// Lists of three meshes with every fault around the third, each with its refusal, if it has one.
pub fn every_third(mesh: &Mesh, bad: u32, mut each: impl FnMut(&[u8], Option<i64>)) {
    for gaps in 0..1 << GAPS {
        for size in BOTH_SIZES {
            let three = Three::new(mesh, gaps, size);
            three.every_size(&mut each);
            three.every_type(&mut each);
            three.every_cut(&mut each);
        }
    }
    every_third_body(mesh, bad, |payload| each(payload, Some(THIRD_MESH)));
}

/// A list of three meshes.
struct Three {
    bytes: Vec<u8>,
    /// All boxes have this one.
    size: Size,
    /// Where the meshes begin.
    meshes: Vec<usize>,
    /// Where any box begins.
    boxes: Vec<usize>,
}

impl Three {
    /// The mesh three times, and the same body in boxes that are skipped, one for each gap whose bit is set.
    fn new(mesh: &Mesh, gaps: u32, size: Size) -> Three {
        let skipped = Part::Other(*b"free", spell::body(mesh).bytes);
        let mut spelled = Spelled::default();
        let mut meshes = Vec::new();
        for gap in 0..GAPS {
            if gaps >> gap & 1 == 1 {
                spelled.push(&skipped, size);
            }
            if gap + 1 < GAPS {
                meshes.push(spelled.bytes.len());
                spelled.push(&Part::Mesh(mesh.clone()), size);
            }
        }
        Three {
            bytes: spelled.bytes,
            size,
            meshes,
            boxes: spelled.sizes.iter().map(|place| place / 8).collect(),
        }
    }

    /// The third mesh with every size up to one past the end. One that is not below 8 and has its bytes is good,
    /// whatever body it gives, and so is 1, whatever long size it gives.
    fn every_size(&self, mut each: impl FnMut(&[u8], Option<i64>)) {
        let place = self.meshes[2];
        let left = self.bytes.len() - place;
        let mut bytes = self.bytes.clone();
        for size in (0..=left + 1).chain([0x8000_0008, 0xFFFF_FFFF]) {
            overwrite(&mut bytes, 8 * place, size as u32);
            let good = size == 1 || (HEADER..=left).contains(&size);
            each(&bytes, Some(if good { THIRD_MESH } else { BAD_SIZE }));
        }
    }

    /// Each mesh in turn with each bit of its type turned over. It is skipped, and two are left.
    fn every_type(&self, mut each: impl FnMut(&[u8], Option<i64>)) {
        for place in &self.meshes {
            let mut bytes = self.bytes.clone();
            every_bit(&MESH, |other| {
                bytes[place + 4..place + HEADER].copy_from_slice(other);
                each(&bytes, None);
            });
        }
    }

    /// Cut anywhere: where the third mesh is known as one it does not matter.
    fn every_cut(&self, mut each: impl FnMut(&[u8], Option<i64>)) {
        for n in 0..=self.bytes.len() {
            let third = n >= self.third_known();
            let refusal = if third { Some(THIRD_MESH) } else { self.cut(n) };
            each(&self.bytes[..n], refusal);
        }
    }

    /// A short size that reaches past the end comes before the type, so that the box must be whole.
    fn third_known(&self) -> usize {
        let third = self.meshes[2];
        if self.size == Size::Long {
            return third + HEADER;
        }
        let mut behind = self.boxes.iter().filter(|start| **start > third);
        behind.next().copied().unwrap_or(self.bytes.len())
    }

    /// What the box is refused with in which the list is cut: its size reaches past the end, or is a long one and not
    /// complete, unless the bytes before that are cut, which ends the list.
    fn cut(&self, n: usize) -> Option<i64> {
        let start = self.boxes.iter().rev().find(|start| **start <= n)?;
        let complete = n - start >= self.size.header();
        match n - start {
            0..HEADER => None,
            _ if complete => Some(BAD_SIZE),
            _ => Some(SHORT),
        }
    }
}

/// Two meshes and a third with every damage of its body, of both sizes.
fn every_third_body(mesh: &Mesh, bad: u32, mut each: impl FnMut(&[u8])) {
    let two = lone(mesh).repeat(2);
    let mut third = |body: &[u8]| {
        for size in BOTH_SIZES {
            each(&[&two, &header(MESH, body.len(), size), body].concat());
        }
    };
    every_byte(&spell::body(mesh), &mut third);
    every_stray(mesh, |mesh| third(&spell::body(mesh).bytes));
    every_body(mesh, bad, |body, _| third(body));
}

/// No mesh and up to five, with so many skipped boxes around each, of both sizes. Each list comes with its refusal, if
/// it has one.
pub fn every_number(mesh: &Mesh, skipped: &[usize], mut each: impl FnMut(&[u8], Option<i64>)) {
    for size in BOTH_SIZES {
        let mesh = lone_of(mesh, size);
        let empty = header(*b"free", 0, size);
        for &boxes in skipped {
            let skipped = empty.repeat(boxes);
            for meshes in 0..=5 {
                let behind = [&mesh[..], &skipped].concat().repeat(meshes);
                let list = [&skipped[..], &behind].concat();
                each(&list, (meshes > 2).then_some(THIRD_MESH));
            }
        }
    }
}

//! Document 02's slip 12, word by word: many points of a submesh, and where its fields stand by document 01.

use spell::{field_width, FIELDS, MESH};

use crate::mesh::model::{parse_meshes, Mesh, Submesh, HEADER};
use crate::refusals::QUESTION;

/// So many points are asked at most.
pub const MOST_ASKED: usize = 256;
/// Bits before a mesh's vertices but for its pool: two counts. Bits of a submesh count, and of a submesh's head.
const COUNTS: usize = 64;
const COUNT: usize = 32;
const HEAD: usize = 48;

/// How many fields are walked, and the vertex numbers.
pub type Due = Result<(usize, Vec<u16>), i64>;

/// The submesh of a record, counted from 0 through all meshes.
pub fn submesh(meshes: &[Mesh], number: u32) -> Option<&Submesh> {
    let mut submeshes = meshes.iter().flat_map(|mesh| &mesh.submeshes);
    submeshes.nth(usize::try_from(number).ok()?)
}

fn asked_of(submesh: &Submesh, asked: &[u32]) -> Option<(usize, Vec<u16>)> {
    if asked.len() > MOST_ASKED {
        return None;
    }
    let at = |k: &u32| submesh.points.get(usize::try_from(*k).ok()?).copied();
    let vertices = asked.iter().map(at).collect::<Option<Vec<u16>>>()?;
    let largest = asked.iter().max();
    let walked = largest.map_or(0, |largest| *largest as usize + 1);
    Some((walked, vertices))
}

/// The payload's own refusals, then 24.
pub fn due(payload: &[u8], number: u32, asked: &[u32]) -> Due {
    let meshes = parse_meshes(payload).reading?;
    let submesh = submesh(&meshes, number).ok_or(QUESTION)?;
    asked_of(submesh, asked).ok_or(QUESTION)
}

/// Where the mesh bodies of a payload without a fault begin and end.
fn bodies(payload: &[u8]) -> Vec<[usize; 2]> {
    let number = |at: usize, n: usize| {
        payload[at..at + n]
            .iter()
            .fold(0, |all, byte| all << 8 | usize::from(*byte))
    };
    let (mut bodies, mut at) = (Vec::new(), 0);
    while at + HEADER <= payload.len() {
        let (begin, size) = match number(at, 4) {
            1 => (at + 2 * HEADER, number(at + HEADER, 8)),
            size => (at + HEADER, size),
        };
        if payload[at + 4..at + HEADER] == MESH {
            bodies.push([begin, at + size]);
        }
        at += size;
    }
    bodies
}

/// The bit of the first field of a mesh's submesh.
fn first_field(mesh: &Mesh, number: usize) -> usize {
    let width = |n: usize| field_width(n) as usize;
    let (pool, vertices) = (mesh.pool.len(), mesh.coordinates.len() / FIELDS);
    let end = COUNTS + 32 * pool + FIELDS * vertices * width(pool);
    let before = &mesh.submeshes[..number];
    let bits = before
        .iter()
        .map(|x| HEAD + x.points.len() * width(vertices));
    end.next_multiple_of(8) + COUNT + bits.sum::<usize>() + HEAD
}

/// Where a mesh's body begins and ends, the bit of the first field in it, its vertices, and the submesh's points.
pub fn place(payload: &[u8], number: u32) -> Result<[u64; 5], i64> {
    let meshes = parse_meshes(payload).reading?;
    let mut left = usize::try_from(number).map_err(|_| QUESTION)?;
    for (mesh, [begin, end]) in meshes.iter().zip(bodies(payload)) {
        if let Some(submesh) = mesh.submeshes.get(left) {
            let vertices = mesh.coordinates.len() / FIELDS;
            let bit = first_field(mesh, left);
            return Ok([begin, end, bit, vertices, submesh.points.len()].map(|n| n as u64));
        }
        left -= mesh.submeshes.len();
    }
    Err(QUESTION)
}

#[cfg(test)]
mod tests {
    use super::{due, place, MOST_ASKED};
    use crate::mesh::payloads::{lone, m1, TURNED};
    use crate::refusals::QUESTION;

    #[test]
    fn m1_by_hand() {
        let payload = lone(&m1());
        assert_eq!(due(&payload, 0, &[2, 0, 2]), Ok((3, vec![2, 0, 2])));
        assert_eq!(due(&payload, 0, &[]), Ok((0, vec![])));
        assert_eq!(due(&payload, 1, &[]), Err(QUESTION));
        assert_eq!(due(&payload, 0, &[3]), Err(QUESTION));
        assert_eq!(due(&payload, 0, &[0; MOST_ASKED + 1]), Err(QUESTION));
        assert_eq!(
            due(&payload, 0, &[0; MOST_ASKED]),
            Ok((1, vec![0; MOST_ASKED]))
        );
        assert_eq!(place(&payload, 0), Ok([8, 40, 240, 3, 3]));
    }

    #[test]
    fn vertex_numbers_by_hand() {
        assert_eq!(due(&TURNED, 0, &[2, 0, 0]), Ok((3, vec![1, 2, 2])));
        assert_eq!(due(&TURNED, 0, &[1]), Ok((2, vec![0])));
        assert_eq!(due(&TURNED, 0, &[3, 1]), Ok((4, vec![1, 0])));
        assert_eq!(due(&TURNED, 0, &[4]), Err(QUESTION));
        assert_eq!(place(&TURNED, 0), Ok([8, 34, 192, 3, 4]));
    }
}

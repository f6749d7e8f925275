//! What the library reads of a payload, and its drawing. The library is called in this file alone.

use hoodsorrel::display;
use hoodsorrel::payload::texture_points;
pub use hoodsorrel::Given;
use hoodsorrel::{Drawing, Named, Needed, Refusal};

/// Top, bottom, left, right.
pub type Crop = [f32; 4];

pub enum Reading {
    Crop(Crop),
    /// In pixels.
    Padding(u32),
    Meshes(Counts),
}

pub struct Counts {
    pub meshes: u64,
    pub submeshes: u64,
    pub points: u64,
}

/// What was read, and its drawing.
pub struct Scene {
    pub reading: Reading,
    pub numbers: Vec<u16>,
    pub floats: Vec<f32>,
    pub records: Vec<u32>,
    /// Of a mesh list, each texture with its points.
    pub textures: Vec<u32>,
}

pub fn scene(kind: u32, payload: &[u8], given: Given) -> Result<Scene, String> {
    let drawing = Drawing::of(kind, payload, &given).map_err(why)?;
    let textures = match drawing.named {
        Named::Meshes(_) => textures(payload).map_err(why)?,
        _ => Vec::new(),
    };
    Ok(Scene {
        reading: Reading::of(drawing.named),
        numbers: drawing.numbers,
        floats: drawing.floats,
        records: drawing.records,
        textures,
    })
}

/// Each texture and its points, two words: a texture is a byte, so that there are 256 at most.
fn textures(payload: &[u8]) -> Result<Vec<u32>, Refusal> {
    let mut words = vec![0; 512];
    let count = texture_points(payload, &mut words)?;
    words.truncate(2 * count);
    Ok(words)
}

/// The points of a record's triangles, three by three, counted through the whole drawing; or nothing where its mode is
/// none that the library takes apart.
pub fn triangles(record: &[u32]) -> Option<Vec<u32>> {
    let length = match display::triangles(record, &mut []) {
        Err(Refusal::BufferTooShort(Needed::One(length))) => length,
        answer => return answer.ok().map(|_| Vec::new()),
    };
    let mut points = vec![0; length];
    display::triangles(record, &mut points).ok()?;
    Some(points)
}

/// A drawing's buffers are as long as it needs, so that 12 says that memory does not hold them.
fn why(refusal: Refusal) -> String {
    match refusal {
        Refusal::BufferTooShort(needed) => {
            format!("preview: no memory for the drawing: {needed:?}")
        }
        _ => refusal.to_string(),
    }
}

impl Reading {
    /// How many bytes of a payload of this length are not read: kinds 0 and 1 read the first 20 and 12, and those after
    /// them are free. A mesh list's boxes go on to its end.
    pub fn unread(&self, length: usize) -> u64 {
        let read = match self {
            Reading::Crop(_) => 20,
            Reading::Padding(_) => 12,
            Reading::Meshes(_) => length,
        };
        length.saturating_sub(read) as u64
    }

    fn of(named: Named) -> Reading {
        match named {
            Named::Crop(b) => Reading::Crop([b.top, b.bottom, b.left, b.right]),
            Named::Padding(padding) => Reading::Padding(padding),
            Named::Meshes(counts) => Reading::Meshes(Counts {
                meshes: counts.meshes as u64,
                submeshes: counts.submeshes as u64,
                points: counts.points as u64,
            }),
        }
    }
}

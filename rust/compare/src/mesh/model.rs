//! The reading of kind 2 in documents 01 and 02, bit by bit, with the number of the refusal.

use spell::{field_width, FIELDS, MESH};

use crate::inputs::payloads::LONGEST;
use crate::refusals::{BAD_COUNT, BAD_SIZE, BAD_WORD, SHORT, STRAY, THIRD_MESH, TOO_LONG};

pub const MOST_COORDINATES: u32 = 10_000;
pub const MOST_VERTICES: u32 = 32_000;
pub const MOST_POINTS: u32 = 128_000;
/// A box's size and type, and a long size behind them.
pub const HEADER: usize = 8;
const LONG_HEADER: usize = 16;
/// The size of a box whose true one is the long size.
const LONG: u64 = 1;

pub struct Submesh {
    pub texture: u32,
    pub mode: u32,
    pub points: Vec<u16>,
}

pub struct Mesh {
    pub pool: Vec<u32>,
    pub coordinates: Vec<u16>,
    pub submeshes: Vec<Submesh>,
}

/// One mesh for both eyes, or one for each.
const MOST_MESHES: usize = 2;
/// The Rust reserves memory for its submeshes first, and is not asked to read more than these.
pub const MOST_SUBMESHES: u32 = 65_536;

/// What a reader has to answer, and what it met.
pub struct Model<T> {
    pub reading: Result<T, i64>,
    met: Met,
}

/// What was met of that which the Rust is not asked about.
#[derive(Default)]
struct Met {
    most_submeshes: u32,
    long_size: bool,
}

impl<T> Model<T> {
    fn read(bytes: &[u8], read: impl FnOnce(&mut Met) -> Result<T, i64>) -> Model<T> {
        let mut met = Met::default();
        let reading = if bytes.len() > LONGEST {
            Err(TOO_LONG)
        } else {
            read(&mut met)
        };
        Model { reading, met }
    }

    /// Whether the Rust is not asked to read these bytes: it knows no longest payload and no long sizes, and takes
    /// words that are not finite and any number of meshes.
    pub fn beyond_rust(&self, bytes: &[u8]) -> bool {
        self.met.most_submeshes > MOST_SUBMESHES
            || self.met.long_size
            || bytes.len() > LONGEST
            || matches!(self.reading, Err(BAD_WORD | THIRD_MESH))
    }
}

pub fn parse_mesh(body: &[u8]) -> Model<Mesh> {
    Model::read(body, |met| read_mesh(body, met))
}

pub fn parse_meshes(payload: &[u8]) -> Model<Vec<Mesh>> {
    Model::read(payload, |met| read_list(payload, met))
}

/// Whether a pool's word is a number: neither an infinity nor a NaN.
pub fn finite(word: u32) -> bool {
    f32::from_bits(word).is_finite()
}

/// The five pool words of each point.
pub fn followed<'a>(
    pool: &'a [u32],
    coordinates: &'a [u16],
    points: &'a [u16],
) -> impl Iterator<Item = u32> + 'a {
    points.iter().flat_map(move |&point| {
        let vertex = FIELDS * usize::from(point);
        let numbers = &coordinates[vertex..vertex + FIELDS];
        numbers.iter().map(move |&number| pool[usize::from(number)])
    })
}

fn read_list(mut payload: &[u8], met: &mut Met) -> Result<Vec<Mesh>, i64> {
    let mut meshes = Vec::new();
    while payload.len() >= HEADER {
        let short = number(&payload[..4]);
        if short != LONG {
            judge(short, HEADER, payload)?;
        }
        let is_mesh = payload[4..HEADER] == MESH;
        if is_mesh && meshes.len() == MOST_MESHES {
            return Err(THIRD_MESH);
        }
        let (header, size) = if short == LONG {
            met.long_size = true;
            (LONG_HEADER, long_size(payload)?)
        } else {
            (HEADER, short)
        };
        let (whole, behind) = payload.split_at(size as usize);
        if is_mesh {
            meshes.push(read_mesh(&whole[header..], met)?);
        }
        payload = behind;
    }
    Ok(meshes)
}

/// The size behind the type of the box that a payload begins with.
fn long_size(payload: &[u8]) -> Result<u64, i64> {
    let bytes = payload.get(HEADER..LONG_HEADER).ok_or(SHORT)?;
    let size = number(bytes);
    judge(size, LONG_HEADER, payload)?;
    Ok(size)
}

/// A size counts the header, and the box ends in the payload.
fn judge(size: u64, header: usize, payload: &[u8]) -> Result<(), i64> {
    if size < header as u64 || size > payload.len() as u64 {
        return Err(BAD_SIZE);
    }
    Ok(())
}

/// The number that up to eight bytes are.
fn number(bytes: &[u8]) -> u64 {
    bytes.iter().fold(0, |n, byte| n << 8 | u64::from(*byte))
}

fn read_mesh(body: &[u8], met: &mut Met) -> Result<Mesh, i64> {
    let mut bits = Bits { body, place: 0 };
    let n = bits.count(MOST_COORDINATES)?;
    let mut pool = Vec::new();
    for _ in 0..n {
        pool.push(bits.finite_word()?);
    }
    let m = bits.count(MOST_VERTICES)?;
    let mut coordinates = Vec::new();
    let mut last = [0; FIELDS];
    for _ in 0..m {
        for number in &mut last {
            *number = bits.next_number(*number, n)?;
            coordinates.push(*number);
        }
    }
    bits.align();
    let submesh_count = bits.count(u32::MAX)?;
    met.most_submeshes = submesh_count.max(met.most_submeshes);
    let mut submeshes = Vec::new();
    for _ in 0..submesh_count {
        submeshes.push(read_submesh(&mut bits, m)?);
    }
    Ok(Mesh {
        pool,
        coordinates,
        submeshes,
    })
}

fn read_submesh(bits: &mut Bits, vertices: u32) -> Result<Submesh, i64> {
    let texture = bits.field(8)?;
    let mode = bits.field(8)?;
    let count = bits.count(MOST_POINTS)?;
    let mut points = Vec::new();
    let mut last = 0;
    for _ in 0..count {
        last = bits.next_number(last, vertices)?;
        points.push(last);
    }
    Ok(Submesh {
        texture,
        mode,
        points,
    })
}

struct Bits<'a> {
    body: &'a [u8],
    place: usize,
}

impl Bits<'_> {
    fn field(&mut self, width: u32) -> Result<u32, i64> {
        let end = self.place + width as usize;
        if end > 8 * self.body.len() {
            return Err(SHORT);
        }
        let mut value = 0;
        for place in self.place..end {
            let bit = self.body[place / 8] >> (7 - place % 8) & 1;
            value = value << 1 | u32::from(bit);
        }
        self.place = end;
        Ok(value)
    }

    fn finite_word(&mut self) -> Result<u32, i64> {
        let word = self.field(32)?;
        if !finite(word) {
            return Err(BAD_WORD);
        }
        Ok(word)
    }

    fn count(&mut self, most: u32) -> Result<u32, i64> {
        let count = self.field(32)?;
        if count == 0 || count > most {
            return Err(BAD_COUNT);
        }
        Ok(count)
    }

    /// The running number after the next field. All limits are below 2^16.
    fn next_number(&mut self, last: u16, limit: u32) -> Result<u16, i64> {
        let field = i64::from(self.field(field_width(limit as usize))?);
        let step = if field % 2 == 0 {
            field / 2
        } else {
            -(field + 1) / 2
        };
        let number = i64::from(last) + step;
        if number < 0 || number >= i64::from(limit) {
            return Err(STRAY);
        }
        Ok(number as u16)
    }

    fn align(&mut self) {
        self.place = self.place.next_multiple_of(8);
    }
}

//! Kind 2: a list of mesh boxes, one for both eyes or one for each. Boxes of other types are skipped. Whether a box has
//! a short or a long size ([`box_header`](crate::bits::box_header)) makes no difference to what is read, but that
//! its 8 bytes more count towards the longest payload.

use crate::answer::{Words, asked, low, size, word, words};
use crate::bits::Run;
use crate::raw;
use crate::refusal::Refusal;
use crate::scene::Lengths;

/// The counts that name a mesh list.
#[derive(Clone, Copy, Debug, Default, PartialEq, Eq, Hash)]
pub struct Counts {
    /// Its meshes: two at most.
    pub meshes: usize,
    /// Their submeshes.
    pub submeshes: usize,
    /// Their points.
    pub points: usize,
}

impl Counts {
    pub(crate) fn from_words([meshes, submeshes, points]: [u64; 3]) -> Counts {
        Counts {
            meshes: size(meshes),
            submeshes: size(submeshes),
            points: size(points),
        }
    }
}

/// How much there is of a mesh list: its counts, and the lengths of its drawing's three lists.
#[derive(Clone, Copy, Debug, Default, PartialEq, Eq, Hash)]
pub struct MeshListSize {
    /// Its meshes, submeshes and points.
    pub counts: Counts,
    /// The lengths of its drawing.
    pub lengths: Lengths,
}

impl MeshListSize {
    fn from_words(words: Words) -> MeshListSize {
        let [meshes, submeshes, points, numbers, floats, records, ..] = words;
        MeshListSize {
            counts: Counts::from_words([meshes, submeshes, points]),
            lengths: Lengths::from_words([numbers, floats, records]),
        }
    }
}

/// A submesh as a drawing records it.
///
/// ```
/// use hoodsorrel::payload::Record;
///
/// let words = [0, 0, 0, 0, 6, 0, 1, 1, 6, 4];
/// let last = Record::all(&words).last();
/// assert_eq!(last, Some(Record { eye: 0, texture: 1, mode: 1, first: 6, points: 4 }));
/// ```
#[derive(Clone, Copy, Debug, Default, PartialEq, Eq, Hash)]
pub struct Record {
    /// Which eye it is for: 0 is both, where the list has one mesh; where it has two, 1 is the left one, in the first
    /// mesh, and 2 the right one, in the second. [`Eye`](crate::payload::Eye) counts otherwise.
    pub eye: u32,
    /// Which texture it samples: up to 255.
    pub texture: u32,
    /// How its points make triangles: up to 255, not judged here.
    pub mode: u32,
    /// Its first point, counted from 0 through the whole drawing.
    pub first: u32,
    /// How many points it has.
    pub points: u32,
}

impl Record {
    /// The records of a drawing, five words each.
    pub fn all(words: &[u32]) -> impl Iterator<Item = Record> {
        let (records, _) = words.as_chunks();
        records
            .iter()
            .map(|&[eye, texture, mode, first, points]| Record {
                eye,
                texture,
                mode,
                first,
                points,
            })
    }
}

/// Measures a mesh list.
///
/// Refused with 2, then 3, 6, 7, 8, 17 and 18 in payload order.
///
/// ```
/// use hoodsorrel::payload::{measure_meshes, Counts, MeshListSize};
/// use hoodsorrel::{Lengths, Refusal};
///
/// // The example of document 01: two coordinates, three vertices, one submesh of three points.
/// let payload = [
///     0, 0, 0, 0x28, b'm', b'e', b's', b'h', 0, 0, 0, 2, 0, 0, 0, 0, 0x3F, 0x80, 0, 0, 0, 0, 0, 3, 0x00, 0x20, 0x86,
///     0x18, 0, 0, 0, 1, 0, 0, 0, 0, 0, 3, 0x09, 0x00,
/// ];
/// assert_eq!(
///     measure_meshes(&payload),
///     Ok(MeshListSize {
///         counts: Counts { meshes: 1, submeshes: 1, points: 3 },
///         lengths: Lengths { numbers: 15, floats: 15, records: 5 },
///     })
/// );
/// assert_eq!(measure_meshes(&payload[..39]), Err(Refusal::BoxSize));
///
/// // The same with a long size, and cut in it.
/// let long = [&[0, 0, 0, 1][..], b"mesh", &[0, 0, 0, 0, 0, 0, 0, 0x30], &payload[8..]].concat();
/// assert_eq!(measure_meshes(&long), measure_meshes(&payload));
/// assert_eq!(measure_meshes(&long[..15]), Err(Refusal::TooFewBytes));
///
/// // One such mesh for each eye, and one too many.
/// assert_eq!(measure_meshes(&payload.repeat(2)).map(|size| size.counts.meshes), Ok(2));
/// assert_eq!(measure_meshes(&payload.repeat(3)), Err(Refusal::ThirdMesh));
/// ```
pub fn measure_meshes(payload: &[u8]) -> Result<MeshListSize, Refusal> {
    words(|words| raw::measure_meshes(payload, words)).map(MeshListSize::from_words)
}

/// Draws a mesh list into three lent buffers: the vertices' coordinate numbers, five floats for each point, and the
/// records.
///
/// Refused with 2, then 3, 6, 7, 8, 17 and 18 in payload order, then 12. Unless it is accepted the buffers stay as they
/// were. All floats are finite.
///
/// ```
/// use hoodsorrel::payload::{parse_meshes, Record};
/// use hoodsorrel::{Lengths, Needed, Refusal};
///
/// // One coordinate, 0.5; one vertex; one submesh of two points.
/// let payload = [
///     0, 0, 0, 0x20, b'm', b'e', b's', b'h', 0, 0, 0, 1, 0x3F, 0, 0, 0, 0, 0, 0, 1, 0x00, 0, 0, 0, 1, 7, 4, 0, 0, 0,
///     2, 0x00,
/// ];
/// let (mut numbers, mut floats, mut records) = ([9; 5], [9.0; 10], [9; 5]);
/// let lengths = Lengths { numbers: 5, floats: 10, records: 5 };
/// assert_eq!(
///     parse_meshes(&payload, &mut numbers, &mut floats[..9], &mut records),
///     Err(Refusal::BufferTooShort(Needed::Drawing(lengths)))
/// );
/// let size = parse_meshes(&payload, &mut numbers, &mut floats, &mut records)?;
/// assert_eq!(size.lengths, lengths);
/// assert_eq!((numbers, floats), ([0; 5], [0.5; 10]));
/// assert!(Record::all(&records).eq([Record { eye: 0, texture: 7, mode: 4, first: 0, points: 2 }]));
/// # Ok::<(), Refusal>(())
/// ```
pub fn parse_meshes(
    payload: &[u8],
    numbers: &mut [u16],
    floats: &mut [f32],
    records: &mut [u32],
) -> Result<MeshListSize, Refusal> {
    asked(Lengths::needed, |words| {
        raw::parse_meshes(payload, numbers, raw::bits_of(floats), records, words)
    })
    .map(|answer| MeshListSize::from_words(answer.words))
}

/// The records of a mesh list, without its points, and its counts.
///
/// Refused with 2, then 3, 6, 7, 8, 17 and 18 in payload order, then 12.
///
/// ```
/// use hoodsorrel::payload::{mesh_records, Counts};
/// use hoodsorrel::{Needed, Refusal};
///
/// assert_eq!(mesh_records(b"", &mut []), Ok(Counts::default()));
/// # let payload = [
/// #     0, 0, 0, 0x20, b'm', b'e', b's', b'h', 0, 0, 0, 1, 0x3F, 0, 0, 0, 0, 0, 0, 1, 0x00, 0, 0, 0, 1, 7, 4, 0, 0, 0,
/// #     2, 0x00,
/// # ];
/// // The payload of `parse_meshes`, above.
/// assert_eq!(mesh_records(&payload, &mut []), Err(Refusal::BufferTooShort(Needed::One(5))));
/// let mut records = [0; 5];
/// assert_eq!(mesh_records(&payload, &mut records), Ok(Counts { meshes: 1, submeshes: 1, points: 2 }));
/// assert_eq!(records, [0, 7, 4, 0, 2]);
///
/// // The same for each eye: the left one's, then the right one's.
/// let mut records = [0; 10];
/// assert_eq!(mesh_records(&payload.repeat(2), &mut records), Ok(Counts { meshes: 2, submeshes: 2, points: 4 }));
/// assert_eq!(records, [1, 7, 4, 0, 2, 2, 7, 4, 2, 2]);
/// assert_eq!(mesh_records(&payload.repeat(3), &mut []), Err(Refusal::ThirdMesh));
/// ```
pub fn mesh_records(payload: &[u8], records: &mut [u32]) -> Result<Counts, Refusal> {
    let [meshes, submeshes, points, ..] =
        words(|words| raw::mesh_records(payload, records, words))?;
    Ok(Counts::from_words([meshes, submeshes, points]))
}

/// A texture of a mesh list, and how much is drawn with it.
#[derive(Clone, Copy, Debug, PartialEq, Eq)]
pub struct TexturePoints {
    /// Which texture: up to 255.
    pub texture: u32,
    /// The points of its submeshes together.
    pub points: u32,
}

impl TexturePoints {
    /// The textures that [`texture_points`] stores, two words each.
    pub fn all(words: &[u32]) -> impl Iterator<Item = TexturePoints> {
        let (pairs, _) = words.as_chunks();
        pairs
            .iter()
            .map(|&[texture, points]| TexturePoints { texture, points })
    }
}

/// Puts each texture that occurs in a mesh list and the points of its submeshes together into a buffer, two words each,
/// in order of first appearance, and answers how many textures there are: at most 256, so 512 words are always enough.
///
/// Refused with 2, then 3, 6, 7, 8, 17 and 18 in payload order, then 12.
///
/// ```
/// use hoodsorrel::payload::{texture_points, TexturePoints};
/// use hoodsorrel::{Needed, Refusal};
///
/// // One coordinate and one vertex; three submeshes of 2, 3 and 1 points, with the textures 7, 5 and 7.
/// let payload = [
///     0, 0, 0, 0x2C, b'm', b'e', b's', b'h', 0, 0, 0, 1, 0x3F, 0, 0, 0, 0, 0, 0, 1, 0x00, 0, 0, 0, 3, 7, 0, 0, 0, 0,
///     2, 0x01, 0x40, 0, 0, 0, 0, 0xC0, 0x38, 0, 0, 0, 0, 0x08,
/// ];
/// assert_eq!(texture_points(&payload, &mut []), Err(Refusal::BufferTooShort(Needed::One(4))));
/// let mut words = [0; 4];
/// assert_eq!(texture_points(&payload, &mut words), Ok(2));
/// assert_eq!(words, [7, 3, 5, 3]);
/// assert_eq!(TexturePoints::all(&words).next(), Some(TexturePoints { texture: 7, points: 3 }));
/// ```
pub fn texture_points(payload: &[u8], out: &mut [u32]) -> Result<usize, Refusal> {
    word(|words| raw::texture_points(payload, out, words)).map(size)
}

/// Where the points of a submesh stand in a payload.
#[derive(Clone, Copy, Debug, PartialEq, Eq, Hash)]
pub struct PointFields {
    /// Where the body of its mesh begins.
    pub body: usize,
    /// Where that body ends.
    pub end: usize,
    /// The fields of its points, as a run of that body.
    pub run: Run,
}

/// Where the points of a submesh stand. Its number is that of its record, from 0.
///
/// Refused with 2, then 3, 6, 7, 8, 17 and 18 in payload order, then 24 where no submesh has that number.
///
/// ```
/// use hoodsorrel::bits::{check_run, Run};
/// use hoodsorrel::payload::{find_submesh, PointFields};
/// use hoodsorrel::Refusal;
///
/// // The example of document 01: two coordinates, three vertices, one submesh of three points.
/// let payload = [
///     0, 0, 0, 0x28, b'm', b'e', b's', b'h', 0, 0, 0, 2, 0, 0, 0, 0, 0x3F, 0x80, 0, 0, 0, 0, 0, 3, 0x00, 0x20, 0x86,
///     0x18, 0, 0, 0, 1, 0, 0, 0, 0, 0, 3, 0x09, 0x00,
/// ];
/// let run = Run { bit: 240, limit: 3, count: 3 };
/// assert_eq!(find_submesh(&payload, 0), Ok(PointFields { body: 8, end: 40, run }));
/// assert_eq!(check_run(&payload[8..40], run), Ok(()));
/// assert_eq!(find_submesh(&payload, 1), Err(Refusal::Question));
/// ```
pub fn find_submesh(payload: &[u8], record: u32) -> Result<PointFields, Refusal> {
    let [body, end, bit, limit, count, ..] =
        words(|words| raw::find_submesh(payload, record, words))?;
    Ok(PointFields {
        body: size(body),
        end: size(end),
        run: Run {
            bit: size(bit),
            limit: limit as u16,
            count: low(count),
        },
    })
}

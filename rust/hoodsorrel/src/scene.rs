//! The scene call: a payload of any kind becomes its drawing in three buffers.
//!
//! [`Drawing::of`] makes the buffers; [`scene`] is lent them and allocates nothing.
//!
//! | kind | numbers | floats | records |
//! |---|---|---|---|
//! | [`EQUI`] | the triangles of the covered patch, as vertex numbers | u and v of each vertex | none |
//! | [`CBMP`] | the triangles of the six faces, as vertex numbers | x, y, z, u and v of each vertex | none |
//! | [`MESHES`] | five coordinate numbers for each vertex | x, y, z, u and v of each point | five words per submesh |

use crate::answer::{Answer, asked, low, size};
use crate::memory;
use crate::payload::{Bounds, Counts, Record};
use crate::raw;
use crate::refusal::{Needed, Refusal};

/// The kind of an equi payload, a crop of the sphere.
pub const EQUI: u32 = 0;

/// The kind of a cbmp payload, a cube map.
pub const CBMP: u32 = 1;

/// The kind of a list of boxes with meshes in it.
pub const MESHES: u32 = 2;

/// The numbers of a scene call. A kind looks only at its own.
///
/// ```
/// use hoodsorrel::Given;
///
/// let fine = Given { cells: 32, ..Given::default() };
/// assert_eq!((fine.cells, fine.rings, fine.radius), (32, 18, 1.0));
/// ```
#[derive(Clone, Copy, Debug, PartialEq)]
pub struct Given {
    /// Rows of the sphere's grid, for an equi payload.
    pub rings: u32,
    /// Columns of the sphere's grid, for an equi payload.
    pub sectors: u32,
    /// Rows and columns of a face, for a cbmp payload.
    pub cells: u32,
    /// Half of a cube's side, for a cbmp payload.
    pub radius: f32,
    /// Pixels of a face's side, padding and all, for a cbmp payload.
    pub face_width: u32,
}

impl Default for Given {
    /// 18 rings, 36 sectors, 4 cells, radius 1 and faces of 1,024 pixels.
    fn default() -> Given {
        Given {
            rings: 18,
            sectors: 36,
            cells: 4,
            radius: 1.0,
            face_width: 1024,
        }
    }
}

/// The lengths of the three lists of a drawing.
#[derive(Clone, Copy, Debug, Default, PartialEq, Eq, Hash)]
pub struct Lengths {
    /// Of the numbers.
    pub numbers: usize,
    /// Of the floats.
    pub floats: usize,
    /// Of the records, in words.
    pub records: usize,
}

impl Lengths {
    pub(crate) fn from_words([numbers, floats, records]: [u64; 3]) -> Lengths {
        Lengths {
            numbers: size(numbers),
            floats: size(floats),
            records: size(records),
        }
    }

    pub(crate) fn needed([numbers, floats, records, ..]: [u64; 8]) -> Needed {
        Needed::Drawing(Lengths::from_words([numbers, floats, records]))
    }
}

/// What was read.
#[derive(Clone, Copy, Debug, PartialEq)]
pub enum Named {
    /// A crop of the sphere.
    Crop(Bounds),
    /// A cube map with this padding, in pixels.
    Padding(u32),
    /// A mesh list.
    Meshes(Counts),
}

/// What the scene call answers: what was read, and the used lengths of the buffers.
#[derive(Clone, Copy, Debug, PartialEq)]
pub struct SceneAnswer {
    /// What was read.
    pub named: Named,
    /// The used lengths.
    pub used: Lengths,
}

/// Draws a payload of a kind into three lent buffers.
///
/// Refused with 1, 2, then 3 to 8, 17 and 18 in payload order, then 9, 10, 11 and 12. Unless it is accepted the buffers
/// stay as they were.
///
/// ```
/// use hoodsorrel::scene::{scene, Named, CBMP};
/// use hoodsorrel::{Given, Lengths, Needed, Refusal};
///
/// let payload = [0, 0, 0, 0, 0, 0, 0, 0, 0, 0, 0, 64];
/// let given = Given { cells: 1, ..Given::default() };
/// let lengths = Lengths { numbers: 36, floats: 120, records: 0 };
/// assert_eq!(
///     scene(CBMP, &payload, &given, &mut [], &mut [], &mut []),
///     Err(Refusal::BufferTooShort(Needed::Drawing(lengths)))
/// );
/// let (mut numbers, mut floats) = ([0; 36], [0.0; 120]);
/// let answer = scene(CBMP, &payload, &given, &mut numbers, &mut floats, &mut [])?;
/// assert_eq!((answer.named, answer.used), (Named::Padding(64), lengths));
/// assert_eq!(floats[..5], [1.0, -1.0, -1.0, 0.020833334, 0.53125]);
/// # Ok::<(), Refusal>(())
/// ```
pub fn scene(
    kind: u32,
    payload: &[u8],
    given: &Given,
    numbers: &mut [u16],
    floats: &mut [f32],
    records: &mut [u32],
) -> Result<SceneAnswer, Refusal> {
    let floats = raw::bits_of(floats);
    asked(Lengths::needed, |words| {
        raw::scene(kind, payload, *given, numbers, floats, records, words)
    })
    .map(SceneAnswer::of)
}

/// The lengths of a payload's drawing.
///
/// Refused as [`scene`] is, but for 12.
///
/// ```
/// use hoodsorrel::scene::{scene_lengths, EQUI};
/// use hoodsorrel::{Given, Lengths};
///
/// let given = Given { rings: 2, sectors: 3, ..Given::default() };
/// assert_eq!(scene_lengths(EQUI, &[0; 20], &given), Ok(Lengths { numbers: 18, floats: 24, records: 0 }));
/// ```
pub fn scene_lengths(kind: u32, payload: &[u8], given: &Given) -> Result<Lengths, Refusal> {
    match scene(kind, payload, given, &mut [], &mut [], &mut []) {
        Ok(answer) => Ok(answer.used),
        Err(Refusal::BufferTooShort(Needed::Drawing(lengths))) => Ok(lengths),
        Err(refusal) => Err(refusal),
    }
}

impl SceneAnswer {
    fn of(answer: Answer) -> SceneAnswer {
        let [case, a, b, c, d, numbers, floats, records] = answer.words;
        SceneAnswer {
            named: match case {
                0 => Named::Crop(Bounds::from_words([a, b, c, d])),
                1 => Named::Padding(low(a)),
                _ => Named::Meshes(Counts::from_words([a, b, c])),
            },
            used: Lengths::from_words([numbers, floats, records]),
        }
    }
}

/// Three lent buffers for drawings, one after the other.
///
/// ```
/// use hoodsorrel::scene::{Scene, EQUI, MESHES};
/// use hoodsorrel::Given;
///
/// let (mut numbers, mut floats, mut records) = (vec![0; 4000], vec![0.0; 2000], vec![0; 100]);
/// let mut scene = Scene { numbers: &mut numbers, floats: &mut floats, records: &mut records };
/// let given = Given::default();
/// for (kind, payload) in [(EQUI, &[0; 20][..]), (MESHES, &[])] {
///     let used = scene.draw(kind, payload, &given)?.used;
///     println!("{:?}", &scene.floats[..used.floats]);
/// }
/// # Ok::<(), hoodsorrel::Refusal>(())
/// ```
#[derive(Debug)]
pub struct Scene<'a> {
    /// For the numbers.
    pub numbers: &'a mut [u16],
    /// For the floats.
    pub floats: &'a mut [f32],
    /// For the records.
    pub records: &'a mut [u32],
}

impl Scene<'_> {
    /// Draws a payload: [`scene`].
    pub fn draw(
        &mut self,
        kind: u32,
        payload: &[u8],
        given: &Given,
    ) -> Result<SceneAnswer, Refusal> {
        scene(
            kind,
            payload,
            given,
            self.numbers,
            self.floats,
            self.records,
        )
    }
}

/// What was read, and its drawing.
///
/// ```
/// use hoodsorrel::scene::{Drawing, Named, MESHES};
/// use hoodsorrel::payload::Counts;
/// use hoodsorrel::{Given, Refusal};
///
/// # let payload = [
/// #     0, 0, 0, 0x20, b'm', b'e', b's', b'h', 0, 0, 0, 1, 0x3F, 0, 0, 0, 0, 0, 0, 1, 0x00, 0, 0, 0, 1, 7, 4, 0, 0, 0,
/// #     2, 0x00,
/// # ];
/// // One coordinate, 0.5; one vertex; one submesh of two points.
/// let drawing = Drawing::of(MESHES, &payload, &Given::default())?;
/// assert_eq!(drawing.named, Named::Meshes(Counts { meshes: 1, submeshes: 1, points: 2 }));
/// for record in drawing.submeshes() {
///     let points = drawing.points_of(record).expect("a record of this drawing");
///     assert_eq!((record.eye, record.texture, points), (0, 7, &[[0.5; 5]; 2][..]));
/// }
///
/// // One such mesh for each eye, and one too many.
/// let drawing = Drawing::of(MESHES, &payload.repeat(2), &Given::default())?;
/// assert!(drawing.submeshes().map(|record| record.eye).eq([1, 2]));
/// assert_eq!(Drawing::of(MESHES, &payload.repeat(3), &Given::default()), Err(Refusal::ThirdMesh));
/// # Ok::<(), Refusal>(())
/// ```
#[derive(Clone, Debug, PartialEq)]
pub struct Drawing {
    /// What was read.
    pub named: Named,
    /// Vertex numbers of triangles; of a mesh list, coordinate numbers.
    pub numbers: Vec<u16>,
    /// The floats of the vertices, or of a mesh list's points. All are finite.
    pub floats: Vec<f32>,
    /// The records of a mesh list, which [`Drawing::submeshes`] takes apart.
    pub records: Vec<u32>,
}

impl Drawing {
    /// Draws a payload: measures it, makes the buffers and fills them.
    ///
    /// Refused as [`scene`] is, and with 12 only where memory does not hold the drawing.
    pub fn of(kind: u32, payload: &[u8], given: &Given) -> Result<Drawing, Refusal> {
        let lengths = scene_lengths(kind, payload, given)?;
        let no_memory = Refusal::BufferTooShort(Needed::Drawing(lengths));
        let mut numbers = memory::zeros(lengths.numbers).ok_or(no_memory)?;
        let mut floats = memory::zeros(lengths.floats).ok_or(no_memory)?;
        let mut records = memory::zeros(lengths.records).ok_or(no_memory)?;
        let answer = scene(
            kind,
            payload,
            given,
            &mut numbers,
            &mut floats,
            &mut records,
        )?;
        Ok(Drawing {
            named: answer.named,
            numbers,
            floats,
            records,
        })
    }

    /// The submeshes of a mesh list.
    pub fn submeshes(&self) -> impl Iterator<Item = Record> {
        Record::all(&self.records)
    }

    /// x, y, z, u and v of each point of a mesh list, or of each vertex of a cube map. A crop has none.
    pub fn points(&self) -> &[[f32; 5]] {
        match self.named {
            Named::Crop(_) => &[],
            _ => self.floats.as_chunks().0,
        }
    }

    /// The points of a submesh, if the drawing has them.
    pub fn points_of(&self, record: Record) -> Option<&[[f32; 5]]> {
        let first = usize::try_from(record.first).ok()?;
        let count = usize::try_from(record.points).ok()?;
        self.points().get(first..first.checked_add(count)?)
    }
}

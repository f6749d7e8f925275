//! Lent buffers: 12 tells every needed length and leaves them as they were, and what fits is put at their front alone.

use std::fmt::Debug;

use hoodsorrel::alignment::look_up;
use hoodsorrel::bits::{put_field, put_word};
use hoodsorrel::payload::*;
use hoodsorrel::scene::{CBMP, EQUI, MESHES, Scene, scene};
use hoodsorrel::{Drawing, Given, Lengths, Needed, Refusal};

/// The example of document 01: two coordinates, three vertices, one submesh of three points.
const LIST: [u8; 40] = [
    0, 0, 0, 0x28, b'm', b'e', b's', b'h', 0, 0, 0, 2, 0, 0, 0, 0, 0x3F, 0x80, 0, 0, 0, 0, 0, 3,
    0x00, 0x20, 0x86, 0x18, 0, 0, 0, 1, 0, 0, 0, 0, 0, 3, 0x09, 0x00,
];
const BODY: usize = 8;

/// A call that fills one buffer: refused at each shorter length, and at longer ones the rest stays as it was.
fn one<T, A>(pattern: T, needed: usize, call: impl Fn(&mut [T]) -> Result<A, Refusal>)
where
    T: Copy + PartialEq + Debug,
    A: PartialEq + Debug,
{
    for n in 0..needed {
        let mut out = vec![pattern; n];
        let refusal = Refusal::BufferTooShort(Needed::One(needed));
        assert_eq!(call(&mut out), Err(refusal));
        assert_eq!(out, vec![pattern; n]);
    }
    let mut exact = vec![pattern; needed];
    let answer = call(&mut exact);
    assert!(answer.is_ok());
    let mut longer = vec![pattern; needed + 7];
    assert_eq!(call(&mut longer), answer);
    assert_eq!(longer[..needed], exact);
    assert_eq!(longer[needed..], vec![pattern; 7]);
}

#[test]
fn writers() {
    let fields = EquiFields {
        t: 1 << 30,
        b: 7,
        l: 8,
        r: 9,
    };
    one(0xA5, 20, |out| write_equi(fields, out));
    one(0xA5, 12, |out| write_cbmp(4096, out));
    let tables = MeshTables::of(&LIST[BODY..]).expect("a body");
    one(0xA5, LIST.len(), |out| tables.write_into(out));
    assert_eq!(tables.write().as_deref(), Ok(&LIST[..]));
}

#[test]
fn makers() {
    let crop = Bounds {
        bottom: 0.25,
        ..Bounds::FULL
    };
    one(0xA5A5, 18, |out| sphere_indices(2, 3, out));
    one(0xA5A5, 27, |out| sphere_indices_bounded(2, 3, crop, out));
    one(9.5, 24, |out| sphere_uvs(2, 3, out));
    one(0xA5A5, 36, |out| cubemap_indices(1, out));
    one(9.5, 120, |out| cubemap_mesh(1, 2.0, 0.25, out));
    one(0xA5A5_A5A5, 5, |out| mesh_records(&LIST, out));
    one(0xA5A5_A5A5, 2, |out| texture_points(&LIST, out));
    one(0xA5A5, 4, |out| look_up(&LIST, 0, &[2, 0, 2, 1], out));
    one(0xA5A5, 0, |out| look_up(&LIST, 0, &[], out));
}

/// What is put at a place leaves the bytes before it as well.
#[test]
fn words_and_fields() {
    one(0xA5, 4, |out| put_word(out, 0, 0x0102_0304));
    one(0xA5, 2, |out| put_field(out, 0, 9, 0x1FF));
    let mut out = [0xA5; 8];
    assert_eq!(put_word(&mut out, 2, 0x0102_0304), Ok(()));
    assert_eq!(out, [0xA5, 0xA5, 1, 2, 3, 4, 0xA5, 0xA5]);
    assert_eq!(put_field(&mut out, 12, 9, 0), Ok(()));
    assert_eq!(out, [0xA5, 0xA0, 0, 2, 3, 4, 0xA5, 0xA5]);
    for at in [5, usize::MAX - 4, usize::MAX - 3, usize::MAX] {
        assert_eq!(put_word(&mut out, at, 7).map_err(Refusal::number), Err(12));
    }
    for bit in [56, usize::MAX - 8, usize::MAX] {
        let answer = put_field(&mut out, bit, 9, 7);
        assert_eq!(answer.map_err(Refusal::number), Err(12));
    }
    for bit in [0, 56, usize::MAX - 8, usize::MAX] {
        let answer = put_field(&mut out, bit, 33, 7);
        assert_eq!(answer.map_err(Refusal::number), Err(16));
    }
    assert_eq!(out, [0xA5, 0xA0, 0, 2, 3, 4, 0xA5, 0xA5]);
}

/// Each of the three buffers short by one item in turn, then all exactly long enough.
#[test]
fn drawings() {
    let given = Given {
        rings: 2,
        sectors: 3,
        cells: 1,
        ..Given::default()
    };
    let payloads = [(EQUI, &[0; 20][..]), (CBMP, &[0; 12]), (MESHES, &LIST)];
    for (kind, payload) in payloads {
        let drawing = Drawing::of(kind, payload, &given).expect("a drawing");
        let lengths = Lengths {
            numbers: drawing.numbers.len(),
            floats: drawing.floats.len(),
            records: drawing.records.len(),
        };
        for short in 0..3 {
            let less = |place, length: usize| length.saturating_sub(usize::from(short == place));
            let mut numbers = vec![0xA5A5; less(0, lengths.numbers)];
            let mut floats = vec![9.5; less(1, lengths.floats)];
            let mut records = vec![0xA5A5_A5A5; less(2, lengths.records)];
            if records.len() == lengths.records && short == 2 {
                continue;
            }
            let answer = scene(
                kind,
                payload,
                &given,
                &mut numbers,
                &mut floats,
                &mut records,
            );
            let refusal = Refusal::BufferTooShort(Needed::Drawing(lengths));
            assert_eq!(answer, Err(refusal));
            assert!(numbers.iter().all(|n| *n == 0xA5A5));
            assert!(floats.iter().all(|x| *x == 9.5));
            assert!(records.iter().all(|n| *n == 0xA5A5_A5A5));
        }
        let (mut numbers, mut floats, mut records) = ([0; 99], [9.5; 199], [0; 9]);
        let mut lent = Scene {
            numbers: &mut numbers,
            floats: &mut floats,
            records: &mut records,
        };
        let answer = lent.draw(kind, payload, &given).expect("it fits");
        assert_eq!((answer.named, answer.used), (drawing.named, lengths));
        assert_eq!(numbers[..lengths.numbers], drawing.numbers);
        assert_eq!(floats[..lengths.floats], drawing.floats);
        assert_eq!(records[..lengths.records], drawing.records);
        assert!(floats[lengths.floats..].iter().all(|x| *x == 9.5));
    }
}

/// Each of the four tables short by one item in turn.
#[test]
fn tables() {
    let body = &LIST[BODY..];
    let lengths = measure_mesh(body).expect("a body");
    for short in 0..4 {
        let less = |place, length: usize| length - usize::from(short == place);
        let mut pool = vec![0xA5A5_A5A5; less(0, lengths.pool)];
        let mut coordinates = vec![0xA5A5; less(1, lengths.coordinates)];
        let mut submeshes = vec![0xA5A5_A5A5; less(2, lengths.submeshes)];
        let mut points = vec![0xA5A5; less(3, lengths.points)];
        let answer = parse_mesh(
            body,
            &mut pool,
            &mut coordinates,
            &mut submeshes,
            &mut points,
        );
        assert_eq!(
            answer,
            Err(Refusal::BufferTooShort(Needed::Tables(lengths)))
        );
        assert!([pool, submeshes].concat().iter().all(|n| *n == 0xA5A5_A5A5));
        assert!([coordinates, points].concat().iter().all(|n| *n == 0xA5A5));
    }
}

/// A mesh of one word.
fn worded(word: u32) -> MeshTables {
    MeshTables {
        pool: vec![word],
        coordinates: vec![0; 5],
        submeshes: vec![255, 255, 2],
        points: vec![0; 2],
    }
}

/// The bits of a pool's words go through unchanged, also those of zeros, subnormals and the largest floats.
#[test]
fn bits_of_words() {
    for word in [0u32, 0x8000_0000, 1, 0x807F_FFFF, 0x7F7F_FFFF, 0xFF7F_FFFF] {
        let mesh = worded(word);
        let list = mesh.write().expect("a mesh");
        let drawing = Drawing::of(MESHES, &list, &Given::default()).expect("a list");
        assert!(drawing.floats.iter().all(|x| x.to_bits() == word));
        assert_eq!(MeshTables::of(&list[BODY..]), Ok(mesh));
    }
}

/// An infinity and a NaN are neither written nor read.
#[test]
fn words_that_are_not_finite() {
    let list = worded(0).write().expect("a mesh");
    for word in [
        0x7F80_0000u32,
        0xFF80_0000,
        0x7F80_0001,
        0x7FC0_0000,
        0xFFFF_FFFF,
    ] {
        assert_eq!(worded(word).write(), Err(Refusal::NotFinite));
        let mut list = list.clone();
        list[BODY + 4..BODY + 8].copy_from_slice(&word.to_be_bytes());
        let refusal = Drawing::of(MESHES, &list, &Given::default()).err();
        assert_eq!(refusal, Some(Refusal::NotFinite));
        let refusal = MeshTables::of(&list[BODY..]).err();
        assert_eq!(refusal, Some(Refusal::NotFinite));
    }
}

/// A list of nearly the longest has more than 500 million points. Its lengths are told, and nothing is allocated.
#[test]
fn the_longest_list_is_measured() {
    let mut body = [
        &[0, 0, 0, 1],
        &[0; 4][..],
        &[0, 0, 0, 1, 0],
        &4130u32.to_be_bytes(),
    ]
    .concat();
    let submesh = [&[0, 0], &128_000u32.to_be_bytes()[..], &[0; 16_000]].concat();
    for _ in 0..4130 {
        body.extend(&submesh);
    }
    let mut list = (8 + body.len() as u32).to_be_bytes().to_vec();
    list.extend(b"mesh");
    list.extend(body);
    let size = measure_meshes(&list).expect("a list");
    assert_eq!(size.counts.points, 4130 * 128_000);
    assert_eq!(size.lengths.floats, 5 * 4130 * 128_000);
}

//! The project's samples, against the listings beside them.

use std::fs;
use std::path::{Path, PathBuf};

use hoodsorrel::payload::{TexturePoints, measure_meshes, mesh_records, texture_points};
use hoodsorrel::scene::{CBMP, EQUI, MESHES};
use hoodsorrel::{Bounds, Counts, Drawing, Given, Named, Record, Refusal, viewer};

/// `meshlist` reads no more than this, and lists a longer payload as refused.
const MOST_LISTED: usize = 16_384;

fn folder() -> PathBuf {
    Path::new(env!("CARGO_MANIFEST_DIR")).join("../../samples")
}

fn sample(name: &str) -> Vec<u8> {
    fs::read(folder().join(name)).expect("a sample")
}

/// The mesh lists that `meshlist` reads whole, with their listings.
fn listed() -> Vec<(Vec<u8>, String)> {
    let files = fs::read_dir(folder()).expect("the folder of samples");
    let paths = files.map(|file| file.expect("a file").path());
    let lists: Vec<(Vec<u8>, String)> = paths
        .filter(|path| path.extension().is_some_and(|kind| kind == "bin"))
        .map(|path| {
            let listing = fs::read_to_string(path.with_extension("txt")).expect("a listing");
            (fs::read(&path).expect("a sample"), listing)
        })
        .filter(|(payload, _)| payload.len() <= MOST_LISTED)
        .collect();
    assert!(lists.len() >= 8);
    lists
}

/// What `meshlist` prints of a drawing.
fn listing(payload: &[u8]) -> String {
    match Drawing::of(MESHES, payload, &Given::default()) {
        Err(refusal) => format!("refused {}\n", refusal.number()),
        Ok(drawing) => {
            let mut text = String::from("eye texture mode first points\n");
            for r in drawing.submeshes() {
                text += &format!(
                    "{} {} {} {} {}\n",
                    r.eye, r.texture, r.mode, r.first, r.points
                );
            }
            let mut textures = [0; 512];
            let count = texture_points(payload, &mut textures).expect("as the drawing");
            for t in TexturePoints::all(&textures[..2 * count]) {
                text += &format!("texture {} points {}\n", t.texture, t.points);
            }
            let Named::Meshes(counts) = drawing.named else {
                panic!("no mesh list: {:?}", drawing.named);
            };
            text + &format!(
                "total {} {} {}\n",
                counts.meshes, counts.submeshes, counts.points
            )
        }
    }
}

#[test]
fn a_drawing_of_every_list() {
    for (payload, text) in listed() {
        assert_eq!(listing(&payload), text);
    }
}

/// All calls that read a list agree on its refusal, its counts and its lengths.
#[test]
fn every_reader_of_every_list() {
    for (payload, _) in listed() {
        let drawing = Drawing::of(MESHES, &payload, &Given::default());
        let refusal = drawing.as_ref().err().copied();
        assert_eq!(measure_meshes(&payload).err(), refusal);
        assert_eq!(mesh_records(&payload, &mut [0; 2000]).err(), refusal);
        assert_eq!(texture_points(&payload, &mut [0; 512]).err(), refusal);
        assert_eq!(viewer::measure_meshes(&payload).err(), refusal);
        if let Ok(drawing) = drawing {
            let size = measure_meshes(&payload).expect("as the drawing");
            assert_eq!(drawing.named, Named::Meshes(size.counts));
            assert_eq!(drawing.numbers.len(), size.lengths.numbers);
            assert_eq!(drawing.floats.len(), size.lengths.floats);
            assert_eq!(drawing.records.len(), size.lengths.records);
            assert_eq!(
                viewer::measure_meshes(&payload),
                Ok(size.counts.points as u64)
            );
            let mut records = vec![0; drawing.records.len()];
            assert_eq!(mesh_records(&payload, &mut records), Ok(size.counts));
            assert_eq!(records, drawing.records);
        }
    }
}

/// The points of every record are there, one after the other, up to the last float.
#[test]
fn points_of_two_eyes() {
    let drawing = Drawing::of(MESHES, &sample("two_eyes.bin"), &Given::default()).expect("a list");
    let points: Vec<[f32; 5]> = drawing
        .submeshes()
        .flat_map(|record| drawing.points_of(record).expect("its points").to_vec())
        .collect();
    assert_eq!(points.as_flattened(), drawing.floats);
    let past = Record {
        first: 18,
        points: 2,
        ..Record::default()
    };
    assert_eq!(drawing.points_of(past), None);
    let largest = Record {
        first: u32::MAX,
        points: u32::MAX,
        ..Record::default()
    };
    assert_eq!(drawing.points_of(largest), None);
}

/// A long size and a short one are two spellings of the same.
#[test]
fn two_eyes_with_long_sizes() {
    let drawing = |name| Drawing::of(MESHES, &sample(name), &Given::default()).expect("a list");
    let [short, long] = ["two_eyes.bin", "long_sizes.bin"].map(drawing);
    assert_eq!((short.numbers, short.floats), (long.numbers, long.floats));
    assert_eq!((short.records, short.named), (long.records, long.named));
}

#[test]
fn a_crop_and_a_cube() {
    let given = Given::default();
    let crop = Drawing::of(EQUI, &sample("crop.equi"), &given).expect("a crop");
    assert!(
        matches!(crop.named, Named::Crop(bounds) if bounds.is_usable() && bounds != Bounds::FULL)
    );
    assert_eq!(crop.floats.len(), 2 * 19 * 37);
    let cube = Drawing::of(CBMP, &sample("cube.cbmp"), &given).expect("a cube map");
    assert!(matches!(cube.named, Named::Padding(1..)));
    assert_eq!((cube.numbers.len(), cube.floats.len()), (36 * 16, 30 * 25));
    assert!(cube.records.is_empty());
}

#[test]
fn an_empty_list() {
    let drawing = Drawing::of(MESHES, &[], &Given::default()).expect("an empty list");
    assert_eq!(drawing.named, Named::Meshes(Counts::default()));
    assert!(drawing.numbers.is_empty() && drawing.floats.is_empty() && drawing.records.is_empty());
    assert_eq!(viewer::measure_meshes(&[]), Ok(0));
}

#[test]
fn a_payload_may_be_too_long() {
    let mut payload = vec![0; 67_108_865];
    payload[..8].copy_from_slice(b"\x04\0\0\0free");
    assert_eq!(
        viewer::measure_meshes(&payload),
        Err(Refusal::PayloadTooLong)
    );
    assert_eq!(viewer::measure_meshes(&payload[..67_108_864]), Ok(0));
    let given = Given::default();
    for kind in [EQUI, CBMP, MESHES] {
        let refusal = Drawing::of(kind, &payload, &given).expect_err("too long");
        assert_eq!(refusal, Refusal::PayloadTooLong);
    }
}

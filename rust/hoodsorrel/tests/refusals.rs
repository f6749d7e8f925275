//! Each call with each of its refusals, held against the table of docs/REFUSALS.md.

use std::collections::BTreeSet;
use std::fs;
use std::path::Path;

use hoodsorrel::alignment::look_up;
use hoodsorrel::bits::*;
use hoodsorrel::display::{Shown, share_points, triangles};
use hoodsorrel::payload::*;
use hoodsorrel::scene::scene;
use hoodsorrel::{Given, Refusal, viewer};

const MOST: u32 = u32::MAX;
const LONGEST: usize = 67_108_864;

/// A call and a refusal of it.
struct Met(BTreeSet<(String, u8)>);

impl Met {
    fn refused<T>(&mut self, call: &str, number: u8, answer: Result<T, Refusal>) {
        let refusal = answer.err().map(Refusal::number);
        assert_eq!(refusal, Some(number), "{call}");
        self.0.insert((call.into(), number));
    }
}

/// The box of a body.
fn boxed(body: &[u8]) -> Vec<u8> {
    let size = u32::try_from(8 + body.len()).expect("a short body");
    [&size.to_be_bytes(), &b"mesh"[..], body].concat()
}

/// A box with this long size.
fn long_box(box_type: &[u8; 4], size: u64, body: &[u8]) -> Vec<u8> {
    [&[0, 0, 0, 1][..], box_type, &size.to_be_bytes(), body].concat()
}

/// A body of one coordinate, one vertex, and one submesh with one point.
fn good_body() -> Vec<u8> {
    vec![
        0, 0, 0, 1, 0, 0, 0, 0, 0, 0, 0, 1, 0, 0, 0, 0, 1, 0, 0, 0, 0, 0, 1, 0,
    ]
}

/// The numbers of a mesh body, each with a body that is refused with it.
fn bad_bodies() -> [(u8, Vec<u8>); 5] {
    let mut stray = good_body();
    stray[12] = 0x80;
    let mut infinite = good_body();
    infinite[4..6].copy_from_slice(&[0x7F, 0x80]);
    [
        (2, vec![0; LONGEST + 1]),
        (3, good_body()[..23].to_vec()),
        (7, vec![0; 4]),
        (8, stray),
        (17, infinite),
    ]
}

/// The same for mesh lists.
fn bad_lists() -> Vec<(u8, Vec<u8>)> {
    let [_, short, count, stray, infinite] = bad_bodies();
    let mut lists: Vec<(u8, Vec<u8>)> = [short, count, stray, infinite]
        .into_iter()
        .map(|(number, body)| (number, boxed(&body)))
        .collect();
    lists.push((2, vec![0; LONGEST + 1]));
    lists.push((6, b"\0\0\0\x07mesh".to_vec()));
    lists.push((18, boxed(&good_body()).repeat(3)));
    lists
}

fn bits(met: &mut Met) {
    let byte = ByteCursor::new();
    met.refused("ByteCursor::seek", 3, byte.seek(&[0; 4], 5));
    met.refused("ByteCursor::skip", 3, byte.skip(&[0; 4], 5));
    met.refused("ByteCursor::u8", 3, byte.u8(&[]));
    met.refused("ByteCursor::u32", 3, byte.u32(&[0; 3]));
    let bit = BitCursor::new(0);
    met.refused("BitCursor::read", 3, bit.read(&[0], 9));
    met.refused("BitCursor::read", 16, bit.read(&[0; 9], 33));
    met.refused("BitCursor::read_two", 3, bit.read_two(&[0; 2], 9));
    met.refused("BitCursor::read_two", 16, bit.read_two(&[0; 9], 33));
    met.refused("run_on", 8, run_on(0, 1, 1));
    met.refused("box_header", 3, box_header(b"\0\0\0\x01mesh.......", byte));
    met.refused("box_header", 6, box_header(b"\0\0\0\x09mesh", byte));
    met.refused("put_word", 12, put_word(&mut [0; 3], 0, 0));
    met.refused("put_field", 12, put_field(&mut [0], 0, 9, 0));
    met.refused("put_field", 16, put_field(&mut [0; 9], 0, 33, 0));
    let run = Run {
        bit: 0,
        limit: 1,
        count: 9,
    };
    let long = vec![0; LONGEST + 1];
    for (number, data) in [(2, &long[..]), (3, &[0]), (8, &[0x80, 0])] {
        met.refused("check_run", number, check_run(data, run));
        met.refused("check_fives", number, check_fives(data, run));
    }
}

fn crops(met: &mut Met) {
    let long = vec![0; LONGEST + 1];
    let unusable = [[0; 4], [0xFF; 4], [0; 4], [0; 4], [0; 4]].concat();
    let layout = [0, 0, 0, 0, 0, 0, 0, 1];
    for (number, payload) in [(2, &long[..]), (3, &[]), (4, &[1]), (10, &unusable)] {
        met.refused("parse_equi", number, parse_equi(payload));
    }
    for (number, payload) in [(2, &long[..]), (3, &[]), (4, &[1]), (5, &layout)] {
        met.refused("parse_cbmp", number, parse_cbmp(payload));
    }
    let all = EquiFields {
        t: MOST,
        ..EquiFields::default()
    };
    met.refused("write_equi", 10, write_equi(all, &mut [0; 20]));
    met.refused(
        "write_equi",
        12,
        write_equi(EquiFields::default(), &mut [0; 19]),
    );
    met.refused("write_cbmp", 5, write_cbmp(4097, &mut [0; 12]));
    met.refused("write_cbmp", 12, write_cbmp(4096, &mut [0; 11]));
}

fn grids(met: &mut Met) {
    let none = Bounds {
        top: 1.0,
        ..Bounds::FULL
    };
    met.refused("sphere_lengths", 9, sphere_lengths(1, 3, none));
    met.refused("sphere_lengths", 10, sphere_lengths(2, 3, none));
    met.refused("sphere_indices", 9, sphere_indices(2, 2, &mut []));
    met.refused("sphere_indices", 12, sphere_indices(2, 3, &mut []));
    met.refused("sphere_uvs", 9, sphere_uvs(255, 256, &mut []));
    met.refused("sphere_uvs", 12, sphere_uvs(255, 255, &mut []));
    for (number, rings, bounds) in [(9, 1, none), (10, 2, none), (12, 2, Bounds::FULL)] {
        let answer = sphere_indices_bounded(rings, 3, bounds, &mut []);
        met.refused("sphere_indices_bounded", number, answer);
    }
    met.refused("cubemap_lengths", 9, cubemap_lengths(0, 1.0, 0.0));
    met.refused("cubemap_lengths", 11, cubemap_lengths(1, f32::NAN, 0.0));
    met.refused("cubemap_indices", 9, cubemap_indices(104, &mut []));
    met.refused("cubemap_indices", 12, cubemap_indices(103, &mut []));
    for (number, cells, share) in [(9, 0, 0.5), (11, 1, 0.5), (12, 1, 0.25)] {
        let answer = cubemap_mesh(cells, 1.0, share, &mut []);
        met.refused("cubemap_mesh", number, answer);
    }
}

fn counts(met: &mut Met) {
    met.refused("vertex_count", 14, vertex_count(MOST, MOST));
    met.refused("index_count", 14, index_count(MOST, MOST));
    met.refused("cubemap_vertex_count", 14, cubemap_vertex_count(MOST));
    met.refused("cubemap_index_count", 14, cubemap_index_count(MOST));
    met.refused(
        "viewer::vertex_count",
        14,
        viewer::vertex_count(MOST, MOST / 2),
    );
    met.refused(
        "viewer::index_count",
        14,
        viewer::index_count(MOST, MOST / 8),
    );
    met.refused(
        "viewer::cubemap_vertex_count",
        14,
        viewer::cubemap_vertex_count(MOST / 2),
    );
    met.refused(
        "viewer::cubemap_index_count",
        14,
        viewer::cubemap_index_count(MOST / 6),
    );
}

fn meshes(met: &mut Met) {
    for (number, body) in bad_bodies() {
        met.refused("measure_mesh", number, measure_mesh(&body));
        let answer = parse_mesh(&body, &mut [], &mut [], &mut [], &mut []);
        met.refused("parse_mesh", number, answer);
    }
    let answer = parse_mesh(&good_body(), &mut [], &mut [], &mut [], &mut []);
    met.refused("parse_mesh", 12, answer);
    met.refused("write_mesh", 13, write_mesh(&[], &[], &[], &[], &mut []));
    let answer = write_mesh(&[0], &[0; 5], &[0, 0, 1], &[0], &mut [0; 31]);
    met.refused("write_mesh", 12, answer);
    let answer = write_mesh(&[0x7F80_0000], &[0; 5], &[0, 0, 1], &[0], &mut []);
    met.refused("write_mesh", 17, answer);
    for (number, list) in bad_lists() {
        met.refused("measure_meshes", number, measure_meshes(&list));
        met.refused(
            "viewer::measure_meshes",
            number,
            viewer::measure_meshes(&list),
        );
        met.refused("mesh_records", number, mesh_records(&list, &mut []));
        met.refused("texture_points", number, texture_points(&list, &mut []));
        // the payload comes before the question
        met.refused("find_submesh", number, find_submesh(&list, MOST));
        let answer = look_up(&list, MOST, &[MOST; 257], &mut []);
        met.refused("look_up", number, answer);
        let answer = parse_meshes(&list, &mut [], &mut [], &mut []);
        met.refused("parse_meshes", number, answer);
    }
    let good = boxed(&good_body());
    met.refused("mesh_records", 12, mesh_records(&good, &mut []));
    met.refused("texture_points", 12, texture_points(&good, &mut []));
    for number in [1, MOST] {
        met.refused("find_submesh", 24, find_submesh(&good, number));
        met.refused("look_up", 24, look_up(&good, number, &[], &mut []));
    }
    for asked in [&[1][..], &[0, MOST], &[0; 257]] {
        met.refused("look_up", 24, look_up(&good, 0, asked, &mut []));
    }
    met.refused("look_up", 12, look_up(&good, 0, &[0; 256], &mut [0; 255]));
    met.refused(
        "parse_meshes",
        12,
        parse_meshes(&good, &mut [], &mut [], &mut []),
    );
}

fn scenes(met: &mut Met) {
    let ask = |kind, payload: &[u8], given| scene(kind, payload, &given, &mut [], &mut [], &mut []);
    let given = Given::default();
    let bad = Given {
        rings: 1,
        cells: 0,
        radius: f32::NAN,
        ..given
    };
    let long = vec![0; LONGEST + 1];
    for (kind, name) in [(0, "scene of kind 0"), (1, "scene of kind 1")] {
        met.refused(name, 2, ask(kind, &long, bad));
        met.refused(name, 3, ask(kind, &[], bad));
        met.refused(name, 4, ask(kind, &[1], bad));
        met.refused(name, 9, ask(kind, &[0; 20], bad));
        met.refused(name, 12, ask(kind, &[0; 20], given));
    }
    let unusable = [[0; 4], [0xFF; 4], [0; 4], [0; 4], [0; 4]].concat();
    met.refused("scene of kind 0", 10, ask(0, &unusable, given));
    met.refused("scene of kind 1", 5, ask(1, &[0, 0, 0, 0, 0, 0, 0, 1], bad));
    let radius = Given { cells: 1, ..bad };
    met.refused("scene of kind 1", 11, ask(1, &[0; 12], radius));
    for (number, list) in bad_lists() {
        met.refused("scene of kind 2", number, ask(2, &list, bad));
    }
    let good = boxed(&good_body());
    met.refused("scene of kind 2", 12, ask(2, &good, bad));
    for kind in [3, 4, MOST] {
        met.refused("scene of any other kind", 1, ask(kind, &long, bad));
    }
}

fn displays(met: &mut Met) {
    for records in [
        &[0; 6][..],
        &[0, 0, 3, 0, 0],
        &[0, 0, 0, MOST, 1],
        &[0, 0, 0, 0, MOST, 0, 0, 0, 0, 1],
    ] {
        met.refused("triangles", 15, triangles(records, &mut []));
    }
    met.refused("triangles", 12, triangles(&[0, 0, 0, 0, 3], &mut [0; 2]));
    let share = |points, wishes: &[u32]| share_points(points, wishes, &mut []);
    for wishes in [&[][..], &[1; 9], &[1, 1_000_000], &[MOST]] {
        met.refused("share_points", 26, share(5, wishes));
    }
    met.refused("share_points", 26, share(1_000_000, &[1]));
    met.refused("share_points", 12, share(999_999, &[999_999; 8]));
}

/// Lists that are refused themselves, and numbers that are refused.
fn lists(met: &mut Met) {
    let records = [0, 0, 0, 0, 3].repeat(65);
    let mut two = Shown::none();
    let mut all = Shown::none();
    for number in 0..64 {
        all.show(number, &records).expect("64 are shown at most");
    }
    for number in [7, 5] {
        two.show(number, &records).expect("a record's number");
    }
    let mut repeated = two.clone();
    repeated.entries[1] = 7;
    let mut unknown = two.clone();
    unknown.entries[0] = 65;
    unknown.total = 3;
    let bad = [
        Shown {
            count: 65,
            ..all.clone()
        },
        repeated,
        unknown,
        Shown {
            total: 7,
            ..two.clone()
        },
    ];
    let show = |list: &Shown, number| list.clone().show(number, &records);
    let hide = |list: &Shown, number| list.clone().hide(number, &records);
    for list in &bad {
        met.refused("Shown::show", 19, show(list, 7));
        met.refused("Shown::hide", 19, hide(list, 9));
    }
    met.refused("Shown::show", 19, show(&two, 65));
    met.refused("Shown::show", 19, show(&two, 5));
    met.refused("Shown::show", 19, show(&all, 5));
    met.refused("Shown::show", 21, show(&all, 64));
    met.refused("Shown::hide", 19, hide(&two, 65));
    met.refused("Shown::hide", 20, hide(&two, 6));
}

/// The rows of the table by call: `| CALL, CALL | NUMBERS |`, where a call stands in backticks.
fn promised() -> BTreeSet<(String, u8)> {
    let path = Path::new(env!("CARGO_MANIFEST_DIR")).join("../../docs/REFUSALS.md");
    let text = fs::read_to_string(path).expect("docs/REFUSALS.md");
    let (_, table) = text.split_once("## By call").expect("the table by call");
    let rows = table.lines().filter(|line| line.starts_with("| `"));
    let pairs = rows.flat_map(|row| {
        let cells: Vec<&str> = row.split('|').map(str::trim).collect();
        let calls = cells[1].split(", ").map(|call| call.replace('`', ""));
        let numbers: Vec<u8> = cells[2]
            .split(", ")
            .map(|number| number.parse().expect("a number"))
            .collect();
        calls
            .flat_map(|call| numbers.clone().into_iter().map(move |n| (call.clone(), n)))
            .collect::<Vec<_>>()
    });
    pairs.collect()
}

#[test]
fn each_call_with_each_of_its_refusals() {
    let mut met = Met(BTreeSet::new());
    bits(&mut met);
    crops(&mut met);
    grids(&mut met);
    counts(&mut met);
    meshes(&mut met);
    scenes(&mut met);
    displays(&mut met);
    lists(&mut met);
    assert_eq!(met.0, promised());
}

/// The number that each call on mesh lists refuses a list with, lent no buffer.
fn by_each_reader(list: &[u8]) -> [Option<u8>; 7] {
    let given = Given::default();
    [
        measure_meshes(list).err(),
        viewer::measure_meshes(list).err(),
        mesh_records(list, &mut []).err(),
        texture_points(list, &mut []).err(),
        look_up(list, 0, &[0], &mut []).err(),
        parse_meshes(list, &mut [], &mut [], &mut []).err(),
        scene(2, list, &given, &mut [], &mut [], &mut []).err(),
    ]
    .map(|refusal| refusal.map(Refusal::number))
}

/// Behind its size, before its body and whatever follows; a box that is skipped is none.
#[test]
fn a_third_mesh_is_refused_at_its_type() {
    let mesh = boxed(&good_body());
    let skipped = b"\0\0\0\x08free";
    let [bad_mesh, bad_size] = [&b"\0\0\0\x08mesh"[..], b"\0\0\0\x07mesh"];
    let bad_long = &long_box(b"mesh", 15, &[]);
    for (number, boxes) in [
        (Some(18), [&mesh[..], &mesh, &mesh, skipped]),
        (Some(18), [&mesh, skipped, &mesh, bad_mesh]),
        (Some(18), [&mesh, &mesh, bad_mesh, bad_size]),
        (Some(6), [&mesh, &mesh, bad_size, bad_mesh]),
        (Some(3), [&mesh, bad_mesh, &mesh, &mesh]),
        (Some(3), [bad_mesh, &mesh, &mesh, &mesh]),
        (None, [skipped, &mesh, skipped, &mesh]),
        (None, [&mesh, skipped, skipped, skipped]),
        // before its long size
        (Some(18), [&mesh, &mesh, bad_long, &mesh]),
        (Some(18), [&mesh, skipped, &mesh, &bad_long[..8]]),
        (Some(6), [&mesh, bad_long, &mesh, &mesh]),
    ] {
        assert_eq!(by_each_reader(&boxes.concat()), due(number), "{boxes:02x?}");
    }
}

/// What each call on mesh lists is refused with where this is wrong with the list, or nothing and no buffer is lent.
fn due(number: Option<u8>) -> [Option<u8>; 7] {
    let [plain, lent] = [number, number.or(Some(12))];
    [plain, plain, lent, lent, lent, lent, lent]
}

/// Of a mesh and of a box that is skipped, behind a mesh with a long size that is right.
#[test]
fn long_sizes_at_their_limits() {
    let body = good_body();
    let right = 16 + body.len() as u64;
    let good = long_box(b"mesh", right, &body);
    let past = (1 << 32) + right;
    for (size, mesh, skipped) in [
        (right, None, None),
        (0, Some(6), Some(6)),
        (15, Some(6), Some(6)),
        // an empty body; that of the skipped box begins with size 1, type 0 and a long size past the end
        (16, Some(3), Some(6)),
        (right - 1, Some(3), None),
        (right + 1, Some(6), Some(6)),
        (past, Some(6), Some(6)),
        (u64::MAX, Some(6), Some(6)),
    ] {
        for (box_type, number) in [(b"mesh", mesh), (b"free", skipped)] {
            let list = [&good[..], &long_box(box_type, size, &body)].concat();
            assert_eq!(by_each_reader(&list), due(number), "{box_type:?} {size}");
        }
    }
}

/// With fewer than 8 bytes the list ends; below 16 the long size is not complete.
#[test]
fn a_long_size_is_cut() {
    let good = boxed(&good_body());
    for box_type in [b"mesh", b"free"] {
        let whole = long_box(box_type, 17, &[]);
        for n in 0..=16 {
            let number = match n {
                0..8 => None,
                8..16 => Some(3),
                _ => Some(6),
            };
            let list = [&good, &whole[..n]].concat();
            assert_eq!(by_each_reader(&list), due(number), "{box_type:?} {n}");
        }
    }
}

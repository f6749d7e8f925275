//! The command on the project's samples, whole and damaged.

use std::fs;
use std::process::Output;

use crate::run::{picture, place, preview, samples, text};

fn refused(output: &Output, message: &str) {
    assert_eq!(text(&output.stderr), format!("{message}\n"));
    assert_eq!(text(&output.stdout), "");
    assert_eq!(output.status.code(), Some(1));
}

#[test]
fn a_mesh_list_is_listed_as_stored_and_drawn() {
    // one for each submesh, and three more for each of mesh 0
    for (sample, paths) in [
        ("m1", 1 + 3),
        ("two_eyes", 5 + 3 * 3),
        ("long_sizes", 5 + 3 * 3),
        ("empty", 0),
        // three have fewer than three points
        ("textures", 1),
        // and here 56 of the modes up to 2
        ("all_textures", 200 + 3 * 200),
        ("dome", 10 + 3 * 5),
        ("globe", 40 + 3 * 40),
    ] {
        let out = place(&format!("{sample}.svg"));
        let listing = fs::read_to_string(samples().join(format!("{sample}.txt"))).expect(sample);
        let output = preview("mesh", format!("{sample}.bin"), &out, &[]);
        let svg = picture(&output, &listing, &out);
        assert!(svg.starts_with("<svg ") && svg.ends_with("</svg>\n"));
        assert!(svg.contains(&format!("<title>{sample}.bin: a mesh list")));
        assert_eq!(svg.matches("<path").count(), paths, "{sample}");
    }
}

#[test]
fn a_crop_is_drawn_with_its_borders() {
    let out = place("crop.svg");
    let words = ["--rings", "4", "--sectors", "6"];
    let output = preview("equi", "crop.equi", &out, &words);
    let listing = "top 0.0625\nbottom 0.125\nleft 0.25\nright 0.25\nrings 4\nsectors 6\n\
                   numbers 144\nfloats 70\nrecords 0\n";
    let svg = picture(&output, listing, &out);
    assert_eq!(svg.matches('M').count(), 144 / 3);
    for border in ["78.75°", "\u{2212}67.5°"] {
        assert!(svg.contains(border), "{border}");
    }
}

#[test]
fn a_cube_map_is_drawn_by_faces() {
    let out = place("cube.svg");
    let output = preview("1", "cube.cbmp", &out, &["--radius", "2.5"]);
    let listing = "padding 64\nface-width 1024\ncells 4\nradius 2.5\n\
                   numbers 576\nfloats 750\nrecords 0\n";
    let svg = picture(&output, listing, &out);
    assert_eq!(svg.matches("<path").count(), 6);
    let [left, down, ahead] = ["x", "y", "z"].map(|axis| format!(">\u{2212}{axis}<"));
    let labels = [">+x<", &left, ">+y<", &down, &ahead, ">+z<"];
    assert!(labels
        .map(|label| svg.find(label).expect(label))
        .is_sorted());
}

#[test]
fn the_pictures_in_docs_are_what_it_writes() {
    for (kind, sample) in [
        ("mesh", "dome.bin"),
        ("equi", "crop.equi"),
        ("cbmp", "cube.cbmp"),
    ] {
        let out = place(&format!("docs-{kind}.svg"));
        assert!(preview(kind, sample, &out, &[]).status.success());
        let stored = samples().join(format!("../docs/preview-{kind}.svg"));
        let same = fs::read(out).expect(kind) == fs::read(stored).expect(kind);
        assert!(same, "docs/preview-{kind}.svg is not what preview draws");
    }
}

#[test]
fn a_damaged_payload_is_refused_and_nothing_is_written() {
    let out = place("damaged.svg");
    let message = "refused 8: a running number leaves its pool or its vertices";
    refused(&preview("mesh", "damaged.bin", &out, &[]), message);
    assert!(!out.exists());
    fs::write(&out, "as it was").unwrap();
    refused(&preview("mesh", "damaged.bin", &out, &[]), message);
    assert_eq!(fs::read_to_string(&out).unwrap(), "as it was");
}

#[test]
fn each_refusal_is_the_scene_call_s() {
    let out = place("refused.svg");
    for (kind, sample, words, number) in [
        ("3", "m1.bin", &[][..], 1),
        ("mesh", "refused_3.bin", &[], 3),
        ("mesh", "refused_6.bin", &[], 6),
        ("mesh", "refused_7.bin", &[], 7),
        ("mesh", "refused_17.bin", &[], 17),
        ("mesh", "refused_17_undrawn.bin", &[], 17),
        ("mesh", "refused_18.bin", &[], 18),
        ("mesh", "refused_18_unread.bin", &[], 18),
        ("equi", "cube.cbmp", &[], 3),
        ("equi", "crop.equi", &["--rings", "1"], 9),
        ("cbmp", "cube.cbmp", &["--cells", "104"], 9),
        ("cbmp", "cube.cbmp", &["--face-width", "128"], 11),
        ("cbmp", "cube.cbmp", &["--radius", "inf"], 11),
    ] {
        let output = preview(kind, sample, &out, words);
        assert_eq!(output.status.code(), Some(1), "{sample} {number}");
        assert_eq!(text(&output.stdout), "");
        let message = text(&output.stderr);
        assert!(
            message.starts_with(&format!("refused {number}: ")),
            "{message}"
        );
        assert!(!out.exists());
    }
}

#[test]
fn a_file_that_cannot_be_read_or_written_is_named() {
    let out = place("missing.svg");
    let output = preview("mesh", "missing.bin", &out, &[]);
    assert_eq!(output.status.code(), Some(1));
    assert!(text(&output.stderr).contains("missing.bin"));
    assert!(!out.exists());
    let output = preview("mesh", "m1.bin", &place("no folder/a.svg"), &[]);
    assert_eq!(output.status.code(), Some(1));
    assert!(text(&output.stderr).contains("no folder/a.svg"));
}

#[test]
fn the_payload_is_never_replaced() {
    let payload = place("payload.svg");
    fs::copy(samples().join("m1.bin"), &payload).unwrap();
    let output = preview("mesh", &payload, &payload, &[]);
    assert_eq!(output.status.code(), Some(1));
    assert!(text(&output.stderr).contains("--out"));
    let bytes = fs::read(samples().join("m1.bin")).unwrap();
    assert_eq!(fs::read(&payload).unwrap(), bytes);
}

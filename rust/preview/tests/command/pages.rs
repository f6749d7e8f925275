//! What the picture says.

use std::fs;

use crate::run::{drawn, picture, place, preview, samples, text};

/// Whether a picture has exactly these words somewhere.
fn says(svg: &str, words: &str) -> bool {
    svg.contains(&format!(">{words}</text>"))
}

#[test]
fn columns_modes_and_totals_are_named() {
    let svg = drawn("mesh", "two_eyes.bin", "named.svg", &[]);
    for words in [
        "eye",
        "texture",
        "mode",
        "first",
        "points",
        "0 triangles",
        "1 triangle strip",
        "2 triangle fan",
        "total: 2 meshes, 5 submeshes, 19 points",
    ] {
        assert!(says(&svg, words), "{words}");
    }
}

/// By each panel and in each record.
#[test]
fn eyes_are_named() {
    let [one, two] = ["m1", "two_eyes"].map(|name| {
        let sample = format!("{name}.bin");
        drawn("mesh", &sample, &format!("eyes-{name}.svg"), &[])
    });
    for words in ["both eyes", "0 both", "mesh 0, both eyes, in space"] {
        assert!(says(&one, words) && !says(&two, words), "{words}");
    }
    for words in ["left eye", "right eye", "1 left", "2 right"] {
        assert!(says(&two, words) && !says(&one, words), "{words}");
    }
}

#[test]
fn bytes_that_are_not_read_are_counted() {
    let longer = place("longer.cbmp");
    let mut payload = fs::read(samples().join("cube.cbmp")).unwrap();
    payload.push(7);
    fs::write(&longer, payload).unwrap();
    for (kind, sample, words) in [
        ("equi", samples().join("dome.bin"), "3,886 bytes not read"),
        ("cbmp", longer, "1 byte not read"),
    ] {
        let out = place("unread.svg");
        let output = preview(kind, &sample, &out, &[]);
        let listing = text(&output.stdout);
        assert!(listing.ends_with(&format!("\n{words}\n")), "{listing}");
        let svg = picture(&output, listing, &out);
        assert!(says(&svg, words));
        assert!(svg.contains(&format!("({kind}), {words}</title>")));
        assert!(svg.contains(&format!("({kind}), {words}</text>")));
    }
}

#[test]
fn nothing_is_said_where_all_is_read() {
    for (kind, sample) in [
        ("equi", "crop.equi"),
        ("cbmp", "cube.cbmp"),
        ("mesh", "skipped.bin"),
    ] {
        assert!(!drawn(kind, sample, "read.svg", &[]).contains("not read"));
    }
}

#[test]
fn a_minus_sign_is_one() {
    let cube = drawn("cbmp", "cube.cbmp", "minus-cube.svg", &["--radius", "-2.5"]);
    assert!(says(&cube, "\u{2212}2.5") && says(&cube, "\u{2212}x"));
    let crop = drawn("equi", "crop.equi", "minus-crop.svg", &[]);
    assert!(says(&crop, "\u{2212}67.5°"));
    let dome = drawn("mesh", "dome.bin", "minus-dome.svg", &[]);
    assert!(says(&dome, "\u{2212}1.000000") && says(&dome, "\u{2212}1"));
    for svg in [cube, crop, dome] {
        assert!(!svg.contains(">-"));
    }
}

#[test]
fn forty_submeshes_have_forty_colours() {
    let svg = drawn("mesh", "globe.bin", "colours.svg", &[]);
    let squares = svg
        .lines()
        .filter(|line| line.ends_with("stroke-width=\"0.5\"/>"));
    let mut colours: Vec<&str> = squares
        .filter_map(|square| square.split("fill=\"").nth(1)?.get(..7))
        .collect();
    assert_eq!(colours.len(), 40);
    colours.sort();
    colours.dedup();
    assert_eq!(colours.len(), 40);
}

#[test]
fn one_mesh_is_shown_in_space() {
    // its submeshes from three sides, beside the five of both meshes
    for (mesh, whose, paths) in [("0", "left eye", 5 + 3 * 3), ("1", "right eye", 5 + 3 * 2)] {
        let svg = drawn("mesh", "two_eyes.bin", "space.svg", &["--mesh", mesh]);
        assert!(says(&svg, &format!("mesh {mesh}, {whose}, in space")));
        assert_eq!(svg.matches(" in space<").count(), 1);
        assert_eq!(svg.matches("<path").count(), paths);
        for words in ["front", "top", "side", "x", "y", "z", "least", "greatest"] {
            assert!(says(&svg, words), "{words}");
        }
    }
}

#[test]
fn a_mesh_that_is_not_there_is_not_shown() {
    let out = place("no-mesh.svg");
    let output = preview("mesh", "two_eyes.bin", &out, &["--mesh", "2"]);
    assert_eq!(output.status.code(), Some(1));
    assert_eq!(
        text(&output.stderr),
        "preview: --mesh 2: the list has 2 meshes, numbered from 0\n"
    );
    assert!(!out.exists());
}

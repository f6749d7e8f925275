//! Which eye a mesh and its submeshes are for.

/// The eye of a record, its number with its name.
pub fn named(eye: u32) -> String {
    let name = match eye {
        0 => "both",
        1 => "left",
        _ => "right",
    };
    format!("{eye} {name}")
}

/// The mesh of an eye's records, counted from 0: the right eye's is the second one.
pub fn mesh(eye: u32) -> usize {
    usize::from(eye == 2)
}

/// Whose a mesh is, of a list of so many.
pub fn of_mesh(mesh: usize, meshes: u64) -> &'static str {
    match (meshes, mesh) {
        (1, _) => "both eyes",
        (_, 0) => "left eye",
        _ => "right eye",
    }
}

#[cfg(test)]
mod tests {
    use super::*;

    #[test]
    fn names_and_meshes() {
        assert_eq!([0, 1, 2].map(named), ["0 both", "1 left", "2 right"]);
        assert_eq!([0, 1, 2].map(mesh), [0, 0, 1]);
        assert_eq!(of_mesh(0, 1), "both eyes");
        assert_eq!(
            [0, 1].map(|mesh| of_mesh(mesh, 2)),
            ["left eye", "right eye"]
        );
    }
}

//! The modes of submeshes.

/// A mode's number, with its name in the format where it has one.
pub fn named(number: u32) -> String {
    match number {
        0 => format!("{number} triangles"),
        1 => format!("{number} triangle strip"),
        2 => format!("{number} triangle fan"),
        _ => number.to_string(),
    }
}

#[cfg(test)]
mod tests {
    use super::*;

    #[test]
    fn names_beside_numbers() {
        let names = [0, 1, 2, 3, 255].map(named);
        let texts = [
            "0 triangles",
            "1 triangle strip",
            "2 triangle fan",
            "3",
            "255",
        ];
        assert_eq!(names, texts);
    }
}

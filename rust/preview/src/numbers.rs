//! Numbers as the page shows them.

/// With a comma between thousands: 3,886.
pub fn thousands(n: u64) -> String {
    let digits = n.to_string();
    let mut text = String::new();
    for (place, digit) in digits.chars().enumerate() {
        if place > 0 && (digits.len() - place).is_multiple_of(3) {
            text.push(',');
        }
        text.push(digit);
    }
    text
}

/// 1 mesh, 2 meshes.
pub fn counted(n: u64, one: &str, many: &str) -> String {
    format!("{} {}", thousands(n), if n == 1 { one } else { many })
}

/// A number's text with a minus sign where it has a hyphen.
pub fn minus(number: &str) -> String {
    number.replace('-', "\u{2212}")
}

/// Six decimals; an exponent where they would hide the number or be too many.
pub fn measured(x: f64) -> String {
    if x == 0.0 || (1e-3..1e5).contains(&x.abs()) {
        minus(&format!("{:.6}", x + 0.0))
    } else {
        minus(&format!("{x:.4e}"))
    }
}

#[cfg(test)]
mod tests {
    use super::*;

    #[test]
    fn commas_between_thousands() {
        for (n, text) in [
            (0, "0"),
            (999, "999"),
            (3886, "3,886"),
            (67_108_865, "67,108,865"),
            (u64::MAX, "18,446,744,073,709,551,615"),
        ] {
            assert_eq!(thousands(n), text);
        }
    }

    #[test]
    fn one_and_many() {
        assert_eq!(counted(1, "mesh", "meshes"), "1 mesh");
        assert_eq!(counted(0, "mesh", "meshes"), "0 meshes");
        assert_eq!(counted(1200, "byte", "bytes"), "1,200 bytes");
    }

    #[test]
    fn six_decimals_or_an_exponent() {
        for (x, text) in [
            (0.0, "0.000000"),
            (-0.0, "0.000000"),
            (-0.25, "\u{2212}0.250000"),
            (12345.0, "12345.000000"),
            (-1e5, "\u{2212}1.0000e5"),
            (2.5e-7, "2.5000e\u{2212}7"),
        ] {
            assert_eq!(measured(x), text);
        }
    }
}

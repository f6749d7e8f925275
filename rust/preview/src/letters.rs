//! How wide words are on the page.

/// No less than their width at 12 pixels in the sans-serif fonts of browsers, of which DejaVu Sans and Verdana are the
/// widest.
pub fn width(words: &str) -> f64 {
    words.chars().map(letter).sum()
}

/// So many of a text's first letters as fit into this width, and two dots where some do not.
pub fn cut(words: &str, room: f64) -> String {
    let mut used = 0.0;
    for (end, letter_here) in words.char_indices() {
        used += letter(letter_here);
        if used > room {
            return format!("{}..", &words[..end]);
        }
    }
    words.to_string()
}

fn letter(letter: char) -> f64 {
    match letter {
        'f' | 'i' | 'j' | 'l' | 'r' | 't' | 'I' | ' ' | '.' | ',' | ':' | '-' | '(' | ')' => 5.0,
        'm' | 'w' | 'M' | 'W' | '@' | '%' | '+' | '=' => 12.0,
        'A'..='Z' => 9.5,
        _ if letter.is_ascii() => 7.7,
        _ => 12.0,
    }
}

#[cfg(test)]
mod tests {
    use super::*;

    #[test]
    fn words_by_their_letters() {
        assert_eq!(width(""), 0.0);
        assert_eq!(width("1 m"), 7.7 + 5.0 + 12.0);
        assert!(width("\u{2212}1") > width("-1"));
    }

    #[test]
    fn a_long_name_is_cut_between_letters() {
        assert_eq!(cut("ééé", 36.0), "ééé");
        assert_eq!(cut("éééé", 36.0), "ééé..");
    }
}

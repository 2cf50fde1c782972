//! Octets as text: two digits each, with single blanks between them.

/// How many octets are worth showing where two programs differ.
pub const SHOWN: usize = 96;

/// The octets in lower-case digits.
pub fn text(octets: &[u8]) -> String {
    let pairs: Vec<String> = octets.iter().map(|octet| format!("{octet:02x}")).collect();
    pairs.join(" ")
}

/// A blank before each octet, so that no octets leave no trailing blank.
pub fn after_blanks(octets: &[u8]) -> String {
    octets.iter().map(|octet| format!(" {octet:02x}")).collect()
}

/// How many octets there are, and the first of them.
pub fn cut(octets: &[u8]) -> String {
    let shown = after_blanks(&octets[..octets.len().min(SHOWN)]);
    let more = if octets.len() > SHOWN { " ..." } else { "" };
    format!("of {} octets:{shown}{more}", octets.len())
}

/// The octets that a text written in this program stands for.
pub fn octets(text: &str) -> Vec<u8> {
    text.split_whitespace()
        .map(|pair| u8::from_str_radix(pair, 16).expect("two hexadecimal digits"))
        .collect()
}

#[cfg(test)]
mod tests {
    use super::*;

    #[test]
    fn both_ways() {
        assert_eq!(octets("00 2A ff"), [0, 42, 255]);
        assert_eq!(text(&[0, 42, 255]), "00 2a ff");
        assert_eq!(text(&[]), "");
    }

    #[test]
    fn after_blanks_and_cut() {
        assert_eq!(after_blanks(&[0, 42]), " 00 2a");
        assert_eq!(cut(&[]), "of 0 octets:");
        assert_eq!(cut(&[0xE0, 1]), "of 2 octets: e0 01");
        let long = cut(&[0; 70_000]);
        assert!(long.starts_with("of 70000 octets: 00 00 "));
        assert!(long.ends_with(" 00 ...") && long.len() < 400);
    }
}

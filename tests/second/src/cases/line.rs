//! A line: a verb of one word or two, then numbers, octets or a name.

/// A verb that another begins with comes after it.
const VERBS: &[&str] = &[
    "read records",
    "read record",
    "read",
    "walk",
    "write encap",
    "write space",
    "write record",
    "fresh",
    "open",
    "packet",
    "close",
    "fill",
    "sound",
    "lane",
    "mark",
    "pool",
];

pub struct Line<'a> {
    pub verb: &'static str,
    words: Vec<&'a str>,
}

impl<'a> Line<'a> {
    pub fn new(text: &'a str) -> Result<Self, String> {
        let after = |verb: &&'static str| {
            let rest = text.strip_prefix(*verb)?;
            (rest.is_empty() || rest.starts_with(' ')).then_some((*verb, rest))
        };
        let (verb, rest) = VERBS.iter().find_map(after).ok_or("no such verb")?;
        let words = rest.split(' ').skip(1).collect();
        Ok(Line { verb, words })
    }

    /// The words as numbers, of which there are to be so many.
    pub fn numbers<const N: usize>(&self) -> Result<[u32; N], String> {
        let numbers: Result<Vec<u32>, _> = self.words.iter().map(|word| word.parse()).collect();
        let numbers = numbers.map_err(|error| format!("no number: {error}"))?;
        numbers.try_into().map_err(|_| format!("not {N} numbers"))
    }

    /// The words as octets.
    pub fn octets(&self) -> Result<Vec<u8>, String> {
        self.words.iter().map(|word| octet(word)).collect()
    }
}

/// Two digits, in lower case as they are printed.
fn octet(word: &str) -> Result<u8, String> {
    let octet = u8::from_str_radix(word, 16).map_err(|error| error.to_string())?;
    let printed = format!("{octet:02x}");
    (word == printed)
        .then_some(octet)
        .ok_or(format!("{word} for {printed}"))
}

/// A number for a field that is narrower.
pub fn narrow<T: TryFrom<u32>>(number: u32) -> Result<T, String> {
    T::try_from(number).map_err(|_| format!("{number} is too wide"))
}

#[cfg(test)]
mod tests {
    use super::*;

    #[test]
    fn verbs_and_words() {
        let line = Line::new("read records 00 2a").expect("a verb");
        assert_eq!(
            (line.verb, line.octets()),
            ("read records", Ok(vec![0, 42]))
        );
        let line = Line::new("write space 0 4294967295").expect("a verb");
        assert_eq!(line.numbers(), Ok([0, u32::MAX]));
        assert!(line.numbers::<3>().is_err());
        let line = Line::new("read").expect("a verb");
        assert_eq!((line.verb, line.octets()), ("read", Ok(vec![])));
        assert!(Line::new("reader").is_err() && Line::new(" read").is_err());
    }

    #[test]
    fn octets_are_as_they_are_printed() {
        assert_eq!(octet("0a"), Ok(10));
        for wrong in ["0A", "a", "00a", "+1", "", "g0"] {
            assert!(octet(wrong).is_err(), "{wrong}");
        }
        assert_eq!(narrow::<u8>(255), Ok(255));
        assert!(narrow::<u8>(256).is_err());
    }
}

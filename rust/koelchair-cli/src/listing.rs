//! The numbers in the library's listing of an accepted case.

/// T, the settled table, the score, and each formula's value on both models, as numbers of elements.
#[derive(Clone, Debug, PartialEq, Eq)]
pub struct Listing {
    /// T.
    pub rounds: u32,
    /// The rows of the settled table.
    pub rows: Vec<Vec<u8>>,
    /// The score.
    pub score: u8,
    /// Each formula's value on model 1 and on model 2.
    pub formulas: Vec<[u8; 2]>,
}

/// The listing of a case that the library accepts.
pub fn of(case: &[u8]) -> Option<Listing> {
    read(&koelchair::listing(case))
}

fn read(text: &str) -> Option<Listing> {
    let mut listing = Listing {
        rounds: text.strip_prefix("rounds ")?.lines().next()?.parse().ok()?,
        rows: Vec::new(),
        score: 0,
        formulas: Vec::new(),
    };
    for line in text.lines().skip(1) {
        let (word, rest) = line.split_once(' ')?;
        let numbers = rest.split_once(": ").map_or(rest, |(_, numbers)| numbers);
        let numbers: Vec<u8> = numbers
            .split(' ')
            .map(|n| n.parse().ok())
            .collect::<Option<_>>()?;
        match (word, &numbers[..]) {
            ("row", _) => listing.rows.push(numbers),
            ("score", [score]) => listing.score = *score,
            ("formula", [student, course]) => listing.formulas.push([*student, *course]),
            _ => return None,
        }
    }
    Some(listing)
}

#[cfg(test)]
mod tests {
    use super::{read, Listing};

    #[test]
    fn numbers_are_read() {
        let text =
            "rounds 4033\nrow 0: 0 2\nrow 1: 1 63\nscore 1\nformula 0: 1 2\nformula 1: 0 0\n";
        let expected = Listing {
            rounds: 4033,
            rows: vec![vec![0, 2], vec![1, 63]],
            score: 1,
            formulas: vec![[1, 2], [0, 0]],
        };
        assert_eq!(read(text), Some(expected));
        assert_eq!(read("refused 7 0\n"), None);
    }
}

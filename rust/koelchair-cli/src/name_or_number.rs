//! Words that stand for a state or an element by its name or by its number, as the two listings have them.

use crate::errors::{expected_one_of, Span, TextError};
use crate::names;

/// Whether a word is made of digits alone.
pub fn digits(word: &str) -> bool {
    word.bytes().all(|b| b.is_ascii_digit())
}

/// The states of a model, or the elements of a lattice.
pub struct Sort {
    /// What one of them is called.
    pub what: &'static str,
    /// Their names, in the order of their numbers.
    pub names: Vec<String>,
    read: Read,
}

/// How a word of digits is read.
#[derive(Clone, Copy, PartialEq, Eq)]
enum Read {
    /// As a name or as a number: no name is the number of another.
    Either,
    /// As a name.
    Name,
    /// As a number.
    Number,
}

impl Sort {
    /// A sort with these names. Where a name is the number of another, digits are names in a text `by_names`, and numbers in any other.
    pub fn new(what: &'static str, names: Vec<String>, by_names: bool) -> Sort {
        let another = |n: usize, i: usize| n != i && n < names.len();
        let other = |(i, name): (usize, &String)| name.parse().is_ok_and(|n| another(n, i));
        let read = match (names.iter().enumerate().any(other), by_names) {
            (false, _) => Read::Either,
            (true, true) => Read::Name,
            (true, false) => Read::Number,
        };
        Sort { what, names, read }
    }

    /// The number that a word is; none where the word is to be read as a name.
    pub fn number(&self, word: &str, span: Span) -> Result<Option<u8>, TextError> {
        let Ok(number) = word.parse::<usize>() else {
            return Ok(None);
        };
        let as_name = match self.read {
            Read::Either => self.names.iter().any(|n| n == word),
            Read::Name => true,
            Read::Number => false,
        };
        match as_name {
            true => Ok(None),
            false if number < self.names.len() => Ok(Some(number as u8)),
            false => Err(self.no_number(word, span)),
        }
    }

    /// What a word stands for, by name or by number.
    pub fn lookup(&self, word: &str, span: Span) -> Result<u8, TextError> {
        match self.number(word, span)? {
            Some(number) => Ok(number),
            None => names::lookup(word, span, &self.names, self.what),
        }
    }

    fn no_number(&self, word: &str, span: Span) -> TextError {
        let message = format!("`{word}` is no {}", self.what);
        let numbers = format!("a number from 0 to {}", self.names.len() - 1);
        if self.read == Read::Number {
            let help = "some names are numbers of others; in a table with a line `columns` digits are names";
            return TextError::new(span, message, format!("expected {numbers}")).with_help(help);
        }
        let names = expected_one_of(self.names.iter().map(String::as_str));
        TextError::new(span, message, format!("{names}, or {numbers}"))
    }
}

#[cfg(test)]
mod tests {
    use super::Sort;
    use crate::errors::Span;

    /// What the words `0` to `3` stand for; 9 where they stand for nothing.
    fn read(names: [&str; 3], by_names: bool) -> [u8; 4] {
        let names = names.map(str::to_string).to_vec();
        let sort = Sort::new("element", names, by_names);
        ["0", "1", "2", "3"].map(|w| sort.lookup(w, Span::default()).unwrap_or(9))
    }

    #[test]
    fn digits_are_names_or_numbers() {
        for by_names in [true, false] {
            assert_eq!(read(["no", "unsure", "yes"], by_names), [0, 1, 2, 9]);
            assert_eq!(read(["0", "1", "2"], by_names), [0, 1, 2, 9]);
            assert_eq!(read(["no", "1", "yes"], by_names), [0, 1, 2, 9]);
            assert_eq!(read(["3", "no", "yes"], by_names), [0, 1, 2, 0]);
        }
    }

    #[test]
    fn names_that_are_other_numbers_are_told_apart_by_the_text() {
        assert_eq!(read(["1", "2", "3"], true), [9, 0, 1, 2]);
        assert_eq!(read(["1", "2", "3"], false), [0, 1, 2, 9]);
        assert_eq!(read(["2", "1", "0"], true), [2, 1, 0, 9]);
        assert_eq!(read(["2", "1", "0"], false), [0, 1, 2, 9]);
    }
}

//! Formulas as text. From loosest to tightest: `|`, `&`, then `AX`, `EX`, `AG`, `EF`, `AF`, `EG` and `!`. `|` and `&` group to the left. The body
//! of `mu z.` and `nu z.` goes as far to the right as it can.

use crate::errors::{expected_one_of, with_nearest, Span, TextError};
use crate::formula::{Formula, Ways, DEEPEST, LONGEST};
pub use crate::formula_print::print;
use crate::lexer::{Cursor, Kind, Token};

/// Words that have a meaning in formulas, and so name no proposition and no variable.
pub const FORMULA_WORDS: [&str; 10] = [
    "mu", "nu", "AX", "EX", "AG", "EF", "AF", "EG", "top", "bottom",
];

const START: &str =
    "a formula: a proposition, `!p`, `top`, `bottom`, `AX`, `EX`, `AG`, `EF`, `AF`, `EG`, `mu z.`, `nu z.` or `(`";

/// Words of other languages, each with what is meant.
const MISTAKEN: [(&str, &str); 12] = [
    ("and", "`&`"),
    ("or", "`|`"),
    ("not", "`!`"),
    ("implies", "`!p | q`"),
    ("true", "`top`"),
    ("false", "`bottom`"),
    ("always", "`AG`"),
    ("never", "`AG !p`"),
    ("eventually", "`AF` or `EF`"),
    ("G", "`AG`"),
    ("F", "`AF` or `EF`"),
    ("X", "`AX` or `EX`"),
];

/// An error with what is meant by a word as its further line.
fn with_meant(error: TextError, word: &str) -> TextError {
    match MISTAKEN.iter().find(|(said, _)| *said == word) {
        Some((_, meant)) => error.with_help(format!("did you mean {meant}?")),
        None => error,
    }
}

/// Whether a word can name a proposition or a variable.
pub fn name_allowed(word: &str) -> bool {
    let begins_well = word.starts_with(|c: char| c.is_alphabetic() || c == '_');
    begins_well && !FORMULA_WORDS.contains(&word)
}

/// Reads a formula up to the end of the tokens.
pub fn parse(cursor: &mut Cursor, propositions: &[String]) -> Result<Formula, TextError> {
    let mut parser = Parser {
        propositions,
        bound: Vec::new(),
        depth: 0,
        nodes: 0,
    };
    let formula = parser.or(cursor)?;
    let end = cursor.expect_end("`&`, `|` or the end of the formula");
    let goes_on = cursor.peek().map(|t| &t.kind);
    end.map_err(|error| match goes_on {
        Some(Kind::Word(word)) => with_meant(error, word),
        Some(Kind::Sign("->")) => error.with_help("did you mean `!p | q`?"),
        _ => error,
    })?;
    Ok(formula)
}

struct Parser<'a> {
    propositions: &'a [String],
    bound: Vec<String>,
    depth: usize,
    nodes: usize,
}

impl Parser<'_> {
    fn or(&mut self, cursor: &mut Cursor) -> Result<Formula, TextError> {
        let mut left = self.and(cursor)?;
        while cursor.take_sign("|") {
            left = Formula::Or(Box::new(left), Box::new(self.and(cursor)?));
        }
        Ok(left)
    }

    fn and(&mut self, cursor: &mut Cursor) -> Result<Formula, TextError> {
        let mut left = self.prefixed(cursor)?;
        while cursor.take_sign("&") {
            left = Formula::And(Box::new(left), Box::new(self.prefixed(cursor)?));
        }
        Ok(left)
    }

    fn prefixed(&mut self, cursor: &mut Cursor) -> Result<Formula, TextError> {
        self.depth += 1;
        self.nodes += 1;
        if self.depth > DEEPEST || self.nodes > LONGEST {
            return Err(too_deep(cursor.here()));
        }
        let formula = self.by_first_token(cursor);
        self.depth -= 1;
        formula
    }

    fn by_first_token(&mut self, cursor: &mut Cursor) -> Result<Formula, TextError> {
        let here = cursor.here();
        match cursor.peek().map(|t| &t.kind) {
            Some(Kind::Sign("(")) => {
                cursor.take();
                let formula = self.or(cursor)?;
                cursor.expect_sign(")")?;
                Ok(formula)
            }
            Some(Kind::Sign("!")) => {
                cursor.take();
                self.negated(cursor)
            }
            Some(Kind::Word(word)) => {
                cursor.take();
                self.by_word(word, here, cursor)
            }
            _ => Err(cursor.unexpected(START)),
        }
    }

    fn by_word(
        &mut self,
        word: &str,
        span: Span,
        cursor: &mut Cursor,
    ) -> Result<Formula, TextError> {
        match word {
            "top" => Ok(Formula::Top),
            "bottom" => Ok(Formula::Bottom),
            "AX" => Ok(Formula::AllNext(Box::new(self.prefixed(cursor)?))),
            "EX" => Ok(Formula::SomeNext(Box::new(self.prefixed(cursor)?))),
            "mu" | "nu" => self.binder(word == "mu", cursor),
            _ => match Ways::ALL.into_iter().find(|w| w.word() == word) {
                Some(ways) => self.ways(ways, cursor),
                None => self.name(word, span),
            },
        }
    }

    /// What follows `AG` and so on, inside a binder without a name.
    fn ways(&mut self, ways: Ways, cursor: &mut Cursor) -> Result<Formula, TextError> {
        self.bound.push(String::new());
        let body = self.prefixed(cursor);
        self.bound.pop();
        Ok(Formula::Ways(ways, Box::new(body?)))
    }

    fn binder(&mut self, least: bool, cursor: &mut Cursor) -> Result<Formula, TextError> {
        let (word, span) = cursor.expect_word("the name of a variable")?;
        if !name_allowed(word) || self.propositions.iter().any(|p| p == word) {
            let message = format!("`{word}` cannot name a variable");
            let expected = match name_allowed(word) {
                true => "expected a name that no proposition has",
                false => "expected a name that begins with a letter and is no word of formulas",
            };
            return Err(TextError::new(span, message, expected));
        }
        cursor.expect_sign(".")?;
        self.bound.push(word.to_string());
        let body = self.or(cursor);
        self.bound.pop();
        let body = Box::new(body?);
        Ok(match least {
            true => Formula::Least(word.to_string(), body),
            false => Formula::Greatest(word.to_string(), body),
        })
    }

    fn negated(&mut self, cursor: &mut Cursor) -> Result<Formula, TextError> {
        let wrong = |cursor: &Cursor| {
            cursor.unexpected("a proposition: `!` stands before propositions only")
        };
        let Some(Token {
            kind: Kind::Word(word),
            span,
        }) = cursor.peek()
        else {
            return Err(wrong(cursor));
        };
        if FORMULA_WORDS.contains(&word.as_str()) || self.bound.contains(word) {
            return Err(wrong(cursor));
        }
        cursor.take();
        match self.name(word, *span)? {
            Formula::Proposition(p) => Ok(Formula::Negated(p)),
            other => Ok(other),
        }
    }

    fn name(&self, word: &str, span: Span) -> Result<Formula, TextError> {
        if let Some(count) = self.bound.iter().rev().position(|v| v == word) {
            return match u8::try_from(count) {
                Ok(count) => Ok(Formula::Variable(count)),
                Err(_) => Err(too_deep(span)),
            };
        }
        if let Some(number) = self.propositions.iter().position(|p| p == word) {
            return Ok(Formula::Proposition(number as u8));
        }
        let named = self.propositions.iter().chain(&self.bound);
        let known = || {
            let named = named.clone().filter(|name| !name.is_empty());
            named.map(String::as_str)
        };
        let message = format!("`{word}` is neither a proposition nor a variable bound here");
        let error = TextError::new(span, message, expected_one_of(known()));
        let error = with_nearest(error, word, known().chain(FORMULA_WORDS));
        Err(with_meant(error, word))
    }
}

fn too_deep(span: Span) -> TextError {
    let expected = format!("expected at most {DEEPEST} levels and {LONGEST} operators and names");
    TextError::new(span, "the formula is too long", expected)
}

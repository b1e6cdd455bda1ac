//! Reading a statement token by token, with what was expected where something else stands.

use crate::errors::{Span, TextError};
use crate::lexer::{Kind, Token};

/// A place in a statement.
#[derive(Clone, Debug)]
pub struct Cursor<'a> {
    tokens: &'a [Token],
    at: usize,
}

impl<'a> Cursor<'a> {
    /// At the beginning of some tokens, of which there is at least one.
    pub fn new(tokens: &'a [Token]) -> Cursor<'a> {
        Cursor { tokens, at: 0 }
    }

    /// The token that comes next.
    pub fn peek(&self) -> Option<&'a Token> {
        self.tokens.get(self.at)
    }

    /// The word that comes next.
    pub fn peek_word(&self) -> Option<&'a str> {
        match self.peek() {
            Some(Token {
                kind: Kind::Word(word),
                ..
            }) => Some(word),
            _ => None,
        }
    }

    /// Whether this sign comes next.
    pub fn at_sign(&self, sign: &str) -> bool {
        matches!(self.peek(), Some(Token { kind: Kind::Sign(s), .. }) if *s == sign)
    }

    /// Whether nothing is left.
    pub fn at_end(&self) -> bool {
        self.at >= self.tokens.len()
    }

    /// Takes the next token.
    pub fn take(&mut self) -> Option<&'a Token> {
        let token = self.peek();
        self.at += usize::from(token.is_some());
        token
    }

    /// Takes this sign if it comes next.
    pub fn take_sign(&mut self, sign: &str) -> bool {
        let there = self.at_sign(sign);
        self.at += usize::from(there);
        there
    }

    /// Takes this word if it comes next.
    pub fn take_word(&mut self, word: &str) -> bool {
        let there = self.peek_word() == Some(word);
        self.at += usize::from(there);
        there
    }

    /// Takes this sign, or says that it was expected.
    pub fn expect_sign(&mut self, sign: &str) -> Result<Span, TextError> {
        let span = self.here();
        match self.take_sign(sign) {
            true => Ok(span),
            false => Err(self.unexpected(&format!("`{sign}`"))),
        }
    }

    /// Takes a word, or says what was expected.
    pub fn expect_word(&mut self, expected: &str) -> Result<(&'a str, Span), TextError> {
        let span = self.here();
        match self.peek_word() {
            Some(word) => {
                self.at += 1;
                Ok((word, span))
            }
            None => Err(self.unexpected(expected)),
        }
    }

    /// Says what was expected unless nothing is left.
    pub fn expect_end(&self, expected: &str) -> Result<(), TextError> {
        match self.at_end() {
            true => Ok(()),
            false => Err(self.unexpected(expected)),
        }
    }

    /// The place of the next token, or just after the last.
    pub fn here(&self) -> Span {
        match (self.peek(), self.tokens.last()) {
            (Some(token), _) => token.span,
            (None, Some(last)) => Span {
                line: last.span.line,
                start: last.span.end,
                end: last.span.end + 1,
            },
            (None, None) => Span::default(),
        }
    }

    /// The error that something else stands here than what was expected.
    pub fn unexpected(&self, expected: &str) -> TextError {
        let message = match self.peek() {
            Some(token) => format!("{} is not expected here", token.kind.said()),
            None => "the line ends too early".to_string(),
        };
        TextError::new(self.here(), message, format!("expected {expected}"))
    }
}

//! Words and signs of the text form. A `#` begins a comment that goes to the end of its line. A line break ends a
//! statement, except inside parentheses or braces.

pub use crate::cursor::Cursor;
use crate::errors::{Source, Span, TextError};

/// What a token is.
#[derive(Clone, Debug, PartialEq, Eq)]
pub enum Kind {
    /// A name, a number or a keyword.
    Word(String),
    /// Text in double quotes.
    Quoted(String),
    /// One of the signs in `SIGNS`.
    Sign(&'static str),
}

/// A token with its place.
#[derive(Clone, Debug, PartialEq, Eq)]
pub struct Token {
    /// What it is.
    pub kind: Kind,
    /// Where it stands.
    pub span: Span,
}

/// The tokens of one statement; never empty.
pub type Statement = Vec<Token>;

/// The signs, longer ones before their beginnings.
const SIGNS: [&str; 14] = [
    "->", "<=", "..", ":", ",", "=", "|", "&", "!", ".", "(", ")", "{", "}",
];

/// Signs of other languages, each with what is meant; longer ones before their beginnings.
const MISTAKEN: [(&str, &str); 22] = [
    ("<=>", "`(p & q) | (!p & !q)`"),
    ("<->", "`(p & q) | (!p & !q)`"),
    ("-->", "`->`"),
    ("->>", "`->`"),
    ("=>", "`->` for a transition, or in a formula `!p | q`"),
    ("==", "`=`"),
    (":=", "`=`"),
    ("&&", "`&`"),
    ("||", "`|`"),
    ("!=", "`!p`"),
    ("/\\", "`&`"),
    ("\\/", "`|`"),
    ("~", "`!`"),
    ("¬", "`!`"),
    ("∧", "`&`"),
    ("∨", "`|`"),
    ("→", "`->`"),
    ("≤", "`<=`"),
    ("//", "`#` for a comment"),
    ("“", "`\"`"),
    ("”", "`\"`"),
    ("„", "`\"`"),
];

/// The statements of a text, and the comment lines at its head without their `#`.
#[derive(Clone, Debug, Default)]
pub struct Lexed {
    /// The statements.
    pub statements: Vec<Statement>,
    /// The comment at the head.
    pub head: Vec<String>,
}

/// Reads a text as statements.
pub fn lex(source: &Source) -> Result<Lexed, TextError> {
    let mut lexed = Lexed {
        head: head_comment(source),
        ..Lexed::default()
    };
    let mut statement = Statement::new();
    let mut open: Vec<Token> = Vec::new();
    for line in 0..source.lines.len() {
        for token in line_tokens(source, line)? {
            follow_brackets(&token, &mut open)?;
            statement.push(token);
        }
        if open.is_empty() && !statement.is_empty() {
            lexed.statements.push(std::mem::take(&mut statement));
        }
    }
    match open.pop() {
        Some(token) => Err(TextError::new(
            token.span,
            "this bracket is never closed",
            format!(
                "expected `{}` after it",
                closing(&token.kind).unwrap_or(")")
            ),
        )),
        None => Ok(lexed),
    }
}

/// The lines of comment before anything else.
fn head_comment(source: &Source) -> Vec<String> {
    source
        .lines
        .iter()
        .map_while(|line| line.trim_start().strip_prefix('#'))
        .map(|line| {
            line.strip_prefix(' ')
                .unwrap_or(line)
                .trim_end()
                .to_string()
        })
        .collect()
}

/// The sign that closes an opening bracket.
fn closing(kind: &Kind) -> Option<&'static str> {
    match kind {
        Kind::Sign("(") => Some(")"),
        Kind::Sign("{") => Some("}"),
        _ => None,
    }
}

/// Keeps the brackets that are open.
fn follow_brackets(token: &Token, open: &mut Vec<Token>) -> Result<(), TextError> {
    if closing(&token.kind).is_some() {
        open.push(token.clone());
    } else if let Kind::Sign(sign @ (")" | "}")) = token.kind {
        let expected = open.pop().and_then(|t| closing(&t.kind));
        if expected != Some(sign) {
            let expected = match expected {
                Some(e) => format!("expected `{e}`"),
                None => "no bracket is open here".to_string(),
            };
            return Err(TextError::new(
                token.span,
                format!("`{sign}` closes nothing"),
                expected,
            ));
        }
    }
    Ok(())
}

/// The tokens of a line.
fn line_tokens(source: &Source, line: usize) -> Result<Vec<Token>, TextError> {
    let chars: Vec<char> = source.lines[line].chars().collect();
    let mut tokens = Vec::new();
    let mut at = 0;
    while at < chars.len() {
        let c = chars[at];
        if c.is_whitespace() || (at == 0 && c == '\u{feff}') {
            at += 1;
        } else if c == '#' {
            break;
        } else {
            let (kind, end) = token_at(&chars, at, line)?;
            let span = Span {
                line,
                start: at,
                end,
            };
            tokens.push(Token { kind, span });
            at = end;
        }
    }
    Ok(tokens)
}

/// The token that begins at a place, and the place after it.
fn token_at(chars: &[char], at: usize, line: usize) -> Result<(Kind, usize), TextError> {
    if word_character(chars[at]) {
        let mut end = at;
        while end < chars.len() && within_word(chars, end) {
            end += 1;
        }
        return Ok((Kind::Word(chars[at..end].iter().collect()), end));
    }
    if chars[at] == '"' {
        return quoted_at(chars, at, line);
    }
    let stands_here = |s: &str| {
        s.chars()
            .enumerate()
            .all(|(i, c)| chars.get(at + i) == Some(&c))
    };
    let place = |length: usize| Span {
        line,
        start: at,
        end: at + length,
    };
    if let Some((sign, meant)) = MISTAKEN.iter().find(|(s, _)| stands_here(s)) {
        return Err(mistaken(sign, meant, place(sign.chars().count())));
    }
    match SIGNS.iter().find(|s| stands_here(s)) {
        Some(sign) => Ok((Kind::Sign(sign), at + sign.len())),
        None => Err(no_token(chars[at], place(1))),
    }
}

/// The error that a sign is one of another language.
fn mistaken(sign: &str, meant: &str, span: Span) -> TextError {
    let message = format!("`{sign}` is no sign of the text form");
    TextError::new(span, message, format!("did you mean {meant}?"))
}

/// The error that a character begins no token.
fn no_token(character: char, span: Span) -> TextError {
    let expected = match character {
        '-' => "expected `->`",
        '<' => "expected `<=`",
        _ => "expected a name, a number or a sign such as `->`, `:`, `&`",
    };
    let message = format!(
        "the character `{}` has no meaning here",
        character.escape_debug()
    );
    TextError::new(span, message, expected)
}

/// The quoted text that begins at a place.
fn quoted_at(chars: &[char], at: usize, line: usize) -> Result<(Kind, usize), TextError> {
    match chars[at + 1..].iter().position(|c| *c == '"') {
        Some(length) => {
            let end = at + 1 + length;
            Ok((Kind::Quoted(chars[at + 1..end].iter().collect()), end + 1))
        }
        None => Err(TextError::new(
            Span {
                line,
                start: at,
                end: chars.len(),
            },
            "this quoted text is never closed",
            "expected `\"` before the end of the line",
        )),
    }
}

/// Whether a character may begin a word.
fn word_character(c: char) -> bool {
    c.is_alphanumeric() || matches!(c, '_' | '?' | '\'')
}

/// Whether the character at a place goes on a word: a `-` does if a letter or digit follows it.
fn within_word(chars: &[char], at: usize) -> bool {
    word_character(chars[at])
        || (chars[at] == '-' && chars.get(at + 1).is_some_and(|c| c.is_alphanumeric()))
}

impl Kind {
    /// The token as an error speaks of it.
    pub fn said(&self) -> String {
        match self {
            Kind::Word(word) => format!("`{word}`"),
            Kind::Quoted(text) => format!("\"{text}\""),
            Kind::Sign(sign) => format!("`{sign}`"),
        }
    }
}

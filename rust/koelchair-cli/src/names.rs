//! Lists of names: written one after another, `q0..q63` standing for `q0`, `q1` and so on up to `q63`.

use crate::errors::{expected_one_of, with_nearest, Span, TextError, OTHER_LINE};
use crate::lexer::{Cursor, Kind, Statement, Token};

/// Words that begin a statement, and so name neither an element, a state nor a proposition.
const RESERVED: [&str; 12] = [
    "title",
    "lattice",
    "propositions",
    "model",
    "formula",
    "bytes",
    "include",
    "states",
    "initial",
    "elements",
    "not",
    "row",
];

/// The most names that a list may have; counts are bytes.
pub const MOST_NAMES: usize = 255;

/// A name with its place.
#[derive(Clone, Debug)]
pub struct Name {
    /// The name.
    pub text: String,
    /// Where it stands.
    pub span: Span,
}

/// One or more names.
pub fn names(cursor: &mut Cursor, expected: &str) -> Result<Vec<Name>, TextError> {
    let mut list = Vec::new();
    loop {
        let (first, span) = cursor.expect_word(expected)?;
        if cursor.take_sign("..") {
            let (last, end) = cursor.expect_word("the last name of the range")?;
            for text in range(first, last, span.to(end))? {
                list.push(Name {
                    text,
                    span: span.to(end),
                });
            }
        } else {
            list.push(Name {
                text: first.to_string(),
                span,
            });
        }
        if list.len() > MOST_NAMES {
            return Err(TextError::new(
                span,
                "the list is too long",
                format!("expected at most {MOST_NAMES} names"),
            ));
        }
        if cursor.peek_word().is_none() {
            return Ok(list);
        }
    }
}

/// The names from a first to a last, which differ in the number at their end.
fn range(first: &str, last: &str, span: Span) -> Result<Vec<String>, TextError> {
    let wrong = |expected: &str| TextError::new(span, "this is no range of names", expected);
    let (prefix, from) = split_number(first)
        .ok_or_else(|| wrong("expected names that end in a number, as `q0..q7`"))?;
    let (other, to) = split_number(last)
        .ok_or_else(|| wrong("expected names that end in a number, as `q0..q7`"))?;
    if prefix != other {
        return Err(wrong(&format!(
            "expected the last name to begin with `{prefix}`"
        )));
    }
    let (low, high) = (from.parse::<u32>(), to.parse::<u32>());
    match (low, high) {
        (Ok(low), Ok(high)) if low <= high && high - low < 1 + MOST_NAMES as u32 => {
            let width = from.len();
            Ok((low..=high)
                .map(|i| format!("{prefix}{i:0width$}"))
                .collect())
        }
        _ => Err(wrong(&format!(
            "expected a rising range of at most {MOST_NAMES} names"
        ))),
    }
}

/// A name as what stands before the number at its end, and that number; the number has no needless zero.
fn split_number(name: &str) -> Option<(&str, &str)> {
    let digits = name.len() - name.bytes().rev().take_while(u8::is_ascii_digit).count();
    let (prefix, number) = name.split_at(digits);
    let plain = number == "0" || (!number.is_empty() && !number.starts_with('0'));
    plain.then_some((prefix, number))
}

/// New names of some sort, which must be free of reserved words and differ from one another and from those before.
pub fn declare(list: Vec<Name>, declared: &mut Vec<Name>, sort: &str) -> Result<(), TextError> {
    for name in list {
        if RESERVED.contains(&name.text.as_str()) {
            let message = format!("`{}` is a word of the text form", name.text);
            return Err(TextError::new(
                name.span,
                message,
                format!("expected another name for this {sort}"),
            ));
        }
        if let Some(first) = declared.iter().find(|d| d.text == name.text) {
            let message = format!("the {sort} `{}` is named twice", name.text);
            let expected = format!("expected a name other than that in {OTHER_LINE}");
            let error = TextError::new(name.span, message, expected);
            return Err(error.with_other(first.span.line));
        }
        if declared.len() == MOST_NAMES {
            let expected = format!("expected at most {MOST_NAMES} names");
            return Err(TextError::new(name.span, "the list is too long", expected));
        }
        declared.push(name);
    }
    Ok(())
}

/// The names of some sort that statements list behind their first word.
pub fn declared<'a>(
    statements: impl IntoIterator<Item = &'a Statement>,
    sort: &str,
) -> Result<Vec<Name>, TextError> {
    let mut all = Vec::new();
    for statement in statements {
        let mut cursor = Cursor::new(statement);
        cursor.take();
        let list = names(&mut cursor, &format!("the names of the {sort}s"))?;
        cursor.expect_end("a name")?;
        declare(list, &mut all, sort)?;
    }
    Ok(all)
}

/// The texts of names.
pub fn texts(list: Vec<Name>) -> Vec<String> {
    list.into_iter().map(|n| n.text).collect()
}

/// The number of a name among those of some sort.
pub fn lookup(word: &str, span: Span, all: &[String], sort: &str) -> Result<u8, TextError> {
    match all.iter().position(|n| n == word) {
        Some(number) => Ok(number as u8),
        None => Err(unknown(word, span, all, sort)),
    }
}

/// The error that a word names nothing of some sort.
pub fn unknown(word: &str, span: Span, all: &[String], sort: &str) -> TextError {
    let all = || all.iter().map(String::as_str);
    let error = TextError::new(
        span,
        format!("`{word}` is no {sort}"),
        expected_one_of(all()),
    );
    with_nearest(error, word, all())
}

/// The numbers of one or more names of some sort, with their places.
pub fn numbers(
    cursor: &mut Cursor,
    all: &[String],
    sort: &str,
) -> Result<Vec<(u8, Span)>, TextError> {
    let list = names(cursor, &format!("a {sort}"))?;
    list.iter()
        .map(|n| Ok((lookup(&n.text, n.span, all, sort)?, n.span)))
        .collect()
}

/// A list of names as it is written, with ranges for three or more names in a row.
pub fn written(list: &[String]) -> String {
    let mut words = Vec::new();
    let mut at = 0;
    while at < list.len() {
        let run = run_length(&list[at..]);
        if run >= 3 {
            words.push(format!("{}..{}", list[at], list[at + run - 1]));
            at += run;
        } else {
            words.push(list[at].clone());
            at += 1;
        }
    }
    words.join(" ")
}

/// How many names from the first on count up one by one.
fn run_length(list: &[String]) -> usize {
    let Some((prefix, number)) = split_number(&list[0]) else {
        return 1;
    };
    let Ok(first) = number.parse::<u32>() else {
        return 1;
    };
    let follows = |(i, name): (usize, &String)| {
        first
            .checked_add(i as u32)
            .is_some_and(|k| *name == format!("{prefix}{k}"))
    };
    list.iter()
        .enumerate()
        .take_while(|pair| follows(*pair))
        .count()
}

/// The span from the first token to the last of its line.
pub fn whole(statement: &[Token]) -> Span {
    let first = statement[0].span;
    statement
        .iter()
        .take_while(|t| t.span.line == first.line)
        .fold(first, |s, t| s.to(t.span))
}

/// Whether a token is this word.
pub fn is_word(token: &Token, word: &str) -> bool {
    matches!(&token.kind, Kind::Word(w) if w == word)
}

//! The lattice as text: `chain`, `power`, `product`, `panel`, or an order by its elements.

use crate::errors::{Span, TextError};
use crate::lattice::{Lattice, OrderTable, PANEL_LETTERS};
pub use crate::lattice_print::{covers, partial_order, print};
use crate::lexer::{Cursor, Statement};
use crate::names::{self, declare, lookup, MOST_NAMES};
use crate::order_text::order;
use crate::sections::no_part;

const FORMS: &str = "`chain`, `power`, `product`, `panel`, `order` or `order exactly`";

/// Reads a lattice from its statements: the one that begins with `lattice`, and those that follow it.
pub fn parse(statements: &[Statement]) -> Result<Lattice, Vec<TextError>> {
    let mut cursor = Cursor::new(&statements[0]);
    cursor.take_word("lattice");
    if cursor.take_word("order") {
        let exactly = cursor.take_word("exactly");
        cursor
            .expect_end("`exactly` or the end of the line")
            .map_err(one)?;
        return order(&statements[1..], names::whole(&statements[0]), exactly).map(Lattice::Order);
    }
    let lattice = form(&mut cursor, 0).map_err(one)?;
    cursor.expect_end("the end of the line").map_err(one)?;
    match statements.get(1) {
        None => Ok(lattice),
        Some(next) => Err(one(no_part(next))),
    }
}

fn one(error: TextError) -> Vec<TextError> {
    vec![error]
}

/// A lattice by form; `depth` counts the products around it.
fn form(cursor: &mut Cursor, depth: usize) -> Result<Lattice, TextError> {
    let span = cursor.here();
    let lattice = match cursor.peek_word() {
        Some("chain") => Lattice::Chain(element_names(cursor)?),
        Some("power") => Lattice::Power(element_names(cursor)?),
        Some("panel") => {
            cursor.take();
            Lattice::Panel
        }
        Some("product") if depth < 8 => product(cursor, depth)?,
        _ => return Err(cursor.unexpected(FORMS)),
    };
    match lattice.size() {
        1..=MOST_NAMES => Ok(lattice),
        _ => Err(TextError::new(
            span,
            "this lattice has too many elements to be written",
            format!("expected at most {MOST_NAMES} (the desk takes at most 64)"),
        )),
    }
}

fn element_names(cursor: &mut Cursor) -> Result<Vec<String>, TextError> {
    cursor.take();
    let mut declared = Vec::new();
    declare(
        names::names(cursor, "the names of the elements")?,
        &mut declared,
        "element",
    )?;
    Ok(names::texts(declared))
}

fn product(cursor: &mut Cursor, depth: usize) -> Result<Lattice, TextError> {
    cursor.take();
    let mut factors = Vec::new();
    while factors.is_empty() || cursor.at_sign("(") {
        cursor.expect_sign("(")?;
        factors.push(form(cursor, depth + 1)?);
        cursor.expect_sign(")")?;
    }
    Ok(Lattice::Product(factors))
}

/// Reads an element of a lattice.
pub fn element(cursor: &mut Cursor, lattice: &Lattice) -> Result<u8, TextError> {
    let span = cursor.here();
    let named = match lattice {
        Lattice::Chain(names) => Some(names),
        Lattice::Order(table) => Some(&table.elements),
        _ => None,
    };
    let word = cursor.peek_word();
    let own_name = named.is_some_and(|names| names.iter().any(|n| Some(n.as_str()) == word));
    if let (Some(word @ ("top" | "bottom")), false) = (word, own_name) {
        cursor.take();
        return extreme(lattice, word, span);
    }
    match lattice {
        Lattice::Chain(names)
        | Lattice::Order(OrderTable {
            elements: names, ..
        }) => {
            let (word, span) = cursor.expect_word("an element of the lattice")?;
            lookup(word, span, names, "element")
        }
        Lattice::Power(names) => subset(cursor, names),
        Lattice::Product(factors) => tuple(cursor, factors),
        Lattice::Panel => panel_element(cursor),
    }
}

fn extreme(lattice: &Lattice, word: &str, span: Span) -> Result<u8, TextError> {
    let found = if word == "top" {
        lattice.top()
    } else {
        lattice.bottom()
    };
    match found {
        Some(element) => Ok(element as u8),
        None => Err(TextError::new(
            span,
            format!("this order has no {word}"),
            "expected the name of an element",
        )),
    }
}

fn subset(cursor: &mut Cursor, names: &[String]) -> Result<u8, TextError> {
    if !cursor.take_sign("{") {
        return Err(cursor.unexpected("a set such as `{}` or `{a, b}`, `top` or `bottom`"));
    }
    let mut bits = 0u8;
    while !cursor.at_sign("}") {
        let (word, span) = cursor.expect_word("a member of the set or `}`")?;
        bits |= 1 << lookup(word, span, names, "member of the power set's base")?;
        if !cursor.at_sign("}") {
            cursor.expect_sign(",")?;
        }
    }
    cursor.expect_sign("}")?;
    Ok(bits)
}

fn tuple(cursor: &mut Cursor, factors: &[Lattice]) -> Result<u8, TextError> {
    if !cursor.take_sign("(") {
        let expected = format!(
            "`(` and an element with {} places, `top` or `bottom`",
            factors.len()
        );
        return Err(cursor.unexpected(&expected));
    }
    let mut number = 0;
    for (i, factor) in factors.iter().enumerate() {
        if i > 0 {
            cursor.expect_sign(",")?;
        }
        number = number * factor.size() + usize::from(element(cursor, factor)?);
    }
    cursor.expect_sign(")")?;
    Ok(number as u8)
}

fn panel_element(cursor: &mut Cursor) -> Result<u8, TextError> {
    let expected =
        "three letters of `y` (yes), `?` (unsure), `n` (no), such as `y?n`, `top` or `bottom`";
    let letters: Vec<char> = cursor.peek_word().unwrap_or("").chars().collect();
    let places: Option<Vec<usize>> = letters
        .iter()
        .map(|c| PANEL_LETTERS.iter().position(|l| l == c))
        .collect();
    match places.as_deref() {
        Some([a, b, c]) => {
            cursor.take();
            Ok((9 * a + 3 * b + c) as u8)
        }
        _ => Err(cursor.unexpected(expected)),
    }
}

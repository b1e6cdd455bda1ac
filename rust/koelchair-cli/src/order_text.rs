//! A lattice as an order by its elements: `lattice order` and `lattice order exactly`.

use crate::errors::{Span, TextError};
use crate::lattice::OrderTable;
use crate::lexer::{Cursor, Statement};
use crate::names::{self, lookup, Name};

fn one(error: TextError) -> Vec<TextError> {
    vec![error]
}

/// What the statements of an order have said so far.
struct Order {
    elements: Vec<Name>,
    names: Vec<String>,
    order: Vec<bool>,
    complement: Vec<Option<u8>>,
    row_given: Vec<bool>,
}

/// An order from the statements that follow `lattice order`, which stands at `head`.
pub fn order(
    statements: &[Statement],
    head: Span,
    exactly: bool,
) -> Result<OrderTable, Vec<TextError>> {
    let (declarations, rest): (Vec<_>, Vec<_>) = statements
        .iter()
        .partition(|s| names::is_word(&s[0], "elements"));
    let elements = names::declared(declarations, "element").map_err(one)?;
    if elements.is_empty() {
        let expected = "expected a line `elements` with the names of the elements after it";
        return Err(one(TextError::new(
            head,
            "the order has no elements",
            expected,
        )));
    }
    let mut order = Order::new(elements);
    let read = if exactly {
        Order::exact_line
    } else {
        Order::line
    };
    let errors: Vec<TextError> = rest
        .iter()
        .filter_map(|s| read(&mut order, Cursor::new(s)).err())
        .collect();
    match errors.is_empty() {
        true => order.finish(exactly, head),
        false => Err(errors),
    }
}

impl Order {
    fn new(elements: Vec<Name>) -> Order {
        let n = elements.len();
        Order {
            names: elements.iter().map(|e| e.text.clone()).collect(),
            elements,
            order: vec![false; n * n],
            complement: vec![None; n],
            row_given: vec![false; n],
        }
    }

    fn element(&self, cursor: &mut Cursor) -> Result<(u8, Span), TextError> {
        let (word, span) = cursor.expect_word("an element")?;
        Ok((lookup(word, span, &self.names, "element")?, span))
    }

    /// `a <= b <= c`, or `not a = b`.
    fn line(&mut self, mut cursor: Cursor) -> Result<(), TextError> {
        if cursor.take_word("not") {
            let (a, span) = self.element(&mut cursor)?;
            cursor.expect_sign("=")?;
            let (b, _) = self.element(&mut cursor)?;
            cursor.expect_end("the end of the line")?;
            self.set_complement(a, b, span)?;
            return self.set_complement(b, a, span);
        }
        let (mut low, _) = self.element(&mut cursor)?;
        loop {
            cursor.expect_sign("<=")?;
            let (high, _) = self.element(&mut cursor)?;
            self.order[usize::from(low) * self.names.len() + usize::from(high)] = true;
            low = high;
            if cursor.at_end() {
                return Ok(());
            }
        }
    }

    fn set_complement(&mut self, a: u8, b: u8, span: Span) -> Result<(), TextError> {
        let given = &mut self.complement[usize::from(a)];
        if given.is_some_and(|other| other != b) {
            let message = format!(
                "the complement of `{}` is given twice",
                self.names[usize::from(a)]
            );
            let expected = "expected one complement for each element, and it to be the complement's complement";
            return Err(TextError::new(span, message, expected));
        }
        *given = Some(b);
        Ok(())
    }

    /// `row a: 1 0 1 not b`.
    fn exact_line(&mut self, mut cursor: Cursor) -> Result<(), TextError> {
        if !cursor.take_word("row") {
            return Err(cursor.unexpected("`elements` or `row`"));
        }
        let (a, span) = self.element(&mut cursor)?;
        cursor.expect_sign(":")?;
        let (a, n) = (usize::from(a), self.names.len());
        if std::mem::replace(&mut self.row_given[a], true) {
            let message = format!("the row of `{}` is given twice", self.names[a]);
            return Err(TextError::new(
                span,
                message,
                "expected one row for each element",
            ));
        }
        for j in 0..n {
            let expected = format!(
                "0 or 1: is `{}` at or below `{}`?",
                self.names[a], self.names[j]
            );
            match cursor.peek_word() {
                Some(bit @ ("0" | "1")) => self.order[a * n + j] = bit == "1",
                _ => return Err(cursor.unexpected(&expected)),
            }
            cursor.take();
        }
        if !cursor.take_word("not") {
            return Err(cursor.unexpected("`not` and the complement"));
        }
        self.complement[a] = Some(self.element(&mut cursor)?.0);
        cursor.expect_end("the end of the line")
    }

    fn finish(mut self, exactly: bool, head: Span) -> Result<OrderTable, Vec<TextError>> {
        let missing = self.complement.iter().position(Option::is_none);
        if let Some(a) = missing {
            let name = &self.names[a];
            let (what, expected) = match exactly {
                true => (
                    "row",
                    format!("expected a line `row {name}: ... not ...` after it"),
                ),
                false => (
                    "complement",
                    format!("expected a line `not {name} = ...` after it"),
                ),
            };
            let message = format!("the {what} of `{name}` is missing");
            let span = self.elements.get(a).map_or(head, |e| e.span);
            return Err(one(TextError::new(span, message, expected)));
        }
        if !exactly {
            close(&mut self.order, self.names.len());
        }
        Ok(OrderTable {
            complement: self.complement.into_iter().flatten().collect(),
            elements: self.names,
            order: self.order,
        })
    }
}

/// Closes a relation so that it is reflexive and transitive.
fn close(order: &mut [bool], n: usize) {
    for i in 0..n {
        order[i * n + i] = true;
    }
    for through in 0..n {
        for i in 0..n {
            for j in 0..n {
                order[i * n + j] |= order[i * n + through] && order[through * n + j];
            }
        }
    }
}

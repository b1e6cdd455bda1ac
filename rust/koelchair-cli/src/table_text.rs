//! A table as text, in the lines of a listing: `row STATE: ENTRY ...` for each state of the student's, and perhaps `columns: STATE ...`, the
//! course's states in the order of the entries. The other lines of a listing are passed over. States and elements are written by name or
//! by number (`name_or_number`), elements otherwise as in a case (`lattice_text`). A text without a row, such as that of a case, is one error.

use crate::case::Case;
use crate::errors::{listed, with_nearest, Source, Span, TextError, OTHER_LINE};
use crate::lattice_text;
use crate::lexer::{lex, Cursor, Kind, Statement};
use crate::name_or_number::{digits, Sort};
use crate::names::{self, Name};

/// The words that begin a line of a listing which is no part of the table.
const PASSED_OVER: [&str; 5] = ["rounds", "score", "formula", "values", "share"];

/// Those of them below which further lines stand, set in.
const WITH_LINES_BELOW: [&str; 2] = ["formula", "values"];

/// Reads a table for an accepted case: entry (q1, q2), the number of an element, at q1·N2 + q2.
pub fn parse(source: &Source, case: &Case) -> Result<Vec<u8>, Vec<TextError>> {
    let one = |error| vec![error];
    let lexed = lex(&table_lines(source)).map_err(one)?;
    let (heads, rest): (Vec<_>, Vec<_>) =
        lexed.statements.iter().partition(|s| begins(s, "columns"));
    if let Some(error) = no_table(&rest) {
        return Err(one(error));
    }
    let by_names = !heads.is_empty() || rest.iter().any(|s| row_by_name(s));
    let mut reader = Reader::new(case, by_names);
    reader.columns(&heads).map_err(one)?;
    let errors: Vec<TextError> = rest.iter().filter_map(|s| reader.line(s).err()).collect();
    match errors.is_empty() {
        true => reader.finish(source).map_err(one),
        false => Err(errors),
    }
}

/// The text with blank lines in place of those that are passed over, so that the others keep their places.
fn table_lines(source: &Source) -> Source {
    let mut kept = source.clone();
    // The margin of the last line below which others stand.
    let mut head: Option<usize> = None;
    for line in &mut kept.lines {
        let text = line.trim_start_matches(|c: char| c.is_whitespace() || c == '\u{feff}');
        if text.is_empty() || text.starts_with('#') {
            continue;
        }
        let margin = line.chars().count() - text.chars().count();
        let after = |c: char| c.is_whitespace() || c == ':';
        let word = text.split(after).next().unwrap_or(text);
        let below = head.is_some_and(|head| margin > head);
        if !below {
            head = WITH_LINES_BELOW.contains(&word).then_some(margin);
        }
        if below || PASSED_OVER.contains(&word) {
            line.clear();
        }
    }
    kept
}

/// Whether a statement begins with this word.
fn begins(statement: &Statement, word: &str) -> bool {
    names::is_word(&statement[0], word)
}

/// Whether a statement is a row whose state is not written in digits.
fn row_by_name(statement: &Statement) -> bool {
    let state = statement.get(1).map(|token| &token.kind);
    begins(statement, "row") && matches!(state, Some(Kind::Word(word)) if !digits(word))
}

/// The error that a text is no table, for all its lines at once: none of them is a row, or it is a case, whose order can have rows too.
fn no_table(statements: &[&Statement]) -> Option<TextError> {
    let any = |word: &str| statements.iter().any(|s| begins(s, word));
    let first = statements.first()?;
    if any("row") && !any("lattice") {
        return None;
    }
    let expected = "expected `row`, a state of the student's, `:` and its entries";
    let error = TextError::new(first[0].span, "this is no table", expected);
    Some(match begins(first, "round") {
        true => error.with_help("`step --table` prints a round's table in such lines"),
        false => with_similar(error, first),
    })
}

/// What the lines of a table have said so far.
struct Reader<'a> {
    case: &'a Case,
    /// The states of the student's model, and those of the course's.
    states: [Sort; 2],
    elements: Sort,
    /// The course's states in the order of the entries.
    columns: Vec<u8>,
    table: Vec<u8>,
    /// The line of each row that was given.
    given: Vec<Option<usize>>,
}

impl<'a> Reader<'a> {
    fn new(case: &'a Case, by_names: bool) -> Reader<'a> {
        let [student, course] = [0, 1].map(|m| case.models[m].states.clone());
        let (rows, columns) = (student.len(), course.len());
        let elements = (0..case.lattice.size()).map(|e| case.lattice.name(e));
        Reader {
            case,
            states: [
                Sort::new("state of the student's model", student, by_names),
                Sort::new("state of the course's model", course, by_names),
            ],
            elements: Sort::new("element", elements.collect(), by_names),
            columns: (0..columns as u8).collect(),
            table: vec![0; rows * columns],
            given: vec![None; rows],
        }
    }

    /// `columns: STATE STATE ...`, once or not at all.
    fn columns(&mut self, heads: &[&Statement]) -> Result<(), TextError> {
        let head = match heads {
            [] => return Ok(()),
            [head] => head,
            [head, again, ..] => {
                let first = head[0].span.line;
                return Err(twice(names::whole(again), "the line `columns`", first));
            }
        };
        let course = &self.states[1];
        let mut cursor = Cursor::new(head);
        cursor.take();
        cursor.expect_sign(":")?;
        let list = names::names(&mut cursor, &format!("a {}", course.what))?;
        cursor.expect_end(&format!("a {}", course.what))?;
        self.columns.clear();
        for Name { text, span } in &list {
            let state = course.lookup(text, *span)?;
            if self.columns.contains(&state) {
                let message = format!("the column of `{text}` is given twice");
                let expected = format!("expected each {} once", course.what);
                return Err(TextError::new(*span, message, expected));
            }
            self.columns.push(state);
        }
        let missing = |q: usize| !self.columns.contains(&(q as u8));
        none_missing(course, "column", missing, cursor.here())
    }

    /// `row STATE: ENTRY ENTRY ...`.
    fn line(&mut self, statement: &Statement) -> Result<(), TextError> {
        let mut cursor = Cursor::new(statement);
        if !cursor.take_word("row") {
            return Err(no_line(statement));
        }
        let student = &self.states[0];
        let (word, span) = cursor.expect_word(&format!("a {}", student.what))?;
        let row = usize::from(student.lookup(word, span)?);
        cursor.expect_sign(":")?;
        let what = format!("the row of `{}`", student.names[row]);
        if let Some(first) = self.given[row].replace(span.line) {
            return Err(twice(span, &what, first));
        }
        self.entries(row, &what, &mut cursor)
    }

    /// The entries of a row, one for each column.
    fn entries(&mut self, row: usize, what: &str, cursor: &mut Cursor) -> Result<(), TextError> {
        let count = self.columns.len();
        let wrong = |cursor: &Cursor, how: &str, expected: &str| {
            let each = format!("a row has an entry for each {}", self.states[1].what);
            let message = format!("{what} has too {how} entries");
            let expected = format!("expected {expected}: {each}, {count} in all");
            TextError::new(cursor.here(), message, expected)
        };
        for column in self.columns.iter().map(|c| usize::from(*c)) {
            if cursor.at_end() {
                let next = format!("the entry for `{}`", self.states[1].names[column]);
                return Err(wrong(cursor, "few", &next));
            }
            self.table[row * count + column] = entry(cursor, self.case, &self.elements)?;
        }
        match cursor.at_end() {
            true => Ok(()),
            false => Err(wrong(cursor, "many", "the end of the line")),
        }
    }

    /// The table, if each row was given.
    fn finish(self, source: &Source) -> Result<Vec<u8>, TextError> {
        let end = Span {
            line: source.lines.len().saturating_sub(1),
            ..Span::default()
        };
        none_missing(&self.states[0], "row", |q| self.given[q].is_none(), end)?;
        Ok(self.table)
    }
}

/// An entry: the number of an element, or an element written as in a case.
fn entry(cursor: &mut Cursor, case: &Case, elements: &Sort) -> Result<u8, TextError> {
    let span = cursor.here();
    let number = match cursor.peek_word() {
        Some(word) => elements.number(word, span)?,
        None => None,
    };
    match number {
        Some(number) => {
            cursor.take();
            Ok(number)
        }
        None => lattice_text::element(cursor, &case.lattice),
    }
}

/// The error that something is given again that stands in another line already.
fn twice(span: Span, what: &str, first: usize) -> TextError {
    let message = format!("{what} is given twice");
    let expected = format!("expected it once: {OTHER_LINE} gives it too");
    TextError::new(span, message, expected).with_other(first)
}

/// Says which states have no row or column, if there are such.
fn none_missing(
    states: &Sort,
    what: &str,
    missing: impl Fn(usize) -> bool,
    span: Span,
) -> Result<(), TextError> {
    let numbers = (0..states.names.len()).filter(|q| missing(*q));
    let names: Vec<&str> = numbers.map(|q| states.names[q].as_str()).collect();
    if names.is_empty() {
        return Ok(());
    }
    let message = format!("there is no {what} for {}", listed(names));
    let expected = format!("expected a {what} for each {}", states.what);
    Err(TextError::new(span, message, expected))
}

/// The error that a statement is no line of a table.
fn no_line(statement: &Statement) -> TextError {
    let error = Cursor::new(statement)
        .unexpected("`columns:` and the course's states, or `row` and a state of the student's");
    with_similar(error, statement)
}

/// An error with the word of a table's line that is similar to a statement's first.
fn with_similar(error: TextError, statement: &Statement) -> TextError {
    match &statement[0].kind {
        Kind::Word(word) => with_nearest(error, word, ["columns", "row"]),
        _ => error,
    }
}

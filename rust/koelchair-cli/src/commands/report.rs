//! `report`: the listing of document 01, or with names, and below each formula from which round on entries and score bound it. Names are
//! put to the numbers of the library's listing.

use super::{document, open, read_text, table, Arguments, Failure, Opened, Outcome, Printed};
use crate::errors::Source;
use crate::facts;
use crate::json::{array, object, string, strings};
use crate::lattice_text;
use crate::lexer::{lex, Cursor};
use crate::listing::{self, Listing};
use crate::rounds::settle;
use crate::warnings::{self, warnings, Warning};
use koelchair::{Element, FormulaFacts, State};
use std::fmt::Write;
use std::io::Read;

/// Runs `report`.
pub fn report(arguments: &[String], input: &mut dyn Read) -> Outcome {
    let flags = [
        "--names",
        "--values",
        "--bytes",
        "--deny-warnings",
        "--json",
    ];
    let arguments = Arguments::read(arguments, &flags, &["--course", "--share"])?;
    let [file] = arguments.exactly(["FILE"])?;
    let text = read_text(file, &arguments, input)?;
    let bytes = text.bytes.clone();
    let mut opened = open(text).map_err(|failure| match failure {
        Failure::Refused(text, refusal, _) => {
            Failure::Refused(text, refusal, koelchair::listing(&bytes))
        }
        other => other,
    })?;
    let shares: Vec<&str> = arguments.values("--share").collect();
    let shares = shares_of(&mut opened, &shares)?;
    let facts = opened.facts()?;
    let list = warnings(&opened.text, &opened.case, &facts);
    let printed = match arguments.has("--json") {
        true => json(&opened, &facts, &shares, arguments.has("--values"), &list)?,
        false => lines(&opened, &facts, &shares, &arguments)?,
    };
    Ok(Printed::new(printed).with_warnings(&opened.text, &list, &arguments))
}

/// The listing as text, by names if they are wanted, with the values and shares that are.
fn lines(
    opened: &Opened,
    facts: &[FormulaFacts],
    shares: &[(u8, u8)],
    arguments: &Arguments,
) -> Result<String, Failure> {
    let mut lines = match arguments.has("--names") {
        true => named_listing(opened, facts)?,
        false => koelchair::listing(&opened.text.bytes),
    };
    if arguments.has("--values") {
        lines.push_str(&values_text(opened));
    }
    for (element, share) in shares {
        let _ = writeln!(lines, "share {}: {share} %", opened.case.element(*element));
    }
    Ok(lines)
}

/// The numbers of the library's listing.
fn numbers(opened: &Opened) -> Result<Listing, Failure> {
    let unread = || Failure::Other("this tool cannot read the library's listing".to_string());
    listing::of(&opened.text.bytes).ok_or_else(unread)
}

/// The listing with names in place of numbers, and below each formula from which round on entries and score bound it.
fn named_listing(opened: &Opened, facts: &[FormulaFacts]) -> Result<String, Failure> {
    let (case, listing) = (&opened.case, numbers(opened)?);
    let name = |e: &u8| case.element(*e);
    let mut text = format!("rounds {}\n", listing.rounds);
    text.push_str(&table::listed(case, listing.rows.iter().map(Vec::as_slice)));
    let _ = writeln!(text, "score {}", name(&listing.score));
    let formulas = case.formulas.iter().zip(&listing.formulas);
    for ((named, [student, course]), facts) in formulas.zip(facts) {
        let (formula, student, course) = (&named.name, name(student), name(course));
        let bounded = facts::bounded(*facts);
        let _ = writeln!(
            text,
            "formula {formula}: student {student}, course {course}\n  {bounded}"
        );
    }
    Ok(text)
}

/// A formula's value at each state of a model.
fn values_of(opened: &Opened, formula: usize, model: usize) -> Vec<String> {
    let (case, desk) = (&opened.case, &opened.desk);
    let value = |q: usize| match desk.value(formula as u8, model as u8 + 1, State(q as u8)) {
        Ok(value) => case.element(value.element.0),
        Err(_) => "refused".to_string(),
    };
    (0..case.models[model].size()).map(value).collect()
}

/// Each formula's value at each state of both models.
fn values_text(opened: &Opened) -> String {
    let case = &opened.case;
    let mut text = String::new();
    if case.formulas.is_empty() {
        return text;
    }
    for (m, model) in case.models.iter().enumerate() {
        let _ = writeln!(text, "values in model {}", m + 1);
        let mut rows = vec![vec![String::new()]];
        rows[0].extend(model.states.iter().cloned());
        for (f, named) in case.formulas.iter().enumerate() {
            let mut row = vec![named.name.clone()];
            row.extend(values_of(opened, f, m));
            rows.push(row);
        }
        text.push_str(&table::columns(&rows));
    }
    text
}

/// Elements that are written as in a text, each with the per cent of entries at or above it. Afterwards the desk is settled.
fn shares_of(opened: &mut Opened, written: &[&str]) -> Result<Vec<(u8, u8)>, Failure> {
    let elements: Vec<u8> = written
        .iter()
        .map(|w| element(opened, w))
        .collect::<Result<_, _>>()?;
    if !elements.is_empty() {
        settle(&mut opened.desk);
    }
    let share = |e: u8| match opened.desk.share(Element(e)) {
        Ok(share) => Ok((e, share)),
        Err(refusal) => Err(Failure::Other(refusal.to_string())),
    };
    elements.into_iter().map(share).collect()
}

/// The element that an option gives, written as in a text.
pub fn element(opened: &Opened, written: &str) -> Result<u8, Failure> {
    let source = Source::new("--share", written);
    let failed = |error| Failure::Text(source.clone(), vec![error]);
    let lexed = lex(&source).map_err(failed)?;
    let statement = lexed
        .statements
        .first()
        .ok_or_else(|| Failure::Usage("`--share` wants an element".to_string()))?;
    let mut cursor = Cursor::new(statement);
    let element = lattice_text::element(&mut cursor, &opened.case.lattice).map_err(failed)?;
    cursor
        .expect_end("the end of the element")
        .map_err(failed)?;
    Ok(element)
}

fn json(
    opened: &Opened,
    facts: &[FormulaFacts],
    shares: &[(u8, u8)],
    values: bool,
    list: &[Warning],
) -> Result<String, Failure> {
    let (case, listing) = (&opened.case, numbers(opened)?);
    let name = |e: u8| string(&case.element(e));
    let row = |row: &Vec<u8>| array(row.iter().map(|e| name(*e)));
    let share = |(element, share): &(u8, u8)| {
        object(&[("element", name(*element)), ("percent", share.to_string())])
    };
    let formulas = listing.formulas.iter().zip(facts).enumerate();
    let formulas =
        formulas.map(|(f, (whole, facts))| formula_json(opened, f, *whole, *facts, values));
    let fields = vec![
        ("accepted", "true".to_string()),
        ("rounds", listing.rounds.to_string()),
        ("rows", strings(&case.models[0].states)),
        ("columns", strings(&case.models[1].states)),
        ("table", array(listing.rows.iter().map(row))),
        ("score", name(listing.score)),
        ("formulas", array(formulas)),
        ("shares", array(shares.iter().map(share))),
        (
            "warnings",
            array(list.iter().map(|w| warnings::json(&opened.text, w))),
        ),
    ];
    Ok(document("report", fields))
}

/// A formula with its values on both models and its facts, and with its values at their states where these are wanted.
fn formula_json(
    opened: &Opened,
    f: usize,
    [student, course]: [u8; 2],
    facts: FormulaFacts,
    values: bool,
) -> String {
    let case = &opened.case;
    let mut fields = vec![
        ("name", string(&case.formulas[f].name)),
        ("student", string(&case.element(student))),
        ("course", string(&case.element(course))),
    ];
    fields.extend(facts::fields(facts));
    if values {
        let [of_student, of_course] = [0, 1].map(|m| strings(values_of(opened, f, m)));
        fields.extend([("studentStates", of_student), ("courseStates", of_course)]);
    }
    object(&fields)
}

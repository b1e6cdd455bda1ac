//! `check`: is the case accepted, and what does it hold.

use super::{document, open, read_course, Arguments, Opened, Outcome, Printed};
use crate::facts;
use crate::formula_text;
use crate::json::{array, object, string, strings};
use crate::listing;
use crate::model::Model;
use crate::warnings::{self, ends, warnings};
use koelchair::FormulaFacts;
use std::fmt::Write;
use std::io::Read;

/// Runs `check`.
pub fn check(arguments: &[String], input: &mut dyn Read) -> Outcome {
    let arguments = Arguments::read(
        arguments,
        &["--bytes", "--deny-warnings", "--json"],
        &["--course"],
    )?;
    let [file] = arguments.exactly(["FILE"])?;
    let opened = open(read_course(file, &arguments, input)?)?;
    let facts = opened.facts()?;
    let list = warnings(&opened.text, &opened.case, &facts);
    let printed = match arguments.has("--json") {
        true => {
            let mut fields = fields(&opened, &facts);
            let said = list.iter().map(|w| warnings::json(&opened.text, w));
            fields.push(("warnings", array(said)));
            document("check", fields)
        }
        false => contents(&opened, &facts),
    };
    Ok(Printed::new(printed).with_warnings(&opened.text, &list, &arguments))
}

/// What the course's model scores against itself, of a course's file alone.
fn ceiling(opened: &Opened) -> Option<String> {
    let listing = listing::of(&opened.text.bytes).filter(|_| opened.text.course_alone)?;
    Some(opened.case.element(listing.score))
}

/// The numbers of the models that the text has.
fn models(opened: &Opened) -> impl Iterator<Item = (usize, &Model)> {
    let models = opened.case.models.iter().enumerate();
    models.skip(usize::from(opened.text.course_alone))
}

fn contents(opened: &Opened, facts: &[FormulaFacts]) -> String {
    let case = &opened.case;
    let mut text = match ceiling(opened) {
        None => format!("accepted, {} bytes\n", opened.text.bytes.len()),
        Some(ceiling) => format!(
            "accepted as a course's file: it has no model 1\nceiling, the course's model against itself: {ceiling}\n"
        ),
    };
    let _ = writeln!(text, "lattice, elements: {}", case.lattice.size());
    let propositions = match case.propositions.is_empty() {
        true => "none".to_string(),
        false => case.propositions.join(" "),
    };
    let _ = writeln!(text, "propositions: {propositions}");
    for (i, model) in models(opened) {
        let title = model
            .title
            .as_ref()
            .map_or(String::new(), |t| format!(" ({t})"));
        let ends = match end_states(opened, model) {
            ends if ends.is_empty() => String::new(),
            ends => format!("; leads nowhere: {}", ends.join(" ")),
        };
        let (number, states) = (i + 1, model.size());
        let _ = writeln!(text, "model {number}{title}, states: {states}{ends}");
    }
    for (named, facts) in case.formulas.iter().zip(facts) {
        let formula = formula_text::print(&named.formula, &case.propositions);
        let (name, bounded) = (&named.name, facts::bounded(*facts));
        let _ = writeln!(text, "formula {name}: {formula}\n  {bounded}");
    }
    text
}

/// The states of a model from which no transition goes on.
fn end_states<'a>(opened: &Opened, model: &'a Model) -> Vec<&'a str> {
    let bottom = opened.case.lattice.left_out();
    let names = model.states.iter().enumerate();
    names
        .filter(|(q, _)| ends(model, *q, bottom))
        .map(|(_, name)| name.as_str())
        .collect()
}

fn fields(opened: &Opened, facts: &[FormulaFacts]) -> Vec<(&'static str, String)> {
    let case = &opened.case;
    let or_null = |said: Option<&str>| said.map_or("null".to_string(), string);
    let model = |(i, model): (usize, &Model)| {
        object(&[
            ("number", (i + 1).to_string()),
            ("title", or_null(model.title.as_deref())),
            ("states", strings(&model.states)),
            ("leadsNowhere", strings(end_states(opened, model))),
        ])
    };
    let formulas = case.formulas.iter().zip(facts).map(|(named, facts)| {
        let text = formula_text::print(&named.formula, &case.propositions);
        let mut fields = vec![("name", string(&named.name)), ("formula", string(&text))];
        fields.extend(facts::fields(*facts));
        object(&fields)
    });
    let n = case.lattice.size();
    vec![
        ("accepted", "true".to_string()),
        ("title", or_null(case.title.as_deref())),
        ("bytes", opened.text.bytes.len().to_string()),
        ("elements", strings((0..n).map(|a| case.lattice.name(a)))),
        ("propositions", strings(&case.propositions)),
        ("models", array(models(opened).map(model))),
        ("formulas", array(formulas)),
        ("ceiling", or_null(ceiling(opened).as_deref())),
    ]
}

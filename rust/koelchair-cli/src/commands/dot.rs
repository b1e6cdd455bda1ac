//! `dot`: both models as a drawing for Graphviz.

use super::{read_course, Arguments, Failure, Outcome, Printed};
use crate::case::Case;
use std::fmt::Write;
use std::io::Read;

/// Runs `dot`.
pub fn dot(arguments: &[String], input: &mut dyn Read) -> Outcome {
    let arguments = Arguments::read(arguments, &["--bytes"], &["--course"])?;
    let [file] = arguments.exactly(["FILE"])?;
    let text = read_course(file, &arguments, input)?;
    let Some(case) = &text.case else {
        let message = "these bytes have not the form of a case, so there is nothing to draw";
        return Err(Failure::Other(message.to_string()));
    };
    let first = usize::from(text.course_alone);
    Ok(Printed::new(drawing(case, first)))
}

/// Both models side by side; of a course's file model 2 alone.
fn drawing(case: &Case, first: usize) -> String {
    let title = case.title.as_deref().unwrap_or("koelchair");
    let mut text = format!(
        "digraph koelchair {{\n  label={}; labelloc=t; fontname=\"sans-serif\";\n  \
         node [shape=ellipse, fontname=\"sans-serif\"]; edge [fontname=\"sans-serif\"];\n",
        quoted(title)
    );
    for model in first..2 {
        text.push_str(&cluster(case, model));
    }
    text + "}\n"
}

fn cluster(case: &Case, m: usize) -> String {
    let model = &case.models[m];
    let (bottom, top) = (case.lattice.left_out(), case.lattice.top());
    let is_top = |value: u8| top == Some(usize::from(value));
    let node = |q: usize| format!("m{}_{q}", m + 1);
    let mut text = format!("  subgraph cluster_{} {{\n", m + 1);
    let _ = writeln!(text, "    label={};", quoted(&case.model_name(m)));
    for (q, state) in model.states.iter().enumerate() {
        let label = [vec![state.clone()], propositions(case, m, q)].concat();
        let _ = writeln!(
            text,
            "    {} [label={}];",
            node(q),
            quoted(&label.join("\n"))
        );
        let initial = model.initial[q];
        if initial != bottom {
            let start = format!("start{}_{q}", m + 1);
            let _ = writeln!(text, "    {start} [shape=point, label=\"\"];");
            let style = style(case, initial, is_top(initial));
            let _ = writeln!(text, "    {start} -> {}{style};", node(q));
        }
    }
    for (i, value) in model.transitions.iter().enumerate() {
        let (q, r) = (i / model.size(), i % model.size());
        if *value != bottom {
            let style = style(case, *value, is_top(*value));
            let _ = writeln!(text, "    {} -> {}{style};", node(q), node(r));
        }
    }
    text + "  }\n"
}

/// The propositions above bottom at a state, with their values unless these are top.
fn propositions(case: &Case, m: usize, q: usize) -> Vec<String> {
    let (bottom, top) = (case.lattice.left_out(), case.lattice.top());
    let k = case.propositions.len();
    let value = |p: usize| case.models[m].proposition(q, k, p);
    let said = |p: usize| match top == Some(usize::from(value(p))) {
        true => case.propositions[p].clone(),
        false => format!("{} = {}", case.propositions[p], case.element(value(p))),
    };
    (0..k).filter(|p| value(*p) != bottom).map(said).collect()
}

/// An arrow of the value top is plain; another is dashed and says its value.
fn style(case: &Case, value: u8, top: bool) -> String {
    match top {
        true => String::new(),
        false => format!(" [style=dashed, label={}]", quoted(&case.element(value))),
    }
}

/// A string of Graphviz.
fn quoted(text: &str) -> String {
    let escaped = text.replace('\\', "\\\\").replace('"', "\\\"");
    format!("\"{}\"", escaped.replace('\n', "\\n"))
}

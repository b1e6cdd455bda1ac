//! What the page shows, as JSON. Entries of every round, scores, T, lowerings, the formulas' values and their facts come from the library.
//! Names, transitions and the order are those of the case. Levels, covering pairs and the table of (not a) joined with b come from the
//! order, by `tables` as in `explain`: the library has no call for a single operation of the lattice. Reasons are those of `why`.

use super::why;
use crate::case::{Case, NamedFormula};
use crate::commands::why::{ceiling, OWNERS};
use crate::commands::Failure;
use crate::facts;
use crate::formula_text;
use crate::json::{array, numbers, object, string, strings};
use crate::lattice::Lattice;
use crate::lattice_text::covers;
use crate::model::Model;
use crate::progress::Progress;
use crate::reasons::Reasoning;
use crate::rounds::{finish_round, History};
use crate::tables::Operations;
use koelchair::{Desk, FormulaValue, State, StepAnswer};

/// The JSON of an accepted case, its bytes, and whose the two models are; the ceiling is what the course's scores against itself.
pub fn of(case: &Case, bytes: &[u8], owners: [&str; 2]) -> Result<String, Failure> {
    let no_lattice = "the library accepts this lattice, and this tool finds no meets in it";
    let operations =
        Operations::of(&case.lattice).ok_or_else(|| Failure::Other(no_lattice.to_string()))?;
    let mut desk = open(bytes)?;
    let first = numbers(desk.show());
    let (rounds, lowerings) = rounds(&mut desk);
    let formula = |(f, named)| formula(case, &desk, f, named);
    let formulas: Vec<String> = case
        .formulas
        .iter()
        .enumerate()
        .map(formula)
        .collect::<Result<_, _>>()?;
    let history = History::of(&mut open(bytes)?);
    let reasoning = Reasoning {
        case,
        operations: &operations,
        history: &history,
    };
    let models = case.models.iter();
    Ok(object(&[
        ("title", string(case.title.as_deref().unwrap_or(""))),
        ("about", string(&case.head.join(" "))),
        ("owners", strings(owners)),
        ("ceiling", ceiling_of(case, owners)),
        ("lattice", lattice(&case.lattice, &operations)),
        ("propositions", strings(&case.propositions)),
        ("models", array(models.map(|m| model(m, operations.bottom)))),
        ("formulas", array(formulas)),
        ("first", first),
        ("rounds", array(rounds)),
        ("lowerings", numbers(lowerings)),
        ("why", why::of(&reasoning, desk.score().0, owners)?),
    ]))
}

/// A desk at round 0.
fn open(bytes: &[u8]) -> Result<Desk, Failure> {
    Desk::open(bytes).map_err(|refusal| Failure::Other(refusal.to_string()))
}

/// What the course's model scores against itself, whichever of the two it is.
fn ceiling_of(case: &Case, owners: [&str; 2]) -> String {
    let ceiling = match owners == OWNERS {
        true => ceiling(case),
        false => ceiling(&exchanged(case)),
    };
    ceiling.map_or("null".to_string(), |e| e.to_string())
}

/// The case with its models exchanged.
pub fn exchanged(case: &Case) -> Case {
    let mut other = case.clone();
    other.models.swap(0, 1);
    other
}

/// For each round from 0 to T: its score, then for each entry that differs from the round before its place and its element; and the
/// library's count of lowerings, those of all rounds up to it. The last is the round that the library calls settled. An entry never
/// rises, so there are at most N1·N2·(n − 1) changes.
fn rounds(desk: &mut Desk) -> (Vec<String>, Vec<u32>) {
    let mut rounds = vec![numbers([desk.score().0])];
    let mut lowerings = vec![desk.standing().lowerings];
    let mut progress = Progress::new("round");
    loop {
        let before = desk.show().to_vec();
        let answer = finish_round(desk);
        progress.at(desk.standing().round);
        let changes = desk
            .show()
            .iter()
            .enumerate()
            .filter(|(i, e)| before[*i] != **e);
        let mut round = vec![usize::from(desk.score().0)];
        round.extend(changes.flat_map(|(i, e)| [i, usize::from(*e)]));
        rounds.push(numbers(round));
        lowerings.push(desk.standing().lowerings);
        if matches!(answer, StepAnswer::Settled { .. }) {
            return (rounds, lowerings);
        }
    }
}

/// Names, complements, levels, a panel's letters, covering pairs, (not a) joined with b at a·n + b, and whether a is at or below b.
fn lattice(lattice: &Lattice, operations: &Operations) -> String {
    let n = lattice.size();
    let pairs = || (0..n * n).map(move |i| (i / n, i % n));
    let element = |(a, b)| (a as u8, b as u8);
    let implies = pairs().map(element).map(|(a, b)| operations.implies(a, b));
    let at_most = pairs()
        .map(element)
        .map(|(a, b)| u8::from(operations.at_most(a, b)));
    let covering = pairs()
        .filter(|(a, b)| covers(lattice, *a, *b))
        .map(|(a, b)| numbers([a, b]));
    object(&[
        ("names", strings((0..n).map(|a| lattice.name(a)))),
        ("complement", numbers((0..n).map(|a| lattice.complement(a)))),
        ("height", numbers(heights(lattice))),
        ("covers", array(covering)),
        ("implies", numbers(implies)),
        ("atMost", numbers(at_most)),
        ("letters", array(letters(lattice))),
        ("bottom", operations.bottom.to_string()),
        ("top", operations.top.to_string()),
    ])
}

/// For a panel each element's letters, from 0 (no) to 2 (yes); nothing for another lattice.
fn letters(lattice: &Lattice) -> Vec<String> {
    let each = |a: usize| numbers([a / 9 % 3, a / 3 % 3, a % 3]);
    match lattice {
        Lattice::Panel => (0..lattice.size()).map(each).collect(),
        _ => Vec::new(),
    }
}

/// Each element's level: the length of the longest way up to it from bottom.
fn heights(lattice: &Lattice) -> Vec<usize> {
    let n = lattice.size();
    let below = |a: usize| (0..n).filter(move |b| *b != a && lattice.at_most(*b, a));
    let mut rising: Vec<usize> = (0..n).collect();
    rising.sort_by_key(|a| below(*a).count());
    let mut heights = vec![0; n];
    for a in rising {
        heights[a] = below(a).map(|b| heights[b] + 1).max().unwrap_or(0);
    }
    heights
}

/// A model; transitions of the value bottom are left out.
fn model(model: &Model, bottom: u8) -> String {
    let size = model.size();
    let transitions = model
        .transitions
        .iter()
        .enumerate()
        .filter(|(_, value)| **value != bottom)
        .map(|(i, value)| numbers([i / size, i % size, usize::from(*value)]));
    object(&[
        ("title", string(model.title.as_deref().unwrap_or(""))),
        ("states", strings(&model.states)),
        ("initial", numbers(&model.initial)),
        ("propositions", numbers(&model.propositions)),
        ("transitions", array(transitions)),
    ])
}

/// A formula with its values on both whole models and at each of their states, and its facts.
fn formula(case: &Case, desk: &Desk, f: usize, named: &NamedFormula) -> Result<String, Failure> {
    let refused = |refusal: koelchair::Refusal| Failure::Other(refusal.to_string());
    let elements = |list: Vec<FormulaValue>| numbers(list.iter().map(|v| v.element.0));
    let whole = |m: u8| desk.whole(f as u8, m).map_err(refused);
    let (student, course) = (whole(1)?, whole(2)?);
    let values = |m: u8| {
        let states = 0..case.models[usize::from(m) - 1].size();
        let values = states.map(|q| desk.value(f as u8, m, State(q as u8)));
        values
            .collect::<Result<Vec<_>, _>>()
            .map(elements)
            .map_err(refused)
    };
    let text = formula_text::print(&named.formula, &case.propositions);
    let mut fields = vec![
        ("name", string(&named.name)),
        ("text", string(&text)),
        ("facts", string(&facts::words(student.facts))),
        ("whole", elements(vec![student, course])),
        ("values", array([values(1)?, values(2)?])),
    ];
    fields.extend(facts::fields(student.facts));
    Ok(object(&fields))
}

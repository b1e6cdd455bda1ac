//! `explain`: what held the entry of a pair down, round by round. The entries are the library's; the parts of each entry are
//! worked out by this tool (`tables`) and compared with it; that they differ would be an error.

use super::{open, read_text, Arguments, Failure, Opened, Outcome, Printed};
use crate::case::Case;
use crate::errors::{expected_one_of, nearest};
use crate::progress::Progress;
use crate::rounds::finish_round;
use crate::tables::{parts, Answer, Operations, Part};
use koelchair::StepAnswer;
use std::fmt::Write;
use std::io::Read;

/// Runs `explain`.
pub fn explain(arguments: &[String], input: &mut dyn Read) -> Outcome {
    let arguments = Arguments::read(arguments, &["--all", "--bytes"], &["--course"])?;
    let [file, state1, state2] = arguments.exactly(["FILE", "STATE1", "STATE2"])?;
    let mut opened = open(read_text(file, &arguments, input)?)?;
    let pair = (
        state(&opened.case, 0, state1)?,
        state(&opened.case, 1, state2)?,
    );
    let no_lattice = || {
        Failure::Other(
            "the library accepts this lattice, and this tool finds no meets in it".to_string(),
        )
    };
    let operations = Operations::of(&opened.case.lattice).ok_or_else(no_lattice)?;
    let explanation = Explanation {
        operations,
        pair,
        all: arguments.has("--all"),
    };
    explanation.rounds(&mut opened).map(Printed::new)
}

/// The number of a state of a model.
pub fn state(case: &Case, model: usize, name: &str) -> Result<usize, Failure> {
    let states = &case.models[model].states;
    states.iter().position(|s| s == name).ok_or_else(|| {
        let names = || states.iter().map(String::as_str);
        let help = match nearest(name, names()) {
            Some(near) => format!("a similar name is `{near}`"),
            None => expected_one_of(names()),
        };
        let model = model + 1;
        Failure::Usage(format!("`{name}` is no state of model {model}; {help}"))
    })
}

/// What is explained, and how.
struct Explanation {
    operations: Operations,
    pair: (usize, usize),
    all: bool,
}

impl Explanation {
    /// The pair's entry in each round; a failure if the parts of one do not meet to it.
    fn rounds(&self, opened: &mut Opened) -> Result<String, Failure> {
        let place = self.pair.0 * opened.case.models[1].size() + self.pair.1;
        let mut before = opened.desk.show().to_vec();
        let mut text = self.heading(&opened.case, before[place]);
        let mut agrees = true;
        let mut progress = Progress::new("round");
        loop {
            let settled = matches!(finish_round(&mut opened.desk), StepAnswer::Settled { .. });
            let (entry, round) = (opened.desk.show()[place], opened.desk.standing().round);
            progress.at(round);
            let last = if settled { " (settled)" } else { "" };
            let _ = writeln!(text, "round {round}{last}: {}", opened.case.element(entry));
            agrees &= self.entry(&opened.case, &before, entry, &mut text);
            match (settled, agrees) {
                (true, true) => return Ok(text),
                (true, false) => return Err(Failure::Other(text)),
                (false, _) => before = opened.desk.show().to_vec(),
            }
        }
    }

    fn heading(&self, case: &Case, entry: u8) -> String {
        let [first, second] = [(0, self.pair.0), (1, self.pair.1)]
            .map(|(m, q)| format!("{} of {}", case.models[m].states[q], case.model_name(m)));
        let entry = case.element(entry);
        format!("{first} against {second}\nround 0: {entry} (every entry begins at top)\n")
    }

    /// Puts the parts of an entry of the round after `table` to the text; whether they meet to the library's entry.
    fn entry(&self, case: &Case, table: &[u8], entry: u8, text: &mut String) -> bool {
        let parts = parts(case, &self.operations, table, self.pair.0, self.pair.1);
        let shown = |part: &&Part| self.all || part.gives() != self.operations.top;
        for part in parts.iter().filter(shown) {
            let _ = writeln!(text, "  {}", self.part(case, part));
        }
        if !parts.iter().any(|part| shown(&part)) {
            text.push_str("  nothing holds it down\n");
        }
        let meet = parts.iter().fold(self.operations.top, |meet, part| {
            self.operations.meet(meet, part.gives())
        });
        if meet != entry {
            let meet = case.element(meet);
            let _ = writeln!(
                text,
                "  ERROR: these parts meet to {meet}, which is not the library's entry"
            );
        }
        meet == entry
    }

    fn part(&self, case: &Case, part: &Part) -> String {
        let name = |e: u8| case.element(e);
        match part {
            Part::Proposition {
                proposition,
                values,
                gives,
            } => format!(
                "{}: proposition {} is {} in model 1 and {} in model 2",
                name(*gives),
                case.propositions[*proposition],
                name(values[0]),
                name(values[1])
            ),
            Part::Transition {
                to,
                value,
                best,
                join,
                gives,
            } => {
                let (from, target) = (
                    &case.models[0].states[self.pair.0],
                    &case.models[0].states[*to],
                );
                format!(
                    "{}: transition {from} -> {target}: {} of model 1; {}",
                    name(*gives),
                    name(*value),
                    self.answers(case, target, best, *join)
                )
            }
        }
    }

    fn answers(&self, case: &Case, target: &str, best: &[Answer], join: u8) -> String {
        let from = &case.models[1].states[self.pair.1];
        let said = |a: &Answer| {
            let to = &case.models[1].states[a.to];
            let (value, entry) = (case.element(a.value), case.element(a.entry));
            let gives = case.element(a.gives);
            format!("{from} -> {to}: {value} met with entry ({target}, {to}) {entry} gives {gives}")
        };
        match best {
            [] => format!("model 2 has no transition from {from}"),
            [one] => format!("best answer {}", said(one)),
            several => {
                let list: Vec<String> = several.iter().map(said).collect();
                format!(
                    "best answers {}, together {}",
                    list.join("; "),
                    case.element(join)
                )
            }
        }
    }
}

#[cfg(test)]
mod tests {
    use super::Explanation;
    use crate::errors::Source;
    use crate::parse::parse;
    use crate::tables::Operations;

    const TEXT: &str =
        "lattice chain no yes\npropositions p\nmodel 1\n  states a\n  a: p\nmodel 2\n  states b\n";

    #[test]
    fn an_entry_that_the_parts_do_not_meet_to_is_said() {
        let case = parse(Source::new("text", TEXT))
            .expect("the text can be read")
            .case
            .expect("it has names");
        let operations = Operations::of(&case.lattice).expect("a lattice");
        let explanation = Explanation {
            operations,
            pair: (0, 0),
            all: false,
        };
        let mut text = String::new();
        assert!(explanation.entry(&case, &[1], 0, &mut text));
        assert_eq!(
            text,
            "  no: proposition p is yes in model 1 and no in model 2\n"
        );
        assert!(!explanation.entry(&case, &[1], 1, &mut text));
        let wrong = "ERROR: these parts meet to no, which is not the library's entry\n";
        assert!(text.ends_with(wrong));
    }
}

//! `judge`: whether a table that is handed in is sound, that is, whether no entry is too high; a sound one may be tight too. Yes or no, and
//! what a round worked on the table gives for each pair, are answers of the library. The tool compares the table with that round by the
//! lattice's order, to count, and to name the first pair that is too high and for whom it is (`views`); that it found otherwise than the
//! library would be an error.

use super::input::{read_letters, shown_name};
use super::{document, open, read_text, Arguments, Failure, Opened, Outcome, Printed};
use crate::case::Case;
use crate::errors::Source;
use crate::json::{object, string, strings};
use crate::table_text;
use crate::views::{views, View};
use koelchair::{Desk, DeskRef, Refusal, State, TABLE_LENGTH};
use std::io::Read;

const YES: &str = "yes: the table is sound, no entry is too high";
const TIGHT: &str = "tight: a round worked on it changes nothing, so it is a simulation";

/// Runs `judge`.
pub fn judge(arguments: &[String], input: &mut dyn Read) -> Outcome {
    let arguments = Arguments::read(arguments, &["--bytes", "--json"], &["--course"])?;
    let [file, table] = arguments.exactly(["FILE", "TABLE"])?;
    let files = arguments.values("--course").chain([file, table]);
    if files.filter(|f| *f == "-").count() > 1 {
        let message = "standard input is named twice; `-` can stand for one file alone";
        return Err(Failure::Usage(message.to_string()));
    }
    let opened = open(read_text(file, &arguments, input)?)?;
    let table = read_table(table, &opened.case, input)?;
    let judged = Judged::of(&opened, &table)?;
    let printed = match arguments.has("--json") {
        true => document("judge", judged.fields(&opened.case)),
        false => judged.words(&opened.case),
    };
    Ok(Printed::new(printed))
}

/// The table in a file.
fn read_table(file: &str, case: &Case, input: &mut dyn Read) -> Result<Vec<u8>, Failure> {
    let source = Source::new(shown_name(file), &read_letters(file, input)?);
    table_text::parse(&source, case).map_err(|errors| Failure::Text(source, errors))
}

/// A round worked on a table of N1·N2 elements, that is F of it, entry by entry from the library: it is lent the desk with this table in place of
/// both of its own.
fn next_round(desk: &Desk, table: &[u8]) -> Result<Vec<u8>, Refusal> {
    let mut padded = table.to_vec();
    padded.resize(TABLE_LENGTH, 0);
    let lent = DeskRef {
        first: &padded,
        second: &padded,
        ..desk.lent()
    };
    let columns = usize::from(desk.standing().states2);
    let state = |q: usize| State(q as u8);
    let entry = |i: usize| lent.entry(state(i / columns), state(i % columns));
    (0..table.len()).map(|i| Ok(entry(i)?.value.0)).collect()
}

/// What is said of a table.
struct Judged {
    /// How many entries it has.
    entries: usize,
    verdict: Verdict,
}

/// Yes or no.
#[derive(Debug, PartialEq, Eq)]
enum Verdict {
    /// Sound; a round worked on it raises so many entries.
    Sound { raised: usize },
    /// Not sound; so many entries are too high, and this is the first.
    NotSound { count: usize, first: TooHigh },
}

/// The first pair whose entry is too high.
#[derive(Debug, PartialEq, Eq)]
struct TooHigh {
    /// The state of the student's, and that of the course's.
    pair: (usize, usize),
    /// The entry that was handed in.
    entry: u8,
    /// That of a round worked on the table.
    next: u8,
}

impl Judged {
    fn of(opened: &Opened, table: &[u8]) -> Result<Judged, Failure> {
        let refused = |refusal: Refusal| Failure::Other(refusal.to_string());
        let sound = opened.desk.judge(table).map_err(refused)?;
        let next = next_round(&opened.desk, table).map_err(refused)?;
        let verdict = compare(&opened.case, table, &next);
        agreed(sound, &verdict)?;
        Ok(Judged {
            entries: table.len(),
            verdict,
        })
    }

    fn words(&self, case: &Case) -> String {
        let counted = |count: usize| match count {
            1 => format!("1 entry of {}", self.entries),
            _ => format!("{count} entries of {}", self.entries),
        };
        match &self.verdict {
            Verdict::Sound { raised: 0 } => format!("{YES}\n{TIGHT}\n"),
            Verdict::Sound { raised } => {
                let raised = counted(*raised);
                format!("{YES}\nnot tight: a round worked on it raises {raised}\n")
            }
            Verdict::NotSound { count, first } => {
                let (are, which) = match count {
                    1 => ("is", ""),
                    _ => ("are", "the first, "),
                };
                let (count, pair) = (counted(*count), first.words(case));
                format!("no: the table is not sound, {count} {are} too high\n{which}{pair}\n")
            }
        }
    }

    fn fields(&self, case: &Case) -> Vec<(&'static str, String)> {
        let null = "null".to_string();
        let (raised, count, first) = match &self.verdict {
            Verdict::Sound { raised } => (raised.to_string(), 0, null),
            Verdict::NotSound { count, first } => (null, *count, first.json(case)),
        };
        let tight = self.verdict == Verdict::Sound { raised: 0 };
        vec![
            ("accepted", "true".to_string()),
            ("sound", (count == 0).to_string()),
            ("tight", tight.to_string()),
            ("entries", self.entries.to_string()),
            ("raised", raised),
            ("tooHighCount", count.to_string()),
            ("tooHigh", first),
        ]
    }
}

/// A table beside a round worked on it: how many entries are too high and the first of them, or how many are raised.
fn compare(case: &Case, table: &[u8], next: &[u8]) -> Verdict {
    let (lattice, columns) = (&case.lattice, case.models[1].size());
    let at_most = |i: &usize| lattice.at_most(usize::from(table[*i]), usize::from(next[*i]));
    let too_high: Vec<usize> = (0..table.len()).filter(|i| !at_most(i)).collect();
    match too_high.first() {
        None => Verdict::Sound {
            raised: (0..table.len()).filter(|i| table[*i] != next[*i]).count(),
        },
        Some(&i) => Verdict::NotSound {
            count: too_high.len(),
            first: TooHigh {
                pair: (i / columns, i % columns),
                entry: table[i],
                next: next[i],
            },
        },
    }
}

/// The library says yes exactly where the tool finds no entry that is too high.
fn agreed(sound: bool, verdict: &Verdict) -> Result<(), Failure> {
    let said = match (sound, verdict) {
        (true, Verdict::Sound { .. }) | (false, Verdict::NotSound { .. }) => return Ok(()),
        (true, _) => "the library says yes to this table, and this tool finds an entry too high",
        (false, _) => "the library says no to this table, and this tool finds no entry too high",
    };
    Err(Failure::Other(said.to_string()))
}

impl TooHigh {
    /// The names of the student's state and of the course's.
    fn states<'a>(&self, case: &'a Case) -> [&'a str; 2] {
        [(0, self.pair.0), (1, self.pair.1)].map(|(m, q)| case.models[m].states[q].as_str())
    }

    /// For whom the entry is too high, as `why` names the views: those in which it is above what the round gives. None where there is
    /// one view alone.
    fn whose(&self, case: &Case) -> Vec<String> {
        let entry = usize::from(self.entry);
        let reached = |view: &View| case.lattice.at_most(usize::from(view.asked), entry);
        let views = views(&case.lattice, self.next).into_iter();
        let labels = views.filter(reached).map(|view| view.label);
        labels.filter(|label| !label.is_empty()).collect()
    }

    fn words(&self, case: &Case) -> String {
        let [student, course] = self.states(case);
        let [entry, next] = [self.entry, self.next].map(|e| case.element(e));
        let [high, low] = [self.entry, self.next].map(usize::from);
        let gives = match case.lattice.at_most(low, high) {
            true => format!("gives only {next}"),
            false => format!("gives {next}, which is not in order with it"),
        };
        let whose = match &self.whose(case)[..] {
            [] => String::new(),
            labels => format!(" (too high for {})", labels.join(" and ")),
        };
        format!("student {student}, course {course}: the table says {entry}, and a round worked on it {gives}{whose}")
    }

    fn json(&self, case: &Case) -> String {
        let [student, course] = self.states(case);
        object(&[
            ("student", string(student)),
            ("course", string(course)),
            ("entry", string(&case.element(self.entry))),
            ("next", string(&case.element(self.next))),
            ("views", strings(self.whose(case))),
        ])
    }
}

#[cfg(test)]
mod tests {
    use super::{agreed, compare, Verdict};
    use crate::errors::Source;
    use crate::parse::parse;

    const TEXT: &str = "lattice power a b\nmodel 1\n  states s t\nmodel 2\n  states c\n";

    #[test]
    fn what_the_library_and_the_tool_find_differently_is_said() {
        let text = parse(Source::new("text", TEXT)).expect("the text can be read");
        let case = text.case.expect("it has names");
        let raised = compare(&case, &[0, 1], &[3, 1]);
        assert_eq!(raised, Verdict::Sound { raised: 1 });
        assert!(agreed(true, &raised).is_ok() && agreed(false, &raised).is_err());
        let too_high = compare(&case, &[0, 1], &[3, 2]);
        let Verdict::NotSound { count: 1, first } = &too_high else {
            panic!("{too_high:?}")
        };
        assert_eq!((first.pair, first.entry, first.next), ((1, 0), 1, 2));
        assert!(agreed(false, &too_high).is_ok() && agreed(true, &too_high).is_err());
    }
}

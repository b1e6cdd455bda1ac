//! `step`: the table after each round with how many entries it lowered, or the last of them alone in the lines that `judge` reads.

use super::{document, open, read_text, table, Arguments, Failure, Opened, Outcome, Printed};
use crate::case::Case;
use crate::json::{array, object, string, strings};
use crate::progress::Progress;
use crate::rounds::finish_round;
use koelchair::{Desk, StepAnswer};
use std::io::Read;

/// Runs `step`.
pub fn step(arguments: &[String], input: &mut dyn Read) -> Outcome {
    let flags = ["--bytes", "--json", "--table"];
    let arguments = Arguments::read(arguments, &flags, &["--course", "--rounds"])?;
    let [file] = arguments.exactly(["FILE"])?;
    let forms = (arguments.has("--json"), arguments.has("--table"));
    if forms == (true, true) {
        let message = "expected one of `--json` and `--table`, got both";
        return Err(Failure::Usage(message.to_string()));
    }
    let most = match arguments.values("--rounds").last() {
        None => u32::MAX,
        Some(number) => number
            .parse()
            .map_err(|_| Failure::Usage(format!("`{number}` is no number of rounds")))?,
    };
    let mut opened = open(read_text(file, &arguments, input)?)?;
    let printed = match forms {
        (true, _) => json(&mut opened, most),
        (_, true) => last(&mut opened, most),
        _ => words(&mut opened, most),
    };
    Ok(Printed::new(printed))
}

/// A round as the desk shows it after its last row.
struct Shown<'a> {
    case: &'a Case,
    desk: &'a Desk,
    /// The entries that it lowered: what the library's count of lowerings rose by. 0 for round 0.
    lowered: u32,
    settled: bool,
}

/// Works rounds up to the settled one, or to `most`, and gives each from round 0 on.
fn rounds(opened: &mut Opened, most: u32, mut each: impl FnMut(Shown)) {
    let Opened { case, desk, .. } = opened;
    let mut progress = Progress::new("round");
    let (mut lowered, mut settled) = (0, false);
    loop {
        each(Shown {
            case,
            desk,
            lowered,
            settled,
        });
        let before = desk.standing();
        if settled || before.round >= most {
            return;
        }
        settled = matches!(finish_round(desk), StepAnswer::Settled { .. });
        lowered = desk.standing().lowerings - before.lowerings;
        progress.at(desk.standing().round);
    }
}

fn words(opened: &mut Opened, most: u32) -> String {
    let mut text = String::new();
    rounds(opened, most, |shown| text.push_str(&round_in_words(&shown)));
    let standing = opened.desk.standing();
    let lowerings = standing.lowerings;
    text.push_str(&match standing.settled {
        true => format!("lowerings in all: {lowerings}\n"),
        false => format!(
            "lowerings so far: {lowerings}\nstopped here: not settled, so this table is no result\n"
        ),
    });
    text
}

/// A round's table, from round 1 on how many entries it lowered, and the score.
fn round_in_words(shown: &Shown) -> String {
    let round = shown.desk.standing().round;
    let (table, score) = (named_table(shown), shown.case.element(shown.desk.score().0));
    let lowered = match round {
        0 => String::new(),
        _ => format!("  lowered: {}\n", entries(shown.lowered)),
    };
    match shown.settled {
        true => {
            let former = round - 1;
            let head = format!("round {round} equals round {former}: settled, T = {round}");
            format!("{head}\n{table}{lowered}score {score}\n")
        }
        false => {
            format!("round {round}: not a result\n{table}{lowered}  score of this table: {score}\n")
        }
    }
}

/// A number of entries. A word for none could be taken for an element that is called no.
fn entries(number: u32) -> String {
    match number {
        1 => "1 entry".to_string(),
        n => format!("{n} entries"),
    }
}

/// The table of the last round alone, in the lines of a listing by names.
fn last(opened: &mut Opened, most: u32) -> String {
    rounds(opened, most, |_| {});
    let columns = opened.case.models[1].size();
    table::listed(&opened.case, opened.desk.show().chunks(columns))
}

/// The shown table with names.
fn named_table(shown: &Shown) -> String {
    let columns = &shown.case.models[1].states;
    let mut rows = vec![vec![String::new()]];
    rows[0].extend(columns.iter().cloned());
    let lines = shown.desk.show().chunks(columns.len());
    for (state, line) in shown.case.models[0].states.iter().zip(lines) {
        let mut row = vec![state.clone()];
        row.extend(line.iter().map(|e| shown.case.element(*e)));
        rows.push(row);
    }
    table::columns(&rows)
}

fn json(opened: &mut Opened, most: u32) -> String {
    let mut list = Vec::new();
    rounds(opened, most, |shown| list.push(round_as_json(&shown)));
    let standing = opened.desk.standing();
    let fields = vec![
        ("accepted", "true".to_string()),
        ("settled", standing.settled.to_string()),
        ("rows", strings(&opened.case.models[0].states)),
        ("columns", strings(&opened.case.models[1].states)),
        ("rounds", array(list)),
        ("lowerings", standing.lowerings.to_string()),
    ];
    document("step", fields)
}

/// A round with the entries that it lowered, and those that all rounds up to it lowered.
fn round_as_json(shown: &Shown) -> String {
    let Shown { case, desk, .. } = shown;
    let columns = case.models[1].size();
    let row = |row: &[u8]| strings(row.iter().map(|e| case.element(*e)));
    object(&[
        ("round", desk.standing().round.to_string()),
        ("result", shown.settled.to_string()),
        ("table", array(desk.show().chunks(columns).map(row))),
        ("score", string(&case.element(desk.score().0))),
        ("lowered", shown.lowered.to_string()),
        ("lowerings", desk.standing().lowerings.to_string()),
    ])
}

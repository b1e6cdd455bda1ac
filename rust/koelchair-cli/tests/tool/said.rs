//! `--json`: what the commands say as JSON is what they say in words, and failures are said in it too.

use crate::common::{examples, run};
use crate::json::{read, Json};
use crate::{example, CLEAN};
use koelchair_cli::errors::Source;
use koelchair_cli::parse::parse;

fn json(arguments: &[&str], input: &str) -> (u8, Json) {
    let ran = run(arguments, input.as_bytes());
    let text = ran.text();
    assert_eq!(text.matches('\n').count(), 1, "one line: {text}");
    let said = read(text.trim_end());
    assert_eq!(said.get("format"), &Json::Number(1));
    assert_eq!(said.get("command").text(), arguments[0]);
    (ran.status, said)
}

fn texts(list: &Json) -> Vec<&str> {
    list.items().iter().map(Json::text).collect()
}

#[test]
fn report_says_the_listing() {
    for file in examples() {
        let file = file.display().to_string();
        let (status, said) = json(&["report", "--json", &file], "");
        let listing = run(&["report", &file], &[]).text();
        if status == 1 {
            let refusal = said.get("refusal");
            let (number, part) = (refusal.get("number").number(), refusal.get("part").number());
            assert_eq!(listing, format!("refused {number} {part}\n"), "{file}");
            assert_eq!(said.get("accepted"), &Json::Bool(false));
            continue;
        }
        let text = std::fs::read_to_string(&file).expect("text");
        let case = parse(Source::new("text", &text))
            .expect("a text")
            .case
            .expect("names");
        let number = |name: &Json| {
            let found = (0..case.lattice.size()).find(|e| case.lattice.name(*e) == name.text());
            found.expect("an element").to_string()
        };
        let mut again = format!("rounds {}\n", said.get("rounds").number());
        for (q, row) in said.get("table").items().iter().enumerate() {
            let row: Vec<String> = row.items().iter().map(number).collect();
            again.push_str(&format!("row {q}: {}\n", row.join(" ")));
        }
        again.push_str(&format!("score {}\n", number(said.get("score"))));
        for (f, formula) in said.get("formulas").items().iter().enumerate() {
            let [student, course] = ["student", "course"].map(|m| number(formula.get(m)));
            again.push_str(&format!("formula {f}: {student} {course}\n"));
        }
        assert_eq!(again, listing, "{file}");
    }
}

#[test]
fn report_says_values_and_shares() {
    let file = example("example-6-share.case");
    let (_, said) = json(
        &[
            "report", "--json", "--share", "yes", "--share", "unsure", &file,
        ],
        "",
    );
    let shares: Vec<(&str, usize)> = said
        .get("shares")
        .items()
        .iter()
        .map(|s| (s.get("element").text(), s.get("percent").number()))
        .collect();
    assert_eq!(shares, [("yes", 12), ("unsure", 38)]);
    let (_, said) = json(&["report", "--json", "--values", "-"], CLEAN);
    let formula = &said.get("formulas").items()[0];
    assert_eq!(texts(formula.get("studentStates")), ["yes", "yes"]);
    assert_eq!(texts(formula.get("courseStates")), ["yes"]);
}

#[test]
fn check_says_what_the_case_holds() {
    let (status, said) = json(&["check", "--json", "-"], CLEAN);
    assert_eq!(status, 0);
    assert_eq!(texts(said.get("elements")), ["no", "unsure", "yes"]);
    assert_eq!(texts(said.get("propositions")), ["p"]);
    let models: Vec<usize> = said
        .get("models")
        .items()
        .iter()
        .map(|m| m.get("number").number())
        .collect();
    assert_eq!(models, [1, 2]);
    assert_eq!(
        texts(said.get("models").items()[0].get("states")),
        ["a", "b"]
    );
    let formula = &said.get("formulas").items()[0];
    assert_eq!(formula.get("formula").text(), "AG p");
    assert_eq!(formula.get("coveredFrom").text(), "settled");
    assert_eq!(said.get("ceiling"), &Json::Null);
    assert_eq!(said.get("warnings").items().len(), 0);
    let (_, said) = json(
        &["check", "--json", "-"],
        &CLEAN.replace("AG p", "p & AX p"),
    );
    assert_eq!(
        said.get("formulas").items()[0].get("coveredFrom").number(),
        2
    );
    let (_, said) = json(&["check", "--json", "-"], &CLEAN.replace("AG p", "EX p"));
    assert_eq!(
        said.get("formulas").items()[0].get("coveredFrom"),
        &Json::Null
    );
    let warning = &said.get("warnings").items()[0];
    assert_eq!(warning.get("kind").text(), "not-covered");
    assert_eq!(
        (warning.get("line").number(), warning.get("column").number()),
        (14, 1)
    );
    let (_, said) = json(&["check", "--json", &example("class/course.case")], "");
    assert_eq!(said.get("ceiling").text(), "unsure");
    assert_eq!(said.get("models").items().len(), 1);
}

/// Nested AX, whether there is a fixpoint, whether there is EX.
fn facts(formula: &Json) -> (usize, bool, bool) {
    let is = |name: &str| *formula.get(name) == Json::Bool(true);
    (formula.get("nestedAx").number(), is("fixpoint"), is("ex"))
}

#[test]
fn check_and_report_say_the_facts_of_formulas() {
    // p & !q; AX !q; p & AX (q | AX p); AG p; AX EX AX p
    let expected = [
        (0, false, false),
        (1, false, false),
        (2, false, false),
        (1, true, false),
        (2, false, true),
    ];
    let settled = Json::String("settled".to_string());
    let number = Json::Number;
    let from = [number(1), number(2), number(3), settled, Json::Null];
    for command in ["check", "report"] {
        let (_, said) = json(&[command, "--json", &example("covered-from.case")], "");
        let formulas = said.get("formulas").items();
        let found: Vec<_> = formulas.iter().map(facts).collect();
        assert_eq!(found, expected, "{command}");
        for (formula, from) in formulas.iter().zip(&from) {
            assert_eq!(formula.get("coveredFrom"), from, "{command}");
        }
    }
    // Of a course's file alone too.
    let (_, said) = json(&["check", "--json", &example("class/course.case")], "");
    let found: Vec<_> = said.get("formulas").items().iter().map(facts).collect();
    assert_eq!(found, [(1, true, false), (1, true, false), (0, true, true)]);
}

#[test]
fn step_says_every_round_and_which_is_a_result() {
    let file = example("error-half-worked-table.case");
    let (_, said) = json(&["step", "--json", &file], "");
    let rounds = said.get("rounds").items();
    assert_eq!(rounds.len(), 7);
    for (i, round) in rounds.iter().enumerate() {
        assert_eq!(round.get("round").number(), i);
        assert_eq!(round.get("result"), &Json::Bool(i == 6));
        assert_eq!(round.get("score").text(), if i < 4 { "yes" } else { "no" });
    }
    assert_eq!(said.get("settled"), &Json::Bool(true));
    let (_, said) = json(&["step", "--json", "--rounds", "2", &file], "");
    assert_eq!(said.get("rounds").items().len(), 3);
    assert_eq!(said.get("settled"), &Json::Bool(false));
}

#[test]
fn why_says_the_way() {
    let (_, said) = json(
        &["why", "--json", &example("error-half-worked-table.case")],
        "",
    );
    let steps = said.get("reasons").items()[0].get("steps").items();
    let states: Vec<&str> = steps.iter().map(|s| s.get("student").text()).collect();
    assert_eq!(states, ["idle", "received", "checked", "half"]);
    let rounds: Vec<usize> = steps.iter().map(|s| s.get("round").number()).collect();
    assert_eq!(rounds, [4, 3, 2, 1]);
    let proposition = &steps[3].get("propositions").items()[0];
    let said = ["name", "student", "course"].map(|f| proposition.get(f).text());
    assert_eq!(said, ["whole", "no", "yes"]);
    assert_eq!(steps[0].get("transition").get("to").text(), "received");
}

#[test]
fn failures_are_said_as_json() {
    let wrong = CLEAN.replace("a -> b", "a -> x");
    for command in ["check", "report", "step", "why"] {
        let (status, said) = json(&[command, "--json", "-"], &wrong);
        assert_eq!(status, 2);
        assert_eq!(said.get("accepted"), &Json::Bool(false));
        let error = &said.get("errors").items()[0];
        assert_eq!(error.get("message").text(), "`x` is no state");
        assert_eq!(
            (error.get("line").number(), error.get("column").number()),
            (7, 8)
        );
        assert_eq!(error.get("file").text(), "<stdin>");
    }
    let (status, said) = json(
        &["why", "--json", &example("example-7-not-distributive.case")],
        "",
    );
    assert_eq!((status, said.get("refusal").get("number").number()), (1, 7));
}

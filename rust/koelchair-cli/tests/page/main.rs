//! `page`: what stands in the page of each example is what the library says, and no name can break out of it.

mod bounds;
mod json;
mod lowerings;

use json::{read, Json};
use koelchair::{Desk, State, StepAnswer};
use koelchair_cli::commands::run;
use koelchair_cli::tables::Operations;
use std::path::PathBuf;
use std::sync::OnceLock;

/// Runs the tool; its exit status and what it printed.
fn tool(arguments: &[&str], input: &str) -> (u8, String) {
    let arguments: Vec<String> = arguments.iter().map(|a| a.to_string()).collect();
    let (mut out, mut err) = (Vec::new(), Vec::new());
    let status = run(&arguments, &mut input.as_bytes(), &mut out, &mut err);
    (status, String::from_utf8(out).expect("text"))
}

/// An example that the desk accepts, with its page.
struct Example {
    name: String,
    text: String,
    html: String,
    data: Json,
}

/// The examples that the desk accepts; their pages are made once.
fn examples() -> &'static [Example] {
    static EXAMPLES: OnceLock<Vec<Example>> = OnceLock::new();
    EXAMPLES.get_or_init(|| {
        let accepted = texts()
            .into_iter()
            .filter(|(_, text)| tool(&["check", "-"], text).0 == 0);
        let with_page = |(name, text): (String, String)| {
            let (html, data) = page(&text);
            Example {
                name,
                text,
                html,
                data,
            }
        };
        let examples: Vec<Example> = accepted.map(with_page).collect();
        assert!(examples.len() > 15, "{} examples", examples.len());
        examples
    })
}

/// The names and texts of all examples.
fn texts() -> Vec<(String, String)> {
    let folder = PathBuf::from(env!("CARGO_MANIFEST_DIR")).join("../../examples");
    let files = std::fs::read_dir(folder)
        .expect("examples")
        .map(|f| f.expect("file").path());
    files
        .filter(|f| f.extension().is_some_and(|e| e == "case"))
        .map(|f| {
            (
                f.display().to_string(),
                std::fs::read_to_string(f).expect("text"),
            )
        })
        .collect()
}

/// The page of a text, and the JSON in it.
fn page(text: &str) -> (String, Json) {
    let (status, html) = tool(&["page", "-"], text);
    assert_eq!(status, 0);
    let data = embedded(&html, "case");
    (html, data)
}

/// The JSON of a page in the script element with this id.
fn embedded(html: &str, id: &str) -> Json {
    let start = format!("<script type=\"application/json\" id=\"{id}\">");
    let (_, rest) = html.split_once(&start).expect(id);
    read(rest.split_once("</script>").expect("its end").0)
}

/// The table of every round, from the page's changes.
fn tables(data: &Json) -> Vec<(usize, Vec<usize>)> {
    let mut table = data.get("first").numbers();
    let mut tables = Vec::new();
    for round in data.get("rounds").items() {
        let round = round.numbers();
        for change in round[1..].chunks(2) {
            assert_ne!(table[change[0]], change[1], "a change changes nothing");
            table[change[0]] = change[1];
        }
        tables.push((round[0], table.clone()));
    }
    tables
}

/// The bytes of a text's case.
fn bytes(text: &str) -> Vec<u8> {
    let arguments = ["encode".to_string(), "-".to_string()];
    let (mut out, mut err) = (Vec::new(), Vec::new());
    assert_eq!(run(&arguments, &mut text.as_bytes(), &mut out, &mut err), 0);
    out
}

fn shown(desk: &Desk) -> (usize, Vec<usize>) {
    let entries = desk.show().iter().map(|e| usize::from(*e)).collect();
    (usize::from(desk.score().0), entries)
}

#[test]
fn rounds_are_the_librarys() {
    for Example {
        name, text, data, ..
    } in examples()
    {
        let mut desk = Desk::open(&bytes(text)).expect("accepted");
        let mut expected = vec![shown(&desk)];
        loop {
            match desk.step() {
                StepAnswer::Row { .. } => {}
                StepAnswer::Round { .. } => expected.push(shown(&desk)),
                StepAnswer::Settled { round: rounds, .. } => {
                    expected.push(shown(&desk));
                    assert_eq!(expected.len(), rounds as usize + 1, "{name}");
                    break;
                }
            }
        }
        assert!(tables(data) == expected, "{name}");
    }
}

/// The reasons of a pair's settled entry: whose view each is, and the number of its cause.
fn reasons(data: &Json, place: usize) -> &[Json] {
    let settled = tables(data).last().expect("a round").1[place];
    let entry = data.get("why").get("entries").items()[place].items();
    let entry = entry.iter().find(|e| e.items()[0].number() == settled);
    entry.map_or(&[][..], |e| e.items()[1].items())
}

/// The causes of a pair's settled entry.
fn causes(data: &Json, place: usize) -> Vec<&[Json]> {
    let causes = data.get("why").get("causes").items();
    let cause = |r: &Json| causes[r.items()[1].number()].items();
    reasons(data, place).iter().map(cause).collect()
}

#[test]
fn sentences_are_those_of_why() {
    let mut compared = 0;
    for Example {
        name, text, data, ..
    } in examples()
    {
        let states = |m: usize| data.get("models").items()[m].get("states").items();
        let (rows, columns) = (states(0), states(1));
        if rows.len() * columns.len() > 36 {
            continue;
        }
        for place in 0..rows.len() * columns.len() {
            let (q1, q2) = (place / columns.len(), place % columns.len());
            let pair = [rows[q1].text(), columns[q2].text()];
            let (_, said) = tool(&["why", "-", pair[0], pair[1]], text);
            let short: Vec<&str> = said
                .lines()
                .filter_map(|l| l.strip_prefix("In short: "))
                .collect();
            let causes = causes(data, place);
            let sentences: Vec<&str> = causes.iter().map(|c| c[7].text()).collect();
            assert_eq!(sentences, short, "{name}: {pair:?}");
            let views: Vec<&str> = said.lines().filter(|l| l.starts_with("For ")).collect();
            let labels = reasons(data, place).iter().map(|r| r.items()[0].text());
            let labels: Vec<&str> = labels.filter(|l| !l.is_empty()).collect();
            assert_eq!(labels, views, "{name}: {pair:?}");
            assert!(causes
                .iter()
                .all(|c| (c[0].number(), c[1].number()) == (q1, q2)));
            compared += short.len();
        }
    }
    assert!(compared > 30, "{compared} sentences");
}

#[test]
fn a_cause_names_the_arrow_and_the_best_answer() {
    let label = |e: &&Example| e.name.contains("label-one-field");
    let data = &examples().iter().find(label).expect("the label").data;
    let [first] = causes(data, 0)[..] else {
        panic!("one cause at (old, old)");
    };
    // Student old -> half, fell in round 2; the course's old -> old; then (half, old), which differs in two propositions.
    let numbers: Vec<usize> = first[..5].iter().map(Json::number).collect();
    assert_eq!(numbers, [0, 0, 2, 1, 0]);
    let next = data.get("why").get("causes").items()[first[5].number()].items();
    assert_eq!((next[0].number(), next[1].number()), (1, 0));
    assert_eq!(next[3..6], [Json::Null, Json::Null, Json::Null]);
    assert_eq!(next[6].numbers(), [0, 2]);
}

#[test]
fn the_page_says_where_initial_values_hold_the_score_down() {
    let text =
        "lattice chain no unsure yes\npropositions p\nmodel 1\n states a\n initial a\n a -> a\n\
                model 2\n states c d\n initial c: unsure\n initial d\n d: p\n c -> c\n d -> d\n";
    let (html, data) = page(text);
    let said = |data: &Json| {
        let score = data.get("why").get("score").items();
        let [reason] = score else {
            panic!("one reason: {score:?}");
        };
        assert_eq!(reason.items()[1].items()[1], Json::Null);
        reason.items()[0].text().to_string()
    };
    let sentence = "The student begins at a. The course begins at c only with unsure.\n\
                    No better: d (student a, course d fell in round 1).";
    assert_eq!(said(&data), sentence);
    assert!(tool(&["why", "-"], text).1.contains(sentence));
    let swapped = text
        .replace("model 1", "model 3")
        .replace("model 2", "model 1")
        .replace("model 3", "model 2");
    assert_eq!(
        said(&embedded(&page(&swapped).0, "exchanged")),
        "The course begins at a. The student begins at c only with unsure.\n\
         No better: d (course a, student d fell in round 1)."
    );
    assert_eq!(html.matches("id=\"score-reason\"").count(), 1);
    assert!(html.contains("at(\"score-reason\").textContent = initialReasons.join(\" \");"));
}

#[test]
fn the_exchanged_case_is_worked_by_the_library() {
    let label = |e: &&Example| e.name.contains("label-one-field");
    let Example { text, html, .. } = examples().iter().find(label).expect("the label");
    let other = embedded(html, "exchanged");
    let swapped = text
        .replace("model 1", "model 3")
        .replace("model 2", "model 1")
        .replace("model 3", "model 2");
    let mut desk = Desk::open(&bytes(&swapped)).expect("accepted");
    let mut expected = vec![shown(&desk)];
    while !matches!(desk.finish_round(), StepAnswer::Settled { .. }) {
        expected.push(shown(&desk));
    }
    expected.push(shown(&desk));
    assert!(tables(&other) == expected);
    assert_eq!(other.get("owners").items()[0].text(), "course");
}

#[test]
fn the_ceiling_is_the_courses_score_against_itself() {
    for Example {
        name, text, data, ..
    } in examples()
    {
        let (_, said) = tool(&["why", "-"], text);
        let ceiling = data.get("lattice").get("names").items()[data.get("ceiling").number()].text();
        let found = [
            "itself, is {}.",
            "itself, is {}; the score",
            "itself scores {} too",
        ]
        .iter()
        .any(|words| said.contains(&words.replace("{}", ceiling)));
        assert!(found, "{name}: {ceiling}: {said}");
    }
}

#[test]
fn values_are_the_librarys() {
    for Example {
        name, text, data, ..
    } in examples()
    {
        let desk = Desk::open(&bytes(text)).expect("accepted");
        for (f, formula) in data.get("formulas").items().iter().enumerate() {
            for model in 1..=2u8 {
                let at = usize::from(model) - 1;
                let whole = desk.whole(f as u8, model).expect("in range").element.0;
                assert_eq!(
                    formula.get("whole").items()[at],
                    Json::Number(usize::from(whole)),
                    "{name}"
                );
                for (q, value) in formula.get("values").items()[at]
                    .numbers()
                    .iter()
                    .enumerate()
                {
                    let expected = desk
                        .value(f as u8, model, State(q as u8))
                        .expect("in range")
                        .element
                        .0;
                    assert_eq!(*value, usize::from(expected), "{name}");
                }
            }
        }
    }
}

#[test]
fn facts_are_the_librarys() {
    let mut formulas = 0;
    for Example {
        name, text, data, ..
    } in examples()
    {
        let desk = Desk::open(&bytes(text)).expect("accepted");
        for (f, formula) in data.get("formulas").items().iter().enumerate() {
            let facts = desk.whole(f as u8, 2).expect("in range").facts;
            let nesting = usize::from(facts.nesting);
            assert_eq!(formula.get("nestedAx").number(), nesting, "{name}");
            assert_eq!(*formula.get("fixpoint"), Json::Bool(facts.fixpoint));
            assert_eq!(*formula.get("ex"), Json::Bool(facts.ex), "{name}");
            formulas += 1;
        }
    }
    assert!(formulas > 20, "{formulas} formulas");
}

#[test]
fn lattice_is_that_of_the_case() {
    for Example {
        name, text, data, ..
    } in examples()
    {
        let source = koelchair_cli::errors::Source::new("example", text);
        let lattice = koelchair_cli::parse::parse(source)
            .ok()
            .and_then(|t| t.case)
            .expect("a case")
            .lattice;
        let operations = Operations::of(&lattice).expect("a lattice");
        let said = data.get("lattice");
        let (n, heights) = (lattice.size(), said.get("height").numbers());
        let covers: Vec<_> = said
            .get("covers")
            .items()
            .iter()
            .map(Json::numbers)
            .collect();
        for a in 0..n {
            assert_eq!(
                said.get("names").items()[a].text(),
                lattice.name(a),
                "{name}"
            );
            assert_eq!(
                said.get("complement").numbers()[a],
                lattice.complement(a),
                "{name}"
            );
            for b in 0..n {
                let below = |x: usize, y: usize| x != y && operations.at_most(x as u8, y as u8);
                let next = below(a, b) && !(0..n).any(|c| below(a, c) && below(c, b));
                assert_eq!(covers.contains(&vec![a, b]), next, "{name}: {a} {b}");
                assert!(!below(a, b) || heights[a] < heights[b], "{name}: {a} {b}");
            }
        }
        assert_eq!(heights[usize::from(operations.bottom)], 0, "{name}");
    }
}

#[test]
fn transitions_at_bottom_are_left_out() {
    let text = "lattice chain no unsure yes\nmodel 1\n states a b\n a -> b: unsure\n b -> a: no\nmodel 2\n states c\n c -> c\n";
    let (_, data) = page(text);
    let transitions = |m: usize| {
        let list = data.get("models").items()[m].get("transitions").items();
        list.iter().map(Json::numbers).collect::<Vec<_>>()
    };
    assert_eq!(
        (transitions(0), transitions(1)),
        (vec![vec![0, 1, 1]], vec![vec![0, 0, 2]])
    );
}

#[test]
fn names_cannot_break_out() {
    let odd = "</script><!-- <script> & \\ ' \u{2028} \u{7} {title} é";
    let text = format!(
        "title \"{odd}\"\nlattice chain no yes\nmodel 1 \"{odd}\"\n states a\nmodel 2\n states b\n"
    );
    let (html, data) = page(&text);
    assert_eq!(data.get("title").text(), odd);
    assert_eq!(data.get("models").items()[0].get("title").text(), odd);
    assert_eq!(html.matches("<script").count(), 3);
    assert_eq!(html.matches("</script").count(), 3);
    assert!(!html.contains("<!--"));
    let (_, rest) = html.split_once("<script").expect("the case");
    assert!(!rest.contains('\u{2028}') && !rest.contains('\u{7}'));
    let title = html
        .split_once("<title>")
        .and_then(|(_, rest)| rest.split_once("</title>"));
    assert!(title
        .is_some_and(|(title, _)| title.starts_with("&lt;/script&gt;") && !title.contains('<')));
}

#[test]
fn pages_ask_for_nothing_elsewhere() {
    for Example { name, html, .. } in examples() {
        for word in [
            "http:",
            "https:",
            "//www",
            "src=",
            "@import",
            "<link",
            "fetch(",
            "XMLHttpRequest",
        ] {
            assert!(!html.contains(word), "{name}: {word}");
        }
        assert!(html.contains("default-src 'none'"), "{name}");
    }
}

#[test]
fn the_greatest_page_is_small_enough() {
    let longest = examples().iter().map(|e| e.html.len()).max();
    assert!(
        longest.is_some_and(|length| length < 4_000_000),
        "{longest:?}"
    );
}

#[test]
fn a_refused_case_has_no_page() {
    let text = "lattice order\n elements b x y z t\n b <= x\n b <= y\n b <= z\n x <= t\n y <= t\n z <= t\n not b = t\n not x = x\n not y = y\n not z = z\nmodel 1\n states a\nmodel 2\n states b\n";
    assert_eq!(tool(&["page", "-"], text), (1, String::new()));
}

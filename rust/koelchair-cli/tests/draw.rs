//! `draw`: what stands in the page and what does not, and that what its script writes is what the tool reads. The script's reader and
//! writer need no browser; they run under node where there is one. tests/page/drawing.py draws in a browser.

mod common;
#[path = "page/json.rs"]
mod json;

use common::{examples, folder, run, text, Random};
use json::{read, Json};
use koelchair_cli::errors::Source;
use koelchair_cli::parse::{parse, Text};
use koelchair_cli::print::print;
use koelchair_cli::warnings::warnings;
use std::io::Write;
use std::path::PathBuf;
use std::process::{Command, Stdio};

/// A page, and the text in it.
fn page(arguments: &[&str], input: &str) -> (String, String, bool) {
    let ran = run(&[&["draw"], arguments].concat(), input.as_bytes());
    assert_eq!((ran.status, ran.err.as_str()), (0, ""), "{arguments:?}");
    let html = ran.text();
    let begin = "<script type=\"application/json\" id=\"case\">";
    let (_, rest) = html.split_once(begin).expect("the case");
    let data = read(rest.split_once("</script>").expect("its end").0);
    let given = data.get("text").text().to_string();
    let fixed = *data.get("fixed") == Json::Bool(true);
    (html, given, fixed)
}

fn course() -> String {
    let file = folder("../../examples/class/course.case");
    file.display().to_string()
}

#[test]
fn without_a_file_nothing_is_fixed() {
    let (_, given, fixed) = page(&[], "");
    assert_eq!(
        (given.as_str(), fixed),
        ("lattice chain no unsure yes\n", false)
    );
}

#[test]
fn a_course_gives_lattice_and_propositions_alone() {
    let (html, given, fixed) = page(&[&course()], "");
    assert_eq!(
        (given.as_str(), fixed),
        ("title \"Updating a label\"\nlattice chain no unsure yes\npropositions shown whole current\n", true)
    );
    for word in [
        "stale",
        "blank",
        "never-partly-updated",
        "can-be-blanked",
        "Nobody",
    ] {
        assert!(!html.contains(word), "{word}");
    }
}

#[test]
fn the_course_is_there_where_it_is_asked_for() {
    let (_, given, fixed) = page(&["--with-course", &course()], "");
    assert!(fixed);
    for line in [
        "# The course's model of how a label is updated",
        "\nmodel 2 \"course\"\n  states current stale blank\n",
        "\n  stale -> blank: yes\n",
        "\nformula can-be-blanked: EF !shown\n",
    ] {
        assert!(given.contains(line), "{line}");
    }
    assert!(!given.contains("\nmodel 1"));
}

#[test]
fn a_students_model_is_there_with_its_places() {
    let student =
        "model 1 \"Ada\"\n  states a b\n  # at a 160 140, b 400 140\n  initial a\n  a -> b\n";
    let (_, given, _) = page(&["--course", &course(), "-"], student);
    let expected = "\nmodel 1 \"Ada\"\n  states a b\n  initial a: yes\n  a -> b: yes\n  # at a 160 140, b 400 140\n";
    assert!(given.ends_with(expected), "{given}");
    assert!(!given.contains("model 2") && !given.contains("stale"));
}

#[test]
fn a_refused_course_has_no_page() {
    let file = folder("../../examples/example-7-not-distributive.case");
    let ran = run(&["draw", &file.display().to_string()], &[]);
    assert_eq!((ran.status, ran.out.len()), (1, 0));
    assert!(ran.err.contains("refused 7 0"), "{}", ran.err);
}

#[test]
fn names_cannot_break_out() {
    let odd = "</script><!-- <script> & {title}";
    let course = format!("title \"{odd}\"\nlattice chain no yes\nmodel 2\n states b\n");
    let (html, given, _) = page(&["-"], &course);
    assert!(given.contains(odd));
    assert_eq!(html.matches("<script").count(), 2);
    assert_eq!(html.matches("</script").count(), 2);
}

#[test]
fn pages_ask_for_nothing_elsewhere() {
    for arguments in [vec![], vec![course()]] {
        let list: Vec<&str> = arguments.iter().map(String::as_str).collect();
        let (html, ..) = page(&list, "");
        for word in [
            "http:",
            "https:",
            "//www",
            "src=",
            "@import",
            "<link",
            "fetch(",
            "XMLHttpRequest",
            "localStorage",
        ] {
            assert!(!html.contains(word), "{word}");
        }
        assert!(html.contains("default-src 'none'"));
    }
}

/// The parts of the page's script that need no browser, and what is asked of them: for each text the text as they write it with the
/// warnings about both models, or what is wrong with it.
fn script() -> String {
    let parts = ["words", "lattices", "cases", "warnings"];
    let part = |name: &&str| text(&folder("src/draw").join(format!("{name}.js")));
    let asked = r#"
const known = { head: [], title: "", lattice: null, propositions: [], models: [null, null], formulas: [] };
const answer = (text) => {
  try {
    const { drawing } = readCase(text, known, false);
    const sort = drawing.models[0] ? (drawing.models[1] ? "case" : "student") : "course";
    const said = [0, 1].flatMap((m) => warningsOf(drawing, m)).map((w) => `${w.kind}: ${w.message}`);
    return { text: writeCase(drawing, sort), warnings: [...new Set(said)].sort() };
  } catch (error) {
    if (!(error instanceof Wrong)) throw error;
    return { wrong: error.message };
  }
};
const asked = JSON.parse(require("fs").readFileSync(0, "utf8"));
process.stdout.write(JSON.stringify(asked.map(answer)));
"#;
    let parts: String = parts.iter().map(part).collect();
    format!("\"use strict\";\n{parts}{asked}")
}

/// What the script makes of texts; none where there is no node.
fn answers(texts: &[String]) -> Option<Vec<Json>> {
    let mut node = Command::new("node");
    node.args(["-e", &script()])
        .stdin(Stdio::piped())
        .stdout(Stdio::piped());
    let Ok(mut child) = node.spawn() else {
        println!("node is missing, so the page's reader and writer were not run");
        return None;
    };
    let input = koelchair_cli::json::strings(texts);
    let mut pipe = child.stdin.take().expect("a pipe");
    pipe.write_all(input.as_bytes()).expect("node reads");
    drop(pipe);
    let ran = child.wait_with_output().expect("node ends");
    assert!(ran.status.success());
    let said = String::from_utf8(ran.stdout).expect("text");
    match read(&said) {
        Json::Array(answers) => Some(answers),
        other => panic!("no list: {other:?}"),
    }
}

fn parsed(text: &str) -> Option<Text> {
    parse(Source::new("text", text))
        .ok()
        .filter(|t| t.case.is_some())
}

/// Each text as the page writes it, with the text as the tool reads it.
fn both(texts: &[String]) -> Vec<(String, Text, Json)> {
    let Some(answers) = answers(texts) else {
        return Vec::new();
    };
    let read = texts.iter().zip(answers).map(|(text, answer)| {
        let parsed = parsed(text).expect("a case");
        (text.clone(), parsed, answer)
    });
    read.collect()
}

/// The texts of the examples as they are written, `bytes` left out.
fn example_texts() -> Vec<String> {
    let texts = examples().into_iter().map(|file| text(&file));
    texts
        .filter(|text| parsed(text).is_some_and(|t| t.byte_places.is_empty()))
        .collect()
}

#[test]
fn what_the_page_writes_the_tool_reads() {
    let mut random = Random(0x0d4a_5eed);
    let mut texts = example_texts();
    texts.extend((0..300).map(|_| print(&random.case())));
    for (text, parsed_text, answer) in both(&texts) {
        let written = answer.get("text").text();
        let again = parsed(written).unwrap_or_else(|| panic!("{text}\n{written}"));
        assert_eq!(again.bytes, parsed_text.bytes, "{text}\n{written}");
        let (case, first) = (
            again.case.expect("a case"),
            parsed_text.case.expect("a case"),
        );
        assert_eq!(print(&case), print(&first), "{text}\n{written}");
    }
}

#[test]
fn the_page_writes_as_the_tool_prints() {
    let mut random = Random(0xd4a3);
    let texts: Vec<String> = (0..300).map(|_| print(&random.case())).collect();
    for (text, _, answer) in both(&texts) {
        assert_eq!(answer.get("text").text(), text);
    }
}

#[test]
fn the_page_warns_in_the_words_of_check() {
    let mut random = Random(0x3a4_91c2);
    let mut texts = example_texts();
    texts.extend((0..300).map(|_| print(&random.case())));
    let mut kinds = Vec::new();
    for (text, parsed_text, answer) in both(&texts) {
        let case = parsed_text.case.clone().expect("a case");
        // The page does not read formulas.
        let all = warnings(&parsed_text, &case, &[]).into_iter();
        let mut expected: Vec<String> = all.map(|w| format!("{}: {}", w.kind, w.message)).collect();
        expected.sort();
        let said: Vec<String> = answer
            .get("warnings")
            .items()
            .iter()
            .map(|w| w.text().to_string())
            .collect();
        assert_eq!(said, expected, "{text}");
        kinds.extend(
            expected
                .iter()
                .filter_map(|w| w.split(':').next().map(str::to_string)),
        );
    }
    kinds.sort();
    kinds.dedup();
    assert!(kinds.is_empty() || kinds.len() == 5, "{kinds:?}");
}

/// Wrong texts that are left to the tool: the desk's refusals, formulas, files that are included, and parts that a drawing may lack.
const LEFT: [&str; 16] = [
    "refused-",
    "formula",
    "include",
    "missing-",
    "sign-",
    "word-",
    "variable",
    "unknown-variable",
    "negated",
    "binder",
    "shorthand",
    "case-too-long",
    "course-without",
    "student-alone",
    "empty",
    "reserved-include",
];

#[test]
fn wrong_texts_are_wrong_on_the_page() {
    let files = common::files(&folder("tests/wrong"), "case");
    let name = |file: &PathBuf| file.file_stem().map(|s| s.to_string_lossy().into_owned());
    let names: Vec<String> = files.iter().filter_map(name).collect();
    let tried: Vec<usize> = (0..files.len())
        .filter(|i| !LEFT.iter().any(|l| names[*i].starts_with(l)))
        .collect();
    assert!(tried.len() > 50, "{} texts", tried.len());
    let texts: Vec<String> = tried.iter().map(|i| text(&files[*i])).collect();
    let wrong = |answer: &Json| matches!(answer, Json::Object(fields) if fields[0].0 == "wrong");
    let answers = answers(&texts).unwrap_or_default();
    let read = tried.iter().zip(&answers).filter(|(_, a)| !wrong(a));
    let read: Vec<&String> = read.map(|(i, _)| &names[*i]).collect();
    assert!(read.is_empty(), "{read:?}");
}

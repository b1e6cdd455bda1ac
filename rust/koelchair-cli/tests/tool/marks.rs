//! `mark`: the class in examples/class, and what happens to drawings that cannot be marked.

use crate::common::{files, folder, run, text};
use crate::json::{read, Json};
use crate::{example, put, scratch};
use std::time::{Duration, Instant};

const STUDENT: &str = "model 1\n  states current\n  initial current\n  current: shown, whole, current\n  current -> current\n";

/// `mark` with options on the class, and what it says with the examples' folder left out.
fn class(options: &[&str]) -> (u8, String, String) {
    let course = example("class/course.case");
    let students = files(&folder("../../examples/class/students"), "case");
    let students: Vec<String> = students.iter().map(|f| f.display().to_string()).collect();
    assert_eq!(students.len(), 25);
    let files = [&course].into_iter().chain(&students).map(String::as_str);
    let arguments: Vec<&str> = ["mark"]
        .into_iter()
        .chain(options.iter().copied())
        .chain(files)
        .collect();
    let ran = run(&arguments, &[]);
    let root = format!("{}/", folder("../..").display());
    (
        ran.status,
        ran.text().replace(&root, ""),
        ran.err.replace(&root, ""),
    )
}

fn stored(name: &str) -> String {
    text(&folder("../../examples/class").join(name))
}

#[test]
fn the_class_gets_its_marks() {
    let begin = Instant::now();
    let (status, table, messages) = class(&[]);
    assert!(
        begin.elapsed() < Duration::from_secs(1),
        "25 drawings take {:?}",
        begin.elapsed()
    );
    assert_eq!(table, stored("marks.txt"));
    assert_eq!(messages, stored("messages.txt"));
    assert_eq!(status, 2, "one drawing is broken");
    assert_eq!(class(&["--csv"]).1, stored("marks.csv"));
    assert_eq!(class(&["--json"]).1, stored("marks.json"));
}

/// What the table says is what `report` says of each drawing by itself.
#[test]
fn marks_are_those_of_report() {
    let said = read(class(&["--json", "--share", "unsure"]).1.trim_end());
    let course = example("class/course.case");
    let mut marked = 0;
    for student in said.get("students").items() {
        if student.get("status").text() != "marked" {
            continue;
        }
        let file = example(
            student
                .get("file")
                .text()
                .strip_prefix("examples/")
                .expect("an example"),
        );
        let ran = run(
            &[
                "report", "--json", "--share", "unsure", "--course", &course, &file,
            ],
            &[],
        );
        let report = read(ran.text().trim_end());
        assert_eq!(student.get("score"), report.get("score"), "{file}");
        assert_eq!(student.get("rounds"), report.get("rounds"), "{file}");
        assert_eq!(
            student.get("share"),
            &report.get("shares").items()[0],
            "{file}"
        );
        let of_mark = student
            .get("formulas")
            .items()
            .iter()
            .map(|f| f.get("value"));
        let of_report = report
            .get("formulas")
            .items()
            .iter()
            .map(|f| f.get("student"));
        assert!(of_mark.eq(of_report), "{file}");
        marked += 1;
    }
    assert_eq!(marked, 23);
}

#[test]
fn the_ceiling_is_the_course_against_itself() {
    let course = text(&folder("../../examples/class/course.case"));
    let (_, model) = course.split_once("model 2").expect("model 2");
    let (model, _) = model.split_once("\nformula").expect("formulas");
    let both = format!("{course}\nmodel 1{model}\n");
    let report = read(
        run(&["report", "--json", "-"], both.as_bytes())
            .text()
            .trim_end(),
    );
    let said = read(class(&["--json"]).1.trim_end());
    assert_eq!(said.get("course").get("score"), report.get("score"));
    assert_eq!(said.get("course").get("score").text(), "unsure");
}

#[test]
fn the_class_page_leads_to_the_students_pages() {
    let folder = scratch("class-page");
    let name = folder.display().to_string();
    let (_, table, _) = class(&["--page", &name]);
    let expected = format!("{}Class page: {name}/index.html\n", stored("marks.txt"));
    assert_eq!(table, expected);
    let index = text(&folder.join("index.html"));
    let links: Vec<&str> = index
        .split("<a href=\"")
        .skip(1)
        .map(|l| l.split('"').next().expect("a link"))
        .collect();
    assert_eq!(links.len(), 23, "{links:?}");
    for link in &links {
        let page = text(&folder.join(link));
        assert!(
            page.contains("<a href=\"index.html\">The class</a>"),
            "{link}"
        );
        assert!(
            page.contains("id=\"case\">{\"title\":\"Updating a label\""),
            "{link}"
        );
    }
    assert!(text(&folder.join("sven.html"))
        .contains("<li>Warning: the student's model has no initial state"));
    let broken = "<th scope=\"row\">wim</th><td>-</td><td>not marked</td>";
    assert!(index.contains(broken) && index.contains("`intial` is no state"));
    assert!(index.contains("<td>nothing compared</td>"));
}

#[test]
fn each_instructor_of_a_panel_has_a_sentence() {
    let panel = text(&folder("../../examples/panel-of-three.case"));
    let (head, rest) = panel.split_once("model 1").expect("model 1");
    let (student, course) = rest.split_once("model 2").expect("model 2");
    let folder = scratch("panel-class");
    let course = put(&folder, "course.case", &format!("{head}model 2{course}"));
    let student = put(&folder, "student.case", &format!("model 1{student}"));
    let ran = run(&["mark", "--csv", &course, &student], &[]);
    let said = ",For instructor 1 (unsure): the student can go old -> half (unsure); there (the course at old) `whole` is no for the \
                student and yes for the course.\n";
    assert!(ran.text().ends_with(said), "{}", ran.text());
}

#[test]
fn a_student_s_file_has_model_1_alone() {
    let folder = scratch("alone-in-file");
    let course = example("class/course.case");
    for (name, line, place) in [
        ("formula", "formula mine: top\n", "6:1"),
        ("lattice", "lattice panel\n", "6:1"),
        ("model-2", "model 2\n  states x\n", "6:1"),
    ] {
        let file = put(
            &folder,
            &format!("{name}.case"),
            &format!("{STUDENT}{line}"),
        );
        let ran = run(&["mark", &course, &file], &[]);
        assert_eq!(ran.status, 2, "{name}");
        let said = format!("error: a student's file has model 1 alone\n --> {file}:{place}\n");
        assert!(ran.err.contains(&said), "{}", ran.err);
    }
    let empty = put(&folder, "empty.case", "# nothing\n");
    let ran = run(&["mark", &course, &empty], &[]);
    assert!(
        ran.err
            .contains(&format!("error: `model 1` is missing\n --> {empty}:1:1\n")),
        "{}",
        ran.err
    );
}

#[test]
fn a_course_s_file_has_no_model_1() {
    let whole = example("example-4-round-1.case");
    let ran = run(&["mark", &whole], &[]);
    assert_eq!(ran.status, 2);
    assert!(
        ran.err
            .starts_with("error: a course's file has no model 1\n"),
        "{}",
        ran.err
    );
    let alone = run(&["mark", &example("class/course.case")], &[]);
    assert_eq!(alone.status, 0);
    assert!(
        alone.text().contains("\nThe ceiling is unsure: "),
        "{}",
        alone.text()
    );
}

#[test]
fn files_that_are_not_there_and_equal_names_do_not_stop_it() {
    let folder = scratch("names");
    let (one, two) = (scratch("names/one"), scratch("names/two"));
    let first = put(&one, "ann.case", STUDENT);
    let second = put(&two, "ann.case", STUDENT);
    let index = put(&folder, "index.case", STUDENT);
    let [blank, line] = ["a b.case", "a_b.case"].map(|name| put(&folder, name, STUDENT));
    let course = example("class/course.case");
    let files = [&first, "no-such-file", &second, &index, &blank, &line];
    let ran = run(&[&["mark", "--json", &course], &files[..]].concat(), &[]);
    assert_eq!(ran.status, 2);
    let said = read(ran.text().trim_end());
    let students = said.get("students").items();
    let names: Vec<&str> = students.iter().map(|s| s.get("name").text()).collect();
    let expected = ["ann", "no-such-file", "ann-2", "index-2", "a b", "a_b-2"];
    assert_eq!(names, expected);
    let states: Vec<&str> = students.iter().map(|s| s.get("status").text()).collect();
    assert_eq!(states[..3], ["marked", "error", "marked"]);
    assert_eq!(students[1].get("errors").items().len(), 1);
    assert_eq!(students[0].get("score"), &Json::String("yes".to_string()));
}

#[test]
fn warnings_can_be_denied() {
    let folder = scratch("denied");
    let course = text(&crate::common::folder("../../examples/class/course.case"));
    let course = put(
        &folder,
        "course.case",
        &course.replace("EF !shown", "AG !shown"),
    );
    let clean = put(&folder, "clean.case", STUDENT);
    let warned = put(
        &folder,
        "warned.case",
        &STUDENT.replace("  initial current\n", ""),
    );
    assert_eq!(
        run(&["mark", "--deny-warnings", &course, &clean], &[]).status,
        0
    );
    assert_eq!(run(&["mark", &course, &warned], &[]).status, 0);
    let ran = run(&["mark", "--deny-warnings", &course, &clean, &warned], &[]);
    assert_eq!(ran.status, 2);
    assert!(
        ran.err
            .ends_with("error: warnings: 1, and `--deny-warnings` is given\n"),
        "{}",
        ran.err
    );
}

//! `include` and `--course`: errors stand at their own file and line, and a file is taken once.

use crate::common::run;
use crate::{put, scratch, CLEAN};

fn halves() -> (String, String) {
    let (before, rest) = CLEAN.split_once("model 1").expect("model 1");
    let (student, course) = rest.split_once("model 2").expect("model 2");
    (
        format!("{before}model 2{course}"),
        format!("model 1{student}"),
    )
}

#[test]
fn an_included_course_makes_the_same_case() {
    let folder = scratch("include");
    let (course, student) = halves();
    put(&folder, "course.case", &course);
    let whole = run(&["encode", "-"], CLEAN.as_bytes()).out;
    let inner = scratch("include/inner");
    let before = put(
        &inner,
        "before.case",
        &format!("include \"../course.case\"\n{student}"),
    );
    let twice = "include \"../course.case\" # again\ninclude \"before.case\"\n";
    let after = put(
        &inner,
        "after.case",
        &format!("{twice}include \"after.case\"\n"),
    );
    for file in [before, after] {
        assert_eq!(run(&["encode", &file], &[]).out, whole, "{file}");
    }
}

#[test]
fn the_command_line_brings_a_course_and_a_student_together() {
    let folder = scratch("together");
    let (course, student) = halves();
    let course = put(&folder, "course.case", &course);
    let student = put(&folder, "student.case", &student);
    let listing = run(&["report", "-"], CLEAN.as_bytes()).out;
    for command in ["report", "check", "step", "why", "page", "dot", "encode"] {
        let ran = run(&[command, "--course", &course, &student], &[]);
        assert_eq!((ran.status, ran.err.as_str()), (0, ""), "{command}");
        assert!(command != "report" || ran.out == listing);
    }
    assert_eq!(
        run(&["explain", "--course", &course, &student, "a", "c"], &[]).status,
        0
    );
}

#[test]
fn an_error_stands_at_its_own_file_and_line() {
    let folder = scratch("errors");
    let (course, student) = halves();
    let wrong_course = put(&folder, "course.case", &course.replace("c -> c", "c -> d"));
    let text = format!(
        "include \"course.case\"\n\n{}",
        student.replace("a -> b", "a -> x")
    );
    let wrong_student = put(&folder, "student.case", &text);
    let said = run(&["check", &wrong_student], &[]).err;
    assert!(
        said.contains(&format!("--> {wrong_course}:7:8\n")),
        "{said}"
    );
    assert!(
        said.contains(&format!("--> {wrong_student}:7:8\n")),
        "{said}"
    );
    let twice = put(
        &folder,
        "twice.case",
        &format!("include \"course.case\"\nlattice panel\n{student}"),
    );
    let said = run(&["check", &twice], &[]).err;
    assert!(
        said.contains(&format!("line 1 of {wrong_course} begins it too")),
        "{said}"
    );
}

#[test]
fn a_course_alone_is_checked_and_not_reported() {
    let folder = scratch("alone");
    let (course, student) = halves();
    let course = put(&folder, "course.case", &course);
    let checked = run(&["check", &course], &[]);
    assert_eq!((checked.status, checked.err.as_str()), (0, ""));
    let head = "accepted as a course's file: it has no model 1\nceiling, the course's model against itself: yes\n";
    assert!(checked.text().starts_with(head), "{}", checked.text());
    assert!(!checked.text().contains("model 1,"), "{}", checked.text());
    let reported = run(&["report", &course], &[]);
    assert_eq!(reported.status, 2);
    assert!(
        reported
            .err
            .contains("= help: a course's file without model 1"),
        "{}",
        reported.err
    );
    let student = put(&folder, "student.case", &student);
    let said = run(&["check", &student], &[]).err;
    assert!(
        said.contains("= help: for a student's file with model 1 alone"),
        "{said}"
    );
}

//! Texts in other encodings, bytes where text is wanted and the other way round, and output that cannot be written.

use crate::common::{run, text};
use crate::{example, CLEAN};
use std::path::Path;
use std::process::{Command, Stdio};

fn said(bytes: &[u8]) -> String {
    let ran = run(&["check", "-"], bytes);
    assert_eq!(ran.status, 2);
    ran.err
}

#[test]
fn encodings_are_named() {
    let title = format!("title \"Höhe\"\n{CLEAN}");
    assert_eq!(run(&["check", "-"], title.as_bytes()).status, 0);
    let latin: Vec<u8> = title.chars().map(|c| c as u8).collect();
    assert_eq!(
        said(&latin),
        "error: <stdin>: line 1: this text is in Latin-1 (its byte 246 is `ö` there): save it as UTF-8\n"
    );
    let utf16: Vec<u8> = CLEAN.encode_utf16().flat_map(u16::to_le_bytes).collect();
    let with_mark = [&[0xff, 0xfe][..], &utf16].concat();
    for bytes in [utf16, with_mark] {
        let expected = "error: <stdin>: this text is in UTF-16: save it as UTF-8\n";
        assert_eq!(said(&bytes), expected);
    }
}

#[test]
fn bytes_and_text_are_told_apart() {
    let bytes = run(&["encode", "-"], CLEAN.as_bytes()).out;
    assert!(
        std::str::from_utf8(&bytes).is_ok(),
        "these bytes could be a text"
    );
    let expected = "error: <stdin>: this is no text (the bytes of a case are read with --bytes, and `koelchair decode` gives their text)\n";
    assert_eq!(said(&bytes), expected);
    let decoded = run(&["decode", "-"], CLEAN.as_bytes());
    let already = "help: this file is text already; `koelchair encode` gives its bytes\n";
    assert_eq!((decoded.status, decoded.err.as_str()), (0, already));
    assert_eq!(run(&["decode", "-"], &bytes).err, "");
    let text_as_bytes = run(&["check", "--bytes", "-"], CLEAN.as_bytes());
    assert_eq!(text_as_bytes.status, 1);
    assert!(text_as_bytes
        .err
        .ends_with("  = help: this file is text: leave out `--bytes`\n"));
    assert!(!run(&["check", "--bytes", "-"], &bytes).err.contains("help"));
}

#[test]
fn the_cases_for_c_are_the_bytes_of_the_examples() {
    for (name, case) in [
        ("c/example1.bytes", "example-1-unsure.case"),
        ("c/example4.bytes", "example-4-round-1.case"),
        ("c/covered-from.bytes", "covered-from.case"),
    ] {
        let bytes = std::fs::read(example(name)).expect("the bytes");
        assert!(run(&["encode", &example(case)], &[]).out == bytes, "{name}");
    }
}

#[test]
fn a_long_list_of_errors_ends_with_a_count() {
    let wrong: String = (0..50).map(|i| format!("  a -> x{i}\n")).collect();
    let text = CLEAN.replace("  a -> b\n", &wrong);
    let ran = run(&["check", "-"], text.as_bytes());
    assert_eq!(ran.err.matches("error: ").count(), 20);
    assert!(ran.err.ends_with("\nand 30 more errors\n"));
}

fn program(arguments: &[&str], out: Stdio) -> std::process::Child {
    Command::new(env!("CARGO_BIN_EXE_koelchair"))
        .args(arguments)
        .stdout(out)
        .stderr(Stdio::piped())
        .spawn()
        .expect("the program starts")
}

#[test]
fn a_failed_write_is_said() {
    if !Path::new("/dev/full").exists() {
        return;
    }
    let full = std::fs::File::options()
        .write(true)
        .open("/dev/full")
        .expect("/dev/full");
    let child = program(&["report", &example("example-4-round-1.case")], full.into());
    let ran = child.wait_with_output().expect("the program ends");
    assert_eq!(ran.status.code(), Some(2));
    let said = String::from_utf8(ran.stderr).expect("text");
    assert!(
        said.ends_with(
            "error: standard output cannot be written: No space left on device (os error 28)\n"
        ),
        "{said}"
    );
}

#[test]
fn a_closed_pipe_ends_quietly() {
    let mut child = program(&["page", &example("greatest-sizes.case")], Stdio::piped());
    drop(child.stdout.take());
    let ran = child.wait_with_output().expect("the program ends");
    assert_eq!(ran.status.code(), Some(0));
    assert!(
        !String::from_utf8_lossy(&ran.stderr).contains("error"),
        "nothing is said"
    );
}

#[test]
fn a_page_that_cannot_be_written_is_said() {
    let course = example("class/course.case");
    let ran = run(&["mark", "--page", "/dev/null/pages", &course], &[]);
    assert_eq!(ran.status, 2);
    assert!(
        ran.err.starts_with("error: /dev/null/pages: "),
        "{}",
        ran.err
    );
}

#[test]
fn a_line_behind_the_cut_keeps_its_caret() {
    let folder = crate::common::folder("tests/wrong");
    let message = text(&folder.join("long-line.message"));
    let lines: Vec<&str> = message.lines().collect();
    let (shown, carets) = (lines[3], lines[4]);
    let at = carets.find('^').expect("carets");
    let under: String = shown.chars().skip(at).take(2).collect();
    assert_eq!(under, "bb");
    assert!(shown.chars().count() < 110);
}

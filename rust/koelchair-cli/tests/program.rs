//! The program itself: standard input, standard output, standard error and exit status.

mod common;

use common::folder;
use std::io::Write;
use std::process::{Command, Output, Stdio};

fn koelchair(arguments: &[&str], input: &[u8]) -> Output {
    let mut child = Command::new(env!("CARGO_BIN_EXE_koelchair"))
        .args(arguments)
        .stdin(Stdio::piped())
        .stdout(Stdio::piped())
        .stderr(Stdio::piped())
        .spawn()
        .expect("the program starts");
    child
        .stdin
        .take()
        .expect("its input")
        .write_all(input)
        .expect("the input is taken");
    child.wait_with_output().expect("the program ends")
}

#[test]
fn bytes_go_through_a_pipe() {
    let example = folder("../../examples/example-1-unsure.case")
        .display()
        .to_string();
    let bytes = koelchair(&["encode", &example], &[]);
    assert_eq!(bytes.status.code(), Some(0));
    let listing = koelchair(&["report", "--bytes", "-"], &bytes.stdout);
    assert_eq!(listing.status.code(), Some(0));
    assert_eq!(
        listing.stdout,
        b"rounds 2\nrow 0: 1\nscore 1\nformula 0: 1 1\n"
    );
}

#[test]
fn empty_input_is_refused() {
    let ran = koelchair(&["report", "--bytes", "-"], &[]);
    assert_eq!(ran.status.code(), Some(1));
    assert_eq!(ran.stdout, b"refused 1 255\n");
    assert_eq!(
        ran.stderr,
        b"refused 1 255: the case is empty or over 32,768 bytes\n"
    );
}

#[test]
fn a_wrong_text_ends_with_2() {
    let ran = koelchair(&["report", "-"], b"lattice\n");
    assert_eq!(ran.status.code(), Some(2));
    assert_eq!(ran.stdout, b"");
    assert!(ran.stderr.starts_with(b"error: `model 1` is missing\n"));
}

//! Each kind of wrong text and of refusal gives its message: `wrong/NAME.case` gives `wrong/NAME.message`, and a table
//! `wrong-tables/CASE-NAME.table`, handed in for `wrong-tables/CASE.case`, gives the message beside it.

mod common;

use common::{examples, files, folder, run, text, Random};

#[test]
fn every_wrong_text_gives_its_message() {
    let cases = files(&folder("tests/wrong"), "case");
    assert!(cases.len() > 80, "the wrong texts are there");
    for case in cases {
        let ran = run(&["check", "-"], text(&case).as_bytes());
        assert_eq!(ran.text(), "", "{}", case.display());
        assert_eq!(
            ran.err,
            text(&case.with_extension("message")),
            "{}",
            case.display()
        );
        let refused = case
            .file_name()
            .is_some_and(|n| n.to_string_lossy().starts_with("refused-"));
        assert_eq!(
            ran.status,
            if refused { 1 } else { 2 },
            "{}",
            case.display()
        );
    }
}

#[test]
fn every_wrong_table_gives_its_message() {
    let tables = files(&folder("tests/wrong-tables"), "table");
    assert!(tables.len() > 30, "the wrong tables are there");
    for table in tables {
        let name = table.file_stem().expect("a name").to_string_lossy();
        let (case, _) = name.split_once('-').expect("the name of a case");
        let case = table.with_file_name(format!("{case}.case"));
        let ran = run(
            &["judge", &case.display().to_string(), "-"],
            text(&table).as_bytes(),
        );
        let said = (ran.status, ran.text(), ran.err);
        let message = text(&table.with_extension("message"));
        assert_eq!(said, (2, String::new(), message), "{name}");
    }
}

#[test]
fn every_refusal_of_open_has_a_message() {
    let messages = files(&folder("tests/wrong"), "message");
    for number in 1..=10 {
        let first = format!("refused {number} ");
        assert!(
            messages.iter().any(|m| text(m).starts_with(&first)),
            "refusal {number}"
        );
    }
}

fn usage_error(arguments: &[&str], message: &str) {
    let ran = run(arguments, &[]);
    assert_eq!(ran.status, 2, "{arguments:?}");
    assert_eq!(
        ran.err.lines().next(),
        Some(format!("error: {message}").as_str()),
        "{arguments:?}"
    );
}

#[test]
fn wrong_commands_are_said() {
    let example = folder("../../examples/error-compared-with-itself.case");
    let example = example.display().to_string();
    usage_error(&[], "expected a sub-command");
    usage_error(&["chek"], "`chek` is no sub-command; did you mean `check`?");
    usage_error(&["frobnicate"], "`frobnicate` is no sub-command");
    usage_error(&["check"], "expected FILE, got 0 arguments");
    usage_error(
        &["check", "--all", &example],
        "the option `--all` is not known here",
    );
    usage_error(
        &["report", "--name", &example],
        "the option `--name` is not known here; did you mean `--names`?",
    );
    usage_error(&["step", "--rounds"], "`--rounds` wants a value after it");
    usage_error(
        &["step", "--rounds", "two", &example],
        "`two` is no number of rounds",
    );
    usage_error(
        &["step", "--table", "--json", &example],
        "expected one of `--json` and `--table`, got both",
    );
    usage_error(
        &["explain", &example],
        "expected FILE STATE1 STATE2, got 1 argument",
    );
    usage_error(
        &["explain", &example, "od", "old"],
        "`od` is no state of model 1; a similar name is `old`",
    );
    usage_error(
        &["explain", &example, "old", "elsewhere"],
        "`elsewhere` is no state of model 2; expected one of `old`, `between`, `new`",
    );
    usage_error(
        &["report", "--share", "", &example],
        "`--share` wants an element",
    );
    usage_error(
        &["report", "--share", "maybe", &example],
        "`maybe` is no element",
    );
    usage_error(&["judge", &example], "expected FILE TABLE, got 1 argument");
    let twice = "standard input is named twice; `-` can stand for one file alone";
    usage_error(&["judge", "-", "-"], twice);
    usage_error(&["judge", "--course", "-", &example, "-"], twice);
    usage_error(
        &["judge", &example, "no-such-table"],
        "no-such-table: No such file or directory (os error 2)",
    );
    usage_error(
        &["mark", "--csv", "--json", &example],
        "expected one of `--csv` and `--json`, got both",
    );
    usage_error(
        &["check", "src/"],
        "src/: this is a folder; name the files in it, as src/*.case",
    );
    usage_error(
        &["check", "no-such-file"],
        "no-such-file: No such file or directory (os error 2)",
    );
}

#[test]
fn bytes_are_no_text() {
    let ran = run(&["check", "-"], &[3, 255]);
    assert_eq!(ran.status, 2);
    assert_eq!(
        ran.err,
        "error: <stdin>: this is no text (the bytes of a case are read with --bytes, and `koelchair decode` gives their text)\n"
    );
}

#[test]
fn bytes_are_read_where_that_is_asked() {
    for file in examples() {
        let file = file.display().to_string();
        let bytes = run(&["encode", &file], &[]).out;
        let ran = run(&["check", "--bytes", "-"], &bytes);
        assert_eq!(ran.status, run(&["check", &file], &[]).status, "{file}");
    }
}

#[test]
fn help_and_version_are_given() {
    let version = run(&["--version"], &[]);
    assert_eq!(
        version.text(),
        format!("koelchair {}\n", env!("CARGO_PKG_VERSION"))
    );
    let all = run(&["--help"], &[]).text();
    for command in [
        "check", "report", "mark", "why", "step", "judge", "explain", "page", "dot", "encode",
        "decode",
    ] {
        assert!(
            all.contains(&format!("  koelchair {command} ")),
            "{command}"
        );
        let help = run(&[command, "--help"], &[]);
        assert_eq!(help.status, 0);
        assert!(
            help.text().starts_with(&format!("koelchair {command} ")),
            "{command}"
        );
    }
}

/// A text with a few characters taken out, put in or replaced.
fn damaged(random: &mut Random, text: &str) -> String {
    let mut damaged: Vec<char> = text.chars().collect();
    for _ in 0..1 + random.below(3) {
        let at = random.below(damaged.len());
        let character = random.one_of(&[
            '(', ')', '{', '}', ':', '-', '>', '.', '"', '#', '\n', ' ', '0', 'q', '\u{fc}', '=',
        ]);
        match random.below(3) {
            0 => drop(damaged.remove(at)),
            1 => damaged.insert(at, character),
            _ => damaged[at] = character,
        }
    }
    damaged.into_iter().collect()
}

/// Each damaged text is accepted, refused or wrong, and says so.
#[test]
fn damaged_texts_are_said_to_be_wrong() {
    let mut random = Random(0xbad);
    let texts: Vec<String> = examples()
        .iter()
        .map(|f| text(f))
        .filter(|t| t.len() < 4000)
        .collect();
    let mut seen = [0; 3];
    for _ in 0..4000 {
        let text = random.one_of(&texts);
        let damaged = damaged(&mut random, &text);
        let ran = run(&["check", "-"], damaged.as_bytes());
        seen[usize::from(ran.status)] += 1;
        let only_warned = ran.err.is_empty() || ran.err.starts_with("warning: ");
        assert_eq!(only_warned, ran.status == 0, "{damaged}");
        assert_eq!(
            ran.err.contains("--> <stdin>:"),
            ran.status == 2 || ran.err.contains(" | "),
            "{damaged}"
        );
    }
    assert!(
        seen.iter().all(|count| *count > 50),
        "each status occurs: {seen:?}"
    );
}

/// Each damaged listing is a table or wrong, and says so.
#[test]
fn damaged_tables_are_said_to_be_wrong() {
    let mut random = Random(0xbad);
    let listings: Vec<(String, String)> = ["panel-of-three", "form-product", "form-order"]
        .map(|name| folder("../../examples").join(format!("{name}.case")))
        .into_iter()
        .map(|file| file.display().to_string())
        .map(|file| (run(&["report", "--names", &file], &[]).text(), file))
        .collect();
    let mut seen = [0; 2];
    for _ in 0..2000 {
        let (listing, file) = random.one_of(&listings);
        let damaged = damaged(&mut random, &listing);
        let ran = run(&["judge", &file, "-"], damaged.as_bytes());
        seen[usize::from(ran.status == 2)] += 1;
        assert!(ran.status != 1, "{damaged}");
        assert_eq!(ran.err.is_empty(), ran.status == 0, "{damaged}");
        assert_eq!(
            ran.err.contains("--> <stdin>:"),
            ran.status == 2,
            "{damaged}"
        );
    }
    assert!(seen.iter().all(|count| *count > 50), "{seen:?}");
}

/// A formula may be longer in a text than the desk takes it, up to a limit.
#[test]
fn long_formulas_go_to_the_desk_up_to_a_limit() {
    let with = |count: usize| {
        let formula = vec!["p"; count].join(" & ");
        let text = format!("lattice panel\npropositions p\nmodel 1\nstates a\nmodel 2\nstates a\nformula f: {formula}\n");
        run(&["check", "-"], text.as_bytes())
    };
    assert_eq!(with(85).status, 0);
    assert!(with(2000).err.starts_with("refused 10 3: "));
    assert!(with(2001)
        .err
        .starts_with("error: the formula is too long\n"));
}

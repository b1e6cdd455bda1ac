//! What the documents show is so: the case and the refusal in docs/TEXT-FORM.md, what follows each command, what follows from a score and
//! the lowerings of a class in docs/GUIDE.md, and the bytes and the listing in docs/SPECIFICATION.md.

mod common;

use common::{folder, run, text};

/// The blocks of a document that are set in by four blanks, without those.
fn blocks(document: &str) -> Vec<String> {
    let mut blocks = vec![String::new()];
    let mut blank = String::new();
    for line in document.lines() {
        match line.strip_prefix("    ") {
            Some(inner) => {
                let last = blocks.last_mut().expect("there is a block");
                if !last.is_empty() {
                    last.push_str(&blank);
                }
                blank.clear();
                last.push_str(inner);
                last.push('\n');
            }
            None if line.is_empty() => blank.push('\n'),
            None => {
                blank.clear();
                blocks.push(String::new());
            }
        }
    }
    blocks.retain(|b| !b.is_empty());
    blocks
}

/// What a command in a document prints, run in the repository's root: messages, then output.
fn printed(command: &str) -> String {
    let root = folder("../..").display().to_string();
    let in_root = |word: &str| match word.starts_with("examples/") {
        true => format!("{root}/{word}"),
        false => word.to_string(),
    };
    let words: Vec<String> = command.split_whitespace().map(in_root).collect();
    let ran = run(&words.iter().map(String::as_str).collect::<Vec<_>>(), &[]);
    format!("{}{}", ran.err, ran.text()).replace(&format!("{root}/"), "")
}

#[test]
fn commands_print_what_follows_them() {
    for (document, least) in [("GUIDE.md", 15), ("TEXT-FORM.md", 5)] {
        let blocks = blocks(&text(&folder("../../docs").join(document)));
        let commands = blocks.iter().filter_map(|b| b.strip_prefix("$ koelchair "));
        let mut count = 0;
        for block in commands {
            let (command, expected) = block.split_once('\n').expect("a line");
            assert_eq!(printed(command), expected, "{document}: {command}");
            count += 1;
        }
        assert!(count >= least, "{document}: {count} commands");
    }
}

#[test]
fn the_case_and_the_refusal_are_those_of_the_tool() {
    let mut blocks = blocks(&text(&folder("../../docs/TEXT-FORM.md")));
    blocks.retain(|b| !b.starts_with("$ "));
    let [case, refusal] = &blocks[..] else {
        panic!("two blocks, not {}", blocks.len())
    };
    let ran = run(&["report", "--names", "-"], case.as_bytes());
    assert_eq!((ran.status, ran.err.as_str()), (0, ""));
    assert!(ran.text().contains("score unsure\n"), "{}", ran.text());
    let example = folder("../../examples/example-7-not-distributive.case");
    let said = run(&["check", &example.display().to_string()], &[]).err;
    let folder = folder("../../examples").display().to_string();
    assert_eq!(said.replace(&folder, "examples"), *refusal);
}

#[test]
fn the_guide_has_a_student_s_file_and_a_table() {
    let blocks = blocks(&text(&folder("../../docs/GUIDE.md")));
    for file in ["class/students/kamil.case", "panel-of-three.sound.table"] {
        let file = text(&folder("../../examples").join(file));
        let (_, without_comment) = file.split_once('\n').expect("a line");
        assert!(blocks.iter().any(|b| b == without_comment), "{file}");
    }
}

/// The guide's table of what follows from a score: the student's values with which the bound is kept, worked out in the chain.
#[test]
fn the_guide_says_what_follows_from_a_score() {
    let guide = text(&folder("../../docs/GUIDE.md"));
    let names = ["no", "unsure", "yes"];
    let head = "| Score | The course's value is yes | It is unsure | It is no |";
    assert!(guide.lines().any(|line| line == head), "{head}");
    for (score, name) in names.iter().enumerate() {
        let follows = |course: usize| {
            let kept = |student: &usize| score <= (2 - course).max(*student);
            let left: Vec<&str> = (0..3).filter(kept).map(|s| names[s]).collect();
            match left.len() {
                3 => "nothing follows".to_string(),
                _ => format!("the student's is {}", left.join(" or ")),
            }
        };
        let cells = [2, 1, 0].map(follows).join(" | ");
        let row = format!("| {name} | {cells} |");
        assert!(guide.lines().any(|line| line == row), "{row}");
    }
}

/// A drawing of the class: its score, whether it reaches the ceiling, its lowerings, and its formulas' values.
fn marked(drawing: &str) -> [String; 4] {
    let course = folder("../../examples/class/course.case");
    let course = course.display().to_string();
    let said =
        |options: [&str; 2]| run(&[options[0], options[1], &course, "-"], drawing.as_bytes());
    let marks = said(["mark", "--csv"]).text();
    let row: Vec<&str> = marks.lines().last().expect("a row").split(',').collect();
    let stepped = said(["step", "--course"]).text();
    let (_, lowerings) = stepped.split_once("lowerings in all: ").expect("a sum");
    [row[3], row[4], lowerings.trim_end(), &row[5..8].join(" ")].map(str::to_string)
}

/// The guide's table of lowerings: of drawings of the class, and of one of them drawn with a state less.
#[test]
fn the_guide_has_the_lowerings_of_a_class() {
    let row = |name: &str, [score, ceiling, lowerings, _]: &[String; 4]| {
        format!("| {name} | {score} | {ceiling} | {lowerings} |")
    };
    let students = folder("../../examples/class/students");
    let drawing = |name: &str| {
        let whole = text(&students.join(name).with_extension("case"));
        whole.replace("include \"../course.case\"\n", "")
    };
    let names = ["anna", "kamil", "mehmet", "elif"];
    let mut rows = names
        .map(|name| row(name, &marked(&drawing(name))))
        .to_vec();
    let elif = drawing("elif");
    assert_eq!(elif.matches("fading off").count(), 4);
    let (larger, smaller) = (marked(&elif), marked(&elif.replace("fading off", "blank")));
    rows.push(row(
        "elif, with one state `blank` for `fading` and `off`",
        &smaller,
    ));
    let guide = text(&folder("../../docs/GUIDE.md"));
    let head = "| Drawing | Score | Ceiling | Lowerings |\n|---|---|---|---|\n";
    let (_, rest) = guide.split_once(head).expect("the table");
    let table: Vec<&str> = rest.lines().take_while(|line| !line.is_empty()).collect();
    assert_eq!(table, rows);
    assert_eq!((&larger[..2], &larger[3]), (&smaller[..2], &smaller[3]));
    assert_ne!(larger[2], smaller[2]);
}

#[test]
fn the_bytes_have_the_listing() {
    let blocks = blocks(&text(&folder("../../docs/SPECIFICATION.md")));
    let [case, listing] = &blocks[..] else {
        panic!("two blocks, not {}", blocks.len())
    };
    let numbers = |line: &str| {
        let words = line.split_whitespace();
        words.map_while(|w| w.parse().ok()).collect::<Vec<u8>>()
    };
    let bytes: Vec<u8> = case.lines().flat_map(numbers).collect();
    assert_eq!(bytes.len(), 42);
    let ran = run(&["report", "--bytes", "-"], &bytes);
    assert_eq!((ran.status, &ran.text()), (0, listing));
}

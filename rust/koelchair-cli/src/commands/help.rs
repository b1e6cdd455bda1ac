//! What `--help` says.

/// Sub-command, usage, what it does.
const COMMANDS: [(&str, &str, &str); 12] = [
    (
        "check",
        "koelchair check [--json] [--deny-warnings] FILE",
        "Reads a case and says whether the desk accepts it, what it holds, and of each formula its nested AX, whether it has a\n\
         fixpoint, whether it has EX, and from which round on entries and score bound it.\n\
         A refusal is said in words, with its number, its part and where that part stands in the text. A course's file, which\n\
         has no model 1, is checked with its model against itself.",
    ),
    (
        "report",
        "koelchair report [--names] [--values] [--share ELEMENT]... [--json] [--deny-warnings] FILE",
        "Prints the listing: T, the settled table, the score, and each formula's value on both models.\n\
         --names   names in place of numbers, and from which round on entries and score bound each formula\n\
         --values  also each formula's value at each state\n\
         --share   also the per cent of entries at or above this element, rounded, an exact half to the even neighbour",
    ),
    (
        "mark",
        "koelchair mark [--csv | --json] [--page FOLDER] [--share ELEMENT] [--deny-warnings] COURSE STUDENT...",
        "Marks students' drawings, a row for each: score, formulas, share, warnings, and whether the ceiling is reached, which is\n\
         what the course's model scores against itself. COURSE has the lattice, the propositions, model 2 and the formulas, and\n\
         each STUDENT model 1 alone. A drawing that cannot be marked does not stop the others. COURSE alone is checked.\n\
         --csv     comma-separated values, with the reasons\n\
         --page    also writes a class page, FOLDER/index.html, which leads to a page for each student\n\
         --share   the element whose share of the entries is given; the ceiling if none is named",
    ),
    (
        "why",
        "koelchair why [--all] [--json] FILE [STATE1 STATE2]",
        "Why the score is not higher, or the entry of a state of the student's and one of the course's: from pair to pair, in the\n\
         round in which each fell, down to the proposition that differs or the transition that is not answered. In a panel for\n\
         each instructor by himself.\n\
         --all     every step of a long way",
    ),
    (
        "step",
        "koelchair step [--rounds R] [--table | --json] FILE",
        "Prints the table after each round with names, how many entries the round lowered, and the score that it would give; at\n\
         the end the lowerings of all these rounds. Rows are states of model 1, columns states of model 2. Only the settled table\n\
         is a result.\n\
         --rounds  stops after round R\n\
         --table   the last of these tables alone, as judge reads it",
    ),
    (
        "judge",
        "koelchair judge [--json] FILE TABLE",
        "Says whether a table is sound. Yes: each entry is at or below what a round worked on the table gives there; then whether\n\
         it is tight, that is, whether the round changes nothing. No: how many entries are too high, and the pair of the first. Both\n\
         end with status 0. TABLE is a listing of report, by names or by numbers; its lines `columns` and `row` are enough.",
    ),
    (
        "explain",
        "koelchair explain [--all] FILE STATE1 STATE2",
        "For a state of model 1 and a state of model 2: their entry in each round, and what held it down: a proposition, or a\n\
         transition of model 1 with its best answer in model 2. Entries come from the library, the parts of an entry from\n\
         this tool; that they did not meet to the library's entry would be an error.\n\
         --all     also parts that are top",
    ),
    (
        "page",
        "koelchair page [--deny-warnings] FILE",
        "Writes a page of HTML to standard output, to be shown to a class. It needs no network. Its address can say what is shown,\n\
         as in page.html#round=2&pair=STATE1,STATE2&theme=dark.",
    ),
    (
        "dot",
        "koelchair dot FILE",
        "Writes both models as a drawing for Graphviz: `koelchair dot FILE | dot -Tsvg > models.svg`. An arrow whose value is not\n\
         top is dashed and says it.",
    ),
    (
        "draw",
        "koelchair draw [--with-course] [FILE]",
        "Writes a page of HTML in which a model is drawn by mouse, touch or keys, and saved and opened as text. It needs no network.\n\
         FILE is a course's: its lattice and propositions are fixed, a student's file for mark is saved, and the course's model\n\
         is not in the page. Without FILE a whole case is drawn.\n\
         --with-course  the course's model and formulas are in the page too, to be looked at and saved as a whole case",
    ),
    (
        "encode",
        "koelchair encode [--numbers] FILE",
        "Writes the bytes of a case to standard output.\n\
         --numbers  as numbers in base ten",
    ),
    (
        "decode",
        "koelchair decode FILE",
        "Reads the bytes of a case and prints it as text, with names e0, q0, p0, f0 and so on. Bytes that have not the form of\n\
         a case are printed as a text of `bytes`.",
    ),
];

/// The options of several sub-commands: what is said of each, and the sub-commands that have it.
const SHARED: [(&str, &str); 4] = [
    (
        "--course COURSE  FILE has model 1 alone, and COURSE the rest",
        "check, report, why, step, judge, explain, page, dot, draw, encode",
    ),
    (
        "--bytes          FILE holds the bytes of a case, not its text",
        "check, report, why, step, judge, explain, page, dot, draw",
    ),
    (
        "--json           what is said as JSON, on one line (docs/TEXT-FORM.md gives its form)",
        "check, report, mark, why, step, judge",
    ),
    (
        "--deny-warnings  a warning is an error",
        "check, report, mark, page",
    ),
];

const EXIT_STATUS: &str =
    "Exit status: 0 all well, 1 refused by the desk, 2 the text or the command is wrong, or something cannot be written.\n";

/// What holds for several sub-commands, as far as this one has it; of all of them without one.
fn common(command: Option<&str>) -> String {
    let files = match command {
        Some("mark") => {
            "COURSE and STUDENT are names of files, or one of them - for standard input.\n"
        }
        Some("judge") => {
            "FILE and TABLE are names of files, or one of them - for standard input.\n"
        }
        _ => "FILE is a file's name, or - for standard input.\n",
    };
    let options = SHARED.iter().filter_map(|(option, having)| match command {
        None => Some(format!("{option}\n                 ({having})\n")),
        Some(name) => having
            .split(", ")
            .any(|h| h == name)
            .then(|| format!("{option}\n")),
    });
    format!("{files}{}{EXIT_STATUS}", options.collect::<String>())
}

/// The names of the sub-commands.
pub fn names() -> impl Iterator<Item = &'static str> {
    COMMANDS.iter().map(|(name, ..)| *name)
}

/// Whether there is such a sub-command.
pub fn known(command: &str) -> bool {
    names().any(|name| name == command)
}

/// How a sub-command, or the tool, is called.
pub fn usage(command: Option<&str>) -> String {
    match COMMANDS.iter().find(|(name, ..)| Some(*name) == command) {
        Some((_, usage, _)) => format!("usage: {usage}"),
        None => {
            let names: Vec<&str> = names().collect();
            format!("usage: koelchair {} ...", names.join("|"))
        }
    }
}

/// The help of a sub-command, or of the tool.
pub fn of(command: Option<&str>) -> String {
    if let Some((_, usage, does)) = COMMANDS.iter().find(|(name, ..)| Some(*name) == command) {
        return format!("{usage}\n\n{does}\n\n{}", common(command));
    }
    let list: String = COMMANDS
        .iter()
        .map(|(_, usage, _)| format!("  {usage}\n"))
        .collect();
    format!(
        "koelchair: cases of latticed simulation as text and as bytes, and what the proved desk says of them\n\n{list}\n\
         {}koelchair SUB-COMMAND --help says more; --version gives the version. The text form is in docs/TEXT-FORM.md.\n",
        common(None)
    )
}

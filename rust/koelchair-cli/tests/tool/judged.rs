//! `judge`: which tables it says yes to, what it says of the others, and how a table may be written.

use crate::common::{examples, run, Random};
use crate::json::{read, Json};
use crate::{example, put, scratch, CLEAN};
use koelchair::Desk;
use koelchair_cli::case::Case;
use koelchair_cli::encode::encode;
use koelchair_cli::print::print;
use koelchair_cli::tables::{parts, Operations};

const YES: &str = "yes: the table is sound, no entry is too high\n";
const TIGHT: &str = "tight: a round worked on it changes nothing, so it is a simulation\n";

/// What is said of a table in standard input, with status 0.
fn judged(file: &str, table: &str) -> String {
    let ran = run(&["judge", file, "-"], table.as_bytes());
    assert_eq!((ran.status, ran.err.as_str()), (0, ""), "{file}\n{table}");
    ran.text()
}

fn tight() -> String {
    format!("{YES}{TIGHT}")
}

/// So many of some entries.
fn counted(count: usize, entries: usize) -> String {
    let one = ["entries", "entry"][usize::from(count == 1)];
    format!("{count} {one} of {entries}")
}

fn raises(raised: usize, entries: usize) -> String {
    let raised = counted(raised, entries);
    format!("{YES}not tight: a round worked on it raises {raised}\n")
}

/// A no to a table in which so many entries are too high, of all of them, and what is said of the first.
fn no((count, entries): (usize, usize), pair: &str, says: &str, gives: &str) -> String {
    let (are, first) = [("are", "the first, "), ("is", "")][usize::from(count == 1)];
    let count = counted(count, entries);
    format!("no: the table is not sound, {count} {are} too high\n{first}student {pair}: the table says {says}, and a round worked on it gives {gives}\n")
}

/// The listing of every example that the desk accepts is that of a simulation, with numbers and with all that it can have besides names.
#[test]
fn the_listing_of_report_is_tight() {
    let mut accepted = 0;
    for file in examples() {
        let file = file.display().to_string();
        let listing = run(&["report", &file], &[]);
        if listing.status == 1 {
            let ran = run(&["judge", &file, "-"], &listing.out);
            assert_eq!((ran.status, ran.text()), (1, String::new()), "{file}");
            assert!(ran.err.starts_with("refused "), "{file}");
            continue;
        }
        assert_eq!(judged(&file, &listing.text()), tight(), "{file}");
        let options = ["report", "--names", "--values", "--share", "top", &file];
        let named = run(&options, &[]).text();
        assert_eq!(judged(&file, &named), tight(), "{file}");
        accepted += 1;
    }
    assert!(accepted > 20, "{accepted}");
}

#[test]
fn a_table_in_a_file_is_read() {
    let folder = scratch("judge-file");
    let case = example("label-one-field-after-the-other.case");
    let names = example("label-one-field-after-the-other.names");
    assert_eq!(run(&["judge", &case, &names], &[]).text(), tight());
    let table = put(&folder, "a.table", "row a: yes\nrow b: yes\n");
    let ran = run(&["judge", "-", &table], CLEAN.as_bytes());
    assert_eq!((ran.status, ran.text()), (0, tight()));
    let bytes = run(&["encode", "-"], CLEAN.as_bytes()).out;
    let table = put(&folder, "q.table", "row q0: e2\nrow q1: 2\n");
    let ran = run(&["judge", "--bytes", "-", &table], &bytes);
    assert_eq!((ran.status, ran.text()), (0, tight()));
}

#[test]
fn a_student_s_file_is_judged_with_the_course_s() {
    let (course, student) = (
        example("class/course.case"),
        example("class/students/kamil.case"),
    );
    let case = ["--course", &course, &student];
    let listing = run(&[&["report", "--names"], &case[..]].concat(), &[]).out;
    let ran = run(&[&["judge"], &case[..], &["-"]].concat(), &listing);
    assert_eq!((ran.status, ran.text()), (0, tight()), "{}", ran.err);
}

/// Columns and rows in any order, names and numbers, comments, blanks, line ends, and the other lines of a listing.
#[test]
fn a_table_is_written_in_many_ways() {
    let case = example("label-one-field-after-the-other.case");
    for table in [
        "row old: no no\nrow half: no no\nrow new: no yes\n",
        "row 2: 0 2\nrow 1: 0 0\nrow 0: 0 0\n",
        "columns: new old\nrow new: yes no\nrow half: no no\nrow old: no no\n",
        "row new: yes no\nrow half: no no\nrow old: no no\ncolumns: new old\n",
        "columns: 1 0\nrow 2: yes 0\nrow half: 0 no\nrow old: bottom no\n",
        "# by hand\n\n  columns:  old  new # the course's\nrow  old:no no\r\nrow half: no no\r\n\r\nrow new : no top",
        "\u{feff}rounds 3\nrow old: no no\nrow half: no no\nrow new: no yes\nscore no\n",
        "rounds: 3\nrow old: no no\nrow half: no no\nrow new: no yes\nscore: no\nvalues:\n  old: yes\n",
        "formula f: student no, course yes\n# its facts\n\n  row old: 100 %\nrow old: no no\nrow half: no no\nrow new: no yes\n",
    ] {
        assert_eq!(judged(&case, table), tight(), "{table}");
    }
    let product = example("form-product.case");
    let listing = run(&["report", "--names", &product], &[]).text();
    let over_lines = listing.replacen(", ", ",\n    ", 3);
    assert_ne!(listing, over_lines);
    assert_eq!(judged(&product, &over_lines), tight());
}

/// Where a name is the number of another, both listings are read as they are meant.
#[test]
fn names_that_are_numbers_are_read_as_they_are_printed() {
    let text = "lattice chain 1 0 2\npropositions p\nmodel 1\n  states 1 0\n  1: p = 0\n  0: p\nmodel 2\n  states 1 0\n  1: p = 0\n  0: p\n";
    let file = put(&scratch("judge-numbers"), "numbers.case", text);
    let numbers = run(&["report", &file], &[]).text();
    let names = run(&["report", "--names", &file], &[]).text();
    assert!(numbers.contains("row 0: 1 1\nrow 1: 1 2\n"), "{numbers}");
    assert!(
        names.contains("row 1:    0  0\nrow 0:    0  2\n"),
        "{names}"
    );
    for listing in [&numbers, &names] {
        assert_eq!(judged(&file, listing), tight());
    }
    // The second without its line `columns` is read by numbers, since its states are digits, and is another table.
    let rows: Vec<&str> = names.lines().filter(|l| l.starts_with("row ")).collect();
    let said = no((1, 4), "1, course 0", "2", "only 0");
    assert_eq!(judged(&file, &rows.join("\n")), said);
}

/// A row by its state's name says that digits are names; rows by digits alone say that they are numbers.
#[test]
fn a_row_by_name_has_its_entries_by_name() {
    let text = "lattice chain 1 2 3\nmodel 1\n  states a b 1\nmodel 2\n  states c\n";
    let file = put(&scratch("judge-rows"), "rows.case", text);
    let names = "row a: 1\nrow b: 2\nrow 1: 3\n";
    assert_eq!(judged(&file, names), raises(2, 3));
    let numbers = "row 0: 2\nrow 1: 2\nrow 2: 2\n";
    assert_eq!(judged(&file, numbers), tight());
    assert_eq!(judged(&file, &format!("columns: c\n{names}")), raises(2, 3));
}

#[test]
fn a_sound_table_need_not_be_tight() {
    let panel = example("panel-of-three.case");
    let lowered = "columns: old new\nrow old: nny ?yy\nrow half: nnn nyn\nrow new: yyy yyy\n";
    assert_eq!(judged(&panel, lowered), raises(2, 6));
    let one = "columns: old new\nrow old: nny ?yy\nrow half: nyn nyn\nrow new: yyy yyy\n";
    assert_eq!(judged(&panel, one), raises(1, 6));
    // Bottom everywhere is sound; it is tight where each state of the student's goes on with top.
    let bottom = "row 0: 0 0\nrow 1: 0 0\nrow 2: 0 0\n";
    assert_eq!(judged(&panel, bottom), tight());
    let unsure = example("example-3-unsure-loop.case");
    assert_eq!(judged(&unsure, "row 0: 0\n"), raises(1, 1));
}

#[test]
fn the_first_pair_that_is_too_high_is_named() {
    let case = example("label-one-field-after-the-other.case");
    let round_1 = "row old: yes no\nrow half: no no\nrow new: no yes\n";
    let said = no((1, 6), "old, course old", "yes", "only no");
    assert_eq!(judged(&case, round_1), said);
    // The first pair in the order of the case, whatever the order in the table.
    let two = "columns: new old\nrow new: yes yes\nrow half: unsure no\nrow old: no no\n";
    let said = no((2, 6), "half, course new", "unsure", "only no");
    assert_eq!(judged(&case, two), said);
    let panel = example("panel-of-three.case");
    let with = |half: &str| {
        let table = format!("row old: ?yy ?yy\nrow half: {half} nyn\nrow new: yyy yyy\n");
        judged(&panel, &table)
    };
    // The order is the lattice's and not that of the numbers: ynn has a greater number than nyn, and n?y a smaller one.
    for (element, instructor) in [("ynn", 1), ("n?y", 3)] {
        let gives =
            format!("nyn, which is not in order with it (too high for instructor {instructor})");
        let said = no((1, 6), "half, course old", element, &gives);
        assert_eq!(with(element), said);
    }
    let gives = "only nyn (too high for instructor 1 and instructor 3)";
    let said = no((1, 6), "half, course old", "?yy", gives);
    assert_eq!(with("?yy"), said);
}

/// In a panel an entry is too high for those instructors whose letter is above that of the round, here the student's proposition.
#[test]
fn an_entry_is_too_high_for_instructors() {
    let folder = scratch("judge-instructors");
    let letters = ["n", "?", "y"];
    let name = |e: usize| [9, 3, 1].map(|weight| letters[e / weight % 3]).concat();
    for next in (0..27).step_by(5) {
        let value = name(next);
        let text = format!("lattice panel\npropositions p\nmodel 1\n  states q\n  q: p = {value}\nmodel 2\n  states r\n  r: p\n");
        let file = put(&folder, "panel.case", &text);
        for entry in 0..27 {
            let above = |i: &usize| entry / [9, 3, 1][*i] % 3 > next / [9, 3, 1][*i] % 3;
            let whose: Vec<String> = (0..3)
                .filter(above)
                .map(|i| format!("instructor {}", i + 1))
                .collect();
            let said = judged(&file, &format!("row q: {}\n", name(entry)));
            let views = said.split_once(" (too high for ");
            let expected = format!("{})\n", whose.join(" and "));
            match whose.is_empty() {
                true => assert!(said.starts_with(YES) && views.is_none(), "{said}"),
                false => assert_eq!(views.map(|(_, v)| v), Some(expected.as_str())),
            }
        }
    }
}

/// For whom an entry is too high is said by the members of a set and the places of a tuple too.
#[test]
fn an_entry_is_too_high_for_members_or_places() {
    let first = |name: &str| {
        let file = example(name);
        let table = run(&["step", "--table", "--rounds", "0", &file], &[]).text();
        judged(&file, &table)
    };
    let gives = "only {a} (too high for b and c)";
    let said = no((6, 9), "q0, course q1", "{a, b, c}", gives);
    assert_eq!(first("example-5-subsets.case"), said);
    let gives = "only (unsure, absent) (too high for place 1 and place 2)";
    let said = no((1, 3), "blinking, course shown", "(yes, seen)", gives);
    assert_eq!(first("form-product.case"), said);
    let said = no((3, 6), "old, course new", "yes", "only open");
    assert_eq!(first("form-order.case"), said);
}

/// `step --table` prints a round's table so that it can be judged; the last two rounds of each example are tight, and no other is sound.
#[test]
fn a_round_s_table_is_judged() {
    for name in ["error-half-worked-table.case", "panel-of-three.case"] {
        let file = example(name);
        let settled = run(&["report", "--json", &file], &[]).text();
        let settled = read(settled.trim_end()).get("rounds").number();
        for round in 0..=settled {
            let rounds = round.to_string();
            let table = run(&["step", "--table", "--rounds", &rounds, &file], &[]).text();
            let said = judged(&file, &table);
            let sound = round + 1 >= settled;
            assert_eq!(said.starts_with(YES), sound, "{name}: {round}");
        }
        let table = run(&["step", "--table", &file], &[]).text();
        let listing = run(&["report", "--names", &file], &[]).text();
        assert!(listing.contains(&table), "{name}");
        assert_eq!(judged(&file, &table), tight(), "{name}");
    }
}

#[test]
fn json_says_the_same() {
    let case = example("panel-of-three.case");
    let said = |table: &str| {
        let ran = run(&["judge", "--json", &case, "-"], table.as_bytes());
        (ran.status, ran.text())
    };
    let settled = "row old: ?yy ?yy\nrow half: nyn nyn\nrow new: yyy yyy\n";
    let head = "{\"format\":1,\"command\":\"judge\",\"accepted\":true,";
    let none = "\"tooHighCount\":0,\"tooHigh\":null}\n";
    let tight = format!("\"sound\":true,\"tight\":true,\"entries\":6,\"raised\":0,{none}");
    assert_eq!(said(settled), (0, format!("{head}{tight}")));
    let raised = format!("\"sound\":true,\"tight\":false,\"entries\":6,\"raised\":1,{none}");
    let lower = settled.replace("?yy ?yy", "nny ?yy");
    assert_eq!(said(&lower), (0, format!("{head}{raised}")));
    let (status, text) = said(&settled.replace("nyn nyn", "ynn yyy"));
    let no = read(text.trim_end());
    assert_eq!((status, no.get("sound")), (0, &Json::Bool(false)));
    assert_eq!(no.get("tight"), &Json::Bool(false));
    assert_eq!(no.get("raised"), &Json::Null);
    let pair = ["student", "course", "entry", "next"].map(|f| no.get("tooHigh").get(f).text());
    assert_eq!(pair, ["half", "old", "ynn", "nyn"]);
    assert_eq!(no.get("tooHighCount").number(), 2);
    let views = no.get("tooHigh").get("views").items();
    let views: Vec<&str> = views.iter().map(Json::text).collect();
    assert_eq!(views, ["instructor 1"]);
    let (status, text) = said(&settled.replace("nyn nyn", "nyn yn"));
    let wrong = read(text.trim_end());
    assert_eq!((status, wrong.get("accepted")), (2, &Json::Bool(false)));
    let error = &wrong.get("errors").items()[0];
    let place = (error.get("line").number(), error.get("column").number());
    assert_eq!((place, error.get("file").text()), ((2, 15), "<stdin>"));
}

/// A table as a text by names or by numbers.
fn written(case: &Case, table: &[u8], names: bool) -> String {
    let mut text = match names {
        true => format!("columns: {}\n", case.models[1].states.join(" ")),
        false => String::new(),
    };
    for (q, row) in table.chunks(case.models[1].size()).enumerate() {
        let entry = |e: &u8| match names {
            true => case.element(*e),
            false => e.to_string(),
        };
        let state = match names {
            true => case.models[0].states[q].clone(),
            false => q.to_string(),
        };
        let row: Vec<String> = row.iter().map(entry).collect();
        text.push_str(&format!("row {state}: {}\n", row.join(" ")));
    }
    text
}

/// F of a table by the parts of its entries, as `explain` works them.
fn next(case: &Case, operations: &Operations, table: &[u8]) -> Vec<u8> {
    let columns = case.models[1].size();
    let entry = |i: usize| {
        let parts = parts(case, operations, table, i / columns, i % columns);
        let meet = |meet, part: &koelchair_cli::tables::Part| operations.meet(meet, part.gives());
        parts.iter().fold(operations.top, meet)
    };
    (0..table.len()).map(entry).collect()
}

/// What is said of a table, without for whom an entry is too high.
fn without_views(said: &str) -> String {
    match said.split_once(" (too high for ") {
        Some((said, _)) => format!("{said}\n"),
        None => said.to_string(),
    }
}

/// What has to be said of a table, without for whom an entry is too high.
fn expected(case: &Case, operations: &Operations, table: &[u8]) -> String {
    let next = next(case, operations, table);
    let too_high = |i: &usize| !operations.at_most(table[*i], next[*i]);
    let too_high: Vec<usize> = (0..table.len()).filter(too_high).collect();
    let Some(&i) = too_high.first() else {
        let raised = (0..table.len()).filter(|i| table[*i] != next[*i]).count();
        return match raised {
            0 => tight(),
            _ => raises(raised, table.len()),
        };
    };
    let columns = case.models[1].size();
    let [student, course] =
        [(0, i / columns), (1, i % columns)].map(|(m, q)| &case.models[m].states[q]);
    let [entry, gives] = [table[i], next[i]].map(|e| case.element(e));
    let gives = match operations.at_most(next[i], table[i]) {
        true => format!("only {gives}"),
        false => format!("{gives}, which is not in order with it"),
    };
    let pair = format!("{student}, course {course}");
    no((too_high.len(), table.len()), &pair, &entry, &gives)
}

/// The tables of all rounds; the last two are the same.
fn rounds(case: &Case) -> Vec<Vec<u8>> {
    let mut desk = Desk::open(&encode(case).expect("bytes")).expect("accepted");
    let mut tables = vec![desk.show().to_vec()];
    while !desk.standing().settled {
        desk.finish_round();
        tables.push(desk.show().to_vec());
    }
    tables
}

/// Rounds, the settled table met with each element, and random tables of random cases: yes, no and the first pair are those of the
/// definition.
#[test]
fn random_tables_are_judged_by_the_definition() {
    let mut random = Random(0x104);
    let folder = scratch("judge-random");
    let mut seen = [0; 4];
    for _ in 0..150 {
        let case = random.case();
        let file = put(&folder, "random.case", &print(&case));
        let operations = Operations::of(&case.lattice).expect("a lattice");
        let mut judge = |table: &[u8]| {
            let said = judged(&file, &written(&case, table, random.below(2) == 0));
            let said = without_views(&said);
            let expected = expected(&case, &operations, table);
            assert_eq!(said, expected, "{}", print(&case));
            let kinds = ["\ntight", "\nnot tight", "gives only", "not in order"];
            let kind = kinds.iter().position(|k| said.contains(k));
            seen[kind.expect("one of the kinds")] += 1;
            said.starts_with("yes")
        };
        let tables = rounds(&case);
        let settled = tables.len() - 1;
        for (r, table) in tables.iter().enumerate() {
            assert_eq!(judge(table), r + 1 >= settled, "round {r} of {settled}");
        }
        let met = |element: u8| -> Vec<u8> {
            let entries = tables[settled].iter();
            entries.map(|e| operations.meet(*e, element)).collect()
        };
        let elements = case.lattice.size() as u8;
        assert!((0..elements).all(|element| judge(&met(element))));
        let mut other = Random(0x401);
        for _ in 0..4 {
            let mut table = met(other.below(elements.into()) as u8);
            let place = other.below(table.len());
            table[place] = other.below(elements.into()) as u8;
            judge(&table);
        }
    }
    assert!(seen.iter().all(|count| *count > 20), "{seen:?}");
}

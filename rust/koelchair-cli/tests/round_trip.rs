//! From text to bytes and back, and from bytes to text and back.

mod common;

use common::{examples, run, text, Random};
use koelchair::Desk;
use koelchair_cli::case::Case;
use koelchair_cli::decode::{decode, parts, without_gaps};
use koelchair_cli::encode::encode;
use koelchair_cli::errors::Source;
use koelchair_cli::formula::Formula;
use koelchair_cli::formula_text;
use koelchair_cli::lexer::{lex, Cursor};
use koelchair_cli::parse::{parse, Text};
use koelchair_cli::print::{print, print_bytes};
use std::path::Path;

fn read(text: &str) -> Text {
    match parse(Source::new("text", text)) {
        Ok(read) => read,
        Err(errors) => panic!("{text}\n{errors:?}"),
    }
}

/// Text, bytes, text, bytes: nothing is lost but names, and names not either while the bytes are left out.
fn goes_both_ways(case: &Case) {
    let printed = print(case);
    let again = read(&printed);
    assert_eq!(again.case.as_ref(), Some(&renamed(case)), "{printed}");
    let bytes = encode(case).expect("the case can be written");
    assert_eq!(again.bytes, bytes, "{printed}");
    let decoded = print_bytes(&bytes);
    assert_eq!(read(&decoded).bytes, bytes, "{decoded}");
}

/// A case as it is after its formulas were printed and read: names of variables that would hide another are changed.
fn renamed(case: &Case) -> Case {
    let mut case = case.clone();
    for named in &mut case.formulas {
        let printed = formula_text::print(&named.formula, &case.propositions);
        named.formula =
            formula(&printed, &case.propositions).expect("a printed formula can be read");
    }
    case
}

fn formula(text: &str, propositions: &[String]) -> Option<Formula> {
    let lexed = lex(&Source::new("formula", text)).ok()?;
    formula_text::parse(&mut Cursor::new(lexed.statements.first()?), propositions).ok()
}

fn formula_bytes(formula: &Formula) -> Vec<u8> {
    let mut bytes = Vec::new();
    formula.write(&mut bytes);
    bytes
}

#[test]
fn examples_go_both_ways() {
    for file in examples() {
        let read = read(&text(&file));
        if let Some(case) = &read.case {
            goes_both_ways(case);
        }
        let again = self::read(&print_bytes(&read.bytes));
        assert_eq!(again.bytes, read.bytes, "{}", file.display());
    }
}

#[test]
fn random_cases_go_both_ways_and_are_accepted() {
    let mut random = Random(0x1234_5678_9abc);
    for _ in 0..400 {
        let case = random.case();
        goes_both_ways(&case);
        let bytes = encode(&case).expect("the case can be written");
        if let Err(refusal) = Desk::open(&bytes) {
            panic!("{refusal}: {}", print(&case));
        }
    }
}

/// The same parts with bytes between them that nobody reads.
fn with_gaps(bytes: &[u8], random: &mut Random) -> Vec<u8> {
    let parts = parts(bytes).expect("the directory can be read");
    let (mut directory, mut content) = (vec![bytes[0]], Vec::new());
    for part in &parts {
        content.extend((0..random.below(3)).map(|_| 7u8));
        let start = 1 + 4 * parts.len() + content.len();
        directory.extend((start as u16).to_le_bytes());
        directory.extend((part.len() as u16).to_le_bytes());
        content.extend_from_slice(part);
    }
    content.push(9);
    [directory, content].concat()
}

#[test]
fn accepted_cases_with_gaps_come_back_gapless() {
    let mut random = Random(0xfeed_beef);
    for _ in 0..200 {
        let gapless = encode(&random.case()).expect("the case can be written");
        let gapped = with_gaps(&gapless, &mut random);
        let written = Desk::open(&gapped).map(|desk| desk.write());
        assert_eq!(written.as_ref(), Ok(&gapless));
        assert!(
            decode(&gapped).is_some(),
            "an accepted case has a text with names"
        );
        assert_eq!(read(&print_bytes(&gapped)).bytes, gapless);
    }
}

/// Bytes that mostly have a broken part: they come back as they are, or gapless where they are a case with names.
#[test]
fn spoiled_bytes_come_back() {
    let mut random = Random(0xabcd_ef01);
    let (mut named, mut plain) = (0, 0);
    for _ in 0..2000 {
        let mut bytes = encode(&random.case()).expect("the case can be written");
        for _ in 0..1 + random.below(2) {
            let at = random.below(bytes.len());
            bytes[at] = random.below(4) as u8;
        }
        bytes.truncate(bytes.len() - random.below(2));
        let printed = print_bytes(&bytes);
        let back = read(&printed).bytes;
        match decode(&bytes) {
            Some(_) => assert_eq!(Some(back), without_gaps(&bytes), "{printed}"),
            None => assert_eq!(back, bytes, "{printed}"),
        }
        let refusal = |case: &[u8]| Desk::open(case).err().map(|r| (r.number(), r.part()));
        let of_text = read(&printed).bytes;
        assert_eq!(refusal(&of_text), refusal(&bytes), "{printed}");
        *(if decode(&bytes).is_some() {
            &mut named
        } else {
            &mut plain
        }) += 1;
    }
    assert!(
        named > 200 && plain > 200,
        "both kinds occur: {named} and {plain}"
    );
}

#[test]
fn parts_may_stand_in_any_order() {
    let parts = [
        "lattice chain no yes\n",
        "model 1\n states a b\n a -> b\n",
        "model 2\n states c\n c: p\n",
        "formula f: AX p\n",
        "propositions p\n",
    ];
    let bytes = read(&parts.concat()).bytes;
    for first in 0..parts.len() {
        let turned = [&parts[first..], &parts[..first]].concat().concat();
        assert_eq!(read(&turned).bytes, bytes, "{turned}");
    }
}

/// What a line leaves out is top, what no line gives is bottom, and lists and ranges of names stand for each of them.
#[test]
fn short_and_long_lines_say_the_same() {
    let short = "lattice chain no unsure yes\npropositions p0..p2\nmodel 1\n states a0..a2\n initial a0, a1 a2: unsure\n \
                 a0..a1: p0, p1 p2 = unsure\n a0..a2 -> a0\nmodel 2\n states b\n b: p1 = top, p2 = bottom\n";
    let long = "lattice chain no unsure yes\npropositions p0 p1 p2\nmodel 1\n states a0 a1 a2\n initial a0: yes\n \
                initial a1: unsure\n initial a2: unsure\n a0: p0 = yes, p1 = unsure, p2 = unsure\n \
                a1: p0 = yes, p1 = unsure, p2 = unsure\n a0 -> a0: yes\n a1 -> a0: yes\n a2 -> a0: yes\n\
                model 2\n states b\n b: p1 = yes\n b -> b: no\n";
    assert_eq!(read(short).case, read(long).case);
}

#[test]
fn any_bytes_come_back() {
    let mut random = Random(0x0dd);
    for _ in 0..2000 {
        let bytes: Vec<u8> = (0..random.below(40))
            .map(|_| random.below(256) as u8)
            .collect();
        let printed = print_bytes(&bytes);
        assert!(printed.starts_with("# These bytes have not the form of a case.\nbytes ("));
        assert_eq!(read(&printed).bytes, bytes);
    }
}

#[test]
fn the_tool_encodes_and_decodes() {
    for file in examples() {
        let file = file.display().to_string();
        let bytes = run(&["encode", &file], &[]);
        assert_eq!(bytes.status, 0, "{}", bytes.err);
        let decoded = run(&["decode", "-"], &bytes.out);
        let again = run(&["encode", "-"], &decoded.out);
        assert_eq!(again.out, bytes.out, "{file}");
    }
}

/// A desk of an example, a step after its opening, writes a file that has the text of the example's own bytes.
#[test]
fn what_a_desk_writes_is_decoded() {
    let written = Path::new(env!("CARGO_TARGET_TMPDIR")).join("written.bytes");
    let mut opened = 0;
    for file in examples() {
        let file = file.display().to_string();
        let bytes = run(&["encode", &file], &[]).out;
        let Ok(mut desk) = Desk::open(&bytes) else {
            continue;
        };
        desk.step();
        std::fs::write(&written, desk.write()).expect("the file can be written");
        let decoded = run(&["decode", &written.display().to_string()], &[]);
        assert_eq!((decoded.status, decoded.err.as_str()), (0, ""), "{file}");
        let text = run(&["decode", "-"], &bytes).text();
        assert_eq!(decoded.text(), text, "{file}");
        opened += 1;
    }
    assert!(opened > 20, "examples are opened: {opened}");
}

#[test]
fn formulas_come_back_with_no_needless_parentheses() {
    let mut random = Random(0x5eed);
    let propositions = ["p".to_string(), "q".into()];
    let mut pairs = 0;
    for _ in 0..3000 {
        let original = random.formula(6, 2, 0);
        let printed = formula_text::print(&original, &propositions);
        let bytes = formula_bytes(&original);
        let back =
            formula(&printed, &propositions).unwrap_or_else(|| panic!("{printed} cannot be read"));
        assert_eq!(formula_bytes(&back), bytes, "{printed}");
        assert_eq!(formula_text::print(&back, &propositions), printed);
        for open in printed.match_indices('(').map(|(at, _)| at) {
            pairs += 1;
            let fewer = without_pair(&printed, open);
            let same = formula(&fewer, &propositions).is_some_and(|f| formula_bytes(&f) == bytes);
            assert!(!same, "{printed} could be {fewer}");
        }
    }
    assert!(pairs > 500, "parentheses occur: {pairs}");
}

/// A text without the parenthesis at a place and the one that closes it.
fn without_pair(text: &str, open: usize) -> String {
    let mut depth = 0;
    let close = text[open..].find(|c| {
        depth += match c {
            '(' => 1,
            ')' => -1,
            _ => 0,
        };
        depth == 0
    });
    let close = open + close.expect("the parenthesis is closed");
    format!(
        "{}{}{}",
        &text[..open],
        &text[open + 1..close],
        &text[close + 1..]
    )
}

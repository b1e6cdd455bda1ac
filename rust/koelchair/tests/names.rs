//! The refusals have the same names and numbers in Rattle (crates/refusal), in Rust and in C (include/koelchair.h), and the structs that
//! the calls take and give the same fields. The header has also the words of refusals, the sizes and the version of this crate.

use koelchair::{NO_PART, REFUSALS};
use std::collections::BTreeMap;
use std::path::Path;

/// A file of the repository.
fn text(path: &str) -> String {
    let root = Path::new(env!("CARGO_MANIFEST_DIR")).join("../..");
    std::fs::read_to_string(root.join(path)).unwrap_or_else(|error| panic!("{path}: {error}"))
}

/// The lines of a text, without the blanks round them, from one that begins so up to one that begins with `}`.
fn block<'a>(text: &'a str, begins: &'a str) -> impl Iterator<Item = &'a str> {
    text.lines()
        .map(str::trim)
        .skip_while(move |line| !line.starts_with(begins))
        .skip(1)
        .take_while(|line| !line.starts_with('}'))
}

/// A name of the table with underscores, in capitals: `CASE_SIZE` for `CaseSize`.
fn capitals(name: &str) -> String {
    let mut written = String::new();
    for letter in name.chars() {
        if letter.is_uppercase() && !written.is_empty() {
            written.push('_');
        }
        written.extend(letter.to_uppercase());
    }
    written
}

/// Numbers and names of the table.
fn table() -> BTreeMap<u8, String> {
    let line = |entry: &koelchair::RefusalEntry| (entry.number, entry.name.to_string());
    REFUSALS.iter().map(line).collect()
}

#[test]
fn rattle_has_the_names_of_the_table() {
    let text = text("crates/refusal/src/lib.rt");
    let without_part = |name: &str| name.split('(').next().unwrap_or(name).to_string();
    let mut variants: Vec<String> = block(&text, "pub enum Refusal {")
        .filter(|line| !line.starts_with("//"))
        .map(|line| without_part(line.trim_end_matches(',')))
        .collect();
    let numbers: BTreeMap<u8, String> = block(&text, "pub fn number(")
        .filter_map(|line| line.strip_prefix("Refusal::"))
        .filter_map(|line| line.trim_end_matches(',').split_once(" => "))
        .map(|(name, number)| (number.parse().expect("a number"), without_part(name)))
        .collect();
    assert_eq!(numbers, table());
    variants.sort();
    let mut named: Vec<String> = table().into_values().collect();
    named.sort();
    assert_eq!(variants, named);
}

/// What the header defines, by names without `KOELCHAIR_`.
fn defined() -> BTreeMap<String, String> {
    let defined = |line: &str| {
        let (name, rest) = line.strip_prefix("#define KOELCHAIR_")?.split_once(' ')?;
        let value = rest.split("/*").next()?.trim();
        Some((name.to_string(), value.to_string()))
    };
    text("include/koelchair.h")
        .lines()
        .filter_map(defined)
        .collect()
}

/// The numbers of the table by their names in the header, without `KOELCHAIR_`.
fn names_in_capitals() -> BTreeMap<String, String> {
    table()
        .into_iter()
        .map(|(number, name)| (format!("REFUSED_{}", capitals(&name)), number.to_string()))
        .collect()
}

#[test]
fn the_header_has_the_names_of_the_table() {
    let mut refusals = defined();
    refusals.retain(|name, _| name.starts_with("REFUSED_"));
    assert_eq!(refusals, names_in_capitals());
    assert_eq!(defined()["NO_PART"], NO_PART.to_string());
}

/// The header's function returns in the line of each refusal a string, which may go on in a second line.
#[test]
fn the_header_has_the_words_of_the_table() {
    let header = text("include/koelchair.h");
    let returned: BTreeMap<String, String> = header
        .split("    case KOELCHAIR_")
        .skip(1)
        .map(|branch| {
            let (name, rest) = branch.split_once(":\n").expect("a name");
            let returned = rest.split(';').next().expect("a string");
            let words: Vec<&str> = returned.split('"').skip(1).step_by(2).collect();
            (name.to_string(), words.concat())
        })
        .collect();
    let numbers = names_in_capitals();
    assert_eq!(returned.len(), numbers.len());
    for (name, words) in returned {
        let number: usize = numbers[&name].parse().expect("a number");
        assert_eq!(words, REFUSALS[number - 1].words, "{name}");
    }
}

#[test]
fn the_header_has_the_sizes() {
    let defined = defined();
    for (name, size) in [
        ("STORE_LENGTH", koelchair::STORE_LENGTH),
        ("TABLE_LENGTH", koelchair::TABLE_LENGTH),
        ("CASE_MOST", koelchair::CASE_MOST),
        ("WRITTEN_MOST", koelchair::WRITTEN_MOST),
        ("LISTING_LENGTH", koelchair::LISTING_LENGTH),
        ("ELEMENTS_MOST", koelchair::ELEMENTS_MOST),
        ("STATES_MOST", koelchair::STATES_MOST),
        ("PROPOSITIONS_MOST", koelchair::PROPOSITIONS_MOST),
        ("FORMULAS_MOST", koelchair::FORMULAS_MOST),
        ("FORMULA_MOST", koelchair::FORMULA_MOST),
        ("BINDERS_MOST", koelchair::BINDERS_MOST),
    ] {
        assert_eq!(defined[name], size.to_string(), "{name}");
    }
}

#[test]
fn the_header_has_the_version() {
    let defined = defined();
    let version = env!("CARGO_PKG_VERSION");
    assert_eq!(defined["VERSION"], format!("{version:?}"));
    let parts = ["MAJOR", "MINOR", "PATCH"].map(|part| &*defined[&format!("VERSION_{part}")]);
    assert_eq!(parts.join("."), version);
}

/// The structs of the calls: the name here and in Rattle, the file here, the file in Rattle, and the name in the header.
const STRUCTS: [[&str; 4]; 6] = [
    ["Standing", "lent", "desk_check", "koelchair_standing"],
    ["Answer", "raw", "exports", "koelchair_answer"],
    ["Moved", "raw", "exports", "koelchair_moved"],
    ["Shown", "raw", "exports", "koelchair_shown"],
    ["DeskSizes", "raw", "exports", "koelchair_desk_sizes"],
    ["WorkedEntry", "raw", "exports", "koelchair_worked_entry"],
];

/// The fields of a struct of Rust or Rattle in their order, each as `name: type`.
fn fields(path: &str, name: &str) -> Vec<String> {
    let text = text(path);
    let fields = block(&text, &format!("pub struct {name} {{"))
        .filter_map(|line| line.strip_prefix("pub "))
        .map(|field| field.trim_end_matches(',').to_string())
        .collect::<Vec<_>>();
    assert!(!fields.is_empty(), "{path} has no {name}");
    fields
}

/// The fields here, which the archive is called with.
fn own_fields(name: &str, file: &str) -> Vec<String> {
    fields(&format!("rust/koelchair/src/{file}.rs"), name)
}

#[test]
fn rattle_has_the_fields_of_the_structs() {
    for [name, file, krate, _] in STRUCTS {
        let of_rattle = fields(&format!("crates/{krate}/src/lib.rt"), name);
        assert_eq!(of_rattle, own_fields(name, file), "{name}");
    }
}

/// A type of C as it is called here.
fn own_type(of_c: &str) -> &str {
    let named = STRUCTS.iter().find(|[_, _, _, c]| *c == of_c);
    match of_c {
        "uint8_t" => "u8",
        "uint32_t" => "u32",
        "size_t" => "usize",
        _ => named.map_or(of_c, |[name, ..]| name),
    }
}

#[test]
fn the_header_has_the_fields_of_the_structs() {
    let header = text("include/koelchair.h");
    for [name, file, _, of_c] in STRUCTS {
        let declared: Vec<String> = block(&header, &format!("typedef struct {of_c} {{"))
            .filter_map(|line| line.trim_end_matches(';').split_once(' '))
            .map(|(of_c, field)| format!("{field}: {}", own_type(of_c)))
            .collect();
        assert_eq!(declared, own_fields(name, file), "{of_c}");
    }
}

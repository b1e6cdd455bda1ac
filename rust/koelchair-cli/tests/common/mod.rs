//! What the tests share: running the tool, the example files, and random cases.
#![allow(dead_code)]

use koelchair::{Desk, Refusal};
use koelchair_cli::case::{Case, NamedFormula};
use koelchair_cli::formula::{Formula, Ways};
use koelchair_cli::lattice::{Lattice, OrderTable};
use koelchair_cli::model::Model;
use std::fmt::Write;
use std::path::{Path, PathBuf};

/// What the tool gave: exit status, standard output, standard error.
pub struct Ran {
    pub status: u8,
    pub out: Vec<u8>,
    pub err: String,
}

impl Ran {
    pub fn text(&self) -> String {
        String::from_utf8(self.out.clone()).expect("the output is text")
    }
}

/// Runs the tool on arguments and standard input.
pub fn run(arguments: &[&str], mut input: &[u8]) -> Ran {
    let arguments: Vec<String> = arguments.iter().map(|a| a.to_string()).collect();
    let (mut out, mut err) = (Vec::new(), Vec::new());
    let status = koelchair_cli::commands::run(&arguments, &mut input, &mut out, &mut err);
    Ran {
        status,
        out,
        err: String::from_utf8(err).expect("messages are text"),
    }
}

/// A folder of the repository.
pub fn folder(name: &str) -> PathBuf {
    Path::new(env!("CARGO_MANIFEST_DIR")).join(name)
}

/// The files of a folder with this extension, in order of their names.
pub fn files(folder: &Path, extension: &str) -> Vec<PathBuf> {
    let entries = std::fs::read_dir(folder).expect("the folder can be read");
    let mut files: Vec<PathBuf> = entries.map(|e| e.expect("an entry").path()).collect();
    files.retain(|f| f.extension().is_some_and(|e| e == extension));
    files.sort();
    files
}

/// The examples.
pub fn examples() -> Vec<PathBuf> {
    let files = files(&folder("../../examples"), "case");
    assert!(files.len() > 20, "the examples are there");
    files
}

/// A file as text.
pub fn text(file: &Path) -> String {
    std::fs::read_to_string(file).unwrap_or_else(|e| panic!("{}: {e}", file.display()))
}

/// The listing of document 01 from the calls of the library.
pub fn listing_by_calls(case: &[u8]) -> String {
    let mut desk = match Desk::open(case) {
        Ok(desk) => desk,
        Err(refusal) => return refused(refusal),
    };
    let mut text = format!("rounds {}\n", desk.settle());
    let columns = usize::from(desk.standing().states2);
    for (q1, row) in desk.show().chunks(columns).enumerate() {
        let entries: Vec<String> = row.iter().map(u8::to_string).collect();
        let _ = writeln!(text, "row {q1}: {}", entries.join(" "));
    }
    let _ = writeln!(text, "score {}", desk.score());
    for formula in 0..case[0] - 3 {
        let whole = |model| {
            let whole = desk.whole(formula, model);
            whole.expect("the formula is there").element
        };
        let _ = writeln!(text, "formula {formula}: {} {}", whole(1), whole(2));
    }
    text
}

fn refused(refusal: Refusal) -> String {
    format!("refused {} {}\n", refusal.number(), refusal.part())
}

/// Numbers that look random, the same in every run (xorshift).
pub struct Random(pub u64);

impl Random {
    pub fn below(&mut self, limit: usize) -> usize {
        self.0 ^= self.0 << 13;
        self.0 ^= self.0 >> 7;
        self.0 ^= self.0 << 17;
        (self.0 >> 11) as usize % limit
    }

    pub fn one_of<T: Clone>(&mut self, list: &[T]) -> T {
        list[self.below(list.len())].clone()
    }

    fn names(&mut self, word: &str, count: usize) -> Vec<String> {
        let gap = 1 + self.below(2);
        (0..count).map(|i| format!("{word}{}", i * gap)).collect()
    }

    /// A lattice of some form; an order is one of its two own.
    pub fn lattice(&mut self) -> Lattice {
        match self.below(5) {
            0 => {
                let count = 1 + self.below(5);
                Lattice::Chain(self.names("v", count))
            }
            1 => {
                let count = 1 + self.below(3);
                Lattice::Power(self.names("m", count))
            }
            2 => Lattice::Product(vec![
                Lattice::Chain(self.names("l", 2)),
                Lattice::Power(vec!["m".into()]),
                Lattice::Chain(vec!["no".into(), "unsure".into(), "yes".into()]),
            ]),
            3 => Lattice::Panel,
            _ => self.order(),
        }
    }

    /// The square of two incomparable elements, each its own complement, with a renamed order.
    fn order(&mut self) -> Lattice {
        let mut at = [0usize, 1, 2, 3];
        for i in (1..4).rev() {
            at.swap(i, self.below(i + 1));
        }
        let square = |a: usize, b: usize| a == b || a == 0 || b == 3;
        let not = [3, 1, 2, 0];
        Lattice::Order(OrderTable {
            elements: vec!["low".into(), "left".into(), "right".into(), "high".into()],
            order: (0..16).map(|i| square(at[i / 4], at[i % 4])).collect(),
            complement: (0..4)
                .map(|a| at.iter().position(|x| *x == not[at[a]]).unwrap_or(0) as u8)
                .collect(),
        })
    }

    fn model(&mut self, size: usize, lattice: &Lattice, k: usize) -> Model {
        let n = 1 + self.below(4);
        let values = |random: &mut Random, count: usize| {
            (0..count).map(|_| random.below(size) as u8).collect()
        };
        let mut model = Model {
            title: (self.below(2) == 0).then(|| "a model".to_string()),
            states: self.names("q", n),
            initial: values(self, n),
            propositions: values(self, n * k),
            transitions: values(self, n * n),
        };
        let bottom = lattice.left_out();
        model
            .transitions
            .iter_mut()
            .for_each(|v| *v = if self.below(2) == 0 { bottom } else { *v });
        model
    }

    /// A formula with at most so many operators one within another and three binders.
    pub fn formula(&mut self, depth: usize, k: usize, binders: usize) -> Formula {
        let choice = if depth == 0 {
            self.below(5)
        } else {
            self.below(13)
        };
        let binder = binders < 3;
        match choice {
            0 => Formula::Bottom,
            1 if k > 0 => Formula::Negated(self.below(k) as u8),
            2 | 3 if k > 0 => Formula::Proposition(self.below(k) as u8),
            4 | 5 if binders > 0 => Formula::Variable(self.below(binders) as u8),
            6 | 7 if depth > 0 => {
                Formula::Or(self.inner(depth, k, binders), self.inner(depth, k, binders))
            }
            8 if depth > 0 => {
                Formula::And(self.inner(depth, k, binders), self.inner(depth, k, binders))
            }
            9 if depth > 0 => Formula::AllNext(self.inner(depth, k, binders)),
            10 if depth > 0 => Formula::SomeNext(self.inner(depth, k, binders)),
            11 if binder && self.below(2) == 0 => Formula::Least(
                self.one_of(&["x".to_string(), "y".into()]),
                self.inner(depth, k, binders + 1),
            ),
            11 if binder => Formula::Greatest(
                self.one_of(&["x".to_string(), "y".into()]),
                self.inner(depth, k, binders + 1),
            ),
            12 if binder => Formula::Ways(self.one_of(&Ways::ALL), Box::new(self.formula(0, k, 0))),
            _ => Formula::Top,
        }
    }

    fn inner(&mut self, depth: usize, k: usize, binders: usize) -> Box<Formula> {
        Box::new(self.formula(depth - 1, k, binders))
    }

    /// A case that the desk accepts.
    pub fn case(&mut self) -> Case {
        let lattice = self.lattice();
        let k = self.below(3);
        let models = [
            self.model(lattice.size(), &lattice, k),
            self.model(lattice.size(), &lattice, k),
        ];
        let formulas = (0..self.below(4)).map(|i| NamedFormula {
            name: format!("f{i}"),
            formula: self.formula(5, k, 0),
        });
        let formulas = formulas.collect();
        Case {
            head: if self.below(2) == 0 {
                Vec::new()
            } else {
                vec!["A comment".into(), String::new(), "Its end".into()]
            },
            title: (self.below(2) == 0).then(|| "A title".to_string()),
            propositions: self.names("p", k),
            lattice,
            models,
            formulas,
        }
    }
}

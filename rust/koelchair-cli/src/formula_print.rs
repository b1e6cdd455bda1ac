//! Formulas as text with the fewest parentheses; `formula_text` reads them.

use crate::formula::Formula;

/// How tightly the place of a formula binds: what may stand there without parentheses.
#[derive(Clone, Copy, PartialEq, PartialOrd)]
enum Binding {
    Or,
    And,
    Prefix,
}

/// A formula as text, with the fewest parentheses.
pub fn print(formula: &Formula, propositions: &[String]) -> String {
    let mut printer = Printer {
        propositions,
        bound: Vec::new(),
        text: String::new(),
    };
    printer.at(formula, Binding::Or, true);
    printer.text
}

struct Printer<'a> {
    propositions: &'a [String],
    bound: Vec<String>,
    text: String,
}

impl Printer<'_> {
    /// Prints a formula where `binding` may stand; `last` says that nothing follows it before the next `)` or the end, so
    /// that a binder's body cannot swallow anything.
    fn at(&mut self, formula: &Formula, binding: Binding, last: bool) {
        let parentheses = match formula {
            Formula::Or(..) => binding > Binding::Or,
            Formula::And(..) => binding > Binding::And,
            Formula::Least(..) | Formula::Greatest(..) => !last,
            _ => false,
        };
        if parentheses {
            self.text.push('(');
            self.node(formula, true);
            self.text.push(')');
        } else {
            self.node(formula, last);
        }
    }

    fn node(&mut self, formula: &Formula, last: bool) {
        match formula {
            Formula::Bottom => self.text.push_str("bottom"),
            Formula::Top => self.text.push_str("top"),
            Formula::Proposition(p) => self.text.push_str(&self.propositions[usize::from(*p)]),
            Formula::Negated(p) => {
                self.text.push('!');
                self.text.push_str(&self.propositions[usize::from(*p)]);
            }
            Formula::Variable(v) => {
                let name = &self.bound[self.bound.len() - 1 - usize::from(*v)];
                self.text.push_str(name);
            }
            Formula::Or(a, b) => self.two(a, " | ", b, (Binding::Or, Binding::And), last),
            Formula::And(a, b) => self.two(a, " & ", b, (Binding::And, Binding::Prefix), last),
            Formula::AllNext(f) => self.next("AX ", f, last),
            Formula::SomeNext(f) => self.next("EX ", f, last),
            Formula::Least(name, f) => self.binder("mu", name, f),
            Formula::Greatest(name, f) => self.binder("nu", name, f),
            Formula::Ways(ways, f) => {
                self.bound.push(String::new());
                self.next(&format!("{} ", ways.word()), f, last);
                self.bound.pop();
            }
        }
    }

    fn two(
        &mut self,
        a: &Formula,
        sign: &str,
        b: &Formula,
        bindings: (Binding, Binding),
        last: bool,
    ) {
        self.at(a, bindings.0, false);
        self.text.push_str(sign);
        self.at(b, bindings.1, last);
    }

    fn next(&mut self, word: &str, f: &Formula, last: bool) {
        self.text.push_str(word);
        self.at(f, Binding::Prefix, last);
    }

    /// A binder keeps its name unless that would hide an outer variable that the body uses.
    fn binder(&mut self, word: &str, name: &str, body: &Formula) {
        let mut name = name.to_string();
        while self.propositions.contains(&name) || self.hides(&name, body) {
            name.push('\'');
        }
        self.text.push_str(&format!("{word} {name}. "));
        self.bound.push(name);
        self.at(body, Binding::Or, true);
        self.bound.pop();
    }

    fn hides(&self, name: &str, body: &Formula) -> bool {
        let outer = self.bound.iter().rev().enumerate();
        outer
            .into_iter()
            .any(|(i, n)| n == name && uses(body, i + 1))
    }
}

/// Whether a variable with this count of binders between occurs.
fn uses(formula: &Formula, count: usize) -> bool {
    match formula {
        Formula::Variable(v) => usize::from(*v) == count,
        Formula::Least(_, f) | Formula::Greatest(_, f) | Formula::Ways(_, f) => uses(f, count + 1),
        other => other.within().iter().any(|f| uses(f, count)),
    }
}

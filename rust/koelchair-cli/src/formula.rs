//! Formulas as trees, and their bytes.

/// A formula. Propositions are numbers; a variable is the count of binders between it and its own.
#[derive(Clone, Debug, PartialEq, Eq)]
pub enum Formula {
    /// Bottom.
    Bottom,
    /// Top.
    Top,
    /// A proposition.
    Proposition(u8),
    /// A negated proposition.
    Negated(u8),
    /// A variable.
    Variable(u8),
    /// Join.
    Or(Box<Formula>, Box<Formula>),
    /// Meet.
    And(Box<Formula>, Box<Formula>),
    /// AX.
    AllNext(Box<Formula>),
    /// EX.
    SomeNext(Box<Formula>),
    /// A least fixpoint, with the name of its variable.
    Least(String, Box<Formula>),
    /// A greatest fixpoint, with the name of its variable.
    Greatest(String, Box<Formula>),
    /// A fixpoint that has a short form. It is a binder without a name: variables within count it.
    Ways(Ways, Box<Formula>),
}

/// The fixpoints that have a short form: `AG f` and so on.
#[derive(Clone, Copy, Debug, PartialEq, Eq)]
pub enum Ways {
    /// AG f: nu z. f & AX z.
    AllAlways,
    /// EF f: mu z. f | EX z.
    SomeOnce,
    /// AF f: mu z. f | AX z.
    AllOnce,
    /// EG f: nu z. f & EX z.
    SomeAlways,
}

impl Ways {
    /// All of them.
    pub const ALL: [Ways; 4] = [
        Ways::AllAlways,
        Ways::SomeOnce,
        Ways::AllOnce,
        Ways::SomeAlways,
    ];

    /// The word in a text.
    pub fn word(self) -> &'static str {
        match self {
            Ways::AllAlways => "AG",
            Ways::SomeOnce => "EF",
            Ways::AllOnce => "AF",
            Ways::SomeAlways => "EG",
        }
    }

    /// Whether it speaks of all ways, by AX, or of some, by EX.
    pub fn all(self) -> bool {
        matches!(self, Ways::AllAlways | Ways::AllOnce)
    }

    /// The bytes before and behind those of f: a greatest fixpoint of a meet or a least one of a join, and AX or EX of its variable.
    fn bytes(self) -> ([u8; 2], [u8; 3]) {
        let fixpoint = match self {
            Ways::AllAlways | Ways::SomeAlways => [10, 6],
            Ways::SomeOnce | Ways::AllOnce => [9, 5],
        };
        (fixpoint, [if self.all() { 7 } else { 8 }, 4, 0])
    }
}

/// How deep a formula may be nested in a text; every formula of at most 255 bytes is within it.
pub const DEEPEST: usize = 400;

/// How many operators and names a formula may have in a text.
pub const LONGEST: usize = 2000;

impl Formula {
    /// Puts the formula's bytes, in prefix form, behind those already there.
    pub fn write(&self, bytes: &mut Vec<u8>) {
        match self {
            Formula::Bottom => bytes.push(0),
            Formula::Top => bytes.push(1),
            Formula::Proposition(p) => bytes.extend([2, *p]),
            Formula::Negated(p) => bytes.extend([3, *p]),
            Formula::Variable(v) => bytes.extend([4, *v]),
            Formula::Or(a, b) => write_two(5, a, b, bytes),
            Formula::And(a, b) => write_two(6, a, b, bytes),
            Formula::AllNext(f) => write_one(7, f, bytes),
            Formula::SomeNext(f) => write_one(8, f, bytes),
            Formula::Least(_, f) => write_one(9, f, bytes),
            Formula::Greatest(_, f) => write_one(10, f, bytes),
            Formula::Ways(ways, f) => {
                let (before, behind) = ways.bytes();
                bytes.extend(before);
                f.write(bytes);
                bytes.extend(behind);
            }
        }
    }

    /// The formulas directly within.
    pub fn within(&self) -> Vec<&Formula> {
        match self {
            Formula::Or(a, b) | Formula::And(a, b) => vec![a, b],
            Formula::AllNext(f)
            | Formula::SomeNext(f)
            | Formula::Least(_, f)
            | Formula::Greatest(_, f)
            | Formula::Ways(_, f) => vec![f],
            _ => Vec::new(),
        }
    }

    /// The most binders that stand one within another.
    pub fn nested_binders(&self) -> usize {
        let inner = self
            .within()
            .iter()
            .map(|f| f.nested_binders())
            .max()
            .unwrap_or(0);
        let binder = matches!(
            self,
            Formula::Least(..) | Formula::Greatest(..) | Formula::Ways(..)
        );
        inner + usize::from(binder)
    }
}

fn write_one(code: u8, f: &Formula, bytes: &mut Vec<u8>) {
    bytes.push(code);
    f.write(bytes);
}

fn write_two(code: u8, a: &Formula, b: &Formula, bytes: &mut Vec<u8>) {
    bytes.push(code);
    a.write(bytes);
    b.write(bytes);
}

/// Reads a formula's bytes, which must be used up exactly, with k propositions and every variable bound. Variables get
/// names that no proposition has.
pub fn read(bytes: &[u8], propositions: &[String]) -> Option<Formula> {
    let mut reader = Reader {
        bytes,
        at: 0,
        propositions,
    };
    let formula = reader.node(0, 0)?;
    (reader.at == bytes.len()).then_some(formula)
}

struct Reader<'a> {
    bytes: &'a [u8],
    at: usize,
    propositions: &'a [String],
}

impl Reader<'_> {
    fn byte(&mut self) -> Option<u8> {
        let byte = self.bytes.get(self.at).copied();
        self.at += 1;
        byte
    }

    fn node(&mut self, depth: usize, binders: usize) -> Option<Formula> {
        if depth > DEEPEST {
            return None;
        }
        Some(match self.byte()? {
            0 => Formula::Bottom,
            1 => Formula::Top,
            2 => Formula::Proposition(self.number_below(self.propositions.len())?),
            3 => Formula::Negated(self.number_below(self.propositions.len())?),
            4 => Formula::Variable(self.number_below(binders)?),
            5 => Formula::Or(self.boxed(depth, binders)?, self.boxed(depth, binders)?),
            6 => Formula::And(self.boxed(depth, binders)?, self.boxed(depth, binders)?),
            7 => Formula::AllNext(self.boxed(depth, binders)?),
            8 => Formula::SomeNext(self.boxed(depth, binders)?),
            9 => Formula::Least(
                variable_name(binders, self.propositions),
                self.boxed(depth, binders + 1)?,
            ),
            10 => Formula::Greatest(
                variable_name(binders, self.propositions),
                self.boxed(depth, binders + 1)?,
            ),
            _ => return None,
        })
    }

    fn boxed(&mut self, depth: usize, binders: usize) -> Option<Box<Formula>> {
        self.node(depth + 1, binders).map(Box::new)
    }

    fn number_below(&mut self, limit: usize) -> Option<u8> {
        self.byte().filter(|b| usize::from(*b) < limit)
    }
}

/// A name for the variable of a binder inside so many others: x, y, z, then z3, z4 and so on, with `'` while a proposition
/// has that name.
pub fn variable_name(binders: usize, propositions: &[String]) -> String {
    let mut name = match binders {
        0 => "x".to_string(),
        1 => "y".to_string(),
        2 => "z".to_string(),
        n => format!("z{n}"),
    };
    while propositions.contains(&name) {
        name.push('\'');
    }
    name
}

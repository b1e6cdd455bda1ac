//! The listing that the program report prints. Rests on the calls of `desk` alone.

use crate::desk::{self, STORE_LENGTH, TABLE_LENGTH};
use crate::reply::Reply;
use crate::standing::Standing;

/// A desk of its own, for one case.
struct Desk {
    standing: Standing,
    store: Vec<u8>,
    first: Vec<u8>,
    second: Vec<u8>,
}

/// The text for a case: "T; a line for each q1 with its entries, a blank between; score; a line for each formula with its number and
/// whole value on models 1 and 2". "A refused case prints one line: `refused`, number, part".
pub fn report(case: &[u8]) -> String {
    let mut desk = Desk {
        standing: Standing::default(),
        store: vec![0; STORE_LENGTH],
        first: vec![0; TABLE_LENGTH],
        second: vec![0; TABLE_LENGTH],
    };
    desk.listing(case)
        .unwrap_or_else(|(number, part)| format!("refused {number} {part}\n"))
}

/// A number and part of a refusal.
type Refused = (u8, u8);

impl Desk {
    /// The listing, or the refusal of the case.
    fn listing(&mut self, case: &[u8]) -> Result<String, Refused> {
        accepted(desk::open(
            &mut self.standing,
            case,
            &mut self.store,
            &mut self.first,
            &mut self.second,
        ))?;
        let mut text = format!("rounds {}\n", self.settle()?);
        for (number, row) in self.rows().iter().enumerate() {
            text += &format!("row {number}: {row}\n");
        }
        text += &format!("score {}\n", self.score()?);
        // A case's count of formulas is that of its directory, less the lattice and the two models.
        let formulas = case.first().map_or(0, |count| count.saturating_sub(3));
        for formula in 0..formulas {
            let (one, two) = (self.whole(formula, 1)?, self.whole(formula, 2)?);
            text += &format!("formula {formula}: {one} {two}\n");
        }
        Ok(text)
    }

    /// "steps until settled", and gives T.
    fn settle(&mut self) -> Result<u32, Refused> {
        loop {
            let Desk {
                standing,
                store,
                first,
                second,
            } = self;
            let reply = accepted(desk::step(standing, store, first, second))?;
            if let Reply::Settled { round, .. } = reply {
                return Ok(round);
            }
        }
    }

    /// The rows of the shown table, their entries with a blank between.
    fn rows(&self) -> Vec<String> {
        let bytes = match desk::show(&self.standing, &self.store, &self.first, &self.second) {
            Reply::Shown(bytes) => bytes,
            _ => Vec::new(),
        };
        let width = usize::from(self.standing.states2).max(1);
        let line = |row: &[u8]| row.iter().map(u8::to_string).collect::<Vec<_>>().join(" ");
        bytes.chunks(width).map(line).collect()
    }

    /// The score of the shown table.
    fn score(&self) -> Result<u8, Refused> {
        element(desk::score(
            &self.standing,
            &self.store,
            &self.first,
            &self.second,
        ))
    }

    /// A formula's value on a whole model.
    fn whole(&self, formula: u8, model: u8) -> Result<u8, Refused> {
        let Desk {
            standing,
            store,
            first,
            second,
        } = self;
        element(desk::whole(standing, store, first, second, formula, model))
    }
}

/// The reply of an accepted call, or the refusal.
fn accepted(reply: Reply) -> Result<Reply, Refused> {
    match reply {
        Reply::Refused { number, part } => Err((number, part)),
        reply => Ok(reply),
    }
}

/// The element that a call answered, or the refusal. Score and whole answer nothing else, so the last line is not reached.
fn element(reply: Reply) -> Result<u8, Refused> {
    match accepted(reply)? {
        Reply::Element(element) | Reply::FormulaValue { element, .. } => Ok(element),
        _ => Err((12, 255)),
    }
}

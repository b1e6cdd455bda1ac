//! The proved desk for latticed simulation, called from Rust.
//!
//! ```
//! use koelchair::{CoveredFrom, Desk, Element, StepAnswer};
//!
//! // A lattice of three elements, 0 below 1 below 2, whose middle element is its own complement; two models of one state, whose
//! // one proposition has the middle element there, without transitions; and the formula that is this proposition.
//! let case = [
//!     4, // parts, each with its offset and length
//!     17, 0, 13, 0, 30, 0, 5, 0, 35, 0, 5, 0, 40, 0, 2, 0,
//!     3, 2, 1, 0, 1, 1, 1, 0, 1, 1, 0, 0, 1, // the lattice
//!     1, 1, 2, 1, 0, // model 1
//!     1, 1, 2, 1, 0, // model 2
//!     2, 0, // formula 0
//! ];
//! let mut desk = Desk::open(&case)?;
//! let (rounds, lowerings) = loop {
//!     if let StepAnswer::Settled { round, lowerings } = desk.step() {
//!         break (round, lowerings);
//!     }
//! };
//! println!("settled after {rounds} rounds and {lowerings} lowerings");
//! assert_eq!((rounds, lowerings), (2, 1));
//! assert_eq!(desk.show(), [1]);
//! assert_eq!(desk.score(), Element(1));
//! let whole = desk.whole(0, 1)?;
//! assert_eq!(whole.element, Element(1));
//! // The formula has no AX, no fixpoint and no EX, so that entries and score bound it from round 1 on.
//! assert_eq!(whole.facts.covered_from(), CoveredFrom::Round(1));
//! # Ok::<(), koelchair::Refusal>(())
//! ```
//!
//! A case holds a distributive De Morgan lattice, two models (Kripke structures whose initial, proposition and transition values are
//! elements of the lattice) and up to eight formulas of the mu-calculus. The desk works out the greatest latticed simulation between
//! the models, a row of a round at a time, and values the formulas. All of that is done by the proved static library
//! `libexports.a`; this crate passes its arguments on and reads its answers. Its own is only how [`FormulaFacts`] says which rounds cover a
//! formula, by the conditions of docs/SPECIFICATION.md.
//!
//! - [`Desk`] owns what the calls need.
//! - [`DeskRef`] and [`DeskMut`] borrow a standing, a store and two tables of any content and length, for callers that keep these
//!   themselves: the calls that read the desk, and all of them.
//! - [`FormulaValue`] is a formula's element with its [`FormulaFacts`], which say from which round on a table covers the formula.
//! - [`WorkedEntry`] is an entry of the next round with the number of pairs of states that working it one pair after another looks at.
//! - [`listing`] gives the whole result of a case as text, without a desk.
//! - [`Refusal`] says why a call was refused; [`REFUSALS`] is the table of all refusals.
//!
//! How a case is laid out byte for byte, the calls, their answers and refusals, and what the words used here mean is said in
//! docs/SPECIFICATION.md of the repository. Comments that speak of document 01 mean the customer's paper, which is not in the
//! repository and of which that file says all that a caller needs.

#![deny(missing_docs)]
#![deny(unsafe_code)]

mod answer;
mod desk;
mod facts;
mod lent;
#[allow(unsafe_code)]
mod raw;
mod refusal;

pub use answer::{Element, Sizes, State, StepAnswer, WorkedEntry};
pub use desk::Desk;
pub use facts::{CoveredFrom, FormulaFacts, FormulaValue};
pub use lent::{DeskMut, DeskRef, Standing};
pub use refusal::{Refusal, RefusalEntry, NO_PART, REFUSALS};

/// The fewest bytes of a store that is not refused with 11. What stands beyond them is never written.
pub const STORE_LENGTH: usize = 24_576;

/// The fewest bytes of a table that is not refused with 11: 64 times 64 entries.
pub const TABLE_LENGTH: usize = 4_096;

/// The most bytes of a case that is not refused with 1.
pub const CASE_MOST: usize = 32_768;

/// The most bytes that a case without gaps has, and so the most that [`Desk::write`] gives.
pub const WRITTEN_MOST: usize = 16_618;

/// The room for a listing; the longest is shorter.
pub const LISTING_LENGTH: usize = 16_384;

/// The most elements of a lattice.
pub const ELEMENTS_MOST: usize = 64;

/// The most states of a model.
pub const STATES_MOST: usize = 64;

/// The most propositions, the same in both models.
pub const PROPOSITIONS_MOST: usize = 16;

/// The most formulas of a case.
pub const FORMULAS_MOST: usize = 8;

/// The most bytes of a formula.
pub const FORMULA_MOST: usize = 255;

/// The most binders of a formula that stand one within another.
pub const BINDERS_MOST: usize = 3;

/// What the program `report` prints for a case: T, the rows of the settled table, the score and each formula's whole values, or the
/// line `refused`, number, part. Each line ends in a line feed.
///
/// ```
/// assert_eq!(koelchair::listing(&[]), "refused 1 255\n");
/// ```
pub fn listing(case: &[u8]) -> String {
    let mut text = Box::new([0; LISTING_LENGTH]);
    let length = raw::listing(case, &mut text);
    match std::str::from_utf8(&text[..length]) {
        Ok(lines) => lines.to_owned(),
        Err(error) => panic!("the archive wrote a listing that is no text: {error}"),
    }
}

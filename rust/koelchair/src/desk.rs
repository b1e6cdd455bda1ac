//! A desk that owns its standing, its store and both tables.

use crate::{DeskMut, DeskRef, Element, FormulaValue, Refusal, Sizes, Standing, State, StepAnswer};
use crate::{WorkedEntry, STORE_LENGTH, TABLE_LENGTH};
use std::fmt;

/// A desk with an accepted case. It owns its standing, store and tables, which only its calls alter, so that by demand 3 none
/// of its calls is refused with 11 or 12. The crate's page has an example.
#[derive(Clone)]
pub struct Desk {
    standing: Standing,
    store: Box<[u8]>,
    first: Box<[u8]>,
    second: Box<[u8]>,
}

/// Why a call of a desk is never refused with 11 or 12: what only open made and these calls moved on keeps the rules.
const KEPT: &str = "a desk that only its calls moved on keeps the rules of 11 and 12";

impl Desk {
    /// Takes a case and makes a desk of it: unsettled, at round 0 and next row 0, without lowerings, its table all top.
    ///
    /// Refused with 1 to 10.
    pub fn open(case: &[u8]) -> Result<Desk, Refusal> {
        let mut desk = Desk {
            standing: Standing::default(),
            store: vec![0; STORE_LENGTH].into_boxed_slice(),
            first: vec![0; TABLE_LENGTH].into_boxed_slice(),
            second: vec![0; TABLE_LENGTH].into_boxed_slice(),
        };
        desk.replace(case)?;
        Ok(desk)
    }

    /// Takes another case, which replaces the former one.
    ///
    /// Refused with 1 to 10; then the desk stays as it was.
    pub fn replace(&mut self, case: &[u8]) -> Result<(), Refusal> {
        self.lent_mut().open(case)
    }

    /// Works the next row of the next round in the table that is not shown; after the last row the new table is the shown one, and
    /// the entries in which it differs from the one before count as lowerings. A settled desk answers [`StepAnswer::Settled`]
    /// again and is left unchanged.
    pub fn step(&mut self) -> StepAnswer {
        self.lent_mut().step().expect(KEPT)
    }

    /// Works the rows of the round that are left, as so many steps do, and answers as the last of them. A settled desk answers
    /// [`StepAnswer::Settled`] again and is left unchanged.
    pub fn finish_round(&mut self) -> StepAnswer {
        self.lent_mut().finish_round().expect(KEPT)
    }

    /// Works rounds until the desk is settled, and gives T, the least t above 0 for which round t equals round t − 1.
    pub fn settle(&mut self) -> u32 {
        loop {
            if let StepAnswer::Settled { round, .. } = self.finish_round() {
                return round;
            }
        }
    }

    /// The shown table, of N1·N2 bytes; entry (q1, q2) is byte q1·N2 + q2. Its round is that of the standing.
    pub fn show(&self) -> &[u8] {
        self.lent().show()
    }

    /// A formula's element at a state of model 1 or 2, and the facts that say which tables cover the formula. Formulas are
    /// numbered from 0.
    ///
    /// Refused with 13 where the formula, the model or the state is not in the case.
    pub fn value(&self, formula: u8, model: u8, state: State) -> Result<FormulaValue, Refusal> {
        self.lent().value(formula, model, state)
    }

    /// A formula's element on the whole of model 1 or 2, and the same facts as by [`Desk::value`].
    ///
    /// Refused with 13 where the formula or the model is not in the case.
    pub fn whole(&self, formula: u8, model: u8) -> Result<FormulaValue, Refusal> {
        self.lent().whole(formula, model)
    }

    /// The score of the shown table.
    pub fn score(&self) -> Element {
        self.lent().score().expect(KEPT)
    }

    /// The per cent of shown entries at or above an element, rounded to whole per cent, an exact half to the even neighbour.
    ///
    /// Refused with 13 where the element is not of the lattice.
    pub fn share(&self, element: Element) -> Result<u8, Refusal> {
        self.lent().share(element)
    }

    /// Whether a table of N1·N2 elements is sound: each entry is at or below that of F of the table, in the lattice's order. Such a
    /// table lies at or below the greatest simulation, and its entries bound every closed formula without EX. It need not be a
    /// simulation, which equals F of itself.
    ///
    /// ```
    /// use koelchair::Desk;
    ///
    /// // The elements 0 below 1; two models of two states without propositions, with a transition from state 0 to state 1, and a
    /// // loop at state 1.
    /// let case = [
    ///     3, // parts, each with its offset and length
    ///     13, 0, 7, 0, 20, 0, 8, 0, 28, 0, 8, 0,
    ///     2, 1, 0, 1, 1, 0, 1, // the lattice
    ///     2, 0, 1, 0, 0, 1, 0, 1, // model 1
    ///     2, 0, 1, 0, 0, 1, 0, 1, // model 2
    /// ];
    /// let desk = Desk::open(&case)?;
    /// // The greatest simulation.
    /// assert_eq!(desk.judge(&[1, 1, 1, 1]), Ok(true));
    /// // Entry (0, 0) is lower than in F of the table, and none is too high: no entry rests on (0, 0).
    /// assert_eq!(desk.judge(&[0, 1, 1, 1]), Ok(true));
    /// // Every entry rests on (1, 1), so that the others are too high.
    /// assert_eq!(desk.judge(&[1, 1, 1, 0]), Ok(false));
    /// # Ok::<(), koelchair::Refusal>(())
    /// ```
    ///
    /// Refused with 13 where the table has another length or a byte that is no element.
    pub fn judge(&self, table: &[u8]) -> Result<bool, Refusal> {
        self.lent().judge(table)
    }

    /// The desk's case, written back: its directory first, then its parts without gaps. The panel lattice is written as its one
    /// byte if it was opened so, and by its complements and order if these were given (757 bytes). Neither rounds nor entries nor
    /// gaps can be seen in what is written, and opening it gives a desk of the same case at round 0.
    ///
    /// ```
    /// use koelchair::Desk;
    ///
    /// // The elements 0 below 1; two models of one state without propositions, of which the first has a loop. Before each part
    /// // stands a byte, here 9, that belongs to none.
    /// let case = [
    ///     3, // parts, each with its offset and length
    ///     14, 0, 7, 0, 22, 0, 4, 0, 27, 0, 4, 0,
    ///     9, 2, 1, 0, 1, 1, 0, 1, // the lattice
    ///     9, 1, 0, 1, 1, // model 1
    ///     9, 1, 0, 1, 0, // model 2
    /// ];
    /// let mut desk = Desk::open(&case)?;
    /// desk.settle();
    /// let written = [
    ///     3, 13, 0, 7, 0, 20, 0, 4, 0, 24, 0, 4, 0, //
    ///     2, 1, 0, 1, 1, 0, 1, 1, 0, 1, 1, 1, 0, 1, 0,
    /// ];
    /// assert_eq!(desk.write(), written);
    /// let opened = Desk::open(&written)?;
    /// assert_eq!((opened.standing().round, opened.show()), (0, &[1][..]));
    /// assert_eq!(opened.write(), written);
    /// # Ok::<(), koelchair::Refusal>(())
    /// ```
    pub fn write(&self) -> Vec<u8> {
        self.lent().write().expect(KEPT)
    }

    /// Writes what [`Desk::write`] gives at the front of a buffer, and gives its length, at most
    /// [`WRITTEN_MOST`](crate::WRITTEN_MOST). The bytes after it are kept.
    ///
    /// ```
    /// use koelchair::{Desk, Refusal};
    ///
    /// // The elements 0 below 1, and two models of one state.
    /// let case = [
    ///     3, 13, 0, 7, 0, 20, 0, 4, 0, 24, 0, 4, 0, //
    ///     2, 1, 0, 1, 1, 0, 1, 1, 0, 1, 1, 1, 0, 1, 0,
    /// ];
    /// let desk = Desk::open(&case)?;
    /// let mut out = [7; 30];
    /// assert_eq!(desk.write_into(&mut out[..27]), Err(Refusal::ShortBuffer));
    /// assert_eq!(out, [7; 30]);
    /// assert_eq!(desk.write_into(&mut out), Ok(28));
    /// assert_eq!((&out[..28], &out[28..]), (&case[..], &[7, 7][..]));
    /// # Ok::<(), koelchair::Refusal>(())
    /// ```
    ///
    /// Refused with 14 where the buffer is shorter than what is to be written; then nothing is written.
    pub fn write_into(&self, out: &mut [u8]) -> Result<usize, Refusal> {
        self.lent().write_into(out)
    }

    /// What the desk holds.
    pub fn sizes(&self) -> Sizes {
        self.lent().sizes().expect(KEPT)
    }

    /// Entry (q1, q2) of the next round, and how many pairs of states working it one pair after another looks at. Nothing is
    /// altered.
    ///
    /// ```
    /// use koelchair::{Desk, Element, Refusal, State, WorkedEntry};
    ///
    /// // The elements 0 below 1; two models of two states with a loop at each, a transition from state 0 to state 1, and a
    /// // proposition that holds at state 1.
    /// let case = [
    ///     3, // parts, each with its offset and length
    ///     13, 0, 7, 0, 20, 0, 10, 0, 30, 0, 10, 0,
    ///     2, 1, 0, 1, 1, 0, 1, // the lattice
    ///     2, 1, 1, 0, 0, 1, 1, 1, 0, 1, // model 1
    ///     2, 1, 1, 0, 0, 1, 1, 1, 0, 1, // model 2
    /// ];
    /// let desk = Desk::open(&case)?;
    /// let entry = |q1, q2| desk.entry(State(q1), State(q2)).map(|WorkedEntry { value, pairs }| (value, pairs));
    /// // No join is top before its last pair, so that all four pairs are looked at.
    /// assert_eq!(entry(1, 1), Ok((Element(1), 4)));
    /// // For each state of model 1 the join is top after the first state of model 2.
    /// assert_eq!(entry(0, 0), Ok((Element(1), 2)));
    /// // The propositions differ, and the meet is bottom before any pair.
    /// assert_eq!(entry(0, 1), Ok((Element(0), 0)));
    /// assert_eq!(entry(2, 0), Err(Refusal::OutOfRange));
    /// # Ok::<(), koelchair::Refusal>(())
    /// ```
    ///
    /// Refused with 13 where model 1 has no state q1 or model 2 no state q2.
    pub fn entry(&self, q1: State, q2: State) -> Result<WorkedEntry, Refusal> {
        self.lent().entry(q1, q2)
    }

    /// Where the desk stands.
    pub fn standing(&self) -> Standing {
        self.standing
    }

    /// The desk with its store and both tables, for reading.
    pub fn lent(&self) -> DeskRef<'_> {
        DeskRef {
            standing: self.standing,
            store: &self.store,
            first: &self.first,
            second: &self.second,
        }
    }

    /// For the calls alone: who writes otherwise may spoil the desk.
    fn lent_mut(&mut self) -> DeskMut<'_> {
        DeskMut {
            standing: &mut self.standing,
            store: &mut self.store,
            first: &mut self.first,
            second: &mut self.second,
        }
    }
}

impl fmt::Debug for Desk {
    fn fmt(&self, f: &mut fmt::Formatter) -> fmt::Result {
        f.debug_struct("Desk")
            .field("standing", &self.standing)
            .field("shown", &self.show())
            .finish_non_exhaustive()
    }
}

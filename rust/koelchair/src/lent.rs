//! A desk whose standing, store and tables belong to the caller: `DeskRef` for the calls that read, `DeskMut` for all.

use crate::{answer, raw, Element, FormulaValue, Refusal, Sizes, State, StepAnswer};
use crate::{WorkedEntry, WRITTEN_MOST};

/// Where a desk stands. A standing of any content may be passed to any call: one that breaks a rule is refused with 12 by
/// every call but [`DeskMut::open`].
#[repr(C)]
#[derive(Clone, Copy, Debug, Default, PartialEq, Eq)]
pub struct Standing {
    /// N1, the states of model 1.
    pub states1: u8,
    /// N2, the states of model 2.
    pub states2: u8,
    /// The round of the whole table.
    pub round: u32,
    /// The next row, which the next step works.
    pub row: u8,
    /// Whether an earlier row of this round differs from the same row of the round before.
    pub changed: bool,
    /// Whether the round equals the one before it, so that all later rounds are the same.
    pub settled: bool,
    /// Whether the second table is the whole one; else the first is.
    pub second_whole: bool,
    /// The lowerings: the entries that differ from the round before, summed over the whole rounds since open.
    pub lowerings: u32,
}

/// A desk lent for the calls that read it: a standing, a store and two tables, each of any content and length.
///
/// ```
/// use koelchair::{DeskRef, Refusal, Standing};
///
/// let (store, table) = ([0; koelchair::STORE_LENGTH], [0; koelchair::TABLE_LENGTH]);
/// let zeros = DeskRef {
///     standing: Standing::default(),
///     store: &store,
///     first: &table,
///     second: &table,
/// };
/// assert_eq!(zeros.score(), Err(Refusal::SpoiledDesk));
/// assert!(zeros.show().is_empty());
/// ```
///
/// Every call but show is refused with [11](Refusal::ShortDesk) where the store or a table is too short, and with
/// [12](Refusal::SpoiledDesk) where the desk breaks a rule.
#[derive(Clone, Copy, Debug)]
pub struct DeskRef<'a> {
    /// Where the desk stands.
    pub standing: Standing,
    /// The case, as open wrote it.
    pub store: &'a [u8],
    /// The table that is whole after open.
    pub first: &'a [u8],
    /// The other table.
    pub second: &'a [u8],
}

impl<'a> DeskRef<'a> {
    /// The first N1·N2 bytes of the whole table, as a part of that table itself. Entry (q1, q2) is byte q1·N2 + q2, and the
    /// round is that of the standing. Where the desk is refused the part is empty.
    pub fn show(self) -> &'a [u8] {
        let shown = raw::show(self);
        match shown.table {
            0 => &[],
            1 => &self.first[..shown.length],
            2 => &self.second[..shown.length],
            table => panic!("the archive showed table {table}, which there is not"),
        }
    }

    /// A formula's element at a state of model 1 or 2, and the facts that say which tables cover the formula. Formulas are
    /// numbered from 0.
    ///
    /// Refused with 11 or 12, or with 13 where the formula, the model or the state is not in the case.
    pub fn value(self, formula: u8, model: u8, state: State) -> Result<FormulaValue, Refusal> {
        answer::formula_value(raw::value(self, formula, model, state.0))
    }

    /// A formula's element on the whole of model 1 or 2: the meet over all states q of Q0(q) → the value at q, Q0 being the
    /// initial values. With it the same facts as by [`DeskRef::value`].
    ///
    /// Refused with 11 or 12, or with 13 where the formula or the model is not in the case.
    pub fn whole(self, formula: u8, model: u8) -> Result<FormulaValue, Refusal> {
        answer::formula_value(raw::whole(self, formula, model))
    }

    /// The score of the shown table: the meet over q1 of Q0(q1) → the join over q2 of Q0(q2) met with the shown entry.
    ///
    /// Refused with 11 or 12.
    pub fn score(self) -> Result<Element, Refusal> {
        answer::element(raw::score(self))
    }

    /// The per cent of shown entries at or above an element, rounded to whole per cent, an exact half to the even neighbour.
    ///
    /// Refused with 11 or 12, or with 13 where the element is not of the lattice.
    pub fn share(self, element: Element) -> Result<u8, Refusal> {
        answer::per_cent(raw::share(self, element.0))
    }

    /// Whether a table of N1·N2 elements is sound, that is, whether each entry is at or below that of F of the table, in the lattice's
    /// order; see [`Desk::judge`](crate::Desk::judge). Where it is not refused, the answer depends neither on the round nor on the desk's
    /// own tables.
    ///
    /// Refused with 11 or 12, or with 13 where the table has another length or a byte that is no element.
    pub fn judge(self, table: &[u8]) -> Result<bool, Refusal> {
        answer::says(raw::judge(self, table))
    }

    /// The desk's case, written back: its directory first, then its parts without gaps, each as it stands in the store. Neither
    /// rounds nor entries can be seen in it; see [`Desk::write`](crate::Desk::write).
    ///
    /// Refused with 11 or 12.
    pub fn write(self) -> Result<Vec<u8>, Refusal> {
        let mut out = vec![0; WRITTEN_MOST];
        let length = self.write_into(&mut out)?;
        out.truncate(length);
        Ok(out)
    }

    /// Writes what [`DeskRef::write`] gives at the front of a buffer, and gives its length, at most [`WRITTEN_MOST`]. The bytes
    /// after it are kept.
    ///
    /// Refused with 11 or 12, or with 14 where the buffer is shorter than what is to be written; then nothing is written.
    pub fn write_into(self, out: &mut [u8]) -> Result<usize, Refusal> {
        answer::length(raw::write(self, out))
    }

    /// What the desk holds, for a desk whose case is not at hand.
    ///
    /// Refused with 11 or 12.
    pub fn sizes(self) -> Result<Sizes, Refusal> {
        answer::sizes(raw::sizes(self))
    }

    /// Entry (q1, q2) of F of the shown table, which is what the next round has there, and how many pairs of states working it one
    /// pair after another looks at. That work takes the propositions first, then each q1' and for it each q2', all in rising
    /// order; it ends once the meet is bottom, and the join of a q1' once that is top. The library reads blocks of pairs and passes
    /// some over, with the same entry and count.
    ///
    /// Refused with 11 or 12, or with 13 where model 1 has no state q1 or model 2 no state q2.
    pub fn entry(self, q1: State, q2: State) -> Result<WorkedEntry, Refusal> {
        answer::entry(raw::entry(self, q1.0, q2.0))
    }
}

/// A desk lent for the calls that move it on: a standing, a store and two tables, each of any content and length.
///
/// ```
/// use koelchair::{DeskMut, Refusal, Standing};
///
/// let mut standing = Standing::default();
/// let mut store = [0; koelchair::STORE_LENGTH];
/// let (mut first, mut second) = ([0; koelchair::TABLE_LENGTH], [0; koelchair::TABLE_LENGTH]);
/// let mut zeros = DeskMut {
///     standing: &mut standing,
///     store: &mut store,
///     first: &mut first,
///     second: &mut second,
/// };
/// assert_eq!(zeros.step(), Err(Refusal::SpoiledDesk));
/// assert_eq!(zeros.open(&[]), Err(Refusal::CaseSize));
/// assert_eq!(zeros.shared().score(), Err(Refusal::SpoiledDesk));
/// ```
#[derive(Debug)]
pub struct DeskMut<'a> {
    /// Where the desk stands.
    pub standing: &'a mut Standing,
    /// The case, as open writes it.
    pub store: &'a mut [u8],
    /// The table that is whole after open.
    pub first: &'a mut [u8],
    /// The other table.
    pub second: &'a mut [u8],
}

impl DeskMut<'_> {
    /// Takes a case and makes the desk anew: unsettled, at round 0 and next row 0, without lowerings, the first table whole, the
    /// first N1·N2 bytes of both tables top. The former desk, of whatever content, is replaced.
    ///
    /// Refused with 11, or with 1 to 10 for the case; then nothing is altered.
    pub fn open(&mut self, case: &[u8]) -> Result<(), Refusal> {
        let moved = raw::open(self, case);
        *self.standing = moved.standing;
        answer::opened(moved.answer)
    }

    /// Works the next row of the next round, for all states of model 2, in the table that is not whole, and writes nothing else
    /// in either table. After the last row the new table becomes the whole one, the round goes up by 1, the next row is 0, and the
    /// lowerings go up by the number of the first N1·N2 bytes in which the two tables then differ. A settled desk answers
    /// [`StepAnswer::Settled`] again and is left unchanged.
    ///
    /// Refused with 11 or 12; then nothing is altered.
    pub fn step(&mut self) -> Result<StepAnswer, Refusal> {
        let moved = raw::step(self);
        *self.standing = moved.standing;
        answer::stepped(moved.answer)
    }

    /// Works the rows of the round that are left: as many calls of [`DeskMut::step`] as there are rows from the next one to the
    /// last, in one call that checks the desk once. The answer is that of the last of them, [`StepAnswer::Round`] or
    /// [`StepAnswer::Settled`]. A settled desk is answered as by [`DeskMut::step`] and left unchanged.
    ///
    /// Refused with 11 or 12; then nothing is altered.
    pub fn finish_round(&mut self) -> Result<StepAnswer, Refusal> {
        let moved = raw::finish_round(self);
        *self.standing = moved.standing;
        answer::stepped(moved.answer)
    }

    /// The desk for the calls that read it.
    pub fn shared(&self) -> DeskRef<'_> {
        DeskRef {
            standing: *self.standing,
            store: self.store,
            first: self.first,
            second: self.second,
        }
    }
}

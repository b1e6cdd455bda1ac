//! What the calls answer. Rests on `facts`.

use crate::facts::Facts;

/// The answer of a call, or of the work on an entry.
#[derive(Clone, Debug, PartialEq, Eq)]
pub enum Reply {
    /// The call was refused.
    Refused {
        /// The number, 1 to 14.
        number: u8,
        /// The part, or 255.
        part: u8,
    },
    /// A desk was opened.
    Opened,
    /// A row was worked that is not the last of its round.
    Row {
        /// The lowerings of the whole rounds.
        lowerings: u32,
    },
    /// The last row of a round was worked, and the round differs from the one before.
    Round {
        /// The round.
        round: u32,
        /// The lowerings up to this round.
        lowerings: u32,
    },
    /// The desk is settled.
    Settled {
        /// The round at which it is.
        round: u32,
        /// The lowerings up to this round.
        lowerings: u32,
    },
    /// The first N1·N2 bytes of the whole table; none where show is refused.
    Shown(Vec<u8>),
    /// The score, an element.
    Element(u8),
    /// A formula's value, and the facts of the formula.
    FormulaValue {
        /// The element.
        element: u8,
        /// The facts.
        facts: Facts,
    },
    /// A share in per cent.
    PerCent(u8),
    /// Whether judge's table is sound.
    Says(bool),
    /// How many bytes were written.
    Length(usize),
    /// An entry of the next round.
    WorkedEntry {
        /// The element.
        element: u8,
        /// How many pairs were looked at.
        pairs: u32,
    },
}

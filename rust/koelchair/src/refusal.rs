//! The table of refusals: number, name, part and words, each said once here for the wrapper and the tool. The names are those of
//! crates/refusal, in capitals those of include/koelchair.h; tests/names holds the three against each other.

use std::error::Error;
use std::fmt;

/// What [`Refusal::part`] gives where a refusal names no part of the case.
pub const NO_PART: u8 = 255;

/// A line of the table of refusals.
#[derive(Clone, Copy, Debug, PartialEq, Eq, Hash)]
pub struct RefusalEntry {
    /// The refusal's number.
    pub number: u8,
    /// Its name, that of the variant of [`Refusal`].
    pub name: &'static str,
    /// What is wrong, in words that name no part.
    pub words: &'static str,
}

/// Makes of the table the enum, its number and part, the refusal that a number and a part name, and the table as data.
macro_rules! refusals {
    ($($number:literal $name:ident $(($field:ident: $type:ty))? => $part:expr, $words:literal;)*) => {
        /// Why a call was refused. The first refusal that applies is given, in this order: for open 11, then 1 to 10; for write 11,
        /// 12, 14; for every other call 11, 12, 13.
        ///
        /// ```
        /// use koelchair::{Desk, Refusal};
        ///
        /// let refusal = Desk::open(&[]).unwrap_err();
        /// assert_eq!(refusal, Refusal::CaseSize);
        /// assert_eq!((refusal.number(), refusal.part()), (1, koelchair::NO_PART));
        /// assert_eq!(refusal.words(), "the case is empty or over 32,768 bytes");
        /// ```
        #[derive(Clone, Copy, Debug, PartialEq, Eq, Hash)]
        pub enum Refusal {
            $(
                #[doc = concat!($number, ": ", $words, ".")]
                $name $(($type))?,
            )*
        }

        /// All refusals in the order of their numbers.
        pub const REFUSALS: &[RefusalEntry] = &[
            $(RefusalEntry { number: $number, name: stringify!($name), words: $words },)*
        ];

        impl Refusal {
            /// The refusal's number.
            pub fn number(self) -> u8 {
                match self {
                    $(Refusal::$name { .. } => $number,)*
                }
            }

            /// The part of the case that is at fault, or [`NO_PART`].
            pub fn part(self) -> u8 {
                match self {
                    $(Refusal::$name $(($field))? => $part,)*
                }
            }

            /// The refusal with this number, which names this part if it can name several.
            fn of(number: u8, part: u8) -> Option<Refusal> {
                match number {
                    $($number => {
                        $(let $field = part;)?
                        Some(Refusal::$name $(($field))?)
                    })*
                    _ => None,
                }
            }
        }
    };
}

refusals! {
    1 CaseSize => NO_PART, "the case is empty or over 32,768 bytes";
    2 Directory => NO_PART, "the count of parts is not 3 to 11, or the directory does not fit";
    3 PartPlace(part: u8) => part, "the part is empty, overlaps what stands before it, or ends beyond the case";
    4 LatticeForm => 0, "the lattice has over 64 elements, a wrong length, a complement that is no element, \
        or an order byte other than 0 and 1";
    5 NoPartialOrder => 0, "the order is no partial order";
    6 NoMeetOrJoin => 0, "two elements have no meet or no join";
    7 NotDistributive => 0, "the lattice is not distributive";
    8 BadComplement => 0, "a rule of the complement is broken";
    9 BadModel(part: u8) => part, "the model has a wrong length, size, value or count of propositions";
    10 BadFormula(part: u8) => part, "the formula breaks a rule";
    11 ShortDesk => NO_PART, "the store or a table is too short";
    12 SpoiledDesk => NO_PART, "the desk breaks a rule";
    13 OutOfRange => NO_PART, "a formula, model, state or element is out of range, or the table to be judged is no \
        table of elements of this size";
    14 ShortBuffer => NO_PART, "the buffer to write into is too short";
}

impl Refusal {
    /// The refusal's line in the table.
    fn entry(self) -> &'static RefusalEntry {
        &REFUSALS[usize::from(self.number()) - 1]
    }

    /// The refusal's name: that of its variant.
    pub fn name(self) -> &'static str {
        self.entry().name
    }

    /// What is wrong, in words that name no part.
    pub fn words(self) -> &'static str {
        self.entry().words
    }

    /// The refusal with this number and part, as the archive gives them.
    pub(crate) fn read(number: u8, part: u8) -> Refusal {
        let refusal = match Refusal::of(number, part) {
            Some(refusal) => refusal,
            None => panic!("the archive gave refusal {number}, which there is not"),
        };
        assert_eq!(
            refusal.part(),
            part,
            "the archive gave refusal {number} with a part that it has not"
        );
        refusal
    }
}

/// The words, and the part where one is named.
impl fmt::Display for Refusal {
    fn fmt(&self, f: &mut fmt::Formatter) -> fmt::Result {
        match self.part() {
            NO_PART => f.write_str(self.words()),
            part => write!(f, "{} (part {part} of the case)", self.words()),
        }
    }
}

impl Error for Refusal {}

#[cfg(test)]
mod tests {
    use super::*;

    /// The parts that a refusal can name.
    fn parts(number: u8) -> std::ops::RangeInclusive<u8> {
        match number {
            3 => 0..=10,
            4..=8 => 0..=0,
            9 => 1..=2,
            10 => 3..=10,
            _ => NO_PART..=NO_PART,
        }
    }

    #[test]
    fn every_refusal_is_read_back() {
        for (place, entry) in REFUSALS.iter().enumerate() {
            assert_eq!(usize::from(entry.number), place + 1);
            for part in parts(entry.number) {
                let refusal = Refusal::read(entry.number, part);
                assert_eq!((refusal.number(), refusal.part()), (entry.number, part));
                assert_eq!((refusal.name(), refusal.words()), (entry.name, entry.words));
                assert!(format!("{refusal:?}").starts_with(entry.name));
            }
        }
        assert_eq!(REFUSALS.len(), 14);
    }

    #[test]
    #[should_panic(expected = "refusal 15")]
    fn refusal_15_is_no_refusal() {
        Refusal::read(15, NO_PART);
    }

    #[test]
    #[should_panic(expected = "a part that it has not")]
    fn refusal_12_names_no_part() {
        Refusal::read(12, 3);
    }
}

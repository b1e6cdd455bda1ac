//! A proved library as it was before a change, loaded from a shared library, and with `shared` the only `unsafe` code of this program. The
//! functions and structs are those of include/koelchair.h, or as they were before request 107, when a standing had no count of lowerings.

use crate::libraries::{Given, Library};
use crate::shared::Loaded;
use compare::calls::Call;
use compare::desks::Desk;
use koelchair::{Standing, LISTING_LENGTH};
use second::{Facts, Reply};
use std::ptr::dangling_mut;

#[cfg(test)]
mod tests;

#[repr(C)]
#[derive(Clone, Copy)]
struct Answer {
    kind: u8,
    number: u8,
    part: u8,
    byte: u8,
    value: u32,
    second: u32,
    flag1: bool,
    flag2: bool,
}

/// What open, step and finish_round give.
#[repr(C)]
#[derive(Clone, Copy)]
struct Counted {
    standing: Standing,
    answer: Answer,
}

/// A standing from before request 107.
#[repr(C)]
#[derive(Clone, Copy)]
struct ShortStanding {
    states1: u8,
    states2: u8,
    round: u32,
    row: u8,
    changed: bool,
    settled: bool,
    second_whole: bool,
}

/// What these calls gave then.
#[repr(C)]
#[derive(Clone, Copy)]
struct Uncounted {
    standing: ShortStanding,
    answer: Answer,
}

/// The one or the other. Both are too long for registers, so that the library writes what it gives into room for the longer. A standing of
/// either length is passed in the same two registers, and a library from before request 107 reads nothing of the count.
#[repr(C)]
union Moved {
    counted: Counted,
    uncounted: Uncounted,
}

#[repr(C)]
struct Shown {
    table: u8,
    length: usize,
}

/// A function that takes a desk, the store and the tables with their lengths, and then these arguments.
macro_rules! function {
    (($($argument:ty),*) -> $answer:ty) => {
        unsafe extern "C" fn(
            Standing, *const u8, usize, *mut u8, usize, *mut u8, usize $(, $argument)*
        ) -> $answer
    };
}

/// Write, which takes the tables to read them alone, and the buffer.
type Write = unsafe extern "C" fn(
    Standing,
    *const u8,
    usize,
    *const u8,
    usize,
    *const u8,
    usize,
    *mut u8,
    usize,
) -> Answer;

/// Open, which takes the case too, and writes the store.
type Open = unsafe extern "C" fn(
    Standing,
    *const u8,
    usize,
    *mut u8,
    usize,
    *mut u8,
    usize,
    *mut u8,
    usize,
) -> Moved;

/// The functions of a library that is never unloaded.
pub struct Former {
    open: Open,
    step: function!(() -> Moved),
    finish_round: function!(() -> Moved),
    show: function!(() -> Shown),
    value: function!((u8, u8, u8) -> Answer),
    whole: function!((u8, u8) -> Answer),
    score: function!(() -> Answer),
    share: function!((u8) -> Answer),
    judge: function!((*const u8, usize) -> Answer),
    /// None in a library from before request 105.
    write: Option<Write>,
    listing: unsafe extern "C" fn(*const u8, usize, *mut u8) -> usize,
    /// Whether its standings have the count of lowerings.
    counts: bool,
}

impl Former {
    /// Loads a shared library that has these functions; their structs cannot be looked at, and have to be those above.
    pub fn load(file: &str) -> Result<Former, String> {
        let library = Loaded::open(file)?;
        // SAFETY: each function is declared as the header declares the one of its name.
        unsafe {
            let open = library.function(c"koelchair_open")?;
            Ok(Former {
                open,
                counts: counts_lowerings(open),
                step: library.function(c"koelchair_step")?,
                finish_round: library.function(c"koelchair_finish_round")?,
                show: library.function(c"koelchair_show")?,
                value: library.function(c"koelchair_value")?,
                whole: library.function(c"koelchair_whole")?,
                score: library.function(c"koelchair_score")?,
                share: library.function(c"koelchair_share")?,
                judge: library.function(c"koelchair_judge")?,
                write: library.function(c"koelchair_write").ok(),
                listing: library.function(c"koelchair_listing")?,
            })
        }
    }

    /// The answer, after the standing is put into the desk.
    fn moved(&self, moved: Moved, desk: &mut Desk) -> Answer {
        // SAFETY: it is known which of the two the library gives.
        let (standing, answer) = unsafe {
            match self.counts {
                true => (moved.counted.standing, moved.counted.answer),
                false => (long(moved.uncounted.standing), moved.uncounted.answer),
            }
        };
        desk.standing = standing;
        answer
    }

    fn open(&self, desk: &mut Desk, case: &[u8]) -> Moved {
        let Desk {
            standing,
            store,
            first,
            second,
        } = desk;
        // SAFETY: each pointer and length are those of one slice; the three that are written are exclusive.
        unsafe {
            (self.open)(
                *standing,
                case.as_ptr(),
                case.len(),
                store.as_mut_ptr(),
                store.len(),
                first.as_mut_ptr(),
                first.len(),
                second.as_mut_ptr(),
                second.len(),
            )
        }
    }
}

/// Calls a function with a desk and these arguments.
macro_rules! call {
    ($function:expr, $desk:expr $(, $argument:expr)*) => {{
        let Desk { standing, store, first, second } = $desk;
        // SAFETY: each pointer and length are those of one slice; the tables are exclusive, whether they are written or not.
        unsafe {
            $function(
                *standing,
                store.as_ptr(), store.len(),
                first.as_mut_ptr(), first.len(),
                second.as_mut_ptr(), second.len()
                $(, $argument)*
            )
        }
    }};
}

impl Library for Former {
    fn name(&self) -> &'static str {
        "Former"
    }

    fn counts_lowerings(&self) -> bool {
        self.counts
    }

    fn call(&self, desk: &mut Desk, call: &Call) -> Given {
        let answer = match call {
            Call::Open(case) => self.moved(self.open(desk, case), desk),
            Call::Step => self.moved(call!((self.step), desk), desk),
            Call::FinishRound => self.moved(call!((self.finish_round), desk), desk),
            Call::Show => return shown(call!((self.show), desk), desk),
            &Call::Value {
                formula,
                model,
                state,
            } => call!((self.value), desk, formula, model, state),
            &Call::Whole { formula, model } => call!((self.whole), desk, formula, model),
            Call::Score => call!((self.score), desk),
            &Call::Share(element) => call!((self.share), desk, element),
            Call::Judge(table) => call!((self.judge), desk, table.as_ptr(), table.len()),
            Call::Entry { .. } => panic!("a former library need not have the work on an entry"),
        };
        Given::Reply(reply(answer))
    }

    fn write(&self, desk: &Desk, out: &mut [u8]) -> Option<Reply> {
        let Desk {
            standing,
            store,
            first,
            second,
        } = desk;
        // SAFETY: each pointer and length are those of one slice; the buffer, which is written, is exclusive.
        let answer = unsafe {
            self.write?(
                *standing,
                store.as_ptr(),
                store.len(),
                first.as_ptr(),
                first.len(),
                second.as_ptr(),
                second.len(),
                out.as_mut_ptr(),
                out.len(),
            )
        };
        Some(reply(answer))
    }

    fn listing(&self, case: &[u8]) -> String {
        let mut text = Box::new([0; LISTING_LENGTH]);
        // SAFETY: the case is only read, and the text has the length that is written within.
        let length = unsafe { (self.listing)(case.as_ptr(), case.len(), text.as_mut_ptr()) };
        let lines = std::str::from_utf8(&text[..length]);
        lines.expect("a listing is text").to_owned()
    }
}

/// Whether the library with this open has the count of lowerings in its standings. A desk of no bytes is refused with 11. The refusal's
/// number stands where a library from before request 107 has a byte of `value`, which is 0 in a refusal.
///
/// # Safety
/// It is the open of such a library.
unsafe fn counts_lowerings(open: Open) -> bool {
    let none = dangling_mut();
    let refused = open(Standing::default(), none, 0, none, 0, none, 0, none, 0);
    refused.counted.answer.number == 11
}

/// A standing from before request 107 with a count of 0.
fn long(standing: ShortStanding) -> Standing {
    let ShortStanding {
        states1,
        states2,
        round,
        row,
        changed,
        settled,
        second_whole,
    } = standing;
    Standing {
        states1,
        states2,
        round,
        row,
        changed,
        settled,
        second_whole,
        lowerings: 0,
    }
}

/// The length of the table that is shown, which has to be the whole one.
fn shown(shown: Shown, desk: &Desk) -> Given {
    let whole = 1 + u8::from(desk.standing.second_whole);
    assert!(shown.table == whole || shown.length == 0, "another table");
    Given::Shown(shown.length)
}

fn reply(answer: Answer) -> Reply {
    let Answer {
        kind,
        number,
        part,
        byte,
        value,
        second: lowerings,
        flag1,
        flag2,
    } = answer;
    match kind {
        0 => Reply::Refused { number, part },
        1 => Reply::Opened,
        2 => Reply::Row { lowerings },
        3 => Reply::Round {
            round: value,
            lowerings,
        },
        4 => Reply::Settled {
            round: value,
            lowerings,
        },
        5 => Reply::Element(value as u8),
        6 => Reply::PerCent(value as u8),
        7 => Reply::Says(value == 1),
        9 => Reply::FormulaValue {
            element: value as u8,
            facts: Facts {
                nesting: byte,
                fixpoint: flag1,
                ex: flag2,
            },
        },
        10 => Reply::Length(value as usize),
        _ => panic!("the former library answers with kind {kind}, which there is not"),
    }
}

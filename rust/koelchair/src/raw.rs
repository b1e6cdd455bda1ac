//! The functions of the archive, and the only `unsafe` code of the crate.
//!
//! A slice is passed as its pointer and its length. The proved functions read and write within these lengths alone, keep no pointer,
//! use no memory that outlives a call, and write only where a slice is exclusive here.

use crate::{DeskMut, DeskRef, Standing, LISTING_LENGTH};

/// An answer in numbers: `kind` says which, and the fields that this kind does not use are 0 or false. Kind 9, that of value and whole,
/// has in `byte` the deepest nesting of AX, in `flag1` whether a fixpoint occurs, in `flag2` whether EX occurs. Kind 10, that of write, has
/// in `value` the length. Kinds 2 to 4, those of a step, have in `second` the count of lowerings.
#[repr(C)]
#[derive(Clone, Copy, Debug, Default)]
pub struct Answer {
    pub kind: u8,
    pub number: u8,
    pub part: u8,
    pub byte: u8,
    pub value: u32,
    pub second: u32,
    pub flag1: bool,
    pub flag2: bool,
}

/// What open, step and finish_round give: the standing after the call, and the answer.
#[repr(C)]
pub struct Moved {
    pub standing: Standing,
    pub answer: Answer,
}

/// Which table is shown (0 none, 1 the first, 2 the second), and how many of its bytes.
#[repr(C)]
pub struct Shown {
    pub table: u8,
    pub length: usize,
}

/// What a desk holds: the elements of its lattice, the propositions and the states of its models, and its formulas. A refused desk has the
/// refusal's number and part, and zeros; any other has number and part 0.
#[repr(C)]
#[derive(Clone, Copy, Debug, Default)]
pub struct DeskSizes {
    pub number: u8,
    pub part: u8,
    pub elements: u8,
    pub propositions: u8,
    pub states1: u8,
    pub states2: u8,
    pub formulas: u8,
}

/// An entry of the next round, and how many pairs of states working it one pair after another looks at. A refused one has the refusal's
/// number and part, and zeros; any other has number and part 0.
#[repr(C)]
#[derive(Clone, Copy, Debug, Default)]
pub struct WorkedEntry {
    pub number: u8,
    pub part: u8,
    pub value: u8,
    pub pairs: u32,
}

extern "C" {
    fn koelchair_open(
        standing: Standing,
        case: *const u8,
        case_length: usize,
        store: *mut u8,
        store_length: usize,
        first: *mut u8,
        first_length: usize,
        second: *mut u8,
        second_length: usize,
    ) -> Moved;

    fn koelchair_step(
        standing: Standing,
        store: *const u8,
        store_length: usize,
        first: *mut u8,
        first_length: usize,
        second: *mut u8,
        second_length: usize,
    ) -> Moved;

    fn koelchair_finish_round(
        standing: Standing,
        store: *const u8,
        store_length: usize,
        first: *mut u8,
        first_length: usize,
        second: *mut u8,
        second_length: usize,
    ) -> Moved;

    fn koelchair_show(
        standing: Standing,
        store: *const u8,
        store_length: usize,
        first: *const u8,
        first_length: usize,
        second: *const u8,
        second_length: usize,
    ) -> Shown;

    fn koelchair_value(
        standing: Standing,
        store: *const u8,
        store_length: usize,
        first: *const u8,
        first_length: usize,
        second: *const u8,
        second_length: usize,
        formula: u8,
        model: u8,
        state: u8,
    ) -> Answer;

    fn koelchair_whole(
        standing: Standing,
        store: *const u8,
        store_length: usize,
        first: *const u8,
        first_length: usize,
        second: *const u8,
        second_length: usize,
        formula: u8,
        model: u8,
    ) -> Answer;

    fn koelchair_score(
        standing: Standing,
        store: *const u8,
        store_length: usize,
        first: *const u8,
        first_length: usize,
        second: *const u8,
        second_length: usize,
    ) -> Answer;

    fn koelchair_share(
        standing: Standing,
        store: *const u8,
        store_length: usize,
        first: *const u8,
        first_length: usize,
        second: *const u8,
        second_length: usize,
        element: u8,
    ) -> Answer;

    fn koelchair_judge(
        standing: Standing,
        store: *const u8,
        store_length: usize,
        first: *const u8,
        first_length: usize,
        second: *const u8,
        second_length: usize,
        table: *const u8,
        table_length: usize,
    ) -> Answer;

    fn koelchair_write(
        standing: Standing,
        store: *const u8,
        store_length: usize,
        first: *const u8,
        first_length: usize,
        second: *const u8,
        second_length: usize,
        out: *mut u8,
        out_length: usize,
    ) -> Answer;

    fn koelchair_sizes(
        standing: Standing,
        store: *const u8,
        store_length: usize,
        first: *const u8,
        first_length: usize,
        second: *const u8,
        second_length: usize,
    ) -> DeskSizes;

    fn koelchair_entry(
        standing: Standing,
        store: *const u8,
        store_length: usize,
        first: *const u8,
        first_length: usize,
        second: *const u8,
        second_length: usize,
        q1: u8,
        q2: u8,
    ) -> WorkedEntry;

    fn koelchair_listing(case: *const u8, case_length: usize, text: *mut u8) -> usize;
}

/// A call that reads the desk: the function, the desk, and its other arguments.
macro_rules! ask {
    ($function:ident, $desk:expr $(, $argument:expr)*) => {{
        let DeskRef { standing, store, first, second } = $desk;
        // SAFETY: each pointer and length are those of one slice. All are only read but the buffer of write, which is exclusive.
        unsafe {
            $function(
                standing,
                store.as_ptr(), store.len(),
                first.as_ptr(), first.len(),
                second.as_ptr(), second.len(),
                $($argument),*
            )
        }
    }};
}

pub fn open(desk: &mut DeskMut, case: &[u8]) -> Moved {
    // SAFETY: each pointer and length are those of one slice; the three that are written are exclusive.
    unsafe {
        koelchair_open(
            *desk.standing,
            case.as_ptr(),
            case.len(),
            desk.store.as_mut_ptr(),
            desk.store.len(),
            desk.first.as_mut_ptr(),
            desk.first.len(),
            desk.second.as_mut_ptr(),
            desk.second.len(),
        )
    }
}

pub fn step(desk: &mut DeskMut) -> Moved {
    // SAFETY: each pointer and length are those of one slice; the two tables, which are written, are exclusive.
    unsafe {
        koelchair_step(
            *desk.standing,
            desk.store.as_ptr(),
            desk.store.len(),
            desk.first.as_mut_ptr(),
            desk.first.len(),
            desk.second.as_mut_ptr(),
            desk.second.len(),
        )
    }
}

pub fn finish_round(desk: &mut DeskMut) -> Moved {
    // SAFETY: each pointer and length are those of one slice; the two tables, which are written, are exclusive.
    unsafe {
        koelchair_finish_round(
            *desk.standing,
            desk.store.as_ptr(),
            desk.store.len(),
            desk.first.as_mut_ptr(),
            desk.first.len(),
            desk.second.as_mut_ptr(),
            desk.second.len(),
        )
    }
}

pub fn show(desk: DeskRef) -> Shown {
    ask!(koelchair_show, desk)
}

pub fn value(desk: DeskRef, formula: u8, model: u8, state: u8) -> Answer {
    ask!(koelchair_value, desk, formula, model, state)
}

pub fn whole(desk: DeskRef, formula: u8, model: u8) -> Answer {
    ask!(koelchair_whole, desk, formula, model)
}

pub fn score(desk: DeskRef) -> Answer {
    ask!(koelchair_score, desk)
}

pub fn share(desk: DeskRef, element: u8) -> Answer {
    ask!(koelchair_share, desk, element)
}

pub fn judge(desk: DeskRef, table: &[u8]) -> Answer {
    ask!(koelchair_judge, desk, table.as_ptr(), table.len())
}

pub fn write(desk: DeskRef, out: &mut [u8]) -> Answer {
    ask!(koelchair_write, desk, out.as_mut_ptr(), out.len())
}

pub fn sizes(desk: DeskRef) -> DeskSizes {
    ask!(koelchair_sizes, desk)
}

pub fn entry(desk: DeskRef, q1: u8, q2: u8) -> WorkedEntry {
    ask!(koelchair_entry, desk, q1, q2)
}

/// Writes the listing at the front of `text`, and gives its length.
pub fn listing(case: &[u8], text: &mut [u8; LISTING_LENGTH]) -> usize {
    // SAFETY: the pointer and length of `case` are those of one slice, which is only read; `text` is exclusive and has
    // the length that the function writes within.
    unsafe { koelchair_listing(case.as_ptr(), case.len(), text.as_mut_ptr()) }
}

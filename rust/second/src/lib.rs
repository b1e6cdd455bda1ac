//! The latticed simulation desk of document 01, as the change requests have changed it, in plain Rust: a second implementation, written
//! from the words of these documents and sharing nothing with the proved code, so that the two can be held against each other.
//!
//! It is simple rather than fast. Every call reads the store anew, meets and joins are found by search in the order, and
//! fixpoints by iteration until nothing changes. No call panics, whatever its arguments hold.
//!
//! Modules: `lattice`, `model`, `formula` (the parts of a case and their values), `facts` (of a formula as it is written), `case`
//! (directory, refusals 1 to 10, layout of the store), `rounds` (F and what is read off a table), `standing` (what it holds, and its
//! limits), `reply` (the answers), `desk` (the calls, the work on one entry, and F of a table), `report` (the listing).

#![forbid(unsafe_code)]
#![deny(missing_docs)]

mod case;
mod desk;
mod facts;
mod formula;
mod lattice;
mod model;
mod reply;
mod report;
mod rounds;
mod standing;

pub use desk::{
    entry, f_of, judge, open, score, share, show, step, value, whole, write, STORE_LENGTH,
    TABLE_LENGTH,
};
pub use facts::Facts;
pub use reply::Reply;
pub use report::report;
pub use standing::Standing;

//! The tool `koelchair`: a readable text form of a case (docs/TEXT-FORM.md), its bytes, and what the proved desk says of it.
//!
//! Entries, values, facts of formulas, T, score, share, the listing and whether a table is sound come from the crate `koelchair`, that is
//! from the proved library. The tool's own are the text form, also that of a table (`table_text`), the bytes of a case, warnings about a
//! drawing (`warnings`), which pair `judge` names, and the parts of an entry that `explain` and `why` show (`tables`, `reasons`), which
//! are checked to meet to the library's entry.
#![forbid(unsafe_code)]
#![deny(missing_docs)]

pub mod case;
pub mod commands;
pub mod cursor;
pub mod decode;
pub mod encode;
pub mod encoding;
pub mod errors;
pub mod facts;
pub mod formula;
pub mod formula_print;
pub mod formula_text;
pub mod include;
pub mod json;
pub mod lattice;
pub mod lattice_print;
pub mod lattice_text;
pub mod lexer;
pub mod listing;
pub mod model;
pub mod model_text;
pub mod name_or_number;
pub mod names;
pub mod order_text;
pub mod page;
pub mod parse;
pub mod print;
pub mod progress;
pub mod reasons;
pub mod rounds;
pub mod sections;
pub mod source;
pub mod table_text;
pub mod tables;
pub mod views;
pub mod warnings;

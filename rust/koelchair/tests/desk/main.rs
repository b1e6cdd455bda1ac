//! A desk that owns its buffers and one that is lent them, on the worked examples of document 01, and what they refuse,
//! count and write.

mod cases;
mod entries;
mod examples;
mod finishing;
mod lowerings;
mod refusals;
mod sizes;
mod writing;

//! Random cases, desks and lists of calls, on which the proved library and the second implementation are held against each other. The
//! tests are in tests/: `lists` makes lists of calls, `listings` compares what the program `report` prints, `shares` takes tables at and
//! beside an exact half per cent, `entries` compares the work on single entries, `judges` what is said of tables, `writes` what is
//! written into buffers, `scores` holds scores against formulas' values on both whole models.
//!
//! - generator: numbers from a seed
//! - lattices, non_lattices, models, formulas: the parts of a case, within the rules and not
//! - shapes: shapes of a formula in which its facts are easily counted wrongly
//! - cases, damage: whole cases, within the rules, and aimed at the refusals 1 to 10
//! - densities, work: cases of few transitions or many, and the work on one of their entries, pair by pair
//! - judged: tables for judge, made from the rounds of a case, and what they are beside F of them
//! - buffers: buffers for write, and what has to stand in them afterwards
//! - desks, alterations: desks of any content, and desks altered from outside
//! - conversions: standings and answers of the one implementation in the types of the other, which the benchmark takes too
//! - calls, arguments: a call made of either implementation, and what it is made with
//! - promised: what demand 3 says of a desk that nothing but calls wrote, worked from its sentences
//! - lowerings: what is met of the count of lowerings
//! - comparison, counts, lists: both made and compared, what was met, and the lists
//!
//! KOELCHAIR_LISTS=number makes that many lists; of some thousands or fewer the rarest shapes may be missing, which the test reports. KOELCHAIR_SEED=number makes the one list of that seed, and prints every call and its answer
//! when the tests run with `-- --nocapture`.

pub mod alterations;
pub mod arguments;
pub mod buffers;
pub mod calls;
pub mod cases;
pub mod comparison;
pub mod conversions;
pub mod counts;
pub mod damage;
pub mod densities;
pub mod desks;
pub mod formulas;
pub mod generator;
pub mod judged;
pub mod lattices;
pub mod lists;
pub mod lowerings;
pub mod models;
pub mod non_lattices;
pub mod promised;
pub mod shapes;
pub mod work;

//! What is measured: the proved library, and the second implementation beside it. `former` has the third.

use compare::calls::{self, Call};
use compare::desks::Desk;
use koelchair::Standing;
use second::Reply;

/// An implementation of the calls.
pub trait Library {
    /// Its name in the tables.
    fn name(&self) -> &'static str;

    /// Whether it counts lowerings. One from before request 107 does not: its answers and standings have 0.
    fn counts_lowerings(&self) -> bool {
        true
    }

    /// Makes a call of a desk.
    fn call(&self, desk: &mut Desk, call: &Call) -> Given;

    /// Writes a desk's case into a buffer; nothing where the library has no such call.
    fn write(&self, desk: &Desk, out: &mut [u8]) -> Option<Reply>;

    /// What the program `report` prints for a case.
    fn listing(&self, case: &[u8]) -> String;
}

/// What a call gives. Of the table that is shown it is the length alone, so that no time goes on a copy.
pub enum Given {
    Reply(Reply),
    Shown(usize),
}

impl Given {
    /// The reply, from the desk that gave it.
    pub fn reply(self, desk: &Desk) -> Reply {
        match self {
            Given::Reply(reply) => reply,
            Given::Shown(length) => Reply::Shown(desk.whole()[..length].to_vec()),
        }
    }
}

pub struct Proved;

impl Library for Proved {
    fn name(&self) -> &'static str {
        "Proved"
    }

    fn call(&self, desk: &mut Desk, call: &Call) -> Given {
        match call {
            Call::Show => Given::Shown(desk.lent().show().len()),
            _ => Given::Reply(calls::proved(desk, call)),
        }
    }

    fn write(&self, desk: &Desk, out: &mut [u8]) -> Option<Reply> {
        Some(calls::proved_write(desk, out))
    }

    fn listing(&self, case: &[u8]) -> String {
        koelchair::listing(case)
    }
}

pub struct Second;

impl Library for Second {
    fn name(&self) -> &'static str {
        "Second"
    }

    fn call(&self, desk: &mut Desk, call: &Call) -> Given {
        Given::Reply(calls::by_second(desk, call))
    }

    fn write(&self, desk: &Desk, out: &mut [u8]) -> Option<Reply> {
        Some(calls::second_write(desk, out))
    }

    fn listing(&self, case: &[u8]) -> String {
        second::report(case)
    }
}

/// Puts the standing and the tables back; no call that is measured with this alters the store.
pub fn put_back(desk: &mut Desk, start: &Desk) {
    desk.standing = start.standing;
    desk.first.copy_from_slice(&start.first);
    desk.second.copy_from_slice(&start.second);
}

/// What is compared of a call beside the tables: the answer, and the standing after it. Without `counted` both are so without their counts of
/// lowerings.
pub fn compared(given: Given, desk: &Desk, counted: bool) -> (Reply, Standing) {
    let (reply, standing) = (given.reply(desk), desk.standing);
    let lowerings = 0;
    match counted {
        true => (reply, standing),
        false => (
            without_count(reply),
            Standing {
                lowerings,
                ..standing
            },
        ),
    }
}

/// A reply with a count of 0 where it has one.
fn without_count(reply: Reply) -> Reply {
    let lowerings = 0;
    match reply {
        Reply::Row { .. } => Reply::Row { lowerings },
        Reply::Round { round, .. } => Reply::Round { round, lowerings },
        Reply::Settled { round, .. } => Reply::Settled { round, lowerings },
        reply => reply,
    }
}

/// Stops unless both desks have the same tables. The layout of a store is each implementation's own.
pub fn assert_same_tables(proved: &Desk, other: &Desk) {
    assert!(proved.first == other.first, "the first tables differ");
    assert!(proved.second == other.second, "the second tables differ");
}

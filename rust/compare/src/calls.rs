//! A call as data, and the same call made of the proved library and of the second implementation. Rests on conversions and desks.

use crate::conversions;
use crate::desks::Desk;
use koelchair::{Element, State};
use second::Reply;

/// All calls except write; besides them `FinishRound`, which is as many steps as the round has rows left, and `Entry`, the work on one
/// entry. Write is a function of its own ([`proved_write`], [`second_write`]), since a buffer is lent to it.
#[derive(Clone, Debug)]
pub enum Call {
    Open(Vec<u8>),
    Step,
    FinishRound,
    Show,
    Value { formula: u8, model: u8, state: u8 },
    Whole { formula: u8, model: u8 },
    Score,
    Share(u8),
    Judge(Vec<u8>),
    Entry { q1: u8, q2: u8 },
}

/// The answer of the proved library, in the words of the second implementation.
pub fn proved(desk: &mut Desk, call: &Call) -> Reply {
    match call {
        Call::Open(case) => conversions::opened(desk.lent_mut().open(case)),
        Call::Step => conversions::stepped(desk.lent_mut().step()),
        Call::FinishRound => conversions::stepped(desk.lent_mut().finish_round()),
        Call::Show => {
            let shown = desk.lent().show();
            let itself = shown.is_empty() || shown.as_ptr() == desk.whole().as_ptr();
            assert!(itself, "show answers another table than the whole one");
            conversions::shown(shown)
        }
        &Call::Value {
            formula,
            model,
            state,
        } => conversions::formula_value(desk.lent().value(formula, model, State(state))),
        &Call::Whole { formula, model } => {
            conversions::formula_value(desk.lent().whole(formula, model))
        }
        Call::Score => conversions::element(desk.lent().score()),
        &Call::Share(e) => conversions::per_cent(desk.lent().share(Element(e))),
        Call::Judge(table) => conversions::says(desk.lent().judge(table)),
        &Call::Entry { q1, q2 } => {
            conversions::worked_entry(desk.lent().entry(State(q1), State(q2)))
        }
    }
}

/// The answer of the second implementation.
pub fn by_second(desk: &mut Desk, call: &Call) -> Reply {
    let mut standing = conversions::to_second(desk.standing);
    let Desk {
        store,
        first,
        second,
        ..
    } = desk;
    let reply = match call {
        Call::Open(case) => second::open(&mut standing, case, store, first, second),
        Call::Step => second::step(&mut standing, store, first, second),
        Call::FinishRound => loop {
            let reply = second::step(&mut standing, store, first, second);
            if !matches!(reply, Reply::Row { .. }) {
                break reply;
            }
        },
        Call::Show => second::show(&standing, store, first, second),
        &Call::Value {
            formula,
            model,
            state,
        } => second::value(&standing, store, first, second, formula, model, state),
        &Call::Whole { formula, model } => {
            second::whole(&standing, store, first, second, formula, model)
        }
        Call::Score => second::score(&standing, store, first, second),
        &Call::Share(e) => second::share(&standing, store, first, second, e),
        Call::Judge(table) => second::judge(&standing, store, first, second, table),
        &Call::Entry { q1, q2 } => second::entry(&standing, store, first, second, q1, q2),
    };
    desk.standing = conversions::to_proved(standing);
    reply
}

/// Write of the proved library, into a buffer.
pub fn proved_write(desk: &Desk, out: &mut [u8]) -> Reply {
    conversions::length(desk.lent().write_into(out))
}

/// Write of the second implementation.
pub fn second_write(desk: &Desk, out: &mut [u8]) -> Reply {
    let standing = conversions::to_second(desk.standing);
    second::write(&standing, &desk.store, &desk.first, &desk.second, out)
}

/// F of a table by the second implementation, where judge does not refuse the table.
pub fn f_of(desk: &Desk, table: &[u8]) -> Option<Vec<u8>> {
    let standing = conversions::to_second(desk.standing);
    second::f_of(&standing, &desk.store, &desk.first, &desk.second, table)
}

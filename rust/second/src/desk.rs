//! The calls on a desk, a standing, a store and two tables, the work on one entry, and F of a table. Rests on `case`, `formula`, `facts`, `rounds`,
//! `reply` and `standing`.

use crate::case::{self, Content, Refusal};
use crate::facts;
use crate::formula::{Formula, Valuer};
use crate::lattice::Element;
use crate::model::{Model, State};
use crate::reply::Reply;
use crate::rounds::{self, Entry, Table};
use crate::standing::Standing;

/// "a store of 24,576 bytes"; a longer one is accepted, and bytes past these are neither read nor written.
pub const STORE_LENGTH: usize = 24_576;

/// "two tables of 4,096"; longer ones are accepted.
pub const TABLE_LENGTH: usize = 4_096;

/// The reply to a call that may have been refused.
fn reply(result: Result<Reply, Refusal>) -> Reply {
    result.unwrap_or_else(|Refusal { number, part }| Reply::Refused { number, part })
}

/// "open takes a case, makes an unsettled desk at round 0 and next row 0, the first table whole, the first N1·N2 bytes of both tables
/// top, and replaces the former desk. It answers Opened." Request 107: "Open sets 0", the count of lowerings.
pub fn open(
    standing: &mut Standing,
    case: &[u8],
    store: &mut [u8],
    first: &mut [u8],
    second: &mut [u8],
) -> Reply {
    if let Err(refusal) = check_lengths(store, first, second) {
        return reply(Err(refusal));
    }
    let (parts, content) = match case::read(case) {
        Ok(read) => read,
        Err(refusal) => return reply(Err(refusal)),
    };
    let kept = case::gapless(&parts);
    store[..kept.len()].copy_from_slice(&kept);
    let entries = rounds::entries(&content);
    first[..entries].fill(content.lattice.top().byte());
    second[..entries].fill(content.lattice.top().byte());
    *standing = Standing {
        states1: content.model1.size(),
        states2: content.model2.size(),
        ..Standing::default()
    };
    Reply::Opened
}

/// "step works row q1 of the next round, for all q2, in the table that is not whole, and writes nothing else in either table."
/// "A settled desk answers Settled(T) again and is left unchanged."
pub fn step(standing: &mut Standing, store: &[u8], first: &mut [u8], second: &mut [u8]) -> Reply {
    let desk = match check(standing, store, first, second) {
        Ok(desk) => desk,
        Err(refusal) => return reply(Err(refusal)),
    };
    if standing.settled {
        return settled(standing);
    }
    let row = rounds::row(&desk.content, &desk.shown, desk.next);
    let changed = standing.changed || row != desk.shown[desk.next.place()];
    let other = if standing.second_whole {
        &mut *first
    } else {
        &mut *second
    };
    let start = desk.next.place() * row.len();
    for (byte, element) in other[start..].iter_mut().zip(row) {
        *byte = element.byte();
    }
    let entries = rounds::entries(&desk.content);
    move_on(
        standing,
        changed,
        differing(&first[..entries], &second[..entries]),
    )
}

/// How many entries of two tables differ.
fn differing(table: &[u8], other: &[u8]) -> u32 {
    let both = table.iter().zip(other);
    both.map(|(entry, other)| u32::from(entry != other)).sum()
}

/// The answer of a settled desk.
fn settled(standing: &Standing) -> Reply {
    Reply::Settled {
        round: standing.round,
        lowerings: standing.lowerings,
    }
}

/// The standing after a row was worked, and the answer: "It answers Row; after the last row the new table becomes the whole one, the
/// round goes up by 1, next row is 0, and the answer is Round(r), or Settled(T) when that round equals the one before". Request 107: "Rows
/// of an unfinished round don't count: at a round's last row the two tables are compared", of which `differing` entries differ; "Row, Round
/// and Settled carry it."
fn move_on(standing: &mut Standing, changed: bool, differing: u32) -> Reply {
    let row = standing.row.saturating_add(1);
    if row < standing.states1 {
        standing.row = row;
        standing.changed = changed;
        return Reply::Row {
            lowerings: standing.lowerings,
        };
    }
    standing.row = 0;
    standing.changed = false;
    standing.second_whole = !standing.second_whole;
    standing.round = standing.round.saturating_add(1);
    standing.settled = !changed;
    standing.lowerings += differing;
    if changed {
        Reply::Round {
            round: standing.round,
            lowerings: standing.lowerings,
        }
    } else {
        settled(standing)
    }
}

/// "show gives the first N1·N2 bytes of the whole table". "A refused show returns an empty part and no refusal number."
pub fn show(standing: &Standing, store: &[u8], first: &[u8], second: &[u8]) -> Reply {
    match check(standing, store, first, second) {
        Ok(desk) => {
            let entries = desk.shown.iter().flatten();
            Reply::Shown(entries.map(|element| element.byte()).collect())
        }
        Err(_) => Reply::Shown(Vec::new()),
    }
}

/// "Value and whole pass these three on with the element."
fn formula_value(formula: &Formula, element: Element) -> Reply {
    Reply::FormulaValue {
        element: element.byte(),
        facts: facts::of(formula),
    }
}

/// "value gives a formula's element at a state of model 1 or 2".
pub fn value(
    standing: &Standing,
    store: &[u8],
    first: &[u8],
    second: &[u8],
    formula: u8,
    model: u8,
    state: u8,
) -> Reply {
    reply(check(standing, store, first, second).and_then(|desk| {
        let formula = desk.formula(formula)?;
        let model = desk.model(model)?;
        let state = model.state(state).ok_or(OUT_OF_RANGE)?;
        let lattice = &desk.content.lattice;
        let element = Valuer { lattice, model }.at(formula, state);
        Ok(formula_value(formula, element))
    }))
}

/// "whole on a model": the value of a formula on the whole of model 1 or 2.
pub fn whole(
    standing: &Standing,
    store: &[u8],
    first: &[u8],
    second: &[u8],
    formula: u8,
    model: u8,
) -> Reply {
    reply(check(standing, store, first, second).and_then(|desk| {
        let formula = desk.formula(formula)?;
        let model = desk.model(model)?;
        let lattice = &desk.content.lattice;
        let element = Valuer { lattice, model }.whole(formula);
        Ok(formula_value(formula, element))
    }))
}

/// The score of the shown table.
pub fn score(standing: &Standing, store: &[u8], first: &[u8], second: &[u8]) -> Reply {
    reply(
        check(standing, store, first, second)
            .map(|desk| Reply::Element(rounds::score(&desk.content, &desk.shown).byte())),
    )
}

/// The share of the shown entries at or above an element.
pub fn share(standing: &Standing, store: &[u8], first: &[u8], second: &[u8], element: u8) -> Reply {
    reply(check(standing, store, first, second).and_then(|desk| {
        let element = desk.content.lattice.element(element).ok_or(OUT_OF_RANGE)?;
        let share = rounds::share(&desk.content, &desk.shown, element);
        Ok(Reply::PerCent(share))
    }))
}

/// "judge takes a table of N1·N2 elements", and since request 104 says yes exactly when it is sound: "Theorem 3 of source document 000 needs
/// only S at or below F(S) everywhere. Judge shall say yes exactly then."
pub fn judge(
    standing: &Standing,
    store: &[u8],
    first: &[u8],
    second: &[u8],
    table: &[u8],
) -> Reply {
    reply(check(standing, store, first, second).and_then(|desk| {
        let table = rounds::table(&desk.content, table).ok_or(OUT_OF_RANGE)?;
        Ok(Reply::Says(rounds::is_sound(&desk.content, &table)))
    }))
}

/// Request 105: "Write the desk's case into a lent buffer". "The answer is the length, and bytes past it are kept. The writing is refused
/// with 14, after 12, when the buffer is too short."
pub fn write(
    standing: &Standing,
    store: &[u8],
    first: &[u8],
    second: &[u8],
    out: &mut [u8],
) -> Reply {
    reply(check(standing, store, first, second).and_then(|desk| {
        let case = case::of_content(&desk.content);
        let front = out.get_mut(..case.len()).ok_or(Refusal::general(14))?;
        front.copy_from_slice(&case);
        Ok(Reply::Length(case.len()))
    }))
}

/// F of a table, or nothing where judge refuses it. It is none of the calls: by it a test knows which entries of the table are too
/// high, and which are lower than they could be.
pub fn f_of(
    standing: &Standing,
    store: &[u8],
    first: &[u8],
    second: &[u8],
    table: &[u8],
) -> Option<Vec<u8>> {
    let desk = check(standing, store, first, second).ok()?;
    let table = rounds::table(&desk.content, table)?;
    let f = rounds::f_of(&desk.content, &table);
    Some(f.iter().flatten().map(|element| element.byte()).collect())
}

/// Request 103: "working one entry of F ... also returns how many pairs (q1', q2') it looked at". Of the shown table, so that the element
/// is what the next round has there. It is none of the calls.
pub fn entry(
    standing: &Standing,
    store: &[u8],
    first: &[u8],
    second: &[u8],
    q1: u8,
    q2: u8,
) -> Reply {
    reply(check(standing, store, first, second).and_then(|desk| {
        let content = &desk.content;
        let entry = Entry {
            content,
            table: &desk.shown,
            q1: content.model1.state(q1).ok_or(OUT_OF_RANGE)?,
            q2: content.model2.state(q2).ok_or(OUT_OF_RANGE)?,
        };
        Ok(Reply::WorkedEntry {
            element: entry.element().byte(),
            pairs: entry.pairs(),
        })
    }))
}

/// "a formula, model, state or element in the call out of range, or judge's table of another length or with a byte not below n".
const OUT_OF_RANGE: Refusal = Refusal {
    number: 13,
    part: 255,
};

/// A desk that breaks no rule: what its store says, the whole table, and the next row.
struct Desk {
    content: Content,
    shown: Table,
    next: State,
}

impl Desk {
    /// The formula of a number, or refusal 13.
    fn formula(&self, number: u8) -> Result<&Formula, Refusal> {
        let formula = self.content.formulas.get(usize::from(number));
        formula.ok_or(OUT_OF_RANGE)
    }

    /// Model 1 or 2, or refusal 13.
    fn model(&self, number: u8) -> Result<&Model, Refusal> {
        match number {
            1 => Ok(&self.content.model1),
            2 => Ok(&self.content.model2),
            _ => Err(OUT_OF_RANGE),
        }
    }
}

/// Number 11: "the store or a table is shorter than above".
fn check_lengths(store: &[u8], first: &[u8], second: &[u8]) -> Result<(), Refusal> {
    if store.len() < STORE_LENGTH || first.len() < TABLE_LENGTH || second.len() < TABLE_LENGTH {
        return Err(Refusal::general(11));
    }
    Ok(())
}

/// The desk, or number 11 or 12. "Number 12 is given when, and only when, one of these is broken."
fn check(standing: &Standing, store: &[u8], first: &[u8], second: &[u8]) -> Result<Desk, Refusal> {
    check_lengths(store, first, second)?;
    intact(standing, store, first, second).ok_or(Refusal::general(12))
}

/// The desk of buffers that are long enough, where no rule of number 12 is broken.
fn intact(standing: &Standing, store: &[u8], first: &[u8], second: &[u8]) -> Option<Desk> {
    // "The store reads as a lattice, two models and formulas that open accepts, with the standing's sizes."
    let (_, content) = case::read(&store[..STORE_LENGTH]).ok()?;
    let sizes = (content.model1.size(), content.model2.size());
    if (standing.states1, standing.states2) != sizes {
        return None;
    }
    // "Next row is below N1".
    let next = content.model1.state(standing.row)?;
    if !standing.is_within_limits(&content) {
        return None;
    }
    // "The first N1·N2 bytes of both tables are below n."
    let entries = rounds::entries(&content);
    let first = rounds::table(&content, &first[..entries])?;
    let second = rounds::table(&content, &second[..entries])?;
    let shown = if standing.second_whole { second } else { first };
    Some(Desk {
        content,
        shown,
        next,
    })
}

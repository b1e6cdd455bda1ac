//! What write leaves in buffers of every length, by both implementations: of desks at several rounds and rows, with gaps in the store and
//! without, of both forms of the panel lattice, at the greatest sizes, and of desks that are refused. `Pair::write` holds each buffer
//! against the parts in the store, and opens what was written.

use compare::alterations;
use compare::buffers::Buffer;
use compare::calls::Call;
use compare::cases::{self, SMALL};
use compare::comparison::Pair;
use compare::counts::Counts;
use compare::densities::{Drawn, DENSITIES};
use compare::desks::{self, Desk, STORE_LENGTH, TABLE_LENGTH};
use compare::generator::Random;
use compare::lattices;
use koelchair::WRITTEN_MOST;
use second::Reply;
use std::io::Write;

/// How many random cases are written.
const CASES: u64 = 40;

fn refused(number: u8) -> Reply {
    Reply::Refused { number, part: 255 }
}

/// Opens a case and gives the desk.
fn opened(pair: &mut Pair, case: &[u8]) -> Desk {
    assert_eq!(pair.call(Call::Open(case.to_vec())), Ok(Reply::Opened));
    pair.desk().clone()
}

/// Has both write into a buffer of a length.
fn write(random: &mut Random, pair: &mut Pair, length: usize) -> Reply {
    let written = pair.write(&Buffer::of_length(random, length));
    written.unwrap_or_else(|difference| panic!("{difference}"))
}

/// Desks that read as the same case: as opened, a row later, some rounds later, settled, with any round and tables, and each of these
/// with gaps in the store.
fn alike(random: &mut Random, desk: &Desk, shape: cases::Shape) -> Vec<Desk> {
    let moved = |steps: usize| {
        let mut desk = desk.clone();
        for _ in 0..steps {
            desk.lent_mut().step().expect("a desk as opened");
        }
        desk
    };
    let settling = shape.states[0] * (shape.round_limit() as usize + 1);
    let mut any = desk.clone();
    alterations::any_place(random, &mut any, shape);
    let desks = [
        moved(0),
        moved(1),
        moved(2 * shape.states[0] + 1),
        moved(settling),
        any,
    ];
    let spread = desks.clone().map(|mut desk| {
        alterations::spread(random, &mut desk);
        desk
    });
    desks.into_iter().chain(spread).collect()
}

/// "Two desks with the same reading, the form of the lattice included, give the same bytes": into every buffer that is long enough for
/// these bytes, and into no other.
#[test]
fn writes_agree_at_every_length() {
    let mut counts = Counts::default();
    let mut pair = Pair::new(desks::zeroed(), &mut counts, false);
    let mut writes = 0;
    for seed in 0..CASES {
        let random = &mut Random::new(seed);
        let draft = cases::draft(random, SMALL);
        let case = cases::gapless(&draft.parts);
        let desk = opened(&mut pair, &draft.bytes(random));
        for desk in alike(random, &desk, draft.shape) {
            assert_eq!(desk.lent().write().as_ref(), Ok(&case), "seed {seed}");
            pair.put(desk);
            for length in 0..=case.len() + 2 {
                let reply = write(random, &mut pair, length);
                let fits = length >= case.len();
                let expected = if fits {
                    Reply::Length(case.len())
                } else {
                    refused(14)
                };
                assert_eq!(reply, expected, "{length} bytes, seed {seed}");
                writes += 1;
            }
        }
    }
    let text = format!("\nwrites compared: {writes}, of {CASES} cases\n");
    std::io::stdout()
        .write_all(text.as_bytes())
        .expect("standard output");
}

#[test]
fn both_forms_of_the_panel_lattice_are_kept() {
    let mut counts = Counts::default();
    let mut pair = Pair::new(desks::zeroed(), &mut counts, false);
    for (number, density) in DENSITIES.into_iter().enumerate() {
        let random = &mut Random::new(number as u64);
        let by_byte = Drawn::new(random, lattices::panel(), density, [3, 2]).bytes();
        let desk = opened(&mut pair, &by_byte);
        let mut parts = desk.parts().expect("a desk as opened");
        assert_eq!(parts[0], [0]);
        let ordered = lattices::panel().part();
        parts[0] = &ordered;
        let by_order = cases::gapless(&parts);
        assert_eq!(by_order.len(), by_byte.len() + 756);
        for case in [by_byte, by_order] {
            opened(&mut pair, &case);
            let length = Reply::Length(case.len());
            assert_eq!(write(random, &mut pair, case.len()), length);
            assert_eq!(pair.desk().lent().write(), Ok(case));
        }
    }
}

#[test]
fn writes_of_the_greatest_sizes_agree() {
    let mut counts = Counts::default();
    let mut pair = Pair::new(desks::zeroed(), &mut counts, false);
    let random = &mut Random::new(0);
    let case = cases::greatest_draft(random).bytes(random);
    let mut desk = opened(&mut pair, &case);
    for _ in 0..3 {
        assert_eq!(write(random, &mut pair, WRITTEN_MOST - 1), refused(14));
        // The low 16 bits of the last length say 0.
        for length in [WRITTEN_MOST, WRITTEN_MOST + 1, 65_536] {
            let written = write(random, &mut pair, length);
            assert_eq!(written, Reply::Length(WRITTEN_MOST));
        }
        alterations::spread(random, &mut desk);
        pair.put(desk.clone());
    }
}

/// 11 and 12 come before 14: they are given whether the buffer is long enough or not.
#[test]
fn refused_writes_agree_and_write_nothing() {
    let mut counts = Counts::default();
    let mut pair = Pair::new(desks::zeroed(), &mut counts, false);
    let random = &mut Random::new(0);
    let draft = cases::draft_of_states(random, SMALL, [3, 2]);
    let case = cases::gapless(&draft.parts);
    let desk = opened(&mut pair, &case);
    let mut assert_refused = |alter: fn(&mut Desk), number| {
        let mut altered = desk.clone();
        alter(&mut altered);
        pair.put(altered);
        for length in [0, 1, case.len() - 1, case.len(), WRITTEN_MOST] {
            let reply = write(random, &mut pair, length);
            assert_eq!(reply, refused(number), "{length} bytes");
        }
    };
    assert_refused(|desk| desk.store.truncate(STORE_LENGTH - 1), 11);
    assert_refused(|desk| desk.first.truncate(TABLE_LENGTH - 1), 11);
    assert_refused(|desk| desk.second.truncate(TABLE_LENGTH - 1), 11);
    assert_refused(|desk| desk.second.clear(), 11);
    assert_refused(|desk| desk.standing.states1 = 4, 12);
    assert_refused(|desk| desk.standing.row = 3, 12);
    assert_refused(|desk| desk.standing.changed = true, 12);
    assert_refused(|desk| desk.standing.settled = true, 12);
    assert_refused(|desk| desk.standing.round = u32::MAX, 12);
    assert_refused(|desk| desk.first[5] = 255, 12);
    assert_refused(|desk| desk.second[0] = 255, 12);
    assert_refused(|desk| desk.store[0] = 2, 12);
}

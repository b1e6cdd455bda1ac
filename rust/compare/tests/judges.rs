//! What judge says of tables made from the rounds of a case, by both implementations: over several lattices, for few transitions and many,
//! and for models that are nearly alike, with 1 to 64 states. `Pair::judge` holds each answer against F of the table, against how the table
//! was made, and against the greatest simulation. On the smallest cases every table is judged.

use compare::calls::Call;
use compare::cases::{self, SMALL};
use compare::comparison::Pair;
use compare::counts::Counts;
use compare::densities::{Drawn, DENSITIES};
use compare::desks;
use compare::generator::Random;
use compare::judged::{self, Judged, Origin, Rounds, ORIGINS};
use compare::lattices::{self, Lattice};
use compare::models;
use second::Reply;
use std::io::Write;

/// All pairs of these numbers of states are taken, each with every sort of lattice and every density.
const FEW_STATES: [usize; 4] = [1, 2, 3, 4];

/// Other pairs of numbers of states, each with every density: the ends of blocks of 16 words, numbers beside them, and the greatest.
const STATES: [[usize; 2]; 8] = [
    [1, 64],
    [64, 1],
    [15, 16],
    [16, 17],
    [17, 5],
    [5, 33],
    [31, 33],
    [33, 18],
];

/// How many tables of each origin are judged in a small case.
const TABLES: usize = 3;

/// A case of the density of a number. Model 2 is now and then nearly model 1, so that the greatest simulation is far from all bottom.
fn case(random: &mut Random, number: usize, lattice: Lattice, states: [usize; 2]) -> Vec<u8> {
    let mut case = Drawn::new(random, lattice, DENSITIES[number % 4], states);
    if states[0] == states[1] && random.one_in(2) {
        case.models[1] = models::near(random, &case.lattice, &case.models[0]);
    }
    case.bytes()
}

/// Opens a case and gives its rounds.
fn opened(pair: &mut Pair, case: Vec<u8>) -> Rounds {
    assert_eq!(pair.call(Call::Open(case)), Ok(Reply::Opened));
    Rounds::of(pair.desk()).expect("a desk as opened")
}

/// Judges so many tables of each origin that the case has; none may alter the desk.
fn judge_case(random: &mut Random, pair: &mut Pair, case: Vec<u8>, tables: usize) {
    let rounds = opened(pair, case);
    let desk = pair.desk().clone();
    for origin in ORIGINS {
        for _ in 0..tables {
            if let Some(table) = rounds.table(random, origin) {
                judge(pair, &rounds, origin, table);
            }
        }
    }
    assert!(pair.desk() == &desk, "the desk is altered");
}

fn judge(pair: &mut Pair, rounds: &Rounds, origin: Origin, table: Vec<u8>) -> bool {
    let judged = Judged {
        rounds: rounds.clone(),
        origin,
        table,
    };
    let said = pair.judge(&judged);
    said.unwrap_or_else(|difference| panic!("{difference}"))
}

#[test]
fn judges_agree() {
    let mut counts = Counts::default();
    let mut pair = Pair::new(desks::zeroed(), &mut counts, false);
    let few = FEW_STATES.map(|first| FEW_STATES.map(|second| [first, second]));
    let mut number = 0;
    for states in few.concat() {
        for _ in 0..4 * lattices::SORTS {
            let random = &mut Random::new(number as u64);
            let lattice = lattices::of_sort(random, number);
            let case = case(random, number / lattices::SORTS, lattice, states);
            judge_case(random, &mut pair, case, TABLES);
            number += 1;
        }
    }
    for states in STATES {
        for density in 0..DENSITIES.len() {
            let random = &mut Random::new(number as u64);
            let lattice = lattices::of_sort(random, number);
            let case = case(random, density, lattice, states);
            judge_case(random, &mut pair, case, 1);
            number += 1;
        }
    }
    let lines = judged::names().map(|name| format!("{name}: {}\n", counts.met(name)));
    let text = format!("\n{}", lines.collect::<String>());
    std::io::stdout()
        .write_all(text.as_bytes())
        .expect("standard output");
    let missing: Vec<_> = judged::names()
        .filter(|name| counts.met(name) == 0)
        .collect();
    assert!(missing.is_empty(), "never met: {missing:?}");
}

/// The greatest sizes, at which the second implementation takes a tenth of a second for a table.
#[test]
fn judges_of_the_greatest_sizes_agree() {
    let mut counts = Counts::default();
    let mut pair = Pair::new(desks::zeroed(), &mut counts, false);
    for (number, density) in [1, 2].into_iter().enumerate() {
        let random = &mut Random::new(number as u64);
        let lattice = lattices::panel();
        let case = case(random, density, lattice, [64, 64]);
        judge_case(random, &mut pair, case, 1);
    }
    let random = &mut Random::new(0);
    let case = cases::greatest_draft(random).bytes(random);
    let rounds = opened(&mut pair, case);
    for origin in [Origin::AllBottom, Origin::AllTop] {
        let table = rounds.table(random, origin).expect("of every case");
        judge(&mut pair, &rounds, origin, table);
    }
}

/// Every table of up to four entries over up to four elements, on small random cases: which pass is the same for both, and some pass that
/// are not tight.
#[test]
fn every_small_table() {
    let mut counts = Counts::default();
    let mut pair = Pair::new(desks::zeroed(), &mut counts, false);
    let (mut judged, mut passed) = (0, 0);
    for seed in 0..160 {
        let random = &mut Random::new(seed);
        let states = random.pick(&[[1, 1], [1, 3], [2, 1], [2, 2], [2, 2], [2, 2]]);
        let scale = cases::Scale {
            elements: 4,
            ..SMALL
        };
        let draft = cases::draft_of_states(random, scale, states);
        let (n, entries) = (draft.shape.elements, draft.shape.entries());
        if n.pow(entries as u32) > 256 {
            continue;
        }
        let rounds = opened(&mut pair, draft.bytes(random));
        for number in 0..n.pow(entries as u32) {
            let entry = |place| (number / n.pow(place) % n) as u8;
            let table = (0..entries as u32).map(entry).collect();
            judged += 1;
            passed += u32::from(judge(&mut pair, &rounds, Origin::AnyElements, table));
        }
    }
    let not_tight = counts.met(judged::ANY_NOT_TIGHT);
    let text = format!(
        "\nsmall tables judged: {judged}, of which {passed} pass, {not_tight} of these not tight\n"
    );
    std::io::stdout()
        .write_all(text.as_bytes())
        .expect("standard output");
    assert!(judged > 5_000 && u64::from(passed) > not_tight && not_tight > 1_000);
}

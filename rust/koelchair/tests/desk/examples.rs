//! Worked examples 1, 2, 4 and 6 of document 01 (the shares as of request 101), its listing, and the facts of formulas, by the desk that
//! owns its buffers and by the one that is lent them.

use crate::cases::{self, Lent};
use koelchair::{CoveredFrom, Desk, Element, FormulaFacts, FormulaValue, Sizes, State, StepAnswer};

/// The answers of all steps up to the settling one, each with the table shown after it. The desk and one that is lent
/// longer buffers with other content must give the same.
fn steps(case: &[u8]) -> Vec<(StepAnswer, Vec<u8>)> {
    let mut desk = Desk::open(case).expect("an accepted case");
    let mut lent = Lent::of(0xA5, 3);
    assert_eq!(lent.lent_mut().open(case), Ok(()));
    let mut seen = Vec::new();
    loop {
        assert_eq!(desk.standing(), lent.standing);
        assert_eq!(desk.show(), lent.lent().show());
        let answer = desk.step();
        assert_eq!(lent.lent_mut().step(), Ok(answer));
        seen.push((answer, desk.show().to_vec()));
        if let StepAnswer::Settled { .. } = answer {
            break;
        }
    }
    assert_kept_beyond(&lent);
    let standing = desk.standing();
    assert_eq!(desk.step(), seen[seen.len() - 1].0);
    assert_eq!(desk.standing(), standing);
    seen
}

/// The answer of a row that ends no round.
fn row(lowerings: u32) -> StepAnswer {
    StepAnswer::Row { lowerings }
}

/// The answer at a round's end.
fn round(round: u32, lowerings: u32) -> StepAnswer {
    StepAnswer::Round { round, lowerings }
}

/// The answer of a settled desk.
fn settled(round: u32, lowerings: u32) -> StepAnswer {
    StepAnswer::Settled { round, lowerings }
}

/// Bytes past N1·N2 of a table and past 24,576 of the store are as they were.
fn assert_kept_beyond(lent: &Lent) {
    let count = lent.lent().show().len();
    assert!(lent.first[count..].iter().all(|&byte| byte == 0xA5));
    assert!(lent.second[count..].iter().all(|&byte| byte == 0xA5));
    let beyond = &lent.store[koelchair::STORE_LENGTH..];
    assert!(beyond.iter().all(|&byte| byte == 0xA5));
}

/// The answer for a formula of this element and so many nested AX, without fixpoint and EX.
fn formula_value(element: u8, nesting: u8) -> FormulaValue {
    FormulaValue {
        element: Element(element),
        facts: FormulaFacts {
            nesting,
            fixpoint: false,
            ex: false,
        },
    }
}

#[test]
fn example_1() {
    let case = cases::example_1();
    let seen = steps(&case);
    assert_eq!(seen, [(round(1, 1), vec![1]), (settled(2, 1), vec![1])]);
    let mut desk = Desk::open(&case).unwrap();
    assert_eq!(desk.show(), [2]);
    assert_eq!(desk.settle(), 2);
    assert_eq!(desk.score(), Element(1));
    assert_eq!(desk.value(0, 1, State(0)), Ok(formula_value(1, 0)));
    assert_eq!(desk.whole(0, 2), Ok(formula_value(1, 0)));
    assert_eq!(desk.share(Element(1)), Ok(100));
    assert_eq!(desk.share(Element(2)), Ok(0));
    // The greatest simulation is 1, and 0 is sound without being a simulation.
    assert_eq!(
        [0, 1, 2].map(|e| desk.judge(&[e])),
        [Ok(true), Ok(true), Ok(false)]
    );
}

/// With p = 1 in both models F is 1 whatever the table, since the complement keeps 1; which elements pass is said by the order alone.
#[test]
fn judge_goes_by_the_order() {
    let subsets = |at_most: fn(u8, u8) -> bool| {
        let order = (0..4).flat_map(|i| (0..4).map(move |j| u8::from(at_most(i, j))));
        [vec![4, 3, 1, 2, 0], order.collect()].concat()
    };
    let model = [1, 1, 0, 1, 0];
    let judged = |lattice: Vec<u8>| {
        let desk = Desk::open(&cases::case(&[&lattice, &model, &model])).unwrap();
        [0, 1, 2, 3].map(|e| desk.judge(&[e]).unwrap())
    };
    // Bottom and 1 itself pass; 2 is not in order with 1, and 3 is top.
    assert_eq!(
        judged(subsets(|i, j| i & !j == 0)),
        [true, true, false, false]
    );
    // The same order reversed: 3 is bottom.
    assert_eq!(
        judged(subsets(|i, j| j & !i == 0)),
        [false, true, false, true]
    );
}

/// In both models 0 goes to 1 and 1 to itself, so that every entry of F is the entry (1, 1).
#[test]
fn judge_of_tables_lowered_at_some_entries() {
    let model = [2, 0, 1, 0, 0, 1, 0, 1];
    let mut desk = Desk::open(&cases::case(&[&cases::L2, &model, &model])).unwrap();
    desk.settle();
    assert_eq!(desk.show(), [1; 4]);
    for number in 0..16u8 {
        let table = [0, 1, 2, 3].map(|place| number >> place & 1);
        let sound = table[3] == 1 || table == [0; 4];
        assert_eq!(desk.judge(&table), Ok(sound), "{table:?}");
    }
}

#[test]
fn example_2() {
    assert_eq!(
        steps(&cases::example_2()),
        [(round(1, 1), vec![0]), (settled(2, 1), vec![0])]
    );
    assert_eq!(
        steps(&cases::example_2_exchanged()),
        [(settled(1, 0), vec![1])]
    );
}

#[test]
fn example_4() {
    let case = cases::example_4();
    let (round_0, round_1, round_2) = (vec![1; 4], vec![1, 0, 0, 0], vec![0; 4]);
    assert_eq!(
        steps(&case),
        [
            (row(0), round_0),
            (round(1, 3), round_1.clone()),
            (row(3), round_1),
            (round(2, 4), round_2.clone()),
            (row(4), round_2.clone()),
            (settled(3, 4), round_2),
        ]
    );
    let desk = Desk::open(&case).unwrap();
    assert_eq!(desk.value(0, 2, State(0)), Ok(formula_value(1, 1)));
    assert_eq!(desk.value(0, 1, State(0)), Ok(formula_value(0, 1)));
}

#[test]
fn example_4_lent() {
    let mut lent = Lent::opened(&cases::example_4());
    let desk = lent.lent();
    let value = |model| desk.value(0, model, State(0));
    assert_eq!(value(2), Ok(formula_value(1, 1)));
    assert_eq!(value(1), Ok(formula_value(0, 1)));
    let whole = |model| desk.whole(0, model);
    assert_eq!(whole(2), Ok(formula_value(1, 1)));
    assert_eq!(whole(1), Ok(formula_value(0, 1)));
    assert_eq!(desk.score(), Ok(Element(1)));
    assert_eq!(desk.judge(&[0; 4]), Ok(true));
    assert_eq!(desk.judge(&[1, 0, 0, 0]), Ok(false));
    assert_eq!(lent.lent_mut().shared().score(), Ok(Element(1)));
}

/// Formulas over propositions 0 to 10: their nested AX, whether a fixpoint and whether EX occurs.
const FACTS: [(&[u8], u8, bool, bool); 8] = [
    // p & AX (q | AX p)
    (&[6, 2, 0, 7, 5, 2, 1, 7, 2, 0], 2, false, false),
    // AX EX AX p
    (&[7, 8, 7, 2, 0], 2, false, true),
    // AX p | EX q
    (&[5, 7, 2, 0, 8, 2, 1], 1, false, true),
    // nu z. p & AX z, which is not unrolled
    (&[10, 6, 2, 0, 7, 4, 0], 1, true, false),
    // AX mu z. AX z
    (&[7, 9, 7, 4, 0], 2, true, false),
    // mu z. nu y. z, and EX in another branch
    (&[5, 9, 10, 4, 1, 8, 1], 0, true, true),
    // propositions 7 and 8, and the negated 9 and 10: operands, and no codes of AX, EX and fixpoints
    (&[6, 5, 2, 7, 2, 8, 5, 3, 9, 3, 10], 0, false, false),
    // p
    (&[2, 0], 0, false, false),
];

#[test]
fn facts_of_formulas() {
    let mut model = vec![1, 11];
    model.extend([1; 13]);
    let mut parts: Vec<&[u8]> = vec![&cases::L2, &model, &model];
    parts.extend(FACTS.iter().map(|(formula, ..)| *formula));
    let case = cases::case(&parts);
    let (desk, lent) = (Desk::open(&case).unwrap(), Lent::opened(&case));
    for (f, (formula, nesting, fixpoint, ex)) in (0..).zip(FACTS) {
        let facts = FormulaFacts {
            nesting,
            fixpoint,
            ex,
        };
        for model in [1, 2] {
            assert_eq!(desk.whole(f, model).unwrap().facts, facts, "{formula:?}");
            let value = lent.lent().value(f, model, State(0)).unwrap();
            assert_eq!(value.facts, facts, "{formula:?}");
            assert_eq!(lent.lent().whole(f, model).unwrap().facts, facts);
        }
    }
}

#[test]
fn the_deepest_nesting() {
    let mut formula = vec![7; 254];
    formula.push(1);
    let model: &[u8] = &[1, 0, 1, 1];
    let desk = Desk::open(&cases::case(&[&cases::L2, model, model, &formula])).unwrap();
    let facts = desk.whole(0, 1).unwrap().facts;
    assert_eq!(facts, formula_value(1, 254).facts);
    assert_eq!(facts.covered_from(), CoveredFrom::Round(255));
}

#[test]
fn example_6() {
    let one = cases::case(&[&cases::L1, &[1, 0, 0, 0], &[1, 0, 0, 0]]);
    assert_eq!(steps(&one), [(settled(1, 0), vec![0])]);
    for (ones, per_cent) in [0, 12, 25, 38, 50, 62, 75, 88, 100].into_iter().enumerate() {
        let mut desk = Desk::open(&cases::eighths(ones)).unwrap();
        desk.settle();
        assert_eq!(desk.share(Element(1)), Ok(per_cent), "{ones} in 8");
        let mut lent = Lent::opened(&cases::eighths(ones));
        while !lent.standing.settled {
            lent.lent_mut().step().unwrap();
        }
        let share = lent.lent().share(Element(1));
        assert_eq!(share, Ok(per_cent), "{ones} in 8");
    }
}

#[test]
fn what_a_desk_holds() {
    let desk = Desk::open(&cases::example_4()).unwrap();
    let held = Sizes {
        elements: 2,
        propositions: 1,
        states1: 2,
        states2: 2,
        formulas: 1,
    };
    assert_eq!(desk.sizes(), held);
    let eighths = Lent::opened(&cases::eighths(3));
    let held = Sizes {
        states1: 8,
        states2: 1,
        formulas: 0,
        ..held
    };
    assert_eq!(eighths.lent().sizes(), Ok(held));
}

#[test]
fn the_listing() {
    let case = cases::example_1();
    let lines = "rounds 2\nrow 0: 1\nscore 1\nformula 0: 1 1\n";
    assert_eq!(koelchair::listing(&case), lines);
    assert_eq!(koelchair::listing(&[]), "refused 1 255\n");
}

#[test]
fn a_desk_goes_to_another_thread() {
    let mut desk = Desk::open(&cases::example_4()).unwrap();
    let settled = std::thread::spawn(move || desk.settle());
    assert_eq!(settled.join().unwrap(), 3);
}

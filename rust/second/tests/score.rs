//! Request 106: "For the round shown, the score shall be at most 'not the whole value on model 2, joined with the whole value on model 1',
//! under the same conditions on the formula as for a pair." By hand on small cases, then for random ones over small lattices, in which
//! each condition is also seen to be needed.

mod common;

use common::sets::{Sets, CHAINS, LATTICES};
use common::{element, Desk, Numbers, L2, LOOP, STILL};
use second::{Facts, Reply, Standing};

/// A formula part, and its facts as a person reads them.
#[derive(Clone, Copy, Debug)]
struct Formula {
    part: &'static [u8],
    facts: Facts,
}

const fn formula(part: &'static [u8], nesting: u8, fixpoint: bool, ex: bool) -> Formula {
    let facts = Facts {
        nesting,
        fixpoint,
        ex,
    };
    Formula { part, facts }
}

const P: Formula = formula(&[2, 0], 0, false, false);
const NEXT_P: Formula = formula(&[7, 2, 0], 1, false, false);
const P_IN_TWO: Formula = formula(&[7, 7, 2, 0], 2, false, false);
const ALWAYS_P: Formula = formula(&[10, 6, 2, 0, 7, 4, 0], 1, true, false);

const FORMULAS: [Formula; 13] = [
    P,
    formula(&[3, 0], 0, false, false),
    NEXT_P,
    // p and AX not-p; AX (p or AX not-p).
    formula(&[6, 2, 0, 7, 3, 0], 1, false, false),
    P_IN_TWO,
    formula(&[7, 5, 2, 0, 7, 3, 0], 2, false, false),
    // The least z with p or z, which is p.
    formula(&[9, 5, 2, 0, 4, 0], 0, true, false),
    ALWAYS_P,
    // Not-p some time; p now and after every two steps.
    formula(&[9, 5, 3, 0, 7, 4, 0], 1, true, false),
    formula(&[10, 6, 2, 0, 7, 7, 4, 0], 2, true, false),
    // EX p; AX EX not-p; p some time on some way.
    formula(&[8, 2, 0], 0, false, true),
    formula(&[7, 8, 3, 0], 1, false, true),
    formula(&[9, 5, 2, 0, 8, 4, 0], 0, true, true),
];

/// How many formulas a case has.
const AT_ONCE: usize = 8;

/// How many cases are taken over a lattice.
const CASES: u32 = 400;

/// p along three states, which the student's last state lacks.
#[test]
fn a_difference_two_steps_on() {
    let student: &[u8] = &[3, 1, 1, 0, 0, 1, 1, 0, 0, 1, 0, 0, 0, 1, 0, 0, 0];
    let course: &[u8] = &[3, 1, 1, 0, 0, 1, 1, 1, 0, 1, 0, 0, 0, 1, 0, 0, 0];
    let [p, next_p, p_in_two, always_p] = [P, NEXT_P, P_IN_TWO, ALWAYS_P].map(|f| f.part);
    let mut desk = Desk::opened(&[L2, student, course, p, next_p, p_in_two, always_p]);
    let wholes = |model| [0, 1, 2, 3].map(|formula| element(desk.whole(formula, model)));
    // The bound is 1 for the first two and 0 for the others.
    assert_eq!((wholes(1), wholes(2)), ([1, 1, 0, 0], [1, 1, 1, 1]));
    let mut scores = vec![element(desk.score())];
    while !desk.standing.settled {
        if !matches!(desk.accepted_step(), Reply::Row { .. }) {
            scores.push(element(desk.score()));
        }
    }
    // Round 2 covers neither of the others, round 3 two nested AX, and the settled round 4 also the fixpoint.
    assert_eq!(scores, [1, 1, 1, 0, 0]);
}

/// The student stays where the course goes on: the score is 1. AX bottom holds in model 1 alone, EX top in model 2 alone.
#[test]
fn the_models_are_not_exchanged_and_ex_is_not_bounded() {
    let desk = Desk::settled(&[L2, STILL, LOOP, &[7, 0], &[8, 1]]);
    assert_eq!(desk.score(), Reply::Element(1));
    let wholes = |formula| [1, 2].map(|model| element(desk.whole(formula, model)));
    assert_eq!((wholes(0), wholes(1)), ([1, 0], [0, 1]));
}

/// A desk of two models with one proposition and some of the formulas.
struct Case<'a> {
    sets: &'a Sets,
    models: [Vec<u8>; 2],
    formulas: Vec<Formula>,
    desk: Desk,
}

impl<'a> Case<'a> {
    fn random(sets: &'a Sets, numbers: &mut Numbers) -> Case<'a> {
        let models = [(); 2].map(|()| sets.random_model(numbers));
        let first = numbers.below(FORMULAS.len() as u64) as usize;
        let formulas = FORMULAS.iter().cycle().skip(first).take(AT_ONCE);
        let formulas: Vec<Formula> = formulas.copied().collect();
        let lattice = sets.part();
        let mut parts = vec![&lattice[..], &models[0], &models[1]];
        parts.extend(formulas.iter().map(|formula| formula.part));
        let desk = Desk::opened(&parts);
        Case {
            sets,
            models,
            formulas,
            desk,
        }
    }

    /// The initial values of model 1 or 2.
    fn initial(&self, model: u8) -> &[u8] {
        let part = &self.models[usize::from(model) - 1];
        &part[2..][..usize::from(part[0])]
    }

    /// "the meet over q1 of Q0(q1) → the join over q2 of Q0(q2) met with the shown entry"; `over_q2` is the join.
    fn score(&self, over_q2: fn(&Sets, &[u8]) -> u8) -> u8 {
        let sets = self.sets;
        let table = self.desk.show();
        let rows = table.chunks(self.initial(2).len());
        let starts = self.initial(1).iter().zip(rows).map(|(&start, row)| {
            let pairs = self.initial(2).iter().zip(row);
            let followed: Vec<u8> = pairs.map(|(&q0, &entry)| sets.meet(q0, entry)).collect();
            sets.implies(start, over_q2(sets, &followed))
        });
        sets.meet_over(&starts.collect::<Vec<u8>>())
    }

    /// "A formula's value on a whole model is the meet over q of Q0(q) → value at q".
    fn whole(&self, formula: u8, model: u8) -> u8 {
        let starts = self.initial(model).iter().zip(0..).map(|(&start, state)| {
            let value = element(self.desk.value(formula, model, state));
            self.sets.implies(start, value)
        });
        self.sets.meet_over(&starts.collect::<Vec<u8>>())
    }

    /// The formulas' facts, and their values on models 1 and 2. Whole must answer these.
    fn wholes(&self) -> Vec<(Facts, [u8; 2])> {
        let formulas = self.formulas.iter().zip(0..);
        let wholes = formulas.map(|(&Formula { facts, .. }, number)| {
            let whole = |model| {
                let element = self.whole(number, model);
                let answer = Reply::FormulaValue { element, facts };
                assert_eq!(self.desk.whole(number, model), answer);
                element
            };
            (facts, [whole(1), whole(2)])
        });
        wholes.collect()
    }

    /// What is seen of each formula, after each step up to round T. Score must answer what its sentence says.
    fn seen(mut self) -> Vec<Seen<'a>> {
        let formulas = self.wholes();
        let mut all = Vec::new();
        loop {
            let score = self.score(Sets::join_over);
            assert_eq!(self.desk.score(), Reply::Element(score));
            let score_by_meets = self.score(Sets::meet_over);
            all.extend(formulas.iter().map(|&(facts, wholes)| Seen {
                sets: self.sets,
                facts,
                wholes,
                standing: self.desk.standing,
                score,
                score_by_meets,
            }));
            if self.desk.standing.settled {
                return all;
            }
            self.desk.accepted_step();
        }
    }
}

/// A formula with its values on models 1 and 2, and the score of a round.
#[derive(Debug)]
struct Seen<'a> {
    sets: &'a Sets,
    facts: Facts,
    wholes: [u8; 2],
    standing: Standing,
    score: u8,
    /// With a meet over q2 in place of the join.
    score_by_meets: u8,
}

impl Seen<'_> {
    /// The conditions of demand 3.
    fn covered(&self) -> bool {
        let early = !self.facts.fixpoint && self.fewer_than_round();
        !self.facts.ex && (self.standing.settled || early)
    }

    fn fewer_than_round(&self) -> bool {
        u32::from(self.facts.nesting) < self.standing.round
    }

    /// "not the whole value on model 2, joined with the whole value on model 1".
    fn bound(&self) -> u8 {
        self.sets.implies(self.wholes[1], self.wholes[0])
    }

    fn breaks_bound(&self) -> bool {
        !self.sets.at_most(self.score, self.bound())
    }

    fn breaks_exchanged_bound(&self) -> bool {
        let exchanged = self.sets.implies(self.wholes[0], self.wholes[1]);
        !self.sets.at_most(self.score, exchanged)
    }

    /// Covered, and the bound is not top.
    fn says_something(&self) -> bool {
        self.covered() && self.bound() != self.sets.top()
    }
}

/// A name, and what it stands for.
type Kind = (&'static str, fn(&Seen) -> bool);

/// What must be met over each lattice. Those after the fourth refute claims that are not the request's.
const TO_BE_MET: [Kind; 9] = [
    ("a bound before T that is not top", |seen| {
        seen.says_something() && !seen.standing.settled
    }),
    ("a bound of a fixpoint at T that is not top", |seen| {
        seen.says_something() && seen.facts.fixpoint
    }),
    ("a bound of T or more nested AX that is not top", |seen| {
        seen.says_something() && !seen.facts.fixpoint && !seen.fewer_than_round()
    }),
    ("a score that is its bound, which is not top", |seen| {
        seen.says_something() && seen.score == seen.bound()
    }),
    ("breaks the bound with the models exchanged", |seen| {
        seen.covered() && seen.breaks_exchanged_bound()
    }),
    ("breaks the bound of r nested AX, r not 0", |seen| {
        let Facts {
            nesting,
            fixpoint,
            ex,
        } = seen.facts;
        let as_many = u32::from(nesting) == seen.standing.round && nesting > 0;
        as_many && !fixpoint && !ex && !seen.standing.settled && seen.breaks_bound()
    }),
    (
        "breaks the bound of a fixpoint with fewer than r nested AX, before T",
        |seen| {
            let Facts { fixpoint, ex, .. } = seen.facts;
            let early = seen.fewer_than_round() && !seen.standing.settled;
            fixpoint && !ex && early && seen.breaks_bound()
        },
    ),
    ("breaks the bound of EX at T", |seen| {
        seen.facts.ex && seen.standing.settled && seen.breaks_bound()
    }),
    ("another score by a meet over q2", |seen| {
        seen.score != seen.score_by_meets
    }),
];

#[test]
fn random_cases() {
    for (number, sets) in LATTICES.iter().chain(&CHAINS).enumerate() {
        let mut numbers = Numbers(521_288_629 + number as u64);
        let mut met = TO_BE_MET.map(|(name, is)| (name, is, 0));
        for _ in 0..CASES {
            for seen in Case::random(sets, &mut numbers).seen() {
                assert!(!(seen.covered() && seen.breaks_bound()), "{seen:?}");
                for (_, is, times) in &mut met {
                    *times += u32::from(is(&seen));
                }
            }
        }
        for (name, _, times) in met {
            assert!(times > 0, "never met over {sets:?}: {name}");
        }
    }
}

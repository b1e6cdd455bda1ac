//! Request 106: the score of the round shown and the values of formulas on both whole models, by both implementations, on desks that
//! nothing but their calls moves on. Where the facts that the library answers say that the shown table covers a formula, the score must be
//! at or below 'not the whole value on model 2, joined with the whole value on model 1', in the lattice that the case was made with.

use compare::calls::Call;
use compare::cases::{self, Draft, LONG};
use compare::comparison::Pair;
use compare::counts::Counts;
use compare::desks;
use compare::generator::Random;
use compare::lattices::Lattice;
use koelchair::{FormulaFacts, Standing};
use second::{Facts, Reply};
use std::collections::BTreeMap;
use std::io::Write;

const CASES: u64 = 3_000;

const BEFORE_T: &str = "covered before T, the bound not top";
const HALF_WORKED: &str = "covered with some rows of the next round worked, the bound not top";
const FIXPOINT_AT_T: &str = "covered at T alone for its fixpoint, the bound not top";
const NESTED_AT_T: &str = "covered at T alone for its nested AX, the bound not top";
const EQUAL: &str = "covered, the score is the bound and not top";
const GREATER_NUMBER: &str = "covered, the score's number above the bound's";
const EXCHANGED: &str = "covered, the score not at or below the bound of the models exchanged";
const AS_MANY: &str = "not covered for r nested AX, the score not at or below the bound";
const EARLY_FIXPOINT: &str = "not covered for its fixpoint, the score not at or below the bound";
const EX: &str = "not covered at T for its EX, the score not at or below the bound";

/// All that must be met.
const KINDS: [&str; 10] = [
    BEFORE_T,
    HALF_WORKED,
    FIXPOINT_AT_T,
    NESTED_AT_T,
    EQUAL,
    GREATER_NUMBER,
    EXCHANGED,
    AS_MANY,
    EARLY_FIXPOINT,
    EX,
];

/// A formula's facts and its whole values beside the score of the round shown.
#[derive(Debug)]
struct Beside<'a> {
    lattice: &'a Lattice,
    standing: Standing,
    score: u8,
    facts: FormulaFacts,
    /// On models 1 and 2.
    wholes: [u8; 2],
}

impl Beside<'_> {
    fn covered(&self) -> bool {
        let Standing { round, settled, .. } = self.standing;
        self.facts.covered_in(round, settled)
    }

    /// 'not the whole value on model `from`, joined with the whole value on model `to`'.
    fn bound(&self, from: usize, to: usize) -> usize {
        let [from, to] = [from, to].map(|model| usize::from(self.wholes[model - 1]));
        self.lattice.join(self.lattice.complement[from], to)
    }

    fn at_most(&self, bound: usize) -> bool {
        self.lattice.at_most(self.score.into(), bound)
    }

    /// Which kinds are met; the score must be at or below the bound of a covered formula.
    fn kinds(&self) -> Vec<&'static str> {
        let bound = self.bound(2, 1);
        let kinds = match (self.covered(), self.at_most(bound)) {
            (true, true) => self.covered_kinds(bound),
            (true, false) => panic!("the bound is {bound}: {self:?}"),
            (false, true) => vec![],
            (false, false) => self.uncovered_kinds(),
        };
        let met = kinds.into_iter().filter(|(is, _)| *is);
        met.map(|(_, kind)| kind).collect()
    }

    /// What is met where a formula is covered, and whether it is.
    fn covered_kinds(&self, bound: usize) -> Vec<(bool, &'static str)> {
        let Standing {
            round,
            settled,
            row,
            ..
        } = self.standing;
        let FormulaFacts { fixpoint, .. } = self.facts;
        let says_something = bound != usize::from(self.lattice.top());
        let at_t_alone = says_something && !self.facts.covered_in(round, false);
        vec![
            (says_something && !settled, BEFORE_T),
            (says_something && row > 0, HALF_WORKED),
            (at_t_alone && fixpoint, FIXPOINT_AT_T),
            (at_t_alone && !fixpoint, NESTED_AT_T),
            (says_something && usize::from(self.score) == bound, EQUAL),
            (usize::from(self.score) > bound, GREATER_NUMBER),
            (!self.at_most(self.bound(1, 2)), EXCHANGED),
        ]
    }

    /// What is met where a formula is not covered and the score is not at or below the bound: each condition alone is missing.
    fn uncovered_kinds(&self) -> Vec<(bool, &'static str)> {
        let Standing { round, settled, .. } = self.standing;
        let FormulaFacts {
            nesting,
            fixpoint,
            ex,
        } = self.facts;
        let nesting = u32::from(nesting);
        vec![
            (!ex && !fixpoint && nesting == round && round > 0, AS_MANY),
            (!ex && fixpoint && nesting < round, EARLY_FIXPOINT),
            (ex && settled, EX),
        ]
    }
}

/// How often each kind was met.
type Met = BTreeMap<&'static str, u64>;

/// Makes a call of both.
fn call(pair: &mut Pair, call: Call) -> Reply {
    pair.call(call)
        .unwrap_or_else(|difference| panic!("{difference}"))
}

/// A formula's value on a whole model, and its facts.
fn whole(pair: &mut Pair, formula: u8, model: u8) -> (u8, FormulaFacts) {
    let reply = call(pair, Call::Whole { formula, model });
    let Reply::FormulaValue { element, facts } = reply else {
        panic!("whole answers {reply:?}");
    };
    let Facts {
        nesting,
        fixpoint,
        ex,
    } = facts;
    let facts = FormulaFacts {
        nesting,
        fixpoint,
        ex,
    };
    (element, facts)
}

/// Each formula of the case beside the score.
fn look(pair: &mut Pair, case: &Draft, met: &mut Met) {
    let Reply::Element(score) = call(pair, Call::Score) else {
        panic!("no score");
    };
    for formula in 0..case.shape.formulas as u8 {
        let [(whole1, facts), (whole2, _)] = [1, 2].map(|model| whole(pair, formula, model));
        let beside = Beside {
            lattice: &case.lattice,
            standing: pair.desk().standing,
            score,
            facts,
            wholes: [whole1, whole2],
        };
        for kind in beside.kinds() {
            *met.entry(kind).or_default() += 1;
        }
    }
}

/// Puts AX for every EX of a formula part. What follows the codes 2 to 4 is a number and no code.
fn put_ax_for_ex(part: &mut [u8]) {
    let mut place = 0;
    while place < part.len() {
        match part[place] {
            2..=4 => place += 2,
            8 => part[place] = 7,
            _ => place += 1,
        }
    }
}

/// A proposition or a negated one behind up to three AX; k is not 0.
fn ax_of_proposition(random: &mut Random, k: usize) -> Vec<u8> {
    let proposition = vec![random.between(2, 3) as u8, random.below(k) as u8];
    [vec![7; random.below(4)], proposition].concat()
}

/// A case, most of its formulas without EX.
fn case(random: &mut Random) -> Draft {
    let scale = match random.one_in(8) {
        true => LONG,
        false => cases::scale(random),
    };
    let mut draft = cases::draft(random, scale);
    let k = draft.propositions;
    for formula in &mut draft.parts[3..] {
        match random.below(4) {
            0 => (),
            1 if k > 0 => *formula = ax_of_proposition(random, k),
            _ => put_ax_for_ex(formula),
        }
    }
    draft
}

/// Looks at the desk as opened and after each call that moves it on, up to round T.
fn look_up_to_t(pair: &mut Pair, random: &mut Random, case: &Draft, met: &mut Met) {
    let opened = call(pair, Call::Open(case.bytes(random)));
    assert_eq!(opened, Reply::Opened);
    look(pair, case, met);
    while !pair.desk().standing.settled {
        let on = match random.one_in(3) {
            true => Call::Step,
            false => Call::FinishRound,
        };
        call(pair, on);
        look(pair, case, met);
    }
}

#[test]
fn scores_keep_the_bound() {
    let (mut counts, mut met) = (Counts::default(), Met::new());
    let mut pair = Pair::new(desks::zeroed(), &mut counts, false);
    for seed in 0..CASES {
        let random = &mut Random::new(seed);
        let case = case(random);
        look_up_to_t(&mut pair, random, &case, &mut met);
    }
    let times = |kind| met.get(kind).copied().unwrap_or(0);
    let lines = KINDS.map(|kind| format!("{kind}: {}\n", times(kind)));
    std::io::stdout()
        .write_all(format!("\n{}", lines.concat()).as_bytes())
        .expect("standard output");
    let missing: Vec<_> = KINDS.iter().filter(|kind| times(kind) == 0).collect();
    assert!(missing.is_empty(), "never met: {missing:?}");
}

//! How often each refusal, each answer, each fact of a formula, each sort of judged table, each sort of writing and each sort of count of
//! lowerings was met. Rests on calls, judged, shapes, buffers and lowerings.

use crate::buffers;
use crate::calls::Call;
use crate::judged;
use crate::lowerings;
use crate::shapes::{self, SHAPES};
use koelchair::Standing;
use second::{Facts, Reply};

const REFUSALS: [&str; 14] = [
    "refusal 1",
    "refusal 2",
    "refusal 3",
    "refusal 4",
    "refusal 5",
    "refusal 6",
    "refusal 7",
    "refusal 8",
    "refusal 9",
    "refusal 10",
    "refusal 11",
    "refusal 12",
    "refusal 13",
    "refusal 14",
];
const ANSWERS: [&str; 14] = [
    "Opened",
    "Row",
    "Round",
    "Settled",
    "Shown",
    "Shown empty",
    "Element",
    "FormulaValue",
    "PerCent",
    "Says yes",
    "Says no",
    "Length",
    "WorkedEntry",
    "WorkedEntry of no pairs",
];
const NO_AX: &str = "value or whole of a formula without AX";
const ONE_AX: &str = "value or whole of a formula with AX, none nested";
const NESTED_AX: &str = "value or whole of a formula with nested AX";
const FIXPOINT: &str = "value or whole of a formula with a fixpoint";
const NO_FIXPOINT: &str = "value or whole of a formula without a fixpoint";
const EX: &str = "value or whole of a formula with EX";
const NO_EX: &str = "value or whole of a formula without EX";
const FACTS: [&str; 7] = [NO_AX, ONE_AX, NESTED_AX, FIXPOINT, NO_FIXPOINT, EX, NO_EX];
const SETTLED_EARLY: &str = "desk settled at round 1 or 2";
const SETTLED_LATE: &str = "desk settled at a later round";
const SETTLED_AGAIN: &str = "settled desk stepped again";
const FINISHED: &str = "round finished in one call";
const FINISHED_HALF: &str = "half-worked round finished in one call";
const CALLS: &str = "calls";
const OTHERS: [&str; 6] = [
    SETTLED_EARLY,
    SETTLED_LATE,
    SETTLED_AGAIN,
    FINISHED,
    FINISHED_HALF,
    CALLS,
];

/// A number for each name, in the order of the lists above.
#[derive(Clone, Debug)]
pub struct Counts {
    met: Vec<(&'static str, u64)>,
}

impl Default for Counts {
    fn default() -> Counts {
        let answers = REFUSALS.iter().chain(&ANSWERS);
        let names = answers.chain(&FACTS).chain(&SHAPES).chain(&OTHERS).copied();
        Counts {
            met: names
                .chain(judged::names())
                .chain(buffers::NAMES)
                .chain(lowerings::NAMES)
                .map(|name| (name, 0))
                .collect(),
        }
    }
}

fn name(reply: &Reply) -> &'static str {
    match reply {
        Reply::Refused { number, .. } => REFUSALS[usize::from(*number) - 1],
        Reply::Opened => "Opened",
        Reply::Row { .. } => "Row",
        Reply::Round { .. } => "Round",
        Reply::Settled { .. } => "Settled",
        Reply::Shown(bytes) if bytes.is_empty() => "Shown empty",
        Reply::Shown(_) => "Shown",
        Reply::Element(_) => "Element",
        Reply::FormulaValue { .. } => "FormulaValue",
        Reply::PerCent(_) => "PerCent",
        Reply::Says(true) => "Says yes",
        Reply::Says(false) => "Says no",
        Reply::Length(_) => "Length",
        Reply::WorkedEntry { pairs: 0, .. } => "WorkedEntry of no pairs",
        Reply::WorkedEntry { .. } => "WorkedEntry",
    }
}

/// What a formula's facts are counted as.
fn facts(facts: &Facts) -> [&'static str; 3] {
    let nesting = match facts.nesting {
        0 => NO_AX,
        1 => ONE_AX,
        _ => NESTED_AX,
    };
    let fixpoint = if facts.fixpoint {
        FIXPOINT
    } else {
        NO_FIXPOINT
    };
    let ex = if facts.ex { EX } else { NO_EX };
    [nesting, fixpoint, ex]
}

fn settled(round: u32, before: bool) -> &'static str {
    match round {
        _ if before => SETTLED_AGAIN,
        0..=2 => SETTLED_EARLY,
        _ => SETTLED_LATE,
    }
}

impl Counts {
    fn add(&mut self, name: &str, times: u64) {
        let entry = self.met.iter_mut().find(|(other, _)| *other == name);
        entry.expect("a name of the lists above").1 += times;
    }

    /// Counts a call by its answer.
    pub fn reply(&mut self, reply: &Reply) {
        self.add(CALLS, 1);
        self.add(name(reply), 1);
    }

    /// Counts a call, its answer, whether it settled a desk or found it settled, and the rounds finished in one call.
    pub fn call(&mut self, call: &Call, reply: &Reply, before: &Standing) {
        self.reply(reply);
        if let (Call::Step | Call::FinishRound, &Reply::Settled { round, .. }) = (call, reply) {
            self.add(settled(round, before.settled), 1);
        }
        let ended = matches!(reply, Reply::Round { .. } | Reply::Settled { .. });
        let finished = ended && !before.settled;
        if matches!(call, Call::FinishRound) && finished {
            let half = before.row > 0;
            self.add(if half { FINISHED_HALF } else { FINISHED }, 1);
        }
    }

    /// Counts the facts of a formula that was valued, and the shapes of its part.
    pub fn formula(&mut self, part: &[u8], met: &Facts) {
        for name in facts(met).into_iter().chain(shapes::of(part)) {
            self.add(name, 1);
        }
    }

    /// Counts what came of a judged table, of a writing, or of a count of lowerings.
    pub fn all(&mut self, names: &[&'static str]) {
        for name in names {
            self.add(name, 1);
        }
    }

    pub fn merge(&mut self, other: &Counts) {
        for &(name, times) in &other.met {
            self.add(name, times);
        }
    }

    /// How often one of the names was met.
    pub fn met(&self, name: &str) -> u64 {
        let entry = self.met.iter().find(|(other, _)| *other == name);
        entry.expect("a name of the lists above").1
    }

    /// What was never met.
    pub fn missing(&self) -> Vec<&'static str> {
        let never = self.met.iter().filter(|(_, times)| *times == 0);
        never.map(|(name, _)| *name).collect()
    }

    /// A line for each name.
    pub fn lines(&self) -> String {
        let lines = self
            .met
            .iter()
            .map(|(name, times)| format!("{name}: {times}\n"));
        lines.collect()
    }
}

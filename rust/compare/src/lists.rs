//! The lists of calls. A list is fixed by its seed, which also says of which kind it is. Rests on all other files.

use crate::alterations;
use crate::arguments::{self, Question};
use crate::buffers::Buffer;
use crate::calls::Call;
use crate::cases::{self, Scale, Shape, LARGE, LONG, SMALL};
use crate::comparison::{Difference, Pair};
use crate::counts::Counts;
use crate::damage;
use crate::desks::{self, Desk};
use crate::generator::Random;
use second::Reply;

#[derive(Clone, Copy, PartialEq, Eq)]
enum Kind {
    /// All calls with any arguments, steps most often.
    AnyCalls,
    /// Cases aimed at the refusals 1 to 10, between other calls.
    RefusedCases,
    /// Steps until the desk is settled, and on.
    UntilSettled,
    /// Desks altered from outside, within the rules of 12 and beyond them.
    AlteredDesks,
    /// A desk as it is found: short, of zeros, or of any content.
    AnyDesk,
    /// A case near the greatest sizes or of just these, and few calls.
    LargeCase,
}

/// The kinds and how often each comes.
const KINDS: [(Kind, usize); 6] = [
    (Kind::AnyCalls, 180),
    (Kind::RefusedCases, 110),
    (Kind::UntilSettled, 70),
    (Kind::AlteredDesks, 80),
    (Kind::AnyDesk, 30),
    (Kind::LargeCase, 2),
];

/// Makes the list of this seed. With `print` every call and its answer is printed.
pub fn run(seed: u64, counts: &mut Counts, print: bool) -> Result<(), Difference> {
    let mut random = Random::new(seed);
    let (kind, _) = KINDS[random.weighted(&KINDS.map(|(_, weight)| weight))];
    let desk = first_desk(&mut random, kind);
    let scale = match kind {
        Kind::UntilSettled if random.one_in(8) => LONG,
        Kind::LargeCase => LARGE,
        _ => cases::scale(&mut random),
    };
    let mut list = List {
        random,
        pair: Pair::new(desk, counts, print),
        shape: Shape::default(),
        scale,
    };
    list.run(kind)
        .map_err(|difference| format!("list {seed}, {difference}"))
}

fn first_desk(random: &mut Random, kind: Kind) -> Desk {
    match kind {
        Kind::AnyDesk if random.one_in(8) => desks::zeroed(),
        Kind::AnyDesk if random.one_in(2) => desks::short(random),
        _ => desks::any(random),
    }
}

/// A list in the making.
struct List<'a> {
    random: Random,
    pair: Pair<'a>,
    /// The shape of the case that the desk was last opened with.
    shape: Shape,
    scale: Scale,
}

impl List<'_> {
    fn run(&mut self, kind: Kind) -> Result<(), Difference> {
        match kind {
            Kind::AnyCalls => self.any_calls(),
            Kind::RefusedCases => self.refused_cases(),
            Kind::UntilSettled => self.until_settled(),
            Kind::AlteredDesks => self.altered_desks(),
            Kind::AnyDesk => self.any_desk(),
            Kind::LargeCase => self.large_case(),
        }
    }

    fn any_calls(&mut self) -> Result<(), Difference> {
        let calls = self.random.pick(&[3, 10, 25, 60]);
        if self.random.one_in(8) {
            self.any_call()?;
        }
        self.open()?;
        for _ in 0..calls {
            let opens = if self.settled() { 40 } else { 2 };
            match self.random.weighted(&[60, 30, opens, 4, 2]) {
                0 => self.step()?,
                1 => self.question()?,
                2 => self.open()?,
                3 => self.open_damaged()?,
                _ => self.alter(alterations::within),
            }
        }
        Ok(())
    }

    fn refused_cases(&mut self) -> Result<(), Difference> {
        if self.random.one_in(2) {
            self.open()?;
        }
        for _ in 0..self.random.between(4, 10) {
            self.open_damaged()?;
            if self.random.one_in(3) {
                self.any_call()?;
            }
        }
        Ok(())
    }

    /// From round 0 as opened, where it must come to an end, or from a desk altered within the rules, where it need not.
    fn until_settled(&mut self) -> Result<(), Difference> {
        self.open()?;
        let altered = self.random.one_in(3);
        if altered {
            self.alter(alterations::within);
        }
        let most = self.shape.states[0] * (self.shape.round_limit() as usize + 1);
        for _ in 0..most {
            let reply = self.pair.call(Call::Step)?;
            if let Reply::Settled { .. } | Reply::Refused { .. } = reply {
                break;
            }
            if self.random.one_in(10) {
                self.question()?;
            }
        }
        if !altered && !self.settled() {
            return Err(format!("not settled after {most} steps"));
        }
        for _ in 0..self.random.between(1, 8) {
            self.step()?;
            self.question()?;
        }
        Ok(())
    }

    fn altered_desks(&mut self) -> Result<(), Difference> {
        if self.random.one_in(2) {
            self.open()?;
        } else {
            self.lay();
        }
        for _ in 0..self.random.between(3, 10) {
            let before = self.pair.desk().clone();
            match self.random.below(8) {
                0..=2 => self.alter(alterations::within),
                3..=6 => self.alter(alterations::beyond),
                _ => self.alter(|random, desk, shape| {
                    alterations::exchange_store(random, desk, SMALL, shape)
                }),
            }
            for _ in 0..self.random.between(1, 3) {
                self.step_or_question()?;
            }
            if self.random.one_in(2) {
                self.pair.put(before);
            }
        }
        Ok(())
    }

    fn any_desk(&mut self) -> Result<(), Difference> {
        for _ in 0..self.random.between(1, 12) {
            self.any_call()?;
        }
        Ok(())
    }

    fn large_case(&mut self) -> Result<(), Difference> {
        if self.random.one_in(3) {
            let case = cases::greatest_draft(&mut self.random).bytes(&mut self.random);
            self.open_case(case)?;
        } else {
            self.open()?;
        }
        self.write()?;
        if self.random.one_in(2) {
            // Lowerings may then be more than 16 bits hold.
            self.alter(alterations::any_place);
            self.step()?;
        }
        for _ in 0..4 {
            self.step_or_question()?;
        }
        Ok(())
    }

    // ---- calls

    fn any_call(&mut self) -> Result<(), Difference> {
        match self.random.below(10) {
            0..=1 => self.open(),
            2 => self.open_damaged(),
            _ => self.step_or_question(),
        }
    }

    fn step_or_question(&mut self) -> Result<(), Difference> {
        if self.random.one_in(3) {
            self.step()
        } else {
            self.question()
        }
    }

    /// A step, or the rest of the round in one call.
    fn step(&mut self) -> Result<(), Difference> {
        let call = if self.random.one_in(8) {
            Call::FinishRound
        } else {
            Call::Step
        };
        self.pair.call(call).map(drop)
    }

    fn question(&mut self) -> Result<(), Difference> {
        match arguments::question(&mut self.random, &self.shape, self.pair.desk()) {
            Question::Call(call) => self.pair.call(call).map(drop),
            Question::Judge(judged) => self.pair.judge(&judged).map(drop),
            Question::Write(buffer) => self.pair.write(&buffer).map(drop),
        }
    }

    /// Writes the case into any buffer.
    fn write(&mut self) -> Result<(), Difference> {
        let buffer = Buffer::random(&mut self.random, self.pair.desk());
        self.pair.write(&buffer).map(drop)
    }

    /// Opens with a case that is within the rules, which only a short desk refuses.
    fn open(&mut self) -> Result<(), Difference> {
        let case = cases::draft(&mut self.random, self.scale).bytes(&mut self.random);
        match self.open_case(case)? {
            Reply::Opened | Reply::Refused { number: 11, .. } => Ok(()),
            reply => Err(format!("a case within the rules is answered {reply:?}")),
        }
    }

    fn open_damaged(&mut self) -> Result<(), Difference> {
        let number = self.random.between(1, 10) as u8;
        let case = damage::damaged(&mut self.random, number);
        self.open_case(case).map(drop)
    }

    fn open_case(&mut self, case: Vec<u8>) -> Result<Reply, Difference> {
        let reply = self.pair.call(Call::Open(case))?;
        if reply == Reply::Opened {
            self.shape = desks::opened_shape(self.pair.desk());
        }
        Ok(reply)
    }

    // ---- the desk

    fn settled(&self) -> bool {
        self.pair.desk().standing.settled
    }

    /// Alters the desk from outside.
    fn alter(&mut self, how: impl Fn(&mut Random, &mut Desk, Shape)) {
        let mut desk = self.pair.desk().clone();
        how(&mut self.random, &mut desk, self.shape);
        self.pair.put(desk);
    }

    /// Writes the desk from outside.
    fn lay(&mut self) {
        let draft = cases::draft(&mut self.random, self.scale);
        let mut desk = self.pair.desk().clone();
        alterations::lay(&mut self.random, &mut desk, &draft);
        self.shape = draft.shape;
        self.pair.put(desk);
    }
}

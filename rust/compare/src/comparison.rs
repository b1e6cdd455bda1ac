//! Two desks with the same content, one for each implementation: every call is made of both, and all that they give and leave is
//! compared, with one another and with what demand 3 promises. Rests on calls, counts, desks, judged, buffers, promised and lowerings.

use crate::buffers::Buffer;
use crate::calls::{self, Call};
use crate::counts::Counts;
use crate::desks::{self, Desk};
use crate::generator::Random;
use crate::judged::{self, Judged, Soundness};
use crate::lowerings::Made;
use crate::promised::Promised;
use koelchair::Standing;
use second::Reply;

/// What differed, in words.
pub type Difference = String;

pub struct Pair<'a> {
    proved: Desk,
    second: Desk,
    /// What demand 3 promises of both; nothing before the first accepted open, and after an alteration from outside.
    promised: Option<Promised>,
    /// How many calls were made.
    place: usize,
    counts: &'a mut Counts,
    print: bool,
}

impl Pair<'_> {
    /// With `print` every call and its answer is printed.
    pub fn new(desk: Desk, counts: &mut Counts, print: bool) -> Pair<'_> {
        Pair {
            proved: desk.clone(),
            second: desk,
            promised: None,
            place: 0,
            counts,
            print,
        }
    }

    /// The desk, which is the same for both.
    pub fn desk(&self) -> &Desk {
        &self.proved
    }

    /// Puts a desk altered from outside in the place of both.
    pub fn put(&mut self, desk: Desk) {
        self.second = desk.clone();
        self.proved = desk;
        self.promised = None;
        if self.print {
            println!("  the desk is altered: {:?}", self.proved.standing);
        }
    }

    /// Makes a call of both.
    pub fn call(&mut self, call: Call) -> Result<Reply, Difference> {
        let before = self.proved.standing;
        let proved = calls::proved(&mut self.proved, &call);
        let second = calls::by_second(&mut self.second, &call);
        if self.print {
            println!("{}: {} answers {proved:?}", self.place, words(&call));
        }
        if proved != second || self.proved != self.second {
            return Err(self.difference(&words(&call), &proved, &second));
        }
        self.follow(&call, &proved)?;
        self.counts.call(&call, &proved, &before);
        let made = Made {
            call: &call,
            reply: &proved,
            before: &before,
            after: &self.proved,
            promised: self.promised.as_ref(),
        };
        self.counts.all(&made.met());
        if let (Some(formula), Reply::FormulaValue { facts, .. }) = (formula(&call), &proved) {
            self.counts.formula(self.proved.formula(formula), facts);
        }
        self.place += 1;
        Ok(proved)
    }

    /// Holds the answer and the desk against what demand 3 promises, from an accepted open on.
    fn follow(&mut self, call: &Call, reply: &Reply) -> Result<(), Difference> {
        if *reply == Reply::Opened {
            self.promised = Some(Promised::opened(&self.proved));
        }
        let Some(promised) = &mut self.promised else {
            return Ok(());
        };
        let after = promised.after(call, reply, &self.proved);
        after.map_err(|promise| format!("call {} {}: {promise}", self.place, words(call)))
    }

    /// Has both judge a table that was made from the rounds of the case which the desk holds, and gives what they say. It must be what F of
    /// the table says, and what can come of how the table was made; and a table that passes must lie at or below the greatest simulation.
    pub fn judge(&mut self, judged: &Judged) -> Result<bool, Difference> {
        let Judged {
            rounds,
            origin,
            table,
        } = judged;
        let reply = self.call(Call::Judge(table.clone()))?;
        let (Reply::Says(yes), Some(f)) = (&reply, calls::f_of(&self.second, table)) else {
            return Err(format!("a table of elements is answered {reply:?}"));
        };
        let soundness = rounds.soundness(table, &f);
        let greatest = rounds.greatest();
        let beyond = greatest.is_some_and(|greatest| !rounds.at_most(table, greatest));
        let outcome = judged::outcome(*origin, soundness);
        match outcome {
            Some(name) if *yes == (soundness != Soundness::TooHigh) && !(*yes && beyond) => {
                self.counts.all(&[name]);
                self.counts.all(&rounds.places(table, &f));
                Ok(*yes)
            }
            _ => Err(format!(
                "judge says {yes} of {table:?}, {origin:?}; F of it is {f:?}, the greatest simulation {greatest:?}"
            )),
        }
    }

    /// Has both write the case that the desk holds into a buffer, and gives what they answer. What is written is opened on another desk.
    pub fn write(&mut self, buffer: &Buffer) -> Result<Reply, Difference> {
        let (reply, after) = self.write_alone(buffer)?;
        self.counts.all(&buffer.met(&self.proved, &reply));
        if let Reply::Length(length) = reply {
            let opened = self.reopen(&after.bytes()[..length]);
            opened.map_err(|difference| format!("what was written is opened, {difference}"))?;
        }
        Ok(reply)
    }

    /// Has both write, and gives the buffer as they left it. It must be what the parts in the store say, and both desks must be unchanged.
    fn write_alone(&mut self, buffer: &Buffer) -> Result<(Reply, Buffer), Difference> {
        let before = self.proved.clone();
        let [mut ours, mut theirs] = [buffer.clone(), buffer.clone()];
        let proved = calls::proved_write(&self.proved, ours.lent());
        let second = calls::second_write(&self.second, theirs.lent());
        let call = format!("write into {} bytes", buffer.bytes().len());
        if self.print {
            println!("{}: {call} answers {proved:?}", self.place);
        }
        if proved != second || ours != theirs || self.proved != self.second {
            let text = self.difference(&call, &proved, &second);
            return Err(text + &first_difference("buffer", ours.bytes(), theirs.bytes()));
        }
        if buffer.after(&before, &proved).as_ref() != Some(&ours) || self.proved != before {
            return Err(format!(
                "call {} {call}: both answer {proved:?} and leave what must not be left",
                self.place
            ));
        }
        self.counts.reply(&proved);
        self.place += 1;
        Ok((proved, ours))
    }

    /// Opens what was written on a desk of zeros: both must make of it a desk of the same sizes at round 0, with both tables all top, and
    /// write the same bytes again.
    fn reopen(&mut self, written: &[u8]) -> Result<(), Difference> {
        let Standing {
            states1, states2, ..
        } = self.proved.standing;
        let entries = usize::from(states1) * usize::from(states2);
        let all_top = vec![self.proved.lattice().top(); entries];
        let mut pair = Pair::new(desks::zeroed(), self.counts, self.print);
        let open = Call::Open(written.to_vec());
        let text = words(&open);
        let replies = [pair.call(open)?, pair.call(Call::Show)?];
        let buffer = Buffer::of_length(&mut Random::new(0), written.len());
        let (_, again) = pair.write_alone(&buffer)?;
        let desk = pair.desk();
        let expected = Standing {
            states1,
            states2,
            ..Standing::default()
        };
        let holds = desk.standing == expected
            && desk.first.starts_with(&all_top)
            && desk.second.starts_with(&all_top)
            && replies == [Reply::Opened, Reply::Shown(all_top)]
            && again.bytes() == written;
        match holds {
            true => Ok(()),
            false => Err(format!("{text}: {replies:?}, {:?}", desk.standing)),
        }
    }

    fn difference(&self, call: &str, proved: &Reply, second: &Reply) -> Difference {
        let (ours, theirs) = (&self.proved, &self.second);
        let mut text = format!(
            "call {} {call}: the proved library answers {proved:?}, the second implementation {second:?}",
            self.place
        );
        if ours.standing != theirs.standing {
            text += &format!("; standings {:?} and {:?}", ours.standing, theirs.standing);
        }
        text += &first_difference("store", &ours.store, &theirs.store);
        text += &first_difference("first table", &ours.first, &theirs.first);
        text += &first_difference("second table", &ours.second, &theirs.second);
        text
    }
}

/// The first place at which two buffers differ, in words; nothing where they are the same.
fn first_difference(name: &str, proved: &[u8], second: &[u8]) -> String {
    match proved.iter().zip(second).position(|(a, b)| a != b) {
        Some(at) => format!("; {name} byte {at}: {} and {}", proved[at], second[at]),
        None => String::new(),
    }
}

/// The formula that a call asks for.
fn formula(call: &Call) -> Option<u8> {
    match *call {
        Call::Value { formula, .. } | Call::Whole { formula, .. } => Some(formula),
        _ => None,
    }
}

/// A call in a few words.
fn words(call: &Call) -> String {
    match call {
        Call::Open(case) if case.len() > 200 => {
            format!("Open of {} bytes that begin {:?}", case.len(), &case[..200])
        }
        call => format!("{call:?}"),
    }
}

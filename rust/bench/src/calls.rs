//! Each call and the whole report, measured on one case by the proved library and by another.

use crate::cases::Setting;
use crate::libraries::{assert_same_tables, compared, put_back, Given, Library, Proved};
use crate::measure::{in_turn, Side, Times};
use compare::calls::Call;
use compare::desks::{self, Desk};
use koelchair::State;
use second::Reply;

/// A case, and a desk of it for each of the two libraries.
pub struct Calls<'a> {
    setting: Setting,
    case: Vec<u8>,
    other: &'a dyn Library,
    proved_desk: Desk,
    other_desk: Desk,
    settled: Vec<u8>,
    rounds: u32,
}

impl<'a> Calls<'a> {
    /// Both desks as opened. The case is also settled once, for T and for the table that is judged.
    pub fn new(setting: Setting, other: &'a dyn Library) -> Calls<'a> {
        let case = setting.case();
        let mut settling = koelchair::Desk::open(&case).expect("an accepted case");
        let rounds = settling.settle();
        let opened = |library: &dyn Library| {
            let mut desk = desks::zeroed();
            let opened = library.call(&mut desk, &Call::Open(case.clone()));
            assert_eq!(opened.reply(&desk), Reply::Opened);
            desk
        };
        Calls {
            setting,
            other,
            proved_desk: opened(&Proved),
            other_desk: opened(other),
            settled: settling.show().to_vec(),
            rounds,
            case,
        }
    }

    /// Both desks so many rounds and rows after the opening; the proved library works them.
    pub fn at(mut self, round: u32, row: u8) -> Calls<'a> {
        assert!(round < self.rounds, "a case of too few rounds");
        let rounds = (0..round).map(|_| Call::FinishRound);
        for call in rounds.chain((0..row).map(|_| Call::Step)) {
            Proved.call(&mut self.proved_desk, &call);
        }
        let standing = self.proved_desk.standing;
        assert_eq!((standing.round, standing.row), (round, row));
        put_back(&mut self.other_desk, &self.proved_desk);
        self
    }

    /// T.
    pub fn rounds(&self) -> u32 {
        self.rounds
    }

    pub fn open(&self) -> Call {
        Call::Open(self.case.clone())
    }

    /// A formula at the last state of model 2.
    pub fn value(&self, formula: u8) -> Call {
        let state = self.setting.states2 - 1;
        Call::Value {
            formula,
            model: 2,
            state,
        }
    }

    /// A formula on model 2.
    pub fn whole(&self, formula: u8) -> Call {
        Call::Whole { formula, model: 2 }
    }

    /// The entries at or above the element in the middle of the numbers.
    pub fn share(&self) -> Call {
        Call::Share(self.setting.lattice.size() / 2)
    }

    /// The settled table, which passes, so that every row is looked at.
    pub fn judge(&self) -> Call {
        Call::Judge(self.settled.clone())
    }

    /// The settled table with its first entry raised to top, which is too high there. A library that holds out for equality says no too.
    pub fn judge_too_high(&self) -> Call {
        let opened = koelchair::Desk::open(&self.case).expect("an accepted case");
        let top = opened.show()[0];
        let mut table = self.settled.clone();
        table[0] = top;
        assert!(
            self.first_of_f(&table) != top,
            "top at the first entry: another seed"
        );
        Call::Judge(table)
    }

    /// Measures a call. Every sample begins with the standing and tables of the case's desk. Within a sample the standing is put back
    /// before each call, so that a step works the same row from the same whole table again.
    pub fn measure(&self, repeat: usize, call: &Call) -> Times {
        let proved = side(&Proved, &self.proved_desk, call);
        let other = side(self.other, &self.other_desk, call);
        let counted = self.other.counts_lowerings();
        in_turn(repeat, proved, other, |ours, given, theirs, also| {
            let (ours_seen, theirs_seen) = (
                compared(given, ours, counted),
                compared(also, theirs, counted),
            );
            assert_eq!(ours_seen, theirs_seen);
            assert_same_tables(ours, theirs);
        })
    }

    /// Measures how the desk's case, which has no gaps, is written into a buffer of its length; nothing where the other library has no such
    /// call.
    pub fn write(&self, repeat: usize) -> Option<Times> {
        let mut out = vec![0; self.case.len()];
        self.other.write(&self.other_desk, &mut out)?;
        let proved = write_side(&Proved, &self.proved_desk, out.len());
        let other = write_side(self.other, &self.other_desk, out.len());
        let times = in_turn(repeat, proved, other, |ours, given, theirs, also| {
            assert_eq!(given, also);
            assert!(ours == theirs, "what is written differs");
        });
        Some(times)
    }

    /// The medians of the proved library's check, which is all that show does, and of its step, in nanoseconds. They take turns, so that
    /// their difference, the row, is not that of the machine's speed.
    pub fn check_and_step(&self, repeat: usize) -> (f64, f64) {
        let show = side(&Proved, &self.proved_desk, &Call::Show);
        let step = side(&Proved, &self.proved_desk, &Call::Step);
        let times = in_turn(repeat, show, step, |_, _, _, _| {});
        (times.proved, times.other)
    }

    /// Measures the way from the bytes of the case to the listing.
    pub fn report(&self, repeat: usize) -> Times {
        let proved = report_side(&Proved, &self.case);
        let other = report_side(self.other, &self.case);
        in_turn(repeat, proved, other, |_, ours, _, theirs| {
            assert!(ours == theirs, "the listings differ");
        })
    }

    /// Entry (0, 0) of F of a table, by the proved library.
    fn first_of_f(&self, table: &[u8]) -> u8 {
        let mut desk = self.proved_desk.clone();
        let second = desk.standing.second_whole;
        desk.table(second)[..table.len()].copy_from_slice(table);
        let entry = desk.lent().entry(State(0), State(0));
        entry.expect("two states").value.0
    }

    /// The mean of the pairs that are looked at for an entry of a row of the next round, and of all its rows.
    pub fn pairs(&self, row: u8) -> (f64, f64) {
        let (states1, states2) = (self.setting.states1, self.setting.states2);
        let desk = self.proved_desk.lent();
        let pairs = |q1, q2| {
            let entry = desk.entry(State(q1), State(q2)).expect("two states");
            f64::from(entry.pairs)
        };
        let of_row = |q1| (0..states2).map(|q2| pairs(q1, q2)).sum::<f64>() / f64::from(states2);
        let of_all = (0..states1).map(of_row).sum::<f64>() / f64::from(states1);
        (of_row(row), of_all)
    }
}

/// A call of a library on a desk that begins as this one.
fn side<'a>(
    library: &'a dyn Library,
    start: &'a Desk,
    call: &'a Call,
) -> Side<Desk, impl Fn(&mut Desk) + 'a, impl Fn(&mut Desk) -> Given + 'a> {
    Side {
        desk: start.clone(),
        restore: |desk: &mut Desk| put_back(desk, start),
        call: |desk: &mut Desk| {
            desk.standing = start.standing;
            library.call(desk, call)
        },
    }
}

/// What write writes into.
type Buffer = Vec<u8>;

/// A library's write on this desk, into a buffer of so many bytes; the buffer is what is put back.
fn write_side<'a>(
    library: &'a dyn Library,
    desk: &'a Desk,
    length: usize,
) -> Side<Buffer, impl Fn(&mut Buffer), impl Fn(&mut Buffer) -> Option<Reply> + 'a> {
    Side {
        desk: vec![0; length],
        restore: |out: &mut Buffer| out.fill(0),
        call: |out: &mut Buffer| library.write(desk, out),
    }
}

/// A library's listing of a case.
fn report_side<'a>(
    library: &'a dyn Library,
    case: &'a [u8],
) -> Side<(), impl Fn(&mut ()) + 'a, impl Fn(&mut ()) -> String + 'a> {
    Side {
        desk: (),
        restore: |_: &mut ()| {},
        call: |_: &mut ()| library.listing(case),
    }
}

#[cfg(test)]
pub mod tests {
    use super::*;
    use crate::cases::{Drawing, Lattice, FIXPOINTS, NESTED};
    use crate::libraries::Second;

    pub fn calls(other: &dyn Library) -> Calls<'_> {
        let setting = Setting {
            lattice: Lattice::Chain(5),
            states1: 4,
            states2: 3,
            drawing: Drawing::Usual,
            seed: 1,
        };
        Calls::new(setting, other).at(1, 2)
    }

    /// A call that is answered differently stops the test, as it stops the benchmark.
    pub fn assert_alike(other: &dyn Library) {
        let calls = calls(other);
        for call in [
            calls.open(),
            Call::Step,
            Call::FinishRound,
            Call::Show,
            calls.value(NESTED),
            calls.whole(FIXPOINTS),
            Call::Score,
            calls.share(),
            calls.judge(),
            calls.judge_too_high(),
        ] {
            let times = calls.measure(1, &call);
            assert!(times.proved > 0.0 && times.other > 0.0, "{call:?}");
        }
        let written = calls.write(1).expect("a library that writes");
        assert!(written.proved > 0.0 && written.other > 0.0);
        assert!(calls.report(1).proved > 0.0);
    }

    #[test]
    fn what_judge_says() {
        let calls = calls(&Second);
        let says = |call| {
            let mut desk = calls.proved_desk.clone();
            Proved.call(&mut desk, &call).reply(&desk)
        };
        assert_eq!(says(calls.judge()), Reply::Says(true));
        assert_eq!(says(calls.judge_too_high()), Reply::Says(false));
    }

    #[test]
    fn second_answers_alike() {
        assert_alike(&Second);
    }

    #[test]
    #[should_panic(expected = "the first tables differ")]
    fn another_table_is_seen() {
        let mut calls = calls(&Second);
        calls.other_desk.first[0] ^= 1;
        calls.measure(1, &Call::Step);
    }

    /// The last formula's last byte, which is a proposition, is another one in the other desk.
    #[test]
    #[should_panic(expected = "what is written differs")]
    fn other_bytes_are_seen() {
        let mut calls = calls(&Second);
        calls.other_desk.store[calls.case.len() - 1] ^= 1;
        calls.write(1);
    }

    /// No pair is left out where nothing ends early.
    #[test]
    fn pairs_of_dense_drawings() {
        for lattice in [Lattice::Panel, Lattice::Chain(64), Lattice::PowerSet(6)] {
            let setting = Setting {
                lattice,
                states1: 5,
                states2: 7,
                drawing: Drawing::Dense,
                seed: 1,
            };
            let calls = Calls::new(setting, &Second);
            let last = calls.rounds() - 1;
            assert_eq!(calls.pairs(2), (35.0, 35.0));
            assert_eq!(calls.at(last, 0).pairs(2), (35.0, 35.0));
        }
    }
}

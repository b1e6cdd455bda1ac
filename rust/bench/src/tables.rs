//! The tables that are printed: the calls, what a call spends on the check of its desk, how a step grows, and how it goes by the density of
//! the drawings.

use crate::calls::Calls;
use crate::cases::{Drawing, Lattice, Setting, FIXPOINTS, NESTED};
use crate::libraries::Library;
use crate::measure::Times;
use crate::Options;
use compare::calls::Call;

/// The seed of all values.
const SEED: u64 = 1;

/// The sizes of the calls' table, from the smallest to the largest; both models have so many states.
const SIZES: [(Lattice, u8); 7] = [
    (Lattice::Chain(3), 2),
    (Lattice::Panel, 16),
    (Lattice::Panel, 64),
    (Lattice::Chain(64), 16),
    (Lattice::Chain(64), 64),
    (Lattice::PowerSet(6), 16),
    (Lattice::PowerSet(6), 64),
];

/// What is measured in a row of the calls' table.
enum Work {
    Call(Call),
    /// A step of the last row, at which the two tables are compared.
    LastRow,
    Write,
    Report,
}

/// Its name, and what it is on a case.
type Named = (&'static str, fn(&Calls) -> Work);

/// The calls in the order of the table.
const CALLS: [Named; 13] = [
    ("open", |calls| Work::Call(calls.open())),
    ("step", |_| Work::Call(Call::Step)),
    ("step, last row", |_| Work::LastRow),
    ("show", |_| Work::Call(Call::Show)),
    ("value, AX EX AX", |calls| Work::Call(calls.value(NESTED))),
    ("value, three fixpoints", |c| Work::Call(c.value(FIXPOINTS))),
    ("whole, three fixpoints", |c| Work::Call(c.whole(FIXPOINTS))),
    ("score", |_| Work::Call(Call::Score)),
    ("share", |calls| Work::Call(calls.share())),
    ("judge", |calls| Work::Call(calls.judge())),
    ("judge, no at the first entry", |calls| {
        Work::Call(calls.judge_too_high())
    }),
    ("write", |_| Work::Write),
    ("report", |_| Work::Report),
];

/// Prints all tables, or the rows of them that are asked for, with the proved library and another.
pub fn print(options: &Options, other: &dyn Library) {
    let name = other.name();
    let counts = match other.counts_lowerings() {
        true => "",
        false => " Counts of lowerings, which the other side has not, were left out of it.",
    };
    println!(
        "Medians of up to {} samples of each side, which take turns: proved, {lower}, proved, {lower}, and so on. A sample repeats its call \
         for about 0.4 ms or makes it once, and its time is that of one call. *{name} / proved* is the other side's median as a \
         multiple of the proved one's: above 1 the proved one is the faster, so many times. Half of the ratios of two samples that \
         follow one another are within the *middle half*. After each two samples the answers, the standings, the tables and what \
         write wrote were compared, and were equal.{counts}\n",
        options.repeat,
        lower = name.to_lowercase(),
    );
    let checks = print_calls(options, other);
    print_checks(&checks, name);
    print_growth(options, other);
    print_densities(options, other);
}

// ---- the calls

/// The times of a desk's check, measured by show, and of a step.
struct Check {
    lattice: Lattice,
    states: u8,
    show: Times,
    step: Times,
}

/// Prints the table of calls; gives the rows of the next table.
fn print_calls(options: &Options, other: &dyn Library) -> Vec<Check> {
    let sizes = SIZES.map(|(lattice, states)| (lattice, states, wanted(options, lattice, states)));
    if sizes.iter().all(|(_, _, calls)| calls.is_empty()) {
        return Vec::new();
    }
    let name = other.name();
    println!("| Lattice, elements | States | Call | Proved, µs | {name}, µs | {name} / proved | Middle half | Samples |");
    println!("|---|---|---|---|---|---|---|---|");
    let checks = sizes
        .into_iter()
        .filter(|(_, _, calls)| !calls.is_empty())
        .filter_map(|(lattice, states, wanted)| {
            let setting = square(lattice, states, Drawing::Usual);
            print_size(options.repeat, setting, other, &wanted)
        })
        .collect();
    println!();
    checks
}

/// The calls that are asked for at this size.
fn wanted(options: &Options, lattice: Lattice, states: u8) -> Vec<Named> {
    CALLS
        .into_iter()
        .filter(|(call, _)| options.wants(&format!("{lattice}; {states}; {call}")))
        .collect()
}

/// Models of so many states each.
fn square(lattice: Lattice, states: u8, drawing: Drawing) -> Setting {
    Setting {
        lattice,
        states1: states,
        states2: states,
        drawing,
        seed: SEED,
    }
}

/// The calls in the middle of the second round, next row N1/2.
fn halfway(setting: Setting, other: &dyn Library) -> Calls<'_> {
    at_row(setting, other, setting.states1 / 2)
}

/// The calls in the second round, at this row.
fn at_row(setting: Setting, other: &dyn Library, row: u8) -> Calls<'_> {
    let calls = Calls::new(setting, other);
    assert!(calls.rounds() > 2, "a case of too few rounds: another seed");
    calls.at(1, row)
}

/// Prints the rows of one size; gives the times of show and step where both are among them.
fn print_size(
    repeat: usize,
    setting: Setting,
    other: &dyn Library,
    wanted: &[Named],
) -> Option<Check> {
    let (lattice, states) = (setting.lattice, setting.states1);
    let calls = halfway(setting, other);
    let (mut show, mut step) = (None, None);
    for &(name, work) in wanted {
        let measured = match work(&calls) {
            Work::Call(call) => Some(calls.measure(repeat, &call)),
            Work::LastRow => Some(at_row(setting, other, states - 1).measure(repeat, &Call::Step)),
            Work::Write => calls.write(repeat),
            Work::Report => Some(calls.report(repeat)),
        };
        let Some(times) = measured else {
            continue;
        };
        print!("| {lattice} | {states} | {name}");
        match name {
            "report" => print!(", {} rounds", calls.rounds()),
            "show" => show = Some(times),
            "step" => step = Some(times),
            _ => {}
        }
        println!(" | {} |", columns(&times));
    }
    Some(Check {
        lattice,
        states,
        show: show?,
        step: step?,
    })
}

// ---- the check of the desk

fn print_checks(checks: &[Check], other: &str) {
    if checks.is_empty() {
        return;
    }
    println!(
        "Every call but open begins with the check of its desk: the store is read as a case and its lattice's codes are worked out anew, then \
         the standing and both tables are looked at. show does this and nothing else (that of the second implementation also copies the table), \
         so its time is taken for the check's, and the rest of a step is the row.\n"
    );
    println!(
        "| Lattice, elements | States | Check, proved, µs | Step, proved, µs | Check's share of a step, proved | The same, {} |",
        other.to_lowercase()
    );
    println!("|---|---|---|---|---|---|");
    for check in checks {
        println!(
            "| {} | {} | {} | {} | {} | {} |",
            check.lattice,
            check.states,
            micros(check.show.proved),
            micros(check.step.proved),
            per_cent(check.show.proved, check.step.proved),
            per_cent(check.show.other, check.step.other)
        );
    }
    println!();
}

// ---- the growth of a step

/// N1, N2 and n of each row: N1 grows and the others stay, then N2, then n, then N1 and N2.
const GROWTH: [(u8, u8, u8); 17] = [
    (8, 16, 16),
    (16, 16, 16),
    (32, 16, 16),
    (64, 16, 16),
    (16, 8, 16),
    (16, 16, 16),
    (16, 32, 16),
    (16, 64, 16),
    (16, 16, 4),
    (16, 16, 8),
    (16, 16, 16),
    (16, 16, 32),
    (16, 16, 64),
    (8, 8, 16),
    (16, 16, 16),
    (32, 32, 16),
    (64, 64, 16),
];

/// Prints how the check and the row of a step grow with each size, on chains.
fn print_growth(options: &Options, other: &dyn Library) {
    let rows = GROWTH.map(|sizes| (sizes, format!("growth; {sizes:?}")));
    if !rows.iter().any(|(_, name)| options.wants(name)) {
        return;
    }
    println!(
        "How a step grows, on chains of n elements: first with N1 alone, then with N2, then with n, the others being 16, then with both \
         models. The row is what a step takes beyond the check, the difference of the medians of show and of step by turns.\n"
    );
    println!(
        "| N1 | N2 | n | Step, proved, µs | Step, {}, µs | {} / proved | Check, proved, µs | Row, proved, µs |",
        other.name().to_lowercase(),
        other.name()
    );
    println!("|---|---|---|---|---|---|---|---|");
    for ((states1, states2, size), name) in rows {
        if !options.wants(&name) {
            continue;
        }
        let setting = Setting {
            lattice: Lattice::Chain(size),
            states1,
            states2,
            drawing: Drawing::Usual,
            seed: SEED,
        };
        let calls = halfway(setting, other);
        let step = calls.measure(options.repeat, &Call::Step);
        let (check, beside) = calls.check_and_step(options.repeat);
        println!(
            "| {states1} | {states2} | {size} | {} | {} | {:.2} | {} | {} |",
            micros(step.proved),
            micros(step.other),
            step.ratio(),
            micros(check),
            micros(beside - check)
        );
    }
    println!();
}

// ---- the density of the drawings

/// The lattices and the drawings of the table; both models have so many states.
const DENSE_LATTICES: [Lattice; 3] = [Lattice::Panel, Lattice::Chain(64), Lattice::PowerSet(6)];
const DRAWINGS: [Drawing; 4] = [
    Drawing::Apart,
    Drawing::Sparse,
    Drawing::Usual,
    Drawing::Dense,
];
const STATES: u8 = 64;

/// Prints how a step and a whole round go by the transitions and propositions, at round 0 and at the last round.
fn print_densities(options: &Options, other: &dyn Library) {
    let rows = DENSE_LATTICES.map(|lattice| DRAWINGS.map(|drawing| (lattice, drawing)));
    let wanted = |&(lattice, drawing): &_| options.wants(&format!("density; {lattice}; {drawing}"));
    let rows: Vec<(Lattice, Drawing)> = rows.concat().into_iter().filter(wanted).collect();
    if rows.is_empty() {
        return;
    }
    let name = other.name();
    println!(
        "How a step and a whole round in one call (finish_round) go by the density of the drawings, of {STATES} states each. The first line of \
         a drawing is worked from the table of round 0, all of which is top, the second from that of round T − 1, which is the settled \
         one. An entry ends once its meet is bottom, propositions first, and the join for a state of model 1 once it is top: *pairs* is the \
         mean of the pairs of states that are looked at, of {}, for an entry of the row that the step works, and for one of the round. In \
         brackets is the middle half.\n",
        grouped(&(u32::from(STATES) * u32::from(STATES)).to_string())
    );
    println!(
        "| Lattice, elements | Drawing | Round | Check, µs | Step, µs | Row, µs | Pairs, row | {name} / proved, step | Round, µs | Pairs, round | {name} / proved, round |"
    );
    println!("|---|---|---|---|---|---|---|---|---|---|---|");
    for (lattice, drawing) in rows {
        let setting = square(lattice, STATES, drawing);
        let last = Calls::new(setting, other).rounds() - 1;
        assert!(last > 0, "a case of too few rounds: another seed");
        for round in [0, last] {
            print_density(options.repeat, setting, other, round);
        }
    }
    println!();
}

/// Prints a row of the table: a step in the middle of a round, and the whole of it.
fn print_density(repeat: usize, setting: Setting, other: &dyn Library, round: u32) {
    let row = setting.states1 / 2;
    let calls = || Calls::new(setting, other);
    let (begun, halfway) = (calls().at(round, 0), calls().at(round, row));
    let (check, step) = halfway.check_and_step(repeat);
    let against = halfway.measure(repeat, &Call::Step);
    let whole = begun.measure(repeat, &Call::FinishRound);
    let (of_row, of_round) = begun.pairs(row);
    println!(
        "| {} | {} | {round} | {} | {} | {} | {} | {} | {} | {} | {} |",
        setting.lattice,
        setting.drawing,
        micros(check),
        micros(step),
        micros(step - check),
        grouped(&format!("{of_row:.0}")),
        ratio(&against),
        micros(whole.proved),
        grouped(&format!("{of_round:.0}")),
        ratio(&whole)
    );
}

// ---- figures

/// Both medians, their ratio, the middle half of the ratios, and how many samples they are of.
fn columns(times: &Times) -> String {
    let (lower, upper) = times.middle_half();
    format!(
        "{} | {} | {:.2} | {lower:.2} to {upper:.2} | {}",
        micros(times.proved),
        micros(times.other),
        times.ratio(),
        times.samples
    )
}

/// The ratio of the medians, and the middle half of the ratios.
fn ratio(times: &Times) -> String {
    let (lower, upper) = times.middle_half();
    format!("{:.2} ({lower:.2} to {upper:.2})", times.ratio())
}

/// Nanoseconds as microseconds, with three figures or all before the point, these in groups of three.
fn micros(nanos: f64) -> String {
    let micros = nanos / 1000.0;
    match micros.abs() {
        size if size < 10.0 => format!("{micros:.2}"),
        size if size < 100.0 => format!("{micros:.1}"),
        _ => grouped(&format!("{micros:.0}")),
    }
}

fn grouped(digits: &str) -> String {
    let mut text = String::new();
    for (place, digit) in digits.chars().enumerate() {
        if place > 0 && (digits.len() - place).is_multiple_of(3) {
            text.push(',');
        }
        text.push(digit);
    }
    text
}

fn per_cent(part: f64, whole: f64) -> String {
    format!("{:.0} %", 100.0 * part / whole)
}

#[cfg(test)]
mod tests {
    use super::*;

    #[test]
    fn figures() {
        assert_eq!(micros(1_234.0), "1.23");
        assert_eq!(micros(12_340.0), "12.3");
        assert_eq!(micros(123_400.0), "123");
        assert_eq!(micros(1_234_000.0), "1,234");
        assert_eq!(micros(1_234_567_890.0), "1,234,568");
        assert_eq!(per_cent(1.0, 3.0), "33 %");
    }
}

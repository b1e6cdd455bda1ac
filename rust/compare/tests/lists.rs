//! Lists of calls with fixed seeds. The seed of a list is its number.

use compare::counts::Counts;
use compare::lists;
use std::io::Write;
use std::panic::{catch_unwind, AssertUnwindSafe};
use std::thread;

const LISTS: u64 = 40_000;
const SHOWN_DIFFERENCES: usize = 5;

fn number(name: &str) -> Option<u64> {
    let text = std::env::var(name).ok()?;
    Some(
        text.parse()
            .unwrap_or_else(|_| panic!("{name} is no number: {text}")),
    )
}

/// Makes a list; a panic counts as a difference.
fn run(seed: u64, counts: &mut Counts, print: bool) -> Result<(), String> {
    catch_unwind(AssertUnwindSafe(|| lists::run(seed, counts, print)))
        .unwrap_or_else(|_| Err(format!("list {seed}: a call panicked")))
}

/// Makes every list of a share of the seeds: first, first + step, and so on.
fn run_share(first: u64, step: usize, lists: u64) -> (Counts, Vec<String>) {
    let mut counts = Counts::default();
    let seeds = (first..lists).step_by(step);
    let differences = seeds.filter_map(|seed| run(seed, &mut counts, false).err());
    let differences = differences.collect();
    (counts, differences)
}

/// Makes all lists, a share of them in each thread.
fn run_all(lists: u64) -> (Counts, Vec<String>) {
    let threads = thread::available_parallelism().map_or(1, usize::from);
    let mut counts = Counts::default();
    let mut differences = Vec::new();
    thread::scope(|scope| {
        let share = |first| scope.spawn(move || run_share(first, threads, lists));
        let shares: Vec<_> = (0..threads as u64).map(share).collect();
        for share in shares {
            let (met, found) = share.join().expect("a share of the lists");
            counts.merge(&met);
            differences.extend(found);
        }
    });
    (counts, differences)
}

#[test]
fn lists_agree() {
    if let Some(seed) = number("KOELCHAIR_SEED") {
        run(seed, &mut Counts::default(), true).unwrap_or_else(|difference| panic!("{difference}"));
        return;
    }
    let lists = number("KOELCHAIR_LISTS").unwrap_or(LISTS);
    let (counts, differences) = run_all(lists);
    // Written past the test's capture, so that the counts are seen when the test passes.
    write!(std::io::stdout(), "\nlists: {lists}\n{}", counts.lines()).expect("standard output");
    let shown = &differences[..differences.len().min(SHOWN_DIFFERENCES)];
    assert!(
        differences.is_empty(),
        "{} of {lists} lists differ (KOELCHAIR_SEED=number makes one of them again):\n{}",
        differences.len(),
        shown.join("\n")
    );
    assert!(
        counts.missing().is_empty(),
        "never met: {:?}",
        counts.missing()
    );
}

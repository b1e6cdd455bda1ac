//! Request 107 for random cases over small lattices, whose rounds are worked here by bits and not by the second implementation: on desks that
//! only their calls wrote, step by step up to T, and for one step of desks altered within the rules of refusal 12.

mod common;

use common::by_bits::{differing, Case};
use common::sets::{Sets, CHAINS, LATTICES};
use common::{round, row, settled, Desk, Numbers};
use second::{Reply, Standing};

/// How many cases are taken over a lattice, and how many altered desks.
const CASES: u32 = 400;
const ALTERED: u32 = 1_500;

/// The lattice of one element.
const ONE: Sets = Sets {
    sets: &[0],
    complement: &[0],
};

/// How often each kind was met.
struct Met<const N: usize>([(&'static str, u32); N]);

impl<const N: usize> Met<N> {
    fn new(names: [&'static str; N]) -> Met<N> {
        Met(names.map(|name| (name, 0)))
    }

    /// Counts the kinds that are there, in the order of the names.
    fn add(&mut self, are: [bool; N]) {
        for ((_, times), is) in self.0.iter_mut().zip(are) {
            *times += u32::from(is);
        }
    }

    /// All must have been met but these.
    fn assert_met(&self, sets: &Sets, but: &[&str]) {
        for (name, times) in self.0 {
            assert!(
                times > 0 || but.contains(&name),
                "never met over {sets:?}: {name}"
            );
        }
    }
}

const ROW_ABOVE_0: &str = "Row with a count above 0";
const EARLY_ROWS: &str = "a round that lowers other rows than the last alone";
const LAST_ROW: &str = "a round that lowers the last row alone";
const LAST_ENTRY: &str = "a round that lowers the last entry alone";
const TWICE: &str = "an entry lowered in two rounds";
const NONE: &str = "settled without a lowering";
const MOST: &str = "a count of N1·N2·(h − 1)";
const ROUNDS: [&str; 7] = [
    ROW_ABOVE_0,
    EARLY_ROWS,
    LAST_ROW,
    LAST_ENTRY,
    TWICE,
    NONE,
    MOST,
];

/// What is met in the rounds of a case.
fn kinds(case: &Case, tables: &[Vec<u8>], counted: u32) -> [bool; 7] {
    let [states1, states2] = case.states();
    let last_row = (states1 - 1) * states2;
    let last_entry = case.entries() - 1;
    let rounds = || tables.windows(2).map(|pair| (&pair[0][..], &pair[1][..]));
    let early = |(a, b): (&[u8], &[u8])| differing(&a[..last_row], &b[..last_row]);
    let late = |(a, b): (&[u8], &[u8])| differing(&a[last_row..], &b[last_row..]);
    let lowered = |place: usize| rounds().filter(|(a, b)| a[place] != b[place]).count();
    [
        states1 > 1 && counted > 0,
        rounds().any(|round| early(round) > 0 && late(round) == 0),
        rounds().any(|round| states1 > 1 && early(round) == 0 && late(round) > 0),
        rounds()
            .any(|(a, b)| last_entry > 0 && a[last_entry] != b[last_entry] && differing(a, b) == 1),
        (0..=last_entry).any(|place| lowered(place) > 1),
        counted == 0,
        counted == case.entries() as u32 * (case.sets.height() - 1),
    ]
}

/// Steps a desk up to T, and once more. After each step the count is "the entries that differ from the round before, summed over the whole
/// rounds shown", and the answer carries it. Gives the count at T.
fn assert_counted(case: &Case, tables: &[Vec<u8>]) -> u32 {
    let mut desk = case.desk();
    let last = tables.len() - 1;
    let states1 = case.states()[0];
    let mut counted = 0;
    for steps in 1..=last * states1 {
        let r = steps / states1;
        let answer = desk.step();
        if steps % states1 > 0 {
            assert_eq!(answer, row(counted), "{case:?}");
        } else {
            counted += differing(&tables[r], &tables[r - 1]);
            let ends = if r == last { settled } else { round };
            assert_eq!(answer, ends(r as u32, counted), "{case:?}");
        }
        assert_eq!(desk.show(), tables[r]);
        assert_eq!(desk.standing.lowerings, counted);
    }
    assert_eq!(desk.step(), settled(last as u32, counted));
    counted
}

#[test]
fn rounds_up_to_t() {
    let all = LATTICES.iter().chain(&CHAINS).chain([&ONE]);
    for (number, sets) in all.enumerate() {
        let mut numbers = Numbers(362_436_069 + number as u64);
        let mut met = Met::new(ROUNDS);
        let h = sets.height();
        for _ in 0..CASES {
            let case = Case::random(sets, &mut numbers);
            let tables = case.rounds();
            let counted = assert_counted(&case, &tables);
            assert!(counted <= case.entries() as u32 * (h - 1), "{case:?}");
            met.add(kinds(&case, &tables, counted));
        }
        // One element is never lowered, one of two not twice; the most of three in a chain is met by hand.
        let but: &[&str] = match h {
            1 => &[ROW_ABOVE_0, EARLY_ROWS, LAST_ROW, LAST_ENTRY, TWICE],
            2 => &[TWICE],
            _ => &[MOST],
        };
        met.assert_met(sets, but);
    }
}

const SETTLED_RISEN: &str = "Settled with a risen count";
const ROUND_NOT_RISEN: &str = "Round with the count as it was";
const SKIPPED: &str = "rows differ that were not worked";
const AT_LIMIT: &str = "the count at its limit";
const OVER_ROUND: &str = "over the limit by Round";
const OVER_SETTLED: &str = "over the limit by Settled";
const REFUSED: &str = "refused for the count";
const SETTLED_AGAIN: &str = "a settled desk with a count above 0";
const ALTERATIONS: [&str; 8] = [
    SETTLED_RISEN,
    ROUND_NOT_RISEN,
    SKIPPED,
    AT_LIMIT,
    OVER_ROUND,
    OVER_SETTLED,
    REFUSED,
    SETTLED_AGAIN,
];

/// Tables, next row, flags and a count within the rules of 12, but that the count may be one above its limit.
fn alter(desk: &mut Desk, case: &Case, numbers: &mut Numbers) {
    let n = u64::from(case.sets.size());
    let table: Vec<u8> = (0..case.entries()).map(|_| numbers.byte(n)).collect();
    desk.first[..table.len()].copy_from_slice(&table);
    desk.second[..table.len()].copy_from_slice(&table);
    // The whole table is at times F of itself, or the other table another one.
    for _ in 0..numbers.below(3) {
        let place = numbers.below(table.len() as u64) as usize;
        desk.second[place] = numbers.byte(n);
    }
    if numbers.below(3) == 0 {
        let tables = case.rounds();
        desk.first[..table.len()].copy_from_slice(&tables[tables.len() - 1]);
    }
    let Standing {
        states1, states2, ..
    } = desk.standing;
    let row = numbers.byte(u64::from(states1));
    let is_settled = numbers.below(6) == 0;
    desk.standing = Standing {
        states1,
        states2,
        round: u32::from(is_settled),
        row: if is_settled { 0 } else { row },
        changed: !is_settled && row > 0 && numbers.below(2) == 0,
        settled: is_settled,
        second_whole: numbers.below(2) == 0,
        lowerings: match numbers.below(4) {
            0 => case.limit(),
            1 => case.limit() + 1,
            _ => numbers.below(u64::from(case.limit()) + 1) as u32,
        },
    };
}

/// The answer of a step by the sentences, and the count after it.
fn expected(case: &Case, desk: &Desk) -> (Reply, u32) {
    let standing = desk.standing;
    let entries = case.entries();
    let [whole, mut other] = match standing.second_whole {
        true => [&desk.second, &desk.first],
        false => [&desk.first, &desk.second],
    }
    .map(|table| table[..entries].to_vec());
    let count = standing.lowerings;
    if count > case.limit() {
        let refused = Reply::Refused {
            number: 12,
            part: 255,
        };
        return (refused, count);
    }
    if standing.settled {
        return (settled(standing.round, count), count);
    }
    if standing.row + 1 < standing.states1 {
        return (row(count), count);
    }
    let q1 = usize::from(standing.row);
    let worked = case.row(&whole, q1);
    let start = q1 * worked.len();
    let changed = standing.changed || worked != whole[start..][..worked.len()];
    other[start..].copy_from_slice(&worked);
    let risen = count + differing(&whole, &other);
    let ends = if changed { round } else { settled };
    (ends(standing.round + 1, risen), risen)
}

/// The kinds of a step, from the desks before and after it.
fn alterations(case: &Case, before: &Desk, after: &Desk, answer: &Reply) -> [bool; 8] {
    let (old, new) = (before.standing.lowerings, after.standing.lowerings);
    let is_round = matches!(answer, Reply::Round { .. });
    let ends_settled = matches!(answer, Reply::Settled { .. }) && !before.standing.settled;
    let last_row = usize::from(before.standing.row) * case.states()[1];
    let early = differing(&after.first[..last_row], &after.second[..last_row]);
    let over = old <= case.limit() && new > case.limit();
    [
        ends_settled && new > old,
        is_round && new == old,
        (is_round || ends_settled) && early > 0,
        old == case.limit() && case.limit() > 0,
        is_round && over,
        ends_settled && over,
        matches!(answer, Reply::Refused { .. }),
        before.standing.settled && old > 0 && old <= case.limit(),
    ]
}

#[test]
fn a_step_of_altered_desks() {
    let all = LATTICES.iter().chain(&CHAINS).chain([&ONE]);
    for (number, sets) in all.enumerate() {
        let mut numbers = Numbers(123_456_789 + number as u64);
        let mut met = Met::new(ALTERATIONS);
        for _ in 0..ALTERED {
            let case = Case::random(sets, &mut numbers);
            let mut desk = case.desk();
            alter(&mut desk, &case, &mut numbers);
            let before = desk.clone();
            let (answer, count) = expected(&case, &before);
            assert_eq!(desk.step(), answer, "{case:?}, {:?}", before.standing);
            assert_eq!(desk.standing.lowerings, count);
            met.add(alterations(&case, &before, &desk, &answer));
            if count > case.limit() {
                assert!(desk.show().is_empty());
            }
        }
        // Tables of one element do not differ, and the limit is 0.
        let but: &[&str] = match sets.size() {
            1 => &[
                SETTLED_RISEN,
                SKIPPED,
                AT_LIMIT,
                OVER_ROUND,
                OVER_SETTLED,
                SETTLED_AGAIN,
            ],
            _ => &[],
        };
        met.assert_met(sets, but);
    }
}

//! Shares at and beside an exact half per cent. Random tables hardly ever have one: the number of entries has to be a multiple of 8, and even
//! then few counts are at the half. So for each two numbers of states every such count is taken, with its neighbours.

use compare::calls::Call;
use compare::cases;
use compare::comparison::Pair;
use compare::counts::Counts;
use compare::desks;
use second::Reply;
use std::io::Write;

/// A case over 0 below 1, of models without propositions and transitions.
fn case(states1: usize, states2: usize) -> Vec<u8> {
    let lattice = vec![2, 1, 0, 1, 1, 0, 1];
    let model = |states: usize| [vec![states as u8, 0], vec![0; states + states * states]].concat();
    let parts = [lattice, model(states1), model(states2)];
    cases::gapless(&parts)
}

/// The counts c for which 100 c / all is a whole number and a half.
fn halves(all: usize) -> impl Iterator<Item = usize> {
    (0..=all).filter(move |c| 200 * c % all == 0 && 200 * c / all % 2 == 1)
}

/// The share of 1 in a table the first `ones` entries of which are 1; both implementations are asked.
fn share_of(pair: &mut Pair, ones: usize, all: usize) -> u8 {
    let mut desk = pair.desk().clone();
    let second = desk.standing.second_whole;
    desk.table(second)[..ones].fill(1);
    desk.table(second)[ones..all].fill(0);
    pair.put(desk);
    match pair.call(Call::Share(1)) {
        Ok(Reply::PerCent(per_cent)) => per_cent,
        other => panic!("{ones} of {all}: {other:?}"),
    }
}

#[test]
fn shares_at_an_exact_half_agree_and_are_even() {
    let mut counts = Counts::default();
    let mut pair = Pair::new(desks::zeroed(), &mut counts, false);
    let (mut at_half, mut beside) = (0, 0);
    let sizes = (1..=64).flat_map(|states1| (states1..=64).map(move |states2| (states1, states2)));
    for (states1, states2) in sizes.filter(|(a, b)| (a * b) % 8 == 0) {
        let all = states1 * states2;
        let opened = pair.call(Call::Open(case(states1, states2)));
        assert_eq!(opened, Ok(Reply::Opened));
        for ones in halves(all) {
            let even = share_of(&mut pair, ones, all);
            assert_eq!(even % 2, 0, "{ones} of {all}");
            at_half += 1;
            let (less, more) = (
                share_of(&mut pair, ones - 1, all),
                share_of(&mut pair, ones + 1, all),
            );
            assert!(less <= even && even <= more, "beside {ones} of {all}");
            beside += 2;
        }
    }
    let text = format!("\nshares compared: {at_half} at an exact half, {beside} beside one\n");
    std::io::stdout()
        .write_all(text.as_bytes())
        .expect("standard output");
    assert!(at_half > 0);
}

//! What the program `report` prints: the text of the proved library and that of the second implementation, on the same cases.

use compare::cases;
use compare::damage;
use compare::generator::Random;
use std::io::Write;

const CASES: u64 = 5_000;

/// The first case is of the greatest sizes. Every third is damaged, so that most of those are refused.
fn case(seed: u64) -> Vec<u8> {
    let mut random = Random::new(seed);
    if seed == 0 {
        cases::greatest_draft(&mut random).bytes(&mut random)
    } else if seed.is_multiple_of(3) {
        let number = random.between(1, 10) as u8;
        damage::damaged(&mut random, number)
    } else {
        let scale = cases::scale(&mut random);
        cases::draft(&mut random, scale).bytes(&mut random)
    }
}

#[test]
fn listings_agree() {
    let (mut settled, mut refused) = (0, 0);
    for seed in 0..CASES {
        let case = case(seed);
        let proved = koelchair::listing(&case);
        let second = second::report(&case);
        assert_eq!(proved, second, "on the case of seed {seed}: {case:?}");
        if proved.starts_with("refused ") {
            refused += 1;
        } else {
            settled += 1;
        }
    }
    let text =
        format!("\nlistings compared: {settled} of settled desks, {refused} of refused cases\n");
    std::io::stdout()
        .write_all(text.as_bytes())
        .expect("standard output");
    assert!(settled > 0 && refused > 0);
}

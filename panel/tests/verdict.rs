//! The linked verdict against the papers (document 01, and 2.1 of document 02): the marked days, the edges, and a computation of its own.

use panel::{verdict, Verdict};
use std::collections::HashMap;

const LIMIT: u64 = 10_000_000_000;
const PASS_1: Verdict = Verdict::Pass { factor: 1 };
const PASS_2: Verdict = Verdict::Pass { factor: 2 };
const PASS_3: Verdict = Verdict::Pass { factor: 3 };
const ORDINARY_1: Verdict = Verdict::Ordinary { factor: 1 };
const ORDINARY_2: Verdict = Verdict::Ordinary { factor: 2 };
const ORDINARY_3: Verdict = Verdict::Ordinary { factor: 3 };
const SEVERE_1: Verdict = Verdict::Severe { factor: 1 };
const SEVERE_2: Verdict = Verdict::Severe { factor: 2 };
const SEVERE_3: Verdict = Verdict::Severe { factor: 3 };

/// "The day's verdict" and number 24 of document 01 with the factor of 2.1, in numbers too wide to overflow.
fn by_the_papers(raw: u64, score: u64, lots: u64, benchmark: u64) -> Verdict {
    let too_large = [raw, score, lots].iter().any(|&total| total > LIMIT);
    if too_large || !(1..=100_000).contains(&benchmark) {
        return Verdict::Refused;
    }
    let factor = match raw {
        0..=20_000 => return Verdict::NotJudged,
        20_001..=40_000 => 3,
        40_001..=60_000 => 2,
        _ => 1,
    };
    let bound = u128::from(benchmark) * u128::from(factor) * u128::from(lots);
    let hundredfold = 100 * u128::from(score);
    if hundredfold <= bound {
        Verdict::Pass { factor }
    } else if hundredfold <= 6 * bound {
        Verdict::Ordinary { factor }
    } else {
        Verdict::Severe { factor }
    }
}

#[test]
fn eleven_marked_days() {
    let days = [
        (100_000, 92_000, 20_000, PASS_1),
        (45_000, 50_000, 5_000, PASS_2),
        (21_000, 21_000, 2_000, PASS_3),
        (10_000, 2_800, 100, Verdict::NotJudged),
        (122_000, 143_000, 10_000, ORDINARY_1),
        (20_000, 60_000, 0, Verdict::NotJudged),
        (20_001, 3, 0, SEVERE_3),
        (60_001, 60_000, 1_000, ORDINARY_1),
        (60_001, 60_001, 1_000, SEVERE_1),
        (40_000, 30_000, 1_000, PASS_3),
        (40_001, 30_000, 1_000, ORDINARY_2),
    ];
    for (raw, score, lots, expected) in days {
        assert_eq!(
            verdict(raw, score, lots, 1_000),
            expected,
            "{raw} {score} {lots}"
        );
    }
}

#[test]
fn edges_of_the_tiers() {
    for (raw, expected) in [
        (0, Verdict::NotJudged),
        (20_000, Verdict::NotJudged),
        (20_001, PASS_3),
        (40_000, PASS_3),
        (40_001, PASS_2),
        (60_000, PASS_2),
        (60_001, PASS_1),
        (LIMIT, PASS_1),
    ] {
        assert_eq!(verdict(raw, 0, 0, 1_000), expected, "{raw}");
    }
}

#[test]
fn edges_of_the_score() {
    for (raw, factor) in [
        (20_001, 3),
        (40_000, 3),
        (40_001, 2),
        (60_000, 2),
        (60_001, 1),
    ] {
        // With a benchmark of 700 hundredths the bound is exact: 7 a lot, times the factor.
        let bound = 7 * u64::from(factor) * 1_234;
        assert_eq!(
            verdict(raw, bound, 1_234, 700),
            Verdict::Pass { factor },
            "{raw}"
        );
        assert_eq!(
            verdict(raw, bound + 1, 1_234, 700),
            Verdict::Ordinary { factor },
            "{raw}"
        );
        assert_eq!(
            verdict(raw, 6 * bound, 1_234, 700),
            Verdict::Ordinary { factor },
            "{raw}"
        );
        assert_eq!(
            verdict(raw, 6 * bound + 1, 1_234, 700),
            Verdict::Severe { factor },
            "{raw}"
        );
    }
    // No lots: only a score of 0 passes.
    assert_eq!(verdict(20_001, 0, 0, 1_000), PASS_3);
    assert_eq!(verdict(20_001, 1, 0, 1_000), SEVERE_3);
    // A bound of 19.98 is not cut to 19: 19 is below it, 20 above; 119.88 likewise.
    assert_eq!(verdict(60_001, 19, 2, 999), PASS_1);
    assert_eq!(verdict(60_001, 20, 2, 999), ORDINARY_1);
    assert_eq!(verdict(60_001, 119, 2, 999), ORDINARY_1);
    assert_eq!(verdict(60_001, 120, 2, 999), SEVERE_1);
}

#[test]
fn limits_of_the_totals() {
    assert_eq!(verdict(LIMIT, LIMIT, LIMIT, 100), PASS_1);
    assert_eq!(verdict(LIMIT, LIMIT, LIMIT, 99), ORDINARY_1);
    assert_eq!(verdict(LIMIT, LIMIT, LIMIT, 100_000), PASS_1);
    assert_eq!(verdict(LIMIT, LIMIT, 0, 100_000), SEVERE_1);
    for large in [LIMIT + 1, u64::MAX] {
        assert_eq!(verdict(large, 0, 0, 1_000), Verdict::Refused);
        // Number 24 comes before the tier of at most 20,000 messages.
        assert_eq!(verdict(0, large, 0, 1_000), Verdict::Refused);
        assert_eq!(verdict(0, 0, large, 1_000), Verdict::Refused);
        assert_eq!(verdict(large, large, large, 1_000), Verdict::Refused);
    }
}

#[test]
fn limits_of_the_benchmark() {
    for (benchmark, quiet, busy) in [
        (0, Verdict::Refused, Verdict::Refused),
        (1, Verdict::NotJudged, SEVERE_1),
        (100_000, Verdict::NotJudged, PASS_1),
        (100_001, Verdict::Refused, Verdict::Refused),
        (u64::MAX, Verdict::Refused, Verdict::Refused),
    ] {
        assert_eq!(
            verdict(20_000, 92_000, 20_000, benchmark),
            quiet,
            "{benchmark}"
        );
        assert_eq!(
            verdict(100_000, 92_000, 20_000, benchmark),
            busy,
            "{benchmark}"
        );
    }
    assert_eq!(
        verdict(u64::MAX, u64::MAX, u64::MAX, u64::MAX),
        Verdict::Refused
    );
}

#[test]
fn every_number_has_a_verdict() {
    let known = [0, 11, 22, 33, 41, 42, 43, 51, 52, 53, 24];
    for number in (0..1_000).chain([u64::MAX]) {
        let unknown = Verdict::from(number) == Verdict::Unknown(number);
        assert_eq!(unknown, !known.contains(&number), "{number}");
    }
}

/// Numbers that are the same in every run (splitmix64).
struct Numbers(u64);

impl Numbers {
    fn next(&mut self) -> u64 {
        self.0 = self.0.wrapping_add(0x9E37_79B9_7F4A_7C15);
        let mixed = (self.0 ^ (self.0 >> 30)).wrapping_mul(0xBF58_476D_1CE4_E5B9);
        let mixed = (mixed ^ (mixed >> 27)).wrapping_mul(0x94D0_49BB_1331_11EB);
        mixed ^ (mixed >> 31)
    }

    fn below(&mut self, bound: u64) -> u64 {
        self.next() % bound
    }

    /// A number of any size: as often of 3 bits as of 60.
    fn of_any_size(&mut self) -> u64 {
        let shift = self.below(64);
        self.next() >> shift
    }

    fn near(&mut self, middle: u64) -> u64 {
        (middle + self.below(5)).saturating_sub(2)
    }

    /// A day whose score lies at one of its two bounds, or next to it.
    fn day_at_a_bound(&mut self, largest_lots: u64) -> [u64; 4] {
        let edge = [20_000, 40_000, 60_000, 200_000][self.below(4) as usize];
        let (raw, benchmark) = (self.near(edge), 1 + self.below(100_000));
        let lots = self.below(largest_lots);
        let factor = [3, 3, 2, 1]
            [(raw > 20_000) as usize + (raw > 40_000) as usize + (raw > 60_000) as usize];
        let bound = benchmark * factor * lots / 100;
        let times = [1, 6][self.below(2) as usize];
        [raw, self.near(times * bound), lots, benchmark]
    }

    fn quadruple(&mut self, scale: u64) -> [u64; 4] {
        match scale % 5 {
            0 => [
                self.of_any_size(),
                self.of_any_size(),
                self.of_any_size(),
                self.of_any_size(),
            ],
            1 => [
                self.below(100_000),
                self.below(300_000),
                self.below(20_000),
                self.below(3_000),
            ],
            2 => self.day_at_a_bound(20_000),
            3 => self.day_at_a_bound(2_000_000),
            _ => [
                self.near(LIMIT),
                self.near(LIMIT),
                self.near(LIMIT),
                [1, 99, 100, 101, 99_999, 100_000, 100_001][self.below(7) as usize],
            ],
        }
    }
}

#[test]
fn random_days() {
    let mut numbers = Numbers(24_237);
    let mut seen: HashMap<Verdict, u64> = HashMap::new();
    for turn in 0..1_000_000 {
        let [raw, score, lots, benchmark] = numbers.quadruple(turn);
        let given = verdict(raw, score, lots, benchmark);
        assert_eq!(
            given,
            by_the_papers(raw, score, lots, benchmark),
            "{raw} {score} {lots} {benchmark}"
        );
        *seen.entry(given).or_default() += 1;
    }
    println!("{seen:?}");
    for expected in [
        Verdict::NotJudged,
        PASS_1,
        PASS_2,
        PASS_3,
        ORDINARY_1,
        ORDINARY_2,
        ORDINARY_3,
        SEVERE_1,
        SEVERE_2,
        SEVERE_3,
        Verdict::Refused,
    ] {
        assert!(seen.contains_key(&expected), "no random day was {expected}");
    }
}

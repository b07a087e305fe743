//! Sharing (01, 'Sharing'; 24 and 25) against the second program: every small case, generated cases, and each limit
//! with its neighbours.

use crate::count::Count;
use crate::lent::{Around as _, Lent};
use crate::random::Random;
use crate::recorder;
use second::Rule;

const LIMIT: u64 = 1 << 62;
const GENERATED: u64 = 250_000;
const SEED: u64 = 24_25;

pub fn run(count: &mut Count) {
    small(count);
    generated(count);
    limits(count);
    for number in [0, 24, 25] {
        count.answered("share", number, 3_000);
    }
}

/// One call of ours and one of the second program, with `before` lent; number, list and surroundings compared.
fn compare(count: &mut Count, total: u64, weights: &[u64], before: &[u64]) -> u64 {
    let mut theirs = before.to_vec();
    let their_number = second::share_call(Rule::RunningTotal, total, weights, &mut theirs) as u64;

    let mut read = Lent::new(weights);
    let mut lent = Lent::new(before);
    let number = recorder::share(total, read.list(), lent.list());
    let (ours, kept) = lent.back();

    let alike = number == their_number && ours == theirs;
    let lawful = if number == 0 { is_lawful(total, weights, &ours) } else { ours == before };
    count.case(alike && kept && read.untouched(weights) && lawful, || {
        format!(
            "T {} over {:?}, lent {:?}: {} {:?}, wanted {} {:?}",
            total, weights, before, number, ours, their_number, theirs
        )
    });
    count.called("share", number);
    number
}

/// What 01 says of parts: they add up to T; for T at most W none exceeds its weight; weight zero, part zero.
fn is_lawful(total: u64, weights: &[u64], parts: &[u64]) -> bool {
    let whole: u128 = weights.iter().map(|&w| w as u128).sum();
    let sum: u128 = parts.iter().map(|&p| p as u128).sum();
    let within = |(&w, &p): (&u64, &u64)| (p <= w || total as u128 > whole) && (p == 0 || w > 0);
    sum == total as u128 && parts.len() == weights.len() && weights.iter().zip(parts).all(within)
}

/// All lists of up to four weights of 0 to 3, T 0 to 8.
fn small(count: &mut Count) {
    for n in 0..=4 {
        for code in 0..4u64.pow(n) {
            let weights: Vec<u64> = (0..n).map(|i| code >> (2 * i) & 3).collect();
            for total in 0..=8 {
                compare(count, total, &weights, &vec![u64::AROUND; n as usize]);
                count.tried("small: every list of at most four weights 0 to 3, T 0 to 8");
            }
        }
    }
}

fn generated(count: &mut Count) {
    let mut random = Random::new(SEED);
    for _ in 0..GENERATED {
        let (shape, weights) = weights(&mut random);
        let total = total(&mut random, &weights);
        let n = match random.between(1, 40) {
            1 => weights.len() + 1,
            2 => weights.len().saturating_sub(1),
            _ => weights.len(),
        };
        let before: Vec<u64> = (0..n).map(|_| random.next()).collect();
        compare(count, total, &weights, &before);
        count.tried(format!("generated, weights {}", shape));
    }
}

fn weights(random: &mut Random) -> (&'static str, Vec<u64>) {
    let n = if random.chance(3) { random.between(13, 744) } else { random.between(0, 12) } as usize;
    match random.between(1, 8) {
        1 => ("0 to 3", (0..n).map(|_| random.between(0, 3)).collect()),
        2 => ("all equal", vec![random.sized(58); n]),
        3 => ("mostly zero", (0..n).map(|_| if random.chance(80) { 0 } else { random.sized(40) }).collect()),
        4 => ("all zero", vec![0; n]),
        5 => ("of an hour, to 2 x 10^9", (0..n).map(|_| random.between(0, 2_000_000_000)).collect()),
        6 => ("of 0 to 64 bits", (0..n).map(|_| random.sized(64)).collect()),
        7 => ("near 2^64", (0..n).map(|_| u64::MAX - random.between(0, 3)).collect()),
        _ => ("summing to near 2^62", near_limit(random, n)),
    }
}

/// Weights whose sum is 2^62, or up to three away from it.
fn near_limit(random: &mut Random, n: usize) -> Vec<u64> {
    let mut rest = LIMIT - 3 + random.between(0, 6);
    let mut list: Vec<u64> = Vec::with_capacity(n);
    for _ in 1..n {
        let weight = if random.chance(20) { 0 } else { random.between(0, rest) };
        rest -= weight;
        list.push(weight);
    }
    if n > 0 {
        list.push(rest);
    }
    list
}

fn total(random: &mut Random, weights: &[u64]) -> u64 {
    let whole = weights.iter().fold(0u64, |sum, &w| sum.saturating_add(w)).min(LIMIT - 1);
    match random.between(1, 9) {
        1 => 0,
        2 => random.between(1, 9),
        3 => whole,
        4 => whole.saturating_sub(1),
        5 => whole + 1,
        6 => random.between(0, whole),
        7 => LIMIT - 2 + random.between(0, 3),
        8 => random.sized(62),
        _ => random.sized(64),
    }
}

/// Each limit with its neighbours. The numbers here are read from 01, so that they hold the second program too.
fn limits(count: &mut Count) {
    let half = LIMIT / 2;
    let cases: &[(u64, &[u64], usize, u64)] = &[
        // T, weights, length of the lent list, number
        // W at the limit: in one weight, in two, in many.
        (5, &[LIMIT - 1], 1, 0),
        (5, &[LIMIT], 1, 24),
        (5, &[half, half - 1], 2, 0),
        (5, &[half, half], 2, 24),
        (5, &[0, LIMIT - 2, 0, 1], 4, 0),
        (5, &[0, LIMIT - 2, 1, 1], 4, 24),
        (0, &[LIMIT - 1], 1, 0),
        (0, &[LIMIT], 1, 24),
        // T at the limit.
        (LIMIT - 1, &[1], 1, 0),
        (LIMIT, &[1], 1, 24),
        (u64::MAX, &[1], 1, 24),
        (LIMIT - 1, &[LIMIT - 1], 1, 0),
        (LIMIT - 1, &[LIMIT - 2, 1], 2, 0),
        (LIMIT, &[LIMIT - 1], 1, 24),
        (LIMIT, &[LIMIT], 1, 24),
        (LIMIT - 1, &[half, half - 1], 2, 0),
        (LIMIT - 1, &[0, 1, 2, 3], 4, 0),
        // W that would wrap 64 bits, to 0, to 1 and to more.
        (0, &[u64::MAX, 1], 2, 24),
        (1, &[u64::MAX, 1], 2, 24),
        (1, &[u64::MAX, 2], 2, 24),
        (5, &[u64::MAX, u64::MAX], 2, 24),
        (5, &[1 << 63, 1 << 63], 2, 24),
        (5, &[1 << 63, 1 << 63, 7], 3, 24),
        (5, &[LIMIT, LIMIT, LIMIT, LIMIT], 4, 24),
        (5, &[7, LIMIT, LIMIT, LIMIT, LIMIT], 5, 24),
        (5, &[LIMIT - 1, LIMIT - 1, LIMIT - 1, LIMIT - 1, 4], 5, 24),
        (5, &[3, u64::MAX - 2], 2, 24),
        // Lengths off by one; 24 comes before 25.
        (5, &[1, 2, 3], 3, 0),
        (5, &[1, 2, 3], 2, 24),
        (5, &[1, 2, 3], 4, 24),
        (0, &[1, 2, 3], 2, 24),
        (0, &[1, 2, 3], 4, 24),
        (1, &[0, 0], 1, 24),
        (1, &[0, 0], 3, 24),
        (1, &[], 1, 24),
        (0, &[], 1, 24),
        (0, &[1], 0, 24),
        // Empty lists.
        (0, &[], 0, 0),
        (1, &[], 0, 25),
        (LIMIT - 1, &[], 0, 25),
        (LIMIT, &[], 0, 24),
        // T = 0 over W = 0 (m7), T = 1 over 0 (m8), and W = 1.
        (0, &[0], 1, 0),
        (0, &[0, 0], 2, 0),
        (1, &[0], 1, 25),
        (1, &[0, 0], 2, 25),
        (1, &[0, 1], 2, 0),
        (LIMIT - 1, &[0, 0, 0], 3, 25),
        (LIMIT, &[0, 0, 0], 3, 24),
    ];
    for &(total, weights, length, wanted) in cases {
        let before: Vec<u64> = (0..length as u64).map(|i| 1_000 + i).collect();
        let number = compare(count, total, weights, &before);
        count
            .case(number == wanted, || format!("limit: T {} over {:?}: {}, wanted {}", total, weights, number, wanted));
        count.tried("limits with their neighbours, number read from 01");
    }
    worked(count);
}

/// Figures that 01 gives, or that follow from it by hand.
fn worked(count: &mut Count) {
    let cases: &[(u64, &[u64], &[u64])] = &[
        (100, &[1, 1, 1], &[33, 33, 34]),                  // m3
        (180, &[100, 50, 60], &[85, 43, 52]),              // m1, the covered guarantees
        (30, &[100, 50, 60], &[14, 7, 9]),                 // m2, the rights to secondary
        (0, &[0, 0], &[0, 0]),                             // m7
        (LIMIT - 1, &[LIMIT - 2, 1], &[LIMIT - 2, 1]),     // T = W: every weight in full
        (1, &[LIMIT - 2, 1], &[0, 1]),                     // the last part takes what rounding kept back
        (LIMIT - 1, &[1, 1], &[LIMIT / 2 - 1, LIMIT / 2]), // T above W
    ];
    for &(total, weights, wanted) in cases {
        let mut parts = vec![7; weights.len()];
        let number = recorder::share(total, weights, &mut parts);
        count.case(number == 0 && parts == wanted, || {
            format!("worked: T {} over {:?}: {} {:?}, wanted {:?}", total, weights, number, parts, wanted)
        });
        count.tried("worked by hand");
    }
}

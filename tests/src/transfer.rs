//! The transfer step (01, step 5; 23) against the second program: every small case, generated cases, and each limit
//! with its neighbours.

use crate::count::Count;
use crate::random::Random;
use crate::recorder::{self, Table, Transferred};
use second::Rule;

/// Each of the eight figures is at most this.
const LIMIT: u64 = 2_000_000_000;
const GENERATED: u64 = 250_000;
const SEED: u64 = 23;

type Four = [u64; 4];

pub fn run(count: &mut Count) {
    small(count);
    generated(count);
    limits(count);
    worked(count);
    for number in [0, 23] {
        count.answered("transfer", number, 30_000);
    }
}

fn compare(count: &mut Count, left: Four, need: Four) -> u64 {
    let (their_number, rows) = second::transfer_call(Rule::RunningTotal, left, need);
    let theirs = Transferred { number: their_number as u64, table: Table { rows } };
    let ours = recorder::transfer(left, need);
    let lawful =
        if ours.number == 0 { is_lawful(left, need, &ours.table.rows) } else { ours.table.rows == [[0; 4]; 4] };
    count.case(ours == theirs && lawful, || {
        format!("left {:?}, need {:?}: {:?}, wanted {:?}", left, need, ours, theirs)
    });
    count.called("transfer", ours.number);
    ours.number
}

/// Each receiver's column adds up to its need, no giver's row passes what it had, and the diagonal is zero.
fn is_lawful(left: Four, need: Four, rows: &[Four; 4]) -> bool {
    (0..4).all(|s| {
        let row: u64 = rows[s].iter().sum();
        let column: u64 = rows.iter().map(|row| row[s]).sum();
        column == need[s] && row <= left[s] && rows[s][s] == 0
    })
}

/// All eight figures 0 to 2.
fn small(count: &mut Count) {
    for code in 0..3u64.pow(8) {
        let digit = |i: u32| code / 3u64.pow(i) % 3;
        let left = [digit(0), digit(1), digit(2), digit(3)];
        let need = [digit(4), digit(5), digit(6), digit(7)];
        compare(count, left, need);
        count.tried("small: every choice of eight figures 0 to 2");
    }
}

fn generated(count: &mut Count) {
    let mut random = Random::new(SEED);
    for _ in 0..GENERATED {
        let (left, mut need) = fitting(&mut random);
        let mut left = left;
        let shape = match random.between(1, 10) {
            1 => spoiled(&mut random, &mut left, &mut need),
            2 => {
                (left, need) = ([0; 4].map(|_| random.sized(64)), [0; 4].map(|_| random.sized(64)));
                "eight figures of 0 to 64 bits"
            }
            _ => "left and need that fit",
        };
        compare(count, left, need);
        count.tried(format!("generated, {}", shape));
    }
}

/// Left and need that 23 lets through: each submarket has one of the two, and the needs are met.
fn fitting(random: &mut Random) -> (Four, Four) {
    let most = random.pick(&[1, 3, 10, 1_000, 1_000_003, LIMIT - 1, LIMIT]);
    let equal = random.between(0, most);
    let style = random.between(1, 4);
    let (mut left, mut need) = ([0; 4], [0; 4]);
    for s in 0..4 {
        let figure = match style {
            1 => equal,
            2 if random.chance(50) => 0,
            3 => most,
            _ => random.between(0, most),
        };
        if random.chance(50) {
            left[s] = figure;
        } else {
            need[s] = figure;
        }
    }
    let had: u64 = left.iter().sum();
    let mut open = if random.chance(30) { had } else { random.between(0, had) };
    for s in 0..4 {
        // Where the last needs may take all that is had, they often do: the sums are then equal.
        if left[s] == 0 && need[s] < open && random.chance(40) {
            need[s] = open.min(LIMIT);
        }
        need[s] = need[s].min(open);
        open -= need[s];
    }
    (left, need)
}

/// One thing put out of limits.
fn spoiled(random: &mut Random, left: &mut Four, need: &mut Four) -> &'static str {
    let s = random.between(0, 3) as usize;
    match random.between(1, 4) {
        1 => {
            left[s] = LIMIT + 1 + random.sized(20);
            need[s] = 0;
            "a figure of left above 2 x 10^9"
        }
        2 => {
            need[s] = random.pick(&[LIMIT + 1, u64::MAX, u64::MAX - LIMIT, 1 << 63]);
            "a figure of need above 2 x 10^9"
        }
        3 => {
            let rest = left.iter().sum::<u64>() - need.iter().sum::<u64>();
            need[s] = (need[s] + rest + 1).min(LIMIT);
            "needs above what is left, or a submarket with both"
        }
        _ => {
            left[s] = random.between(1, LIMIT);
            need[s] = random.between(1, LIMIT);
            "a submarket with both"
        }
    }
}

/// Each limit with its neighbours. The numbers here are read from 01.
fn limits(count: &mut Count) {
    let mut limit = |left: Four, need: Four, wanted: u64| {
        let number = compare(count, left, need);
        count.case(number == wanted, || {
            format!("limit: left {:?}, need {:?}: {}, wanted {}", left, need, number, wanted)
        });
        count.tried("limits with their neighbours, number read from 01");
    };
    for s in 0..4 {
        let other = (s + 1) % 4;
        // Each figure of left at its limit, alone and with a need as large.
        for (figure, wanted) in [(LIMIT - 1, 0), (LIMIT, 0), (LIMIT + 1, 23), (u64::MAX, 23)] {
            limit(at(s, figure), [0; 4], wanted);
            limit(at(s, figure), at(other, figure.min(LIMIT)), wanted);
        }
        // Each figure of need at its limit, where the four together have enough.
        for (figure, wanted) in [(LIMIT - 1, 0), (LIMIT, 0), (LIMIT + 1, 23), (u64::MAX, 23)] {
            let mut left = [LIMIT; 4];
            left[s] = 0;
            limit(left, at(s, figure), wanted);
        }
        // Needs equal to what is left, one below and one above, at every size and pair.
        for giver in 0..4 {
            for figure in [1, 2, 1_000, LIMIT - 1, LIMIT] {
                if giver != s {
                    limit(at(giver, figure), at(s, figure - 1), 0);
                    limit(at(giver, figure), at(s, figure), 0);
                    limit(at(giver, figure - 1), at(s, figure), 23);
                }
            }
        }
        // Two givers, two receivers, sums equal and one apart.
        let (a, b, c) = ((s + 1) % 4, (s + 2) % 4, (s + 3) % 4);
        for (x, y, p, q, wanted) in [
            (5, 3, 4, 4, 0),
            (5, 3, 4, 5, 23),
            (5, 3, 4, 3, 0),
            (LIMIT, LIMIT, LIMIT, LIMIT, 0),
            (LIMIT, LIMIT - 1, LIMIT, LIMIT, 23),
        ] {
            let (mut left, mut need) = ([0; 4], [0; 4]);
            (left[s], left[a], need[b], need[c]) = (x, y, p, q);
            limit(left, need, wanted);
        }
        // A submarket with both, and its neighbours with one of the two.
        for (x, y, wanted) in [(1, 1, 23), (1, 0, 0), (0, 1, 0), (LIMIT, 1, 23), (1, LIMIT, 23), (LIMIT, LIMIT, 23)] {
            let (mut left, mut need) = (at(other, LIMIT), [0; 4]);
            (left[s], need[s]) = (x, y);
            limit(left, need, wanted);
        }
        // Sums that would wrap 64 bits.
        let mut left = [u64::MAX; 4];
        left[s] = 0;
        limit(left, at(s, 1), 23);
        let mut need = [u64::MAX; 4];
        (need[s], need[other]) = (0, 3);
        limit(at(s, 5), need, 23);
        let mut need = [1 << 62; 4];
        need[s] = 0;
        limit(at(s, 5), need, 23);
    }
    limit([0; 4], [0; 4], 0);
    limit([LIMIT; 4], [0; 4], 0);
    limit([0; 4], [1 << 62; 4], 23);
    limit([0; 4], [LIMIT; 4], 23);
    limit([LIMIT; 4], [LIMIT; 4], 23);
}

/// A figure in one place, zeros in the others.
fn at(s: usize, figure: u64) -> Four {
    let mut four = [0; 4];
    four[s] = figure;
    four
}

/// Tables that 01 gives, or that follow from it by hand.
fn worked(count: &mut Count) {
    let cases: &[(Four, Four, [Four; 4])] = &[
        // m6: 2 gives 3, then 1 gives 4.
        ([1, 1, 0, 0], [0, 0, 1, 1], [[0, 0, 0, 1], [0, 0, 1, 0], [0; 4], [0; 4]]),
        // 10 over 3 and 9, then 2 over the 1 and 1 that are still left.
        ([3, 9, 0, 0], [0, 0, 10, 2], [[0, 0, 2, 1], [0, 0, 8, 1], [0; 4], [0; 4]]),
        // Receivers before givers, and a whole surplus sent.
        ([0, 0, 0, 7], [3, 4, 0, 0], [[0; 4], [0; 4], [0; 4], [3, 4, 0, 0]]),
    ];
    for &(left, need, rows) in cases {
        let ours = recorder::transfer(left, need);
        let wanted = Transferred { number: 0, table: Table { rows } };
        count.case(ours == wanted, || {
            format!("worked: left {:?}, need {:?}: {:?}, wanted {:?}", left, need, ours, wanted)
        });
        count.tried("worked by hand");
    }
}

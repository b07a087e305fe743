// wide::mul_div against Rust's u128: first the results, then the time as a ratio, both measured in one run.
use random::Random;
use std::hint::black_box;
use std::time::Instant;

#[allow(dead_code)] // the comparisons draw more than this
#[path = "../src/random.rs"]
mod random;

const SEED: u64 = 62_64;

extern "C" {
    fn bench_mul_div(t: u64, c: u64, w: u64) -> u64;
}

extern "C" fn with_u128(t: u64, c: u64, w: u64) -> u64 {
    if w == 0 { 0 } else { (t as u128 * c as u128 / w as u128) as u64 }
}

type Call = unsafe extern "C" fn(u64, u64, u64) -> u64;
type Figures = (u64, u64, u64);

// Each power of 2 with its neighbours, and numbers whose upper or lower half is all ones or all zeros.
fn edges(bits: u32) -> Vec<u64> {
    let limit = 1u128 << bits;
    let mut all = vec![0];
    for k in 0..=bits {
        for j in [0, k / 2, k.saturating_sub(31), k.saturating_sub(32)] {
            for x in [1u128 << k, (1 << k) + (1 << j), (1 << k) - (1 << j), (1 << k) + (1 << j) - 1] {
                all.extend([x.saturating_sub(1), x, x + 1].into_iter().filter(|&x| x < limit).map(|x| x as u64));
            }
        }
    }
    all.sort();
    all.dedup();
    all
}

fn compare() -> usize {
    let mut count = 0;
    let mut same = |t: u64, c: u64, w: u64| {
        assert_eq!(unsafe { bench_mul_div(t, c, w) }, with_u128(t, c, w), "t = {t}, c = {c}, w = {w}");
        count += 1;
    };
    let totals = edges(64);
    for w in edges(62) {
        for c in [0, 1, w / 3, w / 2, w.saturating_sub(2), w.saturating_sub(1), w].into_iter().filter(|&c| c <= w) {
            totals.iter().for_each(|&t| same(t, c, w));
        }
    }
    let mut random = Random::new(SEED);
    for _ in 0..5_000_000 {
        let (t_bits, w_bits) = (random.between(0, 64), random.between(0, 62));
        let (t, w) = (random.of_bits(t_bits), random.of_bits(w_bits));
        same(t, random.between(0, w), w);
    }
    count
}

// Nanoseconds a call: of calls that do not wait for each other, or each on the result of the last.
fn time(call: Call, figures: &[Figures], chained: bool) -> f64 {
    let call = black_box(call);
    let mask = if chained { 1 } else { 0 };
    let (mut last, mut sum) = (0, 0u64);
    let start = Instant::now();
    for &(t, c, w) in figures {
        last = unsafe { call(t ^ (last & mask), c, w) };
        sum = sum.wrapping_add(last);
    }
    black_box(sum);
    start.elapsed().as_nanos() as f64 / figures.len() as f64
}

fn main() {
    println!("{} results agree", compare());
    for (t_bits, w_bits) in [(31, 31), (40, 41), (31, 49), (62, 41), (62, 49), (62, 62)] {
        let mut random = Random::new(SEED);
        // so many that the processor cannot learn which way each goes
        let figures: Vec<Figures> = (0..100_000)
            .map(|_| {
                let w = random.of_bits(w_bits) | 1 << (w_bits - 1);
                (random.of_bits(t_bits), random.between(0, w), w)
            })
            .collect();
        // the best of many rounds, in which the two take turns
        let mut best = [[f64::MAX; 2]; 2];
        for _ in 0..100 {
            for (chained, best) in best.iter_mut().enumerate() {
                for (which, call) in [bench_mul_div as Call, with_u128 as Call].into_iter().enumerate() {
                    best[which] = best[which].min(time(call, &figures, chained == 1));
                }
            }
        }
        let [free, chained] = best;
        println!(
            "t{t_bits} w{w_bits}: ours / u128 = {:.2} ({:.2} ns / {:.2} ns); one after another {:.2} ({:.2} ns / {:.2} ns)",
            free[0] / free[1], free[0], free[1], chained[0] / chained[1], chained[0], chained[1]
        );
    }
}

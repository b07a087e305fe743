//! Generated lists of calls on a month: mostly in the order of a month, with arguments spoiled now and then, and in
//! half of the lists a month or a ledger of any content put in between.

use crate::count::Count;
use crate::month::{compare, Given};
use crate::random::Random;
use crate::recorder::{Month, Plant};
use crate::tally::Tally;

const SEED: u64 = 1_21;

/// Lists, and the calls in each.
const LISTS: u64 = 20_000;
const CALLS: u64 = 20;

pub fn run(count: &mut Count) {
    let mut random = Random::new(SEED);
    for _ in 0..LISTS {
        if random.chance(50) {
            put_in(count, &mut random);
            count.tried("generated lists with a month or a ledger of any content put in");
        } else {
            tallied(count, &mut random);
            count.tried("generated lists from a blank month, held to their tally");
        }
    }
}

/// Only the calls change month and ledger: after each, the ledger is the tally of the list so far.
fn tallied(count: &mut Count, random: &mut Random) {
    let mut at = begun(random);
    let mut tally = Tally::new(&at);
    for _ in 0..CALLS {
        let (call, asked, number) = step(count, random, &mut at);
        tally.add(call, &asked, number);
        let stated = call != "statement" || number != 0 || tally.is_stated(&asked, &at.bytes);
        count.case(stated, || format!("statement on {:?}: not the tally's", asked));
        count.case(tally.is_ledger(&at) && tally.adds_up(), || {
            format!("{} on {:?}: not the tally {:?}", call, asked, at)
        });
    }
}

/// Months of any stage and figures, and ledgers of any figures, come in between the calls.
fn put_in(count: &mut Count, random: &mut Random) {
    let mut at = begun(random);
    for _ in 0..CALLS {
        if random.chance(8) {
            at.month = any_month(random, &at);
            count.tried("months of any content put in");
        }
        if random.chance(8) {
            any_ledger(random, &mut at);
            count.tried("ledgers of any content put in");
        }
        step(count, random, &mut at);
    }
}

/// A blank month, and tables, profile and ledger for a number of rows.
fn begun(random: &mut Random) -> Given {
    let rows = match random.between(1, 200) {
        1 => random.between(61, 512),
        2..=10 => random.between(13, 60),
        _ => random.between(1, 12),
    } as usize;
    let plants = plants(random, rows);
    Given {
        month: Month::BLANK,
        profile: profile(random, &plants),
        plants,
        tariff: 0,
        metered: Vec::new(),
        allotment: vec![9; 4 * rows],
        allotted: vec![5; 4 * rows],
        accounts: vec![-5; 2 * rows],
        bytes: Vec::new(),
    }
}

/// One call: its name, its arguments as they were put, and its number. Only the month and the ledger go on.
fn step(count: &mut Count, random: &mut Random, at: &mut Given) -> (&'static str, Given, u64) {
    let call = next(random, at);
    let mut asked = at.clone();
    lend(random, call, &mut asked);
    if random.chance(25) {
        spoil(random, &mut asked);
    }
    let before = asked.clone();
    let number = compare(count, call, &mut asked);
    at.month = asked.month;
    // A ledger list spoiled for one call does not go on: open and settle refuse it, the others write none.
    if number == 0 && ["open", "settle"].contains(&call) {
        at.allotted = asked.allotted;
        at.accounts = asked.accounts;
    }
    if number == 0 && call == "open" {
        at.plants = asked.plants;
        at.profile = asked.profile;
    }
    at.bytes = asked.bytes;
    (call, before, number)
}

/// Mostly the call that a month's order asks for.
fn next(random: &mut Random, at: &Given) -> &'static str {
    let finished = at.month.stage == 1 && at.month.due == at.month.periods.wrapping_add(1);
    match random.between(1, 100) {
        1..=8 => "balance",
        9..=14 => "close",
        15..=20 => "open",
        21..=26 => "settle",
        27..=36 => "statement",
        37..=42 => "size",
        _ if finished => "close",
        _ if at.month.stage == 1 => "settle",
        _ => "open",
    }
}

/// The arguments of a call, in limits.
fn lend(random: &mut Random, call: &str, at: &mut Given) {
    let rows = at.plants.len();
    if call == "open" && random.chance(60) || call == "settle" && random.chance(20) {
        let periods = at.profile.len();
        at.plants = plants(random, rows);
        at.profile = profile(random, &at.plants);
        if call == "settle" {
            at.profile.resize(periods, 7);
        }
    }
    if ["statement", "size"].contains(&call) && random.chance(20) {
        at.plants = plants(random, rows);
    }
    at.tariff = tariff(random);
    let period = at.month.due.clamp(1, at.profile.len() as u64) as usize;
    at.metered = split(random, at.profile[period - 1], rows);
    at.allotment = vec![9; 4 * rows];
    let enough = 128 * rows + 128;
    at.bytes = vec![random.next() as u8; random.pick(&[enough, enough, enough, enough - 1, enough + 1, enough + 300])];
}

fn tariff(random: &mut Random) -> u64 {
    let any = random.between(0, 10_000);
    random.pick(&[0, 1, 1300, 9_999, 10_000, any])
}

/// A plant table in limits.
fn plants(random: &mut Random, rows: usize) -> Vec<Plant> {
    let whole = random.chance(40);
    let one = random.chance(20);
    let most = random.pick(&[0, 20, 300, 1_000_000, 1_000_000_000_000]);
    let mut submarkets: Vec<u64> = (0..rows).map(|_| if one { 3 } else { random.between(1, 4) }).collect();
    submarkets.sort();
    let mut number = 0;
    let factor = |random: &mut Random| {
        if whole {
            1_000_000
        } else {
            random.pick(&[0, 1, 500_000, 970_000, 999_999, 1_000_000])
        }
    };
    submarkets
        .iter()
        .map(|&submarket| {
            number += random.between(1, 1_000);
            let guarantee = if random.chance(10) { 0 } else { random.between(0, most) };
            Plant { submarket, number, guarantee, loss: factor(random), availability: factor(random) }
        })
        .collect()
}

/// A profile that makes hours of surplus and hours of deficit.
fn profile(random: &mut Random, plants: &[Plant]) -> Vec<u64> {
    let periods = if random.chance(1) { random.between(6, 744) } else { random.between(1, 5) };
    let guarantees: u64 = plants.iter().map(|p| p.guarantee).sum::<u64>() / periods;
    let most = random.pick(&[0, 12, guarantees, 2 * guarantees, 2_000_000_000]).min(2_000_000_000);
    let mut list: Vec<u64> = (0..periods).map(|_| random.between(0, most)).collect();
    if list.iter().sum::<u64>() == 0 {
        list[0] = 1;
    }
    list
}

/// A total in as many parts, some of them zero.
fn split(random: &mut Random, total: u64, parts: usize) -> Vec<u64> {
    let mut list = vec![0; parts];
    let mut rest = total;
    while rest > 0 {
        let part = if random.chance(20) { rest } else { random.between(1, rest) };
        let at = random.between(0, parts as u64 - 1) as usize;
        list[at] += part;
        rest -= part;
    }
    list
}

/// A month of any content: near the lists at hand, or anywhere.
fn any_month(random: &mut Random, at: &Given) -> Month {
    let (rows, periods) = (at.plants.len() as u64, at.profile.len() as u64);
    let near = random.chance(70);
    let mut figure = |likely: &[u64]| {
        let likely = random.pick(likely);
        match random.between(1, 4) {
            _ if near => likely,
            1 => likely,
            2 => likely.wrapping_add(1 << 32),
            _ => random.sized(64),
        }
    };
    Month {
        stage: figure(&[0, 1, 1, 1, 1, 1, 2, 2, 3, 257, (1 << 32) + 1, u64::MAX]),
        plants: figure(&[rows, rows, rows, rows, 0, 512, 513, u64::MAX]),
        periods: figure(&[periods, periods, periods, periods, 0, 744, 745, u64::MAX]),
        tariff: figure(&[0, 1, 1300, 10_000, 10_001]),
        due: figure(&[0, 1, 1, periods, periods + 1, periods + 2, u64::MAX]),
    }
}

/// A ledger of any content: inside its bounds or near them, often with one figure past its bound; or anywhere.
fn any_ledger(random: &mut Random, at: &mut Given) {
    let (kwh, money) = (second::MAX_KWH, second::MAX_MONEY);
    let anywhere = random.chance(30);
    for figure in at.allotted.iter_mut() {
        *figure = if anywhere { random.sized(64) } else { random.pick(&[0, 5, kwh - 1, kwh]) };
    }
    for (i, figure) in at.accounts.iter_mut().enumerate() {
        let bound = if i % 2 == 0 { kwh } else { money } as i64;
        *figure =
            if anywhere { random.next() as i64 } else { random.pick(&[0, 1, -1, bound, -bound, bound - 1, 1 - bound]) };
    }
    if random.chance(30) {
        // Past it before the hour, and often inside after it.
        at.allotted.fill(0);
        at.accounts.fill(0);
        let index = random.between(0, at.accounts.len() as u64 - 1) as usize;
        let bound = if index % 2 == 0 { kwh } else { money } as i64;
        at.accounts[index] = random.pick(&[bound + 1, -bound - 1]);
    }
}

/// One argument put out of limits, or to its limit.
fn spoil(random: &mut Random, at: &mut Given) {
    let row = random.between(0, at.plants.len() as u64 - 1) as usize;
    let period = random.between(0, at.profile.len() as u64 - 1) as usize;
    match random.between(1, 18) {
        1 => at.plants[row].submarket = random.pick(&[0, 1, 4, 5, u64::MAX]),
        2 => at.plants[row].number = random.pick(&[0, 1, 999_999, 1_000_000, u64::MAX]),
        3 => at.plants[row].guarantee = random.pick(&[1_000_000_000_000, 1_000_000_000_001, u64::MAX]),
        4 => at.plants[row].loss = random.pick(&[1_000_000, 1_000_001, u64::MAX]),
        5 => at.plants[row].availability = random.pick(&[1_000_000, 1_000_001, u64::MAX]),
        6 => at.profile[period] = random.pick(&[2_000_000_000, 2_000_000_001, u64::MAX]),
        7 => at.profile.fill(0),
        8 => at.tariff = random.pick(&[10_000, 10_001, u64::MAX]),
        9 => {
            at.profile.pop();
        }
        10 => {
            at.plants.pop();
        }
        11 => at.metered[row] = random.pick(&[2_000_000_000, 2_000_000_001, u64::MAX]),
        12 => at.metered.push(0),
        13 => {
            at.allotment.pop();
        }
        14 => at.allotted.push(1),
        15 => {
            at.accounts.pop();
        }
        16 => at.plants = at.plants.iter().copied().cycle().take(random.pick(&[0, 512, 513, 700])).collect(),
        17 => at.profile.resize(random.pick(&[0, 744, 745, 800]), 1),
        _ => at.metered[0] = at.metered[0].wrapping_add(1),
    }
}

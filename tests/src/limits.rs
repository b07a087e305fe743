//! Each question of the month's calls from both sides of its limit (01, 'The questions'; 1 to 22), and two faults at
//! once. The numbers here are read from 01, so that they hold the second program too.

use crate::count::Count;
use crate::month::{compare, Given};
use crate::recorder::{Month, Plant};
use crate::worked::{three, ALLOTMENT, NETS};
use std::collections::BTreeMap;

const GUARANTEE: u64 = 1_000_000_000_000;
const HOUR: u64 = 2_000_000_000;
const KWH: u64 = 1_488_000_000_000;
const MONEY: i64 = 14_880_000_000_000_000;

/// Added to a figure in limits, it leaves the low 32 bits as they were.
const HIGH: u64 = 1 << 32;

/// The questions of each call, in the order in which 01 puts them.
pub const ORDER: [(&str, &[u64]); 6] = [
    ("open", &[1, 2, 3, 4, 5, 6, 7, 8, 9, 10, 11]),
    ("settle", &[12, 2, 3, 4, 13, 5, 6, 7, 8, 9, 10, 11, 14, 15, 16, 17, 18, 19]),
    ("balance", &[21, 2, 11, 19]),
    ("close", &[12, 3, 20]),
    ("statement", &[21, 2, 3, 13, 14, 5, 6, 7, 8, 11, 19, 22]),
    ("size", &[21, 2, 3, 13, 14, 5, 6, 7, 8, 11, 19]),
];

/// Stages that no call gives: each is read as blank. Their low bytes are 0, 1, 2 and others.
const STRANGE: [u64; 14] = [
    3,
    4,
    255,
    256,
    257,
    258,
    65_537,
    1 << 32,
    (1 << 32) + 1,
    (1 << 32) + 2,
    1 << 63,
    (1 << 63) + 1,
    u64::MAX - 1,
    u64::MAX,
];

pub fn run(count: &mut Count) {
    let mut limits = Limits { count, sides: BTreeMap::new() };
    opening(&mut limits);
    settling(&mut limits);
    metering(&mut limits);
    bounds(&mut limits);
    balancing(&mut limits);
    closing(&mut limits);
    for call in ["statement", "size"] {
        stating(&mut limits, call);
    }
    room(&mut limits);
    for (call, faults) in [
        ("open", &OPEN[..]),
        ("settle", &SETTLE),
        ("balance", &BALANCE),
        ("close", &CLOSE),
        ("statement", &STATEMENT),
        ("size", &STATEMENT[..STATEMENT.len() - 1]),
    ] {
        two_faults(&mut limits, call, faults);
    }
    rows_before_rows(&mut limits);
    limits.both_sides();
}

/// A valid call: 01's example plants, Q doubled over two periods, and a ledger with figures in it.
fn base(call: &str) -> Given {
    let (stage, due) = match call {
        "open" => (0, 1),
        "close" => (1, 3),
        _ => (1, 1),
    };
    Given {
        month: Month { stage, plants: 3, periods: 2, tariff: 1300, due },
        plants: three(200, 100, 120).to_vec(),
        profile: vec![180, 180],
        tariff: 1300,
        metered: vec![130, 20, 30],
        allotment: vec![9; 12],
        allotted: vec![5; 12],
        accounts: vec![-5; 6],
        bytes: vec![b'.'; 128 * 3 + 128],
    }
}

struct Limits<'a> {
    count: &'a mut Count,
    /// How often each question was answered no, and yes.
    sides: BTreeMap<(&'static str, u64), (u64, u64)>,
}

impl Limits<'_> {
    /// The valid call with a change about one question: the number that 01 gives.
    fn put(&mut self, call: &'static str, question: u64, wanted: u64, change: impl Fn(&mut Given)) {
        self.number(call, wanted, &format!("question {}", question), change);
        let (no, yes) = self.sides.entry((call, question)).or_default();
        if wanted == question {
            *no += 1;
        } else if wanted == 0 || place(call, wanted) > place(call, question) {
            *yes += 1;
        }
    }

    fn number(&mut self, call: &'static str, wanted: u64, what: &str, change: impl Fn(&mut Given)) {
        let mut at = base(call);
        change(&mut at);
        let asked = at.clone();
        let number = compare(self.count, call, &mut at);
        self.count.case(number == wanted, || format!("{}, {}: {}, wanted {}: {:?}", call, what, number, wanted, asked));
    }

    /// Every question of every call was met on both sides.
    fn both_sides(self) {
        for (call, questions) in ORDER {
            for &question in questions {
                let (no, yes) = self.sides.get(&(call, question)).copied().unwrap_or_default();
                self.count.case(no > 0 && yes > 0, || format!("{} {}: {} no, {} yes", call, question, no, yes));
                for _ in 0..no {
                    self.count.tried(format!("limits of {}, its question answered no", call));
                }
                for _ in 0..yes {
                    self.count.tried(format!("limits of {}, the neighbour answered yes", call));
                }
            }
        }
    }
}

/// The place of a number in the order of a call's questions.
fn place(call: &str, number: u64) -> usize {
    let (_, questions) = ORDER.iter().find(|(name, _)| *name == call).expect("a call with questions");
    questions.iter().position(|&question| question == number).expect("a question of this call")
}

/// Rows put to the end of the table until it has n, with lists to fit. The first row's generation stays.
fn more_rows(at: &mut Given, n: usize) {
    while at.plants.len() < n {
        let last = at.plants[at.plants.len() - 1];
        at.plants.push(Plant { number: last.number + 1, ..last });
        at.metered.push(0);
        at.allotment.extend([9; 4]);
        at.allotted.extend([5; 4]);
        at.accounts.extend([-5; 2]);
        at.bytes.extend([b'.'; 128]);
    }
}

/// The first n rows alone, with lists to fit; the first row has all the generation.
fn fewer_rows(at: &mut Given, n: usize) {
    at.plants.truncate(n);
    at.metered = vec![0; n];
    if n > 0 {
        at.metered[0] = at.profile[0];
    }
    at.allotment.truncate(4 * n);
    at.allotted.truncate(4 * n);
    at.accounts.truncate(2 * n);
}

fn rows(at: &mut Given, n: usize) {
    fewer_rows(at, n.min(3));
    if n > 3 {
        more_rows(at, n);
    }
}

fn opening(limits: &mut Limits) {
    for (stage, wanted) in [(0, 0), (1, 1), (2, 0)] {
        limits.put("open", 1, wanted, |at| at.month.stage = stage);
    }
    for stage in STRANGE {
        limits.put("open", 1, 0, |at| at.month.stage = stage);
        // A refusal hands back the month as it came.
        limits.put("open", 4, 4, |at| (at.month.stage, at.tariff) = (stage, 10_001));
    }
    // The figures of a month that is not open are free.
    limits.put("open", 1, 0, |at| {
        at.month = Month { stage: 2, plants: u64::MAX, periods: 0, tariff: u64::MAX, due: u64::MAX };
    });
    for (n, wanted) in [(0, 2), (1, 0), (511, 0), (512, 0), (513, 2), (514, 2), (2_000, 2)] {
        limits.put("open", 2, wanted, |at| rows(at, n));
    }
    for (n, wanted) in [(0, 3), (1, 0), (744, 0), (745, 3), (2_000, 3)] {
        limits.put("open", 3, wanted, |at| at.profile = vec![1; n]);
    }
    for (tariff, wanted) in [(0, 0), (10_000, 0), (10_001, 4), (HIGH + 1300, 4), (u64::MAX, 4)] {
        limits.put("open", 4, wanted, |at| at.tariff = tariff);
    }
    tables(limits, "open");
    profiles(limits, "open");
    ledgers(limits, "open");
}

/// 5 to 8, which open, settle, statement and sizing put.
fn tables(limits: &mut Limits, call: &'static str) {
    places(limits, call);
    for row in 0..3 {
        for (guarantee, wanted) in [(0, 0), (GUARANTEE, 0), (GUARANTEE + 1, 7), ((1 << 63) + 200, 7), (u64::MAX, 7)] {
            limits.put(call, 7, wanted, |at| at.plants[row].guarantee = guarantee);
        }
        for (factor, wanted) in [(0, 0), (1_000_000, 0), (1_000_001, 8), (HIGH + 1_000_000, 8), (u64::MAX, 8)] {
            limits.put(call, 8, wanted, |at| at.plants[row].loss = factor);
            limits.put(call, 8, wanted, |at| at.plants[row].availability = factor);
        }
    }
}

/// 5 and 6.
fn places(limits: &mut Limits, call: &'static str) {
    for (row, submarket, wanted) in [
        (0, 0, 5),
        (0, 1, 0),
        (0, 2, 5),
        (1, 0, 5),
        (1, 2, 0),
        (1, 3, 5),
        (2, 1, 0),
        (2, 2, 0),
        (2, 4, 0),
        (2, 5, 5),
        (2, HIGH + 2, 5),
        (2, u64::MAX, 5),
    ] {
        limits.put(call, 5, wanted, |at| at.plants[row].submarket = submarket);
    }
    for (row, number, wanted) in [
        (0, 0, 6),
        (0, 1, 0),
        (0, 11, 6),
        (1, 9, 6),
        (1, 10, 6),
        (1, 11, 0),
        (1, 999_999, 0),
        (1, 1_000_000, 6),
        (2, 0, 6),
        (2, 1, 0),
        (2, 11, 0),
        (2, 999_999, 0),
        (2, HIGH + 20, 6),
        (2, u64::MAX, 6),
    ] {
        limits.put(call, 6, wanted, |at| at.plants[row].number = number);
    }
    // The last row of a full table.
    for (number, wanted) in [(999_999, 0), (1_000_000, 6)] {
        limits.put(call, 6, wanted, |at| {
            more_rows(at, 512);
            (at.month.plants, at.plants[511].number) = (512, number);
        });
    }
}

/// 9 and 10.
fn profiles(limits: &mut Limits, call: &'static str) {
    for (figure, wanted) in [(0, 0), (HOUR, 0), (HOUR + 1, 9), (HIGH + 180, 9), (u64::MAX, 9)] {
        limits.put(call, 9, wanted, |at| at.profile[1] = figure);
        // The period due, all of it metered at the first plant: 16 and 17 are answered yes where they can be.
        limits.put(call, 9, wanted, |at| {
            (at.profile[0], at.metered) = (figure, vec![figure, 0, 0]);
        });
    }
    for (profile, wanted) in [([0, 0], 10), ([0, 1], 0), ([1, 0], 0)] {
        limits.put(call, 10, wanted, |at| (at.profile, at.metered) = (profile.to_vec(), vec![profile[0], 0, 0]));
    }
    // A sum that would wrap to 0 is 9's, not 10's.
    limits.put(call, 9, 9, |at| at.profile = vec![1 << 63, 1 << 63]);
}

/// 11.
fn ledgers(limits: &mut Limits, call: &'static str) {
    for (kwh, signed, wanted) in [
        (12, 6, 0),
        (11, 6, 11),
        (13, 6, 11),
        (12, 5, 11),
        (12, 7, 11),
        (16, 8, 11),
        (8, 4, 11),
        (6, 12, 11),
        (0, 0, 11),
    ] {
        limits.put(call, 11, wanted, |at| (at.allotted, at.accounts) = (vec![5; kwh], vec![-5; signed]));
    }
}

/// 12 or 21, of a month that is blank, open and closed.
fn stages(limits: &mut Limits, call: &'static str, question: u64, wanted: [u64; 3]) {
    for (stage, wanted) in (0..).zip(wanted) {
        limits.put(call, question, wanted, |at| at.month.stage = stage);
    }
    for stage in STRANGE {
        limits.put(call, question, question, |at| at.month.stage = stage);
    }
}

/// 2 of the month's own P; lists made for another P are refused by `other`.
fn own_plants(limits: &mut Limits, call: &'static str, other: u64) {
    for (plants, wanted) in
        [(0, 2), (1, other), (2, other), (3, 0), (4, other), (512, other), (513, 2), (HIGH + 3, 2), (u64::MAX, 2)]
    {
        limits.put(call, 2, wanted, |at| at.month.plants = plants);
    }
    for (n, wanted) in [(0, 2), (1, 0), (512, 0), (513, 2)] {
        limits.put(call, 2, wanted, |at| {
            rows(at, n);
            at.month.plants = n as u64;
        });
    }
}

fn settling(limits: &mut Limits) {
    stages(limits, "settle", 12, [12, 0, 12]);
    own_plants(limits, "settle", 13);
    for (periods, wanted) in [(0, 3), (1, 13), (2, 0), (3, 13), (744, 13), (745, 3), (HIGH + 2, 3), (u64::MAX, 3)] {
        limits.put("settle", 3, wanted, |at| at.month.periods = periods);
    }
    for (n, wanted) in [(1, 0), (744, 0), (745, 3)] {
        limits.put("settle", 3, wanted, |at| (at.profile, at.month.periods) = (vec![180; n], n as u64));
    }
    for (tariff, wanted) in [(0, 0), (10_000, 0), (10_001, 4), (HIGH + 1300, 4), (u64::MAX, 4)] {
        limits.put("settle", 4, wanted, |at| at.month.tariff = tariff);
    }
    // It is told no tariff: the open call's is free.
    limits.put("settle", 4, 0, |at| at.tariff = u64::MAX);
    lent_as_many(limits);
    tables(limits, "settle");
    profiles(limits, "settle");
    ledgers(limits, "settle");
}

/// 13.
fn lent_as_many(limits: &mut Limits) {
    for (n, wanted) in [(0, 13), (2, 13), (3, 0), (4, 13), (512, 13), (513, 13), (600, 13)] {
        limits.put("settle", 13, wanted, |at| at.plants = at.plants.iter().copied().cycle().take(n).collect());
    }
    // 513 rows for a month of 512, whose lists all fit.
    for (n, wanted) in [(512, 0), (513, 13)] {
        limits.put("settle", 13, wanted, |at| {
            more_rows(at, 512);
            at.month.plants = 512;
            let last = at.plants[511];
            at.plants.resize(n, Plant { number: last.number + 1, ..last });
        });
    }
    for (n, wanted) in [(0, 13), (1, 13), (2, 0), (3, 13), (745, 13)] {
        limits.put("settle", 13, wanted, |at| at.profile.resize(n, 180));
    }
}

/// 14 to 18.
fn metering(limits: &mut Limits) {
    for (due, wanted) in [(0, 14), (1, 0), (2, 0), (3, 14), (HIGH + 1, 14), (u64::MAX, 14)] {
        limits.put("settle", 14, wanted, |at| at.month.due = due);
    }
    for (due, wanted) in [(744, 0), (745, 14)] {
        limits.put("settle", 14, wanted, |at| {
            (at.profile, at.month.periods, at.month.due) = (vec![180; 744], 744, due);
        });
    }
    for (n, wanted) in [(0, 15), (2, 15), (3, 0), (4, 15), (512, 15)] {
        limits.put("settle", 15, wanted, |at| {
            (at.metered, at.profile) = (vec![0; n], vec![0, 180]);
        });
    }
    // A figure above 2 × 10^9 makes 17's sum too large as well, unless it wraps.
    for (metered, wanted) in [
        ([0, HOUR, 0], 0),
        ([0, HOUR + 1, 0], 16),
        ([0, 0, HOUR + 1], 16),
        ([HIGH, HOUR, 0], 16),
        ([u64::MAX, HOUR + 1, 0], 16),
        ([HOUR, HOUR, HOUR], 17),
    ] {
        limits.put("settle", 16, wanted, |at| (at.profile[0], at.metered) = (HOUR, metered.to_vec()));
    }
    for (metered, wanted) in [([130, 20, 30], 0), ([130, 20, 31], 17), ([130, 20, 29], 17), ([0, 0, 0], 17)] {
        limits.put("settle", 17, wanted, |at| at.metered = metered.to_vec());
    }
    // The period due alone counts.
    for (due, wanted) in [(1, 0), (2, 17)] {
        limits.put("settle", 17, wanted, |at| (at.profile[1], at.month.due) = (181, due));
    }
    for (n, wanted) in [(0, 18), (11, 18), (12, 0), (13, 18), (16, 18)] {
        limits.put("settle", 18, wanted, |at| at.allotment = vec![9; n]);
    }
}

/// 19 of a settle: each figure taken to its bound by this hour, and one past it. The hour is 01's m1.
fn bounds(limits: &mut Limits) {
    for (index, figure) in ALLOTMENT.into_iter().enumerate() {
        for (before, wanted) in [(KWH - figure, 0), (KWH - figure + 1, 19), (KWH + 1, 19), (u64::MAX, 19)] {
            limits.put("settle", 19, wanted, |at| at.allotted[index] = before);
        }
    }
    for (row, net) in NETS.into_iter().enumerate() {
        for (index, moved, bound) in [(2 * row, net, KWH as i64), (2 * row + 1, 1300 * net, MONEY)] {
            let toward = moved.signum();
            for (before, wanted) in [
                // Inside before; after it at the bound, and one past it.
                (toward * bound - moved, 0),
                (toward * bound - moved + toward, 19),
                // At the other bound before; one past it before, and inside after.
                (-toward * bound, 0),
                (-toward * bound - toward, 19),
                (i64::MAX, 19),
                (i64::MIN, 19),
            ] {
                limits.put("settle", 19, wanted, |at| at.accounts[index] = before);
            }
        }
    }
}

fn balancing(limits: &mut Limits) {
    stages(limits, "balance", 21, [21, 0, 0]);
    own_plants(limits, "balance", 11);
    // It asks neither H nor TEO nor the period due.
    limits.put("balance", 2, 0, |at| {
        (at.month.periods, at.month.tariff, at.month.due) = (0, u64::MAX, u64::MAX);
    });
    ledgers(limits, "balance");
    at_hand(limits, "balance");
}

/// 19 for the ledger at hand.
fn at_hand(limits: &mut Limits, call: &'static str) {
    for index in 0..12 {
        for (figure, wanted) in [(KWH, 0), (KWH + 1, 19), (u64::MAX, 19)] {
            limits.put(call, 19, wanted, |at| at.allotted[index] = figure);
        }
    }
    for index in 0..6 {
        let bound = if index % 2 == 0 { KWH as i64 } else { MONEY };
        for (figure, wanted) in
            [(bound, 0), (bound + 1, 19), (-bound, 0), (-bound - 1, 19), (i64::MIN, 19), (i64::MAX, 19)]
        {
            limits.put(call, 19, wanted, |at| at.accounts[index] = figure);
        }
    }
    // All figures at their bound: the largest sums there are.
    for sign in [1, -1] {
        limits.put(call, 19, 0, |at| {
            more_rows(at, 512);
            at.month.plants = 512;
            at.allotted.fill(KWH);
            for pair in at.accounts.chunks_mut(2) {
                (pair[0], pair[1]) = (-sign * KWH as i64, sign * MONEY);
            }
        });
    }
}

fn closing(limits: &mut Limits) {
    stages(limits, "close", 12, [12, 0, 12]);
    for (periods, due, wanted) in [
        (0, 1, 3),
        (1, 2, 0),
        (744, 745, 0),
        (745, 746, 3),
        (HIGH + 2, 3, 3),
        (u64::MAX, 0, 3),
        (u64::MAX - 1, u64::MAX, 3),
    ] {
        limits.put("close", 3, wanted, |at| (at.month.periods, at.month.due) = (periods, due));
    }
    for (due, wanted) in [(0, 20), (1, 20), (2, 20), (3, 0), (4, 20), (HIGH + 3, 20), (u64::MAX, 20)] {
        limits.put("close", 20, wanted, |at| at.month.due = due);
    }
    // It asks neither P nor TEO.
    limits.put("close", 3, 0, |at| (at.month.plants, at.month.tariff) = (u64::MAX, u64::MAX));
}

/// The questions that statement and sizing both put.
fn stating(limits: &mut Limits, call: &'static str) {
    stages(limits, call, 21, [21, 0, 0]);
    own_plants(limits, call, 13);
    for (periods, wanted) in [(0, 3), (1, 0), (744, 0), (745, 3), (HIGH + 2, 3), (u64::MAX, 3)] {
        limits.put(call, 3, wanted, |at| at.month.periods = periods);
    }
    for (n, wanted) in [(0, 13), (2, 13), (3, 0), (4, 13), (513, 13), (600, 13)] {
        limits.put(call, 13, wanted, |at| at.plants = at.plants.iter().copied().cycle().take(n).collect());
    }
    for (due, wanted) in [(0, 14), (1, 0), (2, 0), (3, 0), (4, 14), (HIGH + 1, 14), (u64::MAX, 14)] {
        for stage in [1, 2] {
            limits.put(call, 14, wanted, |at| (at.month.stage, at.month.due) = (stage, due));
        }
    }
    // It asks neither TEO nor the profile.
    limits.put(call, 3, 0, |at| (at.month.tariff, at.tariff, at.profile) = (u64::MAX, u64::MAX, vec![u64::MAX; 9]));
    tables(limits, call);
    ledgers(limits, call);
    at_hand(limits, call);
}

/// 22: at least 128P + 128 bytes lent.
fn room(limits: &mut Limits) {
    for (n, enough) in [(1, 256), (3, 512), (512, 65_664)] {
        for (length, wanted) in [(0, 22), (enough - 1, 22), (enough, 0), (enough + 1, 0), (enough + 5_000, 0)] {
            limits.put("statement", 22, wanted, |at| {
                rows(at, n);
                (at.month.plants, at.bytes) = (n as u64, vec![b'.'; length]);
            });
        }
    }
    // The longest figures that there are, in the least room.
    limits.put("statement", 22, 0, |at| {
        more_rows(at, 512);
        (at.month.plants, at.month.periods, at.month.due) = (512, 744, 745);
        for (row, plant) in at.plants.iter_mut().enumerate() {
            (plant.submarket, plant.number) = (4, 999_488 + row as u64);
        }
        at.allotted.fill(KWH);
        for pair in at.accounts.chunks_mut(2) {
            (pair[0], pair[1]) = (-(KWH as i64), -MONEY);
        }
    });
}

// ---- two faults at once

/// A fault for each question, in the order of the questions. An earlier one is put over a later one.
type Fault = (u64, fn(&mut Given));

const OPEN: [Fault; 11] = [
    (1, |at| at.month.stage = 1),
    (2, |at| more_rows(at, 513)),
    (3, |at| at.profile.resize(745, 0)),
    (4, |at| at.tariff = 10_001),
    (5, |at| at.plants[1].submarket = 0),
    (6, |at| at.plants[1].number = 0),
    (7, |at| at.plants[1].guarantee = GUARANTEE + 1),
    (8, |at| at.plants[1].loss = 1_000_001),
    (9, |at| at.profile[1] = HOUR + 1),
    (10, |at| at.profile.fill(0)),
    (11, |at| at.accounts.truncate(5)),
];

const SETTLE: [Fault; 18] = [
    (12, |at| at.month.stage = 2),
    (2, |at| at.month.plants = 513),
    (3, |at| at.month.periods = 745),
    (4, |at| at.month.tariff = 10_001),
    (13, |at| at.plants.push(base("settle").plants[2])),
    (5, |at| at.plants[1].submarket = 0),
    (6, |at| at.plants[1].number = 0),
    (7, |at| at.plants[1].guarantee = GUARANTEE + 1),
    (8, |at| at.plants[1].availability = 1_000_001),
    (9, |at| at.profile[1] = HOUR + 1),
    (10, |at| at.profile.fill(0)),
    (11, |at| at.allotted.push(0)),
    (14, |at| at.month.due = 0),
    (15, |at| at.metered.push(0)),
    (16, |at| at.metered[1] = HOUR + 1),
    (17, |at| at.metered[0] += 1),
    (18, |at| at.allotment.push(0)),
    (19, |at| at.accounts[5] = MONEY + 1),
];

const BALANCE: [Fault; 4] = [
    (21, |at| at.month.stage = 0),
    (2, |at| at.month.plants = 513),
    (11, |at| at.allotted.truncate(11)),
    (19, |at| at.accounts[0] = -(KWH as i64) - 1),
];

const CLOSE: [Fault; 3] = [(12, |at| at.month.stage = 0), (3, |at| at.month.periods = 0), (20, |at| at.month.due = 2)];

const STATEMENT: [Fault; 12] = [
    (21, |at| at.month.stage = 0),
    (2, |at| at.month.plants = 513),
    (3, |at| at.month.periods = 745),
    (13, |at| at.plants.push(base("settle").plants[2])),
    (14, |at| at.month.due = 0),
    (5, |at| at.plants[1].submarket = 0),
    (6, |at| at.plants[1].number = 0),
    (7, |at| at.plants[1].guarantee = GUARANTEE + 1),
    (8, |at| at.plants[1].loss = 1_000_001),
    (11, |at| at.accounts.push(0)),
    (19, |at| at.allotted[11] = KWH + 1),
    (22, |at| at.bytes.truncate(511)),
];

/// Each fault alone, each two of them, and all from each on: the earliest gives the number.
fn two_faults(limits: &mut Limits, call: &'static str, faults: &[Fault]) {
    for (i, &(number, fault)) in faults.iter().enumerate() {
        limits.number(call, number, "one fault", fault);
        for &(later, behind) in &faults[i + 1..] {
            limits.number(call, number, &format!("{} before {}", number, later), |at| {
                behind(at);
                fault(at);
            });
            limits.count.tried(format!("two faults of {}, the earlier gives the number", call));
        }
        limits.number(call, number, "every fault from here on", |at| {
            for (_, fault) in faults[i..].iter().rev() {
                fault(at);
            }
        });
    }
}

/// All questions of a row come before any of the next.
fn rows_before_rows(limits: &mut Limits) {
    let faults: [(u64, fn(&mut Plant)); 5] = [
        (5, |plant| plant.submarket = 5),
        (6, |plant| plant.number = 0),
        (7, |plant| plant.guarantee = u64::MAX),
        (8, |plant| plant.loss = u64::MAX),
        (8, |plant| plant.availability = 1_000_001),
    ];
    for call in ["open", "settle", "statement", "size"] {
        for (row, next) in [(0, 1), (1, 2), (0, 2)] {
            for (number, fault) in faults {
                for (later, behind) in faults {
                    let what = format!("{} of row {} before {} of row {}", number, row, later, next);
                    limits.number(call, number, &what, |at| {
                        fault(&mut at.plants[row]);
                        behind(&mut at.plants[next]);
                    });
                    limits.count.tried(format!("two rows of {} at fault, the earlier gives the number", call));
                }
            }
        }
    }
}

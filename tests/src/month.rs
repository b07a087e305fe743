//! The month's calls open, settle, balance, close, statement and sizing (01, 'Calls' and 'The questions'; 1 to 22)
//! against the second program: its scripts of calls on a month, and generated lists of calls, half of them with a tally.

use crate::count::Count;
use crate::lent::Lent;
use crate::program::STAGE;
use crate::recorder::{End, Hour, Month, Plant, Stated, Sums, Table};
use crate::{limits, lists, recorder, script};
use second::{Desk, Rule, State};

pub fn run(count: &mut Count) {
    script::run_on_a_month(count);
    lists::run(count);
    for (call, questions) in limits::ORDER {
        for &number in [0].iter().chain(questions) {
            count.answered(call, number, 100);
        }
    }
    for kind in HOURS {
        count.reached(&format!("accepted hours, {}", kind), 1_000);
    }
}

/// Everything that a call takes.
#[derive(Clone, PartialEq, Debug)]
pub struct Given {
    pub month: Month,
    pub plants: Vec<Plant>,
    pub profile: Vec<u64>,
    pub tariff: u64,
    pub metered: Vec<u64>,
    pub allotment: Vec<u64>,
    pub allotted: Vec<u64>,
    pub accounts: Vec<i64>,
    pub bytes: Vec<u8>,
}

/// One call of ours and one of the second program on the same arguments: the answer, the month, every lent list and
/// what stands around it. What the call leaves goes on; the answer is the number.
pub fn compare(count: &mut Count, call: &'static str, at: &mut Given) -> u64 {
    let before = at.clone();
    let (number, good) = match call {
        "open" => open(at),
        "settle" => settle(count, at),
        "balance" => balance(at),
        "close" => close(at),
        "statement" => statement(at),
        "size" => size(at),
        _ => unreachable!("no call {}", call),
    };
    // 01: a refusal hands back the month as it came and changes nothing anywhere.
    let kept = number == 0 || *at == before;
    count.case(good && kept, || format!("{} answered {} on {:?}; it left {:?}", call, number, before, at));
    count.called(call, number);
    number
}

fn open(at: &mut Given) -> (u64, bool) {
    let mut ledger = their_ledger(at);
    let (month, number) =
        Desk::new(STAGE).open(their_month(at), &their_plants(at), &at.profile, &[], at.tariff, 1, 1, &mut ledger);
    let wanted = End { number: number as u64, month: month_after(number, at.month, month) };

    let (mut plants, mut profile) = (Lent::new(&at.plants), Lent::new(&at.profile));
    let (mut allotted, mut accounts) = (Lent::new(&at.allotted), Lent::new(&at.accounts));
    let answer = recorder::open(at.month, plants.list(), profile.list(), at.tariff, allotted.list(), accounts.list());
    let read = plants.untouched(&at.plants) && profile.untouched(&at.profile);
    let kept = at.take_back(answer.month, allotted, accounts);
    (answer.number, answer == wanted && read && kept && at.allotted == ledger.kwh && at.accounts == ledger.signed)
}

fn settle(count: &mut Count, at: &mut Given) -> (u64, bool) {
    let before = at.clone();
    let mut ledger = their_ledger(at);
    let mut theirs = at.allotment.clone();
    let (month, number, hour) = Desk::new(STAGE).settle(
        their_month(at),
        &their_plants(at),
        &at.profile,
        &[],
        &at.metered,
        &mut theirs,
        &mut ledger,
    );
    let wanted = Hour {
        number: number as u64,
        month: month_after(number, at.month, month),
        secondary: hour.z,
        guarantees: hour.a,
        cover_table: Table { rows: hour.cover_table },
        secondary_table: Table { rows: hour.secondary_table },
    };

    let (answer, kept) = our_settle(at);
    let alike = at.allotment == theirs && at.allotted == ledger.kwh && at.accounts == ledger.signed;
    let lawful = answer.number != 0 || is_lawful(&before, at, &answer);
    if answer.number == 0 {
        tell(count, &answer);
    }
    (answer.number, answer == wanted && kept && alike && lawful)
}

/// Ours alone. False if it wrote to a list that it only reads, or outside a list.
fn our_settle(at: &mut Given) -> (Hour, bool) {
    let (mut plants, mut profile) = (Lent::new(&at.plants), Lent::new(&at.profile));
    let (mut metered, mut allotment) = (Lent::new(&at.metered), Lent::new(&at.allotment));
    let (mut allotted, mut accounts) = (Lent::new(&at.allotted), Lent::new(&at.accounts));
    let answer = recorder::settle(
        at.month,
        plants.list(),
        profile.list(),
        metered.list(),
        allotment.list(),
        allotted.list(),
        accounts.list(),
    );
    let read = plants.untouched(&at.plants) && profile.untouched(&at.profile) && metered.untouched(&at.metered);
    let kept = at.take_back(answer.month, allotted, accounts);
    let (list, around) = allotment.back();
    at.allotment = list;
    (answer, read && kept && around)
}

/// The kinds of hours that must be met.
const HOURS: [&str; 8] = [
    "A = 0",
    "Z = 0",
    "Z above 0",
    "a cover table",
    "a secondary table",
    "both tables",
    "a submarket covered by two others",
    "a submarket with secondary from two others",
];

fn tell(count: &mut Count, answer: &Hour) {
    let sends = |table: &Table| table.rows != [[0; 4]; 4];
    let by_two = |table: &Table| (0..4).any(|s| table.rows.iter().filter(|row| row[s] > 0).count() > 1);
    let (cover, secondary) = (&answer.cover_table, &answer.secondary_table);
    let held = [
        answer.guarantees == 0,
        answer.secondary == 0,
        answer.secondary > 0,
        sends(cover),
        sends(secondary),
        sends(cover) && sends(secondary),
        by_two(cover),
        by_two(secondary),
    ];
    for (kind, _) in HOURS.iter().zip(held).filter(|(_, held)| *held) {
        count.tried(format!("accepted hours, {}", kind));
    }
}

/// What 01 says of an accepted hour: each plant's four figures and net are its generation; a submarket's column is the
/// generation metered there; nets add up to zero; money is net × TEO; the ledger grew by just these; a submarket sends
/// nothing to itself.
fn is_lawful(before: &Given, after: &Given, answer: &Hour) -> bool {
    let rows = before.plants.len();
    let net = |i: usize| after.accounts[2 * i] as i128 - before.accounts[2 * i] as i128;
    let money = |i: usize| after.accounts[2 * i + 1] as i128 - before.accounts[2 * i + 1] as i128;
    let whole = |i: usize| after.allotment[4 * i..4 * i + 4].iter().map(|&x| x as i128).sum::<i128>();
    let rows_hold = (0..rows)
        .all(|i| whole(i) + net(i) == before.metered[i] as i128 && money(i) == net(i) * before.month.tariff as i128);
    let columns_hold = (0..4).all(|s| {
        let column: u64 = (0..rows).map(|i| after.allotment[4 * i + s]).sum();
        let generation: u64 =
            (0..rows).filter(|&i| before.plants[i].submarket == s as u64 + 1).map(|i| before.metered[i]).sum();
        column == generation
    });
    let posted = (0..4 * rows).all(|i| after.allotted[i] == before.allotted[i] + after.allotment[i]);
    let apart = (0..4).all(|s| answer.cover_table.rows[s][s] == 0 && answer.secondary_table.rows[s][s] == 0);
    rows_hold && columns_hold && posted && apart && (0..rows).map(net).sum::<i128>() == 0
}

fn balance(at: &mut Given) -> (u64, bool) {
    let (_, number, sums) = Desk::new(STAGE).balance(their_month(at), &their_ledger(at));
    let wanted = Sums {
        number: number as u64,
        month: at.month,
        columns: sums.columns.try_into().expect("four columns"),
        net: sums.net,
        money: sums.money,
    };
    let (mut allotted, mut accounts) = (Lent::new(&at.allotted), Lent::new(&at.accounts));
    let answer = recorder::balance(at.month, allotted.list(), accounts.list());
    let read = allotted.untouched(&at.allotted) && accounts.untouched(&at.accounts);
    at.month = answer.month;
    (answer.number, answer == wanted && read)
}

fn close(at: &mut Given) -> (u64, bool) {
    let (month, number) = Desk::new(STAGE).close(their_month(at));
    let wanted = End { number: number as u64, month: month_after(number, at.month, month) };
    let answer = recorder::close(at.month);
    at.month = answer.month;
    (answer.number, answer == wanted)
}

/// 01: the statement fills the front of the lent bytes; the rest stays.
fn statement(at: &mut Given) -> (u64, bool) {
    let mut theirs = at.bytes.clone();
    let (_, number, length) =
        Desk::new(STAGE).statement(their_month(at), &their_plants(at), &[], &their_ledger(at), &mut theirs);
    let wanted = Stated { number: number as u64, month: at.month, length };

    let mut plants = Lent::new(&at.plants);
    let (mut allotted, mut accounts) = (Lent::new(&at.allotted), Lent::new(&at.accounts));
    let mut bytes = Lent::new(&at.bytes);
    let answer = recorder::statement(at.month, plants.list(), allotted.list(), accounts.list(), bytes.list());
    let read = plants.untouched(&at.plants) && allotted.untouched(&at.allotted) && accounts.untouched(&at.accounts);
    let (ours, kept) = bytes.back();
    let from = ours.len().min(answer.length as usize);
    let rest = ours[from..] == at.bytes[from..];
    at.month = answer.month;
    at.bytes = ours;
    (answer.number, answer == wanted && read && kept && rest && at.bytes == theirs)
}

/// 01: the answer is free between the bytes that the statement writes and 128P + 128.
fn size(at: &mut Given) -> (u64, bool) {
    let (_, number, limit, written) = Desk::new(STAGE).size(their_month(at), &their_plants(at), &[], &their_ledger(at));
    let mut plants = Lent::new(&at.plants);
    let (mut allotted, mut accounts) = (Lent::new(&at.allotted), Lent::new(&at.accounts));
    let answer = recorder::size(at.month, plants.list(), allotted.list(), accounts.list());
    let read = plants.untouched(&at.plants) && allotted.untouched(&at.allotted) && accounts.untouched(&at.accounts);
    let free = written <= answer.size && answer.size <= limit;
    let good = answer.number == number as u64 && answer.month == at.month && free && read;
    at.month = answer.month;
    (answer.number, good)
}

impl Given {
    /// Takes over what a call left. False if it wrote outside a lent list.
    fn take_back(&mut self, month: Month, allotted: Lent<u64>, accounts: Lent<i64>) -> bool {
        let ((allotted, kwh_kept), (accounts, signed_kept)) = (allotted.back(), accounts.back());
        self.month = month;
        self.allotted = allotted;
        self.accounts = accounts;
        kwh_kept && signed_kept
    }
}

// ---- as the second program has it

fn their_month(at: &Given) -> second::Month {
    let state = match at.month.stage {
        1 => State::Open,
        2 => State::Closed,
        _ => State::Blank,
    };
    let Month { plants, periods, tariff, due, .. } = at.month;
    second::Month { state, p: plants, h: periods, teo: tariff, due, edition: 1, first: 1 }
}

/// Refused, the month is the caller's own, also where its stage is a number that no call gives.
fn month_after(number: u32, before: Month, theirs: second::Month) -> Month {
    if number != 0 {
        return before;
    }
    let stage = match theirs.state {
        State::Blank => 0,
        State::Open => 1,
        State::Closed => 2,
    };
    Month { stage, plants: theirs.p, periods: theirs.h, tariff: theirs.teo, due: theirs.due }
}

fn their_plants(at: &Given) -> Vec<second::Plant> {
    let row = |p: &Plant| second::Plant {
        submarket: p.submarket,
        number: p.number,
        q: p.guarantee,
        loss: p.loss,
        availability: p.availability,
        owner: 1,
        capacity: second::MAX_HOUR,
    };
    at.plants.iter().map(row).collect()
}

fn their_ledger(at: &Given) -> second::Ledger {
    second::Ledger { kwh: at.allotted.clone(), signed: at.accounts.clone() }
}

/// Period k worked as in 'One hour' from a call's plants, profile and metered figures.
pub fn worked(at: &Given, k: u64) -> second::Hour {
    let plants = their_plants(at);
    let modulated: Vec<u64> =
        plants.iter().map(|plant| second::modulation(plant.q, &at.profile, None).0[k as usize - 1]).collect();
    second::one_hour(Rule::RunningTotal, &plants, &modulated, &at.metered)
}

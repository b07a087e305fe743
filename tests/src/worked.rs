//! 01's 'Hours to prove by hand', m1 to m5, and its example month, through the recorder alone: the figures are the
//! paper's own.

use crate::count::Count;
use crate::recorder::{self, End, Month, Plant, Stated, Sums, Table};

/// The example of 01, 'The file and its statement', with what it must print.
pub const PAPER: &str = "MRE,1,1,3,1300\nP,1,10,100,1000000,1000000\nP,1,11,50,1000000,1000000\n\
                         P,2,20,60,1000000,1000000\nH,1,180\nG,1,130,20,30\n";
pub const STATEMENT: &str = "A,1,10,85,0,0,0,45,58500\nA,1,11,43,0,0,0,-23,-29900\nA,2,20,22,30,0,0,-22,-28600\n\
                             T,1,3,150,30,0,0,180\n";

/// What m1, and so that example, allots to its three plants, and their nets.
pub const ALLOTMENT: [u64; 12] = [85, 0, 0, 0, 43, 0, 0, 0, 22, 30, 0, 0];
pub const NETS: [i64; 3] = [45, -23, -22];

const NOTHING: [[u64; 4]; 4] = [[0; 4]; 4];

/// One hour: Z, A, both tables, the allotment and the nets that it must give.
struct Hour<'a> {
    what: &'a str,
    plants: &'a [Plant],
    profile: &'a [u64],
    due: u64,
    metered: &'a [u64],
    secondary: u64,
    guarantees: u64,
    cover_table: [[u64; 4]; 4],
    secondary_table: [[u64; 4]; 4],
    allotment: &'a [u64],
    nets: &'a [i64],
}

pub fn run(count: &mut Count) {
    three_plants(count);
    one_plant(count);
    example(count);
}

fn plant(submarket: u64, number: u64, guarantee: u64) -> Plant {
    Plant { submarket, number, guarantee, loss: 1_000_000, availability: 1_000_000 }
}

/// 01's three plants, with these guarantees.
pub fn three(q1: u64, q2: u64, q3: u64) -> [Plant; 3] {
    [plant(1, 10, q1), plant(1, 11, q2), plant(2, 20, q3)]
}

/// m1, m2 and m5.
fn three_plants(count: &mut Count) {
    // Submarket 1 is left 45 − 23 = 22 kWh, and submarket 2 needs 22: b is 85, 43, 52.
    let m1 = Hour {
        what: "m1",
        plants: &three(100, 50, 60),
        profile: &[180],
        due: 1,
        metered: &[130, 20, 30],
        secondary: 0,
        guarantees: 210,
        cover_table: [[0, 22, 0, 0], [0; 4], [0; 4], [0; 4]],
        secondary_table: NOTHING,
        allotment: &ALLOTMENT,
        nets: &NETS,
    };
    // Submarket 1 is left 100 − 50 = 50 kWh, 20 of them cover plant 20; of the 30 then left it keeps 21 and sends 9.
    let m2 = Hour {
        what: "m2",
        profile: &[240],
        metered: &[200, 0, 40],
        secondary: 30,
        cover_table: [[0, 20, 0, 0], [0; 4], [0; 4], [0; 4]],
        secondary_table: [[0, 9, 0, 0], [0; 4], [0; 4], [0; 4]],
        allotment: &[114, 0, 0, 0, 57, 0, 0, 0, 29, 40, 0, 0],
        nets: &[86, -57, -29],
        ..m1
    };
    let m5 = Hour {
        what: "m5",
        plants: &three(0, 0, 0),
        secondary: 180,
        guarantees: 0,
        cover_table: NOTHING,
        allotment: &[130, 0, 0, 0, 20, 0, 0, 0, 0, 30, 0, 0],
        nets: &[0, 0, 0],
        ..m1
    };
    for hour in [m1, m2, m5] {
        settled(count, &hour);
    }
}

/// m3 and m4: one plant, which keeps what it generates.
fn one_plant(count: &mut Count) {
    let m3 = Hour {
        what: "m3",
        plants: &[plant(1, 1, 100)],
        profile: &[1, 1, 1],
        due: 1,
        metered: &[1],
        secondary: 0,
        guarantees: 33,
        cover_table: NOTHING,
        secondary_table: NOTHING,
        allotment: &[1, 0, 0, 0],
        nets: &[0],
    };
    let m4 = Hour {
        what: "m4",
        plants: &[Plant { loss: 970_000, availability: 900_000, ..plant(1, 1, 101) }],
        profile: &[87],
        metered: &[87],
        guarantees: 87,
        allotment: &[87, 0, 0, 0],
        ..m3
    };
    settled(count, &m4);
    for (due, guarantees) in [(1, 33), (2, 33), (3, 34)] {
        settled(count, &Hour { due, guarantees, ..m3 });
    }
}

fn settled(count: &mut Count, hour: &Hour) {
    let rows = hour.plants.len();
    let month =
        Month { stage: 1, plants: rows as u64, periods: hour.profile.len() as u64, tariff: 1300, due: hour.due };
    let (mut allotment, mut allotted, mut accounts) = (vec![9; 4 * rows], vec![0; 4 * rows], vec![0; 2 * rows]);
    let answer =
        recorder::settle(month, hour.plants, hour.profile, hour.metered, &mut allotment, &mut allotted, &mut accounts);
    let wanted = recorder::Hour {
        number: 0,
        month: Month { due: hour.due + 1, ..month },
        secondary: hour.secondary,
        guarantees: hour.guarantees,
        cover_table: Table { rows: hour.cover_table },
        secondary_table: Table { rows: hour.secondary_table },
    };
    let paid: Vec<i64> = hour.nets.iter().flat_map(|&net| [net, 1300 * net]).collect();
    let good = answer == wanted && allotment == hour.allotment && allotted == hour.allotment && accounts == paid;
    count.case(good, || format!("{}: {:?} {:?} {:?}, wanted {:?}", hour.what, answer, allotment, accounts, wanted));
    count.tried("hours of 01 worked by hand, m1 to m5");
}

/// 01's file as calls, and its statement: the A lines are the ledger, the T line is the balance.
fn example(count: &mut Count) {
    let plants = three(100, 50, 60);
    let (mut allotment, mut allotted, mut accounts) = ([7; 12], [7; 12], [7; 6]);
    let mut step = |good: bool, what: &str| {
        count.case(good, || format!("the example month: {}", what));
        count.tried("calls of 01's example month");
    };

    let opened = Month { stage: 1, plants: 3, periods: 1, tariff: 1300, due: 1 };
    let end = recorder::open(Month::BLANK, &plants, &[180], 1300, &mut allotted, &mut accounts);
    step(end == End { number: 0, month: opened } && allotted == [0; 12] && accounts == [0; 6], "open");

    let settled = Month { due: 2, ..opened };
    let hour =
        recorder::settle(end.month, &plants, &[180], &[130, 20, 30], &mut allotment, &mut allotted, &mut accounts);
    let paid = [45, 58_500, -23, -29_900, -22, -28_600];
    step(hour.number == 0 && hour.month == settled && allotment == ALLOTMENT, "settle");
    step(allotted == ALLOTMENT && accounts == paid, "the ledger");

    let wanted = Sums { number: 0, month: settled, columns: [150, 30, 0, 0], net: 0, money: 0 };
    step(recorder::balance(hour.month, &allotted, &accounts) == wanted, "balance");

    let closed = Month { stage: 2, ..settled };
    let end = recorder::close(hour.month);
    step(end == End { number: 0, month: closed }, "close");
    step(recorder::balance(end.month, &allotted, &accounts) == Sums { month: closed, ..wanted }, "balance after close");

    let mut bytes = [b'.'; 128 * 3 + 128];
    let stated = recorder::statement(closed, &plants, &allotted, &accounts, &mut bytes);
    let written = STATEMENT.len();
    let rest = bytes[written..].iter().all(|&b| b == b'.');
    step(stated == Stated { number: 0, month: closed, length: written as u64 }, "statement");
    step(bytes.starts_with(STATEMENT.as_bytes()) && rest, "the statement's bytes");
    let sized = recorder::size(closed, &plants, &allotted, &accounts);
    let free = written as u64 <= sized.size && sized.size <= bytes.len() as u64;
    step(sized.number == 0 && sized.month == closed && free, "size");
}

//! Month files through the built program `settle-month`: document 01's example, what 01 says of single files, those of
//! examples/, and every kind of file that the second program generates. What is printed is compared byte for byte.

use crate::count::Count;
use crate::program;
use crate::settle_month::{self, arrival, compare, printed, said, worked, Arrival, Outcome, REFUSALS};
use crate::worked::{PAPER, STATEMENT};

/// Files of each kind, of the statements' kinds and of the others.
const MONTHS: u64 = 60;
const FILES: u64 = 30;

/// The kind whose file is the largest there can be but for its figures' digits; it is settled once for each arrival.
const FULL: &str = "month-full";

/// Changes of the paper's example: what stands there, what comes instead, and what 01 has the file print.
const CHANGES: [(&str, &str, &str); 40] = [
    // 2 to 4 are put on the first line, in this order; it names periods first.
    ("MRE,1,1,3,", "MRE,1,1,0,", "R,1,2\n"),
    ("MRE,1,1,3,", "MRE,1,1,513,", "R,1,2\n"),
    ("MRE,1,1,3,1300", "MRE,1,0,0,10001", "R,1,2\n"),
    ("MRE,1,1,3,", "MRE,1,0,3,", "R,1,3\n"),
    ("MRE,1,1,3,", "MRE,1,745,3,", "R,1,3\n"),
    ("MRE,1,1,3,1300", "MRE,1,745,3,10001", "R,1,3\n"),
    (",1300", ",10001", "R,1,4\n"),
    // More plants or periods than lines follow: the line that stands there is out of turn.
    ("MRE,1,1,3,", "MRE,1,1,512,", "R,5,31\n"),
    ("MRE,1,1,3,", "MRE,1,744,3,", "R,6,31\n"),
    // It opens after the last H line, so 5 to 10 bear that line's number.
    ("P,1,10,", "P,0,10,", "R,5,5\n"),
    ("P,2,20,", "P,5,20,", "R,5,5\n"),
    ("P,1,11,", "P,1,10,", "R,5,6\n"),
    ("P,2,20,", "P,2,1000000,", "R,5,6\n"),
    (",100,", ",1000000000001,", "R,5,7\n"),
    ("60,1000000,", "60,1000001,", "R,5,8\n"),
    ("H,1,180", "H,1,2000000001", "R,5,9\n"),
    ("H,1,180", "H,1,0", "R,5,10\n"),
    // It settles after each G line.
    ("G,1,130,20,30", "G,1,130,50", "R,6,15\n"),
    ("G,1,130,20,30", "G,1,130,20,30,0", "R,6,15\n"),
    ("G,1,130,", "G,1,2000000001,", "R,6,16\n"),
    ("G,1,130,", "G,1,131,", "R,6,17\n"),
    // Reading: 26 to 29 come before 31, and 31 before the other questions.
    ("MRE,1,", "MRE,2,", "R,1,27\n"),
    ("P,1,10", "p,1,10", "R,2,27\n"),
    ("H,1,180\n", "H,1,180\n\n", "R,6,27\n"),
    (",1300", "", "R,1,28\n"),
    ("P,1,11,50,", "P,1,11,", "R,3,28\n"),
    ("H,1,180", "H,1,0180", "R,5,29\n"),
    ("H,1,180\n", "H,1,180\r\n", "R,5,29\n"),
    ("G,1,130", "G,1,10000000000000000130", "R,6,29\n"),
    ("H,1,180", "H,2,2000000001", "R,5,31\n"),
    ("G,1,130,20,30", "G,2,2000000001", "R,6,31\n"),
    ("G,1,130,20,30\n", "G,1,131,20,30", "R,6,31\n"),
    ("G,1,130,20,30\n", "G,1,130,,30", "R,6,29\n"),
    // An early end, as the line after the last; a line after the last G.
    ("G,1,130,20,30\n", "", "R,6,31\n"),
    ("H,1,180\nG,1,130,20,30\n", "", "R,5,31\n"),
    ("20,30\n", "20,30", "R,6,31\n"),
    ("20,30\n", "20,30\nG,2,130,20,30\n", "R,7,31\n"),
    ("20,30\n", "20,30\nG,2,1", "R,7,31\n"),
    ("20,30\n", "20,30\n\n", "R,7,27\n"),
    (PAPER, "", "R,1,31\n"),
];

pub fn run(count: &mut Count) {
    for case in 0..12 {
        said(count, "the paper's example", PAPER.as_bytes(), STATEMENT, arrival(case));
        count.tried("the paper's example");
    }
    for (file, wanted) in spoken() {
        for case in 0..6 {
            said(count, &format!("{:?}", file), file.as_bytes(), wanted, arrival(case));
        }
        count.tried("files of one change to the paper's example, with 01's answer");
    }
    examples(count);
    generated(count);
}

/// The changed files, and files of a line at its limits, each with what 01 has it print.
fn spoken() -> Vec<(String, &'static str)> {
    let change = |&(old, new, wanted): &(&str, &str, &'static str)| {
        assert!(PAPER.contains(old), "{} does not stand in the example", old);
        (PAPER.replacen(old, new, 1), wanted)
    };
    let mut files: Vec<(String, &'static str)> = CHANGES.iter().map(change).collect();
    // 8,192 bytes are read, 8,193 are not; 513 fields are a G line, 514 are not.
    files.push((PAPER.replacen("P,2,20", &format!("P,2,{}", "7".repeat(8192 - 23)), 1), "R,4,29\n"));
    files.push((PAPER.replacen("P,2,20", &format!("P,2,{}", "7".repeat(8193 - 23)), 1), "R,4,26\n"));
    files.push((PAPER.replacen("G,1,130", &format!("G,1,130{}", ",7".repeat(509)), 1), "R,6,15\n"));
    files.push((PAPER.replacen("G,1,130", &format!("G,1,130{}", ",7".repeat(510)), 1), "R,6,28\n"));
    files
}

/// Each file of examples/ with its statement, or its refusal.
fn examples(count: &mut Count) {
    for (path, file, wanted) in settle_month::examples() {
        for case in 0..6 {
            let ours = printed(&file, arrival(case));
            count.case(ours.as_ref() == Ok(&wanted), || format!("{}: {:?}", path.display(), ours));
        }
        count.tried("files of examples/, each by six arrivals");
    }
    count.reached("files of examples/, each by six arrivals", 4);
}

/// The files that the second program generates.
fn generated(count: &mut Count) {
    let mut cases: Vec<(String, u64)> = Vec::new();
    for kind in program::kinds("month-").into_iter().filter(|kind| kind != FULL) {
        cases.extend((1..=MONTHS).map(|seed| (kind.clone(), seed)));
    }
    for kind in program::kinds("file-") {
        cases.extend((1..=FILES).map(|seed| (kind.clone(), seed)));
    }
    let outcomes = worked(cases.len() as u64, |case| {
        let (kind, seed) = &cases[case as usize];
        // The kinds' numbers of seeds are multiples of 6, the number of arrivals: the seed decides.
        compare(&format!("{} seed {}", kind, seed), &program::generated(*seed, kind), arrival(*seed))
    });
    for ((kind, _), outcome) in cases.iter().zip(outcomes) {
        expected(count, kind, &outcome);
        // By kind for statements, by number for the others.
        let tally = if kind.starts_with("file-") { format!("{}-*", &kind[..7]) } else { kind.clone() };
        taken(count, tally, outcome);
    }
    let full = program::generated(1, FULL);
    for arrival in [Arrival::Stored, Arrival::Whole, Arrival::Pieces(4096), Arrival::Pieces(7), Arrival::Mixed(1)] {
        taken(count, FULL.to_string(), compare(FULL, &full, arrival));
    }
    count.answered("settle-month", 0, FILES);
    for number in REFUSALS {
        count.answered("settle-month", number, FILES);
    }
}

/// A kind's name has the number that its files are made to give: file-NN-what, and none for a statement.
fn expected(count: &mut Count, kind: &str, outcome: &Outcome) {
    let wanted = match kind.strip_prefix("file-") {
        Some(rest) => rest[..2].parse().expect("two digits"),
        None => 0,
    };
    count.case(outcome.number == wanted, || format!("{}: {}, wanted {}", outcome.label, outcome.number, wanted));
}

/// Counts what a file gave.
pub fn taken(count: &mut Count, tally: String, outcome: Outcome) {
    count.called("settle-month", outcome.number);
    count.tried(tally);
    count.case(outcome.wrong.is_none(), || outcome.wrong.unwrap_or_default());
}

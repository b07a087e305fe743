//! The recorder, called through its C interface, and the program `settle-month`, compared with the second program.
//!
//!   compare                every part
//!   compare WORD ..        the named parts; `recorder` and `program` stand for all parts of the one and of the other;
//!                          `c_scripts` needs tests/c/scripts.c, built beside this program
//!
//! Each part prints how many cases it tried and of which kind. The last line is 'N passed, M failed'; the exit status
//! is 0 only if nothing failed and something was tried.

mod count;
mod damage;
mod feeds;
mod files;
mod lent;
mod limits;
mod lines;
mod lists;
mod month;
mod months;
mod program;
mod random;
mod recorder;
mod script;
mod settle_month;
mod share;
mod streams;
mod tally;
mod transfer;
mod worked;

/// Calls that a run of every part over the recorder puts to both programs, at least.
const CALLS: u64 = 200_000;

type Part = (&'static str, fn(&mut count::Count));

const RECORDER: [Part; 9] = [
    ("share", share::run),
    ("transfer", transfer::run),
    ("lines", lines::run),
    ("scripts", script::run),
    ("month", month::run),
    ("limits", limits::run),
    ("worked", worked::run),
    ("files", files::run),
    ("feeds", feeds::run),
];

const PROGRAM: [Part; 3] = [("months", months::run), ("damage", damage::run), ("streams", streams::run)];

fn main() {
    let words: Vec<String> = std::env::args().skip(1).collect();
    let asked = |name: &str| words.is_empty() || words.iter().any(|word| word == name);
    let mut count = count::Count::new();
    for (name, run) in RECORDER.into_iter().filter(|(name, _)| asked("recorder") || asked(name)) {
        count.part(name, run);
    }
    if asked("recorder") {
        count.compared(CALLS);
    }
    for (name, run) in PROGRAM.into_iter().filter(|(name, _)| asked("program") || asked(name)) {
        count.part(name, run);
    }
    if asked("c_scripts") {
        count.part("c_scripts", script::run_by_c);
    }
    std::process::exit(if count.finish() { 0 } else { 1 });
}

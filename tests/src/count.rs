//! What was tried and how it went. A part prints its tallies; at the end stand the calls compared in all, by call and
//! number, and the program's last line is 'N passed, M failed'.

use std::collections::BTreeMap;

/// Failures printed, over the whole run, and how much of each.
const SHOWN: u64 = 20;
const CUT: usize = 2_000;

/// How often each call answered each number.
type Answers = BTreeMap<(&'static str, u64), u64>;

pub struct Count {
    part: &'static str,
    passed: u64,
    failed: u64,
    part_passed: u64,
    part_failed: u64,
    tallies: BTreeMap<String, u64>,
    part_answers: Answers,
    answers: Answers,
}

impl Count {
    pub fn new() -> Count {
        Count {
            part: "",
            passed: 0,
            failed: 0,
            part_passed: 0,
            part_failed: 0,
            tallies: BTreeMap::new(),
            part_answers: BTreeMap::new(),
            answers: BTreeMap::new(),
        }
    }

    /// Runs one part, then prints what it tried.
    pub fn part(&mut self, name: &'static str, run: impl FnOnce(&mut Count)) {
        self.part = name;
        self.part_passed = 0;
        self.part_failed = 0;
        self.tallies.clear();
        self.part_answers.clear();
        let started = std::time::Instant::now();
        run(self);
        let seconds = started.elapsed().as_secs_f64();
        println!("{}: {} passed, {} failed ({:.1} s)", name, self.part_passed, self.part_failed, seconds);
        for (label, tried) in &self.tallies {
            println!("{:>10} {}", tried, label);
        }
        print_answers(&self.part_answers);
    }

    /// One case: it counts as passed only if all that is asked of it holds.
    pub fn case(&mut self, good: bool, what: impl FnOnce() -> String) {
        if good {
            self.passed += 1;
            self.part_passed += 1;
            return;
        }
        self.failed += 1;
        self.part_failed += 1;
        if self.failed <= SHOWN {
            println!("FAILED {}: {}", self.part, what().chars().take(CUT).collect::<String>());
        }
    }

    /// Counts one call that was put to both programs, with the number that the recorder answered; it decides nothing.
    pub fn called(&mut self, call: &'static str, number: u64) {
        *self.part_answers.entry((call, number)).or_insert(0) += 1;
        *self.answers.entry((call, number)).or_insert(0) += 1;
    }

    /// Counts one more of `label`; it decides nothing.
    pub fn tried(&mut self, label: impl Into<String>) {
        *self.tallies.entry(label.into()).or_insert(0) += 1;
    }

    /// A case of its own: in this part the call answered the number at least `least` times.
    pub fn answered(&mut self, call: &'static str, number: u64, least: u64) {
        let times = self.part_answers.get(&(call, number)).copied().unwrap_or(0);
        self.case(times >= least, || format!("{} answered {} only {} times, {} wanted", call, number, times, least));
    }

    /// A case of its own: at least `least` of `label` were tried in this part.
    pub fn reached(&mut self, label: &str, least: u64) {
        let tried = self.tallies.get(label).copied().unwrap_or(0);
        self.case(tried >= least, || format!("only {} of '{}' were tried, {} wanted", tried, label, least));
    }

    /// The calls put to both programs so far.
    fn calls(&self) -> u64 {
        self.answers.values().sum()
    }

    /// A case of its own: at least `least` calls were put to both programs so far.
    pub fn compared(&mut self, least: u64) {
        let calls = self.calls();
        self.case(calls >= least, || format!("only {} calls compared, {} wanted", calls, least));
    }

    /// Prints the calls compared in all and the last line. True if nothing failed and something was tried.
    pub fn finish(&self) -> bool {
        println!("{} calls compared in all", self.calls());
        print_answers(&self.answers);
        let mut numbers: BTreeMap<u64, u64> = BTreeMap::new();
        for ((_, number), times) in &self.answers {
            *numbers.entry(*number).or_insert(0) += times;
        }
        let line: String = numbers.iter().map(|(number, times)| format!("  {}: {}", number, times)).collect();
        println!("each number, with how often it was answered:{}", line);
        println!("{} passed, {} failed", self.passed, self.failed);
        self.failed == 0 && self.passed > 0
    }
}

/// A line for each call: how often, then each number with how often it was answered.
fn print_answers(answers: &Answers) {
    let mut lines: BTreeMap<&str, (u64, String)> = BTreeMap::new();
    for ((call, number), times) in answers {
        let (whole, line) = lines.entry(call).or_default();
        *whole += times;
        *line += &format!("  {}: {}", number, times);
    }
    for (call, (whole, line)) in lines {
        println!("{:>10} {} answered{}", whole, call, line);
    }
}

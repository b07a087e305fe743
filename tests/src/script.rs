//! Scripts of calls, as the second program generates them (kinds calls-*; the language is described at the head of
//! second/script.rs). Each script is run over the recorder, by `Bench` here or by tests/c/scripts.c as a process, and
//! by the second program, and what the two print is compared line by line: every answer, with the number that the
//! script expects, after each call the month and every list that it could write, and the month and ledger at the end.
//! What stands around a list, and a list that a call only reads, must stay.

use crate::count::Count;
use crate::lent::Lent;
use crate::program;
use crate::recorder::{self, Month, Plant};
use std::collections::BTreeMap;
use std::fmt::Write as _;

/// A kind of scripts, with how many seeds of it are run here, and how many by the C program. The scripts of limits and of
/// the paper are the same for every seed.
type Kind = (&'static str, u64, u64);

/// The kinds without a month, and those with one, which are run in `month`.
const ALONE: [Kind; 3] = [("calls-share", 500, 20), ("calls-transfer", 500, 20), ("calls-lines", 2_000, 20)];
const ON_A_MONTH: [Kind; 5] = [
    ("calls-random", 1_500, 60),
    ("calls-hours", 500, 30),
    ("calls-limits", 1, 1),
    ("calls-big", 12, 1),
    ("calls-paper", 1, 1),
];

/// The calls, each with what is shown after it, and with what it only reads.
const CALLS: [(&str, &[&str], &[&str]); 10] = [
    ("open", &["month", "kwh", "signed"], &["plants", "profile"]),
    ("settle", &["month", "kwh", "signed", "allot"], &["plants", "profile", "metered"]),
    ("balance", &["month", "kwh", "signed"], &[]),
    ("close", &["month", "kwh", "signed"], &[]),
    ("statement", &["month", "kwh", "signed", "bytes"], &["plants", "profile"]),
    ("size", &["month", "kwh", "signed"], &["plants", "profile"]),
    ("share", &["parts"], &["weights"]),
    ("transfer", &[], &[]),
    ("read", &["figures"], &["line"]),
    ("field", &[], &["line"]),
];

/// Who runs a script over the recorder.
#[derive(Clone, Copy, PartialEq)]
enum By {
    Bench,
    C,
}

const UNSIGNED: [&str; 14] = [
    "plants", "profile", "levels", "metered", "allot", "kwh", "bytes", "line", "figures", "weights", "parts", "table",
    "hours", "months",
];
const SIGNED: [&str; 2] = ["signed", "totals"];

pub fn run(count: &mut Count) {
    for (name, seeds, _) in ALONE {
        kind(count, name, seeds, By::Bench);
    }
}

/// These, which are the last: no kind is left out.
pub fn run_on_a_month(count: &mut Count) {
    for (name, seeds, _) in ON_A_MONTH {
        kind(count, name, seeds, By::Bench);
    }
    for kind in program::kinds("calls-") {
        let run = ALONE.iter().chain(&ON_A_MONTH).any(|(name, ..)| *name == kind);
        count.case(run, || format!("no script of {} is run", kind));
    }
}

/// Both by the C program.
pub fn run_by_c(count: &mut Count) {
    for (name, _, seeds) in ALONE.into_iter().chain(ON_A_MONTH) {
        kind(count, name, seeds, By::C);
    }
}

/// Runs the scripts of one kind.
fn kind(count: &mut Count, kind: &str, seeds: u64, by: By) {
    for seed in 1..=seeds {
        let script = watched(&program::generated(seed, kind), by);
        let label = format!("{} seed {}", kind, seed);
        let ours = match by {
            By::Bench => Bench::play(&script),
            By::C => program::c_scripts(&script),
        };
        match ours {
            Ok(ours) => compare(count, &label, &expected(&script), &ours, &program::calls(&script)),
            Err(why) => count.case(false, || format!("{}: {}", label, why)),
        }
        count.tried(format!("scripts of {}", kind));
    }
}

/// The call that a line of a script, or of what it prints, begins with.
fn call_of(line: &[u8]) -> Option<(&'static str, &'static [&'static str], &'static [&'static str])> {
    let word = line.split(|&b| b == b' ').next()?;
    CALLS.iter().copied().find(|(call, ..)| call.as_bytes() == word)
}

/// The script, with what each call could write shown after it. `Bench` itself holds what a call only reads; the C
/// program takes it back too, so that it is shown.
fn watched(script: &[u8], by: By) -> Vec<u8> {
    let mut out = Vec::new();
    for line in script.split_inclusive(|&b| b == b'\n') {
        out.extend_from_slice(line);
        let (_, written, read) = call_of(line.strip_suffix(b"\n").unwrap_or(line)).unwrap_or(("", &[], &[]));
        for list in written.iter().chain(read.iter().filter(|_| by == By::C)) {
            out.extend_from_slice(format!("show {}\n", list).as_bytes());
        }
    }
    out
}

/// The number that each call of the script must answer, where a line `# expect` before it says one.
fn expected(script: &[u8]) -> Vec<Option<u64>> {
    let (mut numbers, mut next) = (Vec::new(), None);
    for line in script.split(|&b| b == b'\n') {
        if let Some(number) = line.strip_prefix(b"# expect ") {
            next = Some(String::from_utf8_lossy(number).parse().expect("a number"));
        } else if call_of(line).is_some() {
            numbers.push(next.take());
        }
    }
    numbers
}

/// A line that both print alike is a case; so is a script whose outputs are as long, with an answer for each call.
fn compare(count: &mut Count, label: &str, expected: &[Option<u64>], ours: &str, theirs: &str) {
    let mut answered = 0;
    for (at, (our, their)) in ours.lines().zip(theirs.lines()).enumerate() {
        let (mut good, mut wanted) = (alike(our, their), None);
        if let Some((call, ..)) = call_of(our.as_bytes()) {
            let number = our.split(' ').nth(1).and_then(|word| word.parse().ok());
            let number = number.expect("an answer begins with its number");
            wanted = expected.get(answered).copied().flatten();
            good &= wanted.unwrap_or(number) == number;
            answered += 1;
            count.called(call, number);
        }
        count.case(good, || format!("{}, line {}: {}, wanted {}, expected {:?}", label, at + 1, our, their, wanted));
    }
    let as_long = ours.lines().count() == theirs.lines().count();
    count.case(as_long && answered > 0 && answered == expected.len(), || {
        format!("{}: {} calls answered of {}, or outputs of other lengths", label, answered, expected.len())
    });
}

/// Equal, but for a size: 01 leaves its answer free between the bytes that the statement writes and 128P + 128, which
/// the second program prints last and before it.
fn alike(our: &str, their: &str) -> bool {
    let figures = |line: &str| line.split(' ').skip(1).map(|word| word.parse().ok()).collect::<Option<Vec<u64>>>();
    if !our.starts_with("size ") {
        return our == their;
    }
    match (figures(our).as_deref(), figures(their).as_deref()) {
        (Some([number, size]), Some([wanted, limit, written])) => {
            number == wanted && written <= size && size <= limit && their.starts_with("size ")
        }
        _ => false,
    }
}

/// Everything that a script can name. The month is blank until a `month` line.
struct Bench {
    month: Month,
    unsigned: BTreeMap<&'static str, Vec<u64>>,
    signed: BTreeMap<&'static str, Vec<i64>>,
    out: String,
}

impl Bench {
    fn new() -> Bench {
        Bench {
            month: Month::BLANK,
            unsigned: UNSIGNED.iter().map(|&name| (name, Vec::new())).collect(),
            signed: SIGNED.iter().map(|&name| (name, Vec::new())).collect(),
            out: String::new(),
        }
    }

    /// Runs a whole script; at its end the state is printed.
    fn play(script: &[u8]) -> Result<String, String> {
        let mut bench = Bench::new();
        for (at, line) in script.split(|&b| b == b'\n').enumerate() {
            bench.line(line).map_err(|why| format!("script line {}: {}", at + 1, why))?;
        }
        bench.show_state();
        Ok(bench.out)
    }

    fn line(&mut self, line: &[u8]) -> Result<(), String> {
        if let Some(rest) = line.strip_prefix(b"text ") {
            self.unsigned.insert("line", rest.iter().map(|&b| b as u64).collect());
            return Ok(());
        }
        let line = std::str::from_utf8(line).map_err(|_| "not plain text")?;
        let words: Vec<&str> = line.split(' ').filter(|w| !w.is_empty()).collect();
        match words[..] {
            [] => Ok(()),
            [comment, ..] if comment.starts_with('#') => Ok(()),
            ["more", name, ref rest @ ..] => self.put(name, rest, false),
            ["fill", name, times, value] => self.put(name, &vec![value; figure(times)?], true),
            ["poke", name, index, value] => self.poke(name, figure(index)?, value),
            ["show"] => {
                self.show_state();
                Ok(())
            }
            ["show", "month"] => {
                self.show_month();
                Ok(())
            }
            ["show", name] => self.show(name),
            ["month", stage, plants, periods, tariff, due, _edition, _first] => {
                self.month = Month {
                    stage: figure(stage)?,
                    plants: figure(plants)?,
                    periods: figure(periods)?,
                    tariff: figure(tariff)?,
                    due: figure(due)?,
                };
                Ok(())
            }
            [name, ref rest @ ..] if UNSIGNED.contains(&name) || SIGNED.contains(&name) => self.put(name, rest, true),
            [call, ref rest @ ..] => self.call(call, rest),
        }
    }

    // ---- lists

    fn put(&mut self, name: &str, words: &[&str], anew: bool) -> Result<(), String> {
        if let Some(list) = self.unsigned.get_mut(name) {
            put(list, words, anew)
        } else {
            put(self.signed.get_mut(name).ok_or(format!("no list {}", name))?, words, anew)
        }
    }

    fn poke(&mut self, name: &str, index: usize, word: &str) -> Result<(), String> {
        if let Some(list) = self.unsigned.get_mut(name) {
            *list.get_mut(index).ok_or("past the list's end")? = figure(word)?;
        } else {
            let list = self.signed.get_mut(name).ok_or(format!("no list {}", name))?;
            *list.get_mut(index).ok_or("past the list's end")? = figure(word)?;
        }
        Ok(())
    }

    fn show(&mut self, name: &str) -> Result<(), String> {
        let words = if let Some(list) = self.unsigned.get(name) {
            words_of(list)
        } else {
            words_of(self.signed.get(name).ok_or(format!("no list {}", name))?)
        };
        let length = self.unsigned.get(name).map_or_else(|| self.signed[name].len(), |list| list.len());
        let _ = writeln!(self.out, "{} {}{}", name, length, words);
        Ok(())
    }

    fn show_month(&mut self) {
        let Month { stage, plants, periods, tariff, due } = self.month;
        let _ = writeln!(self.out, "month{}", words_of(&[stage, plants, periods, tariff, due]));
    }

    fn show_state(&mut self) {
        self.show_month();
        self.show("kwh").expect("the ledger has a list kwh");
        self.show("signed").expect("the ledger has a list signed");
    }

    /// Seven words a record; owner and capacity come with E3.
    fn plants(&self) -> Vec<Plant> {
        let record =
            |w: &[u64]| Plant { submarket: w[0], number: w[1], guarantee: w[2], loss: w[3], availability: w[4] };
        self.unsigned["plants"].chunks_exact(7).map(record).collect()
    }

    fn bytes(&self, name: &str) -> Result<Vec<u8>, String> {
        self.unsigned[name].iter().map(|&b| u8::try_from(b).map_err(|_| "not a byte".to_string())).collect()
    }

    // ---- calls

    fn lend(&self, name: &str) -> Lent<u64> {
        Lent::new(&self.unsigned[name])
    }

    /// Takes back a list that the call only reads.
    fn read(&self, name: &str, list: Lent<u64>) -> Result<(), String> {
        stayed(list.untouched(&self.unsigned[name]), name)
    }

    /// Takes back a list that the call may have written.
    fn written(&mut self, name: &'static str, list: Lent<u64>) -> Result<(), String> {
        let (list, kept) = list.back();
        self.unsigned.insert(name, list);
        stayed(kept, name)
    }

    fn lend_accounts(&self) -> Lent<i64> {
        Lent::new(&self.signed["signed"])
    }

    /// Takes back what open or settle left.
    fn keep(&mut self, month: Month, allotted: Lent<u64>, accounts: Lent<i64>) -> Result<(), String> {
        let (list, kept) = accounts.back();
        self.month = month;
        self.signed.insert("signed", list);
        self.written("kwh", allotted)?;
        stayed(kept, "signed")
    }

    fn answer(&mut self, call: &str, number: u64, rest: &str) -> Result<(), String> {
        let _ = writeln!(self.out, "{} {}{}", call, number, rest);
        Ok(())
    }

    fn call(&mut self, call: &str, words: &[&str]) -> Result<(), String> {
        match (call, words) {
            ("open", [tariff, "1", _first]) => self.open(figure(tariff)?),
            ("settle", []) => self.settle(),
            ("balance", []) => self.balance(),
            ("close", []) => {
                let end = recorder::close(self.month);
                self.month = end.month;
                self.answer(call, end.number, "")
            }
            ("statement", []) => self.statement(),
            ("size", []) => self.size(),
            ("share", [total, "1"]) => {
                let (mut weights, mut parts) = (self.lend("weights"), self.lend("parts"));
                let number = recorder::share(figure(total)?, weights.list(), parts.list());
                self.read("weights", weights)?;
                self.written("parts", parts)?;
                self.answer(call, number, "")
            }
            ("transfer", [l1, l2, l3, l4, n1, n2, n3, n4, "1"]) => {
                let left = [figure(l1)?, figure(l2)?, figure(l3)?, figure(l4)?];
                let need = [figure(n1)?, figure(n2)?, figure(n3)?, figure(n4)?];
                let answer = recorder::transfer(left, need);
                self.answer(call, answer.number, &words_of(&answer.table.rows.concat()))
            }
            ("read", []) => self.read_line(),
            ("field", [index]) => self.field(figure(index)?),
            _ => Err(format!("no such call: {} with {} words", call, words.len())),
        }
    }

    fn open(&mut self, tariff: u64) -> Result<(), String> {
        let table = self.plants();
        let (mut plants, mut profile) = (Lent::new(&table), self.lend("profile"));
        let (mut allotted, mut accounts) = (self.lend("kwh"), self.lend_accounts());
        let end = recorder::open(self.month, plants.list(), profile.list(), tariff, allotted.list(), accounts.list());
        stayed(plants.untouched(&table), "plants")?;
        self.read("profile", profile)?;
        self.keep(end.month, allotted, accounts)?;
        self.answer("open", end.number, "")
    }

    fn settle(&mut self) -> Result<(), String> {
        let table = self.plants();
        let (mut plants, mut profile, mut metered) = (Lent::new(&table), self.lend("profile"), self.lend("metered"));
        let (mut allotment, mut allotted, mut accounts) = (self.lend("allot"), self.lend("kwh"), self.lend_accounts());
        let hour = recorder::settle(
            self.month,
            plants.list(),
            profile.list(),
            metered.list(),
            allotment.list(),
            allotted.list(),
            accounts.list(),
        );
        stayed(plants.untouched(&table), "plants")?;
        self.read("profile", profile)?;
        self.read("metered", metered)?;
        self.written("allot", allotment)?;
        self.keep(hour.month, allotted, accounts)?;
        let mut rest = words_of(&[hour.secondary, hour.guarantees]);
        rest += &words_of(&hour.cover_table.rows.concat());
        rest += &words_of(&hour.secondary_table.rows.concat());
        self.answer("settle", hour.number, &rest)
    }

    fn balance(&mut self) -> Result<(), String> {
        let (mut allotted, mut accounts) = (self.lend("kwh"), self.lend_accounts());
        let sums = recorder::balance(self.month, allotted.list(), accounts.list());
        self.read("kwh", allotted)?;
        stayed(accounts.untouched(&self.signed["signed"]), "signed")?;
        self.month = sums.month;
        self.answer("balance", sums.number, &(words_of(&sums.columns) + &words_of(&[sums.net, sums.money])))
    }

    fn statement(&mut self) -> Result<(), String> {
        let table = self.plants();
        let mut plants = Lent::new(&table);
        let (mut allotted, mut accounts) = (self.lend("kwh"), self.lend_accounts());
        let mut bytes = Lent::new(&self.bytes("bytes")?);
        let stated = recorder::statement(self.month, plants.list(), allotted.list(), accounts.list(), bytes.list());
        stayed(plants.untouched(&table), "plants")?;
        self.read("kwh", allotted)?;
        stayed(accounts.untouched(&self.signed["signed"]), "signed")?;
        let (written, kept) = bytes.back();
        self.unsigned.insert("bytes", written.iter().map(|&b| b as u64).collect());
        stayed(kept, "bytes")?;
        self.month = stated.month;
        self.answer("statement", stated.number, &words_of(&[stated.length]))
    }

    fn size(&mut self) -> Result<(), String> {
        let table = self.plants();
        let mut plants = Lent::new(&table);
        let (mut allotted, mut accounts) = (self.lend("kwh"), self.lend_accounts());
        let sized = recorder::size(self.month, plants.list(), allotted.list(), accounts.list());
        stayed(plants.untouched(&table), "plants")?;
        self.read("kwh", allotted)?;
        stayed(accounts.untouched(&self.signed["signed"]), "signed")?;
        self.month = sized.month;
        self.answer("size", sized.number, &words_of(&[sized.size]))
    }

    fn read_line(&mut self) -> Result<(), String> {
        let bytes = self.bytes("line")?;
        let (mut line, mut figures) = (Lent::new(&bytes), self.lend("figures"));
        let answer = recorder::read_line(line.list(), figures.list());
        stayed(line.untouched(&bytes), "line")?;
        self.written("figures", figures)?;
        self.answer("read", answer.number, &words_of(&[answer.start, answer.fields]))
    }

    fn field(&mut self, index: u64) -> Result<(), String> {
        let bytes = self.bytes("line")?;
        let mut line = Lent::new(&bytes);
        let place = recorder::field(line.list(), index);
        stayed(line.untouched(&bytes), "line")?;
        let part = bytes.get(place.start as usize..).and_then(|rest| rest.get(..place.length as usize));
        let part = part.ok_or(format!("no part of the line: {:?}", place))?;
        self.answer("field", place.number, &(words_of(&[place.length]) + &words_of(part)))
    }
}

fn stayed(good: bool, name: &str) -> Result<(), String> {
    if good {
        Ok(())
    } else {
        Err(format!("{}: written where nothing may be written", name))
    }
}

fn figure<T: std::str::FromStr>(word: &str) -> Result<T, String> {
    word.parse().map_err(|_| format!("not a number in limits: {}", word))
}

fn put<T: std::str::FromStr>(list: &mut Vec<T>, words: &[&str], anew: bool) -> Result<(), String> {
    if anew {
        list.clear();
    }
    for word in words {
        list.push(figure(word)?);
    }
    Ok(())
}

/// Each figure with a space before it.
fn words_of<T: std::fmt::Display>(list: &[T]) -> String {
    let mut words = String::new();
    for x in list {
        let _ = write!(words, " {}", x);
    }
    words
}

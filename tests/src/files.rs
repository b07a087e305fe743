//! Month files, generated and of examples/, read, settled and stated through the recorder's calls: the statement is,
//! byte for byte, the one that the second program writes (01, 'The file and its statement').

use crate::count::Count;
use crate::program;
use crate::recorder::{self, Month, Plant};
use crate::settle_month::{examples, kept};
use crate::worked::{PAPER, STATEMENT};

/// Files of each kind.
const FILES: u64 = 25;

pub fn run(count: &mut Count) {
    let paper = kept("examples/month.mre") == PAPER.as_bytes();
    let stated = kept("examples/month.statement") == STATEMENT.as_bytes();
    count.case(paper && stated, || "examples/month is not the paper's example".to_string());
    count.tried("the paper's example, as examples/ has it");
    for (path, file, wanted) in examples().into_iter().filter(|(_, _, wanted)| !wanted.starts_with(b"R,")) {
        let (ours, wanted) = (settled(count, &file), String::from_utf8_lossy(&wanted));
        count.case(ours.as_deref() == Ok(&*wanted), || format!("{}: {:?}, wanted {}", path.display(), ours, wanted));
        count.tried("month files of examples/ settled");
    }
    count.reached("month files of examples/ settled", 3);
    for kind in program::kinds("month-") {
        for seed in program::seeds(&kind, FILES) {
            let file = program::generated(seed, &kind);
            let wanted = program::month(&file);
            let ours = settled(count, &file);
            count.case(ours.as_ref() == Ok(&wanted), || {
                format!("{} seed {}: {:?}, wanted {}", kind, seed, ours, wanted)
            });
            count.tried("generated month files settled");
        }
    }
    count.reached("generated month files settled", 500);
    count.reached("hours of generated month files", 10_000);
}

/// The lines of a file, each read by the recorder: its start and its figures.
struct Lines<'a> {
    lines: std::slice::Split<'a, u8, fn(&u8) -> bool>,
}

impl Lines<'_> {
    fn next(&mut self, start: u64) -> Result<Vec<u64>, String> {
        let line = self.lines.next().ok_or("the file ends early")?;
        let mut figures = vec![0; 513];
        let answer = recorder::read_line(line, &mut figures);
        figures.truncate(answer.fields as usize);
        match (answer.number, answer.start == start) {
            (0, true) => Ok(figures),
            (number, _) => Err(format!("a line answered {}, start {}", number, answer.start)),
        }
    }
}

/// The whole month, up to its statement.
fn settled(count: &mut Count, file: &[u8]) -> Result<String, String> {
    let mut lines = Lines { lines: file.split(|&b| b == b'\n') };
    let first = lines.next(1)?;
    let (periods, rows, tariff) = (first[0], first[1] as usize, first[2]);
    let mut plants = Vec::new();
    for _ in 0..rows {
        let f = lines.next(2)?;
        plants.push(Plant { submarket: f[0], number: f[1], guarantee: f[2], loss: f[3], availability: f[4] });
    }
    let mut profile = Vec::new();
    for _ in 0..periods {
        profile.push(lines.next(3)?[1]);
    }
    let (mut allotment, mut allotted, mut accounts) = (vec![7; 4 * rows], vec![7; 4 * rows], vec![7; 2 * rows]);
    let end = recorder::open(Month::BLANK, &plants, &profile, tariff, &mut allotted, &mut accounts);
    accepted("open", end.number)?;
    let mut month = end.month;
    for _ in 0..periods {
        let metered = &lines.next(4)?[1..];
        let hour = recorder::settle(month, &plants, &profile, metered, &mut allotment, &mut allotted, &mut accounts);
        accepted("settle", hour.number)?;
        month = hour.month;
        count.tried("hours of generated month files");
    }
    let end = recorder::close(month);
    accepted("close", end.number)?;
    statement(end.month, &plants, &allotted, &accounts)
}

fn accepted(call: &str, number: u64) -> Result<(), String> {
    match number {
        0 => Ok(()),
        _ => Err(format!("{} answered {}", call, number)),
    }
}

/// The recorder's statement, in as many bytes as 22 asks for and in bounds that the sizing call gives.
fn statement(month: Month, plants: &[Plant], allotted: &[u64], accounts: &[i64]) -> Result<String, String> {
    let enough = 128 * plants.len() + 128;
    let sized = recorder::size(month, plants, allotted, accounts);
    accepted("size", sized.number)?;
    let mut bytes = vec![b'.'; enough];
    let stated = recorder::statement(month, plants, allotted, accounts, &mut bytes);
    accepted("statement", stated.number)?;
    if stated.length > sized.size || sized.size > enough as u64 {
        return Err(format!("{} bytes written, the size is {}", stated.length, sized.size));
    }
    bytes.truncate(stated.length as usize);
    String::from_utf8(bytes).map_err(|_| "not plain text".to_string())
}

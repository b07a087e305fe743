//! Valid month files with random damage, through the built program `settle-month` and the second program: bytes and
//! lines changed, moved, doubled or lost, figures at each limit and beside it, one to three damages on a file. What the
//! two print is compared byte for byte. The files are small, so that many can be tried.

use crate::count::Count;
use crate::months::taken;
use crate::program;
use crate::random::Random;
use crate::settle_month::{arrival, compare, worked, REFUSALS};

/// The kinds of the second program whose files are damaged, and files of each.
const BASES: [&str; 14] = [
    "month-small",
    "month-one-plant",
    "month-one-submarket",
    "month-two-submarkets",
    "month-q-zero",
    "month-deficit",
    "month-surplus",
    "month-h1",
    "month-teo-max",
    "month-profile-zeros",
    "month-big-figures",
    "month-no-factors",
    "month-one-kwh",
    "month-flat",
];
const SEEDS: u64 = 20;

/// Damaged files in a run, and those of 512 plants or 744 periods among them.
const CASES: u64 = 30_000;
const LARGE: u64 = 400;

type Damage = (&'static str, fn(&mut Random, Vec<u8>) -> Vec<u8>);

/// Damages of the file's form, and of its figures. Each half of the damages.
const FORM: [Damage; 16] = [
    ("a byte changed", byte_changed),
    ("a byte inserted", byte_inserted),
    ("a byte dropped", byte_dropped),
    ("two lines swapped", lines_swapped),
    ("a line doubled", line_doubled),
    ("a line dropped", line_dropped),
    ("a line moved", line_moved),
    ("cut off", cut_off),
    ("cut off at a line's end", cut_at_line),
    ("the last byte 10 dropped", last_end_dropped),
    ("bytes after the last line", bytes_after),
    ("a byte 13 at a line's end", carriage_return),
    ("a figure of another spelling", spelled),
    ("fields more or fewer", fields_changed),
    ("a line at 8,192 bytes or beside it", long_line),
    ("two files, one after the other", file_twice),
];
const FIGURES: [Damage; 7] = [
    ("two rows swapped", rows_swapped),
    ("a figure at a limit or beside it", at_a_limit),
    ("a figure one off", one_off),
    ("a first line at its limits", first_line),
    ("generation and profile changed alike", hour_changed),
    ("a plant record changed", plant_changed),
    ("a plant record at a limit or beside it", plant_at_a_limit),
];

pub fn run(count: &mut Count) {
    let mut bases = Vec::new();
    for kind in BASES {
        bases.extend((1..=SEEDS).map(|seed| program::generated(seed, kind)));
    }
    let large = vec![program::generated(1, "month-wide"), program::generated(1, "month-long")];
    let outcomes = worked(CASES, |case| {
        let mut random = Random::new(case);
        let among = if case < LARGE { &large } else { &bases };
        let (names, file) = damaged(&mut random, &among[case as usize % among.len()]);
        (names[0], compare(&names.join(", "), &file, arrival(random.next())))
    });
    for (first, outcome) in outcomes {
        taken(count, format!("damaged first: {}", first), outcome);
        count.tried("damaged files");
    }
    count.reached("damaged files", 20_000);
    count.answered("settle-month", 0, 3_000);
    for number in REFUSALS {
        count.answered("settle-month", number, 50);
    }
}

/// The file after one to three damages, with their names.
fn damaged(random: &mut Random, base: &[u8]) -> (Vec<&'static str>, Vec<u8>) {
    let times = random.pick(&[1, 1, 1, 1, 1, 1, 2, 2, 3]);
    let mut file = base.to_vec();
    let mut names = Vec::new();
    for _ in 0..times {
        let (name, damage) = if random.chance(50) { random.pick(&FORM) } else { random.pick(&FIGURES) };
        file = damage(random, file);
        names.push(name);
    }
    (names, file)
}

fn index(random: &mut Random, length: usize) -> usize {
    random.between(0, length.max(1) as u64 - 1) as usize
}

/// A byte that a month file has, or one near it, or any.
fn byte(random: &mut Random) -> u8 {
    match random.between(0, 3) {
        0 => random.pick(b"0123456789"),
        1 => random.pick(b",\n\r \0-+\t/:"),
        2 => random.pick(b"MREPHGmrephg127"),
        _ => random.between(0, 255) as u8,
    }
}

fn byte_changed(random: &mut Random, mut file: Vec<u8>) -> Vec<u8> {
    let at = index(random, file.len());
    if let Some(place) = file.get_mut(at) {
        *place = byte(random);
    }
    file
}

fn byte_inserted(random: &mut Random, mut file: Vec<u8>) -> Vec<u8> {
    let at = index(random, file.len() + 1);
    file.insert(at, byte(random));
    file
}

fn byte_dropped(random: &mut Random, mut file: Vec<u8>) -> Vec<u8> {
    let at = index(random, file.len());
    if at < file.len() {
        file.remove(at);
    }
    file
}

/// The lines, each with its byte 10 where it has one.
fn lines(file: &[u8]) -> Vec<Vec<u8>> {
    file.split_inclusive(|&b| b == b'\n').map(<[u8]>::to_vec).collect()
}

/// The file with its lines changed; an empty file has none.
fn by_lines(file: Vec<u8>, change: impl FnOnce(&mut Vec<Vec<u8>>)) -> Vec<u8> {
    let mut lines = lines(&file);
    if !lines.is_empty() {
        change(&mut lines);
    }
    lines.concat()
}

fn lines_swapped(random: &mut Random, file: Vec<u8>) -> Vec<u8> {
    by_lines(file, |lines| {
        let (one, other) = (index(random, lines.len()), index(random, lines.len()));
        lines.swap(one, other);
    })
}

/// Two lines of the same start: the order of plants, or of periods.
fn rows_swapped(random: &mut Random, file: Vec<u8>) -> Vec<u8> {
    by_lines(file, |lines| {
        let one = index(random, lines.len());
        let alike: Vec<usize> = (0..lines.len()).filter(|&i| lines[i][0] == lines[one][0]).collect();
        lines.swap(one, random.pick(&alike));
    })
}

fn line_doubled(random: &mut Random, file: Vec<u8>) -> Vec<u8> {
    by_lines(file, |lines| {
        let from = index(random, lines.len());
        let to = if random.chance(70) { from } else { index(random, lines.len() + 1) };
        lines.insert(to, lines[from].clone());
    })
}

fn line_dropped(random: &mut Random, file: Vec<u8>) -> Vec<u8> {
    by_lines(file, |lines| {
        lines.remove(index(random, lines.len()));
    })
}

fn line_moved(random: &mut Random, file: Vec<u8>) -> Vec<u8> {
    by_lines(file, |lines| {
        let line = lines.remove(index(random, lines.len()));
        lines.insert(index(random, lines.len() + 1), line);
    })
}

fn cut_off(random: &mut Random, mut file: Vec<u8>) -> Vec<u8> {
    file.truncate(index(random, file.len() + 1));
    file
}

fn cut_at_line(random: &mut Random, file: Vec<u8>) -> Vec<u8> {
    by_lines(file, |lines| lines.truncate(index(random, lines.len())))
}

fn last_end_dropped(_: &mut Random, mut file: Vec<u8>) -> Vec<u8> {
    if file.last() == Some(&b'\n') {
        file.pop();
    }
    file
}

fn bytes_after(random: &mut Random, mut file: Vec<u8>) -> Vec<u8> {
    let lines = lines(&file);
    let line = if lines.is_empty() { Vec::new() } else { lines[index(random, lines.len())].clone() };
    match random.between(0, 5) {
        0 => file.push(b'\n'),
        1 => file.extend_from_slice(&line),
        2 => file.extend_from_slice(line.strip_suffix(b"\n").unwrap_or(&line)),
        3 => file.extend_from_slice(b"G,1,1\n"),
        4 => file.extend((0..random.between(1, 12)).map(|_| byte(random)).collect::<Vec<u8>>()),
        _ => file.push(random.pick(b"G\r\0 ,0")),
    }
    file
}

fn carriage_return(random: &mut Random, file: Vec<u8>) -> Vec<u8> {
    by_lines(file, |lines| {
        let (only, all) = (index(random, lines.len()), random.chance(20));
        for (i, line) in lines.iter_mut().enumerate() {
            if (all || i == only) && line.last() == Some(&b'\n') {
                line.insert(line.len() - 1, b'\r');
            }
        }
    })
}

/// A line's fields, parted by commas, its start among them.
fn fields(line: &[u8]) -> Vec<String> {
    let text = String::from_utf8_lossy(line.strip_suffix(b"\n").unwrap_or(line)).into_owned();
    text.split(',').map(str::to_string).collect()
}

/// Changes one line's fields; its byte 10 stays.
fn by_fields(line: &mut Vec<u8>, change: impl FnOnce(&mut Vec<String>)) {
    let end: &[u8] = if line.last() == Some(&b'\n') { b"\n" } else { b"" };
    let mut fields = fields(line);
    change(&mut fields);
    *line = [fields.join(",").as_bytes(), end].concat();
}

/// A line with its fields changed: the line is any, and what changes is told the first field.
fn by_line(random: &mut Random, file: Vec<u8>, change: impl FnOnce(&mut Random, &mut Vec<String>)) -> Vec<u8> {
    by_lines(file, |lines| {
        let at = index(random, lines.len());
        by_fields(&mut lines[at], |fields| change(random, fields));
    })
}

/// The limits of the figure at a place of a line, by the line's first field: 01, 'Plants, profile, ledger'.
fn limits(start: &str, place: usize) -> &'static [u64] {
    match (start, place) {
        ("MRE", 2) => &[0, 1, 744, 745],
        ("MRE", 3) => &[0, 1, 512, 513],
        ("MRE", 4) => &[0, 10_000, 10_001],
        ("P", 1) => &[0, 1, 2, 3, 4, 5],
        ("P", 2) => &[0, 1, 999_999, 1_000_000],
        ("P", 3) => &[0, 1_000_000_000_000, 1_000_000_000_001],
        ("P", 4 | 5) => &[0, 1_000_000, 1_000_001],
        ("H" | "G", 1) => &[0, 1, 2, 744, 745],
        ("H" | "G", _) => &[0, 2_000_000_000, 2_000_000_001],
        _ => &[0, 1, 2, 3],
    }
}

fn at_a_limit(random: &mut Random, file: Vec<u8>) -> Vec<u8> {
    by_line(random, file, |random, fields| {
        let place = random.between(1, fields.len().max(2) as u64 - 1) as usize;
        if place >= fields.len() {
            return;
        }
        let figure = match random.between(0, 9) {
            // The low 32 bits of a figure in limits, and the highest that 64 bits and 19 digits hold.
            0 => fields[place].parse::<u64>().unwrap_or(0).wrapping_add(1 << 32),
            1 => random.pick(&[1 << 31, 1 << 32, 1 << 62, 1 << 63, u64::MAX, 9_999_999_999_999_999_999]),
            _ => random.pick(limits(&fields[0], place)),
        };
        fields[place] = figure.to_string();
    })
}

fn one_off(random: &mut Random, file: Vec<u8>) -> Vec<u8> {
    by_line(random, file, |random, fields| {
        let place = index(random, fields.len());
        if let Ok(figure) = fields[place].parse::<u64>() {
            let next = if random.chance(50) { figure.saturating_add(1) } else { figure.saturating_sub(1) };
            fields[place] = next.to_string();
        }
    })
}

/// The same figure spelled otherwise, or something that is no figure.
fn spelled(random: &mut Random, file: Vec<u8>) -> Vec<u8> {
    by_line(random, file, |random, fields| {
        let place = index(random, fields.len());
        let figure = fields[place].clone();
        fields[place] = match random.between(0, 9) {
            0 => format!("0{}", figure),
            1 => format!("{}0", figure),
            2 => format!("-{}", figure),
            3 => format!("+{}", figure),
            4 => format!("{} ", figure),
            5 => String::new(),
            6 => format!("{:0>19}", figure),
            7 => "1".repeat(random.between(18, 21) as usize),
            8 => random.pick(&["18446744073709551615", "18446744073709551616", "18446744073709551617"]).to_string(),
            _ => format!("{}.0", figure),
        };
    })
}

fn fields_changed(random: &mut Random, file: Vec<u8>) -> Vec<u8> {
    by_line(random, file, |random, fields| match random.between(0, 4) {
        0 => drop(fields.pop()),
        1 => fields.push("0".to_string()),
        2 => fields.truncate(random.between(0, fields.len() as u64) as usize),
        3 => {
            let most = random.pick(&[513, 514, 515, 516, 600]);
            fields.resize(most, "7".to_string());
        }
        _ => fields.insert(index(random, fields.len() + 1), random.pick(&["0", "1", "", "x"]).to_string()),
    })
}

/// A line of 8,191 to 8,193 bytes, or a few more: digits or fields at its end, sometimes as the last and without byte 10.
fn long_line(random: &mut Random, file: Vec<u8>) -> Vec<u8> {
    by_lines(file, |lines| {
        let at = index(random, lines.len());
        let length = random.pick(&[8191, 8192, 8193, 8194, 20_000]);
        let line = &mut lines[at];
        if line.last() == Some(&b'\n') {
            line.pop();
        }
        let with: &[u8] = random.pick(&[&b"7"[..], b",7", b",", b"\r", b",1234567890123456789"]);
        while line.len() < length {
            line.extend_from_slice(with);
        }
        line.truncate(length);
        if random.chance(80) {
            line.push(b'\n');
        } else {
            lines.truncate(at + 1);
        }
    })
}

/// Periods, plants and TEO of the first line at their limits, one or all of them.
fn first_line(random: &mut Random, file: Vec<u8>) -> Vec<u8> {
    by_lines(file, |lines| {
        by_fields(&mut lines[0], |fields| {
            let all = random.chance(20);
            let only = random.between(2, 4) as usize;
            for place in 2..fields.len().min(5) {
                if all || place == only {
                    fields[place] = random.pick(limits("MRE", place)).to_string();
                }
            }
        })
    })
}

/// A plant's generation and its hour's profile figure, both raised or both lowered: the file stays valid unless a limit is
/// passed.
fn hour_changed(random: &mut Random, file: Vec<u8>) -> Vec<u8> {
    by_lines(file, |lines| {
        let hours: Vec<usize> = (0..lines.len()).filter(|&i| lines[i].starts_with(b"G,")).collect();
        if hours.is_empty() {
            return;
        }
        let at = random.pick(&hours);
        let (mut old, mut new) = (0u64, 0u64);
        let mut period = String::new();
        by_fields(&mut lines[at], |fields| {
            let place = random.between(2, fields.len().max(3) as u64 - 1) as usize;
            if let Some(Ok(figure)) = fields.get(place).map(|field| field.parse::<u64>()) {
                old = figure;
                new = random.pick(&[
                    0,
                    1,
                    figure / 2,
                    figure.saturating_add(1),
                    figure.saturating_mul(2),
                    1_000_000_000,
                    2_000_000_000,
                    2_000_000_001,
                ]);
                fields[place] = new.to_string();
                period = fields[1].clone();
            }
        });
        let profile = format!("H,{},", period).into_bytes();
        for line in lines.iter_mut().filter(|line| line.starts_with(&profile)) {
            by_fields(line, |fields| {
                let sum = fields[2].parse::<u64>().unwrap_or(0).saturating_add(new).saturating_sub(old);
                fields[2] = sum.to_string();
            });
        }
    })
}

/// Changes a figure of a plant record; `figure` says to what, from its place on the line.
fn by_plant(random: &mut Random, file: Vec<u8>, figure: impl FnOnce(&mut Random, usize) -> u64) -> Vec<u8> {
    by_lines(file, |lines| {
        let rows: Vec<usize> = (0..lines.len()).filter(|&i| lines[i].starts_with(b"P,")).collect();
        if rows.is_empty() {
            return;
        }
        let at = random.pick(&rows);
        by_fields(&mut lines[at], |fields| {
            let place = random.between(1, 5) as usize;
            if let Some(field) = fields.get_mut(place) {
                *field = figure(random, place).to_string();
            }
        });
    })
}

/// Mostly in limits, so that another statement comes out.
fn plant_changed(random: &mut Random, file: Vec<u8>) -> Vec<u8> {
    by_plant(random, file, |random, place| {
        random.between(0, [0, 5, 1_100_000, 1_100_000_000_000, 1_100_000, 1_100_000][place])
    })
}

fn plant_at_a_limit(random: &mut Random, file: Vec<u8>) -> Vec<u8> {
    by_plant(random, file, |random, place| random.pick(limits("P", place)))
}

fn file_twice(random: &mut Random, file: Vec<u8>) -> Vec<u8> {
    let mut second = lines(&file);
    if random.chance(50) && !second.is_empty() {
        second.remove(0);
    }
    [file, second.concat()].concat()
}

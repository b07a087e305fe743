//! Reading a line and the field call (01, 'Reading a line'; 26 to 30) against the second program: every short line,
//! generated lines, each limit with its neighbours, and every line of generated month files.

use crate::count::Count;
use crate::lent::Lent;
use crate::program::{self, STAGE};
use crate::random::Random;
use crate::recorder;

const GENERATED: u64 = 100_000;
const SEED: u64 = 26_30;
const LONGEST: usize = 8_192;

/// Files whose lines are read, of each kind month-* and of each kind file-*.
const FILES: [(&str, u64); 2] = [("month-", 20), ("file-", 5)];

pub fn run(count: &mut Count) {
    small(count);
    generated(count);
    limits(count);
    field_limits(count);
    files(count);
    for number in [0, 26, 27, 28, 29, 30] {
        count.answered("read", number, 1_000);
    }
    for number in [0, 26, 28] {
        count.answered("field", number, 1_000);
    }
    for question in 26..=30 {
        count.reached(&format!("limit {}: answered no", question), 5);
        count.reached(&format!("limit {}: answered yes", question), 5);
    }
}

/// One reading of ours and one of the second program, with `before` lent.
fn read(count: &mut Count, line: &[u8], before: &[u64]) -> u64 {
    let mut theirs = before.to_vec();
    let (number, start, fields) = second::read_line(STAGE, line, &mut theirs);
    let wanted = recorder::Line { number: number as u64, start: start.map_or(0, |s| s.code()), fields };

    let mut lent_line = Lent::new(line);
    let mut lent = Lent::new(before);
    let answer = recorder::read_line(lent_line.list(), lent.list());
    let (ours, kept) = lent.back();

    // 01: "writes the figures to the front of the lent list; the rest of it stays", and nothing where it refuses.
    let written = answer.fields as usize;
    let lawful = written <= before.len() && ours[written..] == before[written..];
    count.case(answer == wanted && ours == theirs && kept && lent_line.untouched(line) && lawful, || {
        format!("{}, {} places: {:?}, wanted {:?}", shown(line), before.len(), answer, wanted)
    });
    count.called("read", answer.number);
    answer.number
}

/// One field of ours and one of the second program: the number, and the very place in the line.
fn field(count: &mut Count, line: &[u8], index: u64) -> u64 {
    let (number, part) = second::field_call(line, index);
    let start = if number == 0 { part.as_ptr() as u64 - line.as_ptr() as u64 } else { 0 };
    let wanted = recorder::FieldPlace { number: number as u64, start, length: part.len() as u64 };
    let mut read = Lent::between(line, b',');
    let answer = recorder::field(read.list(), index);
    count.case(answer == wanted && read.untouched(line), || {
        format!("{}, field {}: {:?}, wanted {:?}", shown(line), index, answer, wanted)
    });
    count.called("field", answer.number);
    answer.number
}

fn shown(line: &[u8]) -> String {
    let text = String::from_utf8_lossy(line);
    if line.len() <= 200 {
        format!("{:?}", text)
    } else {
        format!("{:?}.. of {} bytes", text.chars().take(60).collect::<String>(), line.len())
    }
}

fn figures(places: usize) -> Vec<u64> {
    (0..places as u64).map(|i| 1_000_000 + i).collect()
}

/// Every line of up to five bytes of a short alphabet, by itself and after each start.
fn small(count: &mut Count) {
    for (start, alphabet, most) in
        [("", "GHP,01:", 5), ("MRE,1,", ",019:", 5), ("P,1,2,", ",01/9", 5), ("G,", ",01 -", 4)]
    {
        let letters = alphabet.as_bytes();
        for length in 0..=most {
            for code in 0..letters.len().pow(length) {
                let mut line = start.as_bytes().to_vec();
                line.extend((0..length).map(|i| letters[code / letters.len().pow(i) % letters.len()]));
                read(count, &line, &figures(code % 7));
                for index in 0..=length as u64 {
                    field(count, &line, index);
                }
                count.tried(format!("small: up to {} bytes of {:?} after {:?}", most, alphabet, start));
            }
        }
    }
}

fn generated(count: &mut Count) {
    let mut random = Random::new(SEED);
    for _ in 0..GENERATED {
        let (mut line, fields) = good(&mut random);
        let shape = damage(&mut random, &mut line);
        let places = match random.between(1, 4) {
            1 => fields,
            2 => fields.saturating_sub(1),
            3 => random.between(0, 8) as usize,
            _ => fields + random.between(0, 9) as usize,
        };
        read(count, &line, &figures(places));
        let commas = line.iter().filter(|&&b| b == b',').count() as u64;
        let index = random.pick(&[0, 1, commas.saturating_sub(1), commas, commas + 1, (1 << 32) + commas, u64::MAX]);
        field(count, &line, index);
        let index = random.between(0, commas + 2);
        field(count, &line, index);
        count.tried(format!("generated, {}", shape));
    }
}

/// A line that is read, and its number of fields.
fn good(random: &mut Random) -> (Vec<u8>, usize) {
    let (start, fields) = match random.between(1, 5) {
        1 => ("MRE,1,", 3),
        2 => ("P,", 5),
        3 => ("H,", 2),
        4 => ("G,", random.between(2, 12) as usize),
        _ if random.chance(10) => ("G,", random.between(13, 513) as usize),
        _ => ("G,", 3),
    };
    let words: Vec<String> = (0..fields).map(|_| word(random)).collect();
    (format!("{}{}", start, words.join(",")).into_bytes(), fields)
}

/// A figure of 1 to 19 digits.
fn word(random: &mut Random) -> String {
    match random.between(1, 20) {
        1 => "0".to_string(),
        2 => "9".repeat(19),
        3 => format!("1{}", "0".repeat(18)),
        _ => random.sized(63).min(9_999_999_999_999_999_999).to_string(),
    }
}

fn damage(random: &mut Random, line: &mut Vec<u8>) -> &'static str {
    let at = random.between(0, line.len() as u64 - 1) as usize;
    match random.between(1, 12) {
        1 => {
            line[at] = random.pick(b",0/9:;GHPM \r-+");
            "a byte changed"
        }
        2 => {
            line.insert(at, random.pick(b",01/9: \0\xff"));
            "a byte put in"
        }
        3 => {
            line.remove(at);
            "a byte taken out"
        }
        4 => {
            line.truncate(at);
            "cut off"
        }
        5 => {
            line.extend_from_slice(b",7");
            "one field more"
        }
        6 => {
            let from = line.iter().rposition(|&b| b == b',').map_or(0, |comma| comma + 1);
            line.insert(from, b'0');
            "a leading zero"
        }
        7 => {
            let from = line.iter().rposition(|&b| b == b',').map_or(0, |comma| comma + 1);
            line.truncate(from);
            line.extend_from_slice(random.pick(&[&[b'1'; 19][..], &[b'9'; 20], &[b'1'; 20], b""]));
            "a last field of 0, 19 or 20 digits"
        }
        8 => {
            let length = LONGEST - 2 + random.between(0, 4) as usize;
            line.resize(length, random.pick(b",5"));
            "8,190 to 8,194 bytes"
        }
        9 => {
            let length = random.between(0, 40);
            *line = (0..length).map(|_| random.next() as u8).collect();
            "any bytes"
        }
        _ => "as it is",
    }
}

/// Each limit with its neighbours. The numbers here are read from 01, so that they hold the second program too.
fn limits(count: &mut Count) {
    for (question, line, places, wanted) in long_lines().into_iter().chain(short_lines()).chain(figure_lists()) {
        let number = read(count, &line, &figures(places));
        count.case(number == wanted, || {
            format!("limit {}: {}, {} places: {}, wanted {}", question, shown(&line), places, number, wanted)
        });
        side(count, question, wanted);
    }
}

/// On which side of its limit a question was put. The questions on lines are put in the order of their numbers.
fn side(count: &mut Count, question: u64, wanted: u64) {
    let side = match wanted {
        0 => "answered yes",
        number if number > question => "answered yes",
        number if number < question => "not put, an earlier one was answered no",
        _ => "answered no",
    };
    count.tried(format!("limit {}: {}", question, side));
}

/// The question, a line, the places lent for its figures, and the number.
type Limit = (u64, Vec<u8>, usize, u64);

/// A G line with this many fields.
fn meter(fields: usize) -> Vec<u8> {
    format!("G{}", ",1".repeat(fields)).into_bytes()
}

/// 26, at 8,192 bytes; it comes before 27, 28 and 29.
fn long_lines() -> Vec<Limit> {
    // A G line of 513 fields.
    let long = |length: usize| {
        let mut line = b"G,1".to_vec();
        while line.len() + 16 <= length {
            line.extend_from_slice(b",123456789012345");
        }
        line.push(b',');
        line.resize(length, b'1');
        line
    };
    let mut cases = vec![
        (26, long(LONGEST - 1), 600, 0),
        (26, long(LONGEST), 600, 0),
        (26, long(LONGEST + 1), 600, 26),
        (26, long(LONGEST + 1), 0, 26),
    ];
    for filling in [b'x', b'1', b','] {
        cases.push((26, vec![filling; LONGEST], 600, 27));
        cases.push((26, vec![filling; LONGEST + 1], 600, 26));
    }
    for (start, number) in [("G,", 28), ("H,1,", 29)] {
        let mut line = start.as_bytes().to_vec();
        line.resize(LONGEST, if number == 28 { b',' } else { b'1' });
        cases.push((26, line.clone(), 600, number));
        line.push(b'1');
        cases.push((26, line, 600, 26));
    }
    cases
}

/// 27, 28 and 29 on lines that are written out: the question, the line, the number.
const SHORT: [(u64, &str, u64); 49] = [
    // 27: each start, whole and cut short; it comes before 28.
    (27, "MRE,1,1,2,3", 0),
    (27, "MRE,1,", 28),
    (27, "MRE,1", 27),
    (27, "MRE,2,1,2,3", 27),
    (27, "MRE,11,2,3", 27),
    (27, "MRE1,1,2,3", 27),
    (27, "P,1,2,3,4,5", 0),
    (27, "P,", 28),
    (27, "P", 27),
    (27, "p,1,2,3,4,5", 27),
    (27, "H,1,2", 0),
    (27, "H;1,2", 27),
    (27, "G,1,2", 0),
    (27, ",G,1,2", 27),
    (27, "A,1,2", 27),
    (27, "", 27),
    // 28: fields one fewer and one more; it comes before 29.
    (28, "MRE,1,1,2", 28),
    (28, "MRE,1,1,2,3", 0),
    (28, "MRE,1,1,2,3,4", 28),
    (28, "P,1,2,3,4", 28),
    (28, "P,1,2,3,4,5", 0),
    (28, "P,1,2,3,4,5,6", 28),
    (28, "H,1", 28),
    (28, "H,1,2", 0),
    (28, "H,1,2,3", 28),
    (28, "H,x", 28),
    (28, "H,x,1", 29),
    (28, "G,1", 28),
    (28, "G,1,2", 0),
    (28, "G,", 28),
    // 29: digits, their number, and leading zeros, in the first field, between and in the last.
    (29, "H,1,0", 0),
    (29, "H,1,00", 29),
    (29, "H,1,01", 29),
    (29, "H,0,10", 0),
    (29, "H,00,10", 29),
    (29, "H,1,", 29),
    (29, "H,,1", 29),
    (29, "H,1,/", 29),
    (29, "H,1,:", 29),
    (29, "H,1,9999999999999999999", 0),
    (29, "H,1,10000000000000000000", 29),
    (29, "H,1,18446744073709551617", 29),
    (29, "H,9999999999999999999,1", 0),
    (29, "H,99999999999999999999,1", 29),
    (29, "P,1,2,9999999999999999999,4,5", 0),
    (29, "P,1,2,99999999999999999999,4,5", 29),
    (29, "H,1,1\r", 29),
    (29, "H,1,-1", 29),
    (29, "H,1,+1", 29),
];

fn short_lines() -> Vec<Limit> {
    let mut cases: Vec<Limit> =
        SHORT.iter().map(|&(question, line, number)| (question, line.as_bytes().to_vec(), 600, number)).collect();
    cases.push((28, meter(2), 600, 0));
    cases.push((28, meter(513), 600, 0));
    cases.push((28, meter(514), 600, 28));
    cases
}

/// 30: as many places as fields, one more and one fewer; it comes after 29.
fn figure_lists() -> Vec<Limit> {
    let mut cases = vec![
        (30, b"H,1,x".to_vec(), 0, 29),
        (30, meter(514), 0, 28),
        (30, meter(513), 513, 0),
        (30, meter(513), 512, 30),
    ];
    for (line, fields) in [("MRE,1,1,2,3", 3), ("P,1,2,3,4,5", 5), ("H,1,2", 2), ("G,1,2", 2), ("G,1,2,3,4", 4)] {
        for (places, number) in [(fields + 1, 0), (fields, 0), (fields - 1, 30), (0, 30)] {
            cases.push((30, line.as_bytes().to_vec(), places, number));
        }
    }
    cases
}

fn field_limits(count: &mut Count) {
    let full = vec![b','; LONGEST];
    let over = vec![b','; LONGEST + 1];
    let digits = vec![b'1'; LONGEST];
    let cases: &[(u64, &[u8], u64, u64)] = &[
        (26, &full, 0, 0),
        (26, &over, 0, 26),
        (26, &over, u64::MAX, 26),
        (28, b"", 0, 0),
        (28, b"", 1, 28),
        (28, b"MRE,1,2", 0, 0),
        (28, b"MRE,1,2", 1, 0),
        (28, b"MRE,1,2", 2, 0),
        (28, b"MRE,1,2", 3, 28),
        (28, b"MRE,1,2", 1 << 32, 28),
        (28, b"MRE,1,2", (1 << 32) + 2, 28),
        (28, b"MRE,1,2", u64::MAX, 28),
        (28, b",", 1, 0),
        (28, b",", 2, 28),
        (28, b"\xff\0,\n", 1, 0),
        (28, &digits, 0, 0),
        (28, &digits, 1, 28),
        (28, &full, LONGEST as u64, 0),
        (28, &full, LONGEST as u64 + 1, 28),
    ];
    for &(question, line, index, wanted) in cases {
        let number = field(count, line, index);
        count.case(number == wanted, || {
            format!("limit {}: {}, field {}: {}, wanted {}", question, shown(line), index, number, wanted)
        });
        side(count, question, wanted);
    }
}

/// Every line of generated month files, good and damaged, and fields of each at and past the last.
fn files(count: &mut Count) {
    for (family, files) in FILES {
        for kind in program::kinds(family) {
            for seed in program::seeds(&kind, files) {
                let file = program::generated(seed, &kind);
                for line in file.split(|&b| b == b'\n') {
                    read(count, line, &figures(513));
                    let fields = line.iter().filter(|&&b| b == b',').count() as u64 + 1;
                    for index in [0, fields / 2, fields - 1, fields] {
                        field(count, line, index);
                    }
                    count.tried(format!("lines of generated files, kinds {}*", family));
                }
                count.tried(format!("generated files, kinds {}*", family));
            }
        }
    }
}

//! Month files fed to the recorder in parts cut anywhere: what finish writes is, byte for byte, what the second program
//! prints, refusals too (01, 'The file and its statement'). Then feed and finish with a list that is too short (30, 22)
//! and with a state that does not fit the lists (31): they answer the number, and write nothing.

use crate::count::Count;
use crate::lent::Lent;
use crate::program;
use crate::random::Random;
use crate::recorder::{self, Fed, File, Finished, Month};

const SEED: u64 = 26_31;

/// Files of each kind.
const FILES: u64 = 8;

/// The lengths that include/iolwarch.h asks for: the table's columns, profile, allotted, two of them by their place; and
/// those of the other lists.
const FIGURES: [usize; 3] = [5 * 512, 744, 4 * 512];
const COLUMNS: usize = 0;
const ALLOTTED: usize = 2;
const LINE: usize = 8192;
const ACCOUNTS: usize = 2 * 512;
const TEXT: usize = 128 * 512 + 128;

pub fn run(count: &mut Count) {
    let mut random = Random::new(SEED);
    let lists = Lists::new(&mut random);
    refused(count, &mut random, recorder::begin(), &lists);
    for kind in program::kinds("month-").into_iter().chain(program::kinds("file-")) {
        part_way(count, &mut random, &program::generated(1, &kind));
        for seed in program::seeds(&kind, FILES) {
            whole(count, &mut random, &kind, seed);
        }
    }
    count.reached("files fed", 500);
    count.reached("parts fed", 20_000);
    for stage in 0..=3 {
        count.reached(&format!("states of stage {} with lists too short", stage), 1);
    }
    for number in [22, 30, 31] {
        count.reached(&format!("calls refused with {}", number), 100);
    }
}

/// The lists that a month file's caller lends, each between two known figures.
#[derive(Clone, PartialEq)]
struct Lists {
    line: Lent<u8>,
    figures: [Lent<u64>; 3],
    accounts: Lent<i64>,
    text: Lent<u8>,
}

impl Lists {
    /// Of any content, and as long as is asked or longer.
    fn new(random: &mut Random) -> Lists {
        let more = random.pick(&[0, 0, 1, 300]);
        let any = random.next();
        Lists {
            line: Lent::new(&vec![any as u8; LINE + more]),
            figures: FIGURES.map(|length| Lent::new(&vec![any; length + more])),
            accounts: Lent::new(&vec![any as i64; ACCOUNTS + more]),
            text: Lent::new(&vec![any as u8; TEXT + more]),
        }
    }

    fn feed(&mut self, file: File, part: &[u8]) -> Fed {
        let [columns, profile, allotted] = self.figures.each_mut().map(Lent::list);
        let (line, accounts) = (self.line.list(), self.accounts.list());
        recorder::feed(file, part, line, columns, profile, allotted, accounts)
    }

    fn finish(&mut self, file: File) -> Finished {
        let [columns, profile, allotted] = self.figures.each_mut().map(Lent::list);
        let (line, accounts, text) = (self.line.list(), self.accounts.list(), self.text.list());
        recorder::finish(file, line, columns, profile, allotted, accounts, text)
    }

    /// As they are in memory: the compiler may believe that a call does not write to a list lent for reading.
    fn are(&mut self, before: &Lists) -> bool {
        std::hint::black_box(&mut *self);
        self == before
    }
}

/// Feeds the bytes in parts cut at random, up to `longest` each. An error is what was not as it should be.
fn fed(count: &mut Count, random: &mut Random, lists: &mut Lists, bytes: &[u8], longest: u64) -> Result<File, String> {
    let mut file = recorder::begin();
    let mut rest = bytes;
    while !rest.is_empty() {
        let (part, more) = rest.split_at((random.between(0, longest) as usize).min(rest.len()));
        let mut lent = Lent::new(part);
        let answer = lists.feed(file, lent.list());
        if answer.number != 0 || !lent.untouched(part) {
            return Err(format!("a feed of {:?} answered {:?}", file, answer));
        }
        file = answer.file;
        rest = more;
        count.tried("parts fed");
    }
    Ok(file)
}

/// A whole file: the front of the text is what the second program prints, and the rest of it as it was.
fn whole(count: &mut Count, random: &mut Random, kind: &str, seed: u64) {
    let bytes = program::generated(seed, kind);
    let wanted = program::month(&bytes);
    let mut lists = Lists::new(random);
    let longest = if bytes.len() < program::LONG { random.pick(&[1, 9, 200, 9_000]) } else { 60_000 };
    let printed = fed(count, random, &mut lists, &bytes, longest).and_then(|file| {
        let mut kept = lists.clone();
        let answer = lists.finish(file);
        // What it writes: the text.
        let end = (answer.length as usize).min(TEXT);
        let text = lists.text.list()[..end].to_vec();
        kept.text.list()[..end].copy_from_slice(&text);
        match answer.number == 0 && answer.length as usize == end && lists.are(&kept) {
            true => String::from_utf8(text).map_err(|_| "not plain text".to_string()),
            false => Err(format!("finish of {:?} answered {:?}", file, answer)),
        }
    });
    count.case(printed.as_ref() == Ok(&wanted), || {
        format!("{} seed {}, parts up to {}: {:?}, wanted {}", kind, seed, longest, printed, wanted)
    });
    count.tried("files fed");
}

/// A file fed up to anywhere: what feed and finish refuse there.
fn part_way(count: &mut Count, random: &mut Random, bytes: &[u8]) {
    let mut lists = Lists::new(random);
    let end = random.between(0, bytes.len() as u64) as usize;
    match fed(count, random, &mut lists, &bytes[..end], 60_000) {
        Ok(file) => refused(count, random, file, &lists),
        Err(why) => count.case(false, || why),
    }
}

/// One call of feed and one of finish, refused with these numbers (0: not put): state and lists are as they came.
fn refuses(count: &mut Count, what: &str, file: File, lists: &Lists, feed: u64, finish: u64) {
    let mut lent = lists.clone();
    if feed != 0 {
        let answer = lent.feed(file, b"MRE,1,1,1,0\n");
        let kept = lent.are(lists) && answer == Fed { number: feed, file };
        count.case(kept, || format!("feed of {:?}, {}: {:?}, wanted {}", file, what, answer, feed));
        count.tried(format!("calls refused with {}", feed));
    }
    if finish != 0 {
        let answer = lent.finish(file);
        let kept = lent.are(lists) && answer == Finished { number: finish, length: 0 };
        count.case(kept, || format!("finish of {:?}, {}: {:?}, wanted {}", file, what, answer, finish));
        count.tried(format!("calls refused with {}", finish));
    }
}

/// A state that the calls would take, with each list too short, and with states and lists that do not fit.
fn refused(count: &mut Count, random: &mut Random, file: File, lists: &Lists) {
    count.tried(format!("states of stage {} with lists too short", file.stage));
    let mut narrow = lists.clone();
    narrow.text.shorten(random.pick(&[0, TEXT - 1]));
    refuses(count, "text too short", file, &narrow, 0, 22);
    // Each with the text too short as well: 30 comes before 22.
    let mut short = narrow.clone();
    short.line.shorten(random.pick(&[0, LINE - 1]));
    refuses(count, "line too short", file, &short, 30, 30);
    let mut short = narrow.clone();
    short.accounts.shorten(random.pick(&[0, ACCOUNTS - 1]));
    refuses(count, "accounts too short", file, &short, 30, 30);
    for (i, length) in FIGURES.into_iter().enumerate() {
        let mut short = lists.clone();
        short.figures[i].shorten(random.pick(&[0, length - 1]));
        refuses(count, &format!("list {} too short", i), file, &short, 30, 30);
    }
    for unknown in unknown_states(file) {
        refuses(count, "state unknown", unknown, lists, 31, 31);
        refuses(count, "state unknown, text too short", unknown, &narrow, 31, 22);
    }
    if file.stage == 2 {
        let mut other = [lists.clone(), lists.clone(), lists.clone()];
        other[0].figures[COLUMNS].list()[0] = 5;
        other[1].figures[ALLOTTED].list()[0] = u64::MAX;
        other[2].accounts.list()[0] = i64::MIN;
        for lists in other {
            refuses(count, "table or ledger out of limits", file, &lists, 31, 31);
        }
    }
}

/// States that no feed hands back, near one that a feed did.
fn unknown_states(file: File) -> Vec<File> {
    let month = file.month;
    let mut states = vec![File { length: LINE as u64 + 1, ..file }, File { length: u64::MAX, ..file }];
    states.extend(match file.stage {
        0 => vec![File { count: 1, ..file }],
        1 => vec![
            File { plants: 513, ..file },
            File { periods: 745, ..file },
            File { rows: file.plants + 1, count: 2 + file.plants + file.figures, ..file },
            File { figures: file.periods, count: 1 + file.rows + file.periods, ..file },
            File { count: file.count + 1, ..file },
        ],
        2 => vec![
            File { month: Month { stage: 0, ..month }, ..file },
            File { month: Month { stage: 2, ..month }, ..file },
            File { month: Month { plants: 513, ..month }, ..file },
            File { month: Month { periods: 745, ..month }, ..file },
            File { month: Month { due: month.periods + 2, ..month }, ..file },
            File { count: file.count + 1, ..file },
        ],
        _ => vec![],
    });
    states
}

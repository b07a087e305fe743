//! `settle-month`, the built program, as a process: how its standard input arrives, and what it prints.

use std::fs::File;
use std::io::{self, Read as _, Write as _};
use std::os::fd::{FromRawFd as _, OwnedFd};
use std::path::{Path, PathBuf};
use std::process::{Child, Command, Stdio};
use std::sync::atomic::{AtomicU64, Ordering};

use crate::count::Count;
use crate::program::STAGE;
use crate::random::Random;

/// The numbers with which a file can be refused.
pub const REFUSALS: [u64; 17] = [2, 3, 4, 5, 6, 7, 8, 9, 10, 15, 16, 17, 26, 27, 28, 29, 31];

extern "C" {
    fn pipe2(ends: *mut i32, flags: i32) -> i32;
}

const CLOSE_ON_EXEC: i32 = 0o2000000;

/// Every write is one packet of at most 4,096 bytes, and a read takes one packet. What a shorter read leaves of its packet
/// is lost: the program reads up to 65,536 bytes.
const PACKETS: i32 = 0o40000;

/// How the file arrives at standard input.
#[derive(Clone, Copy, Debug)]
pub enum Arrival {
    /// Standard input is a regular file.
    Stored,
    /// A pipe, written at once.
    Whole,
    /// A pipe of packets: each read takes so many bytes, at most 4,096.
    Pieces(usize),
    /// A pipe of packets of many lengths, by this seed.
    Mixed(u64),
}

/// The ways to arrive, by the case's number.
pub fn arrival(case: u64) -> Arrival {
    match case % 6 {
        0 => Arrival::Pieces(1),
        1 => Arrival::Pieces(7),
        2 => Arrival::Pieces(4096),
        3 => Arrival::Whole,
        4 => Arrival::Stored,
        _ => Arrival::Mixed(case),
    }
}

/// The folder of the repository: this program is target/tests/compare.
pub fn root() -> PathBuf {
    let program = std::env::current_exe().expect("this program has a path");
    program.ancestors().nth(3).expect("three folders above").to_path_buf()
}

pub fn program() -> Command {
    Command::new(root().join("crates/settle_month/out/settle_month"))
}

/// What the program prints for a file.
pub fn printed(file: &[u8], arrival: Arrival) -> Result<Vec<u8>, String> {
    let child = match arrival {
        Arrival::Stored => stored(file),
        Arrival::Whole => piped(file, 0, |rest| rest.len()),
        Arrival::Pieces(most) => piped(file, PACKETS, |rest| rest.len().min(most)),
        Arrival::Mixed(seed) => {
            let mut random = Random::new(seed);
            piped(file, PACKETS, |rest| {
                let most = random.pick(&[1, 2, 7, 64, 500, 4096]);
                rest.len().min(random.between(1, most) as usize)
            })
        }
    };
    child.and_then(output).map_err(|why| format!("settle-month: {}", why))
}

/// The child reads to the end of its input before it prints, so that what it prints may be read afterwards.
fn output(mut child: Child) -> io::Result<Vec<u8>> {
    let mut printed = Vec::new();
    child.stdout.take().expect("standard output is piped").read_to_end(&mut printed)?;
    let status = child.wait()?;
    if status.success() {
        Ok(printed)
    } else {
        Err(io::Error::other(status.to_string()))
    }
}

fn stored(file: &[u8]) -> io::Result<Child> {
    static FILES: AtomicU64 = AtomicU64::new(0);
    let name = format!("settle_month.{}.{}", std::process::id(), FILES.fetch_add(1, Ordering::Relaxed));
    let path = std::env::temp_dir().join(name);
    std::fs::write(&path, file)?;
    let child = File::open(&path).and_then(|stdin| program().stdin(stdin).stdout(Stdio::piped()).spawn());
    std::fs::remove_file(&path)?;
    child
}

/// Writes the file piece by piece; `length` says how many bytes the next one has.
fn piped(file: &[u8], flags: i32, mut length: impl FnMut(&[u8]) -> usize) -> io::Result<Child> {
    let (reader, writer) = pipe(flags)?;
    let child = program().stdin(reader).stdout(Stdio::piped()).spawn()?;
    let mut writer = File::from(writer);
    let mut rest = file;
    while !rest.is_empty() {
        let (piece, later) = rest.split_at(length(rest));
        writer.write_all(piece)?;
        rest = later;
    }
    Ok(child)
}

/// A pipe's ends, the one to read and the one to write. No child inherits them unless they are given to it.
pub fn pipe(flags: i32) -> io::Result<(OwnedFd, OwnedFd)> {
    let mut ends = [0i32; 2];
    // SAFETY: pipe2 writes two descriptors, which nothing else owns.
    unsafe {
        if pipe2(ends.as_mut_ptr(), CLOSE_ON_EXEC | flags) != 0 {
            return Err(io::Error::last_os_error());
        }
        Ok((OwnedFd::from_raw_fd(ends[0]), OwnedFd::from_raw_fd(ends[1])))
    }
}

/// A file with what 01 says that it prints.
pub fn said(count: &mut Count, what: &str, file: &[u8], wanted: &str, arrival: Arrival) {
    let ours = printed(file, arrival).map(|bytes| bytes.escape_ascii().to_string());
    let wanted = wanted.as_bytes().escape_ascii().to_string();
    count.case(ours.as_ref() == Ok(&wanted), || {
        format!("{}, arriving as {:?}: {:?}, wanted {}", what, arrival, ours, wanted)
    });
}

/// One file put to both programs.
pub struct Outcome {
    pub label: String,
    /// The number that the second program gives, 0 for a statement.
    pub number: u64,
    /// What is wrong, if anything is.
    pub wrong: Option<String>,
}

/// Puts a file to both programs: what they print is compared byte for byte.
pub fn compare(label: &str, file: &[u8], arrival: Arrival) -> Outcome {
    let theirs = second::settle_month(STAGE, file);
    let wrong = match printed(file, arrival) {
        Ok(ours) if ours == theirs => None,
        Ok(ours) => Some(format!("{}, wanted {}", ours.escape_ascii(), theirs.escape_ascii())),
        Err(why) => Some(why),
    };
    let wrong =
        wrong.map(|why| format!("{}, arriving as {:?}: {}; the file: {}", label, arrival, why, file.escape_ascii()));
    Outcome { label: label.to_string(), number: number(&theirs), wrong }
}

/// The number of `R,line,number`, 0 for a statement.
fn number(printed: &[u8]) -> u64 {
    let text = String::from_utf8_lossy(printed);
    match text.strip_prefix("R,").and_then(|rest| rest.trim_end().split_once(',')) {
        Some((_, number)) => number.parse().expect("a refusal ends with its number"),
        None => 0,
    }
}

/// Works the cases 0 to `cases` - 1 on two threads.
pub fn worked<T: Send>(cases: u64, work: impl Fn(u64) -> T + Sync) -> Vec<T> {
    let next = AtomicU64::new(0);
    let mut all: Vec<(u64, T)> = std::thread::scope(|scope| {
        let take = || {
            let mut mine = Vec::new();
            loop {
                let case = next.fetch_add(1, Ordering::Relaxed);
                if case >= cases {
                    return mine;
                }
                mine.push((case, work(case)));
            }
        };
        let threads = [scope.spawn(take), scope.spawn(take)];
        threads.into_iter().flat_map(|thread| thread.join().expect("a working thread")).collect()
    });
    all.sort_by_key(|(case, _)| *case);
    all.into_iter().map(|(_, outcome)| outcome).collect()
}

/// The bytes of a file of the repository.
pub fn kept(path: impl AsRef<Path>) -> Vec<u8> {
    let path = root().join(path);
    std::fs::read(&path).unwrap_or_else(|why| panic!("{}: {}", path.display(), why))
}

/// Each month file of examples/: its path, the file, and its statement, or its refusal.
pub fn examples() -> Vec<(PathBuf, Vec<u8>, Vec<u8>)> {
    let folder = root().join("examples");
    let entries = std::fs::read_dir(&folder).unwrap_or_else(|why| panic!("{}: {}", folder.display(), why));
    let paths = entries.map(|entry| entry.expect("an entry of examples/").path());
    let files = paths.filter(|path| path.extension().is_some_and(|end| end == "mre"));
    files.map(|path| (path.clone(), kept(&path), kept(path.with_extension("statement")))).collect()
}

//! `settle-month` where its standard streams cannot be read or written, its memory on the full month (512 plants, 744
//! hours), and a low bar for its speed against the second program. The program has no exit status of its own: it ends with 0.

use crate::count::Count;
use crate::program as second_program;
use crate::settle_month::{kept, pipe, program, root, said, Arrival};
use std::fs::{File, OpenOptions};
use std::io::{Read as _, Write as _};
use std::os::fd::AsRawFd as _;
use std::process::{Child, Command, Stdio};
use std::time::{Duration, Instant};

extern "C" {
    fn fcntl(descriptor: i32, command: i32, ...) -> i32;
}

const SET_PIPE_SIZE: i32 = 1031;

const UNREADABLE: &str = "settle-month: standard input cannot be read\n";
const UNWRITABLE: &str = "settle-month: standard output cannot be written\n";

/// Bytes of an input that is far longer than any month file.
const LONG: usize = 64 << 20;

/// Its own memory at most, in kB: what is not of a file, as the C library is. 01 has P and H at most 512 and 744.
const OWN: u64 = 1024;

/// The second program's time is at least so many times the program's. `bash tests/bench/month` measures the ratio.
const FASTER: f64 = 5.0;

pub fn run(count: &mut Count) {
    unreadable(count);
    unwritable(count);
    long(count);
    let full = second_program::generated(1, "month-full");
    memory(count, &full);
    speed(count, &full);
}

fn example() -> File {
    File::open(root().join("examples/month.mre")).expect("examples/month.mre")
}

/// Through a shell, which can shut a stream before the program starts.
fn through_shell(redirection: &str) -> Command {
    let mut shell = Command::new("/bin/sh");
    shell.arg("-c").arg(format!("exec \"$0\" {}", redirection)).arg(program().get_program());
    shell
}

/// The program prints nothing on standard output, the words on standard error, and ends by itself.
fn ends(count: &mut Count, what: &str, command: &mut Command, words: &str) {
    let output = command.stderr(Stdio::piped()).output().expect("settle-month starts");
    let printed = String::from_utf8_lossy(&output.stderr).into_owned();
    let good = output.status.code() == Some(0) && output.stdout.is_empty() && printed == words;
    count.case(good, || format!("{}: {}, {:?}", what, output.status, printed));
    count.tried(format!("{}: exit status 0, {:?} on standard error", what, words));
}

fn unreadable(count: &mut Count) {
    let folder = File::open("/").expect("a folder opens");
    let written = OpenOptions::new().write(true).open("/dev/null").expect("/dev/null opens");
    ends(count, "standard input shut", through_shell("<&-").stdout(Stdio::piped()), UNREADABLE);
    ends(count, "standard input a folder", program().stdin(folder), UNREADABLE);
    ends(count, "standard input open for writing alone", program().stdin(written), UNREADABLE);
}

fn unwritable(count: &mut Count) {
    let full = OpenOptions::new().write(true).open("/dev/full").expect("/dev/full opens");
    ends(count, "standard output shut", through_shell(">&-").stdin(example()), UNWRITABLE);
    ends(count, "standard output on a full device", program().stdin(example()).stdout(full), UNWRITABLE);
    // The shell leaves a signal ignored that it ignores, and the write then fails with EPIPE.
    let ignored = format!("trap '' PIPE; exec \"{}\"", program().get_program().to_string_lossy());
    let mut deaf = Command::new("/bin/sh");
    ends(
        count,
        "the reader gone, SIGPIPE ignored",
        deaf.arg("-c").arg(ignored).stdin(example()).stdout(unread()),
        UNWRITABLE,
    );
    // A program of the kit ignores SIGPIPE from its start, whatever it was started with.
    ends(count, "the reader gone, SIGPIPE as usual", program().stdin(example()).stdout(unread()), UNWRITABLE);
}

/// An input of any length is read to its end, and its first fault is printed.
fn long(count: &mut Count) {
    let example = kept("examples/month.mre");
    let after = [&example[..], &b"\n".repeat(LONG)].concat();
    for (what, file, wanted) in [
        ("one line without an end", vec![b'7'; LONG], "R,1,26\n"),
        ("empty lines", vec![b'\n'; LONG], "R,1,27\n"),
        ("empty lines after the last G", after, "R,7,27\n"),
    ] {
        said(count, what, &file, wanted, Arrival::Whole);
        count.tried(format!("{}, {} bytes: {}", what, file.len(), wanted.trim_end()));
    }
}

/// The writing end of a pipe that nobody reads.
fn unread() -> Stdio {
    let (_, writer) = pipe(0).expect("a pipe");
    Stdio::from(writer)
}

/// Memory when all work is done: the program waits in its last write, since the statement is longer than the pipe.
fn memory(count: &mut Count, full: &[u8]) {
    let (reader, writer) = pipe(0).expect("a pipe");
    // SAFETY: the descriptor is open; the command takes and gives numbers alone.
    let size = unsafe { fcntl(writer.as_raw_fd(), SET_PIPE_SIZE, 4096) };
    let mut child = program().stdin(Stdio::piped()).stdout(writer).spawn().expect("settle-month starts");
    child.stdin.take().expect("standard input is piped").write_all(full).expect("it reads its input");
    wait_for_write(&child);
    let status = std::fs::read_to_string(format!("/proc/{}/status", child.id())).expect("/proc/PID/status");
    let mut printed = Vec::new();
    File::from(reader).read_to_end(&mut printed).expect("what it prints");
    let ended = child.wait().expect("it ends").success();
    let right = size == 4096 && printed == second::settle_month(second_program::STAGE, full);
    let (own, whole) = (kilobytes(&status, "RssAnon:"), kilobytes(&status, "VmHWM:"));
    count.case(ended && right && own > 0 && own <= OWN, || format!("memory: {} kB of its own, {} kB", own, whole));
    count.tried(format!(
        "full month: {} kB of its own (RssAnon), peak {} kB with the C library's pages (VmHWM)",
        own, whole
    ));
}

/// Until the program sleeps in a write to standard output.
fn wait_for_write(child: &Child) {
    let started = Instant::now();
    while started.elapsed() < Duration::from_secs(20) {
        // The system call's number and its first argument: write is 1.
        let call = std::fs::read_to_string(format!("/proc/{}/syscall", child.id())).unwrap_or_default();
        if call.starts_with("1 0x1 ") {
            return;
        }
        std::thread::sleep(Duration::from_millis(2));
    }
}

fn kilobytes(status: &str, name: &str) -> u64 {
    let line = status.lines().find_map(|line| line.strip_prefix(name)).unwrap_or("0 kB");
    line.trim().trim_end_matches(" kB").parse().unwrap_or(0)
}

/// Best of several runs of each program, one after the other, from a file to nowhere.
fn speed(count: &mut Count, full: &[u8]) {
    let path = std::env::temp_dir().join(format!("settle_month.{}.full", std::process::id()));
    std::fs::write(&path, full).expect("a file in the folder for these");
    let mut second = second_program::command(&["month"]);
    let (mut ours, mut theirs) = (f64::MAX, f64::MAX);
    for _ in 0..9 {
        ours = ours.min(seconds(&mut program(), &path));
        theirs = theirs.min(seconds(&mut second, &path));
    }
    std::fs::remove_file(&path).expect("the file again");
    let ratio = theirs / ours;
    count.case(ratio >= FASTER, || format!("speed: only {:.1} times the second program's", ratio));
    count.tried(format!(
        "full month: {:.1} ms, the second program {:.1} ms, ratio {:.1}",
        ours * 1e3,
        theirs * 1e3,
        ratio
    ));
}

fn seconds(command: &mut Command, path: &std::path::Path) -> f64 {
    let file = File::open(path).expect("the month file");
    let started = Instant::now();
    let status = command.stdin(file).stdout(Stdio::null()).status().expect("the program starts");
    assert!(status.success(), "{:?}: {}", command, status);
    started.elapsed().as_secs_f64()
}

//! Programs that stand beside this one, as processes: the second program, and tests/c/scripts.c.

use second::Stage;
use std::io::Write as _;
use std::ops::RangeInclusive;
use std::process::{Command, Output, Stdio};

/// Document 01 alone is stage 0; stage N has the requests E1 to EN in force.
pub const STAGE: Stage = Stage(0);

/// Bytes from which on a file is long.
pub const LONG: usize = 200_000;

/// One generated input.
pub fn generated(seed: u64, kind: &str) -> Vec<u8> {
    run(&["gen", &seed.to_string(), kind], b"")
}

/// So many seeds of a kind; of one whose files are long, whose lines are alike, a single one.
pub fn seeds(kind: &str, many: u64) -> RangeInclusive<u64> {
    1..=if generated(1, kind).len() < LONG { many } else { 1 }
}

/// The kinds of generated input whose names begin so.
pub fn kinds(beginning: &str) -> Vec<String> {
    text(run(&["kinds"], b"")).lines().filter(|kind| kind.starts_with(beginning)).map(str::to_string).collect()
}

/// What a script of calls prints. A size is printed with the limit and with the bytes that the statement writes.
pub fn calls(script: &[u8]) -> String {
    text(run(&["calls", "--range"], script))
}

/// What the C program prints for a script, or what it says where it ends with another status than 0.
pub fn c_scripts(script: &[u8]) -> Result<String, String> {
    let (output, _) = worked(beside("scripts").stderr(Stdio::piped()), script);
    match output.status.success() {
        true => Ok(text(output.stdout)),
        false => Err(format!("{}: {}", output.status, text(output.stderr))),
    }
}

/// The statement of a month file, or its refusal.
pub fn month(file: &[u8]) -> String {
    text(run(&["month"], file))
}

fn text(bytes: Vec<u8>) -> String {
    String::from_utf8(bytes).expect("a program answers in plain text")
}

fn beside(name: &str) -> Command {
    Command::new(std::env::current_exe().expect("this program has a path").with_file_name(name))
}

/// The second program with these words.
pub fn command(words: &[&str]) -> Command {
    let mut command = beside("second");
    command.args(words).args(["--stage", &STAGE.0.to_string()]);
    command
}

fn run(words: &[&str], input: &[u8]) -> Vec<u8> {
    let (output, taken) = worked(&mut command(words), input);
    assert!(output.status.success(), "second {}: {}", words.join(" "), output.status);
    assert!(taken || words[0] == "gen", "second {} did not read its input", words.join(" "));
    output.stdout
}

/// What a program leaves, and whether it took all of its input.
fn worked(command: &mut Command, input: &[u8]) -> (Output, bool) {
    let mut child = command
        .stdin(Stdio::piped())
        .stdout(Stdio::piped())
        .spawn()
        .unwrap_or_else(|why| panic!("{:?}: {}", command, why));
    let mut stdin = child.stdin.take().expect("standard input is piped");
    let input = input.to_vec();
    // Written beside the reading: either side may fill its pipe.
    let writer = std::thread::spawn(move || stdin.write_all(&input));
    let output = child.wait_with_output().expect("the program's output");
    let written = writer.join().expect("the writing thread");
    (output, written.is_ok())
}

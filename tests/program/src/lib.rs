//! The proved day program, run as its users run it.

pub mod replayed;

use std::io::{Read, Write};
use std::path::{Path, PathBuf};
use std::process::{Child, Command, ExitStatus, Stdio};

use days::Day;

/// What a run of the program wrote.
#[derive(Clone, PartialEq, Eq, Debug)]
pub struct Written {
    pub output: Vec<u8>,
    pub errors: Vec<u8>,
}

/// The program that `.ci/build` or the gate put there.
pub fn program() -> PathBuf {
    let path = Path::new(env!("CARGO_MANIFEST_DIR")).join("../../target/bin/day");
    assert!(
        path.exists(),
        "{} is not there: run .ci/build",
        path.display()
    );
    path
}

/// The input of a day: its roster, then its events.
pub fn input(day: &Day) -> Vec<u8> {
    let mut bytes = day.roster.clone();
    for event in &day.events {
        bytes.extend_from_slice(event);
    }
    bytes
}

/// What the second implementation prints.
pub fn expected(input: &[u8]) -> Vec<u8> {
    let mut output = Vec::new();
    reference::day(input, &mut output).expect("a vector takes every byte");
    output
}

/// A program of Rattle has no exit status of its own: where it is not 0, the program did not end by itself.
pub fn ended_well(status: ExitStatus) {
    assert!(status.success(), "the program ended with {status}");
}

fn start() -> Child {
    Command::new(program())
        .stdin(Stdio::piped())
        .stdout(Stdio::piped())
        .stderr(Stdio::piped())
        .spawn()
        .expect("the program starts")
}

/// Runs the program on an input that arrives in the given pieces, the last of which takes the rest, to its end.
pub fn run_in_pieces(input: &[u8], pieces: &[usize]) -> Written {
    let mut child = start();
    let mut stdin = child.stdin.take().expect("a pipe");
    let mut stdout = child.stdout.take().expect("a pipe");
    let mut stderr = child.stderr.take().expect("a pipe");
    let mut written = Written {
        output: Vec::new(),
        errors: Vec::new(),
    };
    std::thread::scope(|scope| {
        scope.spawn(move || {
            let mut rest = input;
            for piece in pieces {
                let (now, later) = rest.split_at((*piece).min(rest.len()));
                if stdin.write_all(now).and_then(|()| stdin.flush()).is_err() {
                    return;
                }
                std::thread::yield_now();
                rest = later;
            }
            // a program that has read what it needs may have ended
            let _ = stdin.write_all(rest);
        });
        stdout
            .read_to_end(&mut written.output)
            .expect("the output is read");
    });
    stderr
        .read_to_end(&mut written.errors)
        .expect("the errors are read");
    ended_well(child.wait().expect("the program ends"));
    written
}

/// Runs the program on an input that arrives whole.
pub fn run(input: &[u8]) -> Written {
    run_in_pieces(input, &[])
}

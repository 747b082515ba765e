//! The day programs: the proved one and the C one.

use std::fs::{self, File};
use std::io::Write;
use std::path::{Path, PathBuf};
use std::process::{self, Command, Stdio};
use std::time::Duration;
use std::{env, io};

use crate::clock;
use crate::day::Day;

/// The C program that the build made.
pub const BASELINE: &str = env!("BASELINE_DAY");

/// The proved program, which `.ci/build` or the gate put there.
pub const PROVED: &str = concat!(env!("CARGO_MANIFEST_DIR"), "/../target/bin/day");

/// A day's bytes in a file, which goes when this does.
pub struct Input(PathBuf);

impl Input {
    pub fn of(day: &Day) -> io::Result<Input> {
        let path = env::temp_dir().join(format!("bench-{}.day", process::id()));
        let mut file = File::create(&path)?;
        file.write_all(&day.roster)?;
        file.write_all(&day.events)?;
        Ok(Input(path))
    }

    fn command(&self, program: &str) -> io::Result<Command> {
        let mut command = Command::new(Path::new(program));
        command.stdin(File::open(&self.0)?);
        Ok(command)
    }

    /// What a program prints.
    pub fn printed_by(&self, program: &str) -> io::Result<Vec<u8>> {
        let output = self.command(program)?.output()?;
        assert!(output.status.success(), "{program} failed");
        Ok(output.stdout)
    }

    /// The CPU time of a program from its start to its end. What it prints is dropped.
    pub fn time(&self, program: &str) -> io::Result<Duration> {
        let mut command = self.command(program)?;
        command.stdout(Stdio::null());
        let before = clock::children();
        let status = command.status()?;
        assert!(status.success(), "{program} failed");
        Ok(clock::children() - before)
    }
}

impl Drop for Input {
    fn drop(&mut self) {
        // a file that is gone already is no failure
        let _ = fs::remove_file(&self.0);
    }
}

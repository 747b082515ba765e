//! The command line.

use std::env;
use std::path::PathBuf;

const USAGE: &str = "bench [--quick] [--only heavy|light|growth] [--svg PATH]";

/// A part of the benchmark.
#[derive(Clone, Copy, PartialEq, Eq, Debug)]
pub enum Part {
    Heavy,
    Light,
    Growth,
}

pub struct Arguments {
    /// Fewer repeats.
    pub quick: bool,
    /// This part only.
    only: Option<Part>,
    /// Where the plot of the growth goes.
    pub svg: Option<PathBuf>,
}

impl Arguments {
    /// The arguments of this process, or what is wrong with them.
    pub fn read() -> Result<Arguments, String> {
        let mut arguments = Arguments {
            quick: false,
            only: None,
            svg: None,
        };
        let mut words = env::args().skip(1);
        while let Some(word) = words.next() {
            match word.as_str() {
                "--quick" => arguments.quick = true,
                "--only" => arguments.only = Some(part(words.next())?),
                "--svg" => arguments.svg = Some(words.next().ok_or(USAGE)?.into()),
                _ => return Err(format!("{word}: not an argument\n{USAGE}")),
            }
        }
        Ok(arguments)
    }

    pub fn wants(&self, part: Part) -> bool {
        self.only.is_none_or(|only| only == part)
    }
}

fn part(name: Option<String>) -> Result<Part, String> {
    match name.as_deref() {
        Some("heavy") => Ok(Part::Heavy),
        Some("light") => Ok(Part::Light),
        Some("growth") => Ok(Part::Growth),
        _ => Err(USAGE.to_string()),
    }
}

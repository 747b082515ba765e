//! A desk that is seen only through the day program: each event replays the day.

use days::gate::{GroupPosition, InstrumentPosition};

use crate::run;

/// The input so far, and the lines that the program prints for it.
#[derive(Clone, Debug)]
pub struct Replayed {
    input: Vec<u8>,
    lines: Vec<String>,
}

/// Two desks are the same if the program prints the same positions for them.
impl PartialEq for Replayed {
    fn eq(&self, other: &Replayed) -> bool {
        self.positions().eq(other.positions())
    }
}

impl Replayed {
    /// The program lends itself memory that is long enough.
    pub fn new(_length: usize) -> Replayed {
        Replayed {
            input: Vec::new(),
            lines: Vec::new(),
        }
    }

    pub fn open(&mut self, roster: &[u8]) -> u8 {
        self.input = roster.to_vec();
        self.replay();
        number(&self.lines[0], 1)
    }

    pub fn event(&mut self, event: &[u8]) -> u8 {
        self.input.extend_from_slice(event);
        self.replay();
        let answers = self.lines.iter().filter(|line| line.starts_with('E'));
        number(answers.last().expect("an answer"), 2)
    }

    pub fn instrument_position(
        &self,
        account: u16,
        instrument: u16,
    ) -> Result<InstrumentPosition, u8> {
        let line = self.line(&format!("I {account} {instrument} "));
        Ok(InstrumentPosition {
            balance: number(line, 3),
            long: number(line, 4),
            short: number(line, 5),
        })
    }

    pub fn group_position(&self, account: u16, group: u16) -> Result<GroupPosition, u8> {
        let line = self.line(&format!("G {account} {group} "));
        Ok(GroupPosition {
            long: number(line, 3),
            short: number(line, 4),
        })
    }

    fn replay(&mut self) {
        let output = String::from_utf8(run(&self.input).output).expect("text");
        self.lines = output.lines().map(str::to_string).collect();
    }

    fn positions(&self) -> impl Iterator<Item = &String> {
        let printed = |line: &&String| line.starts_with('I') || line.starts_with('G');
        self.lines.iter().filter(printed)
    }

    fn line(&self, start: &str) -> &str {
        let line = self.lines.iter().find(|line| line.starts_with(start));
        line.expect("a line for every place of the roster")
    }
}

/// A number of a line, by its place among the words.
fn number<N: std::str::FromStr>(line: &str, place: usize) -> N {
    let word = line.split(' ').nth(place);
    word.and_then(|word| word.parse().ok())
        .unwrap_or_else(|| panic!("no number at place {place} of '{line}'"))
}

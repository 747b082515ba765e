//! The reference and the proved desk, asked the same.

use days::gate;
use days::kinds::kinds;
use days::opening;
use days::plain::Roster;
use days::random::Random;
use days::Day;
use desk::calls::{Calls, PROVED};
use desk::scrambled::scramble;
use desk::ProvedDesk;
use reference::{Lent, MEMORY};

pub struct Pair {
    pub lent: Lent,
    pub desk: ProvedDesk,
}

impl Pair {
    /// A freshly opened desk of a roster that is accepted.
    pub fn open(roster: &[u8]) -> Pair {
        Pair::with(PROVED, roster)
    }

    /// By other functions than the proved ones.
    pub fn with(calls: Calls, roster: &[u8]) -> Pair {
        let (mut lent, mut desk) = (gate::reference(), ProvedDesk::with(calls, MEMORY + 9));
        assert_eq!((lent.open(roster), desk.open(roster)), (0, 0));
        Pair { lent, desk }
    }

    /// Changes what must not matter.
    pub fn scramble(&mut self, random: &mut Random) {
        scramble(&mut self.desk, random);
    }

    #[track_caller]
    pub fn event(&mut self, event: &[u8]) -> u8 {
        let answer = self.desk.event(event);
        assert_eq!(answer, self.lent.event(event), "{event:?}");
        answer
    }

    /// Compares the answer and, of an accepted file, all that the memory then says and its words
    /// without meaning. That a refusal changes no byte, and an acceptance none behind the first
    /// 65,536, every load checks.
    #[track_caller]
    pub fn load(&mut self, file: &[u8]) -> u8 {
        let before = self.desk.clone();
        let answer = self.desk.load_limits(file);
        assert_eq!(answer, self.lent.load_limits(file), "{}", shown(file));
        if answer == 0 {
            let (words, before) = (self.desk.words(), before.words());
            assert!(words.broken().is_empty(), "{}", shown(file));
            assert_eq!(words.desk().as_ref(), self.lent.desk(), "{}", shown(file));
            let spare = words.without_meaning().expect("a sound desk");
            let mut spare = spare.into_iter();
            let changed = spare.find(|&word| words.at(word) != before.at(word));
            assert_eq!(changed, None, "{}", shown(file));
        }
        answer
    }
}

/// The start of a file, to be printed.
fn shown(file: &[u8]) -> String {
    file[..file.len().min(2_000)].escape_ascii().to_string()
}

/// Some days of every kind whose roster is accepted.
pub fn days() -> impl Iterator<Item = Day> {
    let days = kinds().into_iter().flat_map(|kind| kind.days().take(8));
    days.filter(|day| opening::answer(&day.roster) == 0)
}

/// The roster of such a day.
pub fn roster_of(day: &Day) -> Roster {
    Roster::read(&day.roster).expect("an accepted roster can be read")
}

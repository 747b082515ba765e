//! Sound desks to set fields of, and the comparison of what is said of them then.

use std::collections::BTreeSet;

use days::gate;
use days::kinds::kinds;
use days::random::Random;
use desk::layout::{Clause, Field};
use desk::scrambled::scramble;
use desk::ProvedDesk;
use reference::{Desk, Lent, MEMORY};

/// A sound desk, and the events of its day.
pub struct Sample {
    pub name: String,
    pub desk: ProvedDesk,
    events: Vec<Vec<u8>>,
    /// The fields that are set, each with its value and the value before.
    set: Vec<(Field, u64, u64)>,
}

/// A desk of each kind of day after half of its events, and each with all that must not matter
/// changed.
pub fn samples() -> Vec<Sample> {
    let mut samples = Vec::new();
    for kind in kinds() {
        let day = kind.day(1);
        let mut desk = ProvedDesk::default();
        if desk.open(&day.roster) != 0 {
            continue;
        }
        for event in &day.events[..day.events.len() / 2] {
            desk.event(event);
        }
        let mut scrambled = desk.clone();
        scramble(&mut scrambled, &mut Random::new(9));
        for (desk, how) in [(desk, "as it is"), (scrambled, "scrambled")] {
            let name = format!("{}, {how}", kind.name);
            samples.push(Sample::of(&name, desk, day.events.clone()));
        }
    }
    samples
}

impl Sample {
    pub fn of(name: &str, desk: ProvedDesk, events: Vec<Vec<u8>>) -> Sample {
        Sample {
            name: name.to_string(),
            desk,
            events,
            set: Vec::new(),
        }
    }

    pub fn fields(&self) -> Vec<Field> {
        let fields = self.desk.words().fields();
        fields.expect("a sound desk has its fields")
    }

    pub fn set(&mut self, field: Field, value: u64) {
        let before = self.desk.words().get(field);
        self.desk.put_field(field, value);
        self.set.push((field, value, before));
    }

    /// Sets every field back.
    pub fn restore(&mut self) {
        while let Some((field, _, before)) = self.set.pop() {
            self.desk.put_field(field, before);
        }
    }

    /// Compares what the desk answers with what the layout says of its memory, and on a sound
    /// desk with what the reference answers over the same data. Gives the clauses that are broken;
    /// the memory is left as it was.
    pub fn judge(&mut self, random: &mut Random) -> BTreeSet<Clause> {
        let words = self.desk.words();
        let (broken, read) = (words.broken(), words.desk());
        let what = format!("{}, {:?}: {broken:?}", self.name, self.set);
        let of_the_layout = |clause| matches!(clause, &Clause::IdsAscend | &Clause::UnsetLine);
        let sound = read.as_ref().is_some_and(Desk::is_sound);
        assert_eq!(sound, broken.iter().all(of_the_layout), "{what}");
        let mut expected = match read.filter(|_| broken.is_empty()) {
            Some(desk) => Lent::holding(MEMORY, desk),
            None => gate::reference(),
        };
        self.compare_positions(&what, &expected, random);
        #[cfg(feature = "loading")]
        self.compare_loads(&what, &mut expected);
        self.compare_answers(&what, &mut expected, random);
        broken
    }

    /// By both readers: 5 where the expected memory holds no desk.
    fn compare_positions(&self, what: &str, expected: &Lent, random: &mut Random) {
        let (account, item) = (random.between(1, 3) as u16, random.between(1, 3) as u16);
        for (account, item) in [(1, 1), (account, item)] {
            let read = self.desk.instrument_position(account, item);
            assert_eq!(read, expected.instrument_position(account, item), "{what}");
            let read = self.desk.group_position(account, item);
            assert_eq!(read, expected.group_position(account, item), "{what}");
        }
    }

    /// By a file of no bytes, which gets 5 or 25.
    #[cfg(feature = "loading")]
    fn compare_loads(&mut self, what: &str, expected: &mut Lent) {
        let answer = self.desk.load_limits(&[]);
        assert_eq!(answer, expected.load_limits(&[]), "{what}");
    }

    /// By an event of no bytes, which gets 5 or 6, and by one of the day's.
    fn compare_answers(&mut self, what: &str, expected: &mut Lent, random: &mut Random) {
        let before = self.desk.memory().to_vec();
        for event in [&Vec::new(), &self.events[random.below(self.events.len())]] {
            let answer = self.desk.event(event);
            assert_eq!(answer, expected.event(event), "{what}, {event:?}");
        }
        if expected.desk().is_some() {
            assert_eq!(self.desk.desk().as_ref(), expected.desk(), "{what}");
            self.desk.put(0, &before);
        }
    }
}

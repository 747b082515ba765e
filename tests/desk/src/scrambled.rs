//! The proved desk on memory whose bytes without meaning change all the time.

use days::gate::{Gate, GroupPosition, InstrumentPosition};
use days::random::Random;
use reference::MEMORY;

use crate::layout::{Field, Words, PARTS};
use crate::ProvedDesk;

/// Changes at random all that must not matter on a sound desk: where in their region the order
/// records stand, words without meaning, the bytes behind the first 65,536, which word other than 0
/// says yes, and the figures of lines that are not set. A memory whose sizes, first record or count
/// are past their limits stays as it is.
pub fn scramble(desk: &mut ProvedDesk, random: &mut Random) {
    if desk.words().fields().is_some() {
        place_records(desk, random);
    }
    let words = desk.words();
    let (Some(spare), Some(fields)) = (words.without_meaning(), words.fields()) else {
        return;
    };
    let figures = fields
        .into_iter()
        .filter_map(|field| Some((field, equal_value(words, field, random)?)));
    let figures: Vec<(Field, u64)> = figures.collect();
    for (field, value) in figures {
        desk.put_field(field, value);
    }
    for word in spare {
        let any = random.number();
        let value = random.one_of(&[any, any % 40, u64::MAX, 1_000_000_001]);
        desk.put_word(word, value);
    }
    for place in MEMORY..desk.memory().len() {
        desk.put(place, &[random.number() as u8]);
    }
}

/// Places the records in use anywhere in their region.
fn place_records(desk: &mut ProvedDesk, random: &mut Random) {
    let words = desk.words();
    let records = words.records().into_iter().flatten();
    let records: Vec<[u64; 2]> = records
        .map(|record| PARTS.map(|part| words.get(Field::Order(record, part))))
        .collect();
    let any = random.below(257);
    let first = random.one_of(&[0, 1, 255, 256, any]);
    desk.put_field(Field::First, first as u64);
    for (place, record) in records.iter().enumerate() {
        for (part, value) in PARTS.into_iter().zip(record) {
            desk.put_field(Field::Order(first + place, part), *value);
        }
    }
}

/// Another value that means the same in this field, if there is one.
fn equal_value(words: Words, field: Field, random: &mut Random) -> Option<u64> {
    match field {
        Field::Mark(_) | Field::Block(_) | Field::Set(_) if words.get(field) != 0 => {
            let any = random.number();
            Some(random.one_of(&[1, 2, 256, 1 << 32, 1 << 63, any | 1]))
        }
        Field::Figure(line, _) if words.get(Field::Set(line)) == 0 => {
            Some(random.number() % 1_000_000_001)
        }
        _ => None,
    }
}

/// A desk that is scrambled after each opening and, now and then, after an event.
pub struct Scrambled {
    desk: ProvedDesk,
    random: Random,
}

impl Scrambled {
    pub fn new(seed: u64) -> Scrambled {
        Scrambled {
            desk: ProvedDesk::default(),
            random: Random::new(seed),
        }
    }
}

impl Gate for Scrambled {
    fn open(&mut self, roster: &[u8]) -> u8 {
        let answer = self.desk.open(roster);
        scramble(&mut self.desk, &mut self.random);
        answer
    }

    fn event(&mut self, event: &[u8]) -> u8 {
        let answer = self.desk.event(event);
        if self.random.chance(25) {
            scramble(&mut self.desk, &mut self.random);
        }
        answer
    }

    fn instrument_position(&self, account: u16, instrument: u16) -> Result<InstrumentPosition, u8> {
        self.desk.instrument_position(account, instrument)
    }

    fn group_position(&self, account: u16, group: u16) -> Result<GroupPosition, u8> {
        self.desk.group_position(account, group)
    }
}

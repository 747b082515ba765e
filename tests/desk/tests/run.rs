//! Runs of events, cut at random places, beside the same events one by one.

use days::kinds::kinds;
use days::random::Random;
use desk::calls::run;
use desk::ProvedDesk;
use wire::EVENT_LENGTH;

/// What an answer holds before it is written.
const UNWRITTEN: u8 = 0xa5;

/// The answers and the memory of the events one by one.
fn one_by_one(memory: &[u8], events: &[u8]) -> (Vec<u8>, Vec<u8>) {
    let mut desk = ProvedDesk::holding(memory);
    let answers = events
        .chunks(EVENT_LENGTH)
        .map(|event| desk.event(event))
        .collect();
    (answers, desk.memory().to_vec())
}

/// Runs the events with room for that many answers, and compares all that the run leaves.
fn compare(what: &str, memory: &mut [u8], events: &[u8], room: usize) {
    let worked = events.len().min(room * EVENT_LENGTH);
    let (answers, after) = one_by_one(memory, &events[..worked]);
    let mut written = vec![UNWRITTEN; room];
    let count = run(memory, events, &mut written);
    assert_eq!(count, answers.len(), "{what}");
    assert_eq!(written[..count], answers, "{what}");
    assert!(
        written[count..].iter().all(|&byte| byte == UNWRITTEN),
        "{what}: a byte past the answers was written"
    );
    assert!(memory == after, "{what}: another memory");
}

/// A memory that holds the desk of a roster, or none where the opening is refused.
fn opened(roster: &[u8]) -> Vec<u8> {
    let mut desk = ProvedDesk::default();
    desk.open(roster);
    desk.memory().to_vec()
}

#[test]
fn runs_cut_at_random_places_are_the_single_events() {
    let mut random = Random::new(31);
    for kind in kinds() {
        for seed in 0..kind.seeds.min(4) {
            let day = kind.day(seed);
            let name = format!("{}, seed {seed}", kind.name);
            let bytes: Vec<u8> = day.events.concat();
            let mut memory = opened(&day.roster);
            let mut rest = &bytes[..];
            while !rest.is_empty() {
                let room = 1 + random.below(40);
                let taken = rest.len().min((1 + random.below(60)) * EVENT_LENGTH);
                compare(&name, &mut memory, &rest[..taken], room);
                let worked = taken.min(room * EVENT_LENGTH);
                rest = &rest[worked..];
            }
        }
    }
}

#[test]
fn a_short_last_event_is_answered_6() {
    let day = kinds()[0].day(0);
    let mut memory = opened(&day.roster);
    let bytes = day.events.concat();
    for short in 1..EVENT_LENGTH {
        let events = &bytes[..3 * EVENT_LENGTH + short];
        let mut answers = [UNWRITTEN; 5];
        assert_eq!(run(&mut memory, events, &mut answers), 4);
        assert_eq!(answers[3..], [6, UNWRITTEN]);
    }
}

#[test]
fn no_event_and_no_room_change_nothing() {
    let day = kinds()[0].day(0);
    let memory = opened(&day.roster);
    let bytes = day.events.concat();
    for (events, room) in [(&bytes[..0], 3), (&bytes[..], 0), (&bytes[..0], 0)] {
        let mut now = memory.clone();
        let mut answers = vec![UNWRITTEN; room];
        assert_eq!(run(&mut now, events, &mut answers), 0);
        assert!(answers.iter().all(|&byte| byte == UNWRITTEN));
        assert!(now == memory);
    }
}

#[test]
fn a_short_or_unsound_memory_answers_5_to_each() {
    let day = kinds()[0].day(0);
    let bytes = day.events.concat();
    let mut unsound = opened(&day.roster);
    unsound[0] ^= 1;
    for memory in [Vec::new(), vec![0; 65_535], vec![0; 65_536], unsound] {
        let mut now = memory.clone();
        let mut answers = vec![UNWRITTEN; day.events.len() + 2];
        let count = run(&mut now, &bytes, &mut answers);
        assert_eq!(count, bytes.len().div_ceil(EVENT_LENGTH));
        assert!(answers[..count].iter().all(|&answer| answer == 5));
        assert!(answers[count..].iter().all(|&byte| byte == UNWRITTEN));
        assert!(now == memory);
    }
}

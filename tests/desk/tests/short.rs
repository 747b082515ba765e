//! Memory that is too short for a desk, or holds none: every event and every reading is answered 5.

use days::kinds::kind;
use desk::ProvedDesk;
use reference::MEMORY;

/// The memory of a sound desk, and the events of the day that made it.
fn sound_desk() -> (Vec<u8>, Vec<Vec<u8>>) {
    let day = kind("traffic").day(2);
    let mut desk = ProvedDesk::new(MEMORY);
    assert_eq!(desk.open(&day.roster), 0);
    for event in &day.events {
        desk.event(event);
    }
    (desk.memory().to_vec(), day.events)
}

/// Sends events of every sort, well formed or not, and reads on and off the roster.
fn answers_5(desk: &mut ProvedDesk, events: &[Vec<u8>]) {
    let junk = kind("noise").day(1).events;
    for event in events.iter().chain(&junk) {
        assert_eq!(desk.event(event), 5);
    }
    for account in [0, 1, 2, 17, u16::MAX] {
        for item in [0, 1, 2, 33, u16::MAX] {
            assert_eq!(desk.instrument_position(account, item), Err(5));
            assert_eq!(desk.group_position(account, item), Err(5));
        }
    }
}

#[test]
fn memory_of_65_536_bytes_holds_a_desk() {
    let (memory, events) = sound_desk();
    let mut desk = ProvedDesk::holding(&memory);
    assert!(desk.instrument_position(1, 1).is_ok());
    assert!(desk.group_position(1, 1).is_ok());
    assert!(events.iter().all(|event| desk.event(event) != 5));
}

#[test]
fn short_memory_is_answered_5_though_it_holds_the_bytes_of_a_desk() {
    let (memory, events) = sound_desk();
    for length in [0, 1, 7, 8, 616, 50_176, MEMORY - 8, MEMORY - 1] {
        answers_5(&mut ProvedDesk::holding(&memory[..length]), &events);
    }
}

#[test]
fn memory_that_holds_no_desk_is_answered_5() {
    let (_, events) = sound_desk();
    for length in [MEMORY, MEMORY + 1, 2 * MEMORY] {
        answers_5(&mut ProvedDesk::new(length), &events);
        answers_5(&mut ProvedDesk::holding(&vec![0; length]), &events);
        answers_5(&mut ProvedDesk::holding(&vec![u8::MAX; length]), &events);
    }
}

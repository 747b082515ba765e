//! Memory that is too short for a desk or holds no sound one: every file is answered 5. Memory that
//! is long enough: none is.

use days::files::{steps, Step};
use days::kinds::kind;
use days::random::Random;
use desk::layout::Field;
use desk::ProvedDesk;
use reference::MEMORY;

/// The memory of a sound desk.
fn sound_desk() -> Vec<u8> {
    let day = kind("traffic").day(2);
    let mut desk = ProvedDesk::new(MEMORY);
    assert_eq!(desk.open(&day.roster), 0);
    for event in &day.events {
        desk.event(event);
    }
    desk.memory().to_vec()
}

/// Files of every sort for that desk, and junk.
fn files() -> Vec<Vec<u8>> {
    let day = kind("traffic").day(2);
    let loads = steps(&day, 1, &mut Random::new(73)).into_iter();
    let loads = loads.filter_map(|step| match step {
        Step::Load(file) => Some(file),
        Step::Event(_) => None,
    });
    loads
        .chain([Vec::new(), b" ".to_vec(), vec![0; 48]])
        .collect()
}

fn answers_5(mut desk: ProvedDesk, files: &[Vec<u8>]) {
    for file in files {
        assert_eq!(desk.load_limits(file), 5);
    }
}

#[test]
fn memory_is_long_enough_from_65_536_bytes_on() {
    let memory = sound_desk();
    for tail in [0, 1, 9, MEMORY] {
        let mut desk = ProvedDesk::holding(&[&memory[..], &vec![0xa5; tail]].concat());
        let mut answers = [0; 256];
        for file in files() {
            answers[usize::from(desk.load_limits(&file))] += 1;
        }
        assert!(answers[5] == 0 && answers[0] > 10, "{answers:?}");
    }
}

#[test]
fn short_memory_is_answered_5_though_it_holds_the_bytes_of_a_desk() {
    let (memory, files) = (sound_desk(), files());
    for length in [0, 1, 7, 8, 616, 50_176, MEMORY - 8, MEMORY - 1] {
        answers_5(ProvedDesk::holding(&memory[..length]), &files);
    }
}

#[test]
fn memory_that_holds_no_desk_is_answered_5() {
    let files = files();
    for length in [MEMORY, MEMORY + 1, 2 * MEMORY] {
        answers_5(ProvedDesk::new(length), &files);
        answers_5(ProvedDesk::holding(&vec![0; length]), &files);
        answers_5(ProvedDesk::holding(&vec![u8::MAX; length]), &files);
    }
}

/// That each clause of soundness is asked of a load too, `soundness` compares.
#[test]
fn an_unsound_desk_is_answered_5() {
    let (memory, files) = (sound_desk(), files());
    for (field, value) in [
        (Field::Kind, 2),
        (Field::Accounts, 0),
        (Field::GroupOf(1), 5),
        (Field::Weight(1), 1_000_001),
        (Field::Count, 257),
    ] {
        let mut desk = ProvedDesk::holding(&memory);
        desk.put_field(field, value);
        answers_5(desk, &files);
    }
}

//! The comparisons can fail: loads with one fault are caught.

use days::files::{steps, Step};
use days::kinds::kind;
use days::random::Random;
use desk::calls::{Calls, PROVED};
use reference::MEMORY;

use crate::pair::Pair;

/// Days with loads through a desk of these functions.
fn replay(load_limits: fn(&mut [u8], &[u8]) -> u8) {
    let mut random = Random::new(74);
    for day in kind("traffic").days().take(20) {
        let mut pair = Pair::with(
            Calls {
                load_limits,
                ..PROVED
            },
            &day.roster,
        );
        for step in steps(&day, 2, &mut random) {
            match step {
                Step::Event(event) => pair.event(&event),
                Step::Load(file) => pair.load(&file),
            };
        }
    }
}

#[test]
fn the_proved_load_passes() {
    replay(PROVED.load_limits);
}

#[test]
#[should_panic(expected = "changed byte Some(640)")]
fn a_refused_load_that_changes_a_spare_word_is_caught() {
    replay(|memory, file| {
        let answer = (PROVED.load_limits)(memory, file);
        memory[640] ^= u8::from(answer != 0);
        answer
    });
}

#[test]
#[should_panic(expected = "a load answered 0 changed byte Some(65536)")]
fn an_accepted_load_that_changes_the_tail_is_caught() {
    replay(|memory, file| {
        let answer = (PROVED.load_limits)(memory, file);
        memory[MEMORY] ^= u8::from(answer == 0);
        answer
    });
}

#[test]
#[should_panic(expected = "right: None")]
fn an_accepted_load_that_changes_a_spare_word_is_caught() {
    replay(|memory, file| {
        let answer = (PROVED.load_limits)(memory, file);
        memory[640] ^= u8::from(answer == 0);
        answer
    });
}

#[test]
#[should_panic(expected = "assertion `left == right` failed")]
fn an_accepted_load_that_is_not_recorded_is_caught() {
    replay(|memory, file| {
        let mut unused = memory.to_vec();
        (PROVED.load_limits)(&mut unused, file)
    });
}

#[test]
#[should_panic(expected = "assertion `left == right` failed")]
fn a_load_that_reads_no_further_than_the_end_of_fixml_is_caught() {
    replay(|memory, file| {
        let end = b"</FIXML>";
        let place = file.windows(end.len()).position(|bytes| bytes == end);
        let length = place.map_or(file.len(), |place| place + end.len());
        (PROVED.load_limits)(memory, &file[..length])
    });
}

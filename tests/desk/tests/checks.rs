//! The checks around each call can fail: functions with one fault are caught.

use days::gate;
use days::kinds::kind;
use days::replay::first_difference;
use desk::calls::{Calls, PROVED};
use desk::layout::Field;
use desk::ProvedDesk;
use reference::MEMORY;

/// Replays a day through a desk of these functions; some of its events are refused, some accepted.
fn replay(calls: Calls) {
    let day = kind("small").day(1);
    let mut desk = ProvedDesk::with(calls, MEMORY + 8);
    let difference = first_difference(&day, &mut gate::reference(), &mut desk);
    assert_eq!(difference, None);
    assert_ne!(desk.open(&day.roster[1..]), 0);
}

#[test]
fn proved_functions_pass() {
    replay(PROVED);
}

#[test]
#[should_panic(expected = "changed byte Some(640)")]
fn refused_event_that_changes_a_spare_word_is_caught() {
    let event = |memory: &mut [u8], event: &[u8]| {
        let answer = (PROVED.event)(memory, event);
        memory[640] ^= u8::from(answer != 0);
        answer
    };
    replay(Calls { event, ..PROVED });
}

#[test]
#[should_panic(expected = "changed byte Some(65543)")]
fn refused_event_that_changes_the_tail_is_caught() {
    let event = |memory: &mut [u8], event: &[u8]| {
        let answer = (PROVED.event)(memory, event);
        memory[MEMORY + 7] ^= u8::from(answer != 0);
        answer
    };
    replay(Calls { event, ..PROVED });
}

#[test]
#[should_panic(expected = "an event answered 0 changed byte Some(65536)")]
fn accepted_event_that_changes_the_tail_is_caught() {
    let event = |memory: &mut [u8], event: &[u8]| {
        let answer = (PROVED.event)(memory, event);
        memory[MEMORY] ^= u8::from(answer == 0);
        answer
    };
    replay(Calls { event, ..PROVED });
}

#[test]
#[should_panic(expected = "an opening answered 2 changed byte Some(0)")]
fn refused_opening_that_clears_is_caught() {
    let open = |memory: &mut [u8], roster: &[u8]| {
        let answer = (PROVED.open)(memory, roster);
        if answer != 0 {
            memory[..MEMORY].fill(0);
        }
        answer
    };
    replay(Calls { open, ..PROVED });
}

#[test]
#[should_panic(expected = "an opening answered 0 changed byte Some(65536)")]
fn accepted_opening_that_clears_the_tail_is_caught() {
    let open = |memory: &mut [u8], roster: &[u8]| {
        let answer = (PROVED.open)(memory, roster);
        memory[MEMORY..].fill(0);
        answer
    };
    replay(Calls { open, ..PROVED });
}

#[test]
#[should_panic(expected = "a reading changed byte Some(1024)")]
fn reading_that_marks_an_account_is_caught() {
    let group_position = |memory: &mut [u8], account, group, report: &mut [i64; 2]| {
        let answer = (PROVED.group_position)(memory, account, group, report);
        memory[8 * Field::Mark(1).word()] ^= 1;
        answer
    };
    replay(Calls {
        group_position,
        ..PROVED
    });
}

#[test]
#[should_panic(expected = "a refused reading wrote its report")]
fn refused_reading_that_writes_its_report_is_caught() {
    let instrument_position = |memory: &mut [u8], account, instrument, report: &mut [i64; 3]| {
        let answer = (PROVED.instrument_position)(memory, account, instrument, report);
        if answer != 0 {
            report[2] = 0;
        }
        answer
    };
    replay(Calls {
        instrument_position,
        ..PROVED
    });
}

#[test]
#[should_panic(expected = "right: None")]
fn accepted_event_that_is_not_recorded_is_caught() {
    let event = |memory: &mut [u8], event: &[u8]| {
        let mut unused = memory.to_vec();
        (PROVED.event)(&mut unused, event)
    };
    replay(Calls { event, ..PROVED });
}

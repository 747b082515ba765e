//! A load beside its LIMIT events, one after the other on the proved desk: every byte.

use days::files::{elements, events, write};
use days::random::Random;
use desk::scrambled::scramble;
use desk::ProvedDesk;

use crate::pair::{days, roster_of};

#[test]
fn a_load_leaves_the_bytes_that_its_events_leave() {
    let mut random = Random::new(72);
    let mut worked = 0;
    for day in days() {
        let mut desk = ProvedDesk::default();
        assert_eq!(desk.open(&day.roster), 0);
        for event in &day.events[..day.events.len() / 2] {
            desk.event(event);
        }
        scramble(&mut desk, &mut random);
        for _ in 0..10 {
            let file = elements(&mut random, &roster_of(&day));
            let mut one_by_one = desk.clone();
            for event in events(&file) {
                assert_eq!(one_by_one.event(&event.bytes()), 0, "{event:?}");
                worked += 1;
            }
            let bytes = write(&mut random, &file);
            assert_eq!(desk.load_limits(&bytes), 0, "{file:?}");
            assert!(desk == one_by_one, "{file:?}");
        }
    }
    assert!(worked > 5_000, "{worked}");
}

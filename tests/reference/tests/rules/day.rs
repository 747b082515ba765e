//! The day program: what it reads and what it prints.

use crate::trial::{default_line, group_line, one_group, ONE, WIDE};
use std::io::{self, Read};
use std::process::{Command, Stdio};
use wire::{balance, new, RosterSpec, BUY, SELL};

const LISTING: &[u8] = include_bytes!("../../../../samples/listing.day");
const LISTING_OUT: &str = include_str!("../../../../samples/listing.out");

fn printed(input: impl Read) -> String {
    let mut output = Vec::new();
    reference::day(input, &mut output).unwrap();
    String::from_utf8(output).unwrap()
}

/// An input that comes in pieces of 1 to 7 bytes, with interruptions between.
struct Pieces<'a> {
    rest: &'a [u8],
    turn: usize,
}

impl Read for Pieces<'_> {
    fn read(&mut self, buffer: &mut [u8]) -> io::Result<usize> {
        self.turn += 1;
        if self.turn.is_multiple_of(5) {
            return Err(io::ErrorKind::Interrupted.into());
        }
        let count = (1 + self.turn % 7).min(buffer.len()).min(self.rest.len());
        let (piece, rest) = self.rest.split_at(count);
        buffer[..count].copy_from_slice(piece);
        self.rest = rest;
        Ok(count)
    }
}

#[test]
fn pieces_make_no_difference() {
    for turn in 0..35 {
        let input = Pieces {
            rest: LISTING,
            turn,
        };
        assert_eq!(printed(input), LISTING_OUT);
    }
}

#[test]
fn replay_program_prints_the_listing() {
    let mut replay = Command::new(env!("CARGO_BIN_EXE_replay"))
        .stdin(Stdio::piped())
        .stdout(Stdio::piped())
        .spawn()
        .unwrap();
    let mut input = replay.stdin.take().unwrap();
    io::Write::write_all(&mut input, LISTING).unwrap();
    drop(input);
    let output = replay.wait_with_output().unwrap();
    assert!(output.status.success());
    assert_eq!(String::from_utf8(output.stdout).unwrap(), LISTING_OUT);
}

#[test]
fn short_roster_is_r_2() {
    let roster = one_group(&[ONE, ONE]).bytes();
    for length in 0..roster.len() {
        assert_eq!(printed(&roster[..length]), "R 2\n", "{length} bytes");
    }
    assert!(printed(&roster[..]).starts_with("R 0\n"));
}

#[test]
fn size_out_of_range_is_r_2_and_nothing_more_is_read() {
    for place in 0..4 {
        for size in [0u16, 33, 256, u16::MAX] {
            let mut input = LISTING.to_vec();
            input[2 * place..2 * place + 2].copy_from_slice(&size.to_le_bytes());
            let mut rest = &input[..];
            assert_eq!(printed(&mut rest), "R 2\n");
            assert_eq!(rest.len(), input.len() - 8);
        }
    }
}

#[test]
fn unknown_group_is_r_3_and_nothing_else() {
    let mut input = LISTING.to_vec();
    input[8] = 2;
    assert_eq!(printed(&input[..]), "R 3\n");
}

#[test]
fn weight_out_of_range_is_r_4_and_nothing_else() {
    let mut input = LISTING.to_vec();
    input[11..15].copy_from_slice(&(-1_000_001i32).to_le_bytes());
    assert_eq!(printed(&input[..]), "R 4\n");
}

#[test]
fn day_without_events_prints_the_positions() {
    let roster = one_group(&[ONE]).bytes();
    assert_eq!(printed(&roster[..]), "R 0\nI 1 1 0 0 0\nG 1 1 0 0\n");
}

#[test]
fn short_last_event_is_refused_by_6() {
    let sized = new(BUY, 1, 2, 10, 1).bytes();
    let expected = LISTING_OUT.replace("E 8 0\n", "E 8 0\nE 9 6\n");
    for length in 1..48 {
        let input = [LISTING, &sized[..length]].concat();
        assert_eq!(printed(&input[..]), expected, "{length} bytes");
    }
}

#[test]
fn junk_events_are_answered_and_passed_over() {
    let roster_length = 8 + 1 + 5 * 2;
    let junk = [0xffu8; 48];
    let input = [&LISTING[..roster_length], &junk, &LISTING[roster_length..]].concat();
    let output = printed(&input[..]);
    assert!(output.starts_with("R 0\nE 1 6\nE 2 0\n"));
    assert!(output.ends_with(
        "E 6 23\nE 7 0\nE 8 0\nE 9 0\nI 1 1 10 10 -10\nI 1 2 0 4 0\nG 1 1 100000 -80000\n"
    ));
}

#[test]
fn positions_are_printed_instruments_first_accounts_ascending() {
    let mut input = RosterSpec {
        accounts: 2,
        groups: 2,
        groups_of: vec![2, 1],
        instruments: vec![(1, ONE), (2, -ONE), (1, 3)],
    }
    .bytes();
    for event in [
        balance(1, 1, -7),
        balance(2, 2, -1_000_000_000),
        balance(2, 3, 9),
        default_line(2, 1, [WIDE; 4]),
        group_line(2, 2, WIDE, WIDE),
        new(SELL, 2, 1, 1, 4),
        new(SELL, 2, 4, 1, 4),
    ] {
        input.extend(event.bytes());
    }
    let expected = "R 0\nE 1 0\nE 2 0\nE 3 0\nE 4 0\nE 5 0\nE 6 0\nE 7 8\n\
        I 1 1 -7 -7 7\nI 1 2 0 0 0\nI 1 3 0 0 0\n\
        I 2 1 0 0 4\nI 2 2 -1000000000 -1000000000 1000000000\nI 2 3 9 9 -9\n\
        G 1 1 0 0\nG 1 2 -70000 70000\n\
        G 2 1 10000000000000 -10000000000000\nG 2 2 27 39973\n";
    assert_eq!(printed(&input[..]), expected);
}

#[test]
fn reading_error_is_reported() {
    struct Broken;
    impl Read for Broken {
        fn read(&mut self, _: &mut [u8]) -> io::Result<usize> {
            Err(io::ErrorKind::TimedOut.into())
        }
    }
    let error = reference::day(LISTING.chain(Broken), Vec::new()).unwrap_err();
    assert_eq!(error.kind(), io::ErrorKind::TimedOut);
}

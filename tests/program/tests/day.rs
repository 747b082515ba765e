//! The day program beside the second implementation's.

use days::kinds::kinds;
use days::random::Random;
use program::{ended_well, expected, input, program, run, run_in_pieces};
use std::collections::BTreeSet;
use std::fs::{self, File};
use std::io::Seek;
use std::process::{Command, Stdio};

const LISTING: &[u8] = include_bytes!("../../../samples/listing.day");
const LISTING_OUTPUT: &[u8] = include_bytes!("../../../samples/listing.out");

fn agrees(what: &str, bytes: &[u8]) {
    let written = run(bytes);
    assert!(
        written.errors.is_empty(),
        "{what}: {}",
        String::from_utf8_lossy(&written.errors)
    );
    assert!(written.output == expected(bytes), "{what}: another output");
}

#[test]
fn the_listing_is_printed() {
    let written = run(LISTING);
    assert_eq!(
        String::from_utf8_lossy(&written.output),
        String::from_utf8_lossy(LISTING_OUTPUT)
    );
    assert!(written.errors.is_empty());
}

#[test]
fn generated_days_of_every_kind_agree() {
    for kind in kinds() {
        for seed in 0..kind.seeds.min(6) {
            agrees(&format!("{} {seed}", kind.name), &input(&kind.day(seed)));
        }
    }
}

#[test]
fn input_may_arrive_in_any_pieces() {
    let mut random = Random::new(9);
    for kind in kinds() {
        let bytes = input(&kind.day(1));
        let pieces: Vec<usize> = (0..40).map(|_| random.below(200)).collect();
        assert!(
            run_in_pieces(&bytes, &pieces).output == expected(&bytes),
            "{}: another output",
            kind.name
        );
    }
}

#[test]
fn an_input_cut_anywhere_agrees() {
    for length in 0..LISTING.len() {
        agrees(
            &format!("the first {length} bytes of the listing"),
            &LISTING[..length],
        );
    }
}

#[test]
fn sizes_out_of_range_print_one_line() {
    for (place, size) in [
        (0, 0u16),
        (0, 17),
        (2, 0),
        (2, 5),
        (4, 0),
        (4, 9),
        (6, 0),
        (6, 33),
        (6, 65_535),
    ] {
        let mut bytes = LISTING.to_vec();
        bytes[place..place + 2].copy_from_slice(&size.to_le_bytes());
        assert_eq!(
            String::from_utf8_lossy(&run(&bytes).output),
            "R 2\n",
            "size {size} at byte {place}"
        );
    }
}

#[test]
fn more_events_than_a_block_agree() {
    let mut bytes = LISTING.to_vec();
    for _ in 0..5_000 {
        bytes.extend_from_slice(&LISTING[19..19 + 48]);
    }
    bytes.extend_from_slice(&LISTING[19..19 + 47]);
    agrees("5,000 events and a short one", &bytes);
}

#[test]
fn places_of_one_to_six_digits_agree() {
    let mut bytes = LISTING.to_vec();
    for _ in 0..12_505 {
        bytes.extend_from_slice(&LISTING[19..]);
    }
    agrees("the listing's events over and over", &bytes);

    let output = String::from_utf8(run(&bytes).output).expect("text");
    let widths: BTreeSet<(usize, usize)> = output
        .lines()
        .filter_map(|line| line.strip_prefix("E ")?.split_once(' '))
        .map(|(place, answer)| (place.len(), answer.len()))
        .collect();
    for digits in 1..=6 {
        assert!(
            widths.contains(&(digits, 1)) && widths.contains(&(digits, 2)),
            "a place of {digits} digits with answers of one and of two"
        );
    }
}

#[test]
fn input_that_cannot_be_read_is_said_on_standard_error() {
    let folder = File::open(env!("CARGO_MANIFEST_DIR")).expect("a folder opens");
    let output = Command::new(program())
        .stdin(folder)
        .output()
        .expect("the program runs");
    ended_well(output.status);
    assert!(output.stdout.is_empty());
    assert!(!output.stderr.is_empty());
}

#[test]
fn output_that_cannot_be_written_is_said_on_standard_error() {
    let full = File::options()
        .write(true)
        .open("/dev/full")
        .expect("the full device opens");
    let sample = File::open(concat!(
        env!("CARGO_MANIFEST_DIR"),
        "/../../samples/listing.day"
    ))
    .expect("the sample opens");
    let output = Command::new(program())
        .stdin(sample)
        .stdout(Stdio::from(full))
        .output()
        .expect("the program runs");
    ended_well(output.status);
    assert!(!output.stderr.is_empty());
}

/// The buffer is written where the longest line of an answer, 27 bytes, has no room in its 65,536: the events up to there are read and
/// answered, and no block behind them is read where that write fails.
#[test]
fn answers_are_written_where_the_next_line_has_no_room() {
    let mut bytes = LISTING[..19].to_vec();
    for place in 0..9_216 {
        let mut event = [0; 48];
        if place < 2_000 {
            // CANCEL of an order that is not open: 11, of two digits
            (event[0], event[8]) = (6, 1);
        }
        bytes.extend_from_slice(&event);
    }
    let mut waiting = "R 0\n".len();
    let mut place = 1;
    while waiting + 27 <= 65_536 {
        let answer = if place <= 2_000 { 11 } else { 6 };
        waiting += format!("E {place} {answer}\n").len();
        place += 1;
    }
    let blocks = (place - 1) / 1_024 + 1;
    assert!(blocks < 9, "a block is left to be read");

    let path = std::env::temp_dir().join(format!("day-{}", std::process::id()));
    fs::write(&path, &bytes).expect("the input is written");
    let mut input = File::open(&path).expect("the input opens");
    fs::remove_file(&path).expect("the input is there");
    let full = File::options()
        .write(true)
        .open("/dev/full")
        .expect("the full device opens");
    let output = Command::new(program())
        .stdin(input.try_clone().expect("a second handle"))
        .stdout(Stdio::from(full))
        .output()
        .expect("the program runs");
    ended_well(output.status);
    assert_eq!(
        input.stream_position().expect("a place"),
        19 + blocks * 49_152
    );
}

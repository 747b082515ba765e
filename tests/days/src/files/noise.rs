//! Files with some bytes changed, whatever comes of it.

use crate::random::Random;

/// Bytes that mean something in a file, and some that don't.
const BYTES: [u8; 20] = *b" \t\r\n\"'<>/=?&019Ax\0\x0b\xff";

/// A file with one to three changes, mostly of a single byte.
pub fn noise(random: &mut Random, mut file: Vec<u8>) -> Vec<u8> {
    for _ in 0..random.between(1, 3) {
        match random.chance(40) {
            true => change_digit(random, &mut file),
            false => change_bytes(random, &mut file),
        }
    }
    file
}

/// Writes another digit over one behind the declaration, if there is any.
fn change_digit(random: &mut Random, file: &mut [u8]) {
    let start = file.iter().position(|&byte| byte == b'F').unwrap_or(0);
    let mut digits: Vec<&mut u8> = file[start..]
        .iter_mut()
        .filter(|byte| byte.is_ascii_digit())
        .collect();
    if !digits.is_empty() {
        let place = random.below(digits.len());
        *digits[place] = random.one_of(b"0123456789");
    }
}

/// Writes over, puts in, takes out or doubles some bytes.
fn change_bytes(random: &mut Random, file: &mut Vec<u8>) {
    let place = random.below(file.len() + 1);
    let until = file.len().min(place + random.one_of(&[0, 1, 1, 1, 2, 20]));
    let put: Vec<u8> = match random.below(4) {
        0 => vec![random.one_of(&BYTES)],
        1 => vec![random.number() as u8],
        2 => file[place..until].repeat(2),
        _ => Vec::new(),
    };
    file.splice(place..until, put);
}

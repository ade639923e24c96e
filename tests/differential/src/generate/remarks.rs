//! Remarks put between the records of a file.

use crate::case_file::{borders, bytes_of, Record, FIRST_REMARK};
use crate::random::Random;

/// The most bytes that a file may have.
const MOST_BYTES: usize = 60_000;
/// The longest payload that a header can announce.
const LONGEST: usize = 65_535;

/// Puts remarks into a file, before, between and behind its records; those behind the first that is cut stay as they are.
pub fn scatter(random: &mut Random, bytes: &[u8]) -> Vec<u8> {
    let chance = [3, 15, 60][random.below(3)];
    let most_in_a_row = if random.percent(3) { 500 } else { 3 };
    let fills = random.percent(2);
    let borders = borders(bytes);
    let filled = random.below(borders.len());
    let mut marked = Vec::new();
    let mut last = 0;
    for (number, &border) in borders.iter().enumerate() {
        marked.extend(&bytes[last..border]);
        last = border;
        if random.percent(chance) {
            for _ in 0..random.between(1, most_in_a_row) {
                marked.extend(remark(random));
            }
        }
        if fills && number == filled {
            let room = MOST_BYTES.saturating_sub(marked.len() + bytes.len() - border + 4) + random.below(2);
            marked.extend(remark_of(random, room));
        }
    }
    marked.extend(&bytes[last..]);
    marked
}

/// A remark, seldom one whose header is at fault: of the highest kind that is none, or with a length past what follows.
fn remark(random: &mut Random) -> Vec<u8> {
    let length = match random.below(20) {
        0..=7 => 0,
        8..=11 => 1,
        12..=18 => random.below(20),
        _ => random.below(300),
    };
    let mut bytes = remark_of(random, length);
    match random.below(1_000) {
        0 => bytes[2..4].copy_from_slice(&(FIRST_REMARK - 1).to_le_bytes()),
        1 => bytes[0..2].copy_from_slice(&(LONGEST as u16).to_le_bytes()),
        2 => {
            bytes.truncate(random.below(bytes.len()));
        }
        _ => {}
    }
    bytes
}

/// A remark with a payload of `length` bytes, or of as many as a header can announce.
fn remark_of(random: &mut Random, length: usize) -> Vec<u8> {
    let kind = match random.below(4) {
        0 => FIRST_REMARK,
        1 => u16::MAX,
        2 => FIRST_REMARK + random.below(10) as u16,
        _ => FIRST_REMARK | random.word() as u16,
    };
    bytes_of(&[Record { kind, payload: (0..length.min(LONGEST)).map(|_| random.byte()).collect() }])
}

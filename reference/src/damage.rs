//! Captures for tests, valid and damaged in every field.
//!
//! - [`capture_of`]: the capture of a frame, its records in a given order.
//! - [`damaged`]: a capture with one or two of its fields changed, or another size.
//! - [`any_bytes`]: bytes that are no capture.
//!
//! Those of [`crate::versions`] go round all faults of both versions.

use crate::capture::{
    bytes_of, version_of, DOUBTFUL_START, LARGEST, RECORD_BYTES, SMALLEST, VERSIONS,
};
use crate::frames::{any_rate, Frame};
use crate::random::Random;
use crate::soft::{Column, DOUBT_LIMIT};

/// The capture of a frame, its records in the order of the places given.
pub fn capture_of(frame: &Frame, places: &[u8]) -> Vec<u8> {
    let record = |place: &u8| (*place, frame.columns[usize::from(*place)]);
    let records: Vec<(u8, Column)> = places.iter().map(record).collect();
    bytes_of(frame.rate, &frame.doubtful, &records)
}

/// The capture with a damage, or once in four with two, so that the order of checks shows.
pub fn damaged(capture: &[u8], random: &mut Random) -> Vec<u8> {
    let mut bytes = capture.to_vec();
    damage(&mut bytes, random);
    if random.once_in(4) {
        damage(&mut bytes, random);
    }
    bytes
}

fn damage(bytes: &mut Vec<u8>, random: &mut Random) {
    if bytes.len() < SMALLEST {
        return;
    }
    match random.below(12) {
        0 => bytes.resize(
            random.one_of(&[
                0,
                1,
                2,
                4,
                5,
                SMALLEST - 1,
                SMALLEST,
                LARGEST,
                LARGEST + 1,
                4000,
            ]),
            random.symbol(),
        ),
        1 => bytes.truncate(bytes.len() - 1),
        2 => bytes.push(0),
        3 => bytes[0] = random.one_of(&[0, 1, 2, 3, 129, 255]),
        4 => bytes[2] = bytes[2].wrapping_add(random.one_of(&[1, 255, 8])),
        5 => bytes.swap(1, 2),
        6 => bytes[3] = random.one_of(&[0, 5, 6, 39, 49, 52, 53, 255]),
        7 => bytes[4] = random.one_of(&[0, 1, 7, 8, 9, 12, 13, 255]),
        8 => consistent_doubt(bytes, random),
        9 => doubtful_place(bytes, random),
        10 => record_place(bytes, random),
        _ => {
            let at = random.below(bytes.len());
            bytes[at] = random.number() as u8;
        }
    }
}

/// Total, length and d agree on another d, so that the list takes in record bytes or gives some; half of
/// the time the version suits it.
fn consistent_doubt(bytes: &mut Vec<u8>, random: &mut Random) {
    let doubt = random.below(DOUBT_LIMIT + 3);
    bytes.resize(SMALLEST + doubt, 63);
    if random.once_in(2) {
        bytes[0] = version_of(doubt);
    }
    let length = (bytes.len() - 3) as u16;
    bytes[1..3].copy_from_slice(&length.to_be_bytes());
    bytes[4] = doubt as u8;
}

/// A doubtful place above 63, equal to its neighbour or out of order.
fn doubtful_place(bytes: &mut [u8], random: &mut Random) {
    let count = usize::from(bytes[4]);
    if count == 0 || DOUBTFUL_START + count > bytes.len() {
        return;
    }
    let at = DOUBTFUL_START + random.below(count);
    bytes[at] = random.one_of(&[0, 63, 64, 255, bytes[DOUBTFUL_START], bytes[at] ^ 32]);
}

/// A record's place above 63, or that of another record.
fn record_place(bytes: &mut [u8], random: &mut Random) {
    let start = DOUBTFUL_START + usize::from(bytes[4]);
    let number = random.one_of(&[0, 1, 31, 62, 63]);
    let at = start + number * RECORD_BYTES;
    let other = start + random.below(64) * RECORD_BYTES;
    if at.max(other) < bytes.len() {
        bytes[at] = random.one_of(&[64, 65, 127, 128, 255, bytes[other]]);
    }
}

/// Random bytes of a size at or near the limits; half of them start as a capture does.
pub fn any_bytes(random: &mut Random) -> Vec<u8> {
    let size = random.one_of(&[
        0,
        1,
        3,
        SMALLEST - 1,
        SMALLEST,
        SMALLEST + 4,
        SMALLEST + 8,
        SMALLEST + 9,
        LARGEST,
        LARGEST + 1,
    ]);
    let mut bytes: Vec<u8> = (0..size).map(|_| random.number() as u8).collect();
    if size >= SMALLEST && random.once_in(2) {
        let length = ((size - 3) as u16).to_be_bytes();
        let rate = any_rate(random) as u8;
        let doubt = (size - SMALLEST) as u8;
        let version = random.one_of(&VERSIONS);
        bytes[..5].copy_from_slice(&[version, length[0], length[1], rate, doubt]);
    }
    bytes
}

#[cfg(test)]
mod tests {
    use super::*;
    use crate::capture::open_capture;
    use crate::refusal::number;

    #[test]
    fn damages_reach_every_answer_of_opening() {
        let mut seen = [0; 12];
        for round in 0..2000 {
            let mut random = Random::new(40, round);
            let frame = Frame::numbered(41, round);
            let capture = capture_of(&frame, &random.shuffled(0..64));
            seen[usize::from(number(&open_capture(&damaged(&capture, &mut random))))] += 1;
        }
        for answer in [0, 1, 4, 5, 6, 10, 11] {
            assert!(seen[answer] >= 20, "{answer}: {seen:?}");
        }
        assert_eq!(seen[2] + seen[3] + seen[7] + seen[8] + seen[9], 0);
    }
}

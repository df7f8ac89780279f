//! Captures: writing, opening, look-up.
//!
//! "One version byte. Two bytes of length: the bytes that follow, 2,114 + d. Then the rate, d, d
//! doubtful places, and 64 records of a place and its 32 cost bytes." "Captures with 9 to 12 doubtful
//! places carry version 2 in the same layout; those up to 8 stay version 1."
//!
//! - [`write_capture`]: the capture of a session, its records in rising place order.
//! - [`bytes_of`]: a capture with its records in the order given.
//! - [`open_capture`]: the session of a capture, or the first refusal in document 01's order.
//! - [`version_of`]: the version that a number of doubtful places has.
//! - [`look_up`]: one column as a part of the caller's capture.

use crate::code::{check_size, Code};
use crate::curve::PLACES;
use crate::refusal::Refusal;
use crate::session::Session;
use crate::soft::{column_bytes, column_of_bytes, Column, COLUMN_BYTES, DOUBT_LIMIT};

/// "Versions 1 and 2 pass the second" check.
pub const VERSIONS: [u8; 2] = [1, 2];

/// The most doubtful places of a capture of version 1.
pub const FIRST_VERSION_DOUBT: usize = 8;

/// "Sizes up to 2,129 pass the first check", from 2,117 on.
pub const SMALLEST: usize = DOUBTFUL_START + PLACES * RECORD_BYTES;
pub const LARGEST: usize = SMALLEST + DOUBT_LIMIT;

/// Version and length, which the length doesn't count.
pub(crate) const UNCOUNTED_BYTES: usize = 3;
pub(crate) const RATE_BYTE: usize = 3;
pub(crate) const DOUBT_BYTE: usize = 4;
pub(crate) const DOUBTFUL_START: usize = 5;
pub(crate) const RECORD_BYTES: usize = 1 + COLUMN_BYTES;

/// The version of a capture with so many doubtful places.
pub fn version_of(doubt: usize) -> u8 {
    VERSIONS[usize::from(doubt > FIRST_VERSION_DOUBT)]
}

/// "Writing: 2 for a wrong size; 7 if a place is missing; else the capture of rate, doubtful list
/// and row." "The writer shall put records in rising place order."
pub fn write_capture(session: &Session, out: &mut [u8]) -> Result<(), Refusal> {
    check_size(out, capture_size(session))?;
    session.check_missing()?;
    let records = session.in_place_order();
    out.copy_from_slice(&bytes_of(session.rate(), session.doubtful(), &records));
    Ok(())
}

/// "Buffer of exactly 2,117 + d bytes."
pub fn capture_size(session: &Session) -> usize {
    SMALLEST + session.doubtful().len()
}

/// The capture with these records, 64 of a place and its column, in the order given.
pub fn bytes_of(rate: u64, doubtful: &[u8], records: &[(u8, Column)]) -> Vec<u8> {
    let length = (SMALLEST + doubtful.len() - UNCOUNTED_BYTES) as u16;
    let mut bytes = vec![version_of(doubtful.len())];
    bytes.extend(length.to_be_bytes());
    bytes.push(rate as u8);
    bytes.push(doubtful.len() as u8);
    bytes.extend(doubtful);
    for (place, column) in records {
        bytes.push(*place);
        bytes.extend(column_bytes(column));
    }
    bytes
}

/// "Opening an accepted capture counts as opening with its rate and list and then delivering its
/// records in their order." "Checks: total size; version; length against both the total and d; rate;
/// doubtful list; then record by record, place range and repeated place." "A doubtful count that
/// doesn't suit its version is a doubtful-list fault."
pub fn open_capture(bytes: &[u8]) -> Result<Session, Refusal> {
    check_head(bytes)?;
    let (doubtful, records) = bytes[DOUBTFUL_START..].split_at(usize::from(bytes[DOUBT_BYTE]));
    let rate = u64::from(bytes[RATE_BYTE]);
    Code::of_rate(rate)?;
    if bytes[0] != version_of(doubtful.len()) {
        return Err(Refusal::Doubt);
    }
    let mut session = Session::open(rate, doubtful)?;
    for record in records.chunks_exact(RECORD_BYTES) {
        session.deliver(u64::from(record[0]), column_of_bytes(&record[1..]))?;
    }
    Ok(session)
}

/// "The first three give 11, 10 and 11."
fn check_head(bytes: &[u8]) -> Result<(), Refusal> {
    if !(SMALLEST..=LARGEST).contains(&bytes.len()) {
        return Err(Refusal::Length);
    }
    if !VERSIONS.contains(&bytes[0]) {
        return Err(Refusal::Version);
    }
    let length = usize::from(u16::from_be_bytes([bytes[1], bytes[2]]));
    let by_total = bytes.len() - UNCOUNTED_BYTES;
    let by_doubt = SMALLEST - UNCOUNTED_BYTES + usize::from(bytes[DOUBT_BYTE]);
    if length != by_total || length != by_doubt {
        return Err(Refusal::Length);
    }
    Ok(())
}

/// "A look-up of one place hands back the 32 bytes of that column as a part of the caller's
/// capture; the part is empty exactly if the capture is refused or the place is above 63."
pub fn look_up(bytes: &[u8], place: u64) -> &[u8] {
    let Ok(session) = open_capture(bytes) else {
        return &[];
    };
    let found = session
        .row()
        .iter()
        .position(|(taken, _)| u64::from(*taken) == place);
    let Some(number) = found else {
        return &[];
    };
    let start = DOUBTFUL_START + session.doubtful().len() + number * RECORD_BYTES + 1;
    &bytes[start..start + COLUMN_BYTES]
}

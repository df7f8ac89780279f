//! Sessions: opening, delivery, withdrawal, closing, interpolant reading.
//!
//! - [`Session`]: the rate, the doubtful list and the row of places with their columns, as in "The
//!   book of a session"; [`Session::in_place_order`] is the row as it is written.
//! - [`Session::open`], [`Session::deliver`], [`Session::withdraw`], [`Session::close`],
//!   [`Session::read_interpolant`]: the calls of documents 01 and 02. Writing a capture is
//!   [`crate::capture::write_capture`].

use crate::code::{check_size, Code};
use crate::curve::PLACES;
use crate::decode::{decode, REPORT_BYTES};
use crate::least::{least, INTERPOLANT_BYTES};
use crate::nearest::Finder;
use crate::refusal::Refusal;
use crate::soft::{best, is_blank, Column, Columns, DOUBT_LIMIT};

/// "It holds the rate and doubtful list given at opening, and a row of places with their columns,
/// empty at first."
#[derive(Clone, Debug, PartialEq, Eq)]
pub struct Session {
    rate: u64,
    doubtful: Vec<u8>,
    row: Vec<(u8, Column)>,
}

impl Default for Session {
    /// "A refused opening, of a capture too, hands back a new session of rate 39 with an empty
    /// doubtful list."
    fn default() -> Session {
        Session {
            rate: 39,
            doubtful: Vec::new(),
            row: Vec::new(),
        }
    }
}

impl Session {
    /// "Open a session: rate; doubtful list." What a refused opening hands back is
    /// `Session::default()`.
    pub fn open(rate: u64, doubtful: &[u8]) -> Result<Session, Refusal> {
        Code::of_rate(rate)?;
        check_doubtful(doubtful)?;
        Ok(Session {
            rate,
            doubtful: doubtful.to_vec(),
            row: Vec::new(),
        })
    }

    pub fn rate(&self) -> u64 {
        self.rate
    }

    pub fn doubtful(&self) -> &[u8] {
        &self.doubtful
    }

    /// The places taken and their columns, in the order in which they were accepted.
    pub fn row(&self) -> &[(u8, Column)] {
        &self.row
    }

    /// "The book writes its row in place order": the same places and columns, by rising place.
    pub fn in_place_order(&self) -> Vec<(u8, Column)> {
        let mut row = self.row.clone();
        row.sort_unstable_by_key(|(place, _)| *place);
        row
    }

    /// "A newly opened session holds 1,024 costs of zero": the columns by place, zero where the
    /// place is not taken.
    pub fn columns(&self) -> Columns {
        let mut columns = [[0; 16]; PLACES];
        for (place, column) in &self.row {
            columns[usize::from(*place)] = *column;
        }
        columns
    }

    /// "Delivery: 5 if the place is above 63; 6 if it is taken; else it is accepted, and place and
    /// column go to the end of the row."
    pub fn deliver(&mut self, place: u64, column: Column) -> Result<(), Refusal> {
        if place >= PLACES as u64 {
            return Err(Refusal::Place);
        }
        let place = place as u8;
        if self.row.iter().any(|(taken, _)| *taken == place) {
            return Err(Refusal::Taken);
        }
        self.row.push((place, column));
        Ok(())
    }

    /// "An accepted one takes the place and its column out of the book's row"; the others keep their
    /// order. "13: the place is not taken; after the place range."
    pub fn withdraw(&mut self, place: u64) -> Result<(), Refusal> {
        if place >= PLACES as u64 {
            return Err(Refusal::Place);
        }
        let held = |(taken, _): &(u8, Column)| u64::from(*taken) == place;
        let at = self.row.iter().position(held).ok_or(Refusal::NotTaken)?;
        self.row.remove(at);
        Ok(())
    }

    /// "Closing: 2 if a buffer has the wrong size; 7 if a place is missing; 9 if no codeword is
    /// near, by the row's columns and the doubtful list; else the answer's message and its report."
    /// "A closing with no place missing but too many blank gives 12."
    pub fn close(&self, message: &mut [u8], report: &mut [u8]) -> Result<(), Refusal> {
        check_size(message, self.code().symbols)?;
        check_size(report, REPORT_BYTES)?;
        self.check_missing()?;
        let finder = Finder::of_rate(self.rate)?;
        let answer = decode(finder, &self.columns(), &self.doubtful)?;
        message.copy_from_slice(&answer.message);
        report.copy_from_slice(&answer.report());
        Ok(())
    }

    /// "Interpolant reading: 2 for a wrong size; else the bytes of the least Q for the row's
    /// settled places", of which there are 98. A blank place "is not interpolated".
    pub fn read_interpolant(&self, out: &mut [u8]) -> Result<(), Refusal> {
        check_size(out, INTERPOLANT_BYTES)?;
        let settled = self
            .row
            .iter()
            .filter(|(place, column)| !self.doubtful.contains(place) && !is_blank(column));
        let settled: Vec<(u8, u8)> = settled
            .map(|(place, column)| (*place, best(column)))
            .collect();
        out.copy_from_slice(&least(self.code(), &settled));
        Ok(())
    }

    /// "A place in the row is taken; one of the 64 that is not in it is missing."
    pub fn check_missing(&self) -> Result<(), Refusal> {
        if self.row.len() == PLACES {
            Ok(())
        } else {
            Err(Refusal::Missing)
        }
    }

    fn code(&self) -> &'static Code {
        Code::of_rate(self.rate).expect("a session has a known rate")
    }
}

/// A doubtful list longer than the limit, "with a place above 63 or not strictly rising" is refused.
pub fn check_doubtful(doubtful: &[u8]) -> Result<(), Refusal> {
    if doubtful.len() > DOUBT_LIMIT {
        return Err(Refusal::Doubt);
    }
    check_places(doubtful)
}

/// A list of places, however long.
pub(crate) fn check_places(places: &[u8]) -> Result<(), Refusal> {
    let in_range = places.iter().all(|place| usize::from(*place) < PLACES);
    let rising = places.windows(2).all(|pair| pair[0] < pair[1]);
    if in_range && rising {
        Ok(())
    } else {
        Err(Refusal::Doubt)
    }
}

#[cfg(test)]
mod tests {
    use super::*;
    use crate::frames::frame_s;

    #[test]
    fn opening_checks_rate_then_list() {
        assert_eq!(Session::open(53, &[64]), Err(Refusal::Rate));
        for list in [
            &[64][..],
            &[3, 3],
            &[4, 3],
            &[0, 1, 2, 3, 4, 5, 6, 7, 8, 9, 10, 11, 12],
            &[0, 1, 2, 3, 4, 5, 6, 7, 8, 9, 10, 64],
            &[0, 255],
        ] {
            assert_eq!(Session::open(39, list), Err(Refusal::Doubt));
        }
        let opened = Session::open(49, &[0, 1, 2, 3, 4, 5, 6, 7, 8, 9, 10, 63]).unwrap();
        assert_eq!((opened.rate(), opened.doubtful().len()), (49, 12));
        assert_eq!(opened.columns(), [[0; 16]; 64]);
        assert!(opened.row().is_empty());
    }

    #[test]
    fn refused_deliveries_change_nothing() {
        let mut session = Session::open(39, &[]).unwrap();
        assert_eq!(session.deliver(5, [1; 16]), Ok(()));
        let before = session.clone();
        assert_eq!(session.deliver(5, [2; 16]), Err(Refusal::Taken));
        for place in [64, 255, 256 + 6, u64::MAX] {
            assert_eq!(session.deliver(place, [2; 16]), Err(Refusal::Place));
        }
        assert_eq!(session, before);
    }

    #[test]
    fn withdrawals_check_the_range_then_the_row() {
        let mut session = Session::open(39, &[]).unwrap();
        for place in [64, 255, 256 + 5, 65535, u64::MAX] {
            assert_eq!(session.withdraw(place), Err(Refusal::Place));
        }
        assert_eq!(session.withdraw(5), Err(Refusal::NotTaken));
        for place in [9, 5, 7] {
            session.deliver(place, [place as u16; 16]).unwrap();
        }
        assert_eq!(session.withdraw(5), Ok(()));
        assert_eq!(session.row(), [(9, [9; 16]), (7, [7; 16])]);
        assert_eq!(session.columns()[5], [0; 16]);
        let before = session.clone();
        assert_eq!(session.withdraw(5), Err(Refusal::NotTaken));
        assert_eq!(session.withdraw(256 + 7), Err(Refusal::Place));
        assert_eq!(session, before);
    }

    #[test]
    fn closing_checks_sizes_then_missing_places_then_blank_ones() {
        let mut session = Session::open(39, &[]).unwrap();
        let (mut message, mut report) = ([9; 40], [9; REPORT_BYTES + 1]);
        assert_eq!(
            session.close(&mut message, &mut report[1..]),
            Err(Refusal::Size)
        );
        assert_eq!(
            session.close(&mut message[1..], &mut report),
            Err(Refusal::Size)
        );
        assert_eq!(
            session.close(&mut message[1..], &mut report[1..]),
            Err(Refusal::Missing)
        );
        for place in 0..64 {
            assert_eq!(session.check_missing(), Err(Refusal::Missing));
            session.deliver(place, [0; 16]).unwrap();
        }
        assert_eq!(
            session.close(&mut message, &mut report[1..]),
            Err(Refusal::Size)
        );
        for place in 13..64 {
            let refused = session.close(&mut message[1..], &mut report[1..]);
            assert_eq!(refused, Err(Refusal::TooBlank));
            session.withdraw(place).unwrap();
            let refused = session.close(&mut message[1..], &mut report[1..]);
            assert_eq!(refused, Err(Refusal::Missing));
            session.deliver(place, frame_s(0)[place as usize]).unwrap();
        }
        assert_eq!((message, report), ([9; 40], [9; REPORT_BYTES + 1]));
        let before = session.clone();
        for _ in 0..2 {
            assert_eq!(session.close(&mut message[1..], &mut report[1..]), Ok(()));
            assert_eq!(message[1..], [0; 39]);
            assert_eq!(report[1..], [0, 0, 0, 0, 0, 1, 0, 0, 0, 0, 0, 0, 0, 1]);
        }
        assert_eq!(session, before);
    }
}

//! Random lists of calls with withdrawals anywhere.
//!
//! - [`withdrawal_list`]: the list of a numbered frame.

use crate::arrivals::Arrival;
use crate::call_lists::{any_column, between, opening, whole, READING, UNKNOWN_PLACES};
use crate::calls::Call;
use crate::curve::PLACES;
use crate::damage::{capture_of, damaged};
use crate::frames::{frame, some_places, Frame, Kind};
use crate::random::Random;
use crate::session::Session;
use crate::soft::{Column, Columns, CEILING};

/// The calls made with one frame of a seed: a symbol labelled wrongly and put right; deliveries with
/// withdrawals among them until all places are taken, some with columns that are not the frame's;
/// these exchanged for the frame's; a capture opened, and places withdrawn that it brought; before
/// or after that, every place withdrawn and delivered again in another order. Between these stand
/// readings, closings and writings, with places missing and with all taken, and refused calls.
pub fn withdrawal_list(seed: u64, number: u64) -> Vec<Call> {
    let frame = Frame::numbered(seed, number);
    let mut list = Making {
        frame: &frame,
        random: Random::new(seed ^ 1 << 63, number),
        session: Session::default(),
        calls: Vec::new(),
    };
    list.make(opening(&frame));
    list.label_again();
    list.wander();
    list.put_right();
    if number.is_multiple_of(2) {
        list.renew(number);
        list.open_captures(number);
    } else {
        list.open_captures(number);
        list.renew(number);
    }
    list.calls
}

/// A list in the making.
struct Making<'a> {
    frame: &'a Frame,
    random: Random,
    /// The session that the calls leave.
    session: Session,
    calls: Vec<Call>,
}

impl Making<'_> {
    fn make(&mut self, call: Call) {
        let lent = [b'R', b'W', b'X'].contains(&call.letter());
        if !lent {
            call.answer(&mut self.session);
        }
        self.calls.push(call);
    }

    fn deliver(&mut self, place: u8, column: Column) {
        let place = u16::from(place);
        self.make(Call::Deliver { place, column });
    }

    fn withdraw(&mut self, place: u8) {
        let place = u16::from(place);
        self.make(Call::Withdraw { place });
    }

    fn whole(&mut self) {
        for call in whole(self.frame) {
            self.make(call);
        }
    }

    fn between(&mut self) {
        let taken = self.taken();
        let call = between(self.frame, &taken, &mut self.random);
        self.make(call);
    }

    fn own_column(&self, place: u8) -> Column {
        self.frame.columns[usize::from(place)]
    }

    /// The places taken, in the order in which they arrived.
    fn taken(&self) -> Vec<u8> {
        self.session.row().iter().map(|(place, _)| *place).collect()
    }

    fn free(&self) -> Vec<u8> {
        let taken = self.taken();
        let all = 0..PLACES as u8;
        all.filter(|place| !taken.contains(place)).collect()
    }

    /// A withdrawal of a place above 63, or of one that is not taken.
    fn refused_withdrawal(&mut self) {
        let free = self.free();
        if !free.is_empty() && self.random.once_in(2) {
            let place = self.random.one_of(&free);
            return self.withdraw(place);
        }
        let place = self.random.below(PLACES) as u16;
        let unknown = self.random.one_of(&UNKNOWN_PLACES);
        let none = [unknown, 64 + place, 256 + place, 256 * (1 + place)];
        let place = self.random.one_of(&none);
        self.make(Call::Withdraw { place });
    }

    /// The column of one place is delivered as that of another, and then as its own.
    fn label_again(&mut self) {
        let places = self.random.shuffled(0..PLACES as u8);
        let (wrong, right) = (places[0], places[1]);
        let column = self.own_column(right);
        self.deliver(wrong, column);
        self.withdraw(wrong);
        self.whole();
        self.withdraw(wrong);
        self.deliver(right, column);
        self.whole();
    }

    /// Until every place is taken: deliveries, one in twelve of another column, withdrawals of the
    /// latest place or of any, refused withdrawals, and calls that change nothing.
    fn wander(&mut self) {
        while self.session.check_missing().is_err() {
            let taken = self.taken();
            match self.random.below(12) {
                0 => self.between(),
                1 => self.refused_withdrawal(),
                2 => self.withdraw_and_read(taken.last().copied()),
                3 => {
                    let any = (!taken.is_empty()).then(|| self.random.one_of(&taken));
                    self.withdraw_and_read(any);
                }
                _ => {
                    let place = self.free();
                    let place = self.random.one_of(&place);
                    let mut column = self.own_column(place);
                    if self.random.once_in(12) {
                        column = other_column(column, &mut self.random);
                    }
                    self.deliver(place, column);
                }
            }
        }
    }

    fn withdraw_and_read(&mut self, place: Option<u8>) {
        let Some(place) = place else { return };
        self.withdraw(place);
        if self.random.once_in(4) {
            self.make(READING);
        }
    }

    /// Columns that are not the frame's are exchanged for the frame's, a few at a time; then the
    /// latest place and a doubtful one are withdrawn and delivered as they were.
    fn put_right(&mut self) {
        self.make(Call::Withdraw { place: 64 });
        self.refused_withdrawal();
        self.whole();
        let row = self.session.row().iter();
        let wrong = row.filter(|(place, column)| *column != self.own_column(*place));
        let wrong: Vec<u8> = wrong.map(|(place, _)| *place).collect();
        let wrong = self.random.shuffled(wrong);
        let few = self.random.between(1, 3);
        for places in wrong.chunks(few) {
            self.exchange(places, |list, place| list.own_column(place));
        }
        let latest = self.taken()[PLACES - 1];
        self.exchange(&[latest], |list, place| list.own_column(place));
        if !self.frame.doubtful.is_empty() {
            let doubtful = self.random.one_of(&self.frame.doubtful);
            self.exchange(&[doubtful], |list, place| list.own_column(place));
        }
        self.whole();
    }

    /// The places are withdrawn and, in the other order, delivered again.
    fn exchange(&mut self, places: &[u8], column: fn(&mut Self, u8) -> Column) {
        for place in places {
            self.withdraw_and_read(Some(*place));
        }
        self.between();
        for place in places.iter().rev() {
            let column = column(self, *place);
            self.deliver(*place, column);
        }
    }

    /// With places withdrawn and missing, a damaged capture and one of the frame are opened; of the
    /// latter, the same places and others are withdrawn.
    fn open_captures(&mut self, number: u64) {
        let count = self.random.between(1, 3);
        let missing = some_places(count, &mut self.random);
        for place in &missing {
            self.withdraw(*place);
        }
        let order = Arrival::numbered(number).places(&mut self.random);
        let capture = capture_of(self.frame, &order);
        let spoiled = damaged(&capture, &mut self.random);
        self.make(Call::OpenCapture { capture: spoiled });
        self.withdraw(missing[0]);
        self.make(READING);

        self.make(Call::OpenCapture { capture });
        let column = any_column(&mut self.random);
        self.deliver(missing[0], column);
        for place in &missing {
            self.withdraw(*place);
        }
        self.whole();
        self.refused_withdrawal();
        for place in &missing {
            let column = self.own_column(*place);
            self.deliver(*place, column);
        }
        self.whole();

        let count = self.random.between(1, 4);
        let places = some_places(count, &mut self.random);
        self.exchange(&places, |list, place| {
            other_column(list.own_column(place), &mut list.random)
        });
        self.whole();
    }

    /// Every place is withdrawn and delivered again, with the frame's columns or those of another
    /// codeword, in an order of another sort than that of a capture opened before.
    fn renew(&mut self, number: u64) {
        let taken = self.taken();
        let out = match self.random.below(4) {
            0 => taken,
            1 => taken.into_iter().rev().collect(),
            _ => self.random.shuffled(taken),
        };
        for place in out {
            if self.random.once_in(16) {
                self.between();
            }
            self.withdraw(place);
        }
        self.whole();
        self.refused_withdrawal();
        let columns = self.columns_again(number);
        for place in Arrival::numbered(number + 1).places(&mut self.random) {
            if self.random.once_in(16) {
                self.between();
            }
            self.deliver(place, columns[usize::from(place)]);
        }
        self.whole();
    }

    fn columns_again(&mut self, number: u64) -> Columns {
        if (number / 2).is_multiple_of(2) {
            self.frame.columns
        } else {
            frame(Kind::Wrong, self.frame.rate, 0, &mut self.random).columns
        }
    }
}

/// Another column: one cost differs, or all may.
fn other_column(column: Column, random: &mut Random) -> Column {
    let mut other = match random.below(5) {
        0 => any_column(random),
        1 => [random.one_of(&[0, 7, CEILING]); 16],
        2 => {
            let mut turned = column;
            turned.rotate_left(random.between(1, 15));
            turned
        }
        _ => column,
    };
    if other == column {
        let symbol = random.below(16);
        other[symbol] ^= 1 << random.below(16);
    }
    other
}

#[cfg(test)]
mod tests {
    use super::*;
    use crate::streams::check_answers;
    use crate::withdrawals::Withdrawals;

    #[test]
    fn calls_are_read_back_from_their_bytes() {
        for number in 0..40 {
            let calls = withdrawal_list(55, number);
            let stream: Vec<u8> = calls.iter().flat_map(Call::bytes).collect();
            let mut rest = &stream[..];
            for call in &calls {
                let (read, after) = Call::read(rest).unwrap();
                assert_eq!(read, *call);
                rest = after;
            }
            assert!(rest.is_empty());
        }
    }

    #[test]
    fn every_list_has_every_sort_of_withdrawal() {
        let mut sum = Withdrawals::default();
        for number in 0..52 {
            let calls = withdrawal_list(56, number);
            let mut session = Session::default();
            let answers = calls.iter().flat_map(|call| call.answer(&mut session));
            let answers: Vec<u8> = answers.collect();
            let tally = check_answers(&[(number, calls)], &answers).unwrap();
            assert_eq!(tally.withdrawals.check(1), Ok(()));
            sum.add(tally.withdrawals);
        }
        assert_eq!(sum.check(52), Ok(()));
        assert!(sum.accepted() >= 52 * 80);
    }

    /// A session as a flag for each place and a table of columns.
    struct Flagged {
        rate: u64,
        doubtful: Vec<u8>,
        taken: [bool; PLACES],
        table: Columns,
        /// In order, with those that were withdrawn since.
        arrived: Vec<usize>,
        from_capture: bool,
    }

    impl Flagged {
        fn of(session: &Session, from_capture: bool) -> Flagged {
            let row = session.row().iter();
            let arrived: Vec<usize> = row.map(|(place, _)| usize::from(*place)).collect();
            Flagged {
                rate: session.rate(),
                doubtful: session.doubtful().to_vec(),
                taken: std::array::from_fn(|place| arrived.contains(&place)),
                table: session.columns(),
                arrived,
                from_capture,
            }
        }

        /// The session that holds the columns at the places for which this is so.
        fn where_so(&self, so: impl Fn(usize) -> bool) -> Session {
            let mut session = Session::open(self.rate, &self.doubtful).unwrap();
            for place in (0..PLACES).filter(|place| so(*place)) {
                session.deliver(place as u64, self.table[place]).unwrap();
            }
            session
        }

        /// The session that holds the columns at the places that arrived, withdrawn since or not.
        fn where_arrived(&self) -> Session {
            self.where_so(|place| self.arrived.contains(&place))
        }

        fn latest(&self) -> Option<usize> {
            let mut arrived = self.arrived.iter().rev().copied();
            arrived.find(|place| self.taken[*place])
        }

        fn free(&mut self, place: usize) {
            self.taken[place] = false;
            self.table[place] = [0; 16];
        }
    }

    /// How a library makes its calls.
    struct Library {
        deliver: fn(&mut Flagged, usize, Column) -> u8,
        /// The number of a withdrawal.
        refusal: fn(&Flagged, usize) -> u8,
        /// What an accepted withdrawal does, and what a refused one does.
        accepted: fn(&mut Flagged, usize),
        refused: fn(&mut Flagged, usize),
        /// What the other calls, by their letters, see.
        seen: fn(&Flagged, u8) -> Session,
    }

    const RIGHT: Library = Library {
        deliver: |held, place, column| match held.taken.get(place) {
            None => 5,
            Some(true) => 6,
            Some(false) => {
                held.taken[place] = true;
                held.table[place] = column;
                held.arrived.push(place);
                0
            }
        },
        refusal: |held, place| match held.taken.get(place) {
            None => 5,
            Some(true) => 0,
            Some(false) => 13,
        },
        accepted: Flagged::free,
        refused: |_, _| (),
        seen: |held, _| held.where_so(|place| held.taken[place]),
    };

    /// A library that refuses withdrawals by another rule.
    const fn refusing(refusal: fn(&Flagged, usize) -> u8) -> Library {
        Library { refusal, ..RIGHT }
    }

    /// A library whose accepted withdrawals do something else.
    const fn accepting(accepted: fn(&mut Flagged, usize)) -> Library {
        Library { accepted, ..RIGHT }
    }

    const COSTS_KEPT: Library = accepting(|held, place| held.taken[place] = false);

    /// Reads the places that arrived: sixteen zeros at those that were withdrawn since.
    const ARRIVED_READ: Library = Library {
        seen: |held, letter| match letter {
            b'R' => held.where_arrived(),
            _ => (RIGHT.seen)(held, letter),
        },
        ..RIGHT
    };

    impl Library {
        fn answer(&self, call: &Call, held: &mut Flagged) -> Vec<u8> {
            match call {
                Call::Deliver { place, column } => {
                    vec![(self.deliver)(held, usize::from(*place), *column)]
                }
                Call::Withdraw { place } => {
                    let place = usize::from(*place);
                    let number = (self.refusal)(held, place);
                    let change = if number == 0 {
                        self.accepted
                    } else {
                        self.refused
                    };
                    change(held, place);
                    vec![number]
                }
                Call::Open { .. } | Call::OpenCapture { .. } => {
                    let mut opened = Session::default();
                    let answer = call.answer(&mut opened);
                    *held = Flagged::of(&opened, call.letter() == b'C');
                    answer
                }
                _ => call.answer(&mut (self.seen)(held, call.letter())),
            }
        }

        /// Whether a call of the list is answered wrongly.
        fn is_found(&self, calls: &[Call]) -> bool {
            let mut session = Session::default();
            let mut held = Flagged::of(&session, false);
            let mut calls = calls.iter();
            calls.any(|call| self.answer(call, &mut held) != call.answer(&mut session))
        }
    }

    fn lists() -> Vec<Vec<Call>> {
        (0..26).map(|number| withdrawal_list(57, number)).collect()
    }

    #[track_caller]
    fn assert_found(libraries: &[Library]) {
        for (at, library) in libraries.iter().enumerate() {
            assert!(lists().iter().all(|calls| library.is_found(calls)), "{at}");
        }
    }

    /// No call sees the costs of a place that is not taken, and a delivery overwrites all sixteen.
    /// Sixteen zeros are blank, and no reading sees them.
    #[test]
    fn costs_of_free_places_alone_are_not_found() {
        for library in [RIGHT, COSTS_KEPT, ARRIVED_READ] {
            assert!(!lists().iter().any(|calls| library.is_found(calls)));
        }
    }

    #[test]
    fn columns_that_outlast_their_withdrawal_are_found() {
        let old_column_delivered = Library {
            deliver: |held, place, column| {
                let old = held.table.get(place).copied();
                let number = (RIGHT.deliver)(held, place, column);
                match old {
                    Some(old) if number == 0 && old != [0; 16] => held.table[place] = old,
                    _ => (),
                }
                number
            },
            ..COSTS_KEPT
        };
        let old_column_read = Library {
            accepted: COSTS_KEPT.accepted,
            ..ARRIVED_READ
        };
        let not_missing_at_closing = Library {
            seen: |held, letter| match letter {
                b'X' => held.where_arrived(),
                _ => (RIGHT.seen)(held, letter),
            },
            ..RIGHT
        };
        let not_missing_at_writing = Library {
            seen: |held, letter| match letter {
                b'W' => held.where_arrived(),
                _ => (RIGHT.seen)(held, letter),
            },
            ..RIGHT
        };
        assert_found(&[
            old_column_delivered,
            old_column_read,
            not_missing_at_closing,
            not_missing_at_writing,
        ]);
    }

    #[test]
    fn withdrawals_of_another_place_are_found() {
        let place_0_freed = accepting(|held, _| held.free(0));
        let latest_freed = accepting(|held, _| {
            let latest = held.latest().unwrap();
            held.free(latest);
        });
        let later_ones_freed_too = accepting(|held, place| {
            while held.taken[place] {
                let latest = held.latest().unwrap();
                held.free(latest);
            }
        });
        let other_costs_cleared = accepting(|held, place| {
            held.taken[place] = false;
            held.table[place ^ 1] = [0; 16];
        });
        let one_cost_too_many_cleared = accepting(|held, place| {
            held.free(place);
            held.table[(place + 1) % PLACES][0] = 0;
        });
        let low_byte_taken = Library {
            refusal: |held, place| (RIGHT.refusal)(held, place % 256),
            accepted: |held, place| held.free(place % 256),
            ..RIGHT
        };
        let bytes_exchanged = Library {
            refusal: |held, place| (RIGHT.refusal)(held, place % 256 * 256 + place / 256),
            accepted: |held, place| held.free(place / 256),
            ..RIGHT
        };
        assert_found(&[
            place_0_freed,
            latest_freed,
            later_ones_freed_too,
            other_costs_cleared,
            one_cost_too_many_cleared,
            low_byte_taken,
            bytes_exchanged,
        ]);
    }

    #[test]
    fn wrong_refusals_of_withdrawals_are_found() {
        let not_taken_before_range = refusing(|held, place| match (RIGHT.refusal)(held, place) {
            5 => 13,
            number => number,
        });
        let place_64_is_free = refusing(|held, place| match place {
            64 => 13,
            _ => (RIGHT.refusal)(held, place),
        });
        let place_63_is_none = refusing(|held, place| match place {
            63 => 5,
            _ => (RIGHT.refusal)(held, place),
        });
        let free_place_accepted = refusing(|held, place| match (RIGHT.refusal)(held, place) {
            13 => 0,
            number => number,
        });
        let latest_only = refusing(|held, place| match (RIGHT.refusal)(held, place) {
            0 if held.latest() != Some(place) => 13,
            number => number,
        });
        let captured_refused = refusing(|held, place| match (RIGHT.refusal)(held, place) {
            0 if held.from_capture => 13,
            number => number,
        });
        let full_refused = refusing(|held, place| match (RIGHT.refusal)(held, place) {
            0 if held.taken == [true; PLACES] => 13,
            number => number,
        });
        let second_time_refused = refusing(|held, place| {
            let times = held.arrived.iter().filter(|arrived| **arrived == place);
            match (RIGHT.refusal)(held, place) {
                0 if times.count() > 1 => 13,
                number => number,
            }
        });
        let delivered_once_only = Library {
            deliver: |held, place, column| match held.arrived.contains(&place) {
                true => 6,
                false => (RIGHT.deliver)(held, place, column),
            },
            ..RIGHT
        };
        let stays_taken = accepting(|held, place| held.table[place] = [0; 16]);
        assert_found(&[
            not_taken_before_range,
            place_64_is_free,
            place_63_is_none,
            free_place_accepted,
            latest_only,
            captured_refused,
            full_refused,
            second_time_refused,
            delivered_once_only,
            stays_taken,
        ]);
    }

    #[test]
    fn refused_withdrawals_that_clear_are_found() {
        let unknown_place_clears = Library {
            refused: |held, place| {
                if place >= PLACES {
                    held.free(place % PLACES);
                }
            },
            ..RIGHT
        };
        let free_place_clears_the_latest = Library {
            refused: |held, place| match held.latest() {
                Some(latest) if place < PLACES => held.free(latest),
                _ => (),
            },
            ..RIGHT
        };
        let refusal_clears_all = Library {
            refused: |held, _| (0..PLACES).for_each(|place| held.free(place)),
            ..RIGHT
        };
        assert_found(&[
            unknown_place_clears,
            free_place_clears_the_latest,
            refusal_clears_all,
        ]);
    }

    /// Every list with a doubtful place shows what is done to one.
    #[test]
    fn wrong_withdrawals_of_doubtful_places_are_found() {
        let list_shortened = accepting(|held, place| {
            held.free(place);
            held.doubtful
                .retain(|doubtful| usize::from(*doubtful) != place);
        });
        let doubtful_refused = refusing(|held, place| {
            let doubtful = held.doubtful.iter().any(|p| usize::from(*p) == place);
            match (RIGHT.refusal)(held, place) {
                0 if doubtful => 13,
                number => number,
            }
        });
        for library in [list_shortened, doubtful_refused] {
            for (number, calls) in (0..).zip(lists()) {
                let doubtful = Frame::numbered(57, number).doubtful;
                assert_eq!(library.is_found(&calls), !doubtful.is_empty());
            }
        }
    }
}

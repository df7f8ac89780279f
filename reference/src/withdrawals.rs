//! How many withdrawals the lists compared make, and what they make after them.
//!
//! - [`Withdrawals`]: the counts by [`Event`]; [`Withdrawals::check`] fails where a comparison hardly
//!   tries one of them.
//! - [`Since`]: what was withdrawn since a session was opened; [`Since::events`] says what a call is.

use std::collections::BTreeMap;
use std::fmt;

use crate::calls::Call;
use crate::curve::PLACES;
use crate::session::Session;
use crate::soft::{is_blank, Column};

/// What is counted. A call may be several of them.
#[derive(Clone, Copy, Debug, PartialEq, Eq)]
pub enum Event {
    /// An accepted withdrawal of the place that arrived last, of those taken.
    Latest,
    /// An accepted withdrawal of a place that arrived before another.
    Earlier,
    /// An accepted withdrawal of a doubtful place.
    Doubtful,
    /// An accepted withdrawal of a place and column that a capture brought.
    Captured,
    /// An accepted withdrawal of a blank place.
    Blank,
    /// A withdrawal refused with 5.
    Unknown,
    /// A withdrawal refused with 13.
    Free,
    /// A withdrawn place delivered again with the column that it had.
    Same,
    /// A withdrawn place delivered again with another column.
    Other,
    /// A withdrawn place that was not blank delivered again as a blank one.
    Faded,
    /// A blank place withdrawn and delivered again as one that is not blank.
    Cleared,
    /// An accepted reading while a withdrawn place is missing.
    Read,
    /// A closing or a writing refused with 7 while a withdrawn place is missing.
    Early,
    /// A closing with every place taken, after withdrawals.
    Closed,
    /// An accepted writing after withdrawals.
    Written,
    /// An accepted writing after every place was withdrawn.
    Renewed,
}

impl Event {
    /// Whether there are lists without it: those without doubtful places, or without blank ones.
    fn is_seldom(self) -> bool {
        let seldom = [Event::Doubtful, Event::Blank, Event::Faded, Event::Cleared];
        seldom.contains(&self)
    }
}

/// Each event with the words that follow its count, in the order of their numbers.
const EVENTS: [(Event, &str); 16] = [
    (Event::Latest, "of the latest place"),
    (Event::Earlier, "of earlier ones"),
    (Event::Doubtful, "of doubtful ones"),
    (Event::Captured, "of captured ones"),
    (Event::Blank, "of blank ones"),
    (Event::Unknown, "refused with 5"),
    (Event::Free, "refused with 13"),
    (Event::Same, "delivered again with the same column"),
    (Event::Other, "delivered again with another"),
    (Event::Faded, "with a blank one"),
    (Event::Cleared, "with another than a blank one"),
    (Event::Read, "readings without a withdrawn place"),
    (Event::Early, "closings and writings without one"),
    (Event::Closed, "closings after withdrawals"),
    (Event::Written, "writings after them"),
    (Event::Renewed, "writings after all were withdrawn"),
];

/// How often each event came, and in how many lists a withdrawal was accepted.
#[derive(Clone, Copy, Debug, Default, PartialEq, Eq)]
pub struct Withdrawals {
    lists: u64,
    events: [u64; EVENTS.len()],
}

impl Withdrawals {
    pub fn count(&mut self, event: Event) {
        self.events[event as usize] += 1;
    }

    /// How many were accepted.
    pub fn accepted(&self) -> u64 {
        self.events[Event::Latest as usize] + self.events[Event::Earlier as usize]
    }

    /// Adds the counts of one list.
    pub fn add_list(&mut self, mut list: Withdrawals) {
        list.lists = u64::from(list.accepted() > 0);
        self.add(list);
    }

    pub fn add(&mut self, other: Withdrawals) {
        self.lists += other.lists;
        for (sum, times) in self.events.iter_mut().zip(other.events) {
            *sum += times;
        }
    }

    /// A line that says what is missing where a list has no accepted withdrawal, or an event came
    /// less than once for each list; for one in six where the place is doubtful or blank, as not every
    /// list has such places.
    pub fn check(&self, lists: u64) -> Result<(), String> {
        let wanted = |event: Event| {
            if event.is_seldom() {
                lists / 6
            } else {
                lists
            }
        };
        let enough = |(event, _): &(Event, &str)| self.events[*event as usize] >= wanted(*event);
        if self.lists >= lists && EVENTS.iter().all(enough) {
            return Ok(());
        }
        Err(format!(
            "too few withdrawals in {lists} lists: {self}; {lists} of each are wanted, and {} of \
             doubtful and of blank ones",
            wanted(Event::Doubtful)
        ))
    }
}

impl fmt::Display for Withdrawals {
    fn fmt(&self, out: &mut fmt::Formatter) -> fmt::Result {
        let (accepted, lists) = (self.accepted(), self.lists);
        write!(out, "withdrawals: {accepted} in {lists} lists")?;
        for (event, words) in EVENTS {
            write!(out, ", {} {words}", self.events[event as usize])?;
        }
        Ok(())
    }
}

/// What was withdrawn since a session was opened.
#[derive(Clone, Debug, Default)]
pub struct Since {
    /// Whether a capture brought the places.
    captured: bool,
    /// The places withdrawn, taken again or not, with the column that each had last.
    columns: BTreeMap<u16, Column>,
}

impl Since {
    pub fn nothing(&self) -> bool {
        self.columns.is_empty()
    }

    /// What a call is, by its number and the session that it was made on.
    pub fn events(&mut self, call: &Call, number: u8, before: &Session) -> Vec<Event> {
        match (call, number) {
            (Call::Open { .. } | Call::OpenCapture { .. }, _) => {
                *self = Since {
                    captured: number == 0 && matches!(call, Call::OpenCapture { .. }),
                    columns: BTreeMap::new(),
                };
                Vec::new()
            }
            (Call::Withdraw { .. }, 5) => vec![Event::Unknown],
            (Call::Withdraw { .. }, 13) => vec![Event::Free],
            (Call::Withdraw { place }, _) => self.withdrawn(*place, before),
            (Call::Deliver { place, column }, 0) => match self.columns.get(place) {
                None => Vec::new(),
                Some(withdrawn) => delivered_again(withdrawn, column),
            },
            _ if self.nothing() => Vec::new(),
            (Call::ReadInterpolant { .. }, 0) if self.missing(before) => vec![Event::Read],
            (Call::Close { .. } | Call::WriteCapture { .. }, 7) if self.missing(before) => {
                vec![Event::Early]
            }
            (Call::Close { .. }, 0 | 9 | 12) => vec![Event::Closed],
            (Call::WriteCapture { .. }, 0) if self.columns.len() == PLACES => {
                vec![Event::Written, Event::Renewed]
            }
            (Call::WriteCapture { .. }, 0) => vec![Event::Written],
            _ => Vec::new(),
        }
    }

    fn withdrawn(&mut self, place: u16, before: &Session) -> Vec<Event> {
        let held = |(taken, _): &&(u8, Column)| u16::from(*taken) == place;
        let Some((taken, column)) = before.row().iter().find(held) else {
            return Vec::new();
        };
        let latest = before.row().last().is_some_and(|last| last.0 == *taken);
        let mut events = vec![if latest {
            Event::Latest
        } else {
            Event::Earlier
        }];
        if before.doubtful().contains(taken) {
            events.push(Event::Doubtful);
        }
        if self.captured && !self.columns.contains_key(&place) {
            events.push(Event::Captured);
        }
        if is_blank(column) {
            events.push(Event::Blank);
        }
        self.columns.insert(place, *column);
        events
    }

    /// Whether a place that was withdrawn is not taken.
    fn missing(&self, session: &Session) -> bool {
        let taken = |place: &u16| session.row().iter().any(|(p, _)| u16::from(*p) == *place);
        !self.columns.keys().all(taken)
    }
}

/// What the delivery of a place is that had this column when it was withdrawn.
fn delivered_again(withdrawn: &Column, column: &Column) -> Vec<Event> {
    if withdrawn == column {
        return vec![Event::Same];
    }
    match (is_blank(withdrawn), is_blank(column)) {
        (false, true) => vec![Event::Other, Event::Faded],
        (true, false) => vec![Event::Other, Event::Cleared],
        _ => vec![Event::Other],
    }
}

#[cfg(test)]
mod tests {
    use super::*;
    use crate::call_lists::READING;
    use crate::decode::REPORT_BYTES;

    /// The events of calls, in order.
    fn events(calls: &[Call]) -> Vec<Event> {
        let (mut session, mut since) = (Session::default(), Since::default());
        let mut events = Vec::new();
        for call in calls {
            let before = session.clone();
            let number = call.answer(&mut session)[0];
            events.extend(since.events(call, number, &before));
        }
        events
    }

    const WRITING: Call = Call::WriteCapture { size: 2118 };

    /// A delivery of sixteen costs that rise.
    fn deliver(place: u16, cost: u16) -> Call {
        Call::Deliver {
            place,
            column: std::array::from_fn(|symbol| cost + symbol as u16),
        }
    }

    fn deliver_blank(place: u16, cost: u16) -> Call {
        Call::Deliver {
            place,
            column: [cost; 16],
        }
    }

    fn withdraw(place: u16) -> Call {
        Call::Withdraw { place }
    }

    fn open() -> Call {
        Call::Open {
            rate: 39,
            doubtful: vec![2],
        }
    }

    #[test]
    fn calls_are_told_by_what_was_withdrawn() {
        let calls = [
            open(),
            READING,
            WRITING,
            withdraw(3),
            withdraw(64),
            deliver(2, 5),
            deliver(3, 5),
            READING,
            withdraw(2),
            READING,
            READING,
            WRITING,
            deliver(2, 5),
            READING,
            WRITING,
            withdraw(2),
            deliver(2, 6),
            withdraw(3),
            open(),
            READING,
            deliver(3, 5),
        ];
        let expected = [
            Event::Free,
            Event::Unknown,
            Event::Earlier,
            Event::Doubtful,
            Event::Read,
            Event::Read,
            Event::Early,
            Event::Same,
            Event::Latest,
            Event::Doubtful,
            Event::Other,
            Event::Earlier,
        ];
        assert_eq!(events(&calls), expected);
    }

    #[test]
    fn blank_places_are_told() {
        let calls = [
            open(),
            deliver_blank(3, 5),
            withdraw(3),
            deliver_blank(3, 5),
            withdraw(3),
            deliver_blank(3, 6),
            withdraw(3),
            deliver(3, 6),
            withdraw(3),
            deliver_blank(3, 6),
        ];
        let expected = [
            Event::Latest,
            Event::Blank,
            Event::Same,
            Event::Latest,
            Event::Blank,
            Event::Other,
            Event::Latest,
            Event::Blank,
            Event::Other,
            Event::Cleared,
            Event::Latest,
            Event::Other,
            Event::Faded,
        ];
        assert_eq!(events(&calls), expected);
    }

    #[test]
    fn closings_and_writings_after_withdrawals_are_told() {
        let closing = Call::Close {
            message: 39,
            report: REPORT_BYTES as u16,
        };
        let mut calls = vec![open()];
        calls.extend((0..64).map(|place| deliver(place, 1)));
        calls.extend([closing.clone(), WRITING]);
        assert_eq!(events(&calls), []);
        let Some(capture) = written(&calls) else {
            panic!("a capture is written");
        };
        calls.extend([withdraw(63), deliver(63, 1), closing, WRITING]);
        let once = [Event::Latest, Event::Same, Event::Closed, Event::Written];
        assert_eq!(events(&calls), once);
        calls.push(Call::OpenCapture { capture });
        for place in 0..64 {
            calls.extend([withdraw(place), deliver(place, 1)]);
        }
        calls.extend([withdraw(0), deliver(0, 1), WRITING]);
        let all = events(&calls);
        let captured = all.iter().filter(|event| **event == Event::Captured);
        assert_eq!(captured.count(), 64);
        assert_eq!(all[all.len() - 2..], [Event::Written, Event::Renewed]);
    }

    /// The capture that the last of the calls writes.
    fn written(calls: &[Call]) -> Option<Vec<u8>> {
        let mut session = Session::default();
        let answers = calls.iter().map(|call| call.answer(&mut session));
        answers.last().map(|answer| answer[1..].to_vec())
    }

    #[test]
    fn every_event_is_wanted_once_for_each_list() {
        let mut sum = Withdrawals::default();
        for _ in 0..3 {
            let mut list = Withdrawals::default();
            for (at, (event, _)) in EVENTS.iter().enumerate() {
                assert_eq!(*event as usize, at);
                list.count(*event);
            }
            sum.add_list(list);
        }
        assert_eq!(sum.check(3), Ok(()));
        let line = sum.check(4).unwrap_err();
        assert!(line.starts_with("too few withdrawals in 4 lists: withdrawals: 6 in 3 lists, 3 of"));
        assert!(line.ends_with("; 4 of each are wanted, and 0 of doubtful and of blank ones"));
        for (event, _) in EVENTS {
            let mut few = sum;
            few.events[event as usize] -= 1;
            assert_eq!(few.check(3).is_ok(), event.is_seldom());
        }
        sum.add_list(Withdrawals::default());
        assert_eq!((sum.lists, sum.accepted()), (3, 6));
    }
}

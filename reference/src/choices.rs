//! How many of the tables compared have doubtful places that a pinned second keeps from being chosen.
//!
//! - [`Choice`]: what is counted of a table that is decoded.
//! - [`Choices`]: the counts, by [`Event`]; [`Choices::check`] fails where a comparison hardly tries
//!   one of them.

use std::fmt;

use crate::decode::decode;
use crate::nearest::Finder;
use crate::soft::{counted_gap, doubtful_places, gap, is_second_pinned, smallest, Columns};

/// What is counted. A table may be several of them.
#[derive(Clone, Copy, Debug, PartialEq, Eq)]
pub enum Event {
    /// A place is not chosen that its plain gap would have had chosen: its second is pinned.
    Spared,
    /// The plain gap leads to another message.
    OtherMessage,
    /// It leads to the same message with another report.
    OtherReport,
    /// It leads to no answer, and there is one.
    Found,
    /// It leads to one, and there is none.
    Lost,
    /// Of the places with pinned seconds some are chosen and some are not.
    Tied,
    /// Others of them are chosen where the plain gap settles their tie.
    TiedOtherwise,
}

/// Each event with the words that follow its count, and of how many tables one is it at least; in
/// the order of their numbers.
const EVENTS: [(Event, &str, u64); 7] = [
    (Event::Spared, "that spare a place", 60),
    (Event::OtherMessage, "with another message", 600),
    (Event::OtherReport, "with another report alone", 600),
    (Event::Found, "with an answer instead of none", 600),
    (Event::Lost, "with none instead of an answer", 600),
    (Event::Tied, "with a tie of these", 600),
    (Event::TiedOtherwise, "settled otherwise", 600),
];

/// What the pinned seconds of a table make of its doubtful places.
#[derive(Clone, Debug, PartialEq, Eq)]
pub struct Choice {
    events: Vec<Event>,
}

impl Choice {
    /// A table with these columns that is decoded at a known rate and doubt.
    pub fn of(rate: u64, columns: &Columns, doubt: usize) -> Choice {
        let plain = smallest(columns, doubt, gap);
        let chosen = doubtful_places(columns, doubt);
        let is_pinned = |place: &u8| is_second_pinned(&columns[usize::from(*place)]);
        let pinned = |list: &[u8]| -> Vec<u8> { list.iter().copied().filter(is_pinned).collect() };
        let mut events = Vec::new();
        if plain != chosen {
            events.push(Event::Spared);
            let finder = Finder::of_rate(rate).expect("a known rate");
            let answer = |list: &[u8]| decode(finder, columns, list).ok();
            match (answer(&plain), answer(&chosen)) {
                (Some(a), Some(b)) if a.message != b.message => events.push(Event::OtherMessage),
                (Some(a), Some(b)) if a != b => events.push(Event::OtherReport),
                (None, Some(_)) => events.push(Event::Found),
                (Some(_), None) => events.push(Event::Lost),
                _ => (),
            }
        }
        let all: Vec<u8> = (0..columns.len() as u8).collect();
        let tied = pinned(&chosen);
        if !tied.is_empty() && tied.len() < pinned(&all).len() {
            events.push(Event::Tied);
            let by_gap = smallest(columns, doubt, |column| (counted_gap(column), gap(column)));
            if chosen != by_gap {
                events.push(Event::TiedOtherwise);
            }
        }
        Choice { events }
    }
}

/// The counts.
#[derive(Clone, Copy, Debug, Default, PartialEq, Eq)]
pub struct Choices {
    events: [u64; EVENTS.len()],
}

impl Choices {
    pub fn count(&mut self, choice: &Choice) {
        for event in &choice.events {
            self.events[*event as usize] += 1;
        }
    }

    pub fn add(&mut self, other: Choices) {
        for (sum, times) in self.events.iter_mut().zip(other.events) {
            *sum += times;
        }
    }

    /// A line that says what is missing where one of the events came too seldom.
    pub fn check(&self, tables: u64) -> Result<(), String> {
        let few = EVENTS.iter().filter(|(event, _, one_in)| {
            let wanted = (tables / one_in).max(1);
            self.events[*event as usize] < wanted
        });
        let few: Vec<&str> = few.map(|(_, words, _)| *words).collect();
        if few.is_empty() {
            return Ok(());
        }
        let few = few.join(", ");
        Err(format!("too few in {tables} tables ({few}): {self}"))
    }
}

impl fmt::Display for Choices {
    fn fmt(&self, out: &mut fmt::Formatter) -> fmt::Result {
        write!(out, "pinned seconds: tables")?;
        for (event, words, _) in EVENTS {
            let times = self.events[event as usize];
            let mark = if event == Event::Spared { "" } else { "," };
            write!(out, "{mark} {times} {words}")?;
        }
        Ok(())
    }
}

#[cfg(test)]
mod tests {
    use super::*;
    use crate::frames::frame_s;
    use crate::pairs::clipped_pair;
    use crate::random::Random;
    use crate::soft::CEILING;

    /// The bench sheet's S(7), where wrong places have second symbol 0; at this place the second is
    /// pinned, and the best cost lower by the gap.
    fn pinned(place: usize, best: usize, gap: u16) -> Columns {
        let mut columns = frame_s(7);
        columns[place] = [CEILING; 16];
        columns[place][best] -= gap;
        columns
    }

    #[test]
    fn events_are_numbered_in_their_order() {
        for (at, (event, _, _)) in EVENTS.iter().enumerate() {
            assert_eq!(*event as usize, at);
        }
    }

    #[test]
    fn tables_are_counted_by_what_the_plain_gap_would_do() {
        let events = |columns: &Columns, doubt| Choice::of(39, columns, doubt).events;
        assert_eq!(events(&frame_s(7), 2), []);
        // Seven are wrong, and a wrong one is chosen instead of the pinned one.
        assert_eq!(events(&pinned(0, 1, 3), 0), []);
        assert_eq!(events(&pinned(0, 1, 3), 1), [Event::Spared]);
        assert_eq!(events(&pinned(5, 0, 3), 1), [Event::Spared, Event::Found]);
        assert_eq!(
            events(&pinned(5, 0, 3), 2),
            [Event::Spared, Event::OtherReport]
        );
        let pair = clipped_pair(39, &mut Random::new(40, 0)).frame;
        let other = [Event::Spared, Event::OtherMessage];
        assert_eq!(events(&pair.columns, pair.doubtful.len()), other);
        assert_eq!(events(&pinned(0, 1, 50), 7), []);
        // Only place 0 can be repaired.
        let mut columns = frame_s(7).map(|column| column.map(|cost| cost.min(30)));
        columns[0] = pinned(0, 1, 3)[0];
        for place in [10, 20, 30, 40, 50, 60] {
            columns[place][0] = 29;
            columns[place][2] = 28;
        }
        assert_eq!(events(&columns, 1), [Event::Spared, Event::Lost]);
        assert_eq!(events(&columns, 2), [Event::Spared, Event::Lost]);
        // All are pinned, and the smallest gap is at place 63.
        let mut columns = [[CEILING; 16]; 64];
        for (place, column) in columns.iter_mut().enumerate() {
            column[0] = place as u16;
        }
        assert_eq!(events(&columns, 0), []);
        let all = [Event::Spared, Event::Tied, Event::TiedOtherwise];
        assert_eq!(events(&columns, 2), all);
        columns.reverse();
        assert_eq!(events(&columns, 2), [Event::Tied]);
        // Place 63 is chosen instead of place 1, and place 0 whoever settles the tie.
        columns[63] = [CEILING - 1; 16];
        columns[63][0] = 0;
        assert_eq!(events(&columns, 2), [Event::Spared, Event::Tied]);
    }

    /// Each count that is missing is named.
    #[test]
    fn everything_is_wanted() {
        let mut sum = Choices {
            events: [100; EVENTS.len()],
        };
        assert_eq!(sum.check(6000), Ok(()));
        assert!(sum.check(60_000).is_err());
        assert!(Choices::default().check(1).is_err());
        for (event, words, one_in) in EVENTS {
            let mut few = sum;
            few.events[event as usize] = 6000 / one_in - 1;
            let line = few.check(6000).unwrap_err();
            let named = format!("too few in 6000 tables ({words}): pinned seconds: tables ");
            assert!(line.starts_with(&named), "{line}");
        }
        sum.add(sum);
        assert_eq!(sum.events, [200; EVENTS.len()]);
    }
}

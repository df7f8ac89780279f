//! How many of the frames compared have blank places, and what is tried with them.
//!
//! - [`Faded`]: what is counted of a frame that is decoded.
//! - [`Blanks`]: the frames with blank places, by kind, by rate and number of these places, and by
//!   [`Event`]; [`Blanks::check`] fails where a comparison hardly tries one of them.
//! - [`OF_TABLES`], [`OF_CAPTURES`], [`OF_LISTS`]: the events that come in each comparison.

use std::fmt;

use crate::calls::Call;
use crate::frames::{blank_limit, Kind, KINDS, RATES};
use crate::session::Session;
use crate::soft::{blank_places, column_of_bytes, is_blank, Column, Columns, CEILING};

/// Of so many frames so many have blank places at least.
const WANTED: [u64; 2] = [20, 7];

/// Of so many frames one has each number of blank places at each rate, and one is of each kind and
/// has some.
const ONE_OF_EACH_IN: u64 = 200;

/// Numbers of blank places at a rate that are counted apart: from 1 to 13, and 14 or more.
const NUMBERS: usize = 14;

/// What is counted. A frame may be several of them.
#[derive(Clone, Copy, Debug, PartialEq, Eq)]
pub enum Event {
    /// An answer.
    Answered,
    /// An answer with as many blank places as there may be.
    AtLimit,
    /// An answer with a margin.
    Margin,
    /// An answer with a margin and two blank places or more: at one of these at least the two near
    /// codewords differ.
    Differing,
    /// An answer with a blank place that is pinned.
    Pinned,
    /// An answer with a doubtful place that is blank.
    Doubtful,
    /// An answer with doubtful places all of which are blank.
    AllDoubtful,
    /// A frame refused with 9.
    NoneNear,
    /// A frame refused with 12.
    TooBlank,
    /// A table or a closing refused with another number though too many places are blank.
    Otherwise,
    /// An accepted reading with a blank place taken that is not doubtful.
    Read,
    /// An accepted opening of a capture with blank places.
    Opened,
    /// An accepted writing with blank places.
    Written,
    /// A look-up that hands back a blank column.
    LookedUp,
}

/// Each event with the words that follow its count, and of how many frames one has it at least; in
/// the order of their numbers.
const EVENTS: [(Event, &str, u64); 14] = [
    (Event::Answered, "answered", 5),
    (Event::AtLimit, "with as many as there may be", 50),
    (Event::Margin, "with a margin", 15),
    (Event::Differing, "of two that differ there", 25),
    (Event::Pinned, "with one pinned", 15),
    (Event::Doubtful, "with a doubtful one", 15),
    (Event::AllDoubtful, "with all doubtful ones", 200),
    (Event::NoneNear, "refused with 9", 20),
    (Event::TooBlank, "refused with 12", 25),
    (Event::Otherwise, "refused otherwise though too blank", 200),
    (Event::Read, "readings", 1),
    (Event::Opened, "captures opened", 1),
    (Event::Written, "written", 1),
    (Event::LookedUp, "blank columns looked up", 20),
];

/// The events that come where tables are decoded: their doubtful places are never blank.
pub const OF_TABLES: [Event; 8] = [
    Event::Answered,
    Event::AtLimit,
    Event::Margin,
    Event::Differing,
    Event::Pinned,
    Event::NoneNear,
    Event::TooBlank,
    Event::Otherwise,
];

/// The events that come where captures are shown.
pub const OF_CAPTURES: [Event; 9] = [
    Event::Answered,
    Event::AtLimit,
    Event::Margin,
    Event::Differing,
    Event::Pinned,
    Event::Doubtful,
    Event::AllDoubtful,
    Event::NoneNear,
    Event::TooBlank,
];

/// The events that come in lists of calls: all.
pub const OF_LISTS: [Event; 14] = [
    Event::Answered,
    Event::AtLimit,
    Event::Margin,
    Event::Differing,
    Event::Pinned,
    Event::Doubtful,
    Event::AllDoubtful,
    Event::NoneNear,
    Event::TooBlank,
    Event::Otherwise,
    Event::Read,
    Event::Opened,
    Event::Written,
    Event::LookedUp,
];

/// The blank places of a frame that is decoded.
#[derive(Clone, Copy, Debug, PartialEq, Eq)]
pub struct Faded {
    kind: Kind,
    rate: u64,
    blanks: usize,
    /// How many places are doubtful, and how many of these are blank.
    doubtful: usize,
    blank_doubtful: usize,
    /// Whether one is at the ceiling.
    pinned: bool,
}

impl Faded {
    /// A frame of a kind; table decoding has no list of doubtful places.
    pub fn of(kind: Kind, rate: u64, columns: &Columns, doubtful: &[u8]) -> Faded {
        let blank = blank_places(columns);
        let blank_doubtful = doubtful.iter().filter(|place| blank.contains(place));
        Faded {
            kind,
            rate,
            blanks: blank.len(),
            doubtful: doubtful.len(),
            blank_doubtful: blank_doubtful.count(),
            pinned: columns.contains(&[CEILING; 16]),
        }
    }

    fn too_blank(&self) -> bool {
        self.blanks > blank_limit(self.rate)
    }

    /// What comes of the frame with this refusal, or 0, and this margin.
    fn events(&self, number: u8, margin: Option<u32>) -> Vec<Event> {
        let of_answers = [
            (Event::Answered, true),
            (Event::AtLimit, self.blanks == blank_limit(self.rate)),
            (Event::Margin, margin.is_some()),
            (Event::Differing, margin.is_some() && self.blanks >= 2),
            (Event::Pinned, self.pinned),
            (Event::Doubtful, self.blank_doubtful > 0),
            (
                Event::AllDoubtful,
                self.blank_doubtful > 0 && self.blank_doubtful == self.doubtful,
            ),
        ];
        match number {
            0 => {
                let so = of_answers.into_iter().filter(|(_, so)| *so);
                so.map(|(event, _)| event).collect()
            }
            9 => vec![Event::NoneNear],
            12 => vec![Event::TooBlank],
            _ if self.too_blank() => vec![Event::Otherwise],
            _ => Vec::new(),
        }
    }
}

/// The counts.
#[derive(Clone, Copy, Debug, Default, PartialEq, Eq)]
pub struct Blanks {
    /// By kind: frames with blank places that were answered or refused with 9 or 12.
    kinds: [u64; KINDS.len()],
    /// The same by rate and number of blank places, less one.
    numbers: [[u64; NUMBERS]; RATES.len()],
    events: [u64; EVENTS.len()],
}

impl Blanks {
    /// Counts a frame with this refusal, or 0, and this margin; one without blank places is none, and so
    /// is one at another rate than those that are counted.
    pub fn count(&mut self, faded: &Faded, number: u8, margin: Option<u32>) {
        let rate = RATES.iter().position(|rate| *rate == faded.rate);
        let Some(rate) = rate.filter(|_| faded.blanks > 0) else {
            return;
        };
        for event in faded.events(number, margin) {
            self.events[event as usize] += 1;
        }
        if [0, 9, 12].contains(&number) {
            self.kinds[faded.kind as usize] += 1;
            self.numbers[rate][faded.blanks.min(NUMBERS) - 1] += 1;
        }
    }

    /// Counts what a call of a list is, by its answer and the session after it; but for closings that
    /// decode, which [`Blanks::count`] counts once a frame.
    pub fn count_call(&mut self, call: &Call, answer: &[u8], after: &Session) {
        if let Some(event) = event_of(call, answer, after) {
            self.events[event as usize] += 1;
        }
    }

    /// The frames with blank places.
    pub fn frames(&self) -> u64 {
        self.kinds.iter().sum()
    }

    pub fn add(&mut self, other: Blanks) {
        let sums = self.kinds.iter_mut().chain(self.numbers.as_flattened_mut());
        let sums = sums.chain(&mut self.events);
        let others = other.kinds.iter().chain(other.numbers.as_flattened());
        for (sum, times) in sums.zip(others.chain(&other.events)) {
            *sum += times;
        }
    }

    /// A line that says what is missing where too few of the frames have blank places, or too few of
    /// a kind or with one of the numbers of blank places, from one to one too many at each rate; or
    /// where one of these events came too seldom.
    pub fn check(&self, frames: u64, events: &[Event]) -> Result<(), String> {
        let each = frames / ONE_OF_EACH_IN;
        let mut few = Vec::new();
        if self.frames() * WANTED[0] < frames * WANTED[1] {
            few.push("frames".to_string());
        }
        for (kind, times) in KINDS.iter().zip(self.kinds) {
            if times < each {
                few.push(format!("{kind:?}"));
            }
        }
        for (rate, numbers) in RATES.iter().zip(self.numbers) {
            for (less, times) in numbers.iter().enumerate().take(blank_limit(*rate) + 1) {
                if *times < each {
                    few.push(format!("{} blank at rate {rate}", less + 1));
                }
            }
        }
        for event in events {
            let (_, words, one_in) = EVENTS[*event as usize];
            if self.events[*event as usize] < frames / one_in {
                few.push(words.to_string());
            }
        }
        if few.is_empty() {
            return Ok(());
        }
        let few = few.join(", ");
        Err(format!(
            "too few with blank places in {frames} frames ({few}): {self}"
        ))
    }
}

/// What a call on a session is.
fn event_of(call: &Call, answer: &[u8], after: &Session) -> Option<Event> {
    let blank = |(_, column): &&(u8, Column)| is_blank(column);
    let held = || after.row().iter().filter(blank);
    match (call, answer[0]) {
        (Call::LookUp { .. }, _) => {
            let part = &answer[2..];
            let blank = !part.is_empty() && is_blank(&column_of_bytes(part));
            blank.then_some(Event::LookedUp)
        }
        (Call::Close { .. }, 2 | 7) => {
            (held().count() > blank_limit(after.rate())).then_some(Event::Otherwise)
        }
        (Call::ReadInterpolant { .. }, 0) => {
            let settled = |(place, _): &(u8, Column)| !after.doubtful().contains(place);
            held().any(settled).then_some(Event::Read)
        }
        (Call::OpenCapture { .. }, 0) => held().next().map(|_| Event::Opened),
        (Call::WriteCapture { .. }, 0) => held().next().map(|_| Event::Written),
        _ => None,
    }
}

impl fmt::Display for Blanks {
    fn fmt(&self, out: &mut fmt::Formatter) -> fmt::Result {
        write!(out, "blanks: {} frames", self.frames())?;
        for (kind, times) in KINDS.iter().zip(self.kinds) {
            write!(out, ", {times} {kind:?}")?;
        }
        for (rate, numbers) in RATES.iter().zip(self.numbers) {
            let numbers = numbers.map(|times| times.to_string()).join(" ");
            write!(out, "; by their number at rate {rate} {numbers}")?;
        }
        for (event, words, _) in EVENTS {
            let times = self.events[event as usize];
            let mark = if event == Event::Answered { ";" } else { "," };
            write!(out, "{mark} {times} {words}")?;
        }
        Ok(())
    }
}

#[cfg(test)]
mod tests {
    use super::*;
    use crate::call_lists::READING;
    use crate::decode::REPORT_BYTES;
    use crate::frames::{faded, frame_s};
    use crate::random::Random;

    #[test]
    fn events_are_numbered_in_their_order() {
        for (at, (event, _, _)) in EVENTS.iter().enumerate() {
            assert_eq!((*event as usize, OF_LISTS[at]), (at, *event));
        }
        for (at, kind) in KINDS.iter().enumerate() {
            assert_eq!(*kind as usize, at);
        }
        for event in OF_TABLES.iter().chain(&OF_CAPTURES) {
            assert!(OF_LISTS.contains(event));
        }
    }

    fn of(blank: &[usize], cost: u16, doubtful: &[u8]) -> Faded {
        let mut columns = frame_s(0);
        for place in blank {
            columns[*place] = [cost; 16];
        }
        Faded::of(Kind::Valid, 49, &columns, doubtful)
    }

    #[test]
    fn frames_are_told_by_their_blank_places() {
        let answered = [Event::Answered];
        assert_eq!(of(&[3], 7, &[4]).events(0, None), answered);
        assert_eq!(
            of(&[3], CEILING, &[3, 4]).events(0, Some(0)),
            [
                Event::Answered,
                Event::Margin,
                Event::Pinned,
                Event::Doubtful
            ]
        );
        assert_eq!(
            of(&[3, 4, 5], 0, &[3, 4]).events(0, Some(9)),
            [
                Event::Answered,
                Event::AtLimit,
                Event::Margin,
                Event::Differing,
                Event::Doubtful,
                Event::AllDoubtful
            ]
        );
        let four = of(&[3, 4, 5, 6], 0, &[]);
        assert_eq!(four.events(12, None), [Event::TooBlank]);
        assert_eq!(four.events(4, None), [Event::Otherwise]);
        assert_eq!(of(&[3, 4, 5], 0, &[]).events(4, None), []);
        assert_eq!(of(&[3], 0, &[]).events(9, None), [Event::NoneNear]);
    }

    #[test]
    fn frames_without_blank_places_are_not_counted() {
        let mut blanks = Blanks::default();
        blanks.count(&of(&[], 0, &[]), 0, Some(1));
        assert_eq!(blanks, Blanks::default());
        blanks.count(&of(&[1, 2], 0, &[]), 2, None);
        assert_eq!(blanks, Blanks::default());
        blanks.count(&of(&[1, 2], 0, &[]), 9, None);
        assert_eq!((blanks.frames(), blanks.numbers[1][1]), (1, 1));
        let all: Vec<usize> = (0..64).collect();
        blanks.count(&of(&all, 0, &[]), 12, None);
        assert_eq!((blanks.frames(), blanks.numbers[1][NUMBERS - 1]), (2, 1));
    }

    #[test]
    fn calls_are_told_by_the_blank_places_held() {
        let mut session = Session::default();
        let events = |session: &mut Session, call: Call| {
            let answer = call.answer(session);
            event_of(&call, &answer, session)
        };
        let open = |doubtful: &[u8]| Call::Open {
            rate: 49,
            doubtful: doubtful.to_vec(),
        };
        let deliver = |place, cost| Call::Deliver {
            place,
            column: [cost; 16],
        };
        let closing = Call::Close {
            message: 49,
            report: REPORT_BYTES as u16,
        };
        let calls = [open(&[1]), deliver(1, 5), READING, deliver(2, 5)];
        for call in calls {
            assert_eq!(events(&mut session, call), None);
        }
        assert_eq!(events(&mut session, READING), Some(Event::Read));
        for place in 3..5 {
            assert_eq!(events(&mut session, deliver(place, 5)), None);
        }
        assert_eq!(
            events(&mut session, closing.clone()),
            Some(Event::Otherwise)
        );
        session.withdraw(4).unwrap();
        assert_eq!(events(&mut session, closing), None);
        for (place, column) in frame_s(0).into_iter().enumerate() {
            let _ = session.deliver(place as u64, column);
        }
        let writing = Call::WriteCapture { size: 2118 };
        let capture = writing.answer(&mut session)[1..].to_vec();
        assert_eq!(events(&mut session, writing), Some(Event::Written));
        for (place, event) in [(1, Some(Event::LookedUp)), (0, None), (64, None)] {
            let capture = capture.clone();
            assert_eq!(events(&mut session, Call::LookUp { place, capture }), event);
        }
        let opening = Call::OpenCapture { capture };
        assert_eq!(events(&mut session, opening), Some(Event::Opened));
    }

    /// Each count that is missing is named.
    #[test]
    fn everything_is_wanted() {
        let mut sum = Blanks::default();
        for (kind, number) in KINDS.iter().zip(0..).cycle().take(13 * 20) {
            for rate in RATES {
                for blanks in 1..=blank_limit(rate) + 1 {
                    let random = &mut Random::new(130, number);
                    let frame = faded(Kind::Valid, rate, 0, blanks, random);
                    sum.count(&Faded::of(*kind, rate, &frame.columns, &[]), 9, None);
                }
            }
        }
        sum.events = [1000; EVENTS.len()];
        assert_eq!(sum.check(1000, &OF_LISTS), Ok(()));
        assert!(sum.check(20_000, &OF_LISTS).is_err());
        for (event, words, one_in) in EVENTS {
            let mut few = sum;
            few.events[event as usize] = 1000 / one_in - 1;
            let line = few.check(1000, &OF_LISTS).unwrap_err();
            let named = format!("too few with blank places in 1000 frames ({words}): blanks: ");
            assert!(line.starts_with(&named), "{line}");
            assert_eq!(
                few.check(1000, &OF_TABLES).is_ok(),
                !OF_TABLES.contains(&event)
            );
        }
        let mut few = sum;
        few.kinds[Kind::Tied as usize] = 4;
        assert!(few.check(1000, &[]).unwrap_err().contains("(Tied)"));
        let mut few = sum;
        few.numbers[0][13] = 4;
        let line = few.check(1000, &[]).unwrap_err();
        assert!(line.contains("(14 blank at rate 39)"));
        few = sum;
        few.numbers[1][4] = 0;
        assert_eq!(few.check(1000, &[]), Ok(()));
        few.kinds = [26; KINDS.len()];
        assert!(few.check(1000, &[]).unwrap_err().contains("(frames)"));
        sum.add(sum);
        assert_eq!((sum.frames(), sum.events[3]), (2 * 260 * 18, 2000));
    }
}

//! Frames for what is sure with doubtful places, at every rate and on both sides of its bounds.
//!
//! - [`SureKind`], [`SURE_KINDS`]: what a frame is made to try; [`Must`]: what has to come back.
//! - [`SureFrame`], [`SureFrame::numbered`]: the number goes round the rates, the kinds, the doubts and the
//!   numbers of blank places; [`SureFrame::of_bits`]: the same from bit values.
//! - [`SureFrame::calls`]: a session that takes it and its capture.
//! - [`Bounds`]: the most doubtful places that are few, and the most wrong and doubtful ones after which
//!   never another message comes.
//!
//! A frame is made around two codewords as near to each other as two are known to be: the sent one and its
//! rival. Its doubtful, blank and wrong places are first those where they differ. What has to come back
//! follows from how many of each there are, without any decoder.

use crate::bits::{column_of_bits, BITS, FRAME_VALUES};
use crate::call_lists::{delivery, opening};
use crate::calls::Call;
use crate::code::{Code, LEAST_RATE, RATE_COUNT};
use crate::curve::PLACES;
use crate::damage::capture_of;
use crate::decode::REPORT_BYTES;
use crate::frames::{blank_column, column, random_codeword, Frame, DOUBTFUL_GAP};
use crate::light::{light_weight, lightest};
use crate::random::Random;
use crate::row::Row;
use crate::soft::{blank_places, doubtful_places, Column, DOUBT_LIMIT};

/// What a frame is made to try. T is that of its number of blank places.
#[derive(Clone, Copy, Debug, PartialEq, Eq, PartialOrd, Ord)]
pub enum SureKind {
    /// So few doubtful places that no second codeword is near; T settled places are wrong, or fewer, and
    /// the sent symbol is best or second at each doubtful place.
    Few,
    /// One doubtful place more than few, or more of them: sent codeword and rival are near.
    PastFew,
    /// As many wrong settled and doubtful places as leave no other message near, with any symbols at the
    /// doubtful ones.
    Never,
    /// Fewer of them: T places at most are wrong or doubtful and without the sent symbol.
    Kept,
    /// The same with T + 1 of these.
    Lost,
    /// One wrong settled place more than [`SureKind::Never`]: the rival is near. The sent symbol is neither
    /// best nor second at the doubtful places.
    PastNever,
    /// The same with the sent symbol second there.
    PastNeverSecond,
}

pub const SURE_KINDS: [SureKind; 7] = [
    SureKind::Few,
    SureKind::PastFew,
    SureKind::Never,
    SureKind::Kept,
    SureKind::Lost,
    SureKind::PastNever,
    SureKind::PastNeverSecond,
];

/// What has to come back.
#[derive(Clone, Copy, Debug, PartialEq, Eq, PartialOrd, Ord)]
pub enum Must {
    /// The sent message, and no margin.
    Sent,
    /// None is near, and the buffers are as they were.
    Nothing,
    /// A message with a margin. Where no third codeword can be near it is the cheaper one of the two.
    Margin,
    /// The rival's message.
    Rival,
}

/// Each rate goes round the kinds so many times: each doubt twice, with blank places and without.
pub const SURE_TURNS: usize = 2 * FEW_SURE_TURNS;

/// So many turns have each kind with each doubt once.
pub const FEW_SURE_TURNS: usize = (DOUBT_LIMIT + 1) * SURE_KINDS.len();

/// Numbers that are so far apart have the same rate and kind, and the doubt is the next one.
pub const SURE_STEP: u64 = (RATE_COUNT * SURE_KINDS.len()) as u64;

/// The least gap of a settled place, and that of a wrong one: next to [`LEAST_SETTLED`] it is so large that
/// the rival costs least of all codewords where it is made to come back.
const LEAST_SETTLED: usize = DOUBTFUL_GAP + 1;
const LEAST_WRONG: usize = 100;

/// The largest magnitude of a bit value here, and the least of one that is not to be the smallest of four.
const MOST_MAGNITUDE: usize = 127;
const LEAST_MAGNITUDE: usize = 40;

/// From bit values best and second differ in one bit, and two codewords do so at few places only. Up to this
/// rate one of so many rivals does at enough places for both codewords to be near; at some above none does.
const MOST_SHARED_RATE: u64 = 39;
const DRAWN: usize = 1000;

/// Whether a rate has frames of a kind.
pub fn has_kind(source: Source, rate: u64, kind: SureKind) -> bool {
    (source, kind) != (Source::Bits, SureKind::PastFew) || rate <= MOST_SHARED_RATE
}

/// What a number of blank places leaves at a rate.
#[derive(Clone, Copy, Debug, PartialEq, Eq)]
pub struct Bounds {
    /// Two codewords differ in so many places at least, n − M.
    pub distance: usize,
    /// T.
    pub reach: usize,
    pub blanks: usize,
}

impl Bounds {
    pub fn of(code: &Code, blanks: usize) -> Bounds {
        Bounds {
            distance: PLACES - code.top,
            reach: code.reach_with(blanks).expect("not too many blank places"),
            blanks,
        }
    }

    /// The most doubtful places with d + 2T + b < n − M.
    pub fn few(&self) -> usize {
        self.distance - 2 * self.reach - self.blanks - 1
    }

    /// The most wrong settled and doubtful places with e + d + T + b < n − M.
    pub fn never(&self) -> usize {
        self.distance - self.reach - self.blanks - 1
    }
}

/// A frame around two codewords.
#[derive(Clone, Debug, PartialEq, Eq)]
pub struct SureFrame {
    pub kind: SureKind,
    pub must: Must,
    pub bounds: Bounds,
    /// Settled places that are not blank and where the sent symbol is not best.
    pub wrong: usize,
    /// Doubtful places where it is neither best nor second.
    pub lost: usize,
    pub sent: Row,
    pub rival: Row,
    /// The bit values that the columns are made from; none where they are made from costs.
    pub values: Vec<i8>,
    pub frame: Frame,
}

/// What columns are made from.
#[derive(Clone, Copy, Debug, PartialEq, Eq)]
pub enum Source {
    Costs,
    Bits,
}

impl SureFrame {
    /// Frame `number` of a seed. A kind that the rate does not have is [`SureKind::Few`] there.
    pub fn numbered(seed: u64, number: u64) -> SureFrame {
        SureFrame::turned(seed, number, Source::Costs)
    }

    /// The same from bit values.
    pub fn of_bits(seed: u64, number: u64) -> SureFrame {
        SureFrame::turned(seed, number, Source::Bits)
    }

    fn turned(seed: u64, number: u64, source: Source) -> SureFrame {
        let mut random = Random::new(seed, number);
        let rate = LEAST_RATE + number % RATE_COUNT as u64;
        let turn = number as usize / RATE_COUNT;
        let kind = SURE_KINDS[turn % SURE_KINDS.len()];
        let kind = match has_kind(source, rate, kind) {
            true => kind,
            false => SureKind::Few,
        };
        let round = turn / SURE_KINDS.len();
        let doubt = round % (DOUBT_LIMIT + 1);
        let limit = code(rate).blank_limit();
        let some = [1, limit.div_ceil(2), limit.saturating_sub(1).max(1), limit];
        let blanks = match (round + round / (DOUBT_LIMIT + 1) + rate as usize) % 2 {
            0 => 0,
            _ => some[(round / 2 + rate as usize) % some.len()].min(limit),
        };
        SureFrame::made(rate, kind, doubt, blanks, source, &mut random)
    }

    /// A frame with so many doubtful places, or as near to this as the kind has it.
    pub fn made(
        rate: u64,
        kind: SureKind,
        doubt: usize,
        blanks: usize,
        source: Source,
        random: &mut Random,
    ) -> SureFrame {
        let code = code(rate);
        let bounds = Bounds::of(code, blanks);
        let plan = Plan::of(kind, doubt, &bounds, light_weight(code), source, random);
        let (sent, rival) = plan.codewords(code, source, random);
        let places = plan.places(&sent, &rival, blanks, source, random);
        let (values, columns) = match source {
            Source::Costs => {
                let columns = places.map(|place| place.column(random));
                (Vec::new(), columns)
            }
            Source::Bits => {
                let values: Vec<i8> = places.iter().flat_map(|p| p.bits(random)).collect();
                let column = |at: usize| {
                    let four = std::array::from_fn(|bit| values[BITS * at + bit]);
                    column_of_bits(four)
                };
                let columns = std::array::from_fn(column);
                assert_eq!(values.len(), FRAME_VALUES);
                (values, columns)
            }
        };
        let lost = places.iter().filter(|place| place.is_lost()).count();
        SureFrame {
            kind,
            must: plan.must(kind, &bounds, lost),
            bounds,
            wrong: plan.wrong,
            lost,
            sent,
            rival,
            values,
            frame: Frame {
                rate,
                doubtful: doubtful_places(&columns, plan.doubt),
                columns,
            },
        }
    }

    pub fn doubt(&self) -> usize {
        self.frame.doubtful.len()
    }

    /// Whether no third codeword can be near beside two that are: it would differ from each in n − M places
    /// at least, and from both together in no more than 4T + d + 2b.
    pub fn has_no_third(&self) -> bool {
        let Bounds {
            distance,
            reach,
            blanks,
        } = self.bounds;
        4 * reach + self.doubt() + 2 * blanks < 2 * distance
    }

    /// A session that is opened with the doubtful places and as many blank ones as there is room for, or
    /// fewer, given all columns in random order and closed; then its capture, opened and closed.
    pub fn calls(&self, random: &mut Random) -> Vec<Call> {
        let close = Call::Close {
            message: self.frame.rate as u16,
            report: REPORT_BYTES as u16,
        };
        let arrivals = random.shuffled(0..PLACES as u8);
        let blank = random.shuffled(blank_places(&self.frame.columns));
        let room = blank.len().min(DOUBT_LIMIT - self.doubt());
        let mut frame = self.frame.clone();
        frame.doubtful.extend(&blank[..random.between(0, room)]);
        frame.doubtful.sort_unstable();
        let mut calls = vec![opening(&frame)];
        calls.extend(arrivals.iter().map(|place| delivery(&frame, *place)));
        calls.push(close.clone());
        let capture = capture_of(&frame, &arrivals);
        calls.extend([Call::OpenCapture { capture }, close]);
        calls
    }
}

fn code(rate: u64) -> &'static Code {
    Code::of_rate(rate).expect("a known rate")
}

/// How many places of a frame are what.
#[derive(Clone, Copy, Debug, PartialEq, Eq)]
struct Plan {
    doubt: usize,
    wrong: usize,
    lost: usize,
    /// Whether the rival has to cost least, and to be best at the doubtful places.
    for_rival: bool,
    /// So many of the doubtful places have to be where both codewords are best or second.
    shared: usize,
}

impl Plan {
    fn of(
        kind: SureKind,
        doubt: usize,
        bounds: &Bounds,
        weight: usize,
        source: Source,
        random: &mut Random,
    ) -> Plan {
        let Bounds { reach, blanks, .. } = *bounds;
        let few = bounds.few();
        let plan = |doubt, wrong, lost| Plan {
            doubt,
            wrong,
            lost,
            for_rival: false,
            shared: 0,
        };
        match kind {
            SureKind::Few => {
                let wrong = match random.once_in(4) {
                    true => random.between(0, reach),
                    false => reach,
                };
                plan(doubt.min(few), wrong, 0)
            }
            SureKind::PastFew => {
                let least = weight - 2 * reach - blanks;
                let doubt = match source {
                    Source::Costs => doubt.max(least),
                    Source::Bits => least,
                };
                let left = weight.saturating_sub(doubt + blanks);
                let wrong = random.between(left.saturating_sub(reach), reach.min(left));
                Plan {
                    shared: doubt.min(weight),
                    ..plan(doubt, wrong, 0)
                }
            }
            SureKind::Never => {
                let doubt = doubt.min(bounds.never());
                plan(doubt, bounds.never() - doubt, random.between(0, doubt))
            }
            SureKind::Kept => {
                let doubt = doubt.min(few + reach);
                let lost = random.between(doubt.saturating_sub(few), doubt.min(reach));
                plan(doubt, reach - lost, lost)
            }
            SureKind::Lost => {
                let doubt = doubt.min(few + reach);
                let lost = random.between(doubt.saturating_sub(few - 1), doubt.min(reach + 1));
                plan(doubt, reach + 1 - lost, lost)
            }
            SureKind::PastNever | SureKind::PastNeverSecond => {
                let doubt = match source {
                    Source::Costs => doubt,
                    // With more a rival that differs in several bits need not cost least.
                    Source::Bits => doubt % few,
                };
                let doubt = doubt.min(weight - reach - blanks);
                let lost = if kind == SureKind::PastNever {
                    doubt
                } else {
                    0
                };
                Plan {
                    for_rival: true,
                    ..plan(doubt, weight - reach - blanks - doubt, lost)
                }
            }
        }
    }

    fn must(&self, kind: SureKind, bounds: &Bounds, lost: usize) -> Must {
        match kind {
            SureKind::PastFew => Must::Margin,
            SureKind::PastNever | SureKind::PastNeverSecond => Must::Rival,
            _ if self.wrong + lost <= bounds.reach => Must::Sent,
            _ => Must::Nothing,
        }
    }

    /// The sent codeword and its rival. From bit values they differ in one bit at all places that have to
    /// be shared.
    fn codewords(&self, code: &Code, source: Source, random: &mut Random) -> (Row, Row) {
        let sent = random_codeword(code, random);
        let shared = |difference: &Row| {
            let ones = difference.elements().into_iter().filter(is_one_bit);
            source == Source::Costs || ones.count() >= self.shared
        };
        let mut drawn = (0..DRAWN).map(|_| lightest(code, random));
        let difference = drawn.find(shared).expect("a rival that differs in one bit");
        let mut rival = sent;
        rival.add(&difference);
        (sent, rival)
    }

    /// What stands at each place: doubtful, blank and wrong places from the front of those where the
    /// codewords differ, of these from bit values those first where they do so in one bit.
    fn places(
        &self,
        sent: &Row,
        rival: &Row,
        blanks: usize,
        source: Source,
        random: &mut Random,
    ) -> [Place; PLACES] {
        let mut order = random.shuffled(0..PLACES);
        order.sort_by_key(|place| {
            let difference = sent.get(*place) ^ rival.get(*place);
            (
                difference == 0,
                source == Source::Bits && !is_one_bit(&difference),
            )
        });
        let mut places = [Place::default(); PLACES];
        for (at, place) in order.into_iter().enumerate() {
            let sent = sent.get(place);
            let differs = rival.get(place) != sent;
            let other = match differs {
                true => rival.get(place),
                false => random.other_symbol(sent),
            };
            let role = match at {
                _ if at < self.doubt => Role::Doubtful,
                _ if at < self.doubt + blanks => Role::Blank,
                _ if at < self.doubt + blanks + self.wrong => Role::Wrong,
                _ => Role::Right,
            };
            let is_lost = at < self.lost;
            places[place] = self.place(sent, other, (role, is_lost, differs), source, random);
        }
        places
    }

    fn place(
        &self,
        sent: u8,
        other: u8,
        (role, is_lost, differs): (Role, bool, bool),
        source: Source,
        random: &mut Random,
    ) -> Place {
        // From bit values the second differs from the best in one bit.
        let beside = |symbol: u8, but: u8, random: &mut Random| loop {
            let found = match source {
                Source::Costs => random.other_symbol(symbol),
                Source::Bits => symbol ^ 1 << random.below(BITS),
            };
            if found != but {
                break found;
            }
        };
        let far = source == Source::Bits && !is_one_bit(&(sent ^ other));
        let (best, second) = match role {
            Role::Doubtful if is_lost || self.for_rival && far => {
                (other, beside(other, sent, random))
            }
            Role::Doubtful if self.for_rival => (other, sent),
            Role::Doubtful => {
                let other = match far {
                    true => beside(sent, other, random),
                    false => other,
                };
                match random.once_in(2) {
                    true => (sent, other),
                    false => (other, sent),
                }
            }
            Role::Wrong if random.once_in(2) => (other, sent),
            Role::Wrong => (other, random.other_symbol(other)),
            Role::Right | Role::Blank => (sent, other),
        };
        let gap = match role {
            Role::Blank => 0,
            Role::Doubtful if self.for_rival => DOUBTFUL_GAP,
            Role::Doubtful => random.between(1, DOUBTFUL_GAP),
            Role::Right if self.for_rival && differs => LEAST_SETTLED,
            Role::Right if !self.for_rival => random.between(LEAST_SETTLED, MOST_MAGNITUDE),
            Role::Wrong | Role::Right => random.between(LEAST_WRONG, MOST_MAGNITUDE),
        };
        Place {
            role,
            sent,
            best,
            second,
            gap,
        }
    }
}

fn is_one_bit(symbol: &u8) -> bool {
    symbol.count_ones() == 1
}

#[derive(Clone, Copy, Debug, Default, PartialEq, Eq)]
enum Role {
    Doubtful,
    Blank,
    Wrong,
    #[default]
    Right,
}

/// What stands at a place.
#[derive(Clone, Copy, Debug, Default, PartialEq, Eq)]
struct Place {
    role: Role,
    sent: u8,
    best: u8,
    second: u8,
    gap: usize,
}

impl Place {
    /// Whether it is doubtful and the sent symbol neither best nor second.
    fn is_lost(&self) -> bool {
        self.role == Role::Doubtful && ![self.best, self.second].contains(&self.sent)
    }

    fn column(&self, random: &mut Random) -> Column {
        match self.role {
            Role::Blank => blank_column(random),
            _ => column(self.best, self.second, self.gap, random),
        }
    }

    /// The four bit values: the best symbol's bits with the gap as magnitude, at a doubtful place that one
    /// alone in which the second differs.
    fn bits(&self, random: &mut Random) -> [i8; BITS] {
        std::array::from_fn(|at| {
            let bit = 1 << (BITS - 1 - at);
            let magnitude = match self.role {
                Role::Doubtful if self.best ^ self.second != bit => {
                    random.between(LEAST_MAGNITUDE, MOST_MAGNITUDE)
                }
                _ => self.gap,
            } as i8;
            match self.best & bit {
                0 => magnitude,
                _ => -magnitude,
            }
        })
    }
}

#[cfg(test)]
mod tests {
    use super::*;
    use crate::decode::decode;
    use crate::mark::Standing;
    use crate::nearest::Finder;
    use crate::soft::{best, is_blank, second};

    const SOURCES: [fn(u64, u64) -> SureFrame; 2] = [SureFrame::numbered, SureFrame::of_bits];

    fn frames(turns: usize) -> impl Iterator<Item = SureFrame> {
        let numbers = 0..(RATE_COUNT * turns) as u64;
        numbers.flat_map(|number| SOURCES.map(|source| source(140, number)))
    }

    /// In how many places that are not blank a codeword differs from the test word nearest to it.
    fn away(frame: &SureFrame, codeword: &Row) -> usize {
        let Frame {
            doubtful, columns, ..
        } = &frame.frame;
        let differs = |place: &u8| {
            let column = &columns[usize::from(*place)];
            let symbol = codeword.get(usize::from(*place));
            let taken = doubtful.contains(place) && second(column) == symbol;
            !is_blank(column) && best(column) != symbol && !taken
        };
        (0..PLACES as u8).filter(differs).count()
    }

    /// The numbers of a frame are those of its columns, and are on their side of the bounds.
    #[test]
    fn frames_are_on_their_side() {
        for frame in frames(SURE_TURNS) {
            let bounds = frame.bounds;
            assert_eq!(blank_places(&frame.frame.columns).len(), bounds.blanks);
            assert_eq!(away(&frame, &frame.sent), frame.wrong + frame.lost);
            let (doubt, beside) = (frame.doubt(), frame.wrong + frame.doubt());
            match frame.kind {
                SureKind::Few => assert!(doubt <= bounds.few() && frame.lost == 0),
                SureKind::PastFew => assert!(doubt > bounds.few()),
                SureKind::Never => assert_eq!(beside, bounds.never()),
                SureKind::Kept | SureKind::Lost => assert!(beside <= bounds.never()),
                _ => assert!(beside > bounds.never()),
            }
        }
    }

    /// Which codewords are near is what the frame's end asks for: the sent one, none of the two, both, or
    /// the rival, which then costs less than any other codeword.
    #[test]
    fn near_codewords_are_those_that_the_end_needs() {
        for frame in frames(SURE_TURNS) {
            let near = |word: &Row| away(&frame, word) <= frame.bounds.reach;
            let [sent, rival] = [near(&frame.sent), near(&frame.rival)];
            match frame.must {
                Must::Sent => assert!(sent && !rival, "{frame:?}"),
                Must::Nothing => assert!(!sent && !rival, "{frame:?}"),
                Must::Margin => assert!(sent && rival, "{frame:?}"),
                Must::Rival => {
                    let word = frame.rival.elements();
                    let code = code(frame.frame.rate);
                    let Standing { excess, slack } =
                        Standing::of(code, &frame.frame.columns, &word);
                    assert!(rival && excess < slack, "{frame:?}");
                }
            }
        }
    }

    /// Beyond a bound it is by one step where two codewords differ in n − M places, by two where they differ
    /// in one more; more doubtful places make a margin as well.
    #[test]
    fn bounds_are_passed_by_one_step() {
        let mut first = 0;
        for frame in frames(SURE_TURNS) {
            let step = 1 + light_weight(code(frame.frame.rate)) - frame.bounds.distance;
            let beyond = (frame.wrong + frame.doubt()).checked_sub(frame.bounds.never());
            match frame.must {
                Must::Margin => {
                    assert!(frame.doubt() >= frame.bounds.few() + step);
                    first += usize::from(frame.doubt() == frame.bounds.few() + step);
                }
                Must::Rival => assert_eq!(beyond, Some(step)),
                _ => (),
            }
        }
        assert!(first >= 10 * RATE_COUNT, "{first}");
    }

    /// The reference comes to what the frames are made for.
    #[test]
    fn frames_come_to_their_end() {
        for frame in frames(FEW_SURE_TURNS / 4) {
            let Frame {
                rate,
                doubtful,
                columns,
            } = &frame.frame;
            let answer = decode(Finder::of_rate(*rate).unwrap(), columns, doubtful);
            let word = |message: &[u8]| code(*rate).codeword(message);
            match (frame.must, answer) {
                (Must::Nothing, answer) => assert!(answer.is_err()),
                (Must::Sent, Ok(answer)) => {
                    assert_eq!(word(&answer.message), frame.sent);
                    assert_eq!(answer.margin, None);
                }
                (Must::Margin, Ok(answer)) => assert!(answer.margin.is_some()),
                (Must::Rival, Ok(answer)) => assert_eq!(word(&answer.message), frame.rival),
                (_, Err(refusal)) => panic!("{refusal:?} {frame:?}"),
            }
        }
    }
}

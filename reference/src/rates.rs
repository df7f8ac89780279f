//! Frames at every rate, around what the rule decides there: how many wrong places are repaired, and how
//! many may be blank.
//!
//! - [`Wrong`], [`Lost`]: how many settled places are wrong and how many are blank, by the T and the
//!   limit that the rate has.
//! - [`RateFrame`], [`RateFrame::numbered`]: the number goes round the rates, each of them through its
//!   turns ([`TURNS`]); [`RateFrame::of_bits`]: the same from bit values.
//! - [`RateFrame::calls`]: a session that takes it and its capture.
//! - [`RateSlip`], [`RATE_SLIPS`]: wrong rules; [`rule`] is the right one.

use crate::bits::{columns_of_bits, BITS, SENT};
use crate::call_lists::{delivery, opening, whole, READING, READING_SIZES};
use crate::calls::Call;
use crate::capture::RATE_BYTE;
use crate::code::{rates, Code, LEAST_RATE, MOST_RATE, RATE_COUNT};
use crate::curve::PLACES;
use crate::damage::capture_of;
use crate::decode::REPORT_BYTES;
use crate::fades::{any_two, other_two};
use crate::frames::{
    blank_column, column, random_codeword, unknown_rate, Frame, DOUBTFUL_GAP, SETTLED_GAP,
};
use crate::light::light_weight;
use crate::pairs::{pair_with, Gaps, NEAR_DOUBT};
use crate::random::Random;
use crate::row::Row;
use crate::soft::{Columns, DOUBT_LIMIT};

/// How many settled places are wrong. T is that of the number of blank places.
#[derive(Clone, Copy, Debug, PartialEq, Eq, PartialOrd, Ord)]
pub enum Wrong {
    None,
    /// T of them.
    Reach,
    /// T + 1.
    Past,
    /// T + 1 and so many more, up to 63 − M − T: no other codeword can be near.
    Far(usize),
    /// All: the best symbols follow no codeword.
    All,
    /// Two codewords are near: of the places where they differ some are doubtful and T lean to one of
    /// them. Numbered, with other doubts.
    Two(usize),
}

/// How many places are blank, by the most that there may be.
#[derive(Clone, Copy, Debug, PartialEq, Eq, PartialOrd, Ord)]
pub enum Lost {
    None,
    One,
    Half,
    OneFewer,
    Most,
    TooMany,
}

/// Those of frames with blank places.
pub const LOST: [Lost; 5] = [
    Lost::One,
    Lost::Half,
    Lost::OneFewer,
    Lost::Most,
    Lost::TooMany,
];

/// Those of frames that are near, or not, by their wrong places.
pub const WRONG: [Wrong; 3] = [Wrong::None, Wrong::Reach, Wrong::Past];

/// The numbers of wrong places at a rate that are more than T and too few for another codeword to be
/// near: six, or seven where the rate is odd.
pub fn far(rate: u64) -> std::ops::RangeInclusive<usize> {
    let code = code(rate);
    code.reach + 1..=PLACES - 1 - code.top - code.reach
}

/// The turns of a rate: all places wrong; each number of [`far`], without doubt; two near codewords; then
/// each doubt, without blank places and with some, and with each of [`WRONG`].
pub const TURNS: usize = FIRST_TURNS + WRONG.len() * 2 * (DOUBT_LIMIT + 1);
const FIRST_TURNS: usize = 1 + MOST_FAR + PAIRS;
const MOST_FAR: usize = 7;
const PAIRS: usize = 2;

/// So many turns have each of [`WRONG`] without blank places and with some.
pub const FEW_TURNS: usize = FIRST_TURNS + WRONG.len() * 2;

/// What a frame's columns are made from.
#[derive(Clone, Copy, Debug, PartialEq, Eq)]
enum Source {
    Costs,
    Bits,
}

/// A frame around one codeword, at whose doubtful places its symbol is best or second and at wrong ones
/// neither; or between two.
#[derive(Clone, Debug, PartialEq, Eq)]
pub struct RateFrame {
    pub wrong: Wrong,
    /// How many settled places that is, at the nearest test word.
    pub wrong_places: usize,
    pub lost: Lost,
    /// How many blank places that is.
    pub blanks: usize,
    /// The bit values that the columns are made from; none where they are made from costs.
    pub values: Vec<i8>,
    pub frame: Frame,
}

impl RateFrame {
    /// Frame `number` of a seed.
    pub fn numbered(seed: u64, number: u64) -> RateFrame {
        RateFrame::turned(seed, number, Source::Costs)
    }

    /// The same from bit values.
    pub fn of_bits(seed: u64, number: u64) -> RateFrame {
        RateFrame::turned(seed, number, Source::Bits)
    }

    fn turned(seed: u64, number: u64, source: Source) -> RateFrame {
        let mut random = Random::new(seed, number);
        let rate = LEAST_RATE + number % RATE_COUNT as u64;
        let turn = number as usize / RATE_COUNT % TURNS;
        let Some(turn) = turn.checked_sub(FIRST_TURNS) else {
            let wrong = match turn {
                0 => Wrong::All,
                1..=MOST_FAR => Wrong::Far(turn - 1),
                _ => Wrong::Two(turn - 1 - MOST_FAR),
            };
            return match (wrong, source) {
                (Wrong::Two(number), Source::Costs) => RateFrame::of_two(rate, number, &mut random),
                // From bit values best and second differ in one bit alone, as two codewords seldom do.
                (Wrong::Two(_), Source::Bits) => {
                    let (wrong, lost) = (Wrong::None, Lost::None);
                    RateFrame::made(rate, wrong, NEAR_DOUBT, lost, source, &mut random)
                }
                _ => RateFrame::made(rate, wrong, 0, Lost::None, source, &mut random),
            };
        };
        let wrong = WRONG[turn % WRONG.len()];
        let round = turn / WRONG.len();
        let at = round / 2 + rate as usize;
        let lost = match round % 2 {
            0 => Lost::None,
            _ => LOST[at % LOST.len()],
        };
        let doubt = at % (DOUBT_LIMIT + 1);
        RateFrame::made(rate, wrong, doubt, lost, source, &mut random)
    }

    /// A frame with two near codewords, which differ in all its doubtful places: at least as many of these
    /// as they need, and as there may be at most.
    fn of_two(rate: u64, number: usize, random: &mut Random) -> RateFrame {
        let code = code(rate);
        let weight = light_weight(code);
        let more = (rate as usize + number) % (DOUBT_LIMIT - NEAR_DOUBT + 1);
        let doubt = (NEAR_DOUBT + more).min(weight);
        let lean = code.reach.min(weight - doubt);
        RateFrame {
            wrong: Wrong::Two(number),
            wrong_places: lean.min(weight - doubt - lean),
            lost: Lost::None,
            blanks: 0,
            values: Vec::new(),
            frame: pair_with(rate, doubt, lean, Gaps::Mixed, random).frame,
        }
    }

    fn made(
        rate: u64,
        wrong: Wrong,
        doubt: usize,
        lost: Lost,
        source: Source,
        random: &mut Random,
    ) -> RateFrame {
        let code = code(rate);
        let blanks = lost.places(code.blank_limit());
        let wrong_places = wrong.places(rate, code.reach_with(blanks).unwrap_or(0));
        let sent = random_codeword(code, random);
        let places = random.shuffled(0..PLACES as u8);
        let (blank, others) = places.split_at(blanks);
        let (doubtful, settled) = others.split_at(doubt);
        let mut doubtful = doubtful.to_vec();
        doubtful.sort_unstable();
        let role = |place: u8| match place {
            _ if blank.contains(&place) => Role::Blank,
            _ if doubtful.contains(&place) => Role::Doubtful,
            _ if wrong == Wrong::All => Role::Noise,
            _ if settled[..wrong_places].contains(&place) => Role::Wrong,
            _ => Role::Right,
        };
        let roles: [Role; PLACES] = std::array::from_fn(|place| role(place as u8));
        let (values, columns) = match source {
            Source::Costs => (Vec::new(), costs(&sent, &roles, random)),
            Source::Bits => {
                let values = bit_values(&sent, &roles, random);
                let columns = columns_of_bits(&values);
                (values, columns)
            }
        };
        RateFrame {
            wrong,
            wrong_places,
            lost,
            blanks,
            values,
            frame: Frame {
                rate,
                doubtful,
                columns,
            },
        }
    }

    pub fn doubt(&self) -> usize {
        self.frame.doubtful.len()
    }

    /// An opening with an unknown rate, and a reading of what it hands back; then a session that is opened
    /// with the doubtful places, given all columns in random order, closed into a wrong buffer, read,
    /// closed and written, with a reading before each delivery where all places are wrong; then its
    /// capture with an unknown rate and with its own, looked up, opened, read, closed and written.
    pub fn calls(&self, random: &mut Random) -> Vec<Call> {
        let Frame { rate, doubtful, .. } = &self.frame;
        let arrivals = random.shuffled(0..PLACES as u8);
        let mut calls = vec![
            Call::Open {
                rate: unknown_rate(u64::from(u16::MAX), random) as u16,
                doubtful: doubtful.clone(),
            },
            READING,
            opening(&self.frame),
        ];
        for place in &arrivals {
            if self.wrong == Wrong::All {
                calls.push(READING);
            }
            calls.push(delivery(&self.frame, *place));
        }
        calls.push(Call::ReadInterpolant {
            size: random.one_of(&READING_SIZES[1..]),
        });
        calls.push(Call::Close {
            message: *rate as u16 + 1 - random.one_of(&[0, 2]),
            report: REPORT_BYTES as u16,
        });
        calls.extend(whole(&self.frame));
        let capture = capture_of(&self.frame, &arrivals);
        let mut unknown = capture.clone();
        unknown[RATE_BYTE] = unknown_rate(u64::from(u8::MAX), random) as u8;
        let place = random.below(PLACES) as u16;
        for capture in [unknown, capture] {
            calls.push(Call::LookUp {
                place,
                capture: capture.clone(),
            });
            calls.push(Call::OpenCapture { capture });
            calls.push(READING);
        }
        calls.extend(whole(&self.frame));
        calls
    }
}

impl Wrong {
    /// How many places that is, with this T.
    fn places(self, rate: u64, reach: usize) -> usize {
        match self {
            Wrong::None => 0,
            Wrong::Reach => reach,
            Wrong::Past => reach + 1,
            Wrong::Far(more) => reach + 1 + more % far(rate).count(),
            Wrong::All | Wrong::Two(_) => PLACES,
        }
    }
}

impl Lost {
    /// How many places that is, where so many may be blank.
    fn places(self, limit: usize) -> usize {
        match self {
            Lost::None => 0,
            Lost::One => limit.min(1),
            Lost::Half => limit / 2,
            Lost::OneFewer => limit.saturating_sub(1),
            Lost::Most => limit,
            Lost::TooMany => limit + 1,
        }
    }
}

fn code(rate: u64) -> &'static Code {
    Code::of_rate(rate).expect("a known rate")
}

/// What a place is in a frame.
#[derive(Clone, Copy, Debug, PartialEq, Eq)]
enum Role {
    Blank,
    Doubtful,
    Wrong,
    Right,
    Noise,
}

/// Columns of costs, with smaller gaps at the doubtful places than at the others.
fn costs(sent: &Row, roles: &[Role; PLACES], random: &mut Random) -> Columns {
    std::array::from_fn(|place| {
        let symbol = sent.get(place);
        let other = random.other_symbol(symbol);
        let (best, second) = match roles[place] {
            Role::Blank => return blank_column(random),
            Role::Doubtful if random.once_in(2) => (other, symbol),
            Role::Doubtful | Role::Right => (symbol, other),
            Role::Wrong => other_two(symbol, random),
            Role::Noise => any_two(random),
        };
        let gap = match roles[place] {
            Role::Doubtful => random.between(1, DOUBTFUL_GAP),
            _ => random.between(DOUBTFUL_GAP + 1, SETTLED_GAP),
        };
        column(best, second, gap, random)
    })
}

/// Bit values, with a smaller magnitude among the four of a doubtful place than elsewhere. The best symbol
/// of a wrong place differs from the sent one in two bits at least, so that the second differs too.
fn bit_values(sent: &Row, roles: &[Role; PLACES], random: &mut Random) -> Vec<i8> {
    let mut values = Vec::new();
    for (place, role) in roles.iter().enumerate() {
        let symbol = sent.get(place);
        let small = random.below(BITS);
        let best = match role {
            Role::Blank => {
                values.extend([0; BITS]);
                continue;
            }
            Role::Doubtful if random.once_in(2) => symbol ^ 8 >> small,
            Role::Doubtful | Role::Right => symbol,
            Role::Wrong => symbol ^ random.one_of(&[3, 5, 6, 7, 9, 10, 11, 12, 13, 14, 15]),
            Role::Noise => random.symbol(),
        };
        for (position, sign) in SENT[usize::from(best)].into_iter().enumerate() {
            let magnitude = match (role, position == small) {
                (Role::Doubtful, true) => random.between(1, DOUBTFUL_GAP),
                _ => random.between(DOUBTFUL_GAP + 1, if sign < 0 { 128 } else { 127 }),
            };
            values.push((sign * magnitude as i16) as i8);
        }
    }
    values
}

/// "With M = k + 5 and T and the blank limit (57 − M) by the general rule", the largest T "with
/// 2T + b < 64 − M − 6": what a frame of a rate with so many blank places comes to, of which a test word
/// has so many wrong places that no other has fewer.
pub fn rule(rate: u64, blanks: usize, wrong: usize) -> u8 {
    if !rates().contains(&rate) {
        return 1;
    }
    let m = rate as usize + 5;
    match blanks {
        _ if blanks > 57 - m => 12,
        _ if 2 * wrong + blanks < 64 - m - 6 => 0,
        _ => 9,
    }
}

/// A wrong rule.
#[derive(Clone, Copy, Debug, PartialEq, Eq, PartialOrd, Ord)]
pub enum RateSlip {
    /// T is rounded up: 2T + b ≤ 64 − M − 6.
    RoundedUp,
    /// T is smaller where 2T + b = 64 − M − 7.
    RoundedDown,
    /// T is half the least distance, without the genus.
    HalfTheDistance,
    /// T is what it is without blank places.
    BlanksTakeNothing,
    /// Each blank place takes one from T.
    BlanksTakeOneEach,
    /// T is 6 at rate 39 and 1 at all others, where no place is blank.
    ReachOfTwoRates,
    /// Rate 52 repairs one wrong place.
    OneAtRate52,
    /// One more or fewer may be blank.
    LimitMore,
    LimitLess,
    /// 13 may be blank at rate 39 and 3 at all others.
    LimitOfTwoRates,
    /// There are other rates than from 6 to 52.
    From5,
    From7,
    To51,
    To53,
    /// There are rates 39 and 49 alone.
    TwoRates,
    /// A rate is its low byte.
    OneByte,
    /// The reading holds Q1 up to order 31, or up to order 16.
    Q1To31,
    Q1To16,
    /// A term with z weighs as at rate 39.
    WeightOfRate39,
}

pub const RATE_SLIPS: [RateSlip; 19] = [
    RateSlip::RoundedUp,
    RateSlip::RoundedDown,
    RateSlip::HalfTheDistance,
    RateSlip::BlanksTakeNothing,
    RateSlip::BlanksTakeOneEach,
    RateSlip::ReachOfTwoRates,
    RateSlip::OneAtRate52,
    RateSlip::LimitMore,
    RateSlip::LimitLess,
    RateSlip::LimitOfTwoRates,
    RateSlip::From5,
    RateSlip::From7,
    RateSlip::To51,
    RateSlip::To53,
    RateSlip::TwoRates,
    RateSlip::OneByte,
    RateSlip::Q1To31,
    RateSlip::Q1To16,
    RateSlip::WeightOfRate39,
];

impl RateSlip {
    /// Whether it is about frames; else it is about rates or readings.
    pub fn of_frames(self) -> bool {
        self <= RateSlip::LimitOfTwoRates
    }

    /// Whether it is about which rates there are.
    pub fn of_rates(self) -> bool {
        (RateSlip::From5..=RateSlip::OneByte).contains(&self)
    }

    /// Whether there is such a rate.
    pub fn knows(self, rate: u64) -> bool {
        match self {
            RateSlip::From5 => (LEAST_RATE - 1..=MOST_RATE).contains(&rate),
            RateSlip::From7 => (LEAST_RATE + 1..=MOST_RATE).contains(&rate),
            RateSlip::To51 => (LEAST_RATE..=MOST_RATE - 1).contains(&rate),
            RateSlip::To53 => (LEAST_RATE..=MOST_RATE + 1).contains(&rate),
            RateSlip::TwoRates => [39, 49].contains(&rate),
            RateSlip::OneByte => rates().contains(&(rate & 255)),
            _ => rates().contains(&rate),
        }
    }

    /// What [`rule`] says, by the wrong rule, at a rate that there is.
    pub fn number(self, rate: u64, blanks: usize, wrong: usize) -> u8 {
        if !self.knows(rate) {
            return 1;
        }
        let (most, b) = (52 - rate as usize, blanks);
        let limit = match self {
            RateSlip::LimitMore => most + 1,
            RateSlip::LimitLess => most.saturating_sub(1),
            RateSlip::LimitOfTwoRates if rate == 39 => 13,
            RateSlip::LimitOfTwoRates => 3,
            _ => most,
        };
        if blanks > limit {
            return 12;
        }
        let whole = most / 2;
        let reach = match self {
            RateSlip::RoundedUp => (most + 1 - b) / 2,
            RateSlip::RoundedDown => (most - b).saturating_sub(1) / 2,
            RateSlip::HalfTheDistance => (most + 6 - b) / 2,
            RateSlip::BlanksTakeNothing => whole,
            RateSlip::BlanksTakeOneEach => whole.saturating_sub(b),
            RateSlip::ReachOfTwoRates if rate == 39 => 6_usize.saturating_sub(b / 2),
            RateSlip::ReachOfTwoRates => 1_usize.saturating_sub(b / 2),
            RateSlip::OneAtRate52 if rate == MOST_RATE => 1,
            _ => most.saturating_sub(b) / 2,
        };
        if wrong <= reach {
            0
        } else {
            9
        }
    }
}

#[cfg(test)]
mod tests {
    use super::*;
    use crate::decode::decode;
    use crate::nearest::Finder;
    use crate::refusal::number;
    use crate::soft::{best, blank_places, doubtful_below, doubtful_places};
    use std::collections::BTreeSet;

    fn numbers(turns: usize) -> std::ops::Range<u64> {
        0..(RATE_COUNT * turns) as u64
    }

    #[test]
    fn numbers_go_round_every_turn() {
        let mut seen = BTreeSet::new();
        for number in numbers(TURNS) {
            let frame = RateFrame::numbered(90, number);
            seen.insert((frame.frame.rate, frame.wrong, frame.doubt(), frame.lost));
            assert_eq!(blank_places(&frame.frame.columns).len(), frame.blanks);
        }
        assert_eq!(seen.len(), RATE_COUNT * TURNS);
        for rate in rates() {
            assert_eq!(far(rate).count(), 6 + rate as usize % 2);
        }
        assert_eq!(far(52), 1..=6);
        assert_eq!(far(39), 7..=13);
        assert_eq!(far(49), 2..=8);
    }

    /// Table decoding picks the list, by doubt and by a threshold above its gaps, and bit values make
    /// such frames too.
    #[test]
    fn the_doubtful_places_have_the_smallest_gaps() {
        for number in numbers(FEW_TURNS) {
            for made in [RateFrame::numbered, RateFrame::of_bits] {
                let frame = made(91, number);
                let Frame {
                    doubtful, columns, ..
                } = &frame.frame;
                assert_eq!(doubtful_places(columns, frame.doubt()), *doubtful);
                if frame.doubt() > 0 {
                    let threshold = DOUBTFUL_GAP as u16 + 1;
                    assert_eq!(doubtful_below(columns, threshold, DOUBT_LIMIT), *doubtful);
                }
            }
            assert!(RateFrame::numbered(91, number).values.is_empty());
        }
    }

    /// Every frame comes to the number that the rule gives it.
    #[test]
    fn frames_are_near_by_the_rule() {
        for number_of_frame in numbers(FEW_TURNS) {
            for made in [RateFrame::numbered, RateFrame::of_bits] {
                let frame = made(92, number_of_frame);
                let Frame {
                    rate,
                    doubtful,
                    columns,
                } = &frame.frame;
                let decoded = decode(Finder::of_rate(*rate).unwrap(), columns, doubtful);
                let by_rule = rule(*rate, frame.blanks, frame.wrong_places);
                assert_eq!(number(&decoded), by_rule, "{frame:?}");
            }
        }
    }

    /// Two codewords are near where they are made to be, and else not.
    #[test]
    fn two_codewords_are_near() {
        for number in numbers(FEW_TURNS) {
            let frame = RateFrame::numbered(96, number);
            let Frame {
                rate,
                doubtful,
                columns,
            } = &frame.frame;
            let decoded = decode(Finder::of_rate(*rate).unwrap(), columns, doubtful);
            let margin = decoded.is_ok_and(|answer| answer.margin.is_some());
            assert_eq!(margin, matches!(frame.wrong, Wrong::Two(_)), "{frame:?}");
            if margin {
                assert!((NEAR_DOUBT..=DOUBT_LIMIT).contains(&frame.doubt()));
            }
        }
    }

    /// A wrong place has the sent symbol neither as its best nor as its second.
    #[test]
    fn wrong_places_are_as_many_as_they_are_said_to_be() {
        for number in numbers(FEW_TURNS) {
            let frame = RateFrame::numbered(93, number);
            if matches!(frame.wrong, Wrong::Two(_)) {
                continue;
            }
            let Frame {
                rate,
                doubtful,
                columns,
            } = &frame.frame;
            let Ok(answer) = decode(Finder::of_rate(*rate).unwrap(), columns, doubtful) else {
                continue;
            };
            let sent = code(*rate).codeword(&answer.message);
            let blank = blank_places(columns);
            let wrong = (0..PLACES as u8).filter(|place| {
                let at = usize::from(*place);
                let spared = blank.contains(place) || doubtful.contains(place);
                !spared && best(&columns[at]) != sent.get(at)
            });
            assert_eq!(wrong.count(), frame.wrong_places);
        }
    }

    /// The rule at the rates and numbers that documents 01 and 02 name, and that of each rate.
    #[test]
    fn the_rule_is_that_of_the_documents() {
        let t = |rate, blanks| (0..64).take_while(|w| rule(rate, blanks, *w) == 0).count();
        assert_eq!([t(39, 0), t(49, 0), t(52, 0), t(6, 0)], [7, 2, 1, 24]);
        assert_eq!([t(39, 13), rule(39, 14, 0) as usize], [1, 12]);
        assert_eq!([t(49, 3), rule(49, 4, 0) as usize], [1, 12]);
        assert_eq!([t(52, 0), rule(52, 1, 0) as usize], [1, 12]);
        assert_eq!([rule(5, 0, 0), rule(53, 0, 0), rule(295, 0, 0)], [1; 3]);
        for rate in rates() {
            let code = code(rate);
            for blanks in 0..=PLACES {
                let reach = code.reach_with(blanks);
                assert_eq!(reach.map_or(0, |reach| reach + 1), t(rate, blanks));
            }
        }
    }

    /// Each wrong rule of frames comes to another number somewhere, and not at every rate; those that
    /// know other rates do so at their ends alone.
    #[test]
    fn wrong_rules_are_told_apart() {
        for slip in RATE_SLIPS {
            let mut told = BTreeSet::new();
            for number in numbers(TURNS) {
                let RateFrame {
                    frame,
                    blanks,
                    wrong_places,
                    ..
                } = RateFrame::numbered(94, number);
                let by_slip = slip.number(frame.rate, blanks, wrong_places);
                if by_slip != rule(frame.rate, blanks, wrong_places) {
                    told.insert(frame.rate);
                }
            }
            let expected = match slip {
                RateSlip::OneAtRate52 | RateSlip::To51 => vec![52],
                RateSlip::From7 => vec![6],
                _ if slip.of_frames() || slip == RateSlip::TwoRates => {
                    assert!(told.len() > 40, "{slip:?}: {told:?}");
                    continue;
                }
                _ => vec![],
            };
            assert_eq!(told.into_iter().collect::<Vec<u64>>(), expected, "{slip:?}");
        }
        assert!(RateSlip::From5.knows(5) && !RateSlip::From7.knows(6));
        assert!(RateSlip::To53.knows(53) && !RateSlip::To51.knows(52));
        assert!(RateSlip::OneByte.knows(256 + 39) && !RateSlip::RoundedUp.knows(256 + 39));
    }
}

//! Frames for tests: columns and a doubtful list, made at random around known codewords.
//!
//! - [`Frame`], [`Frame::numbered`]: frame `number` of a seed; the number goes round the kinds, the
//!   rates, the doubts and the numbers of blank places.
//! - [`Kind`], [`KINDS`], [`frame`]: what a frame is made to try; [`faded`]: the same with blank
//!   places.
//! - [`some_places`], [`random_codeword`]: what they are made from; [`UNKNOWN_RATES`].
//! - [`frame_s`]: the columns of the bench sheet's frames.

use crate::code::{Code, LEAST_RATE, MOST_RATE};
use crate::curve::PLACES;
use crate::field::{inverse, times};
use crate::pairs::{clipped_pair, pair, pair_with, trio, Gaps, Planted, NEAR_DOUBT};
use crate::random::Random;
use crate::row::Row;
use crate::soft::{best, second, Column, Columns, CEILING, DOUBT_LIMIT};

/// The gaps of doubtful places are at most this, those of settled ones larger, so that table
/// decoding picks the frame's own list, except where seconds are pinned ([`lifted`], [`clipped`],
/// [`clipped_pair`]).
pub(crate) const DOUBTFUL_GAP: usize = 9;
pub(crate) const SETTLED_GAP: usize = 250;

/// What a session is opened with, and the columns delivered to it.
#[derive(Clone, Debug, PartialEq, Eq)]
pub struct Frame {
    pub rate: u64,
    pub doubtful: Vec<u8>,
    pub columns: Columns,
}

/// What a frame is made to try. T is that of its number of blank places.
#[derive(Clone, Copy, Debug, PartialEq, Eq)]
pub enum Kind {
    /// Every settled place has the sent symbol as its best.
    Valid,
    /// At most T settled places are wrong, and any doubtful ones.
    Wrong,
    /// T + 1 to T + 4 settled places are wrong.
    Beyond,
    /// Two codewords at least distance with eight doubtful places where they differ; of the others
    /// T lean to each, so that both are near and there is a margin. With nine doubtful places or more
    /// they may differ in those too.
    Pair,
    /// A pair with equal totals: the margin is zero.
    EqualPair,
    /// A pair whose totals differ by one of [`APART`], where T is above zero: else no settled place
    /// is left to set them apart.
    ApartPair,
    /// A pair with costs up to the ceiling: the margin may need three bytes.
    WidePair,
    /// A pair whose settled places lean T + 1 and T − 1 ways: one of the two is not near.
    UnevenPair,
    /// A pair with a third codeword at least distance from both, which is not near; it may cost less
    /// than they do. With twelve doubtful places all three are near.
    Trio,
    /// As `Wrong`, with costs at the ceiling; or with pinned seconds where gaps are smallest, so that
    /// table decoding does not pick the list; or a pair of which, where no place is blank, it finds the
    /// one that the list does not.
    Ceiling,
    /// As `Valid`, with some columns, or all, that are blank but for one cost; or all are blank.
    Level,
    /// Costs 0 to 2 only, some best costs equal.
    Tied,
    /// Costs that follow no codeword.
    Random,
}

pub const KINDS: [Kind; 13] = [
    Kind::Valid,
    Kind::Wrong,
    Kind::Beyond,
    Kind::Pair,
    Kind::EqualPair,
    Kind::ApartPair,
    Kind::WidePair,
    Kind::UnevenPair,
    Kind::Trio,
    Kind::Ceiling,
    Kind::Level,
    Kind::Tied,
    Kind::Random,
];

/// Margins on both sides of a byte's end, and zero beside one.
pub const APART: [u32; 8] = [0, 1, 2, 255, 256, 257, 4095, 64_000];

/// The rates of the numbered frames; those of [`crate::rates`] go round all.
pub const RATES: [u64; 2] = [39, 49];

/// Rates that there are not. Of those that a byte does not hold some have a known one in their low byte.
pub const UNKNOWN_RATES: [u64; 15] = [
    0,
    1,
    5,
    53,
    54,
    58,
    64,
    255,
    256 + 6,
    256 + 39,
    256 + 52,
    65535,
    (1 << 32) + 39,
    (1 << 63) + 20,
    u64::MAX,
];

/// One of them that is at most so large.
pub(crate) fn unknown_rate(most: u64, random: &mut Random) -> u64 {
    let held = UNKNOWN_RATES.into_iter().filter(|rate| *rate <= most);
    random.one_of(&held.collect::<Vec<u64>>())
}

/// One of all rates.
pub(crate) fn any_rate(random: &mut Random) -> u64 {
    random.between(LEAST_RATE as usize, MOST_RATE as usize) as u64
}

impl Kind {
    /// The kind of a numbered frame.
    pub fn numbered(number: u64) -> Kind {
        KINDS[number as usize % KINDS.len()]
    }
}

impl Frame {
    /// Frame `number` of a seed. In every second round through kinds and rates the frames have blank
    /// places, each time one more, from 1 to one too many.
    pub fn numbered(seed: u64, number: u64) -> Frame {
        let kind = Kind::numbered(number);
        let mut random = Random::new(seed, number);
        let number = number as usize;
        let rate = RATES[number / KINDS.len() % RATES.len()];
        let round = number / (KINDS.len() * RATES.len());
        let doubt = round % (DOUBT_LIMIT + 1);
        let blanks = match round % 2 {
            0 => 0,
            _ => 1 + round / 2 % (blank_limit(rate) + 1),
        };
        faded(kind, rate, doubt, blanks, &mut random)
    }
}

/// The most blank places at a rate that are not refused.
pub fn blank_limit(rate: u64) -> usize {
    Code::of_rate(rate).expect("a known rate").blank_limit()
}

/// A frame of a kind, with no blank place but where the kind has some.
pub fn frame(kind: Kind, rate: u64, doubt: usize, random: &mut Random) -> Frame {
    faded(kind, rate, doubt, 0, random)
}

/// A frame of a kind with so many blank places, some of them doubtful; there are more where all are
/// blank by the kind. Pairs and trios have eight doubtful places at least, and pairs with pinned seconds
/// four, whatever the doubt asked for.
pub fn faded(kind: Kind, rate: u64, doubt: usize, blanks: usize, random: &mut Random) -> Frame {
    let code = Code::of_rate(rate).expect("a known rate");
    if let Some(planted) = planted(kind, code, doubt, blanks, random) {
        return planted.frame;
    }
    let reach = code.reach_with(blanks).unwrap_or(0);
    let doubtful = some_places(doubt, random);
    let blank = fade(blanks, &doubtful, random);
    let sent = random_codeword(code, random);
    let spared = [&doubtful[..], &blank].concat();
    let around = |wrong, random: &mut Random| {
        let wrong = places_but(wrong, &spared, random);
        around(&sent, &doubtful, &wrong, random)
    };
    let mut columns = match kind {
        Kind::Wrong => around(random.between(0, reach), random),
        Kind::Beyond => around(reach + random.between(1, 4), random),
        Kind::Ceiling if random.once_in(2) => clipped(code, [&doubtful, &blank], reach, random),
        Kind::Ceiling => {
            let wrong = random.between(0, reach);
            around(wrong, random).map(|column| lifted(column, random))
        }
        Kind::Level => levelled(around(0, random), &sent, reach, random),
        Kind::Tied => sent.elements().map(|symbol| tied(symbol, random)),
        Kind::Random => {
            let limit = random.one_of(&[4, 1000, 65536]);
            [(); PLACES].map(|_| [(); 16].map(|_| random.below(limit) as u16))
        }
        _ => around(0, random),
    };
    for place in blank {
        columns[usize::from(place)] = blank_column(random);
    }
    Frame {
        rate,
        doubtful,
        columns,
    }
}

/// The frames between codewords. Those with equal totals have no blank place that is doubtful, so
/// that as many doubtful places lean each way.
fn planted(
    kind: Kind,
    code: &Code,
    doubt: usize,
    blanks: usize,
    random: &mut Random,
) -> Option<Planted> {
    let (rate, reach) = (code.symbols as u64, code.reach);
    let (doubt, distance) = (doubt.max(NEAR_DOUBT), PLACES - code.top);
    let mut differing = || match doubt > NEAR_DOUBT && random.once_in(2) {
        true => doubt.min(distance),
        false => NEAR_DOUBT,
    };
    let planted = match kind {
        Kind::Pair => pair_with(rate, differing(), reach, Gaps::Mixed, random),
        Kind::ApartPair => pair(rate, reach, Gaps::Mixed, random),
        Kind::EqualPair => pair(rate, reach, Gaps::Alike, random),
        Kind::WidePair => pair_with(rate, differing(), reach, Gaps::Wide, random),
        Kind::UnevenPair => pair(rate, reach + 1, Gaps::Mixed, random),
        Kind::Trio => trio(rate, doubt, Gaps::Mixed, random),
        Kind::Ceiling if random.once_in(8) => clipped_pair(rate, random),
        _ => return None,
    };
    let planted = match kind {
        Kind::Ceiling => planted,
        _ => planted.doubted(doubt, random),
    };
    let doubtful = kind != Kind::EqualPair && random.once_in(2);
    let planted = planted.faded(blanks, doubtful, random);
    let raisable = code.reach_with(blanks).is_some_and(|reach| reach > 0);
    if kind == Kind::ApartPair && raisable {
        return Some(planted.apart(random.one_of(&APART)));
    }
    Some(planted)
}

/// "Frame S(m), rate 39: at the first m of places 0, 10, 20, 30, 40, 50, 60, symbol 1 costs 0,
/// symbol 0 costs 30, others 40; elsewhere symbol 0 costs 0, others 40."
pub fn frame_s(m: usize) -> Columns {
    std::array::from_fn(|place| {
        let mut column = [40; 16];
        if place % 10 == 0 && place / 10 < m {
            column[1] = 0;
            column[0] = 30;
        } else {
            column[0] = 0;
        }
        column
    })
}

/// A strictly rising list of places.
pub fn some_places(count: usize, random: &mut Random) -> Vec<u8> {
    let mut places = random.shuffled(0..PLACES as u8);
    places.truncate(count);
    places.sort_unstable();
    places
}

pub fn random_codeword(code: &Code, random: &mut Random) -> Row {
    let message: Vec<u8> = (0..code.symbols).map(|_| random.symbol()).collect();
    code.codeword(&message)
}

/// A column with these two symbols first; it is the other way round where the gap is zero and the
/// second symbol smaller. Costs above the ceiling are cut to it.
pub(crate) fn column(best: u8, second: u8, gap: usize, random: &mut Random) -> Column {
    let low = random.below(500);
    let cut = |cost: usize| cost.min(usize::from(CEILING)) as u16;
    let mut column = [(); 16].map(|_| cut(low + gap + random.between(1, 300)));
    column[usize::from(best)] = low as u16;
    column[usize::from(second)] = cut(low + gap);
    column
}

/// "Fades deliver columns with all sixteen costs equal."
pub(crate) fn blank_column(random: &mut Random) -> Column {
    [random.one_of(&[0, 7, 300, CEILING - 1, CEILING]); 16]
}

/// So many places for a fade to blank: one after the other once in four, else any, of which each
/// number may be doubtful.
fn fade(count: usize, doubtful: &[u8], random: &mut Random) -> Vec<u8> {
    if count == 0 {
        return Vec::new();
    }
    if random.once_in(4) {
        let first = random.below(PLACES);
        let places = (first..first + count).map(|place| (place % PLACES) as u8);
        return places.collect();
    }
    let of_doubtful = random.between(0, count.min(doubtful.len()));
    let mut places = random.shuffled(doubtful.to_vec());
    places.truncate(of_doubtful);
    places.extend(places_but(count - of_doubtful, doubtful, random));
    places
}

/// So many places that are not among those spared.
fn places_but(count: usize, spared: &[u8], random: &mut Random) -> Vec<u8> {
    let others = (0..PLACES as u8).filter(|place| !spared.contains(place));
    random.shuffled(others)[..count].to_vec()
}

/// Columns around a codeword, with these of the settled places wrong.
fn around(sent: &Row, doubtful: &[u8], wrong: &[u8], random: &mut Random) -> Columns {
    std::array::from_fn(|place| {
        let symbol = sent.get(place);
        let other = random.other_symbol(symbol);
        let place = place as u8;
        if doubtful.contains(&place) {
            let (best, second) = doubted(symbol, other, random);
            let gap = random.between(0, DOUBTFUL_GAP);
            return column(best, second, gap, random);
        }
        let (best, second) = if wrong.contains(&place) {
            (other, random.other_symbol(other))
        } else {
            (symbol, other)
        };
        let gap = random.between(DOUBTFUL_GAP + 1, SETTLED_GAP);
        column(best, second, gap, random)
    })
}

/// Best and second at a doubtful place: the sent symbol is one of them, except once in ten.
fn doubted(symbol: u8, other: u8, random: &mut Random) -> (u8, u8) {
    if random.once_in(10) {
        let mut third = random.other_symbol(symbol);
        while third == other {
            third = random.other_symbol(symbol);
        }
        (other, third)
    } else if random.once_in(2) {
        (symbol, other)
    } else {
        (other, symbol)
    }
}

/// Half of the columns are lifted until the second cost is at the ceiling, a few until the best is
/// next to it, so that they do not become blank.
fn lifted(column: Column, random: &mut Random) -> Column {
    let to = |symbol: u8| CEILING - column[usize::from(symbol)];
    let most = to(best(&column)) - 1;
    let lift = match random.below(80) {
        0 => most,
        1..=40 => to(second(&column)).min(most),
        _ => 0,
    };
    column.map(|cost| cost.saturating_add(lift))
}

/// Columns around a codeword with symbol 0 at some doubtful places, where seconds are pinned: such a
/// second is symbol 0, unless that is best. Gaps are as small there as at the other doubtful places; as
/// many settled ones have the next larger gap, so that they are chosen instead. At some of both, and at
/// up to T other places, the sent symbol is not best. Once in four most settled places have pinned
/// seconds too.
fn clipped(
    code: &Code,
    [doubtful, blank]: [&[u8]; 2],
    reach: usize,
    random: &mut Random,
) -> Columns {
    let mut pinned = random.shuffled(doubtful.to_vec());
    pinned.truncate(random.between(1, DOUBT_LIMIT));
    let sent = codeword_with_zeros(code, &pinned, random);
    let mut leaning = places_but(pinned.len() + reach, &[doubtful, blank].concat(), random);
    let wrong = leaning.split_off(pinned.len());
    let wrong = &wrong[..random.between(0, reach)];
    let mut columns = around(&sent, doubtful, wrong, random);
    for (places, gap) in [(&pinned, DOUBTFUL_GAP), (&leaning, DOUBTFUL_GAP + 1)] {
        let wrong = random.between(0, places.len());
        for (number, place) in places.iter().map(|place| usize::from(*place)).enumerate() {
            let mut symbols = [sent.get(place), random.other_symbol(sent.get(place))];
            if number < wrong {
                symbols.reverse();
            }
            columns[place] = match gap {
                DOUBTFUL_GAP => clipped_column(symbols[0], gap, random),
                _ => column(symbols[0], symbols[1], gap, random),
            };
        }
    }
    if random.once_in(4) {
        leaning.truncate(random.between(0, leaning.len()));
        let open = [doubtful, wrong, &leaning].concat();
        for place in places_but(PLACES - open.len(), &open, random) {
            let place = usize::from(place);
            columns[place] = clipped_column(sent.get(place), usize::from(CEILING), random);
        }
    }
    columns
}

/// A codeword with symbol 0 at these places, fewer than k: one of a few is added to the others so that
/// they have it at a place, for each in turn.
pub(crate) fn codeword_with_zeros(code: &Code, places: &[u8], random: &mut Random) -> Row {
    let count = places.len() + 1;
    let mut words: Vec<Row> = (0..count).map(|_| random_codeword(code, random)).collect();
    for place in places.iter().map(|place| usize::from(*place)) {
        let Some(at) = words.iter().position(|word| word.get(place) != 0) else {
            continue;
        };
        let pivot = words.swap_remove(at);
        for word in &mut words {
            let scale = times(word.get(place), inverse(pivot.get(place)));
            word.add_scaled(scale, &pivot);
        }
    }
    words[0]
}

/// All costs but the best are at the ceiling, and the best is lower by at most so much.
pub(crate) fn clipped_column(best: u8, most: usize, random: &mut Random) -> Column {
    let mut column = [CEILING; 16];
    column[usize::from(best)] -= random.between(1, most) as u16;
    column
}

/// Some columns become blank but for one cost; once in eight all do, with the same costs, and once in
/// eight all become blank.
fn levelled(mut columns: Columns, sent: &Row, reach: usize, random: &mut Random) -> Columns {
    match random.below(8) {
        0 => return [blank_column(random); PLACES],
        1 => return [nearly_blank_column(0, random); PLACES],
        _ => (),
    }
    let count = random.between(1, reach + 4);
    for place in random.shuffled(0..PLACES).into_iter().take(count) {
        columns[place] = nearly_blank_column(sent.get(place), random);
    }
    columns
}

/// Fifteen equal costs; this symbol costs one less, or any symbol one more.
fn nearly_blank_column(symbol: u8, random: &mut Random) -> Column {
    let low = random.one_of(&[0, 6, 300, CEILING - 1]);
    if random.once_in(2) {
        let mut column = [low + 1; 16];
        column[usize::from(symbol)] = low;
        column
    } else {
        let mut column = [low; 16];
        column[random.below(16)] = low + 1;
        column
    }
}

/// The sent symbol costs 0; so does once in ten columns another one.
fn tied(symbol: u8, random: &mut Random) -> Column {
    let mut column = [(); 16].map(|_| random.between(1, 2) as u16);
    column[usize::from(symbol)] = 0;
    if random.once_in(10) {
        column[usize::from(random.other_symbol(symbol))] = 0;
    }
    column
}

#[cfg(test)]
mod tests {
    use super::*;
    use crate::decode::{decode, Answer};
    use crate::nearest::Finder;
    use crate::refusal::Refusal;
    use crate::soft::{blank_places, doubtful_places, gap, is_blank};

    const PLANTED: [Kind; 6] = [
        Kind::Pair,
        Kind::EqualPair,
        Kind::ApartPair,
        Kind::WidePair,
        Kind::UnevenPair,
        Kind::Trio,
    ];

    fn decoded(frame: &Frame) -> Result<Answer, Refusal> {
        let finder = Finder::of_rate(frame.rate).unwrap();
        decode(finder, &frame.columns, &frame.doubtful)
    }

    fn answers(kind: Kind, rate: u64, count: u64) -> Vec<Result<Answer, Refusal>> {
        let answer = |number| {
            let doubt = number as usize % (DOUBT_LIMIT + 1);
            decoded(&frame(kind, rate, doubt, &mut Random::new(30, number)))
        };
        (0..count).map(answer).collect()
    }

    /// The list, but for blank places, and others in their stead.
    #[test]
    fn table_decoding_picks_the_list_of_most_frames() {
        for number in 0..1500 {
            let frame = Frame::numbered(32, number);
            let otherwise = [Kind::Ceiling, Kind::Level, Kind::Tied, Kind::Random];
            if otherwise.contains(&Kind::numbered(number)) {
                continue;
            }
            let picked = doubtful_places(&frame.columns, frame.doubtful.len());
            let blank = blank_places(&frame.columns);
            let picks = |place: &u8| blank.contains(place) != picked.contains(place);
            assert!(frame.doubtful.iter().all(picks), "{number}");
            assert_eq!(picked.len(), frame.doubtful.len());
        }
    }

    /// Each kind at each rate comes with each number of blank places, from none to one too many.
    #[test]
    fn numbers_go_round_the_blank_places() {
        let mut seen = std::collections::BTreeSet::new();
        let mut doubtful = 0;
        for number in 0..26 * 28 {
            let frame = Frame::numbered(36, number);
            let blank = blank_places(&frame.columns);
            let kind = Kind::numbered(number);
            let round = number as usize / 26;
            let (limit, all) = (blank_limit(frame.rate), blank.len() == PLACES);
            let blanks = round % 2 * (1 + round / 2 % (limit + 1));
            assert!(blank.len() == blanks || kind == Kind::Level && all);
            seen.insert((number % 26, blanks));
            doubtful += u32::from(blank.iter().any(|place| frame.doubtful.contains(place)));
        }
        assert_eq!(seen.len(), 13 * (15 + 5));
        assert!(doubtful >= 100, "{doubtful}");
    }

    /// "More than 13 blanks at rate 39, more than 3 at rate 49" are refused. With fewer, no doubt and
    /// at most T wrong places the sent codeword comes back, with more none is near.
    #[test]
    fn kinds_answer_with_blank_places_as_without() {
        for rate in RATES {
            for blanks in 0..=blank_limit(rate) + 1 {
                for number in 0..20 {
                    let made = |kind| {
                        let mut random = Random::new(37, number);
                        let frame = faded(kind, rate, 0, blanks, &mut random);
                        assert_eq!(blank_places(&frame.columns).len(), blanks);
                        decoded(&frame)
                    };
                    if blanks > blank_limit(rate) {
                        for kind in PLANTED.into_iter().chain([Kind::Valid, Kind::Random]) {
                            assert_eq!(made(kind), Err(Refusal::TooBlank));
                        }
                        continue;
                    }
                    for kind in [Kind::Valid, Kind::Wrong, Kind::Ceiling] {
                        assert!(made(kind).is_ok());
                    }
                    assert_eq!(made(Kind::Beyond), Err(Refusal::NoneNear));
                    for kind in PLANTED {
                        let margin = made(kind).unwrap().margin;
                        assert_eq!(margin.is_none(), kind == Kind::UnevenPair);
                    }
                    assert_eq!(made(Kind::EqualPair).unwrap().margin, Some(0));
                }
            }
        }
    }

    /// Fifteen costs are equal, and the gap is zero or one.
    #[test]
    fn level_frames_have_columns_that_are_nearly_blank() {
        let (mut nearly, mut with_gap, mut all) = (0, 0, 0);
        for number in 0..200 {
            let frame = frame(Kind::Level, 39, 0, &mut Random::new(38, number));
            if frame.columns.iter().all(is_blank) {
                all += 1;
                continue;
            }
            for column in &frame.columns {
                let alike = |cost: &&u16| column.iter().filter(|c| c == cost).count();
                assert!(!is_blank(column));
                if column.iter().any(|cost| alike(&cost) == 15) && gap(column) < 2 {
                    nearly += 1;
                    with_gap += u32::from(gap(column) > 0);
                }
            }
        }
        assert!((10..50).contains(&all), "{all}");
        assert!(nearly >= 1000 && with_gap >= 200, "{nearly} {with_gap}");
    }

    #[test]
    fn kinds_answer_as_they_are_made_to() {
        for rate in RATES {
            let near = |kind| answers(kind, rate, 60).iter().flatten().count();
            assert!(near(Kind::Valid) >= 40);
            for kind in PLANTED {
                assert_eq!(near(kind), 60, "{kind:?}");
            }
            assert!(near(Kind::Wrong) >= 20);
            assert_eq!(near(Kind::Beyond), 0);
            assert!((10..60).contains(&near(Kind::Ceiling)));
            assert!((5..60).contains(&near(Kind::Level)));
            assert!((5..60).contains(&near(Kind::Tied)));
            let lifted = answers(Kind::Ceiling, rate, 60);
            let pinned = lifted.iter().flatten().filter(|a| a.pinned > 0);
            assert!(pinned.count() >= 5);
        }
    }

    /// Every sort of margin comes at rates 39 and 49, and only with two test words that have a codeword
    /// within T, of eight doubtful places, or with more of both.
    #[test]
    fn frames_have_every_sort_of_margin() {
        for rate in RATES {
            let margins = |kind| -> Vec<Option<u32>> {
                let answers = answers(kind, rate, 60).into_iter().flatten();
                answers.map(|answer| answer.margin).collect()
            };
            let those = |margins: &[Option<u32>], sort: fn(u32) -> bool| {
                margins.iter().flatten().filter(|m| sort(**m)).count()
            };
            for kind in KINDS {
                let margins = margins(kind);
                let expected = match kind {
                    Kind::UnevenPair => 0,
                    _ if PLANTED.contains(&kind) => 60,
                    _ => 0,
                };
                assert_eq!(those(&margins, |_| true), expected, "{kind:?}");
            }
            assert_eq!(those(&margins(Kind::EqualPair), |m| m == 0), 60);
            let apart = margins(Kind::ApartPair);
            assert!(APART.iter().all(|m| apart.contains(&Some(*m))));
            assert!(those(&margins(Kind::WidePair), |m| m > 65535) >= 6);
            assert!(those(&margins(Kind::Trio), |m| (1..=255).contains(&m)) >= 6);
        }
        for number in 0..390 {
            let frame = Frame::numbered(34, number);
            let Ok(answer) = decoded(&frame) else {
                continue;
            };
            if answer.margin.is_some() {
                assert!(frame.doubtful.len() >= NEAR_DOUBT);
                assert!(answer.tests == 2 || answer.tests > 2 && frame.doubtful.len() > NEAR_DOUBT);
            }
        }
    }
}

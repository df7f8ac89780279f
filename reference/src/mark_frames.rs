//! Frames for the mark, at every rate and on both sides of what decides it.
//!
//! - [`MarkKind`], [`Side`], [`MARK_SORTS`]: what a frame is made to try.
//! - [`MarkFrame`], [`MarkFrame::numbered`]: the number goes round the rates, the sorts and the doubts.
//! - [`MarkFrame::calls`]: a session that takes it and its capture.
//!
//! The answer is the codeword that a frame is made around. What it costs beyond the best symbols, the
//! excess, is drawn first; then the gaps of those unchanged places whose gaps are smallest are shared out so
//! that their sum, the slack, is the excess or one beside it.

use crate::call_lists::{delivery, opening};
use crate::calls::Call;
use crate::code::{Code, LEAST_RATE, RATE_COUNT};
use crate::curve::PLACES;
use crate::damage::capture_of;
use crate::decode::REPORT_BYTES;
use crate::frames::{blank_column, column, random_codeword, Frame, DOUBTFUL_GAP, SETTLED_GAP};
use crate::light::{light_weight, lightest};
use crate::random::Random;
use crate::row::Row;
use crate::soft::{doubtful_places, Column, Columns, CEILING, DOUBT_LIMIT};

/// What a frame is made to try. T is that of its number of blank places.
#[derive(Clone, Copy, Debug, PartialEq, Eq, PartialOrd, Ord)]
pub enum MarkKind {
    /// No place is changed.
    Clean,
    /// Up to T settled places are changed and any doubtful ones.
    Changed,
    /// The same, and another codeword at least distance differs where the gaps are smallest: it costs the
    /// slack more than the best symbols. It is not near.
    Rival,
    /// With blank places.
    Faded,
    /// The answer has pinned places, and the sums may need three bytes.
    Pinned,
    /// All unchanged places have pinned seconds: their gaps are small, and not as they count for choosing.
    Clipped,
    /// The gaps that are summed are zero.
    NoSlack,
    /// As many places are changed as codewords differ in, or more, so that no gap is summed. At rates
    /// above 41.
    NoneLeft,
}

/// The excess beside the slack.
#[derive(Clone, Copy, Debug, PartialEq, Eq, PartialOrd, Ord)]
pub enum Side {
    /// It is far smaller.
    Far,
    /// One smaller.
    Under,
    Equal,
    /// One larger.
    Over,
}

impl Side {
    pub fn is_marked(self) -> bool {
        self != Side::Over
    }

    /// The slack that is on this side of an excess.
    fn slack(self, excess: usize) -> usize {
        match self {
            Side::Over => excess - 1,
            Side::Under => excess + 1,
            Side::Far | Side::Equal => excess,
        }
    }
}

/// The sorts of frames.
pub const MARK_SORTS: [(MarkKind, Side); 20] = [
    (MarkKind::Clean, Side::Far),
    (MarkKind::Changed, Side::Under),
    (MarkKind::Changed, Side::Equal),
    (MarkKind::Changed, Side::Over),
    (MarkKind::Rival, Side::Under),
    (MarkKind::Rival, Side::Equal),
    (MarkKind::Rival, Side::Over),
    (MarkKind::Faded, Side::Under),
    (MarkKind::Faded, Side::Equal),
    (MarkKind::Faded, Side::Over),
    (MarkKind::Pinned, Side::Under),
    (MarkKind::Pinned, Side::Equal),
    (MarkKind::Pinned, Side::Over),
    (MarkKind::Clipped, Side::Under),
    (MarkKind::Clipped, Side::Equal),
    (MarkKind::Clipped, Side::Over),
    (MarkKind::NoSlack, Side::Equal),
    (MarkKind::NoSlack, Side::Over),
    (MarkKind::NoneLeft, Side::Equal),
    (MarkKind::NoneLeft, Side::Over),
];

/// Whether a rate has frames of a sort: blank places need one that there may be, pinned places and an
/// excess beside zero gaps a settled place that may be wrong.
pub fn has_sort(rate: u64, (kind, side): (MarkKind, Side)) -> bool {
    let code = code(rate);
    match (kind, side) {
        (MarkKind::Faded, _) => code.blank_limit() > 0,
        (MarkKind::Pinned, _) | (MarkKind::NoSlack, Side::Over) => code.reach > 0,
        (MarkKind::NoneLeft, _) => distance(code) <= code.reach + DOUBT_LIMIT,
        _ => true,
    }
}

/// Each rate goes round the sorts so many times, each time with other doubts.
pub const MARK_TURNS: usize = 4 * MARK_SORTS.len();

/// So many turns have each sort once.
pub const FEW_MARK_TURNS: usize = MARK_SORTS.len();

/// With no settled place wrong the gaps of doubtful places are in this range where they are changed, so
/// that their sum is enough for the others.
const WIDE_GAPS: (usize, usize) = (30, 60);

/// The most that a settled place costs beyond its best symbol, where it is not pinned.
const MOST_EXCESS: usize = 400;

/// The most that a gap is where the answer has pinned places.
const MOST_PINNED_GAP: usize = 60_000;

/// A frame around one codeword.
#[derive(Clone, Debug, PartialEq, Eq)]
pub struct MarkFrame {
    pub kind: MarkKind,
    pub side: Side,
    pub sent: Row,
    /// The other codeword, where there is one.
    pub rival: Option<Row>,
    pub frame: Frame,
}

impl MarkFrame {
    /// Frame `number` of a seed. A sort that the rate does not have is [`MarkKind::Changed`] there.
    pub fn numbered(seed: u64, number: u64) -> MarkFrame {
        let mut random = Random::new(seed, number);
        let rate = LEAST_RATE + number % RATE_COUNT as u64;
        let turn = number as usize / RATE_COUNT;
        let (kind, side) = MARK_SORTS[turn % MARK_SORTS.len()];
        let kind = match has_sort(rate, (kind, side)) {
            true => kind,
            false => MarkKind::Changed,
        };
        let doubt = (rate as usize + 5 * (turn / MARK_SORTS.len())) % (DOUBT_LIMIT + 1);
        MarkFrame::made(rate, (kind, side), doubt, &mut random)
    }

    /// A frame of a sort that the rate has. There may be more doubtful places than so many, where the sort
    /// needs them, or fewer.
    pub fn made(
        rate: u64,
        (kind, side): (MarkKind, Side),
        doubt: usize,
        random: &mut Random,
    ) -> MarkFrame {
        let draft = match kind {
            MarkKind::Clean => clean(code(rate), random),
            MarkKind::NoSlack => no_slack(code(rate), side, random),
            MarkKind::NoneLeft => none_left(code(rate), side, doubt, random),
            _ => Plan::of(code(rate), kind, doubt, random).draft(side, random),
        };
        let doubt = draft.doubt.unwrap_or(doubt);
        MarkFrame {
            kind,
            side,
            sent: draft.sent,
            rival: draft.rival,
            frame: Frame {
                rate,
                doubtful: doubtful_places(&draft.columns, doubt),
                columns: draft.columns,
            },
        }
    }

    pub fn doubt(&self) -> usize {
        self.frame.doubtful.len()
    }

    /// A session that is opened with the doubtful places, given all columns in random order and closed
    /// into reports that are one byte too short, one too long, and right; then its capture, opened and
    /// closed.
    pub fn calls(&self, random: &mut Random) -> Vec<Call> {
        let close = |report: usize| Call::Close {
            message: self.frame.rate as u16,
            report: report as u16,
        };
        let arrivals = random.shuffled(0..PLACES as u8);
        let mut calls = vec![opening(&self.frame)];
        calls.extend(arrivals.iter().map(|place| delivery(&self.frame, *place)));
        calls.extend([REPORT_BYTES - 1, REPORT_BYTES + 1, REPORT_BYTES].map(close));
        let capture = capture_of(&self.frame, &arrivals);
        calls.push(Call::OpenCapture { capture });
        calls.push(close(REPORT_BYTES));
        calls
    }
}

fn code(rate: u64) -> &'static Code {
    Code::of_rate(rate).expect("a known rate")
}

/// Two codewords differ in so many places at least.
fn distance(code: &Code) -> usize {
    PLACES - code.top
}

/// A frame without its doubtful places.
struct Draft {
    sent: Row,
    rival: Option<Row>,
    columns: Columns,
    /// How many are doubtful, where it is not for the caller to say.
    doubt: Option<usize>,
}

/// The sent symbol is best everywhere.
fn clean(code: &Code, random: &mut Random) -> Draft {
    let sent = random_codeword(code, random);
    let columns = sent.elements().map(|symbol| {
        let gap = random.between(1, SETTLED_GAP);
        column(symbol, random.other_symbol(symbol), gap, random)
    });
    Draft {
        sent,
        rival: None,
        columns,
        doubt: None,
    }
}

/// Up to T places are changed and have as little cost as the best symbol, or one of them has one more.
/// Every other place where a larger symbol is left has one of equal cost.
fn no_slack(code: &Code, side: Side, random: &mut Random) -> Draft {
    let least = usize::from(side == Side::Over);
    let wrong = random.between(least, code.reach);
    let sent = loop {
        let sent = random_codeword(code, random);
        let symbols = sent.elements();
        let smaller = symbols.iter().filter(|symbol| **symbol < 15).count();
        if smaller >= distance(code) && symbols.iter().filter(|s| **s > 0).count() >= wrong {
            break sent;
        }
    };
    let places = random.shuffled((0..PLACES).filter(|place| sent.get(*place) > 0));
    let mut columns: Columns = sent.elements().map(|symbol| match symbol {
        15 => column(15, random.below(15) as u8, SETTLED_GAP, random),
        _ => {
            let larger = random.between(usize::from(symbol) + 1, 15) as u8;
            column(symbol, larger, 0, random)
        }
    });
    for (number, place) in places.into_iter().take(wrong).enumerate() {
        let excess = usize::from(number == 0) * least;
        columns[place] = tied(sent.get(place), excess, random);
    }
    Draft {
        sent,
        rival: None,
        columns,
        doubt: None,
    }
}

/// So many places are changed that no gap is summed, each with as little cost as the best symbol, or one of
/// them with one more. Their gaps are the smallest, so that they are doubtful but for T at most.
fn none_left(code: &Code, side: Side, doubt: usize, random: &mut Random) -> Draft {
    let needed = distance(code) - code.reach;
    let doubt = doubt.max(needed);
    let changed = random.between(distance(code), code.reach + doubt);
    let (sent, places) = loop {
        let sent = random_codeword(code, random);
        let places = random.shuffled((0..PLACES).filter(|place| sent.get(*place) > 0));
        if places.len() >= changed {
            break (sent, places);
        }
    };
    let mut columns: Columns = sent.elements().map(|symbol| {
        let gap = random.between(DOUBTFUL_GAP + 1, SETTLED_GAP);
        column(symbol, random.other_symbol(symbol), gap, random)
    });
    for (number, place) in places.into_iter().take(changed).enumerate() {
        let excess = usize::from(number == 0 && side == Side::Over);
        columns[place] = tied(sent.get(place), excess, random);
    }
    Draft {
        sent,
        rival: None,
        columns,
        doubt: Some(doubt),
    }
}

/// A column whose best symbol is smaller than the one given, which costs so much more and is second.
fn tied(symbol: u8, excess: usize, random: &mut Random) -> Column {
    let best = random.below(usize::from(symbol)) as u8;
    column(best, symbol, excess, random)
}

/// What each place of a frame is.
struct Plan {
    kind: MarkKind,
    sent: Row,
    rival: Option<Row>,
    /// A symbol beside the sent one: the rival's where it has another one.
    other: [u8; PLACES],
    blank: Vec<usize>,
    /// Doubtful places where the sent symbol is second, and those where it is best.
    second: Vec<usize>,
    first: Vec<usize>,
    /// Settled places that are changed.
    wrong: Vec<usize>,
    /// All others: the rival differs at those in front.
    right: Vec<usize>,
    /// How many gaps are summed, with those of blank places.
    few: usize,
}

impl Plan {
    fn of(code: &Code, kind: MarkKind, doubt: usize, random: &mut Random) -> Plan {
        let limit = code.blank_limit();
        let blanks = match kind {
            MarkKind::Faded => random.one_of(&[1, limit.div_ceil(2), limit]),
            _ => 0,
        };
        let reach = code.reach_with(blanks).expect("not too many blank places");
        let wrong = random.between(reach.min(1), reach);
        let doubt = if wrong == 0 { doubt.max(1) } else { doubt };
        let (second, first) = match kind {
            // With more the rival would be near.
            MarkKind::Rival => (doubt.min(distance(code) - wrong - reach - 1), 0),
            _ => {
                let most = doubt.min(distance(code) - 1 - blanks - wrong);
                let second = random.between(usize::from(wrong == 0), most);
                (second, doubt - second)
            }
        };
        let sent = random_codeword(code, random);
        let mut other = sent.elements().map(|symbol| random.other_symbol(symbol));
        let mut places = random.shuffled(0..PLACES);
        let mut rival = None;
        if kind == MarkKind::Rival {
            let difference = lightest(code, random);
            let mut codeword = sent;
            codeword.add(&difference);
            rival = Some(codeword);
            places.sort_by_key(|place| difference.get(*place) == 0);
            for place in &places[..light_weight(code)] {
                other[*place] = codeword.get(*place);
            }
        }
        let mut take = |count: usize| places.drain(..count).collect::<Vec<usize>>();
        Plan {
            kind,
            sent,
            rival,
            other,
            blank: take(blanks),
            second: take(second),
            first: take(first),
            wrong: take(wrong),
            right: places,
            few: distance(code) - second - wrong,
        }
    }

    /// The columns of the plan, with the excess on one side of the slack.
    fn draft(self, side: Side, random: &mut Random) -> Draft {
        let Costs {
            second,
            first,
            wrong,
            right,
        } = self.costs(side, random);
        // Other places are not chosen as doubtful: their gaps are larger, or their seconds are pinned.
        let chosen = second.iter().chain(&first).max().copied().unwrap_or(0);
        let mut columns = [[0; 16]; PLACES];
        for place in &self.blank {
            columns[*place] = blank_column(random);
        }
        for (place, gap) in self.second.iter().zip(second) {
            columns[*place] = column(self.other[*place], self.sent.get(*place), gap, random);
        }
        for (place, gap) in self.first.iter().zip(first) {
            columns[*place] = column(self.sent.get(*place), self.other[*place], gap, random);
        }
        for (place, excess) in self.wrong.iter().zip(wrong) {
            columns[*place] = self.wrong_column(*place, excess, chosen, random);
        }
        for (number, place) in self.right.iter().enumerate() {
            let least = right.iter().max().copied().unwrap_or(0).max(chosen + 1);
            let any = random.between(least, least + SETTLED_GAP);
            let gap = right.get(number).copied().unwrap_or(any);
            columns[*place] = match gap <= chosen || self.kind == MarkKind::Clipped {
                true => pinned_second(self.sent.get(*place), gap),
                false => column(self.sent.get(*place), self.other[*place], gap, random),
            };
        }
        Draft {
            sent: self.sent,
            rival: self.rival,
            columns,
            doubt: Some(self.second.len() + self.first.len()),
        }
    }

    /// The excess first, then gaps whose sum is the slack.
    fn costs(&self, side: Side, random: &mut Random) -> Costs {
        let summed = self.few - self.blank.len();
        let among_first = summed.min(self.first.len());
        let among_right = summed - among_first;
        let shared = match among_right {
            0 => among_first,
            _ => among_right,
        };
        let (least, most) = match self.wrong.len() {
            0 => WIDE_GAPS,
            _ => (1, DOUBTFUL_GAP),
        };
        let mut gaps = |places: &[usize], least, most| -> Vec<usize> {
            let gap = |_| random.between(least, most);
            places.iter().map(gap).collect()
        };
        let second = gaps(&self.second, least, most);
        let mut first = match (among_right, self.wrong.len()) {
            (0, _) => Vec::new(),
            (_, 0) => gaps(&self.first, 1, 1),
            _ => gaps(&self.first, 1, DOUBTFUL_GAP),
        };
        let mut wrong = self.excesses(shared, second.iter().sum(), random);
        let fixed: usize = first.iter().sum();
        let excess: usize = second.iter().chain(&wrong).sum();
        let lacking = (fixed + shared + 1).saturating_sub(excess);
        if lacking > 0 {
            wrong[0] += lacking;
        }
        let shares = share(side.slack(excess + lacking) - fixed, shared, random);
        let mut right = Vec::new();
        if among_right > 0 {
            right = shares;
        } else {
            let most = shares.iter().max().copied().unwrap_or(0);
            first.extend(shares);
            let more = self.first.len() - first.len();
            first.extend((0..more).map(|_| random.between(most, most + DOUBTFUL_GAP)));
        }
        Costs {
            second,
            first,
            wrong,
            right,
        }
    }

    /// What the sent symbol costs beyond the best at each wrong place, where so many gaps, each below the
    /// ceiling, have to make up for them. With pinned places the excess is a number whose two low bytes are
    /// zero, if it can be, with what doubtful places add.
    fn excesses(&self, shared: usize, added: usize, random: &mut Random) -> Vec<usize> {
        if self.kind != MarkKind::Pinned {
            let excess = |_| random.between(DOUBTFUL_GAP + 1, MOST_EXCESS);
            return self.wrong.iter().map(excess).collect();
        }
        let most = MOST_PINNED_GAP * shared / self.wrong.len();
        let most = most.min(MOST_PINNED_GAP);
        let excess = |_| random.between(most / 2, most);
        let mut excesses: Vec<usize> = self.wrong.iter().map(excess).collect();
        let others = added + excesses[1..].iter().sum::<usize>();
        let round = (others + 1).next_multiple_of(1 << 16) - others;
        if round <= most {
            excesses[0] = round;
        }
        excesses
    }

    /// A settled place with another best symbol than the sent one.
    fn wrong_column(
        &self,
        place: usize,
        excess: usize,
        chosen: usize,
        random: &mut Random,
    ) -> Column {
        let (sent, best) = (self.sent.get(place), self.other[place]);
        if excess <= chosen {
            return pinned_second(best, excess);
        }
        let mut third = random.other_symbol(sent);
        while third == best {
            third = random.other_symbol(sent);
        }
        let gap = random.between(chosen + 1, excess);
        let mut column = column(best, third, gap, random);
        let cost = column[usize::from(best)] + excess as u16;
        column[usize::from(sent)] = cost;
        match self.kind {
            MarkKind::Pinned => column.map(|other| other.saturating_add(CEILING - cost)),
            _ => column,
        }
    }
}

/// The gaps of doubtful places, what the wrong ones cost beyond the best symbol, and the gaps of those
/// right ones that are summed.
struct Costs {
    second: Vec<usize>,
    first: Vec<usize>,
    wrong: Vec<usize>,
    right: Vec<usize>,
}

/// So many numbers above zero with this sum, which is no smaller than they are many.
fn share(sum: usize, count: usize, random: &mut Random) -> Vec<usize> {
    let mut shares: Vec<usize> = (0..count)
        .map(|number| sum / count + usize::from(number < sum % count))
        .collect();
    for _ in 0..count {
        let (from, to) = (random.below(count), random.below(count));
        let moved = random.below(shares[from]) / 2;
        if shares[to] + moved <= MOST_PINNED_GAP {
            shares[from] -= moved;
            shares[to] += moved;
        }
    }
    shares
}

/// All costs are at the ceiling but the best, which is so much lower.
fn pinned_second(best: u8, gap: usize) -> Column {
    let mut column = [CEILING; 16];
    column[usize::from(best)] -= gap as u16;
    column
}

#[cfg(test)]
mod tests {
    use super::*;
    use crate::code::rates;
    use crate::decode::decode;
    use crate::mark::Standing;
    use crate::mark_slips::{Sheet, MARK_SLIPS};
    use crate::nearest::Finder;
    use crate::soft::{blank_places, changed, is_second_pinned, pinned, total};
    use std::collections::BTreeSet;

    fn frames(turns: usize) -> impl Iterator<Item = MarkFrame> {
        (0..(RATE_COUNT * turns) as u64).map(|number| MarkFrame::numbered(120, number))
    }

    fn standing(frame: &MarkFrame) -> Standing {
        let sent = frame.sent.elements();
        Standing::of(code(frame.frame.rate), &frame.frame.columns, &sent)
    }

    /// The excess is beside the slack as it is made to be.
    #[test]
    fn frames_are_on_their_side() {
        let mut seen = BTreeSet::new();
        for frame in frames(MARK_TURNS) {
            let Standing { excess, slack } = standing(&frame);
            let beside = i64::from(excess) - i64::from(slack);
            let (kind, side) = (frame.kind, frame.side);
            match side {
                Side::Far => assert!(excess == 0 && slack > 0, "{frame:?}"),
                Side::Under => assert_eq!(beside, -1, "{frame:?}"),
                Side::Equal => assert_eq!(beside, 0, "{frame:?}"),
                Side::Over => assert_eq!(beside, 1, "{frame:?}"),
            }
            let bare = [MarkKind::NoSlack, MarkKind::NoneLeft].contains(&kind);
            assert_eq!(slack == 0, bare, "{frame:?}");
            seen.insert((frame.frame.rate, kind, side));
        }
        for rate in rates() {
            for (kind, side) in MARK_SORTS {
                let has = has_sort(rate, (kind, side));
                assert_eq!(has, seen.contains(&(rate, kind, side)), "{rate} {kind:?}");
            }
        }
    }

    /// The answer to a frame is the codeword that it is made around, by the table's choice of doubtful
    /// places, and its mark is that of the frame's side.
    #[test]
    fn frames_are_answered_as_they_are_made() {
        for frame in frames(FEW_MARK_TURNS) {
            let Frame {
                rate,
                doubtful,
                columns,
            } = &frame.frame;
            let answer = decode(Finder::of_rate(*rate).unwrap(), columns, doubtful);
            let answer = answer.unwrap_or_else(|refusal| panic!("{refusal:?} {frame:?}"));
            assert_eq!(code(*rate).codeword(&answer.message), frame.sent);
            assert_eq!(answer.marked, frame.side.is_marked());
            assert_eq!(answer.margin, None);
        }
    }

    /// Each kind has what it is named after.
    #[test]
    fn frames_are_of_their_kind() {
        for frame in frames(MARK_TURNS) {
            let Frame { rate, columns, .. } = &frame.frame;
            let sent = frame.sent.elements();
            let changed = usize::from(changed(columns, &sent));
            let pinned = pinned(columns, &sent);
            match frame.kind {
                MarkKind::Clean => assert_eq!(changed, 0),
                MarkKind::Faded => assert!(!blank_places(columns).is_empty()),
                MarkKind::Pinned => assert!(pinned > 0),
                MarkKind::Clipped => {
                    let clipped = columns.iter().filter(|column| is_second_pinned(column));
                    assert!(clipped.count() >= PLACES - DOUBT_LIMIT - code(*rate).reach);
                }
                MarkKind::NoneLeft => assert!(changed >= distance(code(*rate))),
                _ => assert!(changed < distance(code(*rate))),
            }
        }
    }

    /// A rival costs as much as the answer, or one less, where it differs in as few places as two codewords
    /// may; with one place more it costs more.
    #[test]
    fn rivals_cost_what_the_slack_says() {
        for frame in frames(MARK_TURNS) {
            let Some(rival) = frame.rival else {
                assert_ne!(frame.kind, MarkKind::Rival);
                continue;
            };
            let [answer, rival] = [frame.sent, rival]
                .map(|codeword| i64::from(total(&frame.frame.columns, &codeword.elements())));
            let code = code(frame.frame.rate);
            let beside = match frame.side {
                Side::Under => 1,
                Side::Equal => 0,
                _ => -1,
            };
            match light_weight(code) == distance(code) {
                true => assert_eq!(rival - answer, beside),
                false => assert!(rival - answer > beside),
            }
        }
    }

    /// Each wrong rule marks some of the frames otherwise, and the right one none.
    #[test]
    fn wrong_rules_are_told_apart() {
        let mut told = vec![0; MARK_SLIPS.len()];
        for frame in frames(MARK_TURNS) {
            let Frame { rate, columns, .. } = &frame.frame;
            let sheet = Sheet::of(code(*rate), columns, &frame.sent.elements());
            let marked = frame.side.is_marked();
            assert_eq!(sheet.is_marked(None), marked);
            for (slip, told) in MARK_SLIPS.into_iter().zip(&mut told) {
                *told += u32::from(sheet.is_marked(Some(slip)) != marked);
            }
        }
        for (slip, told) in MARK_SLIPS.into_iter().zip(told) {
            assert!(told >= 20, "{slip:?}: {told}");
        }
    }
}

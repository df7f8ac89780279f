//! Calls of table decoding with a threshold and a maximum, made at random around known codewords.
//!
//! - [`BelowCall`], [`BelowCall::numbered`]: call `number` of a seed; the even numbers go round the
//!   [`Edge`]s, the odd ones round the other kinds.
//! - [`BelowKind`], [`BELOW_KINDS`]: what a call is made to try.
//! - [`Edge`], [`edges`]: a place that decides the answer, by its rank and by its gap beside the
//!   threshold.
//! - [`THRESHOLDS`], [`MAXIMA`], [`OPEN`], [`SIZES`]: numbers that calls go round.

use crate::bits::column_of_bits;
use crate::channel::Channel;
use crate::code::Code;
use crate::curve::PLACES;
use crate::decode::{table_of_columns, REPORT_BYTES, TABLE_BYTES};
use crate::faults::{has, Fault, Faults, FAULT_SETS};
use crate::frames::{
    blank_column, blank_limit, codeword_with_zeros, faded, random_codeword, some_places,
    unknown_rate, Frame, Kind, DOUBTFUL_GAP, RATES, SETTLED_GAP,
};
use crate::random::Random;
use crate::row::Row;
use crate::soft::{by_gap, counted_gap, Column, Columns, CEILING, DOUBT_LIMIT};

/// Thresholds at both ends, and on both sides of a byte's end.
pub const THRESHOLDS: [u16; 11] = [
    0,
    1,
    2,
    10,
    255,
    256,
    257,
    1000,
    1 << 15,
    CEILING - 1,
    CEILING,
];

/// Maxima that are refused.
pub const MAXIMA: [u64; 7] = [0, TOO_MANY, TOO_MANY + 1, 255, 256, 256 + 3, u64::MAX];

/// The first maximum that is above the limit.
const TOO_MANY: u64 = DOUBT_LIMIT as u64 + 1;

/// Numbers of places that are not blank, where nearly all are: up to one more than the limit of doubt.
pub const OPEN: [usize; DOUBT_LIMIT + 2] = [0, 1, 2, 3, 4, 5, 6, 7, 8, 9, 10, 11, 12, 13];

/// Wrong sizes of a table; that of a frame of bit values is one.
pub const SIZES: [usize; 6] = [
    0,
    32,
    256,
    TABLE_BYTES - 1,
    TABLE_BYTES + 1,
    2 * TABLE_BYTES,
];

/// The number of the doubt among the faults.
const FROM_DOUBT: usize = 4;

/// What a call is made to try. T is that of its number of blank places.
#[derive(Clone, Copy, Debug, PartialEq, Eq, PartialOrd, Ord)]
pub enum BelowKind {
    /// One place, of a given rank and with a gap one below the threshold, at it or one above, has the
    /// sent symbol as its second, and T settled places are wrong: it is answered exactly if that place
    /// is chosen. Every third time any number up to T is wrong, so that the count of test words shows how
    /// many are chosen.
    Edge,
    /// A frame of any kind, with a threshold at one of its gaps or beside it.
    Frame,
    /// Pinned seconds, at all places or where gaps are smallest.
    Pinned,
    /// All places blank but a few, or one too many, or as many as there may be.
    Few,
    /// Sent through the channel, with a threshold of a few steps.
    Noise,
    /// Any of the faults together.
    Refused,
}

/// The kinds but for the edges, of which there are as many as of all others.
pub const BELOW_KINDS: [BelowKind; 5] = [
    BelowKind::Frame,
    BelowKind::Pinned,
    BelowKind::Few,
    BelowKind::Noise,
    BelowKind::Refused,
];

/// Where a gap is beside the threshold.
#[derive(Clone, Copy, Debug, PartialEq, Eq, PartialOrd, Ord)]
pub enum Side {
    OneBelow,
    At,
    OneAbove,
}

pub const SIDES: [Side; 3] = [Side::OneBelow, Side::At, Side::OneAbove];

impl Side {
    /// The gap on this side of a threshold; none where there is no such gap.
    fn gap(self, threshold: u16) -> Option<u16> {
        match self {
            Side::OneBelow => threshold.checked_sub(1),
            Side::At => Some(threshold),
            Side::OneAbove => threshold.checked_add(1),
        }
    }
}

/// The place that decides: so many places are ahead of it, of a maximum.
#[derive(Clone, Copy, Debug, PartialEq, Eq, PartialOrd, Ord)]
pub struct Edge {
    pub rate: u64,
    pub most: usize,
    pub rank: usize,
    pub side: Side,
}

impl Edge {
    /// The first is chosen, and of the others those that are below the threshold and within the maximum.
    pub fn chosen(&self) -> bool {
        self.rank == 0 || self.side == Side::OneBelow && self.rank < self.most
    }
}

/// Every edge: with each maximum the ranks up to the first that is too many.
pub fn edges() -> Vec<Edge> {
    let mut edges = Vec::new();
    for rate in RATES {
        for most in 1..=DOUBT_LIMIT {
            for rank in 0..=most {
                edges.extend(SIDES.map(|side| Edge {
                    rate,
                    most,
                    rank,
                    side,
                }));
            }
        }
    }
    edges
}

/// What the call is given, and the sizes of its lent buffers.
#[derive(Clone, Debug, PartialEq, Eq)]
pub struct BelowCall {
    pub kind: BelowKind,
    pub rate: u64,
    pub table: Vec<u8>,
    pub threshold: u16,
    pub most: u64,
    pub message: usize,
    pub report: usize,
    /// That of a call of the kind, where it alone decides whether there is an answer.
    pub edge: Option<Edge>,
    /// Those of a refused call.
    pub faults: Faults,
}

impl BelowCall {
    /// Call `number` of a seed.
    pub fn numbered(seed: u64, number: u64) -> BelowCall {
        let random = &mut Random::new(seed, number);
        let half = number as usize / 2;
        if number.is_multiple_of(2) {
            return edge_call(half, random);
        }
        let kind = BELOW_KINDS[half % BELOW_KINDS.len()];
        let round = half / BELOW_KINDS.len();
        let rate = RATES[round % RATES.len()];
        let round = round / RATES.len();
        match kind {
            BelowKind::Edge => edge_call(round, random),
            BelowKind::Frame => frame_call(random),
            BelowKind::Pinned => pinned_call(rate, round, random),
            BelowKind::Few => few_call(rate, round, random),
            BelowKind::Noise => noise_call(rate, round, random),
            BelowKind::Refused => refused_call(half / BELOW_KINDS.len(), random),
        }
    }

    pub fn has(&self, fault: Fault) -> bool {
        has(self.faults, fault)
    }
}

/// A call with nothing wrong but what the columns are.
fn right(kind: BelowKind, rate: u64, columns: &Columns, threshold: u16, most: usize) -> BelowCall {
    BelowCall {
        kind,
        rate,
        table: table_of_columns(columns),
        threshold,
        most: most as u64,
        message: rate as usize,
        report: REPORT_BYTES,
        edge: None,
        faults: 0,
    }
}

fn code(rate: u64) -> &'static Code {
    Code::of_rate(rate).expect("a known rate")
}

/// A maximum from 1 to the limit, by its turn.
fn maximum(round: usize) -> usize {
    1 + round % DOUBT_LIMIT
}

/// A column with these two symbols first and this gap, which counts as the ceiling where it is that:
/// then the second is the smallest other symbol. Of a gap of zero the best is the smaller symbol.
fn column_with_gap(best: u8, second: u8, gap: u16, random: &mut Random) -> Column {
    let mut column = [CEILING; 16];
    if gap == CEILING {
        column[usize::from(best)] -= random.one_of(&[1, 2, 300, CEILING / 2, CEILING]);
        return column;
    }
    let low = random.between(0, usize::from(CEILING - 1 - gap).min(500)) as u16;
    let second_cost = low + gap;
    let room = usize::from(CEILING - second_cost).min(300);
    for cost in &mut column {
        *cost = second_cost + random.between(1, room) as u16;
    }
    column[usize::from(best)] = low;
    column[usize::from(second)] = second_cost;
    column
}

/// Edge `number`, with each threshold in its turn that has a gap on its side.
fn edge_call(number: usize, random: &mut Random) -> BelowCall {
    let edges = edges();
    let edge = edges[number % edges.len()];
    let (gap, threshold) = (0..THRESHOLDS.len())
        .map(|turn| THRESHOLDS[(number / edges.len() + number + turn) % THRESHOLDS.len()])
        .find_map(|threshold| Some((edge.side.gap(threshold)?, threshold)))
        .expect("a threshold with this side");
    let code = code(edge.rate);
    let blanks = match random.below(4) {
        0 => random.between(1, code.blank_limit()),
        _ => 0,
    };
    let reach = code.reach_with(blanks).expect("not too many");
    let decides = number / edges.len() % 3 < 2;
    let wrong = match decides {
        true => reach,
        false => random.between(0, reach),
    };
    let gaps = gaps_around(gap, edge.rank, random.below(DOUBT_LIMIT + 2), random);
    let mut places = random.shuffled(0..PLACES as u8);
    if gap == CEILING {
        // All others tie with it, so that these have to be lower.
        places.sort_by_key(|place| usize::from(*place) >= gaps.len());
    }
    let (near, others) = places.split_at(gaps.len());
    let (wrong, others) = others.split_at(wrong);
    let mut order: Vec<(u16, u8)> = gaps.into_iter().zip(near.iter().copied()).collect();
    order.sort_unstable();
    let decider = order[edge.rank].1;
    let sent = sent_around(code, &order, decider, random);
    let far = usize::from(gap.max(threshold));
    let mut columns: Columns = std::array::from_fn(|place| {
        let symbol = sent.get(place);
        let gap = random.between(far + 1, far + SETTLED_GAP);
        let gap = gap.min(usize::from(CEILING)) as u16;
        let (best, second) = match wrong.contains(&(place as u8)) {
            true => other_two(symbol, random),
            false => (symbol, random.other_symbol(symbol)),
        };
        column_with_gap(best, second, gap, random)
    });
    for (gap, place) in &order {
        let at = usize::from(*place);
        let symbol = sent.get(at);
        columns[at] = match *place == decider {
            true => column_with_gap(before(symbol, *gap, random), symbol, *gap, random),
            false => column_with_gap(symbol, after(symbol, *gap, random), *gap, random),
        };
    }
    for place in others.iter().take(blanks) {
        columns[usize::from(*place)] = blank_column(random);
    }
    let mut call = right(BelowKind::Edge, edge.rate, &columns, threshold, edge.most);
    call.edge = decides.then_some(edge);
    call
}

/// Gaps of which so many are ahead of this one and so many behind it, by equal gaps too, each at most
/// three from it; half of the time none is equal where there is room.
fn gaps_around(gap: u16, ahead: usize, behind: usize, random: &mut Random) -> Vec<u16> {
    let tied = random.once_in(2);
    let apart = |most: u16, random: &mut Random| match most {
        0 => 0,
        _ if tied => random.between(0, usize::from(most.min(3))) as u16,
        _ => random.between(1, usize::from(most.min(3))) as u16,
    };
    let mut gaps = vec![gap];
    gaps.extend((0..ahead).map(|_| gap - apart(gap, random)));
    gaps.extend((0..behind).map(|_| gap + apart(CEILING - gap, random)));
    gaps
}

/// A codeword that has, at the place that decides, a symbol that can be second with this gap, and at
/// the other places of the order one that can be best.
fn sent_around(code: &Code, order: &[(u16, u8)], decider: u8, random: &mut Random) -> Row {
    let fits = |sent: &Row| {
        order.iter().all(|(gap, place)| {
            let symbol = sent.get(usize::from(*place));
            match (*gap, *place == decider) {
                (0, true) => symbol > 0,
                (0, false) => symbol < 15,
                _ => true,
            }
        })
    };
    let pinned = order.contains(&(CEILING, decider));
    loop {
        let sent = match pinned {
            true => codeword_with_zeros(code, &[decider], random),
            false => random_codeword(code, random),
        };
        if fits(&sent) {
            return sent;
        }
    }
}

/// A symbol that is best where this one is second with a gap.
fn before(second: u8, gap: u16, random: &mut Random) -> u8 {
    match gap {
        0 => random.below(usize::from(second)) as u8,
        _ => random.other_symbol(second),
    }
}

/// A symbol that is second where this one is best with a gap.
fn after(best: u8, gap: u16, random: &mut Random) -> u8 {
    match gap {
        0 => random.between(usize::from(best) + 1, 15) as u8,
        _ => random.other_symbol(best),
    }
}

/// Two symbols that are not the one sent.
fn other_two(sent: u8, random: &mut Random) -> (u8, u8) {
    let first = random.other_symbol(sent);
    loop {
        let second = random.other_symbol(first);
        if second != sent {
            return (first, second);
        }
    }
}

/// The threshold is the gap of some rank, or one more or less, or once in eight one of
/// [`THRESHOLDS`]; half of the time that rank is the maximum, so that as many are chosen.
fn frame_call(random: &mut Random) -> BelowCall {
    let frame = Frame::numbered(random.number(), random.below(1 << 20) as u64);
    let most = match random.below(3) {
        0 => random.between(1, DOUBT_LIMIT),
        _ => frame.doubtful.len().max(1),
    };
    let rank = match random.below(2) {
        0 => most,
        _ => random.below(DOUBT_LIMIT + 2),
    };
    let gaps = by_gap(&frame.columns, counted_gap);
    let gap = gaps
        .get(rank)
        .map(|place| counted_gap(&frame.columns[usize::from(*place)]));
    let threshold = match (random.below(8), gap) {
        (0, _) | (_, None) => random.one_of(&THRESHOLDS),
        (1, Some(gap)) => gap.saturating_sub(1),
        (2, Some(gap)) => gap.saturating_add(1),
        (_, Some(gap)) => gap,
    };
    right(
        BelowKind::Frame,
        frame.rate,
        &frame.columns,
        threshold,
        most,
    )
}

/// Half of the time every place that is not blank has a pinned second, so that the lowest is the
/// first, and alone; it has symbol 0 as its second, which is sent, and T others are wrong. Else pinned
/// seconds are where gaps are smallest, and the threshold is above those.
fn pinned_call(rate: u64, round: usize, random: &mut Random) -> BelowCall {
    let most = maximum(round);
    let code = code(rate);
    if random.once_in(2) {
        let doubt = random.between(1, DOUBT_LIMIT);
        let frame = faded(Kind::Ceiling, rate, doubt, 0, random);
        let above = random.between(DOUBTFUL_GAP, DOUBTFUL_GAP + 3) as u16;
        let threshold = random.one_of(&[above, above, SETTLED_GAP as u16 + 1, CEILING]);
        let most = random.one_of(&[most, doubt]);
        return right(BelowKind::Pinned, rate, &frame.columns, threshold, most);
    }
    let blanks = random.between(0, code.blank_limit());
    let reach = code.reach_with(blanks).expect("not too many");
    let all: Vec<u8> = (0..PLACES as u8).collect();
    let (blank, open) = match random.below(2) {
        0 => all.split_at(blanks),
        _ => {
            let (open, blank) = all.split_at(PLACES - blanks);
            (blank, open)
        }
    };
    let (first, others) = open.split_at(1);
    let wrong: Vec<u8> = random.shuffled(others.to_vec())[..random.between(0, reach)].to_vec();
    let sent = codeword_with_zeros(code, first, random);
    let wrong = [first, &wrong].concat();
    let mut columns: Columns = std::array::from_fn(|place| {
        let symbol = sent.get(place);
        let best = match wrong.contains(&(place as u8)) {
            true => random.other_symbol(symbol),
            false => symbol,
        };
        column_with_gap(best, symbol, CEILING, random)
    });
    for place in blank {
        columns[usize::from(*place)] = blank_column(random);
    }
    let threshold = random.one_of(&[0, 300, CEILING - 1, CEILING]);
    right(BelowKind::Pinned, rate, &columns, threshold, most)
}

/// So many places of a sent codeword are not blank, by turns as many as [`OPEN`] has, one too few and
/// as few as there may be.
fn few_call(rate: u64, round: usize, random: &mut Random) -> BelowCall {
    let least = PLACES - blank_limit(rate);
    let turn = round % (OPEN.len() + 2);
    let open = *OPEN.get(turn).unwrap_or(&(least + turn - OPEN.len() - 1));
    let sent = random_codeword(code(rate), random);
    let open = some_places(open, random);
    let columns = std::array::from_fn(|place| match open.contains(&(place as u8)) {
        true => {
            let symbol = sent.get(place);
            let gap = random.between(1, SETTLED_GAP) as u16;
            column_with_gap(symbol, random.other_symbol(symbol), gap, random)
        }
        false => blank_column(random),
    });
    let threshold = random.one_of(&THRESHOLDS);
    let most = random.between(1, DOUBT_LIMIT);
    right(BelowKind::Few, rate, &columns, threshold, most)
}

fn noise_call(rate: u64, round: usize, random: &mut Random) -> BelowCall {
    let channel = Channel::at(rate, random.between(16, 40) as f64 / 4.0);
    let sent = random_codeword(code(rate), random).elements();
    let columns = sent.map(|symbol| column_of_bits(channel.values(symbol, random)));
    let threshold = random.below(24) as u16;
    right(BelowKind::Noise, rate, &columns, threshold, maximum(round))
}

/// On a codeword that is else near each set of faults in its turn, and every second time a wrong maximum
/// with any of the faults that are told later.
fn refused_call(round: usize, random: &mut Random) -> BelowCall {
    let (set, turn_of_sets) = (round / 2 % FAULT_SETS, round / 2 / FAULT_SETS);
    let set = match round % 2 {
        0 => set,
        _ => (2 * random.below(FAULT_SETS) + 1) << FROM_DOUBT & (FAULT_SETS - 1),
    };
    let rate = RATES[(round + turn_of_sets) % RATES.len()];
    let code = code(rate);
    let sent = random_codeword(code, random);
    let threshold = random.one_of(&THRESHOLDS);
    let faults = set as Faults;
    let most = random.between(1, DOUBT_LIMIT);
    let wrong = if has(faults, Fault::Near) {
        code.reach + 1
    } else {
        0
    };
    let blank = if has(faults, Fault::Blank) {
        blank_limit(rate) + 1
    } else {
        0
    };
    let chosen = random.shuffled(0..PLACES);
    let mut columns: Columns = std::array::from_fn(|place| {
        let symbol = sent.get(place);
        let gap = random.between(1, SETTLED_GAP) as u16;
        let (best, second) = match chosen[..wrong].contains(&place) {
            true => other_two(symbol, random),
            false => (symbol, random.other_symbol(symbol)),
        };
        column_with_gap(best, second, gap, random)
    });
    for place in &chosen[wrong..wrong + blank] {
        columns[*place] = blank_column(random);
    }
    let mut call = right(BelowKind::Refused, rate, &columns, threshold, most);
    call.faults = faults;
    if call.has(Fault::Rate) {
        call.rate = unknown_rate(u64::MAX, random);
    }
    if call.has(Fault::Given) {
        // So a size comes with each of the sets of later faults.
        let later = set >> FROM_DOUBT;
        let size = SIZES[(later + turn_of_sets) % SIZES.len()];
        call.table.resize(size, 1);
    }
    if call.has(Fault::Message) {
        let other = RATES[usize::from(rate == RATES[0])] as usize;
        call.message = random.one_of(&[0, call.message - 1, call.message + 1, other]);
    }
    if call.has(Fault::Report) {
        call.report = random.one_of(&[0, 8, REPORT_BYTES - 1, REPORT_BYTES + 1, TABLE_BYTES]);
    }
    if call.has(Fault::Doubt) {
        call.most = MAXIMA[round / 2 % MAXIMA.len()];
    }
    call
}

#[cfg(test)]
mod tests {
    use super::*;
    use crate::decode::{columns_of_table, decode_table_below};
    use crate::faults::{first_fault, FAULTS};
    use crate::refusal::number;
    use crate::soft::{best, blank_places, doubtful_below, is_second_pinned, second};

    fn decoded(call: &BelowCall) -> u8 {
        let (mut message, mut report) = (vec![0; call.message], vec![0; call.report]);
        let result = decode_table_below(
            call.rate,
            &call.table,
            call.threshold,
            call.most,
            &mut message,
            &mut report,
        );
        number(&result)
    }

    fn calls(kind: BelowKind, count: u64) -> impl Iterator<Item = BelowCall> {
        let calls = (0..count).map(|number| BelowCall::numbered(150, number));
        calls.filter(move |call| call.kind == kind)
    }

    #[test]
    fn columns_have_the_gap_asked_for() {
        let mut random = Random::new(151, 0);
        for gap in [0, 1, 2, 299, 300, 500, 65_000, CEILING - 2, CEILING - 1] {
            for _ in 0..200 {
                let first = random.below(15) as u8;
                let other = random.between(usize::from(first) + 1, 15) as u8;
                let column = column_with_gap(first, other, gap, &mut random);
                assert_eq!((best(&column), second(&column)), (first, other));
                assert_eq!(counted_gap(&column), gap);
                assert!(!is_second_pinned(&column));
            }
        }
        let column = column_with_gap(5, 9, CEILING, &mut random);
        assert_eq!((best(&column), second(&column)), (5, 0));
        assert_eq!(counted_gap(&column), CEILING);
    }

    /// The place that decides is chosen, and then alone makes the sent codeword near.
    #[test]
    fn edges_decide() {
        let mut seen = std::collections::BTreeSet::new();
        let mut thresholds = std::collections::BTreeSet::new();
        for call in calls(BelowKind::Edge, 1600) {
            let Some(edge) = call.edge else {
                continue;
            };
            let expected = if edge.chosen() { 0 } else { 9 };
            assert_eq!(decoded(&call), expected, "{edge:?} {}", call.threshold);
            seen.insert(edge);
            thresholds.insert((call.threshold, edge.side));
        }
        assert_eq!(seen.len(), edges().len());
        assert_eq!(thresholds.len(), 3 * THRESHOLDS.len() - 2);
    }

    #[test]
    fn the_first_fault_is_refused() {
        assert_eq!(FAULTS[FROM_DOUBT].0, Fault::Doubt);
        let mut sets = std::collections::BTreeSet::new();
        for round in 0..4 * FAULT_SETS {
            let call = refused_call(round, &mut Random::new(152, round as u64));
            assert_eq!(decoded(&call), first_fault(call.faults), "{round}");
            sets.insert(call.faults);
        }
        assert_eq!(sets.len(), FAULT_SETS);
    }

    /// Answered exactly with as many blank places as there may be.
    #[test]
    fn few_places_are_too_few() {
        let mut seen = std::collections::BTreeSet::new();
        for call in calls(BelowKind::Few, 1200) {
            let open = PLACES - blank_places(&columns_of_table(&call.table)).len();
            let enough = open + blank_limit(call.rate) >= PLACES;
            assert_eq!(decoded(&call), if enough { 0 } else { 12 });
            seen.insert((call.rate, open));
        }
        assert_eq!(seen.len(), RATES.len() * (OPEN.len() + 2));
    }

    /// With pinned seconds alone the lowest place is the only one chosen.
    #[test]
    fn of_pinned_seconds_the_first_is_chosen() {
        let mut alone = 0;
        for call in calls(BelowKind::Pinned, 2000) {
            let columns = columns_of_table(&call.table);
            let open = by_gap(&columns, counted_gap);
            let pinned = |place: &&u8| is_second_pinned(&columns[usize::from(**place)]);
            if open.iter().filter(pinned).count() < open.len() {
                continue;
            }
            let chosen = doubtful_below(&columns, call.threshold, call.most as usize);
            assert_eq!(chosen, open[..1]);
            assert_eq!(decoded(&call), 0);
            alone += 1;
        }
        assert!(alone >= 60, "{alone}");
    }
}

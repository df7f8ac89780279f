//! The frames that are measured: the same calls for the proved library, this package and the count
//! of multiplications.
//!
//! - [`Case`], [`cases`]: one call, rate and doubt, and how the frames are damaged ([`Damage`]).
//! - [`Case::calls`]: its calls, from a fixed seed.
//! - [`Measured`]: one call's rate, doubt and bytes; [`Measured::bytes`]: as `bench/counted` reads it.
//! - [`Form`]: table decoding by doubt, or by threshold and maximum; [`Form::call`]: of a table.

use crate::bits::column_of_bits;
use crate::channel::Channel;
use crate::code::Code;
use crate::curve::PLACES;
use crate::decode::table_of_columns;
use crate::fades::{Fade, Left};
use crate::frames::{column, random_codeword, some_places, DOUBTFUL_GAP, RATES, SETTLED_GAP};
use crate::pairs::{pair, Gaps};
use crate::random::Random;
use crate::row::Row;
use crate::soft::{doubtful_below, doubtful_places, Columns, DOUBT_LIMIT};
use crate::worst::{worst, DRAWN_DOUBT};

/// The calls of a case.
pub const CALLS: u64 = 20;

/// The doubts that are measured.
pub const DOUBTS: [usize; 5] = [0, 3, 6, DRAWN_DOUBT, DOUBT_LIMIT];

const SEED: u64 = 9;

/// How many settled places have another symbol than the sent one as their best, or how the frames are
/// made otherwise.
#[derive(Clone, Copy, Debug, PartialEq, Eq)]
pub enum Damage {
    None,
    One,
    /// T places: as many as are always repaired.
    Reach,
    /// T + 1 places.
    Beyond,
    /// Those that noise makes wrong: BPSK over white Gaussian noise at an Eb/N0 in decibels, and the
    /// doubtful places as it falls out.
    Noise {
        decibels: u8,
    },
    /// Consecutive places of noise, with the smallest gaps, and no other wrong one.
    Fade {
        width: usize,
    },
    /// Two codewords at least distance that are both near, with eight doubtful places between them.
    Between,
    /// Those that cost most of all that a search has found.
    Worst,
}

/// At every doubt, at rates 39 and 49.
const DAMAGES: [Damage; 5] = [
    Damage::None,
    Damage::One,
    Damage::Reach,
    Damage::Beyond,
    Damage::Noise { decibels: 7 },
];

/// With no doubt and with eight doubtful places.
const FADES: [Damage; 4] = [
    Damage::Noise { decibels: 5 },
    Damage::Noise { decibels: 4 },
    Damage::Fade { width: 8 },
    Damage::Fade { width: 12 },
];

/// With eight doubtful places only, for which they are made.
const HARD: [Damage; 2] = [Damage::Between, Damage::Worst];

/// With the largest doubt, at rate 39.
const LARGEST: [Damage; 5] = [
    Damage::None,
    Damage::One,
    Damage::Reach,
    Damage::Beyond,
    Damage::Fade { width: 12 },
];

/// At other rates than those, after them.
const AT_OTHER_RATES: [(u64, usize, Damage); 10] = [
    (20, 0, Damage::One),
    (20, 0, Damage::Reach),
    (20, DRAWN_DOUBT, Damage::One),
    (20, DRAWN_DOUBT, Damage::Reach),
    (52, 0, Damage::None),
    (52, DRAWN_DOUBT, Damage::None),
    (52, DOUBT_LIMIT, Damage::None),
    (6, 0, Damage::One),
    (6, 0, Damage::Reach),
    (6, DRAWN_DOUBT, Damage::Reach),
];

impl Damage {
    /// Those that are measured with a doubt at a rate. At rate 49 one wrong place is T wrong places, and
    /// stands there once; with the largest doubt there are no others than that and none.
    fn measured(rate: u64, doubt: usize) -> Vec<Damage> {
        let mut damages = match doubt {
            0 => [&DAMAGES[..], &FADES].concat(),
            DRAWN_DOUBT => [&DAMAGES[..], &FADES, &HARD].concat(),
            DOUBT_LIMIT => LARGEST.to_vec(),
            _ => DAMAGES.to_vec(),
        };
        match (rate, doubt) {
            (39, _) => (),
            (_, DOUBT_LIMIT) => damages.retain(|d| [Damage::None, Damage::Reach].contains(d)),
            _ => damages.retain(|damage| *damage != Damage::One),
        }
        damages
    }
}

#[derive(Clone, Copy, Debug, PartialEq, Eq)]
pub enum Which {
    Encode,
    ReadBack,
    Table { doubt: usize, damage: Damage },
}

/// What is measured together: a row of the printed table.
#[derive(Clone, Copy, Debug)]
pub struct Case {
    pub rate: u64,
    pub which: Which,
}

/// One call: the message, word or table that it is given.
#[derive(Clone, Debug)]
pub struct Measured {
    pub letter: u8,
    pub rate: u64,
    /// The doubt, or the maximum.
    pub doubt: usize,
    /// Of a table that is decoded by threshold; else 0.
    pub threshold: u16,
    pub given: Vec<u8>,
}

/// How a table is decoded.
#[derive(Clone, Copy, Debug, PartialEq, Eq)]
pub enum Form {
    Doubt(usize),
    Below { threshold: u16, most: usize },
}

impl Form {
    /// The call that decodes a table so.
    pub fn call(self, rate: u64, table: Vec<u8>) -> Measured {
        let (letter, doubt, threshold) = match self {
            Form::Doubt(doubt) => (b'T', doubt, 0),
            Form::Below { threshold, most } => (b'L', most, threshold),
        };
        Measured {
            letter,
            rate,
            doubt,
            threshold,
            given: table,
        }
    }

    /// The places that are doubtful so.
    pub fn places(self, columns: &Columns) -> Vec<u8> {
        match self {
            Form::Doubt(doubt) => doubtful_places(columns, doubt),
            Form::Below { threshold, most } => doubtful_below(columns, threshold, most),
        }
    }
}

/// All cases.
pub fn cases() -> Vec<Case> {
    let mut cases = Vec::new();
    for rate in RATES {
        let mut add = |which| cases.push(Case { rate, which });
        add(Which::Encode);
        add(Which::ReadBack);
        for doubt in DOUBTS {
            for damage in Damage::measured(rate, doubt) {
                add(Which::Table { doubt, damage });
            }
        }
    }
    let others = AT_OTHER_RATES.map(|(rate, doubt, damage)| Case {
        rate,
        which: Which::Table { doubt, damage },
    });
    cases.extend(others);
    cases
}

impl Case {
    /// What the calls are, in words.
    pub fn name(&self) -> String {
        let reach = self.code().reach;
        match self.which {
            Which::Encode => "encode".to_string(),
            Which::ReadBack => "read back".to_string(),
            Which::Table { damage, .. } => match damage {
                Damage::None => "clean".to_string(),
                Damage::One => "1 wrong".to_string(),
                Damage::Reach => format!("{reach} wrong (T)"),
                Damage::Beyond => format!("{} wrong, none near", reach + 1),
                Damage::Noise { decibels } => format!("noise at {decibels} dB"),
                Damage::Fade { width } => format!("fade of {width}"),
                Damage::Between => "between two codewords".to_string(),
                Damage::Worst => "worst found".to_string(),
            },
        }
    }

    pub fn doubt(&self) -> Option<usize> {
        match self.which {
            Which::Table { doubt, .. } => Some(doubt),
            _ => None,
        }
    }

    /// The calls of the case, the same in every run.
    pub fn calls(&self) -> Vec<Measured> {
        let number = |call| self.rate << 32 | call;
        (0..CALLS)
            .map(|call| self.call(call as usize, &mut Random::new(SEED, number(call))))
            .collect()
    }

    fn code(&self) -> &'static Code {
        Code::of_rate(self.rate).expect("a known rate")
    }

    fn call(&self, number: usize, random: &mut Random) -> Measured {
        let code = self.code();
        let sent = random_codeword(code, random);
        let (letter, given) = match self.which {
            Which::Encode => (b'E', code.message(&sent).expect("a codeword")),
            Which::ReadBack => (b'B', sent.elements().to_vec()),
            Which::Table { doubt, damage } => {
                let columns = self.columns(&sent, doubt, damage, number, random);
                (b'T', table_of_columns(&columns))
            }
        };
        Measured {
            letter,
            rate: self.rate,
            doubt: self.doubt().unwrap_or(0),
            threshold: 0,
            given,
        }
    }

    /// The columns of a numbered call.
    fn columns(
        &self,
        sent: &Row,
        doubt: usize,
        damage: Damage,
        number: usize,
        random: &mut Random,
    ) -> Columns {
        let (rate, reach) = (self.rate, self.code().reach);
        match damage {
            Damage::None => around(sent, doubt, 0, random),
            Damage::One => around(sent, doubt, 1, random),
            Damage::Reach => around(sent, doubt, reach, random),
            Damage::Beyond => around(sent, doubt, reach + 1, random),
            Damage::Noise { decibels } => {
                let channel = Channel::at(rate, f64::from(decibels));
                let symbols = sent.elements();
                symbols.map(|symbol| column_of_bits(channel.values(symbol, random)))
            }
            Damage::Fade { width } => {
                let doubtful_and_blank = [doubt, 0];
                let fade = Fade::made(rate, width, Left::Noise, doubtful_and_blank, random);
                fade.frame.columns
            }
            Damage::Between => pair(rate, reach, Gaps::Mixed, random).frame.columns,
            Damage::Worst => worst(rate)[number].columns(),
        }
    }
}

impl Measured {
    /// The call as `bench/counted` reads it.
    pub fn bytes(&self) -> Vec<u8> {
        let mut bytes = vec![self.letter, self.rate as u8, self.doubt as u8];
        bytes.extend(self.threshold.to_be_bytes());
        bytes.extend((self.given.len() as u16).to_be_bytes());
        bytes.extend(&self.given);
        bytes
    }
}

/// Columns around a codeword: `wrong` of the settled places have another symbol as their best. The
/// `doubt` doubtful places have the smallest gaps, and the sent symbol as best or second: as second
/// in half of them, rounded down.
fn around(sent: &Row, doubt: usize, wrong: usize, random: &mut Random) -> Columns {
    let doubtful = some_places(doubt, random);
    let swapped = random.shuffled(doubtful.clone())[..doubt / 2].to_vec();
    let settled = (0..PLACES as u8).filter(|place| !doubtful.contains(place));
    let wrong = random.shuffled(settled)[..wrong].to_vec();
    std::array::from_fn(|place| {
        let symbol = sent.get(place);
        let other = random.other_symbol(symbol);
        let place = place as u8;
        if doubtful.contains(&place) {
            let gap = random.between(1, DOUBTFUL_GAP);
            if swapped.contains(&place) {
                return column(other, symbol, gap, random);
            }
            return column(symbol, other, gap, random);
        }
        let gap = random.between(DOUBTFUL_GAP + 1, SETTLED_GAP);
        if wrong.contains(&place) {
            return column(other, random.other_symbol(other), gap, random);
        }
        column(symbol, other, gap, random)
    })
}

#[cfg(test)]
mod tests {
    use super::*;
    use crate::decode::{columns_of_table, margin_of, REPORT_BYTES};
    use crate::soft::best;
    use crate::trials::REFERENCE_TABLE;

    /// The number returned, the message and the report.
    fn decoded(call: &Measured) -> (u8, Vec<u8>, Vec<u8>) {
        let (mut message, mut report) = (vec![0; call.rate as usize], vec![0; REPORT_BYTES]);
        let doubt = call.doubt as u64;
        let number = REFERENCE_TABLE(call.rate, &call.given, doubt, &mut message, &mut report);
        (number, message, report)
    }

    /// Test words with at most T wrong places, by the damage: all within T, or none.
    #[test]
    fn tables_are_near_as_they_are_made_to_be() {
        for case in cases() {
            let Which::Table { doubt, damage } = case.which else {
                continue;
            };
            let reach = case.code().reach;
            let wrong = match damage {
                Damage::None => 0,
                Damage::One => 1,
                Damage::Reach => reach,
                Damage::Beyond => reach + 1,
                _ => continue,
            };
            let near = (0..1u32 << doubt)
                .filter(|flips| wrong + flips.count_ones() as usize <= reach)
                .count();
            for call in case.calls().iter().take(3) {
                let (number, _, report) = decoded(call);
                let tests = usize::from(u16::from_be_bytes([report[4], report[5]]));
                assert_eq!((number, tests), (if near == 0 { 9 } else { 0 }, near));
            }
        }
    }

    /// Noise is heavier at fewer decibels; of two codewords both are near; fades have eight or twelve
    /// places.
    #[test]
    fn tables_are_as_hard_as_they_are_made_to_be() {
        let wrong = |call: &Measured| {
            let (number, message, _) = decoded(call);
            let columns = columns_of_table(&call.given);
            let code = Code::of_rate(call.rate).unwrap();
            let sent = code.codeword(&message);
            let wrong = (0..PLACES).filter(|place| best(&columns[*place]) != sent.get(*place));
            (number == 0).then(|| wrong.collect::<Vec<usize>>())
        };
        for case in cases() {
            let Which::Table { damage, .. } = case.which else {
                continue;
            };
            let calls = case.calls();
            let answered: Vec<Vec<usize>> = calls.iter().filter_map(wrong).collect();
            match damage {
                Damage::Between => {
                    let margin = |call| margin_of(&decoded(call).2);
                    assert!(calls.iter().all(|call| margin(call).is_some()));
                }
                Damage::Fade { width } => {
                    let spread = |wrong: &Vec<usize>| wrong[wrong.len() - 1] - wrong[0] < width;
                    assert!(answered.iter().all(spread));
                    assert!(answered.len() < CALLS as usize / 2);
                }
                Damage::Noise { decibels: 4 } => assert!(answered.len() < CALLS as usize),
                _ => (),
            }
        }
    }
}

//! Which frames, codewords, readings and captures of each rate are compared, and how often.
//!
//! - [`Sort`]: one thing that is counted; a frame is several of them.
//! - [`Part`]: one comparison, with the sorts that it has to try.
//! - [`RateCounts`]: the counts; [`RateCounts::check`] fails where a sort is missing, and where a frame
//!   does not come to what [`rule`] says, or a reading has a byte that it cannot have.

use std::collections::BTreeMap;
use std::fmt;

use crate::calls::Call;
use crate::capture::RATE_BYTE;
use crate::code::{rates, Code, LEAST_RATE};
use crate::curve::PLACES;
use crate::frames::{RATES, UNKNOWN_RATES};
use crate::least::{least, INTERPOLANT_BYTES, Q1_START};
use crate::rates::{far, rule, Lost, RateFrame, RateSlip, Wrong, LOST, RATE_SLIPS, WRONG};
use crate::session::Session;
use crate::soft::{best, is_blank, COLUMN_BYTES, DOUBT_LIMIT};

/// The first byte of a reading that it has not had with 17 orders of Q1.
const FIRST_NEW_BYTE: usize = Q1_START + 17;

/// What is counted.
#[derive(Clone, Copy, Debug, PartialEq, Eq, PartialOrd, Ord)]
pub enum Sort {
    /// A message encoded, a codeword read back, one with a single wrong symbol refused.
    Encoded {
        rate: u64,
    },
    ReadBack {
        rate: u64,
    },
    Altered {
        rate: u64,
    },
    /// A call refused because of its rate.
    Unknown {
        rate: u64,
    },
    /// A frame without blank places that came to a number, by rate, by doubt, and by both.
    Rate {
        rate: u64,
        wrong: Wrong,
        number: u8,
    },
    Doubt {
        doubt: usize,
        wrong: Wrong,
        number: u8,
    },
    Both {
        rate: u64,
        doubt: usize,
        wrong: Wrong,
        number: u8,
    },
    /// A frame with blank places, by their number, and by this and the rate.
    Lost {
        lost: Lost,
        number: u8,
    },
    LostAt {
        rate: u64,
        lost: Lost,
        number: u8,
    },
    /// A frame without doubt and blank places, refused with 9, with so many wrong places.
    Far {
        rate: u64,
        wrong: usize,
    },
    /// An answer with a margin.
    Margin {
        rate: u64,
    },
    /// A reading with so many places settled.
    Reading {
        rate: u64,
        settled: usize,
    },
    /// One whose last byte is not zero.
    LastByte,
    /// A capture of a rate.
    Written {
        rate: u64,
    },
    Opened {
        rate: u64,
    },
    LookedUp {
        rate: u64,
    },
    /// One with an unknown rate, whose opening or look-up was refused.
    NotOpened {
        rate: u64,
    },
    NotLookedUp {
        rate: u64,
    },
    /// Something that a wrong rule would make otherwise.
    Slip(RateSlip),
}

/// A comparison.
#[derive(Clone, Copy, Debug, PartialEq, Eq)]
pub enum Part {
    /// Encoding and reading back.
    Code,
    /// Calls with unknown rates, whatever else is compared.
    Unknown,
    /// Tables by doubt: each rate with each doubt.
    Tables,
    /// Tables by threshold, where one place at least is doubtful.
    Thresholds,
    Bits,
    Sessions,
    /// Captures that are shown.
    Shows,
}

impl Part {
    /// Every sort that the comparison has to try.
    fn wanted(self) -> Vec<Sort> {
        let mut wanted = Vec::new();
        if [Part::Code, Part::Unknown].contains(&self) {
            wanted.extend(UNKNOWN_RATES.map(|rate| Sort::Unknown { rate }));
        }
        match self {
            Part::Unknown => return wanted,
            Part::Code => {
                wanted.extend(rates().flat_map(|rate| {
                    let encoded = Sort::Encoded { rate };
                    [encoded, Sort::ReadBack { rate }, Sort::Altered { rate }]
                }));
                return wanted;
            }
            Part::Tables => wanted.extend(of_each_rate()),
            Part::Sessions => wanted.extend(of_sessions()),
            _ => (),
        }
        wanted.extend(of_frames());
        if self != Part::Bits {
            wanted.extend(rates().map(|rate| Sort::Margin { rate }));
        }
        if self != Part::Thresholds {
            let of_rate = |rate| far(rate).map(move |wrong| Sort::Far { rate, wrong });
            wanted.extend(rates().flat_map(of_rate));
        }
        // Some are those of two numbers of wrong places.
        wanted.sort_unstable();
        wanted.dedup();
        wanted
    }
}

/// The number that a frame comes to by its blank places and its wrong ones.
fn number_of(lost: Lost, wrong: Wrong) -> u8 {
    match (lost, wrong) {
        (Lost::TooMany, _) => 12,
        (_, Wrong::None | Wrong::Reach) => 0,
        _ => 9,
    }
}

/// Those of each comparison of frames.
fn of_frames() -> impl Iterator<Item = Sort> {
    WRONG.into_iter().flat_map(|wrong| {
        let number = number_of(Lost::None, wrong);
        let by_rate = rates().map(move |rate| Sort::Rate {
            rate,
            wrong,
            number,
        });
        let by_doubt = (0..=DOUBT_LIMIT).map(move |doubt| Sort::Doubt {
            doubt,
            wrong,
            number,
        });
        let lost = LOST.map(|lost| Sort::Lost {
            lost,
            number: number_of(lost, wrong),
        });
        by_rate.chain(by_doubt).chain(lost)
    })
}

/// Those where each rate comes with each doubt and each number of blank places.
fn of_each_rate() -> impl Iterator<Item = Sort> {
    let of_rate = |rate, wrong| {
        let number = number_of(Lost::None, wrong);
        let both = (0..=DOUBT_LIMIT).map(move |doubt| Sort::Both {
            rate,
            doubt,
            wrong,
            number,
        });
        both.chain(LOST.map(|lost| Sort::LostAt {
            rate,
            lost,
            number: number_of(lost, wrong),
        }))
    };
    let sorts = rates().flat_map(move |rate| WRONG.into_iter().flat_map(move |w| of_rate(rate, w)));
    let slips = RATE_SLIPS.into_iter().filter(|slip| slip.of_frames());
    sorts.chain(slips.map(Sort::Slip))
}

/// Those of openings, readings and captures.
fn of_sessions() -> Vec<Sort> {
    let mut wanted: Vec<Sort> = rates()
        .flat_map(|rate| (0..=PLACES).map(move |settled| Sort::Reading { rate, settled }))
        .collect();
    wanted.push(Sort::LastByte);
    for rate in rates() {
        wanted.extend([
            Sort::Written { rate },
            Sort::Opened { rate },
            Sort::LookedUp { rate },
        ]);
    }
    let held = |most: u64| UNKNOWN_RATES.into_iter().filter(move |rate| *rate <= most);
    wanted.extend(held(u64::from(u16::MAX)).map(|rate| Sort::Unknown { rate }));
    for rate in held(u64::from(u8::MAX)) {
        wanted.extend([Sort::NotOpened { rate }, Sort::NotLookedUp { rate }]);
    }
    let slips = RATE_SLIPS.into_iter().filter(|slip| !slip.of_frames());
    wanted.extend(slips.map(Sort::Slip));
    wanted
}

/// The counts, and what was against the rule.
#[derive(Clone, Debug, Default, PartialEq, Eq)]
pub struct RateCounts {
    counts: BTreeMap<Sort, u64>,
    against: Vec<String>,
}

impl RateCounts {
    /// Counts a call that encodes, or reads back a codeword with so many wrong symbols.
    pub fn count_coded(&mut self, rate: u64, wrong: Option<usize>, number: u8) {
        match (wrong, number) {
            (None, 0) => self.count(Sort::Encoded { rate }),
            (Some(0), 0) => self.count(Sort::ReadBack { rate }),
            (Some(1), 8) => self.count(Sort::Altered { rate }),
            _ => (),
        }
    }

    /// Counts a call by its rate, where that is refused.
    pub fn count_rate(&mut self, rate: u64, number: u8) {
        if number == 1 {
            self.count(Sort::Unknown { rate });
        }
    }

    /// Counts a frame that came to this number, with a margin or none.
    pub fn count_frame(&mut self, part: Part, frame: &RateFrame, number: u8, margin: Option<u32>) {
        let RateFrame {
            wrong,
            wrong_places,
            lost,
            blanks,
            ..
        } = *frame;
        let (rate, doubt) = (frame.frame.rate, frame.doubt());
        if margin.is_some() {
            self.count(Sort::Margin { rate });
        }
        let expected = rule(rate, blanks, wrong_places);
        if number != expected {
            self.against.push(format!(
                "{wrong_places} wrong and {blanks} blank places at rate {rate}, doubt {doubt}, come to \
                 {number} and not to {expected}"
            ));
        }
        if lost == Lost::None {
            self.count(Sort::Rate {
                rate,
                wrong,
                number,
            });
            self.count(Sort::Doubt {
                doubt,
                wrong,
                number,
            });
            self.count(Sort::Both {
                rate,
                doubt,
                wrong,
                number,
            });
            let is_far = matches!(wrong, Wrong::Far(_)) && number == 9;
            if is_far && part != Part::Thresholds {
                let wrong = wrong_places;
                self.count(Sort::Far { rate, wrong });
            }
        } else {
            self.count(Sort::Lost { lost, number });
            self.count(Sort::LostAt { rate, lost, number });
        }
        for slip in RATE_SLIPS {
            if slip.number(rate, blanks, wrong_places) != expected {
                self.count(Sort::Slip(slip));
            }
        }
    }

    /// Counts an opening, a reading, a look-up or a writing by its answer and the session after it.
    pub fn count_call(&mut self, call: &Call, answer: &[u8], after: &Session) {
        let rate = after.rate();
        match (call, answer[0]) {
            (Call::Open { rate, .. }, number) => {
                let rate = u64::from(*rate);
                self.count_rate(rate, number);
                let told = |slip: &RateSlip| slip.of_rates() && slip.knows(rate) != (number == 0);
                for slip in RATE_SLIPS.into_iter().filter(told) {
                    self.count(Sort::Slip(slip));
                }
            }
            (Call::OpenCapture { .. }, 0) => self.count(Sort::Opened { rate }),
            (Call::OpenCapture { capture }, 1) => {
                let rate = u64::from(capture[RATE_BYTE]);
                self.count(Sort::NotOpened { rate });
            }
            (Call::LookUp { capture, .. }, _) => {
                let rate = u64::from(capture[RATE_BYTE]);
                match usize::from(u16::from_be_bytes([answer[0], answer[1]])) {
                    COLUMN_BYTES => self.count(Sort::LookedUp { rate }),
                    _ => self.count(Sort::NotLookedUp { rate }),
                }
            }
            (Call::WriteCapture { .. }, 0) => self.count(Sort::Written { rate }),
            (Call::ReadInterpolant { .. }, 0) => self.count_reading(&answer[1..], after),
            _ => (),
        }
    }

    /// "Rates 39 and 49 give the answers they gave before, the reading with 16 zero bytes more."
    fn count_reading(&mut self, bytes: &[u8], session: &Session) {
        let rate = session.rate();
        let settled: Vec<(u8, u8)> = session
            .row()
            .iter()
            .filter(|(place, column)| !session.doubtful().contains(place) && !is_blank(column))
            .map(|(place, column)| (*place, best(column)))
            .collect();
        self.count(Sort::Reading {
            rate,
            settled: settled.len(),
        });
        let new = bytes[FIRST_NEW_BYTE..].iter().any(|byte| *byte != 0);
        let last = bytes[INTERPOLANT_BYTES - 1] != 0;
        if new && RATES.contains(&rate) || last && rate != LEAST_RATE {
            self.against.push(format!(
                "a reading at rate {rate} with {} places settled has Q1 {:x?}",
                settled.len(),
                &bytes[Q1_START..]
            ));
        }
        let of_39 = least(Code::of_rate(RATES[0]).expect("a known rate"), &settled);
        for (sort, came) in [
            (Sort::LastByte, last),
            (Sort::Slip(RateSlip::Q1To31), last),
            (Sort::Slip(RateSlip::Q1To16), new),
            (Sort::Slip(RateSlip::WeightOfRate39), of_39[..] != *bytes),
        ] {
            if came {
                self.count(sort);
            }
        }
    }

    fn count(&mut self, sort: Sort) {
        *self.counts.entry(sort).or_default() += 1;
    }

    pub fn add(&mut self, other: RateCounts) {
        for (sort, times) in other.counts {
            *self.counts.entry(sort).or_default() += times;
        }
        self.against.extend(other.against);
    }

    fn times(&self, sort: &Sort) -> u64 {
        self.counts.get(sort).copied().unwrap_or(0)
    }

    /// How often the sorts came that are so.
    fn came(&self, so: impl Fn(&Sort) -> bool) -> u64 {
        let came = self.counts.iter().filter(|(sort, _)| so(sort));
        came.map(|(_, times)| times).sum()
    }

    /// A line that says what was against the rule, or names the sorts that did not come.
    pub fn check(&self, part: Part) -> Result<(), String> {
        if let Some(first) = self.against.first() {
            let more = self.against.len() - 1;
            return Err(format!("{first}, and {more} more against the rule"));
        }
        let wanted = part.wanted();
        let missing: Vec<&Sort> = wanted.iter().filter(|s| self.times(s) == 0).collect();
        if missing.is_empty() {
            return Ok(());
        }
        let first: Vec<String> = missing.iter().take(5).map(|s| format!("{s:?}")).collect();
        Err(format!(
            "{} of {} sorts of rates are missing ({}): {}",
            missing.len(),
            wanted.len(),
            first.join(", "),
            self.line(part)
        ))
    }

    /// What a comparison has tried.
    pub fn line(&self, part: Part) -> String {
        Line { counts: self, part }.to_string()
    }
}

/// The counts of a comparison, to be printed.
struct Line<'a> {
    counts: &'a RateCounts,
    part: Part,
}

impl fmt::Display for Line<'_> {
    fn fmt(&self, out: &mut fmt::Formatter) -> fmt::Result {
        let Line { counts, part } = self;
        let wanted = part.wanted();
        let came = wanted.iter().filter(|s| counts.times(s) > 0).count();
        write!(out, "rates: {came} of {} sorts", wanted.len())?;
        match part {
            Part::Unknown => (),
            Part::Code => {
                let encoded = counts.came(|sort| matches!(sort, Sort::Encoded { .. }));
                let read_back = counts.came(|sort| matches!(sort, Sort::ReadBack { .. }));
                let altered = counts.came(|sort| matches!(sort, Sort::Altered { .. }));
                write!(
                    out,
                    "; {encoded} encoded, {read_back} read back, {altered} with one wrong symbol refused"
                )?;
            }
            _ => counts.write_frames(out)?,
        }
        if *part == Part::Sessions {
            counts.write_captures(out)?;
        }
        let unknown = counts.came(|sort| matches!(sort, Sort::Unknown { .. }));
        if unknown > 0 {
            write!(out, "; {unknown} refused with unknown rates")?;
        }
        let mut slips = wanted
            .iter()
            .filter(|sort| matches!(sort, Sort::Slip(_)))
            .peekable();
        if slips.peek().is_some() {
            write!(out, "; told from the wrong rules")?;
        }
        for sort in slips {
            if let Sort::Slip(slip) = sort {
                write!(out, " {slip:?}: {}", counts.times(sort))?;
            }
        }
        Ok(())
    }
}

impl RateCounts {
    fn write_frames(&self, out: &mut fmt::Formatter) -> fmt::Result {
        let names = ["none wrong", "T wrong", "T + 1 wrong"];
        for (of, name) in WRONG.into_iter().zip(names) {
            let came = |to: u8| {
                self.came(|sort| match sort {
                    Sort::Rate { wrong, number, .. } => *wrong == of && *number == to,
                    _ => false,
                })
            };
            let [answered, refused] = [0, 9].map(came);
            write!(out, "; {name} {answered} answered, {refused} refused")?;
        }
        let far = self.came(|sort| matches!(sort, Sort::Far { .. }));
        if far > 0 {
            write!(
                out,
                "; T + 1 to 63 − M − T wrong without doubt {far} refused"
            )?;
        }
        let margins = self.came(|sort| matches!(sort, Sort::Margin { .. }));
        if margins > 0 {
            write!(out, "; {margins} with a margin")?;
        }
        write!(out, "; with blank places")?;
        let names = ["one", "half", "one fewer", "as many as may be", "too many"];
        for (at, (of, name)) in LOST.into_iter().zip(names).enumerate() {
            let [answered, refused, too_blank] =
                [0, 9, 12].map(|number| self.times(&Sort::Lost { lost: of, number }));
            let mark = if at == 0 { "" } else { "," };
            write!(
                out,
                "{mark} {name} {answered} answered, {refused} refused with 9, {too_blank} with 12"
            )?;
        }
        Ok(())
    }

    fn write_captures(&self, out: &mut fmt::Formatter) -> fmt::Result {
        let readings = self.came(|sort| matches!(sort, Sort::Reading { .. }));
        let last = self.times(&Sort::LastByte);
        let written = self.came(|sort| matches!(sort, Sort::Written { .. }));
        let opened = self.came(|sort| matches!(sort, Sort::Opened { .. }));
        let looked_up = self.came(|sort| matches!(sort, Sort::LookedUp { .. }));
        let refused = self.came(|sort| matches!(sort, Sort::NotOpened { .. }));
        write!(
            out,
            "; {readings} readings, {last} of them with Q1 of order 32; captures {written} written, \
             {opened} opened, {looked_up} looked up, {refused} refused with unknown rates"
        )
    }
}

#[cfg(test)]
mod tests {
    use super::*;
    use crate::rates::{FEW_TURNS, TURNS};

    const PARTS: [Part; 7] = [
        Part::Code,
        Part::Unknown,
        Part::Tables,
        Part::Thresholds,
        Part::Bits,
        Part::Sessions,
        Part::Shows,
    ];

    /// A sort that is missing is named; every seventeenth is tried.
    #[test]
    fn every_sort_is_wanted() {
        for part in PARTS {
            let wanted = part.wanted();
            let counts: BTreeMap<Sort, u64> = wanted.iter().map(|sort| (*sort, 1)).collect();
            let full = RateCounts {
                counts,
                against: Vec::new(),
            };
            assert_eq!(full.check(part), Ok(()));
            for sort in full.counts.keys().step_by(17) {
                let mut few = full.clone();
                few.counts.remove(sort);
                let line = few.check(part).unwrap_err();
                let named = format!(" of {} sorts of rates are missing ({sort:?}", wanted.len());
                assert!(line.contains(&named), "{line}");
            }
            assert!(RateCounts::default().check(part).is_err());
        }
    }

    /// All turns of a seed, each frame with the number that the rule gives it, have every sort of tables;
    /// few turns those of the other comparisons.
    #[test]
    fn turns_have_every_sort_of_frames() {
        for (part, turns) in [
            (Part::Tables, TURNS),
            (Part::Thresholds, FEW_TURNS),
            (Part::Bits, FEW_TURNS),
            (Part::Shows, FEW_TURNS),
        ] {
            let mut counts = RateCounts::default();
            for number in 0..(rates().count() * turns) as u64 {
                let frame = RateFrame::numbered(95, number);
                let number = rule(frame.frame.rate, frame.blanks, frame.wrong_places);
                let margin = matches!(frame.wrong, Wrong::Two(_)).then_some(7);
                counts.count_frame(part, &frame, number, margin);
            }
            assert_eq!(counts.check(part), Ok(()));
            let frame = RateFrame::numbered(95, 0);
            counts.count_frame(part, &frame, 0, None);
            let line = counts.check(part).unwrap_err();
            assert!(line.contains("come to 0 and not to 9"), "{line}");
        }
    }
}

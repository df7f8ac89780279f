//! Which superframes are built and taken apart in a comparison, and how often.
//!
//! - [`Sort`]: one thing that is counted; a call is several of them.
//! - [`SuperCounts`]: the counts; [`SuperCounts::check`] fails where a sort is missing, and where a call does
//!   not come to what it is made for.

use std::collections::BTreeMap;
use std::fmt;

use crate::code::rates;
use crate::superframe::{SYMBOLS, WORDS};
use crate::superframe_calls::{Given, SuperAnswer, SuperCall};
use crate::superframe_slips::{SuperSlip, SUPER_SLIPS};
use crate::superframe_turns::{
    longest_burst, reach, rooms, unknown_bytes, Beyond, Flaw, Messages, Turn, BEYONDS, LENGTHS,
    MESSAGES, SIZES, SWEPT_RATE,
};

/// Each wrong rule is told so many times at least.
const TOLD: u64 = 40;

/// What is counted.
#[derive(Clone, Copy, Debug, PartialEq, Eq, PartialOrd, Ord)]
pub enum Sort {
    /// A call that builds, or takes apart, by its rate and number.
    Built {
        rate: u64,
        number: u8,
    },
    Taken {
        rate: u64,
        number: u8,
    },
    /// A superframe of such messages that was built and came back.
    Trip {
        rate: u64,
        messages: Messages,
    },
    /// So many consecutive symbols altered, and with this one the first of them.
    Burst {
        rate: u64,
        long: usize,
    },
    Start {
        rate: u64,
        start: usize,
    },
    /// As many as always come back, and they did.
    Repaired {
        rate: u64,
    },
    /// A word that was named, beyond repair in this way; all eight named; exactly these.
    Named {
        rate: u64,
        word: usize,
    },
    Beyond {
        rate: u64,
        beyond: Beyond,
    },
    All {
        rate: u64,
    },
    Status {
        rate: u64,
        status: u8,
    },
    /// A set of faults, or one alone, of building or of taking apart.
    BuildFaults {
        rate: u64,
        faults: u8,
    },
    Faults {
        rate: u64,
        faults: u8,
    },
    BuildFlaw(Flaw),
    Flaw(Flaw),
    /// A call that a wrong rule would have answered otherwise.
    Slip(SuperSlip),
}

/// Every sort that a comparison has to try, and how often.
fn wanted() -> Vec<(Sort, u64)> {
    let mut wanted = Vec::new();
    for rate in rates() {
        wanted.extend([0, 1, 2, 3].map(|number| (Sort::Built { rate, number }, 1)));
        wanted.extend([0, 14, 1, 2, 3].map(|number| (Sort::Taken { rate, number }, 1)));
        wanted.extend(MESSAGES.map(|messages| (Sort::Trip { rate, messages }, 1)));
        wanted.extend((1..8).map(|faults| (Sort::BuildFaults { rate, faults }, 1)));
        wanted.extend((1..64).map(|faults| (Sort::Faults { rate, faults }, 1)));
        let starts = match rate {
            SWEPT_RATE => SYMBOLS as u64,
            _ => WORDS as u64,
        };
        let longs = 0..=longest_burst(rate);
        wanted.extend(longs.map(|long| (Sort::Burst { rate, long }, starts)));
        wanted.push((Sort::Repaired { rate }, starts));
        wanted.extend((0..WORDS).map(|word| (Sort::Named { rate, word }, 1)));
        wanted.extend(BEYONDS.map(|beyond| (Sort::Beyond { rate, beyond }, 1)));
        wanted.push((Sort::All { rate }, 1));
        for room in rooms(rate) {
            let flaw = Flaw::Room(room);
            wanted.extend([(Sort::BuildFlaw(flaw), 1), (Sort::Flaw(flaw), 1)]);
        }
    }
    let rate = SWEPT_RATE;
    let longs = longest_burst(rate) as u64 + 1;
    wanted.extend((0..SYMBOLS).map(|start| (Sort::Start { rate, start }, longs)));
    wanted.extend((0..=u8::MAX).map(|status| (Sort::Status { rate, status }, 1)));
    for symbol in [16, 255] {
        let of_frame = (0..SYMBOLS).map(|at| Sort::Flaw(Flaw::Symbol { at, symbol }));
        wanted.extend(of_frame.map(|sort| (sort, 1)));
        let of_messages = (0..WORDS * rate as usize).map(|at| Flaw::Symbol { at, symbol });
        wanted.extend(of_messages.map(|flaw| (Sort::BuildFlaw(flaw), 1)));
    }
    for flaw in SIZES.map(Flaw::Size) {
        wanted.extend([(Sort::BuildFlaw(flaw), 1), (Sort::Flaw(flaw), 1)]);
    }
    for flaw in unknown_bytes().map(Flaw::Rate) {
        wanted.extend([(Sort::BuildFlaw(flaw), 1), (Sort::Flaw(flaw), 1)]);
    }
    let versions = (0..=u8::MAX).filter(|version| *version != 1);
    wanted.extend(versions.map(|version| (Sort::Flaw(Flaw::Version(version)), 1)));
    wanted.extend(LENGTHS.map(|length| (Sort::Flaw(Flaw::Length(length)), 1)));
    wanted.extend(SUPER_SLIPS.map(|slip| (Sort::Slip(slip), TOLD)));
    wanted.sort_unstable();
    wanted.dedup();
    wanted
}

/// The counts, and what was against the rule.
#[derive(Clone, Debug, Default, PartialEq, Eq)]
pub struct SuperCounts {
    counts: BTreeMap<Sort, u64>,
    against: Vec<String>,
}

impl SuperCounts {
    /// Counts a call that is answered so.
    pub fn count(&mut self, call: &SuperCall, answer: &SuperAnswer) {
        let turn = call.turn;
        let expected = call.expected();
        if *answer != expected {
            self.against.push(format!(
                "{turn:?} comes to {answer:x?} and not to {expected:x?}"
            ));
            return;
        }
        let (rate, number) = (turn.rate(), answer.number);
        match call.given {
            Given::Build { .. } => self.add_one(Sort::Built { rate, number }),
            Given::Take { .. } => self.add_one(Sort::Taken { rate, number }),
        }
        match turn {
            Turn::Build { messages, .. } => self.add_one(Sort::Trip { rate, messages }),
            Turn::BuildFaults { faults, .. } => self.add_one(Sort::BuildFaults { rate, faults }),
            Turn::BuildFlaw { flaw, .. } => self.add_one(Sort::BuildFlaw(flaw)),
            Turn::Faults { faults, .. } => self.add_one(Sort::Faults { rate, faults }),
            Turn::Flaw { flaw, .. } => self.add_one(Sort::Flaw(flaw)),
            Turn::Burst { long, start, .. } => self.count_burst(rate, long, start),
            Turn::Beyond { words, beyond, .. } if words != 0 => {
                self.add_one(Sort::Beyond { rate, beyond });
            }
            Turn::Beyond { .. } => (),
        }
        if let (Given::Take { .. }, 0, Some(status)) = (&call.given, number, answer.status) {
            self.count_status(rate, status);
        }
        for slip in SUPER_SLIPS {
            if slip.told(call, answer) {
                self.add_one(Sort::Slip(slip));
            }
        }
    }

    fn count_burst(&mut self, rate: u64, long: usize, start: usize) {
        self.add_one(Sort::Burst { rate, long });
        self.add_one(Sort::Start { rate, start });
        if long == WORDS * reach(rate) {
            self.add_one(Sort::Repaired { rate });
        }
    }

    fn count_status(&mut self, rate: u64, status: u8) {
        for word in (0..WORDS).filter(|word| status >> word & 1 == 1) {
            self.add_one(Sort::Named { rate, word });
        }
        if status == u8::MAX {
            self.add_one(Sort::All { rate });
        }
        self.add_one(Sort::Status { rate, status });
    }

    fn add_one(&mut self, sort: Sort) {
        *self.counts.entry(sort).or_default() += 1;
    }

    pub fn add(&mut self, other: SuperCounts) {
        for (sort, times) in other.counts {
            *self.counts.entry(sort).or_default() += times;
        }
        self.against.extend(other.against);
    }

    fn times(&self, sort: &Sort) -> u64 {
        self.counts.get(sort).copied().unwrap_or(0)
    }

    /// How often the sorts came that are so.
    fn came(&self, so: impl Fn(&Sort) -> bool) -> u64 {
        let came = self.counts.iter().filter(|(sort, _)| so(sort));
        came.map(|(_, times)| times).sum()
    }

    /// A line that says what was against the rule, or names the sorts that came too seldom.
    pub fn check(&self) -> Result<(), String> {
        if let Some(first) = self.against.first() {
            let more = self.against.len() - 1;
            return Err(format!("{first}, and {more} more against the rule"));
        }
        let wanted = wanted();
        let seldom = wanted
            .iter()
            .filter(|(sort, least)| self.times(sort) < *least);
        let seldom: Vec<&Sort> = seldom.map(|(sort, _)| sort).collect();
        if seldom.is_empty() {
            return Ok(());
        }
        let first: Vec<String> = seldom.iter().take(5).map(|s| format!("{s:?}")).collect();
        Err(format!(
            "{} of {} sorts of superframes came too seldom ({}): {self}",
            seldom.len(),
            wanted.len(),
            first.join(", ")
        ))
    }
}

impl fmt::Display for SuperCounts {
    fn fmt(&self, out: &mut fmt::Formatter) -> fmt::Result {
        let wanted = wanted();
        let came = wanted.iter().filter(|(s, least)| self.times(s) >= *least);
        write!(out, "{} of {} sorts", came.count(), wanted.len())?;
        let built = |of| self.came(|s| matches!(s, Sort::Built { number, .. } if *number == of));
        let trips = self.came(|sort| matches!(sort, Sort::Trip { .. }));
        write!(out, "; built {}, back {trips}, refused", built(0))?;
        for (at, number) in [1, 2, 3].into_iter().enumerate() {
            let mark = if at == 0 { "" } else { "," };
            write!(out, "{mark} with {number} {}", built(number))?;
        }
        let taken = |of| self.came(|s| matches!(s, Sort::Taken { number, .. } if *number == of));
        write!(out, "; taken apart {}, refused", taken(0))?;
        for (at, number) in [14, 1, 2, 3].into_iter().enumerate() {
            let mark = if at == 0 { "" } else { "," };
            write!(out, "{mark} with {number} {}", taken(number))?;
        }
        self.write_words(out)?;
        self.write_faults(out)?;
        write!(out, "; told from the wrong rules")?;
        for slip in SUPER_SLIPS {
            write!(out, " {slip:?}: {}", self.times(&Sort::Slip(slip)))?;
        }
        Ok(())
    }
}

impl SuperCounts {
    fn write_words(&self, out: &mut fmt::Formatter) -> fmt::Result {
        let bursts = self.came(|sort| matches!(sort, Sort::Burst { .. }));
        let swept = self.came(|s| matches!(s, Sort::Burst { rate, .. } if *rate == SWEPT_RATE));
        let most = self.came(|sort| matches!(sort, Sort::Repaired { .. }));
        let beyond = self.came(|sort| matches!(sort, Sort::Beyond { .. }));
        let named = self.came(|sort| matches!(sort, Sort::Named { .. }));
        let all = self.came(|sort| matches!(sort, Sort::All { .. }));
        write!(
            out,
            "; bursts {bursts}, {swept} of them at rate {SWEPT_RATE}, {most} of as many symbols as always \
             come back; frames with words beyond repair beside them {beyond}; words named"
        )?;
        for of in 0..WORDS {
            let times = self.came(|sort| matches!(sort, Sort::Named { word, .. } if *word == of));
            write!(out, " {of}: {times}")?;
        }
        write!(out, ", {named} in all, all eight {all} times")
    }

    fn write_faults(&self, out: &mut fmt::Formatter) -> fmt::Result {
        let of_build = self.came(|sort| matches!(sort, Sort::BuildFaults { .. }));
        let of_take = self.came(|sort| matches!(sort, Sort::Faults { .. }));
        write!(
            out,
            "; sets of faults {of_build} and {of_take}; one fault alone"
        )?;
        for (at, name) in FLAWS.into_iter().enumerate() {
            let times = self.came(|sort| match sort {
                Sort::BuildFlaw(flaw) | Sort::Flaw(flaw) => name_of(flaw) == name,
                _ => false,
            });
            write!(out, "{} {name} {times}", if at == 0 { "" } else { "," })?;
        }
        Ok(())
    }
}

const FLAWS: [&str; 6] = [
    "sizes", "versions", "lengths", "rates", "buffers", "symbols",
];

fn name_of(flaw: &Flaw) -> &'static str {
    match flaw {
        Flaw::Size(_) => FLAWS[0],
        Flaw::Version(_) => FLAWS[1],
        Flaw::Length(_) => FLAWS[2],
        Flaw::Rate(_) => FLAWS[3],
        Flaw::Room(_) => FLAWS[4],
        Flaw::Symbol { .. } => FLAWS[5],
    }
}

#[cfg(test)]
mod tests {
    use super::*;
    use crate::superframe_turns::turns;

    /// The counts of all calls, if each comes to what it is made for; and without one sort of them.
    #[test]
    fn all_calls_have_every_sort() {
        let mut counts = SuperCounts::default();
        for number in 0..turns().len() as u64 {
            let call = SuperCall::numbered(167, number);
            counts.count(&call, &call.expected());
        }
        assert_eq!(counts.check(), Ok(()));
        for (sort, least) in wanted().into_iter().step_by(101) {
            let mut without = counts.clone();
            without.counts.insert(sort, least - 1);
            let line = without.check().unwrap_err();
            assert!(line.contains(&format!("too seldom ({sort:?})")), "{line}");
        }
    }

    #[test]
    fn a_wrong_answer_is_against_the_rule() {
        let call = SuperCall::numbered(168, 0);
        let mut answer = call.expected();
        answer.bytes[515] ^= 1;
        let mut counts = SuperCounts::default();
        counts.count(&call, &answer);
        let line = counts.check().unwrap_err();
        assert!(line.contains("0 more against the rule"), "{line}");
    }
}

//! Which captures of both versions are tried where openings, look-ups and writings are compared, and how
//! often.
//!
//! - [`Sort`]: one thing that is counted.
//! - [`VersionCounts`]: the counts; [`VersionCounts::check`] fails where a sort is missing.

use std::collections::BTreeMap;
use std::fmt;

use crate::calls::Call;
use crate::capture::{FIRST_VERSION_DOUBT, SMALLEST, VERSIONS};
use crate::soft::{COLUMN_BYTES, DOUBT_LIMIT};
use crate::versions::{faults_of, first_number, spoils, Spoil, VersionSlip, VERSION_SLIPS};

/// What is counted.
#[derive(Clone, Debug, PartialEq, Eq, PartialOrd, Ord)]
pub enum Sort {
    /// A capture of this size with these faults, refused by the first of them or, if there are none,
    /// opened.
    Opened(Spoil),
    /// The same with a place below 64 looked up: refused, or its column handed back.
    LookedUp(Spoil),
    /// A capture written with so many doubtful places.
    Written { doubt: usize },
    /// A capture opened or written that a wrong rule would have refused or made otherwise.
    Slip(VersionSlip),
}

/// Where captures are compared.
#[derive(Clone, Copy, Debug, PartialEq, Eq)]
pub enum By {
    /// In lists of calls, which open, look up and write.
    Lists,
    /// By a program that opens.
    Openings,
}

/// Every sort that a comparison has to try.
fn wanted(by: By) -> Vec<Sort> {
    let mut wanted: Vec<Sort> = spoils().into_iter().map(Sort::Opened).collect();
    let slips = VERSION_SLIPS.into_iter().map(Sort::Slip);
    match by {
        By::Lists => {
            wanted.extend(spoils().into_iter().map(Sort::LookedUp));
            wanted.extend((0..=DOUBT_LIMIT).map(|doubt| Sort::Written { doubt }));
            wanted.extend(slips);
        }
        By::Openings => {
            wanted.extend(slips.filter(|slip| *slip != Sort::Slip(VersionSlip::AlwaysOne)));
        }
    }
    wanted
}

/// The counts.
#[derive(Clone, Debug, Default, PartialEq, Eq)]
pub struct VersionCounts(BTreeMap<Sort, u64>);

impl VersionCounts {
    /// Counts an opening that came to this number.
    pub fn count_opening(&mut self, capture: &[u8], number: u8) {
        let faults = faults_of(capture);
        if number != first_number(&faults) {
            return;
        }
        let size = capture.len();
        self.count(Sort::Opened(Spoil { size, faults }));
        for slip in VERSION_SLIPS {
            if slip.number(capture) != number {
                self.count(Sort::Slip(slip));
            }
        }
    }

    /// Counts an opening, a look-up or a writing by its answer.
    pub fn count_call(&mut self, call: &Call, answer: &[u8]) {
        match call {
            Call::OpenCapture { capture } => self.count_opening(capture, answer[0]),
            Call::LookUp { place, capture } if *place < 64 => {
                let faults = faults_of(capture);
                let part = u16::from_be_bytes([answer[0], answer[1]]);
                if faults.is_empty() == (usize::from(part) == COLUMN_BYTES) {
                    let size = capture.len();
                    self.count(Sort::LookedUp(Spoil { size, faults }));
                }
            }
            Call::WriteCapture { size } if answer[0] == 0 => {
                let doubt = usize::from(*size) - SMALLEST;
                self.count(Sort::Written { doubt });
                for slip in VERSION_SLIPS {
                    if slip.version(doubt) != answer[1] {
                        self.count(Sort::Slip(slip));
                    }
                }
            }
            _ => (),
        }
    }

    fn count(&mut self, sort: Sort) {
        *self.0.entry(sort).or_default() += 1;
    }

    pub fn add(&mut self, other: VersionCounts) {
        for (sort, times) in other.0 {
            *self.0.entry(sort).or_default() += times;
        }
    }

    fn times(&self, sort: &Sort) -> u64 {
        self.0.get(sort).copied().unwrap_or(0)
    }

    /// How often the sorts came that are so.
    fn came(&self, so: impl Fn(&Sort) -> bool) -> u64 {
        let came = self.0.iter().filter(|(sort, _)| so(sort));
        came.map(|(_, times)| times).sum()
    }

    /// A line that names the sorts that did not come.
    pub fn check(&self, by: By) -> Result<(), String> {
        let wanted = wanted(by);
        let missing: Vec<&Sort> = wanted.iter().filter(|s| self.times(s) == 0).collect();
        if missing.is_empty() {
            return Ok(());
        }
        let first: Vec<String> = missing.iter().take(5).map(|s| format!("{s:?}")).collect();
        Err(format!(
            "{} of {} sorts of captures are missing ({}): {self}",
            missing.len(),
            wanted.len(),
            first.join(", ")
        ))
    }
}

/// The version that a size has, where it is one of a capture.
fn version(size: usize) -> Option<u8> {
    let doubt = size.checked_sub(SMALLEST)?;
    (doubt <= DOUBT_LIMIT).then_some(VERSIONS[usize::from(doubt > FIRST_VERSION_DOUBT)])
}

impl fmt::Display for VersionCounts {
    fn fmt(&self, out: &mut fmt::Formatter) -> fmt::Result {
        let wanted = wanted(By::Lists);
        let came = wanted.iter().filter(|sort| self.times(sort) > 0).count();
        write!(out, "captures: {came} of {} sorts", wanted.len())?;
        for (at, of) in VERSIONS.into_iter().enumerate() {
            let opened = |accepted: bool| {
                self.came(|sort| match sort {
                    Sort::Opened(spoil) => {
                        version(spoil.size) == Some(of) && spoil.faults.is_empty() == accepted
                    }
                    _ => false,
                })
            };
            let looked_up = |accepted: bool| {
                self.came(|sort| match sort {
                    Sort::LookedUp(spoil) => {
                        version(spoil.size) == Some(of) && spoil.faults.is_empty() == accepted
                    }
                    _ => false,
                })
            };
            let written = self.came(|sort| match sort {
                Sort::Written { doubt } => version(SMALLEST + doubt) == Some(of),
                _ => false,
            });
            let words = ["with up to 8 doubtful places", "with 9 to 12"][at];
            write!(
                out,
                "; {words} {} opened and {} refused, {} looked up and {} refused, {written} written",
                opened(true),
                opened(false),
                looked_up(true),
                looked_up(false)
            )?;
        }
        let sized = self.came(|sort| match sort {
            Sort::Opened(spoil) => version(spoil.size).is_none(),
            _ => false,
        });
        write!(out, "; {sized} of other sizes; told from the wrong rules")?;
        for slip in VERSION_SLIPS {
            write!(out, " {slip:?}: {}", self.times(&Sort::Slip(slip)))?;
        }
        Ok(())
    }
}

#[cfg(test)]
mod tests {
    use super::*;

    /// Each sort that is missing is named.
    #[test]
    fn every_sort_is_wanted() {
        for by in [By::Lists, By::Openings] {
            let wanted = wanted(by);
            let full = VersionCounts(wanted.iter().map(|sort| (sort.clone(), 1)).collect());
            assert_eq!((full.0.len(), full.check(by)), (wanted.len(), Ok(())));
            for sort in &wanted {
                let mut few = full.clone();
                few.0.remove(sort);
                let line = few.check(by).unwrap_err();
                let named = format!("1 of {} sorts of captures are missing", wanted.len());
                assert!(line.starts_with(&named), "{line}");
            }
            assert!(VersionCounts::default().check(by).is_err());
        }
    }
}

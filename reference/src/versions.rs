//! Captures of both versions with every fault that opening tells apart, and what wrong rules would make
//! of them.
//!
//! - [`Fault`], [`faults_of`]: what is wrong with the bytes of a capture, in the order of the checks.
//! - [`Spoil`], [`spoils`]: every number of doubtful places with each fault alone, and with two of them;
//!   [`spoilt`]: a capture of them, by a number that goes round.
//! - [`VersionSlip`], [`VERSION_SLIPS`]: wrong rules of versions and sizes.

use crate::capture::{
    bytes_of, version_of, DOUBTFUL_START, DOUBT_BYTE, FIRST_VERSION_DOUBT, LARGEST, RATE_BYTE,
    RECORD_BYTES, SMALLEST, UNCOUNTED_BYTES, VERSIONS,
};
use crate::code::rates;
use crate::curve::PLACES;
use crate::frames::{some_places, unknown_rate, Frame};
use crate::random::Random;
use crate::soft::{Column, DOUBT_LIMIT};

/// What may be wrong with a capture, in the order of the checks.
#[derive(Clone, Copy, Debug, PartialEq, Eq, PartialOrd, Ord)]
pub enum Fault {
    /// A size that no number of doubtful places has.
    Size,
    /// Version 0, 3 or another that there is not.
    VersionZero,
    VersionThree,
    VersionOther,
    /// The length's high byte alone, or its low one too, is not that of the total.
    LengthHigh,
    LengthLow,
    /// The count of doubtful places is not that of the total.
    Count,
    Rate,
    /// The version is not that of the count.
    Misfit,
    /// A doubtful place above 63, one that is repeated, or one below that before it.
    ListAbove,
    ListRepeated,
    ListFalling,
    /// The first record that is wrong has a place above 63, or a repeated one.
    RecordAbove,
    RecordRepeated,
}

impl Fault {
    /// The refusal.
    pub fn number(self) -> u8 {
        match self {
            Fault::Size | Fault::LengthHigh | Fault::LengthLow | Fault::Count => 11,
            Fault::VersionZero | Fault::VersionThree | Fault::VersionOther => 10,
            Fault::Rate => 1,
            Fault::Misfit | Fault::ListAbove | Fault::ListRepeated | Fault::ListFalling => 4,
            Fault::RecordAbove => 5,
            Fault::RecordRepeated => 6,
        }
    }
}

/// All faults of these bytes, the first to be told first. Where the size is wrong only the version is
/// looked at; the list is as long as the total says.
pub fn faults_of(bytes: &[u8]) -> Vec<Fault> {
    let mut faults = Vec::new();
    let sized = (SMALLEST..=LARGEST).contains(&bytes.len());
    if !sized {
        faults.push(Fault::Size);
    }
    match bytes.first() {
        Some(0) => faults.push(Fault::VersionZero),
        Some(3) => faults.push(Fault::VersionThree),
        Some(version) if !VERSIONS.contains(version) => faults.push(Fault::VersionOther),
        _ => (),
    }
    if !sized {
        return faults;
    }
    let doubt = bytes.len() - SMALLEST;
    let [high, low] = length_of(doubt);
    match (bytes[1] == high, bytes[2] == low) {
        (true, true) => (),
        (false, true) => faults.push(Fault::LengthHigh),
        _ => faults.push(Fault::LengthLow),
    }
    if usize::from(bytes[DOUBT_BYTE]) != doubt {
        faults.push(Fault::Count);
    }
    if !rates().contains(&u64::from(bytes[RATE_BYTE])) {
        faults.push(Fault::Rate);
    }
    if VERSIONS.contains(&bytes[0]) && bytes[0] != version_of(doubt) {
        faults.push(Fault::Misfit);
    }
    let (list, records) = bytes[DOUBTFUL_START..].split_at(doubt);
    let pairs = |wrong: fn(&u8, &u8) -> bool| list.windows(2).any(|two| wrong(&two[0], &two[1]));
    if list.iter().any(|place| usize::from(*place) >= PLACES) {
        faults.push(Fault::ListAbove);
    }
    if pairs(|before, place| before == place) {
        faults.push(Fault::ListRepeated);
    }
    if pairs(|before, place| before > place) {
        faults.push(Fault::ListFalling);
    }
    faults.extend(fault_of_records(records));
    faults
}

/// That of the first record that has one.
fn fault_of_records(records: &[u8]) -> Option<Fault> {
    let places: Vec<u8> = records
        .chunks(RECORD_BYTES)
        .map(|record| record[0])
        .collect();
    let fault = |(at, place): (usize, &u8)| match place {
        64.. => Some(Fault::RecordAbove),
        _ if places[..at].contains(place) => Some(Fault::RecordRepeated),
        _ => None,
    };
    places.iter().enumerate().find_map(fault)
}

/// The refusal of the first fault, or 0.
pub fn first_number(faults: &[Fault]) -> u8 {
    faults.first().map_or(0, |fault| fault.number())
}

/// The two bytes of length.
fn length_of(doubt: usize) -> [u8; 2] {
    ((SMALLEST + doubt - UNCOUNTED_BYTES) as u16).to_be_bytes()
}

/// What a capture is made to have: so many doubtful places, or more than there can be, and faults.
#[derive(Clone, Debug, PartialEq, Eq, PartialOrd, Ord)]
pub struct Spoil {
    pub size: usize,
    pub faults: Vec<Fault>,
}

/// The faults that come alone and together, with each number of doubtful places.
const TOGETHER: [&[Fault]; 27] = [
    &[],
    &[Fault::VersionZero],
    &[Fault::VersionThree],
    &[Fault::VersionOther],
    &[Fault::LengthHigh],
    &[Fault::LengthLow],
    &[Fault::Count],
    &[Fault::Rate],
    &[Fault::Misfit],
    &[Fault::ListAbove],
    &[Fault::ListRepeated],
    &[Fault::ListFalling],
    &[Fault::RecordAbove],
    &[Fault::RecordRepeated],
    &[Fault::VersionZero, Fault::LengthLow],
    &[Fault::VersionThree, Fault::Rate],
    &[Fault::LengthHigh, Fault::Rate],
    &[Fault::LengthLow, Fault::Misfit],
    &[Fault::Count, Fault::Misfit],
    &[Fault::Rate, Fault::Misfit],
    &[Fault::Rate, Fault::Misfit, Fault::RecordAbove],
    &[Fault::Rate, Fault::ListFalling],
    &[Fault::Misfit, Fault::ListAbove],
    &[Fault::Misfit, Fault::RecordAbove],
    &[Fault::Misfit, Fault::RecordRepeated],
    &[Fault::ListRepeated, Fault::RecordAbove],
    &[Fault::ListAbove, Fault::RecordRepeated],
];

/// Those of sizes beside the smallest and the largest, whose other fields agree with them.
const OF_SIZES: [&[Fault]; 4] = [
    &[Fault::Size],
    &[Fault::Size, Fault::VersionZero],
    &[Fault::Size, Fault::VersionThree],
    &[Fault::Size, Fault::VersionOther],
];
const SIZES: [usize; 3] = [SMALLEST - 1, LARGEST + 1, LARGEST + 2];

/// Every spoil: of the sizes from one too small to two too large, with the faults that there is room for.
pub fn spoils() -> Vec<Spoil> {
    let room = |doubt: usize, faults: &[Fault]| {
        faults.iter().all(|fault| match fault {
            Fault::ListAbove => doubt >= 1,
            Fault::ListRepeated | Fault::ListFalling => doubt >= 2,
            _ => true,
        })
    };
    let mut spoils = Vec::new();
    for doubt in 0..=DOUBT_LIMIT {
        let size = SMALLEST + doubt;
        let fits = TOGETHER.iter().filter(|faults| room(doubt, faults));
        spoils.extend(fits.map(|faults| Spoil {
            size,
            faults: faults.to_vec(),
        }));
    }
    for size in SIZES {
        spoils.extend(OF_SIZES.map(|faults| Spoil {
            size,
            faults: faults.to_vec(),
        }));
    }
    spoils
}

/// A capture of a frame's rate and columns, its records in the order of the places given, with a list and
/// the faults of the spoil that the number comes to.
pub fn spoilt(frame: &Frame, places: &[u8], number: u64, random: &mut Random) -> Vec<u8> {
    let spoils = spoils();
    let Spoil { size, faults } = &spoils[number as usize % spoils.len()];
    let doubtful = some_places(size.saturating_sub(SMALLEST), random);
    let record = |place: &u8| (*place, frame.columns[usize::from(*place)]);
    let records: Vec<(u8, Column)> = places.iter().map(record).collect();
    let mut bytes = bytes_of(frame.rate, &doubtful, &records);
    bytes.truncate(*size);
    if *size < SMALLEST {
        let [high, low] = ((size - UNCOUNTED_BYTES) as u16).to_be_bytes();
        bytes[1..3].copy_from_slice(&[high, low]);
    }
    if *size > LARGEST && random.once_in(2) {
        bytes[0] = VERSIONS[0];
    }
    for fault in faults {
        spoil(&mut bytes, *fault, random);
    }
    bytes
}

/// Gives a capture a fault that it does not have.
fn spoil(bytes: &mut [u8], fault: Fault, random: &mut Random) {
    let doubt = bytes.len().saturating_sub(SMALLEST);
    let (list, records) = (DOUBTFUL_START, DOUBTFUL_START + doubt);
    let last = doubt.saturating_sub(1);
    let some = random.between(1, last.max(1));
    let record = |number: usize| records + number * RECORD_BYTES;
    match fault {
        Fault::Size => (),
        Fault::VersionZero => bytes[0] = 0,
        Fault::VersionThree => bytes[0] = 3,
        Fault::VersionOther => bytes[0] = random.one_of(&[4, 8, 127, 128, 129, 130, 255]),
        Fault::LengthHigh => bytes[1] = random.one_of(&[0, 7, 9, 255]),
        Fault::LengthLow => bytes[2] = bytes[2].wrapping_add(random.one_of(&[1, 255, 8, 128])),
        Fault::Count => {
            let counts = [
                doubt + 1,
                doubt + 2,
                doubt.wrapping_sub(1),
                doubt ^ 128,
                255,
            ];
            bytes[DOUBT_BYTE] = random.one_of(&counts) as u8;
        }
        Fault::Rate => bytes[RATE_BYTE] = unknown_rate(u64::from(u8::MAX), random) as u8,
        Fault::Misfit => bytes[0] = VERSIONS[0] + VERSIONS[1] - version_of(doubt),
        Fault::ListAbove => {
            // The last one, so that the list rises.
            bytes[list + last] = random.one_of(&[64, 65, 127, 128, 255]);
        }
        Fault::ListRepeated => bytes[list + some] = bytes[list + some - 1],
        Fault::ListFalling => bytes.swap(list + some, list + some - 1),
        Fault::RecordAbove => {
            let at = record(random.one_of(&[0, 1, 31, 62, 63]));
            bytes[at] = random.one_of(&[64, 65, 127, 128, 255]);
        }
        Fault::RecordRepeated => {
            let at = random.between(1, PLACES - 1);
            bytes[record(at)] = bytes[record(random.below(at))];
        }
    }
}

/// A wrong rule.
#[derive(Clone, Copy, Debug, PartialEq, Eq, PartialOrd, Ord)]
pub enum VersionSlip {
    /// The writer puts version 1 whatever the list.
    AlwaysOne,
    /// Version 1 alone passes.
    OnlyOne,
    /// Version 3 passes too.
    Three,
    /// A size of more than 2,125 bytes is wrong.
    LimitOfEight,
    /// 2,130 bytes pass, and are refused by their list.
    ListOfThirteen,
    /// The sizes of a version alone pass with it.
    SizesByVersion,
    /// Any count suits any version.
    NoMisfit,
    /// Version 2 suits eight places too.
    EightInTwo,
    /// Version 1 suits nine places too.
    NineInOne,
    /// A count that does not suit is told with the version.
    MisfitWithTheVersion,
    /// It is told before the length.
    MisfitBeforeTheLength,
    /// It is told before the rate.
    MisfitBeforeTheRate,
    /// It is told after the records.
    MisfitAfterTheRecords,
}

pub const VERSION_SLIPS: [VersionSlip; 13] = [
    VersionSlip::AlwaysOne,
    VersionSlip::OnlyOne,
    VersionSlip::Three,
    VersionSlip::LimitOfEight,
    VersionSlip::ListOfThirteen,
    VersionSlip::SizesByVersion,
    VersionSlip::NoMisfit,
    VersionSlip::EightInTwo,
    VersionSlip::NineInOne,
    VersionSlip::MisfitWithTheVersion,
    VersionSlip::MisfitBeforeTheLength,
    VersionSlip::MisfitBeforeTheRate,
    VersionSlip::MisfitAfterTheRecords,
];

impl VersionSlip {
    /// What opening these bytes comes to by the wrong rule.
    pub fn number(self, bytes: &[u8]) -> u8 {
        let mut faults = faults_of(bytes);
        let doubt = bytes.len().saturating_sub(SMALLEST);
        let version = bytes.first().copied().unwrap_or(0);
        let misfit = faults.contains(&Fault::Misfit);
        let moved = |before: fn(&Fault) -> bool| -> Vec<Fault> {
            let others = || faults.iter().filter(|fault| **fault != Fault::Misfit);
            let first = others().take_while(|fault| before(fault));
            let rest = others().skip_while(|fault| before(fault));
            let first = first.copied().chain(misfit.then_some(Fault::Misfit));
            first.chain(rest.copied()).collect()
        };
        match self {
            VersionSlip::AlwaysOne => (),
            VersionSlip::OnlyOne => {
                if faults.first() != Some(&Fault::Size) && version == VERSIONS[1] {
                    return 10;
                }
            }
            VersionSlip::Three => faults.retain(|fault| *fault != Fault::VersionThree),
            VersionSlip::LimitOfEight => {
                if doubt > FIRST_VERSION_DOUBT {
                    return 11;
                }
            }
            VersionSlip::ListOfThirteen => {
                if doubt == DOUBT_LIMIT + 1 {
                    return faults.get(1).map_or(4, |fault| fault.number());
                }
            }
            VersionSlip::SizesByVersion => {
                if misfit {
                    return 11;
                }
            }
            VersionSlip::NoMisfit => faults.retain(|fault| *fault != Fault::Misfit),
            VersionSlip::EightInTwo => {
                faults.retain(|fault| *fault != Fault::Misfit || doubt != FIRST_VERSION_DOUBT);
            }
            VersionSlip::NineInOne => {
                faults.retain(|fault| *fault != Fault::Misfit || doubt != FIRST_VERSION_DOUBT + 1);
            }
            VersionSlip::MisfitWithTheVersion => {
                if misfit {
                    return 10;
                }
            }
            VersionSlip::MisfitBeforeTheLength => {
                faults = moved(|fault| *fault < Fault::LengthHigh);
            }
            VersionSlip::MisfitBeforeTheRate => faults = moved(|fault| *fault < Fault::Rate),
            VersionSlip::MisfitAfterTheRecords => faults = moved(|_| true),
        }
        first_number(&faults)
    }

    /// The version that the writer puts by the wrong rule.
    pub fn version(self, doubt: usize) -> u8 {
        match self {
            VersionSlip::AlwaysOne => VERSIONS[0],
            _ => version_of(doubt),
        }
    }
}

#[cfg(test)]
mod tests {
    use super::*;
    use crate::capture::open_capture;
    use crate::damage::{any_bytes, capture_of, damaged};
    use crate::refusal::number;

    /// A capture for each spoil, a few times.
    fn captures() -> impl Iterator<Item = (Spoil, Vec<u8>)> {
        let spoils = spoils();
        (0..4 * spoils.len() as u64).map(move |turn| {
            let mut random = Random::new(48, turn);
            let frame = Frame::numbered(49, turn);
            let places = random.shuffled(0..64);
            let spoil = spoils[turn as usize % spoils.len()].clone();
            (spoil, spoilt(&frame, &places, turn, &mut random))
        })
    }

    #[test]
    fn captures_have_the_faults_that_they_are_given() {
        for (spoil, capture) in captures() {
            assert_eq!(capture.len(), spoil.size);
            assert_eq!(faults_of(&capture), spoil.faults);
        }
        assert_eq!(spoils().len(), 13 * 27 - 7 - 4 + 12);
    }

    /// By the faults and by opening, of spoilt captures and of all others.
    #[test]
    fn the_first_fault_is_refused() {
        for (spoil, capture) in captures() {
            let refused = number(&open_capture(&capture));
            assert_eq!(refused, first_number(&spoil.faults), "{spoil:?}");
        }
        for turn in 0..2000 {
            let mut random = Random::new(47, turn);
            let capture = capture_of(&Frame::numbered(50, turn), &random.shuffled(0..64));
            for bytes in [damaged(&capture, &mut random), any_bytes(&mut random)] {
                let refused = number(&open_capture(&bytes));
                assert_eq!(refused, first_number(&faults_of(&bytes)));
            }
        }
    }

    /// Captures with up to eight places are version 1, the others version 2.
    #[test]
    fn versions_go_by_the_count() {
        for (doubt, version) in [(0, 1), (7, 1), (8, 1), (9, 2), (12, 2)] {
            assert_eq!(version_of(doubt), version);
            assert_eq!(VersionSlip::AlwaysOne.version(doubt), 1);
            assert_eq!(VersionSlip::NoMisfit.version(doubt), version);
        }
        assert_eq!((SMALLEST, LARGEST), (2117, 2129));
    }

    /// Each wrong rule but that of writing comes to another number with some of the captures, and to the
    /// same with those that have none of its faults.
    #[test]
    fn wrong_rules_are_told_apart() {
        for slip in VERSION_SLIPS {
            let told = captures().filter(|(_, c)| slip.number(c) != number(&open_capture(c)));
            let told: Vec<Spoil> = told.map(|(spoil, _)| spoil).collect();
            assert_eq!(told.is_empty(), slip == VersionSlip::AlwaysOne, "{slip:?}");
            let misfits = |spoil: &Spoil| spoil.faults.contains(&Fault::Misfit);
            match slip {
                VersionSlip::MisfitBeforeTheRate => assert!(told
                    .iter()
                    .all(|spoil| spoil.faults.starts_with(&[Fault::Rate, Fault::Misfit]))),
                VersionSlip::EightInTwo => assert!(told.iter().all(|s| s.size == 2125)),
                VersionSlip::NineInOne => assert!(told.iter().all(|s| s.size == 2126)),
                VersionSlip::ListOfThirteen => assert!(told.iter().all(|s| s.size == 2130)),
                VersionSlip::LimitOfEight => assert!(told.iter().all(|s| s.size > 2125)),
                VersionSlip::NoMisfit => assert!(told.iter().all(misfits)),
                _ => (),
            }
        }
    }
}

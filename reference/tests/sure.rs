//! Trials for what is sure with doubtful places come to what their frames are made for, and find libraries that
//! do otherwise.

use reference::calls::{answer_all, Call};
use reference::code::RATE_COUNT;
use reference::streams::{check_sure, sure_session};
use reference::sure_counts::{SureCounts, SurePart};
use reference::sure_frames::FEW_SURE_TURNS;
use reference::trials::{
    compare, sure_below_trial, sure_bits_trial, sure_table_trial, DecodeTable, Outcome,
    REFERENCE_BELOW, REFERENCE_BITS, REFERENCE_TABLE,
};

/// A twelfth of the few turns, a bit more than one round of the kinds: not every sort.
const COUNT: u64 = (RATE_COUNT * FEW_SURE_TURNS / 12) as u64;

/// Nothing is against the rule.
fn is_right(counts: &SureCounts, part: SurePart) -> bool {
    let line = counts.check(part).unwrap_err();
    line.contains("are missing") && !line.contains("against the rule")
}

/// What these trials count.
fn counted(trial: impl Fn(u64) -> Outcome) -> SureCounts {
    let mut counts = SureCounts::default();
    for Outcome {
        number,
        buffer,
        report,
        sure,
        ..
    } in (0..COUNT).map(trial)
    {
        let (frame, untouched) = sure.unwrap();
        counts.count(&frame, number, [&buffer, &report.unwrap()], untouched);
    }
    counts
}

#[test]
fn trials_come_to_their_end() {
    let counts = counted(|n| sure_table_trial(&REFERENCE_TABLE, 150, n));
    assert!(is_right(&counts, SurePart::Tables));
    let counts = counted(|n| sure_below_trial(&REFERENCE_BELOW, 150, n));
    assert!(is_right(&counts, SurePart::Thresholds));
    let counts = counted(|n| sure_bits_trial(&REFERENCE_BITS, 150, n));
    assert!(is_right(&counts, SurePart::Bits));
}

/// One doubtful place more or fewer, no margin or always one, a refusal that clears the message, and an
/// answer of zeros where none is near.
#[test]
fn wrong_libraries_are_found() {
    let wrong: [DecodeTable; 6] = [
        |rate, table, doubt, message, report| {
            REFERENCE_TABLE(rate, table, (doubt + 1).min(12), message, report)
        },
        |rate, table, doubt, message, report| {
            REFERENCE_TABLE(rate, table, doubt.saturating_sub(1), message, report)
        },
        |rate, table, doubt, message, report| {
            let number = REFERENCE_TABLE(rate, table, doubt, message, report);
            report[8..13].fill(0);
            number
        },
        |rate, table, doubt, message, report| {
            let number = REFERENCE_TABLE(rate, table, doubt, message, report);
            report[8] = 1;
            number
        },
        |rate, table, doubt, message, report| {
            let number = REFERENCE_TABLE(rate, table, doubt, message, report);
            if number != 0 {
                message.fill(0);
            }
            number
        },
        |rate, table, doubt, message, report| {
            let number = REFERENCE_TABLE(rate, table, doubt, message, report);
            if number == 9 {
                message.fill(0);
                report.fill(0);
            }
            0
        },
    ];
    for (at, library) in wrong.iter().enumerate() {
        let both = [&REFERENCE_TABLE, library];
        assert!(
            compare(sure_table_trial::<DecodeTable>, both, 151, COUNT).is_err(),
            "{at}"
        );
        let counts = counted(|n| sure_table_trial(library, 151, n));
        let line = counts.check(SurePart::Tables).unwrap_err();
        assert!(line.contains("against the rule"), "{at}: {line}");
    }
}

/// The reference's own answers to sessions are right; one that differs is named.
#[test]
fn sessions_come_to_their_end() {
    let lists = (0..COUNT).map(|number| (number, sure_session(152, number)));
    let lists: Vec<(u64, Vec<Call>)> = lists.collect();
    let calls = lists.iter().flat_map(|(_, calls)| calls);
    let bytes: Vec<u8> = calls.flat_map(Call::bytes).collect();
    let mut answers = answer_all(&bytes).unwrap();
    let counts = check_sure(152, &lists, &answers).unwrap();
    assert!(is_right(&counts, SurePart::Sessions));
    let last = answers.len() - 1;
    answers[last] ^= 1;
    assert!(check_sure(152, &lists, &answers).is_err());
}

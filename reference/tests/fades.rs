//! Trials of fades reach every sort, and find decoders that go wrong on them.

use reference::calls::{answer_all, Call};
use reference::fades::ROUND;
use reference::random::Random;
use reference::streams::{check_fades, fade_session};
use reference::trials::{compare, fade_trial, DecodeTable, REFERENCE_TABLE};

/// Ten rounds: at rate 39 each number of blank places comes.
const COUNT: u64 = 10 * ROUND as u64;

#[test]
fn trials_have_every_sort_of_fades() {
    let both = [&REFERENCE_TABLE, &REFERENCE_TABLE];
    let tally = compare(fade_trial, both, 82, COUNT).unwrap();
    assert_eq!(tally.fades.check(), Ok(()));
    let answered = tally.numbers[0] + tally.numbers[9];
    assert_eq!(answered, COUNT);
}

/// Decoders with one fault each.
#[test]
fn faults_are_found_on_fades() {
    let faults: [(&str, DecodeTable); 5] = [
        (
            "too far and answered",
            |rate, table, doubt, message, report| match REFERENCE_TABLE(
                rate, table, doubt, message, report,
            ) {
                9 => 0,
                number => number,
            },
        ),
        (
            "near and forgotten",
            |rate, table, doubt, message, report| {
                let (mut kept, mut told) = (message.to_vec(), report.to_vec());
                let number = REFERENCE_TABLE(rate, table, doubt, &mut kept, &mut told);
                if number == 0 && told[4..6] == [0, 1] && doubt > 0 {
                    return 9;
                }
                message.copy_from_slice(&kept);
                report.copy_from_slice(&told);
                number
            },
        ),
        (
            "a test word too many",
            |rate, table, doubt, message, report| {
                let number = REFERENCE_TABLE(rate, table, doubt, message, report);
                if number == 0 && doubt == 12 {
                    report[5] = report[5].wrapping_add(1);
                }
                number
            },
        ),
        (
            "the last place decided",
            |rate, table, doubt, message, report| {
                REFERENCE_TABLE(rate, table, doubt.saturating_sub(1), message, report)
            },
        ),
        (
            "no doubt on a fade",
            |rate, table, doubt, message, report| {
                let doubt = if doubt == 12 { 0 } else { doubt };
                REFERENCE_TABLE(rate, table, doubt, message, report)
            },
        ),
    ];
    for (name, library) in faults {
        let compared = compare(fade_trial, [&REFERENCE_TABLE, &library], 83, COUNT);
        assert!(compared.is_err(), "{name}");
    }
}

/// A session is opened with a fade's places, takes all columns and is read, closed and written; each is
/// counted, and any changed byte is named.
#[test]
fn sessions_take_fades() {
    let fades: Vec<(u64, Vec<Call>)> = (0..COUNT).map(|n| (n, fade_session(84, n))).collect();
    for (_, calls) in &fades {
        let letters: Vec<u8> = calls.iter().map(Call::letter).collect();
        assert_eq!(letters, [b"O", &[b'D'; 64][..], b"RXW"].concat());
    }
    let answers = |fades: &[(u64, Vec<Call>)]| {
        let calls = fades.iter().flat_map(|(_, calls)| calls);
        answer_all(&calls.flat_map(Call::bytes).collect::<Vec<u8>>()).unwrap()
    };
    let counts = check_fades(84, &fades, &answers(&fades)).unwrap();
    assert_eq!(counts.check(), Ok(()));
    let few = &fades[..4];
    let right = answers(few);
    let mut random = Random::new(85, 0);
    for _ in 0..20 {
        let mut wrong = right.clone();
        wrong[random.below(right.len())] ^= 1;
        assert!(check_fades(84, few, &wrong)
            .unwrap_err()
            .starts_with("frame"));
    }
    assert!(check_fades(84, few, &right[1..]).is_err());
    assert!(check_fades(84, few, &[&right[..], &[0]].concat()).is_err());
}

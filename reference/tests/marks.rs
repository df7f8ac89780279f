//! Trials for the mark reach every sort and find wrong rules of it, and no codeword at all costs less than a
//! marked answer.

use reference::calls::Call;
use reference::cheapest::Cheapest;
use reference::code::{encode, Code, RATE_COUNT};
use reference::curve::PLACES;
use reference::decode::{columns_of_table, decode};
use reference::frames::Frame;
use reference::mark::Standing;
use reference::mark_counts::MarkCounts;
use reference::mark_frames::{MarkFrame, MarkKind, Side, FEW_MARK_TURNS};
use reference::mark_slips::{MarkSlip, Sheet, MARK_SLIPS};
use reference::nearest::Finder;
use reference::random::Random;
use reference::session::Session;
use reference::soft::{doubtful_places, total, Columns};
use reference::streams::{check_marks, mark_session};
use reference::trials::{
    compare, mark_below_trial, mark_table_trial, DecodeTable, Outcome, REFERENCE_BELOW,
    REFERENCE_TABLE,
};

const COUNT: u64 = (RATE_COUNT * FEW_MARK_TURNS) as u64;

/// What these trials count.
fn counted(trial: impl Fn(u64) -> Outcome) -> MarkCounts {
    let mut counts = MarkCounts::default();
    for Outcome {
        number,
        buffer,
        report,
        marked,
        ..
    } in (0..COUNT).map(trial)
    {
        counts.count(&marked.unwrap(), number, &buffer, &report.unwrap());
    }
    counts
}

#[test]
fn trials_have_every_sort() {
    let counts = counted(|number| mark_table_trial(&REFERENCE_TABLE, 130, number));
    assert_eq!(counts.check(), Ok(()));
    let counts = counted(|number| mark_below_trial(&REFERENCE_BELOW, 130, number));
    assert_eq!(counts.check(), Ok(()));
    assert!(MarkCounts::default().check().is_err());
}

/// Table decoding whose mark follows a wrong rule, or the right one.
fn marking(slip: Option<MarkSlip>) -> impl Fn(u64, &[u8], u64, &mut [u8], &mut [u8]) -> u8 {
    move |rate, table, doubt, message, report| {
        let number = REFERENCE_TABLE(rate, table, doubt, message, report);
        if number == 0 {
            let code = Code::of_rate(rate).unwrap();
            let word = code.codeword(message).elements();
            let sheet = Sheet::of(code, &columns_of_table(table), &word);
            report[13] = u8::from(sheet.is_marked(slip));
        }
        number
    }
}

/// The first frame that a wrong rule marks otherwise, among those that are compared, tells it.
#[test]
fn wrong_rules_are_found() {
    let right = marking(None);
    assert!(compare(mark_table_trial, [&right, &marking(None)], 131, 400).is_ok());
    for slip in MARK_SLIPS {
        let is_told = |number: &u64| {
            let made = MarkFrame::numbered(131, *number);
            let code = Code::of_rate(made.frame.rate).unwrap();
            let sheet = Sheet::of(code, &made.frame.columns, &made.sent.elements());
            sheet.is_marked(Some(slip)) != made.side.is_marked()
        };
        let told = (0..COUNT).find(is_told);
        let number = told.unwrap_or_else(|| panic!("{slip:?}"));
        let wrong = mark_table_trial(&marking(Some(slip)), 131, number);
        assert_ne!(mark_table_trial(&right, 131, number), wrong, "{slip:?}");
    }
}

/// Reports with one fault each.
#[test]
fn wrong_bytes_are_found() {
    let faults: [(&str, DecodeTable); 3] = [
        (
            "the mark before the margin",
            |rate, table, doubt, message, report| {
                let number = REFERENCE_TABLE(rate, table, doubt, message, report);
                if number == 0 {
                    report.swap(8, 13);
                }
                number
            },
        ),
        (
            "marked where no other codeword is near",
            |rate, table, doubt, message, report| {
                let number = REFERENCE_TABLE(rate, table, doubt, message, report);
                if number == 0 {
                    report[13] = 1 - report[8];
                }
                number
            },
        ),
        (
            "a byte that is not written",
            |rate, table, doubt, message, report| {
                let last = report[13];
                let number = REFERENCE_TABLE(rate, table, doubt, message, report);
                report[13] = last;
                number
            },
        ),
    ];
    for (name, library) in faults {
        let compared = compare(mark_table_trial, [&REFERENCE_TABLE, &library], 132, COUNT);
        assert!(compared.is_err(), "{name}");
    }
}

/// The answers of a program that is right but for what it makes of an answer.
fn answers_with(fault: impl Fn(&Call, &mut [u8]), frames: &[(u64, Vec<Call>)]) -> Vec<u8> {
    let mut session = Session::default();
    let mut answers = Vec::new();
    for call in frames.iter().flat_map(|(_, calls)| calls) {
        let mut answer = call.answer(&mut session);
        fault(call, &mut answer);
        answers.extend(answer);
    }
    answers
}

/// A session is closed into reports of 13, 15 and 14 bytes, and so is its capture into one of 14; any
/// changed byte is named.
#[test]
fn sessions_take_frames_for_the_mark() {
    let numbers = (0..COUNT).step_by(9);
    let frames: Vec<(u64, Vec<Call>)> = numbers.map(|n| (n, mark_session(133, n))).collect();
    for (_, calls) in &frames {
        let letters: Vec<u8> = calls.iter().map(Call::letter).collect();
        assert_eq!(letters, [b"O", &[b'D'; 64][..], b"XXXCX"].concat());
        let sizes = calls.iter().filter_map(|call| match call {
            Call::Close { report, .. } => Some(*report),
            _ => None,
        });
        assert_eq!(sizes.collect::<Vec<u16>>(), [13, 15, 14, 14]);
    }
    let right = answers_with(|_, _| (), &frames);
    let few_sorts = check_marks(133, &frames, &right).unwrap().check();
    assert!(few_sorts
        .unwrap_err()
        .contains("sorts of marks are missing"));
    let few = &frames[..4];
    let right = answers_with(|_, _| (), few);
    let mut random = Random::new(134, 0);
    for _ in 0..20 {
        let mut wrong = right.clone();
        wrong[random.below(right.len())] ^= 1;
        let line = check_marks(133, few, &wrong).unwrap_err();
        assert!(line.starts_with("frame"), "{line}");
    }
    let wrong = answers_with(
        |call, answer| {
            if let (Call::Close { .. }, [0, .., last]) = (call, answer) {
                *last ^= 1;
            }
        },
        few,
    );
    assert!(check_marks(133, few, &wrong).is_err());
    assert!(check_marks(133, few, &right[1..]).is_err());
    assert!(check_marks(133, few, &[&right[..], &[0]].concat()).is_err());
}

/// A codeword of rate 39 that is not zero at twenty places only, and one of rate 49 at ten: x + x^6 + x^11,
/// and (x + x^6 + x^11)(y^2 + y + 6).
fn light(rate: u64) -> [u8; PLACES] {
    let mut message = vec![0; rate as usize];
    match rate {
        39 => [1, 18, 38].into_iter().for_each(|at| message[at] = 1),
        _ => {
            [1, 18, 38].into_iter().for_each(|at| message[at] = 6);
            let ones = [4, 8, 23, 28, 43, 48];
            ones.into_iter().for_each(|at| message[at] = 1);
        }
    }
    let mut word = [99; PLACES];
    assert_eq!(encode(rate, &message, &mut word, 0), Ok(()));
    word
}

/// Codewords differ in 64 − M places at least, and these two in no more from zero.
#[test]
fn codewords_of_least_weight() {
    let places = |word: [u8; PLACES]| -> Vec<usize> {
        let used = (0..PLACES).filter(|place| word[*place] != 0);
        used.inspect(|place| assert_eq!(usize::from(word[*place]), place / 4))
            .collect()
    };
    let fibres = [4..8, 32..36, 40..44, 48..52, 60..64];
    assert_eq!(
        places(light(39)),
        fibres.into_iter().flatten().collect::<Vec<usize>>()
    );
    assert_eq!(places(light(49)), [6, 7, 34, 35, 42, 43, 50, 51, 62, 63]);
}

/// Half of the places of the light codeword of rate 39 vote for it and half for zero, each with the other
/// one more; elsewhere zero costs 0 and all else 9. One of the places that vote for the codeword may cost
/// more at zero.
fn tie(more: u16) -> Columns {
    let light = light(39);
    let mut columns = [[9; 16]; PLACES];
    for (number, place) in (0..PLACES).filter(|p| light[*p] != 0).enumerate() {
        columns[place][usize::from(light[place])] = u16::from(number % 2 == 0);
        columns[place][0] = u16::from(number % 2 == 1);
        if number == 1 {
            columns[place][0] += more;
        }
    }
    for place in (0..PLACES).filter(|p| light[*p] == 0) {
        columns[place][0] = 0;
    }
    columns
}

/// Zero and the light codeword cost the same, and zero is marked; with one cost more the mark goes, and the
/// other codeword costs less.
#[test]
fn a_codeword_may_tie_with_a_marked_one() {
    let code = Code::of_rate(39).unwrap();
    let columns = tie(0);
    let doubtful = doubtful_places(&columns, 12);
    let answer = decode(Finder::of_rate(39).unwrap(), &columns, &doubtful).unwrap();
    assert_eq!(answer.message, [0; 39]);
    assert_eq!(
        (answer.total, answer.changed, answer.marked),
        (10, 10, true)
    );
    let zero = [0; PLACES];
    let standing = |columns: &Columns| Standing::of(code, columns, &zero);
    let Standing { excess, slack } = standing(&columns);
    assert_eq!((excess, slack), (10, 10));
    assert_eq!(total(&columns, &light(39)), 10);
    let columns = tie(1);
    let Standing { excess, slack } = standing(&columns);
    assert_eq!((excess, slack), (11, 10));
    assert!(!standing(&columns).is_marked());
    assert_eq!(total(&columns, &light(39)), 10);
}

/// Wrong rules that sum too much mark answers that another codeword undercuts.
#[test]
fn rules_that_sum_more_mark_what_is_not_cheapest() {
    let unsound = [
        MarkSlip::OneGapMore,
        MarkSlip::ChangedNotTakenOff,
        MarkSlip::LargestGaps,
        MarkSlip::Always,
    ];
    for rate in [7, 20, 39, 49, 51] {
        let code = Code::of_rate(rate).unwrap();
        for number in 0..20 {
            let mut random = Random::new(135, number);
            let sort = (MarkKind::Rival, Side::Over);
            let made = MarkFrame::made(rate, sort, number as usize % 13, &mut random);
            let columns = &made.frame.columns;
            let [answer, rival] = [made.sent, made.rival.unwrap()].map(|w| w.elements());
            assert!(total(columns, &rival) < total(columns, &answer));
            let sheet = Sheet::of(code, columns, &answer);
            assert!(!sheet.is_marked(None));
            for slip in unsound {
                assert!(sheet.is_marked(Some(slip)), "{slip:?} at rate {rate}");
            }
        }
    }
}

/// All 16^k codewords at small rates: those that cost less than a marked answer would be found, none is, and
/// the rivals that cost less than an unmarked one are.
#[test]
fn no_codeword_costs_less_than_a_marked_answer() {
    let (mut marked, mut undercut) = (0, 0);
    for rate in [6, 7, 8] {
        let code = Code::of_rate(rate).unwrap();
        let cheapest = Cheapest::new(code);
        for number in 0..60 {
            let mut random = Random::new(136, number);
            let kinds = [
                MarkKind::Changed,
                MarkKind::Rival,
                MarkKind::Faded,
                MarkKind::Clipped,
            ];
            let sides = [Side::Under, Side::Equal, Side::Over];
            let sort = (random.one_of(&kinds), random.one_of(&sides));
            let made = MarkFrame::made(rate, sort, number as usize % 13, &mut random);
            let Frame { columns, .. } = &made.frame;
            let limit = total(columns, &made.sent.elements());
            let Some(below) = cheapest.below(columns, limit, 150_000) else {
                continue;
            };
            if made.side.is_marked() {
                assert_eq!(below, [], "{made:?}");
                marked += 1;
            } else if let Some(rival) = made.rival {
                let lower = total(columns, &rival.elements()) < limit;
                assert_eq!(below.contains(&rival), lower);
                undercut += u32::from(lower);
            }
        }
    }
    assert!(marked >= 30 && undercut >= 3, "{marked} {undercut}");
}

//! Document 02's sentences on blank columns, on random frames.

use reference::capture::{capture_size, open_capture, write_capture};
use reference::code::Code;
use reference::curve::PLACES;
use reference::damage::capture_of;
use reference::decode::{
    decode, decode_table, margin_of, near_codewords, table_of_columns, test_words, Answer,
    REPORT_BYTES,
};
use reference::frames::{blank_limit, faded, Frame, Kind, KINDS, RATES};
use reference::least::INTERPOLANT_BYTES;
use reference::nearest::Finder;
use reference::random::Random;
use reference::refusal::Refusal;
use reference::row::Row;
use reference::session::Session;
use reference::show::show;
use reference::soft::{blank_places, is_blank, total, Columns, CEILING};

fn finder(rate: u64) -> &'static Finder<'static> {
    Finder::of_rate(rate).unwrap()
}

fn decoded(frame: &Frame) -> Result<Answer, Refusal> {
    decode(finder(frame.rate), &frame.columns, &frame.doubtful)
}

fn delivered(frame: &Frame, arrivals: &[u8]) -> Session {
    let mut session = Session::open(frame.rate, &frame.doubtful).unwrap();
    for place in arrivals {
        let column = frame.columns[usize::from(*place)];
        session.deliver(u64::from(*place), column).unwrap();
    }
    session
}

fn closed(session: &Session) -> (Result<(), Refusal>, Vec<u8>, Vec<u8>) {
    let mut message = vec![99; session.rate() as usize];
    let mut report = vec![99; REPORT_BYTES];
    let result = session.close(&mut message, &mut report);
    (result, message, report)
}

fn read(session: &Session) -> [u8; INTERPOLANT_BYTES] {
    let mut reading = [99; INTERPOLANT_BYTES];
    assert_eq!(session.read_interpolant(&mut reading), Ok(()));
    reading
}

fn tabled(rate: u64, columns: &Columns, doubt: u64) -> (Result<(), Refusal>, Vec<u8>, Vec<u8>) {
    let mut message = vec![99; rate as usize];
    let mut report = vec![99; REPORT_BYTES];
    let table = table_of_columns(columns);
    let result = decode_table(rate, &table, doubt, &mut message, &mut report);
    (result, message, report)
}

/// Frames of each kind, rate and number of blank places from `from` to one too many, `count` of each.
fn frames(seed: u64, from: usize, count: usize) -> impl Iterator<Item = (Frame, Random)> {
    let sorts = RATES.into_iter().flat_map(move |rate| {
        (from..=blank_limit(rate) + 1).flat_map(move |blanks| {
            let kinds = KINDS.into_iter().flat_map(move |kind| vec![kind; count]);
            kinds.map(move |kind| (kind, rate, blanks))
        })
    });
    sorts
        .enumerate()
        .map(move |(number, (kind, rate, blanks))| {
            let mut random = Random::new(seed, number as u64);
            let doubt = random.below(9);
            (faded(kind, rate, doubt, blanks, &mut random), random)
        })
}

/// "A user who loses places to fades gets the cheapest codeword under this T, in any order of
/// arrival": without doubt, with at most T of the places that are not blank wrong, the sent one.
#[test]
fn lost_and_wrong_places_are_repaired() {
    for rate in RATES {
        let code = Code::of_rate(rate).unwrap();
        for blanks in 0..=blank_limit(rate) {
            let reach = code.reach_with(blanks).unwrap();
            for number in 0..60 {
                let mut random = Random::new(120, number);
                let message: Vec<u8> = (0..code.symbols).map(|_| random.symbol()).collect();
                let mut word = code.codeword(&message);
                let order = random.shuffled(0..PLACES as u8);
                let (blank, others) = order.split_at(blanks);
                let wrong = number as usize % (reach + 1);
                for place in &others[..wrong] {
                    let place = usize::from(*place);
                    word.set(place, random.other_symbol(word.get(place)));
                }
                let mut columns = word.elements().map(|symbol| {
                    let mut column = [40; 16];
                    column[usize::from(symbol)] = 1;
                    column
                });
                for place in blank {
                    columns[usize::from(*place)] = [random.one_of(&[0, 9, CEILING]); 16];
                }
                let frame = Frame {
                    rate,
                    doubtful: Vec::new(),
                    columns,
                };
                let session = delivered(&frame, &random.shuffled(order.clone()));
                let (result, answer, report) = closed(&session);
                assert_eq!((result, &answer), (Ok(()), &message));
                assert_eq!(usize::from(report[7]), wrong);
                assert_eq!((report[5], report[8]), (1, 0));
                let sent = code.codeword(&message).elements();
                assert_eq!(report[..4], total(&columns, &sent).to_be_bytes());
                assert_eq!(tabled(rate, &columns, 0), (Ok(()), answer, report));
            }
        }
    }
}

/// 12 where more are blank than 57 − M, "more than 13 blanks at rate 39, more than 3 at rate 49", and
/// never else.
#[test]
fn too_many_blank_places_are_refused() {
    for (frame, mut random) in frames(121, 0, 2) {
        let limit = 57 - (frame.rate as usize + 5);
        let too_many = blank_places(&frame.columns).len() > limit;
        let session = delivered(&frame, &random.shuffled(0..64));
        let answers = [closed(&session), tabled(frame.rate, &frame.columns, 8)];
        for (result, message, report) in answers {
            assert_eq!(result == Err(Refusal::TooBlank), too_many);
            if too_many {
                assert_eq!(message, vec![99; frame.rate as usize]);
                assert_eq!(report, [99; REPORT_BYTES]);
            }
        }
        let capture = capture_of(&frame, &random.shuffled(0..64));
        assert_eq!(show(&capture) == "refused 12\n", too_many);
    }
}

/// Opening, delivery, reading, writing and withdrawal know nothing of it.
#[test]
fn other_calls_take_any_number_of_blank_places() {
    for rate in RATES {
        let mut session = Session::open(rate, &[0, 63]).unwrap();
        for place in 0..64 {
            assert_eq!(session.deliver(place, [place as u16; 16]), Ok(()));
            assert_eq!(read(&session), read(&Session::open(rate, &[]).unwrap()));
        }
        assert_eq!(closed(&session).0, Err(Refusal::TooBlank));
        let mut capture = vec![0; capture_size(&session)];
        assert_eq!(write_capture(&session, &mut capture), Ok(()));
        assert_eq!(open_capture(&capture), Ok(session.clone()));
        assert_eq!(session.withdraw(5), Ok(()));
        assert_eq!(closed(&session).0, Err(Refusal::Missing));
    }
}

/// "It is not interpolated": the reading is the one without the blank places, and of a doubtful list
/// with them.
#[test]
fn blank_places_are_not_interpolated() {
    for (frame, mut random) in frames(122, 1, 1) {
        let order = random.shuffled(0..PLACES as u8);
        let taken = &order[..random.between(1, PLACES)];
        let session = delivered(&frame, taken);
        let mut without = session.clone();
        for place in blank_places(&frame.columns) {
            let _ = without.withdraw(u64::from(place));
        }
        assert_eq!(read(&session), read(&without));
        let blank = |place: &u8| is_blank(&frame.columns[usize::from(*place)]);
        let mut list = frame.doubtful.clone();
        list.retain(|place| !blank(place));
        let shorter = Frame {
            doubtful: list,
            ..frame.clone()
        };
        assert_eq!(read(&session), read(&delivered(&shorter, taken)));
    }
}

/// A doubtful place that is blank is "not doubled": the session closes as one opened without it. It
/// stays in the list and in the capture.
#[test]
fn blank_places_are_not_doubled() {
    let (mut some, mut all) = (0, 0);
    for (frame, mut random) in frames(123, 1, 2) {
        let blank = |place: &u8| is_blank(&frame.columns[usize::from(*place)]);
        let (gone, list): (Vec<u8>, Vec<u8>) = frame.doubtful.iter().copied().partition(blank);
        if gone.is_empty() {
            continue;
        }
        let shorter = Frame {
            doubtful: list.clone(),
            ..frame.clone()
        };
        let order = random.shuffled(0..64);
        let session = delivered(&frame, &order);
        assert_eq!(closed(&session), closed(&delivered(&shorter, &order)));
        assert_eq!(session.doubtful(), frame.doubtful);
        let mut capture = vec![0; capture_size(&session)];
        assert_eq!(write_capture(&session, &mut capture), Ok(()));
        assert_eq!(usize::from(capture[4]), frame.doubtful.len());
        let words = test_words(&frame.columns, &frame.doubtful);
        assert_eq!(words.len(), 1 << list.len());
        some += u32::from(decoded(&frame).is_ok());
        all += u32::from(decoded(&frame).is_ok() && list.is_empty());
    }
    assert!(some >= 50 && all >= 5, "{some} {all}");
}

/// What a blank place costs goes to the total and to the count of pinned places, and to nothing else.
#[test]
fn the_cost_of_a_blank_place_does_not_matter() {
    let mut margins = 0;
    for (frame, mut random) in frames(124, 1, 2) {
        let mut other = frame.clone();
        let (mut less, mut more) = (0u32, 0u32);
        let (mut pinned, mut pinned_then) = (0, 0);
        for place in blank_places(&frame.columns) {
            let place = usize::from(place);
            let cost = random.one_of(&[0, 5, 64_000, CEILING]);
            less += u32::from(frame.columns[place][0]);
            more += u32::from(cost);
            pinned += u8::from(frame.columns[place][0] == CEILING);
            pinned_then += u8::from(cost == CEILING);
            other.columns[place] = [cost; 16];
        }
        let expected = decoded(&frame).map(|answer| Answer {
            total: answer.total - less + more,
            pinned: answer.pinned - pinned + pinned_then,
            ..answer
        });
        margins += u32::from(matches!(&expected, Ok(answer) if answer.margin.is_some()));
        assert_eq!(decoded(&other), expected);
    }
    assert!(margins >= 50, "{margins}");
}

/// "Never counts as differing or changed": two near codewords that differ at blank places.
#[test]
fn near_codewords_may_differ_at_blank_places() {
    for rate in RATES {
        for (kind, blanks) in [Kind::Pair, Kind::EqualPair, Kind::Trio]
            .into_iter()
            .flat_map(|kind| (2..=blank_limit(rate)).map(move |blanks| (kind, blanks)))
        {
            let frame = faded(kind, rate, 8, blanks, &mut Random::new(125, blanks as u64));
            let (near, _) = near_codewords(finder(rate), &frame.columns, &frame.doubtful).unwrap();
            let [(least, first), (next, second)] = &near[..] else {
                panic!("two are near");
            };
            let blank = blank_places(&frame.columns);
            let differ = |place: &&u8| {
                let place = usize::from(**place);
                first.codeword.get(place) != second.codeword.get(place)
            };
            assert!(blank.iter().filter(differ).count() >= blanks - 1);
            let answer = decoded(&frame).unwrap();
            assert_eq!((answer.margin, answer.total), (Some(next - least), *least));
            assert_eq!(margin_of(&answer.report()), answer.margin);
            let word = first.codeword.elements();
            let changed = (0..PLACES).filter(|place| {
                let column = &frame.columns[*place];
                let cheapest = column.iter().min().unwrap();
                let best = column.iter().position(|cost| cost == cheapest).unwrap();
                !is_blank(column) && best != usize::from(word[*place])
            });
            assert_eq!(usize::from(answer.changed), changed.count());
        }
    }
}

/// The words that differ from this one in at most T places that are not blank, and in any that are.
fn within(word: &Row, blank: &[u8], reach: usize) -> Vec<Row> {
    let changed = |words: &[Row], places: &[u8]| -> Vec<Row> {
        let mut changed = Vec::new();
        for word in words {
            for place in places {
                for symbol in 0..16 {
                    let mut other = *word;
                    other.set(usize::from(*place), symbol);
                    changed.push(other);
                }
            }
        }
        changed
    };
    let others: Vec<u8> = (0..64).filter(|place| !blank.contains(place)).collect();
    let mut words = vec![*word];
    for place in blank {
        words = changed(&words, &[*place]);
    }
    for _ in 0..reach {
        words = changed(&words, &others);
    }
    words
}

/// At rate 49 every codeword near some test word is found by trying all changes of T places and of
/// the blank ones: message, total, tests and margin.
#[test]
fn decoding_agrees_with_trying_every_change_and_every_filling() {
    let code = Code::of_rate(49).unwrap();
    let kinds = [Kind::Wrong, Kind::Valid, Kind::Beyond, Kind::Level];
    let (mut answered, mut margins) = (0, 0);
    let numbered = (0..48).map(|number| (number, kinds[number as usize % kinds.len()]));
    let pairs = [(48, Kind::Pair), (49, Kind::EqualPair), (50, Kind::Trio)];
    for (number, kind) in numbered.chain(pairs) {
        let mut random = Random::new(126, number);
        let blanks = if number < 48 {
            [1, 2, 3][number as usize / 4 % 3]
        } else {
            2
        };
        let frame = faded(kind, 49, number as usize / 12 % 3, blanks, &mut random);
        let blank = blank_places(&frame.columns);
        let Some(reach) = code.reach_with(blank.len()) else {
            assert_eq!(decoded(&frame), Err(Refusal::TooBlank));
            continue;
        };
        let mut tests = 0;
        let mut near = Vec::new();
        for word in test_words(&frame.columns, &frame.doubtful) {
            let before = near.len();
            for changed in within(&word, &blank, reach) {
                if let Some(message) = code.message(&changed) {
                    near.push((total(&frame.columns, &changed.elements()), message));
                }
            }
            tests += u16::from(near.len() > before);
        }
        let expected = near.iter().min().map(|(total, message)| {
            let others = near.iter().filter(|(_, other)| other != message);
            let margin = others.map(|(other, _)| other - total).min();
            (*total, message.clone(), tests, margin)
        });
        let answer = decoded(&frame).ok();
        answered += u32::from(answer.is_some());
        let answer = answer.map(|a| (a.total, a.message, a.tests, a.margin));
        margins += u32::from(matches!(answer, Some((.., Some(_)))));
        assert_eq!(answer, expected);
    }
    assert!((15..45).contains(&answered), "{answered}");
    assert_eq!(margins, 3);
}

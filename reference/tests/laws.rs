//! Document 01's sentences that hold for every frame, on random ones.

use std::collections::BTreeMap;

use reference::arrivals::{Arrival, ARRIVALS};
use reference::capture::{capture_size, look_up, open_capture, write_capture};
use reference::code::Code;
use reference::curve::PLACES;
use reference::damage::{capture_of, damaged};
use reference::decode::{decode, decode_table, table_of_columns, test_words, REPORT_BYTES};
use reference::frames::{frame, Frame, Kind, RATES};
use reference::least::INTERPOLANT_BYTES;
use reference::margins::Margins;
use reference::nearest::Finder;
use reference::pairs::{between, Gaps, NEAR_DOUBT};
use reference::random::Random;
use reference::refusal::Refusal;
use reference::row::Row;
use reference::session::Session;
use reference::show::show;
use reference::soft::{
    best, blank_places, column_bytes, doubtful_places, is_blank, second, total, Column,
};

/// A frame delivered in the order of the places given.
fn delivered(frame: &Frame, doubtful: &[u8], arrivals: &[u8]) -> Session {
    let mut session = Session::open(frame.rate, doubtful).unwrap();
    for place in arrivals {
        let column = frame.columns[usize::from(*place)];
        session.deliver(u64::from(*place), column).unwrap();
    }
    session
}

fn closed(session: &Session) -> (Result<(), Refusal>, Vec<u8>, Vec<u8>) {
    let mut message = vec![99; session.rate() as usize];
    let mut report = vec![99; REPORT_BYTES];
    let result = session.close(&mut message, &mut report);
    (result, message, report)
}

/// "Table decoding answers as a session opened with them does", in whatever order places arrive.
#[test]
fn table_decoding_answers_as_the_session_with_its_places() {
    for number in 0..360 {
        let frame = Frame::numbered(80, number);
        let mut random = Random::new(81, number);
        let doubt = random.below(9);
        let doubtful = doubtful_places(&frame.columns, doubt);
        let session = delivered(&frame, &doubtful, &random.shuffled(0..64));
        let mut message = vec![99; frame.rate as usize];
        let mut report = vec![99; REPORT_BYTES];
        let table = table_of_columns(&frame.columns);
        let result = decode_table(frame.rate, &table, doubt as u64, &mut message, &mut report);
        assert_eq!(closed(&session), (result, message, report));
    }
}

#[test]
fn readings_and_closings_do_not_depend_on_the_order_of_arrival() {
    for number in 0..120 {
        let frame = Frame::numbered(82, number);
        let mut random = Random::new(83, number);
        let orders = [random.shuffled(0..64), random.shuffled(0..64)];
        let sessions = orders.map(|order| delivered(&frame, &frame.doubtful, &order));
        let readings = [0, 1].map(|n| {
            let mut reading = [0; INTERPOLANT_BYTES];
            sessions[n].read_interpolant(&mut reading).unwrap();
            reading
        });
        assert_eq!(readings[0], readings[1]);
        assert_eq!(closed(&sessions[0]), closed(&sessions[1]));
    }
}

/// What a session holds: its rate and list, and a column at each place taken.
fn held(session: &Session) -> (u64, Vec<u8>, BTreeMap<u8, Column>) {
    let columns = session.row().iter().copied().collect();
    (session.rate(), session.doubtful().to_vec(), columns)
}

fn written(session: &Session) -> Vec<u8> {
    let mut bytes = vec![99; capture_size(session)];
    assert_eq!(write_capture(session, &mut bytes), Ok(()));
    bytes
}

/// The part of a capture before its records, and the records.
fn parts(capture: &[u8]) -> (&[u8], Vec<&[u8]>) {
    let (head, records) = capture.split_at(5 + usize::from(capture[4]));
    (head, records.chunks(33).collect())
}

/// The places of a capture's records, in their order.
fn places_in(capture: &[u8]) -> Vec<u8> {
    parts(capture).1.iter().map(|record| record[0]).collect()
}

/// The same records by rising place, which is their first byte.
fn sorted(capture: &[u8]) -> Vec<u8> {
    let (head, mut records) = parts(capture);
    records.sort_unstable();
    [head, &records.concat()].concat()
}

fn rising() -> Vec<u8> {
    (0..PLACES as u8).collect()
}

/// "A capture is read with its records in any order, and opening accepts them in the capture's
/// order."
#[test]
fn captures_in_every_order_are_read() {
    for number in 0..400 {
        let frame = Frame::numbered(84, number);
        let arrivals = Arrival::numbered(number).places(&mut Random::new(85, number));
        let capture = capture_of(&frame, &arrivals);
        assert_eq!(places_in(&capture), arrivals);
        assert_eq!(
            open_capture(&capture),
            Ok(delivered(&frame, &frame.doubtful, &arrivals))
        );
    }
}

/// "Writing, then opening, gives a session with the same rate, list and columns."
#[test]
fn writing_then_opening_gives_what_the_session_holds() {
    for number in 0..400 {
        let frame = Frame::numbered(92, number);
        let arrivals = Arrival::numbered(number).places(&mut Random::new(93, number));
        let session = delivered(&frame, &frame.doubtful, &arrivals);
        let bytes = written(&session);
        assert_eq!(places_in(&bytes), rising());
        let opened = open_capture(&bytes).unwrap();
        assert_eq!(held(&opened), held(&session));
        assert_eq!(opened, delivered(&frame, &frame.doubtful, &rising()));
        assert_eq!(written(&opened), bytes);
    }
}

/// "Two sessions reached as in demand 3 with equal rate, list, places taken and columns then write
/// alike, in whichever order their places arrived": by deliveries, with refused calls and readings
/// between them, or by a capture.
#[test]
fn sessions_that_hold_the_same_write_alike() {
    for number in 0..200 {
        let frame = Frame::numbered(94, number);
        let mut random = Random::new(95, number);
        let mut orders = ARRIVALS.map(|arrival| arrival.places(&mut random)).to_vec();
        orders.push(random.shuffled(0..64));
        let expected = capture_of(&frame, &rising());
        for order in &orders {
            let session = delivered(&frame, &frame.doubtful, order);
            assert_eq!(written(&session), expected);
            let session = open_capture(&capture_of(&frame, order)).unwrap();
            assert_eq!(written(&session), expected);
        }

        let mut session = Session::open(frame.rate, &frame.doubtful).unwrap();
        for place in &orders[number as usize % orders.len()] {
            let mut lent = vec![99; capture_size(&session)];
            let early = write_capture(&session, &mut lent);
            assert_eq!(early, Err(Refusal::Missing));
            let column = frame.columns[usize::from(*place)];
            let place = u64::from(*place);
            assert_eq!(session.deliver(64 + place, column), Err(Refusal::Place));
            assert_eq!(session.deliver(place, column), Ok(()));
            assert_eq!(session.deliver(place, [7; 16]), Err(Refusal::Taken));
            if place.is_multiple_of(8) {
                assert_eq!(
                    session.read_interpolant(&mut [0; INTERPOLANT_BYTES]),
                    Ok(())
                );
            }
        }
        assert_eq!(written(&session), expected);
    }
}

/// "Writing what was read from an accepted capture returns it unchanged exactly if it is in place
/// order", and else returns its records by rising place. Damaged captures that are accepted are
/// tried too.
#[test]
fn a_capture_comes_back_unchanged_exactly_if_it_is_in_place_order() {
    let mut counts = [0, 0];
    for number in 0..1000 {
        let frame = Frame::numbered(96, number);
        let mut random = Random::new(97, number);
        let arrival = Arrival::numbered(number);
        let capture = capture_of(&frame, &arrival.places(&mut random));
        let other = damaged(&capture, &mut random);
        for capture in [capture, other] {
            let Ok(session) = open_capture(&capture) else {
                continue;
            };
            let back = written(&session);
            let places = places_in(&capture);
            let in_place_order = places.windows(2).all(|pair| pair[0] < pair[1]);
            assert_eq!(in_place_order, arrival == Arrival::Rising);
            assert_eq!(back == capture, in_place_order);
            assert_eq!(back, sorted(&capture));
            counts[usize::from(in_place_order)] += 1;
        }
    }
    let [changed, unchanged] = counts;
    assert!(changed >= 840 && unchanged >= 210, "{counts:?}");
}

#[test]
fn any_two_exchanged_records_are_written_back_in_place_order() {
    for number in [0, 13] {
        let frame = Frame::numbered(98, number);
        let in_order = capture_of(&frame, &rising());
        assert_eq!(written(&open_capture(&in_order).unwrap()), in_order);
        for second in 0..PLACES {
            for first in 0..second {
                let mut places = rising();
                places.swap(first, second);
                let exchanged = capture_of(&frame, &places);
                let back = written(&open_capture(&exchanged).unwrap());
                assert_ne!(back, exchanged);
                assert_eq!(back, in_order);
            }
        }
    }
}

#[test]
fn look_up_hands_back_a_part_of_the_capture_itself() {
    let frame = Frame::numbered(86, 0);
    let capture = capture_of(&frame, &Random::new(86, 0).shuffled(0..64));
    for place in 0..PLACES {
        let part = look_up(&capture, place as u64);
        assert_eq!(part, column_bytes(&frame.columns[place]));
        assert!(capture.as_ptr_range().contains(&part.as_ptr()));
    }
    for place in [64, 255, 256, u64::MAX] {
        assert!(look_up(&capture, place).is_empty());
    }
    assert!(look_up(&capture[1..], 0).is_empty());
}

type Damage = fn(&mut Vec<u8>);

/// Where the place of a record stands.
fn place_at(bytes: &[u8], record: usize) -> usize {
    5 + usize::from(bytes[4]) + 33 * record
}

/// Another place for a record of the capture.
fn record(bytes: &mut [u8], number: usize, place: u8) {
    let at = place_at(bytes, number);
    bytes[at] = place;
}

/// One fault for each check, in document 01's order; the records' faults in the order of records. Version
/// 1 becomes 2, and 2 becomes 1, where the count does not suit it.
const FAULTS: [(Refusal, Damage); 9] = [
    (Refusal::Length, |bytes| bytes.truncate(2116)),
    (Refusal::Version, |bytes| bytes[0] = 3),
    (Refusal::Length, |bytes| bytes[2] += 1),
    (Refusal::Rate, |bytes| bytes[3] = 53),
    (Refusal::Doubt, |bytes| bytes[0] ^= 3),
    (Refusal::Doubt, |bytes| bytes[6] = bytes[5]),
    (Refusal::Place, |bytes| record(bytes, 5, 64)),
    (Refusal::Taken, |bytes| record(bytes, 9, 0)),
    (Refusal::Place, |bytes| record(bytes, 12, 255)),
];

#[test]
fn captures_are_checked_in_document_01s_order() {
    for (doubt, version) in [(2, 1), (8, 1), (9, 2), (12, 2)] {
        captures_with_doubt_are_checked(doubt, version);
    }
    for size in [0, 1, 2116, 2130, 2131] {
        for version in [1, 2] {
            assert_eq!(open_capture(&vec![version; size]), Err(Refusal::Length));
        }
    }
}

fn captures_with_doubt_are_checked(doubt: usize, version: u8) {
    let frame = frame(Kind::Valid, 39, doubt, &mut Random::new(87, 0));
    let capture = capture_of(&frame, &(0..64).collect::<Vec<u8>>());
    assert_eq!((capture.len(), capture[0]), (2117 + doubt, version));
    assert!(open_capture(&capture).is_ok());
    let refused = |damages: &[Damage]| {
        let mut bytes = capture.clone();
        for damage in damages {
            damage(&mut bytes);
        }
        open_capture(&bytes)
    };
    for (number, (refusal, damage)) in FAULTS.iter().enumerate() {
        assert_eq!(refused(&[*damage]), Err(*refusal));
        for (_, later) in &FAULTS[number + 1..] {
            assert_eq!(refused(&[*later, *damage]), Err(*refusal));
        }
    }
    assert_eq!(refused(&[|bytes| bytes.push(0)]), Err(Refusal::Length));
    assert_eq!(refused(&[|bytes| bytes[4] = 3]), Err(Refusal::Length));
}

/// At rate 49 every codeword near some test word is found by trying all changes of one place.
#[test]
fn decoding_agrees_with_trying_every_change_of_one_place() {
    let code = Code::of_rate(49).unwrap();
    let finder = Finder::of_rate(49).unwrap();
    let kinds = [
        Kind::Valid,
        Kind::Wrong,
        Kind::Beyond,
        Kind::Ceiling,
        Kind::Level,
        Kind::Tied,
    ];
    let pairs = [Kind::Pair, Kind::EqualPair, Kind::UnevenPair, Kind::Trio];
    let numbered = (0..72).map(|number| (number, kinds[number as usize % kinds.len()]));
    let (mut answered, mut margins) = (0, 0);
    for (number, kind) in numbered.chain((72..).zip(pairs)) {
        let mut random = Random::new(88, number);
        let frame = frame(kind, 49, number as usize / 6 % 4, &mut random);
        let mut tests = 0;
        let mut near = Vec::new();
        for word in test_words(&frame.columns, &frame.doubtful) {
            let before = near.len();
            for place in 0..PLACES {
                for symbol in 0..16 {
                    let mut changed = word;
                    changed.set(place, symbol);
                    if let Some(message) = code.message(&changed) {
                        near.push((total(&frame.columns, &changed.elements()), message));
                    }
                }
            }
            tests += u16::from(near.len() > before);
        }
        let answer = decode(finder, &frame.columns, &frame.doubtful);
        let expected = near.iter().min().map(|(total, message)| {
            let others = near.iter().filter(|(_, other)| other != message);
            let margin = others.map(|(other, _)| other - total).min();
            (*total, message.clone(), tests, margin)
        });
        answered += u32::from(answer.is_ok());
        let answer = answer.ok().map(|a| (a.total, a.message, a.tests, a.margin));
        margins += u32::from(matches!(answer, Some((.., Some(_)))));
        assert_eq!(answer, expected);
    }
    assert!((20..70).contains(&answered));
    assert_eq!(margins, 3);
}

/// Codes small enough to try all messages, with their own large T, without blank places and with
/// some. A near codeword has best symbols at settled places, and best or second ones at doubtful
/// places, but for T places at most and the blank ones.
#[test]
fn margins_of_small_codes_agree_with_trying_every_message() {
    for top in [4, 5, 8] {
        let code = Code::new(top);
        let finder = Finder::new(&code);
        let all: Vec<(Vec<u8>, Row)> = (0..1u32 << (4 * code.symbols))
            .map(|number| {
                let symbol = |place| (number >> (4 * place) & 15) as u8;
                let message: Vec<u8> = (0..code.symbols).map(symbol).collect();
                let codeword = code.codeword(&message);
                (message, codeword)
            })
            .collect();
        let light = all.iter().map(|(_, word)| *word);
        let light: Vec<Row> = light.filter(|word| word.weight() == PLACES - top).collect();
        let mut margins = [Margins::default(); 2];
        for number in 0..120 {
            let mut random = Random::new(90, number);
            let first = all[random.below(all.len())].1;
            let mut other = first;
            other.add(&random.one_of(&light));
            let doubt = NEAR_DOUBT + number as usize % 3;
            let lean = (PLACES - top - doubt) / 2 + random.below(3);
            let gaps = random.one_of(&[Gaps::Mixed, Gaps::Wide]);
            let rate = code.symbols as u64;
            let planted = between([first, other], rate, doubt, lean, gaps, &mut random);
            let blanks = number as usize / 60 * random.between(1, 30);
            let planted = planted.faded(blanks, random.once_in(2), &mut random);
            let frame = match gaps {
                Gaps::Mixed => planted.apart(random.one_of(&[0, 1, 300])).frame,
                _ => planted.frame,
            };

            let Frame {
                doubtful, columns, ..
            } = &frame;
            assert_eq!(blank_places(columns).len(), blanks);
            let reach = code.reach_with(blanks).unwrap();
            let right: Vec<(u8, u8)> = (0..)
                .zip(columns)
                .filter(|(_, column)| !is_blank(column))
                .map(|(place, column)| match doubtful.contains(&place) {
                    true => (best(column), second(column)),
                    false => (best(column), best(column)),
                })
                .collect();
            let unblanked: Vec<usize> = (0..PLACES).filter(|p| !is_blank(&columns[*p])).collect();
            let near = |word: &Row| {
                let symbols = unblanked.iter().map(|place| word.get(*place));
                let wrong = |((a, b), symbol): &(&(u8, u8), u8)| a != symbol && b != symbol;
                right.iter().zip(symbols).filter(wrong).count() <= reach
            };
            let near = all.iter().filter(|(_, word)| near(word));
            let mut near: Vec<(u32, &Vec<u8>)> = near
                .map(|(message, word)| (total(columns, &word.elements()), message))
                .collect();
            near.sort();
            let expected = near.first().map(|(total, message)| {
                let margin = near.get(1).map(|(next, _)| next - total);
                (*total, message.to_vec(), margin)
            });
            let answer = decode(&finder, columns, doubtful);
            if let Ok(answer) = &answer {
                margins[number as usize / 60].count(answer.margin);
            }
            let answer = answer.ok();
            assert_eq!(answer.map(|a| (a.total, a.message, a.margin)), expected);
        }
        for margins in margins {
            assert!(margins.above >= 10 && margins.zero >= 2 && margins.absent >= 10);
        }
    }
}

/// A margin, zero or not, ends the first line; `-` stands where there is none.
#[test]
fn shown_lines_end_with_the_margin() {
    let places: Vec<u8> = (0..64).collect();
    let end = |kind| {
        let frame = frame(kind, 49, 8, &mut Random::new(91, 0));
        let lines = show(&capture_of(&frame, &places));
        let heading = lines.lines().next().unwrap();
        let finder = Finder::of_rate(49).unwrap();
        let answer = decode(finder, &frame.columns, &frame.doubtful).unwrap();
        (
            heading.rsplit(' ').next().unwrap().to_string(),
            answer.margin,
        )
    };
    assert_eq!(end(Kind::UnevenPair), ("-".to_string(), None));
    assert_eq!(end(Kind::EqualPair), ("0".to_string(), Some(0)));
    let (shown, margin) = end(Kind::WidePair);
    assert!(margin > Some(9999));
    assert_eq!(shown, margin.unwrap().to_string());
}

/// Slips that the planted pairs show: the first near codeword is not always the answer, and an
/// answer may differ from the best symbols in more than T places.
#[test]
fn pairs_tell_the_cheapest_from_the_first() {
    for rate in RATES {
        let code = Code::of_rate(rate).unwrap();
        let finder = Finder::of_rate(rate).unwrap();
        let mut not_first = 0;
        let mut beyond = 0;
        for number in 0..100 {
            let frame = frame(Kind::Pair, rate, 8, &mut Random::new(89, number));
            let words = test_words(&frame.columns, &frame.doubtful);
            let places = finder.unblanked(&[]).unwrap();
            let first = words.iter().find_map(|word| places.nearest(word)).unwrap();
            let answer = decode(finder, &frame.columns, &frame.doubtful).unwrap();
            not_first += u32::from(answer.message != first.message);
            beyond += u32::from(usize::from(answer.changed) > code.reach);
        }
        assert!(not_first >= 20 && beyond >= 90);
    }
}

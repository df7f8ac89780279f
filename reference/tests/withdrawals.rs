//! Document 02's sentences on withdrawing a place, on random lists of calls.

use reference::calls::Call;
use reference::capture::{capture_size, open_capture};
use reference::curve::PLACES;
use reference::damage::capture_of;
use reference::decode::REPORT_BYTES;
use reference::frames::{frame, Frame, Kind, RATES};
use reference::least::INTERPOLANT_BYTES;
use reference::random::Random;
use reference::refusal::{number, Refusal};
use reference::session::Session;
use reference::soft::Column;

/// Places above 63; those of 256 and more have a place below 64 in their low byte.
const UNKNOWN: [u64; 8] = [64, 65, 127, 128, 255, 256, 256 + 63, 65535];

fn opened(frame: &Frame) -> Session {
    Session::open(frame.rate, &frame.doubtful).unwrap()
}

fn deliver(session: &mut Session, frame: &Frame, places: &[u8]) {
    for place in places {
        let column = frame.columns[usize::from(*place)];
        assert_eq!(session.deliver(u64::from(*place), column), Ok(()));
    }
}

fn delivered(frame: &Frame, places: &[u8]) -> Session {
    let mut session = opened(frame);
    deliver(&mut session, frame, places);
    session
}

fn free_places(session: &Session) -> Vec<u8> {
    let taken = |place: &u8| session.row().iter().any(|(taken, _)| taken == place);
    (0..PLACES as u8).filter(|place| !taken(place)).collect()
}

fn any_column(random: &mut Random) -> Column {
    [(); 16].map(|_| random.below(1000) as u16)
}

/// Reading, closing and writing into buffers of the right sizes.
fn whole(session: &Session) -> [Call; 3] {
    [
        Call::ReadInterpolant {
            size: INTERPOLANT_BYTES as u16,
        },
        Call::Close {
            message: session.rate() as u16,
            report: REPORT_BYTES as u16,
        },
        Call::WriteCapture {
            size: capture_size(session) as u16,
        },
    ]
}

/// The numbers and bytes of reading, closing and writing, which leave the session as it was.
fn shown(session: &Session) -> [Vec<u8>; 3] {
    whole(session).map(|call| {
        let mut after = session.clone();
        let answer = call.answer(&mut after);
        assert_eq!(after, *session);
        answer
    })
}

/// Calls of every sort, refused ones among them, none of which withdraws the place.
fn calls_that_spare(place: u8, frame: &Frame, random: &mut Random) -> Vec<Call> {
    let session = opened(frame);
    let call = |random: &mut Random| {
        let other = (usize::from(place) + random.between(1, PLACES - 1)) % PLACES;
        match random.below(8) {
            0 => Call::Deliver {
                place: u16::from(place),
                column: any_column(random),
            },
            1 | 2 => Call::Deliver {
                place: other as u16,
                column: frame.columns[other],
            },
            3 => Call::Deliver {
                place: random.one_of(&UNKNOWN) as u16,
                column: any_column(random),
            },
            4 | 5 => Call::Withdraw {
                place: other as u16,
            },
            6 => Call::Withdraw {
                place: random.one_of(&UNKNOWN) as u16,
            },
            _ => whole(&session)[random.below(3)].clone(),
        }
    };
    let count = random.below(40);
    (0..count).map(|_| call(random)).collect()
}

/// Makes the calls; those that are accepted.
fn accepted<'a>(session: &mut Session, calls: &'a [Call]) -> Vec<&'a Call> {
    let mut accepted = Vec::new();
    for call in calls {
        if call.answer(session)[0] == 0 {
            accepted.push(call);
        }
    }
    accepted
}

/// A session, a place that is free in it, and calls that do not withdraw that place; from one place
/// taken to all others.
fn beginning(frame: &Frame, random: &mut Random) -> (Session, u8, Vec<Call>) {
    let order = random.shuffled(0..PLACES as u8);
    let count = random.one_of(&[1, 20, 50, 62, 63]);
    let (place, taken) = (order[count], &order[..count]);
    let before = if random.once_in(2) {
        delivered(frame, taken)
    } else {
        let mut session = open_capture(&capture_of(frame, &order)).unwrap();
        for place in &order[count..] {
            session.withdraw(u64::from(*place)).unwrap();
        }
        session
    };
    assert!(free_places(&before).contains(&place));
    let calls = calls_that_spare(place, frame, random);
    (before, place, calls)
}

/// "The session answers and reads as if that delivery, and every call refused since, had never been
/// made. It need not be the latest one." The calls that were accepted since lead, without it, to the
/// same session; with those that were refused they may not.
#[test]
fn a_withdrawal_leaves_what_the_accepted_calls_since_alone_would() {
    let [mut latest, mut by_refused] = [0, 0];
    for round in 0..600 {
        let frame = Frame::numbered(100, round);
        let mut random = Random::new(101, round);
        let (before, place, calls) = beginning(&frame, &mut random);
        let place = u64::from(place);

        let mut withdrawn = before.clone();
        withdrawn.deliver(place, any_column(&mut random)).unwrap();
        let accepted_calls = accepted(&mut withdrawn, &calls);
        latest += u32::from(u64::from(withdrawn.row().last().unwrap().0) == place);
        assert_eq!(withdrawn.withdraw(place), Ok(()));

        let mut alone = before.clone();
        for call in accepted_calls {
            call.answer(&mut alone);
        }
        assert_eq!(withdrawn, alone);
        assert_eq!(shown(&withdrawn), shown(&alone));

        let mut with_refused = before;
        accepted(&mut with_refused, &calls);
        by_refused += u32::from(with_refused != alone);

        for session in [&mut withdrawn, &mut alone] {
            let missing = random.clone().shuffled(free_places(session));
            deliver(session, &frame, &missing);
        }
        assert_eq!(shown(&withdrawn), shown(&alone));
        assert_eq!(shown(&alone)[2][0], 0);
    }
    assert!((60..540).contains(&latest), "{latest}");
    assert!(by_refused >= 200, "{by_refused}");
}

/// "A session is judged by the columns held at closing, each place once."
#[test]
fn a_place_delivered_again_counts_with_its_last_column_alone() {
    for round in 0..400 {
        let frame = Frame::numbered(102, round);
        let mut random = Random::new(103, round);
        let (before, place, calls) = beginning(&frame, &mut random);
        let column = frame.columns[usize::from(place)];
        let place = u64::from(place);

        let mut again = before.clone();
        again.deliver(place, any_column(&mut random)).unwrap();
        let since = accepted(&mut again, &calls);
        for _ in 0..random.below(3) {
            again.withdraw(place).unwrap();
            again.deliver(place, any_column(&mut random)).unwrap();
        }
        again.withdraw(place).unwrap();
        again.deliver(place, column).unwrap();

        let mut once = before;
        once.deliver(place, column).unwrap();
        for call in since {
            call.answer(&mut once);
        }
        assert_eq!(again.in_place_order(), once.in_place_order());
        assert_eq!(shown(&again), shown(&once));

        let missing = free_places(&once);
        for session in [&mut again, &mut once] {
            deliver(session, &frame, &missing);
        }
        assert_eq!(shown(&again), shown(&once));
    }
}

/// Every place is withdrawn, in any order, and the session is the one that was opened; delivered
/// again in another order, with another frame's columns, it is judged by these.
#[test]
fn a_session_may_be_emptied_and_filled_again() {
    for round in 0..160 {
        let mut random = Random::new(105, round);
        let first = Frame::numbered(104, round);
        let second = Frame {
            columns: frame(Kind::Wrong, first.rate, 0, &mut random).columns,
            ..first.clone()
        };
        let mut orders = [(); 3].map(|_| random.shuffled(0..PLACES as u8));
        if random.once_in(2) {
            orders[1] = orders[0].iter().rev().copied().collect();
        }
        let from_capture = open_capture(&capture_of(&first, &orders[0])).unwrap();
        for mut session in [delivered(&first, &orders[0]), from_capture] {
            for (gone, place) in orders[1].iter().enumerate() {
                assert_eq!(session.row().len(), PLACES - gone);
                assert_eq!(session.withdraw(u64::from(*place)), Ok(()));
            }
            assert_eq!(session, opened(&first));
            assert_eq!(session.columns(), [[0; 16]; PLACES]);
            deliver(&mut session, &second, &orders[2]);
            assert_eq!(session, delivered(&second, &orders[2]));
            let [_, closed, written] = shown(&session);
            assert_eq!(closed[0], 0);
            let in_place_order: Vec<u8> = (0..PLACES as u8).collect();
            assert_eq!(written[1..], capture_of(&second, &in_place_order));
        }
    }
}

/// "13: the place is not taken; after the place range."
#[test]
fn refused_withdrawals_change_nothing() {
    for round in 0..60 {
        let frame = Frame::numbered(106, round);
        let mut random = Random::new(107, round);
        let order = random.shuffled(0..PLACES as u8);
        let count = random.one_of(&[0, 1, 32, 63, 64]);
        let mut session = delivered(&frame, &order[..count]);
        if count > 1 {
            session.withdraw(u64::from(order[0])).unwrap();
        }
        let (before, shows) = (session.clone(), shown(&session));
        for place in free_places(&before) {
            let refused = session.withdraw(u64::from(place));
            assert_eq!(refused, Err(Refusal::NotTaken));
            assert_eq!(number(&refused), 13);
        }
        for place in (64..=65535).step_by(97).chain(UNKNOWN).chain([u64::MAX]) {
            assert_eq!(session.withdraw(place), Err(Refusal::Place));
        }
        assert_eq!(session, before);
        assert_eq!(shown(&session), shows);
    }
}

/// "The named place becomes free again": closing and writing give 7 and leave their buffers, and the
/// reading is that of the other places.
#[test]
fn a_withdrawn_place_is_missing() {
    for round in 0..130 {
        let frame = Frame::numbered(108, round);
        let mut random = Random::new(109, round);
        let order = random.shuffled(0..PLACES as u8);
        let full = open_capture(&capture_of(&frame, &order)).unwrap();
        let shows = shown(&full);
        for at in [0, 31, 63] {
            let mut session = full.clone();
            session.withdraw(u64::from(order[at])).unwrap();
            let others = [&order[..at], &order[at + 1..]].concat();
            assert_eq!(session, delivered(&frame, &others));
            let [read, closed, written] = shown(&session);
            assert_eq!(read, shown(&delivered(&frame, &others))[0]);
            for refused in [closed, written] {
                assert_eq!(refused[0], Refusal::Missing.number());
                assert!(refused[1..].iter().all(|byte| *byte == 0xee));
            }
            deliver(&mut session, &frame, &order[at..=at]);
            assert_eq!(shown(&session), shows);
        }
    }
}

/// A doubtful place may be withdrawn. The list stays as it was, and so does the reading, in which the
/// place had no part.
#[test]
fn a_withdrawn_place_stays_in_the_doubtful_list() {
    for rate in RATES {
        for round in 0..40 {
            let mut random = Random::new(110, round);
            let frame = frame(Kind::Wrong, rate, random.between(1, 8), &mut random);
            let order = random.shuffled(0..PLACES as u8);
            let mut session = delivered(&frame, &order);
            let shows = shown(&session);
            for place in &frame.doubtful {
                session.withdraw(u64::from(*place)).unwrap();
                assert_eq!(session.doubtful(), frame.doubtful);
                assert_eq!(shown(&session)[0], shows[0]);
                assert_eq!(shown(&session)[1][0], Refusal::Missing.number());
            }
            let again = random.shuffled(frame.doubtful.clone());
            deliver(&mut session, &frame, &again);
            assert_eq!(shown(&session), shows);
        }
    }
}

/// R7's readings, there and back: "byte 0 is 1, the rest 0; after place 0, settled, with best symbol
/// 0: byte 4 is 1, the rest 0."
#[test]
fn r7_is_read_before_a_delivery_and_after_its_withdrawal() {
    let unit = |at: usize| {
        let mut bytes = vec![0; 1 + INTERPOLANT_BYTES];
        bytes[1 + at] = 1;
        bytes
    };
    let mut column = [40; 16];
    column[0] = 0;
    let mut session = Session::open(39, &[]).unwrap();
    for _ in 0..2 {
        assert_eq!(shown(&session)[0], unit(0));
        session.deliver(0, column).unwrap();
        assert_eq!(shown(&session)[0], unit(4));
        session.withdraw(0).unwrap();
    }
    assert_eq!(session, Session::open(39, &[]).unwrap());
}

/// The session that a refused opening hands back has no place to withdraw, and takes some.
#[test]
fn places_of_a_refused_opening_may_be_withdrawn() {
    let mut session = Session::default();
    assert!((0..64).all(|place| session.withdraw(place) == Err(Refusal::NotTaken)));
    session.deliver(5, [1; 16]).unwrap();
    assert_eq!(session.withdraw(5), Ok(()));
    assert_eq!(session, Session::default());
}

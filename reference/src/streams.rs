//! Running another program on lists of calls, and on captures, and comparing what it writes.
//!
//! - [`compare_calls`]: one process for each share of the frames; it reads calls and writes
//!   answers, as [`crate::calls`] lays them out. The [`Tally`] says what was compared.
//! - [`compare_fades`]: the same with a session for each fade; [`compare_rates`]: with one for each of the
//!   frames at every rate; [`compare_marks`]: with one for each of those for the mark; [`compare_sure`]: of
//!   those for what is sure.
//! - [`compare_engines`]: a program that answers calls of the elimination engine, as [`crate::engine`] lays
//!   them out.
//! - [`compare_shows`]: a process for each capture, valid or damaged, that prints as `show` does;
//!   [`Shown`] says what was compared; [`compare_rate_shows`]: the captures of frames at every rate.

use std::collections::BTreeMap;
use std::fmt;
use std::io::{Read, Write};
use std::process::{Command, Stdio};
use std::thread;

use crate::blanks::{Blanks, Faded};
use crate::call_lists::call_list;
use crate::calls::{Call, LENT};
use crate::capture::open_capture;
use crate::damage::{capture_of, damaged};
use crate::decode::{margin_of, mark_of, REPORT_BYTES};
use crate::doubts::{Came, Doubts};
use crate::engine_counts::EngineCounts;
use crate::engine_words::{turns, EngineWord, ROUNDS};
use crate::fade_counts::FadeCounts;
use crate::fades::Fade;
use crate::frames::{Frame, Kind};
use crate::margins::Margins;
use crate::mark_counts::{MarkCounts, Marks};
use crate::mark_frames::MarkFrame;
use crate::random::Random;
use crate::rate_counts::{Part, RateCounts};
use crate::rates::RateFrame;
use crate::refusal;
use crate::session::Session;
use crate::show::show;
use crate::sure_counts::SureCounts;
use crate::sure_frames::SureFrame;
use crate::version_counts::VersionCounts;
use crate::versions::spoilt;
use crate::withdrawal_lists::withdrawal_list;
use crate::withdrawals::{Since, Withdrawals};
use crate::written::Written;

/// How often each call was answered with each number; the withdrawals; what was made with blank
/// places; the captures of both versions; and, from sessions without a withdrawal, the captures written
/// after each sort of order, and the margins, marks, blank places and doubtful ones, a frame each.
#[derive(Clone, Debug, Default, PartialEq, Eq)]
pub struct Tally {
    /// By letter and number; a look-up's number is the part's length.
    answers: BTreeMap<(char, u16), usize>,
    pub written: Written,
    pub withdrawals: Withdrawals,
    pub blanks: Blanks,
    pub versions: VersionCounts,
    pub doubts: Doubts,
    pub marks: Marks,
    pub margins: Margins,
}

impl Tally {
    /// How many calls were compared.
    pub fn calls(&self) -> usize {
        self.answers.values().sum()
    }

    fn count(&mut self, call: &Call, answer: &[u8]) {
        let number = match call {
            Call::LookUp { .. } => u16::from_be_bytes([answer[0], answer[1]]),
            _ => u16::from(answer[0]),
        };
        if let (Call::Open { doubtful, .. }, 4) = (call, number) {
            self.doubts.count_refused(doubtful.len() as u64);
        }
        let answer = (char::from(call.letter()), number);
        *self.answers.entry(answer).or_default() += 1;
    }

    /// Counts a frame by the session and the answer of a closing that decoded it.
    fn count_frame(&mut self, kind: Kind, session: &Session, answer: &[u8]) {
        let number = answer[0];
        let report = &answer[answer.len() - REPORT_BYTES..];
        let margin = margin_of(report).filter(|_| number == 0);
        if number == 0 {
            self.margins.count(margin);
            self.marks.count(mark_of(report));
        }
        let came = match number {
            0 => Some(Came::of_report(report)),
            9 => Some(Came::NoneNear),
            _ => None,
        };
        if let Some(came) = came {
            let doubt = session.doubtful().len();
            self.doubts.count(session.rate(), doubt, came);
        }
        let faded = faded(kind, session);
        self.blanks.count(&faded, number, margin);
    }

    fn add(&mut self, other: Tally) {
        for (answer, times) in other.answers {
            *self.answers.entry(answer).or_default() += times;
        }
        self.written.add(other.written);
        self.withdrawals.add(other.withdrawals);
        self.blanks.add(other.blanks);
        self.versions.add(other.versions);
        self.doubts.add(other.doubts);
        self.marks.add(other.marks);
        self.margins.add(other.margins);
    }
}

impl fmt::Display for Tally {
    /// Each letter once, then its numbers and how often they came; the margins last.
    fn fmt(&self, out: &mut fmt::Formatter) -> fmt::Result {
        let mut last = ' ';
        for ((letter, number), times) in &self.answers {
            if *letter != last {
                write!(out, "{}{letter}", if last == ' ' { "" } else { "; " })?;
            }
            write!(out, " {number}: {times}")?;
            last = *letter;
        }
        let Tally {
            written,
            withdrawals,
            blanks,
            versions,
            doubts,
            marks,
            margins,
            ..
        } = self;
        write!(
            out,
            "; {written}; {withdrawals}; {blanks}; {versions}; {doubts}; {marks}; {margins}"
        )
    }
}

/// The calls of one numbered frame whose letters are among those chosen; the list with withdrawals
/// comes after the other one, where their letter is chosen.
pub fn chosen_calls(letters: &str, seed: u64, number: u64) -> Vec<Call> {
    let mut calls = call_list(seed, number);
    if letters.contains('U') {
        calls.extend(withdrawal_list(seed, number));
    }
    calls.retain(|call| letters.contains(char::from(call.letter())));
    calls
}

/// Runs a program on the chosen calls of `count` frames. What was compared, or a line that names
/// the first difference.
pub fn compare_calls(
    program: &[String],
    letters: &str,
    seed: u64,
    count: u64,
) -> Result<Tally, String> {
    let lists = |number| chosen_calls(letters, seed, number);
    let tallies = compare_lists(program, count, lists, check_answers)?;
    let mut sum = Tally::default();
    for tally in tallies {
        sum.add(tally);
    }
    Ok(sum)
}

/// Runs a program on a session for each of `count` fades. What was compared, or a line that names the
/// first difference.
pub fn compare_fades(program: &[String], seed: u64, count: u64) -> Result<FadeCounts, String> {
    let check = |fades: &[_], answers: &[u8]| check_fades(seed, fades, answers);
    let shares = compare_lists(program, count, |number| fade_session(seed, number), check)?;
    let mut sum = FadeCounts::default();
    for counts in shares {
        sum.add(counts);
    }
    Ok(sum)
}

/// The calls of a numbered fade.
pub fn fade_session(seed: u64, number: u64) -> Vec<Call> {
    Fade::numbered(seed, number).calls(&mut Random::new(!seed, number))
}

/// Checks a program's answers to the fades' calls; each is counted by what its closing answers.
pub fn check_fades(
    seed: u64,
    fades: &[(u64, Vec<Call>)],
    answers: &[u8],
) -> Result<FadeCounts, String> {
    let mut rest = answers;
    let mut counts = FadeCounts::default();
    let mut session = Session::default();
    for (number, calls) in fades {
        for (at, call) in calls.iter().enumerate() {
            let expected = call.answer(&mut session);
            rest = after(rest, &expected, call, *number, at)?;
            if call.letter() == b'X' {
                counts.count(&Fade::numbered(seed, *number), expected[0]);
            }
        }
    }
    nothing_after(rest)?;
    Ok(counts)
}

/// Runs a program on a session for each of `count` frames at every rate. What was compared, or a line
/// that names the first difference.
pub fn compare_rates(program: &[String], seed: u64, count: u64) -> Result<RateCounts, String> {
    let check = |frames: &[_], answers: &[u8]| check_rates(seed, frames, answers);
    let shares = compare_lists(program, count, |number| rate_session(seed, number), check)?;
    let mut sum = RateCounts::default();
    for counts in shares {
        sum.add(counts);
    }
    Ok(sum)
}

/// The calls of one of these frames.
pub fn rate_session(seed: u64, number: u64) -> Vec<Call> {
    RateFrame::numbered(seed, number).calls(&mut Random::new(!seed, number))
}

/// Checks a program's answers to these calls; a frame is counted by what each of its closings answers.
pub fn check_rates(
    seed: u64,
    frames: &[(u64, Vec<Call>)],
    answers: &[u8],
) -> Result<RateCounts, String> {
    let mut rest = answers;
    let mut counts = RateCounts::default();
    let mut session = Session::default();
    for (number, calls) in frames {
        let frame = RateFrame::numbered(seed, *number);
        for (at, call) in calls.iter().enumerate() {
            let expected = call.answer(&mut session);
            rest = after(rest, &expected, call, *number, at)?;
            counts.count_call(call, &expected, &session);
            if Closed::at(call, &expected, &session).is_some() {
                let report = &expected[expected.len() - REPORT_BYTES..];
                let margin = margin_of(report).filter(|_| expected[0] == 0);
                counts.count_frame(Part::Sessions, &frame, expected[0], margin);
            }
        }
    }
    nothing_after(rest)?;
    Ok(counts)
}

/// Runs a program on a session for each of `count` frames for the mark. What was compared, or a line that
/// names the first difference.
pub fn compare_marks(program: &[String], seed: u64, count: u64) -> Result<MarkCounts, String> {
    let check = |frames: &[_], answers: &[u8]| check_marks(seed, frames, answers);
    let shares = compare_lists(program, count, |number| mark_session(seed, number), check)?;
    let mut sum = MarkCounts::default();
    for counts in shares {
        sum.add(counts);
    }
    Ok(sum)
}

/// The calls of one of these frames.
pub fn mark_session(seed: u64, number: u64) -> Vec<Call> {
    MarkFrame::numbered(seed, number).calls(&mut Random::new(!seed, number))
}

/// Checks a program's answers to these calls; a frame is counted by what each of its closings answers.
pub fn check_marks(
    seed: u64,
    frames: &[(u64, Vec<Call>)],
    answers: &[u8],
) -> Result<MarkCounts, String> {
    let mut rest = answers;
    let mut counts = MarkCounts::default();
    let mut session = Session::default();
    for (number, calls) in frames {
        let frame = MarkFrame::numbered(seed, *number);
        for (at, call) in calls.iter().enumerate() {
            let expected = call.answer(&mut session);
            rest = after(rest, &expected, call, *number, at)?;
            if Closed::at(call, &expected, &session).is_some() {
                let (message, report) = expected[1..].split_at(frame.frame.rate as usize);
                counts.count(&frame, expected[0], message, report);
            }
        }
    }
    nothing_after(rest)?;
    Ok(counts)
}

/// Runs a program on a session for each of the frames for what is sure. What was compared, or a line that
/// names the first difference.
pub fn compare_sure(program: &[String], seed: u64, count: u64) -> Result<SureCounts, String> {
    let check = |frames: &[_], answers: &[u8]| check_sure(seed, frames, answers);
    let shares = compare_lists(program, count, |number| sure_session(seed, number), check)?;
    let mut sum = SureCounts::default();
    for counts in shares {
        sum.add(counts);
    }
    Ok(sum)
}

/// The calls of one of these frames.
pub fn sure_session(seed: u64, number: u64) -> Vec<Call> {
    SureFrame::numbered(seed, number).calls(&mut Random::new(!seed, number))
}

/// Checks a program's answers to these calls; a frame is counted by what each of its closings answers.
pub fn check_sure(
    seed: u64,
    frames: &[(u64, Vec<Call>)],
    answers: &[u8],
) -> Result<SureCounts, String> {
    let mut rest = answers;
    let mut counts = SureCounts::default();
    let mut session = Session::default();
    for (number, calls) in frames {
        let frame = SureFrame::numbered(seed, *number);
        for (at, call) in calls.iter().enumerate() {
            let expected = call.answer(&mut session);
            rest = after(rest, &expected, call, *number, at)?;
            if matches!(call, Call::Close { .. }) {
                let (message, report) = expected[1..].split_at(frame.frame.rate as usize);
                let untouched = expected[1..].iter().all(|byte| *byte == LENT);
                counts.count(&frame, expected[0], [message, report], untouched);
            }
        }
    }
    nothing_after(rest)?;
    Ok(counts)
}

/// Runs a program on calls of the elimination engine at every rate. What was compared, or a line that names
/// the first difference.
pub fn compare_engines(program: &[String], seed: u64) -> Result<EngineCounts, String> {
    let turns = turns();
    let shares = in_shares((turns.len() * ROUNDS) as u64, |numbers| {
        let words: Vec<EngineWord> = numbers
            .map(|number| EngineWord::made(&turns, seed, number))
            .collect();
        let calls = words.iter().flat_map(|word| word.call.bytes()).collect();
        check_engines(&words, &output_of(program, calls)?)
    })?;
    let mut sum = EngineCounts::default();
    for counts in shares {
        sum.add(counts);
    }
    Ok(sum)
}

/// Checks a program's answers to these calls, the engine's and the tree's.
pub fn check_engines(words: &[EngineWord], answers: &[u8]) -> Result<EngineCounts, String> {
    let mut rest = answers;
    let mut counts = EngineCounts::default();
    for word in words {
        let answer = word.call.answer();
        let expected = answer.bytes();
        rest = rest.strip_prefix(&expected[..]).ok_or_else(|| {
            let EngineWord { rate, turn, .. } = word;
            let difference = difference(&expected, rest);
            format!("engine at rate {rate}, {turn:?}: {difference}")
        })?;
        counts.count(word, &answer);
    }
    nothing_after(rest)?;
    Ok(counts)
}

/// Checks a program's answers to the frames' calls, which one session after the other takes.
pub fn check_answers(frames: &[(u64, Vec<Call>)], answers: &[u8]) -> Result<Tally, String> {
    let mut rest = answers;
    let mut tally = Tally::default();
    let mut session = Session::default();
    let mut opened = None;
    let mut since = Since::default();
    for (number, calls) in frames {
        let mut closed = None;
        let mut withdrawals = Withdrawals::default();
        for (at, call) in calls.iter().enumerate() {
            let before = session.clone();
            let expected = call.answer(&mut session);
            rest = after(rest, &expected, call, *number, at)?;
            tally.count(call, &expected);
            tally.blanks.count_call(call, &expected, &session);
            tally.versions.count_call(call, &expected);
            for event in since.events(call, expected[0], &before) {
                withdrawals.count(event);
            }
            if !since.nothing() {
                continue;
            }
            opened = capture_after(call, &expected, opened);
            if let (Call::WriteCapture { .. }, [0, bytes @ ..]) = (call, &expected[..]) {
                let places: Vec<u8> = session.row().iter().map(|(place, _)| *place).collect();
                tally.written.count(&places, opened, bytes);
            }
            closed = Closed::at(call, &expected, &session).or(closed);
        }
        if let Some(Closed { session, answer }) = closed {
            let kind = Kind::numbered(*number);
            tally.count_frame(kind, &session, &answer);
        }
        tally.withdrawals.add_list(withdrawals);
    }
    nothing_after(rest)?;
    Ok(tally)
}

/// The answers after the one expected of a frame's call, or a line that names the difference.
fn after<'a>(
    answers: &'a [u8],
    expected: &[u8],
    call: &Call,
    number: u64,
    at: usize,
) -> Result<&'a [u8], String> {
    answers.strip_prefix(expected).ok_or_else(|| {
        let letter = char::from(call.letter());
        let difference = difference(expected, answers);
        format!("frame {number}, call {at} ({letter}): {difference}")
    })
}

fn nothing_after(rest: &[u8]) -> Result<(), String> {
    match rest.len() {
        0 => Ok(()),
        length => Err(format!("{length} bytes after the last answer")),
    }
}

/// The capture that the session after a call was opened with, by the one before it.
fn capture_after<'a>(call: &'a Call, answer: &[u8], before: Option<&'a [u8]>) -> Option<&'a [u8]> {
    match call {
        Call::OpenCapture { capture } if answer[0] == 0 => Some(capture),
        Call::OpenCapture { .. } | Call::Open { .. } => None,
        _ => before,
    }
}

/// The session and the answer of a closing that decoded: it was accepted, or refused with 9 or 12.
struct Closed {
    session: Session,
    answer: Vec<u8>,
}

impl Closed {
    fn at(call: &Call, answer: &[u8], session: &Session) -> Option<Closed> {
        let decoded = call.letter() == b'X' && [0, 9, 12].contains(&answer[0]);
        decoded.then(|| Closed {
            session: session.clone(),
            answer: answer.to_vec(),
        })
    }
}

/// What is counted of the blank places of a session's frame.
fn faded(kind: Kind, session: &Session) -> Faded {
    Faded::of(kind, session.rate(), &session.columns(), session.doubtful())
}

/// A few bytes from the first that differs.
fn difference(expected: &[u8], got: &[u8]) -> String {
    let same = expected.iter().zip(got).take_while(|(e, g)| e == g).count();
    let some = |bytes: &[u8]| format!("{:02x?}", &bytes[same..bytes.len().min(same + 8)]);
    let (length, expected, got) = (expected.len(), some(expected), some(got));
    format!("byte {same} of {length}: expected {expected}, got {got}")
}

/// The number of captures compared, their sorts, and the margins shown for them and the blank and the
/// doubtful places in them.
#[derive(Clone, Debug, Default, PartialEq, Eq)]
pub struct Shown {
    pub captures: u64,
    pub versions: VersionCounts,
    pub margins: Margins,
    pub blanks: Blanks,
    pub doubts: Doubts,
}

impl Shown {
    /// Counts the capture of a frame of a kind, by the lines shown for it.
    fn count(&mut self, kind: Kind, capture: &[u8], lines: &str) {
        self.captures += 1;
        let margin = margin_shown(lines);
        if let Some(margin) = margin {
            self.margins.count(margin);
        }
        let opened = open_capture(capture);
        self.versions
            .count_opening(capture, refusal::number(&opened));
        if let Ok(session) = opened {
            let margin = margin.flatten();
            let number = number_shown(lines);
            self.blanks.count(&faded(kind, &session), number, margin);
            let came = match number {
                0 => Some(Came::Answered {
                    tests: tests_shown(lines),
                    margin: margin.is_some(),
                }),
                9 => Some(Came::NoneNear),
                _ => None,
            };
            if let Some(came) = came {
                let doubt = session.doubtful().len();
                self.doubts.count(session.rate(), doubt, came);
            }
        }
    }

    fn add(&mut self, other: Shown) {
        self.captures += other.captures;
        self.versions.add(other.versions);
        self.margins.add(other.margins);
        self.blanks.add(other.blanks);
        self.doubts.add(other.doubts);
    }
}

/// Runs a program on `count` captures of numbered frames, every second one damaged, every second one of
/// these with the faults of both versions by turns. What was compared, or a line that names the first
/// difference.
pub fn compare_shows(program: &[String], seed: u64, count: u64) -> Result<Shown, String> {
    let shares = in_shares(count, |numbers| {
        let mut shown = Shown::default();
        for number in numbers {
            let capture = numbered_capture(seed, number);
            let expected = show(&capture);
            shown_alike(program, number, capture.clone(), &expected)?;
            shown.count(Kind::numbered(number / 2), &capture, &expected);
        }
        Ok(shown)
    })?;
    let mut sum = Shown::default();
    for shown in shares {
        sum.add(shown);
    }
    Ok(sum)
}

/// Runs a program on the captures of `count` frames at every rate. What was compared, or a line that names
/// the first difference.
pub fn compare_rate_shows(program: &[String], seed: u64, count: u64) -> Result<RateCounts, String> {
    let shares = in_shares(count, |numbers| {
        let mut counts = RateCounts::default();
        for number in numbers {
            let frame = RateFrame::numbered(seed, number);
            let places = Random::new(!seed, number).shuffled(0..64);
            let capture = capture_of(&frame.frame, &places);
            let expected = show(&capture);
            shown_alike(program, number, capture, &expected)?;
            let margin = margin_shown(&expected).flatten();
            counts.count_frame(Part::Shows, &frame, number_shown(&expected), margin);
        }
        Ok(counts)
    })?;
    let mut sum = RateCounts::default();
    for counts in shares {
        sum.add(counts);
    }
    Ok(sum)
}

/// A line that names the difference where a program prints other lines for a capture.
fn shown_alike(
    program: &[String],
    number: u64,
    capture: Vec<u8>,
    expected: &str,
) -> Result<(), String> {
    let got = output_of(program, capture)?;
    if got == expected.as_bytes() {
        return Ok(());
    }
    let got = String::from_utf8_lossy(&got);
    Err(format!(
        "capture {number}: expected {expected:?}, got {got:?}"
    ))
}

/// The number in a line `refused N`, or 0.
fn number_shown(lines: &str) -> u8 {
    let number = lines.strip_prefix("refused ");
    number.map_or(0, |number| number.trim_end().parse().expect("a number"))
}

/// The test words near in the first of two lines.
fn tests_shown(lines: &str) -> u16 {
    let tests = lines.split(' ').nth(3);
    tests.expect("seven numbers").parse().expect("a number")
}

/// The margin, or `-`, at the end of the first of two lines.
fn margin_shown(lines: &str) -> Option<Option<u32>> {
    let (heading, message) = lines.split_once('\n')?;
    let margin = heading.rsplit(' ').next()?;
    (!message.is_empty()).then(|| margin.parse().ok())
}

/// The capture of a numbered frame in random order; damaged where the number is odd, by turns anyhow and
/// with the faults of both versions.
pub fn numbered_capture(seed: u64, number: u64) -> Vec<u8> {
    let mut random = Random::new(seed, number);
    let frame = Frame::numbered(seed, number / 2);
    let places = random.shuffled(0..64);
    match number % 4 {
        1 => damaged(&capture_of(&frame, &places), &mut random),
        3 => spoilt(&frame, &places, number / 4, &mut random),
        _ => capture_of(&frame, &places),
    }
}

/// Runs a program on the calls of each number below `count`, in shares, and checks its answers.
fn compare_lists<T: Send>(
    program: &[String],
    count: u64,
    list: impl Fn(u64) -> Vec<Call> + Sync,
    check: impl Fn(&[(u64, Vec<Call>)], &[u8]) -> Result<T, String> + Sync,
) -> Result<Vec<T>, String> {
    in_shares(count, |numbers| {
        let lists: Vec<(u64, Vec<Call>)> = numbers.map(|number| (number, list(number))).collect();
        let calls = lists.iter().flat_map(|(_, calls)| calls);
        let answers = output_of(program, calls.flat_map(Call::bytes).collect())?;
        check(&lists, &answers)
    })
}

/// Does the numbers below `count` in as many shares as there are processors.
fn in_shares<T: Send>(
    count: u64,
    share: impl Fn(std::iter::StepBy<std::ops::Range<u64>>) -> Result<T, String> + Sync,
) -> Result<Vec<T>, String> {
    let shares = thread::available_parallelism().map_or(1, |shares| shares.get());
    let share = &share;
    thread::scope(|scope| {
        let start = |first| scope.spawn(move || share((first as u64..count).step_by(shares)));
        let started: Vec<_> = (0..shares).map(start).collect();
        started
            .into_iter()
            .map(|share| share.join().expect("a thread that ends"))
            .collect()
    })
}

/// What a program writes when it reads this input.
fn output_of(program: &[String], input: Vec<u8>) -> Result<Vec<u8>, String> {
    let (name, arguments) = program.split_first().ok_or("no program named")?;
    let mut child = Command::new(name)
        .args(arguments)
        .stdin(Stdio::piped())
        .stdout(Stdio::piped())
        .spawn()
        .map_err(|error| format!("{name}: {error}"))?;
    let mut stdin = child.stdin.take().expect("a pipe");
    let mut output = Vec::new();
    thread::scope(|scope| {
        // A program that ends early leaves the pipe broken; its output then shows what is missing.
        scope.spawn(move || stdin.write_all(&input));
        child
            .stdout
            .take()
            .expect("a pipe")
            .read_to_end(&mut output)
    })
    .map_err(|error| format!("{name}: {error}"))?;
    child.wait().map_err(|error| format!("{name}: {error}"))?;
    Ok(output)
}

#[cfg(test)]
mod tests {
    use super::*;
    use crate::blanks::{OF_CAPTURES, OF_LISTS};
    use crate::calls::answer_all;

    const ALL: &str = "OCDRWXLU";

    #[test]
    fn right_answers_pass_and_any_changed_byte_is_named() {
        let frames = [(3, chosen_calls(ALL, 70, 3)), (4, chosen_calls(ALL, 70, 4))];
        let calls = frames.iter().flat_map(|(_, calls)| calls);
        let answers = answer_all(&calls.flat_map(Call::bytes).collect::<Vec<u8>>()).unwrap();
        let count: usize = frames.iter().map(|(_, calls)| calls.len()).sum();
        assert_eq!(check_answers(&frames, &answers).unwrap().calls(), count);
        let mut random = Random::new(71, 0);
        for _ in 0..20 {
            let mut wrong = answers.clone();
            let at = random.below(wrong.len());
            wrong[at] ^= 1;
            assert!(check_answers(&frames, &wrong)
                .unwrap_err()
                .starts_with("frame"));
        }
        assert!(check_answers(&frames, &answers[1..]).is_err());
        assert!(check_answers(&frames, &[&answers[..], &[0]].concat()).is_err());
    }

    /// Of the engine's answers too, and of the tree's beside them.
    #[test]
    fn engine_answers_are_compared_byte_by_byte() {
        let turns = turns();
        let numbers = (0..turns.len() as u64).step_by(251);
        let words: Vec<EngineWord> = numbers.map(|n| EngineWord::made(&turns, 78, n)).collect();
        let right = |word: &EngineWord| word.call.answer().bytes();
        let answers: Vec<u8> = words.iter().flat_map(right).collect();
        let counts = check_engines(&words, &answers).unwrap();
        assert_eq!(counts.calls(), words.len() as u64);
        let mut random = Random::new(79, 0);
        for _ in 0..20 {
            let mut wrong = answers.clone();
            let at = random.below(wrong.len());
            wrong[at] ^= 1;
            let line = check_engines(&words, &wrong).unwrap_err();
            assert!(line.starts_with("engine at rate"), "{line}");
        }
        assert!(check_engines(&words, &answers[..answers.len() - 1]).is_err());
        assert!(check_engines(&words, &[&answers[..], &[0]].concat()).is_err());
    }

    #[test]
    fn a_difference_shows_where_it_is() {
        assert_eq!(
            difference(&[2, 0xee, 0xee], &[2, 0xee, 0]),
            "byte 2 of 3: expected [ee], got [00]"
        );
        assert_eq!(difference(&[7], &[]), "byte 0 of 1: expected [07], got []");
    }

    #[test]
    fn frames_with_a_margin_are_counted_once() {
        let frames: Vec<_> = (0..26).map(|n| (n, chosen_calls(ALL, 73, n))).collect();
        let calls = frames.iter().flat_map(|(_, calls)| calls);
        let answers = answer_all(&calls.flat_map(Call::bytes).collect::<Vec<u8>>()).unwrap();
        let tally = check_answers(&frames, &answers).unwrap();
        assert_eq!(tally.margins.present(), 10);
        assert!(tally.margins.zero >= 2 && tally.margins.absent <= 16);
        assert!(tally.to_string().ends_with(&tally.margins.to_string()));
    }

    #[test]
    fn captures_are_written_after_every_sort_of_order() {
        let frames: Vec<_> = (0..25).map(|n| (n, chosen_calls(ALL, 74, n))).collect();
        let calls = frames.iter().flat_map(|(_, calls)| calls);
        let answers = answer_all(&calls.flat_map(Call::bytes).collect::<Vec<u8>>()).unwrap();
        let tally = check_answers(&frames, &answers).unwrap();
        assert_eq!(tally.written.check(25), Ok(()));
        assert!(tally.written.check(30).is_err());
        assert!(tally.to_string().contains(&tally.written.to_string()));
    }

    /// The list with withdrawals leaves the other counts as they are.
    #[test]
    fn withdrawals_are_counted_apart() {
        let tally = |letters: &str| {
            let frames: Vec<_> = (0..26).map(|n| (n, chosen_calls(letters, 75, n))).collect();
            let calls = frames.iter().flat_map(|(_, calls)| calls);
            let answers = answer_all(&calls.flat_map(Call::bytes).collect::<Vec<u8>>()).unwrap();
            check_answers(&frames, &answers).unwrap()
        };
        let (with, without) = (tally(ALL), tally("OCDRWXL"));
        assert_eq!(with.withdrawals.check(26), Ok(()));
        assert!(with.to_string().contains(&with.withdrawals.to_string()));
        assert!(without.withdrawals.check(1).is_err());
        assert_eq!(without.withdrawals, Withdrawals::default());
        assert_eq!(
            (with.written, with.margins),
            (without.written, without.margins)
        );
    }

    /// Every second round of frames has blank places: what the lists try with them comes in few
    /// rounds, each number of them in all.
    #[test]
    fn blank_places_are_counted() {
        let rounds = [0, 1, 3, 5, 7, 15, 27];
        let numbers = rounds
            .into_iter()
            .flat_map(|round| 26 * round..26 * (round + 1));
        let frames: Vec<_> = numbers
            .map(|n| (n, chosen_calls("OCDRWXLU", 76, n)))
            .collect();
        let calls = frames.iter().flat_map(|(_, calls)| calls);
        let answers = answer_all(&calls.flat_map(Call::bytes).collect::<Vec<u8>>()).unwrap();
        let tally = check_answers(&frames, &answers).unwrap();
        assert_eq!(tally.blanks.check(100, &OF_LISTS), Ok(()));
        assert!((6 * 26..=7 * 26).contains(&tally.blanks.frames()));
        assert!(tally.to_string().contains(&tally.blanks.to_string()));
        assert!(tally.blanks.check(2800, &OF_LISTS).is_err());
    }

    #[test]
    fn blank_places_of_captures_are_counted() {
        let mut shown = Shown::default();
        for number in 0..26 * 2 * 28 {
            let capture = numbered_capture(77, number);
            shown.count(Kind::numbered(number / 2), &capture, &show(&capture));
        }
        assert_eq!(shown.captures, 26 * 2 * 28);
        assert_eq!(shown.blanks.check(26 * 28, &OF_CAPTURES), Ok(()));
    }

    #[test]
    fn margins_are_read_from_what_is_shown() {
        assert_eq!(margin_shown("39 1 210 1 0 7 -\n0\n"), Some(None));
        assert_eq!(margin_shown("39 8 210 2 0 7 0\n0\n"), Some(Some(0)));
        assert_eq!(margin_shown("39 8 210 2 0 7 66000\n0\n"), Some(Some(66000)));
        assert_eq!(margin_shown("refused 9\n"), None);
        assert_eq!(number_shown("39 8 210 2 0 7 66000\n0\n"), 0);
        assert_eq!(number_shown("refused 12\n"), 12);
    }

    #[test]
    fn letters_choose_the_calls() {
        let calls = chosen_calls("ODR", 72, 0);
        assert!(calls.iter().all(|call| b"ODR".contains(&call.letter())));
        assert!(calls.len() > 64);
    }
}

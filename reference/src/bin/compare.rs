//! Compares other programs, and the proved library, with the reference.
//!
//! `compare` alone prints its subcommands.

use std::io::{self, Read, Write};
use std::process::ExitCode;
use std::time::Instant;

use reference::blanks::{OF_CAPTURES, OF_LISTS};
use reference::calls::{answer_all, Call};
use reference::damage::capture_of;
use reference::decode::{decode, test_words};
use reference::engine::answer_engine_calls;
use reference::engine_words::measured_calls;
use reference::frames::{frame, frame_s, Frame, Kind, RATES};
use reference::nearest::Finder;
use reference::random::Random;
use reference::show::show;
use reference::soft::DOUBT_LIMIT;
use reference::streams::{chosen_calls, compare_calls, compare_engines, compare_shows, Shown};
use reference::version_counts::By;

const USAGE: &str = "\
compare calls LETTERS SEED COUNT            write the calls of COUNT frames
compare answers                             read calls, write their answers
compare run LETTERS SEED COUNT PROGRAM ..   run a program on these calls and compare its answers
compare example [nine|six]                  write the capture of the bench sheet's R3, or the same with
                                            places 0 to 8 doubtful, which has version 2, or at rate 6
                                            with none doubtful
compare show                                read a capture, print what `show` prints
compare shows SEED COUNT PROGRAM ..         run a program on COUNT captures and compare
compare engines SEED PROGRAM ..             run a program on calls of the elimination engine at every rate,
                                            and compare its answers and the tree's
compare engine RATE BLANKS WRONG COUNT      write COUNT such calls with so many blank and wrong places
compare engine answers                      read such calls, write their answers
compare time COUNT                          decode COUNT frames of each sort and time them
compare code SEED COUNT                     the proved encoding and reading back (feature proved)
compare tables SEED COUNT                   the proved table decoding (feature proved)
compare fades SEED COUNT PROGRAM ..         the proved table decoding of COUNT fades (feature proved), and
                                            a program on a session for each
compare below SEED COUNT                    the proved table decoding with a threshold (feature proved)
compare bits SEED COUNT                     the proved decoding from bit values (feature proved)
compare rates SEED REPLAY SHOW              the proved decoding at every rate (feature proved), by doubt, by
                                            threshold and from bit values, a program on a session for
                                            each frame and one on its capture
compare marks SEED PROGRAM ..               the proved decoding on both sides of the mark (feature proved), by
                                            doubt and by threshold, and a program on a session for each frame
compare sure SEED PROGRAM ..                the proved decoding on both sides of what is sure with doubtful places
                                            (feature proved), by doubt, by threshold and from bit values, and
                                            a program on a session for each frame
compare superframes SEED                    the proved building and taking apart of superframes (feature proved)
compare captures SEED COUNT                 the proved decoding, sorting and making of captures (feature proved)
LETTERS are those of the calls wanted, of OCDRWXLU.
The count of frames with a margin is printed; fewer than one in six are a failure.
The counts of frames with blank places are printed, by kind, by rate and number of these places, and
by what came of them, and in lists of calls those of readings, captures and look-ups with blank
places; too few of one of them are a failure.
The counts of tables are printed in which a pinned second keeps a place from being chosen as
doubtful, by what the plain gap would have led to; too few of one of them are a failure.
The counts of frames with each number of doubtful places at each rate are printed, answered and refused
with 9, of those with more than 255 test words near and with a margin and more than eight doubtful
places, and of doubts and lists above the limit; too few of one of them are a failure.
The counts of captures of both versions are printed, opened, looked up and written, and those that a
wrong rule of versions would lead elsewhere; a size and set of faults that is missing is a failure.
The counts of captures written after places that arrived in each sort of order are printed; fewer
than one in five frames after deliveries, or one a frame after captures, are a failure, and so is a
capture that comes back unchanged and is not in place order, or the other way round.
The counts of withdrawals are printed, by the place's sort or the refusal, and those of deliveries,
readings, closings and writings after them; fewer than one a frame are a failure, or than one in six
frames where the place is doubtful or blank.
The counts of fades are printed, by what is left of the sent symbols; a rate, width, doubt and end that
is missing is a failure, in tables or in sessions, and so is a number of blank places.
The counts of each sort of thresholds are printed: of each maximum the ranks of a place that decides
the answer, with a gap one below the threshold, at it and one above, and the wrong rules that would
lead elsewhere; one that is missing is a failure.
The counts of each sort of bit values are printed; one that is missing is a failure. 8,192 frames go
round every value at every position.
The counts of what is tried at each rate are printed, encoded and read back, near and not, with blank
places, and in sessions read with each number of settled places, written, opened and looked up, with the
wrong rules that would lead elsewhere; one that is missing is a failure, and so is a frame that is near
against the rule, or a reading at rate 39 or 49 with a byte above 81 that is not zero.
The counts of superframes are printed, built and taken apart, with bursts, words beyond repair and faults,
with the wrong rules that would answer otherwise; one that is missing is a failure, and so is a call that
does not come to what it is made for.
The counts of captures decoded, sorted and made are printed, by number, with the wrong rules that would
answer otherwise; a number, rate or doubt that is missing is a failure, and so is a wrong rule told too seldom.
The counts of marked and of unmarked answers are printed; fewer than one in 25 frames of either are a
failure. Those of frames for the mark are printed, at each rate with the excess one below the slack, equal
to it and one above, with blank places, pinned ones and pinned seconds, with another codeword that costs as
much or one less, and with no gap to sum, with the wrong rules that would mark otherwise; one that is
missing is a failure, and so is an answer that is not marked as its frame is made to be, or a marked one
that another of the codewords tried costs less than.
The counts of frames for what is sure with doubtful places are printed, on both sides of its two bounds at
each rate, with each doubt and with blank places, with the wrong sentences that promise what did not come;
one that is missing is a failure, and so is a frame that does not come to what it is made for.
The counts of calls of the elimination engine are printed, by number, by wrong and blank places, and by
fault, with the wrong rules that would answer otherwise; one that is missing is a failure, and so is a call
that does not come to the number that it is made for.";

fn main() -> ExitCode {
    let arguments: Vec<String> = std::env::args().skip(1).collect();
    match run(&arguments) {
        Ok(()) => ExitCode::SUCCESS,
        Err(line) => {
            eprintln!("{line}");
            ExitCode::FAILURE
        }
    }
}

fn run(arguments: &[String]) -> Result<(), String> {
    let words: Vec<&str> = arguments.iter().map(String::as_str).collect();
    match words[..] {
        ["calls", letters, seed, count] => write_calls(letters, number(seed)?, number(count)?),
        ["answers"] => {
            let answers = answer_all(&input()?).ok_or("the input isn't whole calls")?;
            output(&answers)
        }
        ["run", letters, seed, count, _, ..] => {
            let tally = compare_calls(&arguments[4..], letters, number(seed)?, number(count)?)?;
            let calls = tally.calls();
            output(format!("{count} frames, {calls} calls alike ({tally})\n").as_bytes())?;
            if letters.contains('X') {
                tally.margins.check(number(count)?)?;
                tally.marks.check(number(count)?)?;
            }
            let chosen = |wanted: &str| wanted.chars().all(|letter| letters.contains(letter));
            if chosen("OCDW") {
                tally.written.check(number(count)?)?;
            }
            if chosen("OCDRWXU") {
                tally.withdrawals.check(number(count)?)?;
            }
            if chosen("OCDRWXL") {
                tally.blanks.check(number(count)?, &OF_LISTS)?;
                tally.versions.check(By::Lists)?;
                tally.doubts.check(number(count)?, true)?;
            }
            Ok(())
        }
        ["example"] => output(&example(39, 1)),
        ["example", "nine"] => output(&example(39, 9)),
        ["example", "six"] => output(&example(6, 0)),
        ["show"] => output(show(&input()?).as_bytes()),
        ["shows", seed, count, _, ..] => {
            let shown = compare_shows(&arguments[3..], number(seed)?, number(count)?)?;
            let Shown {
                captures,
                versions,
                margins,
                blanks,
                doubts,
            } = shown;
            let line = format!("{blanks}; {versions}; {doubts}; {margins}");
            output(format!("{captures} captures alike ({line})\n").as_bytes())?;
            blanks.check(captures / 2, &OF_CAPTURES)?;
            versions.check(By::Openings)?;
            doubts.check(captures / 2, false)?;
            margins.check(captures)
        }
        ["engines", seed, _, ..] => {
            let counts = compare_engines(&arguments[2..], number(seed)?)?;
            let calls = counts.calls();
            output(format!("{calls} calls of the engine alike ({counts})\n").as_bytes())?;
            counts.check()
        }
        ["engine", "answers"] => {
            let answers = answer_engine_calls(&input()?).ok_or("the input isn't whole calls")?;
            output(&answers)
        }
        ["engine", rate, blanks, wrong, count] => {
            let [blanks, wrong] = [number(blanks)?, number(wrong)?].map(|n| n as usize);
            let calls = measured_calls(number(rate)?, blanks, wrong, 1, number(count)?);
            let calls = calls.ok_or("no such rate, or too many places")?;
            let bytes = calls.iter().flat_map(|call| call.bytes());
            output(&bytes.collect::<Vec<u8>>())
        }
        ["time", count] => time(number(count)?),
        #[cfg(feature = "proved")]
        ["code", seed, count] => proved::code(number(seed)?, number(count)?),
        #[cfg(feature = "proved")]
        ["tables", seed, count] => proved::tables(number(seed)?, number(count)?),
        #[cfg(feature = "proved")]
        ["fades", seed, count, _, ..] => {
            proved::fades(number(seed)?, number(count)?, &arguments[3..])
        }
        #[cfg(feature = "proved")]
        ["below", seed, count] => proved::below(number(seed)?, number(count)?),
        #[cfg(feature = "proved")]
        ["bits", seed, count] => proved::bits(number(seed)?, number(count)?),
        #[cfg(feature = "proved")]
        ["rates", seed, replay, show] => proved::rates(number(seed)?, replay, show),
        #[cfg(feature = "proved")]
        ["marks", seed, _, ..] => proved::marks(number(seed)?, &arguments[2..]),
        #[cfg(feature = "proved")]
        ["sure", seed, _, ..] => proved::sure(number(seed)?, &arguments[2..]),
        #[cfg(feature = "proved")]
        ["superframes", seed] => proved::superframes(number(seed)?),
        #[cfg(feature = "proved")]
        ["captures", seed, count] => proved::captures(number(seed)?, number(count)?),
        _ => Err(USAGE.to_string()),
    }
}

/// The capture of S(7) at a rate, its places in their order, with so many doubtful from place 0 on.
fn example(rate: u64, doubt: u8) -> Vec<u8> {
    let frame = Frame {
        rate,
        doubtful: (0..doubt).collect(),
        columns: frame_s(7),
    };
    let places: Vec<u8> = (0..64).collect();
    capture_of(&frame, &places)
}

fn number(word: &str) -> Result<u64, String> {
    word.parse().map_err(|_| format!("{word} is no number"))
}

fn input() -> Result<Vec<u8>, String> {
    let mut bytes = Vec::new();
    io::stdin()
        .read_to_end(&mut bytes)
        .map_err(|error| error.to_string())?;
    Ok(bytes)
}

fn output(bytes: &[u8]) -> Result<(), String> {
    io::stdout()
        .write_all(bytes)
        .map_err(|error| error.to_string())
}

fn write_calls(letters: &str, seed: u64, count: u64) -> Result<(), String> {
    for number in 0..count {
        let calls = chosen_calls(letters, seed, number);
        output(&calls.iter().flat_map(Call::bytes).collect::<Vec<u8>>())?;
    }
    Ok(())
}

/// Times frames with eight doubtful places, and with as many as there may be, on one thread, by rate and
/// kind.
fn time(count: u64) -> Result<(), String> {
    time_with(8, count)?;
    time_with(DOUBT_LIMIT, count)
}

fn time_with(doubt: usize, count: u64) -> Result<(), String> {
    for rate in RATES {
        let finder = Finder::of_rate(rate).map_err(|refusal| format!("{refusal:?}"))?;
        for kind in [Kind::Valid, Kind::Wrong, Kind::Pair, Kind::Beyond] {
            let make = |number| frame(kind, rate, doubt, &mut Random::new(1, number));
            let frames: Vec<_> = (0..count).map(make).collect();
            let tests = frames
                .iter()
                .map(|f| test_words(&f.columns, &f.doubtful).len());
            let tests: usize = tests.sum();
            let start = Instant::now();
            let answers = frames
                .iter()
                .filter_map(|f| decode(finder, &f.columns, &f.doubtful).ok());
            let near: u64 = answers.map(|answer| u64::from(answer.tests)).sum();
            let micros = start.elapsed().as_secs_f64() * 1e6 / tests as f64;
            output(
                format!(
                    "rate {rate}, doubt {doubt}, {kind:?}: {tests} test words, {near} near, {micros:.2} µs each\n"
                )
                .as_bytes(),
            )?;
        }
    }
    Ok(())
}

#[cfg(feature = "proved")]
mod proved {
    use reference::blanks::OF_TABLES;
    use reference::code::RATE_COUNT;
    use reference::mark_counts::MarkCounts;
    use reference::mark_frames::{FEW_MARK_TURNS, MARK_TURNS};
    use reference::proved::{
        PROVED, PROVED_BELOW, PROVED_BITS, PROVED_CAPTURES, PROVED_SUPERFRAMES, PROVED_TABLE,
    };
    use reference::rate_counts::{Part, RateCounts};
    use reference::rates::{FEW_TURNS, TURNS};
    use reference::streams::{
        compare_fades, compare_marks, compare_rate_shows, compare_rates, compare_sure,
    };
    use reference::superframe_turns::turns;
    use reference::sure_counts::{SureCounts, SurePart};
    use reference::sure_frames::{FEW_SURE_TURNS, SURE_TURNS};
    use reference::trials::{
        below_trial, bits_trial, compare, encode_trial, fade_trial, mark_below_trial,
        mark_table_trial, rate_below_trial, rate_bits_trial, rate_table_trial, read_back_trial,
        superframe_trial, sure_below_trial, sure_bits_trial, sure_table_trial, table_trial,
        Difference, Tally, Trial, REFERENCE, REFERENCE_BELOW, REFERENCE_BITS,
        REFERENCE_SUPERFRAMES, REFERENCE_TABLE,
    };
    use reference::whole_captures::compare_captures;

    pub fn code(seed: u64, count: u64) -> Result<(), String> {
        let both = [&REFERENCE, &PROVED];
        let mut rates = report("encode", encode_trial, both, seed, count)?.rates;
        rates.add(report("read back", read_back_trial, both, seed, count)?.rates);
        told("code", &rates, Part::Code)
    }

    /// Prints what was tried at each rate, and fails where something is missing.
    fn told(name: &str, rates: &RateCounts, part: Part) -> Result<(), String> {
        super::output(format!("{name}: {}\n", rates.line(part)).as_bytes())?;
        rates.check(part)
    }

    /// Frames at every rate: all turns as tables, a few of them with a threshold, from bit values, as
    /// sessions of a program and as captures of another.
    pub fn rates(seed: u64, replay: &str, show: &str) -> Result<(), String> {
        let [count, few] = [TURNS, FEW_TURNS].map(|turns| (RATE_COUNT * turns) as u64);
        let both = [&REFERENCE_TABLE, &PROVED_TABLE];
        let name = "decode table at every rate";
        let tally = report(name, rate_table_trial, both, seed, count)?;
        told(name, &tally.rates, Part::Tables)?;
        let both = [&REFERENCE_BELOW, &PROVED_BELOW];
        let name = "decode table below at every rate";
        let tally = report(name, rate_below_trial, both, seed, few)?;
        told(name, &tally.rates, Part::Thresholds)?;
        let both = [&REFERENCE_BITS, &PROVED_BITS];
        let name = "decode bits at every rate";
        let tally = report(name, rate_bits_trial, both, seed, few)?;
        told(name, &tally.rates, Part::Bits)?;
        let counts = compare_rates(&[replay.to_string()], seed, few)?;
        told(&format!("{few} sessions alike"), &counts, Part::Sessions)?;
        let counts = compare_rate_shows(&[show.to_string()], seed, few)?;
        told(&format!("{few} captures alike"), &counts, Part::Shows)
    }

    /// Frames for the mark: all turns as tables, a few of them with a threshold and as sessions of a program.
    pub fn marks(seed: u64, program: &[String]) -> Result<(), String> {
        let [count, few] = [MARK_TURNS, FEW_MARK_TURNS].map(|turns| (RATE_COUNT * turns) as u64);
        let marked = |name: &str, counts: &MarkCounts| {
            super::output(format!("{name}: {counts}\n").as_bytes())?;
            counts.check()
        };
        let both = [&REFERENCE_TABLE, &PROVED_TABLE];
        let name = "decode table beside the mark";
        let tally = report(name, mark_table_trial, both, seed, count)?;
        marked(name, &tally.mark_sorts)?;
        let both = [&REFERENCE_BELOW, &PROVED_BELOW];
        let name = "decode table below beside the mark";
        let tally = report(name, mark_below_trial, both, seed, few)?;
        marked(name, &tally.mark_sorts)?;
        let counts = compare_marks(program, seed, few)?;
        marked(&format!("{few} sessions alike"), &counts)
    }

    /// Frames for what is sure: all turns as tables, a few of them with a threshold, from bit values and as
    /// sessions of a program.
    pub fn sure(seed: u64, program: &[String]) -> Result<(), String> {
        let [count, few] = [SURE_TURNS, FEW_SURE_TURNS].map(|turns| (RATE_COUNT * turns) as u64);
        let told = |name: &str, counts: &SureCounts, part: SurePart| {
            super::output(format!("{name}: {}\n", counts.line(part)).as_bytes())?;
            counts.check(part)
        };
        let both = [&REFERENCE_TABLE, &PROVED_TABLE];
        let name = "decode table beside what is sure";
        let tally = report(name, sure_table_trial, both, seed, count)?;
        told(name, &tally.sure, SurePart::Tables)?;
        let both = [&REFERENCE_BELOW, &PROVED_BELOW];
        let name = "decode table below beside what is sure";
        let tally = report(name, sure_below_trial, both, seed, few)?;
        told(name, &tally.sure, SurePart::Thresholds)?;
        let both = [&REFERENCE_BITS, &PROVED_BITS];
        let name = "decode bits beside what is sure";
        let tally = report(name, sure_bits_trial, both, seed, few)?;
        told(name, &tally.sure, SurePart::Bits)?;
        let counts = compare_sure(program, seed, few)?;
        told(
            &format!("{few} sessions alike"),
            &counts,
            SurePart::Sessions,
        )
    }

    /// Superframes built and taken apart, each turn once.
    pub fn superframes(seed: u64) -> Result<(), String> {
        let both = [&REFERENCE_SUPERFRAMES, &PROVED_SUPERFRAMES];
        let count = turns().len() as u64;
        let tally = report("superframes", superframe_trial, both, seed, count)?;
        super::output(format!("superframes: {}\n", tally.superframes).as_bytes())?;
        tally.superframes.check()
    }

    /// Whole captures, each call with the next sort of capture, fault and size.
    pub fn captures(seed: u64, count: u64) -> Result<(), String> {
        let counts = compare_captures(&PROVED_CAPTURES, seed, count)?;
        super::output(format!("{count} calls on captures alike ({counts})\n").as_bytes())?;
        counts.check()
    }

    pub fn tables(seed: u64, count: u64) -> Result<(), String> {
        let both = [&REFERENCE_TABLE, &PROVED_TABLE];
        let tally = report("decode table", table_trial, both, seed, count)?;
        let Tally {
            margins,
            blanks,
            choices,
            doubts,
            rates,
            marks,
            ..
        } = tally;
        let rates_line = rates.line(Part::Unknown);
        let line = format!("{blanks}; {choices}; {doubts}; {rates_line}; {marks}; {margins}");
        super::output(format!("decode table: {line}\n").as_bytes())?;
        rates.check(Part::Unknown)?;
        blanks.check(count, &OF_TABLES)?;
        choices.check(count)?;
        doubts.check(count, true)?;
        marks.check(count)?;
        margins.check(count)
    }

    /// Fades as tables, and as sessions of a program.
    pub fn fades(seed: u64, count: u64, program: &[String]) -> Result<(), String> {
        let both = [&REFERENCE_TABLE, &PROVED_TABLE];
        let tally = report("decode table", fade_trial, both, seed, count)?;
        let Tally { fades, marks, .. } = tally;
        super::output(format!("decode table: {fades}; {marks}\n").as_bytes())?;
        let sessions = compare_fades(program, seed, count)?;
        super::output(format!("{count} sessions alike ({sessions})\n").as_bytes())?;
        fades.check()?;
        marks.check(count)?;
        sessions.check()
    }

    pub fn below(seed: u64, count: u64) -> Result<(), String> {
        let both = [&REFERENCE_BELOW, &PROVED_BELOW];
        let tally = report("decode table below", below_trial, both, seed, count)?;
        let Tally {
            below,
            rates,
            marks,
            ..
        } = tally;
        let rates_line = rates.line(Part::Unknown);
        super::output(format!("decode table below: {below}; {rates_line}; {marks}\n").as_bytes())?;
        rates.check(Part::Unknown)?;
        marks.check(count)?;
        below.check()
    }

    pub fn bits(seed: u64, count: u64) -> Result<(), String> {
        let both = [&REFERENCE_BITS, &PROVED_BITS];
        let tally = report("decode bits", bits_trial, both, seed, count)?;
        let Tally {
            bits, rates, marks, ..
        } = tally;
        let rates_line = rates.line(Part::Unknown);
        super::output(format!("decode bits: {bits}; {rates_line}; {marks}\n").as_bytes())?;
        rates.check(Part::Unknown)?;
        marks.check(count)?;
        bits.check()
    }

    /// Prints how often each number was returned; the counts are handed back.
    fn report<L: Sync>(
        name: &str,
        trial: Trial<L>,
        libraries: [&L; 2],
        seed: u64,
        count: u64,
    ) -> Result<Tally, String> {
        let tally = compare(trial, libraries, seed, count).map_err(|difference| {
            let Difference { trial, outcomes } = difference;
            let [expected, got] = *outcomes;
            format!("{name}: trial {trial} of seed {seed}: expected {expected:x?}, got {got:x?}")
        })?;
        let returned = tally.numbers.iter().enumerate();
        let returned: Vec<String> = returned
            .filter(|(_, times)| **times > 0)
            .map(|(n, times)| format!("{n}: {times}"))
            .collect();
        super::output(format!("{name}: {count} alike ({})\n", returned.join(", ")).as_bytes())?;
        Ok(tally)
    }
}

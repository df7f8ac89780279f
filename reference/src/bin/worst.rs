//! The search of `bench/worst`: of many frames those that cost most.
//!
//! `worst FOLDER COUNT` counts the field multiplications of COUNT frames with eight doubtful places, as
//! many at each rate: half of them drawn, and the others changed a little from those that cost most until
//! then, in rounds. Of the [`PARENTS`] dearest it counts the instructions, and prints the [`KEPT`] that
//! take most, none of them changed from the same drawn one as another. FOLDER takes callgrind's files and holds `counted`, which `bench/counted` builds. `worst
//! calls RATE NUMBERS ..` makes the calls of these frames once, for callgrind.

use std::path::Path;
use std::process::ExitCode;

use reference::counted::{answered, grouped, instructions, multiplications};
use reference::decode::{table_of_columns, REPORT_BYTES};
use reference::frames::RATES;
use reference::measured::{Form, Measured, CALLS};
use reference::proved::PROVED_TABLE;
use reference::trials::{DecodeTable, REFERENCE_TABLE};
use reference::worst::{Drawn, DRAWN_DOUBT};

/// The frames that are printed: as many as the benchmark has of a case.
const KEPT: usize = CALLS as usize;

/// The frames that others are changed from, and the most of these that come from the same drawn one.
const PARENTS: usize = 96;
const SIBLINGS: usize = 4;

/// The rounds of changed frames.
const ROUNDS: usize = 16;

/// So many frames are counted at a time.
const BATCH: usize = 2000;

/// A frame and what it costs.
type Counted = (u64, Drawn);

fn main() -> ExitCode {
    let arguments: Vec<String> = std::env::args().skip(1).collect();
    let words: Vec<&str> = arguments.iter().map(String::as_str).collect();
    let done = match words[..] {
        ["calls", rate, ref frames @ ..] => make_calls(rate, frames),
        [folder, count] => match count.parse() {
            Ok(count @ 200..) => print_all(Path::new(folder), count),
            _ => Err("a number of frames from 200 on".to_string()),
        },
        _ => Err("worst FOLDER COUNT, or worst calls RATE NUMBERS ..".to_string()),
    };
    match done {
        Ok(()) => ExitCode::SUCCESS,
        Err(line) => {
            eprintln!("{line}");
            ExitCode::FAILURE
        }
    }
}

fn make_calls(rate: &str, frames: &[&str]) -> Result<(), String> {
    for numbers in frames {
        let name = format!("{rate} {numbers}");
        let drawn = Drawn::named(&name).ok_or(format!("{name} is no frame"))?;
        answer(PROVED_TABLE, &call(&drawn));
    }
    Ok(())
}

fn call(drawn: &Drawn) -> Measured {
    let table = table_of_columns(&drawn.columns());
    Form::Doubt(DRAWN_DOUBT).call(drawn.rate, table)
}

/// The number returned, and the bytes of message and report, as `counted` prints them.
fn answer(decode_table: DecodeTable, call: &Measured) -> String {
    let (mut message, mut report) = (vec![0; call.rate as usize], vec![0; REPORT_BYTES]);
    let doubt = call.doubt as u64;
    let number = decode_table(call.rate, &call.given, doubt, &mut message, &mut report);
    answered(number, &[&message, &report])
}

fn print_all(folder: &Path, count: usize) -> Result<(), String> {
    for rate in RATES {
        let drawn = count / 2 / RATES.len();
        let found = search(folder, rate, drawn)?;
        print(rate, drawn, &instructions_of(folder, rate, &found)?);
    }
    Ok(())
}

/// The frames of a rate that cost most, dearest first: so many are drawn, and as many changed.
fn search(folder: &Path, rate: u64, drawn: usize) -> Result<Vec<Counted>, String> {
    let mut done = 0;
    let mut dearest = Vec::new();
    let mut next = |frames: Vec<Drawn>, dearest: &mut Vec<Counted>| -> Result<(), String> {
        for batch in frames.chunks(BATCH) {
            dearest.extend(counted(folder, batch)?);
            keep(dearest, SIBLINGS, PARENTS);
            done += batch.len();
            eprint!("\rrate {rate}: {done} frames   ");
        }
        Ok(())
    };
    for first in (0..drawn).step_by(BATCH) {
        let numbers = first..drawn.min(first + BATCH);
        let frames = numbers.map(|number| Drawn::made(rate, &[number as u64]));
        next(frames.collect(), &mut dearest)?;
    }
    for round in 0..ROUNDS {
        let numbers = drawn * round / ROUNDS..drawn * (round + 1) / ROUNDS;
        let parents = dearest.clone();
        let child = |number: usize| parents[number % parents.len()].1.changed(number as u64);
        next(numbers.map(child).collect(), &mut dearest)?;
    }
    eprintln!();
    Ok(dearest)
}

/// Keeps the dearest in their order: each frame once, and at most so many from the same drawn one and in
/// all.
fn keep(frames: &mut Vec<Counted>, siblings: usize, most: usize) {
    frames.sort_by(|(a, _), (b, _)| b.cmp(a));
    let mut kept: Vec<Counted> = Vec::new();
    for (cost, frame) in frames.drain(..) {
        let first = frame.numbers[0];
        let others = kept.iter().filter(|(_, other)| other.numbers[0] == first);
        let known = kept.iter().any(|(_, other)| other.is_like(&frame));
        if others.count() < siblings && !known && kept.len() < most {
            kept.push((cost, frame));
        }
    }
    *frames = kept;
}

/// The multiplications of each frame; `counted` must answer as the library does.
fn counted(folder: &Path, frames: &[Drawn]) -> Result<Vec<Counted>, String> {
    let calls: Vec<Measured> = frames.iter().map(call).collect();
    let counts = multiplications(folder, &calls)?;
    let all = frames.iter().zip(&calls).zip(counts);
    all.map(
        |((frame, call), (count, told))| match answer(PROVED_TABLE, call) == told {
            true => Ok((count, frame.clone())),
            false => Err(format!("counted answers otherwise on {frame}: {told}")),
        },
    )
    .collect()
}

/// The frames by their instructions, dearest first; the reference must answer as the library does.
fn instructions_of(folder: &Path, rate: u64, found: &[Counted]) -> Result<Vec<Counted>, String> {
    let mut arguments = vec!["calls".to_string(), rate.to_string()];
    for (_, frame) in found {
        let call = call(frame);
        if answer(PROVED_TABLE, &call) != answer(REFERENCE_TABLE, &call) {
            return Err(format!("the libraries differ on {frame}"));
        }
        arguments.push(frame.numbers());
    }
    let dumps = folder.join(format!("callgrind.worst.{rate}"));
    let function = "hermitian_decode_table";
    let costs = instructions(&dumps, function, &arguments, found.len() as u64)?;
    let frames = found.iter().map(|(_, frame)| frame.clone());
    let mut costs: Vec<Counted> = costs.into_iter().zip(frames).collect();
    keep(&mut costs, 1, KEPT);
    Ok(costs)
}

fn print(rate: u64, drawn: usize, found: &[Counted]) {
    let drawn = grouped(drawn as u64);
    println!(
        "Rate {rate}, doubt {DRAWN_DOUBT}, {drawn} frames drawn and {drawn} changed. The {KEPT} that took \
         most, by their instructions:"
    );
    println!();
    for (instructions, frame) in found {
        let instructions = grouped(*instructions);
        let [wrong, doubtful, blank] = frame.counts();
        let near = match answer(PROVED_TABLE, &call(frame)).starts_with("0 ") {
            true => "answered",
            false => "none near",
        };
        println!(
            "{frame}: {instructions}, {near}; {wrong} settled and {doubtful} doubtful places wrong, \
             {blank} blank"
        );
    }
    println!();
}

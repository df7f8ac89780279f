//! Table decoding by doubt beside table decoding by threshold and maximum, by the proved library: random
//! codewords through BPSK and white Gaussian noise, the frames of `error_rates`.
//!
//! `thresholds FOLDER [FRAMES]` prints tables of failures and costs; FOLDER takes callgrind's files and
//! holds `counted`, which `bench/counted` builds. `thresholds calls RATE QUARTER DOUBT [THRESHOLD]` makes
//! the calls of a point that are counted once, for callgrind; with a threshold the doubt is the maximum.
//!
//! A frame fails if it is refused or its message is not the one sent. All forms of a rate have the same
//! frames.

use std::path::{Path, PathBuf};
use std::process::ExitCode;
use std::sync::atomic::{AtomicUsize, Ordering};
use std::sync::Mutex;
use std::thread;

use reference::channel::Channel;
use reference::counted::{answered, grouped, instructions_of_all, multiplications};
use reference::decode::{table_of_columns, REPORT_BYTES};
use reference::frames::RATES;
use reference::measured::{Form, Measured};
use reference::proved::{PROVED_BELOW, PROVED_TABLE};
use reference::sent::{decibels, Sent};

/// The frames at a point, if the command doesn't say otherwise.
const FRAMES: u64 = 10_000;

/// The instructions and multiplications of so many of them are counted.
const COUNTED: u64 = 200;

/// The points of a rate in quarters of a decibel of Eb/N0: from one failure in five frames or more with
/// eight doubtful places to a clear link.
const QUARTERS: [[u64; 7]; 2] = [[18, 20, 22, 24, 28, 32, 36], [22, 24, 26, 28, 32, 36, 40]];

/// The doubt and the maximum of the forms that are compared there.
const MOST: usize = 8;

/// The forms that are compared there.
const FORMS: [Form; 6] = [
    Form::Doubt(MOST),
    up_to_most(16),
    up_to_most(12),
    up_to_most(8),
    up_to_most(4),
    up_to_most(0),
];

const fn up_to_most(threshold: u16) -> Form {
    Form::Below {
        threshold,
        most: MOST,
    }
}

/// A table of source document 000: its rows, each with what it counts at five points.
struct Source {
    rate: u64,
    quarters: [u64; 5],
    rows: &'static [Row],
}

struct Row {
    name: &'static str,
    counts: [u64; 5],
    asked: Asked,
}

/// What a row of the source is decoded with here.
#[derive(Clone, Copy)]
enum Asked {
    Doubt(usize),
    /// A ratio of likelihoods, and at most so many places.
    Ratio(f64, usize),
}

const SOURCES: [Source; 2] = [
    Source {
        rate: 49,
        quarters: [21, 23, 25, 27, 29],
        rows: &[
            Row {
                name: "table II, Chase (LCC-1) with η = 3",
                counts: [246_000, 255_000, 257_000, 256_000, 255_000],
                asked: Asked::Doubt(3),
            },
            Row {
                name: "table II, with threshold (LCC-2), 0.1 and at most 3",
                counts: [246_000, 252_000, 243_000, 221_000, 196_000],
                asked: Asked::Ratio(0.1, 3),
            },
            Row {
                name: "table II, with threshold (LCC-2), 0.2 and at most 4",
                counts: [332_000, 306_000, 256_000, 212_000, 184_000],
                asked: Asked::Ratio(0.2, 4),
            },
        ],
    },
    Source {
        rate: 39,
        quarters: [22, 23, 24, 25, 26],
        rows: &[
            Row {
                name: "table III, Chase (LCC-1) with η = 5",
                counts: [475_000, 470_000, 466_000, 459_000, 454_000],
                asked: Asked::Doubt(5),
            },
            Row {
                name: "table III, with threshold (LCC-2), 0.4 and at most 6",
                counts: [536_000, 432_000, 342_000, 264_000, 209_000],
                asked: Asked::Ratio(0.4, 6),
            },
        ],
    },
];

impl Asked {
    fn form(self, rate: u64, quarter: u64) -> Form {
        match self {
            Asked::Doubt(doubt) => Form::Doubt(doubt),
            Asked::Ratio(ratio, most) => Form::Below {
                threshold: Channel::at(rate, decibels(quarter)).threshold(ratio),
                most,
            },
        }
    }
}

/// A form at a point.
#[derive(Clone, Copy)]
struct Cell {
    rate: u64,
    quarter: u64,
    form: Form,
}

/// What is measured of it; means, but for the failures.
#[derive(Clone, Copy, Default)]
struct Figures {
    failures: u64,
    wrong: u64,
    places: f64,
    instructions: u64,
    multiplications: u64,
}

impl Figures {
    /// The failures, and how many of them are wrong messages and not refusals, where there are any.
    fn failed(&self) -> String {
        let failures = grouped(self.failures);
        match self.wrong {
            0 => failures,
            wrong => format!("{failures}, {wrong} wrong"),
        }
    }

    fn doubtful(&self) -> String {
        format!("{:.2}", self.places)
    }

    fn cost(&self) -> String {
        grouped(self.instructions)
    }
}

fn failures_of(frames: u64) -> String {
    format!("failures of {} frames", grouped(frames))
}

fn main() -> ExitCode {
    let arguments: Vec<String> = std::env::args().skip(1).collect();
    let words: Vec<&str> = arguments.iter().map(String::as_str).collect();
    let done = match words[..] {
        ["calls", ref numbers @ ..] => make_calls(numbers),
        [folder] => print_all(Path::new(folder), FRAMES),
        [folder, frames] => match frames.parse() {
            Ok(frames @ COUNTED..) => print_all(Path::new(folder), frames),
            _ => Err(format!("a number of frames from {COUNTED} on")),
        },
        _ => Err("thresholds FOLDER [FRAMES]".to_string()),
    };
    match done {
        Ok(()) => ExitCode::SUCCESS,
        Err(line) => {
            eprintln!("{line}");
            ExitCode::FAILURE
        }
    }
}

/// The calls of a point that are counted.
fn make_calls(numbers: &[&str]) -> Result<(), String> {
    let numbers: Result<Vec<u64>, _> = numbers.iter().map(|number| number.parse()).collect();
    let (cell, form) = match numbers.as_deref() {
        Ok([rate, quarter, doubt]) => ((rate, quarter), Form::Doubt(*doubt as usize)),
        Ok([rate, quarter, most, threshold]) => (
            (rate, quarter),
            Form::Below {
                threshold: *threshold as u16,
                most: *most as usize,
            },
        ),
        _ => return Err("thresholds calls RATE QUARTER DOUBT [THRESHOLD]".to_string()),
    };
    let cell = Cell {
        rate: *cell.0,
        quarter: *cell.1,
        form,
    };
    for number in 0..COUNTED {
        answer(&cell.call(&cell.sent(number)));
    }
    Ok(())
}

/// The number returned, and the bytes of message and report.
fn answer(call: &Measured) -> (u8, Vec<u8>, Vec<u8>) {
    let Measured {
        letter,
        rate,
        doubt,
        threshold,
        given,
    } = call;
    let (mut message, mut report) = (vec![0; *rate as usize], vec![0; REPORT_BYTES]);
    let doubt = *doubt as u64;
    let number = match letter {
        b'L' => PROVED_BELOW(*rate, given, *threshold, doubt, &mut message, &mut report),
        _ => PROVED_TABLE(*rate, given, doubt, &mut message, &mut report),
    };
    (number, message, report)
}

impl Cell {
    fn sent(&self, number: u64) -> Sent {
        Sent::numbered(self.rate, self.quarter, number)
    }

    fn call(&self, sent: &Sent) -> Measured {
        let table = table_of_columns(&sent.columns());
        self.form.call(self.rate, table)
    }

    /// What comes of so many frames, and what the first of them cost; the sources that are counted must
    /// answer as the library does.
    fn figures(&self, folder: &Path, dump: &Path, frames: u64) -> Result<Figures, String> {
        let mut figures = Figures::default();
        let mut places = 0;
        let mut calls = Vec::new();
        let mut answers = Vec::new();
        for number in 0..frames {
            let sent = self.sent(number);
            let call = self.call(&sent);
            let (number, message, report) = answer(&call);
            let failed = number != 0 || !sent.came_back(&message);
            figures.failures += u64::from(failed);
            figures.wrong += u64::from(failed && number == 0);
            places += self.form.places(&sent.columns()).len();
            if calls.len() < COUNTED as usize {
                answers.push(answered(number, &[&message, &report]));
                calls.push(call);
            }
        }
        figures.places = places as f64 / frames as f64;
        let counts = multiplications(folder, &calls)?;
        let differs = counts.iter().zip(&answers).find(|((_, a), b)| a != *b);
        if let Some(((_, answer), _)) = differs {
            return Err(format!("counted answers otherwise: {answer}"));
        }
        let sum: u64 = counts.iter().map(|(count, _)| count).sum();
        figures.multiplications = (sum + COUNTED / 2) / COUNTED;
        let mut arguments = vec!["calls".to_string()];
        arguments.extend([self.rate, self.quarter].map(|number| number.to_string()));
        let function = match self.form {
            Form::Doubt(doubt) => {
                arguments.push(doubt.to_string());
                "hermitian_decode_table"
            }
            Form::Below { threshold, most } => {
                arguments.extend([most.to_string(), threshold.to_string()]);
                "hermitian_decode_table_below"
            }
        };
        let sum = instructions_of_all(dump, function, &arguments)?;
        figures.instructions = (sum + COUNTED / 2) / COUNTED;
        Ok(figures)
    }
}

/// The figures of all cells, by two threads.
fn measured(folder: &Path, cells: &[Cell], frames: u64) -> Result<Vec<Figures>, String> {
    let (next, done) = (AtomicUsize::new(0), AtomicUsize::new(0));
    let all = Mutex::new(vec![Figures::default(); cells.len()]);
    let part = || -> Result<(), String> {
        loop {
            let number = next.fetch_add(1, Ordering::Relaxed);
            let Some(cell) = cells.get(number) else {
                return Ok(());
            };
            let dump: PathBuf = folder.join(format!("callgrind.{number}"));
            let figures = cell.figures(folder, &dump, frames)?;
            all.lock().expect("no thread fails")[number] = figures;
            let done = done.fetch_add(1, Ordering::Relaxed) + 1;
            eprint!("\r{done} of {} points   ", cells.len());
        }
    };
    thread::scope(|scope| {
        let parts = [scope.spawn(part), scope.spawn(part)];
        parts
            .into_iter()
            .try_for_each(|part| part.join().expect("no thread fails"))
    })?;
    eprintln!();
    Ok(all.into_inner().expect("no thread fails"))
}

fn print_all(folder: &Path, frames: u64) -> Result<(), String> {
    for (rate, quarters) in RATES.into_iter().zip(QUARTERS) {
        print_forms(folder, rate, &quarters, frames)?;
    }
    for source in &SOURCES {
        print_source(folder, source, frames)?;
    }
    Ok(())
}

/// A table of the forms at the points of a rate: failures, and what a frame costs.
fn print_forms(folder: &Path, rate: u64, quarters: &[u64], frames: u64) -> Result<(), String> {
    let cell = |quarter, form| Cell {
        rate,
        quarter,
        form,
    };
    let cells = quarters
        .iter()
        .flat_map(|quarter| FORMS.map(|form| cell(*quarter, form)));
    let cells: Vec<Cell> = cells.collect();
    let figures = measured(folder, &cells, frames)?;
    let names = FORMS.map(|form| match form {
        Form::Doubt(doubt) => format!("doubt {doubt}"),
        Form::Below { threshold, .. } => format!("threshold {threshold}"),
    });
    type Show = fn(&Figures) -> String;
    let tables: [(String, Show); 3] = [
        (failures_of(frames), Figures::failed),
        ("mean doubtful places".to_string(), Figures::doubtful),
        (
            format!("mean instructions of {COUNTED} frames"),
            Figures::cost,
        ),
    ];
    for (what, show) in tables {
        println!("Rate {rate}, {what}:\n");
        println!("| Eb/N0 in dB | {} |", names.join(" | "));
        println!("|---|{}", "---|".repeat(names.len()));
        for (quarter, figures) in quarters.iter().zip(figures.chunks(FORMS.len())) {
            let cells: Vec<String> = figures.iter().map(show).collect();
            println!("| {:.2} | {} |", decibels(*quarter), cells.join(" | "));
        }
        println!();
    }
    Ok(())
}

/// A table of the source beside what its settings come to here.
fn print_source(folder: &Path, source: &Source, frames: u64) -> Result<(), String> {
    let rate = source.rate;
    let cells = source.rows.iter().flat_map(|row| {
        source.quarters.map(|quarter| Cell {
            rate,
            quarter,
            form: row.asked.form(rate, quarter),
        })
    });
    let cells: Vec<Cell> = cells.collect();
    let figures = measured(folder, &cells, frames)?;
    let heads = source
        .quarters
        .map(|quarter| format!("{:.2}", decibels(quarter)));
    println!("| (64, {rate}), by Eb/N0 in dB | {} |", heads.join(" | "));
    println!("|---|{}", "---|".repeat(heads.len()));
    let line = |name: &str, cells: Vec<String>| println!("| {name} | {} |", cells.join(" | "));
    let points = source.quarters.len();
    let rows = source.rows.iter().zip(cells.chunks(points));
    for ((row, cells), figures) in rows.zip(figures.chunks(points)) {
        line(
            &format!("000 {}", row.name),
            row.counts.map(grouped).to_vec(),
        );
        let by = |show: fn(&Figures) -> String| figures.iter().map(show).collect();
        let threshold = |cell: &Cell| match cell.form {
            Form::Doubt(_) => None,
            Form::Below { threshold, .. } => Some(threshold.to_string()),
        };
        let thresholds: Vec<String> = cells.iter().filter_map(threshold).collect();
        if !thresholds.is_empty() {
            line("here: that ratio as a threshold", thresholds);
            line("doubtful places", by(Figures::doubtful));
        }
        line("here: multiplications", by(|f| grouped(f.multiplications)));
        line("instructions", by(Figures::cost));
        line(&failures_of(frames), by(Figures::failed));
    }
    println!();
    Ok(())
}

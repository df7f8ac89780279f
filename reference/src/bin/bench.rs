//! The table of `bench/run`: instructions, field multiplications and frames a second, of the proved
//! library and of this package on the same calls.
//!
//! `bench FOLDER [EARLIER]` makes the table; FOLDER takes callgrind's files and holds `counted`,
//! which `bench/counted` builds; EARLIER is what an earlier run printed, to compare with. `bench calls
//! N` makes the calls of case N once, for callgrind.

use std::fs;
use std::path::Path;
use std::process::ExitCode;
use std::sync::atomic::{AtomicUsize, Ordering};
use std::sync::Mutex;
use std::thread;
use std::time::{Duration, Instant};

use reference::counted::{self, answered, grouped};
use reference::decode::REPORT_BYTES;
use reference::frames::RATES;
use reference::measured::{cases, Case, Measured, Which, CALLS};
use reference::proved::{PROVED, PROVED_TABLE};
use reference::trials::{Coding, DecodeTable, REFERENCE, REFERENCE_TABLE};

/// At least so long, and so many rounds, a case is timed on each library.
const TIMED: Duration = Duration::from_millis(400);
const ROUNDS: usize = 10;

/// The functions of one library.
struct Library {
    coding: &'static Coding,
    table: DecodeTable,
}

const LIBRARIES: [Library; 2] = [
    Library {
        coding: &PROVED,
        table: PROVED_TABLE,
    },
    Library {
        coding: &REFERENCE,
        table: REFERENCE_TABLE,
    },
];

/// What is counted of a case, call by call, and the frames a second of both libraries.
#[derive(Default)]
struct Figures {
    instructions: Vec<u64>,
    multiplications: Vec<u64>,
    speeds: [f64; 2],
}

fn main() -> ExitCode {
    let arguments: Vec<String> = std::env::args().skip(1).collect();
    let words: Vec<&str> = arguments.iter().map(String::as_str).collect();
    let done = match words[..] {
        ["calls", number] => {
            number
                .parse()
                .map_err(|_| "no number".to_string())
                .map(|number: usize| {
                    for call in cases()[number].calls() {
                        LIBRARIES[0].answer(&call);
                    }
                })
        }
        [folder] => measure(Path::new(folder), None),
        [folder, earlier] => fs::read_to_string(earlier)
            .map_err(|error| format!("{earlier}: {error}"))
            .and_then(|earlier| measure(Path::new(folder), Some(&earlier))),
        _ => Err("bench FOLDER [EARLIER], or bench calls N".to_string()),
    };
    match done {
        Ok(()) => ExitCode::SUCCESS,
        Err(line) => {
            eprintln!("{line}");
            ExitCode::FAILURE
        }
    }
}

impl Library {
    /// The number returned, and the bytes of the buffers that the call writes.
    fn answer(&self, call: &Measured) -> (u8, Vec<u8>) {
        let Measured {
            letter,
            rate,
            doubt,
            given,
            ..
        } = call;
        let mut buffer = vec![0; if *letter == b'E' { 64 } else { *rate as usize }];
        let mut report = vec![0; if *letter == b'T' { REPORT_BYTES } else { 0 }];
        let number = match letter {
            b'E' => (self.coding.encode)(*rate, given, &mut buffer, 0),
            b'B' => (self.coding.read_back)(*rate, given, &mut buffer),
            _ => (self.table)(*rate, given, *doubt as u64, &mut buffer, &mut report),
        };
        buffer.extend(report);
        (number, buffer)
    }

    /// Calls a second, by the fastest time of each call in many rounds: another load on the machine
    /// then shows least.
    fn speed(&self, calls: &[Measured]) -> f64 {
        let start = Instant::now();
        let mut fastest = vec![f64::INFINITY; calls.len()];
        let mut rounds = 0;
        while rounds < ROUNDS || start.elapsed() < TIMED {
            rounds += 1;
            for (call, fastest) in calls.iter().zip(&mut fastest) {
                let one = Instant::now();
                self.answer(call);
                *fastest = fastest.min(one.elapsed().as_secs_f64());
            }
        }
        calls.len() as f64 / fastest.iter().sum::<f64>()
    }
}

/// Times each case alone, then counts two cases at a time.
fn measure(folder: &Path, earlier: Option<&str>) -> Result<(), String> {
    let cases = cases();
    let mut figures: Vec<Figures> = Vec::new();
    for (number, case) in cases.iter().enumerate() {
        progress("timing", number, cases.len());
        let calls = case.calls();
        agree(&calls)?;
        figures.push(Figures {
            multiplications: multiplications(folder, &calls)?,
            speeds: [0, 1].map(|library| LIBRARIES[library].speed(&calls)),
            ..Figures::default()
        });
    }
    let (next, done) = (AtomicUsize::new(0), AtomicUsize::new(0));
    let counts = Mutex::new(vec![Vec::new(); cases.len()]);
    let part = || -> Result<(), String> {
        loop {
            let number = next.fetch_add(1, Ordering::Relaxed);
            let Some(case) = cases.get(number) else {
                return Ok(());
            };
            let counted = instructions(folder, number, case)?;
            counts.lock().expect("no thread fails")[number] = counted;
            progress(
                "callgrind",
                done.fetch_add(1, Ordering::Relaxed) + 1,
                cases.len(),
            );
        }
    };
    thread::scope(|scope| {
        let parts = [scope.spawn(part), scope.spawn(part)];
        parts
            .into_iter()
            .try_for_each(|part| part.join().expect("no thread fails"))
    })?;
    let counts = counts.into_inner().expect("no thread fails");
    for (figures, counts) in figures.iter_mut().zip(counts) {
        figures.instructions = counts;
    }
    eprintln!();
    let rows: Vec<Vec<String>> = cases.iter().zip(&figures).map(row).collect();
    print_table(&rows);
    print_largest(&cases, &figures);
    if let Some(earlier) = earlier {
        print_changes(earlier, &rows);
    }
    Ok(())
}

fn progress(what: &str, done: usize, of: usize) {
    eprint!("\r{what}: {done} of {of} cases   ");
}

/// Both libraries answer alike.
fn agree(calls: &[Measured]) -> Result<(), String> {
    let differs = |call: &&Measured| LIBRARIES[0].answer(call) != LIBRARIES[1].answer(call);
    match calls.iter().find(differs) {
        Some(call) => Err(format!("the libraries differ on {call:?}")),
        None => Ok(()),
    }
}

/// The multiplications of each call, by `counted`, whose answers must be the proved library's.
fn multiplications(folder: &Path, calls: &[Measured]) -> Result<Vec<u64>, String> {
    let counts = counted::multiplications(folder, calls)?;
    let count = |(call, (count, answer)): (&Measured, &(u64, String))| {
        let (number, bytes) = LIBRARIES[0].answer(call);
        match *answer == answered(number, &[&bytes]) {
            true => Ok(*count),
            false => Err(format!("counted answers otherwise: {answer}")),
        }
    };
    calls.iter().zip(&counts).map(count).collect()
}

/// The instructions of each call, inside the exported function only.
fn instructions(folder: &Path, number: usize, case: &Case) -> Result<Vec<u64>, String> {
    let function = match case.which {
        Which::Encode => "hermitian_encode",
        Which::ReadBack => "hermitian_read_back",
        Which::Table { .. } => "hermitian_decode_table",
    };
    let dumps = folder.join(format!("callgrind.{number}"));
    let arguments = ["calls".to_string(), number.to_string()];
    counted::instructions(&dumps, function, &arguments, CALLS)
}

fn mean(numbers: &[u64]) -> u64 {
    let sum: u64 = numbers.iter().sum();
    (sum + numbers.len() as u64 / 2) / numbers.len() as u64
}

fn largest(numbers: &[u64]) -> u64 {
    numbers.iter().copied().max().unwrap_or(0)
}

/// The cells of a case.
fn row((case, figures): (&Case, &Figures)) -> Vec<String> {
    let doubt = case.doubt().map(|doubt| doubt.to_string());
    vec![
        case.rate.to_string(),
        doubt.unwrap_or_default(),
        case.name(),
        grouped(mean(&figures.instructions)),
        grouped(largest(&figures.instructions)),
        grouped(mean(&figures.multiplications)),
        grouped(largest(&figures.multiplications)),
        grouped(figures.speeds[0].round() as u64),
        grouped(figures.speeds[1].round() as u64),
    ]
}

const HEADINGS: [&str; 9] = [
    "Rate",
    "Doubt",
    "Frames",
    "Instructions, mean",
    "largest",
    "Multiplications, mean",
    "largest",
    "Frames/s, proved",
    "reference",
];

fn print_table(rows: &[Vec<String>]) {
    println!("| {} |", HEADINGS.join(" | "));
    println!("|{}", "---|".repeat(HEADINGS.len()));
    for row in rows {
        println!("| {} |", row.join(" | "));
    }
}

/// Means and speeds of an earlier run beside those of this one, case by case; cells are empty where the
/// earlier run had no such case.
fn print_changes(earlier: &str, rows: &[Vec<String>]) {
    println!();
    println!("| Rate | Doubt | Frames | Instructions, before | after | largest, before | after | Multiplications, before | after | Frames/s, before | after |");
    println!("|{}", "---|".repeat(11));
    let cells = |line: &str| -> Vec<String> {
        let line = line.trim().trim_matches('|');
        line.split('|')
            .map(|cell| cell.trim().to_string())
            .collect()
    };
    let before: Vec<Vec<String>> = earlier.lines().map(cells).collect();
    for row in rows {
        let same = |other: &&Vec<String>| other.len() == row.len() && other[..3] == row[..3];
        let old = before.iter().find(same);
        let mut line = row[..3].to_vec();
        for column in [3, 4, 5, 7] {
            let old = old.map(|old| old[column].clone());
            line.extend([old.unwrap_or_default(), row[column].clone()]);
        }
        println!("| {} |", line.join(" | "));
    }
}

/// The table decoding cases of a rate.
fn tables<'a>(
    cases: &'a [Case],
    figures: &'a [Figures],
    rate: u64,
) -> impl Iterator<Item = (&'a Case, &'a Figures, usize)> {
    let both = cases.iter().zip(figures);
    both.filter(move |(case, _)| case.rate == rate)
        .filter_map(|(case, figures)| Some((case, figures, case.doubt()?)))
}

fn print_largest(cases: &[Case], figures: &[Figures]) {
    println!();
    for rate in RATES {
        let of_all = tables(cases, figures, rate)
            .max_by_key(|(_, figures, _)| largest(&figures.instructions))
            .expect("cases of each rate");
        let (case, figures, doubt) = of_all;
        println!(
            "The largest of these frames at rate {rate} takes {} instructions (doubt {doubt}, {}).",
            grouped(largest(&figures.instructions)),
            case.name()
        );
    }
}

//! Frame error rates of the proved library's decoding from bit values: random codewords through BPSK
//! and white Gaussian noise. `error_rates FOLDER FRAMES [RATE [DOUBT ..]]` prints the numbers and draws
//! them there. With a rate it is the first drawing of that rate alone, with the doubts that are named;
//! without one all of these:
//!
//! - error-rates-39.svg and so on for the rates 49, 20 and 52: every place is received; a curve for each
//!   doubt;
//! - faded-39-doubt-0.svg, faded-39-doubt-8.svg and faded-49-doubt-8.svg: some places of each frame,
//!   drawn at random, are lost to fades; a curve for each number of them, where they are blank and
//!   where they are symbol 0, as in document 01.
//!
//! A frame is in error if it is refused or its message is not the one sent. All curves of a rate have
//! the same frames, and the places lost are among those lost where more are. A curve is done with a
//! point after FRAMES frames, or earlier, after a whole batch, when it has enough errors. Where no place
//! is lost the answers that are marked are printed too, and how many have a margin. Since noise alone hardly
//! ever brings a second codeword near, margins are printed of frames that are torn between two codewords at
//! least distance, by how much likelier the sent symbol is on the mean where they differ.

use std::fs;
use std::path::Path;
use std::process::ExitCode;
use std::sync::atomic::{AtomicU64, Ordering};
use std::thread;

use reference::bits::{columns_of_bits, BITS};
use reference::channel::{torn, Channel, LOST, LOST_AS_ZERO};
use reference::code::{rates, Code};
use reference::curve::PLACES;
use reference::decode::{margin_of, mark_of, table_of_columns, REPORT_BYTES};
use reference::frames::random_codeword;
use reference::light::lightest;
use reference::measured::DOUBTS;
use reference::plot::{draw, Curve};
use reference::proved::{PROVED_BITS, PROVED_TABLE};
use reference::random::Random;
use reference::sent::{decibels, Sent};
use reference::soft::DOUBT_LIMIT;

/// A batch of frames is shared out among the threads.
const BATCH: u64 = 500;

/// With so many errors a point is known well enough.
const ENOUGH: u64 = 150;

/// The rates, and their points in quarters of a decibel of Eb/N0.
const QUARTERS: [(u64, std::ops::RangeInclusive<u64>); 4] =
    [(39, 12..=26), (49, 16..=32), (20, 14..=28), (52, 20..=36)];

/// The drawings of frames with lost places: rate, doubt, and how many places are lost. 13 and 3 are
/// the most that are not refused.
const FADED: [(u64, usize, [usize; 4]); 3] = [
    (39, 0, [0, 4, 8, 13]),
    (39, 8, [0, 4, 8, 13]),
    (49, 8, [0, 1, 2, 3]),
];

/// Frames torn between two codewords: the mean logarithms of how much likelier the sent symbol is at each place
/// where they differ, and the seed.
const MEANS: [f64; 6] = [0.05, 0.1, 0.2, 0.4, 0.8, 1.6];
const TORN_SEED: u64 = 50;

/// The mean at all other places.
const CLEAR: f64 = 20.0;

/// Quarters of a decibel between two points of a curve of such frames, and between two lines of a table
/// of marks.
const FADED_STEP: usize = 2;
const MARKED_STEP: usize = 2;

/// Such a curve ends with the first point below this rate.
const FADED_LEAST: f64 = 1e-3;

/// How the frames of a curve come and are decoded.
#[derive(Clone, Copy)]
struct Setting {
    rate: u64,
    doubt: usize,
    /// How many places of a frame are lost.
    lost: usize,
    /// They are not blank but symbol 0.
    as_zero: bool,
}

/// What came of the frames at a point of a curve.
#[derive(Clone, Default)]
struct Counts {
    frames: u64,
    refused: u64,
    wrong: u64,
    /// Answers that are marked: right ones and wrong ones.
    marked: u64,
    marked_wrong: u64,
    /// The margins of right answers and of wrong ones that have one.
    margins: Vec<u32>,
    margins_wrong: Vec<u32>,
}

impl Counts {
    fn add(&mut self, other: Counts) {
        self.frames += other.frames;
        self.refused += other.refused;
        self.wrong += other.wrong;
        self.marked += other.marked;
        self.marked_wrong += other.marked_wrong;
        self.margins.extend(other.margins);
        self.margins_wrong.extend(other.margins_wrong);
    }

    /// What came of one frame.
    fn count(&mut self, number: u8, right: bool, report: &[u8]) {
        self.frames += 1;
        if number != 0 {
            self.refused += 1;
            return;
        }
        let marked = u64::from(mark_of(report));
        let margin = margin_of(report);
        if right {
            self.marked += marked;
            self.margins.extend(margin);
        } else {
            self.wrong += 1;
            self.marked_wrong += marked;
            self.margins_wrong.extend(margin);
        }
    }

    fn errors(&self) -> u64 {
        self.refused + self.wrong
    }

    fn rate(&self) -> f64 {
        self.errors() as f64 / self.frames as f64
    }

    fn cell(&self) -> String {
        let errors = self.errors();
        match self.wrong {
            0 => format!("{errors} of {}", self.frames),
            wrong => format!("{errors} of {}, {wrong} wrong", self.frames),
        }
    }

    /// The marked ones of the right answers, the percentage rounded down, and of the wrong ones where there
    /// are any.
    fn marked_cell(&self) -> String {
        let right = self.frames - self.errors();
        let tenths = 1000 * self.marked / right.max(1);
        let (percent, tenth) = (tenths / 10, tenths % 10);
        let marked = format!("{} of {right}, {percent}.{tenth} %", self.marked);
        match self.wrong {
            0 => marked,
            wrong => format!("{marked}; wrong {} of {wrong}", self.marked_wrong),
        }
    }

    /// How many of the right answers and of the wrong ones have a margin.
    fn margin_line(&self) -> String {
        let right = self.frames - self.errors();
        let (margins, wrong) = (self.margins.len(), self.margins_wrong.len());
        format!(
            "a margin have {margins} of {right} right answers{} and {wrong} of {} wrong ones",
            spread(&self.margins),
            self.wrong
        )
    }
}

/// The margins that a tenth, half and nine tenths of these are not above, where there are any.
fn spread(margins: &[u32]) -> String {
    let mut rising = margins.to_vec();
    rising.sort_unstable();
    let at = |tenths: usize| rising.get((tenths * rising.len()).div_ceil(10).max(1) - 1);
    match (at(1), at(5), at(9)) {
        (Some(low), Some(middle), Some(high)) => format!(": {low}, {middle}, {high}"),
        _ => String::new(),
    }
}

fn main() -> ExitCode {
    let arguments: Vec<String> = std::env::args().skip(1).collect();
    let Some((folder, numbers)) = arguments.split_first() else {
        return usage();
    };
    let numbers: Result<Vec<u64>, _> = numbers.iter().map(|word| word.parse()).collect();
    let drawn = match numbers.as_deref() {
        Ok([frames]) if *frames > 0 => draw_all(Path::new(folder), *frames),
        Ok([frames, rate, doubts @ ..]) if *frames > 0 && rates().contains(rate) => {
            let doubts: Vec<usize> = doubts.iter().map(|doubt| *doubt as usize).collect();
            if doubts.iter().any(|doubt| *doubt > DOUBT_LIMIT) {
                return usage();
            }
            let doubts = if doubts.is_empty() {
                DOUBTS.to_vec()
            } else {
                doubts
            };
            draw_rate(Path::new(folder), *rate, &doubts, *frames)
        }
        _ => return usage(),
    };
    match drawn {
        Ok(()) => ExitCode::SUCCESS,
        Err(error) => {
            eprintln!("{error}");
            ExitCode::FAILURE
        }
    }
}

fn usage() -> ExitCode {
    eprintln!(
        "error_rates FOLDER FRAMES [RATE [DOUBT ..]], rates from 6 to 52 and doubts up to 12"
    );
    ExitCode::FAILURE
}

fn write(folder: &Path, name: String, drawn: String) -> Result<(), String> {
    let name = folder.join(name);
    fs::write(&name, drawn).map_err(|error| format!("{}: {error}", name.display()))
}

fn draw_rate(folder: &Path, rate: u64, doubts: &[usize], frames: u64) -> Result<(), String> {
    write(
        folder,
        format!("error-rates-{rate}.svg"),
        by_doubt(rate, doubts, frames),
    )
}

/// All drawings, into a folder.
fn draw_all(folder: &Path, frames: u64) -> Result<(), String> {
    for (rate, _) in QUARTERS {
        draw_rate(folder, rate, &DOUBTS, frames)?;
    }
    for (rate, doubt, lost) in FADED {
        let drawn = by_lost(rate, doubt, lost, frames);
        write(folder, format!("faded-{rate}-doubt-{doubt}.svg"), drawn)?;
    }
    for rate in [39, 49] {
        by_torn(rate, frames);
    }
    Ok(())
}

/// The quarters of a decibel at which a rate is measured where no place is lost. At other rates than those of
/// the drawings: from where nine frames in ten have more than T wrong symbols to where one in a hundred has.
fn quarters(rate: u64) -> std::ops::RangeInclusive<u64> {
    let of_rate = QUARTERS.into_iter().find(|(of, _)| *of == rate);
    of_rate.map_or_else(
        || {
            let reach = Code::of_rate(rate).expect("a known rate").reach;
            let below = |share: f64| {
                let far =
                    |quarter: &u64| Channel::at(rate, decibels(*quarter)).beyond(reach) < share;
                (0..80).find(far).unwrap_or(80)
            };
            below(0.9)..=below(0.01)
        },
        |(_, quarters)| quarters,
    )
}

/// The first lines of a printed table.
fn head(title: &str, columns: &[String]) {
    println!("{title}: errors of frames, and how many of them are wrong messages and not refusals, where there are any.\n");
    name_columns(columns);
}

/// The names of a table's columns.
fn name_columns(columns: &[String]) {
    println!("| Eb/N0 in dB | {} |", columns.join(" | "));
    println!("|---|{}", "---|".repeat(columns.len()));
}

/// All points of a rate where no place is lost; the curves as SVG.
fn by_doubt(rate: u64, doubts: &[usize], frames: u64) -> String {
    let code = Code::of_rate(rate).expect("a known rate");
    let names: Vec<String> = doubts
        .iter()
        .map(|doubt| format!("doubt {doubt}"))
        .collect();
    let mut curves: Vec<Curve> = Vec::new();
    for (colour, name) in names.iter().enumerate() {
        curves.push(Curve::measured(name.clone(), colour));
    }
    let mut computed = Curve::computed(
        format!("more than {} wrong symbols, computed", code.reach),
        doubts.len(),
    );
    head(&format!("Rate {rate}"), &names);
    let (mut marked, mut all) = (Vec::new(), Counts::default());
    for quarter in quarters(rate) {
        let decibels = decibels(quarter);
        computed.add(decibels, Channel::at(rate, decibels).beyond(code.reach));
        let point = |doubt: &usize| Setting::blank(rate, *doubt, 0).point(quarter, frames);
        let counts: Vec<Counts> = doubts.iter().map(point).collect();
        for (curve, counts) in curves.iter_mut().zip(&counts) {
            curve.add_counted(decibels, counts.errors(), counts.frames);
        }
        let line = |cell: fn(&Counts) -> String| {
            let cells: Vec<String> = counts.iter().map(cell).collect();
            format!("| {decibels:.2} | {} |", cells.join(" | "))
        };
        println!("{}", line(Counts::cell));
        marked.push(line(Counts::marked_cell));
        for counts in counts {
            all.add(counts);
        }
    }
    println!("\nRate {rate}: marked ones of the right answers, and of the wrong ones where there are any.\n");
    lines(&names, &marked);
    println!("\nRate {rate}: {}.\n", all.margin_line());
    eprintln!();
    curves.push(computed);
    draw(&format!("Rate {rate}, frame error rate by doubt"), &curves)
}

/// Every second line of a table.
fn lines(names: &[String], lines: &[String]) {
    name_columns(names);
    for line in lines.iter().step_by(MARKED_STEP) {
        println!("{line}");
    }
}

/// Margins of right and of wrong answers of torn frames, with as many doubtful places as there may be.
fn by_torn(rate: u64, frames: u64) {
    println!("Rate {rate}, doubt {DOUBT_LIMIT}, torn between two codewords: what came of {frames} frames, and the margins that a tenth, half and nine tenths are not above.\n");
    println!("| Mean | refused | right | with a margin | wrong | with a margin |");
    println!("|---|---|---|---|---|---|");
    for (row, mean) in MEANS.into_iter().enumerate() {
        let mut counts = Counts::default();
        for number in 0..frames {
            let random = Random::new(TORN_SEED, rate << 48 | (row as u64) << 40 | number);
            one_torn(rate, mean, random, &mut counts);
        }
        let right = counts.frames - counts.errors();
        let both = [&counts.margins, &counts.margins_wrong];
        let [right_with, wrong_with] =
            both.map(|margins| format!("{}{}", margins.len(), spread(margins)));
        let Counts { refused, wrong, .. } = counts;
        println!("| {mean} | {refused} | {right} | {right_with} | {wrong} | {wrong_with} |");
    }
    println!();
}

/// One such frame, as a table.
fn one_torn(rate: u64, mean: f64, mut random: Random, counts: &mut Counts) {
    let code = Code::of_rate(rate).expect("a known rate");
    let sent = random_codeword(code, &mut random);
    let light = lightest(code, &mut random);
    let columns = std::array::from_fn(|place| {
        let own = sent.get(place);
        match light.get(place) {
            0 => torn(own, random.other_symbol(own), CLEAR, &mut random),
            apart => torn(own, own ^ apart, mean, &mut random),
        }
    });
    let mut message = vec![0; rate as usize];
    let mut report = [0; REPORT_BYTES];
    let table = table_of_columns(&columns);
    let number = PROVED_TABLE(rate, &table, DOUBT_LIMIT as u64, &mut message, &mut report);
    counts.count(number, code.codeword(&message) == sent, &report);
}

/// A curve of frames with lost places.
struct FadedCurve {
    setting: Setting,
    curve: Curve,
    ended: bool,
}

impl FadedCurve {
    /// The lost places are blank.
    fn blank(setting: Setting, colour: usize) -> FadedCurve {
        let reach = setting.code().reach_with(setting.lost);
        let reach = reach.expect("not too many blank places");
        let name = format!("{} blank: T = {reach}", setting.lost);
        FadedCurve {
            setting,
            curve: Curve::measured(name, colour),
            ended: false,
        }
    }

    /// They are symbol 0, and wrong where another one was sent.
    fn zero(setting: Setting, colour: usize) -> FadedCurve {
        let name = format!("{} as symbol 0", setting.lost);
        FadedCurve {
            setting: Setting {
                as_zero: true,
                ..setting
            },
            curve: Curve::compared(name, colour),
            ended: false,
        }
    }

    /// One more point, if the curve has not ended; its cell of the table.
    fn add(&mut self, quarter: u64, frames: u64) -> String {
        if self.ended {
            return String::new();
        }
        let counts = self.setting.point(quarter, frames);
        self.curve
            .add_counted(decibels(quarter), counts.errors(), counts.frames);
        self.ended = counts.rate() < FADED_LEAST;
        counts.cell()
    }
}

/// All points of a rate and a doubt where places are lost, until the last curve with blank places
/// ends; the curves as SVG.
fn by_lost(rate: u64, doubt: usize, lost: [usize; 4], frames: u64) -> String {
    let settings = lost.map(|lost| Setting::blank(rate, doubt, lost));
    let mut blank: Vec<FadedCurve> = Vec::new();
    let mut zero: Vec<FadedCurve> = Vec::new();
    for (colour, setting) in settings.into_iter().enumerate() {
        blank.push(FadedCurve::blank(setting, colour));
        if setting.lost > 0 {
            zero.push(FadedCurve::zero(setting, colour));
        }
    }
    let all = blank.iter().chain(&zero);
    let names: Vec<String> = all.map(|faded| faded.curve.name().to_string()).collect();
    head(&format!("Rate {rate}, doubt {doubt}, places lost"), &names);
    for quarter in (*quarters(rate).start()..).step_by(FADED_STEP) {
        if blank.iter().all(|faded| faded.ended) {
            break;
        }
        let all = blank.iter_mut().chain(&mut zero);
        let cells: Vec<String> = all.map(|faded| faded.add(quarter, frames)).collect();
        println!("| {:.2} | {} |", decibels(quarter), cells.join(" | "));
    }
    println!();
    eprintln!();
    let all = blank.into_iter().chain(zero);
    let curves: Vec<Curve> = all.map(|faded| faded.curve).collect();
    let title = format!("Rate {rate}, doubt {doubt}, frame error rate by places lost to fades");
    draw(&title, &curves)
}

impl Setting {
    /// Lost places are blank.
    fn blank(rate: u64, doubt: usize, lost: usize) -> Setting {
        Setting {
            rate,
            doubt,
            lost,
            as_zero: false,
        }
    }

    fn code(&self) -> &'static Code {
        Code::of_rate(self.rate).expect("a known rate")
    }

    /// The frames of one point, on all threads.
    fn point(&self, quarter: u64, frames: u64) -> Counts {
        let mut sum = Counts::default();
        while sum.frames < frames && sum.errors() < ENOUGH {
            let next = AtomicU64::new(sum.frames);
            let end = (sum.frames + BATCH).min(frames);
            let part = || {
                let mut counts = Counts::default();
                loop {
                    let number = next.fetch_add(1, Ordering::Relaxed);
                    if number >= end {
                        return counts;
                    }
                    let sent = Sent::numbered(self.rate, quarter, number);
                    self.one_frame(sent, &mut counts);
                }
            };
            let threads = thread::available_parallelism().map_or(1, usize::from);
            thread::scope(|scope| {
                let parts: Vec<_> = (0..threads).map(|_| scope.spawn(part)).collect();
                for part in parts {
                    sum.add(part.join().expect("a thread that ends"));
                }
            });
            eprint!(
                "\rrate {}, {:.2} dB, doubt {}, {} lost: {} errors of {} frames   ",
                self.rate,
                decibels(quarter),
                self.doubt,
                self.lost,
                sum.errors(),
                sum.frames
            );
        }
        sum
    }

    /// The lost places are drawn after all else, so that the rest is the same for every number.
    fn one_frame(&self, mut sent: Sent, counts: &mut Counts) {
        let lost: Vec<usize> = sent
            .random
            .shuffled(0..PLACES)
            .into_iter()
            .take(self.lost)
            .collect();
        let mut values = sent.values;
        for place in &lost {
            values[*place] = LOST;
        }
        let mut message = vec![0; self.rate as usize];
        let mut report = [0; REPORT_BYTES];
        let number = match self.as_zero {
            true => self.decode_as_zero(&values, &lost, &mut message, &mut report),
            false => {
                let doubt = self.doubt as u64;
                let values = values.as_flattened();
                PROVED_BITS(self.rate, values, doubt, &mut message, &mut report)
            }
        };
        counts.count(number, sent.came_back(&message), &report);
    }

    /// By the table with symbol 0 at the lost places, which no bit values make.
    fn decode_as_zero(
        &self,
        values: &[[i8; BITS]; PLACES],
        lost: &[usize],
        message: &mut [u8],
        report: &mut [u8],
    ) -> u8 {
        let mut columns = columns_of_bits(values.as_flattened());
        for place in lost {
            columns[*place] = LOST_AS_ZERO;
        }
        let table = table_of_columns(&columns);
        PROVED_TABLE(self.rate, &table, self.doubt as u64, message, report)
    }
}

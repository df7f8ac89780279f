//! Tries the numbers of the statement on the proved library, on both sides of each bound.
//!
//! `bounds TABLES PAGES` reads docs/RATES.md and the pages of all rates, one after the other, and makes
//! frames around each of their numbers: as many wrong, doubtful and blank places as they say and one more,
//! bursts of symbols and of bits as long as they say and one longer. The frames lean towards a codeword at
//! least distance from the sent one, so that one place more than is promised hands up that codeword, or
//! gives a margin, wherever a codeword of weight 64 − M is known: at all rates but 6, 48 and 52.

use std::process::ExitCode;

use reference::code::{rates, Code};
use reference::curve::PLACES;
use reference::decode::{margin_of, table_of_columns, REPORT_BYTES};
use reference::frames::random_codeword;
use reference::light::{light_weight, lightest};
use reference::proved::{PROVED_SUPERFRAMES, PROVED_TABLE};
use reference::random::Random;
use reference::row::Row;
use reference::soft::{Column, Columns, DOUBT_LIMIT};
use reference::superframe::{FRAME_BYTES, HEAD_BYTES, SYMBOLS, WORDS};

/// What lent buffers hold before a call.
const LENT: u8 = 0xEE;

/// So often each frame is made anew.
const ROUNDS: usize = 2;

/// Costs beyond the best symbol: of the second one at doubtful and at settled places, and of all others.
const DOUBTFUL_GAP: u16 = 5;
const SETTLED_GAP: u16 = 40;
const OTHERS: u16 = 90;

/// A line of the page: blank places, and what holds with so many.
#[derive(Clone, Copy, Debug, PartialEq, Eq)]
struct Line {
    blank: usize,
    wrong: usize,
    doubtful: usize,
    never: usize,
}

/// What came of a frame.
#[derive(Clone, Copy, Debug, PartialEq, Eq)]
enum Came {
    Sent { margin: bool },
    Other,
    Refused(u8),
}

const ALONE: Came = Came::Sent { margin: false };
const RIVALLED: Came = Came::Sent { margin: true };
const NONE_NEAR: Came = Came::Refused(9);

fn main() -> ExitCode {
    let arguments: Vec<String> = std::env::args().skip(1).collect();
    let [tables, pages] = &arguments[..] else {
        eprintln!("bounds TABLES PAGES");
        return ExitCode::FAILURE;
    };
    match try_all(tables, pages) {
        Ok(line) => {
            println!("{line}");
            ExitCode::SUCCESS
        }
        Err(line) => {
            eprintln!("{line}");
            ExitCode::FAILURE
        }
    }
}

fn try_all(tables: &str, pages: &str) -> Result<String, String> {
    let read =
        |name: &str| std::fs::read_to_string(name).map_err(|error| format!("{name}: {error}"));
    let (tables, pages) = (read(tables)?, read(pages)?);
    let mut random = Random::new(50, 0);
    let mut tried = Tried::default();
    for rate in rates() {
        let lines = lines_of(&pages, rate)?;
        agree(&tables, rate, &lines)?;
        let mut at = Around::new(rate, &mut random, &mut tried);
        for _ in 0..ROUNDS {
            for line in &lines {
                at.line(*line)?;
            }
            at.too_blank(lines.len())?;
            at.bursts(row_of(&tables, rate)?)?;
        }
    }
    tried.check()
}

/// The numbers of each row of a text whose first cell is one; other cells than numbers are left out.
fn rows(text: &str) -> impl Iterator<Item = Vec<usize>> + '_ {
    let first = |line: &&str| {
        let cell = line
            .strip_prefix("| ")
            .and_then(|rest| rest.split(' ').next());
        cell.is_some_and(|cell| cell.parse::<usize>().is_ok())
    };
    text.lines().filter(first).map(|line| {
        let cells = line.split([' ', '|', '^']);
        cells.filter_map(|cell| cell.parse().ok()).collect()
    })
}

/// The lines of a rate's page.
fn lines_of(pages: &str, rate: u64) -> Result<Vec<Line>, String> {
    let head = format!("# Rate {rate}\n");
    let page = pages
        .split_once(&head)
        .ok_or(format!("no page of rate {rate}"))?
        .1;
    let page = page.split("\n# Rate").next().unwrap_or(page);
    let lines: Vec<Line> = rows(page)
        .filter_map(|row| match row[..] {
            [blank, wrong, doubtful, never] => Some(Line {
                blank,
                wrong,
                doubtful,
                never,
            }),
            _ => None,
        })
        .collect();
    let rising = lines.iter().enumerate().all(|(at, line)| line.blank == at);
    match rising && !lines.is_empty() {
        true => Ok(lines),
        false => Err(format!(
            "rate {rate}: the page's lines do not go up from no blank place"
        )),
    }
}

/// The row of a rate in the first table: rate, wrong, doubtful, refused from and to, never another, blank,
/// distance, burst, bits, burst of bits, ten and its power.
fn row_of(tables: &str, rate: u64) -> Result<[usize; 13], String> {
    let found = rows(tables).find(|row| row.first() == Some(&(rate as usize)));
    let row = found.ok_or(format!("no row of rate {rate}"))?;
    row.try_into()
        .map_err(|row| format!("rate {rate}: the row has other numbers than 13: {row:?}"))
}

/// The tables say what the page says.
fn agree(tables: &str, rate: u64, lines: &[Line]) -> Result<(), String> {
    let row = row_of(tables, rate)?;
    let [_, wrong, doubtful, from, to, never, blank, distance, ..] = row;
    if distance != PLACES - Code::of_rate(rate).expect("a known rate").top {
        return Err(format!("rate {rate}: another distance than 64 - M"));
    }
    let first = Line {
        blank: 0,
        wrong,
        doubtful,
        never,
    };
    if first != lines[0] || from != wrong + 1 || to != never || blank + 1 != lines.len() {
        return Err(format!("rate {rate}: the table and the page differ"));
    }
    let second = tables
        .split_once("\n| Rate | 0 |")
        .ok_or("no table by blank places")?
        .1;
    let columns: Vec<usize> = [&[0][..], &numbers(second.lines().next().unwrap_or(""))].concat();
    let row = second
        .lines()
        .find(|line| line.starts_with(&format!("| {rate} |")));
    let cells: Vec<&str> = row
        .ok_or("no row by blank places")?
        .split('|')
        .skip(2)
        .collect();
    for (blank, cell) in columns.into_iter().zip(cells) {
        let said = lines.get(blank).map(|line| line.wrong.to_string());
        if said.as_deref().unwrap_or("-") != cell.trim() {
            return Err(format!(
                "rate {rate}, {blank} blank: the second table and the page differ"
            ));
        }
    }
    Ok(())
}

fn numbers(line: &str) -> Vec<usize> {
    line.split([' ', '|'])
        .filter_map(|cell| cell.parse().ok())
        .collect()
}

/// How often each sort was tried, inside its bound and outside.
#[derive(Default)]
struct Tried {
    inside: usize,
    refused: usize,
    other: usize,
    margins: usize,
    bursts: usize,
}

impl Tried {
    fn check(&self) -> Result<String, String> {
        let Tried {
            inside,
            refused,
            other,
            margins,
            bursts,
        } = self;
        // Of the 47 rates 44 have a known codeword of least weight, with 1128 - 47 - 5 - 1 lines.
        if *other < 44 * ROUNDS
            || *margins < 44 * ROUNDS
            || *refused < 47 * ROUNDS
            || *bursts < 45 * ROUNDS
        {
            return Err("a sort of frame was tried too seldom".to_string());
        }
        Ok(format!(
            "the statement's bounds hold at 47 rates: {inside} frames inside them, {refused} refused, {other} with another \
             message and {margins} with a margin one beyond, {bursts} bursts"
        ))
    }
}

/// Frames around a codeword of a rate.
struct Around<'a> {
    rate: u64,
    code: &'static Code,
    random: &'a mut Random,
    tried: &'a mut Tried,
}

/// What is best and second at a place.
#[derive(Clone, Copy)]
enum Role {
    Blank,
    /// The sent symbol is best.
    Right,
    /// That of the other codeword is best, and the sent one far off.
    Wrong,
    /// Doubtful, with the other's best and the sent one second.
    Second,
    /// Doubtful, with the sent one best and the other's second.
    Leaning,
    /// Doubtful, with the other's best and one that is neither's second.
    Lost,
}

impl<'a> Around<'a> {
    fn new(rate: u64, random: &'a mut Random, tried: &'a mut Tried) -> Around<'a> {
        let code = Code::of_rate(rate).expect("a known rate");
        Around {
            rate,
            code,
            random,
            tried,
        }
    }

    /// Whether the other codeword is at the least distance that is stated.
    fn exact(&self) -> bool {
        light_weight(self.code) == PLACES - self.code.top
    }

    /// A sent codeword and another one at least distance, or nearly, with the places where they differ first.
    fn two(&mut self) -> (Row, Row, Vec<usize>) {
        let sent = random_codeword(self.code, self.random);
        let light = lightest(self.code, self.random);
        let mut other = sent;
        other.add(&light);
        let mut places = self.random.shuffled(0..PLACES);
        places.sort_by_key(|place| light.get(*place) == 0);
        (sent, other, places)
    }

    /// A frame in which the places, those of difference first, have these roles, and the others are right;
    /// what comes of it.
    fn came(&mut self, roles: &[(Role, usize)]) -> Came {
        let (sent, other, places) = self.two();
        let mut columns: Columns =
            std::array::from_fn(|place| column(sent.get(place), None, SETTLED_GAP));
        let mut doubt = 0;
        let mut at = 0;
        for (role, count) in roles {
            for place in &places[at..at + count] {
                let (own, others) = (sent.get(*place), other.get(*place));
                let others = if others == own {
                    self.random.other_symbol(own)
                } else {
                    others
                };
                let third = (0..16).find(|symbol| ![own, others].contains(symbol));
                columns[*place] = match role {
                    Role::Blank => [7; 16],
                    Role::Right => column(own, None, SETTLED_GAP),
                    Role::Wrong => column(others, third, SETTLED_GAP),
                    Role::Second => column(others, Some(own), DOUBTFUL_GAP),
                    Role::Leaning => column(own, Some(others), DOUBTFUL_GAP),
                    Role::Lost => column(others, third, DOUBTFUL_GAP),
                };
                doubt += u64::from(matches!(role, Role::Second | Role::Leaning | Role::Lost));
            }
            at += count;
        }
        self.decoded(&sent, &columns, doubt)
    }

    /// What comes of these columns.
    fn decoded(&mut self, sent: &Row, columns: &Columns, doubt: u64) -> Came {
        let mut message = vec![LENT; self.rate as usize];
        let mut report = [LENT; REPORT_BYTES];
        let number = PROVED_TABLE(
            self.rate,
            &table_of_columns(columns),
            doubt,
            &mut message,
            &mut report,
        );
        match number {
            0 if self.code.codeword(&message) == *sent => Came::Sent {
                margin: margin_of(&report).is_some(),
            },
            0 => Came::Other,
            _ => {
                let kept = message.iter().chain(&report).all(|byte| *byte == LENT);
                Came::Refused(if kept { number } else { u8::MAX })
            }
        }
    }

    fn expect(
        &mut self,
        what: &str,
        line: Line,
        came: Came,
        wanted: &[Came],
    ) -> Result<(), String> {
        if !wanted.contains(&came) {
            return Err(format!("rate {}, {line:?}, {what}: {came:?}", self.rate));
        }
        match (came, what.contains("one more")) {
            (_, false) => self.tried.inside += 1,
            (Came::Refused(_), true) => self.tried.refused += 1,
            (Came::Other, true) => self.tried.other += 1,
            (Came::Sent { .. }, true) => self.tried.margins += 1,
        }
        Ok(())
    }

    /// Both sides of each number of a line.
    fn line(&mut self, line: Line) -> Result<(), String> {
        let Line {
            blank,
            wrong,
            doubtful,
            never,
        } = line;
        let lost = never.min(DOUBT_LIMIT);
        let blanks = (Role::Blank, blank);
        let came = self.came(&[blanks, (Role::Wrong, wrong)]);
        self.expect("wrong", line, came, &[ALONE])?;
        let came = self.came(&[blanks, (Role::Wrong, wrong + 1)]);
        self.expect("one more wrong", line, came, &[NONE_NEAR])?;
        let came = self.came(&[blanks, (Role::Wrong, never)]);
        self.expect("wrong, refused", line, came, &[NONE_NEAR])?;
        let came = self.came(&[blanks, (Role::Second, doubtful), (Role::Wrong, wrong)]);
        self.expect("wrong and doubtful", line, came, &[ALONE])?;
        let came = self.came(&[blanks, (Role::Lost, lost), (Role::Wrong, never - lost)]);
        self.expect("never another", line, came, &[NONE_NEAR, ALONE])?;
        let came = self.came(&[blanks, (Role::Second, lost), (Role::Wrong, never - lost)]);
        // With no more than T wrong settled places it comes back.
        let wanted = [ALONE, NONE_NEAR];
        let wanted = &wanted[..1 + usize::from(never - lost > wrong)];
        self.expect("never another, second", line, came, wanted)?;
        if !self.exact() {
            return Ok(());
        }
        let came = self.came(&[blanks, (Role::Wrong, never + 1)]);
        self.expect("one more wrong than is refused", line, came, &[Came::Other])?;
        let came = self.came(&[blanks, (Role::Lost, lost), (Role::Wrong, never + 1 - lost)]);
        self.expect("one more, and another", line, came, &[Came::Other])?;
        // Both codewords are near: whichever the doubtful places lean to costs less, and the other is its rival.
        let beside = [(Role::Wrong, wrong), (Role::Right, wrong)];
        let came = self.came(&[&[blanks, (Role::Leaning, doubtful + 1)], &beside[..]].concat());
        self.expect("one more doubtful, with a rival", line, came, &[RIVALLED])?;
        let came = self.came(&[&[blanks, (Role::Second, doubtful + 1)], &beside[..]].concat());
        self.expect("one more doubtful, and another", line, came, &[Came::Other])
    }

    /// One more blank place than has a line, and all others right.
    fn too_blank(&mut self, blank: usize) -> Result<(), String> {
        let line = Line {
            blank,
            wrong: 0,
            doubtful: 0,
            never: 0,
        };
        let came = self.came(&[(Role::Blank, blank)]);
        self.expect("one more blank", line, came, &[Came::Refused(12)])
    }

    /// Bursts of a superframe, in symbols and in bits, as long as the row says and one longer.
    fn bursts(&mut self, row: [usize; 13]) -> Result<(), String> {
        let [_, _, _, _, _, _, _, _, symbols, bits, frame_bits, _, _] = row;
        if symbols == 0 {
            return Ok(());
        }
        for (name, length, unit, whole) in [
            ("symbols", symbols, 4, true),
            ("bits", frame_bits, 1, false),
        ] {
            let start = self.random.below(unit_starts(length, unit));
            if self.status(start, length, unit)? != 0 {
                return Err(format!(
                    "rate {}: a burst of {length} {name} is not repaired",
                    self.rate
                ));
            }
            // Bits from the last of a symbol on touch one symbol more.
            let start = if whole {
                start.min(SYMBOLS - length - 1)
            } else {
                start / 4 % 8 * 4 + 3
            };
            if self.status(start, length + 1, unit)? == 0 {
                return Err(format!(
                    "rate {}: a burst of {} {name} is repaired",
                    self.rate,
                    length + 1
                ));
            }
            self.tried.bursts += 2;
        }
        let line = Line {
            blank: 0,
            wrong: 0,
            doubtful: 0,
            never: bits,
        };
        let start = self.random.below(4 * PLACES - bits + 1);
        let came = self.turned(start, bits);
        self.expect("bits in a row", line, came, &[ALONE])?;
        let came = self.turned(start % (4 * PLACES - bits - 4) / 4 * 4 + 3, bits + 1);
        self.expect("one more bit in a row", line, came, &[NONE_NEAR])
    }

    /// What comes of a codeword of which so many bits in a row are turned, in place order, without doubt.
    fn turned(&mut self, start: usize, length: usize) -> Came {
        let sent = random_codeword(self.code, self.random);
        let mut received = sent.elements();
        for bit in start..start + length {
            received[bit / 4] ^= 8 >> (bit % 4);
        }
        let columns: Columns =
            std::array::from_fn(|place| column(received[place], None, SETTLED_GAP));
        self.decoded(&sent, &columns, 0)
    }

    /// The status of a superframe in which all bits from a start on are turned, in units of so many bits.
    fn status(&mut self, start: usize, length: usize, unit: usize) -> Result<u8, String> {
        let sent: Vec<u8> = (0..WORDS * self.rate as usize)
            .map(|_| self.random.symbol())
            .collect();
        let mut frame = [0; FRAME_BYTES];
        (PROVED_SUPERFRAMES.build)(self.rate, &sent, &mut frame);
        for bit in start * unit..(start + length) * unit {
            frame[HEAD_BYTES + bit / 4] ^= 8 >> (bit % 4);
        }
        let (mut messages, mut status) = (vec![LENT; sent.len()], 0);
        let number = (PROVED_SUPERFRAMES.take_apart)(&frame, &mut messages, &mut status);
        match number == 0 && (status != 0 || messages == sent) {
            true => Ok(status),
            false => Err(format!(
                "rate {}: a superframe gives {number}, or another message",
                self.rate
            )),
        }
    }
}

/// How many starts a burst of so many units has.
fn unit_starts(length: usize, unit: usize) -> usize {
    4 * SYMBOLS / unit - length
}

/// A column with its best symbol, and another one second where it is said.
fn column(best: u8, second: Option<u8>, gap: u16) -> Column {
    let mut column = [OTHERS; 16];
    column[usize::from(best)] = 0;
    if let Some(second) = second {
        column[usize::from(second)] = gap;
    }
    column
}

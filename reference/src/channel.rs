//! A channel for simulations: BPSK over white Gaussian noise, and the demapper's bit values.
//!
//! - [`Channel`], [`Channel::at`]: the noise of a rate at an Eb/N0.
//! - [`Channel::values`]: what is received of one symbol.
//! - [`torn`]: the costs of a place at which two symbols are nearly as likely.
//! - [`LOST`], [`LOST_AS_ZERO`]: what a fade leaves of a symbol, and how document 01 takes it.
//! - [`Channel::threshold`]: the gaps that stand for a ratio of likelihoods.
//! - [`Channel::beyond`]: how likely more than T symbols are wrong, computed.

use crate::bits::{BITS, SENT};
use crate::curve::PLACES;
use crate::field::SYMBOLS;
use crate::random::Random;
use crate::soft::Column;

/// The bit value of a noiseless bit: values then reach four times as far as it.
const STEPS: f64 = 32.0;

/// What a fade leaves of a symbol: four bit values of zero, which make a blank column.
pub const LOST: [i8; BITS] = [0; BITS];

/// A column that is not blank and has the best symbol, 0, the second, 1, and the gap, 0, that document
/// 01 gives to a blank one: symbol 15 alone costs 1.
pub const LOST_AS_ZERO: Column = {
    let mut column = [0; SYMBOLS];
    column[SYMBOLS - 1] = 1;
    column
};

/// White Gaussian noise on a signal of ±1.
#[derive(Clone, Copy, Debug)]
pub struct Channel {
    deviation: f64,
}

impl Channel {
    /// The channel of k message symbols in 64 at an Eb/N0 in decibels.
    pub fn at(rate: u64, decibels: f64) -> Channel {
        let per_bit = 10f64.powf(decibels / 10.0) * rate as f64 / PLACES as f64;
        Channel {
            deviation: (0.5 / per_bit).sqrt(),
        }
    }

    /// A symbol's bits are sent highest first, bit 0 as +1 and bit 1 as −1; each comes with noise and
    /// is rounded to a signed byte.
    pub fn values(&self, symbol: u8, random: &mut Random) -> [i8; BITS] {
        SENT[usize::from(symbol)].map(|bit| {
            let received = f64::from(bit) + self.deviation * normal(random);
            (STEPS * received).round().clamp(-128.0, 127.0) as i8
        })
    }

    /// The threshold for a ratio of the second likelihood to the best: a gap is below it where the ratio
    /// is larger. The gap is the smallest magnitude of a place, whose bit is as many times likelier as it
    /// was sent than the other way as e to the power of twice the received amplitude over the variance.
    pub fn threshold(&self, ratio: f64) -> u16 {
        let variance = self.deviation * self.deviation;
        (STEPS * variance / 2.0 * (1.0 / ratio).ln()).ceil() as u16
    }

    /// The chance that more than `reach` of the 64 symbols have a wrong bit.
    pub fn beyond(&self, reach: usize) -> f64 {
        let bit = upper_tail(1.0 / self.deviation);
        let symbol = 1.0 - (1.0 - bit).powi(BITS as i32);
        let mut term = (1.0 - symbol).powi(PLACES as i32);
        let mut within = term;
        for wrong in 1..=reach {
            let ways = (PLACES - wrong + 1) as f64 / wrong as f64;
            term *= ways * symbol / (1.0 - symbol);
            within += term;
        }
        1.0 - within
    }
}

/// A likelihood e times as large costs so much less in [`torn`], and every symbol but the two this much more.
const COST_OF_E: f64 = 16.0;
const FAR: u16 = 400;

/// The column of a place at which the sent symbol is likelier than another one by a factor whose logarithm is
/// normal, with this mean and twice as large a variance, as white noise makes it between any two signals.
pub fn torn(sent: u8, other: u8, mean: f64, random: &mut Random) -> Column {
    let lead = COST_OF_E * (mean + (2.0 * mean).sqrt() * normal(random));
    let cost = |lead: f64| lead.round().clamp(0.0, f64::from(FAR)) as u16;
    let mut column = [FAR; SYMBOLS];
    column[usize::from(other)] = cost(lead);
    column[usize::from(sent)] = cost(-lead);
    column
}

/// A normal number, by Box and Muller.
fn normal(random: &mut Random) -> f64 {
    let unit = |number: u64| ((number >> 11) as f64 + 0.5) / (1u64 << 53) as f64;
    let radius = (-2.0 * unit(random.number()).ln()).sqrt();
    radius * (std::f64::consts::TAU * unit(random.number())).cos()
}

/// The chance that a normal number is above `from`, by Simpson's rule.
fn upper_tail(from: f64) -> f64 {
    const PARTS: usize = 2000;
    let density = |x: f64| (-x * x / 2.0).exp() / std::f64::consts::TAU.sqrt();
    let width = 12.0 / PARTS as f64;
    let weight = |part: usize| match part {
        0 | PARTS => 1.0,
        part if part % 2 == 1 => 4.0,
        _ => 2.0,
    };
    let sum: f64 = (0..=PARTS)
        .map(|part| weight(part) * density(from + width * part as f64))
        .sum();
    sum * width / 3.0
}

#[cfg(test)]
mod tests {
    use super::*;
    use crate::bits::column_of_bits;
    use crate::soft::{best, gap, is_blank, second};

    #[test]
    fn lost_symbols_are_blank_or_zero() {
        let blank = column_of_bits(LOST);
        assert!(is_blank(&blank) && !is_blank(&LOST_AS_ZERO));
        for column in [&blank, &LOST_AS_ZERO] {
            assert_eq!((best(column), second(column), gap(column)), (0, 1, 0));
        }
    }

    #[test]
    fn tails_and_normal_numbers_fit() {
        assert!((upper_tail(0.0) - 0.5).abs() < 1e-9);
        assert!((upper_tail(1.0) - 0.158_655_254).abs() < 1e-8);
        assert!((upper_tail(3.0) - 0.001_349_898).abs() < 1e-8);
        let mut random = Random::new(50, 0);
        let numbers: Vec<f64> = (0..100_000).map(|_| normal(&mut random)).collect();
        let above = numbers.iter().filter(|number| **number > 1.0).count();
        assert!((15_400..16_300).contains(&above), "{above}");
    }

    /// By the density of the noise itself: a value that is received where +1 was sent, and where −1 was.
    #[test]
    fn gaps_below_the_threshold_have_larger_ratios() {
        for decibels in [3.0, 5.25, 7.25] {
            let channel = Channel::at(49, decibels);
            let density = |from: f64| (-(from / channel.deviation).powi(2) / 2.0).exp();
            for ratio in [0.1, 0.2, 0.4] {
                let threshold = channel.threshold(ratio);
                for gap in 0..64u16 {
                    let received = f64::from(gap) / STEPS;
                    let ratio_of_gap = density(received + 1.0) / density(received - 1.0);
                    assert_eq!(gap < threshold, ratio_of_gap > ratio, "{gap} {threshold}");
                }
            }
        }
    }

    #[test]
    fn wrong_symbols_come_as_often_as_computed() {
        let channel = Channel::at(39, 3.0);
        let mut random = Random::new(51, 0);
        let mut frame = || {
            let wrong = (0..PLACES).filter(|_| {
                let symbol = random.symbol();
                best(&column_of_bits(channel.values(symbol, &mut random))) != symbol
            });
            wrong.count() > 6
        };
        let beyond = (0..4000).filter(|_| frame()).count() as f64 / 4000.0;
        assert!((beyond - channel.beyond(6)).abs() < 0.03, "{beyond}");
    }
}

//! Frames sent through the channel, the same for every program that counts what comes of them.
//!
//! - [`Sent`], [`Sent::numbered`]: a random codeword, and the bit values that are received.
//! - [`Sent::came_back`]: whether a message is the one sent.

use crate::bits::{column_of_bits, BITS};
use crate::channel::Channel;
use crate::code::Code;
use crate::curve::PLACES;
use crate::frames::random_codeword;
use crate::random::Random;
use crate::row::Row;
use crate::soft::Columns;

const SEED: u64 = 105;

/// A codeword and what is received of it.
pub struct Sent {
    pub codeword: Row,
    pub values: [[i8; BITS]; PLACES],
    /// For what is drawn after it.
    pub random: Random,
}

impl Sent {
    /// Frame `number` of a rate at so many quarters of a decibel of Eb/N0.
    pub fn numbered(rate: u64, quarter: u64, number: u64) -> Sent {
        let channel = Channel::at(rate, decibels(quarter));
        let mut random = Random::new(SEED, rate << 48 | quarter << 40 | number);
        let codeword = random_codeword(code(rate), &mut random);
        let values = codeword
            .elements()
            .map(|symbol| channel.values(symbol, &mut random));
        Sent {
            codeword,
            values,
            random,
        }
    }

    pub fn columns(&self) -> Columns {
        self.values.map(column_of_bits)
    }

    /// Whether this is the message that was sent.
    pub fn came_back(&self, message: &[u8]) -> bool {
        code(message.len() as u64).codeword(message) == self.codeword
    }
}

/// Quarters of a decibel as decibels.
pub fn decibels(quarter: u64) -> f64 {
    quarter as f64 / 4.0
}

fn code(rate: u64) -> &'static Code {
    Code::of_rate(rate).expect("a known rate")
}

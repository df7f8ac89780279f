//! Answers calls and counts their field multiplications, over the sources that bench/counted builds.
//!
//! A call on standard input is a letter, E, B, T or L (encode, read back, table decoding by doubt, by threshold), a byte of rate, one of doubt
//! or maximum, two bytes of threshold and two of length, high first, and that many bytes. An answer is a line: the multiplications, the
//! number returned, and the bytes of the buffers that the call writes, in hexadecimal digits.

use std::io::{self, Read};
use std::sync::atomic::Ordering;

fn main() -> io::Result<()> {
    let mut input = Vec::new();
    io::stdin().read_to_end(&mut input)?;
    let mut rest = &input[..];
    while let [call, rate, doubt, above, below, high, low, bytes @ ..] = rest {
        let length = usize::from(*high) * 256 + usize::from(*low);
        let (bytes, next) = bytes.split_at(length);
        rest = next;
        galois::MULTIPLICATIONS.store(0, Ordering::Relaxed);
        let rate = usize::from(*rate);
        let mut first = vec![0; if *call == b'E' { 64 } else { rate }];
        let mut report = vec![0; if b"TL".contains(call) { totals::report::REPORT_BYTES } else { 0 }];
        let answer = match call {
            b'E' => encoding::encode(rate, bytes, &mut first, 0),
            b'B' => reading_back::read_back(rate, bytes, &mut first),
            b'L' => {
                let threshold = u16::from_be_bytes([*above, *below]);
                threshold_decoding::decode_table_below(rate, bytes, threshold, usize::from(*doubt), &mut first, &mut report)
            }
            _ => table_decoding::decode_table(rate, bytes, usize::from(*doubt), &mut first, &mut report),
        };
        let number = refusals::number_of(answer);
        let digits: String = first.iter().chain(&report).map(|byte| format!("{byte:02x}")).collect();
        println!("{} {number} {digits}", galois::MULTIPLICATIONS.load(Ordering::Relaxed));
    }
    Ok(())
}

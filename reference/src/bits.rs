//! Columns from the demapper's bit values, and decoding from them.
//!
//! - [`SENT`]: the bits of each symbol, as BPSK sends them.
//! - [`column_of_bits`]: a column from four signed bytes; [`columns_of_bits`]: 64 from 256.
//! - [`decode_bits`]: decoding from a frame of bit values, with its checks.

use crate::code::{check_size, Code};
use crate::curve::PLACES;
use crate::decode::{decode_table, table_of_columns};
use crate::field::SYMBOLS;
use crate::refusal::Refusal;
use crate::soft::{Column, Columns};

/// Bits of a symbol.
pub const BITS: usize = 4;

/// "A frame is 256 such bytes in place order."
pub const FRAME_VALUES: usize = PLACES * BITS;

/// "No cost exceeds 512."
pub const MOST_COST: u16 = 512;

/// The bits of each symbol, "highest bit first": bit 0 as 1 and bit 1 as −1, so that a value favours
/// the bit of its sign.
pub const SENT: [[i16; BITS]; SYMBOLS] = [
    [1, 1, 1, 1],
    [1, 1, 1, -1],
    [1, 1, -1, 1],
    [1, 1, -1, -1],
    [1, -1, 1, 1],
    [1, -1, 1, -1],
    [1, -1, -1, 1],
    [1, -1, -1, -1],
    [-1, 1, 1, 1],
    [-1, 1, 1, -1],
    [-1, 1, -1, 1],
    [-1, 1, -1, -1],
    [-1, -1, 1, 1],
    [-1, -1, 1, -1],
    [-1, -1, -1, 1],
    [-1, -1, -1, -1],
];

/// "The cost of a symbol sums the magnitudes of those values whose favoured bit it contradicts."
///
/// A value times the bit sent is its magnitude where they agree, and less by twice the magnitude
/// where they do not. So all magnitudes less the sum of these products are twice the cost.
pub fn column_of_bits(values: [i8; BITS]) -> Column {
    let values = values.map(i16::from);
    let magnitudes: i16 = values.iter().map(|value| value.abs()).sum();
    SENT.map(|sent| {
        let products = sent.iter().zip(values).map(|(bit, value)| bit * value);
        ((magnitudes - products.sum::<i16>()) / 2) as u16
    })
}

/// The columns of a frame of 256 values.
pub fn columns_of_bits(values: &[i8]) -> Columns {
    assert_eq!(values.len(), FRAME_VALUES);
    std::array::from_fn(|place| {
        column_of_bits(std::array::from_fn(|bit| values[BITS * place + bit]))
    })
}

/// "Decoding from bit values equals decoding the table they make." "Any other length is an ill-sized
/// buffer; the checks come in table decoding's order": rate; 256 values, message buffer of k bytes
/// and report; doubt; blank places; nearness.
pub fn decode_bits(
    rate: u64,
    values: &[i8],
    doubt: u64,
    message: &mut [u8],
    report: &mut [u8],
) -> Result<(), Refusal> {
    Code::of_rate(rate)?;
    check_size(values, FRAME_VALUES)?;
    let table = table_of_columns(&columns_of_bits(values));
    decode_table(rate, &table, doubt, message, report)
}

#[cfg(test)]
mod tests {
    use super::*;
    use crate::decode::REPORT_BYTES;
    use crate::frames::UNKNOWN_RATES;
    use crate::random::Random;
    use crate::soft::{best, gap, is_blank, second};

    /// Every value at every position, beside three zeros and beside others.
    fn probes() -> impl Iterator<Item = (usize, [i8; BITS])> {
        (0..BITS).flat_map(|position| {
            (i8::MIN..=i8::MAX).flat_map(move |value| {
                let mut random = Random::new(140, (position << 8) as u64 | u64::from(value as u8));
                (0..8).map(move |number| {
                    let mut values = [0; BITS];
                    if number > 0 {
                        values = values.map(|_| random.number() as i8);
                    }
                    values[position] = value;
                    (position, values)
                })
            })
        })
    }

    /// The sentence itself, value by value.
    #[test]
    fn columns_sum_contradicted_magnitudes() {
        for (_, values) in probes() {
            let column = column_of_bits(values);
            for (symbol, cost) in column.into_iter().enumerate() {
                let mut sum = 0;
                for (position, value) in values.into_iter().enumerate() {
                    let bit = symbol >> (BITS - 1 - position) & 1;
                    let contradicted = if bit == 1 { value > 0 } else { value < 0 };
                    if contradicted {
                        sum += u16::from(value.unsigned_abs());
                    }
                }
                assert_eq!(cost, sum, "{values:?} {symbol}");
            }
        }
    }

    #[test]
    fn a_value_costs_the_symbols_with_the_other_bit() {
        for (position, values) in probes() {
            let value = values[position];
            let mut without = values;
            without[position] = 0;
            let (with, without) = (column_of_bits(values), column_of_bits(without));
            for symbol in 0..SYMBOLS {
                let one = symbol & 8 >> position != 0;
                let added = match value {
                    0 => 0,
                    1.. => i16::from(one) * i16::from(value),
                    _ => i16::from(!one) * -i16::from(value),
                };
                assert_eq!(with[symbol] as i16 - without[symbol] as i16, added);
            }
        }
    }

    #[test]
    fn positive_values_favour_bit_0_and_the_highest_bit_is_first() {
        let ones = |position: usize, value: i8| {
            let mut values = [0; BITS];
            values[position] = value;
            let column = column_of_bits(values);
            let dear = (0..SYMBOLS).filter(|symbol| column[*symbol] != 0);
            dear.collect::<Vec<usize>>()
        };
        assert_eq!(ones(0, 1), [8, 9, 10, 11, 12, 13, 14, 15]);
        assert_eq!(ones(0, -1), [0, 1, 2, 3, 4, 5, 6, 7]);
        assert_eq!(ones(1, 127), [4, 5, 6, 7, 12, 13, 14, 15]);
        assert_eq!(ones(2, 127), [2, 3, 6, 7, 10, 11, 14, 15]);
        assert_eq!(ones(3, 127), [1, 3, 5, 7, 9, 11, 13, 15]);
        assert_eq!(ones(3, -128), [0, 2, 4, 6, 8, 10, 12, 14]);
        for symbol in 0..SYMBOLS {
            let values = SENT[symbol].map(|bit| bit as i8);
            let column = column_of_bits(values);
            assert_eq!(usize::from(best(&column)), symbol);
            assert_eq!(column[15 - symbol], 4);
        }
    }

    #[test]
    fn the_magnitude_of_minus_128_is_128() {
        for position in 0..BITS {
            let mut values = [0; BITS];
            values[position] = -128;
            let column = column_of_bits(values);
            assert_eq!(column[0], 128);
            assert_eq!(column[8 >> position], 0);
        }
        assert_eq!(column_of_bits([-128; BITS])[0], MOST_COST);
        assert_eq!(column_of_bits([127; BITS])[15], 508);
        let column = column_of_bits([-128, 100, 3, 0]);
        assert_eq!(column[0b1000], 0);
        assert_eq!(column[0b1001], 0);
        assert_eq!(column[0b1010], 3);
        assert_eq!(column[0b0111], 128 + 100 + 3);
        assert_eq!((best(&column), second(&column), gap(&column)), (8, 9, 0));
    }

    #[test]
    fn no_cost_exceeds_512() {
        let ends = [-128, -127, -1, 0, 1, 127];
        for (position, values) in probes() {
            for end in ends {
                let mut ended = [end; BITS];
                ended[position] = values[position];
                for column in [column_of_bits(values), column_of_bits(ended)] {
                    assert!(column.iter().all(|cost| *cost <= MOST_COST));
                    assert!(column.contains(&0));
                }
            }
        }
    }

    #[test]
    fn four_zeros_make_a_blank_column_and_only_they() {
        assert_eq!(column_of_bits([0; BITS]), [0; SYMBOLS]);
        for (_, values) in probes() {
            let blank = is_blank(&column_of_bits(values));
            assert_eq!(blank, values == [0; BITS], "{values:?}");
        }
    }

    #[test]
    fn frames_hold_the_values_in_place_order() {
        let mut random = Random::new(141, 0);
        let values: Vec<i8> = (0..FRAME_VALUES).map(|_| random.number() as i8).collect();
        let columns = columns_of_bits(&values);
        for (place, column) in columns.iter().enumerate() {
            let four = [0, 1, 2, 3].map(|bit| values[4 * place + bit]);
            assert_eq!(*column, column_of_bits(four));
        }
    }

    /// Each fault beside the later ones. The zero word is sent.
    #[test]
    fn bit_values_are_checked_in_table_decodings_order() {
        let decoded = |rate, values: &[i8], doubt, sizes: [usize; 2]| {
            let [mut message, mut report] = sizes.map(|size| vec![9; size]);
            let result = decode_bits(rate, values, doubt, &mut message, &mut report);
            let untouched = message == vec![9; sizes[0]] && report == vec![9; sizes[1]];
            assert_eq!(result.is_err(), untouched);
            result
        };
        let right = [39, REPORT_BYTES];
        let mut values = vec![0; FRAME_VALUES];
        for rate in UNKNOWN_RATES {
            assert_eq!(decoded(rate, &values[1..], 13, [40; 2]), Err(Refusal::Rate));
        }
        for size in [0, 255, 257, 1024, 2048] {
            let values = vec![0; size];
            assert_eq!(decoded(39, &values, 13, right), Err(Refusal::Size));
        }
        for sizes in [
            [38, REPORT_BYTES],
            [49, REPORT_BYTES],
            [39, 8],
            [39, 13],
            [39, 15],
        ] {
            assert_eq!(decoded(39, &values, 13, sizes), Err(Refusal::Size));
        }
        for doubt in [13, 256, u64::MAX] {
            assert_eq!(decoded(39, &values, doubt, right), Err(Refusal::Doubt));
        }
        for doubt in [8, 9, 12] {
            assert_eq!(decoded(39, &values, doubt, right), Err(Refusal::TooBlank));
        }
        values[14 * BITS..].fill(-5);
        values[30 * BITS..].fill(5);
        assert_eq!(decoded(39, &values, 0, right), Err(Refusal::TooBlank));
        values[13 * BITS] = 1;
        assert_eq!(decoded(39, &values, 0, right), Err(Refusal::NoneNear));
        values[14 * BITS..].fill(5);
        assert_eq!(decoded(39, &values, 0, right), Ok(()));
    }
}

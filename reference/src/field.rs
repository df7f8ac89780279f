//! The field of sixteen symbols, by polynomial arithmetic on bits.
//!
//! "Elements are the numbers 0 to 15. Bits are coefficients, α is 2, α^4 = α + 1, and addition is
//! exclusive or."
//!
//! - [`times`], [`power`], [`inverse`]: arithmetic on single elements; the sum is `^`.
//! - [`SYMBOLS`]: how many elements there are.

/// The number of elements.
pub const SYMBOLS: usize = 16;

/// α^4 + α + 1, the polynomial that is zero.
const MODULUS: u8 = 0b1_0011;

/// The product: multiplied without carries, then reduced from the highest bit down.
pub fn times(a: u8, b: u8) -> u8 {
    let mut product = 0;
    for bit in 0..4 {
        if b >> bit & 1 == 1 {
            product ^= a << bit;
        }
    }
    for bit in (4..=6).rev() {
        if product >> bit & 1 == 1 {
            product ^= MODULUS << (bit - 4);
        }
    }
    product
}

/// `a` multiplied `n` times; `a^0` is 1, also for zero.
pub fn power(a: u8, n: usize) -> u8 {
    (0..n).fold(1, |product, _| times(product, a))
}

/// The inverse of an element that is not zero: a^15 = 1, so it is a^14.
pub fn inverse(a: u8) -> u8 {
    assert_ne!(a, 0, "zero has no inverse");
    power(a, SYMBOLS - 2)
}

#[cfg(test)]
mod tests {
    use super::*;

    fn elements() -> impl Iterator<Item = u8> {
        0..SYMBOLS as u8
    }

    #[test]
    fn powers_of_alpha_are_document_01s() {
        let listed = [1, 2, 4, 8, 3, 6, 12, 11, 5, 10, 7, 14, 15, 13, 9];
        for (n, expected) in listed.into_iter().enumerate() {
            assert_eq!(power(2, n), expected);
        }
        assert_eq!(power(2, 15), 1);
    }

    #[test]
    fn products_stay_in_the_field_and_obey_its_laws() {
        for a in elements() {
            assert_eq!(times(a, 1), a);
            assert_eq!(times(a, 0), 0);
            for b in elements() {
                assert!(times(a, b) < SYMBOLS as u8);
                assert_eq!(times(a, b), times(b, a));
                for c in elements() {
                    assert_eq!(times(a, times(b, c)), times(times(a, b), c));
                    assert_eq!(times(a, b ^ c), times(a, b) ^ times(a, c));
                }
            }
        }
    }

    #[test]
    fn inverses_multiply_to_one() {
        for a in elements().skip(1) {
            assert_eq!(times(a, inverse(a)), 1);
        }
    }
}

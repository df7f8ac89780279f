//! What may be wrong with a call that decodes, and which refusal is the first.
//!
//! - [`Fault`], [`FAULTS`]: the faults, in the order of the checks.
//! - [`Faults`], [`FAULT_SETS`]: any of them together; [`has`], [`first_fault`].

/// What may be wrong with a call.
#[derive(Clone, Copy, Debug, PartialEq, Eq)]
pub enum Fault {
    Rate,
    /// The size of the table, or the number of bit values.
    Given,
    Message,
    Report,
    /// The doubt, or the maximum.
    Doubt,
    Blank,
    Near,
}

/// The faults with their refusals, in the order of the checks.
pub const FAULTS: [(Fault, u8); 7] = [
    (Fault::Rate, 1),
    (Fault::Given, 2),
    (Fault::Message, 2),
    (Fault::Report, 2),
    (Fault::Doubt, 4),
    (Fault::Blank, 12),
    (Fault::Near, 9),
];

/// Any of the faults: number n of [`FAULTS`] is bit n.
pub type Faults = u8;

/// All sets of faults.
pub const FAULT_SETS: usize = 1 << FAULTS.len();

/// Whether a fault is one of these.
pub fn has(faults: Faults, fault: Fault) -> bool {
    let number = FAULTS.iter().position(|(other, _)| *other == fault);
    number.is_some_and(|number| faults >> number & 1 == 1)
}

/// The refusal of the first fault, or 0.
pub fn first_fault(faults: Faults) -> u8 {
    let first = FAULTS.get(faults.trailing_zeros() as usize);
    first.map_or(0, |(_, refusal)| *refusal)
}

#[cfg(test)]
mod tests {
    use super::*;

    #[test]
    fn the_first_of_a_set_is_refused() {
        assert_eq!(first_fault(0), 0);
        for (number, (fault, refusal)) in FAULTS.into_iter().enumerate() {
            let alone = 1 << number;
            let with_later = !(alone - 1) & (FAULT_SETS as u8 - 1);
            for set in [alone, with_later] {
                assert_eq!(first_fault(set), refusal);
                assert!(has(set, fault));
            }
            assert!(!has(!alone, fault));
        }
    }
}

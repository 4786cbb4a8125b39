//! Numbers that stand for sets: place 0 is the lowest bit.

/// Whether the bit at a place of a number is set, by division alone.
pub fn is_set(number: u64, place: usize) -> bool {
    let mut left = number;
    for _ in 0..place {
        left /= 2;
    }
    left % 2 == 1
}

/// The set that a number stands for: which of its lowest places are in it.
pub fn places<const COUNT: usize>(number: u64) -> [bool; COUNT] {
    let mut found = [false; COUNT];
    for (place, inside) in found.iter_mut().enumerate() {
        *inside = is_set(number, place);
    }
    found
}

/// The number that stands for a set.
pub fn number(places: &[bool]) -> u64 {
    let mut sum = 0;
    let mut worth: u64 = 1;
    for inside in places {
        if *inside {
            sum += worth;
        }
        worth = worth.wrapping_mul(2);
    }
    sum
}

/// Whether every place of the first set is in the second.
pub fn lies_in(first: &[bool], second: &[bool]) -> bool {
    for place in 0..first.len() {
        if first[place] && !second[place] {
            return false;
        }
    }
    true
}

#[cfg(test)]
mod tests {
    use super::*;

    #[test]
    fn numbers_and_sets_go_back_and_forth() {
        for value in [0, 1, 2, 0x8001, 0xffff] {
            assert_eq!(number(&places::<16>(value)), value);
        }
        assert_eq!(number(&places::<64>(u64::MAX)), u64::MAX);
        assert_eq!(number(&places::<12>(0x3005)), 5);
        assert_eq!(places::<4>(5), [true, false, true, false]);
    }
}

//! Single bits and fields of a 64-bit number.

/// Bit `position` of `value`. Positions from 64 up read as 0.
pub fn bit(value: u64, position: u32) -> bool {
    match value.checked_shr(position) {
        Some(shifted) => shifted & 1 == 1,
        None => false,
    }
}

/// `value` with bit `position` made `on`. Positions from 64 up change nothing.
pub fn with_bit(value: u64, position: u32, on: bool) -> u64 {
    let one = 1u64.checked_shl(position).unwrap_or(0);
    if on {
        value | one
    } else {
        value & !one
    }
}

/// A number whose low `count` bits are 1 (64 and more: all ones).
pub fn low_ones(count: u32) -> u64 {
    match 1u64.checked_shl(count) {
        Some(power) => power - 1,
        None => u64::MAX,
    }
}

/// The field of `width` bits of `value` that starts at bit `low`.
pub fn field(value: u64, low: u32, width: u32) -> u64 {
    value.checked_shr(low).unwrap_or(0) & low_ones(width)
}

/// `value` with its field of `width` bits at bit `low` replaced by the low bits of `content`.
pub fn with_field(value: u64, low: u32, width: u32, content: u64) -> u64 {
    let mask = low_ones(width).checked_shl(low).unwrap_or(0);
    let placed = content.checked_shl(low).unwrap_or(0);
    (value & !mask) | (placed & mask)
}

#[cfg(test)]
mod tests {
    use super::*;

    #[test]
    fn bits_are_read_and_set_over_the_whole_width() {
        for position in 0..64 {
            let one = 1u64 << position;
            assert!(bit(one, position));
            assert!(!bit(!one, position));
            assert_eq!(with_bit(0, position, true), one);
            assert_eq!(with_bit(u64::MAX, position, false), !one);
            assert_eq!(with_bit(one, position, true), one);
        }
        assert!(!bit(u64::MAX, 64));
        assert_eq!(with_bit(5, 64, true), 5);
        assert_eq!(with_bit(5, 1000, false), 5);
    }

    #[test]
    fn fields_are_read_and_replaced() {
        assert_eq!(low_ones(0), 0);
        assert_eq!(low_ones(63), u64::MAX >> 1);
        assert_eq!(low_ones(64), u64::MAX);
        assert_eq!(low_ones(200), u64::MAX);
        assert_eq!(field(0x8000_0000_0000_0000, 60, 4), 8);
        assert_eq!(field(u64::MAX, 64, 4), 0);
        assert_eq!(with_field(0, 60, 4, 0x18), 0x8000_0000_0000_0000);
        assert_eq!(with_field(u64::MAX, 11, 2, 0), !0x1800);
        assert_eq!(with_field(7, 64, 4, 3), 7);
    }
}

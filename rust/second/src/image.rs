//! The image: a base and a run of bytes, and refusal 1.

use std::ops::Range;

use crate::address::Machine;

/// The largest image that the model takes: 67,108,864 bytes.
pub const LARGEST: u128 = 67_108_864;
/// The largest base + length that the model takes.
pub const END_LIMIT: u128 = 1 << 56;
/// Base and length are multiples of this.
pub const PAGE: u128 = 4096;

/// What makes the model refuse an image as 1.
#[derive(Clone, Copy, PartialEq, Eq, Debug)]
pub enum BadImage {
    /// "over 67,108,864 bytes": its length.
    TooLarge(u128),
    /// The base is not a multiple of 4096.
    Base(u64),
    /// The length is not a multiple of 4096.
    Length(u128),
    /// "base + length over 2^56": the sum.
    End(u128),
}

/// An image: bytes from a machine address on. "From here the image is written by HSV alone."
#[derive(Clone, PartialEq, Eq, Debug, Default)]
pub struct Image {
    /// The machine address of the first byte.
    pub base: u64,
    /// The bytes.
    pub bytes: Vec<u8>,
}

impl Image {
    /// The image's length as a whole number.
    pub fn length(&self) -> u128 {
        self.bytes.len() as u128
    }

    /// Refusal 1: "image over 67,108,864 bytes, base or length not a multiple of 4096, or base + length over 2^56". What makes
    /// the model refuse the image, if something does.
    pub fn refusal(&self) -> Option<BadImage> {
        let base = u128::from(self.base);
        let length = self.length();
        if length > LARGEST {
            Some(BadImage::TooLarge(length))
        } else if !base.is_multiple_of(PAGE) {
            Some(BadImage::Base(self.base))
        } else if !length.is_multiple_of(PAGE) {
            Some(BadImage::Length(length))
        } else if base + length > END_LIMIT {
            Some(BadImage::End(base + length))
        } else {
            None
        }
    }

    /// Whether `width` bytes from `address` on all lie in the image. Sums are of whole numbers: nothing wraps.
    pub fn holds(&self, address: Machine, width: u64) -> bool {
        let first = u128::from(address.0);
        let base = u128::from(self.base);
        first >= base && first + u128::from(width) <= base + self.length()
    }

    /// The places of `width` bytes from `address` on; none where they do not all lie in the image.
    fn places(&self, address: Machine, width: u64) -> Option<Range<usize>> {
        let start = usize::try_from(address.0.checked_sub(self.base)?).ok()?;
        let end = start.checked_add(usize::try_from(width).ok()?)?;
        (end <= self.bytes.len()).then_some(start..end)
    }

    /// The eight bytes at `address`, little-endian; none where they do not all lie in the image.
    pub fn read(&self, address: Machine) -> Option<u64> {
        self.load(address, 8)
    }

    /// The `width` bytes at `address` (1 to 8), little-endian, the bits above them 0; none where they do not all lie in the image.
    pub fn load(&self, address: Machine, width: u64) -> Option<u64> {
        let mut number = [0; 8];
        let loaded = self.bytes.get(self.places(address, width)?)?;
        number.get_mut(..loaded.len())?.copy_from_slice(loaded);
        Some(u64::from_le_bytes(number))
    }

    /// Puts eight bytes, little-endian, at `address` (a line of a script does that, no event). False, and nothing done, where
    /// they do not all lie in the image.
    pub fn put(&mut self, address: Machine, value: u64) -> bool {
        self.store(address, 8, value).is_some()
    }

    /// Stores the low `width` bytes of `value` (1 to 8), little-endian, at `address`, and no others. None, and nothing done, where
    /// they do not all lie in the image.
    pub fn store(&mut self, address: Machine, width: u64, value: u64) -> Option<()> {
        let places = self.places(address, width)?;
        let number = value.to_le_bytes();
        let stored = number.get(..places.len())?;
        self.bytes.get_mut(places)?.copy_from_slice(stored);
        Some(())
    }
}

#[cfg(test)]
mod tests {
    use super::*;

    fn image(base: u64, length: usize) -> Image {
        Image {
            base,
            bytes: vec![0; length],
        }
    }

    fn refused(base: u64, length: usize) -> bool {
        image(base, length).refusal().is_some()
    }

    #[test]
    fn refusal_1_by_length() {
        assert!(!refused(0, 0x400_0000), "known replay");
        assert!(refused(0, 0x400_1000), "known replay");
        assert!(!refused(0, 0), "length 0 is allowed");
        for length in [1, 8, 4095, 4097, 0x3ff_ffff, 0x400_0001] {
            assert!(refused(0, length), "{length:x}");
        }
        assert!(!refused(0, 4096));
    }

    #[test]
    fn refusal_1_by_base() {
        for base in [1, 8, 4095, 4097, (1 << 55) + 1] {
            assert!(refused(base, 4096));
            assert!(refused(base, 0));
        }
    }

    #[test]
    fn refusal_1_by_end() {
        let end = 1u64 << 56;
        assert!(!refused(end - 4096, 4096));
        assert!(refused(end - 4096, 8192));
        assert!(!refused(end, 0));
        assert!(refused(end, 4096));
        assert!(refused(end + 4096, 0));
        assert!(refused(u64::MAX - 4095, 4096));
        assert!(refused(u64::MAX - 4095, 0));
    }

    #[test]
    fn the_first_of_several_reasons_is_given() {
        let last = u64::MAX;
        for (base, length, reason) in [
            (last, 0x400_0001, BadImage::TooLarge(0x400_0001)),
            (last, 0xfff, BadImage::Base(last)),
            (last - 0xfff, 0xfff, BadImage::Length(0xfff)),
            (last - 0xfff, 0x3000, BadImage::End((1 << 64) + 0x2000)),
        ] {
            assert_eq!(image(base, length).refusal(), Some(reason));
        }
    }

    #[test]
    fn reads_and_puts_lie_within() {
        let mut image = image(0x1000, 0x1000);
        assert!(image.put(Machine(0x1000), 0x0807_0605_0403_0201));
        assert_eq!(image.bytes[..8], [1, 2, 3, 4, 5, 6, 7, 8]);
        assert_eq!(image.read(Machine(0x1000)), Some(0x0807_0605_0403_0201));
        assert_eq!(image.read(Machine(0x1001)), Some(0x0008_0706_0504_0302));
        assert!(image.put(Machine(0x1ff8), 7));
        assert_eq!(image.read(Machine(0x1ff8)), Some(7));
        for outside in [0, 0xff8, 0xfff, 0x1ff9, 0x2000, u64::MAX - 7, u64::MAX] {
            assert_eq!(image.read(Machine(outside)), None, "{outside:x}");
            assert!(!image.put(Machine(outside), 1));
        }
    }

    #[test]
    fn loads_and_stores_have_their_width() {
        let mut image = image(0x1000, 0x1000);
        let before = 0x1817_1615_1413_1211;
        for (width, expected) in [
            (1, 0x1817_1615_1413_1288),
            (2, 0x1817_1615_1413_7788),
            (4, 0x1817_1615_5566_7788),
            (8, 0x1122_3344_5566_7788),
        ] {
            image.put(Machine(0x1008), before);
            let stored = image.store(Machine(0x1008), width, 0x1122_3344_5566_7788);
            assert_eq!(stored, Some(()));
            assert_eq!(image.read(Machine(0x1000)), Some(0));
            assert_eq!(image.read(Machine(0x1008)), Some(expected));
            assert_eq!(image.read(Machine(0x1010)), Some(0));
            let low = 0x1122_3344_5566_7788 & crate::bits::low_ones(8 * width as u32);
            assert_eq!(image.load(Machine(0x1008), width), Some(low));
            let last = 0x2000 - width;
            assert_eq!(image.load(Machine(last), width), Some(0));
            for outside in [last + 1, 0x2000, 0x1000 - 1, 0, u64::MAX] {
                assert_eq!(image.load(Machine(outside), width), None);
                let unchanged = image.clone();
                assert_eq!(image.store(Machine(outside), width, u64::MAX), None);
                assert_eq!(image, unchanged);
            }
        }
        assert_eq!(image.load(Machine(0x1000), 9), None);
        assert_eq!(image.store(Machine(0x1000), 9, 0), None);
        assert_eq!(image.load(Machine(0x1000), u64::MAX), None);
    }

    #[test]
    fn holds_counts_in_whole_numbers() {
        let low = image(0x1000, 0x1000);
        assert!(low.holds(Machine(0x1000), 8));
        assert!(low.holds(Machine(0x1ff8), 8));
        assert!(low.holds(Machine(0x1fff), 1));
        assert!(!low.holds(Machine(0x1fff), 2));
        assert!(!low.holds(Machine(0xfff), 2));
        assert!(!low.holds(Machine(0x2000), 1));
        assert!(!low.holds(Machine(u64::MAX), 8));
        assert!(!image(0, 0x1000).holds(Machine(u64::MAX - 7), 8));
        assert!(!image(0, 0).holds(Machine(0), 1));
        let last = image(u64::MAX - 7, 16);
        assert!(last.holds(Machine(u64::MAX - 3), 8), "no wrap at 2^64");
    }
}

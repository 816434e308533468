//! A RISC-V hart with the hypervisor extension, as a proved library.
//!
//! The model is written and proved in Rattle; this crate gives its public calls ordinary Rust types. Every call answers, whatever
//! it is given: what the model does not take, it refuses with a number. A call panics only where the library that was linked is
//! not the one that this crate declares: then it has no answer.
//!
//! ```
//! use balcumentri::{Access, Answer, Hart, Image, Kind};
//!
//! // A hart in VS whose second stage is on, and an image with its three tables.
//! let mut bytes = vec![0; 0x11000];
//! bytes[0x4008..0x4010].copy_from_slice(&0x2000_2001_u64.to_le_bytes());
//! bytes[0x8000..0x8008].copy_from_slice(&0x2000_2401_u64.to_le_bytes());
//! bytes[0x9008..0x9010].copy_from_slice(&0x2000_40d7_u64.to_le_bytes());
//! let image = Image { base: 0x8000_0000, bytes: &bytes };
//! let mut hart = Hart::new(1, 1, 0);
//! assert!(hart.put_register(0x680, 0x8000_0000_0008_0004));
//!
//! let load = Access { kind: Kind::Load, address: 0x4000_1008, width: 8 };
//! let translation = hart.translate(image, load);
//! assert_eq!(translation.answer(), Answer::Address(0x8001_0008));
//! assert_eq!(translation.reads().len(), 3);
//! ```
#![deny(missing_docs)]
#![deny(unsafe_code)]

mod ffi;
mod hart;
mod translation;

pub use hart::{Accessed, GuestAccessed, Hart, Outcome};
pub use translation::{Access, Answer, Fault, Image, ImageMut, Kind, Read, Translation};

// The README's Rust lines are run as a test.
#[cfg(doctest)]
#[doc = include_str!("../../../README.md")]
struct Readme;

/// The place of the register that a hart keeps with a number, 0 to 30.
///
/// ```
/// assert_eq!(balcumentri::place(0x300), Some(13));
/// assert_eq!(balcumentri::place(0x344), Some(22));
/// assert_eq!(balcumentri::place(0x301), None);
/// assert_eq!(balcumentri::place(0x100), None); // sstatus is a view of mstatus
/// ```
pub fn place(number: u64) -> Option<usize> {
    let place = ffi::place(number);
    (place < ffi::KEPT).then_some(place)
}

/// The number of the register that a hart keeps at a place.
///
/// ```
/// assert_eq!(balcumentri::number(13), Some(0x300));
/// assert_eq!(balcumentri::number(30), Some(0x680));
/// assert_eq!(balcumentri::number(31), None);
/// ```
pub fn number(place: usize) -> Option<u64> {
    (place < ffi::KEPT).then(|| ffi::number(place))
}

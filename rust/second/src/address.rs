//! Guest physical and machine addresses, two kinds of number.
//!
//! A machine address names bytes of the image. A guest physical address is what the first stage yields with V=1; the second
//! stage alone turns it into a machine address.

/// A machine address.
#[derive(Clone, Copy, PartialEq, Eq, Debug, Default)]
pub struct Machine(pub u64);

/// A guest physical address.
#[derive(Clone, Copy, PartialEq, Eq, Debug, Default)]
pub struct GuestPhysical(pub u64);

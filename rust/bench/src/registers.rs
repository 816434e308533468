//! Register accesses.

pub mod cases;
pub mod sides;

/// How a register is accessed.
#[derive(Clone, Copy, Debug, PartialEq, Eq)]
pub enum Form {
    /// The old value is answered alone.
    Read,
    /// The value is written.
    Write,
    /// The value's bits are set.
    Set,
    /// The value's bits are cleared.
    Clear,
}

/// One access to a register.
#[derive(Clone, Copy, Debug)]
pub struct Access {
    /// The form.
    pub form: Form,
    /// The register's number.
    pub number: u64,
    /// The value, for all forms but a read.
    pub value: u64,
    /// Whether a set or clear writes.
    pub writes: bool,
    /// The instruction's word.
    pub word: u32,
}

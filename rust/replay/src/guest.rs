//! What a hypervisor load or store loaded or stored, in words, and the fault that the trap of one told.

use crate::names::Mode;
use crate::registers::{HTINST, HTVAL, MCAUSE, MTINST, MTVAL, MTVAL2, SCAUSE, STVAL};
use crate::script::{GuestAccess, Transfer};
use crate::views::held;
use balcumentri::{Fault, Hart};

/// What an access that was done loaded or stored at a machine address: the value that it answered, and what a store wrote over.
pub fn transferred(access: &GuestAccess, address: u64, value: u64, overwritten: u64) -> String {
    let low = |value: u64| value & u64::MAX >> (64 - 8 * access.width);
    let words = match access.transfer {
        Transfer::Store { value } => {
            format!("{:x} stored there, it held {overwritten:x}", low(value))
        }
        _ if access.width == 8 => format!("{value:x} there"),
        Transfer::Load { signed: true } => {
            format!("{:x} there, sign-extended to {value:x}", low(value))
        }
        Transfer::Load { signed: false } | Transfer::LoadX => {
            format!("{:x} there, zero-extended to {value:x}", low(value))
        }
    };
    format!("it reaches machine address {address:x}: {words}")
}

/// The fault that a trap told the level that took it: M or HS, since V was 0.
pub fn fault(after: &Hart) -> Fault {
    let (cause, value, second, word) = match Mode::of_hart(after) {
        Some(Mode::M) => (MCAUSE, MTVAL, MTVAL2, MTINST),
        _ => (SCAUSE, STVAL, HTVAL, HTINST),
    };
    Fault {
        cause: held(after, cause),
        value: held(after, value),
        second: held(after, second),
        word: held(after, word),
        flag: true,
    }
}

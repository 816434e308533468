//! Change request 2026-03, "Reading a guest from outside": HLV, HLVX and HSV load from and store to a guest's memory. Each has its
//! instruction word, for where it traps with cause 2 or 22.

use crate::address::Machine;
use crate::bits::bit;
use crate::hart::{Hart, Mode};
use crate::image::Image;
use crate::reasons::Reason;
use crate::registers::{HU, SPVP};
use crate::trap::{
    forbidden, illegal, only_moves_on, refused, trapped, virtual_instruction, Forbidden, Outcome,
    Raised, Refusal,
};
use crate::walk::{walk, Access, BadAccess, Fault, Kind, List, Manner};

/// Which of the three.
#[derive(Clone, Copy, PartialEq, Eq, Debug)]
pub enum Operation {
    /// HLV.
    Load {
        /// Whether what is loaded is sign-extended.
        signed: bool,
    },
    /// HLVX: a load that needs X.
    LoadExecutable,
    /// HSV.
    Store {
        /// The number whose low bytes are stored.
        value: u64,
    },
}

impl Operation {
    /// Its name.
    pub fn name(self) -> &'static str {
        match self {
            Operation::Load { .. } => "HLV",
            Operation::LoadExecutable => "HLVX",
            Operation::Store { .. } => "HSV",
        }
    }

    /// "HLVX [...] faults as a load".
    fn kind(self) -> Kind {
        match self {
            Operation::Load { .. } | Operation::LoadExecutable => Kind::Load,
            Operation::Store { .. } => Kind::Store,
        }
    }
}

/// A hypervisor load or store.
#[derive(Clone, Copy, PartialEq, Eq, Debug)]
pub struct GuestAccess {
    /// Which one.
    pub operation: Operation,
    /// The guest's virtual address.
    pub address: u64,
    /// The number of bytes.
    pub width: u64,
}

impl GuestAccess {
    /// The load or store that is walked for it.
    pub fn access(&self) -> Access {
        Access {
            kind: self.operation.kind(),
            address: self.address,
            width: self.width,
        }
    }

    /// Refusal 3: that of a load or store, and "HLVX of width 1 or 8 is refused as 3".
    fn refusal(&self) -> Option<BadAccess> {
        let hlvx = self.operation == Operation::LoadExecutable;
        let of_hlvx = hlvx && matches!(self.width, 1 | 8);
        let of_hlvx = of_hlvx.then_some(BadAccess::HlvxWidth(self.width));
        self.access().refusal().or(of_hlvx)
    }

    /// "They translate as V=1 with privilege SPVP, whatever MPRV says".
    pub fn manner(&self, hart: &Hart) -> Manner {
        Manner {
            mode: Mode::below_machine(true, bit(hart.hstatus, SPVP)),
            needs_x: self.operation == Operation::LoadExecutable,
        }
    }
}

/// What a hypervisor load or store came to.
#[derive(Clone, Copy, PartialEq, Eq, Debug)]
pub struct Reached {
    /// The value of a load; "a trap or refusal answers 0". A store has none.
    pub value: Option<u64>,
    /// Where its bytes are, if it was done.
    pub machine: Option<Machine>,
    /// "Demand 3's list stays that of table entries".
    pub list: List,
    /// The hart after it, and how it ended.
    pub outcome: Outcome,
}

/// A hypervisor load or store. Refused as 2 by the hart, as 1 by the image, as 3 by its own width.
pub fn reach(hart: &Hart, image: &mut Image, access: &GuestAccess, word: u32) -> Reached {
    let mode = match taken(hart, image, access) {
        Ok(mode) => mode,
        Err(refusal) => return without_bytes(access, List::default(), refused(hart, refusal)),
    };
    if let Some(raised) = out_of_reach(hart, mode, access.operation) {
        let outcome = forbidden(hart, mode, raised, word);
        return without_bytes(access, List::default(), outcome);
    }
    let walked = walk(hart, image, &access.access(), access.manner(hart));
    match walked.end {
        Ok(machine) => Reached {
            value: perform(image, access, machine),
            machine: Some(machine),
            list: walked.list,
            outcome: only_moves_on(hart),
        },
        Err(fault) => without_bytes(access, walked.list, faulted(hart, mode, &fault)),
    }
}

/// The hart's mode, or why the access is refused. "Order: 2, then 1, then the call's own".
fn taken(hart: &Hart, image: &Image, access: &GuestAccess) -> Result<Mode, Refusal> {
    let mode = hart.check().map_err(Refusal::Hart)?;
    if let Some(bad) = image.refusal() {
        return Err(Refusal::Image(bad));
    }
    if let Some(bad) = access.refusal() {
        return Err(Refusal::Access(bad));
    }
    Ok(mode)
}

/// "V=1 gives 22; U with HU=0 gives 2".
fn out_of_reach(hart: &Hart, mode: Mode, operation: Operation) -> Option<Raised> {
    match mode {
        Mode::Vu | Mode::Vs => {
            let rule = Forbidden::Instruction(operation.name(), mode);
            Some(virtual_instruction(rule))
        }
        Mode::U if !bit(hart.hstatus, HU) => Some(illegal(Forbidden::HuClear)),
        Mode::U | Mode::Hs | Mode::M => None,
    }
}

/// "a fault is delivered as a trap": from the hart's own mode, in which V is 0.
fn faulted(hart: &Hart, mode: Mode, fault: &Fault) -> Outcome {
    Outcome {
        reason: Some(Reason::Fault(fault.why)),
        ..trapped(hart, mode, fault.trap)
    }
}

/// One that was refused or trapped: it answers 0, and nothing is stored.
fn without_bytes(access: &GuestAccess, list: List, outcome: Outcome) -> Reached {
    Reached {
        value: match access.operation {
            Operation::Load { .. } | Operation::LoadExecutable => Some(0),
            Operation::Store { .. } => None,
        },
        machine: None,
        list,
        outcome,
    }
}

/// Loads, or stores: "HSV writes exactly its own bytes of the image". The walk has seen that they all lie in it.
fn perform(image: &mut Image, access: &GuestAccess, machine: Machine) -> Option<u64> {
    let width = access.width;
    let (signed, loaded) = match access.operation {
        Operation::Load { signed } => (signed, image.load(machine, width)),
        Operation::LoadExecutable => (false, image.load(machine, width)),
        Operation::Store { value } => {
            image.store(machine, width, value);
            return None;
        }
    };
    loaded.map(|loaded| extended(loaded, width, signed))
}

/// "HLV of each width, signed and unsigned (at 8 the two are one)": `width` bytes as a number of 64 bits.
fn extended(loaded: u64, width: u64, signed: bool) -> u64 {
    match width {
        1 if signed => loaded as i8 as u64,
        2 if signed => loaded as i16 as u64,
        4 if signed => loaded as i32 as u64,
        _ => loaded,
    }
}

#[cfg(test)]
#[path = "hypervisor_tests.rs"]
mod tests;

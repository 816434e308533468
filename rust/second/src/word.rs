//! What the word of an event is (change requests 2026-02 and 2026-03), for people: "The keeper's recorder leaves odd instructions, and a zero
//! tells us nothing." The model itself does not decode it.

use std::fmt::{Display, Formatter, Result};

use crate::access::Action;
use crate::bits::field;
use crate::hypervisor::{GuestAccess, Operation as GuestOperation};
use crate::registers::find;
use crate::script::{Instruction, Line};

/// Bits 6:0 of a SYSTEM instruction.
const SYSTEM: u64 = 0x73;

/// The instructions that are one word each.
const WHOLE_WORDS: [(u64, Decoded); 5] = [
    (0x0000_0073, Decoded::Ecall),
    (0x0010_0073, Decoded::Ebreak),
    (0x3020_0073, Decoded::Bare(Instruction::Mret)),
    (0x1020_0073, Decoded::Bare(Instruction::Sret)),
    (0x1050_0073, Decoded::Bare(Instruction::Wfi)),
];

/// The fences, by bits 31:25.
const FENCES: [(u64, Instruction); 3] = [
    (0x09, Instruction::SfenceVma),
    (0x11, Instruction::HfenceVvma),
    (0x31, Instruction::HfenceGvma),
];

/// Bits 14:12 of the hypervisor loads and stores.
const GUEST: u64 = 4;

/// The hypervisor loads, by bits 31:25 and 24:20: the name, how they load, and the width.
const LOADS: [(u64, u64, &str, Loading, u64); 9] = [
    (0x30, 0, "HLV.B", Loading::Signed, 1),
    (0x30, 1, "HLV.BU", Loading::Unsigned, 1),
    (0x32, 0, "HLV.H", Loading::Signed, 2),
    (0x32, 1, "HLV.HU", Loading::Unsigned, 2),
    (0x32, 3, "HLVX.HU", Loading::Executable, 2),
    (0x34, 0, "HLV.W", Loading::Signed, 4),
    (0x34, 1, "HLV.WU", Loading::Unsigned, 4),
    (0x34, 3, "HLVX.WU", Loading::Executable, 4),
    (0x36, 0, "HLV.D", Loading::Signed, 8),
];

/// The hypervisor stores, by bits 31:25: the name and the width.
const STORES: [(u64, &str, u64); 4] = [
    (0x31, "HSV.B", 1),
    (0x33, "HSV.H", 2),
    (0x35, "HSV.W", 4),
    (0x37, "HSV.D", 8),
];

/// The register accesses, by bits 14:12: what they do, and whether S is itself the number.
const ACCESSES: [(u64, Operation, bool); 6] = [
    (1, Operation::Write, false),
    (2, Operation::Set, false),
    (3, Operation::Clear, false),
    (5, Operation::Write, true),
    (6, Operation::Set, true),
    (7, Operation::Clear, true),
];

/// What a word is.
#[derive(Clone, Copy, PartialEq, Eq, Debug)]
pub enum Decoded {
    /// ECALL.
    Ecall,
    /// EBREAK.
    Ebreak,
    /// MRET, SRET or WFI.
    Bare(Instruction),
    /// A fence.
    Fence(Fence),
    /// A register access.
    Access(Access),
    /// A hypervisor load.
    Load(Load),
    /// A hypervisor store.
    Store(Store),
    /// Another SYSTEM instruction.
    OtherSystem,
    /// No SYSTEM instruction.
    NoSystem,
}

/// A fence.
#[derive(Clone, Copy, PartialEq, Eq, Debug)]
pub struct Fence {
    /// Which one.
    pub fence: Instruction,
    /// The register that has the address; 0: all addresses.
    pub address: u64,
    /// The register that has the ASID or VMID; 0: all of them.
    pub space: u64,
}

/// A register access.
#[derive(Clone, Copy, PartialEq, Eq, Debug)]
pub struct Access {
    /// What it does.
    pub operation: Operation,
    /// Whether `source` is itself the number, instead of the register that has it.
    pub immediate: bool,
    /// S.
    pub source: u64,
    /// D, the register that takes the old value.
    pub destination: u64,
    /// N, the number of the register that is accessed.
    pub number: u64,
}

/// What a register access does.
#[derive(Clone, Copy, PartialEq, Eq, Debug)]
pub enum Operation {
    /// CSRRW, CSRRWI.
    Write,
    /// CSRRS, CSRRSI.
    Set,
    /// CSRRC, CSRRCI.
    Clear,
}

/// A hypervisor load.
#[derive(Clone, Copy, PartialEq, Eq, Debug)]
pub struct Load {
    /// Its name.
    pub name: &'static str,
    /// How it loads.
    pub loading: Loading,
    /// The number of bytes.
    pub width: u64,
    /// S, the register that has the address.
    pub address: u64,
    /// D, the register that takes what is loaded.
    pub destination: u64,
}

/// How a hypervisor load loads.
#[derive(Clone, Copy, PartialEq, Eq, Debug)]
pub enum Loading {
    /// HLV, sign-extended.
    Signed,
    /// HLV, zero-extended.
    Unsigned,
    /// HLVX.
    Executable,
}

/// A hypervisor store.
#[derive(Clone, Copy, PartialEq, Eq, Debug)]
pub struct Store {
    /// Its name.
    pub name: &'static str,
    /// The number of bytes.
    pub width: u64,
    /// S, the register that has the address.
    pub address: u64,
    /// T, the register that is stored.
    pub source: u64,
}

/// The instruction that a word is.
pub fn decode(word: u32) -> Decoded {
    let word = u64::from(word);
    if field(word, 0, 7) != SYSTEM {
        return Decoded::NoSystem;
    }
    whole_word(word)
        .or_else(|| fence(word))
        .or_else(|| guest_load(word))
        .or_else(|| guest_store(word))
        .or_else(|| access(word))
        .unwrap_or(Decoded::OtherSystem)
}

/// One of the instructions that are one word each.
fn whole_word(word: u64) -> Option<Decoded> {
    let found = WHOLE_WORDS.into_iter().find(|(whole, _)| *whole == word);
    found.map(|(_, decoded)| decoded)
}

/// A fence: bits 14:7 are 0.
fn fence(word: u64) -> Option<Decoded> {
    if field(word, 7, 8) != 0 {
        return None;
    }
    let mut fences = FENCES.into_iter();
    let (_, fence) = fences.find(|(function, _)| *function == field(word, 25, 7))?;
    Some(Decoded::Fence(Fence {
        fence,
        address: field(word, 15, 5),
        space: field(word, 20, 5),
    }))
}

/// A hypervisor load.
fn guest_load(word: u64) -> Option<Decoded> {
    if field(word, 12, 3) != GUEST {
        return None;
    }
    let functions = (field(word, 25, 7), field(word, 20, 5));
    let mut loads = LOADS.into_iter();
    let (_, _, name, loading, width) = loads.find(|load| (load.0, load.1) == functions)?;
    Some(Decoded::Load(Load {
        name,
        loading,
        width,
        address: field(word, 15, 5),
        destination: field(word, 7, 5),
    }))
}

/// A hypervisor store: bits 11:7 are 0.
fn guest_store(word: u64) -> Option<Decoded> {
    if field(word, 12, 3) != GUEST || field(word, 7, 5) != 0 {
        return None;
    }
    let mut stores = STORES.into_iter();
    let (_, name, width) = stores.find(|store| store.0 == field(word, 25, 7))?;
    Some(Decoded::Store(Store {
        name,
        width,
        address: field(word, 15, 5),
        source: field(word, 20, 5),
    }))
}

/// A register access.
fn access(word: u64) -> Option<Decoded> {
    let mut accesses = ACCESSES.into_iter();
    let (_, operation, immediate) =
        accesses.find(|(function, ..)| *function == field(word, 12, 3))?;
    Some(Decoded::Access(Access {
        operation,
        immediate,
        source: field(word, 15, 5),
        destination: field(word, 7, 5),
        number: field(word, 20, 12),
    }))
}

// Whether it fits.

impl Decoded {
    /// Whether it fits the event of a line.
    pub fn fits(&self, line: &Line) -> bool {
        match (self, line) {
            (Decoded::Bare(this), Line::Instruction { instruction, .. }) => this == instruction,
            (Decoded::Fence(this), Line::Instruction { instruction, .. }) => {
                this.fence == *instruction
            }
            (Decoded::Access(this), Line::Register { number, action, .. }) => {
                this.number == *number && this.fits(*action)
            }
            (Decoded::Load(this), Line::Guest { access, .. }) => this.fits(access),
            (Decoded::Store(this), Line::Guest { access, .. }) => this.fits(access),
            _ => false,
        }
    }
}

/// Whether a register can hold this value: x0 is 0.
fn can_hold(register: u64, value: u64) -> bool {
    register != 0 || value == 0
}

impl Load {
    /// Whether it is this access. Of 8 bytes there is nothing to extend.
    fn fits(&self, access: &GuestAccess) -> bool {
        let loads_so = match access.operation {
            GuestOperation::Load { signed: true } => self.loading == Loading::Signed,
            GuestOperation::Load { signed: false } => {
                self.loading == Loading::Unsigned || self.width == 8
            }
            GuestOperation::LoadExecutable => self.loading == Loading::Executable,
            GuestOperation::Store { .. } => false,
        };
        loads_so && self.width == access.width && can_hold(self.address, access.address)
    }
}

impl Store {
    /// Whether it is this access.
    fn fits(&self, access: &GuestAccess) -> bool {
        let stores_it = match access.operation {
            GuestOperation::Store { value } => can_hold(self.source, value),
            _ => false,
        };
        stores_it && self.width == access.width && can_hold(self.address, access.address)
    }
}

impl Access {
    /// Whether it only reads: a set or clear of no bits.
    fn only_reads(&self) -> bool {
        self.operation != Operation::Write && self.source == 0
    }

    /// Whether it is this action.
    fn fits(&self, action: Action) -> bool {
        let (operation, value) = match action {
            Action::Read => return self.only_reads(),
            Action::Write(value) => (Operation::Write, value),
            Action::Set { value, .. } => (Operation::Set, value),
            Action::Clear { value, .. } => (Operation::Clear, value),
        };
        if self.operation != operation {
            false
        } else if action.writes() {
            !self.only_reads() && self.can_give(value)
        } else {
            self.only_reads()
        }
    }

    /// Whether its operand can be this value: S itself, 0 from x0, anything from another register.
    fn can_give(&self, value: u64) -> bool {
        if self.immediate || self.source == 0 {
            value == self.source
        } else {
            true
        }
    }
}

// In words.

impl Display for Decoded {
    fn fmt(&self, text: &mut Formatter) -> Result {
        match self {
            Decoded::Ecall => text.write_str("ECALL"),
            Decoded::Ebreak => text.write_str("EBREAK"),
            Decoded::Bare(instruction) => text.write_str(name(*instruction)),
            Decoded::Fence(fence) => fence.fmt(text),
            Decoded::Access(access) => access.fmt(text),
            Decoded::Load(load) => load.fmt(text),
            Decoded::Store(store) => store.fmt(text),
            Decoded::OtherSystem => {
                text.write_str("a SYSTEM instruction that the model has no event for")
            }
            Decoded::NoSystem => text.write_str("no SYSTEM instruction"),
        }
    }
}

/// An instruction's name.
fn name(instruction: Instruction) -> &'static str {
    match instruction {
        Instruction::Mret => "MRET",
        Instruction::Sret => "SRET",
        Instruction::Wfi => "WFI",
        Instruction::SfenceVma => "SFENCE.VMA",
        Instruction::HfenceVvma => "HFENCE.VVMA",
        Instruction::HfenceGvma => "HFENCE.GVMA",
    }
}

impl Display for Fence {
    fn fmt(&self, text: &mut Formatter) -> Result {
        let space = match self.fence {
            Instruction::HfenceGvma => "VMID",
            _ => "ASID",
        };
        write!(text, "{}: ", name(self.fence))?;
        match self.address {
            0 => text.write_str("all addresses, ")?,
            register => write!(text, "the address in x{register}, ")?,
        }
        match self.space {
            0 => write!(text, "all {space}s"),
            register => write!(text, "the {space} in x{register}"),
        }
    }
}

impl Display for Load {
    fn fmt(&self, text: &mut Formatter) -> Result {
        write!(
            text,
            "{}: x{} loaded from the address in x{}",
            self.name, self.destination, self.address
        )
    }
}

impl Display for Store {
    fn fmt(&self, text: &mut Formatter) -> Result {
        write!(
            text,
            "{}: x{} stored at the address in x{}",
            self.name, self.source, self.address
        )
    }
}

impl Display for Access {
    fn fmt(&self, text: &mut Formatter) -> Result {
        let (register, source) = (self.register(), self.operand());
        write!(text, "{}: ", self.name())?;
        if self.only_reads() {
            return write!(text, "{register} read to x{}", self.destination);
        }
        match self.operation {
            Operation::Write => write!(text, "{source} written to {register}"),
            Operation::Set => write!(text, "the bits of {source} set in {register}"),
            Operation::Clear => write!(text, "the bits of {source} cleared in {register}"),
        }?;
        write!(text, ", the old value to x{}", self.destination)
    }
}

impl Access {
    fn name(&self) -> &'static str {
        match (self.operation, self.immediate) {
            (Operation::Write, false) => "CSRRW",
            (Operation::Write, true) => "CSRRWI",
            (Operation::Set, false) => "CSRRS",
            (Operation::Set, true) => "CSRRSI",
            (Operation::Clear, false) => "CSRRC",
            (Operation::Clear, true) => "CSRRCI",
        }
    }

    /// S: the number itself, or the register that has it.
    fn operand(&self) -> String {
        if self.immediate {
            format!("{:x}", self.source)
        } else {
            format!("x{}", self.source)
        }
    }

    /// The register that is accessed.
    fn register(&self) -> String {
        match find(self.number) {
            Some(row) => format!("{} ({:x})", row.name, row.number),
            None => format!("register {:x}", self.number),
        }
    }
}

/// What the word of an event is, and whether it fits. Its text is what stands behind `# word: `.
#[derive(Clone, Copy, PartialEq, Eq, Debug)]
pub struct Explanation {
    /// The word.
    pub word: u32,
    /// The instruction that it is.
    pub decoded: Decoded,
    /// Whether it fits the event.
    pub fits: bool,
}

impl Explanation {
    /// Of the word of a line, if it is an event that has one.
    pub fn of(line: &Line) -> Option<Explanation> {
        let word = line.word()?;
        let decoded = decode(word);
        let fits = decoded.fits(line);
        Some(Explanation {
            word,
            decoded,
            fits,
        })
    }
}

impl Display for Explanation {
    fn fmt(&self, text: &mut Formatter) -> Result {
        let relation = if self.fits {
            "is"
        } else {
            "does not fit: it is"
        };
        write!(text, "{:x} {relation} {}", self.word, self.decoded)
    }
}

#[cfg(test)]
#[path = "word_tests.rs"]
mod tests;

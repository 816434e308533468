//! The word of an instruction: which instruction it is, and whether it fits its event. The model decodes no word: this explains
//! scripts and decides no answer.

use crate::registers;
use crate::script::{Action, Event, GuestAccess, Instruction, Transfer};
use std::fmt;

/// What the word of an event is, if the event has one.
pub fn described(event: &Event) -> Option<String> {
    let (Event::Register(.., word) | Event::Perform(_, word) | Event::Guest(_, word)) = *event
    else {
        return None;
    };
    let decoded = Decoded::of(word);
    let is = if decoded.fits(event) {
        "is"
    } else {
        "does not fit: it is"
    };
    Some(format!("{word:x} {is} {decoded}"))
}

/// The instruction that a word is.
enum Decoded {
    Ecall,
    Ebreak,
    /// MRET, SRET or WFI.
    Plain(Instruction),
    /// A fence, with the general registers that hold its address and its ASID or VMID; with x0 it is for all.
    Fence(Instruction, u32, u32),
    Access(Access),
    Guest(Guest),
    OtherSystem,
    NoSystem,
}

/// An instruction that accesses a control register.
struct Access {
    change: Change,
    source: Source,
    /// The control register.
    number: u64,
    /// The general register that takes the old value.
    target: u32,
}

/// What is done to the control register. With x0 or the number 0 a set and a clear are reads.
#[derive(Clone, Copy)]
enum Change {
    Write,
    Set,
    Clear,
}

/// What is written, set or cleared.
#[derive(Clone, Copy)]
enum Source {
    /// What a general register holds.
    Register(u32),
    /// The number itself.
    Number(u32),
}

/// A hypervisor load or store.
struct Guest {
    operation: Operation,
    /// The width's place among 1, 2, 4 and 8.
    size: u32,
    /// The general register that holds the address.
    address: u32,
    /// The general register that is loaded or stored.
    data: u32,
}

/// What a hypervisor load or store does.
#[derive(Clone, Copy, PartialEq, Eq)]
enum Operation {
    Load,
    LoadUnsigned,
    LoadX,
    Store,
}

/// The bits from high to low.
fn bits(word: u32, high: u32, low: u32) -> u32 {
    word << (31 - high) >> (31 - high + low)
}

impl Decoded {
    fn of(word: u32) -> Self {
        match (bits(word, 6, 0), bits(word, 13, 12)) {
            (0x73, 0) => Decoded::without_register(word),
            (0x73, 1) => Decoded::Access(Access::of(word, Change::Write)),
            (0x73, 2) => Decoded::Access(Access::of(word, Change::Set)),
            (0x73, _) => Decoded::Access(Access::of(word, Change::Clear)),
            _ => Decoded::NoSystem,
        }
    }

    /// A SYSTEM instruction that accesses no control register.
    fn without_register(word: u32) -> Self {
        let fence = |one| Decoded::Fence(one, bits(word, 19, 15), bits(word, 24, 20));
        match (word, bits(word, 31, 25), bits(word, 14, 7)) {
            (0x0000_0073, ..) => Decoded::Ecall,
            (0x0010_0073, ..) => Decoded::Ebreak,
            (0x3020_0073, ..) => Decoded::Plain(Instruction::Mret),
            (0x1020_0073, ..) => Decoded::Plain(Instruction::Sret),
            (0x1050_0073, ..) => Decoded::Plain(Instruction::Wfi),
            (_, 0x09, 0) => fence(Instruction::SfenceVma),
            (_, 0x11, 0) => fence(Instruction::HfenceVvma),
            (_, 0x31, 0) => fence(Instruction::HfenceGvma),
            _ => Guest::of(word).map_or(Decoded::OtherSystem, Decoded::Guest),
        }
    }

    /// Whether the event can be this instruction.
    fn fits(&self, event: &Event) -> bool {
        match (self, event) {
            (Decoded::Plain(one) | Decoded::Fence(one, ..), Event::Perform(other, _)) => {
                one == other
            }
            (Decoded::Access(access), Event::Register(number, action, _)) => {
                access.number == *number && access.does(*action)
            }
            (Decoded::Guest(guest), Event::Guest(access, _)) => guest.does(access),
            _ => false,
        }
    }
}

impl Access {
    fn of(word: u32, change: Change) -> Self {
        let source = bits(word, 19, 15);
        Access {
            change,
            source: match bits(word, 14, 14) {
                0 => Source::Register(source),
                _ => Source::Number(source),
            },
            number: bits(word, 31, 20).into(),
            target: bits(word, 11, 7),
        }
    }

    /// Whether the action can be this instruction's.
    fn does(&self, action: Action) -> bool {
        use Change::{Clear, Set, Write};
        let reads = self.source.is_zero();
        match (self.change, action) {
            (Write, Action::Write(value)) => self.source.gives(value),
            (Set, Action::Set(value, true)) | (Clear, Action::Clear(value, true)) => {
                !reads && self.source.gives(value)
            }
            (Set | Clear, Action::Read)
            | (Set, Action::Set(_, false))
            | (Clear, Action::Clear(_, false)) => reads,
            _ => false,
        }
    }

    fn name(&self) -> &'static str {
        match (self.change, self.source) {
            (Change::Write, Source::Register(_)) => "CSRRW",
            (Change::Write, Source::Number(_)) => "CSRRWI",
            (Change::Set, Source::Register(_)) => "CSRRS",
            (Change::Set, Source::Number(_)) => "CSRRSI",
            (Change::Clear, Source::Register(_)) => "CSRRC",
            (Change::Clear, Source::Number(_)) => "CSRRCI",
        }
    }
}

impl Guest {
    /// None where the word is no hypervisor load or store.
    fn of(word: u32) -> Option<Self> {
        let (size, target) = (bits(word, 27, 26), bits(word, 11, 7));
        let operation = match (bits(word, 25, 25), bits(word, 24, 20), size) {
            (0, 0, _) => Operation::Load,
            (0, 1, 0..=2) => Operation::LoadUnsigned,
            (0, 3, 1..=2) => Operation::LoadX,
            (1, ..) if target == 0 => Operation::Store,
            _ => return None,
        };
        let guest = Guest {
            operation,
            size,
            address: bits(word, 19, 15),
            data: match operation {
                Operation::Store => bits(word, 24, 20),
                _ => target,
            },
        };
        (bits(word, 31, 28) == 6 && bits(word, 14, 12) == 4).then_some(guest)
    }

    /// Whether the access can be this instruction's.
    fn does(&self, access: &GuestAccess) -> bool {
        let holds = |register, value| Source::Register(register).gives(value);
        let transfers = match (self.operation, access.transfer) {
            (Operation::Load, Transfer::Load { signed }) => signed || access.width == 8,
            (Operation::LoadUnsigned, Transfer::Load { signed }) => !signed,
            (Operation::LoadX, Transfer::LoadX) => true,
            (Operation::Store, Transfer::Store { value }) => holds(self.data, value),
            _ => false,
        };
        transfers && access.width == 1 << self.size && holds(self.address, access.address)
    }
}

impl Source {
    /// x0, or the number 0.
    fn is_zero(self) -> bool {
        matches!(self, Source::Register(0) | Source::Number(0))
    }

    /// Whether it can be this value.
    fn gives(self, value: u64) -> bool {
        match self {
            Source::Register(register) => register != 0 || value == 0,
            Source::Number(number) => value == number.into(),
        }
    }
}

impl fmt::Display for Decoded {
    fn fmt(&self, text: &mut fmt::Formatter<'_>) -> fmt::Result {
        match self {
            Decoded::Ecall => text.write_str("ECALL"),
            Decoded::Ebreak => text.write_str("EBREAK"),
            Decoded::Plain(instruction) => text.write_str(instruction.name()),
            Decoded::Fence(instruction, address, space) => {
                let address = fenced(*address, "address", "addresses");
                let space = match instruction {
                    Instruction::HfenceGvma => fenced(*space, "VMID", "VMIDs"),
                    _ => fenced(*space, "ASID", "ASIDs"),
                };
                write!(text, "{}: {address}, {space}", instruction.name())
            }
            Decoded::Access(access) => write!(text, "{access}"),
            Decoded::Guest(guest) => write!(text, "{guest}"),
            Decoded::OtherSystem => {
                text.write_str("a SYSTEM instruction that the model has no event for")
            }
            Decoded::NoSystem => text.write_str("no SYSTEM instruction"),
        }
    }
}

/// What a fence is for, by the general register that holds it.
fn fenced(register: u32, one: &str, all: &str) -> String {
    match register {
        0 => format!("all {all}"),
        _ => format!("the {one} in x{register}"),
    }
}

impl fmt::Display for Access {
    fn fmt(&self, text: &mut fmt::Formatter<'_>) -> fmt::Result {
        let (name, source, target) = (self.name(), self.source, self.target);
        let register = match registers::name(self.number) {
            Some(_) => registers::title(self.number),
            None => format!("register {:x}", self.number),
        };
        let done = match self.change {
            Change::Write => format!("{source} written to"),
            _ if source.is_zero() => return write!(text, "{name}: {register} read to x{target}"),
            Change::Set => format!("the bits of {source} set in"),
            Change::Clear => format!("the bits of {source} cleared in"),
        };
        write!(
            text,
            "{name}: {done} {register}, the old value to x{target}"
        )
    }
}

impl fmt::Display for Guest {
    fn fmt(&self, text: &mut fmt::Formatter<'_>) -> fmt::Result {
        let (name, ending) = match self.operation {
            Operation::Load => ("HLV", ""),
            Operation::LoadUnsigned => ("HLV", "U"),
            Operation::LoadX => ("HLVX", "U"),
            Operation::Store => ("HSV", ""),
        };
        let width = match self.size {
            0 => "B",
            1 => "H",
            2 => "W",
            _ => "D",
        };
        let done = match self.operation {
            Operation::Store => "stored at",
            _ => "loaded from",
        };
        let (data, address) = (self.data, self.address);
        write!(
            text,
            "{name}.{width}{ending}: x{data} {done} the address in x{address}"
        )
    }
}

impl fmt::Display for Source {
    fn fmt(&self, text: &mut fmt::Formatter<'_>) -> fmt::Result {
        match self {
            Source::Register(register) => write!(text, "x{register}"),
            Source::Number(number) => write!(text, "{number:x}"),
        }
    }
}

#[cfg(test)]
mod tests {
    use super::*;
    use crate::script::{parse, Command};

    /// What is said about the word of a line's event.
    fn told(line: &str) -> Option<String> {
        match parse(line.as_bytes()) {
            Ok(Some(Command::Event(event))) => described(&event),
            _ => panic!("{line} is no event"),
        }
    }

    /// That the word, the last of the line, is this instruction, and fits.
    fn fits(line: &str, instruction: &str) {
        let word = line.rsplit(' ').next().unwrap_or_default();
        assert_eq!(told(line), Some(format!("{word} is {instruction}")));
    }

    /// That it is this instruction, or none, and does not fit.
    fn differs(line: &str, instruction: &str) {
        let word = line.rsplit(' ').next().unwrap_or_default();
        let expected = format!("{word} does not fit: it is {instruction}");
        assert_eq!(told(line), Some(expected), "{line}");
    }

    const OTHER: &str = "a SYSTEM instruction that the model has no event for";
    const NONE: &str = "no SYSTEM instruction";

    #[test]
    fn events_without_a_word() {
        for line in [
            "ecall",
            "ebreak",
            "trap 15 0 0 10500073 1",
            "interrupt",
            "show",
            "fetch 0 4",
        ] {
            assert_eq!(told(line), None, "{line}");
        }
    }

    #[test]
    fn words_without_leading_zeros() {
        assert_eq!(
            told("wfi 00000000000000AB").as_deref(),
            Some("ab does not fit: it is no SYSTEM instruction")
        );
    }

    #[test]
    fn words_that_are_no_instruction_of_the_model() {
        // no SYSTEM instruction, by each of bits 6:0
        for word in ["0", "ffffffff", "80000000", "13", "10500033", "fffff072"] {
            differs(&format!("wfi {word}"), NONE);
            differs(&format!("read 105 {word}"), NONE);
        }
        for bit in 0..7 {
            differs(&format!("mret {:x}", 0x3020_0073 ^ 1 << bit), NONE);
        }
        // a SYSTEM instruction: any other bit of MRET, but where that makes a register access
        for bit in (7..12).chain(14..32).filter(|bit| *bit != 29) {
            differs(&format!("mret {:x}", 0x3020_0073 ^ 1 << bit), OTHER);
        }
        // bits 14:12 are 4; the word of a fence with bits 14:7, or with another number in 31:25
        for word in [
            "4073", "120000f3", "12004073", "16000073", "92000073", "80000073",
        ] {
            differs(&format!("sfence.vma {word}"), OTHER);
        }
    }

    #[test]
    fn words_beside_those_of_hypervisor_loads_and_stores() {
        // no HLV.DU, HLVX.BU and HLVX.DU; no other number in bits 24:20
        for word in [
            "6c154573", "60354573", "6c354573", "60254573", "64254573", "64454573", "69f54573",
        ] {
            differs(&format!("hlvx 4 0 {word}"), OTHER);
        }
        // a store has no target; bits 31:28 are 6, and 14:12 are 4
        for word in [
            "62b540f3", "6eb54873", "70054573", "e0054573", "20054573", "40054573", "60050573",
        ] {
            differs(&format!("hsv 8 0 0 {word}"), OTHER);
        }
        differs("hlv 8 1 0 6c054572", NONE);
        differs("hlv 1 1 0 60007573", "CSRRCI: hstatus (600) read to x10");
    }

    /// The hypervisor loads and stores: an event without its word, the word, and the instruction's name.
    const GUEST: [(&str, &str, &str); 13] = [
        ("hlv 1 1 5", "60054573", "HLV.B"),
        ("hlv 2 1 5", "64054573", "HLV.H"),
        ("hlv 4 1 5", "68054573", "HLV.W"),
        ("hlv 8 1 5", "6c054573", "HLV.D"),
        ("hlv 1 0 5", "60154573", "HLV.BU"),
        ("hlv 2 0 5", "64154573", "HLV.HU"),
        ("hlv 4 0 5", "68154573", "HLV.WU"),
        ("hlvx 2 5", "64354573", "HLVX.HU"),
        ("hlvx 4 5", "68354573", "HLVX.WU"),
        ("hsv 1 5 7", "62a54073", "HSV.B"),
        ("hsv 2 5 7", "66a54073", "HSV.H"),
        ("hsv 4 5 7", "6aa54073", "HSV.W"),
        ("hsv 8 5 7", "6ea54073", "HSV.D"),
    ];

    #[test]
    fn hypervisor_loads_and_stores() {
        for (place, (event, word, name)) in GUEST.iter().enumerate() {
            let done = match place {
                0..9 => "loaded from",
                _ => "stored at",
            };
            let instruction = format!("{name}: x10 {done} the address in x10");
            fits(&format!("{event} {word}"), &instruction);
            for (other, (event, ..)) in GUEST.iter().enumerate() {
                if other != place {
                    differs(&format!("{event} {word}"), &instruction);
                }
            }
            for event in ["wfi", "hfence.gvma", "read 600", "hlv 3 1 0", "hlvx 8 0"] {
                differs(&format!("{event} {word}"), &instruction);
            }
        }
        let signs = "HLV.D: x31 loaded from the address in x1";
        fits("hlv 8 0 5 6c00cff3", signs);
    }

    #[test]
    fn general_registers_of_hypervisor_loads_and_stores() {
        let from_x0 = "HLV.D: x0 loaded from the address in x0";
        fits("hlv 8 1 0 6c004073", from_x0);
        differs("hlv 8 1 8 6c004073", from_x0);
        let executes = "HLVX.HU: x1 loaded from the address in x0";
        fits("hlvx 2 0 643040f3", executes);
        differs("hlvx 2 10000000000 643040f3", executes);
        let zero = "HSV.W: x0 stored at the address in x31";
        fits("hsv 4 ffffffffffffffff 0 6a0fc073", zero);
        differs("hsv 4 ffffffffffffffff 100000000 6a0fc073", zero);
        let at_zero = "HSV.B: x31 stored at the address in x0";
        fits("hsv 1 0 ffffffffffffffff 63f04073", at_zero);
        differs("hsv 1 1 ffffffffffffffff 63f04073", at_zero);
    }

    #[test]
    fn returns_wfi_and_calls() {
        let plain = [
            ("mret", "30200073", "MRET"),
            ("sret", "10200073", "SRET"),
            ("wfi", "10500073", "WFI"),
        ];
        for (event, word, name) in plain {
            fits(&format!("{event} {word}"), name);
            for (other, ..) in plain.iter().filter(|(other, ..)| *other != event) {
                differs(&format!("{other} {word}"), name);
            }
            differs(&format!("sfence.vma {word}"), name);
            differs(&format!("{event} 73"), "ECALL");
            differs(&format!("{event} 100073"), "EBREAK");
        }
        differs("read 302 30200073", "MRET");
        differs("write 0 0 73", "ECALL");
        differs("set 1 0 1 100073", "EBREAK");
    }

    #[test]
    fn fences() {
        let all = [
            (
                "sfence.vma",
                "12000073",
                "SFENCE.VMA: all addresses, all ASIDs",
            ),
            (
                "hfence.vvma",
                "22000073",
                "HFENCE.VVMA: all addresses, all ASIDs",
            ),
            (
                "hfence.gvma",
                "62000073",
                "HFENCE.GVMA: all addresses, all VMIDs",
            ),
        ];
        for (event, word, fence) in all {
            fits(&format!("{event} {word}"), fence);
            for (other, ..) in all.iter().filter(|(other, ..)| *other != event) {
                differs(&format!("{other} {word}"), fence);
            }
            differs(&format!("wfi {word}"), fence);
            differs(&format!("read {} {word}", &word[..3]), fence);
        }
        let one = "SFENCE.VMA: the address in x1, all ASIDs";
        fits("sfence.vma 12008073", one);
        let both = "SFENCE.VMA: the address in x31, the ASID in x31";
        fits("sfence.vma 13ff8073", both);
        let space = "HFENCE.VVMA: all addresses, the ASID in x1";
        fits("hfence.vvma 22100073", space);
        let both = "HFENCE.GVMA: the address in x10, the VMID in x11";
        fits("hfence.gvma 62b50073", both);
    }

    #[test]
    fn writes() {
        let from_register = "CSRRW: x10 written to satp (180), the old value to x0";
        fits("write 180 ffffffffffffffff 18051073", from_register);
        fits("write 180 0 18051073", from_register);
        let from_x0 = "CSRRW: x0 written to satp (180), the old value to x1";
        fits("write 180 0 180010f3", from_x0);
        differs("write 180 1 180010f3", from_x0);
        let number = "CSRRWI: 1f written to satp (180), the old value to x15";
        fits("write 180 1f 180fd7f3", number);
        differs("write 180 1e 180fd7f3", number);
        differs("write 180 10000001f 180fd7f3", number);
        let zero = "CSRRWI: 0 written to satp (180), the old value to x0";
        fits("write 180 0 18005073", zero);
        for event in ["read 180", "set 180 0 1", "clear 180 0 0", "wfi"] {
            differs(&format!("{event} 18051073"), from_register);
        }
    }

    #[test]
    fn sets_and_clears() {
        for (event, other, register, number, name, words) in [
            ("set", "clear", "300522f3", "300fe2f3", "CSRRS", "set"),
            ("clear", "set", "300532f3", "300ff2f3", "CSRRC", "cleared"),
        ] {
            let by_register =
                format!("{name}: the bits of x10 {words} in mstatus (300), the old value to x5");
            fits(&format!("{event} 300 0 1 {register}"), &by_register);
            fits(&format!("{event} 300 80000000 1 {register}"), &by_register);
            let by_number =
                format!("{name}I: the bits of 1f {words} in mstatus (300), the old value to x5");
            fits(&format!("{event} 300 1f 1 {number}"), &by_number);
            differs(&format!("{event} 300 f 1 {number}"), &by_number);
            for line in [
                format!("{event} 300 1f 0"),
                format!("{other} 300 1f 1"),
                format!("{other} 300 1f 0"),
                "write 300 1f".to_owned(),
                "read 300".to_owned(),
            ] {
                differs(&format!("{line} {register}"), &by_register);
                differs(&format!("{line} {number}"), &by_number);
            }
        }
    }

    #[test]
    fn reads() {
        for (word, name, event, other) in [
            ("30002573", "CSRRS", "set", "clear"),
            ("30006573", "CSRRSI", "set", "clear"),
            ("30003573", "CSRRC", "clear", "set"),
            ("30007573", "CSRRCI", "clear", "set"),
        ] {
            let read = format!("{name}: mstatus (300) read to x10");
            fits(&format!("read 300 {word}"), &read);
            fits(&format!("{event} 300 ffff 0 {word}"), &read);
            differs(&format!("{event} 300 0 1 {word}"), &read);
            differs(&format!("{other} 300 0 0 {word}"), &read);
            differs(&format!("write 300 0 {word}"), &read);
            differs(&format!("mret {word}"), &read);
        }
    }

    #[test]
    fn registers_by_number() {
        fits("read 0 2073", "CSRRS: register 0 read to x0");
        fits("read fff fff02ff3", "CSRRS: register fff read to x31");
        fits("read c00 c0002573", "CSRRS: register c00 read to x10");
        let hgeip = "CSRRW: x0 written to hgeip (e12), the old value to x0";
        fits("write e12 0 e1201073", hgeip);
        // stvec's word is WFI's but for bit 12
        let stvec = "CSRRW: x0 written to stvec (105), the old value to x0";
        fits("write 105 0 10501073", stvec);
        differs("wfi 10501073", stvec);
        let mstatus = "CSRRS: mstatus (300) read to x10";
        for number in ["301", "200", "100", "1300", "ffffffffffffffff"] {
            differs(&format!("read {number} 30002573"), mstatus);
        }
    }
}

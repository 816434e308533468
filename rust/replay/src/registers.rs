//! The forty-one registers: their names and bits, and their content in words.

use crate::fields::{self, Field};
use crate::names;

/// What a register's content is made of.
enum Shape {
    /// Named fields.
    Fields(&'static [Field]),
    /// A bit for each cause that is handed down.
    Causes,
    /// A bit for each interrupt that is handed down.
    Interrupts(&'static [Field]),
    /// A cause, or an interrupt's number.
    Cause,
    /// One number.
    Number,
}

/// A register.
struct Register {
    number: u64,
    name: &'static str,
    shape: Shape,
    /// The bits that can be other than 0.
    used: u64,
}

const fn with_fields(number: u64, name: &'static str, fields: &'static [Field]) -> Register {
    with_bits(number, name, Shape::Fields(fields), mask(fields))
}

/// Hands interrupts down.
const fn delegates(number: u64, name: &'static str, fields: &'static [Field]) -> Register {
    with_bits(number, name, Shape::Interrupts(fields), mask(fields))
}

/// The bits of fields.
const fn mask(fields: &[Field]) -> u64 {
    let (mut mask, mut place) = (0, 0);
    while place < fields.len() {
        mask |= fields[place].mask();
        place += 1;
    }
    mask
}

const fn with_bits(number: u64, name: &'static str, shape: Shape, used: u64) -> Register {
    Register {
        number,
        name,
        shape,
        used,
    }
}

const fn whole(number: u64, name: &'static str) -> Register {
    with_bits(number, name, Shape::Number, u64::MAX)
}

const fn cause(number: u64, name: &'static str) -> Register {
    with_bits(number, name, Shape::Cause, u64::MAX)
}

/// An address of an instruction.
const fn epc(number: u64, name: &'static str) -> Register {
    with_bits(number, name, Shape::Number, !3)
}

pub const SSTATUS: u64 = 0x100;
pub const SIE: u64 = 0x104;
pub const STVEC: u64 = 0x105;
pub const SCAUSE: u64 = 0x142;
pub const STVAL: u64 = 0x143;
pub const SIP: u64 = 0x144;
pub const SATP: u64 = 0x180;
pub const VSSTATUS: u64 = 0x200;
pub const VSIE: u64 = 0x204;
pub const VSTVEC: u64 = 0x205;
pub const VSCAUSE: u64 = 0x242;
pub const VSIP: u64 = 0x244;
pub const VSATP: u64 = 0x280;
pub const MSTATUS: u64 = 0x300;
pub const MIDELEG: u64 = 0x303;
pub const MIE: u64 = 0x304;
pub const MTVEC: u64 = 0x305;
pub const MCAUSE: u64 = 0x342;
pub const MTVAL: u64 = 0x343;
pub const MIP: u64 = 0x344;
pub const MTINST: u64 = 0x34a;
pub const MTVAL2: u64 = 0x34b;
pub const HSTATUS: u64 = 0x600;
pub const HIDELEG: u64 = 0x603;
pub const HIE: u64 = 0x604;
pub const HTVAL: u64 = 0x643;
pub const HIP: u64 = 0x644;
pub const HVIP: u64 = 0x645;
pub const HTINST: u64 = 0x64a;
pub const HGATP: u64 = 0x680;

/// In rising order of number.
const REGISTERS: [Register; 41] = [
    with_fields(SSTATUS, "sstatus", fields::SSTATUS),
    with_fields(SIE, "sie", fields::S_INTERRUPTS),
    with_fields(STVEC, "stvec", fields::TVEC),
    whole(0x140, "sscratch"),
    epc(0x141, "sepc"),
    cause(SCAUSE, "scause"),
    whole(STVAL, "stval"),
    with_fields(SIP, "sip", fields::SIP),
    with_fields(SATP, "satp", fields::SATP),
    with_fields(VSSTATUS, "vsstatus", fields::SSTATUS),
    with_fields(VSIE, "vsie", fields::S_INTERRUPTS),
    with_fields(VSTVEC, "vstvec", fields::TVEC),
    whole(0x240, "vsscratch"),
    epc(0x241, "vsepc"),
    cause(VSCAUSE, "vscause"),
    whole(0x243, "vstval"),
    with_fields(VSIP, "vsip", fields::VSIP),
    with_fields(VSATP, "vsatp", fields::SATP),
    with_fields(MSTATUS, "mstatus", fields::MSTATUS),
    with_bits(0x302, "medeleg", Shape::Causes, 0xf0_b7ff),
    delegates(MIDELEG, "mideleg", fields::MIDELEG),
    with_fields(MIE, "mie", fields::INTERRUPTS),
    with_fields(MTVEC, "mtvec", fields::TVEC),
    whole(0x340, "mscratch"),
    epc(0x341, "mepc"),
    cause(MCAUSE, "mcause"),
    whole(MTVAL, "mtval"),
    with_fields(MIP, "mip", fields::MIP),
    whole(MTINST, "mtinst"),
    whole(MTVAL2, "mtval2"),
    with_fields(HSTATUS, "hstatus", fields::HSTATUS),
    with_bits(0x602, "hedeleg", Shape::Causes, 0xb1ff),
    delegates(HIDELEG, "hideleg", fields::VS_INTERRUPTS),
    with_fields(HIE, "hie", fields::VS_INTERRUPTS),
    with_bits(0x607, "hgeie", Shape::Number, 0),
    whole(HTVAL, "htval"),
    with_fields(HIP, "hip", fields::HIP),
    with_fields(HVIP, "hvip", fields::VS_INTERRUPTS),
    whole(HTINST, "htinst"),
    with_bits(HGATP, "hgatp", Shape::Fields(fields::HGATP), !(3 << 58 | 3)),
    with_bits(0xe12, "hgeip", Shape::Number, 0),
];

fn find(number: u64) -> Option<&'static Register> {
    REGISTERS.iter().find(|register| register.number == number)
}

/// The registers' numbers and names.
pub fn listed() -> impl Iterator<Item = (u64, &'static str)> {
    REGISTERS
        .iter()
        .map(|register| (register.number, register.name))
}

/// The name of the register with a number.
pub fn name(number: u64) -> Option<&'static str> {
    find(number).map(|register| register.name)
}

/// The register with a number, by name and number.
pub fn title(number: u64) -> String {
    let Some(name) = name(number) else {
        return format!("register {number:x}, which the model does not have,");
    };
    format!("{name} ({number:x})")
}

/// The named fields of a register; none where it is one number.
pub fn fields(number: u64) -> &'static [Field] {
    match find(number).map(|register| &register.shape) {
        Some(Shape::Fields(fields) | Shape::Interrupts(fields)) => fields,
        _ => &[],
    }
}

fn used(number: u64) -> u64 {
    find(number).map_or(0, |register| register.used)
}

/// What a field of a register's content holds; 0 where there is none.
pub fn get(number: u64, name: &str, word: u64) -> u64 {
    let found = fields(number).iter().find(|field| field.name == name);
    found.map_or(0, |field| field.of(word))
}

/// What a register can show of a word.
pub fn visible(number: u64, word: u64) -> u64 {
    word & used(number)
}

/// The lowest field of a register that holds what no write stores: its name, its value and what it may hold.
pub fn stray(number: u64, word: u64) -> Option<(String, u64, String)> {
    let wrong = fields(number)
        .iter()
        .filter(|field| !field.takes(field.of(word)));
    let wrong = wrong.min_by_key(|field| field.low);
    let bits = word & !used(number);
    match wrong {
        Some(field) if bits == 0 || field.low < bits.trailing_zeros() => {
            Some((field.label(), field.of(word), field.choices()))
        }
        _ if bits == 0 => None,
        _ => Some((format!("bit {}", bits.trailing_zeros()), 1, "0".to_owned())),
    }
}

/// A register's content in words; empty where the number says it all.
pub fn decoded(number: u64, word: u64) -> String {
    let mut parts = match find(number).map(|register| &register.shape) {
        Some(Shape::Fields(fields)) => parts(number, fields, word),
        Some(Shape::Causes) => vec![handed("cause", &causes(visible(number, word)))],
        Some(Shape::Interrupts(fields)) => {
            vec![handed("interrupt", &parts(number, fields, word))]
        }
        Some(Shape::Cause) => names::cause_held(word).into_iter().collect(),
        Some(Shape::Number) | None => Vec::new(),
    };
    if let Some((field, value, may)) = stray(number, word) {
        parts.push(format!("but {field} is {value:x}, and may hold {may}"));
    }
    parts.join(", ")
}

/// The causes whose bits are set.
fn causes(word: u64) -> Vec<String> {
    (0..64)
        .filter(|cause| word >> cause & 1 == 1)
        .map(names::titled_cause)
        .collect()
}

/// What a delegation register hands down.
fn handed(kind: &str, names: &[String]) -> String {
    if names.is_empty() {
        return format!("hands no {kind} down");
    }
    format!("hands down {}", names.join(", "))
}

/// The bits that are set by name, and the wider fields with what they hold.
fn parts(number: u64, fields: &[Field], word: u64) -> Vec<String> {
    let mut parts = Vec::new();
    for field in fields {
        let value = field.of(word);
        if field.is_bit() && field.name != "MODE" {
            if value == 1 {
                parts.push(field.name.to_owned());
            }
        } else {
            parts.push(format!("{} {}", field.name, meaning(number, field, value)));
        }
    }
    parts
}

/// How many levels the tables of satp, vsatp or hgatp have with a MODE; there are none with Bare, nor with what MODE can't hold.
pub fn levels(mode: u64) -> Option<u64> {
    (8..=10).contains(&mode).then(|| mode - 5)
}

/// How many low bits of an address stand below its index into a table of a level: the offset in a page, and nine for each level below.
pub fn offset_bits(level: u64) -> u64 {
    12 + 9 * level
}

/// The name of the MODE with which a register's tables have so many levels.
fn mode_name(number: u64, levels: u64) -> String {
    let suffix = if number == HGATP { "x4" } else { "" };
    format!("Sv{}{suffix}", offset_bits(levels))
}

/// A field's value, with what it stands for.
pub fn meaning(number: u64, field: &Field, value: u64) -> String {
    let name = match (field.name, value) {
        ("MODE", 0) if field.is_bit() => "direct",
        ("MODE", 1) if field.is_bit() => {
            "vectored; an interrupt goes to BASE plus 4 times its cause, an exception to BASE"
        }
        ("MODE", 0) => "Bare",
        ("MODE", _) => match levels(value) {
            Some(levels) => &mode_name(number, levels),
            None => return format!("{value:x}"),
        },
        ("MPP", 0) => "U",
        ("MPP", 1) => "S",
        ("MPP", 3) => "M",
        ("UXL" | "SXL" | "VSXL", 2) => "64 bits",
        ("PPN", _) => return format!("{value:x} (address {:x})", value << 12),
        ("BASE", _) => return format!("{:x}", value << field.low),
        _ => return format!("{value:x}"),
    };
    format!("{value:x} ({name})")
}

/// How a register's content changed, field by field.
pub fn changes(number: u64, old: u64, new: u64) -> String {
    let mut changes = Vec::new();
    for field in fields(number) {
        let (was, is) = (field.of(old), field.of(new));
        if was != is {
            let (was, is) = (meaning(number, field, was), meaning(number, field, is));
            changes.push(format!("{} {was} to {is}", field.name));
        }
    }
    match find(number).map(|register| &register.shape) {
        Some(Shape::Causes) => {
            for cause in (0..64).filter(|cause| (old ^ new) >> cause & 1 == 1) {
                let (was, is) = (old >> cause & 1, new >> cause & 1);
                changes.push(format!("{} {was} to {is}", names::titled_cause(cause)));
            }
        }
        Some(Shape::Cause) if old != new => {
            let name = |word| names::cause_held(word).unwrap_or("no cause".to_owned());
            changes.push(format!("{} to {}", name(old), name(new)));
        }
        _ => {}
    }
    changes.join(", ")
}

/// How many bits a mask has, and which, as runs from the highest down: `63:54, 4`.
pub fn bits(mask: u64) -> (u32, String) {
    let mut runs = Vec::new();
    let mut left = mask;
    while left != 0 {
        let high = 63 - left.leading_zeros();
        let length = (left << (63 - high)).leading_ones();
        let low = high + 1 - length;
        runs.push(if low == high {
            format!("{high}")
        } else {
            format!("{high}:{low}")
        });
        left &= !(u64::MAX >> (64 - length) << low);
    }
    (mask.count_ones(), runs.join(", "))
}

#[cfg(test)]
mod tests {
    use super::*;

    #[test]
    fn bits_are_named_in_runs() {
        assert_eq!(bits(0), (0, String::new()));
        assert_eq!(bits(2), (1, "1".to_owned()));
        assert_eq!(bits(1 << 63 | 1), (2, "63, 0".to_owned()));
        assert_eq!(bits(0x6000_0000_0000_0007), (5, "62:61, 2:0".to_owned()));
        assert_eq!(bits(u64::MAX), (64, "63:0".to_owned()));
    }
}

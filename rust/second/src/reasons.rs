//! Reasons in words: why an event was refused, why a translation or a hypervisor load or store ended with a fault, why an access
//! to a register, a return, WFI, a fence or a hypervisor load or store trapped with cause 2 or 22, and why an interrupt was taken
//! or none was due. The rules themselves stand in the other modules; here is only what they are called.

use std::fmt::{Display, Formatter, Result};

use crate::access::LAST_NUMBER;
use crate::hart::{BadHart, Mode};
use crate::image::{BadImage, END_LIMIT, LARGEST, PAGE};
use crate::interrupts::{self, Interrupt, Rule as LevelRule};
use crate::registers::Wrong;
use crate::stepping::BadPlace;
use crate::trap::{BadRequest, Control, Forbidden, Refusal, Target};
use crate::walk::{BadAccess, Part, Rule, Why};

/// A reason. Its text is what stands behind `# why: `.
#[derive(Clone, Copy, PartialEq, Eq, Debug)]
pub enum Reason {
    /// The model said no.
    Refused(Refusal),
    /// A trap with cause 2 or 22.
    Forbidden(Forbidden),
    /// The fault of a translation, or of a hypervisor load or store.
    Fault(Why),
    /// What came of an interrupt.
    Interrupt(interrupts::Why),
}

impl Display for Reason {
    fn fmt(&self, text: &mut Formatter) -> Result {
        match self {
            Reason::Refused(refusal) => refusal.fmt(text),
            Reason::Forbidden(rule) => rule.fmt(text),
            Reason::Fault(why) => why.fmt(text),
            Reason::Interrupt(why) => why.fmt(text),
        }
    }
}

impl Display for Mode {
    fn fmt(&self, text: &mut Formatter) -> Result {
        text.write_str(match self {
            Mode::U => "U",
            Mode::Hs => "HS",
            Mode::M => "M",
            Mode::Vu => "VU",
            Mode::Vs => "VS",
        })
    }
}

// Refusals.

impl Display for Refusal {
    fn fmt(&self, text: &mut Formatter) -> Result {
        match self {
            Refusal::Image(bad) => bad.fmt(text),
            Refusal::Hart(bad) => bad.fmt(text),
            Refusal::Access(bad) => bad.fmt(text),
            Refusal::Request(bad) => bad.fmt(text),
            Refusal::Number(number) => {
                write!(text, "register number {number:x} is over {LAST_NUMBER:x}")
            }
            Refusal::Place(bad) => bad.fmt(text),
        }
    }
}

impl Display for BadHart {
    fn fmt(&self, text: &mut Formatter) -> Result {
        match self {
            BadHart::Mode(v, privilege) => write!(
                text,
                "V {v:x} and privilege {privilege:x} are none of the five modes"
            ),
            BadHart::Register(row, wrong) => {
                write!(text, "{} ({:x}): {wrong}", row.name, row.number)
            }
            BadHart::Pc(pc) => write!(text, "pc {pc:x} is not a multiple of 4"),
            BadHart::MprvOutsideM => {
                text.write_str("mstatus (300): MPRV is 1; outside M it may hold 0")
            }
        }
    }
}

impl Display for Wrong {
    fn fmt(&self, text: &mut Formatter) -> Result {
        match self {
            Wrong::Field(field, holds) => {
                let may_hold = choice(field.allowed);
                write!(text, "{} is {holds:x}; it may hold {may_hold}", field.name)
            }
            Wrong::Bit(position) => write!(text, "bit {position} is 1; it may hold 0"),
            Wrong::ClearBit(position) => write!(text, "bit {position} is 0; it may hold 1"),
        }
    }
}

/// Numbers to choose from: `2`, `0, 1 or 3`, `0, 8, 9 or a`.
fn choice(numbers: &[u64]) -> String {
    let mut words: Vec<String> = numbers.iter().map(|number| format!("{number:x}")).collect();
    let last = words.pop().unwrap_or_default();
    if words.is_empty() {
        last
    } else {
        format!("{} or {last}", words.join(", "))
    }
}

impl Display for BadImage {
    fn fmt(&self, text: &mut Formatter) -> Result {
        match self {
            BadImage::TooLarge(length) => {
                write!(
                    text,
                    "the image has {length:x} bytes; it may have at most {LARGEST:x}"
                )
            }
            BadImage::Base(base) => {
                write!(
                    text,
                    "the image's base {base:x} is not a multiple of {PAGE:x}"
                )
            }
            BadImage::Length(length) => write!(
                text,
                "the image's length {length:x} is not a multiple of {PAGE:x}"
            ),
            BadImage::End(end) => {
                write!(
                    text,
                    "the image ends at {end:x}; it may end at most at {END_LIMIT:x}"
                )
            }
        }
    }
}

impl Display for BadAccess {
    fn fmt(&self, text: &mut Formatter) -> Result {
        match self {
            BadAccess::Width(width) => write!(text, "width {width:x} is none of 1, 2, 4 and 8"),
            BadAccess::FetchWidth(width) => write!(text, "a fetch has width 4, not {width:x}"),
            BadAccess::FetchAddress(address) => write!(
                text,
                "a fetch's address is a multiple of 4; {address:x} is not"
            ),
            BadAccess::HlvxWidth(width) => write!(text, "HLVX has width 2 or 4, not {width:x}"),
        }
    }
}

impl Display for BadRequest {
    fn fmt(&self, text: &mut Formatter) -> Result {
        match self {
            BadRequest::Cause(cause) => write!(text, "the model has no cause {cause:x}"),
            BadRequest::FromElsewhere(cause) => {
                let modes = modes_of_call(*cause);
                write!(text, "cause {cause:x} arises in {modes} alone")
            }
            BadRequest::WithoutV(cause) => write!(text, "cause {cause:x} arises with V=1 alone"),
            BadRequest::Value(cause, value) => {
                write!(text, "the value of cause {cause:x} is 0, not {value:x}")
            }
            BadRequest::SecondValue(cause) => write!(text, "cause {cause:x} has no second value"),
            BadRequest::Word(cause) => write!(text, "cause {cause:x} has no instruction word"),
            BadRequest::FlagSet(cause) => write!(text, "cause {cause:x} has the flag clear"),
            BadRequest::FlagClear(cause) => write!(text, "cause {cause:x} has the flag set"),
            BadRequest::FlagClearWithV(cause) => {
                write!(text, "with V=1 cause {cause:x} has the flag set")
            }
        }
    }
}

impl Display for BadPlace {
    fn fmt(&self, text: &mut Formatter) -> Result {
        match self {
            BadPlace::Base { image, place } => {
                write!(
                    text,
                    "the image's base {image:x} is not {place:x}, the place's"
                )
            }
            BadPlace::Length { image, place } => {
                write!(
                    text,
                    "the image's length {image:x} is not {place:x}, the place's"
                )
            }
            BadPlace::Count { count, limit } => {
                write!(
                    text,
                    "the place lists {count:x} reads; it may list at most {limit:x}"
                )
            }
            BadPlace::Stage(stage) => {
                write!(text, "the place's stage {stage:x} is neither 1 nor 2")
            }
            BadPlace::Level {
                stage,
                level,
                depth,
            } => write!(
                text,
                "level {level:x} of stage {stage:x} is not below its depth {depth:x}"
            ),
        }
    }
}

/// Where an environment call comes from: "8 (U, VU), 9, 10, 11", which are HS, VS and M.
fn modes_of_call(cause: u64) -> &'static str {
    match cause {
        8 => "U and VU",
        9 => "HS",
        10 => "VS",
        _ => "M",
    }
}

// Traps with cause 2 or 22.

impl Display for Forbidden {
    fn fmt(&self, text: &mut Formatter) -> Result {
        match self {
            Forbidden::Unlisted(number) => write!(text, "the model has no register {number:x}"),
            Forbidden::ReadOnly(row) => {
                write!(text, "{} ({:x}) is read-only", row.name, row.number)
            }
            Forbidden::Register(row, mode) => write!(
                text,
                "{} ({:x}) is out of reach in {mode}",
                row.name, row.number
            ),
            Forbidden::Instruction(name, mode) => write!(text, "{name} is out of reach in {mode}"),
            Forbidden::Bit(control) => write!(text, "{} is 1", bit_name(*control)),
            Forbidden::HuClear => text.write_str("hstatus.HU is 0"),
        }
    }
}

/// The register of a bit and its name.
fn bit_name(control: Control) -> &'static str {
    match control {
        Control::Tvm => "mstatus.TVM",
        Control::Tw => "mstatus.TW",
        Control::Tsr => "mstatus.TSR",
        Control::Vtvm => "hstatus.VTVM",
        Control::Vtw => "hstatus.VTW",
        Control::Vtsr => "hstatus.VTSR",
    }
}

// Interrupts.

impl Display for interrupts::Why {
    fn fmt(&self, text: &mut Formatter) -> Result {
        match self {
            interrupts::Why::Taken(due) => {
                write!(text, "interrupt {:x} goes to {due}", due.number)
            }
            interrupts::Why::NonePending => text.write_str("no interrupt is pending"),
            interrupts::Why::NoneEnabled => text.write_str("no pending interrupt is enabled"),
            interrupts::Why::Waits(waiting) => {
                write!(text, "interrupt {:x} would go to {waiting}", waiting.number)
            }
        }
    }
}

impl Display for Target {
    fn fmt(&self, text: &mut Formatter) -> Result {
        text.write_str(match self {
            Target::M => "M",
            Target::Hs => "HS",
            Target::Vs => "VS",
        })
    }
}

/// The level, by which bit, and what the level's rule says.
impl Display for Interrupt {
    fn fmt(&self, text: &mut Formatter) -> Result {
        let level = self.level;
        let (delegation, is) = match level {
            Target::M => ("mideleg", 0),
            Target::Hs => ("hideleg", 0),
            Target::Vs => ("hideleg", 1),
        };
        write!(
            text,
            "{level}, bit {} of {delegation} is {is}; ",
            self.number
        )?;
        match (self.rule, level) {
            (LevelRule::Always(mode), _) => write!(text, "{mode} is below {level}"),
            (LevelRule::Enable(on), _) => {
                write!(text, "{} is {}", enable_bit(level), u8::from(on))
            }
            (LevelRule::Never(mode), Target::Vs) => write!(text, "{mode} is outside the guest"),
            (LevelRule::Never(mode), _) => write!(text, "{mode} is above {level}"),
        }
    }
}

/// The bit that decides in a level's own mode.
fn enable_bit(level: Target) -> &'static str {
    match level {
        Target::M => "mstatus.MIE",
        Target::Hs => "mstatus.SIE",
        Target::Vs => "vsstatus.SIE",
    }
}

// Faults.

impl Display for Why {
    fn fmt(&self, text: &mut Formatter) -> Result {
        self.write_part(text)?;
        if let Some(level) = self.level {
            write!(text, ", level {level}")?;
        }
        text.write_str(": ")?;
        self.write_rule(text)
    }
}

impl Why {
    fn write_part(&self, text: &mut Formatter) -> Result {
        let guest = self.guest.map_or(0, |guest| guest.0);
        match self.part {
            Part::Access => text.write_str("the access"),
            Part::Satp => text.write_str("first stage (satp)"),
            Part::Vsatp => text.write_str("first stage (vsatp)"),
            Part::HgatpForEntry => write!(text, "second stage for the guest entry at {guest:x}"),
            Part::HgatpForAccess => write!(text, "second stage for the access at {guest:x}"),
        }
    }

    fn write_rule(&self, text: &mut Formatter) -> Result {
        let address = self.address;
        let page = address & !0xfff;
        let words = match self.rule {
            Rule::Misaligned => {
                return write!(text, "{address:x} is not a multiple of {:x}", self.width)
            }
            Rule::HighBits(bits) if self.is_first_stage() => {
                return write!(
                    text,
                    "bits 63:{bits} of {address:x} are not all equal to bit {}",
                    bits - 1
                )
            }
            Rule::HighBits(bits) => {
                return write!(text, "bits 63:{bits} of {address:x} are not all 0")
            }
            Rule::EntryOutside => {
                return write!(
                    text,
                    "the entry at {address:x} is outside the image: page {page:x} is missing"
                )
            }
            Rule::AccessOutside => {
                return write!(
                    text,
                    "{address:x} is outside the image: page {page:x} is missing"
                )
            }
            Rule::NotValid => "V is 0",
            Rule::WriteWithoutRead => "W without R",
            Rule::ReservedBits => "a bit of 63:54 is set",
            Rule::PointerWithA => "a pointer with A",
            Rule::PointerWithD => "a pointer with D",
            Rule::PointerWithU => "a pointer with U",
            Rule::PointerAtLevelZero => "a pointer at level 0",
            Rule::LargeLeafLowPpn => "a large leaf whose low PPN is not 0",
            Rule::NotAccessed => "A is 0",
            Rule::NotDirty => "a store needs D",
            Rule::NotUser if self.is_first_stage() => "user mode needs U",
            Rule::NotUser => "the second stage needs U",
            Rule::SupervisorFetch => "supervisor mode may not fetch from a U page",
            Rule::SupervisorNeedsSum if self.part == Part::Vsatp => {
                "supervisor mode needs vsstatus.SUM on a U page"
            }
            Rule::SupervisorNeedsSum => "supervisor mode needs mstatus.SUM on a U page",
            Rule::NotReadable => self.right_of_load(),
            Rule::NotWritable => "a store needs W",
            Rule::NotExecutable => "a fetch needs X",
            Rule::NotExecutableForHlvx => "HLVX needs X",
        };
        text.write_str(words)
    }

    /// "SUM and MXR are vsstatus's when V=1, and mstatus.MXR counts too. Second stage: [...] MXR is mstatus's only. The hart's
    /// reads of guest entries [...] need R, and MXR doesn't help."
    fn right_of_load(&self) -> &'static str {
        match self.part {
            Part::Vsatp => "a load needs R, or X with vsstatus.MXR or mstatus.MXR",
            Part::HgatpForEntry => "a read of a guest entry needs R",
            _ => "a load needs R, or X with mstatus.MXR",
        }
    }

    fn is_first_stage(&self) -> bool {
        matches!(self.part, Part::Satp | Part::Vsatp)
    }
}

#[cfg(test)]
#[path = "reasons_tests.rs"]
mod tests;

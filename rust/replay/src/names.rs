//! The modes, and the names of causes, interrupts and refusals.

use balcumentri::Hart;
use std::fmt;

/// The five modes.
#[derive(Clone, Copy, PartialEq, Eq)]
pub enum Mode {
    U,
    Hs,
    M,
    Vu,
    Vs,
}

impl Mode {
    /// The mode that V and a privilege make.
    pub fn of(v: u64, privilege: u64) -> Option<Self> {
        match (v, privilege) {
            (0, 0) => Some(Mode::U),
            (0, 1) => Some(Mode::Hs),
            (0, 3) => Some(Mode::M),
            (1, 0) => Some(Mode::Vu),
            (1, 1) => Some(Mode::Vs),
            _ => None,
        }
    }

    /// The mode of a hart.
    pub fn of_hart(hart: &Hart) -> Option<Self> {
        Mode::of(hart.v(), hart.privilege())
    }

    /// Whether V is 1.
    pub fn is_guest(self) -> bool {
        matches!(self, Mode::Vu | Mode::Vs)
    }

    /// Whether the privilege is U's.
    pub fn is_user(self) -> bool {
        matches!(self, Mode::U | Mode::Vu)
    }
}

impl fmt::Display for Mode {
    fn fmt(&self, text: &mut fmt::Formatter<'_>) -> fmt::Result {
        text.write_str(match self {
            Mode::U => "U",
            Mode::Hs => "HS",
            Mode::M => "M",
            Mode::Vu => "VU",
            Mode::Vs => "VS",
        })
    }
}

/// Where a hart is: its mode and pc.
pub fn place(hart: &Hart) -> String {
    match Mode::of_hart(hart) {
        Some(mode) => format!("{mode} at {:x}", hart.pc()),
        None => format!("no mode at {:x}", hart.pc()),
    }
}

/// The name of the cause with a number.
pub fn cause(number: u64) -> Option<&'static str> {
    Some(match number {
        0 => "instruction address misaligned",
        1 => "instruction access fault",
        2 => "illegal instruction",
        3 => "breakpoint",
        4 => "load address misaligned",
        5 => "load access fault",
        6 => "store address misaligned",
        7 => "store access fault",
        8 => "environment call from U or VU",
        9 => "environment call from HS",
        10 => "environment call from VS",
        11 => "environment call from M",
        12 => "instruction page fault",
        13 => "load page fault",
        15 => "store page fault",
        20 => "instruction guest-page fault",
        21 => "load guest-page fault",
        22 => "virtual instruction",
        23 => "store guest-page fault",
        _ => return None,
    })
}

/// The cause with a number, by name and number.
pub fn titled_cause(number: u64) -> String {
    format!("{} ({number:x})", cause(number).unwrap_or("no cause"))
}

/// Whose and of which kind the interrupt with a number is.
fn interrupt(number: u64) -> Option<&'static str> {
    Some(match number {
        1 => "supervisor software",
        2 => "VS software",
        3 => "machine software",
        5 => "supervisor timer",
        6 => "VS timer",
        7 => "machine timer",
        9 => "supervisor external",
        10 => "VS external",
        11 => "machine external",
        _ => return None,
    })
}

/// The interrupt with a number, by name and number.
pub fn titled_interrupt(number: u64) -> String {
    let name = interrupt(number).unwrap_or("no");
    format!("{name} interrupt ({number:x})")
}

/// Interrupts by name and number, without the word itself.
pub fn interrupts(numbers: &[u64]) -> String {
    let titles: Vec<String> = numbers
        .iter()
        .map(|number| titled_interrupt(*number).replace(" interrupt", ""))
        .collect();
    titles.join(", ")
}

/// The bit of a cause register that says that the rest is an interrupt's number.
pub const INTERRUPT: u64 = 1 << 63;

/// What a cause register holds, by name.
pub fn cause_held(word: u64) -> Option<String> {
    if word & INTERRUPT == 0 {
        return cause(word).map(str::to_owned);
    }
    interrupt(word & !INTERRUPT).map(|name| format!("{name} interrupt"))
}

/// What a refusal's number says.
pub fn refusal(number: u64) -> &'static str {
    match number {
        1 => "the model takes no such image",
        2 => "no hart can be in this state",
        3 => "no access has this width, or a fetch this address",
        4 => "no such trap can arise",
        5 => "no register number is that large",
        _ => "no refusal",
    }
}

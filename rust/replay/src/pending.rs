//! The pending interrupts: which of them are enabled, where each would go, and what lets it through or makes it wait. It explains
//! answers and decides none.

use crate::names::Mode;
use crate::registers::{get, HIDELEG, MIDELEG, MIE, MIP, MSTATUS, VSSTATUS};
use balcumentri::Hart;
use std::fmt;

/// The interrupts in the order in which those of one level are taken.
pub const ORDER: [u64; 9] = [11, 3, 7, 9, 1, 5, 10, 2, 6];

/// The levels in the order in which they are served.
const LEVELS: [Mode; 3] = [Mode::M, Mode::Hs, Mode::Vs];

/// Whether a register has an interrupt's bit.
fn has(hart: &Hart, register: u64, number: u64) -> bool {
    hart.register(register).unwrap_or(0) >> number & 1 == 1
}

/// The pending interrupts, rising: those that are enabled, and the others.
pub fn numbers(hart: &Hart) -> (Vec<u64>, Vec<u64>) {
    let pending = (0..64).filter(|number| has(hart, MIP, *number));
    pending.partition(|number| has(hart, MIE, *number))
}

/// An interrupt on its way, by where it would go and whether it may.
pub struct Way {
    pub number: u64,
    pub level: Mode,
    /// What lets it through, or what makes it wait.
    pub gate: Result<String, String>,
}

impl Way {
    /// None where the hart is in no mode.
    pub fn new(hart: &Hart, number: u64) -> Option<Self> {
        let level = match () {
            () if !has(hart, MIDELEG, number) => Mode::M,
            () if !has(hart, HIDELEG, number) => Mode::Hs,
            () => Mode::Vs,
        };
        Some(Way {
            number,
            level,
            gate: gate(hart, Mode::of_hart(hart)?, level),
        })
    }
}

/// The level, and the bit that makes it so.
impl fmt::Display for Way {
    fn fmt(&self, text: &mut fmt::Formatter<'_>) -> fmt::Result {
        let (level, bit) = (self.level, self.number);
        let (register, value) = match level {
            Mode::M => ("mideleg", 0),
            Mode::Hs => ("hideleg", 0),
            _ => ("hideleg", 1),
        };
        write!(text, "{level}, bit {bit} of {register} is {value}")
    }
}

/// What lets an interrupt of a level through in a mode, or what makes it wait.
fn gate(hart: &Hart, mode: Mode, level: Mode) -> Result<String, String> {
    match (level, mode) {
        (Mode::M, Mode::M) => switch(hart, MSTATUS, "mstatus", "MIE"),
        (Mode::Hs, Mode::Hs) => switch(hart, MSTATUS, "mstatus", "SIE"),
        (Mode::Vs, Mode::Vs) => switch(hart, VSSTATUS, "vsstatus", "SIE"),
        (Mode::Hs, Mode::M) => Err("M is above HS".to_owned()),
        (Mode::Vs, Mode::U | Mode::Hs | Mode::M) => Err(format!("{mode} is outside the guest")),
        _ => Ok(format!("{mode} is below {level}")),
    }
}

/// What a bit that lets interrupts through says.
fn switch(hart: &Hart, register: u64, name: &str, field: &str) -> Result<String, String> {
    match get(register, field, hart.register(register).unwrap_or(0)) {
        1 => Ok(format!("{name}.{field} is 1")),
        _ => Err(format!("{name}.{field} is 0")),
    }
}

/// The pending and enabled interrupts, in the order in which they are taken: by level, then by number.
pub fn asking(hart: &Hart) -> Vec<Way> {
    let (enabled, _) = numbers(hart);
    let ordered = ORDER.iter().filter(|number| enabled.contains(number));
    let ways = ordered.filter_map(|number| Way::new(hart, *number));
    let mut ways: Vec<Way> = ways.collect();
    ways.sort_by_key(|way| LEVELS.iter().position(|level| *level == way.level));
    ways
}
